define i8 @div(i8 %x, i8 %y) {
  %z = icmp eq i8 %y, 0
  br i1 %z, label %bad, label %ok
ok:
  %q = sdiv i8 %x, %y
  ret i8 %q
bad:
  ret i8 0
}
