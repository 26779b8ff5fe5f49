@nr = global i8 0
@fd = global i8 0
define i32 @take() {
  %n = load i8, ptr @nr
  %m = add i8 %n, 1
  store i8 %m, ptr @nr
  %v = load i8, ptr @fd
  %c = icmp eq i8 %v, 0
  br i1 %c, label %ok, label %bad
ok:
  store i8 1, ptr @fd
  ret i32 0
bad:
  ret i32 -1
}
