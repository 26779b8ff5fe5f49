define i64 @mul(i64 %x, i64 %y) {
  %1 = add i64 %y, 1
  %2 = mul i64 %x, %1
  ret i64 %2
}
