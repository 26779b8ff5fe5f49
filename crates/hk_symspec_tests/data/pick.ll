@a = global i8 0
@b = global i8 0
define void @pick(i1 noundef zeroext %c) {
  br i1 %c, label %t, label %j
t:
  store i8 1, ptr @a
  br label %j
j:
  %v = load i8, ptr @a
  store i8 %v, ptr @b
  ret void
}
