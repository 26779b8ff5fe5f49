@a = global i8 0
@b = global i8 0
define void @swap(i1 %c) {
  %x = load i8, ptr @a
  %y = load i8, ptr @b
  br i1 %c, label %t, label %j
t:
  br label %j
j:
  %p = phi i8 [ %y, %t ], [ %x, %0 ]
  %q = phi i8 [ %x, %t ], [ %y, %0 ]
  store i8 %p, ptr @a
  store i8 %q, ptr @b
  ret void
}
