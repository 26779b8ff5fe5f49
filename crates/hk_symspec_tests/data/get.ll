@cur = global i8 0
@tab = global [64 x i8] zeroinitializer
define i8 @get() {
  %c = load i8, ptr @cur
  %i = zext i8 %c to i64
  %p = getelementptr inbounds [64 x i8], ptr @tab, i64 0, i64 %i
  %v = load i8, ptr %p
  %s = add nuw i8 %v, 50
  ret i8 %s
}
