@fd = global [2 x i8] zeroinitializer
@refs = global [2 x i8] zeroinitializer
define i8 @open(i8 %d, i8 %f) {
  %1 = icmp ult i8 %d, 2
  %2 = icmp ult i8 %f, 2
  %3 = and i1 %1, %2
  br i1 %3, label %go, label %bad
go:
  %i = zext i8 %d to i64
  %p = getelementptr inbounds [2 x i8], ptr @fd, i64 0, i64 %i
  %v = load i8, ptr %p
  %z = icmp eq i8 %v, 0
  br i1 %z, label %set, label %bad
set:
  %w = add i8 %f, 1
  store i8 %w, ptr %p
  %j = zext i8 %f to i64
  %q = getelementptr inbounds [2 x i8], ptr @refs, i64 0, i64 %j
  %r = load i8, ptr %q
  %s = add i8 %r, 1
  store i8 %s, ptr %q
  ret i8 0
bad:
  ret i8 1
}
