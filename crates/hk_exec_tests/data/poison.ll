@a = global [4 x i32] zeroinitializer, align 4
@b = global { i8, i16, i32 } zeroinitializer, align 4
@c = constant [4 x i8] c"\01\02\03\FF"
@d = global i64 0, align 8
declare i32 @llvm.abs.i32(i32, i1)
declare i32 @llvm.umin.i32(i32, i32)
declare i16 @llvm.smax.i16(i16, i16)
declare { i8, i1 } @llvm.ssub.with.overflow.i8(i8, i8)
declare void @llvm.assume(i1)

define i8 @arms(i8 %x, i1 %c) {
  %p = add nsw i8 %x, 100
  %s = select i1 %c, i8 %p, i8 7
  ret i8 %s
}

define i32 @flags(i32 %x, i32 %y) {
  %p = shl nuw i32 %x, 3
  %q = lshr exact i32 %p, 2
  %r = sub nuw i32 %q, %y
  %s = or disjoint i32 %r, 4
  %t = mul nsw i32 %s, 3
  ret i32 %t
}

define i8 @halves(i8 %x, i8 %y) {
  %q = sdiv exact i8 %x, %y
  %r = srem i8 %q, 7
  %s = ashr i8 %r, %y
  ret i8 %s
}

define i1 @frozen(i8 %x) {
  %p = add nuw i8 %x, 1
  %f = freeze i8 %x
  %c = icmp eq i8 %f, %x
  br i1 %c, label %one, label %two
one:
  %d = icmp ult i8 %p, 200
  ret i1 %d
two:
  ret i1 false
}

define i32 @through(i8 %k, i32 %x, i64 %i) {
  %j = and i64 %i, 7
  switch i8 %k, label %none [
    i8 0, label %first
    i8 1, label %second
    i8 2, label %third
  ]
first:
  %p = getelementptr inbounds [4 x i32], ptr @a, i64 0, i64 %j
  br label %all
second:
  %q = getelementptr inbounds { i8, i16, i32 }, ptr @b, i64 0, i32 2
  br label %all
third:
  br label %all
none:
  br label %all
all:
  %t = phi ptr [ %p, %first ], [ %q, %second ], [ @d, %third ], [ null, %none ]
  %c = icmp eq ptr %t, null
  br i1 %c, label %out, label %in
in:
  store i32 %x, ptr %t, align 4
  %v = load i32, ptr @a, align 4
  ret i32 %v
out:
  ret i32 -1
}

define i16 @parts(i64 %i, i16 %x) {
  %p = getelementptr inbounds i8, ptr @a, i64 %i
  %v = load i16, ptr %p, align 1
  %q = getelementptr i8, ptr @a, i64 5
  store i16 %x, ptr %q, align 1
  %w = load i16, ptr %p, align 1
  %s = xor i16 %v, %w
  %y = getelementptr inbounds { i8, i16, i32 }, ptr @b, i64 0, i32 1
  store i16 %s, ptr %y, align 2
  ret i16 %w
}

define i8 @letters(i64 %i) {
  %p = getelementptr inbounds [4 x i8], ptr @c, i64 0, i64 %i
  %v = load i8, ptr %p
  ret i8 %v
}

define i64 @whole(i32 %x, i1 %c) {
  br i1 %c, label %t, label %e
t:
  store i32 %x, ptr @d, align 8
  br label %e
e:
  %v = load i64, ptr @d, align 8
  %p = getelementptr inbounds i8, ptr @d, i64 2
  store i16 7, ptr %p, align 2
  %w = load i64, ptr @d, align 8
  %s = sub i64 %v, %w
  ret i64 %s
}

define i32 @slots(i32 %x, i1 %c) {
  %s = alloca i32, align 4
  br i1 %c, label %t, label %e
t:
  store i32 %x, ptr %s, align 4
  br label %e
e:
  %v = load i32, ptr %s, align 4
  %w = call i32 @llvm.abs.i32(i32 %v, i1 true)
  %u = call i32 @llvm.umin.i32(i32 %w, i32 9)
  ret i32 %u
}

define i8 @pairs(i8 %x, i8 %y, i16 %z) {
  %p = call { i8, i1 } @llvm.ssub.with.overflow.i8(i8 %x, i8 %y)
  %n = extractvalue { i8, i1 } %p, 0
  %o = extractvalue { i8, i1 } %p, 1
  %m = call i16 @llvm.smax.i16(i16 %z, i16 -3)
  %l = trunc i16 %m to i8
  %r = select i1 %o, i8 %l, i8 %n
  %g = icmp sgt i16 %z, -100
  call void @llvm.assume(i1 %g)
  ret i8 %r
}

define i1 @beside(i64 %i, i64 %j) {
  %p = getelementptr [4 x i32], ptr @a, i64 0, i64 %i
  %q = getelementptr [4 x i32], ptr @a, i64 0, i64 %j
  %c = icmp ult ptr %p, %q
  ret i1 %c
}

define void @constant(i1 %c) {
  br i1 %c, label %t, label %e
t:
  store i8 1, ptr @c
  br label %e
e:
  ret void
}

define i8 @never(i8 %x) {
  %c = icmp ult i8 %x, 3
  br i1 %c, label %t, label %e
t:
  %q = udiv i8 9, %x
  ret i8 %q
e:
  unreachable
}
