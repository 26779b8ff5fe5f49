@a = global [4 x i32] zeroinitializer, align 4
@b = global [2 x { i8, i16 }] zeroinitializer, align 2

define i8 @cut(i16 %x) {
  %y = trunc nuw i16 %x to i8
  ret i8 %y
}

define i8 @cut_signed(i16 %x) {
  %y = trunc nsw i16 %x to i8
  ret i8 %y
}

define i63 @cut_both(i64 %x) {
  %y = trunc nuw nsw i64 %x to i63
  ret i63 %y
}

define i1 @cut_bit(i8 %x) {
  %y = trunc nsw i8 %x to i1
  ret i1 %y
}

define i1 @below(i8 %x, i8 %y) {
  %c = icmp samesign ult i8 %x, %y
  ret i1 %c
}

define i1 @below_wide(i64 %x, i64 %y) {
  %c = icmp samesign slt i64 %x, %y
  ret i1 %c
}

define i1 @below_bit(i1 %x, i1 %y) {
  %c = icmp samesign uge i1 %x, %y
  ret i1 %c
}

define i8 @chosen(i8 %x, i8 %y) {
  %c = icmp samesign ne i8 %x, %y
  %p = select i1 %c, i8 %x, i8 %y
  ret i8 %p
}

define i32 @forwards(i8 %k) {
  %p = getelementptr inbounds nuw [4 x i32], ptr @a, i64 0, i8 %k
  %v = load i32, ptr %p, align 4
  ret i32 %v
}

define i32 @onwards(i8 %k) {
  %p = getelementptr inbounds i32, ptr @a, i64 2
  %q = getelementptr inbounds nuw i32, ptr %p, i8 %k
  %v = load i32, ptr %q, align 4
  ret i32 %v
}

define i16 @member(i1 %k) {
  %p = getelementptr inbounds nuw [2 x { i8, i16 }], ptr @b, i64 0, i1 %k, i32 1
  %v = load i16, ptr %p, align 2
  ret i16 %v
}

define void @put(i8 %k, i32 %v) {
  %p = getelementptr inbounds nuw i32, ptr getelementptr inbounds nuw (i32, ptr @a, i64 1), i8 %k
  store i32 %v, ptr %p, align 4
  ret void
}

define i32 @nowhere(i64 %k) {
  %p = getelementptr inbounds nuw [0 x i32], ptr @a, i64 %k
  %v = load i32, ptr %p, align 4
  ret i32 %v
}
