%struct.proc = type { i32, [4 x i32] }
@current = global i32 0, align 4
@procs = global [4 x %struct.proc] zeroinitializer, align 16
@file_refs = global [4 x i32] zeroinitializer, align 16
define i32 @sys_dup(i32 %0, i32 %1) {
  %3 = load i32, ptr @current, align 4
  %4 = icmp ule i32 %0, 4
  %5 = icmp ult i32 %1, 4
  %6 = and i1 %4, %5
  br i1 %6, label %7, label %27
7:
  %8 = zext i32 %3 to i64
  %9 = zext nneg i32 %0 to i64
  %10 = getelementptr inbounds [4 x %struct.proc], ptr @procs, i64 0, i64 %8, i32 1, i64 %9
  %11 = load i32, ptr %10, align 4
  %12 = add i32 %11, -1
  %13 = icmp ult i32 %12, 4
  br i1 %13, label %14, label %27
14:
  %15 = zext nneg i32 %1 to i64
  %16 = getelementptr inbounds [4 x %struct.proc], ptr @procs, i64 0, i64 %8, i32 1, i64 %15
  %17 = load i32, ptr %16, align 4
  %18 = icmp eq i32 %17, 0
  br i1 %18, label %19, label %27
19:
  store i32 %11, ptr %16, align 4
  %20 = getelementptr inbounds [4 x %struct.proc], ptr @procs, i64 0, i64 %8
  %21 = load i32, ptr %20, align 4
  %22 = add i32 %21, 1
  store i32 %22, ptr %20, align 4
  %23 = zext nneg i32 %12 to i64
  %24 = getelementptr inbounds [4 x i32], ptr @file_refs, i64 0, i64 %23
  %25 = load i32, ptr %24, align 4
  %26 = add i32 %25, 1
  store i32 %26, ptr %24, align 4
  br label %27
27:
  %28 = phi i32 [ 0, %19 ], [ -9, %14 ], [ -9, %7 ], [ -9, %2 ]
  ret i32 %28
}
