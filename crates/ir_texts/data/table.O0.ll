; ModuleID = 'table.c'
source_filename = "table.c"
target datalayout = "e-m:e-p270:32:32-p271:32:32-p272:64:64-i64:64-f80:128-n8:16:32:64-S128"
target triple = "x86_64-pc-linux-gnu"

%struct.proc = type { i32, [4 x i32] }

@current = dso_local global i32 0, align 4
@procs = dso_local global [4 x %struct.proc] zeroinitializer, align 16
@names = internal constant [2 x [4 x i8]] [[4 x i8] c"ab\00\00", [4 x i8] c"c\00\00\00"], align 1

; Function Attrs: noinline nounwind optnone uwtable
define dso_local i32 @set_file(i32 noundef %0, i32 noundef %1) #0 {
  %3 = alloca i32, align 4
  %4 = alloca i32, align 4
  %5 = alloca i32, align 4
  store i32 %0, ptr %4, align 4
  store i32 %1, ptr %5, align 4
  %6 = load i32, ptr %4, align 4
  %7 = icmp uge i32 %6, 4
  br i1 %7, label %11, label %8

8:                                                ; preds = %2
  %9 = load i32, ptr @current, align 4
  %10 = icmp uge i32 %9, 4
  br i1 %10, label %11, label %12

11:                                               ; preds = %8, %2
  store i32 -9, ptr %3, align 4
  br label %39

12:                                               ; preds = %8
  %13 = load i32, ptr @current, align 4
  %14 = zext i32 %13 to i64
  %15 = getelementptr inbounds [4 x %struct.proc], ptr @procs, i64 0, i64 %14
  %16 = getelementptr inbounds %struct.proc, ptr %15, i32 0, i32 1
  %17 = load i32, ptr %4, align 4
  %18 = zext i32 %17 to i64
  %19 = getelementptr inbounds [4 x i32], ptr %16, i64 0, i64 %18
  %20 = load i32, ptr %19, align 4
  %21 = icmp ne i32 %20, 0
  br i1 %21, label %22, label %23

22:                                               ; preds = %12
  store i32 -17, ptr %3, align 4
  br label %39

23:                                               ; preds = %12
  %24 = load i32, ptr %5, align 4
  %25 = load i32, ptr @current, align 4
  %26 = zext i32 %25 to i64
  %27 = getelementptr inbounds [4 x %struct.proc], ptr @procs, i64 0, i64 %26
  %28 = getelementptr inbounds %struct.proc, ptr %27, i32 0, i32 1
  %29 = load i32, ptr %4, align 4
  %30 = zext i32 %29 to i64
  %31 = getelementptr inbounds [4 x i32], ptr %28, i64 0, i64 %30
  store i32 %24, ptr %31, align 4
  %32 = load i32, ptr %4, align 4
  %33 = and i32 %32, 1
  %34 = zext i32 %33 to i64
  %35 = getelementptr inbounds [2 x [4 x i8]], ptr @names, i64 0, i64 %34
  %36 = getelementptr inbounds [4 x i8], ptr %35, i64 0, i64 0
  %37 = load i8, ptr %36, align 1
  %38 = sext i8 %37 to i32
  store i32 %38, ptr %3, align 4
  br label %39

39:                                               ; preds = %23, %22, %11
  %40 = load i32, ptr %3, align 4
  ret i32 %40
}

attributes #0 = { noinline nounwind optnone uwtable "frame-pointer"="all" "min-legal-vector-width"="0" "no-trapping-math"="true" "stack-protector-buffer-size"="8" "target-cpu"="x86-64" "target-features"="+cx8,+fxsr,+mmx,+sse,+sse2,+x87" "tune-cpu"="generic" }

!llvm.module.flags = !{!0, !1, !2, !3, !4}
!llvm.ident = !{!5}

!0 = !{i32 1, !"wchar_size", i32 4}
!1 = !{i32 8, !"PIC Level", i32 2}
!2 = !{i32 7, !"PIE Level", i32 2}
!3 = !{i32 7, !"uwtable", i32 2}
!4 = !{i32 7, !"frame-pointer", i32 2}
!5 = !{!"Debian clang version 16.0.6 (15~deb12u1)"}
