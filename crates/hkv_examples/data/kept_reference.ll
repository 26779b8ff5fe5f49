; ModuleID = 'files.c'
source_filename = "files.c"
target datalayout = "e-m:e-p270:32:32-p271:32:32-p272:64:64-i64:64-f80:128-n8:16:32:64-S128"
target triple = "x86_64-pc-linux-gnu"

%struct.proc = type { i32, i32, [4 x i32] }
%struct.file = type { i32, i32 }

@current = dso_local local_unnamed_addr global i32 0, align 4
@procs = dso_local local_unnamed_addr global [8 x %struct.proc] [%struct.proc { i32 1, i32 4, [4 x i32] zeroinitializer }, %struct.proc { i32 0, i32 4, [4 x i32] zeroinitializer }, %struct.proc { i32 0, i32 4, [4 x i32] zeroinitializer }, %struct.proc { i32 0, i32 4, [4 x i32] zeroinitializer }, %struct.proc { i32 0, i32 4, [4 x i32] zeroinitializer }, %struct.proc { i32 0, i32 4, [4 x i32] zeroinitializer }, %struct.proc { i32 0, i32 4, [4 x i32] zeroinitializer }, %struct.proc { i32 0, i32 4, [4 x i32] zeroinitializer }], align 16
@files = dso_local local_unnamed_addr global [16 x %struct.file] zeroinitializer, align 16

; Function Attrs: mustprogress nofree norecurse nosync nounwind willreturn memory(readwrite, argmem: none, inaccessiblemem: none)
define dso_local i32 @sys_create(i32 noundef %0) local_unnamed_addr #0 {
  %2 = icmp ugt i32 %0, 7
  br i1 %2, label %14, label %3

3:                                                ; preds = %1
  %4 = zext i32 %0 to i64
  %5 = getelementptr inbounds [8 x %struct.proc], ptr @procs, i64 0, i64 %4
  %6 = load i32, ptr %5, align 8, !tbaa !4
  %7 = icmp eq i32 %6, 0
  br i1 %7, label %8, label %14

8:                                                ; preds = %3
  store i32 1, ptr %5, align 8, !tbaa !4
  %9 = load i32, ptr @current, align 4, !tbaa !9
  %10 = zext i32 %9 to i64
  %11 = getelementptr inbounds [8 x %struct.proc], ptr @procs, i64 0, i64 %10, i32 1
  %12 = load i32, ptr %11, align 4, !tbaa !10
  %13 = getelementptr inbounds [8 x %struct.proc], ptr @procs, i64 0, i64 %4, i32 1
  store i32 %12, ptr %13, align 4, !tbaa !10
  br label %14

14:                                               ; preds = %1, %3, %8
  %15 = phi i32 [ 0, %8 ], [ -1, %3 ], [ -1, %1 ]
  ret i32 %15
}

; Function Attrs: mustprogress nofree norecurse nosync nounwind willreturn memory(readwrite, argmem: none, inaccessiblemem: none)
define dso_local i32 @sys_exit(i32 noundef %0) local_unnamed_addr #0 {
  %2 = icmp ugt i32 %0, 7
  %3 = load i32, ptr @current, align 4
  %4 = icmp eq i32 %3, %0
  %5 = select i1 %2, i1 true, i1 %4
  br i1 %5, label %28, label %6

6:                                                ; preds = %1
  %7 = zext i32 %0 to i64
  %8 = getelementptr inbounds [8 x %struct.proc], ptr @procs, i64 0, i64 %7
  %9 = load i32, ptr %8, align 8, !tbaa !4
  %10 = icmp eq i32 %9, 1
  br i1 %10, label %11, label %28

11:                                               ; preds = %6
  %12 = getelementptr inbounds [8 x %struct.proc], ptr @procs, i64 0, i64 %7, i32 2
  %13 = load i32, ptr %12, align 8, !tbaa !9
  %14 = icmp eq i32 %13, 0
  br i1 %14, label %15, label %28

15:                                               ; preds = %11
  %16 = getelementptr inbounds [8 x %struct.proc], ptr @procs, i64 0, i64 %7, i32 2, i64 1
  %17 = load i32, ptr %16, align 4, !tbaa !9
  %18 = icmp eq i32 %17, 0
  br i1 %18, label %19, label %28

19:                                               ; preds = %15
  %20 = getelementptr inbounds [8 x %struct.proc], ptr @procs, i64 0, i64 %7, i32 2, i64 2
  %21 = load i32, ptr %20, align 8, !tbaa !9
  %22 = icmp eq i32 %21, 0
  br i1 %22, label %23, label %28

23:                                               ; preds = %19
  %24 = getelementptr inbounds [8 x %struct.proc], ptr @procs, i64 0, i64 %7, i32 2, i64 3
  %25 = load i32, ptr %24, align 4, !tbaa !9
  %26 = icmp eq i32 %25, 0
  br i1 %26, label %27, label %28

27:                                               ; preds = %23
  store i32 0, ptr %8, align 8, !tbaa !4
  br label %28

28:                                               ; preds = %11, %15, %19, %23, %1, %6, %27
  %29 = phi i32 [ 0, %27 ], [ -1, %6 ], [ -1, %1 ], [ -1, %23 ], [ -1, %19 ], [ -1, %15 ], [ -1, %11 ]
  ret i32 %29
}

; Function Attrs: mustprogress nofree norecurse nosync nounwind willreturn memory(readwrite, argmem: none, inaccessiblemem: none)
define dso_local i32 @sys_switch(i32 noundef %0) local_unnamed_addr #0 {
  %2 = icmp ugt i32 %0, 7
  br i1 %2, label %9, label %3

3:                                                ; preds = %1
  %4 = zext i32 %0 to i64
  %5 = getelementptr inbounds [8 x %struct.proc], ptr @procs, i64 0, i64 %4
  %6 = load i32, ptr %5, align 8, !tbaa !4
  %7 = icmp eq i32 %6, 1
  br i1 %7, label %8, label %9

8:                                                ; preds = %3
  store i32 %0, ptr @current, align 4, !tbaa !9
  br label %9

9:                                                ; preds = %1, %3, %8
  %10 = phi i32 [ 0, %8 ], [ -1, %3 ], [ -1, %1 ]
  ret i32 %10
}

; Function Attrs: mustprogress nofree norecurse nosync nounwind willreturn memory(readwrite, argmem: none, inaccessiblemem: none)
define dso_local i32 @sys_open(i32 noundef %0, i32 noundef %1) local_unnamed_addr #0 {
  %3 = load i32, ptr @current, align 4, !tbaa !9
  %4 = zext i32 %3 to i64
  %5 = getelementptr inbounds [8 x %struct.proc], ptr @procs, i64 0, i64 %4, i32 1
  %6 = load i32, ptr %5, align 4, !tbaa !10
  %7 = icmp ule i32 %6, %0
  %8 = icmp ugt i32 %1, 15
  %9 = or i1 %8, %7
  br i1 %9, label %23, label %10

10:                                               ; preds = %2
  %11 = zext i32 %0 to i64
  %12 = getelementptr inbounds [8 x %struct.proc], ptr @procs, i64 0, i64 %4, i32 2, i64 %11
  %13 = load i32, ptr %12, align 4, !tbaa !9
  %14 = icmp eq i32 %13, 0
  br i1 %14, label %15, label %23

15:                                               ; preds = %10
  %16 = zext i32 %1 to i64
  %17 = getelementptr inbounds [16 x %struct.file], ptr @files, i64 0, i64 %16
  %18 = load i32, ptr %17, align 8, !tbaa !11
  %19 = icmp eq i32 %18, 0
  br i1 %19, label %20, label %23

20:                                               ; preds = %15
  %21 = add i32 %1, 1
  store i32 %21, ptr %12, align 4, !tbaa !9
  store i32 1, ptr %17, align 8, !tbaa !11
  %22 = getelementptr inbounds [16 x %struct.file], ptr @files, i64 0, i64 %16, i32 1
  store i32 %3, ptr %22, align 4, !tbaa !13
  br label %23

23:                                               ; preds = %10, %15, %2, %20
  %24 = phi i32 [ 0, %20 ], [ -1, %2 ], [ -1, %15 ], [ -1, %10 ]
  ret i32 %24
}

; Function Attrs: mustprogress nofree norecurse nosync nounwind willreturn memory(readwrite, argmem: none, inaccessiblemem: none)
define dso_local i32 @sys_close(i32 noundef %0) local_unnamed_addr #0 {
  %2 = icmp ugt i32 %0, 3
  br i1 %2, label %11, label %3

3:                                                ; preds = %1
  %4 = load i32, ptr @current, align 4, !tbaa !9
  %5 = zext i32 %4 to i64
  %6 = zext i32 %0 to i64
  %7 = getelementptr inbounds [8 x %struct.proc], ptr @procs, i64 0, i64 %5, i32 2, i64 %6
  %8 = load i32, ptr %7, align 4, !tbaa !9
  %9 = icmp eq i32 %8, 0
  br i1 %9, label %11, label %10

10:                                               ; preds = %3
  store i32 0, ptr %7, align 4, !tbaa !9
  br label %11

11:                                               ; preds = %10, %3, %1
  %12 = phi i32 [ -1, %1 ], [ 0, %10 ], [ -1, %3 ]
  ret i32 %12
}

; Function Attrs: mustprogress nofree norecurse nosync nounwind willreturn memory(readwrite, argmem: none, inaccessiblemem: none)
define dso_local i32 @sys_dup(i32 noundef %0, i32 noundef %1) local_unnamed_addr #0 {
  %3 = icmp ugt i32 %0, 3
  br i1 %3, label %26, label %4

4:                                                ; preds = %2
  %5 = load i32, ptr @current, align 4, !tbaa !9
  %6 = zext i32 %5 to i64
  %7 = getelementptr inbounds [8 x %struct.proc], ptr @procs, i64 0, i64 %6, i32 1
  %8 = load i32, ptr %7, align 4, !tbaa !10
  %9 = icmp ugt i32 %8, %1
  br i1 %9, label %10, label %26

10:                                               ; preds = %4
  %11 = zext i32 %0 to i64
  %12 = getelementptr inbounds [8 x %struct.proc], ptr @procs, i64 0, i64 %6, i32 2, i64 %11
  %13 = load i32, ptr %12, align 4, !tbaa !9
  %14 = icmp eq i32 %13, 0
  br i1 %14, label %26, label %15

15:                                               ; preds = %10
  %16 = zext i32 %1 to i64
  %17 = getelementptr inbounds [8 x %struct.proc], ptr @procs, i64 0, i64 %6, i32 2, i64 %16
  %18 = load i32, ptr %17, align 4, !tbaa !9
  %19 = icmp eq i32 %18, 0
  br i1 %19, label %20, label %26

20:                                               ; preds = %15
  store i32 %13, ptr %17, align 4, !tbaa !9
  %21 = add i32 %13, -1
  %22 = zext i32 %21 to i64
  %23 = getelementptr inbounds [16 x %struct.file], ptr @files, i64 0, i64 %22
  %24 = load i32, ptr %23, align 8, !tbaa !11
  %25 = add i32 %24, 1
  store i32 %25, ptr %23, align 8, !tbaa !11
  br label %26

26:                                               ; preds = %20, %15, %10, %2, %4
  %27 = phi i32 [ -1, %4 ], [ -1, %2 ], [ 0, %20 ], [ -1, %15 ], [ -1, %10 ]
  ret i32 %27
}

; Function Attrs: mustprogress nofree norecurse nosync nounwind willreturn memory(readwrite, argmem: none, inaccessiblemem: none)
define dso_local i32 @sys_transfer(i32 noundef %0, i32 noundef %1, i32 noundef %2) local_unnamed_addr #0 {
  %4 = icmp ugt i32 %0, 3
  %5 = icmp ugt i32 %1, 7
  %6 = or i1 %4, %5
  br i1 %6, label %36, label %7

7:                                                ; preds = %3
  %8 = zext i32 %1 to i64
  %9 = getelementptr inbounds [8 x %struct.proc], ptr @procs, i64 0, i64 %8
  %10 = load i32, ptr %9, align 8, !tbaa !4
  %11 = icmp eq i32 %10, 1
  br i1 %11, label %12, label %36

12:                                               ; preds = %7
  %13 = getelementptr inbounds [8 x %struct.proc], ptr @procs, i64 0, i64 %8, i32 1
  %14 = load i32, ptr %13, align 4, !tbaa !10
  %15 = icmp ugt i32 %14, %2
  br i1 %15, label %16, label %36

16:                                               ; preds = %12
  %17 = zext i32 %2 to i64
  %18 = getelementptr inbounds [8 x %struct.proc], ptr @procs, i64 0, i64 %8, i32 2, i64 %17
  %19 = load i32, ptr %18, align 4, !tbaa !9
  %20 = icmp eq i32 %19, 0
  br i1 %20, label %21, label %36

21:                                               ; preds = %16
  %22 = load i32, ptr @current, align 4, !tbaa !9
  %23 = zext i32 %22 to i64
  %24 = zext i32 %0 to i64
  %25 = getelementptr inbounds [8 x %struct.proc], ptr @procs, i64 0, i64 %23, i32 2, i64 %24
  %26 = load i32, ptr %25, align 4, !tbaa !9
  %27 = icmp eq i32 %26, 0
  br i1 %27, label %36, label %28

28:                                               ; preds = %21
  %29 = add i32 %26, -1
  %30 = zext i32 %29 to i64
  %31 = getelementptr inbounds [16 x %struct.file], ptr @files, i64 0, i64 %30
  %32 = load i32, ptr %31, align 8, !tbaa !11
  %33 = icmp eq i32 %32, 1
  br i1 %33, label %34, label %36

34:                                               ; preds = %28
  store i32 0, ptr %25, align 4, !tbaa !9
  store i32 %26, ptr %18, align 4, !tbaa !9
  %35 = getelementptr inbounds [16 x %struct.file], ptr @files, i64 0, i64 %30, i32 1
  store i32 %1, ptr %35, align 4, !tbaa !13
  br label %36

36:                                               ; preds = %34, %28, %21, %12, %16, %3, %7
  %37 = phi i32 [ -1, %7 ], [ -1, %3 ], [ -1, %16 ], [ -1, %12 ], [ 0, %34 ], [ -1, %28 ], [ -1, %21 ]
  ret i32 %37
}

; Function Attrs: mustprogress nofree norecurse nosync nounwind willreturn memory(readwrite, argmem: none, inaccessiblemem: none)
define dso_local i32 @sys_set_limit(i32 noundef %0, i32 noundef %1) local_unnamed_addr #0 {
  %3 = icmp ugt i32 %0, 7
  br i1 %3, label %13, label %4

4:                                                ; preds = %2
  %5 = zext i32 %0 to i64
  %6 = getelementptr inbounds [8 x %struct.proc], ptr @procs, i64 0, i64 %5
  %7 = load i32, ptr %6, align 8, !tbaa !4
  %8 = icmp ne i32 %7, 1
  %9 = icmp ugt i32 %1, 4
  %10 = or i1 %9, %8
  br i1 %10, label %13, label %11

11:                                               ; preds = %4
  %12 = getelementptr inbounds [8 x %struct.proc], ptr @procs, i64 0, i64 %5, i32 1
  store i32 %1, ptr %12, align 4, !tbaa !10
  br label %13

13:                                               ; preds = %2, %4, %11
  %14 = phi i32 [ 0, %11 ], [ -1, %4 ], [ -1, %2 ]
  ret i32 %14
}

; Function Attrs: mustprogress nofree norecurse nosync nounwind willreturn memory(read, argmem: none, inaccessiblemem: none)
define dso_local i32 @sys_get_limit(i32 noundef %0) local_unnamed_addr #1 {
  %2 = icmp ugt i32 %0, 7
  br i1 %2, label %11, label %3

3:                                                ; preds = %1
  %4 = zext i32 %0 to i64
  %5 = getelementptr inbounds [8 x %struct.proc], ptr @procs, i64 0, i64 %4
  %6 = load i32, ptr %5, align 8, !tbaa !4
  %7 = icmp eq i32 %6, 1
  br i1 %7, label %8, label %11

8:                                                ; preds = %3
  %9 = getelementptr inbounds [8 x %struct.proc], ptr @procs, i64 0, i64 %4, i32 1
  %10 = load i32, ptr %9, align 4, !tbaa !10
  br label %11

11:                                               ; preds = %1, %3, %8
  %12 = phi i32 [ %10, %8 ], [ -1, %3 ], [ -1, %1 ]
  ret i32 %12
}

attributes #0 = { mustprogress nofree norecurse nosync nounwind willreturn memory(readwrite, argmem: none, inaccessiblemem: none) "min-legal-vector-width"="0" "no-builtins" "no-trapping-math"="true" "stack-protector-buffer-size"="8" "target-cpu"="x86-64" "target-features"="+cx8,+fxsr,+mmx,+sse,+sse2,+x87" "tune-cpu"="generic" }
attributes #1 = { mustprogress nofree norecurse nosync nounwind willreturn memory(read, argmem: none, inaccessiblemem: none) "min-legal-vector-width"="0" "no-builtins" "no-trapping-math"="true" "stack-protector-buffer-size"="8" "target-cpu"="x86-64" "target-features"="+cx8,+fxsr,+mmx,+sse,+sse2,+x87" "tune-cpu"="generic" }

!llvm.module.flags = !{!0, !1, !2}
!llvm.ident = !{!3}

!0 = !{i32 1, !"wchar_size", i32 4}
!1 = !{i32 8, !"PIC Level", i32 2}
!2 = !{i32 7, !"PIE Level", i32 2}
!3 = !{!"Debian clang version 16.0.6 (15~deb12u1)"}
!4 = !{!5, !6, i64 0}
!5 = !{!"proc", !6, i64 0, !6, i64 4, !7, i64 8}
!6 = !{!"int", !7, i64 0}
!7 = !{!"omnipotent char", !8, i64 0}
!8 = !{!"Simple C/C++ TBAA"}
!9 = !{!6, !6, i64 0}
!10 = !{!5, !6, i64 4}
!11 = !{!12, !6, i64 0}
!12 = !{!"file", !6, i64 0, !6, i64 4}
!13 = !{!12, !6, i64 4}
