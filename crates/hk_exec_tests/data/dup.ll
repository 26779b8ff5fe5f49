; ModuleID = 'dup.c'
source_filename = "dup.c"
target datalayout = "e-m:e-p270:32:32-p271:32:32-p272:64:64-i64:64-i128:128-f80:128-n8:16:32:64-S128"
target triple = "x86_64-unknown-linux-gnu"

%struct.proc = type { i32, [4 x i32] }

@current = dso_local local_unnamed_addr global i32 0, align 4
@procs = dso_local local_unnamed_addr global [4 x %struct.proc] zeroinitializer, align 16
@file_refs = dso_local local_unnamed_addr global [4 x i32] zeroinitializer, align 16

define dso_local i32 @sys_dup(i32 noundef %0, i32 noundef %1) local_unnamed_addr #0 {
  %3 = load i32, ptr @current, align 4, !tbaa !5
  %4 = icmp ult i32 %0, 4
  %5 = icmp ult i32 %1, 4
  %6 = and i1 %4, %5
  br i1 %6, label %7, label %27

7:                                                ; preds = %2
  %8 = zext i32 %3 to i64
  %9 = zext nneg i32 %0 to i64
  %10 = getelementptr inbounds [4 x %struct.proc], ptr @procs, i64 0, i64 %8, i32 1, i64 %9
  %11 = load i32, ptr %10, align 4, !tbaa !5
  %12 = add i32 %11, -1
  %13 = icmp ult i32 %12, 4
  br i1 %13, label %14, label %27

14:                                               ; preds = %7
  %15 = zext nneg i32 %1 to i64
  %16 = getelementptr inbounds [4 x %struct.proc], ptr @procs, i64 0, i64 %8, i32 1, i64 %15
  %17 = load i32, ptr %16, align 4, !tbaa !5
  %18 = icmp eq i32 %17, 0
  br i1 %18, label %19, label %27

19:                                               ; preds = %14
  store i32 %11, ptr %16, align 4, !tbaa !5
  %20 = getelementptr inbounds [4 x %struct.proc], ptr @procs, i64 0, i64 %8
  %21 = load i32, ptr %20, align 4, !tbaa !5
  %22 = add i32 %21, 1
  store i32 %22, ptr %20, align 4, !tbaa !5
  %23 = zext nneg i32 %12 to i64
  %24 = getelementptr inbounds [4 x i32], ptr @file_refs, i64 0, i64 %23
  %25 = load i32, ptr %24, align 4, !tbaa !5
  %26 = add i32 %25, 1
  store i32 %26, ptr %24, align 4, !tbaa !5
  br label %27

27:                                               ; preds = %19, %14, %7, %2
  %28 = phi i32 [ 0, %19 ], [ -9, %14 ], [ -9, %7 ], [ -9, %2 ]
  ret i32 %28
}

attributes #0 = { nounwind "frame-pointer"="none" }

!llvm.module.flags = !{!0}
!0 = !{i32 1, !"wchar_size", i32 4}
!5 = !{!6, !6, i64 0}
!6 = !{!"int", !7, i64 0}
!7 = !{!"omnipotent char", !8, i64 0}
!8 = !{!"Simple C/C++ TBAA"}
