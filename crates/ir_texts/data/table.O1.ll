; ModuleID = 'table.c'
source_filename = "table.c"
target datalayout = "e-m:e-p270:32:32-p271:32:32-p272:64:64-i64:64-f80:128-n8:16:32:64-S128"
target triple = "x86_64-pc-linux-gnu"

%struct.proc = type { i32, [4 x i32] }

@current = dso_local local_unnamed_addr global i32 0, align 4
@procs = dso_local local_unnamed_addr global [4 x %struct.proc] zeroinitializer, align 16
@names = internal unnamed_addr constant [2 x [4 x i8]] [[4 x i8] c"ab\00\00", [4 x i8] c"c\00\00\00"], align 1

; Function Attrs: mustprogress nofree norecurse nosync nounwind willreturn memory(readwrite, argmem: none, inaccessiblemem: none) uwtable
define dso_local i32 @set_file(i32 noundef %0, i32 noundef %1) local_unnamed_addr #0 {
  %3 = icmp ugt i32 %0, 3
  %4 = load i32, ptr @current, align 4
  %5 = icmp ugt i32 %4, 3
  %6 = select i1 %3, i1 true, i1 %5
  br i1 %6, label %19, label %7

7:                                                ; preds = %2
  %8 = zext i32 %4 to i64
  %9 = zext i32 %0 to i64
  %10 = getelementptr inbounds [4 x %struct.proc], ptr @procs, i64 0, i64 %8, i32 1, i64 %9
  %11 = load i32, ptr %10, align 4, !tbaa !5
  %12 = icmp eq i32 %11, 0
  br i1 %12, label %13, label %19

13:                                               ; preds = %7
  store i32 %1, ptr %10, align 4, !tbaa !5
  %14 = and i32 %0, 1
  %15 = zext i32 %14 to i64
  %16 = getelementptr inbounds [2 x [4 x i8]], ptr @names, i64 0, i64 %15
  %17 = load i8, ptr %16, align 1, !tbaa !9
  %18 = sext i8 %17 to i32
  br label %19

19:                                               ; preds = %7, %2, %13
  %20 = phi i32 [ %18, %13 ], [ -9, %2 ], [ -17, %7 ]
  ret i32 %20
}

attributes #0 = { mustprogress nofree norecurse nosync nounwind willreturn memory(readwrite, argmem: none, inaccessiblemem: none) uwtable "min-legal-vector-width"="0" "no-trapping-math"="true" "stack-protector-buffer-size"="8" "target-cpu"="x86-64" "target-features"="+cx8,+fxsr,+mmx,+sse,+sse2,+x87" "tune-cpu"="generic" }

!llvm.module.flags = !{!0, !1, !2, !3}
!llvm.ident = !{!4}

!0 = !{i32 1, !"wchar_size", i32 4}
!1 = !{i32 8, !"PIC Level", i32 2}
!2 = !{i32 7, !"PIE Level", i32 2}
!3 = !{i32 7, !"uwtable", i32 2}
!4 = !{!"Debian clang version 16.0.6 (15~deb12u1)"}
!5 = !{!6, !6, i64 0}
!6 = !{!"int", !7, i64 0}
!7 = !{!"omnipotent char", !8, i64 0}
!8 = !{!"Simple C/C++ TBAA"}
!9 = !{!7, !7, i64 0}
