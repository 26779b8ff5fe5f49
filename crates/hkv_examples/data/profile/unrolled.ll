; ModuleID = 'unrolled.c'
source_filename = "unrolled.c"
target datalayout = "e-m:e-p270:32:32-p271:32:32-p272:64:64-i64:64-f80:128-n8:16:32:64-S128"
target triple = "x86_64-pc-linux-gnu"

@table = dso_local local_unnamed_addr global [4 x i32] zeroinitializer, align 16

; Function Attrs: nofree norecurse nosync nounwind memory(readwrite, argmem: none, inaccessiblemem: none)
define dso_local void @clear(i32 noundef %0) local_unnamed_addr #0 {
  %2 = load i32, ptr @table, align 16, !tbaa !4
  %3 = icmp eq i32 %2, %0
  br i1 %3, label %4, label %5

4:                                                ; preds = %1
  store i32 0, ptr @table, align 16, !tbaa !4
  br label %5

5:                                                ; preds = %1, %4
  %6 = load i32, ptr getelementptr inbounds ([4 x i32], ptr @table, i64 0, i64 1), align 4, !tbaa !4
  %7 = icmp eq i32 %6, %0
  br i1 %7, label %8, label %9

8:                                                ; preds = %5
  store i32 0, ptr getelementptr inbounds ([4 x i32], ptr @table, i64 0, i64 1), align 4, !tbaa !4
  br label %9

9:                                                ; preds = %8, %5
  %10 = load i32, ptr getelementptr inbounds ([4 x i32], ptr @table, i64 0, i64 2), align 8, !tbaa !4
  %11 = icmp eq i32 %10, %0
  br i1 %11, label %12, label %13

12:                                               ; preds = %9
  store i32 0, ptr getelementptr inbounds ([4 x i32], ptr @table, i64 0, i64 2), align 8, !tbaa !4
  br label %13

13:                                               ; preds = %12, %9
  %14 = load i32, ptr getelementptr inbounds ([4 x i32], ptr @table, i64 0, i64 3), align 4, !tbaa !4
  %15 = icmp eq i32 %14, %0
  br i1 %15, label %16, label %17

16:                                               ; preds = %13
  store i32 0, ptr getelementptr inbounds ([4 x i32], ptr @table, i64 0, i64 3), align 4, !tbaa !4
  br label %17

17:                                               ; preds = %16, %13
  ret void
}

attributes #0 = { nofree norecurse nosync nounwind memory(readwrite, argmem: none, inaccessiblemem: none) "min-legal-vector-width"="0" "no-builtins" "no-trapping-math"="true" "stack-protector-buffer-size"="8" "target-cpu"="x86-64" "target-features"="+cx8,+fxsr,+mmx,+sse,+sse2,+x87" "tune-cpu"="generic" }

!llvm.module.flags = !{!0, !1, !2}
!llvm.ident = !{!3}

!0 = !{i32 1, !"wchar_size", i32 4}
!1 = !{i32 8, !"PIC Level", i32 2}
!2 = !{i32 7, !"PIE Level", i32 2}
!3 = !{!"Debian clang version 16.0.6 (15~deb12u1)"}
!4 = !{!5, !5, i64 0}
!5 = !{!"int", !6, i64 0}
!6 = !{!"omnipotent char", !7, i64 0}
!7 = !{!"Simple C/C++ TBAA"}
