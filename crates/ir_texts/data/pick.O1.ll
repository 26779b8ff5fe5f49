; ModuleID = 'pick.c'
source_filename = "pick.c"
target datalayout = "e-m:e-p270:32:32-p271:32:32-p272:64:64-i64:64-f80:128-n8:16:32:64-S128"
target triple = "x86_64-pc-linux-gnu"

; Function Attrs: mustprogress nofree norecurse nosync nounwind willreturn memory(none) uwtable
define dso_local i32 @pick(i32 noundef %0, i32 noundef %1, i32 noundef %2) local_unnamed_addr #0 {
  switch i32 %0, label %14 [
    i32 0, label %4
    i32 1, label %6
    i32 7, label %8
    i32 -3, label %10
  ]

4:                                                ; preds = %3
  %5 = add nsw i32 %2, %1
  br label %14

6:                                                ; preds = %3
  %7 = sub nsw i32 %1, %2
  br label %14

8:                                                ; preds = %3
  %9 = mul nsw i32 %2, %1
  br label %14

10:                                               ; preds = %3
  %11 = icmp eq i32 %2, 0
  br i1 %11, label %14, label %12

12:                                               ; preds = %10
  %13 = sdiv i32 %1, %2
  br label %14

14:                                               ; preds = %3, %12, %10, %8, %6, %4
  %15 = phi i32 [ %9, %8 ], [ %7, %6 ], [ %5, %4 ], [ %13, %12 ], [ 0, %10 ], [ -1, %3 ]
  ret i32 %15
}

attributes #0 = { mustprogress nofree norecurse nosync nounwind willreturn memory(none) uwtable "min-legal-vector-width"="0" "no-trapping-math"="true" "stack-protector-buffer-size"="8" "target-cpu"="x86-64" "target-features"="+cx8,+fxsr,+mmx,+sse,+sse2,+x87" "tune-cpu"="generic" }

!llvm.module.flags = !{!0, !1, !2, !3}
!llvm.ident = !{!4}

!0 = !{i32 1, !"wchar_size", i32 4}
!1 = !{i32 8, !"PIC Level", i32 2}
!2 = !{i32 7, !"PIE Level", i32 2}
!3 = !{i32 7, !"uwtable", i32 2}
!4 = !{!"Debian clang version 16.0.6 (15~deb12u1)"}
