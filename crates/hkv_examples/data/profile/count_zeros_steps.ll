; ModuleID = 'count_zeros_steps.c'
source_filename = "count_zeros_steps.c"
target datalayout = "e-m:e-p270:32:32-p271:32:32-p272:64:64-i64:64-f80:128-n8:16:32:64-S128"
target triple = "x86_64-pc-linux-gnu"

; Function Attrs: mustprogress nofree norecurse nosync nounwind willreturn memory(none)
define dso_local i32 @first(i32 noundef %0) local_unnamed_addr #0 {
  %2 = icmp eq i32 %0, 0
  br i1 %2, label %30, label %3

3:                                                ; preds = %1
  %4 = and i32 %0, 65535
  %5 = icmp eq i32 %4, 0
  %6 = lshr i32 %0, 16
  %7 = select i1 %5, i32 %6, i32 %0
  %8 = select i1 %5, i32 16, i32 0
  %9 = and i32 %7, 255
  %10 = icmp eq i32 %9, 0
  %11 = or i32 %8, 8
  %12 = lshr i32 %7, 8
  %13 = select i1 %10, i32 %12, i32 %7
  %14 = select i1 %10, i32 %11, i32 %8
  %15 = and i32 %13, 15
  %16 = icmp eq i32 %15, 0
  %17 = or i32 %14, 4
  %18 = lshr i32 %13, 4
  %19 = select i1 %16, i32 %18, i32 %13
  %20 = select i1 %16, i32 %17, i32 %14
  %21 = and i32 %19, 3
  %22 = icmp eq i32 %21, 0
  %23 = or i32 %20, 2
  %24 = lshr i32 %19, 2
  %25 = select i1 %22, i32 %24, i32 %19
  %26 = select i1 %22, i32 %23, i32 %20
  %27 = and i32 %25, 1
  %28 = xor i32 %27, 1
  %29 = add i32 %28, %26
  br label %30

30:                                               ; preds = %1, %3
  %31 = phi i32 [ %29, %3 ], [ 32, %1 ]
  ret i32 %31
}

attributes #0 = { mustprogress nofree norecurse nosync nounwind willreturn memory(none) "min-legal-vector-width"="0" "no-builtins" "no-trapping-math"="true" "stack-protector-buffer-size"="8" "target-cpu"="x86-64" "target-features"="+cx8,+fxsr,+mmx,+sse,+sse2,+x87" "tune-cpu"="generic" }

!llvm.module.flags = !{!0, !1, !2}
!llvm.ident = !{!3}

!0 = !{i32 1, !"wchar_size", i32 4}
!1 = !{i32 8, !"PIC Level", i32 2}
!2 = !{i32 7, !"PIE Level", i32 2}
!3 = !{!"Debian clang version 16.0.6 (15~deb12u1)"}
