; ModuleID = 'first.ll'
source_filename = "schedule.c"
target datalayout = "e-m:e-p270:32:32-p271:32:32-p272:64:64-i64:64-f80:128-n8:16:32:64-S128"
target triple = "x86_64-pc-linux-gnu"

@running = dso_local local_unnamed_addr global i32 0, align 4
@ready = dso_local local_unnamed_addr global i32 0, align 4

; Function Attrs: mustprogress nofree nosync nounwind willreturn memory(readwrite, argmem: none, inaccessiblemem: none)
define dso_local i32 @next_task() local_unnamed_addr #0 {
  %1 = load i32, ptr @running, align 4, !tbaa !5
  %.fixed = freeze i32 %1
  %2 = add i32 %.fixed, 1
  %3 = load i32, ptr @ready, align 4, !tbaa !5
  %.fixed1 = freeze i32 %3
  %4 = and i32 %2, 31
  %5 = lshr i32 %.fixed1, %4
  %6 = and i32 %.fixed, 31
  %7 = xor i32 %6, 31
  %8 = shl i32 %.fixed1, %7
  %9 = or i32 %5, %8
  %10 = icmp eq i32 %9, 0
  br i1 %10, label %46, label %11

11:                                               ; preds = %0
  %12 = icmp eq i32 %9, 0
  %13 = and i32 %9, 65535
  %14 = icmp eq i32 %13, 0
  %15 = select i1 %14, i32 16, i32 0
  %16 = or i32 0, %15
  %17 = lshr i32 %9, 16
  %18 = select i1 %14, i32 %17, i32 %9
  %19 = and i32 %18, 255
  %20 = icmp eq i32 %19, 0
  %21 = select i1 %20, i32 8, i32 0
  %22 = or i32 %16, %21
  %23 = lshr i32 %18, 8
  %24 = select i1 %20, i32 %23, i32 %18
  %25 = and i32 %24, 15
  %26 = icmp eq i32 %25, 0
  %27 = select i1 %26, i32 4, i32 0
  %28 = or i32 %22, %27
  %29 = lshr i32 %24, 4
  %30 = select i1 %26, i32 %29, i32 %24
  %31 = and i32 %30, 3
  %32 = icmp eq i32 %31, 0
  %33 = select i1 %32, i32 2, i32 0
  %34 = or i32 %28, %33
  %35 = lshr i32 %30, 2
  %36 = select i1 %32, i32 %35, i32 %30
  %37 = and i32 %36, 1
  %38 = icmp eq i32 %37, 0
  %39 = select i1 %38, i32 1, i32 0
  %40 = or i32 %34, %39
  %41 = lshr i32 %36, 1
  %42 = select i1 %38, i32 %41, i32 %36
  %43 = select i1 %12, i32 poison, i32 %40
  %44 = add i32 %43, %2
  %45 = and i32 %44, 31
  store i32 %45, ptr @running, align 4, !tbaa !5
  br label %46

46:                                               ; preds = %11, %0
  %47 = phi i32 [ %45, %11 ], [ -1, %0 ]
  ret i32 %47
}

; Function Attrs: mustprogress nofree norecurse nosync nounwind willreturn memory(readwrite, argmem: none, inaccessiblemem: none)
define dso_local i32 @wake(i32 noundef %0) local_unnamed_addr #1 {
  %2 = icmp ugt i32 %0, 31
  br i1 %2, label %7, label %3

3:                                                ; preds = %1
  %4 = shl nuw i32 1, %0
  %5 = load i32, ptr @ready, align 4, !tbaa !5
  %6 = or i32 %5, %4
  store i32 %6, ptr @ready, align 4, !tbaa !5
  br label %7

7:                                                ; preds = %3, %1
  %8 = phi i32 [ 0, %3 ], [ -1, %1 ]
  ret i32 %8
}

attributes #0 = { mustprogress nofree nosync nounwind willreturn memory(readwrite, argmem: none, inaccessiblemem: none) "min-legal-vector-width"="0" "no-builtins" "no-trapping-math"="true" "stack-protector-buffer-size"="8" "target-cpu"="x86-64" "target-features"="+cx8,+fxsr,+mmx,+sse,+sse2,+x87" "tune-cpu"="generic" }
attributes #1 = { mustprogress nofree norecurse nosync nounwind willreturn memory(readwrite, argmem: none, inaccessiblemem: none) "min-legal-vector-width"="0" "no-builtins" "no-trapping-math"="true" "stack-protector-buffer-size"="8" "target-cpu"="x86-64" "target-features"="+cx8,+fxsr,+mmx,+sse,+sse2,+x87" "tune-cpu"="generic" }

!llvm.module.flags = !{!0, !1, !2}
!llvm.ident = !{!3}
!hkv.lowered = !{!4}

!0 = !{i32 1, !"wchar_size", i32 4}
!1 = !{i32 8, !"PIC Level", i32 2}
!2 = !{i32 7, !"PIE Level", i32 2}
!3 = !{!"Debian clang version 16.0.6 (15~deb12u1)"}
!4 = !{!"This text was written by hkv lower, LLVM 16.0.6. It is the text to compile and to link."}
!5 = !{!6, !6, i64 0}
!6 = !{!"int", !7, i64 0}
!7 = !{!"omnipotent char", !8, i64 0}
!8 = !{!"Simple C/C++ TBAA"}
