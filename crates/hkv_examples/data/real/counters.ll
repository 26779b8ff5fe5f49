; ModuleID = 'first.ll'
source_filename = "counters.c"
target datalayout = "e-m:e-p270:32:32-p271:32:32-p272:64:64-i64:64-f80:128-n8:16:32:64-S128"
target triple = "x86_64-pc-linux-gnu"

@spent = dso_local local_unnamed_addr global [8 x i32] zeroinitializer, align 16
@quota = dso_local local_unnamed_addr global [8 x i32] zeroinitializer, align 16
@balance = dso_local local_unnamed_addr global [8 x i32] zeroinitializer, align 16

; Function Attrs: mustprogress nofree norecurse nosync nounwind willreturn memory(readwrite, argmem: none, inaccessiblemem: none)
define dso_local i32 @charge(i32 noundef %0, i32 noundef %1) local_unnamed_addr #0 {
  %3 = icmp ugt i32 %0, 7
  br i1 %3, label %16, label %4

4:                                                ; preds = %2
  %5 = zext i32 %0 to i64
  %6 = getelementptr inbounds [8 x i32], ptr @spent, i64 0, i64 %5
  %7 = load i32, ptr %6, align 4, !tbaa !5
  %.fixed = freeze i32 %7
  %8 = add i32 %1, %.fixed
  %9 = icmp ult i32 %8, %1
  %10 = select i1 %9, i32 -1, i32 %8
  store i32 %10, ptr %6, align 4, !tbaa !5
  %11 = getelementptr inbounds [8 x i32], ptr @quota, i64 0, i64 %5
  %12 = load i32, ptr %11, align 4, !tbaa !5
  %.fixed1 = freeze i32 %12
  %13 = icmp ult i32 %.fixed1, %1
  %14 = sub i32 %.fixed1, %1
  %15 = select i1 %13, i32 0, i32 %14
  store i32 %15, ptr %11, align 4, !tbaa !5
  br label %16

16:                                               ; preds = %4, %2
  %17 = phi i32 [ 0, %4 ], [ -1, %2 ]
  ret i32 %17
}

; Function Attrs: mustprogress nofree nosync nounwind willreturn memory(readwrite, argmem: none, inaccessiblemem: none)
define dso_local i32 @settle(i32 noundef %0, i32 noundef %1) local_unnamed_addr #1 {
  %3 = icmp ugt i32 %0, 7
  br i1 %3, label %14, label %4

4:                                                ; preds = %2
  %5 = zext i32 %0 to i64
  %6 = getelementptr inbounds [8 x i32], ptr @balance, i64 0, i64 %5
  %7 = load i32, ptr %6, align 4, !tbaa !5
  %.fixed = freeze i32 %7
  %8 = call { i32, i1 } @llvm.sadd.with.overflow.i32(i32 %.fixed, i32 %1)
  %9 = extractvalue { i32, i1 } %8, 0
  %10 = extractvalue { i32, i1 } %8, 1
  %11 = icmp slt i32 %.fixed, 0
  %12 = select i1 %11, i32 -2147483648, i32 2147483647
  %13 = select i1 %10, i32 %12, i32 %9
  store i32 %13, ptr %6, align 4, !tbaa !5
  br label %14

14:                                               ; preds = %4, %2
  %15 = phi i32 [ 0, %4 ], [ -1, %2 ]
  ret i32 %15
}

; Function Attrs: nocallback nofree nosync nounwind speculatable willreturn memory(none)
declare { i32, i1 } @llvm.sadd.with.overflow.i32(i32, i32) #2

attributes #0 = { mustprogress nofree norecurse nosync nounwind willreturn memory(readwrite, argmem: none, inaccessiblemem: none) "min-legal-vector-width"="0" "no-builtins" "no-trapping-math"="true" "stack-protector-buffer-size"="8" "target-cpu"="x86-64" "target-features"="+cx8,+fxsr,+mmx,+sse,+sse2,+x87" "tune-cpu"="generic" }
attributes #1 = { mustprogress nofree nosync nounwind willreturn memory(readwrite, argmem: none, inaccessiblemem: none) "min-legal-vector-width"="0" "no-builtins" "no-trapping-math"="true" "stack-protector-buffer-size"="8" "target-cpu"="x86-64" "target-features"="+cx8,+fxsr,+mmx,+sse,+sse2,+x87" "tune-cpu"="generic" }
attributes #2 = { nocallback nofree nosync nounwind speculatable willreturn memory(none) }

!llvm.module.flags = !{!0, !1, !2}
!llvm.ident = !{!3}
!hkv.lowered = !{!4}

!0 = !{i32 1, !"wchar_size", i32 4}
!1 = !{i32 8, !"PIC Level", i32 2}
!2 = !{i32 7, !"PIE Level", i32 2}
!3 = !{!"Debian clang version 16.0.6 (15~deb12u1)"}
!4 = !{!"This text was written by hkv lower, LLVM 16.0.6. It is the text to compile and to link."}
!5 = !{!6, !6, i64 0}
!6 = !{!"int", !7, i64 0}
!7 = !{!"omnipotent char", !8, i64 0}
!8 = !{!"Simple C/C++ TBAA"}
