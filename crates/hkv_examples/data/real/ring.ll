; ModuleID = 'first.ll'
source_filename = "ring.c"
target datalayout = "e-m:e-p270:32:32-p271:32:32-p272:64:64-i64:64-f80:128-n8:16:32:64-S128"
target triple = "x86_64-pc-linux-gnu"

%struct.message = type { i32, i32, [2 x i64] }

@head = dso_local local_unnamed_addr global i32 0, align 4
@tail = dso_local local_unnamed_addr global i32 0, align 4
@ring = dso_local local_unnamed_addr global [8 x %struct.message] zeroinitializer, align 16
@outgoing = dso_local local_unnamed_addr global %struct.message zeroinitializer, align 8
@incoming = dso_local local_unnamed_addr global %struct.message zeroinitializer, align 8

; Function Attrs: mustprogress nofree nosync nounwind willreturn memory(readwrite, argmem: none, inaccessiblemem: none)
define dso_local i32 @ring_put() local_unnamed_addr #0 {
  %1 = load i32, ptr @head, align 4, !tbaa !5
  %2 = load i32, ptr @tail, align 4, !tbaa !5
  %3 = sub i32 %1, %2
  %4 = icmp ugt i32 %3, 7
  br i1 %4, label %15, label %5

5:                                                ; preds = %0
  %6 = and i32 %1, 7
  %7 = zext i32 %6 to i64
  %8 = getelementptr inbounds [8 x %struct.message], ptr @ring, i64 0, i64 %7
  %9 = load i64, ptr @outgoing, align 8
  store i64 %9, ptr %8, align 8
  %10 = load i64, ptr getelementptr inbounds (i8, ptr @outgoing, i64 8), align 8
  %11 = getelementptr inbounds i8, ptr %8, i64 8
  store i64 %10, ptr %11, align 8
  %12 = load i64, ptr getelementptr inbounds (i8, ptr @outgoing, i64 16), align 8
  %13 = getelementptr inbounds i8, ptr %8, i64 16
  store i64 %12, ptr %13, align 8
  %14 = add i32 %1, 1
  store i32 %14, ptr @head, align 4, !tbaa !5
  br label %15

15:                                               ; preds = %5, %0
  %16 = phi i32 [ 0, %5 ], [ -1, %0 ]
  ret i32 %16
}

; Function Attrs: mustprogress nofree nosync nounwind willreturn memory(readwrite, argmem: none, inaccessiblemem: none)
define dso_local i32 @ring_take() local_unnamed_addr #0 {
  %1 = load i32, ptr @head, align 4, !tbaa !5
  %2 = load i32, ptr @tail, align 4, !tbaa !5
  %3 = icmp eq i32 %1, %2
  br i1 %3, label %14, label %4

4:                                                ; preds = %0
  %5 = and i32 %2, 7
  %6 = zext i32 %5 to i64
  %7 = getelementptr inbounds [8 x %struct.message], ptr @ring, i64 0, i64 %6
  %8 = load i64, ptr %7, align 8
  store i64 %8, ptr @incoming, align 8
  %9 = getelementptr inbounds i8, ptr %7, i64 8
  %10 = load i64, ptr %9, align 8
  store i64 %10, ptr getelementptr inbounds (i8, ptr @incoming, i64 8), align 8
  %11 = getelementptr inbounds i8, ptr %7, i64 16
  %12 = load i64, ptr %11, align 8
  store i64 %12, ptr getelementptr inbounds (i8, ptr @incoming, i64 16), align 8
  %13 = add i32 %2, 1
  store i32 %13, ptr @tail, align 4, !tbaa !5
  br label %14

14:                                               ; preds = %4, %0
  %15 = phi i32 [ 0, %4 ], [ -1, %0 ]
  ret i32 %15
}

attributes #0 = { mustprogress nofree nosync nounwind willreturn memory(readwrite, argmem: none, inaccessiblemem: none) "min-legal-vector-width"="0" "no-builtins" "no-trapping-math"="true" "stack-protector-buffer-size"="8" "target-cpu"="x86-64" "target-features"="+cx8,+fxsr,+mmx,+sse,+sse2,+x87" "tune-cpu"="generic" }

!llvm.module.flags = !{!0, !1, !2}
!llvm.ident = !{!3}
!hkv.lowered = !{!4}

!0 = !{i32 1, !"wchar_size", i32 4}
!1 = !{i32 8, !"PIC Level", i32 2}
!2 = !{i32 7, !"PIE Level", i32 2}
!3 = !{!"Debian clang version 16.0.6 (15~deb12u1)"}
!4 = !{!"This text was written by hkv lower, LLVM 16.0.6. It is the text to compile and to link."}
!5 = !{!6, !6, i64 0}
!6 = !{!"int", !7, i64 0}
!7 = !{!"omnipotent char", !8, i64 0}
!8 = !{!"Simple C/C++ TBAA"}
