; ModuleID = 'first.ll'
source_filename = "pages.c"
target datalayout = "e-m:e-p270:32:32-p271:32:32-p272:64:64-i64:64-f80:128-n8:16:32:64-S128"
target triple = "x86_64-pc-linux-gnu"

@free_pages = dso_local local_unnamed_addr global i32 -16, align 4
@owner = dso_local local_unnamed_addr global [32 x i32] zeroinitializer, align 16

; Function Attrs: mustprogress nofree nosync nounwind willreturn memory(readwrite, argmem: none, inaccessiblemem: none)
define dso_local i32 @page_alloc(i32 noundef %0) local_unnamed_addr #0 {
  %2 = load i32, ptr @free_pages, align 4, !tbaa !5
  %.fixed = freeze i32 %2
  %3 = icmp eq i32 %.fixed, 0
  %4 = icmp eq i32 %0, 0
  %5 = or i1 %4, %3
  br i1 %5, label %43, label %6

6:                                                ; preds = %1
  %7 = icmp eq i32 %.fixed, 0
  %8 = and i32 %.fixed, 65535
  %9 = icmp eq i32 %8, 0
  %10 = select i1 %9, i32 16, i32 0
  %11 = or i32 0, %10
  %12 = lshr i32 %.fixed, 16
  %13 = select i1 %9, i32 %12, i32 %.fixed
  %14 = and i32 %13, 255
  %15 = icmp eq i32 %14, 0
  %16 = select i1 %15, i32 8, i32 0
  %17 = or i32 %11, %16
  %18 = lshr i32 %13, 8
  %19 = select i1 %15, i32 %18, i32 %13
  %20 = and i32 %19, 15
  %21 = icmp eq i32 %20, 0
  %22 = select i1 %21, i32 4, i32 0
  %23 = or i32 %17, %22
  %24 = lshr i32 %19, 4
  %25 = select i1 %21, i32 %24, i32 %19
  %26 = and i32 %25, 3
  %27 = icmp eq i32 %26, 0
  %28 = select i1 %27, i32 2, i32 0
  %29 = or i32 %23, %28
  %30 = lshr i32 %25, 2
  %31 = select i1 %27, i32 %30, i32 %25
  %32 = and i32 %31, 1
  %33 = icmp eq i32 %32, 0
  %34 = select i1 %33, i32 1, i32 0
  %35 = or i32 %29, %34
  %36 = lshr i32 %31, 1
  %37 = select i1 %33, i32 %36, i32 %31
  %38 = select i1 %7, i32 poison, i32 %35
  %39 = add i32 %.fixed, -1
  %40 = and i32 %39, %.fixed
  store i32 %40, ptr @free_pages, align 4, !tbaa !5
  %41 = zext i32 %38 to i64
  %42 = getelementptr inbounds [32 x i32], ptr @owner, i64 0, i64 %41
  store i32 %0, ptr %42, align 4, !tbaa !5
  br label %43

43:                                               ; preds = %6, %1
  %44 = phi i32 [ %38, %6 ], [ -1, %1 ]
  ret i32 %44
}

; Function Attrs: mustprogress nofree norecurse nosync nounwind willreturn memory(readwrite, argmem: none, inaccessiblemem: none)
define dso_local i32 @page_free(i32 noundef %0, i32 noundef %1) local_unnamed_addr #1 {
  %3 = icmp ugt i32 %0, 31
  %4 = icmp eq i32 %1, 0
  %5 = or i1 %3, %4
  br i1 %5, label %15, label %6

6:                                                ; preds = %2
  %7 = zext i32 %0 to i64
  %8 = getelementptr inbounds [32 x i32], ptr @owner, i64 0, i64 %7
  %9 = load i32, ptr %8, align 4, !tbaa !5
  %10 = icmp eq i32 %9, %1
  br i1 %10, label %11, label %15

11:                                               ; preds = %6
  store i32 0, ptr %8, align 4, !tbaa !5
  %12 = shl nuw i32 1, %0
  %13 = load i32, ptr @free_pages, align 4, !tbaa !5
  %14 = or i32 %13, %12
  store i32 %14, ptr @free_pages, align 4, !tbaa !5
  br label %15

15:                                               ; preds = %11, %6, %2
  %16 = phi i32 [ 0, %11 ], [ -1, %6 ], [ -1, %2 ]
  ret i32 %16
}

attributes #0 = { mustprogress nofree nosync nounwind willreturn memory(readwrite, argmem: none, inaccessiblemem: none) "min-legal-vector-width"="0" "no-builtins" "no-trapping-math"="true" "stack-protector-buffer-size"="8" "target-cpu"="x86-64" "target-features"="+cx8,+fxsr,+mmx,+sse,+sse2,+x87" "tune-cpu"="generic" }
attributes #1 = { mustprogress nofree norecurse nosync nounwind willreturn memory(readwrite, argmem: none, inaccessiblemem: none) "min-legal-vector-width"="0" "no-builtins" "no-trapping-math"="true" "stack-protector-buffer-size"="8" "target-cpu"="x86-64" "target-features"="+cx8,+fxsr,+mmx,+sse,+sse2,+x87" "tune-cpu"="generic" }

!llvm.module.flags = !{!0, !1, !2}
!llvm.ident = !{!3}
!hkv.lowered = !{!4}

!0 = !{i32 1, !"wchar_size", i32 4}
!1 = !{i32 8, !"PIC Level", i32 2}
!2 = !{i32 7, !"PIE Level", i32 2}
!3 = !{!"Debian clang version 16.0.6 (15~deb12u1)"}
!4 = !{!"This text was written by hkv lower, LLVM 16.0.6. It is the text to compile and to link."}
!5 = !{!6, !6, i64 0}
!6 = !{!"int", !7, i64 0}
!7 = !{!"omnipotent char", !8, i64 0}
!8 = !{!"Simple C/C++ TBAA"}
