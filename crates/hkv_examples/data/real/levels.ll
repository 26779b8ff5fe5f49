; ModuleID = 'first.ll'
source_filename = "levels.c"
target datalayout = "e-m:e-p270:32:32-p271:32:32-p272:64:64-i64:64-f80:128-n8:16:32:64-S128"
target triple = "x86_64-pc-linux-gnu"

@started = internal unnamed_addr global i8 0, align 1
@weights = dso_local local_unnamed_addr global [4 x i32] zeroinitializer, align 16

; Function Attrs: mustprogress nofree norecurse nosync nounwind willreturn memory(write, argmem: none, inaccessiblemem: none)
define dso_local i32 @start() local_unnamed_addr #0 {
  store i8 1, ptr @started, align 1
  ret i32 0
}

; Function Attrs: mustprogress nofree nosync nounwind willreturn memory(read, argmem: none, inaccessiblemem: none)
define dso_local i32 @weight_at(i32 noundef %0, i32 noundef %1) local_unnamed_addr #1 {
  %3 = load i8, ptr @started, align 1
  %4 = trunc i8 %3 to i1
  %5 = or i32 %1, %0
  %6 = icmp ult i32 %5, 4
  %7 = and i1 %6, %4
  br i1 %7, label %8, label %42

8:                                                ; preds = %2
  %9 = load i32, ptr @weights, align 16, !tbaa !5
  %10 = load i32, ptr getelementptr inbounds ([4 x i32], ptr @weights, i64 0, i64 1), align 4, !tbaa !5
  %11 = load i32, ptr getelementptr inbounds ([4 x i32], ptr @weights, i64 0, i64 2), align 8, !tbaa !5
  %12 = load i32, ptr getelementptr inbounds ([4 x i32], ptr @weights, i64 0, i64 3), align 4, !tbaa !5
  %13 = zext i32 %0 to i64
  %14 = mul i64 %13, 4
  %15 = add i64 0, %14
  %16 = icmp eq i64 %15, 0
  %17 = icmp eq i64 %15, 4
  %18 = or i1 %16, %17
  %19 = icmp eq i64 %15, 8
  %20 = or i1 %18, %19
  %21 = icmp eq i64 %15, 12
  %22 = or i1 %20, %21
  call void @llvm.assume(i1 %22)
  %23 = select i1 %16, i32 %9, i32 %9
  %24 = select i1 %17, i32 %9, i32 %10
  %25 = select i1 %19, i32 %9, i32 %11
  %26 = select i1 %21, i32 %9, i32 %12
  %27 = getelementptr inbounds [4 x i32], ptr @weights, i64 0, i64 %13
  %28 = load i32, ptr %27, align 4, !tbaa !5
  %29 = zext i32 %1 to i64
  %30 = mul i64 %29, 4
  %31 = add i64 0, %30
  %32 = icmp eq i64 %31, 0
  %33 = icmp eq i64 %31, 4
  %34 = or i1 %32, %33
  %35 = icmp eq i64 %31, 8
  %36 = or i1 %34, %35
  %37 = icmp eq i64 %31, 12
  %38 = or i1 %36, %37
  call void @llvm.assume(i1 %38)
  %39 = select i1 %33, i32 %24, i32 %28
  %40 = select i1 %35, i32 %25, i32 %39
  %41 = select i1 %37, i32 %26, i32 %40
  br label %42

42:                                               ; preds = %8, %2
  %43 = phi i32 [ %41, %8 ], [ 0, %2 ]
  ret i32 %43
}

; Function Attrs: nocallback nofree nosync nounwind willreturn memory(inaccessiblemem: readwrite)
declare void @llvm.assume(i1 noundef) #2

attributes #0 = { mustprogress nofree norecurse nosync nounwind willreturn memory(write, argmem: none, inaccessiblemem: none) "min-legal-vector-width"="0" "no-builtins" "no-trapping-math"="true" "stack-protector-buffer-size"="8" "target-cpu"="x86-64" "target-features"="+cx8,+fxsr,+mmx,+sse,+sse2,+x87" "tune-cpu"="generic" }
attributes #1 = { mustprogress nofree nosync nounwind willreturn memory(read, argmem: none, inaccessiblemem: none) "min-legal-vector-width"="0" "no-builtins" "no-trapping-math"="true" "stack-protector-buffer-size"="8" "target-cpu"="x86-64" "target-features"="+cx8,+fxsr,+mmx,+sse,+sse2,+x87" "tune-cpu"="generic" }
attributes #2 = { nocallback nofree nosync nounwind willreturn memory(inaccessiblemem: readwrite) }

!llvm.module.flags = !{!0, !1, !2}
!llvm.ident = !{!3}
!hkv.lowered = !{!4}

!0 = !{i32 1, !"wchar_size", i32 4}
!1 = !{i32 8, !"PIC Level", i32 2}
!2 = !{i32 7, !"PIE Level", i32 2}
!3 = !{!"Debian clang version 16.0.6 (15~deb12u1)"}
!4 = !{!"This text was written by hkv lower, LLVM 16.0.6. It is the text to compile and to link."}
!5 = !{!6, !6, i64 0}
!6 = !{!"int", !7, i64 0}
!7 = !{!"omnipotent char", !8, i64 0}
!8 = !{!"Simple C/C++ TBAA"}
