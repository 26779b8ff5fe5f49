; ModuleID = 'first.ll'
source_filename = "rights.c"
target datalayout = "e-m:e-p270:32:32-p271:32:32-p272:64:64-i64:64-f80:128-n8:16:32:64-S128"
target triple = "x86_64-pc-linux-gnu"

@rights = dso_local local_unnamed_addr global [16 x i64] zeroinitializer, align 16

; Function Attrs: mustprogress nofree nosync nounwind willreturn memory(readwrite, argmem: none, inaccessiblemem: none)
define dso_local i32 @grant(i32 noundef %0, i32 noundef %1, i64 noundef %2) local_unnamed_addr #0 {
  %4 = or i32 %1, %0
  %5 = icmp ult i32 %4, 16
  br i1 %5, label %6, label %45

6:                                                ; preds = %3
  %7 = zext i32 %0 to i64
  %8 = getelementptr inbounds [16 x i64], ptr @rights, i64 0, i64 %7
  %9 = load i64, ptr %8, align 8, !tbaa !5
  %10 = xor i64 %9, -1
  %11 = and i64 %10, %2
  %12 = icmp ne i64 %11, 0
  %13 = and i64 %2, 6148914691236517205
  %14 = lshr i64 %2, 1
  %15 = and i64 %14, 6148914691236517205
  %16 = add i64 %13, %15
  %17 = and i64 %16, 3689348814741910323
  %18 = lshr i64 %16, 2
  %19 = and i64 %18, 3689348814741910323
  %20 = add i64 %17, %19
  %21 = and i64 %20, 1085102592571150095
  %22 = lshr i64 %20, 4
  %23 = and i64 %22, 1085102592571150095
  %24 = add i64 %21, %23
  %25 = and i64 %24, 71777214294589695
  %26 = lshr i64 %24, 8
  %27 = and i64 %26, 71777214294589695
  %28 = add i64 %25, %27
  %29 = and i64 %28, 281470681808895
  %30 = lshr i64 %28, 16
  %31 = and i64 %30, 281470681808895
  %32 = add i64 %29, %31
  %33 = and i64 %32, 4294967295
  %34 = lshr i64 %32, 32
  %35 = and i64 %34, 4294967295
  %36 = add i64 %33, %35
  %37 = trunc i64 %36 to i32
  %38 = icmp ugt i32 %37, 4
  %39 = or i1 %38, %12
  br i1 %39, label %45, label %40

40:                                               ; preds = %6
  %41 = zext i32 %1 to i64
  %42 = getelementptr inbounds [16 x i64], ptr @rights, i64 0, i64 %41
  %43 = load i64, ptr %42, align 8, !tbaa !5
  %44 = or i64 %43, %2
  store i64 %44, ptr %42, align 8, !tbaa !5
  br label %45

45:                                               ; preds = %40, %6, %3
  %46 = phi i32 [ 0, %40 ], [ -1, %3 ], [ -1, %6 ]
  ret i32 %46
}

attributes #0 = { mustprogress nofree nosync nounwind willreturn memory(readwrite, argmem: none, inaccessiblemem: none) "min-legal-vector-width"="0" "no-builtins" "no-trapping-math"="true" "stack-protector-buffer-size"="8" "target-cpu"="x86-64" "target-features"="+cx8,+fxsr,+mmx,+sse,+sse2,+x87" "tune-cpu"="generic" }

!llvm.module.flags = !{!0, !1, !2}
!llvm.ident = !{!3}
!hkv.lowered = !{!4}

!0 = !{i32 1, !"wchar_size", i32 4}
!1 = !{i32 8, !"PIC Level", i32 2}
!2 = !{i32 7, !"PIE Level", i32 2}
!3 = !{!"Debian clang version 16.0.6 (15~deb12u1)"}
!4 = !{!"This text was written by hkv lower, LLVM 16.0.6. It is the text to compile and to link."}
!5 = !{!6, !6, i64 0}
!6 = !{!"long", !7, i64 0}
!7 = !{!"omnipotent char", !8, i64 0}
!8 = !{!"Simple C/C++ TBAA"}
