; ModuleID = 'first.ll'
source_filename = "wire.c"
target datalayout = "e-m:e-p270:32:32-p271:32:32-p272:64:64-i64:64-f80:128-n8:16:32:64-S128"
target triple = "x86_64-pc-linux-gnu"

%struct.descriptor = type { i64, i32, i16, i16 }

@ring = dso_local local_unnamed_addr global [16 x %struct.descriptor] zeroinitializer, align 16

; Function Attrs: mustprogress nofree nosync nounwind willreturn memory(readwrite, argmem: none, inaccessiblemem: none)
define dso_local i32 @describe(i32 noundef %0, i64 noundef %1, i32 noundef %2, i16 noundef zeroext %3) local_unnamed_addr #0 {
  %5 = icmp ugt i32 %0, 15
  br i1 %5, label %56, label %6

6:                                                ; preds = %4
  %7 = zext i32 %0 to i64
  %8 = getelementptr inbounds [16 x %struct.descriptor], ptr @ring, i64 0, i64 %7, i32 3
  %9 = load i16, ptr %8, align 2, !tbaa !5
  %10 = icmp ne i16 %9, 0
  %11 = icmp eq i32 %2, 0
  %12 = or i1 %11, %10
  br i1 %12, label %56, label %13

13:                                               ; preds = %6
  %14 = getelementptr inbounds [16 x %struct.descriptor], ptr @ring, i64 0, i64 %7
  %15 = shl i64 %1, 56
  %16 = and i64 %15, -72057594037927936
  %17 = shl i64 %1, 40
  %18 = and i64 %17, 71776119061217280
  %19 = or i64 %16, %18
  %20 = shl i64 %1, 24
  %21 = and i64 %20, 280375465082880
  %22 = or i64 %19, %21
  %23 = shl i64 %1, 8
  %24 = and i64 %23, 1095216660480
  %25 = or i64 %22, %24
  %26 = lshr i64 %1, 8
  %27 = and i64 %26, 4278190080
  %28 = or i64 %25, %27
  %29 = lshr i64 %1, 24
  %30 = and i64 %29, 16711680
  %31 = or i64 %28, %30
  %32 = lshr i64 %1, 40
  %33 = and i64 %32, 65280
  %34 = or i64 %31, %33
  %35 = lshr i64 %1, 56
  %36 = and i64 %35, 255
  %37 = or i64 %34, %36
  store i64 %37, ptr %14, align 16, !tbaa !12
  %38 = shl i32 %2, 24
  %39 = and i32 %38, -16777216
  %40 = shl i32 %2, 8
  %41 = and i32 %40, 16711680
  %42 = or i32 %39, %41
  %43 = lshr i32 %2, 8
  %44 = and i32 %43, 65280
  %45 = or i32 %42, %44
  %46 = lshr i32 %2, 24
  %47 = and i32 %46, 255
  %48 = or i32 %45, %47
  %49 = getelementptr inbounds [16 x %struct.descriptor], ptr @ring, i64 0, i64 %7, i32 1
  store i32 %48, ptr %49, align 8, !tbaa !13
  %50 = shl i16 %3, 8
  %51 = and i16 %50, -256
  %52 = lshr i16 %3, 8
  %53 = and i16 %52, 255
  %54 = or i16 %51, %53
  %55 = getelementptr inbounds [16 x %struct.descriptor], ptr @ring, i64 0, i64 %7, i32 2
  store i16 %54, ptr %55, align 4, !tbaa !14
  store i16 1, ptr %8, align 2, !tbaa !5
  br label %56

56:                                               ; preds = %13, %6, %4
  %57 = phi i32 [ 0, %13 ], [ -1, %6 ], [ -1, %4 ]
  ret i32 %57
}

; Function Attrs: mustprogress nofree nosync nounwind willreturn memory(read, argmem: none, inaccessiblemem: none)
define dso_local i32 @length_of(i32 noundef %0) local_unnamed_addr #1 {
  %2 = icmp ult i32 %0, 16
  br i1 %2, label %3, label %18

3:                                                ; preds = %1
  %4 = zext i32 %0 to i64
  %5 = getelementptr inbounds [16 x %struct.descriptor], ptr @ring, i64 0, i64 %4, i32 1
  %6 = load i32, ptr %5, align 8, !tbaa !13
  %.fixed = freeze i32 %6
  %7 = shl i32 %.fixed, 24
  %8 = and i32 %7, -16777216
  %9 = shl i32 %.fixed, 8
  %10 = and i32 %9, 16711680
  %11 = or i32 %8, %10
  %12 = lshr i32 %.fixed, 8
  %13 = and i32 %12, 65280
  %14 = or i32 %11, %13
  %15 = lshr i32 %.fixed, 24
  %16 = and i32 %15, 255
  %17 = or i32 %14, %16
  br label %18

18:                                               ; preds = %3, %1
  %19 = phi i32 [ %17, %3 ], [ 0, %1 ]
  ret i32 %19
}

attributes #0 = { mustprogress nofree nosync nounwind willreturn memory(readwrite, argmem: none, inaccessiblemem: none) "min-legal-vector-width"="0" "no-builtins" "no-trapping-math"="true" "stack-protector-buffer-size"="8" "target-cpu"="x86-64" "target-features"="+cx8,+fxsr,+mmx,+sse,+sse2,+x87" "tune-cpu"="generic" }
attributes #1 = { mustprogress nofree nosync nounwind willreturn memory(read, argmem: none, inaccessiblemem: none) "min-legal-vector-width"="0" "no-builtins" "no-trapping-math"="true" "stack-protector-buffer-size"="8" "target-cpu"="x86-64" "target-features"="+cx8,+fxsr,+mmx,+sse,+sse2,+x87" "tune-cpu"="generic" }

!llvm.module.flags = !{!0, !1, !2}
!llvm.ident = !{!3}
!hkv.lowered = !{!4}

!0 = !{i32 1, !"wchar_size", i32 4}
!1 = !{i32 8, !"PIC Level", i32 2}
!2 = !{i32 7, !"PIE Level", i32 2}
!3 = !{!"Debian clang version 16.0.6 (15~deb12u1)"}
!4 = !{!"This text was written by hkv lower, LLVM 16.0.6. It is the text to compile and to link."}
!5 = !{!6, !11, i64 14}
!6 = !{!"descriptor", !7, i64 0, !10, i64 8, !11, i64 12, !11, i64 14}
!7 = !{!"long", !8, i64 0}
!8 = !{!"omnipotent char", !9, i64 0}
!9 = !{!"Simple C/C++ TBAA"}
!10 = !{!"int", !8, i64 0}
!11 = !{!"short", !8, i64 0}
!12 = !{!6, !7, i64 0}
!13 = !{!6, !10, i64 8}
!14 = !{!6, !11, i64 12}
