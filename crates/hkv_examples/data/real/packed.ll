; ModuleID = 'first.ll'
source_filename = "packed.c"
target datalayout = "e-m:e-p270:32:32-p271:32:32-p272:64:64-i64:64-f80:128-n8:16:32:64-S128"
target triple = "x86_64-pc-linux-gnu"

%struct.entry = type { [6 x i8] }

@table = dso_local local_unnamed_addr global [16 x %struct.entry] zeroinitializer, align 16

; Function Attrs: mustprogress nofree norecurse nosync nounwind willreturn memory(readwrite, argmem: none, inaccessiblemem: none)
define dso_local i32 @map_page(i32 noundef %0, i32 noundef %1, i32 noundef %2) local_unnamed_addr #0 {
  %4 = icmp ugt i32 %0, 15
  %5 = icmp ugt i32 %1, 4095
  %6 = or i1 %4, %5
  br i1 %6, label %41, label %7

7:                                                ; preds = %3
  %8 = zext i32 %0 to i64
  %9 = getelementptr inbounds [16 x %struct.entry], ptr @table, i64 0, i64 %8
  %10 = load i16, ptr %9, align 2
  %.fixed2 = freeze i16 %10
  %11 = zext i16 %.fixed2 to i64
  %12 = getelementptr inbounds i8, ptr %9, i64 2
  %13 = load i16, ptr %12, align 2
  %.fixed1 = freeze i16 %13
  %14 = zext i16 %.fixed1 to i64
  %15 = shl i64 %14, 16
  %16 = or i64 %11, %15
  %17 = getelementptr inbounds i8, ptr %9, i64 4
  %18 = load i16, ptr %17, align 2
  %.fixed = freeze i16 %18
  %19 = zext i16 %.fixed to i64
  %20 = shl i64 %19, 32
  %21 = or i64 %16, %20
  %22 = trunc i64 %21 to i48
  %23 = and i48 %22, 68719476736
  %24 = icmp eq i48 %23, 0
  br i1 %24, label %25, label %41

25:                                               ; preds = %7
  %26 = zext i32 %1 to i48
  %27 = and i48 %22, -274877906944
  %28 = icmp eq i32 %2, 0
  %29 = select i1 %28, i48 0, i48 137438953472
  %30 = or i48 %29, %26
  %31 = or i48 %30, %27
  %32 = or i48 %31, 68719476736
  %33 = zext i48 %32 to i64
  %34 = trunc i64 %33 to i16
  store i16 %34, ptr %9, align 2
  %35 = lshr i64 %33, 16
  %36 = trunc i64 %35 to i16
  %37 = getelementptr inbounds i8, ptr %9, i64 2
  store i16 %36, ptr %37, align 2
  %38 = lshr i64 %33, 32
  %39 = trunc i64 %38 to i16
  %40 = getelementptr inbounds i8, ptr %9, i64 4
  store i16 %39, ptr %40, align 2
  br label %41

41:                                               ; preds = %25, %7, %3
  %42 = phi i32 [ 0, %25 ], [ -1, %7 ], [ -1, %3 ]
  ret i32 %42
}

; Function Attrs: mustprogress nofree norecurse nosync nounwind willreturn memory(readwrite, argmem: none, inaccessiblemem: none)
define dso_local i32 @protect(i32 noundef %0) local_unnamed_addr #0 {
  %2 = icmp ugt i32 %0, 15
  br i1 %2, label %31, label %3

3:                                                ; preds = %1
  %4 = zext i32 %0 to i64
  %5 = getelementptr inbounds [16 x %struct.entry], ptr @table, i64 0, i64 %4
  %6 = load i16, ptr %5, align 2
  %.fixed2 = freeze i16 %6
  %7 = zext i16 %.fixed2 to i64
  %8 = getelementptr inbounds i8, ptr %5, i64 2
  %9 = load i16, ptr %8, align 2
  %.fixed1 = freeze i16 %9
  %10 = zext i16 %.fixed1 to i64
  %11 = shl i64 %10, 16
  %12 = or i64 %7, %11
  %13 = getelementptr inbounds i8, ptr %5, i64 4
  %14 = load i16, ptr %13, align 2
  %.fixed = freeze i16 %14
  %15 = zext i16 %.fixed to i64
  %16 = shl i64 %15, 32
  %17 = or i64 %12, %16
  %18 = trunc i64 %17 to i48
  %19 = and i48 %18, 68719476736
  %20 = icmp eq i48 %19, 0
  br i1 %20, label %31, label %21

21:                                               ; preds = %3
  %22 = and i48 %18, -137438953473
  %23 = zext i48 %22 to i64
  %24 = trunc i64 %23 to i16
  store i16 %24, ptr %5, align 2
  %25 = lshr i64 %23, 16
  %26 = trunc i64 %25 to i16
  %27 = getelementptr inbounds i8, ptr %5, i64 2
  store i16 %26, ptr %27, align 2
  %28 = lshr i64 %23, 32
  %29 = trunc i64 %28 to i16
  %30 = getelementptr inbounds i8, ptr %5, i64 4
  store i16 %29, ptr %30, align 2
  br label %31

31:                                               ; preds = %21, %3, %1
  %32 = phi i32 [ 0, %21 ], [ -1, %3 ], [ -1, %1 ]
  ret i32 %32
}

attributes #0 = { mustprogress nofree norecurse nosync nounwind willreturn memory(readwrite, argmem: none, inaccessiblemem: none) "min-legal-vector-width"="0" "no-builtins" "no-trapping-math"="true" "stack-protector-buffer-size"="8" "target-cpu"="x86-64" "target-features"="+cx8,+fxsr,+mmx,+sse,+sse2,+x87" "tune-cpu"="generic" }

!llvm.module.flags = !{!0, !1, !2}
!llvm.ident = !{!3}
!hkv.lowered = !{!4}

!0 = !{i32 1, !"wchar_size", i32 4}
!1 = !{i32 8, !"PIC Level", i32 2}
!2 = !{i32 7, !"PIE Level", i32 2}
!3 = !{!"Debian clang version 16.0.6 (15~deb12u1)"}
!4 = !{!"This text was written by hkv lower, LLVM 16.0.6. It is the text to compile and to link."}
