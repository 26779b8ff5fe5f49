; ModuleID = 'first.ll'
source_filename = "clear.c"
target datalayout = "e-m:e-p270:32:32-p271:32:32-p272:64:64-i64:64-f80:128-n8:16:32:64-S128"
target triple = "x86_64-pc-linux-gnu"

%struct.proc = type { i32, i32, [6 x i64] }

@current = dso_local local_unnamed_addr global i32 0, align 4
@procs = dso_local global [8 x %struct.proc] zeroinitializer, align 16

; Function Attrs: nounwind
define dso_local i32 @reap(i32 noundef %0) local_unnamed_addr #0 {
  %2 = icmp ugt i32 %0, 7
  br i1 %2, label %19, label %3

3:                                                ; preds = %1
  %4 = load i32, ptr @current, align 4, !tbaa !5
  %5 = icmp eq i32 %4, %0
  br i1 %5, label %19, label %6

6:                                                ; preds = %3
  %7 = zext i32 %0 to i64
  %8 = getelementptr inbounds [8 x %struct.proc], ptr @procs, i64 0, i64 %7, i32 1
  %9 = load i32, ptr %8, align 4, !tbaa !9
  %10 = icmp eq i32 %9, %4
  br i1 %10, label %11, label %19

11:                                               ; preds = %6
  %12 = getelementptr inbounds [8 x %struct.proc], ptr @procs, i64 0, i64 %7
  store i64 0, ptr %12, align 8
  %13 = getelementptr inbounds i8, ptr %12, i64 8
  store i64 0, ptr %13, align 8
  %14 = getelementptr inbounds i8, ptr %12, i64 16
  store i64 0, ptr %14, align 8
  %15 = getelementptr inbounds i8, ptr %12, i64 24
  store i64 0, ptr %15, align 8
  %16 = getelementptr inbounds i8, ptr %12, i64 32
  store i64 0, ptr %16, align 8
  %17 = getelementptr inbounds i8, ptr %12, i64 40
  store i64 0, ptr %17, align 8
  %18 = getelementptr inbounds i8, ptr %12, i64 48
  store i64 0, ptr %18, align 8
  br label %19

19:                                               ; preds = %11, %6, %3, %1
  %20 = phi i32 [ 0, %11 ], [ -1, %6 ], [ -1, %3 ], [ -1, %1 ]
  ret i32 %20
}

; Function Attrs: nounwind
declare ptr @memset(ptr noundef, i32 noundef, i64 noundef) local_unnamed_addr #1

attributes #0 = { nounwind "min-legal-vector-width"="0" "no-builtins" "no-trapping-math"="true" "stack-protector-buffer-size"="8" "target-cpu"="x86-64" "target-features"="+cx8,+fxsr,+mmx,+sse,+sse2,+x87" "tune-cpu"="generic" }
attributes #1 = { nounwind "no-builtins" "no-trapping-math"="true" "stack-protector-buffer-size"="8" "target-cpu"="x86-64" "target-features"="+cx8,+fxsr,+mmx,+sse,+sse2,+x87" "tune-cpu"="generic" }

!llvm.module.flags = !{!0, !1, !2}
!llvm.ident = !{!3}
!hkv.lowered = !{!4}

!0 = !{i32 1, !"wchar_size", i32 4}
!1 = !{i32 8, !"PIC Level", i32 2}
!2 = !{i32 7, !"PIE Level", i32 2}
!3 = !{!"Debian clang version 16.0.6 (15~deb12u1)"}
!4 = !{!"This text was written by hkv lower, LLVM 16.0.6. It is the text to compile and to link."}
!5 = !{!6, !6, i64 0}
!6 = !{!"int", !7, i64 0}
!7 = !{!"omnipotent char", !8, i64 0}
!8 = !{!"Simple C/C++ TBAA"}
!9 = !{!10, !6, i64 4}
!10 = !{!"proc", !6, i64 0, !6, i64 4, !7, i64 8}
