; ModuleID = 'local_array.c'
source_filename = "local_array.c"
target datalayout = "e-m:e-p270:32:32-p271:32:32-p272:64:64-i64:64-f80:128-n8:16:32:64-S128"
target triple = "x86_64-pc-linux-gnu"

@table = dso_local local_unnamed_addr global [4 x i32] zeroinitializer, align 16

; Function Attrs: mustprogress nofree nosync nounwind willreturn memory(read, argmem: none, inaccessiblemem: none)
define dso_local i32 @get(i32 noundef %0) local_unnamed_addr #0 {
  %2 = alloca [4 x i32], align 16
  call void @llvm.lifetime.start.p0(i64 16, ptr nonnull %2) #2
  %3 = load i32, ptr getelementptr inbounds ([4 x i32], ptr @table, i64 0, i64 3), align 4, !tbaa !4
  store i32 %3, ptr %2, align 16, !tbaa !4
  %4 = getelementptr inbounds i32, ptr %2, i64 1
  %5 = load i32, ptr getelementptr inbounds ([4 x i32], ptr @table, i64 0, i64 2), align 8, !tbaa !4
  store i32 %5, ptr %4, align 4, !tbaa !4
  %6 = getelementptr inbounds i32, ptr %2, i64 2
  %7 = load i32, ptr getelementptr inbounds ([4 x i32], ptr @table, i64 0, i64 1), align 4, !tbaa !4
  store i32 %7, ptr %6, align 8, !tbaa !4
  %8 = getelementptr inbounds i32, ptr %2, i64 3
  %9 = load i32, ptr @table, align 16, !tbaa !4
  store i32 %9, ptr %8, align 4, !tbaa !4
  %10 = and i32 %0, 3
  %11 = zext i32 %10 to i64
  %12 = getelementptr inbounds [4 x i32], ptr %2, i64 0, i64 %11
  %13 = load i32, ptr %12, align 4, !tbaa !4
  call void @llvm.lifetime.end.p0(i64 16, ptr nonnull %2) #2
  ret i32 %13
}

; Function Attrs: mustprogress nocallback nofree nosync nounwind willreturn memory(argmem: readwrite)
declare void @llvm.lifetime.start.p0(i64 immarg, ptr nocapture) #1

; Function Attrs: mustprogress nocallback nofree nosync nounwind willreturn memory(argmem: readwrite)
declare void @llvm.lifetime.end.p0(i64 immarg, ptr nocapture) #1

attributes #0 = { mustprogress nofree nosync nounwind willreturn memory(read, argmem: none, inaccessiblemem: none) "min-legal-vector-width"="0" "no-builtins" "no-trapping-math"="true" "stack-protector-buffer-size"="8" "target-cpu"="x86-64" "target-features"="+cx8,+fxsr,+mmx,+sse,+sse2,+x87" "tune-cpu"="generic" }
attributes #1 = { mustprogress nocallback nofree nosync nounwind willreturn memory(argmem: readwrite) }
attributes #2 = { nounwind }

!llvm.module.flags = !{!0, !1, !2}
!llvm.ident = !{!3}

!0 = !{i32 1, !"wchar_size", i32 4}
!1 = !{i32 8, !"PIC Level", i32 2}
!2 = !{i32 7, !"PIE Level", i32 2}
!3 = !{!"Debian clang version 16.0.6 (15~deb12u1)"}
!4 = !{!5, !5, i64 0}
!5 = !{!"int", !6, i64 0}
!6 = !{!"omnipotent char", !7, i64 0}
!7 = !{!"Simple C/C++ TBAA"}
