; ModuleID = 'pick.c'
source_filename = "pick.c"
target datalayout = "e-m:e-p270:32:32-p271:32:32-p272:64:64-i64:64-f80:128-n8:16:32:64-S128"
target triple = "x86_64-pc-linux-gnu"

; Function Attrs: mustprogress nofree norecurse nosync nounwind optsize willreturn memory(none) uwtable
define dso_local i32 @pick(i32 noundef %0, i32 noundef %1, i32 noundef %2) local_unnamed_addr #0 !dbg !9 {
  call void @llvm.dbg.value(metadata i32 %0, metadata !14, metadata !DIExpression()), !dbg !17
  call void @llvm.dbg.value(metadata i32 %1, metadata !15, metadata !DIExpression()), !dbg !17
  call void @llvm.dbg.value(metadata i32 %2, metadata !16, metadata !DIExpression()), !dbg !17
  switch i32 %0, label %14 [
    i32 0, label %4
    i32 1, label %6
    i32 7, label %8
    i32 -3, label %10
  ], !dbg !18

4:                                                ; preds = %3
  %5 = add nsw i32 %2, %1, !dbg !19
  br label %14, !dbg !21

6:                                                ; preds = %3
  %7 = sub nsw i32 %1, %2, !dbg !22
  br label %14, !dbg !23

8:                                                ; preds = %3
  %9 = mul nsw i32 %2, %1, !dbg !24
  br label %14, !dbg !25

10:                                               ; preds = %3
  %11 = icmp eq i32 %2, 0, !dbg !26
  br i1 %11, label %14, label %12, !dbg !26

12:                                               ; preds = %10
  %13 = sdiv i32 %1, %2, !dbg !27
  br label %14, !dbg !26

14:                                               ; preds = %3, %12, %10, %8, %6, %4
  %15 = phi i32 [ %9, %8 ], [ %7, %6 ], [ %5, %4 ], [ %13, %12 ], [ 0, %10 ], [ -1, %3 ], !dbg !28
  ret i32 %15, !dbg !29
}

; Function Attrs: nocallback nofree nosync nounwind speculatable willreturn memory(none)
declare void @llvm.dbg.value(metadata, metadata, metadata) #1

attributes #0 = { mustprogress nofree norecurse nosync nounwind optsize willreturn memory(none) uwtable "min-legal-vector-width"="0" "no-trapping-math"="true" "stack-protector-buffer-size"="8" "target-cpu"="x86-64" "target-features"="+cx8,+fxsr,+mmx,+sse,+sse2,+x87" "tune-cpu"="generic" }
attributes #1 = { nocallback nofree nosync nounwind speculatable willreturn memory(none) }

!llvm.dbg.cu = !{!0}
!llvm.module.flags = !{!2, !3, !4, !5, !6, !7}
!llvm.ident = !{!8}

!0 = distinct !DICompileUnit(language: DW_LANG_C11, file: !1, producer: "Debian clang version 16.0.6 (15~deb12u1)", isOptimized: true, runtimeVersion: 0, emissionKind: FullDebug, splitDebugInlining: false, nameTableKind: None)
!1 = !DIFile(filename: "pick.c", directory: ".", checksumkind: CSK_MD5, checksum: "56ad5c294073e35476cd6eb8589ac228")
!2 = !{i32 7, !"Dwarf Version", i32 5}
!3 = !{i32 2, !"Debug Info Version", i32 3}
!4 = !{i32 1, !"wchar_size", i32 4}
!5 = !{i32 8, !"PIC Level", i32 2}
!6 = !{i32 7, !"PIE Level", i32 2}
!7 = !{i32 7, !"uwtable", i32 2}
!8 = !{!"Debian clang version 16.0.6 (15~deb12u1)"}
!9 = distinct !DISubprogram(name: "pick", scope: !1, file: !1, line: 1, type: !10, scopeLine: 1, flags: DIFlagPrototyped | DIFlagAllCallsDescribed, spFlags: DISPFlagDefinition | DISPFlagOptimized, unit: !0, retainedNodes: !13)
!10 = !DISubroutineType(types: !11)
!11 = !{!12, !12, !12, !12}
!12 = !DIBasicType(name: "int", size: 32, encoding: DW_ATE_signed)
!13 = !{!14, !15, !16}
!14 = !DILocalVariable(name: "kind", arg: 1, scope: !9, file: !1, line: 1, type: !12)
!15 = !DILocalVariable(name: "a", arg: 2, scope: !9, file: !1, line: 1, type: !12)
!16 = !DILocalVariable(name: "b", arg: 3, scope: !9, file: !1, line: 1, type: !12)
!17 = !DILocation(line: 0, scope: !9)
!18 = !DILocation(line: 2, column: 3, scope: !9)
!19 = !DILocation(line: 3, column: 20, scope: !20)
!20 = distinct !DILexicalBlock(scope: !9, file: !1, line: 2, column: 17)
!21 = !DILocation(line: 3, column: 11, scope: !20)
!22 = !DILocation(line: 4, column: 20, scope: !20)
!23 = !DILocation(line: 4, column: 11, scope: !20)
!24 = !DILocation(line: 5, column: 20, scope: !20)
!25 = !DILocation(line: 5, column: 11, scope: !20)
!26 = !DILocation(line: 6, column: 19, scope: !20)
!27 = !DILocation(line: 6, column: 25, scope: !20)
!28 = !DILocation(line: 0, scope: !20)
!29 = !DILocation(line: 9, column: 1, scope: !9)
