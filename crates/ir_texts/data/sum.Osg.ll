; ModuleID = 'sum.c'
source_filename = "sum.c"
target datalayout = "e-m:e-p270:32:32-p271:32:32-p272:64:64-i64:64-f80:128-n8:16:32:64-S128"
target triple = "x86_64-pc-linux-gnu"

; Function Attrs: nofree norecurse nosync nounwind optsize memory(argmem: read) uwtable
define dso_local i32 @sum(ptr nocapture noundef readonly %0, i32 noundef %1) local_unnamed_addr #0 !dbg !9 {
  call void @llvm.dbg.value(metadata ptr %0, metadata !16, metadata !DIExpression()), !dbg !21
  call void @llvm.dbg.value(metadata i32 %1, metadata !17, metadata !DIExpression()), !dbg !21
  call void @llvm.dbg.value(metadata i32 0, metadata !18, metadata !DIExpression()), !dbg !21
  call void @llvm.dbg.value(metadata i32 0, metadata !19, metadata !DIExpression()), !dbg !22
  %3 = icmp eq i32 %1, 0, !dbg !23
  br i1 %3, label %6, label %4, !dbg !25

4:                                                ; preds = %2
  %5 = zext i32 %1 to i64, !dbg !23
  br label %8, !dbg !25

6:                                                ; preds = %8, %2
  %7 = phi i32 [ 0, %2 ], [ %13, %8 ], !dbg !21
  ret i32 %7, !dbg !26

8:                                                ; preds = %4, %8
  %9 = phi i64 [ 0, %4 ], [ %14, %8 ]
  %10 = phi i32 [ 0, %4 ], [ %13, %8 ]
  call void @llvm.dbg.value(metadata i64 %9, metadata !19, metadata !DIExpression()), !dbg !22
  call void @llvm.dbg.value(metadata i32 %10, metadata !18, metadata !DIExpression()), !dbg !21
  %11 = getelementptr inbounds i32, ptr %0, i64 %9, !dbg !27
  %12 = load i32, ptr %11, align 4, !dbg !27, !tbaa !28
  %13 = add i32 %12, %10, !dbg !32
  call void @llvm.dbg.value(metadata i32 %13, metadata !18, metadata !DIExpression()), !dbg !21
  %14 = add nuw nsw i64 %9, 1, !dbg !33
  call void @llvm.dbg.value(metadata i64 %14, metadata !19, metadata !DIExpression()), !dbg !22
  %15 = icmp eq i64 %14, %5, !dbg !23
  br i1 %15, label %6, label %8, !dbg !25, !llvm.loop !34
}

; Function Attrs: nocallback nofree nosync nounwind speculatable willreturn memory(none)
declare void @llvm.dbg.value(metadata, metadata, metadata) #1

attributes #0 = { nofree norecurse nosync nounwind optsize memory(argmem: read) uwtable "min-legal-vector-width"="0" "no-trapping-math"="true" "stack-protector-buffer-size"="8" "target-cpu"="x86-64" "target-features"="+cx8,+fxsr,+mmx,+sse,+sse2,+x87" "tune-cpu"="generic" }
attributes #1 = { nocallback nofree nosync nounwind speculatable willreturn memory(none) }

!llvm.dbg.cu = !{!0}
!llvm.module.flags = !{!2, !3, !4, !5, !6, !7}
!llvm.ident = !{!8}

!0 = distinct !DICompileUnit(language: DW_LANG_C11, file: !1, producer: "Debian clang version 16.0.6 (15~deb12u1)", isOptimized: true, runtimeVersion: 0, emissionKind: FullDebug, splitDebugInlining: false, nameTableKind: None)
!1 = !DIFile(filename: "sum.c", directory: ".", checksumkind: CSK_MD5, checksum: "a98b4230bafca4f83df7c27e3fd1a812")
!2 = !{i32 7, !"Dwarf Version", i32 5}
!3 = !{i32 2, !"Debug Info Version", i32 3}
!4 = !{i32 1, !"wchar_size", i32 4}
!5 = !{i32 8, !"PIC Level", i32 2}
!6 = !{i32 7, !"PIE Level", i32 2}
!7 = !{i32 7, !"uwtable", i32 2}
!8 = !{!"Debian clang version 16.0.6 (15~deb12u1)"}
!9 = distinct !DISubprogram(name: "sum", scope: !1, file: !1, line: 1, type: !10, scopeLine: 1, flags: DIFlagPrototyped | DIFlagAllCallsDescribed, spFlags: DISPFlagDefinition | DISPFlagOptimized, unit: !0, retainedNodes: !15)
!10 = !DISubroutineType(types: !11)
!11 = !{!12, !13, !12}
!12 = !DIBasicType(name: "unsigned int", size: 32, encoding: DW_ATE_unsigned)
!13 = !DIDerivedType(tag: DW_TAG_pointer_type, baseType: !14, size: 64)
!14 = !DIDerivedType(tag: DW_TAG_const_type, baseType: !12)
!15 = !{!16, !17, !18, !19}
!16 = !DILocalVariable(name: "p", arg: 1, scope: !9, file: !1, line: 1, type: !13)
!17 = !DILocalVariable(name: "n", arg: 2, scope: !9, file: !1, line: 1, type: !12)
!18 = !DILocalVariable(name: "s", scope: !9, file: !1, line: 2, type: !12)
!19 = !DILocalVariable(name: "i", scope: !20, file: !1, line: 3, type: !12)
!20 = distinct !DILexicalBlock(scope: !9, file: !1, line: 3, column: 3)
!21 = !DILocation(line: 0, scope: !9)
!22 = !DILocation(line: 0, scope: !20)
!23 = !DILocation(line: 3, column: 26, scope: !24)
!24 = distinct !DILexicalBlock(scope: !20, file: !1, line: 3, column: 3)
!25 = !DILocation(line: 3, column: 3, scope: !20)
!26 = !DILocation(line: 4, column: 3, scope: !9)
!27 = !DILocation(line: 3, column: 41, scope: !24)
!28 = !{!29, !29, i64 0}
!29 = !{!"int", !30, i64 0}
!30 = !{!"omnipotent char", !31, i64 0}
!31 = !{!"Simple C/C++ TBAA"}
!32 = !DILocation(line: 3, column: 38, scope: !24)
!33 = !DILocation(line: 3, column: 32, scope: !24)
!34 = distinct !{!34, !25, !35, !36}
!35 = !DILocation(line: 3, column: 44, scope: !20)
!36 = !{!"llvm.loop.mustprogress"}
