; ModuleID = 'device.c'
source_filename = "device.c"
target datalayout = "e-m:e-p270:32:32-p271:32:32-p272:64:64-i64:64-f80:128-n8:16:32:64-S128"
target triple = "x86_64-pc-linux-gnu"

@device = dso_local global i32 0, align 4, !dbg !0

; Function Attrs: nofree norecurse nounwind optsize memory(readwrite, argmem: none) uwtable
define dso_local i32 @poll() local_unnamed_addr #0 !dbg !14 {
  call void @llvm.dbg.value(metadata i32 0, metadata !18, metadata !DIExpression()), !dbg !19
  br label %1, !dbg !20

1:                                                ; preds = %1, %0
  %2 = phi i32 [ 0, %0 ], [ %6, %1 ], !dbg !21
  call void @llvm.dbg.value(metadata i32 %2, metadata !18, metadata !DIExpression()), !dbg !19
  %3 = load volatile i32, ptr @device, align 4, !dbg !22, !tbaa !23
  %4 = and i32 %3, 1, !dbg !27
  %5 = icmp eq i32 %4, 0, !dbg !28
  %6 = add i32 %2, 1, !dbg !29
  call void @llvm.dbg.value(metadata i32 %6, metadata !18, metadata !DIExpression()), !dbg !19
  br i1 %5, label %1, label %7, !dbg !20, !llvm.loop !30

7:                                                ; preds = %1
  ret i32 %2, !dbg !32
}

; Function Attrs: nocallback nofree nosync nounwind speculatable willreturn memory(none)
declare void @llvm.dbg.value(metadata, metadata, metadata) #1

attributes #0 = { nofree norecurse nounwind optsize memory(readwrite, argmem: none) uwtable "min-legal-vector-width"="0" "no-trapping-math"="true" "stack-protector-buffer-size"="8" "target-cpu"="x86-64" "target-features"="+cx8,+fxsr,+mmx,+sse,+sse2,+x87" "tune-cpu"="generic" }
attributes #1 = { nocallback nofree nosync nounwind speculatable willreturn memory(none) }

!llvm.dbg.cu = !{!2}
!llvm.module.flags = !{!7, !8, !9, !10, !11, !12}
!llvm.ident = !{!13}

!0 = !DIGlobalVariableExpression(var: !1, expr: !DIExpression())
!1 = distinct !DIGlobalVariable(name: "device", scope: !2, file: !3, line: 1, type: !5, isLocal: false, isDefinition: true)
!2 = distinct !DICompileUnit(language: DW_LANG_C11, file: !3, producer: "Debian clang version 16.0.6 (15~deb12u1)", isOptimized: true, runtimeVersion: 0, emissionKind: FullDebug, globals: !4, splitDebugInlining: false, nameTableKind: None)
!3 = !DIFile(filename: "device.c", directory: ".", checksumkind: CSK_MD5, checksum: "2f59addc2fc3f0595e01cd0929c6d6b0")
!4 = !{!0}
!5 = !DIDerivedType(tag: DW_TAG_volatile_type, baseType: !6)
!6 = !DIBasicType(name: "unsigned int", size: 32, encoding: DW_ATE_unsigned)
!7 = !{i32 7, !"Dwarf Version", i32 5}
!8 = !{i32 2, !"Debug Info Version", i32 3}
!9 = !{i32 1, !"wchar_size", i32 4}
!10 = !{i32 8, !"PIC Level", i32 2}
!11 = !{i32 7, !"PIE Level", i32 2}
!12 = !{i32 7, !"uwtable", i32 2}
!13 = !{!"Debian clang version 16.0.6 (15~deb12u1)"}
!14 = distinct !DISubprogram(name: "poll", scope: !3, file: !3, line: 2, type: !15, scopeLine: 2, flags: DIFlagPrototyped | DIFlagAllCallsDescribed, spFlags: DISPFlagDefinition | DISPFlagOptimized, unit: !2, retainedNodes: !17)
!15 = !DISubroutineType(types: !16)
!16 = !{!6}
!17 = !{!18}
!18 = !DILocalVariable(name: "n", scope: !14, file: !3, line: 2, type: !6)
!19 = !DILocation(line: 0, scope: !14)
!20 = !DILocation(line: 2, column: 39, scope: !14)
!21 = !DILocation(line: 2, scope: !14)
!22 = !DILocation(line: 2, column: 48, scope: !14)
!23 = !{!24, !24, i64 0}
!24 = !{!"int", !25, i64 0}
!25 = !{!"omnipotent char", !26, i64 0}
!26 = !{!"Simple C/C++ TBAA"}
!27 = !DILocation(line: 2, column: 55, scope: !14)
!28 = !DILocation(line: 2, column: 46, scope: !14)
!29 = !DILocation(line: 2, column: 62, scope: !14)
!30 = distinct !{!30, !20, !29, !31}
!31 = !{!"llvm.loop.mustprogress"}
!32 = !DILocation(line: 2, column: 66, scope: !14)
