; ModuleID = 'linked.c'
source_filename = "linked.c"
target datalayout = "e-m:e-p270:32:32-p271:32:32-p272:64:64-i64:64-f80:128-n8:16:32:64-S128"
target triple = "x86_64-pc-linux-gnu"

%struct.node = type { ptr, i32 }

@nodes = dso_local global [2 x %struct.node] zeroinitializer, align 16, !dbg !0
@head = dso_local local_unnamed_addr global ptr @nodes, align 8, !dbg !5
@second = dso_local local_unnamed_addr global ptr getelementptr inbounds ([2 x %struct.node], ptr @nodes, i64 0, i64 1, i32 1), align 8, !dbg !13

; Function Attrs: mustprogress nofree norecurse nosync nounwind optsize willreturn memory(read, inaccessiblemem: none) uwtable
define dso_local i32 @first() local_unnamed_addr #0 !dbg !26 {
  %1 = load ptr, ptr @head, align 8, !dbg !30, !tbaa !31
  %2 = icmp eq ptr %1, null, !dbg !30
  br i1 %2, label %6, label %3, !dbg !30

3:                                                ; preds = %0
  %4 = getelementptr inbounds %struct.node, ptr %1, i64 0, i32 1, !dbg !35
  %5 = load i32, ptr %4, align 8, !dbg !35, !tbaa !36
  br label %6, !dbg !30

6:                                                ; preds = %0, %3
  %7 = phi i32 [ %5, %3 ], [ 0, %0 ], !dbg !30
  ret i32 %7, !dbg !39
}

attributes #0 = { mustprogress nofree norecurse nosync nounwind optsize willreturn memory(read, inaccessiblemem: none) uwtable "min-legal-vector-width"="0" "no-trapping-math"="true" "stack-protector-buffer-size"="8" "target-cpu"="x86-64" "target-features"="+cx8,+fxsr,+mmx,+sse,+sse2,+x87" "tune-cpu"="generic" }

!llvm.dbg.cu = !{!2}
!llvm.module.flags = !{!19, !20, !21, !22, !23, !24}
!llvm.ident = !{!25}

!0 = !DIGlobalVariableExpression(var: !1, expr: !DIExpression())
!1 = distinct !DIGlobalVariable(name: "nodes", scope: !2, file: !3, line: 2, type: !16, isLocal: false, isDefinition: true)
!2 = distinct !DICompileUnit(language: DW_LANG_C11, file: !3, producer: "Debian clang version 16.0.6 (15~deb12u1)", isOptimized: true, runtimeVersion: 0, emissionKind: FullDebug, globals: !4, splitDebugInlining: false, nameTableKind: None)
!3 = !DIFile(filename: "linked.c", directory: ".", checksumkind: CSK_MD5, checksum: "05a7117223edca67a16ce5be985a35e7")
!4 = !{!5, !13, !0}
!5 = !DIGlobalVariableExpression(var: !6, expr: !DIExpression())
!6 = distinct !DIGlobalVariable(name: "head", scope: !2, file: !3, line: 3, type: !7, isLocal: false, isDefinition: true)
!7 = !DIDerivedType(tag: DW_TAG_pointer_type, baseType: !8, size: 64)
!8 = distinct !DICompositeType(tag: DW_TAG_structure_type, name: "node", file: !3, line: 1, size: 128, elements: !9)
!9 = !{!10, !11}
!10 = !DIDerivedType(tag: DW_TAG_member, name: "next", scope: !8, file: !3, line: 1, baseType: !7, size: 64)
!11 = !DIDerivedType(tag: DW_TAG_member, name: "value", scope: !8, file: !3, line: 1, baseType: !12, size: 32, offset: 64)
!12 = !DIBasicType(name: "int", size: 32, encoding: DW_ATE_signed)
!13 = !DIGlobalVariableExpression(var: !14, expr: !DIExpression())
!14 = distinct !DIGlobalVariable(name: "second", scope: !2, file: !3, line: 4, type: !15, isLocal: false, isDefinition: true)
!15 = !DIDerivedType(tag: DW_TAG_pointer_type, baseType: !12, size: 64)
!16 = !DICompositeType(tag: DW_TAG_array_type, baseType: !8, size: 256, elements: !17)
!17 = !{!18}
!18 = !DISubrange(count: 2)
!19 = !{i32 7, !"Dwarf Version", i32 5}
!20 = !{i32 2, !"Debug Info Version", i32 3}
!21 = !{i32 1, !"wchar_size", i32 4}
!22 = !{i32 8, !"PIC Level", i32 2}
!23 = !{i32 7, !"PIE Level", i32 2}
!24 = !{i32 7, !"uwtable", i32 2}
!25 = !{!"Debian clang version 16.0.6 (15~deb12u1)"}
!26 = distinct !DISubprogram(name: "first", scope: !3, file: !3, line: 5, type: !27, scopeLine: 5, flags: DIFlagPrototyped | DIFlagAllCallsDescribed, spFlags: DISPFlagDefinition | DISPFlagOptimized, unit: !2, retainedNodes: !29)
!27 = !DISubroutineType(types: !28)
!28 = !{!12}
!29 = !{}
!30 = !DILocation(line: 5, column: 26, scope: !26)
!31 = !{!32, !32, i64 0}
!32 = !{!"any pointer", !33, i64 0}
!33 = !{!"omnipotent char", !34, i64 0}
!34 = !{!"Simple C/C++ TBAA"}
!35 = !DILocation(line: 5, column: 39, scope: !26)
!36 = !{!37, !38, i64 8}
!37 = !{!"node", !32, i64 0, !38, i64 8}
!38 = !{!"int", !33, i64 0}
!39 = !DILocation(line: 5, column: 19, scope: !26)
