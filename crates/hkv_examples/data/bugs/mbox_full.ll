; ModuleID = 'mbox_full.c'
source_filename = "mbox_full.c"
target datalayout = "e-m:e-p270:32:32-p271:32:32-p272:64:64-i64:64-f80:128-n8:16:32:64-S128"
target triple = "x86_64-pc-linux-gnu"

%struct.mbox = type { i32, i32, i32, [4 x i32] }

@current = dso_local local_unnamed_addr global i32 0, align 4, !dbg !0
@boxes = dso_local local_unnamed_addr global [4 x %struct.mbox] zeroinitializer, align 16, !dbg !15

; Function Attrs: mustprogress nofree norecurse nosync nounwind willreturn memory(write, argmem: none, inaccessiblemem: none)
define dso_local i32 @sys_switch(i32 noundef %0) local_unnamed_addr #0 !dbg !34 {
  call void @llvm.dbg.value(metadata i32 %0, metadata !38, metadata !DIExpression()), !dbg !39
  %2 = icmp ugt i32 %0, 3, !dbg !40
  br i1 %2, label %4, label %3, !dbg !42

3:                                                ; preds = %1
  store i32 %0, ptr @current, align 4, !dbg !43, !tbaa !44
  br label %4, !dbg !48

4:                                                ; preds = %1, %3
  %5 = phi i32 [ 0, %3 ], [ -1, %1 ], !dbg !39
  ret i32 %5, !dbg !49
}

; Function Attrs: mustprogress nofree norecurse nosync nounwind willreturn memory(readwrite, argmem: none, inaccessiblemem: none)
define dso_local i32 @sys_door(i32 noundef %0) local_unnamed_addr #1 !dbg !50 {
  call void @llvm.dbg.value(metadata i32 %0, metadata !52, metadata !DIExpression()), !dbg !53
  %2 = icmp ugt i32 %0, 1, !dbg !54
  br i1 %2, label %7, label %3, !dbg !54

3:                                                ; preds = %1
  %4 = load i32, ptr @current, align 4, !dbg !56, !tbaa !44
  %5 = zext i32 %4 to i64, !dbg !57
  %6 = getelementptr inbounds [4 x %struct.mbox], ptr @boxes, i64 0, i64 %5, !dbg !57
  store i32 %0, ptr %6, align 4, !dbg !58, !tbaa !59
  br label %7, !dbg !61

7:                                                ; preds = %1, %3
  %8 = phi i32 [ 0, %3 ], [ -1, %1 ], !dbg !53
  ret i32 %8, !dbg !62
}

; Function Attrs: mustprogress nofree norecurse nosync nounwind willreturn memory(readwrite, argmem: none, inaccessiblemem: none)
define dso_local i32 @sys_send(i32 noundef %0, i32 noundef %1) local_unnamed_addr #1 !dbg !63 {
  call void @llvm.dbg.value(metadata i32 %0, metadata !67, metadata !DIExpression()), !dbg !69
  call void @llvm.dbg.value(metadata i32 %1, metadata !68, metadata !DIExpression()), !dbg !69
  %3 = icmp ugt i32 %0, 3, !dbg !70
  br i1 %3, label %23, label %4, !dbg !72

4:                                                ; preds = %2
  %5 = zext i32 %0 to i64, !dbg !73
  %6 = getelementptr inbounds [4 x %struct.mbox], ptr @boxes, i64 0, i64 %5, !dbg !73
  %7 = load i32, ptr %6, align 4, !dbg !74, !tbaa !59
  %8 = icmp eq i32 %7, 1, !dbg !75
  br i1 %8, label %9, label %23, !dbg !76

9:                                                ; preds = %4
  %10 = getelementptr inbounds [4 x %struct.mbox], ptr @boxes, i64 0, i64 %5, i32 2, !dbg !77
  %11 = load i32, ptr %10, align 4, !dbg !77, !tbaa !79
  %12 = icmp ugt i32 %11, 4, !dbg !80
  br i1 %12, label %23, label %13, !dbg !81

13:                                               ; preds = %9
  call void @llvm.dbg.value(metadata ptr %6, metadata !82, metadata !DIExpression()), !dbg !89
  %14 = getelementptr inbounds [4 x %struct.mbox], ptr @boxes, i64 0, i64 %5, i32 1, !dbg !91
  %15 = load i32, ptr %14, align 4, !dbg !91, !tbaa !92
  %16 = getelementptr inbounds [4 x %struct.mbox], ptr @boxes, i64 0, i64 %5, i32 2, !dbg !93
  %17 = load i32, ptr %16, align 4, !dbg !93, !tbaa !79
  %18 = add i32 %17, %15, !dbg !94
  %19 = and i32 %18, 3, !dbg !95
  %20 = zext i32 %19 to i64, !dbg !96
  %21 = getelementptr inbounds [4 x %struct.mbox], ptr @boxes, i64 0, i64 %5, i32 3, i64 %20, !dbg !96
  store i32 %1, ptr %21, align 4, !dbg !97, !tbaa !44
  %22 = add i32 %11, 1, !dbg !98
  store i32 %22, ptr %10, align 4, !dbg !98, !tbaa !79
  br label %23, !dbg !99

23:                                               ; preds = %9, %2, %4, %13
  %24 = phi i32 [ 0, %13 ], [ -1, %4 ], [ -1, %2 ], [ -1, %9 ], !dbg !69
  ret i32 %24, !dbg !100
}

; Function Attrs: mustprogress nofree norecurse nosync nounwind willreturn memory(readwrite, argmem: none, inaccessiblemem: none)
define dso_local i32 @sys_receive() local_unnamed_addr #1 !dbg !101 {
  %1 = load i32, ptr @current, align 4, !dbg !106, !tbaa !44
  %2 = zext i32 %1 to i64, !dbg !107
  call void @llvm.dbg.value(metadata !DIArgList(ptr @boxes, i64 %2), metadata !104, metadata !DIExpression(DW_OP_LLVM_arg, 0, DW_OP_LLVM_arg, 1, DW_OP_constu, 28, DW_OP_mul, DW_OP_plus, DW_OP_stack_value)), !dbg !108
  %3 = getelementptr inbounds [4 x %struct.mbox], ptr @boxes, i64 0, i64 %2, i32 2, !dbg !109
  %4 = load i32, ptr %3, align 4, !dbg !109, !tbaa !79
  %5 = icmp eq i32 %4, 0, !dbg !111
  br i1 %5, label %15, label %6, !dbg !112

6:                                                ; preds = %0
  call void @llvm.dbg.value(metadata !DIArgList(ptr @boxes, i64 %2), metadata !104, metadata !DIExpression(DW_OP_LLVM_arg, 0, DW_OP_LLVM_arg, 1, DW_OP_constu, 28, DW_OP_mul, DW_OP_plus, DW_OP_stack_value)), !dbg !108
  %7 = getelementptr inbounds [4 x %struct.mbox], ptr @boxes, i64 0, i64 %2, i32 1, !dbg !113
  %8 = load i32, ptr %7, align 4, !dbg !113, !tbaa !92
  %9 = zext i32 %8 to i64, !dbg !114
  %10 = getelementptr inbounds [4 x %struct.mbox], ptr @boxes, i64 0, i64 %2, i32 3, i64 %9, !dbg !114
  %11 = load i32, ptr %10, align 4, !dbg !114, !tbaa !44
  call void @llvm.dbg.value(metadata i32 %11, metadata !105, metadata !DIExpression()), !dbg !108
  %12 = add i32 %8, 1, !dbg !115
  %13 = and i32 %12, 3, !dbg !116
  store i32 %13, ptr %7, align 4, !dbg !117, !tbaa !92
  %14 = add i32 %4, -1, !dbg !118
  store i32 %14, ptr %3, align 4, !dbg !118, !tbaa !79
  br label %15

15:                                               ; preds = %0, %6
  %16 = phi i32 [ %11, %6 ], [ -1, %0 ], !dbg !108
  ret i32 %16, !dbg !119
}

; Function Attrs: nocallback nofree nosync nounwind speculatable willreturn memory(none)
declare void @llvm.dbg.value(metadata, metadata, metadata) #2

attributes #0 = { mustprogress nofree norecurse nosync nounwind willreturn memory(write, argmem: none, inaccessiblemem: none) "min-legal-vector-width"="0" "no-builtins" "no-trapping-math"="true" "stack-protector-buffer-size"="8" "target-cpu"="x86-64" "target-features"="+cx8,+fxsr,+mmx,+sse,+sse2,+x87" "tune-cpu"="generic" }
attributes #1 = { mustprogress nofree norecurse nosync nounwind willreturn memory(readwrite, argmem: none, inaccessiblemem: none) "min-legal-vector-width"="0" "no-builtins" "no-trapping-math"="true" "stack-protector-buffer-size"="8" "target-cpu"="x86-64" "target-features"="+cx8,+fxsr,+mmx,+sse,+sse2,+x87" "tune-cpu"="generic" }
attributes #2 = { nocallback nofree nosync nounwind speculatable willreturn memory(none) }

!llvm.dbg.cu = !{!2}
!llvm.module.flags = !{!28, !29, !30, !31, !32}
!llvm.ident = !{!33}

!0 = !DIGlobalVariableExpression(var: !1, expr: !DIExpression())
!1 = distinct !DIGlobalVariable(name: "current", scope: !2, file: !3, line: 17, type: !22, isLocal: false, isDefinition: true)
!2 = distinct !DICompileUnit(language: DW_LANG_C11, file: !3, producer: "Debian clang version 16.0.6 (15~deb12u1)", isOptimized: true, runtimeVersion: 0, emissionKind: FullDebug, enums: !4, retainedTypes: !10, globals: !14, splitDebugInlining: false, nameTableKind: None)
!3 = !DIFile(filename: "mbox_full.c", directory: ".", checksumkind: CSK_MD5, checksum: "7edaaae98df0aafe49b21a9c7c4466c5")
!4 = !{!5}
!5 = !DICompositeType(tag: DW_TAG_enumeration_type, name: "door", file: !3, line: 8, baseType: !6, size: 32, elements: !7)
!6 = !DIBasicType(name: "unsigned int", size: 32, encoding: DW_ATE_unsigned)
!7 = !{!8, !9}
!8 = !DIEnumerator(name: "CLOSED", value: 0)
!9 = !DIEnumerator(name: "OPEN", value: 1)
!10 = !{!11}
!11 = !DIDerivedType(tag: DW_TAG_typedef, name: "int32_t", file: !12, line: 193, baseType: !13)
!12 = !DIFile(filename: "/usr/lib/llvm-16/lib/clang/16/include/stdint.h", directory: "", checksumkind: CSK_MD5, checksum: "0e82edf2c903a970340d24c219392b88")
!13 = !DIBasicType(name: "int", size: 32, encoding: DW_ATE_signed)
!14 = !{!0, !15}
!15 = !DIGlobalVariableExpression(var: !16, expr: !DIExpression())
!16 = distinct !DIGlobalVariable(name: "boxes", scope: !2, file: !3, line: 18, type: !17, isLocal: false, isDefinition: true)
!17 = !DICompositeType(tag: DW_TAG_array_type, baseType: !18, size: 896, elements: !26)
!18 = distinct !DICompositeType(tag: DW_TAG_structure_type, name: "mbox", file: !3, line: 10, size: 224, elements: !19)
!19 = !{!20, !21, !23, !24}
!20 = !DIDerivedType(tag: DW_TAG_member, name: "door", scope: !18, file: !3, line: 11, baseType: !5, size: 32)
!21 = !DIDerivedType(tag: DW_TAG_member, name: "first", scope: !18, file: !3, line: 12, baseType: !22, size: 32, offset: 32)
!22 = !DIDerivedType(tag: DW_TAG_typedef, name: "uint32_t", file: !12, line: 198, baseType: !6)
!23 = !DIDerivedType(tag: DW_TAG_member, name: "count", scope: !18, file: !3, line: 13, baseType: !22, size: 32, offset: 64)
!24 = !DIDerivedType(tag: DW_TAG_member, name: "words", scope: !18, file: !3, line: 14, baseType: !25, size: 128, offset: 96)
!25 = !DICompositeType(tag: DW_TAG_array_type, baseType: !22, size: 128, elements: !26)
!26 = !{!27}
!27 = !DISubrange(count: 4)
!28 = !{i32 7, !"Dwarf Version", i32 5}
!29 = !{i32 2, !"Debug Info Version", i32 3}
!30 = !{i32 1, !"wchar_size", i32 4}
!31 = !{i32 8, !"PIC Level", i32 2}
!32 = !{i32 7, !"PIE Level", i32 2}
!33 = !{!"Debian clang version 16.0.6 (15~deb12u1)"}
!34 = distinct !DISubprogram(name: "sys_switch", scope: !3, file: !3, line: 26, type: !35, scopeLine: 26, flags: DIFlagPrototyped | DIFlagAllCallsDescribed, spFlags: DISPFlagDefinition | DISPFlagOptimized, unit: !2, retainedNodes: !37)
!35 = !DISubroutineType(types: !36)
!36 = !{!11, !22}
!37 = !{!38}
!38 = !DILocalVariable(name: "vm", arg: 1, scope: !34, file: !3, line: 26, type: !22)
!39 = !DILocation(line: 0, scope: !34)
!40 = !DILocation(line: 27, column: 12, scope: !41)
!41 = distinct !DILexicalBlock(scope: !34, file: !3, line: 27, column: 9)
!42 = !DILocation(line: 27, column: 9, scope: !34)
!43 = !DILocation(line: 29, column: 13, scope: !34)
!44 = !{!45, !45, i64 0}
!45 = !{!"int", !46, i64 0}
!46 = !{!"omnipotent char", !47, i64 0}
!47 = !{!"Simple C/C++ TBAA"}
!48 = !DILocation(line: 30, column: 5, scope: !34)
!49 = !DILocation(line: 31, column: 1, scope: !34)
!50 = distinct !DISubprogram(name: "sys_door", scope: !3, file: !3, line: 34, type: !35, scopeLine: 34, flags: DIFlagPrototyped | DIFlagAllCallsDescribed, spFlags: DISPFlagDefinition | DISPFlagOptimized, unit: !2, retainedNodes: !51)
!51 = !{!52}
!52 = !DILocalVariable(name: "door", arg: 1, scope: !50, file: !3, line: 34, type: !22)
!53 = !DILocation(line: 0, scope: !50)
!54 = !DILocation(line: 35, column: 24, scope: !55)
!55 = distinct !DILexicalBlock(scope: !50, file: !3, line: 35, column: 9)
!56 = !DILocation(line: 37, column: 11, scope: !50)
!57 = !DILocation(line: 37, column: 5, scope: !50)
!58 = !DILocation(line: 37, column: 25, scope: !50)
!59 = !{!60, !46, i64 0}
!60 = !{!"mbox", !46, i64 0, !45, i64 4, !45, i64 8, !46, i64 12}
!61 = !DILocation(line: 38, column: 5, scope: !50)
!62 = !DILocation(line: 39, column: 1, scope: !50)
!63 = distinct !DISubprogram(name: "sys_send", scope: !3, file: !3, line: 42, type: !64, scopeLine: 42, flags: DIFlagPrototyped | DIFlagAllCallsDescribed, spFlags: DISPFlagDefinition | DISPFlagOptimized, unit: !2, retainedNodes: !66)
!64 = !DISubroutineType(types: !65)
!65 = !{!11, !22, !22}
!66 = !{!67, !68}
!67 = !DILocalVariable(name: "vm", arg: 1, scope: !63, file: !3, line: 42, type: !22)
!68 = !DILocalVariable(name: "word", arg: 2, scope: !63, file: !3, line: 42, type: !22)
!69 = !DILocation(line: 0, scope: !63)
!70 = !DILocation(line: 43, column: 12, scope: !71)
!71 = distinct !DILexicalBlock(scope: !63, file: !3, line: 43, column: 9)
!72 = !DILocation(line: 43, column: 19, scope: !71)
!73 = !DILocation(line: 43, column: 22, scope: !71)
!74 = !DILocation(line: 43, column: 32, scope: !71)
!75 = !DILocation(line: 43, column: 37, scope: !71)
!76 = !DILocation(line: 43, column: 9, scope: !63)
!77 = !DILocation(line: 45, column: 19, scope: !78)
!78 = distinct !DILexicalBlock(scope: !63, file: !3, line: 45, column: 9)
!79 = !{!60, !45, i64 8}
!80 = !DILocation(line: 45, column: 25, scope: !78)
!81 = !DILocation(line: 45, column: 9, scope: !63)
!82 = !DILocalVariable(name: "box", arg: 1, scope: !83, file: !3, line: 21, type: !87)
!83 = distinct !DISubprogram(name: "behind", scope: !3, file: !3, line: 21, type: !84, scopeLine: 21, flags: DIFlagPrototyped | DIFlagAllCallsDescribed, spFlags: DISPFlagLocalToUnit | DISPFlagDefinition | DISPFlagOptimized, unit: !2, retainedNodes: !88)
!84 = !DISubroutineType(types: !85)
!85 = !{!86, !87}
!86 = !DIDerivedType(tag: DW_TAG_pointer_type, baseType: !22, size: 64)
!87 = !DIDerivedType(tag: DW_TAG_pointer_type, baseType: !18, size: 64)
!88 = !{!82}
!89 = !DILocation(line: 0, scope: !83, inlinedAt: !90)
!90 = distinct !DILocation(line: 47, column: 6, scope: !63)
!91 = !DILocation(line: 22, column: 30, scope: !83, inlinedAt: !90)
!92 = !{!60, !45, i64 4}
!93 = !DILocation(line: 22, column: 43, scope: !83, inlinedAt: !90)
!94 = !DILocation(line: 22, column: 36, scope: !83, inlinedAt: !90)
!95 = !DILocation(line: 22, column: 50, scope: !83, inlinedAt: !90)
!96 = !DILocation(line: 22, column: 13, scope: !83, inlinedAt: !90)
!97 = !DILocation(line: 47, column: 25, scope: !63)
!98 = !DILocation(line: 48, column: 21, scope: !63)
!99 = !DILocation(line: 49, column: 5, scope: !63)
!100 = !DILocation(line: 50, column: 1, scope: !63)
!101 = distinct !DISubprogram(name: "sys_receive", scope: !3, file: !3, line: 53, type: !102, scopeLine: 53, flags: DIFlagPrototyped | DIFlagAllCallsDescribed, spFlags: DISPFlagDefinition | DISPFlagOptimized, unit: !2, retainedNodes: !103)
!102 = !DISubroutineType(types: !10)
!103 = !{!104, !105}
!104 = !DILocalVariable(name: "box", scope: !101, file: !3, line: 54, type: !87)
!105 = !DILocalVariable(name: "word", scope: !101, file: !3, line: 57, type: !22)
!106 = !DILocation(line: 54, column: 31, scope: !101)
!107 = !DILocation(line: 54, column: 25, scope: !101)
!108 = !DILocation(line: 0, scope: !101)
!109 = !DILocation(line: 55, column: 14, scope: !110)
!110 = distinct !DILexicalBlock(scope: !101, file: !3, line: 55, column: 9)
!111 = !DILocation(line: 55, column: 20, scope: !110)
!112 = !DILocation(line: 55, column: 9, scope: !101)
!113 = !DILocation(line: 57, column: 37, scope: !101)
!114 = !DILocation(line: 57, column: 21, scope: !101)
!115 = !DILocation(line: 58, column: 30, scope: !101)
!116 = !DILocation(line: 58, column: 35, scope: !101)
!117 = !DILocation(line: 58, column: 16, scope: !101)
!118 = !DILocation(line: 59, column: 16, scope: !101)
!119 = !DILocation(line: 61, column: 1, scope: !101)
