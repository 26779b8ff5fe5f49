; ModuleID = 'pages.c'
source_filename = "pages.c"
target datalayout = "e-m:e-p270:32:32-p271:32:32-p272:64:64-i64:64-f80:128-n8:16:32:64-S128"
target triple = "x86_64-pc-linux-gnu"

%struct.entry = type { i64, i32 }
%struct.page = type { i8, i32 }

@table = dso_local local_unnamed_addr global [2 x [4 x %struct.entry]] zeroinitializer, align 16, !dbg !0
@pages = dso_local local_unnamed_addr global [8 x %struct.page] zeroinitializer, align 16, !dbg !20

; Function Attrs: mustprogress nofree norecurse nosync nounwind willreturn memory(readwrite, argmem: none, inaccessiblemem: none)
define dso_local i32 @sys_map(i32 noundef %0, i32 noundef %1, i64 noundef %2, i32 noundef %3) local_unnamed_addr #0 !dbg !46 {
  call void @llvm.dbg.value(metadata i32 %0, metadata !52, metadata !DIExpression()), !dbg !56
  call void @llvm.dbg.value(metadata i32 %1, metadata !53, metadata !DIExpression()), !dbg !56
  call void @llvm.dbg.value(metadata i64 %2, metadata !54, metadata !DIExpression()), !dbg !56
  call void @llvm.dbg.value(metadata i32 %3, metadata !55, metadata !DIExpression()), !dbg !56
  %5 = icmp ugt i32 %0, 1, !dbg !57
  %6 = icmp ugt i32 %1, 3
  %7 = or i1 %5, %6, !dbg !59
  %8 = icmp ugt i64 %2, 7
  %9 = or i1 %7, %8, !dbg !59
  br i1 %9, label %30, label %10, !dbg !59

10:                                               ; preds = %4
  call void @llvm.dbg.value(metadata i32 %3, metadata !60, metadata !DIExpression()), !dbg !65
  %11 = add i32 %3, -8, !dbg !67
  %12 = icmp ult i32 %11, -7, !dbg !67
  %13 = and i32 %3, 6, !dbg !67
  %14 = icmp eq i32 %13, 6, !dbg !67
  %15 = or i1 %12, %14, !dbg !68
  br i1 %15, label %30, label %16, !dbg !69

16:                                               ; preds = %10
  %17 = zext i32 %0 to i64, !dbg !70
  %18 = zext i32 %1 to i64, !dbg !70
  %19 = getelementptr inbounds [2 x [4 x %struct.entry]], ptr @table, i64 0, i64 %17, i64 %18, !dbg !70
  %20 = getelementptr inbounds [2 x [4 x %struct.entry]], ptr @table, i64 0, i64 %17, i64 %18, i32 1, !dbg !72
  %21 = load i32, ptr %20, align 8, !dbg !72, !tbaa !73
  %22 = icmp eq i32 %21, 0, !dbg !79
  br i1 %22, label %23, label %30, !dbg !80

23:                                               ; preds = %16
  %24 = getelementptr inbounds [8 x %struct.page], ptr @pages, i64 0, i64 %2, i32 1, !dbg !81
  %25 = load i32, ptr %24, align 4, !dbg !81, !tbaa !82
  %26 = icmp eq i32 %25, 0, !dbg !84
  br i1 %26, label %27, label %30, !dbg !85

27:                                               ; preds = %23
  %28 = getelementptr inbounds [8 x %struct.page], ptr @pages, i64 0, i64 %2, !dbg !86
  store i64 %2, ptr %19, align 16, !dbg !87, !tbaa !88
  store i32 %3, ptr %20, align 8, !dbg !89, !tbaa !73
  %29 = trunc i32 %0 to i8, !dbg !90
  store i8 %29, ptr %28, align 8, !dbg !91, !tbaa !92
  store i32 1, ptr %24, align 4, !dbg !93, !tbaa !82
  br label %30, !dbg !94

30:                                               ; preds = %16, %23, %4, %10, %27
  %31 = phi i32 [ 0, %27 ], [ -1, %10 ], [ -1, %4 ], [ -1, %23 ], [ -1, %16 ], !dbg !56
  ret i32 %31, !dbg !95
}

; Function Attrs: mustprogress nofree norecurse nosync nounwind willreturn memory(readwrite, argmem: none, inaccessiblemem: none)
define dso_local i32 @sys_unmap(i32 noundef %0, i32 noundef %1) local_unnamed_addr #0 !dbg !96 {
  call void @llvm.dbg.value(metadata i32 %0, metadata !100, metadata !DIExpression()), !dbg !102
  call void @llvm.dbg.value(metadata i32 %1, metadata !101, metadata !DIExpression()), !dbg !102
  %3 = icmp ugt i32 %0, 1, !dbg !103
  %4 = icmp ugt i32 %1, 3
  %5 = or i1 %3, %4, !dbg !105
  br i1 %5, label %16, label %6, !dbg !105

6:                                                ; preds = %2
  %7 = zext i32 %0 to i64, !dbg !106
  %8 = zext i32 %1 to i64, !dbg !106
  %9 = getelementptr inbounds [2 x [4 x %struct.entry]], ptr @table, i64 0, i64 %7, i64 %8, i32 1, !dbg !107
  %10 = load i32, ptr %9, align 8, !dbg !107, !tbaa !73
  %11 = icmp eq i32 %10, 0, !dbg !108
  br i1 %11, label %16, label %12, !dbg !109

12:                                               ; preds = %6
  %13 = getelementptr inbounds [2 x [4 x %struct.entry]], ptr @table, i64 0, i64 %7, i64 %8, !dbg !106
  store i32 0, ptr %9, align 8, !dbg !110, !tbaa !73
  %14 = load i64, ptr %13, align 16, !dbg !111, !tbaa !88
  %15 = getelementptr inbounds [8 x %struct.page], ptr @pages, i64 0, i64 %14, i32 1, !dbg !112
  store i32 0, ptr %15, align 4, !dbg !113, !tbaa !82
  br label %16, !dbg !114

16:                                               ; preds = %2, %6, %12
  %17 = phi i32 [ 0, %12 ], [ -1, %6 ], [ -1, %2 ], !dbg !102
  ret i32 %17, !dbg !115
}

; Function Attrs: mustprogress nofree norecurse nosync nounwind willreturn memory(readwrite, argmem: none, inaccessiblemem: none)
define dso_local i32 @sys_protect(i32 noundef %0, i32 noundef %1, i32 noundef %2) local_unnamed_addr #0 !dbg !116 {
  call void @llvm.dbg.value(metadata i32 %0, metadata !120, metadata !DIExpression()), !dbg !123
  call void @llvm.dbg.value(metadata i32 %1, metadata !121, metadata !DIExpression()), !dbg !123
  call void @llvm.dbg.value(metadata i32 %2, metadata !122, metadata !DIExpression()), !dbg !123
  %4 = icmp ugt i32 %0, 1, !dbg !124
  %5 = icmp ugt i32 %1, 3
  %6 = or i1 %4, %5, !dbg !126
  br i1 %6, label %20, label %7, !dbg !126

7:                                                ; preds = %3
  %8 = zext i32 %0 to i64, !dbg !127
  %9 = zext i32 %1 to i64, !dbg !127
  %10 = getelementptr inbounds [2 x [4 x %struct.entry]], ptr @table, i64 0, i64 %8, i64 %9, i32 1, !dbg !128
  %11 = load i32, ptr %10, align 8, !dbg !128, !tbaa !73
  %12 = icmp eq i32 %11, 0, !dbg !129
  br i1 %12, label %20, label %13, !dbg !130

13:                                               ; preds = %7
  call void @llvm.dbg.value(metadata i32 %2, metadata !60, metadata !DIExpression()), !dbg !131
  %14 = add i32 %2, -8, !dbg !134
  %15 = icmp ult i32 %14, -7, !dbg !134
  %16 = and i32 %2, 6, !dbg !134
  %17 = icmp eq i32 %16, 6, !dbg !134
  %18 = or i1 %15, %17, !dbg !135
  br i1 %18, label %20, label %19, !dbg !136

19:                                               ; preds = %13
  store i32 %2, ptr %10, align 8, !dbg !137, !tbaa !73
  br label %20, !dbg !138

20:                                               ; preds = %13, %3, %7, %19
  %21 = phi i32 [ 0, %19 ], [ -1, %7 ], [ -1, %3 ], [ -1, %13 ], !dbg !123
  ret i32 %21, !dbg !139
}

; Function Attrs: nocallback nofree nosync nounwind speculatable willreturn memory(none)
declare void @llvm.dbg.value(metadata, metadata, metadata) #1

attributes #0 = { mustprogress nofree norecurse nosync nounwind willreturn memory(readwrite, argmem: none, inaccessiblemem: none) "min-legal-vector-width"="0" "no-builtins" "no-trapping-math"="true" "stack-protector-buffer-size"="8" "target-cpu"="x86-64" "target-features"="+cx8,+fxsr,+mmx,+sse,+sse2,+x87" "tune-cpu"="generic" }
attributes #1 = { nocallback nofree nosync nounwind speculatable willreturn memory(none) }

!llvm.dbg.cu = !{!2}
!llvm.module.flags = !{!40, !41, !42, !43, !44}
!llvm.ident = !{!45}

!0 = !DIGlobalVariableExpression(var: !1, expr: !DIExpression())
!1 = distinct !DIGlobalVariable(name: "table", scope: !2, file: !3, line: 22, type: !29, isLocal: false, isDefinition: true)
!2 = distinct !DICompileUnit(language: DW_LANG_C11, file: !3, producer: "Debian clang version 16.0.6 (15~deb12u1)", isOptimized: true, runtimeVersion: 0, emissionKind: FullDebug, enums: !4, retainedTypes: !15, globals: !19, splitDebugInlining: false, nameTableKind: None)
!3 = !DIFile(filename: "pages.c", directory: ".", checksumkind: CSK_MD5, checksum: "f76a9d19577bb639123454be3b010dd5")
!4 = !{!5, !10}
!5 = !DICompositeType(tag: DW_TAG_enumeration_type, name: "use", file: !3, line: 10, baseType: !6, size: 32, elements: !7)
!6 = !DIBasicType(name: "unsigned int", size: 32, encoding: DW_ATE_unsigned)
!7 = !{!8, !9}
!8 = !DIEnumerator(name: "FREE", value: 0)
!9 = !DIEnumerator(name: "MAPPED", value: 1)
!10 = !DICompositeType(tag: DW_TAG_enumeration_type, file: !3, line: 9, baseType: !6, size: 32, elements: !11)
!11 = !{!12, !13, !14}
!12 = !DIEnumerator(name: "READ", value: 1)
!13 = !DIEnumerator(name: "WRITE", value: 2)
!14 = !DIEnumerator(name: "EXECUTE", value: 4)
!15 = !{!16}
!16 = !DIDerivedType(tag: DW_TAG_typedef, name: "uint8_t", file: !17, line: 266, baseType: !18)
!17 = !DIFile(filename: "/usr/lib/llvm-16/lib/clang/16/include/stdint.h", directory: "", checksumkind: CSK_MD5, checksum: "0e82edf2c903a970340d24c219392b88")
!18 = !DIBasicType(name: "unsigned char", size: 8, encoding: DW_ATE_unsigned_char)
!19 = !{!0, !20}
!20 = !DIGlobalVariableExpression(var: !21, expr: !DIExpression())
!21 = distinct !DIGlobalVariable(name: "pages", scope: !2, file: !3, line: 23, type: !22, isLocal: false, isDefinition: true)
!22 = !DICompositeType(tag: DW_TAG_array_type, baseType: !23, size: 512, elements: !27)
!23 = distinct !DICompositeType(tag: DW_TAG_structure_type, name: "page", file: !3, line: 17, size: 64, elements: !24)
!24 = !{!25, !26}
!25 = !DIDerivedType(tag: DW_TAG_member, name: "owner", scope: !23, file: !3, line: 18, baseType: !16, size: 8)
!26 = !DIDerivedType(tag: DW_TAG_member, name: "use", scope: !23, file: !3, line: 19, baseType: !5, size: 32, offset: 32)
!27 = !{!28}
!28 = !DISubrange(count: 8)
!29 = !DICompositeType(tag: DW_TAG_array_type, baseType: !30, size: 1024, elements: !37)
!30 = distinct !DICompositeType(tag: DW_TAG_structure_type, name: "entry", file: !3, line: 12, size: 128, elements: !31)
!31 = !{!32, !35}
!32 = !DIDerivedType(tag: DW_TAG_member, name: "page", scope: !30, file: !3, line: 13, baseType: !33, size: 64)
!33 = !DIDerivedType(tag: DW_TAG_typedef, name: "uint64_t", file: !17, line: 98, baseType: !34)
!34 = !DIBasicType(name: "unsigned long", size: 64, encoding: DW_ATE_unsigned)
!35 = !DIDerivedType(tag: DW_TAG_member, name: "may", scope: !30, file: !3, line: 14, baseType: !36, size: 32, offset: 64)
!36 = !DIDerivedType(tag: DW_TAG_typedef, name: "uint32_t", file: !17, line: 198, baseType: !6)
!37 = !{!38, !39}
!38 = !DISubrange(count: 2)
!39 = !DISubrange(count: 4)
!40 = !{i32 7, !"Dwarf Version", i32 5}
!41 = !{i32 2, !"Debug Info Version", i32 3}
!42 = !{i32 1, !"wchar_size", i32 4}
!43 = !{i32 8, !"PIC Level", i32 2}
!44 = !{i32 7, !"PIE Level", i32 2}
!45 = !{!"Debian clang version 16.0.6 (15~deb12u1)"}
!46 = distinct !DISubprogram(name: "sys_map", scope: !3, file: !3, line: 32, type: !47, scopeLine: 32, flags: DIFlagPrototyped | DIFlagAllCallsDescribed, spFlags: DISPFlagDefinition | DISPFlagOptimized, unit: !2, retainedNodes: !51)
!47 = !DISubroutineType(types: !48)
!48 = !{!49, !36, !36, !33, !36}
!49 = !DIDerivedType(tag: DW_TAG_typedef, name: "int32_t", file: !17, line: 193, baseType: !50)
!50 = !DIBasicType(name: "int", size: 32, encoding: DW_ATE_signed)
!51 = !{!52, !53, !54, !55}
!52 = !DILocalVariable(name: "vm", arg: 1, scope: !46, file: !3, line: 32, type: !36)
!53 = !DILocalVariable(name: "at", arg: 2, scope: !46, file: !3, line: 32, type: !36)
!54 = !DILocalVariable(name: "page", arg: 3, scope: !46, file: !3, line: 32, type: !33)
!55 = !DILocalVariable(name: "may", arg: 4, scope: !46, file: !3, line: 32, type: !36)
!56 = !DILocation(line: 0, scope: !46)
!57 = !DILocation(line: 33, column: 12, scope: !58)
!58 = distinct !DILexicalBlock(scope: !46, file: !3, line: 33, column: 9)
!59 = !DILocation(line: 33, column: 19, scope: !58)
!60 = !DILocalVariable(name: "may", arg: 1, scope: !61, file: !3, line: 26, type: !36)
!61 = distinct !DISubprogram(name: "allowed", scope: !3, file: !3, line: 26, type: !62, scopeLine: 26, flags: DIFlagPrototyped | DIFlagAllCallsDescribed, spFlags: DISPFlagLocalToUnit | DISPFlagDefinition | DISPFlagOptimized, unit: !2, retainedNodes: !64)
!62 = !DISubroutineType(types: !63)
!63 = !{!50, !36}
!64 = !{!60}
!65 = !DILocation(line: 0, scope: !61, inlinedAt: !66)
!66 = distinct !DILocation(line: 33, column: 56, scope: !58)
!67 = !DILocation(line: 27, column: 21, scope: !61, inlinedAt: !66)
!68 = !DILocation(line: 33, column: 56, scope: !58)
!69 = !DILocation(line: 33, column: 9, scope: !46)
!70 = !DILocation(line: 35, column: 9, scope: !71)
!71 = distinct !DILexicalBlock(scope: !46, file: !3, line: 35, column: 9)
!72 = !DILocation(line: 35, column: 23, scope: !71)
!73 = !{!74, !78, i64 8}
!74 = !{!"entry", !75, i64 0, !78, i64 8}
!75 = !{!"long", !76, i64 0}
!76 = !{!"omnipotent char", !77, i64 0}
!77 = !{!"Simple C/C++ TBAA"}
!78 = !{!"int", !76, i64 0}
!79 = !DILocation(line: 35, column: 27, scope: !71)
!80 = !DILocation(line: 35, column: 32, scope: !71)
!81 = !DILocation(line: 35, column: 47, scope: !71)
!82 = !{!83, !76, i64 4}
!83 = !{!"page", !76, i64 0, !76, i64 4}
!84 = !DILocation(line: 35, column: 51, scope: !71)
!85 = !DILocation(line: 35, column: 9, scope: !46)
!86 = !DILocation(line: 35, column: 35, scope: !71)
!87 = !DILocation(line: 37, column: 24, scope: !46)
!88 = !{!74, !75, i64 0}
!89 = !DILocation(line: 38, column: 23, scope: !46)
!90 = !DILocation(line: 39, column: 25, scope: !46)
!91 = !DILocation(line: 39, column: 23, scope: !46)
!92 = !{!83, !76, i64 0}
!93 = !DILocation(line: 40, column: 21, scope: !46)
!94 = !DILocation(line: 41, column: 5, scope: !46)
!95 = !DILocation(line: 42, column: 1, scope: !46)
!96 = distinct !DISubprogram(name: "sys_unmap", scope: !3, file: !3, line: 45, type: !97, scopeLine: 45, flags: DIFlagPrototyped | DIFlagAllCallsDescribed, spFlags: DISPFlagDefinition | DISPFlagOptimized, unit: !2, retainedNodes: !99)
!97 = !DISubroutineType(types: !98)
!98 = !{!49, !36, !36}
!99 = !{!100, !101}
!100 = !DILocalVariable(name: "vm", arg: 1, scope: !96, file: !3, line: 45, type: !36)
!101 = !DILocalVariable(name: "at", arg: 2, scope: !96, file: !3, line: 45, type: !36)
!102 = !DILocation(line: 0, scope: !96)
!103 = !DILocation(line: 46, column: 12, scope: !104)
!104 = distinct !DILexicalBlock(scope: !96, file: !3, line: 46, column: 9)
!105 = !DILocation(line: 46, column: 19, scope: !104)
!106 = !DILocation(line: 46, column: 38, scope: !104)
!107 = !DILocation(line: 46, column: 52, scope: !104)
!108 = !DILocation(line: 46, column: 56, scope: !104)
!109 = !DILocation(line: 46, column: 9, scope: !96)
!110 = !DILocation(line: 48, column: 23, scope: !96)
!111 = !DILocation(line: 49, column: 25, scope: !96)
!112 = !DILocation(line: 49, column: 31, scope: !96)
!113 = !DILocation(line: 49, column: 35, scope: !96)
!114 = !DILocation(line: 50, column: 5, scope: !96)
!115 = !DILocation(line: 51, column: 1, scope: !96)
!116 = distinct !DISubprogram(name: "sys_protect", scope: !3, file: !3, line: 54, type: !117, scopeLine: 54, flags: DIFlagPrototyped | DIFlagAllCallsDescribed, spFlags: DISPFlagDefinition | DISPFlagOptimized, unit: !2, retainedNodes: !119)
!117 = !DISubroutineType(types: !118)
!118 = !{!49, !36, !36, !36}
!119 = !{!120, !121, !122}
!120 = !DILocalVariable(name: "vm", arg: 1, scope: !116, file: !3, line: 54, type: !36)
!121 = !DILocalVariable(name: "at", arg: 2, scope: !116, file: !3, line: 54, type: !36)
!122 = !DILocalVariable(name: "may", arg: 3, scope: !116, file: !3, line: 54, type: !36)
!123 = !DILocation(line: 0, scope: !116)
!124 = !DILocation(line: 55, column: 12, scope: !125)
!125 = distinct !DILexicalBlock(scope: !116, file: !3, line: 55, column: 9)
!126 = !DILocation(line: 55, column: 19, scope: !125)
!127 = !DILocation(line: 55, column: 38, scope: !125)
!128 = !DILocation(line: 55, column: 52, scope: !125)
!129 = !DILocation(line: 55, column: 56, scope: !125)
!130 = !DILocation(line: 55, column: 9, scope: !116)
!131 = !DILocation(line: 0, scope: !61, inlinedAt: !132)
!132 = distinct !DILocation(line: 57, column: 10, scope: !133)
!133 = distinct !DILexicalBlock(scope: !116, file: !3, line: 57, column: 9)
!134 = !DILocation(line: 27, column: 21, scope: !61, inlinedAt: !132)
!135 = !DILocation(line: 57, column: 10, scope: !133)
!136 = !DILocation(line: 57, column: 9, scope: !116)
!137 = !DILocation(line: 59, column: 23, scope: !116)
!138 = !DILocation(line: 60, column: 5, scope: !116)
!139 = !DILocation(line: 61, column: 1, scope: !116)
