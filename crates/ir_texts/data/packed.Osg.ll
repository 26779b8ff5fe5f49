; ModuleID = 'packed.c'
source_filename = "packed.c"
target datalayout = "e-m:e-p270:32:32-p271:32:32-p272:64:64-i64:64-f80:128-n8:16:32:64-S128"
target triple = "x86_64-pc-linux-gnu"

%struct.entry = type <{ i8, i64, i16 }>

@gdt = dso_local local_unnamed_addr global [3 x %struct.entry] [%struct.entry <{ i8 1, i64 4096, i16 7 }>, %struct.entry <{ i8 2, i64 0, i16 -1 }>, %struct.entry zeroinitializer], align 16, !dbg !0

; Function Attrs: mustprogress nofree norecurse nosync nounwind optsize willreturn memory(read, argmem: none, inaccessiblemem: none) uwtable
define dso_local i64 @base(i32 noundef %0) local_unnamed_addr #0 !dbg !23 {
  call void @llvm.dbg.value(metadata i32 %0, metadata !28, metadata !DIExpression()), !dbg !29
  %2 = icmp ult i32 %0, 3, !dbg !30
  br i1 %2, label %3, label %7, !dbg !31

3:                                                ; preds = %1
  %4 = zext i32 %0 to i64, !dbg !32
  %5 = getelementptr inbounds [3 x %struct.entry], ptr @gdt, i64 0, i64 %4, i32 1, !dbg !33
  %6 = load i64, ptr %5, align 1, !dbg !33, !tbaa !34
  br label %7, !dbg !31

7:                                                ; preds = %1, %3
  %8 = phi i64 [ %6, %3 ], [ 0, %1 ], !dbg !31
  ret i64 %8, !dbg !40
}

; Function Attrs: nocallback nofree nosync nounwind speculatable willreturn memory(none)
declare void @llvm.dbg.value(metadata, metadata, metadata) #1

attributes #0 = { mustprogress nofree norecurse nosync nounwind optsize willreturn memory(read, argmem: none, inaccessiblemem: none) uwtable "min-legal-vector-width"="0" "no-trapping-math"="true" "stack-protector-buffer-size"="8" "target-cpu"="x86-64" "target-features"="+cx8,+fxsr,+mmx,+sse,+sse2,+x87" "tune-cpu"="generic" }
attributes #1 = { nocallback nofree nosync nounwind speculatable willreturn memory(none) }

!llvm.dbg.cu = !{!2}
!llvm.module.flags = !{!16, !17, !18, !19, !20, !21}
!llvm.ident = !{!22}

!0 = !DIGlobalVariableExpression(var: !1, expr: !DIExpression())
!1 = distinct !DIGlobalVariable(name: "gdt", scope: !2, file: !3, line: 2, type: !5, isLocal: false, isDefinition: true)
!2 = distinct !DICompileUnit(language: DW_LANG_C11, file: !3, producer: "Debian clang version 16.0.6 (15~deb12u1)", isOptimized: true, runtimeVersion: 0, emissionKind: FullDebug, globals: !4, splitDebugInlining: false, nameTableKind: None)
!3 = !DIFile(filename: "packed.c", directory: ".", checksumkind: CSK_MD5, checksum: "19c73ed4f2421c283065aea971fed40e")
!4 = !{!0}
!5 = !DICompositeType(tag: DW_TAG_array_type, baseType: !6, size: 264, elements: !14)
!6 = distinct !DICompositeType(tag: DW_TAG_structure_type, name: "entry", file: !3, line: 1, size: 88, elements: !7)
!7 = !{!8, !10, !12}
!8 = !DIDerivedType(tag: DW_TAG_member, name: "kind", scope: !6, file: !3, line: 1, baseType: !9, size: 8)
!9 = !DIBasicType(name: "unsigned char", size: 8, encoding: DW_ATE_unsigned_char)
!10 = !DIDerivedType(tag: DW_TAG_member, name: "base", scope: !6, file: !3, line: 1, baseType: !11, size: 64, offset: 8)
!11 = !DIBasicType(name: "unsigned long", size: 64, encoding: DW_ATE_unsigned)
!12 = !DIDerivedType(tag: DW_TAG_member, name: "limit", scope: !6, file: !3, line: 1, baseType: !13, size: 16, offset: 72)
!13 = !DIBasicType(name: "unsigned short", size: 16, encoding: DW_ATE_unsigned)
!14 = !{!15}
!15 = !DISubrange(count: 3)
!16 = !{i32 7, !"Dwarf Version", i32 5}
!17 = !{i32 2, !"Debug Info Version", i32 3}
!18 = !{i32 1, !"wchar_size", i32 4}
!19 = !{i32 8, !"PIC Level", i32 2}
!20 = !{i32 7, !"PIE Level", i32 2}
!21 = !{i32 7, !"uwtable", i32 2}
!22 = !{!"Debian clang version 16.0.6 (15~deb12u1)"}
!23 = distinct !DISubprogram(name: "base", scope: !3, file: !3, line: 3, type: !24, scopeLine: 3, flags: DIFlagPrototyped | DIFlagAllCallsDescribed, spFlags: DISPFlagDefinition | DISPFlagOptimized, unit: !2, retainedNodes: !27)
!24 = !DISubroutineType(types: !25)
!25 = !{!11, !26}
!26 = !DIBasicType(name: "unsigned int", size: 32, encoding: DW_ATE_unsigned)
!27 = !{!28}
!28 = !DILocalVariable(name: "i", arg: 1, scope: !23, file: !3, line: 3, type: !26)
!29 = !DILocation(line: 0, scope: !23)
!30 = !DILocation(line: 3, column: 43, scope: !23)
!31 = !DILocation(line: 3, column: 41, scope: !23)
!32 = !DILocation(line: 3, column: 49, scope: !23)
!33 = !DILocation(line: 3, column: 56, scope: !23)
!34 = !{!35, !38, i64 1}
!35 = !{!"entry", !36, i64 0, !38, i64 1, !39, i64 9}
!36 = !{!"omnipotent char", !37, i64 0}
!37 = !{!"Simple C/C++ TBAA"}
!38 = !{!"long", !36, i64 0}
!39 = !{!"short", !36, i64 0}
!40 = !DILocation(line: 3, column: 34, scope: !23)
