; ModuleID = 'table.c'
source_filename = "table.c"
target datalayout = "e-m:e-p270:32:32-p271:32:32-p272:64:64-i64:64-f80:128-n8:16:32:64-S128"
target triple = "x86_64-pc-linux-gnu"

%struct.proc = type { i32, [4 x i32] }

@current = dso_local local_unnamed_addr global i32 0, align 4, !dbg !0
@procs = dso_local local_unnamed_addr global [4 x %struct.proc] zeroinitializer, align 16, !dbg !5
@names = internal unnamed_addr constant [2 x [4 x i8]] [[4 x i8] c"ab\00\00", [4 x i8] c"c\00\00\00"], align 1, !dbg !16

; Function Attrs: mustprogress nofree norecurse nosync nounwind optsize willreturn memory(readwrite, argmem: none, inaccessiblemem: none) uwtable
define dso_local i32 @set_file(i32 noundef %0, i32 noundef %1) local_unnamed_addr #0 !dbg !30 {
  call void @llvm.dbg.value(metadata i32 %0, metadata !35, metadata !DIExpression()), !dbg !37
  call void @llvm.dbg.value(metadata i32 %1, metadata !36, metadata !DIExpression()), !dbg !37
  %3 = icmp ugt i32 %0, 3, !dbg !38
  %4 = load i32, ptr @current, align 4
  %5 = icmp ugt i32 %4, 3
  %6 = select i1 %3, i1 true, i1 %5, !dbg !40
  br i1 %6, label %19, label %7, !dbg !40

7:                                                ; preds = %2
  %8 = zext i32 %4 to i64, !dbg !41
  %9 = zext i32 %0 to i64, !dbg !41
  %10 = getelementptr inbounds [4 x %struct.proc], ptr @procs, i64 0, i64 %8, i32 1, i64 %9, !dbg !41
  %11 = load i32, ptr %10, align 4, !dbg !41, !tbaa !43
  %12 = icmp eq i32 %11, 0, !dbg !41
  br i1 %12, label %13, label %19, !dbg !47

13:                                               ; preds = %7
  store i32 %1, ptr %10, align 4, !dbg !48, !tbaa !43
  %14 = and i32 %0, 1, !dbg !49
  %15 = zext i32 %14 to i64, !dbg !50
  %16 = getelementptr inbounds [2 x [4 x i8]], ptr @names, i64 0, i64 %15, !dbg !50
  %17 = load i8, ptr %16, align 1, !dbg !50, !tbaa !51
  %18 = sext i8 %17 to i32, !dbg !50
  br label %19, !dbg !52

19:                                               ; preds = %7, %2, %13
  %20 = phi i32 [ %18, %13 ], [ -9, %2 ], [ -17, %7 ], !dbg !37
  ret i32 %20, !dbg !53
}

; Function Attrs: nocallback nofree nosync nounwind speculatable willreturn memory(none)
declare void @llvm.dbg.value(metadata, metadata, metadata) #1

attributes #0 = { mustprogress nofree norecurse nosync nounwind optsize willreturn memory(readwrite, argmem: none, inaccessiblemem: none) uwtable "min-legal-vector-width"="0" "no-trapping-math"="true" "stack-protector-buffer-size"="8" "target-cpu"="x86-64" "target-features"="+cx8,+fxsr,+mmx,+sse,+sse2,+x87" "tune-cpu"="generic" }
attributes #1 = { nocallback nofree nosync nounwind speculatable willreturn memory(none) }

!llvm.dbg.cu = !{!2}
!llvm.module.flags = !{!23, !24, !25, !26, !27, !28}
!llvm.ident = !{!29}

!0 = !DIGlobalVariableExpression(var: !1, expr: !DIExpression())
!1 = distinct !DIGlobalVariable(name: "current", scope: !2, file: !3, line: 3, type: !11, isLocal: false, isDefinition: true)
!2 = distinct !DICompileUnit(language: DW_LANG_C11, file: !3, producer: "Debian clang version 16.0.6 (15~deb12u1)", isOptimized: true, runtimeVersion: 0, emissionKind: FullDebug, globals: !4, splitDebugInlining: false, nameTableKind: None)
!3 = !DIFile(filename: "table.c", directory: ".", checksumkind: CSK_MD5, checksum: "c85e04657894990288737ce97752e9d7")
!4 = !{!5, !0, !16}
!5 = !DIGlobalVariableExpression(var: !6, expr: !DIExpression())
!6 = distinct !DIGlobalVariable(name: "procs", scope: !2, file: !3, line: 2, type: !7, isLocal: false, isDefinition: true)
!7 = !DICompositeType(tag: DW_TAG_array_type, baseType: !8, size: 640, elements: !14)
!8 = distinct !DICompositeType(tag: DW_TAG_structure_type, name: "proc", file: !3, line: 1, size: 160, elements: !9)
!9 = !{!10, !12}
!10 = !DIDerivedType(tag: DW_TAG_member, name: "state", scope: !8, file: !3, line: 1, baseType: !11, size: 32)
!11 = !DIBasicType(name: "unsigned int", size: 32, encoding: DW_ATE_unsigned)
!12 = !DIDerivedType(tag: DW_TAG_member, name: "files", scope: !8, file: !3, line: 1, baseType: !13, size: 128, offset: 32)
!13 = !DICompositeType(tag: DW_TAG_array_type, baseType: !11, size: 128, elements: !14)
!14 = !{!15}
!15 = !DISubrange(count: 4)
!16 = !DIGlobalVariableExpression(var: !17, expr: !DIExpression())
!17 = distinct !DIGlobalVariable(name: "names", scope: !2, file: !3, line: 4, type: !18, isLocal: true, isDefinition: true)
!18 = !DICompositeType(tag: DW_TAG_array_type, baseType: !19, size: 64, elements: !21)
!19 = !DIDerivedType(tag: DW_TAG_const_type, baseType: !20)
!20 = !DIBasicType(name: "char", size: 8, encoding: DW_ATE_signed_char)
!21 = !{!22, !15}
!22 = !DISubrange(count: 2)
!23 = !{i32 7, !"Dwarf Version", i32 5}
!24 = !{i32 2, !"Debug Info Version", i32 3}
!25 = !{i32 1, !"wchar_size", i32 4}
!26 = !{i32 8, !"PIC Level", i32 2}
!27 = !{i32 7, !"PIE Level", i32 2}
!28 = !{i32 7, !"uwtable", i32 2}
!29 = !{!"Debian clang version 16.0.6 (15~deb12u1)"}
!30 = distinct !DISubprogram(name: "set_file", scope: !3, file: !3, line: 5, type: !31, scopeLine: 5, flags: DIFlagPrototyped | DIFlagAllCallsDescribed, spFlags: DISPFlagDefinition | DISPFlagOptimized, unit: !2, retainedNodes: !34)
!31 = !DISubroutineType(types: !32)
!32 = !{!33, !11, !11}
!33 = !DIBasicType(name: "int", size: 32, encoding: DW_ATE_signed)
!34 = !{!35, !36}
!35 = !DILocalVariable(name: "fd", arg: 1, scope: !30, file: !3, line: 5, type: !11)
!36 = !DILocalVariable(name: "file", arg: 2, scope: !30, file: !3, line: 5, type: !11)
!37 = !DILocation(line: 0, scope: !30)
!38 = !DILocation(line: 6, column: 10, scope: !39)
!39 = distinct !DILexicalBlock(scope: !30, file: !3, line: 6, column: 7)
!40 = !DILocation(line: 6, column: 15, scope: !39)
!41 = !DILocation(line: 7, column: 7, scope: !42)
!42 = distinct !DILexicalBlock(scope: !30, file: !3, line: 7, column: 7)
!43 = !{!44, !44, i64 0}
!44 = !{!"int", !45, i64 0}
!45 = !{!"omnipotent char", !46, i64 0}
!46 = !{!"Simple C/C++ TBAA"}
!47 = !DILocation(line: 7, column: 7, scope: !30)
!48 = !DILocation(line: 8, column: 28, scope: !30)
!49 = !DILocation(line: 9, column: 19, scope: !30)
!50 = !DILocation(line: 9, column: 10, scope: !30)
!51 = !{!45, !45, i64 0}
!52 = !DILocation(line: 9, column: 3, scope: !30)
!53 = !DILocation(line: 10, column: 1, scope: !30)
