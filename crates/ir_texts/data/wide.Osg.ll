; ModuleID = 'wide.c'
source_filename = "wide.c"
target datalayout = "e-m:e-p270:32:32-p271:32:32-p272:64:64-i64:64-f80:128-n8:16:32:64-S128"
target triple = "x86_64-pc-linux-gnu"

; Function Attrs: mustprogress nofree norecurse nosync nounwind optsize willreturn memory(none) uwtable
define dso_local i64 @high(i64 noundef %0, i64 noundef %1) local_unnamed_addr #0 !dbg !13 {
  call void @llvm.dbg.value(metadata i64 %0, metadata !17, metadata !DIExpression()), !dbg !19
  call void @llvm.dbg.value(metadata i64 %1, metadata !18, metadata !DIExpression()), !dbg !19
  %3 = zext i64 %0 to i128, !dbg !20
  %4 = zext i64 %1 to i128, !dbg !21
  %5 = mul nuw i128 %4, %3, !dbg !22
  %6 = lshr i128 %5, 64, !dbg !23
  %7 = trunc i128 %6 to i64, !dbg !24
  ret i64 %7, !dbg !25
}

; Function Attrs: nocallback nofree nosync nounwind speculatable willreturn memory(none)
declare void @llvm.dbg.value(metadata, metadata, metadata) #1

attributes #0 = { mustprogress nofree norecurse nosync nounwind optsize willreturn memory(none) uwtable "min-legal-vector-width"="0" "no-trapping-math"="true" "stack-protector-buffer-size"="8" "target-cpu"="x86-64" "target-features"="+cx8,+fxsr,+mmx,+sse,+sse2,+x87" "tune-cpu"="generic" }
attributes #1 = { nocallback nofree nosync nounwind speculatable willreturn memory(none) }

!llvm.dbg.cu = !{!0}
!llvm.module.flags = !{!6, !7, !8, !9, !10, !11}
!llvm.ident = !{!12}

!0 = distinct !DICompileUnit(language: DW_LANG_C11, file: !1, producer: "Debian clang version 16.0.6 (15~deb12u1)", isOptimized: true, runtimeVersion: 0, emissionKind: FullDebug, retainedTypes: !2, splitDebugInlining: false, nameTableKind: None)
!1 = !DIFile(filename: "wide.c", directory: ".", checksumkind: CSK_MD5, checksum: "902e26efb4ec022e29f13c9e1050d18f")
!2 = !{!3, !4}
!3 = !DIBasicType(name: "unsigned long", size: 64, encoding: DW_ATE_unsigned)
!4 = !DIDerivedType(tag: DW_TAG_typedef, name: "u128", file: !1, line: 1, baseType: !5)
!5 = !DIBasicType(name: "unsigned __int128", size: 128, encoding: DW_ATE_unsigned)
!6 = !{i32 7, !"Dwarf Version", i32 5}
!7 = !{i32 2, !"Debug Info Version", i32 3}
!8 = !{i32 1, !"wchar_size", i32 4}
!9 = !{i32 8, !"PIC Level", i32 2}
!10 = !{i32 7, !"PIE Level", i32 2}
!11 = !{i32 7, !"uwtable", i32 2}
!12 = !{!"Debian clang version 16.0.6 (15~deb12u1)"}
!13 = distinct !DISubprogram(name: "high", scope: !1, file: !1, line: 2, type: !14, scopeLine: 2, flags: DIFlagPrototyped | DIFlagAllCallsDescribed, spFlags: DISPFlagDefinition | DISPFlagOptimized, unit: !0, retainedNodes: !16)
!14 = !DISubroutineType(types: !15)
!15 = !{!3, !3, !3}
!16 = !{!17, !18}
!17 = !DILocalVariable(name: "a", arg: 1, scope: !13, file: !1, line: 2, type: !3)
!18 = !DILocalVariable(name: "b", arg: 2, scope: !13, file: !1, line: 2, type: !3)
!19 = !DILocation(line: 0, scope: !13)
!20 = !DILocation(line: 2, column: 80, scope: !13)
!21 = !DILocation(line: 2, column: 90, scope: !13)
!22 = !DILocation(line: 2, column: 88, scope: !13)
!23 = !DILocation(line: 2, column: 93, scope: !13)
!24 = !DILocation(line: 2, column: 63, scope: !13)
!25 = !DILocation(line: 2, column: 56, scope: !13)
