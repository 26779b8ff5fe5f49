; ModuleID = 'lock.c'
source_filename = "lock.c"
target datalayout = "e-m:e-p270:32:32-p271:32:32-p272:64:64-i64:64-f80:128-n8:16:32:64-S128"
target triple = "x86_64-pc-linux-gnu"

@lock = dso_local global i32 0, align 4, !dbg !0

; Function Attrs: nofree norecurse nounwind optsize memory(readwrite, argmem: none, inaccessiblemem: none) uwtable
define dso_local void @take() local_unnamed_addr #0 !dbg !13 {
  br label %1, !dbg !17

1:                                                ; preds = %1, %0
  %2 = atomicrmw xchg ptr @lock, i32 1 acquire, align 4, !dbg !18
  %3 = icmp eq i32 %2, 0, !dbg !17
  br i1 %3, label %4, label %1, !dbg !17, !llvm.loop !19

4:                                                ; preds = %1
  ret void, !dbg !22
}

attributes #0 = { nofree norecurse nounwind optsize memory(readwrite, argmem: none, inaccessiblemem: none) uwtable "min-legal-vector-width"="0" "no-trapping-math"="true" "stack-protector-buffer-size"="8" "target-cpu"="x86-64" "target-features"="+cx8,+fxsr,+mmx,+sse,+sse2,+x87" "tune-cpu"="generic" }

!llvm.dbg.cu = !{!2}
!llvm.module.flags = !{!6, !7, !8, !9, !10, !11}
!llvm.ident = !{!12}

!0 = !DIGlobalVariableExpression(var: !1, expr: !DIExpression())
!1 = distinct !DIGlobalVariable(name: "lock", scope: !2, file: !3, line: 1, type: !5, isLocal: false, isDefinition: true)
!2 = distinct !DICompileUnit(language: DW_LANG_C11, file: !3, producer: "Debian clang version 16.0.6 (15~deb12u1)", isOptimized: true, runtimeVersion: 0, emissionKind: FullDebug, globals: !4, splitDebugInlining: false, nameTableKind: None)
!3 = !DIFile(filename: "lock.c", directory: ".", checksumkind: CSK_MD5, checksum: "d29b03fce859b8a94ff0efffa40505d5")
!4 = !{!0}
!5 = !DIBasicType(name: "int", size: 32, encoding: DW_ATE_signed)
!6 = !{i32 7, !"Dwarf Version", i32 5}
!7 = !{i32 2, !"Debug Info Version", i32 3}
!8 = !{i32 1, !"wchar_size", i32 4}
!9 = !{i32 8, !"PIC Level", i32 2}
!10 = !{i32 7, !"PIE Level", i32 2}
!11 = !{i32 7, !"uwtable", i32 2}
!12 = !{!"Debian clang version 16.0.6 (15~deb12u1)"}
!13 = distinct !DISubprogram(name: "take", scope: !3, file: !3, line: 2, type: !14, scopeLine: 2, flags: DIFlagPrototyped | DIFlagAllCallsDescribed, spFlags: DISPFlagDefinition | DISPFlagOptimized, unit: !2, retainedNodes: !16)
!14 = !DISubroutineType(types: !15)
!15 = !{null}
!16 = !{}
!17 = !DILocation(line: 2, column: 19, scope: !13)
!18 = !DILocation(line: 2, column: 26, scope: !13)
!19 = distinct !{!19, !17, !20, !21}
!20 = !DILocation(line: 2, column: 77, scope: !13)
!21 = !{!"llvm.loop.mustprogress"}
!22 = !DILocation(line: 2, column: 79, scope: !13)
