; ModuleID = 'handlers.c'
source_filename = "handlers.c"
target datalayout = "e-m:e-p270:32:32-p271:32:32-p272:64:64-i64:64-f80:128-n8:16:32:64-S128"
target triple = "x86_64-pc-linux-gnu"

%struct.file = type { i32, i16, i8, i64 }

@limits = dso_local local_unnamed_addr global [4 x i16] [i16 1, i16 -2, i16 300, i16 -400], align 2
@primes = dso_local local_unnamed_addr constant [6 x i32] [i32 2, i32 3, i32 5, i32 7, i32 11, i32 13], align 16
@files = dso_local local_unnamed_addr global [4 x %struct.file] zeroinitializer, align 16
@table = dso_local local_unnamed_addr global [16 x i8] zeroinitializer, align 16
@current = dso_local local_unnamed_addr global i32 0, align 4
@total = dso_local local_unnamed_addr global i64 0, align 8

; Function Attrs: mustprogress nofree norecurse nosync nounwind willreturn memory(none) uwtable
define dso_local i32 @mix(i32 noundef %a, i32 noundef %b) local_unnamed_addr #0 {
entry:
  %shl = shl i32 %b, 7
  %xor = xor i32 %shl, %a
  %mul = mul i32 %xor, -1640531535
  %shr = lshr i32 %a, 3
  %add = add i32 %mul, %shr
  ret i32 %add
}

; Function Attrs: mustprogress nofree norecurse nosync nounwind willreturn memory(none) uwtable
define dso_local i32 @ratio(i32 noundef %a, i32 noundef %b) local_unnamed_addr #0 {
entry:
  %cmp = icmp eq i32 %b, 0
  br i1 %cmp, label %return, label %if.end

if.end:                                           ; preds = %entry
  %div = sdiv i32 %a, %b
  %rem = srem i32 %a, %b
  %add = add nsw i32 %rem, %div
  br label %return

return:                                           ; preds = %entry, %if.end
  %retval.0 = phi i32 [ %add, %if.end ], [ -1, %entry ]
  ret i32 %retval.0
}

; Function Attrs: mustprogress nofree nosync nounwind willreturn memory(none) uwtable
define dso_local i64 @order(i64 noundef %a, i64 noundef %b, i64 noundef %c) local_unnamed_addr #1 {
entry:
  %cond = tail call i64 @llvm.smin.i64(i64 %a, i64 %b)
  %cmp6 = icmp sgt i64 %cond, %c
  br i1 %cmp6, label %cond.end14, label %cond.false8

cond.false8:                                      ; preds = %entry
  %cond5 = tail call i64 @llvm.smax.i64(i64 %a, i64 %b)
  %cond13 = tail call i64 @llvm.smin.i64(i64 %cond5, i64 %c)
  br label %cond.end14

cond.end14:                                       ; preds = %entry, %cond.false8
  %cond15 = phi i64 [ %cond13, %cond.false8 ], [ %cond, %entry ]
  ret i64 %cond15
}

; Function Attrs: mustprogress nofree norecurse nosync nounwind willreturn memory(none) uwtable
define dso_local i32 @sum(i32 noundef %a, i32 noundef %b) local_unnamed_addr #0 {
entry:
  %add = add nsw i32 %b, %a
  ret i32 %add
}

; Function Attrs: mustprogress nofree nosync nounwind willreturn memory(none) uwtable
define dso_local i32 @checked(i32 noundef %a, i32 noundef %b) local_unnamed_addr #1 {
entry:
  %0 = tail call { i32, i1 } @llvm.uadd.with.overflow.i32(i32 %a, i32 %b)
  %1 = extractvalue { i32, i1 } %0, 1
  %2 = extractvalue { i32, i1 } %0, 0
  %cond = select i1 %1, i32 7, i32 %2
  ret i32 %cond
}

; Function Attrs: mustprogress nocallback nofree nosync nounwind speculatable willreturn memory(none)
declare { i32, i1 } @llvm.uadd.with.overflow.i32(i32, i32) #2

; Function Attrs: mustprogress nofree norecurse nosync nounwind willreturn memory(none) uwtable
define dso_local i64 @chosen(i8 noundef zeroext %op, i32 noundef %a, i32 noundef %b) local_unnamed_addr #0 {
entry:
  %0 = and i8 %op, 7
  %and = zext i8 %0 to i32
  switch i32 %and, label %sw.default [
    i32 0, label %sw.bb
    i32 1, label %sw.bb2
    i32 2, label %sw.bb4
    i32 3, label %sw.bb7
    i32 5, label %sw.bb10
    i32 6, label %sw.bb12
  ]

sw.bb:                                            ; preds = %entry
  %add = add i32 %b, %a
  %conv1 = zext i32 %add to i64
  br label %return

sw.bb2:                                           ; preds = %entry
  %sub = sub i32 %a, %b
  %conv3 = zext i32 %sub to i64
  br label %return

sw.bb4:                                           ; preds = %entry
  %conv5 = zext i32 %a to i64
  %conv6 = zext i32 %b to i64
  %mul = mul nuw i64 %conv6, %conv5
  br label %return

sw.bb7:                                           ; preds = %entry
  %and8 = and i32 %b, %a
  %conv9 = zext i32 %and8 to i64
  br label %return

sw.bb10:                                          ; preds = %entry
  %or = or i32 %b, %a
  %conv11 = zext i32 %or to i64
  br label %return

sw.bb12:                                          ; preds = %entry
  %not = xor i32 %a, -1
  %conv13 = zext i32 %not to i64
  br label %return

sw.default:                                       ; preds = %entry
  %cmp = icmp eq i32 %a, %b
  %conv15 = zext i1 %cmp to i64
  br label %return

return:                                           ; preds = %sw.default, %sw.bb12, %sw.bb10, %sw.bb7, %sw.bb4, %sw.bb2, %sw.bb
  %retval.0 = phi i64 [ %conv15, %sw.default ], [ %conv13, %sw.bb12 ], [ %conv11, %sw.bb10 ], [ %conv9, %sw.bb7 ], [ %mul, %sw.bb4 ], [ %conv3, %sw.bb2 ], [ %conv1, %sw.bb ]
  ret i64 %retval.0
}

; Function Attrs: mustprogress nofree norecurse nosync nounwind willreturn memory(none) uwtable
define dso_local i32 @chain(i32 noundef %n) local_unnamed_addr #0 {
entry:
  %and = and i32 %n, 65535
  %call = tail call fastcc i32 @step(i32 noundef %and) #9
  %call1 = tail call fastcc i32 @step(i32 noundef %call) #9
  %call2 = tail call fastcc i32 @step(i32 noundef %call1) #9
  %call3 = tail call fastcc i32 @step(i32 noundef %call2) #9
  ret i32 %call3
}

; Function Attrs: mustprogress nofree noinline norecurse nosync nounwind willreturn memory(none) uwtable
define internal fastcc i32 @step(i32 noundef %n) unnamed_addr #3 {
entry:
  %rem = and i32 %n, 1
  %tobool.not = icmp eq i32 %rem, 0
  %mul = mul i32 %n, 3
  %add = add i32 %mul, 1
  %div3 = lshr i32 %n, 1
  %cond = select i1 %tobool.not, i32 %div3, i32 %add
  ret i32 %cond
}

; Function Attrs: mustprogress nofree norecurse nosync nounwind willreturn memory(readwrite, inaccessiblemem: none) uwtable
define dso_local i32 @hand(i32 noundef %from, i32 noundef %to) local_unnamed_addr #4 {
entry:
  %0 = or i32 %to, %from
  %or.cond.not = icmp ult i32 %0, 4
  br i1 %or.cond.not, label %if.end, label %return

if.end:                                           ; preds = %entry
  %idxprom = zext i32 %from to i64
  %arrayidx = getelementptr inbounds [4 x %struct.file], ptr @files, i64 0, i64 %idxprom
  %1 = load i32, ptr %arrayidx, align 16
  tail call fastcc void @give(i32 noundef %to, i32 noundef %1) #9
  %cmp2.not = icmp eq i32 %from, %to
  br i1 %cmp2.not, label %if.end7, label %if.then3

if.then3:                                         ; preds = %if.end
  store i32 0, ptr %arrayidx, align 16
  br label %if.end7

if.end7:                                          ; preds = %if.then3, %if.end
  %idxprom8 = zext i32 %to to i64
  %arrayidx9 = getelementptr inbounds [4 x %struct.file], ptr @files, i64 0, i64 %idxprom8
  %2 = load i32, ptr %arrayidx9, align 16
  br label %return

return:                                           ; preds = %entry, %if.end7
  %retval.0 = phi i32 [ %2, %if.end7 ], [ 9, %entry ]
  ret i32 %retval.0
}

; Function Attrs: mustprogress nofree noinline norecurse nosync nounwind willreturn memory(readwrite, argmem: none, inaccessiblemem: none) uwtable
define internal fastcc void @give(i32 noundef %to, i32 noundef %by) unnamed_addr #5 {
entry:
  %idxprom = zext i32 %to to i64
  %arrayidx = getelementptr inbounds [4 x %struct.file], ptr @files, i64 0, i64 %idxprom
  %0 = load i32, ptr %arrayidx, align 16
  %add = add i32 %0, %by
  store i32 %add, ptr %arrayidx, align 16
  %conv = zext i32 %by to i64
  %1 = load i64, ptr @total, align 8
  %add1 = add i64 %1, %conv
  store i64 %add1, ptr @total, align 8
  ret void
}

; Function Attrs: mustprogress nofree norecurse nosync nounwind willreturn memory(none) uwtable
define dso_local i32 @prime(i32 noundef %n) local_unnamed_addr #0 {
entry:
  %idxprom = zext i32 %n to i64
  %arrayidx = getelementptr inbounds [6 x i32], ptr @primes, i64 0, i64 %idxprom
  %0 = load i32, ptr %arrayidx, align 4
  ret i32 %0
}

; Function Attrs: mustprogress nofree norecurse nosync nounwind willreturn memory(readwrite, argmem: none, inaccessiblemem: none) uwtable
define dso_local i32 @limit(i8 noundef zeroext %n, i16 noundef signext %by) local_unnamed_addr #6 {
entry:
  %cmp = icmp ugt i8 %n, 3
  br i1 %cmp, label %return, label %if.end

if.end:                                           ; preds = %entry
  %idxprom = zext i8 %n to i64
  %arrayidx = getelementptr inbounds [4 x i16], ptr @limits, i64 0, i64 %idxprom
  %0 = load i16, ptr %arrayidx, align 2
  %add = add i16 %0, %by
  store i16 %add, ptr %arrayidx, align 2
  %conv9 = sext i16 %add to i32
  br label %return

return:                                           ; preds = %entry, %if.end
  %retval.0 = phi i32 [ %conv9, %if.end ], [ -1, %entry ]
  ret i32 %retval.0
}

; Function Attrs: mustprogress nofree norecurse nosync nounwind willreturn memory(readwrite, argmem: none, inaccessiblemem: none) uwtable
define dso_local i32 @put(i8 noundef zeroext %at, i8 noundef zeroext %by) local_unnamed_addr #6 {
entry:
  %cmp = icmp ugt i8 %at, 16
  br i1 %cmp, label %return, label %if.end

if.end:                                           ; preds = %entry
  %conv = zext i8 %at to i32
  %idxprom = zext i8 %at to i64
  %arrayidx = getelementptr inbounds [16 x i8], ptr @table, i64 0, i64 %idxprom
  store i8 %by, ptr %arrayidx, align 1
  %add = add nuw nsw i32 %conv, 5
  %and = and i32 %add, 15
  %idxprom6 = zext i32 %and to i64
  %arrayidx7 = getelementptr inbounds [16 x i8], ptr @table, i64 0, i64 %idxprom6
  %0 = load i8, ptr %arrayidx7, align 1
  %1 = xor i8 %0, %by
  %xor16 = xor i8 %1, -1
  store i8 %xor16, ptr %arrayidx7, align 1
  store i32 %conv, ptr @current, align 4
  %2 = load i8, ptr @table, align 16
  %conv11 = zext i8 %2 to i32
  br label %return

return:                                           ; preds = %entry, %if.end
  %retval.0 = phi i32 [ %conv11, %if.end ], [ -22, %entry ]
  ret i32 %retval.0
}

; Function Attrs: mustprogress nofree norecurse nosync nounwind willreturn memory(readwrite, argmem: none, inaccessiblemem: none) uwtable
define dso_local i32 @transfer(i32 noundef %from, i32 noundef %to, i8 noundef zeroext %owner) local_unnamed_addr #6 {
entry:
  %0 = or i32 %to, %from
  %or.cond.not = icmp ugt i32 %0, 3
  %cmp3 = icmp eq i32 %from, %to
  %or.cond = or i1 %cmp3, %or.cond.not
  br i1 %or.cond, label %return, label %if.end

if.end:                                           ; preds = %entry
  %idxprom = zext i32 %from to i64
  %arrayidx = getelementptr inbounds [4 x %struct.file], ptr @files, i64 0, i64 %idxprom
  %1 = load i32, ptr %arrayidx, align 16
  %add = add i32 %1, 1
  %idxprom4 = zext i32 %to to i64
  %arrayidx5 = getelementptr inbounds [4 x %struct.file], ptr @files, i64 0, i64 %idxprom4
  store i32 %add, ptr %arrayidx5, align 16
  %mul = mul i32 %from, 257
  %add7 = add i32 %mul, %to
  %conv = trunc i32 %add7 to i16
  %kind = getelementptr inbounds [4 x %struct.file], ptr @files, i64 0, i64 %idxprom4, i32 1
  store i16 %conv, ptr %kind, align 4
  %owner12 = getelementptr inbounds [4 x %struct.file], ptr @files, i64 0, i64 %idxprom4, i32 2
  store i8 %owner, ptr %owner12, align 2
  %conv13 = zext i8 %owner to i64
  %shl = shl nuw nsw i64 %conv13, 40
  %or = or i64 %shl, %idxprom4
  %offset = getelementptr inbounds [4 x %struct.file], ptr @files, i64 0, i64 %idxprom, i32 3
  store i64 %or, ptr %offset, align 8
  %conv20 = zext i32 %add to i64
  %2 = load i64, ptr @total, align 8
  %add21 = add i64 %2, %conv20
  store i64 %add21, ptr @total, align 8
  %conv25 = and i32 %add7, 65535
  br label %return

return:                                           ; preds = %entry, %if.end
  %retval.0 = phi i32 [ %conv25, %if.end ], [ -9, %entry ]
  ret i32 %retval.0
}

; Function Attrs: mustprogress nofree norecurse nosync nounwind willreturn memory(readwrite, argmem: write, inaccessiblemem: none) uwtable
define dso_local i32 @least(i32 noundef %at) local_unnamed_addr #7 {
entry:
  %and = and i32 %at, 1
  %tobool.not = icmp eq i32 %and, 0
  %and1 = and i32 %at, 15
  %idxprom = zext i32 %and1 to i64
  %arrayidx = getelementptr inbounds [16 x i8], ptr @table, i64 0, i64 %idxprom
  %cond = select i1 %tobool.not, ptr @current, ptr %arrayidx
  store i8 3, ptr %cond, align 1
  %0 = load i32, ptr @current, align 4
  %1 = load i8, ptr getelementptr inbounds ([16 x i8], ptr @table, i64 0, i64 1), align 1
  %conv = zext i8 %1 to i32
  %add = add i32 %0, %conv
  ret i32 %add
}

; Function Attrs: nocallback nofree nosync nounwind speculatable willreturn memory(none)
declare i64 @llvm.smin.i64(i64, i64) #8

; Function Attrs: nocallback nofree nosync nounwind speculatable willreturn memory(none)
declare i64 @llvm.smax.i64(i64, i64) #8

attributes #0 = { mustprogress nofree norecurse nosync nounwind willreturn memory(none) uwtable "min-legal-vector-width"="0" "no-builtin-memcpy" "no-builtin-memset" "no-jump-tables"="true" "no-trapping-math"="true" "stack-protector-buffer-size"="8" "target-cpu"="x86-64" "target-features"="+cx8,+fxsr,+mmx,+sse,+sse2,+x87" "tune-cpu"="generic" }
attributes #1 = { mustprogress nofree nosync nounwind willreturn memory(none) uwtable "min-legal-vector-width"="0" "no-builtin-memcpy" "no-builtin-memset" "no-jump-tables"="true" "no-trapping-math"="true" "stack-protector-buffer-size"="8" "target-cpu"="x86-64" "target-features"="+cx8,+fxsr,+mmx,+sse,+sse2,+x87" "tune-cpu"="generic" }
attributes #2 = { mustprogress nocallback nofree nosync nounwind speculatable willreturn memory(none) }
attributes #3 = { mustprogress nofree noinline norecurse nosync nounwind willreturn memory(none) uwtable "min-legal-vector-width"="0" "no-builtin-memcpy" "no-builtin-memset" "no-jump-tables"="true" "no-trapping-math"="true" "stack-protector-buffer-size"="8" "target-cpu"="x86-64" "target-features"="+cx8,+fxsr,+mmx,+sse,+sse2,+x87" "tune-cpu"="generic" }
attributes #4 = { mustprogress nofree norecurse nosync nounwind willreturn memory(readwrite, inaccessiblemem: none) uwtable "min-legal-vector-width"="0" "no-builtin-memcpy" "no-builtin-memset" "no-jump-tables"="true" "no-trapping-math"="true" "stack-protector-buffer-size"="8" "target-cpu"="x86-64" "target-features"="+cx8,+fxsr,+mmx,+sse,+sse2,+x87" "tune-cpu"="generic" }
attributes #5 = { mustprogress nofree noinline norecurse nosync nounwind willreturn memory(readwrite, argmem: none, inaccessiblemem: none) uwtable "min-legal-vector-width"="0" "no-builtin-memcpy" "no-builtin-memset" "no-jump-tables"="true" "no-trapping-math"="true" "stack-protector-buffer-size"="8" "target-cpu"="x86-64" "target-features"="+cx8,+fxsr,+mmx,+sse,+sse2,+x87" "tune-cpu"="generic" }
attributes #6 = { mustprogress nofree norecurse nosync nounwind willreturn memory(readwrite, argmem: none, inaccessiblemem: none) uwtable "min-legal-vector-width"="0" "no-builtin-memcpy" "no-builtin-memset" "no-jump-tables"="true" "no-trapping-math"="true" "stack-protector-buffer-size"="8" "target-cpu"="x86-64" "target-features"="+cx8,+fxsr,+mmx,+sse,+sse2,+x87" "tune-cpu"="generic" }
attributes #7 = { mustprogress nofree norecurse nosync nounwind willreturn memory(readwrite, argmem: write, inaccessiblemem: none) uwtable "min-legal-vector-width"="0" "no-builtin-memcpy" "no-builtin-memset" "no-jump-tables"="true" "no-trapping-math"="true" "stack-protector-buffer-size"="8" "target-cpu"="x86-64" "target-features"="+cx8,+fxsr,+mmx,+sse,+sse2,+x87" "tune-cpu"="generic" }
attributes #8 = { nocallback nofree nosync nounwind speculatable willreturn memory(none) }
attributes #9 = { "no-builtin-memcpy" "no-builtin-memset" }

!llvm.module.flags = !{!0, !1, !2, !3}
!llvm.ident = !{!4}

!0 = !{i32 1, !"wchar_size", i32 4}
!1 = !{i32 8, !"PIC Level", i32 2}
!2 = !{i32 7, !"PIE Level", i32 2}
!3 = !{i32 7, !"uwtable", i32 2}
!4 = !{!"Debian clang version 16.0.6 (15~deb12u1)"}
