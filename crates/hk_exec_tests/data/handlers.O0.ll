; ModuleID = 'handlers.c'
source_filename = "handlers.c"
target datalayout = "e-m:e-p270:32:32-p271:32:32-p272:64:64-i64:64-f80:128-n8:16:32:64-S128"
target triple = "x86_64-pc-linux-gnu"

%struct.file = type { i32, i16, i8, i64 }

@limits = dso_local global [4 x i16] [i16 1, i16 -2, i16 300, i16 -400], align 2
@primes = dso_local constant [6 x i32] [i32 2, i32 3, i32 5, i32 7, i32 11, i32 13], align 16
@files = dso_local global [4 x %struct.file] zeroinitializer, align 16
@table = dso_local global [16 x i8] zeroinitializer, align 16
@current = dso_local global i32 0, align 4
@total = dso_local global i64 0, align 8

; Function Attrs: noinline nounwind optnone uwtable
define dso_local i32 @mix(i32 noundef %a, i32 noundef %b) #0 {
entry:
  %a.addr = alloca i32, align 4
  %b.addr = alloca i32, align 4
  store i32 %a, ptr %a.addr, align 4
  store i32 %b, ptr %b.addr, align 4
  %0 = load i32, ptr %a.addr, align 4
  %1 = load i32, ptr %b.addr, align 4
  %shl = shl i32 %1, 7
  %xor = xor i32 %0, %shl
  %mul = mul i32 %xor, -1640531535
  %2 = load i32, ptr %a.addr, align 4
  %shr = lshr i32 %2, 3
  %add = add i32 %mul, %shr
  ret i32 %add
}

; Function Attrs: noinline nounwind optnone uwtable
define dso_local i32 @ratio(i32 noundef %a, i32 noundef %b) #0 {
entry:
  %retval = alloca i32, align 4
  %a.addr = alloca i32, align 4
  %b.addr = alloca i32, align 4
  store i32 %a, ptr %a.addr, align 4
  store i32 %b, ptr %b.addr, align 4
  %0 = load i32, ptr %b.addr, align 4
  %cmp = icmp eq i32 %0, 0
  br i1 %cmp, label %if.then, label %if.end

if.then:                                          ; preds = %entry
  store i32 -1, ptr %retval, align 4
  br label %return

if.end:                                           ; preds = %entry
  %1 = load i32, ptr %a.addr, align 4
  %2 = load i32, ptr %b.addr, align 4
  %div = sdiv i32 %1, %2
  %3 = load i32, ptr %a.addr, align 4
  %4 = load i32, ptr %b.addr, align 4
  %rem = srem i32 %3, %4
  %add = add nsw i32 %div, %rem
  store i32 %add, ptr %retval, align 4
  br label %return

return:                                           ; preds = %if.end, %if.then
  %5 = load i32, ptr %retval, align 4
  ret i32 %5
}

; Function Attrs: noinline nounwind optnone uwtable
define dso_local i64 @order(i64 noundef %a, i64 noundef %b, i64 noundef %c) #0 {
entry:
  %a.addr = alloca i64, align 8
  %b.addr = alloca i64, align 8
  %c.addr = alloca i64, align 8
  %low = alloca i64, align 8
  %high = alloca i64, align 8
  store i64 %a, ptr %a.addr, align 8
  store i64 %b, ptr %b.addr, align 8
  store i64 %c, ptr %c.addr, align 8
  %0 = load i64, ptr %a.addr, align 8
  %1 = load i64, ptr %b.addr, align 8
  %cmp = icmp slt i64 %0, %1
  br i1 %cmp, label %cond.true, label %cond.false

cond.true:                                        ; preds = %entry
  %2 = load i64, ptr %a.addr, align 8
  br label %cond.end

cond.false:                                       ; preds = %entry
  %3 = load i64, ptr %b.addr, align 8
  br label %cond.end

cond.end:                                         ; preds = %cond.false, %cond.true
  %cond = phi i64 [ %2, %cond.true ], [ %3, %cond.false ]
  store i64 %cond, ptr %low, align 8
  %4 = load i64, ptr %a.addr, align 8
  %5 = load i64, ptr %b.addr, align 8
  %cmp1 = icmp slt i64 %4, %5
  br i1 %cmp1, label %cond.true2, label %cond.false3

cond.true2:                                       ; preds = %cond.end
  %6 = load i64, ptr %b.addr, align 8
  br label %cond.end4

cond.false3:                                      ; preds = %cond.end
  %7 = load i64, ptr %a.addr, align 8
  br label %cond.end4

cond.end4:                                        ; preds = %cond.false3, %cond.true2
  %cond5 = phi i64 [ %6, %cond.true2 ], [ %7, %cond.false3 ]
  store i64 %cond5, ptr %high, align 8
  %8 = load i64, ptr %c.addr, align 8
  %9 = load i64, ptr %low, align 8
  %cmp6 = icmp slt i64 %8, %9
  br i1 %cmp6, label %cond.true7, label %cond.false8

cond.true7:                                       ; preds = %cond.end4
  %10 = load i64, ptr %low, align 8
  br label %cond.end14

cond.false8:                                      ; preds = %cond.end4
  %11 = load i64, ptr %high, align 8
  %12 = load i64, ptr %c.addr, align 8
  %cmp9 = icmp slt i64 %11, %12
  br i1 %cmp9, label %cond.true10, label %cond.false11

cond.true10:                                      ; preds = %cond.false8
  %13 = load i64, ptr %high, align 8
  br label %cond.end12

cond.false11:                                     ; preds = %cond.false8
  %14 = load i64, ptr %c.addr, align 8
  br label %cond.end12

cond.end12:                                       ; preds = %cond.false11, %cond.true10
  %cond13 = phi i64 [ %13, %cond.true10 ], [ %14, %cond.false11 ]
  br label %cond.end14

cond.end14:                                       ; preds = %cond.end12, %cond.true7
  %cond15 = phi i64 [ %10, %cond.true7 ], [ %cond13, %cond.end12 ]
  ret i64 %cond15
}

; Function Attrs: noinline nounwind optnone uwtable
define dso_local i32 @sum(i32 noundef %a, i32 noundef %b) #0 {
entry:
  %a.addr = alloca i32, align 4
  %b.addr = alloca i32, align 4
  store i32 %a, ptr %a.addr, align 4
  store i32 %b, ptr %b.addr, align 4
  %0 = load i32, ptr %a.addr, align 4
  %1 = load i32, ptr %b.addr, align 4
  %add = add nsw i32 %0, %1
  ret i32 %add
}

; Function Attrs: noinline nounwind optnone uwtable
define dso_local i32 @checked(i32 noundef %a, i32 noundef %b) #0 {
entry:
  %a.addr = alloca i32, align 4
  %b.addr = alloca i32, align 4
  %r = alloca i32, align 4
  store i32 %a, ptr %a.addr, align 4
  store i32 %b, ptr %b.addr, align 4
  %0 = load i32, ptr %a.addr, align 4
  %1 = load i32, ptr %b.addr, align 4
  %2 = call { i32, i1 } @llvm.uadd.with.overflow.i32(i32 %0, i32 %1)
  %3 = extractvalue { i32, i1 } %2, 1
  %4 = extractvalue { i32, i1 } %2, 0
  store i32 %4, ptr %r, align 4
  br i1 %3, label %cond.true, label %cond.false

cond.true:                                        ; preds = %entry
  br label %cond.end

cond.false:                                       ; preds = %entry
  %5 = load i32, ptr %r, align 4
  br label %cond.end

cond.end:                                         ; preds = %cond.false, %cond.true
  %cond = phi i32 [ 7, %cond.true ], [ %5, %cond.false ]
  ret i32 %cond
}

; Function Attrs: nocallback nofree nosync nounwind speculatable willreturn memory(none)
declare { i32, i1 } @llvm.uadd.with.overflow.i32(i32, i32) #1

; Function Attrs: noinline nounwind optnone uwtable
define dso_local i64 @chosen(i8 noundef zeroext %op, i32 noundef %a, i32 noundef %b) #0 {
entry:
  %retval = alloca i64, align 8
  %op.addr = alloca i8, align 1
  %a.addr = alloca i32, align 4
  %b.addr = alloca i32, align 4
  store i8 %op, ptr %op.addr, align 1
  store i32 %a, ptr %a.addr, align 4
  store i32 %b, ptr %b.addr, align 4
  %0 = load i8, ptr %op.addr, align 1
  %conv = zext i8 %0 to i32
  %and = and i32 %conv, 7
  switch i32 %and, label %sw.default [
    i32 0, label %sw.bb
    i32 1, label %sw.bb2
    i32 2, label %sw.bb4
    i32 3, label %sw.bb7
    i32 5, label %sw.bb10
    i32 6, label %sw.bb12
  ]

sw.bb:                                            ; preds = %entry
  %1 = load i32, ptr %a.addr, align 4
  %2 = load i32, ptr %b.addr, align 4
  %add = add i32 %1, %2
  %conv1 = zext i32 %add to i64
  store i64 %conv1, ptr %retval, align 8
  br label %return

sw.bb2:                                           ; preds = %entry
  %3 = load i32, ptr %a.addr, align 4
  %4 = load i32, ptr %b.addr, align 4
  %sub = sub i32 %3, %4
  %conv3 = zext i32 %sub to i64
  store i64 %conv3, ptr %retval, align 8
  br label %return

sw.bb4:                                           ; preds = %entry
  %5 = load i32, ptr %a.addr, align 4
  %conv5 = zext i32 %5 to i64
  %6 = load i32, ptr %b.addr, align 4
  %conv6 = zext i32 %6 to i64
  %mul = mul i64 %conv5, %conv6
  store i64 %mul, ptr %retval, align 8
  br label %return

sw.bb7:                                           ; preds = %entry
  %7 = load i32, ptr %a.addr, align 4
  %8 = load i32, ptr %b.addr, align 4
  %and8 = and i32 %7, %8
  %conv9 = zext i32 %and8 to i64
  store i64 %conv9, ptr %retval, align 8
  br label %return

sw.bb10:                                          ; preds = %entry
  %9 = load i32, ptr %a.addr, align 4
  %10 = load i32, ptr %b.addr, align 4
  %or = or i32 %9, %10
  %conv11 = zext i32 %or to i64
  store i64 %conv11, ptr %retval, align 8
  br label %return

sw.bb12:                                          ; preds = %entry
  %11 = load i32, ptr %a.addr, align 4
  %not = xor i32 %11, -1
  %conv13 = zext i32 %not to i64
  store i64 %conv13, ptr %retval, align 8
  br label %return

sw.default:                                       ; preds = %entry
  %12 = load i32, ptr %a.addr, align 4
  %13 = load i32, ptr %b.addr, align 4
  %cmp = icmp eq i32 %12, %13
  %conv14 = zext i1 %cmp to i32
  %conv15 = sext i32 %conv14 to i64
  store i64 %conv15, ptr %retval, align 8
  br label %return

return:                                           ; preds = %sw.default, %sw.bb12, %sw.bb10, %sw.bb7, %sw.bb4, %sw.bb2, %sw.bb
  %14 = load i64, ptr %retval, align 8
  ret i64 %14
}

; Function Attrs: noinline nounwind optnone uwtable
define dso_local i32 @chain(i32 noundef %n) #0 {
entry:
  %n.addr = alloca i32, align 4
  store i32 %n, ptr %n.addr, align 4
  %0 = load i32, ptr %n.addr, align 4
  %and = and i32 %0, 65535
  %call = call i32 @step(i32 noundef %and) #2
  %call1 = call i32 @step(i32 noundef %call) #2
  %call2 = call i32 @step(i32 noundef %call1) #2
  %call3 = call i32 @step(i32 noundef %call2) #2
  ret i32 %call3
}

; Function Attrs: noinline nounwind optnone uwtable
define internal i32 @step(i32 noundef %n) #0 {
entry:
  %n.addr = alloca i32, align 4
  store i32 %n, ptr %n.addr, align 4
  %0 = load i32, ptr %n.addr, align 4
  %rem = urem i32 %0, 2
  %tobool = icmp ne i32 %rem, 0
  br i1 %tobool, label %cond.true, label %cond.false

cond.true:                                        ; preds = %entry
  %1 = load i32, ptr %n.addr, align 4
  %mul = mul i32 3, %1
  %add = add i32 %mul, 1
  br label %cond.end

cond.false:                                       ; preds = %entry
  %2 = load i32, ptr %n.addr, align 4
  %div = udiv i32 %2, 2
  br label %cond.end

cond.end:                                         ; preds = %cond.false, %cond.true
  %cond = phi i32 [ %add, %cond.true ], [ %div, %cond.false ]
  ret i32 %cond
}

; Function Attrs: noinline nounwind optnone uwtable
define dso_local i32 @hand(i32 noundef %from, i32 noundef %to) #0 {
entry:
  %retval = alloca i32, align 4
  %from.addr = alloca i32, align 4
  %to.addr = alloca i32, align 4
  store i32 %from, ptr %from.addr, align 4
  store i32 %to, ptr %to.addr, align 4
  %0 = load i32, ptr %from.addr, align 4
  %cmp = icmp uge i32 %0, 4
  br i1 %cmp, label %if.then, label %lor.lhs.false

lor.lhs.false:                                    ; preds = %entry
  %1 = load i32, ptr %to.addr, align 4
  %cmp1 = icmp uge i32 %1, 4
  br i1 %cmp1, label %if.then, label %if.end

if.then:                                          ; preds = %lor.lhs.false, %entry
  store i32 9, ptr %retval, align 4
  br label %return

if.end:                                           ; preds = %lor.lhs.false
  %2 = load i32, ptr %to.addr, align 4
  %3 = load i32, ptr %from.addr, align 4
  %idxprom = zext i32 %3 to i64
  %arrayidx = getelementptr inbounds [4 x %struct.file], ptr @files, i64 0, i64 %idxprom
  %refs = getelementptr inbounds %struct.file, ptr %arrayidx, i32 0, i32 0
  %4 = load i32, ptr %refs, align 16
  call void @give(i32 noundef %2, i32 noundef %4) #2
  %5 = load i32, ptr %from.addr, align 4
  %6 = load i32, ptr %to.addr, align 4
  %cmp2 = icmp ne i32 %5, %6
  br i1 %cmp2, label %if.then3, label %if.end7

if.then3:                                         ; preds = %if.end
  %7 = load i32, ptr %from.addr, align 4
  %idxprom4 = zext i32 %7 to i64
  %arrayidx5 = getelementptr inbounds [4 x %struct.file], ptr @files, i64 0, i64 %idxprom4
  %refs6 = getelementptr inbounds %struct.file, ptr %arrayidx5, i32 0, i32 0
  store i32 0, ptr %refs6, align 16
  br label %if.end7

if.end7:                                          ; preds = %if.then3, %if.end
  %8 = load i32, ptr %to.addr, align 4
  %idxprom8 = zext i32 %8 to i64
  %arrayidx9 = getelementptr inbounds [4 x %struct.file], ptr @files, i64 0, i64 %idxprom8
  %refs10 = getelementptr inbounds %struct.file, ptr %arrayidx9, i32 0, i32 0
  %9 = load i32, ptr %refs10, align 16
  store i32 %9, ptr %retval, align 4
  br label %return

return:                                           ; preds = %if.end7, %if.then
  %10 = load i32, ptr %retval, align 4
  ret i32 %10
}

; Function Attrs: noinline nounwind optnone uwtable
define internal void @give(i32 noundef %to, i32 noundef %by) #0 {
entry:
  %to.addr = alloca i32, align 4
  %by.addr = alloca i32, align 4
  store i32 %to, ptr %to.addr, align 4
  store i32 %by, ptr %by.addr, align 4
  %0 = load i32, ptr %by.addr, align 4
  %1 = load i32, ptr %to.addr, align 4
  %idxprom = zext i32 %1 to i64
  %arrayidx = getelementptr inbounds [4 x %struct.file], ptr @files, i64 0, i64 %idxprom
  %refs = getelementptr inbounds %struct.file, ptr %arrayidx, i32 0, i32 0
  %2 = load i32, ptr %refs, align 16
  %add = add i32 %2, %0
  store i32 %add, ptr %refs, align 16
  %3 = load i32, ptr %by.addr, align 4
  %conv = zext i32 %3 to i64
  %4 = load i64, ptr @total, align 8
  %add1 = add i64 %4, %conv
  store i64 %add1, ptr @total, align 8
  ret void
}

; Function Attrs: noinline nounwind optnone uwtable
define dso_local i32 @prime(i32 noundef %n) #0 {
entry:
  %n.addr = alloca i32, align 4
  store i32 %n, ptr %n.addr, align 4
  %0 = load i32, ptr %n.addr, align 4
  %idxprom = zext i32 %0 to i64
  %arrayidx = getelementptr inbounds [6 x i32], ptr @primes, i64 0, i64 %idxprom
  %1 = load i32, ptr %arrayidx, align 4
  ret i32 %1
}

; Function Attrs: noinline nounwind optnone uwtable
define dso_local i32 @limit(i8 noundef zeroext %n, i16 noundef signext %by) #0 {
entry:
  %retval = alloca i32, align 4
  %n.addr = alloca i8, align 1
  %by.addr = alloca i16, align 2
  store i8 %n, ptr %n.addr, align 1
  store i16 %by, ptr %by.addr, align 2
  %0 = load i8, ptr %n.addr, align 1
  %conv = zext i8 %0 to i32
  %cmp = icmp sge i32 %conv, 4
  br i1 %cmp, label %if.then, label %if.end

if.then:                                          ; preds = %entry
  store i32 -1, ptr %retval, align 4
  br label %return

if.end:                                           ; preds = %entry
  %1 = load i8, ptr %n.addr, align 1
  %idxprom = zext i8 %1 to i64
  %arrayidx = getelementptr inbounds [4 x i16], ptr @limits, i64 0, i64 %idxprom
  %2 = load i16, ptr %arrayidx, align 2
  %conv2 = sext i16 %2 to i32
  %3 = load i16, ptr %by.addr, align 2
  %conv3 = sext i16 %3 to i32
  %add = add nsw i32 %conv2, %conv3
  %conv4 = trunc i32 %add to i16
  %4 = load i8, ptr %n.addr, align 1
  %idxprom5 = zext i8 %4 to i64
  %arrayidx6 = getelementptr inbounds [4 x i16], ptr @limits, i64 0, i64 %idxprom5
  store i16 %conv4, ptr %arrayidx6, align 2
  %5 = load i8, ptr %n.addr, align 1
  %idxprom7 = zext i8 %5 to i64
  %arrayidx8 = getelementptr inbounds [4 x i16], ptr @limits, i64 0, i64 %idxprom7
  %6 = load i16, ptr %arrayidx8, align 2
  %conv9 = sext i16 %6 to i32
  store i32 %conv9, ptr %retval, align 4
  br label %return

return:                                           ; preds = %if.end, %if.then
  %7 = load i32, ptr %retval, align 4
  ret i32 %7
}

; Function Attrs: noinline nounwind optnone uwtable
define dso_local i32 @put(i8 noundef zeroext %at, i8 noundef zeroext %by) #0 {
entry:
  %retval = alloca i32, align 4
  %at.addr = alloca i8, align 1
  %by.addr = alloca i8, align 1
  store i8 %at, ptr %at.addr, align 1
  store i8 %by, ptr %by.addr, align 1
  %0 = load i8, ptr %at.addr, align 1
  %conv = zext i8 %0 to i32
  %cmp = icmp sgt i32 %conv, 16
  br i1 %cmp, label %if.then, label %if.end

if.then:                                          ; preds = %entry
  store i32 -22, ptr %retval, align 4
  br label %return

if.end:                                           ; preds = %entry
  %1 = load i8, ptr %by.addr, align 1
  %2 = load i8, ptr %at.addr, align 1
  %idxprom = zext i8 %2 to i64
  %arrayidx = getelementptr inbounds [16 x i8], ptr @table, i64 0, i64 %idxprom
  store i8 %1, ptr %arrayidx, align 1
  %3 = load i8, ptr %by.addr, align 1
  %conv2 = zext i8 %3 to i32
  %not = xor i32 %conv2, -1
  %conv3 = trunc i32 %not to i8
  %conv4 = zext i8 %conv3 to i32
  %4 = load i8, ptr %at.addr, align 1
  %conv5 = zext i8 %4 to i32
  %add = add nsw i32 %conv5, 5
  %and = and i32 %add, 15
  %idxprom6 = sext i32 %and to i64
  %arrayidx7 = getelementptr inbounds [16 x i8], ptr @table, i64 0, i64 %idxprom6
  %5 = load i8, ptr %arrayidx7, align 1
  %conv8 = zext i8 %5 to i32
  %xor = xor i32 %conv8, %conv4
  %conv9 = trunc i32 %xor to i8
  store i8 %conv9, ptr %arrayidx7, align 1
  %6 = load i8, ptr %at.addr, align 1
  %conv10 = zext i8 %6 to i32
  store i32 %conv10, ptr @current, align 4
  %7 = load i8, ptr @table, align 16
  %conv11 = zext i8 %7 to i32
  store i32 %conv11, ptr %retval, align 4
  br label %return

return:                                           ; preds = %if.end, %if.then
  %8 = load i32, ptr %retval, align 4
  ret i32 %8
}

; Function Attrs: noinline nounwind optnone uwtable
define dso_local i32 @transfer(i32 noundef %from, i32 noundef %to, i8 noundef zeroext %owner) #0 {
entry:
  %retval = alloca i32, align 4
  %from.addr = alloca i32, align 4
  %to.addr = alloca i32, align 4
  %owner.addr = alloca i8, align 1
  store i32 %from, ptr %from.addr, align 4
  store i32 %to, ptr %to.addr, align 4
  store i8 %owner, ptr %owner.addr, align 1
  %0 = load i32, ptr %from.addr, align 4
  %cmp = icmp uge i32 %0, 4
  br i1 %cmp, label %if.then, label %lor.lhs.false

lor.lhs.false:                                    ; preds = %entry
  %1 = load i32, ptr %to.addr, align 4
  %cmp1 = icmp uge i32 %1, 4
  br i1 %cmp1, label %if.then, label %lor.lhs.false2

lor.lhs.false2:                                   ; preds = %lor.lhs.false
  %2 = load i32, ptr %from.addr, align 4
  %3 = load i32, ptr %to.addr, align 4
  %cmp3 = icmp eq i32 %2, %3
  br i1 %cmp3, label %if.then, label %if.end

if.then:                                          ; preds = %lor.lhs.false2, %lor.lhs.false, %entry
  store i32 -9, ptr %retval, align 4
  br label %return

if.end:                                           ; preds = %lor.lhs.false2
  %4 = load i32, ptr %from.addr, align 4
  %idxprom = zext i32 %4 to i64
  %arrayidx = getelementptr inbounds [4 x %struct.file], ptr @files, i64 0, i64 %idxprom
  %refs = getelementptr inbounds %struct.file, ptr %arrayidx, i32 0, i32 0
  %5 = load i32, ptr %refs, align 16
  %add = add i32 %5, 1
  %6 = load i32, ptr %to.addr, align 4
  %idxprom4 = zext i32 %6 to i64
  %arrayidx5 = getelementptr inbounds [4 x %struct.file], ptr @files, i64 0, i64 %idxprom4
  %refs6 = getelementptr inbounds %struct.file, ptr %arrayidx5, i32 0, i32 0
  store i32 %add, ptr %refs6, align 16
  %7 = load i32, ptr %from.addr, align 4
  %mul = mul i32 %7, 257
  %8 = load i32, ptr %to.addr, align 4
  %add7 = add i32 %mul, %8
  %conv = trunc i32 %add7 to i16
  %9 = load i32, ptr %to.addr, align 4
  %idxprom8 = zext i32 %9 to i64
  %arrayidx9 = getelementptr inbounds [4 x %struct.file], ptr @files, i64 0, i64 %idxprom8
  %kind = getelementptr inbounds %struct.file, ptr %arrayidx9, i32 0, i32 1
  store i16 %conv, ptr %kind, align 4
  %10 = load i8, ptr %owner.addr, align 1
  %11 = load i32, ptr %to.addr, align 4
  %idxprom10 = zext i32 %11 to i64
  %arrayidx11 = getelementptr inbounds [4 x %struct.file], ptr @files, i64 0, i64 %idxprom10
  %owner12 = getelementptr inbounds %struct.file, ptr %arrayidx11, i32 0, i32 2
  store i8 %10, ptr %owner12, align 2
  %12 = load i8, ptr %owner.addr, align 1
  %conv13 = zext i8 %12 to i64
  %shl = shl i64 %conv13, 40
  %13 = load i32, ptr %to.addr, align 4
  %conv14 = zext i32 %13 to i64
  %or = or i64 %shl, %conv14
  %14 = load i32, ptr %from.addr, align 4
  %idxprom15 = zext i32 %14 to i64
  %arrayidx16 = getelementptr inbounds [4 x %struct.file], ptr @files, i64 0, i64 %idxprom15
  %offset = getelementptr inbounds %struct.file, ptr %arrayidx16, i32 0, i32 3
  store i64 %or, ptr %offset, align 8
  %15 = load i32, ptr %to.addr, align 4
  %idxprom17 = zext i32 %15 to i64
  %arrayidx18 = getelementptr inbounds [4 x %struct.file], ptr @files, i64 0, i64 %idxprom17
  %refs19 = getelementptr inbounds %struct.file, ptr %arrayidx18, i32 0, i32 0
  %16 = load i32, ptr %refs19, align 16
  %conv20 = zext i32 %16 to i64
  %17 = load i64, ptr @total, align 8
  %add21 = add i64 %17, %conv20
  store i64 %add21, ptr @total, align 8
  %18 = load i32, ptr %to.addr, align 4
  %idxprom22 = zext i32 %18 to i64
  %arrayidx23 = getelementptr inbounds [4 x %struct.file], ptr @files, i64 0, i64 %idxprom22
  %kind24 = getelementptr inbounds %struct.file, ptr %arrayidx23, i32 0, i32 1
  %19 = load i16, ptr %kind24, align 4
  %conv25 = zext i16 %19 to i32
  store i32 %conv25, ptr %retval, align 4
  br label %return

return:                                           ; preds = %if.end, %if.then
  %20 = load i32, ptr %retval, align 4
  ret i32 %20
}

; Function Attrs: noinline nounwind optnone uwtable
define dso_local i32 @least(i32 noundef %at) #0 {
entry:
  %at.addr = alloca i32, align 4
  %p = alloca ptr, align 8
  store i32 %at, ptr %at.addr, align 4
  %0 = load i32, ptr %at.addr, align 4
  %and = and i32 %0, 1
  %tobool = icmp ne i32 %and, 0
  br i1 %tobool, label %cond.true, label %cond.false

cond.true:                                        ; preds = %entry
  %1 = load i32, ptr %at.addr, align 4
  %and1 = and i32 %1, 15
  %idxprom = zext i32 %and1 to i64
  %arrayidx = getelementptr inbounds [16 x i8], ptr @table, i64 0, i64 %idxprom
  br label %cond.end

cond.false:                                       ; preds = %entry
  br label %cond.end

cond.end:                                         ; preds = %cond.false, %cond.true
  %cond = phi ptr [ %arrayidx, %cond.true ], [ @current, %cond.false ]
  store ptr %cond, ptr %p, align 8
  %2 = load ptr, ptr %p, align 8
  store i8 3, ptr %2, align 1
  %3 = load i32, ptr @current, align 4
  %4 = load i8, ptr getelementptr inbounds ([16 x i8], ptr @table, i64 0, i64 1), align 1
  %conv = zext i8 %4 to i32
  %add = add i32 %3, %conv
  ret i32 %add
}

attributes #0 = { noinline nounwind optnone uwtable "frame-pointer"="all" "min-legal-vector-width"="0" "no-builtin-memcpy" "no-builtin-memset" "no-jump-tables"="true" "no-trapping-math"="true" "stack-protector-buffer-size"="8" "target-cpu"="x86-64" "target-features"="+cx8,+fxsr,+mmx,+sse,+sse2,+x87" "tune-cpu"="generic" }
attributes #1 = { nocallback nofree nosync nounwind speculatable willreturn memory(none) }
attributes #2 = { "no-builtin-memcpy" "no-builtin-memset" }

!llvm.module.flags = !{!0, !1, !2, !3, !4}
!llvm.ident = !{!5}

!0 = !{i32 1, !"wchar_size", i32 4}
!1 = !{i32 8, !"PIC Level", i32 2}
!2 = !{i32 7, !"PIE Level", i32 2}
!3 = !{i32 7, !"uwtable", i32 2}
!4 = !{i32 7, !"frame-pointer", i32 2}
!5 = !{!"Debian clang version 16.0.6 (15~deb12u1)"}
