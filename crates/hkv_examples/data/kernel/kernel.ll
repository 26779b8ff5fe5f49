; ModuleID = 'kernel.c'
source_filename = "kernel.c"
target datalayout = "e-m:e-p:64:64-i64:64-i128:128-n32:64-S128"
target triple = "riscv64-unknown-unknown-elf"

%struct.root = type { [2 x i64], [510 x i64] }
%struct.middle = type { [2 x i64], [510 x i64] }
%struct.leaf = type { [8 x i64], [504 x i64] }

@current = dso_local local_unnamed_addr global i32 3, align 4, !dbg !0
@proc_state = dso_local local_unnamed_addr global [4 x i32] [i32 0, i32 0, i32 0, i32 2], align 4, !dbg !39
@proc_parent = dso_local local_unnamed_addr global [4 x i32] [i32 0, i32 0, i32 0, i32 3], align 4, !dbg !45
@proc_next = dso_local local_unnamed_addr global [4 x i32] [i32 0, i32 0, i32 0, i32 3], align 4, !dbg !47
@proc_name = dso_local local_unnamed_addr global [4 x i32] [i32 0, i32 0, i32 0, i32 1953066601], align 4, !dbg !49
@roots = dso_local local_unnamed_addr global [4 x %struct.root] [%struct.root zeroinitializer, %struct.root zeroinitializer, %struct.root zeroinitializer, %struct.root { [2 x i64] [i64 0, i64 537140225], [510 x i64] zeroinitializer }], section ".roots", align 8, !dbg !51
@middles = dso_local local_unnamed_addr global [4 x %struct.middle] [%struct.middle zeroinitializer, %struct.middle zeroinitializer, %struct.middle zeroinitializer, %struct.middle { [2 x i64] [i64 0, i64 537144321], [510 x i64] zeroinitializer }], section ".middles", align 8, !dbg !64
@leaves = dso_local local_unnamed_addr global [4 x %struct.leaf] [%struct.leaf zeroinitializer, %struct.leaf zeroinitializer, %struct.leaf zeroinitializer, %struct.leaf { [8 x i64] [i64 536936667, i64 536937691, i64 536938715, i64 0, i64 0, i64 0, i64 0, i64 537150679], [504 x i64] zeroinitializer }], section ".leaves", align 8, !dbg !71
@middle_parent = dso_local local_unnamed_addr global [4 x i32] [i32 0, i32 0, i32 0, i32 4], align 4, !dbg !84
@middle_index = dso_local local_unnamed_addr global [4 x i32] [i32 0, i32 0, i32 0, i32 1], align 4, !dbg !86
@leaf_parent = dso_local local_unnamed_addr global [4 x i32] [i32 0, i32 0, i32 0, i32 4], align 4, !dbg !88
@leaf_index = dso_local local_unnamed_addr global [4 x i32] [i32 0, i32 0, i32 0, i32 1], align 4, !dbg !90
@frame_parent = dso_local local_unnamed_addr global [6 x i32] [i32 0, i32 0, i32 0, i32 0, i32 0, i32 4], align 4, !dbg !92
@frame_index = dso_local local_unnamed_addr global [6 x i32] [i32 0, i32 0, i32 0, i32 0, i32 0, i32 7], align 4, !dbg !97
@frame_cleared = dso_local local_unnamed_addr global [6 x i32] [i32 512, i32 512, i32 512, i32 512, i32 512, i32 0], align 4, !dbg !99
@proc_status = dso_local local_unnamed_addr global [4 x i32] zeroinitializer, align 4, !dbg !103
@recv_from = dso_local local_unnamed_addr global [4 x i32] zeroinitializer, align 4, !dbg !105
@fds = dso_local local_unnamed_addr global [4 x [4 x i32]] zeroinitializer, align 4, !dbg !117
@file_kind = dso_local local_unnamed_addr global [3 x i32] zeroinitializer, align 4, !dbg !121
@file_owner = dso_local local_unnamed_addr global [3 x i32] zeroinitializer, align 4, !dbg !126
@port_owner = dso_local local_unnamed_addr global [2 x i32] zeroinitializer, align 4, !dbg !152
@vector_owner = dso_local local_unnamed_addr global [2 x i32] zeroinitializer, align 4, !dbg !154
@device_owner = dso_local local_unnamed_addr global [2 x i32] zeroinitializer, align 4, !dbg !163
@file_fds = dso_local local_unnamed_addr global [3 x i32] zeroinitializer, align 4, !dbg !128
@pipe_reader = dso_local local_unnamed_addr global [2 x i32] zeroinitializer, align 4, !dbg !134
@pipe_writer = dso_local local_unnamed_addr global [2 x i32] zeroinitializer, align 4, !dbg !137
@pipe_head = dso_local local_unnamed_addr global [2 x i32] zeroinitializer, align 4, !dbg !139
@pipe_count = dso_local local_unnamed_addr global [2 x i32] zeroinitializer, align 4, !dbg !141
@file_value = dso_local local_unnamed_addr global [3 x i32] zeroinitializer, align 4, !dbg !130
@pipe_word = dso_local local_unnamed_addr global [2 x [4 x i32]] zeroinitializer, align 4, !dbg !143
@file_offset = dso_local local_unnamed_addr global [3 x i32] zeroinitializer, align 4, !dbg !132
@recv_leaf = dso_local local_unnamed_addr global [4 x i32] zeroinitializer, align 4, !dbg !107
@recv_index = dso_local local_unnamed_addr global [4 x i32] zeroinitializer, align 4, !dbg !109
@recv_fd = dso_local local_unnamed_addr global [4 x i32] zeroinitializer, align 4, !dbg !111
@msg_value = dso_local local_unnamed_addr global [4 x i32] zeroinitializer, align 4, !dbg !115
@msg_from = dso_local local_unnamed_addr global [4 x i32] zeroinitializer, align 4, !dbg !113
@frames = dso_local local_unnamed_addr global [6 x [512 x i64]] zeroinitializer, section ".bss.frames", align 8, !dbg !147
@vector_pending = dso_local local_unnamed_addr global [2 x i32] zeroinitializer, align 4, !dbg !156
@source_vector = dso_local local_unnamed_addr global [16 x i32] zeroinitializer, align 4, !dbg !158
@device_parent = dso_local local_unnamed_addr global [2 x i32] zeroinitializer, align 4, !dbg !165
@device_index = dso_local local_unnamed_addr global [2 x i32] zeroinitializer, align 4, !dbg !167
@ticks = dso_local local_unnamed_addr global i32 0, align 4, !dbg !101

; Function Attrs: mustprogress nofree norecurse nosync nounwind willreturn memory(readwrite, argmem: none, inaccessiblemem: none)
define dso_local signext i32 @sys_create(i32 noundef signext %0) local_unnamed_addr #0 !dbg !176 {
  call void @llvm.dbg.value(metadata i32 %0, metadata !182, metadata !DIExpression()), !dbg !183
  %2 = icmp ugt i32 %0, 3, !dbg !184
  br i1 %2, label %13, label %3, !dbg !186

3:                                                ; preds = %1
  %4 = zext i32 %0 to i64, !dbg !187
  %5 = getelementptr inbounds [4 x i32], ptr @proc_state, i64 0, i64 %4, !dbg !187
  %6 = load i32, ptr %5, align 4, !dbg !187, !tbaa !188
  %7 = icmp eq i32 %6, 0, !dbg !192
  br i1 %7, label %8, label %13, !dbg !193

8:                                                ; preds = %3
  store i32 1, ptr %5, align 4, !dbg !194, !tbaa !188
  %9 = load i32, ptr @current, align 4, !dbg !195, !tbaa !188
  %10 = getelementptr inbounds [4 x i32], ptr @proc_parent, i64 0, i64 %4, !dbg !196
  store i32 %9, ptr %10, align 4, !dbg !197, !tbaa !188
  %11 = getelementptr inbounds [4 x i32], ptr @proc_next, i64 0, i64 %4, !dbg !198
  store i32 %9, ptr %11, align 4, !dbg !199, !tbaa !188
  %12 = getelementptr inbounds [4 x i32], ptr @proc_name, i64 0, i64 %4, !dbg !200
  store i32 0, ptr %12, align 4, !dbg !201, !tbaa !188
  br label %13, !dbg !202

13:                                               ; preds = %1, %3, %8
  %14 = phi i32 [ 0, %8 ], [ -1, %3 ], [ -1, %1 ], !dbg !183
  ret i32 %14, !dbg !203
}

; Function Attrs: mustprogress nofree norecurse nosync nounwind willreturn memory(readwrite, argmem: none, inaccessiblemem: none)
define dso_local signext i32 @sys_set_name(i32 noundef signext %0, i32 noundef signext %1) local_unnamed_addr #0 !dbg !204 {
  call void @llvm.dbg.value(metadata i32 %0, metadata !208, metadata !DIExpression()), !dbg !210
  call void @llvm.dbg.value(metadata i32 %1, metadata !209, metadata !DIExpression()), !dbg !210
  call void @llvm.dbg.value(metadata i32 %0, metadata !211, metadata !DIExpression()), !dbg !216
  %3 = load i32, ptr @current, align 4, !dbg !219, !tbaa !188
  %4 = icmp eq i32 %3, %0, !dbg !220
  br i1 %4, label %16, label %5, !dbg !221

5:                                                ; preds = %2
  call void @llvm.dbg.value(metadata i32 %0, metadata !222, metadata !DIExpression()), !dbg !228
  call void @llvm.dbg.value(metadata i32 1, metadata !227, metadata !DIExpression()), !dbg !228
  %6 = icmp ult i32 %0, 4, !dbg !230
  br i1 %6, label %7, label %19, !dbg !231

7:                                                ; preds = %5
  %8 = zext i32 %0 to i64, !dbg !232
  %9 = getelementptr inbounds [4 x i32], ptr @proc_state, i64 0, i64 %8, !dbg !232
  %10 = load i32, ptr %9, align 4, !dbg !232, !tbaa !188
  %11 = icmp eq i32 %10, 1, !dbg !233
  br i1 %11, label %12, label %19, !dbg !234

12:                                               ; preds = %7
  %13 = getelementptr inbounds [4 x i32], ptr @proc_parent, i64 0, i64 %8, !dbg !235
  %14 = load i32, ptr %13, align 4, !dbg !235, !tbaa !188
  %15 = icmp eq i32 %14, %3, !dbg !236
  br i1 %15, label %16, label %19, !dbg !237

16:                                               ; preds = %2, %12
  %17 = zext i32 %0 to i64, !dbg !238
  %18 = getelementptr inbounds [4 x i32], ptr @proc_name, i64 0, i64 %17, !dbg !238
  store i32 %1, ptr %18, align 4, !dbg !239, !tbaa !188
  br label %19, !dbg !240

19:                                               ; preds = %7, %5, %12, %16
  %20 = phi i32 [ 0, %16 ], [ -1, %12 ], [ -1, %5 ], [ -1, %7 ], !dbg !210
  ret i32 %20, !dbg !241
}

; Function Attrs: nounwind
define dso_local signext i32 @sys_start(i32 noundef signext %0, i32 noundef signext %1, i32 noundef signext %2, i32 noundef signext %3) local_unnamed_addr #1 !dbg !242 {
  call void @llvm.dbg.value(metadata i32 %0, metadata !246, metadata !DIExpression()), !dbg !250
  call void @llvm.dbg.value(metadata i32 %1, metadata !247, metadata !DIExpression()), !dbg !250
  call void @llvm.dbg.value(metadata i32 %2, metadata !248, metadata !DIExpression()), !dbg !250
  call void @llvm.dbg.value(metadata i32 %3, metadata !249, metadata !DIExpression()), !dbg !250
  call void @llvm.dbg.value(metadata i32 %0, metadata !222, metadata !DIExpression()), !dbg !251
  call void @llvm.dbg.value(metadata i32 1, metadata !227, metadata !DIExpression()), !dbg !251
  %5 = icmp ult i32 %0, 4, !dbg !254
  br i1 %5, label %6, label %19, !dbg !255

6:                                                ; preds = %4
  %7 = zext i32 %0 to i64, !dbg !256
  %8 = getelementptr inbounds [4 x i32], ptr @proc_state, i64 0, i64 %7, !dbg !256
  %9 = load i32, ptr %8, align 4, !dbg !256, !tbaa !188
  %10 = icmp eq i32 %9, 1, !dbg !257
  br i1 %10, label %11, label %19, !dbg !258

11:                                               ; preds = %6
  %12 = getelementptr inbounds [4 x i32], ptr @proc_parent, i64 0, i64 %7, !dbg !259
  %13 = load i32, ptr %12, align 4, !dbg !259, !tbaa !188
  %14 = load i32, ptr @current, align 4, !dbg !260, !tbaa !188
  %15 = icmp eq i32 %13, %14, !dbg !261
  br i1 %15, label %16, label %19, !dbg !262

16:                                               ; preds = %11
  %17 = zext i32 %0 to i64, !dbg !263
  %18 = getelementptr inbounds [4 x i32], ptr @proc_state, i64 0, i64 %17, !dbg !263
  store i32 2, ptr %18, align 4, !dbg !264, !tbaa !188
  tail call void @context_start(i32 noundef signext %0, i32 noundef signext %1, i32 noundef signext %2, i32 noundef signext %3) #6, !dbg !265
  br label %19, !dbg !266

19:                                               ; preds = %6, %4, %11, %16
  %20 = phi i32 [ 0, %16 ], [ -1, %11 ], [ -1, %4 ], [ -1, %6 ], !dbg !250
  ret i32 %20, !dbg !267
}

declare !dbg !268 dso_local void @context_start(i32 noundef signext, i32 noundef signext, i32 noundef signext, i32 noundef signext) local_unnamed_addr #2

; Function Attrs: mustprogress nofree norecurse nosync nounwind willreturn memory(readwrite, argmem: none, inaccessiblemem: none)
define dso_local signext i32 @sys_switch(i32 noundef signext %0) local_unnamed_addr #0 !dbg !272 {
  call void @llvm.dbg.value(metadata i32 %0, metadata !274, metadata !DIExpression()), !dbg !275
  %2 = icmp ugt i32 %0, 3, !dbg !276
  br i1 %2, label %9, label %3, !dbg !278

3:                                                ; preds = %1
  %4 = zext i32 %0 to i64, !dbg !279
  %5 = getelementptr inbounds [4 x i32], ptr @proc_state, i64 0, i64 %4, !dbg !279
  %6 = load i32, ptr %5, align 4, !dbg !279, !tbaa !188
  %7 = icmp eq i32 %6, 2, !dbg !280
  br i1 %7, label %8, label %9, !dbg !281

8:                                                ; preds = %3
  store i32 %0, ptr @current, align 4, !dbg !282, !tbaa !188
  br label %9, !dbg !283

9:                                                ; preds = %1, %3, %8
  %10 = phi i32 [ 0, %8 ], [ -1, %3 ], [ -1, %1 ], !dbg !275
  ret i32 %10, !dbg !284
}

; Function Attrs: mustprogress nofree norecurse nosync nounwind willreturn memory(readwrite, argmem: none, inaccessiblemem: none)
define dso_local signext i32 @sys_set_next(i32 noundef signext %0) local_unnamed_addr #0 !dbg !285 {
  call void @llvm.dbg.value(metadata i32 %0, metadata !287, metadata !DIExpression()), !dbg !288
  %2 = icmp ugt i32 %0, 3, !dbg !289
  br i1 %2, label %7, label %3, !dbg !291

3:                                                ; preds = %1
  %4 = load i32, ptr @current, align 4, !dbg !292, !tbaa !188
  %5 = zext i32 %4 to i64, !dbg !293
  %6 = getelementptr inbounds [4 x i32], ptr @proc_next, i64 0, i64 %5, !dbg !293
  store i32 %0, ptr %6, align 4, !dbg !294, !tbaa !188
  br label %7, !dbg !295

7:                                                ; preds = %1, %3
  %8 = phi i32 [ 0, %3 ], [ -1, %1 ], !dbg !288
  ret i32 %8, !dbg !296
}

; Function Attrs: mustprogress nofree norecurse nosync nounwind willreturn memory(readwrite, argmem: none, inaccessiblemem: none)
define dso_local signext i32 @sys_yield() local_unnamed_addr #0 !dbg !297 {
  %1 = load i32, ptr @current, align 4, !dbg !300, !tbaa !188
  %2 = zext i32 %1 to i64, !dbg !305
  %3 = getelementptr inbounds [4 x i32], ptr @proc_next, i64 0, i64 %2, !dbg !305
  %4 = load i32, ptr %3, align 4, !dbg !305, !tbaa !188
  %5 = zext i32 %4 to i64, !dbg !306
  %6 = getelementptr inbounds [4 x i32], ptr @proc_state, i64 0, i64 %5, !dbg !306
  %7 = load i32, ptr %6, align 4, !dbg !306, !tbaa !188
  %8 = icmp eq i32 %7, 2, !dbg !307
  %9 = select i1 %8, i32 %4, i32 3, !dbg !306
  store i32 %9, ptr @current, align 4, !dbg !308, !tbaa !188
  ret i32 0, !dbg !309
}

; Function Attrs: mustprogress nofree norecurse nosync nounwind willreturn memory(readwrite, argmem: none, inaccessiblemem: none)
define dso_local signext i32 @sys_exit(i32 noundef signext %0) local_unnamed_addr #0 !dbg !310 {
  call void @llvm.dbg.value(metadata i32 %0, metadata !312, metadata !DIExpression()), !dbg !313
  %2 = load i32, ptr @current, align 4, !dbg !314, !tbaa !188
  %3 = icmp eq i32 %2, 3, !dbg !316
  br i1 %3, label %9, label %4, !dbg !317

4:                                                ; preds = %1
  call void @llvm.dbg.value(metadata i32 %0, metadata !318, metadata !DIExpression()), !dbg !323
  %5 = zext i32 %2 to i64, !dbg !325
  %6 = getelementptr inbounds [4 x i32], ptr @proc_state, i64 0, i64 %5, !dbg !325
  store i32 4, ptr %6, align 4, !dbg !326, !tbaa !188
  %7 = getelementptr inbounds [4 x i32], ptr @proc_status, i64 0, i64 %5, !dbg !327
  store i32 %0, ptr %7, align 4, !dbg !328, !tbaa !188
  %8 = getelementptr inbounds [4 x i32], ptr @recv_from, i64 0, i64 %5, !dbg !329
  store i32 0, ptr %8, align 4, !dbg !330, !tbaa !188
  store i32 3, ptr @current, align 4, !dbg !331, !tbaa !188
  br label %9, !dbg !332

9:                                                ; preds = %1, %4
  %10 = phi i32 [ 0, %4 ], [ -1, %1 ], !dbg !313
  ret i32 %10, !dbg !333
}

; Function Attrs: mustprogress nofree norecurse nosync nounwind willreturn memory(readwrite, argmem: none, inaccessiblemem: none)
define dso_local signext i32 @sys_kill(i32 noundef signext %0) local_unnamed_addr #0 !dbg !334 {
  call void @llvm.dbg.value(metadata i32 %0, metadata !336, metadata !DIExpression()), !dbg !337
  %2 = icmp ugt i32 %0, 3, !dbg !338
  br i1 %2, label %19, label %3, !dbg !340

3:                                                ; preds = %1
  %4 = load i32, ptr @current, align 4, !dbg !341, !tbaa !188
  %5 = icmp eq i32 %4, %0, !dbg !342
  %6 = icmp eq i32 %0, 3
  %7 = or i1 %6, %5, !dbg !343
  br i1 %7, label %19, label %8, !dbg !343

8:                                                ; preds = %3
  %9 = zext i32 %0 to i64, !dbg !344
  %10 = getelementptr inbounds [4 x i32], ptr @proc_parent, i64 0, i64 %9, !dbg !344
  %11 = load i32, ptr %10, align 4, !dbg !344, !tbaa !188
  %12 = icmp eq i32 %11, %4, !dbg !345
  br i1 %12, label %13, label %19, !dbg !346

13:                                               ; preds = %8
  %14 = getelementptr inbounds [4 x i32], ptr @proc_state, i64 0, i64 %9, !dbg !347
  %15 = load i32, ptr %14, align 4, !dbg !347, !tbaa !188
  switch i32 %15, label %16 [
    i32 0, label %19
    i32 4, label %19
  ], !dbg !349

16:                                               ; preds = %13
  store i32 4, ptr %14, align 4, !dbg !350, !tbaa !188
  %17 = getelementptr inbounds [4 x i32], ptr @proc_status, i64 0, i64 %9, !dbg !351
  store i32 0, ptr %17, align 4, !dbg !352, !tbaa !188
  %18 = getelementptr inbounds [4 x i32], ptr @recv_from, i64 0, i64 %9, !dbg !353
  store i32 0, ptr %18, align 4, !dbg !354, !tbaa !188
  br label %19, !dbg !355

19:                                               ; preds = %13, %13, %1, %3, %8, %16
  %20 = phi i32 [ 0, %16 ], [ -1, %8 ], [ -1, %3 ], [ -1, %1 ], [ -1, %13 ], [ -1, %13 ], !dbg !337
  ret i32 %20, !dbg !356
}

; Function Attrs: nofree norecurse nosync nounwind memory(readwrite, argmem: none, inaccessiblemem: none)
define dso_local signext i32 @sys_reap(i32 noundef signext %0) local_unnamed_addr #3 !dbg !357 {
  call void @llvm.dbg.value(metadata i32 %0, metadata !359, metadata !DIExpression()), !dbg !375
  call void @llvm.dbg.value(metadata i32 0, metadata !360, metadata !DIExpression()), !dbg !375
  call void @llvm.dbg.value(metadata i32 %0, metadata !222, metadata !DIExpression()), !dbg !376
  call void @llvm.dbg.value(metadata i32 4, metadata !227, metadata !DIExpression()), !dbg !376
  %2 = icmp ult i32 %0, 4, !dbg !379
  br i1 %2, label %3, label %101, !dbg !380

3:                                                ; preds = %1
  %4 = zext i32 %0 to i64, !dbg !381
  %5 = getelementptr inbounds [4 x i32], ptr @proc_state, i64 0, i64 %4, !dbg !381
  %6 = load i32, ptr %5, align 4, !dbg !381, !tbaa !188
  %7 = icmp eq i32 %6, 4, !dbg !382
  br i1 %7, label %8, label %101, !dbg !383

8:                                                ; preds = %3
  %9 = getelementptr inbounds [4 x i32], ptr @proc_parent, i64 0, i64 %4, !dbg !384
  %10 = load i32, ptr %9, align 4, !dbg !384, !tbaa !188
  %11 = load i32, ptr @current, align 4, !dbg !385, !tbaa !188
  %12 = icmp eq i32 %10, %11, !dbg !386
  br i1 %12, label %13, label %101, !dbg !387

13:                                               ; preds = %8
  call void @llvm.dbg.value(metadata i32 0, metadata !361, metadata !DIExpression()), !dbg !388
  call void @llvm.dbg.value(metadata i32 0, metadata !360, metadata !DIExpression()), !dbg !375
  call void @llvm.dbg.value(metadata i64 0, metadata !361, metadata !DIExpression()), !dbg !388
  call void @llvm.dbg.value(metadata i32 0, metadata !360, metadata !DIExpression()), !dbg !375
  call void @llvm.dbg.value(metadata i1 poison, metadata !360, metadata !DIExpression(DW_OP_LLVM_convert, 1, DW_ATE_unsigned, DW_OP_LLVM_convert, 32, DW_ATE_unsigned, DW_OP_stack_value)), !dbg !375
  call void @llvm.dbg.value(metadata i64 1, metadata !361, metadata !DIExpression()), !dbg !388
  call void @llvm.dbg.value(metadata i64 1, metadata !361, metadata !DIExpression()), !dbg !388
  call void @llvm.dbg.value(metadata i1 poison, metadata !360, metadata !DIExpression(DW_OP_LLVM_convert, 1, DW_ATE_unsigned, DW_OP_LLVM_convert, 32, DW_ATE_unsigned, DW_OP_stack_value)), !dbg !375
  call void @llvm.dbg.value(metadata !DIArgList(i1 poison, i1 poison), metadata !360, metadata !DIExpression(DW_OP_LLVM_arg, 0, DW_OP_LLVM_convert, 1, DW_ATE_unsigned, DW_OP_LLVM_convert, 32, DW_ATE_unsigned, DW_OP_LLVM_arg, 1, DW_OP_LLVM_convert, 1, DW_ATE_unsigned, DW_OP_LLVM_convert, 32, DW_ATE_unsigned, DW_OP_or, DW_OP_stack_value)), !dbg !375
  call void @llvm.dbg.value(metadata i64 2, metadata !361, metadata !DIExpression()), !dbg !388
  call void @llvm.dbg.value(metadata i32 0, metadata !363, metadata !DIExpression()), !dbg !389
  call void @llvm.dbg.value(metadata !DIArgList(i1 poison, i1 poison), metadata !360, metadata !DIExpression(DW_OP_LLVM_arg, 0, DW_OP_LLVM_convert, 1, DW_ATE_unsigned, DW_OP_LLVM_convert, 32, DW_ATE_unsigned, DW_OP_LLVM_arg, 1, DW_OP_LLVM_convert, 1, DW_ATE_unsigned, DW_OP_LLVM_convert, 32, DW_ATE_unsigned, DW_OP_or, DW_OP_stack_value)), !dbg !375
  call void @llvm.dbg.value(metadata i1 poison, metadata !360, metadata !DIExpression(DW_OP_LLVM_convert, 1, DW_ATE_unsigned, DW_OP_LLVM_convert, 32, DW_ATE_unsigned, DW_OP_stack_value)), !dbg !375
  call void @llvm.dbg.value(metadata i64 0, metadata !363, metadata !DIExpression()), !dbg !389
  call void @llvm.dbg.value(metadata !DIArgList(i1 poison, i1 poison), metadata !360, metadata !DIExpression(DW_OP_LLVM_arg, 0, DW_OP_LLVM_convert, 1, DW_ATE_unsigned, DW_OP_LLVM_convert, 32, DW_ATE_unsigned, DW_OP_LLVM_arg, 1, DW_OP_LLVM_convert, 1, DW_ATE_unsigned, DW_OP_LLVM_convert, 32, DW_ATE_unsigned, DW_OP_or, DW_OP_stack_value)), !dbg !375
  call void @llvm.dbg.value(metadata !DIArgList(i1 poison, i1 poison), metadata !360, metadata !DIExpression(DW_OP_LLVM_arg, 0, DW_OP_LLVM_arg, 1, DW_OP_or, DW_OP_LLVM_convert, 1, DW_ATE_unsigned, DW_OP_LLVM_convert, 32, DW_ATE_unsigned, DW_OP_stack_value)), !dbg !375
  call void @llvm.dbg.value(metadata i64 1, metadata !363, metadata !DIExpression()), !dbg !389
  call void @llvm.dbg.value(metadata i64 1, metadata !363, metadata !DIExpression()), !dbg !389
  call void @llvm.dbg.value(metadata !DIArgList(i1 poison, i1 poison), metadata !360, metadata !DIExpression(DW_OP_LLVM_arg, 0, DW_OP_LLVM_arg, 1, DW_OP_or, DW_OP_LLVM_convert, 1, DW_ATE_unsigned, DW_OP_LLVM_convert, 32, DW_ATE_unsigned, DW_OP_stack_value)), !dbg !375
  call void @llvm.dbg.value(metadata !DIArgList(i1 poison, i1 poison), metadata !360, metadata !DIExpression(DW_OP_LLVM_arg, 0, DW_OP_LLVM_arg, 1, DW_OP_or, DW_OP_LLVM_convert, 1, DW_ATE_unsigned, DW_OP_LLVM_convert, 32, DW_ATE_unsigned, DW_OP_stack_value)), !dbg !375
  call void @llvm.dbg.value(metadata i64 2, metadata !363, metadata !DIExpression()), !dbg !389
  call void @llvm.dbg.value(metadata i64 2, metadata !363, metadata !DIExpression()), !dbg !389
  call void @llvm.dbg.value(metadata !DIArgList(i1 poison, i1 poison), metadata !360, metadata !DIExpression(DW_OP_LLVM_arg, 0, DW_OP_LLVM_arg, 1, DW_OP_or, DW_OP_LLVM_convert, 1, DW_ATE_unsigned, DW_OP_LLVM_convert, 32, DW_ATE_unsigned, DW_OP_stack_value)), !dbg !375
  call void @llvm.dbg.value(metadata !DIArgList(i1 poison, i1 poison), metadata !360, metadata !DIExpression(DW_OP_LLVM_arg, 0, DW_OP_LLVM_arg, 1, DW_OP_or, DW_OP_LLVM_convert, 1, DW_ATE_unsigned, DW_OP_LLVM_convert, 32, DW_ATE_unsigned, DW_OP_stack_value)), !dbg !375
  call void @llvm.dbg.value(metadata i64 3, metadata !363, metadata !DIExpression()), !dbg !389
  call void @llvm.dbg.value(metadata i64 3, metadata !363, metadata !DIExpression()), !dbg !389
  call void @llvm.dbg.value(metadata !DIArgList(i1 poison, i1 poison), metadata !360, metadata !DIExpression(DW_OP_LLVM_arg, 0, DW_OP_LLVM_arg, 1, DW_OP_or, DW_OP_LLVM_convert, 1, DW_ATE_unsigned, DW_OP_LLVM_convert, 32, DW_ATE_unsigned, DW_OP_stack_value)), !dbg !375
  call void @llvm.dbg.value(metadata !DIArgList(i1 poison, i1 poison), metadata !360, metadata !DIExpression(DW_OP_LLVM_arg, 0, DW_OP_LLVM_convert, 1, DW_ATE_unsigned, DW_OP_LLVM_convert, 32, DW_ATE_unsigned, DW_OP_LLVM_arg, 1, DW_OP_LLVM_convert, 1, DW_ATE_unsigned, DW_OP_LLVM_convert, 32, DW_ATE_unsigned, DW_OP_or, DW_OP_stack_value)), !dbg !375
  call void @llvm.dbg.value(metadata i64 4, metadata !363, metadata !DIExpression()), !dbg !389
  call void @llvm.dbg.value(metadata i1 poison, metadata !360, metadata !DIExpression(DW_OP_LLVM_convert, 1, DW_ATE_unsigned, DW_OP_LLVM_convert, 32, DW_ATE_unsigned, DW_OP_stack_value)), !dbg !375
  call void @llvm.dbg.value(metadata !DIArgList(i1 poison, i1 poison), metadata !360, metadata !DIExpression(DW_OP_LLVM_arg, 0, DW_OP_LLVM_arg, 1, DW_OP_or, DW_OP_LLVM_convert, 1, DW_ATE_unsigned, DW_OP_LLVM_convert, 32, DW_ATE_unsigned, DW_OP_stack_value)), !dbg !375
  call void @llvm.dbg.value(metadata i64 0, metadata !365, metadata !DIExpression()), !dbg !390
  call void @llvm.dbg.value(metadata !DIArgList(i1 poison, i1 poison), metadata !360, metadata !DIExpression(DW_OP_LLVM_arg, 0, DW_OP_LLVM_convert, 1, DW_ATE_unsigned, DW_OP_LLVM_convert, 32, DW_ATE_unsigned, DW_OP_LLVM_arg, 1, DW_OP_LLVM_convert, 1, DW_ATE_unsigned, DW_OP_LLVM_convert, 32, DW_ATE_unsigned, DW_OP_or, DW_OP_stack_value)), !dbg !375
  call void @llvm.dbg.value(metadata !DIArgList(i1 poison, i1 poison, i1 poison), metadata !360, metadata !DIExpression(DW_OP_LLVM_arg, 0, DW_OP_LLVM_arg, 1, DW_OP_LLVM_arg, 2, DW_OP_and, DW_OP_or, DW_OP_LLVM_convert, 1, DW_ATE_unsigned, DW_OP_LLVM_convert, 32, DW_ATE_unsigned, DW_OP_stack_value)), !dbg !375
  call void @llvm.dbg.value(metadata i64 1, metadata !365, metadata !DIExpression()), !dbg !390
  call void @llvm.dbg.value(metadata i64 1, metadata !365, metadata !DIExpression()), !dbg !390
  call void @llvm.dbg.value(metadata !DIArgList(i1 poison, i1 poison, i1 poison), metadata !360, metadata !DIExpression(DW_OP_LLVM_arg, 0, DW_OP_LLVM_arg, 1, DW_OP_LLVM_arg, 2, DW_OP_and, DW_OP_or, DW_OP_LLVM_convert, 1, DW_ATE_unsigned, DW_OP_LLVM_convert, 32, DW_ATE_unsigned, DW_OP_stack_value)), !dbg !375
  call void @llvm.dbg.value(metadata !DIArgList(i1 poison, i1 poison, i1 poison), metadata !360, metadata !DIExpression(DW_OP_LLVM_arg, 0, DW_OP_LLVM_arg, 1, DW_OP_LLVM_arg, 2, DW_OP_and, DW_OP_or, DW_OP_LLVM_convert, 1, DW_ATE_unsigned, DW_OP_LLVM_convert, 32, DW_ATE_unsigned, DW_OP_stack_value)), !dbg !375
  call void @llvm.dbg.value(metadata i64 2, metadata !365, metadata !DIExpression()), !dbg !390
  call void @llvm.dbg.value(metadata i64 2, metadata !365, metadata !DIExpression()), !dbg !390
  call void @llvm.dbg.value(metadata !DIArgList(i1 poison, i1 poison, i1 poison), metadata !360, metadata !DIExpression(DW_OP_LLVM_arg, 0, DW_OP_LLVM_arg, 1, DW_OP_LLVM_arg, 2, DW_OP_and, DW_OP_or, DW_OP_LLVM_convert, 1, DW_ATE_unsigned, DW_OP_LLVM_convert, 32, DW_ATE_unsigned, DW_OP_stack_value)), !dbg !375
  call void @llvm.dbg.value(metadata !DIArgList(i1 poison, i1 poison, i1 poison, i1 poison), metadata !360, metadata !DIExpression(DW_OP_LLVM_arg, 0, DW_OP_LLVM_arg, 2, DW_OP_LLVM_arg, 3, DW_OP_and, DW_OP_or, DW_OP_LLVM_convert, 1, DW_ATE_unsigned, DW_OP_LLVM_convert, 32, DW_ATE_unsigned, DW_OP_LLVM_arg, 1, DW_OP_LLVM_convert, 1, DW_ATE_unsigned, DW_OP_LLVM_convert, 32, DW_ATE_unsigned, DW_OP_or, DW_OP_stack_value)), !dbg !375
  call void @llvm.dbg.value(metadata i64 3, metadata !365, metadata !DIExpression()), !dbg !390
  call void @llvm.dbg.value(metadata i32 0, metadata !367, metadata !DIExpression()), !dbg !391
  call void @llvm.dbg.value(metadata !DIArgList(i1 poison, i1 poison, i1 poison, i1 poison), metadata !360, metadata !DIExpression(DW_OP_LLVM_arg, 0, DW_OP_LLVM_arg, 2, DW_OP_LLVM_arg, 3, DW_OP_and, DW_OP_or, DW_OP_LLVM_convert, 1, DW_ATE_unsigned, DW_OP_LLVM_convert, 32, DW_ATE_unsigned, DW_OP_LLVM_arg, 1, DW_OP_LLVM_convert, 1, DW_ATE_unsigned, DW_OP_LLVM_convert, 32, DW_ATE_unsigned, DW_OP_or, DW_OP_stack_value)), !dbg !375
  call void @llvm.dbg.value(metadata i1 poison, metadata !360, metadata !DIExpression(DW_OP_LLVM_convert, 1, DW_ATE_unsigned, DW_OP_LLVM_convert, 32, DW_ATE_unsigned, DW_OP_stack_value)), !dbg !375
  call void @llvm.dbg.value(metadata !DIArgList(i1 poison, i1 poison), metadata !360, metadata !DIExpression(DW_OP_LLVM_arg, 0, DW_OP_LLVM_arg, 1, DW_OP_or, DW_OP_LLVM_convert, 1, DW_ATE_unsigned, DW_OP_LLVM_convert, 32, DW_ATE_unsigned, DW_OP_stack_value)), !dbg !375
  call void @llvm.dbg.value(metadata !DIArgList(i1 poison, i1 poison), metadata !360, metadata !DIExpression(DW_OP_LLVM_arg, 0, DW_OP_LLVM_arg, 1, DW_OP_or, DW_OP_LLVM_convert, 1, DW_ATE_unsigned, DW_OP_LLVM_convert, 32, DW_ATE_unsigned, DW_OP_stack_value)), !dbg !375
  call void @llvm.dbg.value(metadata !DIArgList(i1 poison, i1 poison, i1 poison, i1 poison), metadata !360, metadata !DIExpression(DW_OP_LLVM_arg, 0, DW_OP_LLVM_arg, 3, DW_OP_or, DW_OP_LLVM_arg, 1, DW_OP_LLVM_arg, 2, DW_OP_and, DW_OP_or, DW_OP_LLVM_convert, 1, DW_ATE_unsigned, DW_OP_LLVM_convert, 32, DW_ATE_unsigned, DW_OP_stack_value)), !dbg !375
  call void @llvm.dbg.value(metadata !DIArgList(i1 poison, i1 poison, i1 poison), metadata !360, metadata !DIExpression(DW_OP_LLVM_arg, 0, DW_OP_LLVM_arg, 2, DW_OP_or, DW_OP_LLVM_arg, 1, DW_OP_or, DW_OP_LLVM_convert, 1, DW_ATE_unsigned, DW_OP_LLVM_convert, 32, DW_ATE_unsigned, DW_OP_stack_value)), !dbg !375
  call void @llvm.dbg.value(metadata !DIArgList(i1 poison, i1 poison, i1 poison), metadata !360, metadata !DIExpression(DW_OP_LLVM_arg, 0, DW_OP_LLVM_arg, 1, DW_OP_LLVM_arg, 2, DW_OP_and, DW_OP_or, DW_OP_LLVM_convert, 1, DW_ATE_unsigned, DW_OP_LLVM_convert, 32, DW_ATE_unsigned, DW_OP_stack_value)), !dbg !375
  call void @llvm.dbg.value(metadata !DIArgList(i1 poison, i1 poison, i1 poison, i1 poison, i1 poison, i1 poison), metadata !360, metadata !DIExpression(DW_OP_LLVM_arg, 0, DW_OP_LLVM_arg, 4, DW_OP_LLVM_arg, 5, DW_OP_and, DW_OP_or, DW_OP_LLVM_arg, 2, DW_OP_LLVM_arg, 3, DW_OP_and, DW_OP_or, DW_OP_LLVM_convert, 1, DW_ATE_unsigned, DW_OP_LLVM_convert, 32, DW_ATE_unsigned, DW_OP_LLVM_arg, 1, DW_OP_LLVM_convert, 1, DW_ATE_unsigned, DW_OP_LLVM_convert, 32, DW_ATE_unsigned, DW_OP_or, DW_OP_stack_value)), !dbg !375
  call void @llvm.dbg.value(metadata !DIArgList(i1 poison, i1 poison, i1 poison, i1 poison, i1 poison), metadata !360, metadata !DIExpression(DW_OP_LLVM_arg, 0, DW_OP_LLVM_arg, 3, DW_OP_LLVM_arg, 4, DW_OP_and, DW_OP_or, DW_OP_LLVM_arg, 2, DW_OP_or, DW_OP_LLVM_convert, 1, DW_ATE_unsigned, DW_OP_LLVM_convert, 32, DW_ATE_unsigned, DW_OP_LLVM_arg, 1, DW_OP_LLVM_convert, 1, DW_ATE_unsigned, DW_OP_LLVM_convert, 32, DW_ATE_unsigned, DW_OP_or, DW_OP_stack_value)), !dbg !375
  call void @llvm.dbg.value(metadata !DIArgList(i1 poison, i1 poison, i1 poison), metadata !360, metadata !DIExpression(DW_OP_LLVM_arg, 0, DW_OP_LLVM_convert, 1, DW_ATE_unsigned, DW_OP_LLVM_convert, 32, DW_ATE_unsigned, DW_OP_LLVM_arg, 1, DW_OP_LLVM_arg, 2, DW_OP_and, DW_OP_LLVM_convert, 1, DW_ATE_unsigned, DW_OP_LLVM_convert, 32, DW_ATE_unsigned, DW_OP_or, DW_OP_stack_value)), !dbg !375
  call void @llvm.dbg.value(metadata !DIArgList(i1 poison, i1 poison, i1 poison), metadata !360, metadata !DIExpression(DW_OP_LLVM_arg, 0, DW_OP_LLVM_arg, 1, DW_OP_LLVM_arg, 2, DW_OP_and, DW_OP_or, DW_OP_LLVM_convert, 1, DW_ATE_unsigned, DW_OP_LLVM_convert, 32, DW_ATE_unsigned, DW_OP_stack_value)), !dbg !375
  call void @llvm.dbg.value(metadata i64 0, metadata !367, metadata !DIExpression()), !dbg !391
  call void @llvm.dbg.value(metadata !DIArgList(i1 poison, i1 poison, i1 poison, i1 poison), metadata !360, metadata !DIExpression(DW_OP_LLVM_arg, 0, DW_OP_LLVM_arg, 2, DW_OP_LLVM_arg, 3, DW_OP_and, DW_OP_or, DW_OP_LLVM_convert, 1, DW_ATE_unsigned, DW_OP_LLVM_convert, 32, DW_ATE_unsigned, DW_OP_LLVM_arg, 1, DW_OP_LLVM_convert, 1, DW_ATE_unsigned, DW_OP_LLVM_convert, 32, DW_ATE_unsigned, DW_OP_or, DW_OP_stack_value)), !dbg !375
  call void @llvm.dbg.value(metadata !DIArgList(i1 poison, i1 poison), metadata !360, metadata !DIExpression(DW_OP_LLVM_arg, 0, DW_OP_LLVM_arg, 1, DW_OP_or, DW_OP_LLVM_convert, 1, DW_ATE_unsigned, DW_OP_LLVM_convert, 32, DW_ATE_unsigned, DW_OP_stack_value)), !dbg !375
  call void @llvm.dbg.value(metadata i64 1, metadata !367, metadata !DIExpression()), !dbg !391
  call void @llvm.dbg.value(metadata i64 1, metadata !367, metadata !DIExpression()), !dbg !391
  call void @llvm.dbg.value(metadata !DIArgList(i1 poison, i1 poison), metadata !360, metadata !DIExpression(DW_OP_LLVM_arg, 0, DW_OP_LLVM_arg, 1, DW_OP_or, DW_OP_LLVM_convert, 1, DW_ATE_unsigned, DW_OP_LLVM_convert, 32, DW_ATE_unsigned, DW_OP_stack_value)), !dbg !375
  call void @llvm.dbg.value(metadata !DIArgList(i1 poison, i1 poison, i1 poison), metadata !360, metadata !DIExpression(DW_OP_LLVM_arg, 0, DW_OP_LLVM_arg, 2, DW_OP_or, DW_OP_LLVM_convert, 1, DW_ATE_unsigned, DW_OP_LLVM_convert, 32, DW_ATE_unsigned, DW_OP_LLVM_arg, 1, DW_OP_LLVM_convert, 1, DW_ATE_unsigned, DW_OP_LLVM_convert, 32, DW_ATE_unsigned, DW_OP_or, DW_OP_stack_value)), !dbg !375
  call void @llvm.dbg.value(metadata i64 2, metadata !367, metadata !DIExpression()), !dbg !391
  call void @llvm.dbg.value(metadata i32 0, metadata !369, metadata !DIExpression()), !dbg !392
  call void @llvm.dbg.value(metadata !DIArgList(i1 poison, i1 poison, i1 poison), metadata !360, metadata !DIExpression(DW_OP_LLVM_arg, 0, DW_OP_LLVM_arg, 2, DW_OP_or, DW_OP_LLVM_convert, 1, DW_ATE_unsigned, DW_OP_LLVM_convert, 32, DW_ATE_unsigned, DW_OP_LLVM_arg, 1, DW_OP_LLVM_convert, 1, DW_ATE_unsigned, DW_OP_LLVM_convert, 32, DW_ATE_unsigned, DW_OP_or, DW_OP_stack_value)), !dbg !375
  call void @llvm.dbg.value(metadata i1 poison, metadata !360, metadata !DIExpression(DW_OP_LLVM_convert, 1, DW_ATE_unsigned, DW_OP_LLVM_convert, 32, DW_ATE_unsigned, DW_OP_stack_value)), !dbg !375
  call void @llvm.dbg.value(metadata !DIArgList(i1 poison, i1 poison), metadata !360, metadata !DIExpression(DW_OP_LLVM_arg, 0, DW_OP_LLVM_arg, 1, DW_OP_or, DW_OP_LLVM_convert, 1, DW_ATE_unsigned, DW_OP_LLVM_convert, 32, DW_ATE_unsigned, DW_OP_stack_value)), !dbg !375
  call void @llvm.dbg.value(metadata !DIArgList(i1 poison, i1 poison), metadata !360, metadata !DIExpression(DW_OP_LLVM_arg, 0, DW_OP_LLVM_arg, 1, DW_OP_or, DW_OP_LLVM_convert, 1, DW_ATE_unsigned, DW_OP_LLVM_convert, 32, DW_ATE_unsigned, DW_OP_stack_value)), !dbg !375
  call void @llvm.dbg.value(metadata !DIArgList(i1 poison, i1 poison, i1 poison, i1 poison), metadata !360, metadata !DIExpression(DW_OP_LLVM_arg, 0, DW_OP_LLVM_arg, 3, DW_OP_or, DW_OP_LLVM_arg, 1, DW_OP_LLVM_arg, 2, DW_OP_and, DW_OP_or, DW_OP_LLVM_convert, 1, DW_ATE_unsigned, DW_OP_LLVM_convert, 32, DW_ATE_unsigned, DW_OP_stack_value)), !dbg !375
  call void @llvm.dbg.value(metadata !DIArgList(i1 poison, i1 poison, i1 poison), metadata !360, metadata !DIExpression(DW_OP_LLVM_arg, 0, DW_OP_LLVM_arg, 2, DW_OP_or, DW_OP_LLVM_arg, 1, DW_OP_or, DW_OP_LLVM_convert, 1, DW_ATE_unsigned, DW_OP_LLVM_convert, 32, DW_ATE_unsigned, DW_OP_stack_value)), !dbg !375
  call void @llvm.dbg.value(metadata !DIArgList(i1 poison, i1 poison, i1 poison), metadata !360, metadata !DIExpression(DW_OP_LLVM_arg, 0, DW_OP_LLVM_arg, 1, DW_OP_LLVM_arg, 2, DW_OP_and, DW_OP_or, DW_OP_LLVM_convert, 1, DW_ATE_unsigned, DW_OP_LLVM_convert, 32, DW_ATE_unsigned, DW_OP_stack_value)), !dbg !375
  call void @llvm.dbg.value(metadata !DIArgList(i1 poison, i1 poison, i1 poison), metadata !360, metadata !DIExpression(DW_OP_LLVM_arg, 0, DW_OP_LLVM_arg, 1, DW_OP_LLVM_arg, 2, DW_OP_and, DW_OP_or, DW_OP_LLVM_convert, 1, DW_ATE_unsigned, DW_OP_LLVM_convert, 32, DW_ATE_unsigned, DW_OP_stack_value)), !dbg !375
  call void @llvm.dbg.value(metadata !DIArgList(i1 poison, i1 poison, i1 poison), metadata !360, metadata !DIExpression(DW_OP_LLVM_arg, 0, DW_OP_LLVM_arg, 1, DW_OP_LLVM_arg, 2, DW_OP_and, DW_OP_or, DW_OP_LLVM_convert, 1, DW_ATE_unsigned, DW_OP_LLVM_convert, 32, DW_ATE_unsigned, DW_OP_stack_value)), !dbg !375
  call void @llvm.dbg.value(metadata !DIArgList(i1 poison, i1 poison, i1 poison), metadata !360, metadata !DIExpression(DW_OP_LLVM_arg, 0, DW_OP_LLVM_arg, 1, DW_OP_LLVM_arg, 2, DW_OP_and, DW_OP_or, DW_OP_LLVM_convert, 1, DW_ATE_unsigned, DW_OP_LLVM_convert, 32, DW_ATE_unsigned, DW_OP_stack_value)), !dbg !375
  call void @llvm.dbg.value(metadata !DIArgList(i1 poison, i1 poison, i1 poison, i1 poison, i1 poison), metadata !360, metadata !DIExpression(DW_OP_LLVM_arg, 0, DW_OP_LLVM_arg, 3, DW_OP_LLVM_arg, 4, DW_OP_and, DW_OP_or, DW_OP_LLVM_arg, 2, DW_OP_or, DW_OP_LLVM_convert, 1, DW_ATE_unsigned, DW_OP_LLVM_convert, 32, DW_ATE_unsigned, DW_OP_LLVM_arg, 1, DW_OP_LLVM_convert, 1, DW_ATE_unsigned, DW_OP_LLVM_convert, 32, DW_ATE_unsigned, DW_OP_or, DW_OP_stack_value)), !dbg !375
  call void @llvm.dbg.value(metadata !DIArgList(i1 poison, i1 poison), metadata !360, metadata !DIExpression(DW_OP_LLVM_arg, 0, DW_OP_LLVM_convert, 1, DW_ATE_unsigned, DW_OP_LLVM_convert, 32, DW_ATE_unsigned, DW_OP_LLVM_arg, 1, DW_OP_LLVM_convert, 1, DW_ATE_unsigned, DW_OP_LLVM_convert, 32, DW_ATE_unsigned, DW_OP_or, DW_OP_stack_value)), !dbg !375
  call void @llvm.dbg.value(metadata !DIArgList(i1 poison, i1 poison), metadata !360, metadata !DIExpression(DW_OP_LLVM_arg, 0, DW_OP_LLVM_arg, 1, DW_OP_or, DW_OP_LLVM_convert, 1, DW_ATE_unsigned, DW_OP_LLVM_convert, 32, DW_ATE_unsigned, DW_OP_stack_value)), !dbg !375
  call void @llvm.dbg.value(metadata i64 0, metadata !369, metadata !DIExpression()), !dbg !392
  call void @llvm.dbg.value(metadata !DIArgList(i1 poison, i1 poison, i1 poison), metadata !360, metadata !DIExpression(DW_OP_LLVM_arg, 0, DW_OP_LLVM_arg, 2, DW_OP_or, DW_OP_LLVM_convert, 1, DW_ATE_unsigned, DW_OP_LLVM_convert, 32, DW_ATE_unsigned, DW_OP_LLVM_arg, 1, DW_OP_LLVM_convert, 1, DW_ATE_unsigned, DW_OP_LLVM_convert, 32, DW_ATE_unsigned, DW_OP_or, DW_OP_stack_value)), !dbg !375
  call void @llvm.dbg.value(metadata !DIArgList(i1 poison, i1 poison), metadata !360, metadata !DIExpression(DW_OP_LLVM_arg, 0, DW_OP_LLVM_arg, 1, DW_OP_or, DW_OP_LLVM_convert, 1, DW_ATE_unsigned, DW_OP_LLVM_convert, 32, DW_ATE_unsigned, DW_OP_stack_value)), !dbg !375
  call void @llvm.dbg.value(metadata i64 1, metadata !369, metadata !DIExpression()), !dbg !392
  call void @llvm.dbg.value(metadata i64 1, metadata !369, metadata !DIExpression()), !dbg !392
  call void @llvm.dbg.value(metadata !DIArgList(i1 poison, i1 poison), metadata !360, metadata !DIExpression(DW_OP_LLVM_arg, 0, DW_OP_LLVM_arg, 1, DW_OP_or, DW_OP_LLVM_convert, 1, DW_ATE_unsigned, DW_OP_LLVM_convert, 32, DW_ATE_unsigned, DW_OP_stack_value)), !dbg !375
  call void @llvm.dbg.value(metadata !DIArgList(i1 poison, i1 poison, i1 poison), metadata !360, metadata !DIExpression(DW_OP_LLVM_arg, 0, DW_OP_LLVM_arg, 2, DW_OP_or, DW_OP_LLVM_convert, 1, DW_ATE_unsigned, DW_OP_LLVM_convert, 32, DW_ATE_unsigned, DW_OP_LLVM_arg, 1, DW_OP_LLVM_convert, 1, DW_ATE_unsigned, DW_OP_LLVM_convert, 32, DW_ATE_unsigned, DW_OP_or, DW_OP_stack_value)), !dbg !375
  call void @llvm.dbg.value(metadata i64 2, metadata !369, metadata !DIExpression()), !dbg !392
  call void @llvm.dbg.value(metadata i32 0, metadata !371, metadata !DIExpression()), !dbg !393
  call void @llvm.dbg.value(metadata !DIArgList(i1 poison, i1 poison, i1 poison), metadata !360, metadata !DIExpression(DW_OP_LLVM_arg, 0, DW_OP_LLVM_arg, 2, DW_OP_or, DW_OP_LLVM_convert, 1, DW_ATE_unsigned, DW_OP_LLVM_convert, 32, DW_ATE_unsigned, DW_OP_LLVM_arg, 1, DW_OP_LLVM_convert, 1, DW_ATE_unsigned, DW_OP_LLVM_convert, 32, DW_ATE_unsigned, DW_OP_or, DW_OP_stack_value)), !dbg !375
  call void @llvm.dbg.value(metadata i1 poison, metadata !360, metadata !DIExpression(DW_OP_LLVM_convert, 1, DW_ATE_unsigned, DW_OP_LLVM_convert, 32, DW_ATE_unsigned, DW_OP_stack_value)), !dbg !375
  call void @llvm.dbg.value(metadata !DIArgList(i1 poison, i1 poison), metadata !360, metadata !DIExpression(DW_OP_LLVM_arg, 0, DW_OP_LLVM_arg, 1, DW_OP_or, DW_OP_LLVM_convert, 1, DW_ATE_unsigned, DW_OP_LLVM_convert, 32, DW_ATE_unsigned, DW_OP_stack_value)), !dbg !375
  call void @llvm.dbg.value(metadata !DIArgList(i1 poison, i1 poison), metadata !360, metadata !DIExpression(DW_OP_LLVM_arg, 0, DW_OP_LLVM_arg, 1, DW_OP_or, DW_OP_LLVM_convert, 1, DW_ATE_unsigned, DW_OP_LLVM_convert, 32, DW_ATE_unsigned, DW_OP_stack_value)), !dbg !375
  call void @llvm.dbg.value(metadata !DIArgList(i1 poison, i1 poison, i1 poison, i1 poison), metadata !360, metadata !DIExpression(DW_OP_LLVM_arg, 0, DW_OP_LLVM_arg, 3, DW_OP_or, DW_OP_LLVM_arg, 1, DW_OP_LLVM_arg, 2, DW_OP_and, DW_OP_or, DW_OP_LLVM_convert, 1, DW_ATE_unsigned, DW_OP_LLVM_convert, 32, DW_ATE_unsigned, DW_OP_stack_value)), !dbg !375
  call void @llvm.dbg.value(metadata !DIArgList(i1 poison, i1 poison, i1 poison), metadata !360, metadata !DIExpression(DW_OP_LLVM_arg, 0, DW_OP_LLVM_arg, 2, DW_OP_or, DW_OP_LLVM_arg, 1, DW_OP_or, DW_OP_LLVM_convert, 1, DW_ATE_unsigned, DW_OP_LLVM_convert, 32, DW_ATE_unsigned, DW_OP_stack_value)), !dbg !375
  call void @llvm.dbg.value(metadata !DIArgList(i1 poison, i1 poison, i1 poison), metadata !360, metadata !DIExpression(DW_OP_LLVM_arg, 0, DW_OP_LLVM_arg, 1, DW_OP_LLVM_arg, 2, DW_OP_and, DW_OP_or, DW_OP_LLVM_convert, 1, DW_ATE_unsigned, DW_OP_LLVM_convert, 32, DW_ATE_unsigned, DW_OP_stack_value)), !dbg !375
  call void @llvm.dbg.value(metadata !DIArgList(i1 poison, i1 poison, i1 poison), metadata !360, metadata !DIExpression(DW_OP_LLVM_arg, 0, DW_OP_LLVM_arg, 1, DW_OP_LLVM_arg, 2, DW_OP_and, DW_OP_or, DW_OP_LLVM_convert, 1, DW_ATE_unsigned, DW_OP_LLVM_convert, 32, DW_ATE_unsigned, DW_OP_stack_value)), !dbg !375
  call void @llvm.dbg.value(metadata !DIArgList(i1 poison, i1 poison, i1 poison), metadata !360, metadata !DIExpression(DW_OP_LLVM_arg, 0, DW_OP_LLVM_arg, 1, DW_OP_LLVM_arg, 2, DW_OP_and, DW_OP_or, DW_OP_LLVM_convert, 1, DW_ATE_unsigned, DW_OP_LLVM_convert, 32, DW_ATE_unsigned, DW_OP_stack_value)), !dbg !375
  call void @llvm.dbg.value(metadata !DIArgList(i1 poison, i1 poison, i1 poison), metadata !360, metadata !DIExpression(DW_OP_LLVM_arg, 0, DW_OP_LLVM_arg, 1, DW_OP_LLVM_arg, 2, DW_OP_and, DW_OP_or, DW_OP_LLVM_convert, 1, DW_ATE_unsigned, DW_OP_LLVM_convert, 32, DW_ATE_unsigned, DW_OP_stack_value)), !dbg !375
  call void @llvm.dbg.value(metadata !DIArgList(i1 poison, i1 poison), metadata !360, metadata !DIExpression(DW_OP_LLVM_arg, 0, DW_OP_LLVM_arg, 1, DW_OP_or, DW_OP_LLVM_convert, 1, DW_ATE_unsigned, DW_OP_LLVM_convert, 32, DW_ATE_unsigned, DW_OP_stack_value)), !dbg !375
  call void @llvm.dbg.value(metadata !DIArgList(i1 poison, i1 poison), metadata !360, metadata !DIExpression(DW_OP_LLVM_arg, 0, DW_OP_LLVM_arg, 1, DW_OP_or, DW_OP_LLVM_convert, 1, DW_ATE_unsigned, DW_OP_LLVM_convert, 32, DW_ATE_unsigned, DW_OP_stack_value)), !dbg !375
  call void @llvm.dbg.value(metadata !DIArgList(i1 poison, i1 poison, i1 poison, i1 poison), metadata !360, metadata !DIExpression(DW_OP_LLVM_arg, 0, DW_OP_LLVM_arg, 3, DW_OP_or, DW_OP_LLVM_arg, 2, DW_OP_or, DW_OP_LLVM_convert, 1, DW_ATE_unsigned, DW_OP_LLVM_convert, 32, DW_ATE_unsigned, DW_OP_LLVM_arg, 1, DW_OP_LLVM_convert, 1, DW_ATE_unsigned, DW_OP_LLVM_convert, 32, DW_ATE_unsigned, DW_OP_or, DW_OP_stack_value)), !dbg !375
  call void @llvm.dbg.value(metadata !DIArgList(i1 poison, i1 poison), metadata !360, metadata !DIExpression(DW_OP_LLVM_arg, 0, DW_OP_LLVM_convert, 1, DW_ATE_unsigned, DW_OP_LLVM_convert, 32, DW_ATE_unsigned, DW_OP_LLVM_arg, 1, DW_OP_LLVM_convert, 1, DW_ATE_unsigned, DW_OP_LLVM_convert, 32, DW_ATE_unsigned, DW_OP_or, DW_OP_stack_value)), !dbg !375
  call void @llvm.dbg.value(metadata !DIArgList(i1 poison, i1 poison), metadata !360, metadata !DIExpression(DW_OP_LLVM_arg, 0, DW_OP_LLVM_arg, 1, DW_OP_or, DW_OP_LLVM_convert, 1, DW_ATE_unsigned, DW_OP_LLVM_convert, 32, DW_ATE_unsigned, DW_OP_stack_value)), !dbg !375
  call void @llvm.dbg.value(metadata i64 0, metadata !371, metadata !DIExpression()), !dbg !393
  call void @llvm.dbg.value(metadata !DIArgList(i1 poison, i1 poison, i1 poison), metadata !360, metadata !DIExpression(DW_OP_LLVM_arg, 0, DW_OP_LLVM_arg, 2, DW_OP_or, DW_OP_LLVM_convert, 1, DW_ATE_unsigned, DW_OP_LLVM_convert, 32, DW_ATE_unsigned, DW_OP_LLVM_arg, 1, DW_OP_LLVM_convert, 1, DW_ATE_unsigned, DW_OP_LLVM_convert, 32, DW_ATE_unsigned, DW_OP_or, DW_OP_stack_value)), !dbg !375
  call void @llvm.dbg.value(metadata !DIArgList(i1 poison, i1 poison), metadata !360, metadata !DIExpression(DW_OP_LLVM_arg, 0, DW_OP_LLVM_arg, 1, DW_OP_or, DW_OP_LLVM_convert, 1, DW_ATE_unsigned, DW_OP_LLVM_convert, 32, DW_ATE_unsigned, DW_OP_stack_value)), !dbg !375
  call void @llvm.dbg.value(metadata i64 1, metadata !371, metadata !DIExpression()), !dbg !393
  call void @llvm.dbg.value(metadata i64 1, metadata !371, metadata !DIExpression()), !dbg !393
  call void @llvm.dbg.value(metadata !DIArgList(i1 poison, i1 poison), metadata !360, metadata !DIExpression(DW_OP_LLVM_arg, 0, DW_OP_LLVM_arg, 1, DW_OP_or, DW_OP_LLVM_convert, 1, DW_ATE_unsigned, DW_OP_LLVM_convert, 32, DW_ATE_unsigned, DW_OP_stack_value)), !dbg !375
  call void @llvm.dbg.value(metadata !DIArgList(i1 poison, i1 poison, i1 poison), metadata !360, metadata !DIExpression(DW_OP_LLVM_arg, 0, DW_OP_LLVM_arg, 2, DW_OP_or, DW_OP_LLVM_convert, 1, DW_ATE_unsigned, DW_OP_LLVM_convert, 32, DW_ATE_unsigned, DW_OP_LLVM_arg, 1, DW_OP_LLVM_convert, 1, DW_ATE_unsigned, DW_OP_LLVM_convert, 32, DW_ATE_unsigned, DW_OP_or, DW_OP_stack_value)), !dbg !375
  call void @llvm.dbg.value(metadata i64 2, metadata !371, metadata !DIExpression()), !dbg !393
  %14 = load i32, ptr getelementptr inbounds ([2 x i32], ptr @device_owner, i64 0, i64 1), align 4, !dbg !394, !tbaa !188
  %15 = add i32 %0, 1
  %16 = icmp eq i32 %14, %15, !dbg !396
  %17 = zext i32 %0 to i64
  %18 = getelementptr inbounds [4 x %struct.root], ptr @roots, i64 0, i64 %17
  %19 = load i64, ptr %18, align 8, !dbg !397, !tbaa !399
  %20 = getelementptr inbounds [2 x i64], ptr %18, i64 0, i64 1, !dbg !397
  %21 = load i64, ptr %20, align 8, !dbg !397, !tbaa !399
  %22 = or i64 %19, %21, !dbg !401
  %23 = icmp ne i64 %22, 0, !dbg !401
  call void @llvm.dbg.value(metadata i1 %23, metadata !360, metadata !DIExpression(DW_OP_LLVM_convert, 1, DW_ATE_unsigned, DW_OP_LLVM_convert, 32, DW_ATE_unsigned, DW_OP_stack_value)), !dbg !375
  %24 = zext i32 %0 to i64
  %25 = getelementptr inbounds [4 x [4 x i32]], ptr @fds, i64 0, i64 %24, i64 0, !dbg !402
  %26 = load i32, ptr %25, align 4, !dbg !402, !tbaa !188
  %27 = getelementptr inbounds [4 x [4 x i32]], ptr @fds, i64 0, i64 %24, i64 1, !dbg !402
  %28 = load i32, ptr %27, align 4, !dbg !402, !tbaa !188
  %29 = or i32 %26, %28, !dbg !404
  %30 = getelementptr inbounds [4 x [4 x i32]], ptr @fds, i64 0, i64 %24, i64 2, !dbg !402
  %31 = load i32, ptr %30, align 4, !dbg !402, !tbaa !188
  %32 = or i32 %29, %31, !dbg !404
  %33 = getelementptr inbounds [4 x [4 x i32]], ptr @fds, i64 0, i64 %24, i64 3, !dbg !402
  %34 = load i32, ptr %33, align 4, !dbg !402, !tbaa !188
  %35 = or i32 %32, %34, !dbg !404
  %36 = icmp ne i32 %35, 0, !dbg !404
  call void @llvm.dbg.value(metadata !DIArgList(i1 poison, i1 poison), metadata !360, metadata !DIExpression(DW_OP_LLVM_arg, 0, DW_OP_LLVM_arg, 1, DW_OP_or, DW_OP_LLVM_convert, 1, DW_ATE_unsigned, DW_OP_LLVM_convert, 32, DW_ATE_unsigned, DW_OP_stack_value)), !dbg !375
  %37 = or i1 %23, %36, !dbg !404
  call void @llvm.dbg.value(metadata i1 %37, metadata !360, metadata !DIExpression(DW_OP_LLVM_convert, 1, DW_ATE_unsigned, DW_OP_LLVM_convert, 32, DW_ATE_unsigned, DW_OP_stack_value)), !dbg !375
  %38 = load i32, ptr @file_kind, align 4, !dbg !405, !tbaa !188
  %39 = icmp ne i32 %38, 0, !dbg !407
  %40 = load i32, ptr @file_owner, align 4, !dbg !408, !tbaa !188
  %41 = icmp eq i32 %40, %0, !dbg !409
  call void @llvm.dbg.value(metadata !DIArgList(i1 poison, i1 poison, i1 poison, i1 poison), metadata !360, metadata !DIExpression(DW_OP_LLVM_arg, 0, DW_OP_LLVM_arg, 3, DW_OP_or, DW_OP_LLVM_arg, 1, DW_OP_LLVM_arg, 2, DW_OP_and, DW_OP_or, DW_OP_LLVM_convert, 1, DW_ATE_unsigned, DW_OP_LLVM_convert, 32, DW_ATE_unsigned, DW_OP_stack_value)), !dbg !375
  %42 = and i1 %39, %41, !dbg !410
  call void @llvm.dbg.value(metadata !DIArgList(i1 poison, i1 poison, i1 poison), metadata !360, metadata !DIExpression(DW_OP_LLVM_arg, 0, DW_OP_LLVM_arg, 2, DW_OP_or, DW_OP_LLVM_arg, 1, DW_OP_or, DW_OP_LLVM_convert, 1, DW_ATE_unsigned, DW_OP_LLVM_convert, 32, DW_ATE_unsigned, DW_OP_stack_value)), !dbg !375
  %43 = or i1 %37, %42, !dbg !411
  call void @llvm.dbg.value(metadata i1 %43, metadata !360, metadata !DIExpression(DW_OP_LLVM_convert, 1, DW_ATE_unsigned, DW_OP_LLVM_convert, 32, DW_ATE_unsigned, DW_OP_stack_value)), !dbg !375
  %44 = load i32, ptr getelementptr inbounds ([3 x i32], ptr @file_kind, i64 0, i64 1), align 4, !dbg !405, !tbaa !188
  %45 = icmp ne i32 %44, 0, !dbg !407
  %46 = load i32, ptr getelementptr inbounds ([3 x i32], ptr @file_owner, i64 0, i64 1), align 4, !dbg !408, !tbaa !188
  %47 = icmp eq i32 %46, %0, !dbg !409
  %48 = and i1 %45, %47, !dbg !410
  %49 = or i1 %43, %48, !dbg !411
  %50 = load i32, ptr getelementptr inbounds ([3 x i32], ptr @file_kind, i64 0, i64 2), align 4, !dbg !405, !tbaa !188
  %51 = icmp ne i32 %50, 0, !dbg !407
  %52 = load i32, ptr getelementptr inbounds ([3 x i32], ptr @file_owner, i64 0, i64 2), align 4, !dbg !408, !tbaa !188
  %53 = icmp eq i32 %52, %0, !dbg !409
  call void @llvm.dbg.value(metadata !DIArgList(i1 %49, i1 %51, i1 %53), metadata !360, metadata !DIExpression(DW_OP_LLVM_arg, 0, DW_OP_LLVM_arg, 1, DW_OP_LLVM_arg, 2, DW_OP_and, DW_OP_or, DW_OP_LLVM_convert, 1, DW_ATE_unsigned, DW_OP_LLVM_convert, 32, DW_ATE_unsigned, DW_OP_stack_value)), !dbg !375
  %54 = and i1 %51, %53, !dbg !410
  call void @llvm.dbg.value(metadata !DIArgList(i1 %49, i1 %54), metadata !360, metadata !DIExpression(DW_OP_LLVM_arg, 0, DW_OP_LLVM_arg, 1, DW_OP_or, DW_OP_LLVM_convert, 1, DW_ATE_unsigned, DW_OP_LLVM_convert, 32, DW_ATE_unsigned, DW_OP_stack_value)), !dbg !375
  %55 = or i1 %49, %54, !dbg !411
  call void @llvm.dbg.value(metadata i1 %55, metadata !360, metadata !DIExpression(DW_OP_LLVM_convert, 1, DW_ATE_unsigned, DW_OP_LLVM_convert, 32, DW_ATE_unsigned, DW_OP_stack_value)), !dbg !375
  %56 = load i32, ptr @port_owner, align 4, !dbg !412, !tbaa !188
  %57 = add i32 %0, 1
  %58 = icmp eq i32 %56, %57, !dbg !414
  %59 = or i1 %55, %58, !dbg !415
  %60 = load i32, ptr getelementptr inbounds ([2 x i32], ptr @port_owner, i64 0, i64 1), align 4, !dbg !412, !tbaa !188
  %61 = icmp eq i32 %60, %57, !dbg !414
  call void @llvm.dbg.value(metadata !DIArgList(i1 %59, i1 %61), metadata !360, metadata !DIExpression(DW_OP_LLVM_arg, 0, DW_OP_LLVM_arg, 1, DW_OP_or, DW_OP_LLVM_convert, 1, DW_ATE_unsigned, DW_OP_LLVM_convert, 32, DW_ATE_unsigned, DW_OP_stack_value)), !dbg !375
  %62 = or i1 %59, %61, !dbg !415
  call void @llvm.dbg.value(metadata i1 %62, metadata !360, metadata !DIExpression(DW_OP_LLVM_convert, 1, DW_ATE_unsigned, DW_OP_LLVM_convert, 32, DW_ATE_unsigned, DW_OP_stack_value)), !dbg !375
  %63 = load i32, ptr @vector_owner, align 4, !dbg !416, !tbaa !188
  %64 = add i32 %0, 1
  %65 = icmp eq i32 %63, %64, !dbg !418
  %66 = or i1 %62, %65, !dbg !419
  %67 = load i32, ptr getelementptr inbounds ([2 x i32], ptr @vector_owner, i64 0, i64 1), align 4, !dbg !416, !tbaa !188
  %68 = icmp eq i32 %67, %64, !dbg !418
  call void @llvm.dbg.value(metadata !DIArgList(i1 %66, i1 %68), metadata !360, metadata !DIExpression(DW_OP_LLVM_arg, 0, DW_OP_LLVM_arg, 1, DW_OP_or, DW_OP_LLVM_convert, 1, DW_ATE_unsigned, DW_OP_LLVM_convert, 32, DW_ATE_unsigned, DW_OP_stack_value)), !dbg !375
  %69 = or i1 %66, %68, !dbg !419
  call void @llvm.dbg.value(metadata i1 %69, metadata !360, metadata !DIExpression(DW_OP_LLVM_convert, 1, DW_ATE_unsigned, DW_OP_LLVM_convert, 32, DW_ATE_unsigned, DW_OP_stack_value)), !dbg !375
  %70 = load i32, ptr @device_owner, align 4, !dbg !394, !tbaa !188
  %71 = icmp eq i32 %70, %15, !dbg !396
  call void @llvm.dbg.value(metadata !DIArgList(i1 poison, i1 poison, i1 poison, i1 poison), metadata !360, metadata !DIExpression(DW_OP_LLVM_arg, 0, DW_OP_LLVM_arg, 3, DW_OP_or, DW_OP_LLVM_arg, 2, DW_OP_or, DW_OP_LLVM_convert, 1, DW_ATE_unsigned, DW_OP_LLVM_convert, 32, DW_ATE_unsigned, DW_OP_LLVM_arg, 1, DW_OP_LLVM_convert, 1, DW_ATE_unsigned, DW_OP_LLVM_convert, 32, DW_ATE_unsigned, DW_OP_or, DW_OP_stack_value)), !dbg !375
  %72 = or i1 %69, %71, !dbg !420
  call void @llvm.dbg.value(metadata !DIArgList(i1 %72, i1 %16), metadata !360, metadata !DIExpression(DW_OP_LLVM_arg, 0, DW_OP_LLVM_convert, 1, DW_ATE_unsigned, DW_OP_LLVM_convert, 32, DW_ATE_unsigned, DW_OP_LLVM_arg, 1, DW_OP_LLVM_convert, 1, DW_ATE_unsigned, DW_OP_LLVM_convert, 32, DW_ATE_unsigned, DW_OP_or, DW_OP_stack_value)), !dbg !375
  %73 = or i1 %72, %16, !dbg !420
  call void @llvm.dbg.value(metadata i1 %73, metadata !360, metadata !DIExpression(DW_OP_LLVM_convert, 1, DW_ATE_unsigned, DW_OP_LLVM_convert, 32, DW_ATE_unsigned, DW_OP_stack_value)), !dbg !375
  call void @llvm.dbg.value(metadata i64 0, metadata !373, metadata !DIExpression()), !dbg !421
  call void @llvm.dbg.value(metadata !DIArgList(i1 poison, i1 poison, i1 poison), metadata !360, metadata !DIExpression(DW_OP_LLVM_arg, 0, DW_OP_LLVM_arg, 2, DW_OP_or, DW_OP_LLVM_convert, 1, DW_ATE_unsigned, DW_OP_LLVM_convert, 32, DW_ATE_unsigned, DW_OP_LLVM_arg, 1, DW_OP_LLVM_convert, 1, DW_ATE_unsigned, DW_OP_LLVM_convert, 32, DW_ATE_unsigned, DW_OP_or, DW_OP_stack_value)), !dbg !375
  %74 = load i32, ptr @proc_state, align 4, !dbg !422, !tbaa !188
  %75 = icmp ne i32 %74, 0, !dbg !424
  %76 = load i32, ptr @proc_parent, align 4, !dbg !425, !tbaa !188
  %77 = icmp eq i32 %76, %0, !dbg !426
  %78 = and i1 %75, %77, !dbg !427
  %79 = or i1 %73, %78, !dbg !428
  call void @llvm.dbg.value(metadata i1 %79, metadata !360, metadata !DIExpression(DW_OP_LLVM_convert, 1, DW_ATE_unsigned, DW_OP_LLVM_convert, 32, DW_ATE_unsigned, DW_OP_stack_value)), !dbg !375
  call void @llvm.dbg.value(metadata i64 1, metadata !373, metadata !DIExpression()), !dbg !421
  call void @llvm.dbg.value(metadata i64 1, metadata !373, metadata !DIExpression()), !dbg !421
  call void @llvm.dbg.value(metadata i1 %79, metadata !360, metadata !DIExpression(DW_OP_LLVM_convert, 1, DW_ATE_unsigned, DW_OP_LLVM_convert, 32, DW_ATE_unsigned, DW_OP_stack_value)), !dbg !375
  %80 = load i32, ptr getelementptr inbounds ([4 x i32], ptr @proc_state, i64 0, i64 1), align 4, !dbg !422, !tbaa !188
  %81 = icmp ne i32 %80, 0, !dbg !424
  %82 = load i32, ptr getelementptr inbounds ([4 x i32], ptr @proc_parent, i64 0, i64 1), align 4, !dbg !425, !tbaa !188
  %83 = icmp eq i32 %82, %0, !dbg !426
  %84 = and i1 %81, %83, !dbg !427
  %85 = or i1 %79, %84, !dbg !428
  call void @llvm.dbg.value(metadata i1 %85, metadata !360, metadata !DIExpression(DW_OP_LLVM_convert, 1, DW_ATE_unsigned, DW_OP_LLVM_convert, 32, DW_ATE_unsigned, DW_OP_stack_value)), !dbg !375
  call void @llvm.dbg.value(metadata i64 2, metadata !373, metadata !DIExpression()), !dbg !421
  call void @llvm.dbg.value(metadata i64 2, metadata !373, metadata !DIExpression()), !dbg !421
  call void @llvm.dbg.value(metadata i1 %85, metadata !360, metadata !DIExpression(DW_OP_LLVM_convert, 1, DW_ATE_unsigned, DW_OP_LLVM_convert, 32, DW_ATE_unsigned, DW_OP_stack_value)), !dbg !375
  %86 = load i32, ptr getelementptr inbounds ([4 x i32], ptr @proc_state, i64 0, i64 2), align 4, !dbg !422, !tbaa !188
  %87 = icmp ne i32 %86, 0, !dbg !424
  %88 = load i32, ptr getelementptr inbounds ([4 x i32], ptr @proc_parent, i64 0, i64 2), align 4, !dbg !425, !tbaa !188
  %89 = icmp eq i32 %88, %0, !dbg !426
  %90 = and i1 %87, %89, !dbg !427
  %91 = or i1 %85, %90, !dbg !428
  call void @llvm.dbg.value(metadata i1 %91, metadata !360, metadata !DIExpression(DW_OP_LLVM_convert, 1, DW_ATE_unsigned, DW_OP_LLVM_convert, 32, DW_ATE_unsigned, DW_OP_stack_value)), !dbg !375
  call void @llvm.dbg.value(metadata i64 3, metadata !373, metadata !DIExpression()), !dbg !421
  call void @llvm.dbg.value(metadata i64 3, metadata !373, metadata !DIExpression()), !dbg !421
  call void @llvm.dbg.value(metadata i1 %91, metadata !360, metadata !DIExpression(DW_OP_LLVM_convert, 1, DW_ATE_unsigned, DW_OP_LLVM_convert, 32, DW_ATE_unsigned, DW_OP_stack_value)), !dbg !375
  %92 = load i32, ptr getelementptr inbounds ([4 x i32], ptr @proc_state, i64 0, i64 3), align 4, !dbg !422, !tbaa !188
  %93 = icmp ne i32 %92, 0, !dbg !424
  %94 = load i32, ptr getelementptr inbounds ([4 x i32], ptr @proc_parent, i64 0, i64 3), align 4, !dbg !425, !tbaa !188
  %95 = icmp eq i32 %94, %0, !dbg !426
  %96 = and i1 %93, %95, !dbg !427
  %97 = or i1 %91, %96, !dbg !428
  call void @llvm.dbg.value(metadata i1 %97, metadata !360, metadata !DIExpression(DW_OP_LLVM_convert, 1, DW_ATE_unsigned, DW_OP_LLVM_convert, 32, DW_ATE_unsigned, DW_OP_stack_value)), !dbg !375
  call void @llvm.dbg.value(metadata i64 4, metadata !373, metadata !DIExpression()), !dbg !421
  br i1 %97, label %101, label %98, !dbg !429

98:                                               ; preds = %13
  %99 = zext i32 %0 to i64, !dbg !430
  %100 = getelementptr inbounds [4 x i32], ptr @proc_state, i64 0, i64 %99, !dbg !430
  store i32 0, ptr %100, align 4, !dbg !431, !tbaa !188
  br label %101, !dbg !432

101:                                              ; preds = %3, %1, %13, %8, %98
  %102 = phi i32 [ 0, %98 ], [ -1, %8 ], [ -1, %13 ], [ -1, %1 ], [ -1, %3 ], !dbg !375
  ret i32 %102, !dbg !433
}

; Function Attrs: mustprogress nofree norecurse nosync nounwind willreturn memory(readwrite, argmem: none, inaccessiblemem: none)
define dso_local signext i32 @sys_reparent(i32 noundef signext %0) local_unnamed_addr #0 !dbg !434 {
  call void @llvm.dbg.value(metadata i32 %0, metadata !436, metadata !DIExpression()), !dbg !437
  %2 = icmp ugt i32 %0, 3, !dbg !438
  br i1 %2, label %16, label %3, !dbg !440

3:                                                ; preds = %1
  %4 = zext i32 %0 to i64, !dbg !441
  %5 = getelementptr inbounds [4 x i32], ptr @proc_state, i64 0, i64 %4, !dbg !441
  %6 = load i32, ptr %5, align 4, !dbg !441, !tbaa !188
  %7 = icmp eq i32 %6, 0, !dbg !442
  br i1 %7, label %16, label %8, !dbg !443

8:                                                ; preds = %3
  %9 = getelementptr inbounds [4 x i32], ptr @proc_parent, i64 0, i64 %4, !dbg !444
  %10 = load i32, ptr %9, align 4, !dbg !444, !tbaa !188
  %11 = zext i32 %10 to i64, !dbg !445
  %12 = getelementptr inbounds [4 x i32], ptr @proc_state, i64 0, i64 %11, !dbg !445
  %13 = load i32, ptr %12, align 4, !dbg !445, !tbaa !188
  %14 = icmp eq i32 %13, 4, !dbg !446
  br i1 %14, label %15, label %16, !dbg !447

15:                                               ; preds = %8
  store i32 3, ptr %9, align 4, !dbg !448, !tbaa !188
  br label %16, !dbg !449

16:                                               ; preds = %1, %3, %8, %15
  %17 = phi i32 [ 0, %15 ], [ -1, %8 ], [ -1, %3 ], [ -1, %1 ], !dbg !437
  ret i32 %17, !dbg !450
}

; Function Attrs: mustprogress nofree norecurse nosync nounwind willreturn memory(read, argmem: none, inaccessiblemem: none)
define dso_local signext i32 @sys_get_pid() local_unnamed_addr #4 !dbg !451 {
  %1 = load i32, ptr @current, align 4, !dbg !452, !tbaa !188
  ret i32 %1, !dbg !453
}

; Function Attrs: mustprogress nofree norecurse nosync nounwind willreturn memory(read, argmem: none, inaccessiblemem: none)
define dso_local i64 @sys_get_status(i32 noundef signext %0) local_unnamed_addr #4 !dbg !454 {
  call void @llvm.dbg.value(metadata i32 %0, metadata !460, metadata !DIExpression()), !dbg !461
  call void @llvm.dbg.value(metadata i32 %0, metadata !222, metadata !DIExpression()), !dbg !462
  call void @llvm.dbg.value(metadata i32 4, metadata !227, metadata !DIExpression()), !dbg !462
  %2 = icmp ult i32 %0, 4, !dbg !465
  br i1 %2, label %3, label %18, !dbg !466

3:                                                ; preds = %1
  %4 = zext i32 %0 to i64, !dbg !467
  %5 = getelementptr inbounds [4 x i32], ptr @proc_state, i64 0, i64 %4, !dbg !467
  %6 = load i32, ptr %5, align 4, !dbg !467, !tbaa !188
  %7 = icmp eq i32 %6, 4, !dbg !468
  br i1 %7, label %8, label %18, !dbg !469

8:                                                ; preds = %3
  %9 = getelementptr inbounds [4 x i32], ptr @proc_parent, i64 0, i64 %4, !dbg !470
  %10 = load i32, ptr %9, align 4, !dbg !470, !tbaa !188
  %11 = load i32, ptr @current, align 4, !dbg !471, !tbaa !188
  %12 = icmp eq i32 %10, %11, !dbg !472
  br i1 %12, label %13, label %18, !dbg !473

13:                                               ; preds = %8
  %14 = zext i32 %0 to i64, !dbg !474
  %15 = getelementptr inbounds [4 x i32], ptr @proc_status, i64 0, i64 %14, !dbg !474
  %16 = load i32, ptr %15, align 4, !dbg !474, !tbaa !188
  %17 = zext i32 %16 to i64, !dbg !474
  br label %18, !dbg !475

18:                                               ; preds = %3, %1, %8, %13
  %19 = phi i64 [ %17, %13 ], [ -1, %8 ], [ -1, %1 ], [ -1, %3 ], !dbg !461
  ret i64 %19, !dbg !476
}

; Function Attrs: mustprogress nofree norecurse nosync nounwind willreturn memory(readwrite, argmem: none, inaccessiblemem: none)
define dso_local signext i32 @sys_create_file(i32 noundef signext %0, i32 noundef signext %1, i32 noundef signext %2) local_unnamed_addr #0 !dbg !477 {
  call void @llvm.dbg.value(metadata i32 %0, metadata !481, metadata !DIExpression()), !dbg !484
  call void @llvm.dbg.value(metadata i32 %1, metadata !482, metadata !DIExpression()), !dbg !484
  call void @llvm.dbg.value(metadata i32 %2, metadata !483, metadata !DIExpression()), !dbg !484
  call void @llvm.dbg.value(metadata i32 %0, metadata !485, metadata !DIExpression()), !dbg !489
  call void @llvm.dbg.value(metadata i32 %1, metadata !488, metadata !DIExpression()), !dbg !489
  %4 = icmp ult i32 %0, 4, !dbg !492
  %5 = icmp ult i32 %1, 3
  %6 = and i1 %4, %5, !dbg !493
  br i1 %6, label %7, label %32, !dbg !493

7:                                                ; preds = %3
  %8 = load i32, ptr @current, align 4, !dbg !494, !tbaa !188
  %9 = zext i32 %8 to i64, !dbg !495
  %10 = zext i32 %0 to i64, !dbg !495
  %11 = getelementptr inbounds [4 x [4 x i32]], ptr @fds, i64 0, i64 %9, i64 %10, !dbg !495
  %12 = load i32, ptr %11, align 4, !dbg !495, !tbaa !188
  %13 = icmp eq i32 %12, 0, !dbg !496
  br i1 %13, label %14, label %32, !dbg !497

14:                                               ; preds = %7
  %15 = zext i32 %1 to i64, !dbg !498
  %16 = getelementptr inbounds [3 x i32], ptr @file_kind, i64 0, i64 %15, !dbg !498
  %17 = load i32, ptr %16, align 4, !dbg !498, !tbaa !188
  %18 = icmp eq i32 %17, 0, !dbg !499
  br i1 %18, label %19, label %32, !dbg !500

19:                                               ; preds = %14
  call void @llvm.dbg.value(metadata i32 %0, metadata !501, metadata !DIExpression()), !dbg !507
  call void @llvm.dbg.value(metadata i32 %1, metadata !504, metadata !DIExpression()), !dbg !507
  call void @llvm.dbg.value(metadata i32 1, metadata !505, metadata !DIExpression()), !dbg !507
  call void @llvm.dbg.value(metadata i32 %2, metadata !506, metadata !DIExpression()), !dbg !507
  %20 = add i32 %1, 1, !dbg !509
  %21 = load i32, ptr @current, align 4, !dbg !510, !tbaa !188
  %22 = zext i32 %21 to i64, !dbg !511
  %23 = zext i32 %0 to i64, !dbg !511
  %24 = getelementptr inbounds [4 x [4 x i32]], ptr @fds, i64 0, i64 %22, i64 %23, !dbg !511
  store i32 %20, ptr %24, align 4, !dbg !512, !tbaa !188
  %25 = zext i32 %1 to i64, !dbg !513
  %26 = getelementptr inbounds [3 x i32], ptr @file_kind, i64 0, i64 %25, !dbg !513
  store i32 1, ptr %26, align 4, !dbg !514, !tbaa !188
  %27 = getelementptr inbounds [3 x i32], ptr @file_owner, i64 0, i64 %25, !dbg !515
  store i32 %21, ptr %27, align 4, !dbg !516, !tbaa !188
  %28 = shl nuw i32 1, %0, !dbg !517
  %29 = getelementptr inbounds [3 x i32], ptr @file_fds, i64 0, i64 %25, !dbg !518
  store i32 %28, ptr %29, align 4, !dbg !519, !tbaa !188
  %30 = getelementptr inbounds [3 x i32], ptr @file_value, i64 0, i64 %25, !dbg !520
  store i32 %2, ptr %30, align 4, !dbg !521, !tbaa !188
  %31 = getelementptr inbounds [3 x i32], ptr @file_offset, i64 0, i64 %25, !dbg !522
  store i32 0, ptr %31, align 4, !dbg !523, !tbaa !188
  br label %32, !dbg !524

32:                                               ; preds = %7, %3, %14, %19
  %33 = phi i32 [ 0, %19 ], [ -1, %14 ], [ -1, %3 ], [ -1, %7 ], !dbg !484
  ret i32 %33, !dbg !525
}

; Function Attrs: mustprogress nofree norecurse nosync nounwind willreturn memory(readwrite, argmem: none, inaccessiblemem: none)
define dso_local signext i32 @sys_close(i32 noundef signext %0, i32 noundef signext %1) local_unnamed_addr #0 !dbg !526 {
  call void @llvm.dbg.value(metadata i32 %0, metadata !528, metadata !DIExpression()), !dbg !530
  call void @llvm.dbg.value(metadata i32 %1, metadata !529, metadata !DIExpression()), !dbg !530
  call void @llvm.dbg.value(metadata i32 %0, metadata !531, metadata !DIExpression()), !dbg !534
  %3 = load i32, ptr @current, align 4, !dbg !537, !tbaa !188
  %4 = icmp eq i32 %3, %0, !dbg !538
  br i1 %4, label %21, label %5, !dbg !539

5:                                                ; preds = %2
  call void @llvm.dbg.value(metadata i32 %0, metadata !222, metadata !DIExpression()), !dbg !540
  call void @llvm.dbg.value(metadata i32 1, metadata !227, metadata !DIExpression()), !dbg !540
  %6 = icmp ugt i32 %0, 3, !dbg !542
  br i1 %6, label %21, label %7, !dbg !543

7:                                                ; preds = %5
  %8 = zext i32 %0 to i64, !dbg !544
  %9 = getelementptr inbounds [4 x i32], ptr @proc_state, i64 0, i64 %8, !dbg !544
  %10 = load i32, ptr %9, align 4, !dbg !544, !tbaa !188
  switch i32 %10, label %21 [
    i32 1, label %11
    i32 4, label %17
  ], !dbg !545

11:                                               ; preds = %7
  %12 = getelementptr inbounds [4 x i32], ptr @proc_parent, i64 0, i64 %8, !dbg !546
  %13 = load i32, ptr %12, align 4, !dbg !546, !tbaa !188
  %14 = icmp eq i32 %13, %3, !dbg !547
  br i1 %14, label %21, label %15, !dbg !548

15:                                               ; preds = %11
  %16 = icmp eq i32 %10, 4, !dbg !549
  br i1 %16, label %17, label %21, !dbg !551

17:                                               ; preds = %7, %15
  %18 = getelementptr inbounds [4 x i32], ptr @proc_parent, i64 0, i64 %8, !dbg !552
  %19 = load i32, ptr %18, align 4, !dbg !552, !tbaa !188
  %20 = icmp eq i32 %19, %3, !dbg !553
  br label %21

21:                                               ; preds = %7, %2, %5, %11, %15, %17
  %22 = phi i1 [ %14, %11 ], [ true, %2 ], [ false, %15 ], [ %20, %17 ], [ false, %5 ], [ false, %7 ]
  %23 = icmp ult i32 %1, 4
  %24 = and i1 %23, %22, !dbg !554
  br i1 %24, label %25, label %52, !dbg !554

25:                                               ; preds = %21
  %26 = zext i32 %0 to i64, !dbg !555
  %27 = zext i32 %1 to i64, !dbg !555
  %28 = getelementptr inbounds [4 x [4 x i32]], ptr @fds, i64 0, i64 %26, i64 %27, !dbg !555
  %29 = load i32, ptr %28, align 4, !dbg !555, !tbaa !188
  %30 = icmp eq i32 %29, 0, !dbg !556
  br i1 %30, label %52, label %31, !dbg !557

31:                                               ; preds = %25
  %32 = add i32 %29, -1, !dbg !558
  call void @llvm.dbg.value(metadata i32 %32, metadata !559, metadata !DIExpression()), !dbg !565
  call void @llvm.dbg.value(metadata i32 %1, metadata !564, metadata !DIExpression()), !dbg !565
  %33 = shl nuw i32 1, %1, !dbg !567
  %34 = xor i32 %33, -1, !dbg !568
  %35 = zext i32 %32 to i64, !dbg !569
  %36 = getelementptr inbounds [3 x i32], ptr @file_fds, i64 0, i64 %35, !dbg !569
  %37 = load i32, ptr %36, align 4, !dbg !570, !tbaa !188
  %38 = and i32 %37, %34, !dbg !570
  store i32 %38, ptr %36, align 4, !dbg !570, !tbaa !188
  %39 = icmp eq i32 %38, 0, !dbg !571
  br i1 %39, label %40, label %51, !dbg !573

40:                                               ; preds = %31
  %41 = getelementptr inbounds [3 x i32], ptr @file_kind, i64 0, i64 %35, !dbg !574
  %42 = load i32, ptr %41, align 4, !dbg !574, !tbaa !188
  switch i32 %42, label %50 [
    i32 2, label %44
    i32 3, label %43
  ], !dbg !576

43:                                               ; preds = %40
  br label %44, !dbg !577

44:                                               ; preds = %40, %43
  %45 = phi ptr [ @pipe_writer, %43 ], [ @pipe_reader, %40 ]
  %46 = getelementptr inbounds [3 x i32], ptr @file_value, i64 0, i64 %35, !dbg !565
  %47 = load i32, ptr %46, align 4, !dbg !565, !tbaa !188
  %48 = zext i32 %47 to i64, !dbg !565
  %49 = getelementptr inbounds [2 x i32], ptr %45, i64 0, i64 %48, !dbg !565
  store i32 0, ptr %49, align 4, !dbg !565, !tbaa !188
  br label %50, !dbg !579

50:                                               ; preds = %44, %40
  store i32 0, ptr %41, align 4, !dbg !579, !tbaa !188
  br label %51, !dbg !580

51:                                               ; preds = %31, %50
  store i32 0, ptr %28, align 4, !dbg !581, !tbaa !188
  br label %52, !dbg !582

52:                                               ; preds = %21, %25, %51
  %53 = phi i32 [ 0, %51 ], [ -1, %25 ], [ -1, %21 ], !dbg !530
  ret i32 %53, !dbg !583
}

; Function Attrs: mustprogress nofree norecurse nosync nounwind willreturn memory(readwrite, argmem: none, inaccessiblemem: none)
define dso_local signext i32 @sys_dup(i32 noundef signext %0, i32 noundef signext %1) local_unnamed_addr #0 !dbg !584 {
  call void @llvm.dbg.value(metadata i32 %0, metadata !586, metadata !DIExpression()), !dbg !588
  call void @llvm.dbg.value(metadata i32 %1, metadata !587, metadata !DIExpression()), !dbg !588
  %3 = or i32 %1, %0, !dbg !589
  %4 = icmp ult i32 %3, 4, !dbg !589
  br i1 %4, label %5, label %25, !dbg !589

5:                                                ; preds = %2
  %6 = load i32, ptr @current, align 4, !dbg !591, !tbaa !188
  %7 = zext i32 %6 to i64, !dbg !592
  %8 = zext i32 %0 to i64, !dbg !592
  %9 = getelementptr inbounds [4 x [4 x i32]], ptr @fds, i64 0, i64 %7, i64 %8, !dbg !592
  %10 = load i32, ptr %9, align 4, !dbg !592, !tbaa !188
  %11 = icmp eq i32 %10, 0, !dbg !593
  br i1 %11, label %25, label %12, !dbg !594

12:                                               ; preds = %5
  %13 = zext i32 %1 to i64, !dbg !595
  %14 = getelementptr inbounds [4 x [4 x i32]], ptr @fds, i64 0, i64 %7, i64 %13, !dbg !595
  %15 = load i32, ptr %14, align 4, !dbg !595, !tbaa !188
  %16 = icmp eq i32 %15, 0, !dbg !596
  br i1 %16, label %17, label %25, !dbg !597

17:                                               ; preds = %12
  store i32 %10, ptr %14, align 4, !dbg !598, !tbaa !188
  %18 = shl nuw i32 1, %1, !dbg !599
  %19 = load i32, ptr %9, align 4, !dbg !600, !tbaa !188
  %20 = add i32 %19, -1, !dbg !601
  %21 = zext i32 %20 to i64, !dbg !602
  %22 = getelementptr inbounds [3 x i32], ptr @file_fds, i64 0, i64 %21, !dbg !602
  %23 = load i32, ptr %22, align 4, !dbg !603, !tbaa !188
  %24 = or i32 %23, %18, !dbg !603
  store i32 %24, ptr %22, align 4, !dbg !603, !tbaa !188
  br label %25, !dbg !604

25:                                               ; preds = %2, %5, %12, %17
  %26 = phi i32 [ 0, %17 ], [ -1, %12 ], [ -1, %5 ], [ -1, %2 ], !dbg !588
  ret i32 %26, !dbg !605
}

; Function Attrs: mustprogress nofree norecurse nosync nounwind willreturn memory(readwrite, argmem: none, inaccessiblemem: none)
define dso_local signext i32 @sys_dup2(i32 noundef signext %0, i32 noundef signext %1) local_unnamed_addr #0 !dbg !606 {
  call void @llvm.dbg.value(metadata i32 %0, metadata !608, metadata !DIExpression()), !dbg !610
  call void @llvm.dbg.value(metadata i32 %1, metadata !609, metadata !DIExpression()), !dbg !610
  %3 = or i32 %1, %0, !dbg !611
  %4 = icmp ult i32 %3, 4, !dbg !611
  br i1 %4, label %5, label %45, !dbg !611

5:                                                ; preds = %2
  %6 = load i32, ptr @current, align 4, !dbg !613, !tbaa !188
  %7 = zext i32 %6 to i64, !dbg !614
  %8 = zext i32 %0 to i64, !dbg !614
  %9 = getelementptr inbounds [4 x [4 x i32]], ptr @fds, i64 0, i64 %7, i64 %8, !dbg !614
  %10 = load i32, ptr %9, align 4, !dbg !614, !tbaa !188
  %11 = icmp eq i32 %10, 0, !dbg !615
  br i1 %11, label %45, label %12, !dbg !616

12:                                               ; preds = %5
  %13 = zext i32 %1 to i64, !dbg !617
  %14 = getelementptr inbounds [4 x [4 x i32]], ptr @fds, i64 0, i64 %7, i64 %13, !dbg !617
  %15 = load i32, ptr %14, align 4, !dbg !617, !tbaa !188
  %16 = icmp eq i32 %15, 0, !dbg !618
  %17 = icmp eq i32 %10, %15
  %18 = select i1 %16, i1 true, i1 %17, !dbg !619
  br i1 %18, label %45, label %19, !dbg !619

19:                                               ; preds = %12
  %20 = add i32 %15, -1, !dbg !620
  call void @llvm.dbg.value(metadata i32 %20, metadata !559, metadata !DIExpression()), !dbg !621
  call void @llvm.dbg.value(metadata i32 %1, metadata !564, metadata !DIExpression()), !dbg !621
  %21 = shl nuw i32 1, %1, !dbg !623
  %22 = xor i32 %21, -1, !dbg !624
  %23 = zext i32 %20 to i64, !dbg !625
  %24 = getelementptr inbounds [3 x i32], ptr @file_fds, i64 0, i64 %23, !dbg !625
  %25 = load i32, ptr %24, align 4, !dbg !626, !tbaa !188
  %26 = and i32 %25, %22, !dbg !626
  store i32 %26, ptr %24, align 4, !dbg !626, !tbaa !188
  %27 = icmp eq i32 %26, 0, !dbg !627
  br i1 %27, label %28, label %39, !dbg !628

28:                                               ; preds = %19
  %29 = getelementptr inbounds [3 x i32], ptr @file_kind, i64 0, i64 %23, !dbg !629
  %30 = load i32, ptr %29, align 4, !dbg !629, !tbaa !188
  switch i32 %30, label %38 [
    i32 2, label %32
    i32 3, label %31
  ], !dbg !630

31:                                               ; preds = %28
  br label %32, !dbg !631

32:                                               ; preds = %28, %31
  %33 = phi ptr [ @pipe_writer, %31 ], [ @pipe_reader, %28 ]
  %34 = getelementptr inbounds [3 x i32], ptr @file_value, i64 0, i64 %23, !dbg !621
  %35 = load i32, ptr %34, align 4, !dbg !621, !tbaa !188
  %36 = zext i32 %35 to i64, !dbg !621
  %37 = getelementptr inbounds [2 x i32], ptr %33, i64 0, i64 %36, !dbg !621
  store i32 0, ptr %37, align 4, !dbg !621, !tbaa !188
  br label %38, !dbg !632

38:                                               ; preds = %32, %28
  store i32 0, ptr %29, align 4, !dbg !632, !tbaa !188
  br label %39, !dbg !633

39:                                               ; preds = %19, %38
  %40 = add i32 %10, -1, !dbg !634
  %41 = zext i32 %40 to i64, !dbg !635
  %42 = getelementptr inbounds [3 x i32], ptr @file_fds, i64 0, i64 %41, !dbg !635
  %43 = load i32, ptr %42, align 4, !dbg !636, !tbaa !188
  %44 = or i32 %43, %21, !dbg !636
  store i32 %44, ptr %42, align 4, !dbg !636, !tbaa !188
  store i32 %10, ptr %14, align 4, !dbg !637, !tbaa !188
  br label %45, !dbg !638

45:                                               ; preds = %2, %5, %12, %39
  %46 = phi i32 [ 0, %39 ], [ -1, %12 ], [ -1, %5 ], [ -1, %2 ], !dbg !610
  ret i32 %46, !dbg !639
}

; Function Attrs: mustprogress nofree norecurse nosync nounwind willreturn memory(readwrite, argmem: none, inaccessiblemem: none)
define dso_local signext i32 @sys_transfer(i32 noundef signext %0, i32 noundef signext %1, i32 noundef signext %2) local_unnamed_addr #0 !dbg !640 {
  call void @llvm.dbg.value(metadata i32 %0, metadata !642, metadata !DIExpression()), !dbg !645
  call void @llvm.dbg.value(metadata i32 %1, metadata !643, metadata !DIExpression()), !dbg !645
  call void @llvm.dbg.value(metadata i32 %2, metadata !644, metadata !DIExpression()), !dbg !645
  %4 = or i32 %2, %0, !dbg !646
  %5 = icmp ult i32 %4, 4, !dbg !646
  br i1 %5, label %6, label %44, !dbg !646

6:                                                ; preds = %3
  %7 = load i32, ptr @current, align 4, !dbg !648, !tbaa !188
  %8 = zext i32 %7 to i64, !dbg !649
  %9 = zext i32 %0 to i64, !dbg !649
  %10 = getelementptr inbounds [4 x [4 x i32]], ptr @fds, i64 0, i64 %8, i64 %9, !dbg !649
  %11 = load i32, ptr %10, align 4, !dbg !649, !tbaa !188
  %12 = icmp eq i32 %11, 0, !dbg !650
  br i1 %12, label %44, label %13, !dbg !651

13:                                               ; preds = %6
  %14 = add i32 %11, -1, !dbg !652
  %15 = zext i32 %14 to i64, !dbg !653
  %16 = getelementptr inbounds [3 x i32], ptr @file_fds, i64 0, i64 %15, !dbg !653
  %17 = load i32, ptr %16, align 4, !dbg !653, !tbaa !188
  %18 = shl nuw i32 1, %0, !dbg !654
  %19 = icmp eq i32 %17, %18, !dbg !655
  br i1 %19, label %20, label %44, !dbg !656

20:                                               ; preds = %13
  call void @llvm.dbg.value(metadata i32 %1, metadata !222, metadata !DIExpression()), !dbg !657
  call void @llvm.dbg.value(metadata i32 1, metadata !227, metadata !DIExpression()), !dbg !657
  %21 = icmp ult i32 %1, 4, !dbg !660
  br i1 %21, label %22, label %31, !dbg !661

22:                                               ; preds = %20
  %23 = zext i32 %1 to i64, !dbg !662
  %24 = getelementptr inbounds [4 x i32], ptr @proc_state, i64 0, i64 %23, !dbg !662
  %25 = load i32, ptr %24, align 4, !dbg !662, !tbaa !188
  %26 = icmp eq i32 %25, 1, !dbg !663
  br i1 %26, label %27, label %31, !dbg !664

27:                                               ; preds = %22
  %28 = getelementptr inbounds [4 x i32], ptr @proc_parent, i64 0, i64 %23, !dbg !665
  %29 = load i32, ptr %28, align 4, !dbg !665, !tbaa !188
  %30 = icmp ne i32 %29, %7, !dbg !666
  br label %31

31:                                               ; preds = %20, %22, %27
  %32 = phi i1 [ true, %22 ], [ true, %20 ], [ %30, %27 ]
  %33 = icmp eq i32 %7, %1
  %34 = select i1 %32, i1 true, i1 %33, !dbg !667
  br i1 %34, label %44, label %35, !dbg !667

35:                                               ; preds = %31
  %36 = zext i32 %1 to i64, !dbg !668
  %37 = zext i32 %2 to i64, !dbg !668
  %38 = getelementptr inbounds [4 x [4 x i32]], ptr @fds, i64 0, i64 %36, i64 %37, !dbg !668
  %39 = load i32, ptr %38, align 4, !dbg !668, !tbaa !188
  %40 = icmp eq i32 %39, 0, !dbg !669
  br i1 %40, label %41, label %44, !dbg !670

41:                                               ; preds = %35
  %42 = getelementptr inbounds [3 x i32], ptr @file_owner, i64 0, i64 %15, !dbg !671
  store i32 %1, ptr %42, align 4, !dbg !672, !tbaa !188
  %43 = shl nuw i32 1, %2, !dbg !673
  store i32 %43, ptr %16, align 4, !dbg !674, !tbaa !188
  store i32 %11, ptr %38, align 4, !dbg !675, !tbaa !188
  store i32 0, ptr %10, align 4, !dbg !676, !tbaa !188
  br label %44, !dbg !677

44:                                               ; preds = %31, %35, %3, %6, %13, %41
  %45 = phi i32 [ 0, %41 ], [ -1, %13 ], [ -1, %6 ], [ -1, %3 ], [ -1, %35 ], [ -1, %31 ], !dbg !645
  ret i32 %45, !dbg !678
}

; Function Attrs: mustprogress nofree norecurse nosync nounwind willreturn memory(readwrite, argmem: none, inaccessiblemem: none)
define dso_local signext i32 @sys_pipe(i32 noundef signext %0, i32 noundef signext %1, i32 noundef signext %2, i32 noundef signext %3, i32 noundef signext %4) local_unnamed_addr #0 !dbg !679 {
  call void @llvm.dbg.value(metadata i32 %0, metadata !683, metadata !DIExpression()), !dbg !688
  call void @llvm.dbg.value(metadata i32 %1, metadata !684, metadata !DIExpression()), !dbg !688
  call void @llvm.dbg.value(metadata i32 %2, metadata !685, metadata !DIExpression()), !dbg !688
  call void @llvm.dbg.value(metadata i32 %3, metadata !686, metadata !DIExpression()), !dbg !688
  call void @llvm.dbg.value(metadata i32 %4, metadata !687, metadata !DIExpression()), !dbg !688
  call void @llvm.dbg.value(metadata i32 %0, metadata !485, metadata !DIExpression()), !dbg !689
  call void @llvm.dbg.value(metadata i32 %1, metadata !488, metadata !DIExpression()), !dbg !689
  %6 = icmp ult i32 %0, 4, !dbg !692
  %7 = icmp ult i32 %1, 3
  %8 = and i1 %6, %7, !dbg !693
  br i1 %8, label %9, label %79, !dbg !693

9:                                                ; preds = %5
  %10 = load i32, ptr @current, align 4, !dbg !694, !tbaa !188
  %11 = zext i32 %10 to i64, !dbg !695
  %12 = zext i32 %0 to i64, !dbg !695
  %13 = getelementptr inbounds [4 x [4 x i32]], ptr @fds, i64 0, i64 %11, i64 %12, !dbg !695
  %14 = load i32, ptr %13, align 4, !dbg !695, !tbaa !188
  %15 = icmp eq i32 %14, 0, !dbg !696
  br i1 %15, label %16, label %79, !dbg !697

16:                                               ; preds = %9
  %17 = zext i32 %1 to i64, !dbg !698
  %18 = getelementptr inbounds [3 x i32], ptr @file_kind, i64 0, i64 %17, !dbg !698
  %19 = load i32, ptr %18, align 4, !dbg !698, !tbaa !188
  %20 = icmp eq i32 %19, 0, !dbg !699
  br i1 %20, label %21, label %79, !dbg !700

21:                                               ; preds = %16
  call void @llvm.dbg.value(metadata i32 %2, metadata !485, metadata !DIExpression()), !dbg !701
  call void @llvm.dbg.value(metadata i32 %3, metadata !488, metadata !DIExpression()), !dbg !701
  %22 = icmp ult i32 %2, 4, !dbg !703
  %23 = icmp ult i32 %3, 3
  %24 = and i1 %22, %23, !dbg !704
  br i1 %24, label %25, label %37, !dbg !704

25:                                               ; preds = %21
  %26 = load i32, ptr @current, align 4, !dbg !705, !tbaa !188
  %27 = zext i32 %26 to i64, !dbg !706
  %28 = zext i32 %2 to i64, !dbg !706
  %29 = getelementptr inbounds [4 x [4 x i32]], ptr @fds, i64 0, i64 %27, i64 %28, !dbg !706
  %30 = load i32, ptr %29, align 4, !dbg !706, !tbaa !188
  %31 = icmp eq i32 %30, 0, !dbg !707
  br i1 %31, label %32, label %37, !dbg !708

32:                                               ; preds = %25
  %33 = zext i32 %3 to i64, !dbg !709
  %34 = getelementptr inbounds [3 x i32], ptr @file_kind, i64 0, i64 %33, !dbg !709
  %35 = load i32, ptr %34, align 4, !dbg !709, !tbaa !188
  %36 = icmp ne i32 %35, 0, !dbg !710
  br label %37

37:                                               ; preds = %21, %25, %32
  %38 = phi i1 [ true, %25 ], [ true, %21 ], [ %36, %32 ]
  %39 = icmp eq i32 %0, %2
  %40 = or i1 %39, %38, !dbg !711
  %41 = icmp eq i32 %1, %3
  %42 = or i1 %41, %40, !dbg !711
  %43 = icmp ugt i32 %4, 1
  %44 = or i1 %43, %42, !dbg !711
  br i1 %44, label %79, label %45, !dbg !711

45:                                               ; preds = %37
  %46 = zext i32 %4 to i64, !dbg !712
  %47 = getelementptr inbounds [2 x i32], ptr @pipe_reader, i64 0, i64 %46, !dbg !712
  %48 = load i32, ptr %47, align 4, !dbg !712, !tbaa !188
  %49 = icmp eq i32 %48, 0, !dbg !714
  br i1 %49, label %50, label %79, !dbg !715

50:                                               ; preds = %45
  %51 = getelementptr inbounds [2 x i32], ptr @pipe_writer, i64 0, i64 %46, !dbg !716
  %52 = load i32, ptr %51, align 4, !dbg !716, !tbaa !188
  %53 = icmp eq i32 %52, 0, !dbg !717
  br i1 %53, label %54, label %79, !dbg !718

54:                                               ; preds = %50
  call void @llvm.dbg.value(metadata i32 %0, metadata !501, metadata !DIExpression()), !dbg !719
  call void @llvm.dbg.value(metadata i32 %1, metadata !504, metadata !DIExpression()), !dbg !719
  call void @llvm.dbg.value(metadata i32 2, metadata !505, metadata !DIExpression()), !dbg !719
  call void @llvm.dbg.value(metadata i32 %4, metadata !506, metadata !DIExpression()), !dbg !719
  %55 = add i32 %1, 1, !dbg !721
  %56 = load i32, ptr @current, align 4, !dbg !722, !tbaa !188
  %57 = zext i32 %56 to i64, !dbg !723
  %58 = zext i32 %0 to i64, !dbg !723
  %59 = getelementptr inbounds [4 x [4 x i32]], ptr @fds, i64 0, i64 %57, i64 %58, !dbg !723
  store i32 %55, ptr %59, align 4, !dbg !724, !tbaa !188
  %60 = zext i32 %1 to i64, !dbg !725
  %61 = getelementptr inbounds [3 x i32], ptr @file_kind, i64 0, i64 %60, !dbg !725
  store i32 2, ptr %61, align 4, !dbg !726, !tbaa !188
  %62 = getelementptr inbounds [3 x i32], ptr @file_owner, i64 0, i64 %60, !dbg !727
  store i32 %56, ptr %62, align 4, !dbg !728, !tbaa !188
  %63 = shl nuw i32 1, %0, !dbg !729
  %64 = getelementptr inbounds [3 x i32], ptr @file_fds, i64 0, i64 %60, !dbg !730
  store i32 %63, ptr %64, align 4, !dbg !731, !tbaa !188
  %65 = getelementptr inbounds [3 x i32], ptr @file_value, i64 0, i64 %60, !dbg !732
  store i32 %4, ptr %65, align 4, !dbg !733, !tbaa !188
  %66 = getelementptr inbounds [3 x i32], ptr @file_offset, i64 0, i64 %60, !dbg !734
  store i32 0, ptr %66, align 4, !dbg !735, !tbaa !188
  call void @llvm.dbg.value(metadata i32 %2, metadata !501, metadata !DIExpression()), !dbg !736
  call void @llvm.dbg.value(metadata i32 %3, metadata !504, metadata !DIExpression()), !dbg !736
  call void @llvm.dbg.value(metadata i32 3, metadata !505, metadata !DIExpression()), !dbg !736
  call void @llvm.dbg.value(metadata i32 %4, metadata !506, metadata !DIExpression()), !dbg !736
  %67 = add i32 %3, 1, !dbg !738
  %68 = zext i32 %2 to i64, !dbg !739
  %69 = getelementptr inbounds [4 x [4 x i32]], ptr @fds, i64 0, i64 %57, i64 %68, !dbg !739
  store i32 %67, ptr %69, align 4, !dbg !740, !tbaa !188
  %70 = zext i32 %3 to i64, !dbg !741
  %71 = getelementptr inbounds [3 x i32], ptr @file_kind, i64 0, i64 %70, !dbg !741
  store i32 3, ptr %71, align 4, !dbg !742, !tbaa !188
  %72 = getelementptr inbounds [3 x i32], ptr @file_owner, i64 0, i64 %70, !dbg !743
  store i32 %56, ptr %72, align 4, !dbg !744, !tbaa !188
  %73 = shl nuw i32 1, %2, !dbg !745
  %74 = getelementptr inbounds [3 x i32], ptr @file_fds, i64 0, i64 %70, !dbg !746
  store i32 %73, ptr %74, align 4, !dbg !747, !tbaa !188
  %75 = getelementptr inbounds [3 x i32], ptr @file_value, i64 0, i64 %70, !dbg !748
  store i32 %4, ptr %75, align 4, !dbg !749, !tbaa !188
  %76 = getelementptr inbounds [3 x i32], ptr @file_offset, i64 0, i64 %70, !dbg !750
  store i32 0, ptr %76, align 4, !dbg !751, !tbaa !188
  store i32 %55, ptr %47, align 4, !dbg !752, !tbaa !188
  store i32 %67, ptr %51, align 4, !dbg !753, !tbaa !188
  %77 = getelementptr inbounds [2 x i32], ptr @pipe_head, i64 0, i64 %46, !dbg !754
  store i32 0, ptr %77, align 4, !dbg !755, !tbaa !188
  %78 = getelementptr inbounds [2 x i32], ptr @pipe_count, i64 0, i64 %46, !dbg !756
  store i32 0, ptr %78, align 4, !dbg !757, !tbaa !188
  br label %79, !dbg !758

79:                                               ; preds = %9, %5, %45, %50, %16, %37, %54
  %80 = phi i32 [ 0, %54 ], [ -1, %37 ], [ -1, %16 ], [ -1, %50 ], [ -1, %45 ], [ -1, %5 ], [ -1, %9 ], !dbg !688
  ret i32 %80, !dbg !759
}

; Function Attrs: mustprogress nofree norecurse nosync nounwind willreturn memory(readwrite, argmem: none, inaccessiblemem: none)
define dso_local i64 @sys_pipe_read(i32 noundef signext %0) local_unnamed_addr #0 !dbg !760 {
  call void @llvm.dbg.value(metadata i32 %0, metadata !762, metadata !DIExpression()), !dbg !766
  call void @llvm.dbg.value(metadata i32 %0, metadata !767, metadata !DIExpression()), !dbg !770
  %2 = icmp ult i32 %0, 4, !dbg !772
  br i1 %2, label %3, label %10, !dbg !773

3:                                                ; preds = %1
  %4 = load i32, ptr @current, align 4, !dbg !774, !tbaa !188
  %5 = zext i32 %4 to i64, !dbg !775
  %6 = zext i32 %0 to i64, !dbg !775
  %7 = getelementptr inbounds [4 x [4 x i32]], ptr @fds, i64 0, i64 %5, i64 %6, !dbg !775
  %8 = load i32, ptr %7, align 4, !dbg !775, !tbaa !188
  %9 = add i32 %8, -1, !dbg !776
  br label %10, !dbg !773

10:                                               ; preds = %1, %3
  %11 = phi i32 [ %9, %3 ], [ 3, %1 ], !dbg !773
  call void @llvm.dbg.value(metadata i32 %11, metadata !763, metadata !DIExpression()), !dbg !766
  %12 = icmp ugt i32 %11, 2, !dbg !777
  br i1 %12, label %35, label %13, !dbg !779

13:                                               ; preds = %10
  %14 = zext i32 %11 to i64, !dbg !780
  %15 = getelementptr inbounds [3 x i32], ptr @file_kind, i64 0, i64 %14, !dbg !780
  %16 = load i32, ptr %15, align 4, !dbg !780, !tbaa !188
  %17 = icmp eq i32 %16, 2, !dbg !781
  br i1 %17, label %18, label %35, !dbg !782

18:                                               ; preds = %13
  %19 = getelementptr inbounds [3 x i32], ptr @file_value, i64 0, i64 %14, !dbg !783
  %20 = load i32, ptr %19, align 4, !dbg !783, !tbaa !188
  %21 = zext i32 %20 to i64, !dbg !784
  %22 = getelementptr inbounds [2 x i32], ptr @pipe_count, i64 0, i64 %21, !dbg !784
  %23 = load i32, ptr %22, align 4, !dbg !784, !tbaa !188
  %24 = icmp eq i32 %23, 0, !dbg !785
  br i1 %24, label %35, label %25, !dbg !786

25:                                               ; preds = %18
  call void @llvm.dbg.value(metadata i32 %20, metadata !764, metadata !DIExpression()), !dbg !766
  %26 = getelementptr inbounds [2 x i32], ptr @pipe_head, i64 0, i64 %21, !dbg !787
  %27 = load i32, ptr %26, align 4, !dbg !787, !tbaa !188
  call void @llvm.dbg.value(metadata i32 %27, metadata !765, metadata !DIExpression()), !dbg !766
  %28 = add i32 %27, 1, !dbg !788
  %29 = and i32 %28, 3, !dbg !789
  store i32 %29, ptr %26, align 4, !dbg !790, !tbaa !188
  %30 = add i32 %23, -1, !dbg !791
  store i32 %30, ptr %22, align 4, !dbg !791, !tbaa !188
  %31 = zext i32 %27 to i64, !dbg !792
  %32 = getelementptr inbounds [2 x [4 x i32]], ptr @pipe_word, i64 0, i64 %21, i64 %31, !dbg !792
  %33 = load i32, ptr %32, align 4, !dbg !792, !tbaa !188
  %34 = zext i32 %33 to i64, !dbg !792
  br label %35

35:                                               ; preds = %10, %13, %18, %25
  %36 = phi i64 [ %34, %25 ], [ -1, %18 ], [ -1, %13 ], [ -1, %10 ], !dbg !766
  ret i64 %36, !dbg !793
}

; Function Attrs: mustprogress nofree norecurse nosync nounwind willreturn memory(readwrite, argmem: none, inaccessiblemem: none)
define dso_local signext i32 @sys_pipe_write(i32 noundef signext %0, i32 noundef signext %1) local_unnamed_addr #0 !dbg !794 {
  call void @llvm.dbg.value(metadata i32 %0, metadata !796, metadata !DIExpression()), !dbg !800
  call void @llvm.dbg.value(metadata i32 %1, metadata !797, metadata !DIExpression()), !dbg !800
  call void @llvm.dbg.value(metadata i32 %0, metadata !767, metadata !DIExpression()), !dbg !801
  %3 = icmp ult i32 %0, 4, !dbg !803
  br i1 %3, label %4, label %11, !dbg !804

4:                                                ; preds = %2
  %5 = load i32, ptr @current, align 4, !dbg !805, !tbaa !188
  %6 = zext i32 %5 to i64, !dbg !806
  %7 = zext i32 %0 to i64, !dbg !806
  %8 = getelementptr inbounds [4 x [4 x i32]], ptr @fds, i64 0, i64 %6, i64 %7, !dbg !806
  %9 = load i32, ptr %8, align 4, !dbg !806, !tbaa !188
  %10 = add i32 %9, -1, !dbg !807
  br label %11, !dbg !804

11:                                               ; preds = %2, %4
  %12 = phi i32 [ %10, %4 ], [ 3, %2 ], !dbg !804
  call void @llvm.dbg.value(metadata i32 %12, metadata !798, metadata !DIExpression()), !dbg !800
  %13 = icmp ugt i32 %12, 2, !dbg !808
  br i1 %13, label %34, label %14, !dbg !810

14:                                               ; preds = %11
  %15 = zext i32 %12 to i64, !dbg !811
  %16 = getelementptr inbounds [3 x i32], ptr @file_kind, i64 0, i64 %15, !dbg !811
  %17 = load i32, ptr %16, align 4, !dbg !811, !tbaa !188
  %18 = icmp eq i32 %17, 3, !dbg !812
  br i1 %18, label %19, label %34, !dbg !813

19:                                               ; preds = %14
  %20 = getelementptr inbounds [3 x i32], ptr @file_value, i64 0, i64 %15, !dbg !814
  %21 = load i32, ptr %20, align 4, !dbg !814, !tbaa !188
  %22 = zext i32 %21 to i64, !dbg !815
  %23 = getelementptr inbounds [2 x i32], ptr @pipe_count, i64 0, i64 %22, !dbg !815
  %24 = load i32, ptr %23, align 4, !dbg !815, !tbaa !188
  %25 = icmp ugt i32 %24, 3, !dbg !816
  br i1 %25, label %34, label %26, !dbg !817

26:                                               ; preds = %19
  call void @llvm.dbg.value(metadata i32 %21, metadata !799, metadata !DIExpression()), !dbg !800
  %27 = getelementptr inbounds [2 x i32], ptr @pipe_head, i64 0, i64 %22, !dbg !818
  %28 = load i32, ptr %27, align 4, !dbg !818, !tbaa !188
  %29 = add i32 %28, %24, !dbg !819
  %30 = and i32 %29, 3, !dbg !820
  %31 = zext i32 %30 to i64, !dbg !821
  %32 = getelementptr inbounds [2 x [4 x i32]], ptr @pipe_word, i64 0, i64 %22, i64 %31, !dbg !821
  store i32 %1, ptr %32, align 4, !dbg !822, !tbaa !188
  %33 = add i32 %24, 1, !dbg !823
  store i32 %33, ptr %23, align 4, !dbg !823, !tbaa !188
  br label %34

34:                                               ; preds = %11, %14, %19, %26
  %35 = phi i32 [ 0, %26 ], [ -1, %19 ], [ -1, %14 ], [ -1, %11 ], !dbg !800
  ret i32 %35, !dbg !824
}

; Function Attrs: mustprogress nofree norecurse nosync nounwind willreturn memory(readwrite, argmem: none, inaccessiblemem: none)
define dso_local signext i32 @sys_seek(i32 noundef signext %0, i32 noundef signext %1) local_unnamed_addr #0 !dbg !825 {
  call void @llvm.dbg.value(metadata i32 %0, metadata !827, metadata !DIExpression()), !dbg !830
  call void @llvm.dbg.value(metadata i32 %1, metadata !828, metadata !DIExpression()), !dbg !830
  call void @llvm.dbg.value(metadata i32 %0, metadata !767, metadata !DIExpression()), !dbg !831
  %3 = icmp ult i32 %0, 4, !dbg !833
  br i1 %3, label %4, label %11, !dbg !834

4:                                                ; preds = %2
  %5 = load i32, ptr @current, align 4, !dbg !835, !tbaa !188
  %6 = zext i32 %5 to i64, !dbg !836
  %7 = zext i32 %0 to i64, !dbg !836
  %8 = getelementptr inbounds [4 x [4 x i32]], ptr @fds, i64 0, i64 %6, i64 %7, !dbg !836
  %9 = load i32, ptr %8, align 4, !dbg !836, !tbaa !188
  %10 = add i32 %9, -1, !dbg !837
  br label %11, !dbg !834

11:                                               ; preds = %2, %4
  %12 = phi i32 [ %10, %4 ], [ 3, %2 ], !dbg !834
  call void @llvm.dbg.value(metadata i32 %12, metadata !829, metadata !DIExpression()), !dbg !830
  %13 = icmp ugt i32 %12, 2, !dbg !838
  br i1 %13, label %21, label %14, !dbg !840

14:                                               ; preds = %11
  %15 = zext i32 %12 to i64, !dbg !841
  %16 = getelementptr inbounds [3 x i32], ptr @file_kind, i64 0, i64 %15, !dbg !841
  %17 = load i32, ptr %16, align 4, !dbg !841, !tbaa !188
  %18 = icmp eq i32 %17, 1, !dbg !842
  br i1 %18, label %19, label %21, !dbg !843

19:                                               ; preds = %14
  %20 = getelementptr inbounds [3 x i32], ptr @file_offset, i64 0, i64 %15, !dbg !844
  store i32 %1, ptr %20, align 4, !dbg !845, !tbaa !188
  br label %21, !dbg !846

21:                                               ; preds = %11, %14, %19
  %22 = phi i32 [ 0, %19 ], [ -1, %14 ], [ -1, %11 ], !dbg !830
  ret i32 %22, !dbg !847
}

; Function Attrs: mustprogress nofree norecurse nosync nounwind willreturn memory(read, argmem: none, inaccessiblemem: none)
define dso_local i64 @sys_tell(i32 noundef signext %0) local_unnamed_addr #4 !dbg !848 {
  call void @llvm.dbg.value(metadata i32 %0, metadata !850, metadata !DIExpression()), !dbg !852
  call void @llvm.dbg.value(metadata i32 %0, metadata !767, metadata !DIExpression()), !dbg !853
  %2 = icmp ult i32 %0, 4, !dbg !855
  br i1 %2, label %3, label %10, !dbg !856

3:                                                ; preds = %1
  %4 = load i32, ptr @current, align 4, !dbg !857, !tbaa !188
  %5 = zext i32 %4 to i64, !dbg !858
  %6 = zext i32 %0 to i64, !dbg !858
  %7 = getelementptr inbounds [4 x [4 x i32]], ptr @fds, i64 0, i64 %5, i64 %6, !dbg !858
  %8 = load i32, ptr %7, align 4, !dbg !858, !tbaa !188
  %9 = add i32 %8, -1, !dbg !859
  br label %10, !dbg !856

10:                                               ; preds = %1, %3
  %11 = phi i32 [ %9, %3 ], [ 3, %1 ], !dbg !856
  call void @llvm.dbg.value(metadata i32 %11, metadata !851, metadata !DIExpression()), !dbg !852
  %12 = icmp ugt i32 %11, 2, !dbg !860
  br i1 %12, label %18, label %13, !dbg !862

13:                                               ; preds = %10
  %14 = zext i32 %11 to i64, !dbg !863
  %15 = getelementptr inbounds [3 x i32], ptr @file_offset, i64 0, i64 %14, !dbg !863
  %16 = load i32, ptr %15, align 4, !dbg !863, !tbaa !188
  %17 = zext i32 %16 to i64, !dbg !863
  br label %18, !dbg !864

18:                                               ; preds = %10, %13
  %19 = phi i64 [ %17, %13 ], [ -1, %10 ], !dbg !852
  ret i64 %19, !dbg !865
}

; Function Attrs: mustprogress nofree norecurse nosync nounwind willreturn memory(read, argmem: none, inaccessiblemem: none)
define dso_local i64 @sys_file_kind(i32 noundef signext %0) local_unnamed_addr #4 !dbg !866 {
  call void @llvm.dbg.value(metadata i32 %0, metadata !868, metadata !DIExpression()), !dbg !870
  call void @llvm.dbg.value(metadata i32 %0, metadata !767, metadata !DIExpression()), !dbg !871
  %2 = icmp ult i32 %0, 4, !dbg !873
  br i1 %2, label %3, label %10, !dbg !874

3:                                                ; preds = %1
  %4 = load i32, ptr @current, align 4, !dbg !875, !tbaa !188
  %5 = zext i32 %4 to i64, !dbg !876
  %6 = zext i32 %0 to i64, !dbg !876
  %7 = getelementptr inbounds [4 x [4 x i32]], ptr @fds, i64 0, i64 %5, i64 %6, !dbg !876
  %8 = load i32, ptr %7, align 4, !dbg !876, !tbaa !188
  %9 = add i32 %8, -1, !dbg !877
  br label %10, !dbg !874

10:                                               ; preds = %1, %3
  %11 = phi i32 [ %9, %3 ], [ 3, %1 ], !dbg !874
  call void @llvm.dbg.value(metadata i32 %11, metadata !869, metadata !DIExpression()), !dbg !870
  %12 = icmp ugt i32 %11, 2, !dbg !878
  br i1 %12, label %18, label %13, !dbg !880

13:                                               ; preds = %10
  %14 = zext i32 %11 to i64, !dbg !881
  %15 = getelementptr inbounds [3 x i32], ptr @file_kind, i64 0, i64 %14, !dbg !881
  %16 = load i32, ptr %15, align 4, !dbg !881, !tbaa !188
  %17 = zext i32 %16 to i64, !dbg !881
  br label %18, !dbg !882

18:                                               ; preds = %10, %13
  %19 = phi i64 [ %17, %13 ], [ -1, %10 ], !dbg !870
  ret i64 %19, !dbg !883
}

; Function Attrs: mustprogress nofree norecurse nosync nounwind willreturn memory(read, argmem: none, inaccessiblemem: none)
define dso_local i64 @sys_file_value(i32 noundef signext %0) local_unnamed_addr #4 !dbg !884 {
  call void @llvm.dbg.value(metadata i32 %0, metadata !886, metadata !DIExpression()), !dbg !888
  call void @llvm.dbg.value(metadata i32 %0, metadata !767, metadata !DIExpression()), !dbg !889
  %2 = icmp ult i32 %0, 4, !dbg !891
  br i1 %2, label %3, label %10, !dbg !892

3:                                                ; preds = %1
  %4 = load i32, ptr @current, align 4, !dbg !893, !tbaa !188
  %5 = zext i32 %4 to i64, !dbg !894
  %6 = zext i32 %0 to i64, !dbg !894
  %7 = getelementptr inbounds [4 x [4 x i32]], ptr @fds, i64 0, i64 %5, i64 %6, !dbg !894
  %8 = load i32, ptr %7, align 4, !dbg !894, !tbaa !188
  %9 = add i32 %8, -1, !dbg !895
  br label %10, !dbg !892

10:                                               ; preds = %1, %3
  %11 = phi i32 [ %9, %3 ], [ 3, %1 ], !dbg !892
  call void @llvm.dbg.value(metadata i32 %11, metadata !887, metadata !DIExpression()), !dbg !888
  %12 = icmp ugt i32 %11, 2, !dbg !896
  br i1 %12, label %18, label %13, !dbg !898

13:                                               ; preds = %10
  %14 = zext i32 %11 to i64, !dbg !899
  %15 = getelementptr inbounds [3 x i32], ptr @file_value, i64 0, i64 %14, !dbg !899
  %16 = load i32, ptr %15, align 4, !dbg !899, !tbaa !188
  %17 = zext i32 %16 to i64, !dbg !899
  br label %18, !dbg !900

18:                                               ; preds = %10, %13
  %19 = phi i64 [ %17, %13 ], [ -1, %10 ], !dbg !888
  ret i64 %19, !dbg !901
}

; Function Attrs: mustprogress nofree norecurse nosync nounwind willreturn memory(readwrite, argmem: none, inaccessiblemem: none)
define dso_local signext i32 @sys_recv(i32 noundef signext %0, i32 noundef signext %1, i32 noundef signext %2, i32 noundef signext %3) local_unnamed_addr #0 !dbg !902 {
  call void @llvm.dbg.value(metadata i32 %0, metadata !904, metadata !DIExpression()), !dbg !908
  call void @llvm.dbg.value(metadata i32 %1, metadata !905, metadata !DIExpression()), !dbg !908
  call void @llvm.dbg.value(metadata i32 %2, metadata !906, metadata !DIExpression()), !dbg !908
  call void @llvm.dbg.value(metadata i32 %3, metadata !907, metadata !DIExpression()), !dbg !908
  %5 = load i32, ptr @current, align 4, !dbg !909, !tbaa !188
  %6 = icmp eq i32 %5, 3, !dbg !911
  %7 = icmp ugt i32 %0, 4
  %8 = or i1 %7, %6, !dbg !912
  br i1 %8, label %24, label %9, !dbg !912

9:                                                ; preds = %4
  call void @llvm.dbg.value(metadata i32 %0, metadata !913, metadata !DIExpression()), !dbg !919
  call void @llvm.dbg.value(metadata i32 %1, metadata !916, metadata !DIExpression()), !dbg !919
  call void @llvm.dbg.value(metadata i32 %2, metadata !917, metadata !DIExpression()), !dbg !919
  call void @llvm.dbg.value(metadata i32 %3, metadata !918, metadata !DIExpression()), !dbg !919
  %10 = zext i32 %5 to i64, !dbg !921
  %11 = getelementptr inbounds [4 x i32], ptr @proc_state, i64 0, i64 %10, !dbg !921
  store i32 3, ptr %11, align 4, !dbg !922, !tbaa !188
  %12 = add i32 %0, 1, !dbg !923
  %13 = getelementptr inbounds [4 x i32], ptr @recv_from, i64 0, i64 %10, !dbg !924
  store i32 %12, ptr %13, align 4, !dbg !925, !tbaa !188
  %14 = getelementptr inbounds [4 x i32], ptr @recv_leaf, i64 0, i64 %10, !dbg !926
  store i32 %1, ptr %14, align 4, !dbg !927, !tbaa !188
  %15 = getelementptr inbounds [4 x i32], ptr @recv_index, i64 0, i64 %10, !dbg !928
  store i32 %2, ptr %15, align 4, !dbg !929, !tbaa !188
  %16 = getelementptr inbounds [4 x i32], ptr @recv_fd, i64 0, i64 %10, !dbg !930
  store i32 %3, ptr %16, align 4, !dbg !931, !tbaa !188
  %17 = getelementptr inbounds [4 x i32], ptr @proc_next, i64 0, i64 %10, !dbg !932
  %18 = load i32, ptr %17, align 4, !dbg !932, !tbaa !188
  %19 = zext i32 %18 to i64, !dbg !934
  %20 = getelementptr inbounds [4 x i32], ptr @proc_state, i64 0, i64 %19, !dbg !934
  %21 = load i32, ptr %20, align 4, !dbg !934, !tbaa !188
  %22 = icmp eq i32 %21, 2, !dbg !935
  %23 = select i1 %22, i32 %18, i32 3, !dbg !934
  store i32 %23, ptr @current, align 4, !dbg !936, !tbaa !188
  br label %24, !dbg !937

24:                                               ; preds = %4, %9
  %25 = phi i32 [ 0, %9 ], [ -1, %4 ], !dbg !908
  ret i32 %25, !dbg !938
}

; Function Attrs: mustprogress nofree norecurse nosync nounwind willreturn memory(readwrite, argmem: none, inaccessiblemem: none)
define dso_local signext i32 @sys_send(i32 noundef signext %0, i32 noundef signext %1) local_unnamed_addr #0 !dbg !939 {
  call void @llvm.dbg.value(metadata i32 %0, metadata !941, metadata !DIExpression()), !dbg !943
  call void @llvm.dbg.value(metadata i32 %1, metadata !942, metadata !DIExpression()), !dbg !943
  call void @llvm.dbg.value(metadata i32 %0, metadata !944, metadata !DIExpression()), !dbg !947
  %3 = icmp ult i32 %0, 4, !dbg !950
  br i1 %3, label %4, label %24, !dbg !951

4:                                                ; preds = %2
  %5 = zext i32 %0 to i64, !dbg !952
  %6 = getelementptr inbounds [4 x i32], ptr @proc_state, i64 0, i64 %5, !dbg !952
  %7 = load i32, ptr %6, align 4, !dbg !952, !tbaa !188
  %8 = icmp eq i32 %7, 3, !dbg !953
  br i1 %8, label %9, label %24, !dbg !954

9:                                                ; preds = %4
  %10 = getelementptr inbounds [4 x i32], ptr @recv_from, i64 0, i64 %5, !dbg !955
  %11 = load i32, ptr %10, align 4, !dbg !955, !tbaa !188
  %12 = load i32, ptr @current, align 4, !dbg !956, !tbaa !188
  %13 = add i32 %12, 1, !dbg !957
  %14 = icmp ne i32 %11, %13, !dbg !958
  %15 = icmp ne i32 %11, 5
  %16 = and i1 %14, %15, !dbg !959
  br i1 %16, label %24, label %17, !dbg !960

17:                                               ; preds = %9
  call void @llvm.dbg.value(metadata i32 %0, metadata !961, metadata !DIExpression()), !dbg !965
  call void @llvm.dbg.value(metadata i32 %1, metadata !964, metadata !DIExpression()), !dbg !965
  %18 = zext i32 %0 to i64, !dbg !967
  %19 = getelementptr inbounds [4 x i32], ptr @proc_state, i64 0, i64 %18, !dbg !967
  store i32 2, ptr %19, align 4, !dbg !968, !tbaa !188
  %20 = getelementptr inbounds [4 x i32], ptr @recv_from, i64 0, i64 %18, !dbg !969
  store i32 0, ptr %20, align 4, !dbg !970, !tbaa !188
  %21 = load i32, ptr @current, align 4, !dbg !971, !tbaa !188
  %22 = getelementptr inbounds [4 x i32], ptr @msg_from, i64 0, i64 %18, !dbg !972
  store i32 %21, ptr %22, align 4, !dbg !973, !tbaa !188
  %23 = getelementptr inbounds [4 x i32], ptr @msg_value, i64 0, i64 %18, !dbg !974
  store i32 %1, ptr %23, align 4, !dbg !975, !tbaa !188
  br label %24, !dbg !976

24:                                               ; preds = %4, %2, %9, %17
  %25 = phi i32 [ 0, %17 ], [ -1, %9 ], [ -1, %2 ], [ -1, %4 ], !dbg !943
  ret i32 %25, !dbg !977
}

; Function Attrs: mustprogress nofree norecurse nosync nounwind willreturn memory(readwrite, argmem: none, inaccessiblemem: none)
define dso_local signext i32 @sys_send_page(i32 noundef signext %0, i32 noundef signext %1, i32 noundef signext %2) local_unnamed_addr #0 !dbg !978 {
  call void @llvm.dbg.value(metadata i32 %0, metadata !980, metadata !DIExpression()), !dbg !985
  call void @llvm.dbg.value(metadata i32 %1, metadata !981, metadata !DIExpression()), !dbg !985
  call void @llvm.dbg.value(metadata i32 %2, metadata !982, metadata !DIExpression()), !dbg !985
  call void @llvm.dbg.value(metadata i32 %0, metadata !944, metadata !DIExpression()), !dbg !986
  %4 = icmp ult i32 %0, 4, !dbg !989
  br i1 %4, label %5, label %88, !dbg !990

5:                                                ; preds = %3
  %6 = zext i32 %0 to i64, !dbg !991
  %7 = getelementptr inbounds [4 x i32], ptr @proc_state, i64 0, i64 %6, !dbg !991
  %8 = load i32, ptr %7, align 4, !dbg !991, !tbaa !188
  %9 = icmp eq i32 %8, 3, !dbg !992
  br i1 %9, label %10, label %88, !dbg !993

10:                                               ; preds = %5
  %11 = getelementptr inbounds [4 x i32], ptr @recv_from, i64 0, i64 %6, !dbg !994
  %12 = load i32, ptr %11, align 4, !dbg !994, !tbaa !188
  %13 = load i32, ptr @current, align 4, !dbg !995, !tbaa !188
  %14 = add i32 %13, 1, !dbg !996
  %15 = icmp ne i32 %12, %14, !dbg !997
  %16 = icmp ne i32 %12, 5
  %17 = and i1 %15, %16, !dbg !998
  br i1 %17, label %88, label %18, !dbg !999

18:                                               ; preds = %10
  call void @llvm.dbg.value(metadata i32 %2, metadata !1000, metadata !DIExpression()), !dbg !1003
  %19 = icmp ult i32 %2, 6, !dbg !1005
  br i1 %19, label %20, label %37, !dbg !1006

20:                                               ; preds = %18
  %21 = zext i32 %2 to i64, !dbg !1007
  %22 = getelementptr inbounds [6 x i32], ptr @frame_parent, i64 0, i64 %21, !dbg !1007
  %23 = load i32, ptr %22, align 4, !dbg !1007, !tbaa !188
  %24 = add i32 %23, -1, !dbg !1008
  call void @llvm.dbg.value(metadata i32 %24, metadata !1009, metadata !DIExpression()), !dbg !1012
  %25 = icmp ult i32 %24, 4, !dbg !1014
  br i1 %25, label %26, label %37, !dbg !1015

26:                                               ; preds = %20
  %27 = zext i32 %24 to i64, !dbg !1016
  %28 = getelementptr inbounds [4 x i32], ptr @leaf_parent, i64 0, i64 %27, !dbg !1016
  %29 = load i32, ptr %28, align 4, !dbg !1016, !tbaa !188
  %30 = add i32 %29, -1, !dbg !1017
  call void @llvm.dbg.value(metadata i32 %30, metadata !1018, metadata !DIExpression()), !dbg !1021
  %31 = icmp ult i32 %30, 4, !dbg !1023
  br i1 %31, label %32, label %37, !dbg !1024

32:                                               ; preds = %26
  %33 = zext i32 %30 to i64, !dbg !1025
  %34 = getelementptr inbounds [4 x i32], ptr @middle_parent, i64 0, i64 %33, !dbg !1025
  %35 = load i32, ptr %34, align 4, !dbg !1025, !tbaa !188
  %36 = add i32 %35, -1, !dbg !1026
  br label %37, !dbg !1024

37:                                               ; preds = %18, %20, %26, %32
  %38 = phi i32 [ 4, %18 ], [ 4, %20 ], [ %36, %32 ], [ 4, %26 ], !dbg !1006
  %39 = load i32, ptr @current, align 4, !dbg !1027, !tbaa !188
  %40 = icmp eq i32 %38, %39, !dbg !1028
  br i1 %40, label %41, label %88, !dbg !1029

41:                                               ; preds = %37
  %42 = zext i32 %0 to i64, !dbg !1030
  %43 = getelementptr inbounds [4 x i32], ptr @recv_leaf, i64 0, i64 %42, !dbg !1030
  %44 = load i32, ptr %43, align 4, !dbg !1030, !tbaa !188
  call void @llvm.dbg.value(metadata i32 %44, metadata !983, metadata !DIExpression()), !dbg !985
  %45 = getelementptr inbounds [4 x i32], ptr @recv_index, i64 0, i64 %42, !dbg !1031
  %46 = load i32, ptr %45, align 4, !dbg !1031, !tbaa !188
  call void @llvm.dbg.value(metadata i32 %46, metadata !984, metadata !DIExpression()), !dbg !985
  call void @llvm.dbg.value(metadata i32 %44, metadata !1009, metadata !DIExpression()), !dbg !1032
  %47 = icmp ult i32 %44, 4, !dbg !1035
  br i1 %47, label %48, label %59, !dbg !1036

48:                                               ; preds = %41
  %49 = zext i32 %44 to i64, !dbg !1037
  %50 = getelementptr inbounds [4 x i32], ptr @leaf_parent, i64 0, i64 %49, !dbg !1037
  %51 = load i32, ptr %50, align 4, !dbg !1037, !tbaa !188
  %52 = add i32 %51, -1, !dbg !1038
  call void @llvm.dbg.value(metadata i32 %52, metadata !1018, metadata !DIExpression()), !dbg !1039
  %53 = icmp ult i32 %52, 4, !dbg !1041
  br i1 %53, label %54, label %59, !dbg !1042

54:                                               ; preds = %48
  %55 = zext i32 %52 to i64, !dbg !1043
  %56 = getelementptr inbounds [4 x i32], ptr @middle_parent, i64 0, i64 %55, !dbg !1043
  %57 = load i32, ptr %56, align 4, !dbg !1043, !tbaa !188
  %58 = add i32 %57, -1, !dbg !1044
  br label %59, !dbg !1042

59:                                               ; preds = %41, %48, %54
  %60 = phi i32 [ 4, %41 ], [ %58, %54 ], [ 4, %48 ], !dbg !1036
  %61 = icmp ne i32 %60, %0, !dbg !1045
  %62 = icmp ugt i32 %46, 7
  %63 = select i1 %61, i1 true, i1 %62, !dbg !1046
  br i1 %63, label %88, label %64, !dbg !1046

64:                                               ; preds = %59
  %65 = zext i32 %44 to i64, !dbg !1047
  %66 = getelementptr inbounds [4 x %struct.leaf], ptr @leaves, i64 0, i64 %65, !dbg !1047
  %67 = zext i32 %46 to i64, !dbg !1047
  %68 = getelementptr inbounds [8 x i64], ptr %66, i64 0, i64 %67, !dbg !1047
  %69 = load i64, ptr %68, align 8, !dbg !1047, !tbaa !399
  %70 = icmp eq i64 %69, 0, !dbg !1048
  br i1 %70, label %71, label %88, !dbg !1049

71:                                               ; preds = %64
  call void @llvm.dbg.value(metadata i32 %2, metadata !1050, metadata !DIExpression()), !dbg !1059
  call void @llvm.dbg.value(metadata i32 %44, metadata !1055, metadata !DIExpression()), !dbg !1059
  call void @llvm.dbg.value(metadata i32 %46, metadata !1056, metadata !DIExpression()), !dbg !1059
  %72 = zext i32 %2 to i64, !dbg !1061
  %73 = getelementptr inbounds [6 x i32], ptr @frame_parent, i64 0, i64 %72, !dbg !1061
  %74 = load i32, ptr %73, align 4, !dbg !1061, !tbaa !188
  %75 = add i32 %74, -1, !dbg !1062
  call void @llvm.dbg.value(metadata i32 %75, metadata !1057, metadata !DIExpression()), !dbg !1059
  %76 = getelementptr inbounds [6 x i32], ptr @frame_index, i64 0, i64 %72, !dbg !1063
  %77 = load i32, ptr %76, align 4, !dbg !1063, !tbaa !188
  call void @llvm.dbg.value(metadata i32 %77, metadata !1058, metadata !DIExpression()), !dbg !1059
  %78 = zext i32 %75 to i64, !dbg !1064
  %79 = getelementptr inbounds [4 x %struct.leaf], ptr @leaves, i64 0, i64 %78, !dbg !1064
  %80 = zext i32 %77 to i64, !dbg !1064
  %81 = getelementptr inbounds [8 x i64], ptr %79, i64 0, i64 %80, !dbg !1064
  %82 = load i64, ptr %81, align 8, !dbg !1064, !tbaa !399
  store i64 %82, ptr %68, align 8, !dbg !1065, !tbaa !399
  store i64 0, ptr %81, align 8, !dbg !1066, !tbaa !399
  %83 = add i32 %44, 1, !dbg !1067
  store i32 %83, ptr %73, align 4, !dbg !1068, !tbaa !188
  store i32 %46, ptr %76, align 4, !dbg !1069, !tbaa !188
  call void @llvm.dbg.value(metadata i32 %0, metadata !961, metadata !DIExpression()), !dbg !1070
  call void @llvm.dbg.value(metadata i32 %1, metadata !964, metadata !DIExpression()), !dbg !1070
  %84 = getelementptr inbounds [4 x i32], ptr @proc_state, i64 0, i64 %42, !dbg !1072
  store i32 2, ptr %84, align 4, !dbg !1073, !tbaa !188
  %85 = getelementptr inbounds [4 x i32], ptr @recv_from, i64 0, i64 %42, !dbg !1074
  store i32 0, ptr %85, align 4, !dbg !1075, !tbaa !188
  %86 = getelementptr inbounds [4 x i32], ptr @msg_from, i64 0, i64 %42, !dbg !1076
  store i32 %39, ptr %86, align 4, !dbg !1077, !tbaa !188
  %87 = getelementptr inbounds [4 x i32], ptr @msg_value, i64 0, i64 %42, !dbg !1078
  store i32 %1, ptr %87, align 4, !dbg !1079, !tbaa !188
  br label %88, !dbg !1080

88:                                               ; preds = %5, %3, %71, %64, %59, %10, %37
  %89 = phi i32 [ -1, %37 ], [ -1, %10 ], [ 0, %71 ], [ -1, %64 ], [ -1, %59 ], [ -1, %3 ], [ -1, %5 ], !dbg !985
  ret i32 %89, !dbg !1081
}

; Function Attrs: mustprogress nofree norecurse nosync nounwind willreturn memory(readwrite, argmem: none, inaccessiblemem: none)
define dso_local signext i32 @sys_send_file(i32 noundef signext %0, i32 noundef signext %1, i32 noundef signext %2) local_unnamed_addr #0 !dbg !1082 {
  call void @llvm.dbg.value(metadata i32 %0, metadata !1084, metadata !DIExpression()), !dbg !1087
  call void @llvm.dbg.value(metadata i32 %1, metadata !1085, metadata !DIExpression()), !dbg !1087
  call void @llvm.dbg.value(metadata i32 %2, metadata !1086, metadata !DIExpression()), !dbg !1087
  call void @llvm.dbg.value(metadata i32 %0, metadata !944, metadata !DIExpression()), !dbg !1088
  %4 = icmp ult i32 %0, 4, !dbg !1091
  br i1 %4, label %5, label %53, !dbg !1092

5:                                                ; preds = %3
  %6 = zext i32 %0 to i64, !dbg !1093
  %7 = getelementptr inbounds [4 x i32], ptr @proc_state, i64 0, i64 %6, !dbg !1093
  %8 = load i32, ptr %7, align 4, !dbg !1093, !tbaa !188
  %9 = icmp eq i32 %8, 3, !dbg !1094
  br i1 %9, label %10, label %53, !dbg !1095

10:                                               ; preds = %5
  %11 = getelementptr inbounds [4 x i32], ptr @recv_from, i64 0, i64 %6, !dbg !1096
  %12 = load i32, ptr %11, align 4, !dbg !1096, !tbaa !188
  %13 = load i32, ptr @current, align 4, !dbg !1097, !tbaa !188
  %14 = add i32 %13, 1, !dbg !1098
  %15 = icmp ne i32 %12, %14, !dbg !1099
  %16 = icmp ne i32 %12, 5
  %17 = and i1 %15, %16, !dbg !1100
  br i1 %17, label %53, label %18, !dbg !1101

18:                                               ; preds = %10
  %19 = load i32, ptr @current, align 4, !dbg !1102, !tbaa !188
  %20 = icmp eq i32 %19, %0, !dbg !1103
  %21 = icmp ugt i32 %2, 3
  %22 = or i1 %21, %20, !dbg !1104
  br i1 %22, label %53, label %23, !dbg !1104

23:                                               ; preds = %18
  %24 = zext i32 %19 to i64, !dbg !1105
  %25 = zext i32 %2 to i64, !dbg !1105
  %26 = getelementptr inbounds [4 x [4 x i32]], ptr @fds, i64 0, i64 %24, i64 %25, !dbg !1105
  %27 = load i32, ptr %26, align 4, !dbg !1105, !tbaa !188
  %28 = icmp eq i32 %27, 0, !dbg !1106
  br i1 %28, label %53, label %29, !dbg !1107

29:                                               ; preds = %23
  %30 = add i32 %27, -1, !dbg !1108
  %31 = zext i32 %30 to i64, !dbg !1110
  %32 = getelementptr inbounds [3 x i32], ptr @file_fds, i64 0, i64 %31, !dbg !1110
  %33 = load i32, ptr %32, align 4, !dbg !1110, !tbaa !188
  %34 = shl nuw i32 1, %2, !dbg !1111
  %35 = icmp eq i32 %33, %34, !dbg !1112
  br i1 %35, label %36, label %53, !dbg !1113

36:                                               ; preds = %29
  %37 = zext i32 %0 to i64, !dbg !1114
  %38 = getelementptr inbounds [4 x i32], ptr @recv_fd, i64 0, i64 %37, !dbg !1114
  %39 = load i32, ptr %38, align 4, !dbg !1114, !tbaa !188
  %40 = icmp ugt i32 %39, 3, !dbg !1116
  br i1 %40, label %53, label %41, !dbg !1117

41:                                               ; preds = %36
  %42 = zext i32 %39 to i64, !dbg !1118
  %43 = getelementptr inbounds [4 x [4 x i32]], ptr @fds, i64 0, i64 %37, i64 %42, !dbg !1118
  %44 = load i32, ptr %43, align 4, !dbg !1118, !tbaa !188
  %45 = icmp eq i32 %44, 0, !dbg !1119
  br i1 %45, label %46, label %53, !dbg !1120

46:                                               ; preds = %41
  %47 = getelementptr inbounds [3 x i32], ptr @file_owner, i64 0, i64 %31, !dbg !1121
  store i32 %0, ptr %47, align 4, !dbg !1122, !tbaa !188
  %48 = shl nuw i32 1, %39, !dbg !1123
  store i32 %48, ptr %32, align 4, !dbg !1124, !tbaa !188
  store i32 %27, ptr %43, align 4, !dbg !1125, !tbaa !188
  store i32 0, ptr %26, align 4, !dbg !1126, !tbaa !188
  call void @llvm.dbg.value(metadata i32 %0, metadata !961, metadata !DIExpression()), !dbg !1127
  call void @llvm.dbg.value(metadata i32 %1, metadata !964, metadata !DIExpression()), !dbg !1127
  %49 = getelementptr inbounds [4 x i32], ptr @proc_state, i64 0, i64 %37, !dbg !1129
  store i32 2, ptr %49, align 4, !dbg !1130, !tbaa !188
  %50 = getelementptr inbounds [4 x i32], ptr @recv_from, i64 0, i64 %37, !dbg !1131
  store i32 0, ptr %50, align 4, !dbg !1132, !tbaa !188
  %51 = getelementptr inbounds [4 x i32], ptr @msg_from, i64 0, i64 %37, !dbg !1133
  store i32 %19, ptr %51, align 4, !dbg !1134, !tbaa !188
  %52 = getelementptr inbounds [4 x i32], ptr @msg_value, i64 0, i64 %37, !dbg !1135
  store i32 %1, ptr %52, align 4, !dbg !1136, !tbaa !188
  br label %53, !dbg !1137

53:                                               ; preds = %5, %3, %36, %41, %29, %10, %18, %23, %46
  %54 = phi i32 [ 0, %46 ], [ -1, %23 ], [ -1, %18 ], [ -1, %10 ], [ -1, %29 ], [ -1, %41 ], [ -1, %36 ], [ -1, %3 ], [ -1, %5 ], !dbg !1087
  ret i32 %54, !dbg !1138
}

; Function Attrs: mustprogress nofree norecurse nosync nounwind willreturn memory(readwrite, argmem: none, inaccessiblemem: none)
define dso_local signext i32 @sys_call(i32 noundef signext %0, i32 noundef signext %1) local_unnamed_addr #0 !dbg !1139 {
  call void @llvm.dbg.value(metadata i32 %0, metadata !1141, metadata !DIExpression()), !dbg !1143
  call void @llvm.dbg.value(metadata i32 %1, metadata !1142, metadata !DIExpression()), !dbg !1143
  %3 = load i32, ptr @current, align 4, !dbg !1144, !tbaa !188
  %4 = icmp ne i32 %3, 3, !dbg !1146
  %5 = icmp ne i32 %3, %0
  %6 = and i1 %4, %5, !dbg !1147
  %7 = icmp ult i32 %0, 4
  %8 = and i1 %7, %6, !dbg !1147
  call void @llvm.dbg.value(metadata i32 %0, metadata !944, metadata !DIExpression()), !dbg !1148
  br i1 %8, label %9, label %34, !dbg !1147

9:                                                ; preds = %2
  %10 = zext i32 %0 to i64, !dbg !1150
  %11 = getelementptr inbounds [4 x i32], ptr @proc_state, i64 0, i64 %10, !dbg !1150
  %12 = load i32, ptr %11, align 4, !dbg !1150, !tbaa !188
  %13 = icmp eq i32 %12, 3, !dbg !1151
  br i1 %13, label %14, label %34, !dbg !1152

14:                                               ; preds = %9
  %15 = getelementptr inbounds [4 x i32], ptr @recv_from, i64 0, i64 %10, !dbg !1153
  %16 = load i32, ptr %15, align 4, !dbg !1153, !tbaa !188
  %17 = add i32 %3, 1, !dbg !1154
  %18 = icmp ne i32 %16, %17, !dbg !1155
  %19 = icmp ne i32 %16, 5
  %20 = and i1 %18, %19, !dbg !1156
  br i1 %20, label %34, label %21, !dbg !1157

21:                                               ; preds = %14
  call void @llvm.dbg.value(metadata i32 %0, metadata !961, metadata !DIExpression()), !dbg !1158
  call void @llvm.dbg.value(metadata i32 %1, metadata !964, metadata !DIExpression()), !dbg !1158
  %22 = zext i32 %0 to i64, !dbg !1160
  %23 = getelementptr inbounds [4 x i32], ptr @proc_state, i64 0, i64 %22, !dbg !1160
  store i32 2, ptr %23, align 4, !dbg !1161, !tbaa !188
  %24 = getelementptr inbounds [4 x i32], ptr @recv_from, i64 0, i64 %22, !dbg !1162
  store i32 0, ptr %24, align 4, !dbg !1163, !tbaa !188
  %25 = getelementptr inbounds [4 x i32], ptr @msg_from, i64 0, i64 %22, !dbg !1164
  store i32 %3, ptr %25, align 4, !dbg !1165, !tbaa !188
  %26 = getelementptr inbounds [4 x i32], ptr @msg_value, i64 0, i64 %22, !dbg !1166
  store i32 %1, ptr %26, align 4, !dbg !1167, !tbaa !188
  call void @llvm.dbg.value(metadata i32 %0, metadata !913, metadata !DIExpression()), !dbg !1168
  call void @llvm.dbg.value(metadata i32 4, metadata !916, metadata !DIExpression()), !dbg !1168
  call void @llvm.dbg.value(metadata i32 0, metadata !917, metadata !DIExpression()), !dbg !1168
  call void @llvm.dbg.value(metadata i32 4, metadata !918, metadata !DIExpression()), !dbg !1168
  %27 = zext i32 %3 to i64, !dbg !1170
  %28 = getelementptr inbounds [4 x i32], ptr @proc_state, i64 0, i64 %27, !dbg !1170
  store i32 3, ptr %28, align 4, !dbg !1171, !tbaa !188
  %29 = add i32 %0, 1, !dbg !1172
  %30 = getelementptr inbounds [4 x i32], ptr @recv_from, i64 0, i64 %27, !dbg !1173
  store i32 %29, ptr %30, align 4, !dbg !1174, !tbaa !188
  %31 = getelementptr inbounds [4 x i32], ptr @recv_leaf, i64 0, i64 %27, !dbg !1175
  store i32 4, ptr %31, align 4, !dbg !1176, !tbaa !188
  %32 = getelementptr inbounds [4 x i32], ptr @recv_index, i64 0, i64 %27, !dbg !1177
  store i32 0, ptr %32, align 4, !dbg !1178, !tbaa !188
  %33 = getelementptr inbounds [4 x i32], ptr @recv_fd, i64 0, i64 %27, !dbg !1179
  store i32 4, ptr %33, align 4, !dbg !1180, !tbaa !188
  store i32 %0, ptr @current, align 4, !dbg !1181, !tbaa !188
  br label %34, !dbg !1182

34:                                               ; preds = %9, %2, %14, %21
  %35 = phi i32 [ 0, %21 ], [ -1, %14 ], [ -1, %2 ], [ -1, %9 ], !dbg !1143
  ret i32 %35, !dbg !1183
}

; Function Attrs: mustprogress nofree norecurse nosync nounwind willreturn memory(readwrite, argmem: none, inaccessiblemem: none)
define dso_local signext i32 @sys_reply_wait(i32 noundef signext %0, i32 noundef signext %1) local_unnamed_addr #0 !dbg !1184 {
  call void @llvm.dbg.value(metadata i32 %0, metadata !1186, metadata !DIExpression()), !dbg !1188
  call void @llvm.dbg.value(metadata i32 %1, metadata !1187, metadata !DIExpression()), !dbg !1188
  %3 = load i32, ptr @current, align 4, !dbg !1189, !tbaa !188
  %4 = icmp ne i32 %3, 3, !dbg !1191
  %5 = icmp ne i32 %3, %0
  %6 = and i1 %4, %5, !dbg !1192
  %7 = icmp ult i32 %0, 4
  %8 = and i1 %7, %6, !dbg !1192
  call void @llvm.dbg.value(metadata i32 %0, metadata !944, metadata !DIExpression()), !dbg !1193
  br i1 %8, label %9, label %33, !dbg !1192

9:                                                ; preds = %2
  %10 = zext i32 %0 to i64, !dbg !1195
  %11 = getelementptr inbounds [4 x i32], ptr @proc_state, i64 0, i64 %10, !dbg !1195
  %12 = load i32, ptr %11, align 4, !dbg !1195, !tbaa !188
  %13 = icmp eq i32 %12, 3, !dbg !1196
  br i1 %13, label %14, label %33, !dbg !1197

14:                                               ; preds = %9
  %15 = getelementptr inbounds [4 x i32], ptr @recv_from, i64 0, i64 %10, !dbg !1198
  %16 = load i32, ptr %15, align 4, !dbg !1198, !tbaa !188
  %17 = add i32 %3, 1, !dbg !1199
  %18 = icmp ne i32 %16, %17, !dbg !1200
  %19 = icmp ne i32 %16, 5
  %20 = and i1 %18, %19, !dbg !1201
  br i1 %20, label %33, label %21, !dbg !1202

21:                                               ; preds = %14
  call void @llvm.dbg.value(metadata i32 %0, metadata !961, metadata !DIExpression()), !dbg !1203
  call void @llvm.dbg.value(metadata i32 %1, metadata !964, metadata !DIExpression()), !dbg !1203
  %22 = zext i32 %0 to i64, !dbg !1205
  %23 = getelementptr inbounds [4 x i32], ptr @proc_state, i64 0, i64 %22, !dbg !1205
  store i32 2, ptr %23, align 4, !dbg !1206, !tbaa !188
  %24 = getelementptr inbounds [4 x i32], ptr @recv_from, i64 0, i64 %22, !dbg !1207
  store i32 0, ptr %24, align 4, !dbg !1208, !tbaa !188
  %25 = getelementptr inbounds [4 x i32], ptr @msg_from, i64 0, i64 %22, !dbg !1209
  store i32 %3, ptr %25, align 4, !dbg !1210, !tbaa !188
  %26 = getelementptr inbounds [4 x i32], ptr @msg_value, i64 0, i64 %22, !dbg !1211
  store i32 %1, ptr %26, align 4, !dbg !1212, !tbaa !188
  call void @llvm.dbg.value(metadata i32 4, metadata !913, metadata !DIExpression()), !dbg !1213
  call void @llvm.dbg.value(metadata i32 4, metadata !916, metadata !DIExpression()), !dbg !1213
  call void @llvm.dbg.value(metadata i32 0, metadata !917, metadata !DIExpression()), !dbg !1213
  call void @llvm.dbg.value(metadata i32 4, metadata !918, metadata !DIExpression()), !dbg !1213
  %27 = zext i32 %3 to i64, !dbg !1215
  %28 = getelementptr inbounds [4 x i32], ptr @proc_state, i64 0, i64 %27, !dbg !1215
  store i32 3, ptr %28, align 4, !dbg !1216, !tbaa !188
  %29 = getelementptr inbounds [4 x i32], ptr @recv_from, i64 0, i64 %27, !dbg !1217
  store i32 5, ptr %29, align 4, !dbg !1218, !tbaa !188
  %30 = getelementptr inbounds [4 x i32], ptr @recv_leaf, i64 0, i64 %27, !dbg !1219
  store i32 4, ptr %30, align 4, !dbg !1220, !tbaa !188
  %31 = getelementptr inbounds [4 x i32], ptr @recv_index, i64 0, i64 %27, !dbg !1221
  store i32 0, ptr %31, align 4, !dbg !1222, !tbaa !188
  %32 = getelementptr inbounds [4 x i32], ptr @recv_fd, i64 0, i64 %27, !dbg !1223
  store i32 4, ptr %32, align 4, !dbg !1224, !tbaa !188
  store i32 %0, ptr @current, align 4, !dbg !1225, !tbaa !188
  br label %33, !dbg !1226

33:                                               ; preds = %9, %2, %14, %21
  %34 = phi i32 [ 0, %21 ], [ -1, %14 ], [ -1, %2 ], [ -1, %9 ], !dbg !1188
  ret i32 %34, !dbg !1227
}

; Function Attrs: mustprogress nofree norecurse nosync nounwind willreturn memory(read, argmem: none, inaccessiblemem: none)
define dso_local i64 @sys_message_value() local_unnamed_addr #4 !dbg !1228 {
  %1 = load i32, ptr @current, align 4, !dbg !1231, !tbaa !188
  %2 = zext i32 %1 to i64, !dbg !1232
  %3 = getelementptr inbounds [4 x i32], ptr @msg_value, i64 0, i64 %2, !dbg !1232
  %4 = load i32, ptr %3, align 4, !dbg !1232, !tbaa !188
  %5 = zext i32 %4 to i64, !dbg !1232
  ret i64 %5, !dbg !1233
}

; Function Attrs: mustprogress nofree norecurse nosync nounwind willreturn memory(read, argmem: none, inaccessiblemem: none)
define dso_local i64 @sys_message_from() local_unnamed_addr #4 !dbg !1234 {
  %1 = load i32, ptr @current, align 4, !dbg !1235, !tbaa !188
  %2 = zext i32 %1 to i64, !dbg !1236
  %3 = getelementptr inbounds [4 x i32], ptr @msg_from, i64 0, i64 %2, !dbg !1236
  %4 = load i32, ptr %3, align 4, !dbg !1236, !tbaa !188
  %5 = zext i32 %4 to i64, !dbg !1236
  ret i64 %5, !dbg !1237
}

; Function Attrs: mustprogress nofree norecurse nosync nounwind willreturn memory(readwrite, argmem: none, inaccessiblemem: none)
define dso_local signext i32 @sys_alloc_middle(i32 noundef signext %0, i32 noundef signext %1, i32 noundef signext %2) local_unnamed_addr #0 !dbg !1238 {
  call void @llvm.dbg.value(metadata i32 %0, metadata !1240, metadata !DIExpression()), !dbg !1243
  call void @llvm.dbg.value(metadata i32 %1, metadata !1241, metadata !DIExpression()), !dbg !1243
  call void @llvm.dbg.value(metadata i32 %2, metadata !1242, metadata !DIExpression()), !dbg !1243
  call void @llvm.dbg.value(metadata i32 %0, metadata !211, metadata !DIExpression()), !dbg !1244
  %4 = load i32, ptr @current, align 4, !dbg !1247, !tbaa !188
  %5 = icmp eq i32 %4, %0, !dbg !1248
  br i1 %5, label %17, label %6, !dbg !1249

6:                                                ; preds = %3
  call void @llvm.dbg.value(metadata i32 %0, metadata !222, metadata !DIExpression()), !dbg !1250
  call void @llvm.dbg.value(metadata i32 1, metadata !227, metadata !DIExpression()), !dbg !1250
  %7 = icmp ult i32 %0, 4, !dbg !1252
  br i1 %7, label %8, label %17, !dbg !1253

8:                                                ; preds = %6
  %9 = zext i32 %0 to i64, !dbg !1254
  %10 = getelementptr inbounds [4 x i32], ptr @proc_state, i64 0, i64 %9, !dbg !1254
  %11 = load i32, ptr %10, align 4, !dbg !1254, !tbaa !188
  %12 = icmp eq i32 %11, 1, !dbg !1255
  br i1 %12, label %13, label %17, !dbg !1256

13:                                               ; preds = %8
  %14 = getelementptr inbounds [4 x i32], ptr @proc_parent, i64 0, i64 %9, !dbg !1257
  %15 = load i32, ptr %14, align 4, !dbg !1257, !tbaa !188
  %16 = icmp ne i32 %15, %4, !dbg !1258
  br label %17

17:                                               ; preds = %3, %6, %8, %13
  %18 = phi i1 [ false, %3 ], [ true, %8 ], [ true, %6 ], [ %16, %13 ]
  %19 = icmp ugt i32 %1, 1
  %20 = or i1 %19, %18, !dbg !1259
  br i1 %20, label %40, label %21, !dbg !1259

21:                                               ; preds = %17
  %22 = zext i32 %0 to i64, !dbg !1260
  %23 = getelementptr inbounds [4 x %struct.root], ptr @roots, i64 0, i64 %22, !dbg !1260
  %24 = zext i32 %1 to i64, !dbg !1260
  %25 = getelementptr inbounds [2 x i64], ptr %23, i64 0, i64 %24, !dbg !1260
  %26 = load i64, ptr %25, align 8, !dbg !1260, !tbaa !399
  %27 = icmp ne i64 %26, 0, !dbg !1261
  %28 = icmp ugt i32 %2, 3
  %29 = or i1 %28, %27, !dbg !1262
  br i1 %29, label %40, label %30, !dbg !1262

30:                                               ; preds = %21
  %31 = zext i32 %2 to i64, !dbg !1263
  %32 = getelementptr inbounds [4 x i32], ptr @middle_parent, i64 0, i64 %31, !dbg !1263
  %33 = load i32, ptr %32, align 4, !dbg !1263, !tbaa !188
  %34 = icmp eq i32 %33, 0, !dbg !1265
  br i1 %34, label %35, label %40, !dbg !1266

35:                                               ; preds = %30
  %36 = shl nuw nsw i64 %31, 10, !dbg !1267
  %37 = add nuw nsw i64 %36, 537137153, !dbg !1267
  store i64 %37, ptr %25, align 8, !dbg !1268, !tbaa !399
  %38 = add i32 %0, 1, !dbg !1269
  store i32 %38, ptr %32, align 4, !dbg !1270, !tbaa !188
  %39 = getelementptr inbounds [4 x i32], ptr @middle_index, i64 0, i64 %31, !dbg !1271
  store i32 %1, ptr %39, align 4, !dbg !1272, !tbaa !188
  br label %40, !dbg !1273

40:                                               ; preds = %30, %17, %21, %35
  %41 = phi i32 [ 0, %35 ], [ -1, %21 ], [ -1, %17 ], [ -1, %30 ], !dbg !1243
  ret i32 %41, !dbg !1274
}

; Function Attrs: mustprogress nofree norecurse nosync nounwind willreturn memory(readwrite, argmem: none, inaccessiblemem: none)
define dso_local signext i32 @sys_alloc_leaf(i32 noundef signext %0, i32 noundef signext %1, i32 noundef signext %2) local_unnamed_addr #0 !dbg !1275 {
  call void @llvm.dbg.value(metadata i32 %0, metadata !1277, metadata !DIExpression()), !dbg !1280
  call void @llvm.dbg.value(metadata i32 %1, metadata !1278, metadata !DIExpression()), !dbg !1280
  call void @llvm.dbg.value(metadata i32 %2, metadata !1279, metadata !DIExpression()), !dbg !1280
  call void @llvm.dbg.value(metadata i32 %0, metadata !1018, metadata !DIExpression()), !dbg !1281
  %4 = icmp ult i32 %0, 4, !dbg !1284
  br i1 %4, label %5, label %10, !dbg !1285

5:                                                ; preds = %3
  %6 = zext i32 %0 to i64, !dbg !1286
  %7 = getelementptr inbounds [4 x i32], ptr @middle_parent, i64 0, i64 %6, !dbg !1286
  %8 = load i32, ptr %7, align 4, !dbg !1286, !tbaa !188
  %9 = add i32 %8, -1, !dbg !1287
  br label %10, !dbg !1285

10:                                               ; preds = %3, %5
  %11 = phi i32 [ %9, %5 ], [ 4, %3 ], !dbg !1285
  call void @llvm.dbg.value(metadata i32 %11, metadata !211, metadata !DIExpression()), !dbg !1288
  %12 = load i32, ptr @current, align 4, !dbg !1290, !tbaa !188
  %13 = icmp eq i32 %12, %11, !dbg !1291
  br i1 %13, label %25, label %14, !dbg !1292

14:                                               ; preds = %10
  call void @llvm.dbg.value(metadata i32 %11, metadata !222, metadata !DIExpression()), !dbg !1293
  call void @llvm.dbg.value(metadata i32 1, metadata !227, metadata !DIExpression()), !dbg !1293
  %15 = icmp ult i32 %11, 4, !dbg !1295
  br i1 %15, label %16, label %25, !dbg !1296

16:                                               ; preds = %14
  %17 = zext i32 %11 to i64, !dbg !1297
  %18 = getelementptr inbounds [4 x i32], ptr @proc_state, i64 0, i64 %17, !dbg !1297
  %19 = load i32, ptr %18, align 4, !dbg !1297, !tbaa !188
  %20 = icmp eq i32 %19, 1, !dbg !1298
  br i1 %20, label %21, label %25, !dbg !1299

21:                                               ; preds = %16
  %22 = getelementptr inbounds [4 x i32], ptr @proc_parent, i64 0, i64 %17, !dbg !1300
  %23 = load i32, ptr %22, align 4, !dbg !1300, !tbaa !188
  %24 = icmp ne i32 %23, %12, !dbg !1301
  br label %25

25:                                               ; preds = %10, %14, %16, %21
  %26 = phi i1 [ false, %10 ], [ true, %16 ], [ true, %14 ], [ %24, %21 ]
  %27 = icmp ugt i32 %1, 1
  %28 = or i1 %27, %26, !dbg !1302
  br i1 %28, label %48, label %29, !dbg !1302

29:                                               ; preds = %25
  %30 = zext i32 %0 to i64, !dbg !1303
  %31 = getelementptr inbounds [4 x %struct.middle], ptr @middles, i64 0, i64 %30, !dbg !1303
  %32 = zext i32 %1 to i64, !dbg !1303
  %33 = getelementptr inbounds [2 x i64], ptr %31, i64 0, i64 %32, !dbg !1303
  %34 = load i64, ptr %33, align 8, !dbg !1303, !tbaa !399
  %35 = icmp ne i64 %34, 0, !dbg !1304
  %36 = icmp ugt i32 %2, 3
  %37 = or i1 %36, %35, !dbg !1305
  br i1 %37, label %48, label %38, !dbg !1305

38:                                               ; preds = %29
  %39 = zext i32 %2 to i64, !dbg !1306
  %40 = getelementptr inbounds [4 x i32], ptr @leaf_parent, i64 0, i64 %39, !dbg !1306
  %41 = load i32, ptr %40, align 4, !dbg !1306, !tbaa !188
  %42 = icmp eq i32 %41, 0, !dbg !1308
  br i1 %42, label %43, label %48, !dbg !1309

43:                                               ; preds = %38
  %44 = shl nuw nsw i64 %39, 10, !dbg !1310
  %45 = add nuw nsw i64 %44, 537141249, !dbg !1310
  store i64 %45, ptr %33, align 8, !dbg !1311, !tbaa !399
  %46 = add i32 %0, 1, !dbg !1312
  store i32 %46, ptr %40, align 4, !dbg !1313, !tbaa !188
  %47 = getelementptr inbounds [4 x i32], ptr @leaf_index, i64 0, i64 %39, !dbg !1314
  store i32 %1, ptr %47, align 4, !dbg !1315, !tbaa !188
  br label %48, !dbg !1316

48:                                               ; preds = %38, %25, %29, %43
  %49 = phi i32 [ 0, %43 ], [ -1, %29 ], [ -1, %25 ], [ -1, %38 ], !dbg !1280
  ret i32 %49, !dbg !1317
}

; Function Attrs: mustprogress nofree norecurse nosync nounwind willreturn memory(readwrite, argmem: none, inaccessiblemem: none)
define dso_local signext i32 @sys_alloc_frame(i32 noundef signext %0, i32 noundef signext %1, i32 noundef signext %2, i32 noundef signext %3) local_unnamed_addr #0 !dbg !1318 {
  call void @llvm.dbg.value(metadata i32 %0, metadata !1320, metadata !DIExpression()), !dbg !1324
  call void @llvm.dbg.value(metadata i32 %1, metadata !1321, metadata !DIExpression()), !dbg !1324
  call void @llvm.dbg.value(metadata i32 %2, metadata !1322, metadata !DIExpression()), !dbg !1324
  call void @llvm.dbg.value(metadata i32 %3, metadata !1323, metadata !DIExpression()), !dbg !1324
  call void @llvm.dbg.value(metadata i32 %0, metadata !1325, metadata !DIExpression()), !dbg !1329
  call void @llvm.dbg.value(metadata i32 %1, metadata !1328, metadata !DIExpression()), !dbg !1329
  call void @llvm.dbg.value(metadata i32 %0, metadata !1009, metadata !DIExpression()), !dbg !1332
  %5 = icmp ult i32 %0, 4, !dbg !1334
  br i1 %5, label %6, label %17, !dbg !1335

6:                                                ; preds = %4
  %7 = zext i32 %0 to i64, !dbg !1336
  %8 = getelementptr inbounds [4 x i32], ptr @leaf_parent, i64 0, i64 %7, !dbg !1336
  %9 = load i32, ptr %8, align 4, !dbg !1336, !tbaa !188
  %10 = add i32 %9, -1, !dbg !1337
  call void @llvm.dbg.value(metadata i32 %10, metadata !1018, metadata !DIExpression()), !dbg !1338
  %11 = icmp ult i32 %10, 4, !dbg !1340
  br i1 %11, label %12, label %17, !dbg !1341

12:                                               ; preds = %6
  %13 = zext i32 %10 to i64, !dbg !1342
  %14 = getelementptr inbounds [4 x i32], ptr @middle_parent, i64 0, i64 %13, !dbg !1342
  %15 = load i32, ptr %14, align 4, !dbg !1342, !tbaa !188
  %16 = add i32 %15, -1, !dbg !1343
  br label %17, !dbg !1341

17:                                               ; preds = %12, %6, %4
  %18 = phi i32 [ 4, %4 ], [ %16, %12 ], [ 4, %6 ], !dbg !1335
  call void @llvm.dbg.value(metadata i32 %18, metadata !211, metadata !DIExpression()), !dbg !1344
  %19 = load i32, ptr @current, align 4, !dbg !1346, !tbaa !188
  %20 = icmp eq i32 %19, %18, !dbg !1347
  br i1 %20, label %32, label %21, !dbg !1348

21:                                               ; preds = %17
  call void @llvm.dbg.value(metadata i32 %18, metadata !222, metadata !DIExpression()), !dbg !1349
  call void @llvm.dbg.value(metadata i32 1, metadata !227, metadata !DIExpression()), !dbg !1349
  %22 = icmp ult i32 %18, 4, !dbg !1351
  br i1 %22, label %23, label %32, !dbg !1352

23:                                               ; preds = %21
  %24 = zext i32 %18 to i64, !dbg !1353
  %25 = getelementptr inbounds [4 x i32], ptr @proc_state, i64 0, i64 %24, !dbg !1353
  %26 = load i32, ptr %25, align 4, !dbg !1353, !tbaa !188
  %27 = icmp eq i32 %26, 1, !dbg !1354
  br i1 %27, label %28, label %32, !dbg !1355

28:                                               ; preds = %23
  %29 = getelementptr inbounds [4 x i32], ptr @proc_parent, i64 0, i64 %24, !dbg !1356
  %30 = load i32, ptr %29, align 4, !dbg !1356, !tbaa !188
  %31 = icmp eq i32 %30, %19, !dbg !1357
  br label %32

32:                                               ; preds = %28, %23, %21, %17
  %33 = phi i1 [ true, %17 ], [ false, %23 ], [ false, %21 ], [ %31, %28 ]
  %34 = icmp ult i32 %1, 8
  %35 = and i1 %34, %33, !dbg !1358
  br i1 %35, label %36, label %43, !dbg !1358

36:                                               ; preds = %32
  %37 = zext i32 %0 to i64, !dbg !1359
  %38 = getelementptr inbounds [4 x %struct.leaf], ptr @leaves, i64 0, i64 %37, !dbg !1359
  %39 = zext i32 %1 to i64, !dbg !1359
  %40 = getelementptr inbounds [8 x i64], ptr %38, i64 0, i64 %39, !dbg !1359
  %41 = load i64, ptr %40, align 8, !dbg !1359, !tbaa !399
  %42 = icmp ne i64 %41, 0, !dbg !1360
  br label %43

43:                                               ; preds = %32, %36
  %44 = phi i1 [ true, %32 ], [ %42, %36 ]
  %45 = icmp ugt i32 %2, 5
  %46 = or i1 %45, %44, !dbg !1361
  br i1 %46, label %70, label %47, !dbg !1361

47:                                               ; preds = %43
  %48 = zext i32 %2 to i64, !dbg !1362
  %49 = getelementptr inbounds [6 x i32], ptr @frame_parent, i64 0, i64 %48, !dbg !1362
  %50 = load i32, ptr %49, align 4, !dbg !1362, !tbaa !188
  %51 = icmp eq i32 %50, 0, !dbg !1363
  br i1 %51, label %52, label %70, !dbg !1364

52:                                               ; preds = %47
  %53 = getelementptr inbounds [6 x i32], ptr @frame_cleared, i64 0, i64 %48, !dbg !1365
  %54 = load i32, ptr %53, align 4, !dbg !1365, !tbaa !188
  %55 = icmp eq i32 %54, 512, !dbg !1366
  br i1 %55, label %56, label %70, !dbg !1367

56:                                               ; preds = %52
  %57 = shl nuw nsw i64 %48, 10, !dbg !1368
  %58 = add nuw nsw i64 %57, 537145344, !dbg !1368
  call void @llvm.dbg.value(metadata i32 %3, metadata !1369, metadata !DIExpression()), !dbg !1374
  %59 = icmp eq i32 %3, 1, !dbg !1376
  %60 = icmp eq i32 %3, 2, !dbg !1377
  %61 = select i1 %60, i64 219, i64 211, !dbg !1377
  %62 = select i1 %59, i64 215, i64 %61, !dbg !1377
  %63 = or i64 %62, %58, !dbg !1368
  %64 = zext i32 %0 to i64, !dbg !1378
  %65 = getelementptr inbounds [4 x %struct.leaf], ptr @leaves, i64 0, i64 %64, !dbg !1378
  %66 = zext i32 %1 to i64, !dbg !1378
  %67 = getelementptr inbounds [8 x i64], ptr %65, i64 0, i64 %66, !dbg !1378
  store i64 %63, ptr %67, align 8, !dbg !1379, !tbaa !399
  %68 = add i32 %0, 1, !dbg !1380
  store i32 %68, ptr %49, align 4, !dbg !1381, !tbaa !188
  %69 = getelementptr inbounds [6 x i32], ptr @frame_index, i64 0, i64 %48, !dbg !1382
  store i32 %1, ptr %69, align 4, !dbg !1383, !tbaa !188
  store i32 0, ptr %53, align 4, !dbg !1384, !tbaa !188
  br label %70, !dbg !1385

70:                                               ; preds = %43, %47, %52, %56
  %71 = phi i32 [ 0, %56 ], [ -1, %52 ], [ -1, %47 ], [ -1, %43 ], !dbg !1324
  ret i32 %71, !dbg !1386
}

; Function Attrs: nofree norecurse nosync nounwind memory(readwrite, argmem: none, inaccessiblemem: none)
define dso_local signext i32 @sys_free_middle(i32 noundef signext %0) local_unnamed_addr #3 !dbg !1387 {
  call void @llvm.dbg.value(metadata i32 %0, metadata !1389, metadata !DIExpression()), !dbg !1393
  call void @llvm.dbg.value(metadata i64 0, metadata !1390, metadata !DIExpression()), !dbg !1393
  call void @llvm.dbg.value(metadata i32 %0, metadata !1018, metadata !DIExpression()), !dbg !1394
  %2 = icmp ult i32 %0, 4, !dbg !1397
  br i1 %2, label %3, label %8, !dbg !1398

3:                                                ; preds = %1
  %4 = zext i32 %0 to i64, !dbg !1399
  %5 = getelementptr inbounds [4 x i32], ptr @middle_parent, i64 0, i64 %4, !dbg !1399
  %6 = load i32, ptr %5, align 4, !dbg !1399, !tbaa !188
  %7 = add i32 %6, -1, !dbg !1400
  br label %8, !dbg !1398

8:                                                ; preds = %1, %3
  %9 = phi i32 [ %7, %3 ], [ 4, %1 ], !dbg !1398
  call void @llvm.dbg.value(metadata i32 %9, metadata !531, metadata !DIExpression()), !dbg !1401
  %10 = load i32, ptr @current, align 4, !dbg !1403, !tbaa !188
  %11 = icmp eq i32 %10, %9, !dbg !1404
  br i1 %11, label %30, label %12, !dbg !1405

12:                                               ; preds = %8
  call void @llvm.dbg.value(metadata i32 %9, metadata !222, metadata !DIExpression()), !dbg !1406
  call void @llvm.dbg.value(metadata i32 1, metadata !227, metadata !DIExpression()), !dbg !1406
  %13 = icmp ugt i32 %9, 3, !dbg !1408
  br i1 %13, label %49, label %14, !dbg !1409

14:                                               ; preds = %12
  %15 = zext i32 %9 to i64, !dbg !1410
  %16 = getelementptr inbounds [4 x i32], ptr @proc_state, i64 0, i64 %15, !dbg !1410
  %17 = load i32, ptr %16, align 4, !dbg !1410, !tbaa !188
  switch i32 %17, label %49 [
    i32 1, label %18
    i32 4, label %24
  ], !dbg !1411

18:                                               ; preds = %14
  %19 = getelementptr inbounds [4 x i32], ptr @proc_parent, i64 0, i64 %15, !dbg !1412
  %20 = load i32, ptr %19, align 4, !dbg !1412, !tbaa !188
  %21 = icmp eq i32 %20, %10, !dbg !1413
  br i1 %21, label %28, label %22, !dbg !1414

22:                                               ; preds = %18
  %23 = icmp eq i32 %17, 4, !dbg !1415
  br i1 %23, label %24, label %49, !dbg !1417

24:                                               ; preds = %14, %22
  %25 = getelementptr inbounds [4 x i32], ptr @proc_parent, i64 0, i64 %15, !dbg !1418
  %26 = load i32, ptr %25, align 4, !dbg !1418, !tbaa !188
  %27 = icmp eq i32 %26, %10, !dbg !1419
  br label %28

28:                                               ; preds = %18, %24
  %29 = phi i1 [ %21, %18 ], [ %27, %24 ]
  br i1 %29, label %30, label %49, !dbg !1420

30:                                               ; preds = %8, %28
  call void @llvm.dbg.value(metadata i32 0, metadata !1391, metadata !DIExpression()), !dbg !1421
  call void @llvm.dbg.value(metadata i64 0, metadata !1390, metadata !DIExpression()), !dbg !1393
  %31 = zext i32 %0 to i64
  %32 = getelementptr inbounds [4 x %struct.middle], ptr @middles, i64 0, i64 %31
  call void @llvm.dbg.value(metadata i64 0, metadata !1391, metadata !DIExpression()), !dbg !1421
  call void @llvm.dbg.value(metadata i64 0, metadata !1390, metadata !DIExpression()), !dbg !1393
  %33 = load i64, ptr %32, align 8, !dbg !1422, !tbaa !399
  call void @llvm.dbg.value(metadata i64 %33, metadata !1390, metadata !DIExpression()), !dbg !1393
  call void @llvm.dbg.value(metadata i64 1, metadata !1391, metadata !DIExpression()), !dbg !1421
  call void @llvm.dbg.value(metadata i64 1, metadata !1391, metadata !DIExpression()), !dbg !1421
  call void @llvm.dbg.value(metadata i64 %33, metadata !1390, metadata !DIExpression()), !dbg !1393
  %34 = getelementptr inbounds [2 x i64], ptr %32, i64 0, i64 1, !dbg !1422
  %35 = load i64, ptr %34, align 8, !dbg !1422, !tbaa !399
  %36 = or i64 %35, %33, !dbg !1424
  call void @llvm.dbg.value(metadata i64 %36, metadata !1390, metadata !DIExpression()), !dbg !1393
  call void @llvm.dbg.value(metadata i64 2, metadata !1391, metadata !DIExpression()), !dbg !1421
  %37 = icmp eq i64 %36, 0, !dbg !1425
  br i1 %37, label %38, label %49, !dbg !1427

38:                                               ; preds = %30
  %39 = zext i32 %0 to i64, !dbg !1428
  %40 = getelementptr inbounds [4 x i32], ptr @middle_parent, i64 0, i64 %39, !dbg !1428
  %41 = load i32, ptr %40, align 4, !dbg !1428, !tbaa !188
  %42 = add i32 %41, -1, !dbg !1429
  %43 = zext i32 %42 to i64, !dbg !1430
  %44 = getelementptr inbounds [4 x %struct.root], ptr @roots, i64 0, i64 %43, !dbg !1430
  %45 = getelementptr inbounds [4 x i32], ptr @middle_index, i64 0, i64 %39, !dbg !1431
  %46 = load i32, ptr %45, align 4, !dbg !1431, !tbaa !188
  %47 = zext i32 %46 to i64, !dbg !1430
  %48 = getelementptr inbounds [2 x i64], ptr %44, i64 0, i64 %47, !dbg !1430
  store i64 0, ptr %48, align 8, !dbg !1432, !tbaa !399
  store i32 0, ptr %40, align 4, !dbg !1433, !tbaa !188
  br label %49, !dbg !1434

49:                                               ; preds = %22, %12, %14, %30, %28, %38
  %50 = phi i32 [ 0, %38 ], [ -1, %28 ], [ -1, %30 ], [ -1, %14 ], [ -1, %12 ], [ -1, %22 ], !dbg !1393
  ret i32 %50, !dbg !1435
}

; Function Attrs: nofree norecurse nosync nounwind memory(readwrite, argmem: none, inaccessiblemem: none)
define dso_local signext i32 @sys_free_leaf(i32 noundef signext %0) local_unnamed_addr #3 !dbg !1436 {
  call void @llvm.dbg.value(metadata i32 %0, metadata !1438, metadata !DIExpression()), !dbg !1442
  call void @llvm.dbg.value(metadata i64 0, metadata !1439, metadata !DIExpression()), !dbg !1442
  call void @llvm.dbg.value(metadata i32 %0, metadata !1009, metadata !DIExpression()), !dbg !1443
  %2 = icmp ult i32 %0, 4, !dbg !1446
  br i1 %2, label %3, label %14, !dbg !1447

3:                                                ; preds = %1
  %4 = zext i32 %0 to i64, !dbg !1448
  %5 = getelementptr inbounds [4 x i32], ptr @leaf_parent, i64 0, i64 %4, !dbg !1448
  %6 = load i32, ptr %5, align 4, !dbg !1448, !tbaa !188
  %7 = add i32 %6, -1, !dbg !1449
  call void @llvm.dbg.value(metadata i32 %7, metadata !1018, metadata !DIExpression()), !dbg !1450
  %8 = icmp ult i32 %7, 4, !dbg !1452
  br i1 %8, label %9, label %14, !dbg !1453

9:                                                ; preds = %3
  %10 = zext i32 %7 to i64, !dbg !1454
  %11 = getelementptr inbounds [4 x i32], ptr @middle_parent, i64 0, i64 %10, !dbg !1454
  %12 = load i32, ptr %11, align 4, !dbg !1454, !tbaa !188
  %13 = add i32 %12, -1, !dbg !1455
  br label %14, !dbg !1453

14:                                               ; preds = %1, %3, %9
  %15 = phi i32 [ 4, %1 ], [ %13, %9 ], [ 4, %3 ], !dbg !1447
  call void @llvm.dbg.value(metadata i32 %15, metadata !531, metadata !DIExpression()), !dbg !1456
  %16 = load i32, ptr @current, align 4, !dbg !1458, !tbaa !188
  %17 = icmp eq i32 %16, %15, !dbg !1459
  br i1 %17, label %36, label %18, !dbg !1460

18:                                               ; preds = %14
  call void @llvm.dbg.value(metadata i32 %15, metadata !222, metadata !DIExpression()), !dbg !1461
  call void @llvm.dbg.value(metadata i32 1, metadata !227, metadata !DIExpression()), !dbg !1461
  %19 = icmp ugt i32 %15, 3, !dbg !1463
  br i1 %19, label %73, label %20, !dbg !1464

20:                                               ; preds = %18
  %21 = zext i32 %15 to i64, !dbg !1465
  %22 = getelementptr inbounds [4 x i32], ptr @proc_state, i64 0, i64 %21, !dbg !1465
  %23 = load i32, ptr %22, align 4, !dbg !1465, !tbaa !188
  switch i32 %23, label %73 [
    i32 1, label %24
    i32 4, label %30
  ], !dbg !1466

24:                                               ; preds = %20
  %25 = getelementptr inbounds [4 x i32], ptr @proc_parent, i64 0, i64 %21, !dbg !1467
  %26 = load i32, ptr %25, align 4, !dbg !1467, !tbaa !188
  %27 = icmp eq i32 %26, %16, !dbg !1468
  br i1 %27, label %34, label %28, !dbg !1469

28:                                               ; preds = %24
  %29 = icmp eq i32 %23, 4, !dbg !1470
  br i1 %29, label %30, label %73, !dbg !1472

30:                                               ; preds = %20, %28
  %31 = getelementptr inbounds [4 x i32], ptr @proc_parent, i64 0, i64 %21, !dbg !1473
  %32 = load i32, ptr %31, align 4, !dbg !1473, !tbaa !188
  %33 = icmp eq i32 %32, %16, !dbg !1474
  br label %34

34:                                               ; preds = %24, %30
  %35 = phi i1 [ %27, %24 ], [ %33, %30 ]
  br i1 %35, label %36, label %73, !dbg !1475

36:                                               ; preds = %14, %34
  call void @llvm.dbg.value(metadata i32 0, metadata !1440, metadata !DIExpression()), !dbg !1476
  call void @llvm.dbg.value(metadata i64 0, metadata !1439, metadata !DIExpression()), !dbg !1442
  %37 = zext i32 %0 to i64
  %38 = getelementptr inbounds [4 x %struct.leaf], ptr @leaves, i64 0, i64 %37
  call void @llvm.dbg.value(metadata i64 0, metadata !1440, metadata !DIExpression()), !dbg !1476
  call void @llvm.dbg.value(metadata i64 0, metadata !1439, metadata !DIExpression()), !dbg !1442
  %39 = load i64, ptr %38, align 8, !dbg !1477, !tbaa !399
  call void @llvm.dbg.value(metadata i64 %39, metadata !1439, metadata !DIExpression()), !dbg !1442
  call void @llvm.dbg.value(metadata i64 1, metadata !1440, metadata !DIExpression()), !dbg !1476
  call void @llvm.dbg.value(metadata i64 1, metadata !1440, metadata !DIExpression()), !dbg !1476
  call void @llvm.dbg.value(metadata i64 %39, metadata !1439, metadata !DIExpression()), !dbg !1442
  %40 = getelementptr inbounds [8 x i64], ptr %38, i64 0, i64 1, !dbg !1477
  %41 = load i64, ptr %40, align 8, !dbg !1477, !tbaa !399
  %42 = or i64 %41, %39, !dbg !1479
  call void @llvm.dbg.value(metadata i64 %42, metadata !1439, metadata !DIExpression()), !dbg !1442
  call void @llvm.dbg.value(metadata i64 2, metadata !1440, metadata !DIExpression()), !dbg !1476
  call void @llvm.dbg.value(metadata i64 2, metadata !1440, metadata !DIExpression()), !dbg !1476
  call void @llvm.dbg.value(metadata i64 %42, metadata !1439, metadata !DIExpression()), !dbg !1442
  %43 = getelementptr inbounds [8 x i64], ptr %38, i64 0, i64 2, !dbg !1477
  %44 = load i64, ptr %43, align 8, !dbg !1477, !tbaa !399
  %45 = or i64 %44, %42, !dbg !1479
  call void @llvm.dbg.value(metadata i64 %45, metadata !1439, metadata !DIExpression()), !dbg !1442
  call void @llvm.dbg.value(metadata i64 3, metadata !1440, metadata !DIExpression()), !dbg !1476
  call void @llvm.dbg.value(metadata i64 3, metadata !1440, metadata !DIExpression()), !dbg !1476
  call void @llvm.dbg.value(metadata i64 %45, metadata !1439, metadata !DIExpression()), !dbg !1442
  %46 = getelementptr inbounds [8 x i64], ptr %38, i64 0, i64 3, !dbg !1477
  %47 = load i64, ptr %46, align 8, !dbg !1477, !tbaa !399
  %48 = or i64 %47, %45, !dbg !1479
  call void @llvm.dbg.value(metadata i64 %48, metadata !1439, metadata !DIExpression()), !dbg !1442
  call void @llvm.dbg.value(metadata i64 4, metadata !1440, metadata !DIExpression()), !dbg !1476
  call void @llvm.dbg.value(metadata i64 4, metadata !1440, metadata !DIExpression()), !dbg !1476
  call void @llvm.dbg.value(metadata i64 %48, metadata !1439, metadata !DIExpression()), !dbg !1442
  %49 = getelementptr inbounds [8 x i64], ptr %38, i64 0, i64 4, !dbg !1477
  %50 = load i64, ptr %49, align 8, !dbg !1477, !tbaa !399
  %51 = or i64 %50, %48, !dbg !1479
  call void @llvm.dbg.value(metadata i64 %51, metadata !1439, metadata !DIExpression()), !dbg !1442
  call void @llvm.dbg.value(metadata i64 5, metadata !1440, metadata !DIExpression()), !dbg !1476
  call void @llvm.dbg.value(metadata i64 5, metadata !1440, metadata !DIExpression()), !dbg !1476
  call void @llvm.dbg.value(metadata i64 %51, metadata !1439, metadata !DIExpression()), !dbg !1442
  %52 = getelementptr inbounds [8 x i64], ptr %38, i64 0, i64 5, !dbg !1477
  %53 = load i64, ptr %52, align 8, !dbg !1477, !tbaa !399
  %54 = or i64 %53, %51, !dbg !1479
  call void @llvm.dbg.value(metadata i64 %54, metadata !1439, metadata !DIExpression()), !dbg !1442
  call void @llvm.dbg.value(metadata i64 6, metadata !1440, metadata !DIExpression()), !dbg !1476
  call void @llvm.dbg.value(metadata i64 6, metadata !1440, metadata !DIExpression()), !dbg !1476
  call void @llvm.dbg.value(metadata i64 %54, metadata !1439, metadata !DIExpression()), !dbg !1442
  %55 = getelementptr inbounds [8 x i64], ptr %38, i64 0, i64 6, !dbg !1477
  %56 = load i64, ptr %55, align 8, !dbg !1477, !tbaa !399
  %57 = or i64 %56, %54, !dbg !1479
  call void @llvm.dbg.value(metadata i64 %57, metadata !1439, metadata !DIExpression()), !dbg !1442
  call void @llvm.dbg.value(metadata i64 7, metadata !1440, metadata !DIExpression()), !dbg !1476
  call void @llvm.dbg.value(metadata i64 7, metadata !1440, metadata !DIExpression()), !dbg !1476
  call void @llvm.dbg.value(metadata i64 %57, metadata !1439, metadata !DIExpression()), !dbg !1442
  %58 = getelementptr inbounds [8 x i64], ptr %38, i64 0, i64 7, !dbg !1477
  %59 = load i64, ptr %58, align 8, !dbg !1477, !tbaa !399
  %60 = or i64 %59, %57, !dbg !1479
  call void @llvm.dbg.value(metadata i64 %60, metadata !1439, metadata !DIExpression()), !dbg !1442
  call void @llvm.dbg.value(metadata i64 8, metadata !1440, metadata !DIExpression()), !dbg !1476
  %61 = icmp eq i64 %60, 0, !dbg !1480
  br i1 %61, label %62, label %73, !dbg !1482

62:                                               ; preds = %36
  %63 = zext i32 %0 to i64, !dbg !1483
  %64 = getelementptr inbounds [4 x i32], ptr @leaf_parent, i64 0, i64 %63, !dbg !1483
  %65 = load i32, ptr %64, align 4, !dbg !1483, !tbaa !188
  %66 = add i32 %65, -1, !dbg !1484
  %67 = zext i32 %66 to i64, !dbg !1485
  %68 = getelementptr inbounds [4 x %struct.middle], ptr @middles, i64 0, i64 %67, !dbg !1485
  %69 = getelementptr inbounds [4 x i32], ptr @leaf_index, i64 0, i64 %63, !dbg !1486
  %70 = load i32, ptr %69, align 4, !dbg !1486, !tbaa !188
  %71 = zext i32 %70 to i64, !dbg !1485
  %72 = getelementptr inbounds [2 x i64], ptr %68, i64 0, i64 %71, !dbg !1485
  store i64 0, ptr %72, align 8, !dbg !1487, !tbaa !399
  store i32 0, ptr %64, align 4, !dbg !1488, !tbaa !188
  br label %73, !dbg !1489

73:                                               ; preds = %28, %18, %20, %36, %34, %62
  %74 = phi i32 [ 0, %62 ], [ -1, %34 ], [ -1, %36 ], [ -1, %20 ], [ -1, %18 ], [ -1, %28 ], !dbg !1442
  ret i32 %74, !dbg !1490
}

; Function Attrs: mustprogress nofree norecurse nosync nounwind willreturn memory(readwrite, argmem: none, inaccessiblemem: none)
define dso_local signext i32 @sys_free_frame(i32 noundef signext %0) local_unnamed_addr #0 !dbg !1491 {
  call void @llvm.dbg.value(metadata i32 %0, metadata !1493, metadata !DIExpression()), !dbg !1494
  call void @llvm.dbg.value(metadata i32 %0, metadata !1000, metadata !DIExpression()), !dbg !1495
  %2 = icmp ult i32 %0, 6, !dbg !1498
  br i1 %2, label %3, label %20, !dbg !1499

3:                                                ; preds = %1
  %4 = zext i32 %0 to i64, !dbg !1500
  %5 = getelementptr inbounds [6 x i32], ptr @frame_parent, i64 0, i64 %4, !dbg !1500
  %6 = load i32, ptr %5, align 4, !dbg !1500, !tbaa !188
  %7 = add i32 %6, -1, !dbg !1501
  call void @llvm.dbg.value(metadata i32 %7, metadata !1009, metadata !DIExpression()), !dbg !1502
  %8 = icmp ult i32 %7, 4, !dbg !1504
  br i1 %8, label %9, label %20, !dbg !1505

9:                                                ; preds = %3
  %10 = zext i32 %7 to i64, !dbg !1506
  %11 = getelementptr inbounds [4 x i32], ptr @leaf_parent, i64 0, i64 %10, !dbg !1506
  %12 = load i32, ptr %11, align 4, !dbg !1506, !tbaa !188
  %13 = add i32 %12, -1, !dbg !1507
  call void @llvm.dbg.value(metadata i32 %13, metadata !1018, metadata !DIExpression()), !dbg !1508
  %14 = icmp ult i32 %13, 4, !dbg !1510
  br i1 %14, label %15, label %20, !dbg !1511

15:                                               ; preds = %9
  %16 = zext i32 %13 to i64, !dbg !1512
  %17 = getelementptr inbounds [4 x i32], ptr @middle_parent, i64 0, i64 %16, !dbg !1512
  %18 = load i32, ptr %17, align 4, !dbg !1512, !tbaa !188
  %19 = add i32 %18, -1, !dbg !1513
  br label %20, !dbg !1511

20:                                               ; preds = %1, %3, %9, %15
  %21 = phi i32 [ 4, %1 ], [ 4, %3 ], [ %19, %15 ], [ 4, %9 ], !dbg !1499
  call void @llvm.dbg.value(metadata i32 %21, metadata !531, metadata !DIExpression()), !dbg !1514
  %22 = load i32, ptr @current, align 4, !dbg !1516, !tbaa !188
  %23 = icmp eq i32 %22, %21, !dbg !1517
  br i1 %23, label %42, label %24, !dbg !1518

24:                                               ; preds = %20
  call void @llvm.dbg.value(metadata i32 %21, metadata !222, metadata !DIExpression()), !dbg !1519
  call void @llvm.dbg.value(metadata i32 1, metadata !227, metadata !DIExpression()), !dbg !1519
  %25 = icmp ugt i32 %21, 3, !dbg !1521
  br i1 %25, label %53, label %26, !dbg !1522

26:                                               ; preds = %24
  %27 = zext i32 %21 to i64, !dbg !1523
  %28 = getelementptr inbounds [4 x i32], ptr @proc_state, i64 0, i64 %27, !dbg !1523
  %29 = load i32, ptr %28, align 4, !dbg !1523, !tbaa !188
  switch i32 %29, label %53 [
    i32 1, label %30
    i32 4, label %36
  ], !dbg !1524

30:                                               ; preds = %26
  %31 = getelementptr inbounds [4 x i32], ptr @proc_parent, i64 0, i64 %27, !dbg !1525
  %32 = load i32, ptr %31, align 4, !dbg !1525, !tbaa !188
  %33 = icmp eq i32 %32, %22, !dbg !1526
  br i1 %33, label %40, label %34, !dbg !1527

34:                                               ; preds = %30
  %35 = icmp eq i32 %29, 4, !dbg !1528
  br i1 %35, label %36, label %53, !dbg !1530

36:                                               ; preds = %26, %34
  %37 = getelementptr inbounds [4 x i32], ptr @proc_parent, i64 0, i64 %27, !dbg !1531
  %38 = load i32, ptr %37, align 4, !dbg !1531, !tbaa !188
  %39 = icmp eq i32 %38, %22, !dbg !1532
  br label %40

40:                                               ; preds = %30, %36
  %41 = phi i1 [ %33, %30 ], [ %39, %36 ]
  br i1 %41, label %42, label %53, !dbg !1533

42:                                               ; preds = %20, %40
  %43 = zext i32 %0 to i64, !dbg !1534
  %44 = getelementptr inbounds [6 x i32], ptr @frame_parent, i64 0, i64 %43, !dbg !1534
  %45 = load i32, ptr %44, align 4, !dbg !1534, !tbaa !188
  %46 = add i32 %45, -1, !dbg !1535
  %47 = zext i32 %46 to i64, !dbg !1536
  %48 = getelementptr inbounds [4 x %struct.leaf], ptr @leaves, i64 0, i64 %47, !dbg !1536
  %49 = getelementptr inbounds [6 x i32], ptr @frame_index, i64 0, i64 %43, !dbg !1537
  %50 = load i32, ptr %49, align 4, !dbg !1537, !tbaa !188
  %51 = zext i32 %50 to i64, !dbg !1536
  %52 = getelementptr inbounds [8 x i64], ptr %48, i64 0, i64 %51, !dbg !1536
  store i64 0, ptr %52, align 8, !dbg !1538, !tbaa !399
  store i32 0, ptr %44, align 4, !dbg !1539, !tbaa !188
  br label %53, !dbg !1540

53:                                               ; preds = %34, %24, %26, %40, %42
  %54 = phi i32 [ 0, %42 ], [ -1, %40 ], [ -1, %26 ], [ -1, %24 ], [ -1, %34 ], !dbg !1494
  ret i32 %54, !dbg !1541
}

; Function Attrs: mustprogress nofree norecurse nosync nounwind willreturn memory(readwrite, argmem: none, inaccessiblemem: none)
define dso_local signext i32 @sys_clear_word(i32 noundef signext %0) local_unnamed_addr #0 !dbg !1542 {
  call void @llvm.dbg.value(metadata i32 %0, metadata !1544, metadata !DIExpression()), !dbg !1545
  %2 = icmp ugt i32 %0, 5, !dbg !1546
  br i1 %2, label %16, label %3, !dbg !1548

3:                                                ; preds = %1
  %4 = zext i32 %0 to i64, !dbg !1549
  %5 = getelementptr inbounds [6 x i32], ptr @frame_parent, i64 0, i64 %4, !dbg !1549
  %6 = load i32, ptr %5, align 4, !dbg !1549, !tbaa !188
  %7 = icmp eq i32 %6, 0, !dbg !1550
  br i1 %7, label %8, label %16, !dbg !1551

8:                                                ; preds = %3
  %9 = getelementptr inbounds [6 x i32], ptr @frame_cleared, i64 0, i64 %4, !dbg !1552
  %10 = load i32, ptr %9, align 4, !dbg !1552, !tbaa !188
  %11 = icmp ugt i32 %10, 511, !dbg !1553
  br i1 %11, label %16, label %12, !dbg !1554

12:                                               ; preds = %8
  %13 = zext i32 %10 to i64, !dbg !1555
  %14 = getelementptr inbounds [6 x [512 x i64]], ptr @frames, i64 0, i64 %4, i64 %13, !dbg !1555
  store i64 0, ptr %14, align 8, !dbg !1556, !tbaa !399
  %15 = add i32 %10, 1, !dbg !1557
  store i32 %15, ptr %9, align 4, !dbg !1557, !tbaa !188
  br label %16, !dbg !1558

16:                                               ; preds = %1, %3, %8, %12
  %17 = phi i32 [ 0, %12 ], [ -1, %8 ], [ -1, %3 ], [ -1, %1 ], !dbg !1545
  ret i32 %17, !dbg !1559
}

; Function Attrs: mustprogress nofree norecurse nosync nounwind willreturn memory(readwrite, argmem: none, inaccessiblemem: none)
define dso_local signext i32 @sys_protect(i32 noundef signext %0, i32 noundef signext %1) local_unnamed_addr #0 !dbg !1560 {
  call void @llvm.dbg.value(metadata i32 %0, metadata !1562, metadata !DIExpression()), !dbg !1564
  call void @llvm.dbg.value(metadata i32 %1, metadata !1563, metadata !DIExpression()), !dbg !1564
  call void @llvm.dbg.value(metadata i32 %0, metadata !1000, metadata !DIExpression()), !dbg !1565
  %3 = icmp ult i32 %0, 6, !dbg !1568
  br i1 %3, label %4, label %21, !dbg !1569

4:                                                ; preds = %2
  %5 = zext i32 %0 to i64, !dbg !1570
  %6 = getelementptr inbounds [6 x i32], ptr @frame_parent, i64 0, i64 %5, !dbg !1570
  %7 = load i32, ptr %6, align 4, !dbg !1570, !tbaa !188
  %8 = add i32 %7, -1, !dbg !1571
  call void @llvm.dbg.value(metadata i32 %8, metadata !1009, metadata !DIExpression()), !dbg !1572
  %9 = icmp ult i32 %8, 4, !dbg !1574
  br i1 %9, label %10, label %21, !dbg !1575

10:                                               ; preds = %4
  %11 = zext i32 %8 to i64, !dbg !1576
  %12 = getelementptr inbounds [4 x i32], ptr @leaf_parent, i64 0, i64 %11, !dbg !1576
  %13 = load i32, ptr %12, align 4, !dbg !1576, !tbaa !188
  %14 = add i32 %13, -1, !dbg !1577
  call void @llvm.dbg.value(metadata i32 %14, metadata !1018, metadata !DIExpression()), !dbg !1578
  %15 = icmp ult i32 %14, 4, !dbg !1580
  br i1 %15, label %16, label %21, !dbg !1581

16:                                               ; preds = %10
  %17 = zext i32 %14 to i64, !dbg !1582
  %18 = getelementptr inbounds [4 x i32], ptr @middle_parent, i64 0, i64 %17, !dbg !1582
  %19 = load i32, ptr %18, align 4, !dbg !1582, !tbaa !188
  %20 = add i32 %19, -1, !dbg !1583
  br label %21, !dbg !1581

21:                                               ; preds = %2, %4, %10, %16
  %22 = phi i32 [ 4, %2 ], [ 4, %4 ], [ %20, %16 ], [ 4, %10 ], !dbg !1569
  call void @llvm.dbg.value(metadata i32 %22, metadata !211, metadata !DIExpression()), !dbg !1584
  %23 = load i32, ptr @current, align 4, !dbg !1586, !tbaa !188
  %24 = icmp eq i32 %23, %22, !dbg !1587
  br i1 %24, label %36, label %25, !dbg !1588

25:                                               ; preds = %21
  call void @llvm.dbg.value(metadata i32 %22, metadata !222, metadata !DIExpression()), !dbg !1589
  call void @llvm.dbg.value(metadata i32 1, metadata !227, metadata !DIExpression()), !dbg !1589
  %26 = icmp ult i32 %22, 4, !dbg !1591
  br i1 %26, label %27, label %54, !dbg !1592

27:                                               ; preds = %25
  %28 = zext i32 %22 to i64, !dbg !1593
  %29 = getelementptr inbounds [4 x i32], ptr @proc_state, i64 0, i64 %28, !dbg !1593
  %30 = load i32, ptr %29, align 4, !dbg !1593, !tbaa !188
  %31 = icmp eq i32 %30, 1, !dbg !1594
  br i1 %31, label %32, label %54, !dbg !1595

32:                                               ; preds = %27
  %33 = getelementptr inbounds [4 x i32], ptr @proc_parent, i64 0, i64 %28, !dbg !1596
  %34 = load i32, ptr %33, align 4, !dbg !1596, !tbaa !188
  %35 = icmp eq i32 %34, %23, !dbg !1597
  br i1 %35, label %36, label %54, !dbg !1598

36:                                               ; preds = %21, %32
  %37 = zext i32 %0 to i64, !dbg !1599
  %38 = shl nuw nsw i64 %37, 10, !dbg !1599
  %39 = add nuw nsw i64 %38, 537145344, !dbg !1599
  call void @llvm.dbg.value(metadata i32 %1, metadata !1369, metadata !DIExpression()), !dbg !1600
  %40 = icmp eq i32 %1, 1, !dbg !1602
  %41 = icmp eq i32 %1, 2, !dbg !1603
  %42 = select i1 %41, i64 219, i64 211, !dbg !1603
  %43 = select i1 %40, i64 215, i64 %42, !dbg !1603
  %44 = or i64 %43, %39, !dbg !1599
  %45 = getelementptr inbounds [6 x i32], ptr @frame_parent, i64 0, i64 %37, !dbg !1604
  %46 = load i32, ptr %45, align 4, !dbg !1604, !tbaa !188
  %47 = add i32 %46, -1, !dbg !1605
  %48 = zext i32 %47 to i64, !dbg !1606
  %49 = getelementptr inbounds [4 x %struct.leaf], ptr @leaves, i64 0, i64 %48, !dbg !1606
  %50 = getelementptr inbounds [6 x i32], ptr @frame_index, i64 0, i64 %37, !dbg !1607
  %51 = load i32, ptr %50, align 4, !dbg !1607, !tbaa !188
  %52 = zext i32 %51 to i64, !dbg !1606
  %53 = getelementptr inbounds [8 x i64], ptr %49, i64 0, i64 %52, !dbg !1606
  store i64 %44, ptr %53, align 8, !dbg !1608, !tbaa !399
  br label %54, !dbg !1609

54:                                               ; preds = %27, %25, %32, %36
  %55 = phi i32 [ 0, %36 ], [ -1, %32 ], [ -1, %25 ], [ -1, %27 ], !dbg !1564
  ret i32 %55, !dbg !1610
}

; Function Attrs: mustprogress nofree norecurse nosync nounwind willreturn memory(readwrite, argmem: none, inaccessiblemem: none)
define dso_local signext i32 @sys_copy_word(i32 noundef signext %0, i32 noundef signext %1, i32 noundef signext %2, i32 noundef signext %3) local_unnamed_addr #0 !dbg !1611 {
  call void @llvm.dbg.value(metadata i32 %0, metadata !1613, metadata !DIExpression()), !dbg !1617
  call void @llvm.dbg.value(metadata i32 %1, metadata !1614, metadata !DIExpression()), !dbg !1617
  call void @llvm.dbg.value(metadata i32 %2, metadata !1615, metadata !DIExpression()), !dbg !1617
  call void @llvm.dbg.value(metadata i32 %3, metadata !1616, metadata !DIExpression()), !dbg !1617
  call void @llvm.dbg.value(metadata i32 %0, metadata !1000, metadata !DIExpression()), !dbg !1618
  %5 = icmp ult i32 %0, 6, !dbg !1621
  br i1 %5, label %6, label %23, !dbg !1622

6:                                                ; preds = %4
  %7 = zext i32 %0 to i64, !dbg !1623
  %8 = getelementptr inbounds [6 x i32], ptr @frame_parent, i64 0, i64 %7, !dbg !1623
  %9 = load i32, ptr %8, align 4, !dbg !1623, !tbaa !188
  %10 = add i32 %9, -1, !dbg !1624
  call void @llvm.dbg.value(metadata i32 %10, metadata !1009, metadata !DIExpression()), !dbg !1625
  %11 = icmp ult i32 %10, 4, !dbg !1627
  br i1 %11, label %12, label %23, !dbg !1628

12:                                               ; preds = %6
  %13 = zext i32 %10 to i64, !dbg !1629
  %14 = getelementptr inbounds [4 x i32], ptr @leaf_parent, i64 0, i64 %13, !dbg !1629
  %15 = load i32, ptr %14, align 4, !dbg !1629, !tbaa !188
  %16 = add i32 %15, -1, !dbg !1630
  call void @llvm.dbg.value(metadata i32 %16, metadata !1018, metadata !DIExpression()), !dbg !1631
  %17 = icmp ult i32 %16, 4, !dbg !1633
  br i1 %17, label %18, label %23, !dbg !1634

18:                                               ; preds = %12
  %19 = zext i32 %16 to i64, !dbg !1635
  %20 = getelementptr inbounds [4 x i32], ptr @middle_parent, i64 0, i64 %19, !dbg !1635
  %21 = load i32, ptr %20, align 4, !dbg !1635, !tbaa !188
  %22 = add i32 %21, -1, !dbg !1636
  br label %23, !dbg !1634

23:                                               ; preds = %4, %6, %12, %18
  %24 = phi i32 [ 4, %4 ], [ 4, %6 ], [ %22, %18 ], [ 4, %12 ], !dbg !1622
  call void @llvm.dbg.value(metadata i32 %24, metadata !211, metadata !DIExpression()), !dbg !1637
  %25 = load i32, ptr @current, align 4, !dbg !1639, !tbaa !188
  %26 = icmp eq i32 %25, %24, !dbg !1640
  br i1 %26, label %38, label %27, !dbg !1641

27:                                               ; preds = %23
  call void @llvm.dbg.value(metadata i32 %24, metadata !222, metadata !DIExpression()), !dbg !1642
  call void @llvm.dbg.value(metadata i32 1, metadata !227, metadata !DIExpression()), !dbg !1642
  %28 = icmp ult i32 %24, 4, !dbg !1644
  br i1 %28, label %29, label %84, !dbg !1645

29:                                               ; preds = %27
  %30 = zext i32 %24 to i64, !dbg !1646
  %31 = getelementptr inbounds [4 x i32], ptr @proc_state, i64 0, i64 %30, !dbg !1646
  %32 = load i32, ptr %31, align 4, !dbg !1646, !tbaa !188
  %33 = icmp eq i32 %32, 1, !dbg !1647
  br i1 %33, label %34, label %84, !dbg !1648

34:                                               ; preds = %29
  %35 = getelementptr inbounds [4 x i32], ptr @proc_parent, i64 0, i64 %30, !dbg !1649
  %36 = load i32, ptr %35, align 4, !dbg !1649, !tbaa !188
  %37 = icmp eq i32 %36, %25, !dbg !1650
  br i1 %37, label %38, label %84, !dbg !1651

38:                                               ; preds = %23, %34
  call void @llvm.dbg.value(metadata i32 %2, metadata !1000, metadata !DIExpression()), !dbg !1652
  %39 = icmp ult i32 %2, 6, !dbg !1654
  br i1 %39, label %40, label %57, !dbg !1655

40:                                               ; preds = %38
  %41 = zext i32 %2 to i64, !dbg !1656
  %42 = getelementptr inbounds [6 x i32], ptr @frame_parent, i64 0, i64 %41, !dbg !1656
  %43 = load i32, ptr %42, align 4, !dbg !1656, !tbaa !188
  %44 = add i32 %43, -1, !dbg !1657
  call void @llvm.dbg.value(metadata i32 %44, metadata !1009, metadata !DIExpression()), !dbg !1658
  %45 = icmp ult i32 %44, 4, !dbg !1660
  br i1 %45, label %46, label %57, !dbg !1661

46:                                               ; preds = %40
  %47 = zext i32 %44 to i64, !dbg !1662
  %48 = getelementptr inbounds [4 x i32], ptr @leaf_parent, i64 0, i64 %47, !dbg !1662
  %49 = load i32, ptr %48, align 4, !dbg !1662, !tbaa !188
  %50 = add i32 %49, -1, !dbg !1663
  call void @llvm.dbg.value(metadata i32 %50, metadata !1018, metadata !DIExpression()), !dbg !1664
  %51 = icmp ult i32 %50, 4, !dbg !1666
  br i1 %51, label %52, label %57, !dbg !1667

52:                                               ; preds = %46
  %53 = zext i32 %50 to i64, !dbg !1668
  %54 = getelementptr inbounds [4 x i32], ptr @middle_parent, i64 0, i64 %53, !dbg !1668
  %55 = load i32, ptr %54, align 4, !dbg !1668, !tbaa !188
  %56 = add i32 %55, -1, !dbg !1669
  br label %57, !dbg !1667

57:                                               ; preds = %38, %40, %46, %52
  %58 = phi i32 [ 4, %38 ], [ 4, %40 ], [ %56, %52 ], [ 4, %46 ], !dbg !1655
  call void @llvm.dbg.value(metadata i32 %58, metadata !211, metadata !DIExpression()), !dbg !1670
  %59 = icmp eq i32 %25, %58, !dbg !1672
  br i1 %59, label %71, label %60, !dbg !1673

60:                                               ; preds = %57
  call void @llvm.dbg.value(metadata i32 %58, metadata !222, metadata !DIExpression()), !dbg !1674
  call void @llvm.dbg.value(metadata i32 1, metadata !227, metadata !DIExpression()), !dbg !1674
  %61 = icmp ult i32 %58, 4, !dbg !1676
  br i1 %61, label %62, label %71, !dbg !1677

62:                                               ; preds = %60
  %63 = zext i32 %58 to i64, !dbg !1678
  %64 = getelementptr inbounds [4 x i32], ptr @proc_state, i64 0, i64 %63, !dbg !1678
  %65 = load i32, ptr %64, align 4, !dbg !1678, !tbaa !188
  %66 = icmp eq i32 %65, 1, !dbg !1679
  br i1 %66, label %67, label %71, !dbg !1680

67:                                               ; preds = %62
  %68 = getelementptr inbounds [4 x i32], ptr @proc_parent, i64 0, i64 %63, !dbg !1681
  %69 = load i32, ptr %68, align 4, !dbg !1681, !tbaa !188
  %70 = icmp ne i32 %69, %25, !dbg !1682
  br label %71

71:                                               ; preds = %57, %60, %62, %67
  %72 = phi i1 [ false, %57 ], [ true, %62 ], [ true, %60 ], [ %70, %67 ]
  %73 = or i32 %3, %1, !dbg !1683
  %74 = icmp ugt i32 %73, 511, !dbg !1683
  %75 = or i1 %74, %72, !dbg !1683
  br i1 %75, label %84, label %76, !dbg !1683

76:                                               ; preds = %71
  %77 = zext i32 %0 to i64, !dbg !1684
  %78 = zext i32 %1 to i64, !dbg !1684
  %79 = getelementptr inbounds [6 x [512 x i64]], ptr @frames, i64 0, i64 %77, i64 %78, !dbg !1684
  %80 = load i64, ptr %79, align 8, !dbg !1684, !tbaa !399
  %81 = zext i32 %2 to i64, !dbg !1685
  %82 = zext i32 %3 to i64, !dbg !1685
  %83 = getelementptr inbounds [6 x [512 x i64]], ptr @frames, i64 0, i64 %81, i64 %82, !dbg !1685
  store i64 %80, ptr %83, align 8, !dbg !1686, !tbaa !399
  br label %84, !dbg !1687

84:                                               ; preds = %29, %27, %34, %71, %76
  %85 = phi i32 [ 0, %76 ], [ -1, %71 ], [ -1, %34 ], [ -1, %27 ], [ -1, %29 ], !dbg !1617
  ret i32 %85, !dbg !1688
}

; Function Attrs: mustprogress nofree norecurse nosync nounwind willreturn memory(readwrite, argmem: none, inaccessiblemem: none)
define dso_local signext i32 @sys_move_frame(i32 noundef signext %0, i32 noundef signext %1, i32 noundef signext %2) local_unnamed_addr #0 !dbg !1689 {
  call void @llvm.dbg.value(metadata i32 %0, metadata !1691, metadata !DIExpression()), !dbg !1694
  call void @llvm.dbg.value(metadata i32 %1, metadata !1692, metadata !DIExpression()), !dbg !1694
  call void @llvm.dbg.value(metadata i32 %2, metadata !1693, metadata !DIExpression()), !dbg !1694
  call void @llvm.dbg.value(metadata i32 %0, metadata !1000, metadata !DIExpression()), !dbg !1695
  %4 = icmp ult i32 %0, 6, !dbg !1698
  br i1 %4, label %5, label %22, !dbg !1699

5:                                                ; preds = %3
  %6 = zext i32 %0 to i64, !dbg !1700
  %7 = getelementptr inbounds [6 x i32], ptr @frame_parent, i64 0, i64 %6, !dbg !1700
  %8 = load i32, ptr %7, align 4, !dbg !1700, !tbaa !188
  %9 = add i32 %8, -1, !dbg !1701
  call void @llvm.dbg.value(metadata i32 %9, metadata !1009, metadata !DIExpression()), !dbg !1702
  %10 = icmp ult i32 %9, 4, !dbg !1704
  br i1 %10, label %11, label %22, !dbg !1705

11:                                               ; preds = %5
  %12 = zext i32 %9 to i64, !dbg !1706
  %13 = getelementptr inbounds [4 x i32], ptr @leaf_parent, i64 0, i64 %12, !dbg !1706
  %14 = load i32, ptr %13, align 4, !dbg !1706, !tbaa !188
  %15 = add i32 %14, -1, !dbg !1707
  call void @llvm.dbg.value(metadata i32 %15, metadata !1018, metadata !DIExpression()), !dbg !1708
  %16 = icmp ult i32 %15, 4, !dbg !1710
  br i1 %16, label %17, label %22, !dbg !1711

17:                                               ; preds = %11
  %18 = zext i32 %15 to i64, !dbg !1712
  %19 = getelementptr inbounds [4 x i32], ptr @middle_parent, i64 0, i64 %18, !dbg !1712
  %20 = load i32, ptr %19, align 4, !dbg !1712, !tbaa !188
  %21 = add i32 %20, -1, !dbg !1713
  br label %22, !dbg !1711

22:                                               ; preds = %3, %5, %11, %17
  %23 = phi i32 [ 4, %3 ], [ 4, %5 ], [ %21, %17 ], [ 4, %11 ], !dbg !1699
  call void @llvm.dbg.value(metadata i32 %23, metadata !211, metadata !DIExpression()), !dbg !1714
  %24 = load i32, ptr @current, align 4, !dbg !1716, !tbaa !188
  %25 = icmp eq i32 %24, %23, !dbg !1717
  br i1 %25, label %37, label %26, !dbg !1718

26:                                               ; preds = %22
  call void @llvm.dbg.value(metadata i32 %23, metadata !222, metadata !DIExpression()), !dbg !1719
  call void @llvm.dbg.value(metadata i32 1, metadata !227, metadata !DIExpression()), !dbg !1719
  %27 = icmp ult i32 %23, 4, !dbg !1721
  br i1 %27, label %28, label %92, !dbg !1722

28:                                               ; preds = %26
  %29 = zext i32 %23 to i64, !dbg !1723
  %30 = getelementptr inbounds [4 x i32], ptr @proc_state, i64 0, i64 %29, !dbg !1723
  %31 = load i32, ptr %30, align 4, !dbg !1723, !tbaa !188
  %32 = icmp eq i32 %31, 1, !dbg !1724
  br i1 %32, label %33, label %92, !dbg !1725

33:                                               ; preds = %28
  %34 = getelementptr inbounds [4 x i32], ptr @proc_parent, i64 0, i64 %29, !dbg !1726
  %35 = load i32, ptr %34, align 4, !dbg !1726, !tbaa !188
  %36 = icmp eq i32 %35, %24, !dbg !1727
  br i1 %36, label %37, label %92, !dbg !1728

37:                                               ; preds = %22, %33
  call void @llvm.dbg.value(metadata i32 %1, metadata !1325, metadata !DIExpression()), !dbg !1729
  call void @llvm.dbg.value(metadata i32 %2, metadata !1328, metadata !DIExpression()), !dbg !1729
  call void @llvm.dbg.value(metadata i32 %1, metadata !1009, metadata !DIExpression()), !dbg !1731
  %38 = icmp ult i32 %1, 4, !dbg !1733
  br i1 %38, label %39, label %50, !dbg !1734

39:                                               ; preds = %37
  %40 = zext i32 %1 to i64, !dbg !1735
  %41 = getelementptr inbounds [4 x i32], ptr @leaf_parent, i64 0, i64 %40, !dbg !1735
  %42 = load i32, ptr %41, align 4, !dbg !1735, !tbaa !188
  %43 = add i32 %42, -1, !dbg !1736
  call void @llvm.dbg.value(metadata i32 %43, metadata !1018, metadata !DIExpression()), !dbg !1737
  %44 = icmp ult i32 %43, 4, !dbg !1739
  br i1 %44, label %45, label %50, !dbg !1740

45:                                               ; preds = %39
  %46 = zext i32 %43 to i64, !dbg !1741
  %47 = getelementptr inbounds [4 x i32], ptr @middle_parent, i64 0, i64 %46, !dbg !1741
  %48 = load i32, ptr %47, align 4, !dbg !1741, !tbaa !188
  %49 = add i32 %48, -1, !dbg !1742
  br label %50, !dbg !1740

50:                                               ; preds = %45, %39, %37
  %51 = phi i32 [ 4, %37 ], [ %49, %45 ], [ 4, %39 ], !dbg !1734
  call void @llvm.dbg.value(metadata i32 %51, metadata !211, metadata !DIExpression()), !dbg !1743
  %52 = icmp eq i32 %24, %51, !dbg !1745
  br i1 %52, label %64, label %53, !dbg !1746

53:                                               ; preds = %50
  call void @llvm.dbg.value(metadata i32 %51, metadata !222, metadata !DIExpression()), !dbg !1747
  call void @llvm.dbg.value(metadata i32 1, metadata !227, metadata !DIExpression()), !dbg !1747
  %54 = icmp ult i32 %51, 4, !dbg !1749
  br i1 %54, label %55, label %64, !dbg !1750

55:                                               ; preds = %53
  %56 = zext i32 %51 to i64, !dbg !1751
  %57 = getelementptr inbounds [4 x i32], ptr @proc_state, i64 0, i64 %56, !dbg !1751
  %58 = load i32, ptr %57, align 4, !dbg !1751, !tbaa !188
  %59 = icmp eq i32 %58, 1, !dbg !1752
  br i1 %59, label %60, label %64, !dbg !1753

60:                                               ; preds = %55
  %61 = getelementptr inbounds [4 x i32], ptr @proc_parent, i64 0, i64 %56, !dbg !1754
  %62 = load i32, ptr %61, align 4, !dbg !1754, !tbaa !188
  %63 = icmp eq i32 %62, %24, !dbg !1755
  br label %64

64:                                               ; preds = %60, %55, %53, %50
  %65 = phi i1 [ true, %50 ], [ false, %55 ], [ false, %53 ], [ %63, %60 ]
  %66 = icmp ult i32 %2, 8
  %67 = and i1 %66, %65, !dbg !1756
  br i1 %67, label %68, label %92, !dbg !1756

68:                                               ; preds = %64
  %69 = zext i32 %1 to i64, !dbg !1757
  %70 = getelementptr inbounds [4 x %struct.leaf], ptr @leaves, i64 0, i64 %69, !dbg !1757
  %71 = zext i32 %2 to i64, !dbg !1757
  %72 = getelementptr inbounds [8 x i64], ptr %70, i64 0, i64 %71, !dbg !1757
  %73 = load i64, ptr %72, align 8, !dbg !1757, !tbaa !399
  %74 = icmp eq i64 %73, 0, !dbg !1758
  br i1 %74, label %75, label %92, !dbg !1759

75:                                               ; preds = %68
  call void @llvm.dbg.value(metadata i32 %0, metadata !1050, metadata !DIExpression()), !dbg !1760
  call void @llvm.dbg.value(metadata i32 %1, metadata !1055, metadata !DIExpression()), !dbg !1760
  call void @llvm.dbg.value(metadata i32 %2, metadata !1056, metadata !DIExpression()), !dbg !1760
  %76 = zext i32 %0 to i64, !dbg !1762
  %77 = getelementptr inbounds [6 x i32], ptr @frame_parent, i64 0, i64 %76, !dbg !1762
  %78 = load i32, ptr %77, align 4, !dbg !1762, !tbaa !188
  %79 = add i32 %78, -1, !dbg !1763
  call void @llvm.dbg.value(metadata i32 %79, metadata !1057, metadata !DIExpression()), !dbg !1760
  %80 = getelementptr inbounds [6 x i32], ptr @frame_index, i64 0, i64 %76, !dbg !1764
  %81 = load i32, ptr %80, align 4, !dbg !1764, !tbaa !188
  call void @llvm.dbg.value(metadata i32 %81, metadata !1058, metadata !DIExpression()), !dbg !1760
  %82 = zext i32 %79 to i64, !dbg !1765
  %83 = getelementptr inbounds [4 x %struct.leaf], ptr @leaves, i64 0, i64 %82, !dbg !1765
  %84 = zext i32 %81 to i64, !dbg !1765
  %85 = getelementptr inbounds [8 x i64], ptr %83, i64 0, i64 %84, !dbg !1765
  %86 = load i64, ptr %85, align 8, !dbg !1765, !tbaa !399
  %87 = zext i32 %1 to i64, !dbg !1766
  %88 = getelementptr inbounds [4 x %struct.leaf], ptr @leaves, i64 0, i64 %87, !dbg !1766
  %89 = zext i32 %2 to i64, !dbg !1766
  %90 = getelementptr inbounds [8 x i64], ptr %88, i64 0, i64 %89, !dbg !1766
  store i64 %86, ptr %90, align 8, !dbg !1767, !tbaa !399
  store i64 0, ptr %85, align 8, !dbg !1768, !tbaa !399
  %91 = add i32 %1, 1, !dbg !1769
  store i32 %91, ptr %77, align 4, !dbg !1770, !tbaa !188
  store i32 %2, ptr %80, align 4, !dbg !1771, !tbaa !188
  br label %92, !dbg !1772

92:                                               ; preds = %64, %28, %26, %33, %68, %75
  %93 = phi i32 [ 0, %75 ], [ -1, %68 ], [ -1, %33 ], [ -1, %26 ], [ -1, %28 ], [ -1, %64 ], !dbg !1694
  ret i32 %93, !dbg !1773
}

; Function Attrs: mustprogress nofree norecurse nosync nounwind willreturn memory(readwrite, argmem: none, inaccessiblemem: none)
define dso_local signext i32 @sys_map_image(i32 noundef signext %0, i32 noundef signext %1, i32 noundef signext %2) local_unnamed_addr #0 !dbg !1774 {
  call void @llvm.dbg.value(metadata i32 %0, metadata !1776, metadata !DIExpression()), !dbg !1779
  call void @llvm.dbg.value(metadata i32 %1, metadata !1777, metadata !DIExpression()), !dbg !1779
  call void @llvm.dbg.value(metadata i32 %2, metadata !1778, metadata !DIExpression()), !dbg !1779
  call void @llvm.dbg.value(metadata i32 %0, metadata !1325, metadata !DIExpression()), !dbg !1780
  call void @llvm.dbg.value(metadata i32 %1, metadata !1328, metadata !DIExpression()), !dbg !1780
  call void @llvm.dbg.value(metadata i32 %0, metadata !1009, metadata !DIExpression()), !dbg !1783
  %4 = icmp ult i32 %0, 4, !dbg !1785
  br i1 %4, label %5, label %16, !dbg !1786

5:                                                ; preds = %3
  %6 = zext i32 %0 to i64, !dbg !1787
  %7 = getelementptr inbounds [4 x i32], ptr @leaf_parent, i64 0, i64 %6, !dbg !1787
  %8 = load i32, ptr %7, align 4, !dbg !1787, !tbaa !188
  %9 = add i32 %8, -1, !dbg !1788
  call void @llvm.dbg.value(metadata i32 %9, metadata !1018, metadata !DIExpression()), !dbg !1789
  %10 = icmp ult i32 %9, 4, !dbg !1791
  br i1 %10, label %11, label %16, !dbg !1792

11:                                               ; preds = %5
  %12 = zext i32 %9 to i64, !dbg !1793
  %13 = getelementptr inbounds [4 x i32], ptr @middle_parent, i64 0, i64 %12, !dbg !1793
  %14 = load i32, ptr %13, align 4, !dbg !1793, !tbaa !188
  %15 = add i32 %14, -1, !dbg !1794
  br label %16, !dbg !1792

16:                                               ; preds = %11, %5, %3
  %17 = phi i32 [ 4, %3 ], [ %15, %11 ], [ 4, %5 ], !dbg !1786
  call void @llvm.dbg.value(metadata i32 %17, metadata !211, metadata !DIExpression()), !dbg !1795
  %18 = load i32, ptr @current, align 4, !dbg !1797, !tbaa !188
  %19 = icmp eq i32 %18, %17, !dbg !1798
  br i1 %19, label %31, label %20, !dbg !1799

20:                                               ; preds = %16
  call void @llvm.dbg.value(metadata i32 %17, metadata !222, metadata !DIExpression()), !dbg !1800
  call void @llvm.dbg.value(metadata i32 1, metadata !227, metadata !DIExpression()), !dbg !1800
  %21 = icmp ult i32 %17, 4, !dbg !1802
  br i1 %21, label %22, label %31, !dbg !1803

22:                                               ; preds = %20
  %23 = zext i32 %17 to i64, !dbg !1804
  %24 = getelementptr inbounds [4 x i32], ptr @proc_state, i64 0, i64 %23, !dbg !1804
  %25 = load i32, ptr %24, align 4, !dbg !1804, !tbaa !188
  %26 = icmp eq i32 %25, 1, !dbg !1805
  br i1 %26, label %27, label %31, !dbg !1806

27:                                               ; preds = %22
  %28 = getelementptr inbounds [4 x i32], ptr @proc_parent, i64 0, i64 %23, !dbg !1807
  %29 = load i32, ptr %28, align 4, !dbg !1807, !tbaa !188
  %30 = icmp eq i32 %29, %18, !dbg !1808
  br label %31

31:                                               ; preds = %27, %22, %20, %16
  %32 = phi i1 [ true, %16 ], [ false, %22 ], [ false, %20 ], [ %30, %27 ]
  %33 = icmp ult i32 %1, 8
  %34 = and i1 %33, %32, !dbg !1809
  br i1 %34, label %35, label %42, !dbg !1809

35:                                               ; preds = %31
  %36 = zext i32 %0 to i64, !dbg !1810
  %37 = getelementptr inbounds [4 x %struct.leaf], ptr @leaves, i64 0, i64 %36, !dbg !1810
  %38 = zext i32 %1 to i64, !dbg !1810
  %39 = getelementptr inbounds [8 x i64], ptr %37, i64 0, i64 %38, !dbg !1810
  %40 = load i64, ptr %39, align 8, !dbg !1810, !tbaa !399
  %41 = icmp ne i64 %40, 0, !dbg !1811
  br label %42

42:                                               ; preds = %31, %35
  %43 = phi i1 [ true, %31 ], [ %41, %35 ]
  %44 = icmp ugt i32 %2, 2
  %45 = or i1 %44, %43, !dbg !1812
  br i1 %45, label %54, label %46, !dbg !1812

46:                                               ; preds = %42
  %47 = zext i32 %2 to i64, !dbg !1813
  %48 = shl nuw nsw i64 %47, 10, !dbg !1813
  %49 = add nuw nsw i64 %48, 536936667, !dbg !1813
  %50 = zext i32 %0 to i64, !dbg !1814
  %51 = getelementptr inbounds [4 x %struct.leaf], ptr @leaves, i64 0, i64 %50, !dbg !1814
  %52 = zext i32 %1 to i64, !dbg !1814
  %53 = getelementptr inbounds [8 x i64], ptr %51, i64 0, i64 %52, !dbg !1814
  store i64 %49, ptr %53, align 8, !dbg !1815, !tbaa !399
  br label %54, !dbg !1816

54:                                               ; preds = %42, %46
  %55 = phi i32 [ 0, %46 ], [ -1, %42 ], !dbg !1779
  ret i32 %55, !dbg !1817
}

; Function Attrs: mustprogress nofree norecurse nosync nounwind willreturn memory(readwrite, argmem: none, inaccessiblemem: none)
define dso_local signext i32 @sys_map_kernel(i32 noundef signext %0, i32 noundef signext %1, i32 noundef signext %2) local_unnamed_addr #0 !dbg !1818 {
  call void @llvm.dbg.value(metadata i32 %0, metadata !1820, metadata !DIExpression()), !dbg !1823
  call void @llvm.dbg.value(metadata i32 %1, metadata !1821, metadata !DIExpression()), !dbg !1823
  call void @llvm.dbg.value(metadata i32 %2, metadata !1822, metadata !DIExpression()), !dbg !1823
  call void @llvm.dbg.value(metadata i32 %0, metadata !1325, metadata !DIExpression()), !dbg !1824
  call void @llvm.dbg.value(metadata i32 %1, metadata !1328, metadata !DIExpression()), !dbg !1824
  call void @llvm.dbg.value(metadata i32 %0, metadata !1009, metadata !DIExpression()), !dbg !1827
  %4 = icmp ult i32 %0, 4, !dbg !1829
  br i1 %4, label %5, label %16, !dbg !1830

5:                                                ; preds = %3
  %6 = zext i32 %0 to i64, !dbg !1831
  %7 = getelementptr inbounds [4 x i32], ptr @leaf_parent, i64 0, i64 %6, !dbg !1831
  %8 = load i32, ptr %7, align 4, !dbg !1831, !tbaa !188
  %9 = add i32 %8, -1, !dbg !1832
  call void @llvm.dbg.value(metadata i32 %9, metadata !1018, metadata !DIExpression()), !dbg !1833
  %10 = icmp ult i32 %9, 4, !dbg !1835
  br i1 %10, label %11, label %16, !dbg !1836

11:                                               ; preds = %5
  %12 = zext i32 %9 to i64, !dbg !1837
  %13 = getelementptr inbounds [4 x i32], ptr @middle_parent, i64 0, i64 %12, !dbg !1837
  %14 = load i32, ptr %13, align 4, !dbg !1837, !tbaa !188
  %15 = add i32 %14, -1, !dbg !1838
  br label %16, !dbg !1836

16:                                               ; preds = %11, %5, %3
  %17 = phi i32 [ 4, %3 ], [ %15, %11 ], [ 4, %5 ], !dbg !1830
  call void @llvm.dbg.value(metadata i32 %17, metadata !211, metadata !DIExpression()), !dbg !1839
  %18 = load i32, ptr @current, align 4, !dbg !1841, !tbaa !188
  %19 = icmp eq i32 %18, %17, !dbg !1842
  br i1 %19, label %31, label %20, !dbg !1843

20:                                               ; preds = %16
  call void @llvm.dbg.value(metadata i32 %17, metadata !222, metadata !DIExpression()), !dbg !1844
  call void @llvm.dbg.value(metadata i32 1, metadata !227, metadata !DIExpression()), !dbg !1844
  %21 = icmp ult i32 %17, 4, !dbg !1846
  br i1 %21, label %22, label %31, !dbg !1847

22:                                               ; preds = %20
  %23 = zext i32 %17 to i64, !dbg !1848
  %24 = getelementptr inbounds [4 x i32], ptr @proc_state, i64 0, i64 %23, !dbg !1848
  %25 = load i32, ptr %24, align 4, !dbg !1848, !tbaa !188
  %26 = icmp eq i32 %25, 1, !dbg !1849
  br i1 %26, label %27, label %31, !dbg !1850

27:                                               ; preds = %22
  %28 = getelementptr inbounds [4 x i32], ptr @proc_parent, i64 0, i64 %23, !dbg !1851
  %29 = load i32, ptr %28, align 4, !dbg !1851, !tbaa !188
  %30 = icmp eq i32 %29, %18, !dbg !1852
  br label %31

31:                                               ; preds = %27, %22, %20, %16
  %32 = phi i1 [ true, %16 ], [ false, %22 ], [ false, %20 ], [ %30, %27 ]
  %33 = icmp ult i32 %1, 8
  %34 = and i1 %33, %32, !dbg !1853
  br i1 %34, label %35, label %42, !dbg !1853

35:                                               ; preds = %31
  %36 = zext i32 %0 to i64, !dbg !1854
  %37 = getelementptr inbounds [4 x %struct.leaf], ptr @leaves, i64 0, i64 %36, !dbg !1854
  %38 = zext i32 %1 to i64, !dbg !1854
  %39 = getelementptr inbounds [8 x i64], ptr %37, i64 0, i64 %38, !dbg !1854
  %40 = load i64, ptr %39, align 8, !dbg !1854, !tbaa !399
  %41 = icmp ne i64 %40, 0, !dbg !1855
  br label %42

42:                                               ; preds = %31, %35
  %43 = phi i1 [ true, %31 ], [ %41, %35 ]
  %44 = icmp ne i32 %2, 0
  %45 = or i1 %44, %43, !dbg !1856
  br i1 %45, label %51, label %46, !dbg !1856

46:                                               ; preds = %42
  %47 = zext i32 %0 to i64, !dbg !1857
  %48 = getelementptr inbounds [4 x %struct.leaf], ptr @leaves, i64 0, i64 %47, !dbg !1857
  %49 = zext i32 %1 to i64, !dbg !1857
  %50 = getelementptr inbounds [8 x i64], ptr %48, i64 0, i64 %49, !dbg !1857
  store i64 536903891, ptr %50, align 8, !dbg !1858, !tbaa !399
  br label %51, !dbg !1859

51:                                               ; preds = %42, %46
  %52 = phi i32 [ 0, %46 ], [ -1, %42 ], !dbg !1823
  ret i32 %52, !dbg !1860
}

; Function Attrs: mustprogress nofree norecurse nosync nounwind willreturn memory(readwrite, argmem: none, inaccessiblemem: none)
define dso_local signext i32 @sys_unmap(i32 noundef signext %0, i32 noundef signext %1) local_unnamed_addr #0 !dbg !1861 {
  call void @llvm.dbg.value(metadata i32 %0, metadata !1863, metadata !DIExpression()), !dbg !1866
  call void @llvm.dbg.value(metadata i32 %1, metadata !1864, metadata !DIExpression()), !dbg !1866
  call void @llvm.dbg.value(metadata i32 %0, metadata !1009, metadata !DIExpression()), !dbg !1867
  %3 = icmp ult i32 %0, 4, !dbg !1870
  br i1 %3, label %4, label %15, !dbg !1871

4:                                                ; preds = %2
  %5 = zext i32 %0 to i64, !dbg !1872
  %6 = getelementptr inbounds [4 x i32], ptr @leaf_parent, i64 0, i64 %5, !dbg !1872
  %7 = load i32, ptr %6, align 4, !dbg !1872, !tbaa !188
  %8 = add i32 %7, -1, !dbg !1873
  call void @llvm.dbg.value(metadata i32 %8, metadata !1018, metadata !DIExpression()), !dbg !1874
  %9 = icmp ult i32 %8, 4, !dbg !1876
  br i1 %9, label %10, label %15, !dbg !1877

10:                                               ; preds = %4
  %11 = zext i32 %8 to i64, !dbg !1878
  %12 = getelementptr inbounds [4 x i32], ptr @middle_parent, i64 0, i64 %11, !dbg !1878
  %13 = load i32, ptr %12, align 4, !dbg !1878, !tbaa !188
  %14 = add i32 %13, -1, !dbg !1879
  br label %15, !dbg !1877

15:                                               ; preds = %2, %4, %10
  %16 = phi i32 [ 4, %2 ], [ %14, %10 ], [ 4, %4 ], !dbg !1871
  call void @llvm.dbg.value(metadata i32 %16, metadata !531, metadata !DIExpression()), !dbg !1880
  %17 = load i32, ptr @current, align 4, !dbg !1882, !tbaa !188
  %18 = icmp eq i32 %17, %16, !dbg !1883
  br i1 %18, label %35, label %19, !dbg !1884

19:                                               ; preds = %15
  call void @llvm.dbg.value(metadata i32 %16, metadata !222, metadata !DIExpression()), !dbg !1885
  call void @llvm.dbg.value(metadata i32 1, metadata !227, metadata !DIExpression()), !dbg !1885
  %20 = icmp ugt i32 %16, 3, !dbg !1887
  br i1 %20, label %35, label %21, !dbg !1888

21:                                               ; preds = %19
  %22 = zext i32 %16 to i64, !dbg !1889
  %23 = getelementptr inbounds [4 x i32], ptr @proc_state, i64 0, i64 %22, !dbg !1889
  %24 = load i32, ptr %23, align 4, !dbg !1889, !tbaa !188
  switch i32 %24, label %35 [
    i32 1, label %25
    i32 4, label %31
  ], !dbg !1890

25:                                               ; preds = %21
  %26 = getelementptr inbounds [4 x i32], ptr @proc_parent, i64 0, i64 %22, !dbg !1891
  %27 = load i32, ptr %26, align 4, !dbg !1891, !tbaa !188
  %28 = icmp eq i32 %27, %17, !dbg !1892
  br i1 %28, label %35, label %29, !dbg !1893

29:                                               ; preds = %25
  %30 = icmp eq i32 %24, 4, !dbg !1894
  br i1 %30, label %31, label %35, !dbg !1896

31:                                               ; preds = %21, %29
  %32 = getelementptr inbounds [4 x i32], ptr @proc_parent, i64 0, i64 %22, !dbg !1897
  %33 = load i32, ptr %32, align 4, !dbg !1897, !tbaa !188
  %34 = icmp eq i32 %33, %17, !dbg !1898
  br label %35

35:                                               ; preds = %21, %15, %19, %25, %29, %31
  %36 = phi i1 [ %28, %25 ], [ true, %15 ], [ false, %29 ], [ %34, %31 ], [ false, %19 ], [ false, %21 ]
  %37 = icmp ult i32 %1, 8
  %38 = and i1 %37, %36, !dbg !1899
  br i1 %38, label %39, label %47, !dbg !1899

39:                                               ; preds = %35
  %40 = zext i32 %0 to i64, !dbg !1900
  %41 = getelementptr inbounds [4 x %struct.leaf], ptr @leaves, i64 0, i64 %40, !dbg !1900
  %42 = zext i32 %1 to i64, !dbg !1900
  %43 = getelementptr inbounds [8 x i64], ptr %41, i64 0, i64 %42, !dbg !1900
  %44 = load i64, ptr %43, align 8, !dbg !1900, !tbaa !399
  %45 = lshr i64 %44, 10, !dbg !1901
  call void @llvm.dbg.value(metadata i64 %45, metadata !1865, metadata !DIExpression()), !dbg !1866
  switch i64 %45, label %47 [
    i64 524354, label %46
    i64 524353, label %46
    i64 524352, label %46
    i64 524320, label %46
  ], !dbg !1902

46:                                               ; preds = %39, %39, %39, %39
  store i64 0, ptr %43, align 8, !dbg !1904, !tbaa !399
  br label %47, !dbg !1905

47:                                               ; preds = %39, %46, %35
  %48 = phi i32 [ -1, %35 ], [ 0, %46 ], [ -1, %39 ], !dbg !1866
  ret i32 %48, !dbg !1906
}

; Function Attrs: mustprogress nofree norecurse nosync nounwind willreturn memory(readwrite, argmem: none, inaccessiblemem: none)
define dso_local signext i32 @sys_alloc_port(i32 noundef signext %0) local_unnamed_addr #0 !dbg !1907 {
  call void @llvm.dbg.value(metadata i32 %0, metadata !1909, metadata !DIExpression()), !dbg !1910
  %2 = icmp ugt i32 %0, 1, !dbg !1911
  br i1 %2, label %11, label %3, !dbg !1913

3:                                                ; preds = %1
  %4 = zext i32 %0 to i64, !dbg !1914
  %5 = getelementptr inbounds [2 x i32], ptr @port_owner, i64 0, i64 %4, !dbg !1914
  %6 = load i32, ptr %5, align 4, !dbg !1914, !tbaa !188
  %7 = icmp eq i32 %6, 0, !dbg !1915
  br i1 %7, label %8, label %11, !dbg !1916

8:                                                ; preds = %3
  %9 = load i32, ptr @current, align 4, !dbg !1917, !tbaa !188
  %10 = add i32 %9, 1, !dbg !1918
  store i32 %10, ptr %5, align 4, !dbg !1919, !tbaa !188
  br label %11, !dbg !1920

11:                                               ; preds = %1, %3, %8
  %12 = phi i32 [ 0, %8 ], [ -1, %3 ], [ -1, %1 ], !dbg !1910
  ret i32 %12, !dbg !1921
}

; Function Attrs: mustprogress nofree norecurse nosync nounwind willreturn memory(readwrite, argmem: none, inaccessiblemem: none)
define dso_local signext i32 @sys_free_port(i32 noundef signext %0) local_unnamed_addr #0 !dbg !1922 {
  call void @llvm.dbg.value(metadata i32 %0, metadata !1924, metadata !DIExpression()), !dbg !1925
  %2 = icmp ugt i32 %0, 1, !dbg !1926
  br i1 %2, label %29, label %3, !dbg !1928

3:                                                ; preds = %1
  %4 = zext i32 %0 to i64, !dbg !1929
  %5 = getelementptr inbounds [2 x i32], ptr @port_owner, i64 0, i64 %4, !dbg !1929
  %6 = load i32, ptr %5, align 4, !dbg !1929, !tbaa !188
  %7 = add i32 %6, -1, !dbg !1930
  call void @llvm.dbg.value(metadata i32 %7, metadata !531, metadata !DIExpression()), !dbg !1931
  %8 = load i32, ptr @current, align 4, !dbg !1933, !tbaa !188
  %9 = icmp eq i32 %8, %7, !dbg !1934
  br i1 %9, label %28, label %10, !dbg !1935

10:                                               ; preds = %3
  call void @llvm.dbg.value(metadata i32 %7, metadata !222, metadata !DIExpression()), !dbg !1936
  call void @llvm.dbg.value(metadata i32 1, metadata !227, metadata !DIExpression()), !dbg !1936
  %11 = icmp ugt i32 %7, 3, !dbg !1938
  br i1 %11, label %29, label %12, !dbg !1939

12:                                               ; preds = %10
  %13 = zext i32 %7 to i64, !dbg !1940
  %14 = getelementptr inbounds [4 x i32], ptr @proc_state, i64 0, i64 %13, !dbg !1940
  %15 = load i32, ptr %14, align 4, !dbg !1940, !tbaa !188
  switch i32 %15, label %29 [
    i32 1, label %16
    i32 4, label %22
  ], !dbg !1941

16:                                               ; preds = %12
  %17 = getelementptr inbounds [4 x i32], ptr @proc_parent, i64 0, i64 %13, !dbg !1942
  %18 = load i32, ptr %17, align 4, !dbg !1942, !tbaa !188
  %19 = icmp eq i32 %18, %8, !dbg !1943
  br i1 %19, label %26, label %20, !dbg !1944

20:                                               ; preds = %16
  %21 = icmp eq i32 %15, 4, !dbg !1945
  br i1 %21, label %22, label %29, !dbg !1947

22:                                               ; preds = %12, %20
  %23 = getelementptr inbounds [4 x i32], ptr @proc_parent, i64 0, i64 %13, !dbg !1948
  %24 = load i32, ptr %23, align 4, !dbg !1948, !tbaa !188
  %25 = icmp eq i32 %24, %8, !dbg !1949
  br label %26

26:                                               ; preds = %16, %22
  %27 = phi i1 [ %19, %16 ], [ %25, %22 ]
  br i1 %27, label %28, label %29, !dbg !1950

28:                                               ; preds = %3, %26
  store i32 0, ptr %5, align 4, !dbg !1951, !tbaa !188
  br label %29, !dbg !1952

29:                                               ; preds = %20, %10, %12, %1, %26, %28
  %30 = phi i32 [ 0, %28 ], [ -1, %26 ], [ -1, %1 ], [ -1, %12 ], [ -1, %10 ], [ -1, %20 ], !dbg !1925
  ret i32 %30, !dbg !1953
}

; Function Attrs: nounwind
define dso_local signext i32 @sys_port_out(i32 noundef signext %0, i32 noundef signext %1) local_unnamed_addr #1 !dbg !1954 {
  call void @llvm.dbg.value(metadata i32 %0, metadata !1956, metadata !DIExpression()), !dbg !1958
  call void @llvm.dbg.value(metadata i32 %1, metadata !1957, metadata !DIExpression()), !dbg !1958
  %3 = icmp ugt i32 %0, 1, !dbg !1959
  br i1 %3, label %12, label %4, !dbg !1961

4:                                                ; preds = %2
  %5 = zext i32 %0 to i64, !dbg !1962
  %6 = getelementptr inbounds [2 x i32], ptr @port_owner, i64 0, i64 %5, !dbg !1962
  %7 = load i32, ptr %6, align 4, !dbg !1962, !tbaa !188
  %8 = load i32, ptr @current, align 4, !dbg !1963, !tbaa !188
  %9 = add i32 %8, 1, !dbg !1964
  %10 = icmp eq i32 %7, %9, !dbg !1965
  br i1 %10, label %11, label %12, !dbg !1966

11:                                               ; preds = %4
  tail call void @port_out(i32 noundef signext %0, i32 noundef signext %1) #6, !dbg !1967
  br label %12, !dbg !1968

12:                                               ; preds = %2, %4, %11
  %13 = phi i32 [ 0, %11 ], [ -1, %4 ], [ -1, %2 ], !dbg !1958
  ret i32 %13, !dbg !1969
}

declare !dbg !1970 dso_local void @port_out(i32 noundef signext, i32 noundef signext) local_unnamed_addr #2

; Function Attrs: mustprogress nofree norecurse nosync nounwind willreturn memory(readwrite, argmem: none, inaccessiblemem: none)
define dso_local signext i32 @sys_alloc_vector(i32 noundef signext %0) local_unnamed_addr #0 !dbg !1971 {
  call void @llvm.dbg.value(metadata i32 %0, metadata !1973, metadata !DIExpression()), !dbg !1974
  %2 = icmp ugt i32 %0, 1, !dbg !1975
  br i1 %2, label %12, label %3, !dbg !1977

3:                                                ; preds = %1
  %4 = zext i32 %0 to i64, !dbg !1978
  %5 = getelementptr inbounds [2 x i32], ptr @vector_owner, i64 0, i64 %4, !dbg !1978
  %6 = load i32, ptr %5, align 4, !dbg !1978, !tbaa !188
  %7 = icmp eq i32 %6, 0, !dbg !1979
  br i1 %7, label %8, label %12, !dbg !1980

8:                                                ; preds = %3
  %9 = load i32, ptr @current, align 4, !dbg !1981, !tbaa !188
  %10 = add i32 %9, 1, !dbg !1982
  store i32 %10, ptr %5, align 4, !dbg !1983, !tbaa !188
  %11 = getelementptr inbounds [2 x i32], ptr @vector_pending, i64 0, i64 %4, !dbg !1984
  store i32 0, ptr %11, align 4, !dbg !1985, !tbaa !188
  br label %12, !dbg !1986

12:                                               ; preds = %1, %3, %8
  %13 = phi i32 [ 0, %8 ], [ -1, %3 ], [ -1, %1 ], !dbg !1974
  ret i32 %13, !dbg !1987
}

; Function Attrs: nofree norecurse nosync nounwind memory(readwrite, argmem: none, inaccessiblemem: none)
define dso_local signext i32 @sys_free_vector(i32 noundef signext %0) local_unnamed_addr #3 !dbg !1988 {
  call void @llvm.dbg.value(metadata i32 %0, metadata !1990, metadata !DIExpression()), !dbg !1994
  call void @llvm.dbg.value(metadata i32 0, metadata !1991, metadata !DIExpression()), !dbg !1994
  %2 = icmp ugt i32 %0, 1, !dbg !1995
  br i1 %2, label %78, label %3, !dbg !1997

3:                                                ; preds = %1
  %4 = zext i32 %0 to i64, !dbg !1998
  %5 = getelementptr inbounds [2 x i32], ptr @vector_owner, i64 0, i64 %4, !dbg !1998
  %6 = load i32, ptr %5, align 4, !dbg !1998, !tbaa !188
  %7 = add i32 %6, -1, !dbg !1999
  call void @llvm.dbg.value(metadata i32 %7, metadata !531, metadata !DIExpression()), !dbg !2000
  %8 = load i32, ptr @current, align 4, !dbg !2002, !tbaa !188
  %9 = icmp eq i32 %8, %7, !dbg !2003
  br i1 %9, label %28, label %10, !dbg !2004

10:                                               ; preds = %3
  call void @llvm.dbg.value(metadata i32 %7, metadata !222, metadata !DIExpression()), !dbg !2005
  call void @llvm.dbg.value(metadata i32 1, metadata !227, metadata !DIExpression()), !dbg !2005
  %11 = icmp ugt i32 %7, 3, !dbg !2007
  br i1 %11, label %78, label %12, !dbg !2008

12:                                               ; preds = %10
  %13 = zext i32 %7 to i64, !dbg !2009
  %14 = getelementptr inbounds [4 x i32], ptr @proc_state, i64 0, i64 %13, !dbg !2009
  %15 = load i32, ptr %14, align 4, !dbg !2009, !tbaa !188
  switch i32 %15, label %78 [
    i32 1, label %16
    i32 4, label %22
  ], !dbg !2010

16:                                               ; preds = %12
  %17 = getelementptr inbounds [4 x i32], ptr @proc_parent, i64 0, i64 %13, !dbg !2011
  %18 = load i32, ptr %17, align 4, !dbg !2011, !tbaa !188
  %19 = icmp eq i32 %18, %8, !dbg !2012
  br i1 %19, label %26, label %20, !dbg !2013

20:                                               ; preds = %16
  %21 = icmp eq i32 %15, 4, !dbg !2014
  br i1 %21, label %22, label %78, !dbg !2016

22:                                               ; preds = %12, %20
  %23 = getelementptr inbounds [4 x i32], ptr @proc_parent, i64 0, i64 %13, !dbg !2017
  %24 = load i32, ptr %23, align 4, !dbg !2017, !tbaa !188
  %25 = icmp eq i32 %24, %8, !dbg !2018
  br label %26

26:                                               ; preds = %16, %22
  %27 = phi i1 [ %19, %16 ], [ %25, %22 ]
  br i1 %27, label %28, label %78, !dbg !2019

28:                                               ; preds = %3, %26
  call void @llvm.dbg.value(metadata i32 0, metadata !1992, metadata !DIExpression()), !dbg !2020
  call void @llvm.dbg.value(metadata i32 0, metadata !1991, metadata !DIExpression()), !dbg !1994
  %29 = add i32 %0, 1
  call void @llvm.dbg.value(metadata i64 0, metadata !1992, metadata !DIExpression()), !dbg !2020
  call void @llvm.dbg.value(metadata i32 0, metadata !1991, metadata !DIExpression()), !dbg !1994
  %30 = load i32, ptr @source_vector, align 4, !dbg !2021, !tbaa !188
  %31 = icmp eq i32 %30, %29, !dbg !2023
  call void @llvm.dbg.value(metadata i1 %31, metadata !1991, metadata !DIExpression(DW_OP_LLVM_convert, 1, DW_ATE_unsigned, DW_OP_LLVM_convert, 32, DW_ATE_unsigned, DW_OP_stack_value)), !dbg !1994
  call void @llvm.dbg.value(metadata i64 1, metadata !1992, metadata !DIExpression()), !dbg !2020
  call void @llvm.dbg.value(metadata i64 1, metadata !1992, metadata !DIExpression()), !dbg !2020
  call void @llvm.dbg.value(metadata i1 %31, metadata !1991, metadata !DIExpression(DW_OP_LLVM_convert, 1, DW_ATE_unsigned, DW_OP_LLVM_convert, 32, DW_ATE_unsigned, DW_OP_stack_value)), !dbg !1994
  %32 = load i32, ptr getelementptr inbounds ([16 x i32], ptr @source_vector, i64 0, i64 1), align 4, !dbg !2021, !tbaa !188
  %33 = icmp eq i32 %32, %29, !dbg !2023
  %34 = or i1 %31, %33, !dbg !2024
  call void @llvm.dbg.value(metadata i1 %34, metadata !1991, metadata !DIExpression(DW_OP_LLVM_convert, 1, DW_ATE_unsigned, DW_OP_LLVM_convert, 32, DW_ATE_unsigned, DW_OP_stack_value)), !dbg !1994
  call void @llvm.dbg.value(metadata i64 2, metadata !1992, metadata !DIExpression()), !dbg !2020
  call void @llvm.dbg.value(metadata i64 2, metadata !1992, metadata !DIExpression()), !dbg !2020
  call void @llvm.dbg.value(metadata i1 %34, metadata !1991, metadata !DIExpression(DW_OP_LLVM_convert, 1, DW_ATE_unsigned, DW_OP_LLVM_convert, 32, DW_ATE_unsigned, DW_OP_stack_value)), !dbg !1994
  %35 = load i32, ptr getelementptr inbounds ([16 x i32], ptr @source_vector, i64 0, i64 2), align 4, !dbg !2021, !tbaa !188
  %36 = icmp eq i32 %35, %29, !dbg !2023
  %37 = or i1 %34, %36, !dbg !2024
  call void @llvm.dbg.value(metadata i1 %37, metadata !1991, metadata !DIExpression(DW_OP_LLVM_convert, 1, DW_ATE_unsigned, DW_OP_LLVM_convert, 32, DW_ATE_unsigned, DW_OP_stack_value)), !dbg !1994
  call void @llvm.dbg.value(metadata i64 3, metadata !1992, metadata !DIExpression()), !dbg !2020
  call void @llvm.dbg.value(metadata i64 3, metadata !1992, metadata !DIExpression()), !dbg !2020
  call void @llvm.dbg.value(metadata i1 %37, metadata !1991, metadata !DIExpression(DW_OP_LLVM_convert, 1, DW_ATE_unsigned, DW_OP_LLVM_convert, 32, DW_ATE_unsigned, DW_OP_stack_value)), !dbg !1994
  %38 = load i32, ptr getelementptr inbounds ([16 x i32], ptr @source_vector, i64 0, i64 3), align 4, !dbg !2021, !tbaa !188
  %39 = icmp eq i32 %38, %29, !dbg !2023
  %40 = or i1 %37, %39, !dbg !2024
  call void @llvm.dbg.value(metadata i1 %40, metadata !1991, metadata !DIExpression(DW_OP_LLVM_convert, 1, DW_ATE_unsigned, DW_OP_LLVM_convert, 32, DW_ATE_unsigned, DW_OP_stack_value)), !dbg !1994
  call void @llvm.dbg.value(metadata i64 4, metadata !1992, metadata !DIExpression()), !dbg !2020
  call void @llvm.dbg.value(metadata i64 4, metadata !1992, metadata !DIExpression()), !dbg !2020
  call void @llvm.dbg.value(metadata i1 %40, metadata !1991, metadata !DIExpression(DW_OP_LLVM_convert, 1, DW_ATE_unsigned, DW_OP_LLVM_convert, 32, DW_ATE_unsigned, DW_OP_stack_value)), !dbg !1994
  %41 = load i32, ptr getelementptr inbounds ([16 x i32], ptr @source_vector, i64 0, i64 4), align 4, !dbg !2021, !tbaa !188
  %42 = icmp eq i32 %41, %29, !dbg !2023
  %43 = or i1 %40, %42, !dbg !2024
  call void @llvm.dbg.value(metadata i1 %43, metadata !1991, metadata !DIExpression(DW_OP_LLVM_convert, 1, DW_ATE_unsigned, DW_OP_LLVM_convert, 32, DW_ATE_unsigned, DW_OP_stack_value)), !dbg !1994
  call void @llvm.dbg.value(metadata i64 5, metadata !1992, metadata !DIExpression()), !dbg !2020
  call void @llvm.dbg.value(metadata i64 5, metadata !1992, metadata !DIExpression()), !dbg !2020
  call void @llvm.dbg.value(metadata i1 %43, metadata !1991, metadata !DIExpression(DW_OP_LLVM_convert, 1, DW_ATE_unsigned, DW_OP_LLVM_convert, 32, DW_ATE_unsigned, DW_OP_stack_value)), !dbg !1994
  %44 = load i32, ptr getelementptr inbounds ([16 x i32], ptr @source_vector, i64 0, i64 5), align 4, !dbg !2021, !tbaa !188
  %45 = icmp eq i32 %44, %29, !dbg !2023
  %46 = or i1 %43, %45, !dbg !2024
  call void @llvm.dbg.value(metadata i1 %46, metadata !1991, metadata !DIExpression(DW_OP_LLVM_convert, 1, DW_ATE_unsigned, DW_OP_LLVM_convert, 32, DW_ATE_unsigned, DW_OP_stack_value)), !dbg !1994
  call void @llvm.dbg.value(metadata i64 6, metadata !1992, metadata !DIExpression()), !dbg !2020
  call void @llvm.dbg.value(metadata i64 6, metadata !1992, metadata !DIExpression()), !dbg !2020
  call void @llvm.dbg.value(metadata i1 %46, metadata !1991, metadata !DIExpression(DW_OP_LLVM_convert, 1, DW_ATE_unsigned, DW_OP_LLVM_convert, 32, DW_ATE_unsigned, DW_OP_stack_value)), !dbg !1994
  %47 = load i32, ptr getelementptr inbounds ([16 x i32], ptr @source_vector, i64 0, i64 6), align 4, !dbg !2021, !tbaa !188
  %48 = icmp eq i32 %47, %29, !dbg !2023
  %49 = or i1 %46, %48, !dbg !2024
  call void @llvm.dbg.value(metadata i1 %49, metadata !1991, metadata !DIExpression(DW_OP_LLVM_convert, 1, DW_ATE_unsigned, DW_OP_LLVM_convert, 32, DW_ATE_unsigned, DW_OP_stack_value)), !dbg !1994
  call void @llvm.dbg.value(metadata i64 7, metadata !1992, metadata !DIExpression()), !dbg !2020
  call void @llvm.dbg.value(metadata i64 7, metadata !1992, metadata !DIExpression()), !dbg !2020
  call void @llvm.dbg.value(metadata i1 %49, metadata !1991, metadata !DIExpression(DW_OP_LLVM_convert, 1, DW_ATE_unsigned, DW_OP_LLVM_convert, 32, DW_ATE_unsigned, DW_OP_stack_value)), !dbg !1994
  %50 = load i32, ptr getelementptr inbounds ([16 x i32], ptr @source_vector, i64 0, i64 7), align 4, !dbg !2021, !tbaa !188
  %51 = icmp eq i32 %50, %29, !dbg !2023
  %52 = or i1 %49, %51, !dbg !2024
  call void @llvm.dbg.value(metadata i1 %52, metadata !1991, metadata !DIExpression(DW_OP_LLVM_convert, 1, DW_ATE_unsigned, DW_OP_LLVM_convert, 32, DW_ATE_unsigned, DW_OP_stack_value)), !dbg !1994
  call void @llvm.dbg.value(metadata i64 8, metadata !1992, metadata !DIExpression()), !dbg !2020
  call void @llvm.dbg.value(metadata i64 8, metadata !1992, metadata !DIExpression()), !dbg !2020
  call void @llvm.dbg.value(metadata i1 %52, metadata !1991, metadata !DIExpression(DW_OP_LLVM_convert, 1, DW_ATE_unsigned, DW_OP_LLVM_convert, 32, DW_ATE_unsigned, DW_OP_stack_value)), !dbg !1994
  %53 = load i32, ptr getelementptr inbounds ([16 x i32], ptr @source_vector, i64 0, i64 8), align 4, !dbg !2021, !tbaa !188
  %54 = icmp eq i32 %53, %29, !dbg !2023
  %55 = or i1 %52, %54, !dbg !2024
  call void @llvm.dbg.value(metadata i1 %55, metadata !1991, metadata !DIExpression(DW_OP_LLVM_convert, 1, DW_ATE_unsigned, DW_OP_LLVM_convert, 32, DW_ATE_unsigned, DW_OP_stack_value)), !dbg !1994
  call void @llvm.dbg.value(metadata i64 9, metadata !1992, metadata !DIExpression()), !dbg !2020
  call void @llvm.dbg.value(metadata i64 9, metadata !1992, metadata !DIExpression()), !dbg !2020
  call void @llvm.dbg.value(metadata i1 %55, metadata !1991, metadata !DIExpression(DW_OP_LLVM_convert, 1, DW_ATE_unsigned, DW_OP_LLVM_convert, 32, DW_ATE_unsigned, DW_OP_stack_value)), !dbg !1994
  %56 = load i32, ptr getelementptr inbounds ([16 x i32], ptr @source_vector, i64 0, i64 9), align 4, !dbg !2021, !tbaa !188
  %57 = icmp eq i32 %56, %29, !dbg !2023
  %58 = or i1 %55, %57, !dbg !2024
  call void @llvm.dbg.value(metadata i1 %58, metadata !1991, metadata !DIExpression(DW_OP_LLVM_convert, 1, DW_ATE_unsigned, DW_OP_LLVM_convert, 32, DW_ATE_unsigned, DW_OP_stack_value)), !dbg !1994
  call void @llvm.dbg.value(metadata i64 10, metadata !1992, metadata !DIExpression()), !dbg !2020
  call void @llvm.dbg.value(metadata i64 10, metadata !1992, metadata !DIExpression()), !dbg !2020
  call void @llvm.dbg.value(metadata i1 %58, metadata !1991, metadata !DIExpression(DW_OP_LLVM_convert, 1, DW_ATE_unsigned, DW_OP_LLVM_convert, 32, DW_ATE_unsigned, DW_OP_stack_value)), !dbg !1994
  %59 = load i32, ptr getelementptr inbounds ([16 x i32], ptr @source_vector, i64 0, i64 10), align 4, !dbg !2021, !tbaa !188
  %60 = icmp eq i32 %59, %29, !dbg !2023
  %61 = or i1 %58, %60, !dbg !2024
  call void @llvm.dbg.value(metadata i1 %61, metadata !1991, metadata !DIExpression(DW_OP_LLVM_convert, 1, DW_ATE_unsigned, DW_OP_LLVM_convert, 32, DW_ATE_unsigned, DW_OP_stack_value)), !dbg !1994
  call void @llvm.dbg.value(metadata i64 11, metadata !1992, metadata !DIExpression()), !dbg !2020
  call void @llvm.dbg.value(metadata i64 11, metadata !1992, metadata !DIExpression()), !dbg !2020
  call void @llvm.dbg.value(metadata i1 %61, metadata !1991, metadata !DIExpression(DW_OP_LLVM_convert, 1, DW_ATE_unsigned, DW_OP_LLVM_convert, 32, DW_ATE_unsigned, DW_OP_stack_value)), !dbg !1994
  %62 = load i32, ptr getelementptr inbounds ([16 x i32], ptr @source_vector, i64 0, i64 11), align 4, !dbg !2021, !tbaa !188
  %63 = icmp eq i32 %62, %29, !dbg !2023
  %64 = or i1 %61, %63, !dbg !2024
  call void @llvm.dbg.value(metadata i1 %64, metadata !1991, metadata !DIExpression(DW_OP_LLVM_convert, 1, DW_ATE_unsigned, DW_OP_LLVM_convert, 32, DW_ATE_unsigned, DW_OP_stack_value)), !dbg !1994
  call void @llvm.dbg.value(metadata i64 12, metadata !1992, metadata !DIExpression()), !dbg !2020
  call void @llvm.dbg.value(metadata i64 12, metadata !1992, metadata !DIExpression()), !dbg !2020
  call void @llvm.dbg.value(metadata i1 %64, metadata !1991, metadata !DIExpression(DW_OP_LLVM_convert, 1, DW_ATE_unsigned, DW_OP_LLVM_convert, 32, DW_ATE_unsigned, DW_OP_stack_value)), !dbg !1994
  %65 = load i32, ptr getelementptr inbounds ([16 x i32], ptr @source_vector, i64 0, i64 12), align 4, !dbg !2021, !tbaa !188
  %66 = icmp eq i32 %65, %29, !dbg !2023
  %67 = or i1 %64, %66, !dbg !2024
  call void @llvm.dbg.value(metadata i1 %67, metadata !1991, metadata !DIExpression(DW_OP_LLVM_convert, 1, DW_ATE_unsigned, DW_OP_LLVM_convert, 32, DW_ATE_unsigned, DW_OP_stack_value)), !dbg !1994
  call void @llvm.dbg.value(metadata i64 13, metadata !1992, metadata !DIExpression()), !dbg !2020
  call void @llvm.dbg.value(metadata i64 13, metadata !1992, metadata !DIExpression()), !dbg !2020
  call void @llvm.dbg.value(metadata i1 %67, metadata !1991, metadata !DIExpression(DW_OP_LLVM_convert, 1, DW_ATE_unsigned, DW_OP_LLVM_convert, 32, DW_ATE_unsigned, DW_OP_stack_value)), !dbg !1994
  %68 = load i32, ptr getelementptr inbounds ([16 x i32], ptr @source_vector, i64 0, i64 13), align 4, !dbg !2021, !tbaa !188
  %69 = icmp eq i32 %68, %29, !dbg !2023
  %70 = or i1 %67, %69, !dbg !2024
  call void @llvm.dbg.value(metadata i1 %70, metadata !1991, metadata !DIExpression(DW_OP_LLVM_convert, 1, DW_ATE_unsigned, DW_OP_LLVM_convert, 32, DW_ATE_unsigned, DW_OP_stack_value)), !dbg !1994
  call void @llvm.dbg.value(metadata i64 14, metadata !1992, metadata !DIExpression()), !dbg !2020
  call void @llvm.dbg.value(metadata i64 14, metadata !1992, metadata !DIExpression()), !dbg !2020
  call void @llvm.dbg.value(metadata i1 %70, metadata !1991, metadata !DIExpression(DW_OP_LLVM_convert, 1, DW_ATE_unsigned, DW_OP_LLVM_convert, 32, DW_ATE_unsigned, DW_OP_stack_value)), !dbg !1994
  %71 = load i32, ptr getelementptr inbounds ([16 x i32], ptr @source_vector, i64 0, i64 14), align 4, !dbg !2021, !tbaa !188
  %72 = icmp eq i32 %71, %29, !dbg !2023
  %73 = or i1 %70, %72, !dbg !2024
  call void @llvm.dbg.value(metadata i1 %73, metadata !1991, metadata !DIExpression(DW_OP_LLVM_convert, 1, DW_ATE_unsigned, DW_OP_LLVM_convert, 32, DW_ATE_unsigned, DW_OP_stack_value)), !dbg !1994
  call void @llvm.dbg.value(metadata i64 15, metadata !1992, metadata !DIExpression()), !dbg !2020
  call void @llvm.dbg.value(metadata i64 15, metadata !1992, metadata !DIExpression()), !dbg !2020
  call void @llvm.dbg.value(metadata i1 %73, metadata !1991, metadata !DIExpression(DW_OP_LLVM_convert, 1, DW_ATE_unsigned, DW_OP_LLVM_convert, 32, DW_ATE_unsigned, DW_OP_stack_value)), !dbg !1994
  %74 = load i32, ptr getelementptr inbounds ([16 x i32], ptr @source_vector, i64 0, i64 15), align 4, !dbg !2021, !tbaa !188
  %75 = icmp eq i32 %74, %29, !dbg !2023
  %76 = or i1 %73, %75, !dbg !2024
  call void @llvm.dbg.value(metadata i1 %76, metadata !1991, metadata !DIExpression(DW_OP_LLVM_convert, 1, DW_ATE_unsigned, DW_OP_LLVM_convert, 32, DW_ATE_unsigned, DW_OP_stack_value)), !dbg !1994
  call void @llvm.dbg.value(metadata i64 16, metadata !1992, metadata !DIExpression()), !dbg !2020
  br i1 %76, label %78, label %77, !dbg !2025

77:                                               ; preds = %28
  store i32 0, ptr %5, align 4, !dbg !2026, !tbaa !188
  br label %78, !dbg !2027

78:                                               ; preds = %20, %10, %12, %28, %1, %26, %77
  %79 = phi i32 [ 0, %77 ], [ -1, %26 ], [ -1, %1 ], [ -1, %28 ], [ -1, %12 ], [ -1, %10 ], [ -1, %20 ], !dbg !1994
  ret i32 %79, !dbg !2028
}

; Function Attrs: nounwind
define dso_local signext i32 @sys_alloc_source(i32 noundef signext %0, i32 noundef signext %1) local_unnamed_addr #1 !dbg !2029 {
  call void @llvm.dbg.value(metadata i32 %0, metadata !2031, metadata !DIExpression()), !dbg !2033
  call void @llvm.dbg.value(metadata i32 %1, metadata !2032, metadata !DIExpression()), !dbg !2033
  %3 = icmp ugt i32 %0, 15, !dbg !2034
  br i1 %3, label %20, label %4, !dbg !2036

4:                                                ; preds = %2
  %5 = zext i32 %0 to i64, !dbg !2037
  %6 = getelementptr inbounds [16 x i32], ptr @source_vector, i64 0, i64 %5, !dbg !2037
  %7 = load i32, ptr %6, align 4, !dbg !2037, !tbaa !188
  %8 = icmp ne i32 %7, 0, !dbg !2038
  %9 = icmp ugt i32 %1, 1
  %10 = or i1 %9, %8, !dbg !2039
  br i1 %10, label %20, label %11, !dbg !2039

11:                                               ; preds = %4
  %12 = zext i32 %1 to i64, !dbg !2040
  %13 = getelementptr inbounds [2 x i32], ptr @vector_owner, i64 0, i64 %12, !dbg !2040
  %14 = load i32, ptr %13, align 4, !dbg !2040, !tbaa !188
  %15 = load i32, ptr @current, align 4, !dbg !2041, !tbaa !188
  %16 = add i32 %15, 1, !dbg !2042
  %17 = icmp eq i32 %14, %16, !dbg !2043
  br i1 %17, label %18, label %20, !dbg !2044

18:                                               ; preds = %11
  %19 = add i32 %1, 1, !dbg !2045
  store i32 %19, ptr %6, align 4, !dbg !2046, !tbaa !188
  tail call void @irq_enable(i32 noundef signext %0) #6, !dbg !2047
  br label %20, !dbg !2048

20:                                               ; preds = %2, %4, %11, %18
  %21 = phi i32 [ 0, %18 ], [ -1, %11 ], [ -1, %4 ], [ -1, %2 ], !dbg !2033
  ret i32 %21, !dbg !2049
}

declare !dbg !2050 dso_local void @irq_enable(i32 noundef signext) local_unnamed_addr #2

; Function Attrs: nounwind
define dso_local signext i32 @sys_free_source(i32 noundef signext %0) local_unnamed_addr #1 !dbg !2051 {
  call void @llvm.dbg.value(metadata i32 %0, metadata !2053, metadata !DIExpression()), !dbg !2054
  %2 = icmp ugt i32 %0, 15, !dbg !2055
  br i1 %2, label %35, label %3, !dbg !2057

3:                                                ; preds = %1
  %4 = zext i32 %0 to i64, !dbg !2058
  %5 = getelementptr inbounds [16 x i32], ptr @source_vector, i64 0, i64 %4, !dbg !2058
  %6 = load i32, ptr %5, align 4, !dbg !2058, !tbaa !188
  %7 = icmp eq i32 %6, 0, !dbg !2059
  br i1 %7, label %35, label %8, !dbg !2060

8:                                                ; preds = %3
  %9 = add i32 %6, -1, !dbg !2061
  %10 = zext i32 %9 to i64, !dbg !2062
  %11 = getelementptr inbounds [2 x i32], ptr @vector_owner, i64 0, i64 %10, !dbg !2062
  %12 = load i32, ptr %11, align 4, !dbg !2062, !tbaa !188
  %13 = add i32 %12, -1, !dbg !2063
  call void @llvm.dbg.value(metadata i32 %13, metadata !531, metadata !DIExpression()), !dbg !2064
  %14 = load i32, ptr @current, align 4, !dbg !2066, !tbaa !188
  %15 = icmp eq i32 %14, %13, !dbg !2067
  br i1 %15, label %34, label %16, !dbg !2068

16:                                               ; preds = %8
  call void @llvm.dbg.value(metadata i32 %13, metadata !222, metadata !DIExpression()), !dbg !2069
  call void @llvm.dbg.value(metadata i32 1, metadata !227, metadata !DIExpression()), !dbg !2069
  %17 = icmp ugt i32 %13, 3, !dbg !2071
  br i1 %17, label %35, label %18, !dbg !2072

18:                                               ; preds = %16
  %19 = zext i32 %13 to i64, !dbg !2073
  %20 = getelementptr inbounds [4 x i32], ptr @proc_state, i64 0, i64 %19, !dbg !2073
  %21 = load i32, ptr %20, align 4, !dbg !2073, !tbaa !188
  switch i32 %21, label %35 [
    i32 1, label %22
    i32 4, label %28
  ], !dbg !2074

22:                                               ; preds = %18
  %23 = getelementptr inbounds [4 x i32], ptr @proc_parent, i64 0, i64 %19, !dbg !2075
  %24 = load i32, ptr %23, align 4, !dbg !2075, !tbaa !188
  %25 = icmp eq i32 %24, %14, !dbg !2076
  br i1 %25, label %32, label %26, !dbg !2077

26:                                               ; preds = %22
  %27 = icmp eq i32 %21, 4, !dbg !2078
  br i1 %27, label %28, label %35, !dbg !2080

28:                                               ; preds = %18, %26
  %29 = getelementptr inbounds [4 x i32], ptr @proc_parent, i64 0, i64 %19, !dbg !2081
  %30 = load i32, ptr %29, align 4, !dbg !2081, !tbaa !188
  %31 = icmp eq i32 %30, %14, !dbg !2082
  br label %32

32:                                               ; preds = %22, %28
  %33 = phi i1 [ %25, %22 ], [ %31, %28 ]
  br i1 %33, label %34, label %35, !dbg !2083

34:                                               ; preds = %8, %32
  store i32 0, ptr %5, align 4, !dbg !2084, !tbaa !188
  tail call void @irq_disable(i32 noundef signext %0) #6, !dbg !2085
  br label %35, !dbg !2086

35:                                               ; preds = %26, %16, %18, %1, %3, %32, %34
  %36 = phi i32 [ 0, %34 ], [ -1, %32 ], [ -1, %3 ], [ -1, %1 ], [ -1, %18 ], [ -1, %16 ], [ -1, %26 ], !dbg !2054
  ret i32 %36, !dbg !2087
}

declare !dbg !2088 dso_local void @irq_disable(i32 noundef signext) local_unnamed_addr #2

; Function Attrs: mustprogress nofree norecurse nosync nounwind willreturn memory(readwrite, argmem: none, inaccessiblemem: none)
define dso_local signext i32 @sys_take_interrupt(i32 noundef signext %0) local_unnamed_addr #0 !dbg !2089 {
  call void @llvm.dbg.value(metadata i32 %0, metadata !2091, metadata !DIExpression()), !dbg !2092
  %2 = icmp ugt i32 %0, 1, !dbg !2093
  br i1 %2, label %15, label %3, !dbg !2095

3:                                                ; preds = %1
  %4 = zext i32 %0 to i64, !dbg !2096
  %5 = getelementptr inbounds [2 x i32], ptr @vector_owner, i64 0, i64 %4, !dbg !2096
  %6 = load i32, ptr %5, align 4, !dbg !2096, !tbaa !188
  %7 = load i32, ptr @current, align 4, !dbg !2097, !tbaa !188
  %8 = add i32 %7, 1, !dbg !2098
  %9 = icmp eq i32 %6, %8, !dbg !2099
  br i1 %9, label %10, label %15, !dbg !2100

10:                                               ; preds = %3
  %11 = getelementptr inbounds [2 x i32], ptr @vector_pending, i64 0, i64 %4, !dbg !2101
  %12 = load i32, ptr %11, align 4, !dbg !2101, !tbaa !188
  %13 = icmp eq i32 %12, 0, !dbg !2102
  br i1 %13, label %15, label %14, !dbg !2103

14:                                               ; preds = %10
  store i32 0, ptr %11, align 4, !dbg !2104, !tbaa !188
  br label %15, !dbg !2105

15:                                               ; preds = %1, %3, %10, %14
  %16 = phi i32 [ 0, %14 ], [ -1, %10 ], [ -1, %3 ], [ -1, %1 ], !dbg !2092
  ret i32 %16, !dbg !2106
}

; Function Attrs: nounwind
define dso_local signext i32 @sys_ack_source(i32 noundef signext %0) local_unnamed_addr #1 !dbg !2107 {
  call void @llvm.dbg.value(metadata i32 %0, metadata !2109, metadata !DIExpression()), !dbg !2110
  %2 = icmp ugt i32 %0, 15, !dbg !2111
  br i1 %2, label %17, label %3, !dbg !2113

3:                                                ; preds = %1
  %4 = zext i32 %0 to i64, !dbg !2114
  %5 = getelementptr inbounds [16 x i32], ptr @source_vector, i64 0, i64 %4, !dbg !2114
  %6 = load i32, ptr %5, align 4, !dbg !2114, !tbaa !188
  %7 = icmp eq i32 %6, 0, !dbg !2115
  br i1 %7, label %17, label %8, !dbg !2116

8:                                                ; preds = %3
  %9 = add i32 %6, -1, !dbg !2117
  %10 = zext i32 %9 to i64, !dbg !2118
  %11 = getelementptr inbounds [2 x i32], ptr @vector_owner, i64 0, i64 %10, !dbg !2118
  %12 = load i32, ptr %11, align 4, !dbg !2118, !tbaa !188
  %13 = load i32, ptr @current, align 4, !dbg !2119, !tbaa !188
  %14 = add i32 %13, 1, !dbg !2120
  %15 = icmp eq i32 %12, %14, !dbg !2121
  br i1 %15, label %16, label %17, !dbg !2122

16:                                               ; preds = %8
  tail call void @irq_complete(i32 noundef signext %0) #6, !dbg !2123
  br label %17, !dbg !2124

17:                                               ; preds = %1, %3, %8, %16
  %18 = phi i32 [ 0, %16 ], [ -1, %8 ], [ -1, %3 ], [ -1, %1 ], !dbg !2110
  ret i32 %18, !dbg !2125
}

declare !dbg !2126 dso_local void @irq_complete(i32 noundef signext) local_unnamed_addr #2

; Function Attrs: mustprogress nofree norecurse nosync nounwind willreturn memory(readwrite, argmem: none, inaccessiblemem: none)
define dso_local signext i32 @sys_alloc_device(i32 noundef signext %0) local_unnamed_addr #0 !dbg !2127 {
  call void @llvm.dbg.value(metadata i32 %0, metadata !2129, metadata !DIExpression()), !dbg !2130
  %2 = icmp ugt i32 %0, 1, !dbg !2131
  br i1 %2, label %11, label %3, !dbg !2133

3:                                                ; preds = %1
  %4 = zext i32 %0 to i64, !dbg !2134
  %5 = getelementptr inbounds [2 x i32], ptr @device_owner, i64 0, i64 %4, !dbg !2134
  %6 = load i32, ptr %5, align 4, !dbg !2134, !tbaa !188
  %7 = icmp eq i32 %6, 0, !dbg !2135
  br i1 %7, label %8, label %11, !dbg !2136

8:                                                ; preds = %3
  %9 = load i32, ptr @current, align 4, !dbg !2137, !tbaa !188
  %10 = add i32 %9, 1, !dbg !2138
  store i32 %10, ptr %5, align 4, !dbg !2139, !tbaa !188
  br label %11, !dbg !2140

11:                                               ; preds = %1, %3, %8
  %12 = phi i32 [ 0, %8 ], [ -1, %3 ], [ -1, %1 ], !dbg !2130
  ret i32 %12, !dbg !2141
}

; Function Attrs: mustprogress nofree norecurse nosync nounwind willreturn memory(readwrite, argmem: none, inaccessiblemem: none)
define dso_local signext i32 @sys_free_device(i32 noundef signext %0) local_unnamed_addr #0 !dbg !2142 {
  call void @llvm.dbg.value(metadata i32 %0, metadata !2144, metadata !DIExpression()), !dbg !2145
  %2 = icmp ugt i32 %0, 1, !dbg !2146
  br i1 %2, label %33, label %3, !dbg !2148

3:                                                ; preds = %1
  %4 = zext i32 %0 to i64, !dbg !2149
  %5 = getelementptr inbounds [2 x i32], ptr @device_owner, i64 0, i64 %4, !dbg !2149
  %6 = load i32, ptr %5, align 4, !dbg !2149, !tbaa !188
  %7 = add i32 %6, -1, !dbg !2150
  call void @llvm.dbg.value(metadata i32 %7, metadata !531, metadata !DIExpression()), !dbg !2151
  %8 = load i32, ptr @current, align 4, !dbg !2153, !tbaa !188
  %9 = icmp eq i32 %8, %7, !dbg !2154
  br i1 %9, label %28, label %10, !dbg !2155

10:                                               ; preds = %3
  call void @llvm.dbg.value(metadata i32 %7, metadata !222, metadata !DIExpression()), !dbg !2156
  call void @llvm.dbg.value(metadata i32 1, metadata !227, metadata !DIExpression()), !dbg !2156
  %11 = icmp ugt i32 %7, 3, !dbg !2158
  br i1 %11, label %33, label %12, !dbg !2159

12:                                               ; preds = %10
  %13 = zext i32 %7 to i64, !dbg !2160
  %14 = getelementptr inbounds [4 x i32], ptr @proc_state, i64 0, i64 %13, !dbg !2160
  %15 = load i32, ptr %14, align 4, !dbg !2160, !tbaa !188
  switch i32 %15, label %33 [
    i32 1, label %16
    i32 4, label %22
  ], !dbg !2161

16:                                               ; preds = %12
  %17 = getelementptr inbounds [4 x i32], ptr @proc_parent, i64 0, i64 %13, !dbg !2162
  %18 = load i32, ptr %17, align 4, !dbg !2162, !tbaa !188
  %19 = icmp eq i32 %18, %8, !dbg !2163
  br i1 %19, label %26, label %20, !dbg !2164

20:                                               ; preds = %16
  %21 = icmp eq i32 %15, 4, !dbg !2165
  br i1 %21, label %22, label %33, !dbg !2167

22:                                               ; preds = %12, %20
  %23 = getelementptr inbounds [4 x i32], ptr @proc_parent, i64 0, i64 %13, !dbg !2168
  %24 = load i32, ptr %23, align 4, !dbg !2168, !tbaa !188
  %25 = icmp eq i32 %24, %8, !dbg !2169
  br label %26

26:                                               ; preds = %16, %22
  %27 = phi i1 [ %19, %16 ], [ %25, %22 ]
  br i1 %27, label %28, label %33, !dbg !2170

28:                                               ; preds = %3, %26
  %29 = getelementptr inbounds [2 x i32], ptr @device_parent, i64 0, i64 %4, !dbg !2171
  %30 = load i32, ptr %29, align 4, !dbg !2171, !tbaa !188
  %31 = icmp eq i32 %30, 0, !dbg !2172
  br i1 %31, label %32, label %33, !dbg !2173

32:                                               ; preds = %28
  store i32 0, ptr %5, align 4, !dbg !2174, !tbaa !188
  br label %33, !dbg !2175

33:                                               ; preds = %20, %10, %12, %1, %26, %28, %32
  %34 = phi i32 [ 0, %32 ], [ -1, %28 ], [ -1, %26 ], [ -1, %1 ], [ -1, %12 ], [ -1, %10 ], [ -1, %20 ], !dbg !2145
  ret i32 %34, !dbg !2176
}

; Function Attrs: mustprogress nofree norecurse nosync nounwind willreturn memory(readwrite, argmem: none, inaccessiblemem: none)
define dso_local signext i32 @sys_map_device(i32 noundef signext %0, i32 noundef signext %1, i32 noundef signext %2) local_unnamed_addr #0 !dbg !2177 {
  call void @llvm.dbg.value(metadata i32 %0, metadata !2179, metadata !DIExpression()), !dbg !2182
  call void @llvm.dbg.value(metadata i32 %1, metadata !2180, metadata !DIExpression()), !dbg !2182
  call void @llvm.dbg.value(metadata i32 %2, metadata !2181, metadata !DIExpression()), !dbg !2182
  %4 = icmp ugt i32 %0, 1, !dbg !2183
  br i1 %4, label %46, label %5, !dbg !2185

5:                                                ; preds = %3
  %6 = zext i32 %0 to i64, !dbg !2186
  %7 = getelementptr inbounds [2 x i32], ptr @device_owner, i64 0, i64 %6, !dbg !2186
  %8 = load i32, ptr %7, align 4, !dbg !2186, !tbaa !188
  %9 = load i32, ptr @current, align 4, !dbg !2187, !tbaa !188
  %10 = add i32 %9, 1, !dbg !2188
  %11 = icmp eq i32 %8, %10, !dbg !2189
  br i1 %11, label %12, label %46, !dbg !2190

12:                                               ; preds = %5
  %13 = getelementptr inbounds [2 x i32], ptr @device_parent, i64 0, i64 %6, !dbg !2191
  %14 = load i32, ptr %13, align 4, !dbg !2191, !tbaa !188
  %15 = icmp eq i32 %14, 0, !dbg !2192
  br i1 %15, label %16, label %46, !dbg !2193

16:                                               ; preds = %12
  call void @llvm.dbg.value(metadata i32 %1, metadata !1009, metadata !DIExpression()), !dbg !2194
  %17 = icmp ult i32 %1, 4, !dbg !2197
  br i1 %17, label %18, label %29, !dbg !2198

18:                                               ; preds = %16
  %19 = zext i32 %1 to i64, !dbg !2199
  %20 = getelementptr inbounds [4 x i32], ptr @leaf_parent, i64 0, i64 %19, !dbg !2199
  %21 = load i32, ptr %20, align 4, !dbg !2199, !tbaa !188
  %22 = add i32 %21, -1, !dbg !2200
  call void @llvm.dbg.value(metadata i32 %22, metadata !1018, metadata !DIExpression()), !dbg !2201
  %23 = icmp ult i32 %22, 4, !dbg !2203
  br i1 %23, label %24, label %29, !dbg !2204

24:                                               ; preds = %18
  %25 = zext i32 %22 to i64, !dbg !2205
  %26 = getelementptr inbounds [4 x i32], ptr @middle_parent, i64 0, i64 %25, !dbg !2205
  %27 = load i32, ptr %26, align 4, !dbg !2205, !tbaa !188
  %28 = add i32 %27, -1, !dbg !2206
  br label %29, !dbg !2204

29:                                               ; preds = %16, %18, %24
  %30 = phi i32 [ 4, %16 ], [ %28, %24 ], [ 4, %18 ], !dbg !2198
  %31 = icmp ne i32 %30, %9, !dbg !2207
  %32 = icmp ugt i32 %2, 7
  %33 = or i1 %32, %31, !dbg !2208
  br i1 %33, label %46, label %34, !dbg !2208

34:                                               ; preds = %29
  %35 = zext i32 %1 to i64, !dbg !2209
  %36 = getelementptr inbounds [4 x %struct.leaf], ptr @leaves, i64 0, i64 %35, !dbg !2209
  %37 = zext i32 %2 to i64, !dbg !2209
  %38 = getelementptr inbounds [8 x i64], ptr %36, i64 0, i64 %37, !dbg !2209
  %39 = load i64, ptr %38, align 8, !dbg !2209, !tbaa !399
  %40 = icmp eq i64 %39, 0, !dbg !2210
  br i1 %40, label %41, label %46, !dbg !2211

41:                                               ; preds = %34
  %42 = icmp eq i32 %0, 0, !dbg !2212
  %43 = select i1 %42, i64 67109079, i64 263383, !dbg !2212
  store i64 %43, ptr %38, align 8, !dbg !2213, !tbaa !399
  %44 = add i32 %1, 1, !dbg !2214
  store i32 %44, ptr %13, align 4, !dbg !2215, !tbaa !188
  %45 = getelementptr inbounds [2 x i32], ptr @device_index, i64 0, i64 %6, !dbg !2216
  store i32 %2, ptr %45, align 4, !dbg !2217, !tbaa !188
  br label %46, !dbg !2218

46:                                               ; preds = %29, %34, %3, %5, %12, %41
  %47 = phi i32 [ 0, %41 ], [ -1, %12 ], [ -1, %5 ], [ -1, %3 ], [ -1, %34 ], [ -1, %29 ], !dbg !2182
  ret i32 %47, !dbg !2219
}

; Function Attrs: mustprogress nofree norecurse nosync nounwind willreturn memory(readwrite, argmem: none, inaccessiblemem: none)
define dso_local signext i32 @sys_unmap_device(i32 noundef signext %0) local_unnamed_addr #0 !dbg !2220 {
  call void @llvm.dbg.value(metadata i32 %0, metadata !2222, metadata !DIExpression()), !dbg !2223
  %2 = icmp ugt i32 %0, 1, !dbg !2224
  br i1 %2, label %40, label %3, !dbg !2226

3:                                                ; preds = %1
  %4 = zext i32 %0 to i64, !dbg !2227
  %5 = getelementptr inbounds [2 x i32], ptr @device_owner, i64 0, i64 %4, !dbg !2227
  %6 = load i32, ptr %5, align 4, !dbg !2227, !tbaa !188
  %7 = add i32 %6, -1, !dbg !2228
  call void @llvm.dbg.value(metadata i32 %7, metadata !531, metadata !DIExpression()), !dbg !2229
  %8 = load i32, ptr @current, align 4, !dbg !2231, !tbaa !188
  %9 = icmp eq i32 %8, %7, !dbg !2232
  br i1 %9, label %28, label %10, !dbg !2233

10:                                               ; preds = %3
  call void @llvm.dbg.value(metadata i32 %7, metadata !222, metadata !DIExpression()), !dbg !2234
  call void @llvm.dbg.value(metadata i32 1, metadata !227, metadata !DIExpression()), !dbg !2234
  %11 = icmp ugt i32 %7, 3, !dbg !2236
  br i1 %11, label %40, label %12, !dbg !2237

12:                                               ; preds = %10
  %13 = zext i32 %7 to i64, !dbg !2238
  %14 = getelementptr inbounds [4 x i32], ptr @proc_state, i64 0, i64 %13, !dbg !2238
  %15 = load i32, ptr %14, align 4, !dbg !2238, !tbaa !188
  switch i32 %15, label %40 [
    i32 1, label %16
    i32 4, label %22
  ], !dbg !2239

16:                                               ; preds = %12
  %17 = getelementptr inbounds [4 x i32], ptr @proc_parent, i64 0, i64 %13, !dbg !2240
  %18 = load i32, ptr %17, align 4, !dbg !2240, !tbaa !188
  %19 = icmp eq i32 %18, %8, !dbg !2241
  br i1 %19, label %26, label %20, !dbg !2242

20:                                               ; preds = %16
  %21 = icmp eq i32 %15, 4, !dbg !2243
  br i1 %21, label %22, label %40, !dbg !2245

22:                                               ; preds = %12, %20
  %23 = getelementptr inbounds [4 x i32], ptr @proc_parent, i64 0, i64 %13, !dbg !2246
  %24 = load i32, ptr %23, align 4, !dbg !2246, !tbaa !188
  %25 = icmp eq i32 %24, %8, !dbg !2247
  br label %26

26:                                               ; preds = %16, %22
  %27 = phi i1 [ %19, %16 ], [ %25, %22 ]
  br i1 %27, label %28, label %40, !dbg !2248

28:                                               ; preds = %3, %26
  %29 = getelementptr inbounds [2 x i32], ptr @device_parent, i64 0, i64 %4, !dbg !2249
  %30 = load i32, ptr %29, align 4, !dbg !2249, !tbaa !188
  %31 = icmp eq i32 %30, 0, !dbg !2250
  br i1 %31, label %40, label %32, !dbg !2251

32:                                               ; preds = %28
  %33 = add i32 %30, -1, !dbg !2252
  %34 = zext i32 %33 to i64, !dbg !2253
  %35 = getelementptr inbounds [4 x %struct.leaf], ptr @leaves, i64 0, i64 %34, !dbg !2253
  %36 = getelementptr inbounds [2 x i32], ptr @device_index, i64 0, i64 %4, !dbg !2254
  %37 = load i32, ptr %36, align 4, !dbg !2254, !tbaa !188
  %38 = zext i32 %37 to i64, !dbg !2253
  %39 = getelementptr inbounds [8 x i64], ptr %35, i64 0, i64 %38, !dbg !2253
  store i64 0, ptr %39, align 8, !dbg !2255, !tbaa !399
  store i32 0, ptr %29, align 4, !dbg !2256, !tbaa !188
  br label %40, !dbg !2257

40:                                               ; preds = %20, %10, %12, %1, %26, %28, %32
  %41 = phi i32 [ 0, %32 ], [ -1, %28 ], [ -1, %26 ], [ -1, %1 ], [ -1, %12 ], [ -1, %10 ], [ -1, %20 ], !dbg !2223
  ret i32 %41, !dbg !2258
}

; Function Attrs: mustprogress nofree norecurse nosync nounwind willreturn memory(readwrite, argmem: none, inaccessiblemem: none)
define dso_local signext i32 @trap_timer() local_unnamed_addr #0 !dbg !2259 {
  %1 = load i32, ptr @ticks, align 4, !dbg !2260, !tbaa !188
  %2 = add i32 %1, 1, !dbg !2260
  store i32 %2, ptr @ticks, align 4, !dbg !2260, !tbaa !188
  %3 = load i32, ptr @current, align 4, !dbg !2261, !tbaa !188
  %4 = zext i32 %3 to i64, !dbg !2263
  %5 = getelementptr inbounds [4 x i32], ptr @proc_next, i64 0, i64 %4, !dbg !2263
  %6 = load i32, ptr %5, align 4, !dbg !2263, !tbaa !188
  %7 = zext i32 %6 to i64, !dbg !2264
  %8 = getelementptr inbounds [4 x i32], ptr @proc_state, i64 0, i64 %7, !dbg !2264
  %9 = load i32, ptr %8, align 4, !dbg !2264, !tbaa !188
  %10 = icmp eq i32 %9, 2, !dbg !2265
  %11 = select i1 %10, i32 %6, i32 3, !dbg !2264
  store i32 %11, ptr @current, align 4, !dbg !2266, !tbaa !188
  ret i32 0, !dbg !2267
}

; Function Attrs: mustprogress nofree norecurse nosync nounwind willreturn memory(readwrite, argmem: none, inaccessiblemem: none)
define dso_local signext i32 @trap_interrupt(i32 noundef signext %0) local_unnamed_addr #0 !dbg !2268 {
  call void @llvm.dbg.value(metadata i32 %0, metadata !2270, metadata !DIExpression()), !dbg !2271
  %2 = icmp ugt i32 %0, 15, !dbg !2272
  br i1 %2, label %12, label %3, !dbg !2274

3:                                                ; preds = %1
  %4 = zext i32 %0 to i64, !dbg !2275
  %5 = getelementptr inbounds [16 x i32], ptr @source_vector, i64 0, i64 %4, !dbg !2275
  %6 = load i32, ptr %5, align 4, !dbg !2275, !tbaa !188
  %7 = icmp eq i32 %6, 0, !dbg !2276
  br i1 %7, label %12, label %8, !dbg !2277

8:                                                ; preds = %3
  %9 = add i32 %6, -1, !dbg !2278
  %10 = zext i32 %9 to i64, !dbg !2279
  %11 = getelementptr inbounds [2 x i32], ptr @vector_pending, i64 0, i64 %10, !dbg !2279
  store i32 1, ptr %11, align 4, !dbg !2280, !tbaa !188
  br label %12, !dbg !2281

12:                                               ; preds = %1, %3, %8
  %13 = phi i32 [ 0, %8 ], [ -1, %3 ], [ -1, %1 ], !dbg !2271
  ret i32 %13, !dbg !2282
}

; Function Attrs: mustprogress nofree norecurse nosync nounwind willreturn memory(readwrite, argmem: none, inaccessiblemem: none)
define dso_local signext i32 @trap_fault(i32 noundef signext %0) local_unnamed_addr #0 !dbg !2283 {
  call void @llvm.dbg.value(metadata i32 %0, metadata !2285, metadata !DIExpression()), !dbg !2286
  %2 = load i32, ptr @current, align 4, !dbg !2287, !tbaa !188
  %3 = icmp eq i32 %2, 3, !dbg !2289
  br i1 %3, label %9, label %4, !dbg !2290

4:                                                ; preds = %1
  call void @llvm.dbg.value(metadata i32 %0, metadata !318, metadata !DIExpression()), !dbg !2291
  %5 = zext i32 %2 to i64, !dbg !2293
  %6 = getelementptr inbounds [4 x i32], ptr @proc_state, i64 0, i64 %5, !dbg !2293
  store i32 4, ptr %6, align 4, !dbg !2294, !tbaa !188
  %7 = getelementptr inbounds [4 x i32], ptr @proc_status, i64 0, i64 %5, !dbg !2295
  store i32 %0, ptr %7, align 4, !dbg !2296, !tbaa !188
  %8 = getelementptr inbounds [4 x i32], ptr @recv_from, i64 0, i64 %5, !dbg !2297
  store i32 0, ptr %8, align 4, !dbg !2298, !tbaa !188
  store i32 3, ptr @current, align 4, !dbg !2299, !tbaa !188
  br label %9, !dbg !2300

9:                                                ; preds = %1, %4
  %10 = phi i32 [ 0, %4 ], [ -1, %1 ], !dbg !2286
  ret i32 %10, !dbg !2301
}

; Function Attrs: nocallback nofree nosync nounwind speculatable willreturn memory(none)
declare void @llvm.dbg.value(metadata, metadata, metadata) #5

attributes #0 = { mustprogress nofree norecurse nosync nounwind willreturn memory(readwrite, argmem: none, inaccessiblemem: none) "no-builtins" "no-trapping-math"="true" "stack-protector-buffer-size"="8" "target-cpu"="generic-rv64" "target-features"="+64bit,+m,+relax,-a,-c,-d,-e,-experimental-zawrs,-experimental-zca,-experimental-zcd,-experimental-zcf,-experimental-zihintntl,-experimental-ztso,-experimental-zvfh,-f,-h,-save-restore,-svinval,-svnapot,-svpbmt,-v,-xtheadvdot,-xventanacondops,-zba,-zbb,-zbc,-zbkb,-zbkc,-zbkx,-zbs,-zdinx,-zfh,-zfhmin,-zfinx,-zhinx,-zhinxmin,-zicbom,-zicbop,-zicboz,-zihintpause,-zk,-zkn,-zknd,-zkne,-zknh,-zkr,-zks,-zksed,-zksh,-zkt,-zmmul,-zve32f,-zve32x,-zve64d,-zve64f,-zve64x,-zvl1024b,-zvl128b,-zvl16384b,-zvl2048b,-zvl256b,-zvl32768b,-zvl32b,-zvl4096b,-zvl512b,-zvl64b,-zvl65536b,-zvl8192b" }
attributes #1 = { nounwind "no-builtins" "no-trapping-math"="true" "stack-protector-buffer-size"="8" "target-cpu"="generic-rv64" "target-features"="+64bit,+m,+relax,-a,-c,-d,-e,-experimental-zawrs,-experimental-zca,-experimental-zcd,-experimental-zcf,-experimental-zihintntl,-experimental-ztso,-experimental-zvfh,-f,-h,-save-restore,-svinval,-svnapot,-svpbmt,-v,-xtheadvdot,-xventanacondops,-zba,-zbb,-zbc,-zbkb,-zbkc,-zbkx,-zbs,-zdinx,-zfh,-zfhmin,-zfinx,-zhinx,-zhinxmin,-zicbom,-zicbop,-zicboz,-zihintpause,-zk,-zkn,-zknd,-zkne,-zknh,-zkr,-zks,-zksed,-zksh,-zkt,-zmmul,-zve32f,-zve32x,-zve64d,-zve64f,-zve64x,-zvl1024b,-zvl128b,-zvl16384b,-zvl2048b,-zvl256b,-zvl32768b,-zvl32b,-zvl4096b,-zvl512b,-zvl64b,-zvl65536b,-zvl8192b" }
attributes #2 = { "no-builtins" "no-trapping-math"="true" "stack-protector-buffer-size"="8" "target-cpu"="generic-rv64" "target-features"="+64bit,+m,+relax,-a,-c,-d,-e,-experimental-zawrs,-experimental-zca,-experimental-zcd,-experimental-zcf,-experimental-zihintntl,-experimental-ztso,-experimental-zvfh,-f,-h,-save-restore,-svinval,-svnapot,-svpbmt,-v,-xtheadvdot,-xventanacondops,-zba,-zbb,-zbc,-zbkb,-zbkc,-zbkx,-zbs,-zdinx,-zfh,-zfhmin,-zfinx,-zhinx,-zhinxmin,-zicbom,-zicbop,-zicboz,-zihintpause,-zk,-zkn,-zknd,-zkne,-zknh,-zkr,-zks,-zksed,-zksh,-zkt,-zmmul,-zve32f,-zve32x,-zve64d,-zve64f,-zve64x,-zvl1024b,-zvl128b,-zvl16384b,-zvl2048b,-zvl256b,-zvl32768b,-zvl32b,-zvl4096b,-zvl512b,-zvl64b,-zvl65536b,-zvl8192b" }
attributes #3 = { nofree norecurse nosync nounwind memory(readwrite, argmem: none, inaccessiblemem: none) "no-builtins" "no-trapping-math"="true" "stack-protector-buffer-size"="8" "target-cpu"="generic-rv64" "target-features"="+64bit,+m,+relax,-a,-c,-d,-e,-experimental-zawrs,-experimental-zca,-experimental-zcd,-experimental-zcf,-experimental-zihintntl,-experimental-ztso,-experimental-zvfh,-f,-h,-save-restore,-svinval,-svnapot,-svpbmt,-v,-xtheadvdot,-xventanacondops,-zba,-zbb,-zbc,-zbkb,-zbkc,-zbkx,-zbs,-zdinx,-zfh,-zfhmin,-zfinx,-zhinx,-zhinxmin,-zicbom,-zicbop,-zicboz,-zihintpause,-zk,-zkn,-zknd,-zkne,-zknh,-zkr,-zks,-zksed,-zksh,-zkt,-zmmul,-zve32f,-zve32x,-zve64d,-zve64f,-zve64x,-zvl1024b,-zvl128b,-zvl16384b,-zvl2048b,-zvl256b,-zvl32768b,-zvl32b,-zvl4096b,-zvl512b,-zvl64b,-zvl65536b,-zvl8192b" }
attributes #4 = { mustprogress nofree norecurse nosync nounwind willreturn memory(read, argmem: none, inaccessiblemem: none) "no-builtins" "no-trapping-math"="true" "stack-protector-buffer-size"="8" "target-cpu"="generic-rv64" "target-features"="+64bit,+m,+relax,-a,-c,-d,-e,-experimental-zawrs,-experimental-zca,-experimental-zcd,-experimental-zcf,-experimental-zihintntl,-experimental-ztso,-experimental-zvfh,-f,-h,-save-restore,-svinval,-svnapot,-svpbmt,-v,-xtheadvdot,-xventanacondops,-zba,-zbb,-zbc,-zbkb,-zbkc,-zbkx,-zbs,-zdinx,-zfh,-zfhmin,-zfinx,-zhinx,-zhinxmin,-zicbom,-zicbop,-zicboz,-zihintpause,-zk,-zkn,-zknd,-zkne,-zknh,-zkr,-zks,-zksed,-zksh,-zkt,-zmmul,-zve32f,-zve32x,-zve64d,-zve64f,-zve64x,-zvl1024b,-zvl128b,-zvl16384b,-zvl2048b,-zvl256b,-zvl32768b,-zvl32b,-zvl4096b,-zvl512b,-zvl64b,-zvl65536b,-zvl8192b" }
attributes #5 = { nocallback nofree nosync nounwind speculatable willreturn memory(none) }
attributes #6 = { nobuiltin nounwind "no-builtins" }

!llvm.dbg.cu = !{!2}
!llvm.module.flags = !{!169, !170, !171, !172, !173, !174}
!llvm.ident = !{!175}

!0 = !DIGlobalVariableExpression(var: !1, expr: !DIExpression())
!1 = distinct !DIGlobalVariable(name: "current", scope: !2, file: !3, line: 31, type: !42, isLocal: false, isDefinition: true)
!2 = distinct !DICompileUnit(language: DW_LANG_C11, file: !3, producer: "Debian clang version 16.0.6 (15~deb12u1)", isOptimized: true, runtimeVersion: 0, emissionKind: FullDebug, enums: !4, retainedTypes: !34, globals: !38, splitDebugInlining: false, nameTableKind: None)
!3 = !DIFile(filename: "kernel.c", directory: ".", checksumkind: CSK_MD5, checksum: "4958a54bf7812285be6aab37920c2786")
!4 = !{!5, !13, !19, !30}
!5 = !DICompositeType(tag: DW_TAG_enumeration_type, file: !3, line: 16, baseType: !6, size: 32, elements: !7)
!6 = !DIBasicType(name: "unsigned int", size: 32, encoding: DW_ATE_unsigned)
!7 = !{!8, !9, !10, !11, !12}
!8 = !DIEnumerator(name: "FREE", value: 0)
!9 = !DIEnumerator(name: "EMBRYO", value: 1)
!10 = !DIEnumerator(name: "RUNNABLE", value: 2)
!11 = !DIEnumerator(name: "SLEEPING", value: 3)
!12 = !DIEnumerator(name: "ZOMBIE", value: 4)
!13 = !DICompositeType(tag: DW_TAG_enumeration_type, file: !3, line: 17, baseType: !6, size: 32, elements: !14)
!14 = !{!15, !16, !17, !18}
!15 = !DIEnumerator(name: "NONE", value: 0)
!16 = !DIEnumerator(name: "PLAIN", value: 1)
!17 = !DIEnumerator(name: "PIPE_READ", value: 2)
!18 = !DIEnumerator(name: "PIPE_WRITE", value: 3)
!19 = !DICompositeType(tag: DW_TAG_enumeration_type, file: !3, line: 21, baseType: !6, size: 32, elements: !20)
!20 = !{!21, !22, !23, !24, !25, !26, !27, !28, !29}
!21 = !DIEnumerator(name: "V", value: 1)
!22 = !DIEnumerator(name: "R", value: 2)
!23 = !DIEnumerator(name: "W", value: 4)
!24 = !DIEnumerator(name: "X", value: 8)
!25 = !DIEnumerator(name: "U", value: 16)
!26 = !DIEnumerator(name: "A", value: 64)
!27 = !DIEnumerator(name: "D", value: 128)
!28 = !DIEnumerator(name: "POINTER", value: 1)
!29 = !DIEnumerator(name: "PAGE", value: 211)
!30 = !DICompositeType(tag: DW_TAG_enumeration_type, file: !3, line: 18, baseType: !6, size: 32, elements: !31)
!31 = !{!32, !33}
!32 = !DIEnumerator(name: "WRITE", value: 1)
!33 = !DIEnumerator(name: "EXECUTE", value: 2)
!34 = !{!35}
!35 = !DIDerivedType(tag: DW_TAG_typedef, name: "uint64_t", file: !36, line: 98, baseType: !37)
!36 = !DIFile(filename: "/usr/lib/llvm-16/lib/clang/16/include/stdint.h", directory: "", checksumkind: CSK_MD5, checksum: "0e82edf2c903a970340d24c219392b88")
!37 = !DIBasicType(name: "unsigned long", size: 64, encoding: DW_ATE_unsigned)
!38 = !{!0, !39, !45, !47, !49, !51, !64, !71, !84, !86, !88, !90, !92, !97, !99, !101, !103, !105, !107, !109, !111, !113, !115, !117, !121, !126, !128, !130, !132, !134, !137, !139, !141, !143, !147, !152, !154, !156, !158, !163, !165, !167}
!39 = !DIGlobalVariableExpression(var: !40, expr: !DIExpression())
!40 = distinct !DIGlobalVariable(name: "proc_state", scope: !2, file: !3, line: 33, type: !41, isLocal: false, isDefinition: true)
!41 = !DICompositeType(tag: DW_TAG_array_type, baseType: !42, size: 128, elements: !43)
!42 = !DIDerivedType(tag: DW_TAG_typedef, name: "uint32_t", file: !36, line: 198, baseType: !6)
!43 = !{!44}
!44 = !DISubrange(count: 4)
!45 = !DIGlobalVariableExpression(var: !46, expr: !DIExpression())
!46 = distinct !DIGlobalVariable(name: "proc_parent", scope: !2, file: !3, line: 34, type: !41, isLocal: false, isDefinition: true)
!47 = !DIGlobalVariableExpression(var: !48, expr: !DIExpression())
!48 = distinct !DIGlobalVariable(name: "proc_next", scope: !2, file: !3, line: 35, type: !41, isLocal: false, isDefinition: true)
!49 = !DIGlobalVariableExpression(var: !50, expr: !DIExpression())
!50 = distinct !DIGlobalVariable(name: "proc_name", scope: !2, file: !3, line: 36, type: !41, isLocal: false, isDefinition: true)
!51 = !DIGlobalVariableExpression(var: !52, expr: !DIExpression())
!52 = distinct !DIGlobalVariable(name: "roots", scope: !2, file: !3, line: 75, type: !53, isLocal: false, isDefinition: true)
!53 = !DICompositeType(tag: DW_TAG_array_type, baseType: !54, size: 131072, elements: !43)
!54 = distinct !DICompositeType(tag: DW_TAG_structure_type, name: "root", file: !3, line: 61, size: 32768, elements: !55)
!55 = !{!56, !60}
!56 = !DIDerivedType(tag: DW_TAG_member, name: "entry", scope: !54, file: !3, line: 62, baseType: !57, size: 128)
!57 = !DICompositeType(tag: DW_TAG_array_type, baseType: !35, size: 128, elements: !58)
!58 = !{!59}
!59 = !DISubrange(count: 2)
!60 = !DIDerivedType(tag: DW_TAG_member, name: "rest", scope: !54, file: !3, line: 63, baseType: !61, size: 32640, offset: 128)
!61 = !DICompositeType(tag: DW_TAG_array_type, baseType: !35, size: 32640, elements: !62)
!62 = !{!63}
!63 = !DISubrange(count: 510)
!64 = !DIGlobalVariableExpression(var: !65, expr: !DIExpression())
!65 = distinct !DIGlobalVariable(name: "middles", scope: !2, file: !3, line: 78, type: !66, isLocal: false, isDefinition: true)
!66 = !DICompositeType(tag: DW_TAG_array_type, baseType: !67, size: 131072, elements: !43)
!67 = distinct !DICompositeType(tag: DW_TAG_structure_type, name: "middle", file: !3, line: 65, size: 32768, elements: !68)
!68 = !{!69, !70}
!69 = !DIDerivedType(tag: DW_TAG_member, name: "entry", scope: !67, file: !3, line: 66, baseType: !57, size: 128)
!70 = !DIDerivedType(tag: DW_TAG_member, name: "rest", scope: !67, file: !3, line: 67, baseType: !61, size: 32640, offset: 128)
!71 = !DIGlobalVariableExpression(var: !72, expr: !DIExpression())
!72 = distinct !DIGlobalVariable(name: "leaves", scope: !2, file: !3, line: 81, type: !73, isLocal: false, isDefinition: true)
!73 = !DICompositeType(tag: DW_TAG_array_type, baseType: !74, size: 131072, elements: !43)
!74 = distinct !DICompositeType(tag: DW_TAG_structure_type, name: "leaf", file: !3, line: 69, size: 32768, elements: !75)
!75 = !{!76, !80}
!76 = !DIDerivedType(tag: DW_TAG_member, name: "entry", scope: !74, file: !3, line: 70, baseType: !77, size: 512)
!77 = !DICompositeType(tag: DW_TAG_array_type, baseType: !35, size: 512, elements: !78)
!78 = !{!79}
!79 = !DISubrange(count: 8)
!80 = !DIDerivedType(tag: DW_TAG_member, name: "rest", scope: !74, file: !3, line: 71, baseType: !81, size: 32256, offset: 512)
!81 = !DICompositeType(tag: DW_TAG_array_type, baseType: !35, size: 32256, elements: !82)
!82 = !{!83}
!83 = !DISubrange(count: 504)
!84 = !DIGlobalVariableExpression(var: !85, expr: !DIExpression())
!85 = distinct !DIGlobalVariable(name: "middle_parent", scope: !2, file: !3, line: 92, type: !41, isLocal: false, isDefinition: true)
!86 = !DIGlobalVariableExpression(var: !87, expr: !DIExpression())
!87 = distinct !DIGlobalVariable(name: "middle_index", scope: !2, file: !3, line: 93, type: !41, isLocal: false, isDefinition: true)
!88 = !DIGlobalVariableExpression(var: !89, expr: !DIExpression())
!89 = distinct !DIGlobalVariable(name: "leaf_parent", scope: !2, file: !3, line: 94, type: !41, isLocal: false, isDefinition: true)
!90 = !DIGlobalVariableExpression(var: !91, expr: !DIExpression())
!91 = distinct !DIGlobalVariable(name: "leaf_index", scope: !2, file: !3, line: 95, type: !41, isLocal: false, isDefinition: true)
!92 = !DIGlobalVariableExpression(var: !93, expr: !DIExpression())
!93 = distinct !DIGlobalVariable(name: "frame_parent", scope: !2, file: !3, line: 96, type: !94, isLocal: false, isDefinition: true)
!94 = !DICompositeType(tag: DW_TAG_array_type, baseType: !42, size: 192, elements: !95)
!95 = !{!96}
!96 = !DISubrange(count: 6)
!97 = !DIGlobalVariableExpression(var: !98, expr: !DIExpression())
!98 = distinct !DIGlobalVariable(name: "frame_index", scope: !2, file: !3, line: 97, type: !94, isLocal: false, isDefinition: true)
!99 = !DIGlobalVariableExpression(var: !100, expr: !DIExpression())
!100 = distinct !DIGlobalVariable(name: "frame_cleared", scope: !2, file: !3, line: 98, type: !94, isLocal: false, isDefinition: true)
!101 = !DIGlobalVariableExpression(var: !102, expr: !DIExpression())
!102 = distinct !DIGlobalVariable(name: "ticks", scope: !2, file: !3, line: 32, type: !42, isLocal: false, isDefinition: true)
!103 = !DIGlobalVariableExpression(var: !104, expr: !DIExpression())
!104 = distinct !DIGlobalVariable(name: "proc_status", scope: !2, file: !3, line: 37, type: !41, isLocal: false, isDefinition: true)
!105 = !DIGlobalVariableExpression(var: !106, expr: !DIExpression())
!106 = distinct !DIGlobalVariable(name: "recv_from", scope: !2, file: !3, line: 40, type: !41, isLocal: false, isDefinition: true)
!107 = !DIGlobalVariableExpression(var: !108, expr: !DIExpression())
!108 = distinct !DIGlobalVariable(name: "recv_leaf", scope: !2, file: !3, line: 41, type: !41, isLocal: false, isDefinition: true)
!109 = !DIGlobalVariableExpression(var: !110, expr: !DIExpression())
!110 = distinct !DIGlobalVariable(name: "recv_index", scope: !2, file: !3, line: 42, type: !41, isLocal: false, isDefinition: true)
!111 = !DIGlobalVariableExpression(var: !112, expr: !DIExpression())
!112 = distinct !DIGlobalVariable(name: "recv_fd", scope: !2, file: !3, line: 43, type: !41, isLocal: false, isDefinition: true)
!113 = !DIGlobalVariableExpression(var: !114, expr: !DIExpression())
!114 = distinct !DIGlobalVariable(name: "msg_from", scope: !2, file: !3, line: 44, type: !41, isLocal: false, isDefinition: true)
!115 = !DIGlobalVariableExpression(var: !116, expr: !DIExpression())
!116 = distinct !DIGlobalVariable(name: "msg_value", scope: !2, file: !3, line: 45, type: !41, isLocal: false, isDefinition: true)
!117 = !DIGlobalVariableExpression(var: !118, expr: !DIExpression())
!118 = distinct !DIGlobalVariable(name: "fds", scope: !2, file: !3, line: 48, type: !119, isLocal: false, isDefinition: true)
!119 = !DICompositeType(tag: DW_TAG_array_type, baseType: !42, size: 512, elements: !120)
!120 = !{!44, !44}
!121 = !DIGlobalVariableExpression(var: !122, expr: !DIExpression())
!122 = distinct !DIGlobalVariable(name: "file_kind", scope: !2, file: !3, line: 49, type: !123, isLocal: false, isDefinition: true)
!123 = !DICompositeType(tag: DW_TAG_array_type, baseType: !42, size: 96, elements: !124)
!124 = !{!125}
!125 = !DISubrange(count: 3)
!126 = !DIGlobalVariableExpression(var: !127, expr: !DIExpression())
!127 = distinct !DIGlobalVariable(name: "file_owner", scope: !2, file: !3, line: 50, type: !123, isLocal: false, isDefinition: true)
!128 = !DIGlobalVariableExpression(var: !129, expr: !DIExpression())
!129 = distinct !DIGlobalVariable(name: "file_fds", scope: !2, file: !3, line: 51, type: !123, isLocal: false, isDefinition: true)
!130 = !DIGlobalVariableExpression(var: !131, expr: !DIExpression())
!131 = distinct !DIGlobalVariable(name: "file_value", scope: !2, file: !3, line: 52, type: !123, isLocal: false, isDefinition: true)
!132 = !DIGlobalVariableExpression(var: !133, expr: !DIExpression())
!133 = distinct !DIGlobalVariable(name: "file_offset", scope: !2, file: !3, line: 53, type: !123, isLocal: false, isDefinition: true)
!134 = !DIGlobalVariableExpression(var: !135, expr: !DIExpression())
!135 = distinct !DIGlobalVariable(name: "pipe_reader", scope: !2, file: !3, line: 54, type: !136, isLocal: false, isDefinition: true)
!136 = !DICompositeType(tag: DW_TAG_array_type, baseType: !42, size: 64, elements: !58)
!137 = !DIGlobalVariableExpression(var: !138, expr: !DIExpression())
!138 = distinct !DIGlobalVariable(name: "pipe_writer", scope: !2, file: !3, line: 55, type: !136, isLocal: false, isDefinition: true)
!139 = !DIGlobalVariableExpression(var: !140, expr: !DIExpression())
!140 = distinct !DIGlobalVariable(name: "pipe_head", scope: !2, file: !3, line: 56, type: !136, isLocal: false, isDefinition: true)
!141 = !DIGlobalVariableExpression(var: !142, expr: !DIExpression())
!142 = distinct !DIGlobalVariable(name: "pipe_count", scope: !2, file: !3, line: 57, type: !136, isLocal: false, isDefinition: true)
!143 = !DIGlobalVariableExpression(var: !144, expr: !DIExpression())
!144 = distinct !DIGlobalVariable(name: "pipe_word", scope: !2, file: !3, line: 58, type: !145, isLocal: false, isDefinition: true)
!145 = !DICompositeType(tag: DW_TAG_array_type, baseType: !42, size: 256, elements: !146)
!146 = !{!59, !44}
!147 = !DIGlobalVariableExpression(var: !148, expr: !DIExpression())
!148 = distinct !DIGlobalVariable(name: "frames", scope: !2, file: !3, line: 89, type: !149, isLocal: false, isDefinition: true)
!149 = !DICompositeType(tag: DW_TAG_array_type, baseType: !35, size: 196608, elements: !150)
!150 = !{!96, !151}
!151 = !DISubrange(count: 512)
!152 = !DIGlobalVariableExpression(var: !153, expr: !DIExpression())
!153 = distinct !DIGlobalVariable(name: "port_owner", scope: !2, file: !3, line: 101, type: !136, isLocal: false, isDefinition: true)
!154 = !DIGlobalVariableExpression(var: !155, expr: !DIExpression())
!155 = distinct !DIGlobalVariable(name: "vector_owner", scope: !2, file: !3, line: 102, type: !136, isLocal: false, isDefinition: true)
!156 = !DIGlobalVariableExpression(var: !157, expr: !DIExpression())
!157 = distinct !DIGlobalVariable(name: "vector_pending", scope: !2, file: !3, line: 103, type: !136, isLocal: false, isDefinition: true)
!158 = !DIGlobalVariableExpression(var: !159, expr: !DIExpression())
!159 = distinct !DIGlobalVariable(name: "source_vector", scope: !2, file: !3, line: 104, type: !160, isLocal: false, isDefinition: true)
!160 = !DICompositeType(tag: DW_TAG_array_type, baseType: !42, size: 512, elements: !161)
!161 = !{!162}
!162 = !DISubrange(count: 16)
!163 = !DIGlobalVariableExpression(var: !164, expr: !DIExpression())
!164 = distinct !DIGlobalVariable(name: "device_owner", scope: !2, file: !3, line: 105, type: !136, isLocal: false, isDefinition: true)
!165 = !DIGlobalVariableExpression(var: !166, expr: !DIExpression())
!166 = distinct !DIGlobalVariable(name: "device_parent", scope: !2, file: !3, line: 106, type: !136, isLocal: false, isDefinition: true)
!167 = !DIGlobalVariableExpression(var: !168, expr: !DIExpression())
!168 = distinct !DIGlobalVariable(name: "device_index", scope: !2, file: !3, line: 107, type: !136, isLocal: false, isDefinition: true)
!169 = !{i32 7, !"Dwarf Version", i32 5}
!170 = !{i32 2, !"Debug Info Version", i32 3}
!171 = !{i32 1, !"wchar_size", i32 4}
!172 = !{i32 1, !"target-abi", !"lp64"}
!173 = !{i32 1, !"Code Model", i32 3}
!174 = !{i32 1, !"SmallDataLimit", i32 0}
!175 = !{!"Debian clang version 16.0.6 (15~deb12u1)"}
!176 = distinct !DISubprogram(name: "sys_create", scope: !3, file: !3, line: 141, type: !177, scopeLine: 141, flags: DIFlagPrototyped | DIFlagAllCallsDescribed, spFlags: DISPFlagDefinition | DISPFlagOptimized, unit: !2, retainedNodes: !181)
!177 = !DISubroutineType(types: !178)
!178 = !{!179, !42}
!179 = !DIDerivedType(tag: DW_TAG_typedef, name: "int32_t", file: !36, line: 193, baseType: !180)
!180 = !DIBasicType(name: "int", size: 32, encoding: DW_ATE_signed)
!181 = !{!182}
!182 = !DILocalVariable(name: "pid", arg: 1, scope: !176, file: !3, line: 141, type: !42)
!183 = !DILocation(line: 0, scope: !176)
!184 = !DILocation(line: 142, column: 13, scope: !185)
!185 = distinct !DILexicalBlock(scope: !176, file: !3, line: 142, column: 9)
!186 = !DILocation(line: 142, column: 22, scope: !185)
!187 = !DILocation(line: 142, column: 25, scope: !185)
!188 = !{!189, !189, i64 0}
!189 = !{!"int", !190, i64 0}
!190 = !{!"omnipotent char", !191, i64 0}
!191 = !{!"Simple C/C++ TBAA"}
!192 = !DILocation(line: 142, column: 41, scope: !185)
!193 = !DILocation(line: 142, column: 9, scope: !176)
!194 = !DILocation(line: 144, column: 21, scope: !176)
!195 = !DILocation(line: 145, column: 24, scope: !176)
!196 = !DILocation(line: 145, column: 5, scope: !176)
!197 = !DILocation(line: 145, column: 22, scope: !176)
!198 = !DILocation(line: 146, column: 5, scope: !176)
!199 = !DILocation(line: 146, column: 20, scope: !176)
!200 = !DILocation(line: 147, column: 5, scope: !176)
!201 = !DILocation(line: 147, column: 20, scope: !176)
!202 = !DILocation(line: 148, column: 5, scope: !176)
!203 = !DILocation(line: 149, column: 1, scope: !176)
!204 = distinct !DISubprogram(name: "sys_set_name", scope: !3, file: !3, line: 151, type: !205, scopeLine: 151, flags: DIFlagPrototyped | DIFlagAllCallsDescribed, spFlags: DISPFlagDefinition | DISPFlagOptimized, unit: !2, retainedNodes: !207)
!205 = !DISubroutineType(types: !206)
!206 = !{!179, !42, !42}
!207 = !{!208, !209}
!208 = !DILocalVariable(name: "pid", arg: 1, scope: !204, file: !3, line: 151, type: !42)
!209 = !DILocalVariable(name: "name", arg: 2, scope: !204, file: !3, line: 151, type: !42)
!210 = !DILocation(line: 0, scope: !204)
!211 = !DILocalVariable(name: "pid", arg: 1, scope: !212, file: !3, line: 116, type: !42)
!212 = distinct !DISubprogram(name: "may_build", scope: !3, file: !3, line: 116, type: !213, scopeLine: 116, flags: DIFlagPrototyped | DIFlagAllCallsDescribed, spFlags: DISPFlagLocalToUnit | DISPFlagDefinition | DISPFlagOptimized, unit: !2, retainedNodes: !215)
!213 = !DISubroutineType(types: !214)
!214 = !{!42, !42}
!215 = !{!211}
!216 = !DILocation(line: 0, scope: !212, inlinedAt: !217)
!217 = distinct !DILocation(line: 152, column: 10, scope: !218)
!218 = distinct !DILexicalBlock(scope: !204, file: !3, line: 152, column: 9)
!219 = !DILocation(line: 117, column: 19, scope: !212, inlinedAt: !217)
!220 = !DILocation(line: 117, column: 16, scope: !212, inlinedAt: !217)
!221 = !DILocation(line: 117, column: 27, scope: !212, inlinedAt: !217)
!222 = !DILocalVariable(name: "pid", arg: 1, scope: !223, file: !3, line: 111, type: !42)
!223 = distinct !DISubprogram(name: "is_child", scope: !3, file: !3, line: 111, type: !224, scopeLine: 111, flags: DIFlagPrototyped | DIFlagAllCallsDescribed, spFlags: DISPFlagLocalToUnit | DISPFlagDefinition | DISPFlagOptimized, unit: !2, retainedNodes: !226)
!224 = !DISubroutineType(types: !225)
!225 = !{!42, !42, !42}
!226 = !{!222, !227}
!227 = !DILocalVariable(name: "state", arg: 2, scope: !223, file: !3, line: 111, type: !42)
!228 = !DILocation(line: 0, scope: !223, inlinedAt: !229)
!229 = distinct !DILocation(line: 117, column: 30, scope: !212, inlinedAt: !217)
!230 = !DILocation(line: 112, column: 16, scope: !223, inlinedAt: !229)
!231 = !DILocation(line: 112, column: 24, scope: !223, inlinedAt: !229)
!232 = !DILocation(line: 112, column: 27, scope: !223, inlinedAt: !229)
!233 = !DILocation(line: 112, column: 43, scope: !223, inlinedAt: !229)
!234 = !DILocation(line: 112, column: 52, scope: !223, inlinedAt: !229)
!235 = !DILocation(line: 112, column: 55, scope: !223, inlinedAt: !229)
!236 = !DILocation(line: 112, column: 72, scope: !223, inlinedAt: !229)
!237 = !DILocation(line: 152, column: 9, scope: !204)
!238 = !DILocation(line: 154, column: 5, scope: !204)
!239 = !DILocation(line: 154, column: 20, scope: !204)
!240 = !DILocation(line: 155, column: 5, scope: !204)
!241 = !DILocation(line: 156, column: 1, scope: !204)
!242 = distinct !DISubprogram(name: "sys_start", scope: !3, file: !3, line: 159, type: !243, scopeLine: 159, flags: DIFlagPrototyped | DIFlagAllCallsDescribed, spFlags: DISPFlagDefinition | DISPFlagOptimized, unit: !2, retainedNodes: !245)
!243 = !DISubroutineType(types: !244)
!244 = !{!179, !42, !42, !42, !42}
!245 = !{!246, !247, !248, !249}
!246 = !DILocalVariable(name: "pid", arg: 1, scope: !242, file: !3, line: 159, type: !42)
!247 = !DILocalVariable(name: "entry", arg: 2, scope: !242, file: !3, line: 159, type: !42)
!248 = !DILocalVariable(name: "stack", arg: 3, scope: !242, file: !3, line: 159, type: !42)
!249 = !DILocalVariable(name: "arg", arg: 4, scope: !242, file: !3, line: 159, type: !42)
!250 = !DILocation(line: 0, scope: !242)
!251 = !DILocation(line: 0, scope: !223, inlinedAt: !252)
!252 = distinct !DILocation(line: 160, column: 10, scope: !253)
!253 = distinct !DILexicalBlock(scope: !242, file: !3, line: 160, column: 9)
!254 = !DILocation(line: 112, column: 16, scope: !223, inlinedAt: !252)
!255 = !DILocation(line: 112, column: 24, scope: !223, inlinedAt: !252)
!256 = !DILocation(line: 112, column: 27, scope: !223, inlinedAt: !252)
!257 = !DILocation(line: 112, column: 43, scope: !223, inlinedAt: !252)
!258 = !DILocation(line: 112, column: 52, scope: !223, inlinedAt: !252)
!259 = !DILocation(line: 112, column: 55, scope: !223, inlinedAt: !252)
!260 = !DILocation(line: 112, column: 75, scope: !223, inlinedAt: !252)
!261 = !DILocation(line: 112, column: 72, scope: !223, inlinedAt: !252)
!262 = !DILocation(line: 160, column: 9, scope: !242)
!263 = !DILocation(line: 162, column: 5, scope: !242)
!264 = !DILocation(line: 162, column: 21, scope: !242)
!265 = !DILocation(line: 163, column: 5, scope: !242)
!266 = !DILocation(line: 164, column: 5, scope: !242)
!267 = !DILocation(line: 165, column: 1, scope: !242)
!268 = !DISubprogram(name: "context_start", scope: !3, file: !3, line: 24, type: !269, flags: DIFlagPrototyped, spFlags: DISPFlagOptimized, retainedNodes: !271)
!269 = !DISubroutineType(types: !270)
!270 = !{null, !42, !42, !42, !42}
!271 = !{}
!272 = distinct !DISubprogram(name: "sys_switch", scope: !3, file: !3, line: 167, type: !177, scopeLine: 167, flags: DIFlagPrototyped | DIFlagAllCallsDescribed, spFlags: DISPFlagDefinition | DISPFlagOptimized, unit: !2, retainedNodes: !273)
!273 = !{!274}
!274 = !DILocalVariable(name: "pid", arg: 1, scope: !272, file: !3, line: 167, type: !42)
!275 = !DILocation(line: 0, scope: !272)
!276 = !DILocation(line: 168, column: 13, scope: !277)
!277 = distinct !DILexicalBlock(scope: !272, file: !3, line: 168, column: 9)
!278 = !DILocation(line: 168, column: 22, scope: !277)
!279 = !DILocation(line: 168, column: 25, scope: !277)
!280 = !DILocation(line: 168, column: 41, scope: !277)
!281 = !DILocation(line: 168, column: 9, scope: !272)
!282 = !DILocation(line: 170, column: 13, scope: !272)
!283 = !DILocation(line: 171, column: 5, scope: !272)
!284 = !DILocation(line: 172, column: 1, scope: !272)
!285 = distinct !DISubprogram(name: "sys_set_next", scope: !3, file: !3, line: 175, type: !177, scopeLine: 175, flags: DIFlagPrototyped | DIFlagAllCallsDescribed, spFlags: DISPFlagDefinition | DISPFlagOptimized, unit: !2, retainedNodes: !286)
!286 = !{!287}
!287 = !DILocalVariable(name: "pid", arg: 1, scope: !285, file: !3, line: 175, type: !42)
!288 = !DILocation(line: 0, scope: !285)
!289 = !DILocation(line: 176, column: 13, scope: !290)
!290 = distinct !DILexicalBlock(scope: !285, file: !3, line: 176, column: 9)
!291 = !DILocation(line: 176, column: 9, scope: !285)
!292 = !DILocation(line: 178, column: 15, scope: !285)
!293 = !DILocation(line: 178, column: 5, scope: !285)
!294 = !DILocation(line: 178, column: 24, scope: !285)
!295 = !DILocation(line: 179, column: 5, scope: !285)
!296 = !DILocation(line: 180, column: 1, scope: !285)
!297 = distinct !DISubprogram(name: "sys_yield", scope: !3, file: !3, line: 187, type: !298, scopeLine: 187, flags: DIFlagPrototyped | DIFlagAllCallsDescribed, spFlags: DISPFlagDefinition | DISPFlagOptimized, unit: !2, retainedNodes: !271)
!298 = !DISubroutineType(types: !299)
!299 = !{!179}
!300 = !DILocation(line: 184, column: 36, scope: !301, inlinedAt: !304)
!301 = distinct !DISubprogram(name: "go_on", scope: !3, file: !3, line: 183, type: !302, scopeLine: 183, flags: DIFlagPrototyped | DIFlagAllCallsDescribed, spFlags: DISPFlagLocalToUnit | DISPFlagDefinition | DISPFlagOptimized, unit: !2, retainedNodes: !271)
!302 = !DISubroutineType(types: !303)
!303 = !{null}
!304 = distinct !DILocation(line: 188, column: 5, scope: !297)
!305 = !DILocation(line: 184, column: 26, scope: !301, inlinedAt: !304)
!306 = !DILocation(line: 184, column: 15, scope: !301, inlinedAt: !304)
!307 = !DILocation(line: 184, column: 46, scope: !301, inlinedAt: !304)
!308 = !DILocation(line: 184, column: 13, scope: !301, inlinedAt: !304)
!309 = !DILocation(line: 189, column: 5, scope: !297)
!310 = distinct !DISubprogram(name: "sys_exit", scope: !3, file: !3, line: 199, type: !177, scopeLine: 199, flags: DIFlagPrototyped | DIFlagAllCallsDescribed, spFlags: DISPFlagDefinition | DISPFlagOptimized, unit: !2, retainedNodes: !311)
!311 = !{!312}
!312 = !DILocalVariable(name: "status", arg: 1, scope: !310, file: !3, line: 199, type: !42)
!313 = !DILocation(line: 0, scope: !310)
!314 = !DILocation(line: 200, column: 9, scope: !315)
!315 = distinct !DILexicalBlock(scope: !310, file: !3, line: 200, column: 9)
!316 = !DILocation(line: 200, column: 17, scope: !315)
!317 = !DILocation(line: 200, column: 9, scope: !310)
!318 = !DILocalVariable(name: "status", arg: 1, scope: !319, file: !3, line: 192, type: !42)
!319 = distinct !DISubprogram(name: "end_running", scope: !3, file: !3, line: 192, type: !320, scopeLine: 192, flags: DIFlagPrototyped | DIFlagAllCallsDescribed, spFlags: DISPFlagLocalToUnit | DISPFlagDefinition | DISPFlagOptimized, unit: !2, retainedNodes: !322)
!320 = !DISubroutineType(types: !321)
!321 = !{null, !42}
!322 = !{!318}
!323 = !DILocation(line: 0, scope: !319, inlinedAt: !324)
!324 = distinct !DILocation(line: 202, column: 5, scope: !310)
!325 = !DILocation(line: 193, column: 5, scope: !319, inlinedAt: !324)
!326 = !DILocation(line: 193, column: 25, scope: !319, inlinedAt: !324)
!327 = !DILocation(line: 194, column: 5, scope: !319, inlinedAt: !324)
!328 = !DILocation(line: 194, column: 26, scope: !319, inlinedAt: !324)
!329 = !DILocation(line: 195, column: 5, scope: !319, inlinedAt: !324)
!330 = !DILocation(line: 195, column: 24, scope: !319, inlinedAt: !324)
!331 = !DILocation(line: 196, column: 13, scope: !319, inlinedAt: !324)
!332 = !DILocation(line: 203, column: 5, scope: !310)
!333 = !DILocation(line: 204, column: 1, scope: !310)
!334 = distinct !DISubprogram(name: "sys_kill", scope: !3, file: !3, line: 206, type: !177, scopeLine: 206, flags: DIFlagPrototyped | DIFlagAllCallsDescribed, spFlags: DISPFlagDefinition | DISPFlagOptimized, unit: !2, retainedNodes: !335)
!335 = !{!336}
!336 = !DILocalVariable(name: "pid", arg: 1, scope: !334, file: !3, line: 206, type: !42)
!337 = !DILocation(line: 0, scope: !334)
!338 = !DILocation(line: 207, column: 13, scope: !339)
!339 = distinct !DILexicalBlock(scope: !334, file: !3, line: 207, column: 9)
!340 = !DILocation(line: 207, column: 22, scope: !339)
!341 = !DILocation(line: 207, column: 32, scope: !339)
!342 = !DILocation(line: 207, column: 29, scope: !339)
!343 = !DILocation(line: 207, column: 40, scope: !339)
!344 = !DILocation(line: 207, column: 58, scope: !339)
!345 = !DILocation(line: 207, column: 75, scope: !339)
!346 = !DILocation(line: 207, column: 9, scope: !334)
!347 = !DILocation(line: 209, column: 9, scope: !348)
!348 = distinct !DILexicalBlock(scope: !334, file: !3, line: 209, column: 9)
!349 = !DILocation(line: 209, column: 33, scope: !348)
!350 = !DILocation(line: 211, column: 21, scope: !334)
!351 = !DILocation(line: 212, column: 5, scope: !334)
!352 = !DILocation(line: 212, column: 22, scope: !334)
!353 = !DILocation(line: 213, column: 5, scope: !334)
!354 = !DILocation(line: 213, column: 20, scope: !334)
!355 = !DILocation(line: 214, column: 5, scope: !334)
!356 = !DILocation(line: 215, column: 1, scope: !334)
!357 = distinct !DISubprogram(name: "sys_reap", scope: !3, file: !3, line: 218, type: !177, scopeLine: 218, flags: DIFlagPrototyped | DIFlagAllCallsDescribed, spFlags: DISPFlagDefinition | DISPFlagOptimized, unit: !2, retainedNodes: !358)
!358 = !{!359, !360, !361, !363, !365, !367, !369, !371, !373}
!359 = !DILocalVariable(name: "pid", arg: 1, scope: !357, file: !3, line: 218, type: !42)
!360 = !DILocalVariable(name: "held", scope: !357, file: !3, line: 219, type: !42)
!361 = !DILocalVariable(name: "i", scope: !362, file: !3, line: 222, type: !42)
!362 = distinct !DILexicalBlock(scope: !357, file: !3, line: 222, column: 12)
!363 = !DILocalVariable(name: "i", scope: !364, file: !3, line: 224, type: !42)
!364 = distinct !DILexicalBlock(scope: !357, file: !3, line: 224, column: 12)
!365 = !DILocalVariable(name: "i", scope: !366, file: !3, line: 226, type: !42)
!366 = distinct !DILexicalBlock(scope: !357, file: !3, line: 226, column: 12)
!367 = !DILocalVariable(name: "i", scope: !368, file: !3, line: 228, type: !42)
!368 = distinct !DILexicalBlock(scope: !357, file: !3, line: 228, column: 12)
!369 = !DILocalVariable(name: "i", scope: !370, file: !3, line: 230, type: !42)
!370 = distinct !DILexicalBlock(scope: !357, file: !3, line: 230, column: 12)
!371 = !DILocalVariable(name: "i", scope: !372, file: !3, line: 232, type: !42)
!372 = distinct !DILexicalBlock(scope: !357, file: !3, line: 232, column: 12)
!373 = !DILocalVariable(name: "i", scope: !374, file: !3, line: 234, type: !42)
!374 = distinct !DILexicalBlock(scope: !357, file: !3, line: 234, column: 12)
!375 = !DILocation(line: 0, scope: !357)
!376 = !DILocation(line: 0, scope: !223, inlinedAt: !377)
!377 = distinct !DILocation(line: 220, column: 10, scope: !378)
!378 = distinct !DILexicalBlock(scope: !357, file: !3, line: 220, column: 9)
!379 = !DILocation(line: 112, column: 16, scope: !223, inlinedAt: !377)
!380 = !DILocation(line: 112, column: 24, scope: !223, inlinedAt: !377)
!381 = !DILocation(line: 112, column: 27, scope: !223, inlinedAt: !377)
!382 = !DILocation(line: 112, column: 43, scope: !223, inlinedAt: !377)
!383 = !DILocation(line: 112, column: 52, scope: !223, inlinedAt: !377)
!384 = !DILocation(line: 112, column: 55, scope: !223, inlinedAt: !377)
!385 = !DILocation(line: 112, column: 75, scope: !223, inlinedAt: !377)
!386 = !DILocation(line: 112, column: 72, scope: !223, inlinedAt: !377)
!387 = !DILocation(line: 220, column: 9, scope: !357)
!388 = !DILocation(line: 0, scope: !362)
!389 = !DILocation(line: 0, scope: !364)
!390 = !DILocation(line: 0, scope: !366)
!391 = !DILocation(line: 0, scope: !368)
!392 = !DILocation(line: 0, scope: !370)
!393 = !DILocation(line: 0, scope: !372)
!394 = !DILocation(line: 233, column: 17, scope: !395)
!395 = distinct !DILexicalBlock(scope: !372, file: !3, line: 232, column: 12)
!396 = !DILocation(line: 233, column: 33, scope: !395)
!397 = !DILocation(line: 223, column: 17, scope: !398)
!398 = distinct !DILexicalBlock(scope: !362, file: !3, line: 222, column: 12)
!399 = !{!400, !400, i64 0}
!400 = !{!"long", !190, i64 0}
!401 = !DILocation(line: 223, column: 14, scope: !398)
!402 = !DILocation(line: 225, column: 17, scope: !403)
!403 = distinct !DILexicalBlock(scope: !364, file: !3, line: 224, column: 12)
!404 = !DILocation(line: 225, column: 14, scope: !403)
!405 = !DILocation(line: 227, column: 18, scope: !406)
!406 = distinct !DILexicalBlock(scope: !366, file: !3, line: 226, column: 12)
!407 = !DILocation(line: 227, column: 31, scope: !406)
!408 = !DILocation(line: 227, column: 43, scope: !406)
!409 = !DILocation(line: 227, column: 57, scope: !406)
!410 = !DILocation(line: 227, column: 40, scope: !406)
!411 = !DILocation(line: 227, column: 14, scope: !406)
!412 = !DILocation(line: 229, column: 17, scope: !413)
!413 = distinct !DILexicalBlock(scope: !368, file: !3, line: 228, column: 12)
!414 = !DILocation(line: 229, column: 31, scope: !413)
!415 = !DILocation(line: 229, column: 14, scope: !413)
!416 = !DILocation(line: 231, column: 17, scope: !417)
!417 = distinct !DILexicalBlock(scope: !370, file: !3, line: 230, column: 12)
!418 = !DILocation(line: 231, column: 33, scope: !417)
!419 = !DILocation(line: 231, column: 14, scope: !417)
!420 = !DILocation(line: 233, column: 14, scope: !395)
!421 = !DILocation(line: 0, scope: !374)
!422 = !DILocation(line: 235, column: 18, scope: !423)
!423 = distinct !DILexicalBlock(scope: !374, file: !3, line: 234, column: 12)
!424 = !DILocation(line: 235, column: 32, scope: !423)
!425 = !DILocation(line: 235, column: 44, scope: !423)
!426 = !DILocation(line: 235, column: 59, scope: !423)
!427 = !DILocation(line: 235, column: 41, scope: !423)
!428 = !DILocation(line: 235, column: 14, scope: !423)
!429 = !DILocation(line: 236, column: 9, scope: !357)
!430 = !DILocation(line: 238, column: 5, scope: !357)
!431 = !DILocation(line: 238, column: 21, scope: !357)
!432 = !DILocation(line: 239, column: 5, scope: !357)
!433 = !DILocation(line: 240, column: 1, scope: !357)
!434 = distinct !DISubprogram(name: "sys_reparent", scope: !3, file: !3, line: 243, type: !177, scopeLine: 243, flags: DIFlagPrototyped | DIFlagAllCallsDescribed, spFlags: DISPFlagDefinition | DISPFlagOptimized, unit: !2, retainedNodes: !435)
!435 = !{!436}
!436 = !DILocalVariable(name: "pid", arg: 1, scope: !434, file: !3, line: 243, type: !42)
!437 = !DILocation(line: 0, scope: !434)
!438 = !DILocation(line: 244, column: 13, scope: !439)
!439 = distinct !DILexicalBlock(scope: !434, file: !3, line: 244, column: 9)
!440 = !DILocation(line: 244, column: 22, scope: !439)
!441 = !DILocation(line: 244, column: 25, scope: !439)
!442 = !DILocation(line: 244, column: 41, scope: !439)
!443 = !DILocation(line: 244, column: 49, scope: !439)
!444 = !DILocation(line: 244, column: 63, scope: !439)
!445 = !DILocation(line: 244, column: 52, scope: !439)
!446 = !DILocation(line: 244, column: 81, scope: !439)
!447 = !DILocation(line: 244, column: 9, scope: !434)
!448 = !DILocation(line: 246, column: 22, scope: !434)
!449 = !DILocation(line: 247, column: 5, scope: !434)
!450 = !DILocation(line: 248, column: 1, scope: !434)
!451 = distinct !DISubprogram(name: "sys_get_pid", scope: !3, file: !3, line: 250, type: !298, scopeLine: 250, flags: DIFlagPrototyped | DIFlagAllCallsDescribed, spFlags: DISPFlagDefinition | DISPFlagOptimized, unit: !2, retainedNodes: !271)
!452 = !DILocation(line: 251, column: 12, scope: !451)
!453 = !DILocation(line: 251, column: 5, scope: !451)
!454 = distinct !DISubprogram(name: "sys_get_status", scope: !3, file: !3, line: 255, type: !455, scopeLine: 255, flags: DIFlagPrototyped | DIFlagAllCallsDescribed, spFlags: DISPFlagDefinition | DISPFlagOptimized, unit: !2, retainedNodes: !459)
!455 = !DISubroutineType(types: !456)
!456 = !{!457, !42}
!457 = !DIDerivedType(tag: DW_TAG_typedef, name: "int64_t", file: !36, line: 96, baseType: !458)
!458 = !DIBasicType(name: "long", size: 64, encoding: DW_ATE_signed)
!459 = !{!460}
!460 = !DILocalVariable(name: "pid", arg: 1, scope: !454, file: !3, line: 255, type: !42)
!461 = !DILocation(line: 0, scope: !454)
!462 = !DILocation(line: 0, scope: !223, inlinedAt: !463)
!463 = distinct !DILocation(line: 256, column: 10, scope: !464)
!464 = distinct !DILexicalBlock(scope: !454, file: !3, line: 256, column: 9)
!465 = !DILocation(line: 112, column: 16, scope: !223, inlinedAt: !463)
!466 = !DILocation(line: 112, column: 24, scope: !223, inlinedAt: !463)
!467 = !DILocation(line: 112, column: 27, scope: !223, inlinedAt: !463)
!468 = !DILocation(line: 112, column: 43, scope: !223, inlinedAt: !463)
!469 = !DILocation(line: 112, column: 52, scope: !223, inlinedAt: !463)
!470 = !DILocation(line: 112, column: 55, scope: !223, inlinedAt: !463)
!471 = !DILocation(line: 112, column: 75, scope: !223, inlinedAt: !463)
!472 = !DILocation(line: 112, column: 72, scope: !223, inlinedAt: !463)
!473 = !DILocation(line: 256, column: 9, scope: !454)
!474 = !DILocation(line: 258, column: 12, scope: !454)
!475 = !DILocation(line: 258, column: 5, scope: !454)
!476 = !DILocation(line: 259, column: 1, scope: !454)
!477 = distinct !DISubprogram(name: "sys_create_file", scope: !3, file: !3, line: 293, type: !478, scopeLine: 293, flags: DIFlagPrototyped | DIFlagAllCallsDescribed, spFlags: DISPFlagDefinition | DISPFlagOptimized, unit: !2, retainedNodes: !480)
!478 = !DISubroutineType(types: !479)
!479 = !{!179, !42, !42, !42}
!480 = !{!481, !482, !483}
!481 = !DILocalVariable(name: "fd", arg: 1, scope: !477, file: !3, line: 293, type: !42)
!482 = !DILocalVariable(name: "file", arg: 2, scope: !477, file: !3, line: 293, type: !42)
!483 = !DILocalVariable(name: "value", arg: 3, scope: !477, file: !3, line: 293, type: !42)
!484 = !DILocation(line: 0, scope: !477)
!485 = !DILocalVariable(name: "fd", arg: 1, scope: !486, file: !3, line: 263, type: !42)
!486 = distinct !DISubprogram(name: "can_open", scope: !3, file: !3, line: 263, type: !224, scopeLine: 263, flags: DIFlagPrototyped | DIFlagAllCallsDescribed, spFlags: DISPFlagLocalToUnit | DISPFlagDefinition | DISPFlagOptimized, unit: !2, retainedNodes: !487)
!487 = !{!485, !488}
!488 = !DILocalVariable(name: "file", arg: 2, scope: !486, file: !3, line: 263, type: !42)
!489 = !DILocation(line: 0, scope: !486, inlinedAt: !490)
!490 = distinct !DILocation(line: 294, column: 10, scope: !491)
!491 = distinct !DILexicalBlock(scope: !477, file: !3, line: 294, column: 9)
!492 = !DILocation(line: 264, column: 15, scope: !486, inlinedAt: !490)
!493 = !DILocation(line: 264, column: 21, scope: !486, inlinedAt: !490)
!494 = !DILocation(line: 264, column: 44, scope: !486, inlinedAt: !490)
!495 = !DILocation(line: 264, column: 40, scope: !486, inlinedAt: !490)
!496 = !DILocation(line: 264, column: 57, scope: !486, inlinedAt: !490)
!497 = !DILocation(line: 264, column: 62, scope: !486, inlinedAt: !490)
!498 = !DILocation(line: 264, column: 65, scope: !486, inlinedAt: !490)
!499 = !DILocation(line: 264, column: 81, scope: !486, inlinedAt: !490)
!500 = !DILocation(line: 294, column: 9, scope: !477)
!501 = !DILocalVariable(name: "fd", arg: 1, scope: !502, file: !3, line: 267, type: !42)
!502 = distinct !DISubprogram(name: "open", scope: !3, file: !3, line: 267, type: !269, scopeLine: 267, flags: DIFlagPrototyped | DIFlagAllCallsDescribed, spFlags: DISPFlagLocalToUnit | DISPFlagDefinition | DISPFlagOptimized, unit: !2, retainedNodes: !503)
!503 = !{!501, !504, !505, !506}
!504 = !DILocalVariable(name: "file", arg: 2, scope: !502, file: !3, line: 267, type: !42)
!505 = !DILocalVariable(name: "kind", arg: 3, scope: !502, file: !3, line: 267, type: !42)
!506 = !DILocalVariable(name: "value", arg: 4, scope: !502, file: !3, line: 267, type: !42)
!507 = !DILocation(line: 0, scope: !502, inlinedAt: !508)
!508 = distinct !DILocation(line: 296, column: 5, scope: !477)
!509 = !DILocation(line: 268, column: 29, scope: !502, inlinedAt: !508)
!510 = !DILocation(line: 268, column: 9, scope: !502, inlinedAt: !508)
!511 = !DILocation(line: 268, column: 5, scope: !502, inlinedAt: !508)
!512 = !DILocation(line: 268, column: 22, scope: !502, inlinedAt: !508)
!513 = !DILocation(line: 269, column: 5, scope: !502, inlinedAt: !508)
!514 = !DILocation(line: 269, column: 21, scope: !502, inlinedAt: !508)
!515 = !DILocation(line: 270, column: 5, scope: !502, inlinedAt: !508)
!516 = !DILocation(line: 270, column: 22, scope: !502, inlinedAt: !508)
!517 = !DILocation(line: 271, column: 25, scope: !502, inlinedAt: !508)
!518 = !DILocation(line: 271, column: 5, scope: !502, inlinedAt: !508)
!519 = !DILocation(line: 271, column: 20, scope: !502, inlinedAt: !508)
!520 = !DILocation(line: 272, column: 5, scope: !502, inlinedAt: !508)
!521 = !DILocation(line: 272, column: 22, scope: !502, inlinedAt: !508)
!522 = !DILocation(line: 273, column: 5, scope: !502, inlinedAt: !508)
!523 = !DILocation(line: 273, column: 23, scope: !502, inlinedAt: !508)
!524 = !DILocation(line: 297, column: 5, scope: !477)
!525 = !DILocation(line: 298, column: 1, scope: !477)
!526 = distinct !DISubprogram(name: "sys_close", scope: !3, file: !3, line: 301, type: !205, scopeLine: 301, flags: DIFlagPrototyped | DIFlagAllCallsDescribed, spFlags: DISPFlagDefinition | DISPFlagOptimized, unit: !2, retainedNodes: !527)
!527 = !{!528, !529}
!528 = !DILocalVariable(name: "pid", arg: 1, scope: !526, file: !3, line: 301, type: !42)
!529 = !DILocalVariable(name: "fd", arg: 2, scope: !526, file: !3, line: 301, type: !42)
!530 = !DILocation(line: 0, scope: !526)
!531 = !DILocalVariable(name: "pid", arg: 1, scope: !532, file: !3, line: 121, type: !42)
!532 = distinct !DISubprogram(name: "may_take", scope: !3, file: !3, line: 121, type: !213, scopeLine: 121, flags: DIFlagPrototyped | DIFlagAllCallsDescribed, spFlags: DISPFlagLocalToUnit | DISPFlagDefinition | DISPFlagOptimized, unit: !2, retainedNodes: !533)
!533 = !{!531}
!534 = !DILocation(line: 0, scope: !532, inlinedAt: !535)
!535 = distinct !DILocation(line: 302, column: 10, scope: !536)
!536 = distinct !DILexicalBlock(scope: !526, file: !3, line: 302, column: 9)
!537 = !DILocation(line: 122, column: 19, scope: !532, inlinedAt: !535)
!538 = !DILocation(line: 122, column: 16, scope: !532, inlinedAt: !535)
!539 = !DILocation(line: 122, column: 27, scope: !532, inlinedAt: !535)
!540 = !DILocation(line: 0, scope: !223, inlinedAt: !541)
!541 = distinct !DILocation(line: 122, column: 30, scope: !532, inlinedAt: !535)
!542 = !DILocation(line: 112, column: 16, scope: !223, inlinedAt: !541)
!543 = !DILocation(line: 112, column: 24, scope: !223, inlinedAt: !541)
!544 = !DILocation(line: 112, column: 27, scope: !223, inlinedAt: !541)
!545 = !DILocation(line: 112, column: 52, scope: !223, inlinedAt: !541)
!546 = !DILocation(line: 112, column: 55, scope: !223, inlinedAt: !541)
!547 = !DILocation(line: 112, column: 72, scope: !223, inlinedAt: !541)
!548 = !DILocation(line: 122, column: 52, scope: !532, inlinedAt: !535)
!549 = !DILocation(line: 112, column: 43, scope: !223, inlinedAt: !550)
!550 = distinct !DILocation(line: 122, column: 55, scope: !532, inlinedAt: !535)
!551 = !DILocation(line: 112, column: 52, scope: !223, inlinedAt: !550)
!552 = !DILocation(line: 112, column: 55, scope: !223, inlinedAt: !550)
!553 = !DILocation(line: 112, column: 72, scope: !223, inlinedAt: !550)
!554 = !DILocation(line: 302, column: 24, scope: !536)
!555 = !DILocation(line: 302, column: 40, scope: !536)
!556 = !DILocation(line: 302, column: 53, scope: !536)
!557 = !DILocation(line: 302, column: 9, scope: !526)
!558 = !DILocation(line: 304, column: 23, scope: !526)
!559 = !DILocalVariable(name: "file", arg: 1, scope: !560, file: !3, line: 282, type: !42)
!560 = distinct !DISubprogram(name: "drop", scope: !3, file: !3, line: 282, type: !561, scopeLine: 282, flags: DIFlagPrototyped | DIFlagAllCallsDescribed, spFlags: DISPFlagLocalToUnit | DISPFlagDefinition | DISPFlagOptimized, unit: !2, retainedNodes: !563)
!561 = !DISubroutineType(types: !562)
!562 = !{null, !42, !42}
!563 = !{!559, !564}
!564 = !DILocalVariable(name: "fd", arg: 2, scope: !560, file: !3, line: 282, type: !42)
!565 = !DILocation(line: 0, scope: !560, inlinedAt: !566)
!566 = distinct !DILocation(line: 304, column: 5, scope: !526)
!567 = !DILocation(line: 283, column: 28, scope: !560, inlinedAt: !566)
!568 = !DILocation(line: 283, column: 23, scope: !560, inlinedAt: !566)
!569 = !DILocation(line: 283, column: 5, scope: !560, inlinedAt: !566)
!570 = !DILocation(line: 283, column: 20, scope: !560, inlinedAt: !566)
!571 = !DILocation(line: 284, column: 24, scope: !572, inlinedAt: !566)
!572 = distinct !DILexicalBlock(scope: !560, file: !3, line: 284, column: 9)
!573 = !DILocation(line: 284, column: 9, scope: !560, inlinedAt: !566)
!574 = !DILocation(line: 286, column: 9, scope: !575, inlinedAt: !566)
!575 = distinct !DILexicalBlock(scope: !560, file: !3, line: 286, column: 9)
!576 = !DILocation(line: 286, column: 9, scope: !560, inlinedAt: !566)
!577 = !DILocation(line: 289, column: 9, scope: !578, inlinedAt: !566)
!578 = distinct !DILexicalBlock(scope: !560, file: !3, line: 288, column: 9)
!579 = !DILocation(line: 290, column: 21, scope: !560, inlinedAt: !566)
!580 = !DILocation(line: 291, column: 1, scope: !560, inlinedAt: !566)
!581 = !DILocation(line: 305, column: 18, scope: !526)
!582 = !DILocation(line: 306, column: 5, scope: !526)
!583 = !DILocation(line: 307, column: 1, scope: !526)
!584 = distinct !DISubprogram(name: "sys_dup", scope: !3, file: !3, line: 309, type: !205, scopeLine: 309, flags: DIFlagPrototyped | DIFlagAllCallsDescribed, spFlags: DISPFlagDefinition | DISPFlagOptimized, unit: !2, retainedNodes: !585)
!585 = !{!586, !587}
!586 = !DILocalVariable(name: "oldfd", arg: 1, scope: !584, file: !3, line: 309, type: !42)
!587 = !DILocalVariable(name: "newfd", arg: 2, scope: !584, file: !3, line: 309, type: !42)
!588 = !DILocation(line: 0, scope: !584)
!589 = !DILocation(line: 310, column: 22, scope: !590)
!590 = distinct !DILexicalBlock(scope: !584, file: !3, line: 310, column: 9)
!591 = !DILocation(line: 310, column: 45, scope: !590)
!592 = !DILocation(line: 310, column: 41, scope: !590)
!593 = !DILocation(line: 310, column: 61, scope: !590)
!594 = !DILocation(line: 310, column: 66, scope: !590)
!595 = !DILocation(line: 310, column: 69, scope: !590)
!596 = !DILocation(line: 310, column: 89, scope: !590)
!597 = !DILocation(line: 310, column: 9, scope: !584)
!598 = !DILocation(line: 312, column: 25, scope: !584)
!599 = !DILocation(line: 313, column: 45, scope: !584)
!600 = !DILocation(line: 313, column: 14, scope: !584)
!601 = !DILocation(line: 313, column: 34, scope: !584)
!602 = !DILocation(line: 313, column: 5, scope: !584)
!603 = !DILocation(line: 313, column: 39, scope: !584)
!604 = !DILocation(line: 314, column: 5, scope: !584)
!605 = !DILocation(line: 315, column: 1, scope: !584)
!606 = distinct !DISubprogram(name: "sys_dup2", scope: !3, file: !3, line: 318, type: !205, scopeLine: 318, flags: DIFlagPrototyped | DIFlagAllCallsDescribed, spFlags: DISPFlagDefinition | DISPFlagOptimized, unit: !2, retainedNodes: !607)
!607 = !{!608, !609}
!608 = !DILocalVariable(name: "oldfd", arg: 1, scope: !606, file: !3, line: 318, type: !42)
!609 = !DILocalVariable(name: "newfd", arg: 2, scope: !606, file: !3, line: 318, type: !42)
!610 = !DILocation(line: 0, scope: !606)
!611 = !DILocation(line: 319, column: 22, scope: !612)
!612 = distinct !DILexicalBlock(scope: !606, file: !3, line: 319, column: 9)
!613 = !DILocation(line: 319, column: 45, scope: !612)
!614 = !DILocation(line: 319, column: 41, scope: !612)
!615 = !DILocation(line: 319, column: 61, scope: !612)
!616 = !DILocation(line: 319, column: 66, scope: !612)
!617 = !DILocation(line: 319, column: 69, scope: !612)
!618 = !DILocation(line: 319, column: 89, scope: !612)
!619 = !DILocation(line: 319, column: 9, scope: !606)
!620 = !DILocation(line: 323, column: 30, scope: !606)
!621 = !DILocation(line: 0, scope: !560, inlinedAt: !622)
!622 = distinct !DILocation(line: 323, column: 5, scope: !606)
!623 = !DILocation(line: 283, column: 28, scope: !560, inlinedAt: !622)
!624 = !DILocation(line: 283, column: 23, scope: !560, inlinedAt: !622)
!625 = !DILocation(line: 283, column: 5, scope: !560, inlinedAt: !622)
!626 = !DILocation(line: 283, column: 20, scope: !560, inlinedAt: !622)
!627 = !DILocation(line: 284, column: 24, scope: !572, inlinedAt: !622)
!628 = !DILocation(line: 284, column: 9, scope: !560, inlinedAt: !622)
!629 = !DILocation(line: 286, column: 9, scope: !575, inlinedAt: !622)
!630 = !DILocation(line: 286, column: 9, scope: !560, inlinedAt: !622)
!631 = !DILocation(line: 289, column: 9, scope: !578, inlinedAt: !622)
!632 = !DILocation(line: 290, column: 21, scope: !560, inlinedAt: !622)
!633 = !DILocation(line: 291, column: 1, scope: !560, inlinedAt: !622)
!634 = !DILocation(line: 324, column: 34, scope: !606)
!635 = !DILocation(line: 324, column: 5, scope: !606)
!636 = !DILocation(line: 324, column: 39, scope: !606)
!637 = !DILocation(line: 325, column: 25, scope: !606)
!638 = !DILocation(line: 326, column: 5, scope: !606)
!639 = !DILocation(line: 327, column: 1, scope: !606)
!640 = distinct !DISubprogram(name: "sys_transfer", scope: !3, file: !3, line: 330, type: !478, scopeLine: 330, flags: DIFlagPrototyped | DIFlagAllCallsDescribed, spFlags: DISPFlagDefinition | DISPFlagOptimized, unit: !2, retainedNodes: !641)
!641 = !{!642, !643, !644}
!642 = !DILocalVariable(name: "fd", arg: 1, scope: !640, file: !3, line: 330, type: !42)
!643 = !DILocalVariable(name: "pid", arg: 2, scope: !640, file: !3, line: 330, type: !42)
!644 = !DILocalVariable(name: "newfd", arg: 3, scope: !640, file: !3, line: 330, type: !42)
!645 = !DILocation(line: 0, scope: !640)
!646 = !DILocation(line: 331, column: 19, scope: !647)
!647 = distinct !DILexicalBlock(scope: !640, file: !3, line: 331, column: 9)
!648 = !DILocation(line: 331, column: 42, scope: !647)
!649 = !DILocation(line: 331, column: 38, scope: !647)
!650 = !DILocation(line: 331, column: 55, scope: !647)
!651 = !DILocation(line: 331, column: 60, scope: !647)
!652 = !DILocation(line: 331, column: 89, scope: !647)
!653 = !DILocation(line: 331, column: 63, scope: !647)
!654 = !DILocation(line: 331, column: 100, scope: !647)
!655 = !DILocation(line: 331, column: 94, scope: !647)
!656 = !DILocation(line: 331, column: 9, scope: !640)
!657 = !DILocation(line: 0, scope: !223, inlinedAt: !658)
!658 = distinct !DILocation(line: 333, column: 10, scope: !659)
!659 = distinct !DILexicalBlock(scope: !640, file: !3, line: 333, column: 9)
!660 = !DILocation(line: 112, column: 16, scope: !223, inlinedAt: !658)
!661 = !DILocation(line: 112, column: 24, scope: !223, inlinedAt: !658)
!662 = !DILocation(line: 112, column: 27, scope: !223, inlinedAt: !658)
!663 = !DILocation(line: 112, column: 43, scope: !223, inlinedAt: !658)
!664 = !DILocation(line: 112, column: 52, scope: !223, inlinedAt: !658)
!665 = !DILocation(line: 112, column: 55, scope: !223, inlinedAt: !658)
!666 = !DILocation(line: 112, column: 72, scope: !223, inlinedAt: !658)
!667 = !DILocation(line: 333, column: 32, scope: !659)
!668 = !DILocation(line: 333, column: 53, scope: !659)
!669 = !DILocation(line: 333, column: 69, scope: !659)
!670 = !DILocation(line: 333, column: 9, scope: !640)
!671 = !DILocation(line: 335, column: 5, scope: !640)
!672 = !DILocation(line: 335, column: 38, scope: !640)
!673 = !DILocation(line: 336, column: 41, scope: !640)
!674 = !DILocation(line: 336, column: 36, scope: !640)
!675 = !DILocation(line: 337, column: 21, scope: !640)
!676 = !DILocation(line: 338, column: 22, scope: !640)
!677 = !DILocation(line: 339, column: 5, scope: !640)
!678 = !DILocation(line: 340, column: 1, scope: !640)
!679 = distinct !DISubprogram(name: "sys_pipe", scope: !3, file: !3, line: 342, type: !680, scopeLine: 342, flags: DIFlagPrototyped | DIFlagAllCallsDescribed, spFlags: DISPFlagDefinition | DISPFlagOptimized, unit: !2, retainedNodes: !682)
!680 = !DISubroutineType(types: !681)
!681 = !{!179, !42, !42, !42, !42, !42}
!682 = !{!683, !684, !685, !686, !687}
!683 = !DILocalVariable(name: "readfd", arg: 1, scope: !679, file: !3, line: 342, type: !42)
!684 = !DILocalVariable(name: "readfile", arg: 2, scope: !679, file: !3, line: 342, type: !42)
!685 = !DILocalVariable(name: "writefd", arg: 3, scope: !679, file: !3, line: 342, type: !42)
!686 = !DILocalVariable(name: "writefile", arg: 4, scope: !679, file: !3, line: 342, type: !42)
!687 = !DILocalVariable(name: "pipe", arg: 5, scope: !679, file: !3, line: 342, type: !42)
!688 = !DILocation(line: 0, scope: !679)
!689 = !DILocation(line: 0, scope: !486, inlinedAt: !690)
!690 = distinct !DILocation(line: 343, column: 10, scope: !691)
!691 = distinct !DILexicalBlock(scope: !679, file: !3, line: 343, column: 9)
!692 = !DILocation(line: 264, column: 15, scope: !486, inlinedAt: !690)
!693 = !DILocation(line: 264, column: 21, scope: !486, inlinedAt: !690)
!694 = !DILocation(line: 264, column: 44, scope: !486, inlinedAt: !690)
!695 = !DILocation(line: 264, column: 40, scope: !486, inlinedAt: !690)
!696 = !DILocation(line: 264, column: 57, scope: !486, inlinedAt: !690)
!697 = !DILocation(line: 264, column: 62, scope: !486, inlinedAt: !690)
!698 = !DILocation(line: 264, column: 65, scope: !486, inlinedAt: !690)
!699 = !DILocation(line: 264, column: 81, scope: !486, inlinedAt: !690)
!700 = !DILocation(line: 343, column: 37, scope: !691)
!701 = !DILocation(line: 0, scope: !486, inlinedAt: !702)
!702 = distinct !DILocation(line: 343, column: 41, scope: !691)
!703 = !DILocation(line: 264, column: 15, scope: !486, inlinedAt: !702)
!704 = !DILocation(line: 264, column: 21, scope: !486, inlinedAt: !702)
!705 = !DILocation(line: 264, column: 44, scope: !486, inlinedAt: !702)
!706 = !DILocation(line: 264, column: 40, scope: !486, inlinedAt: !702)
!707 = !DILocation(line: 264, column: 57, scope: !486, inlinedAt: !702)
!708 = !DILocation(line: 264, column: 62, scope: !486, inlinedAt: !702)
!709 = !DILocation(line: 264, column: 65, scope: !486, inlinedAt: !702)
!710 = !DILocation(line: 264, column: 81, scope: !486, inlinedAt: !702)
!711 = !DILocation(line: 343, column: 70, scope: !691)
!712 = !DILocation(line: 345, column: 26, scope: !713)
!713 = distinct !DILexicalBlock(scope: !679, file: !3, line: 345, column: 9)
!714 = !DILocation(line: 345, column: 44, scope: !713)
!715 = !DILocation(line: 345, column: 49, scope: !713)
!716 = !DILocation(line: 345, column: 52, scope: !713)
!717 = !DILocation(line: 345, column: 70, scope: !713)
!718 = !DILocation(line: 345, column: 9, scope: !679)
!719 = !DILocation(line: 0, scope: !502, inlinedAt: !720)
!720 = distinct !DILocation(line: 347, column: 5, scope: !679)
!721 = !DILocation(line: 268, column: 29, scope: !502, inlinedAt: !720)
!722 = !DILocation(line: 268, column: 9, scope: !502, inlinedAt: !720)
!723 = !DILocation(line: 268, column: 5, scope: !502, inlinedAt: !720)
!724 = !DILocation(line: 268, column: 22, scope: !502, inlinedAt: !720)
!725 = !DILocation(line: 269, column: 5, scope: !502, inlinedAt: !720)
!726 = !DILocation(line: 269, column: 21, scope: !502, inlinedAt: !720)
!727 = !DILocation(line: 270, column: 5, scope: !502, inlinedAt: !720)
!728 = !DILocation(line: 270, column: 22, scope: !502, inlinedAt: !720)
!729 = !DILocation(line: 271, column: 25, scope: !502, inlinedAt: !720)
!730 = !DILocation(line: 271, column: 5, scope: !502, inlinedAt: !720)
!731 = !DILocation(line: 271, column: 20, scope: !502, inlinedAt: !720)
!732 = !DILocation(line: 272, column: 5, scope: !502, inlinedAt: !720)
!733 = !DILocation(line: 272, column: 22, scope: !502, inlinedAt: !720)
!734 = !DILocation(line: 273, column: 5, scope: !502, inlinedAt: !720)
!735 = !DILocation(line: 273, column: 23, scope: !502, inlinedAt: !720)
!736 = !DILocation(line: 0, scope: !502, inlinedAt: !737)
!737 = distinct !DILocation(line: 348, column: 5, scope: !679)
!738 = !DILocation(line: 268, column: 29, scope: !502, inlinedAt: !737)
!739 = !DILocation(line: 268, column: 5, scope: !502, inlinedAt: !737)
!740 = !DILocation(line: 268, column: 22, scope: !502, inlinedAt: !737)
!741 = !DILocation(line: 269, column: 5, scope: !502, inlinedAt: !737)
!742 = !DILocation(line: 269, column: 21, scope: !502, inlinedAt: !737)
!743 = !DILocation(line: 270, column: 5, scope: !502, inlinedAt: !737)
!744 = !DILocation(line: 270, column: 22, scope: !502, inlinedAt: !737)
!745 = !DILocation(line: 271, column: 25, scope: !502, inlinedAt: !737)
!746 = !DILocation(line: 271, column: 5, scope: !502, inlinedAt: !737)
!747 = !DILocation(line: 271, column: 20, scope: !502, inlinedAt: !737)
!748 = !DILocation(line: 272, column: 5, scope: !502, inlinedAt: !737)
!749 = !DILocation(line: 272, column: 22, scope: !502, inlinedAt: !737)
!750 = !DILocation(line: 273, column: 5, scope: !502, inlinedAt: !737)
!751 = !DILocation(line: 273, column: 23, scope: !502, inlinedAt: !737)
!752 = !DILocation(line: 349, column: 23, scope: !679)
!753 = !DILocation(line: 350, column: 23, scope: !679)
!754 = !DILocation(line: 351, column: 5, scope: !679)
!755 = !DILocation(line: 351, column: 21, scope: !679)
!756 = !DILocation(line: 352, column: 5, scope: !679)
!757 = !DILocation(line: 352, column: 22, scope: !679)
!758 = !DILocation(line: 353, column: 5, scope: !679)
!759 = !DILocation(line: 354, column: 1, scope: !679)
!760 = distinct !DISubprogram(name: "sys_pipe_read", scope: !3, file: !3, line: 357, type: !455, scopeLine: 357, flags: DIFlagPrototyped | DIFlagAllCallsDescribed, spFlags: DISPFlagDefinition | DISPFlagOptimized, unit: !2, retainedNodes: !761)
!761 = !{!762, !763, !764, !765}
!762 = !DILocalVariable(name: "fd", arg: 1, scope: !760, file: !3, line: 357, type: !42)
!763 = !DILocalVariable(name: "file", scope: !760, file: !3, line: 358, type: !42)
!764 = !DILocalVariable(name: "pipe", scope: !760, file: !3, line: 361, type: !42)
!765 = !DILocalVariable(name: "head", scope: !760, file: !3, line: 362, type: !42)
!766 = !DILocation(line: 0, scope: !760)
!767 = !DILocalVariable(name: "fd", arg: 1, scope: !768, file: !3, line: 277, type: !42)
!768 = distinct !DISubprogram(name: "named", scope: !3, file: !3, line: 277, type: !213, scopeLine: 277, flags: DIFlagPrototyped | DIFlagAllCallsDescribed, spFlags: DISPFlagLocalToUnit | DISPFlagDefinition | DISPFlagOptimized, unit: !2, retainedNodes: !769)
!769 = !{!767}
!770 = !DILocation(line: 0, scope: !768, inlinedAt: !771)
!771 = distinct !DILocation(line: 358, column: 21, scope: !760)
!772 = !DILocation(line: 278, column: 15, scope: !768, inlinedAt: !771)
!773 = !DILocation(line: 278, column: 12, scope: !768, inlinedAt: !771)
!774 = !DILocation(line: 278, column: 27, scope: !768, inlinedAt: !771)
!775 = !DILocation(line: 278, column: 23, scope: !768, inlinedAt: !771)
!776 = !DILocation(line: 278, column: 40, scope: !768, inlinedAt: !771)
!777 = !DILocation(line: 359, column: 14, scope: !778)
!778 = distinct !DILexicalBlock(scope: !760, file: !3, line: 359, column: 9)
!779 = !DILocation(line: 359, column: 23, scope: !778)
!780 = !DILocation(line: 359, column: 26, scope: !778)
!781 = !DILocation(line: 359, column: 42, scope: !778)
!782 = !DILocation(line: 359, column: 55, scope: !778)
!783 = !DILocation(line: 359, column: 69, scope: !778)
!784 = !DILocation(line: 359, column: 58, scope: !778)
!785 = !DILocation(line: 359, column: 87, scope: !778)
!786 = !DILocation(line: 359, column: 9, scope: !760)
!787 = !DILocation(line: 362, column: 21, scope: !760)
!788 = !DILocation(line: 363, column: 29, scope: !760)
!789 = !DILocation(line: 363, column: 34, scope: !760)
!790 = !DILocation(line: 363, column: 21, scope: !760)
!791 = !DILocation(line: 364, column: 22, scope: !760)
!792 = !DILocation(line: 365, column: 12, scope: !760)
!793 = !DILocation(line: 366, column: 1, scope: !760)
!794 = distinct !DISubprogram(name: "sys_pipe_write", scope: !3, file: !3, line: 369, type: !205, scopeLine: 369, flags: DIFlagPrototyped | DIFlagAllCallsDescribed, spFlags: DISPFlagDefinition | DISPFlagOptimized, unit: !2, retainedNodes: !795)
!795 = !{!796, !797, !798, !799}
!796 = !DILocalVariable(name: "fd", arg: 1, scope: !794, file: !3, line: 369, type: !42)
!797 = !DILocalVariable(name: "word", arg: 2, scope: !794, file: !3, line: 369, type: !42)
!798 = !DILocalVariable(name: "file", scope: !794, file: !3, line: 370, type: !42)
!799 = !DILocalVariable(name: "pipe", scope: !794, file: !3, line: 373, type: !42)
!800 = !DILocation(line: 0, scope: !794)
!801 = !DILocation(line: 0, scope: !768, inlinedAt: !802)
!802 = distinct !DILocation(line: 370, column: 21, scope: !794)
!803 = !DILocation(line: 278, column: 15, scope: !768, inlinedAt: !802)
!804 = !DILocation(line: 278, column: 12, scope: !768, inlinedAt: !802)
!805 = !DILocation(line: 278, column: 27, scope: !768, inlinedAt: !802)
!806 = !DILocation(line: 278, column: 23, scope: !768, inlinedAt: !802)
!807 = !DILocation(line: 278, column: 40, scope: !768, inlinedAt: !802)
!808 = !DILocation(line: 371, column: 14, scope: !809)
!809 = distinct !DILexicalBlock(scope: !794, file: !3, line: 371, column: 9)
!810 = !DILocation(line: 371, column: 23, scope: !809)
!811 = !DILocation(line: 371, column: 26, scope: !809)
!812 = !DILocation(line: 371, column: 42, scope: !809)
!813 = !DILocation(line: 371, column: 56, scope: !809)
!814 = !DILocation(line: 371, column: 70, scope: !809)
!815 = !DILocation(line: 371, column: 59, scope: !809)
!816 = !DILocation(line: 371, column: 88, scope: !809)
!817 = !DILocation(line: 371, column: 9, scope: !794)
!818 = !DILocation(line: 374, column: 22, scope: !794)
!819 = !DILocation(line: 374, column: 38, scope: !794)
!820 = !DILocation(line: 374, column: 58, scope: !794)
!821 = !DILocation(line: 374, column: 5, scope: !794)
!822 = !DILocation(line: 374, column: 71, scope: !794)
!823 = !DILocation(line: 375, column: 22, scope: !794)
!824 = !DILocation(line: 377, column: 1, scope: !794)
!825 = distinct !DISubprogram(name: "sys_seek", scope: !3, file: !3, line: 379, type: !205, scopeLine: 379, flags: DIFlagPrototyped | DIFlagAllCallsDescribed, spFlags: DISPFlagDefinition | DISPFlagOptimized, unit: !2, retainedNodes: !826)
!826 = !{!827, !828, !829}
!827 = !DILocalVariable(name: "fd", arg: 1, scope: !825, file: !3, line: 379, type: !42)
!828 = !DILocalVariable(name: "offset", arg: 2, scope: !825, file: !3, line: 379, type: !42)
!829 = !DILocalVariable(name: "file", scope: !825, file: !3, line: 380, type: !42)
!830 = !DILocation(line: 0, scope: !825)
!831 = !DILocation(line: 0, scope: !768, inlinedAt: !832)
!832 = distinct !DILocation(line: 380, column: 21, scope: !825)
!833 = !DILocation(line: 278, column: 15, scope: !768, inlinedAt: !832)
!834 = !DILocation(line: 278, column: 12, scope: !768, inlinedAt: !832)
!835 = !DILocation(line: 278, column: 27, scope: !768, inlinedAt: !832)
!836 = !DILocation(line: 278, column: 23, scope: !768, inlinedAt: !832)
!837 = !DILocation(line: 278, column: 40, scope: !768, inlinedAt: !832)
!838 = !DILocation(line: 381, column: 14, scope: !839)
!839 = distinct !DILexicalBlock(scope: !825, file: !3, line: 381, column: 9)
!840 = !DILocation(line: 381, column: 23, scope: !839)
!841 = !DILocation(line: 381, column: 26, scope: !839)
!842 = !DILocation(line: 381, column: 42, scope: !839)
!843 = !DILocation(line: 381, column: 9, scope: !825)
!844 = !DILocation(line: 383, column: 5, scope: !825)
!845 = !DILocation(line: 383, column: 23, scope: !825)
!846 = !DILocation(line: 384, column: 5, scope: !825)
!847 = !DILocation(line: 385, column: 1, scope: !825)
!848 = distinct !DISubprogram(name: "sys_tell", scope: !3, file: !3, line: 387, type: !455, scopeLine: 387, flags: DIFlagPrototyped | DIFlagAllCallsDescribed, spFlags: DISPFlagDefinition | DISPFlagOptimized, unit: !2, retainedNodes: !849)
!849 = !{!850, !851}
!850 = !DILocalVariable(name: "fd", arg: 1, scope: !848, file: !3, line: 387, type: !42)
!851 = !DILocalVariable(name: "file", scope: !848, file: !3, line: 388, type: !42)
!852 = !DILocation(line: 0, scope: !848)
!853 = !DILocation(line: 0, scope: !768, inlinedAt: !854)
!854 = distinct !DILocation(line: 388, column: 21, scope: !848)
!855 = !DILocation(line: 278, column: 15, scope: !768, inlinedAt: !854)
!856 = !DILocation(line: 278, column: 12, scope: !768, inlinedAt: !854)
!857 = !DILocation(line: 278, column: 27, scope: !768, inlinedAt: !854)
!858 = !DILocation(line: 278, column: 23, scope: !768, inlinedAt: !854)
!859 = !DILocation(line: 278, column: 40, scope: !768, inlinedAt: !854)
!860 = !DILocation(line: 389, column: 14, scope: !861)
!861 = distinct !DILexicalBlock(scope: !848, file: !3, line: 389, column: 9)
!862 = !DILocation(line: 389, column: 9, scope: !848)
!863 = !DILocation(line: 391, column: 12, scope: !848)
!864 = !DILocation(line: 391, column: 5, scope: !848)
!865 = !DILocation(line: 392, column: 1, scope: !848)
!866 = distinct !DISubprogram(name: "sys_file_kind", scope: !3, file: !3, line: 395, type: !455, scopeLine: 395, flags: DIFlagPrototyped | DIFlagAllCallsDescribed, spFlags: DISPFlagDefinition | DISPFlagOptimized, unit: !2, retainedNodes: !867)
!867 = !{!868, !869}
!868 = !DILocalVariable(name: "fd", arg: 1, scope: !866, file: !3, line: 395, type: !42)
!869 = !DILocalVariable(name: "file", scope: !866, file: !3, line: 396, type: !42)
!870 = !DILocation(line: 0, scope: !866)
!871 = !DILocation(line: 0, scope: !768, inlinedAt: !872)
!872 = distinct !DILocation(line: 396, column: 21, scope: !866)
!873 = !DILocation(line: 278, column: 15, scope: !768, inlinedAt: !872)
!874 = !DILocation(line: 278, column: 12, scope: !768, inlinedAt: !872)
!875 = !DILocation(line: 278, column: 27, scope: !768, inlinedAt: !872)
!876 = !DILocation(line: 278, column: 23, scope: !768, inlinedAt: !872)
!877 = !DILocation(line: 278, column: 40, scope: !768, inlinedAt: !872)
!878 = !DILocation(line: 397, column: 14, scope: !879)
!879 = distinct !DILexicalBlock(scope: !866, file: !3, line: 397, column: 9)
!880 = !DILocation(line: 397, column: 9, scope: !866)
!881 = !DILocation(line: 399, column: 12, scope: !866)
!882 = !DILocation(line: 399, column: 5, scope: !866)
!883 = !DILocation(line: 400, column: 1, scope: !866)
!884 = distinct !DISubprogram(name: "sys_file_value", scope: !3, file: !3, line: 402, type: !455, scopeLine: 402, flags: DIFlagPrototyped | DIFlagAllCallsDescribed, spFlags: DISPFlagDefinition | DISPFlagOptimized, unit: !2, retainedNodes: !885)
!885 = !{!886, !887}
!886 = !DILocalVariable(name: "fd", arg: 1, scope: !884, file: !3, line: 402, type: !42)
!887 = !DILocalVariable(name: "file", scope: !884, file: !3, line: 403, type: !42)
!888 = !DILocation(line: 0, scope: !884)
!889 = !DILocation(line: 0, scope: !768, inlinedAt: !890)
!890 = distinct !DILocation(line: 403, column: 21, scope: !884)
!891 = !DILocation(line: 278, column: 15, scope: !768, inlinedAt: !890)
!892 = !DILocation(line: 278, column: 12, scope: !768, inlinedAt: !890)
!893 = !DILocation(line: 278, column: 27, scope: !768, inlinedAt: !890)
!894 = !DILocation(line: 278, column: 23, scope: !768, inlinedAt: !890)
!895 = !DILocation(line: 278, column: 40, scope: !768, inlinedAt: !890)
!896 = !DILocation(line: 404, column: 14, scope: !897)
!897 = distinct !DILexicalBlock(scope: !884, file: !3, line: 404, column: 9)
!898 = !DILocation(line: 404, column: 9, scope: !884)
!899 = !DILocation(line: 406, column: 12, scope: !884)
!900 = !DILocation(line: 406, column: 5, scope: !884)
!901 = !DILocation(line: 407, column: 1, scope: !884)
!902 = distinct !DISubprogram(name: "sys_recv", scope: !3, file: !3, line: 441, type: !243, scopeLine: 441, flags: DIFlagPrototyped | DIFlagAllCallsDescribed, spFlags: DISPFlagDefinition | DISPFlagOptimized, unit: !2, retainedNodes: !903)
!903 = !{!904, !905, !906, !907}
!904 = !DILocalVariable(name: "from", arg: 1, scope: !902, file: !3, line: 441, type: !42)
!905 = !DILocalVariable(name: "leaf", arg: 2, scope: !902, file: !3, line: 441, type: !42)
!906 = !DILocalVariable(name: "index", arg: 3, scope: !902, file: !3, line: 441, type: !42)
!907 = !DILocalVariable(name: "fd", arg: 4, scope: !902, file: !3, line: 441, type: !42)
!908 = !DILocation(line: 0, scope: !902)
!909 = !DILocation(line: 442, column: 9, scope: !910)
!910 = distinct !DILexicalBlock(scope: !902, file: !3, line: 442, column: 9)
!911 = !DILocation(line: 442, column: 17, scope: !910)
!912 = !DILocation(line: 442, column: 25, scope: !910)
!913 = !DILocalVariable(name: "from", arg: 1, scope: !914, file: !3, line: 423, type: !42)
!914 = distinct !DISubprogram(name: "wait", scope: !3, file: !3, line: 423, type: !269, scopeLine: 423, flags: DIFlagPrototyped | DIFlagAllCallsDescribed, spFlags: DISPFlagLocalToUnit | DISPFlagDefinition | DISPFlagOptimized, unit: !2, retainedNodes: !915)
!915 = !{!913, !916, !917, !918}
!916 = !DILocalVariable(name: "leaf", arg: 2, scope: !914, file: !3, line: 423, type: !42)
!917 = !DILocalVariable(name: "index", arg: 3, scope: !914, file: !3, line: 423, type: !42)
!918 = !DILocalVariable(name: "fd", arg: 4, scope: !914, file: !3, line: 423, type: !42)
!919 = !DILocation(line: 0, scope: !914, inlinedAt: !920)
!920 = distinct !DILocation(line: 444, column: 5, scope: !902)
!921 = !DILocation(line: 424, column: 5, scope: !914, inlinedAt: !920)
!922 = !DILocation(line: 424, column: 25, scope: !914, inlinedAt: !920)
!923 = !DILocation(line: 425, column: 31, scope: !914, inlinedAt: !920)
!924 = !DILocation(line: 425, column: 5, scope: !914, inlinedAt: !920)
!925 = !DILocation(line: 425, column: 24, scope: !914, inlinedAt: !920)
!926 = !DILocation(line: 426, column: 5, scope: !914, inlinedAt: !920)
!927 = !DILocation(line: 426, column: 24, scope: !914, inlinedAt: !920)
!928 = !DILocation(line: 427, column: 5, scope: !914, inlinedAt: !920)
!929 = !DILocation(line: 427, column: 25, scope: !914, inlinedAt: !920)
!930 = !DILocation(line: 428, column: 5, scope: !914, inlinedAt: !920)
!931 = !DILocation(line: 428, column: 22, scope: !914, inlinedAt: !920)
!932 = !DILocation(line: 184, column: 26, scope: !301, inlinedAt: !933)
!933 = distinct !DILocation(line: 445, column: 5, scope: !902)
!934 = !DILocation(line: 184, column: 15, scope: !301, inlinedAt: !933)
!935 = !DILocation(line: 184, column: 46, scope: !301, inlinedAt: !933)
!936 = !DILocation(line: 184, column: 13, scope: !301, inlinedAt: !933)
!937 = !DILocation(line: 446, column: 5, scope: !902)
!938 = !DILocation(line: 447, column: 1, scope: !902)
!939 = distinct !DISubprogram(name: "sys_send", scope: !3, file: !3, line: 449, type: !205, scopeLine: 449, flags: DIFlagPrototyped | DIFlagAllCallsDescribed, spFlags: DISPFlagDefinition | DISPFlagOptimized, unit: !2, retainedNodes: !940)
!940 = !{!941, !942}
!941 = !DILocalVariable(name: "pid", arg: 1, scope: !939, file: !3, line: 449, type: !42)
!942 = !DILocalVariable(name: "value", arg: 2, scope: !939, file: !3, line: 449, type: !42)
!943 = !DILocation(line: 0, scope: !939)
!944 = !DILocalVariable(name: "pid", arg: 1, scope: !945, file: !3, line: 412, type: !42)
!945 = distinct !DISubprogram(name: "awaits", scope: !3, file: !3, line: 412, type: !213, scopeLine: 412, flags: DIFlagPrototyped | DIFlagAllCallsDescribed, spFlags: DISPFlagLocalToUnit | DISPFlagDefinition | DISPFlagOptimized, unit: !2, retainedNodes: !946)
!946 = !{!944}
!947 = !DILocation(line: 0, scope: !945, inlinedAt: !948)
!948 = distinct !DILocation(line: 450, column: 10, scope: !949)
!949 = distinct !DILexicalBlock(scope: !939, file: !3, line: 450, column: 9)
!950 = !DILocation(line: 413, column: 16, scope: !945, inlinedAt: !948)
!951 = !DILocation(line: 413, column: 24, scope: !945, inlinedAt: !948)
!952 = !DILocation(line: 413, column: 27, scope: !945, inlinedAt: !948)
!953 = !DILocation(line: 413, column: 43, scope: !945, inlinedAt: !948)
!954 = !DILocation(line: 413, column: 55, scope: !945, inlinedAt: !948)
!955 = !DILocation(line: 413, column: 59, scope: !945, inlinedAt: !948)
!956 = !DILocation(line: 413, column: 77, scope: !945, inlinedAt: !948)
!957 = !DILocation(line: 413, column: 85, scope: !945, inlinedAt: !948)
!958 = !DILocation(line: 413, column: 74, scope: !945, inlinedAt: !948)
!959 = !DILocation(line: 413, column: 89, scope: !945, inlinedAt: !948)
!960 = !DILocation(line: 450, column: 9, scope: !939)
!961 = !DILocalVariable(name: "pid", arg: 1, scope: !962, file: !3, line: 416, type: !42)
!962 = distinct !DISubprogram(name: "deliver", scope: !3, file: !3, line: 416, type: !561, scopeLine: 416, flags: DIFlagPrototyped | DIFlagAllCallsDescribed, spFlags: DISPFlagLocalToUnit | DISPFlagDefinition | DISPFlagOptimized, unit: !2, retainedNodes: !963)
!963 = !{!961, !964}
!964 = !DILocalVariable(name: "value", arg: 2, scope: !962, file: !3, line: 416, type: !42)
!965 = !DILocation(line: 0, scope: !962, inlinedAt: !966)
!966 = distinct !DILocation(line: 452, column: 5, scope: !939)
!967 = !DILocation(line: 417, column: 5, scope: !962, inlinedAt: !966)
!968 = !DILocation(line: 417, column: 21, scope: !962, inlinedAt: !966)
!969 = !DILocation(line: 418, column: 5, scope: !962, inlinedAt: !966)
!970 = !DILocation(line: 418, column: 20, scope: !962, inlinedAt: !966)
!971 = !DILocation(line: 419, column: 21, scope: !962, inlinedAt: !966)
!972 = !DILocation(line: 419, column: 5, scope: !962, inlinedAt: !966)
!973 = !DILocation(line: 419, column: 19, scope: !962, inlinedAt: !966)
!974 = !DILocation(line: 420, column: 5, scope: !962, inlinedAt: !966)
!975 = !DILocation(line: 420, column: 20, scope: !962, inlinedAt: !966)
!976 = !DILocation(line: 453, column: 5, scope: !939)
!977 = !DILocation(line: 454, column: 1, scope: !939)
!978 = distinct !DISubprogram(name: "sys_send_page", scope: !3, file: !3, line: 457, type: !478, scopeLine: 457, flags: DIFlagPrototyped | DIFlagAllCallsDescribed, spFlags: DISPFlagDefinition | DISPFlagOptimized, unit: !2, retainedNodes: !979)
!979 = !{!980, !981, !982, !983, !984}
!980 = !DILocalVariable(name: "pid", arg: 1, scope: !978, file: !3, line: 457, type: !42)
!981 = !DILocalVariable(name: "value", arg: 2, scope: !978, file: !3, line: 457, type: !42)
!982 = !DILocalVariable(name: "frame", arg: 3, scope: !978, file: !3, line: 457, type: !42)
!983 = !DILocalVariable(name: "leaf", scope: !978, file: !3, line: 460, type: !42)
!984 = !DILocalVariable(name: "index", scope: !978, file: !3, line: 460, type: !42)
!985 = !DILocation(line: 0, scope: !978)
!986 = !DILocation(line: 0, scope: !945, inlinedAt: !987)
!987 = distinct !DILocation(line: 458, column: 10, scope: !988)
!988 = distinct !DILexicalBlock(scope: !978, file: !3, line: 458, column: 9)
!989 = !DILocation(line: 413, column: 16, scope: !945, inlinedAt: !987)
!990 = !DILocation(line: 413, column: 24, scope: !945, inlinedAt: !987)
!991 = !DILocation(line: 413, column: 27, scope: !945, inlinedAt: !987)
!992 = !DILocation(line: 413, column: 43, scope: !945, inlinedAt: !987)
!993 = !DILocation(line: 413, column: 55, scope: !945, inlinedAt: !987)
!994 = !DILocation(line: 413, column: 59, scope: !945, inlinedAt: !987)
!995 = !DILocation(line: 413, column: 77, scope: !945, inlinedAt: !987)
!996 = !DILocation(line: 413, column: 85, scope: !945, inlinedAt: !987)
!997 = !DILocation(line: 413, column: 74, scope: !945, inlinedAt: !987)
!998 = !DILocation(line: 413, column: 89, scope: !945, inlinedAt: !987)
!999 = !DILocation(line: 458, column: 22, scope: !988)
!1000 = !DILocalVariable(name: "frame", arg: 1, scope: !1001, file: !3, line: 134, type: !42)
!1001 = distinct !DISubprogram(name: "frame_owner", scope: !3, file: !3, line: 134, type: !213, scopeLine: 134, flags: DIFlagPrototyped | DIFlagAllCallsDescribed, spFlags: DISPFlagLocalToUnit | DISPFlagDefinition | DISPFlagOptimized, unit: !2, retainedNodes: !1002)
!1002 = !{!1000}
!1003 = !DILocation(line: 0, scope: !1001, inlinedAt: !1004)
!1004 = distinct !DILocation(line: 458, column: 25, scope: !988)
!1005 = !DILocation(line: 135, column: 18, scope: !1001, inlinedAt: !1004)
!1006 = !DILocation(line: 135, column: 12, scope: !1001, inlinedAt: !1004)
!1007 = !DILocation(line: 135, column: 40, scope: !1001, inlinedAt: !1004)
!1008 = !DILocation(line: 135, column: 60, scope: !1001, inlinedAt: !1004)
!1009 = !DILocalVariable(name: "leaf", arg: 1, scope: !1010, file: !3, line: 130, type: !42)
!1010 = distinct !DISubprogram(name: "leaf_owner", scope: !3, file: !3, line: 130, type: !213, scopeLine: 130, flags: DIFlagPrototyped | DIFlagAllCallsDescribed, spFlags: DISPFlagLocalToUnit | DISPFlagDefinition | DISPFlagOptimized, unit: !2, retainedNodes: !1011)
!1011 = !{!1009}
!1012 = !DILocation(line: 0, scope: !1010, inlinedAt: !1013)
!1013 = distinct !DILocation(line: 135, column: 29, scope: !1001, inlinedAt: !1004)
!1014 = !DILocation(line: 131, column: 17, scope: !1010, inlinedAt: !1013)
!1015 = !DILocation(line: 131, column: 12, scope: !1010, inlinedAt: !1013)
!1016 = !DILocation(line: 131, column: 40, scope: !1010, inlinedAt: !1013)
!1017 = !DILocation(line: 131, column: 58, scope: !1010, inlinedAt: !1013)
!1018 = !DILocalVariable(name: "middle", arg: 1, scope: !1019, file: !3, line: 126, type: !42)
!1019 = distinct !DISubprogram(name: "middle_owner", scope: !3, file: !3, line: 126, type: !213, scopeLine: 126, flags: DIFlagPrototyped | DIFlagAllCallsDescribed, spFlags: DISPFlagLocalToUnit | DISPFlagDefinition | DISPFlagOptimized, unit: !2, retainedNodes: !1020)
!1020 = !{!1018}
!1021 = !DILocation(line: 0, scope: !1019, inlinedAt: !1022)
!1022 = distinct !DILocation(line: 131, column: 27, scope: !1010, inlinedAt: !1013)
!1023 = !DILocation(line: 127, column: 19, scope: !1019, inlinedAt: !1022)
!1024 = !DILocation(line: 127, column: 12, scope: !1019, inlinedAt: !1022)
!1025 = !DILocation(line: 127, column: 31, scope: !1019, inlinedAt: !1022)
!1026 = !DILocation(line: 127, column: 53, scope: !1019, inlinedAt: !1022)
!1027 = !DILocation(line: 458, column: 47, scope: !988)
!1028 = !DILocation(line: 458, column: 44, scope: !988)
!1029 = !DILocation(line: 458, column: 9, scope: !978)
!1030 = !DILocation(line: 460, column: 21, scope: !978)
!1031 = !DILocation(line: 460, column: 45, scope: !978)
!1032 = !DILocation(line: 0, scope: !1010, inlinedAt: !1033)
!1033 = distinct !DILocation(line: 461, column: 9, scope: !1034)
!1034 = distinct !DILexicalBlock(scope: !978, file: !3, line: 461, column: 9)
!1035 = !DILocation(line: 131, column: 17, scope: !1010, inlinedAt: !1033)
!1036 = !DILocation(line: 131, column: 12, scope: !1010, inlinedAt: !1033)
!1037 = !DILocation(line: 131, column: 40, scope: !1010, inlinedAt: !1033)
!1038 = !DILocation(line: 131, column: 58, scope: !1010, inlinedAt: !1033)
!1039 = !DILocation(line: 0, scope: !1019, inlinedAt: !1040)
!1040 = distinct !DILocation(line: 131, column: 27, scope: !1010, inlinedAt: !1033)
!1041 = !DILocation(line: 127, column: 19, scope: !1019, inlinedAt: !1040)
!1042 = !DILocation(line: 127, column: 12, scope: !1019, inlinedAt: !1040)
!1043 = !DILocation(line: 127, column: 31, scope: !1019, inlinedAt: !1040)
!1044 = !DILocation(line: 127, column: 53, scope: !1019, inlinedAt: !1040)
!1045 = !DILocation(line: 461, column: 26, scope: !1034)
!1046 = !DILocation(line: 461, column: 33, scope: !1034)
!1047 = !DILocation(line: 461, column: 54, scope: !1034)
!1048 = !DILocation(line: 461, column: 80, scope: !1034)
!1049 = !DILocation(line: 461, column: 9, scope: !978)
!1050 = !DILocalVariable(name: "frame", arg: 1, scope: !1051, file: !3, line: 432, type: !42)
!1051 = distinct !DISubprogram(name: "move", scope: !3, file: !3, line: 432, type: !1052, scopeLine: 432, flags: DIFlagPrototyped | DIFlagAllCallsDescribed, spFlags: DISPFlagLocalToUnit | DISPFlagDefinition | DISPFlagOptimized, unit: !2, retainedNodes: !1054)
!1052 = !DISubroutineType(types: !1053)
!1053 = !{null, !42, !42, !42}
!1054 = !{!1050, !1055, !1056, !1057, !1058}
!1055 = !DILocalVariable(name: "leaf", arg: 2, scope: !1051, file: !3, line: 432, type: !42)
!1056 = !DILocalVariable(name: "index", arg: 3, scope: !1051, file: !3, line: 432, type: !42)
!1057 = !DILocalVariable(name: "old_leaf", scope: !1051, file: !3, line: 433, type: !42)
!1058 = !DILocalVariable(name: "old_index", scope: !1051, file: !3, line: 433, type: !42)
!1059 = !DILocation(line: 0, scope: !1051, inlinedAt: !1060)
!1060 = distinct !DILocation(line: 463, column: 5, scope: !978)
!1061 = !DILocation(line: 433, column: 25, scope: !1051, inlinedAt: !1060)
!1062 = !DILocation(line: 433, column: 45, scope: !1051, inlinedAt: !1060)
!1063 = !DILocation(line: 433, column: 62, scope: !1051, inlinedAt: !1060)
!1064 = !DILocation(line: 434, column: 33, scope: !1051, inlinedAt: !1060)
!1065 = !DILocation(line: 434, column: 31, scope: !1051, inlinedAt: !1060)
!1066 = !DILocation(line: 435, column: 39, scope: !1051, inlinedAt: !1060)
!1067 = !DILocation(line: 436, column: 32, scope: !1051, inlinedAt: !1060)
!1068 = !DILocation(line: 436, column: 25, scope: !1051, inlinedAt: !1060)
!1069 = !DILocation(line: 437, column: 24, scope: !1051, inlinedAt: !1060)
!1070 = !DILocation(line: 0, scope: !962, inlinedAt: !1071)
!1071 = distinct !DILocation(line: 464, column: 5, scope: !978)
!1072 = !DILocation(line: 417, column: 5, scope: !962, inlinedAt: !1071)
!1073 = !DILocation(line: 417, column: 21, scope: !962, inlinedAt: !1071)
!1074 = !DILocation(line: 418, column: 5, scope: !962, inlinedAt: !1071)
!1075 = !DILocation(line: 418, column: 20, scope: !962, inlinedAt: !1071)
!1076 = !DILocation(line: 419, column: 5, scope: !962, inlinedAt: !1071)
!1077 = !DILocation(line: 419, column: 19, scope: !962, inlinedAt: !1071)
!1078 = !DILocation(line: 420, column: 5, scope: !962, inlinedAt: !1071)
!1079 = !DILocation(line: 420, column: 20, scope: !962, inlinedAt: !1071)
!1080 = !DILocation(line: 465, column: 5, scope: !978)
!1081 = !DILocation(line: 466, column: 1, scope: !978)
!1082 = distinct !DISubprogram(name: "sys_send_file", scope: !3, file: !3, line: 469, type: !478, scopeLine: 469, flags: DIFlagPrototyped | DIFlagAllCallsDescribed, spFlags: DISPFlagDefinition | DISPFlagOptimized, unit: !2, retainedNodes: !1083)
!1083 = !{!1084, !1085, !1086}
!1084 = !DILocalVariable(name: "pid", arg: 1, scope: !1082, file: !3, line: 469, type: !42)
!1085 = !DILocalVariable(name: "value", arg: 2, scope: !1082, file: !3, line: 469, type: !42)
!1086 = !DILocalVariable(name: "fd", arg: 3, scope: !1082, file: !3, line: 469, type: !42)
!1087 = !DILocation(line: 0, scope: !1082)
!1088 = !DILocation(line: 0, scope: !945, inlinedAt: !1089)
!1089 = distinct !DILocation(line: 470, column: 10, scope: !1090)
!1090 = distinct !DILexicalBlock(scope: !1082, file: !3, line: 470, column: 9)
!1091 = !DILocation(line: 413, column: 16, scope: !945, inlinedAt: !1089)
!1092 = !DILocation(line: 413, column: 24, scope: !945, inlinedAt: !1089)
!1093 = !DILocation(line: 413, column: 27, scope: !945, inlinedAt: !1089)
!1094 = !DILocation(line: 413, column: 43, scope: !945, inlinedAt: !1089)
!1095 = !DILocation(line: 413, column: 55, scope: !945, inlinedAt: !1089)
!1096 = !DILocation(line: 413, column: 59, scope: !945, inlinedAt: !1089)
!1097 = !DILocation(line: 413, column: 77, scope: !945, inlinedAt: !1089)
!1098 = !DILocation(line: 413, column: 85, scope: !945, inlinedAt: !1089)
!1099 = !DILocation(line: 413, column: 74, scope: !945, inlinedAt: !1089)
!1100 = !DILocation(line: 413, column: 89, scope: !945, inlinedAt: !1089)
!1101 = !DILocation(line: 470, column: 22, scope: !1090)
!1102 = !DILocation(line: 470, column: 32, scope: !1090)
!1103 = !DILocation(line: 470, column: 29, scope: !1090)
!1104 = !DILocation(line: 470, column: 40, scope: !1090)
!1105 = !DILocation(line: 470, column: 56, scope: !1090)
!1106 = !DILocation(line: 470, column: 73, scope: !1090)
!1107 = !DILocation(line: 470, column: 9, scope: !1082)
!1108 = !DILocation(line: 472, column: 35, scope: !1109)
!1109 = distinct !DILexicalBlock(scope: !1082, file: !3, line: 472, column: 9)
!1110 = !DILocation(line: 472, column: 9, scope: !1109)
!1111 = !DILocation(line: 472, column: 46, scope: !1109)
!1112 = !DILocation(line: 472, column: 40, scope: !1109)
!1113 = !DILocation(line: 472, column: 9, scope: !1082)
!1114 = !DILocation(line: 474, column: 9, scope: !1115)
!1115 = distinct !DILexicalBlock(scope: !1082, file: !3, line: 474, column: 9)
!1116 = !DILocation(line: 474, column: 22, scope: !1115)
!1117 = !DILocation(line: 474, column: 29, scope: !1115)
!1118 = !DILocation(line: 474, column: 32, scope: !1115)
!1119 = !DILocation(line: 474, column: 55, scope: !1115)
!1120 = !DILocation(line: 474, column: 9, scope: !1082)
!1121 = !DILocation(line: 476, column: 5, scope: !1082)
!1122 = !DILocation(line: 476, column: 38, scope: !1082)
!1123 = !DILocation(line: 477, column: 41, scope: !1082)
!1124 = !DILocation(line: 477, column: 36, scope: !1082)
!1125 = !DILocation(line: 478, column: 28, scope: !1082)
!1126 = !DILocation(line: 479, column: 22, scope: !1082)
!1127 = !DILocation(line: 0, scope: !962, inlinedAt: !1128)
!1128 = distinct !DILocation(line: 480, column: 5, scope: !1082)
!1129 = !DILocation(line: 417, column: 5, scope: !962, inlinedAt: !1128)
!1130 = !DILocation(line: 417, column: 21, scope: !962, inlinedAt: !1128)
!1131 = !DILocation(line: 418, column: 5, scope: !962, inlinedAt: !1128)
!1132 = !DILocation(line: 418, column: 20, scope: !962, inlinedAt: !1128)
!1133 = !DILocation(line: 419, column: 5, scope: !962, inlinedAt: !1128)
!1134 = !DILocation(line: 419, column: 19, scope: !962, inlinedAt: !1128)
!1135 = !DILocation(line: 420, column: 5, scope: !962, inlinedAt: !1128)
!1136 = !DILocation(line: 420, column: 20, scope: !962, inlinedAt: !1128)
!1137 = !DILocation(line: 481, column: 5, scope: !1082)
!1138 = !DILocation(line: 482, column: 1, scope: !1082)
!1139 = distinct !DISubprogram(name: "sys_call", scope: !3, file: !3, line: 485, type: !205, scopeLine: 485, flags: DIFlagPrototyped | DIFlagAllCallsDescribed, spFlags: DISPFlagDefinition | DISPFlagOptimized, unit: !2, retainedNodes: !1140)
!1140 = !{!1141, !1142}
!1141 = !DILocalVariable(name: "pid", arg: 1, scope: !1139, file: !3, line: 485, type: !42)
!1142 = !DILocalVariable(name: "value", arg: 2, scope: !1139, file: !3, line: 485, type: !42)
!1143 = !DILocation(line: 0, scope: !1139)
!1144 = !DILocation(line: 486, column: 9, scope: !1145)
!1145 = distinct !DILexicalBlock(scope: !1139, file: !3, line: 486, column: 9)
!1146 = !DILocation(line: 486, column: 17, scope: !1145)
!1147 = !DILocation(line: 486, column: 25, scope: !1145)
!1148 = !DILocation(line: 0, scope: !945, inlinedAt: !1149)
!1149 = distinct !DILocation(line: 486, column: 47, scope: !1145)
!1150 = !DILocation(line: 413, column: 27, scope: !945, inlinedAt: !1149)
!1151 = !DILocation(line: 413, column: 43, scope: !945, inlinedAt: !1149)
!1152 = !DILocation(line: 413, column: 55, scope: !945, inlinedAt: !1149)
!1153 = !DILocation(line: 413, column: 59, scope: !945, inlinedAt: !1149)
!1154 = !DILocation(line: 413, column: 85, scope: !945, inlinedAt: !1149)
!1155 = !DILocation(line: 413, column: 74, scope: !945, inlinedAt: !1149)
!1156 = !DILocation(line: 413, column: 89, scope: !945, inlinedAt: !1149)
!1157 = !DILocation(line: 486, column: 9, scope: !1139)
!1158 = !DILocation(line: 0, scope: !962, inlinedAt: !1159)
!1159 = distinct !DILocation(line: 488, column: 5, scope: !1139)
!1160 = !DILocation(line: 417, column: 5, scope: !962, inlinedAt: !1159)
!1161 = !DILocation(line: 417, column: 21, scope: !962, inlinedAt: !1159)
!1162 = !DILocation(line: 418, column: 5, scope: !962, inlinedAt: !1159)
!1163 = !DILocation(line: 418, column: 20, scope: !962, inlinedAt: !1159)
!1164 = !DILocation(line: 419, column: 5, scope: !962, inlinedAt: !1159)
!1165 = !DILocation(line: 419, column: 19, scope: !962, inlinedAt: !1159)
!1166 = !DILocation(line: 420, column: 5, scope: !962, inlinedAt: !1159)
!1167 = !DILocation(line: 420, column: 20, scope: !962, inlinedAt: !1159)
!1168 = !DILocation(line: 0, scope: !914, inlinedAt: !1169)
!1169 = distinct !DILocation(line: 489, column: 5, scope: !1139)
!1170 = !DILocation(line: 424, column: 5, scope: !914, inlinedAt: !1169)
!1171 = !DILocation(line: 424, column: 25, scope: !914, inlinedAt: !1169)
!1172 = !DILocation(line: 425, column: 31, scope: !914, inlinedAt: !1169)
!1173 = !DILocation(line: 425, column: 5, scope: !914, inlinedAt: !1169)
!1174 = !DILocation(line: 425, column: 24, scope: !914, inlinedAt: !1169)
!1175 = !DILocation(line: 426, column: 5, scope: !914, inlinedAt: !1169)
!1176 = !DILocation(line: 426, column: 24, scope: !914, inlinedAt: !1169)
!1177 = !DILocation(line: 427, column: 5, scope: !914, inlinedAt: !1169)
!1178 = !DILocation(line: 427, column: 25, scope: !914, inlinedAt: !1169)
!1179 = !DILocation(line: 428, column: 5, scope: !914, inlinedAt: !1169)
!1180 = !DILocation(line: 428, column: 22, scope: !914, inlinedAt: !1169)
!1181 = !DILocation(line: 490, column: 13, scope: !1139)
!1182 = !DILocation(line: 491, column: 5, scope: !1139)
!1183 = !DILocation(line: 492, column: 1, scope: !1139)
!1184 = distinct !DISubprogram(name: "sys_reply_wait", scope: !3, file: !3, line: 495, type: !205, scopeLine: 495, flags: DIFlagPrototyped | DIFlagAllCallsDescribed, spFlags: DISPFlagDefinition | DISPFlagOptimized, unit: !2, retainedNodes: !1185)
!1185 = !{!1186, !1187}
!1186 = !DILocalVariable(name: "pid", arg: 1, scope: !1184, file: !3, line: 495, type: !42)
!1187 = !DILocalVariable(name: "value", arg: 2, scope: !1184, file: !3, line: 495, type: !42)
!1188 = !DILocation(line: 0, scope: !1184)
!1189 = !DILocation(line: 496, column: 9, scope: !1190)
!1190 = distinct !DILexicalBlock(scope: !1184, file: !3, line: 496, column: 9)
!1191 = !DILocation(line: 496, column: 17, scope: !1190)
!1192 = !DILocation(line: 496, column: 25, scope: !1190)
!1193 = !DILocation(line: 0, scope: !945, inlinedAt: !1194)
!1194 = distinct !DILocation(line: 496, column: 47, scope: !1190)
!1195 = !DILocation(line: 413, column: 27, scope: !945, inlinedAt: !1194)
!1196 = !DILocation(line: 413, column: 43, scope: !945, inlinedAt: !1194)
!1197 = !DILocation(line: 413, column: 55, scope: !945, inlinedAt: !1194)
!1198 = !DILocation(line: 413, column: 59, scope: !945, inlinedAt: !1194)
!1199 = !DILocation(line: 413, column: 85, scope: !945, inlinedAt: !1194)
!1200 = !DILocation(line: 413, column: 74, scope: !945, inlinedAt: !1194)
!1201 = !DILocation(line: 413, column: 89, scope: !945, inlinedAt: !1194)
!1202 = !DILocation(line: 496, column: 9, scope: !1184)
!1203 = !DILocation(line: 0, scope: !962, inlinedAt: !1204)
!1204 = distinct !DILocation(line: 498, column: 5, scope: !1184)
!1205 = !DILocation(line: 417, column: 5, scope: !962, inlinedAt: !1204)
!1206 = !DILocation(line: 417, column: 21, scope: !962, inlinedAt: !1204)
!1207 = !DILocation(line: 418, column: 5, scope: !962, inlinedAt: !1204)
!1208 = !DILocation(line: 418, column: 20, scope: !962, inlinedAt: !1204)
!1209 = !DILocation(line: 419, column: 5, scope: !962, inlinedAt: !1204)
!1210 = !DILocation(line: 419, column: 19, scope: !962, inlinedAt: !1204)
!1211 = !DILocation(line: 420, column: 5, scope: !962, inlinedAt: !1204)
!1212 = !DILocation(line: 420, column: 20, scope: !962, inlinedAt: !1204)
!1213 = !DILocation(line: 0, scope: !914, inlinedAt: !1214)
!1214 = distinct !DILocation(line: 499, column: 5, scope: !1184)
!1215 = !DILocation(line: 424, column: 5, scope: !914, inlinedAt: !1214)
!1216 = !DILocation(line: 424, column: 25, scope: !914, inlinedAt: !1214)
!1217 = !DILocation(line: 425, column: 5, scope: !914, inlinedAt: !1214)
!1218 = !DILocation(line: 425, column: 24, scope: !914, inlinedAt: !1214)
!1219 = !DILocation(line: 426, column: 5, scope: !914, inlinedAt: !1214)
!1220 = !DILocation(line: 426, column: 24, scope: !914, inlinedAt: !1214)
!1221 = !DILocation(line: 427, column: 5, scope: !914, inlinedAt: !1214)
!1222 = !DILocation(line: 427, column: 25, scope: !914, inlinedAt: !1214)
!1223 = !DILocation(line: 428, column: 5, scope: !914, inlinedAt: !1214)
!1224 = !DILocation(line: 428, column: 22, scope: !914, inlinedAt: !1214)
!1225 = !DILocation(line: 500, column: 13, scope: !1184)
!1226 = !DILocation(line: 501, column: 5, scope: !1184)
!1227 = !DILocation(line: 502, column: 1, scope: !1184)
!1228 = distinct !DISubprogram(name: "sys_message_value", scope: !3, file: !3, line: 504, type: !1229, scopeLine: 504, flags: DIFlagPrototyped | DIFlagAllCallsDescribed, spFlags: DISPFlagDefinition | DISPFlagOptimized, unit: !2, retainedNodes: !271)
!1229 = !DISubroutineType(types: !1230)
!1230 = !{!457}
!1231 = !DILocation(line: 505, column: 22, scope: !1228)
!1232 = !DILocation(line: 505, column: 12, scope: !1228)
!1233 = !DILocation(line: 505, column: 5, scope: !1228)
!1234 = distinct !DISubprogram(name: "sys_message_from", scope: !3, file: !3, line: 508, type: !1229, scopeLine: 508, flags: DIFlagPrototyped | DIFlagAllCallsDescribed, spFlags: DISPFlagDefinition | DISPFlagOptimized, unit: !2, retainedNodes: !271)
!1235 = !DILocation(line: 509, column: 21, scope: !1234)
!1236 = !DILocation(line: 509, column: 12, scope: !1234)
!1237 = !DILocation(line: 509, column: 5, scope: !1234)
!1238 = distinct !DISubprogram(name: "sys_alloc_middle", scope: !3, file: !3, line: 515, type: !478, scopeLine: 515, flags: DIFlagPrototyped | DIFlagAllCallsDescribed, spFlags: DISPFlagDefinition | DISPFlagOptimized, unit: !2, retainedNodes: !1239)
!1239 = !{!1240, !1241, !1242}
!1240 = !DILocalVariable(name: "pid", arg: 1, scope: !1238, file: !3, line: 515, type: !42)
!1241 = !DILocalVariable(name: "index", arg: 2, scope: !1238, file: !3, line: 515, type: !42)
!1242 = !DILocalVariable(name: "middle", arg: 3, scope: !1238, file: !3, line: 515, type: !42)
!1243 = !DILocation(line: 0, scope: !1238)
!1244 = !DILocation(line: 0, scope: !212, inlinedAt: !1245)
!1245 = distinct !DILocation(line: 516, column: 10, scope: !1246)
!1246 = distinct !DILexicalBlock(scope: !1238, file: !3, line: 516, column: 9)
!1247 = !DILocation(line: 117, column: 19, scope: !212, inlinedAt: !1245)
!1248 = !DILocation(line: 117, column: 16, scope: !212, inlinedAt: !1245)
!1249 = !DILocation(line: 117, column: 27, scope: !212, inlinedAt: !1245)
!1250 = !DILocation(line: 0, scope: !223, inlinedAt: !1251)
!1251 = distinct !DILocation(line: 117, column: 30, scope: !212, inlinedAt: !1245)
!1252 = !DILocation(line: 112, column: 16, scope: !223, inlinedAt: !1251)
!1253 = !DILocation(line: 112, column: 24, scope: !223, inlinedAt: !1251)
!1254 = !DILocation(line: 112, column: 27, scope: !223, inlinedAt: !1251)
!1255 = !DILocation(line: 112, column: 43, scope: !223, inlinedAt: !1251)
!1256 = !DILocation(line: 112, column: 52, scope: !223, inlinedAt: !1251)
!1257 = !DILocation(line: 112, column: 55, scope: !223, inlinedAt: !1251)
!1258 = !DILocation(line: 112, column: 72, scope: !223, inlinedAt: !1251)
!1259 = !DILocation(line: 516, column: 25, scope: !1246)
!1260 = !DILocation(line: 516, column: 46, scope: !1246)
!1261 = !DILocation(line: 516, column: 70, scope: !1246)
!1262 = !DILocation(line: 516, column: 9, scope: !1238)
!1263 = !DILocation(line: 518, column: 30, scope: !1264)
!1264 = distinct !DILexicalBlock(scope: !1238, file: !3, line: 518, column: 9)
!1265 = !DILocation(line: 518, column: 52, scope: !1264)
!1266 = !DILocation(line: 518, column: 9, scope: !1238)
!1267 = !DILocation(line: 520, column: 31, scope: !1238)
!1268 = !DILocation(line: 520, column: 29, scope: !1238)
!1269 = !DILocation(line: 521, column: 33, scope: !1238)
!1270 = !DILocation(line: 521, column: 27, scope: !1238)
!1271 = !DILocation(line: 522, column: 5, scope: !1238)
!1272 = !DILocation(line: 522, column: 26, scope: !1238)
!1273 = !DILocation(line: 523, column: 5, scope: !1238)
!1274 = !DILocation(line: 524, column: 1, scope: !1238)
!1275 = distinct !DISubprogram(name: "sys_alloc_leaf", scope: !3, file: !3, line: 527, type: !478, scopeLine: 527, flags: DIFlagPrototyped | DIFlagAllCallsDescribed, spFlags: DISPFlagDefinition | DISPFlagOptimized, unit: !2, retainedNodes: !1276)
!1276 = !{!1277, !1278, !1279}
!1277 = !DILocalVariable(name: "middle", arg: 1, scope: !1275, file: !3, line: 527, type: !42)
!1278 = !DILocalVariable(name: "index", arg: 2, scope: !1275, file: !3, line: 527, type: !42)
!1279 = !DILocalVariable(name: "leaf", arg: 3, scope: !1275, file: !3, line: 527, type: !42)
!1280 = !DILocation(line: 0, scope: !1275)
!1281 = !DILocation(line: 0, scope: !1019, inlinedAt: !1282)
!1282 = distinct !DILocation(line: 528, column: 20, scope: !1283)
!1283 = distinct !DILexicalBlock(scope: !1275, file: !3, line: 528, column: 9)
!1284 = !DILocation(line: 127, column: 19, scope: !1019, inlinedAt: !1282)
!1285 = !DILocation(line: 127, column: 12, scope: !1019, inlinedAt: !1282)
!1286 = !DILocation(line: 127, column: 31, scope: !1019, inlinedAt: !1282)
!1287 = !DILocation(line: 127, column: 53, scope: !1019, inlinedAt: !1282)
!1288 = !DILocation(line: 0, scope: !212, inlinedAt: !1289)
!1289 = distinct !DILocation(line: 528, column: 10, scope: !1283)
!1290 = !DILocation(line: 117, column: 19, scope: !212, inlinedAt: !1289)
!1291 = !DILocation(line: 117, column: 16, scope: !212, inlinedAt: !1289)
!1292 = !DILocation(line: 117, column: 27, scope: !212, inlinedAt: !1289)
!1293 = !DILocation(line: 0, scope: !223, inlinedAt: !1294)
!1294 = distinct !DILocation(line: 117, column: 30, scope: !212, inlinedAt: !1289)
!1295 = !DILocation(line: 112, column: 16, scope: !223, inlinedAt: !1294)
!1296 = !DILocation(line: 112, column: 24, scope: !223, inlinedAt: !1294)
!1297 = !DILocation(line: 112, column: 27, scope: !223, inlinedAt: !1294)
!1298 = !DILocation(line: 112, column: 43, scope: !223, inlinedAt: !1294)
!1299 = !DILocation(line: 112, column: 52, scope: !223, inlinedAt: !1294)
!1300 = !DILocation(line: 112, column: 55, scope: !223, inlinedAt: !1294)
!1301 = !DILocation(line: 112, column: 72, scope: !223, inlinedAt: !1294)
!1302 = !DILocation(line: 528, column: 42, scope: !1283)
!1303 = !DILocation(line: 528, column: 65, scope: !1283)
!1304 = !DILocation(line: 528, column: 94, scope: !1283)
!1305 = !DILocation(line: 528, column: 9, scope: !1275)
!1306 = !DILocation(line: 530, column: 26, scope: !1307)
!1307 = distinct !DILexicalBlock(scope: !1275, file: !3, line: 530, column: 9)
!1308 = !DILocation(line: 530, column: 44, scope: !1307)
!1309 = !DILocation(line: 530, column: 9, scope: !1275)
!1310 = !DILocation(line: 532, column: 36, scope: !1275)
!1311 = !DILocation(line: 532, column: 34, scope: !1275)
!1312 = !DILocation(line: 533, column: 32, scope: !1275)
!1313 = !DILocation(line: 533, column: 23, scope: !1275)
!1314 = !DILocation(line: 534, column: 5, scope: !1275)
!1315 = !DILocation(line: 534, column: 22, scope: !1275)
!1316 = !DILocation(line: 535, column: 5, scope: !1275)
!1317 = !DILocation(line: 536, column: 1, scope: !1275)
!1318 = distinct !DISubprogram(name: "sys_alloc_frame", scope: !3, file: !3, line: 549, type: !243, scopeLine: 549, flags: DIFlagPrototyped | DIFlagAllCallsDescribed, spFlags: DISPFlagDefinition | DISPFlagOptimized, unit: !2, retainedNodes: !1319)
!1319 = !{!1320, !1321, !1322, !1323}
!1320 = !DILocalVariable(name: "leaf", arg: 1, scope: !1318, file: !3, line: 549, type: !42)
!1321 = !DILocalVariable(name: "index", arg: 2, scope: !1318, file: !3, line: 549, type: !42)
!1322 = !DILocalVariable(name: "frame", arg: 3, scope: !1318, file: !3, line: 549, type: !42)
!1323 = !DILocalVariable(name: "rights", arg: 4, scope: !1318, file: !3, line: 549, type: !42)
!1324 = !DILocation(line: 0, scope: !1318)
!1325 = !DILocalVariable(name: "leaf", arg: 1, scope: !1326, file: !3, line: 539, type: !42)
!1326 = distinct !DISubprogram(name: "can_map", scope: !3, file: !3, line: 539, type: !224, scopeLine: 539, flags: DIFlagPrototyped | DIFlagAllCallsDescribed, spFlags: DISPFlagLocalToUnit | DISPFlagDefinition | DISPFlagOptimized, unit: !2, retainedNodes: !1327)
!1327 = !{!1325, !1328}
!1328 = !DILocalVariable(name: "index", arg: 2, scope: !1326, file: !3, line: 539, type: !42)
!1329 = !DILocation(line: 0, scope: !1326, inlinedAt: !1330)
!1330 = distinct !DILocation(line: 550, column: 10, scope: !1331)
!1331 = distinct !DILexicalBlock(scope: !1318, file: !3, line: 550, column: 9)
!1332 = !DILocation(line: 0, scope: !1010, inlinedAt: !1333)
!1333 = distinct !DILocation(line: 540, column: 22, scope: !1326, inlinedAt: !1330)
!1334 = !DILocation(line: 131, column: 17, scope: !1010, inlinedAt: !1333)
!1335 = !DILocation(line: 131, column: 12, scope: !1010, inlinedAt: !1333)
!1336 = !DILocation(line: 131, column: 40, scope: !1010, inlinedAt: !1333)
!1337 = !DILocation(line: 131, column: 58, scope: !1010, inlinedAt: !1333)
!1338 = !DILocation(line: 0, scope: !1019, inlinedAt: !1339)
!1339 = distinct !DILocation(line: 131, column: 27, scope: !1010, inlinedAt: !1333)
!1340 = !DILocation(line: 127, column: 19, scope: !1019, inlinedAt: !1339)
!1341 = !DILocation(line: 127, column: 12, scope: !1019, inlinedAt: !1339)
!1342 = !DILocation(line: 127, column: 31, scope: !1019, inlinedAt: !1339)
!1343 = !DILocation(line: 127, column: 53, scope: !1019, inlinedAt: !1339)
!1344 = !DILocation(line: 0, scope: !212, inlinedAt: !1345)
!1345 = distinct !DILocation(line: 540, column: 12, scope: !1326, inlinedAt: !1330)
!1346 = !DILocation(line: 117, column: 19, scope: !212, inlinedAt: !1345)
!1347 = !DILocation(line: 117, column: 16, scope: !212, inlinedAt: !1345)
!1348 = !DILocation(line: 117, column: 27, scope: !212, inlinedAt: !1345)
!1349 = !DILocation(line: 0, scope: !223, inlinedAt: !1350)
!1350 = distinct !DILocation(line: 117, column: 30, scope: !212, inlinedAt: !1345)
!1351 = !DILocation(line: 112, column: 16, scope: !223, inlinedAt: !1350)
!1352 = !DILocation(line: 112, column: 24, scope: !223, inlinedAt: !1350)
!1353 = !DILocation(line: 112, column: 27, scope: !223, inlinedAt: !1350)
!1354 = !DILocation(line: 112, column: 43, scope: !223, inlinedAt: !1350)
!1355 = !DILocation(line: 112, column: 52, scope: !223, inlinedAt: !1350)
!1356 = !DILocation(line: 112, column: 55, scope: !223, inlinedAt: !1350)
!1357 = !DILocation(line: 112, column: 72, scope: !223, inlinedAt: !1350)
!1358 = !DILocation(line: 540, column: 40, scope: !1326, inlinedAt: !1330)
!1359 = !DILocation(line: 540, column: 60, scope: !1326, inlinedAt: !1330)
!1360 = !DILocation(line: 540, column: 86, scope: !1326, inlinedAt: !1330)
!1361 = !DILocation(line: 550, column: 31, scope: !1331)
!1362 = !DILocation(line: 550, column: 53, scope: !1331)
!1363 = !DILocation(line: 550, column: 73, scope: !1331)
!1364 = !DILocation(line: 550, column: 78, scope: !1331)
!1365 = !DILocation(line: 550, column: 81, scope: !1331)
!1366 = !DILocation(line: 550, column: 102, scope: !1331)
!1367 = !DILocation(line: 550, column: 9, scope: !1318)
!1368 = !DILocation(line: 552, column: 33, scope: !1318)
!1369 = !DILocalVariable(name: "rights", arg: 1, scope: !1370, file: !3, line: 544, type: !42)
!1370 = distinct !DISubprogram(name: "bits_of", scope: !3, file: !3, line: 544, type: !1371, scopeLine: 544, flags: DIFlagPrototyped | DIFlagAllCallsDescribed, spFlags: DISPFlagLocalToUnit | DISPFlagDefinition | DISPFlagOptimized, unit: !2, retainedNodes: !1373)
!1371 = !DISubroutineType(types: !1372)
!1372 = !{!35, !42}
!1373 = !{!1369}
!1374 = !DILocation(line: 0, scope: !1370, inlinedAt: !1375)
!1375 = distinct !DILocation(line: 552, column: 33, scope: !1318)
!1376 = !DILocation(line: 545, column: 19, scope: !1370, inlinedAt: !1375)
!1377 = !DILocation(line: 545, column: 12, scope: !1370, inlinedAt: !1375)
!1378 = !DILocation(line: 552, column: 5, scope: !1318)
!1379 = !DILocation(line: 552, column: 31, scope: !1318)
!1380 = !DILocation(line: 553, column: 32, scope: !1318)
!1381 = !DILocation(line: 553, column: 25, scope: !1318)
!1382 = !DILocation(line: 554, column: 5, scope: !1318)
!1383 = !DILocation(line: 554, column: 24, scope: !1318)
!1384 = !DILocation(line: 555, column: 26, scope: !1318)
!1385 = !DILocation(line: 556, column: 5, scope: !1318)
!1386 = !DILocation(line: 557, column: 1, scope: !1318)
!1387 = distinct !DISubprogram(name: "sys_free_middle", scope: !3, file: !3, line: 560, type: !177, scopeLine: 560, flags: DIFlagPrototyped | DIFlagAllCallsDescribed, spFlags: DISPFlagDefinition | DISPFlagOptimized, unit: !2, retainedNodes: !1388)
!1388 = !{!1389, !1390, !1391}
!1389 = !DILocalVariable(name: "middle", arg: 1, scope: !1387, file: !3, line: 560, type: !42)
!1390 = !DILocalVariable(name: "used", scope: !1387, file: !3, line: 561, type: !35)
!1391 = !DILocalVariable(name: "i", scope: !1392, file: !3, line: 564, type: !42)
!1392 = distinct !DILexicalBlock(scope: !1387, file: !3, line: 564, column: 12)
!1393 = !DILocation(line: 0, scope: !1387)
!1394 = !DILocation(line: 0, scope: !1019, inlinedAt: !1395)
!1395 = distinct !DILocation(line: 562, column: 19, scope: !1396)
!1396 = distinct !DILexicalBlock(scope: !1387, file: !3, line: 562, column: 9)
!1397 = !DILocation(line: 127, column: 19, scope: !1019, inlinedAt: !1395)
!1398 = !DILocation(line: 127, column: 12, scope: !1019, inlinedAt: !1395)
!1399 = !DILocation(line: 127, column: 31, scope: !1019, inlinedAt: !1395)
!1400 = !DILocation(line: 127, column: 53, scope: !1019, inlinedAt: !1395)
!1401 = !DILocation(line: 0, scope: !532, inlinedAt: !1402)
!1402 = distinct !DILocation(line: 562, column: 10, scope: !1396)
!1403 = !DILocation(line: 122, column: 19, scope: !532, inlinedAt: !1402)
!1404 = !DILocation(line: 122, column: 16, scope: !532, inlinedAt: !1402)
!1405 = !DILocation(line: 122, column: 27, scope: !532, inlinedAt: !1402)
!1406 = !DILocation(line: 0, scope: !223, inlinedAt: !1407)
!1407 = distinct !DILocation(line: 122, column: 30, scope: !532, inlinedAt: !1402)
!1408 = !DILocation(line: 112, column: 16, scope: !223, inlinedAt: !1407)
!1409 = !DILocation(line: 112, column: 24, scope: !223, inlinedAt: !1407)
!1410 = !DILocation(line: 112, column: 27, scope: !223, inlinedAt: !1407)
!1411 = !DILocation(line: 112, column: 52, scope: !223, inlinedAt: !1407)
!1412 = !DILocation(line: 112, column: 55, scope: !223, inlinedAt: !1407)
!1413 = !DILocation(line: 112, column: 72, scope: !223, inlinedAt: !1407)
!1414 = !DILocation(line: 122, column: 52, scope: !532, inlinedAt: !1402)
!1415 = !DILocation(line: 112, column: 43, scope: !223, inlinedAt: !1416)
!1416 = distinct !DILocation(line: 122, column: 55, scope: !532, inlinedAt: !1402)
!1417 = !DILocation(line: 112, column: 52, scope: !223, inlinedAt: !1416)
!1418 = !DILocation(line: 112, column: 55, scope: !223, inlinedAt: !1416)
!1419 = !DILocation(line: 112, column: 72, scope: !223, inlinedAt: !1416)
!1420 = !DILocation(line: 562, column: 9, scope: !1387)
!1421 = !DILocation(line: 0, scope: !1392)
!1422 = !DILocation(line: 565, column: 17, scope: !1423)
!1423 = distinct !DILexicalBlock(scope: !1392, file: !3, line: 564, column: 12)
!1424 = !DILocation(line: 565, column: 14, scope: !1423)
!1425 = !DILocation(line: 566, column: 9, scope: !1426)
!1426 = distinct !DILexicalBlock(scope: !1387, file: !3, line: 566, column: 9)
!1427 = !DILocation(line: 566, column: 9, scope: !1387)
!1428 = !DILocation(line: 568, column: 11, scope: !1387)
!1429 = !DILocation(line: 568, column: 33, scope: !1387)
!1430 = !DILocation(line: 568, column: 5, scope: !1387)
!1431 = !DILocation(line: 568, column: 44, scope: !1387)
!1432 = !DILocation(line: 568, column: 66, scope: !1387)
!1433 = !DILocation(line: 569, column: 27, scope: !1387)
!1434 = !DILocation(line: 570, column: 5, scope: !1387)
!1435 = !DILocation(line: 571, column: 1, scope: !1387)
!1436 = distinct !DISubprogram(name: "sys_free_leaf", scope: !3, file: !3, line: 574, type: !177, scopeLine: 574, flags: DIFlagPrototyped | DIFlagAllCallsDescribed, spFlags: DISPFlagDefinition | DISPFlagOptimized, unit: !2, retainedNodes: !1437)
!1437 = !{!1438, !1439, !1440}
!1438 = !DILocalVariable(name: "leaf", arg: 1, scope: !1436, file: !3, line: 574, type: !42)
!1439 = !DILocalVariable(name: "used", scope: !1436, file: !3, line: 575, type: !35)
!1440 = !DILocalVariable(name: "i", scope: !1441, file: !3, line: 578, type: !42)
!1441 = distinct !DILexicalBlock(scope: !1436, file: !3, line: 578, column: 12)
!1442 = !DILocation(line: 0, scope: !1436)
!1443 = !DILocation(line: 0, scope: !1010, inlinedAt: !1444)
!1444 = distinct !DILocation(line: 576, column: 19, scope: !1445)
!1445 = distinct !DILexicalBlock(scope: !1436, file: !3, line: 576, column: 9)
!1446 = !DILocation(line: 131, column: 17, scope: !1010, inlinedAt: !1444)
!1447 = !DILocation(line: 131, column: 12, scope: !1010, inlinedAt: !1444)
!1448 = !DILocation(line: 131, column: 40, scope: !1010, inlinedAt: !1444)
!1449 = !DILocation(line: 131, column: 58, scope: !1010, inlinedAt: !1444)
!1450 = !DILocation(line: 0, scope: !1019, inlinedAt: !1451)
!1451 = distinct !DILocation(line: 131, column: 27, scope: !1010, inlinedAt: !1444)
!1452 = !DILocation(line: 127, column: 19, scope: !1019, inlinedAt: !1451)
!1453 = !DILocation(line: 127, column: 12, scope: !1019, inlinedAt: !1451)
!1454 = !DILocation(line: 127, column: 31, scope: !1019, inlinedAt: !1451)
!1455 = !DILocation(line: 127, column: 53, scope: !1019, inlinedAt: !1451)
!1456 = !DILocation(line: 0, scope: !532, inlinedAt: !1457)
!1457 = distinct !DILocation(line: 576, column: 10, scope: !1445)
!1458 = !DILocation(line: 122, column: 19, scope: !532, inlinedAt: !1457)
!1459 = !DILocation(line: 122, column: 16, scope: !532, inlinedAt: !1457)
!1460 = !DILocation(line: 122, column: 27, scope: !532, inlinedAt: !1457)
!1461 = !DILocation(line: 0, scope: !223, inlinedAt: !1462)
!1462 = distinct !DILocation(line: 122, column: 30, scope: !532, inlinedAt: !1457)
!1463 = !DILocation(line: 112, column: 16, scope: !223, inlinedAt: !1462)
!1464 = !DILocation(line: 112, column: 24, scope: !223, inlinedAt: !1462)
!1465 = !DILocation(line: 112, column: 27, scope: !223, inlinedAt: !1462)
!1466 = !DILocation(line: 112, column: 52, scope: !223, inlinedAt: !1462)
!1467 = !DILocation(line: 112, column: 55, scope: !223, inlinedAt: !1462)
!1468 = !DILocation(line: 112, column: 72, scope: !223, inlinedAt: !1462)
!1469 = !DILocation(line: 122, column: 52, scope: !532, inlinedAt: !1457)
!1470 = !DILocation(line: 112, column: 43, scope: !223, inlinedAt: !1471)
!1471 = distinct !DILocation(line: 122, column: 55, scope: !532, inlinedAt: !1457)
!1472 = !DILocation(line: 112, column: 52, scope: !223, inlinedAt: !1471)
!1473 = !DILocation(line: 112, column: 55, scope: !223, inlinedAt: !1471)
!1474 = !DILocation(line: 112, column: 72, scope: !223, inlinedAt: !1471)
!1475 = !DILocation(line: 576, column: 9, scope: !1436)
!1476 = !DILocation(line: 0, scope: !1441)
!1477 = !DILocation(line: 579, column: 17, scope: !1478)
!1478 = distinct !DILexicalBlock(scope: !1441, file: !3, line: 578, column: 12)
!1479 = !DILocation(line: 579, column: 14, scope: !1478)
!1480 = !DILocation(line: 580, column: 9, scope: !1481)
!1481 = distinct !DILexicalBlock(scope: !1436, file: !3, line: 580, column: 9)
!1482 = !DILocation(line: 580, column: 9, scope: !1436)
!1483 = !DILocation(line: 582, column: 13, scope: !1436)
!1484 = !DILocation(line: 582, column: 31, scope: !1436)
!1485 = !DILocation(line: 582, column: 5, scope: !1436)
!1486 = !DILocation(line: 582, column: 42, scope: !1436)
!1487 = !DILocation(line: 582, column: 60, scope: !1436)
!1488 = !DILocation(line: 583, column: 23, scope: !1436)
!1489 = !DILocation(line: 584, column: 5, scope: !1436)
!1490 = !DILocation(line: 585, column: 1, scope: !1436)
!1491 = distinct !DISubprogram(name: "sys_free_frame", scope: !3, file: !3, line: 588, type: !177, scopeLine: 588, flags: DIFlagPrototyped | DIFlagAllCallsDescribed, spFlags: DISPFlagDefinition | DISPFlagOptimized, unit: !2, retainedNodes: !1492)
!1492 = !{!1493}
!1493 = !DILocalVariable(name: "frame", arg: 1, scope: !1491, file: !3, line: 588, type: !42)
!1494 = !DILocation(line: 0, scope: !1491)
!1495 = !DILocation(line: 0, scope: !1001, inlinedAt: !1496)
!1496 = distinct !DILocation(line: 589, column: 19, scope: !1497)
!1497 = distinct !DILexicalBlock(scope: !1491, file: !3, line: 589, column: 9)
!1498 = !DILocation(line: 135, column: 18, scope: !1001, inlinedAt: !1496)
!1499 = !DILocation(line: 135, column: 12, scope: !1001, inlinedAt: !1496)
!1500 = !DILocation(line: 135, column: 40, scope: !1001, inlinedAt: !1496)
!1501 = !DILocation(line: 135, column: 60, scope: !1001, inlinedAt: !1496)
!1502 = !DILocation(line: 0, scope: !1010, inlinedAt: !1503)
!1503 = distinct !DILocation(line: 135, column: 29, scope: !1001, inlinedAt: !1496)
!1504 = !DILocation(line: 131, column: 17, scope: !1010, inlinedAt: !1503)
!1505 = !DILocation(line: 131, column: 12, scope: !1010, inlinedAt: !1503)
!1506 = !DILocation(line: 131, column: 40, scope: !1010, inlinedAt: !1503)
!1507 = !DILocation(line: 131, column: 58, scope: !1010, inlinedAt: !1503)
!1508 = !DILocation(line: 0, scope: !1019, inlinedAt: !1509)
!1509 = distinct !DILocation(line: 131, column: 27, scope: !1010, inlinedAt: !1503)
!1510 = !DILocation(line: 127, column: 19, scope: !1019, inlinedAt: !1509)
!1511 = !DILocation(line: 127, column: 12, scope: !1019, inlinedAt: !1509)
!1512 = !DILocation(line: 127, column: 31, scope: !1019, inlinedAt: !1509)
!1513 = !DILocation(line: 127, column: 53, scope: !1019, inlinedAt: !1509)
!1514 = !DILocation(line: 0, scope: !532, inlinedAt: !1515)
!1515 = distinct !DILocation(line: 589, column: 10, scope: !1497)
!1516 = !DILocation(line: 122, column: 19, scope: !532, inlinedAt: !1515)
!1517 = !DILocation(line: 122, column: 16, scope: !532, inlinedAt: !1515)
!1518 = !DILocation(line: 122, column: 27, scope: !532, inlinedAt: !1515)
!1519 = !DILocation(line: 0, scope: !223, inlinedAt: !1520)
!1520 = distinct !DILocation(line: 122, column: 30, scope: !532, inlinedAt: !1515)
!1521 = !DILocation(line: 112, column: 16, scope: !223, inlinedAt: !1520)
!1522 = !DILocation(line: 112, column: 24, scope: !223, inlinedAt: !1520)
!1523 = !DILocation(line: 112, column: 27, scope: !223, inlinedAt: !1520)
!1524 = !DILocation(line: 112, column: 52, scope: !223, inlinedAt: !1520)
!1525 = !DILocation(line: 112, column: 55, scope: !223, inlinedAt: !1520)
!1526 = !DILocation(line: 112, column: 72, scope: !223, inlinedAt: !1520)
!1527 = !DILocation(line: 122, column: 52, scope: !532, inlinedAt: !1515)
!1528 = !DILocation(line: 112, column: 43, scope: !223, inlinedAt: !1529)
!1529 = distinct !DILocation(line: 122, column: 55, scope: !532, inlinedAt: !1515)
!1530 = !DILocation(line: 112, column: 52, scope: !223, inlinedAt: !1529)
!1531 = !DILocation(line: 112, column: 55, scope: !223, inlinedAt: !1529)
!1532 = !DILocation(line: 112, column: 72, scope: !223, inlinedAt: !1529)
!1533 = !DILocation(line: 589, column: 9, scope: !1491)
!1534 = !DILocation(line: 591, column: 12, scope: !1491)
!1535 = !DILocation(line: 591, column: 32, scope: !1491)
!1536 = !DILocation(line: 591, column: 5, scope: !1491)
!1537 = !DILocation(line: 591, column: 43, scope: !1491)
!1538 = !DILocation(line: 591, column: 63, scope: !1491)
!1539 = !DILocation(line: 592, column: 25, scope: !1491)
!1540 = !DILocation(line: 593, column: 5, scope: !1491)
!1541 = !DILocation(line: 594, column: 1, scope: !1491)
!1542 = distinct !DISubprogram(name: "sys_clear_word", scope: !3, file: !3, line: 597, type: !177, scopeLine: 597, flags: DIFlagPrototyped | DIFlagAllCallsDescribed, spFlags: DISPFlagDefinition | DISPFlagOptimized, unit: !2, retainedNodes: !1543)
!1543 = !{!1544}
!1544 = !DILocalVariable(name: "frame", arg: 1, scope: !1542, file: !3, line: 597, type: !42)
!1545 = !DILocation(line: 0, scope: !1542)
!1546 = !DILocation(line: 598, column: 15, scope: !1547)
!1547 = distinct !DILexicalBlock(scope: !1542, file: !3, line: 598, column: 9)
!1548 = !DILocation(line: 598, column: 25, scope: !1547)
!1549 = !DILocation(line: 598, column: 28, scope: !1547)
!1550 = !DILocation(line: 598, column: 48, scope: !1547)
!1551 = !DILocation(line: 598, column: 53, scope: !1547)
!1552 = !DILocation(line: 598, column: 56, scope: !1547)
!1553 = !DILocation(line: 598, column: 77, scope: !1547)
!1554 = !DILocation(line: 598, column: 9, scope: !1542)
!1555 = !DILocation(line: 600, column: 5, scope: !1542)
!1556 = !DILocation(line: 600, column: 41, scope: !1542)
!1557 = !DILocation(line: 601, column: 26, scope: !1542)
!1558 = !DILocation(line: 602, column: 5, scope: !1542)
!1559 = !DILocation(line: 603, column: 1, scope: !1542)
!1560 = distinct !DISubprogram(name: "sys_protect", scope: !3, file: !3, line: 605, type: !205, scopeLine: 605, flags: DIFlagPrototyped | DIFlagAllCallsDescribed, spFlags: DISPFlagDefinition | DISPFlagOptimized, unit: !2, retainedNodes: !1561)
!1561 = !{!1562, !1563}
!1562 = !DILocalVariable(name: "frame", arg: 1, scope: !1560, file: !3, line: 605, type: !42)
!1563 = !DILocalVariable(name: "rights", arg: 2, scope: !1560, file: !3, line: 605, type: !42)
!1564 = !DILocation(line: 0, scope: !1560)
!1565 = !DILocation(line: 0, scope: !1001, inlinedAt: !1566)
!1566 = distinct !DILocation(line: 606, column: 20, scope: !1567)
!1567 = distinct !DILexicalBlock(scope: !1560, file: !3, line: 606, column: 9)
!1568 = !DILocation(line: 135, column: 18, scope: !1001, inlinedAt: !1566)
!1569 = !DILocation(line: 135, column: 12, scope: !1001, inlinedAt: !1566)
!1570 = !DILocation(line: 135, column: 40, scope: !1001, inlinedAt: !1566)
!1571 = !DILocation(line: 135, column: 60, scope: !1001, inlinedAt: !1566)
!1572 = !DILocation(line: 0, scope: !1010, inlinedAt: !1573)
!1573 = distinct !DILocation(line: 135, column: 29, scope: !1001, inlinedAt: !1566)
!1574 = !DILocation(line: 131, column: 17, scope: !1010, inlinedAt: !1573)
!1575 = !DILocation(line: 131, column: 12, scope: !1010, inlinedAt: !1573)
!1576 = !DILocation(line: 131, column: 40, scope: !1010, inlinedAt: !1573)
!1577 = !DILocation(line: 131, column: 58, scope: !1010, inlinedAt: !1573)
!1578 = !DILocation(line: 0, scope: !1019, inlinedAt: !1579)
!1579 = distinct !DILocation(line: 131, column: 27, scope: !1010, inlinedAt: !1573)
!1580 = !DILocation(line: 127, column: 19, scope: !1019, inlinedAt: !1579)
!1581 = !DILocation(line: 127, column: 12, scope: !1019, inlinedAt: !1579)
!1582 = !DILocation(line: 127, column: 31, scope: !1019, inlinedAt: !1579)
!1583 = !DILocation(line: 127, column: 53, scope: !1019, inlinedAt: !1579)
!1584 = !DILocation(line: 0, scope: !212, inlinedAt: !1585)
!1585 = distinct !DILocation(line: 606, column: 10, scope: !1567)
!1586 = !DILocation(line: 117, column: 19, scope: !212, inlinedAt: !1585)
!1587 = !DILocation(line: 117, column: 16, scope: !212, inlinedAt: !1585)
!1588 = !DILocation(line: 117, column: 27, scope: !212, inlinedAt: !1585)
!1589 = !DILocation(line: 0, scope: !223, inlinedAt: !1590)
!1590 = distinct !DILocation(line: 117, column: 30, scope: !212, inlinedAt: !1585)
!1591 = !DILocation(line: 112, column: 16, scope: !223, inlinedAt: !1590)
!1592 = !DILocation(line: 112, column: 24, scope: !223, inlinedAt: !1590)
!1593 = !DILocation(line: 112, column: 27, scope: !223, inlinedAt: !1590)
!1594 = !DILocation(line: 112, column: 43, scope: !223, inlinedAt: !1590)
!1595 = !DILocation(line: 112, column: 52, scope: !223, inlinedAt: !1590)
!1596 = !DILocation(line: 112, column: 55, scope: !223, inlinedAt: !1590)
!1597 = !DILocation(line: 112, column: 72, scope: !223, inlinedAt: !1590)
!1598 = !DILocation(line: 606, column: 9, scope: !1560)
!1599 = !DILocation(line: 608, column: 65, scope: !1560)
!1600 = !DILocation(line: 0, scope: !1370, inlinedAt: !1601)
!1601 = distinct !DILocation(line: 608, column: 65, scope: !1560)
!1602 = !DILocation(line: 545, column: 19, scope: !1370, inlinedAt: !1601)
!1603 = !DILocation(line: 545, column: 12, scope: !1370, inlinedAt: !1601)
!1604 = !DILocation(line: 608, column: 12, scope: !1560)
!1605 = !DILocation(line: 608, column: 32, scope: !1560)
!1606 = !DILocation(line: 608, column: 5, scope: !1560)
!1607 = !DILocation(line: 608, column: 43, scope: !1560)
!1608 = !DILocation(line: 608, column: 63, scope: !1560)
!1609 = !DILocation(line: 609, column: 5, scope: !1560)
!1610 = !DILocation(line: 610, column: 1, scope: !1560)
!1611 = distinct !DISubprogram(name: "sys_copy_word", scope: !3, file: !3, line: 612, type: !243, scopeLine: 612, flags: DIFlagPrototyped | DIFlagAllCallsDescribed, spFlags: DISPFlagDefinition | DISPFlagOptimized, unit: !2, retainedNodes: !1612)
!1612 = !{!1613, !1614, !1615, !1616}
!1613 = !DILocalVariable(name: "from", arg: 1, scope: !1611, file: !3, line: 612, type: !42)
!1614 = !DILocalVariable(name: "from_word", arg: 2, scope: !1611, file: !3, line: 612, type: !42)
!1615 = !DILocalVariable(name: "to", arg: 3, scope: !1611, file: !3, line: 612, type: !42)
!1616 = !DILocalVariable(name: "to_word", arg: 4, scope: !1611, file: !3, line: 612, type: !42)
!1617 = !DILocation(line: 0, scope: !1611)
!1618 = !DILocation(line: 0, scope: !1001, inlinedAt: !1619)
!1619 = distinct !DILocation(line: 613, column: 20, scope: !1620)
!1620 = distinct !DILexicalBlock(scope: !1611, file: !3, line: 613, column: 9)
!1621 = !DILocation(line: 135, column: 18, scope: !1001, inlinedAt: !1619)
!1622 = !DILocation(line: 135, column: 12, scope: !1001, inlinedAt: !1619)
!1623 = !DILocation(line: 135, column: 40, scope: !1001, inlinedAt: !1619)
!1624 = !DILocation(line: 135, column: 60, scope: !1001, inlinedAt: !1619)
!1625 = !DILocation(line: 0, scope: !1010, inlinedAt: !1626)
!1626 = distinct !DILocation(line: 135, column: 29, scope: !1001, inlinedAt: !1619)
!1627 = !DILocation(line: 131, column: 17, scope: !1010, inlinedAt: !1626)
!1628 = !DILocation(line: 131, column: 12, scope: !1010, inlinedAt: !1626)
!1629 = !DILocation(line: 131, column: 40, scope: !1010, inlinedAt: !1626)
!1630 = !DILocation(line: 131, column: 58, scope: !1010, inlinedAt: !1626)
!1631 = !DILocation(line: 0, scope: !1019, inlinedAt: !1632)
!1632 = distinct !DILocation(line: 131, column: 27, scope: !1010, inlinedAt: !1626)
!1633 = !DILocation(line: 127, column: 19, scope: !1019, inlinedAt: !1632)
!1634 = !DILocation(line: 127, column: 12, scope: !1019, inlinedAt: !1632)
!1635 = !DILocation(line: 127, column: 31, scope: !1019, inlinedAt: !1632)
!1636 = !DILocation(line: 127, column: 53, scope: !1019, inlinedAt: !1632)
!1637 = !DILocation(line: 0, scope: !212, inlinedAt: !1638)
!1638 = distinct !DILocation(line: 613, column: 10, scope: !1620)
!1639 = !DILocation(line: 117, column: 19, scope: !212, inlinedAt: !1638)
!1640 = !DILocation(line: 117, column: 16, scope: !212, inlinedAt: !1638)
!1641 = !DILocation(line: 117, column: 27, scope: !212, inlinedAt: !1638)
!1642 = !DILocation(line: 0, scope: !223, inlinedAt: !1643)
!1643 = distinct !DILocation(line: 117, column: 30, scope: !212, inlinedAt: !1638)
!1644 = !DILocation(line: 112, column: 16, scope: !223, inlinedAt: !1643)
!1645 = !DILocation(line: 112, column: 24, scope: !223, inlinedAt: !1643)
!1646 = !DILocation(line: 112, column: 27, scope: !223, inlinedAt: !1643)
!1647 = !DILocation(line: 112, column: 43, scope: !223, inlinedAt: !1643)
!1648 = !DILocation(line: 112, column: 52, scope: !223, inlinedAt: !1643)
!1649 = !DILocation(line: 112, column: 55, scope: !223, inlinedAt: !1643)
!1650 = !DILocation(line: 112, column: 72, scope: !223, inlinedAt: !1643)
!1651 = !DILocation(line: 613, column: 39, scope: !1620)
!1652 = !DILocation(line: 0, scope: !1001, inlinedAt: !1653)
!1653 = distinct !DILocation(line: 613, column: 53, scope: !1620)
!1654 = !DILocation(line: 135, column: 18, scope: !1001, inlinedAt: !1653)
!1655 = !DILocation(line: 135, column: 12, scope: !1001, inlinedAt: !1653)
!1656 = !DILocation(line: 135, column: 40, scope: !1001, inlinedAt: !1653)
!1657 = !DILocation(line: 135, column: 60, scope: !1001, inlinedAt: !1653)
!1658 = !DILocation(line: 0, scope: !1010, inlinedAt: !1659)
!1659 = distinct !DILocation(line: 135, column: 29, scope: !1001, inlinedAt: !1653)
!1660 = !DILocation(line: 131, column: 17, scope: !1010, inlinedAt: !1659)
!1661 = !DILocation(line: 131, column: 12, scope: !1010, inlinedAt: !1659)
!1662 = !DILocation(line: 131, column: 40, scope: !1010, inlinedAt: !1659)
!1663 = !DILocation(line: 131, column: 58, scope: !1010, inlinedAt: !1659)
!1664 = !DILocation(line: 0, scope: !1019, inlinedAt: !1665)
!1665 = distinct !DILocation(line: 131, column: 27, scope: !1010, inlinedAt: !1659)
!1666 = !DILocation(line: 127, column: 19, scope: !1019, inlinedAt: !1665)
!1667 = !DILocation(line: 127, column: 12, scope: !1019, inlinedAt: !1665)
!1668 = !DILocation(line: 127, column: 31, scope: !1019, inlinedAt: !1665)
!1669 = !DILocation(line: 127, column: 53, scope: !1019, inlinedAt: !1665)
!1670 = !DILocation(line: 0, scope: !212, inlinedAt: !1671)
!1671 = distinct !DILocation(line: 613, column: 43, scope: !1620)
!1672 = !DILocation(line: 117, column: 16, scope: !212, inlinedAt: !1671)
!1673 = !DILocation(line: 117, column: 27, scope: !212, inlinedAt: !1671)
!1674 = !DILocation(line: 0, scope: !223, inlinedAt: !1675)
!1675 = distinct !DILocation(line: 117, column: 30, scope: !212, inlinedAt: !1671)
!1676 = !DILocation(line: 112, column: 16, scope: !223, inlinedAt: !1675)
!1677 = !DILocation(line: 112, column: 24, scope: !223, inlinedAt: !1675)
!1678 = !DILocation(line: 112, column: 27, scope: !223, inlinedAt: !1675)
!1679 = !DILocation(line: 112, column: 43, scope: !223, inlinedAt: !1675)
!1680 = !DILocation(line: 112, column: 52, scope: !223, inlinedAt: !1675)
!1681 = !DILocation(line: 112, column: 55, scope: !223, inlinedAt: !1675)
!1682 = !DILocation(line: 112, column: 72, scope: !223, inlinedAt: !1675)
!1683 = !DILocation(line: 613, column: 70, scope: !1620)
!1684 = !DILocation(line: 615, column: 27, scope: !1611)
!1685 = !DILocation(line: 615, column: 5, scope: !1611)
!1686 = !DILocation(line: 615, column: 25, scope: !1611)
!1687 = !DILocation(line: 616, column: 5, scope: !1611)
!1688 = !DILocation(line: 617, column: 1, scope: !1611)
!1689 = distinct !DISubprogram(name: "sys_move_frame", scope: !3, file: !3, line: 620, type: !478, scopeLine: 620, flags: DIFlagPrototyped | DIFlagAllCallsDescribed, spFlags: DISPFlagDefinition | DISPFlagOptimized, unit: !2, retainedNodes: !1690)
!1690 = !{!1691, !1692, !1693}
!1691 = !DILocalVariable(name: "frame", arg: 1, scope: !1689, file: !3, line: 620, type: !42)
!1692 = !DILocalVariable(name: "leaf", arg: 2, scope: !1689, file: !3, line: 620, type: !42)
!1693 = !DILocalVariable(name: "index", arg: 3, scope: !1689, file: !3, line: 620, type: !42)
!1694 = !DILocation(line: 0, scope: !1689)
!1695 = !DILocation(line: 0, scope: !1001, inlinedAt: !1696)
!1696 = distinct !DILocation(line: 621, column: 20, scope: !1697)
!1697 = distinct !DILexicalBlock(scope: !1689, file: !3, line: 621, column: 9)
!1698 = !DILocation(line: 135, column: 18, scope: !1001, inlinedAt: !1696)
!1699 = !DILocation(line: 135, column: 12, scope: !1001, inlinedAt: !1696)
!1700 = !DILocation(line: 135, column: 40, scope: !1001, inlinedAt: !1696)
!1701 = !DILocation(line: 135, column: 60, scope: !1001, inlinedAt: !1696)
!1702 = !DILocation(line: 0, scope: !1010, inlinedAt: !1703)
!1703 = distinct !DILocation(line: 135, column: 29, scope: !1001, inlinedAt: !1696)
!1704 = !DILocation(line: 131, column: 17, scope: !1010, inlinedAt: !1703)
!1705 = !DILocation(line: 131, column: 12, scope: !1010, inlinedAt: !1703)
!1706 = !DILocation(line: 131, column: 40, scope: !1010, inlinedAt: !1703)
!1707 = !DILocation(line: 131, column: 58, scope: !1010, inlinedAt: !1703)
!1708 = !DILocation(line: 0, scope: !1019, inlinedAt: !1709)
!1709 = distinct !DILocation(line: 131, column: 27, scope: !1010, inlinedAt: !1703)
!1710 = !DILocation(line: 127, column: 19, scope: !1019, inlinedAt: !1709)
!1711 = !DILocation(line: 127, column: 12, scope: !1019, inlinedAt: !1709)
!1712 = !DILocation(line: 127, column: 31, scope: !1019, inlinedAt: !1709)
!1713 = !DILocation(line: 127, column: 53, scope: !1019, inlinedAt: !1709)
!1714 = !DILocation(line: 0, scope: !212, inlinedAt: !1715)
!1715 = distinct !DILocation(line: 621, column: 10, scope: !1697)
!1716 = !DILocation(line: 117, column: 19, scope: !212, inlinedAt: !1715)
!1717 = !DILocation(line: 117, column: 16, scope: !212, inlinedAt: !1715)
!1718 = !DILocation(line: 117, column: 27, scope: !212, inlinedAt: !1715)
!1719 = !DILocation(line: 0, scope: !223, inlinedAt: !1720)
!1720 = distinct !DILocation(line: 117, column: 30, scope: !212, inlinedAt: !1715)
!1721 = !DILocation(line: 112, column: 16, scope: !223, inlinedAt: !1720)
!1722 = !DILocation(line: 112, column: 24, scope: !223, inlinedAt: !1720)
!1723 = !DILocation(line: 112, column: 27, scope: !223, inlinedAt: !1720)
!1724 = !DILocation(line: 112, column: 43, scope: !223, inlinedAt: !1720)
!1725 = !DILocation(line: 112, column: 52, scope: !223, inlinedAt: !1720)
!1726 = !DILocation(line: 112, column: 55, scope: !223, inlinedAt: !1720)
!1727 = !DILocation(line: 112, column: 72, scope: !223, inlinedAt: !1720)
!1728 = !DILocation(line: 621, column: 40, scope: !1697)
!1729 = !DILocation(line: 0, scope: !1326, inlinedAt: !1730)
!1730 = distinct !DILocation(line: 621, column: 44, scope: !1697)
!1731 = !DILocation(line: 0, scope: !1010, inlinedAt: !1732)
!1732 = distinct !DILocation(line: 540, column: 22, scope: !1326, inlinedAt: !1730)
!1733 = !DILocation(line: 131, column: 17, scope: !1010, inlinedAt: !1732)
!1734 = !DILocation(line: 131, column: 12, scope: !1010, inlinedAt: !1732)
!1735 = !DILocation(line: 131, column: 40, scope: !1010, inlinedAt: !1732)
!1736 = !DILocation(line: 131, column: 58, scope: !1010, inlinedAt: !1732)
!1737 = !DILocation(line: 0, scope: !1019, inlinedAt: !1738)
!1738 = distinct !DILocation(line: 131, column: 27, scope: !1010, inlinedAt: !1732)
!1739 = !DILocation(line: 127, column: 19, scope: !1019, inlinedAt: !1738)
!1740 = !DILocation(line: 127, column: 12, scope: !1019, inlinedAt: !1738)
!1741 = !DILocation(line: 127, column: 31, scope: !1019, inlinedAt: !1738)
!1742 = !DILocation(line: 127, column: 53, scope: !1019, inlinedAt: !1738)
!1743 = !DILocation(line: 0, scope: !212, inlinedAt: !1744)
!1744 = distinct !DILocation(line: 540, column: 12, scope: !1326, inlinedAt: !1730)
!1745 = !DILocation(line: 117, column: 16, scope: !212, inlinedAt: !1744)
!1746 = !DILocation(line: 117, column: 27, scope: !212, inlinedAt: !1744)
!1747 = !DILocation(line: 0, scope: !223, inlinedAt: !1748)
!1748 = distinct !DILocation(line: 117, column: 30, scope: !212, inlinedAt: !1744)
!1749 = !DILocation(line: 112, column: 16, scope: !223, inlinedAt: !1748)
!1750 = !DILocation(line: 112, column: 24, scope: !223, inlinedAt: !1748)
!1751 = !DILocation(line: 112, column: 27, scope: !223, inlinedAt: !1748)
!1752 = !DILocation(line: 112, column: 43, scope: !223, inlinedAt: !1748)
!1753 = !DILocation(line: 112, column: 52, scope: !223, inlinedAt: !1748)
!1754 = !DILocation(line: 112, column: 55, scope: !223, inlinedAt: !1748)
!1755 = !DILocation(line: 112, column: 72, scope: !223, inlinedAt: !1748)
!1756 = !DILocation(line: 540, column: 40, scope: !1326, inlinedAt: !1730)
!1757 = !DILocation(line: 540, column: 60, scope: !1326, inlinedAt: !1730)
!1758 = !DILocation(line: 540, column: 86, scope: !1326, inlinedAt: !1730)
!1759 = !DILocation(line: 621, column: 9, scope: !1689)
!1760 = !DILocation(line: 0, scope: !1051, inlinedAt: !1761)
!1761 = distinct !DILocation(line: 623, column: 5, scope: !1689)
!1762 = !DILocation(line: 433, column: 25, scope: !1051, inlinedAt: !1761)
!1763 = !DILocation(line: 433, column: 45, scope: !1051, inlinedAt: !1761)
!1764 = !DILocation(line: 433, column: 62, scope: !1051, inlinedAt: !1761)
!1765 = !DILocation(line: 434, column: 33, scope: !1051, inlinedAt: !1761)
!1766 = !DILocation(line: 434, column: 5, scope: !1051, inlinedAt: !1761)
!1767 = !DILocation(line: 434, column: 31, scope: !1051, inlinedAt: !1761)
!1768 = !DILocation(line: 435, column: 39, scope: !1051, inlinedAt: !1761)
!1769 = !DILocation(line: 436, column: 32, scope: !1051, inlinedAt: !1761)
!1770 = !DILocation(line: 436, column: 25, scope: !1051, inlinedAt: !1761)
!1771 = !DILocation(line: 437, column: 24, scope: !1051, inlinedAt: !1761)
!1772 = !DILocation(line: 624, column: 5, scope: !1689)
!1773 = !DILocation(line: 625, column: 1, scope: !1689)
!1774 = distinct !DISubprogram(name: "sys_map_image", scope: !3, file: !3, line: 628, type: !478, scopeLine: 628, flags: DIFlagPrototyped | DIFlagAllCallsDescribed, spFlags: DISPFlagDefinition | DISPFlagOptimized, unit: !2, retainedNodes: !1775)
!1775 = !{!1776, !1777, !1778}
!1776 = !DILocalVariable(name: "leaf", arg: 1, scope: !1774, file: !3, line: 628, type: !42)
!1777 = !DILocalVariable(name: "index", arg: 2, scope: !1774, file: !3, line: 628, type: !42)
!1778 = !DILocalVariable(name: "page", arg: 3, scope: !1774, file: !3, line: 628, type: !42)
!1779 = !DILocation(line: 0, scope: !1774)
!1780 = !DILocation(line: 0, scope: !1326, inlinedAt: !1781)
!1781 = distinct !DILocation(line: 629, column: 10, scope: !1782)
!1782 = distinct !DILexicalBlock(scope: !1774, file: !3, line: 629, column: 9)
!1783 = !DILocation(line: 0, scope: !1010, inlinedAt: !1784)
!1784 = distinct !DILocation(line: 540, column: 22, scope: !1326, inlinedAt: !1781)
!1785 = !DILocation(line: 131, column: 17, scope: !1010, inlinedAt: !1784)
!1786 = !DILocation(line: 131, column: 12, scope: !1010, inlinedAt: !1784)
!1787 = !DILocation(line: 131, column: 40, scope: !1010, inlinedAt: !1784)
!1788 = !DILocation(line: 131, column: 58, scope: !1010, inlinedAt: !1784)
!1789 = !DILocation(line: 0, scope: !1019, inlinedAt: !1790)
!1790 = distinct !DILocation(line: 131, column: 27, scope: !1010, inlinedAt: !1784)
!1791 = !DILocation(line: 127, column: 19, scope: !1019, inlinedAt: !1790)
!1792 = !DILocation(line: 127, column: 12, scope: !1019, inlinedAt: !1790)
!1793 = !DILocation(line: 127, column: 31, scope: !1019, inlinedAt: !1790)
!1794 = !DILocation(line: 127, column: 53, scope: !1019, inlinedAt: !1790)
!1795 = !DILocation(line: 0, scope: !212, inlinedAt: !1796)
!1796 = distinct !DILocation(line: 540, column: 12, scope: !1326, inlinedAt: !1781)
!1797 = !DILocation(line: 117, column: 19, scope: !212, inlinedAt: !1796)
!1798 = !DILocation(line: 117, column: 16, scope: !212, inlinedAt: !1796)
!1799 = !DILocation(line: 117, column: 27, scope: !212, inlinedAt: !1796)
!1800 = !DILocation(line: 0, scope: !223, inlinedAt: !1801)
!1801 = distinct !DILocation(line: 117, column: 30, scope: !212, inlinedAt: !1796)
!1802 = !DILocation(line: 112, column: 16, scope: !223, inlinedAt: !1801)
!1803 = !DILocation(line: 112, column: 24, scope: !223, inlinedAt: !1801)
!1804 = !DILocation(line: 112, column: 27, scope: !223, inlinedAt: !1801)
!1805 = !DILocation(line: 112, column: 43, scope: !223, inlinedAt: !1801)
!1806 = !DILocation(line: 112, column: 52, scope: !223, inlinedAt: !1801)
!1807 = !DILocation(line: 112, column: 55, scope: !223, inlinedAt: !1801)
!1808 = !DILocation(line: 112, column: 72, scope: !223, inlinedAt: !1801)
!1809 = !DILocation(line: 540, column: 40, scope: !1326, inlinedAt: !1781)
!1810 = !DILocation(line: 540, column: 60, scope: !1326, inlinedAt: !1781)
!1811 = !DILocation(line: 540, column: 86, scope: !1326, inlinedAt: !1781)
!1812 = !DILocation(line: 629, column: 31, scope: !1782)
!1813 = !DILocation(line: 631, column: 33, scope: !1774)
!1814 = !DILocation(line: 631, column: 5, scope: !1774)
!1815 = !DILocation(line: 631, column: 31, scope: !1774)
!1816 = !DILocation(line: 632, column: 5, scope: !1774)
!1817 = !DILocation(line: 633, column: 1, scope: !1774)
!1818 = distinct !DISubprogram(name: "sys_map_kernel", scope: !3, file: !3, line: 636, type: !478, scopeLine: 636, flags: DIFlagPrototyped | DIFlagAllCallsDescribed, spFlags: DISPFlagDefinition | DISPFlagOptimized, unit: !2, retainedNodes: !1819)
!1819 = !{!1820, !1821, !1822}
!1820 = !DILocalVariable(name: "leaf", arg: 1, scope: !1818, file: !3, line: 636, type: !42)
!1821 = !DILocalVariable(name: "index", arg: 2, scope: !1818, file: !3, line: 636, type: !42)
!1822 = !DILocalVariable(name: "page", arg: 3, scope: !1818, file: !3, line: 636, type: !42)
!1823 = !DILocation(line: 0, scope: !1818)
!1824 = !DILocation(line: 0, scope: !1326, inlinedAt: !1825)
!1825 = distinct !DILocation(line: 637, column: 10, scope: !1826)
!1826 = distinct !DILexicalBlock(scope: !1818, file: !3, line: 637, column: 9)
!1827 = !DILocation(line: 0, scope: !1010, inlinedAt: !1828)
!1828 = distinct !DILocation(line: 540, column: 22, scope: !1326, inlinedAt: !1825)
!1829 = !DILocation(line: 131, column: 17, scope: !1010, inlinedAt: !1828)
!1830 = !DILocation(line: 131, column: 12, scope: !1010, inlinedAt: !1828)
!1831 = !DILocation(line: 131, column: 40, scope: !1010, inlinedAt: !1828)
!1832 = !DILocation(line: 131, column: 58, scope: !1010, inlinedAt: !1828)
!1833 = !DILocation(line: 0, scope: !1019, inlinedAt: !1834)
!1834 = distinct !DILocation(line: 131, column: 27, scope: !1010, inlinedAt: !1828)
!1835 = !DILocation(line: 127, column: 19, scope: !1019, inlinedAt: !1834)
!1836 = !DILocation(line: 127, column: 12, scope: !1019, inlinedAt: !1834)
!1837 = !DILocation(line: 127, column: 31, scope: !1019, inlinedAt: !1834)
!1838 = !DILocation(line: 127, column: 53, scope: !1019, inlinedAt: !1834)
!1839 = !DILocation(line: 0, scope: !212, inlinedAt: !1840)
!1840 = distinct !DILocation(line: 540, column: 12, scope: !1326, inlinedAt: !1825)
!1841 = !DILocation(line: 117, column: 19, scope: !212, inlinedAt: !1840)
!1842 = !DILocation(line: 117, column: 16, scope: !212, inlinedAt: !1840)
!1843 = !DILocation(line: 117, column: 27, scope: !212, inlinedAt: !1840)
!1844 = !DILocation(line: 0, scope: !223, inlinedAt: !1845)
!1845 = distinct !DILocation(line: 117, column: 30, scope: !212, inlinedAt: !1840)
!1846 = !DILocation(line: 112, column: 16, scope: !223, inlinedAt: !1845)
!1847 = !DILocation(line: 112, column: 24, scope: !223, inlinedAt: !1845)
!1848 = !DILocation(line: 112, column: 27, scope: !223, inlinedAt: !1845)
!1849 = !DILocation(line: 112, column: 43, scope: !223, inlinedAt: !1845)
!1850 = !DILocation(line: 112, column: 52, scope: !223, inlinedAt: !1845)
!1851 = !DILocation(line: 112, column: 55, scope: !223, inlinedAt: !1845)
!1852 = !DILocation(line: 112, column: 72, scope: !223, inlinedAt: !1845)
!1853 = !DILocation(line: 540, column: 40, scope: !1326, inlinedAt: !1825)
!1854 = !DILocation(line: 540, column: 60, scope: !1326, inlinedAt: !1825)
!1855 = !DILocation(line: 540, column: 86, scope: !1326, inlinedAt: !1825)
!1856 = !DILocation(line: 637, column: 31, scope: !1826)
!1857 = !DILocation(line: 639, column: 5, scope: !1818)
!1858 = !DILocation(line: 639, column: 31, scope: !1818)
!1859 = !DILocation(line: 640, column: 5, scope: !1818)
!1860 = !DILocation(line: 641, column: 1, scope: !1818)
!1861 = distinct !DISubprogram(name: "sys_unmap", scope: !3, file: !3, line: 644, type: !205, scopeLine: 644, flags: DIFlagPrototyped | DIFlagAllCallsDescribed, spFlags: DISPFlagDefinition | DISPFlagOptimized, unit: !2, retainedNodes: !1862)
!1862 = !{!1863, !1864, !1865}
!1863 = !DILocalVariable(name: "leaf", arg: 1, scope: !1861, file: !3, line: 644, type: !42)
!1864 = !DILocalVariable(name: "index", arg: 2, scope: !1861, file: !3, line: 644, type: !42)
!1865 = !DILocalVariable(name: "page", scope: !1861, file: !3, line: 647, type: !35)
!1866 = !DILocation(line: 0, scope: !1861)
!1867 = !DILocation(line: 0, scope: !1010, inlinedAt: !1868)
!1868 = distinct !DILocation(line: 645, column: 19, scope: !1869)
!1869 = distinct !DILexicalBlock(scope: !1861, file: !3, line: 645, column: 9)
!1870 = !DILocation(line: 131, column: 17, scope: !1010, inlinedAt: !1868)
!1871 = !DILocation(line: 131, column: 12, scope: !1010, inlinedAt: !1868)
!1872 = !DILocation(line: 131, column: 40, scope: !1010, inlinedAt: !1868)
!1873 = !DILocation(line: 131, column: 58, scope: !1010, inlinedAt: !1868)
!1874 = !DILocation(line: 0, scope: !1019, inlinedAt: !1875)
!1875 = distinct !DILocation(line: 131, column: 27, scope: !1010, inlinedAt: !1868)
!1876 = !DILocation(line: 127, column: 19, scope: !1019, inlinedAt: !1875)
!1877 = !DILocation(line: 127, column: 12, scope: !1019, inlinedAt: !1875)
!1878 = !DILocation(line: 127, column: 31, scope: !1019, inlinedAt: !1875)
!1879 = !DILocation(line: 127, column: 53, scope: !1019, inlinedAt: !1875)
!1880 = !DILocation(line: 0, scope: !532, inlinedAt: !1881)
!1881 = distinct !DILocation(line: 645, column: 10, scope: !1869)
!1882 = !DILocation(line: 122, column: 19, scope: !532, inlinedAt: !1881)
!1883 = !DILocation(line: 122, column: 16, scope: !532, inlinedAt: !1881)
!1884 = !DILocation(line: 122, column: 27, scope: !532, inlinedAt: !1881)
!1885 = !DILocation(line: 0, scope: !223, inlinedAt: !1886)
!1886 = distinct !DILocation(line: 122, column: 30, scope: !532, inlinedAt: !1881)
!1887 = !DILocation(line: 112, column: 16, scope: !223, inlinedAt: !1886)
!1888 = !DILocation(line: 112, column: 24, scope: !223, inlinedAt: !1886)
!1889 = !DILocation(line: 112, column: 27, scope: !223, inlinedAt: !1886)
!1890 = !DILocation(line: 112, column: 52, scope: !223, inlinedAt: !1886)
!1891 = !DILocation(line: 112, column: 55, scope: !223, inlinedAt: !1886)
!1892 = !DILocation(line: 112, column: 72, scope: !223, inlinedAt: !1886)
!1893 = !DILocation(line: 122, column: 52, scope: !532, inlinedAt: !1881)
!1894 = !DILocation(line: 112, column: 43, scope: !223, inlinedAt: !1895)
!1895 = distinct !DILocation(line: 122, column: 55, scope: !532, inlinedAt: !1881)
!1896 = !DILocation(line: 112, column: 52, scope: !223, inlinedAt: !1895)
!1897 = !DILocation(line: 112, column: 55, scope: !223, inlinedAt: !1895)
!1898 = !DILocation(line: 112, column: 72, scope: !223, inlinedAt: !1895)
!1899 = !DILocation(line: 645, column: 37, scope: !1869)
!1900 = !DILocation(line: 647, column: 21, scope: !1861)
!1901 = !DILocation(line: 647, column: 47, scope: !1861)
!1902 = !DILocation(line: 648, column: 43, scope: !1903)
!1903 = distinct !DILexicalBlock(scope: !1861, file: !3, line: 648, column: 9)
!1904 = !DILocation(line: 650, column: 31, scope: !1861)
!1905 = !DILocation(line: 651, column: 5, scope: !1861)
!1906 = !DILocation(line: 652, column: 1, scope: !1861)
!1907 = distinct !DISubprogram(name: "sys_alloc_port", scope: !3, file: !3, line: 656, type: !177, scopeLine: 656, flags: DIFlagPrototyped | DIFlagAllCallsDescribed, spFlags: DISPFlagDefinition | DISPFlagOptimized, unit: !2, retainedNodes: !1908)
!1908 = !{!1909}
!1909 = !DILocalVariable(name: "port", arg: 1, scope: !1907, file: !3, line: 656, type: !42)
!1910 = !DILocation(line: 0, scope: !1907)
!1911 = !DILocation(line: 657, column: 14, scope: !1912)
!1912 = distinct !DILexicalBlock(scope: !1907, file: !3, line: 657, column: 9)
!1913 = !DILocation(line: 657, column: 23, scope: !1912)
!1914 = !DILocation(line: 657, column: 26, scope: !1912)
!1915 = !DILocation(line: 657, column: 43, scope: !1912)
!1916 = !DILocation(line: 657, column: 9, scope: !1907)
!1917 = !DILocation(line: 659, column: 24, scope: !1907)
!1918 = !DILocation(line: 659, column: 32, scope: !1907)
!1919 = !DILocation(line: 659, column: 22, scope: !1907)
!1920 = !DILocation(line: 660, column: 5, scope: !1907)
!1921 = !DILocation(line: 661, column: 1, scope: !1907)
!1922 = distinct !DISubprogram(name: "sys_free_port", scope: !3, file: !3, line: 663, type: !177, scopeLine: 663, flags: DIFlagPrototyped | DIFlagAllCallsDescribed, spFlags: DISPFlagDefinition | DISPFlagOptimized, unit: !2, retainedNodes: !1923)
!1923 = !{!1924}
!1924 = !DILocalVariable(name: "port", arg: 1, scope: !1922, file: !3, line: 663, type: !42)
!1925 = !DILocation(line: 0, scope: !1922)
!1926 = !DILocation(line: 664, column: 14, scope: !1927)
!1927 = distinct !DILexicalBlock(scope: !1922, file: !3, line: 664, column: 9)
!1928 = !DILocation(line: 664, column: 23, scope: !1927)
!1929 = !DILocation(line: 664, column: 36, scope: !1927)
!1930 = !DILocation(line: 664, column: 53, scope: !1927)
!1931 = !DILocation(line: 0, scope: !532, inlinedAt: !1932)
!1932 = distinct !DILocation(line: 664, column: 27, scope: !1927)
!1933 = !DILocation(line: 122, column: 19, scope: !532, inlinedAt: !1932)
!1934 = !DILocation(line: 122, column: 16, scope: !532, inlinedAt: !1932)
!1935 = !DILocation(line: 122, column: 27, scope: !532, inlinedAt: !1932)
!1936 = !DILocation(line: 0, scope: !223, inlinedAt: !1937)
!1937 = distinct !DILocation(line: 122, column: 30, scope: !532, inlinedAt: !1932)
!1938 = !DILocation(line: 112, column: 16, scope: !223, inlinedAt: !1937)
!1939 = !DILocation(line: 112, column: 24, scope: !223, inlinedAt: !1937)
!1940 = !DILocation(line: 112, column: 27, scope: !223, inlinedAt: !1937)
!1941 = !DILocation(line: 112, column: 52, scope: !223, inlinedAt: !1937)
!1942 = !DILocation(line: 112, column: 55, scope: !223, inlinedAt: !1937)
!1943 = !DILocation(line: 112, column: 72, scope: !223, inlinedAt: !1937)
!1944 = !DILocation(line: 122, column: 52, scope: !532, inlinedAt: !1932)
!1945 = !DILocation(line: 112, column: 43, scope: !223, inlinedAt: !1946)
!1946 = distinct !DILocation(line: 122, column: 55, scope: !532, inlinedAt: !1932)
!1947 = !DILocation(line: 112, column: 52, scope: !223, inlinedAt: !1946)
!1948 = !DILocation(line: 112, column: 55, scope: !223, inlinedAt: !1946)
!1949 = !DILocation(line: 112, column: 72, scope: !223, inlinedAt: !1946)
!1950 = !DILocation(line: 664, column: 9, scope: !1922)
!1951 = !DILocation(line: 666, column: 22, scope: !1922)
!1952 = !DILocation(line: 667, column: 5, scope: !1922)
!1953 = !DILocation(line: 668, column: 1, scope: !1922)
!1954 = distinct !DISubprogram(name: "sys_port_out", scope: !3, file: !3, line: 670, type: !205, scopeLine: 670, flags: DIFlagPrototyped | DIFlagAllCallsDescribed, spFlags: DISPFlagDefinition | DISPFlagOptimized, unit: !2, retainedNodes: !1955)
!1955 = !{!1956, !1957}
!1956 = !DILocalVariable(name: "port", arg: 1, scope: !1954, file: !3, line: 670, type: !42)
!1957 = !DILocalVariable(name: "value", arg: 2, scope: !1954, file: !3, line: 670, type: !42)
!1958 = !DILocation(line: 0, scope: !1954)
!1959 = !DILocation(line: 671, column: 14, scope: !1960)
!1960 = distinct !DILexicalBlock(scope: !1954, file: !3, line: 671, column: 9)
!1961 = !DILocation(line: 671, column: 23, scope: !1960)
!1962 = !DILocation(line: 671, column: 26, scope: !1960)
!1963 = !DILocation(line: 671, column: 46, scope: !1960)
!1964 = !DILocation(line: 671, column: 54, scope: !1960)
!1965 = !DILocation(line: 671, column: 43, scope: !1960)
!1966 = !DILocation(line: 671, column: 9, scope: !1954)
!1967 = !DILocation(line: 673, column: 5, scope: !1954)
!1968 = !DILocation(line: 674, column: 5, scope: !1954)
!1969 = !DILocation(line: 675, column: 1, scope: !1954)
!1970 = !DISubprogram(name: "port_out", scope: !3, file: !3, line: 25, type: !561, flags: DIFlagPrototyped, spFlags: DISPFlagOptimized, retainedNodes: !271)
!1971 = distinct !DISubprogram(name: "sys_alloc_vector", scope: !3, file: !3, line: 677, type: !177, scopeLine: 677, flags: DIFlagPrototyped | DIFlagAllCallsDescribed, spFlags: DISPFlagDefinition | DISPFlagOptimized, unit: !2, retainedNodes: !1972)
!1972 = !{!1973}
!1973 = !DILocalVariable(name: "vector", arg: 1, scope: !1971, file: !3, line: 677, type: !42)
!1974 = !DILocation(line: 0, scope: !1971)
!1975 = !DILocation(line: 678, column: 16, scope: !1976)
!1976 = distinct !DILexicalBlock(scope: !1971, file: !3, line: 678, column: 9)
!1977 = !DILocation(line: 678, column: 27, scope: !1976)
!1978 = !DILocation(line: 678, column: 30, scope: !1976)
!1979 = !DILocation(line: 678, column: 51, scope: !1976)
!1980 = !DILocation(line: 678, column: 9, scope: !1971)
!1981 = !DILocation(line: 680, column: 28, scope: !1971)
!1982 = !DILocation(line: 680, column: 36, scope: !1971)
!1983 = !DILocation(line: 680, column: 26, scope: !1971)
!1984 = !DILocation(line: 681, column: 5, scope: !1971)
!1985 = !DILocation(line: 681, column: 28, scope: !1971)
!1986 = !DILocation(line: 682, column: 5, scope: !1971)
!1987 = !DILocation(line: 683, column: 1, scope: !1971)
!1988 = distinct !DISubprogram(name: "sys_free_vector", scope: !3, file: !3, line: 686, type: !177, scopeLine: 686, flags: DIFlagPrototyped | DIFlagAllCallsDescribed, spFlags: DISPFlagDefinition | DISPFlagOptimized, unit: !2, retainedNodes: !1989)
!1989 = !{!1990, !1991, !1992}
!1990 = !DILocalVariable(name: "vector", arg: 1, scope: !1988, file: !3, line: 686, type: !42)
!1991 = !DILocalVariable(name: "used", scope: !1988, file: !3, line: 687, type: !42)
!1992 = !DILocalVariable(name: "i", scope: !1993, file: !3, line: 690, type: !42)
!1993 = distinct !DILexicalBlock(scope: !1988, file: !3, line: 690, column: 12)
!1994 = !DILocation(line: 0, scope: !1988)
!1995 = !DILocation(line: 688, column: 16, scope: !1996)
!1996 = distinct !DILexicalBlock(scope: !1988, file: !3, line: 688, column: 9)
!1997 = !DILocation(line: 688, column: 27, scope: !1996)
!1998 = !DILocation(line: 688, column: 40, scope: !1996)
!1999 = !DILocation(line: 688, column: 61, scope: !1996)
!2000 = !DILocation(line: 0, scope: !532, inlinedAt: !2001)
!2001 = distinct !DILocation(line: 688, column: 31, scope: !1996)
!2002 = !DILocation(line: 122, column: 19, scope: !532, inlinedAt: !2001)
!2003 = !DILocation(line: 122, column: 16, scope: !532, inlinedAt: !2001)
!2004 = !DILocation(line: 122, column: 27, scope: !532, inlinedAt: !2001)
!2005 = !DILocation(line: 0, scope: !223, inlinedAt: !2006)
!2006 = distinct !DILocation(line: 122, column: 30, scope: !532, inlinedAt: !2001)
!2007 = !DILocation(line: 112, column: 16, scope: !223, inlinedAt: !2006)
!2008 = !DILocation(line: 112, column: 24, scope: !223, inlinedAt: !2006)
!2009 = !DILocation(line: 112, column: 27, scope: !223, inlinedAt: !2006)
!2010 = !DILocation(line: 112, column: 52, scope: !223, inlinedAt: !2006)
!2011 = !DILocation(line: 112, column: 55, scope: !223, inlinedAt: !2006)
!2012 = !DILocation(line: 112, column: 72, scope: !223, inlinedAt: !2006)
!2013 = !DILocation(line: 122, column: 52, scope: !532, inlinedAt: !2001)
!2014 = !DILocation(line: 112, column: 43, scope: !223, inlinedAt: !2015)
!2015 = distinct !DILocation(line: 122, column: 55, scope: !532, inlinedAt: !2001)
!2016 = !DILocation(line: 112, column: 52, scope: !223, inlinedAt: !2015)
!2017 = !DILocation(line: 112, column: 55, scope: !223, inlinedAt: !2015)
!2018 = !DILocation(line: 112, column: 72, scope: !223, inlinedAt: !2015)
!2019 = !DILocation(line: 688, column: 9, scope: !1988)
!2020 = !DILocation(line: 0, scope: !1993)
!2021 = !DILocation(line: 691, column: 17, scope: !2022)
!2022 = distinct !DILexicalBlock(scope: !1993, file: !3, line: 690, column: 12)
!2023 = !DILocation(line: 691, column: 34, scope: !2022)
!2024 = !DILocation(line: 691, column: 14, scope: !2022)
!2025 = !DILocation(line: 692, column: 9, scope: !1988)
!2026 = !DILocation(line: 694, column: 26, scope: !1988)
!2027 = !DILocation(line: 695, column: 5, scope: !1988)
!2028 = !DILocation(line: 696, column: 1, scope: !1988)
!2029 = distinct !DISubprogram(name: "sys_alloc_source", scope: !3, file: !3, line: 699, type: !205, scopeLine: 699, flags: DIFlagPrototyped | DIFlagAllCallsDescribed, spFlags: DISPFlagDefinition | DISPFlagOptimized, unit: !2, retainedNodes: !2030)
!2030 = !{!2031, !2032}
!2031 = !DILocalVariable(name: "source", arg: 1, scope: !2029, file: !3, line: 699, type: !42)
!2032 = !DILocalVariable(name: "vector", arg: 2, scope: !2029, file: !3, line: 699, type: !42)
!2033 = !DILocation(line: 0, scope: !2029)
!2034 = !DILocation(line: 700, column: 16, scope: !2035)
!2035 = distinct !DILexicalBlock(scope: !2029, file: !3, line: 700, column: 9)
!2036 = !DILocation(line: 700, column: 27, scope: !2035)
!2037 = !DILocation(line: 700, column: 30, scope: !2035)
!2038 = !DILocation(line: 700, column: 52, scope: !2035)
!2039 = !DILocation(line: 700, column: 57, scope: !2035)
!2040 = !DILocation(line: 700, column: 81, scope: !2035)
!2041 = !DILocation(line: 700, column: 105, scope: !2035)
!2042 = !DILocation(line: 700, column: 113, scope: !2035)
!2043 = !DILocation(line: 700, column: 102, scope: !2035)
!2044 = !DILocation(line: 700, column: 9, scope: !2029)
!2045 = !DILocation(line: 702, column: 36, scope: !2029)
!2046 = !DILocation(line: 702, column: 27, scope: !2029)
!2047 = !DILocation(line: 703, column: 5, scope: !2029)
!2048 = !DILocation(line: 704, column: 5, scope: !2029)
!2049 = !DILocation(line: 705, column: 1, scope: !2029)
!2050 = !DISubprogram(name: "irq_enable", scope: !3, file: !3, line: 26, type: !320, flags: DIFlagPrototyped, spFlags: DISPFlagOptimized, retainedNodes: !271)
!2051 = distinct !DISubprogram(name: "sys_free_source", scope: !3, file: !3, line: 707, type: !177, scopeLine: 707, flags: DIFlagPrototyped | DIFlagAllCallsDescribed, spFlags: DISPFlagDefinition | DISPFlagOptimized, unit: !2, retainedNodes: !2052)
!2052 = !{!2053}
!2053 = !DILocalVariable(name: "source", arg: 1, scope: !2051, file: !3, line: 707, type: !42)
!2054 = !DILocation(line: 0, scope: !2051)
!2055 = !DILocation(line: 708, column: 16, scope: !2056)
!2056 = distinct !DILexicalBlock(scope: !2051, file: !3, line: 708, column: 9)
!2057 = !DILocation(line: 708, column: 27, scope: !2056)
!2058 = !DILocation(line: 708, column: 30, scope: !2056)
!2059 = !DILocation(line: 708, column: 52, scope: !2056)
!2060 = !DILocation(line: 708, column: 57, scope: !2056)
!2061 = !DILocation(line: 708, column: 105, scope: !2056)
!2062 = !DILocation(line: 708, column: 70, scope: !2056)
!2063 = !DILocation(line: 708, column: 110, scope: !2056)
!2064 = !DILocation(line: 0, scope: !532, inlinedAt: !2065)
!2065 = distinct !DILocation(line: 708, column: 61, scope: !2056)
!2066 = !DILocation(line: 122, column: 19, scope: !532, inlinedAt: !2065)
!2067 = !DILocation(line: 122, column: 16, scope: !532, inlinedAt: !2065)
!2068 = !DILocation(line: 122, column: 27, scope: !532, inlinedAt: !2065)
!2069 = !DILocation(line: 0, scope: !223, inlinedAt: !2070)
!2070 = distinct !DILocation(line: 122, column: 30, scope: !532, inlinedAt: !2065)
!2071 = !DILocation(line: 112, column: 16, scope: !223, inlinedAt: !2070)
!2072 = !DILocation(line: 112, column: 24, scope: !223, inlinedAt: !2070)
!2073 = !DILocation(line: 112, column: 27, scope: !223, inlinedAt: !2070)
!2074 = !DILocation(line: 112, column: 52, scope: !223, inlinedAt: !2070)
!2075 = !DILocation(line: 112, column: 55, scope: !223, inlinedAt: !2070)
!2076 = !DILocation(line: 112, column: 72, scope: !223, inlinedAt: !2070)
!2077 = !DILocation(line: 122, column: 52, scope: !532, inlinedAt: !2065)
!2078 = !DILocation(line: 112, column: 43, scope: !223, inlinedAt: !2079)
!2079 = distinct !DILocation(line: 122, column: 55, scope: !532, inlinedAt: !2065)
!2080 = !DILocation(line: 112, column: 52, scope: !223, inlinedAt: !2079)
!2081 = !DILocation(line: 112, column: 55, scope: !223, inlinedAt: !2079)
!2082 = !DILocation(line: 112, column: 72, scope: !223, inlinedAt: !2079)
!2083 = !DILocation(line: 708, column: 9, scope: !2051)
!2084 = !DILocation(line: 710, column: 27, scope: !2051)
!2085 = !DILocation(line: 711, column: 5, scope: !2051)
!2086 = !DILocation(line: 712, column: 5, scope: !2051)
!2087 = !DILocation(line: 713, column: 1, scope: !2051)
!2088 = !DISubprogram(name: "irq_disable", scope: !3, file: !3, line: 27, type: !320, flags: DIFlagPrototyped, spFlags: DISPFlagOptimized, retainedNodes: !271)
!2089 = distinct !DISubprogram(name: "sys_take_interrupt", scope: !3, file: !3, line: 716, type: !177, scopeLine: 716, flags: DIFlagPrototyped | DIFlagAllCallsDescribed, spFlags: DISPFlagDefinition | DISPFlagOptimized, unit: !2, retainedNodes: !2090)
!2090 = !{!2091}
!2091 = !DILocalVariable(name: "vector", arg: 1, scope: !2089, file: !3, line: 716, type: !42)
!2092 = !DILocation(line: 0, scope: !2089)
!2093 = !DILocation(line: 717, column: 16, scope: !2094)
!2094 = distinct !DILexicalBlock(scope: !2089, file: !3, line: 717, column: 9)
!2095 = !DILocation(line: 717, column: 27, scope: !2094)
!2096 = !DILocation(line: 717, column: 30, scope: !2094)
!2097 = !DILocation(line: 717, column: 54, scope: !2094)
!2098 = !DILocation(line: 717, column: 62, scope: !2094)
!2099 = !DILocation(line: 717, column: 51, scope: !2094)
!2100 = !DILocation(line: 717, column: 66, scope: !2094)
!2101 = !DILocation(line: 717, column: 69, scope: !2094)
!2102 = !DILocation(line: 717, column: 92, scope: !2094)
!2103 = !DILocation(line: 717, column: 9, scope: !2089)
!2104 = !DILocation(line: 719, column: 28, scope: !2089)
!2105 = !DILocation(line: 720, column: 5, scope: !2089)
!2106 = !DILocation(line: 721, column: 1, scope: !2089)
!2107 = distinct !DISubprogram(name: "sys_ack_source", scope: !3, file: !3, line: 724, type: !177, scopeLine: 724, flags: DIFlagPrototyped | DIFlagAllCallsDescribed, spFlags: DISPFlagDefinition | DISPFlagOptimized, unit: !2, retainedNodes: !2108)
!2108 = !{!2109}
!2109 = !DILocalVariable(name: "source", arg: 1, scope: !2107, file: !3, line: 724, type: !42)
!2110 = !DILocation(line: 0, scope: !2107)
!2111 = !DILocation(line: 725, column: 16, scope: !2112)
!2112 = distinct !DILexicalBlock(scope: !2107, file: !3, line: 725, column: 9)
!2113 = !DILocation(line: 725, column: 27, scope: !2112)
!2114 = !DILocation(line: 725, column: 30, scope: !2112)
!2115 = !DILocation(line: 725, column: 52, scope: !2112)
!2116 = !DILocation(line: 725, column: 57, scope: !2112)
!2117 = !DILocation(line: 725, column: 95, scope: !2112)
!2118 = !DILocation(line: 725, column: 60, scope: !2112)
!2119 = !DILocation(line: 725, column: 103, scope: !2112)
!2120 = !DILocation(line: 725, column: 111, scope: !2112)
!2121 = !DILocation(line: 725, column: 100, scope: !2112)
!2122 = !DILocation(line: 725, column: 9, scope: !2107)
!2123 = !DILocation(line: 727, column: 5, scope: !2107)
!2124 = !DILocation(line: 728, column: 5, scope: !2107)
!2125 = !DILocation(line: 729, column: 1, scope: !2107)
!2126 = !DISubprogram(name: "irq_complete", scope: !3, file: !3, line: 28, type: !320, flags: DIFlagPrototyped, spFlags: DISPFlagOptimized, retainedNodes: !271)
!2127 = distinct !DISubprogram(name: "sys_alloc_device", scope: !3, file: !3, line: 731, type: !177, scopeLine: 731, flags: DIFlagPrototyped | DIFlagAllCallsDescribed, spFlags: DISPFlagDefinition | DISPFlagOptimized, unit: !2, retainedNodes: !2128)
!2128 = !{!2129}
!2129 = !DILocalVariable(name: "device", arg: 1, scope: !2127, file: !3, line: 731, type: !42)
!2130 = !DILocation(line: 0, scope: !2127)
!2131 = !DILocation(line: 732, column: 16, scope: !2132)
!2132 = distinct !DILexicalBlock(scope: !2127, file: !3, line: 732, column: 9)
!2133 = !DILocation(line: 732, column: 27, scope: !2132)
!2134 = !DILocation(line: 732, column: 30, scope: !2132)
!2135 = !DILocation(line: 732, column: 51, scope: !2132)
!2136 = !DILocation(line: 732, column: 9, scope: !2127)
!2137 = !DILocation(line: 734, column: 28, scope: !2127)
!2138 = !DILocation(line: 734, column: 36, scope: !2127)
!2139 = !DILocation(line: 734, column: 26, scope: !2127)
!2140 = !DILocation(line: 735, column: 5, scope: !2127)
!2141 = !DILocation(line: 736, column: 1, scope: !2127)
!2142 = distinct !DISubprogram(name: "sys_free_device", scope: !3, file: !3, line: 739, type: !177, scopeLine: 739, flags: DIFlagPrototyped | DIFlagAllCallsDescribed, spFlags: DISPFlagDefinition | DISPFlagOptimized, unit: !2, retainedNodes: !2143)
!2143 = !{!2144}
!2144 = !DILocalVariable(name: "device", arg: 1, scope: !2142, file: !3, line: 739, type: !42)
!2145 = !DILocation(line: 0, scope: !2142)
!2146 = !DILocation(line: 740, column: 16, scope: !2147)
!2147 = distinct !DILexicalBlock(scope: !2142, file: !3, line: 740, column: 9)
!2148 = !DILocation(line: 740, column: 27, scope: !2147)
!2149 = !DILocation(line: 740, column: 40, scope: !2147)
!2150 = !DILocation(line: 740, column: 61, scope: !2147)
!2151 = !DILocation(line: 0, scope: !532, inlinedAt: !2152)
!2152 = distinct !DILocation(line: 740, column: 31, scope: !2147)
!2153 = !DILocation(line: 122, column: 19, scope: !532, inlinedAt: !2152)
!2154 = !DILocation(line: 122, column: 16, scope: !532, inlinedAt: !2152)
!2155 = !DILocation(line: 122, column: 27, scope: !532, inlinedAt: !2152)
!2156 = !DILocation(line: 0, scope: !223, inlinedAt: !2157)
!2157 = distinct !DILocation(line: 122, column: 30, scope: !532, inlinedAt: !2152)
!2158 = !DILocation(line: 112, column: 16, scope: !223, inlinedAt: !2157)
!2159 = !DILocation(line: 112, column: 24, scope: !223, inlinedAt: !2157)
!2160 = !DILocation(line: 112, column: 27, scope: !223, inlinedAt: !2157)
!2161 = !DILocation(line: 112, column: 52, scope: !223, inlinedAt: !2157)
!2162 = !DILocation(line: 112, column: 55, scope: !223, inlinedAt: !2157)
!2163 = !DILocation(line: 112, column: 72, scope: !223, inlinedAt: !2157)
!2164 = !DILocation(line: 122, column: 52, scope: !532, inlinedAt: !2152)
!2165 = !DILocation(line: 112, column: 43, scope: !223, inlinedAt: !2166)
!2166 = distinct !DILocation(line: 122, column: 55, scope: !532, inlinedAt: !2152)
!2167 = !DILocation(line: 112, column: 52, scope: !223, inlinedAt: !2166)
!2168 = !DILocation(line: 112, column: 55, scope: !223, inlinedAt: !2166)
!2169 = !DILocation(line: 112, column: 72, scope: !223, inlinedAt: !2166)
!2170 = !DILocation(line: 740, column: 66, scope: !2147)
!2171 = !DILocation(line: 740, column: 69, scope: !2147)
!2172 = !DILocation(line: 740, column: 91, scope: !2147)
!2173 = !DILocation(line: 740, column: 9, scope: !2142)
!2174 = !DILocation(line: 742, column: 26, scope: !2142)
!2175 = !DILocation(line: 743, column: 5, scope: !2142)
!2176 = !DILocation(line: 744, column: 1, scope: !2142)
!2177 = distinct !DISubprogram(name: "sys_map_device", scope: !3, file: !3, line: 746, type: !478, scopeLine: 746, flags: DIFlagPrototyped | DIFlagAllCallsDescribed, spFlags: DISPFlagDefinition | DISPFlagOptimized, unit: !2, retainedNodes: !2178)
!2178 = !{!2179, !2180, !2181}
!2179 = !DILocalVariable(name: "device", arg: 1, scope: !2177, file: !3, line: 746, type: !42)
!2180 = !DILocalVariable(name: "leaf", arg: 2, scope: !2177, file: !3, line: 746, type: !42)
!2181 = !DILocalVariable(name: "index", arg: 3, scope: !2177, file: !3, line: 746, type: !42)
!2182 = !DILocation(line: 0, scope: !2177)
!2183 = !DILocation(line: 747, column: 16, scope: !2184)
!2184 = distinct !DILexicalBlock(scope: !2177, file: !3, line: 747, column: 9)
!2185 = !DILocation(line: 747, column: 27, scope: !2184)
!2186 = !DILocation(line: 747, column: 30, scope: !2184)
!2187 = !DILocation(line: 747, column: 54, scope: !2184)
!2188 = !DILocation(line: 747, column: 62, scope: !2184)
!2189 = !DILocation(line: 747, column: 51, scope: !2184)
!2190 = !DILocation(line: 747, column: 66, scope: !2184)
!2191 = !DILocation(line: 747, column: 69, scope: !2184)
!2192 = !DILocation(line: 747, column: 91, scope: !2184)
!2193 = !DILocation(line: 747, column: 9, scope: !2177)
!2194 = !DILocation(line: 0, scope: !1010, inlinedAt: !2195)
!2195 = distinct !DILocation(line: 749, column: 9, scope: !2196)
!2196 = distinct !DILexicalBlock(scope: !2177, file: !3, line: 749, column: 9)
!2197 = !DILocation(line: 131, column: 17, scope: !1010, inlinedAt: !2195)
!2198 = !DILocation(line: 131, column: 12, scope: !1010, inlinedAt: !2195)
!2199 = !DILocation(line: 131, column: 40, scope: !1010, inlinedAt: !2195)
!2200 = !DILocation(line: 131, column: 58, scope: !1010, inlinedAt: !2195)
!2201 = !DILocation(line: 0, scope: !1019, inlinedAt: !2202)
!2202 = distinct !DILocation(line: 131, column: 27, scope: !1010, inlinedAt: !2195)
!2203 = !DILocation(line: 127, column: 19, scope: !1019, inlinedAt: !2202)
!2204 = !DILocation(line: 127, column: 12, scope: !1019, inlinedAt: !2202)
!2205 = !DILocation(line: 127, column: 31, scope: !1019, inlinedAt: !2202)
!2206 = !DILocation(line: 127, column: 53, scope: !1019, inlinedAt: !2202)
!2207 = !DILocation(line: 749, column: 26, scope: !2196)
!2208 = !DILocation(line: 749, column: 37, scope: !2196)
!2209 = !DILocation(line: 749, column: 58, scope: !2196)
!2210 = !DILocation(line: 749, column: 84, scope: !2196)
!2211 = !DILocation(line: 749, column: 9, scope: !2177)
!2212 = !DILocation(line: 751, column: 33, scope: !2177)
!2213 = !DILocation(line: 751, column: 31, scope: !2177)
!2214 = !DILocation(line: 752, column: 34, scope: !2177)
!2215 = !DILocation(line: 752, column: 27, scope: !2177)
!2216 = !DILocation(line: 753, column: 5, scope: !2177)
!2217 = !DILocation(line: 753, column: 26, scope: !2177)
!2218 = !DILocation(line: 754, column: 5, scope: !2177)
!2219 = !DILocation(line: 755, column: 1, scope: !2177)
!2220 = distinct !DISubprogram(name: "sys_unmap_device", scope: !3, file: !3, line: 757, type: !177, scopeLine: 757, flags: DIFlagPrototyped | DIFlagAllCallsDescribed, spFlags: DISPFlagDefinition | DISPFlagOptimized, unit: !2, retainedNodes: !2221)
!2221 = !{!2222}
!2222 = !DILocalVariable(name: "device", arg: 1, scope: !2220, file: !3, line: 757, type: !42)
!2223 = !DILocation(line: 0, scope: !2220)
!2224 = !DILocation(line: 758, column: 16, scope: !2225)
!2225 = distinct !DILexicalBlock(scope: !2220, file: !3, line: 758, column: 9)
!2226 = !DILocation(line: 758, column: 27, scope: !2225)
!2227 = !DILocation(line: 758, column: 40, scope: !2225)
!2228 = !DILocation(line: 758, column: 61, scope: !2225)
!2229 = !DILocation(line: 0, scope: !532, inlinedAt: !2230)
!2230 = distinct !DILocation(line: 758, column: 31, scope: !2225)
!2231 = !DILocation(line: 122, column: 19, scope: !532, inlinedAt: !2230)
!2232 = !DILocation(line: 122, column: 16, scope: !532, inlinedAt: !2230)
!2233 = !DILocation(line: 122, column: 27, scope: !532, inlinedAt: !2230)
!2234 = !DILocation(line: 0, scope: !223, inlinedAt: !2235)
!2235 = distinct !DILocation(line: 122, column: 30, scope: !532, inlinedAt: !2230)
!2236 = !DILocation(line: 112, column: 16, scope: !223, inlinedAt: !2235)
!2237 = !DILocation(line: 112, column: 24, scope: !223, inlinedAt: !2235)
!2238 = !DILocation(line: 112, column: 27, scope: !223, inlinedAt: !2235)
!2239 = !DILocation(line: 112, column: 52, scope: !223, inlinedAt: !2235)
!2240 = !DILocation(line: 112, column: 55, scope: !223, inlinedAt: !2235)
!2241 = !DILocation(line: 112, column: 72, scope: !223, inlinedAt: !2235)
!2242 = !DILocation(line: 122, column: 52, scope: !532, inlinedAt: !2230)
!2243 = !DILocation(line: 112, column: 43, scope: !223, inlinedAt: !2244)
!2244 = distinct !DILocation(line: 122, column: 55, scope: !532, inlinedAt: !2230)
!2245 = !DILocation(line: 112, column: 52, scope: !223, inlinedAt: !2244)
!2246 = !DILocation(line: 112, column: 55, scope: !223, inlinedAt: !2244)
!2247 = !DILocation(line: 112, column: 72, scope: !223, inlinedAt: !2244)
!2248 = !DILocation(line: 758, column: 66, scope: !2225)
!2249 = !DILocation(line: 758, column: 69, scope: !2225)
!2250 = !DILocation(line: 758, column: 91, scope: !2225)
!2251 = !DILocation(line: 758, column: 9, scope: !2220)
!2252 = !DILocation(line: 760, column: 34, scope: !2220)
!2253 = !DILocation(line: 760, column: 5, scope: !2220)
!2254 = !DILocation(line: 760, column: 45, scope: !2220)
!2255 = !DILocation(line: 760, column: 67, scope: !2220)
!2256 = !DILocation(line: 761, column: 27, scope: !2220)
!2257 = !DILocation(line: 762, column: 5, scope: !2220)
!2258 = !DILocation(line: 763, column: 1, scope: !2220)
!2259 = distinct !DISubprogram(name: "trap_timer", scope: !3, file: !3, line: 768, type: !298, scopeLine: 768, flags: DIFlagPrototyped | DIFlagAllCallsDescribed, spFlags: DISPFlagDefinition | DISPFlagOptimized, unit: !2, retainedNodes: !271)
!2260 = !DILocation(line: 769, column: 11, scope: !2259)
!2261 = !DILocation(line: 184, column: 36, scope: !301, inlinedAt: !2262)
!2262 = distinct !DILocation(line: 770, column: 5, scope: !2259)
!2263 = !DILocation(line: 184, column: 26, scope: !301, inlinedAt: !2262)
!2264 = !DILocation(line: 184, column: 15, scope: !301, inlinedAt: !2262)
!2265 = !DILocation(line: 184, column: 46, scope: !301, inlinedAt: !2262)
!2266 = !DILocation(line: 184, column: 13, scope: !301, inlinedAt: !2262)
!2267 = !DILocation(line: 771, column: 5, scope: !2259)
!2268 = distinct !DISubprogram(name: "trap_interrupt", scope: !3, file: !3, line: 774, type: !177, scopeLine: 774, flags: DIFlagPrototyped | DIFlagAllCallsDescribed, spFlags: DISPFlagDefinition | DISPFlagOptimized, unit: !2, retainedNodes: !2269)
!2269 = !{!2270}
!2270 = !DILocalVariable(name: "source", arg: 1, scope: !2268, file: !3, line: 774, type: !42)
!2271 = !DILocation(line: 0, scope: !2268)
!2272 = !DILocation(line: 775, column: 16, scope: !2273)
!2273 = distinct !DILexicalBlock(scope: !2268, file: !3, line: 775, column: 9)
!2274 = !DILocation(line: 775, column: 27, scope: !2273)
!2275 = !DILocation(line: 775, column: 30, scope: !2273)
!2276 = !DILocation(line: 775, column: 52, scope: !2273)
!2277 = !DILocation(line: 775, column: 9, scope: !2268)
!2278 = !DILocation(line: 777, column: 42, scope: !2268)
!2279 = !DILocation(line: 777, column: 5, scope: !2268)
!2280 = !DILocation(line: 777, column: 47, scope: !2268)
!2281 = !DILocation(line: 778, column: 5, scope: !2268)
!2282 = !DILocation(line: 779, column: 1, scope: !2268)
!2283 = distinct !DISubprogram(name: "trap_fault", scope: !3, file: !3, line: 782, type: !177, scopeLine: 782, flags: DIFlagPrototyped | DIFlagAllCallsDescribed, spFlags: DISPFlagDefinition | DISPFlagOptimized, unit: !2, retainedNodes: !2284)
!2284 = !{!2285}
!2285 = !DILocalVariable(name: "cause", arg: 1, scope: !2283, file: !3, line: 782, type: !42)
!2286 = !DILocation(line: 0, scope: !2283)
!2287 = !DILocation(line: 783, column: 9, scope: !2288)
!2288 = distinct !DILexicalBlock(scope: !2283, file: !3, line: 783, column: 9)
!2289 = !DILocation(line: 783, column: 17, scope: !2288)
!2290 = !DILocation(line: 783, column: 9, scope: !2283)
!2291 = !DILocation(line: 0, scope: !319, inlinedAt: !2292)
!2292 = distinct !DILocation(line: 785, column: 5, scope: !2283)
!2293 = !DILocation(line: 193, column: 5, scope: !319, inlinedAt: !2292)
!2294 = !DILocation(line: 193, column: 25, scope: !319, inlinedAt: !2292)
!2295 = !DILocation(line: 194, column: 5, scope: !319, inlinedAt: !2292)
!2296 = !DILocation(line: 194, column: 26, scope: !319, inlinedAt: !2292)
!2297 = !DILocation(line: 195, column: 5, scope: !319, inlinedAt: !2292)
!2298 = !DILocation(line: 195, column: 24, scope: !319, inlinedAt: !2292)
!2299 = !DILocation(line: 196, column: 13, scope: !319, inlinedAt: !2292)
!2300 = !DILocation(line: 786, column: 5, scope: !2283)
!2301 = !DILocation(line: 787, column: 1, scope: !2283)
