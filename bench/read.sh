#!/bin/sh
# Measures the reader of whole kernel texts: megabytes a second from bytes to module, and the peak memory as a multiple of
# the bytes. The texts are one kernel as clang writes it, repeated under other names, of 4 MiB and of 16 MiB. Their last line is one of no
# production, so that they are read up to it and not laid out or checked.
set -eu
root=$(cd "$(dirname "$0")/.." && pwd)
program=$root/crates/ir_texts/out/ir_texts
if [ ! -x "$program" ]; then
  mkdir -p "$root/crates/ir_texts/out"
  log=$root/crates/ir_texts/out/build.log
  (cd "$root/crates/ir_texts" && rt run -- >"$log" 2>&1) || true
  if [ ! -x "$program" ]; then
    tail -n 30 "$log" >&2
    exit 70
  fi
fi
work=$(mktemp -d)
trap 'rm -rf "$work"' EXIT

cat >"$work/kernel.ll" <<'KERNEL'
%struct.proc = type { i32, [4 x i32] }

@current = dso_local local_unnamed_addr global i32 0, align 4
@procs = dso_local local_unnamed_addr global [4 x %struct.proc] zeroinitializer, align 16
@file_refs = dso_local local_unnamed_addr global [4 x i32] zeroinitializer, align 16

define dso_local i32 @sys_dup(i32 noundef %0, i32 noundef %1) local_unnamed_addr #0 {
  %3 = load i32, ptr @current, align 4, !tbaa !5
  %4 = icmp ult i32 %0, 4
  %5 = icmp ult i32 %1, 4
  %6 = and i1 %4, %5
  br i1 %6, label %7, label %27

7:                                                ; preds = %2
  %8 = zext i32 %3 to i64
  %9 = zext nneg i32 %0 to i64
  %10 = getelementptr inbounds [4 x %struct.proc], ptr @procs, i64 0, i64 %8, i32 1, i64 %9
  %11 = load i32, ptr %10, align 4, !tbaa !5
  %12 = add i32 %11, -1
  %13 = icmp ult i32 %12, 4
  br i1 %13, label %14, label %27

14:                                               ; preds = %7
  %15 = zext nneg i32 %1 to i64
  %16 = getelementptr inbounds [4 x %struct.proc], ptr @procs, i64 0, i64 %8, i32 1, i64 %15
  %17 = load i32, ptr %16, align 4, !tbaa !5
  %18 = icmp eq i32 %17, 0
  br i1 %18, label %19, label %27

19:                                               ; preds = %14
  store i32 %11, ptr %16, align 4, !tbaa !5
  %20 = getelementptr inbounds [4 x %struct.proc], ptr @procs, i64 0, i64 %8
  %21 = load i32, ptr %20, align 4, !tbaa !5
  %22 = add i32 %21, 1
  store i32 %22, ptr %20, align 4, !tbaa !5
  %23 = zext nneg i32 %12 to i64
  %24 = getelementptr inbounds [4 x i32], ptr @file_refs, i64 0, i64 %23
  %25 = load i32, ptr %24, align 4, !tbaa !5
  %26 = add i32 %25, 1
  store i32 %26, ptr %24, align 4, !tbaa !5
  br label %27

27:                                               ; preds = %19, %14, %7, %2
  %28 = phi i32 [ 0, %19 ], [ -9, %14 ], [ -9, %7 ], [ -9, %2 ]
  ret i32 %28
}
KERNEL

python3 - "$program" "$work" <<'TIME'
import os, subprocess, sys
program, work = sys.argv[1:]
kernel = open(f'{work}/kernel.ll').read() + '\n'
names = ['%struct.proc', '@current', '@procs', '@file_refs', '@sys_dup']

def text_of(size):
    parts, length = [], 0
    while True:
        part = kernel
        for name in names:
            part = part.replace(name, f'{name}_{len(parts)}')
        if length + len(part) > size:
            return ''.join(parts), len(parts)
        parts.append(part)
        length += len(part)

def used(path):
    process = subprocess.Popen([program, path], stdout=subprocess.PIPE, text=True)
    shown = process.stdout.read()
    _, status, usage = os.wait4(process.pid, 0)
    assert status == 0
    return shown, usage.ru_utime + usage.ru_stime, usage.ru_maxrss * 1024

open(f'{work}/empty.ll', 'w').close()
for size in (1 << 22, 1 << 24):
    text, copies = text_of(size)
    path = f'{work}/text.ll'
    with open(path, 'w') as out:
        out.write(text + '@last = 0\n')
    _, base, _ = used(f'{work}/empty.ll')
    best, peak = None, 0
    for _ in range(3):
        shown, whole, peak = used(path)
        assert shown.endswith(': K2\n'), shown
        best = whole - base if best is None else min(best, whole - base)
    print(f'{len(text) / 2**20:.1f} MiB, {copies} functions: {len(text) / 1e6 / best:.1f} MB a second, peak {peak / len(text):.1f} times the bytes')
TIME
