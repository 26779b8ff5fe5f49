#!/usr/bin/env python3
"""Measures symbolic execution: how many terms it makes and how long it takes, for kernels of several shapes, and whether terms and
runs agree from 1,000 random states for the kernels of `crates/hk_exec_tests`.

Usage: bench/execute.py [PROGRAM]   (by default the built program of `crates/hk_exec_tests`, which is proved and built first)

The shapes: the copying of a descriptor among 64 processes of 16 descriptors and 128 files; straight code of 100,000 instructions, a
third of them loads and stores at constant offsets of 64 objects, and the same by calls; 2,000 stores and 2,000 loads at symbolic
offsets of one object, in turn; chains of branches that join, which write on one arm and read behind the join. A time is processor
time (user and system), the least of three runs, less that of reading the text alone.
"""
import os
import resource
import subprocess
import sys
import tempfile

ROOT = os.path.join(os.path.dirname(os.path.abspath(__file__)), "..", "crates", "hk_exec_tests")

DUP = """%struct.proc = type { i32, [16 x i32] }
@current = global i32 0, align 4
@procs = global [64 x %struct.proc] zeroinitializer, align 16
@file_refs = global [128 x i32] zeroinitializer, align 16
define i32 @sys_dup(i32 %0, i32 %1) {
  %3 = load i32, ptr @current, align 4
  %4 = icmp ult i32 %0, 16
  %5 = icmp ult i32 %1, 16
  %6 = and i1 %4, %5
  br i1 %6, label %7, label %27
7:
  %8 = zext i32 %3 to i64
  %9 = zext nneg i32 %0 to i64
  %10 = getelementptr inbounds [64 x %struct.proc], ptr @procs, i64 0, i64 %8, i32 1, i64 %9
  %11 = load i32, ptr %10, align 4
  %12 = add i32 %11, -1
  %13 = icmp ult i32 %12, 128
  br i1 %13, label %14, label %27
14:
  %15 = zext nneg i32 %1 to i64
  %16 = getelementptr inbounds [64 x %struct.proc], ptr @procs, i64 0, i64 %8, i32 1, i64 %15
  %17 = load i32, ptr %16, align 4
  %18 = icmp eq i32 %17, 0
  br i1 %18, label %19, label %27
19:
  store i32 %11, ptr %16, align 4
  %20 = getelementptr inbounds [64 x %struct.proc], ptr @procs, i64 0, i64 %8
  %21 = load i32, ptr %20, align 4
  %22 = add i32 %21, 1
  store i32 %22, ptr %20, align 4
  %23 = zext nneg i32 %12 to i64
  %24 = getelementptr inbounds [128 x i32], ptr @file_refs, i64 0, i64 %23
  %25 = load i32, ptr %24, align 4
  %26 = add i32 %25, 1
  store i32 %26, ptr %24, align 4
  br label %27
27:
  %28 = phi i32 [ 0, %19 ], [ -9, %14 ], [ -9, %7 ], [ -9, %2 ]
  ret i32 %28
}
"""


def objects():
    return [f"@g{k} = global [16 x i32] zeroinitializer, align 4" for k in range(64)]


def block(name, groups, first, parameter):
    """A function of three instructions a group: an address, a load or a store there, and a sum; the last one returns."""
    lines = [f"define i32 @{name}(i32 %{parameter}) {{"]
    last = f"%{parameter}"
    for k in range(groups):
        n = first + k
        lines.append(f"  %p{k} = getelementptr inbounds [16 x i32], ptr @g{n * 7 % 64}, i64 0, i64 {n * 5 % 16}")
        if k % 2:
            lines.append(f"  store i32 {last}, ptr %p{k}, align 4")
            lines.append(f"  %s{k} = add i32 {last}, {n}")
        else:
            lines.append(f"  %v{k} = load i32, ptr %p{k}, align 4")
            lines.append(f"  %s{k} = add i32 {last}, %v{k}")
        last = f"%s{k}"
    return lines + [f"  ret i32 {last}", "}"]


def straight(instructions):
    return objects() + block("straight", (instructions - 1) // 3, 0, "x")


def calls(instructions):
    """Calls of a function of 100 instructions."""
    lines = objects() + block("part", 33, 0, "x") + ["define i32 @calls(i32 %x) {"]
    last = "%x"
    for k in range(instructions // 101):
        lines.append(f"  %r{k} = call i32 @part(i32 {last})")
        last = f"%r{k}"
    return lines + [f"  ret i32 {last}", "}"]


def symbolic(count):
    """Stores and loads in turn, each at an index of its own."""
    lines = ["@table = global [256 x i32] zeroinitializer, align 4", "define i32 @symbolic(i32 %x, i32 %y) {"]
    last = "%y"
    for k in range(count):
        for kind in "sl":
            lines.append(f"  %a{kind}{k} = add i32 %x, {2 * k + (kind == 'l')}")
            lines.append(f"  %b{kind}{k} = and i32 %a{kind}{k}, 255")
            lines.append(f"  %c{kind}{k} = zext i32 %b{kind}{k} to i64")
            lines.append(f"  %p{kind}{k} = getelementptr inbounds [256 x i32], ptr @table, i64 0, i64 %c{kind}{k}")
        lines.append(f"  store i32 {last}, ptr %ps{k}, align 4")
        lines.append(f"  %v{k} = load i32, ptr %pl{k}, align 4")
        lines.append(f"  %s{k} = xor i32 {last}, %v{k}")
        last = f"%s{k}"
    return lines + [f"  ret i32 {last}", "}"]


def diamonds(count):
    """Branches that join: one arm writes one of 64 objects, which is read behind the join."""
    lines = objects() + ["define i32 @diamonds(i32 %x) {", "  br label %h0"]
    last, before = "%x", "%0"
    for k in range(count):
        lines += [
            f"h{k}:", f"  %c{k} = icmp ult i32 {last}, {k + 3}", f"  br i1 %c{k}, label %t{k}, label %j{k}", f"t{k}:",
            f"  %u{k} = add i32 {last}, {k}", f"  store i32 %u{k}, ptr @g{k % 64}, align 4", f"  br label %j{k}", f"j{k}:",
            f"  %q{k} = phi i32 [ {last}, %h{k} ], [ %u{k}, %t{k} ]", f"  %v{k} = load i32, ptr @g{k % 64}, align 4",
            f"  %s{k} = xor i32 %q{k}, %v{k}", f"  br label %h{k + 1}",
        ]
        last = f"%s{k}"
    return lines + [f"h{count}:", f"  ret i32 {last}", "}"]


def used(program, folder, *words):
    best, shown = None, ""
    for _ in range(3):
        before = resource.getrusage(resource.RUSAGE_CHILDREN)
        shown = subprocess.run([program, *words], cwd=folder, check=True, capture_output=True, text=True).stdout
        after = resource.getrusage(resource.RUSAGE_CHILDREN)
        time = after.ru_utime - before.ru_utime + after.ru_stime - before.ru_stime
        best = time if best is None else min(best, time)
    return best, shown


def main():
    program = sys.argv[1] if len(sys.argv) > 1 else os.path.join(ROOT, "out", "hk_exec_tests")
    if len(sys.argv) < 2:
        subprocess.run(["rt", "run"], cwd=ROOT, stdout=subprocess.DEVNULL)
    program = os.path.abspath(program)
    with tempfile.TemporaryDirectory() as folder:
        shapes = [("descriptors", DUP.splitlines()), ("straight", straight(100_000)), ("calls", calls(100_000))]
        shapes += [(f"symbolic{n}", symbolic(n)) for n in (500, 1000, 2000)]
        shapes += [(f"diamonds{n}", diamonds(n)) for n in (250, 500, 1000, 2000)]
        for name, lines in shapes:
            with open(os.path.join(folder, name), "w") as f:
                f.write("\n".join(lines) + "\n")
            read, _ = used(program, folder, "read", name)
            for reads in ("cells", "bytes"):
                time, shown = used(program, folder, reads, name)
                terms = shown.splitlines()[-1].split()[-2] if shown.strip() else "no"
                print(f"{name} over {reads}: {terms} terms, {(time - read) * 1000:.1f} ms", flush=True)
        files = sorted(f for f in os.listdir(os.path.join(ROOT, "data")) if f.endswith(".ll"))
        time, shown = used(program, os.path.join(ROOT, "data"), "1000", *files)
        wrong = [line for line in shown.splitlines() if "agree" not in line]
        print(f"{len(shown.splitlines())} functions from 1,000 states each: {len(wrong)} differ, {time:.1f} s")
        print("\n".join(wrong))
        return 1 if wrong else 0


if __name__ == "__main__":
    sys.exit(main())
