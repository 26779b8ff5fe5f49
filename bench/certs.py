#!/usr/bin/env python3
"""Takes certificates round, and measures them.

usage: certs.py PROGRAM [KERNEL SPEC]..

For 100 generated workloads (each size from 1 to 64, and 36 more whose specification asks for another operation in one handler of
three) and for each pair of files that is named: `verify --cert`, then `check` and `replay` of what was saved. Each accepted handler has
to be checked, and each rejected one not claimed and confirmed. Prints the differences, and the user times and sizes of the largest
workload and of the named files.
"""
import os
import resource
import subprocess
import sys
import tempfile


def workload(n, wrong):
    kernel = ["%struct.proc = type { i32, i32 }", f"@procs = global [{n} x %struct.proc] zeroinitializer, align 4"]
    spec = [f"PidT = Index(32, {n})", "class S:", "    a = Map(PidT, Bits(32))", "    b = Map(PidT, Bits(32))", "def equiv(kernel, state):", "    p = Var(PidT)"]
    spec += ["    return And(ForAll([p], state.a(p) == kernel.procs[p].f0), ForAll([p], state.b(p) == kernel.procs[p].f1))"]
    for k in range(n):
        test, field = "ule" if k % 4 == 3 else "ult", k % 2
        op, sign, name = ("add", "xor", "sub")[k % 3], "+^-"[(k + (wrong and k % 3 == 1)) % 3], "ab"[field]
        kernel += [f"define i32 @s{k}(i32 %pid, i32 %x) {{", f"  %c = icmp {test} i32 %pid, {n}", "  br i1 %c, label %ok, label %bad", "ok:"]
        kernel += ["  %i = zext i32 %pid to i64", f"  %p = getelementptr inbounds [{n} x %struct.proc], ptr @procs, i64 0, i64 %i, i32 {field}"]
        kernel += ["  %v = load i32, ptr %p, align 4", f"  %w = {op} i32 %v, %x", "  store i32 %w, ptr %p, align 4", "  ret i32 0", "bad:", "  ret i32 -1", "}"]
        spec += [f"def s{k}(state, pid, x):", "    new = state.copy()", f"    new.{name}[pid] = state.{name}(pid) {sign} x", f"    return ULT(pid, {n}), new"]
    return "\n".join(kernel) + "\n", "\n".join(spec) + "\n"


def timed(*words):
    before = resource.getrusage(resource.RUSAGE_CHILDREN).ru_utime
    ran = subprocess.run(words, capture_output=True, text=True)
    return ran, resource.getrusage(resource.RUSAGE_CHILDREN).ru_utime - before


def handlers(ran, word):
    return [it[len(word) :].split(" ")[0] for it in ran.stdout.split("\n") if it.startswith(word)]


def main(program, *files):
    program, differ, seen = os.path.abspath(program), 0, [0, 0]
    files = [os.path.abspath(it) for it in files]
    with tempfile.TemporaryDirectory() as room:
        os.chdir(room)
        cases = [(f"workload of {n}", *workload(n, False)) for n in range(1, 65)] + [(f"other workload of {n}", *workload(n, True)) for n in range(5, 41)]
        for kernel, spec in zip(files[::2], files[1::2]):
            with open(kernel) as one, open(spec) as two:
                cases.append((os.path.basename(kernel), one.read(), two.read()))
        for title, kernel, spec in cases:
            with open("k", "w") as one, open("s", "w") as two:
                one.write(kernel)
                two.write(spec)
            _, alone = timed(program, "verify", "k", "s")
            told, with_cert = timed(program, "verify", "k", "s", "--cert", "c")
            checked, check = timed(program, "check", "k", "s", "c")
            replayed, replay = timed(program, "replay", "k", "s", "c")
            accepted, rejected = handlers(told, "accept "), handlers(told, "reject ")
            seen = [seen[0] + len(accepted), seen[1] + len(rejected)]
            if handlers(checked, "checked ") != accepted or handlers(checked, "not claimed ") != rejected or handlers(replayed, "confirmed ") != rejected or replayed.returncode:
                differ += 1
                print(f"{title}: differs")
            if title == "workload of 64" or "workload" not in title:
                print(f"{title}: verify {alone:.2f} s, with a certificate {with_cert:.2f} s, {os.path.getsize('c'):,} bytes; check {check:.2f} s, replay {replay:.2f} s")
        print(f"{len(cases)} certificates, {seen[0]} acceptances checked, {seen[1]} rejections confirmed, {differ} differ")


main(*sys.argv[1:])
