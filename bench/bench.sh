#!/bin/sh
# Measures the command `bench`: bench/bench.sh QUESTIONS [PROGRAM]
# QUESTIONS is a file of the questions of `bench 64` for z3, with one check for each obligation. Prints the processor time (user and
# system) of z3 on it beside that of `hkv bench 64`, and the processor time of `hkv bench N` over N for N = 8, 16, 32, 64. Each time is
# the least of three runs. PROGRAM is the program that is measured; where none is given, it is the proved one.
set -eu
root=$(cd "$(dirname "$0")/.." && pwd)
questions=${1:?usage: bench/bench.sh QUESTIONS [PROGRAM]}
program=${2:-}
if [ -z "$program" ]; then program=$(HKV_PROVED=1 "$root/hkv" --program); fi

python3 - "$program" "$questions" <<'TIME'
import os, subprocess, sys
program, questions = sys.argv[1:]


def once(command):
    """Seconds of processor time of one run, and the lines that it prints."""
    child = subprocess.Popen(command, stdout=subprocess.PIPE, stderr=subprocess.DEVNULL, text=True)
    lines = child.stdout.read().split('\n')
    _, status, used = os.wait4(child.pid, 0)
    child.returncode = os.waitstatus_to_exitcode(status)
    return used.ru_utime + used.ru_stime, lines


def least(command):
    runs = [once(command) for _ in range(3)]
    return min(seconds for seconds, _ in runs), runs[0][1]


other, answers = least(['z3', questions])
runs = {n: least([program, 'bench', str(n)]) for n in (8, 16, 32, 64)}
own, counts = runs[64]
print(f'bench 64: z3 {other:.2f} s ({answers.count("sat")} sat, {answers.count("unsat")} unsat), hkv {own:.2f} s ({", ".join(counts[:5])})')
for n, (seconds, _) in runs.items():
    print(f'bench {n}: {seconds:.2f} s, {seconds / n * 1000:.1f} ms a handler')
TIME
