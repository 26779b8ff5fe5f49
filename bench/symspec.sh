#!/bin/sh
# Measures specifications as terms: how many nodes a term of a table's entry has behind a transition that writes 1, 10 and 100
# entries of it, how many nodes the terms of the generated workloads of 4, 16 and 64 handlers have, and how long it takes to compare the
# terms of the specifications of `crates/hk_symspec_tests` with evaluation at 10,000 valuations each.
# Usage: bench/symspec.sh [PROGRAM]   (by default the built program of `crates/hk_symspec_tests`, which is proved and built first)
set -eu
root=$(cd "$(dirname "$0")/.." && pwd)
program=${1:-$root/crates/hk_symspec_tests/out/hk_symspec_tests}
if [ ! -x "$program" ]; then
  mkdir -p "$root/crates/hk_symspec_tests/out"
  log=$root/crates/hk_symspec_tests/out/build.log
  (cd "$root/crates/hk_symspec_tests" && rt run -- >"$log" 2>&1) || true
  if [ ! -x "$program" ]; then
    tail -n 30 "$log" >&2
    exit 70
  fi
fi
program=$(realpath "$program")
work=$(mktemp -d)
trap 'rm -rf "$work"' EXIT
cp "$root"/crates/hk_symspec_tests/data/* "$work/"
cd "$work"

python3 - "$program" "$root/crates/hk_symspec_tests/args" <<'RUN'
import re, resource, subprocess, sys
program, args = sys.argv[1:]
PART = re.compile(r"  (.*): (\d+) terms in (\d+) nodes, (\d+) values, (\d+) differ, (\d+) are not 0")

def parts(*words):
    shown = subprocess.run([program, *words], stdout=subprocess.PIPE, text=True, check=True).stdout
    return [(name, *map(int, rest)) for name, *rest in PART.findall(shown)]

with open("table.ll", "w") as file:
    file.write("@t = global [64 x i32] zeroinitializer\ndefine void @h(i32 %a) {\n  ret void\n}\n")
for writes in (1, 10, 100):
    with open("table.py", "w") as file:
        file.write("I = Index(32, 64)\nclass S:\n    t = Map(I, Bits(32))\ndef equiv(kernel, state):\n    p = Var(I)\n"
                   "    return ForAll([p], state.t(p) == kernel.t[p])\ndef h(state, a):\n    new = state.copy()\n")
        file.writelines(f"    new.t[a + {k}] = a ^ {k}\n" for k in range(writes))
        file.write("    return True, new\n")
    for name, terms, nodes, *_ in parts("0", "table.ll table.py"):
        if name == "h field t":
            print(f"{writes} writes: {nodes / terms:.0f} nodes a term")

for size in (4, 16, 64):
    told = parts("0", f"bench {size}")
    terms, nodes = sum(part[1] for part in told), sum(part[2] for part in told)
    print(f"workload of {size} handlers: {len(told)} parts, {terms} terms, {nodes / terms:.0f} nodes a term")

begun = resource.getrusage(resource.RUSAGE_CHILDREN)
lines = open(args).read().split("\n")[1:-1]
told = parts("10000", *lines)
used = resource.getrusage(resource.RUSAGE_CHILDREN)
seconds = used.ru_utime + used.ru_stime - begun.ru_utime - begun.ru_stime
values, differ = sum(part[3] for part in told), sum(part[4] for part in told)
print(f"{len(told)} parts at 10,000 valuations each: {values} values, {differ} differ, {seconds:.1f} s")
RUN
