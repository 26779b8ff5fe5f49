#!/bin/sh
# Measures the processor time of deciding handlers of sixteen case bits, which have three obligations.
# Prints, for handlers of several lengths over two globals, the user time of a run, the mean of ten.
set -eu
root=$(cd "$(dirname "$0")/.." && pwd)
work=$(mktemp -d)
trap 'rm -rf "$work"' EXIT
program=$(HKV_PROVED=1 "$root/hkv" --program)

cat >"$work/spec.py" <<'SPEC'
class S:
    a = Bits(8)
    b = Bits(8)
def equiv(kernel, state):
    return And(state.a == kernel.a, state.b == kernel.b)
def mix(state):
    new = state.copy()
    new.a = state.a + state.b
    return True, new
SPEC

kernel() { # kernel EXTRA: the handler with so many additions of 0 more
  printf '@a = global i8 0\n@b = global i8 0\ndefine void @mix() {\n  %%x = load i8, ptr @a\n  %%y = load i8, ptr @b\n  %%s0 = add i8 %%x, %%y\n'
  k=0
  while [ "$k" -lt "$1" ]; do
    printf '  %%s%d = add i8 %%s%d, 0\n' $((k + 1)) "$k"
    k=$((k + 1))
  done
  printf '  store i8 %%s%d, ptr @a\n  ret void\n}\n' "$1"
}

for extra in 0 8 64; do
  kernel "$extra" >"$work/kernel.ll"
  python3 - "$program" "$work/kernel.ll" "$work/spec.py" "$extra" <<'TIME'
import resource, subprocess, sys
program, kernel, spec, extra = sys.argv[1:]
for _ in range(10):
    subprocess.run([program, 'verify', kernel, spec], check=True, stdout=subprocess.DEVNULL)
used = resource.getrusage(resource.RUSAGE_CHILDREN).ru_utime / 10
print(f'{int(extra) + 4} instructions, 2 fields: {used * 1000:.1f} ms a run (three obligations)')
TIME
done
