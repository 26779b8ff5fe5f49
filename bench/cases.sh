#!/bin/sh
# Measures plain evaluation: the search of all cases of a handler, and a quantifier over 2^20 index tuples.
# Prints the user time of each run. The handler has sixteen case bits and ten instructions with a branch; a budget of one clause is spent
# on each of its products, so that all cases are tried. Its specification has 2, 4 or 16 fields, each of them written.
# With a first argument, that program is measured instead of the proved one.
set -eu
root=$(cd "$(dirname "$0")/.." && pwd)
program=${1:-}
if [ -z "$program" ]; then
  program=$(HKV_PROVED=1 "$root/hkv" --program)
fi
work=$(mktemp -d)
trap 'rm -rf "$work"' EXIT

cat >"$work/kernel.ll" <<'KERNEL'
@a = global i8 0
@b = global i8 0
define i32 @mix() {
  %x = load i8, ptr @a
  %y = load i8, ptr @b
  %s = mul i8 %x, %y
  %c = icmp ult i8 %s, 100
  br i1 %c, label %low, label %end
low:
  %t = mul i8 %s, 3
  store i8 %t, ptr @a
  br label %end
end:
  %r = phi i32 [ 0, %low ], [ 1, %0 ]
  ret i32 %r
}
KERNEL

spec() { # spec FIELDS
  python3 - "$1" <<'SPEC'
import sys
more = range(int(sys.argv[1]) - 2)
print('class S:\n    a = Bits(8)\n    b = Bits(8)')
for k in more: print(f'    f{k} = Bits(8)')
print('def equiv(kernel, state):\n    return And(state.a == kernel.a, state.b == kernel.b'
      + ''.join(f', state.f{k} == kernel.a ^ {k}' for k in more) + ')')
print('def mix(state):\n    s = state.a * (state.b * 3)\n    new = state.copy()\n    new.a = s')
for k in more: print(f'    new.f{k} = s ^ {k}')
print('    return ULT(state.b * state.a, 100), new')
SPEC
}

timed() { # timed TITLE WORD..
  title=$1
  shift
  python3 - "$title" "$program" "$@" <<'TIME'
import resource, subprocess, sys
title, *words = sys.argv[1:]
subprocess.run(words, check=True, stdout=subprocess.DEVNULL)
print(f'{title}: {resource.getrusage(resource.RUSAGE_CHILDREN).ru_utime:.2f} s')
TIME
}

for fields in 2 4 16; do
  spec "$fields" >"$work/spec.py"
  timed "all cases of a handler, $fields fields" verify "$work/kernel.ll" "$work/spec.py" --conflicts 1
done

printf '@a = global [1024 x i8] zeroinitializer\ndefine void @keep() {\n  ret void\n}\n' >"$work/kernel.ll"
cat >"$work/spec.py" <<'SPEC'
I = Index(16, 1024)
class S:
    a = Map(I, Bits(8))
def equiv(kernel, state):
    i = Var(I)
    return ForAll([i], state.a(i) == kernel.a[i])
def inv_same(kernel):
    i = Var(I)
    j = Var(I)
    return ForAll([i, j], kernel.a[i] == kernel.a[j])
def keep(state):
    return True, state
SPEC
timed "a quantifier over 2^20 index tuples" verify "$work/kernel.ll" "$work/spec.py"
