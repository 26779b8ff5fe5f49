#!/bin/sh
# Measures symbolic execution on constants that were picked against a fixed hash, beside as many plain ones: the seconds of processor
# time that a function with so many constants of 64 bits takes (30,000 where no number is given). Terms are looked up by the hash that the
# kit's tables use; the picked constants begin their search at one place of a table with 32,768 groups of places, so that its time grows
# as the square of their number. A C compiler picks them.
#
# Usage: bench/constants.sh [COUNT [PROGRAM]]   (by default the built program of `crates/hk_exec_tests`, which is proved and built first)
set -eu
root=$(cd "$(dirname "$0")/.." && pwd)
count=${1:-30000}
program=${2:-$root/crates/hk_exec_tests/out/hk_exec_tests}
if [ ! -x "$program" ]; then
  mkdir -p "$root/crates/hk_exec_tests/out"
  log=$root/crates/hk_exec_tests/out/build.log
  (cd "$root/crates/hk_exec_tests" && rt run >"$log" 2>&1) || true
  if [ ! -x "$program" ]; then
    tail -n 30 "$log" >&2
    exit 70
  fi
fi
work=$(mktemp -d)
trap 'rm -rf "$work"' EXIT

cat >"$work/constants.c" <<'PICK'
#include <stdint.h>
#include <stdio.h>
#include <stdlib.h>

static uint64_t fold(uint64_t a, uint64_t b) {
  unsigned __int128 product = (unsigned __int128)a * b;
  return (uint64_t)product ^ (uint64_t)(product >> 64);
}

/* A function with so many constants, all of one place or, where `any` is not 0, of any: a term of a number feeds the hash the place of
   its kind, its width and its value. */
int main(int argc, char **argv) {
  const uint64_t multiplier = 0x9e3779b97f4a7c15u;
  const uint64_t kind = fold(0x243f6a8885a308d3u, multiplier ^ 16);
  const uint64_t width = fold(kind ^ (64 | (uint64_t)64 << 32), multiplier ^ 8);
  long wanted = atol(argv[1]), made = 0;
  int any = argc > 2 && atoi(argv[2]);
  puts("define i64 @picked(i64 %x0) {");
  for (uint64_t n = 1; made < wanted; n++) {
    uint64_t value = n * multiplier, hash = fold(width ^ value, multiplier ^ 16);
    if (any || ((hash ^ hash >> 32) & 32767) == 0) {
      printf("  %%x%ld = %s i64 %%x%ld, %lu\n", made + 1, made % 2 ? "xor" : "add", made, value);
      made++;
    }
  }
  printf("  ret i64 %%x%ld\n}\n", made);
}
PICK
cc -O2 -o "$work/constants" "$work/constants.c"
for kind in 1 0; do "$work/constants" "$count" "$kind" >"$work/text$kind.ll"; done

python3 - "$program" "$work" <<'TIME'
import os, subprocess, sys
program, work = sys.argv[1:]
for kind, name in ((1, "plain"), (0, "picked")):
    process = subprocess.Popen([program, "cells", f"text{kind}.ll"], cwd=work, stdout=subprocess.PIPE)
    shown = process.stdout.read().decode().split()
    _, status, usage = os.wait4(process.pid, 0)
    assert status == 0, status
    print(f"{name} constants: {usage.ru_utime:.2f} s, {shown[-2]} terms")
TIME
