#!/bin/sh
# Measures the reader of kernel texts on names that were picked against a fixed hash, beside as many plain ones: the seconds of processor
# time that a text with so many globals takes (30,000 where no number is given). The picked names fall into one place of a table with
# 16,384 places under the hash that the kit's tables use, so that a table which looks names up by it would take a time that grows as
# the square of their number. A C compiler picks them.
set -eu
root=$(cd "$(dirname "$0")/.." && pwd)
count=${1:-30000}
program=$root/crates/ir_texts/out/ir_texts
if [ ! -x "$program" ]; then
  mkdir -p "$root/crates/ir_texts/out"
  log=$root/crates/ir_texts/out/build.log
  (cd "$root/crates/ir_texts" && rt run -- >"$log" 2>&1) || true
  if [ ! -x "$program" ]; then
    tail -n 30 "$log" >&2
    exit 70
  fi
fi
work=$(mktemp -d)
trap 'rm -rf "$work"' EXIT

cat >"$work/names.c" <<'PICK'
#include <stdint.h>
#include <stdio.h>
#include <stdlib.h>

static uint64_t fold(uint64_t a, uint64_t b) {
  unsigned __int128 product = (unsigned __int128)a * b;
  return (uint64_t)product ^ (uint64_t)(product >> 64);
}

/* So many names of eight characters, all of one place or, where `any` is not 0, of any. */
int main(int argc, char **argv) {
  static const char letters[] = "abcdefghijklmnopqrstuvwxyzABCDEFGHIJKLMNOPQRSTUVWXYZ0123456789__";
  const uint64_t multiplier = 0x9e3779b97f4a7c15u;
  const uint64_t length = fold(0x243f6a8885a308d3u ^ 8, multiplier ^ 16);
  long wanted = atol(argv[1]);
  int any = argc > 2 && atoi(argv[2]);
  for (uint64_t n = 0; wanted > 0; n++) {
    uint64_t key = n * multiplier >> 16, word = 0;
    char name[9] = {0};
    for (int i = 0; i < 8; i++) {
      name[i] = letters[i == 0 ? key & 31 : key >> (6 * i) & 63];
      word |= (uint64_t)(unsigned char)name[i] << (8 * i);
    }
    if (any || (fold(length ^ word, multiplier ^ 16) & 16383) == 0) {
      puts(name);
      wanted--;
    }
  }
  return 0;
}
PICK
cc -O2 -o "$work/names" "$work/names.c"
for kind in 1 0; do
  "$work/names" "$count" "$kind" | sort -u | sed 's/.*/@& = global i8 0/' >"$work/text$kind.ll"
done

python3 - "$program" "$work" <<'TIME'
import os, subprocess, sys
program, work = sys.argv[1:]

def used(path):
    process = subprocess.Popen([program, path], stdout=subprocess.PIPE, text=True)
    shown = process.stdout.read()
    _, status, usage = os.wait4(process.pid, 0)
    assert status == 0
    return shown, usage.ru_utime + usage.ru_stime

for kind, path in (('plain', f'{work}/text1.ll'), ('picked', f'{work}/text0.ll')):
    count = sum(1 for _ in open(path))
    shown, seconds = used(path)
    assert shown.endswith(f': 0 types, {count} globals, 0 functions, 0 ranges: holds\n'), shown
    print(f'{count} {kind} names: {seconds:.2f} s')
TIME
