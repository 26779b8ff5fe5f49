#!/bin/sh
# Measures layout and checks of kernel texts, at two sizes each: a function of so many instructions in a fifth as many blocks, whose
# blocks join two by two (100,000 instructions where no number is given, and a quarter of them), and functions that clang wrote, as
# often as fill so many MiB (16, and 4). The program reads, lays out and checks each text; the seconds of processor time of reading
# alone, of a text that the last line keeps from being laid out, are shown beside it.
set -eu
root=$(cd "$(dirname "$0")/.." && pwd)
count=${1:-100000}
size=${2:-16}
program=$root/crates/ir_texts/out/ir_texts
if [ ! -x "$program" ]; then
  mkdir -p "$root/crates/ir_texts/out"
  log=$root/crates/ir_texts/out/build.log
  (cd "$root/crates/ir_texts" && rt run -- >"$log" 2>&1) || true
  if [ ! -x "$program" ]; then
    tail -n 30 "$log" >&2
    exit 70
  fi
fi
work=$(mktemp -d)
trap 'rm -rf "$work"' EXIT

python3 - "$program" "$work" "$root/crates/ir_texts/data" "$count" "$size" <<'TIME'
import os, re, subprocess, sys
program, work, data = sys.argv[1:4]
count, size = int(sys.argv[4]), int(sys.argv[5])

def ladder(instructions):
    """Five instructions a block; each block is led to by the two before it."""
    blocks = instructions // 5
    lines = ['define i32 @f(i32 %a) {', 'b0:', '  %p0 = add i32 %a, 0', '  %c0 = icmp ult i32 %p0, 7', '  %n0 = add i32 %p0, 1',
             '  %s0 = xor i32 %n0, %p0', '  br i1 %c0, label %b1, label %b2',
             'b1:', '  %p1 = phi i32 [ %n0, %b0 ]', '  %c1 = icmp ult i32 %p1, 1', '  %n1 = add i32 %p1, 1', '  %s1 = xor i32 %n1, %p0',
             '  br i1 %c1, label %b2, label %b3']
    for k in range(2, blocks - 2):
        lines += [f'b{k}:', f'  %p{k} = phi i32 [ %n{k - 1}, %b{k - 1} ], [ %n{k - 2}, %b{k - 2} ]', f'  %c{k} = icmp ult i32 %p{k}, {k}',
                  f'  %n{k} = add i32 %p{k}, 1', f'  %s{k} = xor i32 %n{k}, %p0', f'  br i1 %c{k}, label %b{k + 1}, label %b{k + 2}']
    k = blocks - 2
    lines += [f'b{k}:', f'  %p{k} = phi i32 [ %n{k - 1}, %b{k - 1} ], [ %n{k - 2}, %b{k - 2} ]', f'  %n{k} = add i32 %p{k}, 1',
              f'  br label %b{k + 1}',
              f'b{k + 1}:', f'  %p{k + 1} = phi i32 [ %n{k}, %b{k} ], [ %n{k - 1}, %b{k - 1} ]', f'  ret i32 %p{k + 1}', '}']
    return '\n'.join(lines) + '\n'

def copies(mebibytes):
    """The functions of texts that hold, under names of their own."""
    heads, bodies = [], []
    for name in ('table.O0', 'checked.O1', 'counter.O1', 'pick.O0'):
        prefix = name.replace('.', '_')
        text = open(f'{data}/{name}.ll').read()
        text = re.sub(r'(?<=[@%])([A-Za-z][A-Za-z0-9_.]*)', lambda m: m.group(1) if m.group(1).startswith('llvm') else f'{prefix}_{m.group(1)}', text)
        text = re.sub(r'^(attributes|target|source_filename|!).*\n', '', text, flags=re.M)
        body = re.findall(r'^define.*?^}\n', text, flags=re.M | re.S)
        heads.append(re.sub(r'^define.*?^}\n', '', text, flags=re.M | re.S))
        bodies += body
    seen, parts = set(), []
    for head in heads:
        for line in head.split('\n'):
            if line not in seen:
                seen.add(line)
                parts.append(line)
    out, k, length = ['\n'.join(parts) + '\n'], 0, 0
    room = (mebibytes << 20) - 2 * sum(map(len, bodies)) - len(out[0]) - 4096
    while length < room:
        for body in bodies:
            named = re.sub(r'^(define[^@]*@[A-Za-z0-9_.]+)', rf'\g<1>_{k}', body)
            out.append(named)
            length += len(named)
        k += 1
    return ''.join(out)

def used(path):
    process = subprocess.Popen([program, path], stdout=subprocess.PIPE, text=True)
    shown = process.stdout.read()
    _, status, usage = os.wait4(process.pid, 0)
    assert status == 0
    return shown, usage.ru_utime + usage.ru_stime

def measured(title, text):
    path = f'{work}/text.ll'
    open(path, 'w').write(text)
    shown, seconds = used(path)
    assert shown.endswith(': holds\n'), shown
    open(path, 'w').write(text + '@last_line = 0\n')
    read, alone = used(path)
    assert read.rstrip().endswith('K2'), read
    print(f'{title}: {seconds:.2f} s, {alone:.2f} s of them read')

for n in (count // 4, count):
    measured(f'a function of about {n} instructions', ladder(n))
for n in (max(1, size // 4), size):
    measured(f'{n} MiB of functions', copies(n))
TIME
