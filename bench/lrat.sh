#!/bin/sh
# Measures `hkv lrat` on proofs of a chain of implications: rows of ten hints, over a clause file of 10,000 clauses. Prints
# for each size the time of a token of the proof, reading and checking together, that of a hint, megabytes a second, and
# the peak of memory as a multiple of the bytes of both files. Then clause files whose header states 10^9 variables, which occur
# or do not, and one of one-literal clauses: their time, and the peak of memory above that of the smallest such file.
set -eu
root=$(cd "$(dirname "$0")/.." && pwd)
work=$(mktemp -d)
trap 'rm -rf "$work"' EXIT
program=$(HKV_PROVED=1 "$root/hkv" --program)

python3 - "$program" "$work" <<'RUN'
import os, resource, subprocess, sys, time

program, work = sys.argv[1:]
LINKS = 10_000
STEP = 10


def write_list(path):
    with open(path, 'w') as out:
        out.write(f'p cnf {LINKS + 1} {LINKS + 2}\n1 0\n')
        out.writelines(f'-{k} {k + 1} 0\n' for k in range(1, LINKS + 1))
        out.write(f'-{LINKS + 1} 0\n')


def write_proof(path, rows):
    tokens = hints = 0
    with open(path, 'w') as out:
        for row in range(rows):
            first = (row * STEP) % (LINKS - STEP) + 1
            chain = ' '.join(str(first + 1 + k) for k in range(STEP))
            out.write(f'{LINKS + 3 + row} -{first} {first + STEP} 0 {chain} 0\n')
            tokens += STEP + 5
            hints += STEP
        chain = ' '.join(str(k) for k in range(1, LINKS + 3))
        out.write(f'{LINKS + 3 + rows} 0 {chain} 0\n')
    return tokens + LINKS + 5, hints + LINKS + 2


def run(cnf, proof):
    child = subprocess.Popen([program, 'lrat', cnf, proof], stdout=subprocess.PIPE)
    said = child.stdout.read()
    _, status, usage = os.wait4(child.pid, 0)
    assert said == b'refuted\n' and status == 0, (said, status)
    return usage.ru_utime + usage.ru_stime, usage.ru_maxrss * 1024


cnf = os.path.join(work, 'chain.cnf')
proof = os.path.join(work, 'chain.lrat')
write_list(cnf)
for rows in (100_000, 1_000_000):
    tokens, hints = write_proof(proof, rows)
    used, peak = min(run(cnf, proof) for _ in range(3))
    size = os.path.getsize(proof)
    both = size + os.path.getsize(cnf)
    print(f'{hints} hints, {size / 1e6:.1f} MB: {used * 1e9 / tokens:.1f} ns a token, {used * 1e9 / hints:.1f} ns a hint, '
          f'{size / 1e6 / used:.0f} MB/s, peak memory {peak / both:.1f} times the bytes')


def spare(clauses, proof_text):
    with open(cnf, 'w') as out:
        out.write(f'p cnf 1000000000 {len(clauses)}\n')
        out.writelines(f'{clause} 0\n' for clause in clauses)
    with open(proof, 'w') as out:
        out.write(proof_text)
    used, peak = min(run(cnf, proof) for _ in range(3))
    return used, peak, os.path.getsize(cnf) + os.path.getsize(proof)


MANY = 1_000_000
_, least, _ = spare(['5', '-5'], '3 0 1 2 0\n')
for name, clauses in (
    ('two clauses of the last variable', ['1000000000', '-1000000000']),
    ('one-literal clauses of great variables', [str(999_000_000 + k) for k in range(MANY)] + ['-999000000']),
    ('one-literal clauses of small variables', [str(k % 9 + 1) for k in range(MANY)] + ['-1']),
):
    contrary = f'{len(clauses) + 1} 0 1 {len(clauses)} 0\n'
    used, peak, size = spare(clauses, contrary)
    print(f'{name}: {size} bytes, {used:.2f} s, {(peak - least) / 1e6:.1f} MB more, {(peak - least) / size:.1f} a byte')
RUN
