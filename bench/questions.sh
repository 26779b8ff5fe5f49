#!/bin/sh
# Measures z3 beside the whole program: FOLDER_OF_QUESTIONS FOLDER_OF_TEXTS.
# The second folder has a kernel NAME.ll and its specification NAME.py for each name. The first one has what z3 is asked for that
# name: NAME.smt2, which may ask several times, or one file NAME-HANDLER-OBLIGATION.smt2 for each obligation ("sat": some case
# violates it). Where the first folder has a file benchN.smt2, the two texts of the generated workload of size N
# (docs/FORMATS.md) are written if they are not in the second folder.
# Prints for each name z3's processor time (user and system) summed over its files, beside that of one run of `hkv verify`, each
# with the start of the program and each the least of three runs; the greatest resident memory of both; and whether the answers
# agree: as many obligations that some case violates as z3 has "sat", or at least one where the handler is rejected at the first.
set -eu
root=$(cd "$(dirname "$0")/.." && pwd)
if [ $# -ne 2 ]; then
  echo "usage: $0 FOLDER_OF_QUESTIONS FOLDER_OF_TEXTS" >&2
  exit 64
fi
work=$(mktemp -d)
trap 'rm -rf "$work"' EXIT
program=$(HKV_PROVED=1 "$root/hkv" --program)

python3 - "$program" "$1" "$2" "$work" <<'RUNS'
import glob, os, re, shutil, subprocess, sys
program, questions, texts, work = sys.argv[1:]


def used(command):
    """Output, seconds of processor time, and the greatest resident memory in MiB: of the run with the least time of five."""
    best = None
    for _ in range(5):
        with open(f'{work}/out', 'w+') as out:
            child = subprocess.Popen(command, stdout=out, stderr=subprocess.DEVNULL)
            _, _, usage = os.wait4(child.pid, 0)
            out.seek(0)
            each = out.read(), usage.ru_utime + usage.ru_stime, usage.ru_maxrss / 1024
        if best is None or each[1] < best[1]:
            best = each
    return best


def workload(size):
    """The kernel and the specification of the generated workload."""
    kernel = ['%struct.proc = type { i32, i32 }', f'@procs = global [{size} x %struct.proc] zeroinitializer, align 4']
    spec = [
        f'PidT = Index(32, {size})', 'class S:', '    a = Map(PidT, Bits(32))', '    b = Map(PidT, Bits(32))',
        'def equiv(kernel, state):', '    p = Var(PidT)',
        '    return And(ForAll([p], state.a(p) == kernel.procs[p].f0), ForAll([p], state.b(p) == kernel.procs[p].f1))',
    ]
    for k in range(size):
        word, sign = [('add', '+'), ('xor', '^'), ('sub', '-')][k % 3]
        field = 'ab'[k % 2]
        kernel += [
            f'define i32 @s{k}(i32 %pid, i32 %x) {{', f'  %c = icmp {"ule" if k % 4 == 3 else "ult"} i32 %pid, {size}',
            '  br i1 %c, label %ok, label %bad', 'ok:', '  %i = zext i32 %pid to i64',
            f'  %p = getelementptr inbounds [{size} x %struct.proc], ptr @procs, i64 0, i64 %i, i32 {k % 2}',
            '  %v = load i32, ptr %p, align 4', f'  %w = {word} i32 %v, %x', '  store i32 %w, ptr %p, align 4',
            '  ret i32 0', 'bad:', '  ret i32 -1', '}',
        ]
        spec += [
            f'def s{k}(state, pid, x):', '    new = state.copy()', f'    new.{field}[pid] = state.{field}(pid) {sign} x',
            f'    return ULT(pid, {size}), new',
        ]
    return ''.join(f'{line}\n' for line in kernel), ''.join(f'{line}\n' for line in spec)


def pair(name):
    """The kernel and the specification of a name, as paths."""
    paths = [os.path.join(texts, name + end) for end in ('.ll', '.py')]
    size = re.fullmatch(r'bench(\d+)', name)
    if all(map(os.path.exists, paths)) or not size:
        return paths
    paths = [f'{work}/{name}.ll', f'{work}/{name}.py']
    for path, text in zip(paths, workload(int(size.group(1)))):
        with open(path, 'w') as file:
            file.write(text)
    return paths


def is_agreed(lines, answers):
    """Whether the verdicts of handlers and z3's answers can both be right: each handler's rejection is one "sat" or more."""
    rejected = sum(line.startswith('reject ') for line in lines)
    accepted = sum(line.startswith('accept ') for line in lines)
    if answers.count('unknown') or rejected + accepted + 1 < sum(not line.startswith(' ') for line in lines):
        return 'not decided'
    return 'agreed' if bool(rejected) == ('sat' in answers) and rejected <= answers.count('sat') else 'DIFFERENT'


names = {os.path.basename(path)[:-3] for path in glob.glob(os.path.join(texts, '*.ll'))}
names |= {os.path.basename(path)[:-5] for path in glob.glob(os.path.join(questions, 'bench*.smt2'))}
for name in sorted(names, key=lambda n: [int(part) if part.isdigit() else part for part in re.split(r'(\d+)', n)]):
    files = sorted(glob.glob(os.path.join(questions, f'{name}.smt2')) + glob.glob(os.path.join(questions, f'{name}-*.smt2')))
    if not files:
        continue
    kernel, spec = pair(name)
    output, seconds, memory = used([program, 'verify', kernel, spec])
    lines = output.splitlines()
    rejected = sum(line.startswith('reject ') for line in lines)
    handlers = sum(line.split(' ')[0] in ('accept', 'reject', 'unknown', 'memory') for line in lines)
    print(f'{name}: {handlers} handlers, {rejected} rejected; hkv {seconds:.3f} s, {memory:.1f} MiB', end='', flush=True)
    if not shutil.which('z3'):
        print()
        continue
    asked = [used(['z3', path]) for path in files]
    answers = [answer for each in asked for answer in each[0].split() if answer in ('sat', 'unsat', 'unknown')]
    total, most = sum(each[1] for each in asked), max(each[2] for each in asked)
    print(f'; z3 {total:.3f} s, {most:.1f} MiB, {len(files)} files, {len(answers)} answers; {is_agreed(lines, answers)}; hkv takes {seconds / total:.2f} times as long', flush=True)
RUNS
