#!/bin/sh
# Measures the clause-learning solver beside `minisat -no-pre` and `cadical --plain`, where they are installed: random lists with
# three literals a clause (4.26 clauses a variable), pigeonholes, equivalence of multipliers and of adders, a list of over
# 100,000 clauses, and each clause file of a folder that is given. Prints for each list the answer, the conflicts and the
# seconds of user time of each program, and the peak of memory of this one, less what it has before it reads; and, where
# the answer has a log, the bytes of it for each given and learned literal, without the list that is handed in (8 bytes a literal
# and 8 a clause) and without the hints (8 bytes each); then the sums.
# The program that reads a clause file and solves it is built in a folder of its own, over the crates as they stand.
set -eu
root=$(cd "$(dirname "$0")/.." && pwd)
folder=${1:-}
work=$(mktemp -d)
trap 'rm -rf "$work"' EXIT

mkdir -p "$work/crates/solve_list/src"
for name in hk_cnf hk_lrat hk_cdcl; do
  mkdir "$work/crates/$name"
  for part in src specs proofs out; do
    if [ -d "$root/crates/$name/$part" ]; then cp -r "$root/crates/$name/$part" "$work/crates/$name/"; fi
  done
done
cat >"$work/crates.txt" <<'CRATES'
hk_cnf: indexmap itoa thiserror
hk_lrat: hk_cnf memchr thiserror
hk_cdcl: hk_cnf hk_lrat
solve_list: hk_cnf hk_cdcl hk_lrat
CRATES
cat >"$work/crates/solve_list/src/main.rt" <<'MAIN'
//! Reads a clause file, solves it and prints the answer.
#![tactic(auto)]

use hk_cdcl::{SolveEnd, solve};
use hk_cnf::{ClauseList, read_dimacs};
use hk_lrat::{LratLog, LratRow};
use std::alloc::{AllocError, Global};
use std::io::{self, Read};

/// The rows of a log, and the hints in them.
fn sizes(alloc: Global, log: &LratLog) -> Result<String, AllocError> {
    let mut hints: u64 = 0;
    let mut literals: u64 = 0;
    for row in log.as_slice() {
        if let LratRow::Add { clause, hints: ids, .. } = row {
            hints = hints.saturating_add(ids.as_slice().len() as u64);
            literals = literals.saturating_add(clause.as_slice().len() as u64);
        }
    }
    format!(in alloc; "{} {literals} {hints}", log.len())
}

/// What the list comes to, in words.
fn answer(alloc: Global, list: &ClauseList) -> Result<String, AllocError> {
    match solve(alloc, list, 100_000_000)? {
        SolveEnd::Sat(_) => String::from_str(alloc, "sat 0 0 0"),
        SolveEnd::Unsat(log) => format!(in alloc; "unsat {}", sizes(alloc, &log)?),
        SolveEnd::Spent(log) => format!(in alloc; "spent {}", sizes(alloc, &log)?),
    }
}

/// The same of a clause file, which is let go once it is read.
fn answer_to(alloc: Global, file: Vec<u8>) -> Result<String, AllocError> {
    if file.len() >= 1_000_000_000 {
        return String::from_str(alloc, "long 0 0 0");
    }
    let read = read_dimacs(alloc, file.as_slice());
    drop(file);
    match read {
        Ok(list) => answer(alloc, &list),
        Err(_) => String::from_str(alloc, "no-list 0 0 0"),
    }
}

fn main(rt: HostRuntime) -> io::Result<()> {
    let mut file = Vec::new(rt.alloc());
    rt.reader().read_to_end(&mut file)?;
    let text = answer_to(rt.alloc(), file)?;
    println!(rt; "{text}")?;
    Ok(())
}
MAIN
(cd "$work/crates/solve_list" && printf 'p cnf 1 1\n1 0\n' | rt run >"$work/log" 2>&1) || { cat "$work/log"; exit 1; }

python3 - "$work/crates/solve_list/out/solve_list" "$work" "$folder" <<'RUNS'
import os, random, re, resource, shutil, subprocess, sys, time
program, work, folder = sys.argv[1:4]


def pigeons(holes):
    place = lambda i, j: i * holes + j + 1
    clauses = [[place(i, j) for j in range(holes)] for i in range(holes + 1)]
    for j in range(holes):
        for i in range(holes + 1):
            clauses += [[-place(i, j), -place(k, j)] for k in range(i + 1, holes + 1)]
    return (holes + 1) * holes, clauses


def threes(variables, ratio, seed, first=0):
    draw = random.Random(seed)
    clauses = []
    for _ in range(round(ratio * variables)):
        chosen = draw.sample(range(first + 1, first + variables + 1), 3)
        clauses.append([v if draw.random() < 0.5 else -v for v in chosen])
    return first + variables, clauses


class Net:
    """Gates as clauses: `and` gates and negation, shared where they stand twice."""

    def __init__(self):
        self.count, self.clauses, self.gates = 0, [], {}
        self.true = self.variable()
        self.clauses.append([self.true])

    def variable(self):
        self.count += 1
        return self.count

    def word(self, width):
        return [self.variable() for _ in range(width)]

    def both(self, a, b):
        key = (min(a, b), max(a, b))
        if key not in self.gates:
            out = self.gates[key] = self.variable()
            self.clauses += [[-out, a], [-out, b], [out, -a, -b]]
        return self.gates[key]

    def either(self, a, b):
        return -self.both(-a, -b)

    def differs(self, a, b):
        return self.either(self.both(a, -b), self.both(-a, b))

    def add(self, a, b):
        carry, out = -self.true, []
        for x, y in zip(a, b):
            half = self.differs(x, y)
            out.append(self.differs(half, carry))
            carry = self.either(self.both(x, y), self.both(half, carry))
        return out

    def multiply(self, a, b):
        width, zero = 2 * len(a), -self.true
        sum = [zero] * width
        for i, y in enumerate(b):
            sum = self.add(sum, [zero] * i + [self.both(x, y) for x in a] + [zero] * (width - i - len(a)))
        return sum

    def unequal(self, a, b):
        self.clauses.append([self.differs(x, y) for x, y in zip(a, b)])
        return self.count, self.clauses


def multipliers(width):
    net = Net()
    a, b = net.word(width), net.word(width)
    return net.unequal(net.multiply(a, b), net.multiply(b, a))


def adders(width):
    net = Net()
    a, b, c = net.word(width), net.word(width), net.word(width)
    return net.unequal(net.add(net.add(a, b), c), net.add(a, net.add(b, c)))


def large():
    count, clauses = 0, []
    for seed in range(160):
        count, more = threes(200, 3.3, 1000 + seed, count)
        clauses += more
    return count, clauses


def write(name, variables, clauses):
    path = f'{work}/{name}.cnf'
    with open(path, 'w') as file:
        file.write(f'p cnf {variables} {len(clauses)}\n')
        file.writelines(' '.join(map(str, clause)) + ' 0\n' for clause in clauses)
    return path


def peak(pid):
    """The peak of memory so far, in KiB, as the system tells it while the process runs."""
    try:
        with open(f'/proc/{pid}/status') as status:
            return max([int(line.split()[1]) for line in status if line.startswith('VmHWM')] + [0])
    except OSError:
        return 0


def started(command):
    """What the program takes before it reads its list, in KiB."""
    with subprocess.Popen(command, stdin=subprocess.PIPE, stdout=subprocess.DEVNULL) as child:
        time.sleep(0.2)
        return peak(child.pid)


def timed(command, path):
    """Output, seconds of user time, and the peak of memory in KiB; None where it takes over two minutes."""
    most = 0
    with open(path) as file, open(f'{work}/out', 'w+') as out:
        child = subprocess.Popen(command, stdin=file, stdout=out, stderr=subprocess.DEVNULL)
        end = time.time() + 120
        while True:
            most = max(most, peak(child.pid))
            pid, _, used = os.wait4(child.pid, os.WNOHANG)
            if pid:
                break
            if time.time() > end:
                child.kill()
                os.wait4(child.pid, 0)
                return None
            time.sleep(0.002)
        out.seek(0)
        return out.read(), used.ru_utime, most


def other(command, pattern, path):
    if not shutil.which(command[0]):
        return None
    done = timed(command + [path], path)
    if done is None:
        return None
    found = re.search(pattern, done[0])
    return done[1], found.group(1) if found else '?'


lists = []
for seed in (1, 2, 3):
    lists.append((f'three150-{seed}', *threes(150, 4.26, seed)))
for seed in (1, 2, 3):
    lists.append((f'three200-{seed}', *threes(200, 4.26, seed)))
for holes in (7, 8):
    lists.append((f'pigeons-{holes}', *pigeons(holes)))
lists += [('multipliers-6', *multipliers(6)), ('adders-32', *adders(32)), ('large', *large())]
paths = [write(*each) for each in lists]
if folder:
    paths += sorted(os.path.join(folder, name) for name in os.listdir(folder) if name.endswith('.cnf'))
free = [write('three250-1', *threes(250, 4.26, 1)), write('pigeons-9', *pigeons(9)), write('multipliers-8', *multipliers(8))]
if os.environ.get('WITHOUT_AIM'):
    paths += free

own, mini = 0.0, 0.0
least = started([program])
for path in paths:
    name = os.path.basename(path)
    sizes = [len(line.split()) - 1 for line in open(path) if line[0] not in 'cp']
    literals = sum(sizes)
    minisat = other(['minisat', '-no-pre'], r'conflicts\s*:\s*(\d+)', path)
    cadical = other(['cadical', '--plain'], r'conflicts:\s*(\d+)', path)
    done = timed([program], path)
    show = lambda each: 'over 120 s' if each is None else f'{each[0]:.2f} s ({each[1]})'
    if done is None:
        print(f'{name}: over 120 s; minisat {show(minisat)}, cadical {show(cadical)}', flush=True)
        continue
    word, rows, learned, hints = done[0].split()
    taken = 1024 * max(done[2] - least, 0)
    own_part = taken - 8 * (int(hints) + literals + len(sizes))
    each = f', {own_part / (literals + int(learned)):.0f} bytes a literal' if int(rows) else ''
    print(f'{name}: {word}, {done[1]:.2f} s, {rows} rows with {learned} literals and {hints} hints, {taken / 2**20:.1f} MiB for {literals} given literals{each}; minisat {show(minisat)}, cadical {show(cadical)}', flush=True)
    if minisat:
        own, mini = own + done[1], mini + minisat[0]
print(f'sum: {own:.2f} s; minisat {mini:.2f} s')
RUNS
