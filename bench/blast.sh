#!/bin/sh
# Measures circuits of terms: the processor time, the clauses and the memory of blasting 10,000 additions and 20
# multiplications of 64 bits, each of the result before and a variable. Writes two questions over two variables of 8 bits as
# DIMACS files into the folder that is given, if one is: distribute.cnf says x * (y + 1) and x * y + x differ, which no
# assignment satisfies, and exchange.cnf says x * (y + 1) and x * y + y differ, which some do.
# Builds a program of its own over copies of the crates, in a folder that it removes.
set -eu
root=$(cd "$(dirname "$0")/.." && pwd)
into=${1:-}
work=$(mktemp -d)
trap 'rm -rf "$work"' EXIT
mkdir -p "$work/crates/blast_bench/src" "$work/crates/blast_bench/specs" "$work/crates/blast_bench/proofs/chain" "$work/crates/blast_bench/proofs/question"
for crate in hk_num hk_term hk_cnf hk_circuit hk_blast; do
  mkdir "$work/crates/$crate"
  (cd "$root/crates/$crate" && cp -r src specs proofs "$work/crates/$crate/")
done
cat >"$work/crates.txt" <<'CRATES'
hk_num:
hk_term: hk_num indexmap
hk_cnf: indexmap itoa thiserror
hk_circuit: hk_cnf hk_num hk_term
hk_blast: hk_cnf hk_num hk_term hk_circuit indexmap
blast_bench: hk_cnf hk_num hk_term hk_circuit hk_blast
CRATES
: >"$work/crates/blast_bench/specs/Lib.antt"
: >"$work/crates/blast_bench/proofs/Lib.antt"

cat >"$work/crates/blast_bench/src/main.rt" <<'CODE'
//! Blasts a chain of operations, and prints the sizes of its gates: `add LINKS` or `mul LINKS`. Or prints a question as a
//! clause file: `distribute` or `exchange`.
#![tactic(auto)]

ghost use Rattle.std.specs.Prelude.{◌≡◌, ◌<◌, length, IfOk};
ghost use Rattle.hk_term.specs.Operations.{BinaryFits, binary_width};
ghost use Rattle.hk_term.specs.Shape.{width};

use hk_blast::{BitTable, blast};
use hk_circuit::word::complement;
use hk_cnf::{GateSizes, Gates, write_dimacs};
use hk_term::{Node, TermId, TermKind, Terms};
use std::alloc::{AllocError, Global};
use std::{env, io};

// A chain of operations: each on the result before, and one variable.
fn chain(terms: &mut Terms, kind: TermKind, links: u64) -> Result<TermId, AllocError>
    requires fits { BinaryFits kind 64 64 }
    requires width { binary_width kind 64 64 ≡ 64 }
    ensures { IfOk result (λ t. t < length terms.new) }
{
    let mut t = terms.intern(Node::Var { width: 64, id: 0 })?;
    let b = terms.intern(Node::Var { width: 64, id: 1 })?;
    for i in 0..links {
        t = terms.intern(Node::Binary { kind, a: t, b })?;
    }
    Ok(t)
}

// The sizes of the gates of a chain.
fn measured(alloc: Global, kind: TermKind, links: u64) -> Result<GateSizes, AllocError>
    requires fits { BinaryFits kind 64 64 }
    requires width { binary_width kind 64 64 ≡ 64 }
{
    let mut terms = Terms::new(alloc);
    let t = chain(&mut terms, kind, links)?;
    let mut gates = Gates::new(alloc);
    let mut bits = BitTable::new(alloc);
    blast(&terms, t, &mut gates, &mut bits)?;
    Ok(gates.sizes())
}

// Whether x * (y + 1) is x * y + x, or, exchanged, x * y + y.
fn equation(terms: &mut Terms, exchanged: bool) -> Result<TermId, AllocError>
    ensures { IfOk result (λ t. t < length terms.new) }
{
    let x = terms.intern(Node::Var { width: 8, id: 0 })?;
    let y = terms.intern(Node::Var { width: 8, id: 1 })?;
    let one = terms.intern(Node::Const { width: 8, value: 1 })?;
    let next = terms.intern(Node::Binary { kind: TermKind::Add, a: y, b: one })?;
    let a = terms.intern(Node::Binary { kind: TermKind::Mul, a: x, b: next })?;
    let product = terms.intern(Node::Binary { kind: TermKind::Mul, a: x, b: y })?;
    let rest = if exchanged { y } else { x };
    let b = terms.intern(Node::Binary { kind: TermKind::Add, a: product, b: rest })?;
    let t = terms.intern(Node::Binary { kind: TermKind::Eq, a, b })?;
    Ok(t)
}

// The clauses of the question whether an equation can be false.
fn question(alloc: Global, exchanged: bool) -> Result<Vec<u8>, AllocError> {
    let mut terms = Terms::new(alloc);
    let t = equation(&mut terms, exchanged)?;
    let mut gates = Gates::new(alloc);
    let mut bits = BitTable::new(alloc);
    blast(&terms, t, &mut gates, &mut bits)?;
    if let Some(word) = bits.get(t) {
        let clause = complement(alloc, word)?;
        gates.require(clause.as_slice())?;
    }
    write_dimacs(alloc, gates.clauses())
}

fn word(words: &[String], place: usize) -> &str {
    match words.get(place) {
        Some(word) => word.as_str(),
        None => "",
    }
}

fn main(rt: HostRuntime) -> io::Result<()> {
    let mut words = Vec::new(rt.alloc());
    for word in env::args(&rt)? {
        words.push(word)?;
    }
    let mode = word(&words, 1);
    let links = word(&words, 2).parse::<u64>().unwrap_or(0);
    if mode == "add" || mode == "mul" {
        let sizes = if mode == "add" {
            measured(rt.alloc(), TermKind::Add, links)?
        } else {
            measured(rt.alloc(), TermKind::Mul, links)?
        };
        println!(rt; "{} {} {}", sizes.vars, sizes.clauses, sizes.gates)?;
    } else {
        let text = question(rt.alloc(), mode == "exchange")?;
        let text = String::from_utf8(text).unwrap_or(String::new(rt.alloc()));
        print!(rt; "{text}")?;
    }
    Ok(())
}
CODE

cat >"$work/crates/blast_bench/proofs/chain/Invariants.antt" <<'PROOF'
use Rattle.std.proofs.Common.{◌≡◌, ◌<◌, length}
use Rattle.hk_term.specs.Shape.{width}
use Rattle.blast_bench.proofs.chain.Given as goal

abbrev pub invariant-loop-i : goal.invariant-loop-i
invariant-loop-i l = (l.t < length l.terms) × (width l.terms l.t ≡ 64) × (l.b < length l.terms) × (width l.terms l.b ≡ 64)
PROOF

cat >"$work/crates/blast_bench/proofs/question/Answers.antt" <<'PROOF'
use Rattle.std.proofs.Common.{List, ℤ, All, sym, subst}
use Rattle.hk_cnf.specs.Literal.{IsWithin}
use Rattle.blast_bench.proofs.question.Goals as goal

pub require-requires : goal.require-requires
require-requires c =
    let vars = c.blast.new.gates.vars in
    subst (λ ls. All (IsWithin vars) ls) (sym c.as_slice.ensures.value)
    (c.in_ok-clause.ensures.within vars (c.in-Some.ensures.within c.equation.new.terms c.blast.new.gates c.blast.ensures.table))
PROOF

log=$work/build.log
(cd "$work/crates/blast_bench" && rt run -- >"$log" 2>&1) || true
program=$work/crates/blast_bench/out/blast_bench
if [ ! -x "$program" ]; then
  tail -n 60 "$log" >&2
  exit 70
fi

python3 - "$program" <<'TIME'
import os, subprocess, sys
program = sys.argv[1]

def used(*words):
    process = subprocess.Popen([program, *map(str, words)], stdout=subprocess.PIPE)
    sizes = process.stdout.read().split()
    _, status, usage = os.wait4(process.pid, 0)
    assert status == 0
    return usage.ru_utime + usage.ru_stime, usage.ru_maxrss / 1024, *map(int, sizes)

for mode, links, name in (('add', 10_000, 'additions'), ('mul', 20, 'multiplications')):
    seconds, memory, variables, clauses, gates = used(mode, links)
    print(f'{links:,} {name} of 64 bits: {seconds:.2f} s, {variables:,} variables, {clauses:,} clauses, {gates:,} gates, {memory:.0f} MB')
TIME
if [ -n "$into" ]; then
  for name in distribute exchange; do
    "$program" "$name" >"$into/$name.cnf"
  done
fi
