#!/bin/sh
# Measures the list of terms: the processor time and the memory of building 1,000,000 nodes, the time of computing a term
# that reaches all of them, the time of a quantifier of 1,000,000 tuples whose body reaches three of them, and the time of
# the values of 10,000 small terms behind them under one valuation, by one room.
# Builds a program of its own over copies of the two crates, in a folder that it removes.
set -eu
root=$(cd "$(dirname "$0")/.." && pwd)
work=$(mktemp -d)
trap 'rm -rf "$work"' EXIT
mkdir -p "$work/crates/terms_bench/src" "$work/crates/terms_bench/specs" "$work/crates/terms_bench/proofs/chain" "$work/crates/terms_bench/proofs/small" "$work/crates/terms_bench/proofs/asked"
for crate in hk_num hk_term; do
  mkdir "$work/crates/$crate"
  (cd "$root/crates/$crate" && cp -r src specs proofs "$work/crates/$crate/")
done
printf 'hk_num:\nhk_term: hk_num indexmap\nterms_bench: hk_term\n' >"$work/crates.txt"
: >"$work/crates/terms_bench/specs/Lib.antt"
: >"$work/crates/terms_bench/proofs/Lib.antt"

cat >"$work/crates/terms_bench/src/main.rt" <<'CODE'
//! Builds a chain of sums, a quantifier and small terms, and computes them so many times: LINKS TIMES TUPLES SMALL ASKED.
#![tactic(auto)]

ghost use Rattle.std.specs.Prelude.{◌≡◌, ◌<◌, length, IfOk};
ghost use Rattle.hk_term.specs.Shape.{width};
ghost use Rattle.hk_term.specs.Meaning.{reading_of};
ghost use Rattle.hk_term.specs.Room.{IsFor};

use hk_term::{Bound, BoundList, Node, TermId, TermKind, Terms, Valuation, ValueRoom};
use std::alloc::{AllocError, Global};
use std::{env, io};

// A chain of sums: each adds a number of its own to the one before.
fn chain(terms: &mut Terms, links: u64) -> Result<TermId, AllocError>
    ensures { IfOk result (λ t. t < length terms.new) }
{
    let mut t = terms.intern(Node::Var { width: 64, id: 0 })?;
    for i in 0..links {
        let b = terms.intern(Node::Const { width: 64, value: i })?;
        t = terms.intern(Node::Binary {
            kind: TermKind::Add,
            a: t,
            b,
        })?;
    }
    Ok(t)
}

// Whether each number below a size is below the greatest number.
fn quantifier(alloc: Global, terms: &mut Terms, size: u64) -> Result<TermId, AllocError>
    ensures { IfOk result (λ t. t < length terms.new) }
{
    let a = terms.intern(Node::Var { width: 64, id: 1 })?;
    let b = terms.intern(Node::Const {
        width: 64,
        value: u64::MAX,
    })?;
    let body = terms.intern(Node::Binary {
        kind: TermKind::Ult,
        a,
        b,
    })?;
    let bound = BoundList::from_vec(vec![in alloc; Bound { id: 1, size }]?);
    let t = terms.intern(Node::ForAll { bound, body })?;
    Ok(t)
}

// The value of a term, computed so many times.
fn computed(alloc: Global, terms: &Terms, t: TermId, times: u64) -> Result<u64, AllocError>
    requires { t < length terms.now }
{
    let v = Valuation::new(alloc);
    let len = terms.len() as usize;
    let mut room = vec![in alloc; 0; 2 * len]?;
    let mut last = 0;
    for _ in 0..times {
        last = terms.value(&v, t, &mut room);
    }
    Ok(last)
}

// So many terms of three nodes, each over a number of the chain.
fn small(terms: &mut Terms, count: u64) -> Result<(), AllocError> {
    let a = terms.intern(Node::Var { width: 64, id: 0 })?;
    for value in 0..count {
        let b = terms.intern(Node::Const { width: 64, value })?;
        terms.intern(Node::Binary {
            kind: TermKind::Xor,
            a,
            b,
        })?;
    }
    Ok(())
}

// The sum of the values of the terms from a place on, by one room.
fn asked(terms: &Terms, v: &Valuation, room: &mut ValueRoom, first: u64) -> u64
    requires { IsFor terms.now (reading_of v.now) room.old }
{
    let mut sum = 0u64;
    for place in first..terms.len() {
        sum = sum.wrapping_add(terms.value_with(v, TermId::at(place), room));
    }
    sum
}

fn small_values(
    alloc: Global,
    terms: &mut Terms,
    count: u64,
    is_asked: bool,
) -> Result<u64, AllocError> {
    let first = terms.len();
    small(terms, count)?;
    let v = Valuation::new(alloc);
    let mut room = ValueRoom::new(alloc, &*terms)?;
    if is_asked {
        Ok(asked(&*terms, &v, &mut room, first))
    } else {
        Ok(0)
    }
}

fn run(alloc: Global, links: u64, times: u64, tuples: u64) -> Result<u64, AllocError> {
    let mut terms = Terms::new(alloc);
    let sum = chain(&mut terms, links)?;
    let first = if times == 0 {
        0
    } else {
        computed(alloc, &terms, sum, times)?
    };
    if tuples == 0 {
        return Ok(first);
    }
    let all = quantifier(alloc, &mut terms, tuples)?;
    computed(alloc, &terms, all, 1)
}

fn word(words: &[String], place: usize) -> u64 {
    match words.get(place) {
        Some(word) => word.parse::<u64>().unwrap_or(0),
        None => 0,
    }
}

fn main(rt: HostRuntime) -> io::Result<()> {
    let mut words = Vec::new(rt.alloc());
    for word in env::args(&rt)? {
        words.push(word)?;
    }
    let links = word(&words, 1);
    let times = word(&words, 2);
    let tuples = word(&words, 3);
    let count = word(&words, 4);
    let last = if count == 0 {
        run(rt.alloc(), links, times, tuples)?
    } else {
        let mut terms = Terms::new(rt.alloc());
        chain(&mut terms, links)?;
        small_values(rt.alloc(), &mut terms, count, word(&words, 5) == 1)?
    };
    println!(rt; "{last}")?;
    Ok(())
}
CODE

cat >"$work/crates/terms_bench/proofs/chain/Invariants.antt" <<'PROOF'
use Rattle.std.proofs.Common.{◌≡◌, ◌<◌, length}
use Rattle.hk_term.specs.Shape.{width}
use Rattle.terms_bench.proofs.chain.Given as goal

abbrev pub invariant-loop-i : goal.invariant-loop-i
invariant-loop-i l = (l.t < length l.terms) × (width l.terms l.t ≡ 64)
PROOF

cat >"$work/crates/terms_bench/proofs/small/Invariants.antt" <<'PROOF'
use Rattle.std.proofs.Common.{◌≡◌, ◌<◌, length}
use Rattle.hk_term.specs.Shape.{width}
use Rattle.terms_bench.proofs.small.Given as goal

abbrev pub invariant-loop-value : goal.invariant-loop-value
invariant-loop-value l = (l.a < length l.terms) × (width l.terms l.a ≡ 64)
PROOF

cat >"$work/crates/terms_bench/proofs/asked/Invariants.antt" <<'PROOF'
use Rattle.hk_term.specs.Meaning.{reading_of}
use Rattle.hk_term.specs.Room.{IsFor}
use Rattle.terms_bench.proofs.asked.Given as goal

abbrev pub invariant-loop-place : goal.invariant-loop-place
invariant-loop-place l = IsFor l.terms (reading_of l.v) l.room
PROOF

log=$work/build.log
(cd "$work/crates/terms_bench" && rt run -- >"$log" 2>&1) || true
program=$work/crates/terms_bench/out/terms_bench
if [ ! -x "$program" ]; then
  tail -n 30 "$log" >&2
  exit 70
fi

python3 - "$program" <<'TIME'
import os, subprocess, sys
program = sys.argv[1]

def used(*words):
    process = subprocess.Popen([program, *map(str, words)], stdout=subprocess.DEVNULL)
    _, status, usage = os.wait4(process.pid, 0)
    assert status == 0
    return usage.ru_utime + usage.ru_stime, usage.ru_maxrss * 1024

nodes = 1_000_000
empty = used(0, 0, 0)
built = used(nodes // 2, 0, 0)
computed = used(nodes // 2, 10, 0)
half = used(nodes // 4, 10, 0)
half_built = used(nodes // 4, 0, 0)
quantified = used(nodes // 2, 0, nodes)
small = used(nodes // 2, 0, 0, 10_000, 0)
asked = used(nodes // 2, 0, 0, 10_000, 1)
print(f'building 1,000,000 nodes: {built[0] - empty[0]:.2f} s, {(built[1] - empty[1]) / nodes:.0f} bytes a node')
print(f'computing a term that reaches 1,000,000 nodes: {(computed[0] - built[0]) / 10:.3f} s, 500,000: {(half[0] - half_built[0]) / 10:.3f} s')
print(f'a quantifier of 1,000,000 tuples over a body of three nodes, behind 1,000,000 nodes: {quantified[0] - built[0]:.2f} s')
print(f'10,000 values of terms of three nodes, behind 1,000,000 nodes: {(asked[0] - small[0]) * 1000:.1f} ms')
TIME
