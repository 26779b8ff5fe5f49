#!/bin/sh
# Measures one round of questions: the processor time of `Question::round` with an assignment of the clauses, over 10,000 reads
# and a quantifier of 65,536 tuples whose body has 20 terms: where the body is true at every tuple and the goal with it, where it is
# false from an early tuple on, and where it is true at every tuple and another quantifier is false, so that all tuples are tried.
# Builds a program of its own over copies of the crates, in a folder that it removes: the reader of goals is that of
# `crates/hk_inst_goals`, at 16 bits in place of two.
set -eu
root=$(cd "$(dirname "$0")/.." && pwd)
work=$(mktemp -d)
trap 'rm -rf "$work"' EXIT
program=$work/crates/round_bench
mkdir -p "$program/src" "$program/specs" "$program/proofs"
for crate in hk_num hk_term hk_copy hk_cnf hk_circuit hk_blast hk_inst hk_lrat hk_cdcl; do
  mkdir "$work/crates/$crate"
  for part in src specs proofs out; do
    if [ -d "$root/crates/$crate/$part" ]; then cp -r "$root/crates/$crate/$part" "$work/crates/$crate/"; fi
  done
done
{
  grep -E '^(hk_num|hk_term|hk_copy|hk_cnf|hk_circuit|hk_blast|hk_inst|hk_lrat|hk_cdcl):' "$root/crates.txt"
  echo 'round_bench: hk_cnf hk_lrat hk_cdcl hk_num hk_term hk_copy hk_circuit hk_blast hk_inst indexmap'
} >"$work/crates.txt"

goals=$root/crates/hk_inst_goals
cp "$goals/src/step.rt" "$program/src/"
sed -e 's/hk_inst_goals/round_bench/' -e 's/width: 2,/width: 16,/' -e 's/value < 4 /value < 65_536 /' "$goals/src/build.rt" >"$program/src/build.rt"
cp -r "$goals/specs/." "$program/specs/"
cp -r "$goals/proofs/." "$program/proofs/"
find "$program/specs" "$program/proofs" -name '*.antt' -exec sed -i -e 's/hk_inst_goals/round_bench/' -e 's/nat_eq size 2$/nat_eq size 16/' -e 's/size ≡ 2$/size ≡ 16/' -e 's/eqb-true w 2 e/eqb-true w 16 e/' {} +

cat >"$program/src/main.rt" <<'CODE'
//! Reads a goal, finds an assignment of its clauses, and does so many rounds with it: TIMES. It prints how many instances a round
//! finds, or that there is no goal or no assignment.
#![tactic(auto)]

mod build;
mod step;

ghost use Rattle.std.specs.Prelude.{◌≡◌, true, length};
ghost use Rattle.hk_cnf.specs.Clauses.{clauses_value};

use crate::build::goal_of;
use hk_cdcl::{SolveEnd, solve};
use hk_cnf::Assignment;
use hk_inst::Question;
use hk_term::Terms;
use std::alloc::{AllocError, Global};
use std::{env, io};

/// So many rounds with one assignment, and how many instances the last one finds.
fn rounds(
    alloc: Global,
    question: &Question,
    a: &Assignment,
    times: u64,
) -> Result<u64, AllocError>
    requires size { length a.now ≡ question.now.circuit.vars }
    requires satisfied { clauses_value a.now question.now.circuit.clauses ≡ true }
{
    let mut found = 0;
    for _ in 0..times {
        let (case, instances) = question.round(alloc, a)?;
        drop(case);
        found = instances.as_slice().len() as u64;
    }
    Ok(found)
}

/// What rounds find in a question, if its clauses have an assignment.
fn found_in(alloc: Global, question: &Question, times: u64) -> Result<Option<u64>, AllocError> {
    match solve(alloc, question.clauses(), 100_000)? {
        SolveEnd::Sat(assignment) => Ok(Some(rounds(alloc, question, &assignment, times)?)),
        SolveEnd::Unsat(_) => Ok(None),
        SolveEnd::Spent(_) => Ok(None),
    }
}

/// What rounds find in the question of a line.
fn measured(alloc: Global, line: &str, times: u64) -> Result<Option<u64>, AllocError> {
    let mut terms = Terms::new(alloc);
    let Some(goal) = goal_of(alloc, &mut terms, line)? else {
        return Ok(None);
    };
    let question = Question::new(alloc, terms, goal)?;
    let found = found_in(alloc, &question, times);
    let (instances, clauses) = question.into_parts();
    drop(instances);
    drop(clauses);
    found
}

/// The number on the command line.
fn asked(rt: &HostRuntime) -> io::Result<u64> {
    let mut found = 0;
    for word in env::args(rt)? {
        if let Ok(number) = word.as_str().parse::<u64>() {
            found = number;
        }
    }
    Ok(found)
}

fn main(rt: HostRuntime) -> io::Result<()> {
    let times = asked(&rt)?;
    for line in rt.lines(rt.alloc()) {
        let line = line?;
        match measured(rt.alloc(), line.as_str(), times)? {
            Some(found) => println!(rt; "{found}")?,
            None => println!(rt; "none")?,
        }
    }
    Ok(())
}
CODE

log=$work/build.log
(cd "$program" && rt run -- 0 </dev/null >"$log" 2>&1) || true
if [ ! -x "$program/out/round_bench" ]; then
  tail -n 60 "$log" >&2
  exit 70
fi
python3 "$root/bench/round.py" "$program/out/round_bench"
