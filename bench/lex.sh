#!/bin/sh
# Measures the lexer: the processor time and the peak memory of cutting texts of 16 MiB into tokens, and those into items.
# The texts are lines as clang writes them, one line of marks alone, and lines of one letter each.
# Builds a program of its own over copies of the two crates, in a folder that it removes.
set -eu
root=$(cd "$(dirname "$0")/.." && pwd)
work=$(mktemp -d)
trap 'rm -rf "$work"' EXIT
mkdir -p "$work/crates/lex_bench/src" "$work/crates/lex_bench/specs" "$work/crates/lex_bench/proofs"
for crate in ir_ast ir_lex; do
  mkdir "$work/crates/$crate"
  (cd "$root/crates/$crate" && cp -r src specs proofs "$work/crates/$crate/")
done
printf 'ir_ast: indexmap thiserror\nir_lex: ir_ast\nlex_bench: ir_ast ir_lex\n' >"$work/crates.txt"
: >"$work/crates/lex_bench/specs/Lib.antt"
: >"$work/crates/lex_bench/proofs/Lib.antt"

cat >"$work/crates/lex_bench/src/main.rt" <<'CODE'
//! Makes a text by repeating a pattern, and cuts it: PATTERN TIMES STEPS, with 0 steps for the text alone, 1 for its
//! tokens and 2 for its items too.
#![tactic(auto)]

use ir_ast::KernelStop;
use ir_lex::{items, tokens};
use std::alloc::{AllocError, Global};
use std::{env, io};

const LINES: &[u8] = b"\
  %10 = getelementptr inbounds [4 x %struct.proc], ptr @procs, i64 0, i64 %8, i32 1, i64 %9\n\
  %11 = load i32, ptr %10, align 4, !tbaa !5\n\
  %12 = add i32 %11, -1\n\
  %13 = icmp ult i32 %12, 4\n\
  br i1 %13, label %14, label %27\n\
\n\
14:                                               ; preds = %7\n\
  store i32 %11, ptr %16, align 4, !tbaa !5\n\
";
const MARKS: &[u8] = b",=,=,=,=";
const LETTERS: &[u8] = b"a\na\na\na\n";

fn pattern(which: u64) -> &'static [u8] {
    match which {
        0 => LINES,
        1 => MARKS,
        _ => LETTERS,
    }
}

fn repeated(alloc: Global, pattern: &[u8], times: u64) -> Result<Vec<u8>, AllocError> {
    let mut text = Vec::with_capacity(alloc, 1 << 24)?;
    for _ in 0..times {
        text.extend_from_slice(pattern)?;
    }
    Ok(text)
}

// How many tokens and items a text has.
fn counted(alloc: Global, text: &[u8], steps: u64) -> Result<(usize, usize), KernelStop> {
    if steps == 0 || text.len() >= 1 << 31 {
        return Ok((0, 0));
    }
    let list = tokens(alloc, text)?;
    if steps == 1 {
        return Ok((list.as_slice().len(), 0));
    }
    let cut = items(alloc, list.as_slice())?;
    Ok((list.as_slice().len(), cut.as_slice().len()))
}

fn word(words: &[String], place: usize) -> u64 {
    match words.get(place) {
        Some(word) => word.parse::<u64>().unwrap_or(0),
        None => 0,
    }
}

fn main(rt: HostRuntime) -> io::Result<()> {
    let mut words = Vec::new(rt.alloc());
    for word in env::args(&rt)? {
        words.push(word)?;
    }
    let text = repeated(rt.alloc(), pattern(word(&words, 1)), word(&words, 2))?;
    let (token_count, item_count) = counted(rt.alloc(), &text, word(&words, 3)).unwrap_or((0, 0));
    println!(rt; "{} {token_count} {item_count}", text.len())?;
    Ok(())
}
CODE

log=$work/build.log
(cd "$work/crates/lex_bench" && rt run -- >"$log" 2>&1) || true
program=$work/crates/lex_bench/out/lex_bench
if [ ! -x "$program" ]; then
  tail -n 30 "$log" >&2
  exit 70
fi

python3 - "$program" <<'TIME'
import os, subprocess, sys
program = sys.argv[1]
SIZE = 1 << 24

def used(which, times, steps):
    process = subprocess.Popen([program, str(which), str(times), str(steps)], stdout=subprocess.PIPE)
    counts = [int(n) for n in process.stdout.read().split()]
    _, status, usage = os.wait4(process.pid, 0)
    assert status == 0
    return counts, usage.ru_utime + usage.ru_stime, usage.ru_maxrss * 1024

for which, what in enumerate(['lines of clang', 'marks alone', 'lines of one letter']):
    (length, _, _), _, _ = used(which, 1, 0)
    for size in (SIZE, SIZE * 9 // 16):
        times = size // length
        _, base, _ = used(which, times, 0)
        (_, token_count, _), cut, _ = used(which, times, 1)
        (total, token_count, item_count), whole, peak = used(which, times, 2)
        assert token_count > 0 and item_count > 0
        print(f'{what}: {total / 2**20:.1f} MiB, {token_count} tokens in {cut - base:.2f} s, {item_count} items in {whole - cut:.2f} s more, peak {peak / total:.1f} times the bytes')
TIME
