#!/usr/bin/env python3
"""Refuses memory, one allocation at a time, and looks at each answer.

    bench/memory.py [--program PATH] [--each N] [--only NAME ..]

In: a program (the launcher's by default: give the file itself, `--program PATH`, since a script in between would be refused memory too) and a C
compiler. Out: for each call how many allocations it makes, how many were refused, and how the calls ended; then each answer that is not allowed.
Allowed are `memory` alone with status 7; or the right lines, of which handlers may have `memory NAME` instead, with status 7, or 1 where a
rejection or a failed opening is among them; or, where memory was refused for a certificate, the right lines and status 7 or 1. A run that
ends by a signal, or says anything else, is a fault. With `--each N` every Nth allocation is refused.
"""

import argparse
import os
import re
import subprocess
import sys
import tempfile

ROOT = os.path.dirname(os.path.dirname(os.path.abspath(__file__)))


def example(name):
    return os.path.join(ROOT, "examples", name)


CALLS = {
    "tick": ["verify", example("tick.ll"), example("tick.py")],
    "dup": ["verify", "dup.ll", "dup.py"],
    "bench": ["bench", "4"],
    "cert": ["verify", example("tick.ll"), example("tick.py"), "--cert", "cert"],
    "check": ["check", example("tick.ll"), example("tick.py"), "kept"],
}


def texts_of_dup():
    """The descriptor table among the rows of the top call's tests, whose file lines begin with `| `."""
    with open(os.path.join(ROOT, "crates", "hk_verify_tests", "stdin"), encoding="ascii") as file:
        rows = file.read().splitlines()
    texts = {}
    for name in "dup.ll", "dup.py":
        at = rows.index(f"file {name}") + 1
        lines = []
        while rows[at].startswith("|"):
            lines.append(rows[at][2:])
            at += 1
        texts[name] = "\n".join(lines) + "\n"
    return texts


def records(log):
    """What the library left: each refused number with its status and output, and last the number of allocations with the right output."""
    with open(log, "rb") as file:
        data = file.read()
    at, found = 0, []
    while at < len(data):
        end = data.index(b"\n", at)
        head = data[at:end].split()
        length = int(head[-1])
        found.append((head[:-1], data[end + 1 : end + 1 + length].decode("ascii")))
        at = end + 1 + length
    (_, count), right = found.pop()
    return [(int(number), int(status), shown) for (number, status), shown in found], int(count), right


def is_allowed(words, status, shown, right):
    if shown == "memory\n":
        return status == 7
    if words[0] == "bench":
        return is_allowed_count(status, shown)
    got, wanted = blocks(shown), blocks(right)
    if len(got) != len(wanted):
        return False
    lost = sum(1 for mine, other in zip(got, wanted) if mine != other and re.fullmatch(r"memory \S+\n", mine))
    same = sum(1 for mine, other in zip(got, wanted) if mine == other)
    if lost + same != len(wanted):
        return False
    rejects = any(block.startswith(("reject ", "init fails ")) for block in got)
    if lost:
        return status == (1 if rejects else 7)
    # all lines are right: no memory for a certificate, or it was not needed in the end
    return status in ((1,) if rejects else (0, 2, 7))


def is_allowed_count(status, shown):
    counts = dict(re.findall(r"(\w+) ([0-9]+)\n", shown))
    total = sum(int(counts.get(kind, 0)) for kind in ("accept", "reject", "unknown", "memory"))
    return total == int(counts.get("handlers", -1)) and status == (7 if int(counts["memory"]) else 0)


def blocks(shown):
    """A report as its first line and one text for each handler."""
    parts = []
    for line in shown.splitlines(keepends=True):
        if line.startswith("  "):
            parts[-1] += line
        else:
            parts.append(line)
    return parts


def library(folder):
    built = os.path.join(folder, "refuse.so")
    source = os.path.join(ROOT, "bench", "refuse.c")
    subprocess.run([os.environ.get("CC", "cc"), "-O2", "-shared", "-fPIC", "-o", built, source], check=True)
    return built


def tried(program, name, words, each, folder, built):
    log = os.path.join(folder, f"{name}.log")
    given = dict(os.environ, LD_PRELOAD=built, REFUSE_LOG=log, REFUSE_EACH=str(each))
    subprocess.run([program, *words], cwd=folder, env=given, check=False)
    return records(log)


def main():
    parser = argparse.ArgumentParser(description=__doc__, formatter_class=argparse.RawDescriptionHelpFormatter)
    parser.add_argument("--program", required=True, help="the program's file")
    parser.add_argument("--each", type=int, default=1, help="refuse every Nth allocation")
    parser.add_argument("--only", nargs="+", choices=CALLS, default=list(CALLS))
    given = parser.parse_args()
    faults = 0
    with tempfile.TemporaryDirectory() as folder:
        built = library(folder)
        for name, text in texts_of_dup().items():
            with open(os.path.join(folder, name), "w", encoding="ascii") as file:
                file.write(text)
        subprocess.run([given.program, *CALLS["tick"], "--cert", "kept"], cwd=folder, check=True, stdout=subprocess.DEVNULL)
        for name in given.only:
            words = CALLS[name]
            found, count, right = tried(given.program, name, words, given.each, folder, built)
            ends = {}
            for number, status, shown in found:
                kind = "memory" if shown == "memory\n" else "right lines" if shown == right else "memory for a handler"
                if not is_allowed(words, status, shown, right):
                    kind = "NOT ALLOWED"
                    faults += 1
                    print(f"{name}: allocation {number}: status {status}, {shown[:200]!r}")
                ends[kind, status] = ends.get((kind, status), 0) + 1
            told = ", ".join(f"{much} {kind} (status {status})" for (kind, status), much in sorted(ends.items()))
            print(f"{name}: {count} allocations, {len(found)} refused: {told}", flush=True)
    print(f"{faults} answers that are not allowed")
    return 1 if faults else 0


if __name__ == "__main__":
    sys.exit(main())
