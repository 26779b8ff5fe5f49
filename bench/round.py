#!/usr/bin/env python3
"""Times rounds over three goals, with the program that `bench/round.sh` builds: `bench/round.py PROGRAM`.

A goal is one line, the steps of a list of terms of 16 bits as `crates/hk_inst_goals` reads them. The time of a round is the
processor time of 40 of them in one run, less that of a run without any, by 40: the least of five such pairs.
"""
import os, subprocess, sys, tempfile

READS, TUPLES, TIMES = 10_000, 65_536, 40


class Goal:
    """A list of distinct nodes."""

    def __init__(self):
        self.steps, self.places = [], {}

    def put(self, *parts):
        step = ".".join(map(str, parts))
        if step not in self.places:
            self.places[step] = len(self.steps)
            self.steps.append(step)
        return self.places[step]

    def reads(self):
        """None of so many entries is 0."""
        x, zero, goal = self.put("var", 0), self.put("num", 0), self.put("bit", 1)
        for k in range(READS):
            entry = self.put("entry", self.put("xor", x, self.put("num", k)))
            goal = self.put("and", goal, self.put("ult", zero, entry))
        return goal

    def every(self, id_, limit):
        """Of each number, or of its difference from the entry at it, the last 14 bits are below the limit: a body of 20 terms."""
        i = self.put("var", id_)
        at = self.put("xor", i, self.put("entry", i))
        sums = [1000 * id_ + k for k in range(3)]
        for number in sums + [65_536 - number for number in sums]:
            at = self.put("add", at, self.put("num", number))
        at = self.put("and", at, self.put("num", 0x3FFF))
        body = self.put("not", self.put("ult", self.put("num", limit - 1), at))
        assert len(self.reached(body)) == 20
        return self.put("all", id_, TUPLES, body)

    def reached(self, place):
        """The places of a term and of what it stands on."""
        kind, *parts = self.steps[place].split(".")
        parts = [] if kind in ("var", "num", "bit") else map(int, parts)
        return {place}.union(*map(self.reached, parts))


def line(*limits):
    goal = Goal()
    last = goal.reads()
    for number, limit in enumerate(limits):
        last = goal.put("and", last, goal.every(10 + number, limit))
    return " ".join(goal.steps) + "\n"


def used(program, times, path):
    with open(path) as file:
        process = subprocess.Popen([program, str(times)], stdin=file, stdout=subprocess.PIPE)
        word = process.stdout.read().split()
        _, status, usage = os.wait4(process.pid, 0)
    assert status == 0 and word and word[0] != b"none", word
    return usage.ru_utime + usage.ru_stime, int(word[0])


def main():
    program = sys.argv[1]
    with tempfile.NamedTemporaryFile("w", suffix=".txt") as file:
        for name, limits in (
            ("the body is true everywhere", [0x5000]),
            ("the body is false early", [100]),
            ("the body is true everywhere, and another is false", [0x5000, 100]),
        ):
            file.seek(0)
            file.truncate()
            file.write(line(*limits))
            file.flush()
            pairs = [(used(program, TIMES, file.name), used(program, 0, file.name)[0]) for _ in range(5)]
            seconds = min(each[0][0] - each[1] for each in pairs) / TIMES
            print(f"{READS:,} reads, {TUPLES:,} tuples, {name}: {1000 * seconds:.1f} ms a round, {pairs[0][0][1]} instances")


main()
