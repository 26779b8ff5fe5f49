#!/usr/bin/env python3
"""Makes the small goals of `crates/hk_inst_goals`, and finds by trying all cases whether some case makes each true.

Writes the goals to `stdin` of that crate, one a line, and the answers to its `stdout`. A line is the steps of a list of
terms, the last of which is the goal: variables and entries of one array, each of two bits, sums, comparisons, choices and
quantifiers over one variable. A goal has at most 14 input bits: three variables and four entries.

With a folder that holds the built program, as `bench/goals.py FOLDER`, it also gives the last clause list of each goal to
`cadical`, and tells where that answers otherwise.
"""
import os, random, subprocess, sys, tempfile

ROOT = os.path.join(os.path.dirname(os.path.abspath(__file__)), "..", "crates", "hk_inst_goals")
COUNT = 200
FREE = 3


class Goal:
    """A list of distinct nodes, each with a Python expression over `v` (variables) and `e` (entries)."""

    def __init__(self, rng, cells):
        self.rng, self.cells = rng, cells
        self.nodes, self.places = [], {}

    def put(self, step, text):
        if step not in self.places:
            self.places[step] = len(self.nodes)
            self.nodes.append((step, text))
        return self.places[step]

    def text(self, place):
        return self.nodes[place][1]

    def variable(self, scope):
        chosen = self.rng.choice(scope)
        return self.put(f"var.{chosen}", f"(v{chosen}&3)")

    def number(self, depth, scope):
        pick = self.rng.random()
        if depth == 0 or pick < 0.35:
            if self.rng.random() < 0.75:
                return self.variable(scope)
            k = self.rng.randrange(4)
            return self.put(f"num.{k}", str(k))
        if pick < 0.75 and self.cells:
            i = self.number(depth - 1, scope)
            return self.put(f"entry.{i}", f"e[{self.text(i)}]")
        if pick < 0.9:
            a, b = self.number(depth - 1, scope), self.number(depth - 1, scope)
            return self.put(f"add.{a}.{b}", f"(({self.text(a)}+{self.text(b)})&3)")
        c = self.truth(depth - 1, scope)
        a, b = self.number(depth - 1, scope), self.number(depth - 1, scope)
        return self.put(f"choose.{c}.{a}.{b}", f"({self.text(a)} if {self.text(c)} else {self.text(b)})")

    def truth(self, depth, scope):
        pick = self.rng.random()
        if depth <= 1 or pick < 0.4:
            a, b = self.number(max(depth, 1), scope), self.number(max(depth - 1, 1), scope)
            if self.rng.random() < 0.6:
                return self.put(f"eq.{a}.{b}", f"({self.text(a)}=={self.text(b)})")
            return self.put(f"ult.{a}.{b}", f"({self.text(a)}<{self.text(b)})")
        if pick < 0.7:
            id_ = self.rng.choice([0, 10, 11, 12])
            size = self.rng.choice([2, 3, 4, 4, 5])
            body = self.truth(depth - 1, scope + [id_, id_])
            return self.put(f"all.{id_}.{size}.{body}", f"all([{self.text(body)} for v{id_} in range({size})])")
        if pick < 0.8:
            a = self.truth(depth - 1, scope)
            return self.put(f"not.{a}", f"(not {self.text(a)})")
        if pick < 0.88:
            c, a, b = (self.truth(depth - 1, scope) for _ in range(3))
            return self.put(f"choose.{c}.{a}.{b}", f"({self.text(a)} if {self.text(c)} else {self.text(b)})")
        a, b = self.truth(depth - 1, scope), self.truth(depth - 1, scope)
        name, sign = self.rng.choice([("and", " and "), ("or", " or "), ("xor", "!=")])
        return self.put(f"{name}.{a}.{b}", f"(bool({self.text(a)}){sign}bool({self.text(b)}))")

    def all_of(self, parts):
        goal = parts[0]
        for part in parts[1:]:
            goal = self.put(f"and.{goal}.{part}", f"({self.text(goal)} and {self.text(part)})")
        return goal

    def ends_in(self, goal):
        """The goal as the last node of the list."""
        return goal == len(self.nodes) - 1


def holds_somewhere(text, cells):
    test = eval(f"lambda v0, v1, v2, e: {text}")
    for case in range(4 ** (FREE + (4 if cells else 0))):
        digits = [case >> 2 * i & 3 for i in range(FREE + 4)]
        if test(digits[0], digits[1], digits[2], digits[FREE:]):
            return True
    return False


def make():
    """Goals, about half of them true somewhere."""
    rng = random.Random(20170928)
    made, wanted = [], True
    while len(made) < COUNT:
        cells = rng.random() < 0.85
        goal = Goal(rng, cells)
        parts = [goal.truth(rng.choice([2, 3, 3, 4]), [0, 1, 2]) for _ in range(rng.choice([2, 3, 4, 5, 6]))]
        last = goal.all_of(parts)
        text = goal.text(last)
        if not goal.ends_in(last) or len(text) > 1500 or "all" not in text and "e[" not in text or "(v10" not in text and "(v0" not in text:
            continue
        found = holds_somewhere(text, cells)
        if found == wanted:
            made.append((" ".join(step for step, _ in goal.nodes), found))
            wanted = not wanted
    rng.shuffle(made)
    return made


def cadical_agrees(program, number, answer):
    clauses = subprocess.run([program, str(number)], input=open(os.path.join(ROOT, "stdin"), "rb").read(), capture_output=True).stdout
    with tempfile.NamedTemporaryFile(suffix=".cnf") as file:
        file.write(clauses)
        file.flush()
        status = subprocess.run(["cadical", "-q", "-n", file.name], capture_output=True).returncode
    return status == (10 if answer else 20)


def main():
    made = make()
    with open(os.path.join(ROOT, "stdin"), "w") as file:
        file.writelines(line + "\n" for line, _ in made)
    with open(os.path.join(ROOT, "stdout"), "w") as file:
        file.writelines(("true" if found else "never") + "\n" for _, found in made)
    print(f"{len(made)} goals, {sum(found for _, found in made)} of them true somewhere")
    if len(sys.argv) > 1:
        other = [n for n, (_, found) in enumerate(made) if not cadical_agrees(sys.argv[1], n, found)]
        print(f"cadical answers otherwise: {other or 'nowhere'}")


main()
