#!/usr/bin/env python3
"""Whether the guide's table of what C may say holds over each clang that is installed: every row of it names files of `examples/profile`
and what `hkv` says of their texts at -O1. A row's first file is compiled by each of clang 15, 16 and 19, and its text is read: where the
row names a refusal `Kn` of the kernel text, that has to be the answer; where it says `inside`, `Sn` or `reject`, the text has to be read whole.

Usage: bench/profile.py [HKV]     (by default ./hkv of this checkout; each row that does not hold is printed, and then how many there were)
"""
import os
import re
import shutil
import subprocess
import sys
import tempfile

TOP = os.path.dirname(os.path.dirname(os.path.abspath(__file__)))
CLANGS = ("clang-15", "clang-16", "clang-19")


def cells(line):
    """The cells of a row of a table; a bar behind a backslash belongs to its cell."""
    return [cell.strip() for cell in re.split(r"(?<!\\)\|", line.strip().strip("|"))]


def refusal_of(said):
    """The refusal of the text that a cell begins with, and nothing where the text is read."""
    found = re.match(r"K\d+", said)
    return found.group() if found else None


def rows():
    """Each file that the table names with what is said of it, and what of the texts of a newer clang."""
    with open(os.path.join(TOP, "docs", "GUIDE.md"), encoding="utf-8") as guide:
        lines = guide.read().split("\n")
    begin = next(at for at, line in enumerate(lines) if line.startswith("| C | clang wrote |"))
    for line in lines[begin + 2 :]:
        if not line.startswith("|"):
            return
        first, _, said, _ = cells(line)
        newer = dict(re.findall(r"\((clang-\d+): (K\d+|inside)\)", said))
        for name in re.findall(r"`(\w+)\.c`", first):
            yield name, refusal_of(said), {clang: refusal_of(word) for clang, word in newer.items()}


def answer(hkv, clang, name, folder):
    """The refusal of the text that the compiler writes for a file, nothing where it is read, and a word where there is no text."""
    text = os.path.join(folder, "text.ll")
    source = os.path.join(TOP, "examples", "profile", f"{name}.c")
    made = subprocess.run([clang, "-O1", "-ffreestanding", "-w", "-S", "-emit-llvm", "-o", text, source], capture_output=True)
    if made.returncode:
        return "not compiled"
    ran = subprocess.run([hkv, "run", text, "no_such_function"], capture_output=True, text=True)
    found = re.search(r"\bK\d+", ran.stdout + ran.stderr)
    return found.group() if found else (None if "A1" in ran.stdout + ran.stderr else ran.stdout + ran.stderr)


def main():
    hkv = sys.argv[1] if len(sys.argv) > 1 else os.path.join(TOP, "hkv")
    table = list(rows())
    count = other = 0
    with tempfile.TemporaryDirectory() as folder:
        for clang in filter(shutil.which, CLANGS):
            for name, usual, newer in table:
                said = newer.get(clang, usual)
                got = answer(hkv, clang, name, folder)
                count += 1
                if got != said:
                    other += 1
                    print(f"{clang}: {name}.c is {got or 'read'}, and not {said or 'read'}")
    print(f"{count} texts, {other} that the table does not say")
    return 1 if other or not count else 0


if __name__ == "__main__":
    sys.exit(main())
