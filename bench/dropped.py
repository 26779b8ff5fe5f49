#!/usr/bin/env python3
"""Whether two programs read the texts of clang in one way: every `examples/*.c` and `examples/profile/*.c`, compiled with `-g` at -O0, -O1
and -O2 by each clang of 15, 16 and 19 that is installed. Of each text `run TEXT no_such_function` is told by both: its status, and its
lines word for word. A text that is read, laid out and checked answers `A1`; any other names its first fault.

Usage: bench/dropped.py OLD NEW     (two programs; each that answers otherwise is printed, and then how many texts there were)
"""
import glob
import os
import shutil
import subprocess
import sys
import tempfile

TOP = os.path.dirname(os.path.dirname(os.path.abspath(__file__)))
CLANGS = ("clang-15", "clang-16", "clang-19")
FLAGS = ("-ffreestanding", "-fno-vectorize", "-fno-slp-vectorize", "-g", "-S", "-emit-llvm", "-w")


def told(program, text):
    ran = subprocess.run([program, "run", text, "no_such_function"], capture_output=True, text=True)
    return ran.returncode, ran.stdout + ran.stderr


def texts(folder):
    """The texts that the compilers write, each with what it is of."""
    sources = sorted(glob.glob(f"{TOP}/examples/*.c") + glob.glob(f"{TOP}/examples/profile/*.c"))
    for clang in filter(shutil.which, CLANGS):
        for level in ("-O0", "-O1", "-O2"):
            for source in sources:
                text = os.path.join(folder, "text.ll")
                made = subprocess.run([clang, level, *FLAGS, "-o", text, source], capture_output=True)
                if made.returncode == 0:
                    yield f"{clang} {level} {os.path.relpath(source, TOP)}", text


def main():
    old, new = sys.argv[1:]
    count = read = other = 0
    with tempfile.TemporaryDirectory() as folder:
        for name, text in texts(folder):
            before, after = told(old, text), told(new, text)
            count += 1
            read += "A1" in before[1]
            if before != after:
                other += 1
                print(f"{name}: {before} before, {after} now")
    print(f"{count} texts, {read} of them read whole, {other} told otherwise")
    return 1 if other or not count else 0


if __name__ == "__main__":
    sys.exit(main())
