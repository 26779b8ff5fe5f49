#!/usr/bin/env python3
"""Checks the handlers of this folder: each C file is compiled by clang, lowered and verified, and every handler is accepted; with its
patch, the bug, exactly the handlers named below are rejected, for the obligation named here.

Usage: check.py [NAME ..] [--write]   HKV names the program, CLANG the compiler (clang-16). With --write the lowered texts NAME.ll that
are kept here are replaced; else they are compared with what is made.
"""
import os
import subprocess
import sys
import tempfile

HERE = os.path.dirname(os.path.abspath(__file__))
CLANG = os.environ.get("CLANG", "clang-16")
HKV = os.environ.get("HKV", "hkv")

# What the bug of NAME.patch does: the handler, and the obligation that fails first.
BUGS = {
    "pages": ("page_alloc", "undefined"),  # no page is free: the count of zeros of 0 is undefined
    "schedule": ("next_task", "state running"),  # counts from the running task, not from the one behind it
    "rights": ("grant", "state rights"),  # counts the lower half alone
    "ring": ("ring_put", "invariant filled"),  # a ninth message
    "clear": ("reap", "state registers"),  # clears as many bytes as a pointer has
    "wire": ("describe", "state flags"),  # forgets one swap
    "packed": ("map_page", "invariant frames"),  # a frame that is one too high
    "counters": ("charge", "state spent"),  # goes round
    "window": ("clip", "state low"),  # takes an empty range
    "levels": ("weight_at", "result"),  # overwrites the first place before it is read
}


def must(words, **more):
    done = subprocess.run(words, capture_output=True, text=True, **more)
    if done.returncode != 0:
        sys.exit(f"{' '.join(words)}: status {done.returncode}\n{done.stdout}{done.stderr}")


def lowered(folder, name):
    """The text that is verified, of NAME.c in the folder."""
    must([CLANG, "-Wall", "-Wextra", "-Wno-sizeof-pointer-memaccess", "-O1", "-ffreestanding", "-S", "-emit-llvm", "-o", "first.ll", name + ".c"], cwd=folder)
    must([HKV, "lower", "first.ll", "-o", name + ".ll"], cwd=folder)
    with open(os.path.join(folder, name + ".ll")) as file:
        return file.read()


def verdicts(folder, name):
    """The lines of the report that are no states."""
    done = subprocess.run([HKV, "verify", name + ".ll", os.path.join(HERE, name + ".py")], capture_output=True, text=True, cwd=folder)
    return [line for line in done.stdout.splitlines() if not line.startswith(" ")]


def handlers(name):
    with open(os.path.join(HERE, name + ".py")) as file:
        names = [line[4:].split("(")[0] for line in file if line.startswith("def ")]
    return [n for n in names if n != "equiv" and not n.startswith(("inv_", "prop_"))]


def check(name, write):
    """What is wrong with one example; nothing where all is right."""
    with tempfile.TemporaryDirectory() as folder:
        with open(os.path.join(HERE, name + ".c")) as file:
            source = file.read()
        with open(os.path.join(folder, name + ".c"), "w") as file:
            file.write(source)
        text = lowered(folder, name)
        keep = os.path.join(HERE, name + ".ll")
        if write:
            with open(keep, "w") as file:
                file.write(text)
        elif not os.path.exists(keep) or open(keep).read() != text:
            yield f"{name}.ll is another text than {CLANG} and hkv lower make"
        wanted = ["init holds"] + [f"accept {h}" for h in handlers(name)]
        got = verdicts(folder, name)
        if got != wanted:
            yield f"{name}: {got}, and not {wanted}"
        must(["patch", "-s", name + ".c", os.path.join(HERE, name + ".patch")], cwd=folder)
        lowered(folder, name)
        bad, obligation = BUGS[name]
        wanted = ["init holds"] + [f"reject {h} {obligation}" if h == bad else f"accept {h}" for h in handlers(name)]
        got = verdicts(folder, name)
        if got != wanted:
            yield f"{name} with its bug: {got}, and not {wanted}"


def main():
    write = "--write" in sys.argv
    names = [word for word in sys.argv[1:] if word != "--write"] or list(BUGS)
    wrong = 0
    for name in names:
        faults = list(check(name, write))
        for fault in faults:
            print(fault)
        wrong += bool(faults)
        if not faults:
            print(f"{name}: accepted, and its bug is rejected")
    print(f"{len(names) - wrong} passed, {wrong} failed")
    sys.exit(1 if wrong else 0)


if __name__ == "__main__":
    main()
