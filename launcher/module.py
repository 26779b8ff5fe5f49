"""The program as one module of LLVM bitcode, which `rt try` makes of the sources on its way to a program of its own.

What comes in: a folder to work in, and the kit's clang. What goes out: the module's path in that folder. `rt try` writes it as module.bc below its
TMPDIR, compiles it with a sanitizer, and removes it. So each file of that name is hard-linked as soon as it appears: the link outlives the
folder, and is whole once `rt try` has gone on to compile it, when an output file appears beside it, or has ended. It makes other modules too,
which are there for a moment: the program's is the one that defines `main`.
"""
import os
import subprocess

from launcher import kit, work
from launcher.places import PROGRAM_CRATE
from launcher.say import Fault

# A build was seen to take 67 MB at its most: the module, the object and the program. `rt try` may write as much beside them before it ends.
MEGABYTES = 140
MODULE = "module.bc"
WORDS = ("rt", "try", "--", "verify", "tick.ll", "tick.py")


class Unlike(Exception):
    """The kit's inside is not as the launcher expects it."""


def caught(room, clang, step):
    """Runs `rt try` until the module is there and whole."""
    below = os.path.join(room, "try")
    os.mkdir(below)
    try:
        child = work.Child(WORDS, cwd=PROGRAM_CRATE, env={**os.environ, "TMPDIR": below})
    except FileNotFoundError:
        raise Fault(kit.NO_RT) from None
    links = Links(room, below, clang)
    found = None
    with child:
        while child.runs() and found is None:
            found = links.whole()
            step.tick()
    if found is None and child.status is not None and b"\nrun=ended " not in b"\n" + child.said():
        raise child.fault("the program was not built. The last that 'rt try' said:", MEGABYTES)
    found = found or links.last()
    if found is None:
        raise Unlike("'rt try' left no module.bc where it was looked for")
    return found


class Links:
    """Links to the modules that were seen so far."""

    def __init__(self, room, below, clang):
        self.room, self.below, self.clang = room, below, clang
        self.seen = {}  # link -> its size when it was last looked into

    def whole(self):
        """Links what is new; the link of the program's module once its compiler runs, or None."""
        for folder, _, names in os.walk(self.below):
            if MODULE in names:
                link = self.link(os.path.join(folder, MODULE))
                if link and any(it.endswith((".o", ".o.tmp")) for it in names) and self.is_program(link):
                    return link
        return None

    def last(self):
        """The link of the program's module, once `rt try` has ended."""
        return next((link for link in reversed(self.seen) if self.is_program(link)), None)

    def link(self, path):
        """A link to the file that has this path now, by its number; None where it is gone."""
        try:
            link = os.path.join(self.room, f"module-{os.stat(path).st_ino}.bc")
            if link not in self.seen:
                os.link(path, link)
                self.seen[link] = None
            return link
        except FileNotFoundError:
            return None

    def is_program(self, link):
        """Whether this module defines `main`; a module that was looked into is not looked into again while it keeps its size."""
        size = os.path.getsize(link)
        if self.seen[link] == size:
            return False
        self.seen[link] = size
        told = subprocess.run(["llvm-nm", "--defined-only", "-j", link], executable=self.clang, capture_output=True)
        return b"main" in told.stdout.split()
