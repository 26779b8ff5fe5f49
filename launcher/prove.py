"""`./hkv prove`: proves the program's libraries, lowest first, then the program, and builds it. What was proved is kept, so that the
command goes on where it was stopped. The program is kept under the name of the sources that stood there before and after.
"""
import json
import os
import time

from launcher import adopt, estimate, kit, locks, program, sources, work
from launcher.places import CRATES, PROGRAM_CRATE, kept
from launcher.say import Fault, say

USAGE = "hkv prove"
SECONDS_BETWEEN_LINES = 30
LEAST_MEGABYTES = 3000
ADVICE = """run this again once that is mended: what was proved is kept. Where a process was killed, end others that take memory
first; where the disk is full, make room. Where a proof failed, compare 'rt version' with README.md, and the sources with git status"""


def run(words):
    if words:
        return program.misused(USAGE)
    if kit.command() is None:
        raise Fault(kit.NO_RT)
    with locks.held("prove", "another call is proving; waiting for it"):
        now = sources.current()
        if not program.is_runnable(kept("proved", now.name, "hkv")) and not adopt.adopted(now):
            prove(now)
    say("the proved program of these sources is built, and answers each call from now on")
    return 0


def prove(now):
    """Proves and builds the program of these sources."""
    work.room(megabytes_left())
    say(f"proving and building: {estimate.cost()}. What they say is kept in {kept('prove.log')}")
    with work.stoppable():
        progress = Progress()
        try:
            for name in progress.order:
                if not progress.is_done(name):
                    library(name, progress)
            build(progress)
        finally:
            progress.line.clear()
    keep(now)


def library(name, progress):
    """Proves one library over those below it."""
    progress.begin(name)
    followed(["rt", "lib"], os.path.join(CRATES, name), progress, name)
    if not os.path.exists(stamp(name)):
        raise Fault(f"'rt lib' left no stamp of {name}: its sources changed while it was proved. Run this again")
    progress.end(name)


def build(progress):
    """Proves and builds the program itself, by a run of it, which says its usage."""
    progress.begin("hkv")
    followed(["rt", "run", "--"], PROGRAM_CRATE, progress, "hkv", lambda said: b"\nrt: running " in b"\n" + said)


def followed(words, folder, progress, name, is_well=None):
    """Runs a command of the kit to its end, and says on which crate it is; what it said goes to the log."""
    child = work.Child(words, cwd=folder)
    try:
        with child:
            while child.runs():
                progress.tick()
    finally:
        with open(kept("prove.log"), "ab") as log:
            log.write(b"== %s\n%s" % (name.encode(), child.said()))
    if not (is_well(child.said()) if is_well else child.status == 0):
        fault = child.fault(f"{name} was not proved. The last lines of {kept('prove.log')}:", megabytes_left())
        raise Fault(f"{fault}\n{ADVICE}")


def stamp(name):
    """What `rt` leaves where a library is proved."""
    return os.path.join(CRATES, name, "out", "rlib", "stamp")


def keep(now):
    """Keeps the program that was built, where the sources are still those of the beginning."""
    if sources.current() != now:
        raise Fault("the sources changed while they were proved: run this again, which proves what changed")
    adopt.keep(now)


def megabytes_left():
    """The room that is still needed: what proving took when it was measured, less what is kept of it already."""
    facts, _ = estimate.measured()
    try:
        needed = float(facts["gigabytes"]) * 1000
    except (KeyError, ValueError):
        return LEAST_MEGABYTES
    return max(LEAST_MEGABYTES, int(needed - sum(size_of(os.path.join(CRATES, it, "out")) for it in os.listdir(CRATES)) / 1e6))


def size_of(folder):
    """Bytes of the files in a folder."""
    total = 0
    for at, _, names in os.walk(folder):
        for name in names:
            try:
                total += os.lstat(os.path.join(at, name)).st_blocks * 512
            except FileNotFoundError:
                pass
    return total


class Progress:
    """Which crate is at work, how many are left, and about how long that takes, by crates.seconds and this run's own pace."""

    def __init__(self):
        self.sums = sums()
        self.order = [name for name in self.sums if name != "hkv"]
        self.kept = read_kept()
        self.expected = estimate.measured()[1]
        self.left = {name for name in self.sums if not self.is_done(name)}
        self.line = work.Line(SECONDS_BETWEEN_LINES)
        self.spent = self.foreseen = 0.0
        self.name, self.began = "", time.monotonic()

    def is_done(self, name):
        """Whether this library was proved as it is now, over what is below it."""
        return self.kept.get(name) == self.sums[name] and os.path.exists(stamp(name))

    def begin(self, name):
        self.name, self.began = name, time.monotonic()
        self.line.show(self.told, now=True)

    def tick(self):
        self.line.show(self.told)

    def end(self, name):
        self.left.discard(name)
        self.spent += time.monotonic() - self.began
        self.foreseen += self.foreseen_for(name)
        self.kept[name] = self.sums[name]
        part = kept(f"libraries.{os.getpid()}")
        with open(part, "w", encoding="utf-8") as file:
            json.dump(self.kept, file)
        os.replace(part, kept("libraries.json"))

    def foreseen_for(self, name):
        """The seconds that a crate took when it was measured; for one that was not, the mean of those that were."""
        if name in self.expected or not self.expected:
            return self.expected.get(name, 0)
        return sum(self.expected.values()) / len(self.expected)

    def told(self):
        return f"proving {self.name}: {len(self.left)} of {len(self.sums)} crates left{self.minutes()}"

    def minutes(self):
        """The time that is left, in words; nothing where no crate was measured."""
        if not self.expected:
            return ""
        pace = self.spent / self.foreseen if self.foreseen > 60 else 1
        here = self.foreseen_for(self.name)
        others = sum(self.foreseen_for(it) for it in self.left if it != self.name)
        seconds = (others + max(here - (time.monotonic() - self.began) / pace, 0)) * pace
        return f", about {max(round(seconds / 60), 1)} min"


def read_kept():
    """The sum with which each library was last proved by this command."""
    try:
        with open(kept("libraries.json"), encoding="utf-8") as file:
            return dict(json.load(file))
    except (OSError, ValueError, TypeError):
        return {}


def sums():
    """A sum of all that each crate is proved from: its files, its proofs, its line, the kit, and the crates below it."""
    lines, found, line = sources.listed(), {}, kit.line()
    for name in sources.crates():
        below = [found[it] for it in lines[name][1] if it in found]
        found[name] = sources.sum_of(sources.files([name], sources.PROVED_PARTS), repr((lines[name], line, below)))
    return found
