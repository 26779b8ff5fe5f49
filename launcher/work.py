"""What building and proving stand on: folders that go again, tools that end with the call, and progress on standard error."""
import contextlib
import ctypes
import json
import os
import shutil
import signal
import subprocess
import sys
import tempfile
import time

from launcher.places import KEPT, kept
from launcher.say import Fault, say

FULL = "No space left on device"
LOOK = 0.05
SECONDS_BETWEEN_LINES = 15
GRACE = 10
STOPPERS = (signal.SIGTERM, signal.SIGHUP, signal.SIGINT)
PR_SET_PDEATHSIG = 1


# ---- folders -----------------------------------------------------------------------------------


def room(megabytes):
    """Stops where the disk has not that much room."""
    os.makedirs(KEPT, exist_ok=True)
    seen = os.statvfs(KEPT)
    free = seen.f_bavail * seen.f_frsize // 1_000_000
    if free < megabytes:
        raise full(megabytes, free)


def full(megabytes, free=None):
    """The fault of a full disk."""
    left = "" if free is None else f", and {free} MB are free"
    return Fault(f"the disk is full: {megabytes} MB are needed at {KEPT}{left}")


@contextlib.contextmanager
def stoppable():
    """Has signals that end the call go by way of every `finally`."""
    before = {it: signal.signal(it, stop) for it in STOPPERS}
    try:
        yield
    finally:
        for it, handler in before.items():
            signal.signal(it, handler)


@contextlib.contextmanager
def folder(prefix):
    """A folder that is removed at the end, also where a signal ends the call."""
    with stoppable():
        made = tempfile.mkdtemp(prefix=prefix, dir=KEPT)
        try:
            yield made
        finally:
            for it in STOPPERS:
                signal.signal(it, signal.SIG_IGN)
            end_strays(made)
            shutil.rmtree(made, ignore_errors=True)


def stop(number, _):
    """Ends the call by way of every `finally`, with the status that a shell gives to this signal."""
    raise SystemExit(128 + number)


def sweep(prefix):
    """Removes what killed calls left. The caller holds the lock under which such folders are made."""
    for name in os.listdir(KEPT):
        if name.startswith(prefix) and os.path.isdir(kept(name)):
            end_strays(kept(name))
            shutil.rmtree(kept(name), ignore_errors=True)


def drop_old(above, name, keep):
    """Removes the folders of all but the last few sources, of which this name's is one."""
    folders = [os.path.join(above, it) for it in os.listdir(above)]
    folders.sort(key=lambda it: (os.path.basename(it) != name, -os.stat(it).st_mtime))
    for it in folders[keep:]:
        shutil.rmtree(it, ignore_errors=True)


# ---- tools -------------------------------------------------------------------------------------


def dies_with_parent():
    """Has the system end this process where its parent is killed."""
    try:
        ctypes.CDLL(None).prctl(PR_SET_PDEATHSIG, signal.SIGTERM)
    except (OSError, AttributeError):
        pass


def end_strays(folder):
    """Ends the processes whose TMPDIR is in this folder: those that a tool has left, which was itself ended while it started them."""
    mark = os.fsencode(f"TMPDIR={folder}{os.sep}")
    for name in os.listdir("/proc") if os.path.isdir("/proc") else ():
        if name.isdigit():
            with contextlib.suppress(OSError):
                with open(f"/proc/{name}/environ", "rb") as file:
                    is_one = any(it.startswith(mark) for it in file.read().split(b"\0"))
                if is_one:
                    os.kill(int(name), signal.SIGKILL)


class Child:
    """A tool in a process group of its own. Used as a context, it has ended when that is left. What it says is kept in memory, since a
    full disk would take no word of it."""

    def __init__(self, words, **how):
        self.status, self.text = None, b""
        self.log = os.memfd_create("said")
        self.process = subprocess.Popen(
            words,
            stdin=subprocess.DEVNULL,
            stdout=self.log,
            stderr=subprocess.STDOUT,
            start_new_session=True,
            preexec_fn=dies_with_parent,
            **how,
        )

    def __enter__(self):
        return self

    def __exit__(self, *_):
        self.end()
        self.text = self.said()
        os.close(self.log)
        self.log = None

    def runs(self):
        """Whether it still runs, after a short wait."""
        try:
            self.status = self.process.wait(timeout=LOOK)
        except subprocess.TimeoutExpired:
            pass
        return self.status is None

    def end(self):
        """Asks its group to end, and then ends it."""
        for number in (signal.SIGTERM, signal.SIGKILL):
            with contextlib.suppress(ProcessLookupError):
                os.killpg(self.process.pid, number)
            with contextlib.suppress(subprocess.TimeoutExpired):
                self.process.wait(timeout=GRACE)
                return

    def said(self):
        """What it has said so far, or in all."""
        if self.log is None:
            return self.text
        return os.pread(self.log, os.fstat(self.log).st_size, 0)

    def fault(self, what, megabytes):
        """The fault that its end comes to, with the last that it said."""
        text = self.said().decode(errors="replace")
        if FULL in text:
            return full(megabytes)
        last = [f"  {line}" for line in text.splitlines() if line.strip()][-5:]
        if self.status is not None and (self.status < 0 or "error" not in text):
            last.append("it was cut off, it seems: where memory is short, end other programs first, and run this again")
        return Fault("\n".join([what, *last]))


def detach(words, log):
    """Starts a program that outlives the call."""
    with open(log, "ab") as said:
        subprocess.Popen(words, stdin=subprocess.DEVNULL, stdout=said, stderr=said, start_new_session=True, cwd="/")


# ---- progress ----------------------------------------------------------------------------------


class Line:
    """One line that is rewritten on a terminal each second, and elsewhere put anew where so many seconds have gone by."""

    def __init__(self, between):
        self.is_live = sys.stderr.isatty()
        self.between = 1 if self.is_live else between
        self.spoke = None

    def show(self, text, now=False):
        """Puts the text that this function gives, where it is time to, or at once."""
        if not now and self.spoke is not None and time.monotonic() - self.spoke < self.between:
            return
        self.spoke = time.monotonic()
        if self.is_live:
            print(f"\r\033[Khkv: {text()}", end="", file=sys.stderr, flush=True)
        else:
            say(text())

    def clear(self):
        if self.is_live and self.spoke is not None:
            print("\r\033[K", end="", file=sys.stderr, flush=True)


class Step:
    """One step of several: what it is, how long it runs, and what it took last time."""

    def __init__(self, what, place, last):
        self.what, self.place, self.last = what, place, last
        self.began = time.monotonic()
        self.line = Line(SECONDS_BETWEEN_LINES)
        self.tick()

    def seconds(self):
        return time.monotonic() - self.began

    def tick(self):
        """Says how it stands, where it is time to."""
        self.line.show(self.told)

    def told(self):
        took = f", {self.last:.0f} s last time" if self.last else ""
        return f"step {self.place}, {self.what}: {self.seconds():.0f} s{took}"


class Steps:
    """The steps of a piece of work, one after the other; what each took is kept for the next time."""

    def __init__(self, names, order):
        self.names, self.order = names, order
        self.times = read_times()
        self.now = None
        self.taken = {}
        self.began = time.monotonic()

    def step(self, name):
        self.close()
        place = f"{self.order.index(name) + 1} of {len(self.order)}"
        self.now = (name, Step(self.names[name], place, self.times.get(name)))
        return self.now[1]

    def close(self):
        if self.now:
            name, step = self.now
            step.line.clear()
            self.taken[name] = step.seconds()
            self.now = None


@contextlib.contextmanager
def told(names, order):
    """Steps that are told; their times are kept where all of them were gone through."""
    steps = Steps(names, order)
    try:
        yield steps
    finally:
        steps.close()
    say(f"done in {time.monotonic() - steps.began:.0f} s")
    write_times({**read_times(), **steps.taken})


def read_times():
    try:
        with open(kept("times.json"), encoding="utf-8") as file:
            found = json.load(file)
        return {name: float(seconds) for name, seconds in found.items()}
    except (OSError, ValueError, TypeError, AttributeError):
        return {}


def write_times(times):
    """Keeps the times; where that fails, nothing is lost but the next estimate."""
    part = kept(f"times.{os.getpid()}")
    try:
        with open(part, "w", encoding="utf-8") as file:
            json.dump(times, file)
        os.replace(part, kept("times.json"))
    except OSError:
        with contextlib.suppress(OSError):
            os.remove(part)
