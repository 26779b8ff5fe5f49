"""`./hkv selftest`: every example and stored call of the repository, run by the program that is there, and compared.

What comes in: the stored runs of the crates that are the program (args, data, stdout, status), the lines of hkv_examples over the
files of examples/, the stored rows of hk_verify_tests, and the rows of tests/rows. What goes out: a line for each that differs, on
standard output, and last how many passed and failed, and which program was tested. Test programs of other crates stay with `rt ci`.
"""
import concurrent.futures
import os
import re
import resource
import shutil
import signal
import subprocess
import tempfile
import threading
import time

from launcher import build, program, rows
from launcher.places import CRATES, TOP
from launcher.say import Fault
from launcher.work import Line, stoppable

USAGE = "hkv selftest"
SECONDS = 600
PROGRAMS = ("hkv", "hkv_reject", "hkv_refuse")
EXAMPLES = "hkv_examples"
ROWS = "hk_verify_tests"
LONGEST = 2000


def run(words):
    if words:
        return program.misused(USAGE)
    command = program.argv()
    if len(command) > 1:
        raise Fault("the program runs by 'rt try' here, which takes minutes for each call: selftest makes hundreds of them")
    if not program.is_proved():
        build.wait_for_optimised(os.path.dirname(command[0]))
    began = time.monotonic()
    groups, left = stored()
    results = try_all(command, groups)
    faults = [line for result in results for line in result if line]
    passed = sum(line is None for result in results for line in result)
    for line in faults:
        print(line)
    print(f"tested {'the proved program' if program.is_proved() else 'the quick program, of whose answers nothing is claimed'}", end="")
    print(f", in {time.monotonic() - began:.0f} s; {len(left)} stored rows and all test programs of the crates are for rt ci alone")
    print(f"{passed} passed, {len(faults)} failed")
    return 1 if faults or not passed else 0


# ---- what is stored ----------------------------------------------------------------------------


def stored():
    """The stored calls, in groups of which each runs in order, and the rows that no command line can show."""
    found = [stored_run(name) for name in PROGRAMS] + examples()
    found += rows.calls_of(text_of(os.path.join(CRATES, ROWS, "stdout")), ROWS)
    folder = os.path.join(TOP, "tests", "rows")
    for name in sorted(os.listdir(folder)):
        if name.endswith(".txt"):
            found += rows.calls_of(text_of(os.path.join(folder, name)), f"tests/rows/{name}", is_apart=True)
    groups = []
    for call in found:
        if isinstance(call, rows.Call):
            if call.follows and groups:
                groups[-1].append(call)
            else:
                groups.append([call])
    return groups, [call for call in found if isinstance(call, rows.Left)]


def text_of(file):
    with open(file, encoding="latin-1", newline="") as it:
        return it.read()


def stored_run(name):
    """The run that rt ci makes of a crate that is the program."""
    home = os.path.join(CRATES, name)
    expected = text_of(os.path.join(home, "stdout"))
    status = os.path.join(home, "status")
    return rows.Call(
        f"crates/{name}",
        text_of(os.path.join(home, "args")).split("\n")[:-1],
        os.path.join(home, "data"),
        re.compile(re.escape(expected)),
        expected,
        int(text_of(status)) if os.path.exists(status) else 0,
        None,
        False,
    )


def examples():
    """The lines of the examples' test program, each a call over their files."""
    home = os.path.join(CRATES, EXAMPLES)
    found = []
    for part in re.split(r"(?m)^\$ hkv ", text_of(os.path.join(home, "stdout")))[1:]:
        line, _, answer = part.partition("\n")
        expected, _, status = answer.rstrip("\n").rpartition("status ")
        form = re.compile(re.escape(expected))
        data = os.path.join(home, "data")
        found.append(rows.Call(f"examples: hkv {line}", line.split(" "), data, form, expected, int(status), None, False))
    return found


# ---- running -----------------------------------------------------------------------------------


def try_all(command, groups):
    """What each group of calls came to, several at a time."""
    line, running = Line(15), Running()
    pool = concurrent.futures.ThreadPoolExecutor(len(os.sched_getaffinity(0)))
    try:
        with stoppable():
            waiting = [pool.submit(try_group, running, command, group) for group in groups]
            for count, _ in enumerate(concurrent.futures.as_completed(waiting), 1):
                line.show(lambda: f"{count} of {len(groups)} groups of stored calls")
    finally:
        line.clear()
        running.end()
        pool.shutdown(cancel_futures=True)
    return [it.result() for it in waiting]


class Running:
    """The calls that run now, so that an interrupt ends them."""

    def __init__(self):
        self.lock, self.processes, self.is_over = threading.Lock(), set(), False

    def run(self, words, seconds, **how):
        """Runs a call to its end; its status, or None where it took too long or all is over."""
        with self.lock:
            if self.is_over:
                return None
            process = subprocess.Popen(words, **how)
            self.processes.add(process)
        try:
            return process.wait(timeout=seconds)
        except subprocess.TimeoutExpired:
            process.kill()
            process.wait()
            return None
        finally:
            with self.lock:
                self.processes.discard(process)

    def end(self):
        with self.lock:
            self.is_over = True
            for process in self.processes:
                process.kill()


def try_group(running, command, group):
    """For each call None where it came out as expected, or else a line."""
    with tempfile.TemporaryDirectory(prefix="hkv-selftest-") as top:
        folder = os.path.join(top, "files")
        os.mkdir(folder)
        return [try_call(running, command, call, folder, top) for call in group]


def try_call(running, command, call, folder, top):
    """Runs one call and compares."""
    where = folder if call.follows else lay(call.files, folder)
    shown = os.path.join(top, "shown")
    with open(shown, "wb") as sink:
        status = running.run(
            [*command, *call.words],
            SECONDS,
            cwd=where,
            stdin=subprocess.DEVNULL,
            stdout=sink,
            stderr=subprocess.DEVNULL,
            preexec_fn=None if call.room is None else limited(call.room),
        )
    text = text_of(shown)
    if status == call.status and call.pattern.fullmatch(text):
        return None
    words = " ".join(call.words)
    ended = f"no end within {SECONDS} s" if status is None else f"status {status}"
    return f"FAILED {call.place} ({words}): expected {cut(call.expected)} and status {call.status}; got {cut(text)} and {ended}"


def lay(files, folder):
    """Puts the files into the folder; where they are a folder themselves, that one is run in, as it is only read."""
    if isinstance(files, str):
        return files
    for name, text in files.items():
        path = os.path.join(folder, name)
        if text is None:
            shutil.rmtree(path, ignore_errors=True)
            os.makedirs(path, exist_ok=True)
        else:
            with open(path, "w", encoding="latin-1", newline="") as it:
                it.write(text)
    return folder


def limited(room):
    """Has files that the call writes take so many bytes, and further writes fail."""

    def before():
        signal.signal(signal.SIGXFSZ, signal.SIG_IGN)
        resource.setrlimit(resource.RLIMIT_FSIZE, (room, room))

    return before


def cut(text):
    """A text on one line, of which a long one is cut."""
    return repr(text if len(text) <= LONGEST else f"{text[:LONGEST]} ..")
