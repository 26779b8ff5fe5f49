"""Which program answers: the proved one of these sources where it is there, silently; else the quick one, with a line that says so.

Both are kept by the name of the sources that they were made from. The quick one is built at the first call.
"""
import os
import sys

from launcher import sources
from launcher.places import BUILT, kept
from launcher.say import Fault, say


_CHOSEN = []


def chosen():
    """The words that run the program, and whether it is the proved one. Decided, and said, once a call."""
    if not _CHOSEN:
        _CHOSEN.append(choose())
    return _CHOSEN[0]


def choose():
    """The same, decided now."""
    now = sources.current()
    proved = kept("proved", now.name, "hkv")
    if not is_runnable(proved):
        proved = left_by_rt(now)
    if proved:
        return (proved,), True
    if wants_proved():
        raise Fault(refusal())
    quick = kept("quick", now.name, "hkv")
    if is_runnable(quick) and not os.path.exists(kept("quick", now.name, "module.bc")):
        words = (quick,)
    else:
        from launcher import build

        words = build.quick(now)
    say(caution())
    return words, False


def argv():
    """The words that run the program, to which a call's own words are added."""
    return list(chosen()[0])


def is_proved():
    """Whether it is the proved program."""
    return chosen()[1]


def run(words, *, input=None, capture=False):
    """Runs the program on these words to its end, in the caller's folder; a `subprocess.CompletedProcess`, of bytes."""
    import subprocess

    return subprocess.run([*argv(), *words], input=input, capture_output=capture)


def exec_program(words):
    """Lets the program take this process over."""
    command = [*argv(), *words]
    sys.stdout.flush()
    sys.stderr.flush()
    os.execv(command[0], command)


def left_by_rt(now):
    """The proved program of these sources that a run of `rt` by hand left, which is kept then, or None."""
    if not is_runnable(BUILT):
        return None
    from launcher import adopt

    return adopt.adopted(now)


def is_runnable(file):
    return os.access(file, os.X_OK)


def wants_proved():
    """Whether the caller refuses all but the proved program."""
    return os.environ.get("HKV_PROVED", "") not in ("", "0")


def refusal():
    """What is said where only the proved program may run and there is none of these sources."""
    from launcher import estimate

    return (
        "HKV_PROVED is set, and there is no proved program of these sources\n"
        f"'./hkv prove' makes it: {estimate.cost()}; or unset HKV_PROVED for the quick program, of which nothing is claimed"
    )


def caution():
    """What is said at each call of the quick program."""
    from launcher import estimate

    return (
        "this is the quick program: built without its proofs, so nothing is claimed of its answers. "
        f"'./hkv prove' proves and builds the program that everything is claimed of: {estimate.cost()}"
    )


def misused(usage):
    """Says how a command of the launcher is used; the status of a fault of use."""
    print(f"usage: {usage}", file=sys.stderr)
    return 4
