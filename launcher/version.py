"""`./hkv --version`: which program runs, of which commit, and the kit's line. It builds nothing."""
import os
import subprocess

from launcher import program, sources
from launcher.places import TOP, kept

USAGE = "hkv --version"


def run(words):
    if words:
        return program.misused(USAGE)
    now = sources.current()
    print(f"hkv {commit()}, {which(now)}")
    print(f"kit: {now.kit}")
    print(f"sources: {now.name}")
    return 0


def which(now):
    """Which program answers."""
    if program.is_runnable(kept("proved", now.name, "hkv")) or program.left_by_rt(now):
        return "the proved program"
    made = "" if program.is_runnable(kept("quick", now.name, "hkv")) else ", which the first call builds"
    refused = ", which HKV_PROVED refuses" if program.wants_proved() else ""
    return f"the quick program, of whose answers nothing is claimed{made}{refused}"


def commit():
    """The commit, and whether files differ from it."""
    head = asked("describe", "--always", "--tags", "--abbrev=12")
    if not head or os.path.realpath(asked("rev-parse", "--show-toplevel")) != TOP:
        return "of no commit"
    changed = asked("status", "--porcelain", "--untracked-files=no")
    return f"of commit {head}{', with changes' if changed else ''}"


def asked(*words):
    """What git says, or nothing."""
    try:
        done = subprocess.run(["git", "-C", TOP, *words], capture_output=True, text=True, timeout=30)
    except (OSError, subprocess.TimeoutExpired):
        return ""
    return done.stdout.strip() if done.returncode == 0 else ""
