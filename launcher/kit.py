"""The kit: the command `rt` that the PATH names, its folder, its line, and the parts that build a quick program."""
import os

from launcher.say import Fault

NO_RT = """there is no command rt: install the kit that README.md names, with its rt on the PATH, and run this again"""


def command():
    """The file that runs as `rt`, with symbolic links followed, or None."""
    for folder in os.environ.get("PATH", os.defpath).split(os.pathsep):
        file = os.path.join(folder or ".", "rt")
        if os.path.isfile(file) and os.access(file, os.X_OK):
            return os.path.realpath(file)
    return None


def mark():
    """What tells this kit from another one at the cost of a look: the file `rt`, and the identity that stands beside it."""
    rt = command()
    if rt is None:
        return None
    seen = os.stat(rt)
    try:
        with open(os.path.join(os.path.dirname(os.path.dirname(rt)), "KIT-ID"), encoding="utf-8", errors="replace") as file:
            identity = file.read().strip()
    except OSError:
        identity = ""
    return f"{rt} {seen.st_size} {seen.st_mtime_ns} {identity}"


def line():
    """The kit's line, as `rt version` prints it."""
    said = asked("version")
    if not said:
        raise Fault("the command rt does not tell its version: compare the kit with the one that README.md names")
    return said


def folder():
    """The kit's folder: above the file `rt`, or where `rt doc` says that its guides are; None where neither looks like one."""
    rt = command()
    if rt is None:
        return None
    above = os.path.dirname(os.path.dirname(rt))
    if os.path.isdir(os.path.join(above, "toolchain")):
        return above
    guide = asked("doc")
    above = os.path.dirname(guide)
    return above if guide and os.path.isdir(os.path.join(above, "toolchain")) else None


def asked(word):
    """What `rt WORD` prints, on one line; empty where it fails."""
    import subprocess

    if command() is None:
        raise Fault(NO_RT)
    try:
        done = subprocess.run(["rt", word], stdin=subprocess.DEVNULL, capture_output=True, timeout=60)
    except (OSError, subprocess.TimeoutExpired):
        return ""
    return done.stdout.decode(errors="replace").strip() if done.returncode == 0 else ""
