"""The proved program that a run of `rt` left in crates/hkv/out: whether it is of these sources, and keeping it under their name.

Only proved crates are built, so what stands there was proved, of the sources of its time. It is of the present ones where none of
them has changed since: no source of a library after that library's folder out/rlib was last written, and no source, crates.txt or
the kit after the program was. The times are those that the system sets at a change, so that files which a copy brought back
count as changed. Whatever this cannot show is left to `./hkv prove`.
"""
import os
import shutil

from launcher import kit, program, sources, work
from launcher.places import BUILT, CRATES, TOP, kept

KEEP = 2


def adopted(now):
    """The program that stands there, where it is of these sources; a copy of it, where one can be kept. Else None."""
    if not program.is_runnable(BUILT) or not is_current() or sources.current() != now:
        return None
    try:
        return keep(now)
    except OSError:
        return BUILT


def is_current():
    """Whether nothing has changed since the program was built."""
    rt = kit.command()
    if rt is None:
        return False
    end = os.stat(BUILT).st_mtime_ns
    if max(os.stat(it).st_ctime_ns for it in (rt, os.path.join(TOP, "crates.txt"))) >= end:
        return False
    for name in sources.crates():
        written = end if name == "hkv" else written_at(name)
        if written is None or changed_at(name) >= min(written, end):
            return False
    return True


def written_at(name):
    """When the library was last written, or None."""
    try:
        return os.stat(os.path.join(CRATES, name, "out", "rlib")).st_mtime_ns
    except FileNotFoundError:
        return None


def changed_at(name):
    """The last change of a source file of this crate, or of a folder that holds some."""
    times = [time for _, _, time in sources.files([name])]
    for part in sources.PARTS:
        for at, _, _ in os.walk(os.path.join(CRATES, name, part)):
            times.append(os.stat(at).st_ctime_ns)
    return max(times, default=0)


def keep(now):
    """Keeps a copy of the program under the sources' name; its path."""
    home = kept("proved", now.name)
    os.makedirs(home, exist_ok=True)
    part = os.path.join(home, f"hkv.{os.getpid()}")
    shutil.copy2(BUILT, part)
    os.replace(part, os.path.join(home, "hkv"))
    work.drop_old(kept("proved"), now.name, KEEP)
    return os.path.join(home, "hkv")
