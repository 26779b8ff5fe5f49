"""The sources that the program is made from, and a name for them by their content and the kit's line.

What comes in: the folders src and specs of crates/hkv and of each crate below it, with these crates' lines of crates.txt. Proof files
are left out: they change neither the program nor what is claimed of it. What goes out: `Sources`, whose name is the same whenever
the content is. A call takes one look at each file's size and time of change; the content is read only where one of these has changed.
That time is the one which the system sets at every change, and which no copying tool can set back.
"""
import os

from launcher import kit
from launcher.places import CRATES, TOP, kept
from launcher.say import Fault

PARTS = ("src", "specs")
PROVED_PARTS = (*PARTS, "proofs")
TRIES = 5


class Sources:
    """The sum of the sources' content, the kit's line, and their name, which is a sum of both."""

    def __init__(self, sum, kit, name):
        self.sum, self.kit, self.name = sum, kit, name

    def __eq__(self, other):
        return self.name == other.name


def listed():
    """Each line of crates.txt that lists a crate: name -> (the line, the names that it stands on), in the file's order."""
    found = {}
    with open(os.path.join(TOP, "crates.txt"), encoding="utf-8") as file:
        for line in file:
            if line[:1].islower():
                words, _, below = line.partition(":")
                found[words.split()[0]] = (line.strip(), below.split())
    return found


def crates():
    """The program's crates with their lines, each after those that it stands on."""
    lines, order = listed(), {}

    def take(name):
        if name in lines and name not in order:
            for below in lines[name][1]:
                take(below)
            order[name] = lines[name][0]

    take("hkv")
    if not order:
        raise Fault(f"{TOP}/crates.txt lists no crate hkv: look with git status what has changed")
    return order


def files(names, parts=PARTS):
    """Path, size and time of change of each source file of these crates."""
    found = []
    todo = [os.path.join(CRATES, name, part) for name in names for part in parts]
    while todo:
        folder = todo.pop()
        try:
            with os.scandir(folder) as entries:
                for entry in entries:
                    if entry.is_dir():
                        todo.append(entry.path)
                    elif entry.name.endswith((".rt", ".antt")):
                        seen = entry.stat()
                        found.append((entry.path, seen.st_size, seen.st_ctime_ns))
        except FileNotFoundError:
            pass
    return sorted(found)


def signature():
    """A text that changes when a source or the kit does; with it, the crates and the files."""
    order = crates()
    found = files(order)
    return f"{kit.mark()}\n{list(order.values())}\n{TOP}\n{found}", order, found


def current():
    """The sources as they are, by what is kept of the last look where nothing has changed since."""
    text, order, found = signature()
    known = remembered(text)
    if known:
        return known
    for _ in range(TRIES):
        made = read(order, found)
        before, (text, order, found) = text, signature()
        if before == text:
            remember(text, made)
            return made
    raise Fault("the sources change while they are read: run this again once they stay as they are")


def sum_of(found, beside):
    """One sum of these files' content and of the text beside it."""
    import hashlib

    total = hashlib.sha256(beside.encode())
    for path, _, _ in found:
        with open(path, "rb") as file:
            content = hashlib.sha256(file.read()).hexdigest()
        total.update(f"{os.path.relpath(path, CRATES)} {content}\n".encode())
    return total.hexdigest()


def read(order, found):
    """The sources by reading them."""
    import hashlib

    of_files = sum_of(found, repr(list(order.values())))
    line = kit.line()
    return Sources(of_files, line, hashlib.sha256(f"{of_files}\n{line}".encode()).hexdigest()[:20])


def remembered(text):
    """What is kept, where it was kept of this signature; where no kit is there any more, of this signature but for the kit."""
    try:
        with open(kept("sources"), encoding="utf-8") as file:
            *values, last = file.read().split("\n", 3)
    except (OSError, ValueError):
        return None
    same = last == text or (text.startswith("None\n") and last.partition("\n")[2] == text.partition("\n")[2])
    return Sources(*values) if same and len(values) == 3 else None


def remember(text, made):
    """Keeps the sources' name for the next call; where that fails, the next call reads again."""
    try:
        os.makedirs(kept(), exist_ok=True)
        part = kept(f"sources.{os.getpid()}")
        with open(part, "w", encoding="utf-8") as file:
            file.write("\n".join((made.sum, made.kit, made.name, text)))
        os.replace(part, kept("sources"))
    except OSError:
        pass
