"""hkv handlers KERNEL SPEC: the handlers of a specification that is read, in order, a line each.

What comes in: the names of a kernel and a specification. What goes out: `Texts`, copies of both with the lines of each handler, or
`Answered` with the program's own answer where it reads one of them not.

How both are read whole at the price of reading them: the handlers are looked up in the text, and the program is asked by `check` about a
certificate that says `memory` of each of them. It reads both texts as `verify` does, refuses what that refuses in the same words, says
`not claimed NAME` for each handler in its order, and decides nothing. Another list of handlers than the text's own would be refused by Q3.

A text that is not read may lose its fault with a transition that is taken away (a name twice, the 257th handler), which is why `--only`
and `--jobs` have the whole text read first, so.
"""
import os
import shutil
import subprocess
import tempfile
from typing import NamedTuple

from launcher import program, say
from launcher.transitions import only, transitions

KERNEL_LIMIT = 16_777_216
SPEC_LIMIT = 1_048_576
USAGE = "hkv handlers KERNEL SPEC"
HELP = """\
Prints the handlers of the specification in its order, a line each, where the program reads both texts; else its refusal.

Statuses: 0; 3 a text is refused; 4 words; 5 a file could not be read; 7 memory.
"""


class Answered(Exception):
    """The program's answer to texts that it does not read, or has no memory for: its status, and what it printed."""

    def __init__(self, status, shown):
        super().__init__(status)
        self.status, self.shown = status, shown


class Texts(NamedTuple):
    """Both texts as they were at one moment: their copies' paths, and the specification's bytes with its transitions."""

    kernel: str
    spec: str
    text: bytes
    transitions: list

    def names(self):
        return [transition.name for transition in self.transitions]

    def only(self, names):
        return only(self.text, self.transitions, names)


def copy(name, limit, place):
    """Copies a file of at most so many bytes, and answers whether that could be done."""
    try:
        with open(name, "rb") as file:
            content = file.read(limit + 1)
    except (OSError, ValueError):
        return False
    if len(content) > limit:
        return False
    with open(place, "wb") as file:
        file.write(content)
    return True


def ask(kernel, spec, names, folder):
    """What the program says of both texts and a certificate that claims nothing of these handlers."""
    cert = os.path.join(folder, "none.cert")
    with open(cert, "w", encoding="utf-8") as file:
        file.write("".join(["hkv certificate 1\n", *(f"memory {name}\n" for name in names), "end\n"]))
    return subprocess.run([*program.argv(), "check", kernel, spec, cert], stdin=subprocess.DEVNULL, stdout=subprocess.PIPE)


def read(kernel, spec, folder):
    """Both texts, copied into a folder of this call's own; raises `Answered` where the program does not read them."""
    copies = os.path.join(folder, "kernel.ll"), os.path.join(folder, "spec.py")
    if not (copy(kernel, KERNEL_LIMIT, copies[0]) and copy(spec, SPEC_LIMIT, copies[1])):
        asked = ask(kernel, spec, [], folder)  # for its words on the file that cannot be loaded, or is too long
        raise Answered(asked.returncode, asked.stdout) if asked.returncode in (3, 5, 7) else say.Fault("a file changed while it was read")
    with open(copies[1], "rb") as file:
        text = file.read()
    found = transitions(text)
    names = [transition.name for transition in found]
    asked = ask(*copies, names, folder)
    if asked.stdout == "".join(f"not claimed {name}\n" for name in names).encode() and asked.returncode == (2 if names else 0):
        return Texts(*copies, text, found)
    if asked.returncode in (3, 5, 6, 7) and not asked.stdout.startswith(b"cert "):
        raise Answered(asked.returncode, asked.stdout)
    raise say.Fault(f"the program says something else of the texts than their handlers: {asked.stdout[:200]!r}, status {asked.returncode}")


class Folder:
    """A folder of this call's own, which goes with it."""

    def __enter__(self):
        self.path = tempfile.mkdtemp(prefix="hkv-")
        return self.path

    def __exit__(self, *what):
        shutil.rmtree(self.path, ignore_errors=True)


def run(words):
    import sys

    if len(words) != 2:
        return program.misused(USAGE)
    with Folder() as folder:
        try:
            texts = read(*words, folder)
        except Answered as answered:
            return told("handlers", words, answered)
    sys.stdout.write("".join(f"{name}\n" for name in texts.names()))
    return 0


def told(command, words, answered):
    """Shows the program's answer to texts that it does not read, with its words; its status."""
    from launcher import kinds, output, refusals

    output.put(answered.shown)
    refusals.speak(["verify", *words], answered.status, answered.shown, {})
    if answered.status == 3:
        kinds.tell([command, *words])
    return answered.status
