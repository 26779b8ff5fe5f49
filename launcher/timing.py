"""verify --time: how long each handler took, on standard error, a line each.

What comes in: the program's words, and the certificate that they ask for, if any. What goes out: the program's output and status as they
are, and the lines. The seconds are those that passed between the lines of the handler before (or the opening) and its own: the program
puts a handler's lines before it decides the next. Instances and learned clauses are counted in the certificate, where one is saved: the
rows of its proofs, without deletions. Rounds and conflicts are not told: the program does not say them.
"""
import subprocess
import time
from typing import NamedTuple

from launcher import output, program
from launcher.say import say

VERDICTS = (b"accept", b"reject", b"unknown", b"memory")


class Counts(NamedTuple):
    """What stands in a certificate for one acceptance: proofs, those of them by all cases, instances, and added clauses."""

    proofs: int = 0
    cases: int = 0
    instances: int = 0
    learned: int = 0


def counted(lines):
    """What stands in the lines of a certificate for each acceptance, by the handler's name."""
    found, name, rows = {}, None, iter(lines)
    for line in rows:
        word, _, rest = line.rstrip(b"\n").partition(b" ")
        if word in VERDICTS:
            name = rest.decode() if word == b"accept" else None
        if name is None:
            continue
        was = found.get(name, Counts())
        if word == b"prove":
            was = was._replace(proofs=was.proofs + 1)
        elif word == b"cases":
            was = was._replace(cases=was.cases + 1)
        elif word in (b"pair", b"tuple"):
            was = was._replace(instances=was.instances + 1)
        elif word == b"log":
            added = sum(next(rows).split(b" ", 2)[1:2] != [b"d"] for _ in range(int(rest)))
            was = was._replace(learned=was.learned + added)
        found[name] = was
    return found


def tell(name, seconds, counts=None):
    """The line of a handler."""
    text = f"time {name} {seconds:.3f} s"
    if counts:
        text += f", {counts.proofs} proofs, {counts.instances} instances, {counts.learned} learned clauses"
        text += f", {counts.cases} by all cases" if counts.cases else ""
    say(text)


def run(words, cert):
    """Runs the program; its status."""
    child = subprocess.Popen([*program.argv(), *words], stdout=subprocess.PIPE)
    try:
        times = list(followed(child.stdout, cert is None))
        status = child.wait()
    except output.Lost:
        child.stdout.close()
        return child.wait()
    except BaseException:
        child.terminate()
        child.wait()
        raise
    if cert is not None:
        counts = counts_in(cert)
        for name, seconds in times:
            tell(name, seconds, counts.get(name))
    return status


def counts_in(cert):
    """What stands in a certificate that was saved, if it was."""
    try:
        with open(cert, "rb") as file:
            return counted(file)
    except (OSError, ValueError, StopIteration):
        return {}


def followed(stream, at_once):
    """Hands lines on as they come; each handler with its seconds, told at once or not."""
    last = time.monotonic()
    for line in stream:
        output.put(line)
        words = line.split()
        if line[:1] == b" " or not words:
            continue
        now = time.monotonic()
        if words[0] in VERDICTS and len(words) > 1:
            name = words[1].decode()
            if at_once:
                tell(name, now - last)
            yield name, now - last
        last = now
