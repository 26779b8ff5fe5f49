"""Runs the program on a call, and says on standard error what its fixed lines say in words.

In come the words of a call in its fixed form, out goes the exit status. What the program writes on standard output comes
through byte for byte, as it is written. Where the status says that the call was decided, nothing is added.
"""
import os
import re
import signal
import subprocess
import sys

from launcher import program

KEEP = 1 << 16                      # bytes of output that are looked at
DECIDED = {'verify': (0, 1, 2), 'replay': (0, 1), 'check': (0, 2), 'lrat': (0,), 'run': (0,), 'bench': (0,)}
WRITE_FAULT = 6


def run(words, names=None):
    """Runs the program; names maps files of the words to those that are shown in their place (a path each)."""
    if '--cert' in words:
        return run_beside(words, names or {})
    status, shown = run_through(words)
    speak(words, status, shown, names or {})
    return status


class Ending:
    """Ends the child where this process is interrupted, and has the signals that would end this process raised for that."""

    def __init__(self, child):
        self.child = child

    def __enter__(self):
        for number in (signal.SIGTERM, signal.SIGHUP):
            if signal.getsignal(number) == signal.SIG_DFL:
                signal.signal(number, lambda number, _: sys.exit(128 + number))
        return self.child

    def __exit__(self, kind, *_):
        if kind is not None:
            self.child.terminate()
            self.child.wait()


def spawn(words, **how):
    """The program as a child."""
    return Ending(subprocess.Popen([*program.argv(), *words], **how))


def status_of(child):
    """The status of a child that ended; one that a signal ended has 128 and the signal's number, as in a shell."""
    status = child.wait()
    return status if status >= 0 else 128 - status


def run_through(words):
    """The status, and the first bytes of what went through."""
    with spawn(words, stdout=subprocess.PIPE) as child:
        shown, source, written = b'', child.stdout.fileno(), True
        while written and (piece := os.read(source, 1 << 16)):
            shown = (shown + piece)[:KEEP] if len(shown) < KEEP else shown
            written = put(piece)
        if not written:
            child.kill()
        child.stdout.close()
        status = status_of(child)
    return (status if written else after_write_fault(shown)), shown


def put(piece, where=1):
    """Writes to standard output as the program would, or to standard error; false where that fails."""
    try:
        while piece:
            piece = piece[os.write(where, piece):]
        return True
    except OSError:
        return False


def after_write_fault(shown):
    """The status where standard output failed: a line of a fault keeps its own, all else has the program's write fault."""
    found = fault_of(shown)
    kept = {'usage': 4, 'read fault': 5, 'memory': 7, 'long': 3, 'text': 3, 'call': 3}
    return kept[found[0]] if found else WRITE_FAULT


def run_beside(words, names):
    """A call that saves a certificate writes by itself, so that nothing is saved where its output fails. Where it is refused,
    the same call without a certificate says why."""
    with spawn(words) as child:
        status = status_of(child)
    at = words.index('--cert')
    again = words[:at] + words[at + 2:]
    if status in (3, 4, 5) and all(os.path.isfile(word) or not os.path.exists(word) for word in words[1:3]):
        refused = subprocess.run([*program.argv(), *(again if len(words) == at + 2 else words)], stdout=subprocess.PIPE)
        speak(words, status, refused.stdout, names)
    else:
        speak(words, status, b'', names)
    return status


def fault_of(shown):
    """The kind of fault that the first line tells, and the line; none where it tells none."""
    line = shown.split(b'\n', 1)[0].decode(errors='replace')
    kinds = {'usage': r'usage: ', 'read fault': r'read fault ', 'long': r'long ', 'memory': r'memory$',
             'text': r'(kernel|spec|cert|cnf) \d+: [A-Z]\d+$', 'call': r'call .*: A\d$'}
    return next(((kind, line) for kind, form in kinds.items() if re.match(form, line)), None)


def speak(words, status, shown, names):
    """Says in words what is refused; a lost standard error is no reason to stop."""
    if status in DECIDED.get(words[0] if words else '', (0,)) or status > 128:
        return
    from launcher import refusal_words
    lines = refusal_words.told(words, status, shown, names)
    put(''.join(line + '\n' for line in lines).encode(errors='backslashreplace'), 2)
