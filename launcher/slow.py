"""The program by `rt try`, for a kit of whose inside nothing is known: `slow.py WORD ..` prints what the program prints, and ends as it.

`rt try` reads all sources again at each call, and runs the program in a folder of its own. So a file below the caller's folder goes
there under its own name; another one, and one that is to be saved, is named by its absolute path.
"""
import os
import re
import subprocess
import sys

sys.path.insert(0, os.path.dirname(os.path.dirname(os.path.realpath(__file__))))

from launcher.places import PROGRAM_CRATE
from launcher.say import UNABLE, say

SECONDS = "86400"
# Names that `rt try` keeps for itself in the program's folder.
TAKEN = ("program", "stdin", "stdout", "stderr", "case")
PLAIN = re.compile(rb"[A-Za-z0-9_.$-]+")


def main(words):
    """Runs the program on these words; its status."""
    flags, given, absolute = handed(words)
    command = ["rt", "try", "--seconds", SECONDS, *flags, "--", *given]
    try:
        done = subprocess.run(command, cwd=PROGRAM_CRATE, stdin=subprocess.DEVNULL, stdout=subprocess.PIPE, stderr=subprocess.PIPE)
    except OSError as error:
        say(f"'rt try' does not start: {error.strerror}")
        return UNABLE
    ended = re.search(rb"(?m)^run=ended status=(\d+) ", done.stderr)
    if not ended:
        say("'rt try' gave no answer. The last that it said:")
        for line in done.stderr.decode(errors="replace").splitlines()[-5:]:
            say(f"  {line}")
        return UNABLE
    sys.stdout.buffer.write(renamed(done.stdout, absolute))
    sys.stdout.buffer.flush()
    return int(ended[1])


def handed(words):
    """The flags that hand files to `rt try`, the program's words, and which absolute path stands for which of the caller's."""
    flags, given, absolute = [], [], {}
    for place, word in enumerate(words):
        if place and not os.path.isabs(word) and (words[place - 1] == "--cert" or goes_wrong(word)):
            given.append(os.path.abspath(word))
            absolute[given[-1]] = word
            continue
        given.append(word)
        if place and os.path.isfile(word) and not os.path.isabs(word):
            flags += ["--data", f"{word}={os.path.abspath(word)}"]
    return flags, given, absolute


def goes_wrong(word):
    """Whether `rt try` would take this name for another file, or for none, where it is handed as it stands."""
    if not os.path.isfile(word):
        return os.path.isfile(os.path.join(PROGRAM_CRATE, word))
    plain = os.path.normpath(word)
    return plain != word or "=" in word or plain.split("/")[0] in ("..", *TAKEN)


def renamed(printed, absolute):
    """What was printed, with the caller's own name in a line that names a file."""
    for path, word in absolute.items():
        for fault in (b"read fault ", b"long "):
            if printed == fault + quoted(path) + b"\n":
                return fault + quoted(word) + b"\n"
    return printed


def quoted(word):
    """A name as the program prints it."""
    text = os.fsencode(word)
    if PLAIN.fullmatch(text):
        return text
    return b'"' + b"".join(bytes([it]) if PLAIN.fullmatch(bytes([it])) else b"\\%02x" % it for it in text) + b'"'


if __name__ == "__main__":
    sys.exit(main(sys.argv[1:]))
