"""Where the transitions of a specification stand, and the text with some of them alone.

What comes in: the bytes of a specification. What goes out: its transitions with their lines, by the lines' own rules: physical lines are
joined while a bracket is open, and a function goes on as long as lines are indented. Of a text that the program refuses they are a guess.

How handlers are left alone: the lines of the other transitions are made empty, so each line keeps its number. Of a text that is read, a
transition can be taken away: no other line names it, and no other transition's meaning depends on it.
"""
import re
from typing import NamedTuple

BLANKS = b" \t\r"
DEF = re.compile(rb"def[ \t\r]+([A-Za-z_][A-Za-z0-9_]*)")
BRACKET = re.compile(rb"[()\[\]]")


class Transition(NamedTuple):
    """A transition's name, its first physical line and the one behind its last, counted from 0."""

    name: str
    first: int
    behind: int


def logical_lines(text):
    """The logical lines of a specification: the first physical line, the one behind the last, and the bytes without comments."""
    first, nest, parts = None, 0, []
    for number, row in enumerate(text.split(b"\n")):
        row = row.partition(b"#")[0]
        if first is None:
            if not row.strip(BLANKS):
                continue
            first = number
        parts.append(row)
        for bracket in BRACKET.findall(row):
            nest = nest + 1 if bracket in b"([" else max(nest - 1, 0)
        if nest == 0:
            yield first, number + 1, b"\n".join(parts)
            first, parts = None, []
    if first is not None:
        yield first, number + 1, b"\n".join(parts)


def is_transition(name):
    """Whether a function of this name is one; the names of all other functions are kept for them."""
    return name != "equiv" and not name.startswith(("inv_", "prop_"))


def transitions(text):
    """The transitions of a specification's text, in their order."""
    found, inside = [], False
    for first, behind, line in logical_lines(text):
        if line[0] in BLANKS:
            if inside:
                found[-1] = found[-1]._replace(behind=behind)
            continue
        named = DEF.match(line)
        inside = bool(named) and is_transition(named[1].decode())
        if inside:
            found.append(Transition(named[1].decode(), first, behind))
    return found


def only(text, found, names):
    """The text with the transitions of these names alone, and empty lines in place of all others."""
    rows = text.split(b"\n")
    for transition in found:
        if transition.name not in names:
            rows[transition.first:transition.behind] = [b""] * (transition.behind - transition.first)
    return b"\n".join(rows)


def main():
    """transitions.py SPEC HANDLER ..: the specification with these handlers alone, on standard output."""
    import sys

    if len(sys.argv) < 3:
        print("usage: transitions.py SPEC HANDLER ..", file=sys.stderr)
        sys.exit(4)
    with open(sys.argv[1], "rb") as file:
        text = file.read()
    sys.stdout.buffer.write(only(text, transitions(text), sys.argv[2:]))


if __name__ == "__main__":
    main()
