"""Functions of a kernel that no verdict is about: they have a body, no transition names them, and no other function calls them.

What comes in: a kernel's bytes, and the names of all transitions. What goes out: these functions with their lines. A function counts as
called where its name stands before a parenthesis anywhere but at its own `define` or a `declare`.
"""
import re

ASIDE = re.compile(rb'(@"[^"\n]*")|"[^"\n]*"|;.*')
NAMED = re.compile(rb'@("[^"\n]*"|[-\w.$]+)[ \t\r]*\(')
ESCAPE = re.compile(rb"\\(\\|[0-9A-Fa-f]{2})")


def unquoted(name):
    """A name by its bytes."""
    if not name.startswith(b'"'):
        return name
    return ESCAPE.sub(lambda found: b"\\" if found[1] == b"\\" else bytes.fromhex(found[1].decode()), name[1:-1])


def functions(kernel, transitions):
    """The functions that nothing is said of: pairs of the name's bytes and the line."""
    defined, called = [], {name.encode() for name in transitions}
    for number, line in enumerate(kernel.split(b"\n"), 1):
        if b"@" not in line or b"(" not in line:
            continue
        if b'"' in line or b";" in line:
            line = ASIDE.sub(lambda found: found[1] or b"", line)
        names = [unquoted(name) for name in NAMED.findall(line)]
        if line.lstrip().startswith(b"define"):
            defined += [(name, number) for name in names[:1]]
            called.update(names[1:])
        elif not line.lstrip().startswith(b"declare"):
            called.update(names)
    return [(name, number) for name, number in defined if name not in called]


def tell(kernel, spec):
    """Says behind a report how many there are, where there are some; silent where a text cannot be read once more."""
    import os

    from launcher.say import say
    from launcher.transitions import transitions

    try:
        if not (os.path.isfile(kernel) and os.path.isfile(spec)):
            return
        with open(kernel, "rb") as file, open(spec, "rb") as other:
            count = len(functions(file.read(), [transition.name for transition in transitions(other.read())]))
    except (OSError, ValueError):
        return
    if count:
        say(
            f"{count} {'functions have' if count > 1 else 'function has'} a body, but no transition names "
            f"{'them' if count > 1 else 'it'} and no function calls {'them' if count > 1 else 'it'}: nothing is said of "
            f"{'them' if count > 1 else 'it'}; 'hkv premises KERNEL SPEC' lists {'them' if count > 1 else 'it'}"
        )
