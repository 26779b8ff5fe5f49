"""The words of a call, turned into the program's fixed forms, and the program's answer to them.

What comes in: the words as the user wrote them, with options in any order, in front of the names or behind them. What goes out: the exit
status, once the program has answered on standard output. `--only`, `--time`, `--jobs` and `--hosts` are the launcher's own: see
`handlers`, `timing` and `jobs`. An option is one of those listed here; a file of such a name is written `./--time`, and behind `--` all
words are names.
"""
from launcher import program
from launcher.say import say

# The options of a command, each with whether a value stands behind it.
OPTIONS = {
    "verify": {"--conflicts": True, "--cert": True, "--only": True, "--time": False, "--jobs": True, "--hosts": True},
    "check": {"--only": True},
    "replay": {"--only": True},
}
NAMES = {"verify": 2, "check": 3, "replay": 3}
REPEATED = ("--only",)
HELP = ("--help", "-h")
MOST_CONFLICTS = 1_000_000
MOST_JOBS = 1_000
REFUSED = 3
USAGE = 4
REPORTED = (0, 1, 2, 7)
PROGRAMS_OWN = (*OPTIONS, "lrat", "run", "bench")


class Misused(Exception):
    """The words are at fault, and why."""


class Asked:
    """A command with its names and its options, each with the values that were given."""

    def __init__(self, command):
        self.command, self.names, self.given = command, [], {}

    def value(self, option):
        """The value of an option that stands at most once, or None."""
        return self.given.get(option, [None])[0]

    def fixed(self, names=None):
        """The program's form of words, over these names in place of the user's."""
        words = [self.command, *(names or self.names)]
        for option in ("--conflicts", "--cert"):
            for value in self.given.get(option, []):
                words += [option, value]
        return words

    def is_plain(self):
        """Whether the program alone answers."""
        return not any(option in self.given for option in ("--only", "--time", "--jobs", "--hosts"))


def run(words):
    """Answers a call of the program's commands, or words without a form; the exit status."""
    command = words[0] if words else ""
    if command not in OPTIONS or not any(word.startswith("-") for word in words):
        return shown(command) if command in PROGRAMS_OWN and words[1:2] and words[1] in HELP else answer(words)
    try:
        asked = parse(words)
        if asked is None:
            return shown(command)
        tried(asked)
        if asked.is_plain():
            return answer(asked.fixed())
        from launcher import calls

        return calls.run(asked)
    except Misused as why:
        return misused(words, str(why))


def shown(command):
    """Shows the page of a command."""
    from launcher import help

    return help.run([command])


def parse(words):
    """What the words ask for; None where they ask for help."""
    asked, options, left = Asked(words[0]), OPTIONS[words[0]], words[1:]
    while left:
        word = left.pop(0)
        option, equals, value = word.partition("=")
        if word == "--":
            asked.names += left
            left = []
        elif word in HELP:
            return None
        elif option in options and (equals or not options[option] or left):
            if equals and not options[option]:
                raise Misused(f"{option} takes no value")
            put(asked, option, value if equals else left.pop(0) if options[option] else None)
        elif option in options:
            raise Misused(f"{option} asks for a value behind it")
        else:
            asked.names.append(word)
    return asked


def put(asked, option, value):
    """Adds an option with its value."""
    if option in asked.given and option not in REPEATED:
        raise Misused(f"{option} stands twice")
    asked.given.setdefault(option, []).append(value)


def tried(asked):
    """Tries the words that the program does not get to see, in the order in which it would."""
    if len(asked.names) != NAMES[asked.command]:
        unknown = [name for name in asked.names if name.startswith("--")]
        raise Misused(f"{asked.command} has no option {unknown[0]}" if unknown else "another number of files")
    if not all(map(is_text, asked.fixed())):
        raise Misused("a word is not UTF-8")
    if not has_form(asked.fixed()):
        raise Misused(f"--conflicts takes a number from 1 to {MOST_CONFLICTS:,}")
    if not is_number(asked.value("--jobs") or "1", 1, MOST_JOBS):
        raise Misused(f"--jobs takes a number from 1 to {MOST_JOBS:,}")


def is_number(word, least, most):
    """Whether a word is the decimal digits of a number, without a leading zero, in these bounds."""
    return word.isascii() and word.isdigit() and str(int(word[:25])) == word and least <= int(word) <= most


def is_text(word):
    """Whether the program can take the word: it is UTF-8."""
    try:
        word.encode()
    except UnicodeEncodeError:
        return False
    return True


def has_form(words):
    """Whether the words have one of the program's fixed forms."""
    match words if all(map(is_text, words)) else []:
        case ["verify", _, _, *options]:
            if options[-2:-1] == ["--cert"]:
                del options[-2:]
            return not options or (options[:-1] == ["--conflicts"] and is_number(options[-1], 1, MOST_CONFLICTS))
        case ["check" | "replay", _, _, _] | ["lrat", _, _]:
            return True
        case ["run", _, _, *arguments]:
            return all(is_number(word, 0, 2**64 - 1) for word in arguments)
        case ["bench", count]:
            return is_number(count, 1, 64)
    return False


def answer(words):
    """The program's answer to words of its own, with a hint where they have no form; the exit status."""
    if not has_form(words):
        return misused(words, "")
    from launcher import refusals

    status = refusals.run(words)
    if status == REFUSED:
        from launcher import kinds

        kinds.tell(words)
    elif words[0] == "verify" and status in REPORTED:
        from launcher import unnamed

        unnamed.tell(words[1], words[2])
    return status


def misused(words, why):
    """The program's usage line, and where to read on; the exit status."""
    status = program.run([] if has_form(words) else words).returncode
    if status == USAGE:
        if why:
            say(why)
        known = words and words[0] in PROGRAMS_OWN
        say(f"'hkv {words[0]} --help' says which words it takes" if known else "'hkv --help' lists the commands")
    return status
