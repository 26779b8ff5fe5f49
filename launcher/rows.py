"""Stored calls of the program, as data: what comes in are texts of rows, what goes out are `Call`s with what is expected of each.

The form of the rows is that of the test program hk_verify_tests (its first lines describe it), whose stored output has the answer
behind each call: lines that are shown, behind two blanks, and the status. `tests/rows` has further ones of the same form. There an
empty row ends what the rows before it left, files too; `folder NAME` makes a folder, `room BYTES` has standard output fail behind so
many bytes; and a line `~ REGEX` behind a call stands for one line, `~? REGEX` for one or none, `~* REGEX` for any number of them.
"""
import re
from typing import NamedTuple, Optional

LOADS = {"verify": 2, "check": 3, "replay": 3, "lrat": 2, "run": 1}
STATUS = re.compile(r"  status (\d+)(?:, \d+ verdicts)?")


class Call(NamedTuple):
    """A call: where it stands, its words, the files that it finds, and what is expected of it."""

    place: str
    words: list
    files: dict  # name -> text; None stands for a folder of that name
    pattern: "re.Pattern"
    expected: str
    status: int
    room: Optional[int]  # so many bytes go to standard output; then it fails
    follows: bool  # whether it goes on in the folder of the call before it


class Left(NamedTuple):
    """A row that no command line can show, and why."""

    place: str
    why: str


def calls_of(text, name, is_apart=False):
    """The calls of a text of rows, where an empty row ends the files too or does not."""
    return Reader(name, is_apart).read(text.split("\n"))


def exact(lines):
    """The form of these very lines."""
    return "".join(re.escape(line) + "\n" for line in lines)


def form_of(lines):
    """The form of lines that are expected, as hk_verify_tests writes them behind `> `."""
    found = []
    for line in lines:
        if line.endswith("*"):
            found.append(re.escape(line[:-1]) + "[^\n]*\n")
        elif line.endswith("?"):
            found.append("(?:" + re.escape(line[:-1]) + "[^\n]*\n)?")
        elif "!" in line:
            front, _, back = line.partition("!")
            found.append(re.escape(front) + "(?!" + re.escape(back) + "\n)[^\n]*\n")
        elif "{" in line:
            front, _, letters = line.partition("{")
            found.append(re.escape(front) + "[" + re.escape(letters) + "]\n")
        else:
            found.append(exact([line]))
    return "".join(found)


class Reader:
    """Reads rows one after the other. What they leave for those below: files, faults, and a table."""

    def __init__(self, name, is_apart):
        self.name, self.is_apart = name, is_apart
        self.files, self.last = {}, None
        self.failing, self.cut, self.room = (), False, None
        self.table = None
        self.is_changed = True
        self.found = []

    def read(self, lines):
        at = 0
        while at < len(lines):
            form, _, field = lines[at].partition(" ")
            if form == "$":
                at = self.call(lines, at, field)
            else:
                self.take(form, field, at)
                at += 1
        return self.found

    def take(self, form, field, at):
        """Takes a row that is no call of its own."""
        if form == "":
            self.failing, self.cut, self.room, self.is_changed = (), False, None, True
            self.files = {} if self.is_apart else self.files
        elif form == "folder":
            self.files[field], self.is_changed = None, True
        elif form == "room":
            self.room = int(field)
        elif form == "file":
            self.files.pop(field, None)
            self.files[field], self.last, self.is_changed = "", field, True
        elif form == "fail":
            self.failing, self.is_changed = tuple(int(it) for it in field.split()), True
        elif form == "cut":
            self.cut = int(field.split()[0]) > 0
        elif form == "table":
            self.table = field
        elif form == "with":
            self.table_row(field, at)
        elif form == "size":
            self.found.append(Left(f"{self.name}:{at + 1}", "generated workloads are no files"))
        elif form not in ("#", "?") and self.last is not None:
            self.is_changed = True
            self.files[self.last] = changed(self.files, self.files[self.last], form, field)

    def call(self, lines, at, words):
        """Takes a call with the lines behind it; the place of the next row."""
        begin, forms, shown = at, [], []
        at += 1
        while lines[at].startswith("> "):
            forms.append(lines[at][2:])
            at += 1
        form = form_of(forms) if forms else ""
        while not STATUS.fullmatch(lines[at]):
            shown.append(lines[at][2:])
            if not forms:
                form += shown_form(lines[at])
            at += 1
        expected = "\n".join(forms or shown)
        self.add(begin, words, self.files, form, expected, int(STATUS.fullmatch(lines[at])[1]))
        return at + 1

    def table_row(self, field, at):
        """Takes a row of a table, whose answer stands on its line: `VALUES => LINE, LINE, status N`."""
        values, _, answer = field.rpartition(" => ")
        holes, _, words = self.table.partition(" : ")
        names = holes.split(" ")
        value = dict(zip(names, values.split(" ", len(names) - 1)))
        files = {name: filled(text, value) for name, text in self.files.items()}
        *lines, last = answer.split(", ")
        self.is_changed = True
        self.add(at, words, files, exact(lines), "\n".join(lines), int(last.removeprefix("status ")))

    def add(self, at, words, files, form, expected, status):
        """Adds a call, or why there is none."""
        place = f"{self.name}:{at + 1}"
        words = [word.replace('"', "").replace("~", " ") for word in words.split(" ")]
        files, room, follows = dict(files), self.room, not self.is_changed
        self.is_changed = False
        for number in self.failing:
            if number and not break_call(words, files, number):
                self.found.append(Left(place, "a fault of the outside that is none of a file's"))
                return
        if self.cut:
            room = len(expected) - 1 if expected.endswith("\\") else len(expected) + bool(expected)
        self.found.append(Call(place, words, files, re.compile(form), expected, status, room, follows))


def shown_form(line):
    """The form of a line behind a call: a form of its own behind a tilde, else the line, of which a backslash at the end says that it does not end."""
    kind, _, rest = line.partition(" ")
    if kind in ("~", "~?", "~*"):
        return {"~": "(?:%s)\n", "~?": "(?:(?:%s)\n)?", "~*": "(?:(?:%s)\n)*"}[kind] % rest
    return re.escape(line[2:-1]) if line.endswith("\\") else exact([line[2:]])


def break_call(words, files, number):
    """Has the load or save of that number fail; whether a file can show that."""
    loads = LOADS.get(words[0], 0)
    if number <= loads:
        files.pop(words[number], None)
        return True
    if number == loads + 1 and "--cert" in words:
        files[words[words.index("--cert") + 1]] = None
        return True
    return False


def filled(text, value):
    """A text with the holes `{NAME}` filled."""
    return re.sub(r"\{([^{}]*)\}", lambda it: value.get(it[1], it[0]), text)


def changed(files, text, form, field):
    """A file's text changed by a row."""
    if form == "|":
        return text + field + "\n"
    if form == "*":
        count, _, part = field.partition(" ")
        return text + part * int(count)
    if form == "pad":
        return text + "\n" * (int(field) - len(text))
    if form == "like":
        return text + files[field]
    if form == "first":
        return "".join(line + "\n" for line in text.split("\n")[: int(field)])
    if form == "swap":
        old, _, new = field.partition(" -> ")
        if old not in text:
            raise ValueError(f"no {old} to swap")
        return text.replace(old, new)
    if form == "each":
        lines = field.split("\\n")
        return text + "".join(line.replace("{}", f"{it:02x}", 1) + "\n" for it in range(256) for line in lines)
    raise ValueError(f"no row of this form: {form}")
