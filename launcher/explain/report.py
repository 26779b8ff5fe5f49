"""The report of `hkv verify` by its parts.

In comes the text on standard output, out go the opening and the verdicts; a rejection has its arguments, and the rows of the
kernel's memory or the entries of the abstract state, as the block below it has them.
"""
import re
from dataclasses import dataclass, field

from launcher.kernel_text import unquote

ROW = re.compile(r'  @("[^"]*"|[-\w.$]+)\+(\d+): ([0-9a-f]+)')
ENTRY = re.compile(r'  ([A-Za-z_]\w*)(?:\[([\d, ]+)\])? = (\d+)')
VERDICT = re.compile(r'(accept|reject|unknown|memory) (\S+)(?: (.*))?')


@dataclass
class Case:
    """A state and arguments: rows of memory by global and offset, or entries of fields by their keys."""
    args: list = field(default_factory=list)
    rows: dict = field(default_factory=dict)      # global -> {offset: bytes}
    entries: dict = field(default_factory=dict)   # field -> {keys: number}

    @property
    def is_abstract(self):
        return bool(self.entries)


@dataclass
class Verdict:
    kind: str
    handler: str
    obligation: str = ''
    case: Case = None
    block: list = field(default_factory=list)

    @property
    def about(self):
        """The kind of the obligation and its name: ('state', 'refs'), ('undefined', '')."""
        kind, _, name = self.obligation.partition(' ')
        return kind, name


@dataclass
class Report:
    opening: str = ''
    verdicts: list = field(default_factory=list)
    others: list = field(default_factory=list)

    @property
    def rejections(self):
        return [one for one in self.verdicts if one.kind == 'reject']


def read_row(case, line):
    """Puts a line of a block into a case."""
    if arg := re.fullmatch(r'  arg (\d+) = (\d+)', line):
        case.args.append(int(arg[2]))
    elif row := ROW.fullmatch(line):
        case.rows.setdefault(unquote(row[1]), {})[int(row[2])] = bytes.fromhex(row[3])
    elif entry := ENTRY.fullmatch(line):
        keys = tuple(int(key) for key in entry[2].split(', ')) if entry[2] else ()
        case.entries.setdefault(entry[1], {})[keys] = int(entry[3])


def read(text):
    """The report that a text spells; lines of other forms are kept as they are."""
    found, verdict = Report(), None
    for line in text.splitlines():
        if line.startswith('  ') and verdict:
            verdict.block.append(line)
            read_row(verdict.case, line)
        elif line.startswith('init '):
            found.opening = line
        elif told := VERDICT.fullmatch(line):
            verdict = Verdict(told[1], told[2], told[3] or '', Case())
            found.verdicts.append(verdict)
        elif line:
            verdict = None
            found.others.append(line)
    return found


def read_run(text):
    """The end of a run: ('returns', number or none, rows), ('stuck', code, line) or ('refused', the line)."""
    lines = text.splitlines()
    first = lines[0] if lines else ''
    if stuck := re.fullmatch(r'stuck (U\d+) (\d+)', first):
        return 'stuck', stuck[1], int(stuck[2])
    if returned := re.fullmatch(r'returns(?: (\d+))?', first):
        case = Case()
        for line in lines[1:]:
            read_row(case, line)
        return 'returns', int(returned[1]) if returned[1] else None, case.rows
    return 'refused', first, 0
