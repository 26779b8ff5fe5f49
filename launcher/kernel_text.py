"""A light reader of LLVM text, for what is only shown: types, globals, functions, blocks and instructions.

In comes the text of a kernel, out goes a Kernel whose parts know their lines. It reads what `hkv` reads, and is lenient
elsewhere: whatever it does not know is left out. Nothing that it finds is a verdict. Debug metadata is kernel_debug.py's.
"""
import re
from dataclasses import dataclass, field
from functools import cached_property

NAME = r'(?:"[^"\n]*"|[-\w.$]+)'
TOKEN = re.compile(rf'\s*(<\{{|\}}>|\.\.\.|c?"[^"\n]*"|[%@!]{NAME}|#\w+|-?\d+(?![\w.$])|[.\w$][-\w.$]*|[^\s])')
MARKS = re.compile(r'"[^"\n]*"|;.*|[()\[\]{}]')
LABEL = re.compile(rf'({NAME}):\s*$')
LINKAGE = r'(?:[a-z_]+(?:\([^)]*\))? )*?'
GLOBAL = re.compile(rf'@({NAME}) = {LINKAGE}(global|constant) ')
DEFINE = re.compile(rf'define .*?@({NAME})\s*\(')
DECLARE = re.compile(rf'declare .*?@({NAME})\s*\(')
CLOSING = {')': '(', ']': '[', '}': '{'}


@dataclass(frozen=True)
class Type:
    """A type as it is spelled: kind is int, ptr, void, array, struct, packed, named or other."""
    kind: str
    number: int = 0
    parts: tuple = ()
    name: str = ''

    def __str__(self):
        if self.kind == 'int':
            return f'i{self.number}'
        if self.kind == 'array':
            return f'[{self.number} x {self.parts[0]}]'
        if self.kind in ('struct', 'packed'):
            inner = ', '.join(map(str, self.parts))
            return f'{{ {inner} }}' if self.kind == 'struct' else f'<{{ {inner} }}>'
        return self.name if self.kind in ('named', 'other') else self.kind


@dataclass
class Instr:
    """An instruction with its first line; its text has no comment, and its lines are joined by spaces."""
    line: int
    text: str
    result: str = ''
    op: str = ''

    @property
    def body(self):
        """The text behind `%x = `."""
        return self.text.split(' = ', 1)[1] if self.result else self.text

    @property
    def metadata(self):
        """The attachments, as `dbg` -> `!12`."""
        return dict(re.findall(r', !([-\w.$]+) (!\d+)', self.text))


@dataclass
class Block:
    """A basic block; a first block without a label has the number that it stands for as its name."""
    name: str
    line: int
    instrs: list = field(default_factory=list)
    labelled: bool = True


@dataclass
class Function:
    """A function: its parameters are pairs of a type and a name without `%`."""
    name: str
    line: int
    result: Type
    params: list
    blocks: list = field(default_factory=list)
    end: int = 0
    head: str = ''

    def instructions(self):
        return (instr for block in self.blocks for instr in block.instrs)

    @property
    def metadata(self):
        return dict(re.findall(r' !([-\w.$]+) (!\d+)', self.head))

    def calls(self):
        """The names of the functions that it calls, each once, in text order."""
        found = (called(instr) for instr in self.instructions())
        return list(dict.fromkeys(name for name in found if name))


@dataclass
class Global:
    """A variable of the kernel; init is the text of its first value, place its number among all globals."""
    name: str
    line: int
    constant: bool
    type: Type
    init: str
    align: int
    place: int
    head: str = ''
    last: int = 0

    @property
    def metadata(self):
        return dict(re.findall(r', !([-\w.$]+) (!\d+)', self.head))


def unquote(name):
    """A name by its bytes: quotes and escapes are taken away."""
    if not name.startswith('"'):
        return name
    return re.sub(r'\\(\\|[0-9A-Fa-f]{2})',
                  lambda found: '\\' if found[1] == '\\' else chr(int(found[1], 16)), name[1:-1])


def quote(name):
    """A name as a report prints it."""
    if name and re.fullmatch(r'[-\w.$]+', name, re.A):
        return name
    return '"' + ''.join(char if re.fullmatch(r'[-\w.$]', char, re.A) else f'\\{ord(char):02X}' for char in name) + '"'


def called(instr):
    """The name of the function that an instruction calls, or none."""
    found = re.match(rf'(?:tail |musttail |notail )?call .*?@({NAME})\s*\(', instr.body)
    return unquote(found[1]) if found else None


def without_comment(line):
    """A line up to its comment."""
    if ';' not in line:
        return line.rstrip()
    for mark in MARKS.finditer(line):
        if mark[0].startswith(';'):
            return line[:mark.start()].rstrip()
    return line.rstrip()


def count_brackets(text, open_marks):
    """The brackets that are open behind a text, which each is closed by its own kind alone."""
    for mark in MARKS.findall(text):
        if mark in '([{':
            open_marks = open_marks + mark
        elif mark in CLOSING and open_marks.endswith(CLOSING[mark]):
            open_marks = open_marks[:-1]
    return open_marks


def items(text):
    """The items of a text: the first and the last line, counted from 1, and the text with its lines joined."""
    first, parts, open_marks = 0, [], ''
    for number, line in enumerate(text.split('\n'), 1):
        line = without_comment(line).strip()
        if not line:
            continue
        first = first if parts else number
        parts.append(line)
        open_marks = count_brackets(line, open_marks)
        if not open_marks or (parts[0].startswith('define') and open_marks == '{'):
            yield first, number, ' '.join(parts)
            parts, open_marks = [], ''
    if parts:
        yield first, text.count('\n') + 1, ' '.join(parts)


def split_commas(text):
    """The parts of a text between commas outside of brackets and strings."""
    parts, begin, depth = [], 0, 0
    for mark in re.finditer(r'"[^"]*"|[()\[\]{}<>,]', text):
        if mark[0] in '([{<':
            depth += 1
        elif mark[0] in ')]}>':
            depth -= 1
        elif mark[0] == ',' and depth == 0:
            parts.append(text[begin:mark.start()].strip())
            begin = mark.end()
    rest = text[begin:].strip()
    return parts + [rest] if rest or parts else []


def read_type(text, at=0):
    """The type at a place of a text, and the place behind it."""
    found = TOKEN.match(text, at)
    if not found:
        return Type('other'), len(text)
    word, at = found[1], found.end()
    if word == '[':
        count = TOKEN.match(text, at)
        inner, at = read_type(text, TOKEN.match(text, count.end()).end())
        return Type('array', int(count[1]), (inner,)), TOKEN.match(text, at).end()
    if word in ('{', '<{'):
        return read_parts(text, at, 'struct' if word == '{' else 'packed')
    if re.fullmatch(r'i\d+', word):
        return Type('int', int(word[1:])), at
    if word in ('ptr', 'void'):
        return Type(word), at
    return Type('named' if word.startswith('%') else 'other', name=word), at


def read_parts(text, at, kind):
    """The parts of a struct, behind its opening bracket."""
    parts = []
    while True:
        found = TOKEN.match(text, at)
        if not found or found[1] in ('}', '}>'):
            return Type(kind, parts=tuple(parts)), found.end() if found else len(text)
        if found[1] == ',':
            at = found.end()
            continue
        part, at = read_type(text, at)
        parts.append(part)


def inside(text, at):
    """The text between the bracket that ends at a place and the one that closes it, and the place behind that."""
    depth = 1
    for mark in re.finditer(r'"[^"]*"|[()\[\]{}]', text[at:]):
        depth += (mark[0] in '([{') - (mark[0] in ')]}')
        if depth == 0:
            return text[at:at + mark.start()], at + mark.end()
    return text[at:], len(text)


def read_params(text):
    """The parameters between the parentheses of a head, and the number that comes next."""
    params, number = [], 0
    for part in split_commas(text):
        over, at = read_type(part)
        named = re.search(rf'%({NAME})\s*$', part[at:])
        name = unquote(named[1]) if named else str(number)
        number += name == str(number)
        params.append((over, name))
    return params, number


def read_head(line, text):
    """The function of a `define` or `declare` item without its body, and the number of a first block without a label."""
    found = (DEFINE if text.startswith('define') else DECLARE).match(text)
    if not found:
        return None, 0
    before = text[:found.start(1) - 1].rstrip()
    begin = max(before.rfind(' ', 0, len(before)) + 1, 0)
    for mark in ('[', '{', '<'):
        if before[-1:] in (']', '}', '>') and mark in before:
            begin = min(begin, before.find(mark))
    inner, _ = inside(text, found.end())
    params, number = read_params(inner)
    return Function(unquote(found[1]), line, read_type(before, begin)[0], params, head=text), number


def read_instr(line, text):
    named = re.match(rf'%({NAME}) = (?:tail |musttail |notail )?(\w+)', text)
    if named:
        return Instr(line, text, unquote(named[1]), named[2])
    found = re.match(r'(?:tail |musttail |notail )?([#\w]+)', text)
    return Instr(line, text, '', found[1] if found else '')


class Kernel:
    """A kernel text: types by name, globals in text order, functions with a body and declared ones by name."""

    def __init__(self, text, path=''):
        self.text, self.path = text, path
        self.lines = text.split('\n')
        self.types, self.globals, self.functions, self.declared = {}, [], {}, {}
        self.metadata, self.named_metadata, self.layout_text, self.heads = {}, {}, '', []
        self._read()

    def _read(self):
        function, number = None, 0
        for line, last, text in items(self.text):
            if function is not None:
                function = self._read_inner(function, number, line, text)
            elif text.startswith('define'):
                function, number = read_head(line, text)
                self._keep(function)
            else:
                self._read_top(line, last, text)

    def _keep(self, function):
        if function is not None:
            self.functions.setdefault(function.name, function)

    def _read_inner(self, function, number, line, text):
        """Reads an item of a body, and gives the function while its body goes on."""
        if text.startswith('}'):
            function.end = line
            return None
        label = LABEL.match(text)
        if label:
            function.blocks.append(Block(unquote(label[1]), line))
            return function
        if not function.blocks:
            function.blocks.append(Block(str(number), line, labelled=False))
        function.blocks[-1].instrs.append(read_instr(line, text))
        return function

    def _read_top(self, line, last, text):
        if text.startswith('@'):
            self._read_global(line, last, text)
        elif text.startswith('declare'):
            function, _ = read_head(line, text)
            if function:
                self.declared.setdefault(function.name, function)
        elif text.startswith('!'):
            name, _, node = text.partition(' = ')
            self.metadata[name] = node
        elif named := re.match(rf'(%{NAME}) = type ', text):
            self.types[named[1]] = read_type(text, named.end())[0]
        elif layout := re.match(r'target datalayout = "([^"]*)"', text):
            self.layout_text = layout[1]

    def _read_global(self, line, last, text):
        found = GLOBAL.match(text)
        if not found:
            return
        over, at = read_type(text, found.end())
        parts = split_commas(text[at:])
        align = next((int(part[6:]) for part in parts[1:] if re.fullmatch(r'align \d+', part)), 0)
        self.globals.append(Global(unquote(found[1]), line, found[2] == 'constant', over, parts[0] if parts else '',
                                   align or self.align_of(over), len(self.globals), text, last))

    # Layout

    def whole(self, over):
        """A type behind its names."""
        seen = set()
        while over.kind == 'named' and over.name not in seen and over.name in self.types:
            seen.add(over.name)
            over = self.types[over.name]
        return over

    def align_of(self, over):
        over = self.whole(over)
        if over.kind == 'int':
            return over.number // 8 if over.number in (8, 16, 32, 64) else 1
        if over.kind == 'array':
            return self.align_of(over.parts[0])
        if over.kind == 'struct':
            return max(map(self.align_of, over.parts), default=1)
        return 8 if over.kind == 'ptr' else 1

    def size_of(self, over):
        """The bytes of a type; 0 for one without a size."""
        over = self.whole(over)
        if over.kind == 'int':
            return over.number // 8 if over.number in (8, 16, 32, 64) else 0
        if over.kind == 'array':
            return over.number * self.size_of(over.parts[0])
        if over.kind in ('struct', 'packed'):
            end = self.offsets(over)[1]
            align = self.align_of(over)
            return -(-end // align) * align
        return 8 if over.kind == 'ptr' else 0

    def offsets(self, over):
        """The offset of each part of a struct, and the end of the last."""
        over, end, found = self.whole(over), 0, []
        for part in over.parts:
            align = 1 if over.kind == 'packed' else self.align_of(part)
            end = -(-end // align) * align
            found.append(end)
            end += self.size_of(part)
        return found, end

    def leaves(self, over, offset=0, path=''):
        """The integers of a type in order: their path as a specification writes it, their offset and their width."""
        over = self.whole(over)
        if over.kind == 'int':
            yield path, offset, over.number
        elif over.kind == 'array':
            size = self.size_of(over.parts[0])
            for k in range(over.number):
                yield from self.leaves(over.parts[0], offset + k * size, f'{path}[{k}]')
        elif over.kind in ('struct', 'packed'):
            for k, (part, at) in enumerate(zip(over.parts, self.offsets(over)[0])):
                yield from self.leaves(part, offset + at, f'{path}.f{k}')

    @cached_property
    def mutable(self):
        return [over for over in self.globals if not over.constant]

    def global_named(self, name):
        return next((over for over in self.globals if over.name == name), None)

    def function_at(self, line):
        """The function in whose head or body a line stands, or none."""
        return next((one for one in self.functions.values() if one.line <= line <= one.end), None)

    def instr_at(self, line):
        """The instruction on a line, with its function and block, or none."""
        function = self.function_at(line)
        for block in function.blocks if function else ():
            for instr in block.instrs:
                if instr.line == line:
                    return function, block, instr
        return None

    @cached_property
    def debug(self):
        from launcher.kernel_debug import Debug
        return Debug(self)


def load(path):
    with open(path, encoding='utf-8', errors='surrogateescape') as file:
        return Kernel(file.read(), path)
