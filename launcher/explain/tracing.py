"""A copy of a kernel that writes down what its run does, so that the program's own run tells each value on the way.

In come a kernel, its memory, a handler and the line at which its run is stuck, or none; out goes a text in which each
function that the handler comes to notes the blocks that it enters and the integers that it computes in arrays behind the
kernel's variables, and returns where the run would be stuck. Nothing is interpreted here: the values are those of `hkv run`.
"""
import re
from dataclasses import dataclass

from launcher.explain.memory import begins_in, spelled
from launcher.kernel_text import NAME, Type, called, read_type, unquote

BINARY = set('add sub mul shl udiv sdiv lshr ashr urem srem and or xor'.split())
FLAGS = re.compile(r'(?:nuw|nsw|exact|disjoint|nneg|samesign)\s+')
CONVERSIONS = ('trunc', 'zext', 'sext')


@dataclass(frozen=True)
class Event:
    """What a number in the array of events stands for: the entry of a block, or a value of an instruction."""
    function: str
    block: str
    instr: object = None


def result_type(instr):
    """The type of what an instruction gives, or none."""
    body = re.sub(r'^(?:tail |musttail |notail )?', '', instr.body)
    rest = body[len(instr.op):].lstrip()
    if not instr.result:
        return None
    if instr.op == 'icmp':
        return Type('int', 1)
    if instr.op in CONVERSIONS:
        return read_type(body, body.rindex(' to ') + 4)[0]
    if instr.op == 'select':
        return read_type(rest.split(',', 1)[1])[0]
    if instr.op == 'extractvalue':
        over, at = read_type(rest)
        return over.parts[int(rest.split(',')[-1] if '!' not in rest else re.search(r', (\d)', rest[at:])[1])]
    if instr.op in ('getelementptr', 'alloca'):
        return Type('ptr')
    if instr.op == 'call':
        return call_type(rest)
    while flag := FLAGS.match(rest):
        rest = rest[flag.end():]
    return read_type(rest)[0]


def call_type(rest):
    """The result of a call, behind words that are dropped."""
    words = re.match(r'((?:fastcc|ccc|noundef|zeroext|signext|inreg|noalias|nonnull|range\([^)]*\)|dereferenceable\(\d+\)|'
                     r'dereferenceable_or_null\(\d+\)|align \d+) )*', rest)
    return read_type(rest, words.end())[0]


class Tracing:
    """The copy's text, and what its events stand for. turn is which arrival at the line is the one that is stuck; room is how
    many events there may be; silent are the instructions whose values are poison, and so not noted."""

    def __init__(self, kernel, memory, handler, line=None, turn=1, room=4096, silent=()):
        self.kernel, self.line, self.turn, self.room, self.silent = kernel, line, turn, room, set(silent)
        self.events, self.count, self.out, self.origin = [None], 0, [], []
        self.reach = self.functions(handler)
        self.text = self.write(begins_in(kernel, memory))

    def functions(self, handler):
        found, todo = {}, [handler]
        while todo:
            name = todo.pop()
            if name in self.kernel.functions and name not in found:
                found[name] = self.kernel.functions[name]
                todo += found[name].calls()
        return found

    # The text

    def emit(self, text, line=0, instr=None):
        self.out.append(text)
        self.origin.append((line, instr))

    def write(self, text):
        lines, at = text.split('\n'), 1
        heads = {function.line: function for function in self.reach.values()}
        first = min(function.line for function in self.kernel.functions.values())
        while at <= len(lines):
            if at == first:
                self.arrays()
            if at in heads:
                self.function(heads[at])
                at = heads[at].end + 1
                continue
            self.emit(lines[at - 1], at)
            at += 1
        return '\n'.join(self.out)

    def arrays(self):
        self.emit('@hkv.count = global i64 0')
        self.emit('@hkv.turn = global i64 0')
        self.emit('@hkv.stopped = global i8 0')
        self.emit(f'@hkv.events = global [{self.room} x i32] zeroinitializer')
        self.emit(f'@hkv.values = global [{self.room} x i64] zeroinitializer')

    def fresh(self):
        self.count += 1
        return f'hkv.{self.count}'

    def function(self, function):
        self.emit(function.head, function.line)
        self.last_part = {}
        parts = [self.block(function, block) for block in function.blocks]
        for block_lines in parts:
            for text, line, instr in block_lines:
                self.emit(self.renamed(text) if instr is not None and instr.op == 'phi' else text, line, instr)
        self.emit('hkv.out:')
        over = function.result
        zero = {'void': 'void', 'ptr': 'ptr null'}.get(over.kind, f'{over} 0')
        self.emit(f'  ret {zero}')
        self.emit('}', function.end)

    def renamed(self, text):
        """A phi whose arms name the last part of each block that was cut."""
        return re.sub(rf', %({NAME}) \]', lambda found: f', %{self.last_part.get(unquote(found[1]), found[1])} ]', text)

    def block(self, function, block):
        """The lines of a block: triples of a text, its line in the kernel, and its instruction."""
        found = [(f'{spelled(block.name)}:', block.line, None)] if block.labelled else []
        phis = [instr for instr in block.instrs if instr.op == 'phi']
        found += [(f'  {phi.text}', phi.line, phi) for phi in phis]
        found += self.note(Event(function.name, block.name))
        for phi in phis:
            found += self.note_value(function, block, phi)
        for instr in block.instrs[len(phis):]:
            if instr.line == self.line:
                found += self.arrival(block)
            found.append((f'  {instr.text}', instr.line, instr))
            if called(instr) in self.kernel.functions:
                found += self.behind_call(block)
            found += self.note_value(function, block, instr)
        return found

    def cut(self, block):
        """A new part of a block, of which it is the last so far."""
        name = self.fresh()
        self.last_part[block.name] = name
        return name

    def arrival(self, block):
        """Counts arrivals, and returns at the one that is asked for."""
        a, b, c, onward = self.fresh(), self.fresh(), self.fresh(), self.cut(block)
        stop = self.fresh()
        return [(text, 0, None) for text in (
            f'  %{a} = load i64, ptr @hkv.turn', f'  %{b} = add i64 %{a}, 1', f'  store i64 %{b}, ptr @hkv.turn',
            f'  %{c} = icmp eq i64 %{b}, {self.turn}', f'  br i1 %{c}, label %{stop}, label %{onward}', f'{stop}:',
            '  store i8 1, ptr @hkv.stopped', '  br label %hkv.out', f'{onward}:')]

    def behind_call(self, block):
        a, b, onward = self.fresh(), self.fresh(), self.cut(block)
        return [(text, 0, None) for text in (
            f'  %{a} = load i8, ptr @hkv.stopped', f'  %{b} = icmp eq i8 %{a}, 0',
            f'  br i1 %{b}, label %{onward}, label %hkv.out', f'{onward}:')]

    def note_value(self, function, block, instr):
        over = result_type(instr)
        if over is None or over.kind != 'int' or instr.line in self.silent:
            return []
        return self.note(Event(function.name, block.name, instr), over.number)

    def note(self, event, width=None):
        """Puts an event, with the value of its instruction where it has a width."""
        number = len(self.events)
        self.events.append(event)
        a, b, c, d, e = (self.fresh() for _ in range(5))
        lines = [f'  %{a} = load i64, ptr @hkv.count',
                 f'  %{b} = getelementptr inbounds [{self.room} x i32], ptr @hkv.events, i64 0, i64 %{a}',
                 f'  store i32 {number}, ptr %{b}', f'  %{e} = add i64 %{a}, 1', f'  store i64 %{e}, ptr @hkv.count']
        if width:
            value = f'%{spelled(event.instr.result)}'
            if width < 64:
                lines.append(f'  %{d} = zext i{width} {value} to i64')
                value = f'%{d}'
            lines += [f'  %{c} = getelementptr inbounds [{self.room} x i64], ptr @hkv.values, i64 0, i64 %{a}',
                      f'  store i64 {value}, ptr %{c}']
        return [(text, 0, event.instr) for text in lines]

    # What a run of the copy says

    def events_of(self, rows):
        """The events of a run in order, as pairs of an event and its value, by the rows of the memory behind it."""
        events, values = joined(rows.get('hkv.events', {}), 4 * self.room), joined(rows.get('hkv.values', {}), 8 * self.room)
        count = int.from_bytes(joined(rows.get('hkv.count', {}), 8), 'little')
        return [(self.events[int.from_bytes(events[4 * k:4 * k + 4], 'little')],
                 int.from_bytes(values[8 * k:8 * k + 8], 'little')) for k in range(min(count, self.room))]


def joined(rows, size):
    content = bytearray(size)
    for offset, row in rows.items():
        content[offset:offset + len(row)] = row
    return bytes(content)


def trace(ask, kernel, memory, handler, args, line=None, most=400):
    """The events of a run from a memory, up to its end or to where it is stuck, with the lines whose values are poison; none
    where the program did not tell them."""
    silent, turn, room, best = set(), 1, 4096, None
    for _ in range(most):
        copy = Tracing(kernel, memory, handler, line, turn, room, silent)
        kind, code, behind = ask.run(copy.text, handler, args)
        if kind == 'returns':
            best = copy.events_of(behind), silent
            if line is None:
                return best
            turn += 1
        elif kind == 'stuck':
            origin, instr = copy.origin[behind - 1]
            if origin == line and line is not None:
                return best
            if origin == 0 and code == 'U9' and instr is not None:
                silent = silent | {instr.line}
            elif origin == 0 and room < 60000:
                room *= 15
            else:
                return None
        else:
            return None
    return None
