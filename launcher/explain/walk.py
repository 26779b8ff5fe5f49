"""The steps of a run, by the events that a traced run noted: what each instruction read, wrote and computed.

In come a kernel and the events, out go Steps in the order of the run. Integers are the program's own; addresses are followed
here, to name what is read and written, and are only shown.
"""
import re
from dataclasses import dataclass, field

from launcher.explain.tracing import result_type
from launcher.kernel_text import NAME, called, read_type, split_commas, unquote, inside

POISON = 'poison'


@dataclass
class Pointer:
    """An address: a global or slot with an offset in bytes, and its path as the source has it. name is none for null."""
    name: str
    offset: int
    path: str
    poison: bool = False


@dataclass
class Step:
    """An instruction that ran: value is what it gave; address, for a load or a store, and what was stored."""
    function: str
    instr: object
    value: object = None
    address: object = None
    stored: object = None
    operands: list = field(default_factory=list)
    depth: int = 0


class Ended(Exception):
    """The events are at their end."""


class Walk:
    """Follows the events of one run."""

    def __init__(self, kernel, paths, events, silent=(), line=None):
        self.kernel, self.paths, self.silent, self.line = kernel, paths, silent, line
        self.events, self.at, self.steps, self.depth = events, 0, [], 0

    def run(self, handler, args):
        function = self.kernel.functions[handler]
        try:
            self.call(function, list(args))
        except Ended:
            pass
        return self.steps

    def event(self):
        return self.events[self.at] if self.at < len(self.events) else None

    def call(self, function, args):
        values = {name: value for (_, name), value in zip(function.params, args)}
        before, self.depth = None, self.depth + 1
        blocks = {block.name: block for block in function.blocks}
        while True:
            now = self.event()
            if now is None or now[0].function != function.name or now[0].instr is not None:
                raise Ended
            self.at += 1
            block = blocks[now[0].block]
            for instr in block.instrs:
                if instr.op == 'ret':
                    step = self.take(function, instr, values, before)
                    self.depth -= 1
                    return step.value
                self.take(function, instr, values, before)
            before = block.name

    def take(self, function, instr, values, before):
        """Takes one instruction."""
        step = Step(function.name, instr, depth=self.depth)
        self.steps.append(step)
        self.describe(step, values)
        if instr.line == self.line and self.at == len(self.events):
            raise Ended
        over = result_type(instr)
        if called(instr) in self.kernel.functions:
            step.value = self.call(self.kernel.functions[called(instr)], self.arguments(instr, values))
        elif over is not None and over.kind == 'ptr':
            step.value = self.slot(step, values) if instr.op == 'load' else self.pointer(instr, values, before)
        elif instr.op == 'ret':
            step.value = self.last_operand(instr, values)
        if over is not None and over.kind == 'int':
            step.value = self.noted(function, instr)
        if instr.result:
            values[instr.result] = step.value
        return step

    def noted(self, function, instr):
        """The value of an instruction by its event."""
        if instr.line in self.silent:
            return POISON
        now = self.event()
        if now is None or now[0].instr is not instr:
            raise Ended
        self.at += 1
        return now[1]

    def describe(self, step, values):
        """What an instruction is about to read or write."""
        body = step.instr.body
        if step.instr.op == 'load':
            step.address = self.operand(split_commas(body)[1], values)
        elif step.instr.op == 'store':
            value, address = split_commas(body[len('store'):])[:2]
            step.stored, step.address = self.operand(value, values), self.operand(address, values)
            if isinstance(step.address, Pointer) and (step.address.name or '').startswith('%'):
                values['*' + step.address.name] = step.stored
        elif step.instr.op not in ('phi', 'br', 'getelementptr', 'alloca', 'switch'):
            step.operands = self.named_operands(body, values)

    def named_operands(self, body, values):
        code = body.split(', !')[0]
        return [(unquote(name), values[unquote(name)]) for name in re.findall(rf'%({NAME})', code) if unquote(name) in values]

    def last_operand(self, instr, values):
        return None if 'ret void' in instr.text else self.operand(instr.text.split(', !')[0][len('ret'):], values)

    def arguments(self, instr, values):
        begin = re.search(rf'@{NAME}\s*\(', instr.body)
        inner, _ = inside(instr.body, begin.end())
        return [self.operand(part, values) for part in split_commas(inner)]

    def operand(self, text, values):
        """The value of an operand with its type before it: a number, a Pointer, or POISON."""
        text = text.split(', !')[0].strip()
        if 'getelementptr' in text:
            begin = text.index('getelementptr')
            inner, _ = inside(text, text.index('(', begin) + 1)
            return self.element(inner, values, 'inbounds' in text[begin:text.index('(', begin)])
        word = re.split(r'\s+', text)[-1]
        over, _ = read_type(text)
        if word.startswith('%'):
            return values.get(unquote(word[1:]))
        if word.startswith('@'):
            return Pointer(unquote(word[1:]), 0, unquote(word[1:]))
        if word == 'null':
            return Pointer(None, 0, 'null')
        if word in ('true', 'false', 'poison'):
            return POISON if word == 'poison' else int(word == 'true')
        number = re.fullmatch(r'-?\d+', word)
        return int(word) % (1 << over.number) if number and over.kind == 'int' else int(word) if number else None

    # Addresses

    def pointer(self, instr, values, before):
        body = instr.body.split(', !')[0]
        if instr.op == 'getelementptr':
            rest = body[len('getelementptr'):].strip()
            is_bound = rest.startswith('inbounds')
            return self.element(re.sub(r'^(?:(?:inbounds|nuw|nusw)\s+)+', '', rest), values, is_bound)
        if instr.op == 'alloca':
            return Pointer('%' + instr.result, 0, '%' + instr.result)
        if instr.op == 'phi':
            for arm in re.finditer(rf'\[ (.+?), %({NAME}) \]', body):
                if unquote(arm[2]) == before:
                    return self.operand('ptr ' + arm[1], values)
        if instr.op == 'select':
            condition, first, second = split_commas(body[len('select'):])
            chosen = self.operand(condition, values)
            return self.operand(first if chosen else second, values) if chosen in (0, 1) else None
        if instr.op == 'freeze':
            return self.operand(body[len('freeze'):], values)
        return None

    def slot(self, step, values):
        """The address that a local variable holds."""
        return values.get('*' + step.address.name) if isinstance(step.address, Pointer) and step.address.name else None

    def element(self, text, values, is_bound):
        """The address that a getelementptr gives."""
        over, base, *indices = split_commas(text)
        over, base = read_type(over)[0], self.operand(base, values)
        numbers = [self.operand(one, values) for one in indices]
        if not isinstance(base, Pointer) or any(not isinstance(one, int) for one in numbers):
            return Pointer(base.name, base.offset, base.path, True) if isinstance(base, Pointer) else base
        numbers = [signed_index(one, index) for one, index in zip(numbers, indices)]
        offset, path, size = base.offset + numbers[0] * self.kernel.size_of(over), base.path, self.object_size(base)
        left = base.poison or (is_bound and not 0 <= offset <= size)
        if numbers[0]:
            path = stepped(path, numbers[0])
        for number in numbers[1:]:
            over = self.kernel.whole(over)
            if over.kind == 'array':
                over = over.parts[0]
                offset += number * self.kernel.size_of(over)
                path += f'[{number}]'
            else:
                offset += self.kernel.offsets(over)[0][number]
                over = over.parts[number]
                path += f'.f{number}'
            left = left or (is_bound and not 0 <= offset <= size)
        return Pointer(base.name, offset, path, left)

    def object_size(self, pointer):
        over = self.kernel.global_named(pointer.name) if pointer.name else None
        return self.kernel.size_of(over.type) if over else 0

    def path(self, pointer):
        """The path of an address in the words of the source."""
        leaf = self.paths.at(pointer.name, pointer.offset) if pointer.name else None
        if leaf and leaf.offset == pointer.offset and not pointer.poison:
            return leaf.path
        return self.c_path(pointer)

    def c_path(self, pointer):
        """The spelled path with the names of C for members, where debug metadata has them."""
        over = self.kernel.global_named(pointer.name) if pointer.name else None
        ctype = self.kernel.debug.variable(over) if over else None
        if ctype is None or not pointer.path.startswith(pointer.name):
            return pointer.path
        text, at = pointer.name, over.type
        for step in re.findall(r'\[-?\d+\]|\.f\d+', pointer.path[len(pointer.name):]):
            at = self.kernel.whole(at)
            if step.startswith('[') and ctype.kind == 'array' and at.kind == 'array':
                ctype, at, text = ctype.element, at.parts[0], text + step
            elif step.startswith('.') and ctype.kind == 'struct' and at.kind in ('struct', 'packed'):
                offset = 8 * self.kernel.offsets(at)[0][int(step[2:])]
                member = next((one for one in ctype.members if one[1] == offset), None)
                if member is None:
                    return pointer.path
                ctype, at, text = member[3], at.parts[int(step[2:])], f'{text}.{member[0]}'
            else:
                return pointer.path
        return text


def signed_index(number, text):
    """An index by its sign."""
    width = read_type(text.strip())[0].number or 64
    return number - (1 << width) if number >> (width - 1) & 1 else number


def stepped(path, number):
    """A path some elements on: the last index grows, else the step is written out."""
    found = re.fullmatch(r'(.*)\[(-?\d+)\]', path)
    return f'{found[1]}[{int(found[2]) + number}]' if found else f'({path} + {number})'
