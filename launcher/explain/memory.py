"""The memory of a kernel in a state, and the kernel's text that begins there.

In come rows of a report, out go the bytes of each mutable global, and a text in which they are its initial values. Lines
keep their numbers, so a line of a run in that text is a line of the kernel.
"""
import re

from launcher.kernel_text import quote


class Memory:
    """Bytes by the names of globals; constants are none of them."""

    def __init__(self, kernel, rows=None):
        self.kernel = kernel
        self.bytes = {over.name: bytearray(kernel.size_of(over.type)) for over in kernel.mutable}
        for name, parts in (rows or {}).items():
            for offset, row in parts.items():
                if name in self.bytes:
                    self.bytes[name][offset:offset + len(row)] = row

    def copy(self):
        made = Memory(self.kernel)
        made.bytes = {name: bytearray(content) for name, content in self.bytes.items()}
        return made

    def number(self, name, offset, width):
        """The number of a width in bits at a place of a global."""
        return int.from_bytes(self.bytes[name][offset:offset + width // 8], 'little')

    def put(self, name, offset, width, value):
        self.bytes[name][offset:offset + width // 8] = value.to_bytes(width // 8, 'little')

    def rows(self):
        """The lines of a state block: sixteen bytes each, without those of zeros."""
        found = []
        for name, content in self.bytes.items():
            for at in range(0, len(content), 16):
                row = bytes(content[at:at + 16])
                if any(row):
                    found.append(f'  @{quote(name)}+{at}: {row.hex()}')
        return found


def begins_in(kernel, memory):
    """The kernel's text with this memory as the initial values of its mutable globals."""
    lines = list(kernel.lines)
    for over in kernel.mutable:
        text = ''.join(f'\\{byte:02X}' for byte in memory.bytes[over.name])
        size = len(memory.bytes[over.name])
        lines[over.line - 1] = f'@{spelled(over.name)} = global [{size} x i8] c"{text}", align {over.align or 1}'
        for later in range(over.line, over.last):
            lines[later] = ''
    return '\n'.join(lines)


def typed(kernel, memory):
    """The same with initial values of the globals' own types, so that paths of a specification go through them; bytes of
    padding are 0."""
    lines = list(kernel.lines)
    for over in kernel.mutable:
        value = initialiser(kernel, over.type, memory.bytes[over.name])
        lines[over.line - 1] = f'@{spelled(over.name)} = global {over.type} {value}, align {over.align or 1}'
        for later in range(over.line, over.last):
            lines[later] = ''
    return '\n'.join(lines)


def initialiser(kernel, over, content):
    """The initial value of a type that has these bytes."""
    over = kernel.whole(over)
    if not any(content):
        return 'zeroinitializer'
    if over.kind == 'int':
        return str(int.from_bytes(content, 'little'))
    if over.kind == 'array':
        size = kernel.size_of(over.parts[0])
        places = [k * size for k in range(over.number)]
    else:
        places = kernel.offsets(over)[0]
    parts = over.parts * over.number if over.kind == 'array' else over.parts
    told = ', '.join(f'{part} {initialiser(kernel, part, content[at:at + kernel.size_of(part)])}'
                     for part, at in zip(parts, places))
    left, right = {'array': '[]', 'struct': '{}', 'packed': ('<{', '}>')}[over.kind]
    return f'{left} {told} {right}'


def spelled(name):
    """A name as a kernel's text has it."""
    return name if re.fullmatch(r'[-\w.$]+', name, re.A) else quote(name)
