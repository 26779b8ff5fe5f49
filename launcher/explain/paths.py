"""Names and values of places in memory, in the words of the source.

In comes a kernel, out goes each integer of a global as a Leaf: its path in C where debug metadata names types and members
(`procs[3].limit`), else as a specification writes it (`procs[3].f1`), and how its number is shown.
"""
import re
from dataclasses import dataclass

from launcher.kernel_debug import CType


@dataclass
class Leaf:
    """An integer in a global: shift and bits are those of a bit-field, else 0 and the whole width."""
    name: str
    path: str
    offset: int
    width: int
    ctype: CType = None
    shift: int = 0
    bits: int = 0

    def of(self, memory):
        value = memory.number(self.name, self.offset, self.width) >> self.shift
        return value & ((1 << (self.bits or self.width)) - 1)

    def shown(self, value):
        return shown(value, self.bits or self.width, self.ctype)


def shown(value, width, ctype=None):
    """A number as C would have it: the name of an enumerator, a sign, else decimal, with the sign of one that is just below zero, or
    hexadecimal, beside it."""
    if value is None:
        return 'none'
    kind = ctype.kind if ctype else 'unsigned'
    signed = value - (1 << width) if value >> (width - 1) & 1 else value
    if kind == 'enum':
        name = ctype.names.get(value) or ctype.names.get(signed)
        if name:
            return f'{name} ({value})'
    if kind == 'signed':
        return str(signed)
    if width > 1 and -min(4096, 1 << width // 2 - 1) <= signed < 0:
        return f'{value} ({signed})'
    return f'{value} ({value:#x})' if value > 65535 else str(value)


class Paths:
    """The leaves of the globals of a kernel, by the bytes that they hold: none is made that nobody asks for."""

    def __init__(self, kernel):
        self.kernel, self.ctypes = kernel, {}

    def ctype(self, over):
        """The C type of a global, where it is known and as large as the global."""
        if over.name not in self.ctypes:
            found = self.kernel.debug.variable(over)
            self.ctypes[over.name] = found if found and found.size == 8 * self.kernel.size_of(over.type) else None
        return self.ctypes[over.name]

    def covering(self, over, byte):
        """The leaves that hold a byte of a global: several where they are bit-fields."""
        ctype = self.ctype(over)
        found = list(c_leaves(over.name, ctype, byte)) if ctype else []
        return found or list(plain_leaves(self.kernel, over.name, over.type, byte))

    def at(self, name, offset):
        """The leaf that holds a byte of a global, or none."""
        over = self.kernel.global_named(name)
        return next(iter(self.covering(over, offset)), None) if over else None

    def of_bytes(self, over, numbers):
        """The leaves that hold some of these bytes, each once, in their order."""
        found, end = {}, -1
        for byte in numbers:
            if byte < end:
                continue
            leaves = self.covering(over, byte)
            found.update({(leaf.offset, leaf.shift): leaf for leaf in leaves})
            end = max((leaf.offset + leaf.width // 8 for leaf in leaves if not leaf.bits), default=-1)
        return list(found.values())

    def changed(self, before, after):
        """The leaves whose numbers differ in two memories, with both."""
        found = []
        for over in self.kernel.mutable:
            was, now = before.bytes[over.name], after.bytes[over.name]
            if was != now:
                leaves = self.of_bytes(over, (k for k in range(len(was)) if was[k] != now[k]))
                found += [(leaf, leaf.of(before), leaf.of(after)) for leaf in leaves if leaf.of(before) != leaf.of(after)]
        return found

    def nonzero(self, memory):
        """The leaves that are not zero, with their numbers."""
        found = []
        for over in self.kernel.mutable:
            content = memory.bytes[over.name]
            if any(content):
                leaves = self.of_bytes(over, (k for k, byte in enumerate(content) if byte))
                found += [(leaf, leaf.of(memory)) for leaf in leaves if leaf.of(memory)]
        return found


def plain_leaves(kernel, name, over, byte, offset=0, path=None):
    """The integer of an LLVM type that holds a byte, under the path of a specification."""
    over, path = kernel.whole(over), name if path is None else path
    if over.kind == 'int':
        if offset <= byte < offset + over.number // 8:
            yield Leaf(name, path, offset, over.number)
    elif over.kind == 'array':
        size = kernel.size_of(over.parts[0])
        at = (byte - offset) // size if size else over.number
        if 0 <= at < over.number:
            yield from plain_leaves(kernel, name, over.parts[0], byte, offset + at * size, f'{path}[{at}]')
    elif over.kind in ('struct', 'packed'):
        for k, (part, at) in enumerate(zip(over.parts, kernel.offsets(over)[0])):
            if offset + at <= byte < offset + at + kernel.size_of(part):
                yield from plain_leaves(kernel, name, part, byte, offset + at, f'{path}.f{k}')


def c_leaves(name, ctype, byte, offset=0, path=None):
    """The integers of a C type that hold a byte; offset is in bits. Padding has none, and of a union the widest member is shown."""
    path = name if path is None else path
    if ctype.kind == 'array':
        at = (8 * byte - offset) // ctype.element.size if ctype.element.size else ctype.count
        if 0 <= at < ctype.count:
            yield from c_leaves(name, ctype.element, byte, offset + at * ctype.element.size, f'{path}[{at}]')
    elif ctype.kind in ('struct', 'union'):
        members = ctype.members if ctype.kind == 'struct' else widest(ctype.members)
        for member, at, bits, inner in members:
            if not (offset + at < 8 * byte + 8 and 8 * byte < offset + at + bits):
                continue
            inner_path = f'{path}.{member}' if member else path
            if inner.kind not in ('array', 'struct', 'union') and bits != inner.size:
                yield bit_field(name, inner_path, offset + at, bits, inner)
            else:
                yield from c_leaves(name, inner, byte, offset + at, inner_path)
    elif ctype.size in (8, 16, 32, 64):
        yield Leaf(name, path, offset // 8, ctype.size, ctype)


def widest(members):
    """The first of the members of a union that take most room."""
    most = max((bits for _, _, bits, _ in members), default=0)
    return [one for one in members if one[2] == most][:1]


def bit_field(name, path, at, bits, inner):
    """A leaf of some bits: the smallest word at a multiple of its size that holds them."""
    for width in (8, 16, 32, 64):
        if at // width == (at + bits - 1) // width:
            return Leaf(name, path, at // width * width // 8, width, inner, at % width, bits)
    return Leaf(name, path, at // 8, 64, inner, at % 8, bits)


def place_of(kernel, text):
    """The global and the offset of a path `kernel.NAME[..].fK` with numbers for indices, or none."""
    found = re.fullmatch(r'kernel\.([A-Za-z_]\w*)((?:\[\d+\]|\.f\d+)*)', text)
    over = kernel.global_named(found[1]) if found else None
    if over is None:
        return None
    at, offset = over.type, 0
    for step in re.findall(r'\[\d+\]|\.f\d+', found[2]):
        at = kernel.whole(at)
        number = int(re.sub(r'\D', '', step))
        if number >= (at.number if at.kind == 'array' else len(at.parts)):
            return None
        offset += number * kernel.size_of(at.parts[0]) if at.kind == 'array' else kernel.offsets(at)[0][number]
        at = at.parts[0] if at.kind == 'array' else at.parts[number]
    return over.name, offset
