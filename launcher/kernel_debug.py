"""Debug metadata of LLVM text (clang's `-g`): source places of instructions, and C names and types of variables.

In comes a Kernel of kernel_text.py, out go places (file, line, column), and C types as CType values. Where there is no
metadata, every answer is none.
"""
import os
import re
from dataclasses import dataclass, field

from launcher.kernel_text import split_commas, unquote, inside

WRAPPERS = ('DW_TAG_typedef', 'DW_TAG_const_type', 'DW_TAG_volatile_type', 'DW_TAG_atomic_type')


@dataclass(frozen=True)
class Place:
    """A place of a source text; column 0 is not known. caller is the place of the call that was inlined, or none."""
    file: str
    line: int
    column: int
    function: str = ''
    caller: object = None

    def __str__(self):
        name = os.path.basename(self.file)
        return f'{name}:{self.line}:{self.column}' if self.column else f'{name}:{self.line}'


@dataclass
class CType:
    """A C type: kind is signed, unsigned, bool, enum, array, struct, union, pointer or other; sizes are in bits."""
    kind: str
    size: int
    name: str = ''
    count: int = 0
    element: object = None
    members: list = field(default_factory=list)  # (name, offset in bits, size in bits, CType)
    names: dict = field(default_factory=dict)    # of an enumeration: value -> name


class Debug:
    """The metadata nodes of a kernel, read on demand."""

    def __init__(self, kernel):
        self.kernel, self.nodes = kernel, {}
        self.is_there = any(node.startswith(('!DILocation', '!DISubprogram', 'distinct !DISubprogram'))
                            for node in kernel.metadata.values())

    def node(self, name):
        """The kind and the fields of a specialised node, as `DIFile` and {'filename': ..}."""
        if name not in self.nodes:
            self.nodes[name] = read_node(self.kernel.metadata.get(name, '') if name else '')
        return self.nodes[name]

    def list_of(self, name):
        """The names in a node `!{!1, !2}`."""
        found = re.match(r'(?:distinct )?!\{(.*)\}$', self.kernel.metadata.get(name, '') if name else '')
        return split_commas(found[1]) if found else []

    def string(self, fields, key):
        return unquote(fields[key]) if fields.get(key, '').startswith('"') else ''

    # Places

    def file_of(self, scope):
        """The path of the file of a scope, as the compiler was told, with its folder before it where it is relative."""
        for _ in range(100):
            kind, fields = self.node(scope)
            if kind == 'DIFile':
                name, folder = self.string(fields, 'filename'), self.string(fields, 'directory')
                return name if os.path.isabs(name) or not folder else os.path.join(folder, name)
            if not kind:
                return ''
            scope = fields.get('file') or fields.get('scope')
        return ''

    def function_of(self, scope):
        for _ in range(100):
            kind, fields = self.node(scope)
            if kind == 'DISubprogram':
                return self.string(fields, 'name')
            if not kind:
                return ''
            scope = fields.get('scope')
        return ''

    def place_of_node(self, name):
        kind, fields = self.node(name)
        if kind != 'DILocation':
            return None
        scope = fields.get('scope')
        caller = self.place_of_node(fields['inlinedAt']) if 'inlinedAt' in fields else None
        return Place(self.file_of(scope), int(fields.get('line', 0)), int(fields.get('column', 0)),
                     self.function_of(scope), caller)

    def place(self, instr):
        """Where an instruction comes from, or none; line 0 says nothing."""
        found = self.place_of_node(instr.metadata.get('dbg'))
        return found if found and found.line else None

    def place_of_function(self, function):
        kind, fields = self.node(function.metadata.get('dbg'))
        if kind != 'DISubprogram':
            return None
        return Place(self.file_of(fields.get('file')), int(fields.get('line', 0)), 0, self.string(fields, 'name'))

    # Types

    def variable(self, over):
        """The C type of a global, or none."""
        _, fields = self.node(over.metadata.get('dbg'))
        _, fields = self.node(fields.get('var'))
        return self.type(fields['type']) if 'type' in fields else None

    def params(self, function):
        """The C parameters of a function in order, as pairs of a name and a type, or none where they are not those."""
        kind, fields = self.node(function.metadata.get('dbg'))
        if kind != 'DISubprogram':
            return None
        found = {}
        for name in self.local_variables(function, fields):
            _, variable = self.node(name)
            if variable.get('scope') == function.metadata.get('dbg') and 'arg' in variable:
                found[int(variable['arg'])] = (self.string(variable, 'name'), self.type(variable.get('type')))
        params = [found[k] for k in sorted(found)]
        return params if len(params) == len(function.params) else None

    def result(self, function):
        """The C type of a function's result, or none."""
        _, fields = self.node(function.metadata.get('dbg'))
        _, fields = self.node(fields.get('type'))
        types = self.list_of(fields.get('types'))
        return self.type(types[0]) if types and types[0] != 'null' else None

    def local_variables(self, function, fields):
        kept = self.list_of(fields.get('retainedNodes'))
        if kept:
            return kept
        return [name for name, node in self.kernel.metadata.items() if 'DILocalVariable(' in node]

    def type(self, name, depth=0):
        """A type by its node."""
        kind, fields = self.node(name)
        tag, size = fields.get('tag', ''), int(fields.get('size', 0))
        if kind == 'DIDerivedType' and tag in WRAPPERS and depth < 100:
            inner = self.type(fields.get('baseType'), depth + 1)
            return inner
        if kind == 'DIDerivedType':
            return CType('pointer' if tag == 'DW_TAG_pointer_type' else 'other', size)
        if kind == 'DIBasicType':
            return CType(basic_kind(fields), size, self.string(fields, 'name'))
        if kind == 'DICompositeType' and depth < 100:
            return self.composite(tag, size, fields, depth)
        return CType('other', size)

    def composite(self, tag, size, fields, depth):
        name = self.string(fields, 'name')
        elements = self.list_of(fields.get('elements'))
        if tag == 'DW_TAG_array_type':
            return self.array(size, fields, elements, depth)
        if tag == 'DW_TAG_enumeration_type':
            return CType('enum', size, name, names=self.enumerators(elements))
        if tag in ('DW_TAG_structure_type', 'DW_TAG_union_type'):
            kind = 'struct' if tag == 'DW_TAG_structure_type' else 'union'
            return CType(kind, size, name, members=[self.member(one, depth) for one in elements])
        return CType('other', size, name)

    def array(self, size, fields, elements, depth):
        """An array of arrays for several subranges, the first outermost."""
        counts = [int(re.sub(r'\D.*', '', self.node(one)[1].get('count', '0')) or 0) for one in elements]
        inner = self.type(fields.get('baseType'), depth + 1)
        for count in reversed(counts):
            inner = CType('array', inner.size * count, count=count, element=inner)
        return inner

    def enumerators(self, elements):
        return {int(fields.get('value', 0)): self.string(fields, 'name')
                for _, fields in map(self.node, elements)}

    def member(self, name, depth):
        _, fields = self.node(name)
        return (self.string(fields, 'name'), int(fields.get('offset', 0)), int(fields.get('size', 0)),
                self.type(fields.get('baseType'), depth + 1))


def read_node(text):
    """The kind and the fields of the text of a node."""
    found = re.match(r'(?:distinct )?!(\w+)\(', text)
    if not found:
        return '', {}
    inner, _ = inside(text, found.end())
    pairs = (part.partition(': ') for part in split_commas(inner))
    return found[1], {key: value for key, _, value in pairs}


def basic_kind(fields):
    encoding = fields.get('encoding', '')
    if encoding == 'DW_ATE_boolean':
        return 'bool'
    return 'signed' if encoding in ('DW_ATE_signed', 'DW_ATE_signed_char') else 'unsigned'
