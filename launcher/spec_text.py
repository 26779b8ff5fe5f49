"""Specification texts through Python's own reader, for what is only shown.

In comes a text that `hkv` reads, out goes a Spec: sorts, constants, hooks, fields and functions with their lines, whose
expressions are nodes of Python's `ast`. Names that are words of Python alone (`from`, `lambda`) are read too. A text that
`hkv` refuses may be refused here by SyntaxError; logical_lines reads any text.
"""
import ast
import keyword
import re
from dataclasses import dataclass, field

KINDS = {'inv_': 'invariant', 'prop_': 'property', 'step_': 'step', 'count_': 'count', 'view_': 'view'}
WORDS = set(keyword.kwlist) - {'class', 'def', 'return', 'True', 'False'}
PIECE = re.compile(r'#[^\n]*|[A-Za-z_]\w*', re.A)


@dataclass(frozen=True)
class Sort:
    """Numbers of a width; size is how many of them are keys, and none for plain bits."""
    width: int
    size: int = None


@dataclass
class Field:
    """A field of the abstract state: keys is empty for a single number."""
    name: str
    keys: list
    sort: Sort
    line: int


@dataclass
class Step:
    """A line of a function: kind is var, local, copy, write or return. line and end are its first and last line."""
    kind: str
    line: int
    end: int
    name: str = ''
    sort: Sort = None
    indices: list = field(default_factory=list)
    values: list = field(default_factory=list)
    node: object = None


@dataclass
class Function:
    """A function: kind is equiv, invariant, property, step, count, view or transition; shown is the name in a report."""
    name: str
    kind: str
    shown: str
    params: list
    line: int
    steps: list = field(default_factory=list)

    @property
    def last(self):
        return self.steps[-1] if self.steps and self.steps[-1].kind == 'return' else None


@dataclass(frozen=True)
class LogicalLine:
    first: int
    last: int
    text: str


def logical_lines(text):
    """The logical lines of a text: physical ones are joined while a bracket is open, blank ones are left out."""
    found, first, parts, depth = [], 0, [], 0
    for number, line in enumerate(text.split('\n'), 1):
        code = line.split('#', 1)[0]
        if not parts and not code.strip():
            continue
        first = first if parts else number
        parts.append(line)
        for char in code:
            depth = depth + 1 if char in '([' else max(depth - 1, 0) if char in ')]' else depth
        if depth == 0:
            found.append(LogicalLine(first, number, '\n'.join(parts)))
            parts = []
    if parts:
        found.append(LogicalLine(first, first + len(parts) - 1, '\n'.join(parts)))
    return found


def kind_of(name):
    """The kind of a function and the name that a report shows for it."""
    if name == 'equiv':
        return 'equiv', name
    for prefix, kind in KINDS.items():
        if name.startswith(prefix):
            return kind, name[len(prefix):]
    return 'transition', name


def veiled(text):
    """The text with words of Python that are names here made names of Python too, by a letter outside ASCII."""
    def veil(found):
        word = found[0]
        return word if word not in WORDS else chr(0x3b1) + word
    return PIECE.sub(veil, text)


def unveiled(name):
    return name[1:] if name.startswith(chr(0x3b1)) else name


class Unveil(ast.NodeTransformer):
    """Gives names back their spelling."""

    def visit_Name(self, node):
        node.id = unveiled(node.id)
        return node

    def visit_Attribute(self, node):
        node.attr = unveiled(node.attr)
        return self.generic_visit(node)

    def visit_FunctionDef(self, node):
        node.name = unveiled(node.name)
        for one in node.args.args:
            one.arg = unveiled(one.arg)
        return self.generic_visit(node)

    def visit_ClassDef(self, node):
        node.name = unveiled(node.name)
        return self.generic_visit(node)


def parse(text):
    """Python's tree of a specification. A class without lines gets one that says nothing."""
    lines = veiled(text.replace('\r', '')).split('\n')
    for k, line in enumerate(lines):
        following = next((one for one in lines[k + 1:] if one.split('#')[0].strip()), '')
        if re.match(r'class\b', line) and not following.startswith(' '):
            lines[k] = line.split('#')[0].rstrip() + ' pass'
    return Unveil().visit(ast.parse('\n'.join(lines)))


def is_call(node, *names):
    return isinstance(node, ast.Call) and isinstance(node.func, ast.Name) and node.func.id in names


def number(node):
    """The number that a node spells, or none."""
    if isinstance(node, ast.Constant) and type(node.value) is int:
        return node.value
    if isinstance(node, ast.UnaryOp) and isinstance(node.op, ast.USub):
        inner = number(node.operand)
        return None if inner is None else -inner
    return None


class Spec:
    """A specification by its parts; functions of a kind are lists in the order of the text."""

    def __init__(self, text, path=''):
        self.text, self.path = text, path
        self.lines = text.split('\n')
        self.sorts, self.constants, self.hooks, self.fields, self.functions = {}, {}, [], [], []
        for node in parse(text).body:
            self._read(node)

    def _read(self, node):
        if isinstance(node, ast.ClassDef):
            self.fields += [self._field(one) for one in node.body if isinstance(one, ast.Assign)]
        elif isinstance(node, ast.FunctionDef):
            kind, shown = kind_of(node.name)
            steps = [self._step(one) for one in node.body]
            params = [one.arg for one in node.args.args]
            self.functions.append(Function(node.name, kind, shown, params, node.lineno, steps))
        elif isinstance(node, ast.Assign):
            self._read_name(node.targets[0].id, node.value)

    def _read_name(self, name, value):
        if is_call(value, 'Hook'):
            self.hooks.append(name)
        elif is_call(value, 'Bits', 'Index'):
            self.sorts[name] = self.sort(value)
        elif number(value) is not None:
            self.constants[name] = number(value)

    def sort(self, node):
        if isinstance(node, ast.Name):
            return self.sorts.get(node.id)
        return Sort(*[one.value for one in node.args]) if is_call(node, 'Bits', 'Index') else None

    def _field(self, node):
        name, value = node.targets[0].id, node.value
        if not is_call(value, 'Map'):
            return Field(name, [], self.sort(value), node.lineno)
        first, sort = value.args
        keys = first.elts if isinstance(first, ast.Tuple) else [first]
        return Field(name, [self.sort(one) for one in keys], self.sort(sort), node.lineno)

    def _step(self, node):
        line, end = node.lineno, node.end_lineno
        if isinstance(node, ast.Return):
            values = node.value.elts if isinstance(node.value, ast.Tuple) else [node.value]
            return Step('return', line, end, values=values, node=node)
        target, value = node.targets[0], node.value
        if isinstance(target, ast.Name):
            return self._named_step(target.id, value, node)
        if isinstance(target, ast.Attribute):
            return Step('write', line, end, target.attr, values=[value], node=node)
        indices = target.slice.elts if isinstance(target.slice, ast.Tuple) else [target.slice]
        return Step('write', line, end, target.value.attr, indices=indices, values=[value], node=node)

    def _named_step(self, name, value, node):
        line, end = node.lineno, node.end_lineno
        if is_call(value, 'Var'):
            return Step('var', line, end, name, self.sort(value.args[0]), node=node)
        if isinstance(value, ast.Call) and isinstance(value.func, ast.Attribute) and value.func.attr == 'copy':
            return Step('copy', line, end, name, node=node)
        return Step('local', line, end, name, values=[value], node=node)

    def of_kind(self, kind):
        return [one for one in self.functions if one.kind == kind]

    @property
    def transitions(self):
        return self.of_kind('transition')

    @property
    def equiv(self):
        return next(iter(self.of_kind('equiv')), None)

    def transition(self, name):
        return next((one for one in self.transitions if one.name == name), None)

    def function(self, kind, shown):
        return next((one for one in self.of_kind(kind) if one.shown == shown), None)

    def field(self, name):
        return next((one for one in self.fields if one.name == name), None)

    def equations(self):
        """The right side of each field's equation with the variables that stand for its keys, in the order of keys."""
        last = self.equiv.last.values[0] if self.equiv and self.equiv.last else None
        found = {}
        for part in conjuncts(last) if last is not None else []:
            name, variables, right = equation(part)
            found[name] = (variables, right)
        return found

    def source(self, node):
        """The text of an expression, on one line."""
        return ' '.join(ast.unparse(node).split())


def conjuncts(node):
    """The parts of nested `And`s, in text order."""
    if is_call(node, 'And'):
        return [part for one in node.args for part in conjuncts(one)]
    return [node]


def equation(node):
    """The field, the variables of its keys and the right side of a conjunct of `equiv`."""
    body = node.args[1] if is_call(node, 'ForAll') else node
    left, right = body.left, body.comparators[0]
    if not refers_to_field(left):
        left, right = right, left
    if isinstance(left, ast.Call):
        return left.func.attr, [one.id for one in left.args], right
    return left.attr, [], right


def refers_to_field(node):
    inner = node.func if isinstance(node, ast.Call) else node
    return isinstance(inner, ast.Attribute) and isinstance(inner.value, ast.Name) and inner.value.id == 'state'


def load(path):
    with open(path, encoding='utf-8', errors='surrogateescape') as file:
        return Spec(file.read(), path)
