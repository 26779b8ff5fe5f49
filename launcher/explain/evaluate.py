"""The value of a specification's expressions, to show them. `hkv` itself is asked whether what is shown so is so (facts.py).

In come a Spec, a Kernel, and a memory or an abstract state, out go numbers: a truth is 0 or 1. The meanings are those of
docs/FORMATS.md: numbers modulo 2^width, a read past the keys or the length is 0, a write there changes nothing.
"""
import ast
import itertools

from launcher.spec_widths import BOOL, Widths, number_of, read_path


class State:
    """An abstract state: for each field the numbers at its keys; what is not there is 0."""

    def __init__(self, spec, entries=None):
        self.spec = spec
        self.entries = {one.name: dict((entries or {}).get(one.name, {})) for one in spec.fields}

    def copy(self):
        return State(self.spec, self.entries)

    def get(self, field, keys=()):
        if any(key >= sort.size for key, sort in zip(keys, field.keys)):
            return 0
        return self.entries[field.name].get(tuple(keys), 0)

    def put(self, field, keys, value):
        if all(key < sort.size for key, sort in zip(keys, field.keys)):
            self.entries[field.name][tuple(keys)] = value

    def nonzero(self):
        """Fields in order, with their keys and numbers that are not 0."""
        return [(one, keys, value) for one in self.spec.fields
                for keys, value in sorted(self.entries[one.name].items()) if value]

    def rows(self):
        """The lines of a state block."""
        return [f'  {named(one.name, keys)} = {value}' for one, keys, value in self.nonzero()]

    def differences(self, other, field=None):
        """Where two states differ: the field, the keys, and both numbers."""
        found = []
        for one in [field] if field else self.spec.fields:
            for keys in sorted(set(self.entries[one.name]) | set(other.entries[one.name])):
                if self.get(one, keys) != other.get(one, keys):
                    found.append((one, keys, self.get(one, keys), other.get(one, keys)))
        return found


def named(name, keys):
    return f'{name}[{", ".join(map(str, keys))}]' if keys else name


class Evaluator:
    """Values in one function. memory is read by kernel paths; states maps names to abstract states; args are the numbers of
    a transition's parameters."""

    def __init__(self, spec, kernel, function, memory=None, states=None, args=()):
        self.spec, self.kernel, self.function, self.memory = spec, kernel, function, memory
        self.widths = Widths(spec, kernel, function)
        self.states, self.names, self.bound = dict(states or {}), {}, {}
        self.names.update(zip(function.params[1:] if function.kind in ('transition', 'count', 'view') else (), args))

    def define(self, step):
        """Takes a line that names something."""
        if step.kind == 'local':
            self.names[step.name] = self.value(step.values[0], self.widths.own(step.values[0]))
        elif step.kind == 'copy':
            self.states[step.name] = next(iter(self.states.values())).copy()
        self.widths.take(step)

    def value(self, node, asked=None):
        """The number of an expression in a place that asks for a width."""
        width = self.widths.own(node)
        width = asked if width is None else width
        if isinstance(node, ast.Constant):
            return int(node.value) % self.modulus(width)
        if isinstance(node, ast.Name):
            return self.name(node, width)
        if isinstance(node, (ast.Attribute, ast.Subscript)):
            return self.read(node)
        if isinstance(node, ast.Compare):
            return self.comparison(type(node.ops[0]).__name__, node.left, node.comparators[0])
        if isinstance(node, ast.UnaryOp):
            inner = self.value(node.operand, width)
            return (-inner if isinstance(node.op, ast.USub) else ~inner) % self.modulus(width)
        if isinstance(node, ast.BinOp):
            return self.operation(type(node.op).__name__, self.value(node.left, width), self.value(node.right, width), width)
        return self.call(node, width)

    def modulus(self, width):
        return 2 if width == BOOL else 1 << (width or 64)

    def name(self, node, width):
        name = node.id
        if name in self.bound:
            return self.bound[name]
        if name in self.names:
            return self.names[name]
        return self.spec.constants[name] % self.modulus(width)

    def read(self, node):
        field = self.widths.field_of(node)
        if field:
            return self.states[node.value.id].get(field)
        path = read_path(self.kernel, node)
        over, offset = path.over.type, 0
        for kind, step in path.steps:
            over = self.kernel.whole(over)
            if kind == 'field':
                offset += self.kernel.offsets(over)[0][step]
                over = over.parts[step]
            else:
                index = self.value(step, self.widths.own(step) or 64)
                if index >= over.number:
                    return 0
                over = over.parts[0]
                offset += index * self.kernel.size_of(over)
        return self.number_at(path.over, offset, self.kernel.whole(over).number)

    def number_at(self, over, offset, width):
        return self.memory.number(over.name, offset, width)

    def operation(self, kind, a, b, width):
        """A binary operation by the name of Python's node, or of a call."""
        modulus = self.modulus(width)
        if kind in ('LShift', 'RShift', 'LShR'):
            return shifted(kind, a, b, width)
        if kind == 'UDiv':
            return a // b if b else modulus - 1
        if kind == 'URem':
            return a % b if b else a
        return {'Add': a + b, 'Sub': a - b, 'Mult': a * b, 'BitAnd': a & b, 'BitOr': a | b, 'BitXor': a ^ b}[kind] % modulus

    def comparison(self, kind, left, right):
        width = self.widths.first(left, right)
        a, b = self.value(left, width), self.value(right, width)
        if kind in ('Lt', 'LtE', 'Gt', 'GtE') and width != BOOL:
            a, b = signed(a, width), signed(b, width)
        kind = {'ULT': 'Lt', 'ULE': 'LtE', 'UGT': 'Gt', 'UGE': 'GtE'}.get(kind, kind)
        return int({'Eq': a == b, 'NotEq': a != b, 'Lt': a < b, 'LtE': a <= b, 'Gt': a > b, 'GtE': a >= b}[kind])

    def call(self, node, width):
        if isinstance(node.func, ast.Attribute):
            field = self.widths.field_of(node.func)
            keys = [self.value(one, key.width) for one, key in zip(node.args, field.keys)]
            return self.states[node.func.value.id].get(field, keys)
        name, args = node.func.id, node.args
        if name in ('ULT', 'ULE', 'UGT', 'UGE'):
            return self.comparison(name, *args)
        if name in ('ForAll', 'Exists'):
            return self.quantified(node, name)
        if name in ('And', 'Or', 'Not', 'Implies'):
            return self.truth(name, args)
        if name == 'If':
            return self.value(args[1] if self.value(args[0], BOOL) else args[2], width)
        if name in ('LShR', 'UDiv', 'URem'):
            return self.operation(name, self.value(args[0], width), self.value(args[1], width), width)
        return self.resized(name, args, width)

    def resized(self, name, args, width):
        if name == 'BitVecVal':
            return number_of(args[0])
        inner = self.widths.own(args[-1])
        value = self.value(args[-1], inner)
        if name == 'Extract':
            return value >> number_of(args[1]) & (1 << width) - 1
        return value if name == 'ZeroExt' else signed(value, inner) % (1 << width)

    def truth(self, name, args):
        if name == 'And':
            return int(all(self.value(one, BOOL) for one in args))
        if name == 'Or':
            return int(any(self.value(one, BOOL) for one in args))
        if name == 'Not':
            return 1 - self.value(args[0], BOOL)
        return int(not self.value(args[0], BOOL) or bool(self.value(args[1], BOOL)))

    def tuples(self, node):
        """The names that a quantifier binds, and all tuples of their numbers in order."""
        names = [one.id for one in node.args[0].elts]
        return names, itertools.product(*(range(self.widths.variables[name].size) for name in names))

    def quantified(self, node, name):
        names, tuples = self.tuples(node)
        before, wanted = self.bound, int(name == 'Exists')
        try:
            for values in tuples:
                self.bound = {**before, **dict(zip(names, values))}
                if self.value(node.args[1], BOOL) == wanted:
                    return wanted
            return 1 - wanted
        finally:
            self.bound = before


def signed(value, width):
    return value - (1 << width) if value >> (width - 1) & 1 else value


def shifted(kind, a, b, width):
    if kind == 'LShift':
        return a << b & (1 << width) - 1 if b < width else 0
    if kind == 'RShift':
        return (signed(a, width) >> min(b, width)) % (1 << width)
    return a >> b if b < width else 0


def reads_state(step):
    """Whether a local name of `equiv` reads the state, which no equation's right side may use."""
    return any(isinstance(node, ast.Name) and node.id == 'state' for node in ast.walk(step.node))


def abstraction(spec, kernel, memory):
    """The abstract state of a memory: each field's equation at all its keys."""
    found = State(spec)
    evaluator = Evaluator(spec, kernel, spec.equiv, memory) if spec.equiv else None
    if evaluator:
        evaluator.states = {}
        for step in spec.equiv.steps[:-1]:
            if step.kind == 'var' or not reads_state(step):
                evaluator.define(step)
    for name, (variables, right) in (spec.equations() if evaluator else {}).items():
        field = spec.field(name)
        for keys in itertools.product(*(range(sort.size) for sort in field.keys)):
            evaluator.bound = dict(zip(variables, keys))
            found.put(field, keys, evaluator.value(right, field.sort.width))
    return found


class Outcome:
    """What a transition gives: whether it is valid, the end state, and the result, none where there is none that is one number."""

    def __init__(self, valid, state, result, plain):
        self.valid, self.state, self.result, self.plain = valid, state, result, plain


def transition(spec, kernel, function, state, args):
    """The outcome of a transition from a state, and its evaluator, in which the end state has a name."""
    evaluator = Evaluator(spec, kernel, function, states={function.params[0]: state}, args=args)
    for step in function.steps[:-1]:
        if step.kind == 'write':
            field = spec.field(step.name)
            target = step.node.targets[0]
            name = (target.value if isinstance(target, ast.Attribute) else target.value.value).id
            keys = [evaluator.value(one, sort.width) for one, sort in zip(step.indices, field.keys)]
            evaluator.states[name].put(field, keys, evaluator.value(step.values[0], field.sort.width))
        else:
            evaluator.define(step)
    values = function.last.values
    valid = bool(evaluator.value(values[0], BOOL))
    end = evaluator.states[values[1].id] if valid else state
    over = kernel.functions[function.name].result
    result = None
    if len(values) == 3 and over.kind == 'int':
        result = evaluator.value(values[2], over.number)
    return Outcome(valid, end, result, len(values) == 2 and over.kind == 'int'), evaluator
