"""Widths of a specification's expressions, for what is only shown.

In comes a function of a Spec and the Kernel that it is about, out goes the width of each expression: a number of bits,
BOOL, or none for what has no width of its own. fit tells the first part whose width is not the one that its place asks for.
"""
import ast


BOOL = 'bool'
ORDERS = ('ULT', 'ULE', 'UGT', 'UGE')
TRUTHS = ('And', 'Or', 'Not', 'Implies', 'ForAll', 'Exists')
STATES = ('property', 'transition', 'equiv', 'step', 'count', 'view')


class Misfit(Exception):
    """An expression whose width is not what its place asks for; node is that expression, and text says why."""

    def __init__(self, node, text):
        super().__init__(text)
        self.node, self.text = node, text


def bits(width):
    """A width in words."""
    if width == BOOL:
        return 'a truth'
    return 'no width' if width is None else f'{width} bit' + 's' * (width != 1)


def number_of(node):
    return node.value if isinstance(node, ast.Constant) and type(node.value) is int else None


class Path:
    """A kernel path: the global, its steps as ('index', node) or ('field', K), and the type that it ends at."""

    def __init__(self, over, steps, type_, node):
        self.over, self.steps, self.type, self.node = over, steps, type_, node


def read_path(kernel, node):
    """The path that an expression spells, or none where it is no path; its type is none where a step does not fit."""
    chain, inner = [], node
    while isinstance(inner, (ast.Attribute, ast.Subscript)):
        chain.append(inner)
        inner = inner.value
    if not (isinstance(inner, ast.Name) and inner.id == 'kernel' and chain and isinstance(chain[-1], ast.Attribute)):
        return None
    over = kernel.global_named(chain[-1].attr)
    at, steps = (over.type if over else None), []
    for one in reversed(chain[:-1]):
        at, step = take_step(kernel, at, one)
        steps.append(step)
    return Path(over, steps, at, node)


def take_step(kernel, at, node):
    """The type behind a step and the step."""
    at = kernel.whole(at) if at else None
    if isinstance(node, ast.Subscript):
        return (at.parts[0] if at and at.kind == 'array' else None), ('index', node.slice)
    number = int(node.attr[1:]) if node.attr[:1] == 'f' and node.attr[1:].isdigit() else -1
    inside = at and at.kind in ('struct', 'packed') and 0 <= number < len(at.parts)
    return (at.parts[number] if inside else None), ('field', number)


class Widths:
    """The widths in one function. Its steps are taken in order by take, so that a local name has the width of its line."""

    def __init__(self, spec, kernel, function):
        self.spec, self.kernel, self.function = spec, kernel, function
        self.names, self.variables, self.states = {}, {}, []
        handler = kernel.functions.get(function.name) if function.kind == 'transition' else None
        if function.kind in STATES:
            self.states = [name for name in function.params if name in ('state', 'old', 'new')][:2] or function.params[:1]
        for name, (over, _) in zip(function.params[1:], handler.params if handler else []):
            self.names[name] = over.number if over.kind == 'int' else None

    def take(self, step):
        """What a line defines."""
        if step.kind == 'var' and step.sort:
            self.names[step.name] = step.sort.width
            self.variables[step.name] = step.sort
        elif step.kind == 'copy':
            self.states = self.states + [step.name]
        elif step.kind == 'local':
            self.names[step.name] = self.own(step.values[0])

    def field_of(self, node):
        """The field that `state.F` reads, or none."""
        if isinstance(node, ast.Attribute) and isinstance(node.value, ast.Name) and node.value.id in self.states:
            return self.spec.field(node.attr)
        return None

    def own(self, node):
        """The width of an expression of its own."""
        if isinstance(node, ast.Constant):
            return BOOL if isinstance(node.value, bool) else None
        if isinstance(node, ast.Name):
            return self.names.get(node.id)
        if isinstance(node, (ast.Attribute, ast.Subscript)):
            return self.own_read(node)
        if isinstance(node, ast.Compare):
            return BOOL
        if isinstance(node, ast.UnaryOp):
            return self.own(node.operand)
        if isinstance(node, ast.BinOp):
            return self.first(node.left, node.right)
        return self.own_call(node) if isinstance(node, ast.Call) else None

    def first(self, *nodes):
        return next((width for width in map(self.own, nodes) if width is not None), None)

    def own_read(self, node):
        field = self.field_of(node)
        if field:
            return field.sort.width if field.sort else None
        path = read_path(self.kernel, node)
        at = self.kernel.whole(path.type) if path and path.type else None
        return at.number if at and at.kind == 'int' else None

    def own_call(self, node):
        if isinstance(node.func, ast.Attribute):
            field = self.field_of(node.func)
            return field.sort.width if field and field.sort else None
        name, args = node.func.id if isinstance(node.func, ast.Name) else '', node.args
        if name in ORDERS or name in TRUTHS:
            return BOOL
        if name == 'If' and len(args) == 3:
            return self.first(*args[1:])
        if name in ('LShR', 'UDiv', 'URem'):
            return self.first(*args)
        if name in ('ZeroExt', 'SignExt') and len(args) == 2:
            inner = self.own(args[1])
            return inner + number_of(args[0]) if isinstance(inner, int) and number_of(args[0]) is not None else None
        if name == 'Extract' and len(args) == 3 and None not in map(number_of, args[:2]):
            return number_of(args[0]) - number_of(args[1]) + 1
        return number_of(args[1]) if name == 'BitVecVal' and len(args) == 2 else None

    # What a place asks for

    def fit(self, node, asked):
        """Raises Misfit at the first part of an expression that does not fit; asked is a width, BOOL or none."""
        own = self.own(node)
        if own is None and asked is None:
            raise Misfit(node, 'nothing gives a width here')
        if own is None and asked == BOOL:
            raise Misfit(node, 'a number stands where a truth is asked for')
        self.fit_parts(node, asked if own is None else own)
        if own is not None and asked is not None and own != asked:
            raise Misfit(node, f'this has {bits(own)}, and {bits(asked)} is asked for' if BOOL in (own, asked)
                         else f'this has {bits(own)}, and its place asks for {bits(asked)}')

    def fit_parts(self, node, width):
        if isinstance(node, (ast.Constant, ast.Name)):
            self.fit_number(node, width)
        elif isinstance(node, ast.Compare):
            self.fit_comparison(node, node.left, node.comparators[0], isinstance(node.ops[0], (ast.Eq, ast.NotEq)))
        elif isinstance(node, ast.UnaryOp):
            self.fit(node.operand, width)
        elif isinstance(node, ast.BinOp):
            self.fit(node.left, width)
            self.fit(node.right, width)
        elif isinstance(node, ast.Subscript):
            self.fit_path(node)
        elif isinstance(node, ast.Call):
            self.fit_call(node, width)
        elif isinstance(node, ast.Attribute) and self.field_of(node) and self.field_of(node).keys:
            raise Misfit(node, f'{node.attr} has {len(self.field_of(node).keys)} keys, and no index stands behind it')

    def fit_number(self, node, width):
        value = number_of(node)
        if isinstance(node, ast.Name) and node.id not in self.names:
            value = self.spec.constants.get(node.id)
        if value is not None and isinstance(width, int) and not -(1 << width - 1) <= value < 1 << width:
            raise Misfit(node, f'{value} does not fit into {bits(width)}')

    def fit_comparison(self, node, left, right, equal):
        width = self.first(left, right)
        if width is None:
            raise Misfit(node, 'neither side has a width')
        if width == BOOL and not equal:
            raise Misfit(node, 'truths are compared by == and != alone')
        self.fit(left, width)
        self.fit(right, width)

    def fit_path(self, node):
        path = read_path(self.kernel, node)
        for kind, index in path.steps if path else ():
            if kind == 'index':
                self.fit(index, self.own(index) or 64)

    def fit_call(self, node, width):
        if isinstance(node.func, ast.Attribute):
            return self.fit_keys(node, self.field_of(node.func), node.args)
        name, args = node.func.id, node.args
        if name in ORDERS:
            self.fit_comparison(node, *args, equal=False)
        elif name in ('ForAll', 'Exists'):
            self.fit(args[1], BOOL)
        elif name in TRUTHS:
            for one in args:
                self.fit(one, BOOL)
        elif name == 'If':
            self.fit(args[0], BOOL)
            if width == BOOL:
                raise Misfit(node, '`If` chooses between numbers, not between truths')
            for one in args[1:]:
                self.fit(one, width)
        elif name in ('LShR', 'UDiv', 'URem'):
            for one in args:
                self.fit(one, width)
        else:
            self.fit_resized(node, name, args)

    def fit_resized(self, node, name, args):
        if name in ('ZeroExt', 'SignExt', 'Extract'):
            inner = self.own(args[-1])
            if not isinstance(inner, int):
                raise Misfit(args[-1], 'this has no width of its own')
            self.fit(args[-1], inner)
            if name == 'Extract' and not number_of(args[1]) <= number_of(args[0]) < inner:
                raise Misfit(node, f'bits {number_of(args[0])} to {number_of(args[1])} of {bits(inner)}')
            if name != 'Extract' and inner + number_of(args[0]) > 64:
                raise Misfit(node, f'{bits(inner + number_of(args[0]))}, and 64 are the most')
        elif name == 'BitVecVal' and not 0 <= number_of(args[0]) < 1 << number_of(args[1]):
            raise Misfit(node, f'{number_of(args[0])} does not fit into {bits(number_of(args[1]))}')

    def fit_keys(self, node, field, args):
        if not field:
            return
        if len(args) != len(field.keys):
            raise Misfit(node, f'{field.name} has {len(field.keys) or "no"} key' + 's' * (len(field.keys) != 1)
                         + f', and {len(args)} stand' + 's' * (len(args) == 1) + ' here')
        for one, key in zip(args, field.keys):
            self.fit(one, key.width if key else None)

    def fit_step(self, step):
        """Raises Misfit at the first part of a line that does not fit."""
        if step.kind == 'local':
            self.fit(step.values[0], self.own(step.values[0]))
        elif step.kind == 'write' and self.spec.field(step.name):
            field = self.spec.field(step.name)
            self.fit_keys(step.node.targets[0], field, step.indices)
            self.fit(step.values[0], field.sort.width)
        elif step.kind == 'return':
            self.fit_return(step)

    def fit_return(self, step):
        if self.function.kind != 'transition':
            return self.fit_equations(step) if self.function.kind == 'equiv' else self.fit(step.values[0], BOOL)
        self.fit(step.values[0], BOOL)
        handler = self.kernel.functions.get(self.function.name)
        if len(step.values) == 3 and handler and handler.result.kind == 'int':
            self.fit(step.values[2], handler.result.number)

    def fit_equations(self, step):
        self.fit(step.values[0], BOOL)


def prepared(spec, kernel, function, line=None):
    """The widths of a function behind its steps before a line, or behind all of them."""
    widths = Widths(spec, kernel, function)
    for step in function.steps:
        if line is not None and step.line >= line:
            break
        widths.take(step)
    return widths
