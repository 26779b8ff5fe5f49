"""Which part of an invariant, a property or a step property is false, and at which tuple of keys.

In come a function and an evaluator in which its names have their values, out goes a Falsity: the smallest part that is false,
the numbers of the variables of the quantifiers around it, and the numbers of what it reads.
"""
import ast
from dataclasses import dataclass, field

from launcher.explain.evaluate import Evaluator, named
from launcher.spec_widths import BOOL, read_path


@dataclass
class Falsity:
    """node is the part; tuple maps variables to numbers; reads are pairs of a text and a number."""
    node: object
    line: int
    at: dict = field(default_factory=dict)
    reads: list = field(default_factory=list)


def find(evaluator, node):
    """The part of a false expression that is to blame, with the evaluator's bound variables as they are there."""
    name = node.func.id if isinstance(node, ast.Call) and isinstance(node.func, ast.Name) else ''
    if name == 'And':
        part = next((one for one in node.args if not evaluator.value(one, BOOL)), None)
        return find(evaluator, part) if part is not None else found_at(evaluator, node)
    if name == 'ForAll':
        return in_quantifier(evaluator, node)
    return found_at(evaluator, node)


def in_quantifier(evaluator, node):
    names, tuples = evaluator.tuples(node)
    before = evaluator.bound
    for values in tuples:
        evaluator.bound = {**before, **dict(zip(names, values))}
        if not evaluator.value(node.args[1], BOOL):
            return find(evaluator, node.args[1])
    evaluator.bound = before
    return found_at(evaluator, node)


def found_at(evaluator, node):
    return Falsity(node, node.lineno, dict(evaluator.bound), reads_of(evaluator, node))


def reads_of(evaluator, node):
    """What an expression reads, outside of its own quantifiers: each once, as a text with numbers for keys, and its number."""
    found = {}

    def walk(one):
        if isinstance(one, ast.Call) and isinstance(one.func, ast.Name) and one.func.id in ('ForAll', 'Exists'):
            return
        text = read_text(evaluator, one)
        if text:
            found.setdefault(text, (evaluator.value(one), evaluator.widths.own(one)))
        for inner in inner_nodes(evaluator, one):
            walk(inner)

    walk(node)
    return [(text, value, width) for text, (value, width) in found.items()]


def inner_nodes(evaluator, node):
    """The parts of an expression that may read something."""
    if isinstance(node, (ast.Attribute, ast.Subscript)):
        path = read_path(evaluator.kernel, node)
        return [step for kind, step in path.steps if kind == 'index'] if path else []
    if isinstance(node, ast.Call):
        return [one for one in node.args if not isinstance(one, ast.List)]
    return list(ast.iter_child_nodes(node))


def read_text(evaluator, node):
    """The text of a read with numbers for its keys, or none where a node reads nothing."""
    if isinstance(node, ast.Name):
        return node.id if node.id in evaluator.names and node.id not in evaluator.bound else None
    if isinstance(node, ast.Call) and isinstance(node.func, ast.Attribute):
        field_ = evaluator.widths.field_of(node.func)
        keys = [evaluator.value(one, key.width) for one, key in zip(node.args, field_.keys)]
        return named(f'{node.func.value.id}.{field_.name}', keys)
    if not isinstance(node, (ast.Attribute, ast.Subscript)):
        return None
    if evaluator.widths.field_of(node):
        return f'{node.value.id}.{node.attr}'
    path = read_path(evaluator.kernel, node)
    return path_text(evaluator, path) if path and path.over else None


def path_text(evaluator, path):
    text = f'kernel.{path.over.name}'
    for kind, step in path.steps:
        text += f'.f{step}' if kind == 'field' else f'[{evaluator.value(step, evaluator.widths.own(step) or 64)}]'
    return text


def of_function(spec, kernel, function, memory=None, states=None):
    """What is false in a function, or none where all of it is true, and the evaluator."""
    evaluator = Evaluator(spec, kernel, function, memory=memory, states=states)
    for step in function.steps[:-1]:
        evaluator.define(step)
    node = function.last.values[0]
    return (None if evaluator.value(node, BOOL) else find(evaluator, node)), evaluator


class Ground(ast.NodeTransformer):
    """An expression with numbers for the variables that quantifiers around it bind."""

    def __init__(self, evaluator, bound):
        self.evaluator, self.bound = evaluator, dict(bound)

    def visit_Call(self, node):
        if isinstance(node.func, ast.Name) and node.func.id in ('ForAll', 'Exists'):
            inner = {name: value for name, value in self.bound.items() if name not in [one.id for one in node.args[0].elts]}
            body = Ground(self.evaluator, inner).visit(node.args[1])
            return ast.Call(node.func, [node.args[0], body], [])
        return ast.Call(node.func, [self.visit(one) for one in node.args], [])

    def visit_Name(self, node):
        if node.id not in self.bound:
            return node
        width = self.evaluator.widths.variables[node.id].width
        return ast.Call(ast.Name('BitVecVal'), [ast.Constant(self.bound[node.id]), ast.Constant(width)], [])


def grounded(evaluator, node, bound):
    """The text of an expression with numbers for bound variables, on one line."""
    import copy
    return ' '.join(ast.unparse(Ground(evaluator, bound).visit(copy.deepcopy(node))).split())
