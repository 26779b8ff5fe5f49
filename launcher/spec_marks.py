"""Which part of a line of a specification a refusal is about, where that can be told.

In comes the text, the kernel, the line and the code, out goes a Mark of kernel_marks.py, or none. It is only shown: the
line and the code are hkv's. Parts of lines that Python cannot read are found by their letters.
"""
import ast
import re

from launcher import reasons, spec_text
from launcher.kernel_marks import Mark, span
from launcher.kernel_text import called
from launcher.spec_widths import Misfit, prepared, read_path

BYTES = re.compile(r'[A-Za-z_]\w*|\d\w*|==|!=|<<|>>|<=|>=|[=<>+\-*&|^~()\[\],.:]|#.*|[ \t\r]+', re.A)
KNOWN = set('And Or Not Implies If ULT ULE UGT UGE LShR UDiv URem ZeroExt SignExt Extract BitVecVal ForAll Exists Bits Index Map '
            'Hook Var Count Each kernel'.split())


class Line:
    """A logical line of a specification with what stands around it."""

    def __init__(self, text, kernel, number):
        self.kernel, self.number, self.lines = kernel, number, text.split('\n')
        self.text = self.lines[number - 1] if number <= len(self.lines) else ''
        logical = [one for one in spec_text.logical_lines(text) if one.first == number]
        self.last = logical[0].last if logical else number
        self.whole = logical[0].text if logical else self.text
        try:
            self.spec = spec_text.Spec(text)
        except (SyntaxError, ValueError, AttributeError, TypeError, RecursionError, IndexError):
            self.spec = None
        self.function = self._function()
        self.step = next((one for one in self.function.steps if one.line == number), None) if self.function else None

    def _function(self):
        before = [one for one in self.spec.functions if one.line <= self.number] if self.spec else []
        return before[-1] if before and (self.text.startswith((' ', 'def'))) else None

    def at(self, node, *notes):
        """The mark of a node; on a later physical line its number is a note's."""
        text = self.lines[node.lineno - 1]
        column = len(text.encode()[:node.col_offset].decode(errors='replace'))
        end = len(text.encode()[:node.end_col_offset].decode(errors='replace')) if node.end_lineno == node.lineno else len(text)
        found = Mark(column, max(end - column, 1), list(notes))
        found.line = node.lineno
        return found

    def named(self, name, *notes):
        """The mark of a word of the line."""
        for k in range(self.number, self.last + 1):
            found = re.search(rf'\b{re.escape(name)}\b', self.lines[k - 1].split('#')[0])
            if found:
                made = span(found, 0, *notes)
                made.line = k
                return made
        return Mark(notes=list(notes))


def mark(text, kernel, code, number):
    """The mark of a refusal, or none."""
    told = {'S1': stray_byte, 'S2': indentation, 'S3': unread, 'S5': unknown, 'S6': repeated, 'S7': misfit, 'S8': path,
            'S9': equations, 'S10': handler, 'S11': result, 'S12': tuples, 'S14': pointer, 'S15': outside}.get(code)
    if not told:
        return None
    try:
        return told(Line(text, kernel, number))
    except (AttributeError, IndexError, KeyError, TypeError, ValueError):
        return None


def stray_byte(line):
    for k in range(line.number, line.last + 1):
        text, at = line.lines[k - 1], 0
        while at < len(text):
            found = BYTES.match(text, at)
            if not found:
                made = Mark(at, 1)
                made.line = k
                return made
            at = found.end()
    return None


def indentation(line):
    return span(re.match(r'[ \t\r]+', line.text))


def unread(line):
    for one in reasons.table()['S3']['hints']:
        found = re.search(one['where'], line.text)
        if found and not line.text.startswith('def ') and not re.match(r'\s*return\b', found[0]):
            blanks = len(found[0]) - len(found[0].lstrip())
            return Mark(found.start() + blanks, len(found[0]) - blanks)
    return None


def names_of(line):
    """The names that are known on a line of a function."""
    spec, function = line.spec, line.function
    found = KNOWN | set(spec.sorts) | set(spec.constants) | set(spec.hooks) | {one.name for one in spec.functions}
    found |= set(function.params) if function else set()
    return found | {one.name for one in function.steps if one.line < line.number} if function else found


def unknown(line):
    if not line.spec:
        return None
    if line.text.startswith('    ') and not line.function:
        return unknown_sort(line)
    if not line.step:
        name = line.text.split('=')[0].strip()
        return line.named(name, (None, 'the kernel declares no void function of that name')) if 'Hook' in line.text else None
    known, widths = names_of(line), prepared(line.spec, line.kernel, line.function, line.number)
    for node in ast.walk(line.step.node):
        if isinstance(node, ast.Name) and node.id not in known and node.id != line.step.name:
            return line.at(node)
        if isinstance(node, ast.Attribute) and isinstance(node.value, ast.Name):
            if node.value.id in widths.states and not line.spec.field(node.attr) and node.attr != 'copy':
                return line.at(node, (None, f'the abstract state has no field {node.attr}'))
            if node.value.id == 'kernel' and line.kernel and not line.kernel.global_named(node.attr):
                return line.at(node, (None, f'the kernel has no variable {node.attr}'))
    return unbound(line, widths)


def unknown_sort(line):
    known = KNOWN | set(line.spec.sorts)
    for found in re.finditer(r'[A-Za-z_]\w*', line.text.split('=', 1)[-1].split('#')[0]):
        if found[0] not in known:
            return line.named(found[0], (None, 'no sort of that name stands above'))
    return None


def unbound(line, widths):
    """A variable outside of its quantifier."""
    def walk(node, bound):
        if isinstance(node, ast.Call) and isinstance(node.func, ast.Name) and node.func.id in ('ForAll', 'Exists', 'Count', 'Each'):
            bound = bound | {one.id for one in node.args[0].elts}
            return walk(node.args[1], bound)
        if isinstance(node, ast.Name) and node.id in widths.variables and node.id not in bound:
            return line.at(node, (None, f'the variable {node.id} stands outside of its quantifier'))
        return next((found for found in (walk(one, bound) for one in ast.iter_child_nodes(node)) if found), None)

    parts = [*line.step.values, *line.step.indices]
    return next((found for found in (walk(one, frozenset()) for one in parts) if found), None)


def repeated(line):
    name = line.text.replace('class ', '').replace('def ', '').split('=')[0].split('(')[0].split(':')[0].strip()
    begin = line.function.line if line.function and line.text.startswith(' ') else 0
    form = re.compile(rf'\s*(?:class |def )?{re.escape(name)}\s*(=|\(|:)')
    first = next((k for k in range(begin, line.number - 1) if form.match(line.lines[k])
                  and line.lines[k].startswith(' ') == line.text.startswith(' ')), None)
    if line.text.startswith('class'):
        first = next((k for k in range(line.number - 1) if line.lines[k].startswith('class')), None)
    if first is None:
        return twice_bound(line)
    return line.named(name, (first + 1, 'the first one is here'))


def twice_bound(line):
    def walk(node, bound):
        if isinstance(node, ast.Call) and isinstance(node.func, ast.Name) and node.func.id in ('ForAll', 'Exists'):
            for one in node.args[0].elts:
                if one.id in bound:
                    return line.at(one, (None, f'{one.id} is bound already'))
                bound = bound | {one.id}
            return walk(node.args[1], bound)
        return next((found for found in (walk(one, bound) for one in ast.iter_child_nodes(node)) if found), None)

    return walk(line.step.node, frozenset()) if line.step else None


def misfit(line):
    if not line.step:
        return None
    try:
        prepared(line.spec, line.kernel, line.function, line.number).fit_step(line.step)
    except Misfit as found:
        return line.at(found.node, (None, found.text))
    return None


def path(line):
    for node in ast.walk(line.step.node):
        found = read_path(line.kernel, node) if isinstance(node, (ast.Attribute, ast.Subscript)) else None
        at = line.kernel.whole(found.type) if found and found.type else None
        if found and (at is None or at.kind != 'int'):
            words = f'the path ends at {described(line.kernel, at)}' if at else misstep(line.kernel, found)
            return line.at(node, (found.over.line if found.over else None, words))
    return None


def misstep(kernel, found):
    """The first step of a path that does not fit the type before it."""
    at = kernel.whole(found.over.type) if found.over else None
    for kind, step in found.steps:
        if at is None or (kind == 'index') != (at.kind == 'array') or (kind == 'field' and not 0 <= step < len(at.parts)):
            break
        at = kernel.whole(at.parts[0] if kind == 'index' else at.parts[step])
    spelled = '`[..]`' if kind == 'index' else f'`.f{step}`'
    what = {'array': f'an array of {at.number} elements', 'struct': f'a struct of {len(at.parts)} members',
            'packed': f'a packed struct of {len(at.parts)} parts'}.get(at.kind, f'a value of the type {at}') if at else 'no variable'
    return f'{spelled} stands behind {what}'


def described(kernel, at):
    if at.kind == 'array':
        return f'an array of {at.number} elements: `[..]` goes on'
    if at.kind in ('struct', 'packed'):
        return f'a struct of {len(at.parts)} members: `.f0` to `.f{len(at.parts) - 1}` go on'
    return f'a value of the type {at}'


def equations(line):
    if line.step:
        for part in spec_text.conjuncts(line.step.values[0]):
            try:
                name, _, _ = spec_text.equation(part)
                good = line.spec.field(name)
            except (AttributeError, IndexError):
                good = None
            if not good:
                return line.at(part, (None, 'this part is no equation of a field'))
        return None
    name = line.text.split('=')[0].strip()
    count = len(re.findall(rf'\bstate\.{re.escape(name)}\b', '\n'.join(equiv_lines(line))))
    words = 'equiv has no equation for it' if count == 0 else 'equiv has not exactly one equation for it that reads the kernel alone'
    return line.named(name, (line.spec.equiv.line if line.spec.equiv else None, words))


def equiv_lines(line):
    equiv = line.spec.equiv
    return line.lines[equiv.line:equiv.steps[-1].end] if equiv and equiv.steps else []


def handler(line):
    name = line.function.name
    found = line.kernel.functions.get(name)
    if found:
        count, here = len(found.params), len(line.function.params) - 1
        return line.named(name, (found.line, f'{name} of the kernel has {count} parameter{"s" * (count != 1)}, and {here} '
                                             f'stand{"s" * (here == 1)} behind the state'))
    if name in line.kernel.declared:
        return line.named(name, (line.kernel.declared[name].line, 'the kernel declares it alone: its body is in another file'))
    known = ', '.join(list(line.kernel.functions)[:12])
    return line.named(name, (None, f'the functions of the kernel: {known}' if known else 'the kernel has no function with a body'))


def result(line):
    return line.at(line.step.values[2])


def tuples(line):
    for node in ast.walk(line.step.node) if line.step else ():
        if isinstance(node, ast.Call) and isinstance(node.func, ast.Name) and node.func.id in ('ForAll', 'Exists'):
            return line.at(node.args[0])
    return None


def pointer(line):
    found = line.kernel.functions[line.function.name]
    for (over, _), name in zip(found.params, line.function.params[1:]):
        if over.kind == 'ptr':
            return line.named(name, (found.line, 'the kernel has a pointer here'))
    return line.named(line.function.name, (found.line, 'the kernel gives a pointer'))


def outside(line):
    """The way of calls to a function of another file that is no hook."""
    kernel, begin = line.kernel, line.function.name
    ways, todo = {begin: [begin]}, [begin]
    while todo:
        name = todo.pop(0)
        for instr in kernel.functions[name].instructions():
            callee = called(instr)
            if callee in kernel.functions and callee not in ways:
                ways[callee] = ways[name] + [callee]
                todo.append(callee)
            elif callee in kernel.declared and not callee.startswith('llvm.') and callee not in line.spec.hooks:
                return line.named(begin, (instr.line, 'calls: ' + ' -> '.join(ways[name] + [callee])))
    return None
