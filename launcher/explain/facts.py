"""Whether what the launcher's own evaluation shows is so: `hkv` is asked, over texts that are made for the question.

What a transition gives is asked through a kernel with one variable for each entry of the abstract state and a handler that
writes the claimed end state: `replay` confirms no violation exactly where the claim is right. Whether an expression is false
is asked through the first line of `verify`, over an initial memory that is the state. Answers: true, false, or none.
"""
import ast
import itertools
import re

from launcher.spec_text import is_call, parse

PLACE = 'hkv_'


def top_lines(spec):
    """The lines of a specification that stand outside of functions."""
    functions = sorted((one.line, one.steps[-1].end if one.steps else one.line) for one in spec.functions)
    keep = [line for number, line in enumerate(spec.lines, 1) if not any(a <= number <= b for a, b in functions)]
    return '\n'.join(line for line in keep if not re.match(r'\w+ = Hook\(', line))


def function_lines(spec, function):
    return '\n'.join(spec.lines[function.line - 1:function.steps[-1].end])


def flat(field, keys):
    """The place of an entry in the array of its field."""
    at = 0
    for key, sort in zip(keys, field.keys):
        at = at * sort.size + key
    return at


def count_of(field):
    count = 1
    for sort in field.keys:
        count *= sort.size
    return count


def room(width):
    """The width of the variable that holds an entry."""
    return next(size for size in (8, 16, 32, 64) if width <= size)


def state_kernel(spec, state):
    """The text of a kernel whose variables are the entries of an abstract state, the last key innermost."""
    lines = []
    for field in spec.fields:
        content = bytearray(count_of(field) * room(field.sort.width) // 8)
        for keys, value in state.entries[field.name].items():
            at = flat(field, keys) * room(field.sort.width) // 8
            content[at:at + room(field.sort.width) // 8] = value.to_bytes(room(field.sort.width) // 8, 'little')
        lines.append(variable(field, content))
    return '\n'.join(lines) + '\n'


def variable(field, content):
    width = room(field.sort.width)
    over = f'i{width}'
    for sort in reversed(field.keys):
        over = f'[{sort.size} x {over}]'
    numbers = [int.from_bytes(content[k:k + width // 8], 'little') for k in range(0, len(content), width // 8)]
    return f'@{PLACE}{field.name} = global {over} {initialiser(numbers, [sort.size for sort in field.keys], width)}'


def initialiser(numbers, sizes, width):
    """The initial value of nested arrays of numbers."""
    if not any(numbers):
        return 'zeroinitializer'
    if not sizes:
        return str(numbers[0])
    step, inner = len(numbers) // sizes[0], f'i{width}'
    for size in reversed(sizes[1:]):
        inner = f'[{size} x {inner}]'
    parts = (f'{inner} {initialiser(numbers[k:k + step], sizes[1:], width)}' for k in range(0, len(numbers), step))
    return '[' + ', '.join(parts) + ']'


def state_equiv(spec):
    """The equivalence function of that kernel."""
    lines, parts = ['def equiv(kernel, state):'], []
    for field in spec.fields:
        names = [f'{PLACE}{field.name}_{k}' for k in range(len(field.keys))]
        lines += [f'    {name} = Var(Index({sort.width}, {sort.size}))' for name, sort in zip(names, field.keys)]
        path = f'kernel.{PLACE}{field.name}' + ''.join(f'[{name}]' for name in names)
        if field.sort.width < room(field.sort.width):
            path = f'Extract({field.sort.width - 1}, 0, {path})'
        left = f'state.{field.name}' + (f'({", ".join(names)})' if names else '')
        parts.append(f'ForAll([{", ".join(names)}], {left} == {path})' if names else f'{left} == {path}')
    return '\n'.join([*lines, f'    return And({", ".join(parts)})']) if parts else ''


def writer(spec, handler, state, result):
    """A handler that writes a state over all variables, and returns a number."""
    params = ', '.join(f'{over} %a{k}' for k, (over, _) in enumerate(handler.params))
    lines = [f'define {handler.result} @{handler.name}({params}) {{']
    for field in spec.fields:
        width, size = room(field.sort.width), count_of(field)
        for place, keys in enumerate(itertools.product(*(range(sort.size) for sort in field.keys))):
            address = f'getelementptr inbounds ([{size} x i{width}], ptr @{PLACE}{field.name}, i64 0, i64 {place})'
            lines.append(f'  store i{width} {state.get(field, keys)}, ptr {address}')
    lines.append('  ret void' if handler.result.kind == 'void' else f'  ret {handler.result} {result or 0}')
    return '\n'.join([*lines, '}']) + '\n'


def transition_gives(ask, spec, kernel, function, state, args, outcome, fields):
    """Whether a transition gives a claimed outcome in these fields, and in the result where it is one number."""
    handler = kernel.functions[function.name]
    if sum(map(count_of, spec.fields)) > 20000:
        return None
    result = int(not outcome.valid) if outcome.plain else outcome.result
    text = state_kernel(spec, state) + writer(spec, handler, outcome.state, result)
    made = top_lines(spec) + '\n' + state_equiv(spec) + '\n' + function_lines(spec, function) + '\n'
    kernel_path, spec_path = ask.write('claim.ll', text), ask.write('claim.py', made)
    block = [f'  arg {k} = {value}' for k, value in enumerate(args)] + memory_rows(spec, state)
    asked = [f'state {field.name}' for field in fields] + (['result'] if result is not None else [])
    answers = [ask.violates(kernel_path, spec_path, function.name, one, block, [function.name]) for one in asked]
    if any(answers):
        return False
    return None if None in answers else True


def memory_rows(spec, state):
    """The rows of that kernel's memory in a state block."""
    found = []
    for field in spec.fields:
        size = room(field.sort.width) // 8
        content = bytearray(count_of(field) * size)
        for keys, value in state.entries[field.name].items():
            content[flat(field, keys) * size:(flat(field, keys) + 1) * size] = value.to_bytes(size, 'little')
        for at in range(0, len(content), 16):
            if any(content[at:at + 16]):
                found.append(f'  @{PLACE}{field.name}+{at}: {bytes(content[at:at + 16]).hex()}')
    return found


def named_lines(spec, function):
    """The lines of a function before its last one: what its variables and local names are."""
    return '\n'.join(spec.lines[function.line:function.last.line - 1])


def is_false_in_memory(ask, spec, function, text, kernel_text):
    """Whether an expression of an invariant is false in the initial memory of a kernel's text."""
    made = '\n'.join([sorts_and_constants(spec), f'def inv_{PLACE}part(kernel):', named_lines(spec, function), f'    return {text}'])
    return {f'init fails invariant {PLACE}part': True, 'init holds': False}.get(ask.opening(kernel_text, made + '\n'))


def is_false_in_state(ask, spec, function, text, state):
    """Whether an expression of a property is false in an abstract state."""
    made = '\n'.join([top_lines(spec), state_equiv(spec), f'def prop_{PLACE}part(state):', named_lines(spec, function),
                      f'    return {text}'])
    return {f'init fails property {PLACE}part': True, 'init holds': False}.get(ask.opening(state_kernel(spec, state), made + '\n'))


def sorts_and_constants(spec):
    """The sorts and constants of a specification, each on its line."""
    kept = []
    for node in parse(top_lines(spec)).body:
        if isinstance(node, ast.Assign) and not is_call(node.value, 'Hook'):
            kept.append(ast.unparse(node))
    return '\n'.join(kept)
