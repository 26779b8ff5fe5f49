"""The way of a run by lines of the source: what each line read and wrote, with the program's own numbers.

In come a case and the line at which its run is stuck, or none; out go plain values, one for each stretch of a source line.
"""
import re

from launcher import source_text
from launcher.explain import tracing
from launcher.explain.paths import shown
from launcher.explain.walk import POISON, Pointer, Walk
from launcher.kernel_text import called


def where(kernel, line):
    """The place of a line of the kernel in its C source, and the places that it was inlined from."""
    at = kernel.instr_at(line)
    place = kernel.debug.place(at[2]) if at else None
    return {'place': place_values(kernel, place), 'function': at[0].name if at else None}


def place_values(kernel, place):
    if place is None:
        return None
    path = source_text.find(place, kernel.path)
    text = source_text.line_at(path, place.line)
    return {'file': place.file, 'line': place.line, 'column': place.column, 'shown': str(place), 'function': place.function,
            'text': text.strip() if text else None, 'caller': place_values(kernel, place.caller)}


def of_run(subject, handler, case, line, code=None):
    """The steps of a run and more on its last one, or none where the program did not tell them."""
    try:
        traced = tracing.trace(subject.ask, subject.kernel, case.memory, handler, case.args, line)
    except (AttributeError, IndexError, KeyError, TypeError, ValueError):
        return None, None
    if traced is None:
        return None, None
    events, silent = traced
    walk = Walk(subject.kernel, subject.paths, events, silent, line)
    walked = walk.run(handler, case.args)
    return grouped(subject, walk, walked), detail(subject, walk, walked[-1] if walked and line else None, code)


def grouped(subject, walk, walked):
    """Steps of one source line after each other as one."""
    found = []
    for step in walked:
        place = subject.kernel.debug.place(step.instr)
        key = (place.file, place.line) if place else None
        told = told_of(subject, walk, step)
        if is_stuck(walk, step, walked):
            told['text'] = ''
        if found and (key is None or found[-1]['key'] in (key, None)) and subject.kernel.debug.is_there:
            found[-1]['last'] = step.instr.line
            found[-1]['key'] = found[-1]['key'] or key
            extend(found[-1], told, place, subject)
        elif told['text'] or key or step is walked[-1]:
            found.append({'key': key, 'last': step.instr.line, 'place': place_values(subject.kernel, place), 'line': step.instr.line,
                          'instruction': step.instr.text.split(', !')[0], 'tells': []})
            extend(found[-1], told, place, subject)
    for one in found:
        del one['key']
    return [one for one in found if one['tells'] or one is found[-1]]


def is_stuck(walk, step, walked):
    """Whether a step is the one at which the run is stuck, and so did nothing."""
    return step is walked[-1] and step.instr.line == walk.line


def left_at(walked):
    """Where a run leaves the handler."""
    return {'line': walked[-1]['last'], 'place': walked[-1]['place']} if walked else None


def extend(group, told, place, subject):
    if told['text']:
        group['tells'].append(told)
    if place and not group['place']:
        group['place'] = place_values(subject.kernel, place)


def told_of(subject, walk, step):
    """What one instruction tells: a read, a write, a call, or a value that is poison."""
    found = {'kind': step.instr.op, 'text': '', 'line': step.instr.line}
    if step.instr.op in ('load', 'store') and isinstance(step.address, Pointer):
        path = walk.path(step.address)
        leaf = subject.paths.at(step.address.name, step.address.offset) if step.address.name else None
        value = step.value if step.instr.op == 'load' else step.stored
        is_slot = (step.address.name or '').startswith('%')
        if value is None and step.instr.op == 'load' or isinstance(value, Pointer) or is_slot:
            found.update(path=path, value=None, address=True)
            return found
        words = 'poison' if value == POISON else (leaf.shown(value) if leaf and leaf.offset == step.address.offset else str(value))
        found.update(path=path, value=None if value == POISON else value)
        found['text'] = f'{path} = {words}' if step.instr.op == 'load' else f'{path} := {words}'
    elif step.value == POISON:
        operands = ', '.join(f'%{name} = {shown(value, 64)}' for name, value in step.operands if isinstance(value, int))
        found['text'] = f'{step.instr.op} gives poison' + (f' ({operands})' if operands else '')
    elif called(step.instr) in subject.kernel.functions:
        found['text'] = f'calls {called(step.instr)}'
    return found


def detail(subject, walk, last, code):
    """More on an access where a run is stuck: the address, and for one that is outside the bound that it breaks."""
    if last is None or not isinstance(last.address, Pointer) or not last.address.name:
        return operands(last)
    address, path = last.address, walk.path(last.address)
    over = subject.kernel.global_named(address.name)
    if over is None or code not in ('U6', 'U7', 'U8'):
        return {'path': path, 'words': f'the access is to {path}'}
    size = subject.kernel.size_of(over.type)
    return {'path': path, 'offset': address.offset, 'size': size, 'words': bound(subject.kernel, over, address, path, size)}


def operands(last):
    """The numbers on which an instruction is stuck."""
    told = [f'%{name} = {shown(value, 64)}' for name, value in (last.operands if last else ()) if isinstance(value, int)]
    return {'path': None, 'words': ', '.join(told)} if told else None


def bound(kernel, over, address, path, size):
    """The first index of a path that is not below its array's length, else the bytes."""
    at, spelled = over.type, address.path[len(over.name):]
    for step in re.findall(r'\[-?\d+\]|\.f\d+', spelled):
        at = kernel.whole(at)
        if step.startswith('[') and at.kind == 'array':
            if not 0 <= int(step[1:-1]) < at.number:
                return f'{path}: the index {step[1:-1]}, and there are {at.number} elements'
            at = at.parts[0]
        elif step.startswith('.') and at.kind in ('struct', 'packed'):
            at = at.parts[int(step[2:])]
    return f'{path}: byte {address.offset} of {over.name}, which has {size} bytes'
