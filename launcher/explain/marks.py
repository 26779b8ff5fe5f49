"""Which lines of the sources are to blame for a rejection, as far as that can be told.

In come the texts and the dictionary of a rejection, out go the kernel's place to mark and the lines that ran, and the lines of
the specification to mark.
"""
from launcher.explain.evaluate import Evaluator
from launcher.spec_widths import read_path


def leaf_of_entry(subject, field, keys):
    """The place in memory that an entry of a field is, where its equation is a plain path; else none."""
    equations = subject.spec.equations()
    if field.name not in equations:
        return None
    variables, right = equations[field.name]
    path = read_path(subject.kernel, right)
    if path is None or path.over is None:
        return None
    evaluator = Evaluator(subject.spec, subject.kernel, subject.spec.equiv)
    for step in subject.spec.equiv.steps:
        if step.kind == 'var':
            evaluator.define(step)
    evaluator.bound = dict(zip(variables, keys))
    try:
        offset = offset_of(subject.kernel, evaluator, path)
    except KeyError:
        return None
    return subject.paths.at(path.over.name, offset) if offset is not None else None


def offset_of(kernel, evaluator, path):
    over, offset = path.over.type, 0
    for kind, step in path.steps:
        over = kernel.whole(over)
        if kind == 'field':
            offset += kernel.offsets(over)[0][step]
            over = over.parts[step]
            continue
        index = evaluator.value(step, evaluator.widths.own(step) or 64)
        if index >= over.number:
            return None
        over = over.parts[0]
        offset += index * kernel.size_of(over)
    return offset


def blamed_paths(found):
    """The paths in memory that a rejection is about."""
    paths = [entry.get('c') for entry in (found['difference'] or {}).get('entries', ())]
    paths += [read['c'] or read['path'].removeprefix('kernel.') for read in (found['false'] or {}).get('reads', ())]
    return {path for path in paths if path}


def mark(subject, found, verdict):
    """The lines to mark: `code` is a place of the kernel or its C source, `ran` the lines that ran, `specification` lines."""
    run = found['run']
    steps = (run or {}).get('steps') or []
    ran = [at_of(step) for step in steps]
    if run and run['ends'] == 'stuck':
        code = {'line': run['line'], 'place': run['place']}
    else:
        code = written(steps, blamed_paths(found)) or (run or {}).get('left')
    return {'code': code, 'ran': ran, 'specification': spec_lines(subject, found, verdict)}


def at_of(step):
    return {'line': step['line'], 'place': step['place']}


def written(steps, paths):
    """The last line that writes one of these paths."""
    for step in reversed(steps):
        for told in step['tells']:
            if told['kind'] == 'store' and told.get('path') in paths:
                return {'line': told['line'], 'place': step['place']}
    return None


def spec_lines(subject, found, verdict):
    """The lines of the transition that write the field in question, its return line, and the line of what is false."""
    kind, name = verdict.about
    transition = subject.spec.transition(verdict.handler)
    lines = [step.line for step in transition.steps if step.kind == 'write' and (step.name == name or kind == 'property')]
    if kind == 'result' or (found['transition'] and not found['transition']['valid']):
        lines = [transition.last.line]
    return lines + ([found['false']['line']] if found['false'] else [])
