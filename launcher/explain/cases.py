"""One rejection, explained: a dictionary of plain values, which words.py and page.py show, and --json prints as it is.

In come the kernel, the specification and a verdict; what a run does, whether a case violates its obligation, and whether what
the specification gives is as shown, is asked of the program (ask.py, facts.py).
"""
from launcher import reasons
from launcher.explain import facts, falsity, marks, shrink, steps
from launcher.explain.evaluate import State, abstraction, named, transition
from launcher.explain.memory import Memory, begins_in, typed
from launcher.explain.paths import Paths, place_of, shown
from launcher.kernel_debug import CType

MEANS = {
    'undefined': 'the run does something that C or LLVM leaves undefined',
    'invariant': 'the run ends with the invariant false',
    'state': 'the run ends with another value in this field than the transition gives',
    'result': 'the run returns another number than the transition gives',
    'property': 'the transition leads from a state in which all properties hold to one in which this one is false',
    'step': 'the transition makes a step that this step property forbids',
}


class Subject:
    """The texts that are explained, and the program that is asked about them."""

    def __init__(self, kernel, spec, ask):
        self.kernel, self.spec, self.ask = kernel, spec, ask
        self.paths = Paths(kernel)
        self.handlers = [one.name for one in spec.transitions]

    def still_violates(self, verdict, block):
        return self.ask.violates(self.kernel.path, self.spec.path, verdict.handler, verdict.obligation, block, self.handlers)

    def params(self, handler):
        """Name, width and C type of each parameter."""
        transition_ = self.spec.transition(handler)
        function = self.kernel.functions[handler]
        ctypes = self.kernel.debug.params(function) or [(None, None)] * len(function.params)
        return [(name, over.number, ctype) for name, (over, _), (_, ctype)
                in zip(transition_.params[1:], function.params, ctypes)]


class Case:
    """A case that is explained: arguments, and a memory or an abstract state."""

    def __init__(self, args, memory=None, state=None):
        self.args, self.memory, self.state = args, memory, state

    def block(self):
        rows = self.state.rows() if self.state is not None else self.memory.rows()
        return [f'  arg {k} = {value}' for k, value in enumerate(self.args)] + rows


def case_of(subject, verdict):
    """The case that the report has."""
    kind, _ = verdict.about
    if kind in ('property', 'step'):
        return Case(verdict.case.args, state=State(subject.spec, verdict.case.entries))
    return Case(verdict.case.args, memory=Memory(subject.kernel, verdict.case.rows))


def smaller(subject, verdict, case):
    """A case with more zeros that still violates the obligation, or none; the program confirmed it."""
    if case.state is not None:
        places = [(field, keys) for field, keys, _ in case.state.nonzero()]
    else:
        places = [leaf for leaf, _ in subject.paths.nonzero(case.memory)]
    places += [k for k, value in enumerate(case.args) if value]

    def without(zeroed):
        made = Case(list(case.args), case.memory and case.memory.copy(), case.state and case.state.copy())
        for place in (places[k] for k in zeroed):
            put_zero(made, place)
        return made

    zeroed = shrink.zeros(len(places), lambda some: bool(subject.still_violates(verdict, without(some).block())))
    return (without(zeroed), len(zeroed)) if zeroed else (None, 0)


def put_zero(case, place):
    if isinstance(place, int):
        case.args[place] = 0
    elif isinstance(place, tuple):
        case.state.put(*place, 0)
    else:
        mask = (1 << (place.bits or place.width)) - 1 << place.shift
        word = case.memory.number(place.name, place.offset, place.width)
        case.memory.put(place.name, place.offset, place.width, word & ~mask)


def described(subject, verdict, case):
    """A case as plain values."""
    found = {'arguments': [{'name': name, 'value': value, 'shown': shown(value, width, ctype)}
                           for (name, width, ctype), value in zip(subject.params(verdict.handler), case.args)],
             'block': case.block()}
    if case.state is not None:
        found['fields'] = [entry(field, keys, value) for field, keys, value in case.state.nonzero()]
    else:
        found['memory'] = [place(leaf, value) for leaf, value in subject.paths.nonzero(case.memory)]
    return found


def place(leaf, value):
    return {'path': leaf.path, 'value': value, 'shown': leaf.shown(value)}


def entry(field, keys, value):
    return {'path': named(field.name, keys), 'field': field.name, 'keys': list(keys), 'value': value,
            'shown': shown(value, field.sort.width)}


def explain(subject, verdict):
    """The dictionary of a rejection."""
    kind, name = verdict.about
    reported = case_of(subject, verdict)
    confirmed = subject.still_violates(verdict, reported.block())
    small, zeroed = smaller(subject, verdict, reported) if confirmed else (None, 0)
    case = small or reported
    found = {'handler': verdict.handler, 'obligation': {'kind': kind, 'name': name, 'means': MEANS.get(kind, '')},
             'reported': described(subject, verdict, reported), 'confirmed': confirmed,
             'smaller': described(subject, verdict, small) if small else None, 'zeroed': zeroed,
             'source': sources(subject, verdict.handler)}
    tell = of_state if case.state is not None else of_run
    found.update(run=None, transition=None, difference=None, false=None)
    tell(subject, verdict, case, found)
    found['mark'] = marks.mark(subject, found, verdict)
    return found


def sources(subject, handler):
    """Where the handler and its transition stand."""
    function, transition_ = subject.kernel.functions[handler], subject.spec.transition(handler)
    place_ = subject.kernel.debug.place_of_function(function)
    return {'kernel': {'file': subject.kernel.path, 'line': function.line, 'end': function.end},
            'c': {'file': place_.file, 'line': place_.line} if place_ else None,
            'specification': {'file': subject.spec.path, 'line': transition_.line, 'end': transition_.steps[-1].end}}


# A case of a run

def of_run(subject, verdict, case, found):
    """What the run does from a memory, what the transition gives there, and where they differ."""
    kind, name = verdict.about
    end = subject.ask.run(begins_in(subject.kernel, case.memory), verdict.handler, case.args)
    if end[0] == 'stuck':
        found['run'] = stuck(subject, verdict, case, end[1], end[2])
    if end[0] != 'returns':
        return
    after = Memory(subject.kernel, end[2])
    found['run'] = returned(subject, verdict, case, end[1], after)
    before = abstraction(subject.spec, subject.kernel, case.memory)
    outcome, _ = transition(subject.spec, subject.kernel, subject.spec.transition(verdict.handler), before, case.args)
    behind = abstraction(subject.spec, subject.kernel, after)
    found['transition'] = given(subject, verdict, before, outcome, case.args)
    found['transition']['run'] = differences(subject, behind, outcome)
    if kind == 'state':
        found['difference'] = {'kind': 'state', 'name': name,
                               'entries': [one for one in found['transition']['run'] if one['field'] == name]}
    elif kind == 'result':
        found['difference'] = results(subject, verdict, end[1], outcome)
    elif kind == 'invariant':
        found['false'] = invariant(subject, name, case.memory, after)


def stuck(subject, verdict, case, code, line):
    walked, detail = steps.of_run(subject, verdict.handler, case, line, code)
    return {'ends': 'stuck', 'code': code, 'words': reasons.words(code), 'hint': reasons.hint(code), 'line': line,
            'text': subject.kernel.lines[line - 1].strip(), **steps.where(subject.kernel, line), 'steps': walked,
            'detail': detail}


def returned(subject, verdict, case, value, after):
    function = subject.kernel.functions[verdict.handler]
    ctype = subject.kernel.debug.result(function)
    width = function.result.number
    walked, _ = steps.of_run(subject, verdict.handler, case, None)
    return {'ends': 'returns', 'value': value, 'left': steps.left_at(walked), 'shown': shown(value, width, ctype or signed_type(width)) if value is not None else None,
            'changes': [{'path': leaf.path, 'before': was, 'after': now, 'shown': [leaf.shown(was), leaf.shown(now)]}
                        for leaf, was, now in subject.paths.changed(case.memory, after)],
            'after': [place(leaf, value) for leaf, value in subject.paths.nonzero(after)],
            'steps': walked}


def signed_type(width):
    return CType('signed', width)


def given(subject, verdict, before, outcome, args):
    """What a transition gives."""
    spec = subject.spec
    changes = [{'path': named(field.name, keys), 'field': field.name, 'keys': list(keys), 'before': was, 'after': now,
                'shown': [shown(was, field.sort.width), shown(now, field.sort.width)]}
               for field, keys, was, now in before.differences(outcome.state)]
    function = spec.transition(verdict.handler)
    confirmed = facts.transition_gives(subject.ask, spec, subject.kernel, function, before, args, outcome, spec.fields)
    over = subject.kernel.functions[verdict.handler].result
    return {'valid': outcome.valid, 'changes': changes, 'result': outcome.result,
            'result_shown': result_words(outcome, over.number), 'confirmed': confirmed,
            'condition': spec.source(function.last.values[0]), 'line': function.last.line,
            'end': [entry(field, keys, value) for field, keys, value in outcome.state.nonzero()]}


def result_words(outcome, width):
    if outcome.result is not None:
        return shown(outcome.result, width, signed_type(width))
    if outcome.plain:
        return '0' if outcome.valid else 'anything but 0'
    return None


def differences(subject, behind, outcome):
    """Each entry of the abstract state at which the run and the transition differ."""
    return [{'path': named(field.name, keys), 'field': field.name, 'keys': list(keys), 'run': run, 'transition': gives,
             'c': c_of_entry(subject, field, keys), 'shown': [shown(run, field.sort.width), shown(gives, field.sort.width)]}
            for field, keys, run, gives in behind.differences(outcome.state)]


def c_of_entry(subject, field, keys):
    """The path of an entry in memory, where its equation is a plain path."""
    leaf = marks.leaf_of_entry(subject, field, keys)
    return leaf.path if leaf else None


def results(subject, verdict, value, outcome):
    width = subject.kernel.functions[verdict.handler].result.number
    return {'kind': 'result', 'name': '', 'entries': [{
        'path': 'result', 'field': None, 'keys': [], 'c': None, 'run': value, 'transition': outcome.result,
        'shown': [shown(value, width, signed_type(width)), result_words(outcome, width)]}]}


def invariant(subject, name, before, after):
    """What is false of an invariant behind the run."""
    function = subject.spec.function('invariant', name)
    if function is None:
        return None
    part, evaluator = falsity.of_function(subject.spec, subject.kernel, function, memory=after)
    if part is None:
        return None
    text = falsity.grounded(evaluator, part.node, part.at)
    confirmed = facts.is_false_in_memory(subject.ask, subject.spec, function, text, typed(subject.kernel, after))
    return told(subject, function, part, confirmed, c_names(subject, evaluator, part, before))


def c_names(subject, evaluator, part, before):
    """What a false part reads, with the paths of C and the numbers before the run."""
    found = []
    for text, value, width in part.reads:
        found.append({'path': text, 'value': value, 'shown': shown(value, width if isinstance(width, int) else 1),
                      'c': None, 'before': None})
    for one in found:
        place_ = place_of(subject.kernel, one['path'])
        leaf = subject.paths.at(*place_) if place_ else None
        if leaf and leaf.offset == place_[1]:
            one['before'] = leaf.of(before)
            one['c'] = leaf.path if 'kernel.' + leaf.path != one['path'] else None
    return found


def told(subject, function, part, confirmed, reads):
    return {'function': function.name, 'name': function.shown, 'kind': function.kind, 'line': part.line,
            'text': subject.spec.source(part.node), 'at': part.at, 'reads': reads, 'confirmed': confirmed}


# A case of the specification alone

def of_state(subject, verdict, case, found):
    """What the transition gives from an abstract state, and what is false in its end."""
    kind, name = verdict.about
    function = subject.spec.transition(verdict.handler)
    outcome, _ = transition(subject.spec, subject.kernel, function, case.state, case.args)
    found['transition'] = given(subject, verdict, case.state, outcome, case.args)
    blamed = subject.spec.function(kind, name)
    if blamed is None:
        return
    states = {'state': outcome.state} if kind == 'property' else dict(zip(blamed.params, (case.state, outcome.state)))
    part, evaluator = falsity.of_function(subject.spec, subject.kernel, blamed, states=states)
    if part is None:
        return
    text = falsity.grounded(evaluator, part.node, part.at)
    confirmed = None
    if kind == 'property':
        confirmed = facts.is_false_in_state(subject.ask, subject.spec, blamed, text, outcome.state)
    reads = [{'path': text, 'value': value, 'shown': shown(value, width if isinstance(width, int) else 1), 'c': None,
              'before': value_before(subject, case.state, text)} for text, value, width in part.reads]
    found['false'] = told(subject, blamed, part, confirmed, reads)


def value_before(subject, state, text):
    """The number of a field's entry before the transition, by its text `state.F[k]`."""
    for field in subject.spec.fields:
        for prefix in ('state.', 'new.'):
            if text == prefix + field.name and not field.keys:
                return state.get(field)
            if text.startswith(f'{prefix}{field.name}[') and field.keys:
                return state.get(field, tuple(int(key) for key in text[len(prefix + field.name) + 1:-1].split(',')))
    return None



def opening(subject, line):
    """The first line of the report; what is false at boot where it fails."""
    words = line.split(' ')
    found = {'line': line, 'false': None}
    if words[1] != 'fails':
        return found
    function = subject.spec.function(words[2], words[3])
    memory = boot(subject)
    if memory is None or function is None:
        return found
    states = {'state': abstraction(subject.spec, subject.kernel, memory)} if words[2] == 'property' else None
    part, evaluator = falsity.of_function(subject.spec, subject.kernel, function, memory=memory, states=states)
    if part is None:
        return found
    text = falsity.grounded(evaluator, part.node, part.at)
    if states:
        confirmed = facts.is_false_in_state(subject.ask, subject.spec, function, text, states['state'])
    else:
        confirmed = facts.is_false_in_memory(subject.ask, subject.spec, function, text, subject.kernel.text)
    reads = [{'path': text, 'value': value, 'shown': shown(value, width if isinstance(width, int) else 1), 'c': None, 'before': None}
             for text, value, width in part.reads]
    found['false'] = told(subject, function, part, confirmed, reads)
    return found


def boot(subject):
    """The memory at boot, by the run of a function that does nothing."""
    text = subject.kernel.text + '\ndefine void @hkv.nothing() {\n  ret void\n}\n'
    end = subject.ask.run(text, 'hkv.nothing', ())
    return Memory(subject.kernel, end[2]) if end[0] == 'returns' else None
