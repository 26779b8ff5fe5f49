"""An explanation in words: lines for the terminal, from the dictionary that explain makes.

In comes the dictionary, out go lines. They say nothing that the dictionary does not have.
"""
MOST = 40  # lines of a list that are shown


def lines(found):
    """All lines: the opening where it fails, each rejection, and how many handlers there are of each verdict."""
    out = opening(found['opening'])
    for one in found['rejections']:
        out += [''] * bool(out) + rejection(one)
    out += [''] * bool(out) + [count(found)]
    return out


def count(found):
    kinds = [one['verdict'] for one in found['verdicts']]
    told = [f'{kinds.count(kind)} {words}' for kind, words in (
        ('accept', 'accepted'), ('reject', 'rejected'), ('unknown', 'unknown'), ('memory', 'without memory')) if kind in kinds]
    return ', '.join(told) or 'no handler'


def opening(told):
    if told['line'] == 'init holds':
        return []
    return [f'at boot: {told["line"]}'] + falsity(told['false'], 'at boot')


def obligation(one):
    kind, name = one['obligation']['kind'], one['obligation']['name']
    return f'{kind} {name}'.strip()


def rejection(one):
    """The lines of a rejection."""
    out = [f'{one["handler"]}: rejected: {obligation(one)}', f'  {one["obligation"]["means"]}']
    out += places(one)
    if one['confirmed'] is not True:
        out.append('  the program does not confirm that this case goes wrong: is the report of these texts?')
    case = one['smaller'] or one['reported']
    out += state(one, case)
    if one['run']:
        out += stuck(one['run']) if one['run']['ends'] == 'stuck' else returned(one)
    out += transition(one) + difference(one) + falsity(one['false'], 'after the transition' if not one['run'] else 'after the run')
    return out


def places(one):
    source = one['source']
    c, spec = source['c'], source['specification']
    code = f'{base(c["file"])}:{c["line"]}' if c else f'{source["kernel"]["file"]}:{source["kernel"]["line"]}'
    return [f'  {code}, {spec["file"]}:{spec["line"]}']


def base(path):
    return path.rsplit('/', 1)[-1]


def state(one, case):
    """Arguments and state, and how the state came about."""
    out = []
    if case['arguments']:
        out.append('  called with ' + ', '.join(f'{arg["name"]} = {arg["shown"]}' for arg in case['arguments']))
    entries = case.get('memory', case.get('fields'))
    title = 'memory' if 'memory' in case else 'the abstract state'
    zeros = f'; {one["zeroed"]} number{"s" * (one["zeroed"] != 1)} of the report set to 0' if one['smaller'] else ''
    if entries:
        out.append(f'  {title} before (all else is 0{zeros}):')
        out += listed(f'{entry["path"]} = {entry["shown"]}' for entry in entries)
    else:
        out.append(f'  {title} before: all 0{zeros}')
    return out


def listed(entries):
    entries = list(entries)
    out = [f'    {entry}' for entry in entries[:MOST]]
    return out + [f'    .. and {len(entries) - MOST} more'] * (len(entries) > MOST)


def stuck(run):
    """Where a run is stuck, behind the steps to it."""
    out = []
    if run['steps']:
        out.append('  the run:')
        for step in run['steps']:
            out += step_lines(step)
    place = run['place']
    where = place['shown'] if place else f'line {run["line"]}'
    out.append(f'  {where}: {run["words"]} ({run["code"]})')
    if run['detail']:
        out.append(f'    {run["detail"]["words"]}')
    if place and place['text']:
        out.append(f'    {place["text"]}')
    caller = place['caller'] if place else None
    while caller:
        out.append(f'    called from {caller["function"]}, {caller["shown"]}: {caller["text"] or ""}'.rstrip(': '))
        caller = caller['caller']
    out.append(f'    kernel line {run["line"]}: {run["text"].split(", !")[0]}')
    return out + [f'    {run["hint"]}'] * bool(run['hint'])


def step_lines(step):
    place = step['place']
    head = f'    {place["shown"].rsplit(":", 1)[0] if place["column"] else place["shown"]}: {place["text"] or ""}'.rstrip() \
        if place else f'    line {step["line"]}: {step["instruction"]}'
    told = list(dict.fromkeys(one['text'] for one in step['tells']))
    return [head] + [f'        {text}' for text in told[:MOST]]


def returned(one):
    run = one['run']
    out = ['  the run returns' + (f' {run["shown"]}' if run['shown'] is not None else '') + (', and changes:' if run['changes'] else ', and changes nothing')]
    return out + listed(f'{change["path"]}: {change["shown"][0]} -> {change["shown"][1]}' for change in run['changes'])


def transition(one):
    given = one['transition']
    if not given:
        return []
    out = [f'  the transition is {"" if given["valid"] else "not "}valid'
           + (f', gives {given["result_shown"]}' if given['result_shown'] is not None else '')
           + (', and changes:' if given['changes'] else ', and changes nothing')]
    out += listed(f'{change["path"]}: {change["shown"][0]} -> {change["shown"][1]}' for change in given['changes'])
    return out + unconfirmed(given)


def unconfirmed(told):
    if told['confirmed'] is True:
        return []
    return ['    (this is the launcher\'s own evaluation, which the program did not confirm)']


def difference(one):
    told = one['difference']
    if not told:
        return []
    out = []
    for entry in told['entries'][:MOST]:
        c = f' ({entry["c"]})' if entry['c'] else ''
        out.append(f'  {entry["path"]}{c}: the run gives {entry["shown"][0]}, the transition {entry["shown"][1]}')
    return out + [f'  .. and {len(told["entries"]) - MOST} more'] * (len(told['entries']) > MOST)


def falsity(told, when):
    if not told:
        return []
    at = ', '.join(f'{name} = {value}' for name, value in told['at'].items())
    out = [f'  {told["function"]} is false {when}' + (f' at {at}' if at else '') + f' (line {told["line"]}):', f'    {told["text"]}']
    for read in told['reads']:
        c = f' ({read["c"]})' if read['c'] else ''
        before = f', before: {read["before"]}' if read['before'] is not None and read['before'] != read['value'] else ''
        out.append(f'    {read["path"]}{c} = {read["shown"]}{before}')
    return out + unconfirmed(told)
