"""An explanation as one HTML page that stands alone: its style is its own, and it has no script.

In comes the dictionary that explain makes, out goes the page: the verdicts with their times, and for each rejection the source
with the line to blame marked, memory before and after the run, what the transition gives beside it, and what is false.
"""
from html import escape

from launcher import source_text
from launcher.explain import words

STYLE = """
:root { --ink: #1d2330; --soft: #667085; --line: #d9dee7; --red: #b42318; --green: #067647; --back: #f7f8fa }
* { box-sizing: border-box }
body { margin: 0 auto; max-width: 76rem; padding: 2rem; color: var(--ink); background: var(--back);
  font: 15px/1.5 system-ui, "DejaVu Sans", sans-serif }
h1 { font-size: 1.4rem; margin: 0 0 .2rem } h2 { font-size: 1.15rem; margin: 0 } h3 { font-size: .95rem; margin: 1.2rem 0 .4rem }
p { margin: .3rem 0 } .soft { color: var(--soft) }
code, pre, td.code, .mono { font: 13px/1.45 ui-monospace, "DejaVu Sans Mono", monospace }
section { background: #fff; border: 1px solid var(--line); border-radius: 8px; padding: 1.2rem 1.4rem; margin: 1.2rem 0 }
table { border-collapse: collapse; width: 100% } th { text-align: left; font-weight: 600; color: var(--soft); font-size: .85rem }
th, td { padding: .2rem .7rem .2rem 0; border-bottom: 1px solid var(--line); vertical-align: top }
.verdicts td.verdict { font-weight: 600 } .accept td.verdict { color: var(--green) } .reject td.verdict { color: var(--red) }
.unknown td.verdict, .memory td.verdict { color: #b54708 }
.source { border: 1px solid var(--line); border-radius: 6px; overflow-x: auto; padding: .4rem 0 }
.source div { white-space: pre; padding: 0 .8rem; font: 13px/1.45 ui-monospace, "DejaVu Sans Mono", monospace }
.source + .source { margin-top: .5rem } .source .no { display: inline-block; width: 3.5em; color: var(--soft); user-select: none }
.source .ran { background: #eef4ff } .source .failing { background: #fee4e2; box-shadow: inset 4px 0 var(--red) }
.columns { display: grid; grid-template-columns: repeat(auto-fit, minmax(20rem, 1fr)); gap: 0 1.6rem }
.was { color: var(--red); background: #fef3f2 } .now { color: var(--green); background: #ecfdf3; font-weight: 600 }
.differs { color: var(--red); font-weight: 600 }
.blame { border-left: 4px solid var(--red); background: #fef3f2; padding: .6rem .9rem; margin: .8rem 0; border-radius: 0 6px 6px 0 }
"""


def html(found):
    """The page."""
    title = f'{escape(found["kernel"])} against {escape(found["specification"])}'
    body = [f'<h1>{title}</h1>', f'<p class="soft">{escape(found["opening"]["line"])}; {escape(words.count(found))}</p>',
            verdicts(found['verdicts'])]
    if found['opening']['false']:
        body.append(f'<section id="opening">{blame(words.falsity(found["opening"]["false"], "at boot"))}</section>')
    body += [rejection(one) for one in found['rejections']]
    body.append('<p class="soft">Made by <code>hkv explain</code>. What is shown here is no verdict: those are the lines of '
                '<code>hkv verify</code>.</p>')
    return ('<!DOCTYPE html>\n<html lang="en">\n<head>\n<meta charset="utf-8">\n'
            f'<title>{title}</title>\n<style>{STYLE}</style>\n</head>\n<body>\n' + '\n'.join(body) + '\n</body>\n</html>\n')


def verdicts(rows):
    def cells(one):
        time = '' if one['seconds'] is None else f'{one["seconds"]:.2f} s'
        link = escape(one['handler'])
        link = f'<a href="#{link}">{link}</a>' if one['verdict'] == 'reject' else link
        return (f'<tr class="{one["verdict"]}"><td class="code">{link}</td><td class="verdict">{one["verdict"]}</td>'
                f'<td>{escape(one["obligation"])}</td><td class="time">{time}</td></tr>')

    return ('<section><table class="verdicts"><tr><th>handler</th><th>verdict</th><th>obligation</th><th>time</th></tr>'
            + ''.join(map(cells, rows)) + '</table></section>')


def rejection(one):
    """The section of a rejection."""
    case = one['smaller'] or one['reported']
    args = ', '.join(f'{arg["name"]} = {arg["shown"]}' for arg in case['arguments'])
    parts = [f'<section class="rejection" id="{escape(one["handler"])}">',
             f'<h2>{escape(one["handler"])}: {escape(words.obligation(one))}</h2>',
             f'<p class="soft">{escape(one["obligation"]["means"])}</p>']
    if args:
        parts.append(f'<p>called with <code class="arguments">{escape(args)}</code></p>')
    parts.append(blame(reasons_of(one)))
    parts += code(one) + ['<div class="columns">', before_and_after(one, case), transition(one), '</div>', specification(one)]
    return '\n'.join(part for part in parts if part) + '</section>'


def reasons_of(one):
    """The lines that say what goes wrong."""
    run = one['run']
    if run and run['ends'] == 'stuck':
        lines = [line for line in words.stuck({**run, 'steps': None})]
        return [line.strip() for line in lines]
    told = words.difference(one) + words.falsity(one['false'], 'after the run' if run else 'after the transition')
    return [line.strip() for line in told]


def blame(lines):
    if not lines:
        return ''
    rest = ''.join(f'<p class="mono">{escape(line.strip())}</p>' for line in lines[1:])
    return f'<div class="blame"><p><strong>{escape(lines[0].strip())}</strong></p>{rest}</div>'


# Sources

def code(one):
    """The source of the handler with the lines that ran and the one to blame: of C where the file is there, else of the kernel."""
    blamed, source = one['mark']['code'], one['source']
    place = blamed['place'] if blamed else None
    kernel = source['kernel']
    path = find_c(place, kernel['file']) if place else None
    if path:
        ran = {step['place']['line'] for step in one['mark']['ran'] if step['place'] and step['place']['file'] == place['file']}
        return [f'<h3>{escape(place["file"].rsplit("/", 1)[-1])}</h3>', excerpts(path, {place['line']}, ran)]
    if not one['run']:
        return []
    failing = {blamed['line']} if blamed else set()
    return [f'<h3>{escape(kernel["file"])}</h3>',
            listing(kernel['file'], kernel['line'], kernel['end'], failing, {step['line'] for step in one['mark']['ran']})]


def find_c(place, kernel_path):
    from launcher.kernel_debug import Place
    return source_text.find(Place(place['file'], place['line'], place['column']), kernel_path)


def excerpts(path, failing, ran):
    """The lines of a file round those that are marked, with a gap where lines between are left out."""
    count, out, begin = len(source_text.lines_of(path)), [], None
    marked = sorted(failing | ran)
    for at, line in enumerate(marked):
        begin = max(1, line - 3) if begin is None else begin
        if at + 1 == len(marked) or marked[at + 1] - line > 8:
            out.append(listing(path, begin, min(count, line + 2), failing, ran))
            begin = None
    return '\n'.join(out)


def listing(path, begin, end, failing, ran=()):
    lines, out = source_text.lines_of(path) or [], []
    for number in range(begin, min(end, len(lines)) + 1):
        kind = 'failing' if number in failing else 'ran' if number in ran else ''
        out.append(f'<div class="{kind}"><span class="no">{number}</span>{escape(lines[number - 1])}</div>')
    return f'<div class="source" data-file="{escape(path)}">' + ''.join(out) + '</div>'


def specification(one):
    """The transition, and what is false where that stands elsewhere, with the lines in question marked."""
    source, marked = one['source']['specification'], set(one['mark']['specification'])
    inside = {line for line in marked if source['line'] <= line <= source['end']}
    out = [f'<h3>{escape(source["file"])}</h3>', listing(source['file'], source['line'], source['end'], inside)]
    for line in sorted(marked - inside):
        out.append(listing(source['file'], max(1, line - 3), line, {line}))
    return '\n'.join(out)


# States

def before_and_after(one, case):
    """Memory before and after the run side by side; of an abstract state, before and after the transition."""
    run = one['run']
    if 'fields' in case:
        return ''
    before = {entry['path']: entry['shown'] for entry in case['memory']}
    changes = {change['path']: change['shown'] for change in run['changes']} if run and run['ends'] == 'returns' else {}
    rows = ''.join(change_row(path, *(changes.get(path) or (before[path],) * 2), path in changes)
                   for path in list(before) + [path for path in changes if path not in before])
    after = 'after' if changes or (run and run['ends'] == 'returns') else 'after: none, the run is stuck'
    rows = rows or '<tr><td colspan="3" class="soft">all 0</td></tr>'
    result = f'<p>the run returns <code>{escape(run["shown"])}</code></p>' if run and run.get('shown') is not None else ''
    return (f'<div><h3>Memory</h3>{result}<table class="memory"><tr><th>place</th><th>before</th><th>{after}</th></tr>{rows}</table>'
            '<p class="soft">All else is 0.</p></div>')


def change_row(path, was, now, changed):
    marks = (' class="was"', ' class="now"') if changed else ('', '')
    return (f'<tr><td class="code">{escape(path)}</td><td{marks[0]}>{escape(was)}</td><td{marks[1]}>{escape(now)}</td></tr>')


def transition(one):
    """What the transition gives, and where the run differs from it."""
    given = one['transition']
    if not given:
        return ''
    differing = {entry['path']: entry for entry in given.get('run', ())}
    changes = {change['path']: change['shown'] for change in given['changes']}
    end = {entry['path']: entry['shown'] for entry in given['end']}
    paths = list(end) + [path for path in [*changes, *differing] if path not in end]
    rows = ''.join(end_row(path, end.get(path, '0'), changes, differing) for path in dict.fromkeys(paths) if path != 'result')
    result = f', and gives <code>{escape(given["result_shown"])}</code>' if given['result_shown'] is not None else ''
    return ('<div><h3>End state of the transition</h3>'
            f'<p>The transition is {"" if given["valid"] else "<strong>not</strong> "}valid{result}.</p>'
            '<table class="transition"><tr><th>entry</th><th>before</th><th>transition</th><th>run</th></tr>'
            + (rows or '<tr><td colspan="4" class="soft">all 0</td></tr>') + '</table></div>')


def end_row(path, end, changes, differing):
    was = changes[path][0] if path in changes else end
    run = differing[path]['shown'][0] if path in differing else ''
    kind, mark = (' class="differs"' if path in differing else ''), (' class="now"' if path in changes else '')
    return (f'<tr{kind}><td class="code">{escape(path)}</td><td>{escape(was)}</td><td{mark}>{escape(end)}</td>'
            f'<td>{escape(run)}</td></tr>')
