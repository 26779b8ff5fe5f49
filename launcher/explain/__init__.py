"""`hkv explain KERNEL SPEC [REPORT] [--json] [--html FILE]`: each rejection in the words of the source.

In come the texts and a report of `verify` (without one, the program is asked for it), out go words, the same as JSON, or a page.
Nothing that is shown so is claimed: what a run does, and whether a case violates its obligation, is asked of `hkv` itself.
"""
import json
import sys
import time

from launcher import kernel_text, program, spec_text
from launcher.say import Fault

USAGE = 'hkv explain KERNEL SPEC [REPORT] [--json] [--html FILE]'

HELP = """\
Says each rejection in the words of the source: the arguments and the state, in C where the kernel was compiled with -g; what the run does,
or where and why it is stuck; what the transition gives, and where they differ; which part of an invariant or property is false, and where.
REPORT is what hkv verify printed of these texts; without it they are verified now. Nothing that is shown is a verdict.

  --json         print the same as JSON
  --html FILE    write it as a page that stands alone

Statuses: those of hkv verify, 4 also for a report of other texts.
"""


class Options:
    """The words of a call; files is empty where they have no form."""

    def __init__(self, words):
        self.files, self.json, self.html = [], False, None
        words = list(words)
        while words:
            word = words.pop(0)
            if word == '--json':
                self.json = True
            elif word == '--html' and words:
                self.html = words.pop(0)
            elif word.startswith('--'):
                self.files = []
                return
            else:
                self.files.append(word)


def run(words):
    if words[:1] and words[0] in ('--help', '-h'):
        from launcher import help as pages
        return pages.run(['explain'])
    options = Options(words)
    if len(options.files) not in (2, 3):
        print(f'usage: {USAGE}', file=sys.stderr)
        return 4
    found, status = explained(*options.files)
    if found is None:
        return status
    return show(found, options, status)


def show(found, options, status):
    from launcher.explain import page, words
    if options.html:
        with open(options.html, 'w', encoding='utf-8') as file:
            file.write(page.html(found))
    if options.json:
        print(json.dumps(found, indent=1, ensure_ascii=False))
    elif not options.html:
        print('\n'.join(words.lines(found)))
    return status


def explained(kernel_path, spec_path, report_path=None):
    """The dictionary of a report, and the status of its verdicts; none where there is no report."""
    text, times, status = read_report(report_path) if report_path else verified(kernel_path, spec_path)
    if text is None:
        return None, status
    from launcher.explain import ask, cases, report
    found = report.read(text)
    if not found.opening:
        print('hkv: there is no report of `hkv verify` here' + (f': {report_path}' if report_path else ''), file=sys.stderr)
        return None, 4
    kernel, spec = loaded(kernel_path, spec_path)
    others = [one.handler for one in found.rejections if not spec.transition(one.handler) or one.handler not in kernel.functions]
    if others:
        print(f'hkv: the report is of other texts: it rejects {others[0]}', file=sys.stderr)
        return None, 4
    with ask.Ask(spec) as asked:
        subject = cases.Subject(kernel, spec, asked)
        rejections = [cases.explain(subject, one) for one in found.rejections]
        opening = cases.opening(subject, found.opening)
        calls = asked.calls
    verdicts = [{'verdict': one.kind, 'handler': one.handler, 'obligation': one.obligation, 'seconds': times.get(one.handler)}
                for one in found.verdicts]
    return {'kernel': kernel_path, 'specification': spec_path, 'opening': opening, 'verdicts': verdicts,
            'rejections': rejections, 'asked': calls, 'proved': program.is_proved()}, status


def loaded(kernel_path, spec_path):
    """Both texts by their parts."""
    try:
        return kernel_text.load(kernel_path), spec_text.load(spec_path)
    except (SyntaxError, ValueError, RecursionError) as error:
        raise Fault(f'{spec_path}: this specification cannot be shown here, since Python does not read it: {error}') from error


def read_report(path):
    """A report's text, no times, and the status that it comes to."""
    with open(path, encoding='utf-8', errors='surrogateescape') as file:
        text = file.read()
    lines = text.splitlines()
    failed = any(line.startswith(('reject ', 'init fails ')) for line in lines)
    unknown = any(line.startswith('unknown ') for line in lines)
    return text, {}, 1 if failed else 2 if unknown else 0


def verified(kernel_path, spec_path):
    """The report of a call of `verify`, with the seconds until each handler's line came, and the status. A refusal is said in
    words, as by `verify` itself, and then there is no report."""
    import subprocess

    from launcher import refusals
    lines, times, before = [], {}, time.monotonic()
    with refusals.spawn(['verify', kernel_path, spec_path], stdout=subprocess.PIPE, bufsize=0) as child:
        for line in child.stdout:
            now, line = time.monotonic(), line.decode(errors='surrogateescape')
            lines.append(line)
            words = line.split()
            if words and not line.startswith(' ') and words[0] in ('accept', 'reject', 'unknown', 'memory', 'init'):
                times[words[1]], before = round(now - before, 3), now
        child.stdout.close()
        status = refusals.status_of(child)
    text = ''.join(lines)
    if not text.startswith('init '):
        sys.stdout.write(text)
        sys.stdout.flush()
        refusals.speak(['verify', kernel_path, spec_path], status, text.encode(errors='surrogateescape'), {})
        return None, {}, status
    return text, times, status
