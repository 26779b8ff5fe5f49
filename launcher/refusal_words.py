"""A refusal in words: the lines for standard error beside a fixed line of the program.

In come the words of the call, the status and what the program showed; out go lines `FILE:LINE: error: CODE: words` with the
text of the line, a mark under the part that is meant where that can be told, notes, and a hint.
"""
import os
import re

from launcher import kernel_marks, kernel_text, reasons, source_text, spec_marks, spec_text

TEXTS = {'kernel': 1, 'spec': 2, 'cert': 3, 'cnf': 1}
MOST_LINES = 300000
NOT_PLAIN = re.compile(r'[\x00-\x08\x0b-\x1f\x7f-\x9f]')


def told(words, status, shown, names):
    """The lines that are said about a call."""
    lines = shown.decode(errors='replace').split('\n')
    found = []
    for line in lines if status != 6 else []:
        found += told_of_line(words, line, names)
    if status == 6:
        what = 'the output or the certificate' if '--cert' in words else 'the output'
        found = [f'hkv: error: {what} could not be written', f'hkv: hint: {reasons.hint("write fault")}']
    return [NOT_PLAIN.sub('?', line) for line in found]


def told_of_line(words, line, names):
    """What is said about one line of the program."""
    if text := re.fullmatch(r'(kernel|spec|cert|cnf) (\d+): ([A-Z]\d+)', line):
        return of_text(Files(words, names), text[1], int(text[2]), text[3])
    if stuck := re.fullmatch(r'stuck (U\d+) (\d+)', line):
        return of_stuck(Files(words, names), stuck[1], int(stuck[2]))
    if call := re.fullmatch(r'call (.*): (A\d)', line):
        return of_call(Files(words, names), call[1], call[2])
    if refused := re.fullmatch(r'refused (?:(\S+) (.*) )?(\d+) (L\d)', line):
        return of_row(Files(words, names), refused[1], refused[2], int(refused[3]), refused[4])
    if fault := re.fullmatch(r'(read fault|long) (.*)', line):
        return of_file(Files(words, names), fault[1], fault[2])
    if memory := re.fullmatch(r'memory(?: (.+))?', line):
        behind = f' for {memory[1]}' if memory[1] else ''
        return [f'hkv: error: {reasons.words("memory")}{behind}', f'hkv: hint: {reasons.hint("memory")}']
    return of_usage() if line.startswith('usage: ') else []


class Files:
    """The files of a call: which are read, and under which names they are shown."""

    def __init__(self, words, names):
        self.words, self.names = words, names

    def path(self, word):
        return self.words[word] if word < len(self.words) else ''

    def name(self, word):
        return self.names.get(self.path(word), self.path(word))

    def lines(self, word):
        return source_text.lines_of(self.path(word))

    def kernel(self):
        """The kernel by its parts; none where it is not there, or so large that reading it here would take long."""
        lines = self.lines(1)
        return kernel_text.Kernel('\n'.join(lines), self.path(1)) if lines and len(lines) <= MOST_LINES else None


def error(name, line, code):
    return f'{name}:{line}: error: {code}: {reasons.words(code)}'


def of_text(files, kind, line, code):
    word = TEXTS[kind]
    name, lines = files.name(word), files.lines(word)
    found = [error(name, line, code)]
    if lines is None or line > len(lines):
        return found + hints(name, line, code, '')
    mark, last = None, line
    if kind == 'kernel':
        mark, last = quietly(kernel_marks.mark, files.kernel(), code, line), last_of_item(lines, line)
    elif kind == 'spec':
        mark = quietly(spec_marks.mark, '\n'.join(lines), files.kernel(), code, line)
        last = next((one.last for one in spec_text.logical_lines('\n'.join(lines)) if one.first == line), line)
    found += shown_line(lines, line, mark)
    if last > line:
        found.append(f'{name}:{line}: note: goes to line {last}')
    found += noted(files, word, line, mark)
    if kind == 'kernel':
        found += whereabouts(files, line, code)
    text = ' '.join(lines[line - 1:last]) if kind == 'kernel' else '\n'.join(lines[line - 1:last])
    return found + hints(name, line, code, text)


def quietly(tell, *given):
    """A mark, which is only shown: a text that the light readers cannot take has none."""
    if given[0] is None:
        return None
    try:
        return tell(*given)
    except (AttributeError, IndexError, KeyError, TypeError, ValueError, RecursionError):
        return None


def last_of_item(lines, line):
    """The last line of the item that begins on a line of a kernel text."""
    open_marks = ''
    for number in range(line, min(len(lines), line + 10000) + 1):
        text = kernel_text.without_comment(lines[number - 1])
        open_marks = kernel_text.count_brackets(text, open_marks)
        if not open_marks or (lines[line - 1].startswith('define') and open_marks == '{'):
            return number
    return line


def shown_line(lines, line, mark):
    """The text of the line, and of the later physical line on which the mark stands."""
    at = mark.line or line if mark else line
    if mark is None or mark.column is None:
        return source_text.marked(line, lines[line - 1])
    before = source_text.marked(line, lines[line - 1]) if at != line else []
    return before + source_text.marked(at, lines[at - 1], mark.column, mark.length)


def noted(files, word, line, mark):
    """The notes of a mark: of a line of the kernel or of the text itself, or of a place of a C file."""
    found = []
    for where, text in mark.notes if mark else ():
        if where is None:
            found.append(f'{files.name(word)}:{line}: note: {text}')
        elif isinstance(where, int):
            name = files.name(1) if word == 2 and text_is_of_kernel(text) else files.name(word)
            found.append(f'{name}:{where}: note: {text}')
        else:
            found += c_line(files, where, text)
    return found


def text_is_of_kernel(text):
    """Whether a note at a line of a specification's refusal names a line of the kernel."""
    return not text.startswith(('the first one', 'equiv '))


def whereabouts(files, line, code):
    """The function that a line of a kernel belongs to, and the C line that it comes from."""
    kernel = files.kernel()
    function = kernel.function_at(line) if kernel else None
    if not function:
        return []
    found = [] if function.line == line else [f'{files.name(1)}:{function.line}: note: in the function {function.name}']
    at = kernel.instr_at(line)
    place = kernel.debug.place(at[2]) if at else kernel.debug.place_of_function(function)
    return found + (c_line(files, place, 'it comes from here') if place else [])


def c_line(files, place, text):
    """A note at a place of a C file with its line, and the calls that it was inlined from."""
    path = source_text.find(place, files.path(1))
    found = [f'{path_shown(path) if path else place.file}:{place.line}:{place.column}: note: {text}']
    line = source_text.line_at(path, place.line)
    if line is not None:
        found += source_text.marked(place.line, line, place.column - 1 if place.column else None)
    if place.caller and place.caller.line:
        found += c_line(files, place.caller, f'which is called from {place.caller.function}')
    return found


def path_shown(path):
    """A path from the folder of the caller where that is shorter."""
    relative = os.path.relpath(path)
    return relative if len(relative) < len(path) else path


def hints(name, line, code, text):
    hint = reasons.hint(code, text)
    return [f'{name}:{line}: hint: {hint}'] if hint else []


def of_stuck(files, code, line):
    name, lines = files.name(1), files.lines(1)
    found = [error(name, line, code)]
    if lines and line <= len(lines):
        found += source_text.marked(line, lines[line - 1])
        found += whereabouts(files, line, code)
    return found + hints(name, line, code, '')


def of_call(files, function, code):
    kernel = files.kernel()
    known = kernel.functions.get(function) if kernel else None
    name = files.name(1)
    where = f'{name}:{known.line}' if known else name
    found = [f'{where}: error: {code}: {reasons.words(code)}']
    if known:
        found += source_text.marked(known.line, kernel.lines[known.line - 1])
        count = len(known.params)
        if code == 'A2':
            found.append(f'{where}: note: {function} takes {count} argument{"s" * (count != 1)}, and '
                         f'{len(files.words) - 3} stand here')
    elif kernel:
        found.append(f'{name}: note: the functions with a body: {", ".join(list(kernel.functions)[:12]) or "none"}')
    return found + [f'{where}: hint: {reasons.hint(code)}']


def of_row(files, handler, obligation, row, code):
    """A row of a proof: of a file of LRAT, or of a log in a certificate."""
    word = 3 if handler else 2
    name, lines = files.name(word), files.lines(word) or []
    line = line_in_log(lines, handler, obligation, row) if handler else line_of_row(lines, row)
    where = f'{name}:{line}' if line else name
    about = f' ({handler}, {obligation}, row {row})' if handler else f' (row {row})'
    found = [f'{where}: error: {code}: {reasons.words(code)}{about}']
    if line:
        found += source_text.marked(line, lines[line - 1])
    return found + [f'{where}: hint: {reasons.hint(code)}']


def line_of_row(lines, row):
    """The line of a row of LRAT: blank lines and comments are no rows."""
    for number, line in enumerate(lines, 1):
        row -= bool(line.strip(' \t')) and not line.startswith('c')
        if row == 0:
            return number if line.strip(' \t') else None
    return None


def line_in_log(lines, handler, obligation, row):
    """The line of a row in the log of an obligation of a certificate."""
    inside, proved = False, False
    for number, line in enumerate(lines, 1):
        if line.startswith(('accept ', 'reject ', 'unknown ', 'memory ')):
            inside = line == f'accept {handler}'
        elif line.startswith('prove '):
            proved = line == f'prove {obligation}'
        elif inside and proved and re.fullmatch(r'log \d+|cases', line):
            return number + row
    return None


def of_file(files, fault, path):
    name = files.names.get(path, path)
    found = f'{name}: error: {reasons.words(fault)}'
    if fault == 'read fault':
        found += why_unread(path)
    else:
        found += f': {os.path.getsize(path):,} bytes'.replace(',', ' ') if os.path.isfile(path) else ''
    return [found, f'{name}: hint: {reasons.hint(fault)}']


def why_unread(path):
    try:
        with open(path, 'rb'):
            return ''
    except OSError as why:
        return f': {why.strerror}'


def of_usage():
    return [f'hkv: error: {reasons.words("usage")}', f'hkv: hint: {reasons.hint("usage")}']
