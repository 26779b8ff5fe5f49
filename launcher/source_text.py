"""Lines of source files as they are shown: with their number, and a mark under a part of them.

In comes a file and a line, out goes text. A C file is looked for where the compiler found it, and beside the kernel.
"""
import os
from functools import lru_cache


@lru_cache(maxsize=32)
def lines_of(path):
    """The lines of a file, or none where it cannot be read, or is no regular file (it may be read only once)."""
    try:
        if not os.path.isfile(path):
            return None
        with open(path, encoding='utf-8', errors='replace') as file:
            return file.read().split('\n')
    except OSError:
        return None


def find(place, beside):
    """The path of the source file of a place: where the compiler found it, else beside another file; or none."""
    near = os.path.join(os.path.dirname(os.path.abspath(beside)), os.path.basename(place.file))
    return next((path for path in (near, place.file) if lines_of(path) is not None), None)


def line_at(path, line):
    found = lines_of(path) if path else None
    return found[line - 1] if found and 0 < line <= len(found) else None


def marked(line, text, column=None, length=1, most=160):
    """A line with its number before it, and where a column (from 0) is given a mark below. A long line is cut round its mark."""
    text = text.rstrip('\r\n')
    if len(text) > most:
        begin = max(0, min((column or 0) - most // 4, len(text) - most))
        text = ('..' if begin else '') + text[begin:begin + most] + ('..' if begin + most < len(text) else '')
        column = None if column is None else column - begin + (2 if begin else 0)
    found = [f'{line:5} | {text}'.rstrip()]
    if column is not None and column <= len(text):
        before = ''.join('\t' if char == '\t' else ' ' for char in text[:column])
        length = max(1, min(length, len(text) - column))
        found.append(f'{"":5} | {before}^{"~" * (length - 1)}')
    return found
