"""reasons.py [--write]: compares the lists of reasons in docs/FORMATS.md and docs/GUIDE.md with launcher/reasons.json.

They stand between `<!-- reasons: LETTERS -->` and `<!-- end of reasons -->`: in FORMATS.md each code with its words and its rule,
in GUIDE.md with its words and what to do. With --write the documents get them.
"""
import os
import re
import sys

ROOT = os.path.dirname(os.path.dirname(os.path.abspath(__file__)))
sys.path.insert(0, ROOT)

from launcher import reasons  # noqa: E402

PART = re.compile(r'<!-- reasons: ([A-Z ]+) -->\n.*?<!-- end of reasons -->\n', re.S)
HEADS = {'FORMATS.md': ('| Reason | Words | Where |', 'rule'), 'GUIDE.md': ('| Code | In words | What to do |', 'do')}


def rows(letters, column):
    """The rows of a table: a code, its words, and another column."""
    return [f'| `{code}` | {entry["words"]} | {cell(entry, column)} |'
            for letter in letters.split() for code, entry in reasons.family(letter).items()]


def cell(entry, column):
    text = entry[column]
    if column == 'do':
        hints = [one['do'] for one in entry.get('hints', ()) if one['do'] not in text]
        text = ' '.join([text, *hints])
    return text.replace('|', '\\|')


def filled(text, name):
    """A document with the tables of these reasons."""
    head, column = HEADS[name]

    def table(found):
        lines = [f'<!-- reasons: {found[1]} -->', '', head, '|---|---|---|', *rows(found[1], column), '', '<!-- end of reasons -->']
        return '\n'.join(lines) + '\n'

    return PART.sub(table, text)


def stale(name, write=False):
    """Whether a document has other lists than the table; with write it gets those."""
    path = os.path.join(ROOT, 'docs', name)
    with open(path, encoding='utf-8') as file:
        text = file.read()
    made = filled(text, name)
    if write and made != text:
        with open(path, 'w', encoding='utf-8') as file:
            file.write(made)
    return made != text or not PART.search(text)


def main():
    found = [name for name in HEADS if stale(name, sys.argv[1:] == ['--write']) and sys.argv[1:] != ['--write']]
    if found:
        sys.exit(f'docs/{found[0]}: its lists of reasons are not those of launcher/reasons.json')
    print('docs: the lists of reasons are those of launcher/reasons.json')


if __name__ == '__main__':
    main()
