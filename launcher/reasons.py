"""The one table of reasons, reasons.json: what each code that `hkv` prints says in words, and what to do.

In comes a code (`K8`) and the text that it is about, out go words, the rule, and a hint. docs/FORMATS.md and docs/GUIDE.md
have the same table; bench/reasons.py writes it there. An entry with "built": false is not printed by the program yet.
"""
import json
import os
import re
from functools import lru_cache

FILE = os.path.join(os.path.dirname(os.path.abspath(__file__)), 'reasons.json')


@lru_cache(maxsize=None)
def table():
    """All entries by their code, in the order of the file."""
    with open(FILE, encoding='utf-8') as file:
        return json.load(file)


def words(code):
    """The short words of a code; the code itself where it is not known."""
    return table().get(code, {}).get('words', code)


def hint(code, text=''):
    """What to do: the first hint whose form is found in the text, else the one for all."""
    entry = table().get(code, {})
    for one in entry.get('hints', ()):
        if re.search(one['where'], text):
            return one['do']
    return entry.get('do', '')


def family(letters, built=True):
    """The entries whose code is these letters and a number."""
    return {code: entry for code, entry in table().items()
            if re.fullmatch(rf'{letters}\d+', code) and (entry.get('built', True) or not built)}
