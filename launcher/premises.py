"""hkv premises KERNEL SPEC: what a verdict of these texts rests on beside what is assumed of every verdict.

What comes in: the names of both texts. What goes out: the refusal where the program does not read them, else a list on standard output,
read from the texts lightly and shown, not proved: which functions nothing is said of, what is trusted of hooks, which definitions another
file may replace, what is ignored in the kernel's text, and which initial state and data layout it has.
"""
import re
import sys
from collections import Counter
from typing import NamedTuple

from launcher import handlers, kernel_text, program, spec_text, unnamed

USAGE = "hkv premises KERNEL SPEC"
HELP = """\
Prints what a verdict of these texts rests on: functions with a body that nothing is said of, hooks, definitions that another file may
replace, variables that other files can name, ignored attributes by kind and count, the initial state, and the data layout.

Statuses: 0; 3 a text is refused; 4 words; 5 a file could not be read; 7 memory.
"""

# Words that are dropped from items, by what they say; `docs/FORMATS.md` has the list.
REPLACEABLE = {
    "weak": "another file's definition stands in its place where there is one",
    "weak_odr": "another file's definition may stand in its place",
    "linkonce": "another file's definition may stand in its place",
    "linkonce_odr": "another file's definition may stand in its place",
    "common": "another file's definition stands in its place where there is one",
    "available_externally": "the definition that runs is another file's",
    "dso_preemptable": "another definition may stand in its place where the program is loaded",
}
CLOSED = ("private", "internal")
LINKAGE = {*REPLACEABLE, *CLOSED, "hidden", "protected", "dso_local", "unnamed_addr", "local_unnamed_addr"}
CALLS = {"tail", "notail", "musttail", "fastcc", "ccc"}
VALUES = set(
    "noundef zeroext signext inreg noalias nonnull nocapture nofree readonly readnone writeonly returned immarg nounwind "
    "dereferenceable dereferenceable_or_null memory captures initializes range".split()
)
TOKEN = re.compile(r'c?"[^"\n]*"|[%@!](?:"[^"\n]*"|[-\w.$]+)|#[-\w.$]+|-?\d+(?![-\w.$])|[A-Za-z_$.][-\w.$]*|\S')
WHOLE = re.compile(r'source_filename\b|target triple\b|attributes\b|!|#dbg_|(?:[^"]* )?call [^"]*@llvm\.dbg\.')
LABEL = re.compile(r'(?:"[^"]*"|[-\w.$]+):$')
GROUP = re.compile(r"attributes (#\S+) = \{(.*)\}")
ATTRIBUTE = re.compile(r'"[^"]*"(?:="[^"]*")?|[\w-]+(?:\([^)]*\))?(?:=\d+)?')


class Item(NamedTuple):
    """An item of the kernel's text, with its first line and its tokens."""

    line: int
    text: str
    tokens: list


def run(words):
    if len(words) != 2:
        return program.misused(USAGE)
    with handlers.Folder() as folder:
        try:
            texts = handlers.read(*words, folder)
        except handlers.Answered as answer:
            return handlers.told("premises", words, answer)
        with open(texts.kernel, "rb") as file:
            kernel = file.read()
    sys.stdout.write("".join(line + "\n" for line in listed(kernel, texts.text, texts.names())))
    return 0


def listed(kernel, spec, names):
    """The lines of the list."""
    text = kernel.decode(errors="surrogateescape").encode(errors="replace").decode()
    module = kernel_text.Kernel(text)
    items = [Item(line, item, TOKEN.findall(item)) for line, _, item in kernel_text.items(text)]
    hooks = spec_text.Spec(spec.decode(errors="replace")).hooks
    return [
        *of_functions(module, unnamed.functions(kernel, names), names),
        *of_declared(module, hooks),
        *of_replaceable(items),
        *of_variables(module, items),
        *of_ignored(items),
        *of_source(items),
    ]


def section(head, lines, none):
    """A head with its lines below, or with what is said where there are none."""
    return [f"{head}:", *(f"  {line}" for line in lines)] if lines else [f"{head}: {none}"]


def count(number, one, more=None):
    return f"{number} {one if number == 1 else more or one + 's'}"


# ---- functions


def of_functions(module, alone, names):
    """Which functions of the kernel are looked at, and which are not."""
    reached = closure(module, names)
    heads = [(name.decode(errors="replace"), line) for name, line in alone]
    lines = [f"{kernel_text.quote(name)}, line {line}: no transition names it, and no function calls it" for name, line in heads]
    known = {name for name, _ in heads}
    lines += [
        f"{kernel_text.quote(function.name)}, line {function.line}: only functions that are not looked at call it"
        for function in module.functions.values()
        if function.name not in reached and function.name not in known
    ]
    bodies, helpers = len(module.functions), len(reached) - len(set(names) & reached)
    first = f"handlers: {len(names)} of {count(bodies, 'function')} with a body" + (f", and {helpers} that they call" if helpers else "")
    return [first, *section("functions that nothing is said of", lines, "none")]


def closure(module, names):
    """The functions with a body that these come to."""
    reached, left = set(), [name for name in names if name in module.functions]
    while left:
        name = left.pop()
        if name not in reached:
            reached.add(name)
            left += [called for called in module.functions[name].calls() if called in module.functions]
    return reached


def of_declared(module, hooks):
    """The functions of other files: hooks, of which the specification says that they do nothing, and others."""
    calls, callers = Counter(), {}
    for function in module.functions.values():
        for instr in function.instructions():
            name = kernel_text.called(instr)
            calls[name] += 1
            callers.setdefault(name, {})[function.name] = None
    lines = []
    for name in hooks:
        declared = module.declared.get(name)
        lines.append(
            f"{kernel_text.quote(name)}, line {declared.line if declared else 0}: {count(calls[name], 'call')}"
            f"{' in ' + ', '.join(map(kernel_text.quote, callers[name])) if name in callers else ''}; that a call does nothing is trusted"
        )
    others = [
        f"{kernel_text.quote(name)}, line {function.line}: {count(calls[name], 'call')}, none of which a handler comes to"
        for name, function in module.declared.items()
        if name not in hooks and not name.startswith("llvm.")
    ]
    return section("hooks", lines, "none") + (section("functions of other files, no hooks", others, "none") if others else [])


# ---- definitions and variables


def linkage(item):
    """The words of an item before its name's type that say how other files see it."""
    return [token for token in item.tokens if token in LINKAGE]


def defined_name(item):
    """The name that an item outside of bodies defines, or None."""
    if item.tokens[0] == "define" or (item.tokens[0].startswith("@") and item.tokens[1:2] == ["="]):
        token = next(token for token in item.tokens if token.startswith("@"))
        return "@" + kernel_text.quote(kernel_text.unquote(token[1:]))
    return None


def of_replaceable(items):
    """Definitions that need not be the ones that run."""
    lines = []
    for item in items:
        name = defined_name(item)
        for word in linkage(item) if name else []:
            if word in REPLACEABLE:
                lines.append(f"{name}, line {item.line}: {word}: {REPLACEABLE[word]}")
    return section("definitions that another file may replace", lines, "none")


def of_variables(module, items):
    """The initial state, and who else may write it."""
    mutable = module.mutable
    set_there = [over.name for over in mutable if not is_zero(over.init)]
    size = sum(module.size_of(over.type) for over in mutable)
    first = f"initial state: the values that the text gives {count(len(mutable), 'variable')} of {count(size, 'byte')} in all"
    first += f"; not all zero: {', '.join('@' + kernel_text.quote(name) for name in set_there)}" if set_there else "; all are zero"
    heads = {item.line: item for item in items}
    open_ones = [
        f"@{kernel_text.quote(over.name)}, line {over.line}"
        for over in mutable
        if over.line in heads and not set(CLOSED) & set(linkage(heads[over.line]))
    ]
    rest = section("variables that other files can name, and are trusted not to write", open_ones, "none")
    return [first, "  what boot code does before the first handler is not looked at", *rest]


def is_zero(init):
    """Whether an initialiser is spelled by zeros alone."""
    return not re.search(r"[1-9]|true|@|[A-Fa-f]", re.sub(r"zeroinitializer|null|false|\bi\d+\b|\[\d+ x|%[-\w.$]+|%\"[^\"]*\"|\\00|c\"", "", init))


# ---- what is ignored


def of_ignored(items):
    """What the text says beside the items that are read, by kind and count."""
    kept = [item for item in items if not WHOLE.match(item.text) and not LABEL.match(item.text)]
    words, groups, marks, sections = Counter(), Counter(), Counter(), 0
    for item in kept:
        for before, token, after in zip(["", *item.tokens], item.tokens, [*item.tokens[1:], ""]):
            if token in LINKAGE | CALLS | VALUES:
                words[token] += 1
            elif token.startswith("#"):
                groups[token] += 1
            elif token == "section":
                sections += 1
            elif re.fullmatch(r"![A-Za-z][-\w.$]*", token) and token != "!range" and after.startswith("!"):
                marks[token] += 1
            elif token == "align" and before not in (",", "="):
                words["align of a parameter"] += 1
    lines = [
        line
        for line in (
            counts("of values, parameters and functions", {word: n for word, n in words.items() if word in VALUES or " " in word}),
            counts("of linkage and visibility", {word: n for word, n in words.items() if word in LINKAGE}),
            counts("of calls", {word: n for word, n in words.items() if word in CALLS}),
            counts("sections", {"section": sections} if sections else {}),
            counts("metadata", marks),
        )
        if line
    ]
    return section("ignored attributes", lines + of_groups(items, groups), "none")


def counts(head, found):
    """Kinds with their counts on one line, by count and then by name; empty where there are none."""
    rows = sorted(found.items(), key=lambda row: (-row[1], row[0]))
    return f"{head}: " + ", ".join(f"{word} {number}" for word, number in rows) if rows else ""


def of_groups(items, used):
    """Each group of attributes with how often it is named, and what it holds."""
    lines = []
    for item in items:
        if group := GROUP.match(item.text):
            inside = ", ".join(ATTRIBUTE.findall(group[2]))
            lines.append(f"group {group[1]}, named {count(used[group[1]], 'time')}: {inside}")
    return lines


def of_source(items):
    """The lines of the text's head."""
    texts = {}
    for item in items:
        if found := re.match(r'(source_filename|target datalayout|target triple) = "([^"]*)"', item.text):
            texts[found[1]] = found[2]
    layout = texts.get("target datalayout")
    told = f'data layout: "{layout}"' if layout is not None else "data layout: none is given"
    return [
        told + ": read as little endian, pointers and integers of 64 bits aligned to 8 bytes",
        f"target triple: {texts.get('target triple', 'none is given')}, not looked at",
        f"source file: {texts.get('source_filename', 'none is given')}: that the text was made of it is not looked at",
        *of_lowering(items),
    ]


def of_lowering(items):
    """What `hkv lower` left in a text that it wrote: nothing in any other."""
    texts = {item.text.split(" = ", 1)[0]: item.text for item in items if item.text.startswith("!")}
    named = re.match(r"!hkv\.lowered = !\{(.*)\}", texts.get("!hkv.lowered", ""))
    if not named:
        return []
    said = [re.search(r'!"([^"]*)"', texts.get(name.strip(), "")) for name in named[1].split(",")]
    lines = ["lowered: " + found[1] for found in said if found]
    return [*lines, "  who links the text that it was made of, and not this one, relies on the pass"]
