#!/usr/bin/env python3
"""How many lines of definition a reader of the program's promises has to believe: for each clause of `run_words`, and for all of them
together, the lines of `crates/*/specs` that its words reach by name, from name to name. Blank lines and comments are not counted, nor what
the kit defines, nor the types that it makes of the code's own (`specs.declared`).

Usage: bench/definitions.py [--crates]     (with the word: also how many lines stand in each crate, over all clauses)
"""
import glob
import os
import re
import sys

TOP = os.path.dirname(os.path.dirname(os.path.abspath(__file__)))
WORD = re.compile(r"[^\s(){}\[\],;.λ→]+")
HEAD = re.compile(r"^(?:(?:abbrev|unfoldable|opaque|irrelevant)\s+)*(?:pub\s+)?(?:record\s+|data\s+)?([^\s:(){}]+)")
USE = re.compile(r"^use Rattle\.([\w.]+?)(?:\.\{(.*)\}| as ([\w-]+))?$")
KEYWORDS = {"use", "where", "mutual", "let", "in", "record", "data", "if", "then", "else"}


class Module:
    """A file of definitions: what each name is called elsewhere, and the lines of each declaration."""

    def __init__(self, path):
        crate, inner = re.match(rf"{re.escape(TOP)}/crates/(\w+)/specs/(.*)\.antt$", path).groups()
        self.crate, self.name = crate, f"{crate}.specs.{inner.replace('/', '.')}"
        self.brought, self.aliases, self.own = {}, {}, {}
        with open(path, encoding="utf-8") as file:
            self.read(file.read().splitlines())

    def read(self, lines):
        under, within = None, ""
        for line in lines:
            code = re.sub(r"(^|\s)--.*$", "", line).rstrip()
            if not code:
                continue
            used = USE.match(code)
            if used:
                self.bring(*used.groups())
                continue
            if re.match(r"^(abbrev\s+|unfoldable\s+)?mutual$", code):
                within = "  "
                continue
            at_front = not code.startswith(" ")
            if at_front:
                within = ""
            if code.startswith(within) and not code.startswith(within + " "):
                name = HEAD.match(code[len(within):])
                if name and name.group(1) not in KEYWORDS:
                    under = name.group(1)
            if under:
                self.own.setdefault(under, []).append(code)
                constructor = re.match(r"^\s+(?:pub\s+)?([^\s:(){}|]+)\s*:", code)
                if constructor and re.search(r"\bdata\b", self.own[under][0].split(":")[0]):
                    self.brought.setdefault(constructor.group(1), (self.name, under))

    def bring(self, module, names, alias):
        if alias:
            self.aliases[alias] = module
        for name in (names or "").split(","):
            if name.strip():
                self.brought[name.strip()] = (module, name.strip())


def read_all():
    return {m.name: m for m in map(Module, glob.glob(f"{TOP}/crates/*/specs/**/*.antt", recursive=True))}


def spelled(name):
    """The words that an operator's name is spelled with, or the name."""
    return [part for part in name.split("◌") if part] or [name]


def words_of(code):
    return WORD.findall(code)


def reach(modules, starts):
    """All declarations that these reach."""
    found, left = set(), list(starts)
    while left:
        module, name = left.pop()
        if module not in modules or (module, name) in found:
            continue
        m = modules[module]
        if name not in m.own:
            # (a constructor stands under its type)
            if name in m.brought and m.brought[name][0] == module and m.brought[name][1] != name:
                left.append(m.brought[name])
            continue
        found.add((module, name))
        left += cited(modules, m, "\n".join(m.own[name]), name)
    return found


def cited(modules, m, code, name=None):
    known = {}
    for other in m.own:
        for part in spelled(other):
            known.setdefault(part, (m.name, other))
    for other, target in m.brought.items():
        for part in spelled(other):
            known.setdefault(part, target)
    targets = [known[word] for word in words_of(code) if word in known]
    for alias, module in m.aliases.items():
        targets += [(module, word) for word in re.findall(rf"(?<![\w.]){re.escape(alias)}\.([^\s(){{}}\[\],;.]+)", code)]
    return targets


def clauses():
    """The clauses of the public call that the program makes: each with its words, and what its file brings."""
    with open(f"{TOP}/crates/hk_verify/src/top.rt", encoding="utf-8") as file:
        text = file.read()
    front = Module.__new__(Module)
    front.name, front.brought, front.aliases, front.own = "top", {}, {}, {}
    for used in re.findall(r"^ghost use (Rattle\.[^;]+);", text, re.M):
        front.bring(*USE.match("use " + used.replace("\n", " ")).groups())
    body = text[text.index("pub fn run_words"):]
    body = body[:body.index("\n{")]
    return front, re.findall(r"ensures (\w+) \{(.*?)\}\s*(?=//|ensures|$)", body, re.S)


def lines_in(modules, found):
    return sum(len(modules[module].own[name]) for module, name in found)


def main(*options):
    modules = read_all()
    front, promises = clauses()
    every = set()
    for name, code in promises:
        found = reach(modules, cited(modules, front, code))
        every |= found
        print(f"{name:12} {lines_in(modules, found):6}")
    print(f"{'all clauses':12} {lines_in(modules, every):6}")
    if "--crates" in options:
        crates = {}
        for module, name in every:
            crates[modules[module].crate] = crates.get(modules[module].crate, 0) + len(modules[module].own[name])
        for crate, count in sorted(crates.items(), key=lambda it: -it[1]):
            print(f"  {crate:16} {count:6}")


main(*sys.argv[1:])
