#!/usr/bin/env python3
"""Gives a crate libraries to be checked against before those below it are proved: for work, and never for the gate.

A stand-in of a library has the same types, definitions and public contracts, and every body is a call that never returns, so that its
build proves next to nothing. They are made in FOLDER, outside this checkout, and linked into `crates/*/out` of this checkout with the
stamps that the kit asks for. What is proved over them holds as far as the libraries below meet their contracts, which `rt ci` alone
shows: remove `crates/*/out` before it.

Usage: bench/stand_ins.py FOLDER LANES NAME..

makes the stand-ins of all libraries below the crates NAME.., LANES at a time (what is built and unchanged is kept), and writes the
arguments of the check of each NAME, one a line, to FOLDER/NAME.words. In the folder of the crate:

    mapfile -t WORDS < FOLDER/NAME.words; rattle check "${WORDS[@]}" --incremental out/incremental --jobs 4
"""
import os
import re
import shutil
import subprocess
import sys
import time
from concurrent.futures import FIRST_COMPLETED, ThreadPoolExecutor, wait

os.environ["RT_ALLOW_C"] = "1"
KIT = os.path.dirname(os.path.realpath(shutil.which("rt")))
sys.path.insert(0, KIT)
import rtlib  # noqa: E402  (the kit's own reading of crates.txt)

STAMPS, made_stamp = {}, rtlib.Crate.stamp


def stamp(crate):
    """The kit's stamp, reckoned once for each crate: texts must not change while this runs."""
    if crate.folder not in STAMPS:
        STAMPS[crate.folder] = made_stamp(crate)
    return STAMPS[crate.folder]


rtlib.Crate.stamp = stamp
NEVER = """//! The body of every stand-in.
#![tactic(auto)]

unsafe extern "C" {
    safe fn hkv_never()
        ensures { ⊥ };
}

/// Does not return.
pub fn never() -> !
    ensures { ⊥ }
{
    hkv_never();
    unreachable!()
}
"""
PROOFS = ("Proof.antt", "Invariants.antt", "Answers.antt")


ID = re.compile(r"[A-Za-z_]\w*")


def skip_plain(t, i):
    """Skips a comment, string or char at i; returns the new index, or i where there is none."""
    if t.startswith("//", i):
        j = t.find("\n", i)
        return len(t) if j < 0 else j
    if t.startswith("/*", i):
        return t.index("*/", i) + 2
    m = re.match(r'b?r(#*)"', t[i : i + 8])
    if m:
        end = '"' + m[1]
        return t.index(end, i + m.end()) + len(end)
    if t[i] == '"' or t.startswith('b"', i):
        j = i + (2 if t[i] == "b" else 1)
        while t[j] != '"':
            j += 2 if t[j] == "\\" else 1
        return j + 1
    m = re.match(r"b?'(\\x[0-9a-fA-F]{2}|\\u\{[^}]*\}|\\.|[^\\'])'", t[i : i + 14])
    if m:
        return i + m.end()
    return i


def balanced(t, i, antt=False):
    """From the brace at i to behind its partner."""
    depth = 0
    while True:
        if antt:
            if t.startswith("--", i) and (t[i - 1] in " \n"):
                j = t.find("\n", i)
                i = j
                continue
        else:
            j = skip_plain(t, i)
            if j != i:
                i = j
                continue
        c = t[i]
        if c == "{":
            depth += 1
        elif c == "}":
            depth -= 1
            if not depth:
                return i + 1
        i += 1


def space(t, i):
    while True:
        while i < len(t) and t[i].isspace():
            i += 1
        j = skip_plain(t, i) if i < len(t) and t[i] == "/" else i
        if j == i:
            return i
        i = j


def clauses(t, i):
    """Returns the places of the clauses from i on, and the place behind them."""
    found = []
    while True:
        i = space(t, i)
        m = re.match(r"(requires|ensures|ghost)\b\s*(\*)?", t[i : i + 40])
        if not m:
            return found, i
        start = i
        i = t.index("{", i)
        i = balanced(t, i, True)
        found.append((start, i))


def stand_in(t):
    """Returns the text of a module with every body replaced, and without the clauses of private functions."""
    out, i, last = [], 0, 0
    stack = []  # what each open brace belongs to: "trait", "impl", "for" (an impl of a trait), ..
    pending = ""
    while i < len(t):
        j = skip_plain(t, i)
        if j != i:
            i = j
            continue
        m = ID.match(t, i)
        if m and (i == 0 or not (t[i - 1].isalnum() or t[i - 1] in "_'")):
            w = m[0]
            i = m.end()
            if w == "fn" and re.match(r"\s+[A-Za-z_]", t[i : i + 60]):
                head = t.rfind("\n", 0, m.start()) + 1
                words = t[head : m.start()]
                depth = 0
                while True:
                    k = skip_plain(t, i)
                    if k != i:
                        i = k
                        continue
                    c = t[i]
                    if c in "([":
                        depth += 1
                    elif c in ")]":
                        depth -= 1
                    elif depth == 0 and c in "{;":
                        break
                    elif depth == 0 and re.match(r"(requires|ensures|ghost)\b", t[i : i + 9]) and not (t[i - 1].isalnum() or t[i - 1] == "_"):
                        break
                    i += 1
                found, i = clauses(t, i)
                is_free = not (stack and stack[-1] in ("trait", "for"))
                is_private = not re.match(r"\s*(#\[[^\]]*\]\s*)*pub\b", words)
                if found and is_free and is_private:
                    out.append(t[last : found[0][0]])
                    last = found[-1][1]
                if t[i] == "{":
                    end = balanced(t, i)
                    if "const" not in words.split():
                        out.append(t[last:i] + "{ hk_stub::never() }")
                        last = end
                    i = end
                continue
            if w in ("trait", "impl"):
                pending = "trait" if w == "trait" else "impl"
            elif w == "for" and pending == "impl":
                pending = "for"
            elif w in ("struct", "enum", "mod", "macro_rules"):
                pending = w
            continue
        c = t[i]
        if c == "{":
            stack.append(pending)
            pending = ""
        elif c == "}":
            stack.pop()
            pending = ""
        elif c == ";":
            pending = ""
        i += 1
    out.append(t[last:])
    t = "".join(out)
    t = re.sub(r"[ \t]*#\[tactic\([^\]]*\)\]\n", "", t)
    return re.sub(r"[ \t]*#\[cycle\([^)]*\)\]\n(?=((?:[ \t]*(?:#\[|//)[^\n]*\n)*)[ \t]*(?:pub(?:\([^)]*\))?\s+)?(?:const\s+|unsafe\s+)*fn\b)", "", t)


def put(path, text):
    """Writes a file where its text differs, and says whether it did."""
    if os.path.isfile(path) and open(path, "rb").read() == text:
        return False
    os.makedirs(os.path.dirname(path), exist_ok=True)
    if os.path.isfile(path):
        os.remove(path)
    open(path, "wb").write(text)
    return True


def write(source, target):
    """Writes the stand-in of one crate."""
    kept = set()
    for at, folders, files in os.walk(source):
        rel = os.path.relpath(at, source)
        if rel.split("/")[0] in ("out", "must-fail"):
            folders[:] = []
            continue
        top = os.path.basename(at)
        for name in files:
            is_of_cycle = top.startswith("+") and "-" in top
            if rel.startswith("proofs/") and name in PROOFS and not is_of_cycle:
                continue
            text = open(f"{at}/{name}", "rb").read()
            if name.endswith(".rt"):
                text = stand_in(text.decode()).encode()
            path = os.path.normpath(f"{target}/{rel}/{name}")
            kept.add(path)
            put(path, text)
    for at, folders, files in os.walk(target):
        if at == target and "out" in folders:
            folders.remove("out")
        for name in files:
            if f"{at}/{name}" not in kept:
                os.remove(f"{at}/{name}")


def crates(root):
    os.chdir(root)
    return rtlib.crates_below(root + "/crates") or rtlib.crates_below(root)


def build(crate):
    """Builds one stand-in; returns the status and the seconds."""
    begin = time.time()
    if crate.is_built():
        return crate, 0, 0
    folder = os.path.dirname(crate.rlib)
    shutil.rmtree(folder, ignore_errors=True)
    os.makedirs(folder)
    crate.out = open(os.devnull, "w")
    words = crate.words(["--jobs", "1"], keeps=False) + ["--statements", "-o", crate.rlib]
    with open(f"{crate.folder}/out/build.log", "w") as log:
        run = subprocess.run([rtlib.RATTLE, "build", *words], cwd=crate.folder, stdout=log, stderr=log, stdin=subprocess.DEVNULL)
    if run.returncode == 0:
        open(f"{folder}/stamp", "w").write(crate.stamp())
    return crate, run.returncode, time.time() - begin


def build_all(wanted, lanes):
    """Builds in the order of dependencies, those with the longest chain behind them first; returns the names that were built."""
    behind = {c.name: c.count(rb"\n") + 200 for c in wanted}
    for c in reversed(wanted):
        own = c.count(rb"\n") + 200
        behind[c.name] = own + max([behind[d.name] for d in wanted if any(b.name == c.name for b in d.below())], default=0)
    left, running, done = [*wanted], set(), set()
    with ThreadPoolExecutor(lanes) as pool:
        while True:
            ready = sorted((c for c in left if all(d.name in done for d in c.below())), key=lambda c: -behind[c.name])
            for c in ready[: lanes - len(running)]:
                left.remove(c)
                running.add(pool.submit(build, c))
            if not running:
                break
            ended, running = wait(running, return_when=FIRST_COMPLETED)
            for c, status, seconds in (e.result() for e in ended):
                if status == 0:
                    done.add(c.name)
                print(f"{c.name}: {'built' if status == 0 else 'FAILED, see ' + c.folder + '/out/build.log'} {seconds:.0f} s", flush=True)
    if left:
        print("not built:", *(c.name for c in left))
    return done


def main(folder, lanes, *names):
    here = os.path.dirname(os.path.dirname(os.path.realpath(__file__)))
    folder = os.path.realpath(folder)
    os.makedirs(f"{folder}/crates", exist_ok=True)
    put(f"{folder}/HANDLES", open(f"{here}/HANDLES", "rb").read())
    put(f"{folder}/crates/hk_stub/src/lib.rt", NEVER.encode())
    put(f"{folder}/crates/hk_stub/c/never.c", b"void hkv_never(void) { for (;;); }\n")
    lines = [l.split(":", 1) for l in open(f"{here}/crates.txt") if ":" in l and not l.startswith("#")]
    own = {c.name: c for c in crates(here)}
    wanted = {d.name for n in names for d in own[n].below()}
    below = "".join(f"{a}: hk_stub{b.rstrip()}\n" for a, b in lines if a.split()[0] in wanted)
    put(f"{folder}/crates.txt", ("hk_stub:\n" + below).encode())
    for name in wanted:
        write(f"{here}/crates/{name}", f"{folder}/crates/{name}")
    stands = {c.name: c for c in crates(folder)}
    order = [stands["hk_stub"], *sorted((stands[n] for n in wanted), key=lambda c: len(c.below()))]
    built = build_all(order, int(lanes))
    os.chdir(here)
    for name in sorted(wanted & built, key=lambda n: len(own[n].below())):
        out = os.path.dirname(own[name].rlib)
        shutil.rmtree(out, ignore_errors=True)
        os.makedirs(out)
        subprocess.run(["cp", "-al", stands[name].rlib, own[name].rlib], check=True)
        subprocess.run(["cp", "-al", stands["hk_stub"].rlib, f"{out}/hk_stub.rlib"], check=True)
        open(f"{out}/stamp", "w").write(own[name].stamp())
    for name in names:
        crate = own[name]
        crate.out = open(os.devnull, "w")
        words = crate.words(["--jobs", "1"], tests=name.endswith("_tests"))
        at = words.index("--jobs")
        put(f"{folder}/{name}.words", "\n".join(words[:at] + words[at + 2 :]).encode())


if len(sys.argv) < 4:
    sys.exit(__doc__)
main(*sys.argv[1:])
