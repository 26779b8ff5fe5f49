#!/usr/bin/env python3
"""Every limit of a text, tried at its last allowed and at its first refused value, and the edge to files and output.

In: nothing but the program (`--program PATH ..` takes another one than the launcher's). Out: a line for each row that fails, with what was
expected and what came, and last `N passed, N failed`. Expected lines and statuses come from docs/FORMATS.md, not from the program.
"""

import argparse
import os
import re
import resource
import signal
import subprocess
import sys
import tempfile

ROOT = os.path.dirname(os.path.dirname(os.path.abspath(__file__)))

KIB, MIB = 1 << 10, 1 << 20

TICK = """@ticks = global i8 0
define void @tick() {
  %v = load i8, ptr @ticks
  %n = add i8 %v, 1
  store i8 %n, ptr @ticks
  ret void
}
"""

TICKS = """class State:
    ticks = Bits(8)

def equiv(kernel, state):
    return state.ticks == kernel.ticks

def tick(state):
    new = state.copy()
    new.ticks = state.ticks + 1
    return True, new
"""

HOLDS = "init holds\n"
ACCEPTED = HOLDS + "accept tick\n"


def padded(text, size):
    """The text with newlines behind it, up to so many bytes."""
    return text + "\n" * (size - len(text))


# ---- rows: a title, the files, the words, what is printed, the status


def verify(title, kernel, spec, printed, status):
    return title, {"k.ll": kernel, "s.py": spec}, ["verify", "k.ll", "s.py"], printed, status


def refused_kernel(title, kernel, line, reason):
    return verify(title, kernel, "", f"kernel {line}: {reason}\n", 3)


def refused_spec(title, kernel, spec, line, reason):
    return verify(title, kernel, spec, f"spec {line}: {reason}\n", 3)


def sizes_of_files():
    yield verify("a kernel of 16 MiB is read", padded(TICK, 16 * MIB), TICKS, ACCEPTED, 0)
    yield verify("a kernel of 16 MiB and a byte is long", padded(TICK, 16 * MIB + 1), TICKS, "long k.ll\n", 3)
    yield verify("a specification of 1 MiB is read", TICK, padded(TICKS, MIB), ACCEPTED, 0)
    yield verify("a specification of 1 MiB and a byte is long", TICK, padded(TICKS, MIB + 1), "long s.py\n", 3)
    clauses, proof = "p cnf 1 2\n1 0\n-1 0\n", "3 0 1 2 0\n"
    for name, cnf, log in [("a clause file", 256 * MIB, len(proof)), ("a proof", len(clauses), 256 * MIB)]:
        files = {"a.cnf": padded(clauses, cnf), "a.lrat": padded(proof, log)}
        yield f"{name} of 256 MiB is read", files, ["lrat", "a.cnf", "a.lrat"], "refuted\n", 0
        longer = {key: text + "\n" if len(text) == 256 * MIB else text for key, text in files.items()}
        word = "a.cnf" if cnf == 256 * MIB else "a.lrat"
        yield f"{name} of 256 MiB and a byte is long", longer, ["lrat", "a.cnf", "a.lrat"], f"long {word}\n", 3
    for word in "check", "replay":
        texts = {"k.ll": TICK, "s.py": TICKS, "c": padded("no certificate\n", 256 * MIB)}
        words = [word, "k.ll", "s.py", "c"]
        yield f"a certificate of 256 MiB is read by {word}", texts, words, "cert 1: Q1\n", 3
        longer = dict(texts, c=texts["c"] + "\n")
        yield f"a certificate of 256 MiB and a byte is long for {word}", longer, words, "long c\n", 3


def bytes_of_globals():
    whole = "@a = global [4194304 x i8] zeroinitializer\n"
    yield verify("4,194,304 bytes of globals", whole, "", HOLDS, 0)
    yield refused_kernel("4,194,305 bytes of globals", whole.replace("304", "305"), 1, "K6")
    yield refused_kernel("a byte behind 4,194,304", whole + "@b = constant i8 0\n", 2, "K6")
    parts = "".join(f"@a{k} = global [1048576 x i8] zeroinitializer\n" for k in range(4))
    yield verify("4,194,304 bytes of four globals", parts, "", HOLDS, 0)
    yield refused_kernel("a type of over 2^32 bytes", "@a = global [4294967297 x i8] zeroinitializer\n", 1, "K6")


def function_of(length, callee=""):
    """A function of so many instructions, the last of which returns; each of the others adds, or calls where a callee is named."""
    line = f"  call void @{callee}()\n" if callee else "  %{} = add i8 0, 0\n"
    return "define void @f() {\n" + "".join(line.format(k + 1) for k in range(length - 1)) + "  ret void\n}\n"


def lengths():
    spec = "def f(state):\n    return True, state\n"
    accepted = HOLDS + "accept f\n"
    yield verify("100,000 instructions", function_of(100_000), spec, accepted, 0)
    yield refused_kernel("100,001 instructions", function_of(100_001), 1, "K14")
    # 11,111 calls of a function of 8 instructions count 9 each, and the last instruction 1
    callee = "".join(f"  %{k + 1} = add i8 0, 0\n" for k in range(7))
    called = f"define void @g() {{\n{callee}  ret void\n}}\n"
    calls = function_of(11_112, "g")
    yield verify("an expanded length of 100,000 by calls", called + calls, spec, accepted, 0)
    longer = calls.replace("  ret void\n", "  %1 = add i8 0, 0\n  ret void\n")
    yield refused_kernel("an expanded length of 100,001 by calls", called + longer, 11, "K14")


def array_of(depth):
    """A type of that depth."""
    return "[1 x " * (depth - 1) + "i8" + "]" * (depth - 1)


def nested_initialiser(count):
    """A global whose initialiser has so many initialisers within one another, over named types, so that no type is deep."""
    types = ["%t1 = type [1 x i8]\n"] + [f"%t{k} = type [1 x %t{k - 1}]\n" for k in range(2, count)]
    init = "i8 0"
    for k in range(1, count - 1):
        init = f"%t{k} [ {init} ]" if k > 1 else f"%t1 [ {init} ]"
    return "".join(types) + f"@a = global %t{count - 1} [ {init} ]\n"


def nested_address(count):
    """A function that stores through an address of so many constant forms within one another."""
    address = "ptr @a"
    for _ in range(count):
        address = f"ptr getelementptr (i8, {address}, i64 0)"
    return f"@a = global i8 0\ndefine void @f() {{\n  store i8 0, {address}\n  ret void\n}}\n"


def depths():
    yield verify("a type of depth 100", f"@a = global {array_of(100)} zeroinitializer\n", "", HOLDS, 0)
    yield refused_kernel("a type of depth 101", f"@a = global {array_of(101)} zeroinitializer\n", 1, "K2")
    yield verify("100 initialisers within one another", nested_initialiser(100), "", HOLDS, 0)
    yield refused_kernel("101 initialisers within one another", nested_initialiser(101), 101, "K2")
    keeps = "class S:\n    a = Bits(8)\ndef equiv(kernel, state):\n    return state.a == kernel.a\n"
    keeps += "def f(state):\n    new = state.copy()\n    new.a = 0\n    return True, new\n"
    yield verify("100 constant addresses within one another", nested_address(100), keeps, HOLDS + "accept f\n", 0)
    yield refused_kernel("101 constant addresses within one another", nested_address(101), 3, "K2")
    invariant = "def inv_x(kernel):\n    return {}\n"
    for depth, printed, status in (100, HOLDS, 0), (101, "spec 2: S4\n", 3):
        # 99 negations of False are true
        expression = "Not(" * (depth - 1) + "False" + ")" * (depth - 1)
        yield verify(f"an expression of depth {depth}", "", invariant.format(expression), printed, status)
    brackets = "(" * 256 + "True" + ")" * 256
    yield verify("256 brackets within one another", "", invariant.format(brackets), HOLDS, 0)
    yield refused_spec("257 brackets within one another", "", invariant.format(f"({brackets})"), 2, "S3")


def field_of(first, second):
    """A specification of one field with two keys of these sizes."""
    return (
        f"I = Index(32, {first})\nJ = Index(32, {second})\nclass S:\n    a = Map((I, J), Bits(1))\n"
        "def equiv(kernel, state):\n    i = Var(I)\n    j = Var(J)\n    return ForAll([i, j], state.a(i, j) == 0)\n"
    )


def nest_of(first, second):
    return (
        f"I = Index(32, {first})\nJ = Index(32, {second})\ndef inv_x(kernel):\n    i = Var(I)\n    j = Var(J)\n"
        "    return ForAll([i, j], True)\n"
    )


def fields_of(count, scalar=""):
    """So many fields of 2^20 entries, and a further one of one entry."""
    names = [f"m{k}" for k in range(count)]
    lines = "".join(f"    {name} = Map((I, J), Bits(1))\n" for name in names) + (f"    {scalar} = Bits(1)\n" if scalar else "")
    equal = [f"ForAll([i, j], state.{name}(i, j) == 0)" for name in names] + ([f"state.{scalar} == 0"] if scalar else [])
    return (
        f"I = Index(16, 65536)\nJ = Index(8, 16)\nclass S:\n{lines}"
        f"def equiv(kernel, state):\n    i = Var(I)\n    j = Var(J)\n    return And({', '.join(equal)})\n"
    )


def tuples():
    yield verify("a field of 2^20 entries", "", field_of(65_536, 16), HOLDS, 0)
    yield refused_spec("a field of over 2^20 entries", "", field_of(65_536, 17), 4, "S12")
    yield verify("a nest of 2^20 tuples", "", nest_of(65_536, 16), HOLDS, 0)
    yield refused_spec("a nest of over 2^20 tuples", "", nest_of(65_536, 17), 6, "S12")
    yield verify("fields of 2^22 entries", "", fields_of(4), HOLDS, 0)
    yield refused_spec("fields of 2^22 entries and one", "", fields_of(4, "z"), 8, "S12")


def handlers():
    kernel = [f"define void @f{k}() {{\n  ret void\n}}\n" for k in range(257)]
    spec = [f"def f{k}(state):\n    return True, state\n" for k in range(257)]
    accepted = HOLDS + "".join(f"accept f{k}\n" for k in range(256))
    yield verify("256 handlers", "".join(kernel), "".join(spec[:256]), accepted, 0)
    yield refused_spec("257 handlers", "".join(kernel), "".join(spec), 513, "S13")


def widths():
    for width in 1, 64:
        yield verify(f"{width} bits in a specification", "", f"A = Bits({width})\n", HOLDS, 0)
    for width in 0, 65:
        yield refused_spec(f"{width} bits in a specification", "", f"A = Bits({width})\n", 1, "S7")
    function = "define i{0} @f(i{0} %x) {{\n  ret i{0} %x\n}}\n"
    spec = "def f(state, x):\n    return True, state, x\n"
    for width in 1, 63, 64:
        yield verify(f"{width} bits in a kernel", function.format(width), spec, HOLDS + "accept f\n", 0)
    yield refused_kernel("65 bits in a kernel", function.format(65), 1, "K3")
    yield refused_kernel("no bits in a kernel", function.format(0), 1, "K2")
    for width, size in (32, 1), (32, 65_536), (8, 256), (1, 2), (64, 65_536), (16, 65_536):
        yield verify(f"a sort of {size} keys in {width} bits", "", f"A = Index({width}, {size})\n", HOLDS, 0)
    for width, size in (32, 0), (32, 65_537), (8, 257), (1, 3), (64, 65_537), (16, 65_537):
        yield refused_spec(f"a sort of {size} keys in {width} bits", "", f"A = Index({width}, {size})\n", 1, "S7")


def numbers_of_words():
    files = {"k.ll": TICK, "s.py": TICKS}
    usage = "usage: hkv verify, check, replay, lrat, run or bench\n"
    for number in "1", "1000000":
        yield f"{number} conflicts", files, ["verify", "k.ll", "s.py", "--conflicts", number], ACCEPTED, 0
    for number in "0", "1000001", "01", "-1", "", "1e3", "18446744073709551617":
        yield f"'{number}' conflicts", files, ["verify", "k.ll", "s.py", "--conflicts", number], usage, 4
    yield "a workload of one", {}, ["bench", "1"], "handlers 1\naccept 1\nreject 0\nunknown 0\nmemory 0\n", 0
    for number in "0", "65", "01", "-1", "":
        yield f"a workload of '{number}'", {}, ["bench", number], usage, 4
    takes = {"k.ll": "define i64 @f(i64 %x) {\n  ret i64 %x\n}\n"}
    most = str((1 << 64) - 1)
    yield "the greatest argument", takes, ["run", "k.ll", "f", most], f"returns {most}\n", 0
    yield "an argument of 65 bits", takes, ["run", "k.ll", "f", str(1 << 64)], usage, 4
    bits = {"k.ll": "define i8 @f(i8 %x) {\n  ret i8 %x\n}\n"}
    yield "the greatest argument of 8 bits", bits, ["run", "k.ll", "f", "255"], "returns 255\n", 0
    yield "an argument over 8 bits", bits, ["run", "k.ll", "f", "256"], "call f: A3\n", 3


def counts_without_a_limit():
    """Counts that no rule bounds: none of these answers is `memory`."""
    fields = "".join(f"    a{k} = Bits(8)\n" for k in range(300))
    equal = ", ".join(f"state.a{k} == {k % 256}" for k in range(300))
    spec = f"class S:\n{fields}def equiv(kernel, state):\n    return And({equal})\n" + "def f(state):\n    return True, state\n"
    kernel = "define void @f() {\n  ret void\n}\n"
    yield verify("300 fields", kernel, spec, HOLDS + "accept f\n", 0)
    invariants = "".join(f"def inv_i{k}(kernel):\n    return ULE(kernel.ticks, 255)\n" for k in range(300))
    yield verify("300 invariants", TICK, invariants + TICKS, ACCEPTED, 0)
    names = [f"x{k}" for k in range(12)]
    takes = "define i8 @f(" + ", ".join(f"i8 %{name}" for name in names) + ") {\n  ret i8 %x11\n}\n"
    yield verify("12 parameters", takes, f"def f(state, {', '.join(names)}):\n    return True, state, x11\n", HOLDS + "accept f\n", 0)
    blocks = "".join(f"b{k}:\n  br label %b{k + 1}\n" for k in range(1_998))
    long = f"define void @f() {{\n  br label %b0\n{blocks}b1998:\n  ret void\n}}\n"
    yield verify("2,000 blocks", long, "def f(state):\n    return True, state\n", HOLDS + "accept f\n", 0)


def cut_texts():
    """A kernel that ends behind a line: it is refused at a line of it or the one behind, or it is a text, and then the specification decides."""
    lines = TICK.splitlines(keepends=True)
    expected = ["spec 5: S5\n", "spec 7: S10\n"] + ["kernel 2: K2\n"] * 5 + [ACCEPTED]
    for count, printed in enumerate(expected):
        yield verify(f"the first {count} lines of a kernel", "".join(lines[:count]), TICKS, printed, 0 if printed == ACCEPTED else 3)


ROWS = [
    sizes_of_files, bytes_of_globals, lengths, depths, tuples, handlers, widths, numbers_of_words, counts_without_a_limit, cut_texts,
]


# ---- running


class Count:
    def __init__(self):
        self.passed = self.failed = 0

    def tell(self, title, wrong):
        if wrong:
            self.failed += 1
            print(f"{title}: {wrong}")
        else:
            self.passed += 1


def call(program, words, folder, **how):
    how.setdefault("stdout", subprocess.PIPE)
    return subprocess.run([*program, *words], cwd=folder, stderr=subprocess.PIPE, timeout=600, check=False, **how)


def short(text):
    return text if len(text) < 200 else f"{text[:120]!r}.. ({len(text)} bytes)"


def try_rows(program, count):
    for family in ROWS:
        for title, files, words, printed, status in family():
            with tempfile.TemporaryDirectory() as folder:
                for name, text in files.items():
                    with open(os.path.join(folder, name), "w", encoding="ascii") as file:
                        file.write(text)
                done = call(program, words, folder)
            got = done.stdout.decode("ascii", "replace")
            is_right = (got, done.returncode) == (printed, status)
            count.tell(title, None if is_right else f"expected {short(printed)!r}, {status}, got {short(got)!r}, {done.returncode}")


def try_cuts(program, count):
    """The guide's kernel and its specification, cut behind each line."""
    folder = os.path.join(ROOT, "examples")
    for name in "files.ll", "files.py":
        with open(os.path.join(folder, name), encoding="ascii") as file:
            lines = file.read().splitlines(keepends=True)
        kind = "kernel" if name == "files.ll" else "spec"
        wrong = []
        for at in range(len(lines)):
            with tempfile.TemporaryDirectory() as place:
                cut = os.path.join(place, "cut")
                with open(cut, "w", encoding="ascii") as file:
                    file.write("".join(lines[:at]))
                pair = [cut, os.path.join(folder, "files.py")] if kind == "kernel" else [os.path.join(folder, "files.ll"), cut]
                # a conflict alone, since only the reading is looked at
                done = call(program, ["verify", *pair, "--conflicts", "1"], place)
            got = done.stdout.decode("ascii", "replace")
            refusal = re.fullmatch(r"(kernel|spec) ([0-9]+): [KS][0-9]+\n", got)
            is_refusal = done.returncode == 3 and refusal and int(refusal[2]) <= (at + 1 if refusal[1] == kind else 10**9)
            is_text = done.returncode in (0, 1, 2) and got.startswith("init ")
            if not (is_refusal or is_text):
                wrong.append(f"behind line {at}: {short(got)!r}, {done.returncode}")
        count.tell(f"{name} cut behind each line", "; ".join(wrong))


def try_edges(program, count):
    """Files and outputs of the system itself."""
    examples = os.path.join(ROOT, "examples")
    words = ["verify", os.path.join(examples, "tick.ll"), os.path.join(examples, "tick.py")]
    with open("/dev/full", "wb") as full:
        done = call(program, words, ROOT, stdout=full)
    count.tell("a full device", None if done.returncode == 6 else f"expected status 6, got {done.returncode}")
    closed = subprocess.run(
        ["sh", "-c", 'exec "$@" >&-', "sh", *program, *words], cwd=ROOT, stderr=subprocess.PIPE, timeout=600, check=False
    )
    count.tell("a closed output", None if closed.returncode == 6 else f"expected status 6, got {closed.returncode}")
    with tempfile.TemporaryDirectory() as folder:
        try_files(program, count, folder)
        try_failed_put(program, count, folder)


def try_failed_put(program, count, folder):
    """Behind a line that was not taken no further handler is decided: the second here would take many minutes."""
    product = "define i64 @{0}(i64 %x, i64 %y) {{\n  %z = add i64 %y, 1\n  %p = mul i64 %x, %z\n  ret i64 %p\n}}\n"
    quick = "define i64 @{0}(i64 %x, i64 %y) {{\n  ret i64 %x\n}}\n"
    write(folder, "slow.ll", quick.format("quick") + product.format("slow"))
    write(folder, "slow.py", "def quick(state, x, y):\n    return True, state, x\ndef slow(state, x, y):\n    return True, state, x * y + x\n")
    words = ["verify", "slow.ll", "slow.py", "--conflicts", "1000000"]

    def room_for_one_line():
        signal.signal(signal.SIGXFSZ, signal.SIG_IGN)
        resource.setrlimit(resource.RLIMIT_FSIZE, (len(HOLDS), len(HOLDS)))

    shown = os.path.join(folder, "shown")
    try:
        with open(shown, "wb") as out:
            done = call(program, words, folder, stdout=out, preexec_fn=room_for_one_line, restore_signals=False)
        with open(shown, "rb") as file:
            got = file.read(), done.returncode
        wrong = None if got == (HOLDS.encode(), 6) else f"got {got}"
    except subprocess.TimeoutExpired:
        wrong = "a later handler was decided"
    count.tell("no handler is decided behind a line that was not taken", wrong)


def write(folder, name, text):
    with open(os.path.join(folder, name), "w", encoding="ascii") as file:
        file.write(text)


def try_files(program, count, folder):
    # a text of no bytes
    write(folder, "none", "")
    done = call(program, ["verify", "none", "none"], folder)
    count.tell("texts of no bytes", None if (done.stdout, done.returncode) == (b"init holds\n", 0) else f"got {done.stdout!r}")
    # a folder in place of a file, and a file that is not there
    for name in ".", "absent":
        done = call(program, ["verify", name, "none"], folder)
        expected = f"read fault {name}\n".encode()
        count.tell(f"'{name}' as a file", None if (done.stdout, done.returncode) == (expected, 5) else f"got {done.stdout!r}, {done.returncode}")
    # a text of over 64 KiB whose last line counts: a byte at its end is read
    spec = "#" + "x" * (200 * KIB) + "\n" + TICKS
    write(folder, "k.ll", TICK)
    write(folder, "s.py", spec)
    done = call(program, ["verify", "k.ll", "s.py"], folder)
    count.tell("the end of a text of over 64 KiB", None if done.stdout == ACCEPTED.encode() else f"got {done.stdout!r}")
    write(folder, "s.py", spec[:-1] + "$")
    done = call(program, ["verify", "k.ll", "s.py"], folder)
    count.tell("the last byte of a text of over 64 KiB", None if done.stdout == b"spec 11: S1\n" else f"got {done.stdout!r}")
    # a certificate of over 64 KiB is saved whole, and a second time with the same bytes
    files = [os.path.join(ROOT, "examples", name) for name in ("files.ll", "files.py")]
    saved = []
    for name in "first", "second":
        done = call(program, ["verify", *files, "--cert", name], folder)
        with open(os.path.join(folder, name), "rb") as file:
            saved.append(file.read())
        count.tell(f"a certificate is saved ({name})", None if done.returncode == 0 else f"status {done.returncode}")
    is_whole = len(saved[0]) > 64 * KIB and saved[0].endswith(b"\nend\n") and saved[0] == saved[1]
    count.tell("a saved certificate is whole", None if is_whole else f"{len(saved[0])} and {len(saved[1])} bytes, ends {saved[0][-20:]!r}")
    done = call(program, ["check", *files, "first"], folder)
    names = [line.split()[1] for line in done.stdout.decode().splitlines()]
    is_checked = done.returncode == 0 and done.stdout.decode() == "".join(f"checked {name}\n" for name in names) and len(names) == 9
    count.tell("a saved certificate is checked", None if is_checked else f"got {done.stdout!r}, {done.returncode}")
    # a save that cannot be: behind the whole report, with the status of the output
    write(folder, "s.py", TICKS)
    done = call(program, ["verify", "k.ll", "s.py", "--cert", "."], folder)
    is_told = (done.stdout, done.returncode) == (ACCEPTED.encode(), 6)
    count.tell("a certificate over a folder", None if is_told else f"got {done.stdout!r}, {done.returncode}")
    done = call(program, ["verify", "k.ll", "s.py", "--cert", "/dev/full"], folder)
    is_told = (done.stdout, done.returncode) == (ACCEPTED.encode(), 6)
    count.tell("a certificate on a full device", None if is_told else f"got {done.stdout!r}, {done.returncode}")


def main():
    parser = argparse.ArgumentParser(description=__doc__.splitlines()[0])
    parser.add_argument("--program", nargs="+", default=[os.path.join(ROOT, "hkv")], help="the words that run the program")
    given = parser.parse_args()
    # a type or an expression of the greatest depth needs no deep stack of ours
    resource.setrlimit(resource.RLIMIT_CORE, (0, 0))
    count = Count()
    for family in try_rows, try_edges, try_cuts:
        family(given.program, count)
    print(f"{count.passed} passed, {count.failed} failed")
    return 1 if count.failed else 0


if __name__ == "__main__":
    sys.exit(main())
