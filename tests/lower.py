#!/usr/bin/env python3
"""Tests of `hkv lower`: what clang 15, 16 and 19 write at -O0 to -O2, before and behind it.

Meanings: each intrinsic at each width, natively and by `hkv run`, against LLVM's Language Reference in Python (lowering/meanings.py).
Constructs: C functions over drawn numbers and memory, whose values and memory the lowered text has to keep wherever clang's undefined
behaviour sanitizer finds the original defined. Reports: what is said, what is left, and the statuses.
"""
import os
import random
import re
import sys
import tempfile
import unittest

sys.path.insert(0, os.path.dirname(os.path.abspath(__file__)))
from lowering import meanings, native

DRAWN = int(os.environ.get("DRAWN", "40"))  # calls of a function


def folder(test):
    made = tempfile.TemporaryDirectory()
    test.addCleanup(made.cleanup)
    return made.name


def write(name, text):
    with open(name, "w") as file:
        file.write(text)
    return name


def draw(rng):
    """A number of 64 bits: one at an end, a small one, or any."""
    kind = rng.randrange(4)
    if kind == 0:
        n = rng.choice([0, 1, 2, 3, -1, -2]) + rng.choice([0, 1 << rng.randrange(64)])
    elif kind == 1:
        n = rng.randrange(70)
    else:
        n = rng.getrandbits(rng.randrange(1, 65))
    return n % (1 << 64)


class Meanings(unittest.TestCase):
    def check(self, version):
        where, rng, rows = folder(self), random.Random(58), meanings.rows(int(version))
        texts = {row.declaration() for row in rows}
        first = write(os.path.join(where, "first.ll"), "".join(sorted(texts)) + "\n" + "".join(row.text() for row in rows))
        second = os.path.join(where, "second.ll")
        report, status = native.lowered(version, first, second)
        self.assertEqual(status, 0, report)
        self.assertIsNone(native.refusal(second))
        told = set(re.findall(r"^hkv: lowered in (\w+), line \d+: llvm\.", report, re.M))
        self.assertEqual(told, {row.name for row in rows})
        calls = [(k, *self.numbers(rng, row), 0) for k, row in enumerate(rows) for _ in range(DRAWN)]
        names = [row.name for row in rows]
        before = native.answers(native.program(version, where, "before", [first], names, []), calls)
        after = native.answers(native.program(version, where, "after", [second], names, []), calls)
        for call, b, a in zip(calls, before, after):
            meant = rows[call[0]].value(*call[1:4])
            if meant is not None:
                self.assertEqual((meant, meant), (int(b.split()[0]), int(a.split()[0])), (rows[call[0]].name, call))
        self.check_runs(second, rows, rng)

    def check_runs(self, text, rows, rng):
        """The same by `hkv run` at some widths, where poison that is returned is found."""
        for row in rows:
            if row.w not in (8, 33, 64):
                continue
            for numbers in [self.numbers(rng, row)] + [(0, 0, 0)] * (row.flag == 1):
                meant = row.value(*numbers)
                said = native.run([native.HKV, "run", text, row.name, *map(str, numbers)]).stdout.splitlines()[0]
                if meant is None:
                    self.assertTrue(said.startswith("stuck U10"), (row.name, numbers, said))
                else:
                    self.assertEqual(said, f"returns {meant}", (row.name, numbers))

    @staticmethod
    def numbers(rng, row):
        """Operands, the shift amount often below the width."""
        drawn = [draw(rng) for _ in range(3)]
        if rng.randrange(2):
            drawn[row.operands - 1] = rng.randrange(row.w)
        return drawn


OBJECTS = [("table", 96), ("smalls", 25), ("odds", 16), ("wides", 24), ("forties", 15), ("mosts", 21), ("words", 12), ("bytes", 48), ("numbers", 32)]
CONSTRUCTS = os.path.join(native.HERE, "constructs.c")
SANITIZED = ["-fsanitize=undefined", "-fno-sanitize=alignment", "-fsanitize-trap=all"]


class Constructs(unittest.TestCase):
    def check(self, version, level):
        where, rng = folder(self), random.Random(f"{version} {level}")
        with open(CONSTRUCTS) as file:
            handlers = re.findall(r"^u64 (\w+)\(u64 a, u64 b, u64 c\)", file.read(), re.M)
        first, second = os.path.join(where, "first.ll"), os.path.join(where, "second.ll")
        native.compiled(version, level, CONSTRUCTS, first)
        report, status = native.lowered(version, first, second)
        self.assertEqual(status, 0, "\n".join(line for line in report.splitlines() if "left" in line))
        self.assertIsNone(native.refusal(second))
        calls = [(k, draw(rng), draw(rng), draw(rng), 0 if n < 3 else rng.getrandbits(60) + 1) for k in range(len(handlers)) for n in range(DRAWN)]
        defined = native.answers(native.program(version, where, "sanitized", [CONSTRUCTS, *SANITIZED], handlers, OBJECTS), calls)
        before = native.answers(native.program(version, where, "before", [first], handlers, OBJECTS), calls)
        after = native.answers(native.program(version, where, "after", [second], handlers, OBJECTS), calls)
        compared, run = set(), set()
        stateful = {handlers.index(h) for h in ("start", "choose")}  # over statics, which the driver does not set
        for call, d, b, a in zip(calls, defined, before, after):
            if d == "undefined":
                continue
            name = handlers[call[0]]
            compared.add(name)
            self.assertEqual(d, b, (name, call, "the compiler and the sanitizer differ"))
            self.assertEqual(b, a, (name, call))
            if call[4] == 0 and call[0] not in stateful and call[0] not in run:
                run.add(call[0])
                self.assertEqual(a, native.hkv_answer(second, name, call[1:4], OBJECTS), (name, call, "hkv run"))
        self.assertEqual(compared, set(handlers), "each construct is compared somewhere")


for v in native.versions():
    setattr(Meanings, f"test_{v}", lambda self, v=v: self.check(v))
    for one in native.LEVELS:
        setattr(Constructs, f"test_{v}_{one[1:]}", lambda self, v=v, one=one: self.check(v, one))


class Reports(unittest.TestCase):
    """With clang-16, or the first version that is here."""

    def setUp(self):
        self.version = "16" if "16" in native.versions() else native.versions()[0]
        self.where = folder(self)

    def of_c(self, source, *words, level="-O1", flags=()):
        """The report, the status, and the refusal of what is written."""
        name = write(os.path.join(self.where, "c.c"), source)
        text, self.out = os.path.join(self.where, "c.ll"), os.path.join(self.where, "out.ll")
        native.compiled(self.version, level, name, text, *flags)
        report, status = native.lowered(self.version, text, self.out, *words)
        return report, status, native.refusal(self.out)

    def written(self):
        with open(self.out) as file:
            return file.read()

    def test_place(self):
        report, status, _ = self.of_c("unsigned f(unsigned x) {\n  return x << 5 | x >> 27;\n}\n", flags=("-g",))
        with open(os.path.join(self.where, "c.ll")) as file:
            line = [k for k, text in enumerate(file, 1) if "@llvm.fshl" in text][0]
        self.assertRegex(report, rf"lowered in f, line {line} \(.*c\.c:2\): llvm\.fshl\.i32, now shifts, masks and selects")
        self.assertEqual(status, 0)

    def test_left(self):
        rows = [
            ("volatile int v; void f(void) { v = 1; }", "volatile store", "K3"),
            ("int x; int f(void) { return __atomic_fetch_add(&x, 1, 5); }", "atomic atomicrmw", "K3"),
            ("void f(void) { __asm__ volatile(\"cli\"); }", "asm", "K3"),
            ("int *p; int f(void) { return *p; }", "a pointer in the variable p", "K13"),
            ("unsigned long f(int n) { extern int t[4]; return (unsigned long)&t[n]; }", "ptrtoint", "K"),
            ("int f(int (*g)(int)) { return g(3); }", "a call through a pointer", "K"),
            ("unsigned long f(unsigned long a, unsigned long b) { return (unsigned __int128)a * b >> 64; }", "more than 64 bits", "K3"),
            ("int t[9]; int f(int n) { int s = 0; for (int i = 0; i < n; i++) s ^= t[i & 7] + s; return s; }", "a loop", "K10"),
            ("char t[9000]; void f(void) { __builtin_memset(t, 1, 5000); }", "more than 4,096 bytes", "K8"),
            ("char t[9000]; void f(unsigned n) { __builtin_memset(t, 1, n); }", "its length varies", "K8"),
            ("double d; void f(int n) { d = n; }", "a floating point number", "K"),
            ("int g(void); int f(void) { return g(); }", "of another file", "K8"),
            ("int f(int n) { if (n) __builtin_trap(); return 1; }", "llvm.trap", "K8"),
            ("int g(const char *, ...); int f(void) { g(\"x\"); return 1; }", "variable number of arguments", "K2"),
            ("struct s { long a, b; } x; struct s f(void) { return x; }", "a struct as parameter or result", "K"),
            ("__asm__(\"f: ret\"); int x;", "module asm", "K"),
        ]
        for source, said, code in rows:
            report, status, refused = self.of_c(source)
            left = [line for line in report.splitlines() if line.startswith("hkv: left")]
            self.assertTrue(any(said in line for line in left), (source, report))
            self.assertEqual(status, 3, source)
            self.assertIn(": " + code, refused or "", source)

    def test_limit(self):
        source = "char t[9000]; void f(void) { __builtin_memset(t, 7, %d); }"
        self.assertEqual(self.of_c(source % 4096)[1:], (0, None))
        self.assertEqual(self.of_c(source % 4097)[1], 3)

    def test_exports(self):
        forms = [
            '.globl f', '.symver f, f@V1', '.export f', '.section \\"___ksymtab+f\\", \\"a\\"\\n.balign 4\\n__ksymtab_f:\\n.long f - .\\n.previous',
            '.section \\".export_symbol\\",\\"a\\" ; __export_symbol_f: ; .asciz \\"GPL\\" ; .asciz \\"\\" ; .balign 8 ; .quad f ; .previous',
            '.pushsection .discard.addressable,\\"aw\\"\\n.quad f\\n.popsection',
        ]
        for form in forms:
            report, status, refused = self.of_c(f'__asm__("{form}"); int f(void) {{ return 1; }}')
            self.assertEqual((status, refused), (0, None), form)
            self.assertIn("module asm, which exports symbols", report)
        for form in ['f: ret', '.text\\nnop', '.data\\n.quad 1', '.section \\".text\\"\\n.byte 1', '.globl f ; hlt', '.section \\"___ksymtab+f\\",\\"a\\"\\nhlt']:
            self.assertEqual(self.of_c(f'__asm__("{form}"); int x;')[1], 3, form)

    def test_single_processor(self):
        source = """
            volatile unsigned v; unsigned n; struct s { int a[4]; }; volatile struct s t;
            unsigned f(unsigned x) { v = x; __atomic_store_n(&n, v, 5); __asm__ volatile("" ::: "memory"); return __atomic_fetch_add(&n, x, 5); }
            unsigned g(unsigned x, unsigned y) { __atomic_compare_exchange_n(&n, &x, y, 0, 5, 5); __atomic_thread_fence(5); return x + __atomic_exchange_n(&n, y, 2); }
            unsigned h(unsigned x) { return __sync_fetch_and_and(&n, x) ^ __sync_fetch_and_sub(&n, 3) ^ __atomic_load_n(&n, 0); }
        """
        self.assertEqual(self.of_c(source)[1], 3)
        self.assertNotIn("single-processor: ", self.written())
        report, status, refused = self.of_c(source, "--single-processor")
        self.assertEqual((status, refused), (0, None), report)
        self.assertIn("hkv: premise: one processor runs the handlers", report)
        self.assertIn("--single-processor: volatile and atomic accesses were made plain", self.written())
        self.assertIn("hkv: premise: one processor", self.of_c("int f(void) { return 1; }", "--single-processor")[0])
        self.of_c(source, "--single-processor")
        for call, end in [(("f", 5), "returns 5"), (("g", 5, 9), "returns 0"), (("h", 5), "returns 4294967293")]:
            self.assertEqual(native.run([native.HKV, "run", self.out, *map(str, call)]).stdout.splitlines()[0], end)

    def test_unroll(self):
        source = """
            unsigned t[8] = {3, 1, 4, 1, 5, 9, 2, 6};
            unsigned f(void) { unsigned s = 0; for (int i = 0; i < 8; i++) { if (t[i] == 9) break; s += t[i]; } return s; }
            unsigned g(unsigned n) { unsigned s = 0; for (unsigned i = 0; i < 4; i++) for (unsigned j = 0; j < 2; j++) s = s * 10 + t[(i + j + n) & 7]; return s; }
        """
        for level in ("-O0", "-O1"):
            self.assertEqual(self.of_c(source, level=level)[1], 3)
            self.assertEqual(self.of_c(source, "--unroll", "3", level=level)[1], 3)
            report, status, refused = self.of_c(source, "--unroll", "9", level=level)
            self.assertEqual((status, refused), (0, None), report)
            self.assertIn("copies of its body", report)
            for call, end in [(("f",), "returns 14"), (("g", 0), "returns 31144115"), (("g", 3), "returns 15599226")]:
                self.assertEqual(native.run([native.HKV, "run", self.out, *map(str, call)]).stdout.splitlines()[0], end)

    def test_index_out_of_range(self):
        """A local array that is left is found: the promise of the access is asked."""
        _, status, refused = self.of_c("unsigned f(unsigned i, unsigned x) { unsigned t[3] = {x, 2, 3}; t[i] = 7; return t[0]; }", level="-O0")
        self.assertEqual((status, refused), (0, None))
        self.assertEqual(native.run([native.HKV, "run", self.out, "f", "2", "9"]).stdout.splitlines()[0], "returns 9")
        self.assertRegex(native.run([native.HKV, "run", self.out, "f", "3", "9"]).stdout, "^stuck U17 ")

    def test_words(self):
        text = write(os.path.join(self.where, "x.ll"), "define i32 @f() {\n  ret i32 1\n}\n")
        for words, status in [([], 4), (["a", "b"], 4), ([text, "-o"], 4), ([text, "--unroll", "0"], 4), ([text, "--llvm", "3"], 4), ([text, "-x"], 4),
                              (["/no/such.ll"], 5), ([text, "-o", "/no/such/folder/out.ll"], 6), ([text], 0),
                              ([write(os.path.join(self.where, "y.ll"), "define nonsense\n")], 3)]:
            self.assertEqual(native.run([native.HKV, "lower", *words]).returncode, status, words)
        self.assertIn("ret i32 1", native.run([native.HKV, "lower", text]).stdout)

    def test_is_signed(self):
        self.of_c("int f(void) { return 1; }")
        self.assertIn("This text was written by hkv lower", self.written())


@unittest.skipUnless("16" in native.versions(), "the texts of examples/real are those of clang-16")
class Examples(unittest.TestCase):
    def test_real(self):
        done = native.run([sys.executable, os.path.join(native.TOP, "examples", "real", "check.py")], timeout=7200, env={**os.environ, "HKV": native.HKV})
        self.assertEqual(done.returncode, 0, done.stdout + done.stderr)
        self.assertIn("10 passed, 0 failed", done.stdout)


if __name__ == "__main__":
    result = unittest.TextTestRunner(verbosity=1).run(unittest.defaultTestLoader.loadTestsFromModule(sys.modules[__name__]))
    bad = len(result.failures) + len(result.errors)
    print(f"{result.testsRun - bad} passed, {bad} failed")
    sys.exit(1 if bad else 0)
