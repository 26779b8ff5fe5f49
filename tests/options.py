"""The command line of the launcher: options in any order, help, looking at single handlers, times, and files that are no texts.

Expected refusals are written from the rules of docs/FORMATS.md; what else the program prints is compared with a call of the program
itself in the fixed form. HKV names the program, or the launcher chooses.
"""
import itertools
import os
import re
import shutil
import subprocess
import sys
import tempfile
import unittest

from launched import EXAMPLES, TOP, launched, plain
from workload import texts

sys.path.insert(0, TOP)
from launcher import options  # noqa: E402
from launcher.transitions import only, transitions  # noqa: E402

USAGE = b"usage: hkv verify, check, replay, lrat, run or bench\n"
HINT = "hkv: 'hkv verify --help' says which words it takes\n"

# Words, and what stands on standard error beside the usage line on standard output.
MISUSED = (
    ([], "hkv: 'hkv --help' lists the commands\n"),
    (["nope"], "hkv: 'hkv --help' lists the commands\n"),
    (["verify"], HINT),
    (["verify", "tick.ll"], HINT),
    (["verify", "tick.ll", "tick.py", "more"], HINT),
    (["verify", "--jbs", "2", "tick.ll", "tick.py"], "hkv: verify has no option --jbs\n" + HINT),
    (["verify", "tick.ll", "tick.py", "--cert"], "hkv: --cert asks for a value behind it\n" + HINT),
    (["verify", "tick.ll", "tick.py", "--cert", "a", "--cert", "b"], "hkv: --cert stands twice\n" + HINT),
    (["verify", "tick.ll", "tick.py", "--time=5"], "hkv: --time takes no value\n" + HINT),
    (["verify", "tick.ll", "tick.py", "--conflicts", "0"], "hkv: --conflicts takes a number from 1 to 1,000,000\n" + HINT),
    (["verify", "tick.ll", "tick.py", "--conflicts", "010"], "hkv: --conflicts takes a number from 1 to 1,000,000\n" + HINT),
    (["verify", "tick.ll", "tick.py", "--conflicts", "1000001", "--time"], "hkv: --conflicts takes a number from 1 to 1,000,000\n" + HINT),
    (["verify", "tick.ll", "tick.py", "--jobs", "0"], "hkv: --jobs takes a number from 1 to 1,000\n" + HINT),
    (["verify", "tick.ll", "tick.py", "--jobs", "two"], "hkv: --jobs takes a number from 1 to 1,000\n" + HINT),
    (
        ["verify", "tick.ll", "tick.py", "--only", "tock"],
        "hkv: --only tock: the specification has no transition of that name; it has tick\n" + HINT,
    ),
    (["verify", b"tick\xff.ll", "tick.py", "--time"], "hkv: a word is not UTF-8\n" + HINT),
    (["bench", "65"], "hkv: 'hkv bench --help' says which words it takes\n"),
    (["run", "tick.ll"], "hkv: 'hkv run --help' says which words it takes\n"),
    (["check", "a", "b"], "hkv: 'hkv check --help' says which words it takes\n"),
    (["check", "a", "b", "c", "--jobs", "2"], "hkv: check has no option --jobs\nhkv: 'hkv check --help' says which words it takes\n"),
)

# Words whose form is asked of the program: each names no file that there is, so it is told by its status alone.
FORMS = [
    [*front, *names, *back]
    for front in (["verify"], ["check"], ["replay"], ["lrat"], ["run"], ["bench"], ["other"], [])
    for names in ([], ["1"], ["no"], ["no", "no"], ["no", "no", "no"], ["no", "no", "0"], ["no", "no", "00"], ["no", "no", str(2**64)])
    for back in ([], ["--conflicts", "5"], ["--conflicts", "05"], ["--cert", "no/x"], ["--conflicts", "5", "--cert", "no/x"],
                 ["--cert", "no/x", "--conflicts", "5"])
]

KERNEL = """\
@a = global i8 0
define void @f() {
  ret void
}
define void @g() {
  ret void
}
define void @h(ptr %p) {
  ret void
}
"""
FINE = """\
class S:
    a = Bits(8)
def equiv(kernel, state):
    return state.a == kernel.a
def f(state):
    return True, state
"""
# What stands behind the fine lines, and the refusal by the rules: none of these lines is one of the transition f.
REFUSED = (
    ("A = Bits(8) $\n", "spec 7: S1"),
    ("  A = Bits(8)\n", "spec 7: S2"),
    ("def g(state):\n  return True, state\n", "spec 8: S2"),
    ("import z3\n", "spec 7: S3"),
    ("def g(state):\n    return True, state\n    new = state.copy()\n", "spec 9: S3"),
    ("def g(state):\n    new = state.copy()\n", "spec 7: S3"),
    ("def g(state):\n    return " + "Not(" * 100 + "True" + ")" * 100 + ", state\n", "spec 8: S4"),
    ("def g(state):\n    return nope == 1, state\n", "spec 8: S5"),
    ("def f(state):\n    return True, state\n", "spec 7: S6"),
    ("g = 5\ndef g(state):\n    return True, state\n", "spec 8: S6"),
    ("def g(state):\n    new = state.copy()\n    new = state.copy()\n    return True, new\n", "spec 9: S6"),
    ("def g(state):\n    return BitVecVal(1, 8) == BitVecVal(1, 9), state\n", "spec 8: S7"),
    ("def g(state):\n    new = state.copy()\n    new.a = 256\n    return True, new\n", "spec 9: S7"),
    ("def g(state):\n    return True, state, 0\n", "spec 8: S11"),
    ("def k(state):\n    return True, state\n", "spec 7: S10"),
    ("def g(state, x):\n    return True, state\n", "spec 7: S10"),
    ("def h(state, p):\n    return True, state\n", "spec 7: S14"),
)

# Specifications of one meaning whose lines are written in other ways; each has the transitions f and g.
WRITTEN = (
    FINE + "def g(state):\n    return True, state\n",
    FINE + "def g(state):\n    return True, state",
    (FINE + "def g(state):\n    return True, state\n").replace("\n", "\r\n"),
    FINE + "# def h(state):\ndef\tg ( state\n) :\n\n# a bracket ( here\n\n    x = And(True,\nTrue)\n    return (\nx), state\n\n# behind\n",
    FINE.replace("def f", "def  g") + "inv = 3\ndef f(state):  # ( [\n    return True, state\n",
    FINE + "def g(state):\n    def_ = True\n    return def_, state\ndef prop_p(state):\n    return True\ndef inv_i(kernel):\n    return True\n",
)


class Folder(unittest.TestCase):
    """A test in a folder of its own, with the smallest example."""

    def setUp(self):
        self.folder = tempfile.mkdtemp()
        self.addCleanup(shutil.rmtree, self.folder, True)
        for name in ("tick.ll", "tick.py"):
            shutil.copy(os.path.join(EXAMPLES, name), self.folder)

    def write(self, name, text):
        with open(os.path.join(self.folder, name), "wb") as file:
            file.write(text if isinstance(text, bytes) else text.encode())
        return name

    def run_it(self, *words, **how):
        return launched(words, cwd=self.folder, **how)


class OfWords(Folder):
    def test_usage_line_and_where_to_read_on(self):
        for words, hint in MISUSED:
            with self.subTest(words=words):
                said = self.run_it(*words)
                self.assertEqual((said.stdout, said.stderr.decode(), said.returncode), (USAGE, hint, 4))

    def test_which_words_have_a_form(self):
        for words in FORMS:
            if words[:1] == ["bench"] and options.has_form(words):
                continue
            with self.subTest(words=words):
                said = subprocess.run([*program_words(), *words], cwd=self.folder, stdin=subprocess.DEVNULL, capture_output=True)
                self.assertEqual(options.has_form(list(words)), said.returncode != 4)

    def test_options_in_any_order(self):
        fixed = plain(["verify", "tick.ll", "tick.py", "--conflicts", "7", "--cert", "one"], cwd=self.folder)
        self.assertEqual((fixed.stdout, fixed.returncode), (b"init holds\naccept tick\n", 0))
        parts = (["tick.ll"], ["tick.py"], ["--conflicts", "7"], ["--cert", "many"])
        for order in itertools.permutations(parts):
            if order.index(parts[0]) > order.index(parts[1]):
                continue
            words = ["verify", *itertools.chain(*order)]
            with self.subTest(words=words):
                said = self.run_it(*words)
                self.assertEqual((said.stdout, said.stderr, said.returncode), (fixed.stdout, b"", 0))
                self.same_files("one", "many")
                os.remove(os.path.join(self.folder, "many"))

    def same_files(self, one, many):
        with open(os.path.join(self.folder, one), "rb") as first, open(os.path.join(self.folder, many), "rb") as second:
            self.assertEqual(first.read(), second.read())

    def test_values_behind_an_equals_sign_and_names_behind_two_dashes(self):
        shutil.copy(os.path.join(self.folder, "tick.ll"), os.path.join(self.folder, "--time"))
        for words in (["--cert=many", "--", "--time", "tick.py"], ["--conflicts=9", "./--time", "tick.py"], ["--", "--time", "tick.py"]):
            with self.subTest(words=words):
                self.assertEqual(self.run_it("verify", *words).stdout, b"init holds\naccept tick\n")

    def test_words_of_the_fixed_form_go_as_they_are(self):
        said = self.run_it("verify", "--nope", "tick.py")
        self.assertEqual((said.stdout, said.returncode), (b"read fault --nope\n", 5))

    def test_help(self):
        whole = self.run_it("--help")
        self.assertEqual((whole.stderr, whole.returncode), (b"", 0))
        for command in re.findall(r"^  (\w+) ", whole.stdout.decode(), re.M):
            with self.subTest(command=command):
                page = self.run_it("help", command)
                self.assertTrue(page.stdout.decode().startswith(f"hkv {command}"), page.stdout)
                self.assertEqual(self.run_it("--help", command).stdout, page.stdout)
        for words in (["verify", "--help"], ["verify", "-h"], ["verify", "a", "--time", "b", "--help"], ["-h", "verify"]):
            with self.subTest(words=words):
                said = self.run_it(*words)
                self.assertEqual((said.stdout, said.returncode), (self.run_it("help", "verify").stdout, 0))
        for command in ("run", "bench", "lrat", "check", "replay"):
            self.assertEqual(self.run_it(command, "--help").stdout, self.run_it("help", command).stdout)
        unknown = self.run_it("help", "nope")
        self.assertEqual((unknown.stdout, unknown.returncode), (b"", 4))

    def test_each_option_stands_on_its_page(self):
        for command, of_it in options.OPTIONS.items():
            page = self.run_it("help", command).stdout.decode()
            for option in of_it:
                with self.subTest(command=command, option=option):
                    self.assertIn(option, page)

    def test_scripts_of_the_examples_without_words(self):
        for name in sorted(name for name in os.listdir(EXAMPLES) if name.endswith(".py")):
            path = os.path.join(EXAMPLES, name)
            with open(path, "rb") as file:
                is_script = b"\nimport " in file.read()
            if is_script:
                with self.subTest(name=name):
                    said = subprocess.run([sys.executable, path], capture_output=True, stdin=subprocess.DEVNULL)
                    self.assertEqual(said.stdout, b"")
                    self.assertTrue(said.stderr.decode().startswith(f"usage: {name} "), said.stderr)
                    self.assertEqual(said.returncode, 4)


class OfOnly(Folder):
    def setUp(self):
        super().setUp()
        self.write("kernel.ll", KERNEL)

    def test_refusals_are_those_of_the_whole_text(self):
        for behind, answer in REFUSED:
            self.write("spec.py", FINE + behind)
            for words in ([], ["--only", "f"], ["--jobs", "2"], ["--only", "f", "--jobs", "2", "--cert", "cert"]):
                with self.subTest(behind=behind, words=words):
                    said = self.run_it("verify", "kernel.ll", "spec.py", *words)
                    self.assertEqual((said.stdout.decode(), said.returncode), (answer + "\n", 3))
            said = self.run_it("handlers", "kernel.ll", "spec.py")
            self.assertEqual((said.stdout.decode(), said.returncode), (answer + "\n", 3))

    def test_the_257th_handler(self):
        self.write("many.ll", "".join(f"define void @f{k}() {{\n  ret void\n}}\n" for k in range(257)))
        lines = [f"def f{k}(state):\n    return True, state\n" for k in range(257)]
        self.write("many.py", "".join(lines))
        for words in ([], ["--only", "f3"], ["--jobs", "2"]):
            said = self.run_it("verify", "many.ll", "many.py", *words)
            self.assertEqual((said.stdout.decode(), said.returncode), ("spec 513: S13\n", 3))
        self.write("many.py", "".join(lines[:256]))
        said = self.run_it("verify", "many.ll", "many.py", "--only", "f255")
        self.assertEqual((said.stdout.decode(), said.returncode), ("init holds\naccept f255\n", 0))
        self.assertEqual(self.run_it("handlers", "many.ll", "many.py").stdout.decode(), "".join(f"f{k}\n" for k in range(256)))

    def test_refusals_of_kernels_and_files(self):
        self.write("bad.ll", KERNEL + "@a = global i8 0\n")
        for words in ([], ["--only", "f"], ["--jobs", "2"], ["--time"]):
            with self.subTest(words=words):
                self.assertEqual(self.run_it("verify", "bad.ll", "none.py", *words).stdout, b"read fault none.py\n")
                said = self.run_it("verify", "bad.ll", self.write("spec.py", FINE), *words)
                self.assertEqual((said.stdout, said.returncode), (b"kernel 11: K4\n", 3))
                self.assertEqual(self.run_it("verify", "none.ll", "none.py", *words).stdout, b"read fault none.ll\n")
                said = self.run_it("verify", "kernel.ll", self.write("long.py", b"#" * 1_048_577), *words)
                self.assertEqual((said.stdout, said.returncode), (b"long long.py\n", 3))
        said = self.run_it("check", "bad.ll", "spec.py", "none", "--only", "f")
        self.assertEqual((said.stdout, said.returncode), (b"read fault none\n", 5))

    def test_transitions_however_their_lines_are_written(self):
        for text in WRITTEN:
            self.write("spec.py", text)
            whole = plain(["verify", "kernel.ll", "spec.py"], cwd=self.folder).stdout.decode().splitlines()
            self.assertEqual(sorted(whole), ["accept f", "accept g", "init holds"], text)
            named = self.run_it("handlers", "kernel.ll", "spec.py").stdout.decode().split()
            self.assertEqual([f"accept {name}" for name in named], whole[1:])
            for name in ("f", "g"):
                with self.subTest(text=text, only=name):
                    said = self.run_it("verify", "kernel.ll", "--only", name, "spec.py")
                    self.assertEqual(said.stdout.decode().splitlines(), ["init holds", f"accept {name}"])

    def test_no_line_changes_its_number(self):
        for text in WRITTEN:
            bytes_ = text.encode()
            rest = only(bytes_, transitions(bytes_), ["f"]).split(b"\n")
            self.assertEqual(len(rest), len(bytes_.split(b"\n")))
            self.assertTrue(all(after in (b"", before) for before, after in zip(bytes_.split(b"\n"), rest)))
            self.assertNotIn(b"g", b"".join(line.split(b"#")[0] for line in rest if b"def" in line))

    def test_each_handler_of_a_workload_alone(self):
        kernel, spec = texts(8)
        self.write("kernel.ll", kernel), self.write("spec.py", spec)
        whole = plain(["verify", "kernel.ll", "spec.py"], cwd=self.folder).stdout.decode()
        blocks = re.findall(r"(?m)^(?:accept|reject) .*\n(?:  .*\n)*", whole)
        self.assertEqual(len(blocks), 8)
        for place, block in enumerate(blocks):
            said = self.run_it("verify", "kernel.ll", "spec.py", "--only", f"s{place}")
            self.assertEqual(said.stdout.decode(), "init holds\n" + block)
            self.assertEqual(said.returncode, 1 if block.startswith("reject") else 0)

    def test_a_certificate_of_one_handler(self):
        kernel, spec = texts(4)
        self.write("kernel.ll", kernel), self.write("spec.py", spec)
        for name, checked, replayed in (("s1", "checked s1\n", ""), ("s3", "not claimed s3\n", "confirmed s3 undefined\n")):
            self.run_it("verify", "kernel.ll", "spec.py", "--only", name, "--cert", "cert")
            self.assertEqual(self.run_it("check", "kernel.ll", "spec.py", "cert", "--only", name).stdout.decode(), checked)
            self.assertEqual(self.run_it("replay", "--only", name, "kernel.ll", "spec.py", "cert").stdout.decode(), replayed)
            self.assertEqual(self.run_it("check", "kernel.ll", "spec.py", "cert").returncode, 3)

    def test_texts_from_a_pipe(self):
        with open(os.path.join(self.folder, self.write("spec.py", FINE)), "rb") as pipe:
            said = self.run_it("verify", "kernel.ll", "/dev/stdin", "--only", "f", stdin=pipe)
        self.assertEqual(said.stdout, b"init holds\naccept f\n")


class OfTime(Folder):
    def test_a_line_for_each_handler(self):
        kernel, spec = texts(4)
        self.write("kernel.ll", kernel), self.write("spec.py", spec)
        one = plain(["verify", "kernel.ll", "spec.py", "--cert", "one"], cwd=self.folder)
        for words in (["--time"], ["--time", "--jobs", "2"]):
            said = self.run_it("verify", "kernel.ll", "spec.py", *words)
            self.assertEqual((said.stdout, said.returncode), (one.stdout, one.returncode))
            self.assertRegex(said.stderr.decode(), "^" + "".join(rf"hkv: time s{k} \d+\.\d{{3}} s\n" for k in range(4)) + "$")
            said = self.run_it("verify", "kernel.ll", "spec.py", *words, "--cert", "cert")
            self.assertEqual((said.stdout, said.returncode), (one.stdout, one.returncode))
            self.assertEqual(
                re.findall(r"time (s\d) [\d.]+ s(?:, (\d+) proofs, (\d+) instances, (\d+) learned clauses)?", said.stderr.decode()),
                [(name, *counts) for name, counts in self.counted("one")],
            )

    def counted(self, cert):
        """Proofs, instances and added clauses of each acceptance, by a count of the certificate's lines of its own."""
        with open(os.path.join(self.folder, cert), encoding="utf-8") as file:
            text = file.read()
        for name, body in re.findall(r"(?m)^(?:accept|reject) (s\d).*\n((?:(?!accept|reject|end$).*\n)*)", text):
            if f"accept {name}\n" not in text:
                yield name, ("", "", "")
                continue
            rows = re.findall(r"(?m)^\d+ (?!d ).*0$", body)
            yield name, tuple(str(len(found)) for found in (re.findall(r"(?m)^prove ", body), re.findall(r"(?m)^(?:pair|tuple) ", body), rows))


class OfFiles(Folder):
    """Files that are no texts, as tools write them."""

    def told(self, kernel, what, spec="tick.py"):
        said = self.run_it("verify", kernel, spec)
        self.assertEqual(said.returncode, 3, said.stdout)
        self.assertIn(f"hkv: {kernel} is {what}: ", said.stderr.decode())
        return said.stderr.decode()

    @unittest.skipUnless(shutil.which("clang-16"), "there is no clang-16 here")
    def test_what_clang_writes(self):
        self.write("tick.c", "unsigned char ticks;\nvoid tick(void) { ticks++; }\n")
        kinds = (
            (["-c"], "tick.o", "an ELF file, of an assembler or a linker"), (["-c", "-emit-llvm"], "tick.bc", "LLVM bitcode"), (["-S"], "tick.s", "assembler text"),
            (["-c", "-emit-llvm", "-fembed-bitcode", "--target=arm64-apple-ios"], "wrapped.bc", "LLVM bitcode in a wrapper"),
        )
        for flags, name, what in kinds:
            subprocess.run(["clang-16", "-O1", *flags, "-o", name, "tick.c"], cwd=self.folder, check=True, capture_output=True)
            self.assertIn("-S -emit-llvm", self.told(name, what))
        self.told("tick.c", "C text")
        subprocess.run(["ar", "rc", "tick.a", "tick.o"], cwd=self.folder, check=True)
        self.told("tick.a", "an archive of object files")
        how = re.search(r"bitcode: make its text: (.*)$", self.told("tick.bc", "LLVM bitcode"), re.M)[1]
        subprocess.run(["sh", "-c", how], cwd=self.folder, check=True)
        self.assertEqual(self.run_it("verify", "kernel.ll", "tick.py").stdout, b"init holds\naccept tick\n")
        how = re.search(r"C text: compile it: (.*)$", self.told("tick.c", "C text"), re.M)[1]
        os.remove(os.path.join(self.folder, "kernel.ll"))
        subprocess.run(["sh", "-c", how], cwd=self.folder, check=True)
        self.assertEqual(self.run_it("verify", "kernel.ll", "tick.py").stdout, b"init holds\naccept tick\n")

    def test_other_formats(self):
        for front, what in (
            (b"%PDF-1.7\n", "a PDF document"), (b"\x1f\x8b\x08", "compressed by gzip"), (b"PK\x03\x04", "a zip archive"),
            (b"\xff\xfe;\0", "UTF-16 text"), (b"\xef\xbb\xbf@a = global i8 0\n", "UTF-8 text behind a byte order mark"), (b"a\0b", "binary"),
        ):
            self.told(self.write("file", front), what)

    def test_texts_in_the_wrong_order(self):
        said = self.run_it("verify", "tick.py", "tick.ll")
        self.assertIn("hkv: tick.py is a specification: the kernel stands first", said.stderr.decode())
        self.assertIn("hkv: tick.ll is LLVM text: the kernel stands first", said.stderr.decode())

    def test_nothing_is_told_of_texts(self):
        for name, text in (("a.ll", "@a = global ptr null\n"), ("a.ll", "define void @f() {\n  br label %a\na:\n  br label %a\n}\n")):
            said = self.run_it("verify", self.write(name, text), "tick.py")
            self.assertEqual(said.returncode, 3)
            self.assertNotIn("hkv: a.ll is ", said.stderr.decode())
        said = self.run_it("verify", "tick.ll", self.write("a.py", "# if this\n# define that\nimport z3\nA = Bits(8)\n"))
        self.assertEqual(said.stdout, b"spec 3: S3\n")
        self.assertNotIn("hkv: a.py is ", said.stderr.decode())


class OfUnnamed(Folder):
    def test_their_number_is_said_beside_the_report(self):
        self.write("kernel.ll", KERNEL), self.write("spec.py", FINE)
        for words in ([], ["--jobs", "2"], ["--only", "f"], ["--time"]):
            said = self.run_it("verify", "kernel.ll", "spec.py", *words)
            self.assertEqual((said.stdout, said.returncode), (b"init holds\naccept f\n", 0))
            self.assertIn("hkv: 2 functions have a body, but no transition names them and no function calls them", said.stderr.decode())
        self.write("kernel.ll", KERNEL.replace("@g() {\n", "@g() {\n  call void @f()\n").replace("define void @h(ptr %p) {\n  ret void\n}\n", ""))
        self.write("spec.py", FINE.replace("def f", "def g"))
        said = self.run_it("verify", "kernel.ll", "spec.py")
        self.assertEqual((said.stdout, said.stderr), (b"init holds\naccept g\n", b""))


def program_words():
    from launched import program

    return program()


if __name__ == "__main__":
    unittest.main()
