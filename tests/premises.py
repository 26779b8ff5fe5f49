"""What `hkv premises` lists of a kernel and a specification: written by hand for a kernel that has one of each kind."""
import os
import re
import shutil
import subprocess
import sys
import tempfile
import unittest

from launched import EXAMPLES, TOP, launched

sys.path.insert(0, TOP)
from launcher import unnamed  # noqa: E402

KERNEL = """\
; ModuleID = 'k.c'
source_filename = "k.c"
target datalayout = "e-m:e-i64:64-S128"
target triple = "riscv64-unknown-elf"

%struct.s = type { i32, i32 }

@ticks = dso_local global i32 0, align 4
@level = internal unnamed_addr global i32 7, align 4, !dbg !9
@table = weak_odr dso_local global [2 x %struct.s] zeroinitializer, section ".kernel", align 8
@"odd name" = common global i8 0
@limit = linkonce constant i32 4

; a comment: call void @alone()
define weak dso_local i32 @tick(i32 noundef returned %x, ptr nocapture readonly align 4 dereferenceable(8) %p.not) local_unnamed_addr #0 {
  ret i32 %x
}

define dso_local i32 @get(i32 noundef zeroext %i) #0 {
  %1 = call i32 @helper(i32 noundef %i) #1, !prof !7
  %2 = tail call fastcc i32 @helper(i32 %1)
  call void @flush(i32 %2)
  ret i32 %2
}

define internal fastcc i32 @helper(i32 %i) {
entry:
  %a = alloca i32, align 4
  store i32 %i, ptr %a, align 4, !tbaa !5
  %v = load i32, ptr %a, align 4, !tbaa !5, !range !8
  br label %weak
weak:
  ret i32 %v
}

define linkonce_odr void @alone() {
  call void @below()
  call void @flush(i32 1)
  ret void
}

define available_externally void @below() {
  ret void
}

define dso_preemptable void @"other one"() {
  ret void
}

declare void @flush(i32 noundef)
declare void @probe() #1

attributes #0 = { nounwind "frame-pointer"="none" memory(read, argmem: none) allocsize(0) }
attributes #1 = { cold }

!5 = !{!6, !6, i64 0}
!8 = !{i32 0, i32 100}
"""
SPEC = """\
flush = Hook()

class S:
    ticks = Bits(32)

def equiv(kernel, state):
    return state.ticks == kernel.ticks

def get(state, i):
    return True, state, i
"""
LISTED = """\
handlers: 1 of 6 functions with a body, and 1 that they call
functions that nothing is said of:
  tick, line 15: no transition names it, and no function calls it
  alone, line 36: no transition names it, and no function calls it
  "other\\20one", line 46: no transition names it, and no function calls it
  below, line 42: only functions that are not looked at call it
hooks:
  flush, line 50: 2 calls in get, alone; that a call does nothing is trusted
functions of other files, no hooks:
  probe, line 51: 0 calls, none of which a handler comes to
definitions that another file may replace:
  @table, line 10: weak_odr: another file's definition may stand in its place
  @"odd\\20name", line 11: common: another file's definition stands in its place where there is one
  @limit, line 12: linkonce: another file's definition may stand in its place
  @tick, line 15: weak: another file's definition stands in its place where there is one
  @alone, line 36: linkonce_odr: another file's definition may stand in its place
  @below, line 42: available_externally: the definition that runs is another file's
  @"other\\20one", line 46: dso_preemptable: another definition may stand in its place where the program is loaded
initial state: the values that the text gives 4 variables of 25 bytes in all; not all zero: @level
  what boot code does before the first handler is not looked at
variables that other files can name, and are trusted not to write:
  @ticks, line 8
  @table, line 10
  @"odd\\20name", line 11
ignored attributes:
  of values, parameters and functions: noundef 4, align of a parameter 1, dereferenceable 1, nocapture 1, readonly 1, returned 1, zeroext 1
  of linkage and visibility: dso_local 4, internal 2, available_externally 1, common 1, dso_preemptable 1, linkonce 1, linkonce_odr 1, local_unnamed_addr 1, unnamed_addr 1, weak 1, weak_odr 1
  of calls: fastcc 2, tail 1
  sections: section 1
  metadata: !tbaa 2, !dbg 1, !prof 1
  group #0, named 2 times: nounwind, "frame-pointer"="none", memory(read, argmem: none), allocsize(0)
  group #1, named 2 times: cold
data layout: "e-m:e-i64:64-S128": read as little endian, pointers and integers of 64 bits aligned to 8 bytes
target triple: riscv64-unknown-elf, not looked at
source file: k.c: that the text was made of it is not looked at
"""


class Premises(unittest.TestCase):
    def setUp(self):
        self.folder = tempfile.mkdtemp()
        self.addCleanup(shutil.rmtree, self.folder, True)

    def write(self, name, text):
        path = os.path.join(self.folder, name)
        with open(path, "w", encoding="utf-8") as file:
            file.write(text)
        return path

    def test_one_of_each_kind(self):
        self.maxDiff = None
        said = launched(["premises", self.write("k.ll", KERNEL), self.write("k.py", SPEC)])
        self.assertEqual((said.stdout.decode(), said.stderr, said.returncode), (LISTED, b"", 0))

    def test_a_kernel_with_nothing_to_list(self):
        said = launched(["premises", "tick.ll", "tick.py"], cwd=EXAMPLES).stdout.decode()
        for line in ("handlers: 1 of 1 function with a body", "functions that nothing is said of: none", "hooks: none",
                     "definitions that another file may replace: none", "ignored attributes: none", "data layout: none is given"):
            self.assertRegex(said, rf"(?m)^{line}")

    def test_counts_by_another_count(self):
        """The words of files.ll, as grep counts them in the lines that are read."""
        said = launched(["premises", "files.ll", "files.py"], cwd=EXAMPLES).stdout.decode()
        for word, lines in (("noundef", "^define"), ("dso_local", "^define|^@"), ("local_unnamed_addr", "^define|^@"), ("!tbaa", "^  ")):
            counted = subprocess.run(
                f"grep -E '{lines}' files.ll | grep -oE '(^|[ (]){word}( |,|$)' | wc -l", shell=True, cwd=EXAMPLES, capture_output=True
            )
            self.assertEqual(re.search(rf"{re.escape(word)} (\d+)", said)[1], counted.stdout.decode().strip())

    def test_refusals_and_words(self):
        kernel, spec = self.write("k.ll", KERNEL + "@ticks = global i8 0\n"), self.write("k.py", SPEC)
        said = launched(["premises", kernel, spec])
        self.assertEqual((said.stdout, said.returncode), (b"kernel 58: K4\n", 3))
        self.assertEqual(launched(["premises", self.write("k.ll", KERNEL), spec + "x"]).returncode, 5)
        said = launched(["premises", kernel])
        self.assertEqual((said.stdout, said.stderr, said.returncode), (b"", b"usage: hkv premises KERNEL SPEC\n", 4))

    def test_lowered_text(self):
        left = '!hkv.lowered = !{!7, !8}\n!7 = !{!"This text was written."}\n!8 = !{!"--unroll 4"}\n'
        spec = self.write("k.py", SPEC)
        said = launched(["premises", self.write("k.ll", KERNEL + left), spec]).stdout.decode()
        self.assertTrue(said.endswith(
            "lowered: This text was written.\nlowered: --unroll 4\n"
            "  who links the text that it was made of, and not this one, relies on the pass\n"
        ))
        self.assertNotIn("lowered", launched(["premises", self.write("k.ll", KERNEL), spec]).stdout.decode())

    def test_functions_that_nothing_is_said_of(self):
        rows = (
            ("define void @f() {\n", [], [(b"f", 1)]),
            ("define void @f() {\n", ["f"], []),
            ('define void @"f"() {\n', ["f"], []),
            ('define void @"f\\67"() {\n', ["fg"], []),
            ("define void @f() {\n; call void @f()\n", [], [(b"f", 1)]),
            ("define void @f() {\ndeclare void @f()\n", [], [(b"f", 1)]),
            ('@s = constant [9 x i8] c"@f() ; @g("\ndefine void @f() { ; @f(\n', [], [(b"f", 2)]),
            ("define void @f() {\n  call void @g ()\n}\n\ndefine void @g() {\n", [], [(b"f", 1)]),
            ("define dereferenceable(8) ptr @f(ptr %x) {\n  tail call void @g.1(i32 1)\n}\ndefine i8 @g.1(i32 %0) {\n", [], [(b"f", 1)]),
        )
        for text, names, found in rows:
            with self.subTest(text=text):
                self.assertEqual(unnamed.functions(text.encode(), names), found)


if __name__ == "__main__":
    unittest.main()
