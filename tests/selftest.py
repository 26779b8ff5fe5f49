#!/usr/bin/env python3
"""Tests of the launcher's selftest: that it fails where a program answers otherwise, and that rows are read as their form says."""
import contextlib
import io
import os
import stat
import sys
import tempfile
import unittest

sys.path.insert(0, os.path.dirname(os.path.dirname(os.path.realpath(__file__))))

from launcher import program, rows, selftest

# Every so many of the stored groups is tried over a program that answers otherwise.
SHARE = 15
ROWS = """# A file with a hole, and calls.
file a.ll
| one {x}
file b.py
like a.ll
swap one -> two
$ verify a.ll b.py
  init holds
  accept f
  status 0
$ verify a.ll b.py --cert saved
> init holds
> reject f state g
>   @g+0: ?
  as expected
  status 1
fail 2
$ verify a.ll b.py
  read fault b.py
  status 5
fail 0
cut 2 3
$ run a.ll f
  returns
    @\\
  status 6

table x : verify a.ll b.py
with 3 => init holds, accept f, status 0

$ run a.ll f
  returns 1
  status 0
"""
APART = """file a.ll
| one
room 3
$ run a.ll f
  ret\\
  status 6

folder c
$ verify a b --cert c
~   arg [0-9]
~? maybe .
~* more
  status 0
"""


class Rows(unittest.TestCase):
    def setUp(self):
        self.calls = rows.calls_of(ROWS, "rows")

    def test_files_words_and_status(self):
        first = self.calls[0]
        self.assertEqual((first.place, first.words, first.status), ("rows:7", ["verify", "a.ll", "b.py"], 0))
        self.assertEqual(first.files, {"a.ll": "one {x}\n", "b.py": "two {x}\n"})
        self.assertTrue(first.pattern.fullmatch("init holds\naccept f\n"))
        for text in ("init holds\naccept g\n", "init holds\n", "init holds\naccept f\naccept g\n", "init holds\naccept f"):
            self.assertFalse(first.pattern.fullmatch(text))

    def test_open_lines(self):
        call = self.calls[1]
        self.assertTrue(call.follows)
        for text, fits in (("  @g+0: 01\n", True), ("", True), ("  @h+0: 01\n", False)):
            self.assertEqual(bool(call.pattern.fullmatch("init holds\nreject f state g\n" + text)), fits)

    def test_faults_of_files_and_output(self):
        self.assertEqual(list(self.calls[2].files), ["a.ll"])
        self.assertEqual(self.calls[3].room, len("returns\n  @"))
        self.assertTrue(self.calls[3].pattern.fullmatch("returns\n  @"))

    def test_a_table_fills_holes_and_an_empty_row_ends_faults(self):
        self.assertEqual(self.calls[4].files["a.ll"], "one 3\n")
        self.assertEqual((self.calls[5].room, self.calls[5].follows), (None, False))
        self.assertIn("b.py", self.calls[5].files)

    def test_rows_that_stand_apart(self):
        first, second = rows.calls_of(APART, "apart", is_apart=True)
        self.assertEqual((first.room, second.room, second.files), (3, None, {"c": None}))
        for text, fits in (("  arg 1\n", True), ("  arg 1\nmaybe 2\nmore\nmore\n", True), ("  arg x\n", False), ("  arg 1\nless\n", False)):
            self.assertEqual(bool(second.pattern.fullmatch(text)), fits)

    def test_a_row_of_no_form_is_refused(self):
        with self.assertRaises(ValueError):
            rows.calls_of("file a\nswap x -> y\n", "rows")


class Selftest(unittest.TestCase):
    def run_over(self, script):
        """The status and the lines of a selftest over a program that is this script."""
        with tempfile.TemporaryDirectory() as folder:
            path = os.path.join(folder, "hkv")
            with open(path, "w") as file:
                file.write(script)
            os.chmod(path, os.stat(path).st_mode | stat.S_IXUSR)
            before, stored, shown = list(program._CHOSEN), selftest.stored, io.StringIO()
            program._CHOSEN[:] = [((path,), False)]
            groups, left = stored()
            selftest.stored = lambda: (groups[::SHARE], left)
            try:
                with contextlib.redirect_stdout(shown):
                    status = selftest.run([])
            finally:
                program._CHOSEN[:] = before
                selftest.stored = stored
        return status, shown.getvalue().splitlines()

    def test_another_program_fails(self):
        status, lines = self.run_over("#!/bin/sh\necho init holds\nexit 0\n")
        groups, _ = selftest.stored()
        passed, failed = (int(it.split()[0]) for it in lines[-1].split(", "))
        self.assertEqual((status, passed + failed), (1, sum(len(it) for it in groups[::SHARE])))
        self.assertGreater(failed, 20)
        told = [it for it in lines if it.startswith("FAILED ")]
        self.assertEqual(len(told), failed)
        self.assertTrue(all("expected " in it and "; got " in it for it in told))
        self.assertIn("the quick program, of whose answers nothing is claimed", lines[-2])


if __name__ == "__main__":
    unittest.main()
