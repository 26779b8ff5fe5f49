#!/usr/bin/env python3
"""Tests of refusals in words (launcher/refusals.py): each row of refusals.json is texts in, and both outputs and the status out.

The line on standard output and the status of most rows are worked rows of the program. The words beside it were recorded and then read
through one by one against the texts; what marks stand under, and what is advised for the C constructs of the guide, are tables that were
written by hand. That each reason has a row, and that both documents have the same table, is tested too.
"""
import json
import os
import re
import subprocess
import sys
import tempfile
import unittest

HERE = os.path.dirname(os.path.realpath(__file__))
TOP = os.path.dirname(HERE)
HKV = os.path.join(TOP, 'hkv')
QUICK = 'hkv: this is the quick program'
EXAMPLES = os.path.join(TOP, 'examples')
sys.path[:0] = [TOP, os.path.join(TOP, 'bench')]

# What the guide's table of C constructs says to write, by the file of examples/profile: the reason, and words of the hint.
ADVICE = {
    'loop': ('K10', 'unroll(full)'), 'struct_copy': ('K8', 'Copy each member'), 'struct_clear': ('K8', 'Clear each member'),
    'out_parameter': ('K8', 'static inline'), 'rotate': ('K8', '0x100000001'), 'saturate': ('K8', '64 bits'),
    'swap_bytes': ('K8', 'uint8_t'), 'trap': ('K8', 'Return an error'), 'other_file': ('K8', 'Its code into this file'),
    'count_zeros': ('K2', 'constant table'), 'varargs': ('K2', 'no printing'), 'function_table': ('K2', 'switch'),
    'address_switch': ('K2', 'compute the index'), 'local_array': ('K2', 'single variables'), 'float': ('K1', 'no floating point'),
    'volatile': ('K3', 'hooks'), 'assembly': ('K3', 'hook'), 'wide_product': ('K3', '64 bits'), 'struct_result': ('K3', 'one integer'),
    'external': ('K3', 'Define the variable'), 'odd_bits': ('K5', 'whole word'), 'large': ('K6', 'Smaller tables'),
    'recursion': ('K11', 'No recursion'), 'pointer': ('K13', 'index'),
}


def call(words, folder, **how):
    done = subprocess.run([HKV, *words], cwd=folder, capture_output=True, text=True, **how)
    return done, [line for line in done.stderr.splitlines() if not line.startswith(QUICK)]


def put(folder, files, dirs=()):
    for name, text in files.items():
        with open(os.path.join(folder, name), 'w') as file:
            file.write(text if isinstance(text, str) else text['repeat'] * text['times'])
    for name in dirs:
        os.mkdir(os.path.join(folder, name))


def rows():
    with open(os.path.join(HERE, 'refusals.json')) as file:
        return json.load(file)


class Rows(unittest.TestCase):
    def test_each_row(self):
        for row in rows():
            with self.subTest(row['name']), tempfile.TemporaryDirectory() as folder:
                put(folder, row['files'], row.get('dirs', ()))
                done, words = call(row['words'], folder)
                self.assertEqual((done.stdout.splitlines(), done.returncode), (row['stdout'], row['status']))
                self.assertEqual(words, row['stderr'])

    def test_each_reason_has_a_row(self):
        from launcher import reasons
        told = ' '.join(line for row in rows() for line in row['stderr'])
        for code, entry in reasons.table().items():
            if entry.get('built', True) and re.fullmatch(r'[A-Z]\d+', code):
                self.assertIn(f'error: {code}: {entry["words"]}', told, code)
        for fault in ('read fault', 'long'):
            self.assertIn(reasons.words(fault), told)

    def test_the_mark_stands_under_the_text_that_is_meant(self):
        meant = {'S8': 'kernel.procs', 'S5 of a field': 'state.tick', 'S7 of a literal': '256', 'K8b': '@llvm.memset.p0.i64',
                 'S5 of a variable outside of its quantifier': 't', 'S10 of parameters': 'tick', 'S1 of a division': '/',
                 'K3 of a vector': '<', 'S7 on a later line': 'Extract(3, 0, state.ticks)', 'an item of several lines': '%c'}
        by_name = {row['name']: row['stderr'] for row in rows()}
        for name, text in meant.items():
            lines = by_name[name]
            at = next(k for k, line in enumerate(lines) if re.fullmatch(r' +\| [ \t]*\^~*', line))
            begin = lines[at].index('^')
            self.assertEqual(lines[at - 1][begin:begin + len(lines[at]) - begin], text, name)

    def test_advice_is_that_of_the_guide(self):
        for name, (code, words) in ADVICE.items():
            with self.subTest(name):
                done, told = call(['verify', f'profile/{name}.ll', 'profile/nothing.py'], EXAMPLES)
                self.assertRegex(done.stdout, rf'^kernel \d+: {code}\n$')
                self.assertIn(words, told[-1])

    def test_documents_have_the_same_table(self):
        import reasons as lists
        for name in lists.HEADS:
            self.assertFalse(lists.stale(name), name)


class PassingThrough(unittest.TestCase):
    """What the program writes comes through as it is."""

    WORDS = ['verify', 'off_by_one.ll', 'off_by_one.py']

    def program(self, words, **how):
        sys.path.insert(0, TOP)
        code = 'import sys; sys.path.insert(0, sys.argv[1]); from launcher import program; print(*program.argv(), sep="\\n")'
        argv = subprocess.run([sys.executable, '-c', code, TOP], capture_output=True, text=True, check=True).stdout.split('\n')[:-1]
        return subprocess.run([*argv, *words], cwd=EXAMPLES, capture_output=True, **how)

    def test_bytes_and_status(self):
        for words in (self.WORDS, ['run', 'files.ll', 'sys_open', '1', '2'], ['verify', 'charge.ll', 'charge.py', '--conflicts', '100'],
                      ['bench', '2']):
            plain, through = self.program(words), subprocess.run([HKV, *words], cwd=EXAMPLES, capture_output=True)
            self.assertEqual((through.stdout, through.returncode), (plain.stdout, plain.returncode))
            said = [line for line in through.stderr.decode().splitlines() if not line.startswith(QUICK)]
            self.assertEqual([line for line in said if ': error: ' in line or ': hint: ' in line], [], 'a decided call is no refusal')

    def test_a_full_output_is_the_write_fault(self):
        with open('/dev/full', 'w') as full:
            done = subprocess.run([HKV, *self.WORDS], cwd=EXAMPLES, stdout=full, stderr=subprocess.PIPE, text=True)
        self.assertEqual(done.returncode, 6)
        self.assertIn('could not be written', done.stderr)

    def test_a_refusal_on_a_full_output_keeps_its_status(self):
        with open('/dev/full', 'w') as full:
            done = subprocess.run([HKV, 'verify', 'profile/loop.ll', 'profile/nothing.py'], cwd=EXAMPLES, stdout=full,
                                  stderr=subprocess.PIPE, text=True)
        self.assertEqual(done.returncode, 3)
        self.assertIn('error: K10: a loop', done.stderr)

    def test_a_lost_standard_error_changes_no_status(self):
        for to in ('2>&-', '2>/dev/full'):
            done = subprocess.run(f'"{HKV}" verify profile/loop.ll profile/nothing.py {to}', shell=True, cwd=EXAMPLES, stdout=subprocess.PIPE)
            self.assertEqual((done.stdout, done.returncode), (b'kernel 9: K10\n', 3), to)

    def test_a_closed_pipe_ends_the_call(self):
        read, write = os.pipe()
        os.close(read)
        done = subprocess.run([HKV, *self.WORDS], cwd=EXAMPLES, stdout=write, stderr=subprocess.PIPE, text=True)
        os.close(write)
        self.assertEqual(done.returncode, 6)

    def test_no_certificate_where_the_output_fails(self):
        with tempfile.TemporaryDirectory() as folder, open('/dev/full', 'w') as full:
            cert = os.path.join(folder, 'cert')
            done = subprocess.run([HKV, *self.WORDS, '--cert', cert], cwd=EXAMPLES, stdout=full, stderr=subprocess.PIPE, text=True)
            self.assertEqual(done.returncode, 6)
            self.assertFalse(os.path.exists(cert))

    def test_a_refused_call_with_a_certificate_is_told(self):
        with tempfile.TemporaryDirectory() as folder:
            done, words = call(['verify', 'profile/loop.ll', 'profile/nothing.py', '--cert', os.path.join(folder, 'cert')], EXAMPLES)
        self.assertEqual((done.stdout, done.returncode), ('kernel 9: K10\n', 3))
        self.assertRegex(words[0], r'profile/loop.ll:9: error: K10: a loop')

    def test_lines_come_as_they_are_written(self):
        code = ('import sys, time; sys.path.insert(0, sys.argv[1])\n'
                'from launcher import program, refusals\n'
                'program.argv = lambda: [sys.executable, "-c", "import time; print(1, flush=True); time.sleep(20)"]\n'
                'refusals.run(["verify"])\n')
        child = subprocess.Popen([sys.executable, '-c', code, TOP], stdout=subprocess.PIPE, bufsize=0)
        self.assertEqual(child.stdout.readline(), b'1\n')
        self.assertIsNone(child.poll(), 'the line came while the program went on')
        child.terminate()
        child.wait()
        child.stdout.close()

    def test_an_end_by_a_signal_ends_the_program(self):
        with tempfile.TemporaryDirectory() as folder:
            mark = os.path.join(folder, 'pid')
            code = ('import sys; sys.path.insert(0, sys.argv[1])\n'
                    'from launcher import program, refusals\n'
                    f'program.argv = lambda: ["sh", "-c", "echo $$ >{mark}; echo on; exec sleep 60"]\n'
                    'refusals.run([])\n')
            child = subprocess.Popen([sys.executable, '-c', code, TOP], stdout=subprocess.PIPE, bufsize=0)
            child.stdout.readline()
            with open(mark) as file:
                pid = int(file.read())
            child.terminate()
            child.wait()
            child.stdout.close()
            with self.assertRaises(ProcessLookupError):
                os.kill(pid, 0)


class WithDebugMetadata(unittest.TestCase):
    """A kernel that was compiled with -g names the C line too."""

    def test_stuck_run(self):
        with open(os.path.join(EXAMPLES, 'bugs', 'mbox_wrap.ll')) as file:
            text = file.read()
        entry = '%struct.mbox { i32 1, i32 3, i32 3, [4 x i32] zeroinitializer }'
        zero = '%struct.mbox zeroinitializer'
        text = text.replace('[4 x %struct.mbox] zeroinitializer', f'[4 x %struct.mbox] [{zero}, {zero}, {zero}, {entry}]')
        with tempfile.TemporaryDirectory() as folder:
            put(folder, {'k.ll': text})
            with open(os.path.join(EXAMPLES, 'bugs', 'mbox_wrap.c')) as file:
                put(folder, {'mbox_wrap.c': file.read()})
            done, words = call(['run', 'k.ll', 'sys_send', '3', '7'], folder)
        self.assertRegex(done.stdout, r'^stuck U8 \d+\n$')
        self.assertIn('mbox_wrap.c:47:25: note: it comes from here', words)
        self.assertIn('   47 |     *behind(&boxes[vm]) = word;', words)


if __name__ == '__main__':
    unittest.main()
