#!/usr/bin/env python3
"""Tests of `hkv explain` (launcher/explain): seven bugs in three kernels, in words, as JSON, and as a page that a browser reads.

What is expected of each bug was written down from the patch; numbers that the solver chooses are not fixed, but have to fit.
"""
import json
import os
import re
import shutil
import subprocess
import sys
import tempfile
import unittest

HERE = os.path.dirname(os.path.realpath(__file__))
TOP = os.path.dirname(HERE)
HKV = os.path.join(TOP, 'hkv')
EXAMPLES = os.path.join(TOP, 'examples')
sys.path.insert(0, TOP)

# Bug: texts, handler, obligation, forms that some line of the words has, in this order.
BUGS = {
    'missing_bound': ('missing_bound.ll', 'missing_bound.py', 'sys_close', 'undefined',
                      [r'called with fd = \d+', r'line 153: the address is poison \(U8\)', r'the index \d+, and there are 4 elements']),
    'off_by_one': ('off_by_one.ll', 'off_by_one.py', 'sys_dup', 'undefined',
                   [r'procs\[(\d)\]\.f2\[\d\] = 16', r'line 207: the range leaves the object \(U6\)',
                    r'files\[16\]: the index 16, and there are 16 elements']),
    'kept_reference': ('kept_reference.ll', 'kept_reference.py', 'sys_close', 'state file_refs',
                       [r'the run returns 0, and changes:', r'procs\[\d\]\.f2\[\d\]: \d+ -> 0', r'the transition is valid, gives 0',
                        r'file_refs\[\d+\] \(files\[\d+\]\.f0\): the run gives \d+.*, the transition \d+']),
    'early_write': ('early_write.ll', 'early_write.py', 'sys_open', 'state proc_fd',
                    [r'the run returns -1, and changes:', r'procs\[\d\]\.f2\[\d\]: 0 -> \d+',
                     r'the transition is not valid, gives anything but 0, and changes nothing',
                     r'proc_fd\[\d, \d\] \(procs\[\d\]\.f2\[\d\]\): the run gives \d+, the transition 0']),
    'mbox_wrap': ('bugs/mbox_wrap.ll', 'bugs/mbox.py', 'sys_send', 'undefined',
                  [r'boxes\[3\]\.door = OPEN \(1\)', r'mbox_wrap\.c:22: return &box->words\[box->first \+ box->count\];',
                   r'mbox_wrap\.c:47:25: the address is poison \(U8\)', r'boxes\[3\]\.words\[\d\]: the index \d, and there are 4 elements']),
    'mbox_full': ('bugs/mbox_full.ll', 'bugs/mbox.py', 'sys_send', 'invariant ring',
                  [r'boxes\[\d\]\.count: 4 -> 5', r'inv_ring is false after the run at v = \d \(line 37\):',
                   r'ULE\(kernel\.boxes\[v\]\.f2, NWORD\)', r'kernel\.boxes\[\d\]\.f2 \(boxes\[\d\]\.count\) = 5, before: 4']),
    'pages_wx': ('bugs/pages_wx.ll', 'bugs/pages_wx.py', 'sys_protect', 'property write_or_execute',
                 [r'the transition is valid', r'entry_may\[\d, \d\]: \d+ -> [67]', r'prop_write_or_execute is false after the transition at v = \d, e = \d',
                  r'state\.entry_may\(v, e\) & WRITE_EXECUTE != WRITE_EXECUTE', r'state\.entry_may\[\d, \d\] = [67], before: \d']),
}


def explain(*words, folder=EXAMPLES):
    return subprocess.run([HKV, 'explain', *words], cwd=folder, capture_output=True, text=True)


def in_order(test, forms, lines):
    """Each form is that of a line, behind the line of the one before."""
    at = 0
    for form in forms:
        found = next((k for k in range(at, len(lines)) if re.search(form, lines[k])), None)
        test.assertIsNotNone(found, f'{form} in {lines[at:]}')
        at = found + 1


class Bugs(unittest.TestCase):
    @classmethod
    def setUpClass(cls):
        cls.data, cls.words = {}, {}
        with tempfile.TemporaryDirectory() as folder:
            for name, (kernel, spec, *_) in BUGS.items():
                report = os.path.join(folder, name)
                with open(report, 'w') as file:
                    subprocess.run([HKV, 'verify', kernel, spec], cwd=EXAMPLES, stdout=file, stderr=subprocess.DEVNULL)
                cls.words[name] = explain(kernel, spec, report)
                cls.data[name] = explain(kernel, spec, report, '--json')

    def rejection(self, name):
        found = json.loads(self.data[name].stdout)
        self.assertEqual(len(found['rejections']), 1)
        return found['rejections'][0]

    def test_words(self):
        for name, (_, _, handler, obligation, forms) in BUGS.items():
            with self.subTest(name):
                done = self.words[name]
                self.assertEqual(done.returncode, 1)
                in_order(self, [rf'^{handler}: rejected: {obligation}$', *forms], done.stdout.splitlines())

    def test_all_is_confirmed_by_the_program(self):
        for name in BUGS:
            with self.subTest(name):
                one = self.rejection(name)
                self.assertIs(one['confirmed'], True)
                for key in ('transition', 'false'):
                    if one[key]:
                        self.assertIs(one[key]['confirmed'], True, key)
                self.assertNotIn('did not confirm', self.words[name].stdout)

    def test_json_says_the_same_as_the_words(self):
        from launcher.explain import words
        for name in BUGS:
            with self.subTest(name):
                self.assertEqual('\n'.join(words.lines(json.loads(self.data[name].stdout))) + '\n', self.words[name].stdout)

    def test_each_number_of_json_stands_in_the_words(self):
        for name in BUGS:
            with self.subTest(name):
                one, told = self.rejection(name), self.words[name].stdout
                case = one['smaller'] or one['reported']
                for entry in case['arguments']:
                    self.assertIn(f'{entry["name"]} = {entry["shown"]}', told)
                for entry in case.get('memory', case.get('fields')):
                    self.assertIn(f'{entry["path"]} = {entry["shown"]}', told)

    def test_a_smaller_state_is_smaller_and_still_goes_wrong(self):
        for name, (kernel, spec, handler, obligation, _) in BUGS.items():
            one = self.rejection(name)
            if not one['smaller']:
                continue
            with self.subTest(name), tempfile.TemporaryDirectory() as folder:
                from launcher import spec_text
                handlers = [it.name for it in spec_text.load(os.path.join(EXAMPLES, spec)).transitions]
                lines = ['hkv certificate 1']
                for it in handlers:
                    lines += [f'reject {it} {obligation}', *one['smaller']['block']] if it == handler else [f'memory {it}']
                path = os.path.join(folder, 'cert')
                with open(path, 'w') as file:
                    file.write('\n'.join([*lines, 'end']) + '\n')
                done = subprocess.run([HKV, 'replay', kernel, spec, path], cwd=EXAMPLES, capture_output=True, text=True)
                self.assertEqual(done.stdout, f'confirmed {handler} {obligation}\n')
                entries = [len([it for it in one[key].get('memory', one[key].get('fields')) + one[key]['arguments'] if it['value']])
                           for key in ('smaller', 'reported')]
                self.assertLess(entries[0], entries[1])
                self.assertEqual(entries[1] - entries[0], one['zeroed'])

    def test_steps_have_the_numbers_of_the_state(self):
        one = self.rejection('mbox_wrap')
        memory = {it['path']: it['shown'] for it in (one['smaller'] or one['reported'])['memory']}
        read = {told['path']: told['text'].split(' = ')[1] for step in one['run']['steps'] for told in step['tells']
                if told['kind'] == 'load' and not step is one['run']['steps'][-1]}
        self.assertTrue(read)
        for path, value in read.items():
            self.assertEqual(value, memory.get(path, '0'), path)

    def test_the_line_to_blame(self):
        self.assertEqual(self.rejection('mbox_wrap')['mark']['code']['place']['shown'], 'mbox_wrap.c:47:25')
        self.assertEqual(self.rejection('mbox_full')['mark']['code']['place']['line'], 48)
        self.assertEqual(self.rejection('early_write')['mark']['specification'], [75])


class Others(unittest.TestCase):
    """Kinds of obligations that no bug has, and calls without an explanation."""

    KERNEL = ('@n = global i8 0\n@m = global i16 0\n'
              'define i8 @get(i8 %k) {\n  %v = load i8, ptr @n\n  %w = add i8 %v, %k\n  store i8 %w, ptr @n\n  ret i8 %v\n}\n')
    SPEC = ('class S:\n    n = Bits(8)\n\ndef equiv(kernel, state):\n    return state.n == kernel.n\n\n'
            'def get(state, k):\n    new = state.copy()\n    new.n = state.n + k\n    return True, new, new.n\n')

    def explained(self, kernel, spec, *words):
        with tempfile.TemporaryDirectory() as folder:
            for name, text in (('k.ll', kernel), ('s.py', spec)):
                with open(os.path.join(folder, name), 'w') as file:
                    file.write(text)
            return explain('k.ll', 's.py', *words, folder=folder)

    def test_result(self):
        one = json.loads(self.explained(self.KERNEL, self.SPEC, '--json').stdout)['rejections'][0]
        self.assertEqual(one['obligation']['kind'], 'result')
        entry, (arg,) = one['difference']['entries'][0], (one['smaller'] or one['reported'])['arguments']
        self.assertEqual(entry['transition'], (entry['run'] + arg['value']) % 256)
        self.assertIs(one['transition']['confirmed'], True)

    def test_nothing_is_rejected(self):
        done = self.explained(self.KERNEL, self.SPEC.replace('new, new.n', 'new, state.n'))
        self.assertEqual((done.stdout, done.returncode), ('1 accepted\n', 0))

    def test_the_opening_fails(self):
        spec = self.SPEC.replace('new, new.n', 'new, state.n') + 'def inv_n(kernel):\n    return And(kernel.m == 0, kernel.n != 0)\n'
        done = self.explained(self.KERNEL, spec)
        in_order(self, ['at boot: init fails invariant n', r'inv_n is false at boot \(line 12\)', r'kernel\.n != 0', r'kernel\.n = 0'],
                 done.stdout.splitlines())

    def test_poison_on_the_way(self):
        kernel = ('@n = global i8 0\ndefine void @add(i8 %k) {\n  %v = load i8, ptr @n\n  %w = add nsw i8 %v, %k\n'
                  '  store i8 %w, ptr @n\n  ret void\n}\n')
        spec = self.SPEC.replace('get(', 'add(').replace('new, new.n', 'new')
        one = json.loads(self.explained(kernel, spec, '--json').stdout)['rejections'][0]
        self.assertEqual((one['run']['code'], one['run']['line']), ('U9', 5))
        self.assertIn('add gives poison', ' '.join(told['text'] for step in one['run']['steps'] for told in step['tells']))

    def test_a_function_that_is_called_twice(self):
        kernel = ('@t = global [4 x i8] zeroinitializer\n'
                  'define i8 @read(i64 %i) {\n  %p = getelementptr [4 x i8], ptr @t, i64 0, i64 %i\n  %v = load i8, ptr %p\n  ret i8 %v\n}\n'
                  'define i8 @sum(i64 %k) {\n  %a = call i8 @read(i64 1)\n  %b = call i8 @read(i64 %k)\n  %c = add i8 %a, %b\n  ret i8 %c\n}\n')
        spec = ('T = Index(64, 4)\nclass S:\n    t = Map(T, Bits(8))\ndef equiv(kernel, state):\n    i = Var(T)\n'
                '    return ForAll([i], state.t(i) == kernel.t[i])\ndef sum(state, k):\n    return True, state, state.t(1) + state.t(k)\n')
        one = json.loads(self.explained(kernel, spec, '--json').stdout)['rejections'][0]
        value = (one['smaller'] or one['reported'])['arguments'][0]['value']
        self.assertEqual((one['run']['code'], one['run']['line']), ('U6', 4))
        told = [it['text'] for step in one['run']['steps'] for it in step['tells']]
        self.assertEqual([text for text in told if text.startswith('calls')], ['calls read', 'calls read'])
        signed = value - 2**64 if value >> 63 else value
        self.assertIn(f'the index {signed}, and there are 4 elements', one['run']['detail']['words'])

    def test_bit_fields_and_other_types_of_c(self):
        if not shutil.which('clang-16'):
            self.skipTest('there is no clang-16')
        source = ('#include <stdint.h>\nenum kind { NONE, RAM };\n'
                  'struct e { uint32_t low : 4, high : 28; int16_t level; enum kind kind; union { uint32_t u; uint8_t b; } x; };\n'
                  'struct e t[2];\nvoid set(uint32_t i) { if (i < 2) { t[i].high = 3; t[i].level = -2; t[i].kind = RAM; t[i].x.u = 9; } }\n')
        spec = ('class S:\n    k = Bits(32)\ndef equiv(kernel, state):\n    return state.k == kernel.t[0].f2\n'
                'def set(state, i):\n    return True, state\n')
        with tempfile.TemporaryDirectory() as folder:
            for name, text in (('t.c', source), ('s.py', spec)):
                with open(os.path.join(folder, name), 'w') as file:
                    file.write(text)
            subprocess.run(['clang-16', '-O1', '-g', '-ffreestanding', '-S', '-emit-llvm', 't.c'], cwd=folder, check=True)
            done = explain('t.ll', 's.py', folder=folder)
        for change in ('t[0].high: 0 -> 3', 't[0].level: 0 -> -2', 't[0].kind: NONE (0) -> RAM (1)', 't[0].x.u: 0 -> 9'):
            self.assertIn('    ' + change, done.stdout.splitlines())

    def test_a_refusal_is_told(self):
        done = self.explained(self.KERNEL, self.SPEC.replace('+ k', '+ j'))
        self.assertEqual((done.stdout, done.returncode), ('spec 9: S5\n', 3))
        self.assertIn('s.py:9: error: S5: a name that is not known here', done.stderr)

    def test_words_without_a_form(self):
        for words in ((), ('k.ll',), ('k.ll', 's.py', 'r', 'x'), ('k.ll', 's.py', '--nope')):
            done = explain(*words)
            self.assertEqual((done.stdout, done.returncode), ('', 4))
            self.assertIn('usage: hkv explain KERNEL SPEC [REPORT] [--json] [--html FILE]', done.stderr)

    def test_a_report_of_other_texts_is_not_confirmed(self):
        with tempfile.TemporaryDirectory() as folder:
            report = os.path.join(folder, 'report')
            with open(report, 'w') as file:
                file.write('init holds\nreject sys_close undefined\n  arg 0 = 1\n')
            done = explain('missing_bound.ll', 'missing_bound.py', report)
        self.assertIn('does not confirm', done.stdout)


class Page(unittest.TestCase):
    """The page as a browser has it: Debian's chromium writes the tree that it made of it, and a picture."""

    @classmethod
    def setUpClass(cls):
        if not shutil.which('chromium'):
            raise unittest.SkipTest('there is no chromium')
        cls.folder = tempfile.TemporaryDirectory()
        cls.pages = {}
        for name in ('mbox_full', 'kept_reference', 'mbox_wrap', 'pages_wx'):
            kernel, spec = BUGS[name][:2]
            path = os.path.join(cls.folder.name, name + '.html')
            explain(kernel, spec, '--html', path)
            with open(path) as file:
                cls.pages[name] = (path, file.read(), cls.browse(path, '--dump-dom'))

    @classmethod
    def tearDownClass(cls):
        cls.folder.cleanup()

    @staticmethod
    def browse(path, *how):
        words = ['chromium', '--headless', '--no-sandbox', '--disable-gpu', '--hide-scrollbars', *how, 'file://' + path]
        return subprocess.run(words, capture_output=True, text=True, timeout=180).stdout

    def found(self, name, *forms):
        tree = self.pages[name][2]
        for form in forms:
            self.assertRegex(tree, form)

    def test_it_stands_alone(self):
        for _, text, _ in self.pages.values():
            self.assertNotRegex(text, r'<script|<link|src=|@import|url\(|https?:')

    def test_verdicts_with_times(self):
        self.found('mbox_full', r'sys_door</td><td class="verdict">accept</td><td></td><td class="time">\d+\.\d\d s</td>',
                   r'sys_send</a></td><td class="verdict">reject</td><td>invariant ring</td><td class="time">\d+\.\d\d s</td>')

    def test_source_with_the_failing_line_marked(self):
        self.found('mbox_full', r'<div class="failing"><span class="no">48</span>    boxes\[vm\]\.count \+= 1;</div>')
        self.found('mbox_wrap', r'<div class="failing"><span class="no">47</span>    \*behind\(&amp;boxes\[vm\]\) = word;</div>')
        self.found('kept_reference', r'<div class="failing"><span class="no">167</span>  ret i32 %12</div>',
                   r'<div class="failing"><span class="no">69</span>    new\.file_refs\[file\] = state\.file_refs\(file\) - 1</div>')
        self.found('pages_wx', r'<div class="failing"><span class="no">40</span>    return ForAll')

    def test_memory_before_and_after_with_changes_in_colour(self):
        self.found('mbox_full', r'boxes\[\d\]\.count</td><td class="was">4</td><td class="now">5</td>', r'\.now \{ color: var\(--green\)')

    def test_the_end_state_of_the_transition(self):
        self.found('kept_reference', r'<h3>End state of the transition</h3>',
                   r'<tr class="differs"><td class="code">file_refs\[\d+\]</td><td>[^<]+</td><td class="now">[^<]+</td><td>[^<]+</td>')

    def test_what_is_false(self):
        self.found('mbox_full', r'<strong>inv_ring is false after the run at v = \d \(line 37\):</strong>',
                   r'ULE\(kernel\.boxes\[v\]\.f2, NWORD\)')
        self.found('pages_wx', r'<strong>prop_write_or_execute is false after the transition')

    def test_a_picture(self):
        """docs/explain.png is what HKV_TEST_PICTURE=docs/explain.png saves here."""
        path = os.path.join(self.folder.name, 'page.png')
        self.browse(self.pages['mbox_full'][0], '--window-size=1000,1530', '--force-device-scale-factor=0.75', '--screenshot=' + path)
        with open(path, 'rb') as file:
            content = file.read()
        self.assertTrue(content.startswith(b'\x89PNG') and len(content) > 10000)
        if os.environ.get('HKV_TEST_PICTURE'):
            shutil.copy(path, os.environ['HKV_TEST_PICTURE'])


if __name__ == '__main__':
    unittest.main()
