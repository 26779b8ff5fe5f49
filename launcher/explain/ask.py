"""What explain asks of the program itself: runs of a kernel's text, and whether a case violates an obligation.

Each answer is the program's own, over texts that are written into a folder of this call. Nothing here guesses.
"""
import os
import subprocess
import tempfile

from launcher import program
from launcher.explain import report


class Ask:
    """A folder for texts, and the calls. seconds bounds one call; a call that takes longer has no answer."""

    def __init__(self, spec, seconds=60):
        self.spec, self.seconds, self.calls = spec, seconds, 0
        self.folder = tempfile.TemporaryDirectory(prefix='hkv-explain-')

    def __enter__(self):
        return self

    def __exit__(self, *_):
        self.folder.cleanup()

    def write(self, name, text):
        path = os.path.join(self.folder.name, name)
        with open(path, 'w', encoding='utf-8', errors='surrogateescape') as file:
            file.write(text)
        return path

    def call(self, *words):
        """The standard output of a call; empty where it has no answer in time."""
        self.calls += 1
        try:
            done = subprocess.run([*program.argv(), *words], stdin=subprocess.DEVNULL, stdout=subprocess.PIPE,
                                  timeout=self.seconds)
        except subprocess.TimeoutExpired:
            return ''
        return done.stdout.decode(errors='surrogateescape')

    def run(self, kernel_text, function, args):
        """The end of the run of a function from a text's initial memory, as report.read_run gives it."""
        path = self.write('run.ll', kernel_text)
        return report.read_run(self.call('run', path, function, *map(str, args)))

    def violates(self, kernel_path, spec_path, handler, obligation, block, handlers):
        """Whether a case violates an obligation of a handler, exactly: true, false, or none where it was not answered."""
        lines = ['hkv certificate 1']
        for name in handlers:
            lines += [f'reject {name} {obligation}', *block] if name == handler else [f'memory {name}']
        path = self.write('case.cert', '\n'.join([*lines, 'end']) + '\n')
        shown = self.call('replay', kernel_path, spec_path, path)
        return {f'confirmed {handler} {obligation}': True,
                f'not confirmed {handler} {obligation}': False}.get(shown.strip())

    def opening(self, kernel_text, spec_text):
        """The first line of a verification of texts without a handler: `init holds` or what fails."""
        kernel, spec = self.write('opening.ll', kernel_text), self.write('opening.py', spec_text)
        return self.call('verify', kernel, spec).split('\n')[0]
