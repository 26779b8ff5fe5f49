"""guide.py [--write]: runs the command lines of docs/GUIDE.md, and compares what they show with what the guide says.

They stand behind `$ ` in the blocks marked `console`, and run in the order of the text, in a copy of examples/, with the
launcher on the path, which runs the program that the environment's HKV names, if it names one. With --write the guide gets what they
show, but for the line that the launcher puts at each call of the quick program. It needs clang-16.
"""
import os
import re
import shutil
import subprocess
import sys
import tempfile

ROOT = os.path.dirname(os.path.dirname(os.path.abspath(__file__)))
GUIDE = os.path.join(ROOT, 'docs', 'GUIDE.md')
LAUNCHER = os.path.join(ROOT, 'hkv')
STAND_IN = f"#!/bin/sh\nexec python3 '{os.path.join(ROOT, 'tests', 'launched.py')}' \"$@\"\n"
QUICK = 'hkv: this is the quick program'
BLOCK = re.compile(r'^```console\n(.*?)^```\n', re.M | re.S)


def shown(command, folder, path):
    """What a command line shows in a folder, with the programs of another folder first."""
    where = {**os.environ, 'PATH': path + os.pathsep + os.environ['PATH']}
    ran = subprocess.run(['bash', '-c', command], cwd=folder, env=where, stdin=subprocess.DEVNULL,
                         stdout=subprocess.PIPE, stderr=subprocess.STDOUT, text=True)
    return ''.join(line for line in ran.stdout.splitlines(True) if not line.startswith((QUICK, 'hkv: building the pass')))


def put_launcher(place):
    """Puts the command hkv at a place: the launcher, or one that runs the program of the environment's HKV."""
    if not os.environ.get('HKV'):
        os.symlink(LAUNCHER, place)
        return
    with open(place, 'w') as file:
        file.write(STAND_IN)
    os.chmod(place, 0o755)


def main():
    with open(GUIDE) as file:
        text = file.read()
    with tempfile.TemporaryDirectory() as work:
        folder, path = os.path.join(work, 'try'), os.path.join(work, 'path')
        shutil.copytree(os.path.join(ROOT, 'examples'), folder)
        os.mkdir(path)
        put_launcher(os.path.join(path, 'hkv'))

        def run(block):
            commands = [line[2:] for line in block[1].splitlines() if line.startswith('$ ')]
            lines = ''.join(f'$ {command}\n{shown(command, folder, path)}' for command in commands)
            return f'```console\n{lines}```\n'

        found = BLOCK.sub(run, text)
    if sys.argv[1:] == ['--write']:
        with open(GUIDE, 'w') as file:
            file.write(found)
    elif found != text:
        said, are = text.splitlines(), found.splitlines()
        at = next((k for k, (a, b) in enumerate(zip(said, are)) if a != b), min(len(said), len(are)))
        sys.exit(f'docs/GUIDE.md, line {at + 1}: {said[at:at + 1]} is shown as {are[at:at + 1]}')
    else:
        print(f'docs/GUIDE.md: {len(BLOCK.findall(text))} blocks show what their command lines show')


main()
