#!/usr/bin/env python3
"""Measures deciding the kernel of examples/kernel: kernel.py [PROGRAM] [HANDLER ..]

What comes in: kernel.c and kernel.py of that folder. What goes out: for each handler, decided alone, a row with the verdict, the
processor time (user and system, the start of the program counted) and the greatest resident memory at each size.
PROGRAM is a program of hkv (the repository's, which is built first, where no other is named), CLANG the compiler (clang-16).
AT names the sizes, as AT="shipped 64"; without it all are tried. LIMIT is the processor time in seconds after which a handler is
ended and its row says `over` (60).
"""
import os, resource, subprocess, sys, tempfile

root = os.path.dirname(os.path.dirname(os.path.abspath(__file__)))
folder = f'{root}/examples/kernel'

# Pages are roots, middle tables, leaves and frames together, each of 512 words.
SIZES = {
    'shipped': '',
    '8 processes, 64 pages': 'NPROC=8 NFD=8 NFILE=16 NPIPE=8 NMIDDLE=8 NLEAF=16 LEAFE=16 NFRAME=32',
    '64 processes, 512 pages': 'NPROC=64 NFD=16 NFILE=128 NPIPE=64 NMIDDLE=64 NLEAF=128 LEAFE=32 NFRAME=256',
    '256 processes, 900 pages': 'NPROC=256 NFD=16 NFILE=256 NPIPE=64 NMIDDLE=256 NLEAF=256 LEAFE=16 NFRAME=132',
}


def used(command, seconds):
    """Output, seconds of processor time, and the greatest resident memory in MiB."""
    with tempfile.TemporaryFile('w+') as out:
        child = subprocess.Popen(command, stdout=out, stderr=subprocess.STDOUT,
                                 preexec_fn=lambda: resource.setrlimit(resource.RLIMIT_CPU, (seconds, seconds)))
        _, _, usage = os.wait4(child.pid, 0)
        out.seek(0)
        return out.read(), usage.ru_utime + usage.ru_stime, usage.ru_maxrss / 1024


def written(command):
    return subprocess.run(command, check=True, stdout=subprocess.PIPE, text=True).stdout


def verdict(text):
    lines = [line for line in text.splitlines() if line.split(' ')[0] in ('accept', 'reject', 'unknown', 'memory')]
    return lines[0] if lines else 'over'


def main():
    program, wanted = sys.argv[1:2], sys.argv[2:]
    if not program:
        subprocess.run([f'{root}/hkv'], stdout=subprocess.DEVNULL, stderr=subprocess.DEVNULL)
        program = [f'{root}/crates/hkv/out/hkv']
    with open(f'{folder}/calls.h') as file:
        handlers = wanted or [line.split('(')[1].split(')')[0] for line in file if line.startswith('    CALL(')]
    names = [name for name in SIZES if any(word in name for word in os.environ.get('AT', '').split())] or list(SIZES)
    limit = int(os.environ.get('LIMIT', '60'))
    with tempfile.TemporaryDirectory() as work:
        for name in names:
            sizes, spec, total = SIZES[name].split(), f'{work}/kernel.py', 0.0
            with open(spec, 'w') as file:
                file.write(written(['python3', f'{folder}/sized.py', *sizes]))
            env = {**os.environ, 'SIZES': ' '.join(f'-D{size}' for size in sizes)}
            subprocess.run(['sh', f'{folder}/build.sh', 'text', f'{work}/kernel.ll'], check=True, env=env)
            for handler in handlers:
                with open(f'{work}/one.py', 'w') as file:
                    file.write(written(['python3', f'{root}/examples/only.py', spec, handler]))
                output, seconds, memory = used(program + ['verify', f'{work}/kernel.ll', f'{work}/one.py'], limit)
                total += seconds
                print(f'{name}: {handler}: {verdict(output)}: {seconds:.2f} s, {memory:.0f} MiB', flush=True)
            print(f'{name}: all {len(handlers)} handlers: {total:.1f} s', flush=True)


main()
