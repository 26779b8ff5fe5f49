#!/bin/sh
# Measures the reading of a large specification: a text of 1 MiB with 256 transitions and over 18,000 lines, of which each
# defines a local name. Prints the processor time and the peak memory of `verify`, in which the text is read, elaborated
# and decided: no name has a part in what the handlers do, so deciding is the smaller part.
set -eu
root=$(cd "$(dirname "$0")/.." && pwd)
work=$(mktemp -d)
trap 'rm -rf "$work"' EXIT
program=$(HKV_PROVED=1 "$root/hkv" --program)
python3 - "$program" "$work" <<'RUN'
import resource, subprocess, sys
program, work = sys.argv[1:]
handlers, size = 256, 1 << 20
with open(f'{work}/kernel.ll', 'w') as file:
    file.write('@a = global i8 0\n')
    file.writelines(f'define void @h{i}() {{\n  ret void\n}}\n' for i in range(handlers))
text = 'class S:\n    a = Bits(8)\ndef equiv(kernel, state):\n    return state.a == kernel.a\n'
for i in range(handlers):
    part, line = f'def h{i}(state):\n    new = state.copy()\n', 0
    while len(part) < size // handlers - 60:
        part += f'    v{line} = If(ULT(state.a, {line % 200}), state.a + {line % 250}, state.a ^ {line % 256})\n'
        line += 1
    text += part + '    return True, state\n'
with open(f'{work}/spec.py', 'w') as file:
    file.write(text)
shown = subprocess.run([program, 'verify', f'{work}/kernel.ll', f'{work}/spec.py'], stdout=subprocess.PIPE, text=True).stdout
used = resource.getrusage(resource.RUSAGE_CHILDREN)
accepted = sum(line.startswith('accept ') for line in shown.splitlines())
print(f'{len(text)} bytes, {text.count(chr(10))} lines, {accepted} of {handlers} accepted: {used.ru_utime + used.ru_stime:.2f} s, {used.ru_maxrss // 1024} MB')
RUN
