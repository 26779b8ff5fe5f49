"""from_state.py KERNEL REPORT HANDLER OUT: a kernel that begins in the state in which a handler is rejected.

REPORT is what `hkv verify KERNEL SPEC` printed. OUT gets the kernel with that state as the initial bytes of its globals,
and the words for hkv are printed that run the handler from there, on the arguments of the rejection. It uses the package of
the launcher: the `hkv` on the PATH, or that of the repository that this file stands in.
"""
import os
import shutil
import sys


def top():
    """The folder of the launcher's package."""
    beside = os.path.dirname(os.path.dirname(os.path.dirname(os.path.dirname(os.path.realpath(__file__)))))
    found = shutil.which('hkv')
    places = [beside] + ([os.path.dirname(os.path.realpath(found))] if found else [])
    return next((place for place in places if os.path.isdir(os.path.join(place, 'launcher', 'explain'))), None)


def main():
    if len(sys.argv) != 5:
        print('usage: from_state.py KERNEL REPORT HANDLER OUT', file=sys.stderr)
        sys.exit(4)
    if top() is None:
        sys.exit('from_state.py: there is no hkv on the PATH')
    sys.path.insert(0, top())
    from launcher import kernel_text
    from launcher.explain import memory, report
    path, report_path, handler, out = sys.argv[1:]
    kernel = kernel_text.load(path)
    with open(report_path) as file:
        rejected = next((one for one in report.read(file.read()).rejections if one.handler == handler), None)
    if rejected is None or rejected.about[0] in ('property', 'step'):
        sys.exit(f'from_state.py: {report_path} has no memory in which {handler} is rejected')
    with open(out, 'w') as file:
        file.write(memory.begins_in(kernel, memory.Memory(kernel, rejected.case.rows)))
    print('run', out, handler, *rejected.case.args)


main()
