"""sized.py [NAME=NUMBER ..]: writes kernel.py with other sizes than it has, as NFRAME=16. The names are those of sizes.h."""
import os
import re
import sys

SORTS = {'PidT': 'NPROC', 'FdT': 'NFD', 'FileT': 'NFILE', 'PipeT': 'NPIPE', 'PipeWordT': 'NPIPEWORD', 'MiddleT': 'NMIDDLE',
         'LeafT': 'NLEAF', 'FrameT': 'NFRAME', 'RootEntryT': 'ROOTE', 'MiddleEntryT': 'MIDDLEE', 'LeafEntryT': 'LEAFE',
         'WordT': 'NWORD', 'PortT': 'NPORT', 'VectorT': 'NVECTOR', 'SourceT': 'NSOURCE', 'DeviceT': 'NDEVICE'}
ROOTS = 0x80100  # the number of the first root's page
RESTS = {'RootRestT': 'ROOTE', 'MiddleRestT': 'MIDDLEE', 'LeafRestT': 'LEAFE'}  # of 512 entries


def main():
    with open(os.path.join(os.path.dirname(os.path.abspath(__file__)), 'kernel.py')) as file:
        text = file.read()
    sizes = {name: int(re.search(rf'(?m)^{name} = (\d+)$', text)[1]) for name in SORTS.values()}
    for word in sys.argv[1:]:
        name, number = word.split('=')
        if name not in sizes:
            sys.exit(f'{name} is no size')
        sizes[name] = int(number)
    middles = ROOTS + sizes['NPROC']
    leaves = middles + sizes['NMIDDLE']
    frames = leaves + sizes['NLEAF']
    for name, number in {**sizes, 'INIT': sizes['NPROC'] - 1}.items():
        text = re.sub(rf'(?m)^{name} = \d+$', f'{name} = {number}', text)
    for name, number in {'MIDDLES': middles, 'LEAVES': leaves, 'FRAMES': frames}.items():
        text = re.sub(rf'(?m)^{name} = 0x\w+$', f'{name} = {number:#x}', text)
    for sort, number in {**{s: sizes[n] for s, n in SORTS.items()}, **{s: 512 - sizes[n] for s, n in RESTS.items()}}.items():
        text = re.sub(rf'(?m)^{sort} = Index\(32, \d+\)', f'{sort} = Index(32, {number})', text)
    sys.stdout.write(text)


main()
