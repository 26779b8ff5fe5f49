"""The background's own program, `optimise.py NAME`: what the compiler makes of the module kept under this name at -O2 takes the place
of the first build, whole or not at all. Calls that run then keep the file that they have."""
import contextlib
import os
import sys

sys.path.insert(0, os.path.dirname(os.path.dirname(os.path.realpath(__file__))))

from launcher import build, locks, work
from launcher.places import kept
from launcher.say import Fault, say


def main(name):
    os.nice(10)
    home = kept("quick", name)
    module = os.path.join(home, "module.bc")
    with locks.held("optimise", wait=False) as is_mine:
        if not is_mine or not os.path.exists(module):
            return 0
        work.sweep("optimise-")
        with work.folder("optimise-") as room, work.told(build.STEPS, ("optimise",)) as steps:
            try:
                made = build.compiled(module, room, "-O2", steps.step("optimise"))
                os.replace(made, os.path.join(home, "hkv"))
            except (Fault, build.Unlike, OSError) as why:
                say(f"the first build stays: {why}")
            with contextlib.suppress(FileNotFoundError):
                os.remove(module)
    return 0


if __name__ == "__main__":
    sys.exit(main(sys.argv[1]))
