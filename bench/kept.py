#!/usr/bin/env python3
"""Gives this checkout the libraries that a gate on this machine has proved so far, so that a crate can be checked at once while the gate
goes on with others: for work, and never for the gate, which takes what it kept by itself.

Usage: bench/kept.py NAME..

For each NAME, what the gate kept of the crates below it is put into `crates/*/out` with the stamps that the kit asks for, by the very sums
by which the gate would take it; what is not kept yet is named. Where nothing is missing, the arguments of NAME's check are written,
one a line, to `crates/NAME/out/words`. In the folder of the crate:

    mapfile -t WORDS < out/words; rattle check "${WORDS[@]}" --incremental out/incremental --jobs 2 [--only PATH]
"""
import importlib.machinery
import importlib.util
import os
import shutil
import sys

os.environ["RT_ALLOW_C"] = "1"
RT = os.path.realpath(shutil.which("rt"))
sys.path.insert(0, os.path.dirname(RT))
sys.dont_write_bytecode = True


def kit():
    """The kit's command as a module: its reading of crates.txt, and what it keeps."""
    loader = importlib.machinery.SourceFileLoader("rt_command", RT)
    spec = importlib.util.spec_from_loader("rt_command", loader)
    made = importlib.util.module_from_spec(spec)
    loader.exec_module(made)
    return made


def take(rt, kept, crate, taken):
    """Whether the library is there: as it stands, or as the gate kept it, over those below it."""
    if crate.name not in taken:
        below = all([take(rt, kept, each, taken) for each in crate.below()])
        if below and not crate.is_built():
            shutil.rmtree(f"{crate.folder}/out/rlib", ignore_errors=True)
        taken[crate.name] = below and (crate.is_built() or kept.give(crate, False, kept.key(crate)))
        if taken[crate.name]:
            kept.is_built(crate)
            with open(f"{crate.folder}/out/rlib/stamp", "w", encoding="utf-8") as file:
                file.write(crate.stamp())
    return taken[crate.name]


def main(*names):
    here = os.path.dirname(os.path.dirname(os.path.realpath(__file__)))
    os.chdir(here)
    rt = kit()
    crates = rt.rtlib.crates_below(f"{here}/crates") or rt.rtlib.crates_below(here)
    own = {crate.name: crate for crate in crates}
    kept, taken = rt.Kept(crates), {}
    # (it looks, and takes nothing away from the gate)
    kept.drop = lambda path: None
    for name in names:
        crate = own[name]
        missing = [each.name for each in crate.below() if not take(rt, kept, each, taken)]
        print(f"{name}: missing {' '.join(missing) or 'nothing'}")
        if not missing:
            crate.out = open(os.devnull, "w")
            # (a test crate without a program is all tests)
            is_program = os.path.exists(f"{crate.folder}/src/main.rt")
            words = crate.words(["--jobs", "1"], tests=name.endswith("_tests") and not is_program)
            at = words.index("--jobs")
            os.makedirs(f"{crate.folder}/out", exist_ok=True)
            with open(f"{crate.folder}/out/words", "w", encoding="utf-8") as file:
                file.write("\n".join(words[:at] + words[at + 2 :]))


if len(sys.argv) < 2:
    sys.exit(__doc__)
main(*sys.argv[1:])
