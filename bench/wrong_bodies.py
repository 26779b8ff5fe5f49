#!/usr/bin/env python3
"""Tries the wrong bodies that the gate does not try, those of `wrong-bodies/`: each must be refused.

Usage: bench/wrong_bodies.py NAME..

The edits of each crate NAME are put beside its own in a copy of the repository, and `rt must-fail NAME` tries them there. It proves the
libraries below the crate first, and the crate itself once, before the edits: minutes for a lower crate, an hour for one at the top.
"""
import os
import shutil
import subprocess
import sys
import tempfile


def main(*names):
    root = os.path.dirname(os.path.dirname(os.path.realpath(__file__)))
    if not names:
        sys.exit(__doc__)
    with tempfile.TemporaryDirectory(prefix="wrong-bodies-") as room:
        for name in ("crates.txt", "HANDLES"):
            shutil.copy(f"{root}/{name}", room)
        shutil.copytree(f"{root}/crates", f"{room}/crates")
        for name in names:
            shutil.copytree(f"{root}/wrong-bodies/{name}", f"{room}/crates/{name}/must-fail", dirs_exist_ok=True)
        return subprocess.call(["rt", "must-fail", *names], cwd=room)


if __name__ == "__main__":
    sys.exit(main(*sys.argv[1:]))
