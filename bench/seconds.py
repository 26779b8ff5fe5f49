#!/usr/bin/env python3
"""Writes crates.seconds, by which `./hkv prove` says how long is left, from what one run of proofs left in a checkout.

Usage: bench/seconds.py [CHECKOUT] > crates.seconds     (by default this one)

`rt` makes a crate's folder out/rlib when it begins with the crate, and writes there last when that is proved: the time between is the
crate's. A crate that was taken from an earlier run took no time; it is left out with those that are not proved yet. The head says what was
measured: the processors of the machine that this is called on, which should be the one that proved, and, where no crate is missing, the
minutes from the first beginning to the last end, with all else that the run did. The room is told of a checkout where `./hkv prove`
or `rt lib` proved; what `rt ci` leaves is less.
"""
import os
import subprocess
import sys
import time

TOP = os.path.dirname(os.path.dirname(os.path.realpath(__file__)))
sys.path.insert(0, TOP)

from launcher import kit, prove, sources

LEAST = 2
STILL = 60


def times_of(path):
    """When a file or folder was made, and when it was last written."""
    made, written = subprocess.run(["stat", "-c", "%.W %.Y", path], capture_output=True, text=True, check=True).stdout.split()
    return float(made), float(written)


def measured(checkout):
    """Of each crate of the program that was proved there: when that began and ended."""
    found = {}
    for name in sources.crates():
        out = os.path.join(checkout, "crates", name, "out")
        made = os.path.join(out, "hkv" if name == "hkv" else f"rlib/{name}.rlib")
        if os.path.exists(made):
            folder = out if name == "hkv" else os.path.join(out, "rlib")
            began, ended = times_of(folder)[0], times_of(made if name == "hkv" else folder)[1]
            if ended - began >= LEAST and time.time() - ended > STILL:
                found[name] = (began, ended)
    return found


def main(words):
    checkout = os.path.realpath(words[0]) if words else TOP
    found = measured(checkout)
    names = list(sources.crates())
    if not found:
        sys.exit("nothing was proved there")
    missing = [name for name in names if name not in found]
    size = sum(prove.size_of(os.path.join(checkout, "crates", name, "out")) for name in names)
    minutes = (max(end for _, end in found.values()) - min(began for began, _ in found.values())) / 60
    print("# Seconds of each crate's proof, by which ./hkv prove says how long is left; written by bench/seconds.py")
    print("# from the folders of one run, in which crates were proved side by side. Minutes: from the first beginning to the last end.")
    print(f"# kit: {kit.line()}")
    print(f"# crates: {len(found)} of {len(names)}{', without ' + ' '.join(missing) if missing else ''}")
    print(f"# processors: {os.cpu_count()}")
    if not missing:
        print(f"# minutes: {minutes:.0f}")
    if not missing and all(os.path.isdir(os.path.join(checkout, "crates", name, "out", "incremental")) for name in names):
        print(f"# gigabytes: {size / 1e9:.1f}")
    for name, (began, ended) in found.items():
        print(f"{name}: {ended - began:.0f}")


if __name__ == "__main__":
    main(sys.argv[1:])
