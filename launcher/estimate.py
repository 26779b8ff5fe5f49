"""What proving takes, by the seconds of each crate in crates.seconds, which one run measured (bench/seconds.py writes the file)."""
import os

from launcher.places import TOP

FILE = os.path.join(TOP, "crates.seconds")


def measured():
    """The facts of the file's head (as `minutes`, `gigabytes`, `processors`), and each crate's seconds."""
    facts, seconds = {}, {}
    try:
        with open(FILE, encoding="utf-8") as file:
            for line in file:
                name, colon, value = line.partition(":")
                if not colon:
                    continue
                if name.startswith("# "):
                    facts[name[2:].strip()] = value.strip()
                elif not name.startswith("#"):
                    seconds[name.strip()] = float(value)
    except (OSError, ValueError):
        pass
    return facts, seconds


def cost():
    """How long proving takes, and how much disk, in words: as it was measured, or roughly where it was not."""
    facts, _ = measured()
    time, room = "hours", "some ten GB of disk"
    if {"minutes", "processors"} <= facts.keys():
        time = f"{facts['minutes']} min on {facts['processors']} processors when it was measured"
    if "gigabytes" in facts:
        room = f"{facts['gigabytes']} GB of disk"
    return f"it takes {time}, and {room}"
