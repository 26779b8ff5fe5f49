"""Builds the quick program: the program of these sources without their proofs, with run-time tests in.

What comes in: the sources' name. What goes out: the words that run the program, and under .hkv/quick/NAME the program itself. The
sources come as a module of LLVM bitcode (module.py), of which the kit's clang and linker make a program: at -O0 for the first answer,
and at -O2 in the background (optimise.py), which takes the first one's place.
"""
import errno
import os
import stat
import sys
import time

from launcher import kit, locks, work
from launcher.module import MEGABYTES, Unlike, caught
from launcher.places import PROGRAM_CRATE, TOP, kept
from launcher.say import Fault, say

# The kit's own words for compiling a module (those of `rt try`, without its sanitizer).
COMPILE = (
    "-march=x86-64 -mllvm -no-trap-after-noreturn -ffunction-sections -fdata-sections -mllvm -trap-unreachable "
    "-mllvm -no-x86-call-frame-opt -mllvm -disable-machine-licm -mllvm -disable-postra-machine-licm "
    "-mllvm -sink-common-insts=false --no-default-config -no-canonical-prefixes -fintegrated-cc1 -fno-crash-diagnostics "
    "-Werror -c -x ir -fPIE"
).split()
TARGET = "x86_64-unknown-linux-gnu"
KEEP = 2
# After so long the background has begun, or never does.
SECONDS_TO_BEGIN = 10
# Python as it runs this, without what a machine adds to it.
PYTHON = (sys.executable, "-IS")
STEPS = {"read": "reading the sources", "compile": "compiling", "optimise": "compiling once more, optimised"}


def quick(now):
    """The words that run the quick program of these sources, which is built where it is not there."""
    try:
        return found_or_built(now)
    except OSError as error:
        if error.errno in (errno.ENOSPC, errno.EDQUOT):
            raise work.full(MEGABYTES) from None
        raise


def found_or_built(now):
    """The same; a full disk comes as the system tells it."""
    home = kept("quick", now.name)
    program = os.path.join(home, "hkv")
    if not os.access(program, os.X_OK):
        why = unlike_before(home)
        if why is None:
            with locks.held("build", "another call is building the program; waiting for it"):
                if not os.access(program, os.X_OK):
                    why = built(now, home)
        if why is not None:
            say(f"the program runs by 'rt try', which takes minutes for each call, since {why}")
            return (*PYTHON, os.path.join(TOP, "launcher", "slow.py"))
    optimise_behind(now.name)
    return (program,)


def unlike_before(home):
    """Why a quick program cannot be made with this kit, where that is known before any work; else None."""
    try:
        parts()
        with open(os.path.join(home, "unlike"), encoding="utf-8") as file:
            mark, _, why = file.read().partition("\n")
        return why if mark == kit.mark() else None
    except Unlike as unlike:
        return str(unlike)
    except OSError:
        return None


def parts():
    """The kit's files that make a program of a module."""
    home = kit.folder()
    if home is None:
        if kit.command() is None:
            raise Fault(kit.NO_RT)
        raise Unlike("the kit's folder was not found from its rt")
    names = {
        "toolchain": "toolchain",
        "clang": "toolchain/bin/clang",
        "link": "bin/rattle-link",
        "os": "c/libos_c.a",
        "libc": "c/liblibc_c.a",
    }
    found = {key: os.path.join(home, name) for key, name in names.items()}
    for key, path in found.items():
        if not os.path.exists(path):
            raise Unlike(f"the kit has no {names[key]}")
    return found


def built(now, home):
    """Builds the program into its place; returns why not, where the kit's inside is not as expected."""
    say("building the program of these sources without their proofs, once; it is kept in .hkv")
    work.sweep("build-")
    work.room(MEGABYTES)
    try:
        with work.folder("build-") as room, work.told(STEPS, ("read", "compile")) as steps:
            module = caught(room, parts()["clang"], steps.step("read"))
            made = compiled(module, room, "-O0", steps.step("compile"))
            os.makedirs(home, exist_ok=True)
            os.replace(module, os.path.join(home, "module.bc"))
            os.replace(made, os.path.join(home, "hkv"))
    except Unlike as unlike:
        os.makedirs(home, exist_ok=True)
        with open(os.path.join(home, "unlike"), "w", encoding="utf-8") as file:
            file.write(f"{kit.mark()}\n{unlike}")
        return str(unlike)
    work.drop_old(kept("quick"), now.name, KEEP)
    return None


def compiled(module, room, level, step):
    """The program that the kit's compiler and linker make of a module, tried once."""
    found = parts()
    made, program = os.path.join(room, "hkv.o"), os.path.join(room, "hkv")
    words = [found["clang"], f"--target={TARGET}", f"--sysroot={found['toolchain']}", *COMPILE, level, module, "-o", made]
    finish(words, step)
    words = [found["link"], "--target", TARGET, "--toolchain", found["toolchain"], "-o", program, made, found["os"], found["libc"]]
    finish(words, step)
    os.chmod(program, os.stat(program).st_mode | stat.S_IXUSR | stat.S_IXGRP | stat.S_IXOTH)
    with open(os.path.join(PROGRAM_CRATE, "stdout"), "rb") as file:
        wanted = file.read()
    tried = work.Child([program, "verify", "tick.ll", "tick.py"], cwd=os.path.join(PROGRAM_CRATE, "data"))
    with tried:
        while tried.runs():
            step.tick()
    if tried.status != 0 or tried.said() != wanted:
        raise Unlike("the program that its compiler made does not answer as it should")
    return program


def finish(words, step):
    """Runs a tool of the kit to its end."""
    child = work.Child(words)
    with child:
        while child.runs():
            step.tick()
    if child.status:
        raise child.fault(f"{os.path.basename(words[0])} failed", MEGABYTES)


def optimise_behind(name):
    """Starts the optimised build in the background, where its module still waits and nobody is at it."""
    if os.path.exists(kept("quick", name, "module.bc")) and not locks.is_held("optimise"):
        work.detach([*PYTHON, os.path.join(TOP, "launcher", "optimise.py"), name], kept("optimise.log"))


def wait_for_optimised(home):
    """Waits while the optimised program is under way, which is several times as fast as the first build, and says so."""
    line, began = work.Line(work.SECONDS_BETWEEN_LINES), time.monotonic()
    last = work.read_times().get("optimise")
    took = f", {last:.0f} s last time" if last else ""
    while os.path.exists(os.path.join(home, "module.bc")):
        if time.monotonic() - began > SECONDS_TO_BEGIN and not locks.is_held("optimise"):
            break
        line.show(lambda: f"waiting for the optimised program: {time.monotonic() - began:.0f} s{took}")
        time.sleep(0.2)
    line.clear()
