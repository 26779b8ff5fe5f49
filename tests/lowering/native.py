"""Texts made by clang, lowered by `hkv lower`, and run: natively by the driver of this folder, and by `hkv run`.

HKV names the program (by default ./hkv of this checkout), CLANGS the versions, LEVELS the levels.
"""
import os
import re
import shutil
import subprocess

HERE = os.path.dirname(os.path.abspath(__file__))
TOP = os.path.dirname(os.path.dirname(HERE))
HKV = os.environ.get("HKV", os.path.join(TOP, "hkv"))
LEVELS = os.environ.get("LEVELS", "-O0 -O1 -O2").split()


def versions():
    named = os.environ.get("CLANGS", "15 16 19").split()
    return [v for v in named if shutil.which(f"clang-{v}") and shutil.which(f"llvm-config-{v}")]


def run(words, timeout=600, **more):
    return subprocess.run(words, capture_output=True, text=True, timeout=timeout, **more)


def must(words, **more):
    done = run(words, **more)
    assert done.returncode == 0, f"{' '.join(words)}: status {done.returncode}\n{done.stderr[-3000:]}"
    return done


def compiled(version, level, source, text, *flags):
    must([f"clang-{version}", level, "-w", "-S", "-emit-llvm", "-o", text, source, *flags])


def lowered(version, text, out, *words):
    """The report of `hkv lower`, and its status."""
    done = run([HKV, "lower", text, "-o", out, "--llvm", version, *words])
    assert done.returncode in (0, 3), f"{done.returncode}: {done.stderr[-3000:]}"
    return done.stderr, done.returncode


def program(version, folder, name, parts, handlers, objects):
    """The driver linked with texts or C files; the name of the program."""
    out = os.path.join(folder, name)
    lists = ["-DHANDLERS=" + " ".join(f"X({h})" for h in handlers), "-DOBJECTS=" + " ".join(f"X({o}, {n})" for o, n in objects)]
    must([f"clang-{version}", "-w", "-O1", "-o", out, *lists, os.path.join(HERE, "driver.c"), *parts])
    return out


def answers(program_path, calls):
    """A line for each call (function, a, b, c, seed)."""
    done = run([program_path], input="".join(" ".join(map(str, call)) + "\n" for call in calls))
    assert done.returncode == 0, f"{program_path}: status {done.returncode}"
    return done.stdout.splitlines()


def memory_sum(rows, objects):
    """The driver's sum over the memory that the rows of `hkv run` show."""
    memory = {name: bytearray(size) for name, size in objects}
    for row in rows:
        name, offset, data = re.fullmatch(r"  @(\w+)\+(\d+): ([0-9a-f]*)", row).groups()
        if name in memory:
            memory[name][int(offset) : int(offset) + len(data) // 2] = bytes.fromhex(data)
    all_bytes = 0xCBF29CE484222325
    for name, _ in objects:
        for byte in memory[name]:
            all_bytes = (all_bytes ^ byte) * 0x100000001B3 % (1 << 64)
    return f"{all_bytes:016x}"


def hkv_answer(text, handler, numbers, objects):
    """What `hkv run` says, in the driver's words; a `stuck` or a refusal as it is."""
    lines = run([HKV, "run", text, handler, *map(str, numbers)]).stdout.splitlines()
    if lines and lines[0].startswith("returns "):
        return f"{lines[0][8:]} {memory_sum(lines[1:], objects)}"
    return lines[0] if lines else "nothing"


def refusal(text):
    """None where the text is read, else the line of its refusal."""
    said = run([HKV, "run", text, "no function"]).stdout.strip()
    return None if said.startswith("call ") else said
