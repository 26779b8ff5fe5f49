#!/usr/bin/env python3
"""Reads what clang writes of generated C before and after `hkv lower`, and runs what is read: csmith makes programs without loops and
pointers, each of which computes one number over all its variables. `hkv run` over the lowered text, native code of the first text and
native code of the lowered text have to give that number.

Usage: bench/csmith.py [PROGRAMS] [FIRST]   (by default 40 programs from seed 1 on)
HKV names the program (by default ./hkv of this checkout), CLANGS the versions (those of 15, 16, 19 that are installed), LEVELS the
levels (-O0 -O1 -O2), KEEP a folder that keeps the texts.
"""
import collections
import concurrent.futures
import os
import re
import shutil
import subprocess
import sys
import tempfile

ROOT = os.path.dirname(os.path.dirname(os.path.abspath(__file__)))
CSMITH = ("--no-arrays --no-pointers --no-volatiles --no-volatile-pointers --no-jumps --no-argc --concise --max-funcs 4"
          " --max-block-size 3 --max-block-depth 3 --max-expr-complexity 6").split()
# Thresholds of a number up to 100: assignments, `if` and `return`, and none of the others.
CHANCES = ("[statement_prob,statement_assign_prob=100,statement_block_prob=0,statement_for_prob=0,statement_ifelse_prob=35,"
           "statement_return_prob=40,statement_continue_prob=0,statement_break_prob=0,statement_goto_prob=0,statement_arrayop_prob=0]\n\n")

MAIN = r"""
#include <stdio.h>
unsigned entry(void);
int main(void) { printf("%u\n", entry()); return 0; }
"""

HEADER_FRONT = r"""
#include <stdint.h>
#include <limits.h>
static unsigned long long mixed;
static void mix(unsigned long long value) { mixed = (mixed ^ value) * 0x100000001b3ull; }
#define transparent_crc(value, name, flag) mix((unsigned long long)(value))
#define platform_main_begin()
#define crc32_gentab()
#define crc32_context 0u
#define platform_main_end(a, b) return (int)(mixed ^ mixed >> 32)
#define main entry
"""


def signed_math(bits):
    t, least, most = f"int{bits}_t", f"INT{bits}_MIN", f"INT{bits}_MAX"
    whole = bits >= 32
    add = f"(a > 0 && b > 0 && a > {most} - b) || (a < 0 && b < 0 && a < {least} - b)" if whole else "0"
    sub = f"(a < 0 && b > 0 && a < {least} + b) || (a > 0 && b < 0 && a > {most} + b)" if whole else "0"
    mul = f"""(a > 0 && b > 0 && a > {most} / b) || (a > 0 && b <= 0 && b < {least} / a) || (a <= 0 && b > 0 && a < {least} / b)
      || (a <= 0 && b <= 0 && a != 0 && b < {most} / a)""" if whole else "0"
    minus = f"a == {least}" if whole else "0"
    limit = max(bits, 32)
    text = f"static {t} safe_unary_minus_func_{t}_s({t} a) {{ return {minus} ? a : ({t})-a; }}\n"
    for name, op, test in [("add", "+", add), ("sub", "-", sub), ("mul", "*", mul),
                           ("mod", "%", f"b == 0 || (a == {least} && b == -1)"), ("div", "/", f"b == 0 || (a == {least} && b == -1)")]:
        text += f"static {t} safe_{name}_func_{t}_s_s({t} a, {t} b) {{ return ({test}) ? a : ({t})(a {op} b); }}\n"
    for sign, right in [("s", "int"), ("u", "unsigned int")]:
        negative = "b < 0 || " if sign == "s" else ""
        text += (f"static {t} safe_lshift_func_{t}_s_{sign}({t} a, {right} b)"
                 f" {{ return (a < 0 || {negative}b >= {limit} || a > ({most} >> b)) ? a : ({t})(a << b); }}\n")
        text += f"static {t} safe_rshift_func_{t}_s_{sign}({t} a, {right} b) {{ return (a < 0 || {negative}b >= {limit}) ? a : ({t})(a >> b); }}\n"
    return text


def unsigned_math(bits):
    t, most = f"uint{bits}_t", f"UINT{bits}_MAX"
    wide = "unsigned long long" if bits == 64 else "unsigned"
    limit = max(bits, 32)
    text = f"static {t} safe_unary_minus_func_{t}_u({t} a) {{ return ({t})-a; }}\n"
    for name, op in [("add", "+"), ("sub", "-"), ("mul", "*")]:
        text += f"static {t} safe_{name}_func_{t}_u_u({t} a, {t} b) {{ return ({t})(({wide})a {op} ({wide})b); }}\n"
    for name, op in [("mod", "%"), ("div", "/")]:
        text += f"static {t} safe_{name}_func_{t}_u_u({t} a, {t} b) {{ return b == 0 ? a : ({t})(a {op} b); }}\n"
    for sign, right in [("s", "int"), ("u", "unsigned int")]:
        negative = "b < 0 || " if sign == "s" else ""
        text += (f"static {t} safe_lshift_func_{t}_u_{sign}({t} a, {right} b)"
                 f" {{ return ({negative}b >= {limit} || a > ({most} >> b)) ? a : ({t})(({wide})a << b); }}\n")
        text += f"static {t} safe_rshift_func_{t}_u_{sign}({t} a, {right} b) {{ return ({negative}b >= {limit}) ? a : ({t})(a >> b); }}\n"
    return text


HEADER = HEADER_FRONT + "".join(signed_math(b) + unsigned_math(b) for b in (8, 16, 32, 64))


def run(words, **more):
    return subprocess.run(words, capture_output=True, text=True, timeout=300, **more)


def must(words, **more):
    done = run(words, **more)
    if done.returncode != 0:
        sys.exit(f"{' '.join(words)}: status {done.returncode}\n{done.stderr[-2000:]}")
    return done.stdout


def versions():
    named = os.environ.get("CLANGS", "15 16 19").split()
    return [v for v in named if shutil.which(f"clang-{v}") and shutil.which(f"llvm-config-{v}")]


class Bench:
    def __init__(self, folder):
        self.folder = folder
        self.hkv = os.environ.get("HKV", os.path.join(ROOT, "hkv"))
        self.write("csmith.h", HEADER)
        self.write("main.c", MAIN)
        self.write("chances.txt", CHANCES)
        must(["clang-" + versions()[0], "-c", "-o", self.path("main.o"), self.path("main.c")])

    def path(self, name):
        return os.path.join(self.folder, name)

    def write(self, name, text):
        with open(self.path(name), "w") as f:
            f.write(text)

    def reason(self, text):
        """None where the text is read; else the code of its refusal, with the line at fault."""
        said = run([self.hkv, "run", text, "no function"]).stdout.strip()
        if said.startswith("call "):
            return None
        code = said.split(": ")[-1]
        line = re.search(r"kernel (\d+)", said)
        at = open(text).read().split("\n")[int(line.group(1)) - 1].strip() if line else ""
        return f"{code} {shape(at)}"

    def native(self, version, text):
        program = text[:-3]
        built = run([f"clang-{version}", "-w", "-o", program, text, self.path("main.o")])
        if built.returncode != 0:
            return "not compiled: " + built.stderr[-200:]
        done = run([program])
        os.remove(program)
        return done.stdout.strip() if done.returncode == 0 else f"status {done.returncode}"

    def one(self, seed, version, level):
        """(refused before, refused after, difference) of one program."""
        name = f"{seed}-{version}{level}"
        first, lowered = self.path(name + ".ll"), self.path(name + "-low.ll")
        must([f"clang-{version}", level, "-w", "-S", "-emit-llvm", "-I", self.folder, "-o", first, self.path(f"{seed}.c")])
        before = self.reason(first)
        done = run([os.path.join(ROOT, "hkv"), "lower", first, "-o", lowered, "--llvm", version])
        if done.returncode not in (0, 3) or not os.path.exists(lowered):
            return before, "not lowered: " + done.stderr.strip().split("\n")[-1], None
        after = self.reason(lowered)
        if after:
            return before, after, None
        end = run([self.hkv, "run", lowered, "entry"]).stdout.split("\n")[0]
        natives = [self.native(version, first), self.native(version, lowered)]
        same = all(end == "returns " + n for n in natives)
        return before, None, None if same else f"{name}: {end}, native {natives[0]}, native of the lowered text {natives[1]}"

    def generate(self, seed):
        made = run(["csmith", "--seed", str(seed), *CSMITH, "--probability-configuration", self.path("chances.txt"), "-o", self.path(f"{seed}.c")])
        if made.returncode != 0:
            return False
        text = open(self.path(f"{seed}.c")).read()
        return not re.search(r"\b(for|while|goto)\b", text)


def shape(line):
    """A line of a text without its names and numbers."""
    line = re.sub(r"[%@!#][\w.$-]+", lambda m: m.group(0) if m.group(0).startswith("@llvm.") else m.group(0)[0], line)
    return re.sub(r"(?<![\w.])-?\d+", "n", line)[:70]


def main():
    count = int(sys.argv[1]) if len(sys.argv) > 1 else 40
    seed = int(sys.argv[2]) if len(sys.argv) > 2 else 1
    levels = os.environ.get("LEVELS", "-O0 -O1 -O2").split()
    kept = os.environ.get("KEEP")
    with tempfile.TemporaryDirectory() as folder:
        if kept:
            os.makedirs(kept, exist_ok=True)
        bench = Bench(kept or folder)
        seeds = []
        while len(seeds) < count:
            if bench.generate(seed):
                seeds.append(seed)
            seed += 1
        work = [(s, v, level) for s in seeds for v in versions() for level in levels]
        with concurrent.futures.ThreadPoolExecutor(int(os.environ.get("JOBS", "2"))) as pool:
            ends = list(pool.map(lambda w: (w, bench.one(*w)), work))
    table(ends)
    wrong = [d for _, (_, _, d) in ends if d]
    for line in wrong:
        print("different:", line)
    read = sum(1 for _, (_, after, _) in ends if after is None)
    print(f"{len(ends)} texts of {len(seeds)} programs: {sum(1 for _, (b, _, _) in ends if b is None)} read before, {read} read after, {len(wrong)} different")
    sys.exit(0 if not wrong and read * 100 >= 95 * len(ends) else 1)


def table(ends):
    for title, place in (("before", 0), ("after", 1)):
        reasons = collections.Counter(end[place] for _, end in ends if end[place])
        examples = {end[place]: w for w, end in ends if end[place]}
        print(f"refused {title}:")
        for why, n in reasons.most_common(25):
            print(f"  {n:4} {why}   ({'-'.join(map(str, examples[why][:2]))}{examples[why][2]})")
    by = collections.Counter((f"clang-{w[1]} {w[2]}", end[1] is None) for w, end in ends)
    for where in sorted({k[0] for k in by}):
        print(f"  {where}: {by[(where, True)]} read, {by[(where, False)]} refused")


if __name__ == "__main__":
    main()
