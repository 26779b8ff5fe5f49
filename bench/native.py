#!/usr/bin/env python3
"""Compares `hkv run` with native code: C functions are compiled by clang both to IR text and to a shared object, and run on random
arguments from the initial memory. Every end that is no `stuck` must have the native result and the native bytes of all globals.

Usage: bench/native.py [HKV] [RUNS]   (by default ./hkv of this checkout and 40 runs a function; CLANG names the compiler)
"""
import ctypes
import os
import random
import re
import subprocess
import sys
import tempfile

C = r"""
typedef unsigned char u8; typedef unsigned short u16; typedef unsigned int u32; typedef unsigned long long u64;
typedef signed char i8; typedef short i16; typedef int i32; typedef long long i64;

struct file { u32 refs; u16 kind; u8 owner; u64 offset; };
u32 current; u8 table[16]; struct file files[8]; i16 limits[4] = {1, -2, 300, -400}; const u32 primes[6] = {2, 3, 5, 7, 11, 13};
u64 total;

u32 mix(u32 a, u32 b) { return (a ^ (b << 7)) * 2654435761u + (a >> 3); }
u64 wide(u64 a, u64 b) { return (a * b) ^ (a - b) ^ ((a >> (b & 63)) | (b << (a & 63))); }
u8 narrow(u8 a, u8 b) { return (u8)(a * b + (a ^ b) - (u8)(a << 1)); }
i32 ratio(i32 a, i32 b) { if (b == 0 || (b == -1 && a == (-2147483647 - 1))) return -1; return a / b + a % b; }
u16 halves(u16 a, u16 b) { return b ? (u16)(a / b + a % b * 3) : a; }
i64 order(i64 a, i64 b, i64 c) { i64 low = a < b ? a : b; i64 high = a < b ? b : a; return c < low ? low : (high < c ? high : c); }
u32 least(u32 a, u32 b) { return (a < b ? a : b) * 3 + (a < b ? b : a); }
i32 magnitude(i16 a) { return a < 0 ? -(i32)a : a; }
u32 checked(u32 a, u32 b) { u32 r; return __builtin_add_overflow(a, b, &r) ? 7 : r; }
i32 carried(i32 a, i32 b) { i32 r; return __builtin_mul_overflow(a, b, &r) ? -7 : r; }
u64 chosen(u8 op, u32 a, u32 b) {
  switch (op & 7) { case 0: return a + b; case 1: return a - b; case 2: return (u64)a * b; case 3: return a & b; case 5: return a | b; case 6: return ~a; default: return a == b; }
}
__attribute__((noinline)) static u32 step(u32 n) { return n % 2 ? 3 * n + 1 : n / 2; }
u32 chain(u32 n) { return step(step(step(step(n & 0xffff)))); }
u32 prime(u32 n) { return n < 6 ? primes[n] : 0; }
i32 limit(u8 n, i16 by) { if (n >= 4) return -1; limits[n] = (i16)(limits[n] + by); return limits[n]; }
i32 store(u8 at, u8 by) { if (at >= 16) return -22; table[at] = by; table[(at + 5) & 15] ^= (u8)~by; current = at; return table[0]; }
i32 transfer(u32 from, u32 to, u8 owner) {
  if (from >= 8 || to >= 8 || from == to) return -9;
  files[to].refs = files[from].refs + 1; files[to].kind = (u16)(from * 257 + to); files[to].owner = owner; files[from].offset = ((u64)owner << 40) | to;
  total += files[to].refs; return (i32)files[to].kind;
}
void bump(u64 by) { total = total + by * 3 - 1; current = (u32)(total >> 5); }
u8 signs(i8 a, i8 b) { return (u8)((a < b) | ((a > 0) << 1) | ((i16)a * b < 0) << 2 | ((u8)(a >> 2) << 3)); }
"""

GLOBALS = ["current", "table", "files", "limits", "total"]
SIZES = {"current": 4, "table": 16, "files": 8 * 16, "limits": 8, "total": 8}


def compile_all(clang, level, folder):
    source = os.path.join(folder, "handlers.c")
    with open(source, "w") as f:
        f.write(C)
    flags = [level, "-std=c11", "-fno-vectorize", "-fno-slp-vectorize", "-fno-jump-tables", "-fno-builtin-memcpy", "-fno-builtin-memset", "-fno-strict-aliasing", "-w"]
    text = os.path.join(folder, f"handlers{level}.ll")
    subprocess.run([clang, *flags, "-S", "-emit-llvm", "-o", text, source], check=True)
    library = os.path.join(folder, f"handlers{level}.so")
    subprocess.run([clang, *flags, "-shared", "-fPIC", "-o", library, source], check=True)
    return text, library


def signatures(text):
    """Each function's result width (0 for void), and for each parameter its width, below 0 where the caller extends its sign."""
    found = {}
    for line in text.splitlines():
        m = re.match(r"define (?!internal)(?:[a-z_]+ )*?(?:signext |zeroext )?(void|i\d+) @(\w+)\((.*?)\)", line)
        if m:
            widths = [int(w) * (-1 if "signext" in part else 1) for part in m.group(3).split(",") for w in re.findall(r"\bi(\d+) ", part + " ")]
            found[m.group(2)] = (0 if m.group(1) == "void" else int(m.group(1)[1:]), widths)
    return found


def kind(width):
    return {8: ctypes.c_uint8, 16: ctypes.c_uint16, 32: ctypes.c_uint32, 64: ctypes.c_uint64, -8: ctypes.c_int8, -16: ctypes.c_int16}[width]


def argument(rng, width):
    top = 1 << abs(width)
    pick = rng.random()
    if pick < 0.4:
        return rng.randrange(min(top, 20))
    if pick < 0.6:
        return (top - 1 - rng.randrange(min(top, 20))) % top
    if pick < 0.7:
        return (top // 2 + rng.randrange(-2, 3)) % top
    return rng.randrange(top)


def native(library, name, result, widths, arguments):
    cells = {g: (ctypes.c_uint8 * SIZES[g]).in_dll(library, g) for g in GLOBALS}
    saved = {g: bytes(c) for g, c in cells.items()}
    call = getattr(library, name)
    call.argtypes = [kind(w) for w in widths]
    call.restype = kind(result) if result else None
    value = call(*arguments)
    after = {g: bytes(c) for g, c in cells.items()}
    for g, c in cells.items():
        ctypes.memmove(c, saved[g], len(saved[g]))
    return value, after


def rows_of(after):
    rows = set()
    for g, data in after.items():
        for at in range(0, len(data), 16):
            part = data[at : at + 16]
            if any(part):
                rows.add(f"  @{g}+{at}: {part.hex()}")
    return rows


def main():
    here = os.path.dirname(os.path.dirname(os.path.abspath(__file__)))
    hkv = sys.argv[1] if len(sys.argv) > 1 else os.path.join(here, "hkv")
    runs = int(sys.argv[2]) if len(sys.argv) > 2 else 40
    clang = os.environ.get("CLANG", "clang-16")
    rng = random.Random(7)
    compared = stuck = wrong = refused = 0
    with tempfile.TemporaryDirectory() as folder:
        for level in ["-O0", "-O1", "-O2"]:
            path, so = compile_all(clang, level, folder)
            library = ctypes.CDLL(so)
            for name, (result, widths) in sorted(signatures(open(path).read()).items()):
                for _ in range(runs):
                    arguments = [argument(rng, w) for w in widths]
                    done = subprocess.run([hkv, "run", path, name, *map(str, arguments)], capture_output=True, text=True)
                    lines = done.stdout.splitlines()
                    if not lines or lines[0].startswith(("kernel", "call")):
                        refused += 1
                        print(level, name, lines[:1], done.stderr[:100])
                        break
                    if lines[0].startswith("stuck"):
                        stuck += 1
                        continue
                    value, after = native(library, name, result, widths, arguments)
                    said = f"returns {value}" if result else "returns"
                    compared += 1
                    if lines[0] != said or set(lines[1:]) != rows_of(after):
                        wrong += 1
                        print("differs:", level, name, arguments, lines, said, sorted(rows_of(after)))
    print(f"{compared} runs compared, {wrong} differ; {stuck} stuck, {refused} functions refused")
    return 1 if wrong else 0


if __name__ == "__main__":
    sys.exit(main())
