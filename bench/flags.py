#!/usr/bin/env python3
"""Prints rows of the four flags `trunc nuw`, `trunc nsw`, `icmp samesign` and `getelementptr inbounds nuw` with the answers that the rules
give, computed here from bits and whole numbers: values, poison, and the border between them. No answer comes from the program.

Usage: bench/flags.py [rows]      prints the rows as `crates/ir_kernel_tests/stdin` has them; without the word, with the answers of `stdout`
"""
import itertools
import sys

WIDTHS = (1, 8, 16, 63, 64)


def bit(n, k):
    return n >> k & 1


def signed(n, w):
    return n - (1 << w) if bit(n, w - 1) else n


def trunc(flags, source, to, n):
    """A number as one of fewer bits, or poison: by the bits that are dropped."""
    dropped = [bit(n, k) for k in range(to, source)]
    if "nuw" in flags and any(dropped):
        return "poison"
    if "nsw" in flags and any(one != bit(n, to - 1) for one in dropped):
        return "poison"
    return str(n & (1 << to) - 1)


def samesign(predicate, w, a, b):
    """A comparison, or poison where the sign bits differ."""
    if bit(a, w - 1) != bit(b, w - 1):
        return "poison"
    x, y = (signed(a, w), signed(b, w)) if predicate[0] == "s" else (a, b)
    order = predicate[1:] if predicate not in ("eq", "ne") else predicate
    holds = {"eq": x == y, "ne": x != y, "gt": x > y, "ge": x >= y, "lt": x < y, "le": x <= y}[order]
    return str(int(holds))


def step(size, w, each, index, offset):
    """The offset behind a step of `inbounds nuw`, or poison: signed sums stay in the object, unsigned ones below 2^64."""
    to = offset + signed(index, w) * each
    unsigned = signed(index, w) % 2**64 * each
    if not 0 <= to <= size or unsigned >= 2**64 or offset + unsigned >= 2**64:
        return "poison"
    return f"@1+{to}"


def border(w):
    """Numbers round 0, the least and the greatest, and the sign."""
    half, top = 1 << w - 1, (1 << w) - 1
    return sorted({n for n in (0, 1, 2, half - 1, half, half + 1, top - 1, top) if 0 <= n <= top})


def trunc_rows():
    for to, source in itertools.combinations(WIDTHS, 2):
        near = {n + d for n in (0, 1 << to - 1, 1 << to, (1 << source) - (1 << to - 1), (1 << source) - 1, 1 << source - 1) for d in (-1, 0, 1)}
        for flags in ("nuw", "nsw", "nuw nsw"):
            for n in sorted(n for n in near if 0 <= n < 1 << source):
                yield f"convert | trunc {flags} | {source} | {to} | {n}", trunc(flags.split(), source, to, n)
        yield f"convert | trunc nuw nsw | {source} | {to} | poison", "poison"


def compare_rows():
    for w in WIDTHS:
        for predicate in ("eq", "ne", "ugt", "uge", "ult", "ule", "sgt", "sge", "slt", "sle"):
            pairs = [(1, 0), (0, 1)] if w == 1 else [(1 << w - 1, (1 << w - 1) - 1), (0, (1 << w) - 1), (0, 1), ((1 << w) - 1, 1 << w - 1)]
            for a, b in pairs + [(border(w)[-1], border(w)[-1])]:
                yield f"compare_numbers | samesign {predicate} | {w} | {a} | {b}", samesign(predicate, w, a, b)
        yield f"compare_numbers | samesign ult | {w} | poison | 0", "poison"
        yield f"compare_numbers | samesign ult | {w} | 0 | poison", "poison"


def step_rows():
    for w in WIDTHS:
        for each in (0, 1, 2, 8):
            for index in border(w):
                for offset in (0, 4, 8):
                    yield f"step | inbounds nuw | 8 | {w} | {each} | {index} | @1+{offset}", step(8, w, each, index, offset)
    # what `inbounds` alone gives, and null
    yield "step | inbounds | 8 | 8 | 1 | 255 | @1+4", "@1+3"
    yield "step | inbounds nuw | 8 | 64 | 8 | 0 | null", "null"
    yield "step | inbounds nuw | 8 | 64 | 0 | 18446744073709551615 | null", "null"
    yield "step | inbounds nuw | 8 | 64 | 8 | 1 | null", "poison"
    yield "step | inbounds nuw | 8 | 64 | 8 | poison | @1+0", "poison"
    yield "step | inbounds nuw | 8 | 64 | 8 | 0 | poison", "poison"
    yield "step | inbounds nuw | 8 | 8 | 1 | 256 | @1+0", "poison"


SECTIONS = (
    ("bits that trunc nuw and trunc nsw may not drop", trunc_rows),
    ("operands of icmp samesign have one sign", compare_rows),
    ("getelementptr inbounds nuw steps forwards alone", step_rows),
)


def main():
    rows_alone = sys.argv[1:] == ["rows"]
    for title, rows in SECTIONS:
        print(f"\n# {title}")
        for row, answer in rows():
            print(row if rows_alone else f"{row} | {answer}")


if __name__ == "__main__":
    main()
