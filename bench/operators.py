#!/usr/bin/env python3
"""Prints the rows of the tables of operators in `crates/hk_verify_tests/stdin`: each operator at several widths, with its values reckoned here.

A number is given by its width and its value; the columns are those of the tables there."""
import random

random.seed(7)


def signed(w, a):
    return a - (1 << w) if a >> (w - 1) else a


def numbers(w, a, b):
    """The values of + - * & | ^ << >> LShR UDiv URem."""
    m, s = (1 << w) - 1, signed(w, a)
    return [(a + b) & m, (a - b) & m, (a * b) & m, a & b, a | b, a ^ b, (a << b) & m if b < w else 0, (s >> min(b, w)) & m,
            a >> b if b < w else 0, a // b if b else m, a % b if b else a]


def truths(w, a, b):
    """The values of == != < <= > >= ULT ULE UGT UGE."""
    s, t = signed(w, a), signed(w, b)
    return [a == b, a != b, s < t, s <= t, s > t, s >= t, a < b, a <= b, a > b, a >= b]


def pairs(w):
    """Numbers at the ends of both orders, shifts below, at and past the width, a division by zero, and drawn ones."""
    m, top = (1 << w) - 1, 1 << (w - 1)
    last = w & m
    return [(m, 0), (top, m), (top & m, 1), (m, last), (top, (w - 1) & m), (m >> 1, top), (random.randint(0, m), random.randint(0, m))]


def binary(values):
    return [(w, a, b, *values(w, a, b)) for w in (1, 5, 8, 16, 33, 64) for a, b in pairs(w)]


def resized():
    rows = []
    for w, more in ((1, 7), (4, 12), (8, 24), (33, 31), (63, 1)):
        for a in (0, (1 << w) - 1, 1 << (w - 1), random.randint(0, (1 << w) - 1)):
            mask, wide = (1 << w) - 1, (1 << (w + more)) - 1
            rows.append((w, more, a, a, signed(w, a) & wide, -a & mask, ~a & mask))
    return rows


def parts():
    rows = []
    for w, high, low in ((8, 7, 0), (8, 7, 7), (16, 11, 4), (33, 32, 1), (64, 63, 63), (64, 62, 3), (64, 0, 0)):
        a = random.randint(0, (1 << w) - 1)
        rows.append((w, high, low, a, (a >> low) & ((1 << (high - low + 1)) - 1)))
    return rows


for title, rows in (('operators', binary(numbers)), ('orders', binary(truths)), ('resizes', resized()), ('parts', parts())):
    print(f'# {title}')
    for row in dict.fromkeys(rows):
        print('with', *row)
