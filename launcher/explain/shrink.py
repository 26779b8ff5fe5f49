"""A smaller case that still violates its obligation.

In come a case and a test that asks the program, out goes a case in which as many numbers are 0 as were found: all at once is
tried first, then halves, and at the end each one by itself. Every case on the way out was confirmed.
"""
import time


def zeros(count, still, seconds=20.0):
    """The places, of that many, that may be 0 together while still(places) holds."""
    end, zeroed, size = time.monotonic() + seconds, set(), count
    while size:
        left = [k for k in range(count) if k not in zeroed]
        for begin in range(0, len(left), size):
            part = set(left[begin:begin + size])
            if time.monotonic() > end:
                return zeroed
            if still(zeroed | part):
                zeroed |= part
        size //= 2
    return zeroed
