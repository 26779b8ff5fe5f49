"""Standard output, unbuffered as the program's own is, and what a failed put comes to."""
import os

STATUS = 6


class Lost(Exception):
    """Standard output took no more."""


def put(shown):
    """Puts bytes, all of them."""
    try:
        while shown:
            shown = shown[os.write(1, shown):]
    except OSError as error:
        raise Lost from error
