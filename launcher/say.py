"""What the launcher says, which goes to standard error alone, and the fault that ends a call with status 70."""
import errno
import os

UNABLE = 70


class Fault(Exception):
    """What the launcher itself cannot do, in words for the user; several lines where need be."""


def say(text):
    """One line on standard error; a lost standard error is no reason to stop."""
    try:
        os.write(2, f"hkv: {text}\n".encode(errors="backslashreplace"))
    except OSError:
        pass


def fault_of(error):
    """The fault that an error of the operating system comes to."""
    if error.errno in (errno.ENOSPC, errno.EDQUOT):
        return Fault("the disk is full" + (f": {error.filename}" if error.filename else ""))
    where = f"{error.filename}: " if error.filename else ""
    return Fault(f"{where}{error.strerror or error}")
