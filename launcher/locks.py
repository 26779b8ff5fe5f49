"""Locks between calls, by files in the launcher's folder: the system gives one up when its holder ends, however it ends."""
import contextlib
import errno
import fcntl
import os

from launcher.places import kept
from launcher.say import say


@contextlib.contextmanager
def held(name, waiting=None, wait=True):
    """Holds the lock, and gives True; says `waiting` once where another call has it. With wait=False it gives False then."""
    os.makedirs(kept(), exist_ok=True)
    with open(kept(f"{name}.lock"), "w") as file:
        is_mine = took(file)
        if not is_mine and wait:
            if waiting:
                say(waiting)
            fcntl.flock(file, fcntl.LOCK_EX)
            is_mine = True
        yield is_mine


def took(file):
    """Whether the lock was free, and is held now."""
    try:
        fcntl.flock(file, fcntl.LOCK_EX | fcntl.LOCK_NB)
        return True
    except OSError as error:
        if error.errno in (errno.EWOULDBLOCK, errno.EACCES):
            return False
        raise


def is_held(name):
    """Whether a call holds the lock now."""
    with held(name, wait=False) as is_mine:
        return not is_mine
