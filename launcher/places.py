"""Where things stand: the repository's top, and the ignored folder in which the launcher keeps what it builds."""
import os

TOP = os.path.dirname(os.path.dirname(os.path.realpath(__file__)))
CRATES = os.path.join(TOP, "crates")
PROGRAM_CRATE = os.path.join(CRATES, "hkv")
BUILT = os.path.join(PROGRAM_CRATE, "out", "hkv")
KEPT = os.path.join(TOP, ".hkv")


def kept(*names):
    """A path in the launcher's folder."""
    return os.path.join(KEPT, *names)
