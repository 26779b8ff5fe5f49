"""launched.py WORD ..: the launcher, over the program that the environment's HKV names, or else the one that it chooses itself."""
import os
import subprocess
import sys

TOP = os.path.dirname(os.path.dirname(os.path.abspath(__file__)))
EXAMPLES = os.path.join(TOP, "examples")


def program():
    """The words that run the program by itself."""
    if os.environ.get("HKV"):
        return [os.environ["HKV"]]
    sys.path.insert(0, TOP)
    from launcher import program as chosen

    return chosen.argv()


def plain(words, **how):
    """A call of the program by itself."""
    return subprocess.run([*program(), *words], stdin=subprocess.DEVNULL, capture_output=True, **how)


def launched(words, **how):
    """A call of the launcher."""
    return subprocess.run([sys.executable, os.path.abspath(__file__), *words], capture_output=True, **{"stdin": subprocess.DEVNULL, **how})


def main():
    sys.path[0] = TOP
    from launcher import program as chosen
    from launcher.main import run

    if os.environ.get("HKV"):
        chosen.argv = lambda: [os.environ["HKV"]]
        chosen.run = lambda words, *, input=None, capture=False: subprocess.run(
            [os.environ["HKV"], *words], input=input, capture_output=capture
        )
    sys.exit(run(sys.argv[1:]))


if __name__ == "__main__":
    main()
