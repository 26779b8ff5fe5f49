"""`./hkv --program`: the words that run the program, for scripts that call it many times or measure it."""
import shlex

from launcher import program

USAGE = "hkv --program"


def run(words):
    if words:
        return program.misused(USAGE)
    print(shlex.join(program.argv()))
    return 0
