"""hkv --help, hkv help COMMAND: a page on standard output for the whole, and one for each command.

What comes in: the words behind `--help`. What goes out: the page. The program's commands have theirs here; a command of the launcher has
its line in the table of commands, and as its page what its module has as HELP, or the text that the module begins with.
"""
import sys

from launcher.say import say

PROGRAMS = {
    "verify": (
        "decide each handler of a kernel against a specification",
        """\
hkv verify KERNEL SPEC [OPTION ..]

Reads a kernel (LLVM text, as clang -S -emit-llvm writes it) and a specification, and prints whether the initial state satisfies the
invariants and properties, and a verdict for each handler in the order of the specification: accept, reject with a state in which the
handler goes wrong, unknown where a budget was spent, or memory. Options stand in front of the names or behind them, in any order.

  --conflicts N    let a round of the solver take N conflicts, from 1 to 1,000,000; without it 20,000
  --cert FILE      save a certificate of the verdicts, which hkv check and hkv replay read
  --only HANDLER   decide this handler alone; may stand several times. Both texts are read whole first, and no line changes its number.
                   A certificate of these handlers is read again with the same --only
  --jobs N         decide each handler in a process of its own, N of them at once, with the same lines, status and certificate
  --hosts FILE     the same on the machines that FILE lists, a line each, as GNU parallel's --sshloginfile; N is then for each machine.
                   A machine needs sshd, perl and rsync, and runs the program of this one
  --time           the seconds of each handler on standard error; with --cert how many instances and learned clauses its proofs have

A file that has the name of an option is written ./--time; behind -- all words are names.

Statuses: 0 all accepted; 1 one is rejected, or the initial state is; 2 one is unknown; 3 a text is refused; 4 words; 5 a file could not
be read; 6 the output could not be written; 7 memory; 70 the launcher could not do its part, as where a process of --jobs was ended.
""",
    ),
    "check": (
        "check the proofs in a certificate, without the solver",
        """\
hkv check KERNEL SPEC CERT [--only HANDLER ..]

Prints for each handler of the specification: checked where the proofs of its acceptance hold, refused with the first row that does not, or
not claimed. With --only the specification has these handlers alone, as in the call that saved the certificate.

Statuses: 0 all are checked; 1 one is refused; 2 one is not claimed; 3 a text is refused; 4 words; 5 a file could not be read; 7 memory.
""",
    ),
    "replay": (
        "run the case of each rejection in a certificate",
        """\
hkv replay KERNEL SPEC CERT [--only HANDLER ..]

Prints for each rejection whether its case violates its obligation: confirmed or not confirmed.

Statuses: 0 all are confirmed; 1 one is not; 3 a text is refused; 4 words; 5 a file could not be read; 7 memory.
""",
    ),
    "lrat": (
        "check a refutation of a clause file",
        """\
hkv lrat CNF PROOF

Reads clauses in DIMACS and a refutation in LRAT, of any solver, and prints refuted, or the first row that fails with its reason.

Statuses: 0 refuted; 1 a row fails; 3 a text is refused; 4 words; 5 a file could not be read; 7 memory.
""",
    ),
    "run": (
        "run one function of a kernel from the initial state",
        """\
hkv run KERNEL FUNCTION [ARG ..]

Prints returns with the result and the rows of the state behind it, or stuck with the reason and the line of the instruction. An ARG is a
decimal number without sign: -1 of 32 bits is 4294967295.

Statuses: 0 it returned; 1 it is stuck; 3 the text or the call is refused; 4 words; 5 the file could not be read; 7 memory.
""",
    ),
    "bench": (
        "decide a generated kernel, and count the verdicts",
        """\
hkv bench N

Generates a kernel of N handlers, from 1 to 64, with its specification, decides each, and prints how many verdicts of each kind there are.

Statuses: 0; 4 words; 7 memory.
""",
    ),
}
HEAD = "hkv COMMAND [WORD ..]\n\nDecides whether the trap handlers of a small kernel do what a specification says.\n"
FOOT = "\n'hkv help COMMAND' says which words a command takes. docs/GUIDE.md leads from a C file to a verdict.\n"


def run(words):
    """Shows the page of a command, or the whole."""
    from launcher.main import COMMANDS

    if not words:
        return shown(whole(COMMANDS))
    if len(words) == 1 and words[0] in PROGRAMS:
        return shown(PROGRAMS[words[0]][1])
    if len(words) == 1 and words[0] in COMMANDS:
        return shown(page(*COMMANDS[words[0]]))
    say(f"there is no command {' '.join(words)}; 'hkv --help' lists them")
    return 4


def shown(text):
    sys.stdout.write(text)
    return 0


def whole(commands):
    """All commands, a line each."""
    lines = [(name, line) for name, (line, _) in PROGRAMS.items()] + [(name, line) for name, (_, line) in commands.items() if line]
    return HEAD + "\n" + "".join(f"  {name:<11}{line}\n" for name, line in lines) + FOOT


def page(module, line):
    """The page of a launcher's command: how its module says that it is used, and what it begins with."""
    import importlib

    found = importlib.import_module(module)
    usage = getattr(found, "USAGE", "").removeprefix("usage: ")
    text = getattr(found, "HELP", None) or found.__doc__ or line
    return (f"{usage}\n\n" if usage else "") + text.strip() + "\n"
