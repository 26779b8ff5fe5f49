"""The first word decides: one of the launcher's own commands, each in a module of its own, or else the program answers."""
from launcher.say import UNABLE, Fault, fault_of, say

# A command, the module whose `run(words)` answers it and gives the exit status, and what --help says of it.
COMMANDS = {
    "explain": ("launcher.explain", "say each rejection in the words of the source, as text, JSON or a page"),
    "handlers": ("launcher.handlers", "print the handlers of a specification that is read, in order"),
    "premises": ("launcher.premises", "print what a verdict of two texts rests on"),
    "lower": ("launcher.lower", "bring what clang wrote into the profile, by LLVM's opt"),
    "prove": ("launcher.prove", "prove everything, and build the program that everything is claimed of"),
    "selftest": ("launcher.selftest", "run every example and stored call of the repository, and compare"),
    "--help": ("launcher.help", "this page, or with a command its own"),
    "-h": ("launcher.help", ""),
    "help": ("launcher.help", ""),
    "--version": ("launcher.version", "which program runs, of which commit, and the kit's line"),
    "--program": ("launcher.which", "the words that run the program, for scripts"),
}


def run(words):
    """Answers a call; returns its exit status, where the program has not taken this process over."""
    try:
        if words and words[0] in COMMANDS:
            import importlib

            return importlib.import_module(COMMANDS[words[0]][0]).run(words[1:])
        from launcher import options

        return options.run(words)
    except Fault as fault:
        return unable(fault)
    except OSError as error:
        return unable(fault_of(error))
    except KeyboardInterrupt:
        return 130


def unable(fault):
    """Says what the launcher cannot do."""
    for line in str(fault).splitlines():
        say(line)
    return UNABLE
