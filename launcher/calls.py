"""Calls with options of the launcher's own: which texts the program gets, and whether one process decides them or many.

What comes in: the words as `options` took them apart. What goes out: the exit status, once all is printed.
"""
import os

from launcher import ending, handlers, output, program
from launcher.options import REPORTED, Misused

CERT_LIMIT = 268_435_456


def run(asked):
    """Answers the call; the exit status."""
    ending.watch()
    try:
        return answered(asked)
    except ending.Interrupted as end:
        return ending.leave(end.number)
    except output.Lost:
        return output.STATUS


def answered(asked):
    """Answers it in a folder that goes with it, where a signal is raised."""
    with handlers.Folder() as folder:
        if not any(option in asked.given for option in ("--only", "--jobs", "--hosts")):
            return beside(decide(asked, asked.names), asked, asked.names)
        if not is_loadable(asked.names[2:]):
            return ending.call([*program.argv(), *asked.fixed()])  # for its words on the first file that cannot be loaded
        try:
            texts = handlers.read(*asked.names[:2], folder)
        except handlers.Answered as answer:
            return handlers.told(asked.command, asked.names, answer)
        wanted = chosen(asked.given.get("--only"), texts.names())
        return beside(over(asked, texts, wanted, folder), asked, texts)


def over(asked, texts, wanted, folder):
    """The answer over these handlers of texts that are read."""
    if "--jobs" in asked.given or "--hosts" in asked.given:
        from launcher import jobs

        return jobs.run(asked, texts, wanted, folder)
    spec = os.path.join(folder, "only.py")
    with open(spec, "wb") as file:
        file.write(texts.only(wanted))
    return decide(asked, [texts.kernel, spec, *asked.names[2:]])


def beside(status, asked, names):
    """Says beside a report, if it is one, which functions nothing is said of; the status."""
    if asked.command == "verify" and status in REPORTED:
        from launcher import unnamed

        unnamed.tell(*names[:2])
    return status


def decide(asked, names):
    """The program's answer over these files, with the time of each handler where it is asked for."""
    words = asked.fixed(names)
    if "--time" not in asked.given:
        return ending.call([*program.argv(), *words])
    from launcher import timing

    return timing.run(words, asked.value("--cert"))


def is_loadable(certs):
    """Whether the certificate that is read besides, if there is one, can be loaded."""
    try:
        return all(os.stat(name).st_size <= CERT_LIMIT and not open(name, "rb").close() for name in certs)
    except (OSError, ValueError):
        return False


def chosen(only, names):
    """The handlers to look at, in the order of the specification: all of them, or those that are named."""
    unknown = [name for name in only or [] if name not in names]
    if unknown:
        raise Misused(f"--only {unknown[0]}: the specification has no transition of that name; it has {', '.join(names) or 'none'}")
    return [name for name in names if not only or name in only]

