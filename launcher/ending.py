"""An interrupt ends what a call has begun, and then the call by the same signal, as it would have ended the program alone."""
import os
import signal

SIGNALS = (signal.SIGHUP, signal.SIGINT, signal.SIGTERM)


class Interrupted(BaseException):
    """A signal that is to end the call."""

    def __init__(self, number):
        super().__init__(number)
        self.number = number


def stop(number, _frame):
    """The first signal is raised where the call stands; later ones find it ending already."""
    for other in SIGNALS:
        signal.signal(other, signal.SIG_IGN)
    raise Interrupted(number)


def watch():
    """From here on these signals are raised as `Interrupted`, but for those that the caller lets pass."""
    for number in SIGNALS:
        if signal.getsignal(number) != signal.SIG_IGN:
            signal.signal(number, stop)


def leave(number):
    """Ends this process by a signal."""
    signal.signal(number, signal.SIG_DFL)
    os.kill(os.getpid(), number)


def call(words, **how):
    """Runs a program to its end, and ends it where the call is interrupted; its exit status, less than 0 for a signal."""
    import subprocess

    child = subprocess.Popen(words, **how)
    try:
        return child.wait()
    except BaseException:
        child.terminate()
        child.wait()
        raise
