"""The standard streams, open or closed, and the program's last words."""

import os
import signal
import sys

from .limits import PROGRAM


def prepare():
    """For a process of its own: an interrupt ends it at once, and a closed stream fails where it is used.

    A closed stream gets a file that cannot be used its way, so that no file which is opened later takes its number.
    """
    if signal.getsignal(signal.SIGINT) is signal.default_int_handler:
        signal.signal(signal.SIGINT, signal.SIG_DFL)
    for number, flags in ((0, os.O_WRONLY), (1, os.O_RDONLY), (2, os.O_WRONLY)):
        try:
            os.fstat(number)
        except OSError:
            os.open(os.devnull, flags)
    sys.stdin = sys.stdin or open(0, encoding="utf-8", closefd=False)
    sys.stdout = sys.stdout or open(1, "w", encoding="utf-8", closefd=False)
    sys.stderr = sys.stderr or open(2, "w", encoding="utf-8", closefd=False)


def warn(text):
    """To standard error, if anybody listens."""
    try:
        print(text, file=sys.stderr, flush=True)
    except OSError:
        silence(sys.stderr)


def silence(stream):
    """What is still to be written goes nowhere, so that the interpreter does not complain at its end."""
    try:
        os.dup2(os.open(os.devnull, os.O_WRONLY), stream.fileno())
    except (OSError, ValueError):
        pass


def lost(problem):
    """Standard output could not be written; where its reader has left, that needs no words."""
    if not isinstance(problem, BrokenPipeError):
        warn(f"{PROGRAM}: standard output: {problem.strerror}")
    silence(sys.stdout)
