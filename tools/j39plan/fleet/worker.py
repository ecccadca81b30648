"""A process of this machine that does tasks of a fleet: the file of this module is run by itself, and handed tasks by a pipe."""

import signal

if __name__ == "__main__":  # an interrupt ends this process without a word, also while it starts
    signal.signal(signal.SIGINT, signal.SIG_DFL)

import contextlib
import os
import pickle
import sys

if __name__ == "__main__":  # what is imported is this package, whatever folder the command was called in
    sys.path[0] = os.path.dirname(os.path.dirname(os.path.dirname(os.path.realpath(__file__))))

from j39plan.fleet.drives import drive_of


def work() -> None:
    """Does the tasks that come by standard input, until it ends."""
    with contextlib.suppress(EOFError, BrokenPipeError):
        while True:
            drive = drive_of(*pickle.load(sys.stdin.buffer))
            pickle.dump(drive, sys.stdout.buffer)
            sys.stdout.buffer.flush()


if __name__ == "__main__":
    work()
