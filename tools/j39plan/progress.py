"""What a tool says on standard error while it works, where that takes longer than somebody likes to wait without a word."""

import sys
import time

# So many seconds are waited before anything is said, and between two lines where standard error is no terminal.
PATIENCE, BETWEEN = 2.0, 10.0


class Progress:
    """Says how far the work is: on a terminal in one line that is cleared at the end, else in a line now and then."""

    def __init__(self, patience: float = PATIENCE) -> None:
        self._next = time.monotonic() + patience
        self._is_shown = False

    def say(self, text: str) -> None:
        """Says it, where it is time."""
        now, is_terminal = time.monotonic(), sys.stderr.isatty()
        if now < self._next:
            return
        self._next = now + (0.2 if is_terminal else BETWEEN)
        self._is_shown = is_terminal
        print(f"\r\033[K{text}" if is_terminal else text, end="" if is_terminal else "\n", file=sys.stderr, flush=True)

    def clear(self) -> None:
        """Clears the line on a terminal."""
        if self._is_shown:
            print("\r\033[K", end="", file=sys.stderr, flush=True)
            self._is_shown = False
