"""The clock beside a log that is still to come: what is due is told while nothing comes."""

import contextlib
import threading
import time
from collections.abc import Iterator

from j39plan.log.checks.comparison import Comparison
from j39plan.log.clock import SECOND

# How often it is looked at the clock, in seconds. Where that was much longer ago this process was stopped meanwhile.
MOMENT, STOPPED = 0.5, 2.0


class Watch(threading.Thread):
    """Tells a comparison how long nothing has come. Who hands it a report holds the lock."""

    def __init__(self, comparison: Comparison) -> None:
        super().__init__(daemon=True)
        self.lock = threading.Lock()
        self._comparison, self._is_over = comparison, threading.Event()
        self._came = time.monotonic()

    def came(self) -> None:
        """Something comes."""
        self._came = time.monotonic()

    def run(self) -> None:
        """Looks at the clock until the log is over."""
        seen = time.monotonic()
        while not self._is_over.wait(MOMENT):
            now = time.monotonic()
            with self.lock:
                if now - seen < STOPPED:
                    self._comparison.waits(int((now - self._came) * SECOND))
            seen = now

    def end(self) -> None:
        """The log is over."""
        self._is_over.set()
        self.join()


@contextlib.contextmanager
def watched(comparison: Comparison) -> Iterator[Watch]:
    """A clock that is looked at as long as this goes on."""
    watch = Watch(comparison)
    watch.start()
    try:
        yield watch
    finally:
        watch.end()
