"""Two logs of one bus as one, by one clock: what both have stands there once."""

from __future__ import annotations

import heapq
from collections import deque
from collections.abc import Iterable, Iterator
from typing import NamedTuple

from j39plan.log.clock import ORDER, nanoseconds
from j39plan.log.cutting.clocks import frame_in


class LogLine(NamedTuple):
    """A line by its time, that of the one before where it has none, and by which of the logs has it."""

    at: int
    log: int
    text: bytes


def timed(lines: Iterable[bytes], log: int) -> Iterator[LogLine]:
    """The lines of a log."""
    last = 0
    for line in lines:
        at = nanoseconds(line.partition(b" ")[0].decode("ascii", "replace"))
        last = last if at is None else at
        yield LogLine(last, log, line)


class MergedLogs:
    """The lines of two logs in the order of their times. A frame that both have within a time of one another is one."""

    def __init__(self, spread: int) -> None:
        self._window = max(spread, ORDER)
        self._waiting: dict[bytes, deque[LogLine]] = {}  # by frames the lines of which the other log may have one too
        self.both = 0

    def lines(self, first: Iterable[bytes], second: Iterable[bytes]) -> Iterator[bytes]:
        """The lines, of both those of the log that has them first."""
        for line in heapq.merge(timed(first, 0), timed(second, 1), key=lambda line: line.at):
            frame = frame_in(line.text)
            if frame is None or not self._is_known(frame, line):
                yield line.text

    def _is_known(self, frame: bytes, line: LogLine) -> bool:
        """Whether the other log has had this frame."""
        waiting = self._waiting.setdefault(frame, deque())
        while waiting and line.at - waiting[0].at > self._window:
            waiting.popleft()
        if waiting and waiting[0].log != line.log:
            waiting.popleft()
            self.both += 1
            return True
        waiting.append(line)
        return False
