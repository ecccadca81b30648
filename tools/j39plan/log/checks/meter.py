"""How full the bus of a log was: the bits of its frames, in each second the most that a frame of its length can have, as `load` counts them."""

from __future__ import annotations

from j39plan.log.clock import ORDER, nanoseconds

# The bits of a frame by the bytes that it has, in the spelling of a log: `#` and two digits a byte.
BITS = {1 + 2 * length: 80 + 10 * length for length in range(9)}


class Meter:
    """The frames with 29-bit identifiers of the first interface of a log, second by second."""

    def __init__(self) -> None:
        self.bits = self.worst = 0
        self.worst_second: int | None = None
        self._interface, self._start, self._inside = b"", b"\n", 0  # no line begins so
        self._way = b" "  # what stands before an identifier
        self._last = b""  # the line before

    def take(self, line: bytes, end: int, digits: int) -> None:
        """A line by where its identifier begins, and how many characters its data has."""
        if line.startswith(self._start) and line.startswith(self._way, end - len(self._way)) or self._turns(line[:end]):
            if line < self._last and self._goes_back(line):
                self._close()
            self._last = line
            self._inside += BITS.get(digits, 0)

    def _goes_back(self, line: bytes) -> bool:
        """Whether the clock was set back within a second, so that this one began anew."""
        at, last = (nanoseconds(one.partition(b" ")[0].decode(errors="replace")) for one in (line, self._last))
        return line.startswith(self._start) and self._last.startswith(self._start) and at is not None and last is not None and at < last - ORDER

    def _turns(self, head: bytes) -> bool:
        """Another second begins, or another interface speaks: whether it is the one that is read."""
        interface = head[head.find(b" ") + 1:]
        if interface and interface != self._interface:
            if self._interface:
                return False
            self._interface = interface
        start = head[:head.find(b".") + 1]
        if start != self._start:
            self._close()
            self._start = start
        self._way = b" " + self._interface
        return True

    def _close(self) -> None:
        """A second is over. One without a time is none."""
        self.bits += self._inside
        if self._inside > self.worst and self._start[1:-1].isdigit():
            self.worst, self.worst_second = self._inside, int(self._start[1:-1])
        self._inside = 0

    def end(self) -> None:
        """The log is over."""
        self._close()

    def mean(self, duration: int | None) -> float | None:
        """The mean of a second of a log of this duration, in nanoseconds; None where it is shorter than one."""
        if duration is None or duration < 10**9 or not self.bits:
            return None
        return self.bits * 10**9 / duration
