"""Frames that stand twice in a log, as where it was recorded by two sockets: nearer than the bits of the first one take, so that it was on the bus once."""

from collections.abc import Sequence
from operator import eq

from j39plan.log.checks.lines import FRAME, first_word
from j39plan.log.clock import SECOND, nanoseconds
from j39plan.log.files import interface_of
from j39plan.plan.tables import Timing

# So many bits has a frame at least without its data, and of each byte; and the bitrate of a plan that has none is this one at most.
BITS, BYTE_BITS, BITRATE = 67, 8, 1_000_000


class Twice:
    """Looks for lines whose frame is that of the line before, block by block."""

    def __init__(self, timing: Timing | None) -> None:
        self._bit = SECOND // (timing.bitrate if timing else BITRATE)
        self._before = b""  # the last line that is none of them
        self.count = 0
        self.first: tuple[int, int] | None = None  # the line and the time of the first one

    def look(self, number: int, lines: Sequence[bytes]) -> list[int]:
        """Which of these lines, from that number on, have the frame of the line before once more."""
        ends = [line[line.rfind(b"#") - 8:] for line in lines]
        before = self._before[self._before.rfind(b"#") - 8:]
        if not any(map(eq, ends, [before, *ends[:-1]])):
            self._before = lines[-1] if lines else self._before
            return []
        found = []
        for place, line in enumerate(lines):
            at = self._time_of_second(line)
            if at is None:
                self._before = line
                continue
            found.append(place)
            self.count += 1
            self.first = self.first or (number + place, at)
        return found

    def _time_of_second(self, line: bytes) -> int | None:
        """The time of a line that has the frame of the line before once more; None of another one."""
        one, other = FRAME.search(self._before), FRAME.search(line)
        if one is None or other is None or one.groups() != other.groups() or interface_of(self._before) != interface_of(line):
            return None
        before, at = nanoseconds(first_word(self._before)), nanoseconds(first_word(line))
        length = BITS + BYTE_BITS * (len(one.group(2)) // 2)
        return at if before is not None and at is not None and 0 <= at - before < length * self._bit else None
