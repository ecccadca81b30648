"""Logs of one bus by two loggers: how much later the clock of one is than that of the other."""

from __future__ import annotations

import io
from bisect import bisect_right
from collections.abc import Iterator
from typing import NamedTuple

from j39plan.log.clock import MILLISECOND, SECOND, nanoseconds, spelled_time
from j39plan.log.files import LINE_MOST, Log

# So many frames that both have once are wanted at least, and of so many differences at each end the one in the middle counts.
FEW, ENDS = 3, 99

# Frames that tell of one clock lie no further from one another: one that two loggers have once each may be two of a drive that repeats itself.
# Two clocks go apart by no more than one part of so many.
NEAR, STEADY = 100 * MILLISECOND, 5000


class Common(NamedTuple):
    """A frame that both logs have once: when it came by the clock of the second one, and how much later than by that of the first one."""

    at: int
    later: int


class Shift(NamedTuple):
    """How much later the second clock is, at its begin and at its end; how many frames tell that, and how far these are from it at most."""

    begin: Common
    end: Common
    frames: int
    spread: int

    def at(self, time: int) -> int:
        """A time of the second clock by the first one."""
        whole = self.end.at - self.begin.at
        drift = 0 if whole <= 0 else (self.end.later - self.begin.later) * (time - self.begin.at) // whole
        return time - self.begin.later - drift


def lines_of(log: Log) -> Iterator[bytes]:
    """The lines of a log; of one that is too long its begin."""
    whole, is_begun = io.BufferedReader(log, 1 << 16), False
    while piece := whole.readline(LINE_MOST):
        if not is_begun:
            yield piece
        is_begun = not piece.endswith(b"\n")


def frame_in(line: bytes) -> bytes | None:
    """The frame of a line that has a time or an interface before it, without a direction behind it."""
    words = line.split()
    if words[-1:] in ([b"R"], [b"T"]):
        words.pop()
    return words[-1] if len(words) > 1 and b"#" in words[-1] else None


def times_in(log: Log) -> dict[bytes, int | None]:
    """When each frame came, in nanoseconds; None where it came more than once."""
    found: dict[bytes, int | None] = {}
    for line in lines_of(log):
        at, frame = nanoseconds((line.split(maxsplit=1) or [b""])[0].decode("ascii", "replace")), frame_in(line)
        if at is not None and frame is not None:
            found[frame] = None if frame in found else at
    return found


def near(common: list[Common], width: int) -> list[Common]:
    """Of several frames the most that tell of clocks that are no further apart from one another."""
    laters = sorted(one.later for one in common)
    count, begin = max(((bisect_right(laters, later + width) - at, at) for at, later in enumerate(laters)), key=lambda found: (found[0], -found[1]))
    return [one for one in common if laters[begin] <= one.later <= laters[begin + count - 1]]


def middle(common: list[Common]) -> Common:
    """Of several frames the times in the middle of both clocks."""
    return Common(sorted(one.at for one in common)[len(common) // 2], sorted(one.later for one in common)[len(common) // 2])


def shift_of(first: Log, second: Log) -> Shift | None:
    """By how much the clock of the second log is later, None where too few frames tell it."""
    times = times_in(first)
    common = sorted(Common(at, at - known) for frame, at in times_in(second).items() if at is not None and (known := times.get(frame)) is not None)
    if common:
        common = near(common, NEAR + (common[-1].at - common[0].at) // STEADY)
    if len(common) < FEW:
        return None
    part = max(1, min(ENDS, len(common) // 2))
    found = Shift(middle(near(common[:part], NEAR)), middle(near(common[-part:], NEAR)), 0, 0)
    apart = [far for one in common if (far := abs(one.at - one.later - found.at(one.at))) <= NEAR]
    return found._replace(frames=len(apart), spread=max(apart)) if len(apart) >= FEW else None


def shifted(line: bytes, shift: Shift) -> bytes:
    """A line with its time by the first clock; one without a time as it is."""
    head, blank, rest = line.partition(b" ")
    at = nanoseconds(head.decode("ascii", "replace"))
    return line if at is None else spelled_time(max(shift.at(at), 0)).encode() + blank + rest


def in_ms(duration: int) -> str:
    """A difference of clocks, in s or ms."""
    return f"{duration / SECOND:.6f} s" if abs(duration) >= SECOND else f"{duration / 10**6:.3f} ms"
