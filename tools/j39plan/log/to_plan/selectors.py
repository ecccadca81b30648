"""Groups of one number that a selector in their first byte tells apart: by it messages come regularly that don't so all together."""

from __future__ import annotations

from collections.abc import Collection
from typing import NamedTuple

from j39plan.log.to_plan.survey import Traffic

# So many values a selector has at most.
VALUES = 16

# Messages are regular where the least distance is shorter than the usual one by no more than this part of it; all together they are less so by this
# factor; those that are regular are this share of all, in tenths, each for this share of the time.
PART, FACTOR, SHARE, LASTING = 20, 2, 9, 8

# So many distances are needed at least; and of so many one may be longer than it is usual, as where something is missing.
FEW, RARE = 3, 20


class Selector(NamedTuple):
    """Bits of the first byte: the first one, from 1, and how many."""

    bit: int
    bits: int

    def value(self, first: int) -> int:
        """What a first byte has there."""
        return first >> self.bit - 1 & (1 << self.bits) - 1

    def when(self, value: int) -> dict[str, int]:
        """The key of a group of which they have this value."""
        return {"byte": 1, "bit": self.bit, "bits": self.bits, "value": value}


# The whole byte, its lower half, its upper half.
SELECTORS = (Selector(1, 8), Selector(1, 4), Selector(5, 4))


class Pace(NamedTuple):
    """How messages come, in nanoseconds: the number of distances, the least one, the one in the middle, and the one than which few are longer; and from
    the first message to the last."""

    number: int
    least: int
    middle: int
    usual: int
    span: int

    @classmethod
    def of(cls, times: list[int]) -> Pace:
        """That of times in their order, two at least."""
        distances = sorted(later - at for at, later in zip(times, times[1:]))
        number = len(distances)
        return cls(number, distances[0], distances[number // 2], distances[number - 1 - (number + RARE // 2) // RARE], times[-1] - times[0])

    @property
    def is_regular(self) -> bool:
        """Whether no message comes much sooner than it is usual."""
        return PART * (self.usual - self.least) <= self.usual

    def is_steady(self, whole: Pace) -> bool:
        """Whether these messages, of all that come so, are regular for nearly as long, and much more so than all together."""
        off = max(self.middle - self.least, self.usual - self.middle)
        return (self.number >= FEW and PART * off <= self.middle and FACTOR * off <= whole.usual - whole.least
                and 10 * (self.number + 1) * self.middle >= LASTING * whole.span)


def tells_apart(selector: Selector, seen: Traffic) -> bool:
    """Whether messages of one way come regularly by the values of a selector, several at the same time, and not so without it."""
    moments = sorted(zip(seen.times, seen.firsts))
    if len(moments) <= FEW:
        return False
    whole, parts = Pace.of([at for at, _ in moments]), dict[int, list[int]]()
    if whole.is_regular:
        return False
    for at, first in moments:
        parts.setdefault(selector.value(first), []).append(at)
    steady = [times for times in parts.values() if len(times) > FEW and Pace.of(times).is_steady(whole)]
    return len(steady) > 1 and 10 * sum(map(len, steady)) >= SHARE * len(moments)


def values_of(selector: Selector, ways: Collection[Traffic]) -> list[int]:
    """The values that a selector has in a log."""
    return sorted({selector.value(first) for seen in ways for first, *_ in seen.kinds if first is not None})


def selector_of(ways: Collection[Traffic]) -> Selector | None:
    """The selector of the messages of one number, if they have one."""
    return next((selector for selector in SELECTORS if 1 < len(values_of(selector, ways)) <= VALUES and any(tells_apart(selector, seen) for seen in ways)), None)
