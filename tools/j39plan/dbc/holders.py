"""What holds the places of signals that a plan can't have: raw signals of their bits, so that `check` finds what overlaps them."""

from __future__ import annotations

from collections.abc import Iterable, Iterator
from typing import NamedTuple

from j39plan.dbc.known import KnownSignal
from j39plan.dbc.remarks import in_quotes
from j39plan.left_out import Notes, plain
from j39plan.plan.schema import most_of
from j39plan.plan.text import Labels, Table

# How wide a holder is at most; how many bits are held of one signal, beyond which it is only named; and how many signals a group has.
WIDTH, HELD, SIGNALS = 32, 64, most_of("group", "signal")


class BitRun(NamedTuple):
    """Bits in a row: the first one, from 0, and how many."""

    start: int
    size: int


def places_of(bits: int) -> Iterator[BitRun]:
    """The rows of bits of a number, none wider than a holder."""
    start = 0
    while bits >> start:
        if not bits >> start & 1:
            start += 1
            continue
        size = 1
        while size < WIDTH and bits >> start + size & 1:
            size += 1
        yield BitRun(start, size)
        start += size


class Holders:
    """The holders of a group, in the making: of the signals that it can't have, those that lie in each of its messages."""

    def __init__(self, known: Iterable[KnownSignal], labels: Labels, length: int, count: int, notes: Notes) -> None:
        self._known, self._labels, self._length, self._notes = list(known), labels, length, notes
        self._room = SIGNALS - count
        self._there = [one for one in self._known if not one.is_left_out]
        self.tables: list[Table] = []
        self.named: list[str] = []
        names = {one.signal.name for one in self._there}
        for one in self._known:
            if one.is_left_out and one.signal.name not in names:
                names.add(one.signal.name)
                self._take(one)

    def _take(self, lost: KnownSignal) -> None:
        """Holds the place of a signal, or names it where that can't be."""
        places = list(places_of(lost.bits))
        others = [one for one in self._there if one.bits & lost.bits]
        is_inside = 0 < lost.bits < 1 << 8 * self._length and sum(place.size for place in places) <= HELD
        if not is_inside or not lost.is_held or len(places) > self._room or any(one.message != lost.message for one in others):
            self.named.append(f"left out: signal {plain(lost.signal.name)}: {lost.why}")
            return
        self._room -= len(places)
        self._there.append(lost)
        for place in places:
            self.tables.append(Table("group.signal", {
                "label": self._labels.label(plain(lost.signal.name)), "byte": place.start // 8 + 1, "bit": place.start % 8 + 1, "bits": place.size,
                "kind": "raw"}, [in_quotes(f"left out: {lost.why}; these are its bits")]))
        for other in others:
            self._notes.say(f"signal {lost.signal.name} of {lost.message}", f"it shares bits with {plain(other.signal.name)} of the same message: check finds that (F8)")
