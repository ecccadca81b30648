"""What of a log is drawn: curves of signals, and who held which address when."""

import math
from array import array
from collections.abc import Iterable, Iterator
from dataclasses import dataclass, field
from typing import NamedTuple

from j39plan.log.clock import SECOND, Clock
from j39plan.log.readings import Reading, ReadingChoice
from j39plan.log.reports import Claim, Message, Report, Who
from j39plan.plan.tables import Unit


# Who holds an address, and the serial number of the box where its unit is of any.
Box = tuple[str, int | None]


@dataclass
class Curve:
    """A signal as one sender sent it, with `?` where that isn't sure: its values over time, not a number where it has none, and the times of
    each such state."""

    group: str
    signal: str
    sender: str
    times: "array[float]" = field(default_factory=lambda: array("d"))
    values: "array[float]" = field(default_factory=lambda: array("d"))
    states: "dict[str, array[float]]" = field(default_factory=dict)

    def add(self, time: float, state: str, value: str) -> None:
        """A point more."""
        self.times.append(time)
        self.values.append(float(value) if state == "value" else math.nan)
        if state != "value":
            self.states.setdefault(state, array("d")).append(time)


def curves_of(reports: Iterable[Report], wanted: ReadingChoice[tuple[str, Reading]], clock: Clock) -> list[Curve]:
    """The curves of a log, by their first points; the clock has seen each report, and none behind it."""
    curves: dict[tuple[str, str, str], Curve] = {}
    for message in reports:
        if not isinstance(message, Message):
            continue
        time, group, sender = clock.seconds(message.line), message.group, message.sender.told
        for label, reading in wanted.of(group, message.signals):
            key = group, label, sender
            curve = curves.get(key)
            if curve is None:
                curve = curves[key] = Curve(group, label, sender)
            curve.add(time, reading.state, reading.value)
    return list(curves.values())


class AddressSpan(NamedTuple):
    """That a unit, by its label or `#` and its NAME, held an address from one time to another; whether it claimed it, or is only planned
    there; and when it claimed it again, since it restarted or was asked."""

    address: int
    holder: str
    start: float
    end: float
    is_claimed: bool
    again: tuple[float, ...] = ()

    @property
    def is_foreign(self) -> bool:
        """Whether the plan doesn't have the holder."""
        return self.holder.startswith("#")


class Span:
    """The first and the last of times."""

    def __init__(self) -> None:
        self.first, self.last = math.inf, -math.inf

    def see(self, time: float) -> None:
        """A time more."""
        self.first, self.last = min(self.first, time), max(self.last, time)


class Timeline:
    """Who holds which address, from the first message or claim of a log to the last, as its claims tell: an address is held by whom
    claimed it last. So far as nobody did, a unit is taken to be at its planned address until a claim of it came; of several the one
    of the smallest NAME."""

    def __init__(self, units: Iterable[Unit]) -> None:
        self._planned: dict[int, list[str]] = {}
        self._preferred: dict[str, int] = {}  # of the units of which no claim came
        for unit in sorted(units, key=lambda unit: unit.number):
            self._planned.setdefault(unit.address, []).append(unit.label)
            self._preferred[unit.label] = unit.address
        self._seen = Span()
        self.clock = Clock()
        self._at: dict[Box, int] = {}  # where each is that claimed an address
        self._open: dict[int, tuple[Box, float, bool]] = {}
        self._again: dict[int, list[float]] = {}  # of each address, when its holder claimed it again
        self._held: list[AddressSpan] = []
        for address in self._planned:
            self._leave(address, -math.inf)

    def passed(self, reports: Iterable[Report]) -> Iterator[Report]:
        """The reports, of which the times are seen, if there are any, and the claims heard."""
        for report in reports:
            self.clock.see(report.line, report.time)
            if isinstance(report, Claim):
                self._claim(report.who, report.identity, self.clock.seconds(report.line))
            if isinstance(report, (Message, Claim)):
                self._seen.see(self.clock.seconds(report.line))
            yield report

    def span(self, first: int | None, last: int | None) -> tuple[float, float]:
        """From when to when a picture of the log goes, whatever of it is drawn: from its first time to its last, in nanoseconds; where its clock
        was set, to what was seen last. Of a log without times from line 0."""
        if not self.clock.has_times or first is None or last is None:
            return 0.0, max(self._seen.last, 1.0)
        end = self._seen.last if self.clock.shift else last / SECOND
        return min(first / SECOND, self._seen.first), max(end, self._seen.last)

    def held(self) -> list[AddressSpan]:
        """Who held which address, to the end of the log."""
        first, last = self._seen.first, self._seen.last
        if not math.isfinite(first):
            first = last = 0.0
        for address in list(self._open):
            self._close(address, last)
        parts = (part._replace(start=max(part.start, first)) for part in self._held if part.end > first or part.is_claimed)
        return sorted(parts, key=lambda part: (part.address, part.start))

    def _claim(self, who: Who, identity: int | None, time: float) -> None:
        """Hears a claim of a box, or that there was no address for it to claim."""
        box, planned = (who.shown, identity), (who.shown, None)
        was_planned, was_at = self._preferred.pop(who.shown, None), self._at.pop(box, None)
        if was_at is not None and was_at == who.address and self._open[was_at][0] == box:
            self._at[box] = was_at
            self._again.setdefault(was_at, []).append(time)
            return
        for left in (was_planned, was_at):
            if left is not None and left != who.address and self._open.get(left, (None,))[0] in (box, planned):
                self._leave(left, time)
        if who.address is not None:
            self._close(who.address, time)
            self._open[who.address], self._at[box] = (box, time, True), who.address

    def _leave(self, address: int, time: float) -> None:
        """Nobody that claimed it is at an address any more: the next unit that is planned there may be."""
        self._close(address, time)
        label = next((label for label in self._planned.get(address, ()) if label in self._preferred), None)
        if label:
            self._open[address] = (label, None), time, False

    def _close(self, address: int, time: float) -> None:
        if address in self._open:
            (holder, _), start, is_claimed = self._open.pop(address)
            self._held.append(AddressSpan(address, holder, start, time, is_claimed, tuple(self._again.pop(address, ()))))
