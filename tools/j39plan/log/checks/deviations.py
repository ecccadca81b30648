"""Where a log isn't as its plan has it: each deviation once, with how often it was met, and where it was worst."""

from __future__ import annotations

import operator
from collections.abc import Callable, Iterator
from dataclasses import dataclass, field
from typing import Any, NamedTuple

from j39plan.log.clock import SECOND, milliseconds, spelled_time

# What stands in a text in place of what was measured, and what the text has there where all logs are told together.
MEASURE, ANY = "{}", ".."


class Measure(NamedTuple):
    """How what was measured is spelled, and whether a number is worse than another one."""

    spelled: Callable[[int], str]
    is_worse: Callable[[float, float], bool]


FIRST = Measure(str, lambda number, known: False)
SHORTEST, LONGEST = Measure(milliseconds, operator.lt), Measure(milliseconds, operator.gt)
LEAST, MOST = Measure(str, operator.lt), Measure(str, operator.gt)

# The kinds of deviations (kinds.py says what each is), and what is measured of them; times are in nanoseconds.
KINDS: dict[str, Measure | None] = {
    "stranger": None, "absent": None, "identity": FIRST, "exchanged": None, "address": None, "displaced": None, "commanded": None, "claim-to-one": None, "restart": None, "early-message": SHORTEST,
    "two-boxes": None, "sends-on": None, "unclaimed": LONGEST, "claims-unanswered": None, "not-defended": None, "too-early": None, "hands": MOST, "no-group": None, "layout": None, "length": None, "priority": None, "no-flow": None,
    "not-whole": LEAST, "given-up": None, "not-acknowledged": None, "near": SHORTEST, "clock": MOST, "silent": LONGEST, "stopped": LONGEST, "never-sent": None,
    "unmet": None, "unanswered": None, "refused": None, "refused-to-all": None, "late": LONGEST, "asked-early": SHORTEST, "gap": LONGEST, "ignition": LONGEST, "bus-off": None,
    "error-passive": None, "lost-frames": None, "restarted": None, "urgent": None, "short-identifier": None, "unplanned": MOST,
    "remote": None, "fd": None, "extended-page": None, "announcement": None, "grant": None, "packet": FIRST, "acknowledged": LEAST, "abort": None, "twice": None,
    "transport-priority": None, "packets-near": SHORTEST, "packets-far": LONGEST, "late-answer": LONGEST, "damaged": MOST, "overload": None,
}


class Place(NamedTuple):
    """A line of a log, its time in nanoseconds, and what was measured there; None of what isn't there."""

    line: int | None
    at: int | None = None
    value: int | None = None


@dataclass
class Deviation:
    """A deviation: its kind, what is told of it, the flow by its number and the unit that it is of; where it was met first, or was worst; how
    often; what is said of that place alone; all places, where they are kept; and what to ask the supplier, where that is known."""

    kind: str
    text: str
    flow: int | None
    unit: str | None
    place: Place
    detail: str = ""
    times: int = 1
    places: list[Place] = field(default_factory=list)
    ask: str = ""
    flows: tuple[int, ...] = ()  # the flows of one that is of several

    @property
    def told(self) -> str:
        """What is told of it."""
        return self.told_of(self.place) + self.detail

    def told_of(self, place: Place) -> str:
        """What is told of it at a place."""
        return self.text if place.value is None else self.text.replace(MEASURE, spelled(self.kind, place.value))

    @property
    def what(self) -> str:
        """What is the same of it in all logs."""
        return self.text.replace(MEASURE, ANY)


def spelled(kind: str, value: int) -> str:
    """What was measured of a kind, as a text."""
    measure = KINDS[kind]
    return str(value) if measure is None else measure.spelled(value)


Hear = Callable[[Deviation, Place], None]


class Found:
    """The deviations of a log, as they are met. Who hears is told of each the first time, or, where all places are kept, each time."""

    def __init__(self, keeps_all: bool = False, hear: Hear | None = None) -> None:
        self.keeps_all, self._hear, self._is_plain = keeps_all, hear, not keeps_all
        self._met: dict[str, Deviation] = {}

    def tell(self, kind: str, text: str, line: int | None, at: int | None = None, value: int | None = None, *, flow: int | None = None,
             unit: str | None = None, detail: str = "", before: Place | None = None, times: int = 1, ask: str = "", flows: tuple[int, ...] = ()) -> None:
        """A deviation is met, or is met again, so many times. Its text is what it is of; the detail is of its place alone. One that is of two places is
        told with the one before."""
        known = self._met.get(text)
        if known is not None and value is None and self._is_plain and known.place.line is not None and line is not None and line >= known.place.line:
            known.times += times  # the shortest way, since most come so
            return
        place = Place(line, at, value)
        if known is None:
            known = self._met[text] = Deviation(kind, text, flow, unit, place, detail, times, [before] if before else [], ask, flows)
            is_heard = True
        else:
            known.times += times
            is_heard = self.keeps_all
            if self._is_worse(known, place):
                known.place, known.detail = place, detail
            known.flows = (*known.flows, *(number for number in flows if number not in known.flows))
        if self.keeps_all or before:
            known.places.append(place)
        if is_heard and self._hear:
            self._hear(known, place)

    def met(self, text: str) -> Deviation | None:
        """The deviation of a text, if it was met."""
        return self._met.get(text)

    def withdraw(self, text: str) -> None:
        """What was told doesn't hold, by what came after it."""
        self._met.pop(text, None)

    @staticmethod
    def _is_worse(known: Deviation, place: Place) -> bool:
        """Whether a place is worse than the one that is known, or, where nothing is measured, comes before it."""
        measure = KINDS[known.kind]
        if measure is None or place.value is None or known.place.value is None:
            return place.line is not None and known.place.line is not None and place.line < known.place.line
        return measure.is_worse(place.value, known.place.value)

    def all(self) -> Iterator[Deviation]:
        """All of them, in the order of the lines, of one line first what `audit` accuses of; last what is met at no line."""
        yield from sorted(self._met.values(), key=lambda found: (found.place.line is None, found.place.line or 0, not found.ask))


def lines_of(found: Deviation, spelled_place: Callable[[Place], str]) -> Iterator[str]:
    """A deviation as a text: how often it was met, and below it all places that are kept."""
    yield f"{spelled_place(found.place)} {found.told}" + (f"  ({found.times} times)" if found.times > 1 else "")
    for place in found.places:
        measured = "" if place.value is None else f" {spelled(found.kind, place.value)}{' ms' if is_duration(found.kind) else ''}"
        yield f"  {spelled_place(place)}{measured}"


def is_duration(kind: str) -> bool:
    """Whether a time is measured of a kind."""
    measure = KINDS[kind]
    return measure is not None and measure.spelled is milliseconds


def number_of(kind: str, value: int | None) -> float | None:
    """What was measured of a kind, for JSON: times are in ms."""
    return value if value is None or not is_duration(kind) else value / 10**6


def row_of(found: Deviation, place_of: Callable[[int], tuple[str, int]]) -> dict[str, Any]:
    """A deviation as plain values, for JSON; what there is nothing of is left out."""
    row: dict[str, Any] = {"kind": found.kind, "flow": found.flow, "unit": found.unit, **place_row(found.kind, found.place, place_of), "text": found.told,
           "what": found.what, "times": found.times}
    if found.ask:
        row["ask"] = found.ask
    if found.places:
        row["all"] = [place_row(found.kind, place, place_of) for place in found.places]
    return {key: value for key, value in row.items() if value is not None}


def place_row(kind: str, place: Place, place_of: Callable[[int], tuple[str, int]]) -> dict[str, Any]:
    """A place as plain values; what there is nothing of is left out."""
    log, line = (None, None) if place.line is None else place_of(place.line)
    row = {"log": log, "line": line, "time": None if place.at is None else place.at / SECOND, "value": number_of(kind, place.value)}
    return {key: value for key, value in row.items() if value is not None}


def place_text(place: Place, plan: str, place_of: Callable[[int], tuple[str, int]]) -> str:
    """A place as it stands before a text: file and line with the time beside it, the plan's file where it has none."""
    if place.line is None:
        return f"{plan}:"
    where = "{}:{}:".format(*place_of(place.line))
    return where if place.at is None else f"{where} {spelled_time(place.at)}"


def spelled_event(found: Deviation, place: Place) -> str:
    """What is told of a deviation at a place."""
    return found.told_of(place) + (found.detail if place == found.place else "")
