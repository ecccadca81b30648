"""The reports of a log as the package hands them out: times in seconds, data as bytes, signals by their labels with exact values."""

from __future__ import annotations

from collections.abc import Iterable, Iterator, Mapping
from decimal import Decimal
from typing import NamedTuple

from j39plan.j1939 import GLOBAL_ADDRESS, identifier_of
from j39plan.log import readings, reports
from j39plan.log.clock import SECOND, nanoseconds
from j39plan.log.reports import Who
from j39plan.plan.measures import measure_of
from j39plan.plan.tables import Group


class Reading(NamedTuple):
    """What a message has of a signal: the `state` (`value`, `absent`, `fault`, `text` ..); the `value` in the `unit` of measurement, exactly, None
    where the state is another one; and what else is said, as the name of a value, the number of a fault, or a text."""

    state: str
    value: Decimal | None
    unit: str
    detail: str


class Readings(Mapping[str, Reading]):
    """The readings of a message by the labels of its signals and texts; of records with their numbers, as `SPN[2]`."""

    def __init__(self, group: Group, lines: Iterable[str]) -> None:
        self._units = {part.label: part.unit for part in group.signals}
        self._said = {label: said for label, _, said in (line.strip().partition(" ") for line in lines)}

    def __getitem__(self, label: str) -> Reading:
        measure = measure_of(self._units.get(label.partition("[")[0], ""))
        state, value, unit, detail = readings.reading_of(self._said[label], measure)
        return Reading(state, Decimal(value) if value else None, unit, detail)

    def __iter__(self) -> Iterator[str]:
        return iter(self._said)

    def __len__(self) -> int:
        return len(self._said)

    def __repr__(self) -> str:
        return repr(dict(self))


class Message(NamedTuple):
    """A message of a planned group: the line of its last frame and its time in seconds, None where it has none; from whom to whom; the number of its
    flow, 0 where it has none; the priority, where it came in one frame and that isn't the group's; its bytes; and the readings of its signals."""

    line: int
    time: float | None
    group: str
    sender: Who
    to: Who
    flow: int
    priority: int | None
    data: bytes
    signals: Readings


class Claim(NamedTuple):
    """A claim of an address, or, with the address None, that none could be claimed; of a unit of any serial number with that of its box."""

    line: int
    time: float | None
    who: Who
    identity: int | None


class Request(NamedTuple):
    """That a group was asked for by its number; and the number of the plan's request that this is, 0 where it is none."""

    line: int
    time: float | None
    pgn: int
    sender: Who
    to: Who
    request: int


class Acknowledgement(NamedTuple):
    """That a request for a group, by its number, was answered by no message: `acknowledged`, `refused`, `denied` or `busy`, by whom and to whom."""

    line: int
    time: float | None
    word: str
    pgn: int
    sender: Who
    to: Who


class Frame(NamedTuple):
    """A frame of no planned group: the number of its group, who sent it to whom, its priority and its bytes."""

    line: int
    time: float | None
    pgn: int
    sender: Who
    to: Who
    priority: int
    data: bytes

    @property
    def identifier(self) -> int:
        """The identifier of the frame."""
        return identifier_of(self.priority, self.pgn, self.sender.address or 0, GLOBAL_ADDRESS if self.to.address is None else self.to.address)


Told = Message | Claim | Request | Acknowledgement | Frame


def seconds(time: str) -> float | None:
    """A time as a log spells it, in seconds."""
    at = nanoseconds(time)
    return None if at is None else at / SECOND


def told_of(report: reports.Report, groups: Mapping[str, Group]) -> Told:
    """A report with Python's values, by the groups of the plan."""
    at = seconds(report.time)
    if isinstance(report, reports.Message):
        data, signals = bytes.fromhex(report.data), Readings(groups[report.group], report.signals)
        return Message(report.line, at, report.group, report.sender, report.to, report.flow, report.priority, data, signals)
    if isinstance(report, reports.Claim):
        return Claim(report.line, at, report.who, report.identity)
    if isinstance(report, reports.Request):
        return Request(report.line, at, report.pgn, report.sender, report.to, report.request)
    if isinstance(report, reports.Acknowledgement):
        return Acknowledgement(report.line, at, report.word, report.pgn, report.sender, report.to)
    return Frame(report.line, at, report.pgn, report.sender, report.to, report.priority, report.data)
