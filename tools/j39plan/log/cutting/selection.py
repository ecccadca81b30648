"""Which lines of a log are kept: those of some time, of some units, and of some groups."""

from __future__ import annotations

from collections import deque
from collections.abc import Iterable, Iterator
from dataclasses import dataclass
from typing import BinaryIO

from j39plan.j1939 import ADDRESS_CLAIMED, DATA_TRANSFER
from j39plan.log.checks.transfers import is_managing, pgn_of
from j39plan.log.clock import SECOND, nanoseconds
from j39plan.log.files import LINE_MOST
from j39plan.log.reports import Acknowledgement, Claim, Frame, Message, Report, Request, Who
from j39plan.plan.tables import Tables

# The time of a log's line, in nanoseconds, None where it has none.
At = int | None


@dataclass
class TimeSpan:
    """A part of a log by its times, in nanoseconds: from and to a time, None where it isn't bounded; by the clock of the log, or since its first
    time."""

    begin: int | None = None
    end: int | None = None
    is_relative: bool = False
    first: int | None = None

    def has(self, at: At) -> bool:
        """Whether a line of this time is in it; one without a time is in it where nothing is bounded."""
        if self.begin is None and self.end is None:
            return True
        if at is None:
            return False
        self.first = at if self.first is None else self.first
        time = at - self.first if self.is_relative else at
        return (self.begin is None or time >= self.begin) and (self.end is None or time <= self.end)


@dataclass
class Chosen:
    """The units and groups that are asked for: units by label, NAME or address, groups by label or number. None of a kind: all."""

    units: frozenset[str]
    groups: frozenset[str]

    def has_unit(self, *ends: Who | None) -> bool:
        """Whether one of those that send or get something is asked for."""
        return not self.units or any(str(name) in self.units for who in ends if who for name in (who.label, who.name, who.address) if name is not None)


class Selection:
    """The lines of a log that are kept, by what `follow --all` says of each."""

    def __init__(self, tables: Tables, chosen: Chosen) -> None:
        self._numbers = {group.label: str(group.pgn) for group in tables.groups}
        self._labels: dict[int, set[str]] = {}
        for group in tables.groups:
            self._labels.setdefault(group.pgn, set()).add(group.label)
        self._chosen = chosen
        self._carried: dict[tuple[Who, Who], int] = {}  # of which group the packets are that one sends another
        self._lines: deque[tuple[int, bytes]] = deque()

    def pieces(self, log: BinaryIO) -> Iterator[bytes]:
        """The lines of a log as they are handed on; each is kept until what it says is known."""
        number, is_begun = 1, False
        while piece := log.readline(LINE_MOST):
            was_begun, is_begun = is_begun, len(piece) == LINE_MOST and not piece.endswith(b"\n")
            if not is_begun:
                if not was_begun:
                    self._lines.append((number, piece))
                number += 1
            yield piece

    def kept(self, reports: Iterable[Report], window: TimeSpan) -> Iterator[bytes]:
        """The lines that are kept, each as it stands in its file."""
        for report in reports:
            is_inside = window.has(nanoseconds(report.time))
            if self._has(report) and is_inside:
                line = self._line(report.line)
                if line is not None:
                    yield line

    def _line(self, number: int) -> bytes | None:
        """A line by its number, once; those before it are let go."""
        while self._lines and self._lines[0][0] < number:
            self._lines.popleft()
        return self._lines.popleft()[1] if self._lines and self._lines[0][0] == number else None

    def _has(self, report: Report) -> bool:
        """Whether a report is of a unit and a group that are asked for. Claims are of the group of claims."""
        if isinstance(report, Claim):
            return self._chosen.has_unit(report.who) and self._has_group(ADDRESS_CLAIMED)
        if not self._chosen.has_unit(report.sender, report.to):
            if isinstance(report, Frame):
                self._of_frame(report)
            return False
        if isinstance(report, Message):
            return not self._chosen.groups or report.group in self._chosen.groups or self._numbers[report.group] in self._chosen.groups
        if isinstance(report, (Request, Acknowledgement)):
            return self._has_group(report.pgn)
        return self._has_group(self._of_frame(report))

    def _has_group(self, pgn: int) -> bool:
        """Whether a group is asked for by its number, or by a label that has it."""
        return not self._chosen.groups or str(pgn) in self._chosen.groups or bool(self._labels.get(pgn, set()) & self._chosen.groups)

    def _of_frame(self, frame: Frame) -> int:
        """The group that a frame is of, also as a part of a long message or an answer to one."""
        if is_managing(frame):
            pgn = pgn_of(frame)
            self._carried[frame.sender, frame.to] = pgn
            return pgn
        if frame.pgn == DATA_TRANSFER:
            return self._carried.get((frame.sender, frame.to), frame.pgn)
        return frame.pgn


def around(at: int, seconds: float) -> TimeSpan:
    """The time around a line of this time."""
    return TimeSpan(at - round(seconds * SECOND), at + round(seconds * SECOND))

