"""Trouble codes over time: when each came and went, with its lamps and its occurrence count, and who cleared it (SAE J1939-73)."""

from __future__ import annotations

import re
from collections.abc import Callable, Iterable, Iterator
from dataclasses import dataclass, field
from typing import NamedTuple

from j39plan.log.clock import SECOND, Clock
from j39plan.log.readings import CODE
from j39plan.log.reports import REFUSALS, Acknowledgement, Message, Report, Request
from j39plan.plan.tables import Group, Tables

# Groups with trouble codes: what their codes are.
ACTIVE, PREVIOUS = 65226, 65227
STATES = {ACTIVE: "active", PREVIOUS: "previously active", 65231: "pending", 65236: "active, emissions", 64949: "previously active, emissions",
          64896: "permanent"}

# Requests for these numbers clear codes: what they are called, and the groups whose codes they clear.
CLEARS = {65228: ("DM3", frozenset((PREVIOUS, 64949))), 65235: ("DM11", frozenset((ACTIVE, 65231, 65236)))}

# The lamps by the numbers of their signals.
LAMPS = {987: "protect", 624: "amber", 623: "red", 1213: "malfunction"}

# A code that is in no message for so many periods has gone; the period of DM1, in ms, where the plan has none.
PERIODS, DM1_PERIOD = 3, 1000

# A suspect parameter, a failure mode, and where another conversion method is used its whole number instead.
CodeKey = tuple[int | None, int | None, int | None]


class Moment(NamedTuple):
    """A line of a log and its time in nanoseconds, None where it has none."""

    line: int
    time: int | None


class Clearing(NamedTuple):
    """That codes were to be cleared: when, by whom, whose (of `all` everybody's), and by which request."""

    at: Moment
    by: str
    to: str
    pgn: int


@dataclass
class Episode:
    """A code from when it came to when it had gone. `end` is `gone`; `silent`, where its unit ended to send its codes; or `open`, where the log ends
    before. `cleared` says by whom, how, and in which line, where that was asked for in between."""

    unit: str
    group: str
    state: str
    key: CodeKey
    name: str
    came: Moment
    last: Moment
    counts: tuple[int, int]
    lamps: set[str] = field(default_factory=set)
    absent: Moment | None = None
    end: str = "open"
    cleared: Clearing | None = None

    @property
    def went(self) -> Moment:
        """When it had gone; else when it was there last."""
        return self.absent if self.end == "gone" and self.absent else self.last

    @property
    def code(self) -> str:
        """The code in words, with the name of its signal."""
        spn, fmi, raw = self.key
        return (f"spn {spn} fmi {fmi}" if raw is None else f"raw {raw}") + (f" {self.name}" if self.name else "")


def lamp_signals(group: Group) -> dict[str, str]:
    """The lamps in the first byte of a group, by their labels: what they are called."""
    found = {}
    for signal in group.signals:
        if not signal.repeated and signal.kind != "dtc" and signal.span.stop <= 8:
            digits = re.search(r"(\d+)$", signal.label)
            number = signal.spn if signal.spn is not None else int(digits.group(1)) if digits else None
            found[signal.label] = LAMPS.get(number or 0, signal.label)
    return found


class UnitCodes:
    """The codes that one unit sends in one group."""

    def __init__(self, unit: str, group: Group, period: int | None) -> None:
        self._unit, self._group = unit, group
        self._lamps = lamp_signals(group)
        self._limit = None if period is None else PERIODS * period * SECOND // 1000
        self._last: Moment | None = None
        self.open: dict[CodeKey, Episode] = {}

    def take(self, at: Moment, lines: list[str]) -> Iterator[Episode]:
        """Takes a message; the codes that have gone by it."""
        if self._is_long(self._last, at):
            yield from self.close()
        self._last = at
        codes, lamps = self._said(lines)
        for key, (count, name) in codes.items():
            known = self.open.get(key)
            if known and known.absent and self._is_long(known.last, at):
                yield self._ended(key, "gone")
                known = None
            if known is None:
                state = STATES.get(self._group.pgn, self._group.label)
                known = self.open[key] = Episode(self._unit, self._group.label, state, key, name, at, at, (count, count))
            known.last, known.absent, known.counts = at, None, (known.counts[0], count)
            known.lamps |= lamps
        for key, known in list(self.open.items()):
            if key not in codes:
                known.absent = known.absent or at
                if self._limit is None or at.time is None or self._is_long(known.last, at):
                    yield self._ended(key, "gone")

    def close(self, is_end: bool = False) -> Iterator[Episode]:
        """The codes that are over since the unit sends none any more; at the end of the log those that are left."""
        for key, known in list(self.open.items()):
            yield self._ended(key, "open" if is_end else "silent" if known.absent is None else "gone")

    def finish(self, at: Moment) -> Iterator[Episode]:
        """The codes that are left at the end of the log."""
        yield from self.close(not self._is_long(self._last, at))

    def _ended(self, key: CodeKey, end: str) -> Episode:
        known = self.open.pop(key)
        known.end = end
        return known

    def _is_long(self, before: Moment | None, at: Moment) -> bool:
        """Whether more than three periods lie between two moments."""
        if before is None or self._limit is None or before.time is None or at.time is None:
            return False
        return at.time - before.time > self._limit

    def _said(self, lines: list[str]) -> tuple[dict[CodeKey, tuple[int, str]], set[str]]:
        """The codes of a message, each with its count and the name of its signal; and the lamps that are on."""
        codes: dict[CodeKey, tuple[int, str]] = {}
        lamps = set()
        for line in lines:
            label, _, said = line.strip().partition(" ")
            state, _, detail = said.partition(" ")
            if state == "dtc" and (found := CODE.fullmatch(detail)):
                spn, fmi, raw = (None if number is None else int(number) for number in found.groups()[:3])
                codes[spn, fmi, raw] = int(found.group(4)), found.group(5) or ""
            elif label in self._lamps and state == "value" and detail.split()[0] != "0":
                lamps.add(self._lamps[label])
        return codes, lamps


class Codes:
    """The trouble codes of a log."""

    def __init__(self, tables: Tables) -> None:
        self._groups = {group.label: group for group in groups_of(tables)}
        self._flows = tables.flows
        self._sent: dict[tuple[str, str], UnitCodes] = {}
        self._clearings: list[Clearing] = []

    def episodes(self, reports: Iterable[Report], clock: Clock, ended: Callable[[], int | None]) -> list[Episode]:
        """The codes with when they came and went, in the order in which they came; `ended` is the last time of the log, when that was read."""
        found: list[Episode] = []
        at = Moment(0, None)
        for report in reports:
            time = clock.see(report.line, report.time)
            at = Moment(report.line, None if time is None else time + clock.shift)
            if isinstance(report, Message) and report.group in self._groups:
                found += map(self._with_clearing, self._of(report).take(at, report.signals))
            elif isinstance(report, Request) and report.pgn in CLEARS:
                self._clearings.append(Clearing(at, report.sender.shown, report.to.shown, report.pgn))
            elif isinstance(report, Acknowledgement) and report.pgn in CLEARS and report.word in REFUSALS:
                self._clearings = [one for one in self._clearings if (one.pgn, one.to) != (report.pgn, report.sender.shown)]
        last = ended()
        if last is not None and at.time is not None:
            at = Moment(at.line, max(at.time, last + clock.shift))
        for sent in self._sent.values():
            found += map(self._with_clearing, sent.finish(at))
        return sorted(found, key=lambda episode: (episode.came.line, episode.unit, str(episode.key)))

    def _of(self, message: Message) -> UnitCodes:
        """What its sender sends in a message's group."""
        key = message.sender.shown, message.group
        if key not in self._sent:
            group, flow = self._groups[message.group], self._flows[message.flow - 1] if message.flow else None
            period = flow.period if flow and not flow.on_request else None
            self._sent[key] = UnitCodes(key[0], group, period or (DM1_PERIOD if group.pgn == ACTIVE else None))
        return self._sent[key]

    def _with_clearing(self, episode: Episode) -> Episode:
        """A code with who cleared it: who asked for that between its last message and the first without it."""
        if episode.end == "gone" and episode.absent:
            pgn = self._groups[episode.group].pgn
            episode.cleared = next((one for one in reversed(self._clearings) if one.to in (episode.unit, "all") and pgn in CLEARS[one.pgn][1]
                                    and episode.last.line < one.at.line < episode.absent.line), None)
        return episode


def groups_of(tables: Tables) -> list[Group]:
    """The groups that have trouble codes."""
    return [group for group in tables.groups if any(signal.kind == "dtc" for signal in group.signals)]
