"""The signals of a log: between which values each was, and which trouble codes came, by the lines that `follow` writes of them."""

from __future__ import annotations

import re
from typing import NamedTuple

from j39plan.log.clock import SECOND
from j39plan.log.readings import divided
from j39plan.plan.measures import measure_of
from j39plan.plan.tables import Tables

# How many lines of signals are counted before they are looked at.
COUNTED = 1 << 16

# What stands before the line of a trouble code where lines are counted.
MARK = b"!"

# A trouble code as `follow` writes it, below its message.
CODE = re.compile(rb"  \S+ dtc spn (\d+) fmi (\d+)")


class Spread(NamedTuple):
    """The least and the greatest value of a signal, with their lines, None where it has none; and how often it had each state."""

    least: float | None
    least_line: int | None
    most: float | None
    most_line: int | None
    states: dict[str, int]


class ValueRange:
    """The same as it is found, and into how many parts of its unit the values of the plan are."""

    __slots__ = ("parts", "least", "least_line", "most", "most_line", "states")

    def __init__(self, parts: int) -> None:
        self.parts = parts
        self.least: float | None = None
        self.most: float | None = None
        self.least_line: int | None = None
        self.most_line: int | None = None
        self.states: dict[str, int] = {}

    def spread(self) -> Spread:
        """What was found."""
        return Spread(self.least, self.least_line, self.most, self.most_line, self.states)


class CodeOfUnit(NamedTuple):
    """A trouble code: its SPN and FMI, the group and the unit (else the NAME or the address) that it is of, how often it came, and where and when
    first and last, in seconds, None in a log without times."""

    spn: int
    fmi: int
    group: str
    unit: str
    times: int
    first: tuple[int, float | None]
    last: tuple[int, float | None]


class Signals:
    """Between which values signals were, those of planned flows apart from all others, and trouble codes."""

    def __init__(self, tables: Tables) -> None:
        self._scales = {(group.label, signal.label): measure_of(signal.unit) for group in tables.groups for signal in group.signals}
        self._counts: dict[tuple[bool, str], dict[bytes, list[int]]] = {}
        self._kept = 0
        self._found: dict[bool, dict[str, ValueRange]] = {True: {}, False: {}}
        self._seen: dict[tuple[bool, str, str], ValueRange] = {}  # the same by whether a flow has the message, its group, and the label
        self._codes: dict[tuple[int, int, str, str], CodeOfUnit] = {}

    def sent(self, is_planned: bool, group: str) -> dict[bytes, list[int]]:
        """The lines that came below messages of a group that a flow has, or none, with how often each came and the first message: who finds a line
        there counts it there. Those of trouble codes stand there behind a mark, so that each one is looked at."""
        return self._counts.setdefault((is_planned, group), {})

    def count(self, known: dict[bytes, list[int]], group: str, sender: str, line: bytes, number: int, at: int | None) -> None:
        """Another line below that of a message, by those that are known, or one of a trouble code."""
        if b" dtc spn " in line:
            self._code(group, sender, line, number, at)
            line = MARK + line
            if line in known:
                known[line][0] += 1
                return
        if self._kept >= COUNTED:
            self._look()
        known[line] = [1, number]
        self._kept += 1

    def _code(self, group: str, sender: str, line: bytes, number: int, at: int | None) -> None:
        """A trouble code came."""
        told = CODE.match(line)
        if told is None:
            return
        key, place = (int(told.group(1)), int(told.group(2)), group, sender), (number, None if at is None else at / SECOND)
        known = self._codes.get(key)
        self._codes[key] = known._replace(times=known.times + 1, last=place) if known else CodeOfUnit(*key, 1, place, place)

    def codes(self) -> list[CodeOfUnit]:
        """The trouble codes, in the order in which they came first."""
        return list(self._codes.values())

    def found(self) -> tuple[dict[str, Spread], dict[str, Spread]]:
        """What was counted, by group and signal: of messages of flows, and of others."""
        self._look()
        planned, others = ({name: seen.spread() for name, seen in self._found[is_planned].items()} for is_planned in (True, False))
        return planned, others

    def _look(self) -> None:
        """Takes what was counted apart."""
        for (is_planned, group), lines in self._counts.items():
            for line, (times, number) in lines.items():
                self._take(self._found[is_planned], group, line.removeprefix(MARK), times, number)
            lines.clear()
        self._kept = 0

    def _take(self, found: dict[str, ValueRange], group: str, line: bytes, times: int, number: int) -> None:
        """Takes a line that came so often."""
        _, _, label, said = line[:-1].decode().split(" ", 3)
        seen = self._seen.get((found is self._found[True], group, label))
        if seen is None:
            signal = label.partition("[")[0]  # of a record its place stands behind the label
            scale = self._scales.get((group, signal))
            if scale is None:
                return
            seen = found.setdefault(f"{group}.{signal}", ValueRange(scale.parts))
            self._seen[found is self._found[True], group, label] = seen
        state, _, behind = said.partition(" ")
        seen.states[state] = seen.states.get(state, 0) + times
        if state == "value":
            value = float(divided(behind.partition(" ")[0], seen.parts))
            if seen.least is None or value < seen.least:
                seen.least, seen.least_line = value, number
            if seen.most is None or value > seen.most:
                seen.most, seen.most_line = value, number
