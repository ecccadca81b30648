"""Two lines of vehicles, as of two model years: which vehicles both have and which only one, and few vehicles in which all that may meet does."""

from __future__ import annotations

from collections.abc import Iterable, Iterator, Sequence
from itertools import combinations
from typing import NamedTuple

from j39plan.plan.diagram import Allowed, Diagram, cover, order_of
from j39plan.plan.variants import Box, Line

# What stands before an alternative of a choice that only the old line has, or only the new one.
OLD, NEW = "-", "+"


class VehiclePair(NamedTuple):
    """A vehicle that both lines have: its alternatives by the old line and by the new one, in the order of each file."""

    old: list[str]
    new: list[str]


class VehicleCounts(NamedTuple):
    """How many vehicles each line has; how many of the choices that both have only the old line builds, with one of them, and how many only the new one."""

    old: int
    new: int
    gone: int
    gone_first: list[str]
    built: int
    built_first: list[str]


def paired(olds: Sequence[Sequence[str]], news: Sequence[Sequence[str]]) -> dict[int, int]:
    """Which choice of the new line is which of the old one: the one with which it shares most alternatives."""
    shared = sorted(((-len(set(old).intersection(new)), first, second) for first, old in enumerate(olds) for second, new in enumerate(news)))
    found: dict[int, int] = {}
    for size, first, second in shared:
        if size and first not in found and second not in found.values():
            found[first] = second
    return found


class Side:
    """One of two lines, with the alternatives that the other one has too, by the choices of both."""

    def __init__(self, line: Line, shared: dict[int, set[str]], sign: str) -> None:
        self.line, self._shared, self._sign = line, shared, sign

    def spelled(self, labels: Iterable[str]) -> list[str] | None:
        """A list of alternatives as both lines have it; None where the other one has none of those of a choice."""
        found: list[str] = []
        for number, choice in enumerate(self.line.choices):
            if some := [label for label in choice if label in labels]:
                there = [label for label in some if label in self._shared[number]] if number in self._shared else [self._sign + label for label in some]
                if not there:
                    return None
                found += there
        return found

    def nevers(self) -> list[list[str]]:
        """The nevers that a vehicle of both lines may be in."""
        return [labels for never in self.line.lists_of("never") if (labels := self.spelled(never)) is not None]

    def own(self) -> list[list[str]]:
        """The choices that only this line has."""
        return [[self._sign + label for label in choice] for number, choice in enumerate(self.line.choices) if number not in self._shared]

    def box(self, box: Box) -> Box | None:
        """A box as both lines have it; None where no vehicle of both is in it."""
        found = [self.spelled(labels) for labels in box]
        return None if None in found else [labels for labels in found if labels is not None]

    def taken(self, labels: Sequence[str]) -> list[str]:
        """The alternatives of a vehicle of both lines that this one has, in the order of its file."""
        there = {label.lstrip(self._sign) for label in labels if label[0] not in (OLD, NEW) or label[0] == self._sign}
        return [label for choice in self.line.choices for label in choice if label in there]

    def diagram(self, order: Sequence[int]) -> Diagram:
        """Its vehicles, by the choices of these numbers first."""
        rest = [number for number in range(len(self.line.choices)) if number not in order]
        return Diagram([self.line.choices[number] for number in (*order, *rest)], self.line.lists_of("never"))


class LinePair:
    """Two lines. Choices that share alternatives are one choice of both; a vehicle of one line is one of the other where it takes the same alternatives of
    these."""

    def __init__(self, old: Line, new: Line) -> None:
        pairs = paired(old.choices, new.choices)
        shared = {first: set(old.choices[first]).intersection(new.choices[second]) for first, second in pairs.items()}
        self.old = Side(old, shared, OLD)
        self.new = Side(new, {pairs[first]: labels for first, labels in shared.items()}, NEW)
        choices = [[label for label in old.choices[first] if label in labels] for first, labels in shared.items()]
        choices += self.old.own() + self.new.own()
        nevers = self.old.nevers() + self.new.nevers()
        order = order_of(choices, nevers, len(shared))
        self._size = len(shared)
        self._both = Diagram([choices[number] for number in order], nevers)
        firsts = [list(shared)[number] for number in order[:self._size]]
        self._olds, self._news = self.old.diagram(firsts), self.new.diagram([pairs[first] for first in firsts])

    def counts(self) -> VehicleCounts:
        """How many vehicles there are."""
        both = self._both.count(self._size)
        gone, built = (one.beyond(self._both, self._size) or [] for one in (self._olds, self._news))
        return VehicleCounts(self._olds.count(), self._news.count(), self._olds.count(self._size) - both, in_order(self.old.line, gone),
                      self._news.count(self._size) - both, in_order(self.new.line, built))

    def are_together(self, *labels: str) -> bool:
        """Whether a vehicle that both lines have has all of these units of the old one."""
        places = [place for place, names in self.old.line.names.items() if place[0] == "unit" and names["label"] in labels]
        spelled = self.old.box([labels for place in places for labels in self.old.line.box(place)])
        allowed = self._both.allowed(spelled) if spelled is not None else None
        return allowed is not None and self._both.some(allowed) is not None

    def vehicles(self) -> list[VehiclePair]:
        """Few vehicles that both lines have, in which each two units are together that can be, and all else that is in such a vehicle is in one."""
        wanted = [allowed for side in (self.old, self.new) for allowed in self._wanted(side)]
        return [VehiclePair(self.old.taken(labels), self.new.taken(labels)) for labels in cover(self._both, [{}, *wanted])]

    def _wanted(self, side: Side) -> Iterator[Allowed]:
        """What a vehicle has to take for each two units, and for each other table."""
        units = {str(side.line.box(place)): side.line.box(place) for place in side.line.names if place[0] == "unit"}
        boxes = [one + other for one, other in combinations(units.values(), 2)]
        boxes += [side.line.box(place) for place in side.line.names] + [[[label]] for choice in side.line.choices for label in choice]
        for box in boxes:
            spelled = side.box(box)
            allowed = self._both.allowed(spelled) if spelled is not None else None
            if allowed:
                yield allowed


def in_order(line: Line, labels: Sequence[str]) -> list[str]:
    """Alternatives in the order of a line's file."""
    return [label for choice in line.choices for label in choice if label in labels]
