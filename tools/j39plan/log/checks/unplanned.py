"""What goes before planned frames without being planned: how urgent it is, and how much of it comes in the time that a frame may wait."""

import math
from bisect import bisect_left, bisect_right
from collections import Counter
from collections.abc import Mapping
from dataclasses import dataclass, field
from typing import NamedTuple

from j39plan import program
from j39plan.j1939 import GLOBAL_ADDRESS, IDENTIFIERS, REQUEST, identifier_of
from j39plan.log.checks.deviations import Found
from j39plan.log.clock import MILLISECOND, milliseconds
from j39plan.plan.answers import load_of
from j39plan.plan.tables import Tables

MICROSECOND = 1000

# So many times are kept before those are dropped that count no more.
KEPT = 4096

# The greatest identifier of a request.
REQUESTS = identifier_of(6, REQUEST, GLOBAL_ADDRESS)


class Bound(NamedTuple):
    """A flow by its number, within which time in nanoseconds its frames are on the bus by `load`, and below which identifier unplanned frames may
    go before them: those of a unit whose controller keeps no order may wait for any frame."""

    number: int
    within: int
    identifier: int


class Bounds(NamedTuple):
    """The bounds of the flows whose messages have one, and how long a message of each flow, and a request of each unit that asks, may wait on the
    bus once it is queued, as far as `load` tells it."""

    flows: list[Bound]
    waits: dict[int, int]
    requests: dict[str, int]


def bounds_of(plan: str, tables: Tables) -> Bounds:
    """What `load` has of the flows."""
    if tables.timing is None:
        return Bounds([], {}, {})
    load = load_of(program.call(["load", "--", plan])[1])
    delays = load.delays if load else []
    within = {delay.flow: delay.within * MICROSECOND for delay in delays if delay.within is not None}
    short = {delay.flow for delay in delays if delay.flow in within and delay.frames == 1}
    greatest = {number: greatest_identifier(tables, number) for number in range(1, len(tables.flows) + 1)}
    without_order = {unit.label for unit in tables.units if unit.queue == "any"}
    flows = [Bound(number, within[number], IDENTIFIERS if tables.flows[number - 1].sender in without_order else greatest[number]) for number in sorted(short)]
    queued = {number: bound - tables.flows[number - 1].jitter * MILLISECOND for number, bound in within.items()}
    waits = {number: wait_of(number, queued, short, greatest, tables.flows[number - 1].sender in without_order) for number in greatest}
    own = {number: wait for number, wait in waits.items() if wait is not None}
    asking = {request.sender for request in tables.requests} - without_order
    wait = least_behind(REQUESTS, {number: within[number] for number in short}, greatest)
    return Bounds(flows, own, {} if wait is None else dict.fromkeys(asking, wait))


def greatest_identifier(tables: Tables, number: int) -> int:
    """The greatest identifier of a flow's frames."""
    group = next(group for group in tables.groups if group.label == tables.flows[number - 1].group)
    return identifier_of(group.priority, group.pgn, GLOBAL_ADDRESS)


def wait_of(number: int, within: dict[int, int], short: set[int], greatest: dict[int, int], has_no_order: bool) -> int | None:
    """How long the first frame of a message waits at most, from when it is queued, by how long those of flows do. That of a group of several lengths may be
    a single one, which goes before the frames of each flow with a greater identifier, and so waits no longer than any of these; else the whole message's
    time is one."""
    if number in short:
        return within[number]
    behind = least_behind(greatest[number], {other: within[other] for other in short}, greatest)
    return within.get(number) if behind is None or has_no_order else behind


def least_behind(identifier: int, within: dict[int, int], greatest: dict[int, int]) -> int | None:
    """The least bound of those flows of which a frame with this identifier goes before each one."""
    return min((bound for number, bound in within.items() if greatest[number] > identifier), default=None)


@dataclass(slots=True)
class Came:
    """Frames that count for the same flows: the places of these, with how many frames in all there may be more than the most so far, when each came, and from
    which address."""

    places: list[int]
    due: float
    times: list[int] = field(default_factory=list)
    sources: list[int] = field(default_factory=list)


class Most(NamedTuple):
    """The most frames within a bound, up to a line and its time, and the address from which most of them come, with how many these are."""

    frames: int
    line: int
    at: int
    source: int
    share: int


def is_within(bound: Bound, other: Bound) -> bool:
    """Whether what counts for a flow counts for another one too; of two that are alike for the first one."""
    if (bound.within, bound.identifier) == (other.within, other.identifier):
        return other.number < bound.number
    return bound.within <= other.within and bound.identifier <= other.identifier


class Unplanned:
    """Frames that no flow has, by their times and identifiers."""

    def __init__(self, tables: Tables, bounds: list[Bound], found: Found) -> None:
        self._flows, self._timing, self._bounds, self._found = tables.flows, tables.timing, bounds, found
        self._longest = max((bound.within for bound in bounds), default=0)
        self._limits = sorted({bound.identifier for bound in bounds}) if tables.timing else []
        self._came: dict[int, Came] = {}  # by how many of these an identifier isn't below
        self._kinds: dict[int, Came] = {}  # the same by identifiers
        self._below: list[list[Came]] = [[] for _ in bounds]  # the frames that count for each flow
        self._most: dict[int, Most] = {}  # of each flow the most that came within its bound
        self._mosts = [tables.timing.unplanned if tables.timing else 0] * len(bounds)  # how many that is, or what the plan allows
        self._frames = 0  # how many came in all
        self._dues = [0] * len(bounds)  # with which one more than the most may have come of each flow
        self._is_below = [any(is_within(bound, other) for other in bounds) for bound in bounds]
        self._last = 0

    def came(self, line: int, at: int | None, identifier: int) -> None:
        """A frame that isn't planned."""
        kind = self._kinds.get(identifier) or self._kind_of(identifier)
        if at is None or kind.due == math.inf:
            return
        if at < self._last:
            self._begins_anew()
        self._last = at
        kind.times.append(at)
        kind.sources.append(identifier & 0xFF)
        self._frames += 1
        if self._frames >= kind.due:
            self._count(kind, line, at)

    def _kind_of(self, identifier: int) -> Came:
        """The frames that count for the same flows as one with this identifier."""
        first = bisect_right(self._limits, identifier)
        kind = self._came.get(first)
        if kind is None:
            places = [place for place, bound in enumerate(self._bounds) if bound.identifier > identifier and self._limits]
            kind = self._came[first] = Came(places, 0 if places else math.inf)
            for place in places:
                self._below[place].append(kind)
        self._kinds[identifier] = kind
        return kind

    def _begins_anew(self) -> None:
        """Time goes back: what came before isn't counted with what comes now."""
        for kind in self._came.values():
            kind.times.clear()
            kind.sources.clear()

    def _count(self, kind: Came, line: int, at: int) -> None:
        """How many came within the bound of each flow of which it may be more than the most so far: each frame adds one at most. Of a flow whose frames all count
        for another one too, it is only asked whether there are too many."""
        dues, mosts, frames, bounds = self._dues, self._mosts, self._frames, self._bounds
        for place in kind.places:
            if dues[place] > frames:
                continue
            number, within, _ = bounds[place]
            count = 0
            for other in self._below[place]:
                count += len(other.times) - bisect_left(other.times, at - within)
            if count > mosts[place]:
                mosts[place], self._most[number] = count, Most(count, line, at, *self._source_of(place, at - within))
            dues[place] = frames + mosts[place] + 1 - count
        kind.places = [place for place in kind.places if not self._is_below[place] or bounds[place].number not in self._most]
        kind.due = min(dues[place] for place in kind.places)
        if len(kind.times) > KEPT:
            first = bisect_left(kind.times, at - self._longest)
            del kind.times[:first], kind.sources[:first]

    def _source_of(self, place: int, since: int) -> tuple[int, int]:
        """The address from which most frames come since a time that count for a flow, with how many these are."""
        sources = Counter[int]()
        for kind in self._below[place]:
            sources.update(kind.sources[bisect_left(kind.times, since):])
        return sources.most_common(1)[0]

    def end(self, units: Mapping[int | None, str]) -> None:
        """Tells of the flow that most may go before, and who sends most of them, by the units' addresses."""
        if not self._most or self._timing is None:
            return
        bound = max((bound for bound in self._bounds if bound.number in self._most),
                    key=lambda bound: (self._most[bound.number].frames, bound.within, bound.identifier, -bound.number))
        number, within, most, flow = bound.number, bound.within, self._most[bound.number], self._flows[bound.number - 1]
        which = f"flow {number}, {flow.group} from {flow.sender} to {flow.to}"
        who, is_one = units.get(most.source), 2 * most.share > most.frames
        others = f"; {most.share} of them from {who or f'address {most.source}'}" if is_one else ""
        others += f"; and more than that before {len(self._most) - 1} other flows" if len(self._most) > 1 else ""
        text = f"{{}} frames that no flow has came within {milliseconds(within)} ms, in which they may all go before {which}"
        self._found.tell("unplanned", f"{text}: `unplanned` is {self._timing.unplanned}", most.line, most.at, most.frames, flow=number,
                         unit=who if is_one else flow.sender, detail=others)
