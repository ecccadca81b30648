"""How much a bus has left: of each flow what is left of its deadline, and how many further frames come in before the first flow is late."""

from __future__ import annotations

from collections.abc import Iterator
from itertools import islice
from typing import NamedTuple

from j39plan import program
from j39plan.j1939 import FRAME_BYTES, NAME_FIELDS, OTHER_SERVICES, PDU2, PROPRIETARY, SERVICES
from j39plan.mend.addresses import free
from j39plan.mend.edits import Change
from j39plan.mend.judge import Draft, Judge, greatest
from j39plan.plan.answers import Delay
from j39plan.plan.schema import ABSENT, Value, knows, most_of
from j39plan.plan.tables import Flow
from j39plan.plan.text import Labels, Table
from j39plan.text_tables import aligned

# How far apart the further frames come, in ms.
DISTANCES = (10, 100, 1000)

# The priorities that groups have where nothing else is said: for control, and for information (SAE J1939-21).
USUAL = (3, 6)


class FlowSlack(NamedTuple):
    """A flow by its number and in words, within how many us it is on the bus, how many it has, and what is left of them; None where no bound is
    shown."""

    flow: int
    what: str
    within: int | None
    limit: int | None
    left: int | None


class Room(NamedTuple):
    """How many further frames of 8 bytes, all of a priority and so far apart each, a bus takes; `is_most` where a plan has no room for more."""

    priority: int
    every: int
    frames: int
    is_most: bool


class Slack(NamedTuple):
    """What flows have left, and what the bus takes."""

    flows: list[FlowSlack]
    further: list[Room]


def left_of(flow: Flow, delay: Delay) -> FlowSlack:
    """What a flow has left."""
    left = delay.limit - delay.within if delay.limit is not None and delay.within is not None else None
    return FlowSlack(flow.number, flow.what, delay.within, delay.limit, left)


class Guest:
    """A further unit of a plan that sends further frames, at most so many as a plan has room for: each of a number that the plan doesn't have, the
    most urgent ones of their priority."""

    def __init__(self, draft: Draft) -> None:
        self._draft, tables = draft, draft.tables
        self._label = Labels(unit.label for unit in tables.units).label("MORE")
        self._labels = Labels(group.label for group in tables.groups)
        planned = {group.pgn for group in tables.groups} | SERVICES | OTHER_SERVICES | PROPRIETARY
        pgns = [pgn for page in (0, 1) for pgn in range(page << 16, (page << 16) + (PDU2 << 8), 256) if pgn not in planned]
        receivers = ["all", *(unit.label for unit in tables.units if not tables.live)]
        places = ((pgn, to) for pgn in pgns[:most_of("", "group") - len(tables.groups)] for to in receivers)
        has_room = len(tables.units) < most_of("", "unit")
        self._places = list(islice(places, most_of("", "flow") - len(tables.flows) if has_room else 0))
        self._groups = {pgn: self._labels.label(f"MORE_{pgn}") for pgn, _ in self._places}

    def room(self, priority: int, every: int) -> tuple[int, bool]:
        """How many frames come in, and whether a plan has no room for more."""
        def there(count: int) -> bool:
            return self._draft.mends(self._change(count, priority, every))
        most, high = len(self._places), 1
        while high < most and there(high):  # the shorter plans are asked first
            high *= 2
        count = greatest(high // 2, min(high, most), there) or 0
        return count, count == most

    def _change(self, count: int, priority: int, every: int) -> Change:
        """That so many frames come."""
        if count == 0:
            return Change()
        pgns = dict.fromkeys(pgn for pgn, _ in self._places[:count])
        groups = [Table("group", {"label": self._groups[pgn], "pgn": pgn, "priority": priority, "length": FRAME_BYTES}) for pgn in pgns]
        flows = [Table("flow", {"group": self._groups[pgn], "from": self._label, "to": to, "period": every}) for pgn, to in self._places[:count]]
        return Change(added=(self._unit(), *groups, *flows))

    def _unit(self) -> Table:
        """The unit, at an address where it is in nobody's way, with a NAME that no other one has."""
        tables = self._draft.tables
        unit = tables.units[0] if tables.units else None
        kinds = {other.kind for other in tables.units}
        first = next(at for key, at, _ in NAME_FIELDS if key == "function")
        function = next(number for number in range(255, -1, -1) if number << first not in kinds)
        identity: dict[str, Value] = {} if knows(self._draft.source.version, (ABSENT, "name", "identity")) else {"identity": 0}
        address = next(free(self._draft, unit)) if unit else 0
        return Table("unit", {"label": self._label, "address": address, "name": {**identity, "function": function}})


def slack_of(text: str, judge: Judge) -> Slack | None:
    """What a plan has left; None, which is said, of one that says nothing of its bus, or whose addresses or numbers have findings."""
    draft, load = Draft(text, judge), judge.load(text)
    if load is None or load.taken is None:
        program.say(f"no slack is known: {'the plan has no timing' if load is None else 'findings about addresses or numbers come first'}")
        return None
    flows = [left_of(draft.tables.flows[delay.flow - 1], delay) for delay in load.delays]
    guest, judge.about = Guest(draft), ", how many further frames the bus takes"
    priorities = sorted({*USUAL, *(group.priority for group in draft.tables.groups)})
    rooms = [Room(priority, every, *guest.room(priority, every)) for priority in priorities for every in DISTANCES]
    return Slack(sorted(flows, key=lambda flow: (flow.left is None, (flow.left or 0) / (flow.limit or 1))), rooms)


def slack_lines(slack: Slack) -> Iterator[str]:
    """The tables of what is left."""
    yield ""
    yield from aligned(("flow", "what", "within us", "of us", "left us", "left"), (
        (left.flow, left.what, *("-" if number is None else number for number in (left.within, left.limit, left.left)), share_of(left))
        for left in slack.flows))
    yield "Further frames of 8 bytes, before the first flow is late:"
    yield from aligned(("priority", *(f"each {every} ms" for every in DISTANCES)), (
        (priority, *(f"{room.frames}{'+' * room.is_most}" for room in slack.further if room.priority == priority))
        for priority in dict.fromkeys(room.priority for room in slack.further)))


def slack_object(slack: Slack) -> dict[str, list[dict[str, object]]]:
    """What is left, as JSON has it."""
    return {"flows": [left._asdict() for left in slack.flows], "further": [room._asdict() for room in slack.further]}


def share_of(left: FlowSlack) -> str:
    """What part of its time a flow has left."""
    return "-" if left.left is None or left.limit is None else f"{100 * left.left // left.limit} %"
