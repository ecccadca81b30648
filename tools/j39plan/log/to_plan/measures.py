"""What a log says of flows, groups and requests that are known: how far apart messages come, what their bytes are, and which of them were asked for."""

from __future__ import annotations

from array import array
from collections import Counter
from dataclasses import dataclass, field

from j39plan.j1939 import ACKNOWLEDGEMENT, FRAME_BYTES
from j39plan.log.checks.comparison import Comparison, Settings
from j39plan.log.checks.deviations import Found
from j39plan.log.checks.distances import Rule, Tolerance
from j39plan.log.checks.other_requests import BYTES, CONTROL, PGN
from j39plan.log.checks.requests import WAITED
from j39plan.log.checks.unplanned import Bounds
from j39plan.log.clock import MILLISECOND
from j39plan.log.reports import ACKNOWLEDGEMENTS, Frame, Message, Request
from j39plan.log.to_plan.groups import Bytes
from j39plan.plan.tables import Tables

# Distances are told apart by so many nanoseconds.
STEP = 10_000

# Of so many messages of a flow it is kept when each began; and what stands there where distances begin anew.
KEPT, GAP = 200_000, -1

# Characters of a text: those that can be printed, and what fills it up.
TEXT = frozenset((*range(0x20, 0x7F), 0x00, 0xFF))


@dataclass
class FlowMeasures:
    """Messages of a flow: how many, how many of them were asked for, when the first and the last one began, in nanoseconds, and how far apart
    they began, in steps; of each whole millisecond the longest distance that begins with it; and of so many of them when each began, with a gap
    where the clock was set."""

    count: int = 0
    asked: int = 0
    first: int | None = None
    last: int | None = None
    distances: Counter[int] = field(default_factory=Counter)
    longest: dict[int, int] = field(default_factory=dict)
    times: array[int] = field(default_factory=lambda: array("q"))

    def keep(self, at: int, is_anew: bool) -> None:
        """A message began."""
        if len(self.times) < KEPT:
            if is_anew:
                self.times.append(GAP)
            self.times.append(at)

    def take(self, distance: int) -> None:
        """Two messages began so far apart."""
        self.distances[distance // STEP] += 1
        whole = distance // MILLISECOND
        self.longest[whole] = max(distance, self.longest.get(whole, 0))

    def joins(self, other: FlowMeasures) -> None:
        """Answers of another flow are of this one: how often they came and were asked for."""
        self.count += other.count
        self.asked += other.asked


class Measures(Comparison):
    """A log by a plan that has its units, groups and flows, and no times."""

    def __init__(self, tables: Tables) -> None:
        super().__init__(tables, Bounds([], {}, {}), Settings(Tolerance(0, 0, ""), Rule(0, frozenset(), False)), Found())
        self.by_flow = {number: FlowMeasures() for number, _ in enumerate(tables.flows, 1)}
        self.data: dict[str, dict[int, Bytes]] = {}
        self._asks: dict[tuple[int, str], int] = {}  # when a group was asked for last, of a unit or of all
        self._answered: dict[tuple[int, str, str], int] = {}  # when a unit answered whom last
        self._last: dict[int, int] = {}  # when each flow was sent last, since the clock was set

    def request(self, line: int, at: int | None, request: Request) -> None:
        """A request."""
        if at is not None:
            self._asks[request.pgn, request.to.shown] = at
        super().request(line, at, request)

    def single(self, line: int, at: int | None, frame: Frame) -> None:
        """A frame of no planned group, as an acknowledgement by which a unit refuses what it was asked for."""
        super().single(line, at, frame)
        if frame.pgn == ACKNOWLEDGEMENT and len(frame.data) == BYTES and 0 < frame.data[CONTROL] < len(ACKNOWLEDGEMENTS):
            self._asks.pop((int.from_bytes(frame.data[PGN:], "little"), frame.sender.shown), None)

    def message(self, line: int, at: int | None, message: Message) -> None:
        """A message of a planned group."""
        super().message(line, at, message)
        length, number = len(message.data) // 2, int(message.data or "0", 16)
        of_group = self.data.setdefault(message.group, {})
        known = of_group.get(length)
        is_text = (known is None or known.is_text) and length > FRAME_BYTES and TEXT.issuperset(bytes.fromhex(message.data))
        of_group[length] = Bytes(number, number, is_text) if known is None else Bytes(known.ones & number, known.ever | number, is_text)

    def sends(self, number: int, line: int, at: int | None, waited: int = 0) -> None:
        """A message of a flow has come, by where it began, and how long it may have waited for others of its unit."""
        super().sends(number, line, at, waited)
        sent, last = self.by_flow[number], self._last.get(number)
        sent.count += 1
        sent.asked += at is not None and self._is_asked(number, at)
        if at is None:
            return
        sent.keep(at, last is None or at < last)
        if last is not None and at >= last:
            sent.take(at - last)
        self._last[number] = at
        sent.first, sent.last = at if sent.first is None else sent.first, at

    def _is_asked(self, number: int, at: int) -> bool:
        """Whether a message is the first one of its unit since a request that it may answer."""
        flow = self.flows[number - 1]
        pgn = self._pgns[flow.group]
        for to in (flow.sender, "all"):
            asked = self._asks.get((pgn, to))
            if asked is not None and 0 <= at - asked <= WAITED and self._answered.get((pgn, flow.sender, to)) != asked:
                self._answered[pgn, flow.sender, to] = asked
                return True
        return False

    def anew(self, line: int, at: int) -> None:
        """What is measured begins here."""
        super().anew(line, at)
        self._last.clear()
