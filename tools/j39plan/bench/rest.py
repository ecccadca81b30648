"""The rest of a bus: the planned units but some, which claim, send their flows, ask and answer as the plan says."""

from __future__ import annotations

import random
from collections import Counter
from collections.abc import Callable, Iterable
from dataclasses import dataclass
from typing import Any

from j39plan.bench.agenda import Agenda
from j39plan.bench.claims import Box, Claims
from j39plan.bench.transport import Transport
from j39plan.bench.values import Values
from j39plan.j1939 import (
    ACKNOWLEDGEMENT, ADDRESS_CLAIMED, CONNECTION_MANAGEMENT, DATA_TRANSFER, FRAME_BYTES, GLOBAL_ADDRESS, NULL_ADDRESS, REQUEST, destination_in, identifier_of,
    is_pdu2, pgn_in, source_in,
)
from j39plan.plan.tables import Flow, Request, Tables

# When messages begin, after the claims, and requests without a period, in seconds.
BEGIN, ASKS = 0.4, 1.5

# Within which time an answer begins; a message of the flow that comes as soon anyway is the answer.
PROMPT, SOON = (0.005, 0.02), 0.15

# By how much a message comes later than its period, where the plan has no jitter by which it may be early.
LATE = 0.001

# The least distance of a broadcast's frames, and the priority of the transport protocol and of requests, where the plan has no `timing`.
GAP, PACKETS, ASKING = 50, 7, 6

REFUSED = 1


@dataclass
class Settings:
    """Which units are left out, the identity number of the first unit that has none in the plan, how often flows without a period are sent, in ms,
    None where they aren't, and where chance begins."""

    without: frozenset[str] = frozenset()
    serial: int = 1
    period: int | None = None
    seed: int = 1


def numbered(tables: Tables, settings: Settings) -> list[Box]:
    """The boxes of the units that are here; those of any serial number have one."""
    units = [unit for unit in tables.units if unit.label not in settings.without]
    return [Box(unit, unit.number | (settings.serial + at if unit.identity is None else 0)) for at, unit in enumerate(units)]


class Rest:
    """The units on the bench. `put` hands a frame to the bus; what others send is `heard`, and what is due is done by `wake` of the agenda, which may be one
    that others have too."""

    def __init__(self, tables: Tables, kept: Iterable[int], settings: Settings, values: Values, put: Callable[[int, bytes], None],
                 agenda: Agenda | None = None) -> None:
        self._tables, self._values, self._out, self._period = tables, values, put, settings.period
        self._chance, self.agenda = random.Random(settings.seed), agenda or Agenda()
        self.boxes = numbered(tables, settings)
        self._here = {box.unit.label: box for box in self.boxes}
        others = [unit for unit in tables.units if unit.label not in self._here]
        self.claims = Claims(self.boxes, others, kept, self.agenda, self._put, self._chance)
        timing = tables.timing
        gap, priority = (timing.broadcast_gap, timing.transport_priority) if timing else (GAP, PACKETS)
        self.transport = Transport(self.agenda, self._put, priority, gap / 1000, self._window_at)
        self.claims.left = self.transport.stop
        self._groups = values.groups()
        self.sent: Counter[int] = Counter()  # of each flow by its number
        self.skipped: Counter[int] = Counter()
        self.answered = self.refused = 0
        self.silent: set[int] = set()  # flows that aren't sent, by their numbers
        self._next: dict[int, float] = {}  # when each flow is due that has a period
        self._begin, self._is_ending = 0.0, False

    def begin(self, now: float) -> None:
        """The units come up."""
        self.agenda.now = self._begin = now
        self._put(identifier_of(ASKING, REQUEST, NULL_ADDRESS, GLOBAL_ADDRESS), ADDRESS_CLAIMED.to_bytes(3, "little"))
        self.claims.begin()
        for flow in self._tables.flows:
            period = flow.period or self._period
            if flow.sender in self._here and not flow.on_request and period:
                spread = period / 1000 - (BEGIN if period > 2000 * BEGIN else 0)
                self._at_period(flow, now + BEGIN + self._chance.random() * spread)
        for request in self._tables.requests:
            if request.sender in self._here:
                self.agenda.after(ASKS + self._chance.random(), self._asks, request)

    def ends(self) -> None:
        """No long message begins any more."""
        self._is_ending = True

    def stop(self) -> None:
        """All units stop, and give their addresses back."""
        self.agenda.clear()
        self.claims.give_back()

    def _put(self, identifier: int, data: bytes) -> None:
        """A frame of a unit here, which the others here hear."""
        self._out(identifier, data)
        self._hear(identifier, data)

    def heard(self, now: float, identifier: int, data: bytes) -> None:
        """A frame of somebody else."""
        self.agenda.now = max(now, self.agenda.now)
        self._hear(identifier, data)

    def _hear(self, identifier: int, data: bytes) -> None:
        """A frame on the bus."""
        pgn, source, to = pgn_in(identifier), source_in(identifier), destination_in(identifier)
        if pgn == ADDRESS_CLAIMED and len(data) == FRAME_BYTES and source != GLOBAL_ADDRESS:
            self.claims.heard(source, data)
        elif pgn == REQUEST and len(data) == 3:
            self.agenda.after(0, self._asked, int.from_bytes(data, "little"), source, to)
        elif pgn == CONNECTION_MANAGEMENT and len(data) == FRAME_BYTES:
            self.agenda.after(0, self.transport.managed, source, to, data)
        elif pgn == DATA_TRANSFER and to != GLOBAL_ADDRESS:
            self.agenda.after(0, self.transport.packet, source, to, data)

    def _window_at(self, address: int) -> int | None:
        """How many packets the unit at an address takes at a time, None where it isn't here."""
        box = self.claims.at(address)
        return box.unit.window if box and box.is_ready(self.agenda.now) else None

    def _at_period(self, flow: Flow, time: float) -> None:
        """A flow is due at a time."""
        self._next[flow.number] = time
        self.agenda.at(time, self._tick, flow, time)

    def _tick(self, flow: Flow, due: float) -> None:
        """A flow is due: its message is sent, and the next one is due by its period."""
        if self._next.get(flow.number) == due:
            self._at_period(flow, self._after(flow, due))
            self._message(flow)

    def _after(self, flow: Flow, due: float) -> float:
        """When the next message of a flow is due: on the grid of its period, where the plan has jitter for a timer that is late; else so long after this
        one, in the middle between its period and its pause, or a little behind its period."""
        every, now = flow.period or self._period or 0, self.agenda.now
        period = every / 1000
        if flow.jitter and now - due < flow.jitter / 2000:
            return due + period
        spare = (flow.pause - every) / 2000 if flow.pause else LATE
        return now + period + min(spare, period / 4)

    def _message(self, flow: Flow) -> None:
        """A message of a flow."""
        box, group = self._here[flow.sender], self._groups[flow.group]
        if self._is_ending and group.most > FRAME_BYTES or flow.number in self.silent:
            return
        if not box.is_ready(self.agenda.now) or box.address is None:
            self.skipped[flow.number] += 1
            return
        data = self._values.data(flow.group, flow.sender, self.agenda.now - self._begin)
        to, is_there = (GLOBAL_ADDRESS, True) if flow.to == "all" else self.claims.address_of(flow.to)
        if to is None or len(data) > FRAME_BYTES and not is_there:
            self.skipped[flow.number] += 1
        elif len(data) <= FRAME_BYTES:
            self._put(identifier_of(group.priority, group.pgn, box.address, GLOBAL_ADDRESS if is_pdu2(group.pgn) else to), data)
            self.sent[flow.number] += 1
        elif to == GLOBAL_ADDRESS:
            self.transport.broadcast(box.address, group.pgn, data, lambda whole: self._counts(flow.number, whole))
        elif not self.transport.send(box.address, to, group.pgn, data, lambda whole: self._counts(flow.number, whole)):
            self.skipped[flow.number] += 1

    def _counts(self, number: int, is_whole: bool) -> None:
        """A long message of a flow is on its way, or could not be sent."""
        (self.sent if is_whole else self.skipped)[number] += 1

    def _asks(self, request: Request) -> None:
        """A unit here asks for a group."""
        box, to = self._here[request.sender], GLOBAL_ADDRESS if request.to == "all" else self.claims.address_of(request.to)[0]
        is_spared = to in self.transport.spared or to == GLOBAL_ADDRESS and bool(self.transport.spared)
        if box.is_ready(self.agenda.now) and box.address is not None and to is not None and not is_spared:
            self._put(identifier_of(ASKING, REQUEST, box.address, to), self._groups[request.group].pgn.to_bytes(3, "little"))
        if request.period:
            self.agenda.after(request.period / 1000 + LATE, self._asks, request)

    def _asked(self, pgn: int, source: int, to: int) -> None:
        """A group is asked for, of a unit or of all."""
        if pgn == ADDRESS_CLAIMED:
            self.claims.asked(to)
            return
        for box in self.boxes:
            if box.is_ready(self.agenda.now) and to in (GLOBAL_ADDRESS, box.address) and box.address != source:
                flow = self._answer_of(box, pgn, source, to)
                if flow:
                    self.agenda.after(self._chance.uniform(*PROMPT), self._answers, flow)
                elif to != GLOBAL_ADDRESS:
                    self.agenda.after(self._chance.uniform(*PROMPT), self._refuses, box, pgn, source)

    def _answer_of(self, box: Box, pgn: int, source: int, to: int) -> Flow | None:
        """The flow by which a unit answers: one to who asks where it alone was asked, else one to all."""
        flows = [flow for flow in self._tables.flows if flow.sender == box.unit.label and self._groups[flow.group].pgn == pgn]
        direct = [flow for flow in flows if flow.to != "all" and self.claims.address_of(flow.to)[0] == source]
        to_all = [flow for flow in flows if flow.to == "all"]
        return next(iter(direct + to_all if to != GLOBAL_ADDRESS else to_all + direct), None)

    def _answers(self, flow: Flow) -> None:
        """A flow answers; one with a period begins it anew, or answers by the message that comes soon."""
        self.answered += 1
        due = self._next.get(flow.number)
        if due is not None and due - self.agenda.now <= SOON:
            return
        if due is not None:
            self._at_period(flow, self._after(flow, self.agenda.now))
        self._message(flow)

    def _refuses(self, box: Box, pgn: int, source: int) -> None:
        """A unit doesn't have what it is asked for."""
        if box.address is not None:
            self.refused += 1
            data = bytes((REFUSED, 0xFF, 0xFF, 0xFF, source, *pgn.to_bytes(3, "little")))
            self._put(identifier_of(ASKING, ACKNOWLEDGEMENT, box.address, GLOBAL_ADDRESS), data)

    def rows(self) -> dict[str, Any]:
        """What the units have done, as plain values."""
        units = [{"unit": box.unit.label, "name": f"{box.number:016X}" if box.unit.claims else None, "address": box.address} for box in self.boxes]
        flows = [{"flow": flow.number, "group": flow.group, "from": flow.sender, "to": flow.to, "sent": self.sent[flow.number],
                  "not_sent": self.skipped[flow.number]} for flow in self._tables.flows if flow.sender in self._here]
        tally = self.transport.tally
        return {"units": units, "flows": flows, "answered": self.answered, "refused": self.refused, "defended": self.claims.defences, "moved": self.claims.moves,
                "long": {"sent": tally.sent, "received": tally.received, "given_up": tally.given_up}}
