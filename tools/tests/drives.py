"""Simulated drives: the log of a bus on which the units of a plan do what it says."""

import heapq
import itertools
import random
from collections.abc import Iterator

from j39plan.j1939 import ADDRESS_CLAIMED, GLOBAL_ADDRESS, REQUEST, identifier_of
from j39plan.log.message_lines import frames_of
from j39plan.plan.tables import Flow, Group, Tables

# When units claim their addresses, and when the first messages come, in ms; how often a flow is sent that has no period, and a request.
CLAIM, BEGIN, USUAL, ASKED = 10, 300, 200, 3000

# How much longer than its shortest messages a group of several lengths is at most.
LONGER = 40

# When a log begins, in seconds.
EPOCH = 1_700_000_000

# How long a frame is on the bus, in ms, and how far apart packets of broadcasts and of sessions are.
FRAME, GAP, QUICK = 0.54, 52, 3


class Drive:
    """Events of a bus in the order of their times; frames that wait for it go by their identifiers."""

    def __init__(self, tables: Tables, seconds: float, seed: int = 1) -> None:
        self._random, self._heap, self._number = random.Random(seed), list[tuple[float, int, int, bytes]](), itertools.count()
        self._groups = {group.label: group for group in tables.groups}
        self._units = {unit.label: unit for unit in tables.units}
        self._end, self._busy = 1000 * seconds, dict[tuple[str, str], float]()
        for number, unit in enumerate(tables.units):
            if unit.claims:
                name = unit.number | (0 if unit.identity is not None else 7000 + number)
                self._queue(CLAIM + number, identifier_of(6, ADDRESS_CLAIMED, unit.address), name.to_bytes(8, "little"))
        for flow in tables.flows:
            if not flow.on_request:
                self._sends(flow)
        self._ask(tables)

    def _queue(self, at: float, identifier: int, data: bytes) -> None:
        heapq.heappush(self._heap, (at, next(self._number), identifier, data))

    def _lasts(self, flow: Flow) -> int:
        """How long a message of a flow is on its way at most."""
        longest = min(self._groups[flow.group].most, self._groups[flow.group].length + LONGER)
        return (-(-longest // 7) + 1) * GAP if longest > 8 else 0

    def _sends(self, flow: Flow) -> None:
        """The messages of a flow in its period."""
        lasts = self._lasts(flow)
        period = flow.period or USUAL + 10 * lasts
        at = BEGIN + self._random.random() * period
        while at + lasts < self._end:
            self._message(at + self._random.random() * flow.jitter, flow)
            at += period

    def _ask(self, tables: Tables) -> None:
        """Requests, and their answers."""
        for request in tables.requests:
            for at in range(BEGIN + 100, int(self._end), max(ASKED, request.period or 0)):
                pgn, to = self._groups[request.group].pgn, GLOBAL_ADDRESS if request.to == "all" else self._units[request.to].address
                asked = at + self._random.random() * 50
                self._queue(asked, identifier_of(6, REQUEST, self._units[request.sender].address, to), pgn.to_bytes(3, "little"))
                for flow in tables.flows:
                    is_asked = flow.sender == request.to or request.to == "all" and flow.sender != request.sender
                    if flow.on_request and flow.group == request.group and is_asked and flow.to in (request.sender, "all"):
                        self._message(asked + 20, flow)

    def _message(self, at: float, flow: Flow) -> None:
        """A message of a flow, frame by frame."""
        group, to = self._groups[flow.group], GLOBAL_ADDRESS if flow.to == "all" else self._units[flow.to].address
        apart = GAP if to == GLOBAL_ADDRESS else QUICK
        if group.most > 8:  # a unit sends one of them at a time
            at = max(at, self._busy.get((flow.sender, flow.to), 0))
            self._busy[flow.sender, flow.to] = at + (-(-min(group.most, group.length + LONGER) // 7) + (1 if apart == GAP else 4)) * apart
        identifier = identifier_of(group.priority, group.pgn, self._units[flow.sender].address, to)
        if group.most > 8 and group.pgn >> 8 & 0xFF >= 240:
            identifier = identifier & ~0xFF00 | (group.pgn & 0xFF) << 8
        for number, (frame, data) in enumerate(self._frames(identifier, to, self._data(group))):
            self._queue(at + number * apart, frame, data)

    def _frames(self, identifier: int, to: int, data: bytes) -> Iterator[tuple[int, bytes]]:
        """The frames of a message; one of more than 8 bytes to one receiver is announced to it, whatever its number."""
        if len(data) <= 8 or to == GLOBAL_ADDRESS or identifier >> 16 & 0xFF < 240:
            yield from frames_of(identifier, data)
            return
        pgn = (identifier >> 8 & 0x3FFFF).to_bytes(3, "little")
        for frame, packet in frames_of(identifier_of(6, 0xEF00, identifier & 0xFF, to), data):
            yield frame, packet[:5] + pgn if frame >> 16 & 0xFF == 0xEC else packet

    def _data(self, group: Group) -> bytes:
        """Bytes of a message, with what tells its group from others of its number."""
        length = self._random.choice((group.length, min(group.most, group.length + LONGER)))
        number = int.from_bytes(self._random.randbytes(length), "little")
        if group.when:
            mask = (1 << group.when.bits) - 1 << group.when.span.start
            number = number & ~mask | group.when.value << group.when.span.start
        return number.to_bytes(length, "little")

    def frames(self) -> Iterator[tuple[float, int, bytes]]:
        """The frames of the log, by when each ends in ms: one begins when the bus is free, of several that of the smallest identifier."""
        waiting, free = list[tuple[int, int, bytes]](), 0.0
        while self._heap or waiting:
            now = free if waiting else max(free, self._heap[0][0])
            while self._heap and self._heap[0][0] <= now:
                _, number, identifier, data = heapq.heappop(self._heap)
                heapq.heappush(waiting, (identifier, number, data))
            identifier, _, data = heapq.heappop(waiting)
            free = now + FRAME
            yield free, identifier, data

    def lines(self) -> Iterator[str]:
        """The lines of the log."""
        for at, identifier, data in self.frames():
            yield line_of(at, identifier, data)


def line_of(at: float, identifier: int, data: bytes) -> str:
    """The line of a frame at a time in ms."""
    return f"({EPOCH + at / 1000:.6f}) can0 {identifier:08X}#{data.hex().upper()}\n"


def log_of(plan: str, seconds: float, seed: int = 1) -> str:
    """The log of a drive by a plan's file."""
    return "".join(Drive(Tables.of(plan), seconds, seed).lines())
