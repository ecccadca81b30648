"""Who is on the bus of a log, and who sends which group to whom: what a plan has to have so that `follow` can say the rest."""

from __future__ import annotations

from array import array
from collections import Counter
from collections.abc import Iterable
from dataclasses import dataclass, field
from typing import NamedTuple

from j39plan.j1939 import (
    ACKNOWLEDGEMENT, DATA_TRANSFER, CONNECTION_MANAGEMENT, FRAME_BYTES, GLOBAL_ADDRESS, NULL_ADDRESS, OTHER_SERVICES, REQUEST, SERVICES,
)
from j39plan.log.checks.transfers import CLEAR, announcement_in, is_managing
from j39plan.log.clock import nanoseconds
from j39plan.log.reports import Claim, Frame, Report, Request, Who
from j39plan.plan.schema import default_of

# The greatest number of a group that a plan can have.
LAST_GROUP = (1 << 17) - 1

# The number of the first packet of a long message.
FIRST = b"\x01"

# How many packets a receiver grants at a time, where it isn't limited.
WINDOW = default_of("unit", "window")

# Of so many messages of a way it is kept when each began, and its first byte.
KEPT = 4096

# Somebody on the bus: by the NAME that it claims, as 16 hex digits, or by the address from which it sends and of which no claim came.
Box = str | int

# Who sends a group to whom, None for all.
Way = tuple[int, Box, Box | None]


# The first byte of a message, None where no packet came; its length; its priority, None where it is a long one.
Kind = tuple[int | None, int, int | None]


@dataclass
class Traffic:
    """What came on one way: how often messages of each kind began; of the first ones when they did, in nanoseconds, with their first bytes."""

    kinds: Counter[Kind] = field(default_factory=Counter)
    times: array[int] = field(default_factory=lambda: array("q"))
    firsts: array[int] = field(default_factory=lambda: array("B"))

    def take(self, kind: Kind, time: str) -> None:
        """A message began."""
        self.kinds[kind] += 1
        if len(self.times) < KEPT and kind[0] is not None and (at := nanoseconds(time)) is not None:
            self.times.append(at)
            self.firsts.append(kind[0])

    @property
    def lengths(self) -> Counter[int]:
        """How often messages of each length began."""
        found = Counter[int]()
        for (_, length, _), count in self.kinds.items():
            found[length] += count
        return found

    @property
    def priorities(self) -> Counter[int]:
        """How often those of each priority did."""
        found = Counter[int]()
        for (*_, priority), count in self.kinds.items():
            if priority is not None:
                found[priority] += count
        return found


class Announcement(NamedTuple):
    """A long message of which no packet came yet: what came on its way, its length, and its time as the log spells it."""

    seen: Traffic
    length: int
    time: str


@dataclass
class Grants:
    """How many packets a receiver granted at a time: the most, and whether it granted less than was left."""

    most: int = 0
    is_limited: bool = False


class Survey:
    """What a log has, by reports of `follow --all` with a plan that has nothing."""

    def __init__(self) -> None:
        self.claims: dict[str, list[tuple[int | None, int]]] = {}  # of each NAME the addresses that it claimed, None of none, with the line of each
        self.first: dict[Box, int] = {}  # the line at which each was heard first
        self.ways: dict[Way, Traffic] = {}
        self.asked: set[int] = set()  # addresses that are asked for something
        self.granted: dict[Box, Grants] = {}
        self.frames = 0
        self.others: Counter[int] = Counter()  # groups of services that a log can't tell who needs: by number
        self.beyond: Counter[int] = Counter()  # numbers that no plan can have
        self.nobody: Counter[int] = Counter()  # addresses that nobody may send from
        self._left: dict[tuple[Box, Box | None], int] = {}  # packets of a long message that a receiver didn't grant yet
        self._announced: dict[tuple[Box, Box | None], Announcement] = {}

    def take(self, reports: Iterable[Report]) -> None:
        """Takes all reports of a log."""
        for report in reports:
            if isinstance(report, Frame):
                self._frame(report)
            elif isinstance(report, Claim):
                self._claim(report)
            elif isinstance(report, Request):
                self._asks(report)
        for pair in list(self._announced):
            self._begins(pair, None)

    def box(self, who: Who) -> Box | None:
        """Who somebody is; None of all, and of one without an address. An address that nobody claimed until then may be claimed later on."""
        return who.name or who.address

    def _claim(self, claim: Claim) -> None:
        """A claim, or that there was no address to claim."""
        name = claim.who.name or ""
        known = self.claims.setdefault(name, [])
        if not known or known[-1][0] != claim.who.address:
            known.append((claim.who.address, claim.line))
        self.first.setdefault(name, claim.line)

    def _sends(self, line: int, who: Who) -> Box | None:
        """Somebody sends something; None where nobody may send so."""
        if who.name is None and who.address in (NULL_ADDRESS, GLOBAL_ADDRESS, None):
            if who.address is not None:
                self.nobody[who.address] += 1
            return None
        box = self.box(who)
        assert box is not None
        if box not in self.first:
            self.first[box] = line
        return box

    def _asks(self, request: Request) -> None:
        """A request."""
        self.frames += 1
        if request.sender.address != NULL_ADDRESS:  # who has no address may ask for claims
            self._sends(request.line, request.sender)

    def _frame(self, frame: Frame) -> None:
        """A frame of any other group."""
        self.frames += 1
        sender = self._sends(frame.line, frame.sender)
        if sender is None or frame.pgn == ACKNOWLEDGEMENT:
            return
        if frame.pgn == DATA_TRANSFER:
            if frame.data[:1] == FIRST and len(frame.data) == FRAME_BYTES:
                self._begins((sender, self.box(frame.to)), frame.data[1])
        elif frame.pgn == CONNECTION_MANAGEMENT:
            self._manages(frame, sender)
        elif frame.pgn > LAST_GROUP:
            self.beyond[frame.pgn] += 1
        elif frame.pgn in SERVICES or frame.pgn in OTHER_SERVICES:
            self.others[frame.pgn] += frame.pgn != REQUEST
        elif frame.data:
            self._way(frame.pgn, sender, frame.to).take((frame.data[0], len(frame.data), frame.priority), frame.time)

    def _way(self, pgn: int, sender: Box, to: Who) -> Traffic:
        """What came on a way so far."""
        way = pgn, sender, self.box(to)
        seen = self.ways.get(way)
        if seen is None:
            seen = self.ways[way] = Traffic()
        return seen

    def _manages(self, frame: Frame, sender: Box) -> None:
        """A frame that announces a long message, or that clears packets of one to be sent."""
        if not is_managing(frame):
            return
        announced = announcement_in(frame)
        if announced and announced.is_sound and announced.pgn <= LAST_GROUP and announced.pgn not in SERVICES | OTHER_SERVICES:
            pair = sender, self.box(frame.to)
            self._begins(pair, None)
            self._announced[pair] = Announcement(self._way(announced.pgn, sender, frame.to), announced.length, frame.time)
            self._left[pair] = min(frame.data[3], frame.data[4])
        elif frame.data[0] == CLEAR and frame.data[1]:
            self._clears(frame, sender)

    def _begins(self, pair: tuple[Box, Box | None], first: int | None) -> None:
        """The first packet of a message comes, with this byte, or none does any more."""
        announced = self._announced.pop(pair, None)
        if announced is not None:
            announced.seen.take((first, announced.length, None), announced.time)

    def _clears(self, frame: Frame, sender: Box) -> None:
        """A receiver clears so many packets to be sent: less than it might, where it has a limit."""
        left = self._left.get((self.box(frame.to) or 0, sender))
        granted = self.granted.setdefault(sender, Grants())
        granted.most = max(granted.most, frame.data[1])
        granted.is_limited |= left is not None and frame.data[2] == 1 and frame.data[1] < left

    @property
    def silent(self) -> list[int]:
        """The addresses from which something came and which nobody ever claimed, and those to which a group goes."""
        claimed = {address for claims in self.claims.values() for address, _ in claims}
        met = [box for box in self.first if isinstance(box, int)] + [to for _, _, to in self.ways if isinstance(to, int)]
        return sorted(address for address in set(met) if address not in claimed and address not in (NULL_ADDRESS, GLOBAL_ADDRESS))
