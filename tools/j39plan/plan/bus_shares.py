"""What each flow and request of a plan takes of its bus, in bits a second at most, as the load that `load` prints counts it: together they are that load."""

from __future__ import annotations

from collections import defaultdict
from collections.abc import Iterable, Mapping
from fractions import Fraction
from typing import NamedTuple

from j39plan.j1939 import FRAME_BYTES, PACKET_BYTES
from j39plan.plan.tables import Flow, Group, Tables, Timing

# The bits of a frame without data and those of each byte, with the stuffed ones (ISO 11898-1); of an error frame; and the bytes of a request.
FRAME, BYTE, ERROR, REQUEST_BYTES = 80, 10, 31, 3

# A long frame, and parts in a million.
LONG, MILLION = FRAME + BYTE * FRAME_BYTES, 1_000_000

# The least number of packets of a message to all, and a number that none has more of.
LEAST_PACKETS, PACKETS_MOST = 2, 255


class Shares(NamedTuple):
    """Bits a second of flows and of requests, by their numbers, and of damaged frames."""

    flows: dict[int, Fraction]
    requests: dict[int, int]
    damage: int

    @property
    def total(self) -> Fraction:
        """Those of all."""
        return sum(self.flows.values(), Fraction(0)) + sum(self.requests.values()) + self.damage


def quotient(number: int, divisor: int) -> int:
    """A quotient, rounded up."""
    return -(-number // divisor)


def bits_a_second(timing: Timing, bits: int, period: int) -> int:
    """The bits that the bus carries in a second at most, of which so many come once in so many ms of a unit's clock."""
    return quotient(1000 * bits * (MILLION + timing.drift), period * (MILLION - timing.drift))


def session_frames(tables: Tables, group: Group, to: str) -> int:
    """The frames of a long message to one unit: RTS, packets, a CTS for as many packets as the unit takes at once, and the acknowledgement."""
    packets = quotient(group.most, PACKET_BYTES)
    window = next(unit.window for unit in tables.units if unit.label == to)
    return 2 + packets + quotient(packets, window)


class Broadcasts:
    """The flows of long messages to all of one unit: their packets take no more than the pace of the unit allows, and their announcements neither."""

    def __init__(self, timing: Timing) -> None:
        self._timing = timing
        self._flows: list[tuple[int, int, Group]] = []

    def take(self, number: int, period: int, group: Group) -> None:
        """Takes up a flow."""
        self._flows.append((number, period, group))

    def shares(self) -> dict[int, Fraction]:
        """What each flow takes."""
        timing, gap = self._timing, self._timing.broadcast_gap
        packets = {number: bits_a_second(timing, LONG * quotient(group.most, PACKET_BYTES), period) for number, period, group in self._flows}
        firsts = {number: bits_a_second(timing, LONG, period) for number, period, group in self._flows if group.length <= FRAME_BYTES}
        announced = {number: bits_a_second(timing, LONG, period) for number, period, _ in self._flows if number not in firsts}
        least = min((max(LEAST_PACKETS, quotient(group.length, PACKET_BYTES)) for number, _, group in self._flows if number in announced), default=PACKETS_MOST)
        parts: list[Mapping[int, Fraction | int]] = [self._within(packets, bits_a_second(timing, LONG, gap)), firsts, self._within(announced, bits_a_second(timing, LONG, least * gap))]
        return {number: sum((Fraction(part.get(number, 0)) for part in parts), Fraction(0)) for number, _, _ in self._flows}

    @staticmethod
    def _within(shares: dict[int, int], most: int) -> dict[int, Fraction]:
        """Shares that together are no more than a number: each in its proportion."""
        whole = sum(shares.values())
        return {number: Fraction(share) * min(most, whole) / whole for number, share in shares.items()}


def flow_shares(tables: Tables, timing: Timing, flows: Iterable[Flow]) -> dict[int, Fraction]:
    """What each flow with a period takes."""
    groups = {group.label: group for group in tables.groups}
    found: dict[int, Fraction] = {}
    broadcasts: dict[str, Broadcasts] = defaultdict(lambda: Broadcasts(timing))
    for flow in flows:
        group = groups[flow.group]
        if not flow.period:
            continue
        if group.most <= FRAME_BYTES:
            found[flow.number] = Fraction(bits_a_second(timing, FRAME + BYTE * group.most, flow.period))
        elif flow.to == "all":
            broadcasts[flow.sender].take(flow.number, flow.period, group)
        else:
            found[flow.number] = Fraction(bits_a_second(timing, session_frames(tables, group, flow.to) * LONG, flow.period))
    for unit in broadcasts.values():
        found.update(unit.shares())
    return found


def shares_of(tables: Tables, timing: Timing) -> Shares:
    """What all flows and requests, and damaged frames, take."""
    requests = {number: bits_a_second(timing, FRAME + BYTE * REQUEST_BYTES, request.period)
                for number, request in enumerate(tables.requests, 1) if request.period}
    errors = timing.errors
    damage = quotient(1000 * errors.count * (LONG + ERROR) * (MILLION + timing.drift), errors.every * MILLION) if errors else 0
    return Shares(flow_shares(tables, timing, tables.flows), requests, damage)
