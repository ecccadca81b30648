"""Sessions of the tester with the box by the transport protocol of SAE J1939-21, frame by frame, so that each frame can be another one."""

from __future__ import annotations

from typing import NamedTuple

from j39plan.j1939 import CONNECTION_MANAGEMENT, DATA_TRANSFER, FRAME_BYTES, GLOBAL_ADDRESS, PACKET_BYTES
from j39plan.log.checks.transfers import ABORT, BAM, CLEAR, RTS, WHOLE
from j39plan.plan.tables import Flow
from j39plan.probe.limits import AGAIN, ENDS, T1, T2, TR
from j39plan.probe.tester import Frame, Tester, Unsure, forbid, need, needed

# A reason of an Abort that the standard has left free: the tester has seen enough.
ENOUGH = 250

# How far apart the tester's packets are, in seconds.
APART = 0.005

# That nothing more came.
SILENCE = 0

# Control bytes of a receiver.
ANSWERS = CLEAR, WHOLE, ABORT


class Way(NamedTuple):
    """How the tester sends a message: which packets it leaves out once, or sends twice; how many one CTS may ask for, by its RTS; how far apart packets are;
    and behind how many it stops."""

    left_out: int = 0
    twice: int = 0
    most: int = 255
    apart: float = APART
    stops: int | None = None


class End(NamedTuple):
    """How a message of the tester ended: by the last frame's control byte, SILENCE of none, that frame, and the RTS."""

    how: int
    frame: Frame | None
    rts: Frame

    @property
    def text(self) -> str:
        """The end in words."""
        if self.how == ABORT and self.frame:
            return f"Abort {self.frame.data[1]}"
        return {WHOLE: "EOMA", SILENCE: "silence"}.get(self.how, "CTS")


class Giving:
    """A long message of the tester to the box."""

    def __init__(self, bench: Tester, tool: int, pgn: int, size: int, way: Way) -> None:
        self._bench, self._tool, self._pgn, self._size, self._way = bench, tool, pgn, size, way
        self._count = -(-size // PACKET_BYTES)
        self._came: set[int] = set()  # the packets that the box has
        self._is_left = not way.left_out
        self.number = 0  # how many packets were sent

    def begins(self) -> Frame:
        """The tester announces it."""
        return self._bench.manages(self._tool, self._pgn, RTS, self._size & 255, self._size >> 8, self._count, self._way.most)

    def answered(self, since: Frame, seconds: float) -> Frame | None:
        """The next answer of the box."""
        return self._bench.managed(self._tool, self._pgn, self._bench.limit(seconds), since, *ANSWERS)

    def goes(self) -> End:
        """It goes as the box permits, until it ends, or the tester stops."""
        rts = self.begins()
        return self.goes_on(rts, self.answered(rts, TR))

    def goes_on(self, rts: Frame, answer: Frame | None) -> End:
        """It goes on from an answer."""
        if answer:
            self._bench.measures("CTS or EOMA", rts, answer, TR)
        while answer is not None and answer.data[0] != ABORT:
            if answer.data[0] == WHOLE:
                self._is_whole(rts, answer)
                return End(WHOLE, answer, rts)
            stopped, last, seconds = self._permitted(answer)
            if stopped:
                return End(ABORT if stopped.is_box and stopped.data[0] == ABORT else CLEAR, stopped, rts)
            granted, answer = answer, self.answered(answer, last.at - answer.at + seconds)
            if answer and seconds == TR and granted.data[1]:
                self._bench.measures("CTS or EOMA", last, answer, TR)
        return End(ABORT if answer else SILENCE, answer, rts)

    def _is_whole(self, rts: Frame, answer: Frame) -> None:
        """The box acknowledges: all of it came, and is what was announced."""
        missing = sorted(set(range(1, self._count + 1)) - self._came)
        need(not missing, f"acknowledges a message of which packet {', '.join(map(str, missing))} didn't come", rts, answer)
        size, count = int.from_bytes(answer.data[1:3], "little"), answer.data[3]
        need((size, count) == (self._size, self._count), f"acknowledges {size} bytes in {count} packets, sent were {self._size} in {self._count}", rts, answer)

    def _permitted(self, answer: Frame) -> tuple[Frame | None, Frame, float]:
        """Packets are permitted, or none for now: they are sent. By which frame it stops, behind which one an answer comes, and within which time."""
        granted, first = answer.data[1:3]
        if granted == 0:
            return None, answer, T2
        self._may_permit(answer, granted, first)
        last, seconds = answer, TR
        for number in range(first, first + granted):
            if self.number == self._way.stops:
                return last, last, seconds
            if number == self._way.left_out and not self._is_left:
                self._is_left, seconds = True, T2 + TR if granted == 1 else T1 + TR  # behind a CTS T2 runs, behind a packet T1
                continue
            for _ in range(2 if number == self._way.twice else 1):
                last = self._packet(number)
            if ends := self._bench.managed(self._tool, self._pgn, self._way.apart, answer, ABORT):
                return ends, ends, seconds
        return None, last, seconds

    def _may_permit(self, answer: Frame, granted: int, first: int) -> None:
        """The box permits no more than its window, and what was announced."""
        window, expected = self._bench.planned.unit.window, max(self._came | {self._way.left_out if self._is_left else 0}, default=0) + 1
        need(granted <= window, f"permits {granted} packets at once, its window is {window}", answer)
        need(1 <= first <= expected and first + granted - 1 <= self._count, f"permits {granted} packets from {first}, of {self._count}", answer)
        if granted > self._way.most:
            self._bench.note(f"permits {granted} packets where the RTS allows {self._way.most}", answer)

    def _packet(self, number: int) -> Frame:
        """A packet is sent."""
        self.number += 1
        self._came.add(number)
        return self._bench.send(DATA_TRANSFER, bytes((number,)) + b"\xff" * PACKET_BYTES, self._tool, self._bench.there, 7)


def given(bench: Tester, tool: int, pgn: int, size: int, way: Way = Way()) -> End:
    """The tester sends the box a long message, 'not available' in all bytes."""
    return Giving(bench, tool, pgn, size, way).goes()


def taken_whole(bench: Tester, flow: Flow, why: str, way: Way = Way()) -> None:
    """A whole message of a flow to the box is taken."""
    group = bench.group(flow)
    end = given(bench, bench.address_of(flow.sender), group.pgn, max(group.length, 9), way)
    need(end.how == WHOLE, f"{group.label}: {why}, but {end.text}", end.rts, end.frame)


def opened(bench: Tester, flow: Flow) -> tuple[int, Frame]:
    """A long message of the box to one unit begins: the address of that, and the announcement."""
    group, tool = bench.group(flow), bench.address_of(flow.to)
    if flow.on_request or flow.is_asked:
        request = bench.asks(group.pgn, bench.there, tool)
        rts = needed(bench.managed(tool, group.pgn, bench.limit(T2), request, RTS), f"{group.label}: not announced, though asked for", request)
    elif flow.period:
        last = bench.frames[-1]
        rts = needed(bench.managed(tool, group.pgn, bench.now - last.at + bench.limit(3 * max(flow.period, flow.pause or 0) / 1000 + T2), last, RTS),
                     f"{group.label}: not announced within three periods")
    else:
        raise Unsure(f"{group.label}: nothing triggers it")
    size = int.from_bytes(rts.data[1:3], "little")
    need(group.length <= size <= group.most and size > FRAME_BYTES, f"{group.label}: {size} bytes are announced, not as planned", rts)
    need(rts.data[3] == -(-size // PACKET_BYTES), f"{group.label}: {rts.data[3]} packets are announced for {size} bytes", rts)
    return tool, rts


def pgn_of(rts: Frame) -> int:
    """The group that an announcement is of."""
    return int.from_bytes(rts.data[5:], "little")


def takes(bench: Tester, tool: int, rts: Frame, first: int, number: int, quiet: float = 0.1) -> list[Frame]:
    """The tester permits packets, and has them in turn, and no more for some time."""
    last, packets = bench.manages(tool, pgn_of(rts), CLEAR, number, first), []
    for wanted in range(first, first + number):
        packet = needed(bench.of_box(DATA_TRANSFER, bench.answer, last, tool), f"packet {wanted} doesn't come within {1000 * TR:.0f} ms", rts, last)
        need(packet.data[:1] == bytes((wanted,)), f"packet {packet.data[0] if packet.data else 'without a number'} comes, permitted is {wanted}", last, packet)
        need(len(packet.data) == FRAME_BYTES, f"a packet of {len(packet.data)} bytes", packet)
        bench.measures("packet", last, packet, TR)
        packets.append(packet)
        last = packet
    if quiet:
        forbid(bench.of_box(DATA_TRANSFER, quiet, last, tool), "a packet that isn't permitted", last)
    return packets


def most_of(rts: Frame) -> int:
    """How many packets the box takes in one CTS, by its announcement."""
    return min(rts.data[4] or 255, rts.data[3])


def acknowledges(bench: Tester, tool: int, rts: Frame) -> Frame:
    """The tester has all of a message."""
    return bench.manages(tool, pgn_of(rts), WHOLE, *rts.data[1:4])


def enough(bench: Tester, tool: int, rts: Frame) -> None:
    """The tester gives a message up."""
    bench.manages(tool, pgn_of(rts), ABORT, ENOUGH)
    bench.pause(TR)


def fetched(bench: Tester, tool: int, announced: Frame) -> bytes:
    """The tester takes a message of the box that is announced, to all or to one."""
    size, count = int.from_bytes(announced.data[1:3], "little"), announced.data[3]
    need(count == -(-size // PACKET_BYTES), f"{count} packets are announced for {size} bytes", announced)
    if announced.data[0] == BAM:
        packets, last = [], announced
        for wanted in range(1, count + 1):
            last = needed(bench.of_box(DATA_TRANSFER, bench.limit(T1), last, GLOBAL_ADDRESS), f"packet {wanted} of a broadcast doesn't come", last)
            need(last.data[:1] == bytes((wanted,)), f"a packet of a broadcast that isn't {wanted}", last)
            packets.append(last)
    else:
        packets = []
        while len(packets) < count:
            packets += takes(bench, tool, announced, len(packets) + 1, min(most_of(announced), count - len(packets)), 0)
        acknowledges(bench, tool, announced)
    return b"".join(packet.data[1:] for packet in packets)[:size]


def _says(bench: Tester, tool: int, since: Frame | None) -> Frame | None:
    """What the box says next of a session, while one may be open."""
    return bench.wait(lambda frame: frame.is_box and frame.pgn == CONNECTION_MANAGEMENT and frame.to == tool and frame.data[:1] in (bytes((ABORT,)), bytes((CLEAR,))),
                      bench.limit(ENDS), since)


def rests(bench: Tester, tool: int, since: Frame | None = None) -> Frame | None:
    """Whatever is open with the tester ends: a box may ask for packets again before that, as often as the standard has it. Its Abort, if it sends one."""
    for _ in range(1 + AGAIN):
        since = _says(bench, tool, since)
        if since is None:
            return None
        if since.data[0] == ABORT:
            bench.pause(ENDS)
            return since
    return None


def is_over(bench: Tester, tool: int, since: Frame) -> str:
    """How the box ends a session that the tester has left: in words; whatever is open has ended then."""
    ended = rests(bench, tool, since)
    return "silence" if ended is None else f"Abort {ended.data[1]} after {1000 * (ended.at - since.at):.0f} ms"

