"""How long messages are carried on a real bus: what comes of each, and by the times and the priority that `load` takes (SAE J1939-21)."""

from collections import Counter
from collections.abc import Callable
from dataclasses import dataclass
from typing import NamedTuple

from j39plan.j1939 import CONNECTION_MANAGEMENT, DATA_TRANSFER, FRAME_BYTES, PACKET_BYTES, RESPONSE, WAIT, pgn_in
from j39plan.log.checks.busy import Busy
from j39plan.log.checks.deviations import Found
from j39plan.log.clock import MILLISECOND, SECOND
from j39plan.log.reports import Frame, Who
from j39plan.plan.tables import Timing

# The first bytes of announcements, RTS and BAM, of a clear to send, of an acknowledgement of the whole, and of an Abort; and how many bytes a
# long message has.
RTS, BAM, CLEAR, WHOLE, ABORT = 16, 32, 17, 19, 255
SIZES = range(9, 1786)

# So long an answer may take, and so long who sends waits for one.
ANSWER, WAITED = RESPONSE * MILLISECOND, WAIT * MILLISECOND

# So long after it was refused since its receiver has too many sessions a message may be tried again.
TRIED, TOO_MANY, TIMEOUT = 5 * SECOND, 1, 3

# Why a transfer is given up, by the byte of an Abort.
REASONS = {TOO_MANY: "too many sessions", 2: "no resources", TIMEOUT: "timeout", 4: "packets while it sends none", 5: "too many repetitions",
           6: "an unexpected packet", 7: "a wrong sequence number", 8: "a sequence number twice", 9: "too long"}

# Who sends and who gets a long message, without whether that is sure.
Pair = tuple[tuple[str | None, str | None, int | None], tuple[str | None, str | None, int | None]]


class Announcement(NamedTuple):
    """What a frame announces: the number of the message's group and how many bytes it has; and whether it keeps the rules."""

    pgn: int
    length: int
    is_sound: bool


def announcement_in(frame: Frame) -> Announcement | None:
    """What a frame that manages connections announces, None where that is nothing."""
    if frame.data[0] not in (RTS, BAM):
        return None
    pgn, size = pgn_of(frame), int.from_bytes(frame.data[1:3], "little")
    is_right = size in SIZES and frame.data[3] == -(-size // PACKET_BYTES) and pgn == pgn_in(pgn << 8)
    return Announcement(pgn, size, is_right and (frame.data[0] == BAM) == (frame.to.address is None))


def pgn_of(frame: Frame) -> int:
    """The number of the group that a frame that manages connections speaks of."""
    return int.from_bytes(frame.data[5:], "little")


def is_managing(frame: Frame) -> bool:
    """Whether a frame manages connections."""
    return frame.pgn == CONNECTION_MANAGEMENT and len(frame.data) == FRAME_BYTES


class Route(NamedTuple):
    """A long message: what it is, from whom to whom, whether the plan has it so, and the units at its ends."""

    text: str
    is_planned: bool
    sender: str | None = None
    to: str | None = None


@dataclass
class Transfer:
    """A long message under way: its group and the number of its packets; which ones came, and the first one of another length than a packet has, with that;
    whether it was cleared to send; when its last frame came, how long that may have waited for the bus, and whose answer is waited for since then, if one
    is."""

    route: Route
    pgn: int
    count: int
    at: int | None
    waited: int
    is_broadcast: bool
    waits_for: str = ""
    came: int = 0
    odd: tuple[int, int] | None = None
    is_cleared: bool = False
    is_acknowledged: bool = False

    @property
    def missing(self) -> int | None:
        """The first packet that didn't come."""
        return next((number for number in range(1, self.count + 1) if not self.came >> number & 1), None)


class Refusal(NamedTuple):
    """A message that its receiver had no session for: where, and what is told of it."""

    line: int
    at: int | None
    text: str
    unit: str | None


class Cause(NamedTuple):
    """Why a message wasn't carried whole, the packet that is missing, and the unit whose doing it is, where that isn't who sends."""

    text: str
    packet: int | None = None
    unit: str | None = None


def pair_of(sender: Who, to: Who) -> Pair:
    """Two ends of a message."""
    return sender[:3], to[:3]


class Transfers:
    """The long messages of a log. Their times and priorities are looked at only where the plan has `timing`."""

    def __init__(self, timing: Timing | None, busy: Busy, found: Found, is_off: Callable[[str, int | None], bool]) -> None:
        self._timing, self._busy, self._found, self._is_off = timing, busy, found, is_off
        self._open: dict[Pair, Transfer] = {}
        self.urgent: Counter[str] = Counter()  # of each unit the frames that are more urgent than what isn't planned, though the message is
        self.refused: dict[Pair, list[Refusal]] = {}  # what may be tried again, and is then carried whole
        self.waits: dict[Pair, tuple[int, int | None]] = {}  # what came whole, by the line and time of its last packet, and isn't acknowledged yet

    def announced(self, line: int, at: int | None, route: Route, frame: Frame) -> None:
        """A long message is announced by the rules."""
        is_broadcast, pair = frame.to.address is None, pair_of(frame.sender, frame.to)
        self._is_unanswered(pair)
        self._open[pair] = Transfer(route, pgn_of(frame), frame.data[3], at, self._busy.waited, is_broadcast, "" if is_broadcast else "answer")
        self._look_at_priority(line, at, route, frame)

    def forget(self, pair: Pair) -> None:
        """What was carried between two ends is done: no answer is one to it."""
        self._is_unanswered(pair)
        self._open.pop(pair, None)

    def came(self, line: int, at: int | None, frame: Frame) -> bool:
        """A packet, or a frame that manages a connection; whether the plan has the message."""
        there, back = self._open.get(pair_of(frame.sender, frame.to)), self._open.get(pair_of(frame.to, frame.sender))
        if frame.pgn == DATA_TRANSFER:
            transfer = there
            if there:
                self._packet(line, at, there, frame)
        elif frame.data[0] == ABORT:
            self._abort(line, at, frame)
            transfer = there or back
        else:
            transfer = back
            if back:
                self._answer(line, at, back, frame)
        if transfer is None:
            return False
        self._look_at_priority(line, at, transfer.route, frame)
        return transfer.route.is_planned

    def reported(self, line: int, at: int | None, pair: Pair) -> None:
        """All packets of a message came, so that it is to be acknowledged where it goes to one unit."""
        self.refused.pop(pair, None)
        transfer = self._open.get(pair)
        if transfer and not transfer.is_broadcast and transfer.route.is_planned:
            self.waits[pair] = line, at

    def is_acknowledged(self, pair: Pair) -> bool:
        """Whether the receiver has said that it has the message."""
        return pair in self._open and self._open[pair].is_acknowledged

    def cause(self, pair: Pair) -> Cause | None:
        """Why a message that was announced wasn't carried whole; None where it was given up, which is told by itself."""
        transfer = self._open.get(pair)
        if transfer is None:
            return None
        if not transfer.is_broadcast and not transfer.is_cleared:
            return Cause("no clear to send", unit=transfer.route.to)
        if transfer.odd is not None:
            return Cause(f"packet {transfer.odd[0]} has {transfer.odd[1]} bytes, by the standard {FRAME_BYTES}")
        if transfer.missing is None:
            return Cause("its packets came out of order")
        return Cause(f"packet {{}} of {transfer.count} didn't come", transfer.missing)

    def anew(self) -> None:
        """Frames may be missing: what was waited for isn't any more, and how far apart packets come isn't known."""
        self.waits.clear()
        for transfer in self._open.values():
            transfer.at, transfer.waits_for = None, ""

    def ended(self, pair: Pair) -> int | None:
        """When the last frame of a message came."""
        transfer = self._open.get(pair)
        return None if transfer is None else transfer.at

    def may_go_on(self, pair: Pair, last: int | None) -> bool:
        """Whether a message that was announced may go on behind the log's last time: packets or an answer may still come."""
        transfer = self._open.get(pair)
        if transfer is None or transfer.at is None or last is None or transfer.is_broadcast and transfer.missing is None:
            return False
        return 0 <= last - transfer.at <= WAITED

    def goes_by(self, at: int) -> None:
        """Time goes by: what isn't acknowledged, or tried again, until now isn't any more."""
        for pair, refusals in list(self.refused.items()):
            since = refusals[-1].at
            if since is not None and not 0 <= at - since <= TRIED:
                self._tell_refusals(pair)
        for pair, (_, since) in list(self.waits.items()):
            if since is not None and not 0 <= at - since <= WAITED:
                self._is_unanswered(pair)

    def _is_unanswered(self, pair: Pair) -> None:
        """Tells that a message isn't acknowledged, if it was to be."""
        waiting, transfer = self.waits.pop(pair, None), self._open.get(pair)
        if waiting and transfer and not self._is_off(transfer.route.to or "", self._busy.last):
            self._found.tell("not-acknowledged", f"{transfer.route.text}: carried whole, and not acknowledged", *waiting, unit=transfer.route.to)

    def _packet(self, line: int, at: int | None, transfer: Transfer, frame: Frame) -> None:
        """A packet of a message."""
        before, transfer.at = transfer.at, at
        waited, transfer.waited = transfer.waited, self._busy.waited
        number = frame.data[0] if frame.data else 0
        transfer.came |= 1 << number
        if len(frame.data) != FRAME_BYTES and transfer.odd is None:
            transfer.odd = number, len(frame.data)
        if self._timing is None or at is None or before is None or at < before:
            return
        if not transfer.is_broadcast:
            if transfer.waits_for == "packet":
                self._late(line, at, at - before, transfer, transfer.route.sender)
            transfer.waits_for = "answer"
        elif at - before + waited < self._timing.broadcast_gap * (MILLISECOND - self._timing.drift):
            self._pace("packets-near", line, at, at - before, transfer, f"at least {self._timing.broadcast_gap}")
        elif at - before - self._busy.waited > self._timing.broadcast_gap_most * (MILLISECOND + self._timing.drift):
            self._pace("packets-far", line, at, at - before, transfer, f"at most {self._timing.broadcast_gap_most}")

    def _pace(self, kind: str, line: int, at: int, distance: int, transfer: Transfer, limit: str) -> None:
        """Packets to all come nearer than they may, or further apart."""
        text = f"{transfer.route.text}: frames {{}} ms apart, {limit} ms are between two"
        self._found.tell(kind, text, line, at, distance, unit=transfer.route.sender)

    def _answer(self, line: int, at: int | None, transfer: Transfer, frame: Frame) -> None:
        """The receiver answers."""
        before, is_waited_for = transfer.at, transfer.waits_for == "answer"
        if frame.data[0] not in (CLEAR, WHOLE):
            return
        transfer.at, transfer.waits_for = at, "packet" if frame.data[0] == CLEAR and frame.data[1] else ""
        if frame.data[0] == WHOLE and pgn_of(frame) == transfer.pgn:
            transfer.is_acknowledged = True
            self.waits.pop(pair_of(frame.to, frame.sender), None)
            self.refused.pop(pair_of(frame.to, frame.sender), None)
        elif frame.data[1]:
            transfer.is_cleared = True
            transfer.came &= ~((1 << frame.data[1]) - 1 << frame.data[2])  # what is asked for again hasn't come
        if self._timing and is_waited_for and at is not None and before is not None:
            self._late(line, at, at - before, transfer, transfer.route.to)

    def _late(self, line: int, at: int, duration: int, transfer: Transfer, unit: str | None) -> None:
        """An answer that was waited for so long, by whom it is."""
        if duration > ANSWER:
            self._found.tell("late-answer", f"{transfer.route.text}: an answer after {{}} ms, by the standard within {RESPONSE}", line, at, duration, unit=unit)

    def _abort(self, line: int, at: int | None, frame: Frame) -> None:
        """An Abort: of a message of its group that goes either way between the two."""
        there, back = pair_of(frame.sender, frame.to), pair_of(frame.to, frame.sender)
        pair = next((pair for pair in (there, back) if pair in self._open and self._open[pair].pgn == pgn_of(frame)), None)
        if pair is None:
            return
        transfer = self._open.pop(pair)
        self.waits.pop(pair, None)
        reason, other = frame.data[1], transfer.route.to if pair == there else transfer.route.sender
        if reason == TIMEOUT and self._is_off(other or "", at):
            return
        text = f"{transfer.route.text}: given up by {frame.sender.shown}, reason {reason} ({REASONS.get(reason, 'of its own')})"
        self.refused.setdefault(pair, []).append(Refusal(line, at, text, frame.sender.label))
        if reason != TOO_MANY or pair == there or transfer.is_cleared:
            self._tell_refusals(pair)

    def _tell_refusals(self, pair: Pair) -> None:
        """Tells that a message was given up, and not carried whole later."""
        for refusal in self.refused.pop(pair):
            self._found.tell("given-up", refusal.text, refusal.line, refusal.at, unit=refusal.unit)

    def _look_at_priority(self, line: int, at: int | None, route: Route, frame: Frame) -> None:
        """The priority of a transport frame of a planned message."""
        if self._timing and route.is_planned and frame.priority < self._timing.transport_priority:
            self.urgent[frame.sender.label or ""] += frame.priority < self._timing.unplanned_priority
            behind = f"priority {frame.priority}, by 'load' {self._timing.transport_priority}"
            self._found.tell("transport-priority", f"{route.text}: frames of the transport protocol have {behind}", line, at, unit=route.sender)

    def end(self, last: int | None) -> None:
        """Tells what isn't acknowledged, or tried again, until the log's last time; in a log without times until its end."""
        if last is not None:
            self.goes_by(last)
        for pair, refusals in list(self.refused.items()):
            if last is None or refusals[-1].at is None:
                self._tell_refusals(pair)
        for pair, (_, since) in list(self.waits.items()):
            if since is None or last is None or last - since > WAITED:
                self._is_unanswered(pair)
