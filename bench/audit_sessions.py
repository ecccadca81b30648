"""A reference in Python of what `audit` tells of sessions of the transport protocol. It follows pages, not the program."""

from __future__ import annotations

from dataclasses import dataclass, field

from audit_plans import ALL, FRAME_BYTES, LONGEST, NULL, PACKET_BYTES, PACKETS, TRANSPORT, Frame, whole

RTS, CTS, END_ACK, BAM = 16, 17, 19, 32
NO_LIMIT = 255
SESSION_WORDS = ("announcement", "grant", "packet", "acknowledged")


def group_of(data: bytes) -> int:
    return int.from_bytes(data[5:8], "little")


def size_of(data: bytes) -> int:
    return int.from_bytes(data[1:3], "little")


def announces(frame: Frame) -> bool:
    return frame.pgn == TRANSPORT and frame.data[:1] in (bytes([RTS]), bytes([BAM]))


def is_right(frame: Frame) -> bool:
    """Whether an announcement is right."""
    data = frame.data
    if len(data) != FRAME_BYTES or not FRAME_BYTES < size_of(data) <= LONGEST or data[3] != whole(size_of(data), PACKET_BYTES):
        return False
    return frame.to == ALL if data[0] == BAM else frame.to < NULL and frame.to != frame.source


@dataclass
class Session:
    """A message from one address to another: how many packets one CTS may clear, the greatest number cleared, and which numbers were sent."""

    group: int
    size: int
    count: int
    limit: int
    cleared: int = 0
    sent: set[int] = field(default_factory=set)

    def is_granted(self, data: bytes) -> bool:
        return group_of(data) == self.group and 1 <= data[2] <= self.count and data[1] <= min(self.count, self.limit)

    def is_acknowledged(self, data: bytes) -> bool:
        return (group_of(data), size_of(data), data[3]) == (self.group, self.size, self.count) and self.sent.issuperset(range(1, self.count + 1))


@dataclass
class Pair:
    """The sessions from one address to another: the newest, and those that may be before it, where they are known; whether the newest is acknowledged."""

    newest: Session
    before: Session | None
    is_before_known: bool
    is_over: bool = False

    def is_by_before(self, is_right_by: bool) -> bool:
        return not self.is_before_known or (self.before is not None and is_right_by)

    def forget_before(self) -> None:
        self.before, self.is_before_known = None, True

    def take_grant(self, data: bytes) -> bool:
        """Whether a CTS is right."""
        by_newest, known = self.newest.is_granted(data), self.before is not None and self.before.is_granted(data)
        is_told = not by_newest and not self.is_by_before(known)
        if data[2] >= 1:
            self.newest.cleared = max(self.newest.cleared, min(self.newest.count, data[2] + data[1] - 1))
        if by_newest and not known:
            self.forget_before()
        return not is_told

    def take_receipt(self, data: bytes) -> bool:
        """Whether an acknowledgement is right."""
        by_newest = self.newest.is_acknowledged(data)
        by_before = self.is_by_before(self.before is not None and self.before.is_acknowledged(data))
        if by_newest or not by_before:
            self.is_over = True
        else:
            self.forget_before()
        return by_newest or by_before


class Sessions:
    """The sessions that a log shows."""

    def __init__(self) -> None:
        self.pairs: dict[tuple[int, int], Pair] = {}

    def forget(self) -> None:
        self.pairs = {}

    def take(self, frame: Frame) -> str | None:
        """Which word tells of a frame, whose sender has to be known."""
        if frame.pgn == PACKETS and frame.data:
            return self.take_packet(frame)
        if announces(frame):
            return self.take_announcement(frame)
        pair = self.pairs.get((frame.to, frame.source))
        data = frame.data
        if frame.pgn != TRANSPORT or len(data) != FRAME_BYTES or pair is None or group_of(data) != pair.newest.group:
            return None
        if data[0] == CTS and data[1] >= 1:
            return None if pair.take_grant(data) else "grant"
        if data[0] == END_ACK:
            return None if pair.take_receipt(data) else "acknowledged"
        return None

    def take_announcement(self, frame: Frame) -> str | None:
        way, data = (frame.source, frame.to), frame.data
        if not is_right(frame):
            self.pairs.pop(way, None)
            return "announcement"
        if data[0] == RTS and frame.source < NULL:
            old, new = self.pairs.get(way), Session(group_of(data), size_of(data), data[3], data[4] or NO_LIMIT)
            self.pairs[way] = Pair(new, None, False) if old is None else Pair(new, None if old.is_over else old.newest, True)
        return None

    def take_packet(self, frame: Frame) -> str | None:
        pair, number = self.pairs.get((frame.source, frame.to)), frame.data[0]
        if pair is None:
            return None
        pair.newest.sent.add(number)
        return None if 1 <= number <= pair.newest.cleared else "packet"


class ToldSessions:
    """What is told of sessions, by words and units."""

    def __init__(self, labels: list[str]) -> None:
        self.labels, self.sessions = labels, Sessions()
        self.told: dict[tuple[str, int], list[int]] = {}

    def take(self, line: int, frame: Frame, sender: int | None) -> None:
        word = self.sessions.take(frame)
        if word and sender is not None:
            self.told.setdefault((word, sender), []).append(line)

    def lines(self) -> list[str]:
        rows = [(word, label, self.told.get((word, place), [])) for word in SESSION_WORDS for place, label in enumerate(self.labels)]
        return [f"{word} unit {label} times {len(told)} first {told[0]}" for word, label, told in rows if told]
