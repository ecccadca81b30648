"""Sessions between two addresses (SAE J1939-21), as a log shows them: announcements, clears to send, packets, acknowledgements and Aborts that break the
rules, each by its sender. An answer that is one to the session before it is right, and so is each one where it isn't known what that was."""

from __future__ import annotations

from collections.abc import Mapping
from dataclasses import dataclass, field

from j39plan.j1939 import FRAME_BYTES, GLOBAL_ADDRESS, NULL_ADDRESS, PACKET_BYTES, WAIT
from j39plan.log.checks.deviations import Found
from j39plan.log.checks.transfers import ABORT, BAM, CLEAR, SIZES, WHOLE, pgn_of
from j39plan.log.clock import MILLISECOND
from j39plan.log.reports import Frame

# So long who sends or gets packets waits for the next frame: where none came for longer no session is under way.
WAITED = WAIT * MILLISECOND

# What an announcement allows that says nothing of how many packets may be cleared to send at once.
ANY = 255


@dataclass
class Session:
    """A session that a right announcement begins: what it is, its group, its bytes and packets, how many of these may be cleared to send at once, up to which
    one they are, which ones came, whether it was acknowledged, and whether something is told of it."""

    text: str
    pgn: int
    size: int
    count: int
    most: int
    granted: int = 0
    came: int = 0
    is_done: bool = False
    is_told: bool = False

    @property
    def missing(self) -> int | None:
        """The first packet that never came."""
        return next((number for number in range(1, self.count + 1) if not self.came >> number & 1), None)

    def allows(self, pgn: int, count: int, first: int) -> bool:
        """Whether a clear to send for so many packets from this one on is right by it."""
        return self.pgn == pgn and 1 <= first <= self.count and count <= min(self.count, self.most)

    def is_whole(self, pgn: int, size: int, count: int) -> bool:
        """Whether an acknowledgement of so many bytes and packets is right by it."""
        return (self.pgn, self.size, self.count) == (pgn, size, count) and self.missing is None


@dataclass
class Between:
    """The sessions from one address to another, or to all: the newest, the one before it, whether that is known, whether none is under way; when their last frame came,
    and when one of each group did."""

    newest: Session | None = None
    before: Session | None = None
    is_known: bool = False
    is_none: bool = False
    last: int | None = None
    groups: dict[int, int | None] = field(default_factory=dict)

    def begins(self, session: Session) -> None:
        """A right announcement comes."""
        if self.newest is not None:
            self.before, self.is_known = (None if self.newest.is_done else self.newest), True
        self.newest, self.is_none = session, False

    def is_of(self, pgn: int) -> bool:
        """Whether the newest session is of a group."""
        return self.newest is not None and self.newest.pgn == pgn


def why_wrong(frame: Frame) -> str:
    """How an announcement breaks the rules; nothing where it is right."""
    data, to = frame.data, GLOBAL_ADDRESS if frame.to.address is None else frame.to.address
    if len(data) != FRAME_BYTES:
        return f"its announcement has {len(data)} bytes, by the standard {FRAME_BYTES}"
    size, count = int.from_bytes(data[1:3], "little"), data[3]
    if size not in SIZES:
        return f"{size} bytes are announced, {SIZES.start} to {SIZES.stop - 1} go in packets"
    if count != -(-size // PACKET_BYTES):
        return f"{size} bytes are announced in {count} packets, by the standard in {-(-size // PACKET_BYTES)}"
    if data[0] == BAM:
        return "" if to == GLOBAL_ADDRESS else "announced to one as if it went to all"
    if to in (GLOBAL_ADDRESS, NULL_ADDRESS, frame.sender.address):
        return f"announced to {'all' if to == GLOBAL_ADDRESS else f'address {to}'} as if it went to one"
    return ""


class Sessions:
    """The sessions of a log, by the addresses of their ends."""

    def __init__(self, labels: Mapping[int, str], found: Found) -> None:
        self._labels, self._found = labels, found
        self._between: dict[tuple[int, int], Between] = {}
        self._since: int | None = None  # from when on all frames are known

    def forget(self, at: int | None) -> None:
        """Frames may be missing before this time."""
        self._between.clear()
        self._since = at

    def begins(self, at: int) -> None:
        """The first time of a log, or behind a line that has none."""
        if self._since is None:
            self._since = at

    def _ends_of(self, source: int | None, to: int | None) -> Between:
        """The sessions from one address to another."""
        return self._between.setdefault((NULL_ADDRESS if source is None else source, GLOBAL_ADDRESS if to is None else to), Between())

    def announced(self, line: int, at: int | None, frame: Frame, text: str) -> Session | None:
        """A message is announced: its session, if that is right."""
        between, wrong = self._ends_of(frame.sender.address, frame.to.address), why_wrong(frame)
        if self._has_none(between, at):
            between.before, between.is_known = None, True
        between.last = at
        if wrong:
            between.newest, between.before, between.is_known, between.is_none = None, None, False, False
            self._tell("announcement", f"{text}: {wrong}", line, at, frame)
            return None
        size, count, is_broadcast = int.from_bytes(frame.data[1:3], "little"), frame.data[3], frame.data[0] == BAM
        session = Session(text, pgn_of(frame), size, count, ANY if is_broadcast else frame.data[4] or ANY, count if is_broadcast else 0)
        between.begins(session)
        between.groups[session.pgn] = at
        return session

    def answered(self, line: int, at: int | None, frame: Frame) -> None:
        """A frame that manages a connection and announces nothing."""
        there, back = self._ends_of(frame.sender.address, frame.to.address), self._ends_of(frame.to.address, frame.sender.address)
        pgn, control = pgn_of(frame), frame.data[0]
        if control == ABORT and not any(self._may_be_of(between, pgn, at) for between in (there, back)):
            what = self._labels.get(pgn, f"PGN {pgn}")
            text = f"{what} between {frame.sender.shown} and {frame.to.shown}: {frame.sender.shown} aborts it, and none is under way"
            self._tell("abort", text, line, at, frame)
        elif control == CLEAR and frame.data[1] and back.is_of(pgn):
            self._cleared(line, at, frame, back)
        elif control == WHOLE and back.is_of(pgn):
            self._acknowledged(line, at, frame, back)
        if control != ABORT or at is None:
            back.last = at
        there.groups[pgn] = back.groups[pgn] = at

    def _cleared(self, line: int, at: int | None, frame: Frame, between: Between) -> None:
        """A clear to send for packets."""
        newest, count, first = between.newest, frame.data[1], frame.data[2]
        assert newest is not None
        if first:
            newest.granted = max(newest.granted, min(newest.count, first + count - 1))
        is_right = between.before is not None and between.before.allows(newest.pgn, count, first)
        if newest.allows(newest.pgn, count, first):
            between.before, between.is_known = between.before if is_right else None, True
        elif between.is_known and not is_right:
            many = f"cleared to send {count} packets at once, its announcement allows {min(newest.count, newest.most)}"
            beyond = f"cleared to send from packet {first} on, it has {newest.count}"
            newest.is_told |= self._tell("grant", f"{newest.text}: {beyond if not 1 <= first <= newest.count else many}", line, at, frame)

    def _acknowledged(self, line: int, at: int | None, frame: Frame, between: Between) -> None:
        """An acknowledgement of the whole."""
        newest, size, count = between.newest, int.from_bytes(frame.data[1:3], "little"), frame.data[3]
        assert newest is not None
        is_whole = newest.is_whole(newest.pgn, size, count)
        is_before = not between.is_known or between.before is not None and between.before.is_whole(newest.pgn, size, count)
        if not is_whole and is_before:
            between.before, between.is_known = None, True
            return
        newest.is_done = True
        if not is_whole:
            text = f"{size} bytes in {count} packets are acknowledged, announced were {newest.size} in {newest.count}"
            is_of_it = (size, count) == (newest.size, newest.count)
            if is_of_it:
                text = f"acknowledged, and not carried whole: packet {{}} of {count} didn't come"
            newest.is_told |= self._tell("acknowledged", f"{newest.text}: {text}", line, at, frame, newest.missing if is_of_it else None)

    def packet(self, line: int, at: int | None, frame: Frame) -> None:
        """A packet."""
        between, number = self._ends_of(frame.sender.address, frame.to.address), frame.data[0] if frame.data else 0
        newest = between.newest
        is_late = at is not None and between.last is not None and not 0 <= at - between.last <= WAITED
        if newest is not None and frame.to.address is None and is_late:
            newest, between.newest, between.is_none = None, None, True
        if newest is None and self._has_none(between, at):
            between.is_none = True
            self._tell("packet", f"packets from {frame.sender.shown} to {frame.to.shown} without an announcement", line, at, frame)
        elif newest is not None and frame.data:
            newest.came |= 1 << number
            if not 1 <= number <= newest.granted:
                limit = "they are numbered from 1" if not number else f"it has {newest.count}" if number > newest.count else f"cleared to send are {newest.granted or 'none'}"
                newest.is_told |= self._tell("packet", f"{newest.text}: packet {{}} goes, {limit}", line, at, frame, number)
        between.last = at

    def _has_none(self, between: Between, at: int | None) -> bool:
        """Whether no session is under way, by when the last frame of one came."""
        if between.newest is not None or between.is_none:
            return between.newest is None
        since = self._since if between.last is None else between.last
        return at is not None and since is not None and at - since > WAITED

    def _may_be_of(self, between: Between, pgn: int, at: int | None) -> bool:
        """Whether a session of a group is under way, or was lately, as far as that is known."""
        known = between.groups.get(pgn)
        if between.is_of(pgn) or between.before is not None and between.before.pgn == pgn or known is not None and at is not None and 0 <= at - known <= WAITED:
            return True
        since = self._since if between.newest is not None else None
        is_late = at is not None and since is not None and at - since > WAITED
        return not (is_late if between.newest is not None else self._has_none(between, at))

    def _tell(self, kind: str, text: str, line: int, at: int | None, frame: Frame, value: int | None = None) -> bool:
        """Tells what a unit does; whether it is told, since of a stranger that it is there says more."""
        if frame.sender.label:
            self._found.tell(kind, text, line, at, value, unit=frame.sender.label)
        return frame.sender.label is not None
