"""Messages of more than 8 bytes by the transport protocol of SAE J1939-21: broadcasts, and sessions with one receiver, both ways."""

from collections import deque
from collections.abc import Callable, Collection
from dataclasses import dataclass, field

from j39plan.bench.agenda import Agenda
from j39plan.j1939 import CONNECTION_MANAGEMENT, DATA_TRANSFER, FRAME_BYTES, GLOBAL_ADDRESS, PACKET_BYTES, WAIT, identifier_of
from j39plan.log.checks.transfers import ABORT, BAM, CLEAR, RTS, SIZES, WHOLE

# How long who sends waits for a CTS (T3), for more after a CTS of none (T4), and who receives for a packet (T1) and behind a CTS (T2), in seconds.
WAITS_CLEAR, WAITS_HELD, WAITS_PACKET, WAITS_FIRST = WAIT / 1000, 1.05, 0.75, WAIT / 1000

# How far apart the packets of a session are, and how soon an answer comes.
APART, PROMPT = 0.002, 0.002

# How much longer than the least distance of a broadcast's frames one waits, since a timer may be early by less.
MORE = 0.002

# Reasons of an Abort.
TOO_MANY, TIMEOUT, WRONG_NUMBER = 1, 3, 7

# Who sends and who gets a message, by address.
Ends = tuple[int, int]


@dataclass
class OneReceiverSession:
    """A message that is sent to one receiver: its group, its packets, the next one and the last one that is cleared, and until when an answer is
    waited for."""

    pgn: int
    data: bytes
    done: Callable[[bool], None]
    next: int = 1
    last: int = 0
    until: float = 0.0

    @property
    def count(self) -> int:
        """How many packets it has."""
        return -(-len(self.data) // PACKET_BYTES)

    def packet(self, number: int) -> bytes:
        """A packet of it."""
        return bytes((number, *self.data[PACKET_BYTES * (number - 1):PACKET_BYTES * number].ljust(PACKET_BYTES, b"\xff")))

    @property
    def about(self) -> bytes:
        """What its announcement says behind the control byte, up to the group."""
        return bytes((*len(self.data).to_bytes(2, "little"), self.count, 0xFF))


@dataclass
class Receiving:
    """A message that comes to a unit here: its group, how many bytes and packets it has, the next packet, the last one that is cleared, how many the
    sender takes at a time, and until when a packet is waited for."""

    pgn: int
    size: int
    count: int
    most: int
    next: int = 1
    last: int = 0
    until: float = 0.0


@dataclass
class Tally:
    """How many long messages were sent whole, came whole, and were given up."""

    sent: int = 0
    received: int = 0
    given_up: int = 0


@dataclass
class BroadcastQueue:
    """Messages of one unit to all, one after another."""

    waiting: deque[OneReceiverSession] = field(default_factory=deque)
    is_busy: bool = False


class Transport:
    """The long messages of the units here. `window_of` tells how many packets the unit at an address takes at a time, None where none is here."""

    def __init__(self, agenda: Agenda, put: Callable[[int, bytes], None], priority: int, gap: float, window_of: Callable[[int], int | None]) -> None:
        self._agenda, self._put, self._priority, self._gap, self._window_of = agenda, put, priority, gap, window_of
        self._sending: dict[Ends, OneReceiverSession] = {}
        self._receiving: dict[Ends, Receiving] = {}
        self._broadcasts: dict[int, BroadcastQueue] = {}
        self.spared: frozenset[int] = frozenset()  # addresses with which no unit here begins a session, or takes one up: somebody else does
        self.tally = Tally()

    def _manage(self, source: int, to: int, data: bytes, pgn: int) -> None:
        """A frame that manages a connection."""
        self._put(identifier_of(self._priority, CONNECTION_MANAGEMENT, source, to), data + pgn.to_bytes(3, "little"))

    def broadcast(self, source: int, pgn: int, data: bytes, done: Callable[[bool], None]) -> None:
        """A unit sends a message to all, as soon as those before it are sent."""
        queue = self._broadcasts.setdefault(source, BroadcastQueue())
        queue.waiting.append(OneReceiverSession(pgn, data, done))
        if not queue.is_busy:
            self._next_broadcast(source, queue)

    def _next_broadcast(self, source: int, queue: BroadcastQueue) -> None:
        """The next message of a unit to all is announced, if there is one."""
        queue.is_busy = bool(queue.waiting) and self._broadcasts.get(source) is queue
        if queue.is_busy:
            one = queue.waiting.popleft()
            self._manage(source, GLOBAL_ADDRESS, bytes((BAM, *one.about)), one.pgn)
            one.done(True)
            self._agenda.after(self._gap + MORE, self._broadcast_packet, source, queue, one)

    def _broadcast_packet(self, source: int, queue: BroadcastQueue, one: OneReceiverSession) -> None:
        """A packet of a message to all, unless its unit has left its address."""
        if self._broadcasts.get(source) is not queue:
            return
        self._put(identifier_of(self._priority, DATA_TRANSFER, source, GLOBAL_ADDRESS), one.packet(one.next))
        one.next += 1
        if one.next <= one.count:
            self._agenda.after(self._gap + MORE, self._broadcast_packet, source, queue, one)
        else:
            self.tally.sent += 1
            self._agenda.after(self._gap + MORE, self._next_broadcast, source, queue)

    @property
    def is_idle(self) -> bool:
        """Whether no message is under way."""
        return not (self._sending or self._receiving or any(queue.is_busy for queue in self._broadcasts.values()))

    def has(self, addresses: Collection[int]) -> bool:
        """Whether a session with one of these addresses is under way."""
        return any(address in ends for ends in (*self._sending, *self._receiving) for address in addresses)

    def stop(self, address: int) -> None:
        """Whoever was at an address isn't any more: its messages end without a word."""
        self._broadcasts.pop(address, None)
        self._sending = {ends: one for ends, one in self._sending.items() if address not in ends}
        self._receiving = {ends: one for ends, one in self._receiving.items() if address not in ends}

    def send(self, source: int, to: int, pgn: int, data: bytes, done: Callable[[bool], None]) -> bool:
        """A unit asks to send a message to one receiver; not while it has another one for this, or that is spared."""
        if (source, to) in self._sending or to in self.spared:
            return False
        one = self._sending[source, to] = OneReceiverSession(pgn, data, done)
        self._manage(source, to, bytes((RTS, *one.about)), pgn)
        self._wait(one, (source, to), WAITS_CLEAR)
        return True

    def _wait(self, one: OneReceiverSession, ends: Ends, time: float) -> None:
        """An answer is waited for so long."""
        one.until = self._agenda.now + time
        self._agenda.at(one.until, self._late, ends, one)

    def _late(self, ends: Ends, one: OneReceiverSession) -> None:
        """No answer came, unless more is waited for since then."""
        if self._sending.get(ends) is one and one.until and self._agenda.now >= one.until:
            self._abort(ends[0], ends[1], TIMEOUT, one.pgn)
            self._ends(ends, False)

    def _abort(self, source: int, to: int, reason: int, pgn: int) -> None:
        """A connection is given up."""
        self._manage(source, to, bytes((ABORT, reason, 0xFF, 0xFF, 0xFF)), pgn)

    def _ends(self, ends: Ends, is_whole: bool) -> None:
        """A message to one receiver ends."""
        one = self._sending.pop(ends)
        self.tally.sent += is_whole
        self.tally.given_up += not is_whole
        one.done(is_whole)

    def managed(self, source: int, to: int, data: bytes) -> None:
        """A frame that manages a connection is heard."""
        pgn, one = int.from_bytes(data[5:], "little"), self._sending.get((to, source))
        if data[0] == RTS and to != GLOBAL_ADDRESS:
            self._asked(source, to, data, pgn)
        elif data[0] == CLEAR and one and one.pgn == pgn:
            self._cleared((to, source), one, data[1], data[2])
        elif data[0] == WHOLE and one and one.pgn == pgn:
            self._ends((to, source), one.next > one.count)  # what wasn't sent can't have come
        elif data[0] == ABORT:
            if one and one.pgn == pgn:
                self._ends((to, source), False)
            came = self._receiving.get((source, to))
            if came and came.pgn == pgn:
                del self._receiving[source, to]
                self.tally.given_up += 1

    def _cleared(self, ends: Ends, one: OneReceiverSession, count: int, first: int) -> None:
        """Packets are cleared to be sent; none: the receiver holds the connection."""
        if count == 0:
            self._wait(one, ends, WAITS_HELD)
            return
        if not 1 <= first <= one.count:
            return
        one.until, one.next, one.last = 0.0, first, min(first + count - 1, one.count)
        self._agenda.after(PROMPT, self._packet, ends, one, first)

    def _packet(self, ends: Ends, one: OneReceiverSession, number: int) -> None:
        """A packet of a message to one receiver, if no other one was asked for meanwhile."""
        if self._sending.get(ends) is not one or number != one.next:
            return
        one.next += 1
        if number == one.last:
            self._wait(one, ends, WAITS_CLEAR)
        else:
            self._agenda.after(APART, self._packet, ends, one, number + 1)
        self._put(identifier_of(self._priority, DATA_TRANSFER, *ends), one.packet(number))

    def _asked(self, source: int, to: int, data: bytes, pgn: int) -> None:
        """Somebody asks to send a message to an address: the unit here clears packets."""
        size, count = int.from_bytes(data[1:3], "little"), data[3]
        if self._window_of(to) is None or source in self.spared:
            return
        if size not in SIZES or count != -(-size // PACKET_BYTES):
            self._agenda.after(PROMPT, self._abort, to, source, TOO_MANY, pgn)
            return
        came = self._receiving[source, to] = Receiving(pgn, size, count, data[4] or 0xFF)
        self._agenda.after(PROMPT, self._clear, (source, to), came)

    def _clear(self, ends: Ends, came: Receiving) -> None:
        """The next packets of a message are cleared to be sent."""
        window = self._window_of(ends[1])
        if self._receiving.get(ends) is not came or window is None:
            return
        granted = min(window, came.most, came.count - came.next + 1)
        came.last = came.next + granted - 1
        self._manage(ends[1], ends[0], bytes((CLEAR, granted, came.next, 0xFF, 0xFF)), came.pgn)
        self._expect(ends, came, WAITS_FIRST)

    def _expect(self, ends: Ends, came: Receiving, time: float) -> None:
        """A packet is waited for so long."""
        came.until = self._agenda.now + time
        self._agenda.at(came.until, self._missing, ends, came)

    def _missing(self, ends: Ends, came: Receiving) -> None:
        """No packet came."""
        if self._receiving.get(ends) is came and self._agenda.now >= came.until:
            self._gives_up(ends, came, TIMEOUT)

    def _gives_up(self, ends: Ends, came: Receiving, reason: int) -> None:
        """The receiver here gives a message up."""
        del self._receiving[ends]
        self.tally.given_up += 1
        self._abort(ends[1], ends[0], reason, came.pgn)

    def packet(self, source: int, to: int, data: bytes) -> None:
        """A packet is heard."""
        ends = source, to
        came = self._receiving.get(ends)
        if came is None or len(data) != FRAME_BYTES or data[0] < came.next:
            return
        if data[0] > came.next or data[0] > came.last:
            self._gives_up(ends, came, WRONG_NUMBER)
            return
        came.next += 1
        if came.next > came.count:
            self._agenda.after(PROMPT, self._whole, ends, came)
        elif came.next > came.last:
            self._agenda.after(PROMPT, self._clear, ends, came)
        else:
            self._expect(ends, came, WAITS_PACKET)

    def _whole(self, ends: Ends, came: Receiving) -> None:
        """A message has come whole: the receiver here says so."""
        if self._receiving.get(ends) is came:
            del self._receiving[ends]
            self.tally.received += 1
            self._manage(ends[1], ends[0], bytes((WHOLE, *came.size.to_bytes(2, "little"), came.count, 0xFF)), came.pgn)
