"""A bus on a bench by python-can, with a log of what is sent and heard."""

from __future__ import annotations

import importlib.util
import signal
import time
from collections import deque
from contextlib import ExitStack
from types import FrameType
from typing import Any, NamedTuple, TextIO

from j39plan import program
from j39plan.cli.tolog import interface_of, left_out, spelled

# The longest wait for a frame, in seconds, after which an interrupt is seen.
WAIT = 0.25

# How often the log is written out, in seconds.
FLUSHED = 1.0

# Interfaces of python-can that hand out what one has sent oneself, those that do it if they are asked to, and within which time, in seconds.
ECHOING, ASKED, ECHO = frozenset(("udp_multicast",)), frozenset(("socketcan", "virtual", "vector", "kvaser", "ixxat")), 1.0

# How fast a driver's clock goes off, as a share, and by how many seconds it is set at least where it is set.
DRIFT, SET = 1e-4, 1.0

# In the identifier of an error frame of SocketCAN: the controller has left the bus; and how many frames in turn the bus doesn't take where it has elsewhere.
BUS_OFF, LEFT = 0x40, 20


class Stamps:
    """The times that a driver gives to frames, by the clock here: a frame is heard some time behind its stamp, and the least time seen is taken for none."""

    def __init__(self) -> None:
        self._shift: float | None = None
        self._seen = self._last = 0.0

    def at(self, stamp: float, now: float) -> float:
        """When a frame was on the bus that is heard now, never before the last one."""
        if stamp:
            shift = now - stamp
            if self._shift is None or abs(shift - self._shift) > SET:
                self._shift = shift
            self._shift, self._seen = min(shift, self._shift + DRIFT * (now - self._seen)), now
            now = min(now, stamp + self._shift)
        self._last = max(self._last, now)
        return self._last


class WireFrame(NamedTuple):
    """A frame on the bus: when it ended, in seconds, its identifier and data, whether it was sent here, and its line in the log."""

    at: float
    identifier: int
    data: bytes
    is_own: bool
    line: int


class Wire:
    """A bus: what is sent and heard stands in the log, in the order of its times. An interrupt from the keyboard ends it, and no more. With `is_noting` frames
    that were sent here are heard too, when they were on the bus."""

    def __init__(self, interface: str, channel: str, bitrate: int | None, log: str | None, is_noting: bool = False) -> None:
        if importlib.util.find_spec("can") is None:
            raise program.Refused(program.MISSING, "python-can isn't there: apt-get install python3-can")
        import can
        self._can, self._name, self._stack = can, interface_of(channel), ExitStack()
        self._log: TextIO | None = self._stack.enter_context(open(log, "w", encoding="ascii")) if log else None
        self._offset = time.time() - time.monotonic()
        self._last = self._flushed = 0.0
        self._is_noting, self._stamps, self._own = is_noting, Stamps(), deque[WireFrame]()
        is_asked = is_noting and interface in ASKED
        self._echoes: deque[tuple[float, int, bytes]] | None = deque() if interface in ECHOING or is_asked else None
        self.sent = self.heard = self.lost = self.lines = self.errors = self.others = self._untaken = 0
        self.is_off = False
        self.is_ended = False
        self._before = signal.signal(signal.SIGINT, self._interrupt)
        more: dict[str, Any] = {} if bitrate is None else {"bitrate": bitrate}
        if is_asked:
            more["receive_own_messages"] = True
        try:
            self._bus: Any = can.Bus(interface=interface, channel=channel, **more)
        except (can.CanError, OSError, ValueError, ImportError, TypeError) as why:
            self._stack.close()
            raise program.Refused(program.DEVICE, f"{interface} {channel}: {why}") from why

    def __enter__(self) -> "Wire":
        return self

    def __exit__(self, *_: object) -> None:
        signal.signal(signal.SIGINT, self._before)
        self._bus.shutdown()
        self._stack.close()

    def _interrupt(self, *_: int | FrameType | None) -> None:
        """Ends the bus. A second interrupt ends the tool."""
        self.is_ended = True
        signal.signal(signal.SIGINT, signal.default_int_handler)

    @property
    def now(self) -> float:
        """The time, in seconds, by a clock that nobody sets."""
        return time.monotonic()

    def _write(self, message: Any, at: float) -> None:
        """Writes a frame into the log; no time goes back there."""
        self._last = max(self._last, at)
        self.lines += 1
        if self._log:
            message.timestamp = self._last
            self._log.write(spelled(message, self._name))
            if self._last - self._flushed > FLUSHED:
                self._flushed = self._last
                self._log.flush()

    def put(self, identifier: int, data: bytes) -> None:
        """Sends a frame. One that the bus doesn't take is lost, which is counted."""
        message = self._can.Message(arbitration_id=identifier, is_extended_id=True, data=data)
        try:
            self._bus.send(message)
        except (self._can.CanError, OSError):
            self.lost += 1
            self._untaken += 1
            self.is_off = self.is_off or self._is_noting and self._untaken >= LEFT
            return
        self.sent, self._untaken = self.sent + 1, 0
        if self._echoes is not None:
            self._echoes.append((self.now, identifier, data))
        if not self._is_noting:
            self._write(message, self.now + self._offset)
        elif self._echoes is None:
            self._own.append(self._noted(message, self._stamps.at(0.0, self.now), True))

    def _noted(self, message: Any, at: float, is_own: bool) -> WireFrame:
        """A frame on the bus, once it is in the log."""
        self._write(message, at + self._offset)
        return WireFrame(at, message.arbitration_id, bytes(message.data), is_own, self.lines)

    def notes(self, until: float) -> WireFrame | None:
        """The next frame with a 29-bit identifier, those that were sent here too; None where none came until a time. Error frames and others are counted."""
        if self._own:
            return self._own.popleft()
        message = self._bus.recv(max(0.0, min(WAIT, until - self.now)))
        if message is None:
            return None
        if message.is_error_frame:
            self.errors += 1
            self.is_off = self.is_off or bool(message.arbitration_id & BUS_OFF)
            return None
        if left_out(message):
            return None
        is_own = self._is_echo(message)
        self.heard += not is_own
        noted = self._noted(message, self._stamps.at(message.timestamp, self.now), is_own)
        self.others += not message.is_extended_id
        return noted if message.is_extended_id else None

    def _is_echo(self, message: Any) -> bool:
        """Whether a frame is one that was sent here."""
        echoes = self._echoes
        while echoes and self.now - echoes[0][0] > ECHO:
            echoes.popleft()
        found = next((echo for echo in echoes or () if echo[1:] == (message.arbitration_id, bytes(message.data))), None)
        if echoes and found:
            echoes.remove(found)
        return found is not None

    def receive(self, until: float | None) -> tuple[int, bytes] | None:
        """The next frame with a 29-bit identifier, None where none came until a time."""
        wait = WAIT if until is None else max(0.0, min(WAIT, until - self.now))
        message = self._bus.recv(wait)
        if message is None or left_out(message) or self._is_echo(message):
            return None
        self.heard += 1
        self._write(message, self.now + self._offset)
        return (message.arbitration_id, bytes(message.data)) if message.is_extended_id else None
