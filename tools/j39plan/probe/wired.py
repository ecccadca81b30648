"""A bus of wires, by python-can, with what switches the box, shorts the wires, and fills the bus."""

from __future__ import annotations

import contextlib
import shlex
import subprocess
import sys
from collections.abc import Callable
from typing import Any

from j39plan import program
from j39plan.bench.wire import WireFrame, Wire
from j39plan.probe.bus import FILLING
from j39plan.probe.memory import BITS
from j39plan.probe.tester import Unsure

# How long a command may take, in seconds.
PATIENCE = 60

# Tells a person what to do; True where that is to be waited for.
Tells = Callable[[str, bool], None]


class Switch:
    """What switches the box, or shorts the wires: a command, that gets a word, or a person at a terminal, or nobody."""

    def __init__(self, command: str | None, asks: str, tells: Tells | None) -> None:
        self._command, self._asks, self._tells = shlex.split(command or ""), asks, tells
        self._process: subprocess.Popen[bytes] | None = None

    def __bool__(self) -> bool:
        return bool(self._command or self._tells)

    def goes(self, word: str, is_waited_for: bool) -> None:
        """Does it; what needn't be waited for goes on beside the bus."""
        if not self._command:
            if self._tells:
                self._tells(f"{self._asks} {word}", is_waited_for)
            return
        self.look(True)
        try:
            self._process = subprocess.Popen([*self._command, word], stdin=subprocess.DEVNULL, stdout=subprocess.DEVNULL, start_new_session=True)
        except OSError as why:
            raise program.Refused(program.MISSING, f"{self._command[0]}: {why.strerror}") from None
        if is_waited_for:
            self.look(True)

    def look(self, is_waited_for: bool = False) -> None:
        """Looks whether the command has ended, and well."""
        process = self._process
        if process is None or not is_waited_for and process.poll() is None:
            return
        try:
            status = process.wait(PATIENCE)
        except subprocess.TimeoutExpired:
            process.kill()
            status = process.wait()
        self._process = None
        if status:
            raise Unsure(f"{' '.join(self._command)} ended with status {status}")


def person(text: str, is_waited_for: bool) -> None:
    """Asks a person at the terminal."""
    print(f"{text}{', then press Enter: ' if is_waited_for else ' now'}", file=sys.stderr, end="" if is_waited_for else "\n", flush=True)
    if is_waited_for:
        with contextlib.suppress(EOFError):
            input()


def switches(power: str | None, short: str | None) -> tuple[Switch, Switch]:
    """What switches the box, and what shorts the wires: commands, or a person where there is a terminal."""
    tells = person if sys.stdin is not None and sys.stdin.isatty() else None
    return Switch(power, "switch the box", tells), Switch(short, "short the wires for a second:", tells)


class Filler:
    """A second channel, whose controller fills the bus."""

    def __init__(self, interface: str, channel: str, bitrate: int | None) -> None:
        import can
        more = {} if bitrate is None else {"bitrate": bitrate}
        try:
            self._bus: Any = can.Bus(interface=interface, channel=channel, **more)
        except (can.CanError, OSError, ValueError, ImportError, TypeError) as why:
            raise program.Refused(program.DEVICE, f"{interface} {channel}: {why}") from why
        self._message: Any = can.Message(arbitration_id=FILLING[0], data=FILLING[1], is_extended_id=True)

    def fill(self, apart: float) -> None:
        """A frame each so many seconds; of 0 none."""
        self._bus.stop_all_periodic_tasks()
        if apart:
            self._bus.send_periodic(self._message, apart)

    def close(self) -> None:
        """Ends it."""
        self._bus.stop_all_periodic_tasks()
        self._bus.shutdown()


class Wired:
    """A bus of wires as the tester asks of one."""

    def __init__(self, wire: Wire, bitrate: int, power: Switch, short: Switch, filler: Filler | None) -> None:
        self._wire, self._bitrate, self._power, self._short, self._filler = wire, bitrate, power, short, filler

    @property
    def now(self) -> float:
        """The time in seconds."""
        return self._wire.now

    @property
    def is_ended(self) -> bool:
        """Whether an interrupt ended it."""
        return self._wire.is_ended

    @property
    def is_off(self) -> bool:
        """Whether the tester's controller has left the bus."""
        return self._wire.is_off

    @property
    def errors(self) -> int:
        """How many error frames were heard."""
        return self._wire.errors

    def put(self, identifier: int, data: bytes) -> None:
        """Sends a frame."""
        self._wire.put(identifier, data)

    def hears(self, until: float) -> WireFrame | None:
        """The next frame that has ended."""
        self._power.look()
        return self._wire.notes(until)

    @property
    def has_power(self) -> bool:
        """Whether the box can be switched."""
        return bool(self._power)

    def power(self, is_on: bool) -> None:
        """Switches the box; that it is on isn't waited for, since its claim comes at once."""
        self._power.goes("on" if is_on else "off", not is_on)

    @property
    def has_short(self) -> bool:
        """Whether the wires can be shorted."""
        return bool(self._short)

    def short(self) -> None:
        """Shorts the wires for a second."""
        self._short.goes("short", True)

    @property
    def has_filler(self) -> bool:
        """Whether the bus can be filled."""
        return self._filler is not None

    def fill(self, share: float) -> None:
        """Fills the bus to a share of its bits."""
        if self._filler:
            self._filler.fill((BITS + 64) / self._bitrate / share if share else 0.0)
