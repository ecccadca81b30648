"""Units that are commanded to another address (SAE J1939-81): a message of a NAME and an address, and whether the unit claims it."""

from __future__ import annotations

from typing import NamedTuple

from j39plan.j1939 import COMMANDED_ADDRESS, PACKET_BYTES, kind_of
from j39plan.log.checks.deviations import Found
from j39plan.log.checks.hands import ANSWER
from j39plan.log.checks.transfers import Announcement, Pair, pair_of
from j39plan.log.clock import milliseconds
from j39plan.log.reports import Frame
from j39plan.plan.tables import Unit

# A command has so many bytes: a NAME, and the address behind it.
NAME_BYTES, SIZE = 8, 9


class Command(NamedTuple):
    """A command that has come whole: its line and time, who sent it, and who is to claim which address."""

    line: int
    at: int | None
    sender: str
    label: str | None
    name: int
    address: int

    @property
    def text(self) -> str:
        """The command in words."""
        return f"{self.sender} commands {self.label or f'NAME {self.name:016X}'} to address {self.address}"


class Commanded:
    """The commands of a log, and those of which it isn't known yet whether the unit claims the address."""

    def __init__(self, units: list[Unit], found: Found) -> None:
        self._units, self._found = units, found
        self._begun: dict[Pair, bytes] = {}
        self.open: list[Command] = []

    def announced(self, frame: Frame, announced: Announcement) -> None:
        """A long message is announced, which ends another one of the same two."""
        self._begun.pop(pair_of(frame.sender, frame.to), None)
        if (announced.pgn, announced.length) == (COMMANDED_ADDRESS, SIZE) and announced.is_sound:
            self._begun[pair_of(frame.sender, frame.to)] = b""

    def packet(self, line: int, at: int | None, frame: Frame) -> None:
        """A packet, by which a command may be whole."""
        pair = pair_of(frame.sender, frame.to)
        known = self._begun.get(pair)
        if known is None or not frame.data:
            return
        if frame.data[0] != len(known) // PACKET_BYTES + 1:
            del self._begun[pair]
            return
        self._begun[pair] = data = known + frame.data[1:]
        if len(data) >= SIZE:
            del self._begun[pair]
            name = int.from_bytes(data[:NAME_BYTES], "little")
            self.open.append(Command(line, at, frame.sender.shown, self._label_of(name), name, data[NAME_BYTES]))

    def _label_of(self, name: int) -> str | None:
        """The unit that has a NAME; else the first of any serial number that has it but for that."""
        return next((unit.label for unit in self._units if unit.identity is not None and unit.number == name),
                    next((unit.label for unit in self._units if unit.identity is None and unit.number == kind_of(name)), None))

    def is_obeyed(self, name: str | None, address: int | None) -> bool:
        """Whether a claim of a NAME is what it was commanded, which is told then."""
        for command in self.open:
            if address == command.address and name is not None and int(name, 16) == command.name:
                self.open.remove(command)
                self._tell(command, "which it claims")
                return True
        return False

    def goes_by(self, at: int) -> None:
        """Time goes by: who hasn't claimed the address until now doesn't."""
        for command in [*self.open]:
            if command.at is None or not 0 <= at - command.at <= ANSWER:
                self.open.remove(command)
                self._tell(command, f"which it doesn't claim within {milliseconds(ANSWER)} ms")

    def end(self) -> None:
        """The log ends."""
        for command in self.open:
            self._tell(command, "which it doesn't claim in the log")

    def _tell(self, command: Command, then: str) -> None:
        self._found.tell("commanded", f"{command.text}, {then}", command.line, command.at, unit=command.label)
