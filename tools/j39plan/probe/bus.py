"""A bus with a box on it: what the tester asks of it."""

from __future__ import annotations

from typing import Protocol

from j39plan.bench.wire import WireFrame
from j39plan.j1939 import identifier_of

# What fills the bus: a proprietary group, from an address for experiments.
FILLING = identifier_of(7, 0xFF7F, 252), b"\xff" * 8


class Bus(Protocol):
    """A bus. `receive` is the only place where time goes by."""

    @property
    def is_ended(self) -> bool:
        """Whether an interrupt ended it."""

    @property
    def is_off(self) -> bool:
        """Whether the tester's controller has left the bus."""

    @property
    def errors(self) -> int:
        """How many error frames were heard."""

    @property
    def now(self) -> float:
        """The time in seconds."""

    def put(self, identifier: int, data: bytes) -> None:
        """Sends a frame."""

    def hears(self, until: float) -> WireFrame | None:
        """The next frame that has ended, None where none did until a time, or for some while."""

    @property
    def has_power(self) -> bool:
        """Whether the box can be switched."""

    def power(self, is_on: bool) -> None:
        """Switches the box."""

    @property
    def has_short(self) -> bool:
        """Whether the wires can be shorted."""

    def short(self) -> None:
        """Shorts the wires for a second."""

    @property
    def has_filler(self) -> bool:
        """Whether the bus can be filled."""

    def fill(self, share: float) -> None:
        """Fills the bus to a share of its bits from now on, by frames that nobody has planned."""
