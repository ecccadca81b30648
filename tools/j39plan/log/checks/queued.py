"""Announced messages, and how long an announcement may have waited in its unit, behind others or since it was tried first."""

from dataclasses import dataclass

from j39plan.log.checks.sessions import Session
from j39plan.log.checks.tracks import Way
from j39plan.log.checks.transfers import Pair
from j39plan.log.clock import MILLISECOND

# So long a packet to all may stand before the next frame of its unit (SAE J1939-21).
PACED = 200 * MILLISECOND


@dataclass
class Begun:
    """An announced message: the line and the time of its announcement, what it is, its ends, its way and the units at its ends, its session, how long it may
    have waited for others of its unit, what has come in between, and whether frames of it may be missing in the log."""

    line: int
    at: int | None
    text: str
    pair: Pair
    way: Way
    unit: str | None
    to: str | None
    session: Session | None
    waited: int = 0
    between: str = ""
    is_unsure: bool = False


class Queued:
    """What units had to send before: messages to all one after another, and those that weren't carried whole, which are tried again."""

    def __init__(self) -> None:
        self._broadcasts: dict[str, tuple[int, int]] = {}  # of each unit when the first one of a row was announced, and its last packet
        self._tried: dict[Way, int] = {}  # when a message was announced first that hasn't been carried whole since

    def packet(self, unit: str, at: int) -> None:
        """A packet of a message to all."""
        begin, _ = self._broadcasts.get(unit, (at, at))
        self._broadcasts[unit] = begin, at

    def announced(self, unit: str, at: int, way: Way, is_broadcast: bool) -> int:
        """A message is announced: how long it may have waited."""
        waited = 0
        if is_broadcast:
            begin, last = self._broadcasts.get(unit, (at, -PACED))
            if not 0 <= at - last <= PACED:
                begin = at
            self._broadcasts[unit] = begin, at
            waited = at - begin
        tried = self._tried.setdefault(way, at)
        return max(waited, at - tried)

    def whole(self, way: Way) -> None:
        """A message is carried whole."""
        self._tried.pop(way, None)

    def anew(self) -> None:
        """The clock was set: times of before count no more."""
        self._broadcasts.clear()
        self._tried.clear()
