"""Long messages that were announced, until they are whole or come to nothing (SAE J1939-21)."""

from collections.abc import Collection

from j39plan.log.checks.deviations import Found
from j39plan.log.checks.distances import Distances
from j39plan.log.checks.hands import Hands
from j39plan.log.checks.queued import Begun, Queued
from j39plan.log.checks.requests import WAITED
from j39plan.log.checks.tracks import Way
from j39plan.log.checks.transfers import Pair, Transfers
from j39plan.log.clock import SECOND

# So long the longest message to all takes at most: 255 packets, 200 ms apart.
LONGEST = 51 * SECOND


class Announced:
    """The messages that are announced and not whole yet, by their ends."""

    def __init__(self, hands: Hands, distances: Distances, transfers: Transfers, queued: Queued, found: Found) -> None:
        self._hands, self._distances, self._transfers, self._queued, self._found = hands, distances, transfers, queued, found
        self._begun: dict[Pair, Begun] = {}

    def __contains__(self, pair: Pair) -> bool:
        return pair in self._begun

    def begins(self, begun: Begun) -> None:
        """A message is announced."""
        self._begun[begun.pair] = begun

    def whole(self, line: int, at: int | None, pair: Pair) -> Begun | None:
        """A message is put together, of which the announcement is known or not."""
        begun = self._begun.pop(pair, None)
        if begun:
            self._transfers.reported(line, at, pair)
            self._queued.whole(begun.way)
        return begun

    def acknowledged(self, pair: Pair, at: int | None) -> Begun | None:
        """The receiver may have said that it has a message which isn't put together yet, as where a packet was asked for once more: where each packet came it
        was carried whole."""
        if pair not in self._begun or not self._transfers.is_acknowledged(pair):
            return None
        begun = self._begun[pair]
        if begun.session is None or begun.session.missing is not None:
            self.ends(pair, at)
            return None
        self._queued.whole(begun.way)
        return self._begun.pop(pair)

    def changes_hands(self, addresses: Collection[int], line: int) -> None:
        """Addresses are another one's from a line on: what goes from or to them isn't put together."""
        for begun in self._begun.values():
            for address in addresses:
                if address in (begun.pair[0][2], begun.pair[1][2]) and not begun.between:
                    begun.between = f"address {address} changed hands at line {line}"

    def lacks(self) -> None:
        """Frames may be missing in the log, of these messages too."""
        for begun in self._begun.values():
            begun.is_unsure = True

    def is_under_way(self, way: Way, at: int) -> bool:
        """Whether a message was announced that may still be carried whole at a time."""
        return any(begun.way == way and begun.at is not None and at - begun.at < LONGEST for begun in self._begun.values())

    def ends(self, pair: Pair, at: int | None) -> None:
        """The message between two ends comes to nothing, if there is one; of one of which frames may be missing that isn't known, and of one whose session
        breaks the rules that is told."""
        begun = self._begun.pop(pair, None)
        if begun is None or self._distances.is_before(begun.line) or begun.is_unsure or begun.session is not None and begun.session.is_told:
            return
        if begun.between:
            address, _, where = begun.between.partition(" at ")
            text = f"{begun.text}: announced, and not put together, since {address}"
            self._found.tell("not-whole", text, begun.line, begun.at, unit=begun.unit, detail=f" at {where}")
        elif not self._is_cut(begun, at) and (cause := self._transfers.cause(pair)):
            text = f"{begun.text}: announced, and not carried whole: {cause.text}"
            self._found.tell("not-whole", text, begun.line, begun.at, cause.packet, unit=cause.unit or begun.unit)

    def _is_cut(self, begun: Begun, at: int | None) -> bool:
        """Whether a unit at one of the ends of a message went off meanwhile, or was off, by what is known at a time."""
        ended, units = self._transfers.ended(begun.pair) or begun.at, [label for label in (begun.unit, begun.to) if label]
        known = [off for label in units if (off := self._hands.off.get(label))]
        is_back = begun.at is not None and ended is not None and any(begun.at < off.back and off.last <= ended + WAITED for off in known)
        return is_back or any(self._hands.is_off(label, at) for label in units)

    def end(self, last: int | None) -> None:
        """The log ends: what may go on behind it isn't told."""
        for pair, begun in list(self._begun.items()):
            if begun.between or not self._transfers.may_go_on(pair, last):
                self.ends(pair, last)
