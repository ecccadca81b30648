"""Units that weren't on the bus for a while: what their flows, and those to them, lacked meanwhile is told of the unit, once."""

import math
from collections.abc import Sequence
from typing import NamedTuple

from j39plan.log.checks.deviations import Found
from j39plan.log.checks.tracks import Heard, Off, Track
from j39plan.log.clock import SECOND

# So many flows of a unit that are silent at once tell that it is off, and so many such units that the ignition is, where they go off within such a time.
FLOWS, UNITS, WINDOW = 2, 2, 5 * SECOND

# Who sends at a period and wasn't heard for so long is off.
AWAY = SECOND


class Stopped(NamedTuple):
    """A unit that isn't heard any more: the line and the time at which its flows came last, and the flows that are missing."""

    unit: str
    line: int
    at: int
    flows: list[Track]


class Outages:
    """Which units are off, by the times of their flows, and for how long a flow was silent that one could have heard."""

    def __init__(self, tracks: Sequence[Track], heard: Heard, found: Found) -> None:
        self._heard, self._found = heard, found
        self._of: dict[str, list[Track]] = {}
        for track in tracks:
            self._of.setdefault(track.flow.sender, []).append(track)

    def of(self, unit: str) -> list[Track]:
        """The flows of a unit."""
        return self._of.get(unit, [])

    def begin(self, track: Track, last: int) -> int:
        """From when on a flow is silent whose last message came then: not before the unit that it is for was heard, nor before its own unit may send behind
        a claim, or was heard again."""
        flow, off = track.flow, self._heard.off.get(track.flow.sender)
        own = max(self._heard.free.get(flow.sender, last), off.back if off else last)
        return max(last, track.besides, own, self._heard.first.get(flow.to, last))

    def silence(self, track: Track, last: int, at: int) -> int:
        """How long a flow was silent up to a time; where who gets it was off meanwhile, the longer time of those before and behind that."""
        begin, off = self.begin(track, last), self._heard.off.get(track.flow.to)
        return at - begin if off is None or not begin <= off.back <= at else max(at - off.back, off.last - begin)

    def has_returned(self, unit: str, last: int) -> bool:
        """Whether a unit was off since a time, and is back."""
        off = self._heard.off.get(unit)
        return off is not None and last < off.back

    def _missing(self, unit: str, quiet: int, at: int) -> list[Track]:
        """The flows of a unit that came in time until it was quiet, and are missing by now."""
        found = []
        for track in self.of(unit):
            if track.limits and track.limits.most < math.inf and track.at is not None and track.at <= quiet <= track.at + track.limits.most:
                if self.silence(track, track.at, at) > track.limits.most + track.limits.wait:
                    found.append(track)
        return found

    def returns(self, track: Track, last: int, line: int, at: int) -> bool:
        """A flow comes again that was silent since then; whether its unit was off, which is told once for all its flows."""
        unit = track.flow.sender
        quiet = max(max(other.at or 0, other.besides) for other in self.of(unit) if other is not track) if len(self.of(unit)) > 1 else last
        quiet = max(quiet, last)
        missing = [other for other in self._missing(unit, quiet, at) if other is not track]
        if track.limits is None or quiet > last + track.limits.most:
            return False
        self._heard.off[unit] = Off(quiet, at)
        if len(missing) + 1 < FLOWS:
            return False
        for other in missing:
            other.besides = at
            other.row_ends()
        numbers = sorted((track.number, *(other.number for other in missing)))
        self._found.tell("silent", f"{unit}: none of its flows came for {{}} ms before: was it off the bus?", line, at, at - quiet, unit=unit,
                         detail=f" (flow {', '.join(map(str, numbers))})", flows=tuple(numbers))
        return True

    def heard_to(self, unit: str, last: int, since: int) -> int:
        """Until when a unit was on that may be off at a time, by when it was heard last since a line."""
        line, at, _ = self._heard.last.get(unit, (0, None, None))
        flows = [track for track in self.of(unit) if track.limits and track.limits.most < math.inf]
        return last if at is None or line < since or not flows or last - at <= AWAY else at

    def stopped(self, last: int, since: int) -> list[Stopped]:
        """The units of which all flows are missing at the log's last time that came until they were heard last."""
        found = []
        for unit, tracks in self._of.items():
            quiet = max((track.at for track in tracks if track.at is not None), default=None)
            line, heard, _ = self._heard.last.get(unit, (0, None, None))
            if quiet is None:
                continue
            if heard is not None and line >= since:
                quiet = max(quiet, heard)
            missing = self._missing(unit, quiet, last)
            if missing:
                found.append(Stopped(unit, max(track.line for track in missing), quiet, missing))
        return found

    def tell_stopped(self, stopped: list[Stopped], last: int) -> set[int]:
        """Tells of units that aren't heard any more: of several that went off together that the ignition is off; the flows of which it is told by that."""
        off, told = sorted(stopped, key=lambda one: one.at), set[int]()
        while off:
            together = [one for one in off if one.at - off[0].at <= WINDOW]
            off = off[len(together):]
            one, names = together[0], ", ".join(one.unit for one in together)
            if len(together) >= UNITS:
                text = "units aren't heard any more, for {} ms to the log's end, while others go on: their ignition is off, or they were unplugged"
                self._found.tell("ignition", text, one.line, one.at, last - one.at, detail=f" ({len(together)} units: {names})")
                told |= {track.number for each in together for track in each.flows}
            elif len(one.flows) >= FLOWS:
                numbers = tuple(track.number for track in one.flows)
                told |= set(numbers)
                self._found.tell("stopped", f"{one.unit}: none of its flows comes any more, for {{}} ms to the log's end", one.line, one.at, last - one.at, unit=one.unit,
                                 detail=f" (flow {', '.join(map(str, numbers))})", flows=numbers)
        return told
