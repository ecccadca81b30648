"""Units that begin anew, and where nothing at all came for a while: whether the ignition was off, of all or of some, by what units claim behind it."""

from typing import NamedTuple

from j39plan.log.checks.deviations import Found
from j39plan.log.clock import SECOND, milliseconds

# So long after a silence of all, or after a unit began anew, it is looked for further ones, and so many of them tell that the ignition was off.
WINDOW, UNITS = 5 * SECOND, 2


class Gap(NamedTuple):
    """A silence of all: the line and time of its end, and how long it was."""

    line: int
    at: int
    silence: int


class Again(NamedTuple):
    """A unit, or a NAME, that claims the address again that it had before: its label, if it has one, what is told of that by itself, and for how long it
    wasn't heard before, where that is known."""

    line: int
    at: int
    label: str | None
    text: str
    silence: int | None


class Ignition:
    """The last silence of all, and who began with a claim behind it or behind a silence of its own. Until it is known what it was nothing is told of it."""

    def __init__(self, found: Found) -> None:
        self._found = found
        self._gap: Gap | None = None  # of which it isn't known yet what it was
        self._again: list[Again] = []
        self._starts: set[str] = set()  # who begins with a claim behind the gap, by NAMEs
        self._was_off = False
        self._last = 0  # when the last one began anew

    @property
    def is_open(self) -> bool:
        """Whether it isn't known yet what something was."""
        return self._gap is not None or bool(self._again)

    def stood_still(self, line: int, at: int, silence: int) -> None:
        """Nothing came for a while."""
        self.end(True)
        self._gap, self._was_off, self._last = Gap(line, at, silence), False, at

    def starts(self, box: str) -> None:
        """A box that was heard before the silence is heard first by a claim behind it."""
        self._starts.add(box)
        if self._gap and len(self._starts) >= UNITS:
            self._was_off = True

    def claims_again(self, again: Again, is_start: bool) -> None:
        """One claims the address that it had; whether it is heard first by that since all was silent."""
        if is_start and self._was_off:
            return
        if any(other.text == again.text for other in self._again):
            self.end(True)
        self._again.append(again)
        self._last = again.at

    def goes_by(self, at: int, has_resumed: bool) -> None:
        """Time goes by: at its due it is told what there was. Where nothing of before has come again yet but one unit, that wasn't the log."""
        since = self._gap.at if self._gap and not self._again else self._last
        if self.is_open and not 0 <= at - since <= WINDOW:
            self.end(has_resumed)

    def end(self, has_resumed: bool) -> None:
        """Tells what there was."""
        gap, again, starts = self._gap, self._again, len(self._starts)
        self._gap, self._again, self._starts = None, [], set()
        if gap and self._was_off:
            text = "nothing at all came for {} ms before, then units claimed anew: the ignition was off; what is measured begins anew"
            self._found.tell("ignition", text, gap.line, gap.at, gap.silence, detail=f" ({starts} units)")
            return
        if gap and has_resumed:
            text = "nothing at all came for {} ms before: the bus, the log or its clock stood still; distances begin anew"
            self._found.tell("gap", text, gap.line, gap.at, gap.silence)
        if len(again) >= UNITS:
            self._tell_units(again)
        else:
            for one in again:
                self._restarts(one)

    def _tell_units(self, again: list[Again]) -> None:
        """Several units began anew together, while others stayed on."""
        text = "units that weren't heard for up to {} ms claimed anew, while others stayed on: their ignition was off, or they were unplugged"
        longest = max(one.silence or 0 for one in again)
        who = ", ".join(one.label or "another" for one in again)
        self._found.tell("ignition", text, again[0].line, again[0].at, longest, detail=f" ({len(again)} units: {who})")

    def _restarts(self, again: Again) -> None:
        """A unit restarted by itself."""
        silence = "" if again.silence is None else f" (not heard for {milliseconds(again.silence)} ms before)"
        self._found.tell("restart", again.text, again.line, again.at, unit=again.label, detail=silence)
