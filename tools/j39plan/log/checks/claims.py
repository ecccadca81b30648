"""Which units claim addresses as they have to: before they send, and where claims are asked for (SAE J1939-81)."""

from j39plan.j1939 import GLOBAL_ADDRESS, NULL_ADDRESS
from j39plan.log.checks.deviations import Found, Place
from j39plan.log.checks.hands import ANSWER, Hands
from j39plan.log.clock import milliseconds
from j39plan.log.reports import Request, Who
from j39plan.plan.tables import Unit

# So many units at least begin with their claims in a log that begins with the drive.
BEGINNERS = 2


class Claims:
    """The units that have to claim, those that began with their claim, and who is asked for its claim and hasn't answered yet."""

    def __init__(self, units: list[Unit], hands: Hands, found: Found) -> None:
        self._labels = [unit.label for unit in units if unit.claims]
        self._hands, self._found = hands, found
        self._began: dict[str, int] = {}  # who was heard first by a claim that nobody had asked for, with its line
        self._asked_first: set[str] = set()  # and by one that was asked for
        self._later: dict[str, int | None] = {}  # when those claimed first, unasked, that were heard before
        self._missing: int | None = None  # the first line before which frames may be missing
        self.open: dict[str, Place] = {}

    def anew(self, line: int) -> None:
        """The clock was set, or frames are missing before a line: who is asked counts no more, and claims may be among these."""
        self.open.clear()
        self._missing = line if self._missing is None else self._missing

    def claimed(self, line: int, at: int | None, label: str) -> None:
        """A unit claims an address, or can't, before the hands know of it."""
        self.open.pop(label, None)
        if label in self._hands.last:
            if not self._hands.has_claimed(label) and not self._hands.was_asked(at):
                self._later[label] = at
        elif self._hands.was_asked(at):
            self._asked_first.add(label)
        else:
            self._began[label] = line

    def goes_to(self, line: int, at: int | None, who: Who, to: int) -> None:
        """A claim goes to an address, which has to be that of all."""
        if to != GLOBAL_ADDRESS:
            self._found.tell("claim-to-one", f"a claim from {who.shown} goes to address {to}, by the standard to all", line, at, unit=who.label)

    def asked(self, line: int, at: int | None, request: Request) -> None:
        """Claims are asked for: who is on answers."""
        if at is None or request.to.address == NULL_ADDRESS:
            return
        for label in self._labels:
            is_meant = request.to.address is None or request.to.label == label
            if is_meant and label != request.sender.label and self._hands.is_on(label, at):
                self.open.setdefault(label, Place(line, at))

    def goes_by(self, at: int) -> None:
        """Time goes by: who hasn't answered until now doesn't, where it was heard since."""
        for label, place in list(self.open.items()):
            assert place.at is not None
            if 0 <= at - place.at <= ANSWER:
                continue
            del self.open[label]
            heard = self._hands.last[label][1]
            if heard is not None and place.at < heard:
                text = f"{label} doesn't answer a request for claims within {milliseconds(ANSWER)} ms"
                self._found.tell("claims-unanswered", text, place.line, place.at, unit=label)

    def end(self, last: int | None) -> None:
        """Tells what is known at the end: in a log in which most units begin with their claims each one has to that is heard first behind some of these.
        Others may have claimed before the log began."""
        if last is not None:
            self.goes_by(last)
        heard = [label for label in self._labels if label in self._hands.last]
        others = [label for label in heard if label not in self._began and label not in self._asked_first]
        if len(self._began) < max(BEGINNERS, len(others) + 1):
            return
        since = sorted(self._began.values())[BEGINNERS - 1]
        for label in others:
            line, at = self._hands.begun[label]
            is_known = self._missing is None or line < self._missing
            if line <= since or not is_known:
                continue
            claimed = self._later.get(label)
            if at is not None and claimed is not None:
                text = f"{label} sends for {{}} ms before it claims an address, which {len(self._began)} other units do first"
                self._found.tell("unclaimed", text, line, at, claimed - at, unit=label)
            elif not self._hands.has_claimed(label):
                text = f"{label} sends, and never claims an address, as {len(self._began)} other units do before they send"
                self._found.tell("unclaimed", text, line, at, unit=label)
