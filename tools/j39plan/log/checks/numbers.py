"""The serial numbers of the boxes of units, as claims tell them: others than the plan's, and of one unit two."""

from collections.abc import Iterable

from j39plan.log.checks.deviations import Found, Place
from j39plan.log.serial_numbers import OtherBox


class Numbers:
    """Which serial numbers claimed as which unit, and where each first. A unit whose box has another one than the plan is told once, several such units by one
    line, and each further box of a unit."""

    def __init__(self, others: Iterable[OtherBox], found: Found) -> None:
        self._planned = {other.label: other.planned for other in others}
        self._found = found
        self._boxes: dict[str, dict[int, Place]] = {}
        self._others: dict[str, Place] = {}  # where a unit claimed first by another serial number than planned

    def claim(self, line: int, at: int | None, label: str, identity: int) -> None:
        """A box of a unit of any serial number claims an address, or can't."""
        boxes = self._boxes.setdefault(label, {})
        if identity in boxes:
            return
        if boxes:
            first, place = next(iter(boxes.items()))
            text = f"{label} has identity {first} and {identity}: a box was exchanged, or there are two"
            self._found.tell("exchanged", text, line, at, unit=label, before=place)
        elif label in self._planned:
            self._others[label] = Place(line, at, identity)
        boxes[identity] = Place(line, at)

    def end(self) -> None:
        """Tells which units have other boxes than planned."""
        others = self._others
        for label, place in others.items() if len(others) == 1 else ():
            self._found.tell("identity", f"{label} has identity {{}}, planned is {self._planned[label]}", *place, unit=label)
        if len(others) > 1:
            first, numbers = next(iter(others.values())), [f"{label} {place.value}, planned {self._planned[label]}" for label, place in others.items()]
            text = f" ({len(others)} units: {'; '.join(numbers)})"
            self._found.tell("identity", "several units have other identities than planned", first.line, first.at, detail=text)
