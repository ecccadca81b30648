"""Which identity numbers of nodes a plan has: each is one box's own serial number, so a plan of a type of vehicle has none."""

from __future__ import annotations

from collections import Counter
from itertools import count
from typing import Any, NamedTuple

from j39plan.dbc.names import IDENTITY_ATTRIBUTE
from j39plan.left_out import Notes, some_of
from j39plan.plan.schema import ABSENT, knows


class NumberedUnit(NamedTuple):
    """A unit of a file: its name and address, its NAME without the identity number, and this, None where the file gives none."""

    unit: str
    address: int
    name: dict[str, Any]
    number: int | None


def numbers_of(boxes: list[NumberedUnit], keeps: bool, version: int, notes: Notes) -> dict[str, int]:
    """The identity numbers in a plan of this version, by units: those that tell units from one another, and all that are given where they are to
    be kept. A version that asks for a number of each unit has a free one where none is given."""
    given = {box.unit: box.number for box in boxes if box.number is not None}
    if not knows(version, (ABSENT, "name", "identity")):
        return with_free_ones(boxes, given, notes)
    if keeps:
        return {**given, **of_those_alike(boxes, notes)}
    say_nameless(boxes, notes)
    kept: dict[str, int] = {}
    for box in boxes:
        alike = [other for other in boxes if other.name == box.name and None not in (other.number, box.number) and other.number != box.number]
        if alike:
            kept[box.unit] = given[box.unit]
            told = f"only its identity number {box.number} distinguishes it from {alike[0].unit}: it is kept, and the plan fits one vehicle"
            notes.say(f"unit {box.unit}", told)
        elif box.number:
            notes.say(f"unit {box.unit}, {IDENTITY_ATTRIBUTE[0]}", f"{box.number} is left away: each box has a number of its own")
    return kept


def say_nameless(boxes: list[NumberedUnit], notes: Notes) -> None:
    """Says of which units the files give no NAME, where by that they aren't told apart."""
    units = sorted(box.unit for box in boxes if not box.name and box.number is None)
    if len(units) > 1:
        why = "no NAME is given, so nothing tells them apart (F1): give each its function, or number them by --identity"
        notes.say(f"units {some_of(units)}", why)


def of_those_alike(boxes: list[NumberedUnit], notes: Notes) -> dict[str, int]:
    """Free numbers of the units that have none and whose NAME another unit has too."""
    names = Counter(repr(sorted(box.name.items())) for box in boxes)
    alike = [box for box in boxes if box.number is None and names[repr(sorted(box.name.items()))] > 1]
    return with_free_ones(alike, {box.unit: box.number for box in boxes if box.number is not None}, notes)


def with_free_ones(boxes: list[NumberedUnit], given: dict[str, int], notes: Notes) -> dict[str, int]:
    """The numbers that are given, and free ones of other units in the order of their addresses."""
    free = (number for number in count(1) if number not in given.values())
    without = sorted((box for box in boxes if box.number is None), key=lambda box: (box.address, box.unit))
    found = {**given, **{box.unit: number for box, number in zip(without, free)}}
    for box in boxes:
        if box.number is None:
            notes.say(f"unit {box.unit}", f"no identity number is given: {found[box.unit]} stands in its place")
    return found
