"""Signals of a plan against a reference that the user has, a DBC of SAE J1939 or a plan of its groups: where an SPN lies, what it means, and how its
group is sent."""

from __future__ import annotations

import importlib.util
import os
import re
from collections.abc import Iterator
from fractions import Fraction
from typing import TYPE_CHECKING, NamedTuple

from j39plan import program
from j39plan.dbc.reader import KINDS, FileOptions, load
from j39plan.dbc.signals import exactly, in_ascii, long_name, number_of_signal, place_of, unit_of
from j39plan.left_out import LeftOut, Unsaid
from j39plan.plan.answer_places import PlacedPart
from j39plan.plan.files import text_of
from j39plan.plan.parts import Part, Source
from j39plan.plan.scales import Scale, is_close, place, scale
from j39plan.plan.schema import VERSIONS

if TYPE_CHECKING:
    import canmatrix

# A label that is the number of its signal.
NUMBERED = re.compile(r"SPN_?(\d{1,6})")


# The scale of a signal of which a file doesn't say one.
UNSAID = Scale(Fraction(1), Fraction(0), "")


class ReferenceFrame(NamedTuple):
    """How a group is sent: its number, its priority, its least and its greatest length."""

    name: str
    pgn: int
    priority: int
    lengths: tuple[int, int]


class ReferenceSignal(NamedTuple):
    """A signal of the reference: its number, its group, its first bit and width, its scale."""

    spn: int
    frame: ReferenceFrame
    place: tuple[int, int]
    scale: Scale


def number_of(signal: Part) -> int | None:
    """The number of a signal: the one that it says, else that in its label."""
    found = NUMBERED.fullmatch(signal.label)
    said = signal.number_if_any("spn")
    return said if said is not None else int(found.group(1)) if found else None


def frame_of(group: Part) -> ReferenceFrame:
    """How a plan's group is sent."""
    length = group.number("length")
    return ReferenceFrame(group.label, group.number("pgn"), group.number("priority"), (length, group.number_if_any("most") or length))


def signals_in(plan: Source) -> Iterator[tuple[Part, Part, int]]:
    """The signals of a plan that have a number, with their groups. A maker's own groups are in no reference."""
    for group in plan["group"]:
        for signal in group.inside.get("signal", []):
            number = number_of(signal)
            if number is not None and not group.is_true("private"):
                yield group, signal, number


def of_plan(name: str) -> Iterator[ReferenceSignal]:
    """The signals of a plan that is the reference."""
    for group, signal, number in signals_in(Source(text_of(name), name)):
        yield ReferenceSignal(number, frame_of(group), place(signal), scale(signal))


def of_file(name: str) -> Iterator[ReferenceSignal]:
    """The signals of a DBC, or of another file that canmatrix reads, with which the units of several vehicles may send a group."""
    with open(name, "rb") as file:
        data = file.read()
    try:
        matrix = load(name, data, FileOptions(), Unsaid())
    except LeftOut as why:
        raise program.Refused(program.UNREADABLE, f"{name}: {why}") from why
    for message in matrix.frames:
        identifier = message.arbitration_id
        if identifier.extended:
            frame = ReferenceFrame(message.name, identifier.pgn, identifier.j1939_priority, (message.size, message.size))
            yield from (known for signal in message.signals if (known := known_of(signal, frame)))


def known_of(signal: canmatrix.Signal, frame: ReferenceFrame) -> ReferenceSignal | None:
    """A signal of a message, where it has a number and a place that a plan's can have."""
    named = NUMBERED.fullmatch(long_name(signal))
    number = number_of_signal(signal).get("spn") or (int(named.group(1)) if named else None)
    step, offset = exactly(signal.factor), exactly(signal.offset)
    try:
        start = place_of(signal, VERSIONS[-1])
    except LeftOut:
        return None
    if not number or step is None or offset is None:
        return None
    return ReferenceSignal(number, frame, (start, signal.size), Scale(step, offset, in_ascii(unit_of(signal, 1))))


def shipped() -> str:
    """The database of J1939 groups that canmatrix ships."""
    spec = importlib.util.find_spec("canmatrix")
    name = os.path.join(os.path.dirname(spec.origin), "j1939.dbc") if spec and spec.origin else ""
    if not os.path.isfile(name):
        raise program.Refused(program.MISSING, "no reference is there: apt-get install python3-canmatrix, or name a file")
    return name


def shipped_reference() -> Reference:
    """That database as a reference; which it is, and what it doesn't say, is said."""
    reference = Reference(shipped())
    lacks = [what for what, has in (("scales", reference.has_scales), ("priorities", reference.has_priorities)) if not has]
    program.say(f"the reference is {reference.name}" + (f", which has no {' and no '.join(lacks)}" if lacks else ""))
    return reference


class Reference:
    """The signals of a file by their numbers."""

    def __init__(self, name: str) -> None:
        self.name = name
        self._known: dict[int, list[ReferenceSignal]] = {}
        ending = name.rpartition(".")[2].lower()
        for known in of_file(name) if ending in KINDS else of_plan(name):
            self._known.setdefault(known.spn, []).append(known)
        # A file in which all have priority 0, and a signal that is its raw number without a unit, say nothing of these.
        self.has_priorities = any(known.frame.priority for some in self._known.values() for known in some)
        self.has_scales = any(known.scale != UNSAID for some in self._known.values() for known in some)
        if not self._known:
            raise program.Refused(program.UNREADABLE, f"{name}: no signal in it has an SPN")

    def differences(self, plan: Source, says_missing: bool = True) -> list[PlacedPart]:
        """What is otherwise in a plan, each with its line: of signals, and once of each group. Where not all of its signals are there, it can be said how
        many are."""
        found: list[PlacedPart] = []
        seen: set[str] = set()
        signals = list(signals_in(plan))
        there = sum(number in self._known for *_, number in signals)
        if says_missing and there < len(signals):
            program.say(f"of {len(signals)} signals with an SPN {there} are in {self.name}")
        for group, signal, number in signals:
            others = self._known.get(number)
            if others is None:
                continue
            mine = frame_of(group)
            same = [known for known in others if known.frame.pgn == mine.pgn]
            if not same:
                found.append(self._placed(group.line("pgn"), f"SPN {number} {group.label}.{signal.label}: pgn {mine.pgn}",
                                          " or ".join(dict.fromkeys(f"{known.frame.pgn} ({known.frame.name})" for known in others))))
                continue
            found += self._of_signal(group, signal, number, same)
            if group.label not in seen:
                seen.add(group.label)
                found += self._of_group(group, mine, [known.frame for known in same])
        return sorted(found, key=lambda one: one.line or 0)

    def _placed(self, line: int, mine: str, other: str) -> PlacedPart:
        return PlacedPart(line, f"hint {mine}; in {self.name} {other}", "", [])

    def _of_signal(self, group: Part, signal: Part, number: int, others: list[ReferenceSignal]) -> Iterator[PlacedPart]:
        """What is otherwise of a signal than of all of its number in the reference."""
        what, at, mine = f"SPN {number} {group.label}.{signal.label}", place(signal), scale(signal)
        if all(at != known.place for known in others):
            key = "bits" if any(at[0] == known.place[0] for known in others) else "byte"
            yield self._placed(signal.line(key), f"{what}: {in_words(at)}", " or ".join(dict.fromkeys(in_words(known.place) for known in others)))
        scales = [known.scale for known in others if known.scale != UNSAID]
        if scales and not any(is_close(mine, other) for other in scales):
            yield self._placed(signal.line(key_of(signal, mine, scales)), f"{what}: {mine.shown}", " or ".join(dict.fromkeys(other.shown for other in scales)))

    def _of_group(self, group: Part, mine: ReferenceFrame, others: list[ReferenceFrame]) -> Iterator[PlacedPart]:
        """What is otherwise of a group: another priority; lengths none of which is one of the reference."""
        if self.has_priorities and all(mine.priority != other.priority for other in others):
            yield self._placed(group.line("priority"), f"{group.label}: priority {mine.priority}", shown({other.priority for other in others}))
        if all(other.lengths[0] > mine.lengths[1] or other.lengths[1] < mine.lengths[0] for other in others):
            yield self._placed(group.line("length"), f"{group.label}: {lengths_in_words(mine.lengths)}",
                               " or ".join(dict.fromkeys(lengths_in_words(other.lengths) for other in others)))


def key_of(signal: Part, mine: Scale, others: list[Scale]) -> str:
    """The key of a signal by which its scale is another one."""
    if all(mine.step != other.step for other in others):
        return "per" if "per" in signal.said else "step"
    return "offset" if all(mine.offset != other.offset for other in others) else "unit"


def shown(numbers: set[int]) -> str:
    """Numbers in words."""
    return " or ".join(map(str, sorted(numbers)))


def in_words(at: tuple[int, int]) -> str:
    """Where a signal lies: byte and bit, counted from 1, and its width."""
    start, width = at
    return f"{start // 8 + 1}.{start % 8 + 1}, {width} bits"


def lengths_in_words(lengths: tuple[int, int]) -> str:
    """How long messages are."""
    return f"{lengths[0]} bytes" if lengths[0] == lengths[1] else f"{lengths[0]} to {lengths[1]} bytes"
