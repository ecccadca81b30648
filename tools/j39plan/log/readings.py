"""What a signal says in a message: its state, value, unit of measurement."""

import difflib
import os
import re
from collections.abc import Callable, Iterable, Iterator
from decimal import Context, Decimal
from typing import Generic, NamedTuple, TypeVar

from j39plan import program
from j39plan.plan.measures import Measure, measure_of
from j39plan.plan.tables import Tables

EXACT = Context(prec=80)

# A trouble code, or how it is spelled in older ways, and what else is said of it.
CODE = re.compile(r"(?:spn (\d+) fmi (\d+)|raw (\d+)) count (\d+)(?: (.*))?")

# How many lines with readings are kept.
KEPT = 1 << 16

# Group and signal.
Column = tuple[str, str]


class Reading(NamedTuple):
    """The word of `follow` for the state; a value as a decimal number and its unit; and what else is said, as of a fault its number, of a
    value its name, and of a text what it is, without its quotation marks."""

    state: str
    value: str
    unit: str
    detail: str


# What is made of a reading.
Made = TypeVar("Made")


def divided(spelled: str, parts: int) -> str:
    """A decimal number divided, exactly."""
    return spelled if parts == 1 else f"{EXACT.divide(Decimal(spelled), Decimal(parts)):f}"


def reading_of(said: str, scale: Measure) -> Reading:
    """The reading that `follow` tells of a signal."""
    state, _, behind = said.partition(" ")
    if state == "text":
        return Reading(state, "", "", behind[1:-1])
    if state != "value":
        return Reading(state, "", "", behind)
    number, _, behind = behind.partition(" ")
    return Reading(state, divided(number, scale.parts), scale.unit, behind.removeprefix(scale.planned).strip().removeprefix("= "))


def names_of(tables: Tables) -> set[str]:
    """The names by which groups, signals and texts are chosen."""
    known = {group.label for group in tables.groups}
    for group in tables.groups:
        for label in (*(signal.label for signal in group.signals), *(text.label for text in group.texts)):
            known.update((label, f"{group.label}.{label}"))
    return known


def parted(tables: Tables, names: Iterable[str], log: str) -> tuple[list[str], list[str]]:
    """The names of groups and signals among some, and those of logs: the first one, and files of no such name."""
    known = names_of(tables)
    chosen: list[str] = []
    logs = [log]
    for name in names:
        (logs if name not in known and os.path.exists(name) else chosen).append(name)
    return chosen, logs


class Choice:
    """The signals and texts that are wanted, each by its group and label, with the unit that is shown; where no name is given all, or nothing."""

    def __init__(self, tables: Tables, names: Iterable[str], nothing: bool = False) -> None:
        self.scales: dict[Column, Measure] = {}
        for group in tables.groups:
            self.scales.update(((group.label, signal.label), measure_of(signal.unit)) for signal in group.signals)
            self.scales.update(((group.label, text.label), measure_of("")) for text in group.texts)
        self.texts = {(group.label, text.label) for group in tables.groups for text in group.texts}
        self.named = {(group.label, signal.label) for group in tables.groups for signal in group.signals if signal.values}
        self.repeated = {group.label for group in tables.groups if any(signal.repeated for signal in group.signals)}
        wanted = set(names)
        self.columns = {
            column: scale.unit for column, scale in self.scales.items()
            if not wanted and not nothing or wanted.intersection((*column, ".".join(column)))
        }
        known = names_of(tables)
        for name in sorted(wanted - known):
            close = difflib.get_close_matches(name, known, 1, 0.7)
            hint = f"; did you mean {close[0]}?" if close else ""
            raise program.Refused(program.UNREADABLE, f"no group, signal or log is called {name}{hint}")


class ReadingCache(dict[str, Made | None]):
    """What is made of lines that `follow` writes below messages of a group, `  LABEL SAID`, None of a signal that isn't wanted. They are kept, since
    signals repeat themselves."""

    def __init__(self, group: str, choice: Choice, make: Callable[[Column, str, Reading], Made], kept: Callable[[], None]) -> None:
        super().__init__()
        self._group, self._choice, self._make, self._kept = group, choice, make, kept

    def __missing__(self, line: str) -> Made | None:
        self._kept()
        _, _, label, said = line.split(" ", 3)
        column = self._group, label.partition("[")[0]  # of a record its place stands behind the label
        made = None
        if column in self._choice.columns:
            made = self._make(column, label, reading_of(said[:-1], self._choice.scales[column]))
        self[line] = made
        return made


class ReadingChoice(Generic[Made]):
    """What is made of the readings that are wanted."""

    def __init__(self, choice: Choice, make: Callable[[Column, str, Reading], Made]) -> None:
        self._known = {group: ReadingCache(group, choice, make, self._keep) for group, _ in choice.columns}
        self._count = 0

    def of(self, group: str, lines: Iterable[str]) -> Iterator[Made]:
        """What is made of the lines below that of a message of a group; nothing of those that aren't wanted."""
        known = self._known.get(group)
        return iter(()) if known is None else filter(None, map(known.__getitem__, lines))

    def known(self, group: str) -> ReadingCache[Made] | None:
        """What is made of lines below messages of a group, None where nothing of it is wanted."""
        return self._known.get(group)

    def _keep(self) -> None:
        """Another line is kept. Where these are too many all others are given up."""
        self._count += 1
        if self._count > KEPT:
            self._count = 1
            for known in self._known.values():
                known.clear()
