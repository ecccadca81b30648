"""The units of a bus: those that claim an address in a log, and the addresses from which others send."""

from __future__ import annotations

from collections import Counter
from collections.abc import Iterable, Iterator
from dataclasses import dataclass, field
from typing import Any

from j39plan.dbc.reader import KINDS
from j39plan.j1939 import IDENTITY_BITS, NAME_FIELDS, identity_in, kind_of
from j39plan.left_out import Notes, plain, some_of
from j39plan.log.to_plan.survey import WINDOW, Box, Survey
from j39plan.plan.parts import Part, Source
from j39plan.plan.schema import Value, most_of
from j39plan.plan.text import Labels, Table

# The most units that a plan has.
UNITS = most_of("", "unit")

# The bit of a NAME that SAE J1939-81 reserves, which is 0, and that of who may choose an address.
RESERVED, ARBITRARY = 1 << 48, 1 << 63

# Addresses of service tools (SAE J1939): off-board tools have these two.
TOOLS = (249, 250)


def fields_of(name: int) -> dict[str, Any]:
    """The fields of a NAME that aren't 0, as the keys of a plan."""
    fields = {key: name >> first & (1 << width) - 1 for key, first, width in NAME_FIELDS}
    return {key: bool(number) if key == "arbitrary" else number for key, number in fields.items() if number or key == "identity"}


def name_in(part: Part) -> int:
    """The NAME of a planned unit as a number, without an identity number."""
    name = part["name"]
    assert isinstance(name, dict)
    return kind_of(sum(int(value) << first for key, first, _ in NAME_FIELDS if isinstance(value := name.get(key), int)))


def place_of(part: Part) -> str:
    """Where a part of a known plan stands: its file and line; of a DBC and the like the file."""
    return plain(part.source.name if part.source.name.rpartition(".")[2].lower() in KINDS else part.at())


@dataclass
class Unit:
    """A unit: who it is, its label, the address that it prefers, its NAME, whether it claims, and what is remarked of it."""

    box: Box
    label: str
    address: int
    name: int
    remarks: list[str] = field(default_factory=list)
    has_identity: bool = False
    window: int = WINDOW

    @property
    def claims(self) -> bool:
        """Whether its claims are in the log."""
        return isinstance(self.box, str)

    def table(self) -> Table:
        """Its table in a plan."""
        name: dict[str, Value] = fields_of(self.name)
        if not self.has_identity:
            name.pop("identity")
        keys = {"label": self.label, "address": self.address, "window": self.window, "name": name or {"manufacturer": 0}, "claims": self.claims}
        beside = {"window": "it granted no more packets at a time"}
        return Table("unit", keys, self.remarks, beside=beside)


class Units:
    """The units of a log; plans that are known name them, by their NAMEs, or by their addresses."""

    def __init__(self, survey: Survey, known: list[Source], notes: Notes) -> None:
        self._survey, self._known, self._notes = survey, known, notes
        self._labels = Labels({"all"})
        self.called: dict[tuple[str, str], Box] = {}  # who a known plan's unit is, by its file and its label
        self._taken: dict[int, str] = {}  # identity numbers of units without a claim
        self.units: dict[Box, Unit] = {}
        boxes = [*self._claimed(), *self._silent()]
        if others := [str(unit.address) for unit in boxes[UNITS:]]:
            notes.say(f"{len(others)} units, at addresses {some_of(others)}", f"a plan has at most {UNITS} units")
        for unit in boxes[:UNITS]:
            unit.label = self._label(unit)
        self._number(boxes[:UNITS])
        for unit in sorted(boxes[:UNITS], key=lambda unit: (unit.address, unit.name)):
            granted = survey.granted.get(unit.box)
            unit.window = granted.most if granted and granted.is_limited else WINDOW
            self.units[unit.box] = unit
        self._at = {unit.address: unit.box for unit in reversed(self.units.values())}
        self._at |= {address: box for box, claims in survey.claims.items() for address, _ in claims if address not in self._at and address is not None}

    def of(self, box: Box) -> Unit | None:
        """The unit that somebody is: who sends from an address before anybody claims it is the one that prefers it."""
        return self.units.get(box) or self.units.get(self._at.get(box, box) if isinstance(box, int) else box)

    def tables(self) -> Iterator[Table]:
        """Their tables in a plan."""
        return (unit.table() for unit in self.units.values())

    def _claimed(self) -> Iterator[Unit]:
        """The units that claim."""
        for name, claims in self._survey.claims.items():
            number, addresses = int(name, 16), [address for address, _ in claims if address is not None]
            if not addresses:
                self._notes.say(f"NAME {name}", "it claims no address, it only says that it can't")
                continue
            if number & RESERVED:
                self._notes.say(f"NAME {name}", "its reserved bit, the 49th, is 1, which no plan has: what it sends is told as a stranger's")
            unit = Unit(name, "", addresses[0], number & ~RESERVED, [f"it claimed {addresses[0]} at line {claims[0][1]}"])
            others = [f"{'none' if address is None else address} at line {line}" for address, line in claims[1:4]]
            if others:
                unit.remarks.append(f"then {', '.join(others)}{', ..' if len(claims) > 4 else ''}")
            yield unit

    def _silent(self) -> Iterator[Unit]:
        """The units of which no claim is in the log."""
        heard = {box for box in self._survey.first if isinstance(box, int)}
        for address in self._survey.silent:
            why = "no claim of it is in the log: whether it claims, and its NAME, are guessed" if address in heard else \
                "nothing of it is in the log, but something goes to it: whether it is there is guessed"
            yield Unit(address, "", address, address, [why])

    def _number(self, units: Iterable[Unit]) -> None:
        """Gives identity numbers to those that nothing else tells apart; the others are of any number, which is remarked."""
        kinds = Counter(kind_of(unit.name) for unit in units)
        names = {unit.name for unit in units if unit.claims}
        for unit in units:
            unit.has_identity = kind_of(unit.name) == 0 and not unit.claims or kinds[kind_of(unit.name)] > 1
            while not unit.claims and unit.name in names:
                unit.name = kind_of(unit.name) + (identity_in(unit.name) + 256) % (1 << IDENTITY_BITS)
            names.add(unit.name)
            if not unit.has_identity and unit.claims:
                unit.remarks.append(f"its box has the serial number {identity_in(unit.name)}")

    def _takes_name(self, unit: Unit, part: Part) -> None:
        """A unit of which no claim is in the log has the NAME that a known plan has; who doesn't claim can't choose its address."""
        if not unit.claims and name_in(part):
            unit.name = name_in(part) & ~ARBITRARY | identity_in(unit.name)
            unit.remarks = [f"no claim of it is in the log: whether it claims is guessed, its NAME is that of {place_of(part)}"]

    def _label(self, unit: Unit) -> str:
        """What a unit is called: as in a known plan, else by its address."""
        for source in self._known:
            for part in source["unit"]:
                is_one = kind_of(unit.name) == name_in(part) != 0 or part.number("address") == unit.address and (name_in(part) == 0 or not unit.claims)
                if is_one and (source.name, part.label) not in self.called:
                    self.called[source.name, part.label] = unit.box
                    self._takes_name(unit, part)
                    return self._labels.label(part.label)
        return self._labels.label(f"TOOL_{unit.address}" if unit.address in TOOLS else f"ECU_{unit.address}")
