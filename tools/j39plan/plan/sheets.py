"""The tables of a plan as one reviews them: units, groups, signals, flows, needs and requests, and the plan's own keys, a row each."""

from __future__ import annotations

import functools
from collections.abc import Callable, Iterator
from fractions import Fraction
from typing import NamedTuple

from j39plan.j1939 import NAME_FIELDS
from j39plan.plan.answers import PlanAnswer
from j39plan.plan.measures import measure_of
from j39plan.plan.parts import Source
from j39plan.plan.schema import arrays
from j39plan.plan.tables import Flow, Group, Signal, Tables, serves
from j39plan.plan.toml_places import Place
from j39plan.plan.variants import Line

# What stands in a cell; None where there is nothing to say.
Cell = str | int | float | bool | None

# The tables, in the order in which they are written.
NAMES = ("units", "groups", "signals", "flows", "needs", "requests", "plan")

# The fields of a NAME but the bit that says whether the unit may choose.
FIELDS = tuple(key for key, _, _ in NAME_FIELDS if key != "arbitrary")


class Sheet(NamedTuple):
    """A table: its name, the heads of its columns, and its rows."""

    name: str
    heads: tuple[str, ...]
    rows: list[tuple[Cell, ...]]


class Sheets:
    """The tables of a plan, with what the program answers of them, the comments behind labels, and the lines of the file."""

    def __init__(self, source: Source, tables: Tables, answers: PlanAnswer) -> None:
        self._source, self._tables, self._answers = source, tables, answers
        self._groups = {group.label: group for group in tables.groups}
        load = answers.load
        self._delays = {delay.flow: delay for delay in load.delays} if load else {}
        self._ages = {age.need: age for age in load.ages} if load else {}
        self._line = Line.of(source) if source["choice"] else None
        made = (self.units, self.groups, self.signals, self.flows, self.needs, self.requests, self.plan)
        self.all: dict[str, Callable[[], Sheet]] = {name: functools.partial(self._of_line, make) for name, make in zip(NAMES, made)}

    def _of_line(self, make: Callable[[], Sheet]) -> Sheet:
        """A table, of a line of vehicles with a column of the alternatives with which each row's part is there; signals are there with their groups."""
        sheet, line = make(), self._line
        if line is None or sheet.name in ("signals", "plan"):
            return sheet
        withs = [line.named.get((sheet.name.removesuffix("s"), number), []) for number in range(1, len(sheet.rows) + 1)]
        rows = [(*row[:-2], line.in_words(labels) or None, *row[-2:]) for row, labels in zip(sheet.rows, withs)]
        return Sheet(sheet.name, (*sheet.heads[:-2], "with", *sheet.heads[-2:]), rows)

    def _at(self, place: Place) -> int:
        """The line of a table in the file."""
        return self._source.line(place)

    def _comment(self, place: Place) -> str | None:
        """The comment behind the label of a table, or behind the group of a flow, a need or a request."""
        keys = [key for key in ("label", "group", "unit") if place + (key,) in self._source.places.lines]
        return next((said for key in keys if (said := self._source.comment(self._at(place + (key,))))), None)

    def _said(self, place: Place, key: str) -> Cell:
        """What a key of the file is; None where the file doesn't say it."""
        value = self._source.value((*place, key)) if (*place, key) in self._source.places.lines else None
        return " ".join(map(str, value)) if isinstance(value, list) else value if isinstance(value, (str, int)) else None

    def units(self) -> Sheet:
        """Who is on the bus."""
        heads = ("unit", "address", "stays", "NAME", *FIELDS, "arbitrary", "claims", "queue", "chooser", "window", "sends", "needs", "comment", "line")
        rows: list[tuple[Cell, ...]] = []
        for unit in self._tables.units:
            stand = self._answers.stands.get(unit.label)
            sends = sum(flow.sender == unit.label for flow in self._tables.flows)
            needed = sum(need.unit == unit.label for need in self._tables.needs)
            rows.append((unit.label, unit.address, stand.stays if stand else None, unit.name, *(unit.fields.get(key) for key in FIELDS), unit.may_choose,
                         unit.claims, unit.queue, *(self._said(unit.place, key) for key in ("chooser", "window")), sends, needed, self._comment(unit.place), self._at(unit.place)))
        return Sheet("units", heads, rows)

    def groups(self) -> Sheet:
        """What is sent."""
        heads = ("group", "pgn", "pgn hex", "priority", "length", "most", "private", "every", "when", "signals", "from", "comment", "line")
        rows: list[tuple[Cell, ...]] = []
        for group in self._tables.groups:
            senders = dict.fromkeys(flow.sender for flow in self._tables.flows if flow.group == group.label)
            when = f"{group.when.byte}.{group.when.bit}, {group.when.bits} bits = {group.when.value}" if group.when else None
            rows.append((group.label, group.pgn, f"{group.pgn:04X}", group.priority, group.length, group.most, group.private, group.every, when, len(group.signals),
                         " ".join(senders) or None, self._comment(group.place), self._at(group.place)))
        return Sheet("groups", heads, rows)

    def signals(self) -> Sheet:
        """What is in it, texts too."""
        heads = ("group", "pgn", "signal", "spn", "byte", "bit", "bits", "kind", "factor", "offset", "unit", "names", "every", "optional", "repeated", "needed by",
                 "comment", "line")
        return Sheet("signals", heads, [row for group in self._tables.groups for row in self._signals_of(group)])

    def _signals_of(self, group: Group) -> Iterator[tuple[Cell, ...]]:
        """The rows of a group's signals and texts."""
        for signal in group.signals:
            factor, offset, unit = scale_of(signal)
            names = ", ".join(f"{raw} {name}" for raw, name in sorted(signal.values.items())) or None
            needed = dict.fromkeys(need.unit for need in self._tables.needs if need.group == group.label and need.signal in ("", signal.label))
            yield (group.label, group.pgn, signal.label, signal.spn, signal.byte, signal.bit, signal.bits, signal.kind, factor, offset, unit, names,
                   group.every if signal.repeated else None, signal.optional, signal.repeated or None, " ".join(needed) or None, self._comment(signal.place), self._at(signal.place))
        for text in group.texts:
            yield (group.label, group.pgn, text.label, None, text.byte, 1, None if text.bytes is None else 8 * text.bytes, "text", None, None, None, None,
                   None, None, None, None, self._comment(text.place), self._at(text.place))

    def flows(self) -> Sheet:
        """Who sends what to whom, how often, and by when it is sent."""
        heads = ("flow", "group", "pgn", "priority", "from", "to", "period ms", "pause ms", "jitter ms", "deadline ms", "on request", "within ms", "limit ms", "comment", "line")
        rows: list[tuple[Cell, ...]] = []
        for flow in self._tables.flows:
            group, delay = self._groups[flow.group], self._delays.get(flow.number)
            rows.append((flow.number, flow.group, group.pgn, group.priority, flow.sender, flow.to, flow.period, flow.pause, flow.jitter or None,
                         flow.deadline, flow.on_request, bound_of(delay.within, delay.limit) if delay else None, in_ms(delay.limit if delay else None), self._comment(flow.place),
                         self._at(flow.place)))
        return Sheet("flows", heads, rows)

    def needs(self) -> Sheet:
        """Who needs what, how fresh, by which flows it gets that, and how old it is at most."""
        heads = ("need", "unit", "group", "signal", "from", "within ms", "met by flows", "age ms", "comment", "line")
        rows: list[tuple[Cell, ...]] = []
        for number, need in enumerate(self._tables.needs, 1):
            age = self._ages.get(number)
            rows.append((number, need.unit, need.group, need.signal or None, need.sender or None, need.within,
                         numbers_of(flow for flow in self._tables.flows if need.is_met_by(flow)), bound_of(age.age, age.limit) if age else None,
                         self._comment(need.place), self._at(need.place)))
        return Sheet("needs", heads, rows)

    def requests(self) -> Sheet:
        """Who asks whom for what, and which flows answer."""
        heads = ("request", "group", "from", "to", "period ms", "answered by flows", "comment", "line")
        rows: list[tuple[Cell, ...]] = []
        for number, request in enumerate(self._tables.requests, 1):
            answers = (flow for flow in self._tables.flows if serves(flow.group, flow.sender, flow.to, request))
            rows.append((number, request.group, request.sender, request.to, request.period, numbers_of(answers), self._comment(request.place),
                         self._at(request.place)))
        return Sheet("requests", heads, rows)

    def plan(self) -> Sheet:
        """What the file says of the plan as a whole and of the bus, keys of tables with these in front."""
        tables: tuple[Place, ...] = ((), ("timing",), ("timing", "errors"))
        said = ((*table, key) for table in tables for key in self._source.keys(table) if key not in arrays())
        rows: list[tuple[Cell, ...]] = [(" ".join(map(str, place)), value, self._at(place)) for place in said
                                        if (value := self._said(place[:-1], str(place[-1]))) is not None]
        return Sheet("plan", ("key", "value", "line"), rows)


def scale_of(signal: Signal) -> tuple[Cell, Cell, str | None]:
    """The factor and the offset of a signal as numbers, and its unit without a fraction."""
    measure = measure_of(signal.unit)
    per = signal.per * measure.parts
    return number_of(Fraction(signal.step, per)), number_of(Fraction(signal.offset, per)), measure.unit or None


def number_of(value: Fraction) -> Cell:
    """A number as a cell has it: a text where its decimals would be cut off."""
    if value.denominator == 1:
        return value.numerator
    return float(value) if Fraction(str(float(value))) == value else str(value)


def numbers_of(flows: Iterator[Flow]) -> str | None:
    """The numbers of flows in one cell."""
    return " ".join(str(flow.number) for flow in flows) or None


def bound_of(time: int | None, limit: int | None) -> Cell:
    """A bound of `load` in ms; in words where there is a limit and none is shown."""
    return "not shown" if time is None and limit is not None else in_ms(time)


def in_ms(time: int | None) -> float | None:
    """A time of `load` in ms."""
    return None if time is None else time / 1000
