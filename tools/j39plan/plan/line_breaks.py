"""What breaks where a new line of vehicles takes an old one's place and some unit keeps the old plan: looked for in few vehicles that both lines have,
in which each two units are together that can be, and of ages in the worst vehicle of each line."""

from __future__ import annotations

from collections.abc import Iterator, Sequence
from typing import NamedTuple

from j39plan import program
from j39plan.plan.breaks import Break, Breaks
from j39plan.plan.differences import AnswerLines, PlanPair
from j39plan.plan.line_pairs import VehiclePair
from j39plan.plan.parts import Source
from j39plan.plan.variants import text_of_variant


class LineBreak(NamedTuple):
    """What breaks, of the receivers of all vehicles that were looked at, and the alternatives of the first of these; none of what the worst vehicles of
    both lines show."""

    found: Break
    vehicle: list[str]


def one_of(source: Source, labels: Sequence[str]) -> Source:
    """The plan of one vehicle of a line, each table at its line."""
    with program.file_of(source.text) as plan:
        return Source(text_of_variant(plan, labels, True), source.name)


def in_vehicles(old: Source, new: Source, vehicles: Sequence[VehiclePair]) -> Iterator[LineBreak]:
    """What breaks in each of some vehicles."""
    for vehicle in vehicles:
        matched = PlanPair(one_of(old, vehicle.old), one_of(new, vehicle.new))
        yield from (LineBreak(found, vehicle.old) for found in Breaks(matched).found())


def breaks_of(matched: PlanPair, answers: tuple[AnswerLines, AnswerLines], vehicles: Sequence[VehiclePair]) -> list[LineBreak]:
    """All that breaks, each once."""
    together: dict[Break, LineBreak] = {}
    receivers: dict[Break, set[str]] = {}
    needed_by: dict[Break, set[str]] = {}
    for one in [*in_vehicles(matched.old, matched.new, vehicles), *(LineBreak(found, []) for found in Breaks(matched, *answers).aged())]:
        what = one.found._replace(receivers=(), needed_by=())
        together.setdefault(what, one)
        receivers.setdefault(what, set()).update(one.found.receivers)
        needed_by.setdefault(what, set()).update(one.found.needed_by)
    order = [unit.label for unit in matched.old["unit"]]
    return [LineBreak(what._replace(receivers=(*in_file(order, needed_by[what]), *in_file(order, receivers[what] - needed_by[what])),
                                    needed_by=in_file(order, needed_by[what])), first.vehicle)
            for what, first in together.items()]


def in_file(order: Sequence[str], labels: set[str]) -> tuple[str, ...]:
    """Labels of units in the order of the file."""
    return tuple(label for label in order if label in labels)
