"""Compares two plans, as of two model years, by what they mean: what is otherwise, and what breaks where a unit keeps the old one.

A receiver that keeps the old plan reads by it what the others send by the new one. Of two lines of vehicles it is said too how many vehicles are built no
more and newly, with one of each; what breaks is looked for in few vehicles in which each two units are together.
"""

import argparse
import json
import sys
from collections.abc import Iterator
from typing import Any

from j39plan import program
from j39plan.plan.breaks import Break, Breaks
from j39plan.plan.differences import AnswerLines, Change, PlanPair, changes_of
from j39plan.plan.files import of_one_vehicle, sources_of
from j39plan.plan.line_breaks import LineBreak, breaks_of
from j39plan.plan.line_pairs import VehicleCounts, LinePair, VehiclePair
from j39plan.plan.parts import Source
from j39plan.plan.variants import Line


def answers_of(source: Source) -> AnswerLines:
    """What the program answers about a plan, from a file of its own: what a pipe gives comes only once."""
    with program.file_of(source.text) as plan:
        return AnswerLines(source, plan)


def change_line(change: Change, old: Source, new: Source) -> str:
    """A change with the file and line where it stands, and where it was."""
    what, key, before, now, old_line, new_line = change
    place = f"{old.name}:{old_line}" if new_line is None and old_line else f"{new.name}:{new_line or 1}"
    if key == "new":
        return f"{place}: {what}: new"
    if key == "gone":
        return f"{place}: {what}: gone"
    was = f" ({old.name}:{old_line})" if old_line and new_line else ""
    if key == "label":
        return f"{place}: {what}: it was called {before}{was}"
    if key == "stands" and now:
        address = now.rpartition(" ")[2]
        return f"{place}: {what}: " + (f"it stays at {address} now" if now.startswith("stays") else f"it may move from {address}, where it stayed") + was
    return f"{place}: {what}: {key} {now or 'none'}, it was {before or 'none'}{was}"


def break_line(found: Break, old: Source, new: Source, others: int) -> str:
    """What breaks, with the file and line."""
    place = f"{new.name}:{found.new_line}" if found.new_line else f"{old.name}:{found.old_line}"
    was = f" ({old.name}:{found.old_line})" if found.new_line else ""
    everybody = len(found.receivers) > 1 and len(found.receivers) == others
    who = "all" if everybody else ", ".join(found.receivers)
    return f"{place}: breaks: {needed_words(found)}{broken_words(found, who)}: {found.why}{was}"


def needed_words(found: Break) -> str:
    """Which of several receivers need what breaks."""
    if not found.needed_by or len(found.receivers) == 1:
        return ""
    return f"{', '.join(found.needed_by)} need{'' if len(found.needed_by) > 1 else 's'} it; "


def broken_words(found: Break, who: str) -> str:
    """Who gets what wrong."""
    plural = len(found.receivers) > 1
    what = (f"{found.group}.{found.signal}" if found.signal else found.group) + (f" of {found.sender}" if found.sender else "")
    return {
        "wrong": f"{who} read{'' if plural else 's'} {what} wrongly", "lost": f"{who} miss{'' if plural else 'es'} {what}",
        "old": f"{who} need{'' if plural else 's'} {what} younger", "sender": f"{found.sender} isn't found by {who}",
        "bus": f"{who} stop{'' if plural else 's'} the bus", "address": f"{who} may take an address that is kept free",
    }[found.kind]


def others_of(matched: PlanPair, sender: str, pair: LinePair | None) -> int:
    """How many units both plans have beside a sender, of lines those that are in a vehicle with it."""
    labels = [before.label for before, now in matched.units if before is not None and now is not None and before.label != sender]
    return sum(pair is None or pair.are_together(sender, label) for label in labels)


def vehicle_lines(counts: VehicleCounts, vehicles: list[VehiclePair]) -> Iterator[str]:
    """How many vehicles two lines have, and in how many of both was looked for what breaks."""
    yield f"vehicles {counts.new}, it was {counts.old}; compared {len(vehicles)}"
    for word, number, first in (("no longer", counts.gone, counts.gone_first), ("newly", counts.built, counts.built_first)):
        yield f"{word} built {number}" + (f", as {' '.join(first)}" if number else "")


class Comparison:
    """Two plans of one vehicle, or two of lines of vehicles, compared."""

    def __init__(self, old: Source, new: Source) -> None:
        self.matched = PlanPair(old, new)
        answers = answers_of(old), answers_of(new)
        self.changes = list(changes_of(self.matched, *answers))
        self.pair = LinePair(Line.of(old), Line.of(new)) if old["choice"] and new["choice"] else None
        self.vehicles = self.pair.vehicles() if self.pair else []
        self.broken = (breaks_of(self.matched, answers, self.vehicles) if self.pair
                       else [LineBreak(found, []) for found in Breaks(self.matched, *answers).found()])

    def lines(self) -> Iterator[str]:
        """The comparison as lines; what breaks in a vehicle of a line with its alternatives."""
        old, new = self.matched.old, self.matched.new
        for change in self.changes:
            yield change_line(change, old, new)
        for found, vehicle in self.broken:
            yield break_line(found, old, new, others_of(self.matched, found.sender, self.pair)) + (f" in {' '.join(vehicle)}" if vehicle else "")
        if self.pair:
            yield from vehicle_lines(self.pair.counts(), self.vehicles)
        yield f"changes {len(self.changes)} breaks {len(self.broken)}"

    def object(self) -> dict[str, Any]:
        """The comparison as JSON has it."""
        breaks = [{**found._asdict(), **({"vehicle": vehicle} if vehicle else {})} for found, vehicle in self.broken]
        of_lines = {"vehicles": {**self.pair.counts()._asdict(), "compared": [vehicle._asdict() for vehicle in self.vehicles]}} if self.pair else {}
        return {"old": self.matched.old.name, "new": self.matched.new.name, "changes": [change._asdict() for change in self.changes], "breaks": breaks, **of_lines}


def words_of(words: list[str] | None) -> argparse.Namespace:
    """The words of the command line."""
    parser = program.parser(__doc__)
    parser.epilog = "example: %(prog)s truck_2025.toml truck_2026.toml"
    parser.add_argument("old", metavar="OLD", type=program.input_name, help="the name of a plan file")
    parser.add_argument("new", metavar="NEW", type=program.input_name, help="the name of the plan file that takes its place")
    program.variant_option(parser)
    parser.add_argument("--json", action="store_true", help="as a JSON object with the arrays changes and breaks, of lines also with vehicles")
    return parser.parse_args(words)


@program.command
def main(words: list[str] | None = None) -> int:
    """Writes what is otherwise; 1 where something breaks."""
    given = words_of(words)
    old, new = sources_of([given.old, given.new], given.variant)
    if not (old["choice"] and new["choice"]):
        old, new = map(of_one_vehicle, (old, new))
    if old.text == new.text:
        program.say(f"{new.name}: the same plan as {old.name}")
    compared = Comparison(old, new)
    if given.json:
        json.dump(compared.object(), sys.stdout, indent=1)
        print()
    else:
        for line in compared.lines():
            print(line)
    return 1 if compared.broken else 0


if __name__ == "__main__":
    sys.exit(main())
