"""What the program answers of a vehicle, as an object that is written as JSON: the parts of each line by their names."""

from itertools import groupby

from j39plan.plan import answer_objects
from j39plan.plan.answer_grammar import Line
from j39plan.plan.answer_objects import Object
from j39plan.plan.answer_places import PlacedPart
from j39plan.vehicle.answer_grammar import line_of
from j39plan.vehicle.answer_places import InFile

# Lines of which an answer has several, and what these are called.
SEVERAL = {"forward": "forwards", "need": "needs"}


def line_object(line: Line) -> Object:
    """The parts of a line. A need is met or not, and the forwards by which it is are numbers."""
    found: Object = dict(line.parts)
    if line.kind == "need":
        found["met"] = "sent_group" in found
        if found["met"]:
            found["by"] = [int(number) for number in line.word("by").split()]
    return found


def status_of(parts: list[PlacedPart]) -> int:
    """The status that `check` has where it answers so."""
    return next((status for word, status in (("refused ", 2), ("findings ", 1)) if any(part.answer.startswith(word) for part in parts)), 0)


def bus_object(bus: str, file: str, parts: list[PlacedPart], hints: list[PlacedPart] | None, further: list[PlacedPart]) -> Object:
    """What is answered of a bus, as `check` answers of its plan."""
    return {"bus": bus, **answer_objects.check_object(file, status_of(parts), parts, hints, further)}


def placed_object(part: PlacedPart) -> Object:
    """A finding or a refusal, with its line of the file and a hint."""
    found = {**line_object(line_of(part.answer)), "text": part.answer, "line": part.line, "hint": part.hint}
    return {key: said for key, said in found.items() if said not in ("", None)}


def vehicle_object(name: str, status: int, parts: list[InFile], hints: list[InFile] | None, further: list[InFile]) -> Object:
    """What is answered of a vehicle: its buses, forwards and needs, the findings of these, and how many there are; or why it is refused."""
    found: Object = {"vehicle": name, "status": status, "buses": []}
    for (bus, file), of_bus in groupby(parts, key=lambda part: (part.bus, part.file)):
        placed = [part.part for part in of_bus]
        if bus:
            told = None if hints is None else [hint.part for hint in hints if hint.file == file]
            found["buses"].append(bus_object(bus, file, placed, told, [part.part for part in further if part.bus == bus]))
            continue
        for part in placed:
            line = line_of(part.answer)
            if line.kind in SEVERAL:
                found.setdefault(SEVERAL[line.kind], []).append(line_object(line))
            elif line.kind == "finding":
                found.setdefault("findings", []).append(placed_object(part))
            elif line.kind == "refused":
                found["refused"] = placed_object(part)
            elif line.kind == "ok":
                found["counts"] = line_object(line)
    if status in (0, 1):
        found.setdefault("findings", [])
    if others := [part.part for part in further if not part.bus]:
        found["further"] = [{"line": part.line, "hint": part.answer.removeprefix("also ")} for part in others]
    return found
