"""What the program answers of a plan, as objects that are written as JSON: the parts of each line by their names."""

from typing import Any

from j39plan.plan.answer_grammar import Line, lines_of
from j39plan.plan.answer_places import PlacedPart

Object = dict[str, Any]

# Lines of which an answer has several, and what these are called.
SEVERAL = {"unit": "units", "flow": "flows", "need": "needs"}


def line_object(line: Line) -> Object:
    """The parts of a line. Whether a unit stays at its planned address is a truth value, and so is that no vehicle of a line has
    it; the alternatives of those that have a finding are a list."""
    found: Object = dict(line.parts)
    if "stays" in found:
        found["stays"] = found["stays"] == "stays"
    if "variant" in found:
        found["variant"] = line.word("variant").split()
    if "nowhere" in found:
        found["nowhere"] = True
    return found


def placed_object(part: PlacedPart) -> Object:
    """A finding or a refusal, with its line of the file, a hint and the steps of a run, where there are some."""
    line, *steps = lines_of("\n".join([part.answer, *part.below]))
    found = {**line_object(line), "text": part.answer, "line": part.line, "hint": part.hint, "steps": [step.word("step") for step in steps],
             "with": [text.strip() for text in part.withs]}
    return {key: said for key, said in found.items() if said not in ("", None, [])}


def answer_object(plan: str, status: int, parts: list[PlacedPart]) -> Object:
    """What `addresses` or `load` answers of a plan: its units, or its flows, its needs and the load; the findings, where these are its answer;
    and of a plan that is refused why."""
    found: Object = {"plan": plan, "status": status}
    for part in parts:
        (line,) = lines_of(part.answer)
        if line.kind in SEVERAL:
            found.setdefault(SEVERAL[line.kind], []).append(line_object(line))
        elif line.kind == "finding":
            found.setdefault("findings", []).append(placed_object(part))
        elif line.kind == "refused":
            found["refused"] = placed_object(part)
        elif line.kind == "load":
            found.update(line_object(line))
    return found


def check_object(plan: str, status: int, parts: list[PlacedPart], hints: list[PlacedPart] | None = None, further: list[PlacedPart] | None = None) -> Object:
    """What `check` answers of a plan, and hints that are no findings where they were asked for. Of a plan that can't be read there are neither, but
    further faults."""
    found = answer_object(plan, status, parts)
    if status in (0, 1):
        found.setdefault("findings", [])
        if hints is not None:
            found["hints"] = [{"line": hint.line, "hint": hint.answer.removeprefix("hint "), **({"name": hint.hint} if hint.hint else {})} for hint in hints]
    if further:
        found["further"] = [{"line": fault.line, "hint": fault.answer.removeprefix("also ")} for fault in further]
    for part in parts:
        (line,) = lines_of(part.answer)
        if line.kind == "ok":
            found["counts"] = line_object(line)
    return found
