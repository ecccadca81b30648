"""Hints at plans of lines of vehicles: by which alternatives a finding goes, and what of choices may not be meant."""

from collections.abc import Iterable, Iterator

from j39plan.plan.answer_grammar import Line
from j39plan.plan.parts import Source
from j39plan.plan.variants import Line as Choices
from j39plan.plan.variants import Table

# The parts of a finding that name units and groups by labels, and those that are numbers of flows, needs and requests.
LABELLED, NUMBERED = ("unit", "group"), ("flow", "need", "request")


# The flows of so many lists are named in a hint.
FEW = 4


def of_finding(plan: Source, line: Line) -> list[Table]:
    """The tables that a finding is about."""
    found: list[Table] = []
    for kind in LABELLED:
        labels = [line.word(part) for part in (kind, "other") if part in line.parts] if kind in line.parts else []
        found += [(kind, number) for number, part in enumerate(plan[kind], 1) if part.label in labels]
    for kind in NUMBERED:
        found += [(kind, line.number(part)) for part in (kind, "other") if part in line.parts] if kind in line.parts else []
    if line.word("finding") == "F20":  # which flows a vehicle has tells how old what it needs is
        need = plan.tables.needs[line.number("need") - 1]
        found += [("flow", flow.number) for flow in plan.tables.flows if need.is_met_by(flow)]
    return found


def named(plan: Source, table: Table) -> str:
    """A table by its label or number, and its line."""
    kind, number = table
    part = plan[kind][number - 1]
    return f"{kind} {part.label or number} at line {part.line('with' if 'with' in part.said else '')}"


def withs(plan: Source, line: Line) -> list[str]:
    """Each list of alternatives by which a finding goes."""
    choices = Choices.of(plan)
    return list(dict.fromkeys(f"  with {choices.in_words(labels)}: {named(plan, place)}"
                              for table in of_finding(plan, line) for place, labels in choices.lists(table)))


def missing(plan: Source, line: Line) -> tuple[int, str] | None:
    """Line and hint of what only some vehicles of a line lack: flows of a private group, or of a need; None of any other finding."""
    if "variant" not in line.parts or line.word("finding") not in ("F13", "F19"):
        return None
    choices, tables = Choices.of(plan), plan.tables
    if line.word("finding") == "F13":
        group = next(group for group in plan["group"] if group.label == line.word("group"))
        flows = [flow.number for flow in tables.flows if flow.group == group.label]
        return group.line("private"), f"key private: only flows of some vehicles send it: give the group the with of its flows{boxes(choices, flows)}"
    need = tables.needs[line.number("need") - 1]
    flows = [flow.number for flow in tables.flows if need.is_met_by(flow)]
    at = plan.line((*need.place, "group"))
    if not flows:
        return at, "key group: no flow of any vehicle brings it"
    return at, f"key group: only in some vehicles a flow brings it: plan one for these too, or ask for it with what brings it alone{boxes(choices, flows)}"


def boxes(choices: Choices, flows: list[int]) -> str:
    """By which alternatives flows are there, where each of them has few."""
    told = dict.fromkeys("; ".join(dict.fromkeys(map(choices.in_words, choices.box(("flow", number))))) for number in flows)
    return f" ({' | '.join(told)})" if all(told) and len(told) <= FEW else ""


def nowhere(plan: Source) -> Iterator[tuple[int, str]]:
    """The units, groups, flows and requests that no vehicle of a line has."""
    choices = Choices.of(plan)
    for table in choices.names:
        kind, number = table
        if kind != "need" and not choices.are_together(table):
            part = plan[kind][number - 1]
            yield part.line(), f"{kind} {part.label or number}: no vehicle of the line has it"


def unnamed(plan: Source) -> Iterator[tuple[int, str]]:
    """Choices of which no list names an alternative: all their vehicles are alike."""
    choices = Choices.of(plan)
    used = {label for (kind, _), labels in choices.named.items() if kind != "choice" for label in labels}
    for choice in plan["choice"]:
        labels = [str(label) for label in choice.values("of")]
        if used.isdisjoint(labels):
            yield choice.line("of"), f"choice {', '.join(labels)}: no with names one of them"


def silent_without(plan: Source) -> Iterator[tuple[int, str]]:
    """Flows to one unit whose sender may be there without it, and has then nobody to send this group to."""
    choices = Choices.of(plan)
    units = {part.label: ("unit", number) for number, part in enumerate(plan["unit"], 1)}
    for number, flow in enumerate(plan["flow"], 1):
        group, sender, to = (flow.text(key) for key in ("group", "from", "to"))
        lists = choices.named.get(units.get(to, ("", 0)), [])
        taken = choices.first(set(), [[choices.box(units[sender])]], [lists]) if lists and sender in units else None
        if taken and not any(choices.names[other] | {"to": to} == {"group": group, "from": sender, "to": to} for other in flows_in(choices.there(taken))):
            yield flow.line("to"), f"flow {number}, {group} from {sender} to {to}: {sender} may be there without {to}; is it silent then?"


def flows_in(tables: Iterable[Table]) -> list[Table]:
    """The flows among tables."""
    return [table for table in tables if table[0] == "flow"]
