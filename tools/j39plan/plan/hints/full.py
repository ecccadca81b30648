"""The full alternatives of a plan of a line of vehicles: of vehicles that take these alone `check` looks for what counts what is there."""

from collections.abc import Iterator, Sequence

from j39plan.plan.parts import Source
from j39plan.plan.tables import Need, serves
from j39plan.plan.variants import Box
from j39plan.plan.variants import Line as Choices


def has(choices: Choices, label: str, labels: Sequence[str]) -> bool:
    """Whether the box of a list has an alternative: the list names it, or none of its choice."""
    return label in labels or not any(label in choice and not set(choice).isdisjoint(labels) for choice in choices.choices)


def is_in(choices: Choices, label: str, box: Box) -> bool:
    """Whether a box has an alternative."""
    return all(has(choices, label, labels) for labels in box)


def covers(choices: Choices, more: str, less: str, alike: Sequence[Box]) -> bool:
    """Whether all that is there with an alternative is there with another one of its choice, which no never has that the former isn't in; and each of
    several boxes has both or none."""
    lists = [labels for (kind, _), labels in choices.named.items() if kind in ("unit", "group", "flow", "request")]
    nevers = [labels for (kind, _), labels in choices.named.items() if kind == "never"]
    return (all(has(choices, more, labels) for labels in lists if has(choices, less, labels))
            and all(has(choices, less, labels) for labels in nevers if has(choices, more, labels))
            and all(is_in(choices, more, box) == is_in(choices, less, box) for box in alike))


def full(choices: Choices, choice: Sequence[str], asked: Box, alike: Sequence[Box]) -> list[str]:
    """The alternatives of a choice, of those that a box has, that no other one covers, but for those that cover each other: of these the last."""
    these = [label for label in choice if is_in(choices, label, asked)]
    return [label for place, label in enumerate(these)
            if all(covers(choices, label, other, alike) and there > place
                   for there, other in enumerate(these) if there != place and covers(choices, other, label, alike))]


def sources(plan: Source, choices: Choices, need: Need) -> Iterator[Box]:
    """The boxes of what brings what a need asks for: of flows, with each request that one answers which is sent only so."""
    for flow in plan.tables.flows:
        if need.is_met_by(flow):
            box = choices.box(("flow", flow.number))
            requests = [number for number, request in enumerate(plan.tables.requests, 1) if serves(flow.group, flow.sender, flow.to, request)]
            yield from [box + choices.box(("request", number)) for number in requests] if flow.on_request else [box]


def several(plan: Source) -> list[list[str]]:
    """The full alternatives of each choice that has several, of vehicles or of those that are compared for a need with an age."""
    choices = Choices.of(plan)
    asked: list[tuple[Box, list[Box]]] = [([], [])]
    for number, need in enumerate(plan.tables.needs, 1):
        if need.within is not None and plan.tables.timing is not None:
            box = choices.box(("need", number))
            asked.append((box, [other for other in sources(plan, choices, need) if meet(choices, box + other)]))
    found = [[label for label in choice if any(label in full(choices, choice, *one) for one in asked if len(full(choices, choice, *one)) > 1)]
             for choice in choices.choices]
    return [labels for labels in found if labels]


def meet(choices: Choices, box: Box) -> bool:
    """Whether some variant, built or not, is in a box."""
    return all(any(is_in(choices, label, box) for label in choice) for choice in choices.choices)
