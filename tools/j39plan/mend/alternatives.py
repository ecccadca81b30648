"""What is tried against findings of only some vehicles of a line: a group or a need that is there only with what brings it (F13, F19)."""

from __future__ import annotations

from collections.abc import Iterator

from j39plan.mend.attempts import Attempt, Mend
from j39plan.mend.edits import setting
from j39plan.mend.judge import Draft
from j39plan.plan.answer_grammar import Line
from j39plan.plan.tables import Flow
from j39plan.plan.toml_places import Place
from j39plan.plan.variants import Line as Choices


def there_with(choices: Choices, flows: list[Flow]) -> list[str]:
    """The alternatives with which one of several flows is there, where they go by one list each, or by lists of different choices; else none."""
    boxes = [choices.box(("flow", flow.number)) for flow in flows]
    if len(boxes) > 1 and any(len(box) != 1 for box in boxes):
        return []
    named = {label for box in boxes for labels in box for label in labels}
    return [label for choice in choices.choices for label in choice if label in named]


def with_what_brings_it(draft: Draft, line: Line) -> Iterator[Attempt]:
    """Only some vehicles have a flow of a private group, or one that brings what is needed."""
    if "variant" not in line.parts:
        return
    place: Place
    if line.word("finding") == "F13":
        group = next(group for group in draft.tables.groups if group.label == line.word("group"))
        where, place, flows = f"group {group.label}", group.place, [flow for flow in draft.tables.flows if flow.group == group.label]
    else:
        need = draft.tables.needs[line.number("need") - 1]
        where, place, flows = f"need {line.number('need')} ({need.what})", need.place, [flow for flow in draft.tables.flows if need.is_met_by(flow)]
    labels = there_with(Choices.of(draft.source), flows)
    spelled = ", ".join(f'"{label}"' for label in labels)
    change = setting(place, with_=list(labels))
    yield Attempt("the alternatives with which its flows are there", [Mend(where, f"with = [{spelled}]", change)] if labels else [])


ATTEMPTS = {"F13": with_what_brings_it, "F19": with_what_brings_it}
