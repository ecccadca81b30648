"""What is to be known of lists of alternatives: `of` of choices, `of` and `but` of what is never built together, `with` of all else."""

from __future__ import annotations

from j39plan.plan.hints.text_faults import Told
from j39plan.plan.hints.words import likely
from j39plan.plan.parts import Source, spelled
from j39plan.plan.toml_places import Place

# The keys that are lists of alternatives.
LISTS = ("with", "of", "but")


def labels_at(plan: Source, place: Place, key: str) -> list[tuple[Place, str]]:
    """The labels of a list, each with its place."""
    return [(one, plan.places.texts[one]) for one in plan.places.elements(place + (key,)) if one in plan.places.texts]


def alternatives(plan: Source) -> dict[str, list[tuple[int, Place]]]:
    """Each alternative with the number of its choice and its place, of one that stands in two choices each."""
    found: dict[str, list[tuple[int, Place]]] = {}
    for choice in plan.places.elements(("choice",)):
        for place, label in labels_at(plan, choice, "of"):
            found.setdefault(label, []).append((int(choice[-1]), place))
    return found


def twice(plan: Source, place: Place, key: str) -> Told | None:
    """Line and hint of a label that stands in a list twice."""
    seen: set[str] = set()
    for one, label in labels_at(plan, place, key):
        if label in seen:
            return plan.line(one), f"key {key}: {label} stands there twice"
        seen.add(label)
    return None


def repeated(plan: Source, place: Place, key: str) -> Told:
    """Line and hint of a label that stands in a list twice, or in two choices."""
    known = alternatives(plan)
    if told := twice(plan, place, key):
        return told
    for one, label in labels_at(plan, place, key):
        other = next((there for number, there in known.get(label, []) if number != place[-1]), None)
        if key == "of" and place[0] == "choice" and other is not None:
            return plan.line(one), f"key of: {label} is an alternative of the choice at line {plan.line(other)} too: each has a label of its own"
    return plan.line(place + (key,)), f"key {key}: a label stands there twice"


def unknown(plan: Source, place: Place, key: str) -> Told:
    """Line and hint of a label that no choice has."""
    known = alternatives(plan)
    one, label = next(((one, label) for one, label in labels_at(plan, place, key) if label not in known), (place + (key,), "it"))
    unit = plan.labelled(("unit",), label)
    said = "; a unit is called so, and lists name alternatives of choices" if unit != ("unit",) else "; write a [[choice]] of it, or leave it out"
    return plan.line(one), f"key {key}: no choice has {label}{likely(label, known) or said}"


def list_meant(plan: Source, place: Place, key: str) -> str:
    """A hint at a list that is none, or that has too few labels or those of several choices."""
    text, labels = plan.places.texts.get(place + (key,)), [label for _, label in labels_at(plan, place, key)]
    if text:
        return f"; {key} = {spelled([*text.replace(',', ' ').split()])}"
    if key == "of" and place[0] == "choice" and len(labels) == 1:
        return f'; without {labels[0]} a vehicle has another one, as of = {spelled(["NO_" + labels[0], labels[0]])}'
    known = alternatives(plan)
    places = {label: known[label][0] for label in labels if label in known}
    if key == "but" and len({number for number, _ in places.values()}) > 1:
        told = ", ".join(f"{label} at line {plan.line(there)}" for label, (_, there) in places.items())
        return f"; these are of several choices ({told}): one [[never]] for each"
    if key == "but" and labels:
        return "; these are of a choice that of names"
    return ""
