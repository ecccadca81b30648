"""Hints at the alternatives of a line of vehicles: those that no vehicle has, and those of one choice that bring the same."""

from collections.abc import Iterator

from j39plan.plan.diagram import of_line
from j39plan.plan.parts import Source
from j39plan.plan.variants import Line


def nowhere(plan: Source) -> Iterator[tuple[int, str]]:
    """Alternatives that are in no vehicle that can be built, where any can be."""
    diagram = of_line(Line.of(plan))
    counts = diagram.counts() if diagram.root is not None else {}
    for choice in plan["choice"]:
        for label in map(str, choice.values("of")):
            if counts.get(label) == 0:
                yield choice.line("of"), f"alternative {label}: no vehicle that can be built has it"


def alike(plan: Source) -> Iterator[tuple[int, str]]:
    """Alternatives of one choice that bring the same: each with that names one of them names all. Of a choice that no with names that is another hint."""
    line = Line.of(plan)
    withs = [set(labels) for (kind, _), labels in line.named.items() if kind not in ("choice", "never")]
    nevers = [set(labels) for labels in line.lists_of("never")]
    for choice in plan["choice"]:
        together: dict[tuple[bool, ...], list[str]] = {}
        for label in map(str, choice.values("of")):
            together.setdefault(tuple(label in labels for labels in withs), []).append(label)
        several = [labels for labels in together.values() if len(labels) > 1]
        for labels in several if any(map(any, together)) else ():
            apart = any(0 < len(never.intersection(labels)) < len(labels) for never in nevers)
            yield choice.line("of"), f"alternatives {' and '.join(labels)}: they bring the same" + (", and only a never tells them apart" if apart else "")
