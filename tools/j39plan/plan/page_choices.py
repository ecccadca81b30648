"""The choices of a line of vehicles on the page of one of them."""

from html import escape

from j39plan.plan.diagram import of_line
from j39plan.plan.page import row, section, table
from j39plan.plan.variants import Line, Table

# How a table is called on the page, by what it names.
NAMED = {"unit": "unit {label}", "group": "group {label}", "flow": "flow {number} ({group})", "need": "need {number} of {unit} ({group})",
         "request": "request {number} ({group})"}


def named(line: Line, place: Table) -> str:
    """A table of the plan of the line in words, by the number that it has there."""
    kind, number = place
    return NAMED[kind].format_map({**line.names[place], "number": str(number)})


def choice_section(line: Line, taken: set[str] | None) -> str:
    """A table of the alternatives: how many vehicles have each, whether a vehicle of these alternatives does, and what is there only with some of them."""
    counts, rows = of_line(line).counts(), []
    for number, labels in enumerate(line.choices, 1):
        for label in labels:
            there = [named(line, place) for place, wanted in line.named.items() if label in wanted and place[0] in NAMED]
            head = f"<strong>{escape(label)}</strong>" if taken and label in taken else escape(label)
            here = [] if taken is None else ["yes" if label in taken else "no"]
            rows.append(row(str(number), [head, *here, str(counts[label]), escape(", ".join(there)) or "–"]))
    caption = "Choices of the line" if taken is None else "Choices of the line, and what this vehicle has"
    parts = [table(caption, ("Choice", "Alternative", *(() if taken is None else ("Here",)), "Vehicles", "With it there may be"), rows)]
    nevers = line.lists_of("never")
    if nevers:
        parts.append("<ul>" + "".join(f"<li>Never built: {escape(line.in_words(labels))}</li>" for labels in nevers) + "</ul>")
    return section("choices", "Choices", parts)
