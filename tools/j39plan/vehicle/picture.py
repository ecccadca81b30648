"""The way of what a need gets as a picture: the buses side by side, and an arrow for each forward from one to the next."""

from html import escape
from itertools import pairwise

from j39plan.vehicle.tables import Need
from j39plan.vehicle.ways import Point, Way

# How far apart buses and the steps of a way are at least, where the first step is, and how much is beside the texts and below the last step.
COLUMN, STEP, TOP, BESIDE, BOTTOM = 220, 44, 44, 8, 16

# The size of a dot, and how wide a character is at most on the average.
DOT, CHARACTER = 4, 7

HEAD = '<marker id="{}" viewBox="0 0 8 8" refX="10" refY="4" markerWidth="8" markerHeight="8" orient="auto"><path d="M0 0 8 4 0 8z"/></marker>'


def content(point: Point) -> str:
    """What is sent at a point."""
    return f"{point.flow.group} {point.signal}".strip()


def words(way: Way, need: Need) -> str:
    """A way in words, from its origin on."""
    steps = [f"{way.origin} {content(way.points[-1])}"]
    for point, forward in zip(reversed(way.points[:-1]), reversed(way.forwards), strict=True):
        steps.append(f"{forward.gateway} by forward {forward.number}, {forward.mode}")
        steps.append(f"{point.bus}.{point.flow.sender} {content(point)}")
    return " → ".join([*steps, str(need.unit)])


def short(way: Way, need: Need) -> str:
    """A way by its gateways alone."""
    gateways = [f"{forward.gateway} ({forward.number}, {forward.mode})" for forward in reversed(way.forwards)]
    return " → ".join([f"{way.origin} {content(way.points[-1])}", *gateways, str(need.unit)])


def width_of(said: str) -> int:
    """How wide a text is at most."""
    return CHARACTER * len(said)


class Drawing:
    """A picture in the making, as wide as its texts want it."""

    def __init__(self) -> None:
        self.parts: list[str] = []
        self.first = self.last = 0

    def add(self, part: str, *across: int) -> None:
        """Adds a part that goes from one place to another one, from left to right."""
        self.parts.append(part)
        self.first, self.last = min(self.first, *across, self.last), max(self.last, *across)

    def text(self, x: int, y: int, said: str, anchor: str = "middle") -> None:
        """Adds a text that is in the middle of a place, or begins or ends there."""
        width = width_of(said)
        start = x - {"start": 0, "middle": width // 2, "end": width}[anchor]
        self.add(f'<text x="{x}" y="{y}" text-anchor="{anchor}">{escape(said)}</text>', start, start + width)

    def shown(self, height: int, name: str, label: str) -> str:
        """The whole of it, in a frame that scrolls where it is too wide."""
        first, width, inside = self.first - BESIDE, self.last - self.first + 2 * BESIDE, "\n".join(self.parts)
        return (f'<div class="wide" role="region" tabindex="0" aria-label="{name}"><svg width="{width}" height="{height}" '
                f'viewBox="{first} 0 {width} {height}" role="img" aria-label="{escape(label)}">\n{inside}\n</svg></div>')


def picture(buses: list[str], way: Way, need: Need) -> str:
    """The picture of a way that is whole, whose buses are columns in this order: it goes down along them, and across by its forwards."""
    points, forwards = list(reversed(way.points)), list(reversed(way.forwards))
    named = [f"{forward.gateway}, forward {forward.number}, {forward.mode}" for forward in forwards]
    apart = max([COLUMN, *(width_of(said) + 4 * BESIDE for said in named)])
    columns = {bus: apart * at for at, bus in enumerate(buses)}
    height, drawing, head = TOP + STEP * len(forwards) + BOTTOM, Drawing(), f"head-{need.number}"
    drawing.add(HEAD.format(head), 0)
    for bus, x in columns.items():
        drawing.add(f'<line x1="{x}" y1="20" x2="{x}" y2="{height}"/>', x)
        drawing.text(x, 14, f"bus {bus}")
    for at, (point, after) in enumerate(pairwise(points)):
        x, to_x, y = columns[point.bus], columns[after.bus], TOP + STEP * at
        drawing.add(f'<line class="hop" x1="{x}" y1="{y}" x2="{x}" y2="{y + STEP}"/>', x)
        drawing.add(f'<line class="hop" x1="{x}" y1="{y + STEP}" x2="{to_x}" y2="{y + STEP}" marker-end="url(#{head})"/>', x)
        drawing.text((x + to_x) // 2, y + STEP - 2 * DOT, named[at])
    for at, point in enumerate(points):
        x, y, before = columns[point.bus], TOP + STEP * at, columns[points[at - 1].bus] if at else -1
        drawing.add(f'<circle cx="{x}" cy="{y}" r="{DOT}"/>', x)
        said = f"{point.flow.sender}{f' to {need.unit.label}' if point is way.points[0] else ''}: {content(point)}"
        drawing.text(*((x - 2 * DOT, y + DOT, said, "end") if before > x else (x + 2 * DOT, y + DOT, said, "start")))
    return drawing.shown(height, f"Way of need {need.number}", words(way, need))
