"""Pictures of curves and of held addresses, by matplotlib."""

import bisect
import math
import statistics
from collections.abc import Mapping, Sequence
from dataclasses import dataclass, field
from itertools import groupby, islice, pairwise
from typing import Any

import matplotlib
from matplotlib.axes import Axes
from matplotlib.figure import Figure

from j39plan.log.curves import Curve, AddressSpan
from j39plan.log.readings import Column

matplotlib.use("Agg")
matplotlib.rcParams["svg.hashsalt"] = "j39plan"
matplotlib.rcParams["svg.fonttype"] = "none"

# Units differ by colour, and behind so many units also by how their lines are drawn. Colour-blind people tell the first eight apart.
COLOURS = ("#0072b2", "#d55e00", "#009e73", "#cc79a7", "#e69f00", "#56b4e9", "#595959", "#8c6bb1", "#7a4b00", "#b2182b")
LINES = ("-", "--", "-.", ":")

# How states are marked that are no values, below their curve.
MARKS = {"absent": "|", "fault": "x", "specific": "^", "reserved": "s", "dtc": "D", "none": "o"}

# Inches: the picture's width, the height of a signal, and of an address.
WIDTH, HEIGHT, ROW = 10.0, 1.9, 0.28

# What of the picture's width a letter of a holder takes.
LETTER = 0.009

# The most values whose names stand at an axis.
NAMES = 12

# How many columns are told apart from the first time to the last.
COLUMNS = 2000

# A line ends where nothing came for more than so many times the usual distance, and for more than a second.
SILENCE, SECOND = 10, 1.0


@dataclass(frozen=True)
class Window:
    """From when to when a picture goes, and which time its axis calls 0."""

    begin: float
    end: float
    zero: float

    @property
    def column(self) -> float:
        """How much time a column has."""
        return (self.end - self.begin) / COLUMNS or 1.0

    def has(self, time: float) -> bool:
        """Whether a time is in it."""
        return self.begin <= time <= self.end

    def on_axis(self, time: float) -> float:
        """A time as the axis has it."""
        return time - self.zero


@dataclass(frozen=True)
class SignalPlot:
    """What is drawn of a signal: its unit of measurement, its curves, and the names of its values."""

    unit: str
    curves: list[Curve]
    names: dict[float, str] = field(default_factory=dict)


@dataclass
class Colours:
    """The colours of units, each the same in the whole picture, in the order in which they are asked for."""

    given: dict[str, int] = field(default_factory=dict)

    def of(self, unit: str) -> tuple[str, str]:
        """The colour of a unit, and how its lines are drawn; one that isn't sure, as `ENGINE?`, has that of the unit."""
        number = self.given.setdefault(unit.rstrip("?"), len(self.given))
        return COLOURS[number % len(COLOURS)], LINES[number // len(COLOURS) % len(LINES)]


def look_of(sender: str) -> dict[str, Any]:
    """How the line of a sender looks: that of one who isn't sure, as `ENGINE?`, is thin and pale, with hollow points."""
    if sender.endswith("?"):
        return {"linewidth": 0.7, "marker": "o", "markersize": 4, "markerfacecolor": "white", "alpha": 0.6}
    return {"linewidth": 1.2, "marker": ".", "markersize": 3}


def thinned(times: Sequence[float], values: Sequence[float], width: float, points: Sequence[int] | None = None) -> list[int]:
    """Which points of a curve are drawn: of those that fall into one of the picture's columns the first, the last, the least, the
    greatest and one without a value."""
    kept: list[int] = []
    for _, column in groupby(range(len(times)) if points is None else points, lambda at: times[at] // width):
        some = list(column)
        there = [at for at in some if not math.isnan(values[at])]
        missing = [at for at in some if math.isnan(values[at])][:1]
        most = [min(there, key=values.__getitem__), max(there, key=values.__getitem__)] if there else []
        kept += sorted({some[0], some[-1], *most, *missing})
    return kept


def inside(times: Sequence[float], window: Window) -> range:
    """The points of a curve that are in a window, with the one before and the one behind it."""
    first, last = bisect.bisect_left(times, window.begin), bisect.bisect_right(times, window.end)
    return range(max(first - 1, 0), min(last + 1, len(times)))


def longest_hold(times: Sequence[float]) -> float:
    """How long a value goes on to the next one at most."""
    usual = statistics.median(after - before for before, after in islice(pairwise(times), 10000)) if len(times) > 1 else 0.0
    return max(SILENCE * usual, SECOND)


def seen_points(times: Sequence[float], window: Window) -> list[int]:
    """The points of a curve whose values are seen in a window: those in it, and the one before where its line goes on into it."""
    points = [at for at in inside(times, window) if window.has(times[at])]
    before = bisect.bisect_left(times, window.begin) - 1
    goes_on = 0 <= before < len(times) - 1 and times[before + 1] - times[before] <= longest_hold(times)
    return [before, *points] if goes_on else points


def broken(points: list[int], times: Sequence[float], values: Sequence[float]) -> tuple[list[float], list[float]]:
    """A curve by these of its points. Where nothing came for very long its line ends."""
    most = longest_hold(times)
    line: list[float] = []
    heights: list[float] = []
    for before, at in zip([None, *points], points):
        if before == at - 1 and not 0 <= times[at] - times[before] <= most:
            line.append(times[before])
            heights.append(math.nan)
        line.append(times[at])
        heights.append(values[at])
    return line, heights


def draw_states(axes: Axes, curve: Curve, colour: str, window: Window) -> None:
    """The marks of states without a value, at the foot of the picture."""
    for state, all_times in curve.states.items():
        shown = [time for time in all_times if window.begin <= time <= window.end]
        times = [next(some) for _, some in groupby(shown, lambda time: time // window.column)]
        axes.plot([window.on_axis(time) for time in times], [0.04] * len(times), linestyle="none", marker=MARKS.get(state, "*"),
                  color=colour, markersize=6, label=f"{curve.sender}: {state}", transform=axes.get_xaxis_transform(), clip_on=False)


def name_values(axes: Axes, seen: set[float], names: Mapping[float, str]) -> None:
    """Names the values at the axis that are seen, where some have names and they are few."""
    if len(seen) <= NAMES and any(value in names for value in seen):
        values = sorted(seen)
        axes.set_yticks(values, [f"{names[value]} {value:g}" if value in names else f"{value:g}" for value in values], fontsize=8)


def limit_values(axes: Axes, seen: set[float]) -> None:
    """Has an axis go from the least to the greatest value that is seen; where none is it has no numbers."""
    if seen:
        margin = 0.15 * (max(seen) - min(seen)) or 0.05 * abs(max(seen)) or 0.05
        axes.set_ylim(min(seen) - margin, max(seen) + margin)
    else:
        axes.set_yticks([])


def draw_curve(axes: Axes, curve: Curve, window: Window, colours: Colours) -> set[float]:
    """A signal as one sender sent it; the values that are seen."""
    seen = seen_points(curve.times, window)
    if seen:
        colour, line = colours.of(curve.sender)
        points = thinned(curve.times, curve.values, window.column, inside(curve.times, window))
        times, values = broken(points, curve.times, curve.values)
        axes.plot([window.on_axis(time) for time in times], values, line, color=colour, label=curve.sender, drawstyle="steps-post",
                  **look_of(curve.sender))
        draw_states(axes, curve, colour, window)
    return {curve.values[at] for at in seen if not math.isnan(curve.values[at])}


def draw_signal(axes: Axes, column: Column, drawn: SignalPlot, window: Window, colours: Colours) -> None:
    """A signal as each of its senders sent it."""
    axes.set_title(".".join(column), loc="left", fontsize=10)
    axes.set_ylabel(drawn.unit, fontsize=9)
    axes.grid(True, linewidth=0.4)
    axes.ticklabel_format(axis="y", useOffset=False, style="plain")
    seen = set[float]().union(*(draw_curve(axes, curve, window, colours) for curve in drawn.curves))
    limit_values(axes, seen)
    name_values(axes, seen, drawn.names)
    if axes.get_legend_handles_labels()[0]:
        axes.legend(fontsize=8, loc="upper left", bbox_to_anchor=(1.0, 1.0), frameon=False)
    else:
        axes.text(0.5, 0.5, "not in this part of the log" if drawn.curves else "not in the log", transform=axes.transAxes, ha="center", va="center")


def merged(held: list[AddressSpan], width: float) -> list[tuple[AddressSpan, int]]:
    """What is drawn of held addresses, each with of how many: of several claims that follow one another in less than a column one."""
    drawn: list[tuple[AddressSpan, int]] = []
    for part in held:
        last, count = drawn[-1] if drawn else (None, 0)
        is_narrow = last is not None and (count > 1 or last.end - last.start < width) and part.end - part.start < width
        if last and is_narrow and last.address == part.address and last.is_claimed and part.is_claimed and part.start - last.end < width:
            drawn[-1] = last._replace(end=part.end), count + 1
        else:
            drawn.append((part, 1))
    return drawn


def draw_holder(axes: Axes, part: AddressSpan, count: int, row: int, window: Window, colours: Colours) -> None:
    """The box of who held an address: in the colour of the unit, dashed where it is only planned there, hatched where nobody planned it."""
    start, end, whole = max(part.start, window.begin), min(part.end, window.end), window.end - window.begin
    width = max(end - start, whole * 0.003)
    name = part.holder if count == 1 else f"{count} times claimed"
    colour = colours.of(part.holder)[0] if count == 1 else "#808080"
    axes.barh(row, width, left=window.on_axis(start), height=0.7, facecolor=f"{colour}38" if part.is_claimed else "none",
              edgecolor="#1b1b1b", linestyle="-" if part.is_claimed else "--", linewidth=0.8,
              hatch="///" if part.is_foreign or count > 1 else None)
    if width > LETTER * len(name) * whole:
        axes.text(window.on_axis(start) + width / 2, row, name, ha="center", va="center", fontsize=7,
                  bbox={"facecolor": "white", "edgecolor": "none", "pad": 0.8} if part.is_foreign or count > 1 else None)
    elif part.is_claimed:
        is_late = start - window.begin > whole / 2
        axes.annotate(name, (window.on_axis(end if is_late else start), row + 0.35), fontsize=6, ha="right" if is_late else "left", va="top",
                      annotation_clip=False)


def draw_claims(axes: Axes, part: AddressSpan, row: int, window: Window) -> None:
    """A stroke for each claim of an address that its holder had; of those in one column one."""
    shown = (time for time in part.again if window.has(time))
    times = [next(some) for _, some in groupby(shown, lambda time: time // window.column)]
    if times:
        axes.vlines([window.on_axis(time) for time in times], row - 0.35, row + 0.35, colors="#1b1b1b", linewidth=1.5)


def draw_addresses(axes: Axes, held: list[AddressSpan], window: Window, colours: Colours) -> None:
    """A row an address, with who held it; what was never claimed is dashed."""
    axes.set_title("Who holds which address (dashed: planned there, not claimed so far; hatched: not planned; stroke: claimed again)", loc="left", fontsize=10)
    rows = {address: row for row, address in enumerate(sorted({part.address for part in held}))}
    for part, count in merged(held, window.column):
        if part.start <= window.end and part.end >= window.begin:
            draw_holder(axes, part, count, rows[part.address], window, colours)
            draw_claims(axes, part, rows[part.address], window)
    axes.set_yticks(list(rows.values()), [str(address) for address in rows], fontsize=8)
    axes.set_ylabel("address", fontsize=9)
    axes.set_ylim(max(len(rows), 1) - 0.5, -0.5)


def figure_of(signals: Mapping[Column, SignalPlot], held: list[AddressSpan] | None, title: str, counted: str, window: Window) -> Figure:
    """The picture: a part for each signal, with its unit of measurement, and one for the addresses, if they are given. What is counted
    stands below it."""
    heights = [HEIGHT] * len(signals)
    if held is not None:
        heights.append(1.0 + ROW * len({part.address for part in held}))
    figure = Figure(figsize=(WIDTH, sum(heights) + 0.8), layout="constrained")
    figure.suptitle(title, fontsize=11)
    parts = figure.subplots(len(heights), 1, sharex=True, squeeze=False, height_ratios=heights)[:, 0]
    colours = Colours()
    for axes, (column, drawn) in zip(parts, signals.items()):
        draw_signal(axes, column, drawn, window, colours)
    if held is not None:
        draw_addresses(parts[-1], held, window, colours)
    parts[-1].set_xlim(window.on_axis(window.begin), window.on_axis(window.end))
    parts[-1].ticklabel_format(axis="x", useOffset=False, style="plain")
    figure.align_ylabels(parts)
    parts[-1].set_xlabel(counted, fontsize=9)
    return figure


def save(figure: Figure, name: str) -> None:
    """Writes a picture, without the time of day, so that the same log gives the same bytes."""
    metadata = {"Date": None} if name.endswith(".svg") else {"Software": None}
    figure.savefig(name, dpi=100, metadata=metadata)
