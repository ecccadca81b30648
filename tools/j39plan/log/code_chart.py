"""A picture of trouble codes: a row for each, with bars from when it came to when it had gone."""

from __future__ import annotations

from matplotlib.axes import Axes
from matplotlib.figure import Figure
from matplotlib.lines import Line2D
from matplotlib.patches import Patch

from j39plan.log.chart import ROW, WIDTH, Colours, save
from j39plan.log.clock import SECOND
from j39plan.log.codes import CLEARS, Episode, Moment

__all__ = ["figure_of", "save"]

# A bar is at least such a part of the picture wide, so that it is seen.
LEAST = 0.003

# How many columns a list of what colours and marks mean has.
COLUMNS = 4


def rows_of(episodes: list[Episode]) -> dict[tuple[str, str], list[Episode]]:
    """The codes of each row: those of one unit, SPN and FMI, whatever their state."""
    rows: dict[tuple[str, str], list[Episode]] = {}
    for episode in sorted(episodes, key=lambda one: (one.unit, one.came.line)):
        rows.setdefault((episode.unit, episode.code), []).append(episode)
    return rows


class Axis:
    """Where moments lie: seconds from the first one, or lines."""

    def __init__(self, episodes: list[Episode], first: int | None, last: int | None) -> None:
        self._first = first
        ends = [self.at(moment) for episode in episodes for moment in (episode.came, episode.went)]
        self.end = max([*ends, (last - first) / SECOND if first is not None and last is not None else 1.0])

    def at(self, moment: Moment) -> float:
        """A moment."""
        return float(moment.line) if self._first is None or moment.time is None else (moment.time - self._first) / SECOND


def draw_bar(axes: Axes, row: int, episode: Episode, colour: str, axis: Axis) -> None:
    """A code from when it came to when it had gone: one that isn't active is pale, one that is there at the end has no right edge."""
    start, end = axis.at(episode.came), axis.end if episode.end == "open" else axis.at(episode.went)
    pale = not episode.state.startswith("active")
    axes.barh(row, max(end - start, LEAST * axis.end), left=start, height=0.3 if pale else 0.6, color=colour, alpha=0.45 if pale else 1.0, edgecolor="none")
    if episode.end == "silent":
        axes.plot([axis.at(episode.went)], [row], marker="x", color="black", markersize=6, linestyle="none")
    if episode.cleared:
        axes.plot([axis.at(episode.cleared.at)], [row], marker="v", color="black", markersize=6, linestyle="none")
        name = f"{CLEARS[episode.cleared.pgn][0]} by {episode.cleared.by}"
        axes.annotate(name, (axis.at(episode.cleared.at), row - 0.3), fontsize=6, ha="center", va="bottom", annotation_clip=False)


def figure_of(episodes: list[Episode], first: int | None, last: int | None, title: str, counts: str) -> Figure:
    """The picture; what is counted stands below it."""
    rows, axis, colours = rows_of(episodes), Axis(episodes, first, last), Colours()
    figure = Figure(figsize=(WIDTH, 1.6 + ROW * max(len(rows), 1)), layout="constrained")
    figure.suptitle(title, fontsize=11)
    axes = figure.subplots()
    for row, ((unit, _), some) in enumerate(rows.items()):
        for episode in some:
            draw_bar(axes, row, episode, colours.of(unit)[0], axis)
    axes.set_yticks(range(len(rows)), [f"{unit}  {code}" for unit, code in rows], fontsize=8)
    axes.set_ylim(max(len(rows), 1) - 0.5, -0.8)
    axes.set_xlim(0, axis.end or 1.0)
    axes.grid(axis="x", linewidth=0.4, alpha=0.5)
    axes.ticklabel_format(axis="x", useOffset=False, style="plain")
    axes.set_xlabel(counts, fontsize=9)
    axes.legend(handles=marks_of(episodes), loc="lower left", bbox_to_anchor=(0, 1), ncol=COLUMNS, fontsize=7, frameon=False)
    return figure


def marks_of(episodes: list[Episode]) -> list[Patch | Line2D]:
    """What bars and marks mean, of those that are there."""
    marks: list[Patch | Line2D] = [Patch(color="#595959", label="active")]
    if any(not episode.state.startswith("active") for episode in episodes):
        marks.append(Patch(color="#595959", alpha=0.45, label="not active (previously, pending, permanent)"))
    if any(episode.end == "silent" for episode in episodes):
        marks.append(Line2D([], [], marker="x", color="black", linestyle="none", label="the unit's codes are sent no more"))
    if any(episode.cleared for episode in episodes):
        marks.append(Line2D([], [], marker="v", color="black", linestyle="none", label="cleared"))
    return marks
