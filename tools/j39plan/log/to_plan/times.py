"""The times of a flow by how far apart its messages came: its period, its jitter and its pause."""

from __future__ import annotations

from collections import Counter
from collections.abc import Iterable
from typing import NamedTuple

from j39plan.log.checks.distances import SILENCE
from j39plan.log.checks.rows import CLOCKS
from j39plan.log.clock import MILLISECOND, in_words, milliseconds
from j39plan.log.to_plan.measures import GAP, STEP, FlowMeasures
from j39plan.plan.schema import most_of

# What periods are multiples of, in ms, from those that are looked for first; and how far from such a multiple a median may be: a hundredth of it,
# and a tenth of the step; half a millisecond at least.
ROUND = (1000, 500, 250, 100, 50, 25, 20, 10, 5, 2, 1)
SHARE, PART, LEAST = 100, 10, MILLISECOND // 2

# A flow has a period where it has so many distances, and where the middle eight tenths of them lie within half of the one in the middle.
FEW, TENTH, WIDTH = 3, 10, 2

# Of at least so many distances those are apart that are below half the period or above one and a half, if they are fewer than a hundredth.
MANY, RARE = 20, 100

# So many pauses are tried at most between a period and twice that.
TRIES = 50

# A drive shows less than the next one may: a jitter is more than what was seen, by a half, and a hundredth of the period at least; a pause is as much
# longer than the period, so that a missing message breaks it and nothing less, and than the longest distance by this part of the period. A flow that
# is silent for more than so many periods has no pause.
MORE, ROOM, EVENT = 2, 20, SILENCE

# The longest period and the longest pause of a plan, in ms.
LONGEST = most_of("flow", "period")


class Times(NamedTuple):
    """The keys of a flow by which it is timed, and what was seen of it."""

    keys: dict[str, int]
    seen: str


def quantile(distances: list[tuple[int, int]], share: int, of: int) -> int:
    """The number below which a share of numbers lies, which stand in their order with how often each is there."""
    left = sum(count for _, count in distances) * share // of
    for number, count in distances:
        left -= count
        if left < 0:
            return number
    return distances[-1][0]


def rounded(distance: int) -> int:
    """The period that a distance in nanoseconds may be of, in ms: the roundest one near to it."""
    for step in ROUND:
        period = (distance + step * MILLISECOND // 2) // (step * MILLISECOND) * step
        if period and abs(period * MILLISECOND - distance) <= max(min(distance // SHARE, step * MILLISECOND // PART), LEAST):
            return period
    return max(1, round(distance / MILLISECOND))


def up(duration: int) -> int:
    """A duration in nanoseconds in whole ms, no less."""
    return -(-duration // MILLISECOND)


def shown(step: int) -> str:
    """A distance in ms."""
    return milliseconds(step * STEP)


def spread(distances: list[tuple[int, int]]) -> str:
    """How far apart messages came, in words."""
    count, least, most = sum(number for _, number in distances), distances[0][0], distances[-1][0]
    if least == most:
        return f"{count} distance{'s' if count > 1 else ''} of {shown(least)} ms"
    return f"{count} distances of {shown(least)} to {shown(most)} ms, half of them up to {shown(quantile(distances, 1, 2))} ms"


def times_of(sent: FlowMeasures, before: int, behind: int) -> Times:
    """The times of a flow that was sent first so long after its unit was heard, and last so long before the log's end, in nanoseconds."""
    distances = sorted(sent.distances.items())
    count = sent.distances.total()
    if not count:
        return Times({}, f"sent {'once' if sent.count == 1 else f'{sent.count} times'}")
    middle, told = quantile(distances, 1, 2), spread(distances)
    width = quantile(distances, TENTH - 1, TENTH) - quantile(distances, 1, TENTH)
    if count < FEW or not middle or width * WIDTH > middle:
        return Times({}, f"{told}: {'too few' if count < FEW else 'too irregular'} for a period")
    period = rounded(middle * STEP)
    if period > LONGEST:
        return Times({}, told)
    if before + behind > span_of(sent) and 2 * max(before, behind) > 3 * period * MILLISECOND:
        return Times({}, f"{told}, in {in_words(span_of(sent))} of {in_words(before + span_of(sent) + behind)}: too seldom for a period")
    core, apart = parted(sent.distances, count, period)
    longest = sent.longest[core[-1][0] * STEP // MILLISECOND]
    kept = DistanceRow(sent.times, range(core[0][0] * STEP, longest + 1))
    keys, said = keys_of(kept, slower(core, period), before, behind), told_of(core, apart, ends_of(before, behind, longest))
    if distances[-1][0] * STEP > EVENT * period * MILLISECOND:
        keys.pop("pause", None)
        said += "; no pause: it may be sent on events"
    return Times(keys, said)


def span_of(sent: FlowMeasures) -> int:
    """How long a flow was sent."""
    return (sent.last or 0) - (sent.first or 0)


def parted(distances: Counter[int], count: int, period: int) -> tuple[list[tuple[int, int]], list[tuple[int, int]]]:
    """The distances that a period explains, and those few that are far from it: a message that is missing or one too many."""
    unit = period * MILLISECOND // STEP
    near, far = [(step, times) for step, times in distances.items() if 2 * step < unit], [(step, times) for step, times in distances.items() if 2 * step > 3 * unit]
    apart = [few for few in (near, far) if count >= MANY and 0 < sum(times for _, times in few) * RARE <= count + RARE - 1]
    out = sorted(pair for few in apart for pair in few)
    core = sorted(pair for pair in distances.items() if pair not in out)
    return (core, out) if core else (sorted(distances.items()), [])


class DistanceRow(NamedTuple):
    """When messages began, in nanoseconds, and the distances that count: behind any other one a row begins anew."""

    times: Iterable[int]
    core: range

    def ahead(self, step: int) -> int:
        """By how much one comes at most before it is due by all before it, where each is due so long after the one before, or when that came late."""
        return self._off(step, 1)

    def behind(self, step: int) -> int:
        """By how much one comes at most after that, where each is due so long after the one before, or when that came early."""
        return self._off(-step, -1)

    def _off(self, step: int, sign: int) -> int:
        """The same with times that are counted in one direction."""
        due: int | None = None
        last: int | None = None
        worst = 0
        for time in self.times:
            at = sign * time
            if time == GAP or last is not None and time - last not in self.core:
                due = None
            last = None if time == GAP else time
            if last is None:
                continue
            worst = worst if due is None else max(worst, due - at)
            due = (at if due is None or at > due else due) + step
        return worst


def slower(core: list[tuple[int, int]], period: int) -> int:
    """A period that is no longer than the mean of the distances, but for what clocks may differ by: else messages run ahead of it."""
    count = sum(times for _, times in core)
    mean = sum(step * times for step, times in core) * STEP // count
    return period if period * MILLISECOND * (1000 - CLOCKS) <= 1000 * mean else max(1, mean // MILLISECOND)


def keys_of(row: DistanceRow, period: int, *silences: int) -> dict[str, int]:
    """The keys of a flow: its jitter has room for how much nearer messages come than its period, one after another, and its pause for how far apart, where
    silences at the log's begin and end count, as long as these are no longer than one and a half periods."""
    most = max(row.core[-1], *(silence for silence in silences if 2 * silence <= 3 * period * MILLISECOND), 0)
    early = max(period * MILLISECOND - row.core[0], row.ahead(period * (1000 - CLOCKS) * MILLISECOND // 1000), 0)
    jitter = max(up(early + early // MORE), period // SHARE if early else 0)
    if jitter >= period:  # two that came at once
        jitter = 0
    pause = max(period, up(most) - jitter)
    while pause < 2 * period and row.behind(pause * (1000 + CLOCKS) * MILLISECOND // 1000) > jitter * MILLISECOND:
        pause += max(1, period // TRIES)
    keys = {"period": period, "jitter": jitter, "pause": max(pause + max(1, period // ROOM), period + period // MORE)}
    return {key: number for key, number in keys.items() if number and number <= LONGEST}


def ends_of(before: int, behind: int, longest: int) -> list[str]:
    """What is told of a flow that begins late or ends early, by more than its longest distance."""
    begins = [f"first sent {in_words(before)} after its unit was heard"] if before > longest else []
    return begins + ([f"last sent {in_words(behind)} before the end"] if behind > longest else [])


def told_of(core: list[tuple[int, int]], apart: list[tuple[int, int]], ends: list[str]) -> str:
    """What was seen of a flow, which few distances its times don't cover, and what is told of its begin and end."""
    others = [f"{count} of {shown(step)} ms" if count > 1 else f"{shown(step)} ms" for step, count in apart[:3]]
    rest = sum(count for _, count in apart[3:])
    if rest:
        others.append(f"{rest} more")
    return "; ".join([spread(core), *([f"not covered: {', '.join(others)}"] if others else []), *ends])
