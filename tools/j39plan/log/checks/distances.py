"""How far apart messages of flows come: the nearest, the longest silence, those in a row, and what is usual."""

import argparse
import heapq
import math
import re
from collections.abc import Callable, Collection, Iterator, Mapping
from typing import Any, NamedTuple

from j39plan.log.checks.deviations import Found
from j39plan.log.checks.outages import Outages
from j39plan.log.checks.paces import tell_clock
from j39plan.log.checks.rows import CLOCKS, Row
from j39plan.log.checks.tracks import Heard, Limits, Track, Way, way_of
from j39plan.log.clock import MILLISECOND, SECOND
from j39plan.plan.tables import Flow

# After how many periods without a message a flow is silent, where it isn't said.
SILENCE = 5

# So many flows that are silent at once, of several units, tell that the log is.
SILENCED = 3

# Distances are told apart by so many nanoseconds where the usual one is looked for.
STEP = 10_000


class Tolerance(NamedTuple):
    """By how much messages may come nearer than their period: a duration in nanoseconds, or a share in millionths; and how it was spelled."""

    duration: int
    share: int
    spelled: str

    @classmethod
    def of(cls, text: str) -> "Tolerance":
        """`2.5`, in ms, or `10%` of the period."""
        found = re.fullmatch(r"(\d{1,9})(?:\.(\d{1,6}))?(%| ?ms)?", text)
        if found is None:
            raise argparse.ArgumentTypeError(f"{text} is no time in ms, as 2.5, and no share, as 10%")
        number = int(found.group(1)) * MILLISECOND + int(f"{found.group(2) or '':0<6}")
        if found.group(3) == "%":
            return cls(0, number // 100, text)
        return cls(number, 0, f"{found.group(1)}{'.' if found.group(2) else ''}{found.group(2) or ''} ms")

    def with_drift(self, drift: int) -> "Tolerance":
        """With so many millionths more, by which clocks differ from true time."""
        return self._replace(share=self.share + drift)

    def at(self, period: int) -> int:
        """In nanoseconds, for a period in ms."""
        return self.duration + period * self.share


def limits_of(flow: Flow, tolerance: Tolerance, silence: int, wait: int) -> Limits | None:
    """The limits of a flow; None of one without a period."""
    if flow.period is None:
        return None
    least = flow.period * MILLISECOND - tolerance.at(flow.period) - flow.jitter * MILLISECOND
    if flow.pause is not None:
        most = (flow.pause + flow.jitter) * MILLISECOND + tolerance.at(flow.pause)
        return Limits(least, most, f"its pause is {flow.pause} ms" + (f" and its jitter {flow.jitter} ms" if flow.jitter else ""), wait)
    most = silence * flow.period * MILLISECOND
    return Limits(least, math.inf if flow.on_request or not silence else most, f"its period is {flow.period} ms", wait)


def rows_of(flow: Flow, tolerance: Tolerance, wait: int) -> tuple[Row | None, Row | None]:
    """What takes the messages of a flow as a row, that they don't come too often, nor, where it has a pause, too seldom."""
    slack = flow.jitter * MILLISECOND + wait
    often = seldom = None
    if flow.period is not None:
        often = Row(max(flow.period * MILLISECOND - tolerance.at(flow.period), 0) * (1000 - CLOCKS) // 1000, slack)
    if flow.period is not None and flow.pause is not None:
        seldom = Row(-((flow.pause * MILLISECOND + tolerance.at(flow.pause)) * (1000 + CLOCKS) // 1000), slack)
    return often, seldom


class Rule(NamedTuple):
    """After how many periods a flow is silent, which flows are sent when something happens, by their numbers, and whether flows without a
    period are looked at too."""

    silence: int
    events: frozenset[int]
    is_whole: bool

    def silence_of(self, number: int, flow: Flow) -> int:
        """After how many periods this flow is silent; 0 where that isn't told."""
        return 0 if number in self.events and flow.pause is None else self.silence


class Distances:
    """The distances of messages of flows. What a flow has begun in the order of the log counts; where a clock was set, from there on."""

    def __init__(self, flows: list[Flow], tolerance: Tolerance, rule: Rule, waits: dict[int, int], heard: Heard, found: Found) -> None:
        self._heard, self._found, self.events = heard, found, rule.events
        self._tracks = [Track(number, flow, limits_of(flow, tolerance, rule.silence_of(number, flow), waits.get(number, 0)),
                              *rows_of(flow, tolerance, waits.get(number, 0))) for number, flow in enumerate(flows, 1)]
        self.outages = Outages(self._tracks, heard, found)
        self._usual: dict[int, dict[int, int]] | None = {} if rule.is_whole else None
        self._since: tuple[int, int] | None = None  # where the clock was set last
        self._units = 0  # of how many units flows had come until then
        self._due: list[tuple[float, int]] | None = None  # when flows are silent, by their numbers, where that is told as time goes by
        self._watched: set[int] = set()
        self._overdue: dict[int, str] = {}  # of those that are told as silent the text
        self.explained: dict[int, int] = {}  # of each flow how many distances a wait on the bus explains
        self.without_time = False
        self._paced: dict[int, set[str]] = {}  # of each flow what is told of it that its unit's clock may explain

    def anew(self, line: int, at: int) -> None:
        """The clock was set, or nothing was heard: distances begin here."""
        self._since, self._units = (line, at), len({track.flow.sender for track in self._tracks if track.at is not None})
        for track in self._tracks:
            track.is_known = track.is_known or track.at is not None
            track.at = None
            track.row_ends()

    def is_before(self, line: int) -> bool:
        """Whether distances begin behind a line."""
        return self._since is not None and line < self._since[0]

    def alive(self, at: int) -> list[Track]:
        """The flows that aren't silent at a time."""
        return [track for track in self._tracks if track.limits is not None and track.limits.most < math.inf and track.at is not None and at - track.at <= track.limits.most]

    @property
    def least(self) -> float:
        """How long the first flow may be silent that is told then."""
        return min((track.limits.most for track in self._tracks if track.limits is not None), default=math.inf)

    def stood_still(self, at: int, duration: int, gap: float) -> bool:
        """Whether all stood still where nothing at all came for so long after a time: for longer than a gap, though two flows were alive; or for so long that
        several, of two units at least, are silent at once."""
        if duration > gap and len(self.alive(at)) > 1:
            return True
        silenced = [track.flow.sender for track in self.alive(at) if track.limits and track.at is not None and track.limits.most + track.limits.wait < at + duration - track.at]
        return len(silenced) >= SILENCED and len(set(silenced)) > 1

    def has_resumed(self) -> bool:
        """Whether flows came again of two of the units of which some did before distances began anew, or of all."""
        return len({track.flow.sender for track in self._tracks if track.at is not None}) >= min(2, self._units)

    def sent(self, number: int, line: int, at: int | None, waited: int = 0) -> None:
        """A message of a flow, by when it began, and how long it may have waited for others of its unit. The first one counts from when its unit was heard
        first."""
        self.comes(self._tracks[number - 1], line, at, waited)

    def besides(self, number: int, at: int | None) -> None:
        """A message of a flow comes that was asked for besides, or isn't as planned, which is told by itself: it ends a silence, and no more."""
        track = self._tracks[number - 1]
        if at is None:
            return
        if number in self._overdue:
            self._comes_again(track, track.at)
        track.besides = at
        if track.seldom:
            track.seldom.ends()

    def track(self, number: int) -> Track:
        """A flow as it was sent so far."""
        return self._tracks[number - 1]

    def comes(self, track: Track, line: int, at: int | None, waited: int = 0) -> None:
        """A message of a flow has come, as `sent` has it."""
        track.count += 1
        limits, last = track.limits, track.at
        if at is None:
            self.without_time = self.without_time or limits is not None
            return
        since = self._since
        if limits is None and self._usual is None or since is not None and line < since[0]:
            return
        before, track.line, track.at, track.waited = track.waited, line, at, waited
        if self._overdue and track.number in self._overdue:
            self._comes_again(track, last)
        if last is None:
            track.first, track.begun = at, track.count
            self._begins(track, line, at)
            self._is_due(track)
        elif self._usual is not None or limits is None or not limits.least <= at - last <= limits.most:
            self._compare(track, line, at, last, before)
        often = track.often
        if often is None or last is not None and at < last:
            return
        mean = often.came(at, at - waited, 0)
        if mean is not None:
            self._tell_row("near", track, self._planned(track.flow), line, at, mean)
        if track.seldom is not None:
            mean = track.seldom.came(-at, -at, waited)
            if mean is not None:
                self._tell_row("silent", track, self._why(track), line, at, mean)

    def begins(self, unit: str) -> None:
        """A unit begins anew: its rows do."""
        for track in self.outages.of(unit):
            track.row_ends()

    def touched(self, unit: str, pgns: Mapping[str, int], pgn: int, line: int, at: int | None) -> None:
        """A second box of a unit sends a group: distances of its flows begin anew with that, as far as the group tells which ones."""
        for track in self._tracks:
            if at is not None and track.flow.sender == unit and pgns[track.flow.group] == pgn and track.at is not None:
                track.line, track.at = line, at
                track.row_ends()

    def _begins(self, track: Track, line: int, at: int) -> None:
        """The first message of a flow: how late it comes, by when its unit was heard first, and the one that it is for."""
        limits, first = track.limits, self._heard.first
        if self._since is not None or track.count > 1 or limits is None:
            return
        late = at - max(first.get(track.flow.sender, at), first.get(track.flow.to, 0))
        if late > max(limits.most, SECOND):
            self._silence(track, line, at, late, limits)

    def _compare(self, track: Track, line: int, at: int, last: int, waited: int) -> None:
        """A distance of a flow; where time goes back it is none."""
        distance, limits = at - last, track.limits
        if distance < 0:
            return
        if self._usual is not None:
            usual = self._usual.setdefault(track.number, {})
            usual[distance // STEP] = usual.get(distance // STEP, 0) + 1
        if limits is None:
            return
        if distance < limits.least:
            self._near(track, line, at, distance, waited if waited < limits.least else 0)
        elif distance > limits.most:
            silence = self.outages.silence(track, last, at)
            if silence < distance:
                track.row_ends()
            if silence > limits.most + limits.wait + track.waited and self.outages.returns(track, last, line, at):
                track.row_ends()
            else:
                self._silence(track, line, at, silence, limits)

    def _near(self, track: Track, line: int, at: int, distance: int, waited: int) -> None:
        """Two messages are nearer than the period, of which the first one may have waited so long for others of its unit."""
        assert track.limits is not None
        least = track.limits.least - waited
        if distance >= least or self.outages.has_returned(track.flow.sender, at - distance):
            return
        if distance >= least - track.limits.wait:
            self.explained[track.number] = self.explained.get(track.number, 0) + 1
            return
        self._tell("near", track, f"{{}} ms after the one before, {self._planned(track.flow)}", line, at, distance)
        track.row_ends()

    def _silence(self, track: Track, line: int, at: int, distance: int, limits: Limits) -> None:
        """A message comes after a silence."""
        if distance <= limits.most + track.waited:
            return
        if distance <= limits.most + limits.wait + track.waited:
            self.explained[track.number] = self.explained.get(track.number, 0) + 1
            return
        self._tell("silent", track, f"not sent for {{}} ms before, {limits.why}", line, at, distance)
        track.row_ends()

    @staticmethod
    def _planned(flow: Flow) -> str:
        """What the plan has of how often a flow is sent."""
        return f"its period is {flow.period} ms" + (f" and its jitter {flow.jitter} ms" if flow.jitter else "")

    @staticmethod
    def _why(track: Track) -> str:
        """What the plan has of how long a flow may be silent."""
        return track.limits.why if track.limits else ""

    def _tell_row(self, kind: str, track: Track, planned: str, line: int, at: int, mean: int) -> None:
        """Messages in a row come too often, or too seldom, though a wait explains each one by itself."""
        self._tell(kind, track, f"{{}} ms apart in the mean of several in a row, {planned}: no wait explains all", line, at, mean)

    def _tell(self, kind: str, track: Track, text: str, line: int, at: int, value: int) -> None:
        """A deviation of a flow."""
        told = f"{track.name}: {text}"
        self._found.tell(kind, told, line, at, value, flow=track.number, unit=track.flow.sender)
        if kind == "near" or "in the mean" in text:
            self._paced.setdefault(track.number, set()).add(told)

    def watch(self) -> None:
        """From here on a flow is told as silent as soon as it is, by `goes_by`."""
        self._due = []

    def _is_due(self, track: Track) -> None:
        """A flow begins, whose silence is to be told."""
        if self._due is not None and track.limits and track.limits.most < math.inf and track.number not in self._watched:
            self._watched.add(track.number)
            heapq.heappush(self._due, (self._limit(track, track.limits), track.number))

    def _limit(self, track: Track, limits: Limits) -> float:
        """From when on a flow is silent."""
        assert track.at is not None
        return self.outages.begin(track, track.at) + limits.most + limits.wait

    def goes_by(self, at: int, is_under_way: Callable[[Way, int], bool]) -> None:
        """Time goes by, where silences are told as soon as they are, but of what is under way: a heap has when each flow is due, at the latest as of when
        it was looked at."""
        due = self._due
        while due and due[0][0] < at:
            number = heapq.heappop(due)[1]
            track = self._tracks[number - 1]
            self._watched.discard(number)
            if track.limits is None or track.at is None:
                continue
            if self._limit(track, track.limits) >= at:
                self._is_due(track)
            elif is_under_way(way_of(track.flow), at):
                self._watched.add(number)
                heapq.heappush(due, (at + SECOND, number))
            else:
                self._overdue[number] = text = f"{track.name}: not sent any more, {track.limits.why}"
                self._found.tell("stopped", text, track.line, track.at, flow=number, unit=track.flow.sender)

    def _comes_again(self, track: Track, last: int | None) -> None:
        """A flow is sent again that was told as silent: what is told of it now is for how long, if that is known."""
        text = self._overdue.pop(track.number)
        if last is not None:
            self._found.withdraw(text)
            self._is_due(track)

    def end(self, last: int | None, gone: Collection[str]) -> None:
        """Tells what has stopped, where the last time of the log is this one, but of units that have no address any more."""
        since = self._since[0] if self._since else 0
        if last is None:
            return
        for unit in dict.fromkeys(track.flow.sender for track in self._tracks):
            tell_clock(unit, self.outages.of(unit), self.events, self._paced, self._found)
        stopped = [one for one in self.outages.stopped(last, since) if one.unit not in gone]
        told = self.outages.tell_stopped(stopped, last) | set(self._overdue)
        for track in self._tracks:
            limits = track.limits
            begin = (track.line, track.at) if track.at is not None else self._since if track.is_known else None
            if not limits or not begin or track.number in told or track.flow.sender in gone:
                continue
            silence = self.outages.silence(track, begin[1], self.outages.heard_to(track.flow.to, last, since))
            if silence > limits.most + limits.wait:
                self._tell("stopped", track, f"not sent any more, for {{}} ms to the log's end, {limits.why}", begin[0], begin[1], silence)

    def name(self, number: int) -> str:
        """A flow by its number."""
        return self._tracks[number - 1].name

    @property
    def passed_over(self) -> list[int]:
        """The flows of which no distance is too small, by what is passed over."""
        return [track.number for track in self._tracks if track.limits and track.limits.least <= 0]

    def measured(self) -> Iterator[dict[str, Any]]:
        """A row for each flow: its period, how often it was sent, and the least, usual and greatest distance, all in ms, where there is one."""
        for track in self._tracks:
            usual, flow = sorted((self._usual or {}).get(track.number, {}).items()), track.flow
            steps = zip(("least", "median", "greatest"), (usual[0][0], median(usual), usual[-1][0]) if usual else ())
            yield {"flow": track.number, "group": flow.group, "from": flow.sender, "to": flow.to, "period": flow.period, "count": track.count,
                   **{key: step * STEP / MILLISECOND for key, step in steps}}

    def table(self) -> Iterator[tuple[str, ...]]:
        """The same in words."""
        for row in self.measured():
            told = [f"{row[key]:.2f}" if key in row else "-" for key in ("least", "median", "greatest")]
            yield str(row["flow"]), row["group"], row["from"], row["to"], str(row["period"] or "-"), str(row["count"]), *told


def median(usual: list[tuple[int, int]]) -> int:
    """The one in the middle of numbers that stand with how often each is there, in their order; of two the lesser."""
    left = (sum(count for _, count in usual) + 1) // 2
    for number, count in usual:
        left -= count
        if left <= 0:
            return number
    return 0
