"""Hands a comparison what `follow` writes, line by line. Most lines are of messages of one frame that are as planned, and differ in their time and data
alone: what the rest of such a line means is kept until a claim comes. The words of frames of long messages are kept too."""

from __future__ import annotations

from collections.abc import Iterator
from itertools import islice
from operator import itemgetter
from typing import NamedTuple

from j39plan.j1939 import EXTENDED_MANAGEMENT, FRAME_BYTES, GLOBAL_ADDRESS, NULL_ADDRESS, SERVICES
from j39plan.log.checks.comparison import UNPLANNED, Comparison
from j39plan.log.checks.deviations import Deviation
from j39plan.log.checks.feed import Feed
from j39plan.log.checks.no_frames import LAST_GROUP
from j39plan.log.checks.tracks import Track
from j39plan.log.checks.wording import no_group
from j39plan.log.reports import GROUP, KIND, Claim, Counts, Frame, Message, Who, below_of, report_of
from j39plan.plan.tables import Tables

# As whom somebody is heard: the unit, the box and the address.
Source = tuple[str, str, int | None]

# The services whose frames tell more by their data.
TRANSPORT = SERVICES | {EXTENDED_MANAGEMENT}

# So many digits, and the end of the line, has the data of a frame at most; and so many meanings are kept.
DIGITS, KEPT = 2 * FRAME_BYTES + 1, 4096


class Plain(NamedTuple):
    """A message of one frame of a planned flow by its line without time and data: its flow as it was sent so far, where its messages are counted, the group's
    number, who sends it to whom, and as whom that is heard."""

    track: Track
    times: list[int]
    pgn: int
    sender: Who
    to: Who
    source: Source


class Passing(NamedTuple):
    """A frame of no planned group by its line without time and data: what is told of it, if something is, its identifier, and as whom its sender is heard."""

    told: Deviation | None
    identifier: int
    source: Source


class Reader:
    """Takes the lines of `follow` for a comparison: of most of them what is kept, without a report."""

    def __init__(self, comparison: Comparison, feed: Feed, tables: Tables, counts: Counts) -> None:
        self._comparison, self._feed, self._counts = comparison, feed, counts
        self._below = below_of(tables)
        self._unheard, self._beside = feed.noted
        self._plain: dict[str, Plain] = {}
        self._passing: dict[str, Passing] = {}
        self._heard: dict[Source, tuple[int, int]] = {}  # who was heard while all was calm: the line and the time of the last message of each
        self._frames: dict[str, Frame] = {}  # the last frame of no planned group, by its line without time and data

    def take(self, lines: Iterator[str], most: int | None = None) -> None:
        """Takes the lines, so many of them at most. Messages that are as planned, and frames of no planned group, change nothing but counts and distances while
        all is calm."""
        plain_of, unheard, beside, comparison, heard = self._plain.get, self._unheard, self._beside, self._comparison, self._heard
        see, comes, busy, is_calm, last, calm = comparison.clock.see, comparison.distances.comes, comparison.busy, False, 0, -1.0
        passing_of, came = self._passing.get, comparison.unplanned.came
        for line in islice(lines, most):
            words = line.split(" ", 2)
            head, _, data = words[-1].rpartition(" ")
            plain = plain_of(head) if len(data) <= DIGITS else None
            passing = passing_of(head) if plain is None else None
            if plain is None and passing is None or unheard and unheard[0].line < int(words[0]) or beside and beside[0].line <= int(words[0]):
                self._other(line, words, head, data, lines, plain)
                is_calm = False
                continue
            if not is_calm:
                last, calm = comparison.calm()
                is_calm = True
            number = int(words[0])
            at = see(number, words[1])
            if at is None or not 0 <= at - last <= calm:
                self._at_once(plain, passing, number, at, words, data, head)
                is_calm = False
                continue
            if at - last > busy.idle:
                busy.since = at
            last = at
            if plain is not None:
                heard[plain.source] = number, at
                plain.times[0] += 1
                comes(plain.track, number, at)
            elif passing is not None:
                heard[passing.source] = number, at
                came(number, at, passing.identifier)
                if passing.told is not None:
                    passing.told.times += 1
        self._was_heard()

    def _at_once(self, plain: Plain | None, passing: Passing | None, number: int, at: int | None, words: list[str], data: str, head: str) -> None:
        """A message that is as planned, or a frame of no planned group, while not all is calm."""
        if plain is not None:
            self._plainly(plain, number, at)
        elif passing is not None:
            self._was_heard()
            self._frame(self._frames[head], number, words[1], at, data)

    def _frame(self, known: Frame, number: int, time: str, at: int | None, data: str) -> None:
        """A frame that differs from one of before in its time and data alone."""
        if at is not None:
            self._comparison.looks_at_time(number, at)
        self._comparison.frame(number, at, Frame(number, time, *known[2:6], bytes.fromhex(data)))

    def _was_heard(self) -> None:
        """Whom messages came of while all was calm is heard, by the last one of each."""
        if self._heard:
            number, at = max(self._heard.values())
            for (key, box, address), heard in sorted(self._heard.items(), key=itemgetter(1)):
                self._comparison.hands.is_heard(*heard, key, box, address)
            self._comparison.passed(number, at)
            self._heard.clear()

    def _plainly(self, plain: Plain, number: int, at: int | None) -> None:
        """A message that is as planned."""
        self._was_heard()
        comparison, (_, times, pgn, sender, to, source) = self._comparison, plain
        if at is not None:
            comparison.looks_at_time(number, at)
        if comparison.hands.is_settled:
            comparison.hands.is_heard(number, at, *source)
        else:
            comparison.hands.sends(number, at, sender)
        if comparison.asked.open or comparison.others.open:
            comparison.answers(number, at, sender, to, pgn)
        if at is not None and comparison.asked_for.is_open(at):
            comparison.sends(plain.track.number, number, at)
            return
        times[0] += 1
        comparison.distances.comes(plain.track, number, at)

    def _other(self, line: str, words: list[str], head: str, data: str, lines: Iterator[str], plain: Plain | None) -> None:
        """Another line, or one beside which something is noted."""
        self._was_heard()
        see, number = self._comparison.clock.see, int(words[0]) if line[0].isdigit() else 0
        is_first = number > 0 and self._is_before(number)
        if plain is not None and is_first:
            self._plainly(plain, number, see(number, words[1]))
        elif is_first and (frame := self._frames.get(head)) is not None:
            self._frame(frame, number, words[1], see(number, words[1]), data)
        elif number > 0:
            self._report(line, lines, head)
        else:
            self._counts.take(line)

    def _is_before(self, line: int) -> bool:
        """Whether a line comes before all of which something is noted."""
        return all(line < noted[0].line for noted in (self._unheard, self._beside) if noted)

    def _report(self, line: str, lines: Iterator[str], head: str) -> None:
        """A report."""
        words, below = line.split(), []
        if words[KIND] == "group":
            below = list(islice(lines, self._below[words[GROUP]][len(words[-1])]))
        report = report_of(words, below)
        for noted in self._feed.unheard(report.line):
            self._comparison.unheard(noted)
        self._comparison.report(report, self._feed.beside(report.line))
        if isinstance(report, Claim):
            self._plain.clear()
            self._passing.clear()
            self._frames.clear()
        elif isinstance(report, Message) and not below and len(report.data) < DIGITS and len(self._plain) < KEPT:
            self._keep(head, report)
        elif isinstance(report, Frame) and report.data and len(self._frames) < KEPT:
            self._frames[head] = report
            if self._is_passing(report):
                told = None if report.pgn in UNPLANNED else self._comparison.found.met(no_group(report.pgn, report.sender))
                self._passing[head] = Passing(told, report.identifier, (*self._comparison.hands.source_of(report.sender), report.sender.address))

    def _is_passing(self, frame: Frame) -> bool:
        """Whether a frame is of a number that no planned group and no service has, and its like tell nothing new of their sender, as long as nobody claims."""
        comparison, sender = self._comparison, frame.sender
        is_urgent = comparison.timing is not None and frame.identifier >> 26 < comparison.timing.unplanned_priority
        is_known = sender.label is not None or not (comparison.is_unjudged or is_urgent or sender.address in (NULL_ADDRESS, GLOBAL_ADDRESS))
        is_single = frame.pgn <= LAST_GROUP and frame.pgn not in TRANSPORT and frame.pgn not in comparison.groups
        return is_single and is_known and comparison.hands.is_named(sender) and not comparison.hands.has_left(sender) and not comparison.found.keeps_all

    def _keep(self, head: str, message: Message) -> None:
        """Keeps what the rest of a message's line means, where it is as planned, and it is known who sent it."""
        sender, to = message.sender, message.to
        if message.flow and sender.label and message.priority is None and self._comparison.hands.is_named(sender):
            pgn = self._comparison.planned[message.group].pgn
            self._plain[head] = Plain(self._comparison.distances.track(message.flow), self._comparison.counted(message.flow), pgn, sender, to, (*self._comparison.hands.source_of(sender), sender.address))
