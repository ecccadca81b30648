"""A plan in the making, from a log that is read twice: once for who sends what, and once, by a plan that has this, for the rest."""

from __future__ import annotations

from collections.abc import Callable, Iterable, Iterator
from dataclasses import dataclass
from typing import Any

from j39plan import program
from j39plan.j1939 import ADDRESS_CLAIMED, WAIT
from j39plan.left_out import Notes, some_of
from j39plan.log.checks.feed import Feed
from j39plan.log.checks.other_requests import Asked
from j39plan.log.clock import nanoseconds
from j39plan.log.files import Log
from j39plan.log.reports import Counts, Report, Who, lines_of, reports_of
from j39plan.log.to_plan.groups import Group, Groups
from j39plan.log.to_plan.measures import Measures, FlowMeasures
from j39plan.log.to_plan.survey import Survey
from j39plan.log.to_plan.times import Times, times_of
from j39plan.log.to_plan.units import Unit, Units
from j39plan.plan.parts import Source
from j39plan.plan.schema import most_of
from j39plan.plan.tables import Tables
from j39plan.plan.text import WRITTEN, Table, text_of

# The most flows and requests that a plan has.
FLOWS, REQUESTS = most_of("", "flow"), most_of("", "request")

# How many frames come unplanned beside a claim of each unit, as a guess.
UNPLANNED = 3

# A plan that has nothing: by it `follow --all` tells of each frame.
NOTHING = f"version = {WRITTEN[-1]}\n"

# What is told of how far a log is read: the number of the line.
Progress = Callable[[int], None]


@dataclass
class Flow:
    """A flow: its group, who sends it to whom, None for all, and what was seen of it."""

    group: Group
    sender: Unit
    to: Unit | None
    sent: FlowMeasures
    times: Times = Times({}, "")

    @property
    def is_asked(self) -> bool:
        """Whether all of it, but for a tenth, was asked for."""
        return bool(self.sent.asked) and 10 * self.sent.asked >= 9 * self.sent.count

    def head(self) -> Table:
        """Its table without times."""
        return Table("flow", {"group": self.group.label, "from": self.sender.label, "to": self.to.label if self.to else "all"})

    def table(self) -> Table:
        """Its table."""
        table = self.head()
        if self.is_asked:
            table.keys["on_request"] = True
            table.beside["on_request"] = f"{self.sent.asked} of {self.sent.count} came within {WAIT} ms of a request"
        else:
            table.keys |= self.times.keys
            asked = f"; {self.sent.asked} were asked for" if self.sent.asked else ""
            table.remarks = [self.times.seen + asked]
        return table


@dataclass
class Request:
    """Requests for a group by a unit: whom they ask, None for all, and what became of them."""

    group: Group
    sender: Unit
    to: Unit | None
    asked: Asked

    def table(self) -> Table:
        """Its table."""
        keys = {"group": self.group.label, "from": self.sender.label, "to": self.to.label if self.to else "all"}
        counts = {"answered": self.asked.answered, "refused": self.asked.refused, "without an answer": self.asked.unanswered}
        told = ", ".join(["asked once" if self.asked.asked == 1 else f"asked {self.asked.asked} times", *(f"{count} {word}" for word, count in counts.items() if count)])
        return Table("request", keys, [told])


def all_of(plan: str, log: Log, counts: Counts, fed: Callable[[Any], Iterable[bytes]]) -> Iterator[Report]:
    """The reports of `follow --all` of a log that is handed on so."""
    return reports_of(lines_of(plan, log, counts, fed), Tables.of(plan), counts)


def told_reports(reports: Iterable[Report], progress: Progress) -> Iterator[Report]:
    """Reports, as they come; how far they are is told."""
    for report in reports:
        progress(report.line)
        yield report


class Draft:
    """A plan of a log, by what is known of its groups and units."""

    def __init__(self, logs: list[str], interface: str | None, known: list[Source], notes: Notes, progress: Progress) -> None:
        self._logs, self._interface, self._notes, self._progress = logs, interface, notes, progress
        self.counts = Counts()
        self.survey = self._surveyed()
        self.units = Units(self.survey, known, notes)
        self.groups = Groups(self.survey, self.units, known, notes)
        self.flows = self._first_flows()
        self.requests: list[Request] = []
        self._measure()
        self._say_what_is_left()

    def _surveyed(self) -> Survey:
        """What the log has, read by a plan of nothing."""
        survey = Survey()
        with program.file_of(NOTHING) as plan, Log(self._logs, self._interface) as log:
            survey.take(told_reports(all_of(plan, log, self.counts, feed_of()), self._progress))
            if self.counts.frames or self.counts.bad or self.counts.elsewhere:
                self.counts.refuse_without_frames(log)
            if not survey.frames and not survey.claims:
                raise program.Refused(program.UNREADABLE, f"{', '.join(self._logs)}: no frame has an identifier of 29 bits, so there is nothing to plan")
            self.counts.refuse_a_guess(log)
            self.counts.say(log)
        return survey

    def _first_flows(self) -> list[Flow]:
        """Flows of all that was seen, each once."""
        found: dict[tuple[str, str, str], Flow] = {}
        for (_, box, to), groups in self.groups.ways.items():
            sender, receiver = self.units.of(box), None if to is None else self.units.of(to)
            if sender is None or to is not None and receiver is None or sender is receiver:
                self._notes.say(f"messages from {box} to {to}", "no unit of the plan has both ends")
                continue
            for group in groups:
                found.setdefault((group.label, sender.label, receiver.label if receiver else "all"), Flow(group, sender, receiver, FlowMeasures()))
        if others := [f"{group} from {sender} to {to}" for group, sender, to in list(found)[FLOWS:]]:
            self._notes.say(f"{len(others)} flows, {some_of(others)}", f"a plan has at most {FLOWS} flows")
        return list(found.values())[:FLOWS]

    def _measure(self) -> None:
        """Reads the log by the plan as it is until now, and keeps what was sent."""
        text = text_of([*self.units.tables(), *(group.head() for group in self.groups.groups), *(flow.head() for flow in self.flows)], "a log")
        counts, feed = Counts(), Feed()
        with program.file_of(text) as plan, Log(self._logs, self._interface) as log:
            tables = Tables.of(plan)
            measures = Measures(tables)
            for report in told_reports(all_of(plan, log, counts, feed.pieces), self._progress):
                measures.report(report, feed.beside(report.line))
        last = nanoseconds(feed.last_time)
        measures.ends(last, counts.frames > 0)
        self._take(measures, last)

    def _take(self, measures: Measures, last: int | None) -> None:
        """Takes what was measured."""
        for group in self.groups.groups:
            group.data = measures.data.get(group.label, {})
        for number, flow in enumerate(self.flows, 1):
            flow.sent = measures.by_flow[number]
            begin, end = flow.sent.first, flow.sent.last
            before = 0 if begin is None else begin - measures.hands.first.get(flow.sender.label, begin)
            flow.times = times_of(flow.sent, before, 0 if end is None or last is None else last - end)
        self.flows = [flow for flow in self.flows if flow.sent.count]
        self._name_receivers(measures.others.rows())
        sent = {flow.group.label for flow in self.flows}
        for group in self.groups.groups:
            if group.label not in sent and group.part is None:
                self._notes.say(f"group {group.label}", "no message of it came whole")
        self.groups.groups = [group for group in self.groups.groups if group.label in sent]
        for asked in measures.others.rows():
            self._asks(asked)

    def _name_receivers(self, requests: list[Asked]) -> None:
        """Answers of a group whose longer messages name a receiver are for the one that asks, also those of one frame, which names none."""
        for flow in [flow for flow in self.flows if flow.to is None and flow.is_asked and flow.group.is_to_one]:
            asked = [one for one in requests if one.pgn == flow.group.pgn and (one.to.address is None or self._unit(one.to) is flow.sender)]
            receivers = [self._unit(one.sender) for one in asked if one.to.address is not None]
            if len(receivers) < len(asked) or not all(receivers):
                continue  # some ask all, or are no units
            known = {other.to.label: other for other in self.flows if other.to and (other.group, other.sender) == (flow.group, flow.sender)}
            at = self.flows.index(flow)
            self.flows[at:at + 1] = [Flow(flow.group, flow.sender, unit, flow.sent) for unit in receivers if unit and unit.label not in known]
            if len(receivers) == len(known) == 1:
                known.popitem()[1].sent.joins(flow.sent)

    def _unit(self, who: Who) -> Unit | None:
        """The unit of a label."""
        return next((unit for unit in self.units.units.values() if unit.label == who.label), None) if who.label else None

    def _asks(self, asked: Asked) -> None:
        """Requests of one for a group: of a plan where a flow answers them."""
        sender, to = self._unit(asked.sender), self._unit(asked.to)
        is_to_all = asked.to.shown == "all"
        if sender is None or asked.pgn == ADDRESS_CLAIMED:
            return
        answers = [flow for flow in self.flows if flow.group.pgn == asked.pgn and (flow.to in (None, sender))
                   and (flow.sender is not sender if is_to_all else flow.sender is to)]
        if answers and len(self.requests) < REQUESTS:
            self.requests.append(Request(answers[0].group, sender, to, asked))
        else:
            what = f"{asked.refused} refused" if asked.refused else "none answered"
            self._notes.say(f"requests for PGN {asked.pgn} by {asked.sender.shown} to {asked.to.shown}", f"of {asked.asked} {what}: no flow of the plan answers them")

    def _say_what_is_left(self) -> None:
        """Says what of the log isn't in the plan."""
        for pgn, count in sorted(self.survey.others.items()):
            if count:
                self._notes.say(f"PGN {pgn}", f"{count} frames of a service of the network, which isn't planned")
        for pgn, count in sorted(self.survey.beyond.items()):
            self._notes.say(f"PGN {pgn}", f"{count} frames of the extended data page, which no plan has")
        for address, count in sorted(self.survey.nobody.items()):
            self._notes.say(f"address {address}", f"{count} frames come from it, which is no unit's")

    def tables(self) -> Iterator[Table]:
        """The tables of the plan."""
        yield from self.units.tables()
        yield from (group.table() for group in self.groups.groups)
        yield from (flow.table() for flow in self.flows)
        yield from (request.table() for request in self.requests)

    def text(self, names: str, about: Iterable[str], bitrate: int | None) -> str:
        """The text of the plan."""
        claiming = sum(unit.claims for unit in self.units.units.values())
        return text_of(self.tables(), names, about=about, bitrate=bitrate, unplanned=claiming + UNPLANNED)

    def rows(self) -> dict[str, Any]:
        """What was found, as plain values, for JSON."""
        units = [{"label": unit.label, "address": unit.address, "name": f"{unit.name:016X}" if unit.claims else None, "claims": unit.claims,
                  "remarks": unit.remarks} for unit in self.units.units.values()]
        groups = [{"label": group.label, "pgn": group.pgn, "known": group.part.at() if group.part else None, "lengths": dict(group.lengths),
                   "priorities": dict(group.priorities)} for group in self.groups.groups]
        flows = [{**flow.table().keys, "count": flow.sent.count, "asked": flow.sent.asked, "seen": flow.times.seen} for flow in self.flows]
        requests = [{**request.table().keys, "asked": request.asked.asked, "answered": request.asked.answered, "refused": request.asked.refused,
                     "unanswered": request.asked.unanswered} for request in self.requests]
        return {"units": units, "groups": groups, "flows": flows, "requests": requests}


def feed_of() -> Callable[[Any], Iterable[bytes]]:
    """What hands a log to `follow` so that it tells all frames."""
    return Feed().pieces
