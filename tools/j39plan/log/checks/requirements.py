"""What a plan asks of a drive, one by one: each flow, need and request, whether the log keeps it, and how often that was looked at."""

from __future__ import annotations

import argparse
import json
import re
import sys
from collections import Counter
from collections.abc import Callable, Iterable, Iterator
from typing import Any, NamedTuple
from xml.etree import ElementTree

from j39plan import program
from j39plan.left_out import plain
from j39plan.log.checks.comparison import Comparison
from j39plan.log.checks.deviations import Deviation, Place, lines_of

# Whether a requirement was kept, broken, or nothing was seen by which one could know.
KEPT, BROKEN, UNSEEN = "kept", "broken", "not seen"

# Deviations of a flow that break the needs that it meets: nothing came for longer than the plan has it.
ABSENCES = ("silent", "stopped")

# That a flow was never sent is nothing that it broke.
NEVER = "never-sent"

# How the deviations of a need or of a request begin.
NUMBERED = re.compile(r"(need|request) (\d+), ")


class Requirement(NamedTuple):
    """A flow, a need or a request by its number and in words; the units that it is of; how often it was looked at; and how the log breaks it."""

    kind: str
    number: int
    what: str
    units: frozenset[str]
    times: int
    broken: list[Deviation]

    @property
    def state(self) -> str:
        """Whether it was kept."""
        return BROKEN if self.broken else KEPT if self.times else UNSEEN

    @property
    def text(self) -> str:
        """The requirement and its state in words."""
        return f"{self.kind} {self.number}, {self.what}: {self.state}" + (f", {self.times} {self._counted}" if self.times else "")

    @property
    def _counted(self) -> str:
        """What was looked at."""
        word = "request" if self.kind == "request" else "message"
        return word if self.times == 1 else f"{word}s"


class Requirements:
    """All that a plan asks for, with the deviations of each, and those that are of none."""

    def __init__(self, comparison: Comparison, found: Iterable[Deviation], unit: str | None = None) -> None:
        self._comparison, self._unit = comparison, unit
        self._by: dict[tuple[str, int], list[Deviation]] = {}
        rest = [one for one in found if not self._take(one)]
        self.all = [one for one in (*self._flows(), *self._needs(), *self._requests()) if unit is None or unit in one.units]
        self.others = [one for one in rest if unit is None or one.unit == unit]

    @property
    def deviations(self) -> int:
        """How many deviations there are."""
        return len({id(found) for found in (*self.others, *(found for one in self.all for found in one.broken))})

    def _take(self, found: Deviation) -> bool:
        """Whether a deviation is one of a flow, a need or a request, or tells that a flow was never sent."""
        numbered = NUMBERED.match(found.text)
        keys = [(numbered.group(1), int(numbered.group(2)))] if numbered else [("flow", number) for number in self._flows_of(found)]
        if found.kind != NEVER:
            for key in keys:
                self._by.setdefault(key, []).append(found)
        return bool(keys)

    def _flows_of(self, found: Deviation) -> list[int]:
        """The flows that a deviation is of: the one that it names, or those of the group and the sender with which it begins."""
        if found.flow is not None or found.flows:
            return [*found.flows] if found.flow is None else [found.flow]
        sent = [flow for flow in self._comparison.flows if found.text.startswith(f"{flow.group} from {flow.sender} ")]
        to_one = [flow.number for flow in sent if found.text.startswith(f"{flow.group} from {flow.sender} to {flow.to}:")]
        return to_one or ([] if found.kind == "no-flow" else [flow.number for flow in sent])

    def _flows(self) -> Iterator[Requirement]:
        """The flows, by their messages."""
        for flow in self._comparison.flows:
            times = self._comparison.sent[flow.group, flow.sender, flow.to][0]
            yield Requirement("flow", flow.number, flow.what, frozenset((flow.sender, flow.to)), times, self._by.get(("flow", flow.number), []))

    def _needs(self) -> Iterator[Requirement]:
        """The needs, by the messages that meet them; one is broken too where each flow that meets it was away for too long."""
        for number, need in enumerate(self._comparison.needs, 1):
            flows = [flow for flow in self._comparison.flows if need.is_met_by(flow)]
            times = sum(self._comparison.sent[flow.group, flow.sender, flow.to][0] for flow in flows)
            away = [[one for one in self._by.get(("flow", flow.number), []) if one.kind in ABSENCES] for flow in flows]
            broken = self._by.get(("need", number), []) + ([one for some in away for one in some] if all(away) else [])
            what = f"{need.what} by {need.unit}" + (f" from {need.sender}" if need.sender else "")
            yield Requirement("need", number, what, frozenset((need.unit,)), times, broken)

    def _requests(self) -> Iterator[Requirement]:
        """The requests, by how often they were asked."""
        for number, request in enumerate(self._comparison.requests, 1):
            yield Requirement("request", number, request.what, frozenset((request.sender, request.to)), self._comparison.asked.times[number - 1], self._by.get(("request", number), []))

    def put(self, given: argparse.Namespace, place: Callable[[Place], str], row: Callable[[Deviation], dict[str, Any]]) -> int:
        """Writes all of them as it is asked for; how many deviations there are."""
        if given.unit is not None and given.unit not in self._comparison.units:
            raise program.Refused(program.UNREADABLE, f"no unit is called {given.unit}")
        if given.junit:
            self.write_junit(given.junit, given.plan, place)
        rows = map(json.dumps, self.objects(row)) if given.json else self.lines(place)
        sys.stdout.writelines(f"{line}\n" for line in rows)
        return self.deviations

    def lines(self, place: Callable[[Place], str]) -> Iterator[str]:
        """All of them as lines, below each how it was broken; then what is of none, and the counts."""
        for one in self.all:
            yield one.text
            yield from (f"  {line}" for found in one.broken for line in lines_of(found, place))
        for found in self.others:
            yield from lines_of(found, place)
        yield ", ".join(f"{what} {count}" for what, count in self._counts().items())

    def objects(self, row: Callable[[Deviation], dict[str, Any]]) -> Iterator[dict[str, Any]]:
        """All of them as JSON has them, and the deviations that are of none."""
        for one in self.all:
            yield {"requirement": one.kind, "number": one.number, "what": one.what, "state": one.state, "times": one.times, "broken": [row(found) for found in one.broken]}
        yield from map(row, self.others)
        yield self._counts()

    def _counts(self) -> dict[str, int]:
        """How many there are, and in which state."""
        states = Counter(one.state for one in self.all)
        return {"requirements": len(self.all), **{state: states[state] for state in (KEPT, BROKEN, UNSEEN)}, "other deviations": len(self.others)}

    def write_junit(self, name: str, plan: str, place: Callable[[Place], str]) -> None:
        """Writes them as tests in JUnit's form: what wasn't seen is skipped; deviations that are of none are a test of their own."""
        states = Counter(one.state for one in self.all)
        suite = ElementTree.Element("testsuite", name=plain(plan), tests=str(len(self.all) + 1), failures=str(states[BROKEN] + bool(self.others)),
                                    skipped=str(states[UNSEEN]))
        for one in self.all:
            case = ElementTree.SubElement(suite, "testcase", classname=one.kind, name=f"{one.number} {one.what}")
            if one.broken:
                add_failure(case, one.text, one.broken, place)
            elif one.state == UNSEEN:
                ElementTree.SubElement(case, "skipped", message=UNSEEN)
        case = ElementTree.SubElement(suite, "testcase", classname="bus", name="other deviations")
        if self.others:
            add_failure(case, f"{len(self.others)} deviations", self.others, place)
        ElementTree.indent(suite)
        ElementTree.ElementTree(suite).write(name, encoding="utf-8", xml_declaration=True)


def add_failure(case: ElementTree.Element, message: str, found: list[Deviation], place: Callable[[Place], str]) -> None:
    """Adds to a test that it failed, with the deviations as lines."""
    failure = ElementTree.SubElement(case, "failure", message=plain(message))
    failure.text = "\n".join(plain(line) for one in found for line in lines_of(one, place))


def requirement_options(words: argparse.ArgumentParser) -> None:
    """The options by which requirements are told."""
    words.add_argument("--requirements", action="store_true", help="each flow, need and request with whether the log keeps it, and how often that was looked at; "
                       "below it how it is broken")
    words.add_argument("--junit", metavar="FILE", help="write the requirements as tests in JUnit's form into a file, too")
    words.add_argument("--unit", metavar="UNIT", help="only the requirements and deviations of one unit")


def wants_requirements(given: argparse.Namespace) -> bool:
    """Whether requirements are asked for."""
    return bool(given.requirements or given.junit or given.unit)


def refuse_of_vehicle(given: argparse.Namespace) -> None:
    """Refuses what is of one bus, where the plan is that of a vehicle."""
    if given.junit or given.unit:
        raise program.Refused(program.UNREADABLE, f"{given.plan} is a vehicle: --junit and --unit are of one bus, so compare its log with its plan")
