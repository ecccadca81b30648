"""Says where a log isn't as a plan has it: senders, NAMEs and addresses, groups, flows and their times, needs and requests.

The log is one of candump -L, or several of one drive. Who sent what, and which flow it was, is what `j39plan follow` reports. Each deviation
is told once, at its first or its worst line, with how often it was met; services of the network, and proprietary groups that aren't planned,
are none. Of a vehicle each bus is compared, by a log of its own or by its interface of a log of several.
"""

import argparse
import json
import math
import sys
from collections.abc import Iterator
from itertools import chain
from typing import Any

from j39plan import program
from j39plan.log.checks.comparison import Comparison, Settings
from j39plan.log.checks.deviations import Deviation, Found, Place, place_text, row_of, spelled_event
from j39plan.log.checks.deviations import lines_of as lines_of_deviation
from j39plan.log.checks.distances import SILENCE, Distances, Rule, Tolerance
from j39plan.log.checks.feed import Feed
from j39plan.log.checks.meter import Meter
from j39plan.log.checks.premises import FOLLOWED, Audit, Telling, kind_of
from j39plan.log.checks.reader import Reader
from j39plan.log.checks.requirements import Requirements, refuse_of_vehicle, requirement_options, wants_requirements
from j39plan.log.checks.summary import requests_of, summary_tables, units_of
from j39plan.log.checks.unplanned import bounds_of
from j39plan.log.checks.watch import watched
from j39plan.log.clock import SECOND, ends_of, nanoseconds
from j39plan.log.expected import expected_options, pass_over_absent, refuse_unknown
from j39plan.log.files import Log, interface_option
from j39plan.log.reports import Counts, lines_of, tables_of
from j39plan.log.serial_numbers import by_kind
from j39plan.log.variants import opened_by
from j39plan.plan.cut import bare
from j39plan.plan.tables import Tables
from j39plan.vehicle.drives import bus_option, drives_of, named_on, refuse_buses, refuse_variant, vehicle_in
from j39plan.vehicle.files import Vehicle


def periods_of(text: str) -> int:
    """How many periods."""
    if not text.isdecimal():
        raise argparse.ArgumentTypeError(f"{text} is no number of periods")
    return int(text)


def words_of(words: list[str] | None) -> argparse.Namespace:
    """The words of the command line."""
    parser = program.parser(__doc__)
    parser.epilog = "example: %(prog)s --jitter 10%% plan.toml drive.log"
    parser.add_argument("--jitter", metavar="TIME", type=Tolerance.of, default=Tolerance(0, 0, ""),
                        help="by how much messages may come nearer than their flow's period, beside the plan's jitter, and further apart than its pause: in "
                        "ms, as 2.5, or a share of these, as 10%% (0)")
    parser.add_argument("--silence", metavar="N", type=periods_of, default=SILENCE,
                        help=f"after how many periods without a message a flow without a pause is silent; 0: such silences aren't reported ({SILENCE})")
    expected_options(parser)
    parser.add_argument("--part", action="store_true", help="the log lacks frames of the bus: a filter took them out, or the logger lost some")
    parser.add_argument("--ask", action="store_true", help="below a deviation what to ask the supplier of the unit, where that is known")
    parser.add_argument("--table", action="store_true", help="tables first: how often each flow was sent, and how far apart; when each unit was heard; "
                        "requests that the plan doesn't have")
    parser.add_argument("--all", action="store_true", help="all lines of each deviation below it")
    parser.add_argument("--live", action="store_true", help="each deviation as soon as it is met, with --all each time; at the end those that "
                        "only the whole log shows")
    parser.add_argument("--json", action="store_true", help="as JSON objects, each on a line; the last one is of the whole log")
    requirement_options(parser)
    program.variant_option(parser, "; log: the only one that the log can be of, by who claims or sends in it")
    interface_option(parser)
    bus_option(parser)
    parser.add_argument("plan", metavar="PLAN", type=program.input_name, help="the name of a plan file, or of a vehicle file")
    parser.add_argument("logs", metavar="LOG", nargs="+", type=program.input_name, help="names of files as candump -L writes them, in the order of the drive, - for standard "
                        "input; BUS=LOG of a bus of a vehicle")
    return parser.parse_args(words)


def events_of(names: list[str], tables: Tables) -> frozenset[int]:
    """The numbers of the flows that are sent when something happens."""
    found: set[int] = set()
    for name in names:
        numbers = {number for number, flow in enumerate(tables.flows, 1) if name in (str(number), flow.group)}
        if not numbers:
            raise program.Refused(program.UNREADABLE, f"no flow has the number or the group {name}")
        found |= numbers
    return frozenset(found)


class Output:
    """What is written: lines, or JSON objects."""

    def __init__(self, given: argparse.Namespace, log: Log) -> None:
        self._plan, self._log, self._is_json, self._asks = given.plan, log, given.json, given.ask
        self._written: set[str] = set()

    def live(self, found: Deviation, place: Place) -> None:
        """Writes a deviation as it is met."""
        if place.line is None:
            return
        self._written.add(found.text)
        if self._is_json:
            one = Deviation(found.kind, found.text, found.flow, found.unit, place, found.detail)
            row = {key: value for key, value in row_of(one, self._log.place).items() if key != "times"}
            print(json.dumps(row, ensure_ascii=False), flush=True)
        else:
            print(f"{self._place(place)} {spelled_event(found, place)}", flush=True)

    def whole(self, found: Found, summary: dict[str, Any]) -> int:
        """Writes all of them that aren't written yet; how many there are."""
        all_found = list(found.all())
        for one in all_found:
            if one.text not in self._written:
                for line in self._lines(one):
                    print(line)
        summary = {"deviations": len(all_found), **summary}
        print(json.dumps(summary) if self._is_json else f"deviations {len(all_found)}")
        return len(all_found)

    def _lines(self, found: Deviation) -> Iterator[str]:
        """The lines of a deviation."""
        if self._is_json:
            yield json.dumps(row_of(found, self._log.place), ensure_ascii=False)
        else:
            yield from lines_of_deviation(found, self._place)
            if self._asks and found.ask:
                yield f"  ask the supplier: {found.ask}"

    def _place(self, place: Place) -> str:
        """A place, as it stands before a text."""
        return place_text(place, self._plan, self._log.place)


def say_what_is_left(given: argparse.Namespace, distances: Distances) -> None:
    """Says on standard error which times weren't looked at, and why."""
    if distances.without_time:
        program.say("the log has no times by which the periods of flows could be compared")
    if given.jitter.spelled and distances.passed_over:
        flows = ", ".join(map(str, distances.passed_over))
        program.say(f"--jitter {given.jitter.spelled} is no less than the period of flow {flows}: how near messages come isn't reported there")
    if distances.explained and given.table:
        flows = ", ".join(map(str, sorted(distances.explained)))
        count = sum(distances.explained.values())
        program.say(f"{count} distances are passed over, since a message may wait so long on the bus by 'load': of flow {flows}")


def summary_of(log: Log, meter: Meter, comparison: Comparison, is_whole: bool) -> dict[str, Any]:
    """What the whole log has, for JSON: when it begins and ends, and how long it is, in seconds, the bits of its frames, how many distances were passed
    over, when each unit was heard, and the requests that the plan doesn't have; on request the distances of each flow."""
    begin, end = ends_of(log)
    duration = None if begin is None or end is None else max(end - begin + comparison.clock.shift, 0)
    meter.end()
    first, last, seconds = (None if time is None else time / SECOND for time in (begin, end, duration))
    row = {"begin": first, "end": last, "duration": seconds, "mean": meter.mean(duration), "worst": meter.worst or None, "worst_second": meter.worst_second,
           "explained": sum(comparison.distances.explained.values()), "units": units_of(comparison, log.place),
           "requests": requests_of(comparison, log.place), "flows": list(comparison.distances.measured()) if is_whole else None}
    return {key: value for key, value in row.items() if value is not None}


def compare_all(reader: Reader, _: Comparison, lines: Iterator[str]) -> None:
    """Compares what `follow` writes of a log."""
    reader.take(lines)


def compare_live(reader: Reader, comparison: Comparison, lines: Iterator[str]) -> None:
    """Compares what `follow` writes of a log that is still to come, as the clock goes by."""
    with watched(comparison) as watch:
        for line in lines:
            watch.came()
            with watch.lock:
                reader.take(chain((line,), lines), 1)


def compared(given: argparse.Namespace) -> int:
    """Writes the deviations of a log from a plan; how many there are."""
    counts = Counts()
    with opened_by(given.plan, given.variant, given.logs, given.interface) as plan, Log(given.logs, given.interface) as log, by_kind(plan, tables_of(plan), log.still, given.interface) as (known, tables, others):
        refuse_unknown(given.spare, tables)
        output, meter = Output(given, log), Meter() if given.json else None
        found = Found(given.all, output.live if given.live else None)
        settings = Settings(given.jitter, Rule(given.silence, events_of(given.events, tables), given.table), others)
        feed, comparison = Feed(tables.timing, meter), Comparison(tables, bounds_of(known, tables), settings, found)
        is_coming = given.live and log.is_live
        compare = compare_live if is_coming else compare_all
        if given.live:
            comparison.watches()
        with bare(known, tables) as (shorter, parts), Audit(shorter, given.part) as audit:
            comparison.is_unjudged = bool(audit.findings) or is_coming  # audit answers at the end of a log alone
            lines = lines_of(shorter, log, counts, lambda part: audit.pieces(feed.pieces(part)), given.live)
            compare(Reader(comparison, feed, parts, counts), comparison, lines)
            audit.end()
        for noted in feed.unheard(math.inf):
            comparison.unheard(noted)
    if feed.twice.first:
        text = "a frame stands twice in the log, nearer than its bits take on the bus: the second one is passed over"
        found.tell("twice", text, *feed.twice.first, times=feed.twice.count)
    counts.bad -= comparison.damage.frames + comparison.odd
    counts.refuse_without_frames(log)
    counts.refuse_a_guess(log)
    counts.say(log, feed.unread)
    comparison.clock.say(log)
    say_what_is_left(given, comparison.distances)
    comparison.ends(nanoseconds(feed.last_time), counts.frames > 0)
    pass_over_absent(given.spare, tables, found)
    if audit.findings:
        program.say(f"the plan has findings, as {audit.findings}: until they are mended audit judges nobody, and what follow says is told")
    accused = [line for line in audit.lines if not (is_coming and kind_of(line) in FOLLOWED)]
    Telling(tables, log, comparison.of_premises, found).tell(accused, comparison.hands.addresses())
    if given.table and not given.json:
        for row in summary_tables(comparison, log.place):
            print(row)
    if wants_requirements(given):
        requirements = Requirements(comparison, found.all(), given.unit)
        return requirements.put(given, lambda place: place_text(place, given.plan, log.place), lambda one: row_of(one, log.place))
    return output.whole(found, summary_of(log, meter, comparison, given.table) if meter else {})


def of_vehicle(given: argparse.Namespace, vehicle: Vehicle) -> int:
    """Writes the deviations of the buses of which there is a log, each with its plan; how many there are."""
    count = 0
    for drive in drives_of(vehicle, given.logs, given.bus):
        words = {**vars(given), "plan": drive.plan, "logs": drive.logs, "interface": drive.interface or given.interface,
                 "events": named_on(vehicle, drive.bus, given.events, "flow"), "spare": named_on(vehicle, drive.bus, given.spare, "unit")}
        print(json.dumps({"bus": drive.bus, "plan": drive.plan}) if given.json else f"bus {drive.bus}", flush=True)
        count += compared(argparse.Namespace(**words))
    print(json.dumps({"vehicle": given.plan, "deviations": count}) if given.json else f"deviations {count}")
    return count


@program.command
def main(words: list[str] | None = None) -> int:
    """Writes the deviations; 0 where there is none, 1 where there is one."""
    given = words_of(words)
    vehicle = vehicle_in(given.plan)
    if vehicle is not None:
        refuse_of_vehicle(given)
        refuse_variant(given.plan, given.variant)
        return 1 if of_vehicle(given, vehicle) else 0
    refuse_buses(given.plan, given.bus)
    return 1 if compared(given) else 0


if __name__ == "__main__":
    sys.exit(main())
