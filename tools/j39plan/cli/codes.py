"""Says when the trouble codes of a log came and went: of each its unit, SPN and FMI, lamps, occurrence count, and who cleared it.

The log is one of candump -L. Codes are those of the signals of kind dtc, as in DM1 and DM2; several logs are one drive, or with --fleet one each.
"""

import argparse
import csv
import datetime
import importlib.util
import json
import os
import sys
from collections.abc import Iterable, Iterator
from typing import Any, NamedTuple

from j39plan import program
from j39plan.log.clock import CALENDAR, SECOND, Clock, counted, ends_of
from j39plan.log.codes import CLEARS, Codes, Episode, Moment, groups_of
from j39plan.log.files import Log, interface_option
from j39plan.log.readings import Choice
from j39plan.log.reports import Counts, Report, follow, tables_of
from j39plan.log.serial_numbers import by_kind, say_numbers
from j39plan.plan.cut import cut
from j39plan.plan.files import opened
from j39plan.plan.tables import Tables
from j39plan.progress import Progress
from j39plan.text_tables import aligned

ENDINGS = (".png", ".svg")

# After so many reports it is said how far they are.
SAID = 1 << 12

HEADS = ("log", "line", "unit", "state", "spn", "fmi", "raw", "name", "came", "went", "end", "first_count", "last_count", "lamps", "cleared_by", "cleared_with",
         "cleared_line")


class DriveCodes(NamedTuple):
    """The codes of a drive, its name, its logs, and its first and last time."""

    name: str
    log: Log
    episodes: list[Episode]
    first: int | None
    last: int | None


def shown(reports: Iterable[Report], progress: Progress) -> Iterator[Report]:
    """The reports of a log, of which it is said now and then how far they are."""
    for number, report in enumerate(reports, 1):
        if number % SAID == 0:
            progress.say(f"{report.line} lines are read")
        yield report


def drive_of(plan: str, tables: Tables, names: list[str], interface: str | None, progress: Progress) -> DriveCodes:
    """The codes of a drive of several logs."""
    choice, counts, clock = Choice(tables, [group.label for group in groups_of(tables)]), Counts(), Clock()
    with Log(names, interface) as log, by_kind(plan, tables, log.still, interface) as (known, other, numbers):
        if tables.requests:  # by them refusals are told
            reports = shown(follow(known, log, other, counts), progress)
            episodes = Codes(other).episodes(reports, clock, lambda: ends_of(log)[1])
        else:
            with cut(known, other, choice) as (shorter, parts):
                reports = shown(follow(shorter, log, parts, counts), progress)
                episodes = Codes(parts).episodes(reports, clock, lambda: ends_of(log)[1])
        first, last = ends_of(log)
    say_numbers(numbers)
    counts.refuse_without_frames(log)
    counts.say(log)
    clock.say(log)
    return DriveCodes(os.path.basename(names[0]), log, episodes, first, last)


def spelled(moment: Moment) -> str:
    """A moment in words: the time of day in UTC, else seconds; in a log without times its line."""
    if moment.time is None:
        return f"line {moment.line}"
    seconds, rest = divmod(moment.time, SECOND)
    if seconds < CALENDAR:
        return f"{seconds}.{rest // 10**6:03}"
    return f"{datetime.datetime.fromtimestamp(seconds, datetime.timezone.utc):%Y-%m-%d %H:%M:%S}.{rest // 10**6:03}"


def end_in_words(episode: Episode, log: Log) -> str:
    """How a code ended."""
    if episode.cleared:
        name, line = log.place(episode.cleared.at.line)
        return f"cleared by {episode.cleared.by} ({CLEARS[episode.cleared.pgn][0]}, {os.path.basename(name)}:{line})"
    return {"gone": "gone", "silent": f"{episode.group} stops", "open": "till the end"}[episode.end]


def text_of(drive: DriveCodes) -> Iterator[str]:
    """The codes as a table."""
    rows = ((drive.log.place(one.came.line)[1], one.unit, one.code, one.state, spelled(one.came), spelled(one.went),
             "..".join(map(str, dict.fromkeys(one.counts))), " ".join(sorted(one.lamps)) or "-", end_in_words(one, drive.log)) for one in drive.episodes)
    yield from aligned(("line", "unit", "code", "state", "from", "to", "count", "lamps", "end"), rows)
    yield f"codes {len(drive.episodes)}"


def object_of(drive: DriveCodes, episode: Episode) -> dict[str, Any]:
    """A code as JSON has it: times in seconds, without what there isn't."""
    spn, fmi, raw = episode.key
    name, line = drive.log.place(episode.came.line)
    cleared = episode.cleared
    found = {"log": name, "line": line, "unit": episode.unit, "state": episode.state, "spn": spn, "fmi": fmi, "raw": raw, "name": episode.name or None,
             "came": seconds(episode.came), "went": seconds(episode.went), "end": episode.end, "first_count": episode.counts[0],
             "last_count": episode.counts[1], "lamps": sorted(episode.lamps), "cleared_by": cleared.by if cleared else None,
             "cleared_with": CLEARS[cleared.pgn][0] if cleared else None, "cleared_line": drive.log.place(cleared.at.line)[1] if cleared else None}
    return {key: value for key, value in found.items() if value is not None}


def seconds(moment: Moment) -> float | None:
    """A time in seconds."""
    return None if moment.time is None else moment.time / SECOND


def put_csv(drives: Iterable[DriveCodes]) -> None:
    """The codes of drives as rows."""
    rows = csv.DictWriter(sys.stdout, HEADS, lineterminator="\n")
    rows.writeheader()
    for drive in drives:
        for episode in drive.episodes:
            rows.writerow({**object_of(drive, episode), "lamps": " ".join(sorted(episode.lamps))})


def fleet_lines(drives: list[DriveCodes]) -> Iterator[str]:
    """Which codes came in how many vehicles, the commonest first."""
    found: dict[tuple[str, str, str], dict[str, int]] = {}
    for drive in drives:
        for one in drive.episodes:
            times = found.setdefault((one.unit, one.code, one.state), {})
            times[drive.name] = times.get(drive.name, 0) + 1
    order = sorted(found.items(), key=lambda item: (-len(item[1]), item[0]))
    yield from aligned(("unit", "code", "state", "vehicles", "times", "in"), (
        (*what, f"{len(times)} of {len(drives)}", sum(times.values()), ", ".join(f"{name} {count}" for name, count in times.items())) for what, times in order))
    yield f"codes {len(found)} vehicles {len(drives)}"


def words_of(words: list[str] | None) -> argparse.Namespace:
    """The words of the command line."""
    parser = program.parser(__doc__)
    parser.epilog = "example: %(prog)s plan.toml drive.log -o codes.png"
    program.plan_word(parser)
    parser.add_argument("logs", metavar="LOG", nargs="+", help="the names of files as candump -L writes them")
    forms = parser.add_mutually_exclusive_group()
    forms.add_argument("--csv", action="store_true", help="a row a code")
    forms.add_argument("--json", action="store_true", help="a JSON object a code, each on a line")
    parser.add_argument("--fleet", action="store_true", help="each log is of a vehicle of its own: which code came in how many")
    parser.add_argument("-o", "--output", metavar="FILE", help="draw the codes as bars over time, too: the name of the picture, which ends in .png or .svg")
    interface_option(parser)
    return parser.parse_args(words)


def refuse_unless_possible(given: argparse.Namespace, tables: Tables) -> None:
    """Refuses a plan without codes, and what can't be drawn."""
    if not groups_of(tables):
        raise program.Refused(program.UNREADABLE, f"{given.plan} has no trouble codes: no signal of kind dtc")
    if given.output and (given.fleet or not given.output.endswith(ENDINGS)):
        raise program.Refused(program.UNREADABLE, "a picture is one of a drive" if given.fleet else f"{given.output}: the file's name ends in .png or .svg")
    if given.output and importlib.util.find_spec("matplotlib") is None:
        raise program.Refused(program.MISSING, "matplotlib isn't there: apt-get install python3-matplotlib")


def draw(drive: DriveCodes, output: str) -> None:
    """Draws the codes of a drive."""
    from j39plan.log import code_chart

    title = ", ".join(map(os.path.basename, drive.log.names))
    code_chart.save(code_chart.figure_of(drive.episodes, drive.first, drive.last, title, counted(drive.first)), output)


@program.command
def main(words: list[str] | None = None) -> int:
    """Writes the codes."""
    given, progress = words_of(words), Progress()
    with opened(given.plan, given.variant) as plan:
        tables = tables_of(plan)
        refuse_unless_possible(given, tables)
        drives = []
        for number, names in enumerate([[name] for name in given.logs] if given.fleet else [given.logs]):
            if number:
                progress.say(f"{number} of {len(given.logs)} logs are read")
            drives.append(drive_of(plan, tables, names, given.interface, progress))
        progress.clear()
    if given.csv:
        put_csv(drives)
    elif given.json:
        sys.stdout.writelines(json.dumps(object_of(drive, episode)) + "\n" for drive in drives for episode in drive.episodes)
    else:
        sys.stdout.writelines(f"{line}\n" for line in (fleet_lines(drives) if given.fleet else text_of(drives[0])))
    if given.output:
        draw(drives[0], given.output)
    return 0


if __name__ == "__main__":
    sys.exit(main())
