"""Compares many logs with a plan, at once: deviations, silences, loads, NAMEs, signals and trouble codes, in one table of the fleet.

Each log is a task for a processor of this machine, or for a worker of a Dask cluster. A log that can't be read is named, and the others
are done. Of a vehicle each bus has its tables.
"""

import argparse
import contextlib
import functools
import json
import os
import re
import shutil
import sys
from collections.abc import Iterable, Iterator
from typing import Any, NamedTuple

from j39plan import program
from j39plan.fleet.drives import Drive, answered
from j39plan.fleet.table import Fleet
from j39plan.fleet.team import Task, team
from j39plan.log import expected
from j39plan.log.files import interface_option
from j39plan.plan.files import opened
from j39plan.plan.tables import Tables
from j39plan.vehicle.drives import bus_option, drives_of, named_on, refuse_buses, refuse_variant, vehicle_in
from j39plan.vehicle.files import Vehicle

# How wide the bar of progress is.
WIDTH = 40

SCHEDULER = re.compile(r"(?:\w+://)?\S+:\d+")


def processes_of(text: str) -> int:
    """A number of processes."""
    if not re.fullmatch(r"[1-9]\d{0,3}", text):
        raise argparse.ArgumentTypeError(f"{text} is no number of processes")
    return int(text)


def scheduler_of(text: str) -> str:
    """The address of a scheduler."""
    if not SCHEDULER.fullmatch(text):
        raise argparse.ArgumentTypeError(f"{text} is no address of a scheduler, as tcp://192.0.2.1:8786")
    return text


def different(names: list[str]) -> list[str]:
    """The logs, each once; of the same twice it is said."""
    found: dict[object, str] = {}
    for name in names:
        try:
            known = os.stat(name)
            key: object = (known.st_dev, known.st_ino)
        except OSError:
            key = os.path.abspath(name)
        other = found.setdefault(key, name)
        if other is not name:
            program.say(f"{name}: the same log as {other}, so it is read once")
    return list(found.values())


def largest_first(logs: list[str]) -> list[str]:
    """The logs by their sizes, so that none that takes long is begun when the others are done."""
    return sorted(logs, key=lambda log: -os.path.getsize(log) if os.path.isfile(log) else 0)


def show_progress(drive: Drive, number: int, count: int) -> None:
    """Names a log that failed, and draws a bar of how many are done, on a terminal alone."""
    clear_progress()
    if drive["failed"]:
        program.say(f"{drive['log']}: {drive['failed']}")
    if sys.stderr.isatty():
        done = WIDTH * number // count
        bar = f"[{'#' * done}{'-' * (WIDTH - done)}] {number}/{count} {drive['log']}"
        print(bar[:os.get_terminal_size(sys.stderr.fileno()).columns - 1], end="", file=sys.stderr, flush=True)


def clear_progress() -> None:
    """Clears the line of the bar, on a terminal alone."""
    if sys.stderr.isatty():
        print("\r\033[K", end="", file=sys.stderr, flush=True)


def gathered(drives: Iterable[Drive], count: int) -> tuple[dict[str, Drive], bool]:
    """The tables of logs by their names, and whether all are there: an interrupt keeps those that are done, if there is one. A log is kept before
    it is shown as done."""
    found: dict[str, Drive] = {}
    try:
        for number, drive in enumerate(drives, 1):
            found[drive["log"]] = drive
            show_progress(drive, number, count)
        clear_progress()
    except KeyboardInterrupt:
        if not found:
            raise
        return found, False
    return found, True


def plan_of(name: str, options: list[str], variant: list[str] | None) -> tuple[str, str]:
    """The text of a plan by which `against` can read logs, with these options, and what `show` answers of it; of another one it says why."""
    with opened(name, variant) as plan:
        shown = program.shown(plan)
        status, answer, said = answered([*options, "--", plan, os.devnull])
        if not answer:
            raise program.Refused(status, said.strip().rpartition("\n")[2].partition(": ")[2])
        with open(plan, "rb") as file:
            return file.read().decode(errors="replace"), shown


def words_of(words: list[str] | None) -> argparse.Namespace:
    """The words of the command line."""
    parser = program.parser(__doc__)
    parser.epilog = "example: %(prog)s plan.toml drives/*.log"
    parser.add_argument("plan", metavar="PLAN", type=program.input_name, help="the name of a plan file, or of a vehicle file")
    parser.add_argument("logs", metavar="LOG", nargs="+", type=program.input_name, help="the name of a file as candump -L writes it, - for standard input; BUS=LOG of a bus "
                        "of a vehicle")
    parser.add_argument("--jitter", metavar="TIME", help="by how much messages may come nearer than their flow's period, as of against")
    parser.add_argument("--silence", metavar="N", help="after how many periods a flow is silent, as of against")
    expected.expected_options(parser, ", as of against")
    program.variant_option(parser)
    interface_option(parser)
    bus_option(parser)
    parser.add_argument("--json", action="store_true", help="as a JSON object with an array for each table")
    who = parser.add_mutually_exclusive_group()
    who.add_argument("--processes", metavar="N", type=processes_of, help="how many logs are read at once (as many as there are processors)")
    who.add_argument("--scheduler", metavar="ADDRESS", type=scheduler_of, help="the scheduler of a Dask cluster, whose workers read the logs "
                     "by the same names")
    return parser.parse_args(words)


@contextlib.contextmanager
def input_copied(logs: list[str]) -> Iterator[str]:
    """The name of a copy of standard input, which processes can't read themselves, as long as it is needed; empty where no log is that."""
    if program.INPUT not in logs:
        yield ""
        return
    with program.temporary(functools.partial(shutil.copyfileobj, sys.stdin.buffer), ".log") as copy:
        yield copy


class FleetTables(NamedTuple):
    """The tables of logs; of how many of how many there are tables, whether no interrupt came before the end, and the exit status."""

    fleet: Fleet
    done: int
    logs: int
    is_whole: bool
    status: int


def compared(given: argparse.Namespace) -> FleetTables:
    """The logs of a plan, as they were compared with it."""
    options = [word for key in ("jitter", "silence", "interface") for value in [getattr(given, key)] if value is not None for word in (f"--{key}", value)]
    options += expected.words_of(given)
    plan, logs = plan_of(given.plan, options, given.variant), different(given.logs)
    with input_copied(logs) as copy:
        tasks: list[Task] = [(*plan, log, copy if log == program.INPUT else os.path.abspath(log), options) for log in largest_first(logs)]
        found, is_whole = gathered(team(given.processes, given.scheduler)(tasks), len(tasks))
    status = max((drive["status"] for drive in found.values() if drive["failed"]), default=int(any(drive["deviations"] for drive in found.values())))
    return FleetTables(Fleet(Tables.shown(plan[1]), [found[log] for log in logs if log in found]), len(found), len(logs), is_whole, status)


def end_if_interrupted(whole: FleetTables) -> None:
    """Ends as an interrupt ends a tool, if one came."""
    if not whole.is_whole:
        program.say(f"interrupted: {whole.done} of {whole.logs} logs are done, and in the table")
        sys.stdout.flush()
        program.interrupted()


def of_vehicle(given: argparse.Namespace, vehicle: Vehicle) -> int:
    """Writes the tables of each bus of a vehicle, and answers the worst status."""
    worst, buses = 0, dict[str, Any]()
    for drive in drives_of(vehicle, given.logs, given.bus):
        words = {**vars(given), "plan": drive.plan, "logs": drive.logs, "interface": drive.interface or given.interface,
                 "events": named_on(vehicle, drive.bus, given.events, "flow"), "spare": named_on(vehicle, drive.bus, given.spare, "unit")}
        whole = compared(argparse.Namespace(**words))
        worst = max(worst, whole.status)
        if given.json:
            buses[drive.bus] = whole.fleet.tables_of()
        else:
            print(f"bus {drive.bus}")
            put(whole.fleet, False)
        end_if_interrupted(whole)
    if given.json:
        json.dump({"vehicle": given.plan, "buses": buses}, sys.stdout, indent=1)
        print()
    return worst


@program.command
def main(words: list[str] | None = None) -> int:
    """Writes the table; 0 where no log has a deviation, 1 where one has, and the status of a log that failed where one did."""
    given = words_of(words)
    vehicle = vehicle_in(given.plan)
    if vehicle is not None:
        refuse_variant(given.plan, given.variant)
        return of_vehicle(given, vehicle)
    refuse_buses(given.plan, given.bus)
    whole = compared(given)
    put(whole.fleet, given.json)
    end_if_interrupted(whole)
    return whole.status


def put(fleet: Fleet, is_json: bool) -> None:
    """Writes the tables."""
    if is_json:
        json.dump(fleet.tables_of(), sys.stdout, indent=1)
        print()
        return
    for line in fleet.lines():
        print(line)


if __name__ == "__main__":
    sys.exit(main())
