"""Plays the planned units on a bench but those that are there: they claim their addresses, send their flows, ask, and answer.

The bus is one of python-can. It ends on an interrupt (^C) or after --seconds; then all units say that they hold no address any more. Signals
are 'not available' where no option gives them a value.
"""

import argparse
import json
import sys
from typing import Any

from j39plan import program
from j39plan.bench.options import bus_options, seconds
from j39plan.bench.rest import Rest, Settings
from j39plan.bench.values import Values, Wrong
from j39plan.bench.wire import Wire
from j39plan.log.clock import SECOND, Clock
from j39plan.log.files import Log
from j39plan.log.reports import Counts, Message, follow
from j39plan.plan.files import opened
from j39plan.plan.parts import source_in
from j39plan.plan.schema import most_of
from j39plan.plan.tables import Tables
from j39plan.progress import Progress

# What a period may be, in ms.
PERIODS = range(1, most_of("flow", "period") + 1)


def period(text: str) -> int:
    """A period in ms."""
    if not text.isdecimal() or int(text) not in PERIODS:
        raise argparse.ArgumentTypeError(f"{text} is no period of 1 to {PERIODS[-1]} ms")
    return int(text)


def words_of(words: list[str] | None) -> argparse.Namespace:
    """The words of the command line."""
    parser = program.parser(__doc__)
    parser.epilog = "example: %(prog)s plan.toml --interface socketcan --channel can0"
    program.plan_word(parser)
    parser.add_argument("--without", metavar="UNIT", action="append", default=[], help="a unit that isn't played, as it is on the bench itself; may be given several times")
    bus_options(parser, True)
    parser.add_argument("--seconds", type=seconds, metavar="N", help="how long (until ^C)")
    parser.add_argument("--log", metavar="FILE", help="write what is sent and heard as a log of candump -L")
    parser.add_argument("--value", metavar="SIGNAL=V", action="append", default=[], help="a signal, as EEC1.SPN190, has this value, a number or its name")
    parser.add_argument("--ramp", metavar="SIGNAL=A:B:S", action="append", default=[], help="a signal goes from A to B in S seconds, again and again")
    parser.add_argument("--table", metavar="FILE", help="a CSV file: seconds in the first column, and a column for each signal")
    parser.add_argument("--replay", metavar="LOG", help="messages have the bytes that they have in this log at the time since its begin")
    parser.add_argument("--period", type=period, metavar="MS", help="flows without a period are sent each so many ms (not at all)")
    parser.add_argument("--serial", type=int, default=1, metavar="N", help="the identity number of the first unit that has none in the plan (1)")
    parser.add_argument("--json", action="store_true", help="what was done as one JSON object")
    return parser.parse_args(words)


def give_values(given: argparse.Namespace, plan: str, tables: Tables) -> Values:
    """What the messages carry."""
    values = Values(tables)
    try:
        for text in given.value:
            values.constant(text)
        for text in given.ramp:
            values.ramp(text)
        if given.table:
            with open(given.table, encoding="utf-8", newline="") as file:
                values.table(file)
    except Wrong as why:
        raise program.Refused(program.UNREADABLE, str(why)) from None
    if given.replay:
        recorded(given.replay, plan, tables, values)
    return values


def recorded(name: str, plan: str, tables: Tables, values: Values) -> None:
    """Takes the messages of a log, by who sent them."""
    counts, clock, begin = Counts(), Clock(), None
    with Log([name]) as log:
        for report in follow(plan, log, tables, counts):
            at = clock.see(report.line, report.time)
            begin = at if begin is None else begin
            if isinstance(report, Message) and report.sender.label and at is not None and begin is not None:
                values.record((report.group, report.sender.label), (at + clock.shift - begin) / SECOND, bytes.fromhex(report.data))
        counts.refuse_without_frames(log)


def played(given: argparse.Namespace, rest: Rest, wire: Wire) -> None:
    """Plays the units until the end, and gives their addresses back."""
    progress, begin = Progress(), wire.now
    rest.begin(begin)
    while not wire.is_ended and (given.seconds is None or wire.now - begin < given.seconds):
        turn(rest, wire)
        progress.say(f"{wire.now - begin:.0f} s: {wire.sent} frames sent, {wire.heard} heard")
    progress.clear()
    rest.ends()
    while not rest.transport.is_idle:
        turn(rest, wire)
    rest.stop()
    while rest.agenda.due is not None:
        turn(rest, wire)


def turn(rest: Rest, wire: Wire) -> None:
    """Hears what comes until something is due, and does that."""
    frame = wire.receive(rest.agenda.due)
    if frame:
        rest.heard(wire.now, *frame)
    rest.agenda.wake(wire.now)


def lines_of(rows: dict[str, Any]) -> list[str]:
    """What was done, as text."""
    lines = [f"flow {row['flow']} {row['group']} from {row['from']} to {row['to']} sent {row['sent']}"
             + (f" not sent {row['not_sent']}" if row["not_sent"] else "") for row in rows["flows"]]
    long = rows["long"]
    lines.append(f"requests answered {rows['answered']} refused {rows['refused']}; addresses defended {rows['defended']} moved {rows['moved']}")
    lines.append(f"long messages sent {long['sent']} received {long['received']} given up {long['given_up']}")
    return lines + [f"frames sent {rows['frames_sent']} heard {rows['frames_heard']} lost {rows['frames_lost']}"]


def refuse_unless_there(labels: list[str], tables: Tables) -> None:
    """Refuses labels that the plan doesn't have."""
    for label in labels:
        if label not in {unit.label for unit in tables.units}:
            raise program.Refused(program.UNREADABLE, f"--without {label}: no unit is called {label}")


@program.command
def main(words: list[str] | None = None) -> int:
    """Plays the units; 0, or 1 where the bus didn't take all frames."""
    given = words_of(words)
    with opened(given.plan, given.variant) as plan:
        tables = Tables.of(plan)
        refuse_unless_there(given.without, tables)
        values, kept = give_values(given, plan, tables), source_in(plan).kept
    settings = Settings(frozenset(given.without), given.serial, given.period)
    with Wire(given.interface, given.channel, given.bitrate, given.log) as wire:
        rest = Rest(tables, kept, settings, values, wire.put)
        rows = rest.rows()["units"]
        played(given, rest, wire)
        counts = {"frames_sent": wire.sent, "frames_heard": wire.heard, "frames_lost": wire.lost}
    told = {**rest.rows(), "units": rows, **counts}
    if given.json:
        print(json.dumps(told))
    else:
        print("\n".join(lines_of(told)))
    if wire.lost:
        program.say(f"the bus didn't take {wire.lost} frames: is another node on it, and is its bit rate the same?")
    return 1 if wire.lost else 0


if __name__ == "__main__":
    sys.exit(main())
