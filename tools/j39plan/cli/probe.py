"""Says whether a box on a bench is the unit that a plan has: it plays the bus around it, and brings it into each situation that plan and standard have.

The bus is one of python-can, with the box alone on it. It sends frames that no unit sends on a vehicle: see --list first. A verdict is given only where
plan and standard leave no other reading; what a unit may do either way is a note.
"""

import argparse
import json
import os
import sys
from collections.abc import Iterator
from contextlib import ExitStack

from j39plan import program
from j39plan.bench.options import bus_options, seconds
from j39plan.bench.values import Values, Wrong
from j39plan.plan.files import opened
from j39plan.plan.parts import Source, source_in
from j39plan.probe import report
from j39plan.probe.begin import heard_before, refuse_others
from j39plan.probe.bus import Bus
from j39plan.probe.memory import Memory, box_of
from j39plan.probe.planned import Planned
from j39plan.probe.run import FAILED, Run
from j39plan.probe.steps import ERASES, STEPS, WORDS, Step
from j39plan.probe.tester import Tester

# How long flows are heard at most, in seconds, and how wrong stamps may be, in ms, unless something else is said.
SECONDS, JITTER = 60.0, 5.0


def group_of(text: str) -> int:
    """The number of a group, decimal or hexadecimal."""
    try:
        number = int(text, 0)
    except ValueError:
        number = -1
    if not 0 <= number < 1 << 18 or number >> 8 & 0xFF < 240 and number & 0xFF:
        raise argparse.ArgumentTypeError(f"{text} is no number of a group")
    return number


def jitter(text: str) -> float:
    """How wrong stamps may be, in ms."""
    try:
        number = float(text)
    except ValueError:
        number = -1.0
    if not 0 <= number <= 100:
        raise argparse.ArgumentTypeError(f"{text} is no time of 0 to 100 ms")
    return number


def words_of(words: list[str] | None) -> argparse.Namespace:
    """The words of the command line."""
    parser = program.parser(__doc__)
    parser.epilog = "example: %(prog)s plan.toml ENGINE --list"
    program.plan_word(parser)
    parser.add_argument("unit", metavar="UNIT", help="the unit of the plan that the box is to be")
    parser.add_argument("--list", action="store_true", help="the steps of this unit, each with its time, plan, standard, and what it sends; nothing is sent")
    parser.add_argument("--rehearse", action="store_true", help="in memory and at once: the box is one that keeps to the plan")
    bus_options(parser, False)
    parser.add_argument("--only", metavar="WORD", nargs="+", choices=WORDS, help="only these steps")
    parser.add_argument("--without", metavar="WORD", nargs="+", choices=WORDS, default=[], help="not these steps")
    parser.add_argument("--with", metavar="WORD", dest="more", nargs="+", choices=[*(step.word for step in STEPS if step.is_off), ERASES], default=[],
                        help=f"these too, which may change the box: {', '.join(step.word for step in STEPS if step.is_off)}; {ERASES}: requests of DM3 and DM11 at the end")
    parser.add_argument("--power", metavar="COMMAND", help="is run with the word on or off, and switches the box (a person is asked, where there is a terminal)")
    parser.add_argument("--short", metavar="COMMAND", help="is run with the word short, and shorts the wires for a second (as --power)")
    parser.add_argument("--filler", metavar="CHANNEL", help="a second channel of the interface, on the same wires, that fills the bus")
    parser.add_argument("--unknown", metavar="PGN", type=group_of, help="a group that the box hasn't (60672)")
    parser.add_argument("--value", metavar="SIGNAL=V", action="append", default=[], help="a signal of the others, as EEC1.SPN190, has this value, not 'not available'")
    parser.add_argument("--seconds", type=seconds, default=SECONDS, metavar="N", help=f"how long flows are heard at most ({SECONDS:.0f})")
    parser.add_argument("--jitter", type=jitter, default=JITTER, metavar="MS", help=f"how wrong stamps may be ({JITTER:.0f}; adapters on USB need 10)")
    parser.add_argument("--anyway", action="store_true", help="also where others are on the bus, or the plan has findings")
    parser.add_argument("--log", metavar="FILE", help="write what is sent and heard as a log of candump -L")
    parser.add_argument("--junit", metavar="FILE", help="write the steps as tests in JUnit's form")
    parser.add_argument("--html", metavar="FILE", help="write a page: times beside limits, frames around what failed")
    parser.add_argument("--json", action="store_true", help="as one JSON object")
    given = parser.parse_args(words)
    if not (given.list or given.rehearse) and None in (given.interface, given.channel):
        parser.error("--interface and --channel name the bus; --list and --rehearse need none")
    if given.rehearse and given.log:
        parser.error("--log is of a bus, --rehearse has none")
    return given


def steps_of(given: argparse.Namespace, planned: Planned) -> list[Step]:
    """The steps that are asked for, of those that the unit has."""
    wished = given.only or [step.word for step in STEPS if not step.is_off or step.word in given.more]
    return [step for step in STEPS if step.word in wished and step.word not in given.without and step.applies(planned)]


def values_of(given: argparse.Namespace, planned: Planned) -> Values:
    """What the messages of the others carry."""
    values = Values(planned.tables)
    try:
        for text in given.value:
            values.constant(text)
    except Wrong as why:
        raise program.Refused(program.UNREADABLE, str(why)) from None
    return values


def refuse_findings(given: argparse.Namespace, planned: Planned) -> None:
    """Refuses a plan with findings, unless it is taken anyway: who is right isn't known then."""
    status, answer = program.call(["check", "--", planned.file])
    if status != 0 and not given.anyway:
        raise program.Refused(1, f"{given.plan}: the plan has findings, as {answer.splitlines()[0]} (--anyway)")


def try_files(given: argparse.Namespace) -> None:
    """Sees to it that the files can be written, before the box is tested; one that isn't there yet isn't then either."""
    for name in (given.junit, given.html):
        if name:
            was_there = os.path.exists(name)
            with open(name, "a", encoding="utf-8"):
                pass
            if not was_there:
                os.remove(name)


def bus_of(given: argparse.Namespace, planned: Planned, stack: ExitStack) -> Bus:
    """The bus, with the box on it."""
    if given.rehearse:
        memory = Memory(box_of(planned.tables, planned.source.kept, planned.unit.label), planned.bitrate)
        memory.power(True)
        return memory
    from j39plan.bench.wire import Wire
    from j39plan.probe.wired import Filler, Wired, switches
    wire = stack.enter_context(Wire(given.interface, given.channel, given.bitrate, given.log, True))
    filler = Filler(given.interface, given.filler, given.bitrate) if given.filler else None
    if filler:
        stack.callback(filler.close)
    return Wired(wire, given.bitrate or planned.bitrate, *switches(given.power, given.short), filler)


def tested(given: argparse.Namespace, planned: Planned, bench: Tester) -> Run:
    """Tests the box; each step is told as soon as it is done."""
    if not given.rehearse:
        refuse_others(given.anyway, bench, heard_before(bench))
    run = Run(bench, steps_of(given, planned), given.more)
    for result in run.goes():
        if not given.json:
            for line in report.lines_of(result):
                print(line, flush=True)
    return run


def put(given: argparse.Namespace, planned: Planned, bench: Tester, run: Run) -> None:
    """Writes what was found."""
    if given.junit:
        report.write_junit(given.junit, planned, run)
    if given.html:
        with open(given.html, "w", encoding="utf-8") as file:
            file.write(report.page_of(planned, run, bench.frames, program.call(["--version"])[1].strip()))
    for line in [json.dumps(report.object_of(planned, run))] if given.json else report.summary(run):
        print(line)


def lines(given: argparse.Namespace, planned: Planned) -> Iterator[str]:
    """The steps, without a bus."""
    return report.listed(planned, steps_of(given, planned), given.seconds)


@program.command
def main(words: list[str] | None = None) -> int:
    """Tests a box; 0 where no step failed, 1 where one did or the test ended early."""
    given = words_of(words)
    with opened(given.plan, given.variant) as file, ExitStack() as stack:
        planned = Planned(file, Source(source_in(file).text, os.fspath(given.plan)), given.unit)
        unknown, values = planned.unknown(given.unknown), values_of(given, planned)
        if given.list:
            sys.stdout.writelines(f"{line}\n" for line in lines(given, planned))
            return 0
        refuse_findings(given, planned)
        try_files(given)
        bench = Tester(planned, bus_of(given, planned, stack), values, given.jitter / 1000, given.seconds, unknown)
        run = tested(given, planned, bench)
        put(given, planned, bench, run)
    return 1 if run.ended or any(result.verdict == FAILED for result in run.results) else 0


if __name__ == "__main__":
    sys.exit(main())
