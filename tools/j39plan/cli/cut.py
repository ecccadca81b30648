"""Writes a part of a log: of some time, around a line, of some units or groups; or a log by the clock of another logger, or both as one.

The lines stay as they are. Units are told by their claims: each line of `follow --all` is kept that is from or to one of them. Long messages
are kept with their announcements, packets and answers.
"""

import argparse
import contextlib
import json
import sys
from collections.abc import Iterable, Iterator

from j39plan import program
from j39plan.log.clock import SECOND, nanoseconds
from j39plan.log.cutting.clocks import Shift, in_ms, lines_of, shift_of, shifted
from j39plan.log.cutting.merging import MergedLogs
from j39plan.log.cutting.selection import Chosen, Selection, TimeSpan, around
from j39plan.log.files import Log, interface_option
from j39plan.log.reports import Counts
from j39plan.log.to_plan.draft import NOTHING, all_of
from j39plan.plan.cut import bare
from j39plan.plan.files import opened
from j39plan.plan.tables import Tables
from j39plan.progress import Progress

# The progress is told each so many lines.
LINES = 1 << 14


def time_of(text: str) -> tuple[int, bool]:
    """A time in nanoseconds, and whether it counts from the log's begin: `1764230400.5`, or `+12.5`."""
    is_relative = text.startswith("+")
    at = nanoseconds(f"({text.removeprefix('+')})")
    if at is None:
        raise argparse.ArgumentTypeError(f"{text} is no time in s, as 1764230400.5, or +12.5 from the log's begin on")
    return at, is_relative


def seconds_of(text: str) -> float:
    """A duration in seconds."""
    at = nanoseconds(f"({text})")
    if at is None:
        raise argparse.ArgumentTypeError(f"{text} is no number of seconds")
    return at / SECOND


def words_of(words: list[str] | None) -> argparse.Namespace:
    """The words of the command line."""
    parser = program.parser(__doc__)
    parser.epilog = "example: %(prog)s --unit 0 --around 1289 drive.log > part.log"
    parser.add_argument("logs", metavar="LOG", nargs="+", help="names of files as candump -L writes them, in the order of the drive")
    parser.add_argument("--begin", type=time_of, metavar="TIME", help="from this time on, in s, as 1764230400.5, or +12.5 from the log's begin on")
    parser.add_argument("--end", type=time_of, metavar="TIME", help="up to this time")
    parser.add_argument("--around", type=int, metavar="LINE", help="around this line, as that of a deviation")
    parser.add_argument("--seconds", type=seconds_of, default=1.0, metavar="N", help="so long before and behind that line (1)")
    parser.add_argument("--plan", metavar="PLAN", help="the plan that has the labels of units and groups")
    parser.add_argument("--unit", action="append", default=[], metavar="UNIT", help="what this unit sends and gets: a label, a NAME of 16 hex digits, or an address")
    parser.add_argument("--group", action="append", default=[], metavar="GROUP", help="this group, by its label or PGN")
    parser.add_argument("--clock", metavar="LOG", help="with the times of the clock by which this log was recorded, on the same bus")
    program.variant_option(parser)
    parser.add_argument("--merge", action="store_true", help="with --clock: both logs as one, in the order of times; a frame that both have stands there once")
    parser.add_argument("--json", action="store_true", help="how many lines were kept, and the clocks, as one JSON object on standard error")
    interface_option(parser)
    return parser.parse_args(words)


def window_of(given: argparse.Namespace) -> TimeSpan:
    """The time that is asked for."""
    if given.around is not None:
        with Log(given.logs) as log:
            line = next((line for number, line in enumerate(lines_of(log), 1) if number == given.around), b"")
        at = nanoseconds((line.split() or [b""])[0].decode("ascii", "replace"))
        if at is None:
            raise program.Refused(program.UNREADABLE, f"--around {given.around}: the log has no such line with a time")
        return around(at, given.seconds)
    ends = [end for end in (given.begin, given.end) if end]
    if len({is_relative for _, is_relative in ends}) > 1:
        raise program.Refused(program.UNREADABLE, "--begin and --end: both count from the log's begin, or none")
    begin, end = (None if end is None else end[0] for end in (given.begin, given.end))
    return TimeSpan(begin, end, any(is_relative for _, is_relative in ends))


@contextlib.contextmanager
def plan_of(name: str | None, variant: list[str] | None) -> Iterator[tuple[str, Tables]]:
    """The name of the plan by which the log is followed, without its signals, and its tables: of none one that has nothing."""
    if name is None:
        with program.file_of(NOTHING) as plan:
            yield plan, Tables.of(plan)
    else:
        with opened(name, variant) as plan, bare(plan, Tables.of(plan)) as shorter:
            yield shorter


def chosen_of(given: argparse.Namespace, tables: Tables) -> Chosen:
    """The units and groups that are asked for. A label that the plan doesn't have is refused."""
    units, groups = {unit.label for unit in tables.units}, {group.label for group in tables.groups}
    for name in given.unit:
        if name not in units and not name.isdecimal() and not is_name(name):
            raise program.Refused(program.UNREADABLE, f"--unit {name}: {unknown(given, 'unit')}; it may be an address or a NAME too")
    for name in given.group:
        if name not in groups and not name.isdecimal():
            raise program.Refused(program.UNREADABLE, f"--group {name}: {unknown(given, 'group')}; it may be a PGN too")
    return Chosen(frozenset(name.upper() if is_name(name) else name for name in given.unit), frozenset(given.group))


def unknown(given: argparse.Namespace, what: str) -> str:
    """Why a label is of no unit or group."""
    return f"no {what} is called so" if given.plan else "labels are those of a plan, which --plan names"


def is_name(text: str) -> bool:
    """Whether a text is a NAME as 16 hex digits."""
    return len(text) == 16 and all(digit in "0123456789abcdefABCDEF" for digit in text)


def selected(given: argparse.Namespace, log: Log, window: TimeSpan) -> Iterator[bytes]:
    """The lines of units and groups that are asked for."""
    with plan_of(given.plan, given.variant) as (plan, tables):
        selection, counts = Selection(tables, chosen_of(given, tables)), Counts()
        yield from selection.kept(all_of(plan, log, counts, selection.pieces), window)
        counts.refuse_without_frames(log)


def in_time(log: Log, window: TimeSpan) -> Iterator[bytes]:
    """The lines of a time."""
    for line in lines_of(log):
        if window.has(nanoseconds((line.split(maxsplit=1) or [b""])[0].decode("ascii", "replace"))):
            yield line


def is_part(given: argparse.Namespace) -> bool:
    """Whether a part of a log is asked for."""
    return bool(given.unit or given.group or given.begin or given.end) or given.around is not None or given.interface is not None


def shift_by(given: argparse.Namespace) -> Shift | None:
    """How the times are to be shifted, if they are."""
    if given.merge and (given.clock is None or is_part(given)):
        raise program.Refused(program.UNREADABLE, "--merge: it takes --clock, and whole logs; cut what it writes")
    if given.clock is None:
        return None
    with Log([given.clock]) as first, Log(given.logs) as second:
        shift = shift_of(first, second)
    if shift is None:
        raise program.Refused(program.UNREADABLE, f"--clock {given.clock}: the logs have too few frames in common that come only once")
    return shift


def say(given: argparse.Namespace, count: int, shift: Shift | None, both: int) -> None:
    """Says how many lines were kept, how many of these both logs have where they are merged, and what was found of the clocks."""
    if given.json:
        clocks = {} if shift is None else {"later": shift.begin.later / SECOND, "later_at_end": shift.end.later / SECOND, "frames": shift.frames,
                                           "spread": shift.spread / SECOND}
        print(json.dumps({"lines": count, **clocks, **({"both": both} if given.merge else {})}), file=sys.stderr)
        return
    if shift:
        program.say(f"the clock is {in_ms(shift.begin.later)} later at the begin and {in_ms(shift.end.later)} at the end, by {shift.frames} frames; "
                    f"they are {in_ms(shift.spread)} apart at most")
    program.say(f"{count} lines" + (f", of which both logs have {both}" if given.merge else ""))


def written(lines: Iterable[bytes], shift: Shift | None) -> int:
    """Writes the lines; how many."""
    count, progress, out = 0, Progress(), sys.stdout.buffer
    for count, line in enumerate(lines, 1):
        line = line if line.endswith(b"\n") else line + b"\n"
        out.write(shifted(line, shift) if shift else line)
        if count % LINES == 0:
            progress.say(f"{count} lines")
    progress.clear()
    return count


def merged(given: argparse.Namespace, shift: Shift) -> tuple[int, int]:
    """Writes both logs as one; how many lines, and how many of these both have."""
    merging = MergedLogs(shift.spread)
    with Log([given.clock]) as first, Log(given.logs) as second:
        count = written(merging.lines(lines_of(first), (shifted(line, shift) for line in lines_of(second))), None)
    return count, merging.both


def cut_out(given: argparse.Namespace, shift: Shift | None) -> int:
    """Writes what is asked for of a log; how many lines."""
    window = window_of(given)
    with Log(given.logs, given.interface) as log:
        is_chosen = given.unit or given.group or given.interface is not None
        return written(selected(given, log, window) if is_chosen else in_time(log, window), shift)


@program.command
def main(words: list[str] | None = None) -> int:
    """Writes the lines; 0, or 2 where nothing can be made of what is asked."""
    given = words_of(words)
    shift, both = shift_by(given), 0
    if given.merge and shift:
        count, both = merged(given, shift)
    else:
        count = cut_out(given, shift)
    say(given, count, shift, both)
    return 0


if __name__ == "__main__":
    sys.exit(main())
