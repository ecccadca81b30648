"""Draws signals of a log over time, below one another, as a PNG or SVG file; with --addresses also who held which address when.

What the frames say, and who sent them, is what `j39plan follow` reports of them. Where a signal is absent or faulty its line has a gap and a mark.
"""

import argparse
import importlib.util
import os
import sys
from collections import defaultdict
from collections.abc import Iterable

from j39plan import program
from j39plan.log.clock import counted, ends_of
from j39plan.log.curves import Curve, Timeline, curves_of
from j39plan.log.files import Log, drive_words, interface_option
from j39plan.log.readings import Choice, Column, ReadingChoice, parted
from j39plan.log.reports import Counts, follow, tables_of
from j39plan.log.serial_numbers import by_kind, say_numbers
from j39plan.plan.cut import cut
from j39plan.plan.files import opened
from j39plan.plan.measures import measure_of
from j39plan.plan.tables import Tables

ENDINGS = (".png", ".svg")

# The most pictures below one another.
MOST = 24


def drawn(log: Log, plan: str, tables: Tables, choice: Choice) -> tuple[dict[Column, list[Curve]], Timeline]:
    """The curves of each chosen signal, those of each sender apart, and what tells who held which address."""
    counts, timeline = Counts(), Timeline(tables.units)
    wanted = ReadingChoice(choice, lambda _, label, reading: (label, reading))
    curves = curves_of(timeline.passed(follow(plan, log, tables, counts)), wanted, timeline.clock)
    counts.refuse_without_frames(log)
    counts.say(log)
    timeline.clock.say(log)
    by_signal = defaultdict(list)
    for curve in curves:
        by_signal[curve.group, curve.signal].append(curve)
    return by_signal, timeline


def names_of(tables: Tables, column: Column) -> dict[float, str]:
    """The names of a signal's values, in the unit that is shown."""
    group = next(group for group in tables.groups if group.label == column[0])
    signal = next(signal for signal in group.signals if signal.label == column[1])
    return {float(value / measure_of(signal.unit).parts): name for value, name in signal.named_values().items()}


def in_order(columns: dict[Column, str], names: list[str]) -> dict[Column, str]:
    """The chosen signals in the order in which they were named."""
    ranks = {name: rank for rank, name in reversed(list(enumerate(names)))}
    return dict(sorted(columns.items(), key=lambda chosen: min(
        ranks.get(name, len(names)) for name in (*chosen[0], ".".join(chosen[0])))))


def curved(tables: Tables, columns: dict[Column, str]) -> dict[Column, str]:
    """The chosen signals of which there are curves; others are said."""
    whys = {(group.label, text.label): "is a text" for group in tables.groups for text in group.texts}
    whys.update({(group.label, signal.label): "is repeated" for group in tables.groups for signal in group.signals if signal.repeated})
    for column in columns:
        if column in whys:
            program.say(f"{'.'.join(column)} {whys[column]}, and isn't drawn")
    return {column: unit for column, unit in columns.items() if column not in whys}


def refuse_unless_possible(names: Iterable[str], addresses: bool, output: str) -> None:
    """Refuses what can't be drawn, and where what draws isn't there."""
    if not output.endswith(ENDINGS):
        raise program.Refused(program.UNREADABLE, f"{output}: the file's name ends in {' or '.join(ENDINGS)}")
    if not names and not addresses:
        raise program.Refused(program.UNREADABLE, "nothing to draw: name a signal, or --addresses")
    if importlib.util.find_spec("matplotlib") is None:
        raise program.Refused(program.MISSING, "matplotlib isn't there: apt-get install python3-matplotlib")


def words_of(words: list[str] | None) -> argparse.Namespace:
    """The words of the command line."""
    parser = program.parser(__doc__)
    parser.epilog = "example: %(prog)s plan.toml drive.log SPN190 SPN110 -o drive.png"
    program.plan_word(parser)
    drive_words(parser, "SIGNAL", "signals, GROUP.SIGNAL, or groups with all their signals")
    parser.add_argument("-o", "--output", metavar="FILE", required=True,
                        help="the name of the picture, which ends in .png or .svg")
    interface_option(parser)
    parser.add_argument("--addresses", action="store_true", help="draw who held which address when, too")
    parser.add_argument("--from", dest="begin", metavar="TIME", type=float, help="the picture's begin, in seconds as the axis counts them")
    parser.add_argument("--to", dest="end", metavar="TIME", type=float, help="the picture's end")
    return parser.parse_intermixed_args(words)


@program.command
def main(words: list[str] | None = None) -> int:
    """Draws the picture."""
    given = words_of(words)
    refuse_unless_possible(given.names, given.addresses, given.output)
    with opened(given.plan, given.variant) as plan:
        tables = tables_of(plan)
        names, logs = parted(tables, given.names, given.log)
        choice = Choice(tables, names, nothing=not names)
        choice.columns = curved(tables, choice.columns)
        if len(choice.columns) > MOST:
            raise program.Refused(program.UNREADABLE, f"{len(choice.columns)} signals are chosen, and {MOST} can be drawn")
        if not choice.columns and not given.addresses:
            raise program.Refused(program.UNREADABLE, "nothing to draw")
        with Log(logs, given.interface) as log, by_kind(plan, tables, log.still, given.interface) as (known, other, numbers), \
                cut(known, other, choice) as shorter:
            curves, timeline = drawn(log, *shorter, choice)
            first, last = ends_of(log)
    say_numbers(numbers)
    from j39plan.log import chart

    columns, title = in_order(choice.columns, names), ", ".join(map(os.path.basename, logs))
    held = timeline.held() if given.addresses else None
    begin, end = timeline.span(first, last)
    zero = begin if timeline.clock.has_times else 0.0
    window = chart.Window(begin if given.begin is None else zero + given.begin, end if given.end is None else zero + given.end, zero)
    if window.begin >= window.end and (given.begin is not None or given.end is not None):
        raise program.Refused(program.UNREADABLE, "nothing to draw: --from is not before --to, or the log has nothing there")
    axis = counted(first if timeline.clock.has_times else None)
    signals = {column: chart.SignalPlot(unit, curves.get(column, []), names_of(tables, column)) for column, unit in columns.items()}
    chart.save(chart.figure_of(signals, held, title, axis, window), given.output)
    for group, signal in choice.columns:
        if (group, signal) not in curves:
            program.say(f"{group}.{signal} isn't in the log")
    return 0


if __name__ == "__main__":
    sys.exit(main())
