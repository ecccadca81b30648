"""Writes the signals of a log as a table: time, line, sender, receiver, group, signal, state, value, unit of measurement.

The log is one of candump -L. What the frames say, and who sent them, is what `j39plan follow` reports of them.
"""

import argparse
import csv
import io
import json
import re
import sys
import tempfile
from collections import deque
from collections.abc import Iterable, Iterator, Sequence
from functools import lru_cache
from itertools import chain, islice
from typing import Any, Generic, NamedTuple

from j39plan import program
from j39plan.j1939 import GLOBAL_ADDRESS
from j39plan.log.clock import Clock
from j39plan.log.data_frames import WRITERS, data_frame, ending_of
from j39plan.log.files import Log, drive_words, interface_option
from j39plan.log.readings import CODE, Choice, Column, ReadingCache, Made, Reading, ReadingChoice, parted
from j39plan.log.reports import Below, Counts, Who, below_of, lines_of, tables_of, who_of
from j39plan.log.serial_numbers import by_kind, say_numbers
from j39plan.plan.cut import cut
from j39plan.plan.files import opened
from j39plan.plan.tables import Tables

ENDS = ("from", "source", "to", "destination")
HEADS = ("time", "line", *ENDS, "group", "signal", "state", "value", "unit", "detail")

# How many ends of messages, labels and names of logs are kept as they are written.
WRITTEN = 1 << 14

# The lines of so many messages are written at once.
AT_ONCE = 256

# A number as JSON spells it.
NUMBER = re.compile(r"-?(?:0|[1-9]\d*)(?:\.\d+)?")

CODE_KEYS = ("spn", "fmi", "raw", "count")


def address_of(who: Who) -> int | str:
    """The address of somebody: that of all is the global one; of nobody there is none."""
    return who.address if who.address is not None else GLOBAL_ADDRESS if who.shown == "all" else ""


def ends_of(sender: str, to: str) -> tuple[str, int | str, str, int | str]:
    """Who sent something to whom, each with the address."""
    first, second = who_of(sender), who_of(to)
    return first.told, address_of(first), second.told, address_of(second)


@lru_cache(maxsize=WRITTEN)
def end_cells_of(sender: str, to: str) -> str:
    """Who sent something to whom, as cells of a row."""
    return ",".join(map(str, ends_of(sender, to)))


@lru_cache(maxsize=WRITTEN)
def end_members_of(sender: str, to: str) -> str:
    """Who sent something to whom, as members of a JSON object."""
    return json.dumps({key: said for key, said in zip(ENDS, ends_of(sender, to)) if said != ""})[1:-1]


def row_of(cells: Sequence[str]) -> str:
    """Cells as a row of a table, or the end of one."""
    plainly = ",".join(cells)
    if plainly.count(",") == len(cells) - 1 and '"' not in plainly:
        return plainly + "\n"
    text = io.StringIO()
    csv.writer(text, lineterminator="\n").writerow(cells)
    return text.getvalue()


def members_of(reading: Reading) -> str:
    """A reading as members of a JSON object. A key is left out where there is nothing to say; a trouble code is told by its parts."""
    there = {key: text for key, text in reading._asdict().items() if text}
    found = CODE.fullmatch(reading.detail) if reading.state == "dtc" else None
    if found:
        spn, fmi, raw, count, there["detail"] = found.groups()
        parts = {key: int(number) for key, number in zip(CODE_KEYS, (spn, fmi, raw, count)) if number is not None}
        there = {"state": reading.state, **parts, **({"detail": there["detail"]} if there["detail"] else {})}
    return ", ".join(f'"{key}": {text if key == "value" else json.dumps(text)}' for key, text in there.items())


@lru_cache(maxsize=WRITTEN)
def name_members_of(label: str) -> str:
    """The label of a signal as a member of a JSON object; that of a record with its number."""
    name, _, record = label.partition("[")
    return f'"signal": "{name}"' + (f', "record": {record[:-1]}' if record else "")


class TableForm(Generic[Made]):
    """A form of a table: the heads of its columns, if it has any, and what it makes of a reading and of a message. Of several logs each row
    has the name of its own."""

    heads: Sequence[str] = ()

    def __init__(self, log: Log, _: Choice) -> None:
        self._place = log.place if len(log.names) > 1 else None

    def head(self) -> str:
        """The line of the heads."""
        return row_of(["log"] * bool(self._place) + [*self.heads]) if self.heads else ""

    def made(self, column: Column, label: str, reading: Reading) -> Made:
        """What a reading is in a row."""
        raise NotImplementedError

    def ends(self, sender: str, to: str, group: str) -> str:
        """Who sent a message to whom, and its group: labels need no quotes."""
        return f",{end_cells_of(sender, to)},{group}"

    def begin(self, number: str, time: str, ends: str) -> str:
        """What stands in front of the readings of a message."""
        if self._place:
            name, line = self._place(int(number))
            return f"{quoted(name)},{time.strip('()-')},{line}{ends}"
        return f"{time.strip('()-')},{number}{ends}"

    def rows(self, begin: str, group: str, readings: Iterator[Made]) -> str:
        """The rows of a message; none where it has no readings."""
        raise NotImplementedError


class PlainTable(TableForm[str]):
    """A row a signal, with commas between its columns."""

    heads: Sequence[str] = HEADS

    def made(self, column: Column, label: str, reading: Reading) -> str:
        """A reading as the end of a row."""
        return f",{label},{row_of(reading)}"

    def rows(self, begin: str, group: str, readings: Iterator[str]) -> str:
        """The rows of a message."""
        rows = begin.join(readings)
        return begin + rows if rows else ""


class JsonLines(PlainTable):
    """A JSON object a signal, each on a line."""

    heads = ()

    def made(self, column: Column, label: str, reading: Reading) -> str:
        """A reading as the end of an object."""
        return f", {name_members_of(label)}, {members_of(reading)}}}\n"

    def ends(self, sender: str, to: str, group: str) -> str:
        """Who sent a message to whom, and its group."""
        return f'{end_members_of(sender, to)}, "group": "{group}"'

    def begin(self, number: str, time: str, ends: str) -> str:
        """What stands in front of the readings of a message."""
        name, line = self._place(int(number)) if self._place else ("", number)
        time = time.strip("()-")
        log = f'"log": {json.dumps(name)}, ' if name else ""
        at = f'"time": {time if NUMBER.fullmatch(time) else json.dumps(time)}, ' if time else ""
        return f'{{{log}{at}"line": {line}, {ends}'


@lru_cache(maxsize=WRITTEN)
def quoted(text: str) -> str:
    """A cell of a row."""
    row = io.StringIO()
    csv.writer(row, lineterminator="").writerow([text, ""])
    return row.getvalue()[:-1]


class Cells(NamedTuple):
    """The cells of a signal in a row: the place of the signal in its group, how they are spelled, each behind a comma, and, where a signal has
    several records, their texts."""

    place: int
    spelled: str
    texts: list[str] = []


def spelled_cells(texts: Iterable[str]) -> str:
    """Cells, each behind a comma."""
    return "".join([f",{quoted(text)}" for text in texts])


def texts_in_wide(reading: Reading) -> tuple[str, str, str]:
    """What stands in the columns of a signal: its value, the state that it has instead of one, and the name of the value."""
    if reading.state == "value":
        return reading.value, "", reading.detail
    if reading.state in ("text", "dtc"):
        return reading.detail, "", ""
    return "", f"{reading.state} {reading.detail}".rstrip(), ""


def merged(readings: Iterable[Cells]) -> Iterator[Cells]:
    """The readings of a message, where those of several records of a signal stand in one cell."""
    told: dict[int, list[list[str]]] = {}
    for reading in readings:
        told.setdefault(reading.place, []).append(reading.texts)
    for place, several in told.items():
        yield Cells(place, spelled_cells("; ".join(filter(None, texts)) for texts in zip(*several)))


def wide_heads_of(column: Column, choice: Choice) -> list[str]:
    """The heads of the columns of a signal in a row a message."""
    name, unit = ".".join(column), choice.columns[column]
    heads = [name + (f" [{unit}]" if unit else "")]
    if column not in choice.texts:
        heads.append(f"{name} state")
    if column in choice.named:
        heads.append(f"{name} name")
    return heads


class WidePart(NamedTuple):
    """The columns of a group in a row a message: commas for those before them, for each of its signals, and for those behind, which end the row."""

    before: str
    empty: list[str]
    behind: str


class Wide(TableForm[Cells]):
    """A row a message, with two columns for each signal: its value, which is empty where it has none, and the word for what it has instead;
    and a third one for the names of its values, where the plan has some. What isn't a number anyway has one column, a text itself, and a
    code by its parts."""

    def __init__(self, log: Log, choice: Choice) -> None:
        super().__init__(log, choice)
        heads = {column: wide_heads_of(column, choice) for column in choice.columns}
        self.heads = [*HEADS[:7], *chain.from_iterable(heads.values())]
        groups: dict[str, list[int]] = {}
        self._places: dict[Column, tuple[int, int]] = {}  # of a signal its place in its group, and how many columns it has
        for column, own in heads.items():
            counts = groups.setdefault(column[0], [])
            self._places[column] = len(counts), len(own)
            counts.append(len(own))
        self._repeated, self._parts = choice.repeated, dict[str, WidePart]()
        before, behind = 0, len(self.heads) - 7
        for group, counts in groups.items():
            behind -= sum(counts)
            self._parts[group] = WidePart("," * before, ["," * count for count in counts], "," * behind + "\n")
            before += sum(counts)

    def made(self, column: Column, label: str, reading: Reading) -> Cells:
        """A reading as the cells of its signal."""
        place, count = self._places[column]
        texts = [*texts_in_wide(reading)[:count]]
        return Cells(place, spelled_cells(texts), texts if column[0] in self._repeated else [])

    def rows(self, begin: str, group: str, readings: Iterator[Cells]) -> str:
        """The row of a message. Most columns are those of other groups, so that it is mostly commas."""
        told, part = [*(merged(readings) if group in self._repeated else readings)], self._parts[group]
        if not told:
            return ""
        cells = part.empty.copy()
        for place, spelled, _ in told:
            cells[place] = spelled
        return f"{begin}{part.before}{''.join(cells)}{part.behind}"


# What messages of one kind have alike, by their line without number, time and data: their group, how many lines are below those of so many bytes,
# what is made of these, and who sends the messages to whom.
Way = tuple[str, Below, ReadingCache[Made] | None, str]


class SignalTable(Generic[Made]):
    """Makes a table of what `follow` writes of a log."""

    def __init__(self, tables: Tables, wanted: ReadingChoice[Made], form: TableForm[Made], clock: Clock) -> None:
        self._below, self._wanted, self._form, self._clock = below_of(tables), wanted, form, clock
        self._ways: dict[str, Way[Made]] = {}

    def rows(self, lines: Iterator[str], log: Log, counts: Counts) -> Iterator[str]:
        """The rows of each message at once. A clock sees the times of all reports. A log that is none is refused at its end."""
        way_of, goes_on, begin_of, rows_of = self._ways.get, self._clock.goes_on, self._form.begin, self._form.rows
        for line in lines:
            words = line.split(" ", 2)
            head, _, data = words[-1].rpartition(" ")
            way = way_of(head)
            if way is None and not line[0].isdigit():
                counts.take(line)
                continue
            number, time, _ = words
            if not goes_on(time):
                self._clock.see(int(number), time)
            if way is None and (way := self._way(head)) is None:
                continue
            group, below, known, ends = way
            told = islice(lines, below[len(data) - 1])
            if known is None:
                deque(told, 0)
            elif rows := rows_of(begin_of(number, time, ends), group, filter(None, map(known.__getitem__, told))):
                yield rows
        counts.refuse_without_frames(log)

    def _way(self, head: str) -> Way[Made] | None:
        """What the words of a message mean; None of another report."""
        words = head.split()
        if words[:1] != ["group"]:
            return None
        _, group, _, sender, _, to, *_ = words
        if len(self._ways) >= WRITTEN:
            self._ways.clear()
        way = self._ways[head] = (group, self._below[group], self._wanted.known(group), self._form.ends(sender, to, group))
        return way


def put_all(head: str, lines: Iterator[str], is_live: bool) -> None:
    """Writes a table, its heads with the first line, before which a log may be refused; where somebody waits for it each at once."""
    if is_live:
        for text in chain([head], lines):
            sys.stdout.write(text)
            sys.stdout.flush()
    else:
        sys.stdout.writelines(chain([head + next(lines, "")], iter(lambda: "".join(islice(lines, AT_ONCE)), "")))


def words_of(words: list[str] | None) -> argparse.Namespace:
    """The words of the command line."""
    parser = program.parser(__doc__)
    parser.epilog = "example: %(prog)s plan.toml drive.log SPN190 ET1 > signals.csv"
    program.plan_word(parser)
    drive_words(parser, "NAME", "groups, signals, or GROUP.SIGNAL; all, if none is named")
    forms = parser.add_mutually_exclusive_group()
    forms.add_argument("--csv", dest="form", action="store_const", const=PlainTable, help="a row a signal (the default)")
    forms.add_argument("--json", dest="form", action="store_const", const=JsonLines, help="a JSON object a signal, each on a line")
    forms.add_argument("--wide", dest="form", action="store_const", const=Wide, help="a row a message, two columns a signal, three where its values have names")
    forms.add_argument("-o", "--output", metavar="FILE", help="as a file whose name ends in .parquet (a row a signal) or .mf4 (the values alone)")
    interface_option(parser)
    parser.set_defaults(form=PlainTable)
    return parser.parse_intermixed_args(words)


def write_file(given: argparse.Namespace) -> int:
    """Writes the table as a file, by the library that does that, which reads what another process of this tool writes; its exit status."""
    ending = ending_of(given.output)
    if ending not in WRITERS:
        raise program.Refused(program.UNREADABLE, f"-o {given.output}: its name is to end in {' or '.join(WRITERS)}")
    need, write = WRITERS[ending]
    need()
    options = [] if given.interface is None else ["--interface", given.interface]
    with opened(given.plan, given.variant) as plan, tempfile.TemporaryFile() as said, \
            program.started("signals", ["--csv", *options, "--", plan, given.log, *given.names], said, None) as process:
        assert process.stdout is not None
        head = process.stdout.peek(1)  # type: ignore[attr-defined]
        if head:
            write(data_frame(process.stdout), given.output)
        status = process.wait()
        said.seek(0)
        sys.stderr.write(said.read().decode(errors="replace"))
    return status


@program.command
def main(words: list[str] | None = None) -> int:
    """Writes the table."""
    given, counts, clock = words_of(words), Counts(), Clock()
    if given.output:
        return write_file(given)
    with opened(given.plan, given.variant) as plan:
        tables = tables_of(plan)
        names, logs = parted(tables, given.names, given.log)
        choice = Choice(tables, names)
        with Log(logs, given.interface) as log, by_kind(plan, tables, log.still, given.interface) as (known, other, numbers), \
                cut(known, other, choice) as (shorter, parts):
            form: TableForm[Any] = given.form(log, choice)
            table = SignalTable(parts, ReadingChoice(choice, form.made), form, clock)
            put_all(form.head(), table.rows(lines_of(shorter, log, counts), log, counts), log.is_live)
    say_numbers(numbers)
    counts.say(log)
    clock.say(log)
    return 0


if __name__ == "__main__":
    sys.exit(main())
