"""A plan from the tables that `table` writes: each key as the table has it. What else stands there, as bounds and lines of the file, is answers."""

from __future__ import annotations

import re
from collections.abc import Callable, Iterator
from fractions import Fraction
from math import lcm
from typing import Any, NamedTuple

from j39plan.left_out import LeftOut, Notes, plain
from j39plan.plan import schema
from j39plan.plan.sheets import FIELDS, NAMES
from j39plan.plan.text import Table, lines_of, spelled
from j39plan.sheet import cells
from j39plan.sheet.files import SheetRow

# The columns by which a table is one of a plan's.
HEADS = {"units": {"unit", "address", "NAME"}, "groups": {"group", "pgn", "pgn hex"}, "signals": {"signal", "byte", "bits", "kind"},
         "flows": {"flow", "from", "to"}, "needs": {"need", "unit", "group"}, "requests": {"request", "from", "to"}, "plan": {"key", "value"}}

WHEN = re.compile(r"(\d+)\.(\d+), (\d+) bits = (\d+)")


class TableRow(NamedTuple):
    """A row of a table, by the heads of its columns."""

    row: SheetRow
    cells: dict[str, str]

    def word(self, head: str) -> str:
        """What stands in a column, on one line; empty where nothing does."""
        return plain(self.cells.get(head, ""))


class OwnPlan(LeftOut):
    """What is read is no matrix, but the tables of a plan."""

    def __init__(self, tables: dict[str, list[TableRow]]) -> None:
        super().__init__("it has the tables of a whole plan")
        self.tables = tables


def tables_in(rows: list[SheetRow]) -> dict[str, list[TableRow]]:
    """The rows of the tables of a plan, by the tables' names; none where a sheet is none of these."""
    found: dict[str, list[TableRow]] = {}
    name, heads, sheet = "", list[str](), ""
    for row in rows:
        there = [cell for cell in row.cells if cell]
        named = next((table for table in NAMES if HEADS[table] <= {*row.cells}), "")
        if row.sheet != sheet or len(there) == 1 and there[0] in NAMES:
            name, heads, sheet = "", [], row.sheet
        if not heads and named:
            name, heads = named, row.cells
            found.setdefault(name, [])
        elif heads:
            found[name].append(TableRow(row, {head: cell for head, cell in zip(heads, row.cells) if head}))
        elif not (len(there) == 1 and there[0] in NAMES):
            return {}
    return found


def is_own(tables: dict[str, list[TableRow]]) -> bool:
    """Whether tables make a plan: there are units or groups among them."""
    return "units" in tables or "groups" in tables


class Reader:
    """Reads the tables of a plan; a cell that can't be read is said with its place, and left out."""

    def __init__(self, tables: dict[str, list[TableRow]], notes: Notes) -> None:
        self._tables, self._notes = tables, notes
        self.counts: dict[str, int] = {}
        self.version = schema.VERSIONS[-1]

    def text(self, source: str) -> str:
        """The plan's file."""
        top, signals = self.top(), self.signals()
        read = [*self.units(), *self.groups(signals), *self.flows(), *self.ways("need"), *self.ways("request")]
        self.counts = {table: sum(one.header == table for one in read) for table in ("unit", "group", "flow", "need")}
        about = [f"# From {plain(source)}: review it.", *(f"# {plain(text)}" for text in self._notes.left_out)]
        return "\n".join([*about, *top, *(line for table in read for line in lines_of(table))]) + "\n"

    def top(self) -> list[str]:
        """The lines of the plan's own keys, and of those of the bus."""
        said: dict[str, dict[str, Any]] = {"": {"version": schema.VERSIONS[-1]}, "timing": {}, "timing errors": {}}
        for line in self.rows("plan", "key", "value"):
            table, _, key = line.word("key").rpartition(" ")
            value = self.read(line, "value", value_of)
            if key not in schema.keys_of(table.rpartition(" ")[2] if table in said else ""):
                self.say(line, "key", f"{line.word('key')} is no key of a plan")
            elif isinstance(value, list) and key != "keep_free":
                self.say(line, "value", "only keep_free has several numbers")
            elif value is not None:
                said[table][key] = [value] if key == "keep_free" and not isinstance(value, list) else value
        self.version = int(said[""]["version"])
        lines = [f"{key} = {spelled_any(value)}" for key, value in said[""].items()]
        if said["timing"]:
            lines += ["", "[timing]", *(f"{key} = {spelled_any(value)}" for key, value in said["timing"].items())]
            lines += [f"errors = {spelled(said['timing errors'])}"] if said["timing errors"] else []
        return lines

    def rows(self, table: str, *needed: str) -> Iterator[TableRow]:
        """The rows of a table that have what no row may be without."""
        for line in self._tables.get(table, []):
            missing = [head for head in needed if not line.word(head)]
            if missing:
                self.say(line, missing[0], "nothing stands here")
            else:
                yield line

    def say(self, line: TableRow, head: str, why: object) -> None:
        """Says what of a row is left out."""
        what = f"{line.row.at}, column {head}"
        self._notes.say(what, why)
        self._notes.left_out.append(f"left out: {what}: {why}")

    def read(self, line: TableRow, head: str, how: Callable[[str], Any]) -> Any:
        """What a cell says; None where it is empty or can't be read."""
        text = line.cells.get(head, "")
        if not text:
            return None
        try:
            return how(text)
        except LeftOut as why:
            self.say(line, head, why)
            return None

    def number(self, line: TableRow, head: str) -> Any:
        """A whole number of at least 0."""
        return self.read(line, head, lambda text: cells.whole(text, 1 << 40))

    def keys(self, line: TableRow, **heads: str) -> dict[str, Any]:
        """The keys of a table that have numbers in these columns."""
        return {key: value for key, head in heads.items() if (value := self.number(line, head)) is not None}

    def remarks(self, line: TableRow) -> list[str]:
        """The comment of a row."""
        return [line.word("comment")] if line.word("comment") else []

    def units(self) -> Iterator[Table]:
        """The units."""
        for line in self.rows("units", "unit", "address"):
            name = self.keys(line, **{key: key for key in FIELDS})
            fields: dict[str, Any] = {key: value for key, value in name.items() if value or key == "identity"}
            fields |= {"arbitrary": True} if line.word("arbitrary") == "yes" else {}
            words = {key: line.word(key) for key in ("queue", "chooser") if line.word(key)}
            keys = {"label": line.word("unit"), **self.keys(line, address="address", window="window"), **words, "claims": line.word("claims") != "no",
                    "name": fields}
            yield Table("unit", keys, self.remarks(line))

    def groups(self, signals: dict[str, list[Table]]) -> Iterator[Table]:
        """The groups with their signals and texts."""
        for line in self.rows("groups", "group", "pgn"):
            told = self.keys(line, pgn="pgn", priority="priority", length="length", most="most", every="every")
            if told.get("most") == told.get("length"):
                told.pop("most", None)
            when = self.read(line, "when", when_of)
            keys = {"label": line.word("group"), **told, "private": line.word("private") == "yes", "when": when or {}}
            yield Table("group", keys, self.remarks(line), signals.get(line.word("group"), []))

    def signals(self) -> dict[str, list[Table]]:
        """The signals and texts by the labels of their groups."""
        found: dict[str, list[Table]] = {}
        for line in self.rows("signals", "group", "signal", "byte", "kind"):
            if line.word("kind") == "text":
                bits = self.number(line, "bits")
                table = Table("group.text", {"label": line.word("signal"), **self.keys(line, byte="byte"), **({"bytes": bits // 8} if bits else {})})
            else:
                table = Table("group.signal", self.signal(line))
            table.remarks = self.remarks(line)
            found.setdefault(line.word("group"), []).append(table)
        return found

    def signal(self, line: TableRow) -> dict[str, Any]:
        """The keys of a signal."""
        factor, offset = (self.read(line, head, cells.number) for head in ("factor", "offset"))
        step, per, first, fraction = scaled(Fraction(1) if factor is None else factor, offset or Fraction(0), self.version)
        flags = {key: line.word(key) == "yes" for key in ("repeated", "optional")}
        values = self.read(line, "names", names_of)
        return {"label": line.word("signal"), **self.keys(line, byte="byte", bit="bit", bits="bits"), "kind": line.word("kind"), "step": step, "per": per,
                "offset": first, "unit": f"{fraction} {line.word('unit')}".strip(), **flags, **self.keys(line, spn="spn"), "values": values or {}}

    def flows(self) -> Iterator[Table]:
        """The flows."""
        for line in self.rows("flows", "group", "from", "to"):
            ends = {key: line.word(key) for key in ("group", "from", "to")}
            times = self.keys(line, period="period ms", deadline="deadline ms", jitter="jitter ms", pause="pause ms")
            yield Table("flow", {**ends, **times, "on_request": line.word("on request") == "yes"}, self.remarks(line))

    def ways(self, kind: str) -> Iterator[Table]:
        """The needs, or the requests."""
        words, times = (("unit", "group", "signal", "from"), {"within": "within ms"}) if kind == "need" else (("group", "from", "to"), {"period": "period ms"})
        for line in self.rows(f"{kind}s", *words[:2]):
            yield Table(kind, {**{key: line.word(key) for key in words if line.word(key)}, **self.keys(line, **times)}, self.remarks(line))


def spelled_any(value: Any) -> str:
    """A value as TOML spells it, an array of numbers too."""
    return "[" + ", ".join(map(str, value)) + "]" if isinstance(value, list) else spelled(value)


def value_of(text: str) -> bool | int | list[int]:
    """The value of a key of the top or of its tables: a truth value, a number, or several."""
    if text in ("yes", "no"):
        return text == "yes"
    numbers = [cells.whole(word, 1 << 32) for word in text.split()]
    return numbers if len(numbers) > 1 else numbers[0]


def when_of(text: str) -> dict[str, int]:
    """The bits by which a group is told, as `1.1, 4 bits = 2`."""
    found = WHEN.fullmatch(text)
    if not found:
        raise LeftOut(f"{plain(text)!r} isn't written as 1.1, 4 bits = 2")
    return dict(zip(("byte", "bit", "bits", "value"), map(int, found.groups())))


def names_of(text: str) -> dict[int, str]:
    """The names of raw numbers, as `0 off, 1 on`."""
    pairs = [part.split(" ") for part in text.split(", ")]
    if not all(len(pair) == 2 and pair[0].isdecimal() for pair in pairs):
        raise LeftOut(f"{plain(text)!r} has no names of numbers as 0 off, 1 on")
    return {int(raw): name for raw, name in pairs}


def scaled(factor: Fraction, offset: Fraction, version: int) -> tuple[int, int, int, str]:
    """Step, divisor, offset, and the fraction of the unit in which the values count where a divisor of this version can't say it."""
    parts = lcm(factor.denominator, offset.denominator)
    is_per = parts == 1 or parts <= schema.most_of("signal", "per") and schema.knows(version, ("signal", "per"))
    return int(factor * parts), parts if is_per else 1, int(offset * parts), "" if is_per else f"1/{parts}"
