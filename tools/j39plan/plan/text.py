"""The text of a plan file, from its tables."""

import re
from collections.abc import Iterable, Iterator
from dataclasses import dataclass, field
from typing import Any

from j39plan.left_out import plain
from j39plan.plan import schema

# The versions of a plan that can be written: factors go to the unit of measurement in the first one, to `per` in the later ones; the last
# one says who needs what.
WRITTEN = schema.VERSIONS[1:]


@dataclass
class Table:
    """A table of a plan: its keys, remarks that stand as a comment behind the first one, the tables in it, and comments behind other keys."""

    header: str
    keys: dict[str, Any]
    remarks: list[str] = field(default_factory=list)
    inside: list["Table"] = field(default_factory=list)
    beside: dict[str, str] = field(default_factory=dict)


def as_label(name: str) -> str:
    """A label like a name: 1 to 32 ASCII letters, digits and `_`."""
    return re.sub(r"[^A-Za-z0-9_]", "_", name)[:32] or "X"


class Labels:
    """Labels of one kind: each name of the file has one, and no two the same."""

    def __init__(self, taken: Iterable[str] = ()) -> None:
        self.taken = set(taken)

    def label(self, name: str) -> str:
        """A label like the name."""
        whole, number = as_label(name), 2
        label = whole
        while label in self.taken:
            label = f"{whole[:31 - len(str(number))]}_{number}"
            number += 1
        self.taken.add(label)
        return label


def spelled(value: Any) -> str:
    """A value as TOML spells it."""
    if isinstance(value, bool):
        return str(value).lower()
    if value == {}:
        return "{}"
    if isinstance(value, dict):
        return "{ " + ", ".join(f"{key} = {spelled(part)}" for key, part in value.items()) + " }"
    if isinstance(value, str):
        return '"' + value.replace("\\", "\\\\").replace('"', '\\"') + '"'
    return str(value)


def lines_of(table: Table) -> Iterator[str]:
    """The lines of a table and of the tables in it. A key that is as it is where it isn't said, or a table without any, needn't be written."""
    yield ""
    yield f"[[{table.header}]]"
    remarks, defaults = table.remarks, schema.keys_of(table.header.rpartition(".")[2])
    for key, value in table.keys.items():
        if value not in (defaults.get(key), {}) or key == "name":
            comment = "; ".join([*remarks, *filter(None, (table.beside.get(key),))])
            yield f"{key} = {spelled(value)}" + (f"  # {comment}" if comment else "")
            remarks = []
    for part in table.inside:
        yield from lines_of(part)


def timing_of(bitrate: int, unplanned: int | None) -> list[str]:
    """The table on the bus itself. Where it isn't known how many frames come unplanned, it is a comment that can be made one."""
    if unplanned is not None:
        return ["", "[timing]", f"bitrate = {bitrate}", f"unplanned = {unplanned}  # a guess: a claim of each unit, and three more"]
    return ["", "# For load and delays: make this a table, with how many frames come unplanned, and give each flow a period.",
            "# [timing]", f"# bitrate = {bitrate}", "# unplanned = 1"]


def text_of(tables: Iterable[Table], source: str, version: int = WRITTEN[-1], bitrate: int | None = None, about: Iterable[str] = (),
            unplanned: int | None = None) -> str:
    """The plan's file, with comments about it in front."""
    lines = [f"# From {plain(source)}: review it.", *(f"# {plain(text)}" for text in about), f"version = {version}"]
    if bitrate and schema.knows(version, (None, "timing")):
        lines += timing_of(bitrate, unplanned)
    for table in tables:
        lines += lines_of(table)
    return "\n".join(lines) + "\n"
