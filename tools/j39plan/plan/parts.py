"""The parts of a plan as its file says them: each table with its keys, what they are where they aren't said, their lines and comments.

Which keys there are, and their defaults, says `plan.schema.json`; so a key that a later version of the format has is carried like any other.
"""

from __future__ import annotations

import json
import re
from functools import cached_property

from j39plan.plan.schema import Value, keys_of, schema
from j39plan.plan.tables import Tables
from j39plan.plan.toml_places import Place, Places, table_of

# A comment at the end of a line, behind what isn't in quotation marks.
COMMENT = re.compile(r"""(?:[^"'#]|"(?:\\.|[^"\\])*"|'[^']*')*#[ \t]*(.*?)\s*$""")


class Source:
    """A plan's text, which may be half written, where its tables and keys stand, and the name of its file."""

    def __init__(self, text: str, name: str = "", is_half_written: bool = False) -> None:
        self.name, self.text, self.places = name, text, Places(text, is_half_written)
        self._lines = text.split("\n")
        self._keys: dict[Place, list[str]] = {}
        for place in self.places.lines:
            if place and isinstance(place[-1], str):
                self._keys.setdefault(place[:-1], []).append(place[-1])
        self.labels = {
            (place[:-2], label): place[:-1]
            for place, label in reversed(self.places.texts.items())
            if place[-1] == "label" and len(place) > 2
        }

    @cached_property
    def top(self) -> Part:
        """The table that stands before all others, with those in it."""
        return Part(self, "", ())

    @cached_property
    def tables(self) -> Tables:
        """The tables of a text that can be read as a plan."""
        tables = [place for place in self.places.lines if not place or table_of(place) in schema()["definitions"]]
        return Tables({" ".join(map(str, place)) or "top": Part(self, table_of(place), place) for place in tables})

    @property
    def version(self) -> int:
        """The version of the format."""
        return self.top.number("version")

    @property
    def kept(self) -> list[int]:
        """The addresses that are kept free, in the order of the text, which `show` doesn't tell."""
        return [address for address in self.top.values("keep_free") if isinstance(address, int)]

    def line(self, place: Place) -> int:
        """The line of a place."""
        return self.places.line(place)

    def labelled(self, array: Place, label: str) -> Place:
        """The place of the array's first element of this label."""
        return self.labels.get((array, label), array)

    def __getitem__(self, array: str) -> list[Part]:
        """The tables of an array of the top: `unit`, `group`, `flow` and others."""
        return self.top.inside.get(array, [])

    def keys(self, place: Place) -> list[str]:
        """The keys of a table, in the order of the text."""
        return self._keys.get(place, [])

    def is_array_of_tables(self, place: Place) -> bool:
        """Whether at a place there is an array of tables that isn't empty."""
        return any(other in self._keys for other in self.places.elements(place))

    def value(self, place: Place) -> Value:
        """The value at a place."""
        if place in self.places.texts:
            return self.places.texts[place]
        if elements := self.places.elements(place):
            return [self.value(other) for other in elements]
        if place in self._keys:
            return {key: self.value(place + (key,)) for key in self.keys(place)}
        spelled = self.places.spelled.get(place, "{}")
        if spelled in ("true", "false"):
            return spelled == "true"
        number = self.places.number(place)
        return number if number is not None else [] if spelled[:1] == "[" else {}

    def comment(self, line: int) -> str:
        """The comment at the end of a line, if there is one."""
        found = COMMENT.match(self._lines[line - 1])
        return found.group(1) if found else ""

    def above(self, line: int) -> list[str]:
        """The comments that stand on lines of their own right above a line."""
        found: list[str] = []
        while line - len(found) >= 2 and self._lines[line - len(found) - 2].lstrip().startswith("#"):
            found.append(self._lines[line - len(found) - 2].strip())
        return found[::-1]


class Part:
    """A table of a plan: what it says, and the tables in it."""

    def __init__(self, source: Source, table: str, place: Place) -> None:
        self.source, self.table, self.place = source, table, place
        self.said: dict[str, Value] = {}
        self.inside: dict[str, list[Part]] = {}
        for key in source.keys(place):
            if source.is_array_of_tables(place + (key,)):
                self.inside[key] = [Part(source, key, other) for other in source.places.elements(place + (key,))]
            else:
                self.said[key] = source.value(place + (key,))

    def __getitem__(self, key: str) -> Value:
        """What a key is, by its default where it isn't said; None where it has none. Of a table in it each key has its default."""
        value: Value = self.said.get(key, keys_of(self.table).get(key))
        if isinstance(value, dict) and key in schema()["definitions"]:
            whole: dict[str, Value] = {inner: default for inner, default in keys_of(key).items() if default is not None}
            whole.update(value)
            return whole
        return value

    def text(self, key: str) -> str:
        """The text of a key, empty where it has none."""
        value = self[key]
        return value if isinstance(value, str) else ""

    def number(self, key: str) -> int:
        """The integer of a key, 0 where it has none."""
        value = self[key]
        return value if isinstance(value, int) else 0

    def number_if_any(self, key: str) -> int | None:
        """The integer of a key, None where it has none."""
        value = self[key]
        return value if isinstance(value, int) else None

    def is_true(self, key: str) -> bool:
        """Whether a key is true."""
        return self[key] is True

    def names(self) -> dict[int, str]:
        """The names of raw numbers."""
        values = self["values"]
        return {int(raw): str(name) for raw, name in values.items()} if isinstance(values, dict) else {}

    def values(self, key: str) -> list[Value]:
        """The elements of a key, none where it has none."""
        value = self[key]
        return value if isinstance(value, list) else []

    def inner(self, key: str) -> dict[str, Value]:
        """The table that a key is, an empty one where it isn't there."""
        value = self[key]
        return value if isinstance(value, dict) else {}

    @property
    def label(self) -> str:
        """Its label."""
        return self.text("label")

    def line(self, key: str = "") -> int:
        """The line of the table, or of one of its keys; where that isn't said, of the table."""
        return self.source.places.line(self.place + (key,) if key else self.place)

    def at(self, key: str = "") -> str:
        """The file and the line, as a compiler says them."""
        return f"{self.source.name}:{self.line(key)}"


def source_in(name: str) -> Source:
    """The text in a plan's file, which is no pipe."""
    with open(name, encoding="utf-8", errors="replace") as file:
        return Source(file.read())


def spelled(value: Value) -> str:
    """A value as TOML spells it; one that isn't there in words."""
    if value is None:
        return "none"
    if isinstance(value, bool):
        return str(value).lower()
    if isinstance(value, dict):
        return "{ " + ", ".join(f"{key} = {spelled(part)}" for key, part in value.items()) + " }"
    if isinstance(value, list):
        return "[" + ", ".join(map(spelled, value)) + "]"
    return json.dumps(value)
