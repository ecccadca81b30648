"""Changes of a plan's text: keys that get other values, tables that are added or removed. All else stays as it is written, comments too."""

from __future__ import annotations

import re
from collections.abc import Iterator
from dataclasses import dataclass

from j39plan.plan.parts import spelled
from j39plan.plan.schema import Value, knows
from j39plan.plan.text import Table, lines_of
from j39plan.plan.toml_places import Place, Places, table_of

# A part of a text, from where up to where, and what stands there instead.
Piece = tuple[int, int, str]

# The keys of whose values some are known to later versions alone.
WITH_WORDS = ("kind", "bitrate")

# Comments right above a header, which belong to it.
ABOVE = re.compile(r"(?:^[ \t]*#[^\n]*\n)+\Z", re.MULTILINE)


class Unchangeable(Exception):
    """A text is written so that it isn't known where a change belongs."""


@dataclass(frozen=True)
class Change:
    """Keys with other values, by their places; tables that come at the end; and the places of tables that go."""

    keys: tuple[tuple[Place, Value], ...] = ()
    added: tuple[Table, ...] = ()
    removed: tuple[Place, ...] = ()

    def __add__(self, other: Change) -> Change:
        return Change(self.keys + other.keys, self.added + other.added, self.removed + other.removed)

    def is_known(self, version: int) -> bool:
        """Whether a version of the format knows all that is written, where the change itself doesn't write another one."""
        pairs = [(table_of(place[:-1]), str(place[-1]), value) for place, value in self.keys]
        pairs += [pair for table in self.added for pair in (("", table.header, None), *((table.header, key, value) for key, value in table.keys.items()))]
        return (("version",) in dict(self.keys)
                or all(knows(version, (table or None, key)) and (key not in WITH_WORDS or knows(version, value)) for table, key, value in pairs))


def setting(table: Place, **values: Value) -> Change:
    """The change of keys of a table; a key `from` is given as `from_`."""
    return Change(tuple((table + (key.rstrip("_"),), value) for key, value in values.items()))


class Editor:
    """Changes a text, whose places are read once."""

    def __init__(self, text: str) -> None:
        self.text, self.places = text, Places(text)
        self._last = {place[:-1]: place for place in self.places.pairs}

    def changed(self, change: Change) -> str:
        """The text with a change."""
        pieces = [self._key(place, value) for place, value in change.keys]
        pieces += [(*self._table(place), "") for place in change.removed]
        parts, at = [], 0
        for begin, end, new in sorted(pieces, key=lambda piece: piece[:2]):
            parts += [self.text[at:begin], new]
            at = end
        parts.append(self.text[at:])
        text = "".join(parts)
        if not change.added:
            return text
        return text.rstrip("\n") + "\n" + "".join(f"{line}\n" for table in change.added for line in lines_of(table))

    def _key(self, place: Place, value: Value) -> Piece:
        """Where a key gets a value."""
        if place in self.places.pairs:
            _, end, _ = self.places.pairs[place]
            return end - len(self.places.spelled[place]), end, spelled(value)
        table = place[:-1]
        if table in self._last:
            return self._behind(self._last[table], place, value)
        if table in self.places.pairs and self.places.keys(table) == []:  # name = {}
            begin, end, _ = self.places.pairs[table]
            return end - len(self.places.spelled[table]), end, f"{{ {place[-1]} = {spelled(value)} }}"
        raise Unchangeable(place)

    def _behind(self, other: Place, place: Place, value: Value) -> Piece:
        """Where a key comes behind the last one of its table: on a line of its own, or in the braces of the table."""
        begin, end, table = self.places.pairs[other]
        pair = f"{'.'.join(map(str, place[len(table):]))} = {spelled(value)}"
        if any(table[:size] in self.places.pairs for size in range(1, len(table) + 1)):
            return end, end, f", {pair}"
        line = self.text.rfind("\n", 0, begin) + 1
        indent = self.text[line:begin] if not self.text[line:begin].strip() else ""
        feed = self.text.find("\n", end)
        if feed < 0:
            return len(self.text), len(self.text), f"\n{indent}{pair}\n"
        return feed + 1, feed + 1, f"{indent}{pair}\n"

    def _table(self, place: Place) -> tuple[int, int]:
        """From where up to where a table stands, with the comments above it."""
        begin = next((at for at in self.places.statements if self.text.startswith("[[", at) and self.places.line_at(at) == self.places.line(place)), None)
        if begin is None:
            raise Unchangeable(place)
        behind = self.places.statements.index(begin) + 1
        end = next((at for at in self.places.statements[behind:] if self.text[at] == "["), len(self.text))
        return self._with_comments(begin), self._with_comments(end)

    def _with_comments(self, at: int) -> int:
        """Where the comments begin that stand right above a position."""
        above = ABOVE.search(self.text, 0, at)
        return above.start() if above else at


def in_words(change: Change) -> Iterator[str]:
    """The lines of a change: each key with its value, each table."""
    for place, value in change.keys:
        yield f"{place[-1]} = {spelled(value)}"
    for table in change.added:
        yield "; ".join(line for line in lines_of(table) if line)
