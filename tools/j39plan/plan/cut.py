"""A plan cut to what is asked of a log: `follow` then puts together and writes that alone; and one without the numbers of some units."""

import contextlib
import os
import re
from collections.abc import Callable, Iterable, Iterator

from j39plan import program
from j39plan.log.readings import Choice
from j39plan.plan.tables import Group, Tables
from j39plan.plan.schema import VERSIONS
from j39plan.plan.toml_places import BLANK, Place, Places

# A header with its keys, as far as they are bare ones.
HEADER = re.compile(r"\[\[?[ \t]*([A-Za-z0-9_-]+)[ \t]*(?:\.[ \t]*([A-Za-z0-9_-]+)[ \t]*)?(?:\.[^\]\n]*)?\]")

# Tables that name groups, and of which no signal depends.
OTHERS = ("need", "request")


class Scissors:
    """Goes through the tables of a plan in the order of its text, and says of each whether it is kept. A group is kept where a signal of it is
    wanted, or of another one of its number; so are its flows, and all units. Of its signals those are kept that are wanted, and all where
    they are repeated."""

    def __init__(self, tables: Tables, choice: Choice) -> None:
        self._tables, self._choice = tables, choice
        wanted = {group for group, _ in choice.columns}
        numbers = {group.pgn for group in tables.groups if group.label in wanted}
        self._kept = [group.pgn in numbers for group in tables.groups]
        self._labels = {group.label for group, is_kept in zip(tables.groups, self._kept) if is_kept}
        self.groups = self.flows = self._signals = self._texts = 0
        self._is_kept = True

    @property
    def _group(self) -> Group:
        return self._tables.groups[self.groups - 1]

    def keeps(self, is_element: bool, key: str, inner: str | None) -> bool:
        """Whether the table of the next header is kept."""
        if key == "group":
            self._is_kept = self._keeps_of_group(is_element, inner)
        elif key == "flow":
            self.flows += is_element
            self._is_kept = self._tables.flows[self.flows - 1].group in self._labels
        else:
            self._is_kept = key not in OTHERS
        return self._is_kept

    def _keeps_of_group(self, is_element: bool, inner: str | None) -> bool:
        """Whether a group or a part of the group that was last is kept."""
        if inner is None:
            self.groups, self._signals, self._texts = self.groups + is_element, 0, 0
            return self._kept[self.groups - 1]
        if not self._kept[self.groups - 1]:
            return False
        if inner not in ("signal", "text"):
            return True
        if inner == "signal":
            self._signals += is_element
            label = self._group.signals[self._signals - 1].label
        else:
            self._texts += is_element
            label = self._group.texts[self._texts - 1].label
        return any(signal.repeated for signal in self._group.signals) or (self._group.label, label) in self._choice.columns


def without(text: str, keeps: Callable[[bool, str, str | None], bool]) -> str | None:
    """A text of TOML without the tables that aren't kept; of each is told whether it is an element, its first key and its second one. None where
    keys are spelled so that this isn't known."""
    parts, is_kept, begin = [], True, 0
    for at in Places(text).statements:
        if text[at] == "[":
            parts.append(text[begin:at] if is_kept else "")
            found = HEADER.match(text, at)
            if found is None:
                return None
            is_kept, begin = keeps(text.startswith("[[", at), *found.groups()), at
    return "".join([*parts, text[begin:] if is_kept else ""])


def shorter(text: str, tables: Tables, choice: Choice) -> str | None:
    """The text of a plan, which has these tables, without what isn't wanted; None where that can't be had of it."""
    kinds = {signal.kind for group in tables.groups for signal in group.signals if (group.label, signal.label) in choice.columns}
    if "dtc" in kinds and any(signal.spn is not None for group in tables.groups for signal in group.signals):
        return None  # a code is told with the signal of its number, of whatever group
    scissors = Scissors(tables, choice)
    cut_text = without(text, scissors.keeps)
    return cut_text if (scissors.groups, scissors.flows) == (len(tables.groups), len(tables.flows)) else None


def has_no_signal(_: bool, key: str, inner: str | None) -> bool:
    """Whether a table is none of a signal or a text, and none that may name one."""
    return key != "need" and inner not in ("signal", "text")


@contextlib.contextmanager
def _cut(plan: str, tables: Tables, shortened: Callable[[str], str | None]) -> Iterator[tuple[str, Tables]]:
    """The name of a plan of a shorter text, and its tables; the plan itself where it can't be cut."""
    with open(plan, "rb") as file:
        try:
            text = shortened(file.read().decode())
        except (UnicodeDecodeError, IndexError):
            text = None
    with program.file_of(text or "") as copy:
        if text is None or program.call(["follow", "--", copy, os.devnull])[0] != 0:
            yield plan, tables
        else:
            yield copy, Tables.of(copy)


def cut(plan: str, tables: Tables, choice: Choice) -> contextlib.AbstractContextManager[tuple[str, Tables]]:
    """The name of a plan that tells the same of what is wanted, and its tables; the plan itself where it can't be cut."""
    return _cut(plan, tables, lambda text: shorter(text, tables, choice))


def bare(plan: str, tables: Tables) -> contextlib.AbstractContextManager[tuple[str, Tables]]:
    """The same of a plan without its signals, texts and needs: by it `follow` tells the same of who sends which group, flow and request."""
    return _cut(plan, tables, lambda text: without(text, has_no_signal))


def without_numbers(text: str, units: Iterable[int]) -> str | None:
    """The text of a plan of the last version, in which these units, counted from 1, are of any serial number. None where it isn't known how."""
    places = Places(text)
    names: list[Place] = [("unit", unit, "name") for unit in units]
    if any(place not in places.pairs for place in [("version",), *(name + ("identity",) for name in names)]):
        return None
    parts = [(*places.pairs[("version",)][:2], f"version = {VERSIONS[-1]}"), *(_number_in(places, text, name) for name in names)]
    for begin, end, new in sorted(parts, reverse=True):
        text = text[:begin] + new + text[end:]
    return text


def _number_in(places: Places, text: str, name: Place) -> tuple[int, int, str]:
    """Where the identity number of a NAME begins and ends, and what may stand there instead: nothing, or another field, where it is the only one."""
    begin, end, table = places.pairs[name + ("identity",)]
    if places.keys(name) == ["identity"]:
        return begin, end, ".".join(map(str, (*name[len(table):], "manufacturer = 0")))
    blank = BLANK.match(text, end)
    behind = blank.end() if blank else end
    return begin, behind + 1 if text.startswith(",", behind) else end, ""


def of_any_number(plan: str, tables: Tables, units: Iterable[int]) -> contextlib.AbstractContextManager[tuple[str, Tables]]:
    """The name of a plan in which these units are of any serial number, and its tables; the plan itself where it can't be had."""
    return _cut(plan, tables, lambda text: without_numbers(text, units))
