"""Asks the program of plans that aren't written down: what `check` finds in them, and what `load` says of them."""

from __future__ import annotations

import hashlib
from collections.abc import Callable, Iterable
from functools import cached_property
from typing import NamedTuple

from j39plan import program
from j39plan.mend.edits import Change, Editor, Unchangeable
from j39plan.plan.answer_grammar import Line, line_of
from j39plan.plan.answer_places import parted
from j39plan.plan.answers import Load, load_of
from j39plan.plan.parts import Source
from j39plan.plan.tables import Tables
from j39plan.progress import Progress

# The parts of findings that say how bad it is, and not of what: with others it is the same finding.
MEASURES = {"F3": "units", "F7": "end", "F15": "end", "F17": "load", "F24": "end"}

# The vehicle of a line in which a finding was met: in another one it is the same finding.
VEHICLE = "variant"

# The parts of findings that are numbers of tables.
NUMBERED = ("flow", "need", "request")

# A finding, by what it is about.
Key = tuple[str, ...]


def key_of(text: str) -> Key:
    """A finding by what it is about."""
    line = line_of(text)
    others = (MEASURES.get(line.word("finding")), VEHICLE)
    return tuple(str(word) for part, word in line.parts.items() if part not in others)


class Judge:
    """Asks the program, of the same text once, and counts how often; `refused` is what it answers of changed texts that are no plans, which is a fault of
    who tries them."""

    def __init__(self, progress: Progress) -> None:
        self.asked = 0
        self.refused: list[str] = []
        self.about = ""
        self._progress = progress
        self._known: dict[bytes, list[str] | None] = {}

    def findings(self, text: str) -> list[str] | None:
        """What `check` finds in a plan; None of a text that is none."""
        known = hashlib.sha256(text.encode()).digest()
        if known not in self._known:
            status, answer = self.answer("check", text)
            lines = [line for line, *_ in parted(answer) if line_of(line).kind == "finding"]
            self._known[known] = lines if status in (0, 1) else None
            if status == program.UNREADABLE:
                self.refused.append(answer.strip())
        return self._known[known]

    def load(self, text: str) -> Load | None:
        """What `load` says of a plan."""
        return load_of(self.answer("load", text)[1])

    def answer(self, command: str, text: str) -> tuple[int, str]:
        """What a command answers of a text, and its status."""
        self.asked += 1
        self._progress.say(f"{self.asked} plans were asked about{self.about}")
        with program.file_of(text) as plan:
            status, answer = program.call([command, "--", plan])
        if status not in (0, 1, program.UNREADABLE):
            raise program.Refused(status, answer.strip())
        return status, answer


class Outcome(NamedTuple):
    """What `check` says of a changed plan: whether what was to be mended is found no more, and what is found anew; `new` is None where the
    change can't be written, or makes no plan."""

    is_gone: bool
    new: list[str] | None

    @property
    def mends(self) -> bool:
        """Whether the finding is gone, and no other one came."""
        return self.is_gone and self.new == []


class Draft:
    """A plan as it is so far, with what is found in it; `tries` is of how many changes it was asked."""

    def __init__(self, text: str, judge: Judge) -> None:
        self.text, self.judge, self.tries = text, judge, 0
        self.source = Source(text)
        self.findings = judge.findings(text) or []
        self.editor = Editor(text)

    @cached_property
    def tables(self) -> Tables:
        """The tables of the plan."""
        return self.source.tables

    def with_change(self, change: Change) -> str:
        """The plan's text with a change."""
        return self.editor.changed(change)

    def found(self, change: Change) -> list[str] | None:
        """What is found in the plan with a change; None where it can't be written, or not in this version of the format."""
        self.tries += 1
        if not change.is_known(self.source.version):
            return None
        try:
            return self.judge.findings(self.with_change(change))
        except Unchangeable:
            return None

    def load(self, change: Change) -> Load | None:
        """What `load` says of the plan with a change."""
        self.tries += 1
        return self.judge.load(self.with_change(change))

    def outcome(self, change: Change, findings: Iterable[str]) -> Outcome:
        """What becomes of findings, and of the others, by a change."""
        after = self.found(change)
        if after is None:
            return Outcome(False, None)
        before = {key for text in self.findings if (key := self.renumbered(line_of(text), change)) is not None}
        wanted = {self.renumbered(line_of(text), change) for text in findings}
        new = [text for text in after if key_of(text) not in before]
        return Outcome(not any(key_of(text) in wanted for text in after), new)

    def mends(self, change: Change, *findings: str) -> bool:
        """Whether a change takes findings away, and brings no other one."""
        return self.outcome(change, findings).mends

    def renumbered(self, line: Line, change: Change) -> Key | None:
        """A finding by what it is about, as it is called where tables are gone; None of one about a table that is gone."""
        others, parts = (MEASURES.get(line.word("finding")), VEHICLE), dict(line.parts)
        kind = next((part for part in NUMBERED if part in parts), "")
        for part in (kind, "other"):
            if kind and isinstance(number := parts.get(part), int):
                gone = [place[1] for place in change.removed if place[0] == kind and isinstance(place[1], int)]
                if number in gone:
                    return None
                parts[part] = number - sum(other < number for other in gone)
        return tuple(str(word) for part, word in parts.items() if part not in others)


def least(low: int, high: int, is_enough: Callable[[int], bool]) -> int | None:
    """The least number from low to high that is enough, where each greater one is; None where none is."""
    if low > high or not is_enough(high):
        return None
    while low < high:
        middle = (low + high) // 2
        if is_enough(middle):
            high = middle
        else:
            low = middle + 1
    return high


def greatest(low: int, high: int, is_allowed: Callable[[int], bool]) -> int | None:
    """The greatest number from low to high that is allowed, where each lesser one is; None where none is."""
    found = least(-high, -low, lambda number: is_allowed(-number))
    return None if found is None else -found
