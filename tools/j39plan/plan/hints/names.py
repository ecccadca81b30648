"""The names of hints by which they are silenced, on the command line or by comments of a plan, or asked for."""

from __future__ import annotations

import re
from collections.abc import Sequence
from typing import NamedTuple

from j39plan import program
from j39plan.plan.hints.words import likely
from j39plan.plan.parts import Source

# The names, each with what its hints are about.
NAMES = {
    "address": "the address of another function by SAE J1939", "broadcast": "long messages to all that take longer than their period",
    "alike": "two alternatives that bring the same", "beside": "a flow that comes by itself and answers requests too",
    "choice": "a choice of which no list names an alternative", "codes": "a group of trouble codes in which there is room for one",
    "drift": "clocks that are taken for exact", "identity": "one identity number of two makers", "idle": "a unit that sends, gets and needs nothing",
    "late": "a flow that meets a need and brings what is too old", "lint": "a comment that names no hint", "live": "a plan that could be live",
    "maker": "a NAME without a maker", "measure": "a scale without a unit of measurement", "pool": "a fixed unit where others may move",
    "prefer": "units that prefer one address", "queue": "urgent frames behind others of their unit", "short": "messages of less than 8 bytes",
    "silent": "a flow to a unit that may be absent", "single": "flows whose short messages can fill the bus", "spn": "an SPN with two places or scales",
    "twice": "a need that two units meet", "unasked": "an answer that nobody asks for", "unbuilt": "an alternative that no vehicle has",
    "unsent": "a group that no flow sends", "untaken": "a flow that no need takes", "urgent": "a high priority of what goes to all",
}

# Hints that come with nearly every plan: they are told where they are asked for.
ON_DEMAND = frozenset(("drift", "live"))

# A comment that silences hints.
SILENCED = re.compile(r"#?\s*lint:\s*(.*)")


class HintChoice(NamedTuple):
    """Which hints a command line asks for beside the usual ones, and which it doesn't want."""

    wanted: frozenset[str] = frozenset()
    unwanted: frozenset[str] = frozenset()

    def tells(self, name: str) -> bool:
        """Whether hints of a name are told."""
        return name not in self.unwanted and (name in self.wanted or name not in ON_DEMAND)


def asked_in(words: Sequence[str]) -> tuple[list[str], HintChoice]:
    """The words of a command line without the names behind `--lint`, each with `-` or `+`, and what these ask for."""
    rest: list[str] = []
    named: dict[str, set[str]] = {"+": set(), "-": set()}
    is_behind = False
    for at, word in enumerate(words):
        if word == "--":
            return [*rest, *words[at:]], HintChoice(frozenset(named["+"]), frozenset(named["-"]))
        if is_behind and re.fullmatch(r"[+-][a-z][a-z0-9_-]+", word):
            if word[1:] not in NAMES:
                raise program.Refused(program.UNREADABLE, f"no hint is called {word[1:]}{likely(word[1:], NAMES)}")
            named[word[0]].add(word[1:])
            continue
        is_behind = word == "--lint"
        rest.append(word)
    return rest, HintChoice(frozenset(named["+"]), frozenset(named["-"]))


class Silence:
    """The hints that comments of a plan silence: one on a line of its own all of these names, one behind something those at this line."""

    def __init__(self, source: Source) -> None:
        self.everywhere: set[str] = set()
        self.at: dict[int, set[str]] = {}
        self.strange: list[tuple[int, str]] = []
        for number, line in enumerate(source.text.split("\n"), 1):
            found = SILENCED.fullmatch((line.strip() if line.lstrip().startswith("#") else source.comment(number)) if "lint:" in line else "")
            if found:
                self._take(number, found.group(1), line.lstrip().startswith("#"))

    def _take(self, line: int, names: str, is_everywhere: bool) -> None:
        for name in re.split(r"[\s,]+", names.strip()):
            if name in NAMES:
                (self.everywhere if is_everywhere else self.at.setdefault(line, set())).add(name)
            elif name:
                self.strange.append((line, name))

    def is_silent(self, name: str, line: int) -> bool:
        """Whether hints of a name aren't told at a line."""
        return name in self.everywhere or name in self.at.get(line, ())
