"""Mends a plan: for each finding what takes it away, one after another, until nothing is found or nothing more can be done."""

from __future__ import annotations

import difflib
from collections.abc import Callable, Iterator
from typing import NamedTuple

from j39plan.mend import addresses, alternatives, flows, layouts, times
from j39plan.mend.attempts import Attempt, Mend
from j39plan.mend.edits import Change
from j39plan.mend.judge import NUMBERED, Draft, Judge, Outcome, key_of
from j39plan.plan.answer_grammar import Line, line_of
from j39plan.plan.answer_places import finding
from j39plan.plan.schema import VERSIONS

ATTEMPTS: dict[str, Callable[[Draft, Line], Iterator[Attempt]]] = {**addresses.ATTEMPTS, **layouts.ATTEMPTS, **flows.ATTEMPTS, **times.ATTEMPTS}

# Findings about what is built of a line of vehicles, against which nothing is tried.
UNTRIED = ("F29", "F30")

# Findings whose mends may take tables away, after which the others have other numbers: they come last.
LAST = ("F10", "F11", "F25")


# So many findings are named that a change would bring.
BROUGHT = 2


class FindingMends(NamedTuple):
    """A finding with its line in the plan as it was and a hint, its mends, each of which takes it away alone, those that do harm last, and what was tried in
    vain. `by` is the finding with whose mend it went; `left` is what is asked first, or left to be written, each with its word."""

    text: str
    line: int
    hint: str
    mends: list[Mend]
    in_vain: list[str]
    by: str = ""
    left: tuple[tuple[str, str], ...] = ()


class MendedPlan(NamedTuple):
    """A plan with its first mends, what was tried of each finding, and what `check` answers now."""

    text: str
    tried: list[FindingMends]
    answer: str
    status: int


def attempts_of(draft: Draft, text: str) -> Iterator[Attempt]:
    """What is tried against a finding: first what only a line of vehicles has."""
    number, line = text.split()[0], line_of(text)
    if number in alternatives.ATTEMPTS:
        yield from alternatives.ATTEMPTS[number](draft, line)
    if number not in UNTRIED:
        yield from ATTEMPTS[number](draft, line)


def mends_of(draft: Draft, text: str) -> tuple[list[Mend], list[str], tuple[tuple[str, str], ...]]:
    """Of each attempt against a finding the first change that mends; of what was tried and doesn't, with what it brings instead; and what is left to
    who writes the plan."""
    mends: list[Mend] = []
    in_vain: list[str] = []
    left: tuple[tuple[str, str], ...] = ()
    for attempt in attempts_of(draft, text):
        if attempt.word:
            left += ((attempt.word, attempt.what),)
        if attempt.word or attempt.is_last and mends:
            continue
        tries = draft.tries
        mend, brought = first_of(draft, attempt, text)
        if mend is not None:
            mends.append(mend)
        elif draft.tries > tries:
            in_vain.append(attempt.what + (f" (brings {', '.join(brought[:BROUGHT])}{', ..' * (len(brought) > BROUGHT)})" if brought else ""))
    return sorted(mends, key=lambda mend: mend.is_harmful), in_vain, left


def first_of(draft: Draft, attempt: Attempt, text: str) -> tuple[Mend | None, list[str]]:
    """The first change of an attempt that takes a finding away and brings none; where there is none, what the first brings that takes it away."""
    brought: list[str] = []
    for one in attempt.mends:
        mend, outcome = judged(draft, one, text)
        if outcome.mends:
            return mend, []
        if outcome.is_gone and not brought:
            brought = outcome.new or []
    return None, brought


def judged(draft: Draft, mend: Mend, text: str) -> tuple[Mend, Outcome]:
    """A change with what becomes of a finding by it: as it is, or with the last version of the format, where the plan's doesn't know a key of it."""
    outcome = draft.outcome(mend.change, [text])
    if outcome.new is None and draft.source.version < VERSIONS[-1]:
        mend = mend._replace(what=f"{mend.what}, version = {VERSIONS[-1]}", change=mend.change + Change(((("version",), VERSIONS[-1]),)))
        outcome = draft.outcome(mend.change, [text])
    return mend, outcome


def next_of(draft: Draft, given_up: set[str]) -> str | None:
    """The finding that is tried next: in their order, but those whose mends take tables away at the end, the last of them first."""
    left = [text for text in draft.findings if text not in given_up]
    first = [text for text in left if text.split()[0] not in LAST]
    return first[0] if first else left[-1] if left else None


def mended(plan: str, judge: Judge) -> MendedPlan:
    """A plan with the first mend of each finding that has one."""
    draft = first = Draft(plan, judge)
    given_up: set[str] = set()
    tried: dict[str, FindingMends] = {}
    while (text := next_of(draft, given_up)) is not None:
        judge.about = f"; {text}"
        mends, in_vain, left = mends_of(draft, text)
        tried[text] = FindingMends(text, *_placed(first if text in first.findings else draft, text), mends, in_vain, left=left)
        if not mends or mends[0].is_harmful:
            given_up.add(text)
            continue
        before, change = draft, mends[0].change
        draft = Draft(draft.with_change(change), judge)
        for other in _gone(before, draft, change):
            if other in first.findings:
                tried.setdefault(other, FindingMends(other, *_placed(first, other), [], [], text))
        if any(place[0] in NUMBERED for place in change.removed):
            given_up.update(other for other in draft.findings if other.split()[0] not in LAST)
    status, answer = judge.answer("check", draft.text)
    order = {text: number for number, text in enumerate(first.findings)}
    return MendedPlan(draft.text, sorted(tried.values(), key=lambda one: order.get(one.text, len(order))), answer, status)


def _gone(before: Draft, after: Draft, change: Change) -> Iterator[str]:
    """The findings that a change has taken away."""
    still = {key_of(text) for text in after.findings}
    return (text for text in before.findings if before.renumbered(line_of(text), change) not in still)


def _placed(draft: Draft, text: str) -> tuple[int, str]:
    """Line and hint of a finding."""
    line, hint = finding(draft.source, text)
    return line, hint or ""


def difference(name: str, before: str, after: str) -> str:
    """What is otherwise in a plan's file, as `patch` takes it."""
    lines = difflib.unified_diff(before.splitlines(keepends=True), after.splitlines(keepends=True), name, name)
    return "".join(line if line.endswith("\n") else f"{line}\n\\ No newline at end of file\n" for line in lines)
