"""What is tried to take a finding away."""

from __future__ import annotations

from collections.abc import Iterable
from typing import NamedTuple

from j39plan.mend.edits import Change


class Mend(NamedTuple):
    """A change of a plan, where it is and what it is in words, and what is to be known of it; `is_harmful` where others may suffer by it."""

    where: str
    what: str
    change: Change
    note: str = ""
    is_harmful: bool = False


class Attempt(NamedTuple):
    """What is tried, in words, and the changes, of which the first that mends is taken. What is long to try, or changes much, is tried only where
    nothing before it mends. What only who knows the vehicle can answer or write has no changes, and a word of its own."""

    what: str
    mends: Iterable[Mend]
    is_last: bool = False
    word: str = ""


def ask_first(what: str) -> Attempt:
    """What is to be known before anything is changed."""
    return Attempt(what, [], word="ask first")


def by_hand(what: str) -> Attempt:
    """What has to be written by hand."""
    return Attempt(what, [], word="by hand")
