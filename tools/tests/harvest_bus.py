"""Drives of the harvester of harvest.py on which one thing is otherwise: a habit of healthy units or loggers, or a fault; and what `against` tells of them."""

from __future__ import annotations

import contextlib
import functools
import io
import json
import os
import tempfile
from collections.abc import Callable, Iterator, Mapping, Sequence
from dataclasses import dataclass, field
from typing import NamedTuple, Self

from j39plan import program
from j39plan.cli import against
from j39plan.j1939 import ADDRESS_CLAIMED, CONNECTION_MANAGEMENT, DATA_TRANSFER, GLOBAL_ADDRESS, REQUEST, identifier_of
from j39plan.plan.tables import Flow, Tables
from tests import harvest
from tests.drives import EPOCH, Drive, line_of
from tests.small_bus import number

# How long a drive is, in seconds, and with which numbers it is drawn.
SECONDS, SEED = 20, 5

# The flows that are sent on events, as `--events` names them.
EVENTS = ("--events", "KEYS", "--events", "UNLOAD")

# A frame by its time in s, its identifier and its bytes; when a message of a flow is sent, in ms, instead of at a time; and a change of all frames.
Timed = tuple[float, int, bytes]
Moments = Callable[[float, Flow], Sequence[float]]
Change = Callable[[list[Timed]], list[Timed]]

# Addresses by units, their places, and the time of a packet and of an answer, in s.
ADDRESSES = {label: address for label, (address, _, _) in harvest.UNITS.items()}
QUICK = 0.004


class Line(NamedTuple):
    """A line of a log: the first one from a time on that has a text, any one up to another time, or the last one before that."""

    text: str
    since: float = 0
    until: float | None = None
    is_last: bool = False

    def numbers(self, lines: Sequence[str]) -> list[int]:
        """The lines that it may be."""
        until = SECONDS * 10**6 if self.until is None else self.until
        found = [place for place, line in enumerate(lines, 1)
                 if self.text in line and line.startswith("(") and self.since <= float(line[1:line.index(")")]) - EPOCH < until]
        return found[-1:] if self.is_last else found[:1] if self.until is None else found


class Told(NamedTuple):
    """What is told: its kind, the unit that it is of, where it is of one, the line, and a part of the text; None of what may be anything."""

    kind: str
    unit: str | None = None
    line: Line | None = None
    text: str = ""


@functools.cache
def named(label: str) -> bytes:
    """The NAME of a unit's box."""
    place, unit = next((place, unit) for place, unit in enumerate(tables().units) if unit.label == label)
    return (unit.number | 7000 + place).to_bytes(8, "little")


@functools.cache
def tables() -> Tables:
    """The tables of the true plan."""
    with program.file_of(harvest.plan()) as name:
        return Tables.of(name)


@dataclass
class Play:
    """What is otherwise on a drive."""

    offs: list[tuple[str, float, float]] = field(default_factory=list)
    moments: list[Moments] = field(default_factory=list)
    changes: list[Callable[[float, int, bytes], tuple[float, int, bytes] | None]] = field(default_factory=list)
    puts: list[Timed] = field(default_factory=list)
    logs: list[Change] = field(default_factory=list)
    spelled: Callable[[list[str]], list[str]] | None = None
    paces: dict[str, float] = field(default_factory=dict)
    words: tuple[str, ...] = EVENTS
    plan: Callable[[str], str] = str
    seconds: float = SECONDS

    def off(self, begin: float, end: float, *labels: str) -> Self:
        """Units are off: they send nothing, and nothing goes to them."""
        self.offs += [(label, begin, end) for label in labels]
        return self

    def claims(self, at: float, label: str, address: int | None = None, name: bytes | None = None, to: int = GLOBAL_ADDRESS) -> Self:
        """A unit claims its address, or another one."""
        source = ADDRESSES[label] if address is None else address
        return self.put(at, identifier_of(6, ADDRESS_CLAIMED, source, to), named(label) if name is None else name)

    def all_claim(self, at: float, step: float = 0.02, without: Sequence[str] = ()) -> Self:
        """All units claim their addresses, one after the other."""
        for place, label in enumerate(label for label in ADDRESSES if label not in without):
            self.claims(at + step * place, label)
        return self

    def put(self, at: float, identifier: int, data: bytes) -> Self:
        """A further frame."""
        self.puts.append((at, identifier, data))
        return self

    def asks(self, at: float, source: int, pgn: int, to: int = GLOBAL_ADDRESS) -> Self:
        """A group is requested."""
        return self.put(at, identifier_of(6, REQUEST, source, to), number(pgn))

    def acknowledges(self, at: float, source: int, word: int, pgn: int, meant: int) -> Self:
        """A request is answered by a word: 1 that it is refused, 2 that it is denied, 3 that it can't be answered now."""
        return self.put(at, 0x18E8FF00 | source, bytes((word, 255, 255, 255, meant)) + number(pgn))

    def manages(self, at: float, source: int, to: int, pgn: int, *control: int) -> Self:
        """A frame that manages a connection, by its first bytes and the group."""
        return self.put(at, identifier_of(7, CONNECTION_MANAGEMENT, source, to), bytes(control).ljust(5, b"\xff") + number(pgn))

    def packets(self, at: float, source: int, to: int, numbers: Sequence[int], apart: float = QUICK) -> Self:
        """Packets by their numbers."""
        for place, count in enumerate(numbers):
            self.put(at + apart * place, identifier_of(7, DATA_TRANSFER, source, to), bytes((count,)) + bytes(7))
        return self

    def carries(self, at: float, source: int, to: int, pgn: int, size: int) -> Self:
        """A message goes from one to another."""
        count = -(-size // 7)
        self.manages(at, source, to, pgn, 16, size, 0, count).manages(at + QUICK, to, source, pgn, 17, count, 1)
        self.packets(at + 2 * QUICK, source, to, range(1, count + 1))
        return self.manages(at + QUICK * (count + 3), to, source, pgn, 19, size, 0, count)

    def sends(self, group: str, sender: str, moments: Callable[[float], Sequence[float]]) -> Self:
        """Messages of a flow are sent at other times than usual, all in s."""
        def other(at: float, flow: Flow) -> Sequence[float]:
            return [1000 * moment for moment in moments(at / 1000)] if (flow.group, flow.sender) == (group, sender) else [at]

        self.moments.append(other)
        return self

    def pauses(self, group: str, sender: str, begin: float, end: float) -> Self:
        """A flow isn't sent for a time."""
        return self.sends(group, sender, lambda at: [] if begin <= at < end else [at])

    def changes_frames(self, spelled: str, begin: float, end: float, change: Callable[[int, bytes], tuple[int, bytes] | None], delay: float = 0) -> Self:
        """Frames whose identifier begins so, as a log spells it, are sent otherwise, later, or not at all."""
        def other(at: float, identifier: int, data: bytes) -> tuple[float, int, bytes] | None:
            if not (f"{identifier:08X}".startswith(spelled) and begin <= at < end):
                return at, identifier, data
            changed = change(identifier, data)
            return changed and (at + delay, *changed)

        self.changes.append(other)
        return self

    def logged(self, change: Change) -> Self:
        """The logger has other times, or lacks frames."""
        self.logs.append(change)
        return self

    def is_off(self, at: float, identifier: int) -> bool:
        """Whether who sends a frame is off then, or who gets it."""
        source, to = identifier & 0xFF, identifier >> 8 & 0xFF if identifier >> 16 & 0xFF < 240 else GLOBAL_ADDRESS
        return any(begin <= at < end and ADDRESSES[label] in (source, to) for label, begin, end in self.offs)

    def lines(self) -> list[str]:
        """The lines of the log."""
        frames = [((at / 1000), identifier, data) for at, identifier, data in Played(self).frames()]
        for change in self.logs:
            frames = change(frames)
        lines = [line_of(1000 * at, identifier, data) for at, identifier, data in frames]
        return self.spelled(lines) if self.spelled else lines


class Played(harvest.Harvest):
    """A drive of a play."""

    def __init__(self, play: Play) -> None:
        self._play = play
        super().__init__(tables(), play.seconds, SEED, play.paces)
        for at, identifier, data in play.puts:
            Drive._queue(self, 1000 * at, identifier, data)

    def _queue(self, at: float, identifier: int, data: bytes) -> None:
        """A frame wants to be sent."""
        frame: tuple[float, int, bytes] | None = at / 1000, identifier, data
        for change in self._play.changes:
            frame = frame and change(*frame)
        if frame and not self._play.is_off(frame[0], frame[1]):
            super()._queue(1000 * frame[0], *frame[1:])

    def _message(self, at: float, flow: Flow) -> None:
        """A message wants to be sent."""
        moments: Sequence[float] = [at]
        for other in self._play.moments:
            moments = [moment for one in moments for moment in other(one, flow)]
        for moment in moments:
            super()._message(moment, flow)


class Case(NamedTuple):
    """A drive: what is otherwise on it, and what is told of it, in the order of the lines."""

    what: str
    play: Play
    told: tuple[Told, ...] = ()


def found_in(case: Case, folder: str) -> tuple[list[dict[str, object]], list[str]]:
    """What `against` tells of a drive, as JSON, and the lines of the log."""
    lines, answer = case.play.lines(), io.StringIO()
    log, plan = os.path.join(folder, "drive.log"), os.path.join(folder, "plan.toml")
    for name, text in ((log, "".join(lines)), (plan, case.play.plan(harvest.plan()))):
        with open(name, "w", encoding="ascii") as file:
            file.write(text)
    with contextlib.redirect_stdout(answer), contextlib.redirect_stderr(io.StringIO()):
        against.main(["--json", *case.play.words, plan, log])
    *found, _ = map(json.loads, answer.getvalue().splitlines())
    return found, lines


def misses(case: Case, folder: str) -> list[str]:
    """What is told of a drive otherwise than expected: what isn't told, and what is besides."""
    found, lines = found_in(case, folder)
    left, missed = list(found), list[str]()
    for told in case.told:
        one = next((one for one in left if is_it(one, told, lines)), None)
        if one is None:
            missed.append(f"not told: {told.kind} of {told.unit or 'nobody'}" + (f" at line {told.line.numbers(lines)}" if told.line else ""))
        else:
            left.remove(one)
    return missed + [f"told: {one['kind']} {one.get('unit', '-')} {one.get('line', '-')}: {one['text']}" for one in left]


def is_it(found: Mapping[str, object], told: Told, lines: Sequence[str]) -> bool:
    """Whether a deviation is what is to be told."""
    is_there = told.line is None or found.get("line") in told.line.numbers(lines)
    return (found["kind"], found.get("unit")) == (told.kind, told.unit) and is_there and told.text in str(found["text"])


def table(cases: Sequence[Case]) -> Iterator[str]:
    """The drives with what is told of them, as the table of a page."""
    yield from ("| Drive | Told |", "|---|---|")
    for case in cases:
        yield f"| {case.what} | {', '.join(f'`{told.kind}`' + (f' of {told.unit}' if told.unit else '') for told in case.told) or 'nothing'} |"


def all_misses(cases: Sequence[Case]) -> Iterator[tuple[str, list[str]]]:
    """Each drive with what is told of it otherwise than expected."""
    for case in cases:
        with tempfile.TemporaryDirectory() as folder:
            yield case.what, misses(case, folder)
