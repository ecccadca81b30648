"""What the program's `audit` accuses of, told as deviations: it reads a log while `follow` does, and answers when that has ended."""

from __future__ import annotations

import contextlib
import os
import subprocess
from collections import Counter
from collections.abc import Iterable, Iterator, Mapping
from typing import TYPE_CHECKING, NamedTuple

from j39plan import program
from j39plan.j1939 import CONNECTION_MANAGEMENT, FRAME_BYTES, GLOBAL_ADDRESS, NULL_ADDRESS, destination_in, pgn_in
from j39plan.log.audit import WORDS, lines_of
from j39plan.log.checks.deviations import MEASURE, Found
from j39plan.log.checks.feed import Noted, noted_of
from j39plan.log.checks.lines import FRAME
from j39plan.log.checks.wording import fields_of, lengths_of
from j39plan.log.clock import nanoseconds
from j39plan.log.files import LINE_MOST, Log, whole
from j39plan.log.reports import Who
from j39plan.plan.answer_grammar import Line
from j39plan.plan.tables import Tables

if TYPE_CHECKING:
    from j39plan.inside import Session

MICROSECOND = 1000

# So many groups are named that a stranger asks for.
NAMED = 3


class Premise(NamedTuple):
    """What a word of `audit` is as a deviation: its kind, and its text, by the parts of the line and by what `Telling` knows beside them."""

    kind: str
    text: str


# The words whose verdict is taken from `audit`. Of a word that isn't here the rules of this package tell.
PREMISES = {
    "short": Premise("short-identifier", "a frame with an 11-bit identifier, which may go before each planned one"),
    "stranger": Premise("stranger", "NAME {name} ({fields}) {claims}: no unit has it"),
    "nobody": Premise("stranger", "address {address} sends{groups}: no unit has it"),
    "address": Premise("address", "{unit} claims address {at}, {planned}"),
    "cannot": Premise("address", "{unit} could not claim an address"),
    "layout": Premise("layout", "{layout}"),
    "no_flow": Premise("no-flow", "{group} from {unit}{receiver}: no flow"),
    "priority": Premise("priority", "{group} from {unit} has {priority}, planned is {planned_priority}"),
    "urgent": Premise("urgent", "{what} from {unit} has {priority}: by 'load' what no flow has is of {unplanned_priority} or more"),
}

# The kinds of what is told by what `follow` says where `audit` doesn't judge: of a plan with findings, and of a log that is still to come.
FOLLOWED = ("stranger", "priority", "no-flow")


def kind_of(line: Line) -> str:
    """The kind of deviation that a line of `audit` is."""
    return PREMISES[line.word("word")].kind


class Beside:
    """What is known of a log beside `audit`, by which some of what that accuses of has another name, or is told otherwise."""

    def __init__(self, urgent: Mapping[str, int] | None = None) -> None:
        self.claims: dict[int, dict[str, list[int]]] = {}  # where each NAME of no unit first claimed an address, and how often: `audit` names one alone
        self.sent: dict[int | str | None, dict[str, None]] = {}  # the planned groups that came from a NAME or an address of no unit
        self.asked: dict[int | str | None, dict[str, None]] = {}  # and the groups that such a one asked for
        self.left: set[int | None] = set()  # addresses from which a unit goes on to send that has left them, or where a box of a unit is
        self.obeyed: set[tuple[str, int]] = set()  # units that claim an address that they were commanded to, or of which two boxes are told by that
        self.given_back: Counter[str] = Counter()  # how often a unit gave back the address that it held, or had lost to a stranger
        self._urgent: Mapping[str, int] = {} if urgent is None else urgent  # how many frames of planned long messages a unit sends more urgently than what isn't planned

    def asks(self, who: Who, group: str) -> None:
        """Somebody asks for a group."""
        if who.label is None:
            self.asked.setdefault(who.name or who.address, {})[group] = None

    def names(self, line: Line) -> bool:
        """Whether what is accused is told by another name."""
        word, unit = line.word("word"), line.word("unit")
        if word == "urgent":
            return self._urgent.get(unit, 0) == line.number("times")
        if word == "nobody":
            return line.number("address") in self.left
        if word == "address":
            return (unit, line.number("at")) in self.obeyed
        return word == "cannot" and self.given_back[unit] == line.number("times")

    def groups(self, who: int | str | None) -> str:
        """Which planned groups came from a NAME or an address of no unit."""
        sent = [*self.sent.get(who, ())]
        return f" {', '.join(sent)}, {'planned groups' if sent[1:] else 'a planned group'}" if sent else ""

    def requests(self, who: int | str | None) -> str:
        """Which groups a NAME or an address of no unit asked for, some of them where there are many."""
        asked = [*self.asked.get(who, ())]
        more = f" and {len(asked) - NAMED} more" if len(asked) > NAMED else ""
        return f", and asks for {', '.join(asked[:NAMED])}{more}" if asked else ""

    def each(self, line: Line) -> list[Line]:
        """A line that accuses, of strangers at an address one for each NAME."""
        claims = self.claims.get(line.number("address"), {}) if line.word("word") == "stranger" else {}
        named: list[dict[str, str | int]] = [{"name": f"#{name}", "first": first, "times": times} for name, (first, times) in claims.items()]
        return [line._replace(parts={**line.parts, **parts}) for parts in named] or [line]


class Process:
    """A process of the program that reads what it is handed, as a session does."""

    def __init__(self, words: list[str]) -> None:
        # A group of its own: an interrupt from the keyboard is to end the log, and not what reads it.
        self._process = subprocess.Popen([program.path(), *words], stdin=subprocess.PIPE, stdout=subprocess.PIPE, start_new_session=True)
        self.status: int | None = None

    def feed(self, piece: bytes) -> bytes:
        """Hands it a piece. A program that has answered already, as of a plan with findings, reads no more."""
        assert self._process.stdin is not None
        with contextlib.suppress(BrokenPipeError):
            self._process.stdin.write(piece)
        return b""

    def end(self) -> bytes:
        """What it writes in all."""
        answer = self._process.communicate()[0]
        self.status = self._process.returncode
        return answer

    def complaints(self) -> bytes:
        """Its standard error, which it has written itself."""
        return b""

    def close(self) -> None:
        """Ends it, where it hasn't ended."""
        self._process.kill()
        self._process.wait()


class Audit:
    """The program that audits a log, beside the one that follows it."""

    def __init__(self, plan: str, is_part: bool) -> None:
        answer = program.call(["audit", "--", plan, os.devnull])[1]
        self.findings = "" if lines_of(answer) else answer.partition("\n")[0]  # what `check` finds, where `audit` answers that
        words = ["audit", *["--part"] * is_part, "--", plan, program.INPUT]
        self._order: Session | Process = program.session(words, plan) or Process(words)
        self._answer = b""
        self.lines: list[Line] = []

    def __enter__(self) -> "Audit":
        return self

    def __exit__(self, *_: object) -> None:
        self._order.close()

    def pieces(self, pieces: Iterable[bytes]) -> Iterator[bytes]:
        """Hands on what comes of a log."""
        for piece in pieces:
            self._answer += self._order.feed(piece)
            yield piece

    def end(self) -> None:
        """The log has ended: what it accuses of."""
        answer, status = (self._answer + self._order.end()).decode(), self._order.status
        program.complain(self._order.complaints())
        if status not in (0, 1):
            raise program.Refused(status if status is not None and status > 0 else program.FAULT)
        self.lines = [line for line in lines_of(answer) if line.word("word") in PREMISES]


class Telling:
    """Tells what is accused, each with its first or worst line, as that stands in the log, where it can be read once more."""

    def __init__(self, tables: Tables, log: Log, beside: Beside, found: Found) -> None:
        self._tables, self._log, self._beside, self._found = tables, log, beside, found
        self._units = {unit.label: unit for unit in tables.units}
        self._groups = {group.label: group for group in tables.groups}
        self._labels = {group.pgn: group.label for group in reversed(tables.groups) if not group.private}

    def tell(self, lines: list[Line], addresses: Mapping[int | None, str]) -> None:
        """Tells all of them, where these units had these addresses last."""
        told = [each for line in lines if not self._beside.names(line) and (self._tables.timing or line.word("word") != "short")
                for each in self._beside.each(line)]
        frames = frames_at(self._log, {number_of(line) for line in told})
        for line in told:
            premise, number = PREMISES[line.word("word")], number_of(line)
            time, frame = frames.get(number, ("", None))
            text = premise.text.format(**self._fields(line, frame, addresses))
            groups, by = self._beside.groups(line.word("name")[1:]) if line.word("name") else "", line.number_if_any("by")
            who = line.word("name")[1:] or line.number_if_any("address")
            detail = (f", and sends{groups}" if groups else "") + self._beside.requests(who)
            self._found.tell(premise.kind, text, number, nanoseconds(time), None if by is None else by * MICROSECOND, flow=line.number_if_any("flow"),
                             unit=line.word("unit") or line.word("from") or None, detail=detail, times=line.number("times"),
                             ask=WORDS[line.word("word")].ask)

    def _fields(self, line: Line, frame: Noted | None, addresses: Mapping[int | None, str]) -> dict[str, object]:
        """What texts may have: the parts of a line, what the plan says, what was measured, and of the frame what stands in the log."""
        unit, group, timing = self._units.get(line.word("unit")), self._groups.get(line.word("group")), self._tables.timing
        found: dict[str, object] = {**line.parts, "measure": MEASURE, "receiver": "", "what": "a frame", "priority": "another priority",
                                    "groups": self._beside.groups(line.number_if_any("address"))}
        if line.word("name"):
            claims = "could not claim an address" if line.number("address") == NULL_ADDRESS else f"claims address {line.number('address')}"
            found |= {"name": line.word("name")[1:], "fields": fields_of(line.word("name")[1:]), "claims": claims}
        if unit:
            planned = f"planned is {unit.address}{', where it stays' if unit.may_choose else ''}"
            found["planned"] = planned if unit.claims else "and by the plan it never claims one"
        if timing:
            found["unplanned_priority"] = timing.unplanned_priority
        if group:
            text = f"{group.label} from {line.word('unit')} has"
            found |= {"planned_priority": group.priority, "layout": f"{text} another length than planned, {lengths_of(group)}, or the bits of no 'when'"}
        if frame:
            pgn, to, length = message_in(frame)
            found |= {"what": self._labels.get(pgn, f"PGN {pgn}"), "priority": f"priority {frame.priority}", "receiver": f" to {'all' if to == GLOBAL_ADDRESS else addresses.get(to, str(to))}"}
            if group:
                is_told = group.when is None or group.when.takes(frame.data)
                bits = f"PGN {pgn} from {line.word('unit')}: its bits are those of no group's 'when'"
                found["layout"] = f"{text} {length} bytes, planned are {lengths_of(group)}" if is_told else bits
        return found


def number_of(line: Line) -> int:
    """The line of the log at which it is told: the worst one, where something is measured, else the first."""
    return line.number_if_any("worst") or line.number("first")


def message_in(frame: Noted) -> tuple[int, int, int]:
    """The number of the message that a frame is, or announces, its destination and its length."""
    pgn, to = pgn_in(frame.identifier), destination_in(frame.identifier)
    if pgn == CONNECTION_MANAGEMENT and len(frame.data) == FRAME_BYTES:
        return int.from_bytes(frame.data[5:], "little"), to, int.from_bytes(frame.data[1:3], "little")
    return pgn, to, len(frame.data)


def frames_at(log: Log, numbers: set[int]) -> dict[int, tuple[str, Noted | None]]:
    """The first words of lines of a log, and the frames with 29 bits in them, of those of its files that can be read once more."""
    wanted: dict[str, dict[int, int]] = {}
    for number in numbers:
        name, line = log.place(number)
        if name in log.still:
            wanted.setdefault(name, {})[line] = number
    found = {}
    for name, lines in wanted.items():
        with whole(name) as file:
            for at, text in enumerate(iter(lambda: file.readline(), b""), 1):
                if at in lines and len(text) < LINE_MOST:
                    frame = FRAME.search(text)
                    found[lines[at]] = (text.split(maxsplit=1) or [b""])[0].decode(errors="replace"), noted_of(at, text, frame) if frame else None
                if at >= max(lines):
                    break
    return found
