"""Requests that the plan doesn't have: who asks whom for which group, how often, and what becomes of it (SAE J1939-21)."""

from __future__ import annotations

from collections.abc import Callable
from dataclasses import dataclass
from typing import Any

from j39plan.j1939 import ADDRESS_CLAIMED
from j39plan.log.clock import milliseconds
from j39plan.log.checks.deviations import Found, Place, place_row
from j39plan.log.reports import ACKNOWLEDGEMENTS, REFUSALS, Request, Who
from j39plan.log.checks.requests import DONE, DONE_TO_ALL, PROMPT, WAITED

# The bytes of an acknowledgement, and where its control byte, the address that it is for, and its PGN stand.
BYTES, CONTROL, FOR, PGN = 8, 0, 4, 5


@dataclass
class Asked:
    """The requests of one for a group: its PGN and what it is called, who asks whom, the first place, and how many there are of each outcome."""

    pgn: int
    what: str
    sender: Who
    to: Who
    place: Place
    asked: int = 0
    answered: int = 0
    refused: int = 0
    unanswered: int = 0

    @property
    def text(self) -> str:
        """Who asks whom for what."""
        return f"request for {self.what} by {self.sender.shown} to {self.to.shown}, which the plan doesn't have"

    @property
    def is_between_units(self) -> bool:
        """Whether a planned unit asks another one, which has to answer then."""
        return self.sender.label is not None and self.to.label is not None

    def is_answer(self, sender: Who, to: int | None) -> bool:
        """Whether what one sends to an address, or to all, answers it."""
        is_asked = sender.address != self.sender.address if self.to.address is None else sender.address == self.to.address
        return is_asked and to in (None, self.sender.address)

    def row(self, place_of: Callable[[int], tuple[str, int]]) -> dict[str, Any]:
        """Its plain values, for JSON."""
        group = {} if self.what == f"PGN {self.pgn}" else {"group": self.what}
        return {"pgn": self.pgn, **group, "from": self.sender.shown, "to": self.to.shown, "asked": self.asked, "answered": self.answered,
                "refused": self.refused, "unanswered": self.unanswered, **place_row("unanswered", self.place, place_of)}


class OtherRequests:
    """The requests of a log that the plan doesn't have, those for claims passed over. What a unit doesn't answer within 1,250 ms, though it is
    asked alone and is on, is told, and what it refuses or answers late; and who refuses what is asked of all."""

    def __init__(self, labels: dict[int, str], found: Found, is_on: Callable[[str, int | None], bool]) -> None:
        self._labels, self._found, self._is_on = labels, found, is_on
        self._rows: dict[tuple[int, str, str], Asked] = {}
        self._first: dict[tuple[str, str], str] = {}  # of each kind and who asks what is told of the first request; nothing where it is of several
        self.open: dict[int, dict[tuple[str, str], tuple[Asked, Place, bool]]] = {}  # by the PGN, and who asks whom

    def anew(self) -> None:
        """The clock was set, or frames are missing: what is open counts no more."""
        self.open.clear()

    def asks(self, line: int, at: int | None, request: Request) -> bool:
        """A request, which is none of the plan; whether messages may come by it."""
        if request.pgn == ADDRESS_CLAIMED:
            return False
        way, place = (request.sender.shown, request.to.shown), Place(line, at)
        row = self._rows.get((request.pgn, *way))
        if row is None:
            what = self._labels.get(request.pgn, f"PGN {request.pgn}")
            row = self._rows[(request.pgn, *way)] = Asked(request.pgn, what, request.sender, request.to, place)
        self._passes(request.pgn, at)
        row.asked += 1
        row.sender, row.to = request.sender, request.to
        is_on = row.is_between_units and self._is_on(row.to.label or "", at)
        self.open.setdefault(request.pgn, {})[way] = row, place, is_on
        return True

    def answers(self, line: int, at: int | None, sender: Who, to: Who, pgn: int) -> None:
        """A message of a group begins that is asked for."""
        self._passes(pgn, at)
        for row, asked, is_on in self._closed(pgn, sender, to.address):
            row.answered += 1
            if is_on and at is not None and asked.at is not None and at - asked.at > PROMPT:
                text = f"{row.text}: answered {{}} ms after it, later than {milliseconds(PROMPT)} ms"
                self._found.tell("late", text, line, at, at - asked.at, unit=row.to.label)

    def acknowledged(self, at: int | None, sender: Who, to: Who, data: bytes) -> None:
        """An acknowledgement comes, which may refuse requests."""
        pgn = int.from_bytes(data[PGN:BYTES], "little")
        if len(data) != BYTES or data[CONTROL] >= len(ACKNOWLEDGEMENTS) or pgn not in self.open:
            return
        self._passes(pgn, at)
        word, meant = ACKNOWLEDGEMENTS[data[CONTROL]], to.address if to.address is not None else data[FOR]
        if word not in REFUSALS:
            return
        for row, place, _ in list(self.open.get(pgn, {}).values()):
            if row.to.address is None and sender.label and meant in (row.sender.address, 0xFF) and sender.address != row.sender.address:
                self._found.tell("refused-to-all", f"{row.text}: {sender.label} {DONE_TO_ALL}", place.line, place.at, unit=sender.label)
            if row.to.address is not None and meant in (row.sender.address, 0xFF) and row.is_answer(sender, None):
                self._close(row)
                row.refused += 1
                if row.is_between_units:
                    self._tell("refused", "are refused", row, f"{row.text}: {DONE[word]}", place)

    def _tell(self, kind: str, ending: str, row: Asked, text: str, place: Place) -> None:
        """A unit refuses what another one asks for, or doesn't answer. Who asks several so, as by a scan, is told once."""
        asks, many = row.sender.label, f"requests by {row.sender.shown}, which the plan doesn't have: several {ending}"
        first = self._first.setdefault((kind, row.sender.shown), text)
        if first == text:
            self._found.tell(kind, text, place.line, place.at, unit=row.to.label)
            return
        if first and (known := self._found.met(first)):
            self._first[kind, row.sender.shown] = ""
            self._found.withdraw(first)
            self._found.tell(kind, many, known.place.line, known.place.at, unit=asks, times=known.times)
        self._found.tell(kind, many, place.line, place.at, unit=asks)

    def _closed(self, pgn: int, sender: Who, to: int | None) -> list[tuple[Asked, Place, bool]]:
        """What isn't open any more, since one sends the group to an address, or to all."""
        closed = [one for one in self.open.get(pgn, {}).values() if one[0].is_answer(sender, to)]
        for row, *_ in closed:
            self._close(row)
        return closed

    def _close(self, row: Asked) -> None:
        """Something has become of a request."""
        waiting = self.open[row.pgn]
        del waiting[row.sender.shown, row.to.shown]
        if not waiting:
            del self.open[row.pgn]

    def _passes(self, pgn: int, at: int | None) -> None:
        """Time goes by: what has no answer until now has none."""
        for row, place, is_on in list(self.open.get(pgn, {}).values()):
            if at is not None and place.at is not None and not 0 <= at - place.at <= WAITED:
                self._close(row)
                row.unanswered += 1
                if is_on:
                    within = f"within {milliseconds(WAITED)} ms"
                    self._tell("unanswered", f"have no answer {within}", row, f"{row.text}: no answer {within}", place)

    def goes_by(self, at: int | None) -> None:
        """Time goes by, until the log's end: all that has no answer until now has none."""
        for pgn in list(self.open):
            self._passes(pgn, at)

    def rows(self) -> list[Asked]:
        """All requests, in the order in which they came first."""
        return list(self._rows.values())
