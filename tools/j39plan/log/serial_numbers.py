"""Which serial numbers the boxes of a log have, by the NAMEs that claim addresses in it: so units are known whose planned numbers are those of
another vehicle (SAE J1939-81)."""

import contextlib
import os
import re
from collections import Counter
from collections.abc import Iterable, Iterator
from typing import NamedTuple

from j39plan import program
from j39plan.j1939 import ADDRESS_CLAIMED, FRAME_BYTES, GLOBAL_ADDRESS, identity_in, kind_of, pgn_in, source_in
from j39plan.log.checks.lines import FRAME
from j39plan.log.files import LINE_MOST, interface_of, whole
from j39plan.plan.cut import of_any_number
from j39plan.plan.tables import Tables, Unit

# What may be a claim: its identifier from the PGN on, and eight bytes.
CLAIM = re.compile(rb"[Ee][Ee][0-9A-Fa-f]{4}#[0-9A-Fa-f]{16}")

# So much of a log is looked through at a time.
PIECE = 1 << 20


class OtherBox(NamedTuple):
    """A unit whose box has another serial number in a log than in the plan."""

    label: str
    identity: int
    planned: int

    @property
    def text(self) -> str:
        """That as a text."""
        return f"{self.label} has identity {self.identity}, planned is {self.planned}"


def name_in(line: bytes) -> int | None:
    """The NAME that claims an address in a line of a log, or can't; None of any other line."""
    frame = FRAME.search(line)
    if frame is None:
        return None
    identifier, data = int(frame.group(1), 16), bytes.fromhex(frame.group(2).decode())
    is_claim = pgn_in(identifier) == ADDRESS_CLAIMED and source_in(identifier) != GLOBAL_ADDRESS and len(data) == FRAME_BYTES
    return int.from_bytes(data, "little") if is_claim else None


def pieces_of(name: str) -> Iterator[bytes]:
    """A file in pieces of whole lines."""
    with whole(name) as file:
        while piece := file.read(PIECE):
            yield piece + file.readline(LINE_MOST)


def first_interface(piece: bytes) -> bytes | None:
    """The first interface that a line with a frame names."""
    lines = (line for line in piece.split(b"\n") if FRAME.search(line))
    return next(filter(None, map(interface_of, lines)), None)


def names_in(files: Iterable[str], interface: str | None) -> list[int]:
    """The NAMEs that claim an address in the files of a log, or can't, in their order, on this interface, or where none is named on the first."""
    read, found = None if interface is None else os.fsencode(interface), dict[int, None]()
    for piece in (piece for name in files for piece in pieces_of(name)):
        read = read or first_interface(piece)
        for claim in CLAIM.finditer(piece):
            end = piece.find(b"\n", claim.end())
            line = piece[piece.rfind(b"\n", 0, claim.start()) + 1:end if end >= 0 else len(piece)]
            name = name_in(line) if interface_of(line) in (None, read) else None
            if name is not None:
                found[name] = None
    return list(found)


def renumbered(units: list[Unit], files: Iterable[str], interface: str | None) -> dict[int, OtherBox]:
    """The units, counted from 1, whose numbers no NAME has that claims in a log, though one of their kind does, which no other unit is of."""
    kinds = Counter(unit.kind for unit in units)
    sought = {unit.kind: (at, unit) for at, unit in enumerate(units, 1) if unit.identity is not None and unit.claims and kinds[unit.kind] == 1}
    names = names_in(files, interface) if sought else []
    found: dict[int, OtherBox] = {}
    for name in names:
        at, unit = sought.get(kind_of(name), (0, None))
        if unit and unit.identity is not None and unit.number not in names:
            found.setdefault(at, OtherBox(unit.label, identity_in(name), unit.identity))
    return found


@contextlib.contextmanager
def by_kind(plan: str, tables: Tables, files: Iterable[str], interface: str | None) -> Iterator[tuple[str, Tables, list[OtherBox]]]:
    """The name of a plan by which a log is followed, its tables, and the units whose boxes have other serial numbers in it: there they are of any
    number, so that each is known by its kind. Of a log that is still to come no file is named: it is followed by the plan as it is."""
    found = renumbered(tables.units, files, interface)
    if not found:
        yield plan, tables, []
        return
    with of_any_number(plan, tables, found) as (other, parts):
        yield other, parts, list(found.values()) if other != plan else []


def say_numbers(others: Iterable[OtherBox]) -> None:
    """Says which boxes have other serial numbers than the plan's."""
    for other in others:
        program.say(other.text)
