"""Of which vehicles of a line a log can be, by the NAMEs that claim addresses in it (SAE J1939-81), and by who sends from an address that none claims."""

import contextlib
import os
import re
from collections.abc import Iterable, Iterator, Sequence
from itertools import chain
from typing import NamedTuple

from j39plan import program
from j39plan.j1939 import kind_of
from j39plan.log.checks.lines import FRAME, first_word
from j39plan.log.checks.hands import ANSWER
from j39plan.log.clock import nanoseconds
from j39plan.log.files import Log
from j39plan.log.serial_numbers import first_interface, name_in, names_in, pieces_of
from j39plan.plan.files import one_variant, opened
from j39plan.plan.parts import source_in
from j39plan.plan.tables import Unit
from j39plan.plan.variants import Line, line_of

# A request to all for their claims: its identifier from the PGN on, and its bytes.
ASKED = re.compile(rb"[Ee][Aa][Ff][Ff][0-9A-Fa-f]{2}#00[Ee][Ee]00")

# A frame: what stands before it, its source address, and behind that, of a claim, the bytes of a NAME.
SENT = re.compile(rb"(?:^|(\S+)[ \t]+)[01][0-9A-Fa-f]([0-9A-Fa-f]{2})[0-9A-Fa-f]{2}([0-9A-Fa-f]{2})#", re.MULTILINE)
CLAIMS = b"EE"

# What is named in place of alternatives where these are those of the log.
BY_LOG = "log"


class Claimants(NamedTuple):
    """Who claims in a log: units by their labels and others by their NAMEs; the units that claim in no log of it, where it shows who is there, else None; and
    for each address that sends and is never claimed the units, of which one does."""

    units: list[str]
    others: list[str]
    silent: list[str] | None
    sends: list[list[str]]


class Possible(NamedTuple):
    """By the log's claims: of each choice the alternatives that a vehicle of the log may have, and the first such vehicle; both empty where there is none."""

    choices: list[list[str]]
    first: list[str]


def shows_all(files: Iterable[str]) -> bool:
    """Whether a log shows who is there: it begins with a claim, or claims were asked for, and it goes on for as long as an answer may take."""
    asked: int | None = None
    last = ""
    is_begun = False
    for line in chain.from_iterable(piece.splitlines() for name in files for piece in pieces_of(name)):
        if FRAME.search(line):
            is_start, is_begun, last = not is_begun, True, first_word(line)
            if asked is None and (is_start and name_in(line) is not None or ASKED.search(line)):
                asked = nanoseconds(last)
    at = nanoseconds(last)
    return asked is not None and at is not None and at - asked >= ANSWER


def unclaimed_in(files: Iterable[str], interface: str | None) -> list[int]:
    """The addresses from which something comes in a log, and which nobody claims, on this interface, or where none is named on the first."""
    read = None if interface is None else os.fsencode(interface)
    senders, claimed = set[bytes](), set[bytes]()
    for piece in (piece for name in files for piece in pieces_of(name)):
        read = read or first_interface(piece)
        for before, form, sender in set(SENT.findall(piece)):
            if before in (b"", read) or before.startswith(b"("):
                (claimed if form.upper() == CLAIMS else senders).add(sender.upper())
    return sorted(int(sender, 16) for sender in senders - claimed)


def seen_in(units: list[Unit], files: list[str], interface: str | None) -> tuple[Claimants, list[list[Unit]]]:
    """Who claims or sends in a log, and of each NAME that units of the line have these, those of its number, else those of its kind, and of each address that
    nobody claims."""
    found, others = list[list[Unit]](), list[str]()
    for name in names_in(files, interface):
        own = [unit for unit in units if unit.claims and unit.number == name and unit.identity is not None]
        own = own or [unit for unit in units if unit.claims and unit.kind == kind_of(name)]
        if own:
            found.append(own)
        else:
            others.append(f"{name:016X}")
    heard = {unit.label for own in found for unit in own}
    at = ([unit for unit in units if unit.address == address] for address in unclaimed_in(files, interface))
    sends = [own for own in at if own and not heard.intersection(unit.label for unit in own)]
    there = heard.union(unit.label for own in sends for unit in own)
    silent = [unit.label for unit in units if unit.claims and unit.label not in there] if shows_all(files) else None
    return Claimants([unit.label for unit in units if unit.label in heard], others, silent, [[unit.label for unit in own] for own in sends]), found + sends


def possible_in(line: Line, units: list[Unit], seen: Claimants, found: list[list[Unit]]) -> Possible:
    """Which vehicles a log can be of: those that have a unit of each NAME and sender, and none that is silent where it shows who is there."""
    lists = {unit.label: line.named.get(("unit", number), []) for number, unit in enumerate(units, 1)}
    wanted = [[[lists[unit.label]] for unit in own] for own in found]
    gone = [lists[label] for label in seen.silent or () if lists[label]]
    first = line.first(set(), wanted, gone)
    if first is None:
        return Possible([], [])
    choices = [[label for label in choice if line.first({label}, wanted, gone)] for choice in line.choices]
    return Possible(choices, [label for choice in line.choices for label in choice if label in first])


def possible_by(plan: str, name: str, files: list[str], interface: str | None) -> tuple[Claimants, Possible]:
    """Who is seen in a log, and of which vehicles of a line it can be; the plan's file has this name."""
    line = line_of(plan)
    if not line.choices:
        raise program.Refused(program.UNREADABLE, f"{name} has no choices")
    units = source_in(plan).tables.units
    seen, found = seen_in(units, files, interface)
    return seen, possible_in(line, units, seen, found)


def refuse_pipes(files: Sequence[str], interface: str | None, option: str) -> None:
    """Refuses logs that can't be read twice."""
    with Log(files, interface) as log:
        if not log.still:
            raise program.Refused(program.UNREADABLE, f"{option} takes regular files, which are read twice")


def variant_in(plan: str, name: str, files: list[str], interface: str | None) -> list[str]:
    """The alternatives of the one vehicle that a log can be of. Where it can be of none, or of several, that is refused."""
    refuse_pipes(files, interface, f"--variant {BY_LOG}")
    seen, possible = possible_by(plan, name, files, interface)
    if not possible.first:
        there = [*seen.units, *(" or ".join(labels) for labels in seen.sends)]
        raise program.Refused(program.UNREADABLE, f"{name}: the log is of no vehicle of the line: it has {', '.join(there)}")
    if several := [" or ".join(labels) for labels in possible.choices if len(labels) > 1]:
        why = f"{name}: the log can be of several vehicles, with {', and '.join(several)}: name one, as --variant {','.join(possible.first)}"
        raise program.Refused(program.UNREADABLE, why)
    return possible.first


@contextlib.contextmanager
def opened_by(name: str, variant: Sequence[str] | None, files: list[str], interface: str | None) -> Iterator[str]:
    """The name of a copy of a plan's file as `opened` has it, where the vehicle may be the one that a log shows, which is said."""
    if variant is None or list(variant) != [BY_LOG]:
        with opened(name, variant) as plan:
            yield plan
        return
    with opened(name) as plan:
        labels = list(variant) if any(BY_LOG in choice for choice in line_of(plan).choices) else variant_in(plan, name, files, interface)
        program.say(f"--variant {','.join(labels)}")
        with one_variant(plan, labels) as one:
            yield one
