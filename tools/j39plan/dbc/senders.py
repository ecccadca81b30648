"""Which unit sends a message for which a file names no sender: the one that has the source address of its identifier."""

from __future__ import annotations

from collections.abc import Iterable, Mapping
from typing import TYPE_CHECKING

from j39plan.dbc.names import NOBODY
from j39plan.j1939 import GLOBAL_ADDRESS, NULL_ADDRESS
from j39plan.left_out import Notes

if TYPE_CHECKING:
    import canmatrix

    from j39plan.dbc.merge import BusFrame


def senders_of(frame: canmatrix.Frame) -> list[str]:
    """The nodes that a file names as the senders of a frame."""
    return [name for name in frame.transmitters if name != NOBODY]


def source_of(frame: canmatrix.Frame) -> int | None:
    """The source address of a frame, None where its identifier names nobody's."""
    ident = frame.arbitration_id
    return int(ident.j1939_source) if ident.extended and ident.j1939_source not in (NULL_ADDRESS, GLOBAL_ADDRESS) else None


def give_senders(sent: Iterable[BusFrame], units: Mapping[str, int], notes: Notes) -> None:
    """Gives each frame without a sender the unit that has its source address, these units being at these addresses. Where another file
    names that unit as the sender of the same identifier nothing is noted."""
    messages = list(sent)
    named = {(one.frame.arbitration_id.id, name) for one in messages for name in senders_of(one.frame)}
    for one in messages:
        frame, source = one.frame, source_of(one.frame)
        there = [name for name, address in units.items() if address == source]
        if senders_of(frame) or len(there) != 1:
            continue
        frame.transmitters = there
        if (frame.arbitration_id.id, there[0]) not in named:
            notes.file = one.file
            notes.say(f"group {frame.name}", f"it names no sender: {there[0]} has its source address {source}")
    notes.file = ""
