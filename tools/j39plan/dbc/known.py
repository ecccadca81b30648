"""The signals that messages of a group have, in the plan or not, and how another message contradicts one."""

from __future__ import annotations

from collections.abc import Callable, Iterable
from dataclasses import dataclass
from typing import TYPE_CHECKING

from j39plan.dbc.names import SPN_ATTRIBUTE
from j39plan.left_out import plain

if TYPE_CHECKING:
    import canmatrix

    from j39plan.dbc.signals import Said


@dataclass(eq=False)
class KnownSignal:
    """A signal that a message of a group has; whether the plan lacks it, why, and whether its bits are held then."""

    signal: canmatrix.Signal
    said: Said
    bits: int
    message: str
    is_left_out: bool = False
    why: str = ""
    is_held: bool = False


def number_in(signal: canmatrix.Signal) -> str:
    """The number of SAE J1939 that a file gives a signal, empty where it gives none."""
    number = str(signal.attributes.get(SPN_ATTRIBUTE, ""))
    return "" if number == "0" else number


def same_signal(new: KnownSignal, earlier: Iterable[KnownSignal]) -> KnownSignal | None:
    """The signal of an earlier message that a signal is, or that it contradicts: that of its name, else of its number, else the one that lies
    and means the same, else one that shares a bit with it."""
    ways: tuple[Callable[[KnownSignal], object], ...] = (
        lambda known: known.signal.name == new.signal.name,
        lambda known: number_in(known.signal) == number_in(new.signal) != "",
        lambda known: known.said == new.said,
        lambda known: known.bits & new.bits,
    )
    return next((known for is_same in ways for known in earlier if is_same(known)), None)


def shown_place(signal: canmatrix.Signal) -> str:
    """Where a signal begins, byte and bit counted from 1, and how many bits it has."""
    start = signal.get_startbit(bit_numbering=1, start_little=True)
    return f"{start // 8 + 1}.{start % 8 + 1}, {signal.size} bits"


def difference(known: KnownSignal, other: KnownSignal) -> str:
    """How a signal contradicts that of an earlier message."""
    signal, said, name = known.signal, known.said, f"{plain(other.signal.name)} of {other.message}"
    if other.said.place[:2] == said.place[:2] and other.said.place != said.place:
        return f"{name} has another byte order"
    if other.said.place == said.place:
        return f"{name} has another {said.other(other.said)}"
    if signal.name != other.signal.name and number_in(signal) != number_in(other.signal):
        return f"{name} lies over it"
    return f"it is at {shown_place(signal)}, and {name} at {shown_place(other.signal)}"
