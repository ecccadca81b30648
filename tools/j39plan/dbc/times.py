"""How far apart the messages of a frame are, as a file says it."""

from __future__ import annotations

import re
from decimal import Decimal
from math import gcd
from typing import TYPE_CHECKING, NamedTuple

from j39plan.dbc.names import CYCLE_ATTRIBUTE, DELAY_ATTRIBUTE, FAST_ATTRIBUTE, SEND_ATTRIBUTE
from j39plan.left_out import plain

if TYPE_CHECKING:
    import canmatrix

# Ways of sending by which nothing but the cycle sends a message, without what is no letter.
CYCLIC = re.compile(r"|nomsgsendtype|notused|cyclic|periodic|fixedperiodic|ifactive|cyclicif(?:signal)?active")


def number_of(value: object) -> int | None:
    """The whole number that an attribute has, or None."""
    if value is None:
        return None
    text = str(value).strip().lower()
    if text in ("yes", "no", "true", "false"):
        return int(text in ("yes", "true"))
    try:
        number = Decimal(text)
        return int(number) if abs(number) < 10**12 and number == int(number) else None
    except ArithmeticError:
        return None


class CycleTimes(NamedTuple):
    """How far apart messages are at least, in ms, None where that isn't said; their cycle time where that is no least distance, else 0; by
    what they are sent where it isn't a cycle alone; and what is noted of it, with what it is noted of."""

    period: int | None
    cycle: int
    sent: str
    notes: list[tuple[str, str]]


def attribute_of(frame: canmatrix.Frame, name: str, matrix: canmatrix.CanMatrix) -> object:
    """An attribute of a frame: its own, else the file's default, which each frame has that has none."""
    if name in frame.attributes:
        return frame.attributes[name]
    define = matrix.frame_defines.get(name)
    return None if define is None else define.defaultValue


def cycle_of(frame: canmatrix.Frame, matrix: canmatrix.CanMatrix) -> tuple[int, bool]:
    """The cycle time of a frame in ms, 0 where there is none, and whether it is the file's default: its own, else what divides those of
    its signals, else the default."""
    own = frame.cycle_time or gcd(*(signal.cycle_time or 0 for signal in frame.signals))
    if own or CYCLE_ATTRIBUTE in frame.attributes:
        return own, False
    default = number_of(attribute_of(frame, CYCLE_ATTRIBUTE, matrix)) or 0
    return default, bool(default)


def times_of(frame: canmatrix.Frame, matrix: canmatrix.CanMatrix) -> CycleTimes:
    """How far apart the messages of a frame are at least. Where its cycle alone sends it that is its cycle time, or the shorter one while it
    is active; where something else sends it too, its delay time."""
    way = plain(attribute_of(frame, SEND_ATTRIBUTE, matrix) or "")
    fast, delay = (number_of(attribute_of(frame, name, matrix)) or 0 for name in (FAST_ATTRIBUTE, DELAY_ATTRIBUTE))
    cycle, is_default = cycle_of(frame, matrix)
    what = f"group {frame.name}"
    notes = [(f"{what}, {CYCLE_ATTRIBUTE}", f"{cycle} is the default of the file")] if is_default else []
    if not CYCLIC.fullmatch(re.sub(r"[\W_]", "", way.lower())):
        if delay and cycle not in (0, delay):
            notes.append((what, f"it is sent {way}: its period is its delay time of {delay} ms, not its cycle time of {cycle} ms"))
        elif cycle and not delay:
            notes.append((what, f"it is sent {way}, and its cycle time of {cycle} ms is no least distance: it has no period"))
        return CycleTimes(delay or None, cycle, way.replace(" ", "_"), notes)
    if 0 < fast < cycle:
        notes.append((what, f"its period is {fast} ms, as while it is active; else its cycle time is {cycle} ms"))
        return CycleTimes(fast, cycle, "", notes)
    return CycleTimes(cycle or fast or delay or None, 0, "", notes)
