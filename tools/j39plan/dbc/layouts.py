"""Multiplexed messages as several: one for each value of the multiplexor, with the signals that a message has then."""

from __future__ import annotations

import copy
import re
from collections import defaultdict
from collections.abc import Iterable, Iterator
from typing import TYPE_CHECKING, NamedTuple

from j39plan.dbc.names import ALWAYS_ATTRIBUTE, GROUPS_ATTRIBUTE, KIND_ATTRIBUTE, SELECTOR_KIND
from j39plan.dbc.signals import is_selector, is_sometimes, place_of
from j39plan.dbc.times import times_of
from j39plan.j1939 import PROPRIETARY
from j39plan.left_out import LeftOut, Notes, plain
from j39plan.plan.schema import knows, most_of
from j39plan.plan.text import as_label

if TYPE_CHECKING:
    import canmatrix

    from j39plan.dbc.merge import BusFrame

# The most groups that a plan has.
GROUPS = most_of("", "group")

# A value of a multiplexor and what its group is called, in the attribute of a message that names the groups of which it is made.
NAMED = re.compile(r"(\d+) (\w+)")


class Bits(NamedTuple):
    """Bits of the data: where they begin, byte and bit counted from 1, and how many they are."""

    byte: int
    bit: int
    bits: int

    def when(self, value: int) -> dict[str, int]:
        """The key of a group in whose messages they have this value."""
        return {"byte": self.byte, **({"bit": self.bit} if self.bit > 1 else {}), "bits": self.bits, "value": value}


def are_apart(one: dict[str, int] | None, other: dict[str, int] | None) -> bool:
    """Whether no message of one group is taken for one of another of its number: the same bits have another value."""
    return one is not None and other is not None and one["value"] != other["value"] and {**one, "value": 0} == {**other, "value": 0}


def only_selects(signal: canmatrix.Signal) -> bool:
    """Whether a signal is none of a plan, and stands in the file for the bits by which groups are told."""
    return bool(signal.attributes.get(KIND_ATTRIBUTE) == SELECTOR_KIND)


def values_of(signal: canmatrix.Signal) -> list[range]:
    """The values of the multiplexor with which a message has a signal."""
    if signal.mux_val_grp:
        return [range(int(first), int(last) + 1) for first, last in signal.mux_val_grp]
    return [] if signal.mux_val is None else [range(int(signal.mux_val), int(signal.mux_val) + 1)]


def has(signal: canmatrix.Signal, value: int) -> bool:
    """Whether messages with this value of the multiplexor have a signal."""
    return not is_sometimes(signal) or any(value in some for some in values_of(signal))


def selector_of(frame: canmatrix.Frame, version: int) -> tuple[canmatrix.Signal, Bits]:
    """The multiplexor of a message, and its bits, if each message has them and a plan can name them."""
    selectors = [signal for signal in frame.signals if is_selector(signal)]
    if len(selectors) != 1:
        raise LeftOut("it has several multiplexors" if selectors else "no signal of it is its multiplexor")
    selector = selectors[0]
    try:
        start = place_of(selector, version)
    except LeftOut as why:
        raise LeftOut(f"its multiplexor {selector.name} can't be one: {why}") from why
    if selector.is_signed and selector.size > 1:
        raise LeftOut(f"its multiplexor {selector.name} can't be one: it is signed")
    if start + selector.size > 8 * frame.size:
        raise LeftOut(f"its multiplexor {selector.name} can't be one: it lies outside of the {frame.size} bytes")
    return selector, Bits(start // 8 + 1, start % 8 + 1, selector.size)


class MultiplexLayouts:
    """Multiplexed messages, as they are taken apart. All messages of a number have to be multiplexed by the same bits, but for makers' own
    ones, which are told by their senders too."""

    def __init__(self, sent: list[BusFrame], version: int, notes: Notes) -> None:
        self._version, self._notes = version, notes
        self._bits: dict[int, Bits] = {}
        if knows(version, ("group", "when")):
            self._find(sent)

    def _find(self, sent: list[BusFrame]) -> None:
        """Looks for the bits by which the messages are told."""
        found: dict[int, set[Bits | None]] = defaultdict(set)
        for one in sent:
            frame = one.frame
            self._notes.file = one.file
            bits = self._bits_of(frame)
            if bits is not None:
                self._bits[id(frame)] = bits
            if frame.arbitration_id.extended and frame.arbitration_id.pgn not in PROPRIETARY:
                found[frame.arbitration_id.pgn].add(bits)
        for one in sent:
            frame = one.frame
            if id(frame) in self._bits and len(found.get(frame.arbitration_id.pgn, ())) > 1:
                self._notes.file = one.file
                self._notes.say(f"group {frame.name}", "it is multiplexed, and not all messages of its number are so by the same bits")
                del self._bits[id(frame)]
        self._notes.file = ""

    def _bits_of(self, frame: canmatrix.Frame) -> Bits | None:
        """The bits by which the messages of a frame are told, if it is multiplexed; why they can't be is said."""
        if not frame.arbitration_id.extended or not (any(map(is_sometimes, frame.signals)) or frame.attributes.get(GROUPS_ATTRIBUTE)):
            return None
        try:
            return selector_of(frame, self._version)[1]
        except LeftOut as why:
            self._notes.say(f"group {frame.name}", why)
            return None

    def of(self, one: BusFrame) -> list[BusFrame]:
        """A message as those that it is taken apart into; itself alone where it isn't."""
        frame, bits = one.frame, self._bits.get(id(one.frame))
        if bits is None:
            return [one]
        selector, _ = selector_of(frame, self._version)
        names = MultiplexNames(frame)
        left = [signal for signal in frame.signals if not self._is_nested(signal, selector, frame) and not only_selects(signal)]
        values = self._values(frame, left, selector, bits, names.told)
        period = times_of(frame, one.matrix).period
        if period and len(values) > 1:
            self._notes.say(f"group {frame.name}", f"each of the {len(values)} groups that it becomes has its cycle time of {period} ms")
        return [one._replace(frame=with_signals(frame, list(plainly(left, value))), when=bits.when(value), name=names[value]) for value in values]

    def _values(self, frame: canmatrix.Frame, signals: list[canmatrix.Signal], selector: canmatrix.Signal, bits: Bits,
                named: Iterable[int]) -> list[int]:
        """The values of the multiplexor with which a message has further ones of these signals, or that it names; those that none can have are
        said, and those of which there are too many."""
        some = [one for signal in signals if is_sometimes(signal) for one in values_of(signal)]
        held = [range(max(one.start, 0), min(one.stop, 1 << bits.bits)) for one in some]
        for one, kept in zip(some, held, strict=True):
            if len(kept) < len(one):
                self._notes.say(f"group {frame.name}", f"its multiplexor {selector.name} of {bits.bits} bits is never {one[-1]}")
        values = sorted({*(value for value in named if value < 1 << bits.bits), *(value for one in held for value in one[:GROUPS + 1])})
        if len(values) > GROUPS:
            self._notes.say(f"group {frame.name}", f"a plan has at most {GROUPS} groups: taken are the first values of {selector.name}")
        return values[:GROUPS]

    def _is_nested(self, signal: canmatrix.Signal, selector: canmatrix.Signal, frame: canmatrix.Frame) -> bool:
        """Whether a signal hangs on another multiplexor than that of each message, which is said."""
        if not is_sometimes(signal) or signal.muxer_for_signal in (None, selector.name):
            return False
        self._notes.say(f"signal {signal.name} of {frame.name}", f"left out: it is multiplexed by {signal.muxer_for_signal}, which not each message has")
        return True


class MultiplexNames:
    """What the groups are called that a multiplexed message becomes: as the message says itself, else like the message, with the value."""

    def __init__(self, frame: canmatrix.Frame) -> None:
        self._message = plain(frame.name or "")
        self.told = {int(value): name for value, name in NAMED.findall(str(frame.attributes.get(GROUPS_ATTRIBUTE) or ""))}

    def __getitem__(self, value: int) -> str:
        end = f"_m{value}"
        return self.told.get(value) or as_label(self._message)[:32 - len(end)] + end


def plainly(signals: list[canmatrix.Signal], value: int) -> Iterator[canmatrix.Signal]:
    """The signals of a message with this value of the multiplexor, as ones that each message has."""
    for signal in signals:
        if has(signal, value):
            same = copy.copy(signal)
            if not is_sometimes(signal):
                same.attributes = {**signal.attributes, **({} if is_selector(signal) else {ALWAYS_ATTRIBUTE: "1"})}
                yield same
                continue
            same.multiplex, same.mux_val, same.mux_val_grp, same.is_multiplexer, same.muxer_for_signal = None, None, [], False, None
            yield same


def with_signals(frame: canmatrix.Frame, signals: list[canmatrix.Signal]) -> canmatrix.Frame:
    """The frame with other signals."""
    same = copy.copy(frame)
    same.signals = signals
    return same
