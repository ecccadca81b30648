"""The signals of a frame, as canmatrix has it, as tables of a plan."""

from __future__ import annotations

import re
from collections.abc import Callable, Iterable
from decimal import Decimal
from fractions import Fraction
from functools import lru_cache
from math import lcm
from typing import TYPE_CHECKING, Any, NamedTuple

from j39plan.dbc.holders import Holders
from j39plan.dbc.known import KnownSignal, difference, same_signal
from j39plan.dbc.names import (
    ALWAYS_ATTRIBUTE, BYTES_ATTRIBUTE, CODE_CONTENT, CONTENT_ATTRIBUTE, KIND_ATTRIBUTE, REPEATED_ATTRIBUTE, SIGNAL_ATTRIBUTE, SPN_ATTRIBUTE, TEXT_CONTENT,
)
from j39plan.dbc.remarks import ALWAYS, milliseconds, named_values, quoted, received_by, remark
from j39plan.left_out import LeftOut, Notes, plain
from j39plan.plan.schema import knows, most_of
from j39plan.plan.text import Labels, Table, as_label

if TYPE_CHECKING:
    import canmatrix

# The most of each that a plan has; how wide a signal of it is that isn't left out, and its unit of measurement (docs/guide/PLAN.md).
SIGNALS, TEXTS, BYTES, NAMES = most_of("group", "signal"), most_of("group", "text"), most_of("group", "length"), most_of("signal", "values")
BITS, UNIT, NUMBERS = 32, 32, range(most_of("signal", "spn") + 1)

# The most that a step, an offset and the divisor of a value are. What a decimal fraction counts in is always a product of 2s and 5s.
STEP, OFFSET, PER = (most_of("signal", key) for key in ("step", "offset", "per"))

# What units of measurement are spelled with in ASCII.
SPELLED = str.maketrans({"°": "deg", "º": "deg", "µ": "u", "μ": "u", "²": "2", "³": "3", "Ω": "Ohm", "·": "*", "–": "-"})

# Words by which a table of values calls the two raw numbers that a discrete signal has for fault and 'not available'.
NO_VALUE = re.compile(
    r"error|fault|fail|reserved|not.?avail|unavail|n/?a\b|take.?no.?action|don.?t.?care|invalid|sna", re.IGNORECASE
)

# Words for the two greatest raw numbers of states: that below all ones, and all ones.
FAULTY = re.compile(r"error|fault|fail|invalid", re.IGNORECASE)
ABSENT = re.compile(r"not.?avail|unavail|n/?a\b|take.?no.?action|don.?t.?care|sna", re.IGNORECASE)


def values_of(kind: str, bits: int) -> tuple[int, int]:
    """The least and the greatest raw number that is a value of this kind."""
    if kind == "signed":
        return -(1 << (bits - 1)), (1 << (bits - 1)) - 1
    most = (1 << bits) - 1
    reserved = {"measured": 5 << (bits - 8) if bits >= 8 else 0, "discrete": 2, "states": 2}
    return 0, max(0, most - reserved.get(kind, 0))


class Misplaced(LeftOut):
    """Why a signal isn't in the plan that could be: it lies outside of its group, or over an earlier one."""


class Steps(NamedTuple):
    """A value is (offset + step * raw) / parts."""

    step: int
    offset: int
    parts: int


class Layout:
    """Where the signals of a group lie."""

    def __init__(self) -> None:
        self.taken: list[tuple[int, int, str]] = []

    def fault(self, start: int, size: int, length: int) -> str:
        """What is wrong with a place in a message of so many bytes, if anything is."""
        if start + size > 8 * length:
            return f"it lies outside of the {length} bytes"
        other = next((label for first, end, label in self.taken if start < end and first < start + size), "")
        return f"it overlaps {other}" if other else ""

    def take(self, start: int, size: int, label: str) -> None:
        """Gives a place to a signal."""
        self.taken.append((start, start + size, label))


@lru_cache(4096)
def exactly(value: object) -> Fraction | None:
    """A factor, an offset or the end of a range, unless it is none or has more digits than a plan could say."""
    try:
        number = Decimal(str(value))
    except ArithmeticError:
        return None
    _, digits, exponent = number.as_tuple()
    if isinstance(exponent, str) or len(digits) > 40 or abs(exponent) > 40:  # a word where it is no number
        return None
    return Fraction(number)


def steps_of(signal: canmatrix.Signal) -> Steps:
    """Step and offset of a signal, exactly, with the denominator of both."""
    factor, offset = exactly(signal.factor), exactly(signal.offset)
    parts = lcm(factor.denominator if factor else 1, offset.denominator if offset else 1)
    if factor is None or not 1 <= factor * parts <= STEP:
        raise LeftOut(f"factor {signal.factor} is no step of 1 to {STEP}")
    if offset is None or abs(offset * parts) > OFFSET:
        raise LeftOut(f"offset {signal.offset} is above 10^12")
    return Steps(int(factor * parts), int(offset * parts), parts)


def unit_of(signal: canmatrix.Signal, parts: int) -> str:
    """The unit of measurement, behind the fraction of it in which the signal counts."""
    text = plain(signal.unit or "").translate(SPELLED)
    fraction = f"1/{parts}" if parts > 1 else ""
    if len(fraction) > UNIT:
        raise LeftOut(f"its step, {fraction} of its unit, has more than {UNIT} characters")
    return f"{fraction} {text}".strip()


def in_ascii(unit: str) -> str:
    """A unit of measurement as far as a plan can say it."""
    return "".join(char if " " <= char <= "~" else "?" for char in unit)[:UNIT]


def is_selector(signal: canmatrix.Signal) -> bool:
    """Whether it selects which signals a message has, and is itself in each."""
    return signal.is_multiplexer and signal.mux_val is None and not signal.mux_val_grp


def are_states(signal: canmatrix.Signal) -> bool:
    """Whether its table of values calls all ones 'not available' and the number below 'error'."""
    if not 3 <= signal.size <= 8:
        return False
    named, most = signal.values or {}, 2**signal.size - 1
    return bool(FAULTY.search(str(named.get(most - 1, ""))) and ABSENT.search(str(named.get(most, ""))))


def told_kind(signal: canmatrix.Signal) -> str:
    """The kind that an attribute of a signal names, if its sign and width can be of that kind, and a trouble code is one."""
    plainly = (signal.factor, signal.offset, signal.unit or "") == (1, 0, "")
    fitting = {
        "measured": signal.size in (8, 16, 32), "discrete": signal.size == 2, "raw": True, "states": 2 <= signal.size <= 8,
        "dtc": signal.size == 32 and plainly and signal.get_startbit(bit_numbering=1, start_little=True) % 8 == 0,
    }
    content = "dtc" if signal.attributes.get(CONTENT_ATTRIBUTE) == CODE_CONTENT else ""
    kind = str(signal.attributes.get(KIND_ATTRIBUTE, content))
    return kind if not signal.is_signed and fitting.get(kind) else ""


def goes_to_all_ones(signal: canmatrix.Signal) -> bool:
    """Whether the file says by its range, and not otherwise by its table of values, that each raw number is a value."""
    most, factor, offset = (exactly(number) for number in (signal.max, signal.factor, signal.offset))
    if most is None or factor is None or offset is None or factor <= 0:
        return False
    return most >= offset + factor * (2**signal.size - 1) and not any(NO_VALUE.search(str(name)) for name in (signal.values or {}).values())


def kind_of(signal: canmatrix.Signal, version: int, is_private: bool = False) -> str:
    """Which raw numbers of a signal are values, by what the file calls it, else by its sign, its width and its table of values. The
    standard's ranges are those of its own groups: in a maker's own one a range that goes to all ones counts."""
    named, told = signal.values or {}, told_kind(signal)
    if told:
        return told if knows(version, told) else "raw"
    if signal.is_signed and signal.size > 1:
        return "signed"
    if is_selector(signal):
        return "raw"
    if is_private and signal.size in (8, 16, 32) and goes_to_all_ones(signal):
        return "raw"
    if signal.size in (8, 16, 32) and all(raw >> (signal.size - 8) > 0xFA for raw in named):
        return "measured"
    if signal.size == 2 and all(NO_VALUE.search(str(named[raw])) for raw in (2, 3) if raw in named):
        return "discrete"
    return "states" if knows(version, "states") and are_states(signal) else "raw"


def is_text(signal: canmatrix.Signal) -> bool:
    """Whether it is made of characters: so the file says, or its unit of measurement where it is wider than a number."""
    return bool(signal.is_ascii or signal.attributes.get(CONTENT_ATTRIBUTE) == TEXT_CONTENT
                or (signal.size > BITS and (signal.unit or "").upper() == "ASCII"))


def is_sometimes(signal: canmatrix.Signal) -> bool:
    """Whether a signal isn't in each message."""
    return bool((signal.multiplex is not None or signal.mux_val_grp) and not is_selector(signal))


def check_sent_always(signal: canmatrix.Signal) -> None:
    """Refuses a signal that isn't in each message."""
    if is_sometimes(signal):
        raise LeftOut("it is multiplexed")


def place_of(signal: canmatrix.Signal, version: int) -> int:
    """At which bit of the data, from 0, a signal's least significant one is, if the others follow behind it."""
    check_sent_always(signal)
    if signal.is_float or is_text(signal):
        raise LeftOut("it is a floating point number" if signal.is_float else "it is text")
    if signal.is_signed and signal.size > 1 and not knows(version, "signed"):
        raise LeftOut("it is signed")
    if not 1 <= signal.size <= BITS:
        raise LeftOut(f"it has {signal.size} bits, more than {BITS}" if signal.size > BITS else "it has no bits")
    start: int = signal.get_startbit(bit_numbering=1, start_little=True)
    if not signal.is_little_endian and start % 8 + signal.size > 8:
        raise LeftOut("its most significant byte comes first (Motorola)")
    if not 0 <= start < 8 * BYTES:
        raise LeftOut(f"it begins at byte {start // 8 + 1}")
    return start


def bytes_of(signal: canmatrix.Signal) -> tuple[int, int]:
    """The first byte of a text, from 1, and how many it has, if it is made of whole ones in their order."""
    check_sent_always(signal)
    start: int = signal.get_startbit(bit_numbering=1, start_little=True)
    if not signal.is_little_endian or start % 8 or signal.size % 8 or signal.size == 0:
        raise LeftOut("it is text, and not of whole bytes")
    if not 0 <= start < 8 * BYTES or signal.size > 8 * BYTES:
        raise LeftOut(f"it begins at byte {start // 8 + 1} and has {signal.size // 8}")
    return start // 8 + 1, signal.size // 8


def long_name(part: canmatrix.Ecu | canmatrix.Signal) -> str:
    """The name of a node or a signal, the long one where it has two."""
    return plain(part.attributes.get("LongName") or part.name or "")


def range_of(signal: canmatrix.Signal, kind: str) -> str:
    """The range of a signal as a remark, unless the file says none, as by `[0|0]`, or it is that of the signal's values anyway."""
    least, greatest, factor, offset = (exactly(number) for number in (signal.min, signal.max, signal.factor, signal.offset))
    if least is None or greatest is None or factor is None or offset is None or least == greatest:
        return ""
    values = values_of(kind, signal.size)
    if (least, greatest) == tuple(offset + factor * raw for raw in values):
        return ""
    return f"range {signal.min}..{signal.max}"


def remarks_of(signal: canmatrix.Signal, keys: dict[str, Any], receivers: str, names: Iterable[str]) -> list[str]:
    """What a file says of a signal for which a plan has no key, or which isn't as it stands there, and what other messages call it."""
    number, label, kind = signal.attributes.get(SPN_ATTRIBUTE), keys["label"], keys.get("kind", "")
    named = [(raw, name) for raw, name in (signal.values or {}).items() if keys.get("values", {}).get(raw) != str(name)]
    return remark(long_name(signal), label, "" if number is None or "spn" in keys else f"SPN {plain(number)}",
                  milliseconds(signal.cycle_time), range_of(signal, kind), ALWAYS if ALWAYS_ATTRIBUTE in signal.attributes else "", receivers, quoted(signal.comment), *map(quoted, names), *named_values(named))


def number_of_signal(signal: canmatrix.Signal) -> dict[str, int]:
    """The key of a signal's number of SAE J1939, if it has one."""
    spelled = str(signal.attributes.get(SPN_ATTRIBUTE, ""))
    return {"spn": int(spelled)} if spelled.isascii() and spelled.isdecimal() and int(spelled) in NUMBERS else {}


def names_of_values(signal: canmatrix.Signal, kind: str) -> tuple[dict[int, str], list[str]]:
    """The names of a signal's raw numbers as the bits have them, and why others have none. Errors and 'not available' by the signal's kind
    have none: `read` and `follow` call them by their state."""
    named, whys = {}, []
    least, greatest = values_of(kind, signal.size)
    greatest += 3 << signal.size - 8 if kind == "measured" else 0
    for raw, name in sorted((signal.values or {}).items()):
        if not -(1 << signal.size - 1 if signal.is_signed else 0) <= raw < 1 << signal.size:
            whys.append(f"{raw} of its table of values is no number of its {signal.size} bits")
        elif kind != "dtc" and (kind == "signed" or least <= raw <= greatest):
            named[raw % (1 << signal.size)] = as_label(plain(name))
    if len(named) > NAMES:
        whys.append(f"its table of values has more than {NAMES} names, of which the first ones are taken")
    return dict(sorted(named.items())[:NAMES]), whys


class Said(NamedTuple):
    """Where a signal lies and what its bits mean, but for its name, as far as files have to agree on it."""

    place: tuple[int, int, bool]
    scale: tuple[object, object]
    sign: bool
    content: tuple[bool, bool, str]
    unit: str
    kind: str

    @classmethod
    def of(cls, signal: canmatrix.Signal, kind: str) -> Said:
        """What is said of a signal of this kind. Units of measurement are compared without case and blanks."""
        unit = re.sub(r"\s", "", plain(signal.unit or "").translate(SPELLED)).casefold()
        start = signal.get_startbit(bit_numbering=1, start_little=True)
        is_in_one_byte = start % 8 + signal.size <= 8
        return cls((start, signal.size, signal.is_little_endian or is_in_one_byte), (signal.factor, signal.offset), signal.is_signed,
                   (signal.is_float, is_text(signal), f"{None if is_selector(signal) else signal.multiplex} {signal.mux_val_grp}"), unit, kind)

    def other(self, another: Said) -> str:
        """What isn't the same of two."""
        names = ("place", "factor or offset", "sign", "way of coding", "unit of measurement", "kind")
        return " and another ".join(name for name, one, two in zip(names, self, another, strict=True) if one != two)


def bits_of(signal: canmatrix.Signal) -> int:
    """The bits of a signal in its message, the first one as 1, the next one as 2, 4 and so on; 0 where it lies nowhere in a message."""
    start, size = int(signal.start_bit), int(signal.size)
    if start < 0 or size < 0 or start + size > 8 * BYTES:
        return 0
    if signal.is_little_endian:
        return ((1 << size) - 1) << start
    return sum(1 << (bit ^ 7) for bit in range(start, start + size))


class PlanSignal(NamedTuple):
    """A signal or text that is in the plan: its table, who receives it by the names of nodes, and other names that it has in messages."""

    signal: canmatrix.Signal
    said: Said
    table: Table
    receivers: dict[str, None]
    names: dict[str, None]


class Signals:
    """The signals and texts of a group in the making, of one message of it or of several."""

    def __init__(self, lengths: range, notes: Notes, strict: bool, version: int, is_private: bool = False, has_records: bool = False) -> None:
        self.lengths, self.notes, self.strict, self.version = lengths, notes, strict, version
        self.is_private, self.has_records = is_private, has_records
        self.labels, self.layout = Labels(), Layout()
        self.known: list[KnownSignal] = []
        self.signals: list[PlanSignal] = []
        self.texts: list[PlanSignal] = []

    @property
    def kept(self) -> list[PlanSignal]:
        """All that is in the plan."""
        return self.signals + self.texts

    def tables(self, received: Callable[[Iterable[str]], list[str]]) -> list[Table]:
        """The tables of the signals, then those of the texts. Receivers are named where not all have the same; those of nodes are turned
        into those of the plan."""
        told = {tuple(kept.receivers) for kept in self.kept}
        for kept in self.kept:
            receivers = received_by(received(kept.receivers)) if len(told) > 1 else ""
            kept.table.remarks[:] = remarks_of(kept.signal, kept.table.keys, receivers, kept.names)
        return [kept.table for kept in self.kept]

    def holders(self) -> Holders:
        """What holds the places of the signals that aren't in the plan."""
        return Holders(self.known, self.labels, self.lengths[0], len(self.signals), self.notes)

    def said_of(self, signal: canmatrix.Signal) -> Said:
        """Where a signal lies, and what it means."""
        return Said.of(signal, kind_of(signal, self.version, self.is_private))

    def are_those_of(self, frame: canmatrix.Frame) -> bool:
        """Whether a message has the same length, and signals at the same places that mean the same."""
        return frame.size in self.lengths and {known.said for known in self.known} == set(map(self.said_of, frame.signals))

    def take(self, frame: canmatrix.Frame, message: str) -> list[str]:
        """Takes the signals of a message, which is called so: those that are there already, and new ones where no other one lies. Answers
        the names of those that another one contradicts."""
        earlier, contradicted = list(self.known), []
        for signal in frame.signals:
            try:
                if self.contradicts(signal, frame, earlier, message):
                    contradicted.append(plain(signal.name))
            except LeftOut as why:
                self.say(signal, frame, f"left out: {why}")
        return contradicted

    def contradicts(self, signal: canmatrix.Signal, frame: canmatrix.Frame, earlier: list[KnownSignal], message: str) -> bool:
        """Takes a signal, unless one of an earlier message contradicts it, and says whether one does."""
        known = KnownSignal(signal, self.said_of(signal), bits_of(signal), message)
        other = same_signal(known, earlier)
        if other is not None and other.is_left_out:
            return self.contradicts_a_lost_one(known, frame, earlier, other)
        if other is None:
            self.add(known, frame)
            return False
        return self.is_otherwise(known, frame, other)

    def is_otherwise(self, known: KnownSignal, frame: canmatrix.Frame, other: KnownSignal) -> bool:
        """Whether a signal contradicts one of the plan, which is said; else the plan takes what is new of it."""
        if other.said != known.said:
            self.say(known.signal, frame, f"{difference(known, other)}; only that one is in the plan")
            return True
        self.agree(known.signal, frame, other)
        return False

    def contradicts_a_lost_one(self, known: KnownSignal, frame: canmatrix.Frame, earlier: list[KnownSignal], lost: KnownSignal) -> bool:
        """The same of a signal whose earlier one isn't in the plan: it may be there in its place."""
        kept = same_signal(known, [one for one in earlier if not one.is_left_out])
        if kept is not None:
            return self.is_otherwise(known, frame, kept)
        try:
            self.add(known, frame)
        except LeftOut:
            if known.said != lost.said:
                raise
            return False
        if known.said != lost.said:
            self.say(known.signal, frame, f"{difference(known, lost)}; only this one is in the plan")
        return False

    def agree(self, signal: canmatrix.Signal, frame: canmatrix.Frame, other: KnownSignal) -> None:
        """Takes what a message says anew of a signal that is known."""
        for kept in self.kept:
            if kept.said == other.said:
                kept.receivers.update(dict.fromkeys(signal.receivers))
                if signal.name != other.signal.name:
                    kept.names[f"{plain(signal.name)} in {self.notes.file or frame.name}"] = None
        if signal.name != other.signal.name:
            self.say(signal, frame, f"it is called {plain(other.signal.name)}, as in {other.message}")
        units = [plain(one.unit or "").translate(SPELLED) for one in (signal, other.signal)]
        if units[0] != units[1]:
            self.say(signal, frame, f"its unit {units[0]!r} is {units[1]!r} in {other.message}, as in the plan")

    def say(self, signal: canmatrix.Signal, frame: canmatrix.Frame, why: object) -> None:
        """Notes what isn't in the plan of a signal."""
        self.notes.say(f"signal {signal.name} of {frame.name}", why)

    def length_of(self, frame: canmatrix.Frame) -> int:
        """How many bytes of a message can have signals: its own, unless its length is none of the group's."""
        return int(frame.size) if frame.size in self.lengths else self.lengths[-1]

    def check_place(self, signal: canmatrix.Signal, frame: canmatrix.Frame, start: int) -> None:
        """Leaves out a signal that lies outside or over an earlier one, unless it is to be kept."""
        fault = self.layout.fault(start, signal.size, self.length_of(frame))
        if fault and not self.strict:
            raise Misplaced(fault)
        if fault:
            self.say(signal, frame, f"{fault}, and is kept")

    def label(self, signal: canmatrix.Signal, frame: canmatrix.Frame) -> str:
        """The label of a signal or a text, which is said where another one has that of its name."""
        wanted = plain(signal.attributes.get(SIGNAL_ATTRIBUTE) or signal.name or "")
        label = self.labels.label(wanted)
        if label != as_label(wanted):
            self.say(signal, frame, f"it is called {label}: {as_label(wanted)} is another signal of the group")
        return label

    def add(self, known: KnownSignal, frame: canmatrix.Frame) -> None:
        """Adds a signal or a text, as far as a plan has it."""
        self.known.append(known)
        known.is_left_out = True
        try:
            self.add_table(known, frame)
        except LeftOut as why:
            known.why, known.is_held = str(why), not isinstance(why, Misplaced) and not is_sometimes(known.signal)
            raise
        known.is_left_out = False

    def add_table(self, known: KnownSignal, frame: canmatrix.Frame) -> None:
        """Adds the table of a signal or a text."""
        signal, receivers = known.signal, dict.fromkeys(known.signal.receivers)
        if is_text(signal) and knows(self.version, ("group", "text")):
            self.texts.append(PlanSignal(signal, known.said, self.text(signal, frame), receivers, {}))
        else:
            self.signals.append(PlanSignal(signal, known.said, self.number(signal, frame), receivers, {}))

    def text(self, signal: canmatrix.Signal, frame: canmatrix.Frame) -> Table:
        """The table of a text. It may lie over signals."""
        if len(self.texts) == TEXTS:
            raise LeftOut(f"a group has at most {TEXTS} texts")
        byte, count = bytes_of(signal)
        if byte + count - 1 > self.length_of(frame):
            self.check_place(signal, frame, 8 * byte - 8)
        if byte > self.lengths[0] + 1 and len(self.lengths) > 1:
            raise LeftOut(f"it is text that begins after the {self.lengths[0]} bytes of the shortest message")
        told = signal.attributes.get(BYTES_ATTRIBUTE)
        count = int(told) if told is not None and str(told).isdecimal() and int(told) <= BYTES else count
        return Table("group.text", {"label": self.label(signal, frame), "byte": byte, **({"bytes": count} if count else {})})

    def number(self, signal: canmatrix.Signal, frame: canmatrix.Frame) -> Table:
        """The table of a signal."""
        if len(self.signals) == SIGNALS:
            raise LeftOut(f"a group has at most {SIGNALS} signals")
        start, scale = place_of(signal, self.version), steps_of(signal)
        per = scale.parts if knows(self.version, ("signal", "per")) and scale.parts <= PER else 1
        unit = unit_of(signal, scale.parts // per)
        self.check_place(signal, frame, start)
        if in_ascii(unit) != unit:
            self.say(signal, frame, f"its unit {unit!r} is written {in_ascii(unit)!r}")
        label = self.label(signal, frame)
        self.layout.take(start, signal.size, label)
        kind = kind_of(signal, self.version, self.is_private)
        return Table("group.signal", {
            "label": label, "byte": start // 8 + 1, "bit": start % 8 + 1, "bits": signal.size, "kind": kind,
            "step": scale.step, "per": per, "offset": scale.offset, "unit": in_ascii(unit),
            "repeated": self.has_records and str(signal.attributes.get(REPEATED_ATTRIBUTE)) == "1",
            "optional": len(self.lengths) > 1 and start + signal.size > 8 * self.lengths[0],
            **(self.names(signal, frame, kind) if knows(self.version, ("signal", "values")) else {}),
        })

    def names(self, signal: canmatrix.Signal, frame: canmatrix.Frame, kind: str) -> dict[str, Any]:
        """A signal's number and the names of its raw numbers, as keys."""
        named, whys = names_of_values(signal, kind)
        for why in whys:
            self.say(signal, frame, f"{why}: it stands in the comment")
        return {**number_of_signal(signal), "values": named}
