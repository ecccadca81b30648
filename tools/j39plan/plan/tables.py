"""The tables of a plan: units, groups with their signals, flows, needs and requests, with the defaults of what isn't said, as `show` answers
them, or as the text has them. Each knows its place in the text."""

import re
from collections.abc import Iterator, Mapping
from dataclasses import dataclass, field
from fractions import Fraction
from itertools import count, takewhile
from typing import Protocol

from j39plan import program
from j39plan.j1939 import IDENTITY_DIGITS, NAME_FIELDS, kind_of
from j39plan.plan.toml_places import Place, place_of

# A line of `show`: a table, a key of it, and the value, which may have spaces.
LINE = re.compile(
    r"(top|timing(?: errors)?|unit \d+(?: name)?|group \d+(?: (?:signal|text) \d+| when)?|(?:flow|need|request) \d+) (\w+) (.*)"
)


@dataclass(frozen=True)
class Unit:
    """A planned unit, with the fields of its NAME by their keys (without `identity` where it is of any serial number), whether it claims its
    address, and in which order its controller sends."""

    label: str
    address: int
    chooser: str
    window: int
    fields: dict[str, int]
    claims: bool = True
    queue: str = "priority"
    place: Place = field(default=(), compare=False, repr=False)

    @property
    def name(self) -> str:
        """Its NAME as 16 hex digits, with `.` for those in which the serial number is, where it has any."""
        digits = f"{self.number:016X}"
        return digits if self.identity is not None else digits[:-IDENTITY_DIGITS] + "." * IDENTITY_DIGITS

    @property
    def number(self) -> int:
        """Its NAME as a number, in which an identity number that it doesn't have is 0."""
        return sum(self.fields.get(key, 0) << first for key, first, _ in NAME_FIELDS)

    @property
    def identity(self) -> int | None:
        """Its identity number, None where it is of any serial number."""
        return self.fields.get("identity")

    @property
    def kind(self) -> int:
        """Its NAME without the identity number."""
        return kind_of(self.number)

    @property
    def may_choose(self) -> bool:
        """Whether it may choose another address where its own is taken."""
        return self.fields["arbitrary"] == 1


@dataclass(frozen=True)
class Signal:
    """A signal of a group: where it begins, bytes and bits counted from 1, its width, what its raw numbers mean, its number of SAE J1939,
    None where that isn't said, names of raw numbers, and whether only messages have it that are long enough."""

    label: str
    byte: int
    bit: int
    bits: int
    kind: str
    step: int
    per: int
    offset: int
    unit: str
    repeated: bool
    spn: int | None = None
    values: dict[int, str] = field(default_factory=dict)
    optional: bool = False
    place: Place = field(default=(), compare=False, repr=False)

    @property
    def shown(self) -> str:
        """Its label, as `read` shows it in the first record where it is repeated."""
        return f"{self.label}[1]" if self.repeated else self.label

    @property
    def span(self) -> range:
        """Its bits, counted from 0 in the group's data."""
        start = 8 * (self.byte - 1) + self.bit - 1
        return range(start, start + self.bits)

    def is_there(self, length: int) -> bool:
        """Whether data of this length has it."""
        return not self.optional or self.span.stop <= 8 * length

    def value(self, raw: int) -> Fraction:
        """The value of a raw number."""
        return Fraction(self.offset + self.step * raw, self.per)

    def named_values(self) -> dict[Fraction, str]:
        """The values that have names. A raw number of a signed signal is the one that its bits spell."""
        half = 1 << self.bits - 1
        negative = {raw for raw in self.values if self.kind == "signed" and raw >= half}
        return {self.value(raw - 2 * half if raw in negative else raw): name for raw, name in self.values.items()}


@dataclass(frozen=True)
class Text:
    """A text of a group: its first byte, from 1, and how many it has; None where it goes to the end of the data."""

    label: str
    byte: int
    bytes: int | None
    place: Place = field(default=(), compare=False, repr=False)

    def places(self, length: int) -> range:
        """Its bytes, counted from 1, in data of this length."""
        return range(self.byte, length + 1 if self.bytes is None else self.byte + self.bytes)


@dataclass(frozen=True)
class When:
    """Bits of a group's data, from a byte and a bit in it on, both counted from 1, and the number that they have in each message of it."""

    byte: int
    bit: int
    bits: int
    value: int

    @property
    def span(self) -> range:
        """Its bits, counted from 0 in the group's data."""
        start = 8 * (self.byte - 1) + self.bit - 1
        return range(start, start + self.bits)

    def takes(self, data: bytes) -> bool:
        """Whether data has the bits, and they have the number."""
        number = int.from_bytes(data, "little") >> self.span.start & (1 << self.bits) - 1
        return self.span.stop <= 8 * len(data) and number == self.value


@dataclass(frozen=True)
class Group:
    """A planned group; where it is told from others of its number by its data, with what that has."""

    label: str
    pgn: int
    priority: int
    length: int
    private: bool
    most: int
    every: int | None
    signals: list[Signal]
    texts: list[Text]
    when: When | None = None
    place: Place = field(default=(), compare=False, repr=False)

    def takes(self, data: bytes) -> bool:
        """Whether data can be that of a message of it."""
        return self.length <= len(data) <= self.most and (self.when is None or self.when.takes(data))

    def records(self, length: int) -> int:
        """How many records data of this length has: those of which all signals end inside it."""
        ends = [signal.span.stop for signal in self.signals if signal.repeated]
        first = -(-max(ends, default=0) // 8)
        return 0 if self.every is None or first == 0 or first > length else (length - first) // self.every + 1

    def further(self, length: int) -> range:
        """The bytes, counted from 1, of the records behind the first one in data of this length, and what is between them."""
        starts = [signal.span.start for signal in self.signals if signal.repeated]
        return range(min(starts) // 8 + 1 + self.every, length + 1) if self.every and starts else range(0)

    def lines(self, length: int) -> int:
        """How many lines `read` writes below that of a message of this length."""
        repeated = sum(signal.repeated for signal in self.signals)
        single = sum(not signal.repeated and signal.is_there(length) for signal in self.signals)
        return single + self.records(length) * repeated + len(self.texts)


@dataclass(frozen=True)
class Flow:
    """Who sends which group to whom, and at least how far apart, in ms; None where that isn't said. Where the plan says it, also by how
    much a message may be late, how far apart messages come at most, that they only answer requests, and within which time they have to be on
    the bus; and whether some request of the plan is for it."""

    group: str
    sender: str
    to: str
    period: int | None
    jitter: int = 0
    pause: int | None = None
    on_request: bool = False
    is_asked: bool = False
    deadline: int | None = None
    place: Place = field(default=(), compare=False, repr=False)

    @property
    def number(self) -> int:
        """Its number in the plan, from 1."""
        return int(self.place[-1])

    @property
    def what(self) -> str:
        """What is sent, by whom and to whom."""
        return f"{self.group} from {self.sender} to {self.to}"

    @property
    def is_unasked(self) -> bool:
        """Whether it is sent only as an answer, and no request of the plan asks for it."""
        return self.on_request and not self.is_asked


@dataclass(frozen=True)
class Need:
    """Who has to hear which group, or which signal of it, by its label; from whom, where the plan says that; and how old it may be, in ms,
    None where it doesn't."""

    unit: str
    group: str
    signal: str = ""
    sender: str = ""
    within: int | None = None
    place: Place = field(default=(), compare=False, repr=False)

    def is_met_by(self, flow: Flow) -> bool:
        """Whether a flow brings the unit what it needs: one that only answers requests does where some request is for it."""
        is_from = flow.sender != self.unit and self.sender in ("", flow.sender)
        return flow.group == self.group and is_from and flow.to in (self.unit, "all") and not flow.is_unasked

    @property
    def what(self) -> str:
        """What is needed, as answers have it."""
        return f"{self.group} {self.signal}".strip()


@dataclass(frozen=True)
class Request:
    """Who asks whom for which group, and at least how far apart, in ms; None where that isn't said."""

    group: str
    sender: str
    to: str
    period: int | None = None
    place: Place = field(default=(), compare=False, repr=False)

    @property
    def what(self) -> str:
        """What is asked for, by whom, and who is asked."""
        return f"{self.group} from {self.sender} to {self.to}"


def serves(group: str, sender: str, to: str, request: Request) -> bool:
    """Whether a flow of a group brings who asks an answer of who is asked."""
    is_asked = request.to in (sender, "all") and sender != request.sender
    return group == request.group and is_asked and to in (request.sender, "all")


@dataclass(frozen=True)
class Errors:
    """How many frames are damaged at most in how long a time, in ms."""

    count: int
    every: int


@dataclass(frozen=True)
class Timing:
    """What a plan says of its bus: its bits a second, how many frames that aren't planned go before one that waits, of which priority they are at most, and
    that of the transport protocol; how far apart packets to all are, in ms; how many frames are damaged, None where none is; and how far clocks
    are from true time, in ppm."""

    bitrate: int
    unplanned: int
    unplanned_priority: int
    transport_priority: int
    broadcast_gap: int
    broadcast_gap_most: int
    errors: Errors | None = None
    drift: int = 0


class Keys(Protocol):
    """The keys of a table, each with its default where it isn't said: a text is empty, and a number 0, where there is none."""

    def text(self, key: str) -> str:
        """The text of a key."""

    def number(self, key: str) -> int:
        """The number of a key."""

    def number_if_any(self, key: str) -> int | None:
        """The number of a key, None of one that isn't there."""

    def is_true(self, key: str) -> bool:
        """Whether a key is true."""

    def names(self) -> dict[int, str]:
        """The names of raw numbers."""


class ShownTable(dict[str, list[str]]):
    """A table as `show` tells it: the values of each key. What the plan doesn't have isn't there."""

    def text(self, key: str) -> str:
        """The text of a key, empty where it has none."""
        return self[key][0] if key in self else ""

    def number(self, key: str) -> int:
        """The number of a key."""
        return int(self[key][0])

    def number_if_any(self, key: str) -> int | None:
        """The number of a key, None of one that isn't there."""
        return self.number(key) if key in self else None

    def is_true(self, key: str) -> bool:
        """Whether a key is true."""
        return self[key] == ["true"]

    def names(self) -> dict[int, str]:
        """The names of raw numbers."""
        told = (value.split() for value in self.get("values", ()))
        return {int(raw): name for raw, name in told}


def shown_in(answer: str) -> dict[str, ShownTable]:
    """The tables of which `show` tells, each by its words, as `group 2 signal 1`."""
    tables: dict[str, ShownTable] = {}
    for line in answer.splitlines():
        found = LINE.fullmatch(line)
        assert found is not None, line
        table, key, value = found.groups()
        tables.setdefault(table, ShownTable()).setdefault(key, []).append(value)
    return tables


class Tables:
    """The tables of a plan, in the order of the file, made of the keys of each table by its words, as `group 2 signal 1`."""

    def __init__(self, shown: Mapping[str, Keys]) -> None:
        self._shown = shown
        self.strangers = self._shown["top"].number("strangers")
        self.live = self._shown["top"].is_true("live")
        self.units = [self._unit(name) for name in self._elements("unit")]
        self.groups = [self._group(name) for name in self._elements("group")]
        self.requests = [self._request(name) for name in self._elements("request")]
        self.flows = [self._flow(name) for name in self._elements("flow")]
        self.needs = [self._need(name) for name in self._elements("need")]
        self.timing = self._timing() if "timing" in self._shown else None

    @classmethod
    def shown(cls, answer: str) -> "Tables":
        """The tables that `show` answers."""
        return cls(shown_in(answer))

    @classmethod
    def of(cls, plan: str) -> "Tables":
        """The tables of a plan's file."""
        return cls.shown(program.shown(plan))

    def longest(self, label: str) -> int:
        """How many bytes the longest messages of a group have."""
        return next(group.most for group in self.groups if group.label == label)

    def _elements(self, array: str) -> Iterator[str]:
        """The tables of an array, each by its words."""
        return takewhile(self._shown.__contains__, (f"{array} {number}" for number in count(1)))

    def _unit(self, words: str) -> Unit:
        unit, name = self._shown[words], self._shown[f"{words} name"]
        fields = {key: number for key, _, _ in NAME_FIELDS if key != "arbitrary" and (number := name.number_if_any(key)) is not None}
        fields["arbitrary"] = int(name.is_true("arbitrary"))
        return Unit(unit.text("label"), unit.number("address"), unit.text("chooser"), unit.number("window"), fields, unit.is_true("claims"),
                    unit.text("queue"), place_of(words))

    def _group(self, words: str) -> Group:
        group = self._shown[words]
        pgn, priority, length = (group.number(key) for key in ("pgn", "priority", "length"))
        signals = [self._signal(other) for other in self._elements(f"{words} signal")]
        texts = [self._text(other) for other in self._elements(f"{words} text")]
        every, when = group.number_if_any("every"), self._when(f"{words} when")
        most = group.number_if_any("most") or length
        return Group(group.text("label"), pgn, priority, length, group.is_true("private"), most, every, signals, texts, when, place_of(words))

    def _when(self, words: str) -> When | None:
        when = self._shown.get(words)
        return When(*(when.number(key) for key in ("byte", "bit", "bits", "value"))) if when else None

    def _signal(self, words: str) -> Signal:
        signal = self._shown[words]
        byte, bit, bits, step, per, offset = (signal.number(key) for key in ("byte", "bit", "bits", "step", "per", "offset"))
        label, kind, unit = (signal.text(key) for key in ("label", "kind", "unit"))
        repeated, optional = signal.is_true("repeated"), signal.is_true("optional")
        return Signal(label, byte, bit, bits, kind, step, per, offset, unit, repeated, signal.number_if_any("spn"), signal.names(), optional,
                      place_of(words))

    def _text(self, words: str) -> Text:
        text = self._shown[words]
        return Text(text.text("label"), text.number("byte"), text.number_if_any("bytes"), place_of(words))

    def _flow(self, words: str) -> Flow:
        flow = self._shown[words]
        group, sender, to = (flow.text(key) for key in ("group", "from", "to"))
        period, jitter, pause, deadline = (flow.number_if_any(key) for key in ("period", "jitter", "pause", "deadline"))
        is_asked = any(serves(group, sender, to, request) for request in self.requests)
        # Without a period there is none of which a message could be late.
        return Flow(group, sender, to, period, jitter or 0, pause, flow.is_true("on_request"), is_asked, deadline, place_of(words))

    def _request(self, words: str) -> Request:
        request = self._shown[words]
        return Request(request.text("group"), request.text("from"), request.text("to"), request.number_if_any("period"), place_of(words))

    def _need(self, words: str) -> Need:
        need = self._shown[words]
        unit, group, signal, sender = (need.text(key) for key in ("unit", "group", "signal", "from"))
        return Need(unit, group, signal, sender, need.number_if_any("within"), place_of(words))

    def _timing(self) -> Timing:
        timing, errors = self._shown["timing"], self._shown.get("timing errors")
        damaged = Errors(errors.number("count"), errors.number("every")) if errors else None
        keys = ("bitrate", "unplanned", "unplanned_priority", "transport_priority", "broadcast_gap", "broadcast_gap_most")
        return Timing(**{key: timing.number(key) for key in keys}, errors=damaged, drift=timing.number_if_any("drift") or 0)
