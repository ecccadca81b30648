"""The tables of a vehicle file: buses, gateways, forwards and needs, with the defaults of what isn't said. Each knows its place in the text."""

from __future__ import annotations

from dataclasses import dataclass, field
from typing import NamedTuple

from j39plan.plan.parts import Source
from j39plan.plan.schema import Value
from j39plan.plan.toml_places import Place, table_of
from j39plan.vehicle.format import default_of


class OnBus(NamedTuple):
    """The label of a unit or a group, and that of its bus."""

    bus: str
    label: str

    @classmethod
    def of(cls, text: str) -> OnBus:
        """What a text names, as `P.EEC1`."""
        bus, _, label = text.partition(".")
        return cls(bus, label)

    def __str__(self) -> str:
        return f"{self.bus}.{self.label}"


@dataclass(frozen=True)
class Bus:
    """A bus, and the file of its plan, as the vehicle file names it."""

    label: str
    plan: str
    place: Place = field(default=(), compare=False, repr=False)


@dataclass(frozen=True)
class Gateway:
    """A gateway, and its units on the buses."""

    label: str
    units: list[OnBus]
    place: Place = field(default=(), compare=False, repr=False)

    def units_on(self, bus: str) -> list[str]:
        """The labels of its units on a bus, in the order of the file."""
        return [unit.label for unit in self.units if unit.bus == bus]


@dataclass(frozen=True)
class SignalForward:
    """A signal of a forward: its label in the group that is heard, that of the one into which it goes, and whether each value has to be one of it."""

    label: str
    into: str
    exact: bool
    place: Place = field(default=(), compare=False, repr=False)


@dataclass(frozen=True)
class Forward:
    """What a gateway hears of which group and from whom, which of its units hears it (empty where that isn't said); as which group it is sent, by which
    unit and to whom; when, and within which time, in ms; and which signals go into which, None where all bytes are copied."""

    gateway: str
    heard: OnBus
    sender: str
    at: str
    sent: OnBus
    by: str
    to: str
    mode: str
    within: int | None
    signals: list[SignalForward] | None
    place: Place = field(default=(), compare=False, repr=False)

    @property
    def number(self) -> int:
        """Its number in the file, from 1."""
        return int(self.place[-1])

    @property
    def is_direct(self) -> bool:
        """Whether each message that is heard is sent on, and nothing else."""
        return self.mode == "direct"

    @property
    def copies(self) -> bool:
        """Whether all bytes are copied."""
        return self.signals is None

    def writes(self, signal: str) -> bool:
        """Whether a signal goes into this one."""
        return any(carried.into == signal for carried in self.signals or ())

    @property
    def what(self) -> str:
        """What is sent on as what, as answers have it."""
        return f"{self.heard} to {self.sent}"


@dataclass(frozen=True)
class Need:
    """Who has to hear which group, or which signal of it, from which unit; and how old it may be, in ms, None where that isn't said."""

    unit: OnBus
    group: str
    signal: str
    sender: OnBus
    within: int | None
    place: Place = field(default=(), compare=False, repr=False)

    @property
    def number(self) -> int:
        """Its number in the file, from 1."""
        return int(self.place[-1])

    @property
    def what(self) -> str:
        """What is needed, by whom and from whom."""
        return f"{f'{self.group} {self.signal}'.strip()} by {self.unit} from {self.sender}"


class Table:
    """A table of the text: the values of its keys, each by its default where it isn't said."""

    def __init__(self, source: Source, place: Place) -> None:
        self.source, self.place = source, place

    def _value(self, key: str) -> Value:
        place = self.place + (key,)
        return self.source.value(place) if place in self.source.places.lines else default_of(table_of(self.place), key)

    def text(self, key: str) -> str:
        """The text of a key, empty where it has none."""
        value = self._value(key)
        return value if isinstance(value, str) else ""

    def number(self, key: str) -> int | None:
        """The integer of a key, None where it has none."""
        value = self._value(key)
        return value if isinstance(value, int) else None

    def is_true(self, key: str) -> bool:
        """Whether a key is true."""
        return self._value(key) is True

    def on_bus(self, key: str) -> OnBus:
        """What a key names on a bus."""
        return OnBus.of(self.text(key))

    def texts(self, key: str) -> list[str]:
        """The texts of an array."""
        value = self._value(key)
        return [str(part) for part in value] if isinstance(value, list) else []

    def tables(self, key: str) -> list[Table] | None:
        """The tables of an array in it, None where there is no such key."""
        if self.place + (key,) not in self.source.places.lines:
            return None
        return [Table(self.source, place) for place in self.source.places.elements(self.place + (key,))]


def carried_of(table: Table) -> SignalForward:
    """A signal of a forward."""
    return SignalForward(table.text("label"), table.text("as") or table.text("label"), table.is_true("exact"), table.place)


def forward_of(table: Table) -> Forward:
    """A forward."""
    signals = table.tables("signal")
    return Forward(table.text("gateway"), table.on_bus("group"), table.text("from"), table.text("at"), table.on_bus("as"), table.text("by"),
                   table.text("to"), table.text("mode"), table.number("within"), None if signals is None else [carried_of(part) for part in signals],
                   table.place)


def need_of(table: Table) -> Need:
    """A need."""
    return Need(table.on_bus("unit"), table.text("group"), table.text("signal"), table.on_bus("from"), table.number("within"), table.place)


class VehicleTables:
    """The tables of a vehicle file that can be read, in the order of the file."""

    def __init__(self, source: Source) -> None:
        buses, gateways, forwards, needs = (Table(source, ()).tables(array) or [] for array in ("bus", "gateway", "forward", "need"))
        self.buses = [Bus(table.text("label"), table.text("plan"), table.place) for table in buses]
        self.gateways = [Gateway(table.text("label"), [OnBus.of(text) for text in table.texts("unit")], table.place) for table in gateways]
        self.forwards = [forward_of(table) for table in forwards]
        self.needs = [need_of(table) for table in needs]

    def units_on(self, bus: str) -> set[str]:
        """The labels of the units of a bus that gateways have, or that needs are of."""
        of_gateways = (unit for gateway in self.gateways for unit in gateway.units)
        of_needs = (unit for need in self.needs for unit in (need.unit, need.sender))
        return {unit.label for some in (of_gateways, of_needs) for unit in some if unit.bus == bus}
