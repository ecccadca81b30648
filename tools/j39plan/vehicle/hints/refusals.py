"""Hints at a vehicle's file that the program refuses: the line of the fault, and what is wrong there."""

import contextlib
import re
from collections.abc import Iterable, Iterator

from j39plan.plan.hints.refusals import OF_VEHICLES
from j39plan.plan.hints.text_faults import Told, text_fault
from j39plan.plan.hints.words import likely
from j39plan.plan.parts import Source
from j39plan.plan.toml_places import Place, place_of, table_of
from j39plan.vehicle.files import Vehicle, plan_file, read
from j39plan.vehicle.format import OF_PLANS, listed, tables_with, wanted
from j39plan.vehicle.tables import OnBus, VehicleTables

NAME = re.compile(r"[A-Za-z0-9_]{1,32}\.[A-Za-z0-9_]{1,32}")

# Which keys are meant by words that other formats have, of each table.
MEANT = {
    "bus": {"name": "label", **dict.fromkeys(("file", "path"), "plan")},
    "gateway": {"name": "label", "units": "unit"},
    "forward": {**dict.fromkeys(("source", "sender"), "from"), **dict.fromkeys(("receiver", "destination"), "to"), "hearer": "at",
                **dict.fromkeys(("latency", "delay", "age"), "within"), "signals": "signal",
                **dict.fromkeys(("period", "pause", "jitter"), "the flow of the plan has it")},
    "signal": {**dict.fromkeys(("from", "signal"), "label"), **dict.fromkeys(("to", "into"), "as")},
    "need": {**dict.fromkeys(("receiver", "to"), "unit"), **dict.fromkeys(("sender", "source"), "from"), **dict.fromkeys(("age", "deadline"), "within")},
}


def unlisted_key(source: Source, place: Place, key: str) -> Told:
    """Line and hint of a key that isn't listed."""
    table = table_of(place)
    if not place and key in OF_PLANS and not any((array,) in source.places.lines for array in OF_VEHICLES):
        return source.line((key,)), "this is the plan of a bus: j39plan check takes it"
    meant, tables = MEANT.get(table, {}).get(key.lower()), tables_with(key)
    if meant:
        hint = f" isn't listed: {meant}"
    elif not (hint := likely(key, listed(table))):
        hint = f" belongs to {' or '.join(tables)}" if tables else " belongs above all tables" if key in listed("") else " isn't listed"
    return source.line(place + (key,)), f"key {key}{hint}"


def unknown_key(source: Source, place: Place) -> Told:
    """Line and hint of the table's first key that isn't listed."""
    known = listed(table_of(place))
    key = next((key for key in source.places.keys(place) if key not in known), None)
    return (source.line(place), None) if key is None else unlisted_key(source, place, key)


def missing_key(source: Source, place: Place, key: str) -> Told:
    """Line and hint of a table that lacks a key."""
    return source.line(place), f"key {key} isn't there: {wanted(table_of(place), key)}"


def units_of(source: Source) -> Iterator[tuple[Place, str | None]]:
    """The units of all gateways, each with its place; None in place of one that is no text."""
    for gateway in source.places.elements(("gateway",)):
        for place in source.places.elements(gateway + ("unit",)):
            yield place, source.places.texts.get(place)


def unit_fault(source: Source, gateway: Place, cause: str) -> Told:
    """Line and hint of the first unit of a gateway that is no text, no name on a bus, or there already."""
    seen: dict[str, Place] = {}
    for place, text in units_of(source):
        is_wrong = text is None if cause == "WrongType" else text is not None and (text in seen if cause == "Repeated" else not NAME.fullmatch(text))
        if place[:2] == gateway and is_wrong:
            if cause == "Repeated" and text is not None:
                return source.line(place), f"key unit: {text} is at line {source.line(seen[text])} too"
            return source.line(place), f"key unit: {source.places.spelled.get(place, '')} is no text BUS.UNIT"
        seen.setdefault(text or "", place)
    return source.line(gateway + ("unit",)), f"key unit: {wanted('gateway', 'unit')}"


def on_bus(source: Source, name: str, key: str, text: str) -> str:
    """A hint at the group or the unit that is named without its bus, of a file by whose name its plans are found."""
    found = []
    for bus in source.places.elements(("bus",)) if key in ("group", "as", "unit", "from") and text and "." not in text else ():
        label, plan = (source.places.texts.get((*bus, part), "") for part in ("label", "plan"))
        with contextlib.suppress(OSError):
            tables = read(plan_file(name, plan)).places
            array = "unit" if key in ("unit", "from") else "group"
            found += [f"{label}.{text}" for other in tables.elements((array,)) if tables.texts.get((*other, "label")) == text]
    return f"; did you mean {' or '.join(found)}?" if found else ""


def value_fault(source: Source, place: Place, key: str, cause: str, name: str = "") -> Told:
    """Line and hint of a key whose value is refused."""
    table = table_of(place)
    if cause == "TooMany":
        most = listed(table)[key]["maxItems"]
        return source.line(place + (key, most + 1)), f"key {key}: at most {most}"
    if key == "unit" and table == "gateway":
        return unit_fault(source, place, cause)
    spelled = source.places.spelled.get(place + (key,), "")
    shown = f"{key} = {spelled}" if 0 < len(spelled) < 50 and "\n" not in spelled else f"key {key}"
    text = source.places.texts.get(place + (key,), "")
    meant = likely(text, listed(table)[key].get("enum", [])) or on_bus(source, name, key, text)
    return source.line(place + (key,)), f"{shown}: {wanted(table, key)}{meant}"


def repeated(source: Source, place: Place, key: str) -> Told:
    """Line and hint of a label that was used before, or of a signal into which another one goes."""
    if key == "unit":
        return unit_fault(source, place, "Repeated")
    tables = VehicleTables(source)
    if key == "as":
        signals = tables.forwards[int(place[1]) - 1].signals or []
        word = next(signal.into for signal in signals if signal.place == place)
        first = next(signal.place for signal in signals if signal.into == word)
        hint = f"another signal goes into {word} at line {source.line(first)}"
    else:
        word = source.places.texts.get(place + (key,), "")
        hint = f"{word} is at line {source.line(source.labelled(place[:-1], word) + (key,))} too"
    return source.line(place + (key,)), f"key {key}: {hint}"


def none_such(what: str, word: str, others: Iterable[str]) -> str:
    """That nothing has a label, and which one may have been meant."""
    return f"no {what} is called {word}{likely(word, others)}"


class Unknown:
    """Hints at labels that name nothing: in the file itself, or in the plans of its buses."""

    def __init__(self, vehicle: Vehicle) -> None:
        self._vehicle, self._tables = vehicle, vehicle.tables

    def hint(self, place: Place, key: str) -> Told:
        """Line and hint of a label of a table that names nothing."""
        if place[0] == "gateway":
            return self._gateway(place)
        if place[0] == "forward" and key in ("at", "by") and (told := self._unknown_unit(place)):
            return told
        known = {"forward": self._forward, "need": self._need}[str(place[0])]
        return self._vehicle.source.line(place + (key,)), f"key {key}: {known(place, key)}"

    def _bus(self, name: OnBus) -> str | None:
        """That there is no such bus, None where there is."""
        labels = [bus.label for bus in self._tables.buses]
        return None if name.bus in labels else none_such("bus", name.bus, labels)

    def _unit(self, name: OnBus) -> str | None:
        """That there is no such bus, or no such unit on it, None where there is."""
        labels = [] if self._bus(name) else [unit.label for unit in self._vehicle.on(name.bus).units]
        return self._bus(name) or (None if name.label in labels else none_such(f"unit of bus {name.bus}", name.label, labels))

    def _group(self, name: OnBus) -> str | None:
        """That there is no such bus, or no such group on it, None where there is."""
        labels = [] if self._bus(name) else [group.label for group in self._vehicle.on(name.bus).groups]
        return self._bus(name) or (None if name.label in labels else none_such(f"group of bus {name.bus}", name.label, labels))

    def _gateway(self, place: Place) -> Told:
        """The first unit of a gateway whose bus isn't there; where all are, the first unit that isn't."""
        gateway = self._tables.gateways[int(place[1]) - 1]
        for known in (self._bus, self._unit):
            for number, unit in enumerate(gateway.units, 1):
                if why := known(unit):
                    return self._vehicle.source.line(place + ("unit", number)), f"key unit: {why}"
        return self._vehicle.source.line(place), None

    def _unknown_unit(self, forward: Place) -> Told | None:
        """A unit that the gateway of a forward names, and that isn't on its bus: for want of it the forward may name none."""
        gateways = [gateway for gateway in self._tables.gateways if gateway.label == self._tables.forwards[int(forward[1]) - 1].gateway]
        for gateway in gateways:
            if any(self._bus(unit) or self._unit(unit) for unit in gateway.units):
                return self._gateway(gateway.place)
        return None

    def _forward(self, place: Place, key: str) -> str | None:
        forward = self._tables.forwards[int(place[1]) - 1]
        gateways = [gateway.label for gateway in self._tables.gateways]
        if key == "gateway":
            return none_such("gateway", forward.gateway, gateways)
        name = forward.heard if key in ("group", "from", "at") else forward.sent
        own = self._vehicle.gateway(forward.gateway).units_on(name.bus)
        if len(place) > 2:
            return self._signal(place, key, self._vehicle.source.places.texts)
        if key in ("group", "as"):
            is_there = any(bus.label == name.bus for bus in self._tables.buses)
            return self._group(name) if own or not is_there else f"{forward.gateway} has no unit on bus {name.bus}"
        word = self._vehicle.source.places.texts[place + (key,)]
        if key in ("at", "by"):
            return f"{forward.gateway} has no unit {word} on bus {name.bus}{likely(word, own)}"
        others = [unit.label for unit in self._vehicle.on(name.bus).units] + ["all"] * (key == "to")
        return none_such(f"unit of bus {name.bus}", word, others)

    def _signal(self, place: Place, key: str, texts: dict[Place, str]) -> str:
        """That a group has no such signal, of one that goes into another."""
        forward = self._tables.forwards[int(place[1]) - 1]
        label = texts[place + ("label",)]
        return self._in_group(forward.heard, label) if key == "label" else self._in_group(forward.sent, texts.get(place + ("as",), label))

    def _in_group(self, name: OnBus, label: str) -> str:
        """Why a group has no such signal: what it has of that label is a text, or repeated."""
        group = next(group for group in self._vehicle.on(name.bus).groups if group.label == name.label)
        if any(text.label == label for text in group.texts):
            return f"{label} is a text of {name}"
        if any(signal.label == label for signal in group.signals):
            return f"{label} of {name} is repeated"
        return none_such(f"signal of {name}", label, [signal.label for signal in group.signals if not signal.repeated])

    def _need(self, place: Place, key: str) -> str | None:
        need = self._tables.needs[int(place[1]) - 1]
        if key in ("unit", "from"):
            return self._unit(need.unit if key == "unit" else need.sender)
        group = OnBus(need.unit.bus, need.group.rpartition(".")[2])
        if "." in need.group and key == "group":
            return self._group(group) or f"{need.group} is {group.label} here: the unit names the bus"
        return self._group(group) if key == "group" else self._in_group(group, need.signal)


def refusal(source: Source, name: str, data: bytes, line: str) -> Told:
    """Line and hint of a refused file, by the name under which its plans are found."""
    found = re.fullmatch(r"refused (\w+)(?: (.*?))?(?: key (\w+))?", line)
    assert found is not None
    cause, place, key = found.group(1), place_of(found.group(2) or "top"), found.group(3)
    if cause == "Text":
        return text_fault(source.places, data)
    if cause == "UnknownKey":
        return unknown_key(source, place)
    if key is None:
        return source.line(place), "a table is wanted"
    if cause == "Missing":
        return missing_key(source, place, key)
    if cause == "Repeated":
        return repeated(source, place, key)
    if cause == "UnknownLabel":
        return Unknown(Vehicle(source, name)).hint(place, key)
    return value_fault(source, place, key, cause, name)
