"""Which keys and tables are meant by words that other formats have."""

from __future__ import annotations

from collections.abc import Callable

from j39plan.plan.hints.values import number_at, scale_meant
from j39plan.plan.hints.wanted import listed, tables_with
from j39plan.plan.hints.words import likely
from j39plan.plan.parts import Source
from j39plan.plan.schema import schema
from j39plan.plan.toml_places import Place, table_of

# What only this order of bytes allows.
BYTE_ORDER = "leave it out, the lowest byte comes first; a signal in Motorola order can't be planned, each of its bytes can, as raw"

# Which keys are meant, of each table.
MEANT = {
    "signal": {
        **dict.fromkeys(("factor", "scale", "resolution"), "step and per"),
        **dict.fromkeys(("startbit", "start_bit", "start", "pos", "position"), "byte and bit, counted from 1"),
        **dict.fromkeys(("min", "max", "minimum", "maximum", "range"), "kind says which numbers are values"), "length": "bits", "size": "bits",
        "type": "kind", "name": "label", "names": "values", "enum": "values", **dict.fromkeys(("byte_order", "byteorder", "endian", "endianness"), BYTE_ORDER),
    },
    "flow": {**dict.fromkeys(("sender", "source", "transmitter"), "from"), **dict.fromkeys(("receiver", "destination", "target"), "to"),
             **dict.fromkeys(("cycle", "cycle_time", "rate", "interval"), "period, in ms"), "message": "group"},
    "need": {"receiver": "unit", "sender": "from", "source": "from", **dict.fromkeys(("age", "max_age", "deadline", "timeout"), "within, in ms")},
    "request": {"sender": "from", "receiver": "to"},
    "group": {"id": "pgn", "name": "label", "size": "length", "dlc": "length", "bytes": "length"},
    "unit": {"sa": "address", "source": "address", "source_address": "address"},
    "name": {**dict.fromkeys(("serial", "serial_number", "identity_number"), "identity"), "manufacturer_code": "manufacturer", "ecu_instance": "ecu",
             **dict.fromkeys(("aac", "arbitrary_address", "arbitrary_address_capable"), "arbitrary"), "vehicle_system": "system",
             "vehicle_system_instance": "system_instance", "industry_group": "industry"},
    "timing": dict.fromkeys(("baudrate", "baud", "speed"), "bitrate"),
    "choice": dict.fromkeys(("alternatives", "options", "labels"), "of"),
    "never": {**dict.fromkeys(("needs", "requires", "unless", "except"), "but"), "excludes": "of"},
    "": {
        **dict.fromkeys(("ecu", "node", "device", "controller"), "write [[unit]]"), **dict.fromkeys(("message", "frame"), "write [[group]]"),
        **dict.fromkeys(("tx", "transmit", "route"), "write [[flow]]"), **dict.fromkeys(("rx", "receive", "requirement"), "write [[need]]"),
        **dict.fromkeys(("option", "variant", "alternative"), "write [[choice]], whose of has the labels of the alternatives"),
        **dict.fromkeys(("requires", "excludes", "forbidden", "exclude"), "write [[never]]: of has what isn't built together, but with what it is built all the same"),
    },
}

# Keys of whose texts a plan has none: they are comments.
COMMENTS = frozenset(("comment", "comments", "note", "notes", "remark", "description", "supplier", "vendor", "maker", "owner", "part_number"))


def factor(plan: Source, place: Place, key: str) -> str:
    """A factor as a plan has it."""
    number = number_at(plan, place + (key,), 0)
    return f": {scale_meant(plan, place, number)}" if number else ""


def first_bit(plan: Source, place: Place, key: str) -> str:
    """The place of a bit that is counted from 0."""
    bit = plan.places.number(place + (key,))
    return "" if bit is None or bit < 0 else f": byte = {bit // 8 + 1}, bit = {bit % 8 + 1}"


def comment(plan: Source, place: Place, key: str) -> str:
    """A text that is a comment."""
    text = plan.places.texts.get(place + (key,), "")
    number = "; the number of a maker is manufacturer of name" if key in ("supplier", "vendor", "maker") else ""
    return f" isn't listed: write it behind #{f', as # {text}' if text and text.isprintable() else ''}{number}"


# What more is to be said of some, by the value that stands there.
MORE: dict[str, Callable[[Source, Place, str], str]] = {"step and per": factor, "byte and bit, counted from 1": first_bit}


def header_meant(plan: Source, place: Place, key: str) -> str:
    """A hint at the header of a table that stands at the top and belongs into another one."""
    if place or (key,) not in plan.places.lines or (key,) in plan.places.spelled:
        return ""
    for table in tables_with(key):
        rule = schema()["definitions"][table]["properties"][key]
        if rule.get("items", {}).get("$ref"):
            return f": write [[{table}.{key}]]"
        if "$ref" in rule and table != key:
            return f": write [{table}.{key}]"
    return ""


def key_meant(plan: Source, place: Place, key: str) -> str:
    """What may have been meant by a key that isn't listed."""
    meant = MEANT.get(table_of(place), {}).get(key.lower())
    if meant:
        return f" isn't listed: {meant}{MORE[meant](plan, place, key) if meant in MORE else ''}"
    if hint := header_meant(plan, place, key) or likely(key, listed(plan, place)):
        return hint
    tables = tables_with(key)
    if place and not tables and key in listed(plan, ()):
        return " belongs to the top: write it above the first ["
    if not tables and place and key.lower() in COMMENTS:
        return comment(plan, place, key)
    return f" belongs to {' or '.join(tables)}" if tables else " isn't listed"
