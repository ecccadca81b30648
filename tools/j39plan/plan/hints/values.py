"""What may have been meant by the value of a key that is refused."""

from __future__ import annotations

import re
from decimal import Decimal
from fractions import Fraction
from math import lcm

from j39plan.j1939 import GLOBAL_ADDRESS, NULL_ADDRESS
from j39plan.plan.hints.alternative_lists import LISTS, list_meant
from j39plan.plan.hints.groups import BITS_MOST, of_identifier
from j39plan.plan.hints.names_in_numbers import name_meant
from j39plan.plan.hints.quantities import TIMES, quantity
from j39plan.plan.hints.text_faults import TRUTHS
from j39plan.plan.hints.wanted import is_known, rule_of
from j39plan.plan.hints.words import likely
from j39plan.plan.parts import Source
from j39plan.plan.schema import most_of
from j39plan.plan.text import as_label
from j39plan.plan.toml_places import Place, table_of

# How TOML spells numbers with a point or a power of ten that aren't too long to be meant.
DECIMAL = re.compile(r"[+-]?[0-9_]{1,20}(?:\.[0-9_]{1,20})?(?:[eE][+-]?[0-9]{1,2})?")

# How SAE J1939-71 writes places: a byte, or a byte and a bit in it, counted from 1, and where they end.
PLACE = re.compile(r"(\d{1,4})(?:\.([1-8]))?(?:-(\d{1,4})(?:\.([1-8]))?)?")

# A number with a mark of thousands.
THOUSANDS = re.compile(r"(\d{1,3})\.(\d{3})")

# Which kinds are meant by words that other formats have.
KINDS = {**dict.fromkeys(("enum", "enumeration", "state", "list"), "states"), **dict.fromkeys(("bool", "boolean", "switch", "bit", "flag"), "discrete"),
         **dict.fromkeys(("unsigned", "uint", "uint8", "uint16", "uint32", "float", "analog", "continuous", "value"), "measured"),
         **dict.fromkeys(("int", "int8", "int16", "int32", "sint"), "signed"), **dict.fromkeys(("bytes", "hex", "binary"), "raw"),
         **dict.fromkeys(("ascii", "string", "text", "char"), "a text is no signal: write [[group.text]]")}

# What the addresses beyond those of units are (SAE J1939-81).
BEYOND = {NULL_ADDRESS: "that of a unit without an address", GLOBAL_ADDRESS: "that of all units"}


def number_at(plan: Source, place: Place, default: int) -> Fraction | None:
    """The number at a place, with a point or without one, or None."""
    return number_in(plan.places.spelled.get(place, str(default)))


def written_at(plan: Source, place: Place) -> str:
    """What is written at a place: of a text what it says, of another value how it is spelled."""
    return plan.places.texts.get(place, plan.places.spelled.get(place, ""))


def number_in(spelled: str) -> Fraction | None:
    """The number that is spelled so, with a point or without one, or None."""
    return Fraction(Decimal(spelled.replace("_", ""))) if DECIMAL.fullmatch(spelled) else None


def parted(number: int) -> tuple[int, int]:
    """A number as a product of 2s and 5s, and the rest of it."""
    rest = number
    for prime in (2, 5):
        while rest and rest % prime == 0:
            rest //= prime
    return number // rest if rest else 1, rest or 1


def scale_meant(plan: Source, signal: Place, factor: Fraction) -> str:
    """The keys of a signal for a factor: what `per` can't be goes into the unit of measurement."""
    per, rest = parted(factor.denominator)
    return f"step = {factor.numerator}, per = {per}" + (f", {unit_of(plan, signal, rest)}" if rest > 1 else "")


def unit_of(plan: Source, signal: Place, parts: int) -> str:
    """The key of a signal's unit of measurement, of which a step is a part."""
    unit = f"1/{parts} {plan.places.texts.get(signal + ('unit',), '')}".strip()
    return f'unit = "{unit}"'


def whole_scale(plan: Source, signal: Place) -> str:
    """A hint at step and offset of a signal as whole numbers, the fraction of both being put into its divisor or its unit."""
    step, offset = number_at(plan, signal + ("step",), 1), number_at(plan, signal + ("offset",), 0)
    if step is None or offset is None:
        return ""
    parts = lcm(step.denominator, offset.denominator)
    keys = [f"step = {step * parts}"] + [f"offset = {offset * parts}"] * (offset != 0)
    if parts == 1:
        return f"; without a point: {', '.join(keys)}"
    per = number_at(plan, signal + ("per",), 1)
    if is_known(plan, ("signal", "per")) and per is not None and per * parts <= most_of("signal", "per"):
        return f"; the fraction goes into per: {', '.join(keys)}, per = {per * parts}"
    return f"; the fraction goes into the unit: {', '.join(keys)}, {unit_of(plan, signal, parts)}"


def whole_divisor(plan: Source, signal: Place) -> str:
    """A hint at a divisor with a fraction, which is taken for a factor, as whole numbers."""
    factor = number_at(plan, signal + ("per",), 1)
    if factor is None or factor <= 0:
        return ""
    return f"; a factor of {plan.places.spelled[signal + ('per',)]} is step = {factor.numerator}, per = {factor.denominator}"


def other_divisor(plan: Source, signal: Place) -> str:
    """A hint at a divisor that is no product of 2s and 5s."""
    per, rest = parted(plan.places.number(signal + ("per",)) or 1)
    return f"; 1/{rest} goes into the unit: per = {per}, {unit_of(plan, signal, rest)}" if rest > 1 else ""


def wrong_name(plan: Source, values: Place) -> str:
    """A hint at the first name of a raw number that isn't a label."""
    for place, name in plan.places.texts.items():
        if place[:-1] == values and not re.fullmatch(r"[A-Za-z0-9_]{1,32}", name):
            return f'; "{name}" is no label, as "{as_label(name)}" is: letters, digits and _, at most 32'
    return ""


def wrong_number(plan: Source, signal: Place) -> str:
    """A hint at the first raw number with a name that is none, or that the bits don't hold."""
    values = signal + ("values",)
    for number in plan.places.keys(values):
        if not number.isdecimal():
            raw = plan.places.spelled.get(values + (number,), "")
            return f'; the number stands in front: {raw} = "{number}"' if raw.isdecimal() else f"; {number} is no decimal number{in_decimal(number)}"
        if number != str(int(number)):
            return f"; a number has no 0 in front: {int(number)}"
        bits = plan.places.number(signal + ("bits",)) or BITS_MOST
        if int(number) >= 1 << min(bits, BITS_MOST):
            return f"; {number} isn't held by {bits} bits"
    return ""


def in_decimal(number: str) -> str:
    """A hexadecimal number in decimal digits."""
    return f": {int(number, 16)}" if re.fullmatch("0[xX][0-9A-Fa-f]{1,8}", number) else ""


def in_ascii(text: str, key: str) -> str:
    """A hint at a label or a unit of measurement with other characters than these have."""
    meant = as_label(text) if key == "label" else text.replace("°", "deg").replace("µ", "u").replace("²", "2")
    return f'; "{meant}" is one' if meant != text and meant.isascii() and text else ""


def unquoted(key: str, text: str) -> str:
    """A hint at a number that is written as a text, with its measure perhaps."""
    if not text.isdecimal() and re.fullmatch(r"(?:0[xX])?[0-9A-Fa-f]{1,8}[hH]?", text):
        return f"; without quotation marks: 0x{text.removeprefix('0x').removeprefix('0X').rstrip('hH').upper()}"
    meant = quantity(key, text)
    return f"; without quotation marks: {meant}" if meant else ""


def written_place(plan: Source, place: Place, key: str) -> str:
    """A hint at a place as SAE J1939-71 writes it: `1.1`, `7-8`."""
    written = written_at(plan, place + (key,))
    found = PLACE.fullmatch(written) if key == "byte" else None
    if found is None or written.isdecimal():
        return ""
    byte, bit, last, end = (int(number) if number else None for number in found.groups())
    keys = [f"byte = {byte}"] + [f"bit = {bit}"] * (bit is not None)
    if last is not None and byte is not None and table_of(place) == "text":
        keys.append(f"bytes = {last - byte + 1}")
    elif last is not None and byte is not None:
        keys.append(f"bits = {8 * (last - byte) + (end or 8) - (bit or 1) + 1}")
    return f"; {', '.join(keys)}"


def other_type(plan: Source, place: Place, key: str) -> str:
    """A hint at a number that is written as a text or with a point, and at a label that is written as a number or as several."""
    spelled, text = plan.places.spelled.get(place + (key,), ""), plan.places.texts.get(place + (key,))
    if hint := written_place(plan, place, key):
        return hint
    if rule_of(plan, place, key).get("type") == "integer" and text is not None:
        return unquoted(key, text)
    number = number_at(plan, place + (key,), 0)
    if number is not None and not text and "." in spelled:
        return without_point(key, spelled, number)
    if key in ("from", "to", "unit") and spelled.startswith("["):
        return f"; one {table_of(place)} for each"
    if key in ("from", "to", "unit") and number is not None:
        return who_has(plan, number)
    if key == "group" and number is not None:
        return group_of(plan, number)
    return spn_meant(plan, place, spelled) if key == "signal" else ""


def without_point(key: str, spelled: str, number: Fraction) -> str:
    """A hint at a number with a point where there is to be none: seconds, thousands, or nothing behind it."""
    in_ms = 1000 * number
    if key in TIMES and in_ms.denominator == 1:
        return f"; in whole ms, as {in_ms} for {spelled} s" + (f", or {number}" if number.denominator == 1 else "")
    thousands = THOUSANDS.fullmatch(spelled)
    return f"; without a point: {number if number.denominator == 1 else ''.join(thousands.groups()) if thousands else ''}" if (
        number.denominator == 1 or thousands) else ""


def group_of(plan: Source, pgn: Fraction) -> str:
    """A hint at the group that has a number."""
    found = [plan.places.texts.get(group + ("label",), "") for group in plan.places.elements(("group",)) if plan.places.number(group + ("pgn",)) == pgn]
    return f"; {found[0]} has pgn {pgn}" if found else ""


def who_has(plan: Source, address: Fraction) -> str:
    """A hint at the unit that has an address."""
    if address == GLOBAL_ADDRESS:
        return "; did you mean all?"
    found = [plan.places.texts.get(unit + ("label",), "") for unit in plan.places.elements(("unit",)) if plan.places.number(unit + ("address",)) == address]
    return f"; {found[0]} has address {address}" if found else ""


def spn_meant(plan: Source, need: Place, spn: str) -> str:
    """A hint at the signal of a need's group that has a number."""
    group = plan.labelled(("group",), plan.places.texts.get(need + ("group",), ""))
    for signal in plan.places.elements(group + ("signal",)):
        if spn.isdecimal() and plan.places.number(signal + ("spn",)) == int(spn):
            return f"; {plan.places.texts.get(signal + ('label',), '')} has spn {spn}"
    return ""


def word_meant(plan: Source, place: Place, key: str, words: list[str]) -> str:
    """A hint at the word of a list that may have been meant."""
    text = plan.places.texts.get(place + (key,), "")
    kind = KINDS.get(text.lower(), "") if key == "kind" else ""
    return likely(text, words) or (f"; {kind}" if kind in words or " " in kind else "")


def truth_meant(plan: Source, place: Place, key: str) -> str:
    """A hint at a number or a text where there is to be a truth value."""
    written = written_at(plan, place + (key,))
    meant = {"1": "true", "0": "false", **TRUTHS}.get(written.lower())
    return f"; write {meant}" if meant else ""


def out_of_range(plan: Source, place: Place, key: str) -> str:
    """A hint at a number that is too small or too large."""
    number = plan.places.number(place + (key,))
    if number is None:
        return ""
    if key == "pgn":
        return of_identifier(number)
    if key == "address" and number in BEYOND:
        return f"; {number} is {BEYOND[number]}"
    if key in ("byte", "bit") and number == 0:
        return "; counted from 1"
    if key == "bit" and number > 8:
        byte = plan.places.number(place + ("byte",)) or 1
        return f"; byte = {byte + (number - 1) // 8}, bit = {(number - 1) % 8 + 1}"
    return other_divisor(plan, place) if key == "per" else ""


def value_hint(plan: Source, place: Place, key: str, cause: str) -> str:
    """A hint at the value that may have been meant."""
    rule = rule_of(plan, place, key)
    words = [word for word in rule.get("enum", []) if isinstance(word, str) and is_known(plan, word)]
    if words:
        return word_meant(plan, place, key, words)
    if key in LISTS:
        return list_meant(plan, place, key)
    if key == "bitrate":
        return bitrate_meant(plan, place, rule["enum"])
    if key == "values":
        return wrong_number(plan, place) or wrong_name(plan, place + (key,))
    if key in ("label", "unit") and place + (key,) in plan.places.texts:
        return in_ascii(plan.places.texts[place + (key,)], key)
    if cause != "WrongType":
        return out_of_range(plan, place, key)
    return typed(plan, place, key, rule.get("type", ""))


def bitrate_meant(plan: Source, place: Place, rates: list[int]) -> str:
    """A hint at the bitrate that may have been meant, as kbit/s or with a point."""
    written = written_at(plan, place + ("bitrate",))
    meant = quantity("bitrate", written)
    number = number_in(written)
    if number is not None and number.denominator == 1 and "." in written:
        return f"; without a point: {number}"
    is_meant = meant.isdecimal() and int(meant) in rates and is_known(plan, int(meant)) and meant != written.replace("_", "")
    return f"; in bits a second: {meant}" if is_meant else ""


def typed(plan: Source, place: Place, key: str, wanted: str) -> str:
    """A hint at a value of another type."""
    if wanted == "boolean":
        return truth_meant(plan, place, key)
    number, text = plan.places.number(place + (key,)), plan.places.texts.get(place + (key,))
    if key == "name" and number is not None:
        return f"; {name_meant(number)}"
    if key in ("step", "offset", "per") and text is None:
        return whole_divisor(plan, place) if key == "per" else whole_scale(plan, place)
    return other_type(plan, place, key)
