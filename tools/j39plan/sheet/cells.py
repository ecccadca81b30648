"""What stands in the cells of a matrix: numbers, PGNs, places, widths, times, names of values."""

from __future__ import annotations

import re
from fractions import Fraction
from typing import NamedTuple

from j39plan.left_out import LeftOut, plain
from j39plan.sheet.files import DATE, NO_VALUE

NUMBER = re.compile(r"[+-]?\d[\d.,' ]*(?:[eE][+-]?\d+)?(?:\s*/\s*\d+)?|[+-]?[.,]\d+")
HEX = re.compile(r"(?:0[xX]([0-9A-Fa-f]+)|([0-9A-Fa-f]+)[hHx])(?![0-9A-Za-z])")
HEX_BY_LETTER = re.compile(r"(?=\d*[A-Fa-f])[0-9A-Fa-f]{4,8}")
PLACE = re.compile(r"(?:byte\s*)?(\d+)(?:[.](\d))?(?:\s*(?:-|–|to|bis|\.\.|,)\s*(\d+)(?:[.](\d))?)?", re.IGNORECASE)
BIT = re.compile(r"bits?\s*(\d+)(?:\s*(?:-|–|to|bis|\.\.)\s*(\d+))?", re.IGNORECASE)
NAMED = re.compile(r"(0x[0-9A-Fa-f]+|0b[01]+|[01]{2,}b|\d+)\s*[=:\s\-–]\s*([^;,\n|]+)")
RANGE_OR_FURTHER = re.compile(r"(?:\.\.|-|to|bis)\s*\d")


class BitPlace(NamedTuple):
    """Where a signal begins, byte and bit from 1, and how many bits it has, None where the place doesn't say it."""

    byte: int
    bit: int
    bits: int | None


def readable(text: str) -> str:
    """The text of a cell that can be read."""
    if text == DATE:
        raise LeftOut("it is a date, as 4-5 becomes one: give the column the format of texts, and write it again")
    if text == NO_VALUE:
        raise LeftOut("it is a formula without a value: save the file by a program that calculates it")
    return text


def whole_or_decimal(text: str) -> Fraction:
    """A number with a point or a comma, and thousands apart by the other one."""
    text = re.sub(r"[' ]", "", text)
    if "," in text and "." in text:
        first, last = sorted(",.", key=text.rfind)
        text = text.replace(first, "").replace(last, ".")
    return Fraction(text.replace(",", "."))


def number(text: str, is_hex: bool = False) -> Fraction:
    """A number: decimal with a point or a comma, a fraction as 1/256, or hexadecimal as 0x12, 12h, or where the column is."""
    text = readable(text)
    if found := HEX.match(text):
        return Fraction(int(found.group(1) or found.group(2), 16))
    if is_hex and re.fullmatch(r"[0-9A-Fa-f]+", text):
        return Fraction(int(text, 16))
    found = NUMBER.match(text)
    if not found:
        raise LeftOut(f"{plain(text)!r} is no number")
    above, _, below = found.group().rstrip(" ,.'").partition("/")
    try:
        return whole_or_decimal(above) / (Fraction(below) if below else 1)
    except (ValueError, ZeroDivisionError):
        raise LeftOut(f"{plain(text)!r} is no number") from None


def whole(text: str, most: int, is_hex: bool = False) -> int:
    """A whole number of 0 to this one."""
    value = number(text, is_hex)
    if value.denominator != 1 or not 0 <= value <= most:
        raise LeftOut(f"{plain(text)!r} is none of 0 to {most}")
    return int(value)


def pgn(text: str, is_hex: bool) -> int:
    """The number of a group, decimal, or hexadecimal with a letter in it."""
    text = readable(text)
    return whole(text, (1 << 18) - 1, is_hex or bool(HEX_BY_LETTER.fullmatch(text)))


def identifier(text: str) -> int:
    """An identifier of 29 bits: hexadecimal with a letter or eight digits, else decimal."""
    text = readable(text)
    return whole(text, (1 << 29) - 1, bool(HEX_BY_LETTER.fullmatch(text) or re.fullmatch(r"[01][0-9A-Fa-f]{7}", text)))


def width(text: str) -> int:
    """How many bits something has, as 16, `2 bytes`, `4 bits`."""
    value = number(text)
    bits = value * 8 if re.search(r"byte|oktett", text, re.IGNORECASE) else value
    if bits.denominator != 1 or not 1 <= bits <= 14280:
        raise LeftOut(f"{plain(text)!r} is no number of bits")
    return int(bits)


def of_bit(found: re.Match[str]) -> BitPlace:
    """A place by bits of the message, counted from 1, as `bit 17`."""
    first = int(found.group(1))
    if first == 0:
        raise LeftOut("bits are counted from 1 in such a place")
    return BitPlace((first - 1) // 8 + 1, (first - 1) % 8 + 1, int(found.group(2)) - first + 1 if found.group(2) else None)


def place(text: str) -> BitPlace:
    """Where a signal lies, as SAE and makers write it: `4-5`, `1.1`, `2.5-3.8`, `bit 17`. A place by bytes has the bits of these."""
    text = readable(text)
    if bits := BIT.fullmatch(text):
        return of_bit(bits)
    found = PLACE.fullmatch(text)
    if not found:
        raise LeftOut(f"{plain(text)!r} is no place as 4-5, 1.1 or bit 17")
    byte, bit, last, last_bit = (int(part) if part else 0 for part in found.groups())
    if not byte or bit > 8 or last_bit > 8 or last and (last, last_bit or 8) < (byte, bit):
        raise LeftOut(f"{plain(text)!r} is no place: bytes and bits are counted from 1")
    end = 8 * (last - 1) + (last_bit or 8) if last else None
    # 1.1 alone says where it begins, 1 alone a whole byte unless a width is said
    return BitPlace(byte, bit or 1, end - 8 * (byte - 1) - (bit or 1) + 1 if end else None)


def milliseconds(text: str) -> int | None:
    """A time in ms; None of a text without a number, as `on request`."""
    if not re.search(r"\d", readable(text)):
        return None
    value = number(text) * (1000 if re.search(r"\d\s*(s|sec|sek)\b", text, re.IGNORECASE) else 1)
    if value.denominator != 1 or not value:
        raise LeftOut(f"{plain(text)!r} is no time in whole ms")
    return int(value)


def raw_of(text: str) -> int:
    """A raw number, decimal, hexadecimal or binary."""
    if text.endswith("b"):
        return int(text[:-1], 2)
    return int(text, 0) if text.startswith(("0x", "0b")) else int(text)


def names_of(text: str) -> dict[int, str]:
    """The names of raw numbers, as `0=off, 1=on` or `00b off; 01b on`; those of ranges aren't."""
    found = NAMED.findall(readable(text))
    if text and not found:
        raise LeftOut(f"{plain(text)!r} has no names of numbers as 0=off, 1=on")
    return {raw_of(raw): name.strip() for raw, name in found if not RANGE_OR_FURTHER.match(name)}


class CellScale(NamedTuple):
    """What the cell of a resolution says: the factor, the offset that stands behind it, None where none does, and the unit in it."""

    factor: Fraction
    offset: Fraction | None
    unit: str


def scale(text: str) -> CellScale:
    """A resolution, as `0.125`, `0,125 rpm/bit`, `1/256 km/h per bit`, `1 deg C/bit, -40 deg C offset`."""
    factor = number(text)
    rest = NUMBER.sub("", readable(text), count=1)
    said = re.match(r"\s*(.*?)\s*(?:/|per |pro )\s*bit\b(.*)", rest, re.IGNORECASE | re.DOTALL)
    if not said:
        return CellScale(factor, None, "")
    shift = NUMBER.search(said.group(2)) if "offset" in said.group(2).lower() else None
    return CellScale(factor, number(shift.group().strip()) if shift else None, said.group(1).strip())
