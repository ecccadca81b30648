"""How a DBC spells names, numbers and texts, and the definitions of its attributes."""

from __future__ import annotations

import re
from collections.abc import Iterator, Sequence
from decimal import Decimal, localcontext

from j39plan.dbc.names import (
    ADDRESS_ATTRIBUTE, ARBITRARY_ATTRIBUTE, BITRATE_ATTRIBUTE, BYTES_ATTRIBUTE, CONTENT_ATTRIBUTE, CONTENTS, CYCLE_ATTRIBUTE, DELAY_ATTRIBUTE,
    EVERY_ATTRIBUTE, FAST_ATTRIBUTE, FORMAT_ATTRIBUTE, GROUP_ATTRIBUTE, GROUPS_ATTRIBUTE, IDENTITY_ATTRIBUTE, J1939_FORMAT, KIND_ATTRIBUTE,
    LONG_MESSAGE, LONG_SIGNAL, MOST_ATTRIBUTE, NAME_ATTRIBUTES, NOBODY, REPEATED_ATTRIBUTE, SEND_ATTRIBUTE, SIGNAL_ATTRIBUTE, SIGNAL_CYCLE_ATTRIBUTE, SPN_ATTRIBUTE, UNIT_ATTRIBUTE,
)
from j39plan.j1939 import NULL_ADDRESS
from j39plan.left_out import plain
from j39plan.plan.text import Labels

# Words that a DBC has for itself.
WORDS = frozenset((
    "VERSION", "NS_", "BS_", "BU_", "BO_", "SG_", "CM_", "BA_", "BA_DEF_", "BA_DEF_DEF_", "VAL_", "VAL_TABLE_", "EV_", "BO_TX_BU_",
    "SIG_VALTYPE_", "SIG_GROUP_", "SGTYPE_", "ENVVAR_DATA_", "CAT_", "CAT_DEF_", "FILTER", "NOBODY", NOBODY,
))

# The attributes that are numbers: of what they are, the most that each may be, and its default.
NUMBERS = [
    ("", BITRATE_ATTRIBUTE, 1_000_000, 0),
    ("BU_ ", ADDRESS_ATTRIBUTE, NULL_ADDRESS, NULL_ADDRESS), ("BU_ ", ARBITRARY_ATTRIBUTE, 1, 0), ("BU_ ", *IDENTITY_ATTRIBUTE, 0),
    *(("BU_ ", *attribute, 0) for attribute in NAME_ATTRIBUTES.values()),
    ("BO_ ", CYCLE_ATTRIBUTE, 10**9, 0), ("BO_ ", FAST_ATTRIBUTE, 65535, 0), ("BO_ ", DELAY_ATTRIBUTE, 65535, 0),
    ("BO_ ", MOST_ATTRIBUTE, 1785, 0), ("BO_ ", EVERY_ATTRIBUTE, 255, 0),
    ("SG_ ", SPN_ATTRIBUTE, 524287, 0), ("SG_ ", SIGNAL_CYCLE_ATTRIBUTE, 10**9, 0), ("SG_ ", REPEATED_ATTRIBUTE, 1, 0),
    ("SG_ ", BYTES_ATTRIBUTE, 1785, 0),
]

# Those that are texts, and what they are of.
TEXTS = {UNIT_ATTRIBUTE: "BU_", GROUP_ATTRIBUTE: "BO_", GROUPS_ATTRIBUTE: "BO_", LONG_MESSAGE: "BO_", SIGNAL_ATTRIBUTE: "SG_", LONG_SIGNAL: "SG_", KIND_ATTRIBUTE: "SG_"}


class Names(Labels):
    """Names of a DBC: labels that begin with no digit, are none of its words, and have two characters, as canmatrix wants it."""

    def __init__(self) -> None:
        super().__init__(WORDS)

    def label(self, name: str) -> str:
        """A name like a label."""
        return super().label(f"_{name}" if name[:1].isdigit() or len(name) == 1 else name)

    @staticmethod
    def fits(name: str) -> bool:
        """Whether a name can be one of a DBC as it is."""
        return re.fullmatch(r"[A-Za-z_]\w{1,31}", name, re.ASCII) is not None and name not in WORDS


def decimal(number: int, per: int) -> str:
    """A fraction, whose divisor is a product of 2s and 5s, exactly."""
    with localcontext() as context:
        context.prec = 60
        text = f"{Decimal(number) / Decimal(per):f}"
    return text.rstrip("0").rstrip(".") if "." in text else text


def in_quotes(text: str) -> str:
    """A text of a DBC, which has no sign for a quote in it."""
    return '"' + plain(text).replace('"', "'").replace("\\", "/") + '"'


def enumeration(words: Sequence[str]) -> str:
    """The type of an attribute that is one of several words."""
    return "ENUM " + ",".join(map(in_quotes, words))


def definitions(ways: list[str]) -> Iterator[str]:
    """The definitions of the attributes; these are the ways by which messages are sent beside a cycle alone."""
    words = {("BO_", FORMAT_ATTRIBUTE): ["StandardCAN", "ExtendedCAN", "reserved", J1939_FORMAT], ("BO_", SEND_ATTRIBUTE): ["cyclic", *ways],
             ("SG_", CONTENT_ATTRIBUTE): CONTENTS}
    yield from (f'BA_DEF_ {table}"{name}" INT 0 {most};' for table, name, most, _ in NUMBERS)
    yield from (f'BA_DEF_ {table} "{name}" STRING ;' for name, table in TEXTS.items())
    yield from (f'BA_DEF_ {table} "{name}" {enumeration(several)};' for (table, name), several in words.items())
    yield 'BA_DEF_ "ProtocolType" STRING ;'
    yield from (f'BA_DEF_DEF_ "{name}" {default};' for _, name, _, default in NUMBERS)
    yield from (f'BA_DEF_DEF_ "{name}" "";' for name in TEXTS)
    yield f'BA_DEF_DEF_ "{FORMAT_ATTRIBUTE}" "{J1939_FORMAT}";'
    yield f'BA_DEF_DEF_ "{SEND_ATTRIBUTE}" "cyclic";'
    yield f'BA_DEF_DEF_ "{CONTENT_ATTRIBUTE}" "{CONTENTS[0]}";'
    yield 'BA_DEF_DEF_ "ProtocolType" "J1939";'
