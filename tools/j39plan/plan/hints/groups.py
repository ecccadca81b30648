"""What is to be known of a group: why its number can't be planned, and which widths a signal can have."""

from __future__ import annotations

from j39plan.j1939 import (
    ACKNOWLEDGEMENT, ADDRESS_CLAIMED, COMMANDED_ADDRESS, CONNECTION_MANAGEMENT, DATA_TRANSFER, FRAME_BYTES, IDENTIFIERS, PROPRIETARY, REQUEST, pgn_in,
    without_destination,
)
from j39plan.plan.schema import VERSIONS, since
from j39plan.plan.tables import Group, Signal

# The groups by which the network runs, by what they are.
SERVICE_NAMES = {
    ACKNOWLEDGEMENT: "the acknowledgement", REQUEST: "the request", ADDRESS_CLAIMED: "the address claim", COMMANDED_ADDRESS: "the commanded address",
    DATA_TRANSFER: "the transport protocol", CONNECTION_MANAGEMENT: "the transport protocol",
}

# The first number of the extended data page (J1939-21).
EXTENDED_PAGE = 131072

# Which widths a signal of each kind can have, in words.
WIDTHS = {
    "measured": "a measured signal has 8, 16 or 32", "discrete": "a discrete signal has 2", "raw": "a raw signal has 1 to 32",
    "states": "a signal of states has 2 to 8", "signed": "a signed signal has 2 to 32", "dtc": "a dtc has 32",
}

# The most bits of a signal, and the bits of a byte.
BITS_MOST, BYTE_BITS = 32, 8


def of_identifier(number: int) -> str:
    """A hint at a number that may be a CAN identifier: the number of its group."""
    return f"; a CAN identifier? its PGN is {pgn_in(number)}" if 1 << 18 <= number < IDENTIFIERS else ""


def in_decimal(spelled: str) -> str:
    """A hint at a number that is spelled as a hexadecimal one, and whose digits are those of a decimal one that can be planned."""
    digits = spelled.lower().removeprefix("0x").replace("_", "")
    is_meant = spelled.lower().startswith("0x") and digits.isdecimal() and 0 < int(digits) < EXTENDED_PAGE
    return f"; {int(digits)} is decimal: write pgn = {int(digits)}" if is_meant else ""


def in_bytes(group: Group) -> str:
    """A hint at a length that may be one in bits: whole bytes, in which all signals end."""
    ends = [signal.span.stop for signal in group.signals]
    is_meant = group.most % BYTE_BITS == 0 and group.most <= BYTE_BITS * FRAME_BYTES and max(ends, default=group.most + 1) <= group.most
    return f"; {group.most} bits are length = {group.most // BYTE_BITS}" if is_meant else ""


def outside(group: Group, signal: Signal) -> str:
    """A hint at a signal that ends after its messages: where it would be inside."""
    room = BYTE_BITS * (group.most if signal.optional else group.length)
    last = (room - signal.bits) // BYTE_BITS + 1
    return f"; with {signal.bits} bits it begins at byte = {last} at the latest" if room >= signal.bits else ""


def wrong_number(group: Group, version: int, spelled: str = "") -> tuple[str, str]:
    """The key of a group whose number can't be planned where that shows, and why, in a plan of this version, in which the number is spelled so."""
    pgn = group.pgn
    if pgn in SERVICE_NAMES:
        return "pgn", f"{pgn} is a service of the network, {SERVICE_NAMES[pgn]}: leave it out"
    if pgn >= EXTENDED_PAGE:
        return "pgn", f"numbers from {EXTENDED_PAGE} on can't be planned{in_decimal(spelled) or of_identifier(pgn)}"
    if without_destination(pgn) != pgn:
        return "pgn", f"in a PDU1 number the low byte is 0, the receiver stands in the flow's to: pgn = {without_destination(pgn)}"
    if group.private and pgn not in PROPRIETARY:
        return "private", f"{pgn} is none of the makers' own numbers"
    first = since()["group", "private"]
    later = f"version = {VERSIONS[-1]} and " if version < first else ""
    return "pgn", f"{pgn} is a maker's own number: write {later}private = true"


def wrong_width(signal: Signal) -> tuple[str, str]:
    """The key of a signal whose width doesn't fit its kind where that shows, and which widths the kind has."""
    if signal.kind == "dtc" and signal.bits == BITS_MOST:
        return "bit", "a dtc begins at bit 1"
    if signal.kind == "measured" and signal.bits < BITS_MOST:
        return "bits", f'{WIDTHS[signal.kind]}; kind = "raw" has all widths'
    several = f"; write it as {-(-signal.bits // BITS_MOST)} signals" if signal.bits > BITS_MOST and signal.kind != "dtc" else ""
    return "bits", WIDTHS[signal.kind] + several
