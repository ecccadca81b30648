"""Hints at what of SAE J1939 a plan may have left out, or mistaken."""

from __future__ import annotations

from collections.abc import Iterator

from j39plan.j1939 import FRAME_BYTES, PREFERRED_ADDRESSES, TROUBLE_CODES
from j39plan.plan.parts import Source

# The addresses of off-board tools, which are of many makers (SAE J1939).
OFF_BOARD = (249, 250)

# The keys of a scale, of which a value has a unit of measurement.
SCALED = ("step", "per", "offset")


def makers(plan: Source) -> Iterator[tuple[int, str]]:
    """Units whose NAME has no maker, in a plan whose other units have one; of off-board tools nobody knows."""
    units = plan.tables.units
    if any(unit.fields["manufacturer"] for unit in units):
        for unit in units:
            if not unit.fields["manufacturer"] and unit.claims and unit.address not in OFF_BOARD:
                yield plan.line((*unit.place, "name")), f"unit {unit.label}: its NAME has no manufacturer, and no maker has the number 0"


def measures(plan: Source) -> Iterator[tuple[int, str]]:
    """Signals with a scale and without a unit of measurement."""
    for group in plan["group"]:
        for signal in group.inside.get("signal", []):
            scaled = next((key for key in SCALED if key in signal.said), "")
            if scaled and not signal.text("unit"):
                yield signal.line(scaled), f"signal {group.label}.{signal.label}: a scale, and no unit of measurement"


def codes(plan: Source) -> Iterator[tuple[int, str]]:
    """Groups of trouble codes whose messages have room for one."""
    for group in plan.tables.groups:
        if group.pgn in TROUBLE_CODES and group.most <= FRAME_BYTES:
            yield plan.line((*group.place, "length")), (
                f"group {group.label}: {TROUBLE_CODES[group.pgn]} has four bytes a trouble code, and {group.most} hold one: several want most and every = 4")


def addresses(plan: Source) -> Iterator[tuple[int, str]]:
    """Units at an address that SAE J1939 gives to another function, while one of their own is free."""
    taken = {unit.address for unit in plan.tables.units}
    owners = {address: function for function, some in PREFERRED_ADDRESSES.items() for address in some}
    for unit in plan.tables.units:
        function, place = unit.fields["function"], (*unit.place, "address")
        free = [address for address in PREFERRED_ADDRESSES.get(function, ()) if address not in taken]
        if (*unit.place, "name", "function") in plan.places.lines and free and owners.get(unit.address, function) != function:
            spelled = plan.places.spelled.get(place, "").lower()
            written = f"; 0x{free[0]} is {int(spelled, 0)}: write {free[0]}" if spelled == f"0x{free[0]}" else ""
            yield plan.line(place), (f"unit {unit.label}: {unit.address} is the address of function {owners[unit.address]} by SAE J1939, "
                                     f"and its function {function} has {' or '.join(map(str, free))}{written}")
