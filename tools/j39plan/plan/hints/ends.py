"""What is to be known of the ends of flows on a live bus: whether a unit is alone at its planned address, and what keeps it from being so."""

from __future__ import annotations

from collections.abc import Collection, Iterator

from j39plan.j1939 import POOL
from j39plan.plan.tables import Flow, Tables, Unit


def movers(tables: Tables) -> Iterator[Unit]:
    """The units that may have to move: they may choose, and one of smaller NAME is planned at their address."""
    least: dict[int, int] = {}
    for unit in tables.units:
        least[unit.address] = min(unit.number, least.get(unit.address, unit.number))
    return (unit for unit in tables.units if unit.may_choose and least[unit.address] < unit.number)


def disturbed(tables: Tables, kept: Collection[int], unit: Unit) -> str:
    """Why a unit isn't alone at its address, and what would mend it; empty where it is alone."""
    outside = "give it an address outside 128..247"
    there = next((other for other in tables.units if other is not unit and other.address == unit.address), None)
    if there is not None:
        return f"{there.label} is planned there too: give one of them another address"
    if unit.address not in POOL:
        return ""
    if tables.strangers:
        return f"strangers may come there: {outside}"
    mover = None if unit.address in kept else next(movers(tables), None)
    if mover is None:
        return ""
    return f"{mover.label} may move there: {outside}{'' if unit.may_choose else ', or keep this one free'}"


def contested(tables: Tables, kept: Collection[int], flow: Flow) -> tuple[str, str] | None:
    """The key of a flow whose unit isn't alone, the sender's before that of the one unit that it goes to, and why; None where both are alone."""
    for key, label in (("from", flow.sender), ("to", flow.to)):
        unit = next((unit for unit in tables.units if unit.label == label), None)
        if unit is not None and (why := disturbed(tables, kept, unit)):
            return key, f"{label} isn't alone at {unit.address}: {why}"
    return None
