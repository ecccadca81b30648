"""Which logs of a fleet are of one vehicle: those that share a box, by its NAME, which has the box's own identity number."""

from __future__ import annotations

from j39plan.fleet.drives import Drive
from j39plan.j1939 import kind_of
from j39plan.plan.tables import Tables


def boxes_of(drive: Drive, tables: Tables) -> set[int]:
    """The NAMEs that claimed addresses in a log, of those of the kinds that the plan has."""
    kinds = {unit.label: unit.kind for unit in tables.units}
    planned = {kinds[who] | number for who, claimed in drive["claims"].items() if who in kinds for number in claimed.numbers}
    others = {int(who, 16) for who in drive["claims"] if who not in kinds}
    return planned | {name for name in others if kind_of(name) in kinds.values()}


def vehicles_of(drives: list[Drive], tables: Tables) -> dict[str, int]:
    """Of each log the number of its vehicle. One in which no box claims is of a vehicle of its own."""
    boxes: list[tuple[set[int], list[str]]] = []
    for drive in drives:
        mine, logs, others = boxes_of(drive, tables), [drive["log"]], []
        for known in boxes:
            if known[0] & mine:
                mine, logs = mine | known[0], known[1] + logs
            else:
                others.append(known)
        boxes = [*others, (mine, logs)]
    return {log: number for number, (_, logs) in enumerate(boxes, 1) for log in logs}
