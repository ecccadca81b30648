"""What is heard before a test begins: the box has to be alone on the bus."""

from __future__ import annotations

from j39plan import program
from j39plan.j1939 import NULL_ADDRESS, POOL
from j39plan.probe.tester import Ended, Tester

# How long the bus is heard, in seconds.
HEARD = 2.0


def heard_before(bench: Tester) -> set[int]:
    """The addresses that are heard before the tester sends."""
    try:
        bench.pause(HEARD)
    except Ended:
        pass
    return {frame.source for frame in bench.frames}


def refuse_others(is_anyway: bool, bench: Tester, heard: set[int]) -> None:
    """Refuses a bus on which others are than the box; where it is taken anyway, they aren't taken for the box."""
    unit = bench.planned.unit
    own = {unit.address, *(POOL if unit.may_choose and unit.address not in heard else ())} & heard
    own = own if len(own) < 2 else set()
    others = heard - own - {NULL_ADDRESS}
    if others and not is_anyway:
        raise program.Refused(1, f"frames from address {', '.join(map(str, sorted(others)))} are heard: {unit.label} isn't alone on this bus (--anyway)")
    bench.strangers = others
    bench.address = next(iter(own), unit.address)
