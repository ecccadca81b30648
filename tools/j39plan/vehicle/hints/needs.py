"""What is to be known of a need over gateways: where the ways of what its unit hears end, and how old that is."""

from __future__ import annotations

from j39plan.j1939 import FRAME_BYTES
from j39plan.plan.hints import needs
from j39plan.plan.tables import Need as PlanNeed
from j39plan.vehicle.hints.forwards import Hint, listed
from j39plan.vehicle.tables import Need
from j39plan.vehicle.ways import Way, Ways

# So many flows are told of.
MOST = 3


def over(way: Way) -> str:
    """The forwards of a way, from its origin on."""
    numbers = [str(forward.number) for forward in reversed(way.forwards)]
    return f" over forward{'s' * (len(numbers) > 1)} {listed(numbers)}" if numbers else ""


def end_of(ways: Ways, way: Way) -> str:
    """Where the way of what a flow brings ends."""
    flow, bus = way.points[0].flow, way.points[0].bus
    told = f"flow {flow.number} of bus {bus}, {flow.what},"
    if way.is_whole:
        return f"{told} comes from {way.origin}{over(way)}"
    last, point = way.forwards[-1], way.points[-1]
    at = f"forward {last.number} at line {ways.vehicle.source.line(last.place)}"
    if not ways.inputs(last):
        return f"the way of {told} ends at {at}, which has no input"
    if point.signal and not ways.goes_into(last, point.signal):
        return f"the way of {told} ends at {at}, which copies nothing that agrees with {point.signal}"
    return f"the way of {told} goes round by {at}"


def unmet(ways: Ways, need: Need) -> Hint:
    """The key of an unmet need to look at, and where the ways of what its unit hears end."""
    found = list(ways.to(need))
    if not found:
        key, why = needs.unmet(ways.vehicle.on(need.unit.bus), PlanNeed(need.unit.label, need.group))
        return key, f"on bus {need.unit.bus} {why}"
    told = [end_of(ways, way) for way in found[:MOST]]
    if len(found) > MOST:
        told.append(f"and {len(found) - MOST} more")
    return "from", "; ".join(told)


def no_age(ways: Ways, way: Way) -> str:
    """Why the age of what comes on a way isn't known."""
    bus = next((point.bus for point in way.points if ways.vehicle.on(point.bus).timing is None), None)
    if bus is not None:
        return f"the plan of bus {bus} has no timing"
    long = next((point for point in way.points if ways.vehicle.on(point.bus).longest(point.flow.group) > FRAME_BYTES), None)
    if long is not None:
        return f"messages of {long.flow.group} on bus {long.bus} have more than {FRAME_BYTES} bytes, and those have no age"
    asked = next((point for point in way.points if point.flow.on_request), None)
    if asked is not None:
        return f"flow {asked.flow.number} of bus {asked.bus} answers requests alone"
    forward = next((forward for forward in way.forwards if forward.within is None), None)
    if forward is not None:
        return f"forward {forward.number} at line {ways.vehicle.source.line(forward.place)} has no within"
    for at, point in enumerate(way.points):
        is_direct = at < len(way.forwards) and way.forwards[at].is_direct
        if point.flow.pause is None and not is_direct:
            return f"flow {point.flow.number} of bus {point.bus}, {point.flow.what}, has no pause"
    return "load shows no bound for a flow on the way"


def old(ways: Ways, need: Need, age: int | None, forwards: list[int]) -> str:
    """Why what a need gets isn't shown to be so young."""
    way = next(way for way in ways.to(need) if way.is_whole and way.origin == need.sender and forwards == [one.number for one in reversed(way.forwards)])
    if age is None:
        return f"how old it is isn't known: {no_age(ways, way)}"
    periodic = [str(number) for number in forwards if not ways.vehicle.tables.forwards[number - 1].is_direct]
    word = f"{listed(periodic)} {'is' if len(periodic) == 1 else 'are'} periodic, and add{'s' * (len(periodic) == 1)} the pause of what is sent there"
    beats = f"; forward{'s' * (len(periodic) > 1)} {word}" if periodic else ""
    return f"up to {age / 1000:.10g} ms{over(way)}: smaller pauses, jitters and within on the way make it younger{beats}"
