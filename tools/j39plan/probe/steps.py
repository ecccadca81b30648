"""The steps, in the order in which they are done: what each rests on, what it sends, how long it takes, and for which units there is one."""

from __future__ import annotations

from collections.abc import Callable
from typing import NamedTuple

from j39plan.plan.toml_places import Place
from j39plan.probe import answering, claiming, flowing, nonsense, powering, receiving, sending
from j39plan.probe.planned import Planned
from j39plan.probe.tester import Tester


class Step(NamedTuple):
    """A step: its word, the clauses of the standard, what it sends, whether a unit has it, the places of the plan that it rests on, how long it takes in
    seconds where flows are heard for some time, what it does, why it can't be done on a bus, empty where it can, and whether it is done only if asked for."""

    word: str
    clause: str
    sends: str
    applies: Callable[[Planned], bool]
    places: Callable[[Planned], list[Place]]
    seconds: Callable[[Planned, float], float]
    course: Callable[[Tester], str]
    lacks: Callable[[Tester], str] = lambda bench: ""
    is_off: bool = False


def _claims(planned: Planned) -> bool:
    """Whether a unit claims its address."""
    return planned.unit.claims


def _may_choose(planned: Planned) -> bool:
    """Whether a unit may choose another address."""
    return planned.unit.claims and planned.unit.may_choose


def _unit(*keys: str) -> Callable[[Planned], list[Place]]:
    """Keys of the unit."""
    return lambda planned: [planned.unit.place + (key,) for key in keys]


def _periodic(planned: Planned) -> list[Place]:
    """The flows that it sends by itself."""
    return planned.flow_places(planned.periodic)


def _long_to_it(planned: Planned) -> list[Place]:
    """The long messages to it."""
    return planned.flow_places(planned.got_long)


def _long_of_it(planned: Planned) -> list[Place]:
    """Its long messages to one unit."""
    return planned.flow_places(planned.sent_long)


def _needs_power(bench: Tester) -> str:
    """Why the box can't be switched."""
    return "" if bench.bus.has_power or bench.bus.has_short else "nothing switches the box (--power COMMAND)"


def _needs_filler(bench: Tester) -> str:
    """Why the bus can't be filled."""
    return "" if bench.bus.has_filler else "nothing fills the bus (--filler CHANNEL)"


def _each(seconds: float, count: Callable[[Planned], int] = lambda planned: 1) -> Callable[[Planned, float], float]:
    """A time for each of something."""
    return lambda planned, most: seconds * count(planned)


def _got(planned: Planned) -> int:
    """How many long flows to it there are."""
    return len(planned.got_long)


def _sent(planned: Planned) -> int:
    """How many long flows of it to one unit there are."""
    return len(planned.sent_long)


STEPS = [
    Step("claim", "J1939-81, address claimed", "power off and on; a request for claims where nothing switches it", _claims, _unit("name", "address"), _each(1),
         claiming.claim),
    Step("silent", "J1939-81, address claimed", "power off and on, a request for claims", lambda planned: not planned.unit.claims, _unit("claims"), _each(3),
         claiming.never_claims),
    Step("asked", "J1939-81, request for address claimed; J1939-21, Tr", "requests for claims, from a unit and from 254", _claims, _unit("address"), _each(2), claiming.asked),
    Step("flows", "plan", "all that the other planned units send", lambda planned: bool(planned.periodic), _periodic, flowing.heard,
         flowing.flows),
    Step("answers", "J1939-21, request, Tr", "requests of what it answers", lambda planned: bool(planned.answers),
         lambda planned: planned.flow_places([asked.flow for asked in planned.answers]), _each(1, lambda planned: len(planned.answers)), answering.answers),
    Step("refuses", "J1939-21, acknowledgement", "requests of a group that it hasn't", lambda planned: True, _unit("label"), _each(1), answering.refuses),
    Step("receives", "J1939-21, CTS, EOMA, Tr", "long messages, 'not available' in all bytes", lambda planned: bool(planned.got_long), _long_to_it, _each(3, _got),
         receiving.receives),
    Step("misses", "J1939-21, CTS, Abort, T1, T2", "long messages with a packet left out or twice", lambda planned: bool(planned.got_long), _long_to_it, _each(12, _got),
         receiving.misses),
    Step("gives_up", "J1939-21, T1, T2, Abort", "long messages that stop", lambda planned: bool(planned.got_long), _long_to_it, _each(4, _got), receiving.gives_up),
    Step("again", "J1939-21, RTS", "announcements amid long messages", lambda planned: bool(planned.got_long), _long_to_it, _each(6, _got), receiving.again),
    Step("sends", "J1939-21, RTS, CTS, Tr", "requests, CTS, EOMA", lambda planned: bool(planned.sent_long), _long_of_it, _each(3, _sent), sending.sends),
    Step("resends", "J1939-21, CTS", "CTS for packets that came", lambda planned: bool(planned.sent_long), _long_of_it, _each(1, _sent), sending.resends),
    Step("holds", "J1939-21, Th, T4", "CTS of 0", lambda planned: bool(planned.sent_long), _long_of_it, _each(2, _sent), sending.holds),
    Step("unheard", "J1939-21, T3", "no CTS, no EOMA", lambda planned: bool(planned.sent_long), _long_of_it, _each(9, _sent), sending.unheard),
    Step("aborted", "J1939-21, Abort", "Abort amid packets", lambda planned: bool(planned.sent_long), _long_of_it, _each(2, _sent), sending.aborted),
    Step("defends", "J1939-81, contention", "a claim of its address by a larger NAME, a frame from its address", _claims, _unit("name", "address"), _each(2),
         claiming.defends),
    Step("crowd", "plan, load", "frames that fill the bus", lambda planned: bool(planned.periodic), _periodic, lambda planned, most: 1.2 * flowing.heard(planned, most), flowing.crowd,
         _needs_filler),
    Step("rough", "J1939-21, J1939-81", "wrong control bytes, sizes, lengths; 1000 requests; NAME 0 at another address", lambda planned: True, _unit("label"),
         _each(25), nonsense.rough),
    Step("yields", "J1939-81, contention, cannot claim", "a claim of its address by a smaller NAME", _claims, _unit("name", "address"), _each(3), claiming.yields),
    Step("chooses", "J1939-81, arbitrary address capable", "claims of all addresses that it may choose", _may_choose, _unit("name", "chooser"), _each(10), claiming.chooses),
    Step("power", "J1939-81, address claimed", "power off and on, wires shorted, requests, a long message", lambda planned: True, _unit("label"), _each(8), powering.power,
         _needs_power),
    Step("commanded", "J1939-81, commanded address", "a commanded address: may stay in the box for good", _claims, _unit("address"), _each(5), claiming.commanded, is_off=True),
    Step("needs", "plan", "flows that it needs stop: may store trouble codes", lambda planned: bool(planned.needs),
         lambda planned: [need.place for need in planned.needs], lambda planned, most: flowing.heard(planned, most) * len(planned.needs) / 2, flowing.needs, is_off=True),
]

WORDS = [step.word for step in STEPS]

# What may be asked for beside steps: requests that erase.
ERASES = "erases"
