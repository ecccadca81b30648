"""A step on power and wires: the box goes amid something, and comes back."""

from __future__ import annotations

from j39plan.j1939 import DATA_TRANSFER
from j39plan.log.checks.transfers import CLEAR
from j39plan.probe.claiming import goes_on, switched
from j39plan.probe.limits import STARTS
from j39plan.probe.sessions import Way, given, most_of, opened, pgn_of, taken_whole
from j39plan.probe.receiving import size_of
from j39plan.probe.tester import Failed, Tester, Unsure, needed

# How long the wires are shorted, in seconds.
SHORTED = 1.0


def power(bench: Tester) -> str:
    """The box is switched off and on amid a flow, its own message, one to it; the wires are shorted."""
    if bench.planned.unit.claims and "claim" not in bench.passed:
        raise Unsure("its claim behind power isn't as planned")
    if bench.bus.has_power:
        _amid_flow(bench)
        _amid_its_message(bench)
        _amid_one_to_it(bench)
    if bench.bus.has_short:
        _shorted(bench)
    return "comes back as planned"


def _back(bench: Tester, amid: str) -> None:
    """The box is switched off and on, claims as before, and sends its flows."""
    try:
        switched(bench, bench.address)
        goes_on(bench, next((frame for frame in reversed(bench.frames) if frame.is_box), bench.frames[-1]))
    except Failed as why:
        raise Failed(f"off and on amid {amid}: {why}", *why.frames) from None


def _amid_flow(bench: Tester) -> None:
    """It goes while it sends its flows."""
    bench.pause(0.5)
    _back(bench, "a flow")


def _amid_its_message(bench: Tester) -> None:
    """It goes behind a packet of its own."""
    flow = next((flow for flow in bench.planned.sent_long if flow.on_request or flow.is_asked or flow.period), None)
    if flow and "sends" in bench.passed:
        tool, rts = opened(bench, flow)
        permitted = bench.manages(tool, pgn_of(rts), CLEAR, most_of(rts), 1)
        needed(bench.of_box(DATA_TRANSFER, bench.answer, permitted, tool), "no packet", permitted)
        _back(bench, "its message")


def _amid_one_to_it(bench: Tester) -> None:
    """It goes behind a packet to it, and takes a whole message then."""
    flow = next(iter(bench.planned.got_long), None)
    if flow and "receives" in bench.passed:
        given(bench, bench.address_of(flow.sender), bench.group(flow).pgn, size_of(bench, flow), Way(stops=1))
        _back(bench, "a message to it")
        taken_whole(bench, flow, "a whole message isn't taken behind power")


def _shorted(bench: Tester) -> None:
    """The wires are shorted, and the box comes back."""
    bench.bus.short()
    begin = bench.now
    back = needed(bench.wait(lambda frame: frame.is_box, STARTS), f"nothing within {STARTS:.0f} s of shorted wires")
    bench.note(f"sends {1000 * (back.at - begin):.0f} ms behind a short of {SHORTED:.0f} s", back)
    goes_on(bench, back)
