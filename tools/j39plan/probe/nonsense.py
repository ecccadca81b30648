"""A step on what no lawful unit sends: the box bears it."""

from __future__ import annotations

from j39plan.j1939 import ADDRESS_CLAIMED, CONNECTION_MANAGEMENT, DATA_TRANSFER, FRAME_BYTES, GLOBAL_ADDRESS, NULL_ADDRESS, REQUEST, identifier_of
from j39plan.log.checks.transfers import ABORT, BAM, CLEAR, RTS, WHOLE
from j39plan.probe import claiming, flowing, receiving
from j39plan.probe.limits import T2
from j39plan.probe.tester import Failed, Tester, forbid

# Control bytes that the standard hasn't; sizes and numbers of packets of wrong announcements.
CONTROLS = 0, 15, 18, 20, 33, 254
WRONG = ((0, 0), (8, 2), (65535, 255), (20, 0))

# How many requests a second, for how long, and how long the box then has, in seconds.
RATE, FLOOD, AFTER = 200, 5.0, 2.0


def rough(bench: Tester) -> str:
    """Frames that break the rules, and a flood of requests; then the box is as it was before."""
    _sessions(bench)
    _requests_and_claims(bench)
    _flood(bench)
    bench.pause(AFTER)
    try:
        if "asked" in bench.passed:
            claiming.asked(bench)
        if "flows" in bench.passed:
            flowing.played(bench, flowing.duration(bench, flowing.FEW))
        if "receives" in bench.passed:
            receiving.receives(bench)
    except Failed as why:
        raise Failed(f"behind nonsense: {why}", *why.frames) from None
    return "is behind nonsense as it was before"


def _sessions(bench: Tester) -> None:
    """Frames of sessions that the box can make nothing of."""
    tool, there, group = bench.tool, bench.there, bench.unknown.to_bytes(3, "little")
    for control in CONTROLS:
        bench.manages(tool, bench.unknown, control)
    for length in range(FRAME_BYTES):
        bench.send(CONNECTION_MANAGEMENT, bytes((RTS, 20, 0, 3, 255, *group))[:length], tool, there, 7)
    for number in (0, 1, 255):
        bench.send(DATA_TRANSFER, bytes((number,)) + b"\xff" * 7, tool, there, 7)
    bench.send(DATA_TRANSFER, b"", tool, there, 7)
    bench.manages(tool, bench.unknown, WHOLE, 20, 0, 3)
    bench.manages(tool, bench.unknown, CLEAR, 1, 1)
    bench.manages(tool, bench.unknown, ABORT, 3)
    for size, count in WRONG:
        bench.manages(tool, bench.unknown, RTS, size & 255, size >> 8, count)
        bench.pause(T2)
    announced = bench.send(CONNECTION_MANAGEMENT, bytes((BAM, 20, 0, 3, 255, *group)), tool, GLOBAL_ADDRESS, 7)
    bench.send(DATA_TRANSFER, b"\1" + b"\xff" * 7, tool, GLOBAL_ADDRESS, 7)
    forbid(bench.wait(lambda frame: frame.is_box and frame.pgn == CONNECTION_MANAGEMENT and frame.to == tool and frame.data[5:] == group, T2, announced),
           "answers a broadcast", announced)


def _requests_and_claims(bench: Tester) -> None:
    """Requests and claims of wrong lengths, and the smallest NAME at another address."""
    tool, number = bench.tool, bench.unknown.to_bytes(8, "little")
    for length in (0, 1, 2, 4, 5, 6, 7, 8):
        bench.send(REQUEST, number[:length], tool, bench.there)
    for length in range(FRAME_BYTES):
        bench.send(ADDRESS_CLAIMED, bytes(length), bench.there)
    bench.claims(0, claiming.unused(bench))
    bench.claims(0, NULL_ADDRESS)


def _flood(bench: Tester) -> None:
    """Many requests, each at its time, whatever comes between."""
    identifier, asked = identifier_of(6, REQUEST, bench.tool, bench.there), bench.unknown.to_bytes(3, "little")
    for number in range(int(RATE * FLOOD)):
        bench.clock.after(number / RATE, bench.bus.put, identifier, asked)
    bench.pause(FLOOD)
