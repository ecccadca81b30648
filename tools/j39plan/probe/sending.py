"""Steps on long messages of the box to one unit: as permitted, asked for again, held, unheard, aborted."""

from __future__ import annotations

from j39plan.j1939 import CONNECTION_MANAGEMENT, DATA_TRANSFER
from j39plan.log.checks.transfers import ABORT, CLEAR, RTS
from j39plan.plan.tables import Flow
from j39plan.probe.limits import HOLD, QUEUED, T2, T3, TR
from j39plan.probe.sessions import ENOUGH, acknowledges, enough, most_of, opened, pgn_of, takes
from j39plan.probe.tester import Frame, Tester, Unsure, forbid, need

# How often the tester holds a session, and how many new announcements are lawful where it says nothing.
HOLDS, TRIES = 3, 2


def _each(bench: Tester) -> list[Flow]:
    """The flows that can be triggered; none: it isn't known."""
    flows = [flow for flow in bench.planned.sent_long if flow.on_request or flow.is_asked or flow.period]
    if not flows:
        raise Unsure(f"{', '.join(flow.group for flow in bench.planned.sent_long)}: nothing triggers it")
    return flows


def _has(bench: Tester, tool: int, rts: Frame, at_a_time: int) -> Frame:
    """The tester takes all packets of a message, so many at a time, and doesn't acknowledge yet. The last packet."""
    packets: list[Frame] = []
    while (left := rts.data[3] - len(packets)) > 0:
        packets += takes(bench, tool, rts, len(packets) + 1, min(at_a_time, most_of(rts), left))
    return packets[-1]


def sends(bench: Tester) -> str:
    """Messages that are permitted at once, packet by packet, and by the receiver's window."""
    for flow in _each(bench):
        window = next(unit.window for unit in bench.planned.tables.units if unit.label == flow.to)
        for at_a_time in dict.fromkeys((255, 1, window)):
            tool, rts = opened(bench, flow)
            _has(bench, tool, rts, at_a_time)
            done = acknowledges(bench, tool, rts)
            forbid(bench.of_box(DATA_TRANSFER, TR, done, tool), "a packet behind the acknowledgement", done)
    return "announces, and sends as permitted"


def resends(bench: Tester) -> str:
    """Behind the last packet one is asked for again: the middle one, then the last."""
    for flow in _each(bench):
        tool, rts = opened(bench, flow)
        count = rts.data[3]
        _has(bench, tool, rts, 255)
        first = (count - 1) // most_of(rts) * most_of(rts) + 1  # of the last block
        for number in dict.fromkeys(((first + count) // 2, count)):
            takes(bench, tool, rts, number, 1)
        acknowledges(bench, tool, rts)
        bench.pause(TR)
    return "sends packets again"


def holds(bench: Tester) -> str:
    """The tester holds a session, then lets it go on."""
    for flow in _each(bench):
        tool, rts = opened(bench, flow)
        for _ in range(HOLDS):
            held = bench.manages(tool, pgn_of(rts), CLEAR, 0)
            forbid(bench.wait(lambda frame: frame.is_box and frame.pgn in (CONNECTION_MANAGEMENT, DATA_TRANSFER) and frame.to == tool, HOLD, held),
                   "a frame of a session that is held", held)
        takes(bench, tool, rts, 1, min(rts.data[3], most_of(rts), 2), 0)
        enough(bench, tool, rts)
    return f"waits {1000 * HOLDS * HOLD:.0f} ms, and goes on"


def unheard(bench: Tester) -> str:
    """The tester doesn't permit, or doesn't acknowledge."""
    for flow in _each(bench):
        tool, rts = opened(bench, flow)
        _is_left(bench, flow, tool, rts, rts)
        tool, rts = opened(bench, flow)
        _is_left(bench, flow, tool, rts, _has(bench, tool, rts, 255))
        tool, rts = opened(bench, flow)
        _has(bench, tool, rts, 255)
        acknowledges(bench, tool, rts)
    return "sends no packet unasked, and the flow again"


def _is_left(bench: Tester, flow: Flow, tool: int, rts: Frame, since: Frame) -> None:
    """The tester says nothing behind a frame: no packet comes, and few new announcements."""
    seconds = 2 * T3 + T2
    forbid(bench.of_box(DATA_TRANSFER, seconds, since, tool), "a packet that isn't permitted", since)
    own = [frame for frame in bench.behind(since) if frame.is_box and frame.pgn == CONNECTION_MANAGEMENT and frame.to == tool and frame.data[5:] == rts.data[5:]]
    announced = [frame for frame in own if frame.data[0] == RTS]
    due = int(1000 * seconds / flow.period) + 1 if flow.period and not flow.on_request else 0
    need(len(announced) <= TRIES + due, f"{flow.group}: {len(announced)} new announcements within {seconds:.2f} s", rts, *announced[-1:])
    ended = next((frame for frame in own if frame.data[0] == ABORT), None)
    what = "no EOMA" if since.pgn == DATA_TRANSFER else "no CTS"
    bench.note(f"{what}: {f'Abort {ended.data[1]} after {1000 * (ended.at - since.at):.0f} ms' if ended else 'silence'}, {len(announced)} new RTS", ended)


def aborted(bench: Tester) -> str:
    """The tester gives a message up amid packets."""
    for flow in _each(bench):
        tool, rts = opened(bench, flow)
        number = min(rts.data[3], most_of(rts))
        permitted = bench.manages(tool, pgn_of(rts), CLEAR, number, 1)
        need(bench.of_box(DATA_TRANSFER, bench.answer, permitted, tool), f"packet 1 doesn't come within {1000 * TR:.0f} ms", permitted)
        given_up = bench.manages(tool, pgn_of(rts), ABORT, ENOUGH)
        forbid(bench.wait(lambda frame: frame.is_box and frame.pgn == DATA_TRANSFER and frame.to == tool and frame.at > given_up.at + QUEUED + bench.jitter, 1.0, given_up),
               "a packet behind an Abort", given_up)
        tool, rts = opened(bench, flow)
        enough(bench, tool, rts)
    return f"sends nothing later than {1000 * QUEUED:.0f} ms behind an Abort"
