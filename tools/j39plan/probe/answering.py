"""Steps on requests: what the box answers, and what it refuses."""

from __future__ import annotations

from j39plan.j1939 import ACKNOWLEDGEMENT, CONNECTION_MANAGEMENT, FRAME_BYTES, GLOBAL_ADDRESS
from j39plan.log.checks.transfers import BAM, RTS
from j39plan.plan.tables import Group
from j39plan.probe.limits import TR
from j39plan.probe.planned import Asked
from j39plan.probe.sessions import fetched
from j39plan.probe.tester import Frame, Tester, forbid, need, needed

# Acknowledgements by their first byte: it is done, it isn't, access is denied, it can't be done now.
DONE, NOT, DENIED, BUSY = range(4)


def answers(bench: Tester) -> str:
    """The box is asked for each group that it answers, alone and with all others."""
    for asked in bench.planned.answers:
        for to in (bench.there, GLOBAL_ADDRESS):
            _answers(bench, asked, to)
            bench.pause(0.2)
    return f"answers requests of {', '.join(asked.group.label for asked in bench.planned.answers)}"


def _answers(bench: Tester, asked: Asked, to: int) -> None:
    """A request is answered by a flow of the box."""
    group, tool = asked.group, bench.address_of(asked.asker)
    request = bench.asks(group.pgn, to, tool)
    answer = needed(answer_of(bench, group.pgn, tool, bench.answer, request),
                    f"{group.label}: no answer within {1000 * TR:.0f} ms of a request to {'all' if to == GLOBAL_ADDRESS else 'it'}", request)
    bench.measures(f"{group.label} when asked", request, answer, TR)
    if answer.pgn == ACKNOWLEDGEMENT:
        need(answer.data[0] in (DENIED, BUSY), f"{group.label}: acknowledged by {answer.data[0]}, not answered", request, answer)
        bench.note(f"{group.label}: {'denied' if answer.data[0] == DENIED else 'busy'}", answer)
        return
    if answer.pgn == group.pgn:
        _is_of_flow(bench, group, answer, answer.data, answer.identifier >> 26)
        return
    if answer.data[0] == BAM and to != GLOBAL_ADDRESS and asked.flow.to != "all":
        bench.note(f"{group.label}: sent to all, though one alone asked", answer)
    _is_of_flow(bench, group, answer, fetched(bench, tool, answer), None)


def _is_of_flow(bench: Tester, group: Group, answer: Frame, data: bytes, priority: int | None) -> None:
    """A message is one of a flow of the box: its length, its bits of `when`, and where it goes in one frame its priority."""
    groups = [bench.group(flow) for flow in bench.planned.sent if bench.group(flow).pgn == group.pgn]
    need(any(one.takes(data) for one in groups), f"{group.label}: a message of {len(data)} bytes, not as planned", answer)
    need(priority in (None, *(one.priority for one in groups)), f"{group.label}: priority {priority}, planned is {group.priority}", answer)


def answer_of(bench: Tester, pgn: int, tool: int, seconds: float, since: Frame) -> Frame | None:
    """What the box answers a request: a message, its announcement, or an acknowledgement."""
    group = pgn.to_bytes(3, "little")

    def fits(frame: Frame) -> bool:
        is_manager = frame.pgn == CONNECTION_MANAGEMENT and len(frame.data) == FRAME_BYTES and frame.data[5:] == group
        is_announced = is_manager and (frame.data[0] == BAM or frame.data[0] == RTS and frame.to == tool)
        is_said = frame.pgn == ACKNOWLEDGEMENT and frame.data[5:] == group
        return frame.is_box and (frame.pgn == pgn or is_announced or is_said)

    return bench.wait(fits, seconds, since)


def refuses(bench: Tester) -> str:
    """The box is asked for what it hasn't, alone and with all others."""
    tool, number = bench.tool, bench.unknown.to_bytes(3, "little")
    request = bench.asks(bench.unknown, bench.there, tool)
    answer = needed(bench.wait(lambda frame: frame.is_box and frame.pgn in (ACKNOWLEDGEMENT, bench.unknown), bench.answer, request),
                    f"no acknowledgement within {1000 * TR:.0f} ms of a request that it can't answer", request)
    bench.measures("refusal", request, answer, TR)
    if answer.pgn == ACKNOWLEDGEMENT:
        need(len(answer.data) == FRAME_BYTES, f"an acknowledgement of {len(answer.data)} bytes", request, answer)
        need(answer.data[5:] == number, f"acknowledges PGN {int.from_bytes(answer.data[5:], 'little')}, asked was {bench.unknown}", request, answer)
        need(answer.data[0] in (NOT, DENIED, BUSY), f"acknowledges by {answer.data[0]} what it hasn't", request, answer)
        if (answer.data[0], answer.to, answer.data[4]) != (NOT, GLOBAL_ADDRESS, tool):
            bench.note(f"refuses by {answer.data[0]} to {'all' if answer.to == GLOBAL_ADDRESS else answer.to}, byte 5 is {answer.data[4]}", answer)
    else:
        bench.note(f"has PGN {bench.unknown}, which the plan hasn't", answer)
    bench.pause(0.2)
    request = bench.asks(bench.unknown, GLOBAL_ADDRESS, tool)
    forbid(bench.of_box(ACKNOWLEDGEMENT, bench.answer, request), "refuses what all were asked for", request)
    return "refuses alone what it hasn't, and is silent where all are asked"
