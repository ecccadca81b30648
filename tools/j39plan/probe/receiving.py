"""Steps on long messages to the box: whole ones, ones with a gap or a packet twice, and ones that end or begin anew in their midst."""

from __future__ import annotations

from j39plan.j1939 import PACKET_BYTES
from j39plan.log.checks.transfers import ABORT, CLEAR, WHOLE
from j39plan.plan.tables import Flow
from j39plan.probe.limits import TR
from j39plan.probe.sessions import ENOUGH, Giving, Way, given, is_over, rests, taken_whole
from j39plan.probe.tester import Frame, Tester, need

# How far apart slow packets are.
SLOW = 0.15


def size_of(bench: Tester, flow: Flow) -> int:
    """How many bytes a message of a flow has here: the fewest."""
    return max(bench.group(flow).length, 9)


def receives(bench: Tester) -> str:
    """Whole messages: quick ones, slow ones, and ones of which the sender gives few packets at a time."""
    for flow in bench.planned.got_long:
        for way in (Way(), Way(apart=SLOW), Way(most=2)):
            taken_whole(bench, flow, "isn't acknowledged", way)
            bench.pause(0.1)
    return "takes quick messages, slow ones, and two packets at a time"


def misses(bench: Tester) -> str:
    """A packet is left out, or comes twice; a whole message behind that is taken."""
    ways: dict[str, None] = {}
    for flow in bench.planned.got_long:
        tool, group, size = bench.address_of(flow.sender), bench.group(flow), size_of(bench, flow)
        count = -(-size // PACKET_BYTES)
        tries = {f"packet {number} left out": Way(left_out=number) for number in (1, count // 2 + 1, count)} | {"a packet twice": Way(twice=min(2, count))}
        for what, way in tries.items():
            end = given(bench, tool, group.pgn, size, way)
            ways[f"{what}: {'asks again' if end.how == WHOLE and way.left_out else end.text}"] = None
            rests(bench, tool)
            taken_whole(bench, flow, f"a whole message isn't taken behind one with {what}")
    bench.note("; ".join(ways))
    return "acknowledges nothing that didn't come, and takes whole messages later"


def gives_up(bench: Tester) -> str:
    """The tester stops: behind its announcement, amid packets, by an Abort; a whole message behind that is taken."""
    ways: dict[str, None] = {}
    for flow in bench.planned.got_long:
        tool, group, size = bench.address_of(flow.sender), bench.group(flow), size_of(bench, flow)
        for what, stops in (("behind the RTS", 0), ("amid packets", 1)):
            end = given(bench, tool, group.pgn, size, Way(stops=stops))
            if end.how == CLEAR and end.frame:
                ways[f"{what}: {is_over(bench, tool, end.frame)}"] = None
            taken_whole(bench, flow, f"a whole message isn't taken behind one that stops {what}")
        given(bench, tool, group.pgn, size, Way(stops=1))
        bench.manages(tool, group.pgn, ABORT, ENOUGH)
        bench.pause(TR)
        taken_whole(bench, flow, "a whole message isn't taken behind an Abort")
    bench.note("; ".join(ways))
    return "takes whole messages behind ones that stop"


def again(bench: Tester) -> str:
    """Amid packets another message is announced: of the same group, of another one, by another sender; later a whole one is taken."""
    for flow in bench.planned.got_long:
        tool, group, size = bench.address_of(flow.sender), bench.group(flow), size_of(bench, flow)
        other = next((bench.group(one).pgn for one in bench.planned.got_long if one.group != flow.group and one.sender == flow.sender), bench.unknown)
        another = next((address for label in bench.planned.others if (address := bench.address_of(label)) != tool), None)
        tries = [("the same group", tool, group.pgn, min(size + PACKET_BYTES, max(group.most, size))), ("another group", tool, other, size)]
        for what, sender, pgn, length in tries + ([("another sender", another, group.pgn, size)] if another is not None else []):
            given(bench, tool, group.pgn, size, Way(stops=1))
            bench.note(f"an RTS of {what} amid packets: {_second(bench, sender, pgn, length)}")
            rests(bench, tool)
            taken_whole(bench, flow, f"a whole message isn't taken behind one amid which {what} was announced")
    return "mixes no messages"


def _second(bench: Tester, tool: int, pgn: int, size: int) -> str:
    """A message is announced amid another one: what the box answers, in words. What it permits it gets, and acknowledges as it was announced."""
    giving = Giving(bench, tool, pgn, size, Way())
    rts = giving.begins()
    answer: Frame | None = giving.answered(rts, TR)
    if answer is None:
        return "silence"
    if answer.data[0] == ABORT:
        return f"Abort {answer.data[1]}"
    need(answer.data[0] == CLEAR, "acknowledges a message of which nothing came", rts, answer)
    if answer.data[1] == 0:
        return "CTS of 0"
    return f"CTS, {giving.goes_on(rts, answer).text}"
