"""Steps on addresses: claims, contests that the box wins and loses, held addresses, and a commanded one."""

from __future__ import annotations

from j39plan.j1939 import ADDRESS_CLAIMED, COMMANDED_ADDRESS, CONNECTION_MANAGEMENT, DATA_TRANSFER, FRAME_BYTES, GLOBAL_ADDRESS, NULL_ADDRESS, POOL, REQUEST
from j39plan.log.checks.transfers import BAM, CLEAR, RTS
from j39plan.probe.limits import CANNOT, CONTEST, ENDS, QUEUED, SETTLES, STARTS, TR
from j39plan.probe.tester import CLAIMS, Failed, Frame, Tester, Unsure, forbid, need, needed

# A NAME that is larger than each planned one, and one that is smaller, but for its identity number.
LARGER, SMALLER = (1 << 64) - 1 - (1 << 48), 2

# How many addresses near the box's are held first, and how far apart frames of a broadcast are.
HELD, PACED = 4, 0.06


def claim(bench: Tester) -> str:
    """A box that comes on the bus claims first."""
    if not bench.bus.has_power:
        begin = bench.asks(ADDRESS_CLAIMED, GLOBAL_ADDRESS, NULL_ADDRESS).at
        first = needed(bench.own_claim(bench.answer), "no claim though all are asked for theirs")
        bench.measures("claim when asked", begin, first, TR)
        return _is_planned(bench, first, bench.planned.unit.address)
    return switched(bench)


def switched(bench: Tester, kept: int | None = None) -> str:
    """The box is switched on: it claims first, as planned, or an address that it may have kept."""
    bench.bus.power(False)
    bench.pause(0.1)
    begin = bench.now
    bench.bus.power(True)
    if not bench.planned.unit.claims and not bench.planned.periodic:
        bench.pause(CONTEST)
        return "is asked for nothing"
    first = needed(bench.wait(lambda frame: frame.is_box and (frame.pgn, frame.source, frame.data) != (REQUEST, NULL_ADDRESS, CLAIMS), STARTS),
                   f"nothing within {STARTS:.0f} s of power")
    if not bench.planned.unit.claims:
        return "sends again"
    need(first.pgn == ADDRESS_CLAIMED and first.source != NULL_ADDRESS, "a frame before its claim", first)
    bench.measures("first claim behind power", begin, first, STARTS)
    said = _is_planned(bench, first, bench.planned.unit.address if kept is None else kept)
    early = bench.wait(lambda frame: frame.is_box and frame.pgn not in (ADDRESS_CLAIMED, REQUEST), CONTEST - bench.jitter, first)
    if first.source in POOL and early:
        bench.note(f"sends {1000 * (early.at - first.at):.0f} ms behind its claim, not {1000 * CONTEST:.0f}", early)
    bench.asks(ADDRESS_CLAIMED, GLOBAL_ADDRESS, bench.tool)  # so that it hears where the others are
    bench.pause(CONTEST)
    return said


def _is_planned(bench: Tester, first: Frame, expected: int) -> str:
    """A claim is of a planned address and NAME."""
    unit = bench.planned.unit
    need(first.to == GLOBAL_ADDRESS, f"claims to {first.to}, not to all", first)
    need(len(first.data) == FRAME_BYTES, f"a claim of {len(first.data)} bytes", first)
    differ = bench.differing(int.from_bytes(first.data, "little"))
    need(not differ, f"NAME differs in {', '.join(differ)}", first)
    free = unit.may_choose and first.source in POOL and first.source not in bench.planned.source.kept
    need(first.source == unit.address or free, f"claims address {first.source}, planned is {unit.address}", first)
    if first.source != expected:
        bench.note(f"claims address {first.source}, which it may have kept, not {expected}", first)
    return f"claims address {first.source}, NAME as planned"


def never_claims(bench: Tester) -> str:
    """A unit that the plan says never claims doesn't."""
    if bench.bus.has_power:
        bench.bus.power(False)
        bench.pause(0.1)
        bench.bus.power(True)
        forbid(bench.own_claim(2.0), "claims an address, which the plan says it never does")
    asked = bench.asks(ADDRESS_CLAIMED, GLOBAL_ADDRESS, bench.tool)
    forbid(bench.own_claim(bench.answer, asked), "claims when asked, which the plan says it never does", asked)
    return "never claims"


def asked(bench: Tester) -> str:
    """Claims are asked for, of all and of one address, by a unit and by one that has no address yet."""
    for to, source in ((GLOBAL_ADDRESS, bench.tool), (bench.there, bench.tool), (GLOBAL_ADDRESS, NULL_ADDRESS), (bench.there, NULL_ADDRESS)):
        request = bench.asks(ADDRESS_CLAIMED, to, source)
        what = "all" if to == GLOBAL_ADDRESS else "its address"
        own = needed(bench.own_claim(bench.answer, request), f"no claim within {1000 * TR:.0f} ms of a request to {what} by {source}", request)
        need(own.source == bench.there and own.to == GLOBAL_ADDRESS, f"asked for its claim it claims {own.source} to {own.to}", request, own)
        need(bench.name == bench.first, "asked for its claim it has another NAME than before", request, own)
        bench.measures("claim when asked", request, own, TR)
        bench.pause(0.2)
    request = bench.asks(ADDRESS_CLAIMED, unused(bench), bench.tool)
    forbid(bench.own_claim(bench.answer, request), "claims where another address is asked", request)
    return "claims when all are asked or itself, and only then"


def unused(bench: Tester) -> int:
    """An address that nobody has."""
    taken = {unit.address for unit in bench.planned.tables.units} | bench.played | {bench.there}
    return next(address for address in range(77, NULL_ADDRESS) if address not in taken)


def goes_on(bench: Tester, since: Frame) -> None:
    """The box sends its flows from its address."""
    for flow in bench.planned.periodic:
        pgn, seconds = bench.group(flow).pgn, 3 * max(flow.period or 0, flow.pause or 0) / 1000
        if seconds <= bench.seconds and not _brings(bench, pgn, seconds, bench.there, since):
            raise Failed(f"{flow.group} stops", since)


def _brings(bench: Tester, pgn: int, seconds: float, source: int, since: Frame) -> Frame | None:
    """The next message of a group by the box, or its announcement."""
    group = pgn.to_bytes(3, "little")
    return bench.wait(lambda frame: frame.is_box and frame.source == source
                      and (frame.pgn == pgn or frame.pgn == CONNECTION_MANAGEMENT and frame.data[:1] in (bytes((RTS,)), bytes((BAM,))) and frame.data[5:] == group),
                      seconds + bench.limit(0), since)


def defends(bench: Tester) -> str:
    """A larger NAME claims the box's address, and gives it up; then somebody sends from it."""
    contest = bench.claims(LARGER, bench.there)
    own = bench.own_claim(bench.answer, contest)
    given_up = bench.claims(LARGER, NULL_ADDRESS)
    need(own and own.source == contest.source, f"a larger NAME claims its address: no claim of its own within {1000 * TR:.0f} ms", contest, own)
    bench.measures("claim when contested", contest, own or contest, TR)
    goes_on(bench, contest)
    again = bench.send(bench.unknown, b"\xff" * FRAME_BYTES, bench.there, bench.tool)
    said = bench.own_claim(bench.answer, again)
    bench.note("a frame of another from its address: " + ("it claims again" if said else "it doesn't claim again"), again, said)
    need(bench.address == contest.source, "leaves its address to a larger NAME", contest, given_up)
    return "keeps its address, and sends on"


def _smaller(bench: Tester, at: int = 0) -> int:
    """A NAME that is smaller than the box's and of no planned unit."""
    taken = {unit.number for unit in bench.planned.tables.units}
    number = next(number for number in range(SMALLER + at, 1 << 20) if number not in taken)
    if number >= (bench.planned.unit.number if bench.name is None else bench.name):
        raise Unsure("no NAME is smaller than the planned one")
    return number


def yields(bench: Tester) -> str:
    """A smaller NAME claims the box's address, and stays."""
    lost, name = bench.there, _smaller(bench)
    bench.holders[lost] = name
    contest = bench.claims(name, lost)
    said = _said_behind(bench, contest)
    forbid(bench.wait(lambda frame: _is_silenced(frame, lost, contest.at), 2.0, contest), "sends on from the address that it lost", contest)
    request = bench.asks(ADDRESS_CLAIMED, GLOBAL_ADDRESS, bench.tool)
    again = needed(bench.own_claim(bench.limit(CANNOT), request), "asked for its claim it says nothing, since it lost its address", request)
    need(again.source == said.source, f"asked for its claim it claims {again.source}", said, again)
    if said.source != NULL_ADDRESS:
        bench.note(f"chooses {_way(bench, lost, said.source)}", said)
    bench.leave([lost])
    return f"moves to address {said.source}" if said.source != NULL_ADDRESS else "says that it can't claim an address"


def _said_behind(bench: Tester, contest: Frame) -> Frame:
    """What the box says that has lost its address."""
    unit = bench.planned.unit
    said = needed(bench.own_claim(bench.limit(CANNOT), contest), f"a smaller NAME claims its address: nothing within {1000 * CANNOT:.0f} ms", contest)
    need(said.source != contest.source, "a smaller NAME claims its address, and it claims that again", contest, said)
    need(said.source == NULL_ADDRESS or unit.may_choose, f"may choose no other address, and claims {said.source}", contest, said)
    need(said.source != NULL_ADDRESS or not unit.may_choose, "may choose another address, and says that it can't", contest, said)
    need(said.source in (NULL_ADDRESS, *POOL), f"claims address {said.source}, which nobody may choose", contest, said)
    need(said.source not in bench.planned.source.kept, f"claims address {said.source}, which is kept free", contest, said)
    bench.measures("another claim" if said.source != NULL_ADDRESS else "Cannot Claim", contest, said, CANNOT)
    return said


def _is_silenced(frame: Frame, lost: int, at: float) -> bool:
    """Whether the box sends what it mustn't, behind the loss of its address."""
    asks = frame.pgn == ADDRESS_CLAIMED or frame.pgn == REQUEST and frame.data == CLAIMS
    return frame.is_box and frame.at > at + QUEUED and (frame.source == lost or frame.source == NULL_ADDRESS and not asks)


def _way(bench: Tester, lost: int, chosen: int) -> str:
    """By which rule an address was chosen, in words."""
    taken = (set(bench.holders) | bench.played | set(bench.planned.source.kept)) - {chosen}
    free = [address for address in POOL if address not in taken]
    lowest, upward = min(free, default=chosen), min((address for address in free if address > lost), default=min(free, default=chosen))
    if lowest == upward == chosen:
        return f"{chosen}, the lowest free one and the next one upward"
    return {lowest: f"the lowest free one, {chosen}", upward: f"the next free one upward, {chosen}"}.get(chosen, f"{chosen}, by a rule of its own")


def chooses(bench: Tester) -> str:
    """The box loses its address, and the next ones are held; then all of them."""
    near = [address for address in POOL if address != bench.there and address not in bench.played][:HELD]
    upward = [address for address in range(bench.there + 1, POOL.stop) if address not in bench.played][:HELD]
    begin, lost = len(bench.frames), bench.there
    first = _held(bench, [lost, *dict.fromkeys(near + upward)])
    need(bench.address is not None, f"has no free address within {SETTLES:.0f} s, where {POOL.stop - POOL.start - len(bench.holders)} are free", first)
    tried = [frame.source for frame in bench.frames[begin:] if frame.is_box and frame.pgn == ADDRESS_CLAIMED and frame.source not in (lost, NULL_ADDRESS)]
    way = _way(bench, lost, bench.there)
    bench.note(f"chooses {way}" + (", by trying held ones" if any(address in bench.holders for address in tried) else ""), first)
    need(bench.there not in bench.planned.source.kept, f"claims address {bench.there}, which is kept free", first)
    last = _held(bench, [address for address in POOL if address not in bench.played])
    need(bench.address is None, f"claims address {bench.address} though all are held", last)
    bench.leave(list(bench.holders))
    return "finds a free address among held ones, and says so where there is none"


def _held(bench: Tester, addresses: list[int]) -> Frame:
    """Units with smaller NAMEs claim addresses, that of the box last, and the box has found another one, or says that there is none. The last claim."""
    there, last = bench.there, None
    for address in [address for address in addresses if address != there] + [there]:
        bench.holders[address] = _smaller(bench, 16 + address)
        last = bench.claims(bench.holders[address], address)
    assert last is not None
    end = bench.now + SETTLES
    while bench.now < end and (bench.address in bench.holders or bench.own_claim(CONTEST + bench.limit(TR)) is not None):
        bench.pause(PACED)
    need(bench.address not in bench.holders, f"is at the held address {bench.address} {SETTLES:.0f} s later", last)
    return last


def commanded(bench: Tester) -> str:
    """The box is commanded to another address, by a broadcast and by a session; at the end to the one that it had."""
    if bench.name is None or bench.address is None:
        raise Unsure("the box hasn't claimed an address")
    begin, ways = bench.address, []
    for other, way in ((unused(bench), "broadcast"), (unused(bench) + 1, "session")):
        _commands(bench, bench.name, other, way == "session")
        moved = bench.own_claim(1.0)
        ways.append(f"{way}: " + (f"moves to {moved.source}" if moved else "stays"))
        need(moved is None or moved.source == other, f"commanded to address {other} it claims {moved and moved.source}", moved)
        bench.pause(CONTEST)
    if bench.address != begin:
        _commands(bench, bench.name, begin, False)
        bench.own_claim(1.0)
        bench.note(f"is at address {bench.address} at the end", None)
    bench.note(", ".join(ways))
    return ", ".join(ways)


def _commands(bench: Tester, name: int, address: int, is_session: bool) -> None:
    """A commanded address is sent, by RTS or by BAM."""
    data, tool = name.to_bytes(8, "little") + bytes((address,)), bench.tool
    to = bench.there if is_session else GLOBAL_ADDRESS
    about = bytes((RTS if is_session else BAM, 9, 0, 2, 255)) + COMMANDED_ADDRESS.to_bytes(3, "little")
    begun = bench.send(CONNECTION_MANAGEMENT, about, tool, to, 7)
    if is_session and bench.managed(tool, COMMANDED_ADDRESS, bench.answer, begun, CLEAR) is None:
        bench.pause(ENDS)
        return
    for number in (1, 2):
        bench.pause(PACED)
        bench.send(DATA_TRANSFER, bytes((number,)) + data[7 * number - 7:7 * number].ljust(7, b"\xff"), tool, to, 7)
