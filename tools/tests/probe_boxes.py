"""Boxes for the steps of `probe`: the one that restbus plays with a change, faulty ones with the steps that they fail, and lawful oddities."""

import dataclasses
from collections.abc import Callable
from typing import Any, NamedTuple

from j39plan.bench.rest import Rest
from j39plan.j1939 import ACKNOWLEDGEMENT, ADDRESS_CLAIMED, CONNECTION_MANAGEMENT, DATA_TRANSFER, POOL, REQUEST, destination_in, source_in
from j39plan.log.checks.transfers import ABORT, CLEAR, RTS, WHOLE
from tests.box_changes import (
    EEC1, ETC2, HOURS, UNKNOWN, VI, aborts_twice, acknowledges, all_again, also, alters, answers_bam, any_packet, asked_alone, asks, asks_again, asks_once_more,
    asks_claims, at, boots, both, breaks_at, busy, changed, chooser, counts, cuts, deaf_amid, dies, drops, each_tenth, gives_to_larger,
    goes_on_behind, hears_engine, hears_much, holds_first, is_contest, keeps_next, keeps_size, late, loses_when_busy, managing, named, never_ends, not_again,
    not_now, notes_limit, notes_request, obeys, once, reclaims, second, sends, short_claims, stops_when_contested, stuck_when_held,
    tells_absence, tells_alone, tries_unheard, unasked, without, wraps, wrong_by_limit, zero_is_all,
)

# GEARBOX is the box. It may choose its address, has a fixed one, or never claims.
PLAN = """version = 4
keep_free = [200, 201]
unit = [{ label = "GEARBOX", address = ADDRESS, window = 4, CLAIMS name = { manufacturer = 310, function = 3, arbitrary = CHOOSES } },
        { label = "TOOL", address = 249, window = 3, name = { manufacturer = 500, function = 129 } },
        { label = "ENGINE", address = 0, name = { manufacturer = 500 } }]
group = [{ label = "ETC2", pgn = 61445, priority = 6, length = 8, signal = [{ label = "GEAR", byte = 1, bits = 8, kind = "measured" }] },
         { label = "HOURS", pgn = 65253, priority = 6, length = 8 },
         { label = "VI", pgn = 65260, priority = 6, length = 60 }, { label = "SETTINGS", pgn = 56320, priority = 6, length = 60, most = 80 },
         { label = "STATE", pgn = 65300, private = true, priority = 6, length = 20 }, { label = "EEC1", pgn = 61444, priority = 3, length = 8 }]
flow = [{ group = "ETC2", from = "GEARBOX", to = "all", period = 200, pause = 300 },
        { group = "HOURS", from = "GEARBOX", to = "all", on_request = true, period = 1000 },
        { group = "VI", from = "GEARBOX", to = "TOOL", on_request = true, period = 1000, deadline = 5000 },
        { group = "SETTINGS", from = "TOOL", to = "GEARBOX", period = 1000, deadline = 5000 },
        { group = "STATE", from = "GEARBOX", to = "all", period = 500 },
        { group = "EEC1", from = "ENGINE", to = "all", period = 250, pause = 400 }]
need = [{ unit = "GEARBOX", group = "EEC1", within = 5000 }]
request = [{ group = "VI", from = "TOOL", to = "GEARBOX", period = 2000 }, { group = "HOURS", from = "TOOL", to = "GEARBOX", period = 5000 }]
[timing]
bitrate = 250000
unplanned = 1
"""

class Box(NamedTuple):
    """A box: the steps that it fails, in words what is otherwise, how it is made, of which plan, a part of a note that it gets, and the words of `--with`."""

    fails: tuple[str, ...]
    about: str
    make: Callable[[], type[Rest]]
    plan: str = "chooses"
    note: str = ""
    more: tuple[str, ...] = ()
    is_filled: bool = False


def faulty(fails: str, about: str, plan: str = "chooses", more: str = "", is_filled: bool = False, **changes: Any) -> Box:
    """A faulty box."""
    return Box(tuple(fails.split()), about, lambda: changed(**changes), plan, more=tuple(more.split()), is_filled=is_filled)


def lawful(about: str, plan: str = "chooses", note: str = "", more: str = "", **changes: Any) -> Box:
    """A lawful oddity."""
    return Box((), about, lambda: changed(**changes), plan, note, tuple(more.split()))


GETS, SENDS = "receives misses gives_up again", "sends resends holds unheard aborted"

FAULTY = [
    faulty("claim", "its NAME has another function", begin=named(40)),
    faulty("claim", "its NAME has another manufacturer", begin=named(21)),
    faulty("claim", "a flow before its claim", begin=sends),
    faulty("claim", "its first claim goes to one unit", out=once("one", alters(ADDRESS_CLAIMED, flip=0x600))),
    faulty("claim", "its first claim has 7 bytes", out=once("short", cuts(ADDRESS_CLAIMED))),
    faulty("claim", "claims an address that is kept free", begin=at(200)),
    faulty("claim asked defends", "leaves the requests for claims to others", plan="fixed", out=drops(lambda box, pgn, data, at: pgn == ADDRESS_CLAIMED and source_in(at) != 254)),
    faulty("silent", "claims, though it never does by the plan", plan="silent",
           begin=lambda box: box.agenda.after(0.1, sends, box, ADDRESS_CLAIMED, 30, box.boxes[0].number.to_bytes(8, "little"))),
    faulty("asked", "deaf to requests for claims to its address", into=drops(lambda box, pgn, data, at: asks_claims(data, pgn) and destination_in(at) != 255)),
    faulty("asked", "deaf to requests for claims from 254", into=drops(lambda box, pgn, data, at: asks_claims(data, pgn) and source_in(at) == 254)),
    faulty("asked yields", "deaf to requests for claims to all", plan="fixed", into=drops(lambda box, pgn, data, at: asks_claims(data, pgn) and destination_in(at) == 255)),
    faulty("asked", "claims 240 ms after a request", begin=wraps("claims", "asked", lambda box, old, to: box.agenda.after(0.24, old, to))),
    faulty("asked", "claims where another address is asked", into=lambda box, pgn, data, at: (at & ~0xFF00 | 130 << 8, data) if asks_claims(data, pgn) and destination_in(at) == 77 else (at, data)),
    faulty("asked", "asked for its claim it tells who asked alone", into=notes_request, out=tells_alone),
    faulty("flows", "a flow each 196 ms, not 200", begin=wraps("", "_after", lambda box, old, flow, due: box.agenda.now + 0.196 if flow.group == "ETC2" else old(flow, due))),
    faulty("flows", "a flow each 340 ms, its pause is 300", begin=wraps("", "_after", lambda box, old, flow, due: box.agenda.now + 0.34 if flow.group == "ETC2" else old(flow, due))),
    faulty("flows", "each tenth message is left out", out=each_tenth),
    faulty("flows", "a flow's messages have 7 bytes", out=cuts(ETC2)),
    faulty("flows", "a flow has another priority", out=alters(ETC2, flip=1 << 26)),
    faulty("flows", "packets to all 20 ms apart", begin=lambda box: setattr(box.transport, "_gap", 0.018)),
    faulty("flows", "packets to all 250 ms apart", plan="fixed", begin=lambda box: setattr(box.transport, "_gap", 0.25)),
    faulty("flows defends power", "a flow isn't sent", begin=lambda box: box.silent.add(5)),
    faulty("flows", "sends a group that another unit has", out=also(EEC1)),
    faulty("flows", "sends an unplanned group by priority 0", out=also(0xFF10, 0)),
    faulty("answers", "answers after 300 ms", out=late(0.3, lambda pgn, data, at: pgn == HOURS)),
    faulty("flows answers", "answers by another priority", out=alters(HOURS, flip=1 << 26)),
    faulty("flows answers", "answers by 7 bytes", out=cuts(HOURS)),
    faulty("answers", "doesn't answer where all are asked", into=drops(lambda box, pgn, data, at: asks(data, pgn, HOURS) and destination_in(at) == 255)),
    faulty("answers", "doesn't answer where it alone is asked", into=drops(lambda box, pgn, data, at: asked_alone(box, pgn, data, at, HOURS))),
    faulty("answers", "refuses what it is to answer", out=acknowledges(1, HOURS)),
    faulty("answers", "doesn't announce where all are asked", into=drops(lambda box, pgn, data, at: asks(data, pgn, VI) and destination_in(at) == 255)),
    faulty("refuses", "doesn't refuse", out=drops(lambda box, pgn, data, at: pgn == ACKNOWLEDGEMENT)),
    faulty("refuses", "acknowledges what it hasn't", out=alters(ACKNOWLEDGEMENT, lambda data: b"\0" + data[1:])),
    faulty("refuses", "refuses another group", out=alters(ACKNOWLEDGEMENT, lambda data: data[:5] + b"\1" + data[6:])),
    faulty("refuses", "refuses by 7 bytes", out=cuts(ACKNOWLEDGEMENT)),
    faulty("refuses", "refuses after 300 ms", out=late(0.3, lambda pgn, data, at: pgn == ACKNOWLEDGEMENT)),
    faulty("refuses", "refuses what all were asked for", into=lambda box, pgn, data, at: (at & ~0xFF00 | 130 << 8, data) if asks(data, pgn, UNKNOWN) else (at, data)),
    faulty("receives", "acknowledges another size where two packets are allowed", into=notes_limit, out=wrong_by_limit),
    faulty(GETS, "acknowledges another number of packets", out=managing(WHOLE, lambda data: data[:3] + bytes((data[3] + 1,)) + data[4:])),
    faulty(GETS, "permits more packets than its window", begin=wraps("transport", "_window_of", lambda box, old, address: old(address) and 5)),
    faulty(GETS, "permits packets that weren't announced", out=managing(CLEAR, lambda data: data[:1] + b"\4" + data[2:] if data[1] else data)),
    faulty(GETS, "permits after 300 ms", out=late(0.3, lambda pgn, data, at: pgn == CONNECTION_MANAGEMENT and data[0] == CLEAR)),
    faulty(GETS, "doesn't acknowledge", out=without(WHOLE)),
    faulty("receives", "gives up 100 ms behind a packet", begin=wraps("transport", "_expect", lambda box, old, ends, came, time: old(ends, came, 0.1 if time == 0.75 else time))),
    faulty("misses", "acknowledges though a packet is missing", begin=wraps("transport", "packet", any_packet)),
    faulty("misses gives_up again rough", "takes nothing more once it gave up", begin=dies),
    faulty("gives_up", "is busy behind an Abort", begin=both(second(busy), wraps("transport", "managed", lambda box, old, source, to, data: None if data[0] == ABORT and (source, to) in box.transport._receiving else old(source, to, data)))),
    faulty("misses gives_up again", "waits for ever, and is busy", begin=both(second(busy), wraps("transport", "_missing", never_ends))),
    faulty("again", "a second message goes on where the first one was", begin=second(keeps_next)),
    faulty("again", "a second message has the size of the first one", begin=keeps_size),
    faulty("sends resends", "sends all, whatever is permitted", begin=wraps("transport", "_cleared", lambda box, old, ends, one, count, first: old(ends, one, count and 255, first))),
    faulty("answers " + SENDS, "a packet comes after 300 ms", out=late(0.3, lambda pgn, data, at: pgn == DATA_TRANSFER and destination_in(at) != 255)),
    faulty("answers sends resends unheard", "its last packet is too short", out=alters(DATA_TRANSFER, lambda data: data[:5] if data[0] == 9 else data)),
    faulty("answers " + SENDS, "announces too few packets", out=managing(RTS, lambda data: data[:3] + bytes((data[3] - 1,)) + data[4:])),
    faulty("flows answers " + SENDS, "announces another size", out=managing(RTS, lambda data: data[:1] + bytes((data[1] - 1,)) + data[2:])),
    faulty("sends", "sends a packet behind the acknowledgement", begin=wraps("transport", "managed", goes_on_behind)),
    faulty("resends", "sends no packet again", begin=wraps("transport", "_cleared", not_again)),
    faulty("resends", "sends all again that follows", begin=wraps("transport", "_cleared", all_again)),
    faulty("holds", "gives up 300 ms behind a CTS of 0", begin=wraps("transport", "_wait", lambda box, old, one, ends, time: old(one, ends, 0.3 if time == 1.05 else time))),
    faulty("holds", "takes a CTS of 0 for one of all packets", begin=wraps("transport", "_cleared", zero_is_all)),
    faulty("holds", "goes on no more behind a CTS of 0", begin=wraps("transport", "_cleared", stuck_when_held)),
    faulty("unheard", "sends without a CTS", begin=wraps("transport", "_late", unasked)),
    faulty("unheard", "announces again and again", begin=tries_unheard(8, 0.3)),
    faulty("unheard aborted", "announces nothing more once nobody heard it", begin=both(
        wraps("transport", "_late", lambda box, old, ends, one: box.kept.update(dead=ends in box.transport._sending and box.agenda.now >= one.until > 0) or old(ends, one)),
        wraps("transport", "send", lambda box, old, *words: not box.kept.get("dead") and old(*words)))),
    faulty("aborted", "hears no Abort amid packets", begin=both(wraps("transport", "managed", deaf_amid), wraps("transport", "_packet", lambda box, old, *words: box.agenda.after(0.03, old, *words)))),
    faulty("defends", "hears no larger NAME", into=drops(lambda box, pgn, data, at: is_contest(box, pgn, data, at, True))),
    faulty("defends", "claims 300 ms behind a contest", begin=wraps("claims", "_contested", lambda box, old, one, name, address: box.agenda.after(0.3, old, one, name, address) if name > one.number else old(one, name, address))),
    faulty("defends", "gives its address to a larger NAME", begin=wraps("claims", "_contested", gives_to_larger)),
    faulty("defends", "stops its flows where its address is contested", into=stops_when_contested),
    faulty("crowd", "loses messages where much is heard", is_filled=True, out=loses_when_busy, into=hears_much),
    faulty("rough", "hangs behind an RTS of 65535 bytes", into=breaks_at(lambda pgn, data, at: pgn == CONNECTION_MANAGEMENT and data[:3] == b"\x10\xff\xff")),
    faulty("rough", "hangs behind a request of 2 bytes", into=breaks_at(lambda pgn, data, at: pgn == REQUEST and len(data) == 2)),
    faulty("rough", "hangs behind a control frame of 0 bytes", into=breaks_at(lambda pgn, data, at: pgn == CONNECTION_MANAGEMENT and not data)),
    faulty("rough", "hangs behind 500 requests", into=counts),
    faulty("rough", "takes a short claim for a contest", plan="fixed", into=short_claims),
    faulty("rough", "answers a broadcast", into=answers_bam),
    faulty("yields", "hears no smaller NAME", plan="fixed", into=drops(lambda box, pgn, data, at: is_contest(box, pgn, data, at, False))),
    faulty("yields chooses", "hears no smaller NAME, and may choose", into=drops(lambda box, pgn, data, at: is_contest(box, pgn, data, at, False))),
    faulty("yields", "sends on from the address that it lost", begin=lambda box: setattr(box.claims, "left", lambda address: box.agenda.after(0.1, sends, box))),
    faulty("yields", "has a fixed address, and moves", plan="fixed", begin=lambda box: setattr(box.boxes[0], "unit", dataclasses.replace(box.boxes[0].unit, fields={**box.boxes[0].unit.fields, "arbitrary": 1}))),
    faulty("yields chooses", "may choose, and says that it can't", begin=chooser(lambda box, lost: None)),
    faulty("yields chooses", "chooses an address that is kept free", begin=chooser(lambda box, lost: 200 if lost != 200 else 201)),
    faulty("yields", "chooses address 100", begin=wraps("claims", "_free", lambda box, old, one, lost: 100 if lost == 130 and box.agenda.now < 900 and "moved" not in box.kept and not box.kept.update(moved=1) else old(one, lost))),
    faulty("yields", "sends from 254", plan="fixed", begin=lambda box: setattr(box.claims, "left", lambda address: box.agenda.after(0.1, sends, box, ETC2, 254))),
    faulty("yields", "can't claim, and says so no more when asked", plan="fixed",
           begin=wraps("claims", "asked", lambda box, old, to: old(to) if box.boxes[0].address is not None else None)),
    faulty("yields", "says after 400 ms that it can't claim", plan="fixed", out=once("late", late(0.4, lambda pgn, data, at: pgn == ADDRESS_CLAIMED and source_in(at) == 254))),
    faulty("chooses", "gives up though addresses are free", begin=wraps("claims", "_free", lambda box, old, one, lost: None if len(box.claims.known) > 8 else old(one, lost))),
    faulty("chooses", "claims two held addresses in turn", begin=wraps("claims", "_free", lambda box, old, one, lost: 129 + lost % 2 if len(box.claims.known) > 8 else old(one, lost))),
    faulty("chooses", "stays where all addresses are held", begin=wraps("claims", "_contested", lambda box, old, one, name, address: None if len(box.claims.known) > 100 else old(one, name, address))),
    faulty("commanded", "moves elsewhere than commanded", more="commanded", into=lambda box, pgn, data, at: obeys(box, pgn, data, at, 9)),
]


def booted(which: int, changes: Callable[[Any], Any]) -> Callable[[], type[Rest]]:
    """How a box is made that is otherwise from some switching on."""
    def make() -> type[Rest]:
        seen: dict[str, int] = {}
        return changed(begin=lambda box: boots(box, changes, which, seen))
    return make


FAULTY += [
    Box(("power",), "has another NAME once it was off and on twice", booted(4, named(40))),
    Box(("power",), "sends no flows once it was off and on twice", booted(4, lambda box: box.silent.update((1, 5)))),
    Box(("power",), "is silent once it was off and on twice", booted(4, wraps("", "_put", lambda box, old, *words: None))),
]

LAWFUL = [
    lawful("claims twice", out=lambda box, pgn, data, at: (pgn == ADDRESS_CLAIMED and box._out(at, data)) or (at, data)),
    lawful("claims 190 ms after a request", begin=wraps("claims", "asked", lambda box, old, to: box.agenda.after(0.19 if box.boxes[0].address else 0, old, to))),
    lawful("asks nobody for claims as it comes up", out=once("first", drops(lambda box, pgn, data, at: asks_claims(data, pgn)))),
    lawful("sends before 250 ms", note="ms behind its claim", begin=wraps("claims", "_claim", lambda box, old, *words: old(*words) or box.agenda.after(0.02, sends, box, ETC2, words[1]))),
    lawful("comes up at an address that it has kept", note="may have kept", begin=at(140)),
    lawful("refuses to who asked, not to all", note="refuses by 1 to 249", out=lambda box, pgn, data, at: (at & ~0xFF00 | data[4] << 8, data) if pgn == ACKNOWLEDGEMENT else (at, data)),
    lawful("refuses to who asked, without its address", note="byte 5 is 255", out=lambda box, pgn, data, at: (at & ~0xFF00 | data[4] << 8, data[:4] + b"\xff" + data[5:]) if pgn == ACKNOWLEDGEMENT else (at, data)),
    lawful("refuses by 2, access denied", note="refuses by 2", out=alters(ACKNOWLEDGEMENT, lambda data: b"\2" + data[1:])),
    lawful("refuses by 3, busy", note="refuses by 3", out=alters(ACKNOWLEDGEMENT, lambda data: b"\3" + data[1:])),
    lawful("denies what it answers else", note="HOURS: denied", out=acknowledges(2, HOURS)),
    lawful("is busy where it is to answer", note="HOURS: busy", out=acknowledges(3, HOURS)),
    lawful("has the group that nobody has", note="which the plan hasn't",
           into=lambda box, pgn, data, at: asked_alone(box, pgn, data, at, UNKNOWN) and box.agenda.after(0.01, sends, box, UNKNOWN, 130, b"\xff" * 8, 6, 249) or (at, data)
           if not asked_alone(box, pgn, data, at, UNKNOWN) else box.agenda.after(0.01, sends, box, UNKNOWN, box.boxes[0].address, b"\xff" * 8, 6, 249)),
    lawful("permits one packet at a time", begin=wraps("transport", "_window_of", lambda box, old, address: old(address) and 1)),
    lawful("asks again for missing packets", note="packet 5 left out: asks again", begin=wraps("transport", "packet", asks_again)),
    lawful("gives up without a word", note="left out: silence", out=without(ABORT)),
    lawful("gives up by a reason of its own", note="Abort 251", out=managing(ABORT, lambda data: data[:1] + b"\xfb" + data[2:])),
    lawful("gives up where a packet comes twice", note="a packet twice: Abort 8", begin=wraps("transport", "packet", aborts_twice)),
    lawful("doesn't know the limit in an RTS", note="where the RTS allows 2", into=managing(RTS, lambda data: data[:4] + b"\xff" + data[5:])),
    lawful("holds each session before it permits", begin=wraps("transport", "_clear", holds_first)),
    lawful("asks again before it gives up, and is busy", note="behind the RTS: Abort 3 after 2500 ms", begin=both(second(busy), wraps("transport", "_missing", asks_once_more))),
    lawful("refuses a second message by Abort 1", note="the same group amid packets: Abort 1", begin=second(busy)),
    lawful("holds a second message", note="amid packets: CTS of 0", begin=second(not_now)),
    lawful("is silent for a second message", note="amid packets: silence", begin=second(lambda *words: None)),
    lawful("announces two packets a CTS", out=managing(RTS, lambda data: data[:4] + b"\2" + data[5:])),
    lawful("sends packets 40 ms apart", begin=wraps("transport", "_packet", lambda box, old, *words: box.agenda.after(0.04, old, *words))),
    lawful("announces twice more where nobody hears", note="2 new RTS", begin=tries_unheard(2, 1.0)),
    lawful("gives up without a word where nobody hears", note="no CTS: silence", begin=wraps("transport", "_late", lambda box, old, ends, one: box.transport._sending.pop(ends, None)
                                                                             if box.transport._sending.get(ends) is one and one.until and box.agenda.now >= one.until else None)),
    lawful("claims behind a frame of another from its address", note="it claims again", into=reclaims),
    lawful("says after 140 ms that it can't claim", plan="fixed", out=once("late", late(0.14, lambda pgn, data, at: pgn == ADDRESS_CLAIMED and source_in(at) == 254))),
    lawful("chooses the lowest free address", note="chooses the lowest free one, 128", begin=chooser(lambda box, lost: next((address for address in POOL if address not in {*box.claims.known.values(), 200, 201}), None))),
    lawful("chooses by trying held addresses", note="by trying held ones", begin=chooser(lambda box, lost: None if len(box.claims.known) > 100 else lost + 1)),
    lawful("sends a group that the plan hasn't", note="sends PGN 65296", out=also(0xFF10, 7)),
    lawful("sends each 290 ms, its pause is 300", begin=wraps("", "_after", lambda box, old, flow, due: box.agenda.now + 0.29 if flow.group == "ETC2" else old(flow, due))),
    lawful("sends a reserved value", note="reserved values of GEAR", out=alters(ETC2, lambda data: b"\xfc" + data[1:])),
    lawful("sends no values", note="'not available' or 'error' all the time: GEAR"),
    lawful("obeys a commanded address", more="commanded", note="broadcast: moves", into=lambda box, pgn, data, at: obeys(box, pgn, data, at, 0)),
    lawful("has an error where what it needs is away", more="needs", note="without EEC1 from ENGINE to all: PGN 61445 has fe", into=hears_engine, out=tells_absence),
    lawful("never claims, by the plan", plan="silent"),
]

# What Linux' own stack fails: the box, the words, and why.
LINUX: list[tuple[str, tuple[str, ...], str]] = [
    ("with an application, `linux_j1939_box.py`", ("resends", "holds"),
     "Abort 5 behind a packet that is asked for again once all were sent; Abort 8 for the second CTS of 0 in turn"),
    ("without one", ("claim", "asked", "refuses", "yields"), "claims when asked, refusals and Cannot Claim are an application's"),
]

# The steps that it passes with that application.
LINUX_PASSES = ("claim", "asked", "flows", "answers", "refuses", "receives", "misses", "gives_up", "again", "sends", "unheard", "aborted", "defends", "yields")
