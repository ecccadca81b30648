"""Drives of the harvester with a fault: 55 faults, each told once, by its unit and line."""

from __future__ import annotations

from collections.abc import Callable, Sequence

from j39plan.j1939 import ADDRESS_CLAIMED, identifier_of
from tests.harvest_bus import ADDRESSES, SECONDS, Case, Line, Play, Told, named
from tests.harvest_habits import BODY, CONFIG, ENGINE, FOREIGN, HEADER, HOURS, NOBODY, TOOL, asked_for_claims, beside, session, stranger

GATE, SCANNED, END = ADDRESSES["GATE"], 65230, SECONDS + 1

# A frame that is changed: its identifier and its bytes, None where it isn't sent.
Changed = Callable[[int, bytes], tuple[int, bytes] | None]


def fault(what: str, play: Play, kind: str, unit: str | None = None, line: Line | None = None, text: str = "") -> Case:
    """A drive of which one thing is told."""
    return Case(what, play, (Told(kind, unit, line, text),))


def with_priority(priority: int) -> Changed:
    """A frame has another priority."""
    return lambda identifier, data: (identifier & ~(7 << 26) | priority << 26, data)


def with_source(source: int) -> Changed:
    """A frame comes from another address."""
    return lambda identifier, data: (identifier & ~0xFF | source, data)


def with_data(change: Callable[[bytes], bytes]) -> Changed:
    """A frame has other bytes."""
    return lambda identifier, data: (identifier, change(data))


def without(is_it: Callable[[bytes], bool] = lambda data: True) -> Changed:
    """A frame isn't sent."""
    return lambda identifier, data: None if is_it(data) else (identifier, data)


def as_it_is(identifier: int, data: bytes) -> tuple[int, bytes]:
    """A frame isn't changed."""
    return identifier, data


def line_at(place: int, text: str) -> Play:
    """A line that is no data frame of 29 bits stands in the log."""
    def changed(lines: list[str]) -> list[str]:
        return [*lines[:place], f"{lines[place].partition(' ')[0]} can0 {text}\n", *lines[place:]]

    return Play(spelled=changed)


def claim_of(label: str) -> str:
    """How a claim's identifier is spelled."""
    return f"18EEFF{ADDRESSES[label]:02X}"


def restarting(label: str, *moments: float) -> Play:
    """A unit loses its power again and again."""
    play = Play()
    for at in moments:
        play.off(at, at + 0.4, label).claims(at + 0.4, label)
    return play


def broadcast(at: float, numbers: Sequence[int]) -> Play:
    """GATE announces a message of four packets to all, of a group that the plan has from others, and sends packets of these numbers."""
    return Play().manages(at, GATE, 255, 61184, 32, 24, 0, 4).packets(at + 0.06, GATE, 255, numbers, 0.06)


CLAIMS = (
    fault("a unit claims another address, and is there from then on",
          Play().claims(8, "TASK", 70).changes_frames("18FF1541", 8, END, with_source(70)), "address", "TASK", Line("18EEFF46#", 8)),
    fault("a stranger claims an address", stranger(6), "stranger", None, Line("18EEFFFA#", 6)),
    fault("a stranger sends a planned group", Play().put(8, 0x18FEF22C, bytes(8)).put(9, 0x18FEF22C, bytes(8)), "stranger", None, Line("18FEF22C#", 8), "LFE"),
    fault("a stranger claims a unit's address, which the unit defends",
          Play().claims(8, "TOOL", BODY, FOREIGN).claims(8.01, "BODY"), "stranger", None, Line("18EEFF21#", 8)),
    fault("a unit doesn't answer a request for claims",
          Play().asks(9, NOBODY, ADDRESS_CLAIMED).all_claim(9.03, without=("GATE",)), "claims-unanswered", "GATE", Line("18EAFFFE#", 9)),
    fault("a unit sends for a second before it claims",
          Play().changes_frames(claim_of("YIELD"), 0, 1, without()).claims(1.5, "YIELD"), "unclaimed", "YIELD", Line("18FF1540#")),
    fault("a unit never claims", Play().changes_frames(claim_of("YIELD"), 0, 1, without()), "unclaimed", "YIELD", Line("18FF1540#")),
    fault("a unit answers a request for claims to who asks alone",
          asked_for_claims(9).changes_frames(claim_of("GATE"), 9, 10, as_it_is).asks(15, TOOL, ADDRESS_CLAIMED, GATE).claims(15.05, "GATE", to=TOOL),
          "claim-to-one", "GATE", Line("18EEF927#", 15)),
    fault("a claim is too short", Play().put(8, 0x18EEFF21, named("BODY")[:7]), "length", "BODY", Line("18EEFF21#", 8)),
    fault("a unit restarts again and again", restarting("YIELD", 6, 10, 14), "restart", "YIELD", Line("18EEFF40#", 6)),
    fault("a unit isn't there", Play().off(0, END, "TASK"), "absent", "TASK"),
)

GROUPS = (
    fault("a message is too short for a while", Play().changes_frames("18FEF200", 8, 9, with_data(lambda data: data[:7])), "layout", "ENGINE", Line("18FEF200#", 8)),
    fault("a message is too long once", Play().changes_frames("18FF143F", 8, 8.2, with_data(lambda data: data[:5])), "layout", "GRAIN", Line("18FF143F#", 8)),
    fault("a message has another priority", Play().changes_frames("18FEF200", 8, 12, with_priority(3)), "priority", "ENGINE", Line("0CFEF200#", 8)),
    fault("a message goes to another unit", Play().changes_frames("0CAC2113", 8, 9, lambda identifier, data: (0x0CAC1713, data)), "no-flow", "STEERING", Line("0CAC1713#", 8)),
    fault("a group that isn't planned",
          Play().put(8, 0x18FDB000, bytes(8)).put(9, 0x18FDB000, bytes(8)), "no-group", "ENGINE", Line("18FDB000#", 8)),
    fault("a planned group from another unit", Play().put(8, 0x18FEF221, bytes(8)), "no-flow", "BODY", Line("18FEF221#", 8)),
    fault("a selector that no group has", Play().changes_frames("18FEF427", 8, 10, with_data(lambda data: bytes((data[0] | 15,)) + data[1:])), "layout", "GATE", Line("18FEF427#", 8)),
    fault("a request is too long", Play().put(8, 0x18EA00F9, bytes(8)), "length", "TOOL", Line("18EA00F9#", 8)),
    fault("a frame with the extended data page", Play().put(8, 0x1AFEF121, bytes(8)), "extended-page", "BODY", Line("1AFEF121#", 8)),
    fault("a remote frame", line_at(3000, "18FEF100#R"), "remote", None, Line("#R")),
    fault("a frame of CAN FD", line_at(3000, "18FEF100##100112233"), "fd", None, Line("##1")),
    fault("frames of 11 bits", Play(spelled=beside("{} can0 123#0011", 700)), "short-identifier", None, Line(" 123#")),
    fault("a frame that is too urgent", Play().put(8, 0x08FFAA21, bytes(8)), "urgent", "BODY", Line("08FFAA21#", 8)),
)

TIMES = (
    fault("a message comes twice as often for a second", Play().sends("CCVS", "ENGINE", lambda at: [at, at + 0.05] if 8 <= at < 9 else [at]), "near", "ENGINE", Line("18FEF100#", 8, 9.2)),
    fault("a message comes too soon, once", Play().sends("TANK", "GRAIN", lambda at: [at, at + 0.1] if 8 <= at < 8.2 else [at]), "near", "GRAIN", Line("18FF143F#", 8, 8.4)),
    fault("a flow pauses for two seconds", Play().pauses("TANK", "GRAIN", 8, 10), "silent", "GRAIN", Line("18FF143F#", 10)),
    fault("one of several flows pauses", Play().pauses("CCVS", "ENGINE", 8, 9), "silent", "ENGINE", Line("18FEF100#", 9)),
    fault("a flow stops", Play().pauses("CCVS", "ENGINE", 14, END), "stopped", "ENGINE", Line("18FEF100#", 0, 14.1, True)),
    fault("a unit loses the bus", Play().off(8, 11, "CLEANING"), "silent", "CLEANING", Line("18EF213E#", 11)),
    fault("a unit stops", Play().off(14, END, "CLEANING"), "stopped", "CLEANING", Line("18EF213E#", 0, 14.1, True)),
    fault("a unit's clock is 1 % fast", Play(paces={"ENGINE": 0.99}), "clock", "ENGINE", Line("", 0, SECONDS)),
    fault("a unit's clock is 3 % fast", Play(paces={"GATE": 0.97}), "clock", "GATE", Line("", 0, SECONDS)),
    fault("a flow is never sent", Play().pauses("TANK", "GRAIN", 0, END), "never-sent", "GRAIN"),
    fault("a unit floods the bus", flood := Play(), "unplanned", "YIELD", Line("18EF2140#", 8, 9.1)),
    fault("packets to all come too fast", Play().changes_frames("1CEBFF00", 8, 8.99, as_it_is, -0.03), "packets-near", "ENGINE", Line("1CEBFF00#", 7.9, 9)),
    fault("packets to all come too slowly", Play().changes_frames("1CEBFF55", 8, 8.99, as_it_is, 0.2), "packets-far", "AFTER", Line("1CEBFF55#", 8, 9.3)),
)
for count in range(1200):
    flood.put(8 + count / 1200, 0x18EF2140, bytes(8))

RTS, CTS, DATA = Line("1CEC3D21#", 10), Line("1CEC213D#11", 10), Line("1CEB3D21#", 10)
SESSIONS = (
    fault("a packet to all is missing", Play().changes_frames("1CEBFF55", 8, 9, without(lambda data: data[0] == 2)), "not-whole", "AFTER", Line("1CECFF55#", 7.9)),
    fault("a receiver doesn't clear to send", session(10, []), "not-whole", "HEADER", RTS),
    fault("a receiver doesn't acknowledge", session(10, [(17, 4, 1)]), "not-acknowledged", "HEADER", Line("1CEB3D21#04", 10)),
    fault("a receiver acknowledges too soon", session(10, [(17, 2, 1), (19, 24, 0, 4)]), "acknowledged", "HEADER", Line("1CEC213D#13", 10)),
    fault("a receiver acknowledges another size", session(10, [(17, 4, 1), (19, 23, 0, 4)]), "acknowledged", "HEADER", Line("1CEC213D#13", 10)),
    fault("an announcement with a wrong size", Play().manages(10.5, BODY, HEADER, CONFIG, 16, 99, 0, 4), "announcement", "BODY", Line("1CEC3D21#1063", 10)),
    fault("packets without an announcement", Play().packets(8, GATE, 255, (1, 2, 3, 4), 0.06), "packet", "GATE", Line("1CEBFF27#", 8)),
    fault("an Abort by a third", Play().manages(10, GATE, HEADER, CONFIG, 255, 3), "abort", "GATE", Line("1CEC3D27#FF", 10)),
    fault("more packets are cleared than may be", session(10, []).manages(10.01, HEADER, BODY, CONFIG, 17, 9, 1).packets(10.02, BODY, HEADER, (1, 2, 3, 4)).manages(10.04, HEADER, BODY, CONFIG, 19, 24, 0, 4), "grant", "HEADER", CTS),
    fault("more packets go than are cleared", session(10, [(17, 2, 1)]).packets(10.02, BODY, HEADER, (3, 4)).manages(10.04, HEADER, BODY, CONFIG, 19, 24, 0, 4),
          "packet", "BODY", Line("1CEB3D21#03", 10)),
    fault("packets are numbered from 0", broadcast(8, (0, 1, 2, 3)), "packet", "GATE", Line("1CEBFF27#00", 8)),
    fault("the last packet is too short", session(10, []).manages(10.01, HEADER, BODY, CONFIG, 17, 4, 1).packets(10.02, BODY, HEADER, (1, 2, 3)).put(10.04, 0x1CEB3D21, bytes((4, 0, 0))), "not-whole", "BODY", RTS),
    fault("a message is given up", session(10, [(17, 4, 1)]).manages(10.1, BODY, HEADER, CONFIG, 255, 2), "given-up", "BODY", Line("1CEC3D21#FF", 10)),
    fault("a clear to send is late", session(10, []).manages(10.4, HEADER, BODY, CONFIG, 17, 4, 1).packets(10.41, BODY, HEADER, (1, 2, 3, 4)).manages(10.43, HEADER, BODY, CONFIG, 19, 24, 0, 4), "late-answer", "HEADER", CTS),
    fault("packets are too urgent", Play().changes_frames("1CEB3D21", 8, 12, with_priority(3)), "transport-priority", "BODY", Line("0CEB3D21#", 8)),
    fault("a message is announced by the extended transport protocol",
          Play().put(10, identifier_of(7, 51200, BODY, HEADER), bytes((20, 0xD0, 7, 0, 0, 0, 0xE1, 0))), "layout", "BODY", Line("1CC83D21#", 10)),
)

ASKED = Line("18EA00F9#ECFE00", 9)
REQUESTS = (
    fault("a request isn't answered",
          Play().changes_frames("1CECF900", 8, 11, without()).changes_frames("1CEBF900", 8, 11, without()), "unanswered", "ENGINE", ASKED),
    fault("a request is answered late", Play().changes_frames("18FEE500", 9, 11, as_it_is, 0.3), "late", "ENGINE", Line("18FEE500#", 9)),
    fault("a request is refused", Play().changes_frames("18FEE500", 9, 11, without()).acknowledges(9.55, ENGINE, 1, HOURS, TOOL), "refused", "ENGINE", Line("18E8FF00#", 9)),
    fault("a request to all is refused", Play().asks(10, TOOL, SCANNED).acknowledges(10.05, GATE, 1, SCANNED, TOOL), "refused-to-all", "GATE", Line("18EAFFF9#", 10)),
    fault("a request comes again too soon", Play().asks(10.1, TOOL, HOURS, ENGINE).put(10.12, 0x18FEE500, bytes(8)), "asked-early", "TOOL", Line("18EA00F9#E5FE00", 10)),
)

BUS = (
    fault("five damaged frames in a second", Play(spelled=beside("{} can0 20000088#0000000000000000", 60)), "damaged", None, Line("20000088#", 0, END)),
    fault("an overload frame", line_at(3000, "20000008#0000200000000000"), "overload", None, Line("20000008#")),
)

FAULTS = (*CLAIMS, *GROUPS, *TIMES, *SESSIONS, *REQUESTS, *BUS)
