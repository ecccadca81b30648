"""Healthy drives of the harvester: 45 habits of units, tools and loggers, each with the lines that docs/reference/OPTIONS.md has for it."""

from __future__ import annotations

from collections.abc import Callable, Sequence

from j39plan.j1939 import ADDRESS_CLAIMED
from tests.harvest_bus import ADDRESSES, EVENTS, QUICK, SECONDS, Case, Line, Play, Timed, Told

# Addresses that are named often, those of a stranger and of who has none, and groups that no plan has.
ENGINE, BODY, HEADER, CLUSTER, TOOL = (ADDRESSES[label] for label in ("ENGINE", "BODY", "HEADER", "CLUSTER", "TOOL"))
STRANGER, NOBODY, FOREIGN = 250, 254, (77 | 900 << 21 | 129 << 40).to_bytes(8, "little")
VI, HOURS, CONFIG, SCANNED = 65260, 65253, 57600, (65230, 65235, 64965)

# Units that are on the ignition: all but the engine and the gearbox; those that lose power while cranking.
SWITCHED = tuple(label for label in ADDRESSES if label not in ("ENGINE", "GEARBOX"))
CRANKED = ("BODY", "GATE", "CLUSTER", "STEERING", "YIELD")


def steps(at: float, by: float) -> Callable[[list[Timed]], list[Timed]]:
    """The logger's clock is set at a time."""
    return lambda frames: [(time + by * (time > at), identifier, data) for time, identifier, data in frames]


def stalls(begin: float, end: float) -> Callable[[list[Timed]], list[Timed]]:
    """The logger records nothing for a while."""
    return lambda frames: [frame for frame in frames if not begin < frame[0] < end]


def rounds(to: float) -> Callable[[list[Timed]], list[Timed]]:
    """Time stamps are whole multiples of so many seconds."""
    return lambda frames: [(int(time / to) * to, identifier, data) for time, identifier, data in frames]


def twice(apart: float) -> Callable[[list[Timed]], list[Timed]]:
    """Each frame stands twice."""
    return lambda frames: [(time + more, identifier, data) for time, identifier, data in frames for more in (0, apart)]


def beside(form: str, each: int = 3) -> Callable[[list[str]], list[str]]:
    """Each few lines another one stands behind one, at its time."""
    def changed(lines: list[str]) -> list[str]:
        return [line for count, one in enumerate(lines) for line in ([one, form.format(one.partition(" ")[0]) + "\n"] if count % each == 0 else [one])]

    return changed


def restarts(label: str, begin: float, end: float) -> Case:
    """A unit is off for a while, and claims its address when it is back."""
    play = Play().off(begin, end, label).claims(end, label)
    return Case(f"{label} is unplugged for {end - begin:g} s", play, (Told("restart", label, Line(f"18EEFF{ADDRESSES[label]:02X}#", end)),))


def ignition(off: Sequence[str], begin: float, end: float, what: str) -> Case:
    """Units are off for a while, and claim their addresses when they are back."""
    play = Play()
    for place, label in enumerate(off):
        play.off(begin, end + 0.02 * place, label).claims(end + 0.02 * place, label)
    return Case(what, play, (Told("ignition", None, Line("18EEFF", end)),))


def starts_late(label: str, at: float) -> Play:
    """A unit is plugged in while the others are on."""
    return Play().off(0, at, label).claims(at, label)


def session(at: float, words: Sequence[tuple[int, ...]]) -> Play:
    """BODY's CONFIG to HEADER of 24 bytes in another way: an RTS, what HEADER answers, as (17, packets, next), and the packets that go then."""
    play = Play().pauses("CONFIG", "BODY", at - 4, at + 4).manages(at, BODY, HEADER, CONFIG, 16, 24, 0, 4)
    for control in words:
        at += QUICK
        play.manages(at, HEADER, BODY, CONFIG, *control)
        if control[0] == 17 and control[1]:
            play.packets(at + QUICK, BODY, HEADER, range(control[2], control[2] + control[1]))
            at += QUICK * control[1]
        at += 0.4 if control == (17, 0, 255) else 0
    return play


def asked_for_claims(at: float) -> Play:
    """A tool asks for claims, and all answer."""
    return Play().asks(at, NOBODY, ADDRESS_CLAIMED).all_claim(at + 0.03, without=("TOOL",)).claims(at + 0.9, "TOOL")


def scan(at: float, answers: Callable[[Play, float, int, int], object]) -> Play:
    """TOOL asks each unit for some groups."""
    play = Play()
    for label, address in ADDRESSES.items():
        for pgn in SCANNED if address != TOOL else ():
            play.asks(at, TOOL, pgn, address)
            answers(play, at + 0.02, address, pgn)
            at += 0.07
    return play


def refuse(play: Play, at: float, address: int, pgn: int) -> None:
    """A unit doesn't know the group."""
    play.acknowledges(at, address, 1, pgn, TOOL)


def be_silent(play: Play, at: float, address: int, pgn: int) -> None:
    """A unit answers nothing."""


def stranger(at: float) -> Play:
    """A tool claims an address that the plan doesn't have."""
    return Play().claims(at, "TOOL", STRANGER, FOREIGN)


def with_numbers(text: str) -> str:
    """The plan with identity numbers that no box has."""
    return text.replace("name = { manufacturer", "name = { identity = 12, manufacturer")


STANDS = Line("", 8)
STRANGE = Told("stranger", None, Line("18EEFFFA#", 6), "manufacturer 900")

HABITS = (
    Case("all is as planned", Play()),
    Case("without the service tool", Play().off(0, SECONDS, "TOOL")),
    Case("the service tool is plugged in", starts_late("TOOL", 8)),
    Case("a unit begins late", starts_late("YIELD", 9)),
    Case("the log begins in mid-drive", Play().logged(stalls(-1, 3))),
    Case("the log begins in mid-drive, and a tool asks for claims", asked_for_claims(5).logged(stalls(-1, 3))),
    Case("a tool asks for claims", asked_for_claims(9)),
    Case("a tool asks one unit for its claim", Play().asks(9, TOOL, ADDRESS_CLAIMED, ENGINE).claims(9.05, "ENGINE")),
    Case("a unit asks for claims when it begins", starts_late("TASK", 9).asks(8.99, NOBODY, ADDRESS_CLAIMED).all_claim(9.02, without=("TASK",))),
    ignition(tuple(ADDRESSES), 6, 12, "the ignition goes off and on"),
    ignition(SWITCHED, 6, 12, "the ignition goes off and on, and two units stay on"),
    ignition(tuple(label for label in ADDRESSES if label != "BODY"), 6, 12, "the ignition goes off and on, and a gateway stays on"),
    ignition(CRANKED, 6, 6.5, "five units lose power while the engine is cranked"),
    ignition(("HEADER", "CLEANING", "GRAIN"), 6, 9, "three units are unplugged together"),
    Case("the ignition goes off at the end", Play().off(14, SECONDS + 1, *SWITCHED), (Told("ignition"),)),
    restarts("HEADER", 6, 12),
    restarts("YIELD", 6, 6.4),
    Case("the logger's clock is set on by 0.35 s", Play().logged(steps(8, 0.35)), (Told("gap", None, STANDS),)),
    Case("the logger's clock is set on by 3 s", Play().logged(steps(8, 3)), (Told("gap", None, STANDS),)),
    Case("the logger's clock is set on by two days", Play().logged(steps(8, 172_800))),
    Case("the logger's clock is set back by 0.35 s", Play().logged(steps(8, -0.35))),
    Case("the logger's clock is set back by 5 s", Play().logged(steps(8, -5))),
    Case("the logger stalls for 0.8 s", Play().logged(stalls(8, 8.8)), (Told("gap", None, Line("", 8.8)),)),
    Case("the logger stalls for 5 s", Play().logged(stalls(8, 13)), (Told("gap", None, Line("", 13)),)),
    Case("the logger stalls, and a tool asks for claims", asked_for_claims(13.001).logged(stalls(8, 13)), (Told("gap", None, Line("", 13)),)),
    Case("each line stands twice, 3 us apart", Play().logged(twice(0.000003)), (Told("twice"),)),
    Case("each line stands twice, with one time", Play().logged(twice(0)), (Told("twice"),)),
    Case("time stamps are whole milliseconds", Play(words=(*EVENTS, "--jitter", "1")).logged(rounds(0.001))),
    Case("time stamps are whole 10 ms", Play(words=(*EVENTS, "--jitter", "10")).logged(rounds(0.01))),
    Case("a line is damaged", Play(spelled=lambda lines: [line[:45] + "\n" if place == 3000 else line for place, line in enumerate(lines)])),
    Case("the last line is cut", Play(spelled=lambda lines: [*lines[:-1], lines[-1][:33]])),
    Case("lines have directions", Play(spelled=lambda lines: [line.rstrip() + (" R\n", " T\n")[place % 2] for place, line in enumerate(lines)])),
    Case("another interface has frames of 11 bits", Play(spelled=beside("{} can1 123#0011"))),
    Case("another interface has frames of its own", Play(spelled=beside("{} can1 18F00503#0011223344556677"))),
    Case("a receiver clears one packet at a time", session(10, [(17, 1, 1), (17, 1, 2), (17, 1, 3), (17, 1, 4), (19, 24, 0, 4)])),
    Case("a receiver holds the connection open", session(10, [(17, 0, 255), (17, 0, 255), (17, 4, 1), (19, 24, 0, 4)])),
    Case("a receiver asks for a packet once more", session(10, [(17, 4, 1), (17, 1, 3), (19, 24, 0, 4)])),
    Case("a receiver has no session, and the message is tried again",
         session(10, [(255, 1)]).carries(11, BODY, HEADER, CONFIG, 24)),
    Case("the service tool scans, and is refused", scan(9, refuse), (Told("refused", "TOOL"),)),
    Case("the service tool scans, and gets no answer", scan(9, be_silent), (Told("unanswered", "TOOL"),)),
    Case("a stranger asks the engine for its identification",
         stranger(6).asks(7, STRANGER, VI, ENGINE).carries(7.02, ENGINE, STRANGER, VI, 18), (STRANGE._replace(text="asks for VI"),)),
    Case("a stranger asks for what comes at a period", stranger(6).asks(7, STRANGER, 65266, ENGINE).put(7.03, 0x18FEF200, bytes(8)), (STRANGE,)),
    Case("proprietary groups beside the plan", Play().put(8, 0x18EF2100, bytes(8)).put(8.5, 0x18FFAA21, bytes(5)).put(9, 0x18EF0021, bytes(3))),
    Case("units come with other serial numbers", Play(plan=with_numbers), (Told("identity"),)),
    Case("two damaged frames in a second", Play(spelled=beside("{} can0 20000088#0000000000000000", 700))),
)
