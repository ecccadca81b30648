"""Changes of the box that restbus plays, by which boxes for the steps of `probe` are made: of frames that it sends or hears, and of its rules."""

import dataclasses
from collections.abc import Callable
from typing import Any

from j39plan.bench.rest import Rest
from j39plan.j1939 import ACKNOWLEDGEMENT, ADDRESS_CLAIMED, CONNECTION_MANAGEMENT, DATA_TRANSFER, REQUEST, destination_in, identifier_of, pgn_in, source_in
from j39plan.log.checks.transfers import ABORT, BAM, CLEAR, RTS, WHOLE
from j39plan.probe.tester import CLAIMS

# Groups of the plan by their numbers.
ETC2, HOURS, VI, SETTINGS, STATE, EEC1, UNKNOWN = 61445, 65253, 65260, 56320, 65300, 61444, 60672

# What is sent or heard in a frame's place, by the box, the group, the data and the identifier: None is nothing.
Way = Callable[[Any, int, bytes, int], Any]


def same(_box: Any, _pgn: int, data: bytes, at: int) -> tuple[int, bytes]:
    """The frame itself."""
    return at, data


def changed(out: Way = same, into: Way = same, begin: Callable[[Any], Any] = lambda box: None) -> type[Rest]:
    """The box with a change of what it sends, of what it hears, or of its rules."""
    class Changed(Rest):
        def __init__(self, *words: Any) -> None:
            super().__init__(*words)
            self.kept: dict[str, Any] = {}
            begin(self)

        def _put(self, identifier: int, data: bytes) -> None:
            if frame := out(self, pgn_in(identifier), data, identifier):
                super()._put(*frame)

        def heard(self, now: float, identifier: int, data: bytes) -> None:
            if frame := into(self, pgn_in(identifier), data, identifier):
                super().heard(now, *frame)
            self.agenda.now = max(now, self.agenda.now)

    return Changed


def drops(which: Callable[[Any, int, bytes, int], bool]) -> Way:
    """Some frames aren't there."""
    return lambda box, pgn, data, at: None if which(box, pgn, data, at) else (at, data)


def alters(group: int, change: Callable[[bytes], bytes] = bytes, flip: int = 0) -> Way:
    """Frames of a group have other data, or bits of the identifier."""
    return lambda box, pgn, data, at: (at ^ flip, change(data)) if pgn == group else (at, data)


def managing(control: int, change: Callable[[bytes], bytes]) -> Way:
    """Frames that manage a session by a control byte have other data."""
    return alters(CONNECTION_MANAGEMENT, lambda data: change(data) if data[:1] == bytes((control,)) else data)


def without(control: int) -> Way:
    """Frames that manage a session by a control byte aren't there."""
    return drops(lambda box, pgn, data, at: pgn == CONNECTION_MANAGEMENT and data[:1] == bytes((control,)))


def late(seconds: float, which: Callable[[int, bytes, int], bool]) -> Way:
    """Some frames come later."""
    return lambda box, pgn, data, at: box.agenda.after(seconds, box._out, at, data) if which(pgn, data, at) else (at, data)


def wraps(part: str, word: str, change: Callable[..., Any]) -> Callable[[Any], None]:
    """A method of the box, or of its claims or transport, is done by `change`, which has the box and the old one."""
    def begin(box: Any) -> None:
        whole = getattr(box, part) if part else box
        old = getattr(whole, word)
        setattr(whole, word, lambda *words: change(box, old, *words))
    return begin


def both(*begins: Callable[[Any], Any]) -> Callable[[Any], None]:
    """Several changes of the rules."""
    def begin(box: Any) -> None:
        for one in begins:
            one(box)
    return begin


def once(key: str, way: Way) -> Way:
    """A change of the first frame that it changes."""
    def first(box: Any, pgn: int, data: bytes, at: int) -> Any:
        frame = (at, data) if key in box.kept else way(box, pgn, data, at)
        if frame != (at, data):
            box.kept[key] = True
        return frame
    return first


def sends(box: Any, pgn: int = ETC2, address: int = 130, data: bytes = b"\xff" * 8, priority: int = 6, to: int = 255) -> None:
    """The box sends a frame."""
    box._out(identifier_of(priority, pgn, address, to), data)


def is_contest(box: Any, pgn: int, data: bytes, at: int, is_larger: bool) -> bool:
    """Whether a frame claims the box's address by a NAME that is larger, or smaller, than its own."""
    return pgn == ADDRESS_CLAIMED and len(data) == 8 and source_in(at) == box.boxes[0].address and (int.from_bytes(data, "little") > box.boxes[0].number) == is_larger


def asks_claims(data: bytes, pgn: int) -> bool:
    """Whether a frame asks for claims."""
    return pgn == REQUEST and data == CLAIMS


def asks(data: bytes, pgn: int, group: int) -> bool:
    """Whether a frame asks for a group."""
    return pgn == REQUEST and data == group.to_bytes(3, "little")


def named(bit: int) -> Callable[[Any], None]:
    """Another NAME."""
    return lambda box: setattr(box.boxes[0], "number", box.boxes[0].number ^ 1 << bit)


def at(address: int) -> Callable[[Any], None]:
    """It comes up at another address."""
    return lambda box: setattr(box.boxes[0], "unit", dataclasses.replace(box.boxes[0].unit, address=address))


def chooser(choose: Callable[[Any, int], int | None]) -> Callable[[Any], None]:
    """The address that it chooses, by the one that it lost."""
    return wraps("claims", "_free", lambda box, old, one, lost: choose(box, lost))


def any_packet(box: Any, old: Any, source: int, to: int, data: bytes) -> None:
    """A packet that is missing is taken as there."""
    if (came := box.transport._receiving.get((source, to))) and data[0] > came.next:
        came.next = data[0]
    old(source, to, data)


def asks_again(box: Any, old: Any, source: int, to: int, data: bytes) -> None:
    """Behind a packet that is missing it asks for that again."""
    came = box.transport._receiving.get((source, to))
    if came is None or data[0] <= came.next:
        old(source, to, data)
    elif data[0] == came.last:
        box.agenda.after(0.002, box.transport._clear, (source, to), came)


def aborts_twice(box: Any, old: Any, source: int, to: int, data: bytes) -> None:
    """A packet that came already ends it."""
    came = box.transport._receiving.get((source, to))
    if came and data[0] < came.next:
        box.transport._gives_up((source, to), came, 8)
    else:
        old(source, to, data)


def dies(box: Any) -> None:
    """It takes nothing any more once it gave up."""
    wraps("transport", "_gives_up", lambda box, old, *words: box.kept.update(dead=True) or old(*words))(box)
    wraps("transport", "_asked", lambda box, old, *words: None if "dead" in box.kept else old(*words))(box)


def second(answer: Callable[[Any, int, int, bytes, int], Any], is_open: Callable[[Any, int, int], bool] = lambda box, source, to: (source, to) in box.transport._receiving) -> Callable[[Any], None]:
    """What it does for an RTS amid another message of the same sender."""
    return wraps("transport", "_asked", lambda box, old, source, to, data, pgn: answer(box, source, to, data, pgn) if is_open(box, source, to) else old(source, to, data, pgn))


def keeps_next(box: Any, source: int, to: int, data: bytes, pgn: int) -> None:
    """A second message goes on where the first one was."""
    came = box.transport._receiving[source, to]
    came.pgn, came.size, came.count = pgn, data[1] | data[2] << 8, data[3]
    box.agenda.after(0.002, box.transport._clear, (source, to), came)


def keeps_size(box: Any) -> None:
    """A second message is acknowledged by the size of the first one."""
    def asked(box: Any, old: Any, source: int, to: int, data: bytes, pgn: int) -> None:
        before = box.transport._receiving.get((source, to))
        old(source, to, data, pgn)
        if before:
            box.transport._receiving[source, to].size = before.size - 1
    wraps("transport", "_asked", asked)(box)


def busy(box: Any, source: int, to: int, data: bytes, pgn: int) -> None:
    """A second message is refused by Abort 1."""
    box.transport._abort(to, source, 1, pgn)


def not_now(box: Any, source: int, to: int, data: bytes, pgn: int) -> None:
    """A second message is held."""
    box.transport._manage(to, source, bytes((CLEAR, 0, 255, 255, 255)), pgn)


def holds_first(box: Any, old: Any, ends: Any, came: Any) -> None:
    """It holds a session before it permits packets."""
    if came.next == 1 and "held" not in vars(came):
        vars(came)["held"] = True
        box.transport._manage(ends[1], ends[0], bytes((CLEAR, 0, 255, 255, 255)), came.pgn)
        box.agenda.after(0.4, box.transport._clear, ends, came)
    else:
        old(ends, came)


def asks_once_more(box: Any, old: Any, ends: Any, came: Any) -> None:
    """Where no packet comes it asks for them again, once."""
    if box.transport._receiving.get(ends) is came and box.agenda.now >= came.until and "asked" not in vars(came):
        came.asked = True
        box.transport._clear(ends, came)
    else:
        old(ends, came)


def never_ends(box: Any, old: Any, *words: Any) -> None:
    """It waits for ever."""


def all_again(box: Any, old: Any, ends: Any, one: Any, count: int, first: int) -> None:
    """Asked for one packet again, it sends all from there on."""
    old(ends, one, one.count if count == 1 and first < one.next - 1 else count, first)


def not_again(box: Any, old: Any, ends: Any, one: Any, count: int, first: int) -> None:
    """It sends no packet twice."""
    if first >= one.next or count == 0:
        old(ends, one, count, first)


def zero_is_all(box: Any, old: Any, ends: Any, one: Any, count: int, first: int) -> None:
    """A CTS of 0 permits all."""
    old(ends, one, count or one.count, first if count else 1)


def stuck_when_held(box: Any, old: Any, ends: Any, one: Any, count: int, first: int) -> None:
    """Behind a CTS of 0 it goes on no more."""
    if count == 0:
        one.done_held = True
    if not getattr(one, "done_held", False):
        old(ends, one, count, first)


def tries_unheard(times: int, apart: float) -> Callable[[Any], None]:
    """Unheard, it announces a message anew."""
    def cleared(box: Any, old: Any, ends: Any, one: Any, count: int, first: int) -> None:
        one.heard = True
        old(ends, one, count, first)

    def send(box: Any, old: Any, source: int, to: int, pgn: int, data: bytes, done: Any) -> bool:
        is_sent = old(source, to, pgn, data, done)
        one = box.transport._sending.get((source, to))
        for time in range(1, times + 1):
            box.agenda.after(time * apart, again, box, (source, to), one)
        return bool(is_sent)

    def again(box: Any, ends: Any, one: Any) -> None:
        if box.transport._sending.get(ends) is one and not hasattr(one, "heard"):
            box.transport._manage(*ends, bytes((RTS, *one.about)), one.pgn)
            box.transport._wait(one, ends, 1.25)

    return both(wraps("transport", "_cleared", cleared), wraps("transport", "send", send))


def unasked(box: Any, old: Any, ends: Any, one: Any) -> None:
    """Without a CTS it sends all the same."""
    if box.transport._sending.get(ends) is one and one.last == 0 and one.until and box.agenda.now >= one.until:
        box.transport._cleared(ends, one, 2, 1)
    else:
        old(ends, one)


def deaf_amid(box: Any, old: Any, source: int, to: int, data: bytes) -> None:
    """Amid packets it hears no Abort."""
    one = box.transport._sending.get((to, source))
    if not (data[0] == ABORT and one and one.next <= one.last):
        old(source, to, data)


def goes_on_behind(box: Any, old: Any, source: int, to: int, data: bytes) -> None:
    """Behind an acknowledgement it sends a packet more."""
    if data[0] == WHOLE and to == box.boxes[0].address:
        sends(box, DATA_TRANSFER, to, b"\1" + b"\xff" * 7, 7, source)
    old(source, to, data)


def stops_when_contested(box: Any, pgn: int, data: bytes, at: int) -> tuple[int, bytes]:
    """Contested by a larger NAME, it stops its flows for a while."""
    if is_contest(box, pgn, data, at, True):
        box.boxes[0].ready = box.agenda.now + 5
    return at, data


def gives_to_larger(box: Any, old: Any, one: Any, name: int, address: int) -> None:
    """It gives its address to any NAME."""
    if name > one.number and one.address == address:
        box.claims.left(address)
        box.claims._claim(one, box.claims._free(one, address))
    else:
        old(one, name, address)


def breaks_at(fits: Callable[[int, bytes, int], bool]) -> Way:
    """At some frame it hangs until power goes."""
    def into(box: Any, pgn: int, data: bytes, at: int) -> Any:
        if fits(pgn, data, at):
            box.kept["hangs"] = True
        return None if "hangs" in box.kept else (at, data)
    return into


def counts(box: Any, pgn: int, data: bytes, at: int) -> Any:
    """It hangs behind many requests."""
    box.kept["requests"] = box.kept.get("requests", 0) + (pgn == REQUEST)
    return None if box.kept["requests"] > 500 else (at, data)


def loses_when_busy(box: Any, pgn: int, data: bytes, at: int) -> Any:
    """It loses messages where much is heard."""
    seen = [time for time in box.kept.get("seen", []) if time > box.agenda.now - 1.0]
    return None if pgn == ETC2 and len(seen) > 50 else (at, data)


def hears_much(box: Any, pgn: int, data: bytes, at: int) -> tuple[int, bytes]:
    """It counts what it hears."""
    box.kept["seen"] = [time for time in box.kept.get("seen", []) if time > box.agenda.now - 1.0] + [box.agenda.now]
    return at, data


def each_tenth(box: Any, pgn: int, data: bytes, at: int) -> Any:
    """It leaves out each tenth message of a flow."""
    box.kept[pgn] = box.kept.get(pgn, 0) + 1
    return None if pgn == ETC2 and box.kept[pgn] % 10 == 0 else (at, data)


def also(pgn: int, priority: int = 6) -> Way:
    """With each message of a flow it sends another frame."""
    def out(box: Any, group: int, data: bytes, at: int) -> tuple[int, bytes]:
        if group == ETC2:
            sends(box, pgn, source_in(at), priority=priority)
        return at, data
    return out


def cuts(pgn: int) -> Way:
    """Messages of a group are too short."""
    return alters(pgn, lambda data: data[:7])


def asked_alone(box: Any, pgn: int, data: bytes, at: int, group: int) -> bool:
    """Whether a frame asks it alone for a group."""
    return asks(data, pgn, group) and destination_in(at) != 255


def short_claims(box: Any, pgn: int, data: bytes, at: int) -> tuple[int, bytes]:
    """A claim of too few bytes is taken for one of NAME 0."""
    return (at, bytes(8)) if pgn == ADDRESS_CLAIMED and 0 < len(data) < 8 else (at, data)


def answers_bam(box: Any, pgn: int, data: bytes, at: int) -> tuple[int, bytes]:
    """A broadcast is answered by a CTS."""
    if pgn == CONNECTION_MANAGEMENT and data[:1] == bytes((BAM,)):
        sends(box, CONNECTION_MANAGEMENT, box.boxes[0].address, bytes((CLEAR, 1, 1, 255, 255)) + data[5:], 7, source_in(at))
    return at, data


def acknowledges(control: int, group: int) -> Way:
    """A group is acknowledged, not sent."""
    def out(box: Any, pgn: int, data: bytes, at: int) -> tuple[int, bytes]:
        if pgn != group:
            return at, data
        return identifier_of(6, ACKNOWLEDGEMENT, source_in(at), 255), bytes((control, 255, 255, 255, 249)) + group.to_bytes(3, "little")
    return out


def reclaims(box: Any, pgn: int, data: bytes, at: int) -> tuple[int, bytes]:
    """It claims where another sends from its address."""
    if pgn == UNKNOWN and source_in(at) == box.boxes[0].address:
        box.agenda.after(0.01, box.claims._tell, box.boxes[0])
    return at, data


def obeys(box: Any, pgn: int, data: bytes, at: int, by: int) -> tuple[int, bytes]:
    """A commanded address is obeyed, or one near it."""
    if pgn == CONNECTION_MANAGEMENT and data[:1] in (bytes((RTS,)), bytes((BAM,))):
        box.kept["commanded"] = data[5:] == (65240).to_bytes(3, "little")
    if pgn == DATA_TRANSFER and data[:1] == b"\2" and box.kept.pop("commanded", False):
        box.agenda.after(0.01, box.claims._claim, box.boxes[0], data[2] + by)
    return at, data


def boots(box: Any, changes: Callable[[Any], Any], which: int, seen: dict[str, int]) -> None:
    """From some switching on it is otherwise."""
    seen["boots"] = seen.get("boots", 0) + 1
    if seen["boots"] >= which:
        changes(box)


def notes_request(box: Any, pgn: int, data: bytes, at: int) -> tuple[int, bytes]:
    """It knows whether it was asked for its claim."""
    box.kept["asked"] = box.kept.get("asked") or asks_claims(data, pgn)
    return at, data


def tells_alone(box: Any, pgn: int, data: bytes, at: int) -> tuple[int, bytes]:
    """Asked for its claim, it tells who asked alone."""
    return (at ^ 0x600, data) if pgn == ADDRESS_CLAIMED and box.kept.pop("asked", False) else (at, data)


def notes_limit(box: Any, pgn: int, data: bytes, at: int) -> tuple[int, bytes]:
    """It knows how many packets the last RTS allows."""
    if pgn == CONNECTION_MANAGEMENT and data[:1] == bytes((RTS,)):
        box.kept["limit"] = data[4:5]
    return at, data


def wrong_by_limit(box: Any, pgn: int, data: bytes, at: int) -> tuple[int, bytes]:
    """Where an RTS allows two packets it acknowledges another size."""
    is_wrong = pgn == CONNECTION_MANAGEMENT and data[0] == WHOLE and box.kept.get("limit") == b"\2"
    return at, data[:1] + bytes((data[1] ^ 1,)) + data[2:] if is_wrong else data


def hears_engine(box: Any, pgn: int, data: bytes, at: int) -> tuple[int, bytes]:
    """It knows when it heard what it needs."""
    if pgn == EEC1:
        box.kept["engine"] = box.agenda.now
    return at, data


def tells_absence(box: Any, pgn: int, data: bytes, at: int) -> tuple[int, bytes]:
    """Where what it needs is away, a value is an error."""
    return (at, b"\xfe" + data[1:]) if pgn == ETC2 and box.agenda.now - box.kept.get("engine", 0) > 1 else (at, b"\x05" + data[1:] if pgn == ETC2 else data)
