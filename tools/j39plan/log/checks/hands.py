"""Which box holds which address by the claims of a log, and how boxes keep the rules of claims (SAE J1939-81)."""

from typing import NamedTuple

from j39plan.j1939 import CONTESTED, POOL, RESPONSE, WAIT, identity_in
from j39plan.log.checks.deviations import Found
from j39plan.log.checks.ignition import Again, Ignition
from j39plan.log.checks.tracks import Off
from j39plan.log.clock import MILLISECOND, SECOND, milliseconds
from j39plan.log.reports import Who
from j39plan.plan.tables import Tables, Unit

# So long who claims one of the addresses that may be chosen waits before it sends, and so long its claim may be contested.
CONTEST = CONTESTED * MILLISECOND

# So long who was asked for its claim may take to answer.
ANSWER = WAIT * MILLISECOND

# Who sent something within this time is on, or within so many of its shortest periods.
HEARD, PERIODS = SECOND, 2

# So long others may hold a session with who went off: they answer, wait, and send an Abort as promptly as they answer.
HELD = (RESPONSE + WAIT + RESPONSE) * MILLISECOND

# So long behind a move frames may still leave the address of before that were queued there.
QUEUED = 50 * MILLISECOND

# An address that changes hands this often is told.
HANDS = 3

# A unit by its label, anybody else by the NAME.
Key = str

# A box by its NAME; one of which no claim came by `?` and its unit.
Box = str

# The line at which somebody was heard, its time, and the address, None of who could claim none.
Heard = tuple[int, int | None, int | None]


class Claimed(NamedTuple):
    """A claim: its line and time, who made it, who held the address before and wasn't heard of elsewhere since, and whether that one is on and
    has the smaller NAME; and when that one moved, if it did."""

    line: int
    at: int | None
    who: Who
    before: Who | None
    is_contest: bool
    moved: int | None = None


class Taken(NamedTuple):
    """An address that somebody who isn't planned took from a unit: where, from which one, and whether that was on then."""

    line: int
    at: int | None
    who: Who
    label: str
    was_on: bool


class Left(NamedTuple):
    """Who left an address for another one, and when."""

    who: Who
    at: int | None


class Contest(NamedTuple):
    """A contest at an address (docs/guide/LOGS.md): whose the NAME is that was there before, and when it began."""

    defender: Key
    at: int


class Restart(NamedTuple):
    """When a unit claimed the address that it holds and nobody had asked, and when it was heard last before."""

    at: int
    before: int


class Changes(NamedTuple):
    """How often an address changed hands: the first line, from whom to whom, how often, how near two of these came, and when it did last."""

    line: int
    text: str
    times: int
    nearest: int | None
    at: int | None


def key_of(who: Who) -> Key:
    """A unit by its label, anybody else by the NAME."""
    return who.label or who.name or ""


def named(who: Who) -> str:
    """A unit by its label, anybody else by the NAME, in words."""
    return who.label or f"NAME {who.name}"


def both_named(one: Who, other: Who) -> tuple[str, str]:
    """Two boxes in words: those of one unit with their serial numbers."""
    if one.label is None or one.label != other.label:
        return named(one), named(other)
    first, second = (f"{who.label} with identity {identity_in(name_of(who))}" for who in (one, other))
    return first, second


def name_of(who: Who) -> int:
    """The NAME of somebody that claimed, as a number."""
    return int(who.name or "0", 16)


def box_of(who: Who) -> Box:
    """The box of somebody."""
    return who.name or f"?{who.label or ''}"


def times_of(tables: Tables) -> dict[Key, int]:
    """Of each unit that sends at a period the time within which one that is on was heard."""
    found: dict[Key, int] = {}
    for flow in tables.flows:
        if flow.period and not flow.on_request:
            found[flow.sender] = min(found.get(flow.sender, flow.period), flow.period)
    return {label: max(HEARD, PERIODS * period * MILLISECOND) for label, period in found.items()}


class Hands:
    """Which box holds which address, each by who claimed it last, as far as claims tell it. A box is known by its NAME, and from where it sends."""

    def __init__(self, tables: Tables, found: Found) -> None:
        self._units = {unit.label: unit for unit in sorted(tables.units, key=lambda unit: unit.number)}
        self._times, self._found = times_of(tables), found
        self._holders: dict[int, Who] = {}
        self._at: dict[Box, int] = {}
        self.first: dict[Key, int] = {}  # when each was heard first
        self.begun: dict[Key, tuple[int, int | None]] = {}  # the line and the time of that
        self.free: dict[Key, int] = {}  # from when on each may send that claimed another address than it had
        self.last: dict[Key, Heard] = {}
        self.off: dict[Key, Off] = {}  # when each was off last that has come back
        self.ignition = Ignition(found)
        self._heard: dict[Box, Heard] = {}
        self._since = 0  # the line at which the clock was set last
        self._stood = 0  # the line behind which all was silent last
        self._stale: set[int] = set()  # addresses that nobody claimed since
        self._claimed: dict[Box, int] = {}  # when each claimed an address last
        self._told: dict[Box, int | None] = {}  # what each claimed last, None of one that could claim none
        self._units_told: set[Key] = set()  # the same of whom any claim came
        self._fresh: dict[int, Claimed] = {}  # claims of which it isn't known yet what comes of them
        self._contests: dict[int, Contest] = {}
        self._left: dict[int, Left] = {}
        self._taken: dict[Box, Taken] = {}
        self.gone: set[str] = set()  # units whose address was taken, and that could claim no other
        self._changes: dict[int, Changes] = {}
        self._is_live = tables.live
        self._restarts: dict[Key, Restart] = {}  # of whom no message of more than 8 bytes began since
        self._asked: int | None = None

    def asked(self, at: int | None) -> None:
        """Claims are asked for."""
        self._asked = self._asked if at is None else at

    def anew(self, line: int) -> None:
        """The clock was set: times before count no more."""
        self._asked, self._since = None, line
        self._claimed.clear()
        self._contests.clear()
        self._fresh.clear()
        self._restarts.clear()
        self.off.clear()

    def stood_still(self, line: int, at: int, silence: int) -> None:
        """Nothing at all came for so long before: who holds which address is to be claimed anew where the ignition was off."""
        self.ignition.stood_still(line, at, silence)
        self._tell_changes()
        self._stood, self._stale = line, set(self._holders)

    def has_claimed(self, label: str) -> bool:
        """Whether any claim came of a unit."""
        return label in self._units_told

    def held(self) -> set[int]:
        """The addresses that boxes of units hold, of one unit with two boxes both."""
        return {address for address, who in self._holders.items() if who.label}

    def addresses(self) -> dict[int | None, str]:
        """The units by the addresses at which they were heard last."""
        return {address: label for label, (_, _, address) in self.last.items() if label in self._units}

    def gives_up(self, who: Who, identity: int | None = None) -> bool:
        """Whether somebody who says that it can claim no address held one that nobody has claimed since, or lost it to somebody who isn't planned."""
        box = box_of(self._with_name(who, identity))
        return who.address is None and (box in self._at or box in self._taken)

    def claim(self, line: int, at: int | None, who: Who, identity: int | None = None) -> tuple[int, ...]:
        """A claim, or that there was no address to claim, by a box of this serial number where its unit is of any: the addresses that another
        box holds now."""
        who = self._with_name(who, identity)
        key, box, address = key_of(who), box_of(who), who.address
        if at is not None:
            self._pass(at)
            self._frees(at, key, address)
        is_start = self._is_start(self._heard.get(box) or self._heard.get(f"?{key}"))
        if is_start and not self.was_asked(at):
            self.ignition.starts(box)
        self.gone.discard(key)
        unclaimed = self._heard.pop(f"?{key}", None)
        if unclaimed is not None:
            self._heard.setdefault(box, unclaimed)
        before = self._holders.get(address) if address is not None else None
        is_defence = self._defends(who, at)
        contest = self._begun(at, who, before, is_defence)
        self._contests = {other: running for other, running in self._contests.items() if running.defender != key}
        if address is not None and contest:
            self._contests[address] = contest
        changed = self._leaves(box, at, who)
        self._settles(box, at)
        if address is not None and (before is not None and box_of(before) == box or self._was_off(unclaimed, key, at, address)):
            self._claims_again(line, at, who, is_start)
        if address is not None and (before is None or box_of(before) != box):
            if before is not None or self._guessed(address) != who.label:
                changed.append(address)
            self._takes(line, at, who, before, is_defence)
        self._stale.discard(-1 if address is None else address)
        self._is_displaced(box, who)
        self.is_heard(line, at, key, box, address)
        self._told[box] = address
        self._units_told.add(key)
        if at is not None:
            self._claimed[box] = at
        return tuple(changed)

    def name_of(self, who: Who, identity: int | None) -> str | None:
        """The NAME of a box that claims."""
        return self._with_name(who, identity).name

    def _with_name(self, who: Who, identity: int | None) -> Who:
        """Somebody that claims, with the NAME of its box."""
        unit = self._units.get(who.label or "")
        return who if unit is None else who._replace(name=f"{unit.number | (identity or 0):016X}")

    def is_heard(self, line: int, at: int | None, key: Key, box: Box, address: int | None) -> None:
        """Somebody is heard, at an address, None of one that could claim none."""
        self.last[key] = self._heard[box] = line, at, address
        if key not in self.first:
            self.begun.setdefault(key, (line, at))
            if at is not None:
                self.first[key] = at

    def _was_off(self, heard: Heard | None, key: Key, at: int | None, address: int) -> bool:
        """Whether a unit that claims now and sends at a period was heard from this address without a claim in the log, and then for a while not."""
        before = self._time_of(heard)
        is_of_it = heard is not None and heard[2] == address and key in self._times
        return is_of_it and at is not None and before is not None and at - before >= self._times[key]

    def _is_start(self, heard: Heard | None) -> bool:
        """Whether a box was heard before all was silent, and not since, by when it was heard last."""
        return heard is not None and heard[0] < self._stood

    def _frees(self, at: int, key: Key, address: int | None) -> None:
        """Somebody claims: where that is another address than it had, it may send from there on, or, where it may be contested, 250 ms later."""
        known = self.last.get(key)
        if known is not None and address is not None and known[2] != address:
            self.free[key] = at + (CONTEST if address in POOL else 0)

    def _is_told(self, unit: Unit) -> bool:
        """Whether a claim came of a NAME of a unit."""
        return unit.label in self._units_told if unit.identity is None else f"{unit.number:016X}" in self._told

    def _guessed(self, address: int) -> str | None:
        """The unit that is taken to be at an address that nobody claimed: of those that prefer it and of which no claim came the smallest NAME."""
        return next((label for label, unit in self._units.items() if unit.address == address and not self._is_told(unit)), None)

    def _contest(self, address: int, at: int | None) -> Contest | None:
        """The contest that runs at an address."""
        contest = self._contests.get(address)
        return contest if contest and at is not None and 0 <= at - contest.at < CONTEST else None

    def _begun(self, at: int | None, who: Who, before: Who | None, is_defence: bool) -> Contest | None:
        """The contest that a claim begins, with who holds the address, or is guessed there."""
        if at is None or who.address is None or who.address not in POOL or self._contest(who.address, at):
            return None
        guessed = self._guessed(who.address)
        if before is not None:
            defender, is_met = key_of(before), name_of(before) < name_of(who) or not is_defence
        elif guessed is not None:
            defender, is_met = guessed, self._units[guessed].number < name_of(who)
        else:
            return None
        return Contest(defender, at) if is_met and defender != key_of(who) else None

    def _leaves(self, box: Box, at: int | None, who: Who) -> list[int]:
        """The address that a claim of another one leaves."""
        left = self._at.get(box)
        if left is None or left == who.address:
            return []
        del self._at[box], self._holders[left]
        self._left[left] = Left(who, at)
        return [left]

    def _settles(self, box: Box, at: int | None) -> None:
        """Somebody is heard of: of claims of its address, it has defended this, or moved."""
        for address, claimed in list(self._fresh.items()):
            if claimed.before and box_of(claimed.before) == box:
                del self._fresh[address]
                if not claimed.is_contest and address != self._at.get(box):
                    self._fresh[address] = claimed._replace(before=None, moved=at)

    def _takes(self, line: int, at: int | None, who: Who, before: Who | None, is_defence: bool) -> None:
        """Somebody claims an address that it doesn't hold."""
        box, address = box_of(who), who.address
        assert address is not None
        self._left.pop(address, None)
        self._fresh.pop(address, None)
        if before is not None:
            self._at.pop(box_of(before), None)
            if address not in self._stale:
                self._change(line, at, before, who)
            if before.label and not who.label:
                self._taken[box_of(before)] = Taken(line, at, who, before.label, self._is_box_on(before, at))
        if address in POOL and self._is_new(box, address, at) and not is_defence:
            self._fresh[address] = Claimed(line, at, who, before, self._is_contested(at, before, who))
        self._holders[address], self._at[box] = who, address

    def _claims_again(self, line: int, at: int | None, who: Who, is_start: bool) -> None:
        """Somebody claims the address that it holds: as an answer, or since it has restarted. Where there are no times that isn't known."""
        last = self._claimed.get(box_of(who))
        if at is None or self.was_asked(at) or last is not None and 0 <= at - last < CONTEST:
            return
        text = f"{named(who)} claims address {who.address}, which it holds, and nobody asked: has it restarted?"
        before = self._time_of(self._heard.get(box_of(who)))
        self.ignition.claims_again(Again(line, at, who.label, text, None if before is None else max(at - before, 0)), is_start)
        if before is None:
            return
        self.off[key_of(who)] = Off(before, at)
        if self._is_live and not is_start:
            self._restarts[key_of(who)] = Restart(at, before)

    def announces(self, line: int, at: int | None, who: Who) -> None:
        """Somebody begins a message of more than 8 bytes. On a live bus that waits, from its going off on, until nobody holds a session with it."""
        restart = self._restarts.pop(key_of(who), None)
        if restart is not None and at is not None and 0 <= at - restart.before < HELD:
            text = f"{named(who)} announces a long message {{}} ms after it restarted: others may hold a session with it for {milliseconds(HELD)} ms after it went off"
            self._found.tell("early-message", text, line, at, at - restart.at, unit=who.label)

    def _is_displaced(self, box: Box, who: Who) -> None:
        """A unit claims something: where somebody who isn't planned took its address, this one instead, or the same again."""
        taken = self._taken.pop(box, None)
        if taken and who.address is None:
            self.gone.add(taken.label)
        if taken and who.address != taken.who.address:
            then = "could not claim another" if who.address is None else f"claims address {who.address} instead"
            self._tell_taken(taken, then)

    def _tell_taken(self, taken: Taken, then: str) -> None:
        text = f"{named(taken.who)} takes address {taken.who.address} from {taken.label}, which {then}"
        self._found.tell("displaced", text, taken.line, taken.at, unit=taken.label)

    def was_asked(self, at: int | None) -> bool:
        """Whether claims were asked for, so that one tells nothing."""
        return self._asked is not None and at is not None and at - self._asked <= ANSWER

    def _defends(self, who: Who, at: int | None) -> bool:
        """Whether a claim is of one that claimed this address last, or whose unit had it as a contest began that runs there."""
        if who.address is None:
            return False
        contest = self._contest(who.address, at)
        return self._told.get(box_of(who)) == who.address or contest is not None and contest.defender == key_of(who)

    def _is_new(self, box: Box, address: int, at: int | None) -> bool:
        """Whether a claim is none that was asked for, nor of one that sends from this address already."""
        known = self._heard.get(box)
        heard = self._time_of(known) if known and known[2] == address else None
        return at is not None and not self.was_asked(at) and not (heard is not None and 0 <= at - heard < HEARD)

    def _time_of(self, heard: Heard | None) -> int | None:
        """When somebody was heard last, by the clock as it is set now."""
        line, at, _ = heard or (0, None, None)
        return at if line >= self._since else None

    def is_on(self, key: Key, at: int | None) -> bool:
        """Whether somebody was heard so lately that it is on."""
        return self._is_lately(self.last.get(key), key, at)

    def is_off(self, key: Key, at: int | None) -> bool:
        """Whether a unit that sends at a period was heard, and so long not any more that it is off."""
        return key in self._times and at is not None and self._time_of(self.last.get(key)) is not None and not self.is_on(key, at)

    def was_off_since(self, key: Key, at: int | None) -> bool:
        """Whether a unit went off since then, or was off then, and is back."""
        off = self.off.get(key)
        return off is not None and at is not None and at < off.back

    def _is_box_on(self, who: Who, at: int | None) -> bool:
        """The same of a box that claimed."""
        return self._is_lately(self._heard.get(box_of(who)), key_of(who), at)

    def _is_lately(self, known: Heard | None, key: Key, at: int | None) -> bool:
        """Whether that was within a second, or two of the shortest periods of a unit."""
        heard = self._time_of(known)
        return at is not None and heard is not None and 0 <= at - heard < self._times.get(key, HEARD)

    def _is_contested(self, at: int | None, before: Who | None, who: Who) -> bool:
        """Whether who held an address is on and has the smaller NAME, so that it has to defend it."""
        return before is not None and name_of(before) < name_of(who) and self._is_box_on(before, at)

    def _change(self, line: int, at: int | None, before: Who, who: Who) -> None:
        """An address changes hands."""
        assert who.address is not None
        known = self._changes.get(who.address)
        if known is None:
            self._changes[who.address] = Changes(line, " to ".join(both_named(before, who)), 1, None, at)
            return
        distance = None if at is None or known.at is None else at - known.at
        nearest = known.nearest if distance is None or known.nearest is not None and known.nearest < distance else distance
        self._changes[who.address] = known._replace(times=known.times + 1, nearest=nearest, at=at)

    def has_left(self, who: Who) -> bool:
        """Whether somebody left an address from which one sends who isn't known."""
        return who.address in self._left and not who.label and not who.name

    def former(self, at: int | None, who: Who) -> Who | None:
        """Who left an address, from which somebody sends who isn't known, long enough ago that nothing of it is on its way any more."""
        left = self._left.get(who.address) if who.address is not None and not who.label and not who.name else None
        return None if left is None or at is not None and left.at is not None and 0 <= at - left.at < CONTEST else left.who

    def source_of(self, who: Who) -> tuple[Key, Box]:
        """Who sends something, and which box it is, as claims have it now."""
        holder, key = self._holders.get(who.address) if who.address is not None else None, key_of(who)
        return key, box_of(holder if holder is not None and key_of(holder) == key else who)

    def is_named(self, who: Who) -> bool:
        """Whether who sends is known by a claim, or by the plan alone, and not by a contest."""
        return not who.is_guess or who.address not in self._holders

    @property
    def is_settled(self) -> bool:
        """Whether it is known of all claims what comes of them."""
        return not self._fresh

    def sends(self, line: int, at: int | None, who: Who) -> None:
        """Somebody sends something that is no claim."""
        if self.is_named(who):  # else only the contest tells who it is
            self.is_heard(line, at, *self.source_of(who), who.address)
        if self._fresh and at is not None:
            self._pass(at)
            self._is_early(line, at, who)

    def _is_early(self, line: int, at: int, who: Who) -> None:
        """Whether somebody sends who should wait. Where another one held the address, it may be that one's frame, which was queued before the claim;
        a frame of a contest may be anybody's."""
        claimed = self._fresh.get(who.address) if who.address is not None else None
        if not claimed or claimed.is_contest or claimed.before or self._contest(claimed.who.address or 0, at):
            return
        if claimed.moved is not None and at - claimed.moved <= QUEUED:
            return
        if key_of(claimed.who) == key_of(who):
            del self._fresh[claimed.who.address or 0]
            text = f"{who.spelled} sends before {milliseconds(CONTEST)} ms have passed after its claim of address {who.address}"
            self._found.tell("too-early", text, line, at, unit=who.label)

    def _pass(self, at: int) -> None:
        """Time goes by: who didn't defend an address until now doesn't."""
        for address, claimed in list(self._fresh.items()):
            if claimed.at is not None and not 0 <= at - claimed.at < CONTEST:
                del self._fresh[address]
                if claimed.is_contest and claimed.before and at >= claimed.at:
                    larger, smaller = both_named(claimed.who, claimed.before)
                    text = f"{larger} claims address {address}, and {smaller} doesn't defend it, whose NAME is smaller"
                    self._found.tell("not-defended", text, claimed.line, claimed.at, unit=claimed.before.label)

    def end(self, last: int | None) -> None:
        """Tells what is known at the end, where the last time of the log is this one."""
        if last is not None:
            self._pass(last)
        for taken in self._taken.values():
            if taken.was_on:
                self._tell_taken(taken, "claims no other")
        self._tell_changes()
        self.ignition.end(True)

    def _tell_changes(self) -> None:
        """Tells the addresses that changed hands often since the begin, or since all was silent."""
        for address, known in self._changes.items():
            if known.times >= HANDS:
                near = "" if known.nearest is None else f", the nearest {milliseconds(max(known.nearest, 0))} ms apart"
                self._found.tell("hands", f"address {address} changed hands {{}} times", known.line, value=known.times, detail=f", first from {known.text}{near}")
        self._changes.clear()
