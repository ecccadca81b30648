"""A reference of `audit` in Python: which flows, packets, units and claims are told by a log. It follows pages, not the program."""

from __future__ import annotations

from dataclasses import dataclass, field
from typing import NamedTuple

from audit_plans import ALL, CLAIM, CLAIMS_ASKED, FRAME_BYTES, NULL, PACKETS, POOL, REQUEST, SECOND, TRANSPORT, Flow, Frame, Plan, announced, is_announcement, whole
from audit_sessions import ToldSessions

BIT = 4
LONGEST_ANSWER_MS, LONGEST_REPLY_MS = 250, 1250
ANSWERED_WITHIN_MS = 250
GAP_MS, LONGEST_GAP_MS = 50, 200
LEAST_QUIET_MS, MOST_QUIET_MS = 100, 1000
# The fewest bits of a frame of no bytes, with those behind it; each byte has eight more.
SHORTEST_FRAME_BITS = 67
# What bounds moments: idle bits of the bus, and response times.
BY_BUS, BY_LOAD = "", "_or_late"


@dataclass
class Addresses:
    """Who may be where, by the claims so far: each with its unit, None of a NAME of no unit. Those of units that may move are forgotten at a break."""

    plan: Plan
    is_part: bool
    claims: list[tuple[int | None, int]] = field(default_factory=list)
    recent: list[tuple[int | None, int]] = field(default_factory=list)
    names: list[tuple[int, int]] = field(default_factory=list)

    def last(self, unit: int) -> int | None:
        claims = [] if self.is_part else self.recent if self.plan.units[unit].moves else self.claims
        return next((address for other, address in reversed(claims) if other == unit), None)

    def is_taken(self, address: int) -> bool:
        return address < NULL and (None, address) in self.claims

    def is_own(self, unit: int, address: int) -> bool:
        return self.plan.units[unit].address == address or (self.plan.units[unit].moves and address in POOL)

    def may_be(self, unit: int, address: int) -> bool:
        last = self.last(unit)
        return self.is_own(unit, address) if last is None else last == address

    def gives_way(self, unit: int) -> bool:
        """Whether a smaller NAME than the unit's claimed an address of it, or one that it claimed too."""
        lost = {source for name, source in self.names if name < self.plan.units[unit].name() and source < NULL}
        return self.plan.units[unit].claims and any(self.is_own(unit, address) or (unit, address) in self.claims for address in lost)

    def deviation(self, unit: int, address: int) -> str | None:
        """How the next claim of a unit deviates."""
        may_choose, has_to = self.plan.units[unit].is_arbitrary, self.gives_way(unit)
        if address == NULL:
            return None if has_to and not may_choose else "cannot"
        is_right = self.is_own(unit, address) and self.plan.units[unit].claims
        return None if is_right or (has_to and may_choose and address in POOL) else "address"

    def sender(self, address: int) -> int | None:
        found = [unit for unit in range(len(self.plan.units)) if self.may_be(unit, address)]
        return found[0] if len(found) == 1 and not self.is_taken(address) else None


class Asked(NamedTuple):
    """A frame that asks its destination for a number: its time, if times haven't begun anew since, and whether it is one of the plan's requests."""

    number: int
    to: int
    time: int | None
    is_planned: bool


class Reference:
    """What is told of the flows and units of a plan by a log, whose lines' times may differ by so many microseconds."""

    def __init__(self, plan: Plan, is_part: bool, stamps: int, quiet: int | None, responses: dict[int, int]) -> None:
        self.plan, self.is_part, self.stamps, self.responses = plan, is_part, stamps, responses
        pauses = [it.pause for it in plan.flows if it.pause and plan.groups[it.group].most <= FRAME_BYTES]
        usual = min(MOST_QUIET_MS, max(LEAST_QUIET_MS, 4 * min(pauses))) if pauses else MOST_QUIET_MS
        self.gap = 1000 * (usual if quiet is None else quiet)
        self.last: int | None = None  # the time of the frame before
        self.places: dict[int, int] = {}  # where a unit first claimed an address that isn't its own
        self.addresses = Addresses(plan, is_part)
        self.told: dict[tuple[str, int], list[tuple[int, int]]] = {}
        self.greatest: int | None = None  # the greatest time since times began
        self.before: int | None = None  # the time of the line before, where it is a frame
        self.idle: int | None = None
        # By the bus and by load: the earliest moment of the newest message of a stream; of a flow the latest one, and its line.
        self.earliest: dict[tuple[str, int], int | None] = {}
        self.latest: dict[tuple[str, int], tuple[int, int]] = {}
        self.shown: dict[int, tuple[int, int | None, int]] = {}  # the line of the last frame of a unit, its idle mark, and its time
        self.begun: dict[int, tuple[int, int, int]] = {}  # of a unit's planned broadcast the packets left, and the latest end and the line of the frame before
        self.asked: dict[int, tuple[int, int]] = {}  # when the request for claims to a unit ended at the latest, and its line
        self.taken: tuple[int, Frame, list[int]] | None = None  # the frame before, if no other line stands between, with its line and the flows of which it may be
        self.requests: list[Asked] = []
        self.without_flow: dict[tuple[int, int], list[int]] = {}  # of units and groups the lines of messages that no flow brings there
        self.answers: dict[int, int] = {}  # how many of these a unit was asked for
        self.again = 0  # how many frames stand in the log again
        self.sessions = ToldSessions([unit.label for unit in plan.units])

    def longest(self, ms: int) -> int:
        return whole(1001 * ms * (SECOND + self.plan.drift), SECOND)

    def shortest(self, ms: int) -> int:
        return 999 * ms * (SECOND - self.plan.drift) // SECOND

    def askers(self, flow: Flow) -> list[int]:
        """The periods of the requests that a flow on request serves."""
        return [it.period for it in self.plan.requests if it.period and flow.is_asked and it.group == flow.group and it.sender != flow.sender
                and it.to in (None, flow.sender) and flow.to in (None, it.sender)]

    def is_crowded(self, flow: Flow) -> bool:
        """Whether two of its messages may come at once: several requests ask for it, or one sooner than each of its periods."""
        askers = self.askers(flow)
        return len(askers) > 1 or any(every < flow.period for every in askers)

    def queued_within(self, flow: Flow) -> int:
        """Within how many milliseconds of its moment a message is queued: that of its request, where it answers one."""
        return max(flow.jitter, ANSWERED_WITHIN_MS) if self.askers(flow) else flow.jitter

    def jitter(self, flow: Flow) -> int:
        return self.longest(self.queued_within(flow) + (0 if self.plan.groups[flow.group].most <= FRAME_BYTES else flow.period))

    def pause(self, flow: Flow) -> int | None:
        """How long the pause is of a flow that is judged."""
        group, ends = self.plan.groups[flow.group], [flow.sender] + ([] if flow.to is None else [flow.to])
        is_judged = not self.is_part and group.most <= FRAME_BYTES and all(self.plan.units[end].claims for end in ends)
        return self.longest(flow.pause) if flow.pause and is_judged and not flow.is_asked else None

    def lower(self, bound: str, place: int, idle: int | None, time: int) -> int | None:
        """No message of a flow had its moment before this, if it comes at this idle mark, or at this time."""
        if bound == BY_BUS:
            return None if idle is None else idle - self.jitter(self.plan.flows[place])
        response, flow = self.responses.get(place), self.plan.flows[place]
        later = self.longest(self.queued_within(flow) - flow.jitter)
        return None if response is None else time - self.stamps - (response + response // 1000 + 1 + later)

    def tell(self, word: str, place: int, line: int, by: int) -> None:
        self.told.setdefault((word, place), []).append((line, by))

    # ---- ends of pauses

    def end(self, place: int) -> None:
        """The pause of a flow ends: it is looked at by the last frame of its ends, of which the earlier one counts."""
        flow = self.plan.flows[place]
        pause = self.pause(flow)
        ends = [self.shown.get(end) for end in (flow.sender, flow.to) if end is not None]
        there = [end for end in ends if end is not None]
        for bound in (BY_BUS, BY_LOAD):
            if (bound, place) not in self.latest or pause is None:
                continue
            moment, line = self.latest.pop((bound, place))
            if len(there) < len(ends):
                continue
            at, idle, time = min(there, key=lambda it: it[0])
            lower = self.lower(bound, place, idle, time)
            if at > line and lower is not None and lower > moment + pause:
                self.tell(f"silent{bound} flow", place, line, lower - moment - pause)

    def end_all(self) -> None:
        for place in range(len(self.plan.flows)):
            self.end(place)
        self.forget()

    def forget(self) -> None:
        self.latest, self.shown, self.begun = {}, {}, {}

    # ---- requests

    def take_request(self, frame: Frame, sender: int | None) -> None:
        """Takes a frame that asks for a number."""
        number = int.from_bytes(frame.data, "little")
        self.requests.append(Asked(number, frame.to, frame.time, sender is not None and self.is_request(sender, number, frame.to)))

    def is_request(self, sender: int, number: int, to: int) -> bool:
        """Whether it is one request of the plan: the nearest one."""
        found = [it for it in self.plan.requests if it.sender == sender and self.plan.groups[it.group].pgn == number and self.hears(it.to, to)]
        near = [it for it in found if it.to is None or self.addresses.may_be(it.to, to)]
        return len(near or found) == 1

    def hears(self, receiver: int | None, to: int) -> bool:
        """Whether a frame to an address goes to a unit, which may have left it just now, or to all."""
        return to == ALL if receiver is None else to != ALL and (self.addresses.is_own(receiver, to) or self.addresses.last(receiver) == to)

    def was_asked(self, number: int, frame: Frame, is_besides: bool) -> bool:
        """Whether a message was asked for, by any request or by one that is none of the plan's."""
        asked = [it for it in self.requests if it.number == number and it.to in (ALL, frame.source) and not (is_besides and it.is_planned)]
        if frame.time is None:
            return bool(asked)
        earliest = frame.time - self.longest(LONGEST_REPLY_MS) - 2 * self.stamps
        return any(it.time is not None and it.time >= earliest for it in asked)

    def drop(self, line: int, sender: int, frame: Frame) -> None:
        """A message that no flow brings deviates, where its number is a group's: of the flows with this number nothing is awaited any more."""
        number, size = announced(frame) if is_announcement(frame) else (frame.pgn, len(frame.data))
        self.note_without_flow(line, sender, frame, number, size)
        for place, flow in enumerate(self.plan.flows):
            if flow.sender == sender and self.plan.groups[flow.group].pgn == number:
                for bound in (BY_BUS, BY_LOAD):
                    self.latest.pop((bound, place), None)

    def note_without_flow(self, line: int, sender: int, frame: Frame, number: int, size: int) -> None:
        """A message of a group that no flow brings there, with whatever priority, is told, unless it was asked for."""
        group = next((place for place, it in enumerate(self.plan.groups) if it.pgn == number and it.length <= size <= it.most), None)
        if group is None or self.brought(sender, frame, number, size):
            return
        if self.was_asked(number, frame, False):
            self.answers[sender] = self.answers.get(sender, 0) + 1
        else:
            self.without_flow.setdefault((sender, group), []).append(line)

    def is_again(self, frame: Frame) -> bool:
        """Whether a frame is the one before, which stands in the log again: it comes sooner than it can have been sent once more."""
        if self.taken is None or frame.time is None:
            return False
        before = self.taken[1]
        shortest = BIT * (SHORTEST_FRAME_BITS + 8 * len(frame.data))
        return before.time is not None and before._replace(time=frame.time) == frame and 0 <= frame.time - before.time < shortest

    def take_again(self, time: int) -> None:
        """Stamps may be off, so that both were sent: what counts from the end of the line before counts from this one."""
        assert self.taken
        line, frame, flows = self.taken
        self.again += 1
        if frame.pgn == REQUEST:
            self.requests.append(self.requests[-1]._replace(time=time))
        self.before = time
        for bound in (BY_BUS, BY_LOAD):
            if len(flows) == 1 and (bound, flows[0]) in self.latest:
                self.latest[bound, flows[0]] = time + self.stamps, self.latest[bound, flows[0]][1]
        for unit, (left, _, before) in self.begun.items():
            if before == line:
                self.begun[unit] = left, time + self.stamps, before

    def take_bad(self) -> None:
        self.asked = {}
        self.sessions.sessions.forget()
        self.end_all()
        self.take_skipped()

    def take_skipped(self) -> None:
        self.before = self.idle = self.taken = None

    # ---- frames

    def take_line(self, line: int, frame: Frame) -> None:
        """Takes a frame, unless it stands in the log again."""
        if self.is_again(frame) and frame.time is not None:
            self.take_again(frame.time)
            return
        self.taken = line, frame, self.take(line, frame)

    def take(self, line: int, frame: Frame) -> list[int]:
        """Takes a frame, and returns the flows of which it may be a message."""
        is_gap = self.see_time(frame.time)
        is_claim = frame.pgn == CLAIM and len(frame.data) == FRAME_BYTES and frame.source <= NULL
        claimant = next((place for place, unit in enumerate(self.plan.units) if is_claim and unit.name() == int.from_bytes(frame.data, "little")), None)
        sender = self.addresses.sender(frame.source) if not is_claim and frame.source < NULL else None
        flows = [] if sender is None else self.flows_of(sender, frame)
        if not self.is_part:
            self.sessions.take(line, frame, sender)
        if frame.time is not None:
            self.mark_idle(frame.time, len(frame.data), is_gap)
            if is_claim:
                self.end_at_claim(claimant, frame.source)
            for place in flows if len(flows) > 1 else []:
                self.end(place)
        if sender is not None and not flows and frame.pgn not in (REQUEST, PACKETS) and (frame.pgn != TRANSPORT or is_announcement(frame)):
            self.drop(line, sender, frame)
        if frame.time is not None:
            if len(flows) == 1:
                self.take_message(line, frame, frame.time, flows[0])
            if frame.pgn == REQUEST and frame.data == CLAIMS_ASKED:
                self.ask(line, frame.time + self.stamps, frame.source, frame.to)
            if sender is not None:
                self.shown[sender] = line, self.idle, frame.time
                self.take_sign(sender)
                self.take_broadcast(line, frame.time, frame, sender, flows)
        if is_claim:
            self.asked.pop(-1 if claimant is None else claimant, None)
            word = None if claimant is None else self.addresses.deviation(claimant, frame.source)
            if claimant is not None and word:
                self.tell(word, claimant, line, 0)
                if word == "address":
                    self.places.setdefault(claimant, frame.source)
            self.addresses.names.append((int.from_bytes(frame.data, "little"), frame.source))
            self.addresses.claims.append((claimant, frame.source))
            self.addresses.recent.append((claimant, frame.source))
        if frame.pgn == REQUEST:
            self.take_request(frame, sender)
        return flows

    def see_time(self, time: int | None) -> bool:
        """Times begin anew at a frame without one or where the clock was set back, where the log breaks off, as behind a quiet second; and a gap ends."""
        is_back = time is not None and self.greatest is not None and time + 2 * self.stamps < self.greatest
        is_quiet = time is not None and self.greatest is not None and time > self.greatest + SECOND
        is_gap = is_back or is_quiet or (time is not None and self.last is not None and time > self.last + self.gap)
        if time is None or is_gap:
            self.end_all()
            self.asked = {}
        if time is None or is_back:
            self.before = self.idle = None
            self.earliest = {}
            self.requests = [it._replace(time=None) for it in self.requests]
        self.greatest = time if time is None or is_back or self.greatest is None else max(self.greatest, time)
        self.last = time
        if is_gap:
            self.sessions.sessions.forget()
        if is_back or is_quiet:
            self.addresses.recent = []
        return is_gap

    def mark_idle(self, time: int, size: int, is_gap: bool) -> None:
        """The bus was idle before a frame that doesn't touch the one before, if damage can't fill what is between."""
        count, every = self.plan.errors or (0, 0)
        reach = whole(BIT * (81 + 10 * size + 192 * count) * (SECOND + self.plan.drift), SECOND) + 2
        is_rare = not self.plan.errors or BIT * 192 * (count + 1) * (SECOND + self.plan.drift) <= 1000 * every * SECOND
        if not self.is_part and not is_gap and is_rare and self.before is not None and time > self.before + reach + 2 * self.stamps:
            self.idle = time - reach - self.stamps
        self.before = time

    def end_at_claim(self, unit: int | None, source: int) -> None:
        if unit is None and (source == NULL or self.addresses.is_taken(source)):
            return
        if unit is None or self.addresses.last(unit) != source:
            self.end_all()
            return
        for place, flow in enumerate(self.plan.flows):
            if unit in (flow.sender, flow.to):
                self.end(place)
        self.shown.pop(unit, None)
        self.begun.pop(unit, None)

    def ask(self, line: int, latest: int, source: int, to: int) -> None:
        """A request for claims asks each unit that surely takes it, and that may not be the one that asks."""
        for place, unit in enumerate(self.plan.units):
            is_sure = self.addresses.sender(to) == place and (self.addresses.last(place) == to or not unit.moves)
            is_asked = unit.claims and not self.is_part and not self.addresses.may_be(place, source) and (to == ALL or is_sure)
            if is_asked and place not in self.asked:
                self.asked[place] = latest, line

    def take_sign(self, sender: int) -> None:
        """A unit that sends is deaf where the bus was idle behind the time in which it had to answer."""
        latest, line = self.asked.get(sender, (0, 0))
        if line and self.idle is not None and self.idle > latest + self.longest(LONGEST_ANSWER_MS):
            self.tell("deaf", sender, line, 0)
            del self.asked[sender]

    def take_broadcast(self, line: int, time: int, frame: Frame, unit: int, flows: list[int]) -> None:
        """A planned broadcast begins with what announces it, and then has packets: all flows of the plan have a period."""
        data, latest = frame.data, time + self.stamps
        if is_announcement(frame) and frame.to == ALL:
            self.begun.pop(unit, None)
            if flows:
                self.begun[unit] = data[3], latest, line
        elif unit in self.begun and (frame.pgn, frame.to, len(data)) == (PACKETS, ALL, FRAME_BYTES):
            self.take_step("near packets", ("packets", unit), unit, line, latest, self.idle, self.shortest(GAP_MS))
            left, end, before = self.begun[unit]
            if left and self.idle is not None and self.idle > end + self.longest(LONGEST_GAP_MS):
                self.tell("silent packets", unit, before, self.idle - end - self.longest(LONGEST_GAP_MS))
            self.begun[unit] = max(left - 1, 0), latest, line

    def flows_of(self, sender: int, frame: Frame) -> list[int]:
        """The flows of which a frame, or what it announces, may be a message: the nearest ones."""
        if frame.pgn in (CLAIM, REQUEST, PACKETS) or (frame.pgn == TRANSPORT and not is_announcement(frame)):
            return []
        number, size = announced(frame) if frame.pgn == TRANSPORT else (frame.pgn, len(frame.data))
        is_single, flows = frame.pgn != TRANSPORT, self.plan.flows
        found = [it for it in self.brought(sender, frame, number, size) if not is_single or self.plan.groups[flows[it].group].priority == frame.priority]
        near = [it for it in found if (is_single and frame.is_broadcast()) or (to := flows[it].to) is None or self.addresses.may_be(to, frame.to)]
        return near or found

    def brought(self, sender: int, frame: Frame, number: int, size: int) -> list[int]:
        """The flows of the unit that bring such a message there, with whatever priority."""
        is_broadcast = frame.pgn != TRANSPORT and frame.is_broadcast()
        groups = {place for place, it in enumerate(self.plan.groups) if it.pgn == number and it.length <= size <= it.most}
        return [place for place, it in enumerate(self.plan.flows) if it.sender == sender and it.group in groups and (is_broadcast or self.hears(it.to, frame.to))]

    def take_step(self, word: str, stream: tuple[str, int], place: int, line: int, upper: int, lower: int | None, step: int) -> None:
        """The messages of a stream are a step apart."""
        last = self.earliest.get(stream)
        bounds = [it for it in (lower, None if last is None else last + step) if it is not None]
        earliest = max(bounds, default=None)
        if earliest is not None and earliest > upper:
            self.tell(word, place, line, earliest - upper)
            earliest = lower
        self.earliest[stream] = earliest

    def take_message(self, line: int, frame: Frame, time: int, place: int) -> None:
        """A message of a flow; one that was asked for besides the plan may have been sent besides the flow's."""
        group, is_single = self.plan.groups[self.plan.flows[place].group], frame.pgn != TRANSPORT
        if (group.most <= FRAME_BYTES) == is_single:
            is_besides = self.was_asked(group.pgn, frame, True)
            for bound in (BY_BUS, BY_LOAD):
                self.take_bounds(bound, line, place, self.lower(bound, place, self.idle, time), time + self.stamps, is_besides)

    def take_bounds(self, bound: str, line: int, place: int, lower: int | None, upper: int, is_besides: bool) -> None:
        flow, key = self.plan.flows[place], (bound, place)
        if not is_besides and not self.is_crowded(flow):
            self.take_step(f"near{bound} flow", key, place, line, upper, lower, self.shortest(flow.period))
        pause = self.pause(flow)
        if pause is None:
            return
        latest = upper
        if key in self.latest:
            moment, before = self.latest[key]
            if lower is not None and lower > moment + pause:
                self.tell(f"silent{bound} flow", place, before, lower - moment - pause)
            else:
                latest = min(upper, moment + pause)
        self.latest[key] = latest, line

    def lines(self) -> list[str]:
        """What is told, by words and then by units or flows, and how many frames stand in the log again."""
        deaf = [(unit.label, told) for place, unit in enumerate(self.plan.units) if (told := self.told.get(("deaf", place)))]
        claims = [(word, place, self.told.get((word, place), [])) for word in ("address", "cannot") for place in range(len(self.plan.units))]
        found = [f"{word} unit {self.plan.units[place].label}{f' at {self.places[place]}' if word == 'address' else ''} times {len(told)} first {told[0][0]}"
                 for word, place, told in claims if told]
        found += [f"deaf unit {label} times {len(told)} first {told[0][0]}" for label, told in deaf]
        found += [f"no_flow unit {self.plan.units[unit].label} group {self.plan.groups[group].label} times {len(told)} first {told[0]}"
                  for (unit, group), told in sorted(self.without_flow.items())]
        found += self.sessions.lines()
        flows = [f"{at} {self.plan.groups[it.group].label} {self.plan.units[it.sender].label} {self.plan.receiver(it)}" for at, it in enumerate(self.plan.flows, 1)]
        for first, kind in (("near", "flow"), ("near", "packets"), ("silent", "flow"), ("silent", "packets")):
            for place, name in enumerate([unit.label for unit in self.plan.units] if kind == "packets" else flows):
                word = f"{first} {kind}" if kind == "packets" or (f"{first} {kind}", place) in self.told else f"{first}{BY_LOAD} {kind}"
                if told := self.told.get((word, place)):
                    by = max(it[1] for it in told)
                    worst = next(it[0] for it in told if it[1] == by)
                    found.append(f"{word} {name} times {len(told)} first {told[0][0]} worst {worst} by {by} us")
        answers = [f"answers {unit.label} {self.answers[place]}" for place, unit in enumerate(self.plan.units) if place in self.answers]
        return [*found, *answers, f"again {self.again}"]
