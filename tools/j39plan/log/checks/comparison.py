"""A log compared with a plan, report by report: claims, groups, flows and their times, needs and requests. Premises are judged by `audit` (premises.py)."""

import math
from typing import NamedTuple

from j39plan.j1939 import (
    ACKNOWLEDGEMENT, ADDRESS_CLAIMED, DATA_TRANSFER, CONNECTION_MANAGEMENT, EXTENDED_MANAGEMENT, FRAME_BYTES, GLOBAL_ADDRESS, NULL_ADDRESS, OTHER_SERVICES, PROPRIETARY,
    REQUEST, SERVICES, destination_in, identifier_of,
)
from j39plan.log.checks.absences import Absences
from j39plan.log.checks.announced import Announced
from j39plan.log.checks.asked_for import AskedFor
from j39plan.log.checks.busy import Busy
from j39plan.log.checks.claims import Claims
from j39plan.log.checks.commanded import Commanded
from j39plan.log.checks.damage import Damage
from j39plan.log.checks.deviations import Found
from j39plan.log.checks.distances import Distances, Rule, Tolerance
from j39plan.log.checks.feed import BAD, Noted
from j39plan.log.checks.hands import Hands, named
from j39plan.log.checks.no_frames import LAST_GROUP, tell_no_frame
from j39plan.log.checks.numbers import Numbers
from j39plan.log.checks.other_requests import OtherRequests
from j39plan.log.checks.premises import Beside
from j39plan.log.checks.queued import Begun, Queued
from j39plan.log.checks.requests import Asked
from j39plan.log.checks.sessions import Sessions
from j39plan.log.checks.tracks import Heard, Way, way_of
from j39plan.log.checks.transfers import BAM, RTS, WHOLE, Announcement, Pair, Route, Transfers, announcement_in, is_managing, pair_of, pgn_of
from j39plan.log.checks.unplanned import Bounds, Unplanned
from j39plan.log.checks.wording import lengths_of, no_group
from j39plan.log.clock import DAY, MILLISECOND, SECOND, Clock
from j39plan.log.reports import Acknowledgement, Claim, Frame, Message, Report, Request, Who
from j39plan.log.serial_numbers import OtherBox
from j39plan.plan.tables import Group, Tables

# Groups that nobody plans.
UNPLANNED = SERVICES | OTHER_SERVICES | PROPRIETARY

# What a request for claims asks for.
CLAIMS = ADDRESS_CLAIMED.to_bytes(3, "little")

# So many of the shortest period without any report, a second at least, are a silence of all.
PERIODS = 5

# The first byte of an announcement by the extended transport protocol.
EXTENDED_RTS = 20


class Settings(NamedTuple):
    """What is asked of a comparison: the tolerance of times, how flows are looked at, and which units have other serial numbers than the plan's."""

    tolerance: Tolerance
    rule: Rule
    others: list[OtherBox] = []


class Comparison:
    """What was met in a log that isn't as the plan has it."""

    def __init__(self, tables: Tables, bounds: Bounds, settings: Settings, found: Found) -> None:
        self.flows, self.needs, self.timing, self.requests = tables.flows, tables.needs, tables.timing, tables.requests
        self.units = {unit.label: unit for unit in tables.units}
        self.groups: dict[int, list[Group]] = {}
        for group in tables.groups:
            self.groups.setdefault(group.pgn, []).append(group)
        self.planned = {group.label: group for group in tables.groups}
        self._ways: list[Way] = [way_of(flow) for flow in tables.flows]
        self._otherwise: set[Way] = set()  # ways of which messages came, but not as planned
        self.sent = {way: [0] for way in self._ways}  # how often messages came of each way
        self.found, self.clock, self.hands = found, Clock(), Hands(tables, found)
        self.numbers = Numbers(settings.others, found)
        heard = Heard(self.hands.first, self.hands.free, self.hands.off, self.hands.last)
        tolerance = settings.tolerance.with_drift(tables.timing.drift if tables.timing else 0)
        self.distances = Distances(tables.flows, tolerance, settings.rule, bounds.waits, heard, found)
        self.claims, self.queued, self.commanded = Claims(tables.units, self.hands, found), Queued(), Commanded(tables.units, found)
        self.asked, self.damage = Asked(tables, tolerance, bounds.requests, found, self.hands), Damage(tables.timing, found)
        self.busy, self.unplanned = Busy(tables.timing), Unplanned(tables, bounds.flows, found)
        self.asked_for, self.absences = AskedFor(), Absences(tables, settings.rule.events, found)
        labels = {pgn: groups[0].label for pgn, groups in self.groups.items() if len(groups) == 1}
        self.transfers, self.sessions = Transfers(tables.timing, self.busy, found, self.hands.is_off), Sessions(labels, found)
        self.others = OtherRequests(labels, found, self.hands.is_on)
        self.announcements = Announced(self.hands, self.distances, self.transfers, self.queued, found)
        self.of_premises = Beside(self.transfers.urgent)
        self.is_unjudged = False  # whether `audit` doesn't judge yet, or nobody, since the plan has findings: what `follow` says is told
        self._received: tuple[int, Pair] | None = None  # the line on which a receiver said that it has a message, and counted it
        self._pgns = {label: group.pgn for label, group in self.planned.items()}
        self._numbers: dict[tuple[str, int], list[int]] = {}  # the flows of each unit and group's number
        for place, flow in enumerate(tables.flows, 1):
            self._numbers.setdefault((flow.sender, self._pgns[flow.group]), []).append(place)
        self._is_watched = False  # whether what is due is told as soon as it is
        self._line, self._still = 0, ""  # the line of the last report; and what is told where nothing came since
        self.odd = 0  # lines with frames that are none of J1939, which `follow` can't read
        self._at: int | None = None  # the time of the last report
        periods = [flow.period for flow in tables.flows if flow.period and not flow.on_request]
        self._gap = max(SECOND, PERIODS * min(periods) * MILLISECOND) if len(periods) > 1 else math.inf
        self._quiet = min(self._gap, self.distances.least)

    def claim(self, line: int, at: int | None, who: Who, identity: int | None) -> None:
        """A claim of an address, or that none was found, by a box of this serial number where its unit is of any."""
        if who.label and identity is not None:
            self.numbers.claim(line, at, who.label, identity)
        if who.label:
            self.claims.claimed(line, at, who.label)
            self.of_premises.given_back[who.label] += self.hands.gives_up(who, identity)
        if self.commanded.is_obeyed(self.hands.name_of(who, identity), who.address) and who.label and who.address is not None:
            self.of_premises.obeyed.add((who.label, who.address))
        addresses = self.hands.claim(line, at, who, identity)
        if who.label and at is not None and (off := self.hands.off.get(who.label)) and off.back == at:
            self.distances.begins(who.label)
        self.announcements.changes_hands(addresses, line)
        self.unplanned.came(line, at, identifier_of(6, ADDRESS_CLAIMED, NULL_ADDRESS if who.address is None else who.address))
        if who.name and who.label is None:
            address = NULL_ADDRESS if who.address is None else who.address
            self.of_premises.claims.setdefault(address, {}).setdefault(who.name, [line, 0])[1] += 1
            if self.is_unjudged:
                self.found.tell("stranger", f"NAME {who.name} claims address {address}: no unit has it", line, at)

    def sender(self, line: int, at: int | None, sender: Who, pgn: int, group: str = "") -> None:
        """Who sent something, as a message of a planned group."""
        self.hands.sends(line, at, sender)
        if sender.label is None:
            self.unknown(line, at, sender, pgn, group)

    def unknown(self, line: int, at: int | None, sender: Who, pgn: int, group: str) -> None:
        """Somebody whom the plan doesn't have sends something, as a message of a planned group."""
        former, what = self.hands.former(at, sender), f"sends {group}, a planned group" if group else "sends"
        if former is not None:
            self.goes_on(line, at, former, f"and its former address {sender.address} {what}")
            self.of_premises.left.add(sender.address)
            self.distances.touched(former.label or "", self._pgns, pgn, line, at)
        elif group:
            self.of_premises.sent.setdefault(sender.name or sender.address, {})[group] = None
        if sender.address in (NULL_ADDRESS, GLOBAL_ADDRESS) or self.is_unjudged and former is None:
            self.found.tell("stranger", f"{sender.spelled} {what}: no unit has it", line, at)

    def goes_on(self, line: int, at: int | None, former: Who, what: str) -> None:
        """An address goes on to send that a box has left for another one, or given up."""
        if former.address is None:
            text = f"{named(former)} could not claim an address, {what}: by the standard it sends no more"
            self.found.tell("sends-on", text, line, at, unit=former.label)
            return
        self.of_premises.obeyed.add((former.label or "", former.address))
        self.found.tell("two-boxes", f"{former.spelled} claims address {former.address}, {what}: two boxes of one NAME?", line, at, unit=former.label)

    def message(self, line: int, at: int | None, message: Message) -> None:
        """A message of a planned group."""
        _, _, group, sender, to, flow, odd_priority, data, _ = message
        if (line, pair_of(sender, to)) == self._received:
            return
        planned = self.planned[group]
        begun = self.announcements.whole(line, at, pair_of(sender, to)) if len(data) > 2 * FRAME_BYTES else None
        first, began = (begun.line, begun.at) if begun else (line, at)
        if begun is None:
            self.hands.sends(line, at, sender)
            if sender.label is None:
                self.unknown(line, at, sender, planned.pgn, group)
            self.answers(line, at, sender, to, planned.pgn)
        if self.is_unjudged and odd_priority is not None:
            text = f"{group} from {sender.shown} has priority {odd_priority}, planned is {planned.priority}"
            self.found.tell("priority", text, first, began, unit=sender.label)
        if flow:
            self.sends(flow, first, began, begun.waited if begun else 0)
            return
        if begun is None:
            self.without_flow(line, at, planned, sender, to)
            priority = planned.priority if odd_priority is None else odd_priority
            self.passes(line, at, identifier_of(priority, planned.pgn, sender.address or 0, 0), "", sender)

    def without_flow(self, line: int, at: int | None, group: Group, sender: Who, to: Who) -> None:
        """A message of a planned group begins that no flow brings from here to there. Who answers a request isn't accused."""
        if sender.label is None:
            return
        if self.is_unjudged and not self.asked_for.is_asked(group.pgn, sender.address, at):
            self.found.tell("no-flow", f"{group.label} from {sender.label} to {to.shown}: no flow", line, at, unit=sender.label)
        self.otherwise(at, group.pgn, sender.label)

    def otherwise(self, at: int | None, pgn: int, sender: str) -> None:
        """A message of a planned group comes that isn't as planned, which is told by itself: no flow of its sender and its group's number is silent."""
        for number in self._numbers.get((sender, pgn), ()):
            self._otherwise.add(self._ways[number - 1])
            self.distances.besides(number, at)

    def answers(self, line: int, at: int | None, sender: Who, to: Who, pgn: int) -> None:
        """A message of a group begins, which may be asked for."""
        if pgn in self.asked.open:
            self.asked.answers(line, at, sender, to, pgn)
        if pgn in self.others.open:
            self.others.answers(line, at, sender, to, pgn)

    def sends(self, number: int, line: int, at: int | None, waited: int = 0) -> None:
        """A message of a flow has come, by where it began, and how long it may have waited for others of its unit."""
        self.counted(number)[0] += 1
        if at is not None and self.asked_for.is_open(at):
            flow = self.flows[number - 1]
            if self.asked_for.is_besides(self._pgns[flow.group], self.hands.last.get(flow.sender, (0, None, None))[2], at):
                self.distances.besides(number, at)
                return
        self.distances.sent(number, line, at, waited)

    def counted(self, number: int) -> list[int]:
        """Where it is counted how often messages came of a flow's way."""
        return self.sent[self._ways[number - 1]]

    def passes(self, line: int, at: int | None, identifier: int, what: str, sender: Who) -> None:
        """A frame of no flow goes by. What is too urgent is told here of those alone who are no unit; such a frame of a planned group has no name here."""
        if self.timing:
            self.unplanned.came(line, at, identifier)
            if what and sender.label is None and identifier >> 26 < self.timing.unplanned_priority:
                limit = f"by 'load' what no flow has is of {self.timing.unplanned_priority} or more"
                self.found.tell("urgent", f"{what} from {sender.shown} has priority {identifier >> 26}: {limit}", line, at)

    def group_of(self, pgn: int, length: int, sender: Who, to: Who, data: bytes | None = None) -> Group | None:
        """The group of a message: of those of its number one whose bits of `when` its data has, else one of its length, else the first; a private one
        only where a flow sends it so."""
        groups = [group for group in self.groups.get(pgn, [])
                  if not group.private or (group.label, sender.label, to.shown) in self.sent]
        if data is not None and (told := next((group for group in groups if group.when and group.when.takes(data)), None)):
            return told
        return next((group for group in groups if group.length <= length <= group.most), groups[0] if groups else None)

    def unheard(self, noted: Noted) -> None:
        """A frame of which `follow` says nothing: one with an 11-bit identifier, or an error frame."""
        if noted.kind == BAD:
            self.lacks(noted.line, self._at)
            return
        line, at = noted.line, self.clock.see(noted.line, noted.time)
        if noted.is_error:
            self.damaged(line, at, noted)
            return
        if at is not None:
            self.looks_at_time(line, at)
        if noted.kind:
            self.odd += 1
            self.found.tell(noted.kind, f"{noted.kind_text} of the identifier {noted.identifier:08X}: no frame of J1939", line, at)
        self.unplanned.came(line, at, noted.identifier)

    def frame(self, line: int, at: int | None, frame: Frame) -> None:
        """A frame of no planned group."""
        if frame.pgn > LAST_GROUP or frame.pgn == ADDRESS_CLAIMED:
            tell_no_frame(self.found, line, at, frame)
            self.passes(line, at, frame.identifier, f"PGN {frame.pgn}", frame.sender)
        elif frame.pgn not in (CONNECTION_MANAGEMENT, DATA_TRANSFER):
            self.single(line, at, frame)
            if frame.pgn == EXTENDED_MANAGEMENT and len(frame.data) == FRAME_BYTES and frame.data[0] == EXTENDED_RTS:
                self.extended(line, at, frame)
        elif is_managing(frame) and (announcement := announcement_in(frame)):
            self.announced(line, at, frame, announcement)
        elif frame.pgn == CONNECTION_MANAGEMENT and frame.data[:1] in (bytes((RTS,)), bytes((BAM,))):
            self.sessions.announced(line, at, frame, f"a message from {frame.sender.shown} to {frame.to.shown}")
        elif frame.pgn == DATA_TRANSFER or is_managing(frame):
            self.carried(line, at, frame)

    def damaged(self, line: int, at: int | None, frame: Noted) -> None:
        """An error frame. Where frames may be missing, distances begin anew, and requests of before are asked no more."""
        if self.damage.came(line, at, frame) and at is not None:
            self.anew(line, at)

    def carried(self, line: int, at: int | None, frame: Frame) -> None:
        """A packet, or a frame that manages a connection."""
        sender = frame.sender
        self.hands.sends(line, at, sender)
        if frame.pgn == DATA_TRANSFER:
            self.commanded.packet(line, at, frame)
            self.sessions.packet(line, at, frame)
            if frame.to.address is None and sender.label and at is not None:
                self.queued.packet(sender.label, at)
        else:
            self.sessions.answered(line, at, frame)
        is_planned = self.transfers.came(line, at, frame)
        if frame.pgn == CONNECTION_MANAGEMENT and frame.data[0] == WHOLE:
            pair = pair_of(frame.to, sender)
            if begun := self.announcements.acknowledged(pair, at):
                self._received = line, pair
                if begun.way in self.sent:
                    self.sends(self._ways.index(begun.way) + 1, begun.line, begun.at, begun.waited)
        if not is_planned:
            self.passes(line, at, frame.identifier, f"PGN {frame.pgn if frame.pgn == DATA_TRANSFER else pgn_of(frame)}", sender)

    def single(self, line: int, at: int | None, frame: Frame) -> None:
        """A frame that is none of a planned group, and carries no part of a long message. A unit without an address may ask for claims."""
        sender, to = frame.sender, frame.to
        if (sender.address, frame.pgn, frame.data[:3]) != (NULL_ADDRESS, REQUEST, CLAIMS):
            self.sender(line, at, sender, frame.pgn)
        group = self.group_of(frame.pgn, len(frame.data), sender, to, frame.data)
        self.passes(line, at, frame.identifier, f"PGN {frame.pgn}", sender)
        if frame.pgn == REQUEST:
            tell_no_frame(self.found, line, at, frame)
        if frame.pgn == ACKNOWLEDGEMENT:
            self.others.acknowledged(at, sender, to, frame.data)
        if group is None:
            self.nobody(line, at, frame.pgn, sender)
            self.answers(line, at, sender, to, frame.pgn)
        elif not group.length <= len(frame.data) <= group.most or group.when is not None:
            self.answers(line, at, sender, to, frame.pgn)
            way = group.label, sender.label or "", to.shown
            if way in self.sent:
                self.sent[way][0] += 1
            self.otherwise(at, frame.pgn, sender.label or "")

    def extended(self, line: int, at: int | None, frame: Frame) -> None:
        """A message is announced by the extended transport protocol, which carries longer ones than any plan has."""
        pgn, size, sender = pgn_of(frame), int.from_bytes(frame.data[1:5], "little"), frame.sender
        group = self.group_of(pgn, size, sender, frame.to)
        if group is None:
            self.nobody(line, at, pgn, sender)
            return
        text = f"{group.label} from {sender.shown} is announced with {size} bytes by the extended transport protocol, planned are {lengths_of(group)}"
        self.found.tell("layout", text, line, at, unit=sender.label)
        self.otherwise(at, pgn, sender.label or "")

    def nobody(self, line: int, at: int | None, pgn: int, sender: Who) -> None:
        """A message of no group."""
        if pgn not in UNPLANNED:
            self.found.tell("no-group", no_group(pgn, sender), line, at, unit=sender.label)

    def announced(self, line: int, at: int | None, frame: Frame, announced: Announcement) -> None:
        """A long message is announced."""
        sender, to, pair = frame.sender, frame.to, pair_of(frame.sender, frame.to)
        self.commanded.announced(frame, announced)
        group = self.group_of(announced.pgn, announced.length, sender, to)
        way = (group.label if group else "", sender.label or "", to.shown)
        self.sender(line, at, sender, announced.pgn, group.label if group else "")
        text = f"{group.label if group else f'PGN {announced.pgn}'} from {sender.shown} to {to.shown}"
        session = self.sessions.announced(line, at, frame, text)
        if way not in self.sent:
            self.passes(line, at, frame.identifier, f"PGN {announced.pgn}", sender)
        if session is None or not announced.is_sound:
            if pair not in self.announcements:  # what came before is done, and its answers aren't this one's
                self.transfers.forget(pair)
            self.otherwise(at, announced.pgn, sender.label or "")
            return
        self.announcements.ends(pair, at)
        self.answers(line, at, sender, to, announced.pgn)
        self.hands.announces(line, at, sender)
        self.transfers.announced(line, at, Route(text, way in self.sent, sender.label, to.label), frame)
        waited = self.busy.waited + self.queued.announced(sender.label, at, way, to.address is None) if sender.label and at is not None else 0
        if group is None:
            self.nobody(line, at, announced.pgn, sender)
        elif group.length <= announced.length <= group.most:  # of another length `audit` tells
            self._otherwise.add(way)
            self.announcements.begins(Begun(line, at, text, pair, way, sender.label, to.label, session, waited))
            if way not in self.sent:
                self.without_flow(line, at, group, sender, to)
        else:
            self.otherwise(at, announced.pgn, sender.label or "")

    def request(self, line: int, at: int | None, request: Request) -> None:
        """A request."""
        if request.pgn == ADDRESS_CLAIMED:
            self.hands.asked(at)
            self.claims.asked(line, at, request)
        else:
            self.of_premises.asks(request.sender, self.groups[request.pgn][0].label if request.pgn in self.groups else f"PGN {request.pgn}")
        if (request.sender.address, request.pgn) != (NULL_ADDRESS, ADDRESS_CLAIMED):  # a unit without an address may ask for claims
            self.sender(line, at, request.sender, REQUEST)
        is_besides = self.asked.asks(line, at, request) if request.request else self.others.asks(line, at, request)
        self.asked_for.asks(at, request, is_besides)
        if request.request == 0 or self.requests[request.request - 1].period is None:
            self.unplanned.came(line, at, identifier_of(6, REQUEST, request.sender.address or 0))

    def anew(self, line: int, at: int) -> None:
        """What is measured begins here."""
        self.distances.anew(line, at)
        self.lacks(line, at)
        self.transfers.anew()
        self.queued.anew()
        self.asked_for.anew()

    def lacks(self, line: int, at: int | None) -> None:
        """Frames may be missing before a line: who didn't answer until there isn't told, nor what becomes of messages that are under way."""
        self.asked.anew()
        self.others.anew()
        self.claims.anew(line)
        self.sessions.forget(at)
        self.transfers.waits.clear()
        self.announcements.lacks()

    def looks_at_time(self, line: int, at: int) -> None:
        """Time goes by. Where the clock was set, nothing at all came, or the interface was off, what is measured begins anew."""
        last, clock = self._at, self.clock
        self.busy.comes(at)
        if clock.is_set or clock.is_back:
            self.hands.anew(line)
            self.anew(line, at)
        elif self.damage.is_off:
            self.damage.is_off = False
            self.anew(line, at)
        elif last is not None and at - last > self._quiet and self.distances.stood_still(last, at - last, self._gap):
            self.hands.stood_still(line, at, at - last)
            self.anew(line, at)
        if last is None:
            self.sessions.begins(at)
        self._at, self._line = at, line
        if self._is_waiting():
            self.goes_by(at)

    def _is_waiting(self) -> bool:
        """Whether time has to go by for something that is waited for."""
        return bool(self._is_watched or self.transfers.waits or self.transfers.refused or self.claims.open or self.hands.ignition.is_open or self.commanded.open)

    def calm(self) -> tuple[int, float]:
        """The time of the last report; and how much later the next one may come, so that of a message that is as planned nothing changes but its flow's
        count and distances, below 0 where more may."""
        is_asked = self._at is not None and self.asked_for.is_open(self._at)
        is_open = is_asked or self.asked.open or self.others.open or self.damage.is_off or not self.hands.is_settled
        return (0, -1) if self._at is None or is_open or self._is_waiting() else (self._at, min(self._quiet, DAY))

    def passed(self, line: int, at: int) -> None:
        """Nothing but such messages came up to this line and time."""
        self._at, self._line, self.busy.last = at, line, at

    def watches(self) -> None:
        """From here on what is due is told as soon as it is, by the times of the log, and by `waits`."""
        self._is_watched = True
        self.distances.watch()

    def waits(self, duration: int) -> None:
        """Nothing has come for so long, by the clock. After a while it is told of all, or of what is due if that was alone on the bus."""
        if self._at is None or self._still or self.damage.is_off or duration <= max(SECOND, self._gap if self._gap < math.inf else 0):
            return
        if self._gap == math.inf or len(self.distances.alive(self._at)) <= 1:
            self.distances.goes_by(self._at + duration, self.announcements.is_under_way)
            return
        self._still = "nothing at all comes any more: the bus, the log or its clock stands still"
        self.found.tell("gap", self._still, self._line, self._at)

    def goes_by(self, at: int) -> None:
        """Time goes by for what is waited for."""
        if self._is_watched:
            self.is_due(at)
        if self.transfers.waits or self.transfers.refused:
            self.transfers.goes_by(at)
        if self.claims.open:
            self.claims.goes_by(at)
        if self.hands.ignition.is_open:
            self.hands.ignition.goes_by(at, self.distances.has_resumed())
        if self.commanded.open:
            self.commanded.goes_by(at)

    def is_due(self, at: int) -> None:
        """Tells what is due now, if that is told as soon as it is."""
        if self._still:
            self.found.withdraw(self._still)
            self._still = ""
        if not self.damage.is_off:
            self.distances.goes_by(at, self.announcements.is_under_way)
        self.asked.goes_by(at)
        self.others.goes_by(at)

    def report(self, report: Report, noted: Noted | None) -> None:
        """A report, and what was noted of its frame beside it."""
        line = report.line
        at = self.clock.see(line, report.time)
        if at is not None:
            self.looks_at_time(line, at)
        if isinstance(report, Message):
            self.message(line, at, report)
        elif isinstance(report, Claim):
            self.claim(line, at, report.who, report.identity)
        elif isinstance(report, Acknowledgement):
            self.asked.acknowledged(line, at, report)
        elif isinstance(report, Frame):
            self.frame(line, at, report)
        else:
            self.request(line, at, report)
        if noted:
            self.beside(line, at, report, noted)

    def beside(self, line: int, at: int | None, report: Report, noted: Noted) -> None:
        """What was noted of a frame that is reported as something else: the priority of a claim or a request, the bytes of an acknowledgement."""
        if isinstance(report, Acknowledgement):
            to = destination_in(noted.identifier)
            whole = Who(None, None, None if to == GLOBAL_ADDRESS else to)
            self.single(line, at, Frame(line, report.time, ACKNOWLEDGEMENT, report.sender, whole, noted.priority, noted.data))
        elif isinstance(report, Claim):
            self.passes(line, at, noted.identifier, f"PGN {ADDRESS_CLAIMED}", report.who)
            self.claims.goes_to(line, at, report.who, destination_in(noted.identifier))
        elif isinstance(report, Request):
            self.passes(line, at, noted.identifier, f"PGN {REQUEST}", report.sender)

    def ends(self, last: int | None, has_frames: bool) -> None:
        """Tells what is known at the end, where the last time of the log is this one."""
        self.announcements.end(last)
        self.claims.end(last)
        self.numbers.end()
        self.commanded.end()
        self.hands.end(last)
        self.of_premises.left.update(self.hands.held())
        self.distances.end(None if self.damage.is_off else last, self.hands.gone)
        self.transfers.end(last)
        self.unplanned.end(self.hands.addresses())
        self.damage.end()
        self.asked.end(last)
        self.others.goes_by(last)
        self.absences.tell(self.sent, self._otherwise, self.hands.last, has_frames)
