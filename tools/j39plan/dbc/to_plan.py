"""A plan in the making, of the nodes and frames of a network."""

from __future__ import annotations

import os
from collections import defaultdict
from collections.abc import Iterable, Iterator
from dataclasses import dataclass, field
from itertools import takewhile
from typing import TYPE_CHECKING, Any

from j39plan.dbc.addresses import addresses_of, number_in, own
from j39plan.dbc.agreement import agree
from j39plan.dbc.layouts import MultiplexLayouts, are_apart
from j39plan.dbc.merge import Network, Node, BusFrame
from j39plan.dbc.names import (
    ARBITRARY_ATTRIBUTE, EVERY_ATTRIBUTE, GROUP_ATTRIBUTE, IDENTITY_ATTRIBUTE, MOST_ATTRIBUTE, NAME_ATTRIBUTES, NOBODY,
    UNIT_ATTRIBUTE,
)
from j39plan.dbc.numbers import NumberedUnit, numbers_of
from j39plan.dbc.remarks import long, milliseconds, quoted, received_by, remark
from j39plan.dbc.signals import BYTES, Signals, goes_to_all_ones
from j39plan.dbc.times import CycleTimes, number_of, times_of
from j39plan.j1939 import GLOBAL_ADDRESS, NULL_ADDRESS, PROPRIETARY, SERVICES
from j39plan.left_out import LeftOut, Notes, plain, some_of
from j39plan.plan.schema import knows, most_of
from j39plan.plan.text import WRITTEN, Labels, Table, as_label

if TYPE_CHECKING:
    import canmatrix

# The most of each that a plan has.
UNITS, GROUPS, FLOWS, NEEDS = (most_of("", array) for array in ("unit", "group", "flow", "need"))

# What the period of a flow and the distance of records may be, in ms and in bytes.
PERIODS, DISTANCES = range(1, most_of("flow", "period") + 1), range(1, most_of("group", "every") + 1)


def shared(node: Node, attribute: str, most: int, notes: Notes) -> int | None:
    """The number of an attribute that nodes can share: the node's own, else its file's default, which is said."""
    is_own = attribute in node.given
    number = number_in(node, attribute, most, (node.given if is_own else node.defaults).get(attribute), notes)
    if number and not is_own:
        notes.say(f"unit {node.name}, {attribute}", f"{number} is the default of the file")
    return number


def name_of(node: Node, notes: Notes) -> dict[str, Any]:
    """The NAME of a unit without its identity number, as the keys of a plan."""
    fields = {key: shared(node, attribute, most, notes) for key, (attribute, most) in NAME_ATTRIBUTES.items()}
    name: dict[str, Any] = {key: number for key, number in fields.items() if number}
    if shared(node, ARBITRARY_ATTRIBUTE, 1, notes):
        name["arbitrary"] = True
    return name


def check_frame(frame: canmatrix.Frame, version: int) -> None:
    """Refuses a frame that no group of a plan of this version can be made of."""
    pgn = frame.arbitration_id.pgn if frame.arbitration_id.extended else None
    if pgn is None:
        raise LeftOut("its identifier has 11 bits")
    if frame.is_fd:
        raise LeftOut("it is of CAN FD")
    if pgn in PROPRIETARY and not knows(version, ("group", "private")):
        raise LeftOut(f"PGN {pgn} is proprietary")
    if pgn in SERVICES or pgn >= 131072:
        raise LeftOut(f"PGN {pgn} can't be planned")
    if not 1 <= frame.size <= BYTES:
        raise LeftOut(f"it has {frame.size} bytes")


def called(sent: BusFrame) -> str:
    """What a frame's group is called: by the frame, unless this says that it is one of several of a group, or it is one of a multiplexed message."""
    return sent.name or plain(sent.frame.attributes.get(GROUP_ATTRIBUTE) or sent.frame.name or "")


def common_name(names: Iterable[str]) -> str:
    """What the names of a group's messages have in common: the words, between `_`, with which all of them begin; else the first name."""
    first, *others = (name.split("_") for name in names)
    common = takewhile(lambda words: len(set(words)) == 1, zip(first, *others))
    return "_".join(words[0] for words in common) or "_".join(first)


def names_of_groups(sent: Iterable[BusFrame]) -> dict[tuple[int, int | None], str]:
    """What the groups are called that are no makers' own ones: by what all frames of one have in common; those of a multiplexed message as its
    first one."""
    names: dict[tuple[int, int | None], dict[str, None]] = {}
    for one in sent:
        if one.frame.arbitration_id.extended and one.frame.arbitration_id.pgn not in PROPRIETARY:
            names.setdefault(one.told_by, {})[called(one)] = None
    return {told: common_name(several) if told[1] is None else next(iter(several)) for told, several in names.items()}


def lengths_of_groups(sent: Iterable[BusFrame]) -> dict[tuple[int, int | None], range]:
    """The lengths of the frames of each group that is no maker's own one, from the least to the greatest."""
    lengths: dict[tuple[int, int | None], set[int]] = defaultdict(set)
    for one in sent:
        frame = one.frame
        if frame.arbitration_id.extended and frame.arbitration_id.pgn not in PROPRIETARY and not frame.is_fd and 1 <= frame.size <= BYTES:
            lengths[one.told_by].add(frame.size)
    return {told: range(min(several), max(several) + 1) for told, several in lengths.items()}


def attribute_in(frame: canmatrix.Frame, attribute: str, numbers: range) -> int | None:
    """The number of an attribute of a frame, if it is one of these."""
    number = number_of(frame.attributes.get(attribute))
    return number if number in numbers else None


@dataclass
class Group:
    """A group of the plan: its table, its signals, the message that has made it, and the comment of that one as a remark."""

    name: str
    table: Table
    signals: Signals
    made_by: BusFrame
    comment: str
    by_identifier: dict[int, BusFrame] = field(default_factory=dict)

    @property
    def label(self) -> str:
        """The group's label."""
        return str(self.table.keys["label"])


@dataclass
class Flow:
    """A flow of the plan: its table, the file that its period is of, what its messages are called in the files, who receives them by their
    labels, and other facts."""

    table: Table
    timed_by: str = ""
    messages: dict[str, None] = field(default_factory=dict)
    receivers: dict[str, None] = field(default_factory=dict)
    facts: dict[str, None] = field(default_factory=dict)

    def finished(self, needed_by: Iterable[str] = ()) -> Table:
        """Its table with its remarks, where needs say that these units receive it."""
        keys = self.table.keys
        named = [f"message {name}" for name in self.messages] if set(self.messages) - {keys["group"]} else []
        is_said = list(self.receivers) in ([keys["to"]], list(needed_by))
        received = received_by(self.receivers) if self.receivers and not is_said else ""
        self.table.remarks[:] = remark("", "", *named, received, *self.facts)
        return self.table


class Conversion:
    """A plan in the making."""

    def __init__(self, network: Network, notes: Notes, strict: bool = False, version: int = WRITTEN[-1], with_needs: bool = True,
                 keeps_numbers: bool = False) -> None:
        self.network, self.notes, self.strict, self.version, self.keeps_numbers = network, notes, strict, version, keeps_numbers
        self.has_needs = with_needs and knows(version, (None, "need"))
        self.needs: dict[tuple[str, str], Table] = {}
        self.units: dict[str, Table] = {}
        self.groups: list[Group] = []
        self.flows: dict[tuple[str, str, str], Flow] = {}
        self.periods = PERIODS if knows(version, ("flow", "period")) else range(0)
        self.unit_labels, self.group_labels = Labels({"all"}), Labels()
        self.lost: list[str] = []
        self.names: dict[tuple[int, int | None], str] = {}
        self.lengths: dict[tuple[int, int | None], range] = {}

    def tables(self) -> Iterator[Table]:
        """The tables of the plan, in the order of its file."""
        yield from self.units.values()
        for group in self.groups:
            holders = group.signals.holders()
            group.table.inside = [*group.signals.tables(self.labels_of), *holders.tables]
            if holders.named:
                group.table.beside["length"] = "; ".join(holders.named)
            yield group.table
        yield from (flow.finished(self.needed_by(*way)) for way, flow in self.flows.items())
        yield from self.needs.values()

    def add_units(self) -> None:
        """The units of the network that have an address."""
        addresses = addresses_of(self.network, self.lose, self.notes)
        for name in list(addresses)[UNITS:]:
            self.notes.say(f"unit {name}", f"a plan has at most {UNITS} units")
        nodes = [(self.network.nodes[name], address) for name, address in list(addresses.items())[:UNITS]]
        boxes = [NumberedUnit(node.name, address, name_of(node, self.notes), own(node, *IDENTITY_ATTRIBUTE, self.notes)) for node, address in nodes]
        numbers = numbers_of(boxes, self.keeps_numbers, self.version, self.notes)
        for (node, address), box in zip(nodes, boxes, strict=True):
            number = numbers.get(node.name)
            self.add_unit(node, address, box.name if number is None else {"identity": number, **box.name})

    def say_whole_ranges(self) -> None:
        """Says which signals have ranges that go to all ones, though by the standard the greatest numbers are no values."""
        names = [f"{kept.table.keys['label']} of {group.label}" for group in self.groups for kept in group.signals.signals
                 if kept.table.keys["kind"] == "measured" and goes_to_all_ones(kept.signal)]
        if names:
            why = ('the range goes to all ones, but by SAE J1939-71 251 and above (from FB hex on in the highest byte) are no values: they are '
                   'read as specific, fault or absent; kind = "raw" has them as values')
            self.notes.say(f"signal{'s' * (len(names) > 1)} {some_of(names)}", why)

    def add_unit(self, node: Node, address: int, name: dict[str, Any]) -> None:
        """A unit of this NAME."""
        wanted = plain(node.given.get(UNIT_ATTRIBUTE) or node.name or "")
        label, long = self.unit_labels.label(wanted), plain(node.given.get("LongName") or node.name)
        if label != as_label(wanted):
            self.notes.say(f"unit {node.name}", f"it is called {label}: {as_label(wanted)} is {'a word of plans' if wanted == 'all' else 'another unit'}")
        there = next((other for other, unit in self.units.items() if unit.keys["address"] == address), None)
        if there is not None and not node.known_by & self.network.nodes[there].known_by:
            self.notes.say(f"unit {node.name}", f"{there} is at address {address} too: --same {there}={node.name}, if they are one")
        self.units[node.name] = Table("unit", {"label": label, "address": address, "name": name}, remark(long, label, quoted(node.comment)))

    def lose(self, what: str, why: object) -> None:
        """Says what isn't in the plan, and keeps that for the top of its file."""
        self.notes.say(what, why)
        self.lost.append(": ".join(filter(None, (self.notes.file, what, str(why)))))

    def labels_of(self, names: Iterable[str]) -> list[str]:
        """The labels of the nodes of these names that are units of the plan."""
        return [self.units[name].keys["label"] for name in names if name in self.units]

    def message_of(self, sent: BusFrame) -> str:
        """What a frame is called in notes on another one."""
        return plain(sent.frame.name or "") + (f" in {sent.file}" if sent.file else "")

    def group_of(self, sent: BusFrame) -> tuple[Group, list[str]]:
        """The frame's group, which another frame of the same number may have made, and its signals that one of the group contradicts."""
        frame = sent.frame
        check_frame(frame, self.version)
        pgn = frame.arbitration_id.pgn
        others = [group for group in self.groups if group.table.keys["pgn"] == pgn and not are_apart(group.made_by.when, sent.when)]
        if pgn in PROPRIETARY:
            others = self.private_ones(sent, others)
        group = others[0] if others else self.new_group(sent)
        if others:
            self.compare(sent, group)
        return group, group.signals.take(frame, self.message_of(sent))

    def new_group(self, sent: BusFrame) -> Group:
        """A group of a frame's number, without signals yet."""
        frame = sent.frame
        if len(self.groups) == GROUPS:
            raise LeftOut(f"a plan has at most {GROUPS} groups: choose some by --sender or --group")
        pgn = frame.arbitration_id.pgn
        name, is_private = self.names.get(sent.told_by) or called(sent), pgn in PROPRIETARY
        label = self.group_labels.label(name)
        self.say_other_name(sent, name, label)
        lengths = self.lengths_of(sent)
        most = max(attribute_in(frame, MOST_ATTRIBUTE, range(frame.size, BYTES + 1)) or 0, lengths[-1])
        keys = {"most": most if most > lengths[0] else None, "every": attribute_in(frame, EVERY_ATTRIBUTE, DISTANCES)}
        told = {key: number for key, number in keys.items() if number and knows(self.version, ("group", key))}
        comment = quoted(frame.comment)
        table = Table("group", {
            "label": label, "pgn": pgn, "priority": frame.arbitration_id.j1939_priority, "length": lengths[0], "private": is_private, **told,
            **({"when": sent.when} if sent.when else {}),
        }, remark(name, label, comment))
        signals = Signals(lengths, self.notes, self.strict, self.version, is_private, "every" in told)
        group = Group(called(sent), table, signals, sent, comment, {frame.arbitration_id.id: sent})
        self.groups.append(group)
        return group

    def say_other_name(self, sent: BusFrame, name: str, label: str) -> None:
        """Says where a group isn't called as its message, since another group is; and where that one's is a message of the same name and sender."""
        other = next((group for group in self.groups if group.label == as_label(name)), None)
        if label == as_label(name) or other is None:
            return
        pgn, made = sent.frame.arbitration_id.pgn, other.made_by
        number, alike = other.table.keys["pgn"], set(sent.frame.transmitters) & set(made.frame.transmitters)
        same_sender = f" of {', '.join(sorted(alike))}" if alike else ""
        self.notes.say(f"group {sent.frame.name}", f"its PGN is {pgn}, that of {self.message_of(made)}{same_sender} is {number}: it is called {label}")

    def lengths_of(self, sent: BusFrame) -> range:
        """The lengths of the messages that a frame's group has: its own alone, unless the plan can say which signals only longer ones have."""
        own_length = range(sent.frame.size, sent.frame.size + 1)
        return self.lengths.get(sent.told_by, own_length) if knows(self.version, ("signal", "optional")) else own_length

    def private_ones(self, sent: BusFrame, others: list[Group]) -> list[Group]:
        """Of the makers' own groups of a frame's number the one that the frame is of, if there is one already. It is told from
        others by who sends it to whom, so it needs a flow, and no other one may meet its flows."""
        frame = sent.frame
        flows, pgn = self.flows_of(frame), frame.arbitration_id.pgn
        if not flows:
            raise LeftOut(f"PGN {pgn} is proprietary, and no unit in the plan sends it to another one")
        if len(self.flows) == FLOWS:
            raise LeftOut(f"PGN {pgn} is proprietary, and a plan has at most {FLOWS} flows")
        met = [group for group in others if any(self.is_met(group, *flow) for flow in flows)]
        alike = [group for group in others if group.made_by.when == sent.when]
        same = [group for group in alike if group in met and self.is_one_message(sent, group)] or [
            group for group in alike if group.signals.are_those_of(frame) and (group in met or group.name == called(sent))]
        for group in met:
            if group not in same[:1]:
                raise LeftOut(f"{group.label} has the same PGN {pgn} from the same unit to the same receiver, and is another group")
        return same[:1]

    def is_one_message(self, sent: BusFrame, group: Group) -> bool:
        """Whether a frame is the message that has made a group, as another file has it."""
        frame, made_by = sent.frame, group.made_by.frame
        return bool((frame.arbitration_id.id, frame.size, called(sent)) == (made_by.arbitration_id.id, made_by.size, group.name))

    def is_met(self, group: Group, sender: str, receiver: str) -> bool:
        """Whether a unit sends a group to a receiver, or to all where this one goes to one."""
        return any(
            (label, unit) == (group.label, sender) and (receiver == to or "all" in (receiver, to)) for label, unit, to in self.flows
        )

    def compare(self, sent: BusFrame, group: Group) -> None:
        """Says what a frame has otherwise than the message that has made its group, or than another one of its identifier."""
        frame = sent.frame
        what, made = f"group {frame.name}", self.message_of(group.made_by)
        same = group.by_identifier.setdefault(frame.arbitration_id.id, sent)
        if same is not sent and same.file == sent.file:
            self.notes.say(what, f"{self.message_of(same)} has its identifier: both are one group")
        if frame.size != same.frame.size and frame.size in group.signals.lengths:
            self.notes.say(what, f"its length is {frame.size}, that of {self.message_of(same)} is {same.frame.size}: the plan has both")
        priority, planned = frame.arbitration_id.j1939_priority, group.table.keys["priority"]
        if priority != planned:
            self.notes.say(what, f"its priority is {priority}, that of {made} is {planned}")
        if frame.size not in group.signals.lengths:
            self.notes.say(what, f"its length is {frame.size}, that of {made} is {group.signals.lengths[0]}")

    def receivers_of(self, frame: canmatrix.Frame) -> list[str]:
        """Whom a frame is for: `all`, or labels of units."""
        ident = frame.arbitration_id
        if ident.j1939_pdu_format != 1 or ident.j1939_ps == GLOBAL_ADDRESS:
            return ["all"]
        # From the null address an identifier stands for its group alone: what it has for a destination is none.
        here = [unit.keys["label"] for unit in self.units.values() if unit.keys["address"] == ident.j1939_ps]
        if here and ident.j1939_source != NULL_ADDRESS:
            return here[:1]
        named = dict.fromkeys(name for signal in frame.signals for name in signal.receivers)
        return self.labels_of(named) or ["all"]

    def lost_destination(self, frame: canmatrix.Frame) -> int | None:
        """The destination that a frame's identifier names and no unit of the plan has."""
        ident = frame.arbitration_id
        names_one = ident.j1939_pdu_format == 1 and ident.j1939_ps != GLOBAL_ADDRESS and ident.j1939_source != NULL_ADDRESS
        is_here = any(unit.keys["address"] == ident.j1939_ps for unit in self.units.values())
        return int(ident.j1939_ps) if names_one and not is_here else None

    def flows_of(self, frame: canmatrix.Frame) -> list[tuple[str, str]]:
        """Sender and receiver of each flow of a frame between units of the plan, or to all."""
        senders = self.labels_of(frame.transmitters)
        return [(sender, receiver) for sender in senders for receiver in self.receivers_of(frame) if sender != receiver]

    def add_flows(self, sent: BusFrame, group: Group, contradicted: list[str]) -> None:
        """Who sends a group to whom, as far as the file names units."""
        frame, times = sent.frame, times_of(sent.frame, sent.matrix)
        period = times.period if self.periods else None
        for what, why in times.notes if self.periods else ():
            self.notes.say(what, why)
        if period is not None and period not in self.periods:
            self.notes.say(f"group {frame.name}", f"its cycle time of {period} ms is no period of 1 to {PERIODS[-1]} ms")
        receivers, kept = self.receivers_of(frame), period if period in self.periods else None
        self.say_ends(frame, receivers)
        for sender in frame.transmitters:
            if sender in self.units:
                for receiver in receivers:
                    flow = self.flow_of(group.label, self.units[sender].keys["label"], receiver, kept, sent.file)
                    if flow:
                        self.add_facts(flow, sent, group, times, kept, contradicted)
            elif sender != NOBODY:
                self.notes.say(f"flow of {group.label} from {sender}", "the unit isn't in the plan")
        if not self.flows_of(frame):
            group.table.remarks += remark("", "", *self.times_told(times, kept), self.length_told(frame, group))

    def say_ends(self, frame: canmatrix.Frame, receivers: list[str]) -> None:
        """Says where a frame has another source or another destination in the plan than in its identifier."""
        address, source = self.lost_destination(frame), frame.arbitration_id.j1939_source
        if address is not None:
            self.notes.say(f"flow of {frame.name}", f"no unit of the plan has its destination {address}: it goes to {' and '.join(receivers)}")
        for name in frame.transmitters if source not in (NULL_ADDRESS, GLOBAL_ADDRESS) else ():
            planned = self.units[name].keys["address"] if name in self.units else source
            if planned != source:
                self.notes.say(f"group {frame.name}", f"its identifier has the source address {source}, {name} has {planned}")

    def times_told(self, times: CycleTimes, period: int | None) -> list[str]:
        """What is kept of a frame's times beside the period of its flow, as remarks."""
        cycle = times.cycle or times.period or 0
        return [f"sent {times.sent}" if times.sent else "", milliseconds(cycle) if cycle != period or times.sent else ""]

    def length_told(self, frame: canmatrix.Frame, group: Group) -> str:
        """How long a frame of a group of several lengths is, as a remark."""
        lengths = group.signals.lengths
        return long(frame.size) if len(lengths) > 1 and frame.size in lengths else ""

    def add_facts(self, flow: Flow, sent: BusFrame, group: Group, times: CycleTimes, period: int | None, contradicted: list[str]) -> None:
        """What is kept of a frame at a flow of it: its name, who receives it, where its destination is no unit's that, its times, its
        comment where it isn't the group's, and what of it is laid out otherwise."""
        frame, lost = sent.frame, self.lost_destination(sent.frame)
        comment = "" if sent is group.made_by else quoted(frame.comment)
        if frame.name:
            flow.messages[plain(frame.name).replace(" ", "_")] = None
        flow.receivers |= dict.fromkeys(self.labels_of(name for signal in frame.signals for name in signal.receivers))
        otherwise = [*(["its length"] if frame.size not in group.signals.lengths else []), *contradicted]
        where = f" in {os.path.basename(sent.file)}" if sent.file else ""
        facts = [
            "" if lost is None else f"to address {lost}", *self.times_told(times, period), self.length_told(frame, group),
            comment if comment != group.comment else "",
            quoted(f"laid out otherwise{where}: {', '.join(otherwise)}") if otherwise else "",
        ]
        flow.facts |= dict.fromkeys(filter(None, facts))

    def flow_of(self, group: str, sender: str, receiver: str, period: int | None, file: str) -> Flow | None:
        """A flow, which may be there already. Of several periods it has the least one. None where there can't be one."""
        what = f"flow of {group} from {sender}"
        if sender == receiver:
            self.notes.say(what, "it goes to the unit itself")
            return None
        if (group, sender, receiver) not in self.flows:
            if len(self.flows) == FLOWS:
                self.notes.say(f"{what} to {receiver}", f"a plan has at most {FLOWS} flows")
                return None
            self.flows[group, sender, receiver] = Flow(Table("flow", {"group": group, "from": sender, "to": receiver}))
        flow = self.flows[group, sender, receiver]
        known = flow.table.keys.setdefault("period", period) if period else None
        if known == period:
            flow.timed_by = flow.timed_by or file
            return flow
        where = f" ms in {flow.timed_by}" if flow.timed_by else ""
        self.notes.say(f"{what} to {receiver}", f"its cycle times are {known}{where} and {period} ms: the lesser one is its period")
        if period < known:
            flow.table.keys["period"], flow.timed_by = period, file
        return flow

    def add_needs(self, frame: canmatrix.Frame, group: Group) -> None:
        """That those who receive signals of a frame need its group, from another unit than themselves."""
        for label in self.labels_of(dict.fromkeys(name for signal in frame.signals for name in signal.receivers)):
            if self.labels_of(frame.transmitters) == [label] or (label, group.label) in self.needs:
                continue
            if len(self.needs) == NEEDS:
                self.notes.say(f"need of {group.label} by {label}", f"a plan has at most {NEEDS} needs")
            else:
                self.needs[label, group.label] = Table("need", {"unit": label, "group": group.label})

    def needed_by(self, group: str, sender: str, to: str) -> list[str]:
        """The units that need a group and are brought it by a flow of it."""
        return [unit for unit, needed in self.needs if needed == group and unit != sender and to in (unit, "all")]

    def say_unmet(self) -> None:
        """Says which units are to receive a group that no flow brings them."""
        met = {(unit, way[0]) for way in self.flows for unit in self.needed_by(*way)}
        for unit, group in self.needs:
            if (unit, group) not in met:
                self.notes.say(f"need of {group} by {unit}", "no unit of the plan sends it there")

    def add_frames(self, frames: list[BusFrame]) -> None:
        """The groups of the frames, their flows, and who needs them. What is to be noted of a multiplexed message is noted once."""
        layouts = MultiplexLayouts(frames, self.version, self.notes)
        sent = [part for one in frames for part in layouts.of(one)]
        agree(sent, self.version, self.message_of, self.notes)
        self.names, self.lengths = names_of_groups(sent), lengths_of_groups(sent)
        for one in sent:
            self.notes.file, self.notes.are_new = one.file, one.when is not None
            try:
                group, contradicted = self.group_of(one)
                self.add_flows(one, group, contradicted)
                if self.has_needs:
                    self.add_needs(one.frame, group)
            except LeftOut as why:
                self.lose(f"group {one.name or one.frame.name}", f"left out: {why}")
        self.notes.file, self.notes.are_new = "", False
        self.say_whole_ranges()
        self.say_unmet()
