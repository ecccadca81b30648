"""The messages of a DBC that is made of a plan: each group is one for each unit that sends it, and where its identifier has a destination for each
unit that it goes to. Groups that are told by the same bits are one multiplexed message."""

from __future__ import annotations

import re
from collections.abc import Iterator
from dataclasses import dataclass, field

from j39plan.dbc import remarks
from j39plan.dbc.names import SELECTOR_KIND
from j39plan.dbc.text import Names
from j39plan.j1939 import GLOBAL_ADDRESS, NULL_ADDRESS, identifier_of, is_pdu2
from j39plan.left_out import Notes
from j39plan.plan.parts import Source
from j39plan.plan.tables import Flow, Group, Need, Signal, Text, Unit, When

# What stands behind the text of a key on its line.
COMMENT = re.compile(r"""["']?\s*=\s*(?:"[^"]*"|'[^']*')\s*#\s*(.*?)\s*$""")

# What stands for the bits that tell groups, where no group has a signal of them.
SELECTOR = "Selector"


@dataclass
class DbcMessage:
    """A message of the DBC: its identifier, its groups, of which it has several where it is multiplexed, how many bytes it has, its name and the
    one that is too long for a name, who sends it, whom it goes to, and who else receives it, how far apart its flows are sent, in ms, and what
    is said beside them."""

    identifier: int
    groups: list[Group]
    length: int
    name: str
    long: str = ""
    senders: list[str] = field(default_factory=list)
    receivers: list[str] = field(default_factory=list)
    periods: set[int] = field(default_factory=set)
    told: list[remarks.Remark] = field(default_factory=list)

    @property
    def group(self) -> Group:
        """Its first group."""
        return self.groups[0]

    @property
    def labels(self) -> tuple[str, ...]:
        """The labels of its groups."""
        return tuple(group.label for group in self.groups)

    def may_have(self, group: Group) -> bool:
        """Whether a group is one of its groups, or can be one more, being told by the same bits."""
        if group.label in self.labels:
            return True
        when, others = group.when, [other.when for other in self.groups]
        return when is not None and all(other is not None and other.span == when.span and other.value != when.value for other in others)


@dataclass
class MessagePart:
    """A signal or a text of a message, and its group: its name and the one that is too long for a name, what is said beside it, and how it is
    multiplexed: `M` of what tells the groups, and of what only some groups have their values."""

    of: Signal | Text
    group: Group
    name: str
    long: str
    told: remarks.Remark
    is_selector: bool = False
    values: list[int] = field(default_factory=list)

    @property
    def multiplexed(self) -> str:
        """How it is multiplexed, as a DBC spells it: `M`, or `m3` of what a group has that is told by 3."""
        return "M" if self.is_selector else f"m{self.values[0]}" if self.values else ""

    @property
    def first_length(self) -> int:
        """From which length on messages of its group have something of a text, or a signal, which only an optional one can lack."""
        if isinstance(self.of, Text):
            return self.of.byte
        if self.of.kind == SELECTOR_KIND:
            return 0
        return (self.of.span.stop + 7) // 8 if self.of.optional else self.group.length


def selector_of(group: Group, when: When) -> MessagePart:
    """What stands for the bits that tell a group."""
    signal = Signal("", when.byte, when.bit, when.bits, SELECTOR_KIND, 1, 1, 0, "", False, place=(*group.place, "when"))
    return MessagePart(signal, group, SELECTOR, "", remarks.Remark())


class Messages:
    """The messages of a plan's groups, who sends and receives them, and what they have."""

    def __init__(self, source: Source, notes: Notes) -> None:
        self.source, self.tables, self.notes = source, source.tables, notes
        self._lines = source.text.split("\n")
        nodes, self._taken = Names(), Names()
        self.names = {unit.label: nodes.label(unit.label) for unit in self.tables.units}
        self._addresses = {unit.label: unit.address for unit in self.tables.units}
        self._known: dict[int, DbcMessage] = {}
        self._used: set[str] = set()  # groups that have a message
        self._parts: dict[tuple[str, ...], list[MessagePart]] = {}
        self._carried: list[tuple[str, Flow | None, DbcMessage]] = []  # groups with their flows, None of one without, and messages
        self._needed: dict[tuple[int, str, str], list[str]] = {}  # who needs a group of a message, or a signal of it
        self._add_all()
        for need in self.tables.needs:
            self._add_need(need)

    def __iter__(self) -> Iterator[DbcMessage]:
        return iter(self._known.values())

    def __len__(self) -> int:
        return len(self._known)

    def told(self, table: Unit | Group | Signal | Text | Flow, key: str = "label") -> remarks.Remark:
        """What stands behind the first key of a table."""
        place = (*table.place, key)
        found = COMMENT.match(self._lines[self.source.line(place) - 1].partition(key)[2])
        return remarks.read(found.group(1) if found else "", self.source.places.texts[place])

    def _add_all(self) -> None:
        """The messages of all groups: those of each group's flows, or one that stands for the group alone."""
        flows: dict[str, list[Flow]] = {}
        for flow in self.tables.flows:
            flows.setdefault(flow.group, []).append(flow)
        wanted = {group.label: self._wanted(group, flows.get(group.label, [])) for group in self.tables.groups}
        first: dict[str, str] = {}
        together: dict[object, str] = {}
        for group in sorted(self.tables.groups, key=lambda group: not Names.fits(wanted[group.label])):
            name = wanted[group.label]
            beside = together.get((group.pgn, group.when.span, name)) if group.when else None
            first[group.label] = beside or self._taken.label(name)
            if group.when:
                together[group.pgn, group.when.span, name] = first[group.label]
        for group in self.tables.groups:
            for flow in flows.get(group.label, []):
                self._add_flow(group, first[group.label], flow)
            alone = self._add(group, first[group.label], NULL_ADDRESS, GLOBAL_ADDRESS) if group.label not in flows else None
            if alone:
                alone.length = max(alone.length, length_of(group, self.told(group)))
                self._carried.append((group.label, None, alone))
        for message in self:
            if len({group.length for group in message.groups}) > 1:
                self.notes.say(f"message {message.name}", "its groups have several lengths: it has the greatest one")

    def _wanted(self, group: Group, flows: list[Flow]) -> str:
        """What the first message of a group is called: by its first flow, else as the group, without the value by which it is told."""
        named = self.told(flows[0], "group").messages if flows else []
        name = next(iter([*named, *self.told(group).names]), group.label)
        return name.removesuffix(f"_m{group.when.value}") if group.when else name

    def _add_flow(self, group: Group, name: str, flow: Flow) -> None:
        """The message of a flow."""
        what, told = f"flow of {flow.what}", self.told(flow, "group")
        destination = self._addresses.get(flow.to, GLOBAL_ADDRESS if told.address is None else told.address)
        message = self._add(group, name, self._addresses[flow.sender], destination, told)
        if message is None:
            self.notes.say(what, "another group's message has its identifier")
            return
        self._carried.append((group.label, flow, message))
        if self.names[flow.sender] not in message.senders:
            message.senders.append(self.names[flow.sender])
        named = [flow.to] if flow.to != "all" else []
        for label in named if told.receivers is None else told.receivers:
            if label in self.names and self.names[label] not in message.receivers:
                message.receivers.append(self.names[label])
        message.periods.update([] if flow.period is None else [flow.period])
        for key in ("deadline", "jitter", "pause"):
            if (*flow.place, key) in self.source.places.spelled:
                self.notes.say(what, f"a DBC has no {key}")
        if flow.on_request and not told.sent:
            self.notes.say(what, "a DBC doesn't say that it is sent on request alone")
        if flow.to != "all" and is_pdu2(group.pgn):
            self.notes.say(what, "its identifier names no destination")

    def _add(self, group: Group, name: str, source: int, destination: int, told: remarks.Remark | None = None) -> DbcMessage | None:
        """The message of a group with this source and destination, unless one of another group has its identifier."""
        identifier, told = identifier_of(group.priority, group.pgn, source, destination), told or remarks.Remark()
        if identifier not in self._known:
            long_name = next(iter(self.told(group).names), "")
            wanted = next(iter(told.messages), "" if group.label in self._used else long_name)
            other = self._taken.label(wanted or name) if group.label in self._used else name
            self._used.add(group.label)
            self._known[identifier] = DbcMessage(identifier, [group], 0, other, wanted if wanted and not Names.fits(wanted) else "")
        message = self._known[identifier]
        if not message.may_have(group):
            return None
        if group.label not in message.labels:
            message.groups.append(group)
        self._used.add(group.label)
        message.told.append(told)
        message.length = max(message.length, length_of(group, told))
        return message

    def _add_need(self, need: Need) -> None:
        """Who needs a group receives the messages of it that are for it, or the one that stands for it alone. Who is named beside the group's
        flows or signals receives it as it stands there."""
        met = [message for label, flow, message in self._carried if label == need.group and (flow is None or need.is_met_by(flow))]
        what = f"need {need.place[-1]} of {need.group} by {need.unit}"
        if not met:
            self.notes.say(what, "no message of it goes there")
        if need.unit not in self._told_receivers(need.group):
            for message in met:
                self._needed.setdefault((message.identifier, need.group, need.signal), []).append(self.names[need.unit])
        lost = [key for key, is_said in (("from", need.sender), ("within", need.within is not None)) if is_said]
        if lost:
            self.notes.say(what, f"a DBC has no {' and no '.join(lost)} of a need")

    def _told_receivers(self, group: str) -> set[str]:
        """Who is named as a receiver beside the flows or signals of a group."""
        messages = [message for label, _, message in self._carried if label == group]
        told = [one for message in messages for one in (*message.told, *(part.told for part in self.parts_in(message)))]
        return {label for one in told for label in one.receivers or ()}

    def parts_in(self, message: DbcMessage) -> list[MessagePart]:
        """The signals and texts that a message has."""
        return [part for part in self._parts_of(message) if part.first_length <= message.length]

    def _parts_of(self, message: DbcMessage) -> list[MessagePart]:
        """The signals and texts of groups of one message that some such message has, with their names; of others that is said."""
        if message.labels not in self._parts:
            parts = self._multiplexed(message.groups) if message.group.when else self._part_list(message.group)
            names = Names()
            for part in sorted(parts, key=lambda part: not Names.fits(part.name)):  # those first that can be names as they are
                part.long = "" if part.name == part.of.label or Names.fits(part.name) else part.name
                part.name = names.label(part.name)
            self._parts[message.labels] = parts
        return self._parts[message.labels]

    def _part_list(self, group: Group) -> list[MessagePart]:
        """The signals and texts of a group that some message of it has; of others that is said."""
        most = max(message.length for message in self if group.label in message.labels)
        found, tables = [], list[Signal | Text]([*group.signals, *group.texts])
        for table in tables:
            told = self.told(table)
            part = MessagePart(table, group, next(iter(told.names), table.label), "", told)
            if part.first_length <= most:
                found.append(part)
            else:
                self.notes.say(f"{table.place[-2]} {table.label} of {group.label}", f"the group's messages end with byte {most}")
        return found

    def _multiplexed(self, groups: list[Group]) -> list[MessagePart]:
        """The signals and texts of a multiplexed message: what each of its groups has is so once, and is no multiplexed one where the groups have all
        values of the multiplexor, or its comment says so; beside it is what tells the groups, which has a signal of its own where no group has one."""
        several = [{(part.of.label, self._meaning(part)): part for part in self._part_list(group)} for group in groups]
        first = groups[0].when
        assert first is not None
        is_whole = len(groups) == 1 << first.bits
        shared = [key for key, part in several[0].items() if all(key in parts for parts in several)
                  and (is_whole or part.told.is_always or isinstance(part.of, Signal) and part.of.span == first.span)]
        plain = [several[0][key] for key in shared]
        selector = next((part for part in plain if isinstance(part.of, Signal) and part.of.span == first.span), None)
        if selector is None:
            selector = selector_of(groups[0], first)
            self.notes.say(f"message {groups[0].label}", f"no signal has the bits that tell its groups: {SELECTOR} stands for them")
            plain.insert(0, selector)
        selector.is_selector = True
        own: dict[object, MessagePart] = {}
        for group, parts in zip(groups, several, strict=True):
            assert group.when is not None
            for key in parts.keys() - set(shared):
                own.setdefault(key, parts[key]).values.append(group.when.value)
        return plain + sorted(own.values(), key=lambda part: part.of.place)

    def _meaning(self, part: MessagePart) -> object:
        """What is said of a signal or text, but for its place in the file."""
        places, place = self.source.places, part.of.place
        keys = [key for key in places.keys(place) if key != "values"]
        values = (*place, "values")
        named = {key: places.texts[(*values, key)] for key in places.keys(values)} if values in places.lines else {}
        said = [(key, places.texts.get((*place, key), places.spelled.get((*place, key)))) for key in keys]
        return isinstance(part.of, Text), tuple(sorted(said)), tuple(sorted(named.items()))

    def receivers(self, message: DbcMessage, part: MessagePart) -> list[str]:
        """Who receives a signal: of those who receive the message the ones that are named beside the signal, if some are; and who needs it."""
        received = message.receivers
        if part.told.receivers is not None:
            named = [self.names[label] for label in part.told.receivers if label in self.names]
            received = [name for name in named if name in message.receivers or not message.receivers]
        return list(dict.fromkeys([*received, *self._needed_by(message, part)]))

    def _needed_by(self, message: DbcMessage, part: MessagePart) -> Iterator[str]:
        """Who needs a signal of a message; of one that each group of a multiplexed one has those who need it of all of them."""
        groups = [group for group in message.groups if not part.values or group.when and group.when.value in part.values]
        for label in ("", part.of.label):
            several = [self._needed.get((message.identifier, group.label, label), []) for group in groups]
            yield from (name for name in several[0] if all(name in names for names in several))


def length_of(group: Group, told: remarks.Remark) -> int:
    """How long a message of a group is: as is said beside its flow, else as the shortest ones, which go in one frame if any does."""
    return told.bytes if told.bytes is not None and told.bytes in range(group.length, group.most + 1) else group.length
