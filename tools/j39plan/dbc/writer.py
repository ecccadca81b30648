"""The text of a DBC that is made of a plan, as canmatrix reads it."""

from __future__ import annotations

import re
from collections.abc import Iterator

from j39plan.dbc import remarks
from j39plan.dbc.messages import DbcMessage, Messages, MessagePart
from j39plan.dbc.names import (
    ADDRESS_ATTRIBUTE, ARBITRARY_ATTRIBUTE, BITRATE_ATTRIBUTE, BYTES_ATTRIBUTE, CODE_CONTENT, CONTENT_ATTRIBUTE, CONTENTS, CYCLE_ATTRIBUTE,
    DELAY_ATTRIBUTE, EVERY_ATTRIBUTE, FAST_ATTRIBUTE, GROUP_ATTRIBUTE, GROUPS_ATTRIBUTE, IDENTITY_ATTRIBUTE, KIND_ATTRIBUTE, LONG_MESSAGE,
    LONG_SIGNAL, MOST_ATTRIBUTE, NAME_ATTRIBUTES, NOBODY, REPEATED_ATTRIBUTE, SEND_ATTRIBUTE, SIGNAL_ATTRIBUTE, SIGNAL_CYCLE_ATTRIBUTE,
    SPN_ATTRIBUTE, TEXT_CONTENT, UNIT_ATTRIBUTE,
)
from j39plan.dbc.signals import values_of
from j39plan.dbc.text import decimal, definitions, in_quotes
from j39plan.left_out import Notes
from j39plan.plan.measures import measure_of
from j39plan.plan.parts import Source
from j39plan.plan.tables import Signal, Text

# What a file said of the bus, in a plan without a table for it.
BITRATE = re.compile(r"# bitrate = (\d+)")

# How a DBC spells a number.
NUMBER = re.compile(r"[0-9.+\-eE]+")

EXTENDED = 1 << 31


def bytes_in(message: DbcMessage, text: Text) -> int:
    """How many bytes of a text a message has."""
    there = message.length - text.byte + 1
    return there if text.bytes is None else min(there, text.bytes)


def spelled_text(message: DbcMessage, text: Text) -> str:
    """Where a text lies in a message."""
    return f'{8 * (text.byte - 1)}|{8 * bytes_in(message, text)}@1+ (1,0) [0|0] ""'


def spelled_signal(signal: Signal, told: remarks.Remark) -> str:
    """Where a signal lies, and what it means: in a unit of measurement without a fraction."""
    measure = measure_of(signal.unit)
    step, per, offset = signal.step, signal.per * measure.parts, signal.offset
    least, greatest = (decimal(offset + step * raw, per) for raw in values_of(signal.kind, signal.bits))
    if told.range and all(map(NUMBER.fullmatch, told.range)):
        least, greatest = told.range
    place = f"{signal.span.start}|{signal.bits}@1{'-' if signal.kind == 'signed' else '+'}"
    return f"{place} ({decimal(step, per)},{decimal(offset, per)}) [{least}|{greatest}] {in_quotes(measure.unit)}"


def named_values(part: MessagePart) -> dict[int, str]:
    """The names of a signal's raw numbers: those that stand beside it, which may be longer, else those of the plan. A DBC has negative
    numbers of a signed signal."""
    if isinstance(part.of, Text):
        return part.told.values
    signal, named = part.of, dict(part.told.values)
    spelled = {raw % (1 << signal.bits) for raw in named}
    for raw, name in signal.values.items():
        if raw not in spelled:
            is_negative = signal.kind == "signed" and raw >> signal.bits - 1
            named[raw - (1 << signal.bits) if is_negative else raw] = name
    return named


class Writer:
    """A DBC in the making."""

    def __init__(self, source: Source, notes: Notes) -> None:
        self.source, self.tables, self.notes = source, source.tables, notes
        self.messages = Messages(source, notes)
        self.names = self.messages.names
        self.ways: dict[str, int] = {}  # by what messages are sent

    def text(self) -> str:
        """The DBC."""
        messages = list(self.messages)
        lines = ['VERSION ""', "", "NS_ :", "", "BS_:", "", f"BU_: {' '.join(self.names.values())}", ""]
        for message in messages:
            lines += [*self.message_lines(message), ""]
        lines += [f"BO_TX_BU_ {message.identifier | EXTENDED} : {','.join(message.senders)};"
                  for message in messages if len(message.senders) > 1]
        attributes = [*self.bus_attributes(), *self.unit_attributes(), *self.message_attributes()]
        return "\n".join([*lines, *self.comments(), *definitions(list(self.ways)), *attributes, *self.values(), *self.multiplexors()]) + "\n"

    def message_lines(self, message: DbcMessage) -> Iterator[str]:
        """A message and its signals."""
        sender = message.senders[0] if message.senders else NOBODY
        yield f"BO_ {message.identifier | EXTENDED} {message.name}: {message.length} {sender}"
        for part in self.messages.parts_in(message):
            spelled = spelled_text(message, part.of) if isinstance(part.of, Text) else spelled_signal(part.of, part.told)
            multiplexed = f" {part.multiplexed}" if part.multiplexed else ""
            yield f" SG_ {part.name}{multiplexed} : {spelled} {','.join(self.messages.receivers(message, part)) or NOBODY}"

    def comments(self) -> Iterator[str]:
        """The comments behind the first keys of units, groups, flows and signals."""
        for unit in self.tables.units:
            yield from self.comment(f"BU_ {self.names[unit.label]}", self.messages.told(unit))
        for message in self.messages:
            identifier = message.identifier | EXTENDED
            told = [one for one in message.told if one.comments] or [self.messages.told(message.group)]
            yield from self.comment(f"BO_ {identifier}", told[0])
            for part in self.messages.parts_in(message):
                yield from self.comment(f"SG_ {identifier} {part.name}", part.told)

    def comment(self, what: str, told: remarks.Remark) -> Iterator[str]:
        """The comment of something, if there is one."""
        if told.comments:
            yield f"CM_ {what} {in_quotes('; '.join(told.comments))};"

    def bus_attributes(self) -> Iterator[str]:
        """What is known of the bus, as far as a DBC can say it."""
        told = next(filter(None, map(BITRATE.fullmatch, self.source.text.split("\n"))), None)
        if self.tables.timing or told:
            yield f'BA_ "{BITRATE_ATTRIBUTE}" {self.tables.timing.bitrate if self.tables.timing else told and told.group(1)};'
        if self.tables.timing:
            self.notes.say("timing", "a DBC has no count of unplanned frames")
            for key in [key for key in self.source.places.keys(("timing",)) if key not in ("bitrate", "unplanned")]:
                self.notes.say("timing", f"a DBC has no {key}")
        if choices := self.source["choice"]:
            self.notes.say("choice", f"a DBC has no alternatives: what goes with those of {len(choices)} choices stands in it together")
        if self.source.kept:
            self.notes.say("keep_free", "a DBC has no addresses that are kept free")
        if requests := self.tables.requests:
            self.notes.say("request", f"a DBC has no requests: {len(requests)} of them are left out")
        if self.tables.strangers:
            self.notes.say("strangers", "a DBC has no unplanned units")
        if self.tables.live:
            self.notes.say("live", "a DBC doesn't say when messages may begin")

    def unit_attributes(self) -> Iterator[str]:
        """Addresses and NAMEs of the units; what a DBC can't say of them is noted."""
        fields = {"identity": IDENTITY_ATTRIBUTE, **NAME_ATTRIBUTES}
        for unit in self.tables.units:
            name = self.names[unit.label]
            numbers = {ADDRESS_ATTRIBUTE: unit.address, ARBITRARY_ATTRIBUTE: int(unit.may_choose),
                       **{attribute[0]: unit.fields[key] for key, attribute in fields.items() if key in unit.fields}}
            if name != unit.label:
                yield f'BA_ "{UNIT_ATTRIBUTE}" BU_ {name} "{unit.label}";'
            yield from (f'BA_ "{attribute}" BU_ {name} {number};' for attribute, number in numbers.items())
            lost = {"has no chooser": unit.chooser != "lowest", "has no window": unit.window != 255,
                    "doesn't say that its controller keeps no order": unit.queue == "any",
                    "doesn't say that it never claims its address": not unit.claims}
            for what in [what for what, is_said in lost.items() if is_said]:
                self.notes.say(f"unit {unit.label}", f"a DBC {what}")

    def message_attributes(self) -> Iterator[str]:
        """Of which groups the messages are, of which lengths, how far apart they are sent, and what their signals are."""
        for message in self.messages:
            what = f"BO_ {message.identifier | EXTENDED}"
            if message.group.when:
                yield from self.told_groups(message, what)
            elif message.name != message.group.label:
                yield f'BA_ "{GROUP_ATTRIBUTE}" {what} "{message.group.label}";'
            if message.long:
                yield f'BA_ "{LONG_MESSAGE}" {what} {in_quotes(message.long)};'
            for attribute, key in ((MOST_ATTRIBUTE, "most"), (EVERY_ATTRIBUTE, "every")):
                if number := self.source.places.number((*message.group.place, key)):
                    yield f'BA_ "{attribute}" {what} {number};'
            yield from (f'BA_ "{attribute}" {what} {number};' for attribute, number in self.times(message))
            for part in self.messages.parts_in(message):
                yield from self.part_attributes(message, part)

    def told_groups(self, message: DbcMessage, what: str) -> Iterator[str]:
        """What the groups of a multiplexed message are called, where they aren't called as it is, with their values; and where one of them has
        no signal of its own, so that the message tells of its value so."""
        values = [(group.when.value, group.label) for group in message.groups if group.when]
        own = {value for part in self.messages.parts_in(message) for value in part.values}
        if any(label != f"{message.name}_m{value}" or value not in own for value, label in values):
            named = ", ".join(f"{value} {label}" for value, label in values)
            yield f'BA_ "{GROUPS_ATTRIBUTE}" {what} {in_quotes(named)};'

    def times(self, message: DbcMessage) -> Iterator[tuple[str, int]]:
        """The attributes on how far apart a message's frames are."""
        if len(message.periods) > 1:
            told = ", ".join(map(str, sorted(message.periods)))
            self.notes.say(f"message {message.name}", f"its flows have the periods {told} ms: the least one is its cycle time")
        period = min(message.periods, default=0)
        sent, cycle = (next(filter(None, words), "") for words in zip(*((told.sent, told.cycle) for told in message.told)))
        if sent:
            yield SEND_ATTRIBUTE, self.ways.setdefault(sent, len(self.ways) + 1)
        times = {CYCLE_ATTRIBUTE: int(cycle or 0) or (0 if sent else period), DELAY_ATTRIBUTE: period if sent else 0,
                 FAST_ATTRIBUTE: period if cycle and not sent else 0}
        yield from ((attribute, time) for attribute, time in times.items() if time)

    def part_attributes(self, message: DbcMessage, part: MessagePart) -> Iterator[str]:
        """The attributes of a signal or text."""
        what, of = f"SG_ {message.identifier | EXTENDED} {part.name}", part.of
        if part.name != of.label and of.label:
            yield f'BA_ "{SIGNAL_ATTRIBUTE}" {what} "{of.label}";'
        if part.long:
            yield f'BA_ "{LONG_SIGNAL}" {what} {in_quotes(part.long)};'
        spn = of.spn if isinstance(of, Signal) else None
        if spn is not None or part.told.spn:
            yield f'BA_ "{SPN_ATTRIBUTE}" {what} {part.told.spn if spn is None else spn};'
        if part.told.cycle:
            yield f'BA_ "{SIGNAL_CYCLE_ATTRIBUTE}" {what} {part.told.cycle};'
        if isinstance(of, Text):
            yield f'BA_ "{CONTENT_ATTRIBUTE}" {what} {CONTENTS.index(TEXT_CONTENT)};'
            if of.bytes != bytes_in(message, of):
                yield f'BA_ "{BYTES_ATTRIBUTE}" {what} {of.bytes or 0};'
            return
        yield f'BA_ "{KIND_ATTRIBUTE}" {what} "{of.kind}";'
        if of.kind == "dtc":
            yield f'BA_ "{CONTENT_ATTRIBUTE}" {what} {CONTENTS.index(CODE_CONTENT)};'
        if of.repeated:
            yield f'BA_ "{REPEATED_ATTRIBUTE}" {what} 1;'

    def multiplexors(self) -> Iterator[str]:
        """With which values of its multiplexor a message has signals, where it has one with several: then of each, as canmatrix wants it."""
        for message in self.messages:
            parts = self.messages.parts_in(message)
            selector = next((part.name for part in parts if part.is_selector), "")
            for part in parts if any(len(part.values) > 1 for part in parts) else ():
                if part.values:
                    values = ", ".join(f"{value}-{value}" for value in part.values)
                    yield f"SG_MUL_VAL_ {message.identifier | EXTENDED} {part.name} {selector} {values};"

    def values(self) -> Iterator[str]:
        """The tables of values."""
        for message in self.messages:
            for part in self.messages.parts_in(message):
                if values := named_values(part):
                    named = " ".join(f"{raw} {in_quotes(name)}" for raw, name in sorted(values.items()))
                    yield f"VAL_ {message.identifier | EXTENDED} {part.name} {named} ;"
