"""The groups of a log: those of known plans by their numbers, with their signals, and others with raw bytes."""

from __future__ import annotations

from collections import Counter
from collections.abc import Iterator
from dataclasses import dataclass, field
from typing import NamedTuple

from j39plan.j1939 import FRAME_BYTES, PROPRIETARY, is_pdu2
from j39plan.left_out import Notes
from j39plan.log.to_plan.selectors import Selector, selector_of, values_of
from j39plan.log.to_plan.survey import Box, Traffic, Survey, Way
from j39plan.log.to_plan.units import Unit, Units, place_of
from j39plan.plan.parts import Part, Source
from j39plan.plan.schema import default_of, most_of
from j39plan.plan.text import Labels, Table

# The most groups that a plan has, and the most signals of a group.
GROUPS, SIGNALS = most_of("", "group"), most_of("group", "signal")

# The priority of a group of which only the packets are in the log, and of which no plan is known.
PRIORITY = default_of("timing", "unplanned_priority")


class Bytes(NamedTuple):
    """What the data of messages of one length has: which bits were always 1, which were ever 1, as bytes, and whether all of it could be read as a
    text."""

    ones: int
    ever: int
    is_text: bool


def counted(numbers: Counter[int], word: str) -> str:
    """How often each number was seen."""
    return ", ".join(f"{count} times {number}{word}" if count > 1 else f"once {number}{word}" for number, count in numbers.most_common(4))


@dataclass
class Group:
    """A group of the plan: its label, its number, the known one that it is, if there is one, or the selector by which it is told apart from others of its
    number and what that is; whether it came in packets to all; and what the log has of it."""

    label: str
    pgn: int
    part: Part | None = None
    selector: Selector | None = None
    value: int = 0
    is_broadcast: bool = False
    lengths: Counter[int] = field(default_factory=Counter)
    priorities: Counter[int] = field(default_factory=Counter)
    data: dict[int, Bytes] = field(default_factory=dict)

    @property
    def is_private(self) -> bool:
        """Whether its number is a maker's own."""
        return self.pgn in PROPRIETARY

    @property
    def is_to_one(self) -> bool:
        """Whether its single frames name no receiver, and longer messages of it do, of which none went to all."""
        return is_pdu2(self.pgn) and self.range[1] > FRAME_BYTES and not self.is_broadcast

    @property
    def range(self) -> tuple[int, int]:
        """Its least and its greatest length: those of the known group, and those of the log."""
        known = [self.part.number("length"), self.part.number("most")] if self.part else []
        lengths = [length for length in known if length] + list(self.lengths)
        return min(lengths), max(lengths)

    @property
    def priority(self) -> int:
        """The priority with which most of it came."""
        if self.priorities:
            return self.priorities.most_common(1)[0][0]
        return self.part.number("priority") if self.part else PRIORITY

    def take(self, seen: Traffic, is_only: bool) -> None:
        """Takes what came on a way, whose messages may be of this group alone."""
        for (first, length, priority), count in seen.kinds.items():
            if self._has(first, length, is_only):
                self.lengths[length] += count
                self.priorities.update({} if priority is None else {priority: count})

    def _has(self, first: int | None, length: int, is_only: bool) -> bool:
        """Whether messages with this first byte and of this length are its own."""
        if self.selector:
            return first is not None and self.selector.value(first) == self.value
        if is_only or self.part is None:
            return True
        least = self.part.number("length")
        return least <= length <= max(least, self.part.number("most"))

    def head(self) -> Table:
        """Its table without signals."""
        length, most = self.range
        keys = {"label": self.label, "pgn": self.pgn, "priority": self.priority, "length": length, "private": self.is_private}
        if most > length:
            keys["most"] = most
        for key in ("every", "when"):
            if self.part and key in self.part.said:
                keys[key] = self.part.said[key]
        if self.selector:
            keys["when"] = self.selector.when(self.value)
        return Table("group", keys, self._remarks(), beside=self._beside())

    def table(self) -> Table:
        """Its table with what is in it."""
        table = self.head()
        if self.part:
            table.inside = list(self._known_inside())
        else:
            table.inside, remark = self._raw()
            table.remarks += [remark] if remark else []
        return table

    def _remarks(self) -> list[str]:
        """What is remarked of it: where it is from."""
        return [f"by {place_of(self.part)}"] if self.part else []

    def _beside(self) -> dict[str, str]:
        """Comments behind its keys: how often which length and priority was seen, where they aren't always the same."""
        beside, (length, most) = {}, self.range
        if len(self.lengths) > 1 or self.lengths and list(self.lengths) != [length] and length == most:
            beside["length"] = counted(self.lengths, " bytes")
        if len(self.priorities) > 1:
            beside["priority"] = counted(self.priorities, "")
        elif not self.priorities:
            beside["priority"] = f"{'by that plan' if self.part else 'a guess'}: only packets of it are in the log"
        if self.selector:
            beside["when"] = "a guess: by these bits of their first byte messages come regularly, and not so all together"
        if self.part and self.priorities and self.part.number("priority") != self.priority:
            beside["priority"] = "; ".join(filter(None, (beside.get("priority", ""), f"{self.part.number('priority')} there")))
        return beside

    def _known_inside(self) -> Iterator[Table]:
        """The signals and texts of the known group; those that the shortest messages don't have are optional."""
        assert self.part is not None
        least = self.range[0]
        for word, parts in self.part.inside.items():
            for part in parts:
                keys = dict(part.said)
                end = 8 * (part.number("byte") - 1) + part.number("bit") - 1 + part.number("bits")
                if word == "signal" and end > 8 * least and not part.is_true("repeated"):
                    keys["optional"] = True
                comment = part.source.comment(part.line(next(iter(keys))))
                yield Table(f"group.{word}", keys, [comment] if comment else [])

    def _raw(self) -> tuple[list[Table], str]:
        """Its bytes as raw signals, which no message contradicts; a text where each message of more than 8 bytes could be one. And what is
        remarked of those that it has no signal of."""
        least, most = self.range
        if most > FRAME_BYTES and self.data and all(bytes_of.is_text for bytes_of in self.data.values()):
            return [Table("group.text", {"label": "TEXT", "byte": 1}, ["a guess: all bytes are characters"])], ""
        tables, unused = list[Table](), list[int]()
        for byte in range(1, min(most, SIGNALS) + 1):
            ones, ever = self._byte(byte)
            if ones == 0xFF:
                unused.append(byte)
                continue
            constant = [f"always {ones:02X}"] if ones == ever else []
            keys = {"label": f"B{byte}", "byte": byte, "bits": 8, "kind": "raw", "optional": byte > least}
            tables.append(Table("group.signal", keys, constant))
        if most > SIGNALS:
            return tables, f"bytes behind {SIGNALS} have no signal"
        return tables, f"always FF: {spans(unused)}" if unused else ""

    def _byte(self, byte: int) -> tuple[int, int]:
        """Which bits of a byte were always 1, and which ever were."""
        ones, ever = 0xFF, 0
        for length, data in self.data.items():
            if byte <= length:
                ones, ever = ones & data.ones >> 8 * (length - byte) & 0xFF, ever | data.ever >> 8 * (length - byte) & 0xFF
        return (ones, ever) if ever or ones != 0xFF else (0, 0xFF)


def spans(numbers: list[int]) -> str:
    """Bytes as a text: `byte 3`, `bytes 3, 5 to 8`."""
    parts: list[list[int]] = []
    for number in numbers:
        if parts and parts[-1][-1] == number - 1:
            parts[-1].append(number)
        else:
            parts.append([number])
    texts = [f"{part[0]} to {part[-1]}" if len(part) > 1 else str(part[0]) for part in parts]
    return f"byte{'s' if len(numbers) > 1 else ''} {', '.join(texts)}"


class Groups:
    """The groups of a log, and of each way of a message the groups that it may be of."""

    def __init__(self, survey: Survey, units: Units, known: list[Source], notes: Notes) -> None:
        self._units, self._known, self._notes = units, known, notes
        self._labels = Labels()
        self.groups: list[Group] = []
        self._of: dict[object, list[Group]] = {}
        self.ways: dict[Way, list[Group]] = {}
        self._private = self._private_in(survey)
        known_ways = [(way, sender, self._parts(way, sender)) for way in sorted(survey.ways, key=lambda way: way[0]) if (sender := units.of(way[1]))]
        self._selectors = self._selectors_of([(self._key(way, parts), survey.ways[way]) for way, _, parts in known_ways if not parts])
        for way, sender, parts in known_ways:
            if groups := self._groups_of(way, sender, parts, survey.ways[way]):
                self.ways[way] = groups

    def _key(self, way: Way, parts: list[Part]) -> object:
        """What ways have in common whose messages are of the same groups, which are these of a known plan."""
        return way[0] if way[0] not in PROPRIETARY else (self._private[way], *(part.at() for part in parts))

    def _selectors_of(self, ways: list[tuple[object, Traffic]]) -> dict[object, tuple[Selector, list[int]]]:
        """By what ways have in common the selector that tells their messages apart, and its values, where there is one."""
        alike: dict[object, list[Traffic]] = {}
        for key, seen in ways:
            alike.setdefault(key, []).append(seen)
        return {key: (selector, values_of(selector, all_seen)) for key, all_seen in alike.items() if (selector := selector_of(all_seen))}

    def _new_groups(self, way: Way, sender: Unit, parts: list[Part]) -> list[Group]:
        """The groups of which messages of a way are."""
        if parts:
            return [Group(self._label(way[0], part, sender), way[0], part) for part in parts]
        if found := self._selectors.get(self._key(way, parts)):
            selector, values = found
            return [Group(self._label(way[0], None, sender, f"_WHEN_{value}"), way[0], None, selector, value) for value in values]
        return [Group(self._label(way[0], None, sender), way[0])]

    def _groups_of(self, way: Way, sender: Unit, parts: list[Part], seen: Traffic) -> list[Group]:
        """The groups of which a message may be, with what was seen of it on a way."""
        key = self._key(way, parts)
        if key not in self._of:
            groups = self._new_groups(way, sender, parts)
            if len(self.groups) + len(groups) > GROUPS:
                self._notes.say(f"PGN {way[0]}", f"a plan has at most {GROUPS} groups")
                return []
            self._of[key] = groups
            self.groups += groups
        for group in self._of[key]:
            group.take(seen, len(self._of[key]) == 1)
            group.is_broadcast |= way[2] is None and max(seen.lengths) > FRAME_BYTES
        return self._of[key]

    def _private_in(self, survey: Survey) -> dict[Way, object]:
        """What tells the private groups of ways apart: of one number those of two makers, and those that a unit sends in other lengths or priorities
        to another receiver, where each frame names its receiver, or than another unit does."""
        met = {(pgn, box) for pgn, box, to in survey.ways if to is None or is_pdu2(pgn)}
        alike: dict[Way, tuple[set[int], set[int]]] = {}
        for (pgn, box, to), seen in survey.ways.items():
            lengths, priorities = alike.setdefault((pgn, box, None if (pgn, box) in met else to), (set(), set()))
            lengths.update(seen.lengths)
            priorities.update(seen.priorities)
        found: dict[Way, object] = {}
        for pgn, box, to in survey.ways:
            sender = self._units.of(box) if pgn in PROPRIETARY else None
            if sender is not None:
                lengths, priorities = alike[pgn, box, None if (pgn, box) in met else to]
                found[pgn, box, to] = pgn, self._maker(sender), frozenset(lengths), frozenset(priorities)
        return found

    def _maker(self, sender: Unit) -> object:
        """Whose a private group is: a maker's, or a unit's own, where the maker isn't known."""
        maker = sender.name >> 21 & 0x7FF
        return maker if sender.claims and maker else sender.box

    def _parts(self, way: Way, sender: Unit) -> list[Part]:
        """The groups of a number in the first known plan that has it; private ones where it sends them on this way."""
        for source in self._known:
            found = [part for part in source["group"] if part.number("pgn") == way[0] and
                     (way[0] not in PROPRIETARY or self._is_sent(source, part, sender, way[2]))]
            if found:
                return found
        return []

    def _is_sent(self, source: Source, group: Part, sender: Unit, to: Box | None) -> bool:
        """Whether a known plan has a unit send a group to a receiver."""
        receiver = None if to is None else self._units.of(to)
        for flow in source["flow"]:
            ends = [self._units.called.get((source.name, flow.text(end))) for end in ("from", "to")]
            if flow.text("group") == group.label and ends == [sender.box, receiver.box if receiver else None]:
                return True
        return False

    def _label(self, pgn: int, part: Part | None, sender: Unit, selected: str = "") -> str:
        """What a group is called: as in the known plan, else by its number, and by what selects it."""
        if part is not None:
            return self._labels.label(part.label)
        return self._labels.label((f"PGN_{pgn}_{sender.label}" if pgn in PROPRIETARY else f"PGN_{pgn}") + selected)
