"""What breaks where a new plan takes an old one's place and some unit keeps the old one: which receiver reads which signal wrongly.

What a receiver reads by its old plan is what `read` and `follow` read by it: messages of a group are those of its number and of one of
its lengths, and a signal is what lies at its place there, by its kind and its scale.
"""

from __future__ import annotations

from collections.abc import Iterable, Iterator
from typing import NamedTuple

from j39plan.plan import scales
from j39plan.plan.differences import AnswerLines, PlanPair, inside_pairs, is_too_old, shown_age
from j39plan.plan.joining import may_choose
from j39plan.plan.parts import Part, spelled

# The fields of a NAME by which one unit isn't told from another of its kind.
OWN_FIELDS = frozenset(("identity",))

# The kinds of signals of which all ones say that there is no value.
WITH_ABSENT = frozenset(("measured", "discrete", "states", "dtc"))


class Break(NamedTuple):
    """What a receiver that keeps the old plan gets wrong: of which unit's messages, which group and which signal, empty where all of
    them are meant; whether it is `wrong`, `lost`, too `old`, a `sender` that isn't found, the whole `bus` that stops, or an `address` that a unit
    may take though it is kept free; why; the lines, None where one has none; and which of the receivers need it by the old plan."""

    kind: str
    receivers: tuple[str, ...]
    sender: str
    group: str
    signal: str
    why: str
    old_line: int | None
    new_line: int | None
    needed_by: tuple[str, ...] = ()


def lengths(group: Part) -> range:
    """The lengths of a group's messages."""
    length = group.number("length")
    most = group["most"]
    return range(length, (most if isinstance(most, int) else length) + 1)


def are_apart(one: Part, other: Part) -> bool:
    """Whether no message of one group is taken for one of another of its number: they are told by the same bits, which have other numbers."""
    bits, others = one["when"], other["when"]
    if not isinstance(bits, dict) or not isinstance(others, dict):
        return False
    return bits["value"] != others["value"] and all(bits[key] == others[key] for key in ("byte", "bit", "bits"))


def shown(some: range) -> str:
    """Lengths as a text."""
    return f"{some[0]} bytes" if len(some) == 1 else f"{some[0]} to {some[-1]} bytes"


def occupied(group: Part) -> Iterator[tuple[str, set[int]]]:
    """The signals and texts of a group with their bits, those of further records too."""
    most = lengths(group)[-1]
    for signal in group.inside.get("signal", []):
        taken, every = set(scales.bits(signal)), 8 * group.number("every")
        if signal["repeated"] and every:
            first = scales.bits(signal)
            taken.update(bit + every * record for record in range(1, 8 * most // every + 1) for bit in first)
        yield signal.label, taken
    for text in group.inside.get("text", []):
        end = text.number("byte") + text.number("bytes") - 1 if text["bytes"] is not None else most
        yield text.label, set(range(8 * text.number("byte") - 8, 8 * end))


def who_has(group: Part, signal: Part) -> str:
    """The signals and texts of a group that have bits of a signal."""
    bits = set(scales.bits(signal))
    return " and ".join(label for label, taken in occupied(group) if bits & taken)


def renamed_values(old: Part, new: Part) -> list[str]:
    """The raw numbers whose name is another one. One that has a name in one plan alone is none."""
    before, now = old["values"] or {}, new["values"] or {}
    assert isinstance(before, dict) and isinstance(now, dict)
    return [f"{raw} is {spelled(now[raw])}, and not {spelled(name)}" for raw, name in before.items() if raw in now and now[raw] != name]


def of_signal(old: Part, new: Part | None, group: Part) -> tuple[str, str] | None:
    """What a receiver gets wrong of a signal that it knows by an old plan, and why; None where it reads it rightly."""
    if new is None:
        if others := who_has(group, old):
            return "wrong", f"at {scales.shown_place(old)} lies {others}"
        if old["kind"] in WITH_ABSENT:
            return "lost", "it isn't sent any more, and reads as absent"
        return "wrong", "it isn't sent any more, and reads as all ones"
    reasons = []
    if scales.place(old) != scales.place(new):
        reasons.append(f"it lies at {scales.shown_place(new)}, and not at {scales.shown_place(old)}")
    if old["kind"] != new["kind"]:
        reasons.append(f"its kind is {new['kind']}, and not {old['kind']}")
    if not scales.is_close(scales.scale(old), scales.scale(new)):
        reasons.append(f"its value is {scales.scale(new).shown}, and not {scales.scale(old).shown}")
    if old["repeated"] != new["repeated"]:
        reasons.append("it is repeated" if new["repeated"] else "it isn't repeated")
    if new["optional"] and not old["optional"]:
        reasons.append("only longer messages have it")
    reasons += renamed_values(old, new)
    return ("wrong", "; ".join(reasons)) if reasons else None


def of_text(old: Part, new: Part | None, group: Part) -> tuple[str, str] | None:
    """What a receiver gets wrong of a text."""
    if new is None:
        bits = set(range(8 * old.number("byte") - 8, 8 * old.number("byte")))
        others = " and ".join(label for label, taken in occupied(group) if bits & taken)
        return ("wrong", f"at byte {old['byte']} lies {others}") if others else ("lost", "it isn't sent any more")
    if (old["byte"], old["bytes"]) == (new["byte"], new["bytes"]):
        return None
    ends = [f"{text['bytes']} bytes" if text["bytes"] is not None else "up to the end" for text in (new, old)]
    return "wrong", f"it lies at byte {new['byte']}, {ends[0]}, and not at byte {old['byte']}, {ends[1]}"


class Layouts:
    """What receivers get wrong of a group that they know by an old plan, for each group of the new one that they take for it."""

    def __init__(self) -> None:
        self._known: dict[tuple[int, int], list[tuple[Part, Part | None, str, str, str]]] = {}

    def of(self, old: Part, new: Part) -> list[tuple[Part, Part | None, str, str, str]]:
        """Old and new table, the signal's label, what is wrong and why."""
        key = id(old), id(new)
        if key not in self._known:
            self._known[key] = list(self._found(old, new))
        return self._known[key]

    @staticmethod
    def _found(old: Part, new: Part) -> Iterator[tuple[Part, Part | None, str, str, str]]:
        before, now = lengths(old), lengths(new)
        if not set(before) & set(now):
            yield old, new, "", "lost", f"it has {shown(now)}, and not {shown(before)}"
            return
        if old["when"] not in (None, new["when"]):
            yield old, new, "", "lost", f"only messages are read that are selected by {scales.shown_when(old)}"
        if not set(now) <= set(before):
            yield old, new, "", "lost", f"it has {shown(now)}, and only messages of {shown(before)} are read"
        for table, judge in (("signal", of_signal), ("text", of_text)):
            for one, other in inside_pairs(old, new, table):
                if one is not None and (told := judge(one, other, new)):
                    yield one, other, one.label, *told
        if old["every"] != new["every"]:
            for signal in old.inside.get("signal", []):
                if signal["repeated"]:
                    why = f"its records are {new['every']} bytes apart, and not {old['every']}" if new["every"] else "its group has no records any more"
                    yield signal, new, signal.label, "wrong", why


class Breaks:
    """What breaks, flow by flow of the old plan; what becomes too old only where the answers on both are known."""

    def __init__(self, matched: PlanPair, old: AnswerLines | None = None, new: AnswerLines | None = None) -> None:
        self._matched, self._layouts, self._answers = matched, Layouts(), (old, new)
        self._units = {old.label: new for old, new in matched.units if old is not None}
        self._groups = {old.label: new for old, new in matched.groups if old is not None}
        self._old_groups = {group.label: group for group in reversed(matched.old["group"])}
        self._new_groups = {group.label: group for group in reversed(matched.new["group"])}
        self._old_labels = {new.label: old.label for old, new in matched.units if old is not None and new is not None}
        self._planned = {(flow.text("group"), flow.text("from")) for flow in matched.old["flow"]}
        self._new_flows: dict[str, list[Part]] = {}
        self._by_number: dict[object, list[Part]] = {}
        for flow in matched.new["flow"]:
            self._new_flows.setdefault(flow.text("from"), []).append(flow)
            self._by_number.setdefault(self._new_groups[flow.text("group")]["pgn"], []).append(flow)

    def found(self) -> list[Break]:
        """All that breaks; what is the same of several receivers once."""
        return self._together([*self._of_plan(), *self._of_flows(), *self._of_units(), *self._of_needs()])

    def aged(self) -> list[Break]:
        """What becomes too old."""
        return self._together(self._of_needs())

    def _together(self, found: Iterable[Break]) -> list[Break]:
        """What is the same of several receivers once."""
        together: dict[Break, list[str]] = {}
        for one in found:
            receivers = together.setdefault(one._replace(receivers=()), [])
            receivers.extend(label for label in one.receivers if label not in receivers)
        return [self._with_needs(one._replace(receivers=tuple(receivers))) for one, receivers in together.items()]

    def _with_needs(self, found: Break) -> Break:
        """What breaks, with those first who need it by the old plan."""
        needed = tuple(label for label in found.receivers if self._is_needed(label, found))
        others = tuple(label for label in found.receivers if label not in needed)
        return found._replace(receivers=needed + others, needed_by=needed)

    def _is_needed(self, unit: str, found: Break) -> bool:
        """Whether a unit needs by the old plan what breaks; of one that isn't found, anything that it sends."""
        sent = {group for group, sender in self._planned if sender == found.sender}
        return any(need.text("unit") == unit and need.text("group") in ([found.group] if found.group else sent)
                   and need.text("from") in ("", found.sender) and (not found.signal or need.text("signal") in ("", found.signal))
                   for need in self._matched.old["need"])

    def _of_plan(self) -> Iterator[Break]:
        """Another bitrate, at which nobody hears the other; and units that may take an address which is kept free only now."""
        old, new = self._matched.old.top, self._matched.new.top
        there = [(before, now) for before, now in self._matched.units if before is not None and now is not None]
        rates = [plan.inner("timing").get("bitrate") for plan in (old, new)]
        if None not in rates and rates[0] != rates[1]:
            why = f"its bitrate is {rates[1]}, and not {rates[0]}"
            lines = [plan.source.line(("timing", "bitrate")) for plan in (old, new)]
            yield Break("bus", tuple(before.label for before, _ in there), "", "", "", why, lines[0], lines[1])
        kept = [str(address) for address in new.values("keep_free") if address not in old.values("keep_free")]
        movable = tuple(before.label for before, now in there if may_choose(before))
        if kept and movable:
            why = f"{' and '.join(kept)} {'is' if len(kept) == 1 else 'are'} kept free only now"
            yield Break("address", movable, "", "", "", why, old.line("keep_free"), new.line("keep_free"))

    def _of_needs(self) -> Iterator[Break]:
        """Units whose needs become too old."""
        old, new = self._answers
        for before, now in self._matched.others.get("need", []):
            if before is None or now is None or not (old and new and old.load and new.load):
                continue
            was, age = old.delays.get(before.line()), new.delays.get(now.line())
            most = 1000 * before.number("within")
            if was and age and most and not is_too_old(was, most) and is_too_old(age, most):
                now_is = "no flow meets it" if age.said.startswith("unmet") else f"its age is {shown_age(age.said)}"
                why = f"{now_is}, it was {shown_age(was.said)}"
                yield Break("old", (before.text("unit"),), before.text("from"), before.text("group"), before.text("signal"), why,
                            before.line(), now.line())

    def _receivers(self, flow: Part) -> list[str]:
        """The units of the old plan that a flow is for, and that are in the new one too."""
        to = flow.text("to")
        labels = [to] if to != "all" else [label for label in self._units if label != flow.text("from")]
        return [label for label in labels if self._units.get(label) is not None]

    def _of_flows(self) -> Iterator[Break]:
        """What receivers get wrong of the groups that the old plan has for them."""
        for flow in self._matched.old["flow"]:
            group = self._old_groups[flow.text("group")]
            sender = self._units[flow.text("from")]
            for receiver in self._receivers(flow):
                new = self._units[receiver]
                assert new is not None
                if sender is None:
                    yield self._lost(flow, receiver, group, f"{flow.text('from')} is gone", None)
                else:
                    yield from self._of_flow(flow, group, sender, receiver, new.label)
                yield from self._of_strangers(flow, group, receiver, new.label)

    @staticmethod
    def _lost(flow: Part, receiver: str, group: Part, why: str, line: int | None) -> Break:
        return Break("lost", (receiver,), flow.text("from"), group.label, "", why, flow.line(), line)

    def _of_flow(self, flow: Part, group: Part, sender: Part, receiver: str, new_receiver: str) -> Iterator[Break]:
        """What a receiver gets wrong of a flow whose sender is there."""
        flows = [other for other in self._new_flows.get(sender.label, []) if other.text("to") in ("all", new_receiver)]
        groups = {other.text("group"): self._new_groups[other.text("group")] for other in flows}
        same = self._groups[group.label]
        heard = [other for other in groups.values() if other["pgn"] == group["pgn"] and not are_apart(group, other)]
        if not heard:
            if same is not None and same.label in groups and same["pgn"] == group["pgn"]:
                why = f"it is selected by {scales.shown_when(same)}, and not by {scales.shown_when(group)}"
                yield self._lost(flow, receiver, group, why, same.line("when"))
            elif same is not None and same.label in groups:
                yield self._lost(flow, receiver, group, f"its number is {same['pgn']}, and not {group['pgn']}", same.line("pgn"))
            else:
                yield self._lost(flow, receiver, group, "no flow sends it any more", None)
            return
        first = same if same in heard else heard[0]
        for taken in (other for other in heard if other is first or other["when"] is not None):
            yield from self._of_layout(group, taken, flow.text("from"), receiver)

    def _of_layout(self, group: Part, taken: Part, sender: str, receiver: str) -> Iterator[Break]:
        """What a receiver gets wrong that takes a group of the new plan for one that it knows by the old one."""
        for old, new, signal, kind, why in self._layouts.of(group, taken):
            yield Break(kind, (receiver,), sender, group.label, signal, why, old.line(), (new or taken).line())

    def _of_strangers(self, flow: Part, group: Part, receiver: str, new_receiver: str) -> Iterator[Break]:
        """What a receiver gets wrong of a group that others send under the same number, who didn't send it by the old plan. Makers' own
        groups are told by their senders."""
        for other in self._by_number.get(group["pgn"], []) if not group["private"] else []:
            sender, taken = other.text("from"), self._new_groups[other.text("group")]
            known = self._old_labels.get(sender, sender)
            is_for_it = other.text("to") in ("all", new_receiver) and not are_apart(group, taken)
            is_heard = is_for_it and sender != new_receiver and not taken["private"]
            if is_heard and known != flow.text("from") and (group.label, known) not in self._planned:
                yield from self._of_layout(group, taken, known, receiver)

    def _of_units(self) -> Iterator[Break]:
        """Units that aren't found any more by their address or their NAME."""
        at = {unit["address"]: unit.label for unit in reversed(self._matched.new["unit"])}
        for old, new in self._matched.units:
            if old is None or new is None:
                continue
            if old["address"] != new["address"]:
                other = at.get(old["address"])
                there = f", where {other} is" if other else ""
                why = f"it is at address {new['address']}, and not at {old['address']}{there}"
                yield from self._not_found(old, new, "address", why)
            before, now = old["name"], new["name"]
            assert isinstance(before, dict) and isinstance(now, dict)
            fields = [key for key in before if before[key] != now.get(key) and key not in OWN_FIELDS]
            if fields:
                yield from self._not_found(old, new, "name", f"its NAME has another {', '.join(fields)}")

    def _not_found(self, old: Part, new: Part, key: str, why: str) -> Iterator[Break]:
        """That those who hear a unit or send to it by the old plan don't find it."""
        for flow in self._matched.old["flow"]:
            if flow.text("from") == old.label:
                for receiver in self._receivers(flow):
                    yield Break("sender", (receiver,), old.label, "", "", why, old.line(key), new.line(key))
            elif flow.text("to") == old.label and self._units[flow.text("from")] is not None:
                yield Break("sender", (flow.text("from"),), old.label, "", "", why, old.line(key), new.line(key))
