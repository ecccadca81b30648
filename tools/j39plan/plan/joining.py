"""One plan of several: what they agree on once, and what they don't by its files and lines."""

from __future__ import annotations

from collections.abc import Iterable, Iterator
from typing import NamedTuple

from j39plan.j1939 import FRAME_BYTES, PROPRIETARY, is_pdu2
from j39plan.left_out import plain
from j39plan.plan import scales
from j39plan.plan.parts import Part, Source, spelled
from j39plan.plan.schema import Value, arrays, keys_of
from j39plan.plan.text import Labels

# Keys that say something more where they stand: one plan may have them where another one is silent. Without any other key a
# plan says something too: its default, or that there is one length alone.
OPEN = frozenset(("period", "deadline", "pause", "within", "spn", "values"))

# The arrays of tables of a line of vehicles: its choices, and what isn't built.
OF_LINES = ("choice", "never")

# The keys by which flows and other tables without labels are told apart, each with the array that its label is of.
TOLD_BY = {"group": "group", "from": "unit", "to": "unit", "unit": "unit", "signal": ""}


class Remark(NamedTuple):
    """Something that is to be said of the files: where it stands, and what it is."""

    at: str
    text: str


def whole(value: Value) -> int:
    """The number that a value is, 0 of one that isn't there."""
    return value if isinstance(value, int) else 0


def several(value: Value) -> list[Value]:
    """The elements of an array, none of one that isn't there."""
    return value if isinstance(value, list) else []


class JoinedTable:
    """A table of the joined plan: where it is from, its keys, each with the part that says it, and the tables in it."""

    def __init__(self, first: Part, label: str = "") -> None:
        self.first, self.origins = first, [first]
        self.keys: dict[str, Part] = dict.fromkeys(first.said, first)
        self.values: dict[str, Value] = dict(first.said)
        if label:
            self.values["label"] = label
        self.remarks: dict[str, list[str]] = {}
        self.inside: dict[str, list[JoinedTable]] = {}

    @property
    def label(self) -> str:
        """Its label in the joined plan."""
        return str(self.values.get("label", ""))

    def of(self, key: str) -> tuple[Value, Part]:
        """What a key is, by its default where it isn't said, and the part that says it."""
        part = self.keys.get(key, self.first)
        return part[key], part

    def take(self, part: Part, keys: Iterable[str]) -> None:
        """Takes keys as a part has them: those that it doesn't say aren't there any more."""
        for key in keys:
            self.values.pop(key, None)
            if key in part.said:
                self.values[key], self.keys[key] = part.said[key], part

    def remark(self, key: str, text: str) -> None:
        """Puts a remark behind a key."""
        if text and text not in self.remarks.setdefault(key, []):
            self.remarks[key].append(text)


def name_of(part: Part) -> str:
    """What a table is called in what is said of it."""
    if part.label or part.table in ("choice", "never"):
        return f"{part.table} {part.label or ' '.join(map(str, part.values('of')))}"
    return " ".join([part.table, *(f"{key} {part.text(key)}" for key in TOLD_BY if key in part.said)]).replace("flow group ", "flow ")


def parts_of(key: str, one: Value, other: Value) -> Iterator[tuple[str, Value, Value]]:
    """What differs in two values: of tables the keys in them that do."""
    if isinstance(one, dict) and isinstance(other, dict):
        for inner in dict.fromkeys([*one, *other]):
            if one.get(inner) != other.get(inner):
                yield f"{key}.{inner}", one.get(inner), other.get(inner)
    else:
        yield key, one, other


class Join:
    """A plan in the making. What contradicts an earlier file is told, and left out. Of units that are the same the other label is that of the one."""

    def __init__(self, sources: list[Source], same: dict[str, str] | None = None) -> None:
        self.sources, self._same = sources, same or {}
        self.contradictions: list[Remark] = []
        self.notes: list[Remark] = []
        self.top = JoinedTable(sources[0].top)
        self.arrays: dict[str, list[JoinedTable]] = {array: [] for array in (*OF_LINES, *(array for array in arrays() if array not in OF_LINES))}
        self._labels = {array: Labels() for array in ("unit", "group")}
        self._called: dict[tuple[Source, str, str], str] = {}  # of a file, an array and a label there: the label here
        self._told: dict[tuple[object, ...], JoinedTable] = {}  # flows and the like by what tells them apart
        for number, source in enumerate(sources):
            self._top(source, number)
            for choice in source["choice"]:
                self._choice(choice)
            for never in source["never"]:
                self._never(never)
            for unit in source["unit"]:
                self._unit(unit)
            for group in source["group"]:
                self._group(group)
            for array in self.arrays:
                if array not in ("unit", "group", *OF_LINES):
                    for part in source[array]:
                        self._other(array, part)
        self._opposite_ways()

    def _note(self, part: Part, text: str, key: str = "") -> None:
        self.notes.append(Remark(part.at(key), text))

    def _contradict(self, merged: JoinedTable, part: Part, key: str, text: str) -> None:
        """Says that a part contradicts an earlier one."""
        self.contradictions.append(Remark(part.at(key), text))
        merged.remark(key if key in merged.values else next(iter(merged.values), ""), f"{part.at(key)}: {text}")

    def _keys(self, merged: JoinedTable, part: Part, what: str, skipped: Iterable[str] = ()) -> None:
        """Joins the keys of a part with those that are there."""
        for key in dict.fromkeys([*keys_of(part.table), *merged.values, *part.said]):
            if key in skipped or key == "label" or key in told_by(part) or key in part.inside or key in merged.inside:
                continue
            here, by = merged.of(key)
            there = part[key]
            if key == "values":
                there = self._values(merged, part)
                here = merged.values.get(key)
            if here == there:
                if key in part.said and key not in merged.values:
                    merged.values[key], merged.keys[key] = there, part
            elif key == "with" and isinstance(here, list) and isinstance(there, list) and sorted(map(str, here)) == sorted(map(str, there)):
                continue
            elif key in OPEN and None in (here, there) or key == "with" and self._is_of_one_vehicle(by if here is None else part, here, there):
                if here is None:
                    merged.values[key], merged.keys[key] = there, part
            else:
                for inner, one, other in parts_of(key, here, there):
                    said = [f"{spelled(value)}{'' if value is None or key in them.said else ' by default'}"
                            for value, them in ((other, part), (one, by))]
                    self._contradict(merged, part, key, f"{what}: {inner} = {said[0]}, and {said[1]} at {by.at(key)}")

    @staticmethod
    def _values(merged: JoinedTable, part: Part) -> Value:
        """What a part calls raw numbers, with the names of those that it doesn't name; the joined table takes the names that it lacks."""
        here, there = merged.values.get("values"), part["values"]
        if not isinstance(here, dict) or not isinstance(there, dict):
            return there
        merged.values["values"] = in_order({**there, **here})
        return in_order({**here, **there})

    def _joined(self, merged: JoinedTable, part: Part, what: str, skipped: Iterable[str] = ()) -> None:
        """Joins a part with the table that it is of."""
        self._keys(merged, part, what, skipped)
        merged.origins.append(part)

    def _top(self, source: Source, number: int) -> None:
        """Joins what stands before the first table: of versions the latest, of strangers the most; free is kept what any plan keeps free,
        and the plan is live where any is."""
        top, said = self.top, source.top.said
        if number == 0:
            return
        top.values["version"] = max(whole(top.values["version"]), whole(said["version"]))
        kept = dict.fromkeys([*several(top.values.get("keep_free")), *several(said.get("keep_free"))])
        if kept:
            top.values["keep_free"] = list(kept)
        strangers = max(whole(top.values.get("strangers")), whole(said.get("strangers")))
        if strangers:
            top.values["strangers"] = strangers
        if said.get("live") is True:
            top.values["live"] = True
        for key in said:
            if key in ("version", "keep_free", "strangers", "live"):
                continue
            if key not in top.values:
                top.values[key], top.keys[key] = said[key], source.top
            elif source.top[key] != top.of(key)[0]:
                text = f"{key}: {spelled(said[key])}, and {spelled(top.values[key])} at {top.keys[key].at(key)}"
                self._contradict(top, source.top, key, text)

    @staticmethod
    def _is_of_one_vehicle(silent: Part, here: Value, there: Value) -> bool:
        """Whether a part doesn't say with which alternatives it is there, since its file is the plan of one vehicle."""
        return None in (here, there) and not silent.source["choice"]

    def _choice(self, choice: Part) -> None:
        """Joins a choice: one of equal alternatives is there once. An alternative is one of a single choice."""
        labels = set(choice.values("of"))
        met = next((merged for merged in self.arrays["choice"] if self._is_new(merged, choice) and not labels.isdisjoint(several(merged.values["of"]))), None)
        if met is None:
            self.arrays["choice"].append(JoinedTable(choice))
        elif labels == set(several(met.values["of"])):
            met.origins.append(choice)
        else:
            self._contradict(met, choice, "of", f"choice: of = {spelled(choice['of'])}, and {spelled(met.values['of'])} at {met.first.at('of')}")

    def _never(self, never: Part) -> None:
        """Joins what isn't built: the same is there once."""
        lists = [set(never.values(key)) for key in ("of", "but")]
        same = next((merged for merged in self.arrays["never"] if [set(several(merged.values.get(key))) for key in ("of", "but")] == lists), None)
        if same is None:
            self.arrays["never"].append(JoinedTable(never))
        else:
            same.origins.append(never)

    def _are_alternatives(self, merged: JoinedTable, part: Part) -> bool:
        """Whether no vehicle has both of two tables, as they go with other alternatives of a choice."""
        lists = several(merged.values.get("with")), part.values("with")
        for choice in self.arrays["choice"]:
            one, other = ([label for label in several(choice.values["of"]) if label in labels] for labels in lists)
            if one and other and not any(label in other for label in one):
                return True
        return False

    def _is_new(self, merged: JoinedTable, part: Part) -> bool:
        """Whether a table is of earlier files alone: what one file says twice is for `check` to find."""
        return all(origin.source is not part.source for origin in merged.origins)

    def _call(self, array: str, part: Part, merged: JoinedTable, why: str = "") -> None:
        """Notes what a part is called in the joined plan, and why, where that is another label: it is that of an earlier file."""
        self._called.setdefault((part.source, array, part.label), merged.label)
        if part.label != merged.label:
            self._note(part, f"{name_of(part)} is called {merged.label}, {why or f'as at {merged.first.at()}'}", "label")
            merged.remark("label", f"{part.label} in {part.source.name}")

    def _add(self, array: str, part: Part, wanted: str = "") -> JoinedTable:
        """A table more, under its label or the wanted one, unless another one has that."""
        merged = JoinedTable(part, self._labels[array].label(wanted or part.label))
        self._call(array, part, merged, "by --same" if merged.label == wanted else "since another one has its label")
        self.arrays[array].append(merged)
        return merged

    def _unit(self, unit: Part) -> None:
        """Joins a unit: that of its label, else one of its address that may be it by its NAME."""
        earlier = [merged for merged in self.arrays["unit"] if self._is_new(merged, unit) and (merged.label == unit.label or not self._are_alternatives(merged, unit))]
        label = self._same.get(unit.label, unit.label)
        here = next((merged for merged in earlier if merged.label == label), None)
        alike = [merged for merged in earlier if may_be_one(name_in(merged), name_in(unit))]
        here = here or next((merged for merged in alike if merged.first["address"] == unit["address"]), None)
        for same in [merged for merged in alike if merged is not here][:1]:
            text = f"{name_of(unit)} has the NAME of unit {same.label} at {same.first.at('name')}"
            unnumbered = "" if "identity" in name_in(same) and "identity" in name_in(unit) else ", whatever their numbers are"
            self._contradict(same, unit, "name", text + unnumbered)
        if here is not None:
            self._joined(here, unit, name_of(unit), ("name",))
            self._unit_name(here, unit)
            self._call("unit", unit, here)
            return
        taken = next((merged for merged in earlier if merged.first["address"] == unit["address"] and not may_choose(unit)
                      and not may_choose(merged.first)), None)
        if taken is not None:
            text = f"{name_of(unit)} is fixed at address {unit['address']}, as unit {taken.label} is at {taken.first.at('address')}"
            self._contradict(taken, unit, "address", f"{text}: --same {taken.label}={unit.label}, if they are one")
        self._add("unit", unit, label)

    def _unit_name(self, here: JoinedTable, unit: Part) -> None:
        """Joins the NAMEs of a unit. A number stays where each file has one."""
        names = name_in(here), name_in(unit)
        if len([name for name in names if "identity" in name]) == 1:
            number = next(name.pop("identity") for name in names if "identity" in name)
            said = here.values["name"]
            assert isinstance(said, dict)
            here.values["name"] = {key: value for key, value in said.items() if key != "identity"}
            self._note(unit, f"{name_of(unit)}: its identity number {number} is left away, since not each file has one", "name")
        for inner, one, other in parts_of("name", *names):
            self._contradict(here, unit, "name", f"{name_of(unit)}: {inner} = {spelled(other)}, and {spelled(one)} at {here.first.at('name')}")

    def _group(self, group: Part) -> None:
        """Joins a group: that of its number, and of makers' own ones that of its senders too."""
        earlier = [merged for merged in self.arrays["group"] if self._is_new(merged, group)]
        found = [merged for merged in earlier if merged.first["pgn"] == group["pgn"] and self._is_one(merged, group)]
        here = next((merged for merged in found if merged.label == group.label), found[0] if found else None)
        if here is None:
            other = next((merged for merged in earlier if merged.label == group.label), None)
            if other is not None and not (group["private"] and other.first["private"]):
                text = f"{name_of(group)}: pgn = {group['pgn']}, and {other.first['pgn']} at {other.first.at('pgn')}"
                self._contradict(other, group, "pgn", text)
            here = self._add("group", group)
            here.inside = {key: [JoinedTable(part) for part in parts] for key, parts in group.inside.items()}
            return
        self._joined(here, group, name_of(group))
        self._call("group", group, here)
        for key, parts in group.inside.items():
            for part in parts:
                self._inside(here, key, part)

    def _is_one(self, merged: JoinedTable, group: Part) -> bool:
        """Whether a group of the same number is this one, of which each is told by its data where they have such keys. A maker's own one is told
        by who sends it to whom, else by label and signals."""
        if merged.first["when"] != group["when"]:
            return False
        if group["pgn"] not in PROPRIETARY or not (group["private"] and merged.first["private"]):
            return True
        ways = [(self._here(group.source, "unit", flow.text("from")), self._here(group.source, "unit", flow.text("to")))
                for flow in group.source["flow"] if flow.text("group") == group.label]
        flows = [flow.values for flow in self.arrays["flow"] if flow.values["group"] == merged.label]
        first, names_nobody = merged.first, names_no_receiver(merged.first) and names_no_receiver(group)
        if any(flow["from"] == sender and (names_nobody or flow["to"] == to or "all" in (flow["to"], to))
               for flow in flows for sender, to in ways):
            return True
        one, other = (list(map(scales.meaning, them.inside.get("signal", []))) for them in (first, group))
        return first.label == group.label and one == other

    def _here(self, source: Source, array: str, label: str) -> str:
        """What the joined plan calls what a file calls so."""
        return self._called.get((source, array, label), label)

    def _inside(self, group: JoinedTable, key: str, part: Part) -> None:
        """Joins a signal or a text of a group: that of its label, else one that lies and means the same, else that of its number."""
        there = group.inside.setdefault(key, [])
        here = next((merged for merged in there if merged.label == part.label), None)
        what = f"{key} {group.label}.{part.label}"
        if here is None and key == "signal":
            here = next((merged for merged in there if scales.meaning(merged.first) == scales.meaning(part)), None)
            if here is None and part["spn"] is not None:
                here = next((merged for merged in there if self._is_new(merged, part) and merged.of("spn")[0] == part["spn"]), None)
                what += f" (spn {part['spn']}, as {here.label})" if here else ""
        if here is not None:
            if key == "signal":
                self._signal(here, part, what)
            else:
                self._joined(here, part, what)
            if part.label != here.label:
                self._called[part.source, f"signal of {group.label}", part.label] = here.label
                self._note(part, f"{what} is called {here.label}, as at {here.first.at()}", "label")
                here.remark("label", f"{part.label} in {part.source.name}")
            return
        other = next((merged for texts in group.inside.values() for merged in texts if merged.label == part.label), None)
        if other is not None:
            self._contradict(other, part, "label", f"{what} is a {other.first.table} at {other.first.at()}")
            return
        if key == "signal":
            met = next((merged for merged in there if set(scales.bits(merged.first)) & set(scales.bits(part))), None)
            if met is not None:
                text = f"{what} ({scales.shown_place(part)}) shares a bit with {met.label} ({scales.shown_place(met.first)}) at {met.first.at()}"
                self._contradict(met, part, "byte", text)
                return
        there.append(JoinedTable(part))

    def _signal(self, here: JoinedTable, part: Part, what: str) -> None:
        """Joins a signal with that of the same label; its scale counts, and not how it is written down. A unit of measurement that one file lacks
        is that of the other one."""
        unit, by = here.of("unit")
        one, other = scales.scale(by), scales.scale(part)
        is_same = one[:2] == other[:2] and ("" in (one.unit, other.unit) or scales.is_close(one, other))
        if is_same and one.unit and one.unit != other.unit:
            self._note(part, f"{what}: unit = {spelled(part['unit'])}, taken is {spelled(unit)} of {by.at('unit')}", "unit")
        elif is_same and one.unit != other.unit:
            self._note(part, f"{what}: unit = {spelled(part['unit'])} is taken, and at {by.at()} there is none", "unit")
            here.take(part, scales.SCALE_KEYS)
        self._joined(here, part, what, scales.SCALE_KEYS if is_same else ())

    def _other(self, array: str, part: Part) -> None:
        """Joins a flow, a need or another table that is told by what it names."""
        names = {key: self._here(part.source, of, part.text(key)) for key, of in TOLD_BY.items() if key in part.said}
        if "signal" in names:
            names["signal"] = self._here(part.source, f"signal of {names['group']}", names["signal"])
        key = (array, *sorted(names.items()))
        own = (*key, *sorted(map(str, part.values("with"))))
        here = self._told.get(own if part.source["choice"] else key)
        if here is not None and self._is_new(here, part):
            self._joined(here, part, name_of(part))
            return
        merged = JoinedTable(part)
        merged.values.update(names)
        self._told.setdefault(key, merged)
        self._told.setdefault(own, merged)
        self.arrays[array].append(merged)

    def _opposite_ways(self) -> None:
        """Notes where one file has a group go to all that another one has go to one unit, from the same sender."""
        flows = self.arrays["flow"]
        to_all = {(flow.values["group"], flow.values["from"]): flow for flow in flows if flow.values["to"] == "all"}
        for flow in flows:
            other = to_all.get((flow.values["group"], flow.values["from"]))
            if other is not None and flow.values["to"] != "all" and self._is_new(other, flow.first):
                text = f"{flow.values['group']} from {flow.values['from']} goes to {flow.values['to']}, and to all at {other.first.at()}"
                self._note(flow.first, f"{text}: the plan has both flows")


def told_by(part: Part) -> Iterable[str]:
    """The keys by which a table is told from others of its array, where it has no label."""
    return TOLD_BY if "label" not in keys_of(part.table) else ()


def in_order(names: dict[str, Value]) -> dict[str, Value]:
    """Names of raw numbers, in the order of these."""
    return dict(sorted(names.items(), key=lambda named: int(named[0])))


def names_no_receiver(group: Part) -> bool:
    """Whether messages of a group may go in a frame whose identifier names no receiver."""
    return is_pdu2(group.number("pgn")) and group.number("length") <= FRAME_BYTES


def name_in(unit: Part | JoinedTable) -> dict[str, Value]:
    """The NAME of a unit with its defaults."""
    part, said = (unit.first, unit.values["name"]) if isinstance(unit, JoinedTable) else (unit, unit.said["name"])
    name = part["name"]
    assert isinstance(name, dict) and isinstance(said, dict)
    return {key: value for key, value in name.items() if key != "identity" or key in said}


def may_be_one(one: dict[str, Value], other: dict[str, Value]) -> bool:
    """Whether two NAMEs may be one: they differ in nothing, or one of them has no number and they differ in nothing else."""
    names = [{key: value for key, value in name.items() if key != "identity"} for name in (one, other)]
    return names[0] == names[1] and (one.get("identity") == other.get("identity") or not ("identity" in one and "identity" in other))


def may_choose(unit: Part) -> bool:
    """Whether a unit may choose its address."""
    name = unit["name"]
    return isinstance(name, dict) and name.get("arbitrary") is True


def places_in(parts: list[Part]) -> str:
    """Where parts stand, each file once."""
    return plain(", ".join(dict.fromkeys(part.at() for part in parts)))


def key_lines(merged: JoinedTable) -> Iterator[str]:
    """The lines of a table's keys, with the comments that their files have behind them, and with what is to be remarked."""
    order = {key: at for at, key in enumerate(keys_of(merged.first.table))}
    for key, value in sorted(merged.values.items(), key=lambda pair: order.get(pair[0], len(order))):
        if key in merged.inside:
            continue
        comments = list(dict.fromkeys(comments_of(merged, key) + merged.remarks.get(key, [])))
        yield f"{key} = {spelled(value)}" + (f"  # {'; '.join(comments)}" if comments else "")


def comments_of(merged: JoinedTable, key: str) -> list[str]:
    """The comments behind a key in its files; of keys on one line the first one has them."""
    found = []
    for part in merged.origins:
        if key in part.said and not any(part.line(other) == part.line(key) for other in list(part.said)[:list(part.said).index(key)]):
            found.append(part.source.comment(part.line(key)))
    return [comment for comment in found if comment]


def table_lines(array: str, merged: JoinedTable, around: list[Part]) -> Iterator[str]:
    """The lines of a table: above it where it is from, unless that is where the table around it is from."""
    yield ""
    for part in merged.origins:
        yield from part.source.above(part.line())
    if [part.source for part in merged.origins] != [part.source for part in around]:
        yield f"# {places_in(merged.origins)}"
    yield f"[[{array}]]"
    yield from key_lines(merged)
    for key, tables in merged.inside.items():
        for table in tables:
            yield from table_lines(f"{array}.{key}", table, merged.origins)


def text_of(join: Join) -> str:
    """The text of the joined plan."""
    lines = [f"# Joined of {', '.join(plain(source.name) for source in join.sources)}.", *key_lines(join.top)]
    for array, tables in join.arrays.items():
        for merged in tables:
            lines.extend(table_lines(array, merged, []))
    return "".join(f"{line}\n" for line in lines)
