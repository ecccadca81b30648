"""What is otherwise in a new plan than in an old one, by what its tables mean."""

from __future__ import annotations

from collections.abc import Callable, Hashable, Iterable, Iterator
from typing import NamedTuple

from j39plan import program
from j39plan.plan import scales
from j39plan.plan.answer_grammar import Line, lines_of
from j39plan.plan.joining import TOLD_BY, name_of, parts_of
from j39plan.plan.parts import Part, Source, spelled
from j39plan.plan.schema import arrays, keys_of

# What tells a table from others, where its label doesn't.
Key = Callable[[Part], Hashable]


class Change(NamedTuple):
    """What is otherwise: of what, as `unit ENGINE` or `EEC1.SPN190`; which key, or `new`, `gone`, `label`; what it was and what it is, as
    the plans spell it; and the lines, None where one has none."""

    what: str
    key: str
    old: str | None
    new: str | None
    old_line: int | None
    new_line: int | None


Pairs = list[tuple[Part | None, Part | None]]


def pairs_of(olds: Iterable[Part], news: Iterable[Part], *keys: Key) -> Pairs:
    """Which table of the new plan is which of the old one: by the first key that fits, then by the next. None stands for one that isn't
    there."""
    left, found = list(olds), {}
    taken: dict[int, Part] = {}
    for key in keys:
        there: dict[Hashable, list[Part]] = {}
        for new in news:
            if id(new) not in taken:
                there.setdefault(key(new), []).append(new)
        for old in [old for old in left if id(old) not in found]:
            if others := there.get(key(old)):
                new = others.pop(0)
                found[id(old)] = new
                taken[id(new)] = old
    return [(old, found.get(id(old))) for old in left] + [(None, new) for new in news if id(new) not in taken]


def label_of(part: Part) -> str:
    """The label of a table."""
    return part.label


def name_key(unit: Part) -> str:
    """The NAME of a unit."""
    return spelled(unit["name"])


def kind_key(unit: Part) -> str:
    """The NAME of a unit without its serial number."""
    name = unit["name"]
    assert isinstance(name, dict)
    return spelled({key: value for key, value in name.items() if key != "identity"})


def text_place(text: Part) -> Hashable:
    """Where a text lies."""
    return text.number("byte"), text.number("bytes")


def fixed_key(unit: Part) -> Hashable:
    """The address of a unit that may not choose another one; one that may is like no other."""
    name = unit["name"]
    return id(unit) if isinstance(name, dict) and name.get("arbitrary") is True else unit.number("address")


INSIDE_KEYS: dict[str, tuple[Key, ...]] = {"signal": (label_of, scales.meaning), "text": (label_of, text_place)}


def inside_pairs(old: Part, new: Part, table: str) -> Pairs:
    """The signals, texts or others of two groups, paired."""
    return pairs_of(old.inside.get(table, []), new.inside.get(table, []), *INSIDE_KEYS.get(table, (label_of,)))


# Keys whose lists say the same in each order.
SETS = ("keep_free", "with", "of", "but")


def first_of(part: Part) -> Hashable:
    """The first alternative of a choice or a never; of another table itself."""
    return str(next(iter(part.values("of")), id(part)))


def alternatives_of(part: Part) -> Hashable:
    """The alternatives that a table names."""
    return tuple(frozenset(map(str, part.values(key))) for key in ("of", "but", "with"))


class PlanPair:
    """Two plans, and which of their tables are the same ones: units by label, else by NAME, else by all of it but the number, else
    by the address, where neither may choose another one; groups by label, else by their number;
    flows and others by what they name, and of a line of vehicles those first that are there with the same alternatives."""

    def __init__(self, old: Source, new: Source) -> None:
        self.old, self.new = old, new
        self.units = pairs_of(old["unit"], new["unit"], label_of, name_key, kind_key, fixed_key)
        self.groups = pairs_of(old["group"], new["group"], label_of, lambda group: (group.number("pgn"), spelled(group["when"])), lambda group: group.number("pgn"))
        self._renamed = {
            (table, old.label): new.label for table, pairs in (("unit", self.units), ("group", self.groups))
            for old, new in pairs if old is not None and new is not None
        }
        self._signals = {
            (old.label, before.label): now.label for old, new in self.groups if old is not None and new is not None
            for before, now in inside_pairs(old, new, "signal") if before is not None and now is not None
        }
        self.others = {array: pairs_of(old[array], new[array], *self._keys(array)) for array in arrays_behind()}

    def named(self, table: str, label: str) -> str:
        """What the new plan calls a unit or a group of the old one."""
        return self._renamed.get((table, label), label)

    def _keys(self, array: str) -> tuple[Key, ...]:
        """What tells a table of an array from others."""
        if array in ("choice", "never"):
            return alternatives_of, first_of
        return lambda part: (self._names(part), alternatives_of(part)), self._names

    def _names(self, part: Part) -> Hashable:
        """What a flow names, as the new plan calls it."""
        names = ((key, part.text(key)) for key in TOLD_BY if key in part.said)
        if part.source is not self.old:
            return tuple(names)
        return tuple((key, self._signals.get((part.text("group"), name), name) if key == "signal" else self.named(TOLD_BY[key], name))
                     for key, name in names)


def arrays_behind() -> list[str]:
    """The arrays of tables of the format that have no labels: flows and others."""
    return [key for key in arrays() if key not in ("unit", "group")]


def one_sided(what: str, old: Part | None, new: Part | None) -> Iterator[Change]:
    """That a table is new or gone."""
    if old is None and new is not None:
        yield Change(what, "new", None, None, None, new.line())
    elif old is not None and new is None:
        yield Change(what, "gone", None, None, old.line(), None)


def of_keys(what: str, old: Part, new: Part, skipped: Iterable[str] = ()) -> Iterator[Change]:
    """The keys of two tables that differ, those of a table in them each."""
    if old.label != new.label:
        yield Change(what, "label", old.label, new.label, old.line("label"), new.line("label"))
    for key in dict.fromkeys([*keys_of(new.table), *old.said, *new.said]):
        if key in ("label", *TOLD_BY, *skipped, *old.inside, *new.inside) or old[key] == new[key]:
            continue
        if key in SETS and set(old.values(key)) == set(new.values(key)):
            continue
        for inner, before, now in parts_of(key, old[key], new[key]):
            yield Change(what, inner, spelled(before), spelled(now), old.line(key), new.line(key))


def of_signals(what: str, old: Part, new: Part) -> Iterator[Change]:
    """How two signals differ; their place and their scale are one thing each."""
    if scales.place(old) != scales.place(new):
        yield Change(what, "place", scales.shown_place(old), scales.shown_place(new), old.line("byte"), new.line("byte"))
    before, now = scales.scale(old), scales.scale(new)
    if before != now:
        yield Change(what, "scale", before.shown, now.shown, old.line("step"), new.line("step"))
    yield from of_keys(what, old, new, (*scales.PLACE_KEYS, *scales.SCALE_KEYS))


def of_groups(old: Part, new: Part) -> Iterator[Change]:
    """How two groups differ, with what is in them."""
    yield from of_keys(name_of(new), old, new)
    for table in dict.fromkeys([*old.inside, *new.inside]):
        for before, now in inside_pairs(old, new, table):
            what = f"{table} {new.label}.{(now or before or new).label}"
            if before is None or now is None:
                yield from one_sided(what, before, now)
            else:
                yield from of_signals(what, before, now) if table == "signal" else of_keys(what, before, now)


def of_tables(matched: PlanPair) -> Iterator[Change]:
    """How units, groups, flows and others differ, in this order."""
    for pairs in (matched.units, matched.groups, *matched.others.values()):
        for old, new in pairs:
            if old is None or new is None:
                yield from one_sided(name_of(new or old or matched.new.top), old, new)
            elif new.table == "group":
                yield from of_groups(old, new)
            else:
                yield from of_keys(name_of(new), old, new)


def told_of(source: Source, lines: list[Line]) -> dict[int, Line]:
    """The lines of `load`, by the line of the file where the flow or other table stands that they are about."""
    return {source[line.kind][line.number(line.kind) - 1].line(): line for line in lines if line.kind in arrays_behind()}


def is_too_old(told: Line, most: int) -> bool:
    """Whether a need of at most so many us isn't met by what `load` says of it: an age, or that none is shown."""
    age = told.number_if_any("old" if "old" in told.parts else "age")
    return "nowhere" not in told.parts and (age is None or age > most)


def shown_age(said: str) -> str:
    """What `load` says of a need, in words."""
    if said.startswith("unmet"):
        return "unmet"
    if said == "no variant":
        return "none: no vehicle has it"
    if said.startswith("age "):
        return said.removeprefix("age ")
    return f"not shown young enough, {said.removeprefix('old ')}" if said.startswith("old of ") else f"{said.removeprefix('old ')}, too old"


class AnswerLines:
    """What the program answers about the plan in a file: where units stand, and the load."""

    def __init__(self, source: Source, plan: str) -> None:
        addresses, load = (lines_of(program.call([command, "--", plan])[1]) for command in ("addresses", "load"))
        self.stands = {line.word("unit"): line for line in addresses if line.kind == "unit"}
        self.load = next((line.text.removeprefix("load ") for line in load if line.kind == "load"), None)
        self.delays = told_of(source, load) if self.load else {}


def of_answers(matched: PlanPair, old: AnswerLines, new: AnswerLines) -> Iterator[Change]:
    """How what the program says of two plans differs: who stays at its address, the delays of flows, the load."""
    for before, now in matched.units:
        if before is not None and now is not None:
            was, comes = old.stands.get(before.label), new.stands.get(now.label)
            if was and comes and "stays" in was.parts and "stays" in comes.parts and was.parts["stays"] != comes.parts["stays"]:
                yield Change(name_of(now), "stands", was.said, comes.said, before.line(), now.line())
    for pairs in matched.others.values():
        for before, now in pairs:
            if before is not None and now is not None and old.load and new.load:
                told = (line and line.said for line in (old.delays.get(before.line()), new.delays.get(now.line())))
                is_need = now.table == "need"
                first, then = (shown_age(text) if text and is_need else text for text in told)
                if first != then:
                    yield Change(name_of(now), "age" if is_need else "delay", first, then, before.line(), now.line())
    if old.load != new.load:
        yield Change("bus", "load", old.load, new.load, None, None)


def changes_of(matched: PlanPair, old: AnswerLines, new: AnswerLines) -> Iterator[Change]:
    """All that is otherwise."""
    yield from of_keys("plan", matched.old.top, matched.new.top)
    yield from of_tables(matched)
    yield from of_answers(matched, old, new)
