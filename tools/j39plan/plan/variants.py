"""Plans of lines of vehicles: their choices, as `show` answers them, and the text of the plan of one variant."""

import re
from collections.abc import Iterator, Sequence

from j39plan import program
from j39plan.plan.cut import HEADER
from j39plan.plan.hints.words import likely
from j39plan.plan.parts import Source, source_in
from j39plan.plan.toml_places import Places

# A line of `show` on choices.
NAMED = re.compile(r"(choice|never|unit|group|flow|need|request) (\d+) (?:of|with) (\w+)$", re.MULTILINE)

# A line of `show` on what a table names, and the labels of units and groups.
NAMES = re.compile(r"(unit|group) (\d+) (label) (\w+)$|(flow|need|request) (\d+) (group|from|to|unit) (\w+)$", re.MULTILINE)

# A key `with`, with what stands on its last line behind it.
WITH = re.compile(r"""^[ \t]*(?:with|"with"|'with')[ \t]*=[ \t]*\[(?:[^]"'#]|"[^"\n]*"|'[^'\n]*'|#[^\n]*)*\][ \t]*(?:#[^\n]*)?\r?\n?""", re.MULTILINE)

# Comments on lines of their own right above something.
ABOVE = re.compile(r"(?:^[ \t]*#[^\n]*\n)+\Z", re.MULTILINE)


# A table by the key of its array and its number.
Table = tuple[str, int]

# What lists of alternatives hold of a variant together.
Box = list[list[str]]

# What tables name, by the keys of their arrays.
KEYS = {"unit": ("label",), "group": ("label",), "flow": ("group", "from", "to"), "need": ("unit", "group", "from"), "request": ("group", "from", "to")}


class Line:
    """The choices of a plan, and what is there with which alternatives: the lists of choices, nevers and tables, and what tables name. A table's number
    counts from 1."""

    def __init__(self, named: dict[Table, list[str]], names: dict[Table, dict[str, str]]) -> None:
        self.named, self.names = named, names
        self.choices = self.lists_of("choice")
        self._labelled = {(kind, keys["label"]): (kind, number) for (kind, number), keys in names.items() if "label" in keys}

    @classmethod
    def shown(cls, text: str) -> "Line":
        """The choices by what `show` answers."""
        named: dict[Table, list[str]] = {}
        for table, number, label in NAMED.findall(text):
            named.setdefault((table, int(number)), []).append(label)
        names: dict[Table, dict[str, str]] = {}
        for words in NAMES.findall(text):
            table, number, key, label = words[:4] if words[0] else words[4:]
            names.setdefault((table, int(number)), {})[key] = label
        return cls(named, names)

    @classmethod
    def of(cls, source: Source) -> "Line":
        """The choices by the text of a plan that can be read."""
        choices = [list(map(str, choice.values("of"))) for choice in source["choice"]]
        order = [label for choice in choices for label in choice]
        named: dict[Table, list[str]] = {("choice", number): labels for number, labels in enumerate(choices, 1)}
        for number, never in enumerate(source["never"], 1):
            but = never.values("but")
            others = [label for choice in choices if not set(choice).isdisjoint(map(str, but)) for label in choice if label not in but]
            named["never", number] = sorted([*map(str, never.values("of")), *others], key=order.index)
        names: dict[Table, dict[str, str]] = {}
        for table, keys in KEYS.items():
            for number, part in enumerate(source[table], 1):
                names[table, number] = {key: part.text(key) for key in keys if key in part.said}
                if "with" in part.said:
                    named[table, number] = sorted(map(str, part.values("with")), key=order.index)
        return cls(named, names)

    def freeing(self, wanted: set[str]) -> Iterator[int]:
        """The nevers without one of which a variant with these alternatives is built."""
        for table in self.named:
            others = Line({other: labels for other, labels in self.named.items() if other != table}, self.names) if table[0] == "never" else None
            if others and others.first(wanted) is not None:
                yield table[1]

    def lists_of(self, table: str) -> list[list[str]]:
        """The lists of the tables of an array, in their order."""
        return [labels for (other, _), labels in self.named.items() if other == table]

    def is_in(self, taken: set[str], labels: Sequence[str]) -> bool:
        """Whether a variant that takes these alternatives is in the box of a list: of each choice of which this names some, it takes one of them."""
        named = ([label for label in labels if label in choice] for choice in self.choices)
        return all(not some or not taken.isdisjoint(some) for some in named)

    def first(self, wanted: set[str], boxes: Sequence[Sequence[Box]] = (), gone: Sequence[list[str]] = ()) -> set[str] | None:
        """The alternatives of the first variant that is built and takes these; that is in one of several boxes, of each group of boxes; and in the box of
        none of the lists that are gone. None where there is none."""
        nevers = [(set(never), never) for never in (*self.lists_of("never"), *gone)]
        if any(not never for never, _ in nevers):
            return None
        return self._behind(set(), wanted, 0, boxes, nevers)

    def _behind(self, taken: set[str], wanted: set[str], place: int, boxes: Sequence[Sequence[Box]], nevers: list[tuple[set[str], list[str]]]) -> set[str] | None:
        if place == len(self.choices):
            return taken
        choice, known = self.choices[place], set().union(*self.choices[:place + 1])
        for label in [label for label in choice if label in wanted] or choice:
            more = taken | {label}
            if any(never <= known and self.is_in(more, labels) for never, labels in nevers):
                continue
            if all(any(self._may_be_in(more, known, box) for box in some) for some in boxes):
                found = self._behind(more, wanted, place + 1, boxes, nevers)
                if found is not None:
                    return found
        return None

    def _may_be_in(self, taken: set[str], known: set[str], box: Box) -> bool:
        """Whether a variant that takes these of the choices that are known may be in a box."""
        return all(self.is_in(taken, [label for label in labels if label in known]) for labels in box)

    def lists(self, place: Table) -> list[tuple[Table, list[str]]]:
        """The lists by which a table is there: its own, and those of the group and the units that it names, of a need of its unit alone; each with its
        table."""
        ends = [self._labelled[key] for end, label in self._ends(place) if place[0] != "need" or end == "unit"
                if (key := ("group" if end == "group" else "unit", label)) in self._labelled]
        return [(table, labels) for table in (place, *ends) if (labels := self.named.get(table, []))]

    def box(self, place: Table) -> Box:
        """The box of a table."""
        return [labels for _, labels in self.lists(place)]

    def in_words(self, labels: Sequence[str]) -> str:
        """A list of alternatives in words, choice by choice."""
        return ", ".join(" or ".join(some) for choice in self.choices if (some := [label for label in choice if label in labels]))

    def are_together(self, *places: Table) -> bool:
        """Whether some variant that is built has all of these tables."""
        return self.first(set(), [[[labels for place in places for labels in self.box(place)]]]) is not None

    def there(self, taken: set[str]) -> set[Table]:
        """The tables that the plan of a variant has."""
        found = {place for place in self.names if self.is_in(taken, self.named.get(place, ()))}
        labels = {table: {self.names[place]["label"] for place in found if place[0] == table} for table in ("unit", "group")}
        labels["unit"].add("all")
        return {place for place in found if all(label in labels["group" if key == "group" else "unit"] for key, label in self._ends(place))}

    def _ends(self, place: Table) -> Iterator[tuple[str, str]]:
        return ((key, label) for key, label in self.names[place].items() if key != "label")


def parts_of(text: str) -> Iterator[tuple[str, str, bool]]:
    """The parts of a plan's text: what stands before the first header, and each table with the comments right above it; with the first key of its
    header, and whether an element of an array begins with it. Fails where a header is spelled so that its keys aren't known."""
    begin, key, is_element = 0, "", False
    for at in Places(text).statements:
        if text[at] == "[":
            found = HEADER.match(text, at)
            if found is None:
                raise ValueError
            above = ABOVE.search(text, begin, at)
            end = above.start() if above else at
            yield text[begin:end], key, is_element
            begin, key, is_element = end, found[1], text.startswith("[[", at) and found[2] is None
    yield text[begin:], key, is_element


def variant_text(text: str, there: set[Table], has_its_lines: bool = False) -> str | None:
    """A plan's text without the tables that aren't there and without the keys of choices, with empty lines in their places where what stays is to
    have its lines; None where its tables aren't spelled by headers."""
    def gone(part: str) -> str:
        return "\n" * part.count("\n") if has_its_lines else ""

    counts: dict[str, int] = {}
    kept: list[str] = []
    try:
        for part, key, is_element in parts_of(text):
            counts[key] = counts.get(key, 0) + is_element
            if key in ("unit", "group", "flow", "need", "request"):
                kept.append(WITH.sub(lambda found: gone(found[0]), part) if (key, counts[key]) in there else gone(part))
            else:
                kept.append(gone(part) if key in ("choice", "never") else part)
    except ValueError:
        return None
    return "".join(kept)


def shown_variant(plan: str, labels: Sequence[str]) -> str:
    """What `variant` answers; a plan that can't be read, or alternatives that aren't built together, are refused by it."""
    status, answer = program.call(["variant", "--", plan, *labels])
    if status != 0:
        why = why_not(source_in(plan), labels) if answer.startswith("refused variant ") else ""
        raise program.Refused(status, answer.strip() + (f"  ({why})" if why else ""))
    return answer


def why_not(plan: Source, labels: Sequence[str]) -> str:
    """Why no vehicle of a plan is built with these alternatives: the label that none has, two of one choice, or the never that forbids them."""
    line = Line.of(plan)
    known = [label for choice in line.choices for label in choice]
    if strange := next((label for label in labels if label not in known), ""):
        return f"no choice has {strange}{likely(strange, known)}"
    for choice in line.choices:
        some = [label for label in labels if label in choice]
        if len(some) > 1:
            return f"{some[0]} stands there twice" if some[0] == some[1] else f"{some[0]} and {some[1]} are of one choice"
    number = next(line.freeing(set(labels)), None)
    if number is None:
        return "several nevers together forbid that"
    return f"the never at line {plan.line(('never', number))} forbids {line.in_words(line.named['never', number]).replace(', ', ' with ')}"


def line_of(plan: str) -> Line:
    """The choices of a plan's file."""
    return Line.shown(program.values(plan))


def text_of_variant(plan: str, labels: Sequence[str], has_its_lines: bool = False) -> str:
    """The text of the plan of the first vehicle that is built and has these alternatives, by a plan's file. It is compared with what `variant` answers."""
    wanted = shown_variant(plan, labels)
    line = line_of(plan)
    taken = line.first(set(labels))
    with open(plan, encoding="utf-8", newline="") as file:
        written = variant_text(file.read(), line.there(taken), has_its_lines) if taken is not None else None
    if written is None:
        raise program.Refused(program.FAULT, "the tables of the plan aren't written by headers as [[unit]]")
    with program.file_of(written) as one:
        if program.shown(one) != wanted:
            raise program.Refused(program.FAULT, "what was written isn't the plan of the variant")
    return written
