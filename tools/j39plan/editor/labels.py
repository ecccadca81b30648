"""Labels in the files that are open: where each is given to a unit, a group, a signal or another thing, and where it is named."""

from __future__ import annotations

import re
from collections.abc import Iterator
from typing import NamedTuple

from j39plan.editor.documents import Document, Documents
from j39plan.editor.protocol import FAILED, Failed, Object
from j39plan.plan.toml_places import PLAIN, Place, table_of

# What a label may be.
LABEL = re.compile(r"[A-Za-z0-9_]{1,32}")

# Of which kind of thing a key of a plan's table names the label.
OF_PLAN = {
    ("flow", "group"): "group", ("flow", "from"): "unit", ("flow", "to"): "unit", ("request", "group"): "group", ("request", "from"): "unit",
    ("request", "to"): "unit", ("need", "group"): "group", ("need", "unit"): "unit", ("need", "from"): "unit", ("need", "signal"): "signal",
    ("never", "of"): "alternative", ("never", "but"): "alternative",
    **{(table, "with"): "alternative" for table in ("unit", "group", "flow", "need", "request")},
}

# The same of a vehicle's, and whether the label of a bus stands before it.
OF_VEHICLE = {
    ("gateway", "unit"): ("unit", True), ("forward", "gateway"): ("gateway", False), ("forward", "group"): ("group", True), ("forward", "from"): ("unit", False),
    ("forward", "at"): ("unit", False), ("forward", "as"): ("group", True), ("forward", "by"): ("unit", False), ("forward", "to"): ("unit", False),
    ("signal", "label"): ("signal", False), ("signal", "as"): ("signal", False),
    ("need", "unit"): ("unit", True), ("need", "group"): ("group", False), ("need", "signal"): ("signal", False), ("need", "from"): ("unit", True),
}

# The keys of a forward that name things of the bus on which is sent; the others name those of the one on which is heard.
SENT = ("as", "by", "to")


class Thing(NamedTuple):
    """What has a label: its kind, the file in which it gets it, and of a signal the label of its group."""

    kind: str
    path: str
    label: str
    group: str = ""


class Named(NamedTuple):
    """A place in a file, from where up to where, at which a label stands, whose that is, and whether the thing gets it there."""

    document: Document
    begin: int
    end: int
    thing: Thing
    is_given: bool = False

    @property
    def location(self) -> Object:
        """The place as the protocol has it."""
        return {"uri": self.document.uri, "range": self.range}

    @property
    def range(self) -> Object:
        """The place in its file."""
        return self.document.lines.range(self.begin, self.end)


def texts_at(document: Document, place: Place) -> Iterator[tuple[int, int, str]]:
    """Where the texts of a value are, without their quotation marks, of a text or of an array of texts; those with an escape aren't."""
    places = document.source.places
    for one in (place, *places.elements(place)):
        if one in places.texts and PLAIN.fullmatch(places.spelled[one]):
            begin, end = places.values[one]
            yield begin + 1, end - 1, places.texts[one]


def given_in(document: Document) -> Iterator[Named]:
    """The labels that things get in a file."""
    for place in document.source.places.pairs:
        table, key = table_of(place[:-1]), place[-1]
        if (table, key) == ("choice", "of"):
            kind = "alternative"
        elif key == "label" and not (document.is_vehicle and table == "signal"):
            kind = table
        else:
            continue
        group = document.source.places.texts.get((*place[:2], "label"), "") if len(place) > 3 else ""
        for begin, end, label in texts_at(document, place):
            yield Named(document, begin, end, Thing(kind, document.path, label, group), True)


def used_in_plan(document: Document) -> Iterator[Named]:
    """The labels of things that a plan names."""
    texts = document.source.places.texts
    for place in document.source.places.pairs:
        kind = OF_PLAN.get((table_of(place[:-1]), str(place[-1])))
        if kind:
            group = texts.get((*place[:-1], "group"), "") if kind == "signal" else ""
            for begin, end, label in texts_at(document, place):
                if not (kind == "unit" and label == "all"):
                    yield Named(document, begin, end, Thing(kind, document.path, label, group))


def heard_or_sent(document: Document, place: Place) -> tuple[str, str]:
    """The bus and the group that are meant at a key of a vehicle beside which these aren't said."""
    table = place[:2]
    if table[0] == "need":
        bus, _, _ = document.source.places.texts.get((*table, "unit"), "").partition(".")
        return bus, document.source.places.texts.get((*table, "group"), "")
    bus, _, group = document.source.places.texts.get((*table, "as" if place[-1] in SENT else "group"), "").partition(".")
    return bus, group


def used_in_vehicle(document: Document) -> Iterator[Named]:
    """The labels of things that a vehicle names, those of its plans too."""
    plans = document.plans
    for place in document.source.places.pairs:
        kind, has_bus = OF_VEHICLE.get((table_of(place[:-1]), str(place[-1])), ("", False))
        for begin, end, label in texts_at(document, place) if kind else ():
            bus, group = heard_or_sent(document, place)
            if has_bus:
                bus, dot, label = label.partition(".")
                yield Named(document, begin, begin + len(bus), Thing("bus", document.path, bus))
                begin += len(bus) + len(dot)
            path = document.path if kind == "gateway" else plans.get(bus, "")
            if label and not (kind == "unit" and label == "all"):
                yield Named(document, begin, end, Thing(kind, path, label, group if kind == "signal" else ""))


def named_in(document: Document) -> Iterator[Named]:
    """All labels in a file, given and named."""
    yield from given_in(document)
    yield from used_in_vehicle(document) if document.is_vehicle else used_in_plan(document)


def named_at(document: Document, at: int) -> Named | None:
    """The label at a place in a file."""
    return next((named for named in named_in(document) if named.begin <= at <= named.end), None)


class Labels:
    """Where labels are in the files that are open, and in the plans of vehicles among them."""

    def __init__(self, documents: Documents) -> None:
        self._documents = documents

    def files_with(self, thing: Thing) -> Iterator[Document]:
        """The files in which a thing may be named: its own, and of a plan's the vehicles with that."""
        own = self._documents.by_path(thing.path)
        if own is not None:
            yield own
            yield from {vehicle.uri: vehicle for vehicle, _ in self._documents.vehicles_of(own)}.values()

    def given(self, thing: Thing) -> Iterator[Named]:
        """Where a thing gets its label."""
        own = self._documents.by_path(thing.path)
        return (named for named in given_in(own) if named.thing == thing) if own is not None else iter(())

    def all(self, thing: Thing) -> Iterator[Named]:
        """Where its label is given and named."""
        return (named for document in self.files_with(thing) for named in named_in(document) if named.thing == thing)

    def renamed(self, thing: Thing, label: str) -> Object:
        """The edits by which a thing gets another label, by the URIs of the files."""
        if not LABEL.fullmatch(label) or (thing.kind, label) == ("unit", "all"):
            raise Failed(FAILED, f"{label!r} is no label: 1 to 32 ASCII letters, digits and _{', not all' * (thing.kind == 'unit')}")
        if any(self.given(thing._replace(label=label))):
            raise Failed(FAILED, f"another {thing.kind} is called {label}")
        edits: Object = {}
        for named in self.all(thing):
            edits.setdefault(named.document.uri, []).append({"range": named.range, "newText": label})
        return {"changes": edits}
