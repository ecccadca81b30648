"""The files that an editor has open, with their texts as they stand there, saved or not."""

from __future__ import annotations

import os
from collections.abc import Iterator
from functools import cached_property
from urllib.parse import quote, unquote, urlsplit

from j39plan.editor.protocol import Lines
from j39plan.plan.hints.refusals import OF_VEHICLES
from j39plan.plan.parts import Source
from j39plan.plan.toml_places import Place
from j39plan.vehicle.files import plan_file
from j39plan.vehicle.format import OF_PLANS

# Tables of the top that plans and vehicles both have, or that a plan of a line of vehicles may have alone.
OF_LINES = ("need", "choice", "never")


def path_of(uri: str) -> str:
    """The name of a file by its URI; of one that lies in no folder, as one that was never saved, the URI itself."""
    parts = urlsplit(uri)
    return unquote(parts.path) if parts.scheme == "file" else uri


def uri_of(path: str) -> str:
    """The URI of a file."""
    return f"file://{quote(os.path.abspath(path))}" if "://" not in path else path


class Document:
    """A file with its text, which may be half written."""

    def __init__(self, uri: str, text: str, version: int | None = None) -> None:
        self.uri, self.text, self.version = uri, text, version
        self.path = path_of(uri)

    @cached_property
    def lines(self) -> Lines:
        """The lines of its text."""
        return Lines(self.text)

    @cached_property
    def source(self) -> Source:
        """Its tables and keys, as far as they are written."""
        return Source(self.text, self.path, True)

    @cached_property
    def is_vehicle(self) -> bool:
        """Whether it is a vehicle, and not a plan: by the tables of its top."""
        there = self.source.places.lines
        return any((key,) in there for key in OF_VEHICLES) and not any((key,) in there for key in OF_PLANS)

    @cached_property
    def is_ours(self) -> bool:
        """Whether it is a plan or a vehicle, or may become one, and no other file in TOML: it has a table of these, or their version, a number."""
        there = self.source.places.lines
        named = any((key,) in there for key in (*OF_PLANS, *OF_VEHICLES, *OF_LINES))
        return named or self.source.places.number(("version",)) is not None or not self.text.strip()

    @property
    def plans(self) -> dict[str, str]:
        """The files of the plans of a vehicle, by the labels of their buses."""
        texts, buses = self.source.places.texts, self.source.places.elements(("bus",))
        named = {texts.get((*bus, "label"), ""): texts.get((*bus, "plan"), "") for bus in buses}
        return {label: os.path.normpath(plan_file(self.path, plan)) for label, plan in named.items() if plan}

    def table_at(self, at: int) -> Place:
        """The place of the table in whose lines a place in the text is."""
        return next((place for begin, place in reversed(self.source.places.headers) if begin <= at), ())

    def value_at(self, at: int) -> Place | None:
        """The place of the innermost value in which a place in the text is."""
        found = [(begin, place) for place, (begin, end) in self.source.places.values.items() if begin <= at <= end]
        return max(found, key=lambda one: (one[0], len(one[1])))[1] if found else None

    def key_at(self, at: int) -> Place | None:
        """The place of the innermost key at whose name a place in the text is."""
        values = self.source.places.values
        found = [(begin, place) for place, (begin, _, _) in self.source.places.pairs.items() if begin <= at < values[place][0]]
        return max(found, key=lambda one: one[0])[1] if found else None


class Documents:
    """The files that are open, by their URIs. What a vehicle needs of others is read from the disk where they aren't open."""

    def __init__(self) -> None:
        self.open: dict[str, Document] = {}
        self._read: dict[str, tuple[float, Document]] = {}

    def by_path(self, path: str) -> Document | None:
        """The file of a name, as it is open or else as it lies on the disk; None where it can't be read."""
        path = os.path.abspath(path)
        there = next((document for document in list(self.open.values()) if document.path == path), None)
        if there is not None:
            return there
        try:
            time = os.stat(path).st_mtime
            if path not in self._read or self._read[path][0] != time:
                with open(path, encoding="utf-8", errors="replace", newline="") as file:
                    self._read[path] = time, Document(uri_of(path), file.read())
        except (OSError, ValueError):
            return None
        return self._read[path][1]

    def plan_of(self, vehicle: Document, bus: str) -> Document | None:
        """The plan of a bus of a vehicle."""
        path = vehicle.plans.get(bus)
        return self.by_path(path) if path else None

    def vehicles_of(self, plan: Document) -> Iterator[tuple[Document, str]]:
        """The open vehicles with a plan, and the label of its bus in each."""
        for vehicle in list(self.open.values()):
            if vehicle.is_vehicle:
                yield from ((vehicle, bus) for bus, path in vehicle.plans.items() if os.path.abspath(path) == plan.path)
