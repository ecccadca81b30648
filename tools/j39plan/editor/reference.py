"""The groups and signals of a reference by their PGNs and SPNs, as completion and hover take them: those of a DBC of SAE J1939 or of a plan."""

from __future__ import annotations

import threading
from collections.abc import Callable, Iterator
from typing import TYPE_CHECKING, NamedTuple

from j39plan import program
from j39plan.dbc.reader import KINDS, FileOptions, load
from j39plan.dbc.signals import exactly, in_ascii, long_name, number_of_signal, place_of, unit_of
from j39plan.left_out import LeftOut, Unsaid
from j39plan.plan.parts import Source, source_in
from j39plan.plan.reference import UNSAID, Reference, frame_of, in_words, number_of
from j39plan.plan.scales import Scale, place, scale
from j39plan.plan.schema import VERSIONS
from j39plan.plan.text import as_label

if TYPE_CHECKING:
    import canmatrix


class KnownSignal(NamedTuple):
    """A signal of a reference: its number, its name, its first bit from 0, its width, its scale, None where that isn't known."""

    spn: int
    name: str
    place: tuple[int, int]
    scale: Scale | None

    @property
    def shown(self) -> str:
        """Where it lies and what it means."""
        return in_words(self.place) + (f", {self.scale.shown}" if self.scale else "")


class KnownGroup(NamedTuple):
    """A group of a reference: its number, its name, its priority, its length, its signals."""

    pgn: int
    name: str
    priority: int
    length: int
    signals: list[KnownSignal]

    @property
    def shown(self) -> str:
        """How it is sent."""
        return f"{self.name}: PGN {self.pgn} ({self.pgn:04X} hex), priority {self.priority}, {self.length} bytes"


def in_plan(source: Source) -> Iterator[KnownGroup]:
    """The groups of a plan that is the reference."""
    for group in source["group"]:
        frame = frame_of(group)
        told = ((signal, number_of(signal)) for signal in group.inside.get("signal", []))
        signals = [KnownSignal(number, signal.label, place(signal), scale(signal)) for signal, number in told if number is not None]
        yield KnownGroup(frame.pgn, frame.name, frame.priority, frame.lengths[0], signals)


def signal_of(signal: canmatrix.Signal) -> KnownSignal | None:
    """A signal of a message, where it has a number and a place that a plan's can have."""
    step, offset, number = exactly(signal.factor), exactly(signal.offset), number_of_signal(signal).get("spn")
    try:
        start = place_of(signal, VERSIONS[-1])
    except LeftOut:
        return None
    if number is None:
        return None
    known = Scale(step, offset, in_ascii(unit_of(signal, 1))) if step is not None and offset is not None else None
    return KnownSignal(number, as_label(long_name(signal)), (start, signal.size), None if known == UNSAID else known)


def in_file(name: str) -> Iterator[KnownGroup]:
    """The groups of a DBC, or of another file that canmatrix reads."""
    with open(name, "rb") as file:
        data = file.read()
    try:
        matrix = load(name, data, FileOptions(), Unsaid())
    except LeftOut as why:
        raise program.Refused(program.UNREADABLE, f"{name}: {why}") from why
    for frame in matrix.frames:
        identifier = frame.arbitration_id
        if identifier.extended:
            signals = [known for signal in frame.signals if (known := signal_of(signal))]
            yield KnownGroup(identifier.pgn, as_label(frame.name), identifier.j1939_priority, frame.size, signals)


class Known:
    """A reference that is read beside the work, since that takes seconds; until then it has nothing."""

    def __init__(self, name: str | None, say: Callable[[str], None]) -> None:
        self.groups: dict[int, KnownGroup] = {}
        self.signals: dict[int, list[tuple[KnownGroup, KnownSignal]]] = {}
        self.reference: Reference | None = None
        self._say = say
        self._reader = threading.Thread(target=self._read, args=(name,), daemon=True)
        if name:
            self._reader.start()

    def wait(self) -> None:
        """Waits until it is read."""
        if self._reader.ident is not None:
            self._reader.join()

    def _read(self, name: str) -> None:
        """Reads the file; that it can't be read is said, and then there is no reference."""
        try:
            is_file = name.rpartition(".")[2].lower() in KINDS
            groups: dict[int, KnownGroup] = {}
            for group in in_file(name) if is_file else in_plan(source_in(name)):
                groups.setdefault(group.pgn, group)
            reference = Reference(name)
        except (program.Refused, OSError) as why:
            self._say(f"{name}: {why.strerror}" if isinstance(why, OSError) else str(why))
            return
        for group in groups.values():
            for signal in group.signals:
                self.signals.setdefault(signal.spn, []).append((group, signal))
        self.groups, self.reference = groups, reference
