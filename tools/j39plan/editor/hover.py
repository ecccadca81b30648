"""What an editor shows where the mouse or the cursor rests: keys, groups with their bytes and times, units, PGNs and SPNs of a reference."""

from __future__ import annotations

from collections.abc import Iterator
from functools import cached_property
from itertools import groupby
from string import ascii_letters

from j39plan import program
from j39plan.editor.documents import Document, Documents
from j39plan.editor.labels import named_at
from j39plan.editor.protocol import Object
from j39plan.editor.reference import Known
from j39plan.editor.rules import described, rule_at
from j39plan.j1939 import NAME_FIELDS, is_pdu2
from j39plan.plan.answers import Load, Stand, load_of, stands
from j39plan.plan.parts import Source
from j39plan.plan.tables import Flow, Group, Signal, Unit
from j39plan.plan.toml_places import Place, table_of
from j39plan.text_tables import aligned

# The signals of a group for which a map has letters.
LETTERS = ascii_letters[26:] + ascii_letters[:26]


class Answered:
    """A text that can be read as a plan, and what the program answers of it, asked once and only where it is wanted."""

    def __init__(self, text: str) -> None:
        self._text = text
        self.tables = Source(text).tables

    def _answer(self, command: str) -> str:
        with program.file_of(self._text) as plan:
            return program.call([command, "--", plan])[1]

    @cached_property
    def stands(self) -> dict[str, Stand]:
        """Where its units stand."""
        return stands(self._answer("addresses"))

    @cached_property
    def load(self) -> Load | None:
        """The times of its flows and needs."""
        return load_of(self._answer("load"))


class Answers:
    """What the program answers of the plans that are open, as they were when they could be read last."""

    def __init__(self) -> None:
        self._known: dict[str, tuple[str, Answered | None]] = {}

    def of(self, document: Document) -> Answered | None:
        """What it answers of a plan; None of one that could never be read."""
        text, known = self._known.get(document.path, (None, None))
        if text != document.text:
            with program.file_of(document.text) as plan:
                status, _ = program.call(["check", "--", plan])
            known = Answered(document.text) if status in (0, 1) else known
            self._known[document.path] = document.text, known
        return known


def in_ms(time: int) -> str:
    """A time of the program in ms."""
    return f"{time / 1000:g} ms"


def within(time: int | None, late: int | None, limit: int) -> str:
    """A time that is shown, else the longer one that is known, and what it may be."""
    if time is not None:
        return f"{in_ms(time)} at most, of {in_ms(limit)}"
    return f"{in_ms(late)}, more than {in_ms(limit)}" if late is not None else f"more than {in_ms(limit)}, for all that is shown"


def map_of(group: Group) -> Iterator[str]:
    """The bytes of a group as a map: of each byte its bits, the highest first, by the letter of the signal that has it; then what each letter is.
    Bytes that are as the one before aren't repeated."""
    owners: dict[int, str] = {}
    parts = [*((signal.shown, signal.span) for signal in group.signals),
             *((text.label, range(8 * text.byte - 8, 8 * text.places(group.most).stop - 8)) for text in group.texts)]
    letters = {label: LETTERS[number % len(LETTERS)] for number, (label, _) in enumerate(parts)}
    for label, span in parts:
        owners.update({bit: letters[label] if bit not in owners else "!" for bit in span})
    yield "byte   8 7 6 5 4 3 2 1"
    rows = [(byte, " ".join(owners.get(8 * byte - 1 - bit, ".") for bit in range(8))) for byte in range(1, group.most + 1)]
    for said, some in groupby(rows, key=lambda row: row[1]):
        first, *_, last = [byte for byte, _ in some] * 2
        yield f"{first if first == last else f'{first}-{last}':<7}{said}"
    yield from aligned(("", "signal", "place", "means"), [
        (letters[signal.shown], signal.shown, f"{signal.byte}.{signal.bit}, {signal.bits} bits", meaning(signal)) for signal in group.signals])


def meaning(signal: Signal) -> str:
    """What the raw number of a signal means."""
    scaled = f"{'' if signal.step == 1 else f'{signal.step} * '}raw"
    shifted = f"{scaled} {'+' if signal.offset >= 0 else '-'} {abs(signal.offset)}" if signal.offset else scaled
    value = shifted if signal.per == 1 else f"({shifted}) / {signal.per}" if signal.offset else f"{shifted} / {signal.per}"
    return " ".join(filter(None, (signal.kind, value if signal.kind != "dtc" else "", signal.unit, "" if signal.spn is None else f"SPN {signal.spn}")))


def flow_line(flow: Flow, load: Load | None) -> str:
    """A flow with its times."""
    delay = next((delay for delay in load.delays if delay.flow == flow.number), None) if load else None
    every = f", each {flow.period} ms" if flow.period else ", on request" if flow.on_request else ""
    bound = f": on the bus after {within(delay.within, delay.late, delay.limit)}" if delay and delay.limit is not None else ""
    return f"- from {flow.sender} to {flow.to}{every}{bound}"


def of_group(answered: Answered, label: str) -> Iterator[str]:
    """A group: its bytes, who sends it, and how old it is where it is needed."""
    group = next((group for group in answered.tables.groups if group.label == label), None)
    if group is None:
        return
    length = f"{group.length} bytes" if group.length == group.most else f"{group.length} to {group.most} bytes"
    yield f"**group {label}**: PGN {group.pgn} ({group.pgn:04X} hex), priority {group.priority}, {length}"
    yield "\n```text\n" + "\n".join(line.rstrip() for line in map_of(group)) + "\n```\n"
    load = answered.load
    yield from (flow_line(flow, load) for flow in answered.tables.flows if flow.group == label)
    for number, need in enumerate(answered.tables.needs, 1):
        if need.group == label:
            age = next((age for age in load.ages if age.need == number), None) if load else None
            old = f": as old as {within(age.age, age.old, age.limit)}" if age else ""
            yield f"- needed by {need.unit}{f' ({need.signal})' if need.signal else ''}{old}"


def of_signal(answered: Answered, label: str, group: str) -> Iterator[str]:
    """A signal: where it lies and what it means."""
    signals = (one for other in answered.tables.groups if other.label == group for one in other.signals)
    for signal in (signal for signal in signals if signal.label == label):
        yield f"**signal {label}** of {group}: {signal.byte}.{signal.bit}, {signal.bits} bits, {meaning(signal)}"
        yield from (f"- {raw} {name}" for raw, name in sorted(signal.values.items()))


def standing(unit: Unit, stands_at: dict[str, Stand]) -> str:
    """Whether a unit stays at its address."""
    stand = stands_at.get(unit.label)
    return "" if stand is None else ", where it stays in every run" if stand.stays else ", from which it may have to go"


def of_unit(answered: Answered, label: str) -> Iterator[str]:
    """A unit: its address, and its NAME by fields."""
    unit = next((unit for unit in answered.tables.units if unit.label == label), None)
    if unit is None:
        return
    yield f"**unit {label}**: address {unit.address} ({unit.address:02X} hex){standing(unit, answered.stands)}"
    yield f"\nNAME {unit.name}\n"
    fields = ((key.replace("_", " "), str(unit.fields.get(key, "any"))) for key, _, _ in NAME_FIELDS if key != "arbitrary")
    yield "\n".join(f"- {key} {number}" for key, number in fields)
    yield f"- arbitrary address capable: {'yes' if unit.may_choose else 'no'}"


def of_number(known: Known, key: str, number: int) -> Iterator[str]:
    """A PGN or an SPN, by the reference too."""
    if key == "pgn":
        yield f"**PGN {number}** ({number:04X} hex), {'PDU2: to all' if is_pdu2(number) else 'PDU1: to one unit or to all'}"
        if group := known.groups.get(number):
            yield group.shown
            yield from (f"- SPN {signal.spn} {signal.name}: {signal.shown}" for signal in group.signals)
    for group, signal in known.signals.get(number, ()) if key == "spn" else ():
        yield f"**SPN {number}** {signal.name}: {signal.shown}; in {group.shown}"


class Hover:
    """What is shown of a place in a file."""

    def __init__(self, documents: Documents, answers: Answers, known: Known) -> None:
        self._documents, self._answers, self._known = documents, answers, known

    def at(self, document: Document, at: int) -> Object | None:
        """What is shown of a place, None where there is nothing to be said."""
        text = "\n".join(self._said(document, at))
        return {"contents": {"kind": "markdown", "value": text}} if text else None

    def _said(self, document: Document, at: int) -> Iterator[str]:
        named = named_at(document, at)
        if named is not None:
            plan = self._documents.by_path(named.thing.path)
            yield from self._of_thing(plan, named.thing.kind, named.thing.label, named.thing.group) if plan and not plan.is_vehicle else ()
            return
        key = document.key_at(at)
        if key is not None and (rule := rule_at(document, key)):
            yield f"**{key[-1]}**: {described(rule)}"
        elif (value := document.value_at(at)) is not None and (number := document.source.places.number(value)) is not None:
            yield from of_number(self._known, str(value[-1]), number)
        elif key is None:
            yield from self._of_header(document, at)

    def _of_thing(self, plan: Document, kind: str, label: str, group: str) -> Iterator[str]:
        """What is shown of what has a label in a plan."""
        answered = self._answers.of(plan)
        if answered is not None and kind == "signal":
            yield from of_signal(answered, label, group)
        elif answered is not None and kind in ("group", "unit"):
            yield from (of_group if kind == "group" else of_unit)(answered, label)

    def _of_header(self, document: Document, at: int) -> Iterator[str]:
        """What is shown of a header: of a unit, a group or a signal the same as of its label."""
        line = document.lines.position(at)["line"]
        places = document.source.places
        header: Place = next((place for begin, place in places.headers if document.lines.position(begin)["line"] == line), ())
        label = places.texts.get((*header, "label"), "")
        if header and label and not document.is_vehicle:
            yield from self._of_thing(document, table_of(header), label, places.texts.get((*header[:2], "label"), ""))
