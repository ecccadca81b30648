"""What may stand at a place of a half-written plan or vehicle: keys, headers, labels, words, and PGNs and SPNs of a reference."""

from __future__ import annotations

import re
from collections.abc import Iterable, Iterator
from typing import NamedTuple

from j39plan.editor.documents import Document, Documents
from j39plan.editor.labels import OF_PLAN, OF_VEHICLE, given_in, heard_or_sent
from j39plan.editor.protocol import Object
from j39plan.editor.reference import Known, KnownSignal
from j39plan.editor.rules import described, headers_of, keys_of
from j39plan.plan.schema import Rule
from j39plan.plan.scales import Scale
from j39plan.plan.text import as_label
from j39plan.plan.toml_places import Place, table_of

# The kinds of what is proposed, as the protocol numbers them.
KEY, HEADER, LABEL, WORD, NUMBER = 10, 9, 18, 14, 12

# What stands in a line before the cursor: the inner tables that are opened, a key, and what of its value is written.
INNER = re.compile(r"(\w+)\s*=\s*\[?\s*\{[^{}]*$")
PAIR = re.compile(r"(?:^|[{,\[])\s*(\w+)\s*=\s*([^={}]*)$")
BEGUN = re.compile(r"(?:^|[{,])\s*(\w*)$")
OPEN_TEXT = re.compile(r"^\[?\s*(?:\"[^\"]*\"\s*,\s*)*(\"[^\"]*|\w*)$")
HEADER_BEGUN = re.compile(r"^\s*(\[\[?[\w.]*)$")


class Context(NamedTuple):
    """Where the cursor is: in which table, of which key the value is being written (empty where a key is), and what of it is there."""

    table: Place
    key: str
    begun: str

    @property
    def kind(self) -> str:
        """What the table is called."""
        return table_of(self.table)


def context_of(document: Document, at: int) -> Context | None:
    """Where the cursor is; None where nothing can be proposed, as in a comment."""
    line = document.lines.position(at)["line"]
    before = document.text[document.lines.start_of(line):at]
    if "#" in re.sub(r"\"[^\"]*\"?", "", before):
        return None
    table = document.table_at(document.lines.start_of(line))
    inner = INNER.search(before)
    if inner:
        table = (*table, inner.group(1))
    if (pair := PAIR.search(before)) and (text := OPEN_TEXT.match(pair.group(2).lstrip())):
        return Context(table, pair.group(1), text.group(1))
    if begun := HEADER_BEGUN.match(before):
        return Context((), "", begun.group(1))
    begun = BEGUN.search(before)
    return Context(table, "", begun.group(1)) if begun else None


class Completion:
    """What is proposed in the files that are open."""

    def __init__(self, documents: Documents, known: Known) -> None:
        self._documents, self._known = documents, known

    def at(self, document: Document, at: int) -> list[Object]:
        """What is proposed at a place in a file."""
        context = context_of(document, at)
        if context is None:
            return []
        span = document.lines.range(at - len(context.begun), at)
        items = self._values(document, context) if context.key else self._keys(document, context)
        return [self._item(number, span, *item) for number, item in enumerate(items)]

    @staticmethod
    def _item(number: int, span: Object, kind: int, label: str, detail: str, text: str) -> Object:
        return {"label": label, "kind": kind, "detail": detail, "sortText": f"{number:06}", "filterText": label if kind == NUMBER else text,
                "textEdit": {"range": span, "newText": text}}

    def _keys(self, document: Document, context: Context) -> Iterator[tuple[int, str, str, str]]:
        """Headers, or the keys of a table that it doesn't have yet."""
        if context.begun.startswith("["):
            yield from ((HEADER, header, said, header) for header, said in headers_of(document).items())
            return
        said = set(document.source.places.keys(context.table))
        headers = {header.strip("[]") for header in headers_of(document)}
        if context.kind == "signal":
            yield from self._signals(document, context)
        for key, rule in keys_of(document, context.kind).items():
            full = f"{context.kind}.{key}".removeprefix(".")
            if key not in said - {context.begun} and full not in headers:
                yield KEY, key, described(rule), f"{key} = "
        if not context.table or context.table[0] in headers:
            yield from ((HEADER, header, text, header) for header, text in headers_of(document).items())

    def _signals(self, document: Document, context: Context) -> Iterator[tuple[int, str, str, str]]:
        """The signals that the reference has in a group, whole."""
        places = document.source.places
        number = places.number((*context.table[:2], "pgn"))
        if not places.keys(context.table) and number in self._known.groups:
            for signal in self._known.groups[number].signals:
                yield NUMBER, f"SPN {signal.spn} {signal.name}", signal.shown, lines_of_signal(signal)

    def _values(self, document: Document, context: Context) -> Iterable[tuple[int, str, str, str]]:
        """What a value may be."""
        labels = list(self._labels(document, context))
        if labels:
            return labels
        if context.key == "pgn":
            return [(NUMBER, f"{pgn} {group.name}", group.shown, str(pgn)) for pgn, group in sorted(self._known.groups.items())]
        if context.key == "spn":
            return list(self._numbers(document, context))
        return words_of(keys_of(document, context.kind).get(context.key, {}))

    def _numbers(self, document: Document, context: Context) -> Iterator[tuple[int, str, str, str]]:
        """The SPNs of the reference, those of the group first."""
        here = self._known.groups.get(document.source.places.number((*context.table[:2], "pgn")) or -1)
        first = {signal.spn for signal in here.signals} if here else set()
        for spn in sorted(self._known.signals, key=lambda spn: (spn not in first, spn)):
            group, signal = self._known.signals[spn][0]
            yield NUMBER, f"{spn} {signal.name}", f"{group.name}: {signal.shown}", str(spn)

    def _labels(self, document: Document, context: Context) -> Iterator[tuple[int, str, str, str]]:
        """The labels that a key may name."""
        place = (*context.table, context.key)
        if document.is_vehicle:
            kind, has_bus = OF_VEHICLE.get((context.kind, context.key), ("", False))
            yield from self._of_vehicle(document, place, kind, has_bus) if kind else ()
        else:
            kind = OF_PLAN.get((context.kind, context.key), "")
            group = document.source.places.texts.get((*context.table, "group"), "") if kind == "signal" else ""
            yield from labels_in(document, kind, group)
        if context.key == "to":
            yield LABEL, "all", "all units", '"all"'

    def _of_vehicle(self, document: Document, place: Place, kind: str, has_bus: bool) -> Iterator[tuple[int, str, str, str]]:
        """The labels of things of the vehicle, or of the plans of its buses."""
        if kind == "gateway":
            yield from labels_in(document, kind)
            return
        meant, group = heard_or_sent(document, place)
        for bus in document.plans if has_bus else [meant]:
            plan = self._documents.plan_of(document, bus)
            before = f"{bus}." if has_bus else ""
            yield from labels_in(plan, kind, group if kind == "signal" else "", before) if plan else ()


def labels_in(document: Document, kind: str, group: str = "", before: str = "") -> Iterator[tuple[int, str, str, str]]:
    """The labels of a kind in a file, each once; a signal's are those of its group."""
    things = dict.fromkeys(named.thing for named in given_in(document) if named.thing.kind == kind and named.thing.group == group)
    for thing in things:
        yield LABEL, before + thing.label, kind, f'"{before}{thing.label}"'


def words_of(rule: Rule) -> Iterator[tuple[int, str, str, str]]:
    """The words that a key may be."""
    words = rule.get("enum", ("true", "false") if rule.get("type") == "boolean" else ())
    is_text = "enum" in rule and rule.get("type") != "integer"
    for word in words:
        yield WORD, str(word), str(rule.get("description", "")), f'"{word}"' if is_text else str(word)


def kind_by_width(signal: KnownSignal) -> str:
    """Which raw numbers are values, by the rules of SAE J1939-71 on widths."""
    return "measured" if signal.place[1] in (8, 16, 32) else "discrete" if signal.place[1] == 2 else "raw"


def scale_lines(scale: Scale) -> list[str]:
    """The keys of a scale."""
    per = scale.step.denominator * scale.offset.denominator
    keys = {"step": int(scale.step * per), "per": per, "offset": int(scale.offset * per)}
    lines = [f"{key} = {number}" for key, number in keys.items() if number != (0 if key == "offset" else 1)]
    return [*lines, f'unit = "{scale.unit}"'] if scale.unit else lines


def lines_of_signal(signal: KnownSignal) -> str:
    """The keys of a signal of the reference."""
    start, bits = signal.place
    keys = [f'label = "{as_label(signal.name)}"', f"spn = {signal.spn}", f"byte = {start // 8 + 1}", *([f"bit = {start % 8 + 1}"] if start % 8 else []),
            f"bits = {bits}", f'kind = "{kind_by_width(signal)}"']
    return "\n".join(keys + (scale_lines(signal.scale) if signal.scale else []))
