"""What the program and the hints say of the files that are open, at the keys where it belongs."""

from __future__ import annotations

import os
import re
import tempfile
from collections.abc import Iterable, Iterator

from j39plan import program
from j39plan.editor.documents import Document, Documents
from j39plan.editor.protocol import Object
from j39plan.plan.answer_places import PlacedPart, placed
from j39plan.plan.code_quality import name_of
from j39plan.plan.further_faults import further_faults
from j39plan.plan.hints import variants
from j39plan.plan.hints.lint import Lint
from j39plan.plan.parts import Source
from j39plan.plan.reference import Reference
from j39plan.plan.toml_places import Place
from j39plan.vehicle.answers import answered, refuse_missing
from j39plan.vehicle.files import plan_file

# How grave it is, as the protocol numbers it.
ERROR, INFORMATION = 1, 3

SOURCE = "j39plan"

# A key that a hint names, and lines that it refers to.
KEY = re.compile(r"\bkey (\w+)|^(?:also )?(\w+)(?: = | isn't|:)")
LINES = re.compile(r"\bat line (\d+)")

# What is said of a vehicle whose plan isn't there.
NO_PLAN = re.compile(r".*?:(\d+): (.*)", re.DOTALL)

# What is to be shown of files, by their URIs.
Shown = dict[str, list[Object]]


def keys_in(part: PlacedPart) -> Iterator[str]:
    """The keys that an answer may be about, the likeliest first."""
    for said in (part.hint, part.answer):
        yield from (word for found in KEY.finditer(said) for word in found.groups() if word)
    yield from reversed(re.findall(r"[a-z_]+", part.answer))


def span_of(document: Document, line: int, keys: Iterable[str]) -> tuple[int, int]:
    """Where the first of some keys stands in a line, counted from 1, with its value; else all that stands in the line, without a comment."""
    places = document.source.places
    begin = document.lines.start_of(line - 1)
    end = document.lines.end_of(line - 1) if begin < len(document.text) else begin
    here: dict[Place, tuple[int, int]] = {place: (first, last) for place, (first, last, _) in places.pairs.items() if begin <= first <= end}
    for key in keys:
        found = next((span for place, span in here.items() if place[-1] == key), None)
        if found is not None:
            return found
    if len(here) == 1:
        return next(iter(here.values()))
    said = document.text[begin:end]
    whole = re.sub(r"\s+#[^\"']*$", "", said).rstrip()
    return begin + len(said) - len(said.lstrip()), max(begin + len(whole), begin)


def related(document: Document, part: PlacedPart, span: Object) -> list[Object]:
    """The lines that a hint refers to, the steps of a run that shows a finding, and the vehicles of a line that have it."""
    found = []
    for line in dict.fromkeys(int(number) for number in LINES.findall(part.hint)):
        begin, end = span_of(document, line, ())
        found.append({"location": {"uri": document.uri, "range": document.lines.range(begin, end)}, "message": document.text[begin:end]})
    return found + [{"location": {"uri": document.uri, "range": span}, "message": text.strip()} for text in part.all_below]


def diagnostic(document: Document, part: PlacedPart, severity: int) -> Object:
    """A part of an answer, at its keys."""
    span = document.lines.range(*span_of(document, part.line or 1, keys_in(part)))
    name = re.match(r"[FG]\d+", part.answer)
    text = part.text.removeprefix("hint ").removeprefix("also ")
    found = {"range": span, "severity": severity, "source": SOURCE, "code": name.group() if name else name_of(part.answer), "message": text,
             "relatedInformation": related(document, part, span)}
    return {**found, "data": part.answer} if name else found


def of_plan(document: Document, reference: Reference | None) -> list[Object]:
    """What is to be shown of a plan: findings or refusals; of one that can be read hints too."""
    data = document.text.encode(errors="replace")
    with program.file_of(document.text) as plan:
        status, answer = program.call(["check", "--", plan])
    parts = [part for part in placed(data, answer) if part.line is not None]
    found = [diagnostic(document, part, ERROR) for part in (*parts, *further_faults(data, parts))]
    if status in (0, 1):
        source = Source(document.text)
        told = [*(variants.nowhere(source) if source["choice"] else ()), *Lint(source).hints()]
        hints = [PlacedPart(line, f"hint {text}", "", []) for line, text in sorted(told)] + (reference.differences(source, False) if reference else [])
        found += [diagnostic(document, hint, INFORMATION) for hint in hints]
    elif not found:
        found.append(diagnostic(document, PlacedPart(1, answer.strip() or "j39plan gives no answer", "", []), ERROR))
    return found


class Copied:
    """A vehicle as it stands in the editor, in a folder of its own in which the plans of its buses are files too, as they are open or else as they
    lie on the disk."""

    def __init__(self, folder: str, document: Document, documents: Documents) -> None:
        self.name = os.path.join(folder, "vehicle.toml")
        self.files: dict[str, tuple[str, str]] = {}
        places, pieces, text = document.source.places, [], document.text
        for number, bus in enumerate(places.elements(("bus",)), 1):
            plan = (*bus, "plan")
            if places.texts.get(plan):
                named, copy = places.texts[plan], os.path.join(folder, f"{number}.toml")
                self.files[copy] = os.path.normpath(plan_file(document.path, named)), named
                self._copy(copy, documents)
                pieces.append((*places.values[plan], f'"{number}.toml"'))
        for begin, end, new in reversed(sorted(pieces)):
            text = text[:begin] + new + text[end:]
        self.data = text.encode(errors="replace")
        with open(self.name, "wb") as file:
            file.write(self.data)

    def _copy(self, copy: str, documents: Documents) -> None:
        """Makes the file of a plan, unless there is none."""
        path, _ = self.files[copy]
        document = documents.by_path(path)
        if document is not None and document in documents.open.values():
            with open(copy, "w", encoding="utf-8", errors="replace", newline="") as file:
                file.write(document.text)
        else:
            os.symlink(path, copy)

    def renamed(self, text: str) -> str:
        """A text with the names of the plans as the vehicle has them."""
        for copy, (_, named) in self.files.items():
            text = text.replace(copy, named).replace(f'"{os.path.basename(copy)}"', f'"{named}"')
        return text

    def in_words(self, part: PlacedPart) -> PlacedPart:
        """A part of an answer with these names."""
        return part._replace(answer=self.renamed(part.answer), hint=self.renamed(part.hint))


def of_vehicle(document: Document, documents: Documents) -> Shown:
    """What is to be shown of a vehicle, and of those of its plans that aren't open."""
    shown: Shown = {document.uri: []}
    with tempfile.TemporaryDirectory() as folder:
        copied = Copied(folder, document, documents)
        try:
            if not all(map(os.path.exists, copied.files)):
                refuse_missing(copied.name, copied.name, Source(copied.data.decode()))
            _, parts, further = answered(copied.name, copied.name, copied.data)
        except program.Refused as refused:
            found = NO_PLAN.fullmatch(copied.renamed(str(refused)))
            parts, further = [], []
            line, text = (int(found.group(1)), found.group(2)) if found else (1, str(refused) or "j39plan gives no answer")
            shown[document.uri].append(diagnostic(document, PlacedPart(line, text, "", []), ERROR))
        for file, _, part in (*parts, *further):
            path = document.path if file == copied.name else copied.files[file][0]
            other = documents.by_path(path) if part.line is not None else None
            if other is not None and (other is document or other.uri not in documents.open):
                shown.setdefault(other.uri, []).append(diagnostic(other, copied.in_words(part), ERROR))
    return shown


def shown_of(document: Document, documents: Documents, reference: Reference | None) -> Shown:
    """What is to be shown of a file that is open, and of others by it."""
    return of_vehicle(document, documents) if document.is_vehicle else {document.uri: of_plan(document, reference)}
