"""The changes that take a finding away, as an editor offers them: those of `mend`."""

from __future__ import annotations

import difflib
from collections.abc import Callable, Iterator

from j39plan.editor.documents import Document
from j39plan.editor.protocol import CANCELLED, Failed, Object
from j39plan.mend.edits import Unchangeable
from j39plan.mend.judge import Draft, Judge
from j39plan.mend.search import mends_of
from j39plan.progress import Progress


class Patience(Progress):
    """Ends the search for mends once nobody waits for them."""

    def __init__(self, is_wanted: Callable[[], bool]) -> None:
        super().__init__()
        self._is_wanted = is_wanted

    def say(self, text: str) -> None:
        """Says nothing."""
        if not self._is_wanted():
            raise Failed(CANCELLED, "nobody waits for it")


def edits_of(document: Document, text: str) -> Iterator[Object]:
    """The lines that become others, where a file gets another text."""
    before, after = document.text.splitlines(keepends=True), text.splitlines(keepends=True)
    starts = [0]
    for line in before:
        starts.append(starts[-1] + len(line))
    for tag, begin, end, first, last in difflib.SequenceMatcher(None, before, after, False).get_opcodes():
        if tag != "equal":
            yield {"range": document.lines.range(starts[begin], starts[end]), "newText": "".join(after[first:last])}


class Actions:
    """The mends of the findings of a plan, each finding of a text tried once."""

    def __init__(self) -> None:
        self._known: dict[tuple[str, str], list[tuple[str, list[Object]]]] = {}
        self._text = ""

    def of(self, document: Document, diagnostics: list[Object], is_wanted: Callable[[], bool]) -> list[Object]:
        """What is offered against these findings of a plan; the search ends where that is no longer wanted."""
        if document.text != self._text:
            self._known, self._text = {}, document.text
        draft: Draft | None = None
        found = []
        for one in diagnostics:
            finding = str(one.get("data", ""))
            if not finding.startswith("F"):
                continue
            if (document.uri, finding) not in self._known:
                draft = draft or Draft(document.text, Judge(Patience(is_wanted)))
                self._known[document.uri, finding] = list(changes_of(document, draft, finding))
            found += [action(document, one, title, edits, not number) for number, (title, edits) in enumerate(self._known[document.uri, finding])]
        return found


def changes_of(document: Document, draft: Draft, finding: str) -> Iterator[tuple[str, list[Object]]]:
    """The mends of a finding in words, with their edits."""
    if finding not in draft.findings:
        return
    for mend in mends_of(draft, finding)[0]:
        try:
            text = draft.with_change(mend.change)
        except Unchangeable:
            continue
        yield f"{mend.where}: {mend.what}" + (f" ({mend.note})" if mend.note else ""), list(edits_of(document, text))


def action(document: Document, about: Object, title: str, edits: list[Object], is_first: bool) -> Object:
    """A mend as an editor offers it; the first one of a finding is preferred."""
    return {"title": title, "kind": "quickfix", "diagnostics": [about], "isPreferred": is_first, "edit": {"changes": {document.uri: edits}}}
