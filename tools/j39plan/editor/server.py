"""The language server: what an editor tells it of its files, and what it answers."""

from __future__ import annotations

import threading
import time
import traceback
from collections.abc import Callable, Iterable
from typing import Any

from j39plan.editor.actions import Actions
from j39plan.editor.completion import Completion
from j39plan.editor.diagnostics import Shown, shown_of
from j39plan.editor.documents import Document, Documents
from j39plan.editor.hover import Answers, Hover
from j39plan.editor.labels import Labels, Named, named_at, named_in
from j39plan.editor.protocol import CANCELLED, FAILED, FAULT, NO_JSON, NO_REQUEST, NOT_INITIALIZED, UNKNOWN, Failed, Object
from j39plan.editor.reference import Known
from j39plan.editor.symbols import symbols_of

# So many seconds after the last key a file is checked.
DELAY = 0.1

# The kinds of a message that is shown to who writes: a warning.
WARNING = 2

CAPABILITIES: Object = {
    "textDocumentSync": {"openClose": True, "change": 2}, "hoverProvider": True, "definitionProvider": True, "referencesProvider": True,
    "documentHighlightProvider": True, "documentSymbolProvider": True, "renameProvider": {"prepareProvider": True},
    "completionProvider": {"triggerCharacters": ['"', "[", ".", "=", " "]}, "codeActionProvider": {"codeActionKinds": ["quickfix"]},
}


class Server:
    """Keeps the files that an editor has open, checks each a moment after its last change in a thread of its own, and answers requests. `send` puts a
    message on the way to the editor."""

    def __init__(self, send: Callable[[Object], None], reference: str | None = None, delay: float = DELAY) -> None:
        self._send, self._delay, self._lock = send, delay, threading.Lock()
        self._reference, self._state, self.status = reference, "new", 1
        self.documents, self._answers = Documents(), Answers()
        self._labels = Labels(self.documents)
        self.known = Known(None, self._warn)
        self._actions, self._actions_lock = Actions(), threading.Lock()
        self._cancelled: set[object] = set()
        self._newest: object = None
        self._due: dict[str, float] = {}
        self._shown: dict[str, set[str]] = {}
        self._change = threading.Condition()
        self._is_checking = False
        self._requests: dict[str, Callable[[Object], Any]] = {
            "textDocument/completion": self._complete, "textDocument/hover": self._hover, "textDocument/definition": self._definition,
            "textDocument/references": self._references, "textDocument/documentHighlight": self._highlight, "textDocument/rename": self._rename,
            "textDocument/prepareRename": self._prepare, "textDocument/documentSymbol": self._symbols,
        }
        self._notes: dict[str, Callable[[Object], None]] = {
            "textDocument/didOpen": self._open, "textDocument/didChange": self._changed, "textDocument/didClose": self._close,
            "$/cancelRequest": lambda params: self._cancelled.add(params.get("id")),
        }
        threading.Thread(target=self._check_all, daemon=True).start()

    def take(self, message: Any) -> bool:
        """Takes a message of the editor, and says whether further ones are awaited."""
        if not isinstance(message, dict):
            self._put({"id": None, "error": {"code": NO_JSON, "message": "no JSON object"}})
            return True
        method, params, number = message.get("method"), message.get("params") or {}, message.get("id")
        if method == "exit":
            self.status = 0 if self._state == "down" else 1
            return False
        try:
            if "id" in message and method:
                self._request(str(method), params, number)
            elif method in self._notes and self._state == "ready":
                self._notes[method](params)
        except Failed as failed:
            self._put({"id": number, "error": {"code": failed.code, "message": str(failed)}})
        except (Exception, SystemExit) as fault:  # what an editor sends, or a fault of ours, ends no work
            traceback.print_exc()
            if "id" in message:
                self._put({"id": number, "error": {"code": FAULT, "message": f"{type(fault).__name__}: {fault}"}})
        return True

    def settle(self) -> None:
        """Waits until all that was changed is checked."""
        with self._change:
            self._change.wait_for(lambda: not self._due and not self._is_checking)

    def _put(self, message: Object) -> None:
        with self._lock:
            self._send(message)

    def _warn(self, text: str) -> None:
        self._put({"method": "window/showMessage", "params": {"type": WARNING, "message": f"j39plan: {text}"}})

    def _request(self, method: str, params: Object, number: object) -> None:
        """Answers a request."""
        if method == "initialize":
            result: Any = self._initialize(params)
        elif self._state == "new":
            raise Failed(NOT_INITIALIZED, "initialize comes first")
        elif method == "shutdown":
            self._state, result = "down", None
        elif self._state == "down":
            raise Failed(NO_REQUEST, "after shutdown only exit comes")
        elif method == "textDocument/codeAction":
            self._start_actions(params, number)
            return
        elif method not in self._requests:
            raise Failed(UNKNOWN, f"{method} isn't known")
        else:
            result = self._requests[method](params)
        self._put({"id": number, "result": result})

    def _initialize(self, params: Object) -> Object:
        """Begins, with the reference that the editor names, where the command line names none."""
        options = params.get("initializationOptions")
        reference = self._reference or (options.get("reference") if isinstance(options, dict) else None)
        self.known = Known(reference or None, self._warn)
        self._state = "ready"
        self._completion, self._hovers = Completion(self.documents, self.known), Hover(self.documents, self._answers, self.known)
        return {"capabilities": CAPABILITIES, "serverInfo": {"name": "j39plan-lsp"}}

    def _document(self, params: Object) -> Document:
        """The file that a request is about."""
        uri = params["textDocument"]["uri"]
        if uri not in self.documents.open:
            raise Failed(FAILED, f"{uri} isn't open")
        return self.documents.open[uri]

    def _place(self, params: Object) -> tuple[Document, int]:
        """The file, and the place in it."""
        document = self._document(params)
        return document, document.lines.at(params["position"])

    def _open(self, params: Object) -> None:
        told = params["textDocument"]
        self._keep(Document(told["uri"], told["text"], told.get("version")))

    def _changed(self, params: Object) -> None:
        document = self._document(params)
        self._keep(Document(document.uri, document.lines.changed(params["contentChanges"]), params["textDocument"].get("version")))

    def _keep(self, document: Document) -> None:
        """Keeps a file with its new text, which is checked in a moment, with the vehicles that have it as a plan."""
        self.documents.open[document.uri] = document
        self._have_checked([document.uri, *(vehicle.uri for vehicle, _ in self.documents.vehicles_of(document))])

    def _have_checked(self, uris: Iterable[str]) -> None:
        """Has files checked in a moment."""
        with self._change:
            self._due.update(dict.fromkeys(uris, time.monotonic() + self._delay))
            self._change.notify_all()

    def _close(self, params: Object) -> None:
        """Forgets a file, and what was shown of it."""
        document = self._document(params)
        del self.documents.open[document.uri]
        with self._change:
            self._due.pop(document.uri, None)
        self._show(document.uri, {})
        self._have_checked(vehicle.uri for vehicle, _ in self.documents.vehicles_of(document))

    def _check_all(self) -> None:
        """Checks what is due, for ever."""
        while True:
            with self._change:
                self._is_checking = False
                self._change.notify_all()
                self._change.wait_for(lambda: self._due)
                uri = min(self._due, key=lambda one: self._due[one])
                wait = self._due[uri] - time.monotonic()
                if wait > 0:
                    self._change.wait(wait)
                    continue
                del self._due[uri]
                self._is_checking = True
            self._check(uri)

    def _check(self, uri: str) -> None:
        """Checks a file, and shows what is found, unless it has changed meanwhile."""
        document = self.documents.open.get(uri)
        if document is None:
            return
        try:
            shown = shown_of(document, self.documents, self.known.reference) if document.is_ours and document.text.strip() else {}
        except (Exception, SystemExit):  # a fault of ours may not keep later texts from being checked
            traceback.print_exc()
            return
        if self.documents.open.get(uri) is document:
            self._show(uri, shown)

    def _show(self, by: str, shown: Shown) -> None:
        """Shows what is found by a file, in place of what was found by it before."""
        before = self._shown.get(by, set())
        self._shown[by] = set(shown)
        for uri in sorted({by, *(other for other in {*before, *shown} if other not in self.documents.open)}):
            version = self.documents.open[uri].version if uri in self.documents.open else None
            told: Object = {"uri": uri, "diagnostics": shown.get(uri, []), **({} if version is None else {"version": version})}
            self._put({"method": "textDocument/publishDiagnostics", "params": told})

    def _complete(self, params: Object) -> Object:
        document, at = self._place(params)
        return {"isIncomplete": False, "items": self._completion.at(document, at) if document.is_ours else []}

    def _hover(self, params: Object) -> Object | None:
        document, at = self._place(params)
        return self._hovers.at(document, at) if document.is_ours else None

    def _named(self, params: Object) -> Named | None:
        """The label at a place of a plan or a vehicle."""
        document, at = self._place(params)
        return named_at(document, at) if document.is_ours else None

    def _definition(self, params: Object) -> list[Object]:
        named = self._named(params)
        return [one.location for one in self._labels.given(named.thing)] if named else []

    def _references(self, params: Object) -> list[Object]:
        named, is_whole = self._named(params), bool(params.get("context", {}).get("includeDeclaration", True))
        return [one.location for one in self._labels.all(named.thing) if is_whole or not one.is_given] if named else []

    def _highlight(self, params: Object) -> list[Object]:
        named, document = self._named(params), self._document(params)
        return [{"range": one.range} for one in named_in(document) if one.thing == named.thing] if named else []

    def _prepare(self, params: Object) -> Object | None:
        named = self._named(params)
        return {"range": named.range, "placeholder": named.thing.label} if named else None

    def _rename(self, params: Object) -> Object:
        named = self._named(params)
        if named is None:
            raise Failed(FAILED, "there is no label here")
        return self._labels.renamed(named.thing, str(params["newName"]))

    def _symbols(self, params: Object) -> list[Object]:
        document = self._document(params)
        return symbols_of(document) if document.is_ours else []

    def _start_actions(self, params: Object, number: object) -> None:
        """Looks for mends beside the work; a newer request ends the search."""
        document, context = self._document(params), params.get("context", {})
        only = context.get("only")
        if only and not any("quickfix".startswith(kind) or kind.startswith("quickfix") for kind in only) or document.is_vehicle:
            self._put({"id": number, "result": []})
            return
        self._newest = number
        threading.Thread(target=self._answer_actions, args=(document, context.get("diagnostics", []), number), daemon=True).start()

    def _answer_actions(self, document: Document, diagnostics: list[Object], number: object) -> None:
        """Answers with the mends that are found."""
        def is_wanted() -> bool:
            return number not in self._cancelled and self._newest == number and self.documents.open.get(document.uri) is document

        try:
            with self._actions_lock:
                found = self._actions.of(document, diagnostics, is_wanted) if is_wanted() else []
            answer: Object = {"result": found} if number not in self._cancelled else {"error": {"code": CANCELLED, "message": "cancelled"}}
        except Failed as failed:
            answer = {"error": {"code": failed.code, "message": str(failed)}}
        except (Exception, SystemExit) as fault:  # a fault of ours ends no work
            traceback.print_exc()
            answer = {"error": {"code": FAULT, "message": f"{type(fault).__name__}: {fault}"}}
        self._cancelled.discard(number)
        self._put({"id": number, **answer})
