"""An editor that drives the language server in this process: it opens files, types, and asks."""

import threading
import unittest
from typing import Any

from j39plan.editor.documents import uri_of
from j39plan.editor.protocol import Lines, Object
from j39plan.editor.server import Server

# So long an answer may take before a test fails, in seconds.
PATIENCE = 60.0


class Editor:
    """What an editor does, with the texts as it has them."""

    def __init__(self, reference: str | None = None, delay: float = 0.0) -> None:
        self.messages: list[Object] = []
        self._came = threading.Condition()
        self._number = 0
        self.texts: dict[str, str] = {}
        self.server = Server(self._take, None, delay)
        self.capabilities = self.ask("initialize", {"processId": None, "initializationOptions": {"reference": reference}})["capabilities"]
        self.tell("initialized", {})
        self.server.known.wait()

    def _take(self, message: Object) -> None:
        with self._came:
            self.messages.append(message)
            self._came.notify_all()

    def tell(self, method: str, params: Object) -> None:
        """Tells the server something."""
        assert self.server.take({"jsonrpc": "2.0", "method": method, "params": params})

    def answer(self, method: str, params: Object) -> Object:
        """The whole answer to a request."""
        self._number += 1
        number = self._number
        self.server.take({"jsonrpc": "2.0", "id": number, "method": method, "params": params})
        with self._came:
            assert self._came.wait_for(lambda: any(message.get("id") == number for message in self.messages), PATIENCE), method
            return next(message for message in self.messages if message.get("id") == number)

    def ask(self, method: str, params: Object) -> Any:
        """The result of a request that is met."""
        answer = self.answer(method, params)
        assert "result" in answer, answer
        return answer["result"]

    def open(self, path: str, text: str) -> str:
        """Opens a file with a text, which needn't be the one on the disk, and answers its URI."""
        uri = uri_of(path)
        self.texts[uri] = text
        self.tell("textDocument/didOpen", {"textDocument": {"uri": uri, "languageId": "toml", "version": 1, "text": text}})
        return uri

    def change(self, uri: str, begin: int, end: int, new: str) -> None:
        """Writes something in place of a part of a text."""
        span = Lines(self.texts[uri]).range(begin, end)
        self.texts[uri] = self.texts[uri][:begin] + new + self.texts[uri][end:]
        self.tell("textDocument/didChange", {"textDocument": {"uri": uri, "version": 2}, "contentChanges": [{"range": span, "text": new}]})

    def at(self, uri: str, before: str, number: int = 0) -> Object:
        """Where a request asks: behind the text that stands before the cursor, the one of this number."""
        at = -1
        for _ in range(number + 1):
            at = self.texts[uri].index(before, at + 1)
        return {"textDocument": {"uri": uri}, "position": Lines(self.texts[uri]).position(at + len(before))}

    def part(self, uri: str, span: Object) -> str:
        """The part of a text."""
        lines = Lines(self.texts[uri])
        return self.texts[uri][lines.at(span["start"]):lines.at(span["end"])]

    def shown(self, uri: str) -> list[Object]:
        """What is shown of a file, once all is checked."""
        self.server.settle()
        told = [message["params"] for message in self.messages if message.get("method") == "textDocument/publishDiagnostics"]
        found: list[Object] = next((one["diagnostics"] for one in reversed(told) if one["uri"] == uri), [])
        return found

    def proposed(self, uri: str, before: str, number: int = 0) -> list[str]:
        """The labels of what is proposed behind a text."""
        return [item["label"] for item in self.ask("textDocument/completion", self.at(uri, before, number))["items"]]

    def hover(self, uri: str, before: str, number: int = 0) -> str:
        """What is shown of a place, empty where nothing is."""
        found = self.ask("textDocument/hover", self.at(uri, before, number))
        return str(found["contents"]["value"]) if found else ""

    def edited(self, edit: Object) -> dict[str, str]:
        """The texts as an edit makes them, by their URIs."""
        found = {}
        for uri, changes in edit["changes"].items():
            text = self.texts[uri]
            for change in sorted(changes, key=lambda one: (one["range"]["start"]["line"], one["range"]["start"]["character"]), reverse=True):
                text = Lines(text).changed([{"range": change["range"], "text": change["newText"]}])
            found[uri] = text
        return found


class WithEditor(unittest.TestCase):
    """A test with an editor."""

    reference: str | None = None

    def setUp(self) -> None:
        self.editor = Editor(self.reference)
