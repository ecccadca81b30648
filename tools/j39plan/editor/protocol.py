"""The language server protocol 3.17 as it goes over a stream: messages with a header, and positions in lines of UTF-16 units."""

from __future__ import annotations

import bisect
import json
import re
from collections.abc import Iterator
from typing import IO, Any

# A message, and parts of it, as JSON has them.
Object = dict[str, Any]

# The codes of errors that are answered (JSON-RPC 2.0, and the protocol's own).
NO_JSON, NO_REQUEST, UNKNOWN, FAULT, FAILED, CANCELLED, NOT_INITIALIZED = -32700, -32600, -32601, -32603, -32803, -32800, -32002

# So long a message is at most, in bytes, and a line of its header.
MOST, HEADER_MOST = 1 << 28, 1 << 10

LINE_END = re.compile(r"\r\n|\n|\r")


class NoMessage(Exception):
    """What comes isn't a message of the protocol, so that it isn't known where the next one begins."""


class Failed(Exception):
    """A request that can't be met: the code of the error, and why."""

    def __init__(self, code: int, why: str) -> None:
        super().__init__(why)
        self.code = code


def length_in(stream: IO[bytes]) -> int | None:
    """How many bytes the next message has, by its header; None at the end of the stream."""
    length: int | None = None
    while (line := stream.readline(HEADER_MOST)) not in (b"\r\n", b"\n"):
        if not line:
            return None
        name, _, value = line.partition(b":")
        if name.strip().lower() == b"content-length" and value.strip().isdigit():
            length = int(value)
        elif not value or not line.endswith(b"\n"):
            raise NoMessage("a line that is no header of the language server protocol: an editor starts this command")
    if length is None or length > MOST:
        raise NoMessage("a message without its length")
    return length


def messages(stream: IO[bytes]) -> Iterator[Any]:
    """The messages of a stream; one that is no JSON is None."""
    while (length := length_in(stream)) is not None:
        body = stream.read(length)
        if len(body) < length:
            return
        try:
            yield json.loads(body)
        except (ValueError, RecursionError):
            yield None


def put(stream: IO[bytes], message: Object) -> None:
    """Writes a message."""
    body = json.dumps({"jsonrpc": "2.0", **message}, ensure_ascii=False).encode(errors="replace")
    stream.write(b"Content-Length: %d\r\n\r\n%s" % (len(body), body))
    stream.flush()


class Lines:
    """The lines of a text, by which a place in it is a line and a character, both from 0, as the protocol counts: characters above FFFF hex are two."""

    def __init__(self, text: str) -> None:
        self.text = text
        self._starts = [0, *(found.end() for found in LINE_END.finditer(text))]

    def end_of(self, line: int) -> int:
        """Where a line ends, without what ends it."""
        end = self._starts[line + 1] if line + 1 < len(self._starts) else len(self.text)
        while end > self._starts[line] and self.text[end - 1] in "\r\n":
            end -= 1
        return end

    def start_of(self, line: int) -> int:
        """Where a line begins; behind the last one is the end of the text."""
        return self._starts[line] if line < len(self._starts) else len(self.text)

    def position(self, at: int) -> Object:
        """A place in the text as the protocol has it."""
        line = bisect.bisect_right(self._starts, at) - 1
        return {"line": line, "character": len(self.text[self._starts[line]:at].encode("utf-16-le", "surrogatepass")) // 2}

    def at(self, position: Object) -> int:
        """A place of the protocol in the text; one behind the end of a line is its end."""
        line = int(position["line"])
        if line >= len(self._starts):
            return len(self.text)
        said = self.text[self._starts[line]:self.end_of(line)]
        before = said.encode("utf-16-le", "surrogatepass")[:2 * int(position["character"])]
        return self._starts[line] + len(before.decode("utf-16-le", "ignore"))

    def range(self, begin: int, end: int) -> Object:
        """A part of the text as the protocol has it."""
        return {"start": self.position(begin), "end": self.position(end)}

    def changed(self, changes: list[Object]) -> str:
        """The text with the changes that an editor tells, one after another; one without a range is the whole text."""
        text = self.text
        for number, change in enumerate(changes):
            if "range" not in change:
                text = str(change["text"])
                continue
            lines = self if number == 0 else Lines(text)
            begin, end = (lines.at(change["range"][end]) for end in ("start", "end"))
            text = text[:begin] + str(change["text"]) + text[end:]
        return text
