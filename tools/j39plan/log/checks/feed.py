"""What of the lines of a log `follow` doesn't say: error frames, and in a plan with `timing` those with an 11-bit identifier; the priority of claims and
requests where it is higher than that of what isn't planned; and the bytes of acknowledgements."""

from __future__ import annotations

import re
from collections import deque
from collections.abc import Iterator
from typing import NamedTuple, Protocol

from j39plan.j1939 import ACKNOWLEDGEMENT, ADDRESS_CLAIMED, GLOBAL_ADDRESS, REQUEST, destination_in, pgn_in
from j39plan.log.checks.lines import FRAME, first_word
from j39plan.log.checks.meter import Meter
from j39plan.log.checks.twice import Twice
from j39plan.log.files import LINE_MOST, interface_of
from j39plan.plan.tables import Timing

# A line with a frame of an 11-bit identifier.
SHORT = re.compile(rb"(?:^|[ \t\r])([0-9A-Fa-f]{3})#([^ \t\r]*)(?:[ \t\r]+[RT])?[ \t\r]*\n?$")

# A line with a remote frame, or one of CAN FD, of a 29-bit identifier.
ODD = re.compile(rb"(?:^|[ \t\r])([01][0-9A-Fa-f]{7})#(#[0-9A-Fa-f]+|[Rr][0-8]?)(?:[ \t\r]+[RT])?[ \t\r]*\n?$")
REMOTE, FD, BAD = "remote", "fd", "bad"
REMOTE_MARK = b"#R"
ODD_KINDS = {REMOTE: "a remote frame", FD: "a CAN FD frame"}

# An error frame as Linux has it: its classes in place of an identifier, behind the flag of 2^29.
ERROR = re.compile(rb"(?:^|[ \t\r])(2[0-9A-Fa-f]{7})#((?:[0-9A-Fa-f]{2}){8})(?:[ \t\r]+[RT])?[ \t\r]*\n?$")
ERROR_FLAG = 1 << 29

# What parts words, words that may stand behind a frame, and digits.
BLANKS, DIRECTIONS = b" \t\r\n", (b"R", b"T")
HEX = b"0123456789ABCDEFabcdef"
MARK = ord("#")

# So much of a log is looked at at once, and so many identifiers of 11 bits are known that aren't read.
BLOCK, KEPT = 1 << 16, 1 << 13


class Read(Protocol):
    """A log that hands out what has come of it."""

    def read1(self, size: int, /) -> bytes:
        """So many bytes at most, at least one until it ends."""


class Noted(NamedTuple):
    """A frame of a line: its identifier and its bytes; of an 11-bit identifier the one of 29 bits that goes before as many frames, and no bytes; of an
    error frame its classes. And the first word of the line, its interface, and the kind of a frame that is none of J1939."""

    line: int
    identifier: int
    data: bytes
    time: str
    interface: bytes | None
    is_error: bool = False
    kind: str = ""

    @property
    def kind_text(self) -> str:
        """The kind in words."""
        return ODD_KINDS[self.kind]

    @property
    def priority(self) -> int:
        """The priority of the frame."""
        return self.identifier >> 26


class Feed:
    """A log, whose lines are looked at as they are handed on. A meter takes all of them, if there is one."""

    def __init__(self, timing: Timing | None = None, meter: Meter | None = None) -> None:
        self._timing, self._meter = timing, meter
        self._plain: set[bytes] = set()  # identifiers of frames of which nothing is noted
        self._elsewhere: set[bytes] = set()  # interfaces that aren't read, with identifiers of 11 bits
        self._unheard: deque[Noted] = deque()  # of which `follow` says nothing
        self._beside: deque[Noted] = deque()  # of which it says something else
        self.noted = self._unheard, self._beside
        self._interface: bytes | None = None
        self._last = b""
        self.unread: int | None = None  # a line that spells no frame, the first that was seen
        self.twice = Twice(timing)

    @property
    def last_time(self) -> str:
        """The first word of the last line that has a frame."""
        return first_word(self._last)

    def pieces(self, log: Read) -> Iterator[bytes]:
        """What comes of a log, line by line as soon as it is there, when its lines were looked at; one that is too long isn't. A line that has the frame of the
        one before once more is handed on as an empty one."""
        number, rest, is_long = 1, b"", False
        while block := log.read1(BLOCK):
            *lines, rest = (rest + block).split(b"\n")
            head = b""
            if lines and is_long:
                number, is_long, head = number + 1, False, lines.pop(0) + b"\n"
            yield head + self._taken(number, lines)
            number += len(lines)
            if is_long or len(rest) >= LINE_MOST:
                yield rest
                rest, is_long = b"", True
        if rest:
            yield self._taken(number, [rest])[:-1]

    def _taken(self, number: int, lines: list[bytes]) -> bytes:
        """Whole lines are looked at; what of them is handed on."""
        for place in self.twice.look(number, lines):
            lines[place] = b""
        block = b"\n".join((*lines, b""))
        self._take_all(number, block, lines)
        return block

    def unheard(self, line: float) -> Iterator[Noted]:
        """The frames of the lines before this one of which `follow` says nothing, on the interface that it reads."""
        while self._unheard and self._unheard[0].line < line:
            noted = self._unheard.popleft()
            if noted.interface in (None, self._interface) or self._interface is None:
                yield noted

    def beside(self, line: int) -> Noted | None:
        """What was noted of the frame of this line, of which `follow` says something else."""
        while self._beside and self._beside[0].line < line:
            self._beside.popleft()
        return self._beside[0] if self._beside and self._beside[0].line == line else None

    def _are_plain(self, block: bytes, lines: list[bytes]) -> bool:
        """Whether all lines of a block are spelled alike but for digits, with a frame at the same place, of which nothing is noted."""
        at = lines[0].rfind(b"#")
        form = lines[0].translate(None, HEX) + b"\n"
        if not form.endswith(b"#\n") or form.count(b"#") > 1 or block.translate(None, HEX) != form * len(lines):
            return False
        lengths = set(map(len, lines))
        if min(lengths) < at + 2 or max(lengths) >= LINE_MOST or not all(length - at & 1 for length in lengths):
            return False
        return {line[at] for line in lines} == {MARK} and self._plain.issuperset({line[at - 8:at] for line in lines})

    def _take_all(self, number: int, block: bytes, lines: list[bytes]) -> None:
        """Lines come. Most have a frame of which nothing is noted, and hexadecimal digits up to their end."""
        if lines and not self._meter and self._are_plain(block, lines):
            self._last = lines[-1]
            return
        plain, meter, take, elsewhere = self._plain, self._meter, self._take, self._elsewhere
        for line in lines:
            at = line.rfind(b"#")
            digits = len(line) - at
            if digits & 1 and digits > 1 and line[at - 8:at] in plain and line[-1] in HEX and line[at + 1] in HEX and len(line) < LINE_MOST:
                if meter:
                    meter.take(line, at - 8, digits)
                self._last = line
            elif len(line) < LINE_MOST and (line[line.find(b" "):at] not in elsewhere or line[at + 1:].translate(None, HEX)):
                take(number, line)
            number += 1

    def _take(self, number: int, line: bytes) -> None:
        """A line comes."""
        end = line.rstrip(BLANKS)
        at = end.rfind(b"#")
        spelled = end[at - 8:at]
        if self._meter:
            is_last = end[-1:] not in DIRECTIONS
            self._meter.take(line, at - 8, len(end) - at if is_last else len(end[at:].split(maxsplit=1)[0]))
        if spelled in self._plain and end[at:at + 2] != REMOTE_MARK and ((len(end) - at) & 1 or end[-2:-1] == b" "):
            self._last = line
        elif found := FRAME.search(line):
            self._last = line
            self._interface = self._interface or interface_of(line)
            if self._is_noted(int(found.group(1), 16)):
                self._beside.append(noted_of(number, line, found))
            elif self._interface:
                self._plain.add(spelled)
        elif self._interface is not None and interface_of(line) not in (None, self._interface):
            head = line[line.find(b" "):at]
            if SHORT.search(line) and len(head.split()) > 1 and len(self._elsewhere) < KEPT:
                self._elsewhere.add(head)
        elif found := ERROR.search(line) or ODD.search(line) or SHORT.search(line):
            if found.re is not SHORT or self._timing:
                self._unheard.append(noted_of(number, line, found))
        elif end:
            self.unread = number if self.unread is None else self.unread
            self._unheard.append(Noted(number, 0, b"", first_word(line), None, kind=BAD))

    def _is_noted(self, identifier: int) -> bool:
        """Whether a frame of which `follow` says who sent it, and no more, is to be looked at."""
        pgn = pgn_in(identifier)
        is_urgent = self._timing is not None and identifier >> 26 < self._timing.unplanned_priority
        is_to_one = pgn == ADDRESS_CLAIMED and destination_in(identifier) != GLOBAL_ADDRESS
        return pgn == ACKNOWLEDGEMENT or is_to_one or is_urgent and pgn in (ADDRESS_CLAIMED, REQUEST)


def noted_of(number: int, line: bytes, found: re.Match[bytes]) -> Noted:
    """The frame that was found in a line."""
    identifier, time, interface = int(found.group(1), 16), first_word(line), interface_of(line)
    if found.re is SHORT:
        return Noted(number, identifier << 18, b"", time, interface)
    if found.re is ODD:
        return Noted(number, identifier, b"", time, interface, kind=FD if found.group(2).startswith(b"#") else REMOTE)
    data, is_error = bytes.fromhex(found.group(2).decode()), found.re is ERROR
    return Noted(number, identifier & ~ERROR_FLAG if is_error else identifier, data, time, interface, is_error)
