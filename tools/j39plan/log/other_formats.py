"""Logs of other programs, of which python-can's readers make too little: ASC with times from line to line (Vector), TRC 1.3 and 2.0 (PEAK), CSV of SavvyCAN."""

from __future__ import annotations

import csv
import re
from collections import Counter
from collections.abc import Callable, Iterator
from typing import TYPE_CHECKING, TextIO

from j39plan.log.clock import SECOND

if TYPE_CHECKING:
    from can.message import Message

# The header of an ASC whose times count from the line before, a line with a time, and one with a message of many packets, which stand beside it.
RELATIVE = re.compile(r"\s*base\s+\w+\s+timestamps\s+relative\b", re.IGNORECASE)
TIMED = re.compile(r"\s*(\d+)\.(\d{1,9})(?=\s)")
ASSEMBLED = re.compile(r"\s*\d+\.\d+\s+\S+\s+J1939TP\b")
ASSEMBLED_TEXT = "lines J1939TP, messages beside their packets,"

# The versions of TRC that are read as the newest one, with their columns, whose order a file may say; and how that one begins.
COLUMNS = {"1.3": "N,O,B,T,I,R,L,D", "2.0": "N,O,T,I,d,l,D"}
VERSION, ORDER = ";$FILEVERSION=", ";$COLUMNS="
NEWEST, NEWEST_COLUMNS = "2.1", "N,O,T,B,I,d,R,L,D"

# What messages are in TRC 1.3, and in the newest one.
DIRECTIONS, DATA = ("Rx", "Tx"), "DT"

# How a CSV of SavvyCAN begins; its times are in us.
SAVVY, MICROSECONDS = "Time Stamp,ID,", 10**6


class WholeLines:
    """The lines of a text, each as it is to be read, without the last one where that is cut: one of a frame, which begins with a digit, and has no end of line.
    The readers pass a frame over that is cut, or make a shorter one of it."""

    def __init__(self, text: TextIO, translate: Callable[[str], str] = str) -> None:
        self._text, self._translate, self.is_cut = text, translate, False

    def __iter__(self) -> Iterator[str]:
        return self

    def __next__(self) -> str:
        line = next(self._text)
        self.is_cut = not line.endswith("\n") and line.lstrip()[:1].isdigit()
        if self.is_cut:
            raise StopIteration
        return self._translate(line)

    def close(self) -> None:
        """Closes the text."""
        self._text.close()


class Asc:
    """The lines of an ASC with times from its begin; messages that are put together of packets are counted."""

    def __init__(self, dropped: Counter[str]) -> None:
        self._dropped, self._is_relative, self._at = dropped, False, 0

    def __call__(self, line: str) -> str:
        self._is_relative = self._is_relative or RELATIVE.match(line) is not None
        self._dropped.update({ASSEMBLED_TEXT: 1} if ASSEMBLED.match(line) else {})
        time = TIMED.match(line) if self._is_relative else None
        if time is None:
            return line
        self._at += int(time.group(1)) * SECOND + int(f"{time.group(2):0<9}")
        return f"{self._at // SECOND}.{self._at % SECOND:09}{line[time.end():]}"


class Trc:
    """The lines of a TRC, of version 1.3 and 2.0 as of the newest one."""

    def __init__(self) -> None:
        self._columns: list[str] = []

    def __call__(self, line: str) -> str:
        if line.startswith(VERSION):
            version = line[len(VERSION):].strip()
            self._columns = COLUMNS[version].split(",") if version in COLUMNS else []
            return f"{VERSION}{NEWEST}\n" if self._columns else line
        if line.startswith(ORDER) and self._columns:
            self._columns = line[len(ORDER):].strip().split(",")
            return f"{ORDER}{NEWEST_COLUMNS}\n"
        return self._frame(line) if self._columns and line.lstrip()[:1].isdigit() else line

    def _frame(self, line: str) -> str:
        """A line of a frame, whose data stand at its end."""
        has = dict(zip(self._columns, line.split(maxsplit=len(self._columns) - 1)))
        if not {"N", "O", "T", "I"}.issubset(has) or not {"L", "l"}.intersection(has):
            raise ValueError(f"a line is no frame: {line.strip()}")
        kind, direction = has["T"], has.get("d", DIRECTIONS[0])
        if kind in DIRECTIONS:
            kind, direction = DATA, kind
        words = has["N"].rstrip(")"), has["O"], kind, has.get("B", "1"), has["I"], direction, "-", has.get("L") or has["l"], has.get("D", "")
        return " ".join(words).rstrip() + "\n"


class Savvy:
    """The messages of a CSV of SavvyCAN."""

    def __init__(self, lines: WholeLines) -> None:
        self._lines = lines

    def __iter__(self) -> Iterator[Message]:
        from can.message import Message

        rows = csv.DictReader(self._lines)
        for row in rows:
            try:
                data = bytes(int(row[f"D{number}"], 16) for number in range(1, int(row["LEN"]) + 1))
                at, identifier, is_long = int(row["Time Stamp"]) / MICROSECONDS, int(row["ID"], 16), row["Extended"].lower() == "true"
                yield Message(timestamp=at, arbitration_id=identifier, is_extended_id=is_long, channel=int(row.get("Bus") or 0), data=data, dlc=len(data))
            except (AttributeError, KeyError, TypeError, ValueError):
                raise ValueError(f"line {rows.line_num} is no frame") from None

    def stop(self) -> None:
        """Closes the file."""
        self._lines.close()
