"""Where the tables and keys of a TOML text stand.

A place is a tuple of keys and, for the elements of arrays, of numbers from 1: ("unit", 2, "name", "identity"). The text is one
that TOML 1.1 allows; where it isn't, the places up to there are found.
"""

import bisect
import re

from j39plan.plan.toml_reader import TOMLDecodeError, loads

BLANK = re.compile(r"(?:[ \t\r\n]|#[^\n]*)*")
NO_VALUE = re.compile(r"[ \t\r]*(?:#[^\n]*)?(?:\n|\Z)")
STRING = re.compile(
    r'"""(?:\\.|[^\\])*?"{3,5}'
    r"|'''.*?'{3,5}"
    r'|"(?:\\.|[^"\\\n])*"'
    r"|'[^'\n]*'",
    re.DOTALL,
)
PLAIN = re.compile(r"(?:\"[^\"\\\x00-\x1F\x7F]*\"|'[^'\x00-\x1F\x7F]*')")
KEY = re.compile(r'[A-Za-z0-9_-]+|"(?:\\.|[^"\\\n])*"|\'[^\'\n]*\'')
OTHER = re.compile(r"[^,\]}#\r\n]+")
ESCAPE = re.compile(r"\\(?:(e)|x([0-9A-Fa-f]{2})|.)", re.DOTALL)

# Strings with an escape, and times without seconds, that TOML 1.0 doesn't have.
NEWER = re.compile(r'"(?:[^\\]|\\[^ex])*\\[ex]|[-\dTt ]*\d\d:\d\d(?!:)')

MARK = "\ufeff"

# So many lines of a half-written text are passed over.
PASSED_OVER = 50

# Keys and, for the elements of arrays, numbers from 1.
Place = tuple[str | int, ...]


class _Unexpected(Exception):
    """The text isn't what TOML allows."""


def _older(escape: re.Match[str]) -> str:
    """An escape of TOML 1.1 as TOML 1.0 spells it, others as they are."""
    digits = "1B" if escape.group(1) else escape.group(2)
    return f"\\u00{digits}" if digits else escape.group()


def text_of(spelled: str) -> str:
    """The text that a TOML string spells."""
    if PLAIN.fullmatch(spelled):
        return spelled[1:-1]
    if spelled.startswith('"'):
        spelled = ESCAPE.sub(_older, spelled)
    try:
        return str(loads(f"x = {spelled}")["x"])
    except TOMLDecodeError:
        return spelled.strip("\"'")


def fault_of(text: str) -> tuple[int, str] | None:
    """Line and description of the fault that Python's reader of TOML 1.0 finds in a text, if it finds one."""
    try:
        loads(text)
    except TOMLDecodeError as fault:
        found = re.search(r"at line (\d+)", str(fault))
        return int(found.group(1)) if found else text.count("\n") + 1, str(fault)
    except (ValueError, RecursionError):  # a number of very many digits, brackets in very many brackets
        pass
    return None


def place_of(words: str) -> Place:
    """The place of a table by its words, as `group 2 signal 3`; of the top one by `top`."""
    parts: list[str | int] = [int(word) if word.isdigit() else word for word in words.split()]
    return () if words == "top" else tuple(parts)


def table_of(place: Place) -> str:
    """The name of the table at a place, empty of the top one."""
    return next((part for part in reversed(place) if isinstance(part, str)), "")


class Places:
    """The line of each table and key of a TOML text, and the texts and other values as they are spelled.

    `statements` is where its headers and top pairs begin, `newer` where there is what TOML 1.0 doesn't have. `pairs` has of each key with a value
    where it begins, where the value ends, and the place of the table in which it stands, to which dotted keys are added. `values` has of each value
    where it begins and ends, `headers` of each table with a header where that begins, and the table's place. Where the text is half written, each
    line in which a statement that is no TOML begins can be passed over."""

    def __init__(self, text: str, is_half_written: bool = False) -> None:
        self.lines: dict[Place, int] = {(): 1}
        self.texts: dict[Place, str] = {}
        self.spelled: dict[Place, str] = {}
        self.statements: list[int] = []
        self.newer: list[int] = []
        self.pairs: dict[Place, tuple[int, int, Place]] = {}
        self.values: dict[Place, tuple[int, int]] = {}
        self.headers: list[tuple[int, Place]] = []
        self._text = text
        self._at = len(MARK) if text.startswith(MARK) else 0
        self._feeds = [found.start() for found in re.finditer("\n", text)]
        self._counts: dict[Place, int] = {}
        self._depth = 0
        self._table_now: Place = ()
        left = PASSED_OVER if is_half_written else 0
        while not self._is_read() and left:
            self._pass_over()
            left -= 1

    def line(self, place: Place) -> int:
        """The line of the place, or of the nearest table around it."""
        while place not in self.lines:
            place = place[:-1]
        return self.lines[place]

    def keys(self, place: Place) -> list[str]:
        """The keys of the table at the place, in the order of the text."""
        size = len(place) + 1
        return [str(other[-1]) for other in self.lines if len(other) == size and other[:-1] == place]

    def number(self, place: Place) -> int | None:
        """The integer at the place, or None."""
        try:
            return int(self.spelled.get(place, ""), 0)
        except ValueError:
            return None

    def integer(self, place: Place) -> int:
        """The integer at the place, where there is one."""
        return int(self.spelled[place], 0)

    def elements(self, array: Place) -> list[Place]:
        """The places of the elements of the array at a place."""
        return [array + (number,) for number in range(1, self._counts.get(array, 0) + 1)]

    def line_at(self, at: int) -> int:
        """The line of a position in the text."""
        return bisect.bisect_left(self._feeds, at) + 1

    def _is_read(self) -> bool:
        """Reads the statements, and says whether all of them are TOML."""
        try:
            while self._skip() < len(self._text):
                self._statement()
        except (_Unexpected, RecursionError):
            return False
        return True

    def _statement(self) -> None:
        self.statements.append(self._at)
        if not self._text.startswith("[", self._at):
            self._pair(self._table_now)
            return
        start, is_array = self._at, self._text.startswith("[[", self._at)
        self._table_now = self._element(self._header("[[", "]]")) if is_array else self._inside(self._header("[", "]"))
        self.headers.append((start, self._table_now))

    def _pass_over(self) -> None:
        """Goes on behind the line in which the last statement begins."""
        line = self._text.find("\n", self.statements[-1])
        self._at = line + 1 if line >= 0 else len(self._text)
        self._depth = 0

    def _skip(self) -> int:
        start, blank = self._at, BLANK.match(self._text, self._at)
        self._at = blank.end() if blank else start
        if self._depth and "\n" in self._text[start:self._at]:
            self.newer.append(start)
        return self._at

    def _take(self, pattern: re.Pattern[str]) -> str:
        found = pattern.match(self._text, self._at)
        if not found:
            raise _Unexpected
        if NEWER.match(found.group()):
            self.newer.append(self._at)
        self._at = found.end()
        return found.group()

    def _expect(self, mark: str) -> None:
        self._skip()
        if not self._text.startswith(mark, self._at):
            raise _Unexpected
        self._at += len(mark)

    def _comes(self, mark: str) -> bool:
        self._skip()
        return self._text.startswith(mark, self._at)

    def _note(self, place: Place, at: int) -> None:
        self.lines.setdefault(place, self.line_at(at))

    def _dotted(self) -> list[str]:
        keys = []
        while True:
            self._skip()
            key = self._take(KEY)
            keys.append(text_of(key) if key[0] in "\"'" else key)
            if not self._comes("."):
                return keys
            self._expect(".")

    def _header(self, opening: str, closing: str) -> tuple[int, list[str]]:
        start = self._at
        self._expect(opening)
        keys = self._dotted()
        self._expect(closing)
        return start, keys

    def _inside(self, header: tuple[int, list[str]]) -> Place:
        """The table of a header, each array on the way at its last element."""
        start, keys = header
        place: Place = ()
        for key in keys:
            place += (key,)
            self._note(place, start)
            if place in self._counts:
                place += (self._counts[place],)
        return place

    def _element(self, header: tuple[int, list[str]]) -> Place:
        """The new element of an array of tables."""
        start, keys = header
        array = self._inside((start, keys[:-1])) + (keys[-1],)
        self._note(array, start)
        return self._next(array, start)

    def _next(self, array: Place, at: int) -> Place:
        self._counts[array] = self._counts.get(array, 0) + 1
        place = array + (self._counts[array],)
        self._note(place, at)
        return place

    def _pair(self, table: Place) -> None:
        start = self._at
        place = table
        for key in self._dotted():
            place += (key,)
            self._note(place, start)
        self._expect("=")
        if NO_VALUE.match(self._text, self._at):
            self.spelled[place] = ""
            return
        self._skip()
        self._value(place)
        self.pairs[place] = start, start + len(self._text[start:self._at].rstrip()), table

    def _value(self, place: Place) -> None:
        start = self._at
        if self._comes("{"):
            self._table(place)
        elif self._comes("["):
            self._array(place)
        elif self._comes('"') or self._comes("'"):
            self.texts[place] = text_of(self._take(STRING))
        else:
            self._take(OTHER)
        spelled = self._text[start:self._at]
        self.spelled[place] = spelled.strip()
        self.values[place] = start, start + len(spelled.rstrip())

    def _table(self, place: Place) -> None:
        self._expect("{")
        self._depth += 1
        while not self._comes("}"):
            self._pair(place)
            if not self._comes("}"):
                self._expect(",")
                if self._comes("}"):
                    self.newer.append(self._at)
        self._depth -= 1
        self._expect("}")

    def _array(self, place: Place) -> None:
        self._expect("[")
        while not self._comes("]"):
            self._value(self._next(place, self._at))
            if not self._comes("]"):
                self._expect(",")
        self._expect("]")
