"""A file's bus, as canmatrix reads it, and what it says while it reads."""

from __future__ import annotations

import codecs
import contextlib
import importlib
import io
import logging
from collections.abc import Iterator
from typing import TYPE_CHECKING, NamedTuple

from j39plan import program
from j39plan.left_out import LeftOut, Notes, plain
from j39plan.sheet import files as sheet_files
from j39plan.sheet.columns import Mapping

if TYPE_CHECKING:
    import canmatrix

# The kinds of files by their endings, and whether their lines are a text without a declared encoding.
KINDS = {"dbc": True, "sym": True, "arxml": False, "kcd": False}


class FileLines:
    """The lines of a file, which canmatrix takes one after another, and which of them it is at."""

    def __init__(self, data: bytes, notes: Notes) -> None:
        self.lines, self.notes = data.split(b"\n"), notes
        self.number, self.line = 0, b""
        self.refused_message = 0

    def __iter__(self) -> Iterator[bytes]:
        """Hands out the lines, but for the signals of a message that was refused: canmatrix would give them to the one before.
        A node's long name goes by another attribute: canmatrix would call the node by it, and not the sender of its messages."""
        for self.number, line in enumerate(self.lines, 1):
            self.line = line.replace(b'"SystemNodeLongSymbol"', b'"LongName"')
            if self.refused_message and self.begins(b"SG_ "):
                self.notes.say(f"line {self.number}", f"the message of this signal, at line {self.refused_message}, can't be read")
                continue
            if self.begins(b"BO_ "):
                self.refused_message = 0
            yield self.line

    def begins(self, word: bytes) -> bool:
        """Whether the line begins with a word."""
        return self.line.lstrip().startswith(word)

    def refuse(self) -> None:
        """Notes that canmatrix can't read the line that it is at."""
        self.notes.say(f"line {self.number}", f"canmatrix can't read it: {self.line.decode()}")
        if self.begins(b"BO_ "):
            self.refused_message = self.number


class CanmatrixOutput(io.StringIO):
    """Stands for standard output and the log while canmatrix reads, and makes notes of what comes there."""

    def __init__(self, lines: FileLines) -> None:
        super().__init__()
        self.lines = lines

    def write(self, text: str) -> int:
        """Takes a piece of text. Of a line that it can't read canmatrix prints a number, which is wrong behind tables of values,
        and then the line."""
        if text == repr(self.lines.line):
            self.lines.refuse()
        elif text.strip() and not text.startswith("error with line no: "):
            self.lines.notes.say("canmatrix", text)
        return len(text)


@contextlib.contextmanager
def heard(lines: FileLines) -> Iterator[None]:
    """Makes notes of what canmatrix prints and of the errors that it logs."""
    log, ear = logging.getLogger("canmatrix"), CanmatrixOutput(lines)
    handler = logging.StreamHandler(ear)
    log.addHandler(handler)
    try:
        with contextlib.redirect_stdout(ear):
            yield
    finally:
        log.removeHandler(handler)


def in_utf8(line: bytes, encoding: str | None) -> bytes:
    """A line of an encoding as UTF-8; where none is named it is UTF-8, or Windows' cp1252 where it isn't that."""
    if encoding:
        return line.decode(encoding, "replace").encode()
    try:
        line.decode()
    except UnicodeDecodeError:
        return line.decode("cp1252", "replace").encode()
    return line


def import_canmatrix() -> None:
    """Imports canmatrix, which warns of each library that its other formats miss."""
    log = logging.getLogger("canmatrix")
    log.setLevel(logging.ERROR)
    log.propagate = False
    try:
        importlib.import_module("canmatrix.formats")
    except ImportError:
        why = "canmatrix isn't there: apt-get install python3-canmatrix python3-lxml"
        raise program.Refused(program.MISSING, why) from None


def kind_of(name: str, kind: str | None) -> str:
    """What kind of file it is: the one that is named, else the one of its ending."""
    import canmatrix.formats
    kind = kind or name.rpartition(".")[2].lower()
    if kind not in KINDS:
        raise LeftOut("it is none of .dbc, .arxml, .kcd, .sym, .csv, .xlsx and .ods by its ending: name its kind by --kind")
    if kind not in canmatrix.formats.loadedFormats:
        raise LeftOut(f"canmatrix doesn't read .{kind}: apt-get install python3-lxml")
    return kind


def lines_of(data: bytes, encoding: str | None) -> bytes:
    """The lines of a file in UTF-8. One whose units are of several bytes is decoded whole, since its line ends have more bytes too."""
    data = data.removeprefix(codecs.BOM_UTF8)
    if encoding and "\n".encode(encoding) != b"\n":
        data, encoding = data.decode(encoding, "replace").encode(), None
    return b"\n".join(in_utf8(line, encoding) for line in data.splitlines())


def buses_of(kind: str, data: bytes, encoding: str | None, notes: Notes) -> dict[str, canmatrix.CanMatrix]:
    """The buses of a file by their names, as canmatrix reads it."""
    import canmatrix.formats
    if KINDS[kind]:
        data = lines_of(data, encoding)
    lines = FileLines(data, notes)
    file = lines if kind == "dbc" else io.BytesIO(data)
    try:
        with heard(lines):
            buses: dict[str, canmatrix.CanMatrix] = canmatrix.formats.load(
                file, kind, dbcImportEncoding="utf-8", symImportEncoding="utf-8")
            return buses
    except MemoryError:
        raise
    except Exception as fault:  # canmatrix raises what its parsers do
        raise LeftOut(f"canmatrix can't read it: {type(fault).__name__}: {plain(fault)}") from fault


def chosen_bus(buses: dict[str, canmatrix.CanMatrix], bus: str | None) -> canmatrix.CanMatrix:
    """The bus of this name, or the only one."""
    if not buses:
        raise LeftOut("there is no bus in it")
    if bus in buses:
        return buses[bus]
    if bus is None and len(buses) == 1:
        return next(iter(buses.values()))
    there = ", ".join(map(plain, filter(None, buses)))
    if bus is None:
        raise LeftOut(f"choose a bus by --bus: {there}")
    raise LeftOut(f"--bus {plain(bus)}: " + (f"its buses are {there}" if there else "its only bus has no name"))


class FileOptions(NamedTuple):
    """What is said of a file beside its name: which of its buses is wanted, of which kind it is, in which encoding its lines are, and of a sheet which
    columns are which."""

    bus: str | None = None
    kind: str | None = None
    encoding: str | None = None
    columns: Mapping = Mapping({}, [])


def load(name: str, data: bytes, form: FileOptions, notes: Notes) -> canmatrix.CanMatrix:
    """The bus of a file of this name, which holds these bytes: the one that is wanted, or its only one."""
    kind = (form.kind or name.rpartition(".")[2]).lower()
    if kind in sheet_files.KINDS:
        from j39plan.sheet import matrix
        return matrix.load(kind, data, form.encoding, form.columns, notes)
    import_canmatrix()
    return chosen_bus(buses_of(kind_of(name, form.kind), data, form.encoding, notes), form.bus)
