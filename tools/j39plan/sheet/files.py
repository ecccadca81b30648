"""The rows of sheets, as CSV files and the workbooks XLSX and ODS have them, each cell as a text."""

from __future__ import annotations

import codecs
import csv
import datetime
import importlib
import io
import re
import zipfile
from collections.abc import Iterable, Iterator
from typing import Any, NamedTuple

from j39plan import program
from j39plan.left_out import LeftOut, plain

# The kinds of sheets by their endings.
KINDS = ("csv", "xlsx", "ods")

# So many rows with something in them a file has at most, and so many bytes the sheets of an ODS file: a plan has at most 16,384 signals.
ROWS, BYTES = 40_000, 1 << 26

# What the files of older or locked workbooks begin with.
COMPOUND = bytes.fromhex("D0CF11E0")

# A merged range of an XLSX sheet, and what a formula begins with there.
MERGED = re.compile(rb'<mergeCell ref="([A-Z]+)(\d+):([A-Z]+)(\d+)"')

# What a cell is that was typed as 4-5 and taken for a date, and one whose formula has no value.
DATE, NO_VALUE = "\u0001date", "\u0001formula"


class SheetRow(NamedTuple):
    """A row: its sheet, empty where there is only one, its number from 1, and its cells."""

    sheet: str
    number: int
    cells: list[str]

    @property
    def at(self) -> str:
        """Where it is."""
        return f"{self.sheet}, row {self.number}" if self.sheet else f"row {self.number}"


def cell_of(value: object) -> str:
    """A cell as a text."""
    if value is None:
        return ""
    if isinstance(value, bool):
        return "yes" if value else "no"
    if isinstance(value, float) and value.is_integer() and abs(value) < 1e15:
        return str(int(value))
    if isinstance(value, (datetime.date, datetime.time)):
        return DATE
    return str(value).strip()


def decoded(data: bytes, encoding: str | None) -> str:
    """The text of a CSV file: in the encoding that is named, else by its mark, else UTF-8, or Windows' cp1252 where it isn't that."""
    if encoding:
        return data.decode(encoding, "replace")
    if data.startswith((codecs.BOM_UTF16_LE, codecs.BOM_UTF16_BE)):
        return data.decode("utf-16", "replace")
    try:
        return data.decode("utf-8-sig")
    except UnicodeDecodeError:
        return data.decode("cp1252", "replace")


def csv_rows(data: bytes, encoding: str | None) -> Iterator[SheetRow]:
    """The rows of a CSV file, whose cells are apart by what its first lines have most of: a semicolon, a tab or a comma."""
    text = decoded(data, encoding)
    if "\0" in text:
        raise LeftOut("it is no CSV file: it has zero bytes")
    first = "\n".join(text.split("\n", 5)[:5])
    apart = max(";\t,", key=first.count)
    try:
        for number, cells in enumerate(csv.reader(io.StringIO(text, newline=""), delimiter=apart), 1):
            yield SheetRow("", number, [cell.strip() for cell in cells])
    except csv.Error as fault:
        raise LeftOut(f"it is no CSV file: {fault}") from None


def library(name: str, package: str) -> Any:
    """A library that reads workbooks."""
    try:
        return importlib.import_module(name)
    except ImportError:
        raise program.Refused(program.MISSING, f"{name.partition('.')[0]} isn't there: apt-get install {package}") from None


def parts_of(data: bytes, what: str) -> zipfile.ZipFile:
    """The parts of a workbook, which is an archive."""
    if data.startswith(COMPOUND):
        raise LeftOut(f"it is locked by a password, or an older workbook: save it as {what} without one")
    try:
        return zipfile.ZipFile(io.BytesIO(data))
    except (zipfile.BadZipFile, OSError, ValueError):
        raise LeftOut(f"it is no {what} file") from None


def column_of(letters: bytes) -> int:
    """The number of a column from 0, by its letters."""
    number = 0
    for letter in letters:
        number = 26 * number + letter - 64
    return number - 1


def merged_in(parts: zipfile.ZipFile, path: str) -> dict[tuple[int, int], tuple[int, int]]:
    """Of each cell of a merged range but the first one the row and the column of that; ranges of one row are none, since a title has such."""
    found: dict[tuple[int, int], tuple[int, int]] = {}
    for left, top, right, bottom in MERGED.findall(parts.read(path)):
        first, rows = (int(top), column_of(left)), range(int(top), min(int(bottom), int(top) + ROWS) + 1)
        for row in rows if len(rows) > 1 else ():
            found.update({(row, column): first for column in range(column_of(left), min(column_of(right), column_of(left) + 256) + 1)})
    return found


def xlsx_rows(data: bytes) -> Iterator[SheetRow]:
    """The rows of an XLSX workbook, formulas by the values that were saved with them, merged cells each with what the first one has."""
    openpyxl = library("openpyxl", "python3-openpyxl")
    parts = parts_of(data, "XLSX")
    try:
        books = [openpyxl.load_workbook(io.BytesIO(data), read_only=True, data_only=is_value) for is_value in (True, False)]
        for sheet, formulas in zip(books[0].worksheets, books[1].worksheets):
            merged, above = merged_in(parts, sheet._worksheet_path), dict[tuple[int, int], str]()
            firsts = set(merged.values())
            both = zip(sheet.iter_rows(values_only=True), formulas.iter_rows(values_only=True))
            for number, (values, told) in enumerate(both, 1):
                cells = [NO_VALUE if value is None and formula is not None else cell_of(value) for value, formula in zip(values, told)]
                for column, cell in enumerate(cells):
                    if (number, column) in firsts:
                        above[number, column] = cell
                    elif (number, column) in merged:
                        cells[column] = above.get(merged[number, column], "")
                yield SheetRow(plain(sheet.title), number, cells)
    except (LeftOut, MemoryError):
        raise
    except Exception as fault:  # openpyxl raises what its parsers do
        raise LeftOut(f"openpyxl can't read it: {type(fault).__name__}: {plain(fault)}") from fault


def ods_cells(row: Any) -> Iterator[tuple[str, int]]:
    """The cells of a row of an ODS sheet, each with the number of rows over which it is merged."""
    for cell in row.childNodes:
        kind = cell.qname[1] if hasattr(cell, "qname") else ""
        if kind not in ("table-cell", "covered-table-cell"):
            continue
        count = min(int(cell.getAttribute("numbercolumnsrepeated") or 1), 256)
        value, told = cell.getAttribute("value"), "\n".join(str(part) for part in cell.childNodes if part.qname[1] == "p")
        is_number = cell.getAttribute("valuetype") in ("float", "percentage", "currency")
        said = DATE if cell.getAttribute("valuetype") == "date" else cell_of(float(value)) if is_number and value else told.strip()
        if cell.getAttribute("formula") and not said:
            said = NO_VALUE
        rows = 0 if kind == "covered-table-cell" else int(cell.getAttribute("numberrowsspanned") or 1)
        yield from ((said, rows) for _ in range(count))


def ods_rows(data: bytes) -> Iterator[SheetRow]:
    """The rows of an ODS workbook, formulas by their values, cells that are merged over rows each with what the first one has."""
    opendocument, table = library("odf.opendocument", "python3-odf"), library("odf.table", "python3-odf")
    with parts_of(data, "ODS") as parts:
        names = parts.namelist()
        if "content.xml" not in names:
            raise LeftOut("it is no ODS file")
        if parts.getinfo("content.xml").file_size > BYTES:
            raise LeftOut(f"its sheets have more than {BYTES >> 20} MB: keep the rows of one network")
        if "META-INF/manifest.xml" in names and b"encryption-data" in parts.read("META-INF/manifest.xml"):
            raise LeftOut("it is locked by a password: save it without one")
    try:
        sheets = opendocument.load(io.BytesIO(data)).spreadsheet.getElementsByType(table.Table)
    except Exception as fault:  # odfpy raises what its parsers do
        raise LeftOut(f"odfpy can't read it: {type(fault).__name__}: {plain(fault)}") from fault
    for sheet in sheets:
        number, above = 0, dict[int, tuple[str, int]]()
        for row in sheet.getElementsByType(table.TableRow):
            cells = []
            for column, (cell, rows) in enumerate(ods_cells(row)):
                said, left = above.get(column, ("", 0))
                if left and not rows:
                    cell, above[column] = said, (said, left - 1)
                elif rows > 1:
                    above[column] = cell, rows - 1
                cells.append(cell)
            number += 1
            yield SheetRow(plain(sheet.getAttribute("name")), number, cells)
            number += int(row.getAttribute("numberrowsrepeated") or 1) - 1


def few(rows: Iterable[SheetRow]) -> Iterator[SheetRow]:
    """The rows with something in them, of which there may not be more than a plan could have."""
    count = 0
    for row in rows:
        if any(row.cells):
            count += 1
            if count > ROWS:
                raise LeftOut(f"it has more than {ROWS} rows: keep those of one network")
            yield row


def rows_of(kind: str, data: bytes, encoding: str | None) -> list[SheetRow]:
    """The rows of a file of this kind that have something in them."""
    found = list(few(csv_rows(data, encoding) if kind == "csv" else xlsx_rows(data) if kind == "xlsx" else ods_rows(data)))
    names = dict.fromkeys(row.sheet for row in found)
    return found if len(names) > 1 else [row._replace(sheet="") for row in found]
