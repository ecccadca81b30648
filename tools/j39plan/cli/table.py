"""Writes a plan as tables: units, groups, signals, flows, needs and requests, with what the program answers of them.

Each row has the line of the file, and of a plan with choices with which alternatives it is there. Tables that are named are written, else all that have
rows.
"""

import argparse
import csv
import importlib.util
import json
import sys
from collections.abc import Iterable

from j39plan import program
from j39plan.plan.answers import PlanAnswer
from j39plan.plan.files import text_of
from j39plan.plan.parts import Source
from j39plan.plan.sheets import NAMES, Cell, Sheet, Sheets
from j39plan.plan.tables import Tables
from j39plan.text_tables import aligned

# How wide a column of a sheet is at most, in letters.
WIDEST = 40


def sheets_of(name: str, wanted: Iterable[str], variant: list[str] | None) -> list[Sheet]:
    """The tables of a plan that are wanted."""
    text = text_of(name, variant)
    with program.file_of(text) as plan:
        source = Source(text, name)
        sheets = Sheets(source, source.tables if source["choice"] else Tables.of(plan), PlanAnswer.of(plan, []))
    return [sheet for key, made in sheets.all.items() if key in wanted and (sheet := made()).rows]


def in_words(cell: Cell) -> str:
    """A cell as a text."""
    return "" if cell is None else "yes" if cell is True else "no" if cell is False else str(cell)


def put_text(sheets: list[Sheet]) -> None:
    """Tables as lines of a text, without columns in which nothing stands."""
    lines: list[str] = []
    for sheet in sheets:
        there = [at for at in range(len(sheet.heads)) if any(row[at] is not None for row in sheet.rows)]
        lines += aligned(tuple(sheet.heads[at] for at in there), (
            tuple("-" if row[at] is None else in_words(row[at]) for at in there) for row in sheet.rows))
    sys.stdout.writelines(f"{line}\n" for line in lines[:-1])


def put_csv(sheets: list[Sheet]) -> None:
    """Tables as rows with commas; of several each below its name, and an empty line between two."""
    rows = csv.writer(sys.stdout, lineterminator="\n")
    for number, sheet in enumerate(sheets):
        if len(sheets) > 1:
            rows.writerows([[]] * bool(number) + [[sheet.name]])
        rows.writerow(sheet.heads)
        rows.writerows([in_words(cell) for cell in row] for row in sheet.rows)


def put_json(sheets: list[Sheet]) -> None:
    """Tables as one object, of each an array of objects without empty cells."""
    whole = {sheet.name: [{head: cell for head, cell in zip(sheet.heads, row) if cell is not None} for row in sheet.rows] for sheet in sheets}
    json.dump(whole, sys.stdout, indent=1)
    print()


def save_xlsx(sheets: list[Sheet], name: str) -> None:
    """Tables as the sheets of a workbook, with heads that stay and filters."""
    if importlib.util.find_spec("openpyxl") is None:
        raise program.Refused(program.MISSING, "openpyxl isn't there: apt-get install python3-openpyxl")
    from openpyxl import Workbook
    from openpyxl.styles import Font
    from openpyxl.utils import get_column_letter

    book = Workbook()
    book.remove(book.active)
    for sheet in sheets:
        page = book.create_sheet(sheet.name)
        page.append(sheet.heads)
        for row in sheet.rows:
            page.append([in_words(cell) if isinstance(cell, bool) else cell for cell in row])
        page.freeze_panes, page.auto_filter.ref = "B2", page.dimensions
        for at, head in enumerate(sheet.heads):
            page.cell(1, at + 1).font = Font(bold=True)
            width = max(len(head), *(len(in_words(row[at])) for row in sheet.rows))
            page.column_dimensions[get_column_letter(at + 1)].width = min(width, WIDEST) + 3
    book.save(name)


def table(name: str) -> str:
    """The name of a table."""
    if name not in NAMES:
        raise argparse.ArgumentTypeError(f"no table is called {name}: {', '.join(NAMES)}")
    return name


def words_of(words: list[str] | None) -> argparse.Namespace:
    """The words of the command line."""
    parser = program.parser(__doc__)
    parser.epilog = "example: %(prog)s plan.toml --xlsx plan.xlsx"
    program.plan_word(parser)
    parser.add_argument("tables", metavar="TABLE", nargs="*", type=table, help=f"which tables: {', '.join(NAMES)}; all, if none is named")
    forms = parser.add_mutually_exclusive_group()
    forms.add_argument("--csv", action="store_true", help="as rows with commas; of several tables each below its name")
    forms.add_argument("--json", action="store_true", help="as a JSON object with an array of each table")
    forms.add_argument("--xlsx", metavar="FILE", help="as the sheets of a workbook, which is written into a file")
    return parser.parse_intermixed_args(words)


@program.command
def main(words: list[str] | None = None) -> int:
    """Writes the tables."""
    given = words_of(words)
    sheets = sheets_of(given.plan, given.tables or NAMES, given.variant)
    if given.xlsx:
        if not sheets:
            raise program.Refused(program.UNREADABLE, f"{given.plan} has none of these tables")
        save_xlsx(sheets, given.xlsx)
    else:
        (put_csv if given.csv else put_json if given.json else put_text)(sheets)
    return 0


if __name__ == "__main__":
    sys.exit(main())
