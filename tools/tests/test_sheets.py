"""Plans from sheets: makers' matrices of messages and signals, and the tables that `table` writes."""

import codecs
import contextlib
import io
import unittest
import warnings
import zipfile
from collections.abc import Callable

from j39plan import program
from j39plan.cli import compare, dbc2plan, table
from j39plan.left_out import LeftOut
from j39plan.plan.parts import Part, Source
from j39plan.sheet import cells
from tests import support
from tests.support import InFolder, example, needs, plans, text_of

# As a maker has it: German names, numbers with commas, PGNs in two ways, places as SAE writes them.
GERMAN = """Matrix Fahrzeug 7;;;;;;;;;;;;;;;
PGN;Botschaft;Priorität;DLC;Sender;Quelladresse;Zykluszeit [ms];SPN;Signalname;Position;Länge;Auflösung;Offset;Einheit;Werte;Empfänger
F004;EEC1;3;8;EMS;0;20;190;Drehzahl;4-5;2 bytes;0,125;0;rpm;;ICL, TCU
61444;EEC1;3;8;EMS;0;20;899;Momentenart;1.1;4 bits;1;0;;0=Leerlauf, 1=Pedal;TCU
0xFEEE;ET1;6;8;EMS;0;1 s;110;Kühlmitteltemperatur;1;1 byte;1;-40;°C;;ICL
65262;ET1;6;8;EMS;0;1000;175;Öltemperatur;bit 17;16;0,03125 °C/bit;-273;;;ICL
65265;CCVS1;6;8;TCO;0xEE;100;84;Geschwindigkeit;2-3;;1/256;;km/h;;ICL
65215;EBC2;6;8;EBS;11;100;904;Achse;eins;16;1;0;;;
65215;EBC2;6;8;EBS;11;100;905;Drittel;3;8;1/3;0;;;
65312;EBS_B;3;8;EBS;11;50;;Druck;1;8;1;0;kPa;;
;;;;EMS;;;;;;;;;;;
"""

# Two sheets: messages, and signals by the names of these.
MESSAGES: list[list[object]] = [["Message", "PGN (hex)", "Prio", "Transmitter", "SA", "Cycle time"], ["EEC1", "F004", 3, "EMS", 0, 20], ["ET1", "FEEE", 6, "EMS", 0, 1000]]
SIGNALS: list[list[object]] = [["Message", "Signal", "Byte", "Bit", "Length", "Factor", "Offset"], ["EEC1", "Speed", 4, 1, 16, 0.125, 0], [None, "Mode", 1, 1, 4, 1, 0],
           ["ET1", "Coolant", 1, 1, 8, 1, -40]]


def run(main: Callable[[list[str]], int], *words: str) -> tuple[int, str, str]:
    """Status, standard output and standard error of a command in this process."""
    out, error = io.StringIO(), io.StringIO()
    with contextlib.redirect_stdout(out), contextlib.redirect_stderr(error), warnings.catch_warnings():
        warnings.simplefilter("ignore")  # those of libraries
        return main(list(words)), out.getvalue(), error.getvalue()


def signals_of(text: str, group: str) -> dict[str, dict[str, object]]:
    """The signals of a group of a plan, what they say by their labels."""
    (found,) = [one for one in Source(text)["group"] if one.label == group]
    return {signal.label: {key: value for key, value in signal.said.items() if key != "label"} for signal in found.inside.get("signal", [])}


def group_of(text: str, label: str) -> Part:
    """A group of a plan."""
    return next(one for one in Source(text)["group"] if one.label == label)


class Cells(unittest.TestCase):
    """What stands in cells."""

    def test_places(self) -> None:
        said = {"4-5": (4, 1, 16), "1.1": (1, 1, None), "7": (7, 1, None), "2.5-3.8": (2, 5, 12), "bit 17": (3, 1, None), "Bits 9-12": (2, 1, 4), "byte 3": (3, 1, None)}
        self.assertEqual({text: tuple(cells.place(text)) for text in said}, said)
        for text in ("", "0", "1.9", "5-4", "one", "bit 0", "\u0001date"):
            with self.assertRaises(LeftOut, msg=text):
                cells.place(text)

    def test_numbers(self) -> None:
        said = {"0,125": "1/8", "1.5": "3/2", "1/256": "1/256", "-40": "-40", "1.234,5": "2469/2", "1,234.5": "2469/2", "0x10": "16", "F4h": "244", "2e-3": "1/500",
                "1 000": "1000"}
        self.assertEqual({text: str(cells.number(text)) for text in said}, said)
        self.assertEqual((cells.pgn("F004", False), cells.pgn("61444", False), cells.pgn("1792", True), cells.identifier("18FEF100")), (61444, 61444, 0x1792, 0x18FEF100))
        self.assertEqual((cells.width("2 bytes"), cells.width("4 bits"), cells.width("16")), (16, 4, 16))
        self.assertEqual((cells.milliseconds("1 s"), cells.milliseconds("100 ms"), cells.milliseconds("on request")), (1000, 100, None))
        self.assertEqual(cells.names_of("0x0=off; 01b: on, 2 - third"), {0: "off", 1: "on", 2: "third"})
        scale = cells.scale("0.03125 deg C/bit, -273 deg C offset")
        self.assertEqual((str(scale.factor), str(scale.offset), scale.unit), ("1/32", "-273", "deg C"))


@needs("canmatrix", "python3-canmatrix")
class Matrices(InFolder):
    """Makers' matrices."""

    def made(self, name: str, *words: str, status: int = 0) -> tuple[str, str]:
        """The plan of a file, and what is noted."""
        ended, text, said = run(dbc2plan.main, *words, name)
        self.assertEqual(ended, status, said)
        return text, said

    def test_a_german_matrix(self) -> None:
        text, said = self.made(self.write("m.csv", GERMAN), "--address", "ICL=23", "--address", "TCU=3")
        self.assertEqual(signals_of(text, "EEC1"), {
            "Drehzahl": {"byte": 4, "bits": 16, "kind": "measured", "per": 8, "unit": "rpm", "spn": 190},
            "Momentenart": {"byte": 1, "bits": 4, "kind": "raw", "spn": 899, "values": {"0": "Leerlauf", "1": "Pedal"}}})
        self.assertEqual(signals_of(text, "ET1"), {
            "Kuehlmitteltemperatur": {"byte": 1, "bits": 8, "kind": "measured", "offset": -40, "unit": "degC", "spn": 110},
            "Oeltemperatur": {"byte": 3, "bits": 16, "kind": "measured", "per": 32, "offset": -8736, "unit": "degC", "spn": 175}})
        self.assertEqual(signals_of(text, "CCVS1")["Geschwindigkeit"], {"byte": 2, "bits": 16, "kind": "measured", "per": 256, "unit": "km/h", "spn": 84})
        plan = Source(text)
        self.assertEqual({unit.label: unit.number("address") for unit in plan["unit"]}, {"EMS": 0, "TCO": 238, "EBS": 11, "ICL": 23, "TCU": 3})
        self.assertEqual({flow.text("group"): (flow.text("from"), flow.text("to"), flow.number("period")) for flow in plan["flow"]}, {
            "EEC1": ("EMS", "all", 20), "ET1": ("EMS", "all", 1000), "CCVS1": ("TCO", "all", 100), "EBC2": ("EBS", "all", 100), "EBS_B": ("EBS", "all", 50)})
        self.assertEqual({(need.text("unit"), need.text("group")) for need in plan["need"]}, {("ICL", "EEC1"), ("TCU", "EEC1"), ("ICL", "ET1"), ("ICL", "CCVS1")})
        self.assertTrue(group_of(text, "EBS_B").is_true("private"))
        for line in ("row 8, column Position: signal Achse: 'eins' is no place as 4-5, 1.1 or bit 17",
                     "row 9, column Auflösung: signal Drittel: 1/3 is none that a plan can have: its decimals have no end"):
            self.assertIn(line, said.splitlines())
            self.assertIn(f"# left out: {line}", text.splitlines())
        with program.file_of(text) as plan_file:
            self.assertIn(program.call(["check", "--", plan_file])[0], (0, 1))

    def test_encodings_of_a_csv_file(self) -> None:
        expected, _ = self.made(self.write("m.csv", GERMAN))
        for encoding, mark in (("utf-8", codecs.BOM_UTF8), ("cp1252", b""), ("utf-16-le", codecs.BOM_UTF16_LE)):
            with open(self.path("m.csv"), "wb") as file:
                file.write(mark + GERMAN.encode(encoding))
            self.assertEqual(self.made(self.path("m.csv"))[0], expected, encoding)
        self.assertEqual(self.made(self.write("m.csv", GERMAN.replace(";", "\t")))[0], expected)

    def test_bits_and_bytes_from_zero(self) -> None:
        rows = "PGN,Message,Signal,Start bit,Length,Sender,SA\n61444,EEC1,Mode,0,4,EMS,0\n61444,EEC1,Speed,24,16,EMS,0\n"
        text, _ = self.made(self.write("m.csv", rows))
        self.assertEqual({label: (said["byte"], said["bits"]) for label, said in signals_of(text, "EEC1").items()}, {"Mode": (1, 4), "Speed": (4, 16)})
        text, _ = self.made(self.write("m.csv", rows.replace("Start bit", "Position").replace(",0,4,EMS", ",0.3,4,EMS").replace(",24,", ",3-4,")))
        self.assertEqual({label: (said["byte"], said.get("bit", 1)) for label, said in signals_of(text, "EEC1").items()}, {"Mode": (1, 3), "Speed": (4, 1)})

    def test_identifiers_signs_and_byte_orders(self) -> None:
        text, said = self.made(self.write("m.csv", "CAN ID;Message;Signal;Byte;Length;Byte order;Value type\n0CF00400;EEC1;Speed;4;16;Intel;unsigned\n"
                                                   "0CF00400;EEC1;Torque;1;16;Motorola;unsigned\n0CF00400;EEC1;Shift;7;16;Intel;signed\n"))
        self.assertEqual({label: said_of["kind"] for label, said_of in signals_of(text, "EEC1").items()}, {"Speed": "measured", "Shift": "signed"})
        self.assertEqual((group_of(text, "EEC1").number("pgn"), group_of(text, "EEC1").number("priority")), (61444, 3))
        self.assertEqual([(unit.label, unit.number("address")) for unit in Source(text)["unit"]], [("SA_0", 0)])
        self.assertIn("row 3, column Byte order: signal Torque: its most significant byte comes first", said)

    def test_columns_by_a_file_and_marks(self) -> None:
        columns = self.write("columns.toml", 'pgn = "Nr."\ngroup = "Was"\nsignal = "Wert"\nbyte = "Wo"\nbits = ["Breite", "B"]\nmarks = ["EMS", "ICL"]\n')
        sheet = self.write("m.csv", "Nr.,Was,Wert,Wo,Breite,EMS,ICL,Notiz\n61444,EEC1,Speed,4,16,S,x,abc\n")
        text, said = self.made(sheet, "--columns", columns, "--address", "ICL=23", "--address", "EMS=0")
        self.assertEqual([(flow.text("from"), flow.text("group")) for flow in Source(text)["flow"]], [("EMS", "EEC1")])
        self.assertEqual([need.text("unit") for need in Source(text)["need"]], ["ICL"])
        self.assertIn("row 1: columns that aren't used: Notiz", said)
        for bad, why in (('pgm = "Nr."\n', "pgm: a name of a column"), ("pgn = Nr\n", "it is no TOML file"), ("pgn = 3\n", "pgn: a name of a column")):
            self.assertIn(why, self.made(sheet, "--columns", self.write("bad.toml", bad), status=2)[1])

    def test_contradictions_are_said(self) -> None:
        _, said = self.made(self.write("m.csv", GERMAN.replace("61444;EEC1;3;8", "61444;EEC1;4;8")))
        self.assertIn("row 4, column Priorität: signal Momentenart: EEC1 has 3 above, and here 4", said)

    def refused(self, name: str) -> str:
        """The one line that is said of a file of which no plan is made."""
        text, said = self.made(name, status=2)
        self.assertEqual((text, said.count("\n")), ("", 1), said)
        return said

    def test_what_is_no_matrix(self) -> None:
        self.assertIn("no row of it names at least three columns", self.refused(self.write("m.csv", "a;b;c\n1;2;3\n")))
        self.assertIn("no row of it names at least three columns", self.refused(self.write("m.csv", "")))
        self.assertIn("it is no CSV file: it has zero bytes", self.refused(self.write("m.csv", "a\0b\n")))
        self.assertIn("it has more than 40000 rows", self.refused(self.write("m.csv", "PGN,Message,Signal\n" + "61444,EEC1,S\n" * 100_000)))
        status, text, said = support.run("dbc2plan.py", self.path("none.csv"))
        self.assertEqual((status, text, said.count("\n")), (4, "", 1))
        for kind in ("xlsx", "ods"):
            self.assertIn(f"it is no {kind.upper()} file", self.refused(self.write(f"m.{kind}", "PK")))
            with open(self.path(f"m.{kind}"), "wb") as file:
                file.write(bytes.fromhex("D0CF11E0A1B11AE1") + bytes(600))
            self.assertIn("it is locked by a password, or an older workbook", self.refused(self.path(f"m.{kind}")))


@needs("openpyxl", "python3-openpyxl")
@needs("canmatrix", "python3-canmatrix")
class Workbooks(InFolder):
    """Sheets of XLSX files."""

    def book(self, **sheets: list[list[object]]) -> str:
        """A workbook with these rows."""
        import openpyxl
        book = openpyxl.Workbook()
        book.remove(book.active)
        for title, rows in sheets.items():
            page = book.create_sheet(title)
            for row in rows:
                page.append(row)
            if title == "Signals":
                page.merge_cells("A2:A3")
        book.save(self.path("m.xlsx"))
        return self.path("m.xlsx")

    def test_two_sheets_and_merged_cells(self) -> None:
        status, text, said = run(dbc2plan.main, self.book(Messages=MESSAGES, Signals=SIGNALS))
        self.assertEqual(status, 0, said)
        self.assertEqual({label: (told["byte"], told.get("per", 1)) for label, told in signals_of(text, "EEC1").items()}, {"Speed": (4, 8), "Mode": (1, 1)})
        self.assertEqual(signals_of(text, "ET1")["Coolant"]["offset"], -40)

    def test_formulas_and_dates(self) -> None:
        import datetime
        broken: list[list[object]] = [SIGNALS[0], ["EEC1", "Speed", "=3+1", 1, 16, 0.125, 0], ["EEC1", "Mode", datetime.date(2026, 5, 4), 1, 4, 1, 0]]
        status, text, said = run(dbc2plan.main, self.book(Messages=MESSAGES, Other=broken))
        self.assertEqual(status, 0)
        self.assertIn("Other, row 2, column Byte: signal Speed: it is a formula without a value: save the file by a program that calculates it", said)
        self.assertIn("Other, row 3, column Byte: signal Mode: it is a date, as 4-5 becomes one", said)
        self.assertEqual(signals_of(text, "EEC1"), {})

    def test_what_table_writes_in_a_workbook_is_read_back(self) -> None:
        self.assertEqual(run(table.main, example("truck.toml"), "--xlsx", self.path("t.xlsx"))[0], 0)
        status, text, said = run(dbc2plan.main, self.path("t.xlsx"))
        self.assertEqual(status, 0, said)
        self.assertEqual(run(compare.main, example("truck.toml"), self.write("t.toml", text))[1], "changes 0 breaks 0\n")


@needs("odf", "python3-odf")
@needs("canmatrix", "python3-canmatrix")
class OpenDocuments(InFolder):
    """Sheets of ODS files."""

    def book(self, **sheets: list[list[object]]) -> str:
        """A workbook with these rows; in that of signals the first cell of the second row reaches over the third."""
        from odf.opendocument import OpenDocumentSpreadsheet
        from odf.table import CoveredTableCell, Table, TableCell, TableRow
        from odf.text import P
        book = OpenDocumentSpreadsheet()
        for title, rows in sheets.items():
            page = Table(name=title)
            for number, row in enumerate(rows):
                line = TableRow()
                for column, value in enumerate(row):
                    is_first = title == "Signals" and (number, column) == (1, 0)
                    is_number = isinstance(value, (int, float))
                    kind = {"valuetype": "float", "value": value} if is_number else {"valuetype": "string"}
                    cell = CoveredTableCell() if value is None else TableCell(**kind, **({"numberrowsspanned": 2, "numbercolumnsspanned": 1} if is_first else {}))
                    if value is not None:
                        cell.addElement(P(text=str(value)))
                    line.addElement(cell)
                page.addElement(line)
            book.spreadsheet.addElement(page)
        book.save(self.path("m.ods"))
        return self.path("m.ods")

    def test_two_sheets_and_merged_cells(self) -> None:
        status, text, said = run(dbc2plan.main, self.book(Messages=MESSAGES, Signals=SIGNALS))
        self.assertEqual(status, 0, said)
        self.assertEqual({label: (told["byte"], told.get("per", 1)) for label, told in signals_of(text, "EEC1").items()}, {"Speed": (4, 8), "Mode": (1, 1)})

    def test_locked_and_large_ones(self) -> None:
        for parts, why in (({"content.xml": b"x", "META-INF/manifest.xml": b"<manifest:encryption-data>"}, "it is locked by a password"),
                           ({"content.xml": bytes((1 << 26) + 1)}, "its sheets have more than 64 MB"), ({"content.xml": b"<x"}, "odfpy can't read it"),
                           ({"other.xml": b""}, "it is no ODS file")):
            with zipfile.ZipFile(self.path("m.ods"), "w", zipfile.ZIP_DEFLATED) as file:
                for name, data in parts.items():
                    file.writestr(name, data)
            status, text, said = run(dbc2plan.main, self.path("m.ods"))
            self.assertEqual((status, text, said.count("\n")), (2, "", 1), said)
            self.assertIn(why, said)


class ReadBack(InFolder):
    """What `table` writes."""

    def test_each_plan_of_the_examples(self) -> None:
        for name in plans():
            status, rows, _ = run(table.main, "--csv", name)
            self.assertEqual(status, 0, name)
            status, text, said = run(dbc2plan.main, self.write("t.csv", rows))
            self.assertEqual((status, said.strip().rpartition(", ")[2]), (0, "notes 0"), name)
            self.assertEqual(run(compare.main, name, self.write("t.toml", text))[1], "changes 0 breaks 0\n", name)

    def test_what_was_edited_there(self) -> None:
        rows = run(table.main, "--csv", example("truck.toml"))[1]
        status, text, said = run(dbc2plan.main, self.write("t.csv", rows.replace(",4,1,16,measured", ",vier,1,16,measured", 1)))
        self.assertEqual(status, 0)
        number = next(at for at, line in enumerate(rows.split("\n"), 1) if ",4,1,16,measured" in line)
        self.assertIn(f"row {number}, column byte: 'vier' is no number", said)
        self.assertIn(f"# left out: row {number}, column byte: 'vier' is no number", text)

    def test_tables_among_other_files(self) -> None:
        rows = run(table.main, "--csv", example("truck.toml"))[1]
        status, text, said = run(dbc2plan.main, self.write("t.csv", rows), self.write("u.csv", rows + "\n"))
        self.assertEqual((status, text, said.count("\n")), (2, "", 1))
        self.assertIn("join plans by join", said)

    def test_the_keys_of_a_plan(self) -> None:
        text = text_of(example("truck.toml")).replace("version = 4\n", "version = 4\nkeep_free = [200]\nstrangers = 2\n", 1)
        rows = run(table.main, "--csv", self.write("p.toml", text), "plan")[1].splitlines()
        self.assertEqual(rows[0], "key,value,line")
        self.assertIn("keep_free,200", rows[2])
        self.assertIn("strangers,2", rows[3])


if __name__ == "__main__":
    unittest.main()
