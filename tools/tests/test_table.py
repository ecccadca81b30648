"""A plan as tables: each row as the plan says it, with what the program answers, in each form."""

import csv
import io
import json
import unittest

from tests.support import InFolder, example, needs, run, text_of

PLAN = """version = 4

[timing]
bitrate = 250000
unplanned = 0

[[unit]]
label = "ENGINE" # supplier A
address = 0
name = { manufacturer = 310, function = 0 }

[[unit]]
label = "CLUSTER"
address = 130
name = { function = 19, arbitrary = true }
queue = "any"

[[group]]
label = "EEC1" # 10 ms, "speeds"
pgn = 61444
priority = 3
length = 8
when = { byte = 1, bits = 4, value = 2 }

[[group.signal]]
label = "SPN190" # engine speed
byte = 4
bits = 16
kind = "measured"
per = 8
unit = "rpm"
spn = 190
values = { 0 = "off", 8 = "one" }

[[group.signal]]
label = "OTHER"
byte = 3
bits = 8
kind = "measured"
offset = -250
unit = "1/2 %"

[[group.text]]
label = "T"
byte = 6
bytes = 2

[[flow]]
group = "EEC1" # as measured
from = "ENGINE"
to = "all"
period = 10
pause = 20

[[flow]]
group = "EEC1"
from = "CLUSTER"
to = "all"
on_request = true
period = 1000

[[need]]
unit = "CLUSTER"
group = "EEC1"
signal = "SPN190"
within = 30

[[request]]
group = "EEC1"
from = "CLUSTER"
to = "ENGINE"
"""


class Tables(InFolder):
    def table(self, *words: str, text: str = PLAN) -> str:
        status, answer, said = run("table.py", self.write("plan.toml", text), *words)
        self.assertEqual((status, said), (0, ""))
        return answer

    def rows(self, name: str, text: str = PLAN) -> list[dict[str, str]]:
        """The rows of a table, without empty cells."""
        return [{head: cell for head, cell in row.items() if cell} for row in csv.DictReader(io.StringIO(self.table(name, "--csv", text=text)))]

    def test_units(self) -> None:
        """The NAME of the engine: 310 * 2^21 is 26C00000; the cluster's bit 63 is set, and 19 stands from bit 40 on. Nobody takes 130 from it."""
        engine, cluster = self.rows("units")
        self.assertEqual(engine, {"unit": "ENGINE", "address": "0", "stays": "yes", "NAME": "0000000026......", "manufacturer": "310", "ecu": "0",
                                  "function_instance": "0", "function": "0", "system": "0", "system_instance": "0", "industry": "0", "arbitrary": "no",
                                  "claims": "yes", "queue": "priority", "sends": "1", "needs": "0", "comment": "supplier A", "line": "7"})
        self.assertEqual({key: cluster[key] for key in ("NAME", "arbitrary", "queue", "needs", "line")},
                         {"NAME": "8000130000......", "arbitrary": "yes", "queue": "any", "needs": "1", "line": "12"})

    def test_groups(self) -> None:
        group, = self.rows("groups")
        self.assertEqual(group, {"group": "EEC1", "pgn": "61444", "pgn hex": "F004", "priority": "3", "length": "8", "most": "8", "private": "no",
                                 "when": "1.1, 4 bits = 2", "signals": "2", "from": "ENGINE CLUSTER", "comment": '10 ms, "speeds"', "line": "18"})

    def test_signals(self) -> None:
        """Factors and offsets in the unit: 1/8 rpm is 0.125; -250 halves of a percent are -125."""
        speed, other, text = self.rows("signals")
        self.assertEqual(speed, {"group": "EEC1", "pgn": "61444", "signal": "SPN190", "spn": "190", "byte": "4", "bit": "1", "bits": "16", "kind": "measured",
                                 "factor": "0.125", "offset": "0", "unit": "rpm", "names": "0 off, 8 one", "optional": "no", "needed by": "CLUSTER",
                                 "comment": "engine speed", "line": "25"})
        self.assertEqual((other["factor"], other["offset"], other["unit"], "needed by" in other), ("0.5", "-125", "%", False))
        self.assertEqual((text["signal"], text["kind"], text["byte"], text["bits"]), ("T", "text", "6", "16"))

    def test_flows_needs_and_requests(self) -> None:
        """The frame waits for one that has begun and takes 640 us itself; the need is met by flow 1, and 20 ms and 1.28 are the age."""
        first, second = self.rows("flows")
        self.assertEqual(first, {"flow": "1", "group": "EEC1", "pgn": "61444", "priority": "3", "from": "ENGINE", "to": "all", "period ms": "10", "pause ms": "20",
                                 "on request": "no", "within ms": "1.28", "limit ms": "10.0", "comment": "as measured", "line": "48"})
        self.assertEqual((second["on request"], "within ms" in second), ("yes", True))
        need, = self.rows("needs")
        self.assertEqual(need, {"need": "1", "unit": "CLUSTER", "group": "EEC1", "signal": "SPN190", "within ms": "30", "met by flows": "1", "age ms": "21.28", "line": "62"})
        request, = self.rows("requests")
        self.assertEqual(request, {"request": "1", "group": "EEC1", "from": "CLUSTER", "to": "ENGINE", "answered by flows": "1", "line": "68"})

    def test_what_is_not_shown(self) -> None:
        """A late flow, and data that is too old: their limits stand, and in words that no bound is shown."""
        text = PLAN.replace("period = 10", "period = 10\ndeadline = 1").replace("within = 30", "within = 20")
        self.assertEqual([(row["within ms"], row["limit ms"]) for row in self.rows("flows", text)[:1]], [("not shown", "1.0")])
        self.assertEqual(self.rows("needs", text)[0]["age ms"], "not shown")

    def test_forms(self) -> None:
        """Several tables of CSV stand below their names; the text leaves out columns in which nothing stands; the JSON has what isn't empty."""
        self.assertEqual([line for line in self.table("--csv", "needs", "requests").split("\n") if "," not in line], ["needs", "", "requests", ""])
        lines = self.table("needs").splitlines()
        self.assertEqual(lines, ["need  unit     group  signal  within ms  met by flows  age ms  line", "   1  CLUSTER  EEC1   SPN190         30             1   21.28    62"])
        told = json.loads(self.table("--json"))
        self.assertEqual(list(told), ["units", "groups", "signals", "flows", "needs", "requests", "plan"])
        self.assertEqual((told["units"][0]["arbitrary"], told["signals"][0]["factor"], "spn" in told["signals"][1]), (False, 0.125, False))

    @needs("openpyxl", "python3-openpyxl")
    def test_a_workbook(self) -> None:
        """A sheet for each table, with numbers as numbers."""
        from openpyxl import load_workbook

        self.table("--xlsx", self.path("plan.xlsx"))
        book = load_workbook(self.path("plan.xlsx"))
        self.assertEqual(book.sheetnames, ["units", "groups", "signals", "flows", "needs", "requests", "plan"])
        rows = list(book["flows"].iter_rows(values_only=True))
        self.assertEqual(rows[1][:7], (1, "EEC1", 61444, 3, "ENGINE", "all", 10))
        self.assertEqual((book["units"].freeze_panes, book["units"].auto_filter.ref), ("B2", "A1:U3"))

    def test_all_examples(self) -> None:
        """Of a plan with findings too; of one whose addresses have some nobody knows who stays."""
        units = json.loads(run("table.py", "--json", example("findings/f02_same_fixed_address.toml"), "units")[1])["units"]
        self.assertEqual([("stays" in unit, unit["address"]) for unit in units][:1], [(False, 0)])
        self.assertEqual(len(json.loads(run("table.py", "--json", example("truck.toml"))[1])["flows"]), text_of(example("truck.toml")).count("[[flow]]"))

    def test_what_cannot_be_done(self) -> None:
        plan = self.write("plan.toml", PLAN)
        for words, why in (((plan, "cars"), "no table is called cars"), ((self.write("bad.toml", "x"),), "bad.toml:1: refused Text"),
                           ((self.write("empty.toml", "version = 4\n"), "units", "--xlsx", self.path("x.xlsx")), "has none of these tables")):
            status, answer, said = run("table.py", *words)
            self.assertEqual((status, answer, why in said), (2, "", True), said)


if __name__ == "__main__":
    unittest.main()
