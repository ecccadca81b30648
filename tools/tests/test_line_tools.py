"""What the tools make of a plan with choices as a whole: its page, its tables, its mends, a DBC, and a vehicle's file that names it."""

import json
import os
import re
import unittest
from fractions import Fraction
from unittest import mock

from j39plan import program
from j39plan.cli import mend, plan2dbc, report, table, where
from j39plan.plan.bus_shares import shares_of
from j39plan.plan.page_origin import EPOCH
from j39plan.plan.parts import Source
from j39plan.plan.tables import Tables
from tests.support import TOP, InFolder, answered, example, there, text_of

LINE = text_of(example("line.toml"))

# The plans of rows/loads, of which the program says what they take of the bus.
LOADS = os.path.join(TOP, "rows", "loads")


class Pages(InFolder):
    def page(self, plan: str, *words: str) -> str:
        """The page of a plan."""
        status, text, said = answered(report.main, *words, plan, "-o", self.path("page.html"))
        self.assertEqual((status, text, said), (0, "", ""), plan)
        return text_of(self.path("page.html"))

    def test_a_line_has_a_page(self) -> None:
        """Its choices, how many vehicles have each alternative, and all that any of them has."""
        page = self.page(example("line.toml"))
        self.assertIn("<h1>Plan line.toml (a line of 8 vehicles)</h1>", page)
        self.assertIn('<tr><th scope="row">2</th><td>RETARDER</td><td>2</td><td>unit R, group ERC1</td></tr>', page)
        for label in ("C", "D", "R"):
            self.assertIn(f'<tr><th scope="row">{label}</th>', page)

    def test_findings_of_a_line_name_their_vehicles(self) -> None:
        page = self.page(self.write("two.toml", LINE.replace("address = 15", "address = 0")))
        self.assertIn("F2 SameFixedAddress C R 0 in CUMMINS RETARDER", page)

    def test_load_of_a_line_is_that_of_its_worst_vehicle(self) -> None:
        page = self.page(example("truck_line.toml"))
        self.assertIn("Load, times and ages are those of the worst vehicle of the line.", page)
        self.assertNotIn('<th scope="row">all</th>', page)

    def test_a_page_says_of_what_and_when_it_was_written(self) -> None:
        """The digest is that of `printf 'version = 1\\n' | sha256sum`, the second that of 2023-11-14."""
        plan = self.write("plan.toml", "version = 1\n")
        digest = "dbab12665d98aef021ba64953c61b0ed8a908cfb56a1c01e2fcb4b052b71a2a1"
        told = f"<p>SHA-256 of <code>plan.toml</code>: <code>{digest}</code></p>"
        self.assertIn(f"<footer><p>Written on 2026-11-30 by j39plan 0.1.0.</p>{told}</footer>", self.page(plan, "--date", "2026-11-30"))
        with mock.patch.dict(os.environ, {EPOCH: "1700000000"}):
            self.assertIn("<p>Written on 2023-11-14 by ", self.page(plan))
        with mock.patch.dict(os.environ, {EPOCH: "soon"}):
            self.assertEqual(answered(report.main, plan)[:2], (2, ""))

    def test_a_day_that_is_none(self) -> None:
        for words in (["--date", "30.11.2026"], ["--date", "2026-02-30"]):
            status, text, said = answered(report.main, *words, example("line.toml"))
            self.assertEqual((status, text), (2, ""))
            self.assertIn(f"{words[1]} is no day as 2026-11-30", said)


class Shares(unittest.TestCase):
    def test_shares_of_flows_and_requests_are_the_load(self) -> None:
        """Of each plan of which `load` prints one: long messages to all and to one, requests, damage, clocks that drift."""
        count = 0
        for name in sorted(name for name in os.listdir(LOADS) if name.endswith(".toml")):
            plan = os.path.join(LOADS, name)
            load = re.search(r"^load (\d+) of", program.call(["load", "--", plan])[1], re.MULTILINE)
            if load is not None and "\n[[choice]]" not in text_of(plan):
                tables, count = Tables.of(plan), count + 1
                self.assertEqual(shares_of(tables, there(tables.timing)).total, int(load[1]), name)
        self.assertGreater(count, 40)

    def test_what_each_takes(self) -> None:
        """Of 39 bytes: to one unit RTS, 6 packets, a CTS and the acknowledgement, to all a BAM and 6 packets, of 160 bits each; a request has 110 bits, a
        single frame of 4 bytes 120; of two broadcasts at 30 ms the packets are no more than one in each 50 ms, half of them each."""
        plan = """version = 4
timing = { bitrate = 250000, unplanned = 0 }
unit = [{ label = "A", address = 0, name = {} }, { label = "B", address = 1, name = { function = 1 } }]
group = [{ label = "L", pgn = 65260, priority = 6, length = 39 }, { label = "S", pgn = 65261, priority = 6, length = 4 }, { label = "M", pgn = 65259, priority = 6, length = 39 }]
flow = [{ group = "L", from = "A", to = "B", period = 1000 }, { group = "S", from = "A", to = "all", period = 1000 }, { group = "L", from = "B", to = "all", period = PERIOD },
        { group = "M", from = "B", to = "all", period = PERIOD }]
request = [{ group = "L", from = "B", to = "A", period = 1000 }]
"""
        for period, each in ((1000, 7 * 160), (30, Fraction(20 * 160 + -(-160000 // 300), 2))):
            tables = Source(plan.replace("PERIOD", str(period))).tables
            shares = shares_of(tables, there(tables.timing))
            self.assertEqual((shares.flows, shares.requests), ({1: 9 * 160, 2: 120, 3: each, 4: each}, {1: 110}))


class Tabled(InFolder):
    def test_rows_say_with_which_alternatives_they_are_there(self) -> None:
        status, told, _ = answered(table.main, "--json", example("line.toml"))
        sheets = json.loads(told)
        self.assertEqual(status, 0)
        self.assertEqual([(row["unit"], row.get("with")) for row in sheets["units"]], [("C", "CUMMINS"), ("D", "DETROIT"), ("R", "RETARDER")])
        self.assertEqual(([row.get("with") for row in sheets["needs"]], [row.get("with") for row in sheets["groups"]]), (["DETROIT, ZF"], [None, None, "RETARDER"]))
        self.assertNotIn("with", answered(table.main, "--csv", example("truck.toml"), "units")[1].splitlines()[0])


class Mended(InFolder):
    def mends(self, text: str, *words: str) -> tuple[int, list[str]]:
        """Status and lines of mends of a line."""
        status, told, _ = answered(mend.main, *words, self.write("line.toml", text))
        return status, told.splitlines()

    def test_an_address_that_two_units_have_in_some_vehicle(self) -> None:
        status, lines = self.mends(LINE.replace("address = 15", "address = 0"))
        self.assertIn("F2 SameFixedAddress C R 0 in CUMMINS RETARDER", lines[0])
        self.assertIn("  mend: unit R: address = 12  (its function's by SAE J1939", lines[1])
        self.assertEqual((status, lines[-1]), (0, "then ok 3 units 3 groups 4 flows 3 choices"))

    def test_a_private_group_and_a_need_without_what_brings_them(self) -> None:
        """Both are there only with the retarder, which sends the group, and with the engine that the need names."""
        text = LINE.replace('with = ["RETARDER"]\n\n[[flow]]', "private = true\n\n[[flow]]").replace("pgn = 61440", "pgn = 65280")
        self.assertIn('  mend: group ERC1: with = ["RETARDER"]', self.mends(text)[1])
        status, lines = self.mends(LINE.replace('with = ["DETROIT", "ZF"]\n', ""))
        self.assertTrue(any(line.startswith("  mend: ") and line.endswith(': with = ["DETROIT"]') for line in lines), lines)
        self.assertEqual((status, lines[-1]), (0, "then ok 3 units 3 groups 4 flows 3 choices"))

    def test_nothing_that_can_be_built_is_not_mended(self) -> None:
        status, lines = self.mends(LINE + '[[never]]\nof = ["CUMMINS", "DETROIT"]\n')
        self.assertEqual((status, lines[1]), (1, "  no mend was found"))

    def test_slack_of_a_line(self) -> None:
        """Of the worst vehicle: flow 1 has of its time what `load` says of the line."""
        plan = example("truck_line.toml")
        load = re.search(r"^flow 1 .* within (\d+) of (\d+) us$", program.call(["load", "--", plan])[1], re.MULTILINE)
        assert load is not None
        status, told, _ = answered(mend.main, "--slack", "--json", plan)
        flow = next(flow for flow in json.loads(told)["slack"]["flows"] if flow["flow"] == 1)
        self.assertEqual((status, flow["within"], flow["limit"], flow["left"]), (0, int(load[1]), int(load[2]), int(load[2]) - int(load[1])))


class Written(InFolder):
    def test_a_dbc_of_what_stands_in_the_file(self) -> None:
        """Both engines send one message, and it is said that the DBC has no alternatives."""
        status, told, said = answered(plan2dbc.main, example("line.toml"))
        self.assertEqual(status, 0)
        self.assertRegex(told, r"\nBU_: _?C _?D _?R\n")
        self.assertRegex(told, r"BO_TX_BU_ \d+ : _?C,_?D;")
        self.assertIn("choice: a DBC has no alternatives: what goes with those of 3 choices stands in it together\n", said)

    def test_a_vehicle_whose_plan_has_choices(self) -> None:
        """The plan and its line, the vehicle's line, and what to do."""
        self.write("line.toml", LINE)
        name = self.write("vehicle.toml", 'version = 1\n[[bus]]\nlabel = "V"\nplan = "line.toml"\n')
        options: list[list[str]] = [[], ["--github"]]
        for words in options:
            status, told, _ = answered(where.main, *words, name)
            self.assertEqual(status, 2)
            self.assertIn("refused plan Choices", told)
            self.assertIn(f'{name}:4: plan = "line.toml" has choices: name the plan of one vehicle, by variant.py line.toml LABEL.. > one.toml', told)
        line = LINE.split("\n").index("[[choice]]") + 1
        self.assertTrue(answered(where.main, name)[1].startswith(f"bus V\n{self.path('line.toml')}:{line}: refused plan Choices"))
        refused = json.loads(answered(where.main, "--json", name)[1])["buses"][0]["refused"]
        self.assertEqual((refused["cause"], refused["line"]), ("Choices", line))
