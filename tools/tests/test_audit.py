"""What `audit` accuses of: its lines by their parts, and what `against` and `answer` make of them."""

import json
import re
import subprocess
import sys
import os
import unittest
from unittest import mock

from j39plan import program
from j39plan.log import audit
from j39plan.log.checks import premises
from j39plan.log.checks.deviations import Found
from j39plan.log.files import Log
from j39plan.plan.answer_grammar import Unknown, line_of
from j39plan.plan.tables import Tables
from tests.logs_against import CLAIMS, FLOWS, PLAN, Compared, run
from tests.support import TOOLS, TOP, InFolder, example, text_of

# A line of each form, and its parts: those of docs/guide/AUDIT.md, and such as have a measure.
SAID = [
    ("short times 3 first 17", "accused", {"word": "short", "times": 3, "first": 17}),
    ("stranger address 140 #A00C81045A20021B times 3 first 8", "accused",
     {"word": "stranger", "address": 140, "name": "#A00C81045A20021B", "times": 3, "first": 8}),
    ("nobody address 15 times 2 first 15", "accused", {"word": "nobody", "address": 15, "times": 2, "first": 15}),
    ("address unit GPS at 29 times 1 first 4", "accused", {"word": "address", "unit": "GPS", "at": 29, "times": 1, "first": 4}),
    ("deaf unit A times 3 first 1", "accused", {"word": "deaf", "unit": "A", "times": 3, "first": 1}),
    ("urgent unit A times 1 first 2", "accused", {"word": "urgent", "unit": "A", "times": 1, "first": 2}),
    ("layout unit ENGINE group HOURS times 1 first 13", "accused", {"word": "layout", "unit": "ENGINE", "group": "HOURS", "times": 1, "first": 13}),
    ("near flow 3 EEC1 ENGINE all times 12 first 120 worst 388 by 2310 us", "accused",
     {"word": "near", "flow": 3, "group": "EEC1", "from": "ENGINE", "to": "all", "times": 12, "first": 120, "worst": 388, "by": 2310}),
    ("near request 2 VI TOOL ENGINE times 1 first 2 worst 2 by 8 us", "accused",
     {"word": "near", "request": 2, "group": "VI", "from": "TOOL", "to": "ENGINE", "times": 1, "first": 2, "worst": 2, "by": 8}),
    ("silent flow 1 EEC1 A all times 4 first 1 worst 6 by 2334 us", "accused",
     {"word": "silent", "flow": 1, "group": "EEC1", "from": "A", "to": "all", "times": 4, "first": 1, "worst": 6, "by": 2334}),
    ("near_or_late flow 1 EEC1 A all times 1 first 2 worst 2 by 708 us", "accused",
     {"word": "near_or_late", "flow": 1, "group": "EEC1", "from": "A", "to": "all", "times": 1, "first": 2, "worst": 2, "by": 708}),
    ("silent_or_late flow 4 TSC1 BRAKES ENGINE times 1 first 90 worst 90 by 11280 us", "accused",
     {"word": "silent_or_late", "flow": 4, "group": "TSC1", "from": "BRAKES", "to": "ENGINE", "times": 1, "first": 90, "worst": 90, "by": 11280}),
    ("silent packets ENGINE times 1 first 61 worst 61 by 20000 us", "accused", {"word": "silent", "unit": "ENGINE", "times": 1, "first": 61, "worst": 61, "by": 20000}),
    ("flow 3 EEC1 ENGINE all seen 4 unclear 1", "flow", {"flow": 3, "group": "EEC1", "from": "ENGINE", "to": "all", "seen": 4, "unclear": 1}),
    ("request 2 VI TOOL ENGINE seen 5", "request", {"request": 2, "group": "VI", "from": "TOOL", "to": "ENGINE", "seen": 5}),
    ("unit ENGINE frames 7", "unit", {"unit": "ENGINE", "frames": 7}),
    ("unit ENGINE frames 7 answers 2", "unit", {"unit": "ENGINE", "frames": 7, "answers": 2}),
    ("frames 18 skipped 0 bad 1 elsewhere 2 unsure 3 breaks 4 stamps 1000", "counts",
     {"frames": 18, "skipped": 0, "bad": 1, "elsewhere": 2, "unsure": 3, "breaks": 4, "stamps": 1000}),
    ("frames 18 skipped 0 bad 1 elsewhere 2 unsure 3 breaks 4 stamps 1000 again 5", "counts",
     {"frames": 18, "skipped": 0, "bad": 1, "elsewhere": 2, "unsure": 3, "breaks": 4, "stamps": 1000, "again": 5}),
    ("deviations 4", "counts", {"deviations": 4}),
]


class Grammar(unittest.TestCase):
    def test_each_form(self) -> None:
        for text, kind, parts in SAID:
            self.assertEqual(line_of(text, audit.LINES), (kind, parts, text))
        for text in ("short times 3", "nobody address ENGINE times 1 first 1", "near flow 3 EEC1 times 1 first 1", "deviations"):
            self.assertRaises(Unknown, line_of, text, audit.LINES)

    def test_what_words_mean_is_what_the_page_says(self) -> None:
        rows = re.findall(r"^\| `(\w+)[^`]*` \| (.*) \| (.*) \|$", text_of(os.path.join(TOP, "docs", "guide", "AUDIT.md")), re.MULTILINE)
        self.assertEqual({word: tuple(said) for word, *said in rows}, audit.WORDS)

    def test_each_word_is_told_or_left_to_the_rules_of_the_tools(self) -> None:
        self.assertLessEqual(set(premises.PREMISES), set(audit.WORDS))


class Answers(InFolder):
    def setUp(self) -> None:
        super().setUp()
        text = text_of(example("service_requests.start.log")).replace("18EEFF0F#", "18EEFF10#").replace("(101.000000) can0 18", "(101.000000) can0 0C")
        self.plan, self.log = example("service_requests.toml"), self.write("broken.log", text.replace("A0860100FFFFFFFF", "A0860100"))

    def test_as_json(self) -> None:
        """Each line by its parts, as the program writes them."""
        status, answer, said = run("answer.py", "audit", self.plan, self.log)
        found = json.loads(answer)
        self.assertEqual((status, said, found["status"], found["log"], found["deviations"], found["unsure"]), (1, "", 1, self.log, 4, 0))
        self.assertEqual([(one["word"], one["first"]) for one in found["accused"]], [("nobody", 15), ("address", 2), ("layout", 13), ("priority", 4)])
        self.assertEqual(found["accused"][1], {"word": "address", "unit": "RETARDER", "at": 16, "times": 1, "first": 2, **audit.WORDS["address"]._asdict()})
        self.assertEqual([len(found[name]) for name in ("flows", "requests", "units")], [4, 3, 4])
        self.assertEqual(found["stamps"], 1000)
        self.assertEqual(json.loads(run("answer.py", "audit", "--stamps", "5", "--part", self.plan, self.log)[1])["stamps"], 5)
        self.assertEqual(json.loads(run("answer.py", "audit", "--quiet", "1000", self.plan, self.log)[1])["accused"], found["accused"])
        self.assertEqual(run("answer.py", "audit", "--quiet", "0", self.plan, self.log)[0], 2)

    def test_of_a_plan_with_findings(self) -> None:
        """As `check` has it."""
        found = json.loads(run("answer.py", "audit", example("findings/f02_same_fixed_address.toml"), self.log)[1])
        self.assertNotIn("accused", found)
        self.assertEqual(found["findings"][0]["finding"], "F2")

    def test_words_that_do_not_go_together(self) -> None:
        for words in (("audit", self.plan), ("check", self.plan, self.log), ("load", "--part", self.plan), ("load", "--quiet", "5", self.plan)):
            self.assertEqual(run("answer.py", *words)[0], 2)

    def test_what_to_ask(self) -> None:
        lines = run("against.py", "--ask", self.plan, self.log)[1].splitlines()
        at = lines.index(f"{self.log}:2: RETARDER claims address 16, planned is 15")
        self.assertEqual(lines[at + 1], "  ask the supplier: which addresses it may take")
        rows = [json.loads(row) for row in run("against.py", "--json", self.plan, self.log)[1].splitlines()]
        self.assertEqual([row["ask"] for row in rows if "ask" in row], ["which addresses it may take", "which priority is set", "which layout it has",
                                                                       "which unit has this source address"])
        self.assertEqual([row["time"] for row in rows if "ask" in row], [100.0006, 101, 103.35, 104.005])

    def test_a_log_from_a_pipe(self) -> None:
        """Its lines can't be read once more: without their times, and what stands in them."""
        with open(self.log, "rb") as log:
            words = [sys.executable, os.path.join(TOOLS, "against.py"), self.plan, "-"]
            answer = subprocess.run(words, stdin=log, stdout=subprocess.PIPE, check=False, env={**os.environ, "J39PLAN": program.path()}).stdout.decode()
            self.assertIn("stdin:2: (100.000600) RETARDER claims address 16, planned is 15\n", answer)  # it is a file
        with subprocess.Popen(["cat", self.log], stdout=subprocess.PIPE) as log_of:
            answer = subprocess.run(words, stdin=log_of.stdout, stdout=subprocess.PIPE, check=False, env={**os.environ, "J39PLAN": program.path()}).stdout.decode()
        for text in ("2: RETARDER claims address 16, planned is 15", "4: VW from AXLE_SENSOR has another priority, planned is 6",
                     "13: HOURS from ENGINE has another length than planned, 8, or the bits of no 'when'",
                     "15: address 15 sends ERC1, a planned group: no unit has it  (2 times)"):
            self.assertIn(f"/dev/stdin:{text}\n", answer)


class Told(Compared):
    def test_a_measure_is_told_by_a_row_alone(self) -> None:
        """A word with a measure takes no code: its worst line, and by how much."""
        rows = {"near": premises.Premise("near", "flow {flow}, {group} from {from} to {to}: {measure} ms nearer than its period")}
        words = {"near": audit.Word("too near", "at which moments it is sent")}
        tables, found = Tables.of(self.write("plan.toml", PLAN)), Found()
        line = line_of("near flow 1 ET1 ENGINE all times 12 first 1 worst 2 by 2310 us", audit.LINES)
        with mock.patch.dict(premises.PREMISES, rows), mock.patch.dict(audit.WORDS, words), Log([self.write("a.log", "(1.0) 18FEEE00#00\n(2.5) 18FEEE00#00\n")]) as log:
            while log.read(1 << 16):
                pass
            premises.Telling(tables, log, premises.Beside(), found).tell([line], {})
        (told,) = found.all()
        self.assertEqual((told.told, told.kind, told.flow, told.unit, told.times), ("flow 1, ET1 from ENGINE to all: 2.31 ms nearer than its period", "near", 1, "ENGINE", 12))
        self.assertEqual(told.place, (2, 2_500_000_000, 2_310_000))

    def test_a_unit_that_never_claims(self) -> None:
        plan = PLAN.replace("version = 1", "version = 4").replace("name = { identity = 1 }", "name = { identity = 1 }\nclaims = false")
        self.assertEqual(self.compared(plan, [*CLAIMS, *FLOWS])[:1], ["L:1: ENGINE claims address 0, and by the plan it never claims one"])

    def test_who_gives_an_address_back(self) -> None:
        """Cannot Claim of a unit that holds an address which nobody took accuses nobody; one of a unit that holds none does."""
        back = "18EEFFFE#0100000000000000"
        self.assertEqual(self.deviations(*CLAIMS, *FLOWS, back, CLAIMS[0]), [])
        self.assertEqual(self.deviations(back, CLAIMS[0]), ["L:1: ENGINE could not claim an address"])

    def test_several_strangers_at_an_address(self) -> None:
        """Each by its NAME, with its own first line, of which `audit` names the first one alone."""
        frames = ["18EEFF05#0100000000000001", "18FEEE05#7DFFFFFFFFFFFFFF", "18EEFF05#0200000000000001", "18EEFF05#0100000000000001"]
        text = "L:{}: NAME 010000000000000{} (identity {}, manufacturer 0, function 0) claims address 5: no unit has it"
        found = self.deviations(*frames)
        self.assertEqual([line for line in found if "claims" in line], [text.format(1, 1, 1) + ", and sends ET1, a planned group  (2 times)", text.format(3, 2, 2)])

    def test_a_stranger_without_an_address(self) -> None:
        found = self.deviations(*CLAIMS, "18EEFFFE#0100000000000001")
        self.assertEqual(found, ["L:3: NAME 0100000000000001 (identity 1, manufacturer 0, function 0) could not claim an address: no unit has it"])

    def test_strangers_that_the_plan_has(self) -> None:
        """They accuse nobody, and what comes from where they may be neither."""
        stranger, sends = "18EEFFC8#0900000000000080", "18FEF1C8#00"
        plan = PLAN.replace("version = 1", "version = 4\nstrangers = 1")
        self.assertEqual(self.compared(plan, [*CLAIMS, stranger, *FLOWS]), [])
        self.assertEqual(self.compared(plan, [*CLAIMS, sends, *FLOWS]), ["L:3: PGN 65265 from 200: no group has it"])
        self.assertEqual(self.compared(PLAN, [*CLAIMS, sends, *FLOWS])[0], "L:3: address 200 sends: no unit has it")

    def test_a_log_that_lacks_frames(self) -> None:
        """SPARE may be at each address again, as if it had claimed none."""
        plan = PLAN + '[[unit]]\nlabel = "SPARE"\naddress = 128\nname = { identity = 3, arbitrary = true }\n'
        log = self.write("drive.log", "".join(f"{frame}\n" for frame in [*CLAIMS, "18EEFF82#0300000000000080", "18FF1085#00", *FLOWS]))
        plan = self.write("plan.toml", plan)
        said = f"{log}:4: address 133 sends: no unit has it\n"
        self.assertIn(said, run("against.py", plan, log)[1])
        self.assertNotIn(said, run("against.py", "--part", plan, log)[1])


if __name__ == "__main__":
    unittest.main()
