"""The plan of one variant of a line of vehicles, as a file."""

import contextlib
import io
import json
import math
import os
import unittest

import j39plan
from j39plan import program
from j39plan.cli import variant
from j39plan.plan.answer_objects import check_object
from j39plan.plan.answer_places import placed
from j39plan.plan.hints.full import several
from j39plan.plan.hints.lint import Lint
from j39plan.plan.hints.variants import nowhere
from j39plan.plan.parts import Source
from j39plan.plan.variants import Line, line_of, variant_text
from tests.support import TOP, InFolder, answered, example, run, text_of

# Where plans stand with what check answers.
CHECKS = os.path.join(TOP, "rows", "checks")

# Claims of D at 0 and of R at 15, a frame of D, and another one 3 s later.
DETROIT = (
    "(1.0) can0 18EEFF00#0000E02600000000\n(1.1) can0 18EEFF0F#00000037000A0000\n(1.2) can0 0CF00400#FFFFFFFFFFFFFFFF\n(4.0) can0 0CF00400#FFFFFFFFFFFFFFFF\n"
)

# A plan of a line with one choice of the example's, another one of its own, its engine by another label, and a flow that goes with an alternative alone.
OTHER = """version = 4
[[choice]]
of = ["DETROIT", "CUMMINS"]
[[choice]]
of = ["NO_TEL", "TEL"]
[[never]]
of = ["TEL", "DETROIT"]
[[unit]]
label = "T"
address = 74
name = { manufacturer = 77, function = 25 }
with = ["TEL"]
[[unit]]
label = "CUM"
address = 0
name = { manufacturer = 310, function = 0 }
with = ["CUMMINS"]
[[group]]
label = "EEC1"
pgn = 61444
priority = 3
length = 8
[[flow]]
group = "EEC1"
from = "CUM"
to = "all"
[[need]]
unit = "T"
group = "EEC1"
with = ["TEL"]
"""

CHOICES = """choice 1 of A
choice 1 of B
choice 2 of X
choice 2 of Y
choice 3 of L
choice 3 of M
choice 3 of N
never 1 of A
never 1 of X
never 2 of L
unit 1 label ONE
unit 1 with A
unit 1 with B
unit 1 with Y
unit 2 label TWO
unit 2 with M
group 1 label G
flow 1 group G
flow 1 from ONE
flow 1 to all
flow 2 group G
flow 2 from ONE
flow 2 to TWO
need 1 unit TWO
need 1 group G
need 1 with N
"""


class Variants(unittest.TestCase):
    def test_the_first_one_that_is_built_is_taken(self) -> None:
        line = Line.shown(CHOICES)
        self.assertEqual(line.first(set()), {"A", "Y", "M"})
        self.assertEqual(line.first({"X"}), {"B", "X", "M"})
        self.assertEqual(line.first({"N", "A"}), {"A", "Y", "N"})
        self.assertIsNone(line.first({"A", "X"}))
        self.assertIsNone(line.first({"L"}))

    def test_what_names_something_that_is_not_there_is_not_there(self) -> None:
        line = Line.shown(CHOICES)
        self.assertEqual(line.there({"A", "Y", "M"}), {("unit", 1), ("unit", 2), ("group", 1), ("flow", 1), ("flow", 2)})
        self.assertEqual(line.there({"A", "Y", "N"}), {("unit", 1), ("group", 1), ("flow", 1)})
        self.assertEqual(line.there({"B", "X", "M"}), {("unit", 2), ("group", 1)})

    def test_comments_go_with_their_tables(self) -> None:
        text = (
            "# first\nversion = 4 # here\n[[choice]] # engine\nof = [\"A\", \"B\"]\n\n# the first\n[[unit]]\nlabel = \"U\"\n"
            "with = [ # some\n  \"A\", # one\n] # all\naddress = 0 # zero\n\n# the second\n[[unit]]\nlabel = \"V\"\n"
        )
        self.assertEqual(variant_text(text, {("unit", 1)}), "# first\nversion = 4 # here\n# the first\n[[unit]]\nlabel = \"U\"\naddress = 0 # zero\n\n")
        self.assertEqual(variant_text(text, {("unit", 2)}), "# first\nversion = 4 # here\n# the second\n[[unit]]\nlabel = \"V\"\n")


class Written(InFolder):
    def test_the_plan_of_each_variant_is_written(self) -> None:
        chosen: list[list[str]] = [[], ["DETROIT"], ["DETROIT", "RETARDER"], ["EATON"], ["CUMMINS", "ALLISON"]]
        for labels in chosen:
            status, written, _ = run("variant.py", example("line.toml"), *labels)
            self.assertEqual(status, 0, labels)
            self.assertEqual(program.shown(self.write("one.toml", written)), program.call(["variant", example("line.toml"), *labels])[1], labels)

    def test_a_plan_without_choices_is_written_as_it_is(self) -> None:
        self.assertEqual(run("variant.py", example("truck.toml"))[:2], (0, text_of(example("truck.toml"))))

    def test_what_is_not_built_is_refused(self) -> None:
        """The label that no choice has, the two of one choice, and the never that forbids it are named."""
        never = "Never  (the never at line 13 forbids RETARDER with ALLISON or EATON)"
        for labels, why in ((["RETARDER", "EATON"], never), (["CUMMINS", "DETROIT"], "Repeated  (CUMMINS and DETROIT are of one choice)"),
                            (["ZF", "ZF"], "Repeated  (ZF stands there twice)"), (["VOITH"], "UnknownLabel  (no choice has VOITH)"),
                            (["RETARDR"], "UnknownLabel  (no choice has RETARDR; did you mean RETARDER?)")):
            status, _, error = answered(variant.main, example("line.toml"), *labels)
            self.assertEqual((status, error.partition(": ")[2]), (1, f"refused variant {why}\n"))

    def test_ends_of_lines_stay(self) -> None:
        """Those of Windows, with which the file was written: also behind a with that is taken away."""
        text = text_of(example("line.toml")).replace("\n", "\r\n")
        with contextlib.redirect_stdout(io.StringIO()) as written:
            self.assertEqual(variant.main([self.write("line.toml", text), "DETROIT", "RETARDER"]), 0)
        unix = answered(variant.main, example("line.toml"), "DETROIT", "RETARDER")[1]
        self.assertEqual(written.getvalue(), unix.replace("\n", "\r\n"))


class Lines(InFolder):
    def line(self) -> Source:
        return Source(text_of(example("line.toml")))

    def test_the_text_has_the_choices_that_show_answers(self) -> None:
        for plan in (example("line.toml"), self.write("other.toml", OTHER)):
            by_text, shown = Line.of(Source(text_of(plan))), line_of(plan)
            self.assertEqual((by_text.named, by_text.choices), (shown.named, shown.choices))
            self.assertEqual({table: names for table, names in by_text.names.items() if names}, shown.names)

    def test_tables_stay_at_their_lines(self) -> None:
        text = text_of(example("line.toml"))
        line = Line.of(Source(text))
        written = variant_text(text, line.there({"DETROIT", "NO_RETARDER", "ZF"}), True)
        assert written is not None
        self.assertEqual((Source(text)["unit"][1].line(), len(text.splitlines())), (Source(written)["unit"][0].line(), len(written.splitlines())))

    def test_what_no_vehicle_has_and_what_may_not_be_meant(self) -> None:
        text = text_of(example("line.toml")) + '[[unit]]\nlabel = "N"\naddress = 9\nname = { manufacturer = 9 }\nwith = ["RETARDER", "EATON"]\n[[choice]]\nof = ["A", "B"]\n'
        source = Source(text)
        hints = [hint for _, hint in (*nowhere(source), *Lint(source).hints())]
        self.assertIn("unit N: no vehicle of the line has it", hints)
        self.assertIn("choice A, B: no with names one of them", hints)
        self.assertIn("flow 3, TSC1 from D to R: D may be there without R; is it silent then?", hints)
        self.assertFalse([hint for hint in hints if "prefers 0" in hint or "meet it" in hint])

    def test_findings_have_the_lists_by_which_they_go(self) -> None:
        answer = "F2 SameFixedAddress C D 0 in CUMMINS\n  up D\nF19 NeedUnmet 1 in DETROIT RETARDER\nF30 ManyVariants 2048\nfindings 3\n"
        parts = list(placed(text_of(example("line.toml")).encode(), answer))
        self.assertEqual([part.all_below for part in parts], [
            ["  up D", "  with CUMMINS: unit C at line 21", "  with DETROIT: unit D at line 27"],
            ["  with DETROIT, ZF: need 1 at line 78", "  with RETARDER: unit R at line 33"], [], []])
        self.assertIn("with what brings it alone (DETROIT)", parts[1].hint)
        found = check_object("line.toml", 1, parts)["findings"]
        self.assertEqual([one.get("variant") for one in found], [["CUMMINS"], ["DETROIT", "RETARDER"], None])
        self.assertEqual((found[0]["steps"], found[0]["with"][0], found[2]["variants"]), (["up D"], "with CUMMINS: unit C at line 21", 2048))


class Found(unittest.TestCase):
    def test_choices_by_which_there_are_many_vehicles(self) -> None:
        """Beside another finding, by units of both alternatives; by a need that depends on each of eleven options; and by what isn't built."""
        for name, number, told in (
            ("line_eleven_choices_and_two_at_one_address", 2048, "by A0 or B0, A1 or B1, A2 or B2, A3 or B3, A4 or B4 ..:"),
            ("line_older_without_eleven_options", 2048, "by NO_R0 or R0, NO_R1 or R1, NO_R2 or R2, NO_R3 or R3, NO_R4 or R4 ..:"),
            ("line_options_that_may_choose_without_a_gearbox", 1536, "by CUMMINS or DETROIT, ZF or ALLISON or EATON, NO_R0 or R0, NO_R1 or R1, NO_R2 or R2 ..:"),
        ):
            status, answer, _ = run("where.py", os.path.join(CHECKS, f"{name}.toml"))
            self.assertEqual(status, 1)
            many = next(line for line in answer.splitlines() if f": F30 ManyVariants {number}  (" in line)
            self.assertIn(told, many)

    def test_full_alternatives(self) -> None:
        """Of the options of a line those count alone by whose absence something is there, or may be built that isn't with them."""
        for name in ("line_thirty_options", "line_need_without_within"):
            self.assertEqual(several(Source(text_of(os.path.join(CHECKS, f"{name}.toml")))), [])
        choices = several(Source(text_of(example("truck_line.toml"))))
        self.assertEqual((len(choices), math.prod(map(len, choices))), (6, 96))

    def test_which_vehicles_have_a_finding(self) -> None:
        """In the program's own answers: behind the finding as text, for GitHub and as JSON, with the lists by which it goes, also those of flows that meet a need."""
        for name, labels, told in (
            ("line_contested", ["DETROIT"], "with DETROIT: unit D at line 19"),
            ("line_private_groups", ["CUMMINS", "RETARDER"], "with CUMMINS: group P at line 21"),
            ("line_older_without_an_option", ["NO_RETARDER"], "with RETARDER: unit R at line 15"),
        ):
            plan = os.path.join(CHECKS, f"{name}.toml")
            for words in (["where.py", plan], ["where.py", "--github", plan]):
                status, answer, _ = run(*words)
                self.assertEqual(status, 1)
                self.assertIn(f" in {' '.join(labels)}  (", answer)
            first = json.loads(run("where.py", "--json", plan)[1])["findings"][0]
            self.assertEqual((first["variant"], first["with"][0]), (labels, told))


class Taken(InFolder):
    def test_a_plan_with_choices_is_refused_by_what_wants_one_plan(self) -> None:
        line = example("line.toml")
        for words in (["startup.py", line, "C"], ["against.py", line, self.write("drive.log", DETROIT)]):
            status, answer, error = run(*words)
            self.assertEqual((status, answer), (1, ""), words)
            self.assertTrue(error.endswith("refused plan Choices  (--variant LABEL,.. takes the plan of one vehicle)\n"), error)

    def test_the_plan_of_one_vehicle_is_taken(self) -> None:
        line = example("line.toml")
        self.assertEqual(run("where.py", line, "--variant", "DETROIT,RETARDER")[:2], (0, "ok 2 units 3 groups 3 flows\n"))
        self.assertEqual(run("where.py", line, "--variant", "RETARDER,EATON")[::2], (1, "where: refused variant Never  "
                                                                                    "(the never at line 13 forbids RETARDER with ALLISON or EATON)\n"))
        status, dbc, _ = run("plan2dbc.py", line, "--variant", "DETROIT")
        self.assertEqual((status, "BU_: _D\n" in dbc), (0, True))
        self.assertEqual(run("startup.py", line, "--variant", "CUMMINS")[1].splitlines()[1:], ["up C"])
        log = self.write("drive.log", DETROIT)
        answer = run("against.py", line, log, "--variant", "DETROIT,RETARDER")[1]
        self.assertIn("line.toml: flow 3, ERC1 from R to all: never sent", answer)
        status, compared, _ = run("compare.py", line, example("truck.toml"), "--variant", "DETROIT")
        self.assertIn(f"{example('truck.toml')}:6: unit ENGINE: it was called D ({line}:24)\n", compared)

    def test_findings_name_vehicles_that_have_them(self) -> None:
        text = text_of(example("line.toml"))
        self.assertIn('with = ["DETROIT"]', text)
        for change, labels, finding in ((('with = ["DETROIT"]', ""), "CUMMINS", "F2 SameFixedAddress C D 0"),
                                        (("address = 15", "address = 0"), "CUMMINS RETARDER", "F2 SameFixedAddress C R 0")):
            plan = self.write("faulty.toml", text.replace(*change, 1))
            status, answer, _ = run("where.py", plan)
            self.assertEqual(status, 1)
            self.assertIn(f": {finding} in {labels}  (", answer)
            self.assertIn(finding, run("where.py", plan, "--variant", labels.replace(" ", ","))[1])

    def test_its_page_has_the_choices(self) -> None:
        status, page, _ = run("report.py", example("line.toml"), "--variant", "RETARDER")
        self.assertEqual((status, "<h1>Plan line.toml (CUMMINS, RETARDER, ZF)</h1>" in page), (0, True))
        self.assertIn('<tr><th scope="row">1</th><td>DETROIT</td><td>no</td><td>4</td><td>unit D, need 1 of R (EEC1)</td></tr>', page)
        self.assertIn("Never built: RETARDER, ALLISON or EATON", page)

    def test_the_module_takes_it(self) -> None:
        plan = j39plan.read_plan(example("line.toml"), ["DETROIT"])
        self.assertEqual([unit.label for unit in plan.units], ["D"])
        with self.assertRaisesRegex(j39plan.Refused, "Choices"):
            j39plan.read_plan(example("line.toml"))

    def test_a_log_tells_which_vehicles_it_can_be_of(self) -> None:
        line = example("line.toml")
        status, answer, _ = run("variant.py", line, "--log", self.write("drive.log", DETROIT))
        self.assertEqual((status, answer), (0, "claims D, R\nchoice 1 DETROIT\nchoice 2 RETARDER\nchoice 3 ZF\nfirst DETROIT,RETARDER,ZF\n"))
        short = DETROIT.splitlines(True)[2:3] + DETROIT.splitlines(True)[:1]
        status, answer, _ = run("variant.py", line, "--log", self.write("short.log", "".join(short)))
        self.assertEqual(answer.splitlines()[1:], [
            "the log may begin behind other claims: who doesn't claim may be there", "choice 1 DETROIT", "choice 2 NO_RETARDER or RETARDER",
            "choice 3 ZF or ALLISON or EATON", "first DETROIT,NO_RETARDER,ZF"])
        both = DETROIT + "(5.0) can0 18EEFF00#0000C02600000000\n(5.5) can0 18EEFF09#0000000000000000\n"
        status, answer, _ = run("variant.py", line, "--json", "--log", self.write("both.log", both))
        self.assertEqual((status, json.loads(answer)), (1, {
            "units": ["C", "D", "R"], "others": ["0000000000000000"], "silent": [], "sends": [], "choices": [], "first": []}))

    def test_who_sends_without_a_claim_is_there(self) -> None:
        """One of the units at this address; who claims from somewhere else isn't taken for it, and other interfaces don't count."""
        line = example("line.toml")
        sent = "(1.0) can0 0CF00400#FFFFFFFFFFFFFFFF\n(1.1) can0 18F0000F#FFFFFFFFFFFFFFFF\n(1.2) can1 18F00021#FFFFFFFFFFFFFFFF\n"
        status, answer, _ = run("variant.py", line, "--log", self.write("sent.log", sent))
        self.assertEqual((status, answer.splitlines()), (0, [
            "claims of no unit", "sends C or D", "sends R", "the log may begin behind other claims: who doesn't claim may be there",
            "choice 1 CUMMINS or DETROIT", "choice 2 RETARDER", "choice 3 ZF", "first CUMMINS,RETARDER,ZF"]))
        status, answer, _ = run("variant.py", line, "--log", self.write("sent.log", "(0.9) can0 18EEFF00#0000E02600000000\n" + sent))
        self.assertEqual(answer.splitlines(), ["claims D", "sends R", "the log may begin behind other claims: who doesn't claim may be there",
                                               "choice 1 DETROIT", "choice 2 RETARDER", "choice 3 ZF", "first DETROIT,RETARDER,ZF"])

    def test_against_takes_the_one_that_the_log_shows(self) -> None:
        """It says which, and compares as with that variant; where none or several fit there is one line, and so it is of what is no log."""
        line, log = example("line.toml"), self.write("drive.log", DETROIT)
        named, shown = (run("against.py", line, log, "--variant", variant) for variant in ("DETROIT,RETARDER,ZF", "log"))
        self.assertEqual((shown[0], shown[1]), named[:2])
        self.assertIn("against: --variant DETROIT,RETARDER,ZF\n", shown[2])
        both = DETROIT + "(5.0) can0 18EEFF00#0000C02600000000\n(5.5) can0 0CF00400#FFFFFFFFFFFFFFFF\n"
        cut = DETROIT[:DETROIT.index("(1.1)") + 30]
        several = "the log can be of several vehicles, with {}: name one, as --variant {}"
        for text, why in ((both, "the log is of no vehicle of the line: it has C, D, R"),
                          (cut, several.format("NO_RETARDER or RETARDER, and ZF or ALLISON or EATON", "DETROIT,NO_RETARDER,ZF")),
                          ("", several.format("CUMMINS or DETROIT, and NO_RETARDER or RETARDER, and ZF or ALLISON or EATON", "CUMMINS,NO_RETARDER,ZF"))):
            self.assertEqual(run("against.py", line, self.write("other.log", text), "--variant", "log"), (2, "", f"against: {line}: {why}\n"))
        self.assertEqual(run("against.py", example("truck.toml"), log, "--variant", "log"), (2, "", f"against: {example('truck.toml')} has no choices\n"))
        self.assertEqual(run("against.py", line, self.path("none.log"), "--variant", "log"), (4, "", f"against: {self.path('none.log')}: No such file or directory\n"))
        piped = run("against.py", line, "-", "--variant", "log", text=DETROIT)
        self.assertEqual(piped, (2, "", "against: --variant log takes regular files, which are read twice\n"))


class Joined(InFolder):
    def test_choices_of_equal_alternatives_are_one(self) -> None:
        status, text, error = run("join.py", example("line.toml"), self.write("other.toml", OTHER))
        self.assertEqual((status, error.splitlines()[-1].endswith("notes 1, contradictions 0")), (0, True), error)
        joined = Source(text)
        self.assertEqual([choice.values("of") for choice in joined["choice"]], [["CUMMINS", "DETROIT"], ["NO_RETARDER", "RETARDER"], ["ZF", "ALLISON", "EATON"], ["NO_TEL", "TEL"]])
        self.assertEqual([never.values("of") for never in joined["never"]], [["RETARDER"], ["TEL", "DETROIT"]])
        self.assertEqual([unit.label for unit in joined["unit"]], ["C", "D", "R", "T"])
        self.assertEqual(run("where.py", self.write("joined.toml", text), "--variant", "TEL")[1], "ok 2 units 2 groups 1 flows\n")

    def test_choices_that_share_some_alternatives_contradict(self) -> None:
        status, text, error = run("join.py", example("line.toml"), self.write("other.toml", OTHER.replace('"CUMMINS"]', '"CAT"]')))
        self.assertEqual((status, text), (1, ""))
        self.assertIn('other.toml:3: choice: of = ["DETROIT", "CAT"], and ["CUMMINS", "DETROIT"] at', error)

    def test_the_plan_of_one_vehicle_says_nothing_of_alternatives(self) -> None:
        single = OTHER.partition("[[choice]]")[0] + OTHER[OTHER.index("[[unit]]"):].replace('with = ["TEL"]\n', "").replace('with = ["CUMMINS"]\n', "")
        status, text, error = run("join.py", example("line.toml"), self.write("single.toml", single))
        self.assertEqual((status, [unit.values("with") for unit in Source(text)["unit"]]), (0, [["CUMMINS"], ["DETROIT"], ["RETARDER"], []]), error)


if __name__ == "__main__":
    unittest.main()
