"""Faults behind the first one of a plan that the program refuses."""

import json
import unittest.mock

from tests.support import InFolder, needs, run, shown_refusals

PLAN = """version = 4
[[unit]]
label = "ENGINE"
address = 300
name = { identity = 1 }
[[unit]]
label = "GEARBOX"
adress = 3
name = { identity = 9999999, foo = 1 }
[[group]]
label = "EEC1"
pgn = 61444
priority = 9
length = 8
[[group.signal]]
label = "SPEED"
byte = 4
bits = 16
kind = "measurd"
factor = 0.125
values = { 0 = "idle", 1 = "low idle" }
[[flow]]
group = "EEC1"
from = "ENGINE"
to = "all"
deadline = 5
"""
KINDS = '"measured" or "discrete" or "raw" or "states" or "signed" or "dtc"'
NAMES = "a table of raw numbers, as decimal numbers that the signal's bits hold, with labels, and none of a dtc"
FURTHER = [
    "8: also key adress; did you mean address?",
    "9: also identity = 9999999: integer 0..2097151",
    "9: also key foo isn't listed",
    "13: also priority = 9: integer 0..7",
    f'19: also kind = "measurd": {KINDS}; did you mean measured?',
    "20: also key factor isn't listed: step and per: step = 1, per = 8",
    '21: also values = { 0 = "idle", 1 = "low idle" }: ' + NAMES + '; "low idle" is no label, as "low_idle" is: letters, digits and _, at most 32',
    "22: also key period isn't there, which a deadline needs: integer 1..65535",
]
FIRST = "4: refused Range unit 1 key address  (address = 300: integer 0..253)"


@needs("jsonschema", "python3-jsonschema")
class FurtherFaults(InFolder):
    """By the schema, which the library checks."""

    def answer(self, text: str, *words: str) -> list[str]:
        """The lines of where.py without the file's name."""
        plan = self.write("plan.toml", text)
        status, answer, said = run("where.py", *words, plan)
        self.assertEqual((status, said), (2, ""))
        return answer.replace(f"{plan}:", "").splitlines()

    def test_all_of_a_plan(self) -> None:
        self.assertEqual(self.answer(PLAN), [FIRST, *FURTHER])

    def test_keys_of_later_versions(self) -> None:
        told = self.answer(PLAN.replace("version = 4", "version = 1"))
        self.assertEqual(told[-2:], ["21: also key values: only from version = 4 on: write version = 4",
                                     "26: also key deadline: only from version = 3 on: write version = 4"])

    def test_a_plan_of_no_version_has_no_further_fault(self) -> None:
        """Since which keys it may have isn't known."""
        self.assertEqual(len(self.answer(PLAN.replace("version = 4", "version = 9"))), 1)

    def test_statements_that_are_no_toml(self) -> None:
        """Each is told, and what they would say isn't missed."""
        text = PLAN.replace('label = "GEARBOX"', "label = GEARBOX").replace("priority = 9", "priority = True").replace("byte = 4", "byte = 0a")
        told = ["4: also address = 300: integer 0..253", *FURTHER[:3], "13: also priority = True: an integer is wanted",
                "17: also byte = 0a: a hexadecimal number is 0x0A", *FURTHER[4:]]
        self.assertEqual(self.answer(text), ['7: refused Text  (label = GEARBOX: a text needs quotes: "GEARBOX")', *told])

    def test_a_key_without_a_value(self) -> None:
        """What stands on the next line is another key's."""
        text = PLAN.replace("address = 300\nname", "address =\nname").replace("byte = 4", "byte = # from 1")
        self.assertEqual(self.answer(text), ["4: refused Text  (key address: one = and then a value)", *FURTHER[:4], "17: also key byte: one = and then a value",
                                             *FURTHER[4:]])

    def test_what_is_no_integer_for_the_program(self) -> None:
        """10.0 isn't, and no truth value."""
        self.assertEqual(self.answer(PLAN.replace("length = 8", "length = 8.0").replace("bits = 16", "bits = true"))[5:7],
                         ["14: also length = 8.0: integer 1..1785; without a point: 8", "18: also bits = true: integer 1..64"])

    def test_tables_that_are_lists(self) -> None:
        """A header of one bracket is told which one is meant."""
        told = self.answer(PLAN.replace("[[flow]]", "[flow]").replace("[[group.signal]]", "[group.signal]"))
        self.assertEqual(told[0], "22: refused WrongType top key flow  (key flow: an array of tables: [[flow]])")
        self.assertEqual(told[-1], "15: also key signal: an array of tables: [[group.signal]]")

    def test_an_unclosed_bracket_hides_the_rest(self) -> None:
        self.assertEqual(len(self.answer(PLAN.replace("foo = 1 }", "foo = 1"))), 1)

    def test_json(self) -> None:
        """In an array of their own, with lines and hints."""
        found = json.loads("\n".join(self.answer(PLAN, "--json")))
        self.assertEqual(found["refused"]["line"], 4)
        self.assertEqual([f"{fault['line']}: also {fault['hint']}" for fault in found["further"]], FURTHER)

    def test_annotations_and_reports(self) -> None:
        told = self.answer(PLAN, "--github", "--gitlab", self.path("report.json"))
        self.assertEqual([line.partition(" file=")[0] for line in told], ["::error"] * 9)
        with open(self.path("report.json"), encoding="utf-8") as file:
            report = json.load(file)
        self.assertEqual({one["severity"] for one in report}, {"critical"})
        self.assertEqual([one["location"]["lines"]["begin"] for one in report], [4, 8, 9, 9, 13, 19, 20, 21, 22])

    def test_a_plan_with_one_fault_has_no_other(self) -> None:
        """The refused plans of the page."""
        for text, answer in shown_refusals():
            with self.subTest(answer):
                self.assertEqual([line for line in self.answer(text) if ": also " in line], [])


class WithoutTheLibrary(InFolder):
    """The first fault is told all the same."""

    @unittest.mock.patch.dict("sys.modules", {"jsonschema": None})
    def test_it_is_not_there(self) -> None:
        from j39plan.cli import where
        name = self.write("plan.toml", PLAN)
        written: list[str] = []
        with unittest.mock.patch("sys.stdout.write", written.append):
            self.assertEqual(where.main([name]), 2)
        self.assertEqual("".join(written), f"{name}:{FIRST}\n")
