"""A plan against a reference: of each SPN the place, the scale, the unit, the PGN, the priority and the length."""

import importlib.util
import json
import os
import tomllib
import unittest
from unittest import mock

from j39plan.cli import dbc2plan, where
from tests.support import InFolder, answered, example, needs, run

CANMATRIX_J1939 = "/usr/lib/python3/dist-packages/canmatrix/j1939.dbc"

PLAN = """version = 4

[[group]]
label = "EEC1"
pgn = 61444
priority = 3
length = 8

[[group.signal]]
label = "Speed"
byte = 4
bits = 16
kind = "measured"
per = 8
unit = "rpm"
spn = 190

[[group.signal]]
label = "SPN513"
byte = 3
bits = 8
kind = "measured"
offset = -125
unit = "%"

[[group]]
label = "OWN"
pgn = 61184
priority = 6
length = 8
private = true

[[group.signal]]
label = "SPN110"
byte = 5
bits = 8
kind = "raw"
"""

DBC = """VERSION ""
BO_ 2364540158 EEC1: 8 Vector__XXX
 SG_ EngSpeed : 24|16@1+ (0.125,0) [0|8031.875] "rpm" Vector__XXX
 SG_ SPN513 : 16|8@1+ (1,-125) [-125|125] "%" Vector__XXX
BO_ 2566844158 ET1: 8 Vector__XXX
 SG_ SPN110 : 0|8@1+ (1,-40) [-40|210] "degC" Vector__XXX
BA_DEF_ SG_ "SPN" INT 0 524287;
BA_DEF_DEF_ "SPN" 0;
BA_ "SPN" SG_ 2364540158 EngSpeed 190;
"""


class Compared(InFolder):
    def hints(self, plan: str, reference: str, *words: str) -> list[str]:
        """The hints at a plan, without the folder and the answer."""
        status, answer, said = run("where.py", "--reference", reference, *words, self.write("plan.toml", plan))
        self.assertEqual(said, "")
        return [line for line in answer.replace(f"{self.folder}/", "").splitlines() if ": hint " in line]

    def changed(self, reference: str, before: str, after: str) -> list[str]:
        """The hints at the plan with another text."""
        self.assertIn(before, PLAN)
        return self.hints(PLAN.replace(before, after, 1), reference)

    def all_that_differs(self, reference: str, name: str) -> None:
        """Each of what a reference says is compared, and nothing else is told."""
        self.assertEqual(self.hints(PLAN, reference), [])
        for before, after, told in (
            ("byte = 4", "byte = 5", f"plan.toml:11: hint SPN 190 EEC1.Speed: 5.1, 16 bits; in {name} 4.1, 16 bits"),
            ("bits = 16\nkind = \"measured\"", "bits = 8\nkind = \"raw\"", f"plan.toml:12: hint SPN 190 EEC1.Speed: 4.1, 8 bits; in {name} 4.1, 16 bits"),
            ("per = 8", "per = 4", f"plan.toml:14: hint SPN 190 EEC1.Speed: 1/4 * raw rpm; in {name} 1/8 * raw rpm"),
            ("offset = -125", "offset = -40", f"plan.toml:23: hint SPN 513 EEC1.SPN513: raw - 40 %; in {name} raw - 125 %"),
            ('unit = "rpm"', 'unit = "r/s"', f"plan.toml:15: hint SPN 190 EEC1.Speed: 1/8 * raw r/s; in {name} 1/8 * raw rpm"),
            ("priority = 3", "priority = 6", f"plan.toml:6: hint EEC1: priority 6; in {name} 3"),
            ("length = 8", "length = 6", f"plan.toml:7: hint EEC1: 6 bytes; in {name} 8 bytes"),
            ("spn = 190", "spn = 110", f"plan.toml:5: hint SPN 110 EEC1.Speed: pgn 61444; in {name} 65262 (ET1)"),
        ):
            with self.subTest(after):
                self.assertEqual(self.changed(reference, before, after), [told])

    @needs("canmatrix", "python3-canmatrix")
    def test_a_dbc(self) -> None:
        self.all_that_differs(self.write("j1939.dbc", DBC), "j1939.dbc")

    def test_a_plan(self) -> None:
        """In which a fraction stands in the unit, and lengths are several."""
        reference = PLAN.replace("per = 8\nunit = \"rpm\"", 'unit = "1/8 rpm"').replace('"Speed"', '"SPN190"').replace("spn = 190\n", "").split("\n[[group]]\nlabel = \"OWN\"")[0]
        reference += '\n[[group]]\nlabel = "ET1"\npgn = 65262\npriority = 6\nlength = 8\n\n[[group.signal]]\nlabel = "T"\nbyte = 1\nbits = 8\nkind = "raw"\nspn = 110\n'
        self.all_that_differs(self.write("reference.toml", reference), "reference.toml")

    @needs("canmatrix", "python3-canmatrix")
    def test_what_a_file_does_not_say(self) -> None:
        """Priorities that are all 0, and scales of neither factor, offset nor unit, as in the file that canmatrix has."""
        dbc = DBC.replace("2364540158", "2163213566").replace("2566844158", "2164190974").replace("(0.125,0) [0|8031.875] \"rpm\"", "(1,0) [0|0] \"\"")
        self.assertEqual(self.changed(self.write("j1939.dbc", dbc), "priority = 3", "priority = 6"), [])
        self.assertEqual(self.changed(self.path("j1939.dbc"), "per = 8", "per = 4"), [])

    def test_forms(self) -> None:
        """They stand in the JSON as hints, are notices of GitHub's, and leave the status as it is."""
        plan = self.write("plan.toml", PLAN.replace("per = 8", "per = 4"))
        reference = self.write("reference.toml", PLAN)
        for words, told in ((("--json",), '"hint": "SPN 190 EEC1.Speed: 1/4 * raw rpm;'), (("--github",), "::notice file=")):
            status, answer, _ = run("where.py", "--reference", reference, *words, plan)
            self.assertEqual((status, told in answer), (1, True), words)  # of a private group that no flow sends
        status, answer, _ = run("where.py", "--json", "--reference", reference, self.write("same.toml", PLAN))
        self.assertEqual(json.loads(answer)["hints"], [])

    def test_what_is_not_in_it(self) -> None:
        """How many signals are compared is said, where some aren't there."""
        reference = self.write("reference.toml", PLAN)
        plan = self.write("plan.toml", PLAN.replace("spn = 190", "spn = 191"))
        self.assertEqual(run("where.py", "--reference", reference, plan)[2], f"where: of 2 signals with an SPN 1 are in {reference}\n")

    def test_what_is_no_reference(self) -> None:
        plan = self.write("plan.toml", PLAN)
        for name, status, why in ((example("first_plan.toml"), 0, ""), (self.write("none.toml", "version = 4\n"), 2, "no signal in it has an SPN"),
                                  (self.path("missing.dbc"), 4, "No such file"), (self.write("bad.toml", "x"), 2, "bad.toml:1: refused Text")):
            ended, _, said = run("where.py", "--reference", name, plan)
            self.assertEqual((ended if status else 0, why in said), (status, True), (name, said))


@unittest.skipUnless(importlib.util.find_spec("canmatrix") and os.path.isfile(CANMATRIX_J1939), "canmatrix's j1939.dbc isn't there")
class Shipped(InFolder):
    """Engine speed, SPN 190, lies at byte 4 of EEC1, PGN 61444 (SAE J1939-71)."""

    def test_it_is_taken_where_no_file_is_named(self) -> None:
        plan = self.write("plan.toml", PLAN.replace("byte = 4", "byte = 5"))
        for words in (["--reference", plan], [plan, "--reference"], ["--lint", "--reference", "--", plan]):
            status, told, said = answered(where.main, *words)
            self.assertEqual(status, 1)  # OWN has F13
            self.assertRegex(told, r"plan.toml:11: hint SPN 190 EEC1.Speed: 5.1, 16 bits; in \S+j1939.dbc 4.1, 16 bits\n")
            self.assertRegex(said, r"the reference is \S+j1939.dbc, which has no scales and no priorities\n")
            self.assertNotIn("1/8", told)

    def test_a_group_of_it(self) -> None:
        status, told, said = answered(dbc2plan.main, "--group", "EEC1")
        self.assertEqual(status, 0)
        (group,) = tomllib.loads(told)["group"]
        self.assertEqual(group["pgn"], 61444)
        self.assertEqual([(signal["byte"], signal["bits"]) for signal in group["signal"] if signal.get("spn") == 190 or "Engine_Speed" == signal["label"]], [(4, 16)])
        self.assertIn("which has no scales and no priorities", said)

    def test_it_is_not_there(self) -> None:
        plan = self.write("plan.toml", PLAN)
        with mock.patch("importlib.util.find_spec", return_value=None):
            status, told, said = answered(where.main, plan, "--reference")
        self.assertEqual((status, told), (69, ""))
        self.assertIn("no reference is there: apt-get install python3-canmatrix, or name a file", said)
        for main in (where.main, dbc2plan.main):
            self.assertEqual(answered(main)[:2], (2, ""))


if __name__ == "__main__":
    unittest.main()
