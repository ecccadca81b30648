"""Slips of who writes a plan for the first time: each is told at its own line, with what to write."""

import unittest

from j39plan import program
from j39plan.plan.answer_places import PlacedPart, placed
from tests.support import InFolder, example, run, text_of

PLAN = """version = 4
[timing]
bitrate = 250000
unplanned = 1
[[unit]]
label = "ENGINE"
address = 0
name = { manufacturer = 310, function = 0 }
[[unit]]
label = "RETARDER"
address = 16
name = { function = 10 }
[[group]]
label = "EEC1"
pgn = 61444
priority = 3
length = 8
[[group.signal]]
label = "SPEED"
byte = 4
bits = 16
kind = "measured"
spn = 190
[[group.signal]]
label = "MODE"
byte = 1
bits = 4
kind = "states"
values = { 0 = "idle", 1 = "pedal" }
[[flow]]
group = "EEC1"
from = "ENGINE"
to = "all"
period = 10
[[need]]
unit = "RETARDER"
group = "EEC1"
signal = "SPEED"
"""

# A text of the plan, what stands in its place, the line, and the end of the hint.
SLIPS = (
    ("unplanned = 1", "unplanned = 1\nlive = true", 5, "key live belongs to the top: write it above the first ["),
    ("unplanned = 1", "unplanned = 1\nkeep_free = [240]", 5, "key keep_free belongs to the top: write it above the first ["),
    ("bitrate = 250000", "baudrate = 250000", 3, "key baudrate isn't listed: bitrate"),
    ("bitrate = 250000", "bitrate = 250_000.0", 3, "; without a point: 250000"),
    ("name = { manufacturer = 310, function = 0 }", "name = {\n  manufacturer = 310,\n  ecu = 0 # the first\n  function = 0 }", 10, "a comma is missing at the end of this line"),
    ("manufacturer = 310", "serial = 310", 8, "key serial isn't listed: identity"),
    ("manufacturer = 310", "aac = 1", 8, "key aac isn't listed: arbitrary"),
    ("manufacturer = 310", "vehicle_system = 1", 8, "key vehicle_system isn't listed: system"),
    ("pgn = 61444", 'pgn = "F004"', 15, "; without quotation marks: 0xF004"),
    ("pgn = 61444", 'pgn = "61444"', 15, "; without quotation marks: 61444"),
    ("period = 10", "period = 10.0", 34, "; in whole ms, as 10000 for 10.0 s, or 10"),
    ("period = 10", "period = 0.01", 34, "; in whole ms, as 10 for 0.01 s"),
    ("period = 10", "period = 10 ; ms", 34, "a comment begins with #, and not with ;"),
    ("period = 10", "period = 10 // ms", 34, "a comment begins with #, and not with //"),
    ('kind = "states"', 'kind = "states" -- all', 28, "a comment begins with #, and not with --"),
    ('0 = "idle"', '00 = "idle"', 29, "; a number has no 0 in front: 0"),
    ('1 = "pedal"', '16 = "pedal"', 29, "; 16 isn't held by 4 bits"),
    ('0 = "idle"', "idle = 0", 29, '; the number stands in front: 0 = "idle"'),
    ('to = "all"', 'to = ["RETARDER", "ENGINE"]', 33, "; one flow for each"),
    ('to = "all"', "to = 16", 33, "; RETARDER has address 16"),
    ('to = "all"', "to = 255", 33, "; did you mean all?"),
    ('to = "all"', 'to = "*"', 33, "no unit is called *; did you mean all?"),
    ('label = "SPEED"', 'label = "ENGINE SPEED"', 19, '; "ENGINE_SPEED" is one'),
    ("spn = 190", 'unit = "°C"', 23, '; "degC" is one'),
    ("spn = 190", 'unit = "km\\h"', 23, "\\ in a text: write \\\\, or the text between ' and '"),
    ('signal = "SPEED"', 'signal = "190"', 38, "no signal of EEC1 is called 190; SPEED has spn 190"),
    ('signal = "SPEED"', "signal = 190", 38, "; SPEED has spn 190"),
    ("spn = 190", "factor = 0.00390625", 23, "key factor isn't listed: step and per: step = 1, per = 256"),
    ("spn = 190", "resolution = 0.3", 23, "key resolution isn't listed: step and per: step = 3, per = 10"),
    ("byte = 4", "start_bit = 24", 20, "key start_bit isn't listed: byte and bit, counted from 1: byte = 4, bit = 1"),
    ("byte = 4", "byte = 4.1", 20, "; byte = 4, bit = 1"),
    ("byte = 4", 'byte = "4-5"', 20, "; byte = 4, bits = 16"),
    ("byte = 1\n", 'byte = "1.1-1.4"\n', 26, "; byte = 1, bit = 1, bits = 4"),
    ("byte = 1\n", "byte = 1\nbit = 9\n", 27, "; byte = 2, bit = 1"),
    ("byte = 1\n", "byte = 0\n", 26, "; counted from 1"),
    ("spn = 190", 'byte_order = "motorola"', 23, "a signal in Motorola order can't be planned, each of its bytes can, as raw"),
    ("spn = 190", "per = 3", 23, '; 1/3 goes into the unit: per = 1, unit = "1/3"'),
    ("spn = 190", 'offset = "-40"', 23, "; without quotation marks: -40"),
    ('kind = "measured"', 'kind = "enum"', 22, "; states"),
    ('kind = "measured"', 'kind = "uint16"', 22, "; measured"),
    ('kind = "measured"', 'kind = "ascii"', 22, "; a text is no signal: write [[group.text]]"),
    ('0 = "idle"', '0x2 = "idle"', 29, "; 0x2 is no decimal number: 2"),
    ("period = 10", 'period = "1000 ms"', 34, "; without quotation marks: 1000"),
    ("period = 10", 'period = "1 s"', 34, "; without quotation marks: 1000"),
    ("period = 10", "period = 1000ms", 34, "period = 1000ms: an integer is wanted: 1000"),
    ("bitrate = 250000", "bitrate = 250", 3, "; in bits a second: 250000"),
    ("bitrate = 250000", 'bitrate = "250 kbit/s"', 3, "; in bits a second: 250000"),
    ("unplanned = 1\n", "", 2, "; a guess: a claim of each unit, and three more: 5"),
    ("pgn = 61444", "pgn = 61.444", 15, "; without a point: 61444"),
    ("pgn = 61444", "pgn = 61,444", 15, "a number has no , in it: 61444"),
    ('group = "EEC1"\nfrom', "group = 61444\nfrom", 31, "; EEC1 has pgn 61444"),
    ("name = { manufacturer = 310, function = 0 }", "name = 0x8000090001200000", 8,
     "name is a table of the fields: { manufacturer = 9, function = 9, arbitrary = true }"),
    ("name = { manufacturer = 310, function = 0 }", "name = 0x0000090001200000", 8, "; { manufacturer = 9, function = 9 }"),
    ("name = { function = 10 }", 'name = "RETARDER"', 12, "a table, as { manufacturer = 310, function = 9 }"),
    ("manufacturer = 310", "manufacturer = 310, arbitrary = 1", 8, "; write true"),
    ("address = 16", "address = 254", 11, "; 254 is that of a unit without an address"),
    ("address = 16", "address = 255", 11, "; 255 is that of all units"),
    ("address = 16", 'address = 16\nsupplier = "Knorr"', 12,
     "key supplier isn't listed: write it behind #, as # Knorr; the number of a maker is manufacturer of name"),
    ("address = 16", 'address = 16\ncomment = "rear"', 12, "key comment isn't listed: write it behind #, as # rear"),
    ('signal = "SPEED"', 'signal = "SPEED"\ntimeout = 100', 39, "key timeout isn't listed: within, in ms"),
    ('[[unit]]\nlabel = "ENGINE"', '[[ecu]]\nlabel = "ENGINE"', 5, "key ecu isn't listed: write [[unit]]"),
    ("[[need]]", "[[requirement]]", 35, "key requirement isn't listed: write [[need]]"),
    ('group = "EEC1"\nsignal', 'group = "EEC2"\nsignal', 37, "key group: no group is called EEC2; did you mean EEC1?"),
    ('from = "ENGINE"', 'from = "ENGINE_EMS"', 32, "key from: no unit is called ENGINE_EMS; did you mean ENGINE?"),
    ('signal = "SPEED"', 'signal = "TORQUE"', 38, "key signal: no signal of EEC1 is called TORQUE; here are SPEED, MODE"),
    ('[[unit]]\nlabel = "ENGINE"', '[[unit]\nlabel = "ENGINE"', 5, "[[ is closed by ]]"),
    ("manufacturer = 310, function", "manufacturer = 310 function", 8, "a comma is missing before function"),
    ("version = 4\n", "PGN;Name;SPN\n61444;EEC1;190\n", 1, "this is a table, and a plan is TOML: dbc2plan makes one of a DBC"),
    ("version = 4\n", 'VERSION ""\n\nNS_ :\n', 1, "this is a DBC: dbc2plan makes a plan of it"),
    ("version = 4\n", '<?xml version="1.0"?>\n', 1, "this is XML, and a plan is TOML: dbc2plan makes one of KCD and ARXML files"),
    ("[[need]]", "<<<<<<< HEAD\n[[need]]", 35, "a merge of two versions that isn't finished: keep one of them, without these marks"),
    ("version = 4\n", '{"version": 4}\n', 1, "this is JSON, and a plan is TOML: version = 4, [[unit]] and so on"),
    ('[[group]]\nlabel = "EEC1"', '[[group.signal]]\nlabel = "S"\n[[group]]\nlabel = "EEC1"', 13, "[[group.signal]] belongs below a [[group]], and the first one is at line 15"),
)


# A line of vehicles, and slips in it as above.
LINE = """version = 4
[[choice]]
of = ["D11", "D13"]
[[choice]]
of = ["NO_BODY", "BODY"]
[[choice]]
of = ["ABS", "EBS"]
[[never]]
of = ["D11", "BODY"]
[[unit]]
label = "ENGINE"
address = 0
name = { function = 0 }
with = ["D11"]
[[unit]]
label = "TACHO"
address = 3
name = { function = 3 }
"""
LINE_SLIPS = (
    ('with = ["D11"]', 'with = "D11"', 14, '; with = ["D11"]'),
    ('with = ["D11"]', 'with = "D11, ABS"', 14, '; with = ["D11", "ABS"]'),
    ('with = ["D11"]', 'with = ["D31"]', 14, "key with: no choice has D31; did you mean D13?"),
    ('with = ["D11"]', 'with = [\n  "D11",\n  "EURO6",\n]', 16, "key with: no choice has EURO6; write a [[choice]] of it, or leave it out"),
    ('with = ["D11"]', 'with = ["TACHO"]', 14, "key with: no choice has TACHO; a unit is called so, and lists name alternatives of choices"),
    ('with = ["D11"]', 'with = ["D11", "D11"]', 14, "key with: D11 stands there twice"),
    ('"NO_BODY", "BODY"]', '"BODY"]', 5, '; without BODY a vehicle has another one, as of = ["NO_BODY", "BODY"]'),
    ('"NO_BODY", "BODY"]', '"NO_BODY", "BODY", "D11"]', 5, "key of: D11 is an alternative of the choice at line 3 too: each has a label of its own"),
    ('"NO_BODY", "BODY"]', '"NO_BODY", "NO_BODY"]', 5, "key of: NO_BODY stands there twice"),
    ('of = ["D11", "BODY"]', 'of = ["D11", "BODI"]', 9, "key of: no choice has BODI; did you mean BODY?"),
    ('of = ["D11", "BODY"]', 'of = ["D11"]\nbut = "BODY"', 10, '; but = ["BODY"]'),
    ('of = ["D11", "BODY"]', 'of = ["D11"]\nbut = ["BODY", "ABS"]', 10,
     "; these are of several choices (BODY at line 5, ABS at line 7): one [[never]] for each"),
    ('of = ["D11", "BODY"]', 'of = ["D11"]\nbut = ["D13"]', 10, "; these are of a choice that of names"),
    ("[[never]]", "[[requires]]", 8, "key requires isn't listed: write [[never]]: of has what isn't built together, but with what it is built all the same"),
    ('[[choice]]\nof = ["ABS"', '[[option]]\nof = ["ABS"', 6, "key option isn't listed: write [[choice]], whose of has the labels of the alternatives"),
)

# A text of the plan of a finding, what stands in its place, the line, the finding, and the end of the hint.
FOUND = (
    ("pgn = 61444", "pgn = 0x61444", 15, "F4 BadPgn EEC1 398404", "; 61444 is decimal: write pgn = 61444"),
    ("bits = 16", "bits = 24", 21, "F6 SignalWidth EEC1 SPEED 24", '; kind = "raw" has all widths'),
    ("byte = 4", "byte = 8", 20, "F7 SignalOutside EEC1 SPEED 72", "; with 16 bits it begins at byte = 7 at the latest"),
    ('length = 8\n', 'length = 64\n', 38, "F20 NeedTooOld 1", " (length at line 17; 64 bits are length = 8)"),
)


class Slips(InFolder):
    def told(self, text: str) -> list[PlacedPart]:
        """What `check` answers of a plan, each part with its line and a hint."""
        name = self.write("plan.toml", text)
        return list(placed(text.encode(), program.call(["check", name])[1]))

    def test_the_plan_is_as_it_should_be(self) -> None:
        self.assertEqual([part.text for part in self.told(PLAN)], ["ok 2 units 1 groups 1 flows"])

    def test_each_slip(self) -> None:
        for old, new, line, hint in SLIPS:
            with self.subTest(new):
                self.assertEqual(PLAN.count(old), 1, old)
                first = self.told(PLAN.replace(old, new))[0]
                self.assertTrue(first.answer.startswith("refused "), first)
                self.assertEqual((first.line, first.hint[-len(hint):]), (line, hint), first)

    def test_each_slip_in_a_line_of_vehicles(self) -> None:
        self.assertEqual([part.text for part in self.told(LINE)], ["ok 2 units 0 groups 0 flows 3 choices"])
        for old, new, line, hint in LINE_SLIPS:
            with self.subTest(new):
                self.assertEqual(LINE.count(old), 1, old)
                first = self.told(LINE.replace(old, new))[0]
                self.assertTrue(first.answer.startswith("refused "), first)
                self.assertEqual((first.line, first.hint[-len(hint):]), (line, hint), first)

    def test_each_finding(self) -> None:
        plan = PLAN.replace('signal = "SPEED"', "within = 100")
        for old, new, line, found, hint in FOUND:
            with self.subTest(new):
                first = self.told(plan.replace(old, new))[0]
                self.assertEqual((first.line, first.answer, first.hint[-len(hint):]), (line, found, hint), first)

    def test_nothing_can_be_built(self) -> None:
        """The nevers without one of which something is built: of D11 and of D13, and not that of D11 with BODY."""
        text = LINE.replace("[[never]]", '[[never]]\nof = ["D11"]\n[[never]]\nof = ["D13"]\n[[never]]')
        first = self.told(text)[0]
        self.assertEqual((first.line, first.text), (8, "F29 NoVariant  (the nevers leave no vehicle; without the one at line 8, or at line 10 there are some)"))

    def test_other_encodings(self) -> None:
        """Which one it is, and what to do."""
        for data, line, hint in ((PLAN.replace('"ENGINE"', '"GETRÄNK"').encode("cp1252"), 6, "byte C4 is no UTF-8, Ä by Windows-1252: save the file as UTF-8"),
                                 (PLAN.encode("utf-16"), 1, "this is UTF-16: save the file as UTF-8")):
            first = next(placed(data, "refused Text\n"))
            self.assertEqual((first.line, first.hint), (line, hint))

    def test_a_vehicle_in_a_plans_place(self) -> None:
        for needs in ("", '[[need]]\nunit = "P.A"\n'):
            first = self.told('version = 1\n[[bus]]\nlabel = "P"\nplan = "p.toml"\n' + needs)[0]
            self.assertEqual((first.line, first.hint), (2, "this is the file of a vehicle: j39plan vehicle takes it, and of the tools where, report and against"))

    def test_a_late_flow(self) -> None:
        """The key is the one by which its time is short: its deadline, else its jitter, else its period."""
        def late(more: str) -> tuple[int | None, str]:
            plan = PLAN.replace("bitrate = 250000", "bitrate = 125000").replace("unplanned = 1", "unplanned = 30")
            return next((part.line, part.hint.partition(" ms ")[0].rpartition(": ")[2]) for part in self.told(plan.replace("period = 10", more))
                        if part.answer.startswith("F18 "))

        self.assertEqual(late("period = 50\njitter = 3\ndeadline = 2"), (36, "within 2"))
        self.assertEqual(late("period = 50\njitter = 49"), (35, "it takes 49"))
        self.assertEqual(late("period = 2"), (34, "within 2"))

    def test_many_units_of_one_name(self) -> None:
        """What to do is said once, of the first two."""
        units = "".join(f'[[unit]]\nlabel = "N{number}"\naddress = {number}\nname = {{}}\n' for number in range(4))
        hints = [part.hint for part in self.told("version = 4\n" + units) if part.answer.startswith("F1 ")]
        self.assertEqual((len(hints), hints[1:]), (6, [""] * 5))
        self.assertTrue(hints[0].startswith("4 units have a NAME of zeros, as if none were given: N0, N1, N2, N3: give them different "), hints)

    def test_a_need_whose_flow_pauses_too_long(self) -> None:
        text = text_of(example("findings/f20_need_too_old.toml")).replace("within = 21", "within = 20")
        (hint,) = [part.hint for part in self.told(text) if part.answer.startswith("F20 ")]
        self.assertTrue(hint.endswith("flow 1 has a pause of 20 ms, already as long as that"), hint)


class StandardInput(InFolder):
    def test_a_hyphen_is_standard_input(self) -> None:
        for tool, words in (("where.py", ["-"]), ("answer.py", ["check", "-"]), ("join.py", ["-"]), ("compare.py", ["-", self.write("plan.toml", PLAN)]),
                            ("plan2dbc.py", ["-"]), ("report.py", ["-"]), ("startup.py", ["-"])):
            status, answer, said = run(tool, *words, text=PLAN)
            self.assertEqual(status, 0, said)
            self.assertTrue(answer, tool)
        self.assertEqual(run("where.py", "-", text=PLAN.replace("pgn = 61444", "pgn = 0x"))[1].split(": ")[0], "/dev/stdin:15")


if __name__ == "__main__":
    unittest.main()
