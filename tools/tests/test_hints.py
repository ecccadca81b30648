"""Hints at faults of a plan: what each beginner's mistake is answered with, and at which line."""

import json
import re
import unittest

from j39plan.cli import where
from tests.support import InFolder, answered, example, run

UNIT = '[[unit]]\nlabel = "{}"\naddress = {}\nname = {{ identity = {} }}\n'


class Hints(InFolder):
    def answer(self, text: str) -> tuple[int, list[str]]:
        """What `where` answers of a plan, without the file's name."""
        name = self.write("plan.toml", text)
        status, answer, _ = answered(where.main, name)
        return status, [line for line in answer.replace(name + ":", "").splitlines() if not re.search(r"\d: also ", line)]

    def test_keys_of_other_formats(self) -> None:
        """What they are here; and the header of a table that belongs into another one."""
        head = 'version = 4\n' + UNIT.format("A", 0, 1) + '[[group]]\nlabel = "G"\npgn = 65262\npriority = 6\nlength = 8\n'
        signal = head + '[[group.signal]]\nlabel = "S"\nbyte = 1\nbits = 8\nkind = "raw"\n'
        flow = head + '[[flow]]\ngroup = "G"\nfrom = "A"\nto = "all"\n'
        for text, key, place, meant in (
            (signal, "factor = 0.5", "group 1 signal 1", "factor isn't listed: step and per: step = 1, per = 2"),
            (signal, "startbit = 8", "group 1 signal 1", "startbit isn't listed: byte and bit, counted from 1: byte = 2, bit = 1"),
            (signal, "min = 0", "group 1 signal 1", "min isn't listed: kind says which numbers are values"),
            (flow, 'sender = "A"', "flow 1", "sender isn't listed: from"), (flow, "cycle_time = 10", "flow 1", "cycle_time isn't listed: period, in ms"),
            ("version = 4\n", '[[signal]]\nlabel = "S"', "top", "signal: write [[group.signal]]"),
            ("version = 4\n", "[name]\nidentity = 1", "top", "name: write [unit.name]"),
            ("version = 4\n", "[errors]\ncount = 1", "top", "errors: write [timing.errors]"),
            ("version = 4\n", "signal = 3", "top", "signal belongs to group or need"),
        ):
            at = text.count("\n") + 1
            self.assertEqual(self.answer(f"{text}{key}\n"), (2, [f"{at}: refused UnknownKey {place}  (key {meant})"]))

    def test_hints_at_what_is_no_toml(self) -> None:
        """In words of the plan, each at its line: values without quotes, numbers, blanks, brackets, and tables that are none of a list."""
        for text, line, hint in (
            ("[[unit]]\nlabel = GEARBOX # the label\n", 2, 'label = GEARBOX: a text needs quotes: "GEARBOX"'),
            ("unit = [{ label = GEAR BOX, address = 3 }]\n", 1, 'label = GEAR BOX: a text needs quotes: "GEAR BOX"'),
            ("[[unit]]\nlabel = “GEARBOX”\n", 2, '“ is no quotation mark: write "'),
            ('[[unit]]\nlabel =\u00a0"GEARBOX"\n', 2, "character U+00A0 is no blank"),
            ("[[group.signal]]\nunit = °C\n", 2, "character U+00B0 stands only in a text"),
            ('[[unit]]\nlabel = "GEARBOX\naddress = 3\n', 2, '" isn\'t closed'),
            ("[unit.name]\narbitrary = True\n", 2, "arbitrary = True: write true"), ("[unit.name]\narbitrary = no\n", 2, "arbitrary = no: write false"),
            ("[[group]]\npgn = FEEE\n", 2, "pgn = FEEE: a hexadecimal number is 0xFEEE"), ("[[group]]\npgn = 0XFEEE\n", 2, "pgn = 0XFEEE: a hexadecimal number is 0xFEEE"),
            ("[[unit]]\naddress = 03\n", 2, "address = 03: a number has no 0 in front: 3"), ("[[flow]]\nperiod = 10ms\n", 2, "period = 10ms: an integer is wanted: 10"),
            ("[[group]]\npgn = 65,262\n", 2, "a number has no , in it: 65262"), ("[[group]]\npgn: 65262\n", 2, "a key and its value have = between them"),
            ("[[group]]\npgn =\n", 2, "key pgn: one = and then a value"),
            ("[[unit]]\nname = { identity = 1\n[[group]]\n", 2, "{ isn't closed"), ("keep_free = [200, 201\n[[unit]]\nlabel = 'A'\n", 1, "[ isn't closed"),
            ("name = { identity = 1, identity = 2 }\n", 1, "key identity stands there twice"),
            ("[unit]\nlabel = 'A'\n[[unit]]\nlabel = 'B'\n", 1, "[[unit]] at line 3 makes this a list: write [[unit]] here too"),
            ("[[unit]]\nlabel = 'A'\n[unit]\nlabel = 'B'\n", 3, "[[unit]] at line 1 makes this a list: write [[unit]] here too"),
            ("[unit.name]\nidentity = 1\n[[unit]]\nlabel = 'B'\n", 1, "[[unit]] at line 3 makes a list, and belongs above this line"),
            ("[[group]]\n[group.signal]\nbyte = 1\n[[group.signal]]\nbyte = 2\n", 2, "[[group.signal]] at line 4 makes this a list: write [[group.signal]] here too"),
            ("[timing]\nbitrate = 250000\n[timing]\n", 3, "[timing] stands at line 1 too"),
        ):
            self.assertEqual(self.answer(text), (2, [f"{line}: refused Text  ({hint})"]))

    def test_numbers_that_no_group_can_have(self) -> None:
        """Which of the reasons of F4 it is, by the number, and what may have been meant."""
        group = '[[group]]\nlabel = "G"\npgn = {}\npriority = 6\nlength = 8\n'
        for version, number, line, hint in (
            (4, "3", 4, "pgn: in a PDU1 number the low byte is 0, the receiver stands in the flow's to: pgn = 0"),
            (4, "52096", 4, "pgn: in a PDU1 number the low byte is 0, the receiver stands in the flow's to: pgn = 51968"),
            (4, "65300", 4, "pgn: 65300 is a maker's own number: write private = true"),
            (2, "65300", 4, "pgn: 65300 is a maker's own number: write version = 4 and private = true"),
            (4, "59904", 4, "pgn: 59904 is a service of the network, the request: leave it out"),
            (4, "131072", 4, "pgn: numbers from 131072 on can't be planned"),
            (4, "0xFEEE00", 4, "pgn: numbers from 131072 on can't be planned; a CAN identifier? its PGN is 65262"),
            (4, "61444\nprivate = true", 5, "private: 61444 is none of the makers' own numbers"),
        ):
            plan = f"version = {version}\n{group.format(number)}"
            value = int(number.split()[0], 0)
            self.assertEqual(self.answer(plan)[1][0], f"{line}: F4 BadPgn G {value}  (key {hint})")
        for number, meant in (("0x18FEEE00", 65262), ("0x0C000317", 0)):
            hint = f"(pgn = {number}: integer 0..16777215; a CAN identifier? its PGN is {meant})"
            self.assertEqual(self.answer("version = 4\n" + group.format(number)), (2, [f"4: refused Range group 1 key pgn  {hint}"]))

    def test_widths_that_a_kind_does_not_have(self) -> None:
        """Those of the signal's own kind."""
        plan = ('version = 4\n[[group]]\nlabel = "G"\npgn = 65262\npriority = 6\nlength = 8\n'
                '[[group.signal]]\nlabel = "S"\nbyte = 1\nbits = {}\nkind = "{}"\n')
        for bits, kind, line, hint in (
            (1, "discrete", 10, "bits: a discrete signal has 2"), (12, "measured", 10, 'bits: a measured signal has 8, 16 or 32; kind = "raw" has all widths'),
            (64, "measured", 10, "bits: a measured signal has 8, 16 or 32; write it as 2 signals"), (40, "raw", 10, "bits: a raw signal has 1 to 32; write it as 2 signals"),
            (9, "states", 10, "bits: a signal of states has 2 to 8"), (1, "signed", 10, "bits: a signed signal has 2 to 32"),
            (16, "dtc", 10, "bits: a dtc has 32"), (32, 'dtc"\nbit = 2 # "', 12, "bit: a dtc begins at bit 1"),
        ):
            self.assertEqual(self.answer(plan.format(bits, kind))[1][0], f"{line}: F6 SignalWidth G S {bits}  (key {hint})")

    def test_values_that_are_none(self) -> None:
        """A divisor with a fraction, a name that is no label, and a text where a signal is needed."""
        signal = ('version = 4\n[[group]]\nlabel = "G"\npgn = 65262\npriority = 6\nlength = 8\n'
                  '[[group.signal]]\nlabel = "S"\nbyte = 1\nbits = 8\nkind = "states"\n')
        for keys, meant in (("per = 0.125", "a factor of 0.125 is step = 1, per = 8"), ("per = 2.5", "a factor of 2.5 is step = 5, per = 2"),
                            ('values = { 0 = "low idle" }', '"low idle" is no label, as "low_idle" is: letters, digits and _, at most 32')):
            status, (line,) = self.answer(f"{signal}{keys}\n")
            self.assertEqual((status, line.split(": ")[0], line.endswith(f"; {meant})")), (2, "12", True), line)
        need = '[[group.text]]\nlabel = "VIN"\nbyte = 2\nbytes = 3\n' + UNIT.format("A", 0, 1) + '[[need]]\nunit = "A"\ngroup = "G"\nsignal = "VIN"\n'
        said = "23: refused UnknownLabel need 1 key signal  (key signal: VIN is a text: leave signal out)"
        self.assertEqual(self.answer(signal + need), (2, [said]))

    def test_json(self) -> None:
        """Findings by their parts, with lines, hints and steps; a plan that can't be read; one without findings; hints where they are asked for."""
        plan = "version = 1\n" + UNIT.format("A", 0, 1) + UNIT.format("B", 0, 2)
        name = self.write("plan.toml", plan)
        status, answer, said = run("where.py", "--json", "--lint", name)
        hints = [{"line": line, "hint": f"unit {label}: no flow is from it or to it alone", "name": "idle"} for line, label in ((3, "A"), (7, "B"))]
        found = {"finding": "F2", "name": "SameFixedAddress", "unit": "A", "other": "B", "address": 0, "text": "F2 SameFixedAddress A B 0", "line": 8,
                 "hint": "key address: the same as of A at line 4", "steps": ["up B", "up A", "give A B", "give B A"]}
        self.assertEqual((status, json.loads(answer), said), (1, {"plan": name, "status": 1, "findings": [found], "hints": hints}, ""))
        refused = {"cause": "Range", "place": "unit 1", "key": "address", "text": "refused Range unit 1 key address", "line": 4,
                   "hint": "address = 254: integer 0..253; 254 is that of a unit without an address"}
        name = self.write("plan.toml", plan.replace("= 0", "= 254"))
        further = [{"line": 8, "hint": "address = 254: integer 0..253; 254 is that of a unit without an address"}]
        told = json.loads(run("where.py", "--json", "--lint", name)[1])
        self.assertEqual((told.pop("further", further), told), (further, {"plan": name, "status": 2, "refused": refused}))
        clean = example("first_plan.toml")
        ok = {"plan": clean, "status": 0, "findings": [], "counts": {"units": 2, "groups": 1, "flows": 1}}
        self.assertEqual(json.loads(run("where.py", "--json", clean)[1]), ok)
        self.assertEqual(run("where.py", "--json", "--github", clean)[0], 2)


if __name__ == "__main__":
    unittest.main()
