"""The joiner of plans: what agrees is there once, what doesn't is named, and nothing is chosen silently."""

import re
import tomllib
import unittest
from collections.abc import Sequence
from typing import Any

from j39plan import program
from tests.support import InFolder, example, needs, run, signal, text_of

ENGINE = """# The engine maker's part.
version = 1

# It drives the fan too.
[[unit]]
label = "ENGINE" # six cylinders
address = 0
name = { identity = 1, manufacturer = 310 }

[[unit]]
label = "ABS"
address = 11
name = { identity = 2, manufacturer = 77 }

[[group]]
label = "EEC1"
pgn = 0xF004
priority = 3
length = 8

[[group.signal]]
label = "SPN190" # speed, 0.125 rpm per bit
byte = 4
bits = 16
kind = "measured"
unit = "1/8 rpm"

[[group]]
label = "TSC1"
pgn = 0
priority = 3
length = 8

[[flow]]
group = "EEC1"
from = "ENGINE"
to = "all"

[[flow]]
group = "TSC1"
from = "ABS"
to = "ENGINE"
"""

BRAKES = """version = 3
keep_free = [240]

[timing]
bitrate = 250000
unplanned = 1

[[unit]]
label = "EBS"
address = 11
[unit.name]
identity = 2
manufacturer = 77

[[unit]]
label = "ENGINE"
address = 0
name = { identity = 1, manufacturer = 310, ecu = 0 }

[[group]]
label = "ENGINE_1"
pgn = 61444
priority = 3
length = 8

[[group.signal]]
label = "Speed"
byte = 4
bits = 16
kind = "measured"
per = 8
unit = "rpm"

[[group.signal]]
label = "Torque" # actual percent torque
byte = 3
bits = 8
kind = "measured"
offset = -125
unit = "%"

[[group]]
label = "TSC1"
pgn = 0
priority = 3
length = 8

[[flow]]
group = "ENGINE_1"
from = "ENGINE"
to = "all"
period = 10

[[flow]]
group = "TSC1"
from = "EBS"
to = "all"
period = 10
"""


def group(label: str, pgn: int, more: str = "", private: bool = True) -> str:
    """The table of a group of eight bytes."""
    return f'[[group]]\nlabel = "{label}"\npgn = {pgn}\npriority = 6\nlength = 8\nprivate = {str(private).lower()}\n{more}'


def unit(label: str, address: int, identity: int, more: str = "") -> str:
    """The table of a unit."""
    return f'[[unit]]\nlabel = "{label}"\naddress = {address}\nname = {{ identity = {identity}{more} }}\n'


def flow(name: str, sender: str, to: str = "all", more: str = "") -> str:
    """The table of a flow."""
    return f'[[flow]]\ngroup = "{name}"\nfrom = "{sender}"\nto = "{to}"\n{more}'


class Joined(InFolder):
    def join(self, *plans: str, words: Sequence[str] = ()) -> tuple[int, str, list[str]]:
        """Joins plans, each a file of its own; status, plan, and the lines that are said, without the folder."""
        names = [self.write(f"{letter}.toml", plan) for letter, plan in zip("abcd", plans)]
        status, text, said = run("join.py", *words, *names)
        return status, text.replace(self.folder + "/", ""), said.replace(self.folder + "/", "").splitlines()

    def joined(self, *plans: str, notes: int = 0) -> dict[str, Any]:
        """The plan that is joined of plans that don't contradict one another."""
        status, text, said = self.join(*plans)
        self.assertEqual(status, 0, said)
        self.assertRegex(said[-1], rf"notes {notes}, contradictions 0$")
        self.assertIn(program.call(["check", self.write("joined.toml", text)])[0], (0, 1), text)
        return tomllib.loads(text)

    def contradicted(self, *plans: str) -> tuple[list[str], str]:
        """What is said of plans that contradict one another: nothing is written, but by --first."""
        status, text, said = self.join(*plans)
        self.assertEqual((status, text), (1, ""), said)
        status, text, also = self.join(*plans, words=["--first"])
        self.assertEqual((status, said[:-1]), (1, also[:-1]))
        self.assertIn(program.call(["check", self.write("joined.toml", text)])[0], (0, 1), text)
        return [line for line in said[:-1] if ": note: " not in line], text


class Agreement(Joined):
    def test_what_agrees_is_there_once(self) -> None:
        """Units by their NAMEs, groups by their numbers, signals by what they mean: whatever they are called."""
        plan = self.joined(ENGINE, BRAKES, notes=4)
        self.assertEqual((plan["version"], plan["keep_free"], plan["timing"]), (3, [240], {"bitrate": 250000, "unplanned": 1}))
        self.assertEqual([(unit["label"], unit["address"]) for unit in plan["unit"]], [("ENGINE", 0), ("ABS", 11)])
        self.assertEqual([group["label"] for group in plan["group"]], ["EEC1", "TSC1"])
        self.assertEqual(plan["group"][0]["signal"], [
            {"label": "SPN190", "byte": 4, "bits": 16, "kind": "measured", "unit": "1/8 rpm"},
            {"label": "Torque", "byte": 3, "bits": 8, "kind": "measured", "offset": -125, "unit": "%"},
        ])
        self.assertEqual(plan["flow"], [
            {"group": "EEC1", "from": "ENGINE", "to": "all", "period": 10}, {"group": "TSC1", "from": "ABS", "to": "ENGINE"},
            {"group": "TSC1", "from": "ABS", "to": "all", "period": 10},
        ])

    def test_of_strangers_the_most_may_come(self) -> None:
        plans = ["version = 4\nstrangers = 2\n", "version = 3\nkeep_free = [240]\n", "version = 4\nstrangers = 3\n", "version = 4\n"]
        self.assertEqual(self.joined(*plans), {"version": 4, "keep_free": [240], "strangers": 3})

    def test_it_is_live_where_any_is(self) -> None:
        for plans, live in ((("version = 4\n", "version = 4\nlive = true\n"), True), (("version = 4\nlive = true\n", "version = 4\nlive = false\n"), True),
                            (("version = 4\nlive = true\n", "version = 3\n"), True), (("version = 4\n", "version = 4\nlive = false\n"), False)):
            self.assertEqual(self.joined(*plans).get("live", False), live, plans)

    def test_it_says_where_each_part_is_from(self) -> None:
        """Above each table, with the comments of the files; and by notes what is called otherwise. (The one flow without a period is F16,
        since one of the plans says how fast the bus is.)"""
        _, text, said = self.join(ENGINE, BRAKES)
        for shown in (
            '# It drives the fan too.\n# a.toml:5, b.toml:15\n[[unit]]\nlabel = "ENGINE"  # six cylinders\n',
            '# a.toml:10, b.toml:8\n[[unit]]\nlabel = "ABS"  # EBS in b.toml\n', '# a.toml:15, b.toml:20\n[[group]]\nlabel = "EEC1"',
            '\n\n[[group.signal]]\nlabel = "SPN190"  # speed, 0.125 rpm per bit; Speed in b.toml\n',
            '\n\n# b.toml:34\n[[group.signal]]\nlabel = "Torque"  # actual percent torque\n', '# a.toml:34, b.toml:48\n[[flow]]\n',
        ):
            self.assertIn(shown, text)
        self.assertEqual(said, [
            "b.toml:9: note: unit EBS is called ABS, as at a.toml:10", "b.toml:21: note: group ENGINE_1 is called EEC1, as at a.toml:15",
            "b.toml:27: note: signal EEC1.Speed is called SPN190, as at a.toml:21",
            "a.toml:39: note: TSC1 from ABS goes to ENGINE, and to all at b.toml:54: the plan has both flows",
            "2 plans: findings 1, notes 4, contradictions 0",
        ])

    def test_a_plan_is_what_it_was(self) -> None:
        """Of one plan, and of the same one in two files, all tables and keys are there: of each example and each finding."""
        for name in ("tractor_and_implement.toml", "truck.toml", "trouble_codes.toml", "identification.toml", "service_addresses.toml",
                     "axle.toml", "transfers.toml"):
            text = text_of(example(name))
            self.assertEqual(self.joined(text), tomllib.loads(text), name)
            self.assertEqual(self.joined(text, "# Another file.\n" + text), tomllib.loads(text), name)

    def test_a_plan_without_signals_gets_those_of_another_one(self) -> None:
        without = re.sub(r"\n\[\[group\.signal\]\]\n(?:.+\n)*", "", text_of(example("truck.toml")))
        whole = tomllib.loads(text_of(example("truck.toml")))
        self.assertNotIn("signal", tomllib.loads(without)["group"][0])
        self.assertEqual(self.joined(without, text_of(example("truck.toml"))), whole)

    def test_units_of_measurement_in_other_letters(self) -> None:
        one, other = (f"version = 1\n{group('A', 65262, signal('S', 1, 8, 'measured', unit), False)}".replace("private = false\n", "")
                      for unit in ('unit = "degC"\n', 'unit = "deg c"\n'))
        status, _, said = self.join(one, other)
        self.assertEqual((status, said[0]), (0, 'b.toml:12: note: signal A.S: unit = "deg c", taken is "degC" of a.toml:12'))

    def test_a_unit_of_measurement_that_one_file_lacks(self) -> None:
        """It is that of the other one, whichever comes first, and is noted; a third file has to agree with it."""
        units = ('unit = "rpm"\nper = 8\n', "per = 8\n", 'unit = "1/8 km/h"\n')
        known, without, other = (f"version = 3\n{group('A', 65262, signal('S', 1, 16, 'measured', unit), False)}".replace("private = false\n", "")
                                 for unit in units)
        self.assertEqual(self.joined(known, without, notes=1)["group"][0]["signal"][0]["unit"], "rpm")
        self.assertEqual(self.joined(without, known, notes=1)["group"][0]["signal"][0], {
            "label": "S", "byte": 1, "bits": 16, "kind": "measured", "per": 8, "unit": "rpm"})
        self.assertIn('b.toml:12: note: signal A.S: unit = "rpm" is taken, and at a.toml:7 there is none', self.join(without, known)[2])
        found, _ = self.contradicted(without, known, other)
        self.assertEqual(found, ["c.toml:7: signal A.S: per = 1 by default, and 8 at b.toml:13",
                                 'c.toml:12: signal A.S: unit = "1/8 km/h", and "rpm" at b.toml:12'])

    def test_names_of_a_state_that_only_one_file_has(self) -> None:
        """All of them are there, in the order of their numbers, whichever file comes first."""
        few, more = (f"version = 4\n{group('A', 65262, signal('S', 1, 2, 'states', names), False)}".replace("private = false\n", "")
                     for names in ('values = { 1 = "on" }\n', 'values = { 0 = "off", 1 = "on" }\n'))
        for plans in ((few, more), (more, few)):
            text = self.join(*plans)[1]
            self.assertIn('values = { 0 = "off", 1 = "on" }\n', text)
        self.assertEqual(self.contradicted(few, more.replace('"on"', '"open"'))[0], ['b.toml:12: signal A.S: values.1 = "open", and "on" at a.toml:12'])

    def test_makers_own_groups_are_told_by_their_senders(self) -> None:
        """Of one number and label, but of other makers, they stay two; of the same unit they are one."""
        one = "version = 3\n" + unit("A", 1, 1) + group("STATE", 65300, signal("S", 1, 8, "raw")) + flow("STATE", "A")
        other = "version = 3\n" + unit("B", 2, 2) + group("STATE", 65300, signal("T", 2, 8, "raw")) + flow("STATE", "B")
        same = "version = 3\n" + unit("A", 1, 1) + group("OWN", 65300, signal("T", 2, 8, "raw")) + flow("OWN", "A")
        plan = self.joined(one, other, same, notes=2)
        self.assertEqual([(group["label"], [signal["label"] for signal in group["signal"]]) for group in plan["group"]],
                         [("STATE", ["S", "T"]), ("STATE_2", ["T"])])
        self.assertEqual([(flow["group"], flow["from"]) for flow in plan["flow"]], [("STATE", "A"), ("STATE_2", "B")])


class Contradictions(Joined):
    def test_each_is_named_with_file_and_line(self) -> None:
        other = BRAKES.replace("address = 0", "address = 1").replace("byte = 3", "byte = 5").replace("pgn = 0\npriority = 3", "pgn = 0\npriority = 2")
        found, text = self.contradicted(ENGINE, other)
        self.assertEqual(found, [
            "b.toml:17: unit ENGINE: address = 1, and 0 at a.toml:7",
            "b.toml:36: signal EEC1.Torque (5.1, 8 bits) shares a bit with SPN190 (4.1, 16 bits) at a.toml:21",
            "b.toml:45: group TSC1: priority = 2, and 3 at a.toml:31",
        ])
        self.assertIn("address = 0  # b.toml:17: unit ENGINE: address = 1, and 0 at a.toml:7\n", text)
        self.assertNotIn("Torque (5.1, 8 bits) is", text)
        self.assertEqual([len(group.get("signal", [])) for group in tomllib.loads(text)["group"]], [1, 0])

    def test_defaults_contradict_too(self) -> None:
        other = BRAKES.replace('label = "ENGINE"\n', 'label = "ENGINE"\nwindow = 16\n')
        self.assertEqual(self.contradicted(ENGINE, other)[0], ["b.toml:17: unit ENGINE: window = 16, and 255 by default at a.toml:5"])

    def test_units_of_measurement(self) -> None:
        """Of one scale, and one that is a part of the other: each in one line."""
        for unit in ("km/h", "1/2 rpm", "1/min"):
            first, other = (f"version = 3\n{group('A', 65262, signal('S', 1, 16, 'measured', measured), False)}".replace("private = false\n", "")
                            for measured in ('per = 8\nunit = "rpm"\n', f'per = 8\nunit = "{unit}"\n'))
            self.assertEqual(self.contradicted(first, other)[0], [f'b.toml:13: signal A.S: unit = "{unit}", and "rpm" at a.toml:13'])

    def test_one_spn_at_two_places(self) -> None:
        """A signal of another label and place is that of its number; of one file twice it is for `where --lint`."""
        first, other = (f"version = 4\n{group('A', 65262, signal(label, byte, 8, 'measured', 'spn = 190' + chr(10)), False)}".replace("private = false\n", "")
                        for label, byte in (("Speed", 1), ("Rev", 3)))
        self.assertEqual(self.contradicted(first, other)[0], ["b.toml:9: signal A.Rev (spn 190, as Speed): byte = 3, and 1 at a.toml:9"])
        both = first + signal("Rev", 3, 8, "measured", "spn = 190\n")
        self.assertEqual(len(self.joined(both)["group"][0]["signal"]), 2)

    def test_examples_that_contradict(self) -> None:
        """Two examples of one truck: another length of DM1, and another code where its codes lie."""
        found, _ = self.contradicted(text_of(example("trouble_codes.toml")), text_of(example("truck.toml")))
        self.assertEqual([line.partition(": ")[2] for line in found], [
            "group DM1: most = none, and 1782 at a.toml:15", "group DM1: every = none, and 4 at a.toml:16",
            "signal DM1.CODE (3.1, 32 bits) shares a bit with DTC (3.1, 32 bits) at a.toml:46",
        ])

    def test_units(self) -> None:
        """A NAME that another unit has, a fixed address that another one has, and one that may choose, which is none."""
        first = "version = 1\n" + unit("A", 1, 1)
        self.assertEqual(self.contradicted(first, "version = 1\n" + unit("B", 2, 1))[0], [
            "b.toml:5: unit B has the NAME of unit A at a.toml:5"])
        self.assertEqual(self.contradicted(first, "version = 1\n" + unit("B", 1, 2))[0],
                         ["b.toml:4: unit B is fixed at address 1, as unit A is at a.toml:4: --same A=B, if they are one"])
        self.joined(first, "version = 1\n" + unit("B", 1, 2, ", arbitrary = true"))

    def test_a_unit_of_another_label_and_address_is_another_one(self) -> None:
        """Whatever its NAME is; with --first both are in the plan, and check finds the NAME that they have."""
        names = [self.write(f"{label}.toml", "version = 3\n" + unit(label, address, 1) + group(sent, pgn, private=False) + flow(sent, label))
                 for label, address, sent, pgn in (("ENGINE", 0, "EEC1", 61444), ("HVAC", 25, "AMB", 65269))]
        status, text, said = run("join.py", "--first", *names)
        plan = tomllib.loads(text)
        self.assertEqual((status, [(unit["label"], unit["address"]) for unit in plan["unit"]]), (1, [("ENGINE", 0), ("HVAC", 25)]))
        self.assertEqual([(flow["group"], flow["from"]) for flow in plan["flow"]], [("EEC1", "ENGINE"), ("AMB", "HVAC")])
        self.assertEqual(said.splitlines(), [f"{names[1]}:5: unit HVAC has the NAME of unit ENGINE at {names[0]}:5",
                                             "2 plans: findings 1, notes 0, contradictions 1"])
        self.assertIn("F1 SameName ENGINE HVAC", program.call(["check", self.write("joined.toml", text)])[1])

    def test_serial_numbers(self) -> None:
        """Units that may be one are, at one address; a number stays where each file has it, and of two at other addresses that is told."""
        tables = [f'version = 4\n[[unit]]\nlabel = "{label}"\naddress = {address}\nname = {{ {number}manufacturer = 310 }}\n'
                  for label, address, number in (("ENGINE", 0, "identity = 5, "), ("EMS", 0, ""), ("HVAC", 25, ""))]
        for first, other, called in ((0, 1, "ENGINE"), (1, 0, "EMS")):
            status, text, said = self.join(tables[first], tables[other])
            self.assertEqual((status, tomllib.loads(text)["unit"]), (0, [{"label": called, "address": 0, "name": {"manufacturer": 310}}]))
            unit = ("EMS", "ENGINE")[first]
            self.assertEqual(said[:-1], [
                f"b.toml:5: note: unit {unit}: its identity number 5 is left away, since not each file has one",
                f"b.toml:3: note: unit {unit} is called {called}, as at a.toml:2"])
        self.assertEqual(self.contradicted(tables[0], tables[2])[0],
                         ["b.toml:5: unit HVAC has the NAME of unit ENGINE at a.toml:5, whatever their numbers are"])
        self.assertEqual(self.contradicted(tables[0], tables[0].replace("= 5,", "= 6,"))[0],
                         ["b.toml:5: unit ENGINE: name.identity = 6, and 5 at a.toml:5"])

    def test_units_that_are_one(self) -> None:
        """As --same says, whichever file comes first."""
        names = [self.write(f"{label}.toml", "version = 3\n" + unit(label, 0, 1) + group(sent, pgn, private=False) + flow(sent, label))
                 for label, sent, pgn in (("ENGINE", "EEC1", 61444), ("EMS", "ET1", 65262))]
        for files in (names, names[::-1]):
            status, text, said = run("join.py", "--same", "ENGINE=EMS", *files)
            plan = tomllib.loads(text)
            self.assertEqual((status, [unit["label"] for unit in plan["unit"]]), (0, ["ENGINE"]), said)
            self.assertEqual({(flow["group"], flow["from"]) for flow in plan["flow"]}, {("EEC1", "ENGINE"), ("ET1", "ENGINE")})
            self.assertIn(f"{names[1]}:3: note: unit EMS is called ENGINE", said)
        self.assertEqual(run("join.py", "--same", "ENGINE=ECM", *names)[::2], (2, "join: --same ENGINE=ECM: no unit is called ECM\n"))
        self.assertEqual(run("join.py", "--same", "ENGINE", *names)[0], 2)

    def test_groups_and_periods(self) -> None:
        first = "version = 3\n" + unit("A", 1, 1) + group("G", 65262, private=False) + flow("G", "A", more="period = 10\n")
        other = "version = 3\n" + unit("A", 1, 1) + group("G", 65263, private=False) + flow("G", "A", more="period = 20\n")
        self.assertEqual(self.contradicted(first, other)[0], ["b.toml:8: group G: pgn = 65263, and 65262 at a.toml:8"])
        self.assertEqual(self.contradicted(first, other.replace("65263", "65262"))[0],
                         ["b.toml:16: flow G from A to all: period = 20, and 10 at a.toml:16"])
        self.assertEqual(self.joined(first, other.replace("65263", "65262").replace("period = 20\n", ""))["flow"][0]["period"], 10)

    def test_timing(self) -> None:
        bus = "version = 3\n[timing]\nbitrate = 250000\nunplanned = 1\n"
        self.assertEqual(self.contradicted(bus, bus.replace("25", "50"))[0],
                         ["b.toml:2: timing: { bitrate = 500000, unplanned = 1 }, and { bitrate = 250000, unplanned = 1 } at a.toml:2"])

    def test_needs(self) -> None:
        """The same need is one; what only one of them asks for is taken; two ages of one need contradict."""
        engine = ENGINE.replace("version = 1", "version = 4")
        needs = engine + '\n[[need]]\nunit = "ABS"\ngroup = "EEC1"\n', engine + (
            '\n# also\n[[need]]\nunit = "ABS"\ngroup = "EEC1"\nwithin = 50\n[[need]]\nunit = "ABS"\ngroup = "EEC1"\nsignal = "SPN190"\n')
        names = [self.write(f"{number}.toml", text) for number, text in enumerate(needs)]
        status, plan, said = run("join.py", *names)
        self.assertEqual((status, tomllib.loads(plan)["need"]), (0, [
            {"unit": "ABS", "group": "EEC1", "within": 50}, {"unit": "ABS", "group": "EEC1", "signal": "SPN190"}]), said)
        status, plan, said = run("join.py", self.write("0.toml", needs[0] + "within = 40\n"), names[1])
        self.assertEqual((status, plan), (1, ""))
        line = needs[1].count("\n", 0, needs[1].index("within")) + 1
        self.assertIn(f"{names[1]}:{line}: need group EEC1 unit ABS: within = 50, and 40 at {names[0]}:{needs[0].count(chr(10)) + 1}\n", said)

    def test_a_signal_and_a_text_of_one_label(self) -> None:
        text = '[[group.text]]\nlabel = "S"\nbyte = 3\n'
        first, other = ("version = 3\n" + group("G", 65262, more, False) for more in (signal("S", 1, 8, "raw"), text))
        self.assertEqual(self.contradicted(first, other)[0], ["b.toml:9: text G.S is a signal at a.toml:8"])


    @needs("canmatrix", "python3-canmatrix")
    def test_the_suppliers_of_a_truck(self) -> None:
        """A plan of each one's DBC: of what is in several of them the rest agrees. The brakes' maker has another cycle time of EEC1, the cab's
        another offset of a temperature; and each has a number of its own for NAMEs that its file doesn't know."""
        plans = [run("dbc2plan.py", example(f"suppliers/{name}.dbc"))[1] for name in ("engine", "gearbox", "brakes", "cab")]
        found, text = self.contradicted(*plans)
        texts = [line.partition(": ")[2] for line in found]
        others = [told.rpartition(" at ")[0] for told in texts if " name." not in told and " has the NAME " not in told]
        self.assertEqual(others, ["flow EEC1 from ENGINE to all: period = 20, and 10", "signal ET1.SPN174: offset = 0 by default, and -40"])
        self.assertTrue(all(line[:7] in ("b.toml:", "c.toml:", "d.toml:") for line in found))
        joined = tomllib.loads(text)
        self.assertEqual([unit["label"] for unit in joined["unit"]], ["ENGINE", "GEARBOX", "BRAKES", "RETARDER", "CLUSTER"])
        signals = [{signal["label"] for group in plan.get("group", []) for signal in group.get("signal", [])}
                   for plan in (joined, *map(tomllib.loads, plans))]
        self.assertEqual(signals[0], set().union(*signals[1:]))


class BadInput(Joined):
    def test_each_file_that_is_none_is_named(self) -> None:
        good, text, none = self.write("a.toml", ENGINE), self.write("b.toml", "version = 1\n[[unit]\n"), self.write("c.toml", "version = 9\n")
        status, answer, said = run("join.py", text, good, none, self.path("missing.toml"), self.folder)
        self.assertEqual((status, answer), (4, ""))
        lines = said.replace(self.folder + "/", "").splitlines()
        self.assertRegex(lines[0], r"^join: b\.toml:2: refused Text")
        self.assertRegex(lines[1], r"^join: c\.toml:1: refused Range top key version")
        self.assertEqual(lines[2:], ["join: missing.toml: No such file or directory", f"join: {self.folder}: Is a directory"])
        self.assertEqual(run("join.py", text, good)[0], 2)

    def test_the_same_twice_is_said(self) -> None:
        status, text, said = self.join(ENGINE, ENGINE)
        self.assertEqual((status, said), (0, ["join: b.toml: the same plan as a.toml, so it is joined once",
                                              "1 plans: ok 2 units 2 groups 2 flows, notes 0, contradictions 0"]))
        self.assertEqual(tomllib.loads(text), tomllib.loads(ENGINE))

    def test_more_than_a_plan_can_have(self) -> None:
        plans = ["version = 1\n" + "".join(unit(f"U{number}", 200, number, ", arbitrary = true") for number in numbers)
                 for numbers in (range(100), range(100, 200))]
        status, text, said = self.join(*plans)
        self.assertEqual((status, text, said[-1]), (2, "", "join: the joined plan can't be had: refused TooMany top key unit"))


if __name__ == "__main__":
    unittest.main()
