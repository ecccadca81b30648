"""Plans of several suppliers' files: what they say together, whatever their order is, and what they contradict, told with both files."""

import contextlib
import io
import itertools
import json
import random
import tomllib
import unittest
from typing import Any

from j39plan.cli import dbc2plan
from j39plan.left_out import Notes
from j39plan.plan.text import text_of
from tests.dbc_files import WithDbc, message
from tests.support import needs, run

EEC1, CCVS, TSC1, ET1 = 0x0CF00400, 0x18FEF100, 0x0C000003, 0x18FEEE00
SPN, FORMAT = 'BA_DEF_ SG_ "SPN" INT 0 524287;\n', 'BA_DEF_ BO_ "VFrameFormat" ENUM "StandardCAN","ExtendedCAN","reserved","J1939PG";\n'
ADDRESS = 'BA_DEF_ BU_ "NmStationAddress" INT 0 254;\n'
SPEED = 'Speed : {}|16@1+ (0.00390625,0) [0|250.99609375] "km/h" Vector__XXX'
MODE = 'Mode : 0|8@1+ (1,0) [0|0] "" Vector__XXX'
STATE = 'State : 8|2@1+ (1,0) [0|0] "" Vector__XXX'


def named(identifier: int, signal: str, names: str) -> str:
    """A table of values."""
    return f"VAL_ {identifier | 1 << 31} {signal} {names} ;\n"


def number(identifier: int, signal: str, spn: int) -> str:
    """The number of a signal."""
    return f'BA_ "SPN" SG_ {identifier | 1 << 31} {signal} {spn};\n'


def at(node: str, address: int) -> str:
    """The address of a node."""
    return f'BA_ "NmStationAddress" BU_ {node} {address};\n'


@needs("canmatrix", "python3-canmatrix")
class Agreement(WithDbc):
    def of(self, *data: str, words: tuple[str, ...] = ()) -> tuple[dict[str, Any], list[str]]:
        """The plan of files `a.dbc`, `b.dbc` and so on, and what is said without their folder."""
        names = [self.write(f"{chr(97 + place)}.dbc", text) for place, text in enumerate(data)]
        status, plan, said = run("dbc2plan.py", *words, *names)
        self.assertEqual(status, 0, said)
        return tomllib.loads(self.checked(plan)), said.replace(self.folder + "/", "").splitlines()

    def test_one_signal_at_two_places(self) -> None:
        """By its name, or by its number where the names differ; the earlier file's place is in the plan."""
        for label in ("Speed", "WheelSpeed"):
            first = "BU_: EMS\n" + message(CCVS, "CCVS", "EMS", SPEED.format(8)) + SPN + number(CCVS, "Speed", 84)
            other = "BU_: EMS\n" + message(CCVS, "CCVS", "EMS", SPEED.format(40).replace("Speed", label)) + SPN + number(CCVS, label, 84)
            plan, said = self.of(first, other)
            self.assertEqual([(signal["label"], signal["byte"]) for signal in plan["group"][0]["signal"]], [("Speed", 2)])
            self.assertEqual(said[:-1], [
                f"b.dbc: signal {label} of CCVS: it is at 6.1, 16 bits, and Speed of CCVS in a.dbc at 2.1, 16 bits; only that one is in the plan"])
            self.assertEqual(run("dbc2plan.py", "--fail-on-notes", self.path("a.dbc"), self.path("b.dbc"))[0], 1)

    def test_one_message_of_two_numbers(self) -> None:
        plan, said = self.of("BU_: EMS\n" + message(CCVS, "CCVS", "EMS"), "BU_: EMS\n" + message(CCVS + 0x200, "CCVS", "EMS"))
        self.assertEqual([(group["label"], group["pgn"]) for group in plan["group"]], [("CCVS", 65265), ("CCVS_2", 65267)])
        self.assertEqual(said[:-1], ["b.dbc: group CCVS: its PGN is 65267, that of CCVS in a.dbc of EMS is 65265: it is called CCVS_2"])

    def test_another_number_or_range_of_a_signal(self) -> None:
        first, other = ("BU_: EMS\n" + message(CCVS, "CCVS", "EMS", SPEED.format(8).replace("250.99609375", most)) + SPN + number(CCVS, "Speed", spn)
                        for most, spn in (("250.99609375", 84), ("120", 517)))
        plan, said = self.of(first, other)
        self.assertEqual([signal["spn"] for signal in plan["group"][0]["signal"]], [84])
        self.assertEqual(said[:-1], ["b.dbc: signal Speed of CCVS: its range is 0..120, and 0..250.99609375 in CCVS in a.dbc, as in the plan",
                                     "b.dbc: signal Speed of CCVS: its SPN is 517, and 84 in CCVS in a.dbc, as in the plan"])

    def test_a_label_with_a_number_is_told(self) -> None:
        """Of two groups of one name, and of two signals whose names have one label."""
        long = "A" * 32
        plan, said = self.of("BU_: EMS TCU\n" + message(CCVS, "CCVS", "EMS", f'{long}x : 0|8@1+ (1,0) [0|0] "" TCU', f'{long}y : 8|8@1+ (1,0) [0|0] "" TCU')
                             + message(0x18FF1000, "STATE", "EMS") + message(0x18FF1003, "STATE", "TCU", length=7))
        self.assertEqual([group["label"] for group in plan["group"]], ["CCVS", "STATE", "STATE_2"])
        self.assertEqual([signal["label"] for signal in plan["group"][0]["signal"]], [long, f"{long[:30]}_2"])
        self.assertEqual(said[1:-1], [f"signal {long}y of CCVS: it is called {long[:30]}_2: {long} is another signal of the group",
                                     "group STATE: its PGN is 65296, that of STATE is 65296: it is called STATE_2"])

    def test_a_file_without_a_table_contradicts_nothing(self) -> None:
        """Whichever comes first: the table that there is says which numbers are values."""
        bare = "BU_: EMS\n" + message(CCVS, "CCVS", "EMS", MODE, STATE)
        full = bare + named(CCVS, "Mode", '0 "off" 1 "on"') + named(CCVS, "State", '2 "c" 3 "d"')
        for files in ((bare, full), (full, bare)):
            plan, said = self.of(*files)
            self.assertEqual([(signal["kind"], signal["values"]) for signal in plan["group"][0]["signal"]],
                             [("raw", {"0": "off", "1": "on"}), ("raw", {"2": "c", "3": "d"})])
            self.assertEqual(said[:-1], [])
            self.assertNotIn("laid out otherwise", self.text_of_plan())

    def text_of_plan(self) -> str:
        """The plan that was made last."""
        with open(self.path("plan.toml"), encoding="utf-8") as file:
            return file.read()

    def test_tables_that_contradict(self) -> None:
        """A number of two names, and a table by which other numbers are values; names that only one file has are joined."""
        first = "BU_: EMS\n" + message(CCVS, "CCVS", "EMS", MODE, STATE) + named(CCVS, "Mode", '0 "off" 1 "on"') + named(CCVS, "State", '2 "error"')
        other = "BU_: EMS\n" + message(CCVS, "CCVS", "EMS", MODE, STATE) + named(CCVS, "Mode", '1 "open" 2 "shut"') + named(CCVS, "State", '2 "c"')
        plan, said = self.of(first, other)
        mode, state = plan["group"][0]["signal"]
        self.assertEqual((mode["values"], state["kind"], state.get("values")), ({"0": "off", "1": "on", "2": "shut"}, "discrete", None))
        self.assertEqual(said[:-1], [
            'b.dbc: signal Mode of CCVS: it has another table of values; the plan has that of CCVS in a.dbc: 1 is "open", there "on"',
            "b.dbc: signal State of CCVS: it has another table of values, by which it is raw; the plan has that of CCVS in a.dbc"])

    def test_a_signal_that_one_file_can_not_give(self) -> None:
        """In each order the plan has that of the other file, and the note says so."""
        muxed = "BU_: EMS\n" + message(CCVS, "CCVS", "EMS", MODE.replace("Mode :", "Mode M :"), SPEED.format(8).replace("Speed :", "Speed m1 :"))
        plain = "BU_: EMS\n" + message(CCVS, "CCVS", "EMS", MODE, SPEED.format(8))
        for files, told in (((muxed, plain), "this"), ((plain, muxed), "that")):
            plan, said = self.of(*files)
            self.assertEqual([signal["label"] for signal in plan["group"][0]["signal"]], ["Mode", "Speed"])
            self.assertIn(f"b.dbc: signal Speed of CCVS: Speed of CCVS in a.dbc has another way of coding; only {told} one is in the plan", said)

    def test_two_lengths_and_one_identifier_twice(self) -> None:
        first, short = ("BU_: EMS\n" + message(CCVS, "CCVS", "EMS", MODE, length=length) for length in (8, 6))
        self.assertEqual(self.of(first, short)[1][:-1], ["b.dbc: group CCVS: its length is 6, that of CCVS in a.dbc is 8: the plan has both"])
        twice = first + message(CCVS, "CCVS_2", "EMS", STATE)
        plan, said = self.of(twice)
        self.assertEqual(said[:-1], ["group CCVS_2: CCVS has its identifier: both are one group"])
        self.assertEqual([signal["label"] for signal in plan["group"][0]["signal"]], ["Mode", "State"])

    def test_nodes_without_names(self) -> None:
        """One note for all; --identity numbers those that nothing else distinguishes."""
        nodes = [f"N{number}" for number in range(7)]
        data = f"BU_: {' '.join(nodes)}\n" + "".join(message(CCVS + number, "CCVS", node) for number, node in enumerate(nodes))
        plan, said = self.of(data)
        self.assertEqual(said[:-1], ["units N0, N1, N2, N3, N4 and 2 more: no NAME is given, so nothing tells them apart (F1): give each its function, "
                                     "or number them by --identity"])
        plan, said = self.of(data, words=("--identity",))
        self.assertEqual([unit["name"] for unit in plan["unit"]], [{"identity": number} for number in range(1, 8)])
        self.assertEqual(said[0], "unit N0: no identity number is given: 1 stands in its place")

    def test_names_above_the_values_and_whole_ranges(self) -> None:
        """States in 251 to 253 keep their names, errors and 'not available' have none; a range up to all ones is told."""
        level = 'Level : 16|16@1+ (1,0) [0|65535] "" Vector__XXX'
        plan, said = self.of("BU_: EMS\n" + message(CCVS, "CCVS", "EMS", MODE, level) + named(CCVS, "Mode", '251 "Park" 253 "Out" 254 "Fault" 255 "None"')
                             + named(CCVS, "Level", '64256 "Low" 65024 "Fault"'))
        self.assertEqual([signal["values"] for signal in plan["group"][0]["signal"]], [{"251": "Park", "253": "Out"}, {"64256": "Low"}])
        self.assertEqual(said[:-1], [])
        plan, said = self.of("BU_: EMS\n" + message(CCVS, "CCVS", "EMS", MODE, level))
        self.assertEqual((plan["group"][0]["signal"][1]["kind"], len(said)), ("measured", 2))
        self.assertTrue(said[0].startswith("signal Level of CCVS: the range goes to all ones, but by SAE J1939-71 251 and above "), said)

    def test_an_absurd_width_ends_at_once(self) -> None:
        plan, said = self.of("BU_: EMS\n" + message(CCVS, "CCVS", "EMS", MODE, 'S : 0|99999999999@1+ (1,0) [0|0] "" Vector__XXX'))
        self.assertEqual([signal["label"] for signal in plan["group"][0]["signal"]], ["Mode"])
        self.assertEqual(said[:-1], ["signal S of CCVS: left out: it has 99999999999 bits, more than 32"])

    def test_another_name_at_the_same_bits(self) -> None:
        plan, said = self.of("BU_: EMS\n" + message(CCVS, "CCVS", "EMS", SPEED.format(8)),
                             "BU_: EMS\n" + message(CCVS, "CCVS", "EMS", SPEED.format(8).replace("Speed", "WheelBasedVehicleSpeed")))
        self.assertEqual([signal["label"] for signal in plan["group"][0]["signal"]], ["Speed"])
        self.assertEqual(said[:-1], ["b.dbc: signal WheelBasedVehicleSpeed of CCVS: it is called Speed, as in CCVS in a.dbc"])
        self.assertRegex(self.text_of_plan(), r'label = "Speed"  # "WheelBasedVehicleSpeed in \S*b\.dbc"\n')

    def test_a_message_without_a_sender(self) -> None:
        """It is of the unit at its source address; where another file says the same nothing is to be noted."""
        own, heard = "BU_: EMS\n" + message(EEC1, "EEC1", "EMS"), "BU_: ICL\n" + message(CCVS, "CCVS", "Vector__XXX", 'S : 0|8@1+ (1,0) [0|0] "" ICL')
        end = ADDRESS + at("EMS", 0), ADDRESS + at("ICL", 23)
        plan, said = self.of(own + end[0], heard + end[1])
        self.assertEqual([(flow["group"], flow["from"], flow["to"]) for flow in plan["flow"]], [("EEC1", "EMS", "all"), ("CCVS", "EMS", "all")])
        self.assertEqual(plan["need"], [{"unit": "ICL", "group": "CCVS"}])
        self.assertEqual(said[:-2], ["b.dbc: group CCVS: it names no sender: EMS has its source address 0"])
        _, said = self.of(own + message(CCVS, "CCVS", "EMS") + end[0], heard + end[1])
        self.assertEqual(said[:-1], ["units EMS, ICL: no NAME is given, so nothing tells them apart (F1): give each its function, or number them by --identity"])

    def test_frames_of_other_protocols(self) -> None:
        """Extended frames that the file says to be none of J1939; where it calls none so, nothing is known of them."""
        data = "BU_: EMS\n" + message(EEC1, "EEC1", "EMS") + message(0x18DA00F1, "UDS_REQ", "EMS") + FORMAT
        uds = f'BA_ "VFrameFormat" BO_ {0x18DA00F1 | 1 << 31} 1;\n'
        for told in ('BA_DEF_DEF_ "VFrameFormat" "J1939PG";\n', f'BA_DEF_DEF_ "VFrameFormat" "StandardCAN";\nBA_ "VFrameFormat" BO_ {EEC1 | 1 << 31} 3;\n'):
            plan, said = self.of(data + told + uds)
            self.assertEqual([group["label"] for group in plan["group"]], ["EEC1"])
            self.assertEqual(said[0], "group UDS_REQ: its VFrameFormat is ExtendedCAN, so it is no group of J1939")
        plan, said = self.of(data + 'BA_DEF_DEF_ "VFrameFormat" "ExtendedCAN";\n')
        self.assertEqual([group["label"] for group in plan["group"]], ["EEC1", "UDS_REQ"])

    def test_units_of_two_names(self) -> None:
        """Of two files, at one address, it is asked whether they are one; --same says so, --address where a node is."""
        one = "BU_: EMS\n" + message(EEC1, "EEC1", "EMS")
        two = "BU_: ENGINE TCU\n" + message(ET1, "ET1", "ENGINE") + 'BO_ 291 SHORT: 8 TCU\n SG_ T : 0|8@1+ (1,0) [0|0] "" ENGINE\n'
        _, said = self.of(one, two)
        self.assertIn("unit ENGINE: EMS is at address 0 too: --same EMS=ENGINE, if they are one", said)
        for files in ((one, two), (two, one)):
            plan, said = self.of(*files, words=("--same", "ENGINE=EMS", "--address", "TCU=3"))
            self.assertEqual({(unit["label"], unit["address"]) for unit in plan["unit"]}, {("ENGINE", 0), ("TCU", 3)})
            self.assertEqual({(flow["group"], flow["from"]) for flow in plan["flow"]}, {("EEC1", "ENGINE"), ("ET1", "ENGINE")})
            self.assertEqual([line for line in said if "unit " in line], [])
        _, said = self.of(one + ADDRESS + at("EMS", 0), words=("--address", "EMS=5"))
        self.assertIn("unit EMS, NmStationAddress: 0 is ignored: --address has 5", said)
        _, said = self.of("BU_: EMS ENGINE\n" + message(EEC1, "EEC1", "EMS") + message(ET1, "ET1", "ENGINE"))
        self.assertNotIn("--same", " ".join(said))  # a file knows its own units
        for words in (("--same", "ENGINE=ECM"), ("--same", "ENGINE"), ("--address", "ECM=3"), ("--address", "EMS=254")):
            self.assertEqual(run("dbc2plan.py", *words, self.path("a.dbc"))[:2], (2, ""), words)


# Five suppliers of a vehicle, in whose files nothing contradicts: each has a part of what is said of a signal.
SUPPLIERS = {
    "engine": "BU_: EMS\n" + message(EEC1, "EEC1", "EMS", 'Rpm : 24|16@1+ (0.125,0) [0|0] "rpm" Vector__XXX', MODE)
    + named(EEC1, "Mode", '0 "idle" 1 "pedal"') + ADDRESS + at("EMS", 0),
    "gearbox": "BU_: TCU EMS\n" + message(EEC1, "EEC1", "EMS", 'Rpm : 24|16@1+ (0.125,0) [0|8031.875] "rpm" TCU', MODE.replace("Vector__XXX", "TCU"))
    + message(TSC1, "TSC1", "TCU", 'Override : 0|2@1+ (1,0) [0|3] "" EMS') + named(TSC1, "Override", '0 "off" 3 "limit"') + SPN + number(EEC1, "Rpm", 190) + ADDRESS + at("TCU", 3),
    "brakes": "BU_: ABS EMS\n" + message(0x18F0010B, "EBC1", "ABS", STATE.replace("Vector__XXX", "EMS")) + message(0x0C00000B, "TSC1", "ABS",
        'Override : 0|2@1+ (1,0) [0|3] "" EMS') + named(0x0C00000B, "Override", '0 "off" 1 "speed" 2 "torque" 3 "limit"') + ADDRESS + at("ABS", 11),
    "cluster": "BU_: ICL\n" + message(EEC1, "EEC1", "Vector__XXX", 'Rpm : 24|16@1+ (0.125,0) [0|0] "rpm" ICL', MODE.replace("Vector__XXX", "ICL"))
    + message(0x18F0010B, "EBC1", "Vector__XXX", STATE.replace("Vector__XXX", "ICL")) + named(0x18F0010B, "State", '2 "error" 3 "not available"')
    + ADDRESS + at("ICL", 23),
    "body": "BU_: BCM ICL\n" + message(0x18FEF121, "CCVS", "BCM", SPEED.format(8).replace("Vector__XXX", "ICL"))
    + message(0x18DA00F1, "UDS", "BCM") + FORMAT + f'BA_DEF_DEF_ "VFrameFormat" "J1939PG";\nBA_ "VFrameFormat" BO_ {0x18DA00F1 | 1 << 31} 1;\n'
    + ADDRESS + at("BCM", 33),
}

# What three of them say otherwise than others: by file, what is there and what stands in its place, and what both files are said to have.
PLANTED = {
    "gearbox": ("24|16", "40|16", "Rpm of EEC1"), "cluster": ("Mode :", "EngineMode :", "Mode of EEC1"), "brakes": ('0 "off"', '0 "none"', "Override of TSC1"),
}


@needs("canmatrix", "python3-canmatrix")
class Orders(WithDbc):
    def made_of(self, files: dict[str, str]) -> tuple[dict[str, Any], list[dict[str, Any]]]:
        """The plan of these files, and the notes."""
        names = [self.write(f"{name}.dbc", text) for name, text in files.items()]
        notes = Notes()
        with contextlib.redirect_stderr(io.StringIO()):
            plan = dbc2plan.plan_of(dbc2plan.options(names), notes)
        text = text_of(plan.tables(), "several files")
        return tomllib.loads(text), [note._asdict() for note in notes.said]

    def orders(self, files: dict[str, str]) -> list[dict[str, str]]:
        """Some orders of files: with each one first, and by chance."""
        chance, found = random.Random(7), []
        for first in files:
            rest = [name for name in files if name != first]
            chance.shuffle(rest)
            found += [{name: files[name] for name in (first, *rest)}, {name: files[name] for name in (*rest, first)}]
        return found

    @staticmethod
    def tables(plan: dict[str, Any]) -> set[str]:
        """The tables of a plan, in no order."""
        groups = [{**group, "signal": sorted(group.get("signal", []), key=json.dumps)} for group in plan["group"]]
        return {json.dumps(table, sort_keys=True) for table in itertools.chain(plan["unit"], groups, plan["flow"], plan["need"])}

    def test_the_order_of_files_changes_nothing(self) -> None:
        whole, notes = self.made_of(SUPPLIERS)
        speed, mode = (next(signal for signal in whole["group"][0]["signal"] if signal["label"] == label) for label in ("Rpm", "Mode"))
        self.assertEqual((speed["spn"], mode["kind"], mode["values"]), (190, "raw", {"0": "idle", "1": "pedal"}))
        self.assertEqual({(flow["group"], flow["from"], flow["to"]) for flow in whole["flow"]}, {
            ("EEC1", "EMS", "all"), ("TSC1", "TCU", "EMS"), ("TSC1", "ABS", "EMS"), ("EBC1", "ABS", "all"), ("CCVS", "BCM", "all")})
        self.assertEqual({(need["unit"], need["group"]) for need in whole["need"]}, {
            ("TCU", "EEC1"), ("ICL", "EEC1"), ("EMS", "TSC1"), ("EMS", "EBC1"), ("ICL", "EBC1"), ("ICL", "CCVS")})
        self.assertEqual([note["what"] for note in notes], ["group UDS", "units ABS, BCM, EMS, ICL, TCU"])
        for files in self.orders(SUPPLIERS):
            plan, told = self.made_of(files)
            self.assertEqual(self.tables(plan), self.tables(whole), list(files))
            self.assertEqual(sorted(map(json.dumps, told)), sorted(map(json.dumps, notes)))

    def test_what_contradicts_is_told_in_each_order(self) -> None:
        """With the signal, and both files; and no signal has a number behind its name."""
        for name, (before, now, what) in PLANTED.items():
            self.assertIn(before, SUPPLIERS[name])
            files = {**SUPPLIERS, name: SUPPLIERS[name].replace(before, now)}
            for order in self.orders(files):
                plan, notes = self.made_of(order)
                told = [note for note in notes if note["what"].startswith("signal ")]
                self.assertTrue(told, (name, list(order)))
                for note in told:
                    signal, _, group = what.partition(" of ")
                    self.assertRegex(note["what"], rf"^signal (Engine)?{signal} of {group}$")
                    self.assertRegex(note["why"], r"[/\\]\w+\.dbc")
                    self.assertTrue(f"{name}.dbc" in note["file"] or f"{name}.dbc" in note["why"], note)
                labels = [signal["label"] for group in plan["group"] for signal in group.get("signal", [])]
                self.assertEqual([label for label in labels if label.endswith("_2")], [])


if __name__ == "__main__":
    unittest.main()
