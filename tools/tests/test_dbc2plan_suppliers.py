"""Plans from several files, as each supplier has one, and what a file says of times, contents and ranges."""

import json
import os
import random
import subprocess
import sys
import tomllib
from collections.abc import Sequence
from typing import Any

from j39plan import program
from tests.dbc_files import DBC, NODES, WithDbc, message
from tests.support import TOOLS, example, needs, run, text_of

SUPPLIERS = [example(f"suppliers/{name}.dbc") for name in ("engine", "gearbox", "brakes", "cab")]
ENGINE, GEARBOX, BRAKES, CAB = SUPPLIERS

EEC1, EEC1_AT_15 = 0x0CF00400, 0x0CF0040F
TIMES = "".join(f'BA_DEF_ BO_ "{name}" INT 0 65535;\n' for name in ("GenMsgCycleTime", "GenMsgCycleTimeFast", "GenMsgDelayTime")) + (
    'BA_DEF_ BO_ "GenMsgSendType" ENUM "cyclic","cyclicAndSpontaneous","CyclicIfActive","OnRequest","NoMsgSendType";\n')


class WithFiles(WithDbc):
    def joined(self, *files: str, words: Sequence[str] = ()) -> tuple[dict[str, Any], set[tuple[str, str, str]], list[str]]:
        """The plan of several files, which `check` can read, its flows by group, sender and receiver, and what is said."""
        status, text, said = run("dbc2plan.py", *files, *words)
        self.assertEqual(status, 0, said)
        plan = tomllib.loads(self.checked(text))
        return plan, {(flow["group"], flow["from"], flow["to"]) for flow in plan.get("flow", [])}, said.splitlines()

    def signals_of(self, plan: dict[str, Any], label: str) -> list[str]:
        """The labels of a group's signals."""
        return [signal["label"] for group in plan["group"] if group["label"] == label for signal in group["signal"]]


@needs("canmatrix", "python3-canmatrix")
class Suppliers(WithFiles):
    def test_a_truck_of_four_files(self) -> None:
        """Each has its own units' NAMEs, and of the others' groups what it receives. What contradicts is said with both files' names."""
        plan, flows, said = self.joined(*SUPPLIERS, words=("--identity",))
        units = [(unit["label"], unit["address"], unit["name"]["identity"], unit["name"]["manufacturer"]) for unit in plan["unit"]]
        self.assertEqual(units, [("ENGINE", 0, 204817, 310), ("GEARBOX", 3, 5512, 401), ("BRAKES", 11, 30722, 201),
                                 ("RETARDER", 15, 11204, 201), ("CLUSTER", 23, 7733, 310)])
        self.assertEqual(flows, {
            ("EEC1", "ENGINE", "all"), ("ET1", "ENGINE", "all"), ("LFE1", "ENGINE", "all"), ("VI", "ENGINE", "all"),
            ("TSC1", "GEARBOX", "ENGINE"), ("TSC1", "BRAKES", "ENGINE"), ("TSC1", "BRAKES", "RETARDER"), ("DM1", "ENGINE", "all"),
            ("DM1", "GEARBOX", "all"), ("DM1", "BRAKES", "all"), ("ENGINE_STATE", "ENGINE", "all"), ("CLUTCH_STATE", "GEARBOX", "all"),
            ("ETC1", "GEARBOX", "all"), ("ETC2", "GEARBOX", "all"), ("EBC1", "BRAKES", "all"), ("EBC2", "BRAKES", "all"),
            ("ERC1", "RETARDER", "all"), ("CCVS", "CLUSTER", "all")})
        self.assertEqual(said, [
            f"{CAB}: unit GEARBOX, NmJ1939ManufacturerCode: 44 is ignored: {GEARBOX} has 401",
            f"{GEARBOX}: signal SPN190 of EEC1: its unit 'RPM' is 'rpm' in EEC1 in {ENGINE}, as in the plan",
            f"{BRAKES}: flow of EEC1 from ENGINE to all: its cycle times are 10 ms in {ENGINE} and 20 ms: the lesser one is its period",
            f"{CAB}: signal SPN174 of ET1: SPN174 of ET1 in {ENGINE} has another factor or offset; only that one is in the plan",
            f"{CAB}: signal SPN183 of LFE1: its unit 'L/h' is 'l/h' in LFE1 in {ENGINE}, as in the plan",
            "5 units 14 groups 18 flows 20 needs, notes 5"])
        self.assertEqual(program.call(["check", self.path("plan.toml")]), (0, "ok 5 units 14 groups 18 flows\n"))
        self.assertIn('group = "ET1"  # "laid out otherwise in cab.dbc: SPN174"\n', text_of(self.path("plan.toml")))
        self.assertEqual([need["unit"] for need in tomllib.loads(text_of(self.path("plan.toml")))["need"] if need["group"] == "ET1"], ["CLUSTER"])

    def test_signals_of_one_group_are_joined(self) -> None:
        """Whichever file comes first, and that has a part of them."""
        for files in (SUPPLIERS, SUPPLIERS[::-1], [CAB, GEARBOX, ENGINE, BRAKES]):
            plan, flows, _ = self.joined(*files)
            self.assertEqual(set(self.signals_of(plan, "EEC1")), {"SPN899", "SPN512", "SPN513", "SPN190"})
            self.assertEqual(set(self.signals_of(plan, "TSC1")), {"SPN695", "SPN897", "SPN898", "SPN518"})
            self.assertEqual((len(plan["unit"]), len(plan["group"]), len(flows)), (5, 14, 18))

    def test_one_file_knows_its_own_addresses(self) -> None:
        """So a message to another unit goes to all, which is said; with that unit's file it goes there."""
        plan, flows, said = self.joined(GEARBOX)
        self.assertEqual([unit["label"] for unit in plan["unit"]], ["GEARBOX", "ENGINE"])  # of EEC1 that it receives
        self.assertIn(("TSC1", "GEARBOX", "ENGINE"), flows)
        name = self.write("alone.dbc", NODES + message(0x0C00000F, "TSC1", "RETARDER", 'S : 0|8@1+ (1,0) [0|0] "" TOOL'))
        plan, flows, said = self.joined(name)
        self.assertEqual(flows, {("TSC1", "RETARDER", "all")})
        self.assertIn("flow of TSC1: no unit of the plan has its destination 0: it goes to all", said)
        self.assertIn('group = "TSC1"  # to address 0\n', text_of(self.path("plan.toml")))
        _, flows, said = self.joined(name, ENGINE)
        self.assertIn(("TSC1", "RETARDER", "ENGINE"), flows)
        self.assertNotIn("destination", " ".join(said))

    def test_free_identities_are_free_in_all_files(self) -> None:
        first = self.write("first.dbc", "BU_: ONE TWO\n" + message(EEC1, "EEC1", "ONE") + message(0x18FEEE07, "ET1", "TWO"))
        second = self.write("second.dbc", "BU_: THREE FOUR\n" + message(0x18FEEF08, "EFL", "THREE") + message(0x18FEF109, "CCVS", "FOUR") + (
            'BA_DEF_ BU_ "NmJ1939IdentityNumber" INT 0 2097151;\nBA_ "NmJ1939IdentityNumber" BU_ THREE 1;\n'))
        plan, _, _ = self.joined(first, second, words=("--version", "3"))
        self.assertEqual([unit["name"]["identity"] for unit in plan["unit"]], [2, 3, 1, 4])

    def test_a_file_without_addresses(self) -> None:
        plan, flows, said = self.joined(self.write("file.dbc", message(EEC1, "EEC1", "Vector__XXX")))
        self.assertEqual((plan.get("unit"), flows, said), (None, set(), [
            "units: no node has an address, so there are neither units nor flows", "0 units 1 groups 0 flows, notes 1"]))

    def test_the_same_file_twice(self) -> None:
        copy = self.write("copy.dbc", text_of(ENGINE))
        plan, _, said = self.joined(ENGINE, copy)
        self.assertEqual(said[0], f"{copy}: file: it holds the same as {ENGINE}, and is ignored")
        alone, _, _ = self.joined(ENGINE)
        self.assertEqual(plan, alone)

    def test_a_file_that_is_none(self) -> None:
        none = self.write("none.txt", "hello")
        missing = self.path("missing.dbc")
        ending = "it is none of .dbc, .arxml, .kcd, .sym, .csv, .xlsx and .ods by its ending: name its kind by --kind"
        self.assertEqual(run("dbc2plan.py", ENGINE, none)[::2], (2, f"dbc2plan: {none}: {ending}\n"))
        self.assertEqual(run("dbc2plan.py", ENGINE, missing)[::2], (4, f"dbc2plan: {missing}: No such file or directory\n"))
        empty = self.write("empty.dbc", "")
        self.assertEqual(run("dbc2plan.py", empty, self.write("too.dbc", "\n"))[::2], (
            2, f"dbc2plan: {empty}, {self.path('too.dbc')}: there is nothing in it that a plan can have\n"))

    def test_a_choice_of_groups_of_all_files(self) -> None:
        plan, flows, _ = self.joined(*SUPPLIERS, words=("--sender", "BRAKES", "--group", "61441"))
        self.assertEqual((flows, self.signals_of(plan, "EBC1")), ({("EBC1", "BRAKES", "all")}, ["SPN563", "SPN521"]))
        self.assertEqual(run("dbc2plan.py", *SUPPLIERS, "--group", "NOPE")[0], 2)

    def test_makers_own_groups_of_two_files(self) -> None:
        """The message that both have is one group; another one of its number from the same unit is left out."""
        state = '{} : {}|8@1+ (1,0) [0|0] "" RETARDER'
        first = self.write("first.dbc", NODES + message(0x18FF1000, "STATE", "ENGINE", state.format("A", 0), state.format("B", 8)))
        second = self.write("second.dbc", "BU_: ENGINE\n" + message(0x18FF1000, "STATE", "ENGINE", state.format("B", 8), state.format("C", 16)))
        third = self.write("third.dbc", "BU_: ENGINE\n" + message(0x18FF1000, "OTHER", "ENGINE", state.format("D", 24)))
        plan, _, said = self.joined(first, second, third)
        self.assertEqual(self.signals_of(plan, "STATE"), ["A", "B", "C"])
        self.assertIn(f"{third}: group OTHER: left out: STATE has the same PGN 65296 from the same unit to the same receiver, and is another group", said)


@needs("canmatrix", "python3-canmatrix")
class OneGroup(WithFiles):
    def test_a_group_of_several_senders_has_their_common_name(self) -> None:
        """And each flow its message's."""
        plan, _ = self.text(data=NODES + message(0x18FECA00, "DM1_ENG", "ENGINE") + message(0x18FECA0F, "DM1_RET", "RETARDER") + (
            message(EEC1, "EEC1", "ENGINE") + message(EEC1_AT_15, "SPEED", "RETARDER")))
        self.assertEqual([group["label"] for group in tomllib.loads(plan)["group"]], ["DM1", "EEC1"])
        for line in ('group = "DM1"  # message DM1_ENG', 'group = "DM1"  # message DM1_RET', 'group = "EEC1"', 'group = "EEC1"  # message SPEED'):
            self.assertIn(line, plan.splitlines())

    def test_units_of_measurement_that_agree(self) -> None:
        """Without case and blanks; where they are spelled otherwise that is said."""
        for unit, other, agree in (("rpm", "RPM", 1), ("deg C", "degC", 1), ("°C", "degC", 0), ("l/h", "kg/h", None), ("", "%", None)):
            name = self.write("file.dbc", NODES + message(EEC1, "EEC1", "ENGINE", f'S : 0|8@1+ (1,0) [0|0] "{unit}" RETARDER') + message(
                EEC1_AT_15, "EEC1_B", "RETARDER", f'S : 0|8@1+ (1,0) [0|0] "{other}" ENGINE'))
            plan, flows, said = self.joined(name)
            told = [line for line in said if line.startswith("signal ")]
            self.assertEqual((len(plan["group"]), len(flows), len(told)), (1, 2, 1 if agree is None else agree), (unit, said))
            self.assertEqual("only that one is in the plan" in "".join(told), agree is None)

    def test_tables_of_values_that_differ(self) -> None:
        tables = "".join(f'VAL_ {identifier | 1 << 31} S 0 "{name}" ;\n' for identifier, name in ((EEC1, "off"), (EEC1_AT_15, "open")))
        _, said = self.text(data=NODES + message(EEC1, "EEC1", "ENGINE", 'S : 0|2@1+ (1,0) [0|0] "" RETARDER') + message(
            EEC1_AT_15, "EEC1_B", "RETARDER", 'S : 0|2@1+ (1,0) [0|0] "" ENGINE') + tables)
        self.assertIn('signal S of EEC1_B: it has another table of values; the plan has that of EEC1: 0 is "open", there "off"', said)

    def test_who_receives_what(self) -> None:
        """The flow has all that receive something of it, a signal those that receive it, where not all receive all."""
        signals = ('A : 0|8@1+ (1,0) [0|0] "" RETARDER,TOOL', 'B : 8|8@1+ (1,0) [0|0] "" Vector__XXX', 'C : 16|8@1+ (1,0) [0|0] "" RETARDER')
        text, _ = self.text(data=NODES + message(EEC1, "EEC1", "ENGINE", *signals))
        parts = ('label = "A"  # for RETARDER', 'label = "B"  # for nobody', 'label = "C"  # for RETARDER')
        for line in (*parts, '[[need]]\nunit = "RETARDER"\ngroup = "EEC1"', '[[flow]]\ngroup = "EEC1"\n'):
            self.assertIn(line, text)
        text, _ = self.text("--no-needs", data=NODES + message(EEC1, "EEC1", "ENGINE", *signals))
        for line in (*parts, 'group = "EEC1"  # for RETARDER'):
            self.assertIn(line, text.splitlines())


@needs("canmatrix", "python3-canmatrix")
class WhatAFileSays(WithFiles):
    def test_least_distances(self) -> None:
        """A cycle is one only where nothing else sends the message too; the shorter one counts, and else the delay time."""
        number = EEC1 | 1 << 31
        for times, period, said in (
            ({"CycleTime": 1000}, 1000, ""), ({"CycleTime": 1000, "SendType": 0}, 1000, ""), ({"CycleTime": 1000, "SendType": 4}, 1000, ""),
            ({"CycleTime": 1000, "SendType": 1}, None, "it is sent cyclicAndSpontaneous, and its cycle time of 1000 ms is no least distance: it has no period"),
            ({"CycleTime": 1000, "SendType": 1, "DelayTime": 20}, 20,
             "it is sent cyclicAndSpontaneous: its period is its delay time of 20 ms, not its cycle time of 1000 ms"),
            ({"CycleTime": 1000, "SendType": 1, "DelayTime": 1000}, 1000, ""), ({"SendType": 1, "DelayTime": 50}, 50, ""),
            ({"CycleTime": 1000, "CycleTimeFast": 20, "SendType": 2}, 20, "its period is 20 ms, as while it is active; else its cycle time is 1000 ms"),
            ({"CycleTime": 20, "CycleTimeFast": 1000}, 20, ""), ({"SendType": 3}, None, ""), ({"CycleTime": 100, "DelayTime": 20}, 100, ""),
        ):
            data = NODES + message(EEC1, "EEC1", "ENGINE") + TIMES + "".join(f'BA_ "GenMsg{name}" BO_ {number} {time};\n' for name, time in times.items())
            plan, told = self.plan(data=data)
            self.assertEqual(plan["flow"][0].get("period"), period, times)
            self.assertEqual([line for line in told if line.startswith("group ")], [f"group EEC1: {said}"] if said else [], times)

    def test_a_default_cycle_time_is_that_of_each_message(self) -> None:
        """But of one that has its own, and one that says that it has none."""
        data = NODES + "".join(message(0x18F00000 + 0x100 * at, f"M{at}", "ENGINE") for at in range(3)) + TIMES + (
            'BA_DEF_DEF_ "GenMsgCycleTime" 100;\n' + "".join(
                f'BA_ "GenMsgCycleTime" BO_ {0x18F00000 + 0x100 * at | 1 << 31} {time};\n' for at, time in ((0, 20), (1, 0))))
        plan, said = self.plan(data=data)
        self.assertEqual([flow.get("period") for flow in plan["flow"]], [20, None, 100])
        self.assertIn("group M2, GenMsgCycleTime: 100 is the default of the file", said)

    def test_what_a_signal_is(self) -> None:
        """SigType tells texts and trouble codes; so does a unit of measurement ASCII of what is wider than a number."""
        number = 0x98FEEC00
        data = NODES + message(0x18FEEC00, "VI", "ENGINE", 'VIN : 0|136@1+ (1,0) [0|0] "" RETARDER', 'SHORT : 136|16@1+ (1,0) [0|0] "" RETARDER',
                               'CODE : 152|32@1+ (1,0) [0|0] "" RETARDER', 'MADE : 184|64@1+ (1,0) [0|0] "ASCII" RETARDER',
                               'LEVEL : 248|8@1+ (1,0) [0|0] "" RETARDER', length=32) + (
            'BA_DEF_ SG_ "SigType" ENUM "Default","Range","RangeSigned","ASCII","Discrete","Control","ReferencePGN","DTC";\n' + "".join(
                f'BA_ "SigType" SG_ {number} {name} {content};\n' for name, content in (("VIN", 3), ("SHORT", 3), ("CODE", 7), ("LEVEL", 1))))
        plan, said = self.plan(data=data)
        self.assertEqual([(text["label"], text["byte"], text["bytes"]) for text in plan["group"][0]["text"]],
                         [("VIN", 1, 17), ("SHORT", 18, 2), ("MADE", 24, 8)])
        self.assertEqual([(signal["label"], signal["kind"]) for signal in plan["group"][0]["signal"]], [("CODE", "dtc"), ("LEVEL", "measured")])
        self.assertEqual([line for line in said if line.startswith("signal ")], [])
        older, said = self.plan("--version", "2", data=data)
        self.assertEqual([signal["label"] for signal in older["group"][0]["signal"]], ["CODE", "LEVEL", "SHORT", "MADE", "MADE_2"])  # VIN is too wide to be held
        self.assertIn("signal VIN of VI: left out: it is text", said)

    def test_ranges_of_makers_own_groups(self) -> None:
        """One that goes to all ones says that each number is a value; in the standard's groups it doesn't."""
        signals = ('ALL : 0|16@1+ (0.1,0) [0|6553.5] "bar" RETARDER', 'LESS : 16|16@1+ (0.1,0) [0|6425.5] "bar" RETARDER',
                   'NONE : 32|8@1+ (1,0) [0|0] "" RETARDER', 'NAMED : 40|8@1+ (1,0) [0|255] "" RETARDER')
        for identifier, kinds in ((0x18FF1000, ["raw", "measured", "measured", "measured"]), (0x18FEEE00, ["measured"] * 4)):
            plan, _ = self.plan(data=NODES + message(identifier, "G", "ENGINE", *signals) + f'VAL_ {identifier | 1 << 31} NAMED 255 "not available" ;\n')
            self.assertEqual([signal["kind"] for signal in plan["group"][0]["signal"]], kinds)

    def test_ranges_are_kept(self) -> None:
        signals = ('LESS : 0|8@1+ (1,-40) [-40|100] "" RETARDER', 'SAME : 8|8@1+ (1,-40) [-40|210] "" RETARDER', 'NONE : 16|8@1+ (1,-40) [0|0] "" RETARDER')
        text, _ = self.text(data=NODES + message(EEC1, "EEC1", "ENGINE", *signals))
        for line in ('label = "LESS"  # range -40..100', 'label = "SAME"', 'label = "NONE"'):
            self.assertIn(line, text.splitlines())

    def test_how_fast_the_bus_is(self) -> None:
        """A comment that can be made a table."""
        define, beside = 'BA_DEF_ "Baudrate" INT 0 1000000;\n', NODES + message(EEC1, "EEC1", "ENGINE")
        for told, bitrate, words in (
            ("500000", 500000, ()), ("250", 250000, ()), ("125000", 125000, ()), ("1000", 1000000, ()), ("125000", None, ("--version", "3")),
            ("800000", None, ()), ("0", None, ()),
        ):
            text, said = self.text(*words, data=beside + define + f'BA_ "Baudrate" {told};\n')
            self.assertEqual(f"# [timing]\n# bitrate = {bitrate}\n# unplanned = 1\n" in text, bitrate is not None, told)
            rates = "250000 and 500000" if words else "250000 and 500000 and 125000 and 1000000"
            self.assertEqual(f"the bus, Baudrate: {told} is none of {rates}" in said, told != "0" and bitrate is None, told)
        apart = 'BA_DEF_ BU_ "NmJ1939Function" INT 0 255;\nBA_ "NmJ1939Function" BU_ RETARDER 10;\n'
        text, _ = self.text(data=beside + apart + define + f'BA_ "Baudrate" 500000;\n{TIMES}BA_ "GenMsgCycleTime" BO_ {EEC1 | 1 << 31} 10;\n')
        whole = text.replace("# [timing]", "[timing]").replace("# bitrate", "bitrate").replace("# unplanned", "unplanned")
        name = self.write("timed.toml", whole)
        self.assertEqual(program.call(["load", name])[1].splitlines()[-1], "load 16000 of 500000")
        slow, fast = (self.write(name, beside + define + f'BA_ "Baudrate" {told};\n') for name, told in (("a.dbc", 250000), ("b.dbc", 500000)))
        _, _, said = self.joined(slow, fast)
        self.assertIn(f"{fast}: the bus, Baudrate: 500000 is ignored: {slow} has 250000", said)


@needs("canmatrix", "python3-canmatrix")
class NotesAndForms(WithFiles):
    def test_notes_as_json(self) -> None:
        name = self.path("notes.json")
        status, _, said = run("dbc2plan.py", *SUPPLIERS, "--identity", "--notes", name)
        notes = [json.loads(line) for line in text_of(name).splitlines()]
        self.assertEqual((status, len(notes)), (0, 5))
        self.assertEqual([": ".join(note.values()) for note in notes], said.splitlines()[:-1])
        self.assertEqual(notes[0], {"file": CAB, "what": "unit GEARBOX, NmJ1939ManufacturerCode", "why": f"44 is ignored: {GEARBOX} has 401"})
        run("plan2dbc.py", example("first_plan.toml"), "--notes", name)
        self.assertEqual(text_of(name), "")

    def test_a_status_for_notes(self) -> None:
        """The plan is written all the same."""
        clean = self.write("clean.dbc", run("plan2dbc.py", example("first_plan.toml"))[1])
        for tool, file, statuses in (("dbc2plan.py", CAB, (0, 1)), ("dbc2plan.py", clean, (0, 0)),
                                     ("plan2dbc.py", example("axle.toml"), (0, 1)), ("plan2dbc.py", example("first_plan.toml"), (0, 0))):
            plain, strict = run(tool, file), run(tool, "--fail-on-notes", file)
            self.assertEqual((plain[0], strict[0]), statuses, (tool, file))
            self.assertEqual(plain[1:], strict[1:])

    def test_standard_input_has_a_kind(self) -> None:
        whole = text_of(example("vehicle.dbc"))
        status, plan, said = run("dbc2plan.py", "--identity", "--kind", "dbc", "/dev/stdin", text=whole)
        self.assertEqual((status, said), (0, "group ERC1: its identifier has the source address 15, RETARDER has 0\n3 units 4 groups 4 flows 5 needs, notes 1\n"))
        self.assertEqual(plan.splitlines()[1:], run("dbc2plan.py", "--identity", example("vehicle.dbc"))[1].splitlines()[1:])
        self.assertEqual(run("dbc2plan.py", "/dev/stdin", text=whole)[0], 2)

    def test_encodings(self) -> None:
        data = (NODES + message(EEC1, "EEC1", "ENGINE", 'S : 0|8@1+ (1,0) [0|0] "°C" RETARDER') + f'CM_ SG_ {EEC1 | 1 << 31} S "速度";\n')
        for name in ("gbk", "shift_jis", "utf-16"):
            with open(self.path("file.dbc"), "wb") as file:
                file.write(data.encode(name))
            ended = subprocess.run([sys.executable, os.path.join(TOOLS, "dbc2plan.py"), "--encoding", name, self.path("file.dbc")],
                                   capture_output=True, check=True, env={**os.environ, "J39PLAN": program.path()})
            self.assertIn('label = "S"  # "速度"\n', ended.stdout.decode())
            self.assertIn('unit = "degC"\n', ended.stdout.decode())
        status, plan, said = self.made("--encoding", "nope")
        self.assertEqual((status, plan, "no encoding is called nope" in said[-1]), (2, "", True))
        self.assertEqual(self.made("--encoding", "rot13")[0], 2)


@needs("canmatrix", "python3-canmatrix")
class Damaged(WithFiles):
    def test_lengths_that_a_plan_can_not_have(self) -> None:
        """Those that plan2dbc.py writes are taken where they fit."""
        number = EEC1 | 1 << 31
        for most, every, wanted in ((20, 4, (20, 4)), (7, 0, (None, None)), (9999, 256, (None, None)), ('"x"', '"x"', (None, None))):
            plan, _ = self.plan(data=NODES + message(EEC1, "EEC1", "ENGINE", 'S : 0|32@1+ (1,0) [0|0] "" RETARDER') + (
                f'BA_DEF_ BO_ "PlanMost" INT 0 9999;\nBA_DEF_ BO_ "PlanEvery" INT 0 9999;\nBA_DEF_ SG_ "PlanRepeated" INT 0 1;\n'
                f'BA_ "PlanMost" BO_ {number} {most};\nBA_ "PlanEvery" BO_ {number} {every};\nBA_ "PlanRepeated" SG_ {number} S 1;\n'))
            group = plan["group"][0]
            self.assertEqual((group.get("most"), group.get("every")), wanted)
            self.assertEqual(group["signal"][0].get("repeated", False), wanted[1] is not None)

    def test_random_orders_of_parts_of_a_file(self) -> None:
        """The messages of one file in several files, each with all nodes, give the units and flows of the whole."""
        head, *messages = DBC.split("\n\nBO_ ")
        tail = DBC[DBC.index("BA_DEF_ BU_"):]
        parts = [part.split("\nBA_DEF_")[0] for part in messages]
        _, whole, _ = self.joined(self.write("whole.dbc", DBC))
        chance = random.Random(7)
        for _ in range(6):
            chance.shuffle(parts)
            names = []
            for at in range(3):
                body = "".join(f"\n\nBO_ {part}" for part in parts[at::3])
                names.append(self.write(f"part{at}.dbc", head + body + "\n\n" + tail))
            _, flows, _ = self.joined(*names)
            self.assertEqual({flow[1:] for flow in flows}, {flow[1:] for flow in whole})
            self.assertEqual(len(flows), len(whole))
