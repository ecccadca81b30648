"""DBCs of plans: messages, texts, needs, and what a DBC can not say."""

import re
import tomllib
import unittest
from collections.abc import Sequence
from typing import Any

from j39plan.dbc.reader import import_canmatrix
from tests.plans_as_dbc import WithPlans, said, written
from tests.support import MARKED, NEWER, example, needs, run, text_of


class Needs(WithPlans):
    PLAN = """version = 4
timing = { bitrate = 250000, unplanned = 0, broadcast_gap = 10, errors = { count = 1, every = 1000 } }
[[unit]]
label = "ENGINE"
address = 0
name = { identity = 1 }
[[unit]]
label = "BOX"
address = 3
name = { identity = 2 }
[[unit]]
label = "DASH"
address = 23
name = { identity = 3 }
[[group]]
label = "EEC1"
pgn = 61444
priority = 3
length = 8
[[group.signal]]
label = "SPN899"%s
byte = 1
bits = 4
kind = "raw"
[[group.signal]]
label = "SPN190"
byte = 4
bits = 16
kind = "raw"
[[group]]
label = "ALONE"
pgn = 65262
priority = 6
length = 8
[[group.signal]]
label = "SPN110"
byte = 1
bits = 8
kind = "measured"
[[flow]]
group = "EEC1"
from = "ENGINE"
to = "all"
period = 10
jitter = 1
pause = 20
[[flow]]
group = "EEC1"
from = "BOX"
to = "all"
period = 10
"""

    def received(self, asked: Sequence[str], beside: str = "") -> tuple[dict[tuple[str, str], Any], list[str]]:
        """Who receives each signal in each message of the plan's DBC, and what is said."""
        plan = self.PLAN % beside + "".join(f"[[need]]\n{need}\n" for need in asked)
        dbc, told = self.made(self.write("plan.toml", plan))
        found = re.findall(r"^(?:BO_ \d+ (\w+)| SG_ (\w+) .* ([\w,]+)$)", text_of(dbc), re.MULTILINE)
        names, message = {}, ""
        for name, signal, receivers in found:
            message = name or message
            if signal:
                names[message, signal] = receivers
        return names, told.splitlines()[:-1]

    def test_receivers(self) -> None:
        """Of each message that meets the need, by a need of one signal of that one; of a group that nobody sends too."""
        nobody = "Vector__XXX"
        for asked, wanted in (
            ((), [nobody] * 5),
            (['unit = "DASH"\ngroup = "EEC1"'], ["DASH", "DASH", "DASH", "DASH", nobody]),
            (['unit = "BOX"\ngroup = "EEC1"', 'unit = "DASH"\ngroup = "EEC1"'], ["BOX,DASH", "BOX,DASH", "DASH", "DASH", nobody]),
            (['unit = "DASH"\ngroup = "EEC1"\nsignal = "SPN190"\nfrom = "BOX"'], [nobody, nobody, nobody, "DASH", nobody]),
            (['unit = "DASH"\ngroup = "ALONE"'], [nobody, nobody, nobody, nobody, "DASH"]),
        ):
            names, _ = self.received(asked)
            self.assertEqual(list(names.values()), wanted, asked)
        names, _ = self.received(['unit = "DASH"\ngroup = "EEC1"', 'unit = "BOX"\ngroup = "EEC1"'], "  # for DASH")
        self.assertEqual(list(names.values())[:4], ["DASH,BOX", "BOX", "DASH", nobody])

    def test_what_a_dbc_can_not_say(self) -> None:
        lost = ["flow of EEC1 from ENGINE to all: a DBC has no jitter", "flow of EEC1 from ENGINE to all: a DBC has no pause"]
        timing = ["timing: a DBC has no count of unplanned frames", "timing: a DBC has no broadcast_gap", "timing: a DBC has no errors"]
        _, said = self.received(['unit = "DASH"\ngroup = "EEC1"\nfrom = "BOX"\nwithin = 50', 'unit = "DASH"\ngroup = "EEC1"\nfrom = "DASH"'])
        need = "need {} of EEC1 by DASH: {}"
        self.assertEqual(sorted(said), sorted([
            *lost, *timing, need.format(1, "a DBC has no from and no within of a need"), need.format(2, "no message of it goes there"),
            need.format(2, "a DBC has no from of a need")]))

    @needs("canmatrix", "python3-canmatrix")
    def test_there_and_back(self) -> None:
        """A need of a unit and a group is one again, and so is one that nothing meets."""
        needs = [("BOX", "EEC1"), ("DASH", "EEC1"), ("DASH", "ALONE"), ("ENGINE", "EEC1")]
        plan = self.PLAN % "" + "".join(f'[[need]]\nunit = "{unit}"\ngroup = "{group}"\n' for unit, group in needs)
        back = self.back(self.write("plan.toml", plan))
        self.assertEqual(sorted((need["unit"], need["group"]) for need in back["need"]), sorted(needs))


class Written(WithPlans):
    MESSAGE = """version = 3
[[unit]]
label = "A"  # The "first" one
address = 5
name = { identity = 7 }
[[unit]]
label = "DISPLAY"
address = 9
chooser = "upward"
window = 16
name = { identity = 8 }
[[group]]
label = "G"
pgn = 1024
priority = 3
length = 8
[[group.signal]]
label = "SPN190"  # SPN 190
byte = 4
bits = 16
kind = "measured"
per = 8
unit = 'r"p"m'
[[group]]
label = "ALONE"
pgn = 61444
priority = 6
length = 8
[[flow]]
group = "G"
from = "A"
to = "DISPLAY"
"""

    def test_a_message(self) -> None:
        plan = self.write("plan.toml", self.MESSAGE)
        dbc, told = self.made(plan)
        lines = text_of(dbc).splitlines()
        for line in ("BU_: _A DISPLAY", f"BO_ {0x8C040905} _G: 8 _A",
                     " SG_ SPN190 : 24|16@1+ (0.125,0) [0|8031.875] \"r'p'm\" DISPLAY", f"BO_ {0x98F004FE} ALONE: 8 Vector__XXX",
                     "CM_ BU_ _A \"The 'first' one\";", f'BA_ "SPN" SG_ {0x8C040905} SPN190 190;',
                     'BA_ "NmStationAddress" BU_ _A 5;', 'BA_ "NmJ1939IdentityNumber" BU_ DISPLAY 8;',
                     f'BA_ "PlanGroup" BO_ {0x8C040905} "G";'):
            self.assertIn(line, lines)
        self.assertEqual(told.splitlines(), [
            "unit DISPLAY: a DBC has no chooser", "unit DISPLAY: a DBC has no window", "2 nodes 2 messages, notes 2"])

    def test_what_a_dbc_has_not_of_timing(self) -> None:
        """Of an identifier with several flows the least period is written, and that is said."""
        text = text_of(example("axle.toml"))
        dbc, told = self.made(self.write("plan.toml", text + '[[flow]]\ngroup = "ET1"\nfrom = "ENGINE"\nto = "RETARDER"\nperiod = 500\n'))
        self.assertIn(f'BA_ "GenMsgCycleTime" BO_ {0x98FEEE00} 500;\n', text_of(dbc))
        self.assertIn(f'BA_ "GenMsgCycleTime" BO_ {0x8CF00400} 10;\n', text_of(dbc))
        self.assertEqual(told.splitlines(), [
            "flow of ET1 from ENGINE to all: a DBC has no deadline",
            "flow of ET1 from ENGINE to RETARDER: its identifier names no destination", "timing: a DBC has no count of unplanned frames",
            "message ET1: its flows have the periods 500, 1000 ms: the least one is its cycle time", "2 nodes 3 messages, notes 4"])

    def test_texts(self) -> None:
        """They are as long as the shortest messages have them; how long they are is an attribute where that isn't so."""
        dbc, told = self.made(example("identification.toml"))
        self.assertEqual(told, "2 nodes 3 messages, notes 0\n")
        for line in (f"BO_ {0x98FEEC00} VI: 18 ENGINE", ' SG_ SPN237 : 0|136@1+ (1,0) [0|0] "" Vector__XXX', f'BA_ "SigType" SG_ {0x98FEEC00} SPN237 3;',
                     f"BO_ {0x98FEDA00} SOFT: 8 ENGINE", ' SG_ SPN234 : 8|56@1+ (1,0) [0|0] "" Vector__XXX',
                     f'BA_ "PlanMost" BO_ {0x98FEDA00} 201;', f'BA_ "PlanBytes" SG_ {0x98FEDA00} SPN234 0;'):
            self.assertIn(line, text_of(dbc).splitlines())

    def test_a_text_that_the_shortest_messages_have_nothing_of(self) -> None:
        text = text_of(example("identification.toml")).replace("length = 8\nmost = 201", "length = 1\nmost = 201")
        dbc, told = self.made(self.write("plan.toml", text))
        self.assertIn("text SPN234 of SOFT: the group's messages end with byte 1\n", told)
        self.assertNotIn("SPN234", text_of(dbc))

    def test_optional_signals(self) -> None:
        """One that the shortest messages have is an ordinary signal; of another they have nothing."""
        text = text_of(example("trouble_codes.toml")).replace("version = 3", "version = 4")
        added = "".join(f'[[group.signal]]\nlabel = "{label}"\nbyte = {byte}\nbits = 8\nkind = "raw"\noptional = true\n'
                        for label, byte in (("INSIDE", 7), ("OUTSIDE", 1700)))
        dbc, told = self.made(self.write("plan.toml", text.replace("[[group.signal]]", added + "[[group.signal]]", 1)))
        self.assertIn("signal OUTSIDE of DM1: the group's messages end with byte 8\n", told)
        self.assertIn(" SG_ INSIDE : 48|8@1+ ", text_of(dbc))
        self.assertNotIn("OUTSIDE", text_of(dbc))

    @needs("canmatrix", "python3-canmatrix")
    def test_messages_of_several_lengths(self) -> None:
        """Each is as long as is said beside its flow, has the signals inside, and comes back so; one of no such length is the shortest."""
        import_canmatrix()
        import canmatrix.formats
        for told_length, length in ((34, 34), (30, 30), (29, 29), (28, 28), (27, 28), (40, 40), (41, 28)):
            plan = self.write("plan.toml", text_of(example("engine_configuration.toml")).replace("# 34 bytes", f"# {told_length} bytes"))
            dbc, said = self.made(plan)
            frames = {frame.arbitration_id.j1939_source: frame for frame in canmatrix.formats.loadp_flat(dbc).frames}
            signals = 3 + (length >= 30) + (length >= 32)
            self.assertEqual({source: (frame.size, len(frame.signals)) for source, frame in frames.items()}, {0: (length, signals), 1: (28, 3)})
            self.assertEqual(said.splitlines()[-1], f"2 nodes 2 messages, notes {5 - signals}")
            if length == 34:
                _, back, _ = run("dbc2plan.py", dbc)
                made, wanted = tomllib.loads(back), tomllib.loads(text_of(plan))
                self.assertEqual([made[key] for key in ("group", "flow")], [wanted[key] for key in ("group", "flow")])
                self.assertIn('"EC1"  # 34 bytes\n', back)

    @needs("canmatrix", "python3-canmatrix")
    def test_a_group_of_several_lengths(self) -> None:
        """Its message has the least one, so that others decode what goes in one frame; its first record is an ordinary signal."""
        dbc, told = self.made(example("trouble_codes.toml"))
        self.assertEqual(told, "1 nodes 1 messages, notes 0\n")
        for line in (f"BO_ {0x98FECA00} DM1: 8 ENGINE", ' SG_ DTC : 16|32@1+ (1,0) [0|4294967295] "" Vector__XXX',
                     f'BA_ "PlanMost" BO_ {0x98FECA00} 1782;', f'BA_ "PlanEvery" BO_ {0x98FECA00} 4;',
                     f'BA_ "PlanRepeated" SG_ {0x98FECA00} DTC 1;', f'BA_ "SigType" SG_ {0x98FECA00} DTC 7;'):
            self.assertIn(line, text_of(dbc).splitlines())
        import_canmatrix()
        import canmatrix.formats
        frame = canmatrix.formats.loadp_flat(dbc).frames[0]
        self.assertEqual(frame.decode(bytes.fromhex("04FF6E000301FFFF"))["DTC"].raw_value, 0x0103006E)

    @needs("canmatrix", "python3-canmatrix")
    def test_units_of_measurement_have_no_fraction(self) -> None:
        """So others decode what the plan says."""
        dbc, _ = self.made(example("tractor_and_implement.toml"))
        self.assertRegex(text_of(dbc), r'SG_ SPN190 : 24\|16@1\+ \(0\.125,0\) \[0\|8031\.875\] "rpm" ')
        import_canmatrix()
        import canmatrix.formats
        frame = next(frame for frame in canmatrix.formats.loadp_flat(dbc).frames if frame.name.startswith("EEC1"))
        self.assertEqual(frame.decode(bytes.fromhex("F07D8C0019FFFFFF"))["SPN190"].phys_value, 800)
        per = "step = 12207\nunit = \"1/100000000 rad/s\"\n"
        plan = self.write("plan.toml", "version = 1\n" + written("group", {"label": "G", "pgn": 61444, "priority": 3, "length": 8}) + written(
            "group.signal", {"label": "S", "byte": 1, "bits": 16, "kind": "measured"}) + per)
        self.assertIn('(0.00012207,0) [0|7.84360785] "rad/s"', text_of(self.made(plan)[0]))
        self.assertEqual(said(self.back(plan)), said(tomllib.loads(text_of(plan))))

    @needs("canmatrix", "python3-canmatrix")
    def test_what_dbc2plan_wrote_beside(self) -> None:
        """Numbers of parameters, tables of values, ranges, receivers, comments, names and times come back as what a DBC has for them."""
        number = 0x8CF00400
        text = (f'BU_: ENGINE CLUSTER TOOL\nBO_ {number} EEC1_ENGINE: 8 ENGINE\n'
                ' SG_ SPEED : 24|16@1+ (0.125,0) [0|3000] "rpm" CLUSTER\n SG_ MODE : 0|4@1+ (1,0) [0|15] "" Vector__XXX\n'
                f'BO_ {0x8CF00417} EEC1_CLUSTER: 8 CLUSTER\n SG_ MODE : 0|4@1+ (1,0) [0|15] "" ENGINE\n'
                f'CM_ BU_ ENGINE "Six; 12 l, \\"D13\\"";\nCM_ BO_ {number} "Controller 1";\nCM_ SG_ {number} SPEED "Actual speed, = 5";\n'
                'BA_DEF_ BU_ "NmStationAddress" INT 0 254;\nBA_DEF_ BO_ "GenMsgCycleTime" INT 0 65535;\nBA_DEF_ BO_ "GenMsgDelayTime" INT 0 65535;\n'
                'BA_DEF_ BO_ "GenMsgSendType" ENUM "cyclic","OnChange";\nBA_DEF_ "Baudrate" INT 0 1000000;\nBA_DEF_ SG_ "SPN" INT 0 524287;\n'
                'BA_DEF_ SG_ "SystemSignalLongSymbol" STRING ;\nBA_ "Baudrate" 250000;\nBA_ "NmStationAddress" BU_ CLUSTER 23;\n'
                f'BA_ "GenMsgCycleTime" BO_ {number} 1000;\nBA_ "GenMsgDelayTime" BO_ {number} 50;\nBA_ "GenMsgSendType" BO_ {number} 1;\n'
                f'BA_ "SPN" SG_ {number} SPEED 190;\nBA_ "SystemSignalLongSymbol" SG_ {number} SPEED "Speed_of_the_engine_at_its_crankshaft_now";\n'
                f'VAL_ {number} MODE 0 "idle" 14 "not \\"so\\"" ;\n')
        status, plan, _ = run("dbc2plan.py", self.write("file.dbc", text))
        self.assertEqual(status, 0)
        dbc = text_of(self.made(self.write("plan.toml", plan))[0]).splitlines()
        for line in (f"BO_ {number} EEC1_ENGINE: 8 ENGINE", f"BO_ {0x8CF00417} EEC1_CLUSTER: 8 CLUSTER",
                     ' SG_ Speed_of_the_engine_at_its_crank : 24|16@1+ (0.125,0) [0|3000] "rpm" CLUSTER',
                     ' SG_ MODE : 0|4@1+ (1,0) [0|15] "" ENGINE', "CM_ BU_ ENGINE \"Six; 12 l, 'D13'\";", f'CM_ BO_ {number} "Controller 1";',
                     f'CM_ SG_ {number} Speed_of_the_engine_at_its_crank "Actual speed, = 5";', 'BA_ "Baudrate" 250000;',
                     f'BA_ "SystemSignalLongSymbol" SG_ {number} Speed_of_the_engine_at_its_crank "Speed_of_the_engine_at_its_crankshaft_now";',
                     f'BA_ "SPN" SG_ {number} Speed_of_the_engine_at_its_crank 190;', f'BA_ "GenMsgCycleTime" BO_ {number} 1000;',
                     f'BA_ "GenMsgDelayTime" BO_ {number} 50;', f'BA_ "GenMsgSendType" BO_ {number} 1;',
                     f'VAL_ {number} MODE 0 "idle" 14 "not \'so\'" ;'):
            self.assertIn(line, dbc)
        self.assertIn('BA_DEF_ BO_ "GenMsgSendType" ENUM "cyclic","OnChange";', dbc)
        there = tomllib.loads(plan)
        for number, unit in enumerate(there["unit"], 1):  # the file has no NAMEs, and --identity gives each a number
            unit["name"]["identity"] = number
        self.assertEqual(said(self.back(self.path("plan.toml"))), said(there))

    @needs("canmatrix", "python3-canmatrix")
    def test_units_of_any_serial_number(self) -> None:
        """A DBC says nothing of their numbers."""
        plan = "version = 4\n" + "".join(written("unit", {"label": label, "address": at}) + f"name = {{ {name} }}\n" for label, at, name in (
            ("ENGINE", 0, "manufacturer = 310"), ("TOOL", 249, "identity = 0, manufacturer = 310, function = 129")))
        dbc, _ = self.made(self.write("plan.toml", plan))
        self.assertEqual([line for line in text_of(dbc).splitlines() if line.startswith('BA_ "NmJ1939IdentityNumber"')], ['BA_ "NmJ1939IdentityNumber" BU_ TOOL 0;'])
        self.assertEqual(said(self.back(self.path("plan.toml"))), said(tomllib.loads(plan)))

    @needs("canmatrix", "python3-canmatrix")
    def test_a_destination_that_no_unit_has(self) -> None:
        """It is that of the file again."""
        name = self.write("file.dbc", f'BU_: GEARBOX\nBO_ {0x8C000003} TSC1: 8 GEARBOX\n SG_ S : 0|8@1+ (1,0) [0|0] "" Vector__XXX\n')
        plan = self.write("plan.toml", run("dbc2plan.py", name)[1])
        self.assertIn(f"BO_ {0x8C000003} TSC1: 8 GEARBOX", text_of(self.made(plan)[0]).splitlines())

    def test_comments_of_another_form(self) -> None:
        """What isn't as dbc2plan.py writes it is a comment as a whole."""
        for comment, wanted in (("The engine's speed", '"The engine\'s speed"'), ("SPN 190 and more", '"SPN 190 and more"'),
                                ('SPN 190, see "here"', "\"SPN 190, see 'here'\""), ("SPN 190, ok", '"SPN 190, ok"'), ('0 = "off", the rest is open', "\"0 = 'off', the rest is open\""),
                                ("S, SPN 190", None), ("X", '"X"'), ("for CLUSTER, later more", '"for CLUSTER, later more"')):
            plan = self.write("plan.toml", "version = 1\n" + written("group", {"label": "G", "pgn": 61444, "priority": 3, "length": 8}) + (
                f'[[group.signal]]\nlabel = "S"  # {comment}\nbyte = 1\nbits = 8\nkind = "raw"\n'))
            dbc = text_of(self.made(plan)[0])
            told = [line.split(" ", 4)[4] for line in dbc.splitlines() if line.startswith("CM_ SG_ ")]
            self.assertEqual(told, [] if wanted is None else [f"{wanted};"], comment)

    def test_two_messages_of_one_identifier(self) -> None:
        """The second one, which check finds, is left out."""
        unit = written("unit", {"label": "ECU", "address": 5}) + "name = { identity = 7 }\n"
        groups = [written("group", {"label": label, "pgn": 61444, "priority": 6, "length": 8}) for label in ("FIRST", "SECOND")]
        flows = [written("flow", {"group": label, "from": "ECU", "to": "all"}) for label in ("FIRST", "SECOND")]
        dbc, told = self.made(self.write("plan.toml", "version = 1\n" + unit + "".join(groups + flows)))
        self.assertEqual(text_of(dbc).count("\nBO_ "), 1)
        self.assertIn("flow of SECOND from ECU to all: another group's message has its identifier\n", told)

    def test_spellings(self) -> None:
        """A plan of TOML 1.1 gives the same as one behind a byte order mark."""
        newer, marked = (text_of(self.made(self.write("plan.toml", text))[0]) for text in (NEWER, MARKED))
        self.assertIn("\nBU_: _A _B\n", newer)
        self.assertEqual([line for line in newer.splitlines() if not line.startswith("CM_ ")], marked.splitlines())

    def test_plans_that_cannot_be_read(self) -> None:
        refused = self.write("plan.toml", "version = 9\n")
        self.assertEqual(run("plan2dbc.py", refused), (2, "", f"plan2dbc: {refused}:1: refused Range top key version  (version = 9: integer 1..4)\n"))
        missing = self.path("none.toml")
        self.assertEqual(run("plan2dbc.py", missing), (4, "", f"plan2dbc: {missing}: No such file or directory\n"))


if __name__ == "__main__":
    unittest.main()
