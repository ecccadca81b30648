"""The Python module: what it hands out is what the tools write, and it is in nobody's way."""

import gc
import importlib.util
import inspect
import json
import os
import re
import subprocess
import sys
import unittest
import unittest.mock
import warnings
from decimal import Decimal

import j39plan
from collections.abc import Callable, Iterable
from j39plan import program
from j39plan.j1939 import identifier_of
from tests.support import TOOLS, TOP, InFolder, example, run, text_of, there, without_times
from typing import Any

PLAN, LOG = example("tractor_and_implement.toml"), example("tractor_and_implement.start.log")
PAGE = text_of(os.path.join(TOP, "docs", "guide", "TOOLS.md"))


class Module(InFolder):
    def script(self, text: str, cwd: str | None = None, **environment: str) -> str:
        """What a Python program writes that finds the module and nothing else of the tools."""
        if not os.path.exists(self.path("package")):
            os.makedirs(self.path("package"))
            os.symlink(os.path.join(TOOLS, "j39plan"), self.path("package/j39plan"))
        there = {**os.environ, "J39PLAN": os.path.abspath(program.path()), "PYTHONPATH": self.path("package"), **environment}
        ended = subprocess.run([sys.executable, self.write("script.py", text)], cwd=cwd or self.folder, env=there, capture_output=True, text=True,
                               check=False)
        self.assertEqual((ended.returncode, ended.stderr), (0, ""))
        return ended.stdout

    def test_it_is_in_nobodys_way(self) -> None:
        """A program may have modules of the names that the tools and their modules have, before and behind it."""
        for name in ("program", "reports", "signals", "plan"):
            self.write(f"{name}.py", f"whose = 'mine, {name}'\n")
        text = ("import program\nimport j39plan, reports, signals, sys, pickle\nfrom plan import whose\n"
                "print(program.whose, reports.whose, signals.whose, whose, sep='; ')\n"
                "print(sorted(name for name in sys.modules if name in ('where', 'tables', 'readings', 'report')))\n"
                f"plan = j39plan.read_plan({PLAN!r})\n"
                "print(pickle.loads(pickle.dumps(plan.units)) == plan.units, pickle.loads(pickle.dumps(j39plan.Refused(2, 'x'))) is not None)\n")
        self.assertEqual(self.script(text), "mine, program; mine, reports; mine, signals; mine, plan\n[]\nTrue True\n")

    def test_findings_by_number_and_name(self) -> None:
        (found,) = j39plan.read_plan(example("findings/f18_late_flow.toml")).findings()
        self.assertEqual((found.number, found.name, found.text), ("F18", "LateFlow", "F18 LateFlow 2"))
        self.assertEqual([flow.deadline for flow in j39plan.read_plan(example("findings/f18_late_flow.toml")).flows], [None, 2])

    def test_a_vehicle(self) -> None:
        """Its buses with their plans, what gateways do, and its findings with the file and the bus."""
        name = example("three_buses/first.toml")
        vehicle = j39plan.read_vehicle(name)
        self.assertEqual({label: plan.findings() for label, plan in vehicle.buses.items()}, {label: [] for label in vehicle.buses})
        self.assertEqual((vehicle.findings(), vehicle.answer["status"]), ([], 0))
        self.assertEqual([forward.gateway for forward in vehicle.forwards], ["CGW"] * len(vehicle.forwards))
        text = text_of(name)
        for bus in re.findall(r'plan = "(.*)"', text):
            self.write(bus, text_of(os.path.join(os.path.dirname(name), bus)))
        (found,) = j39plan.read_vehicle(self.write("v.toml", text.replace("within = 50", "within = 1"))).findings()
        self.assertEqual((found.file, found.bus, found.line, found.number, found.name), (self.path("v.toml"), "", text.count("\n"), "G13", "NeedTooOld"))
        with self.assertRaises(j39plan.Refused):
            j39plan.read_vehicle(PLAN)

    def test_what_is_handed_out(self) -> None:
        """All that the package lists is there, the same in both lists, and nothing else; importing it loads none of it."""
        from j39plan import api
        self.assertEqual(j39plan.__all__, api.__all__)
        for name in j39plan.__all__:
            self.assertIs(getattr(j39plan, name), getattr(api, name))
            self.assertIn(name, dir(j39plan))
        with self.assertRaises(AttributeError):
            getattr(j39plan, "contextlib")
        self.assertEqual(self.script("import j39plan, sys\nprint('j39plan.api' in sys.modules, j39plan.read_plan is sys.modules['j39plan.api'].read_plan)\n"),
                         "False True\n")

    @unittest.skipUnless(importlib.util.find_spec("pandas"), "pandas isn't there: apt-get install python3-pandas")
    def test_the_lines_of_the_page(self) -> None:
        """They are ten at most, and write what is shown."""
        section = PAGE.partition("## A Python module")[2]
        lines, shown = there(re.search(r"```python\n(.*?)```\n\n```text\n(.*?)```", section, re.DOTALL)).groups()
        self.assertLessEqual(len([line for line in lines.splitlines() if line]), 10)
        self.assertEqual(self.script(lines, cwd=TOP), shown)


class Plans(InFolder):
    def test_tables(self) -> None:
        plan = j39plan.read_plan(example("truck.toml"))
        self.assertEqual((plan.version, plan.kept, [unit.label for unit in plan.units]), (4, [], ["ENGINE", "TRANSMISSION", "BRAKES", "CLUSTER"]))
        signal = next(signal for group in plan.groups for signal in group.signals if signal.label == "SPN175")
        self.assertEqual((signal.byte, signal.bits, signal.unit, str(signal.value(8720))), (3, 16, "degC", "-1/2"))
        self.assertEqual(plan.text, text_of(example("truck.toml")))
        self.assertRegex(repr(plan), r"^<plan .*truck\.toml: 4 units 7 groups 8 flows>$")

    def test_what_the_program_answers(self) -> None:
        """The findings with line, hint and steps, who stays, and the load."""
        plan = j39plan.read_plan(example("findings/f02_same_fixed_address.toml"))
        finding, = plan.findings()
        self.assertEqual((finding.text, finding.line, finding.steps),
                         ("F2 SameFixedAddress ENGINE RETARDER 0", 18, ["up RETARDER", "up ENGINE", "give ENGINE RETARDER", "give RETARDER ENGINE"]))
        self.assertEqual((plan.stands(), plan.load()), ({}, None))
        axle = j39plan.read_plan(example("axle.toml"))
        self.assertEqual((axle.findings(), there(axle.load()).taken, there(axle.load()).delays[0].within), ([], (32160, 250000), 1280))
        self.assertEqual((axle.stands()["RETARDER"], axle.needs), (j39plan.Stand(True, 15), []))

    def test_needs(self) -> None:
        plan = j39plan.read_plan(self.write("plan.toml", text_of(example("findings/f20_need_too_old.toml")).replace("within = 21", "within = 22")))
        self.assertEqual(plan.needs, [j39plan.Need("CLUSTER", "EEC1", "", "", 22)])
        self.assertEqual((plan.needs[0].is_met_by(plan.flows[0]), there(plan.load()).ages), (True, [j39plan.Age(1, 21280, 22000)]))

    def test_what_is_none(self) -> None:
        none = self.write("none.toml", "version = 1\n[[unit]]\nlabel = A\n")
        with self.assertRaises(j39plan.Refused) as caught:
            j39plan.read_plan(none)
        self.assertEqual(caught.exception.status, 2)
        self.assertTrue(str(caught.exception).startswith(f"{none}:3: refused Text"))
        with self.assertRaises(FileNotFoundError):
            j39plan.read_plan(self.path("missing.toml"))
        with self.assertRaises(IsADirectoryError):
            j39plan.read_plan(self.folder)

    def test_no_program(self) -> None:
        """It is said by an exception, and ends nobody's program."""
        before = os.environ.get("J39PLAN")
        os.environ["J39PLAN"] = self.path("none")
        try:
            with self.assertRaises(j39plan.Refused) as caught:
                j39plan.read_plan(PLAN)
        finally:
            del os.environ["J39PLAN"]
            os.environ.update({"J39PLAN": before} if before else {})
        self.assertEqual(caught.exception.status, 69)


class Logs(InFolder):
    def setUp(self) -> None:
        super().setUp()
        self.plan = j39plan.read_plan(PLAN)

    def test_signals_are_those_of_the_tool(self) -> None:
        """The same rows, as it writes them for programs."""
        choices: list[list[str]] = [[], ["SPN190", "CCVS"], ["EC1.SPN544"]]
        for names in choices:
            rows = list(j39plan.signals(self.plan, LOG, names))
            told = [json.loads(line) for line in run("signals.py", "--json", PLAN, LOG, *names)[1].splitlines()]
            self.assertTrue(rows)
            self.assertEqual(rows, told)
        speed = next(j39plan.signals(self.plan, LOG, ["SPN190"]))
        self.assertEqual((speed["time"], speed["line"], speed["group"], speed["state"], speed["value"], speed["unit"]),
                         (1764230400.0, 1, "EEC1", "value", 800, "rpm"))
        text = list(j39plan.signals(j39plan.read_plan(example("identification.toml")), example("identification.start.log")))
        self.assertIn("text", {row["state"] for row in text})

    def test_reports(self) -> None:
        plan = j39plan.read_plan(example("two_units_one_address.toml"))
        reports: list[Any] = list(j39plan.follow(plan, example("two_units_one_address.drive.log")))
        self.assertEqual([type(report).__name__ for report in reports], ["Message", "Claim", "Message", "Claim", "Claim", "Message", "Message"])
        self.assertEqual((reports[1].who.label, reports[1].who.address, reports[1].time), ("RIGHT", 128, 10.01))
        self.assertEqual((reports[0].group, reports[0].flow, reports[0].data), ("EEC1", 1, bytes.fromhex("FFFFFFE02EFFFFFF")))
        without = self.write("drive.log", "can0 0CF00400#FFFFFFE02EFFFFFF\n")
        self.assertEqual([report.time for report in j39plan.follow(plan, without)], [None])
        some = j39plan.follow(plan, example("two_units_one_address.drive.log"))
        self.assertEqual(next(some).line, 1)
        some.close()

    def test_all_frames(self) -> None:
        plan, log = j39plan.read_plan(example("service_requests.toml")), example("service_requests.start.log")
        frames = [report for report in j39plan.follow(plan, log, all_frames=True) if isinstance(report, j39plan.Frame)]
        self.assertEqual([(frame.line, frame.pgn, frame.sender.label, frame.to.label) for frame in frames[:2]],
                         [(6, 60416, "ENGINE", "TOOL"), (7, 60416, "TOOL", "ENGINE")])
        self.assertEqual((frames[0].identifier, frames[0].data.hex()), (0x1CECF900, "101200030aecfe00"))
        self.assertEqual([frame.line for frame in frames], [6, 7, 8, 9, 10, 11])
        self.assertFalse(any(isinstance(report, j39plan.Frame) for report in j39plan.follow(plan, log)))

    def test_deviations_are_those_of_the_tool(self) -> None:
        *lines, _ = without_times(run("against.py", PLAN, LOG)[1]).splitlines()
        found = j39plan.deviations(self.plan, LOG)
        self.assertEqual([(f":{line}" if line else "") + f": {text}" for line, text, *_ in found],
                         [re.sub(r"  \(\d+ times\)$", "", line).removeprefix(LOG).removeprefix(PLAN) for line in lines])
        self.assertEqual(j39plan.drive(self.plan, LOG)["deviations"], found)
        with self.assertRaises(j39plan.Refused):
            j39plan.deviations(self.plan, LOG, ["--jitter", "x"])

    def test_what_cannot_be_read(self) -> None:
        calls: list[Callable[..., Iterable[object]]] = [j39plan.follow, j39plan.signals, j39plan.deviations]
        for call in calls:
            with self.assertRaises(FileNotFoundError):
                list(call(self.plan, self.path("missing.log")))
        bad = j39plan.read_plan(example("findings/f07_signal_outside.toml"))
        for call in calls:
            with self.assertRaises(j39plan.Refused) as caught:
                list(call(bad, LOG))
            self.assertEqual(caught.exception.status, 1)
            self.assertIn("refused plan BadGroup", str(caught.exception))
        with self.assertRaises(j39plan.Refused):
            list(j39plan.signals(self.plan, LOG, ["SPN999999"]))
        self.assertEqual(j39plan.drive(self.plan, self.path("missing.log"))["status"], 4)


    def test_what_the_tools_refuse(self) -> None:
        """Logs of other programs, and options by which there is no list of deviations."""
        for name, text in (("drive.asc", "date Thu Nov 26\n base hex timestamps absolute\n 0.1 1 CF00400x Rx d 8 FF\n"), ("noise.log", "\0\1\2\n"),
                           ("console.log", "  can0  0CF00400   [8]  FF FF FF FF FF FF FF FF\n")):
            calls: list[Callable[..., Iterable[object]]] = [j39plan.follow, j39plan.signals, j39plan.frame, j39plan.deviations]
            for call in calls:
                if call is j39plan.frame and importlib.util.find_spec("pandas") is None:
                    continue
                with self.assertRaises(j39plan.Refused) as caught:
                    list(call(self.plan, self.write(name, text)))
                self.assertEqual((caught.exception.status, "has no frame, and" in str(caught.exception)), (2, True), (name, call))
        with self.assertRaises(j39plan.Refused) as caught:
            j39plan.deviations(self.plan, LOG, ["--help"])
        self.assertEqual(str(caught.exception), "with --help against writes no list of deviations")

    def test_one_name_is_a_text(self) -> None:
        self.assertEqual(list(j39plan.signals(self.plan, LOG, "SPN190")), list(j39plan.signals(self.plan, LOG, ["SPN190"])))

    def test_what_a_tool_says_is_a_warning(self) -> None:
        """How many lines spell no frame, and how many are of other interfaces; a log that is read whole has none."""
        log = self.write("drive.log", text_of(LOG) + "(1764230402.000000) can1 0CF00400#FFFFFF0019FFFFFF\nno frame\n")
        calls: list[Callable[..., Iterable[object]]] = [j39plan.follow, j39plan.signals, j39plan.deviations]
        for call in calls + [j39plan.frame] * (importlib.util.find_spec("pandas") is not None):
            elsewhere = 'can0 is read, the first of the log; 1 lines of can1 are passed over: interface="can1"'
            for name, told in ((log, ["1 lines spell no frame", elsewhere]), (LOG, [])):
                with warnings.catch_warnings(record=True) as caught:
                    warnings.simplefilter("always", j39plan.Notice)
                    list(call(self.plan, name))
                said = [warning for warning in caught if warning.category is j39plan.Notice]
                self.assertEqual([str(warning.message) for warning in said], told, call)
                self.assertEqual({os.path.basename(warning.filename) for warning in said}, {"test_module.py"} if told else set())

    def test_one_interface(self) -> None:
        """Each call takes the one that is named, and says which there are where it isn't there."""
        log = self.write("drive.log", text_of(LOG) + "(1764230402.000000) can1 0CF00400#FFFFFF0032FFFFFF\n")
        chosen = {"interface": "can1"}
        self.enterContext(warnings.catch_warnings(action="ignore", category=j39plan.Notice))
        message, = j39plan.follow(self.plan, log, interface="can1")
        assert isinstance(message, j39plan.Message)
        self.assertEqual((message.line, message.time, message.signals["SPN190"].value), (text_of(LOG).count("\n") + 1, 1764230402.0, 1600))
        row, = j39plan.signals(self.plan, log, "SPN190", interface="can1")
        self.assertEqual((row["line"], row["value"]), (message.line, 1600))
        self.assertEqual(j39plan.deviations(self.plan, log, **chosen), j39plan.deviations(self.plan, log, ["--interface", "can1"]))
        self.assertEqual(j39plan.drive(self.plan, log, **chosen)["counts"]["frames"], 1)
        found = j39plan.audit(j39plan.read_plan(example("first_plan.toml")), log, interface="can1")
        self.assertEqual((found.frames, found.elsewhere), (1, 0))
        calls: list[Callable[..., Iterable[object]]] = [j39plan.follow, j39plan.signals, j39plan.deviations]
        for call in calls:
            with self.assertRaisesRegex(j39plan.Refused, "has no frame of can7; it has can0, can1"):
                list(call(self.plan, log, interface="can7"))
        some = j39plan.follow(self.plan, log, interface="can0")
        self.assertEqual(next(some).line, 1)
        some.close()

    def test_what_a_log_refutes(self) -> None:
        """By hand: five messages of the engine, and one from an address at which no unit may be; of a plan with findings nobody is accused."""
        plan = j39plan.read_plan(example("first_plan.toml"))
        frames = [f"({10 + number:.6f}) can0 18FEEE00#7DFFFFFFFFFFFFFF\n" for number in range(5)]
        found = j39plan.audit(plan, self.write("drive.log", "".join(frames) + "(15.100000) can0 18FEEE55#FFFFFFFFFFFFFFFF\n"))
        self.assertEqual([(one.word, one.address, one.times, one.first, one.ask) for one in found.accused],
                         [("nobody", 0x55, 1, 6, "which unit has this source address")])
        self.assertEqual((found.frames, found.bad, found.seen[1]), (6, 0, 5))
        with self.assertRaisesRegex(j39plan.Refused, "F10 FlowToSelf 1: audit takes a plan without findings"):
            j39plan.audit(j39plan.read_plan(example("findings/f10_flow_to_self.toml")), LOG)
        with self.assertRaisesRegex(j39plan.Refused, "has no frame, and 1 lines that spell none"):
            j39plan.audit(plan, self.write("none.log", "no frame\n"))
        with self.assertRaises(FileNotFoundError):
            j39plan.audit(plan, self.path("missing.log"))

    def test_trouble_codes(self) -> None:
        """The drive of the page: SPN 110 came at 1.0 s, was cleared by the tool at 249, and had gone at 2.0 s."""
        log = self.write("drive.log", "(1.0) can0 18FECA00#04FF6E000003FFFF\n(1.5) can0 18EA00F9#D3FE00\n(2.0) can0 18FECA00#00FF00000000FFFF\n"
                         "(6.0) can0 18FECA00#00FF00000000FFFF\n")
        plan = j39plan.read_plan(example("trouble_codes.toml"))
        code, = j39plan.codes(plan, log)
        self.assertEqual((code.line, code.unit, code.spn, code.fmi, code.raw, code.came, code.went, code.lamps, code.cleared_by, code.cleared_with),
                         (1, "ENGINE", 110, 0, None, 1.0, 2.0, ("amber",), "249", "DM11"))
        more = self.write("more.log", "(7.0) can0 18FECA00#00FF00000000FFFF\n")
        self.assertEqual(j39plan.codes(plan, [log, more]), [code])
        with self.assertRaisesRegex(j39plan.Refused, r"first_plan\.toml has no trouble codes"):
            j39plan.codes(j39plan.read_plan(example("first_plan.toml")), log)
        with self.assertRaises(FileNotFoundError):
            j39plan.codes(plan, self.path("missing.log"))

    def test_a_first_plan(self) -> None:
        """It is what the tool writes, and can be read; notes and what is no frame are said."""
        log = self.write("drive.log", "(1.0) can0 18FEEE00#7DFFFFFFFFFFFFFF\n(1.1) can0 18EA00F9#DDFE00\nno frame\n")
        with self.assertWarnsRegex(j39plan.Notice, "^1 lines spell no frame"):
            made = j39plan.log2plan(log, groups=[PLAN])
        self.assertEqual(made.text, run("log2plan.py", log, "--groups", PLAN)[1])
        self.assertEqual((made.check, len(made.notes)), ("ok 2 units 1 groups 1 flows", 1))
        self.assertEqual([group.label for group in j39plan.read_plan(self.write("made.toml", made.text)).groups], ["ET1"])
        self.assertIn("bitrate = 500000", j39plan.log2plan([self.write("first.log", text_of(log).replace("no frame\n", ""))], bitrate=500000).text)
        with self.assertRaisesRegex(j39plan.Refused, "has no frame"):
            j39plan.log2plan(PLAN)

    def test_errors_say_what_to_do(self) -> None:
        """A name in place of a plan, and a plan of a line."""
        calls: list[Callable[..., Any]] = [j39plan.follow, j39plan.signals, j39plan.deviations, j39plan.drive, j39plan.audit, j39plan.codes]
        for call in calls:
            with self.assertRaisesRegex(TypeError, r"'plan\.toml' is no plan: take read_plan\('plan\.toml'\)"):
                list(call("plan.toml", LOG))
        with self.assertRaisesRegex(j39plan.Refused, r"line\.toml: refused plan Choices: read_plan\('.*line\.toml', variant=\[\.\.\]\) takes the plan of one vehicle"):
            j39plan.read_plan(example("line.toml"))

    def test_signals_by_their_labels(self) -> None:
        """Of a message, with exact values; a code and a fault by their parts."""
        message = next(report for report in j39plan.follow(self.plan, LOG) if isinstance(report, j39plan.Message))
        self.assertEqual(message.signals["SPN190"], j39plan.Reading("value", Decimal(800), "rpm", ""))
        self.assertEqual(set(message.signals), {signal.label for group in self.plan.groups if group.label == "EEC1" for signal in group.signals})
        self.assertNotIn("SPN999", message.signals)

    def test_a_frame_is_decoded(self) -> None:
        """As `follow` does, whose sender the plan tells; in the standard's bits: 0x1900 of 0.125 rpm are 800 rpm."""
        spelled: list[bytes | str] = ["FFFFFF0019FFFFFF", bytes.fromhex("FFFFFF0019FFFFFF")]
        for data in spelled:
            message = there(self.plan.decode(0x0CF00400, data))
            self.assertEqual((message.group, message.sender.label, message.signals["SPN190"].value), ("EEC1", "ENGINE", 800))
        self.assertEqual(there(self.plan.decode(0x0CF00400, "FFFFFFFFFEFFFFFF")).signals["SPN190"].state, "fault")
        self.assertIsNone(self.plan.decode(0x18FEDF00, "FF" * 8))
        with warnings.catch_warnings(record=True) as caught:
            warnings.simplefilter("always", ResourceWarning)
            self.plan.decode(0x0CF00400, "FFFFFF0019FFFFFF")
            gc.collect()
        self.assertEqual([str(warning.message) for warning in caught if warning.category is ResourceWarning], [])
        for identifier, data in ((1 << 29, "00"), (0x0CF00400, "00" * 1786), (0x0CF00400, "0")):
            with self.assertRaises(ValueError):
                self.plan.decode(identifier, data)

    def test_a_longer_message_is_decoded(self) -> None:
        """A broadcast, and one that goes to one unit."""
        plan = j39plan.read_plan(example("identification.toml"))
        group = next(group for group in plan.groups if group.texts and group.length > 8)
        flow = next(flow for flow in plan.flows if flow.group == group.label)
        source = next(unit.address for unit in plan.units if unit.label == flow.sender)
        message = there(plan.decode(identifier_of(6, group.pgn, source), b"A" * group.length))
        self.assertEqual((message.group, message.sender.label, message.data), (group.label, flow.sender, b"A" * group.length))
        self.assertIn("text", {reading.state for reading in message.signals.values()})
        text = ("version = 1\n" + "".join(f'[[unit]]\nlabel = "{label}"\naddress = {at}\nname = {{ identity = {at} }}\n' for label, at in (("A", 1), ("B", 2)))
                + '[[group]]\nlabel = "G"\npgn = 0xD400\npriority = 6\nlength = 20\n[[group.signal]]\nlabel = "S"\nbyte = 20\nbits = 8\nkind = "raw"\n'
                + '[[flow]]\ngroup = "G"\nfrom = "A"\nto = "B"\n')
        message = there(j39plan.read_plan(self.write("plan.toml", text)).decode(0x18D40201, bytes(range(20))))
        self.assertEqual((message.group, message.sender.label, message.to.label, message.signals["S"].value), ("G", "A", "B", 19))

    @unittest.skipUnless(importlib.util.find_spec("pandas"), "pandas isn't there: apt-get install python3-pandas")
    def test_a_table_of_pandas(self) -> None:
        """The rows are those of `signals`, with small types; the times are exact."""
        table, rows = j39plan.frame(self.plan, LOG), list(j39plan.signals(self.plan, LOG))
        self.assertEqual(len(table), len(rows))
        self.assertEqual({column: str(table[column].dtype) for column in ("from", "group", "signal", "unit", "source", "line", "value")}, {
            "from": "category", "group": "category", "signal": "category", "unit": "category", "source": "UInt8", "line": "int64", "value": "float64"})
        for at, row in ((0, rows[0]), (len(rows) - 1, rows[-1])):
            self.assertEqual([table.iloc[at][key] for key in ("line", "from", "signal", "state")], [row[key] for key in ("line", "from", "signal", "state")])
        self.assertEqual(table[table["signal"] == "SPN190"]["value"].iloc[0], 800)
        first, _, micro = text_of(LOG).split()[0].strip("()").partition(".")
        self.assertEqual((table.index[0].value, str(table.index.tz)), (int(first) * 10**9 + int(f"{micro:0<9}"), "UTC"))
        self.assertEqual(set(j39plan.frame(self.plan, LOG, "SPN190")["signal"]), {"SPN190"})
        with self.assertRaises(j39plan.Refused):
            j39plan.frame(self.plan, LOG, "SPN999999")

    @unittest.skipUnless(importlib.util.find_spec("pandas"), "pandas isn't there: apt-get install python3-pandas")
    def test_parts_of_a_table(self) -> None:
        """A table is the same in however many parts its rows are taken, with senders, signals and times that only some of these have; and one without rows."""
        import pandas

        again = [f"({100 + at}.0000001) can0 {line.split()[-1]}" for at, line in enumerate(text_of(LOG).splitlines()[::-1])]
        log = self.write("drive.log", text_of(LOG) + "\n".join([*again, "can0 0CF00400#FFFFFF0019FFFFFF", ""]))
        self.enterContext(warnings.catch_warnings(action="ignore", category=j39plan.Notice))
        whole = j39plan.frame(self.plan, log)
        for rows in (1, 7):
            with unittest.mock.patch("j39plan.log.data_frames.ROWS", rows):
                pandas.testing.assert_frame_equal(j39plan.frame(self.plan, log), whole)
        self.assertTrue(whole.index.hasnans and len(whole) > 14)
        without = j39plan.frame(self.plan, self.write("timeless.log", "can0 0CF00400#FFFFFF0019FFFFFF\n"))
        self.assertEqual((set(without.index.isna()), str(without.index.tz)), ({True}, "UTC"))
        empty = j39plan.frame(self.plan, self.write("empty.log", "(1.0) can0 18FFFF55#00\n"))
        self.assertEqual((len(empty), list(empty.columns)), (0, list(whole.columns)))


class Documents(unittest.TestCase):
    def test_each_name_is_said(self) -> None:
        """What the module hands out has a docstring, and an item of the printed page with its parameters."""
        for name in j39plan.__all__:
            self.assertTrue(inspect.getdoc(getattr(j39plan, name)), name)
        items = text_of(os.path.join(TOP, "docs", "reference", "OPTIONS.md")).partition("## The Python module")[2]
        shown = re.findall(r"^- `(\w+)(?:\((.*?)\))?`: \S", items, re.MULTILINE)
        self.assertEqual(sorted(name for name, _ in shown), sorted(j39plan.__all__))
        for name, words in shown:
            if words:
                self.assertEqual(list(inspect.signature(getattr(j39plan, name)).parameters), words.split(", "), name)


if __name__ == "__main__":
    unittest.main()
