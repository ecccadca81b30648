"""The signals of a log: each where it belongs, and as `read` has it."""

import csv
import io
import json
import os
import random
import re
import subprocess
import sys
import unittest

from j39plan import program
from j39plan.log.readings import Choice
from j39plan.log.reports import tables_of
from j39plan.plan.cut import cut
from j39plan.plan.cut import shorter as shorter_of
from j39plan.plan.tables import Tables
from tests.support import InFolder, MARKED, NEWER, TOOLS, example, needs, run, signal, text_of, there
from tests.test_report import large_plan

PLAN, LOG = example("tractor_and_implement.toml"), example("tractor_and_implement.start.log")

UNITS = """version = 3
[[unit]]
label = "ENGINE"
address = 0
name = { identity = 1 }
[[unit]]
label = "PUMP"
address = 128
name = { identity = 2, arbitrary = true }
"""


def group(label: str, pgn: int, length: int, *signals: str) -> str:
    """The tables of a group."""
    return f'[[group]]\nlabel = "{label}"\npgn = {pgn}\npriority = 6\nlength = {length}\n' + "".join(signals)


LONG, OTHER = group("LONG", 65260, 17, signal("L", 9, 8, "raw")), group("OTHER", 65259, 9, signal("L", 9, 8, "raw"))
ONE = group("ONE", 61184, 3, signal("S", 1, 8, "measured"))
KINDS = UNITS + group(
    "G", 65262, 8, signal("SPEED", 1, 16, "measured", 'unit = "1/8 rpm"\n'), signal("THIRD", 3, 8, "raw", 'unit = "1/3 l"\n'),
    signal("TURN", 4, 8, "signed", 'per = 4\nunit = "deg/s"\n'), signal("CODE", 5, 32, "dtc"),
)


def random_log(rng: random.Random, length: int = 70) -> list[str]:
    """A log in which messages of one frame and of several, to all and to one, go on beside one another, break off and are taken back."""
    addresses = (0, 128, 37)
    lines = []
    for number in range(length):
        source, to = rng.sample(addresses, 2)
        pgn, size = rng.choice(((65260, 17), (65259, 9), (65260, 9), (65000, 10)))
        packets = -(-size // 7)
        announced = f"{size:02X}00{packets:02X}FF{pgn & 255:02X}{pgn >> 8:02X}00"
        data = rng.randbytes(7).hex()
        one = rng.choice([f"{to:02X}", "FF"])
        burst = rng.choice((
            [f"18EF{to:02X}{source:02X}#{data[:6]}"], [f"18EF{to:02X}{source:02X}#{data[:8]}"], [f"18FEF1{source:02X}#{data}00"],
            [f"1CECFF{source:02X}#20{announced}"], [f"1CEC{to:02X}{source:02X}#10{announced}"],
            [f"1CEC{to:02X}{source:02X}#FF01FFFFFF{announced[-6:]}"], [f"1CEB{one}{source:02X}#{rng.randint(1, 3):02X}{data}"],
            [f"1CECFF{source:02X}#20{announced}", *(f"1CEBFF{source:02X}#0{k}{data}" for k in range(1, packets + 1))],
            [f"1CEC{to:02X}{source:02X}#10{announced}", *(f"1CEB{to:02X}{source:02X}#0{k}{data}" for k in range(1, packets + 1))],
            [f"18EF00FF#{data[:6]}"], ["123#00"], [""], ["# no frame"], [f"1AEF{to:02X}{source:02X}#{data[:6]}"],
        ))
        lines += [f"({number}.5) can0 {frame}" if "#" in frame and frame[0] != "#" else frame for frame in burst]
    return lines


class Signals(InFolder):
    def rows(self, plan: str, log: str, *words: str) -> list[dict[str, str]]:
        """The rows of a log, as dictionaries."""
        status, answer, said = run("signals.py", plan, log, *words)
        self.assertEqual((status, said), (0, ""))
        return list(csv.DictReader(io.StringIO(answer)))

    def read(self, plan: str, log: str) -> list[tuple[str, str]]:
        """What `read` reports: each message by its group and its signals."""
        return re.findall(r"^group (\w+) from \d+ .*\n((?:  .*\n)*)", program.call(["read", plan, log])[1], re.MULTILINE)

    def test_the_example(self) -> None:
        rows = self.rows(PLAN, LOG)
        said = [(row["line"], row["from"], row["group"], row["signal"], row["state"], row["value"], row["unit"]) for row in rows]
        self.assertIn(("1", "ENGINE?", "EEC1", "SPN190", "value", "800", "rpm"), said)
        self.assertIn(("5", "ENGINE?", "CCVS", "SPN70", "absent", "", ""), said)
        self.assertIn(("17", "ENGINE?", "EC1", "SPN544", "value", "900", "Nm"), said)
        self.assertEqual([row["detail"] for row in rows if row["state"] == "fault"], ["65024"])
        self.assertEqual({row["time"] for row in rows if row["line"] == "5"}, {"1764230400.050000"})

    def test_each_report_has_its_line(self) -> None:
        """The line is the one without which `read` doesn't report it, whatever the log carries beside it."""
        rng, met = random.Random(7), 0
        for number, groups in enumerate((LONG + OTHER + ONE, LONG + OTHER, ONE, OTHER, ONE + LONG) * 3):
            plan = self.write("plan.toml", UNITS + groups)
            lines = random_log(rng)
            expected, before = [], 0
            for end in range(1, len(lines) + 1):
                reports = self.read(plan, self.write("part.log", "\n".join(lines[:end]) + "\n"))
                expected += [(str(end), group) for group, _ in reports[before:]]
                before = len(reports)
            _, answer, _ = run("signals.py", plan, self.write("whole.log", "\n".join(lines) + "\n"))
            rows = list(csv.DictReader(io.StringIO(answer)))
            self.assertEqual([(row["line"], row["group"]) for row in rows], expected, number)
            said = [line for _, below in self.read(plan, self.path("whole.log")) for line in below.splitlines()]
            values = [line.split()[-1] for line in said if " value " in line]
            self.assertEqual([row["value"] for row in rows if row["state"] == "value"], values)
            met += len(expected)
        self.assertGreater(met, 80)

    def test_who_sends_is_who_holds_the_address(self) -> None:
        """A unit that moved is called by its label, with `?` where only the plan tells who it is; who isn't planned by the NAME, and by the
        address where nothing is known."""
        log = self.write("a.log", "18EFFF80#01FFFF\n18EEFF81#0200000000000080\n18EFFF80#01FFFF\n18EF0081#01FFFF\n18EFFF25#01FFFF\n"
                                  "18EEFF25#0300000001000000\n18EF2581#01FFFF\n")
        plan = self.write("plan.toml", UNITS + ONE)
        self.assertEqual([tuple(row[key] for key in ("line", "from", "source", "to", "destination")) for row in self.rows(plan, log)], [
            ("1", "PUMP?", "128", "all", "255"), ("3", "128", "128", "all", "255"), ("4", "PUMP", "129", "ENGINE?", "0"),
            ("5", "37", "37", "all", "255"), ("7", "PUMP", "129", "#0000000100000003", "37")])
        objects = [json.loads(line) for line in run("signals.py", "--json", plan, log)[1].splitlines()]
        self.assertEqual([(told["from"], told["source"], told["to"], told["destination"]) for told in objects[2::2]],
                         [("PUMP", 129, "ENGINE?", 0), ("PUMP", 129, "#0000000100000003", 37)])

    def test_private_groups_are_told_by_their_flows(self) -> None:
        """As `follow` has it: where a unit sends one by a flow."""
        log = self.write("a.log", "18EFFF80#01FFFF\n18FF1400#0102\n18FF1480#0304\n18EFFF00#02FFFF\n")
        maker = '[[group]]\nlabel = "OWN"\npgn = 65300\npriority = 6\nlength = 2\nprivate = true\n'
        maker += signal("O", 1, 8, "raw") + '[[flow]]\ngroup = "OWN"\nfrom = "PUMP"\nto = "all"\n'
        rows = self.rows(self.write("plan.toml", UNITS + ONE + maker), log)
        self.assertEqual([(row["line"], row["group"], row["value"]) for row in rows], [("1", "ONE", "1"), ("3", "OWN", "3"), ("4", "ONE", "2")])

    def test_values_are_exact(self) -> None:
        log = self.write("a.log", "18FEEE00#E12E07FF6E000305\n18FEEE00#00FF0780FFFFFFFF\n18FEEE00#00FE078000000000\n")
        rows = self.rows(self.write("plan.toml", KINDS), log)
        said = [(row["signal"], row["state"], row["value"], row["unit"], row["detail"]) for row in rows]
        for row in (("SPEED", "value", "1500.125", "rpm", ""), ("THIRD", "value", "7", "1/3 l", ""),
                    ("TURN", "value", "-0.25", "deg/s", ""), ("CODE", "dtc", "", "", "spn 110 fmi 3 count 5"),
                    ("SPEED", "absent", "", "", ""), ("CODE", "absent", "", "", ""),
                    ("SPEED", "fault", "", "", "65024"), ("CODE", "none", "", "", "")):
            self.assertIn(row, said)

    def test_texts(self) -> None:
        """Behind the signals, with what isn't printable as `read` has it; each report still has its line."""
        texts = '[[group.text]]\nlabel = "T"\nbyte = 2\nbytes = 2\n[[group.text]]\nlabel = "REST"\nbyte = 9\n'
        plan = self.write("plan.toml", UNITS + group("G", 65262, 8, signal("S", 1, 8, "raw"), texts) + ONE)
        log = self.write("a.log", "18FEEE00#0148690000000000\n18EFFF00#01FFFF\n18FEEE00#02225C0000000000\n")
        said = [(row["line"], row["signal"], row["state"], row["value"], row["detail"]) for row in self.rows(plan, log)]
        self.assertEqual(said, [
            ("1", "S", "value", "1", ""), ("1", "T", "text", "", "Hi"), ("1", "REST", "text", "", ""), ("2", "S", "value", "1", ""),
            ("3", "S", "value", "2", ""), ("3", "T", "text", "", "\\x22\\x5C"), ("3", "REST", "text", "", ""),
        ])
        wide = self.rows(plan, log, "--wide", "T")
        self.assertEqual([row["G.T"] for row in wide], ["Hi", "\\x22\\x5C"])
        self.assertNotIn("G.T state", wide[0])
        objects = [json.loads(line) for line in run("signals.py", "--json", plan, log, "G.T")[1].splitlines()]
        self.assertEqual([(told["state"], told["detail"]) for told in objects], [("text", "Hi"), ("text", "\\x22\\x5C")])

    def test_records(self) -> None:
        """Each by its place, as many as a message has; each report still has its line, and a column has all of them."""
        plan, log = example("trouble_codes.toml"), example("trouble_codes.drive.log")
        said = [(row["line"], row["signal"], row["state"], row["detail"]) for row in self.rows(plan, log, "DTC")]
        codes = ["spn 100 fmi 1 count 2", "spn 110 fmi 0 count 3", "spn 190 fmi 8 count 1", "spn 3226 fmi 4 count 126",
                 "spn 520192 fmi 31 count 1"]
        several = [("7", f"DTC[{place}]", "dtc", code) for place, code in enumerate(codes, 1)]
        self.assertEqual(said, [("1", "DTC[1]", "none", ""), ("2", "DTC[1]", "dtc", codes[1]), *several])
        wide = [(row["DM1.DTC"], row["DM1.DTC state"]) for row in self.rows(plan, log, "--wide", "DM1.DTC")]
        self.assertEqual(wide, [("", "none"), (codes[1], ""), ("; ".join(codes), "")])

    def test_codes_in_json(self) -> None:
        """A code is told by its parts, as numbers, and a record by its own."""
        plan, log = example("trouble_codes.toml"), example("trouble_codes.drive.log")
        objects = [json.loads(line) for line in run("signals.py", "--json", plan, log, "DTC")[1].splitlines()]
        self.assertEqual({told["signal"] for told in objects}, {"DTC"})
        said = [(told["record"], told["state"], told.get("spn"), told.get("fmi"), told.get("count"), told.get("detail")) for told in objects]
        self.assertEqual(said[:4], [(1, "none", None, None, None, None), (1, "dtc", 110, 0, 3, None), (1, "dtc", 100, 1, 2, None),
                                    (2, "dtc", 110, 0, 3, None)])

    def test_all_forms_say_the_same(self) -> None:
        plan = self.write("plan.toml", KINDS)
        log = self.write("a.log", "(1.50) can0 18FEEE00#E12E07FF6E000305\n(2.5) can0 18FEEE80#00FF07800000FFFF\n")
        rows = self.rows(plan, log)
        objects = [json.loads(line) for line in run("signals.py", "--json", plan, log)[1].splitlines()]
        others = ("value", "time", "detail", "spn", "fmi", "raw", "count")
        self.assertEqual([{key: str(text) for key, text in found.items() if key not in others} for found in objects],
                         [{key: text for key, text in row.items() if text and key not in others} for row in rows])
        self.assertEqual([float(row["value"]) for row in rows if row["value"]], [found["value"] for found in objects if "value" in found])
        self.assertEqual([found["time"] for found in objects], [1.5] * 4 + [2.5] * 4)
        first, second = csv.DictReader(io.StringIO(run("signals.py", "--wide", plan, log)[1]))
        self.assertEqual(first, {
            "time": "1.50", "line": "1", "from": "ENGINE?", "source": "0", "to": "all", "destination": "255", "group": "G",
            "G.SPEED [rpm]": "1500.125", "G.SPEED state": "", "G.THIRD [1/3 l]": "7", "G.THIRD state": "", "G.TURN [deg/s]": "-0.25",
            "G.TURN state": "", "G.CODE": "spn 110 fmi 3 count 5", "G.CODE state": ""})
        self.assertEqual((second["from"], second["G.SPEED [rpm]"], second["G.SPEED state"]), ("PUMP?", "", "absent"))

    @needs("pandas", "python3-pandas")
    def test_pandas_reads_numbers(self) -> None:
        """Each column of values, though it has states in between."""
        import pandas

        plan = self.write("plan.toml", KINDS)
        log = self.write("a.log", "(1.50) can0 18FEEE00#E12E07FF6E000305\n(2.5) can0 18FEEE80#00FF07800000FFFF\n(3.5) can0 18FEEE80#00FE0780FFFFFFFF\n")
        frame = pandas.read_csv(io.StringIO(run("signals.py", "--wide", plan, log)[1]))
        self.assertEqual([str(frame[column].dtype) for column in ("time", "source", "destination", "G.SPEED [rpm]", "G.TURN [deg/s]")],
                         ["float64", "int64", "int64", "float64", "float64"])
        self.assertEqual(list(frame["G.SPEED state"].fillna("")), ["", "absent", "fault 65024"])

    @needs("pandas", "python3-pandas")
    def test_the_lines_of_the_page_on_pandas(self) -> None:
        """What docs/guide/TOOLS.md shows runs on the table that it names, and has the columns that it asks for."""
        page = text_of(os.path.join(os.path.dirname(TOOLS), "docs", "guide", "TOOLS.md"))
        lines = there(re.search(r"```python\n(import pandas\n.*?)```", page, re.DOTALL)).group(1)
        log = self.write("drive.log", text_of(LOG).replace("(1764230400.000000)", "(1764230400.238012)"))
        self.write("drive.csv", run("signals.py", "--wide", PLAN, log)[1])
        ended = subprocess.run([sys.executable, "-c", lines + "print(len(speed), speed.iloc[0], len(joined), speed.index[0])"], cwd=self.folder, capture_output=True,
                               text=True, check=False)
        self.assertEqual((ended.returncode, ended.stdout.splitlines()[-1]), (0, "1 800.0 2 2025-11-27 08:00:00.238012"), ended.stderr)
        self.assertIn("fault 65024", ended.stdout)

    def test_what_is_chosen(self) -> None:
        log = LOG
        whole = self.rows(PLAN, log)
        for names in (["SPN190"], ["ET1"], ["EEC1.SPN512", "CCVS"]):
            wanted = [row for row in whole if {row["signal"], row["group"], f"{row['group']}.{row['signal']}"}.intersection(names)]
            self.assertEqual(self.rows(PLAN, log, *names), wanted, names)
        said = "signals: no group, signal or log is called SPN1900; did you mean SPN190?\n"
        self.assertEqual(run("signals.py", PLAN, log, "SPN1900"), (2, "", said))
        self.assertEqual(self.rows(PLAN, log, "VI"), [])

    def test_the_plan_is_cut(self) -> None:
        """`follow` is asked for what is chosen alone; what is told of that is the same, whatever the log carries beside it."""
        rng, told = random.Random(11), 0
        for groups in (LONG + OTHER + ONE, ONE + LONG + LONG.replace('"LONG"', '"AGAIN"') + OTHER):
            plan = self.write("plan.toml", UNITS + groups + '[[flow]]\ngroup = "ONE"\nfrom = "PUMP"\nto = "all"\n')
            lines = random_log(rng, 150)
            for claim in ("18EEFF80#0200000000000080", "18EEFF25#0900000001000000", "18EEFF81#0200000000000080"):
                lines.insert(rng.randrange(len(lines)), f"(1.5) can0 {claim}")
            log = self.write("a.log", "\n".join(lines) + "\n")
            head, *whole = run("signals.py", plan, log)[1].splitlines()
            for name in ("LONG", "OTHER", "ONE"):
                status, answer, _ = run("signals.py", plan, log, name)
                chosen = answer.splitlines()[1:]
                self.assertEqual((status, chosen), (0, [row for row in whole if row.split(",")[head.split(",").index("group")] == name]))
                told += len(chosen)
            tables = tables_of(plan)
            with cut(plan, tables, Choice(tables, ["LONG"])) as (shorter, parts):
                self.assertEqual([group.label for group in parts.groups], [group.label for group in tables.groups if group.pgn == 65260])
                self.assertEqual((len(parts.units), len(parts.flows)), (2, 0))
                self.assertNotIn("ONE", text_of(shorter))
        self.assertGreater(told, 60)

    def test_plans_that_are_not_cut(self) -> None:
        """One whose groups are no tables with headers, and one in which a code is told with a signal's label: all of it stays."""
        for text in ('version = 3\ngroup = [{ label = "ET1", pgn = 65262, priority = 6, length = 8 }]\n', NEWER):
            plan = self.write("plan.toml", text)
            tables = tables_of(plan)
            with cut(plan, tables, Choice(tables, [], nothing=True)) as (shorter, parts):
                self.assertEqual((shorter, parts), (plan, tables))
        text = text_of(example("trouble_codes.toml"))
        tables = Tables.of(example("trouble_codes.toml"))
        self.assertIsNotNone(shorter_of(text, tables, Choice(tables, ["DTC"])))
        text = text.replace("version = 3", "version = 4").replace("bits = 2\n", "bits = 2\nspn = 987\n", 1)
        tables = Tables.of(self.write("plan.toml", text))
        self.assertIsNone(shorter_of(text, tables, Choice(tables, ["DTC"])))

    def test_signals_of_a_group_are_cut(self) -> None:
        """Those that aren't wanted, but none that is repeated, and no parts of a group's own."""
        plan = example("tractor_and_implement.toml")
        tables = tables_of(plan)
        with cut(plan, tables, Choice(tables, ["EEC1.SPN190"])) as (shorter, parts):
            self.assertEqual([[signal.label for signal in group.signals] for group in parts.groups], [["SPN190"]])
            self.assertEqual(program.call(["follow", shorter, LOG])[1].splitlines()[1], "  SPN190 value 6400 1/8 rpm")

    def test_several_logs(self) -> None:
        """One drive: each row has its log and its line there. What is no name of a group or signal is a log where it is a file."""
        lines = text_of(LOG).splitlines()
        first, second = self.write("a.log", "\n".join(lines[:9])), self.write("b, 2.log", "\n".join(lines[9:]) + "\n")
        whole, rows = self.rows(PLAN, LOG, "SPN190", "EC1"), self.rows(PLAN, first, second, "SPN190", "EC1")
        self.assertEqual([{**row, "line": "", "log": ""} for row in rows], [{**row, "line": "", "log": ""} for row in whole])
        places = [(first, row["line"]) if int(row["line"]) <= 9 else (second, str(int(row["line"]) - 9)) for row in whole]
        self.assertEqual([(row["log"], row["line"]) for row in rows], places)
        objects = [json.loads(line) for line in run("signals.py", "--json", PLAN, first, "EC1", second)[1].splitlines()]
        self.assertEqual({told["log"] for told in objects}, {second})
        self.assertEqual(run("signals.py", PLAN, first, self.path("none.log"))[0], 2)

    def test_plans_of_every_form(self) -> None:
        """Also those whose groups have no signals, and one without groups: there is nothing to tell."""
        log = self.write("a.log", "18FEEE00#0000000000000000\n")
        for text in (NEWER, MARKED, "version = 1\n"):
            self.assertEqual(self.rows(self.write("plan.toml", text), log), [])

    def test_a_plan_of_the_greatest_size(self) -> None:
        plan = self.write("plan.toml", large_plan())
        frames = (f"({number}.0) can0 18F0{number:02X}{number:02X}#{number:02X}FFFFFFFFFFFFFF\n" for number in range(128))
        log = self.write("a.log", "".join(frames))
        rows = self.rows(plan, log, "S1")
        self.assertEqual([(row["line"], row["from"], row["group"], row["value"]) for row in rows],
                         [(str(number + 1), f"U{number}?", f"G{number}", str(number)) for number in range(128)])

    def test_what_is_passed_over_is_said(self) -> None:
        log = self.write("a.log", "1\n(1.0) can0 x\n(1.0) can0 18FEEE00#7DFFFFFFFFFFFFFF\n")
        self.assertEqual(run("signals.py", PLAN, log)[2], "signals: 2 lines spell no frame\n")
        log = self.write("a.log", "(1.0) can0 18FEEE00#7DFFFFFFFFFFFFFF\n(1.0) can1 18FEEE00#7EFFFFFFFFFFFFFF\n")
        status, answer, said = run("signals.py", PLAN, log, "SPN110")
        self.assertEqual((status, answer.count("\n")), (0, 2))
        self.assertEqual(said, "signals: can0 is read, the first of the log; 1 lines of can1 are passed over: --interface can1\n")

    def test_what_is_refused(self) -> None:
        refused = self.write("plan.toml", "version = 9\n")
        self.assertEqual(run("signals.py", refused, LOG), (2, "", f"signals: {refused}:1: refused Range top key version  (version = 9: integer 1..4)\n"))
        self.assertEqual(run("signals.py", example("findings/f07_signal_outside.toml"), LOG)[::2],
                         (1, "signals: " + program.call(["read", example("findings/f07_signal_outside.toml"), "/dev/null"])[1]))
        self.assertEqual(run("signals.py", PLAN, self.folder), (4, "", f"signals: {self.folder}: Is a directory\n"))
        self.assertEqual(run("signals.py", PLAN)[0], 2)

    def test_what_comes_from_a_pipe_is_told_at_once(self) -> None:
        with subprocess.Popen([sys.executable, os.path.join(TOOLS, "signals.py"), PLAN, "/dev/stdin", "SPN110"], stdin=subprocess.PIPE,
                              stdout=subprocess.PIPE, text=True, env={**os.environ, "J39PLAN": program.path()}) as tool:
            there(tool.stdout).readline()
            for value in ("7D", "7E"):
                there(tool.stdin).write(f"(1.0) can0 18FEEE00#{value}FFFFFFFFFFFFFF\n")
                there(tool.stdin).flush()
                self.assertEqual(there(tool.stdout).readline().split(",")[9], str(int(value, 16) - 40))
            there(tool.stdin).close()
            self.assertEqual(there(tool.stdout).read(), "")


if __name__ == "__main__":
    unittest.main()
