"""One interface of a log of several buses: what the tools say of it is what they say of a log that has nothing else, with the lines of the whole."""

import csv
import io
import json
import os
import subprocess
import sys
import unittest

from j39plan.log.curves import Timeline, curves_of
from j39plan.log.files import LINE_MOST, Log, interface_of
from j39plan.log.readings import Choice, ReadingChoice
from j39plan.log.reports import Counts, follow, tables_of
from tests.support import TOOLS, InFolder, example, run, there

PLAN = example("tractor_and_implement.toml")

# Speeds of two engines, on two buses: 800 and 1600 rpm, and temperatures; a line without an interface, and one of a direction.
LINES = [
    "(1.0) can0 0CF00400#F07D8C0019FFFFFF", "(1.1) can1 0CF00400#F07D8C0032FFFFFF", "(1.2) can1 18EEFF81#1240A05B00800CA0",
    "(1.3) can0 18FEEE00#7EFFFFFFFFFFFFFF", "(1.4)  can1  18FEEE00#7FFFFFFFFFFFFFFF R", "(1.5) 18FEEE00#7DFFFFFFFFFFFFFF",
    "(1.6) can1 18FEEE00#7", "(1.7) can2 18FEEE00#80FFFFFFFFFFFFFF",
]


class OneOfSeveral(InFolder):
    def setUp(self) -> None:
        super().setUp()
        self.log = self.write("drive.log", "\n".join(LINES))
        self.alone = self.write("alone.log", "".join(f"{line if 'can1' in line or ') 18' in line else ''}\n" for line in LINES))

    def test_which_interface_a_line_names(self) -> None:
        for line, interface in ((b"(1.0) can0 18FEEE00#00\n", b"can0"), (b"can0 18FEEE00#00 R\r\n", b"can0"), (b"(1.0) 18FEEE00#00\n", None),
                                (b"18FEEE00#00\n", None), (b"\n", None), (b"R\n", None), (b"(1.0) vcan1\t18FEEE00#00", b"vcan1")):
            self.assertEqual(interface_of(line), interface, line)

    def test_signals(self) -> None:
        status, answer, said = run("signals.py", "--interface", "can1", PLAN, self.log)
        self.assertEqual((status, said.splitlines()[-1]), (0, "signals: can1 is read, as asked for; 3 lines of can0, can2 are passed over"))
        self.assertEqual(answer, run("signals.py", PLAN, self.alone)[1])
        rows = [(row["line"], row["signal"], row["value"]) for row in csv.DictReader(io.StringIO(answer))]
        self.assertIn(("2", "SPN190", "1600"), rows)
        self.assertEqual([(line, value) for line, name, value in rows if name == "SPN110"], [("5", "87"), ("6", "85")])

    def test_signals_of_the_first_one(self) -> None:
        """Where none is asked for the values are those of the first one alone, and the others are named."""
        status, answer, said = run("signals.py", PLAN, self.log, "SPN190", "SPN110")
        self.assertEqual([(row["line"], row["signal"], row["value"]) for row in csv.DictReader(io.StringIO(answer))],
                         [("1", "SPN190", "800"), ("4", "SPN110", "86"), ("6", "SPN110", "85")])
        self.assertEqual((status, said.splitlines()[-1]), (0, "signals: can0 is read, the first of the log; 5 lines of can1, can2 are passed over: --interface can1"))

    def test_a_pipe(self) -> None:
        """The same, each line as it comes."""
        words = [sys.executable, os.path.join(TOOLS, "signals.py"), "--interface", "can1", PLAN, "/dev/stdin", "SPN110"]
        with subprocess.Popen(words, stdin=subprocess.PIPE, stdout=subprocess.PIPE, text=True, bufsize=1) as process:
            there(process.stdin).write("".join(f"{line}\n" for line in LINES[:5]))
            self.assertEqual([there(process.stdout).readline().split(",")[:2] for _ in range(2)], [["time", "line"], ["1.4", "5"]])
            there(process.stdin).write(f"{LINES[5]}\n")
            self.assertEqual(there(process.stdout).readline().split(",")[:2], ["1.5", "6"])

    def test_against(self) -> None:
        found = run("against.py", "--interface", "can1", PLAN, self.log)
        alone = run("against.py", PLAN, self.alone)
        self.assertEqual((found[0], found[1]), (1, alone[1].replace("alone.log", "drive.log")))
        self.assertIn("can1 is read, as asked for; 3 lines of can0, can2 are passed over\n", found[2])

    def test_curves(self) -> None:
        tables, counts = tables_of(PLAN), Counts()
        timeline = Timeline(tables.units)
        with Log([self.log], "can1") as log:
            wanted = ReadingChoice(Choice(tables, ["SPN110", "SPN190"]), lambda _, label, reading: (label, reading))
            curves = curves_of(timeline.passed(follow(PLAN, log, tables, counts)), wanted, timeline.clock)
        self.assertEqual({curve.signal: (list(curve.times), list(curve.values)) for curve in curves},
                         {"SPN190": ([1.1], [1600.0]), "SPN110": ([1.4, 1.5], [87.0, 85.0])})

    def test_fleet(self) -> None:
        _, answer, _ = run("fleet.py", "--interface", "can1", "--json", PLAN, self.log)
        tables = json.loads(answer)
        self.assertEqual([(row["frames"], row["bad"], row["elsewhere"]) for row in tables["logs"]], [(4, 1, 3)])
        spreads = {row["signal"]: (row["least"], row["least_line"], row["most"], row["most_line"]) for row in tables["signals"]}
        self.assertEqual(spreads["ET1.SPN110"], (85, 6, 87, 5))

    def test_lines_keep_their_numbers(self) -> None:
        """Also behind a line that is too long, of whatever interface, and several logs."""
        long = self.write("long.log", f"(0.5) can0 {'0' * 3 * LINE_MOST}\n(0.6) can1 {'0' * LINE_MOST}\n" + "".join(f"{line}\n" for line in LINES))
        self.assertEqual([row["line"] for row in self.rows(long)], ["7", "8"])
        self.assertEqual([(row["log"], row["line"]) for row in self.rows(long, self.log)], [
            (long, "7"), (long, "8"), (self.log, "5"), (self.log, "6")])

    def rows(self, log: str, *others: str) -> list[dict[str, str]]:
        """The rows of a temperature."""
        return list(csv.DictReader(io.StringIO(run("signals.py", "--interface", "can1", PLAN, log, *others, "SPN110")[1])))

    def test_one_that_is_not_there(self) -> None:
        log = self.write("two.log", "".join(f"{line}\n" for line in LINES[:4]))
        for tool in ("signals.py", "against.py"):
            status, answer, said = run(tool, "--interface", "can7", PLAN, log)
            self.assertEqual((status, answer), (2, ""), tool)
            self.assertEqual(said, f"{tool[:-3]}: {log} has no frame of can7; it has can0, can1\n")
        status, answer, said = run("fleet.py", "--interface", "can7", PLAN, log)
        self.assertEqual((status, said), (2, f"fleet: {log}: {log} has no frame of can7; it has can0, can1\n"))


if __name__ == "__main__":
    unittest.main()
