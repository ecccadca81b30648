"""The table of a fleet: each log a task, on this machine's processors and on a Dask cluster; what fails is named, and nothing is lost."""

import contextlib
import gzip
import importlib.util
import json
import os
import pty
import re
import signal
import subprocess
import sys
import time
import unittest
from collections.abc import Iterator
from typing import Any

from j39plan import program
from tests.support import TOOLS, InFolder, example, run, text_of

PLAN, LOG = example("two_units_one_address.toml"), example("two_units_one_address.drive.log")

# A claim by a NAME that no unit of the plan has, behind the drive. The drive has a deviation of its own: RIGHT sends 240 ms after its claim.
FOREIGN = "(17.7) can0 18EEFF05#0100000000000080\n"

# A sender of trouble codes and of a temperature; its claim, and a code of SPN 110, FMI 3 and one of SPN 190, FMI 8 in one message each.
CODES = """version = 3
[[unit]]
label = "ENGINE"
address = 0
name = { identity = 1 }
[[group]]
label = "DM1"
pgn = 65226
priority = 6
length = 8
[[group.signal]]
label = "DTC"
byte = 3
bits = 32
kind = "dtc"
[[group]]
label = "ET1"
pgn = 65262
priority = 6
length = 8
[[group.signal]]
label = "SPN110"
byte = 1
bits = 8
kind = "measured"
[[flow]]
group = "DM1"
from = "ENGINE"
to = "all"
[[flow]]
group = "ET1"
from = "ENGINE"
to = "all"
"""
ENGINE, CODE_110, CODE_190 = "18EEFF00#0100000000000000", "18FECA00#04FF6E000301FFFF", "18FECA00#04FFBE000801FFFF"

# So long is waited for what is to come, in seconds: machines may be busy.
PATIENCE = 120


class Fleets(InFolder):
    def setUp(self) -> None:
        super().setUp()
        self.early = self.write("early.log", text_of(LOG))
        self.late = self.write("late.log", text_of(LOG).replace("(10.5", "(17.5") + FOREIGN)

    def fleet(self, *words: Any, plan: str = PLAN, environment: dict[str, str] | None = None) -> tuple[int, str, str]:
        """Status, answer and what is said, without the folder."""
        ended = subprocess.run([sys.executable, os.path.join(TOOLS, "fleet.py"), *words[:-1], plan, *words[-1]], capture_output=True, text=True,
                               check=False, timeout=PATIENCE * 3, env={**os.environ, "J39PLAN": os.path.abspath(program.path()), **(environment or {})})
        return ended.returncode, ended.stdout.replace(self.folder + "/", ""), ended.stderr.replace(self.folder + "/", "")

    def tables(self, *words: Any, **more: Any) -> tuple[int, Any, str]:
        """The status, the tables by their names, and what is said."""
        status, answer, said = self.fleet("--json", *words, **more)
        return status, json.loads(answer), said

    def deadly(self, log: str = "") -> str:
        """A program that ends, when it follows a log, who called it: of a log with this name always, else the first time alone."""
        once = "" if log else f"mkdir {self.path('ended')} 2> /dev/null && "
        script = self.write("deadly", f"""#!/bin/sh
case "$*" in
  follow*{log or 'drive.log'}) {once}kill -9 $PPID ;;
esac
exec {os.path.abspath(program.path())} "$@"
""")
        os.chmod(script, 0o755)
        return script


class Table(Fleets):
    def test_text(self) -> None:
        status, answer, said = self.fleet([self.early, self.late])
        self.assertEqual((status, said), (1, ""))
        parts = answer.split("\n\n")
        self.assertEqual([part.splitlines()[0].split()[0] for part in parts],
                         ["log", "deviation", "flow", "unit", "NAME", "log", "signal", "logs"])
        self.assertEqual([row.split() for row in parts[5].splitlines()], [
            ["log", "identity", "numbers"], ["early.log", "LEFT", "2,", "RIGHT", "3"], ["late.log", "LEFT", "2,", "RIGHT", "3"]])
        self.assertEqual([row.split() for row in parts[0].splitlines()], [
            ["log", "begin", "duration", "mean", "load", "worst", "second", "frames", "bad", "elsewhere", "deviations"],
            ["early.log", "10.000", "0.6", "s", "-", "1120", "bit/s", "7", "0", "1", "0"],
            ["late.log", "10.000", "7.7", "s", "166", "bit/s", "800", "bit/s", "8", "0", "1", "1"]])
        self.assertEqual(parts[-1], "logs 2 with deviations 1 failed 0\n")

    def test_flows_and_silences(self) -> None:
        """By the times of the log: EEC1 at 10.000 alone, RIGHT's EBC2 at 10.27 and 10.56, in the other log at 17.56."""
        _, tables, _ = self.tables([self.early, self.late])
        self.assertEqual([(row["group"], row["from"], row["sent"], row["logs"]) for row in tables["flows"]],
                         [("EEC1", "ENGINE", 2, 2), ("EBC2", "LEFT", 2, 2), ("EBC2", "RIGHT", 4, 2)])
        self.assertEqual([(round(row["silence"], 6), row["silence_log"], row["silence_line"]) for row in tables["flows"]],
                         [(7.7, "late.log", None), (7.55, "late.log", 6), (7.29, "late.log", 7)])

    def test_needs(self) -> None:
        """How often each was met, in how many logs, and in which one it wasn't: LEFT hears EEC1 once a log, and RIGHT's EBC2 in the first one."""
        needs = "".join(f'\n[[need]]\nunit = "{unit}"\ngroup = "{group}"\n' for unit, group in (("LEFT", "EEC1"), ("LEFT", "EBC2"), ("ENGINE", "EEC1")))
        text = text_of(PLAN)
        plan = self.write("plan.toml", re.sub(r"^version = \d", "version = 4", text, flags=re.MULTILINE) + needs)
        silent = self.write("silent.log", "".join(line for line in text_of(LOG).splitlines(keepends=True) if "EEFF" in line))
        _, tables, _ = self.tables([self.early, silent], plan=plan)
        self.assertEqual([(row["need"], row["unit"], row["group"], row["signal"], row["met"], row["logs"], row["unmet"]) for row in tables["needs"]], [
            (1, "LEFT", "EEC1", None, 1, 1, ["silent.log"]), (2, "LEFT", "EBC2", None, 2, 1, ["silent.log"]),
            (3, "ENGINE", "EEC1", None, 0, 0, ["early.log", "silent.log"])])
        lines = self.fleet([self.early, silent], plan=plan)[1].split("\n\n")
        self.assertEqual([line.split() for line in lines[3].splitlines()], [
            ["need", "met", "logs", "not", "met"], ["1", "EEC1", "by", "LEFT", "1", "1", "silent.log"],
            ["2", "EBC2", "by", "LEFT", "2", "1", "silent.log"], ["3", "EEC1", "by", "ENGINE", "0", "0", "early.log", "and", "1", "others"]])

    def test_names(self) -> None:
        """RIGHT claimed 128 and then 129, LEFT 128, each in both logs; and one that isn't planned 5, in one of them."""
        _, tables, _ = self.tables([self.early, self.late])
        self.assertEqual([(row["unit"], row["addresses"], row["logs"], row["claims"]) for row in tables["names"]],
                         [("LEFT", [128], 2, 2), ("RIGHT", [128, 129], 2, 4), (None, [5], 1, 1)])
        self.assertEqual((tables["names"][-1]["name"], tables["names"][-1]["first"]), ("8000000000000001", "late.log"))

    def test_deviations_are_those_of_against(self) -> None:
        """By log, flow and unit, with how often each was met."""
        logs = [example(name) for name in ("tractor_and_implement.start.log", "truck.drive.log", "two_units_one_address.drive.log")]
        plan = example("tractor_and_implement.toml")
        _, tables, _ = self.tables(logs, plan=plan)
        for log in logs:
            *lines, count = run("against.py", plan, log)[1].splitlines()
            rows = [row for row in tables["deviations"] if row["log"] == log]
            self.assertEqual(len(rows), int(count.split()[1]), log)
            for row in rows:
                self.assertTrue(any(f" {row['text']}" in line for line in lines), row)
        flows = [row for row in tables["deviations"] if row["text"].startswith("flow 2,")]
        self.assertTrue(flows)
        self.assertEqual({(row["flow"], row["unit"]) for row in flows}, {(2, "ENGINE")})
        units = {row["unit"]: row["deviations"] for row in tables["units"]}
        self.assertEqual(units["ENGINE"], len({row["what"] for row in tables["deviations"] if row["unit"] == "ENGINE"}))

    def test_signals(self) -> None:
        """Between which values each was, in which log and where: the same as by `signals`."""
        log = example("tractor_and_implement.start.log")
        _, tables, _ = self.tables([log], plan=example("tractor_and_implement.toml"))
        rows = {row["signal"]: row for row in tables["signals"]}
        self.assertEqual((rows["EEC1.SPN190"]["least"], rows["EEC1.SPN190"]["most"], rows["EEC1.SPN190"]["most_line"]), (800, 800, 1))
        self.assertEqual(rows["CCVS.SPN84"], {"signal": "CCVS.SPN84", "planned": True, "states": {"fault": 1}, "least": None, "least_log": None, "least_line": None,
                                              "most": None, "most_log": None, "most_line": None})

    def test_trouble_codes_and_vehicles(self) -> None:
        """Logs in which one box claims are of one vehicle; one without a claim is of its own."""
        plan = self.write("plan.toml", CODES)
        logs = [self.write(f"{name}.log", "".join(f"({at:.1f}) can0 {frame}\n" for at, frame in lines)) for name, lines in (
            ("a", [(1, ENGINE), (2, CODE_110), (3, CODE_190), (4, CODE_110)]), ("b", [(20, CODE_110)]), ("c", [(9, ENGINE), (10, CODE_110)]))]
        _, tables, _ = self.tables(logs, plan=plan)
        self.assertEqual([(row["log"], row["vehicle"]) for row in tables["logs"]], [("a.log", 2), ("b.log", 1), ("c.log", 2)])
        self.assertEqual(tables["codes"], [
            {"spn": 110, "fmi": 3, "group": "DM1", "unit": "ENGINE", "times": 4, "logs": 3, "vehicles": 2,
             "first": 2.0, "first_log": "a.log", "first_line": 2, "last": 20.0, "last_log": "b.log", "last_line": 1},
            {"spn": 190, "fmi": 8, "group": "DM1", "unit": "ENGINE", "times": 1, "logs": 1, "vehicles": 1,
             "first": 3.0, "first_log": "a.log", "first_line": 3, "last": 3.0, "last_log": "a.log", "last_line": 3}])
        lines = self.fleet(logs, plan=plan)[1].split("\n\n")[-2].splitlines()
        self.assertEqual([line.split() for line in lines], [
            ["SPN", "FMI", "group", "unit", "first", "at", "last", "at", "times", "logs", "vehicles"],
            ["110", "3", "DM1", "ENGINE", "2.000", "a.log:2", "20.000", "b.log:1", "4", "3", "2"],
            ["190", "8", "DM1", "ENGINE", "3.000", "a.log:3", "3.000", "a.log:3", "1", "1", "1"]])

    def test_values_of_other_senders(self) -> None:
        """They have a row of their own, and change nothing in that of the plan's flows."""
        plan = self.write("plan.toml", CODES)
        log = self.write("a.log", "".join(f"({at}.0) can0 {frame}FFFFFFFFFFFFFF\n" for at, frame in enumerate(
            ("18FEEE00#0A", "18FEEE05#C8", "18FEEE00#1E", "18FEEE05#05", "18FEEE05#FE"), 1)))
        _, tables, _ = self.tables([log], plan=plan)
        rows = {row["planned"]: row for row in tables["signals"] if row["signal"] == "ET1.SPN110"}
        for is_planned, least, most, states in ((True, (10, 1), (30, 3), {"value": 2}), (False, (5, 4), (200, 2), {"value": 2, "fault": 1})):
            row = rows[is_planned]
            self.assertEqual(((row["least"], row["least_line"]), (row["most"], row["most_line"]), row["states"]), (least, most, states))
        self.assertRegex(self.fleet([log], plan=plan)[1], r"ET1\.SPN110 of others +5 +a\.log:4 +200 +a\.log:2")

    def test_an_empty_log(self) -> None:
        """It is named as one that failed, with status 2, and counts as no log in which nothing was sent."""
        empty = self.write("empty.log", "")
        status, answer, said = self.fleet([self.early, empty])
        self.assertEqual((status, said), (2, "fleet: empty.log: it has no frame\n"))
        self.assertTrue(answer.endswith("failed empty.log: it has no frame\nlogs 1 with deviations 0 failed 1\n"), answer)
        self.assertNotIn("never sent", answer)

    def test_options_of_against(self) -> None:
        plan = self.write("plan.toml", text_of(PLAN).replace("version = 1", "version = 3", 1).replace('to = "all"\n', 'to = "all"\nperiod = 1000\n'))
        self.assertTrue(any("its period is 1000 ms" in row["text"] for row in self.tables([self.early], plan=plan)[1]["deviations"]))
        self.assertFalse(any("its period is 1000 ms" in row["text"] for row in self.tables("--jitter", "999", [self.early], plan=plan)[1]["deviations"]
                             if " behind " in row["text"]))
        self.assertEqual(self.fleet("--jitter", "x", [self.early], plan=plan)[0], 2)


class Tasks(Fleets):
    def test_how_many_at_once_makes_no_difference(self) -> None:
        logs = [self.write(f"{number}.log", text_of(LOG) * (1 + number % 3) + FOREIGN) for number in range(7)]
        first = self.fleet("--processes", "1", logs)
        self.assertEqual(first[0], 1)
        for words in (("--processes", "3"), ()):
            self.assertEqual(self.fleet(*words, logs), first)

    def test_a_log_that_fails_is_named(self) -> None:
        """One that isn't there, a folder, a pipe and one without a frame; the others are done, one that is packed too."""
        os.mkfifo(self.path("fifo"))
        none, packed = self.write("drive.asc", "date Mon\nbase hex\n"), self.path("drive.log.gz")
        with gzip.open(packed, "wb") as file:
            file.write(text_of(LOG).encode())
        status, answer, said = self.fleet("--processes", "1", [self.path("no.log"), self.late, self.folder, self.path("fifo"), none, packed])
        self.assertEqual(status, 4)
        self.assertEqual(sorted(said.replace(self.folder, "folder").splitlines()), sorted([
            "fleet: no.log: No such file or directory", "fleet: folder: it is no regular file", "fleet: fifo: it is no regular file",
            "fleet: drive.asc: none of its lines spells a frame: is it a log of candump -L?"]))
        self.assertIn("failed drive.asc: none of its lines spells a frame", answer)
        self.assertEqual(answer.splitlines()[-1], "logs 2 with deviations 1 failed 4")
        self.assertEqual(self.fleet([self.early, none])[0], 2)

    def test_the_same_twice_is_said(self) -> None:
        os.symlink(self.early, self.path("link.log"))
        status, tables, said = self.tables([self.early, self.path("link.log"), self.early])
        self.assertEqual((status, len(tables["logs"])), (0, 1))
        self.assertEqual(said, "fleet: link.log: the same log as early.log, so it is read once\n"
                               "fleet: early.log: the same log as early.log, so it is read once\n")

    def test_a_plan_that_is_none(self) -> None:
        none = self.write("none.toml", "version = 9\n")
        self.assertEqual(self.fleet([self.early], plan=none), (2, "", "fleet: none.toml:1: refused Range top key version  (version = 9: integer 1..4)\n"))
        bad = example("findings/f07_signal_outside.toml")
        self.assertEqual(self.fleet([self.early], plan=bad)[0], 1)
        missing = self.path("missing.toml")
        self.assertEqual(self.fleet([self.early], plan=missing), (4, "", "fleet: missing.toml: No such file or directory\n"))

    def test_a_process_that_is_ended_loses_nothing(self) -> None:
        """What it was at is done again; a log on which it is ended each time is named, and the others are done."""
        logs = [self.write(f"{number}.drive.log", text_of(LOG)) for number in range(4)]
        expected = self.fleet(logs)
        script = self.deadly()
        self.assertEqual(self.fleet("--processes", "2", logs, environment={"J39PLAN": script}), expected)
        self.assertTrue(os.path.isdir(self.path("ended")))
        status, tables, said = self.tables("--processes", "2", logs, environment={"J39PLAN": self.deadly("2.drive.log")})
        self.assertEqual((status, said), (70, "fleet: 2.drive.log: the process that read it was ended, 3 times\n"))
        self.assertEqual([row["log"] for row in tables["logs"]], ["0.drive.log", "1.drive.log", "3.drive.log"])

    def test_a_bar_on_a_terminal(self) -> None:
        """How many logs are done is shown there alone, and what fails stands on a line of its own."""
        ours, theirs = pty.openpty()
        words = [sys.executable, os.path.join(TOOLS, "fleet.py"), PLAN, self.early, self.path("no.log"), self.late]
        started = subprocess.Popen(words, stdout=subprocess.DEVNULL, stderr=theirs, env={**os.environ, "J39PLAN": os.path.abspath(program.path())})
        os.close(theirs)
        shown = b""
        with contextlib.suppress(OSError):
            while piece := os.read(ours, 4096):
                shown += piece
        os.close(ours)
        self.assertEqual(started.wait(), 4)
        self.assertIn(b"1/3", shown)
        self.assertIn(b"[" + b"#" * 40 + b"] 3/3", shown)
        self.assertIn(b"\r\x1b[Kfleet: " + self.path("no.log").encode() + b": No such file or directory\r\n", shown)
        self.assertTrue(shown.endswith(b"\r\x1b[K"))

    def test_an_interrupt_ends_all(self) -> None:
        """Without a word, and no process is left."""
        script = self.write("slow", f"#!/bin/sh\n[ \"$1\" = follow ] && [ -s \"$4\" ] && sleep 60\nexec {os.path.abspath(program.path())} \"$@\"\n")
        os.chmod(script, 0o755)
        words = [sys.executable, os.path.join(TOOLS, "fleet.py"), "--processes", "2", PLAN, self.early, self.late]
        started = subprocess.Popen(words, stdout=subprocess.PIPE, stderr=subprocess.PIPE, env={**os.environ, "J39PLAN": script}, text=True,
                                   start_new_session=True, preexec_fn=lambda: signal.signal(signal.SIGINT, signal.SIG_DFL))
        end = time.monotonic() + PATIENCE
        while len(self.processes(started.pid)) < 7 and time.monotonic() < end:  # its own, two workers, and of each the script and its sleep
            time.sleep(0.1)
        os.killpg(started.pid, signal.SIGINT)
        answer, said = started.communicate(timeout=PATIENCE)
        self.assertEqual((started.returncode, answer, said), (-signal.SIGINT, "", ""))
        end = time.monotonic() + 10
        while self.processes(started.pid) and time.monotonic() < end:
            time.sleep(0.1)
        self.assertEqual(self.processes(started.pid), [])

    @staticmethod
    def processes(session: int) -> list[str]:
        """The processes of a session that aren't ended."""
        found = subprocess.run(["ps", "-o", "pid=,stat=", "-s", str(session)], capture_output=True, text=True, check=False).stdout
        return [line for line in found.splitlines() if " Z" not in line]


@unittest.skipUnless(importlib.util.find_spec("distributed"), "distributed isn't there: apt-get install python3-distributed")
class OnACluster(Fleets):
    @contextlib.contextmanager
    def cluster(self, workers: int = 2, **environment: str) -> Iterator[str]:
        """A scheduler and workers on the loopback; its address."""
        for name in ("package/j39plan", "scheduler.json"):
            with contextlib.suppress(FileNotFoundError):
                os.remove(self.path(name))
        os.makedirs(self.path("package"), exist_ok=True)
        os.symlink(os.path.join(TOOLS, "j39plan"), self.path("package/j39plan"))
        there = {**os.environ, "J39PLAN": os.path.abspath(program.path()), "PYTHONPATH": self.path("package"), **environment}
        started: list[subprocess.Popen[bytes]] = []

        def start(name: str, *words: str) -> None:
            with open(self.path(f"{len(started)}.said"), "wb") as said:
                started.append(subprocess.Popen([sys.executable, "-m", f"distributed.cli.{name}", *words], cwd=self.folder, env=there,
                                                stdin=subprocess.DEVNULL, stdout=said, stderr=said))

        try:
            start("dask_scheduler", "--host", "127.0.0.1", "--port", "0", "--no-dashboard", "--scheduler-file", self.path("scheduler.json"))
            end = time.monotonic() + PATIENCE
            while not os.path.exists(self.path("scheduler.json")):
                self.assertLess(time.monotonic(), end, text_of(self.path("0.said")))
                time.sleep(0.2)
            address = json.loads(text_of(self.path("scheduler.json")))["address"]
            for _ in range(workers):
                start("dask_worker", address, "--host", "127.0.0.1", "--no-nanny", "--nthreads", "1", "--no-dashboard", "--local-directory", self.folder)
            yield address
        finally:
            for process in started[::-1]:
                process.kill()
                process.wait()

    def test_the_same_as_here(self) -> None:
        logs = [self.write(f"{number}.log", text_of(LOG) * (1 + number % 3)) for number in range(6)] + [self.path("no.log")]
        here = self.fleet(logs)
        with self.cluster() as address:
            self.assertEqual(self.fleet("--scheduler", address, logs), here)

    def test_a_worker_that_is_ended_in_mid_log_loses_nothing(self) -> None:
        logs = [self.write(f"{number}.drive.log", text_of(LOG)) for number in range(6)]
        here = self.fleet(logs)
        with self.cluster(J39PLAN=self.deadly()) as address:
            self.assertEqual(self.fleet("--scheduler", address, logs), here)
            self.assertTrue(os.path.isdir(self.path("ended")))

    def test_what_cannot_do_tasks(self) -> None:
        """No scheduler, a worker without the package, one without the program."""
        status, answer, said = self.fleet("--scheduler", "tcp://127.0.0.1:9", [self.early])
        self.assertEqual((status, answer), (4, ""))
        self.assertRegex(said, r"^fleet: tcp://127\.0\.0\.1:9: no scheduler listens there, within 5 s: .*refused\n$")
        with self.cluster(1, PYTHONPATH="/nowhere") as address:
            status, answer, said = self.fleet("--scheduler", address, [self.early])
            self.assertEqual((status, answer), (69, ""))
            self.assertIn("it needs python3-j39plan and the program", said)
        with self.cluster(1, J39PLAN="/nowhere") as address:
            status, answer, said = self.fleet("--scheduler", address, [self.early])
            self.assertEqual((status, answer), (69, ""))
            self.assertRegex(said, r"^fleet: tcp://\S+ has no program, and here is j39plan \d")

    def test_words(self) -> None:
        for words in (["--scheduler", "here"], ["--scheduler", "tcp://127.0.0.1:9", "--processes", "2"], ["--processes", "0"]):
            status, answer, said = self.fleet(*words, [self.early])
            self.assertEqual((status, answer, said[:6]), (2, "", "usage:"), words)


if __name__ == "__main__":
    unittest.main()
