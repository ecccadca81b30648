"""What `against --live` tells as soon as it is: by the times of the log, and by the clock where nothing comes."""

import json
import os
import subprocess
import sys
from collections.abc import Sequence

from j39plan import program
from tests.support import TOOLS, InFolder, run, there, without_times
from tests.test_deviations import BRAKES, HITCH, PLAN, brakes, lines_of

HSTAT = "18FF1480#0000000000000000"
TEXT = "flow 2, EBC1 from BRAKES to all: not sent any more, its period is 100 ms"


def hstat(begin: float, end: float) -> list[tuple[float, str]]:
    """HSTAT each 200 ms."""
    return [(begin + number / 5, HSTAT) for number in range(round((end - begin) * 5))]


class Live(InFolder):
    def setUp(self) -> None:
        super().setUp()
        self.plan = self.write("plan.toml", PLAN.replace("period = 5000", "period = 200").split('[[flow]]\ngroup = "VI"')[0])

    def begun(self, *words: str) -> subprocess.Popen[str]:
        """A comparison of what comes by a pipe."""
        ours = {**os.environ, "J39PLAN": os.path.abspath(program.path())}
        return subprocess.Popen([sys.executable, os.path.join(TOOLS, "against.py"), "--live", *words, self.plan, "-"], stdin=subprocess.PIPE, stdout=subprocess.PIPE,
                                stderr=subprocess.DEVNULL, text=True, env=ours, bufsize=1)

    def lines(self, log: Sequence[tuple[float, str]], *words: str) -> list[str]:
        """What is written of a log that is there already."""
        name = self.write("drive.log", lines_of(*log))
        return without_times(run("against.py", "--live", *words, self.plan, name)[1]).replace(f"{name}:", "L:").splitlines()

    def test_a_flow_that_stops(self) -> None:
        """EBC1 is told 500 ms behind its last message, as others go on; at the end not once more."""
        log = [(0.5, HITCH), (0.6, BRAKES), *brakes(1, 3), *hstat(1.05, 9)]
        found = [f"L:{2 + 20 + 10}: {TEXT}"]
        self.assertEqual([line for line in self.lines(log) if "EBC1" in line], found)
        with self.begun() as process:
            there(process.stdin).write(lines_of(*[line for line in log if line[0] < 3.7]))
            self.assertEqual(without_times(there(process.stdout).readline()), found[0].replace("L:", "/dev/stdin:") + "\n")
            there(process.stdin).close()
            self.assertNotIn("EBC1", there(process.stdout).read())

    def test_a_flow_that_comes_again(self) -> None:
        """How long it was silent is told then, and counts in place of what was told before."""
        log = [(0.5, HITCH), (0.6, BRAKES), *brakes(1, 3), *hstat(1.05, 9), *brakes(5, 9)]
        found = self.lines(log, "--json")
        rows = [json.loads(line) for line in found]
        self.assertEqual([(row["kind"], row.get("value")) for row in rows[:-1] if row.get("flow") == 2], [("stopped", None), ("silent", 2100)])
        self.assertEqual(rows[-1]["deviations"], len(rows) - 2)

    def test_by_the_clock(self) -> None:
        """Where nothing comes of several flows that were alive it is told of all; what was alone on the bus is told by itself."""
        both = [(0.5, HITCH), (0.6, BRAKES), *brakes(1, 3), *hstat(1.05, 3)]
        still = "nothing at all comes any more: the bus, the log or its clock stands still"
        for log, told in ((both, f"/dev/stdin:32: {still}"), (both[:-10], f"/dev/stdin:22: {TEXT}")):
            with self.begun() as process:
                there(process.stdin).write(lines_of(*log) + lines_of(log[-1])[:9])  # the last line is still to come
                self.assertEqual(without_times(there(process.stdout).readline()), told + "\n")
                there(process.stdin).close()
                there(process.stdout).read()

    def test_who_is_no_unit(self) -> None:
        """Told when it sends, by what `follow` says; what `audit` says at the end isn't told once more."""
        with self.begun("--silence", "0") as process:
            there(process.stdin).write(lines_of((0.5, HITCH), (0.6, BRAKES), (1, HSTAT.replace("80#", "77#")), (1.1, HSTAT)))
            self.assertIn("no unit has it", there(process.stdout).readline())
            there(process.stdin).close()
            self.assertNotIn("no unit has it", there(process.stdout).read())

    def test_a_request_that_is_not_answered(self) -> None:
        """1,250 ms behind it, and not at the end alone, of a unit that is on."""
        with open(self.plan, "a", encoding="utf-8") as file:
            file.write('[[request]]\nfrom = "HITCH"\nto = "BRAKES"\ngroup = "EBC1"\n')
        with self.begun("--silence", "0") as process:
            there(process.stdin).write(lines_of((0.5, HITCH), (0.6, BRAKES), (1, "18EA0B80#01F000"), (2, "18FF100B#00"), (2.251, HSTAT), (2.3, HSTAT)))
            self.assertIn("request 1, EBC1 from HITCH to BRAKES: no answer within 1250 ms", there(process.stdout).readline())
            there(process.stdin).close()
            there(process.stdout).read()
