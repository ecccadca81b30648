"""Two drives beside each other: what one has and the other hasn't, and what differs by more than a share."""

import json
import unittest
from typing import Any

from tests.support import InFolder, run

PLAN = """version = 4
[[unit]]
label = "ENGINE"
address = 0
name = { function = 3 }
[[unit]]
label = "BRAKES"
address = 11
name = { function = 9 }
[[unit]]
label = "HITCH"
address = 128
name = { function = 20, arbitrary = true }
[[group]]
label = "ET1"
pgn = 65262
priority = 6
length = 8
[[group.signal]]
label = "TEMPERATURE"
byte = 1
bits = 8
kind = "measured"
offset = -40
unit = "degC"
[[group]]
label = "EBC1"
pgn = 61441
priority = 6
length = 8
[[group]]
label = "DM1"
pgn = 65226
priority = 6
length = 8
[[group.signal]]
label = "DTC"
byte = 3
bits = 32
kind = "dtc"
[[flow]]
group = "ET1"
from = "ENGINE"
to = "all"
period = 500
[[flow]]
group = "EBC1"
from = "BRAKES"
to = "all"
period = 100
[[flow]]
group = "DM1"
from = "ENGINE"
to = "all"
"""

ENGINE, OTHER_ENGINE, BRAKES, HITCH = "18EEFF00#0500000000030000", "18EEFF00#0700000000030000", "18EEFF0B#0600000000090000", "18EEFF80#0800000000140080"
HITCH_AT_130, STRANGER, CODE = "18EEFF82#0800000000140080", "18FEEE27#7DFFFFFFFFFFFFFF", "18FECA00#04FF6E000301FFFF"


def temperature(degrees: int) -> str:
    """ET1 with a temperature."""
    return f"18FEEE00#{degrees + 40:02X}FFFFFFFFFFFFFF"


def series(begin: float, step: float, frames: list[str]) -> list[tuple[float, str]]:
    """Frames at a distance."""
    return [(begin + number * step, frame) for number, frame in enumerate(frames)]


class Drifts(InFolder):
    def drive(self, name: str, *log: tuple[float, str]) -> str:
        """Writes a log of frames with their times."""
        return self.write(name, "".join(f"({at:.6f}) can0 {frame}\n" for at, frame in sorted(log, key=lambda line: line[0])))

    def told(self, before: str, after: str, *words: str) -> tuple[int, Any, str]:
        """Status, the JSON, and what is said."""
        status, answer, said = run("drift.py", *words, "--json", self.write("plan.toml", PLAN), before, after)
        return status, json.loads(answer or "null"), said

    def first(self) -> list[tuple[float, str]]:
        """Ten seconds: temperatures of 80 to 90 degC each second, the brakes each 100 ms."""
        return [(0.1, ENGINE), (0.2, BRAKES), (0.3, HITCH), *series(1, 1, [temperature(80 + at) for at in range(11)]), *series(1, 0.1, ["18F0010B#FFFFFFFFFFFFFFFF"] * 100)]

    def test_the_same(self) -> None:
        """Another recording of the same, a year later, differs in nothing."""
        log = self.first()
        before, after = self.drive("before.log", *log), self.drive("after.log", *((at + 31536000, frame) for at, frame in log))
        status, found, said = self.told(before, after)
        self.assertEqual((status, found["differences"], said), (0, [], ""))
        self.assertEqual((found["before"]["log"], found["after"]["duration"]), (before, found["before"]["duration"]))

    def test_each_kind(self) -> None:
        """In the second drive the engine is another box, the brakes are off, the hitch is at 130, a stranger sends, ET1 comes twice as often and hotter and
        once has a fault, and a code comes."""
        hot = [temperature(80 + 2 * at) for at in range(20)] + ["18FEEE00#FEFFFFFFFFFFFFFF"]
        log = [(0.1, OTHER_ENGINE), (0.3, HITCH_AT_130), *series(1, 0.5, hot), (5.2, STRANGER), (6.2, CODE), (7.2, CODE)]
        status, found, said = self.told(self.drive("before.log", *self.first()), self.drive("after.log", *log))
        rows = [(row["kind"], row["what"], row.get("before"), row.get("after")) for row in found["differences"] if row["kind"] != "load"]
        self.assertEqual((status, said), (1, ""))
        self.assertEqual([row for row in rows if row[0] in ("box", "address", "flow", "period", "range", "states", "code")], [
            ("box", "ENGINE", [5], [7]), ("address", "HITCH", [128], [130]),
            ("address", "HITCH claims address 130, planned is 128, where it stays", None, "once"),
            ("period", "1 ET1 from ENGINE to all", 1000.0, 500.0),
            ("flow", "2 EBC1 from BRAKES to all", "100 times", None), ("flow", "3 DM1 from ENGINE to all", None, "2 times"),
            ("range", "ET1.TEMPERATURE", [80.0, 90.0], [80.0, 118.0]), ("states", "ET1.TEMPERATURE", ["value"], ["fault", "value"]),
            ("code", "spn 110 fmi 3 in DM1 from ENGINE", None, "2 times")])
        self.assertEqual([row for row in rows if row[0] == "sender"], [
            ("sender", "BRAKES", "heard", None), ("sender", "address 39 sends ET1, a planned group: no unit has it", None, "once")])
        self.assertEqual([row["what"] for row in found["differences"] if row["kind"] == "load"], ["bus load, mean", "bus load, worst second"])

    def test_by_how_much(self) -> None:
        """A temperature that goes to 92 in place of 90 is beyond 10 % of the range of 12, and not beyond 20 %."""
        before = self.drive("before.log", *self.first())
        after = self.drive("after.log", *((at, temperature(92) if frame == temperature(90) else frame) for at, frame in self.first()))
        self.assertEqual([row["what"] for row in self.told(before, after)[1]["differences"]], ["ET1.TEMPERATURE"])
        self.assertEqual(self.told(before, after, "--share", "20%")[0], 0)

    def test_text(self) -> None:
        before = self.drive("before.log", *self.first())
        after = self.drive("after.log", *((at, temperature(100) if frame == temperature(90) else frame) for at, frame in self.first()))
        status, answer, said = run("drift.py", self.write("plan.toml", PLAN), before, after)
        self.assertEqual((status, said), (1, ""))
        self.assertEqual([line.split() for line in answer.splitlines()[4:]], [
            ["differs", "of", "before", "after"], ["range", "ET1.TEMPERATURE", "80..90", "degC", "80..100", "degC"], [], ["differences", "1"]])

    def test_what_is_refused(self) -> None:
        plan, log = self.write("plan.toml", PLAN), self.drive("a.log", *self.first())
        self.assertEqual(run("drift.py", plan, log, log)[0], 2)
        empty = self.write("empty.log", "nothing\n")
        status, answer, said = run("drift.py", plan, log, empty)
        self.assertEqual((status, answer), (2, ""))
        self.assertIn(f"drift: {empty}: none of its lines spells a frame", said)
        self.assertEqual(run("drift.py", plan, log, self.path("none.log"))[0], 4)
        self.assertEqual(run("drift.py", "--share", "x", plan, log, empty)[0], 2)


if __name__ == "__main__":
    unittest.main()
