"""What a plan asks of a drive, one by one: kept, broken or not seen, as text, as JSON and as JUnit has it."""

import json
import unittest
from xml.etree import ElementTree

import j39plan
from tests.support import InFolder, example, run

PLAN = """version = 4

[[unit]]
label = "ENGINE"
address = 0
name = { function = 0 }

[[unit]]
label = "CLUSTER"
address = 23
name = { function = 19 }

[[unit]]
label = "TOOL"
address = 249
name = { function = 129 }
""" + "".join(f'\n[[group]]\nlabel = "{label}"\npgn = {pgn}\npriority = {priority}\nlength = 8\n' for label, pgn, priority in (
    ("EEC1", 61444, 3), ("ET1", 65262, 6), ("HOURS", 65253, 6))) + """
[[flow]]
group = "EEC1"
from = "ENGINE"
to = "all"
period = 100
pause = 200

[[flow]]
group = "ET1"
from = "ENGINE"
to = "all"
period = 100

[[flow]]
group = "HOURS"
from = "ENGINE"
to = "all"
on_request = true

[[need]]
unit = "CLUSTER"
group = "EEC1"

[[need]]
unit = "TOOL"
group = "ET1"

[[request]]
group = "HOURS"
from = "TOOL"
to = "ENGINE"
"""

FULL = "FF" * 8


class Requirements(InFolder):
    def log(self, *frames: tuple[float, str, str]) -> str:
        """A log of these frames, which end with one of the tool."""
        return self.write("drive.log", "".join(f"({time:.6f}) can0 {identifier}#{data}\n" for time, identifier, data in frames))

    def told(self, *words: str, frames: list[tuple[float, str, str]]) -> tuple[int, list[str]]:
        """What is told of a log, without the folder."""
        status, answer, _ = run("against.py", "--requirements", *words, self.write("plan.toml", PLAN), self.log(*frames))
        return status, answer.replace(f"{self.folder}/", "").splitlines()

    def regular(self, until: int = 10) -> list[tuple[float, str, str]]:
        """Both broadcast groups each 100 ms, and a request with its answer."""
        frames = [(1 + number / 10, identifier, FULL) for number in range(until) for identifier in ("0CF00400", "18FEEE00")]
        return sorted([*frames, (1.25, "18EA00F9", "E5FE00"), (1.28, "18FEE500", FULL)])

    def test_kept_and_not_seen(self) -> None:
        """Ten messages of two flows, one asked and answered; a unit that only hears is absent by the log, which is of no requirement."""
        status, lines = self.told(frames=self.regular())
        self.assertEqual((status, lines), (1, [
            "flow 1, EEC1 from ENGINE to all: kept, 10 messages", "flow 2, ET1 from ENGINE to all: kept, 10 messages",
            "flow 3, HOURS from ENGINE to all: kept, 1 message", "need 1, EEC1 by CLUSTER: kept, 10 messages", "need 2, ET1 by TOOL: kept, 10 messages",
            "request 1, HOURS from TOOL to ENGINE: kept, 1 request", "plan.toml: unit CLUSTER: neither claimed an address nor sent anything",
            "requirements 6, kept 6, broken 0, not seen 0, other deviations 1"]))
        none = [frame for frame in self.regular() if frame[1] in ("0CF00400",)]
        status, lines = self.told(frames=none)
        self.assertEqual([line.partition(": ")[2] for line in lines[:3]], ["kept, 10 messages", "not seen", "not seen"])
        self.assertIn("request 1, HOURS from TOOL to ENGINE: not seen", lines)
        self.assertIn("  plan.toml: need 2, ET1 by TOOL: nothing met it", lines)

    def test_broken(self) -> None:
        """Two messages soon after others, the nearer 0.1 ms, a priority, a missing answer: each at its requirement, with its line; the need is kept."""
        frames = sorted([*self.regular(30), (1.34, "0CF00400", FULL), (1.5001, "10F00400", FULL), (1.6, "18EA00F9", "E5FE00")])
        _, lines = self.told(frames=frames)
        at = lines.index("flow 1, EEC1 from ENGINE to all: broken, 32 messages")
        self.assertIn("drive.log:16: (1.500100) flow 1, EEC1 from ENGINE to all: 0.1 ms after the one before", " ".join(lines[at + 1:at + 3]))
        self.assertTrue(any("EEC1 from ENGINE has priority 4, planned is 3" in line and line.startswith("  ") for line in lines))
        self.assertIn("request 1, HOURS from TOOL to ENGINE: broken, 2 requests", lines)
        self.assertIn("flow 2, ET1 from ENGINE to all: kept, 30 messages", lines)
        self.assertIn("need 1, EEC1 by CLUSTER: kept, 32 messages", lines)
        self.assertEqual(lines[-1], "requirements 6, kept 4, broken 2, not seen 0, other deviations 1")

    def test_a_silent_flow_breaks_its_needs(self) -> None:
        """Nothing of EEC1 came for longer than its pause, so its need is broken by the same line; ET1 came."""
        frames = [frame for frame in self.regular(30) if not (frame[1] == "0CF00400" and 1.5 < frame[0] < 3)]
        _, lines = self.told(frames=frames)
        at = next(number for number, line in enumerate(lines) if line.startswith("need 1, EEC1 by CLUSTER: broken"))
        self.assertIn("not sent for ", lines[at + 1])
        self.assertIn("need 2, ET1 by TOOL: kept, 30 messages", lines)

    def test_one_unit(self) -> None:
        """Its flows, needs and requests, and deviations of its own alone."""
        status, lines = self.told("--unit", "TOOL", frames=self.regular())
        self.assertEqual((status, lines), (0, ["need 2, ET1 by TOOL: kept, 10 messages", "request 1, HOURS from TOOL to ENGINE: kept, 1 request",
                                               "requirements 2, kept 2, broken 0, not seen 0, other deviations 0"]))
        ended, _, said = run("against.py", "--unit", "NOBODY", self.path("plan.toml"), self.path("drive.log"))
        self.assertEqual((ended, "no unit is called NOBODY" in said), (2, True))

    def test_junit(self) -> None:
        """A test for each requirement, and one for all else; counts that CI systems read."""
        frames = [frame for frame in [*self.regular(), (2.5, "0CF00400", FULL)] if frame[1] != "18FEEE00"]
        self.told("--junit", self.path("tests.xml"), frames=frames)
        suite = ElementTree.parse(self.path("tests.xml")).getroot()
        self.assertEqual({key: suite.get(key) for key in ("tests", "failures", "skipped")}, {"tests": "7", "failures": "4", "skipped": "1"})
        states = {f"{case.get('classname')} {case.get('name')}": [part.tag for part in case] for case in suite}
        self.assertEqual(states, {"flow 1 EEC1 from ENGINE to all": ["failure"], "flow 2 ET1 from ENGINE to all": ["skipped"], "flow 3 HOURS from ENGINE to all": [],
                                  "need 1 EEC1 by CLUSTER": ["failure"], "need 2 ET1 by TOOL": ["failure"], "request 1 HOURS from TOOL to ENGINE": [],
                                  "bus other deviations": ["failure"]})
        self.assertIn("need 2, ET1 by TOOL: nothing met it", "".join(suite.itertext()))

    def test_json(self) -> None:
        """An object for each, with its deviations as `--json` writes them anyway, and the counts."""
        _, lines = self.told("--json", frames=[frame for frame in self.regular() if frame[1] != "18FEEE00"])
        objects = [json.loads(line) for line in lines]
        need = next(one for one in objects if one.get("requirement") == "need" and one["number"] == 2)
        self.assertEqual((need["state"], need["times"], [one["kind"] for one in need["broken"]]), ("broken", 0, ["unmet"]))
        self.assertEqual(objects[-1], {"requirements": 6, "kept": 4, "broken": 1, "not seen": 1, "other deviations": 1})

    def test_where_there_is_none(self) -> None:
        """Of a vehicle one bus has to be chosen; the module's list of deviations has no requirements."""
        vehicle = example("three_buses/truck.toml")
        status, _, said = run("against.py", "--junit", self.path("x.xml"), vehicle, self.log(*self.regular()))
        self.assertEqual((status, "--junit and --unit are of one bus" in said), (2, True))
        plan = j39plan.read_plan(self.write("plan.toml", PLAN))
        with self.assertRaises(j39plan.Refused):
            j39plan.deviations(plan, self.path("drive.log"), ["--requirements"])


if __name__ == "__main__":
    unittest.main()
