"""What the tests of logs against plans share."""

from collections.abc import Sequence
from tests import support
from tests.support import InFolder
from typing import Any

PLAN = """version = 1
[[unit]]
label = "ENGINE"
address = 0
name = { identity = 1 }
[[unit]]
label = "DISPLAY"
address = 128
name = { identity = 2, arbitrary = true }
[[group]]
label = "ET1"
pgn = 65262
priority = 6
length = 8
[[group]]
label = "TSC1"
pgn = 0
priority = 3
length = 8
[[group]]
label = "VI"
pgn = 65260
priority = 6
length = 17
[[flow]]
group = "ET1"
from = "ENGINE"
to = "all"
[[flow]]
group = "TSC1"
from = "DISPLAY"
to = "ENGINE"
[[flow]]
group = "VI"
from = "ENGINE"
to = "all"
"""

# A broadcast of VI, 17 bytes, by its announcement and three packets.
VI = ["1CECFF00#20110003FFECFE00", *(f"1CEBFF00#0{number}AAAAAAAAAAAAAA" for number in (1, 2, 3))]

# What the plan has, each once: its claims and its flows.
CLAIMS = ["18EEFF00#0100000000000000", "18EEFF80#0200000000000080"]
FLOWS = ["18FEEE00#7DFFFFFFFFFFFFFF", "0C000080#FFFFFFFFFFFFFFFF", *VI]

# Two units that prefer one address and may both choose another, of which the one with the larger NAME stands first.
RIVALS = """version = 1
[[unit]]
label = "VALVE"
address = 128
name = { identity = 2, arbitrary = true }
[[unit]]
label = "PUMP"
address = 128
name = { identity = 1, arbitrary = true }
[[group]]
label = "ET1"
pgn = 65262
priority = 6
length = 8
[[flow]]
group = "ET1"
from = "%s"
to = "all"
"""
PUMP_CLAIMS, VALVE_CLAIMS, ET1 = "18EEFF80#0100000000000080", "18EEFF80#0200000000000080", "18FEEE80#7DFFFFFFFFFFFFFF"


def run(*words: str, **more: Any) -> tuple[int, str, str]:
    """Runs a tool, as support has it; the times beside lines are left out."""
    status, answer, said = support.run(*words, **more)
    return status, support.without_times(answer), said


class Compared(InFolder):
    """Logs compared with a plan."""

    def compared(self, text: str, frames: Sequence[str], findings: str = "") -> list[str]:
        """The deviations of a log of these frames from this plan, which has a finding of this number, or none."""
        plan = self.write("plan.toml", text)
        log = self.write("drive.log", "".join(f"({number}.0) can0 {frame}\n" for number, frame in enumerate(frames)))
        status, answer, said = run("against.py", plan, log)
        *found, count = answer.replace(log, "L").replace(plan, "P").splitlines()
        self.assertEqual((status, count), (1 if found else 0, f"deviations {len(found)}"))
        self.assertRegex(said, rf"\Aagainst: the plan has findings, as {findings} [^\n]*: until they are mended .*\n\Z" if findings else r"\A\Z")
        return found

    def deviations(self, *frames: str) -> list[str]:
        """The deviations of a log of these frames and of the flows, which stand behind them."""
        return self.compared(PLAN, [*frames, *FLOWS])
