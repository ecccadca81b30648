"""What a log needn't have: flows that are sent on events, and units that may be absent, in each tool that prints deviations."""

import json
import socket
import threading
import time
import unittest

from j39plan import program
from j39plan.fleet.team import refuse_unless_listening
from tests.support import InFolder, run

PLAN = """version = 4
[[unit]]
label = "ENGINE"
address = 0
name = { function = 3 }
[[unit]]
label = "SPREADER"
address = 60
name = { function = 130 }
[[group]]
label = "EEC1"
pgn = 61444
priority = 3
length = 8
[[group]]
label = "RATE"
pgn = 65266
priority = 6
length = 8
[[group]]
label = "SET"
pgn = 57344
priority = 6
length = 8
[[flow]]
group = "EEC1"
from = "ENGINE"
to = "all"
period = 100
[[flow]]
group = "RATE"
from = "SPREADER"
to = "all"
period = 100
[[flow]]
group = "SET"
from = "ENGINE"
to = "SPREADER"
period = 500
[[need]]
unit = "SPREADER"
group = "SET"
"""

SPARE, EVENTS = ("--may-be-absent", "SPREADER"), ("--events", "EEC1")


def drive(gap: float = 0) -> str:
    """The engine alone, for four seconds, with a gap in its midst, in seconds."""
    times = [10 + 0.1 * number + (gap if number > 20 else 0) for number in range(40)]
    return "(9.900000) can0 18EEFF00#0000000000030000\n" + "".join(f"({at:.6f}) can0 0CF00400#FFFFFFFFFFFFFFFF\n" for at in times)


class Expected(InFolder):
    def setUp(self) -> None:
        super().setUp()
        self.plan, self.log = self.write("plan.toml", PLAN), self.write("drive.log", drive())

    def test_a_unit_that_may_be_absent(self) -> None:
        """Neither it nor its flows and needs are missed; where it is there, all is told as without the option; others are missed as ever."""
        _, answer, _ = run("against.py", self.plan, self.log)
        self.assertIn("unit SPREADER: neither claimed an address nor sent anything", answer)
        self.assertEqual(run("against.py", self.plan, self.log, *SPARE), (0, "deviations 0\n", ""))
        there = self.write("there.log", drive() + "(14.000000) can0 18EEFF3C#0000000000820000\n")
        self.assertEqual(run("against.py", self.plan, there, *SPARE)[:2], run("against.py", self.plan, there)[:2])
        self.assertIn("never sent", run("against.py", self.plan, there, *SPARE)[1])
        away = self.write("away.log", "(14.000000) can0 18EEFF3C#0000000000820000\n(14.100000) can0 18FEF23C#FFFFFFFFFFFFFFFF\n")
        self.assertIn("unit ENGINE: neither claimed", run("against.py", self.plan, away, *SPARE)[1])
        status, answer, said = run("against.py", self.plan, self.log, "--may-be-absent", "SPRAYER")
        self.assertEqual((status, answer, said), (2, "", "against: no unit has the label SPRAYER; there are ENGINE, SPREADER\n"))

    def test_in_tables_of_logs(self) -> None:
        """The same of many logs, and of two: there also flows that are sent on events."""
        gaps = self.write("gaps.log", drive(0.9))
        _, answer, _ = run("fleet.py", "--json", self.plan, self.log, *SPARE)
        self.assertEqual([row["deviations"] for row in json.loads(answer)["logs"]], [0])
        words = ("--share", "50%", self.plan, self.log, gaps)  # the load differs
        self.assertIn("silent   flow 1, EEC1 from ENGINE to all: not sent for .. ms before", run("drift.py", *words, *SPARE)[1])
        status, answer, said = run("drift.py", *words, *SPARE, *EVENTS)
        self.assertEqual((answer.splitlines()[-1], said, status), ("differences 0", "", 0), answer)
        for tool, *logs in (("fleet.py", self.log), ("drift.py", self.log, gaps)):
            for option in ("--may-be-absent", "--events"):
                status, answer, said = run(tool, self.plan, *logs, option, "NONE")
                self.assertEqual((status, answer, said.count("\n"), "NONE" in said), (2, "", 1, True))

    def test_a_bus_of_a_vehicle(self) -> None:
        """The unit is named with its bus."""
        vehicle = self.write("v.toml", 'version = 1\n[[bus]]\nlabel = "P"\nplan = "plan.toml"\n[[bus]]\nlabel = "Q"\nplan = "plan.toml"\n')
        status, answer, _ = run("against.py", vehicle, f"P={self.log}", "--may-be-absent", "P.SPREADER")
        self.assertEqual((status, answer), (0, "bus P\ndeviations 0\ndeviations 0\n"))
        status, answer, said = run("against.py", vehicle, f"P={self.log}", *SPARE)
        self.assertEqual((status, answer, said.splitlines()[-1]), (2, "", "against: SPREADER: name the bus of the unit, as P.SPREADER"))


class Listening(unittest.TestCase):
    def test_a_scheduler_that_does_not_listen(self) -> None:
        """It is refused within seconds, where Dask would try for a minute; one that begins to is waited for."""
        with socket.socket() as taken:
            taken.bind(("127.0.0.1", 0))
            address = "{}:{}".format(*taken.getsockname())
            begin = time.monotonic()
            with self.assertRaises(program.Refused) as caught:
                refuse_unless_listening(address)
            self.assertLess(time.monotonic() - begin, 20)
            self.assertRegex(str(caught.exception), rf"^{address}: no scheduler listens there, within 5 s: .*refused")
            later = threading.Timer(1, taken.listen)
            later.start()
            refuse_unless_listening(f"tcp://{address}")
            later.join()


if __name__ == "__main__":
    unittest.main()
