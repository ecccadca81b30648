"""Logs of a vehicle's buses against its plans: a log of each bus, or one of several interfaces."""

import json
import unittest

from tests.support import run
from tests.vehicles import P, V, OfVehicles, swapped

# How many messages there are on each bus, and which one of the gateway's another address sends.
COUNT, STRANGE = 30, 20


def lines() -> list[str]:
    """The lines of a drive: the engine's speed on the one bus, and 4 ms later on the other one."""
    found = []
    for number in range(COUNT):
        time = 1764230400 + number / 100
        found.append(f"({time:.6f}) can0 0CF00400#FFFFFF{number:02X}19FFFFFF")
        found.append(f"({time + 0.004:.6f}) can1 0CF004{'29' if number == STRANGE else '27'}#FFFFFF{number:02X}19FFFFFF")
    return found


class Logs(OfVehicles):
    def setUp(self) -> None:
        super().setUp()
        self.vehicle()
        self.write("drive.log", "".join(f"{line}\n" for line in lines()))
        for bus, interface in (("p", "can0"), ("b", "can1")):
            self.write(f"{bus}.log", "".join(f"{line}\n" for line in lines() if interface in line))

    def compared(self, tool: str, *words: str) -> tuple[int, list[str], list[str]]:
        """What a tool writes of the vehicle, without the folder, and what it says."""
        status, answer, said = run(f"{tool}.py", self.path("v.toml"), *words)
        written, said = (text.replace(self.folder + "/", "") for text in (answer, said))
        return status, written.splitlines(), said.splitlines()

    def alone(self, tool: str, plan: str, *words: str) -> list[str]:
        """What a tool writes of the plan of a bus."""
        return run(f"{tool}.py", self.path(plan), *words)[1].replace(self.folder + "/", "").splitlines()


class Against(Logs):
    def test_a_log_of_each_bus(self) -> None:
        """Below the label of each bus is what is said of its plan, and all are counted."""
        status, lines_told, said = self.compared("against", f"P={self.path('p.log')}", f"B={self.path('b.log')}")
        p, b = self.alone("against", "p.toml", self.path("p.log")), self.alone("against", "b.toml", self.path("b.log"))
        self.assertEqual((p[-1], b[-1]), ("deviations 1", "deviations 3"))
        self.assertEqual((status, lines_told, said), (1, ["bus P", *p, "bus B", *b, "deviations 4"], []))
        self.assertIn("b.log:21: (1764230400.204000) address 41 sends EEC1, a planned group: no unit has it", lines_told)

    def test_a_log_of_several_interfaces(self) -> None:
        """The same, with the lines of the whole log."""
        status, told, said = self.compared("against", self.path("drive.log"), "--bus", "can0=P", "--bus", "can1=B")
        p = self.alone("against", "p.toml", "--interface", "can0", self.path("drive.log"))
        b = self.alone("against", "b.toml", "--interface", "can1", self.path("drive.log"))
        self.assertEqual((status, told), (1, ["bus P", *p, "bus B", *b, "deviations 4"]))
        self.assertEqual(said, [f"against: {one} is read, as asked for; 30 lines of {other} are passed over" for one, other in (("can0", "can1"), ("can1", "can0"))])
        self.assertIn("drive.log:42: (1764230400.204000) address 41 sends EEC1, a planned group: no unit has it", told)

    def test_logs_of_both_kinds(self) -> None:
        _, told, _ = self.compared("against", f"P={self.path('p.log')}", self.path("drive.log"), "--bus", "can1=B")
        self.assertEqual([line for line in told if line.startswith("bus ")], ["bus P", "bus B"])
        self.assertEqual(told[-1], "deviations 4")

    def test_a_bus_without_a_log(self) -> None:
        status, told, said = self.compared("against", f"B={self.path('b.log')}")
        self.assertEqual((status, told[0], told[-1], said), (1, "bus B", "deviations 3", ["against: bus P: no log is of it"]))

    def test_no_deviation(self) -> None:
        """A log in which both units of a bus are heard."""
        log = self.path("p.log")
        with open(log, "a", encoding="utf-8") as file:
            file.write("(1764230400.300000) can0 18EEFF27#0000000000010000\n")
        self.assertEqual(self.compared("against", f"P={log}")[:2], (0, ["bus P", "deviations 0", "deviations 0"]))

    def test_json(self) -> None:
        _, told, _ = self.compared("against", "--json", f"P={self.path('p.log')}", f"B={self.path('b.log')}")
        rows = [json.loads(line) for line in told]
        self.assertEqual([row for row in rows if "bus" in row], [{"bus": "P", "plan": "p.toml"}, {"bus": "B", "plan": "b.toml"}])
        self.assertEqual((rows[-1], [row["deviations"] for row in rows[:-1] if "deviations" in row]), ({"vehicle": "v.toml", "deviations": 4}, [1, 3]))

    def test_events_of_a_bus(self) -> None:
        """A flow is named with its bus."""
        self.write("p.toml", swapped(P, ("pause = 20\n", "")))
        with open(self.path("p.log"), "a", encoding="utf-8") as file:
            file.write("(1764230401.000000) can0 0CF00400#FFFFFF0019FFFFFF\n")
        log = f"P={self.path('p.log')}"
        for events, count in (("P.EEC1", 0), ("P.1", 0), ("B.EEC1", 1)):
            self.assertEqual(sum("not sent for" in line for line in self.compared("against", "--events", events, log)[1]), count, events)
        self.assertEqual(self.compared("against", "--events", "EEC1", log)[0::2], (2, ["against: bus B: no log is of it", "against: EEC1: name the bus of the flow, as P.EEC1"]))

    def test_what_is_refused(self) -> None:
        log = self.path("drive.log")
        for words, said in (
            ((log,), "drive.log: name its bus, as P=drive.log, or the bus of each interface by --bus"),
            ((f"X={log}",), "v.toml: no bus is called X"),
            ((log, "--bus", "can0=X"), "v.toml: no bus is called X"),
            ((f"P={log}", "--bus", "can1=B"), "--bus is of logs that aren't of one bus alone, and there is none"),
            ((f"P={log}", log, "--bus", "can1=P"), "bus P has a log of its own, drive.log, and an interface of the others"),
            (("/dev/stdin", "--bus", "can1=P"), "/dev/stdin: only a regular file can be read for several buses"),
        ):
            self.assertEqual(self.compared("against", *words), (2, [], [f"against: {said}"]))
        self.assertEqual(run("against.py", self.path("p.toml"), log, "--bus", "can0=P"),
                         (2, "", f"against: {self.path('p.toml')}: it is no vehicle, of which --bus names the buses\n"))
        self.assertEqual(self.compared("against", log, "--bus", "can0")[0], 2)
        self.write("v.toml", swapped(V, ("within = 5\n", "within = 0\n")))
        self.assertEqual(self.compared("against", f"P={log}"), (2, [], ["against: v.toml:15: refused Range forward 1 key within  (within = 0: integer 1..65535)"]))


class FleetOfVehicles(Logs):
    def test_the_tables_of_each_bus(self) -> None:
        status, told, _ = self.compared("fleet", self.path("drive.log"), "--bus", "can0=P", "--bus", "can1=B")
        p = self.alone("fleet", "p.toml", "--interface", "can0", self.path("drive.log"))
        b = self.alone("fleet", "b.toml", "--interface", "can1", self.path("drive.log"))
        self.assertEqual((status, told), (1, ["bus P", *p, "bus B", *b]))

    def test_json(self) -> None:
        told = json.loads(run("fleet.py", self.path("v.toml"), "--json", f"P={self.path('p.log')}")[1])
        self.assertEqual(told, {"vehicle": self.path("v.toml"), "buses": {"P": json.loads(run("fleet.py", self.path("p.toml"), "--json", self.path("p.log"))[1])}})


if __name__ == "__main__":
    unittest.main()
