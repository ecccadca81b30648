"""Planned units on a bench: by a bus of simulated time what they send has no deviation from the plan, and others can contest, ask and transfer; and
the command on buses of python-can."""

import heapq
import itertools
import json
import os
import signal
import subprocess
import sys
import time
import unittest
from collections import Counter
from fractions import Fraction
from typing import Any

from j39plan import program
from j39plan.bench.rest import Rest, Settings
from j39plan.bench.values import Values, Wrong
from j39plan.j1939 import pgn_in, source_in
from j39plan.plan.parts import source_in as text_source
from j39plan.plan.tables import Tables
from tests.support import TOOLS, InFolder, needs, plans, run, text_of

PLAN = """version = 4
[[unit]]
label = "ENGINE"
address = 0
name = { manufacturer = 310 }
[[unit]]
label = "SEAT"
address = 130
name = { manufacturer = 400, function = 60, arbitrary = true }
window = 2
[[unit]]
label = "TOOL"
address = 249
name = { manufacturer = 500, function = 129 }
[[group]]
label = "ET1"
pgn = 65262
priority = 6
length = 8
[[group.signal]]
label = "TEMPERATURE"
byte = 1
bits = 8
kind = "measured"
offset = -40
[[group.signal]]
label = "MODE"
byte = 2
bits = 4
kind = "states"
values = { 0 = "off", 3 = "fast" }
[[group]]
label = "VI"
pgn = 65260
priority = 6
length = 18
[[group]]
label = "SETTINGS"
pgn = 56320
priority = 6
length = 30
[[flow]]
group = "ET1"
from = "ENGINE"
to = "all"
period = 100
[[flow]]
group = "VI"
from = "ENGINE"
to = "TOOL"
on_request = true
[[flow]]
group = "SETTINGS"
from = "TOOL"
to = "SEAT"
period = 1000
[[request]]
group = "VI"
from = "TOOL"
to = "ENGINE"
period = 2000
"""


def name(identity: int, manufacturer: int, function: int, arbitrary: bool) -> bytes:
    """The bytes of a NAME."""
    return (identity | manufacturer << 21 | function << 40 | int(arbitrary) << 63).to_bytes(8, "little")


class Bench:
    """A bus of simulated time: what the units send, and what others send at set times."""

    def __init__(self, plan: str, *, without: tuple[str, ...] = (), period: int | None = None) -> None:
        self.tables, self.values = Tables.of(plan), Values(Tables.of(plan))
        self.lines: list[tuple[float, int, bytes]] = []
        self.rest = Rest(self.tables, text_source(plan).kept, Settings(frozenset(without), 1, period), self.values, self._put)
        self._others, self._number, self._free = list[tuple[float, int, int, bytes]](), itertools.count(), 0.0

    def _put(self, identifier: int, data: bytes) -> None:
        """A frame of the units: the bus takes one after another."""
        self._free = max(self.rest.agenda.now, self._free + 0.0006)
        self.lines.append((self._free, identifier, data))

    def other(self, at: float, identifier: int, data: bytes) -> None:
        """Somebody else sends a frame at a time."""
        heapq.heappush(self._others, (at, next(self._number), identifier, data))

    def runs(self, seconds: float) -> None:
        """Time goes by, and the units stop."""
        self.rest.begin(0.0)
        while True:
            due = self.rest.agenda.due
            if self._others and (due is None or self._others[0][0] <= due):
                at, _, identifier, data = heapq.heappop(self._others)
                self.lines.append((at, identifier, data))
                self.rest.heard(at, identifier, data)
            elif due is None or due > seconds and self.rest.transport.is_idle:
                break
            else:
                if due > seconds:
                    self.rest.ends()
                self.rest.agenda.wake(due)
        self.rest.stop()
        while self.rest.agenda.due is not None:
            self.rest.agenda.wake(self.rest.agenda.due)

    def log(self) -> str:
        """The log of the bus."""
        return "".join(f"({at + 1000:.6f}) can0 {identifier:08X}#{data.hex().upper()}\n" for at, identifier, data in sorted(self.lines, key=lambda line: line[0]))

    def of(self, pgn: int, source: int | None = None) -> list[tuple[float, bytes]]:
        """The frames of a group, of all or of one address."""
        return [(at, data) for at, identifier, data in self.lines if pgn_in(identifier) == pgn and source in (None, source_in(identifier))]


class Simulated(InFolder):
    def bench(self, text: str = PLAN, **more: tuple[str, ...]) -> Bench:
        return Bench(self.write("plan.toml", text), **more)  # type: ignore[arg-type]

    def deviations(self, bench: Bench, *words: str) -> list[str]:
        """The deviations of the bus from its plan, but for how many claims come at once as the units come up."""
        _, answer, _ = run("against.py", *words, self.path("plan.toml"), self.write("bench.log", bench.log()))
        return [line for line in answer.splitlines()[:-1] if "frames that no flow has" not in line]

    def test_all_units(self) -> None:
        """Claims, a flow in its period, requests with their answers, and sessions of two units here: as the plan has them, and addresses are given back."""
        bench = self.bench()
        bench.runs(10)
        self.assertEqual(self.deviations(bench, "--jitter", "2"), [])
        rows = bench.rest.rows()
        self.assertEqual(([flow["not_sent"] for flow in rows["flows"]], rows["long"]["given_up"], rows["answered"]), ([0, 0, 0], 0, 4))
        self.assertEqual(rows["long"]["sent"], rows["flows"][1]["sent"] + rows["flows"][2]["sent"])
        self.assertEqual(rows["long"]["received"], rows["long"]["sent"])
        self.assertTrue(94 <= rows["flows"][0]["sent"] <= 97)
        cleared = [data[1] for _, data in bench.of(60416, 130) if data[0] == 17]
        self.assertEqual(set(cleared), {1, 2})  # 5 packets by a window of 2
        given_back = [data for _, data in bench.of(60928, 254)]
        self.assertEqual(len(given_back), 3)

    def test_examples(self) -> None:
        """Of the plans of the examples that have no findings, with all units: no deviation."""
        for plan in plans():
            if program.call(["check", "--", plan])[0] == 0 and (tables := Tables.of(plan)).flows:
                with self.subTest(plan=os.path.basename(plan)):
                    self.write("plan.toml", text_of(plan))
                    bench = Bench(plan, period=500)
                    bench.runs(12)
                    events = {flow.group for flow in tables.flows if flow.on_request}
                    self.assertEqual([line for line in self.deviations(bench, "--jitter", "2") if not any(f" {group} " in line for group in events)], [])

    def test_without_a_unit(self) -> None:
        """It isn't played: it sends nothing, and long messages to it wait until it is there."""
        bench = self.bench(without=("SEAT",))
        bench.runs(5)
        self.assertEqual((bench.of(60928, 130), [data for _, data in bench.of(60416, 249) if data[5:] == b"\x00\xdc\x00"]), ([], []))
        self.assertEqual(self.deviations(bench, "--jitter", "2"), [f"{self.path('plan.toml')}: unit SEAT: neither claimed an address nor sent anything"])

    def test_a_unit_that_gives_its_address_back(self) -> None:
        """Nothing is sent to it then."""
        bench = self.bench(PLAN.replace("length = 30", "length = 8"), without=("SEAT",))
        bench.other(0.1, 0x18EEFF82, name(5, 400, 60, True))
        bench.other(2.5, 0x18EEFFFE, name(5, 400, 60, True))
        bench.runs(6)
        times = [at for at, _ in bench.of(56320)]
        self.assertTrue(times and max(times) < 2.5, times)
        self.assertGreaterEqual(bench.rest.rows()["flows"][2]["not_sent"], 2)

    def test_defence(self) -> None:
        """A larger NAME that claims the engine's address hears its claim again; the engine sends on."""
        bench = self.bench()
        bench.other(2.0, 0x18EEFF00, name(9, 311, 0, True))
        bench.other(2.05, 0x18EEFF81, name(9, 311, 0, True))
        bench.runs(4)
        self.assertEqual([data for at, data in bench.of(60928, 0) if at >= 2.0], [name(9, 311, 0, True), name(1, 310, 0, False)])
        self.assertEqual(bench.rest.claims.defences, 1)

    def test_move(self) -> None:
        """A smaller NAME takes the seat's address: the seat claims the lowest free one, waits 250 ms, and is sent to there."""
        bench = self.bench()
        bench.other(1.9, 0x18EEFF80, name(7, 900, 9, False))
        bench.other(2.0, 0x18EEFF82, name(8, 900, 9, False))
        bench.runs(6)
        moved = [at for at, data in bench.of(60928, 129) if data == name(2, 400, 60, True)]
        self.assertEqual((len(moved), bench.of(60928, 128)[0][1]), (1, name(7, 900, 9, False)))
        self.assertTrue(moved[0] - 2.0 < 0.01)
        self.assertEqual([at for at, _ in bench.of(60416, 129) if at < moved[0] + 0.25], [])
        self.assertTrue([data for at, data in bench.of(60416, 129) if data[0] == 19])

    def test_cannot_claim(self) -> None:
        """A fixed unit that loses its address says so and is silent."""
        bench = self.bench()
        bench.other(2.0, 0x18EEFF00, name(0, 1, 0, False))
        bench.runs(4)
        said = [at for at, data in bench.of(60928, 254) if data == name(1, 310, 0, False)]
        self.assertTrue(2.0 <= said[0] <= 2.2)
        self.assertEqual([at for at, _ in bench.of(65262) if at > 2.001], [])

    def test_answers(self) -> None:
        """A request to one unit is answered or refused, one to all isn't refused; claims are answered."""
        bench = self.bench()
        bench.other(1.0, 0x18EA00FA, b"\xdd\xfe\x00")  # of nobody's
        bench.other(1.2, 0x18EAFFFA, b"\xdd\xfe\x00")
        bench.other(1.4, 0x18EA00FA, b"\xee\xfe\x00")  # ET1, which comes within 100 ms
        bench.other(1.6, 0x18EAFFFA, b"\x00\xee\x00")
        bench.runs(3)
        refused = bench.of(59392)
        self.assertEqual([data for _, data in refused], [bytes((1, 255, 255, 255, 250, 0xDD, 0xFE, 0))])
        self.assertTrue(1.0 < refused[0][0] < 1.2)
        self.assertEqual(Counter(data for at, data in bench.of(60928) if 1.6 <= at < 1.7).total(), 3)
        distances = [later - earlier for (earlier, _), (later, _) in zip(bench.of(65262), bench.of(65262)[1:])]
        self.assertTrue(min(distances) >= 0.1)

    def test_transfer_from_another(self) -> None:
        """Another program asks to send 9 bytes to the seat: it clears, has the packets and says so; a wrong packet is given up."""
        bench = self.bench()
        bench.other(1.0, 0x18EC8205, bytes((16, 9, 0, 2, 255, 0x00, 0xDC, 0)))
        bench.other(1.1, 0x18EB8205, bytes((1,)) + b"1234567")
        bench.other(1.2, 0x18EB8205, bytes((2,)) + b"89\xff\xff\xff\xff\xff")
        bench.other(2.0, 0x18EC8205, bytes((16, 9, 0, 2, 255, 0x00, 0xDC, 0)))
        bench.other(2.1, 0x18EB8205, bytes((2,)) + b"1234567")
        bench.runs(3)
        said = [(round(at, 1), data[:5]) for at, identifier, data in bench.lines if identifier == 0x1CEC0582]
        self.assertEqual(said, [(1.0, bytes((17, 2, 1, 255, 255))), (1.2, bytes((19, 9, 0, 2, 255))), (2.0, bytes((17, 2, 1, 255, 255))),
                                (2.1, bytes((255, 7, 255, 255, 255)))])

    def test_nobody_answers(self) -> None:
        """A session with a unit that is there and doesn't answer is given up after 1,250 ms."""
        bench = self.bench(without=("SEAT",))
        bench.other(0.1, 0x18EEFF82, name(5, 400, 60, True))
        bench.runs(3)
        asked = [at for at, data in bench.of(60416, 249) if data[0] == 16]
        given_up = [at for at, data in bench.of(60416, 249) if data[0] == 255]
        self.assertTrue(abs(given_up[0] - asked[0] - 1.25) < 0.01)
        self.assertEqual(bench.rest.transport.tally.given_up, len(given_up))


    def test_an_acknowledgement_of_what_was_not_sent(self) -> None:
        """It ends a message, which counts as given up."""
        bench = self.bench(without=("SEAT",))
        bench.other(0.1, 0x18EEFF82, name(5, 400, 60, True))
        bench.other(1.45, 0x18ECF982, bytes((19, 30, 0, 5, 255, 0x00, 0xDC, 0)))  # announced between 0.4 and 1.4 s, and waited for 1.25 s
        bench.runs(1.5)
        self.assertEqual((bench.rest.transport.tally.sent, bench.rest.transport.tally.given_up), (0, 1))

    def test_a_packet_that_is_too_short(self) -> None:
        """It isn't taken: the message goes on by a whole one."""
        bench = self.bench()
        bench.other(1.0, 0x18EC8205, bytes((16, 9, 0, 2, 255, 0x00, 0xDC, 0)))
        bench.other(1.1, 0x18EB8205, bytes((1,)) + b"123")
        bench.other(1.2, 0x18EB8205, bytes((1,)) + b"1234567")
        bench.other(1.3, 0x18EB8205, bytes((2,)) + b"89\xff\xff\xff\xff\xff")
        bench.runs(3)
        self.assertEqual([(round(at, 1), data[0]) for at, identifier, data in bench.lines if identifier == 0x1CEC0582], [(1.0, 17), (1.3, 19)])

    def test_a_session_of_somebody_else(self) -> None:
        """With an address that is spared no unit here begins a session or takes one up, nor asks it; one agenda is enough for all."""
        bench = self.bench(without=("ENGINE",))
        bench.rest.transport.spared = frozenset((0, 130))
        bench.other(0.1, 0x18EEFF00, name(1, 310, 0, False))
        bench.other(1.0, 0x18EC8200, bytes((16, 9, 0, 2, 255, 0x00, 0xDC, 0)))
        bench.runs(5)
        self.assertEqual((bench.of(60416, 130), bench.of(60416, 249), [data for _, data in bench.of(59904, 249)]), ([], [], []))
        self.assertIs(Rest(bench.tables, [], Settings(), bench.values, bench._put, bench.rest.agenda).agenda, bench.rest.agenda)


class Carried(InFolder):
    def values(self) -> Values:
        return Values(Tables.of(self.write("plan.toml", PLAN)))

    def test_nothing_is_given(self) -> None:
        self.assertEqual(self.values().data("ET1", "ENGINE", 0.0), b"\xff" * 8)

    def test_constant_and_name(self) -> None:
        values = self.values()
        values.constant("ET1.TEMPERATURE=85")
        values.constant("MODE=fast")
        self.assertEqual(values.data("ET1", "ENGINE", 0.0), bytes((125, 0xF3)) + b"\xff" * 6)

    def test_ramp(self) -> None:
        values = self.values()
        values.ramp("TEMPERATURE=0:100:10")
        self.assertEqual([values.data("ET1", "ENGINE", at)[0] for at in (0.0, 2.5, 9.9, 10.0)], [40, 65, 139, 40])

    def test_table(self) -> None:
        values = self.values()
        values.table(["seconds,TEMPERATURE,ET1.MODE\n", "0,20,off\n", "2,,3\n", "4,30,\n"])
        self.assertEqual([values.data("ET1", "ENGINE", at)[:2].hex() for at in (1.0, 2.0, 5.0)], ["3cf0", "3cf3", "46f3"])

    def test_recorded(self) -> None:
        values = self.values()
        values.record(("ET1", "ENGINE"), 0.0, b"\x01" * 8)
        values.record(("ET1", "ENGINE"), 5.0, b"\x02" * 8)
        values.constant("TEMPERATURE=0")
        self.assertEqual([values.data("ET1", "ENGINE", at).hex() for at in (1.0, 5.0)], ["28" + "01" * 7, "28" + "02" * 7])

    def test_wrong(self) -> None:
        for text, why in (("TEMPERATURE=300", "TEMPERATURE goes from -40 to 210"), ("NONE=1", "no signal is called so"), ("MODE=quick", "no number and no name")):
            with self.assertRaisesRegex(Wrong, why):
                self.values().constant(text)
        with self.assertRaisesRegex(Wrong, "row 2: TEMPERATURE goes"):
            self.values().table(["s,TEMPERATURE\n", "0,999\n"])
        with self.assertRaisesRegex(Wrong, "is no ramp"):
            self.values().ramp("TEMPERATURE=1:2")
        self.assertEqual(self.values().signal("TEMPERATURE")[1].value(40), Fraction(0))


# So long is waited for the first frame of another process, in seconds.
PATIENCE = 60


class Seat:
    """SEAT at 130, on a bus of python-can, by its frames alone."""

    NAME = name(77, 400, 60, True)

    def __init__(self, channel: str) -> None:
        import can

        self._can, self._bus = can, can.Bus(interface="udp_multicast", channel=channel, port=43113)
        self.whole: list[bytes] = []  # the messages that came whole
        self.claimed: set[int] = set()
        self.defended = self.refused = 0
        self._is_contested = False
        self._size, self._parts = 0, dict[int, bytes]()

    def _send(self, identifier: int, *data: int) -> None:
        self._bus.send(self._can.Message(arbitration_id=identifier, data=bytes(data), is_extended_id=True))

    def plays(self, seconds: float) -> None:
        """Once somebody is there, claims, asks all for their claims, then contests ENGINE's address, and asks it for what it hasn't; and takes what it is
        sent."""
        self._bus.recv(PATIENCE)
        begin, todo = time.monotonic(), [
            (1.0, 0x18EEFF82, self.NAME), (1.3, 0x18EAFF82, b"\x00\xee\x00"), (4.0, 0x18EEFF00, name(9, 311, 0, True)), (5.0, 0x18EA0082, b"\xdd\xfe\x00")]
        while time.monotonic() < begin + seconds:
            if todo and time.monotonic() > begin + todo[0][0]:
                _, identifier, data = todo.pop(0)
                self._is_contested = self._is_contested or identifier == 0x18EEFF00
                self._send(identifier, *data)
            if (message := self._bus.recv(0.02)) is not None:
                self._hears(message.arbitration_id, bytes(message.data))
        self._bus.shutdown()

    def _hears(self, identifier: int, data: bytes) -> None:
        group, source = identifier >> 8 & 0x1FFFF, identifier & 0xFF
        if group == 0xEEFF and source != 130:
            self.claimed.add(source)
            self.defended += self._is_contested and (source, data) == (0, name(1, 310, 0, False))
        elif group == 0xE8FF and source == 0 and data == bytes((1, 255, 255, 255, 130, 0xDD, 0xFE, 0)):
            self.refused += 1
        elif group == 0xEC82 and source == 249 and data[0] == 16:  # a request to send: two packets at a time
            self._size, self._parts = data[1] | data[2] << 8, {}
            self._send(0x1CECF982, 17, 2, 1, 255, 255, *data[5:])
        elif group == 0xEB82 and source == 249 and self._size:
            self._parts[data[0]] = data[1:]
            came, count = len(self._parts), -(-self._size // 7)
            if came == count:
                self.whole.append(b"".join(self._parts[number] for number in range(1, count + 1))[:self._size])
                self._send(0x1CECF982, 19, self._size & 255, self._size >> 8, count, 255, 0x00, 0xDC, 0)
                self._size = 0
            elif came % 2 == 0:
                self._send(0x1CECF982, 17, min(2, count - came), came + 1, 255, 255, 0x00, 0xDC, 0)


@needs("can", "python3-can")
class OnBuses(InFolder):
    def test_virtual(self) -> None:
        """Its own log has no deviation but those of the timers of a machine that does other things too; the page of counts agrees with it."""
        plan, log = self.write("plan.toml", PLAN), self.path("bench.log")
        status, answer, said = run("restbus.py", plan, "--interface", "virtual", "--channel", "x", "--seconds", "4", "--log", log, "--json", "--value", "ET1.TEMPERATURE=85")
        self.assertEqual(status, 0, said)
        row = json.loads(answer)
        self.assertEqual((row["frames_sent"], row["frames_lost"]), (text_of(log).count("\n"), 0))
        self.assertIn("18FEEE00#7D", text_of(log))
        self.assertEqual(run("against.py", "--jitter", "80", plan, log)[1], "deviations 0\n")

    def test_two_programs(self) -> None:
        """Two of them, each with some of the units, on a bus of UDP: they hear each other, and each log has all of the bus."""
        plan = self.write("plan.toml", PLAN)
        words = [sys.executable, os.path.join(TOOLS, "restbus.py"), plan, "--interface", "udp_multicast", "--channel", "239.74.163.39", "--json"]
        environment = {**os.environ, "J39PLAN": program.path()}
        first = subprocess.Popen([*words, "--without", "TOOL", "--log", self.path("one.log")], env=environment, stdout=subprocess.PIPE, stderr=subprocess.PIPE, text=True)
        second = subprocess.Popen([*words, "--without", "ENGINE", "--without", "SEAT", "--seconds", "7"], env=environment, stdout=subprocess.PIPE, stderr=subprocess.PIPE,
                                  text=True)
        answer, said = second.communicate(timeout=60)
        time.sleep(0.3)
        first.send_signal(signal.SIGINT)
        other, why = first.communicate(timeout=60)
        if "udp" in why and first.returncode == 4:
            self.skipTest("this machine has no multicast")
        self.assertEqual((first.returncode, second.returncode), (0, 0), why + said)
        one, two = json.loads(other), json.loads(answer)
        self.assertTrue(one["answered"] >= 1 and two["flows"][0]["sent"] >= 1, (one, two))
        self.assertEqual((one["long"]["given_up"], two["long"]["given_up"]), (0, 0))
        self.assertEqual(run("against.py", "--jitter", "80", plan, self.path("one.log"))[1], "deviations 0\n")

    def test_another_program(self) -> None:
        """SEAT is played by frames that are written here byte by byte after SAE J1939-21 and -81, over python-can alone: the units claim and defend, send to it
        in sessions of two packets, answer its requests or refuse them; the log of the bus has no deviation but the claim by which ENGINE is contested. On a
        busy machine times run out: then it is played again."""
        plan = self.write("plan.toml", PLAN)
        for _ in range(3):
            row, seat = self.with_seat(plan)
            if row["long"]["given_up"] == 0:
                break
        self.assertGreaterEqual(len(seat.whole), 2)
        self.assertEqual(set(seat.whole), {b"\xff" * 30})
        self.assertEqual((seat.defended, seat.refused, seat.claimed >= {0, 249}), (1, 1, True))
        self.assertEqual((row["long"]["given_up"], row["flows"][2]["sent"]), (0, len(seat.whole)))
        lines = run("against.py", "--jitter", "80", plan, self.path("bench.log"))[1].splitlines()
        self.assertEqual([line.partition(") ")[2] for line in lines[:-1]], [
            "NAME 8000000026E00009 (identity 9, manufacturer 311, function 0) claims address 0: no unit has it",
            "request for PGN 65245 by SEAT to ENGINE, which the plan doesn't have: is refused"])

    def with_seat(self, plan: str) -> tuple[dict[str, Any], Seat]:
        """What the planned units but SEAT have sent and heard, and SEAT, which is played for 8 s."""
        channel = "239.74.163.40"
        words = [sys.executable, os.path.join(TOOLS, "restbus.py"), plan, "--interface", "udp_multicast", "--channel", channel, "--without", "SEAT", "--json", "--log", self.path("bench.log")]
        played = subprocess.Popen(words, env={**os.environ, "J39PLAN": program.path()}, stdout=subprocess.PIPE, stderr=subprocess.PIPE, text=True)
        try:
            seat = Seat(channel)
            seat.plays(8.0)
        except OSError:
            self.skipTest("this machine has no multicast")
        finally:
            played.send_signal(signal.SIGINT)
            answer, said = played.communicate(timeout=60)
        if "udp" in said and played.returncode == 4:
            self.skipTest("this machine has no multicast")
        self.assertEqual(played.returncode, 0, said)
        row: dict[str, Any] = json.loads(answer)
        return row, seat

    def test_what_is_refused(self) -> None:
        plan = self.write("plan.toml", PLAN)
        bus = ("--interface", "virtual", "--channel", "x", "--seconds", "1")
        self.assertEqual(run("restbus.py", plan, *bus, "--without", "NONE")[::2], (2, "restbus: --without NONE: no unit is called NONE\n"))
        self.assertEqual(run("restbus.py", plan, *bus, "--value", "TEMPERATURE=999")[::2], (2, "restbus: TEMPERATURE goes from -40 to 210\n"))
        self.assertEqual(run("restbus.py", plan, "--interface", "none", "--channel", "x")[0], 4)
        self.assertEqual(run("restbus.py", plan, *bus, "--replay", plan)[0], 2)


if __name__ == "__main__":
    unittest.main()
