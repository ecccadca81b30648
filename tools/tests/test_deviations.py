"""What `against` reports of units, their addresses, the bus and the log, and in which forms: each in exact words, and nothing of healthy units."""

import contextlib
import io
import json
import math
import os
import signal
import subprocess
import sys
import time
from collections.abc import Sequence

from j39plan import program
from j39plan.log.checks.feed import Feed
from j39plan.plan.tables import Tables
from tests.support import TOOLS, InFolder, run, there, without_times

# Two units that may choose from 128 on, one that is fixed; HITCH sends each 5 s, EBC1 each 100 ms.
PLAN = """version = 4
[[unit]]
label = "HITCH"
address = 128
name = { identity = 2, arbitrary = true }
[[unit]]
label = "SPRAYER"
address = 140
name = { identity = 3, arbitrary = true }
[[unit]]
label = "BRAKES"
address = 11
name = { identity = 4 }
[[group]]
label = "HSTAT"
pgn = 65300
priority = 6
length = 8
private = true
[[group]]
label = "EBC1"
pgn = 61441
priority = 6
length = 8
[[group]]
label = "VI"
pgn = 65260
priority = 6
length = 17
[[flow]]
group = "HSTAT"
from = "HITCH"
to = "all"
period = 5000
[[flow]]
group = "EBC1"
from = "BRAKES"
to = "all"
period = 100
[[flow]]
group = "VI"
from = "BRAKES"
to = "HITCH"
"""

# SPRAYER may have to move there, and HITCH, of the smaller NAME, stays.
BOTH_AT_128 = PLAN.replace("address = 140", "address = 128")

HITCH, SPRAYER, BRAKES = "18EEFF80#0200000000000080", "18EEFF8C#0300000000000080", "18EEFF0B#0400000000000000"
SPRAYER_AT_128, FOREIGN_AT_128 = "18EEFF80#0300000000000080", "18EEFF80#0100000000000080"
HSTAT, EBC1 = "18FF1480#0000000000000000", "18F0010B#FFFFFFFFFFFFFFFF"

# A long message from BRAKES to HITCH: its announcement, a clear to send of all, its packets, the acknowledgement.
RTS, CLEAR, WHOLE = "1CEC800B#10110003FFECFE00", "1CEC0B80#110301FFFFECFE00", "1CEC0B80#13110003FFECFE00"
PACKETS = [f"1CEB800B#0{number}AAAAAAAAAAAAAA" for number in (1, 2, 3)]

# So long is waited for what is to come, in seconds.
PATIENCE = 120


def lines_of(*log: tuple[float, str]) -> str:
    """A log of times and frames."""
    return "".join(f"({at:.6f}) can0 {frame}\n" for at, frame in sorted(log, key=lambda line: line[0]))


def brakes(begin: float, end: float) -> list[tuple[float, str]]:
    """EBC1 each 100 ms."""
    return [(begin + number / 10, EBC1) for number in range(round((end - begin) * 10))]


class Deviations(InFolder):
    def told(self, *log: tuple[float, str], plan: str = PLAN, words: Sequence[str] = ("--silence", "0")) -> list[str]:
        """The deviations of a log of these times and frames, but for what was never sent and who isn't there."""
        return self.told_of(lines_of(*log), plan, words)

    def told_of(self, log: str, plan: str = PLAN, words: Sequence[str] = ("--silence", "0")) -> list[str]:
        """The same of a log as it stands."""
        name = self.write("drive.log", log)
        _, answer, self.said = run("against.py", *words, self.write("plan.toml", plan), name)
        return [line.replace(name, "L") for line in without_times(answer).splitlines()[:-1] if line.startswith((name, "  "))]


class Units(Deviations):
    def test_a_unit_that_defends_its_address(self) -> None:
        """A larger NAME claims 128, HITCH claims it again and sends at once, though it was heard last 5 s ago: it did nothing wrong."""
        begin = [(1, HITCH), (5, HSTAT), (9.9, SPRAYER_AT_128)]
        self.assertEqual(self.told(*begin, (9.905, HITCH), (10, HSTAT), plan=BOTH_AT_128), [])

    def test_a_slow_unit_that_does_not_defend_its_address(self) -> None:
        begin = [(1, HITCH), (5, HSTAT), (9.9, SPRAYER_AT_128), (10.2, HITCH.replace("EEFF80", "EEFF81"))]
        self.assertEqual(self.told(*begin, plan=BOTH_AT_128), ["L:3: SPRAYER claims address 128, and HITCH doesn't defend it, whose NAME is smaller",
                                                               "L:4: HITCH claims address 129, planned is 128, where it stays"])

    def test_a_unit_that_moves_waits_again(self) -> None:
        """SPRAYER claims 141 since HITCH defends 128, or moves while it sends: for 250 ms from then on it is to send nothing."""
        asks, moves = "18EAFF8D#ECFE00", SPRAYER.replace("EEFF8C", "EEFF8D")
        lost = [(1, HITCH), (9.8, HSTAT), (9.9, SPRAYER_AT_128), (9.905, HITCH)]
        early = "SPRAYER sends before 250 ms have passed after its claim of address 141"
        self.assertEqual(self.told(*lost, (9.91, moves), (10.159, asks), plan=BOTH_AT_128), [f"L:6: {early}"])
        self.assertEqual(self.told(*lost, (9.91, moves), (10.16, asks), plan=BOTH_AT_128), [])
        self.assertEqual(self.told((1, SPRAYER), (9.8, asks.replace("8D#", "8C#")), (9.9, moves), (10.1, asks), plan=BOTH_AT_128), [f"L:4: {early}"])

    def test_a_frame_that_was_queued_before_a_move(self) -> None:
        """HITCH takes 128 from SPRAYER, which moves to 141: what leaves 128 up to 50 ms later may be SPRAYER's; 60 ms later it is HITCH's."""
        asks, moves = "18EAFF80#ECFE00", SPRAYER.replace("EEFF8C", "EEFF8D")
        begin = [(1, SPRAYER_AT_128), (9.8, asks), (9.9, HITCH), (9.91, moves)]
        for at, early in ((9.917, []), (9.96, []), (9.961, ["L:5: HITCH sends before 250 ms have passed after its claim of address 128"])):
            found = self.told(*begin, (at, asks), plan=BOTH_AT_128)
            self.assertEqual([line for line in found if "before 250 ms" in line], early)

    def test_a_restart(self) -> None:
        """A claim of an address that its unit holds, more than 1,250 ms after a request; a repeated one 100 ms later is of the same start."""
        text = "HITCH claims address 128, which it holds, and nobody asked: has it restarted?"
        self.assertEqual(self.told((1, HITCH), (5, HITCH), (5.1, HITCH), (9, HITCH)), [f"L:2: {text} (not heard for 4000 ms before)  (2 times)"])
        self.assertEqual(self.told((1, HITCH), (4, "18EAFFFE#00EE00"), (5.25, HITCH)), [])
        self.assertEqual(self.told((1, HITCH), (4, "18EAFFFE#00EE00"), (5.251, HITCH)), [f"L:3: {text} (not heard for 4251 ms before)"])

    def test_a_name_that_displaces_a_unit(self) -> None:
        """HITCH moves, can't, or does nothing though it is on; where it defends the address it isn't displaced."""
        begin = [(1, HITCH), (5, HSTAT), (6, FOREIGN_AT_128)]
        text = "L:3: NAME 8000000000000001 takes address 128 from HITCH, which "
        for log, then in ((((6.3, HITCH.replace("EEFF80", "EEFF81")),), "claims address 129 instead"),
                          (((6.3, HITCH.replace("EEFF80", "EEFFFE")),), "could not claim another"), ((), "claims no other")):
            self.assertIn(text + then, self.told(*begin, *log))
        self.assertNotIn("takes address", "".join(self.told(*begin, (6.1, HITCH))))

    def test_a_flow_that_begins_late(self) -> None:
        """BRAKES claims at 1 s, and sends EBC1 each 100 ms from 3 s on: 2 s; what comes within a second of the claim isn't late."""
        late = "flow 2, EBC1 from BRAKES to all: not sent for 2000 ms before, its period is 100 ms"
        self.assertEqual(self.told((1, BRAKES), *brakes(3, 4), words=()), [f"L:2: {late}"])
        self.assertEqual(self.told((1, BRAKES), *brakes(2, 4), words=()), [])

    def test_two_boxes_of_one_name(self) -> None:
        """BRAKES claims 12 while a box goes on at 11; what was under way when it moved is no second box."""
        moved = BRAKES.replace("EEFF0B", "EEFF0C")
        text = "BRAKES claims address 12, and its former address 11 sends EBC1, a planned group: two boxes of one NAME?"
        self.assertEqual(self.told((1, BRAKES), (2, EBC1), (3, moved), (3.25, EBC1), (3.35, EBC1)), [f"L:4: {text}  (2 times)"])
        found = self.told((1, BRAKES), (2, EBC1), (3, moved), (3.24, EBC1))
        self.assertEqual(found[1:], ["L:4: address 11 sends EBC1, a planned group: no unit has it"])

    def test_frames_after_cannot_claim(self) -> None:
        """BRAKES gives its address back and sends on from it. Where somebody else has claimed that by then, the frames are of that one."""
        gone, other = BRAKES.replace("EEFF0B", "EEFFFE"), "18EEFF0B#0100000000000000"
        text = "BRAKES could not claim an address, and its former address 11 sends EBC1, a planned group: by the standard it sends no more"
        self.assertEqual(self.told((1, BRAKES), (2, EBC1), (3, gone), (3.25, EBC1), (3.35, EBC1)), [f"L:4: {text}  (2 times)"])
        self.assertEqual(self.told((1, BRAKES), (2, EBC1), (3, gone), (3.5, BRAKES), (3.6, EBC1)), [])
        claims = "NAME 0000000000000001 (identity 1, manufacturer 0, function 0) claims address 11: no unit has it, and sends EBC1, a planned group"
        self.assertEqual(self.told((1, BRAKES), (2, EBC1), (3, other), (3.001, gone), (3.35, EBC1)), [
            f"L:3: {claims}", "L:3: NAME 0000000000000001 takes address 11 from BRAKES, which could not claim another"])

    def test_a_unit_whose_address_is_taken_is_not_silent(self) -> None:
        """It may send no more, and its flows haven't stopped by themselves; once it claims another address they have."""
        gone, other, moved = BRAKES.replace("EEFF0B", "EEFFFE"), "18EEFF0B#0100000000000000", BRAKES.replace("EEFF0B", "EEFF0C")
        log = [(1, BRAKES), *brakes(1.1, 3), (3, other), (3.001, gone), *[(4 + at / 10, HSTAT) for at in range(40)]]
        self.assertEqual([line for line in self.told(*log, words=()) if "not sent" in line], [])
        self.assertEqual(len([line for line in self.told(*log, (3.5, moved), words=()) if "not sent" in line]), 1)


class Buses(Deviations):
    def test_nothing_at_all(self) -> None:
        """Where two flows were alive and nothing came for more than a second, the bus, the log or its clock stood still, and no unit. The shortest
        period is 100 ms."""
        plan = PLAN.replace("period = 5000", "period = 200")
        log = [*brakes(1, 3), *[(1.05 + number / 5, HSTAT) for number in range(10)], (0.5, HITCH), *brakes(63, 64), *[(63.05 + number / 5, HSTAT) for number in range(5)]]
        text = "nothing at all came for {} ms before: the bus, the log or its clock stood still; distances begin anew"
        self.assertEqual(self.told(*log, plan=plan, words=()), [f"L:32: {text.format(60100)}"])

    def test_steps_back_of_the_clock(self) -> None:
        """Distances begin anew where time goes back by more than a millisecond."""
        log = lines_of(*brakes(1, 3)) + lines_of(*brakes(2.41, 4))
        self.assertEqual(self.told_of(log), [])
        self.assertEqual(self.said, f"against: {self.path('drive.log')}:21: time goes back by 490 ms\n")

    def test_how_long_a_log_is_of_which_the_clock_was_set(self) -> None:
        """On from 1970 on, or back by 4.9 s, or by 0.49 s: the steps aren't in the duration, nor in the mean of 160 bits a frame."""
        for log, duration in ((lines_of(*brakes(1, 3), *brakes(1764230400, 1764230402)), 3.8), (lines_of(*brakes(10, 13)) + lines_of(*brakes(8, 10)), 4.8),
                              (lines_of(*brakes(1, 3)) + lines_of(*brakes(2.41, 4)), 3.4)):
            words = self.write("plan.toml", PLAN), self.write("drive.log", log)
            whole = json.loads(run("against.py", "--json", *words)[1].splitlines()[-1])
            self.assertEqual((whole["duration"], round(whole["mean"], 6), whole["worst"]), (duration, round(160 * log.count("\n") / duration, 6), 1600))
            row = json.loads(run("fleet.py", "--json", *words)[1])["logs"][0]
            self.assertEqual((row["duration"], row["mean"]), (duration, whole["mean"]))
            self.assertIn(f" {duration} s ", run("fleet.py", *words)[1].splitlines()[1])

    def test_a_line_out_of_order(self) -> None:
        """A single line that is early or late by half a second is no clock that was set: the log lasts from its first line to its last."""
        early, late = (lines_of(*brakes(1, 2)) + lines_of((at, EBC1)) + lines_of(*brakes(2, 4)) for at in (2.5, 1.4))
        for log in (early, late):
            words = self.write("plan.toml", PLAN), self.write("drive.log", log)
            self.assertEqual(json.loads(run("against.py", "--json", *words)[1].splitlines()[-1])["duration"], 2.9)

    def test_the_worst_second_of_a_clock_that_was_set(self) -> None:
        """Back by 600 ms within a second: the second begins anew there, so that no second has more than the 90 frames that came in it."""
        log = [lines_of(*((begin + number / 100, EBC1) for number in range(count))) for begin, count in ((10, 90), (10.3, 70), (11, 80))]
        words = self.write("plan.toml", PLAN), self.write("drive.log", "".join(log))
        whole = json.loads(run("against.py", "--json", *words)[1].splitlines()[-1])
        self.assertEqual((whole["worst"], whole["worst_second"], whole["duration"]), (90 * 160, 10, 0.89 + 0.69 + 0.8))

    def test_error_frames_of_the_interface(self) -> None:
        """In plans without timing too; what follows is no unit's silence, until the log's end neither."""
        frames = {"20000040#0000000000000000": "the interface of the log is bus-off: it hears nothing until it is restarted",
                  "20000004#0001000000000000": "the interface lost frames, since nobody took them: the log lacks these",
                  "20000100#0000000000000000": "the interface of the log was restarted after bus-off"}
        for frame, text in frames.items():
            self.assertEqual(self.told(*brakes(1, 2), (1.95, frame), *brakes(8, 9), words=()), [f"L:11: {text}"])
        off = "20000040#0000000000000000"
        self.assertEqual(self.told(*brakes(1, 2), (1.95, off), (9.0, "20000004#0000000000000000"), words=()), [f"L:11: {frames[off]}"])
        passive = "the interface of the log is error passive: many frames were damaged"
        for state in ("10", "20", "30"):
            self.assertEqual(self.told(*brakes(1, 2), (1.95, f"20000004#00{state}000000000000"), words=()), [f"L:11: {passive}"])
        self.assertEqual(self.told(*brakes(1, 2), (1.95, "20000004#0004000000000000"), words=()), [])
        self.assertEqual(self.said, "")

    def test_a_stranger_of_a_planned_group_is_told_once(self) -> None:
        """By its address, and not by the priority that the group has."""
        plan = PLAN.replace("version = 4", "version = 4\ntiming = { bitrate = 250000, unplanned = 9 }").replace("priority = 6", "priority = 3")
        self.assertEqual(self.told((1, "0CF0014D#FFFFFFFFFFFFFFFF"), plan=plan), ["L:1: address 77 sends EBC1, a planned group: no unit has it"])

    def test_unplanned_frames_before_those_of_a_unit_that_keeps_no_order(self) -> None:
        """Any identifier counts there: four frames that go behind EBC1 within its bound of BRAKES, which sends any first."""
        plan = PLAN.replace("version = 4", "version = 4\ntiming = { bitrate = 250000, unplanned = 1 }").split("[[group]]\nlabel = \"VI\"")[0]
        plan += PLAN[PLAN.index('[[flow]]'):].split('[[flow]]\ngroup = "VI"')[0]
        strange = [(2 + number / 2000, f"1CFFFF0B#000000000000000{number}") for number in range(4)]
        self.assertNotIn("no flow has came", "".join(self.told((1, EBC1), *strange, plan=plan)))
        found = self.told((1, EBC1), *strange, plan=plan.replace('address = 11\n', 'address = 11\nqueue = "any"\n'))
        self.assertTrue(any(line.startswith("L:5: 4 frames that no flow has came within ") for line in found), found)

    def test_requests_that_wait_on_the_bus(self) -> None:
        """A request may wait no longer than EBC1, which it goes before: one that comes less than a frame nearer than its period accuses nobody."""
        plan = PLAN.split('[[group]]\nlabel = "VI"')[0] + PLAN[PLAN.index("[[flow]]"):].split('[[flow]]\ngroup = "VI"')[0]
        plan += '[[request]]\nfrom = "SPRAYER"\nto = "BRAKES"\ngroup = "EBC1"\nperiod = 5000\n'
        timing = plan.replace("version = 4", "version = 4\ntiming = { bitrate = 250000, unplanned = 0 }")
        asks = "18EA0B8C#01F000"
        for text, second, told in ((timing, 5.9998, ()), (timing, 5.99, ("990",)), (plan, 5.9998, ("999.8",))):
            found = self.told((1, asks), (1.001, EBC1), (second, asks), (second + 0.001, EBC1), plan=text)
            said = [f"L:3: request 1, EBC1 from SPRAYER to BRAKES: 4{value} ms after the one before, its period is 5000 ms" for value in told]
            self.assertEqual([line for line in found if "request" in line], said)

    def test_the_interface_that_is_read(self) -> None:
        """A log that begins with one frame of another bus is refused, and the one that has nearly all is named."""
        log = "(1.0) can1 18F0010B#00\n" + lines_of(*brakes(1, 11)) * 2
        self.assertEqual(self.told_of(log), [])
        self.assertEqual(self.said, f"against: {self.path('drive.log')} begins with can1, which has 1 of its 201 lines: choose one, as --interface can0\n")
        self.told_of("(1.0) can1 18F0010B#00\n" + lines_of(*brakes(1, 6)))
        self.assertEqual(self.said, "against: can1 is read, the first of the log; 50 lines of can0 are passed over: --interface can0\n")


class Transfers(Deviations):
    def whole(self, *frames: str, last: float = 9.0) -> list[str]:
        """What is told of long messages, of frames from 2 s on, each 10 ms after the one before."""
        log = [(1, HITCH), (1, BRAKES), *[(2 + number / 100, frame) for number, frame in enumerate(frames)], (last, EBC1)]
        return [line for line in self.told(*log, (last, "18EAFFFE#00EE00")) if " VI " in line]

    def test_by_their_cause(self) -> None:
        text = "L:3: VI from BRAKES to HITCH: announced, and not carried whole: "
        self.assertEqual(self.whole(RTS, CLEAR, *PACKETS, WHOLE), [])
        self.assertEqual(self.whole(RTS), [text + "no clear to send"])
        self.assertEqual(self.whole(RTS, CLEAR), [text + "packet 1 of 3 didn't come"])
        self.assertEqual(self.whole(RTS, CLEAR, PACKETS[0], PACKETS[2]), [text + "packet 2 of 3 didn't come"])
        self.assertEqual(self.whole(RTS.replace("110003", "110004")), ["L:3: VI from BRAKES to HITCH: 17 bytes are announced in 4 packets, by the standard in 3"])
        given_up = self.whole(RTS, "1CEC0B80#FF03FFFFFFECFE00")
        self.assertEqual(given_up, ["L:4: VI from BRAKES to HITCH: given up by HITCH, reason 3 (timeout)"])

    def test_a_packet_that_was_asked_for_again_alone(self) -> None:
        """The receiver has the message, as it says: it is whole, and counts as sent."""
        again = "1CEC0B80#110102FFFFECFE00"
        self.assertEqual(self.whole(RTS, CLEAR, PACKETS[0], PACKETS[2], again, PACKETS[1], WHOLE), [])
        self.assertNotIn("flow 3, VI from BRAKES to HITCH: never sent", run("against.py", self.path("plan.toml"), self.path("drive.log"))[1])

    def test_what_is_not_acknowledged(self) -> None:
        """1,250 ms after its last packet, or before the next announcement; at the log's end sooner than that it isn't known."""
        text = "L:7: VI from BRAKES to HITCH: carried whole, and not acknowledged"
        self.assertEqual(self.whole(RTS, CLEAR, *PACKETS, last=3.3), [text])
        self.assertEqual(self.whole(RTS, CLEAR, *PACKETS, last=3.28), [])
        self.assertEqual(self.whole(RTS, CLEAR, *PACKETS, RTS, CLEAR, *PACKETS, WHOLE, last=2.5), [text])


class LinesBeside(Deviations):
    def noted(self, *frames: str, plan: str = PLAN) -> tuple[list[int], list[int]]:
        """The numbers of the lines of a log of which `follow` says nothing, and of those of which it doesn't say all."""
        feed = Feed(Tables.of(self.write("plan.toml", plan)).timing)
        list(feed.pieces(io.BytesIO("".join(f"(1.0) {frame}\n" for frame in frames).encode())))
        return [noted.line for noted in feed.unheard(math.inf)], [line for line in range(1, len(frames) + 1) if feed.beside(line)]

    def test_which_are_noted(self) -> None:
        """Error, remote and FD frames of the interface that is read, and acknowledgements; where the plan has timing also 11-bit frames, and claims and
        requests that are more urgent than unplanned frames may be."""
        frames = ("can0 20000004#0001000000000000", "can0 18FEF100#00", "can1 20000004#0001000000000000", "can0 123#00", "can0 0CEAFF0B#00EE00",
                  "can0 18EAFF0B#00EE00", "can0 18E8FF00#00FFFFFF0BECFE00 R", "can0 18FEF100#R", "can0 18FEF100##100 R", "can1 18FEF100#R8")
        self.assertEqual(self.noted(*frames), ([1, 8, 9], [7]))
        timing = PLAN.replace("version = 4", "version = 4\ntiming = { bitrate = 250000, unplanned = 9, unplanned_priority = 6 }")
        self.assertEqual(self.noted(*frames, plan=timing), ([1, 4, 8, 9], [5, 7]))


class Forms(Deviations):
    def setUp(self) -> None:
        super().setUp()
        times = (1.0, 1.1, 1.15, 1.25, 1.34)
        self.log = self.write("a.log", lines_of(*[(at, EBC1) for at in times]))
        self.plan = self.write("plan.toml", PLAN)

    def test_times_and_all_lines(self) -> None:
        """The worst of two that came too near, 50 ms and 90 ms after the one before."""
        near = "flow 2, EBC1 from BRAKES to all: 50 ms after the one before, its period is 100 ms  (2 times)"
        lines = run("against.py", self.plan, self.log)[1].splitlines()
        self.assertEqual(lines[0], f"{self.log}:3: (1.150000) {near}")
        lines = run("against.py", "--all", self.plan, self.log)[1].splitlines()
        self.assertEqual(lines[:3], [f"{self.log}:3: (1.150000) {near}", f"  {self.log}:3: (1.150000) 50 ms", f"  {self.log}:5: (1.340000) 90 ms"])

    def test_json(self) -> None:
        """An object a line: kind, flow, unit, place, what was measured in ms; what is the same in all logs; last the whole log."""
        *rows, whole = map(json.loads, run("against.py", "--json", "--all", self.plan, self.log)[1].splitlines())
        self.assertEqual(rows[0], {
            "kind": "near", "flow": 2, "unit": "BRAKES", "log": self.log, "line": 3, "time": 1.15, "value": 50,
            "text": "flow 2, EBC1 from BRAKES to all: 50 ms after the one before, its period is 100 ms",
            "what": "flow 2, EBC1 from BRAKES to all: .. ms after the one before, its period is 100 ms", "times": 2,
            "all": [{"log": self.log, "line": 3, "time": 1.15, "value": 50}, {"log": self.log, "line": 5, "time": 1.34, "value": 90}]})
        self.assertEqual((rows[1]["kind"], rows[1]["unit"], "line" in rows[1]), ("absent", "HITCH", False))
        self.assertEqual((whole.pop("requests"), len(whole.pop("units"))), ([], 3))
        self.assertEqual(whole, {"deviations": len(rows), "begin": 1.0, "end": 1.34, "duration": 0.34, "worst": 800, "worst_second": 1, "explained": 0})

    def test_live(self) -> None:
        """Each deviation as soon as its line is there, and at the end those of the whole log."""
        words = [sys.executable, os.path.join(TOOLS, "against.py"), "--live", self.plan, "/dev/stdin"]
        with subprocess.Popen(words, stdin=subprocess.PIPE, stdout=subprocess.PIPE, text=True, env={**os.environ, "J39PLAN": os.path.abspath(program.path())},
                              bufsize=1) as process:
            with open(self.log, encoding="ascii") as log:
                lines = log.readlines()
            there(process.stdin).writelines(lines[:4])  # the next line tells that the third one is whole
            near = "flow 2, EBC1 from BRAKES to all: 50 ms after the one before, its period is 100 ms"
            self.assertEqual(there(process.stdout).readline(), f"/dev/stdin:3: (1.150000) {near}\n")
            there(process.stdin).write(lines[4])
            there(process.stdin).close()
            last = there(process.stdout).read().splitlines()
            self.assertEqual((last[0].partition(": ")[2], last[-1], len(last)), ("unit HITCH: neither claimed an address nor sent anything", "deviations 3", 3))

    def test_live_as_json(self) -> None:
        """An object as a deviation is met, without how often; with --all each time, with what was measured there. Then what --json has besides."""
        text = "flow 2, EBC1 from BRAKES to all: {} ms after the one before, its period is 100 ms"
        first = {"kind": "near", "flow": 2, "unit": "BRAKES", "log": self.log, "line": 3, "time": 1.15, "value": 50, "text": text.format(50), "what": text.format("..")}
        again = {**first, "line": 5, "time": 1.34, "value": 90, "text": text.format(90)}
        for words, met in (((), [first]), (("--all",), [first, again])):
            rows = [json.loads(line) for line in run("against.py", "--live", "--json", *words, self.plan, self.log)[1].splitlines()]
            whole = [json.loads(line) for line in run("against.py", "--json", *words, self.plan, self.log)[1].splitlines()]
            self.assertEqual(rows, met + whole[1:])
            self.assertEqual(whole[0]["times"], 2)

    def test_events(self) -> None:
        """A flow that is sent when something happens isn't silent; its group or its number names it."""
        log = self.write("b.log", lines_of(*brakes(1, 2), (5, EBC1)))
        for words, count in (((), 1), (("--events", "EBC1"), 0), (("--events", "2"), 0), (("--events", "1"), 1)):
            self.assertEqual(run("against.py", *words, self.plan, log)[1].count("not sent for"), count, words)
        self.assertEqual(run("against.py", "--events", "EEC9", self.plan, log), (2, "", "against: no flow has the number or the group EEC9\n"))
        self.assertEqual(run("against.py", "--silence", "-3", self.plan, log)[0], 2)


class Interrupted(Deviations):
    def test_a_fleet_keeps_what_is_done(self) -> None:
        """One log is done, the other waits: an interrupt puts the table of the first, and says so."""
        done, slow = self.write("done.log", lines_of(*brakes(1, 3))), self.write("slow.log", lines_of(*brakes(1, 4)))
        script = self.write("slow", f'#!/bin/sh\ncase "$*" in follow*slow.log) sleep 60 ;; esac\nexec {os.path.abspath(program.path())} "$@"\n')
        os.chmod(script, 0o755)
        words = [sys.executable, os.path.join(TOOLS, "fleet.py"), "--processes", "2", self.write("plan.toml", PLAN), done, slow]
        ours, theirs = os.openpty()
        started = subprocess.Popen(words, stdout=subprocess.PIPE, stderr=theirs, env={**os.environ, "J39PLAN": script}, text=True,
                                   start_new_session=True, preexec_fn=lambda: signal.signal(signal.SIGINT, signal.SIG_DFL))
        os.close(theirs)
        shown, end = b"", time.monotonic() + PATIENCE
        while b"1/2" not in shown and time.monotonic() < end:
            shown += os.read(ours, 4096)
        os.killpg(started.pid, signal.SIGINT)
        answer = started.communicate(timeout=PATIENCE)[0]
        with contextlib.suppress(OSError):
            while piece := os.read(ours, 4096):
                shown += piece
        os.close(ours)
        self.assertEqual(started.returncode, -signal.SIGINT)
        self.assertIn(b"fleet: interrupted: 1 of 2 logs are done, and in the table", shown)
        self.assertTrue(answer.endswith("logs 1 with deviations 1 failed 0\n"), answer)
