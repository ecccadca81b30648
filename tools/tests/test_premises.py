"""What the bounds of `load` rest on, as far as a log can refute it."""

import unittest
from collections.abc import Sequence
from typing import Any

from tests import support
from tests.support import InFolder

# EEC1 waits for one unplanned frame at most by its bound, 1,920 us: a frame that has begun, an unplanned one, and itself.
PLAN = """version = 3
timing = { bitrate = 250000, unplanned = 1 }
[[unit]]
label = "ENGINE"
address = 0
name = { identity = 1 }
[[unit]]
label = "TOOL"
address = 249
name = { identity = 2 }
[[group]]
label = "ET1"
pgn = 65262
priority = 6
length = 8
[[group]]
label = "VI"
pgn = 65260
priority = 6
length = 17
[[flow]]
group = "ET1"
from = "ENGINE"
to = "all"
period = 10
[[flow]]
group = "VI"
from = "ENGINE"
to = "all"
period = 5000
[[flow]]
group = "VI"
from = "ENGINE"
to = "TOOL"
period = 5000
"""



def timed(keys: str) -> str:
    """The plan with further keys of its timing, which version 4 has."""
    return PLAN.replace("unplanned = 1", f"unplanned = 1, {keys}").replace("version = 3", "version = 4")


ET1, STRANGE = "18FEEE00#7DFFFFFFFFFFFFFF", "18FF10F9#0000000000000000"
BAM = ["1CECFF00#20110003FFECFE00", *(f"1CEBFF00#0{number}AAAAAAAAAAAAAA" for number in (1, 2, 3))]
RTS, CLEAR, PACKETS, WHOLE = "1CECF900#10110003FFECFE00", "1CEC00F9#110301FFFFECFE00", [
    f"1CEBF900#0{number}AAAAAAAAAAAAAA" for number in (1, 2, 3)], "1CEC00F9#13110003FFECFE00"



def run(*words: str, **more: Any) -> tuple[int, str, str]:
    """Runs a tool, as support has it; the times beside lines are left out."""
    status, answer, said = support.run(*words, **more)
    return status, support.without_times(answer), said


class Premises(InFolder):
    def told(self, *log: tuple[str, str], plan: str = PLAN) -> list[str]:
        """What is told of a log but of flows and units that aren't there."""
        name = self.write("drive.log", "".join(f"({time}) can0 {frame}\n" for time, frame in log))
        _, answer, said = run("against.py", "--silence", "0", self.write("plan.toml", plan), name)
        self.assertEqual(said, "")
        return [line.replace(name, "L") for line in answer.splitlines()[:-1] if line.startswith(name)]

    def broadcast(self, *times: str, frames: Sequence[str] | None = None) -> list[tuple[str, str]]:
        """A broadcast by the times of its frames."""
        return list(zip(times, frames or BAM))

    def test_a_log_that_keeps_them(self) -> None:
        log = [("1.0", ET1), ("1.0005", STRANGE), *self.broadcast("2.00", "2.05", "2.15", "2.35"), ("3.0", RTS), ("3.2", CLEAR),
               ("3.4", PACKETS[0]), ("3.401", PACKETS[1]), ("3.402", PACKETS[2]), ("3.602", WHOLE), ("4.0", "18EAFFF9#00EE00"),
               ("4.1", "18EEFF00#0100000000000000"), ("4.2", "18EEFFF9#0200000000000000")]
        self.assertEqual(self.told(*log), [])

    def test_priorities_of_what_is_not_planned(self) -> None:
        """Each kind of frame: of makers' own groups, services, requests, claims, the extended page, a group without a flow."""
        said = "priority {}: by 'load' what no flow has is of 6 or more"
        for frame, what in (("0CFF10F9#00", "PGN 65296 from TOOL"), ("0CE8FFF9#00FFFFFFFFECFE00", "PGN 59392 from TOOL"),
                            ("0CEA00F9#ECFE00", "PGN 59904 from TOOL"), ("0CEEFFF9#0200000000000000", "PGN 60928 from TOOL"),
                            ("0EFF10F9#00", "PGN 196368 from TOOL"), ("0CECFFF9#20090002FF10FF00", "PGN 65296 from TOOL")):
            self.assertIn(f"L:1: {what} has {said.format(3)}", self.told(("1.0", frame), ("9.0", ET1)), frame)
            self.assertEqual([line for line in self.told(("1.0", "18" + frame[2:]), ("9.0", ET1)) if "load" in line], [], frame)
        self.assertEqual(self.told(("1.0", ET1.replace("18FEEE00", "0CFEEEF9"))), ["L:1: ET1 from TOOL to all: no flow"])
        self.assertEqual(self.told(("1.0", "0CFF10F9#00"), ("9.0", ET1), plan=PLAN.replace("timing = { bitrate = 250000, unplanned = 1 }", "")), [])

    def test_frames_with_11_bits(self) -> None:
        """They win against each planned frame; those of another interface don't."""
        said = "L:2: a frame with an 11-bit identifier, which may go before each planned one  (2 times)"
        self.assertEqual(self.told(("1.0", ET1), ("1.1", "123#00"), ("1.2", "7FF#"), ("1.3", ET1))[:1], [said])
        log = self.write("two.log", f"(1.0) can0 {ET1}\n(1.1) can1 123#00\n")
        self.assertNotIn("11-bit", run("against.py", self.write("plan.toml", PLAN), log)[1])

    def test_more_unplanned_frames_than_the_plan_allows(self) -> None:
        """More than that within the bound of a flow before which they may go; what may not isn't counted."""
        # ET1 is on the bus within 1,920 us by `load`, and its identifiers are below those of group 65296.
        before = "18FE10F9#0000000000000000"
        plan = PLAN.replace("period = 10\n", "period = 10\n", 1)
        bound = next(line for line in self.load(plan) if line.startswith("flow 1 "))
        within = int(bound.split()[6])
        span = within / 1e6
        found = self.told(("1.0", before), (f"{1 + span:.6f}", before), ("9.0", ET1))
        said = f"2 frames that no flow has came within {within / 1000:g} ms, in which they may all go before flow 1, ET1 from ENGINE to all"
        self.assertIn(f"L:2: {said}: `unplanned` is 1; 2 of them from TOOL", found)
        self.assertNotIn(said, "".join(self.told(("1.0", before), (f"{1 + span + 0.000001:.6f}", before), ("9.0", ET1))))
        self.assertNotIn("frames that no flow has", "".join(self.told(("1.0", STRANGE), ("1.0001", STRANGE), ("9.0", ET1))))

    def load(self, plan: str) -> list[str]:
        """What `load` says of a plan."""
        from j39plan import program

        return program.call(["load", self.write("plan.toml", plan)])[1].splitlines()

    def test_the_priority_of_the_transport_protocol(self) -> None:
        """That of a planned message; one that isn't planned has that of all others."""
        log = self.broadcast("2.00", "2.05", "2.15", "2.35", frames=[frame.replace("1C", "18", 1) for frame in BAM])
        said = "L:1: VI from ENGINE to all: frames of the transport protocol have priority 6, by 'load' 7  (4 times)"
        self.assertIn(said, self.told(*log))
        self.assertNotIn("transport protocol", "".join(self.told(*log, plan=timed("transport_priority = 6"))))
        other = [(time, frame.replace("ECFE00", "10FF00")) for time, frame in log]
        self.assertNotIn("transport protocol", "".join(self.told(*other)))

    def test_the_pace_of_broadcasts(self) -> None:
        """Frames nearer than 50 ms, the announcement too, or further apart than 200, by the nearest and the furthest."""
        near = "VI from ENGINE to all: frames {} ms apart, at least 50 ms are between two"
        self.assertIn("L:2: " + near.format("49.999") , self.told(*self.broadcast("2.0", "2.049999", "2.1", "2.2")))
        self.assertIn("L:4: " + near.format("1") + "  (2 times)", self.told(*self.broadcast("2.0", "2.1", "2.102", "2.103")))
        far = "VI from ENGINE to all: frames {} ms apart, at most {} ms are between two"
        self.assertIn("L:3: " + far.format("300", 200), self.told(*self.broadcast("2.0", "2.2", "2.5", "2.7")))
        own = timed("broadcast_gap = 10, broadcast_gap_most = 90")
        self.assertIn("L:4: " + far.format("100", 90), self.told(*self.broadcast("2.0", "2.010", "2.1", "2.2"), plan=own))
        self.assertIn("L:2: " + near.format("9.999").replace("50", "10"), self.told(*self.broadcast("2.0", "2.009999", "2.1", "2.2"), plan=own))
        self.assertEqual(self.told(*self.broadcast("2.0", "2.01", "2.02", "2.11"), plan=own), [])

    def test_packets_that_wait_for_the_bus(self) -> None:
        """The bus is busy from 2.094 s on when the first packet comes at 2.1, so that may have waited 6 ms: the second one may come 44 ms after it. The
        third one may be 200 ms after it by as much as it may have waited itself."""
        def told(second: float, third: float, *busy: float) -> list[str]:
            frames = self.broadcast("2.0", "2.1", f"{second:.6f}", f"{third:.6f}")
            others = [(f"{since + number / 2000:.6f}", STRANGE) for since in busy for number in range(12)]
            return [line for line in self.told(*sorted(frames + others)) if "apart" in line]

        near, far = (f"VI from ENGINE to all: frames {{}} ms apart, {limit} ms are between two" for limit in ("at least 50", "at most 200"))
        self.assertEqual(told(2.144, 2.3, 2.094), [])
        self.assertEqual(told(2.143999, 2.3, 2.094), [f"L:15: {near.format('43.999')}"])
        self.assertEqual(told(2.144, 2.3), [f"L:3: {near.format(44)}"])
        self.assertEqual(told(2.15, 2.356, 2.35), [])
        self.assertEqual(told(2.15, 2.356, 2.3512), [f"L:14: {far.format(206)}"])

    def test_the_priority_that_the_plan_has_of_others(self) -> None:
        """Where it is 3, 3 is none too small, and 2 is."""
        log = [("1.0", "0CFF10F9#00"), ("1.1", "08FF10F9#00"), ("9.0", ET1)]
        found = [line for line in self.told(*log, plan=timed("unplanned_priority = 3")) if "load" in line]
        self.assertEqual(found, ["L:2: PGN 65296 from TOOL has priority 2: by 'load' what no flow has is of 3 or more"])

    def test_damaged_frames(self) -> None:
        """More of them than the plan has in its time; by a plan without errors none. Classes that tell of no damage are none."""
        damaged, unanswered, bus, lost, overload = ("20000088#00000A0000000000", "20000020#0000000000000000", "20000080#0000000000000000",
                                                    "20000006#0000000000000000", "20000008#0000200000000000")
        none = "a damaged frame: by 'load' none is, since `timing` has no `errors`"
        log = [("1.0", ET1), ("1.1", damaged), ("1.2", unanswered), ("1.3", bus), ("1.4", lost), ("9.0", ET1)]
        self.assertEqual(self.told(*log), [f"L:2: {none}  (3 times)"])
        for every, found in ((100, []), (101, ["L:3: 2 damaged frames within 100 ms: `errors` has 1 in 101 ms"]),
                             (201, ["L:4: 3 damaged frames within 200 ms: `errors` has 1 in 201 ms"])):
            self.assertEqual(self.told(*log, plan=timed(f"errors = {{ count = 1, every = {every} }}")), found)
        self.assertEqual(self.told(*log, plan=timed("errors = { count = 3, every = 1000 }")), [])
        for plan in (PLAN, timed("errors = { count = 1, every = 10 }")):
            found = ["L:2: an overload frame, for which 'load' has no room"]
            self.assertEqual(self.told(("1.0", ET1), ("1.1", overload), ("9.0", ET1), plan=plan), found)
        self.assertEqual(run("against.py", "--silence", "0", self.write("plan.toml", PLAN.replace("timing", "# timing")), self.path("drive.log"))[2], "")

    def test_jitter(self) -> None:
        """Messages may come nearer by it than the period."""
        plan = timed("broadcast_gap = 50").replace("period = 10\n", "period = 10\njitter = 2\n", 1)
        said = "flow 1, ET1 from ENGINE to all: 6.079 ms after the one before, its period is 10 ms and its jitter 2 ms"
        self.assertEqual(self.told(("1.0", ET1), ("1.00608", ET1), plan=plan), [])
        self.assertEqual(self.told(("1.0", ET1), ("1.006079", ET1), plan=plan), [f"L:2: {said}"])

    def test_what_a_wait_on_the_bus_explains(self) -> None:
        """ET1 is on the bus within 1.92 ms: what is nearer by so much isn't told, and how many are is said with the table. Without timing it is told."""
        log = self.write("drive.log", "".join(f"({time}) can0 {ET1}\n" for time in ("1.0", "1.00808", "1.02", "1.03", "1.038")))
        _, answer, said = run("against.py", "--silence", "0", "--table", self.write("plan.toml", PLAN), log)
        self.assertEqual(said, "against: 1 distances are passed over, since a message may wait so long on the bus by 'load': of flow 1\n")
        near = "flow 1, ET1 from ENGINE to all: 8 ms after the one before, its period is 10 ms"
        self.assertIn(f"{log}:5: {near}\n", answer)
        bare = self.write("bare.toml", PLAN.replace("timing", "# timing"))
        self.assertIn(f"{log}:5: {near}  (2 times)\n", run("against.py", bare, log)[1])

    def test_waits_of_single_frames_of_groups_of_several_lengths(self) -> None:
        """They go before each flow of a greater identifier: DM1 (65226) waits no longer than ET1 (65262), whatever its long messages take."""
        group = '[[group]]\nlabel = "DM1"\npgn = 65226\npriority = 6\nlength = 8\nmost = 100\n[[flow]]\ngroup = "DM1"\nfrom = "TOOL"\nto = "all"\nperiod = 1000\n'
        within = int(next(line for line in self.load(timed("broadcast_gap = 50") + group) if line.startswith("flow 1 ")).split()[6]) / 1e6
        told = [self.told(("1.0", "18FECAF9#00FF000000000000"), (f"{2 - within - less:.6f}", "18FECAF9#00FF000000000000"), plan=timed("broadcast_gap = 50") + group)
                for less in (0, 0.000001)]
        self.assertEqual([any("after the one before" in line for line in lines) for lines in told], [False, True])

    def test_jitter_beyond_the_waits_of_others(self) -> None:
        """DM1, which waits no longer than ET1, may come nearer by all of its jitter, which is longer than that, and by that besides."""
        group = '[[group]]\nlabel = "DM1"\npgn = 65226\npriority = 6\nlength = 8\nmost = 100\n[[flow]]\ngroup = "DM1"\nfrom = "TOOL"\nto = "all"\nperiod = 1000\njitter = 50\n'
        plan = timed("broadcast_gap = 50") + group
        within = int(next(line for line in self.load(plan) if line.startswith("flow 1 ")).split()[6]) / 1e6
        self.assertLess(within, 0.05)
        for second, is_told in ((1.951, False), (1.95 - within, False), (1.95 - within - 0.000001, True)):
            lines = self.told(("1.0", "18FECAF9#00FF000000000000"), (f"{second:.6f}", "18FECAF9#00FF000000000000"), plan=plan)
            self.assertEqual(any("DM1" in line for line in lines), is_told, second)

    def test_pauses(self) -> None:
        """The greatest distance, at the line where it ended, whatever is said of silences; the end of the log too."""
        plan = timed("broadcast_gap = 50").replace("period = 10\n", "period = 10\npause = 20\n", 1)
        said = "flow 1, ET1 from ENGINE to all: not sent {}, its pause is 20 ms"
        self.assertEqual(self.told(("1.0", ET1), ("1.02", ET1), ("1.04", ET1), plan=plan), [])
        log = [("1.0", ET1), ("1.021", ET1), ("1.051", ET1), ("1.073", ET1)]
        self.assertEqual(self.told(*log, plan=plan), ["L:3: " + said.format("for 30 ms before") + "  (2 times)"])
        late = plan.replace("pause = 20", "jitter = 2\npause = 20")
        self.assertEqual(self.told(*log, plan=late), ["L:3: " + said.format("for 30 ms before") + " and its jitter 2 ms"])
        self.assertEqual(self.told(("1.0", ET1), ("1.1", STRANGE), plan=plan), ["L:1: " + said.format("any more, for 100 ms to the log's end")])
        self.assertEqual(self.told(*log, plan=plan.replace("period = 10\npause = 20", "period = 10\npause = 30")), [])

    def test_answers_that_are_late(self) -> None:
        """Behind an announcement, behind a clear to send, and behind the last packet."""
        times = [3.0, 3.1, 3.2, 3.201, 3.202, 3.3]
        frames = [RTS, CLEAR, *PACKETS, WHOLE]
        said = "VI from ENGINE to TOOL: an answer after {} ms, by the standard within 200"
        self.assertEqual(self.told(*zip(map(str, times), frames)), [])
        for at, line in ((1, 2), (2, 3), (5, 6)):
            late = [time + (0.3 if number >= at else 0) for number, time in enumerate(times)]
            duration = 1000 * (late[at] - late[at - 1])
            self.assertEqual(self.told(*zip([f"{time:.6f}" for time in late], frames)), [f"L:{line}: {said.format(f'{duration:.6g}')}"])


if __name__ == "__main__":
    unittest.main()
