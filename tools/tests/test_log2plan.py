"""A first plan from a log: what it has of the log, and that it is the plan by which the bus of the log was driven, as far as a log shows it."""

import json
import os
import re
import unittest
from collections import Counter

from j39plan import program
from j39plan.log.clock import MILLISECOND
from j39plan.log.to_plan.measures import FlowMeasures
from j39plan.log.to_plan.selectors import Selector, selector_of
from j39plan.log.to_plan.survey import Traffic
from j39plan.log.to_plan.times import rounded, times_of
from j39plan.plan.tables import Flow, Tables
from tests import harvest
from tests.drives import log_of
from tests.support import InFolder, example, needs, plans, run, text_of

# What a log can't show of a plan, by the tables and keys that `compare` names; and what a drive of half a minute shows of flows, whatever the
# plan says of them.
HIDDEN = {
    "plan": {"version", "timing", "live", "strangers", "keep_free"}, "bus": {"load"},
    "unit": {"name.identity", "window", "chooser", "queue"}, "flow": {"period", "pause", "jitter", "deadline"}, "request": {"period"},
}

# A line of `compare` on a key: the table, what it is, the key.
CHANGE = re.compile(r"[^ ]+:\d+: (plan|bus|unit|group|flow|request|need|signal)\b(?: [^:]*)?: ([\w.]+) .*, it was .*")


def name(identity: int, manufacturer: int = 0, function: int = 0, arbitrary: bool = False) -> str:
    """The bytes of a NAME."""
    return (identity | manufacturer << 21 | function << 40 | int(arbitrary) << 63).to_bytes(8, "little").hex().upper()


class FromLogs(InFolder):
    def log(self, *frames: str, begin: float = 10.0, step: float = 0.1) -> str:
        """A log of these frames, so many seconds apart."""
        return self.write("drive.log", "".join(f"({begin + step * number:.6f}) can0 {frame}\n" for number, frame in enumerate(frames)))

    def plan(self, *words: str) -> tuple[Tables, str, str]:
        """The tables and the text of the plan, and what is said on standard error; `check` can read it, and says no more than is known."""
        status, text, said = run("log2plan.py", *words)
        self.assertEqual(status, 0, said)
        return Tables.of(self.write("made.toml", text)), text, said


class Units(FromLogs):
    def test_claims(self) -> None:
        """The fields of NAMEs, the preferred address, and the serial number only where nothing else tells two apart."""
        tables, text, _ = self.plan(self.log(
            f"18EEFF00#{name(4711, 310, 5)}", f"18EEFF80#{name(1, 400, 128, True)}", f"18EEFF81#{name(2, 400, 128, True)}", f"18EEFF82#{name(2, 400, 128, True)}"))
        units = [(unit.address, unit.name, unit.claims, unit.may_choose) for unit in tables.units]
        self.assertEqual(units, [(0, f"{310 << 21 | 5 << 40:016X}"[:10] + "......", True, False),
                                 (128, f"{1 | 400 << 21 | 128 << 40 | 1 << 63:016X}", True, True), (129, f"{2 | 400 << 21 | 128 << 40 | 1 << 63:016X}", True, True)])
        self.assertIn('label = "ECU_0"  # it claimed 0 at line 1; its box has the serial number 4711', text)
        self.assertIn("it claimed 129 at line 3; then 130 at line 4", text)

    def test_sources_that_never_claim(self) -> None:
        """They are units too, a tool by its name; so is who only receives, which is said."""
        tables, text, _ = self.plan(self.log("18FEEE05#7DFFFFFFFFFFFFFF", "18EAFFF9#EEFE00", "0C000B05#FFFFFFFFFFFFFFFF"))
        self.assertEqual([(unit.label, unit.address, unit.claims) for unit in tables.units], [("ECU_5", 5, False), ("ECU_11", 11, False), ("TOOL_249", 249, False)])
        self.assertIn('label = "ECU_11"  # nothing of it is in the log', text)
        self.assertIn("# No claim is in the log: ask for them", text)

    def test_what_came_before_a_claim(self) -> None:
        """It is of the unit that claims the address later on."""
        tables, _, _ = self.plan(self.log("18FEEE05#7DFFFFFFFFFFFFFF", f"18EEFF05#{name(1, 310)}", "18FEEE05#7DFFFFFFFFFFFFFF"))
        self.assertEqual([(unit.label, unit.claims) for unit in tables.units], [("ECU_5", True)])
        self.assertEqual([flow.what for flow in tables.flows], ["PGN_65262 from ECU_5 to all"])

    def test_window(self) -> None:
        """A receiver that grants two packets of three has a window of two."""
        tables, _, _ = self.plan(self.log(
            "1CEC0B00#10110003FFECFE00", "1CEC000B#110201FFFFECFE00", "1CEB0B00#01AAAAAAAAAAAAAA", "1CEB0B00#02AAAAAAAAAAAAAA",
            "1CEC000B#110103FFFFECFE00", "1CEB0B00#03AAAAAAFFFFFFFF", "1CEC000B#13110003FFECFE00", step=0.01))
        self.assertEqual([unit.window for unit in tables.units], [255, 2])
        self.assertEqual([(flow.what, group.length) for flow, group in zip(tables.flows, tables.groups)], [("PGN_65260 from ECU_0 to ECU_11", 17)])

    def test_more_units_than_a_plan_has(self) -> None:
        """One note for all of them."""
        tables, _, said = self.plan(self.log(*(f"18FEEE{address:02X}#7DFFFFFFFFFFFFFF" for address in range(140)), step=0.01))
        self.assertEqual(len(tables.units), 128)
        self.assertIn("12 units, at addresses 128, 129, 130, 131, 132 and 7 more: a plan has at most 128 units\n", said)

    def test_what_no_plan_has(self) -> None:
        _, text, said = self.plan(self.log("18FEEEFE#7DFFFFFFFFFFFFFF", "1AFEEE00#7DFFFFFFFFFFFFFF", "1CC8FF00#0102030405060708"))
        for what in ("PGN 51200: 1 frames of a service of the network, which isn't planned", "PGN 196334: 1 frames of the extended data page, which no plan has",
                     "address 254: 1 frames come from it, which is no unit's"):
            self.assertIn(what, said)
            self.assertIn(f"# Not planned: {what}.", text)


class Groups(FromLogs):
    def test_lengths_and_priorities(self) -> None:
        """The priority of most messages, and all lengths; what isn't always the same is told."""
        tables, text, _ = self.plan(self.log("18FEEE00#7D", "18FEEE00#7D00", "18FEEE00#7D00", "0CFEEE00#7D00"))
        self.assertEqual([(group.pgn, group.priority, group.length, group.most) for group in tables.groups], [(65262, 6, 1, 2)])
        self.assertIn("length = 1  # 3 times 2 bytes, once 1 bytes", text)
        self.assertIn("priority = 6  # 3 times 6, once 3", text)

    def test_bytes(self) -> None:
        """Raw bytes are no false values: what is always FF has no signal, what is always the same is told, and what only longer messages have is optional."""
        tables, text, _ = self.plan(self.log("18FEEE00#01FF07", "18FEEE00#02FF0708"))
        self.assertEqual([(signal.label, signal.kind, signal.bits, signal.optional) for signal in tables.groups[0].signals],
                         [("B1", "raw", 8, False), ("B3", "raw", 8, False), ("B4", "raw", 8, True)])
        self.assertIn('label = "PGN_65262"  # always FF: byte 2', text)
        self.assertIn('label = "B3"  # always 07', text)

    def test_texts(self) -> None:
        long = ["1CECFF00#20090002FFEBFE00", "1CEBFF00#0141424344454647", "1CEBFF00#02482AFFFFFFFFFF"]
        tables, _, _ = self.plan(self.log(*long, step=0.06))
        self.assertEqual(([text.label for text in tables.groups[0].texts], tables.groups[0].signals, tables.groups[0].length), (["TEXT"], [], 9))
        tables, _, _ = self.plan(self.log(*long, *(frame.replace("41424344", "41020344") for frame in long), step=0.06))
        self.assertEqual((tables.groups[0].texts, len(tables.groups[0].signals)), ([], 9))

    def test_private_groups(self) -> None:
        """Those of two makers are two, also of one number; each to its receiver."""
        frames = [f"18EEFF00#{name(1, 310)}", f"18EEFF03#{name(1, 427)}", "18FF1000#0102030405060708", "18FF1003#01020304", "18EF0300#0102030405060708", "0CEF0003#01"]
        tables, _, _ = self.plan(self.log(*frames))
        self.assertEqual([(flow.group, flow.sender, flow.to) for flow in tables.flows], [
            ("PGN_61184_ECU_0", "ECU_0", "ECU_3"), ("PGN_61184_ECU_3", "ECU_3", "ECU_0"), ("PGN_65296_ECU_0", "ECU_0", "all"), ("PGN_65296_ECU_3", "ECU_3", "all")])
        self.assertEqual([group.private for group in tables.groups], [True] * 4)

    def test_known_plan(self) -> None:
        """It names units and groups and has their signals; of a priority that is another one in the log that of the log counts."""
        log = self.log(f"18EEFF00#{name(204817, 310)}", "14FEEE00#7DFF202DFFFFFFFF")
        plan = example("tractor_and_implement.toml")
        tables, text, _ = self.plan(log, "--groups", plan)
        self.assertEqual([(unit.label, unit.address) for unit in tables.units], [("ENGINE", 0)])
        self.assertEqual([[signal.label for signal in group.signals] for group in tables.groups], [["SPN110", "SPN175"]])
        self.assertIn("priority = 5  # 6 there", text)
        self.assertEqual(run("compare.py", plan, self.path("made.toml"))[1].count("signal"), 0)


class Times(unittest.TestCase):
    def sent(self, *distances: float) -> FlowMeasures:
        """A flow whose messages came so far apart, in ms."""
        sent = FlowMeasures(len(distances) + 1, 0, 0, 0)
        sent.keep(0, True)
        for distance in distances:
            sent.take(round(distance * MILLISECOND))
            sent.last = (sent.last or 0) + round(distance * MILLISECOND)
            sent.keep(sent.last, False)
        return sent

    def test_rounded(self) -> None:
        """The roundest number within a hundredth, or half a millisecond."""
        told = {19.7: 20, 10.4: 10, 33.2: 33, 99.1: 100, 98.4: 98, 1009.0: 1000, 1011.0: 1010, 250.9: 250, 0.4: 1}
        self.assertEqual({distance: rounded(round(distance * MILLISECOND)) for distance in told}, told)

    def test_keys(self) -> None:
        """The jitter is how much nearer messages come than the period and half of that, a hundredth of it at least; the pause with the jitter is what a missing
        message breaks, and longer than what was seen by a twentieth of the period."""
        self.assertEqual(times_of(self.sent(100, 100, 100), 0, 0).keys, {"period": 100, "pause": 150})
        self.assertEqual(times_of(self.sent(100, 97.5, 103.2, 99.9), 0, 0).keys, {"period": 100, "jitter": 4, "pause": 150})
        self.assertEqual(times_of(self.sent(1000, 999, 1001, 1000), 0, 0).keys, {"period": 1000, "jitter": 10, "pause": 1500})
        self.assertEqual(times_of(self.sent(100, 100, 100), 150 * MILLISECOND, 0).keys, {"period": 100, "pause": 155})

    def test_rows(self) -> None:
        """A period is no longer than the mean, since messages run ahead of a longer one; what runs ahead for a while is jitter, and what falls behind a pause."""
        self.assertEqual(times_of(self.sent(*[99.4, 99.8] * 50), 0, 0).keys, {"period": 99, "pause": 148})
        self.assertEqual(times_of(self.sent(*[98] * 5, *[102] * 5, *[100] * 30), 0, 0).keys, {"period": 100, "jitter": 15, "pause": 150})
        self.assertEqual(times_of(self.sent(*[100, 101] * 50), 0, 0).keys, {"period": 100, "pause": 150})

    def test_few_that_are_apart(self) -> None:
        """Of many a few that are far from the period aren't covered, and told; of few each one counts."""
        many = times_of(self.sent(*[100] * 200, 500, 2), 0, 0)
        self.assertEqual(many.keys, {"period": 100, "pause": 150})
        self.assertIn("not covered: 2 ms, 500 ms", many.seen)
        self.assertEqual(times_of(self.sent(*[100] * 10, 150), 0, 0).keys, {"period": 100, "pause": 155})

    def test_events(self) -> None:
        """What is silent for more than five periods has no pause, however seldom that is; a drive of events has their least distance."""
        for distances in ([*[10] * 200, 9612], [*[10] * 40, 9612] * 3, [*[10] * 30, 51]):
            times = times_of(self.sent(*distances), 0, 0)
            self.assertEqual(times.keys, {"period": 10})
            self.assertTrue(times.seen.endswith("; no pause: it may be sent on events"), times.seen)

    def test_no_period(self) -> None:
        for distances, why in (((), "sent once"), ((100, 100), "too few for a period"), ((5, 900, 40, 7000, 300), "too irregular for a period")):
            times = times_of(self.sent(*distances), 0, 0)
            self.assertEqual(times.keys, {})
            self.assertIn(why, times.seen)
        self.assertIn("too seldom for a period", times_of(self.sent(100, 100, 100), 9000 * MILLISECOND, 0).seen)


class Requests(FromLogs):
    def test_asked_and_answered(self) -> None:
        """A group that comes only when it is asked for is on request; what nobody answers isn't planned, and is told."""
        asks = ["18EA00F9#E5FE00", "18FEE500#A0860100FFFFFFFF", "18EA00F9#DDFE00", "18E8F900#01FFFFFFF9DDFE00"]
        tables, text, said = self.plan(self.log(*asks * 3, step=0.05))
        self.assertEqual([(flow.what, flow.on_request, flow.period) for flow in tables.flows], [("PGN_65253 from ECU_0 to all", True, None)])
        self.assertEqual([request.what for request in tables.requests], ["PGN_65253 from TOOL_249 to ECU_0"])
        self.assertIn("# asked 3 times, 3 answered", text)
        self.assertIn("requests for PGN 65245 by TOOL_249 to ECU_0: of 3 3 refused: no flow of the plan answers them", said)

    def test_asked_beside_its_period(self) -> None:
        frames = ["18FEE500#A0860100FFFFFFFF"] * 10
        tables, text, _ = self.plan(self.log(*frames[:5], "18EAFFF9#E5FE00", *frames[5:]))
        self.assertEqual([(flow.on_request, flow.is_asked) for flow in tables.flows], [(False, True)])
        self.assertIn("; 1 were asked for", text)


class Selectors(unittest.TestCase):
    def seen(self, *moments: tuple[float, int]) -> Traffic:
        """What came on a way: when, in ms, and with which first byte."""
        seen = Traffic()
        for at, first in moments:
            seen.take((first, 8, 6), f"({at / 1000 + 10:.6f})")
        return seen

    def row(self, first: int, begin: float, period: float, until: float = 20_000) -> list[tuple[float, int]]:
        """Messages with a first byte, in a period, in ms."""
        return [(begin + period * number, first) for number in range(int((until - begin) / period))]

    def test_what_comes_regularly_by_the_first_byte(self) -> None:
        """Two of one period, of several, and by half of the byte, where the other one is that of a counter."""
        self.assertEqual(selector_of([self.seen(*self.row(1, 0, 2000), *self.row(2, 773, 2000))]), Selector(1, 8))
        self.assertEqual(selector_of([self.seen(*self.row(0x20, 0, 100), *self.row(0x21, 37, 500))]), Selector(1, 8))
        self.assertEqual(selector_of([self.seen(*self.row(0x20, 0, 100), *self.row(0x21, 30, 4000))]), Selector(1, 8))
        halves = [*self.row(1, 0, 1000), *self.row(2, 300, 1000)]
        self.assertEqual(selector_of([self.seen(*((at, number * 16 % 256 + half) for number, (at, half) in enumerate(halves)))]), Selector(1, 4))
        self.assertEqual(selector_of([self.seen(*((at, 16 * half + number * 7 % 16) for number, (at, half) in enumerate(halves)))]), Selector(5, 4))

    def test_what_is_no_selector(self) -> None:
        """A value that changes, a counter, also of messages that vary and with one missing; a mode for a while; events."""
        grid = [100.0 * number for number in range(200)]
        ragged = [at + 31 * (number * 7 % 5) / 5 for number, at in enumerate(grid)]
        firsts = [[number % 4 for number in range(200)], [number // 100 for number in range(200)], [number * number % 11 for number in range(200)], [7] * 200]
        for times in (grid, ragged, ragged[:80] + ragged[81:], [at * at / 1000 for at in grid]):
            for first in firsts:
                self.assertIsNone(selector_of([self.seen(*zip(times, first))]))
        self.assertIsNone(selector_of([self.seen((0, 1), (300, 2), (1000, 1))]))


class Harvested(FromLogs):
    def test_beside_the_true_plan(self) -> None:
        """Of a drive of 36 s the plan has each flow of the true one and no other; of 32 periods 31 within 2 %; no finding; events have no pause. The next
        drive has no deviation from it but silences of what is sent on events."""
        with program.file_of(harvest.plan()) as name:
            planned = Tables.of(name)
        log, made = self.write("drive.log", harvest.log_of(36, 1)), self.path("made.toml")
        self.assertIn("check: ok 15 units", run("log2plan.py", log, "-o", made)[2])
        tables = Tables.of(made)
        true, found = self.ways(planned), self.ways(tables)
        self.assertEqual(set(found), set(true))
        self.assertEqual((len(true), {way for way, flow in true.items() if flow.on_request}), (39, {way for way, flow in found.items() if flow.on_request}))
        within = [way for way, flow in true.items() if (flow.group, flow.sender, flow.to, flow.period, flow.jitter) in harvest.FLOWS
                  and abs((found[way].period or 0) - (flow.period or 0)) <= 0.02 * (flow.period or 0)]
        self.assertGreaterEqual((len(within), len(harvest.FLOWS)), (31, 32))
        events = [found[way] for way, flow in true.items() if (flow.group, flow.sender, flow.to, flow.period) in harvest.EVENTS]
        self.assertEqual([flow.pause for flow in events], [None] * len(harvest.EVENTS))
        words = [word for flow in events for word in ("--events", str(flow.number))]
        for seed in (1, 2):
            self.assertEqual(run("against.py", made, self.write("next.log", harvest.log_of(36, seed)), *words)[:2], (0, "deviations 0\n"))

    def ways(self, tables: Tables) -> dict[object, Flow]:
        """The flows by what a log shows of them: number, value of the selector, source and destination."""
        groups, addresses = {group.label: group for group in tables.groups}, {unit.label: unit.address for unit in tables.units}
        return {(groups[flow.group].pgn, groups[flow.group].when, addresses[flow.sender], addresses.get(flow.to)): flow for flow in tables.flows}

    def test_answers_of_one_frame(self) -> None:
        """They are for who asks, where longer ones name a receiver, also where no long one came: else the request had no answer there. Asked of all,
        they are to all."""
        asks = ["18EA00F9#DAFE00", "18FEDA00#01414243", "18EA00FA#DAFE00", "18FEDA00#01414243"]
        known = self.write("known.toml", 'version = 4\n[[group]]\nlabel = "SOFT"\npgn = 65242\npriority = 6\nlength = 3\nmost = 40\n')
        for frames, to in ((asks[:2], ["TOOL_249"]), (asks, ["TOOL_250", "TOOL_249"]), ([frame.replace("EA00", "EAFF") for frame in asks[:2]], ["all"])):
            tables, _, said = self.plan(self.log(*frames * 3, step=0.05), "--groups", known)
            self.assertIn("check: ok", said)
            self.assertEqual(sorted((flow.what, flow.on_request) for flow in tables.flows), sorted((f"SOFT from ECU_0 to {name}", True) for name in to))


class Whole(FromLogs):
    def test_round_trip(self) -> None:
        """Of a drive by each example the plan differs from it in what a log can't show; and the log has no deviation from it."""
        for plan in plans():
            tables = Tables.shown(program.call(["show", "--", plan])[1]) if program.call(["check", "--", plan])[0] == 0 else None
            if tables is None or not tables.flows or max(Counter(unit.address for unit in tables.units).values()) > 1:
                continue  # no bus that works, or one on which units move
            with self.subTest(plan=os.path.basename(plan)):
                self.trip(plan, tables)

    def trip(self, plan: str, tables: Tables) -> None:
        """The plan of a drive by another plan."""
        log, made = self.write("drive.log", log_of(plan, 24)), self.path("made.toml")
        status, _, said = run("log2plan.py", log, "--groups", plan, "-o", made)
        self.assertEqual((status, "check: ok" in said), (0, True), said)
        self.assertEqual(run("against.py", made, log)[:2], (0, "deviations 0\n"))
        found = {(flow.group, flow.sender, flow.to): flow for flow in Tables.of(made).flows}
        for flow in tables.flows:
            other = found.pop((flow.group, flow.sender, flow.to), None)
            if other and flow.period and other.period:
                most = max(1.5 * flow.jitter, flow.period / 100) + 3
                self.assertEqual((other.period, other.jitter <= most), (flow.period, True), flow.what)
            self.assertTrue(other or flow.on_request, flow.what)
        self.assertEqual(found, {})
        self.changes(run("compare.py", plan, made)[1], {flow.group for flow in tables.flows if flow.on_request})

    def changes(self, answer: str, asked: set[str]) -> None:
        """Nothing differs but what a log can't show: keys that are hidden, needs, and what is sent on request alone and wasn't asked for."""
        for line in answer.splitlines():
            change = CHANGE.fullmatch(line)
            is_gone = re.search(r": need .*: gone$|breaks: ", line) or any(re.search(rf": (group|flow) {group}\b.*: gone$", line) for group in asked)
            is_count = line.startswith("changes ") or " stands " in line or ": need " in line
            self.assertTrue(is_gone or is_count or change and change[2] in HIDDEN.get(change[1], ()), line)

    def test_drive_without_known_plan(self) -> None:
        """The groups are found as well, by their numbers."""
        plan = example("truck.toml")
        log = self.write("drive.log", log_of(plan, 10))
        tables, _, _ = self.plan(log)
        self.assertEqual(Counter(group.pgn for group in tables.groups), Counter(group.pgn for group in Tables.of(plan).groups))
        self.assertEqual(run("against.py", self.path("made.toml"), log)[:2], (0, "deviations 0\n"))

    @needs("canmatrix", "python3-canmatrix")
    def test_dbc(self) -> None:
        """A DBC names units, groups and signals."""
        plan = example("axle.toml")
        dbc = self.write("axle.dbc", run("plan2dbc.py", plan)[1])
        tables, _, _ = self.plan(self.write("drive.log", log_of(plan, 3)), "--dbc", dbc)
        planned = Tables.of(plan)
        self.assertEqual({unit.label for unit in tables.units}, {unit.label for unit in planned.units})
        self.assertEqual({group.label: [signal.label for signal in group.signals] for group in tables.groups},
                         {group.label: [signal.label for signal in group.signals] for group in planned.groups})

    def test_outputs(self) -> None:
        """A file, JSON, notes and their status; several files of a drive, and one from a pipe."""
        log = self.log("18FEEE00#7DFFFFFFFFFFFFFF", "18EA00F9#DDFE00")
        status, answer, said = run("log2plan.py", log, "--json", "-o", self.path("p.toml"), "--fail-on-notes", "--notes", self.path("n"))
        row = json.loads(answer)
        self.assertEqual((status, [unit["label"] for unit in row["units"]], [flow["count"] for flow in row["flows"]]), (1, ["ECU_0", "TOOL_249"], [1]))
        self.assertEqual((row["check"], len(row["notes"]), text_of(self.path("n")).count("\n")), ("ok 2 units 1 groups 1 flows", 1, 1))
        self.assertIn('label = "PGN_65262"', text_of(self.path("p.toml")))
        self.assertTrue(said.endswith("2 units 1 groups 1 flows 0 requests, notes 1; check: ok 2 units 1 groups 1 flows\n"))
        piped = run("log2plan.py", "/dev/stdin", text=text_of(log))
        self.assertEqual(piped[1].partition("version")[2], text_of(self.path("p.toml")).partition("version")[2])
        self.assertEqual(len(self.plan(log, self.write("more.log", "(11.000000) can0 18FEEF00#FFFFFFFFFFFFFFFF\n"))[0].groups), 2)

    def test_bitrate(self) -> None:
        _, text, _ = self.plan(self.log(*["18FEEE00#7DFFFFFFFFFFFFFF"] * 5), "--bitrate", "500000")
        self.assertIn("[timing]\nbitrate = 500000\n", text)

    def test_no_log(self) -> None:
        status, answer, said = run("log2plan.py", example("truck.toml"))
        self.assertEqual((status, answer), (2, ""))
        self.assertIn("has no frame", said)
        self.assertEqual(run("log2plan.py", self.path("none.log"))[0], 4)
        for text in ("", "(1.0) can0 123#00\n(1.1) can0 124#0011\n"):
            log = self.write("other.log", text)
            self.assertEqual(run("log2plan.py", log, "-o", self.path("p.toml")),
                             (2, "", f"log2plan: {log}: no frame has an identifier of 29 bits, so there is nothing to plan\n"))
            self.assertFalse(os.path.exists(self.path("p.toml")))

    def test_a_log_that_is_cut(self) -> None:
        """Its last line isn't counted as a frame; the rest gives a plan."""
        *lines, last = text_of(self.log(*["18FEEE00#7DFFFFFFFFFFFFFF"] * 4)).splitlines(keepends=True)
        for left in (1, 15, 22, last.index("#") + 4):
            _, text, _ = self.plan(self.write("drive.log", "".join([*lines, last[:left]])))
            self.assertIn("2 distances of 100 ms: too few for a period", text)


if __name__ == "__main__":
    unittest.main()
