"""What `against` has of a log as a whole: when each unit was heard, and requests that the plan doesn't have."""

import json
from collections.abc import Sequence
from typing import Any

from tests import support
from tests.support import InFolder

PLAN = """version = 3
[[unit]]
label = "ENGINE"
address = 0
name = { identity = 1 }
[[unit]]
label = "CAB"
address = 33
name = { identity = 2 }
[[unit]]
label = "TOOL"
address = 249
name = { identity = 3 }
[[group]]
label = "ET1"
pgn = 65262
priority = 6
length = 8
[[group]]
label = "SOFT"
pgn = 65242
priority = 6
length = 8
[[flow]]
group = "ET1"
from = "ENGINE"
to = "all"
[[flow]]
group = "SOFT"
from = "ENGINE"
to = "all"
"""
CLAIMS = ["18EEFF00#0100000000000000", "18EEFF21#0200000000000000", "18EEFFF9#0300000000000000"]
ET1, SOFT, OTHER = "18FEEE00#7DFFFFFFFFFFFFFF", "18FEDA00#01FFFFFFFFFFFFFF", "18FEEB00#41422AFFFFFFFFFF"
OTHER_LONG = ["1CECFF00#20110003FFEBFE00", *(f"1CEBFF00#0{number}AAAAAAAAAAAAAA" for number in (1, 2, 3))]
CAB_SENDS = "18FEEE21#7DFFFFFFFFFFFFFF"


def asks(source: int, to: int, pgn: int) -> str:
    """A request."""
    return f"18EA{to:02X}{source:02X}#{pgn.to_bytes(3, 'little').hex().upper()}"


def says(control: int, source: int, to: int, pgn: int, at: int = 0xFF) -> str:
    """An acknowledgement, in which the address that it is for stands."""
    return f"18E8{at:02X}{source:02X}#{control:02X}FFFFFF{to:02X}{pgn.to_bytes(3, 'little').hex().upper()}"


class OtherRequests(InFolder):
    """A log of a plan in which no request stands."""

    def answer(self, frames: Sequence[tuple[float, str]], *words: str, plan: str = PLAN) -> str:
        """Standard output of a log of frames, each with its time."""
        log = self.write("drive.log", "".join(f"({time:.6f}) can0 {frame}\n" for time, frame in frames))
        _, answer, said = support.run("against.py", *words, self.write("plan.toml", plan), log)
        self.assertEqual(said, "")
        return answer.replace(log, "L")

    def requests(self, frames: Sequence[tuple[float, str]], plan: str = PLAN) -> tuple[list[tuple[Any, ...]], list[tuple[Any, ...]]]:
        """The rows of requests, and the deviations of their kinds."""
        *rows, whole = map(json.loads, self.answer(frames, "--json", plan=plan).splitlines())
        keys = ("from", "to", "asked", "answered", "refused", "unanswered", "line")
        told: list[tuple[Any, ...]] = [(row["kind"], row["unit"], row["line"], row["text"]) for row in rows if "request for" in row["text"]]
        return [(row.get("group", row["pgn"]), *(row[key] for key in keys)) for row in whole["requests"]], told

    def begun(self, *more: tuple[float, str]) -> list[tuple[float, str]]:
        """The claims, a second in which all are heard, and more at so many seconds after it."""
        heard = [(1.0, ET1), (1.001, CAB_SENDS)]
        return [*((0.001 * number, claim) for number, claim in enumerate(CLAIMS)), *heard, *((1.1 + time, frame) for time, frame in more)]

    def test_one_that_is_answered(self) -> None:
        for number, answer, what in ((65242, [SOFT], "SOFT"), (65259, [OTHER], 65259), (65259, OTHER_LONG, 65259)):
            frames = self.begun((0, asks(249, 0, number)), *((0.1 + 0.06 * at, frame) for at, frame in enumerate(answer)), (2, ET1))
            self.assertEqual(self.requests(frames), ([(what, "TOOL", "ENGINE", 1, 1, 0, 0, 6)], []))

    def test_one_that_is_refused(self) -> None:
        """The acknowledgement names the one that asked, or goes to it."""
        for refusal in (says(1, 33, 249, 65242), says(2, 33, 255, 65242, 249), says(3, 33, 255, 65242)):
            rows, told = self.requests(self.begun((0, asks(249, 33, 65242)), (0.1, refusal)))
            self.assertEqual(rows, [("SOFT", "TOOL", "CAB", 1, 0, 1, 0, 6)])
            self.assertEqual([row[:3] for row in told], [("refused", "CAB", 6)])
        self.assertEqual(self.requests(self.begun((0, asks(249, 33, 65242)), (0.1, says(1, 33, 249, 65242))))[1][0][3],
                         "request for SOFT by TOOL to CAB, which the plan doesn't have: is refused")

    def test_what_refuses_nothing(self) -> None:
        """Control byte 0, another unit's, for another unit, of another group, and a request to all."""
        for word in (says(0, 33, 249, 65242), says(1, 0, 249, 65242), says(1, 33, 0, 65242), says(1, 33, 249, 65259)):
            self.assertEqual(self.requests(self.begun((0, asks(249, 33, 65242)), (0.1, word)))[0], [("SOFT", "TOOL", "CAB", 1, 0, 0, 0, 6)])
        self.assertEqual(self.requests(self.begun((0, asks(249, 255, 65242)), (0.1, says(1, 33, 249, 65242))))[0],
                         [("SOFT", "TOOL", "all", 1, 0, 0, 0, 6)])

    def test_one_without_an_answer(self) -> None:
        """Told of a unit that is on and is asked alone; the log's last 1,250 ms don't count."""
        text = "request for PGN 65259 by TOOL to ENGINE, which the plan doesn't have: no answer within 1250 ms"
        frames = self.begun((0, asks(249, 0, 65259)), (1.3, ET1), (1.31, asks(249, 0, 65259)), (1.4, ET1))
        self.assertEqual(self.requests(frames), ([(65259, "TOOL", "ENGINE", 2, 0, 0, 1, 6)], [("unanswered", "ENGINE", 6, text)]))
        frames = self.begun((0, asks(249, 255, 65259)), (3, ET1))
        self.assertEqual(self.requests(frames), ([(65259, "TOOL", "all", 1, 0, 0, 1, 6)], []))

    def test_one_that_is_answered_late(self) -> None:
        """Told of a unit that is on and is asked alone, by the line of the answer."""
        frames = self.begun((0, asks(249, 0, 65242)), (0.3, SOFT), (2, ET1))
        text = "request for SOFT by TOOL to ENGINE, which the plan doesn't have: answered 300 ms after it, later than 200 ms"
        self.assertEqual(self.requests(frames), ([("SOFT", "TOOL", "ENGINE", 1, 1, 0, 0, 6)], [("late", "ENGINE", 7, text)]))
        self.assertEqual(self.requests(self.begun((0, asks(249, 255, 65242)), (0.3, SOFT), (2, ET1)))[1], [])

    def test_one_to_all_that_is_refused(self) -> None:
        """No unit may refuse it; a stranger is no unit of the plan."""
        frames = self.begun((0, asks(249, 255, 65259)), (0.1, says(1, 33, 249, 65259)), (2, ET1))
        text = "request for PGN 65259 by TOOL to all, which the plan doesn't have: CAB refuses it, though it is to all"
        self.assertEqual(self.requests(frames), ([(65259, "TOOL", "all", 1, 0, 0, 1, 6)], [("refused-to-all", "CAB", 6, text)]))
        self.assertEqual(self.requests(self.begun((0, asks(249, 255, 65259)), (0.1, says(1, 77, 249, 65259)), (2, ET1)))[1], [])

    def test_each_unit_answers_what_the_plan_asks_of_all(self) -> None:
        """One that is on and has a flow that serves it; one that refuses it is told of that."""
        more = '[[flow]]\ngroup = "SOFT"\nfrom = "CAB"\nto = "all"\n[[request]]\ngroup = "SOFT"\nfrom = "TOOL"\nto = "all"\n'
        plan = PLAN.replace("version = 3", "version = 4") + more
        cab = SOFT.replace("DA00", "DA21")

        def told(*frames: tuple[float, str]) -> list[str]:
            answer = self.answer(self.begun(*frames), "--events", "SOFT", "--events", "ET1", plan=plan)
            return [line for line in answer.splitlines() if "request 1" in line]

        ask, what = (0.0, asks(249, 255, 65242)), "request 1, SOFT from TOOL to all"
        self.assertEqual(told(ask, (0.1, SOFT), (0.15, cab), (2, ET1)), [])
        self.assertEqual(told(ask, (0.1, SOFT), (2, ET1)), [f"L:6: (1.100000) {what}: no answer of CAB within 1250 ms"])
        self.assertEqual(told(ask, (2, ET1)), [f"L:6: (1.100000) {what}: no answer within 1250 ms"])
        self.assertEqual(told(ask, (0.1, SOFT), (0.2, says(1, 33, 249, 65242)), (2, ET1)),
                         [f"L:8: (1.300000) {what}: CAB refuses it, though it is to all"])
        self.assertEqual(told((3, ET1), (3.1, ask[1]), (3.2, SOFT), (6, ET1)), [])  # CAB is off

    def test_a_unit_that_is_off_is_not_accused(self) -> None:
        frames = self.begun((5, ET1), (5.1, asks(249, 33, 65242)), (8, ET1))
        self.assertEqual(self.requests(frames), ([("SOFT", "TOOL", "CAB", 1, 0, 0, 1, 7)], []))

    def test_strangers_ask(self) -> None:
        """They are told as strangers, and what is refused to them is in the table alone."""
        frames = self.begun((0, asks(77, 33, 65242)), (0.1, says(1, 33, 77, 65242)))
        self.assertEqual(self.requests(frames), ([("SOFT", "77", "CAB", 1, 0, 1, 0, 6)], []))

    def test_requests_of_the_plan_and_for_claims_are_none(self) -> None:
        plan = PLAN.replace("version = 3", "version = 4") + '[[request]]\ngroup = "SOFT"\nfrom = "TOOL"\nto = "ENGINE"\n'
        frames = self.begun((0, asks(249, 0, 65242)), (0.1, SOFT), (0.2, asks(249, 255, 60928)), (0.3, asks(249, 33, 65242)), (0.4, says(1, 33, 249, 65242)))
        self.assertEqual(self.requests(frames, plan)[0], [("SOFT", "TOOL", "CAB", 1, 0, 1, 0, 9)])

    def test_a_clock_that_is_set(self) -> None:
        """What was open isn't told."""
        frames = [*self.begun((0, asks(249, 0, 65259))), (200000.0, ET1), (200003.0, ET1)]
        log = self.write("drive.log", "".join(f"({time:.6f}) can0 {frame}\n" for time, frame in frames))
        self.assertNotIn("request for", support.run("against.py", self.write("plan.toml", PLAN), log)[1])

    def test_when_units_were_heard(self) -> None:
        """By the last frame of each; one that never was has its name alone."""
        plan = PLAN + '[[unit]]\nlabel = "AXLE"\naddress = 40\nname = { identity = 4 }\n'
        frames = self.begun((0, CAB_SENDS), (1, ET1))
        whole = json.loads(self.answer(frames, "--json", plan=plan).splitlines()[-1])
        self.assertEqual(whole["units"], [
            {"unit": "ENGINE", "address": 0, "first": 0.0, "last": 2.1, "log": "L", "line": 7},
            {"unit": "CAB", "address": 33, "first": 0.001, "last": 1.1, "log": "L", "line": 6},
            {"unit": "TOOL", "address": 249, "first": 0.002, "last": 0.002, "log": "L", "line": 3},
            {"unit": "AXLE"}])

    def test_the_tables(self) -> None:
        lines = self.answer(self.begun((0, asks(249, 0, 65242)), (0.1, SOFT)), "--table").splitlines()
        at = lines.index("unit    address     first      last  last line")
        self.assertEqual(lines[at + 1:at + 8], [
            "ENGINE        0  0.000000  1.200000  L:7",
            "CAB          33  0.001000  1.001000  L:5",
            "TOOL        249  0.002000  1.100000  L:6",
            "",
            "request  from  to      asked  answered  refused  unanswered  first line",
            "SOFT     TOOL  ENGINE      1         1        0           0  L:6",
            ""])
        self.assertNotIn("request", self.answer(self.begun(), "--table"))
