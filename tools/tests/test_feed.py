"""Lines that are looked at together tell what they tell one by one."""

import io
import math
import random
import subprocess
import unittest
from collections import Counter
from itertools import chain
from typing import NamedTuple

from j39plan import program
from j39plan.log.checks.comparison import Comparison, Settings
from j39plan.log.checks.deviations import Deviation, Found
from j39plan.log.checks.distances import SILENCE, Rule, Tolerance
from j39plan.log.checks.feed import Feed, Noted
from j39plan.log.checks.meter import Meter
from j39plan.log.checks.reader import Reader
from j39plan.log.checks.unplanned import bounds_of
from j39plan.log.files import LINE_MOST
from j39plan.log.reports import Counts
from j39plan.plan.tables import Tables
from tests.drives import log_of
from tests.support import InFolder, example

TABLES = Tables.of(example("truck_queues.toml"))

# Frames of planned groups, and, each seldom, a claim to one address, a refusal, frames with 11 bits, remote, FD, error and damaged ones, and lines of other forms.
PLAIN = ("0CF00400#FFFFFF0019FFFFFF", "18FEEE00#7DFFFFFFFFFFFFFF", "18FEF100#FFFF", "0cf00203#ffffffffffffffff")
ODD = ("18EE0500#0100000000000000", "18E8FF00#01FFFFFFFFEEFE00", "123#00", "0CF00400#R8", "0CF00400##100", "20000088#00000A0000000000", "0CF00400#FFF", "0CF00400#",
       "0CF00400#FF#FF", "0CF00400#FFFF R", "0CF00400#FFFFFFFFFFFFFFFFFF", "no frame", "", "x" * LINE_MOST + " 0CF00400#FF", "0CF00400#FF\r", "1CECFF00 #FF")


class LineByLine(io.BytesIO):
    """A log of which a line comes at a time."""

    def read1(self, _: int | None = -1) -> bytes:
        return self.readline()


class Told(NamedTuple):
    """What a feed has of a log."""

    unheard: list[Noted]
    beside: list[Noted]
    unread: int | None
    last_time: str


def told(log: io.BytesIO) -> Told:
    """What is noted of a log, which is handed on as it is. With a meter each line is looked at by itself."""
    feed, data = Feed(TABLES.timing, Meter() if isinstance(log, LineByLine) else None), log.getvalue()
    assert b"".join(feed.pieces(log)) == data
    beside = list(feed.noted[1])
    return Told(list(feed.unheard(math.inf)), beside, feed.unread, feed.last_time)


class Lines(InFolder):
    def test_together_and_one_by_one(self) -> None:
        for seed, share in enumerate((0, 0.0005, 0.01, 0.3)):
            chance = random.Random(seed)
            frames = [chance.choice(ODD if chance.random() < share else PLAIN) for _ in range(6000)]
            data = "\n".join(f"({1000 + at / 500:.6f}) can{int(chance.random() < share)} {frame}" for at, frame in enumerate(frames)).encode()
            together, one_by_one = told(io.BytesIO(data)), told(LineByLine(data))
            self.assertEqual(together, one_by_one)
            self.assertEqual(bool(together.unheard), share > 0, share)

    def test_each_odd_line_among_others(self) -> None:
        for odd in ODD:
            frames = [*[PLAIN[0]] * 3000, odd, *[PLAIN[0]] * 3000]
            data = "\n".join(f"({1000 + at / 500:.6f}) can0 {frame}" for at, frame in enumerate(frames)).encode()
            self.assertEqual(told(io.BytesIO(data)), told(LineByLine(data)), odd)

    def test_eleven_bits_of_another_interface(self) -> None:
        """They are passed over, seen before or not; not what stands at no interface, nor what looks alike and spells no frame there."""
        lines = ["(1.0) can0 0CF00400#FF", "(1.1) can1 123#00", "(1.2) can1 123#11", "(1.3) can1 123#1 R", "(1.4)  123#22", "x  123#33", "  123#44", "(1.5) can1 123#R", "can0 123#55"]
        log = "\n".join([*lines, *lines]).encode()
        noted = told(io.BytesIO(log)).unheard
        self.assertEqual([one.line for one in noted], [5, 7, 9, 14, 16, 18])
        self.assertEqual(noted, told(LineByLine(log)).unheard)

    def test_messages_that_are_as_planned(self) -> None:
        """A drive that lacks frames, has some twice, a stranger's and a gap, and whose clock is set: each line by itself tells what all do in one go."""
        plan, chance = example("truck_queues.toml"), random.Random(1)
        lines = [line for line in log_of(plan, 8).splitlines(keepends=True) for _ in range(chance.choice((0, 2)) if chance.random() < 0.01 else 1)]
        lines = [line for line in lines if not "(1700000003.5" < line < "(1700000005.1"] + ["(1700000008.1) can0 0CF00455#FFFFFFFFFFFFFFFF\n"]
        lines += [line.replace("(17000000", "(16900000") for line in lines]
        words = [program.path(), "follow", "--all", "--", plan, self.write("drive.log", "".join(lines))]
        answer = subprocess.run(words, stdout=subprocess.PIPE, text=True, check=True).stdout.splitlines(keepends=True)
        together, one_by_one = compared(plan, answer, None), compared(plan, answer, 1)
        self.assertEqual(together, one_by_one)
        self.assertLessEqual({"near", "gap"}, {found.kind for found in together[0]})

    def test_frames_of_no_planned_group(self) -> None:
        """Two of three frames are such, of units and of a stranger, until a claim comes, and behind it: each line by itself tells what all do in one go."""
        plan, lines = example("truck_queues.toml"), list[str]()
        for count, line in enumerate(log_of(plan, 3).splitlines(keepends=True)):
            at = float(line[1:line.index(")")])
            others = [f"({at + more:.6f}) can0 18FDA{count % 4}{source}#{count:016X}\n" for more, source in ((0.0001, "00"), (0.0002, "C8"))]
            lines += [line, *others, *["(1700000001.5) can0 18EEFFC8#0700000000000080\n"] * (count == 700)]
        words = [program.path(), "follow", "--all", "--", plan, self.write("drive.log", "".join(lines))]
        answer = subprocess.run(words, stdout=subprocess.PIPE, text=True, check=True).stdout.splitlines(keepends=True)
        together, one_by_one = compared(plan, answer, None, False), compared(plan, answer, 1, False)
        self.assertEqual(together, one_by_one)
        told = Counter(found.kind for found in together[0])
        self.assertEqual((told["no-group"], sum(found.times for found in together[0] if found.kind == "no-group")), (12, len(lines) // 3 * 2))
        self.assertEqual(told["unplanned"], 1)


def compared(plan: str, answer: list[str], most: int | None, keeps_all: bool = True) -> tuple[list[Deviation], list[tuple[str, ...]]]:
    """What is told of what `follow` writes of a log, of which so many lines are taken at once, and the table of its flows."""
    found, lines, settings = Found(keeps_all), iter(answer), Settings(Tolerance(0, 0, ""), Rule(SILENCE, frozenset(), False))
    comparison = Comparison(TABLES, bounds_of(plan, TABLES), settings, found)
    reader = Reader(comparison, Feed(TABLES.timing), TABLES, Counts())
    for line in lines:
        reader.take(chain((line,), lines), most)
    comparison.ends(comparison.clock.last, True)
    return list(found.all()), [*comparison.distances.table()]


if __name__ == "__main__":
    unittest.main()
