"""The clock of a log: a time that surely goes on needn't be seen, and what is told of the clock is the same."""

import random
import unittest
from collections.abc import Iterator

from j39plan.log.clock import DAY, SECOND, Clock


def spelled(rng: random.Random, at: int) -> str:
    """A time as a log may spell it: mostly in microseconds."""
    seconds, rest = divmod(at, SECOND)
    return rng.choice([f"({seconds}.{rest // 1000:06})"] * 8 + [f"({seconds}.{rest:09})", f"({seconds}.{rest // 10**8})", f"({seconds})", "-", "(x.123456)"])


def times_of(rng: random.Random) -> Iterator[str]:
    """Times that go on, stand still, come out of order, and of a clock that is set."""
    at = rng.choice((0, 9_999 * SECOND, 1_700_009_998 * SECOND))
    for _ in range(300):
        steps = [0, 1000, 10_000_000, rng.randrange(5 * SECOND), rng.randrange(20_000 * SECOND)] * 4
        at = max(at + rng.choice([*steps, -1000, -2_000_000, -rng.randrange(20 * SECOND), 2 * DAY, -2 * DAY]), 0)
        yield spelled(rng, at)


class Clocks(unittest.TestCase):
    def test_what_surely_goes_on_need_not_be_seen(self) -> None:
        rng, passed, told = random.Random(5), 0, 0
        for _ in range(60):
            all_seen, some_seen = Clock(), Clock()
            for line, time in enumerate(times_of(rng), 1):
                all_seen.see(line, time)
                if some_seen.goes_on(time):
                    passed += 1
                else:
                    some_seen.see(line, time)
                self.assertEqual([some_seen.back, some_seen.on, some_seen.first_line], [all_seen.back, all_seen.on, all_seen.first_line], (line, time))
            told += all_seen.back + all_seen.on
        self.assertGreater(passed, 3000)
        self.assertGreater(told, 1000)

    def test_times_that_do_not_surely_go_on(self) -> None:
        clock = Clock()
        for time, goes_on in (("(1700000000.000001)", False), ("(1700000000.000001)", True), ("(1700009999.999999)", True), ("(1700010000.000000)", False),
                              ("(1700010000.000000)", True), ("(1700010000.00000)", False), ("(1700010000.000000)", False), ("(1700005000.000000)", False),
                              ("(170000600000000000)", False), ("-", False), ("-", False), ("(9.000000)", False), ("(9.500000)", True), ("(10.000000)", False),
                              ("(9999.000000)", False), ("(9999.999999)", True)):
            self.assertEqual(clock.goes_on(time), goes_on, time)


if __name__ == "__main__":
    unittest.main()
