"""How many frames of no flow come within the bound of each flow, counted as they come, is what all of them together tell."""

import random
import re
import unittest

from j39plan.log.checks.deviations import Found
from j39plan.log.checks.unplanned import KEPT, Bound, Unplanned
from j39plan.plan.tables import Tables
from tests.support import example, there

TABLES = Tables.of(example("truck_queues.toml"))


def most_of(frames: list[tuple[int, int]], bounds: list[Bound]) -> dict[int, int]:
    """The most frames within each bound that may go before its flow, as far as these are more than planned."""
    found = {}
    for bound in bounds:
        times = [at for at, identifier in frames if identifier < bound.identifier]
        count = max((sum(at - bound.within <= other <= at for other in times[:place + 1]) for place, at in enumerate(times)), default=0)
        if count > there(TABLES.timing).unplanned:
            found[bound.number] = count
    return found


class Counted(unittest.TestCase):
    def told(self, frames: list[tuple[int, int]], bounds: list[Bound]) -> tuple[int, int, int]:
        """The flow that most may go before, how many that are, and of how many flows it is told."""
        found = Found()
        counts = Unplanned(TABLES, bounds, found)
        for line, (at, identifier) in enumerate(frames, 1):
            counts.came(line, at, identifier)
        counts.end({})
        (one,) = found.all()
        others = re.search(r"before (\d+) other flows", one.detail)
        return there(one.flow), there(one.place.value), 1 + int(others[1] if others else 0)

    def test_random_frames(self) -> None:
        for seed in range(20):
            chance = random.Random(seed)
            bounds = [Bound(number, chance.randint(20, 400), chance.choice((300, 500, 900))) for number in range(1, 8)]
            at, frames = 0, list[tuple[int, int]]()
            for _ in range(300):
                at += chance.choice((0, 1, 7, 60))
                frames.append((at, chance.choice((100, 300, 499, 500, 950))))
            most = most_of(frames, bounds)
            first = max((bound for bound in bounds if bound.number in most), key=lambda bound: (most[bound.number], bound.within, bound.identifier, -bound.number))
            self.assertEqual(self.told(frames, bounds), (first.number, most[first.number], len(most)))

    def test_long_logs(self) -> None:
        """Times that count no more are dropped, and those that do aren't."""
        frames = [(at * 10, 100) for at in range(2 * KEPT)] + [(20 * KEPT, 100)] * 3
        self.assertEqual(self.told(frames, [Bound(2, 100, 500), Bound(1, 50, 50)]), (2, 13, 1))

    def test_time_that_goes_back(self) -> None:
        """What came before isn't counted with what comes behind it."""
        self.assertEqual(self.told([(100, 1), (101, 1), (102, 1), (50, 1), (51, 1)], [Bound(1, 1000, 5)]), (1, 3, 1))


if __name__ == "__main__":
    unittest.main()
