"""Messages of a flow in a row: what no distance shows by itself, since a wait on the bus explains each one."""

import unittest
from collections.abc import Iterable

from j39plan.log.checks.deviations import Found
from j39plan.log.checks.distances import SILENCE, Distances, Rule, Tolerance
from j39plan.log.checks.tracks import Heard
from j39plan.log.clock import MILLISECOND
from j39plan.plan.tables import Flow

PLACE = ("flow", 1)
FLOW = "flow 1, CCVS from ENGINE to all: "


def distances(found: Found, wait: float, jitter: str, pause: int | None = None, own: int = 0, first: dict[str, int] | None = None,
              free: dict[str, int] | None = None) -> Distances:
    """Those of a flow of 100 ms that may wait so long on the bus, in ms."""
    flow = Flow("CCVS", "ENGINE", "all", 100, own, pause, place=PLACE)
    heard = Heard(first or {}, free or {}, {}, {})
    return Distances([flow], Tolerance.of(jitter), Rule(SILENCE, frozenset(), False), {1: int(wait * MILLISECOND)}, heard, found)


def told(moments: Iterable[float], wait: float = 22.7, jitter: str = "0", pause: int | None = None, own: int = 0) -> list[str]:
    """What is told of messages at these moments, in ms; how often, and the worst one."""
    found = Found()
    looked = distances(found, wait, jitter, pause, own)
    for line, at in enumerate(moments, 1):
        looked.sent(1, line, int(at * MILLISECOND))
    return [f"{one.place.line} {one.told.removeprefix(FLOW)} ({one.times})" for one in found.all()]


def each(step: float, count: int, begin: float = 0) -> list[float]:
    """Moments so far apart."""
    return [begin + step * number for number in range(count)]


class Rows(unittest.TestCase):
    def test_a_flow_that_is_sent_too_often(self) -> None:
        """Each 80 ms in place of 100: 20 ms are less than a wait, 40 ms of two are more. Where that is told a row begins."""
        text = "{} ms apart in the mean of several in a row, its period is 100 ms: no wait explains all"
        self.assertEqual(told(each(80, 11)), [f"3 {text.format(80)} (5)"])
        self.assertEqual(told(each(50, 11), wait=51), [f"3 {text.format(50)} (5)"])
        self.assertEqual(told([*each(80, 2), *each(100, 50, 180)]), [])

    def test_a_flow_that_is_sent_too_seldom(self) -> None:
        """Each 170 ms, its pause is 150."""
        text = "170 ms apart in the mean of several in a row, its pause is 150 ms: no wait explains all"
        self.assertEqual(told(each(170, 11), pause=150), [f"3 {text} (5)"])
        self.assertEqual(told([*each(170, 2), *each(150, 50, 320)], pause=150), [])

    def test_what_waits_explain(self) -> None:
        """Each message comes by up to its wait behind its moment, or not: that is 22.7 ms nearer or later at most, however many there are."""
        late = [at + (22.7 if number % 3 else 0) for number, at in enumerate(each(100, 300))]
        self.assertEqual(told(late, pause=100), [])
        self.assertEqual(told([0, 122.7, *each(100, 50, 200)]), [])

    def test_the_jitter_of_the_plan_counts_once(self) -> None:
        """A message is queued up to 15 ms behind its moment: each 85 ms isn't that."""
        self.assertEqual(told([0, 115, *each(100, 50, 200)], wait=0, own=15), [])
        self.assertEqual(len(told(each(85, 10), wait=0, own=15)), 1)

    def test_what_the_option_passes_over_counts_for_each_distance(self) -> None:
        self.assertEqual(told(each(91, 100), jitter="10%"), [])
        self.assertEqual(told(each(109, 100), jitter="10%", pause=100), [])
        self.assertEqual(len(told(each(80, 100), jitter="10%")), 1)

    def test_clocks_that_differ(self) -> None:
        """By a tenth of a percent, however long it goes on."""
        self.assertEqual(told(each(99.9, 5000)), [])
        self.assertEqual(told(each(100.1, 5000), pause=100), [])
        self.assertEqual(len(told(each(99.8, 5000))), 1)

    def test_what_a_distance_shows_begins_a_row(self) -> None:
        """50 ms nearer than the period is told by itself, and no more."""
        self.assertEqual(told([0, 50, *each(100, 20, 150)]), ["2 50 ms after the one before, its period is 100 ms (1)"])
        silent = told([0, 300, *each(150, 20, 450)], pause=150)
        self.assertEqual(silent, ["2 not sent for 300 ms before, its pause is 150 ms (1)"])

    def test_what_comes_out_of_order_tells_nothing(self) -> None:
        self.assertEqual(told([0, 100, 99.5, 200, 300]), [])


class Waited(unittest.TestCase):
    def test_what_waited_for_others_of_its_unit(self) -> None:
        """The second message waits 60 ms: neither that it comes so late nor that the next one comes so near is told."""
        for waited, count in ((60, 0), (30, 2)):
            found = Found()
            looked = distances(found, 0, "0", pause=100)
            for line, (at, own) in enumerate(((0, 0), (100, 0), (260, waited), (300, 0), (400, 0)), 1):
                looked.sent(1, line, at * MILLISECOND, own * MILLISECOND)
            self.assertEqual(len(list(found.all())), count)

    def test_from_when_on_a_flow_is_silent(self) -> None:
        """Not before its unit may send behind a claim of another address."""
        moments: list[tuple[dict[str, int], int]] = [({}, 1), ({"ENGINE": 250 * MILLISECOND}, 0), ({"ENGINE": 100 * MILLISECOND}, 1)]
        for free, count in moments:
            found = Found()
            looked = distances(found, 0, "0", pause=150, free=free)
            looked.sent(1, 1, 0)
            looked.sent(1, 2, 400 * MILLISECOND)
            self.assertEqual(len(list(found.all())), count, free)


class AsTimeGoesBy(unittest.TestCase):
    def test_a_flow_is_told_when_it_is_due(self) -> None:
        """500 ms and the wait behind its last message, once; when it comes again how long it was silent is told instead."""
        found, is_under_way = Found(), False
        looked = distances(found, 20, "0")
        looked.watch()
        for line in range(1, 4):
            looked.sent(1, line, line * 100 * MILLISECOND)
            looked.goes_by(line * 100 * MILLISECOND, lambda way, at: False)
        looked.goes_by(820 * MILLISECOND, lambda way, at: False)
        self.assertEqual(list(found.all()), [])
        looked.goes_by(821 * MILLISECOND, lambda way, at: way == ("CCVS", "ENGINE", "all"))  # it is announced
        self.assertEqual(list(found.all()), [])
        for _ in range(2):
            looked.goes_by(1822 * MILLISECOND, lambda way, at: is_under_way)
            stopped = [(one.kind, one.place.line, one.told, one.times) for one in found.all()]
            self.assertEqual(stopped, [("stopped", 3, FLOW + "not sent any more, its period is 100 ms", 1)])
        looked.sent(1, 4, 2000 * MILLISECOND)
        self.assertEqual([(one.kind, one.place.value) for one in found.all()], [("silent", 1700 * MILLISECOND)])
        looked.goes_by(2520 * MILLISECOND, lambda way, at: False)
        looked.goes_by(2521 * MILLISECOND, lambda way, at: False)
        looked.end(9000 * MILLISECOND, ())
        self.assertEqual([one.kind for one in found.all()], ["silent", "stopped"])
