"""Pairs of `j39_line_bounds`: which of two times is worse."""

from __future__ import annotations

import sys

sys.dont_write_bytecode = True
from turned import Pair, Turn

CRATE = "j39_line_bounds"
NUMBERS = "laws::reported_numbers_bound_times"


def in_bounds(name: str, function: str, turns: tuple[Turn, ...]) -> Pair:
    return Pair(name, CRATE, (function,), CRATE, NUMBERS, turns)


PAIRS = (
    in_bounds("an old age is no worse than a young one", "times::need_badness", (
        Turn("specs/LineTimes.antt", "need_badness (need.Age age youngest) = badness_known age", "need_badness (need.Age age youngest) = of_degree 1 0"),
        Turn("src/times.rt", "NeedTime::Age(age, _) => badness_known(*age),", "NeedTime::Age(_, _) => of_degree(1, 0),"),
    )),
    in_bounds("a late flow is no worse than one in time", "times::delay_badness", (
        Turn("specs/LineTimes.antt", "delay_badness (Beyond bits) = of_degree 2 bits", "delay_badness (Beyond bits) = of_degree 1 bits"),
        Turn("src/times.rt", "Delay::Beyond(bits) => of_degree(2, u64::from(*bits)),", "Delay::Beyond(bits) => of_degree(1, u64::from(*bits)),"),
    )),
    in_bounds("an age that isn't known is no worse than one that is", "times::badness_known", (
        Turn("specs/LineTimes.antt", "badness_known None = of_degree 3 0", "badness_known None = of_degree 1 0"),
        Turn("src/times.rt", "None => of_degree(3, 0),\n        Some(time) => of_degree(1, time),", "None => of_degree(1, 0),\n        Some(time) => of_degree(1, time),"),
    )),
    in_bounds("the least of two times is told", "times::is_less_bad", (
        Turn("specs/LineTimes.antt", "((a.degree == b.degree) && nat_lt a.time b.time)", "((a.degree == b.degree) && nat_lt b.time a.time)"),
        Turn("src/times.rt", "one.degree == other.degree && one.time < other.time", "one.degree == other.degree && other.time < one.time"),
    )),
)
