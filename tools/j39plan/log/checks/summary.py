"""What a log has as a whole, as JSON and as tables: its flows, when each unit was heard, and the requests that the plan doesn't have."""

from collections.abc import Callable, Iterator
from typing import Any

from j39plan.log.clock import SECOND, spelled_time
from j39plan.log.checks.comparison import Comparison
from j39plan.text_tables import aligned

PlaceOf = Callable[[int], tuple[str, int]]

FLOWS = ("flow", "group", "from", "to", "period", "count", "least", "median", "greatest")
UNITS = ("unit", "address", "first", "last", "last line")
REQUESTS = ("request", "from", "to", "asked", "answered", "refused", "unanswered", "first line")


def units_of(comparison: Comparison, place_of: PlaceOf) -> list[dict[str, Any]]:
    """Each unit of the plan: when it was heard first, in seconds, and when and where last, and the address from which it sent then."""
    rows = []
    for label in comparison.units:
        line, at, address = comparison.hands.last.get(label, (0, None, None))
        first, last = (None if time is None else time / SECOND for time in (comparison.hands.first.get(label), at))
        log, number = place_of(line) if line else (None, None)
        row = {"unit": label, "address": address, "first": first, "last": last, "log": log, "line": number}
        rows.append({key: value for key, value in row.items() if value is not None})
    return rows


def requests_of(comparison: Comparison, place_of: PlaceOf) -> list[dict[str, Any]]:
    """The requests that the plan doesn't have."""
    return [row.row(place_of) for row in comparison.others.rows()]


def summary_tables(comparison: Comparison, place_of: PlaceOf) -> Iterator[str]:
    """The tables of flows, of units, and of requests that the plan doesn't have, those that have rows."""
    yield from aligned(FLOWS, comparison.distances.table())
    yield from aligned(UNITS, unit_rows(comparison, place_of))
    yield from aligned(REQUESTS, request_rows(comparison, place_of))


def unit_rows(comparison: Comparison, place_of: PlaceOf) -> Iterator[tuple[str, ...]]:
    """A row for each unit: the address from which it sent last, when it was heard first and last, and where last."""
    for label in comparison.units:
        line, at, address = comparison.hands.last.get(label, (0, None, None))
        first, last = ("-" if time is None else spelled_time(time)[1:-1] for time in (comparison.hands.first.get(label), at))
        yield label, "-" if address is None else str(address), first, last, "{}:{}".format(*place_of(line)) if line else "-"


def request_rows(comparison: Comparison, place_of: PlaceOf) -> Iterator[tuple[str, ...]]:
    """A row for the requests of each for a group that the plan doesn't have: how many, and what became of them."""
    for row in comparison.others.rows():
        counts = map(str, (row.asked, row.answered, row.refused, row.unanswered))
        yield row.what, row.sender.shown, row.to.shown, *counts, "{}:{}".format(*place_of(row.place.line or 0))
