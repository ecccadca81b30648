"""Flows as they were sent so far, by their limits, and when their units were heard."""

from collections.abc import Mapping, MutableMapping
from dataclasses import dataclass
from typing import NamedTuple

from j39plan.log.checks.rows import Row
from j39plan.plan.tables import Flow


# Group, sender and destination.
Way = tuple[str, str, str]


class Limits(NamedTuple):
    """How near messages of a flow may come in nanoseconds, and how far apart, infinite where no silence is told; what the plan has of that; and how
    long one may wait on the bus, so that it comes as much nearer or later."""

    least: int
    most: float
    why: str
    wait: int


@dataclass(slots=True)
class Track:
    """A flow as it was sent so far: its limits and rows, how often, the line and time of its last message, None where there is none to count from, and how
    long that one may have waited for others of its unit."""

    number: int
    flow: Flow
    limits: Limits | None
    often: Row | None
    seldom: Row | None
    count: int = 0
    first: int = 0  # when its distances began, and how many messages had come until then
    begun: int = 0
    line: int = 0
    at: int | None = None
    waited: int = 0
    is_known: bool = False  # whether it was sent before the clock was set, or nothing was heard
    besides: int = 0  # when something came last that ends its silence, and isn't as planned or was asked for besides

    @property
    def name(self) -> str:
        """The flow in words."""
        return f"flow {self.number}, {self.flow.what}"

    def row_ends(self) -> None:
        """The next message begins a row."""
        if self.often:
            self.often.ends()
        if self.seldom:
            self.seldom.ends()


class Off(NamedTuple):
    """When a unit was heard last before it was off, and when it was heard again."""

    last: int
    back: int


class Heard(NamedTuple):
    """When each unit was heard first, and from when on one may send that claimed another address than before; when each was off last; and when each was
    heard last, as far as that is known."""

    first: Mapping[str, int]
    free: Mapping[str, int]
    off: MutableMapping[str, Off]
    last: Mapping[str, tuple[int, int | None, int | None]]


def way_of(flow: Flow) -> Way:
    """The group, the sender and the destination of a flow."""
    return flow.group, flow.sender, flow.to
