"""What is to be known of requests: why no flow answers one, or not as it was asked; how often they ask for a flow together."""

from __future__ import annotations

from collections.abc import Iterable, Iterator
from fractions import Fraction

from j39plan.plan.parts import Source
from j39plan.plan.tables import Flow, Request, Tables, serves


def named(request: Request) -> str:
    """A request by what is asked for, of whom, and by whom."""
    return f"{request.group} of {request.to} for {request.sender}"


def sent_by(tables: Tables, group: str) -> dict[str, list[Flow]]:
    """Who sends a group: of each sender, in the order of the plan, its flows."""
    found: dict[str, list[Flow]] = {}
    for flow in tables.flows:
        if flow.group == group:
            found.setdefault(flow.sender, []).append(flow)
    return found


def receivers(senders: dict[str, list[Flow]], some: set[str]) -> list[str]:
    """To whom some of the senders send it, in the order of the plan."""
    flows = [flow for sender, flows in senders.items() if sender in some for flow in flows]
    return list(dict.fromkeys(flow.to for flow in sorted(flows, key=lambda flow: flow.number)))


def others_send(senders: Iterable[str], unit: str) -> str:
    """That others send it, and a unit doesn't."""
    names = list(senders)
    return f"{' and '.join(names)} send{'s' * (len(names) == 1)} it, and {unit} doesn't"


def unserved(tables: Tables, request: Request) -> tuple[str, str]:
    """The key of a request that no flow answers where that shows, and why none does."""
    asking, asked = request.sender, request.to
    senders = sent_by(tables, request.group)
    if not senders:
        return "group", "no flow sends it"
    if asked == asking:
        return "to", "the unit that asks"
    if list(senders) == [asking]:
        return "from", f"only {asking} itself sends it"
    if asked != "all" and asked not in senders:
        return "to", others_send(senders, asked)
    to = receivers(senders, {asked} if asked != "all" else set(senders) - {asking})
    return "from", f"it goes to {' and '.join(to)} alone"


def astray(request: Request) -> tuple[str, str]:
    """The key of a request that is answered to others than it was asked for, and how it is to be."""
    if request.to == "all":
        return "to", "where all are asked the answer goes to all, and these flows go to one unit each"
    return "to", "one that is asked answers to the one that asks, and these flows go to all"


# So many requests are named that ask for a flow.
SHOWN = 5


def number(request: Request) -> int:
    """The number of a request in the plan, from 1."""
    return int(request.place[-1])


def asking(tables: Tables, flow: Flow) -> list[Request]:
    """The requests with a period that a flow answers."""
    return [request for request in tables.requests if request.period and serves(flow.group, flow.sender, flow.to, request)]


def apart(requests: Iterable[Request]) -> Fraction:
    """How far apart these come together in the long run, in ms."""
    return 1 / sum((Fraction(1, request.period) for request in requests if request.period), Fraction(0))


def in_ms(time: Fraction) -> str:
    """A time in ms with at most two decimals, rounded down."""
    return f"{int(time * 100) / 100:.2f}".rstrip("0").rstrip(".")


def longest_period(flow: Flow, requests: Iterable[Request]) -> int | None:
    """The greatest period of a flow by which these don't ask for it too often, None where it can have none."""
    period = int(apart(requests))
    return period if period > flow.jitter else None


def too_often(tables: Tables, flow: Flow) -> tuple[str, str]:
    """The key of a flow that is asked for too often, and how often it is."""
    requests = asking(tables, flow)
    told = ", ".join(f"request {number(request)} each {request.period} ms" for request in requests[:SHOWN]) + " .." * (len(requests) > SHOWN)
    together = f": together they come each {in_ms(apart(requests))} ms" if len(requests) > 1 else ""
    period = longest_period(flow, requests)
    return "period", f"{told}{together}" + ("" if period is None else f"; {period} is the greatest period without this")


def without_period(plan: Source) -> Iterator[tuple[int, str]]:
    """Requests of which it isn't said how often they come, in a plan with timing."""
    timing = plan.tables.timing
    for request in plan.tables.requests if timing else ():
        if timing and request.period is None:
            counts = "it counts among the unplanned frames, and its answers as messages of the flow" if timing.unplanned else "nothing is promised while it is sent"
            yield plan.line(request.place), f"request {number(request)} has no period: {counts}"
