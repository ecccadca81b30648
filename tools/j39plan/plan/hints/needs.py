"""What is to be known of a need: why no flow meets it, and why what it asks for is too old."""

from __future__ import annotations

from j39plan.j1939 import FRAME_BYTES
from j39plan.plan.hints import requests
from j39plan.plan.tables import Flow, Need, Tables


def named(need: Need) -> str:
    """A need by what is needed, by whom, and from whom where that stands."""
    return f"{need.what} by {need.unit}" + (f" from {need.sender}" if need.sender else "")


def unmet(tables: Tables, need: Need) -> tuple[str, str]:
    """The key of a need that no flow meets where that shows, and why none does."""
    senders = requests.sent_by(tables, need.group)
    if not senders:
        return "group", "no flow sends it"
    if list(senders) == [need.unit]:
        return "unit", f"only {need.unit} itself sends it"
    if need.sender == need.unit:
        return "from", "what a unit itself sends meets no need of it"
    if need.sender and need.sender not in senders:
        return "from", requests.others_send(senders, need.sender)
    to = requests.receivers(senders, {need.sender} if need.sender else set(senders) - {need.unit})
    if "all" in to or need.unit in to:
        return "group", "it is sent only as an answer, and no request of the plan asks for it"
    return "unit", f"it goes to {' and '.join(to)} alone"


def old(tables: Tables, need: Need) -> str:
    """Why no flow that meets a need is shown to bring what is so young."""
    most = tables.longest(need.group)
    if most > FRAME_BYTES:
        return f"its messages have up to {most} bytes, and those of more than {FRAME_BYTES} have no age"
    return "; ".join(f"flow {flow.number} {why_old(flow, need.within or 0)}" for flow in tables.flows if need.is_met_by(flow))


def why_old(flow: Flow, within: int) -> str:
    """Why what a flow brings isn't shown to be so young."""
    return surely_old(flow, within) or f"has a pause of {flow.pause} ms and its delay, which load shows"


def surely_old(flow: Flow, within: int) -> str:
    """Why what a flow brings isn't so young, whatever its delay is; empty where that isn't so."""
    if flow.on_request:
        return "is sent only as an answer"
    if flow.pause is None or flow.period is None:
        lost = [key for key, number in (("period", flow.period), ("pause", flow.pause)) if number is None]
        return f"has no {' and no '.join(lost)}"
    return f"has a pause of {flow.pause} ms, already as long as that" if flow.pause >= within else ""
