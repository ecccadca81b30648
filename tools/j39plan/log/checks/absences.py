"""What never came in a log: flows that were never sent, needs that nothing met, units that aren't there."""

from collections.abc import Collection, Mapping

from j39plan.j1939 import SERVICE_TOOLS
from j39plan.log.checks.deviations import Found
from j39plan.log.checks.tracks import Way, way_of
from j39plan.plan.tables import Tables, Unit


class Absences:
    """What of a plan never came, by how often messages came of each way, and who was heard."""

    def __init__(self, tables: Tables, events: Collection[int], found: Found) -> None:
        self._flows, self._needs, self._units, self._events, self._found = tables.flows, tables.needs, tables.units, events, found
        self._senders = {*(flow.sender for flow in tables.flows), *(request.sender for request in tables.requests)}

    def tell(self, sent: Mapping[Way, list[int]], others: Collection[Way], heard: Collection[str], has_frames: bool) -> None:
        """Tells all of them; of flows none that came otherwise than planned, which is told by itself, and none of or to a unit that isn't there."""
        away = {unit.label for unit in self._units if has_frames and unit.label not in heard and self._is_seen(unit)}
        for number, flow in enumerate(self._flows, 1):
            is_due = not flow.on_request and number not in self._events and not {flow.sender, flow.to} & away
            if is_due and not sent[way_of(flow)][0] and way_of(flow) not in others:
                self._found.tell("never-sent", f"flow {number}, {flow.what}: never sent", None, flow=number, unit=flow.sender)
        self._tell_unmet(sent)
        for unit in self._units:
            if unit.label in away and unit.address not in SERVICE_TOOLS:
                self._found.tell("absent", f"unit {unit.label}: neither claimed an address nor sent anything", None, unit=unit.label)

    def _is_seen(self, unit: Unit) -> bool:
        """Whether a unit that is there sends something: it claims its address, or has messages or requests to send."""
        return unit.claims or unit.label in self._senders

    def _tell_unmet(self, sent: Mapping[Way, list[int]]) -> None:
        """Tells the needs that nothing met."""
        for number, need in enumerate(self._needs, 1):
            flows = [flow for flow in self._flows if need.is_met_by(flow)]
            if not any(sent[way_of(flow)][0] for flow in flows):
                why = "" if flows else ", and no flow of the plan does"
                self._found.tell("unmet", f"need {number}, {need.what} by {need.unit}: nothing met it{why}", None, unit=need.unit)
