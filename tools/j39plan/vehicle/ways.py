"""The ways over a vehicle's gateways: what a forward hears and sends, and where what a flow brings comes from."""

from collections import defaultdict
from collections.abc import Iterator
from functools import cached_property
from typing import NamedTuple

from j39plan.plan.tables import Flow, Group, Signal
from j39plan.plan.tables import Need as PlanNeed
from j39plan.vehicle.files import Vehicle
from j39plan.vehicle.tables import Forward, Need, OnBus


class Point(NamedTuple):
    """A flow on a bus, and the label of a signal of its group, empty where none is asked for."""

    bus: str
    flow: Flow
    signal: str


class Way(NamedTuple):
    """Where what a flow brings comes from: the points on the way, from its end back, and the forwards by which it goes from each to the next one. It
    `is_whole` where the last point is the origin; else the last forward has no input, or nothing goes into the signal, or the way goes round."""

    points: list[Point]
    forwards: list[Forward]
    is_whole: bool

    @property
    def origin(self) -> OnBus:
        """The unit from which it comes, where the way is whole."""
        return OnBus(self.points[-1].bus, self.points[-1].flow.sender)


def agrees(one: Signal, other: Signal) -> bool:
    """Whether two signals have the same bits, and are read the same way."""
    return all(getattr(one, key) == getattr(other, key) for key in ("span", "kind", "step", "offset", "per", "repeated"))


def agreeing(group: Group, signal: Signal) -> Signal | None:
    """The first signal of a group that agrees with one."""
    return next((other for other in group.signals if agrees(other, signal)), None)


def signal_of(group: Group, label: str) -> Signal:
    """A signal of a group."""
    return next(signal for signal in group.signals if signal.label == label)


class Ways:
    """The ways over the gateways of a vehicle."""

    def __init__(self, vehicle: Vehicle) -> None:
        self.vehicle = vehicle

    def group(self, group: OnBus) -> Group:
        """A group of a bus."""
        return next(other for other in self.vehicle.on(group.bus).groups if other.label == group.label)

    def heard(self, forward: Forward) -> PlanNeed:
        """What the gateway's unit has to hear for a forward."""
        return PlanNeed(self.vehicle.hearer(forward), forward.heard.label, sender=forward.sender)

    def brought(self, forward: Forward) -> list[Flow]:
        """The flows that bring a gateway's unit what it has to hear, also those of the gateway itself."""
        wanted = self.heard(forward)
        return [flow for flow in self.vehicle.on(forward.heard.bus).flows if wanted.is_met_by(flow)]

    @cached_property
    def _inputs(self) -> list[list[Flow]]:
        found = []
        for forward in self.vehicle.tables.forwards:
            own = self.vehicle.gateway(forward.gateway).units_on(forward.heard.bus)
            found.append([flow for flow in self.brought(forward) if flow.sender not in own])
        return found

    def inputs(self, forward: Forward) -> list[Flow]:
        """The flows that a forward hears: none that a unit of the gateway sends."""
        return self._inputs[forward.number - 1]

    @cached_property
    def _outputs(self) -> list[list[Flow]]:
        found = []
        for forward in self.vehicle.tables.forwards:
            sender = self.vehicle.sender(forward)
            found.append([flow for flow in self.vehicle.on(forward.sent.bus).flows
                          if flow.group == forward.sent.label and flow.sender == sender and forward.to in ("", flow.to)])
        return found

    def outputs(self, forward: Forward) -> list[Flow]:
        """The flows that a forward feeds."""
        return self._outputs[forward.number - 1]

    @cached_property
    def _feeding(self) -> dict[tuple[str, int], list[Forward]]:
        """The forwards that feed a flow, by its bus and number."""
        found: dict[tuple[str, int], list[Forward]] = defaultdict(list)
        for forward in self.vehicle.tables.forwards:
            for flow in self.outputs(forward):
                found[forward.sent.bus, flow.number].append(forward)
        return found

    @cached_property
    def _hearing(self) -> dict[tuple[str, int], list[Forward]]:
        """The forwards that hear a flow, by its bus and number."""
        found: dict[tuple[str, int], list[Forward]] = defaultdict(list)
        for forward in self.vehicle.tables.forwards:
            for flow in self.inputs(forward):
                found[forward.heard.bus, flow.number].append(forward)
        return found

    def goes_into(self, forward: Forward, signal: str) -> str:
        """The label of the signal that goes into one of what is sent, empty where there is none."""
        if forward.signals is not None:
            return next((carried.label for carried in forward.signals if carried.into == signal), "")
        found = agreeing(self.group(forward.heard), signal_of(self.group(forward.sent), signal))
        return found.label if found else ""

    def next_forward(self, point: Point) -> Forward | None:
        """The first forward that feeds a flow, and carries the signal; without one it copies."""
        feeding = self._feeding.get((point.bus, point.flow.number), [])
        return next((forward for forward in feeding if forward.copies or point.signal and forward.writes(point.signal)), None)

    def behind(self, point: Point, forward: Forward) -> Point | None:
        """Where a way goes on by a forward."""
        found = self.inputs(forward)
        label = self.goes_into(forward, point.signal) if point.signal else ""
        if not found or point.signal and not label:
            return None
        return Point(forward.heard.bus, found[0], label)

    def way(self, point: Point) -> Way:
        """The way by which what a flow brings comes."""
        points, forwards = [point], list[Forward]()
        while forward := self.next_forward(points[-1]):
            is_round = len(forwards) == len(self.vehicle.tables.forwards)
            forwards.append(forward)
            following = None if is_round else self.behind(points[-1], forward)
            if following is None:
                return Way(points, forwards, False)
            points.append(following)
        return Way(points, forwards, True)

    def feeding(self, bus: str, flow: Flow) -> list[Forward]:
        """The forwards that feed a flow."""
        return self._feeding.get((bus, flow.number), [])

    def handed_on(self, bus: str, flow: Flow) -> tuple[str, Flow]:
        """The flow, with its bus, whose messages one has that is sent on directly, by as many forwards as there are; else the flow itself."""
        for _ in self.vehicle.tables.forwards:
            direct = next((forward for forward in self.feeding(bus, flow) if forward.is_direct), None)
            if direct is None or not self.inputs(direct):
                break
            bus, flow = direct.heard.bus, self.inputs(direct)[0]
        return bus, flow

    def to(self, need: Need) -> Iterator[Way]:
        """The ways of the flows that bring a need's unit its group, wherever they come from."""
        wanted = PlanNeed(need.unit.label, need.group)
        for flow in self.vehicle.on(need.unit.bus).flows:
            if wanted.is_met_by(flow):
                yield self.way(Point(need.unit.bus, flow, need.signal))

    def after(self, forward: Forward) -> list[Forward]:
        """The forwards that hear what one sends."""
        return [other for flow in self.outputs(forward) for other in self._hearing.get((forward.sent.bus, flow.number), [])]

    def loop(self, forward: Forward) -> list[Forward]:
        """The forwards of a shortest loop from one back to it, which begins with it; none where there is no loop."""
        before: dict[int, Forward] = {}
        waiting = [forward]
        for one in waiting:
            for other in self.after(one):
                if other.number == forward.number:
                    return self._back(one, forward, before)
                if other.number not in before:
                    before[other.number] = one
                    waiting.append(other)
        return []

    @staticmethod
    def _back(last: Forward, first: Forward, before: dict[int, Forward]) -> list[Forward]:
        """The forwards from the first one to the last one, by the one before each."""
        found = [last]
        while found[-1].number != first.number:
            found.append(before[found[-1].number])
        return found[::-1]
