"""The forwards by which a gateway can send on what it hears on a bus, by the plans of that bus and of another one: of each group that both have, copied."""

from collections.abc import Iterator
from dataclasses import dataclass

from j39plan.left_out import LeftOut, Notes
from j39plan.plan.hints.requests import sent_by
from j39plan.plan.tables import Flow, Group, Need, Tables
from j39plan.plan.text import spelled
from j39plan.vehicle.hints.contents import layout, of_copy
from j39plan.vehicle.hints.forwards import listed
from j39plan.vehicle.tables import OnBus


@dataclass(frozen=True)
class GatewayEnd:
    """A bus by its label, its plan, and the unit of the gateway there; whether that was named, and isn't called as the gateway."""

    bus: str
    tables: Tables
    unit: str
    is_named: bool

    def on(self, group: Group) -> OnBus:
        """A group of the bus."""
        return OnBus(self.bus, group.label)


@dataclass(frozen=True)
class Wish:
    """How the gateway sends on: its label, from whom, None where from whomever; at moments of its own, and within how many ms, None where that isn't known."""

    gateway: str
    sender: str | None
    is_periodic: bool
    within: int | None


@dataclass(frozen=True)
class Made:
    """A forward that was made: the group that is heard, the one that is sent, to whom where that has to be said, and whether at moments of its own."""

    heard: OnBus
    sent: OnBus
    to: str
    is_periodic: bool


def input_of(one: GatewayEnd, group: Group, sender: str | None) -> Flow:
    """The one flow that brings the gateway's unit a group."""
    need = Need(one.unit, group.label, sender=sender or "")
    flows = [flow for flow in one.tables.flows if need.is_met_by(flow)]
    if not flows:
        raise LeftOut(f"on bus {one.bus} no flow brings it to {one.unit}" + (f" from {sender}" if sender else ""))
    if len(flows) > 1:
        senders = list(dict.fromkeys(flow.sender for flow in flows))
        choice = f": name one of {listed(senders)} by --from" if len(senders) > 1 else ""
        raise LeftOut(f"on bus {one.bus} {len(flows)} flows bring it to {one.unit}{choice}")
    return flows[0]


def outputs_of(other: GatewayEnd, group: Group) -> list[Flow]:
    """The flows in which the gateway's unit sends a group."""
    flows = [flow for flow in other.tables.flows if flow.group == group.label and flow.sender == other.unit]
    if not flows:
        senders = list(sent_by(other.tables, group.label))
        instead = f"{listed(senders)} send{'s' * (len(senders) == 1)} it there" if senders else "nobody does"
        raise LeftOut(f"{other.unit} doesn't send {other.on(group)}, {instead}")
    return flows


def differences(one: GatewayEnd, heard: Group, other: GatewayEnd, sent: Group) -> str:
    """Why messages of a group can't be copied into another one, empty where they can."""
    why = [layout(heard, sent, (str(one.on(heard)), str(other.on(sent))))]
    for signal in sent.signals:
        if said := of_copy(heard, signal):
            why.append(f"{signal.label} of {other.on(sent)}: {said}")
    return "; ".join(filter(None, why))


def match_of(one: GatewayEnd, heard: Group, other: GatewayEnd) -> Group:
    """The group of the other bus that has the number of one, and into which it can be copied; of several the first that the gateway sends."""
    same = [group for group in other.tables.groups if group.pgn == heard.pgn]
    if not same:
        raise LeftOut(f"bus {other.bus} has no group of its number, {heard.pgn}")
    alike = [group for group in same if not differences(one, heard, other, group)]
    if not alike:
        raise LeftOut(differences(one, heard, other, same[0]))
    sent = {flow.group for flow in other.tables.flows if flow.sender == other.unit}
    return next((group for group in alike if group.label in sent), alike[0])


def is_too_often(heard: Flow, sent: Flow) -> bool:
    """Whether a flow may not have each message of the one that is heard, by its period or as it only answers requests."""
    if sent.on_request and not heard.on_request:
        return True
    return sent.period is not None and (heard.period is None or heard.period < sent.period)


class Forwarding:
    """What a gateway can send on from one bus to another, of these groups of the first one; what it can't is noted."""

    def __init__(self, one: GatewayEnd, other: GatewayEnd, groups: list[Group], wish: Wish, notes: Notes) -> None:
        self._one, self._other, self._wish, self._notes = one, other, wish, notes
        self.made: list[Made] = []
        for group in groups:
            try:
                self.made += self._made(group)
            except LeftOut as left_out:
                notes.say(str(one.on(group)), left_out)

    def _made(self, group: Group) -> Iterator[Made]:
        """The forwards of a group: one for each flow in which it is sent."""
        heard = input_of(self._one, group, self._wish.sender)
        sent = match_of(self._one, group, self._other)
        flows = outputs_of(self._other, sent)
        is_one_to_all = len(flows) == 1
        for flow in flows:
            is_periodic = self._wish.is_periodic or is_too_often(heard, flow)
            if is_periodic and not self._wish.is_periodic:
                self._notes.say(str(self._one.on(group)), self._slower(heard, flow))
            yield Made(self._one.on(group), self._other.on(sent), "" if is_one_to_all else flow.to, is_periodic)

    def _slower(self, heard: Flow, sent: Flow) -> str:
        """Why what is sent isn't sent for each message."""
        if sent.on_request and not heard.on_request:
            return f"flow {sent.number} of bus {self._other.bus} answers requests alone, so it is periodic"
        pace = "has no period" if heard.period is None else f"has a period of {heard.period} ms"
        return f"flow {heard.number} of bus {self._one.bus} {pace}, and flow {sent.number} of bus {self._other.bus} one of {sent.period} ms, so it is periodic"

    def text(self) -> str:
        """The forwards as tables of a vehicle's file."""
        return "\n".join("".join(f"{line}\n" for line in self._lines(made)) for made in self.made)

    def _lines(self, made: Made) -> Iterator[str]:
        """The lines of a forward; what is as it is where it isn't said isn't written."""
        yield "[[forward]]"
        keys: list[tuple[str, object]] = [
            ("gateway", self._wish.gateway), ("group", str(made.heard)), ("from", self._wish.sender), ("at", self._one.unit if self._one.is_named else None),
            ("as", str(made.sent)), ("by", self._other.unit if self._other.is_named else None), ("to", made.to or None),
            ("mode", "periodic" if made.is_periodic else None), ("within", self._wish.within),
        ]
        yield from (f"{key} = {spelled(value)}" for key, value in keys if value is not None)
