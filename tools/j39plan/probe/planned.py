"""The unit that a box on a bench is to be: what its plan says that it sends, gets and answers."""

from __future__ import annotations

from functools import cached_property
from typing import NamedTuple

from j39plan import program
from j39plan.j1939 import ADDRESS_CLAIMED, FRAME_BYTES
from j39plan.plan.answers import Load, load_of
from j39plan.plan.parts import Source
from j39plan.plan.tables import Flow, Group, Need, Tables, Unit
from j39plan.plan.toml_places import Place

# How long a frame waits for others where the plan says nothing of its bus, in seconds: as long as sixteen frames take.
WAITS = 0.01

# What is taken of the bus where the plan says nothing of it.
TIMING = "\n[timing]\nbitrate = 250000\nunplanned = 1\n"

# A group that neither plans nor the standard have, unless another one is named.
UNKNOWN = 60672


class Asked(NamedTuple):
    """A flow that answers requests, its group, and who asks for it, by label, None of nobody in the plan."""

    flow: Flow
    group: Group
    asker: str | None


class Planned:
    """A unit of a plan, with the file in which that is, its text and tables."""

    def __init__(self, file: str, source: Source, label: str) -> None:
        self.file, self.source, self.tables = file, source, Tables.of(file)
        unit = next((unit for unit in self.tables.units if unit.label == label), None)
        if unit is None:
            raise program.Refused(program.UNREADABLE, f"{source.name}: no unit is called {label}")
        self.unit: Unit = unit
        self.groups = {group.label: group for group in self.tables.groups}
        self.others = [other.label for other in self.tables.units if other.label != label]
        self.sent = [flow for flow in self.tables.flows if flow.sender == label]

    def places(self, *places: Place) -> str:
        """Places of the plan, as a compiler says them."""
        lines = sorted({self.source.line(place) for place in places})
        return f"{self.source.name}:{','.join(map(str, lines))}" if lines else ""

    def flow_places(self, flows: list[Flow]) -> list[Place]:
        """The places of flows."""
        return [flow.place for flow in flows]

    @property
    def periodic(self) -> list[Flow]:
        """What it sends by itself at a period."""
        return [flow for flow in self.sent if flow.period and not flow.on_request]

    @cached_property
    def answers(self) -> list[Asked]:
        """What it answers: each group once that it sends on request, or for which the plan has a request to it."""
        found: dict[int, Asked] = {}
        for flow in self.sent:
            if flow.on_request or flow.is_asked:
                asker = next((request.sender for request in self.tables.requests if request.group == flow.group and request.to in (self.unit.label, "all")
                              and request.sender != self.unit.label), None if flow.to == "all" else flow.to)
                found.setdefault(self.groups[flow.group].pgn, Asked(flow, self.groups[flow.group], asker))
        return list(found.values())

    @property
    def got_long(self) -> list[Flow]:
        """Long messages of others to it alone."""
        return [flow for flow in self.tables.flows if flow.to == self.unit.label and self.groups[flow.group].most > FRAME_BYTES]

    @property
    def sent_long(self) -> list[Flow]:
        """Long messages of it to one unit."""
        return [flow for flow in self.sent if flow.to != "all" and self.groups[flow.group].most > FRAME_BYTES]

    @property
    def needs(self) -> list[Need]:
        """What it needs."""
        return [need for need in self.tables.needs if need.unit == self.unit.label]

    def flows_for(self, need: Need) -> list[Flow]:
        """The flows that bring what it needs."""
        return [flow for flow in self.tables.flows if need.is_met_by(flow)]

    @cached_property
    def delay(self) -> float:
        """How long a frame of the plan's bus waits at most by `load`, in seconds."""
        return max((delay.within / 1e6 for delay in self._load.delays if delay.within and delay.frames == 1), default=WAITS) if self._load else WAITS

    @cached_property
    def _load(self) -> Load | None:
        """What `load` answers, None where the plan says nothing of its bus."""
        return load_of(program.call(["load", "--", self.file])[1]) if self.tables.timing else None

    @cached_property
    def share(self) -> float:
        """Which share of its bits the plan's bus takes by `load`, 0 where that isn't known."""
        return self._load.taken[0] / self._load.taken[1] if self._load and self._load.taken else 0.0

    @cached_property
    def audited(self) -> str:
        """The plan's text as `audit` takes it: with a bus, where it says nothing of that."""
        return self.source.text + ("" if self.tables.timing else TIMING)

    @property
    def bitrate(self) -> int:
        """The bits a second of its bus."""
        return self.tables.timing.bitrate if self.tables.timing else 250_000

    def unknown(self, wished: int | None) -> int:
        """A group that the plan doesn't have: the wished one."""
        if wished is not None and wished in {group.pgn for group in self.tables.groups} | {ADDRESS_CLAIMED}:
            raise program.Refused(program.UNREADABLE, f"--unknown {wished}: the plan has this group")
        return UNKNOWN if wished is None else wished
