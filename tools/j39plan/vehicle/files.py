"""Vehicle files, and those of the plans of their buses."""

from j39plan.plan.hints.refusals import OF_VEHICLES
from j39plan.plan.parts import Source
from j39plan.plan.tables import Tables
from j39plan.vehicle.format import OF_PLANS
from j39plan.vehicle.tables import Bus, Forward, Gateway, VehicleTables


def is_vehicle(data: bytes) -> bool:
    """Whether a file is one of a vehicle, and not of a plan: by the tables of its top."""
    if not any(key.encode() in data for key in OF_VEHICLES):
        return False
    places = Source(data.decode(errors="replace")).places
    return any((key,) in places.lines for key in OF_VEHICLES) and not any((key,) in places.lines for key in OF_PLANS)


def plan_file(vehicle: str, plan: str) -> str:
    """The file of a plan that a vehicle's file names: beside this one, where it doesn't begin at the root."""
    return plan if plan.startswith("/") else vehicle[:vehicle.rfind("/") + 1] + plan


def read(name: str) -> Source:
    """The text of a file that may not be UTF-8."""
    with open(name, "rb") as file:
        return Source(file.read().decode(errors="replace"), name)


class Vehicle:
    """A vehicle that can be read, and the plans of its buses. `name` is that of its file, by which its plans are found."""

    def __init__(self, source: Source, name: str) -> None:
        self.source, self.name = source, name
        self.tables = VehicleTables(source)
        self._plans: dict[str, Source] = {}

    def file_of(self, bus: Bus) -> str:
        """The file of a bus's plan."""
        return plan_file(self.name, bus.plan)

    def bus(self, label: str) -> Bus:
        """A bus."""
        return next(bus for bus in self.tables.buses if bus.label == label)

    def plan(self, label: str) -> Source:
        """The plan of a bus."""
        file = self.file_of(self.bus(label))
        if file not in self._plans:
            self._plans[file] = read(file)
        return self._plans[file]

    def on(self, label: str) -> Tables:
        """The tables of a bus's plan."""
        return self.plan(label).tables

    def gateway(self, label: str) -> Gateway:
        """A gateway."""
        return next(gateway for gateway in self.tables.gateways if gateway.label == label)

    def hearer(self, forward: Forward) -> str:
        """The unit of the gateway that hears what it sends on."""
        return forward.at or self.gateway(forward.gateway).units_on(forward.heard.bus)[0]

    def sender(self, forward: Forward) -> str:
        """The unit of the gateway that sends it on."""
        return forward.by or self.gateway(forward.gateway).units_on(forward.sent.bus)[0]
