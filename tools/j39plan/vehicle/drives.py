"""Which logs are of which bus of a vehicle: by the label before their names, or by the interfaces that their lines name."""

import argparse
import os
import re
from typing import NamedTuple

from j39plan import program
from j39plan.plan.hints.words import likely
from j39plan.plan.parts import Source
from j39plan.vehicle.answers import answered
from j39plan.vehicle.files import Vehicle, is_vehicle

# A log of a bus, an interface that is a bus, and a flow of one.
OF_BUS, INTERFACE = re.compile(r"([A-Za-z0-9_]{1,32})=(.+)", re.DOTALL), re.compile(r"([^\s=]+)=([A-Za-z0-9_]{1,32})")


class BusLogs(NamedTuple):
    """The logs of a bus: its label, the file of its plan, the files of the logs, and the interface that is read of these, None where that is the first."""

    bus: str
    plan: str
    logs: list[str]
    interface: str | None


def interface_of(text: str) -> tuple[str, str]:
    """An interface and the label of its bus."""
    found = INTERFACE.fullmatch(text)
    if found is None:
        raise argparse.ArgumentTypeError(f"{text}: an interface and its bus, as can0=P")
    return found.group(1), found.group(2)


def bus_option(words: argparse.ArgumentParser) -> None:
    """The option by which interfaces of a log are buses of a vehicle."""
    words.add_argument("--bus", metavar="INTERFACE=BUS", type=interface_of, action="append", default=[], help="the interface of the logs that is this bus of the "
                       "vehicle, as can0=P; may be given several times")


def vehicle_in(name: str) -> Vehicle | None:
    """The vehicle that a file is of, None where it is of a plan, or can be read only once. One that the program refuses is refused, with its line."""
    if not os.path.isfile(name):
        return None
    with open(name, "rb") as file:
        data = file.read(program.INPUT_MOST + 1)
    if not is_vehicle(data):
        return None
    status, parts, _ = answered(name, name, data)
    if status not in (0, 1):
        raise program.Refused(status, "\n".join(f"{part.file}:{part.part.line}: {part.part.text}" for part in parts if part.part.line is not None))
    return Vehicle(Source(data.decode(errors="replace")), name)


def refuse_buses(name: str, interfaces: list[tuple[str, str]]) -> None:
    """Refuses buses where a file is one of a plan."""
    if interfaces:
        raise program.Refused(program.UNREADABLE, f"{name}: it is no vehicle, of which --bus names the buses")


def refuse_variant(name: str, variant: list[str] | None) -> None:
    """Refuses alternatives where a file is one of a vehicle, whose buses have plans of one vehicle."""
    if variant is not None:
        raise program.Refused(program.UNREADABLE, f"{name}: --variant is of a plan, and not of a vehicle's file")


def refuse_unless_there(vehicle: Vehicle, bus: str) -> None:
    """Refuses the label of a bus that the vehicle doesn't have."""
    labels = [other.label for other in vehicle.tables.buses]
    if bus not in labels:
        raise program.Refused(program.UNREADABLE, f"{vehicle.name}: no bus is called {bus}{likely(bus, labels)}")


def refuse_what_is_read_once(name: str) -> None:
    """Refuses a log that several buses can't be read of, since it can be read only once."""
    if os.path.exists(name) and not os.path.isfile(name):
        raise program.Refused(program.UNREADABLE, f"{name}: only a regular file can be read for several buses")


def drives_of(vehicle: Vehicle, names: list[str], interfaces: list[tuple[str, str]]) -> list[BusLogs]:
    """The drives of a vehicle's buses, in their order; of a bus without a log that is said."""
    own: dict[str, list[str]] = {}
    shared = []
    for name in names:
        found = None if os.path.exists(name) else OF_BUS.fullmatch(name)
        if found is None:
            shared.append(name)
        else:
            refuse_unless_there(vehicle, found.group(1))
            own.setdefault(found.group(1), []).append(found.group(2))
    by_bus = {bus: interface for interface, bus in interfaces}
    for bus in by_bus:
        refuse_unless_there(vehicle, bus)
        if bus in own:
            raise program.Refused(program.UNREADABLE, f"bus {bus} has a log of its own, {own[bus][0]}, and an interface of the others")
    if shared and not by_bus:
        raise program.Refused(program.UNREADABLE, f"{shared[0]}: name its bus, as {vehicle.tables.buses[0].label}={shared[0]}, or the bus of each interface by --bus")
    if by_bus and not shared:
        raise program.Refused(program.UNREADABLE, "--bus is of logs that aren't of one bus alone, and there is none")
    for name in shared:
        refuse_what_is_read_once(name)
    return [BusLogs(bus.label, vehicle.file_of(bus), own.get(bus.label, shared), by_bus.get(bus.label))
            for bus in vehicle.tables.buses if is_told(bus.label, own, by_bus)]


def is_told(bus: str, own: dict[str, list[str]], by_bus: dict[str, str]) -> bool:
    """Whether there is a log of a bus; that there is none is said."""
    if bus in own or bus in by_bus:
        return True
    program.say(f"bus {bus}: no log is of it")
    return False


def named_on(vehicle: Vehicle, bus: str, names: list[str], what: str) -> list[str]:
    """What of these flows, as `P.EEC1` or `P.2`, or units is of a bus."""
    for name in names:
        if name.partition(".")[0] not in [other.label for other in vehicle.tables.buses]:
            raise program.Refused(program.UNREADABLE, f"{name}: name the bus of the {what}, as {vehicle.tables.buses[0].label}.{name}")
    return [name.removeprefix(f"{bus}.") for name in names if name.startswith(f"{bus}.")]
