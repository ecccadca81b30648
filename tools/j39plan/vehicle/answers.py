"""What the program answers of a vehicle's file, with the places of what is wrong."""

import os
from typing import NamedTuple

from j39plan import program
from j39plan.plan.parts import Source
from j39plan.vehicle.answer_places import InFile, placed
from j39plan.vehicle.files import plan_file
from j39plan.vehicle.further_faults import further_faults


class VehicleAnswer(NamedTuple):
    """The exit status of the program, the parts of its answer, and what else is wrong in a file that it refuses."""

    status: int
    parts: list[InFile]
    further: list[InFile]


def readable(name: str, copy: str) -> str:
    """The name by which the program reads a vehicle's file: its own, since plans are looked for beside it; of what can be read only once that of a
    copy."""
    return name if os.path.isfile(name) else copy


def refuse_missing(shown: str, name: str, source: Source) -> None:
    """Refuses a vehicle's file of which a plan can't be opened, by the line that names it."""
    for bus in source.places.elements(("bus",)):
        plan = source.places.texts.get((*bus, "plan"), "")
        try:
            with open(plan_file(name, plan), "rb"):
                pass
        except OSError as fault:
            raise program.Refused(program.DEVICE, f'{shown}:{source.line((*bus, "plan"))}: plan = "{plan}": {fault.strerror}') from None


def answered(shown: str, name: str, data: bytes) -> VehicleAnswer:
    """What the program answers of a vehicle's file, whose name is shown as the one by which it was given."""
    status, answer = program.call(["vehicle", "--", name])
    if status == program.DEVICE:
        refuse_missing(shown, name, Source(data.decode(errors="replace")))
    parts = list(placed(name, data, answer)) if answer else []
    further = further_faults(name, data, parts)
    renamed = [[InFile(shown, bus, part) if file == name else InFile(file, bus, part) for file, bus, part in some] for some in (parts, further)]
    return VehicleAnswer(status, *renamed)
