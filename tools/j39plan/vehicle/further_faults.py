"""What else is wrong in the file of a vehicle, or of the plan of a bus, that the program refuses: it tells the first fault alone."""

from j39plan.plan import further_faults as plan_faults
from j39plan.plan.answer_places import PlacedPart
from j39plan.plan.further_faults import Fault, errors_of, faults_of
from j39plan.plan.hints.text_faults import Told
from j39plan.plan.parts import Source
from j39plan.plan.toml_places import Place, table_of
from j39plan.vehicle.answer_places import InFile
from j39plan.vehicle.format import listed, schema
from j39plan.vehicle.hints.refusals import missing_key, unlisted_key, value_fault

VERSIONS = (1,)


def told_of(source: Source, fault: Fault) -> Told:
    """The line of a fault, and a hint."""
    if fault.cause == "Missing":
        return missing_key(source, fault.table, fault.key)
    if fault.key not in listed(table_of(fault.table)):
        return unlisted_key(source, fault.table, fault.key)
    return value_fault(source, fault.table, fault.key, fault.cause)


def by_schema(text: str, left_out: set[str]) -> list[Told]:
    """The faults of a text by the schema of vehicles, but for keys that aren't there since they were left out or are misspelled."""
    source = Source(text)
    faults = dict.fromkeys(fault for error in errors_of(text, schema(), VERSIONS) for fault in faults_of(error))
    unlisted: dict[Place, str] = {fault.table: told_of(source, fault)[1] or "" for fault in faults if fault.cause == "UnknownKey"}
    return [told_of(source, fault) for fault in faults if fault.cause != "Missing" or not (
        fault.key in left_out or unlisted.get(fault.table, "").endswith(f"; did you mean {fault.key}?"))]


def further_faults(name: str, data: bytes, parts: list[InFile]) -> list[InFile]:
    """What else is wrong in the file that an answer refuses: that of the vehicle of this name, or that of the plan of its last bus."""
    if not parts or not parts[-1].part.answer.startswith("refused "):
        return []
    file, bus, last = parts[-1]
    found: list[PlacedPart]
    if bus:
        with open(file, "rb") as opened:
            found = plan_faults.further_faults(opened.read(), [last])
    else:
        found = plan_faults.further_faults(data, [last], by_schema)
    return [InFile(file, bus, part) for part in found]
