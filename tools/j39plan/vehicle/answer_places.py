"""Where the answers on a vehicle belong: the file and the line of each finding and refusal, in the vehicle's file or in the plan of a bus, and a
hint."""

from collections.abc import Callable, Iterator
from typing import NamedTuple

from j39plan import program
from j39plan.plan import answer_places
from j39plan.plan.answer_grammar import Line
from j39plan.plan.answer_places import PlacedPart
from j39plan.plan.parts import Source
from j39plan.plan.toml_places import Place
from j39plan.vehicle.answer_grammar import Block, answer_of, line_of
from j39plan.vehicle.files import Vehicle, plan_file
from j39plan.vehicle.hints import contents, forwards, needs
from j39plan.vehicle.hints.refusals import refusal
from j39plan.vehicle.tables import Bus, VehicleTables
from j39plan.vehicle.ways import Ways, signal_of


class InFile(NamedTuple):
    """A part of an answer with the name of the file in which its line is, and the label of the bus whose plan that is, empty of the vehicle's file."""

    file: str
    bus: str
    part: PlacedPart


class FindingHint(NamedTuple):
    """The table and the key of a vehicle's file to look at, and a hint that names the key."""

    place: Place
    key: str
    hint: str


class Findings:
    """Hints at the findings of a vehicle, by the lines of its forwards and needs."""

    def __init__(self, vehicle: Vehicle, lines: list[str]) -> None:
        self._ways, self._tables = Ways(vehicle), vehicle.tables
        told = [line_of(text) for text in lines]
        self._queued = {line.number("forward"): line.number_if_any("within") for line in told if line.kind == "forward"}
        self._needs = {line.number("need"): line for line in told if line.kind == "need"}
        self._by_number: dict[str, Callable[[Line], FindingHint]] = {
            **dict.fromkeys(("G1", "G2", "G3", "G4", "G11"), self._of_ends), **dict.fromkeys(("G5", "G8", "G10", "G12"), self._of_forward),
            "G6": self._of_signal, "G7": self._of_two, **dict.fromkeys(("G9", "G13"), self._of_need), "G14": self._of_queue,
        }

    def told(self, text: str) -> tuple[int, str]:
        """The line of a finding, and a hint."""
        line = line_of(text)
        place, key, hint = self._by_number[line.word("finding")](line)
        return self._ways.vehicle.source.line(place + (key,) if key else place), hint

    def _of_ends(self, line: Line) -> FindingHint:
        """Of a forward: a key, and what is to be known of that."""
        forward = self._tables.forwards[line.number("forward") - 1]
        if line.word("finding") == "G11":
            key, hint = forwards.too_late(self._ways, forward, self._queued.get(forward.number))
        else:
            known = {"G1": forwards.no_input, "G2": forwards.many_inputs, "G3": forwards.no_output, "G4": forwards.many_outputs}
            key, hint = known[line.word("finding")](self._ways, forward)
        return FindingHint(forward.place, key, f"{forward.what}: key {key}: {hint}")

    def _of_forward(self, line: Line) -> FindingHint:
        """Of a forward and the key by which it names what it sends, or says when."""
        forward = self._tables.forwards[line.number("forward") - 1]
        if line.word("finding") == "G5":
            groups = self._ways.group(forward.heard), self._ways.group(forward.sent)
            return FindingHint(forward.place, "as", f"{forward.what}: {contents.layout(*groups, (str(forward.heard), str(forward.sent)))}")
        known = {"G8": forwards.loop, "G10": forwards.too_often, "G12": forwards.too_rare}
        key = "mode" if line.word("finding") == "G10" else "as"
        return FindingHint(forward.place, key, f"{forward.what}: {known[line.word('finding')](self._ways, forward)}")

    def _of_signal(self, line: Line) -> FindingHint:
        """Of a signal of what is sent, where one that goes into it stands; of a copy where the forward names its group."""
        forward = self._tables.forwards[line.number("forward") - 1]
        sent = signal_of(self._ways.group(forward.sent), line.word("signal"))
        named = f"{sent.label} of {forward.sent}"
        for carried, why in contents.carried_into(self._ways, forward, sent):
            return FindingHint(carried.place, "as", f"{carried.label} into {named}: {why}")
        return FindingHint(forward.place, "as", f"{named}: {contents.of_copy(self._ways.group(forward.heard), sent)}")

    def _of_two(self, line: Line) -> FindingHint:
        """Of two forwards: where the second one stands."""
        first, second = (self._tables.forwards[line.number(part) - 1] for part in ("forward", "other"))
        return FindingHint(second.place, "", forwards.two_forwards(self._ways, first, second))

    def _of_need(self, line: Line) -> FindingHint:
        """Of a need: a key, and why it isn't met or too old."""
        need = self._tables.needs[line.number("need") - 1]
        if line.word("finding") == "G9":
            key, hint = needs.unmet(self._ways, need)
        else:
            said = self._needs[need.number]
            key, hint = "within", needs.old(self._ways, need, said.number_if_any("age"), [int(number) for number in said.word("by").split()])
        return FindingHint(need.place, key, f"{need.what}: key {key}: {hint}")

    def _of_queue(self, line: Line) -> FindingHint:
        """Of a gateway: its units."""
        gateway = next(gateway for gateway in self._tables.gateways if gateway.label == line.word("gateway"))
        return FindingHint(gateway.place, "unit", f"key unit: {forwards.shared_queue(self._ways, gateway.label, line.word('bus'))}")


def of_choices(bus: Bus, vehicle: Source, data: bytes) -> PlacedPart:
    """That the plan of a bus is one of a line of vehicles: where its choices begin, and what to name in its place."""
    line, named = Source(data.decode(errors="replace")).line(("choice", 1)), vehicle.line((*bus.place, "plan"))
    hint = f'{vehicle.name}:{named}: plan = "{bus.plan}" has choices: name the plan of one vehicle, by variant.py {bus.plan} LABEL.. > one.toml'
    return PlacedPart(line, program.CHOICES, hint, [])


def of_bus(vehicle: Source, bus: Bus, block: Block) -> Iterator[InFile]:
    """The parts of what is said of a bus, with their places in the file of its plan."""
    yield InFile(vehicle.name, "", PlacedPart(None, f"bus {block.bus}", "", []))
    file = plan_file(vehicle.name, bus.plan)
    with open(file, "rb") as opened:
        data = opened.read()
    for part in answer_places.placed(data, block.answer):
        yield InFile(file, block.bus, of_choices(bus, vehicle, data) if part.answer == program.CHOICES else part)


def placed(name: str, data: bytes, answer: str) -> Iterator[InFile]:
    """The parts of an answer on a vehicle's file of this name; those that say what is wrong with their places."""
    source = Source(data.decode(errors="replace"), name)
    found = answer_of(answer)
    buses = {bus.label: bus for bus in VehicleTables(source).buses} if found.blocks else {}
    for block in found.blocks:
        yield from of_bus(source, buses[block.bus], block)
    findings: Findings | None = None
    for text in found.rest:
        kind = line_of(text).kind
        line, hint = None, ""
        if kind == "refused":
            line, told = refusal(source, name, data, text)
            hint = told or ""
        elif kind == "finding":
            findings = findings or Findings(Vehicle(source, name), found.rest)
            line, hint = findings.told(text)
        yield InFile(name, "", PlacedPart(line, text, hint, []))
