"""The picture of a whole vehicle: each bus a line with its units below it, and gateways as bars that join buses."""

from collections.abc import Iterator

from j39plan.vehicle.files import Vehicle
from j39plan.vehicle.picture import BESIDE, DOT, Drawing, width_of
from j39plan.vehicle.tables import Bus, Gateway

# How high a line of units is and how wide all of it beside the gateways, how far the units are below their bus, and the width of a gateway.
LINE, WIDTH, BELOW, BAR = 30, 760, 16, 10

# So many units of a gateway on one bus are named.
NAMED = 3


def spelled(vehicle: Vehicle) -> str:
    """The picture in words."""
    buses = "; ".join(f"bus {bus.label} with {', '.join(unit.label for unit in vehicle.on(bus.label).units) or 'no units'}" for bus in vehicle.tables.buses)
    gateways = "; ".join(f"gateway {gateway.label} as {', '.join(map(str, gateway.units))}" for gateway in vehicle.tables.gateways)
    return "; ".join(filter(None, (buses, gateways)))


def lines_of(labels: list[str]) -> Iterator[list[tuple[int, str]]]:
    """Labels in lines that are no wider than the picture, each with its place in its line."""
    line: list[tuple[int, str]] = []
    x = 0
    for label in labels:
        width = width_of(label) + 2 * BESIDE
        if line and x + width > WIDTH:
            yield line
            line, x = [], 0
        line.append((x, label))
        x += width + BESIDE
    if line:
        yield line


def ends_of(gateway: Gateway) -> dict[str, str]:
    """The units that a gateway is on each of its buses, of several the first ones by their labels."""
    labels: dict[str, list[str]] = {}
    for unit in gateway.units:
        labels.setdefault(unit.bus, []).append(unit.label)
    return {bus: ", ".join(some[:NAMED]) + (f", {len(some) - NAMED} more" if len(some) > NAMED else "") for bus, some in labels.items()}


class Overview:
    """The picture in the making. Gateways stand left of the units, each in a column of its own."""

    def __init__(self, vehicle: Vehicle) -> None:
        self.vehicle, self.drawing, self.left = vehicle, Drawing(), 0
        self.columns: dict[str, int] = {}
        for gateway in vehicle.tables.gateways:
            width = max(width_of(said) for said in (gateway.label, *ends_of(gateway).values())) + BAR + 3 * BESIDE
            self.columns[gateway.label] = self.left
            self.left += width
        self.rows: dict[str, int] = {}
        self.height = 0

    def shown(self) -> str:
        """The whole picture."""
        for bus in self.vehicle.tables.buses:
            self._bus(bus)
        for gateway in self.vehicle.tables.gateways:
            self._gateway(gateway)
        return self.drawing.shown(self.height, "Buses, units and gateways", spelled(self.vehicle))

    def _bus(self, bus: Bus) -> None:
        """A bus, with its units that are of no gateway."""
        self.height += LINE
        y = self.rows[bus.label] = self.height
        of_gateways = self.vehicle.tables.units_on(bus.label) & {
            unit.label for gateway in self.vehicle.tables.gateways for unit in gateway.units if unit.bus == bus.label}
        units = [f"{unit.label} {unit.address}" for unit in self.vehicle.on(bus.label).units if unit.label not in of_gateways]
        self.drawing.text(self.left, y - 2 * DOT, f"bus {bus.label}", "start")
        self.drawing.add(f'<line x1="0" y1="{y}" x2="{self.left + WIDTH}" y2="{y}"/>', 0, self.left + WIDTH)
        self.height += BELOW
        for line in lines_of(units):
            for x, label in line:
                width, place = width_of(label) + 2 * BESIDE, self.left + x
                self.drawing.add(f'<rect x="{place}" y="{self.height}" width="{width}" height="{LINE - BESIDE}"/>', place, place + width)
                self.drawing.text(place + width // 2, self.height + LINE // 2, label)
            self.height += LINE

    def _gateway(self, gateway: Gateway) -> None:
        """A gateway as a bar from its first bus to its last one, with a dot and its units at each."""
        x, ends = self.columns[gateway.label], ends_of(gateway)
        rows = [self.rows[bus] for bus in ends]
        top = min(rows) - LINE // 2
        self.drawing.add(f'<rect class="gateway" x="{x}" y="{top}" width="{BAR}" height="{max(rows) - top + DOT + 2}"/>', x)
        self.drawing.text(x, top - DOT, gateway.label, "start")
        for said, y in zip(ends.values(), rows, strict=True):
            self.drawing.add(f'<circle cx="{x + BAR // 2}" cy="{y}" r="{DOT}"/>', x)
            self.drawing.text(x + BAR + DOT, y + LINE // 2, said, "start")


def overview(vehicle: Vehicle) -> str:
    """The picture of a vehicle."""
    return Overview(vehicle).shown()
