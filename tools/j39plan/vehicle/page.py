"""The HTML page of a vehicle."""

import os
import re
from collections.abc import Iterable
from html import escape

from j39plan.plan.answer_grammar import Line
from j39plan.plan.page import document, in_milliseconds, row, section, table
from j39plan.vehicle.answer_grammar import line_of
from j39plan.vehicle.answer_places import InFile
from j39plan.vehicle.files import Vehicle
from j39plan.vehicle.overview import overview
from j39plan.vehicle.page_style import VEHICLE_STYLE
from j39plan.vehicle.picture import picture, short
from j39plan.vehicle.tables import Bus, Forward, Need
from j39plan.vehicle.ways import Way, Ways

# What of a plan's page names its parts, or leads to them: no text has such marks, since quotation marks are escaped there.
NAMES = re.compile(r'( id="| aria-labelledby="|<a href="#)')

HEADINGS = re.compile(r"(</?h)([23])\b")


def nested(bus: str, sections: Iterable[str]) -> str:
    """The sections of a plan's page as a part of another page: with names of their own, and their headings a level lower."""
    whole = NAMES.sub(rf"\g<1>{bus}-", "\n".join(sections))
    return HEADINGS.sub(lambda found: f"{found.group(1)}{int(found.group(2)) + 1}", whole)


class Page:
    """The parts of a vehicle's page, by the parts of what the program answers, and by the sections of its plans' pages."""

    def __init__(self, vehicle: Vehicle, parts: list[InFile], plans: dict[str, dict[str, str]]) -> None:
        self.vehicle, self.parts, self.plans = vehicle, parts, plans
        self.ways = Ways(vehicle)
        self.lines = [line_of(part.part.answer) for part in parts if not part.bus]

    def findings(self) -> str:
        """The findings of gateways and needs with their lines, and how many the plans have."""
        rows: list[str] = []
        for file, bus, part in self.parts:
            if bus or part.line is None:
                continue
            place = f"<code>{escape(os.path.basename(file))}:{part.line}</code>"
            rows.append(row(str(len(rows) + 1), [place, f"<code>{escape(part.answer)}</code>", escape(part.hint) or "–"]))
        last = self.lines[-1]
        if not rows and last.kind == "ok":
            return section("findings", "Findings", ["<p><strong>ok</strong>: <code>vehicle</code> found nothing.</p>"])
        others = last.number("findings") - len(rows)
        told = [f"<p>The plans of the buses have {others} finding{'s' * (others != 1)}.</p>"] if others else []
        heads = ("No.", "File and line", "Finding", "What to look at")
        return section("findings", "Findings", [*told, *([table(f"Findings: {len(rows)}", heads, rows)] if rows else [])])

    def buses(self) -> str:
        """The buses side by side, each with its units."""
        boxes = "\n".join(self._bus(bus) for bus in self.vehicle.tables.buses)
        whole = f"<figure>\n<figcaption>The vehicle: its buses, units with their addresses, and gateways</figcaption>\n{overview(self.vehicle)}\n</figure>"
        return section("buses", "Buses", [whole, f'<div class="buses">\n{boxes}\n</div>'])

    def _bus(self, bus: Bus) -> str:
        """A bus: the file of its plan, how full it is, and its units, those of gateways by these."""
        label, tables = escape(bus.label), self.vehicle.on(bus.label)
        lines = [part.part.answer for part in self.parts if part.bus == bus.label]
        load = next((line.split() for line in lines if line.startswith("load ")), None)
        facts = [f'<a href="#bus-{label}">{escape(bus.plan)}</a>', next((line for line in lines if line.startswith(("ok ", "findings "))), "")]
        if load is not None:
            facts.append(f"{load[1]} of {load[3]} bits a second, {100 * int(load[1]) / int(load[3]):.1f} %")
        owners = {unit.label: gateway.label for gateway in self.vehicle.tables.gateways for unit in gateway.units if unit.bus == bus.label}
        rows = [row(escape(unit.label), [str(unit.address), escape(owners.get(unit.label, "–"))]) for unit in tables.units]
        units = table(f"Units of bus {label}", ("Unit", "Address", "Gateway"), rows)
        return f'<article aria-labelledby="box-{label}">\n<h3 id="box-{label}">{label}</h3>\n<p>{"<br>".join(facts)}</p>\n{units}\n</article>'

    def forwards(self) -> str:
        """What the gateways send on, and when."""
        queued = {line.number("forward"): line for line in self.lines if line.kind == "forward"}
        rows = [self._forward(forward, queued.get(forward.number)) for forward in self.vehicle.tables.forwards]
        heads = ("Forward", "Gateway", "Hears", "From", "Sends", "To", "Mode", "Within", "Queued within", "Jitter", "Signals")
        return section("forwards", "Forwards", [table("What the gateways send on", heads, rows)])

    def _forward(self, forward: Forward, line: Line | None) -> str:
        """A forward; who is heard and to whom it is sent by the flows, where they aren't named."""
        senders = forward.sender or ", ".join(flow.sender for flow in self.ways.inputs(forward)) or "nobody"
        receivers = forward.to or ", ".join(flow.to for flow in self.ways.outputs(forward)) or "nobody"
        limit = line.number_if_any("limit") if line else None
        time = line.number_if_any("within") if line else None
        shown = in_milliseconds(time) if time is not None else "<strong>not shown</strong>" if limit is not None else "–"
        if forward.signals is None:
            signals = "copied"
        else:
            signals = "<br>".join(f"{carried.label} → {carried.into}" + (", nearest" if not carried.exact else "") for carried in forward.signals) or "none"
        return row(str(forward.number), [
            escape(forward.gateway), escape(str(forward.heard)), escape(senders), escape(str(forward.sent)), escape(receivers), forward.mode,
            f"{forward.within} ms" if forward.within else "–", shown, in_milliseconds(limit) if limit is not None else "–", signals])

    def needs(self) -> str:
        """Who needs what from whom, how old it is when it comes, and its way: in words, and as arrows over the buses."""
        told = {line.number("need"): line for line in self.lines if line.kind == "need"}
        if not told:
            why = "<p>Not known: plans of buses have findings that are to be mended first.</p>"
            return section("needs", "Needs", [why])
        rows, pictures = [], []
        for need in self.vehicle.tables.needs:
            line = told[need.number]
            way = self._way(need, line)
            rows.append(row(str(need.number), [
                escape(str(need.unit)), escape(f"{need.group} {need.signal}".strip()), escape(str(need.sender)), age_of(line),
                f"{need.within} ms" if need.within else "–", escape(short(way, need)) if way else "–"]))
            if way:
                caption = f"Need {need.number}: {escape(need.what)}, age: {age_of(line)}" + (f" of {need.within} ms" if need.within else "")
                labels = [bus.label for bus in self.vehicle.tables.buses]
                pictures.append(f"<figure>\n<figcaption>{caption}</figcaption>\n{picture(labels, way, need)}\n</figure>")
        heads = ("Need", "Unit", "Group and signal", "From", "Age", "Not older than", "Way")
        return section("needs", "Needs", [table("Who needs what, and how it comes", heads, rows), *pictures])

    def _way(self, need: Need, line: Line) -> Way | None:
        """The way of which a line tells, None where the need isn't met."""
        forwards = [int(number) for number in line.word("by").split()]
        return next((way for way in self.ways.to(need) if way.is_whole and way.origin == need.sender
                     and forwards == [forward.number for forward in reversed(way.forwards)]), None) if "sent_group" in line.parts else None

    def bus(self, bus: Bus) -> str:
        """What the page of a bus's plan has."""
        label = escape(bus.label)
        inside = nested(bus.label, self.plans[self.vehicle.file_of(bus)].values())
        return (f'<section id="bus-{label}" aria-labelledby="bus-{label}-heading">\n<h2 id="bus-{label}-heading">Bus {label}</h2>\n'
                f"<details>\n<summary>Plan {escape(bus.plan)}</summary>\n{inside}\n</details>\n</section>")


def age_of(line: Line) -> str:
    """How old what a need gets is, in words where that isn't known."""
    age, flow = line.number_if_any("age"), line.number_if_any("flow")
    if "sent_group" not in line.parts:
        return "<strong>not met</strong>"
    if age is None:
        return "<strong>not shown</strong>" if "limit" in line.parts else "–"
    return in_milliseconds(age) + (f" by flow {flow}" if flow is not None else "")


def vehicle_page(title: str, vehicle: Vehicle, parts: list[InFile], plans: dict[str, dict[str, str]], footer: str) -> str:
    """The whole page. The title is the name of the vehicle's file; `plans` has the sections of the pages of the plans by their files."""
    page, tables = Page(vehicle, parts, plans), vehicle.tables
    counts = f"{len(tables.buses)} buses, {len(tables.gateways)} gateways, {len(tables.forwards)} forwards, {len(tables.needs)} needs"
    sections = {"findings": page.findings(), "buses": page.buses(), **({"forwards": page.forwards()} if tables.forwards else {}),
                **({"needs": page.needs()} if tables.needs else {}), **{f"bus-{bus.label}": page.bus(bus) for bus in tables.buses}}
    return document(f"Vehicle {escape(os.path.basename(title))}", f"<p>{counts}.</p>", sections, footer, VEHICLE_STYLE)
