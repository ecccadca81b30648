"""Writes a plan as one HTML page: units and their NAMEs, groups as maps of their bytes, flows as a matrix, load, and the findings; a vehicle with its
buses side by side, the ways over its gateways as arrows, and the pages of its plans.

The page has no script and loads nothing. It follows the reader's dark or light screen, can be printed, and every table has a caption
and headers, so that a screen reader finds its way. With --watch it is served on this machine and drawn anew as the plan is saved.
"""

import argparse
import os
import re
import sys

from j39plan import program
from j39plan.left_out import plain
from j39plan.plan import page_server
from j39plan.plan.answers import PlanAnswer, findings
from j39plan.plan.diagram import of_line
from j39plan.plan.files import one_variant, opened, text_of
from j39plan.plan.page import page, sections_of
from j39plan.plan.page_choices import choice_section
from j39plan.plan.page_origin import Origin, day, origin_of
from j39plan.plan.parts import Source, source_in
from j39plan.plan.tables import Tables
from j39plan.plan.variants import Line
from j39plan.vehicle.answers import answered, readable
from j39plan.vehicle.drives import refuse_variant
from j39plan.vehicle.files import Vehicle, is_vehicle
from j39plan.vehicle.page import vehicle_page


def read(plan: str) -> tuple[Source, Tables, PlanAnswer]:
    """The text and the tables of a plan's file, and what the program answers of it."""
    checked, source = program.checked(plan), source_in(plan)
    return source, source.tables if source["choice"] else Tables.of(plan), PlanAnswer.of(plan, list(findings(source, checked)))


def page_of(plan: str, title: str, origin: Origin, variant: list[str] | None = None) -> str:
    """The page of a plan that can be read, of its line where it has choices, or of a vehicle of it."""
    footer, line = origin.footer([(os.path.basename(title), bytes_of(plan))]), Line.of(source_in(plan))
    if variant is None:
        choices = choice_section(line, None) if line.choices else ""
        return page(title, *read(plan), footer, f"a line of {of_line(line).count()} vehicles" if choices else "", choices)
    with one_variant(plan, variant) as one:
        taken = line.first(set(variant)) or set()
        labels = ", ".join(label for choice in line.choices for label in choice if label in taken)
        return page(title, *read(one), footer, labels, choice_section(line, taken))


def page_of_vehicle(name: str, file: str, data: bytes, origin: Origin) -> str:
    """The page of a vehicle's file, which is read under another name where it can be read only once."""
    status, parts, _ = answered(name, file, data)
    if status not in (0, 1):
        raise program.Refused(status, "\n".join(f"{part.file}:{part.part.line}: {part.part.text}" for part in parts if part.part.line is not None))
    vehicle = Vehicle(Source(data.decode(errors="replace")), file)
    plans = {plan: sections_of(title_of(plan), *read(plan)) for plan in dict.fromkeys(map(vehicle.file_of, vehicle.tables.buses))}
    files = [(os.path.basename(title_of(name)), data), *((bus.plan, bytes_of(vehicle.file_of(bus))) for bus in vehicle.tables.buses)]
    return vehicle_page(title_of(name), vehicle, parts, plans, origin.footer(dict(files).items()))


def title_of(name: str) -> str:
    """The name of a plan's file as its page has it."""
    return plain(os.fsencode(name).decode(errors="replace"))


def page_of_file(name: str, origin: Origin, variant: list[str] | None) -> str:
    """The page of a plan's or a vehicle's file, which may be a pipe."""
    with opened(name) as copy:
        data = bytes_of(copy)
        if is_vehicle(data):
            refuse_variant(name, variant)
            return page_of_vehicle(name, readable(name, copy), data, origin)
        return page_of(copy, title_of(name), origin, variant)


def bytes_of(name: str) -> bytes:
    """What a file holds."""
    with open(name, "rb") as file:
        return file.read()


def drawn(name: str, variant: list[str] | None = None, date: str | None = None) -> str:
    """The page of a plan's or a vehicle's regular file, with this day on it or today's; of one that can't be read it is said with its line why."""
    data, origin = bytes_of(name), origin_of(date)
    if is_vehicle(data):
        refuse_variant(name, variant)
        return page_of_vehicle(name, name, data, origin)
    with program.file_of(text_of(name)) as plan:
        return page_of(plan, title_of(name), origin, variant)


def plans_beside(name: str) -> list[str]:
    """The files of the plans that a vehicle's file names; none of a plan."""
    data = bytes_of(name)
    if not is_vehicle(data):
        return []
    vehicle = Vehicle(Source(data.decode(errors="replace")), name)
    return [vehicle.file_of(bus) for bus in vehicle.tables.buses]


def port_of(text: str) -> int:
    """A port."""
    if not re.fullmatch(r"\d{1,5}", text) or int(text) >= 1 << 16:
        raise argparse.ArgumentTypeError(f"{text} is no port")
    return int(text)


@program.command
def main(words: list[str] | None = None) -> int:
    """Writes the page, whatever findings the plan has."""
    parser = program.parser(__doc__)
    parser.epilog = "example: %(prog)s plan.toml -o plan.html"
    parser.add_argument("plan", metavar="PLAN", type=program.input_name, help="the name of a plan file, or of a vehicle file")
    forms = parser.add_mutually_exclusive_group()
    forms.add_argument("-o", "--output", metavar="FILE", help="the name of the HTML file; standard output, if none is named")
    forms.add_argument("--watch", action="store_true", help="serve the page, drawn anew as the plan is saved, and print where it is")
    parser.add_argument("--address", help="at which address of this machine the page is served (127.0.0.1)")
    parser.add_argument("--port", type=port_of, help="at which port (any that is free)")
    parser.add_argument("--date", metavar="DAY", type=day, help="the day on the page, as 2026-11-30 (that of SOURCE_DATE_EPOCH, else today by UTC)")
    program.variant_option(parser)
    given = parser.parse_args(words)
    if given.watch:
        watched = page_server.WatchedFile(given.plan, lambda: drawn(given.plan, given.variant, given.date), lambda: plans_beside(given.plan))
        page_server.serve(watched, given.address or "127.0.0.1", given.port or 0)
    elif given.address is not None or given.port is not None:
        parser.error("--address and --port go with --watch")
    text = page_of_file(given.plan, origin_of(given.date), given.variant)
    if given.output is None:
        sys.stdout.buffer.write(text.encode())
        return 0
    with open(given.output, "w", encoding="utf-8") as file:
        file.write(text)
    return 0


if __name__ == "__main__":
    sys.exit(main())
