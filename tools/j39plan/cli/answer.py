"""Writes what j39plan check, addresses or load answers of a plan, audit of a plan and a log, or vehicle of a vehicle, as a JSON object, each line by its parts."""

import json
import sys

from j39plan import program
from j39plan.log.audit import audit_object, lines_of
from j39plan.plan.answer_objects import answer_object, check_object
from j39plan.plan.answer_places import placed
from j39plan.plan.files import opened
from j39plan.vehicle.answer_objects import vehicle_object
from j39plan.vehicle.answers import answered, readable
from j39plan.vehicle.drives import refuse_variant

COMMANDS = ("check", "addresses", "load", "audit", "vehicle")


def of_vehicle(name: str) -> int:
    """Writes the object of a vehicle, and answers the exit status of the program."""
    with program.copied(name) as copy:
        with open(copy, "rb") as file:
            status, parts, further = answered(name, readable(name, copy), file.read())
    print(json.dumps(vehicle_object(name, status, parts, None, further), indent=1))
    return status


@program.command
def main(words: list[str] | None = None) -> int:
    """Writes the object, and answers the exit status of the program."""
    parser = program.parser(__doc__)
    parser.epilog = "example: %(prog)s load plan.toml"
    parser.add_argument("command", metavar="COMMAND", choices=COMMANDS, help=f"which answer: {', '.join(COMMANDS)}")
    parser.add_argument("plan", metavar="PLAN", type=program.input_name, help="the name of a plan file, of vehicle that of a vehicle file")
    parser.add_argument("log", metavar="LOG", nargs="?", help="of audit the name of a log")
    parser.add_argument("--part", action="store_true", help="the log lacks frames of the bus")
    parser.add_argument("--stamps", metavar="US", help="by how many us the times of a log differ at most (1000)")
    parser.add_argument("--quiet", metavar="MS", help="how many ms without a frame are a gap (by the plan's pauses)")
    program.variant_option(parser)
    given = parser.parse_args(words)
    if (given.command == "audit") != (given.log is not None) or given.command != "audit" and (given.part or given.stamps or given.quiet):
        parser.error("audit alone takes a LOG, --part, --stamps and --quiet")
    if given.command == "vehicle":
        refuse_variant(given.plan, given.variant)
        return of_vehicle(given.plan)
    with opened(given.plan, given.variant) as plan:
        options = ["--part"] * given.part + [word for name, number in (("--stamps", given.stamps), ("--quiet", given.quiet)) if number for word in (name, number)]
        status, answer = program.call([given.command, *options, "--", plan, *([given.log] if given.log else [])])
        if lines := lines_of(answer):
            print(json.dumps(audit_object(given.plan, given.log, status, lines), indent=1))
            return status
        with open(plan, "rb") as file:
            parts = list(placed(file.read(), answer))
    found = check_object(given.plan, status, parts) if given.command == "check" else answer_object(given.plan, status, parts)
    print(json.dumps(found, indent=1))
    return status


if __name__ == "__main__":
    sys.exit(main())
