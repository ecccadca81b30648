"""Writes the plan of one vehicle of a line as a plan file: of the first variant that is built and has the alternatives named.

The text is that of the plan without what isn't there and without the keys of choices, comments kept. What `show` answers of it is compared with
what `variant` answers. With --count it is said how many vehicles can be built, with --log of which a log can be, by who claims or sends in it.
"""

import argparse
import json
import sys

from j39plan import program
from j39plan.log.files import interface_option
from j39plan.log.variants import Possible, Claimants, possible_by, refuse_pipes
from j39plan.plan.diagram import of_line
from j39plan.plan.files import opened
from j39plan.plan.variants import line_of, text_of_variant


def lines_of(possible: Possible, seen: Claimants) -> list[str]:
    """What a log says of the vehicle, as text."""
    lines = [f"claims {', '.join(seen.units) or 'of no unit'}"]
    lines += [f"stranger {name}" for name in seen.others]
    lines += [f"sends {' or '.join(labels)}" for labels in seen.sends]
    if seen.silent is None:
        lines.append("the log may begin behind other claims: who doesn't claim may be there")
    lines += [f"choice {number} {' or '.join(labels)}" for number, labels in enumerate(possible.choices, 1)]
    return lines + [f"first {','.join(possible.first)}" if possible.first else "no vehicle of the line"]


def of_log(given: argparse.Namespace) -> int:
    """Writes of which vehicles a log can be; 1 where it is of none."""
    if given.labels:
        raise program.Refused(program.UNREADABLE, "--log asks which alternatives there are: name none")
    refuse_pipes(given.log, given.interface, "--log")
    with opened(given.plan) as plan:
        seen, possible = possible_by(plan, given.plan, given.log, given.interface)
    if given.json:
        print(json.dumps({**seen._asdict(), **possible._asdict()}))
    else:
        print("\n".join(lines_of(possible, seen)))
    return 0 if possible.first else 1


def of_count(given: argparse.Namespace) -> int:
    """Writes how many vehicles can be built, and how many have each alternative; 1 where none can be."""
    if given.labels:
        raise program.Refused(program.UNREADABLE, "--count counts all vehicles: name no alternatives")
    with opened(given.plan) as plan:
        line = line_of(plan)
    if not line.choices:
        raise program.Refused(program.UNREADABLE, f"{given.plan} has no choices")
    diagram = of_line(line)
    count, counts = diagram.count(), diagram.counts()
    nowhere = [label for choice in line.choices for label in choice if not counts[label]]
    if given.json:
        print(json.dumps({"vehicles": count, "choices": [{label: counts[label] for label in choice} for choice in line.choices], "nowhere": nowhere}))
        return 0 if count else 1
    print(f"vehicles {count}")
    for number, choice in enumerate(line.choices, 1):
        print(f"choice {number} {', '.join(f'{label} {counts[label]}' for label in choice)}")
    for label in nowhere:
        print(f"nowhere {label}")
    return 0 if count else 1


@program.command
def main(words: list[str] | None = None) -> int:
    """Writes the plan; 1 where there is no such variant."""
    parser = program.parser(__doc__)
    parser.epilog = "example: %(prog)s line.toml DETROIT RETARDER > detroit.toml"
    parser.add_argument("plan", metavar="PLAN", type=program.input_name, help="the name of a plan file, - for standard input")
    parser.add_argument("labels", metavar="LABEL", nargs="*", help="the label of an alternative of a choice of the plan")
    asked = parser.add_mutually_exclusive_group()
    asked.add_argument("--count", action="store_true", help="say how many vehicles can be built, how many have each alternative, and which are in none")
    asked.add_argument("--log", metavar="LOG", action="append", default=[], help="say of which vehicles a log can be, by who claims or sends in it; may be given several times")
    parser.add_argument("--json", action="store_true", help="with --count and --log: as a JSON object")
    interface_option(parser)
    given = parser.parse_args(words)
    if given.count:
        return of_count(given)
    if given.log:
        return of_log(given)
    with opened(given.plan) as plan:
        written = text_of_variant(plan, given.labels)
    print(written, end="")
    return 0


if __name__ == "__main__":
    sys.exit(main())
