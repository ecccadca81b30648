"""Writes the forwards of a vehicle's file by which a gateway sends on what it hears on one bus and sends on another.

Of each group that both plans have, by its number, and into whose layout it can be copied. What is left out is noted on standard error.
"""

import argparse
import os
import re
import sys

from j39plan import program
from j39plan.left_out import Notes, plain
from j39plan.plan.files import text_of
from j39plan.plan.parts import Source
from j39plan.plan.tables import Group, Tables
from j39plan.plan.text import as_label
from j39plan.vehicle.forwarding import GatewayEnd, Forwarding, Wish

# A bus and the file of its plan.
PLAN = re.compile(r"(?:([A-Za-z0-9_]{1,32})=)?(.+)", re.DOTALL)


def plan_of(text: str) -> tuple[str, str]:
    """The label of a bus and the file of its plan, by BUS=FILE; without a bus that is called as the file."""
    found = PLAN.fullmatch(text)
    if found is None:
        raise argparse.ArgumentTypeError("a plan file, as P=powertrain.toml or powertrain.toml")
    bus, file = found.groups()
    return bus or as_label(os.path.splitext(os.path.basename(file))[0]), program.input_name(file)


def label_of(text: str) -> str:
    """A label."""
    if not re.fullmatch(r"[A-Za-z0-9_]{1,32}", text):
        raise argparse.ArgumentTypeError(f"{text} is no label")
    return text


def time_of(text: str) -> int:
    """A time in ms."""
    if not re.fullmatch(r"[1-9]\d{0,4}", text) or int(text) > 65535:
        raise argparse.ArgumentTypeError(f"{text} is no time of 1 to 65535 ms")
    return int(text)


def words_of(words: list[str] | None) -> argparse.Namespace:
    """The words of the command line."""
    parser = program.parser(__doc__)
    parser.epilog = "example: %(prog)s P=powertrain.toml B=body.toml CGW --within 5"
    parser.add_argument("heard", metavar="[BUS=]PLAN", type=plan_of, help="the bus on which the gateway hears, and the file of its plan; without BUS it is "
                        "called as the file")
    parser.add_argument("sent", metavar="[BUS=]PLAN", type=plan_of, help="the bus on which it sends")
    parser.add_argument("gateway", metavar="GATEWAY", type=label_of, help="the label of the gateway, and of its unit on each bus where no other one is named")
    parser.add_argument("--at", metavar="UNIT", help="the unit of the gateway that hears")
    parser.add_argument("--by", metavar="UNIT", help="the unit of the gateway that sends")
    parser.add_argument("--from", metavar="UNIT", dest="sender", help="only what this unit sends")
    parser.add_argument("--group", metavar="GROUP", action="append", default=[], help="only this group of the first bus; may be given several times")
    parser.add_argument("--periodic", action="store_true", help="sent at moments of the gateway's own, with the newest that was heard")
    parser.add_argument("--within", metavar="MS", type=time_of, help="within how many ms the gateway sends on what it heard")
    program.note_options(parser)
    return parser.parse_args(words)


def end_of(plan: tuple[str, str], gateway: str, named: str | None, option: str) -> GatewayEnd:
    """A bus with the gateway's unit there."""
    bus, file = plan
    tables = Source(text_of(file), file).tables
    unit = named or gateway
    if unit not in [other.label for other in tables.units]:
        raise program.Refused(program.UNREADABLE, f"{file}: no unit is called {unit}" + ("" if named else f": name the one of the gateway by {option}"))
    return GatewayEnd(bus, tables, unit, named is not None and named != gateway)


def groups_of(tables: Tables, file: str, names: list[str]) -> list[Group]:
    """The groups of these labels, or all."""
    labels = [group.label for group in tables.groups]
    for name in names:
        if name not in labels:
            raise program.Refused(program.UNREADABLE, f"{file}: no group is called {name}")
    return [group for group in tables.groups if not names or group.label in names]


@program.command
def main(words: list[str] | None = None) -> int:
    """Writes the forwards."""
    given = words_of(words)
    if given.heard[0] == given.sent[0]:
        raise program.Refused(program.UNREADABLE, f"two buses are called {given.heard[0]}: name them, as A={given.heard[1]}")
    one = end_of(given.heard, given.gateway, given.at, "--at")
    other = end_of(given.sent, given.gateway, given.by, "--by")
    if given.sender is not None and given.sender not in [unit.label for unit in one.tables.units]:
        raise program.Refused(program.UNREADABLE, f"{given.heard[1]}: no unit is called {given.sender}")
    groups, notes = groups_of(one.tables, given.heard[1], given.group), Notes()
    found = Forwarding(one, other, groups, Wish(given.gateway, given.sender, given.periodic, given.within), notes)
    if not found.made:
        raise program.Refused(program.UNREADABLE, "no group can be sent on, so nothing is written")
    head = f"\n# From {plain(given.heard[1])} to {plain(given.sent[1])} by {one.bus}.{one.unit} and {other.bus}.{other.unit}: review it.\n"
    program.put(f"{head}{found.text()}")
    count = len(dict.fromkeys(made.heard for made in found.made))
    print(f"{len(found.made)} forwards of {count} of {len(groups)} groups, notes {notes.count}", file=sys.stderr)
    return program.noted(given, notes)


if __name__ == "__main__":
    sys.exit(main())
