"""Writes a plan from a DBC, ARXML, KCD or SYM file, a sheet, or from several, as far as they say it.

What could not be carried over is listed on standard error, each with its reason. The plan is a beginning: review what the file doesn't
say (who may choose its address, which groups go to one unit).
"""

from __future__ import annotations

import argparse
import codecs
import os
import sys
from typing import TYPE_CHECKING

from j39plan import program
from j39plan.dbc import merge
from j39plan.dbc.addresses import addresses_of
from j39plan.dbc.reader import KINDS, FileOptions
from j39plan.dbc.senders import give_senders
from j39plan.dbc.to_plan import Conversion
from j39plan.j1939 import NULL_ADDRESS
from j39plan.left_out import LeftOut, Notes, Unsaid, plain
from j39plan.plan.text import WRITTEN, text_of
from j39plan.sheet import own
from j39plan.sheet.columns import NAMES as COLUMNS
from j39plan.sheet.columns import mapping_of
from j39plan.sheet.files import KINDS as SHEETS

if TYPE_CHECKING:
    import canmatrix

    from j39plan.dbc.merge import BusFrame


def is_called(frame: canmatrix.Frame, group: str) -> bool:
    """Whether a frame has this name or PGN."""
    return group == frame.name or frame.arbitration_id.extended and group == str(frame.arbitration_id.pgn)


def chosen(sent: list[BusFrame], senders: list[str], groups: list[str]) -> list[BusFrame]:
    """The frames that were asked for."""
    for sender in senders:
        if not any(sender in one.frame.transmitters for one in sent):
            raise LeftOut(f"--sender {plain(sender)}: no frame in it is from this unit")
    for group in groups:
        if not any(is_called(one.frame, group) for one in sent):
            raise LeftOut(f"--group {plain(group)}: no frame in it has this name or PGN")
    found = [
        one for one in sent
        if (not senders or any(sender in one.frame.transmitters for sender in senders))
        and (not groups or any(is_called(one.frame, group) for group in groups))
    ]
    if not found and (senders or groups):
        raise LeftOut("none of these groups is from one of these units")
    return found


def plan_of(given: argparse.Namespace, notes: Notes) -> Conversion:
    """The plan that can be made of the files."""
    known = merge.NodeFacts(dict(given.same), dict(given.address))
    form = FileOptions(given.bus, given.kind, given.encoding, mapping_of(given.columns))
    network = merge.load(given.files, form, notes, given.version, known)
    network.make_units()
    unsaid = Unsaid()
    give_senders(network.sent, addresses_of(network, unsaid.say, unsaid), notes)
    sent = chosen(network.sent, given.sender, given.group)
    plan = Conversion(network, notes, given.strict, given.version, not given.no_needs, given.identity)
    plan.add_units()
    plan.add_frames(sent)
    if not plan.units and not plan.groups:
        raise LeftOut("there is nothing in it that a plan can have")
    if not plan.units:
        notes.say("units", "no node has an address, so there are neither units nor flows")
    return plan


class PlanVersion(program.Version):
    """Keeps the version of the plan to write; prints the tool's where none is named."""

    def __call__(self, words: argparse.ArgumentParser, given: argparse.Namespace, value: object, option: str | None = None) -> None:
        if value is None:
            super().__call__(words, given, value, option)
        given.version = value


def encoding(name: str) -> str:
    """The name of an encoding of texts."""
    try:
        "".encode(name)
        return codecs.lookup(name).name
    except (LookupError, UnicodeError, ValueError) as why:
        raise argparse.ArgumentTypeError(f"no encoding is called {plain(name)}") from why


def address(text: str) -> tuple[str, int]:
    """A node and its address, by `NAME=NUMBER`."""
    name, _, number = text.rpartition("=")
    if not name or not number.isdecimal() or int(number) >= NULL_ADDRESS:
        raise argparse.ArgumentTypeError(f"a node and its address of 0 to {NULL_ADDRESS - 1}, as TCU=3")
    return name, int(number)


def options(words: list[str] | None) -> argparse.Namespace:
    """What the command line asks for."""
    parser = program.parser(__doc__, own_version=True)
    parser.epilog = "example: %(prog)s network.dbc > plan.toml"
    parser.add_argument("--version", action=PlanVersion, nargs="?", type=int, choices=WRITTEN, default=WRITTEN[-1],
                        help=f"the version of the plan, {WRITTEN[-1]} where none is chosen; without a number: print the version and exit")
    parser.add_argument("files", metavar="FILE", nargs="*", type=program.input_name, help="a file with one of the endings .dbc, .arxml, .kcd, .sym, .csv, .xlsx, .ods; several are one "
                        "network, as each supplier has a part of it; with --group none has to be named: then it is the database of J1939 groups of python3-canmatrix")
    parser.add_argument("--sender", action="append", default=[], metavar="UNIT", help="only groups that this unit sends")
    parser.add_argument("--group", action="append", default=[], metavar="GROUP", help="only this group, by name or PGN")
    parser.add_argument("--same", action="append", default=[], type=program.same, metavar="NAME=OTHER", help="the nodes of these names are one")
    parser.add_argument("--address", action="append", default=[], type=address, metavar="NAME=NUMBER", help="the address of a node")
    parser.add_argument("--bus", help="which bus of the file, where it has several")
    parser.add_argument("--kind", choices=[*KINDS, *SHEETS], help="of which kind the files are, whatever their endings")
    parser.add_argument("--encoding", type=encoding, help="in which encoding the lines of DBC, SYM and CSV files are")
    parser.add_argument("--columns", metavar="FILE", help='of sheets: which columns are which, as TOML, in lines as '
                        f'pgn = "PG number", of the keys {", ".join(COLUMNS)}; and marks = ["EMS", "ICL"] of units with columns of their own, in which S is '
                        "who sends, and another mark who receives")
    parser.add_argument("--strict", action="store_true",
                        help="keep signals that lie outside of their group or over an earlier one, which check then finds")
    parser.add_argument("--identity", action="store_true", help="keep the identity numbers of nodes, each of which is one box's own")
    parser.add_argument("--no-needs", action="store_true", help="leave out who needs what, which version 4 has by the receivers of signals")
    program.note_options(parser)
    given = parser.parse_args(words)
    if not given.files and not given.group:
        parser.error("the following arguments are required: FILE")
    if not given.files:
        from j39plan.plan.reference import shipped
        given.files = [shipped()]
        program.say(f"the groups are those of {given.files[0]}, which has no scales and no priorities")
    return given


def of_tables(given: argparse.Namespace, tables: own.OwnPlan, notes: Notes) -> tuple[str, str]:
    """How many of what a plan has that was written as tables, and its text."""
    if len(given.files) > 1:
        raise program.Refused(program.UNREADABLE, f"{', '.join(map(plain, given.files))}: one of them {str(tables).removeprefix('it ')}: join plans by join")
    if any(line.word("with") for lines in tables.tables.values() for line in lines):
        raise program.Refused(program.UNREADABLE, f"{given.files[0]}: its tables are of a line of vehicles: write those of one by table --variant")
    plan = own.Reader(tables.tables, notes)
    text = plan.text(os.path.basename(given.files[0]))
    return counted(*(plan.counts[table] for table in ("unit", "group", "flow", "need"))), text


def counted(units: int, groups: int, flows: int, needs: int) -> str:
    """How many of what there are."""
    return f"{units} units {groups} groups {flows} flows" + (f" {needs} needs" if needs else "")


def made(given: argparse.Namespace, notes: Notes) -> tuple[str, str]:
    """How many of what the plan has, and its text."""
    names = ", ".join(map(plain, given.files))
    try:
        plan = plan_of(given, notes)
    except merge.FileFault as fault:
        if isinstance(fault.__cause__, own.OwnPlan):
            return of_tables(given, fault.__cause__, notes)
        raise program.Refused(program.UNREADABLE, str(fault)) from fault
    except LeftOut as why:
        raise program.Refused(program.UNREADABLE, f"{names}: {why}") from why
    tables = list(plan.tables())
    text = text_of(tables, ", ".join(map(os.path.basename, given.files)), given.version, plan.network.bitrate, [*notes.left_out, *plan.lost])
    if len(text.encode()) > program.INPUT_MOST:
        raise program.Refused(program.UNREADABLE,
                              f"{names}: its plan has more than {program.INPUT_MOST} bytes: choose groups by --sender or --group")
    return counted(*map(len, (plan.units, plan.groups, plan.flows, plan.needs))), text


@program.command
def main(words: list[str] | None = None) -> int:
    """Writes the plan; 0, or 2 where none can be made, or 1 where there are notes and there were to be none."""
    given, notes = options(words), Notes()
    counts, text = made(given, notes)
    program.put(text)
    print(f"{counts}, notes {notes.count}", file=sys.stderr)
    return program.noted(given, notes)


if __name__ == "__main__":
    sys.exit(main())
