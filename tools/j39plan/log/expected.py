"""What a log needn't have, by options of each tool that prints deviations: messages of flows that are sent on events, and units that may be absent."""

import argparse

from j39plan import program
from j39plan.log.checks.deviations import Found
from j39plan.plan.tables import Tables


def expected_options(words: argparse.ArgumentParser, like: str = "") -> None:
    """The options, which may be those of another tool."""
    words.add_argument("--events", metavar="FLOW", action="append", default=[],
                       help=f"a group, or a flow by its number, that is sent when something happens: no silence of it is reported; may be given several times{like}")
    words.add_argument("--may-be-absent", metavar="UNIT", dest="spare", action="append", default=[],
                       help=f"a unit, as a towed implement, that isn't there in each drive: its absence is no deviation; may be given several times{like}")


def words_of(given: argparse.Namespace) -> list[str]:
    """The words by which another tool is given the same."""
    named = (("--events", given.events), ("--may-be-absent", given.spare))
    return [word for option, names in named for name in names for word in (option, name)]


def refuse_unknown(spare: list[str], tables: Tables) -> None:
    """Refuses units that the plan doesn't have."""
    labels = [unit.label for unit in tables.units]
    for label in spare:
        if label not in labels:
            raise program.Refused(program.UNREADABLE, f"no unit has the label {label}; there are {', '.join(labels)}")


def pass_over_absent(spare: list[str], tables: Tables, found: Found) -> None:
    """Withdraws that these units aren't there, and what follows from that: flows of them or to them that were never sent, and their needs."""
    away = {one.unit for one in found.all() if one.kind == "absent" and one.unit in spare}
    for one in list(found.all()):
        flow = tables.flows[one.flow - 1] if one.kind == "never-sent" and one.flow else None
        if one.unit in away and one.kind in ("absent", "unmet") or flow and away & {flow.sender, flow.to}:
            found.withdraw(one.text)
