"""What deviations say of groups, of NAMEs, and of who sends what."""

from j39plan.j1939 import NAME_FIELDS
from j39plan.log.reports import Who
from j39plan.plan.tables import Group


def lengths_of(group: Group) -> str:
    """The lengths of a group's messages as a text."""
    return str(group.length) if group.length == group.most else f"{group.length} to {group.most}"


def fields_of(name: str) -> str:
    """The fields of a NAME that tell what it is."""
    number = int(name, 16)
    return ", ".join(f"{key} {number >> first & (1 << width) - 1}" for key, first, width in NAME_FIELDS
                     if key in ("manufacturer", "function", "identity"))


def no_group(pgn: int, sender: Who) -> str:
    """That somebody sends a message of no group."""
    return f"PGN {pgn} from {sender.shown}: no group has it"
