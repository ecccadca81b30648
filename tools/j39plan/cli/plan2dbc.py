"""Writes a plan as a DBC, as canmatrix reads it.

Each group is a message for each unit that sends it, and where its identifier has a destination for each unit that it goes to. Groups
that are told by the same bits are one multiplexed message. What a DBC can't say is listed on standard error. Of a plan with choices it has all that
stands in the file, or one vehicle.
"""

from __future__ import annotations

import argparse
import sys

from j39plan import program
from j39plan.dbc.writer import Writer
from j39plan.left_out import Notes
from j39plan.plan.files import opened
from j39plan.plan.parts import source_in


def options(words: list[str] | None) -> argparse.Namespace:
    """What the command line asks for."""
    parser = program.parser(__doc__)
    program.plan_word(parser)
    program.note_options(parser)
    parser.epilog = "example: %(prog)s plan.toml > network.dbc"
    return parser.parse_args(words)


@program.command
def main(words: list[str] | None = None) -> int:
    """Writes the DBC; 0, or the program's status where it can't read the plan, or 1 where there are notes and there were to be none."""
    given, notes = options(words), Notes()
    with opened(given.plan, given.variant) as plan:
        program.values(plan)
        dbc = Writer(source_in(plan), notes)
    program.put(dbc.text())
    print(f"{len(dbc.names)} nodes {len(dbc.messages)} messages, notes {notes.count}", file=sys.stderr)
    return program.noted(given, notes)


if __name__ == "__main__":
    sys.exit(main())
