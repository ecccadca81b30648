"""Serves an editor that shows plans and vehicles while they are written, by the language server protocol over standard input and output.

The editor starts it: findings, refusals and hints as one types, completion, hover, definitions, references, renaming, and changes that mend.
"""

import argparse
import sys

from j39plan import program
from j39plan.editor import protocol
from j39plan.editor.server import Server


def words_of(words: list[str] | None) -> argparse.Namespace:
    """The words of the command line."""
    parser = program.parser(__doc__)
    parser.epilog = "example: %(prog)s --reference j1939.dbc"
    parser.add_argument("--reference", metavar="FILE", help="a DBC of SAE J1939, or a plan of its groups, by which PGNs and SPNs are completed and signals are "
                        "compared")
    parser.add_argument("--stdio", action="store_true", help="over standard input and output, as it does anyway: some editors say so")
    return parser.parse_args(words)


@program.command
def main(words: list[str] | None = None) -> int:
    """Serves until the editor ends it: 0, or 1 where it does so without a shutdown; 2 of what isn't the protocol."""
    given = words_of(words)
    program.path()
    source, sink = sys.stdin.buffer, sys.stdout.buffer
    sys.stdout = sys.stderr  # nothing but messages may come there
    server = Server(lambda message: protocol.put(sink, message), given.reference)
    try:
        for message in protocol.messages(source):
            if not server.take(message):
                break
    except protocol.NoMessage as why:
        raise program.Refused(program.UNREADABLE, str(why)) from why
    return server.status


if __name__ == "__main__":
    sys.exit(main())
