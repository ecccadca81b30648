"""Lines of a log with a frame: where that stands, and the first word."""

import re

# A line with a frame at its end, or before a direction.
FRAME = re.compile(rb"(?:^|[ \t\r])([01][0-9A-Fa-f]{7})#((?:[0-9A-Fa-f]{2}){0,8})(?:[ \t\r]+[RT])?[ \t\r]*\n?$")


def first_word(line: bytes) -> str:
    """The first word of a line, where its time stands."""
    return (line.split(maxsplit=1) or [b""])[0].decode(errors="replace")
