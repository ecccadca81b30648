"""Tables as lines of a text."""

import re
from collections.abc import Iterable, Iterator
from typing import Any


def aligned(heads: tuple[str, ...], rows: Iterable[tuple[Any, ...]], most: int | None = None) -> Iterator[str]:
    """A table as lines, its columns below one another, numbers to the right, and an empty line behind it; so many rows at most."""
    cells = [tuple(map(str, row)) for row in rows]
    shown = [heads, *cells[:most]]
    if not cells:
        return
    numbers = [all(re.fullmatch(r"-|-?[\d.]{1,15}( s| ms| %| bit/s)?", row[at]) for row in shown[1:]) for at in range(len(heads))]
    widths = [max(len(row[at]) for row in shown) for at in range(len(heads))]
    for row in shown:
        parts = (cell.rjust(width) if is_number else cell.ljust(width) for cell, width, is_number in zip(row, widths, numbers))
        yield "  ".join(parts).rstrip()
    if len(cells) >= len(shown):
        yield f"and {len(cells) - len(shown) + 1} others, which --json has"
    yield ""
