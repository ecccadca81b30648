"""Of what a page is written: on which day, by which version of the program, and from which files by their digests."""

from __future__ import annotations

import argparse
import datetime
import hashlib
import os
from collections.abc import Iterable
from html import escape
from typing import NamedTuple

from j39plan import program

# The variable that has the seconds since 1970 at which reproducible things are taken for made.
EPOCH = "SOURCE_DATE_EPOCH"


def day(text: str) -> str:
    """A day, as 2026-11-30."""
    try:
        return datetime.date.fromisoformat(text).isoformat()
    except ValueError as fault:
        raise argparse.ArgumentTypeError(f"{text} is no day as 2026-11-30") from fault


def today() -> str:
    """The day by SOURCE_DATE_EPOCH, else that of the clock, by UTC."""
    seconds = os.environ.get(EPOCH)
    if seconds is None:
        return datetime.datetime.now(datetime.timezone.utc).date().isoformat()
    try:
        return datetime.datetime.fromtimestamp(int(seconds), datetime.timezone.utc).date().isoformat()
    except (ValueError, OverflowError, OSError) as fault:
        raise program.Refused(program.UNREADABLE, f"{EPOCH} is no number of seconds: {seconds}") from fault


class Origin(NamedTuple):
    """The day and the version of the program."""

    day: str
    version: str

    def footer(self, files: Iterable[tuple[str, bytes]]) -> str:
        """The foot of a page that is written of files, each with its name."""
        digests = "".join(f"<p>SHA-256 of <code>{escape(name)}</code>: <code>{hashlib.sha256(data).hexdigest()}</code></p>" for name, data in files)
        return f"<p>Written on {escape(self.day)} by {escape(self.version)}.</p>{digests}"


def origin_of(given_day: str | None) -> Origin:
    """The day that is given, or that of today, and the program by its name and version."""
    return Origin(given_day or today(), program.call(["--version"])[1].strip())
