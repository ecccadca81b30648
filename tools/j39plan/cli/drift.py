"""Compares two drives, as before and after an update: senders, deviations, periods, load, ranges of signals, and trouble codes that differ.

Each log is compared with the plan as by fleet, and what one drive has and the other one hasn't is told, or what differs by more than a share.
"""

import argparse
import json
import os
import re
import sys
from typing import Any

from j39plan import program
from j39plan.cli.fleet import different, gathered, plan_of
from j39plan.fleet.drift import Difference, Drift
from j39plan.fleet.drives import Drive
from j39plan.fleet.table import duration_of, load_text, moment_of
from j39plan.fleet.team import Task, team
from j39plan.log import expected
from j39plan.log.files import interface_option
from j39plan.plan.tables import Tables
from j39plan.text_tables import aligned

# By how much numbers may differ where it isn't said, in percent; and what of a whole log is shown.
SHARE = "10"
SHOWN = ("begin", "end", "duration", "mean", "worst")


def share_of(text: str) -> float:
    """A share in percent."""
    found = re.fullmatch(r"(\d{1,3}(?:\.\d{1,3})?)%?", text)
    if found is None:
        raise argparse.ArgumentTypeError(f"{text} is no share, as 10%")
    return float(found.group(1)) / 100


def words_of(words: list[str] | None) -> argparse.Namespace:
    """The words of the command line."""
    parser = program.parser(__doc__)
    parser.epilog = "example: %(prog)s plan.toml before.log after.log"
    program.plan_word(parser)
    parser.add_argument("before", metavar="BEFORE", help="the name of a file as candump -L writes it")
    parser.add_argument("after", metavar="AFTER", help="that of the other drive")
    parser.add_argument("--share", type=share_of, default=share_of(SHARE), metavar="PERCENT",
                        help=f"by how much periods, load and ends of ranges may differ ({SHARE}%%)")
    parser.add_argument("--json", action="store_true", help="as a JSON object with both drives and an array of differences")
    expected.expected_options(parser, ", as of against")
    interface_option(parser)
    return parser.parse_args(words)


def drives_of(given: argparse.Namespace) -> tuple[Tables, list[Drive]]:
    """The tables of the plan, and both drives as they were compared with it."""
    options = [*(["--interface", given.interface] if given.interface is not None else []), *expected.words_of(given)]
    plan, logs = plan_of(given.plan, options, given.variant), [given.before, given.after]
    if len(different(logs)) < len(logs):
        raise program.Refused(program.UNREADABLE, "two drives are compared, and this is one")
    tasks: list[Task] = [(*plan, log, os.path.abspath(log), ["--table", *options]) for log in logs]
    found, is_whole = gathered(team(min(len(logs), len(os.sched_getaffinity(0))), None)(tasks), len(tasks))
    if not is_whole:
        program.interrupted()
    failed = max((found[log]["status"] for log in logs), default=0)
    if failed:  # each is named already
        raise program.Refused(failed)
    return Tables.shown(plan[1]), [found[log] for log in logs]


def row_of(drive: Drive) -> dict[str, Any]:
    """What a drive has as a whole."""
    whole: dict[str, Any] = drive["whole"]
    row = {key: whole.get(key) for key in SHOWN}
    return {"log": drive["log"], **{key: value for key, value in row.items() if value is not None}, "frames": drive["counts"]["frames"],
            "deviations": len(drive["deviations"])}


def put(tables: Tables, drives: list[Drive], found: list[Difference]) -> None:
    """Writes both drives and what differs as tables."""
    bitrate = tables.timing.bitrate if tables.timing else None
    rows = [{"begin": None, "duration": None, "mean": None, "worst": None, **row_of(drive)} for drive in drives]
    lines = aligned(("log", "begin", "duration", "mean load", "worst second", "frames", "deviations"), (
        (row["log"], moment_of(row["begin"]), duration_of(row), load_text(row["mean"], bitrate), load_text(row["worst"], bitrate), row["frames"],
         row["deviations"]) for row in rows))
    for line in (*lines, *aligned(("differs", "of", "before", "after"), (one.spelled() for one in found))):
        print(line)
    print(f"differences {len(found)}")


@program.command
def main(words: list[str] | None = None) -> int:
    """Writes what differs; 0 where nothing does, 1 where something does."""
    given = words_of(words)
    tables, drives = drives_of(given)
    found = list(Drift(tables, drives[0], drives[1], given.share).all())
    if given.json:
        print(json.dumps({"before": row_of(drives[0]), "after": row_of(drives[1]), "differences": [one.row() for one in found]}, ensure_ascii=False))
    else:
        put(tables, drives, found)
    return 1 if found else 0


if __name__ == "__main__":
    sys.exit(main())
