"""Writes a first plan from a log, or from several of one drive: who is on the bus, and who sends which group to whom and how often.

The log is one of candump -L. Who sent what is what `j39plan follow` reports. Comments say what was seen and what is guessed. DBC files and
plans name groups, signals and units; other groups have raw bytes. The plan is a beginning: review what a log can't say.
"""

import argparse
import contextlib
import functools
import json
import os
import shutil
import stat
import sys
from collections.abc import Iterator

from j39plan import program
from j39plan.cli import dbc2plan
from j39plan.left_out import Notes, Unsaid
from j39plan.log.clock import SECOND, ends_of
from j39plan.log.files import Log, interface_option
from j39plan.log.to_plan.draft import Draft
from j39plan.plan.files import sources_of
from j39plan.plan.parts import Source
from j39plan.plan.schema import VERSIONS, bitrates_of
from j39plan.progress import Progress

# The progress is told each so many lines.
LINES = 1 << 14


def words_of(words: list[str] | None) -> argparse.Namespace:
    """The words of the command line."""
    parser = program.parser(__doc__)
    parser.epilog = "example: %(prog)s drive.log --dbc engine.dbc -o plan.toml"
    parser.add_argument("logs", metavar="LOG", nargs="+", help="names of files as candump -L writes them, in the order of the drive")
    parser.add_argument("--dbc", metavar="FILE", nargs="+", action="extend", default=[],
                        help="DBC, ARXML, KCD or SYM files: groups, signals and units of these are called and laid out as there")
    parser.add_argument("--groups", metavar="PLAN", nargs="+", action="extend", default=[], help="the same of plans, before those of DBC files")
    parser.add_argument("--bitrate", type=int, choices=bitrates_of(VERSIONS[-1]), help="bits a second: the plan has a table `timing`, whose `unplanned` is a guess")
    parser.add_argument("-o", dest="plan", metavar="PLAN", help="the name of the plan file to write (standard output)")
    parser.add_argument("--json", action="store_true", help="what was found as one JSON object; the plan is written where -o names a file")
    interface_option(parser)
    program.note_options(parser)
    return parser.parse_args(words)


def planned_by(files: list[str]) -> list[Source]:
    """The plan that DBC files make together, with the files' names. What isn't carried over is said by dbc2plan."""
    return [Source(dbc2plan.made(dbc2plan.options(files), Unsaid())[1], ", ".join(map(os.path.basename, files)))] if files else []


@contextlib.contextmanager
def still(names: list[str]) -> Iterator[list[str]]:
    """The names of the logs as files that can be read twice: of pipes these are copies."""
    with contextlib.ExitStack() as copies:
        found = []
        for name in names:
            place = program.place_of(name)
            if isinstance(place, int) or not stat.S_ISREG(os.stat(place).st_mode):
                with open(place, "rb") as file:
                    name = copies.enter_context(program.temporary(functools.partial(shutil.copyfileobj, file), ".log"))
            found.append(name)
        yield found


def told(progress: Progress, line: int) -> None:
    """Tells now and then how far the log is read."""
    if line % LINES == 0:
        progress.say(f"line {line}")


def about(draft: Draft, logs: list[str], interface: str | None, notes: Notes) -> list[str]:
    """What the plan's file says of the log."""
    with Log(logs, interface) as log:
        begin, end = ends_of(log)
    duration = f" in {(end - begin) / SECOND:.1f} s" if begin is not None and end is not None and end >= begin else ""
    claimed = sum(unit.claims for unit in draft.units.units.values())
    lines = [f"Seen: {draft.counts.frames} frames{duration}; {claimed} units claimed an address, {len(draft.units.units) - claimed} others sent or were sent to.",
             "What a comment calls a guess, labels, and receivers of what goes to all are to be reviewed; needs and deadlines no log has."]
    if claimed == 0:
        lines.append("No claim is in the log: ask for them while it is recorded, by cansend can0 18EAFFFE#00EE00.")
    return lines + [f"Not planned: {note.what}: {note.why}." for note in notes.said]


def checked(text: str) -> str:
    """What `check` says at last of the plan, which it has to read."""
    with program.file_of(text) as plan:
        return program.checked(plan).splitlines()[-1]


@program.command
def main(words: list[str] | None = None) -> int:
    """Writes the plan; 0, or 2 where a file is no log, or 1 where there are notes and there were to be none."""
    given, notes, progress = words_of(words), Notes(), Progress()
    known = sources_of(given.groups) + planned_by(given.dbc)
    with still(given.logs) as logs:
        draft = Draft(logs, given.interface, known, notes, lambda line: told(progress, line))
        progress.clear()
        text = draft.text(", ".join(map(os.path.basename, given.logs)), about(draft, logs, given.interface, notes), given.bitrate)
    found = checked(text)
    if given.plan:
        with open(given.plan, "w", encoding="utf-8") as file:
            file.write(text)
    if given.json:
        print(json.dumps({**draft.rows(), "check": found, "notes": [note._asdict() for note in notes.said]}, ensure_ascii=False))
    elif not given.plan:
        program.put(text)
    print(f"{len(draft.units.units)} units {len(draft.groups.groups)} groups {len(draft.flows)} flows {len(draft.requests)} requests, "
          f"notes {notes.count}; check: {found}", file=sys.stderr)
    return program.noted(given, notes)


if __name__ == "__main__":
    sys.exit(main())
