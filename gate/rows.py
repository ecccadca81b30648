#!/usr/bin/env python3
"""Runs the program on the rows and cases in rows/, and says which aren't as shown.

usage: rows.py [--list]    --list: prints the status of each row, as rows/statuses has them

Rows: a file that a command is run on, and beside it what the command writes; standard error stays empty, but for a device fault. `PLAN.toml` is
checked, and where `PLAN.addresses`, `PLAN.load`, `PLAN.show` or `PLAN.variant` stands beside it also answered as to its addresses, its load, its
values or those of its first variant; where `NAME.answer` stands beside it, `NAME.toml` is a vehicle file, and answered as one.
`PLAN.NAME.schedule` is run and `PLAN.NAME.log` is read by the plan beside it and, where `PLAN.NAME.follow` stands there, also followed, or
`PLAN.NAME.all`, all frames of it, or `PLAN.NAME.audit`, audited, or `PLAN.NAME.part`, as a part of a log; `NAME.line` is a frame line.
`NAME.vehicle` has the files of a vehicle in one: a line `== FILE` begins each of them, the vehicle file first, and `== answer` what is written.

Cases: a folder with `args`, a word a line, and where they are wanted `stdin`; `repeat`, how many times standard input has it; `room`, how many
bytes standard output takes; `stdout`, `stderr`, and `status`, 0 where it is absent.

The program is that of the environment's J39PLAN, else the built one. All rows run in processes that go on, where these can be built (gate/in_process.py),
and those of `commands` and `devices` by a process each, too; else all by a process each. The last line is 'N passed, M failed'.
"""

from __future__ import annotations

import os
import resource
import signal
import subprocess
import sys
import tempfile
from collections.abc import Callable, Iterator
from concurrent.futures import ThreadPoolExecutor
from dataclasses import dataclass

sys.dont_write_bytecode = True
import crates
import in_process
import tally

DATA = f"{crates.TOP}/rows"
STATUSES = f"{DATA}/statuses"
# The commands of rows by the ending of what they write, and the ending of the file that they are run on beside the plan.
OF_PLANS = {".check": "check", ".addresses": "addresses", ".load": "load", ".show": "show", ".variant": "variant", ".answer": "vehicle"}
OF_INPUTS = {".run": (["run"], ".schedule"), ".read": (["read"], ".log"), ".follow": (["follow"], ".log"), ".all": (["follow", "--all"], ".log"),
             ".audit": (["audit"], ".log"), ".part": (["audit", "--part"], ".log")}
# How long a row may run: the longest inputs take the program that isn't proved minutes.
SECONDS = 600
# The rows that a process each runs in any case.
BY_PROCESS = ("commands/", "devices/")
# The endings of what rows are run on.
GIVEN = {".toml", ".schedule", ".log", ".line", ".vehicle"}


@dataclass
class Row:
    """A run of the program: its name, its folder and words, what it is given, and what it must write."""

    name: str
    folder: str
    words: list[bytes]
    output: bytes
    complaints: bytes = b""
    status: int | None = None
    input: bytes = b""
    room: int | None = None

    def files(self) -> list[str]:
        """Returns the files that the program is told to read."""
        named = [] if self.words[0] == b"frame" else [it.decode() for it in self.words[1:] if not it.startswith(b"-")]
        return [f"{self.folder}/{it}" for it in named]


def bytes_of(file: str, default: bytes = b"") -> bytes:
    """Returns what stands in a file, or this where there is no such file."""
    try:
        with open(file, "rb") as opened:
            return opened.read()
    except FileNotFoundError:
        return default


def case(folder: str, name: str) -> Row:
    """Returns the case in a folder."""
    words = bytes_of(f"{folder}/args").removesuffix(b"\n").split(b"\n") if bytes_of(f"{folder}/args") else []
    given = bytes_of(f"{folder}/stdin") * int(bytes_of(f"{folder}/repeat", b"1"))
    room = bytes_of(f"{folder}/room")
    return Row(name, folder, words, bytes_of(f"{folder}/stdout"), bytes_of(f"{folder}/stderr"), int(bytes_of(f"{folder}/status", b"0")), given,
               int(room) if room else None)


def words_of(folder: str, name: str, ending: str) -> list[bytes] | None:
    """Returns the words of the row of a file, None where it is no row's."""
    if ending in OF_PLANS:
        return [OF_PLANS[ending].encode(), f"{name}.toml".encode()]
    if ending in OF_INPUTS:
        words, given = OF_INPUTS[ending]
        return [it.encode() for it in (*words, f"{name.split('.')[0]}.toml", f"{name}{given}")]
    return [b"frame", bytes_of(f"{folder}/{name}.line")] if ending == ".frame" else None


def vehicle(file: str, name: str, room: str) -> Row:
    """Returns the row of a vehicle, whose files it writes into a folder of their own. There a name begins that begins with a slash."""
    folder = f"{room}/{name}"
    parts = [it.partition(b"\n") for it in bytes_of(file).removeprefix(b"== ").split(b"\n== ")]
    for part, _, text in parts:
        if part != b"answer":
            path = f"{folder}/{part.decode()}"
            os.makedirs(os.path.dirname(path), exist_ok=True)
            with open(path, "wb") as opened:
                opened.write(text.replace(b'"/', f'"{folder}/'.encode()))
    first = parts[0][0].removeprefix(b"/")
    return Row(name, folder, [b"vehicle", first], next(text for part, _, text in parts if part == b"answer"))


def rows_of(folder: str, at: str, room: str) -> Iterator[Row]:
    """Returns the rows of a folder."""
    for file in sorted(os.listdir(folder)):
        name, ending = os.path.splitext(file)
        words = words_of(folder, name, ending)
        if words:
            yield Row(f"{at}/{file}", folder, words, bytes_of(f"{folder}/{file}"))
        elif ending == ".vehicle":
            yield vehicle(f"{folder}/{file}", f"{at}/{file}", room)


def all_rows(room: str) -> Iterator[Row]:
    """Returns each row and each case. Files of vehicles are written into a folder."""
    for folder, _, names in sorted(os.walk(DATA)):
        at = os.path.relpath(folder, DATA)
        if "args" in names:
            yield case(folder, at)
        else:
            yield from rows_of(folder, at, room)


def unused(rows: list[Row]) -> list[str]:
    """Returns the files of rows that no row is run on: a plan, a schedule, a log or a frame line with nothing beside it."""
    taken = {it for row in rows if row.status is None for it in row.files()}
    found = []
    for folder, _, names in os.walk(DATA):
        if "args" in names or "/commands" in folder:
            continue
        for file in names:
            name, ending = os.path.splitext(file)
            shown = os.path.exists(f"{folder}/{name}.frame") if ending == ".line" else f"{folder}/{file}" in taken or ending == ".vehicle"
            if ending in GIVEN and not shown:
                found.append(os.path.relpath(f"{folder}/{file}", DATA))
    return sorted(found)


def limit(room: int | None) -> None:
    """Lets a file take so many bytes alone, before the program begins."""
    if room is not None:
        signal.signal(signal.SIGXFSZ, signal.SIG_IGN)
        resource.setrlimit(resource.RLIMIT_FSIZE, (room, room))


# How a row is run: its status and what it wrote.
Run = Callable[[Row], tuple[int, bytes, bytes]]


def run(row: Row) -> tuple[int, bytes, bytes]:
    """Runs the program."""
    with tempfile.TemporaryFile() as output:
        ran = subprocess.run([tally.PROGRAM, *row.words], cwd=row.folder, input=row.input, stdout=output, stderr=subprocess.PIPE,
                             timeout=SECONDS, check=False, preexec_fn=lambda: limit(row.room))
        output.seek(0)
        return ran.returncode, output.read(), ran.stderr


def run_within(program: in_process.InProcess) -> Run:
    """Returns what runs a row in a process that goes on. Memory that isn't given back is told as a complaint."""
    def run_row(row: Row) -> tuple[int, bytes, bytes]:
        ran = program.order(row.folder, row.words, "", row.input, row.room, {})
        return ran.status, ran.output, ran.complaint + (b"%d blocks of memory are kept\n" % ran.left if ran.left else b"")
    return run_row


def listed() -> dict[str, int]:
    """Returns the status that each row must end with, by its name."""
    with open(STATUSES, encoding="utf-8") as lines:
        return {name: int(status) for name, status in (line.split(" ") for line in lines.read().splitlines())}


def fault(row: Row, wanted: dict[str, int], run_row: Run) -> str:
    """Returns how a run differs from its row, '' where it doesn't."""
    must = wanted.get(row.name) if row.status is None else row.status
    said = row.complaints or (tally.DEVICE if row.status is None and must == tally.DEVICE_STATUS else b"")
    try:
        status, output, complaints = run_row(row)
    except subprocess.TimeoutExpired:
        return f"not done after {SECONDS} s"
    except in_process.Hung as hung:
        return str(hung)
    if (output, complaints) != (row.output, said):
        return "other text"
    return "" if status == must else f"status {status}, not {must}"


def faults_of(rows: list[Row], wanted: dict[str, int], run_row: Run) -> list[tuple[str, str]]:
    """Returns the names of rows that aren't as shown, and why."""
    with ThreadPoolExecutor(os.cpu_count()) as pool:
        return [(row.name, it) for row, it in zip(rows, pool.map(lambda row: fault(row, wanted, run_row), rows)) if it]


def main(words: list[str]) -> int:
    if not tally.is_built(tally.PROGRAM):
        print(f"{tally.PROGRAM} isn't built", file=sys.stderr)
        return 2
    with tempfile.TemporaryDirectory(prefix="j39plan-rows-") as room:
        rows = list(all_rows(room))
        return list_all(rows) if words == ["--list"] else run_all(rows, room)


def list_all(rows: list[Row]) -> int:
    """Prints the status of each row. Returns the exit status."""
    with ThreadPoolExecutor(os.cpu_count()) as pool:
        for row, (status, _, _) in zip(rows, pool.map(run, rows)):
            print(*([] if row.status is not None else [row.name, status]), end="" if row.status is not None else "\n")
    return 0


def run_all(rows: list[Row], room: str) -> int:
    """Runs the rows, and says what isn't as shown. Returns the exit status."""
    wanted = listed()
    program = in_process.started(room)
    alone = [row for row in rows if program is None or row.name.startswith(BY_PROCESS)]
    faults = faults_of(alone, wanted, run)
    if program:
        with program:
            faults += [(name, f"in process, {it}") for name, it in faults_of(rows, wanted, run_within(program))]
        print(f"{len(rows)} rows in processes that go on, {len(alone)} by a process each")
    gone = wanted.keys() - {row.name for row in rows}
    faults += [(name, "listed, and no row") for name in sorted(gone)] + [(name, "nothing is run on it") for name in unused(rows)]
    for name, it in faults:
        print(f"{name}: {it}")
    failed = len({name for name, _ in faults})
    print(f"{len(rows) - failed} passed, {failed} failed")
    return 1 if faults else 0


if __name__ == "__main__":
    sys.exit(main(sys.argv[1:]))
