#!/usr/bin/env python3
"""Runs the built program on the rows in rows/ where devices come short or fail and where files are damaged, and sees that each answer is as
documented, and that all memory is given back. The program of the environment's J39PLAN is taken, else the built one, with gate/fail_io.c in front of
its calls, in processes that go on (gate/in_process.py); the pieces of the small rows also, and all where these can't be built, with it in front of the
C library, in a process each.

usage: devices.py [--all] [PART..]    the parts of these names, else all:

pieces   each row where a call moves at most 1, 2, 3 or 4,096 bytes: it writes the same, by the calls that its files ask for, and no other
calls    each of these calls fails in turn, in pieces of 4,096 bytes, and for the rows in rows/devices also of 1, 2 and 3: a device fault, with a
         part of the text written, and no call behind it but the complaint
puts     what each line of the input of a row in rows/devices gives is put before more is read, and closing lines at its end, in pieces of a byte
damage   a file of a row is cut, or a byte replaced: an answer of the command, with the status that its text tells. At each byte of the rows in
         rows/devices, else at a place of each file; with --all at each byte of each row, which takes hours
limits   inputs of the most calls and the most bytes, and of one more, and a schedule of the most units and of the longest message

The last line is 'N passed, M failed'.
"""

from __future__ import annotations

import contextlib
import errno
import os
import re
import sys
import tempfile
import zlib
from collections.abc import Callable, Iterator
from concurrent.futures import ThreadPoolExecutor
from dataclasses import dataclass

sys.dont_write_bytecode = True
import in_process
import named
import rows
from in_process import InProcess
from preloaded import Preloaded, Ran, compiler, counted
from tally import DEVICE, DEVICE_STATUS, PROGRAM, TOO_LONG, Tally, is_built

SMALL = "devices/"
PIECES = (1, 2, 3, 4_096)
# How calls fail: the letter of gate/fail_io.c and the error, 0 where the call moves nothing. (A read that moves nothing tells the end.)
FAILURES = (("o", errno.EACCES), ("r", errno.EIO), ("r", errno.EINTR), ("w", errno.ENOSPC), ("w", errno.EINTR), ("w", 0))
# By what a byte is replaced.
BYTES = (b"\0", b"\xff", b"\n", b"9")
# The limits of an input, and the schedule's lines of the last part.
MOST_CALLS, MOST_BYTES = 1_048_576, 16_777_216
UP, CLAIM = b"up A\n", b"18EEFF00#0100000000000000\n"

Faults = Iterator[str]
Program = InProcess | Preloaded


@dataclass
class Try:
    """A row: its name and command, the words in front of its files, these in the order in which they are read, and its answer."""

    name: str
    command: str
    words: list[bytes]
    files: list[str]
    output: bytes
    status: int

    def is_small(self) -> bool:
        return self.name.startswith(SMALL)

    def all_words(self, files: list[str]) -> list[bytes]:
        """Returns the words, on these files: of a vehicle its own alone is named, and a frame line is none's."""
        names = 0 if not self.words else 1 if self.command == "vehicle" else len(files)
        return [*self.words, *(it.encode() for it in files[:names])]

    def stdin(self, files: list[str]) -> str:
        return "/dev/null" if self.words else files[0]

    def run(self, program: Program, files: list[str] | None = None, **how: int | str) -> Ran:
        """Runs the program on the files, or on others in their place."""
        files = files or self.files
        return program.run(self.all_words(files), self.stdin(files), **how)

    def wanted(self, piece: int) -> str:
        """Returns the letters of the calls that read the files to their ends, of which the last of each tells the end."""
        sizes = (os.path.getsize(it) if os.path.isfile(it) else -1 for it in self.files)
        return "".join(("o" if self.words else "") + "r" * (-(-size // piece) + 1 if size >= 0 else 0) for size in sizes)


def files_of_vehicle(file: str) -> list[str]:
    """Returns a vehicle file and the plans of its buses, of whose names a letter may be escaped."""
    plans = re.findall(rb'plan *= *"([^"\n]*)"', rows.bytes_of(file))
    return [file, *(os.path.join(os.path.dirname(file), it.decode("unicode_escape")) for it in plans)]


def tries(room: str) -> Iterator[Try]:
    """Returns each row. A frame line is given as standard input."""
    statuses = rows.listed()
    for row in rows.all_rows(room):
        if row.status is not None:
            continue
        command, files = row.words[0].decode(), row.files()
        words = [it for it in row.words if f"{row.folder}/{it.decode(errors='replace')}" not in files]
        if command == "frame":
            words, files = [], [f"{row.folder}/{os.path.basename(row.name).removesuffix('.frame')}.line"]
        elif command == "vehicle":
            files = files_of_vehicle(files[0])
        yield Try(row.name, command, words, files, row.output, statuses[row.name])


def pieces(program: Program, row: Try, _: bool) -> Faults:
    """Tries a row in pieces."""
    complaint = DEVICE if row.status == DEVICE_STATUS else b""
    is_refused = row.status == DEVICE_STATUS or any(it.startswith(b"refused ") for it in row.output.split(b"\n"))
    for piece in PIECES:
        ran, wanted = row.run(program, PIECE=piece), row.wanted(piece)
        reads, writes = ran.told.replace("w", "").replace("e", ""), ran.told.count("w")
        if (ran.status, ran.output, ran.complaint, ran.left) != (row.status, row.output, complaint, 0):
            yield f"in pieces of {piece}: {ran}"
        elif not wanted.startswith(reads) or reads != wanted and not is_refused or writes < -(-len(row.output) // piece):
            yield f"in pieces of {piece}: calls {counted(ran.told)}, and its files ask for {counted(wanted)}"


def calls(program: Program, row: Try, _: bool) -> Faults:
    """Stops each call of a row in turn. What interrupts a call is tried on the small rows alone, in the largest pieces."""
    for piece in PIECES if row.is_small() else PIECES[-1:]:
        whole, has_interrupts = row.run(program, PIECE=piece).told, row.is_small() and piece == PIECES[-1]
        for kind, error in [it for it in FAILURES if has_interrupts or it[1] != errno.EINTR]:
            for number, at in enumerate([at for at, letter in enumerate(whole) if letter == kind], 1):
                ran = row.run(program, PIECE=piece, FAIL_KIND=kind, FAIL_CALL=number, FAIL_ERROR=error)
                is_part = row.output.startswith(ran.output) and (len(ran.output) < len(row.output) or row.status == DEVICE_STATUS)
                if (ran.status, ran.complaint, is_part, ran.told.rstrip("e"), ran.left) != (DEVICE_STATUS, DEVICE, True, whole[: at + 1], 0):
                    yield f"in pieces of {piece}, call {number} of {kind} fails by {error}: {ran}"


def is_closing(command: str, line: bytes) -> bool:
    """Whether a line of run, read or follow stands behind all that the lines of the input give."""
    if command == "run":
        return b"#" not in line
    return line.startswith(b"frames ") if command == "read" else not line[:1].isdigit() and not line.startswith(b" ")


def puts(program: Program, row: Try, _: bool) -> Faults:
    """Sees when a row's text is put: by then as much as the lines give that were read, which is what is written of them alone."""
    if not row.is_small() or row.command not in ("run", "read", "follow") or len(row.files) != 2:
        return
    text, file = rows.bytes_of(row.files[1]), f"{program.room.folder}/begun"
    # of each file, its calls: of a plan that is refused there is no other one
    told = row.run(program, PIECE=1).told.split("o")[2:]
    reads = [told[0][:at].count("w") for at, letter in enumerate(told[0]) if letter == "r"] if told else []
    for end in [at + 1 for at, byte in enumerate(text) if byte == ord("\n")]:
        write(file, text[:end])
        lines = row.run(program, [row.files[0], file]).output.splitlines(keepends=True)
        given = sum(len(it) for it in lines if not is_closing(row.command, it))
        if end < len(reads) and reads[end] != given:
            yield f"behind {end} bytes of its input {reads[end]} bytes are put, and its lines give {given}"


def damaged(text: bytes, place: int) -> Iterator[bytes]:
    """Returns the text cut at a place, and with the byte there replaced."""
    yield text[:place]
    for byte in BYTES:
        yield text[:place] + byte + text[place + 1 :]


def damage(program: Program, row: Try, is_all: bool) -> Faults:
    """Damages each file of a row, in copies that lie to each other as the files do. (A vehicle may name a plan from the root on, or none that is.)"""
    base, top = os.path.dirname(row.files[0]), f"{program.room.folder}/in/a/folder"
    there = [it for it in row.files if it.startswith(f"{base}/") and os.path.isfile(it)]
    texts = {os.path.normpath(f"{top}/{os.path.relpath(it, base)}"): rows.bytes_of(it) for it in there}
    for file, text in texts.items():
        write(file, text)
    for file, text in texts.items():
        one = zlib.crc32(f"{row.name} {os.path.basename(file)}".encode()) % max(len(text), 1)
        for place in range(len(text)) if row.is_small() or is_all else [one]:
            for number, other in enumerate(damaged(text, place)):
                write(file, other)
                ran = row.run(program, list(texts))
                found = named.fault(row.command, ran.status, ran.output) or ran.complaint or ran.left
                if found and not (row.command == "vehicle" and is_other_plan(ran)):
                    yield f"{os.path.basename(file)}, damage {number} at byte {place}: {found!r}, {ran}"
        write(file, text)
    for file in texts:
        os.remove(file)


def is_other_plan(ran: Ran) -> bool:
    """Whether a vehicle names a plan that isn't there: a file is opened, and not read."""
    return (ran.status, ran.complaint) == (DEVICE_STATUS, DEVICE) and ran.told.rstrip("e").endswith("o") and ran.told.count("o") > 1


def write(file: str, text: bytes) -> None:
    """Writes a file, and the folders above it."""
    os.makedirs(os.path.dirname(file), exist_ok=True)
    with open(file, "wb") as opened:
        opened.write(text)


def limits(program: Program, tally: Tally) -> None:
    """Tries inputs of the most calls and bytes, and of one more, and schedules that turn out too long, or are refused before."""
    file, plan = f"{program.room.folder}/long", f"{rows.DATA}/{SMALL}two_flows.toml"

    def tried(name: str, words: list[str], text: bytes, piece: int, wanted: tuple[int, bytes, bytes]) -> None:
        write(file, text)
        ran = program.run([*words, file], PIECE=piece, TOLD=0)
        tally.count(name, (ran.status, ran.output, ran.complaint) == wanted, ran)

    missing, too_long = (2, b"refused Missing top key version\n", b""), (2, b"", TOO_LONG)
    off, on = b"unit A off\nunit B off\nsettled\n", b"unit A address 0\nunit B off\nsettled\n"
    tried("the most calls", ["check"], b" " * (MOST_CALLS - 1), 1, missing)
    tried("one more call", ["check"], b" " * MOST_CALLS, 1, too_long)
    tried("the most bytes", ["check"], b" " * MOST_BYTES, MOST_BYTES, missing)
    tried("one more byte", ["check"], b" " * (MOST_BYTES + 1), MOST_BYTES, too_long)
    tried("a schedule of the most bytes", ["run", plan], UP.ljust(MOST_BYTES, b"\n"), MOST_BYTES, (0, CLAIM + on, b""))
    tried("a schedule that is too long", ["run", plan], UP.ljust(MOST_BYTES + 1, b"\n"), MOST_BYTES, (2, CLAIM, TOO_LONG))
    for line, status, word in ((b"jump\n", 2, b"UnknownWord"), (b"rest A\n", 1, b"NotStarted")):
        output = b"refused line 1 " + word + b"\n" + off
        tried(f"a schedule refused at {line!r}", ["run", plan], line.ljust(MOST_BYTES + 1, b"\n"), MOST_BYTES, (status, output, b""))
    large, schedule, output = largest_bus()
    write(f"{program.room.folder}/large.toml", large)
    tried("the largest bus", ["run", f"{program.room.folder}/large.toml"], schedule, MOST_BYTES, (0, output, b""))


def largest_bus() -> tuple[bytes, bytes, bytes]:
    """Returns a plan of 128 fixed units, of which the first sends the longest message to all, a schedule by which each is on and each takes it, and
    what is written of that."""
    units, packets, message = range(128), range(1, 256), "09" * 1785
    plan = ["version = 1", *(f'[[unit]]\nlabel = "U{it}"\naddress = {it}\nname = {{ identity = {it} }}' for it in units)]
    plan += ['[[group]]\nlabel = "G"\npgn = 65260\npriority = 6\nlength = 1785', '[[flow]]\ngroup = "G"\nfrom = "U0"\nto = "all"']
    schedule = [line for it in units for line in (f"up U{it}", *(f"give U{it} U{other}" for other in range(it)))]
    schedule += [f"begin 1 {message}", *("emit U0" for _ in packets), *(f"take U0 U{it}" for it in units[1:] for _ in range(256)), "rest U0"]
    frames = [f"18EEFF{it:02X}#{it:02X}00000000000000" for it in units]
    frames += ["1CECFF00#20F906FFFFECFE00", *(f"1CEBFF00#{it:02X}{'09' * 7}" for it in packets)]
    ends = [*(f"unit U{it} address {it}" for it in units), "settled", *(f"report U{it} from U0 flow 1 bytes {message}" for it in units[1:])]
    plan_text, schedule_text, output = ("".join(f"{it}\n" for it in lines).encode() for lines in (plan, schedule, [*frames, *ends]))
    return plan_text, schedule_text, output


PARTS: dict[str, Callable[[Program, Try, bool], Faults]] = {"pieces": pieces, "calls": calls, "puts": puts, "damage": damage}


def faults_of(name: str, program: Program, row: Try, is_all: bool) -> list[str]:
    """Returns what a part finds of a row."""
    try:
        return list(PARTS[name](program, row, is_all))
    except in_process.Hung as hung:
        return [str(hung)]


def run_part(name: str, program: Program, each: list[Try], tally: Tally, is_all: bool) -> None:
    """Counts what a part finds of each row."""
    with ThreadPoolExecutor(os.cpu_count()) as pool:
        for row, found in zip(each, pool.map(lambda row: faults_of(name, program, row, is_all), each)):
            tally.count(f"{name} of {row.name}", not found, "; ".join(found[:3]))


def main(words: list[str]) -> int:
    asked = [it for it in words if it != "--all"] or [*PARTS, "limits"]
    if not set(asked) <= {*PARTS, "limits"}:
        print(__doc__, file=sys.stderr)
        return 2
    if not is_built(PROGRAM):
        print(f"devices: there is no program {PROGRAM}\n0 passed, 1 failed")
        return 1
    tally = Tally()
    with tempfile.TemporaryDirectory(prefix="j39plan-devices-") as top, contextlib.ExitStack() as stack:
        inside, cc = in_process.started(top), compiler()
        before = Preloaded("fail_io.c", cc, top) if cc else None
        program = stack.enter_context(inside) if inside else before
        if not program:
            print("devices: skipped, since there is no C compiler\n0 passed, 0 failed")
            return 0
        each = list(tries(f"{top}/rows"))
        for name in [it for it in PARTS if it in asked]:
            run_part(name, program, each, tally, "--all" in words)
        if inside and before and "pieces" in asked:
            run_part("pieces", before, [it for it in each if it.is_small()], tally, False)
        if "limits" in asked:
            limits(program, tally)
    return tally.end()


if __name__ == "__main__":
    sys.exit(main(sys.argv[1:]))
