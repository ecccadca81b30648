#!/usr/bin/env python3
"""The small program for Windows in program/, which runs the stored program that lies beside it.

usage: windows.py          compares it with its record and, where the compiler of the record is there, with what that makes of host/; where Wine and
                           mingw-w64 are there, all rows are run for Windows in a process that goes on, and some by program/j39plan.exe itself. What
                           can't be tried is said. The last line is 'N passed, M failed'
       windows.py write    builds it anew, and its record

The record has the sums of the file and of its sources, and the compiler. It says nothing of the stored program, which changes without it.
"""

from __future__ import annotations

import glob
import hashlib
import os
import shutil
import subprocess
import sys
import tempfile

sys.dont_write_bytecode = True
import crates
import in_process
import rows
from tally import Tally

PROGRAMS = f"{crates.TOP}/program"
STORED = f"{PROGRAMS}/j39plan.exe"
RECORD = f"{STORED}.txt"
MADE = f"{crates.TOP}/host/out/windows/j39plan.exe"
# The program is the stored one, whatever the environment names: it is what j39plan.exe runs.
BESIDE = f"{PROGRAMS}/j39plan-linux-x86_64"
# How long j39plan.exe may run.
SECONDS = 120
# What j39plan.exe is run on: its words from the folder examples/, standard input, and status, standard output and standard error.
RUNS: tuple[tuple[list[str], bytes, tuple[int, bytes, bytes]], ...] = (
    (["--version"], b"", (0, b"j39plan 0.1.0\n", b"")),
    (["check", "first_plan.toml"], b"", (0, b"ok 2 units 1 groups 1 flows\n", b"")),
    (["check", "findings\\f02_same_fixed_address.toml"], b"", (1, b"", b"")),
    (["check", "missing.toml"], b"", (4, b"", b"j39plan: device fault\n")),
    (["check", "-"], b"version = 1\r\n", (0, b"ok 0 units 0 groups 0 flows\n", b"")),
    (["jump"], b"", (2, b"", b"j39plan: bad command line\n")),
    ([], b"0CF00400#FFFFFFE02EFFFFFF\r\n", (0, b"frame 0CF00400#FFFFFFE02EFFFFFF\npriority 3 pgn 61444 from 0 to all\n", b"")),
)


def sum_of(path: str) -> str:
    return hashlib.sha256(rows.bytes_of(path)).hexdigest()


def sources() -> str:
    """Returns the sum of all that j39plan.exe is built from."""
    files = [it for ending in ("*.c", "*.h", "*.S", "Makefile") for it in glob.glob(f"{crates.TOP}/host/{ending}")]
    return hashlib.sha256("".join(f"{os.path.basename(it)} {sum_of(it)}\n" for it in sorted(files)).encode()).hexdigest()


def compiler() -> str | None:
    """Returns what the compiler says of itself, None where there is none."""
    if not shutil.which(in_process.MINGW) or not shutil.which("make"):
        return None
    said = subprocess.run([in_process.MINGW, "--version"], capture_output=True, text=True, check=True).stdout
    linker = subprocess.run(["x86_64-w64-mingw32-ld", "--version"], capture_output=True, text=True, check=True).stdout
    return f"{said.splitlines()[0]}, {linker.splitlines()[0]}"


def recorded() -> dict[str, str]:
    """Returns what the record has, by its keys."""
    return dict(line.split(" ", 1) for line in crates.text_of(RECORD).splitlines() if " " in line)


def make() -> None:
    """Builds j39plan.exe anew."""
    shutil.rmtree(os.path.dirname(MADE), ignore_errors=True)
    subprocess.run(["make", "-s", "-C", f"{crates.TOP}/host", "out/windows/j39plan.exe"], check=True)


def write() -> int:
    """Refreshes the file and its record."""
    now = compiler()
    if now is None:
        print("windows.py: mingw-w64 or make is missing", file=sys.stderr)
        return 69
    make()
    shutil.copyfile(MADE, STORED)
    with open(RECORD, "w", encoding="utf-8") as file:
        file.write(f"program {sum_of(STORED)}\nsources {sources()}\ncompiler {now}\n")
    return 0


def compare(tally: Tally) -> None:
    """Compares the stored file with its record, its sources, and what they make."""
    told, now = recorded(), compiler()
    tally.count("the sum of j39plan.exe", told.get("program") == sum_of(STORED), "it is not the recorded one")
    tally.count("the sources of j39plan.exe", told.get("sources") == sources(), "host/ has others: gate/windows.py write")
    if now != told.get("compiler"):
        print(f"j39plan.exe: what its sources make isn't compared, since {told.get('compiler')} isn't here, but {now or 'none'}")
        return
    make()
    tally.count("j39plan.exe", rows.bytes_of(MADE) == rows.bytes_of(STORED), "host/ makes another file: gate/windows.py write")


def run_some(tally: Tally, program: in_process.InProcess, top: str) -> None:
    """Runs j39plan.exe itself; of findings the status alone is looked at. Beside a damaged program, and beside none, it says so."""
    wine, environment = program.words[0], program.environment
    for words, given, (status, output, complaint) in RUNS:
        ran = subprocess.run([wine, STORED, *words], cwd=f"{crates.TOP}/examples", input=given, capture_output=True, timeout=SECONDS, env=environment, check=False)
        is_well = (ran.returncode, ran.stderr) == (status, complaint) and (status == 1 or ran.stdout == output)
        tally.count(f"j39plan.exe {' '.join(words)}", is_well, ran)
    for name, damage, why in (("none", None, b"aren't beside it"), ("damaged", b"\0", b"is not the file that was recorded")):
        folder = f"{top}/{name}"
        os.mkdir(folder)
        shutil.copy(STORED, folder)
        if damage:
            shutil.copy(f"{BESIDE}.txt", folder)
            with open(f"{folder}/{os.path.basename(BESIDE)}", "wb") as file:
                file.write(rows.bytes_of(BESIDE) + damage)
        ran = subprocess.run([wine, f"{folder}/j39plan.exe", "--version"], capture_output=True, timeout=SECONDS, env=environment, check=False)
        tally.count(f"j39plan.exe beside a program: {name}", (ran.returncode, ran.stdout) == (69, b"") and why in ran.stderr, ran)


def run_rows(tally: Tally, program: in_process.InProcess, room: str) -> None:
    """Runs all rows by Wine, one after another."""
    each, wanted, run_row = list(rows.all_rows(room)), rows.listed(), rows.run_within(program)
    faults = [(row.name, found) for row in each if (found := rows.fault(row, wanted, run_row))]
    for name, found in faults:
        print(f"{name}: for Windows, {found}")
    tally.passed, tally.failed = tally.passed + len(each) - len(faults), tally.failed + len(faults)


def wait_for_end(program: in_process.InProcess) -> None:
    """Waits until Wine's server has ended, which writes into its folder for some seconds behind the last run."""
    beside = os.path.dirname(os.path.realpath(program.words[0]))
    server = shutil.which("wineserver", path=f"{beside}:{os.environ['PATH']}")
    if server:
        subprocess.run([server, "--wait"], env=program.environment, stdin=subprocess.DEVNULL, timeout=SECONDS, check=False)


def main(words: list[str]) -> int:
    if words == ["write"]:
        return write()
    tally = Tally()
    compare(tally)
    with tempfile.TemporaryDirectory(prefix="j39plan-windows-", ignore_cleanup_errors=True) as top:
        program = in_process.started_by_wine(top, BESIDE)
        if program:
            with program:
                run_rows(tally, program, f"{top}/rows")
                run_some(tally, program, top)
            wait_for_end(program)
    return tally.end()


if __name__ == "__main__":
    sys.exit(main(sys.argv[1:]))
