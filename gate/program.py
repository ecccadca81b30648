#!/usr/bin/env python3
"""The program that lies in the repository, and its record.

usage: program.py          compares it with the program that was built and proved: where it is of the same sources and the same toolchain, it has
                           to be the same file byte by byte; where it is of others, that is said. The last line is 'N passed, M failed'
       program.py write    refreshes program/ from the program that ./j39plan --build has built

The record has the sums of the program and of its sources (program/find --digest, as it was when the program was built), the toolchain, and
the C library that it wants.
"""

from __future__ import annotations

import hashlib
import os
import re
import shutil
import subprocess
import sys

sys.dont_write_bytecode = True
import build
import crates
from tally import Tally

STORED = f"{crates.TOP}/program/{build.PROGRAM}-linux-x86_64"
RECORD = f"{STORED}.txt"


def bytes_of(path: str) -> bytes:
    with open(path, "rb") as file:
        return file.read()


def said_by(words: list[str]) -> str:
    return subprocess.run(words, cwd=crates.TOP, stdin=subprocess.DEVNULL, capture_output=True, text=True, check=True).stdout.strip()


def library_of(program: bytes) -> str:
    """Returns the C library that a program wants: the latest version of which it names a symbol."""
    found = {tuple(map(int, it.split(b"."))) for it in re.findall(rb"\0GLIBC_(\d+\.\d+(?:\.\d+)?)", program)}
    return f"GLIBC {'.'.join(map(str, max(found)))}" if found else "no GLIBC"


def record_of(program: bytes, built: str = build.BUILT) -> dict[str, str]:
    """Returns what the record of a program has that was built here."""
    return {"program": hashlib.sha256(program).hexdigest(), "sources": build.noted(built) or "",
            "toolchain": said_by(["rt", "version"]), "library": library_of(program)}


def recorded() -> dict[str, str]:
    with open(RECORD, encoding="utf-8") as lines:
        return dict(line.rstrip("\n").split(" ", 1) for line in lines if " " in line)


def write() -> int:
    """Refreshes both files."""
    if not build.is_built(build.BUILT):
        build.say("the program isn't built, or it is of other sources: ./j39plan --build")
        return build.FAILED
    keep(build.BUILT, STORED)
    return 0


def keep(built: str, stored: str) -> None:
    """Puts a program that was built into its place, and its record beside it."""
    # made beside its place, since the old one may be running
    shutil.copyfile(built, f"{stored}.new")
    os.chmod(f"{stored}.new", 0o755)
    os.replace(f"{stored}.new", stored)
    with open(f"{stored}.txt", "w", encoding="utf-8") as file:
        file.writelines(f"{key} {value}\n" for key, value in record_of(bytes_of(stored), built).items())


def compare(tally: Tally) -> None:
    """Compares the stored program with the built one."""
    if not os.path.isfile(STORED) or not os.path.isfile(RECORD):
        tally.count("the stored program", False, "program/ has none: ./dev program")
        return
    told, stored, built = recorded(), bytes_of(STORED), bytes_of(build.BUILT)
    now = record_of(built)
    tally.count("the built program", build.is_built(build.BUILT), "it is of other sources than these")
    tally.count("the sum of the stored program", told.get("program") == hashlib.sha256(stored).hexdigest(), "it is not the recorded one")
    tally.count("the library of the stored program", told.get("library") == library_of(stored), told.get("library"))
    if told.get("sources") != now["sources"]:
        print("the stored program is of other sources, so ./j39plan builds, and the gate compares nothing: ./dev program refreshes it")
    elif told.get("toolchain") != now["toolchain"]:
        print(f"the stored program was built by another toolchain ({told.get('toolchain')}): ./dev program refreshes it")
    else:
        tally.count("the stored program", stored == built, "it is of these sources, and another file than the one that was proved")


def main(words: list[str]) -> int:
    if words == ["write"]:
        return write()
    tally = Tally()
    compare(tally)
    return tally.end()


if __name__ == "__main__":
    sys.exit(main(sys.argv[1:]))
