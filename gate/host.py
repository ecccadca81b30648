#!/usr/bin/env python3
"""Builds host/ by gcc, with the stored program inside, and runs its tests, and some of them by valgrind. What a missing program keeps from being tried is
said. The last line is 'N passed, M failed'.
"""

from __future__ import annotations

import shutil
import subprocess
import sys

sys.dont_write_bytecode = True
import crates
from tally import Tally


def made(tally: Tally, goal: str) -> None:
    """Counts whether make reaches a goal, and passes on what it says."""
    ran = subprocess.run(["make", "-s", "-C", f"{crates.TOP}/host", goal], stdin=subprocess.DEVNULL, stdout=subprocess.PIPE, stderr=subprocess.STDOUT, text=True, check=False)
    print(ran.stdout, end="")
    tally.count(f"make {goal}", ran.returncode == 0, f"status {ran.returncode}")


def main() -> int:
    tally = Tally()
    lacking = [it for it in ("gcc", "make") if not shutil.which(it)]
    if lacking:
        print(f"host: skipped, since {' and '.join(lacking)} is missing")
        return tally.end()
    made(tally, "all")
    made(tally, "test")
    if shutil.which("valgrind"):
        made(tally, "leaks")
    else:
        print("leaks: skipped, since valgrind is missing")
    return tally.end()


if __name__ == "__main__":
    sys.exit(main())
