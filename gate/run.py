#!/usr/bin/env python3
"""Runs the whole gate: rt ci, and then what needs the built program: the stored rows, the launcher, the tests of the tools
and of the pages, devices that fail, and refused allocations. The last line is 'N passed, M failed'; the status is 0 where nothing failed.

usage: run.py [--timed] [--install]
  --timed     gate/times.py runs rt ci, and writes what its parts took into gate/times.md; all edits are tried anew
  --install   installs packages of Debian that the tests of the tools miss; else what misses them is skipped, and that is said
"""

import os
import platform
import re
import resource
import signal
import subprocess
import sys
import threading
import time

sys.dont_write_bytecode = True
import crates

# The parts behind rt ci: a name, its words from the top, and the minutes that it may take.
PARTS = (
    ("rows", [sys.executable, "gate/rows.py"], 10),
    ("edits", [sys.executable, "gate/edits.py"], 90),
    ("plants", [sys.executable, "gate/edits_plants.py"], 20),
    ("equations", [sys.executable, "gate/equations.py"], 5),
    ("lint", [sys.executable, "gate/lint.py"], 10),
    ("launcher", [sys.executable, "gate/launcher.py"], 20),
    ("tools", ["tools/test"], 45),
    ("faults", [sys.executable, "gate/faults.py"], 20),
    ("devices", [sys.executable, "gate/devices.py"], 20),
    ("memory", [sys.executable, "gate/memory.py"], 20),
    ("devices' plants", [sys.executable, "gate/devices_plants.py"], 10),
    ("program", [sys.executable, "gate/program.py"], 5),
    ("host", [sys.executable, "gate/host.py"], 10),
    ("windows", [sys.executable, "gate/windows.py"], 15),
    ("page", [sys.executable, "gate/page.py"], 5),
)
COUNTS = re.compile(r"(\d+) passed, (\d+) failed")


def counted(name: str, words: list[str], minutes: int | None = None) -> tuple[int, int]:
    """Runs a part, passes on what it says, and returns how much of it passed and failed."""
    print(f"== {name}", flush=True)
    last = ""
    try:
        started = subprocess.Popen(words, cwd=crates.TOP, text=True, errors="replace", stdin=subprocess.DEVNULL, stdout=subprocess.PIPE,
                                   stderr=subprocess.STDOUT, start_new_session=minutes is not None)
    except OSError as error:
        print(f"{name}: {error}")
        return 0, 1
    if minutes:
        # A part that hangs is stopped, with all that it started: its output then ends.
        stopper = threading.Timer(60 * minutes, os.killpg, (started.pid, signal.SIGKILL))
        stopper.start()
    assert started.stdout is not None
    for line in started.stdout:
        print(line, end="", flush=True)
        last = line.strip() or last
    status = started.wait()
    if minutes:
        stopper.cancel()
    found = COUNTS.fullmatch(last)
    passed, failed = map(int, found.groups()) if found else (int(status == 0), 0)
    if status and not failed:
        print(f"{name}: it ended with status {status}")
        failed = 1
    return passed, failed


def timed(name: str, words: list[str], minutes: int | None = None) -> tuple[int, int]:
    """Does what `counted` does, and says how long the part took."""
    begin, used = time.monotonic(), processor_seconds()
    found = counted(name, words, minutes)
    spent, used = time.monotonic() - begin, processor_seconds() - used
    print(f"{name}: {used / 60:.1f} minutes of processor time, {spent / 60:.1f} by the clock", flush=True)
    return found


def processor_seconds() -> float:
    """Returns the processor time of what was started from here and has ended."""
    usage = resource.getrusage(resource.RUSAGE_CHILDREN)
    return usage.ru_utime + usage.ru_stime


def environment() -> str:
    """Returns on what the gate runs: the kit, Python, the system and its processors."""
    kit = subprocess.run(["rt", "version"], stdin=subprocess.DEVNULL, capture_output=True, text=True, check=False).stdout.strip()
    processors = len(os.sched_getaffinity(0))
    return f"{kit}, Python {platform.python_version()}, {platform.platform()}, {processors} processors"


def main(words: list[str]) -> int:
    print(environment(), flush=True)
    prove = [sys.executable, "gate/prove.py"]
    found = [timed("rt ci", [sys.executable, "gate/times.py", "ci", *prove] if "--timed" in words else prove)]
    for name, part, minutes in PARTS:
        asked = ["--install"] if name == "tools" and "--install" in words else []
        asked += ["--anew"] if name == "edits" and "--timed" in words else []
        found.append(timed(name, [*part, *asked], minutes))
    passed, failed = map(sum, zip(*found))
    print(f"{passed} passed, {failed} failed")
    return 1 if failed else 0


if __name__ == "__main__":
    sys.exit(main(sys.argv[1:]))
