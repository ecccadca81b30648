#!/usr/bin/env python3
"""Times the gate part by part while it runs: each crate's proof, its tests, and its edits that must fail. What counts is the
processor time of a part, which other work on the machine lengthens less than its time by the clock.

usage: times.py ci [WORD..]    runs `rt ci` (or other words in its place), looks at its checks four times a second, and
                               writes what they took into gate/times.md

A check is a process of the prover below the command: the crate that it names is its crate, and an edit is one that works in a
copy outside the repository. What a process does after the last look at it, a quarter of a second at most, isn't counted.
"""

import contextlib
import os
import subprocess
import sys
import threading
import time
from collections.abc import Callable, Iterator
from dataclasses import dataclass

sys.dont_write_bytecode = True
import crates

FILE = f"{crates.TOP}/gate/times.md"
PARTS = ("proof", "tests", "edits")
LOOK_SECONDS = 0.25
TICKS = os.sysconf("SC_CLK_TCK")

Key = tuple[str, str]


@dataclass
class Seen:
    """What was seen of a process: its part, when it was last seen, its processor time and its largest size."""

    key: Key
    at: float
    seconds: float = 0.0
    mebibytes: int = 0


@dataclass
class Part:
    seconds: float = 0.0
    mebibytes: int = 0
    ended: float = 0.0


def text_of(path: str) -> str:
    with open(path, encoding="utf-8", errors="replace") as file:
        return file.read()


def part_of(words: list[str], folder: str) -> Key | None:
    """Returns the crate and the part that a process is of, if it is a check."""
    if "--crate-name" not in words[:-1]:
        return None
    is_copy = os.path.commonpath([folder, crates.TOP]) != crates.TOP
    return words[words.index("--crate-name") + 1], "edits" if is_copy else "tests" if "--test" in words else "proof"


class Watch:
    """Looks at the processes below a command."""

    def __init__(self, parent: int) -> None:
        self.parent = parent
        self.begin = time.monotonic()
        self.seen: dict[tuple[int, str], Seen] = {}
        self.keys: dict[tuple[int, str], Key | None] = {}

    def look(self) -> None:
        """Notes the processor time and the size of each check that runs."""
        rows = {}
        for name in filter(str.isdigit, os.listdir("/proc")):
            try:
                fields = text_of(f"/proc/{name}/stat").rpartition(")")[2].split()
            except OSError:
                continue
            rows[int(name)] = fields
        below = {self.parent}
        found = below
        while found:
            found = {it for it, fields in rows.items() if it not in below and int(fields[1]) in below}
            below |= found
        for number in below & rows.keys():
            self.note(number, rows[number])

    def note(self, number: int, fields: list[str]) -> None:
        process = (number, fields[19])
        if process not in self.keys:
            try:
                words = text_of(f"/proc/{number}/cmdline").split("\0")
                self.keys[process] = part_of(words, os.readlink(f"/proc/{number}/cwd"))
            except OSError:
                return
        key = self.keys[process]
        if key is None:
            return
        seen = self.seen.setdefault(process, Seen(key, 0))
        seen.at = time.monotonic() - self.begin
        seen.seconds = (int(fields[11]) + int(fields[12])) / TICKS
        seen.mebibytes = max(seen.mebibytes, int(fields[21]) * os.sysconf("SC_PAGE_SIZE") >> 20)

    def parts(self) -> dict[Key, Part]:
        found: dict[Key, Part] = {}
        for seen in self.seen.values():
            part = found.setdefault(seen.key, Part())
            part.seconds += seen.seconds
            part.mebibytes = max(part.mebibytes, seen.mebibytes)
            part.ended = max(part.ended, seen.at)
        return found


@contextlib.contextmanager
def looking(look: Callable[[], None], seconds: float) -> Iterator[None]:
    """Has a thread look each time that so many seconds are over."""
    ended = threading.Event()

    def look_on() -> None:
        while not ended.wait(seconds):
            look()

    looker = threading.Thread(target=look_on)
    looker.start()
    try:
        yield
    finally:
        ended.set()
        looker.join()


def watched(words: list[str]) -> tuple[int, float, dict[Key, Part]]:
    """Runs a command, and returns its status, its seconds by the clock, and what its checks took."""
    started = subprocess.Popen(words, cwd=crates.TOP)
    watch = Watch(started.pid)
    with looking(watch.look, LOOK_SECONDS):
        status = started.wait()
    return status, time.monotonic() - watch.begin, watch.parts()


def tasks_of(parts: dict[Key, Part], named: dict[str, list[str]]) -> dict[Key, tuple[float, list[Key]]]:
    """Returns for each part its processor seconds and the parts that it waits for."""
    tasks = {}
    for name in named:
        below = [(it, "proof") for it in crates.needed(name, named) if it != name]
        waits = {"proof": below, "tests": below, "edits": [(name, "proof"), (name, "tests")]}
        for part in PARTS:
            if (name, part) in parts:
                tasks[name, part] = parts[name, part].seconds, waits[part]
    return tasks


def longest(tasks: dict[Key, tuple[float, list[Key]]]) -> tuple[float, list[Key]]:
    """Returns the seconds and the parts of the longest chain."""
    ends: dict[Key, tuple[float, list[Key]]] = {}

    def end(key: Key) -> tuple[float, list[Key]]:
        if key not in ends:
            seconds, waits = tasks[key]
            begun, chain = max((end(it) for it in waits if it in tasks), default=(0.0, list[Key]()))
            ends[key] = begun + seconds, [*chain, key]
        return ends[key]

    return max(end(it) for it in tasks)


def minutes(seconds: float) -> str:
    return f"{seconds / 60:.1f}"


def tables(seconds: float, parts: dict[Key, Part]) -> str:
    """Returns the text of gate/times.md."""
    named = crates.below()
    lines = [
        "# Minutes of the gate by part",
        "",
        f"Written by `gate/times.py` on {time.strftime('%-d %B %Y')}, on {os.cpu_count()} processors: minutes of processor time of each part",
        "of `rt ci`, the largest process, and when each crate's proof had ended by the clock.",
        "",
        "| Crate | Proof | Tests | Edits | Largest process | Proved after |",
        "|---|---|---|---|---|---|",
    ]
    for name in named:
        own = {part: parts[name, part] for part in PARTS if (name, part) in parts}
        cells = " | ".join(minutes(own[part].seconds) if part in own else "" for part in PARTS)
        most = max((it.mebibytes for it in own.values()), default=0)
        lines.append(f"| `{name}` | {cells} | {most} MiB | {minutes(own['proof'].ended) if 'proof' in own else ''} |")
    used = sum(it.seconds for it in parts.values())
    lines += ["", f"- Sum: {minutes(used)} minutes of processor time, in {minutes(seconds)} by the clock."]
    if parts:
        chained, chain = longest(tasks_of(parts, named))
        lines.append(f"- Longest chain: {minutes(chained)} minutes: {', '.join(f'{part} of `{name}`' for name, part in chain)}.")
    return "\n".join(lines) + "\n"


def main(words: list[str]) -> int:
    if words[:1] != ["ci"]:
        print(__doc__, file=sys.stderr)
        return 2
    status, seconds, parts = watched(words[1:] or ["rt", "ci"])
    with open(FILE, "w", encoding="ascii") as file:
        file.write(tables(seconds, parts))
    return status


if __name__ == "__main__":
    sys.exit(main(sys.argv[1:]))
