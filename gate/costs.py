#!/usr/bin/env python3
"""Tells what the functions and lemmas of a crate cost to prove. The crate is checked from nothing, with one job, in a copy, over the
libraries that were built. What counts is processor time, which other work on the machine lengthens less than time by the clock.

usage: costs.py CRATE [COUNT]           proves the library or the program; shows the dearest COUNT, else 20
       costs.py --all FILE [CRATE..]    proves these crates, else all, one after another, and writes a page of what they and their dearest
                                        functions cost
       costs.py --beside TREE [CRATE..] proves these crates, else all, here and in another checkout, each pair at one time, and shows what both
                                        take. A machine's speed changes by the hour; such pairs of equal sources agree within 2 %
       costs.py --test CRATE [COUNT]    proves, builds and runs the crate's tests, over what ./j39plan has built
       costs.py --kept CRATE [COUNT]    checks nothing: shows how much earlier checks have written of each function, also of forms that it
                                        no longer has, and at the end what of all this stands in the library that was built last

The checker writes a file for each module once it has checked it, and with one job it checks one after another: so what its processes
took between two files is what the module of the later one takes. A function has several modules: `Lts` follows its borrows and moves step
by step, `Proof` and `Answers` prove its goals, `Tie` and `Code` tie it to what is compiled. Nothing else may check in the copy.
"""

from __future__ import annotations

import os
import re
import signal
import subprocess
import sys
import tempfile
import time
from bisect import bisect_left
from collections import defaultdict
from dataclasses import dataclass

sys.dont_write_bytecode = True
import build
import checks
import crates
import times

LOOK_SECONDS = 0.05
COUNT = 20
KEPT = "out/incremental"
# A module of a crate, by its file: its path below the crate's definitions or proofs.
FILE = re.compile(r"Rattle-\w+-(?:specs|proofs)\.(?:contracts\.)?(.+?)(?:\.decls)?\.oantt")
TESTS = ["rt", "test", "--jobs", "1"]
# How many functions a page names.
DEAREST = 100

Costs = list[tuple[str, float]]


class Clock:
    """Looks at the checks below a command: how much processor time they had taken, and when."""

    def __init__(self, parent: int) -> None:
        self.watch = times.Watch(parent)
        self.at: list[float] = []
        self.taken: list[float] = []

    def look(self) -> None:
        self.watch.look()
        self.at.append(time.time())
        self.taken.append(sum(it.seconds for it in self.watch.seen.values()))

    def seconds(self, moment: float) -> float:
        """Returns the processor time that was taken by then."""
        place = bisect_left(self.at, moment)
        if place == 0 or place == len(self.at):
            return self.taken[-1] if place else 0.0
        part = (moment - self.at[place - 1]) / (self.at[place] - self.at[place - 1])
        return self.taken[place - 1] + part * (self.taken[place] - self.taken[place - 1])


def clocked(words: list[str], folder: str) -> tuple[int, list[tuple[float, str]], Clock]:
    """Runs a command, and returns its status, the lines that it said and when, and its clock."""
    started = subprocess.Popen(words, cwd=folder, text=True, errors="replace", stdin=subprocess.DEVNULL, stdout=subprocess.PIPE,
                               stderr=subprocess.STDOUT, preexec_fn=os.setpgrp)
    assert started.stdout is not None
    clock = Clock(started.pid)
    with times.looking(clock.look, LOOK_SECONDS):
        try:
            said = [(time.time(), line.rstrip("\n")) for line in started.stdout]
            status = started.wait()
        finally:
            build.stop(started)
    return status, said, clock


def written(folder: str) -> list[tuple[float, int, str]]:
    """Returns each file that the checker has written of a crate, in the order of their times: the time, the size and the name."""
    found = []
    for at, _, names in os.walk(f"{folder}/{KEPT}"):
        for it in filter(FILE.fullmatch, names):
            stat = os.stat(f"{at}/{it}")
            found.append((stat.st_mtime, stat.st_size, it))
    return sorted(found)


def by_owner(costs: Costs) -> dict[str, dict[str, float]]:
    """Returns what each function costs, by its modules, and what each other module costs. A function is what has code."""
    paths = [(file.group(1), cost) for name, cost in costs if (file := FILE.fullmatch(name))]
    functions = {path.removesuffix(".Code") for path, _ in paths if path.endswith(".Code")}
    found: dict[str, dict[str, float]] = defaultdict(lambda: defaultdict(float))
    for path, cost in paths:
        parts = path.split(".")
        owner = next((it for it in (".".join(parts[:end]) for end in range(len(parts), 0, -1)) if it in functions), path)
        behind = path[len(owner) + 1 :].split(".")[0]
        found[owner][behind or ("Contract" if owner in functions else "module")] += cost
    return found


def show(costs: Costs, unit: str, count: int) -> None:
    """Writes a line for each of the dearest functions and lemmas, and one for the others."""
    rows = sorted(((sum(parts.values()), owner, parts) for owner, parts in by_owner(costs).items()), reverse=True)
    for cost, owner, parts in rows[:count]:
        dearest = sorted(parts.items(), key=lambda it: -it[1])[:3]
        print(f"{cost:7.1f} {unit}  {owner}: " + ", ".join(f"{part} {of_part:.1f}" for part, of_part in dearest))
    print(f"{sum(cost for cost, _, _ in rows[count:]):7.1f} {unit}  {len(rows[count:])} others")


def of_kept(name: str, count: int) -> int:
    """Shows how much was written of each function of a crate, and how much of it stands in the library that was built last."""
    show([(it, size / 1e6) for _, size, it in written(crates.folder(name))], "MB", count)
    library = f"{crates.folder(name)}/out/rlib/{name}.rlib/toolchain/checked.a"
    if os.path.isfile(library):
        print(f"{os.path.getsize(library) / 1e6:7.1f} MB  in the library")
    return 0


@dataclass
class Proof:
    """What the proof of a crate took: each module's part, what was taken ahead of the first one, and in all, in seconds of processor time."""

    name: str
    costs: Costs
    ahead: float
    whole: float

    def line(self) -> str:
        behind = self.whole - self.ahead - sum(it for _, it in self.costs)
        return f"{self.name}: {self.whole:.0f} s of processor time, {self.ahead:.0f} of them ahead of the first module and {behind:.0f} behind the last"


def proof_of(name: str, words: list[str]) -> Proof | None:
    """Proves a crate by these words, or says why it isn't proved."""
    lacking = [it for it in crates.needed(name) if it != name and not os.path.isdir(f"{crates.folder(it)}/out/rlib")]
    if lacking:
        print(f"what {name} stands on is to be built first, by rt ci, ./j39plan or rt lib: {', '.join(lacking)}", file=sys.stderr)
        return None
    with tempfile.TemporaryDirectory(prefix="j39plan-costs-") as top:
        build.copy(name, top)
        folder = f"{top}/crates/{name}"
        os.makedirs(f"{folder}/{KEPT}", exist_ok=True)
        status, said, clock = clocked(words, folder)
        if status:
            print("\n".join(line for _, line in said[-20:]), file=sys.stderr)
            return None
        taken = [(clock.seconds(moment), it) for moment, _, it in written(folder)]
    ahead = taken[0][0]
    return Proof(name, [(it, now - before) for (before, _), (now, it) in zip([(ahead, ""), *taken], taken)], ahead, clock.taken[-1])


def check_of(name: str) -> list[str]:
    """Returns the words of a check from nothing."""
    return ["rattle", "check", *checks.words_of(name), "--incremental", KEPT]


def page_of(proofs: list[Proof]) -> str:
    """Returns a page of what crates and their dearest functions cost."""
    rows = [(sum(parts.values()), it.name, owner) for it in proofs for owner, parts in by_owner(it.costs).items()]
    lines = ["# What proofs cost", "", f"Processor time of a check from nothing, with one job, in seconds: written by `gate/costs.py --all`, of commit {commit()}.", ""]
    lines += ["| Crate | Seconds | Functions | Seconds of the dearest function |", "|---|---|---|---|"]
    for it in sorted(proofs, key=lambda it: -it.whole):
        functions = [sum(parts.values()) for parts in by_owner(it.costs).values() if "Code" in parts]
        lines.append(f"| `{it.name}` | {it.whole:.0f} | {len(functions)} | {max(functions, default=0.0):.1f} |")
    lines += [f"| all | {sum(it.whole for it in proofs):.0f} | | |", "", "| Seconds | Crate | Function or module |", "|---|---|---|"]
    lines += [f"| {cost:.1f} | `{name}` | `{owner}` |" for cost, name, owner in sorted(rows, reverse=True)[:DEAREST]]
    return "\n".join([*lines, ""])


def commit() -> str:
    ran = subprocess.run(["git", "rev-parse", "--short", "HEAD"], cwd=crates.TOP, stdin=subprocess.DEVNULL, capture_output=True, text=True, check=False)
    return ran.stdout.strip() or "unknown"


def of_all(file: str, names: list[str]) -> int:
    """Proves crates one after another, and writes the page after each."""
    proofs = []
    for name in names:
        found = proof_of(name, check_of(name))
        if found is None:
            return 1
        print(found.line(), flush=True)
        proofs.append(found)
        with open(file, "w", encoding="utf-8") as page:
            page.write(page_of(proofs))
    return 0


def of_two(tree: str, names: list[str]) -> int:
    """Proves crates in another checkout and here, each in both at one time, and shows what both take."""
    sums = [0, 0]
    for name in names:
        words = [[sys.executable, f"{top}/gate/costs.py", name, "0"] for top in (tree, crates.TOP)]
        started = [subprocess.Popen(it, stdin=subprocess.DEVNULL, stdout=subprocess.PIPE, text=True) for it in words]
        said = [it.communicate()[0] for it in started]
        seconds = [int(found[1]) for it in said if (found := re.match(rf"{name}: (\d+) s ", it))]
        if len(seconds) != len(said):
            return 1
        sums = [sum(it) for it in zip(sums, seconds)]
        print(f"{name}: {seconds[0]} s there, {seconds[1]} here", flush=True)
    print(f"all: {sums[0]} s there, {sums[1]} here")
    return 0


def of_one(name: str, words: list[str], count: int) -> int:
    """Proves a crate, and shows what that takes."""
    found = proof_of(name, words)
    if found is None:
        return 1
    print(found.line())
    show(found.costs, "s", count)
    return 0


def main(words: list[str]) -> int:
    mode = words[0] if words and words[0] in ("--all", "--beside", "--test", "--kept") else ""
    names = words[1:] if mode else words
    is_of_many = mode in ("--all", "--beside")
    where = names.pop(0) if is_of_many and names else ""
    if any(it not in crates.below() for it in (names if is_of_many else names[:1] or [""])) or is_of_many and not where:
        print(__doc__, file=sys.stderr)
        return 2
    # what is stopped ends what it has started, and removes its copy
    signal.signal(signal.SIGTERM, lambda *_: sys.exit(1))
    if mode == "--all":
        return of_all(where, names or list(crates.below()))
    if mode == "--beside":
        return of_two(os.path.abspath(where), names or list(crates.below()))
    name, count = names[0], int(names[1]) if names[1:] else COUNT
    if mode == "--kept":
        return of_kept(name, count)
    return of_one(name, TESTS if mode else check_of(name), count)


if __name__ == "__main__":
    sys.exit(main(sys.argv[1:]))
