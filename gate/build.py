#!/usr/bin/env python3
"""Builds the program with its proofs: each crate that it needs, once those below it are built, as many side by side as
processors and memory allow. What it says goes to standard error.

usage: build.py [JOBS]    JOBS: how many processors to use, else all that there are

Exit status: 0 built, 69 the toolchain is missing, 70 the build failed. A second run waits for the first.
"""

from __future__ import annotations

import fcntl
import glob
import os
import re
import shutil
import signal
import subprocess
import sys
import tempfile
import time
from collections.abc import Callable
from typing import Any

sys.dont_write_bytecode = True
import crates

PROGRAM = "j39plan"
BUILT = f"{crates.folder(PROGRAM)}/out/{PROGRAM}"
ROOM = "j39plan-build-"
MISSING, FAILED = 69, 70
# The most processors that a check of one crate makes use of, and what one gets that is waited for less.
CRATE_JOBS, OTHER_JOBS = 4, 2
# The niceness of a crate that nothing waits for, so that on a busy machine it comes to no stand, and up to which a crate is waited
# for most.
NICEST, NEARLY = 5, 1
# What a check takes for each processor, about, and the whole build: in the folders `out`, and the most that all of it takes.
JOB_BYTES = 2_000_000_000
DISK_BYTES = int(os.environ.get("J39PLAN_DISK_BYTES", "13000000000"))
NEEDS = "30 to 40 minutes on four processors and 110 on one, 2 GB of memory for each processor, 13 GB of disk"


def say(text: str) -> None:
    print(f"{PROGRAM}: {text}", file=sys.stderr, flush=True)


def clock(start: float) -> str:
    passed = int(time.monotonic() - start)
    return f"{passed // 60}:{passed % 60:02}"


def jobs_of_memory() -> int:
    """Returns for how many processors there is memory, or many where the system doesn't tell."""
    with open("/proc/meminfo", encoding="ascii") as lines:
        free = re.search(r"MemAvailable:\s+(\d+)", lines.read())
    return 1024 * int(free[1]) // JOB_BYTES if free else 1000


def built_bytes() -> int:
    """Returns how much the folders of what was built take already."""
    kept = 0
    for name in crates.needed(PROGRAM):
        for folder, _, files in os.walk(f"{crates.folder(name)}/out"):
            kept += sum(os.lstat(os.path.join(folder, it)).st_blocks * 512 for it in files)
    return kept


def missing_bytes() -> int:
    """Returns how much disk is missing for what isn't built yet, 0 where there is room."""
    return max(DISK_BYTES - built_bytes() - shutil.disk_usage(crates.TOP).free, 0)


def read_kit() -> subprocess.Popen[bytes] | None:
    """Reads the toolchain's libraries that the program stands on once from end to end, where there is memory to keep them: a check
    reads them here and there, which takes minutes where they lie on a disk that wasn't read yet."""
    doc = subprocess.run(["rt", "doc"], stdin=subprocess.DEVNULL, capture_output=True, text=True, check=False).stdout.strip()
    names = dict.fromkeys(["core", "std", *(it for name in crates.needed(PROGRAM) for it in crates.kit_libraries(name))])
    folders = [it for it in (f"{os.path.dirname(doc)}/rlibs/{name}.rlib" for name in names) if os.path.isdir(it)]
    if not folders or jobs_of_memory() < 4:
        return None
    words = ["nice", "-n", "19", "find", *folders, "-type", "f", "-exec", "cat", "{}", "+"]
    return subprocess.Popen(words, stdin=subprocess.DEVNULL, stdout=subprocess.DEVNULL, stderr=subprocess.DEVNULL, preexec_fn=os.setpgrp)


def stop(child: subprocess.Popen[Any]) -> None:
    """Ends a child, with what it has started, if it runs."""
    if child.poll() is None:
        os.killpg(child.pid, signal.SIGTERM)
        child.wait()


def digest() -> str:
    """Returns the digest of all that the program is built from, as it is now."""
    words = [f"{crates.TOP}/program/find", "--digest"]
    return subprocess.run(words, stdin=subprocess.DEVNULL, capture_output=True, text=True, check=True).stdout.strip()


def note(program: str, sources: str) -> None:
    """Notes beside a program the digest of the sources that it was built from, taken before they were read."""
    with open(f"{program}.sources", "w", encoding="ascii") as file:
        file.write(f"{sources}\n")


def noted(program: str) -> str | None:
    """Returns the digest of the sources that a program was built from, where both are there."""
    try:
        with open(f"{program}.sources", encoding="ascii") as file:
            return file.read().strip() if os.access(program, os.X_OK) else None
    except OSError:
        return None


def is_built(program: str) -> bool:
    """Returns whether a program is there and of the sources as they are now."""
    return noted(program) == digest()


def copy(name: str, top: str) -> None:
    """Copies a crate and what it stands on into a folder: the sources, and what was built of the crates below."""
    named = crates.needed(name)
    with open(f"{crates.TOP}/crates.txt", encoding="utf-8") as lines:
        kept = [it for it in lines if (it.partition("#")[0].partition(":")[0].split() or [""])[0] in named]
    with open(f"{top}/crates.txt", "w", encoding="utf-8") as file:
        file.writelines(kept)
    for it in named:
        for part in ("src", "specs", "proofs"):
            bring(f"{crates.folder(it)}/{part}", f"{top}/crates/{it}/{part}", shutil.copy2)
        if it != name:
            bring(f"{crates.folder(it)}/out/rlib", f"{top}/crates/{it}/out/rlib", link)


def bring(old: str, new: str, copy_file: Callable[[str, str], object]) -> None:
    if os.path.isdir(old):
        shutil.copytree(old, new, copy_function=copy_file)


def link(old: str, new: str) -> None:
    try:
        os.link(old, new)
    except OSError:
        shutil.copy2(old, new)


class Room:
    """A copy of a crate and of what it stands on, in which the crate is built. rt holds all of these folders while it builds the
    crate, so crates are built side by side only in copies."""

    def __init__(self, name: str, jobs: int) -> None:
        self.name, self.jobs = name, jobs
        self.child: subprocess.Popen[bytes] | None = None
        git = f"{crates.TOP}/.git"
        self.top = tempfile.mkdtemp(prefix=ROOM, dir=git if os.path.isdir(git) else None)
        self.folder = f"{self.top}/crates/{name}"

    def start(self, nice: int, log: str) -> None:
        """Begins to build the crate, over what was kept of it."""
        copy(self.name, self.top)
        if os.path.isdir(f"{crates.folder(self.name)}/out"):
            shutil.move(f"{crates.folder(self.name)}/out", f"{self.folder}/out")
        words = ["nice", "-n", str(nice), "rt"]
        words += ["run", "--jobs", str(self.jobs), "--", "--version"] if crates.is_program(self.name) else ["lib", "--jobs", str(self.jobs)]
        with open(log, "wb") as file:
            # a group of its own, so that it can be stopped with what it starts; in a session of its own nice would mean little
            self.child = subprocess.Popen(words, cwd=self.folder, stdin=subprocess.DEVNULL, stdout=file, stderr=file, preexec_fn=os.setpgrp)

    def status(self) -> int | None:
        """Returns the status of a build that has ended."""
        return self.child.poll() if self.child else None

    def close(self) -> None:
        """Ends the build, gives the crate what was built, and removes the copy."""
        if self.child:
            stop(self.child)
        out = f"{crates.folder(self.name)}/out"
        if os.path.isdir(f"{self.folder}/out") and not os.path.isdir(out):
            shutil.move(f"{self.folder}/out", out)
        shutil.rmtree(self.top, ignore_errors=True)


class Build:
    """A build of the program."""

    def __init__(self, lanes: int) -> None:
        self.lanes = lanes
        # a check begins and ends on one processor, so some more are started where memory allows
        self.places = lanes if lanes == 1 else max(lanes, min(3 * lanes, jobs_of_memory()))
        self.start = self.shown = time.monotonic()
        self.named = crates.below()
        needed = crates.needed(PROGRAM, self.named)
        self.total = len(needed)
        self.behind = crates.behind({it: self.named[it] for it in needed})
        self.left = sorted(needed, key=self.behind.__getitem__, reverse=True)
        self.running: list[Room] = []
        self.done: set[str] = set()
        self.logs = tempfile.mkdtemp(prefix="j39plan-logs-")

    def start_more(self) -> None:
        """Begins each crate of which those below are done, where there is a processor for it. Those with the longest chain of others
        above them come first; the shorter that chain is than the longest of what isn't built, the lower their priority."""
        longest = max(self.behind[it] for it in [*self.left, *(room.name for room in self.running)])
        for name in [it for it in self.left if self.done.issuperset(self.named[it])]:
            nice = round(NICEST * (1 - self.behind[name] / longest))
            most = CRATE_JOBS if nice < NEARLY else OTHER_JOBS
            jobs = min(most, self.lanes, self.places - sum(room.jobs for room in self.running))
            if jobs > 0:
                self.left.remove(name)
                self.running.append(Room(name, jobs))
                self.running[-1].start(nice, f"{self.logs}/{name}")

    def show(self) -> None:
        """Says what is being built and for how long: on a terminal in place, else every half minute."""
        names = ", ".join(sorted(room.name for room in self.running))
        text = f"{clock(self.start)} building {names} ({len(self.done)} of {self.total} crates built)"
        if sys.stderr.isatty():
            print(f"\r{PROGRAM}: {text}\033[K", end="", file=sys.stderr, flush=True)
        elif time.monotonic() - self.shown >= 30:
            self.shown = time.monotonic()
            say(text)

    def build_all(self) -> str | None:
        """Builds the crates that are left, until one has failed, and returns its name."""
        while self.left or self.running:
            self.start_more()
            time.sleep(0.25)
            self.show()
            for room in [it for it in self.running if it.status() is not None]:
                room.close()
                self.running.remove(room)
                if room.status():
                    return room.name
                self.done.add(room.name)
        return None

    def run(self) -> str | None:
        """Builds all crates, and returns the name of one that has failed, if one has. Nothing runs behind it."""
        reading = read_kit()
        try:
            failed = self.build_all()
        finally:
            for room in self.running:
                room.close()
            if reading:
                stop(reading)
            if sys.stderr.isatty():
                print("\r\033[K", end="", file=sys.stderr, flush=True)
        if not failed:
            shutil.rmtree(self.logs, ignore_errors=True)
        return failed

    def complain(self, name: str) -> None:
        log = f"{self.logs}/{name}"
        with open(log, encoding="utf-8", errors="replace") as lines:
            said = lines.read().splitlines()
        told = [it for it in said if re.search(r"error|no proof|^rt:", it)] or said[-20:]
        print("\n".join(told[:40]), file=sys.stderr)
        say(f"building {name} failed; its output is in {log}")


def main(words: list[str]) -> int:
    if not shutil.which("rt"):
        say("the Rattle toolchain is missing: install the kit that the README names and put its command rt on the PATH")
        return MISSING
    os.makedirs(crates.folder(PROGRAM), exist_ok=True)
    with open(f"{crates.TOP}/crates.txt", "rb") as lock:
        try:
            fcntl.flock(lock, fcntl.LOCK_EX | fcntl.LOCK_NB)
        except BlockingIOError:
            say("another run is building the program; waiting for it")
            fcntl.flock(lock, fcntl.LOCK_EX)
        # what builds that were killed have left
        for it in glob.glob(f"{crates.TOP}/.git/{ROOM}*"):
            shutil.rmtree(it, ignore_errors=True)
        sources = digest()
        if noted(BUILT) != sources:
            if missing := missing_bytes():
                say(f"the build takes {DISK_BYTES / 1e9:.1f} GB of disk in {crates.TOP}, and {missing / 1e9:.1f} GB of that are missing")
                return FAILED
            lanes = int(words[0]) if words else max(min(len(os.sched_getaffinity(0)), jobs_of_memory()), 1)
            say(f"the program is built first, with its proofs ({NEEDS}); {lanes} processors are used")
            build = Build(lanes)
            for number in (signal.SIGTERM, signal.SIGHUP):
                signal.signal(number, lambda *_: sys.exit(FAILED))
            try:
                failed = build.run()
            except (KeyboardInterrupt, SystemExit):
                say("the build was stopped")
                return FAILED
            if failed:
                build.complain(failed)
                return FAILED
            note(BUILT, sources)
            say(f"built in {clock(build.start)}")
    return 0


if __name__ == "__main__":
    sys.exit(main(sys.argv[1:]))
