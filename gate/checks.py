"""Checks of a copy of a crate in which edits are applied, over the libraries that were built, and what they say: for gate/edits.py."""

from __future__ import annotations

import json
import os
import re
import shutil
import subprocess
import sys
import tempfile
import threading
from dataclasses import dataclass

sys.dont_write_bytecode = True
import build
import crates

# How long a check may take, by the clock, and how often one is tried that was killed.
SECONDS, TRIES = 3600, 2
# What the prover says of a proof that names what isn't there.
GONE = re.compile(r"has no field|is not in scope|has no `|was not admitted|record `[^`]+` \(nearest: ")
ONLY_GONE = "only since its proof names what the edit took away"


def kit() -> str:
    """Returns the folder of the toolchain."""
    return os.path.dirname(subprocess.run(["rt", "doc"], stdin=subprocess.DEVNULL, capture_output=True, text=True, check=True).stdout.strip())


def words_of(name: str) -> list[str]:
    """Returns the words of a check of a crate, over the libraries that were built."""
    top, named = kit(), crates.listed()
    words = ["--crate-name", name, "src/main.rt" if crates.is_program(name) else "src/lib.rt"]
    for it in ["std", *crates.kit_libraries(name)]:
        words += ["--extern", f"{it}={top}/rlibs/{it}.rlib"]
    words += ["-L", f"dependency={top}/rlibs"]
    for it in [it for it in named[name] if it in named]:
        words += ["--extern", f"{it}={crates.folder(it)}/out/rlib/{it}.rlib"]
    for it in crates.needed(name)[:-1]:
        words += ["-L", f"dependency={crates.folder(it)}/out/rlib"]
    words += ["--antt-project", f"{top}/rattle/logic/antt-project.json", "--logic-built", f"{top}/logic_built"]
    return [*words, "--jobs", "1", "--links", f"{name}="]


@dataclass
class Said:
    """What a check has said."""

    status: int
    text: str
    seconds: float = 0.0

    def lines(self) -> list[str]:
        return self.text.rstrip("\n").split("\n")

    def is_whole(self) -> bool:
        """Whether the check came to its end, and has a line for each function that it was asked for."""
        last = self.lines()[-1]
        return self.status in (0, 1) and (last.startswith(("only=", "logic=proved", "logic=not-proved")))

    def refusals(self) -> dict[str, str]:
        """Returns why each function is refused that has a goal of its own that isn't proved."""
        found = {}
        for line in self.lines():
            at = re.match(r"fn (\S+): (no proof|not proved|could not tell)\b:?(.*)", line)
            if at and (own := at[2] == "not proved" and self.error_in_proof(at[1]) or own_reason(at[2], at[3])):
                found[at[1]] = own
        return found

    def error_in_proof(self, name: str) -> str:
        """Returns the first goal in the files of a function's proof that isn't proved."""
        files = f"./proofs/{'/'.join(name.split('::')[1:])}/"
        found = [it for it in (re.match(r"\./proofs/(\S+): error: (.*)", line) for line in self.lines() if line.startswith(files)) if it]
        real = [it for it in found if not GONE.search(it[2])]
        told = "" if real or not found else f"{ONLY_GONE}, so change a value and keep the names: "
        return next((f"{told}{it[1]}: {it[2][:100]}" for it in real or found), "")

    def proved(self) -> set[str]:
        return {it[1] for line in self.lines() if (it := re.fullmatch(r"fn (\S+): proved", line))}

    def leaning(self) -> dict[str, set[str]]:
        """Returns the functions or blocks that each function calls or passes which aren't proved."""
        found = (re.match(r"fn (\S+): .*?((?:it calls|it passes) .*)", line) for line in self.lines())
        return {it[1]: set(re.findall(r"`([^`]+)`", it[2])) for it in found if it}

    def fault(self) -> str:
        """Returns the first line that says why the code can't be compiled, or a clause or a definition can't be read."""
        for line in self.lines():
            at = re.match(r"(?:\./)?(?:src|specs)/\S+:\d+:\d+: error(.*)", line)
            if at and (at[1].startswith("[") or not self.is_whole() or unread(at[1])):
                return line[:200]
        return ""


def unread(said: str) -> bool:
    """Whether the prover could not read a text, where one that is only wrong reads well."""
    at = re.match(r": (?:(`[^`]*`): )?(.*)", said)
    if not at:
        return False
    told = r"is not in scope|has no field|is no name|operand is missing|expected the end|cannot continue"
    return not at[1] or bool(re.search(told, re.sub(r"`[^`]*`", "", at[2])))


def own_reason(kind: str, more: str) -> str:
    """Returns the goals of a function's own that its line names, '' where it only calls or passes what isn't proved."""
    goals = re.search(r"did not prove ((?:`[^`]+`(?:, )?)+)", more)
    if goals:
        return f"{goals[1].replace('`', '').rstrip(', ')} is not proved"
    if kind == "not proved" and "it calls" not in more and "it passes" not in more:
        return "its proof fails"
    return "" if "it calls" in more or "it passes" in more or kind == "could not tell" else f"{kind}{more[:80]}"


def take_proved(library: str, kept: str) -> None:
    """Puts each module of a library as its proof has checked it into a folder of what checks keep, so that a check proves none again that
    is as it was. The library has them in one file, by an index of names, places and sizes; the folder's name is that of the prover. A
    library that `rt ci` has built holds statements alone, all of other names, and gives nothing."""
    with open(f"{library}/format", encoding="utf-8") as lines:
        prover = re.search(r"^rattle-build (\S+)$", lines.read(), re.M)
    if prover is None:
        return
    folder = f"{kept}/{prover[1].replace('/', '_')}"
    os.mkdir(folder)
    with open(f"{library}/toolchain/checked.json", encoding="utf-8") as lines, open(f"{library}/toolchain/checked.a", "rb") as modules:
        for name, place, size in map(json.loads, lines):
            if "/" not in name:
                modules.seek(place)
                with open(f"{folder}/{name}.oantt", "wb") as file:
                    file.write(modules.read(size))


class Lab:
    """A copy of a crate in which edits are tried, and what its checks keep: one takes what the library's proof or an earlier check has
    proved of functions that are as they were."""

    def __init__(self, name: str, top: str, keep: str) -> None:
        self.crate, self.top, self.keep = name, top, keep
        self.room, self.kept = f"{top}/room", f"{top}/kept"
        self.words = words_of(name)
        self.count, self.seconds = 0, 0.0
        os.mkdir(self.kept)
        if os.path.isdir(library := f"{crates.folder(name)}/out/rlib/{name}.rlib"):
            take_proved(library, self.kept)

    def fresh(self) -> str:
        shutil.rmtree(self.room, ignore_errors=True)
        for part in ("src", "specs", "proofs"):
            build.bring(f"{crates.folder(self.crate)}/{part}", f"{self.room}/{part}", shutil.copy2)
        return self.room

    def check(self, functions: list[str] | None) -> Said:
        """Checks these functions of the copy, or all of it. A check that is killed is tried once more."""
        said = Said(-9, "")
        for _ in range(TRIES):
            said = self.checked([it for name in functions or () for it in ("--only", name.removeprefix(f"{self.crate}::"))])
            if said.status >= 0:
                break
        return said

    def checked(self, only: list[str]) -> Said:
        """Runs a check, and returns what it said, and the processor time that it took."""
        words = ["rattle", "check", *self.words, *only, "--incremental", self.kept]
        self.count += 1
        with tempfile.TemporaryFile(mode="w+", encoding="utf-8", errors="replace") as out:
            child = subprocess.Popen(words, cwd=self.room, stdin=subprocess.DEVNULL, stdout=out, stderr=subprocess.STDOUT)
            stopper = threading.Timer(SECONDS, child.kill)
            stopper.start()
            _, status, usage = os.wait4(child.pid, 0)
            stopper.cancel()
            child.returncode = os.waitstatus_to_exitcode(status)
            out.seek(0)
            said = Said(child.returncode, out.read(), usage.ru_utime + usage.ru_stime)
        self.seconds += said.seconds
        if self.keep:
            with open(f"{self.keep}/{self.crate}.{self.count}", "w", encoding="utf-8") as file:
                file.write(f"{' '.join(only)}\n{said.text}\nstatus {said.status}, {said.seconds:.1f} s\n")
        return said
