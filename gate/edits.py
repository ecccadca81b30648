#!/usr/bin/env python3
"""Tries the edits that the prover must refuse, over the libraries that `rt ci` or `rt lib` has built: edits of functions of which none
calls another are applied together, to a copy of their crate, and these functions alone are checked. Each function that is edited has to
be refused by a goal of its own, and no other one; what such a check would prove is tried once more in a check of the whole crate. The
last line is 'N passed, M failed'; the status is 0 where nothing failed, 1 where something did, 2 where a name fits nothing.

usage: edits.py [--jobs N] [--must-fail] [--strict] [--anew] [--said FOLDER] [NAME..]
  NAME          a crate; else all that have edits
  --jobs N      how many crates are tried side by side, else as many as there are processors and memory
  --must-fail   tries the edits of crates/NAME/must-fail too, which `rt ci` tries
  --strict      tries no two edits together of which one's function leads to the other's by any number of calls
  --anew        tries those too of which all that their trial reads is as it was when this machine saw it pass
  --said FOLDER writes what each check has said into this folder, and tries all anew

A function is proved by the contracts of those that it calls, so its own goals stand or fall whether those are proved or not. That this is
so is seen in each round: a function that nobody has edited, and that calls one that is refused, has to be named for that call alone.

An edit is a file crates/NAME/edits/EDIT.edit as those of `rt must-fail`: a line 'file: PATH', and pairs of lines 'old: TEXT' and 'new:
TEXT'. Its function is found by the place of the text that changes; a line 'function: NAME' names another one, which must be refused by the
edit of a constant, a type or a definition. Such an edit is tried alone, and without that line in a check of the whole crate.

What an edit comes to: 'refused' passes. 'PROVED': the whole crate is proved with it. 'BAD': it can't be applied, or can't be compiled.
'NOT NAMED': its function was not refused by a goal of its own, or only since its proof names what the edit took away. 'NOT TRIED': its check
was killed, or could not tell.
"""

from __future__ import annotations

import concurrent.futures
import glob
import os
import subprocess
import sys
import tempfile
import time
from dataclasses import dataclass, field

sys.dont_write_bytecode = True
import build
import crates
import kept
from checks import ONLY_GONE, Lab, Said
from places import Functions, place_of

REFUSED, PROVED, BAD, UNNAMED, UNTRIED = "refused", "PROVED", "BAD", "NOT NAMED", "NOT TRIED"
FOLDERS = ("edits", "must-fail")


@dataclass
class Edit:
    """An edit of a crate: its pairs of texts, by files, and the functions that it edits."""

    crate: str
    name: str
    pairs: list[tuple[str, str, str]] = field(default_factory=list)
    wanted: list[str] = field(default_factory=list)
    functions: list[str] = field(default_factory=list)
    # Whether it changes what isn't the body of a function, so that others may be refused too.
    is_apart: bool = False
    verdict: str = ""
    why: str = ""

    def settle(self, verdict: str, why: str) -> None:
        self.verdict, self.why = verdict, why

    def line(self) -> str:
        return f"{self.crate}/{self.name}: {self.verdict}: {self.why}"


def read_edit(crate: str, path: str) -> Edit:
    """Reads an edit."""
    edit = Edit(crate, os.path.basename(path).removesuffix(".edit"))
    file, old = "", ""
    with open(path, encoding="utf-8") as lines:
        for line in lines.read().split("\n"):
            if line.startswith("file: "):
                file = line.removeprefix("file: ").strip()
            elif line.startswith("function: "):
                edit.wanted.append(line.removeprefix("function: ").strip())
            elif line.startswith("old: "):
                old = line.removeprefix("old: ")
            elif line.startswith("new:"):
                edit.pairs.append((file, old, line.removeprefix("new:").removeprefix(" ")))
                old = ""
    return edit


def apply(edit: Edit, top: str) -> str:
    """Applies an edit to a crate's files, all of it or nothing, and returns why it can't be applied, if it can't."""
    texts: dict[str, str] = {}
    for file, old, new in edit.pairs:
        if os.path.normpath(file) != file or not file.startswith(("src/", "specs/", "proofs/")) or not os.path.isfile(f"{top}/{file}"):
            return f"there is no file {file or '(no file: line)'} below src/, specs/ and proofs/"
        if file not in texts:
            with open(f"{top}/{file}", encoding="utf-8") as it:
                texts[file] = it.read()
        if not old or texts[file].count(old) != 1:
            return f"its text stands {texts[file].count(old) if old else 0} times in {file}, and not once"
        if old == new:
            return "it changes nothing"
        texts[file] = texts[file].replace(old, new)
    for file, text in texts.items():
        with open(f"{top}/{file}", "w", encoding="utf-8") as it:
            it.write(text)
    return "" if texts else "it has no pair of old: and new:"


def find_functions(edit: Edit, functions: Functions, top: str) -> None:
    """Finds the functions that an edit edits, in the crate's files as they stand. A name that fits nothing is a fault of the edit."""
    places = []
    for file, old, _ in edit.pairs:
        with open(f"{top}/{file}", encoding="utf-8") as it:
            places.append((file, place_of(it.read(), old) if file.startswith("src/") else None))
    edit.is_apart = any(it is None or not it.is_body for _, it in places)
    if edit.wanted:
        edit.functions = [functions.named(it) for it in edit.wanted]
    else:
        found = [functions.at(file, it) for file, it in places if it]
        edit.functions = [] if any(it is None for _, it in places) else list(dict.fromkeys(found))


def rounds_of(edits: list[Edit], functions: Functions, is_strict: bool = False) -> list[list[Edit]]:
    """Groups edits in rounds: no function of a round is edited twice or calls another one of it, and what is edited outside of bodies
    stands alone. Those that call the fewest come first."""
    below = {it: functions.below(it, is_strict) for edit in edits for it in edit.functions}
    found: list[list[Edit]] = []
    for edit in sorted(edits, key=lambda it: max((len(below[name]) for name in it.functions), default=0)):
        fits = (it for it in found if not edit.is_apart and not any(meet(edit, other, below) for other in it))
        fitting = next(fits, None)
        if fitting is None:
            found.append([edit])
        else:
            fitting.append(edit)
    return found


def meet(edit: Edit, other: Edit, below: dict[str, set[str]]) -> bool:
    """Whether two edits can't be tried together."""
    return other.is_apart or any(one in below[two] or two in below[one] for one in edit.functions for two in other.functions)


class Trial:
    """The trial of a crate's edits."""

    def __init__(self, lab: Lab, functions: Functions, is_strict: bool) -> None:
        self.lab, self.functions, self.is_strict = lab, functions, is_strict
        self.faults: list[str] = []
        self.rounds = 0

    def run(self, edits: list[Edit]) -> None:
        ready = [it for it in edits if self.is_ready(it)]
        for edits_of_round in rounds_of([it for it in ready if it.functions], self.functions, self.is_strict):
            self.rounds += 1
            self.round(edits_of_round)
        for edit in [it for it in ready if not it.functions or it.verdict == PROVED]:
            self.whole(edit)

    def is_ready(self, edit: Edit) -> bool:
        """Sees whether an edit can be applied to the crate as it stands, and finds its functions."""
        why = apply(edit, self.lab.fresh())
        if why:
            edit.settle(BAD, f"it can't be applied: {why}")
            return False
        try:
            find_functions(edit, self.functions, crates.folder(self.lab.crate))
        except ValueError as error:
            edit.settle(UNNAMED, str(error))
            return False
        return True

    def round(self, edits: list[Edit]) -> None:
        """Tries edits together. Where the code can't be compiled with them, each half is tried, until the one is found that it is."""
        room = self.lab.fresh()
        for edit in edits:
            if why := apply(edit, room):
                edit.settle(BAD, f"it can't be applied beside others: {why}")
        edits = [it for it in edits if not it.verdict]
        if not edits:
            return
        said = self.lab.check([name for edit in edits for name in edit.functions])
        fault = said.fault()
        if said.is_whole() and not fault:
            self.judge(edits, said)
        elif said.status < 0:
            for edit in edits:
                edit.settle(UNTRIED, how_ended(said))
        elif len(edits) > 1:
            for half in (edits[:len(edits) // 2], edits[len(edits) // 2:]):
                self.round(half)
        elif said.status == 1 and fault:
            edits[0].settle(BAD, f"it can't be compiled: {fault}")
        else:
            edits[0].settle(UNTRIED, how_ended(said))

    def judge(self, edits: list[Edit], said: Said) -> None:
        """Gives each edit of a round its verdict."""
        refusals, proved, leaning = said.refusals(), said.proved(), said.leaning()
        edited = {own for edit in edits for name in edit.functions for own in self.functions.own(name)}
        for edit in edits:
            for name in edit.functions:
                own = self.functions.own(name)
                reasons = [f"{it.partition('::')[2]}: {refusals[it]}" for it in sorted(own) if it in refusals]
                called = {other for it in own for other in leaning.get(it, set()) if is_of(other, edited - own)}
                goals = [it for it in reasons if ONLY_GONE not in it]
                if goals and not called:
                    edit.settle(edit.verdict or REFUSED, edit.why or goals[0])
                elif reasons and not called:
                    edit.settle(UNNAMED, reasons[0])
                elif name in proved and not reasons:
                    edit.settle(PROVED, name)
                else:
                    edit.settle(UNNAMED, f"the check names {name} beside {', '.join(sorted(called))}" if called else
                                f"the check says of {name} only that it calls others" if name in leaning else f"the check does not name {name}")
        others = sorted(set(refusals) - edited)
        if others and not any(it.is_apart for it in edits):
            self.faults.append(f"{', '.join(others)} refused, and not edited, in the round of {', '.join(it.name for it in edits)}")

    def whole(self, edit: Edit) -> None:
        """Tries one edit in a check of the whole crate: one that no function stands for, or whose functions are still proved."""
        apply(edit, self.lab.fresh())
        said = self.lab.check(None)
        fault = said.fault()
        refusals = said.refusals()
        if said.status == 0 and said.is_whole():
            edit.settle(PROVED, "the whole crate is proved with it")
        elif said.status == 1 and fault:
            edit.settle(BAD, f"it can't be compiled: {fault}")
        elif not said.is_whole():
            edit.settle(UNTRIED, how_ended(said))
        elif edit.functions:
            edit.settle(UNNAMED, f"its function is proved, and the whole crate isn't: {', '.join(sorted(refusals))[:200]}")
        else:
            shown = ", ".join(f"{it.partition('::')[2]}" for it in sorted(refusals)) or "a lemma or a definition"
            edit.settle(REFUSED, f"in a check of the whole crate: {shown[:200]}")


def is_of(name: str, functions: set[str]) -> bool:
    """Whether a name is that of one of these functions, or of a block that has one."""
    return any(it == name or it.startswith(f"{name}::") for it in functions)


def how_ended(said: Said) -> str:
    last = next((it for it in reversed(said.lines()) if it), "")[:160]
    return f"its check was killed by signal {-said.status}" if said.status < 0 else f"its check ended with status {said.status}: {last}"


def edits_of(name: str, folders: tuple[str, ...]) -> list[Edit]:
    paths = [path for folder in folders for path in sorted(glob.glob(f"{crates.folder(name)}/{folder}/*.edit"))]
    return [read_edit(name, it) for it in paths]


def unbuilt(name: str) -> str:
    """Brings the libraries up to date that were built by `rt lib`, and returns one that isn't there, or is older than its sources."""
    for it in crates.needed(name):
        library = f"{crates.folder(it)}/out/rlib/{it}.rlib"
        if os.path.isfile(f"{crates.folder(it)}/out/rlib/stamp"):
            ran = subprocess.run(["rt", "lib", "--jobs", "1"], cwd=crates.folder(it), stdin=subprocess.DEVNULL, capture_output=True, check=False)
            if ran.returncode:
                return it
        # what `rt ci` has left has no stamp
        elif not os.path.isdir(library) or os.path.getmtime(library) < max(map(os.path.getmtime, crates.sources(it))):
            return it
    return ""


@dataclass
class Options:
    """What the command line asks for."""

    names: list[str] = field(default_factory=list)
    jobs: int = 1
    folders: tuple[str, ...] = FOLDERS[:1]
    said: str = ""
    is_strict: bool = False
    is_anew: bool = False

    def words(self) -> list[str]:
        """Returns what a trial depends on."""
        return [*self.folders, str(self.is_strict)]


def tried(name: str, edits: list[Edit], options: Options) -> str:
    """Tries the edits of a crate, or finds that they were tried as they are, and returns what to say of it."""
    if lacking := unbuilt(name):
        for edit in edits:
            edit.settle(UNTRIED, f"the library of {lacking} isn't built, or is older than its sources: ./dev check {lacking}")
        return "\n".join(it.line() for it in edits)
    key = kept.digest(name, options.words())
    before = None if options.is_anew else kept.find(key)
    if before is not None:
        for edit in edits:
            edit.settle(REFUSED, "as this machine has seen")
        return f"{before}\n{name}: not tried again, since all is as it was"
    said = tried_anew(name, edits, options)
    if all(it.verdict == REFUSED for it in edits) and key == kept.digest(name, options.words()):
        kept.keep(key, said)
    return said


def tried_anew(name: str, edits: list[Edit], options: Options) -> str:
    """Tries the edits of a crate, and returns what to say of it."""
    began = time.monotonic()
    with tempfile.TemporaryDirectory(prefix="j39plan-edits-") as top:
        trial = Trial(Lab(name, top, options.said), Functions(name), options.is_strict)
        trial.run(edits)
    took = f"{len(edits)} edits, {trial.rounds} rounds, {trial.lab.count} checks, {trial.lab.seconds:.0f} s of processor, " \
           f"{time.monotonic() - began:.0f} by the clock"
    # a function that is refused though nobody has edited it is a fault like an edit that isn't refused
    edits += [Edit(name, "others", verdict=UNNAMED, why=it) for it in trial.faults]
    return "\n".join([*(it.line() for it in edits), f"{name}: {took}"])


def options_of(words: list[str]) -> Options:
    found = Options(jobs=max(min(len(os.sched_getaffinity(0)), build.jobs_of_memory()), 1))
    left = list(words)
    while left:
        word = left.pop(0)
        if word == "--must-fail":
            found.folders = FOLDERS
        elif word == "--jobs":
            found.jobs = int(left.pop(0))
        elif word == "--said":
            found.said, found.is_anew = left.pop(0), True
        elif word == "--strict":
            found.is_strict = True
        elif word == "--anew":
            found.is_anew = True
        else:
            found.names.append(word)
    return found


def main(words: list[str]) -> int:
    options = options_of(words)
    names = options.names
    unknown = [it for it in names if it not in crates.below()]
    if unknown:
        print(f"there is no crate {unknown[0]}", file=sys.stderr)
        return 2
    found = {name: edits for name in names or crates.below() if (edits := edits_of(name, options.folders))}
    if not found and not names:
        print("no crate has edits\n0 passed, 1 failed")
        return 1
    lacking = [it for it in names if it not in found]
    for name in lacking:
        print(f"{name}: it has no edits")
    with concurrent.futures.ThreadPoolExecutor(options.jobs) as pool:
        asked = sorted(found, key=lambda it: len(found[it]), reverse=True)
        for done in concurrent.futures.as_completed([pool.submit(tried, name, found[name], options) for name in asked]):
            print(done.result(), flush=True)
    edits = [it for name in found for it in found[name]]
    passed = sum(it.verdict == REFUSED for it in edits)
    print(f"{passed} passed, {len(edits) - passed + len(lacking)} failed")
    return int(passed != len(edits) or bool(lacking))


if __name__ == "__main__":
    sys.exit(main(sys.argv[1:]))
