#!/usr/bin/env python3
"""Shows that gate/edits.py, and of edits and equality gate/lint.py, tells what it has to tell: it plants edits in a copy of the crate j39_search, over
the library that was built, and compares the verdicts. It takes some minutes of processor. The last line is 'N passed, M failed'.
"""

import os
import re
import shutil
import subprocess
import sys
import tempfile

sys.dont_write_bytecode = True
import build
import crates
from tally import Tally

CRATE = "j39_search"
PUSH = "        push_if(findings, rule.holds(value), rule.finding(place))?;"
# A name, the edit's further line, its old and its new text, and what edits.py has to say.
PLANTS = (
    ("refused", "", "    if holds {", "    if holds || findings.is_empty() {", r"refused: rules::push_if: .* is not proved"),
    ("caller_of_an_edited_one", "", PUSH, PUSH.replace("place", "0"), r"refused: rules::find_tested: .*"),
    ("second_of_one_function", "", "    if holds {", "    if !holds {", r"refused: rules::push_if: .*"),
    ("same_text", "", "    if holds {", "    if holds { // and nothing else", r"PROVED: the whole crate .*"),
    ("same_meaning", "", "    if holds {", "    if holds && holds {", r"PROVED: the whole crate .*"),
    ("no_such_text", "", "    if there_is_no_such_text {", "    if holds {", r"BAD: it can't be applied: its text stands 0 times .*"),
    ("text_twice", "", "    Ok(())", "    Ok( ())", r"BAD: it can't be applied: its text stands [2-9] times .*"),
    ("changes_nothing", "", "    if holds {", "    if holds {", r"BAD: it can't be applied: it changes nothing"),
    ("only_a_name_is_gone", "", PUSH, "        let _none = place;", r"NOT NAMED: rules::find_tested: only since its proof names what .*"),
    ("no_such_name", "", "        findings.push(finding)?;", "        findings.push(nobody)?;", r"BAD: it can't be compiled: src/rules\.rt:.*"),
    ("wrong_type", "", "    for (i, value) in values.iter().enumerate() {", "    for (i, value) in holds.iter().enumerate() {",
     r"BAD: it can't be compiled: src/rules\.rt:.*"),
    ("function_is_another", "function: rules::push_if\n", "    for j in i + 1..values.len() {", "    for j in i..values.len() {",
     r"NOT NAMED: its function is proved, and the whole crate isn't: .*find_against.*"),
    ("function_fits_nothing", "function: rules::nobody\n", "    if holds {", "    if true {", r"NOT NAMED: rules::nobody fits 0 functions .*"),
    ("definition", "", "    ghost gives: { Self → ℕ → T → List F };", "    ghost gives: { Self → ℕ → T → List T };", r"(BAD|refused): .*"),
)
# What lint says of edits without a prover: of one of these that all is there, of the others why they can't be applied or compiled.
LINTED = (
    ("sound", "", "    if holds {", "    if !holds {", r""),
    ("no_such_text", "", "    if there_is_no_such_text {", "    if holds {", r"its text stands 0 times in src/rules\.rt"),
    ("text_twice", "", "    Ok(())", "    Ok( ())", r"its text stands [2-9] times in src/rules\.rt"),
    ("no_such_type", "", "    if holds {", "    if Nobody::holds() {", r"src/rules\.rt has no Nobody"),
)
# A type that derives equality, and isn't listed as one that is compared.
EQUAL = "#[derive(Clone, Copy, PartialEq, Eq)]\npub struct Planted {\n}\n"
EQUALITY = "import lint; print(*lint.unlike(lint.equalities('j39_search'), ['j39_search::Gone']), sep='; ')"
LINT = "import edits, lint; print(*(it for edit in edits.edits_of('j39_search', edits.FOLDERS) for it in lint.faults_of(edit)), sep='\\n')"
# Edits that a second run tries, by a prover that is killed, and one that says nothing of what it is asked.
KILLED = "#!/bin/sh\nkill -9 $$\n"
SILENT = "#!/bin/sh\necho 'only=1 proved=0'\nexit 1\n"
# One that names a function that nobody has edited.
TALKING = "#!/bin/sh\necho 'fn j39_search::rules::push_if: no proof: `search` did not prove `returns`'\n" \
    "echo 'fn j39_search::rules::find_each: no proof: `search` did not prove `returns`'\necho 'only=1 proved=0'\nexit 1\n"


def made(top: str) -> None:
    """Copies the scripts, and the crate with its library."""
    os.mkdir(f"{top}/gate")
    for it in os.listdir(f"{crates.TOP}/gate"):
        if it.endswith(".py"):
            shutil.copy(f"{crates.TOP}/gate/{it}", f"{top}/gate/{it}")
    build.copy(CRATE, top)
    build.bring(f"{crates.folder(CRATE)}/out/rlib", f"{top}/crates/{CRATE}/out/rlib", shutil.copy2)
    if os.path.isfile(f"{crates.TOP}/HANDLES"):
        shutil.copy(f"{crates.TOP}/HANDLES", top)


def plant(top: str, plants: tuple[tuple[str, str, str, str, str], ...]) -> None:
    folder = f"{top}/crates/{CRATE}/edits"
    shutil.rmtree(folder, ignore_errors=True)
    os.mkdir(folder)
    for name, more, old, new, _ in plants:
        with open(f"{folder}/{name}.edit", "w", encoding="utf-8") as file:
            file.write(f"{more}file: src/rules.rt\nold: {old}\nnew: {new}\n")


def said(top: str, prover: str = "") -> tuple[int, list[str]]:
    """Tries the edits, by another prover where one is given, and returns the status and the lines."""
    environment = {**os.environ, "XDG_CACHE_HOME": f"{top}/cache"}
    if prover:
        os.makedirs(f"{top}/bin", exist_ok=True)
        with open(f"{top}/bin/rattle", "w", encoding="ascii") as file:
            file.write(prover)
        os.chmod(f"{top}/bin/rattle", 0o755)
        environment["PATH"] = f"{top}/bin:{environment['PATH']}"
    ran = subprocess.run([sys.executable, "gate/edits.py", "--jobs", "1", CRATE], cwd=top, env=environment, stdin=subprocess.DEVNULL,
                         capture_output=True, text=True, check=False)
    return ran.returncode, (ran.stdout + ran.stderr).strip().split("\n")


def planted(tally: Tally, top: str) -> None:
    """Each plant by the prover itself."""
    plant(top, PLANTS)
    status, lines = said(top)
    for name, _, _, _, wanted in PLANTS:
        line = next((it for it in lines if it.startswith(f"{CRATE}/{name}: ")), "no line")
        tally.count(name, re.fullmatch(f"{CRATE}/{name}: {wanted}", line) is not None, line)
    refused = sum(": refused: " in it for it in lines)
    tally.count("what is counted", (status, lines[-1]) == (1, f"{refused} passed, {len(PLANTS) - refused} failed"), (status, lines[-1]))
    plant(top, PLANTS[:2])
    status, lines = said(top)
    tally.count("edits that are all refused", (status, lines[-1]) == (0, "2 passed, 0 failed"), lines)
    again = f"{CRATE}: not tried again, since all is as it was"
    status, lines = said(top)
    tally.count("the same once more", (status, lines[-2], lines[-1]) == (0, again, "2 passed, 0 failed"), lines)
    with open(f"{top}/crates/{CRATE}/specs/Lib.antt", "a", encoding="utf-8") as file:
        file.write("-- changed\n")
    os.utime(f"{top}/crates/{CRATE}/specs/Lib.antt", (0, 0))
    status, lines = said(top)
    tally.count("a source has changed", (status, lines[-1]) == (0, "2 passed, 0 failed") and again not in lines, lines)


def by_others(tally: Tally, top: str) -> None:
    """An edit by provers that fail, and by one that says too much; and a name that is none."""
    plant(top, PLANTS[:2])
    status, lines = said(top, KILLED)
    tally.count("two killed", (status, lines[-1]) == (1, "0 passed, 2 failed") and sum("killed by signal 9" in it for it in lines) == 2, lines)
    plant(top, PLANTS[:1])
    for what, prover, verdict in (("killed", KILLED, "NOT TRIED: its check was killed by signal 9"),
                                  ("silent", SILENT, "NOT NAMED: the check does not name j39_search::rules::push_if")):
        status, lines = said(top, prover)
        tally.count(what, (status, lines[0], lines[-1]) == (1, f"{CRATE}/refused: {verdict}", "0 passed, 1 failed"), lines)
    status, lines = said(top, TALKING)
    tally.count("names another function", status == 1 and any("find_each refused, and not edited" in it for it in lines), lines)
    ran = subprocess.run([sys.executable, "gate/edits.py", "j39_nobody"], cwd=top, capture_output=True, text=True, check=False)
    tally.count("a crate that is none", ran.returncode == 2, ran.stderr)


def by_lint(tally: Tally, top: str) -> None:
    """What lint says of edits, and of a type that derives equality."""
    plant(top, LINTED)
    ran = subprocess.run([sys.executable, "-c", LINT], cwd=f"{top}/gate", capture_output=True, text=True, check=False)
    for name, _, _, _, wanted in LINTED:
        faults = [it for it in ran.stdout.split("\n") if it.startswith(f"{CRATE}/{name}: ")]
        is_said = re.fullmatch(f"{CRATE}/{name}: {wanted}", "; ".join(faults)) is not None if wanted else not faults
        tally.count(f"lint: {name}", ran.returncode == 0 and is_said, ran.stdout + ran.stderr)
    path = f"{top}/crates/{CRATE}/src/planted.rt"
    with open(path, "w", encoding="ascii") as file:
        file.write(EQUAL)
    ran = subprocess.run([sys.executable, "-c", EQUALITY], cwd=f"{top}/gate", capture_output=True, text=True, check=False)
    os.remove(path)
    wanted = f"{CRATE}::Planted derives equality, and isn't listed; {CRATE}::Gone is listed, and derives none"
    tally.count("lint: equality", ran.stdout.strip() == wanted, ran.stdout + ran.stderr)


def stale(tally: Tally, top: str) -> None:
    """Without a library nothing is tried."""
    shutil.rmtree(f"{top}/crates/{CRATE}/out")
    status, lines = said(top)
    tally.count("no library", status == 1 and "NOT TRIED: the library of j39_search isn't built" in lines[0], lines)


def main() -> int:
    tally = Tally()
    with tempfile.TemporaryDirectory(prefix="j39plan-plants-") as top:
        made(top)
        for part in (planted, by_others, by_lint, stale):
            part(tally, top)
    return tally.end()


if __name__ == "__main__":
    sys.exit(main())
