#!/usr/bin/env python3
"""Looks at what needs no proof: the format of the crates' sources, the libraries that they list, the types that derive equality, whether the edits that must fail can
still be applied and what they name is there, scripts of the shell, names and types in Python. What a missing program keeps from being looked at is skipped and said. The last line is 'N passed, M
failed'.
"""

from __future__ import annotations

import os
import re
import shutil
import subprocess
import sys
import tempfile

sys.dont_write_bytecode = True
import crates
import edits
from tally import Tally

PARTS = ("src", "specs", "proofs", "edits")
# What an edit has to find in its file: of a definition or a proof each name of two letters or more, of a source each type and module in front of '::'.
LOGIC_NAMES, CODE_NAMES = re.compile(r"[A-Za-z_]\w+"), re.compile(r"(?<![\w:])[A-Z]\w*(?=::)")

# The types whose values are compared, one a line. A derived equality is proved anew in each build, so no other type has one.
COMPARED = f"{crates.TOP}/gate/compared.txt"
EQUALITY = re.compile(r"#\[derive\([^)]*\bPartialEq\b[^)]*\)\]\s*(?:#\[[^\]]*\]\s*|//[^\n]*\s*)*(?:pub(?:\(crate\))? )?(?:struct|enum) (\w+)")


def tracked() -> list[str]:
    """The files of the repository, from its top."""
    listed = subprocess.run(["git", "ls-files", "-z"], cwd=crates.TOP, capture_output=True, text=True, check=True).stdout
    return [name for name in listed.split("\0") if name and os.path.isfile(f"{crates.TOP}/{name}")]


def begins_with(name: str, word: str) -> bool:
    """Whether the first line of a file names a program."""
    with open(f"{crates.TOP}/{name}", "rb") as file:
        line = file.readline(200)
    return line.startswith(b"#!") and word.encode() in line


def scripts() -> list[str]:
    return [name for name in tracked() if name.endswith(".sh") or begins_with(name, "bash") or begins_with(name, "/sh")]


def python_files() -> list[str]:
    return [name for name in tracked() if name.endswith(".py") or begins_with(name, "python")]


def otherwise(copied: str) -> list[str]:
    """The sources that rt formats otherwise than they stand, tried in a copy."""
    names = [name for name in tracked() if name.startswith("crates/") and name.split("/")[2] in PARTS]
    for name in [*names, "crates.txt"]:
        os.makedirs(os.path.dirname(f"{copied}/{name}"), exist_ok=True)
        shutil.copy(f"{crates.TOP}/{name}", f"{copied}/{name}")
    for crate in crates.listed():
        subprocess.run(["rt", "fmt"], cwd=f"{copied}/crates/{crate}", stdin=subprocess.DEVNULL, capture_output=True, check=False)
    return [name for name in names if bytes_of(f"{copied}/{name}") != bytes_of(f"{crates.TOP}/{name}")]


def bytes_of(name: str) -> bytes:
    with open(name, "rb") as file:
        return file.read()


def unnamed(crate: str) -> list[str]:
    """The libraries that a crate lists in crates.txt and that none of its files names."""
    texts = []
    for path in crates.sources(crate):
        with open(path, encoding="utf-8") as file:
            texts.append(re.sub(r"(?://|--).*", "", file.read()))
    code = "\n".join(texts)
    return [it for it in crates.listed()[crate] if not re.search(rf"\b{it}\b", code)]


def equalities(crate: str) -> list[str]:
    """The types of a crate that derive equality."""
    return [f"{crate}::{it}" for path in crates.sources(crate) if path.endswith(".rt") for it in EQUALITY.findall(bytes_of(path).decode())]


def unlike(derived: list[str], compared: list[str]) -> list[str]:
    """How the types that derive equality differ from those that are compared."""
    return [f"{it} derives equality, and isn't listed" for it in sorted(set(derived) - set(compared))] \
        + [f"{it} is listed, and derives none" for it in sorted(set(compared) - set(derived))]


def faults_of(edit: edits.Edit) -> list[str]:
    """Why an edit can't be applied to its crate, or compiled there: a file that isn't there, a text that doesn't stand in it once, a name that it doesn't have."""
    found = []
    for file, old, new in edit.pairs:
        path = f"{crates.folder(edit.crate)}/{file}"
        text = bytes_of(path).decode() if os.path.isfile(path) else ""
        if not old or text.count(old) != 1:
            found.append(f"{edit.crate}/{edit.name}: its text stands {text.count(old) if old else 0} times in {file}")
        names = CODE_NAMES if file.startswith("src/") else LOGIC_NAMES
        lacking = sorted(set(names.findall(new)) - set(re.findall(r"\w+", text)))
        found += [f"{edit.crate}/{edit.name}: {file} has no {name}" for name in lacking]
    return found


def look(tally: Tally, program: str, what: str, words: list[str]) -> None:
    """Counts what a command, which needs this program, says of files: its status 0 is right."""
    if not shutil.which(program):
        print(f"{what}: skipped, since {program} is missing")
        return
    ran = subprocess.run(words, cwd=crates.TOP, stdin=subprocess.DEVNULL, capture_output=True, text=True, check=False)
    tally.count(what, ran.returncode == 0, f"\n{ran.stdout}{ran.stderr}")


def main() -> int:
    tally = Tally()
    if shutil.which("rt"):
        with tempfile.TemporaryDirectory() as copied:
            found = otherwise(copied)
        tally.count("format", not found, f"rt fmt changes {', '.join(found)}")
    else:
        print("format: skipped, since rt is missing")
    lacking = [f"{crate}: {', '.join(names)}" for crate in crates.listed() if (names := unnamed(crate))]
    tally.count("libraries", not lacking, f"listed in crates.txt and named nowhere: {'; '.join(lacking)}")
    unequal = unlike([it for crate in crates.listed() for it in equalities(crate)], bytes_of(COMPARED).decode().split())
    tally.count("equality", not unequal, f"gate/compared.txt: {'; '.join(unequal)}")
    astray = [fault for crate in crates.listed() for edit in edits.edits_of(crate, edits.FOLDERS) for fault in faults_of(edit)]
    tally.count("edits", not astray, "; ".join(astray))
    look(tally, "shellcheck", "scripts", ["shellcheck", "--severity=warning", *scripts()])
    look(tally, "pyflakes3", "names in Python", ["pyflakes3", *python_files()])
    look(tally, "mypy", "types in Python", [sys.executable, "gate/python_types.py"])
    return tally.end()


if __name__ == "__main__":
    sys.exit(main())
