"""Trials of edits that this machine has seen pass are kept, by the digest of all that they read, so that a later run passes them again
without a check: for gate/edits.py. Whoever can write into the folder is trusted, as with the proofs that `rt ci` keeps."""

from __future__ import annotations

import glob
import hashlib
import os
import subprocess
import sys

sys.dont_write_bytecode = True
import crates

# The scripts by which edits are tried.
SCRIPTS = ("build", "checks", "crates", "edits", "kept", "places")
# How many trials stay: the latest ones.
MOST = 1000


def folder() -> str:
    """Returns the folder of what is kept: ~/.cache/j39plan/edits, or that of XDG_CACHE_HOME."""
    return f"{os.environ.get('XDG_CACHE_HOME') or os.path.expanduser('~/.cache')}/j39plan/edits"


def kit() -> bytes:
    """Returns what the toolchain says of itself, and which prover it is by its size and time."""
    version = subprocess.run(["rt", "version"], stdin=subprocess.DEVNULL, capture_output=True, check=True).stdout
    prover = next((path for at in os.environ["PATH"].split(":") if os.path.isfile(path := f"{at}/rattle")), "")
    state = os.stat(prover) if prover else None
    return version + repr(state and (os.path.realpath(prover), state.st_size, state.st_mtime_ns)).encode()


def digest(name: str, words: list[str]) -> str:
    """Returns the digest of what a trial of a crate's edits reads: these words, the toolchain, the scripts, the crate and its edits, and the
    sources of all crates below it, with what they list."""
    read = [*(f"{crates.TOP}/gate/{it}.py" for it in SCRIPTS), *glob.glob(f"{crates.folder(name)}/*/*.edit")]
    needed, listed = crates.needed(name), crates.listed()
    for it in needed:
        read += crates.sources(it)
    found = hashlib.sha256(repr((name, words, [(it, listed[it]) for it in needed])).encode() + kit())
    for path in sorted(read):
        with open(path, "rb") as file:
            found.update(f"{os.path.relpath(path, crates.TOP)} {hashlib.sha256(file.read()).hexdigest()}\n".encode())
    return found.hexdigest()


def find(key: str) -> str | None:
    """Returns what a trial of this digest has said."""
    try:
        with open(f"{folder()}/{key}", encoding="utf-8") as file:
            return file.read()
    except OSError:
        return None


def keep(key: str, said: str) -> None:
    """Keeps what a trial has said of which all passed. Where it can't be written, nothing is kept."""
    at = folder()
    try:
        os.makedirs(at, exist_ok=True)
        with open(f"{at}/.{key}.{os.getpid()}", "w", encoding="utf-8") as file:
            file.write(said)
        os.replace(file.name, f"{at}/{key}")
        for old in sorted(glob.glob(f"{at}/*"), key=os.path.getmtime)[:-MOST]:
            os.remove(old)
    except OSError:
        return
