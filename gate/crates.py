"""The repository's crates, as crates.txt lists them."""

from __future__ import annotations

import os

TOP = os.path.dirname(os.path.dirname(os.path.realpath(__file__)))
# What a crate costs beside its code, in bytes of code: reading what it stands on, and writing what others read of it.
CRATE_BYTES = 10_000


def text_of(name: str) -> str:
    """Returns the text of a file."""
    with open(name, encoding="utf-8") as file:
        return file.read()


def listed() -> dict[str, list[str]]:
    """Returns the libraries that each crate names, by its name."""
    named = {}
    with open(f"{TOP}/crates.txt", encoding="utf-8") as lines:
        for line in lines:
            head, colon, libraries = line.partition("#")[0].partition(":")
            if colon:
                named[head.split()[0]] = libraries.split()
    return named


def below() -> dict[str, list[str]]:
    """Returns the repository's own crates that each crate names, by its name."""
    named = listed()
    return {name: [it for it in libraries if it in named] for name, libraries in named.items()}


def kit_libraries(name: str) -> list[str]:
    """Returns the libraries of the toolchain's kit that a crate names."""
    named = listed()
    return [it for it in named[name] if it not in named]


def sources(name: str) -> list[str]:
    """Returns the files of code, definitions and proofs of a crate."""
    found = []
    for part in ("src", "specs", "proofs"):
        for at, _, names in os.walk(f"{folder(name)}/{part}", followlinks=True):
            found += [f"{at}/{it}" for it in names if it.endswith((".rt", ".antt"))]
    return found


def code_bytes(name: str) -> int:
    """Returns how much code a crate has. A check's time goes into functions; lemmas take little of it."""
    return sum(os.path.getsize(it) for it in sources(name) if it.endswith(".rt"))


def behind(named: dict[str, list[str]]) -> dict[str, int]:
    """Returns what a crate and the longest chain of crates above it cost, in bytes of code, by the crate's name."""
    found: dict[str, int] = {}
    for name in reversed(sorted(named, key=lambda it: len(needed(it, named)))):
        above = [found[it] for it, libraries in named.items() if name in libraries]
        found[name] = CRATE_BYTES + code_bytes(name) + max(above, default=0)
    return found


def needed(name: str, named: dict[str, list[str]] | None = None) -> list[str]:
    """Returns the crates that a crate stands on, lowest first, and the crate."""
    named = named or below()
    found = []
    for it in named[name]:
        found += [low for low in needed(it, named) if low not in found]
    return [*found, name]


def folder(name: str) -> str:
    """Returns the folder of a crate."""
    return f"{TOP}/crates/{name}"


def is_program(name: str) -> bool:
    """Returns whether a crate is a program."""
    return os.path.isfile(f"{folder(name)}/src/main.rt")
