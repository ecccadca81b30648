"""What gate/pairs.py turns: texts of a crate's definitions, code and proofs."""

from __future__ import annotations

from dataclasses import dataclass


@dataclass(frozen=True)
class Turn:
    """A text that stands once in a file of the crate, and what stands in its place."""

    file: str
    old: str
    new: str


@dataclass(frozen=True)
class Pair:
    """A definition and code by it that are wrong alike. The crate's functions are proved all the same; the law, which may be one of a crate above,
    isn't."""

    name: str
    crate: str
    functions: tuple[str, ...]
    above: str
    law: str
    turns: tuple[Turn, ...]
