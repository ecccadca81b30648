"""Where a text stands in a crate's code, and which functions a crate has and calls: for gate/edits.py and gate/equations.py."""

from __future__ import annotations

import json
import re
import sys
from dataclasses import dataclass

sys.dont_write_bytecode = True
import crates

HEAD = re.compile(r"(\s*)(?:pub(?:\([a-z]+\))?\s+)?(?:const\s+)?fn\s+(\w+)")
BLOCK = re.compile(r"(\s*)(?:pub(?:\([a-z]+\))?\s+)?(impl|trait)\b")


@dataclass
class Place:
    """Where a line stands: its function, the block of an impl or a trait around that, and whether it is in the function's body."""

    function: str
    block: str
    is_body: bool


def indent_of(line: str) -> int:
    return len(line) - len(line.lstrip())


def end_of(lines: list[str], start: int) -> int:
    """Returns the line at which an item ends that begins at `start`: its brace is closed where the item begins."""
    deep = indent_of(lines[start])
    for at in range(start, len(lines)):
        if lines[at].rstrip() in (" " * deep + "}", " " * deep + "};") or at == start and lines[at].rstrip().endswith(("}", ";")):
            return at
    return len(lines)


def body_of(lines: list[str], start: int) -> int:
    """Returns the line at which the body of a function begins."""
    deep = indent_of(lines[start])
    for at in range(start, len(lines)):
        line = lines[at].rstrip()
        if line == " " * deep + "{" or line.endswith("{") and indent_of(line) == deep:
            return at
    return len(lines)


def place_of(text: str, old: str) -> Place | None:
    """Returns where the text stands in a file of code, if it is in a function."""
    lines = text.split("\n")
    line = text[:text.index(old)].count("\n")
    for start in range(line, -1, -1):
        head = HEAD.match(lines[start])
        if head and line <= end_of(lines, start):
            return Place(head[2], block_around(lines, start), line > body_of(lines, start))
    return None


def block_around(lines: list[str], line: int) -> str:
    """Returns how the name of the impl or the trait around a line begins, as the prover writes it: '' where there is none."""
    for start in range(line, -1, -1):
        head = BLOCK.match(lines[start])
        if head and indent_of(lines[start]) < indent_of(lines[line]) and line <= end_of(lines, start):
            return block_name(" ".join(it.strip() for it in lines[start:body_of(lines, start) + 1]))
    return ""


def block_name(head: str) -> str:
    """Returns the type and the trait of the head of a block, as 'FlowToOneRule' of `impl Rule<FlowPlan, Finding> for FlowToOne<'_> {`."""
    head = re.sub(r"^\s*(?:pub(?:\([a-z]+\))?\s+)?(?:impl|trait)\b", "", head)
    while head.startswith("<") or "<" in head:
        shorter = re.sub(r"<[^<>]*>", "", head.replace("->", ""))
        if shorter == head:
            break
        head = shorter
    head = head.partition(" where ")[0].partition("{")[0].partition(":")[0] if "::" not in head else head.partition("{")[0]
    trait, _, of_type = head.rpartition(" for ")
    return "".join(it.strip().lstrip("&").rpartition("::")[2] for it in (of_type, trait))


class Functions:
    """The functions of a crate and what each calls, as the library has them that was built of it."""

    def __init__(self, name: str) -> None:
        self.crate = name
        with open(f"{crates.folder(name)}/out/rlib/{name}.rlib/toolchain/mir.json", encoding="utf-8") as lines:
            bodies = {it[0]: json.dumps(it[1]["body"]) for it in json.loads(lines.readline())}
        self.names = set(bodies)
        blocks: dict[str, set[str]] = {}
        for it in bodies:
            blocks.setdefault(it.rpartition("::")[0], set()).add(it)
        self.calls = {it: self._called(body, blocks) for it, body in bodies.items()}

    def _called(self, body: str, blocks: dict[str, set[str]]) -> set[str]:
        """Returns the functions of the crate that a body names, and those of the impls that it passes."""
        found = self.names.intersection(re.findall(r'"([^"]*::[^"]*)"', body))
        for impl in re.findall(r'"Impl": \["([^"]+)"', body):
            found |= blocks.get(impl, set())
        return found

    def below(self, name: str, is_all: bool) -> set[str]:
        """Returns a function and those that it calls, by itself or by a closure; or all that it leads to."""
        found, left = {name}, [name]
        while left:
            at = left.pop()
            more = self.calls.get(at, set()) - found
            found |= more
            left += [it for it in more if is_all or "::fn::" in it]
        return found

    def at(self, path: str, place: Place) -> str:
        """Returns the name of the function at a place of a file, or raises a ValueError."""
        module = path.removeprefix("src/").removesuffix(".rt").replace("/", "::").removesuffix("::mod")
        inside = "::".join(it for it in (self.crate, "" if module in ("lib", "main") else module) if it)
        if not place.block:
            return self.one([f"{inside}::{place.function}"], f"{inside}::{place.function}")
        begins = f"{inside}::{place.block}"
        fits = [it for it in self.names if it.endswith(f"::{place.function}") and it.startswith(begins)]
        exact = f"{begins}::{place.function}"
        # a type's own methods are named by the type's module, wherever they stand
        elsewhere = [it for it in self.names if it.endswith(f"::{place.block}::{place.function}")]
        return self.one([exact] if exact in fits else fits or elsewhere, exact)

    def named(self, text: str) -> str:
        """Returns the function of this name, or of this end of its name, or raises a ValueError."""
        full = text if text.startswith(f"{self.crate}::") else f"{self.crate}::{text}"
        return self.one([full] if full in self.names else [it for it in self.names if it.endswith(f"::{text}")], text)

    def one(self, found: list[str], name: str) -> str:
        if len(found) != 1 or found[0] not in self.names:
            raise ValueError(f"{name} fits {len([it for it in found if it in self.names])} functions of {self.crate}, and not one")
        return found[0]

    def own(self, name: str) -> set[str]:
        """Returns a function and the closures that are written in it."""
        at, _, last = name.rpartition("::")
        inside = (f"{at}::fn::{last}::", f"{at.rpartition('::')[0]}::fn::{last}::")
        return {name, *(it.partition("+")[0] for it in self.names if it.startswith(inside[0]) or it.startswith(f"{name}::"))}
