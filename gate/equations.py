#!/usr/bin/env python3
"""Looks at the form of contracts: a function all of whose clauses are equations, one of its result and one of each value that it may
change, can't be proved with another value, whatever its body is; an edit of that value would show no more. It may be one of what there is
unless memory is wanting. gate/equations.txt lists the functions that have no edit for that reason, and each has to be of that form still.
gate/edited.txt lists those that have an edit, and each has to have one still. The last line is 'N passed, M failed'.

usage: equations.py            looks at the functions of both lists
       equations.py list       prints all functions of that form, with their edits
       equations.py write      writes both lists: what has edits and is of that form goes into the first, and its edits are printed, so that
                               these can go; all else that has edits into the second
"""

from __future__ import annotations

import os
import re
import sys
from collections.abc import Iterator

sys.dont_write_bytecode = True
import crates
import edits
import places
from tally import Tally

LIST = f"{crates.TOP}/gate/equations.txt"
EDITED = f"{crates.TOP}/gate/edited.txt"
# A whole value: what a call returns, or what it leaves where a parameter points; of a list its elements.
LEFT = r"(?:IsTrue )?(result)|(\w+)\.new(?:\.items)?"
# The same where memory isn't wanting: what the call returns is named by a word of its own.
OF_RESULT = re.compile(r"IfOk result \(λ (\w+)\. (\1(?:\.items)? (?:≡|↔) .*)\)")
OF_CHANGED = re.compile(r"OnOk result \((\w+\.new(?:\.items)? ≡ .*)\)")
# What a call returns that answers nothing but whether it could.
BARE = re.compile(r"WriteResult|Result<\(\), AllocError>")


def clauses(contract: str) -> list[str]:
    """Returns the texts in the braces of the clauses `ensures` of a function. What stands in a comment is none."""
    found = []
    contract = re.sub(r"(?m)^\s*//.*$", "", contract)
    for start in re.finditer(r"\bensures\b\*?\s*\w*\s*\{", contract):
        deep, at = 1, start.end()
        while at < len(contract) and deep:
            deep += {"{": 1, "}": -1}.get(contract[at], 0)
            at += 1
        found.append(" ".join(contract[start.end():at - 1].split()))
    return found


def equated(clause: str) -> str:
    """Returns what a clause equates with a term that doesn't name it: 'result' or a parameter; '' where it is no such equation."""
    if found := OF_RESULT.fullmatch(clause):
        clause = f"result{found[2].removeprefix(found[1])}".replace("result.items", "result")
    elif found := OF_CHANGED.fullmatch(clause):
        clause = found[1]
    head = re.match(r"let .*? in (?=(?:IsTrue )?result\b|\w+\.new\b)", clause)
    body = clause[head.end():] if head else clause
    found = re.match(rf"(?:{LEFT}) (?:≡|↔) (.*)", body)
    if not found:
        return ""
    name, right = found[1] or found[2], found[3]
    # a further connective beside the equation would make it a part of another statement
    is_whole = not re.search(r"\bresult\b|\.new\b|\.exit\b", right) and not split_beside(right)
    return name if is_whole and not (head and re.search(r"\bresult\b|\.new\b", head[0])) else ""


def split_beside(term: str) -> bool:
    """Whether a term has a connective of statements outside of brackets."""
    deep = 0
    for letter in term:
        deep += {"(": 1, ")": -1}.get(letter, 0)
        if not deep and letter in "→∧∨≡↔×⊎":
            return True
    return False


def is_fixed(contract: str) -> bool:
    """Whether the clauses of a function fix its result and all that it may change."""
    told = clauses(contract)
    if any(not re.search(rf"\b{it}: &(?:'\w+ )?mut Vec<", contract) for it in re.findall(r"\b(\w+)\.new\.items", " ".join(told)) if it != "result"):
        return False
    head = re.split(r"\b(?:requires|ensures|ghost)\b", contract)[0]
    wanted = set(re.findall(r"(\w+): &(?:'\w+ )?mut\b", head)) | ({"self"} if re.search(r"&(?:'\w+ )?mut self\b", head) else set())
    if head.count("&mut") + len(re.findall(r"&'\w+ mut", head)) > len(wanted):
        return False
    returned = re.search(r"->\s*(.*)", head, re.DOTALL)
    if returned and returned[1].strip() not in ("()", "") and not BARE.fullmatch(returned[1].strip()):
        if "&mut" in returned[1] or "&'a mut" in returned[1]:
            return False
        wanted.add("result")
    return bool(told) and bool(wanted) and all(map(equated, told)) and wanted <= set(map(equated, told))


def functions_of(name: str) -> Iterator[tuple[str, str, int, int, bool]]:
    """The functions of a crate's code: the name, the file, the lines at which it begins and ends, and whether its clauses fix it."""
    for path in sorted(it for it in crates.sources(name) if it.endswith(".rt")):
        file = os.path.relpath(path, crates.folder(name))
        with open(path, encoding="utf-8") as it:
            lines = it.read().split("\n")
        module = file.removeprefix("src/").removesuffix(".rt").replace("/", "::")
        for start, line in enumerate(lines):
            if head := places.HEAD.match(line):
                body = places.body_of(lines, start)
                block = places.block_around(lines, start)
                full = "::".join(it for it in (name, "" if module in ("lib", "main") else module, block, head[2]) if it)
                yield full, file, start, places.end_of(lines, start), is_fixed("\n".join(lines[start:body]))


def edited(name: str) -> dict[tuple[str, int], list[str]]:
    """Returns the edits of bodies of functions, by the file and the line."""
    found: dict[tuple[str, int], list[str]] = {}
    for edit in edits.edits_of(name, edits.FOLDERS):
        for file, old, _ in edit.pairs:
            with open(f"{crates.folder(name)}/{file}", encoding="utf-8") as it:
                text = it.read()
            if old in text:
                found.setdefault((file, text[:text.index(old)].count("\n")), []).append(edit.name)
    return found


def names_in(path: str) -> set[str]:
    """Returns the functions of a list."""
    return set(crates.text_of(path).split()) if os.path.exists(path) else set()


def write(path: str, names: set[str]) -> None:
    with open(path, "w", encoding="utf-8") as file:
        file.writelines(f"{it}\n" for it in sorted(names))


def main(words: list[str]) -> int:
    fixed: dict[str, list[str]] = {}
    of_function: dict[str, list[str]] = {}
    all_edits = 0
    for name in crates.below():
        at = edited(name)
        all_edits += len({it for names in at.values() for it in names})
        for full, file, start, end, is_so in functions_of(name):
            inside = {it for (path, line), names in at.items() if path == file and start <= line <= end for it in names}
            of_function[full] = [f"{name}/{it}" for it in sorted(inside)]
            if is_so:
                fixed[full] = of_function[full]
    if words in (["list"], ["write"]):
        shown = {it: own for it, own in fixed.items() if own or words == ["list"]}
        if words == ["write"]:
            write(LIST, {*names_in(LIST) & fixed.keys(), *shown})
            write(EDITED, {it for it, own in of_function.items() if own and it not in fixed})
        for it, own in sorted(shown.items()):
            print(it, *own)
        print(f"{len(fixed)} of {len(of_function)} functions; {sum(map(len, fixed.values()))} of {all_edits} edits are of these")
        return 0
    tally = Tally()
    for it in sorted(names_in(LIST)):
        tally.count(it, it in fixed, "its clauses are no equations any more: it needs an edit that must fail")
    for it in sorted(names_in(EDITED)):
        tally.count(it, bool(of_function.get(it)), "it has no edit that must fail any more")
    return tally.end()


if __name__ == "__main__":
    sys.exit(main(sys.argv[1:]))
