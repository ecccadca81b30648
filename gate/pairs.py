#!/usr/bin/env python3
"""Turns a definition and the code by it alike. The contract, an equation with the definition, is proved all the same; a law in words of its own
has to be refused. It is no part of the gate and runs by hand before each release, since a pair takes some minutes.

usage: pairs.py [WORD..]    tries the pairs whose names have one of these words, or all

Each pair is applied in a copy of the sources, in which the prover checks the functions and the law alone. The last line is
'N refused, M passed'; the status is 0 where each law was refused and each contract proved.
"""

from __future__ import annotations

import os
import re
import shutil
import subprocess
import sys
import tempfile

sys.dont_write_bytecode = True
import crates
import pairs_of_audits
import pairs_of_lines
import pairs_of_load
import pairs_of_logs
import pairs_of_vehicles
from turned import Pair, Turn

PAIRS = (*pairs_of_load.PAIRS, *pairs_of_vehicles.PAIRS, *pairs_of_logs.PAIRS, *pairs_of_lines.PAIRS, *pairs_of_audits.PAIRS)


def libraries_of_kit() -> str:
    """Returns the folder of the toolchain's kit."""
    said = subprocess.run(["rt", "doc"], stdin=subprocess.DEVNULL, capture_output=True, text=True, check=True).stdout
    return os.path.dirname(said.strip())


def words_of(crate: str, kit: str, kept: str) -> list[str]:
    """Returns the call of the prover for a crate, over the sources of the crates below."""
    named, listed = crates.needed(crate), crates.listed()
    taken = sorted({"std", *(it for name in named for it in crates.kit_libraries(name))})
    words = ["rattle", "check", "--crate-name", crate, f"crates/{crate}/src/lib.rt", "-L", f"dependency={kit}/rlibs"]
    for name in taken:
        words += ["--extern", f"{name}={kit}/rlibs/{name}.rlib"]
    for name in named[:-1]:
        words += ["--lib", f"{name}:{','.join(['std', *listed[name]])}=crates/{name}/src/lib.rt"]
    return [*words, "--antt-project", f"{kit}/rattle/logic/antt-project.json", "--logic-built", f"{kit}/logic_built", "--jobs", "1", "--incremental", kept]


class Copy:
    """The sources of crates in a folder of their own, over which the prover runs."""

    def __init__(self, top: str, taken: set[str]) -> None:
        self.top, self.kit = top, libraries_of_kit()
        for name in sorted({it for crate in taken for it in crates.needed(crate)}):
            for part in ("src", "specs", "proofs"):
                if os.path.isdir(f"{crates.folder(name)}/{part}"):
                    shutil.copytree(f"{crates.folder(name)}/{part}", f"{top}/crates/{name}/{part}")

    def proved(self, crate: str, names: tuple[str, ...]) -> dict[str, bool]:
        """Checks these functions and laws of a crate, and returns of each whether it is proved."""
        kept = f"{self.top}/kept/{crate}"
        os.makedirs(kept, exist_ok=True)
        only = [word for name in names for word in ("--only", name)]
        ended = subprocess.run([*words_of(crate, self.kit, kept), *only], cwd=self.top, stdin=subprocess.DEVNULL, stdout=subprocess.PIPE,
                               stderr=subprocess.STDOUT, text=True, check=False)
        told = dict(re.findall(rf"^fn {crate}::(\S+): (proved|not proved|no proof|could not tell)", ended.stdout, re.MULTILINE))
        missing = [name for name in names if told.get(name) not in ("proved", "not proved", "no proof")]
        if missing:
            sys.exit(f"pairs: nothing was said of {', '.join(missing)}:\n{ended.stdout[-2000:]}")
        return {name: told[name] == "proved" for name in names}

    def told(self, pair: Pair) -> tuple[dict[str, bool], bool]:
        """Whether each function of a pair is proved, and whether its law is."""
        if pair.crate == pair.above:
            told = self.proved(pair.crate, (*pair.functions, pair.law))
            return {name: told[name] for name in pair.functions}, told[pair.law]
        return self.proved(pair.crate, pair.functions), self.proved(pair.above, (pair.law,))[pair.law]

    def apply(self, crate: str, turns: tuple[Turn, ...]) -> dict[str, str]:
        """Turns texts of a crate, and returns what stood in its files."""
        before: dict[str, str] = {}
        for turn in turns:
            name = f"{self.top}/crates/{crate}/{turn.file}"
            with open(name, encoding="utf-8") as file:
                text = file.read()
            if text.count(turn.old) != 1:
                sys.exit(f"pairs: {turn.file} has {text.count(turn.old)} times: {turn.old}")
            before.setdefault(name, text)
            with open(name, "w", encoding="utf-8") as file:
                file.write(text.replace(turn.old, turn.new))
        return before


def tried(copy: Copy, pair: Pair) -> tuple[bool, bool]:
    """Tries a pair, and returns whether its law is refused, and whether its functions are proved."""
    before = copy.apply(pair.crate, pair.turns)
    functions, law = copy.told(pair)
    said = {True: "proved", False: "refused"}
    parts = [*(f"{name} is {said[is_proved]}" for name, is_proved in functions.items()), f"{pair.above}'s {pair.law} is {said[law]}"]
    print(f"{pair.name}: {', '.join(parts)}", flush=True)
    for name, text in before.items():
        with open(name, "w", encoding="utf-8") as file:
            file.write(text)
    return not law, all(functions.values())


def main(asked: list[str]) -> int:
    chosen = [pair for pair in PAIRS if not asked or any(word in pair.name for word in asked)]
    with tempfile.TemporaryDirectory() as top:
        copy = Copy(top, {name for pair in chosen for name in (pair.crate, pair.above)})
        for above, law in sorted({(pair.above, pair.law) for pair in chosen}):
            if not copy.proved(above, (law,))[law]:
                sys.exit(f"pairs: {law} of {above} isn't proved as it stands")
        results = [tried(copy, pair) for pair in chosen]
    refused = sum(is_refused for is_refused, _ in results)
    print(f"{refused} refused, {len(results) - refused} passed")
    return 0 if all(is_refused and are_proved for is_refused, are_proved in results) else 1


if __name__ == "__main__":
    sys.exit(main(sys.argv[1:]))
