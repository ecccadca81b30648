#!/usr/bin/env python3
"""Plays drives of a combine harvester, each with a habit of healthy units or with a fault, and compares what `against` tells with what is expected: habits.py
[WORD..]

Words choose the drives whose names have one of them; docs/reference/DRIVES.md has all. J39PLAN names the program. The status is 1 where a drive has another
line, or lacks one, which is shown.
"""

import os
import sys

sys.dont_write_bytecode = True
sys.path.insert(0, os.path.join(os.path.dirname(os.path.dirname(os.path.realpath(__file__))), "tools"))

from tests.harvest_bus import all_misses
from tests.harvest_faults import FAULTS
from tests.harvest_habits import HABITS


def main(words: list[str]) -> int:
    cases, wrong = [case for case in (*HABITS, *FAULTS) if not words or any(word in case.what for word in words)], 0
    for what, missed in all_misses(cases):
        wrong += bool(missed)
        if missed:
            print(what, *missed, sep="\n  ")
    print(f"{len(cases) - wrong} as expected, {wrong} otherwise")
    return 1 if wrong else 0


if __name__ == "__main__":
    sys.exit(main(sys.argv[1:]))
