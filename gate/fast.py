#!/usr/bin/env python3
"""The fast gate, for each push: what can be seen in some minutes without a proof. It looks at formats and scripts, runs the tests
of the tools and pages on a program that is compiled without proofs, and the stored rows. The last line is 'N passed, M failed'.
"""

from __future__ import annotations

import os
import sys

sys.dont_write_bytecode = True
import unproved
from run import timed

PARTS = (
    ("lint", [sys.executable, "gate/lint.py"], 10),
    ("rows", [sys.executable, "gate/rows.py"], 20),
    ("tools", ["tools/test"], 45),
)


def main() -> int:
    status = unproved.main()
    if status:
        return status
    os.environ["J39PLAN"] = unproved.COMPILED
    passed, failed = map(sum, zip(*(timed(*part) for part in PARTS)))
    print(f"{passed} passed, {failed} failed")
    return 1 if failed else 0


if __name__ == "__main__":
    sys.exit(main())
