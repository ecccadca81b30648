#!/usr/bin/env python3
"""Looks at the types of the Python package, of the commands that run it, of their tests and of the gate by mypy, as tools/mypy.ini says.

Exit status: that of mypy.
"""

from __future__ import annotations

import os
import subprocess
import sys

sys.dont_write_bytecode = True
import crates


def main() -> int:
    words = ["mypy", "--config-file", "tools/mypy.ini", "--cache-dir", os.devnull]
    return subprocess.run(words, cwd=crates.TOP, stdin=subprocess.DEVNULL, check=False, env={**os.environ, "MYPYPATH": ""}).returncode


if __name__ == "__main__":
    sys.exit(main())
