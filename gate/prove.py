#!/usr/bin/env python3
"""Runs rt ci, and notes beside the program that it has built of which sources that is, for who takes it later. The words and the status
are those of rt ci.
"""

import subprocess
import sys

sys.dont_write_bytecode = True
import build


def main(words: list[str]) -> int:
    sources = build.digest()
    status = subprocess.run(["rt", "ci", *words], stdin=subprocess.DEVNULL, check=False).returncode
    if not status and not words:
        build.note(build.BUILT, sources)
    return status


if __name__ == "__main__":
    sys.exit(main(sys.argv[1:]))
