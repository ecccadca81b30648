#!/usr/bin/env python3
"""Builds the program again, from the libraries that ./j39plan has built, in a folder of another name, and sees that it is the
same file byte by byte. It takes some minutes, and is no part of the gate. Status 0 where it is the same.
"""

import filecmp
import subprocess
import sys
import tempfile

sys.dont_write_bytecode = True
import build
import crates

PROGRAM = f"crates/{build.PROGRAM}/out/{build.PROGRAM}"


def main() -> int:
    with tempfile.TemporaryDirectory(prefix="j39plan-again-") as top:
        build.copy(build.PROGRAM, top)
        words = ["rt", "run", "--", "--version"]
        ran = subprocess.run(words, cwd=f"{top}/crates/{build.PROGRAM}", stdin=subprocess.DEVNULL, check=False)
        is_same = not ran.returncode and filecmp.cmp(f"{crates.TOP}/{PROGRAM}", f"{top}/{PROGRAM}", shallow=False)
    print(f"the program is {'the same' if is_same else 'another one'} in another folder")
    return 0 if is_same else 1


if __name__ == "__main__":
    sys.exit(main())
