"""Runs the built program with a library of gate/ in front of the C library, for the scripts that have its calls and allocations fail."""

from __future__ import annotations

import itertools
import os
import resource
import shutil
import subprocess
import sys
import tempfile
import threading
from collections.abc import Sequence
from dataclasses import dataclass

sys.dont_write_bytecode = True
import crates
from tally import PROGRAM

# The descriptor on which the libraries tell of calls, and the seconds of processor time that a run may take.
TOLD, SECONDS = 100, 60


def compiler() -> str | None:
    """Returns the system's C compiler, or the toolchain's clang."""
    rt = shutil.which("rt")
    clang = os.path.join(os.path.dirname(os.path.dirname(os.path.realpath(rt))), "toolchain/bin/clang") if rt else ""
    return shutil.which("cc") or (clang if os.access(clang, os.X_OK) else None)


def counted(letters: str) -> str:
    """Returns letters with how many of each stand together."""
    return " ".join(f"{letter}{len(list(same))}" for letter, same in itertools.groupby(letters))[:200]


@dataclass
class Ran:
    """How a run ended: its status, what it wrote, the letters of its calls, and how many blocks of memory it has kept, where that is seen."""

    status: int
    output: bytes
    complaint: bytes
    told: str
    left: int = 0

    def __str__(self) -> str:
        return f"status {self.status}, standard error {self.complaint!r:.100}, standard output {self.output!r:.200}, calls {counted(self.told)}, blocks kept {self.left}"


class Room(threading.local):
    """A thread's own folder and files, for what its runs write."""

    def __init__(self, top: str) -> None:
        self.folder = tempfile.mkdtemp(dir=top)
        self.files = [os.open(f"{self.folder}/{it}", os.O_RDWR | os.O_CREAT | os.O_APPEND) for it in ("output", "complaint", "told")]


class Preloaded:
    """The program with a library of gate/, which is compiled into a folder."""

    def __init__(self, source: str, cc: str, top: str) -> None:
        self.library = f"{top}/{source.removesuffix('.c')}.so"
        words = [cc, "-shared", "-fPIC", "-O1", "-fno-builtin", "-nostdlib", "-o", self.library, f"{crates.TOP}/gate/{source}"]
        subprocess.run(words, check=True)
        self.room = Room(top)

    def run(self, words: Sequence[bytes | str], stdin: str = "/dev/null", **how: int | str) -> Ran:
        """Runs the program on these words, with what the library is to do in its environment."""
        for file in self.room.files:
            os.ftruncate(file, 0)
        output, complaint, told = self.room.files
        actions = [(os.POSIX_SPAWN_OPEN, 0, stdin, os.O_RDONLY, 0), (os.POSIX_SPAWN_DUP2, output, 1), (os.POSIX_SPAWN_DUP2, complaint, 2),
                   (os.POSIX_SPAWN_DUP2, told, TOLD)]
        environment = {"LD_PRELOAD": self.library, "TOLD": str(TOLD), **{name: str(it) for name, it in how.items()}}
        child = os.posix_spawn(PROGRAM, [PROGRAM, *words], environment, file_actions=actions)
        resource.prlimit(child, resource.RLIMIT_CPU, (SECONDS, SECONDS))
        status = os.waitstatus_to_exitcode(os.waitpid(child, 0)[1])
        wrote = [os.pread(it, os.fstat(it).st_size, 0) for it in self.room.files]
        return Ran(status, wrote[0], wrote[1], wrote[2].decode())
