"""Runs the program inside a process that goes on, by host/ and gate/in_process.c, where it can be built by gcc: an order takes a tenth of what a
process takes, and its calls of the system and its memory are callbacks, of which one may fail (gate/fail_io.c, gate/fail_alloc.c). By Debian's
mingw-w64 and Wine the same is run for Windows.
"""

from __future__ import annotations

import os
import select
import shutil
import struct
import subprocess
import sys
import tempfile
import threading
from collections.abc import Mapping, Sequence

sys.dont_write_bytecode = True
import crates
from preloaded import Ran
from tally import PROGRAM

HOST, GATE = f"{crates.TOP}/host", f"{crates.TOP}/gate"
# How long an order may run.
SECONDS = 120
# The fields of a request between its folder and its words.
ASKED = ("PIECE", "FAIL_KIND", "FAIL_CALL", "FAIL_ERROR", "FAIL_ALLOC")
SOURCES = ("in_process.c", "fail_io.c", "fail_alloc.c")
MINGW, WINE = "x86_64-w64-mingw32-gcc", ("wine64", "wine", "/usr/lib/wine/wine64")


class Hung(Exception):
    """An order didn't end in time, or ended the process that it ran in."""


class Place(threading.local):
    """A thread's own folder, and its process."""

    def __init__(self, top: str) -> None:
        self.folder = tempfile.mkdtemp(dir=top)
        self.process: subprocess.Popen[bytes] | None = None


class InProcess:
    """The program in processes that go on, one for each thread; for as long as the object is entered."""

    def __init__(self, words: list[str], top: str, environment: dict[str, str] | None = None) -> None:
        self.words, self.environment = words, environment
        self._started: list[subprocess.Popen[bytes]] = []
        self.room = Place(top)
        self._process()

    def __enter__(self) -> InProcess:
        return self

    def __exit__(self, *_: object) -> None:
        for process in self._started:
            process.communicate()

    def _process(self) -> subprocess.Popen[bytes]:
        """The process of this thread, which is started where there is none."""
        if self.room.process is None:
            process = subprocess.Popen(self.words, bufsize=0, stdin=subprocess.PIPE, stdout=subprocess.PIPE, env=self.environment)
            self.room.process = process
            self._started.append(process)
            status = self._number(process)
            if status != 0:
                raise Hung(f"the program can't be mapped: status {status}")
        return self.room.process

    def _read(self, process: subprocess.Popen[bytes], count: int) -> bytes:
        """So many bytes of an answer."""
        assert process.stdout is not None
        data = b""
        while len(data) < count:
            is_there = select.select([process.stdout], [], [], SECONDS)[0]
            piece = process.stdout.read(count - len(data)) if is_there else b""
            if not piece:
                process.kill()
                self.room.process = None
                raise Hung(f"its process ended with status {process.wait()}" if is_there else f"not done after {SECONDS} s")
            data += piece
        return data

    def _number(self, process: subprocess.Popen[bytes]) -> int:
        return int.from_bytes(self._read(process, 4), "little", signed=True)

    def order(self, folder: str, words: Sequence[bytes | str], stdin: str, given: bytes, room: int | None, how: Mapping[str, int | str]) -> Ran:
        """Runs an order in a folder, where standard input is a file, or these bytes, and standard output takes so many of them."""
        fields: list[bytes | str] = [folder, stdin, given, "" if room is None else str(room), *(str(how.get(it, "")) for it in ASKED), *words]
        data = [it.encode() if isinstance(it, str) else it for it in fields]
        process = self._process()
        assert process.stdin is not None
        message = memoryview(b"".join([struct.pack("<I", len(data)), *(struct.pack("<I", len(it)) + it for it in data)]))
        try:
            while message:
                message = message[process.stdin.write(message):]
        except BrokenPipeError:
            pass  # the process has ended, as is read
        status, left = self._number(process), self._number(process)
        output, complaint, told = (self._read(process, self._number(process)) for _ in range(3))
        return Ran(status, output, complaint, told.decode(), left)

    def run(self, words: Sequence[bytes | str], stdin: str = "/dev/null", **how: int | str) -> Ran:
        """Runs an order here, as `Preloaded` does."""
        return self.order(os.getcwd(), words, stdin, b"", None, how)


def compiled(top: str, compiler: str = "gcc", parts: str = "out/libparts.a") -> str:
    """Compiles the runner into a folder, over the parts of host/, and returns its name."""
    subprocess.run(["make", "-s", "-C", HOST, parts], check=True)
    made = f"{top}/in_process.{compiler}"
    objects: list[str] = []
    for source in SOURCES:
        objects.append(f"{made}.{source}.o")
        meant = ["-DIN_PROCESS", "-fno-builtin"] if source.startswith("fail") else []
        subprocess.run([compiler, "-std=gnu11", "-O1", "-Wall", "-Wextra", f"-I{HOST}", f"-I{GATE}", *meant, "-c", "-o", objects[-1], f"{GATE}/{source}"],
                       check=True)
    subprocess.run([compiler, "-static" if compiler == MINGW else "-pthread", "-o", made, *objects, f"{HOST}/{parts}"], check=True)
    return made


def started(top: str) -> InProcess | None:
    """The program in processes that go on; None, and why is said, where it can't be run so."""
    lacking = [it for it in ("gcc", "make") if not shutil.which(it)]
    if lacking:
        print(f"by processes, since {' and '.join(lacking)} is missing")
        return None
    try:
        return InProcess([compiled(top), PROGRAM], top)
    except (subprocess.CalledProcessError, Hung) as fault:
        print(f"by processes: {fault}")
        return None


def started_by_wine(top: str, name: str) -> InProcess | None:
    """A program of this name in processes that go on by Wine, as mingw-w64 builds them; None, and why is said, where one of these is missing."""
    wine = next((path for it in WINE if (path := shutil.which(it))), None)
    if wine is None or not shutil.which(MINGW) or not shutil.which("make"):
        print(f"Windows: rows are skipped, since {'Wine' if wine is None else 'mingw-w64 or make'} is missing")
        return None
    environment = {**os.environ, "WINEPREFIX": f"{top}/wine", "WINEDEBUG": "-all", "WINEDLLOVERRIDES": "winedbg.exe,mscoree,mshtml="}
    return InProcess([wine, compiled(top, MINGW, "out/windows/libparts.a"), name], top, environment)
