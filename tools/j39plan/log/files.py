"""A log as the tools read it: one file, or several of one drive after one another, from a disk or from a pipe; of all its interfaces, or
of one."""

import argparse
import bisect
import errno
import gzip
import io
import os
import re
import select
import signal
import stat
import time
import zlib
from collections.abc import Sequence
from types import FrameType
from typing import BinaryIO

from j39plan import program

# So much of the begin and of the end of a log is kept, to see its first and its last time.
KEPT = 1 << 16

# So long is waited, in seconds, for what is still on its way in a pipe when an interrupt has come.
GRACE = 0.5

# A frame in a line of a log, and how many bytes one has at most up to its data.
FRAME, FRAME_MOST = re.compile(rb"(?:^|\s)[0-9A-Fa-f]{3,8}#", re.MULTILINE), 16

# How a file begins that gzip has packed.
PACKED = b"\x1f\x8b"

# So many bytes of a line are looked at; `follow` reads lines of up to 8,192.
LINE_MOST = 8000

# So many interfaces are named that a log has.
NAMED = 8


class PackedFile(gzip.GzipFile):
    """What gzip has packed in a file, which may be damaged."""

    def readinto(self, buffer: "memoryview | bytearray") -> int:  # type: ignore[override]
        """Reads what comes next."""
        try:
            return super().readinto(buffer)
        except (EOFError, zlib.error, gzip.BadGzipFile) as why:
            raise OSError(errno.EIO, f"it can't be unpacked: {why}", self.name) from why


# A file as it is read: itself, or what gzip has packed in it.
Opened = io.FileIO | PackedFile


def is_live(file: Opened) -> bool:
    """Whether a file is no regular one, so that somebody may wait for what has come of it."""
    return not stat.S_ISREG(os.fstat(file.fileno()).st_mode)


def opened(name: str) -> Opened:
    """A file of a log, unpacked where gzip has packed it. A pipe is read as it is."""
    return PackedFile(name, "rb") if is_packed(name) else open(program.place_of(name), "rb", buffering=0)


def is_packed(name: str) -> bool:
    """Whether gzip has packed a file, which is no pipe."""
    if not os.path.isfile(name):
        return False
    with open(name, "rb", buffering=0) as file:
        return file.read(len(PACKED)) == PACKED


def whole(name: str) -> io.BufferedReader:
    """A file of a log, unpacked, that is read to its end by one reader."""
    return io.BufferedReader(opened(name), KEPT)  # type: ignore[arg-type]


class Log(io.RawIOBase):
    """The files of a log as one, each of whose lines ends. An interrupt from the keyboard ends what records the log, too, and what came
    of it is to be told: so where a file is a pipe, the first interrupt ends the log, and no more."""

    def __init__(self, names: Sequence[str], interface: str | None = None) -> None:
        super().__init__()
        self.names, self.interface = list(names), interface
        self.files = [opened(name) for name in names]
        self.is_live = any(map(is_live, self.files))
        self._at, self._lines, self._starts, self._is_cut = 0, 0, [0], False
        self._head = self._tail = b""
        self._ends: tuple[bytes, bytes] | None = None
        self._unframed: dict[str, bytes] = {}  # the last bytes of each file that was read and had no frame so far
        self._framed: set[str] = set()
        self._woken, self._wake = os.pipe()
        self._end: float | None = None

    def __enter__(self) -> "Log":
        return self

    def close(self) -> None:
        """Closes the files; how the log begins and ends is kept."""
        if not self.closed:
            self._ends = self.ends()
        for file in self.files:
            file.close()
        super().close()

    @property
    def still(self) -> list[str]:
        """The names of its files, where all are there already and may be read more than once; else none."""
        return [] if self.is_live else self.names

    def readable(self) -> bool:
        """It is there to be read."""
        return True

    def place(self, line: int) -> tuple[str, int]:
        """The file of a line of the whole, and its line there."""
        at = bisect.bisect_left(self._starts, line, hi=min(len(self._starts), len(self.names))) - 1
        return self.names[at], line - self._starts[at]

    def readinto(self, buffer: "memoryview | bytearray") -> int:  # type: ignore[override]
        """Reads what comes next; a line feed behind a file that ends without one."""
        while self._at < len(self.files):
            file = self.files[self._at]
            count = (file.readinto(buffer) or 0) if not self.is_live or self._comes(file) else 0
            if count:
                self._keep(bytes(buffer[:count]))
                return count
            self._at = self._at + 1 if self._end is None else len(self.files)
            if self._at < len(self.files):
                self._lines += self._is_cut
                self._starts.append(self._lines)
                if self._is_cut:
                    buffer[:1], self._is_cut = b"\n", False
                    return 1
        return 0

    def without_frames(self) -> list[str]:
        """The files that were read and are no logs: they have lines, and none of them a frame. Of a single one the program tells that."""
        return [*self._unframed]

    @property
    def is_unpacked(self) -> bool:
        """Whether a file of it is unpacked as it is read, so that it isn't read itself."""
        return any(isinstance(file, PackedFile) for file in self.files)

    def is_packed(self) -> bool:
        """Whether the first file is packed by gzip, and wasn't unpacked."""
        return self.ends()[0].startswith(PACKED)

    def _look_for_frames(self, name: str, piece: bytes) -> None:
        """Looks for a first frame in a file's next piece."""
        if name not in self._framed:
            part = self._unframed.pop(name, b"") + piece
            if FRAME.search(part):
                self._framed.add(name)
            else:
                self._unframed[name] = part[-FRAME_MOST:]

    def _keep(self, piece: bytes) -> None:
        """Counts the lines of a piece, and keeps what is the log's begin or end."""
        self._look_for_frames(self.names[self._at], piece)
        self._lines += piece.count(b"\n")
        self._is_cut = not piece.endswith(b"\n")
        if len(self._head) < KEPT:
            self._head += piece[:KEPT]
        self._tail = piece if len(piece) >= KEPT else (self._tail + piece)[-KEPT:]

    def ends(self) -> tuple[bytes, bytes]:
        """The begin and the end of a log that was read."""
        if self._ends is not None:
            return self._ends
        if self._head or self.is_live:
            return self._head, self._tail
        if self.is_unpacked:
            return b"", b""
        file, size = self.files[0].fileno(), os.fstat(self.files[0].fileno()).st_size
        return os.pread(file, KEPT, 0), os.pread(file, KEPT, max(size - KEPT, 0))

    def interfaces(self) -> tuple[str, list[str]]:
        """Of a log that was read the interface that is read, the first one where none was asked for, and others that stand at its begin and
        end."""
        begin, end = self.ends()
        lines = (line for line in (begin + b"\n" + end).split(b"\n") if b"#" in line)
        named = [os.fsdecode(name) for name in dict.fromkeys(map(interface_of, lines)) if name]
        read = self.interface or (named[0] if named else "")
        return read, [name for name in named if name != read][:NAMED]

    def _comes(self, file: Opened) -> bool:
        """Waits until more of a file is there, or it ends; behind an interrupt not for long."""
        if self._end is None:
            select.select([file, self._woken], [], [])
        if self._end is None:
            return True
        left = self._end - time.monotonic()
        return left > 0 and bool(select.select([file], [], [], left)[0])

    def interrupt(self, *_: int | FrameType | None) -> None:
        """Ends the log. A second interrupt ends the tool."""
        signal.signal(signal.SIGINT, signal.default_int_handler)
        self._end = time.monotonic() + GRACE
        os.write(self._wake, b"!")


def interface_of(line: bytes) -> bytes | None:
    """The interface that a line of a log names, as `follow` has it: the word before the last one, a direction passed over; a time is none."""
    words = line.split()
    if words[-1:] in ([b"R"], [b"T"]):
        words.pop()
    return words[-2] if len(words) > 1 and not words[-2].startswith(b"(") else None


class OneInterface:
    """What comes of a log, line by line, with empty lines in place of those of other interfaces: so each line keeps its number."""

    def __init__(self, log: BinaryIO, interface: str) -> None:
        self._log, self._interface = log, os.fsencode(interface)
        self._is_begun = False  # whether the line was too long to be handed out whole
        self.elsewhere = 0
        self.others: dict[str, None] = {}

    def read1(self, _: int = -1) -> bytes:
        """The next line, as soon as it is there."""
        return self.readline(LINE_MOST)

    def readline(self, size: int) -> bytes:
        """The next line; one that is longer in pieces."""
        piece = self._log.readline(size)
        was_begun, self._is_begun = self._is_begun, len(piece) == size and not piece.endswith(b"\n")
        if was_begun or self._is_begun or interface_of(piece) in (None, self._interface):
            return piece
        self.elsewhere += 1
        if len(self.others) < NAMED:
            self.others[os.fsdecode(interface_of(piece) or b"")] = None
        return b"\n"


def drive_words(words: argparse.ArgumentParser, name: str, names: str) -> None:
    """The words of a log, of what is chosen of it, and of further logs."""
    words.add_argument("log", metavar="LOG", type=program.input_name, help="the name of a file as candump -L writes it, - for standard input")
    words.add_argument("names", metavar=name, nargs="*", help=f"{names}; any other name is that of a further log of the drive")


def interface_option(words: argparse.ArgumentParser) -> None:
    """The option by which a tool reads one interface of a log."""
    words.add_argument("--interface", metavar="NAME", help="the interface that is read of a log of several, as can1 (the first one)")
