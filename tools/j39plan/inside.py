"""The program inside this process, by the library of host/ (host/j39plan.h), where that is there: an order by it is an order by a process of its own, but
that an interrupt waits for its end. A session is an order that reads what it is handed, piece by piece."""

from __future__ import annotations

import ctypes
import io
import os
import threading
from collections.abc import Iterable, Mapping, Sequence
from typing import Any

# The interface of the library that is spoken here, and the status of one that can't be used; of a session that waits for more; and the name of what it
# is handed.
INTERFACE, DONE, MEMORY = 1, 0, 3
GOES_ON, INPUT = -1, b"/dev/stdin"

_Words = ctypes.POINTER(ctypes.c_char_p)


class _Text(ctypes.Structure):
    _fields_ = [("bytes", ctypes.c_void_p), ("size", ctypes.c_size_t), ("room", ctypes.c_size_t)]

    def taken(self) -> bytes:
        """What it holds."""
        return ctypes.string_at(self.bytes, self.size) if self.size else b""


class _File(ctypes.Structure):
    _fields_ = [("name", ctypes.c_char_p), ("bytes", ctypes.c_char_p), ("size", ctypes.c_size_t)]


class Unusable(Exception):
    """The library, or the program by it, can't be used here: why."""


class _Instance:
    """One copy of the program, for one thread."""

    def __init__(self, library: ctypes.CDLL, program: bytes, digest: str | None) -> None:
        self._library, self._at = library, ctypes.c_void_p()
        status = library.j39_map(program, len(program), digest and digest.encode(), ctypes.byref(self._at))
        if status == MEMORY:
            raise MemoryError
        if status != DONE:
            raise Unusable(f"the program can't be mapped: {status}")

    def __del__(self) -> None:
        if self._at:
            self._library.j39_free(self._at)

    def run(self, words: Sequence[str]) -> tuple[int, bytes, bytes]:
        """An order over the system's files: its status, standard output and standard error."""
        out, errors = _Text(), _Text()
        try:
            status = self._library.j39_run_here(self._at, len(words), spelled(words), ctypes.byref(out), ctypes.byref(errors))
            return status, out.taken(), errors.taken()
        finally:
            for text in (out, errors):
                self._library.j39_text_free(ctypes.byref(text))

    def session(self, words: Sequence[str], files: Mapping[str, bytes]) -> Session:
        """An order that reads these files, and what it is handed. No other one runs until it is closed."""
        return Session(self, self._library, self._at, words, files)


class Session:
    """An order that reads what it is handed, as standard input. Its status is None until it has ended, and takes no more."""

    def __init__(self, instance: _Instance, library: Any, at: ctypes.c_void_p, words: Sequence[str], files: Mapping[str, bytes]) -> None:
        self._library, self._out = library, ctypes.POINTER(_Text)()
        # what the order reads as long as it runs
        self._kept = instance, spelled(words), (_File * len(files))(*(_File(encoded(name), data, len(data)) for name, data in files.items()))
        self._at = library.j39_begin(at, len(words), self._kept[1], INPUT, self._kept[2], len(files))
        if not self._at:
            raise MemoryError
        self.status: int | None = None
        self.fault: Exception | None = None

    def __enter__(self) -> Session:
        return self

    def __exit__(self, *_: object) -> None:
        self.close()

    def close(self) -> None:
        """Ends the order, where it hasn't ended."""
        at, self._at = self._at, None
        if at:
            self._library.j39_drop(at)

    __del__ = close

    def feed(self, piece: bytes) -> bytes:
        """What the order writes of the next piece of its input."""
        return self._written(self._library.j39_feed(self._at, piece, len(piece), ctypes.byref(self._out)))

    def end(self) -> bytes:
        """What the order writes as its input has ended."""
        return self._written(self._library.j39_end(self._at, ctypes.byref(self._out)))

    def _written(self, status: int) -> bytes:
        self.status = None if status == GOES_ON else status
        return self._out.contents.taken()

    def answer(self, pieces: Iterable[bytes]) -> io.BufferedReader:
        """What the order writes of pieces, each of which is taken when its text is read."""
        return io.BufferedReader(_Answer(self, pieces), 1 << 16)

    def ended(self) -> tuple[int, bytes]:
        """The status and the standard error of an order whose answer was read. What went wrong where a piece was taken is raised."""
        if self.fault:
            raise self.fault
        return self.status or DONE, self.complaints()

    def complaints(self) -> bytes:
        """Its standard error so far."""
        said: _Text = self._library.j39_complaints(self._at).contents
        return said.taken()


class _Answer(io.RawIOBase):
    """What the order of a session writes. Where its input can't be read on it ends as if that had ended, and the session keeps why."""

    def __init__(self, session: Session, pieces: Iterable[bytes]) -> None:
        super().__init__()
        self._session, self._pieces, self._text = session, iter(pieces), memoryview(b"")

    def readable(self) -> bool:
        """It is there to be read."""
        return True

    def readinto(self, buffer: memoryview | bytearray) -> int:  # type: ignore[override]
        """Reads what comes next."""
        while not self._text and self._session.status is None:
            piece = self._next()
            self._text = memoryview(self._session.end() if piece is None else self._session.feed(piece))
        count = min(len(buffer), len(self._text))
        buffer[:count], self._text = self._text[:count], self._text[count:]
        return count

    def _next(self) -> bytes | None:
        try:
            return next(self._pieces, None)
        except Exception as fault:  # it is raised when the answer was read
            self._session.fault = fault
            return None


class Inside(threading.local):
    """A program by a library, of which each thread has a copy, and each session another one."""

    def __init__(self, library: str, name: str, digest: str | None) -> None:
        try:
            loaded = declared(ctypes.CDLL(library))
            with open(name, "rb") as file:
                program = file.read()
        except (OSError, AttributeError) as fault:
            raise Unusable(str(fault)) from None
        if loaded.j39_interface() != INTERFACE:
            raise Unusable(f"{library} has another interface")
        self.run = _Instance(loaded, program, digest).run
        self._made = loaded, program, digest

    def session(self, words: Sequence[str], files: Mapping[str, bytes]) -> Session:
        """An order that reads these files, and what it is handed."""
        return _Instance(*self._made).session(words, files)


def spelled(words: Sequence[str]) -> Any:
    """Words as the library takes them."""
    return (ctypes.c_char_p * len(words))(*map(encoded, words))


def encoded(word: str) -> bytes:
    """A word as the library takes it: as the system spells names, by UTF-8 on Windows."""
    word_bytes = os.fsencode(word)
    if b"\0" in word_bytes:
        raise ValueError("embedded null byte")
    return word_bytes


def declared(library: Any) -> Any:
    """The library, with the types of what is called."""
    texts, file_list = [ctypes.POINTER(_Text)], [ctypes.POINTER(_File), ctypes.c_int]
    session, shown = ctypes.c_void_p, ctypes.POINTER(ctypes.POINTER(_Text))
    for name, takes in {
        "j39_interface": [], "j39_free": [ctypes.c_void_p], "j39_text_free": texts,
        "j39_map": [ctypes.c_char_p, ctypes.c_size_t, ctypes.c_char_p, ctypes.POINTER(ctypes.c_void_p)],
        "j39_run_here": [ctypes.c_void_p, ctypes.c_int, _Words, *texts, *texts],
        "j39_begin": [ctypes.c_void_p, ctypes.c_int, _Words, ctypes.c_char_p, *file_list], "j39_drop": [session], "j39_complaints": [session],
        "j39_feed": [session, ctypes.c_char_p, ctypes.c_size_t, shown], "j39_end": [session, shown],
    }.items():
        getattr(library, name).argtypes = takes
    library.j39_free.restype = library.j39_text_free.restype = library.j39_drop.restype = None
    library.j39_begin.restype, library.j39_complaints.restype = session, texts[0]
    return library
