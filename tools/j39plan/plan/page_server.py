"""Serves the page of a plan, drawn anew as its file is saved: on the loopback, and nothing but this page.

A browser that shows the page is told of each new one, and loads it. The page may run the one script that does so, and nothing else.
"""

from __future__ import annotations

import base64
import contextlib
import hashlib
import os
import socket
import stat
import threading
from collections.abc import Callable
from html import escape
from http import HTTPStatus
from http.server import BaseHTTPRequestHandler, ThreadingHTTPServer
from typing import NamedTuple, NoReturn

from j39plan import program

# The addresses by which a machine calls itself.
LOOPBACK = ("127.0.0.1", "localhost", "::1")

# How often the file is looked at, and how often a browser that waits hears that the server is there, in seconds.
LOOK, BEAT = 0.2, 10.0

# Loads the page anew when it is another one, also where the server was started again meanwhile.
SCRIPT = ('const shown = document.documentElement.dataset.drawn;'
          'new EventSource("/drawn").onmessage = told => { if (told.data !== shown) location.reload(); };')
POLICY = ("default-src 'none'; style-src 'unsafe-inline'; connect-src 'self'; base-uri 'none'; form-action 'none'; script-src 'sha256-"
          + base64.b64encode(hashlib.sha256(SCRIPT.encode()).digest()).decode() + "'")
# What a page says for itself of what it may load: nothing. The server says it in its place.
META = '<meta http-equiv="Content-Security-Policy" content="default-src \'none\'; style-src \'unsafe-inline\'">\n'
HTML, MAIN, END = '<html lang="en">', '<main id="content">\n', "</body>"

EMPTY = f"""<!DOCTYPE html>
{HTML}
<head>
<meta charset="utf-8">
<title>Plan</title>
</head>
<body>
{MAIN}</main>
{END}
</html>
"""

# How a page is drawn: its text, or a fault that says why it can't be.
Draw = Callable[[], str]


def with_script(page: str) -> str:
    """A page that is loaded anew when there is another one; by what it shows it is told from others."""
    drawn = hashlib.sha256(page.encode()).hexdigest()
    page = page.replace(META, "", 1).replace(HTML, f'{HTML[:-1]} data-drawn="{drawn}">', 1)
    return page.replace(END, f"<script>{SCRIPT}</script>\n{END}", 1)


def with_fault(page: str, fault: str) -> str:
    """The last page that could be drawn, and why there is no newer one on top."""
    below = "" if page == EMPTY else "<p>Below is the plan as it could be read last.</p>\n"
    lines = "".join(f"<p><code>{escape(line)}</code></p>\n" for line in fault.splitlines())
    section = (f'<section id="fault" role="alert" aria-labelledby="fault-heading">\n<h2 id="fault-heading">No page can be drawn</h2>\n'
               f"{lines}{below}</section>\n")
    return page.replace(MAIN, MAIN + section, 1)


# By what a file is known to be another one than before, None of one that isn't there.
State = tuple[int, int, int] | None


def state_of(file: str) -> State:
    """The state of a file."""
    with contextlib.suppress(OSError):
        known = os.stat(file)
        return known.st_mtime_ns, known.st_size, known.st_ino
    return None


def none_beside() -> list[str]:
    """No files."""
    return []


class WatchedFile(NamedTuple):
    """A file, how its page is drawn, and which other files the page is drawn of, as the file names them."""

    file: str
    draw: Draw
    beside: Callable[[], list[str]] = none_beside


class ServedPage:
    """The page that is served now, and those who wait for the next one."""

    def __init__(self, watched: WatchedFile) -> None:
        self._file, self._draw, self._named = watched
        self._last = EMPTY
        self._state: list[State] = []
        self._beside: list[str] = []
        self._changed = threading.Condition()
        self.page, self.number = b"", ""
        self.waiting = 0  # how many browsers wait for the next page

    def look(self) -> None:
        """Draws the page anew, if the file, or one that it names, is another one than before."""
        state = [state_of(self._file)]
        if state != self._state[:1]:
            with contextlib.suppress(OSError):
                self._beside = self._named()
        state += map(state_of, self._beside)
        if self.page and state == self._state:
            return
        self._state = state
        try:
            page = self._last = self._draw()
        except program.Refused as refused:
            page = with_fault(self._last, str(refused) or f"{self._file}: it can't be read as a plan")
        except OSError as fault:
            page = with_fault(self._last, f"{self._file}: {fault.strerror}")
        with self._changed:
            self.number = hashlib.sha256(page.encode()).hexdigest()
            self.page = with_script(page).encode()
            self._changed.notify_all()

    def after(self, number: str) -> str:
        """The number of the page, as soon as it is another one, or after some time."""
        with self._changed:
            self.waiting += 1
            self._changed.wait_for(lambda: self.number != number, BEAT)
            self.waiting -= 1
            return self.number


class Handler(BaseHTTPRequestHandler):
    """Answers with the page, with the news of each page, and with nothing else."""

    server: PageServer
    protocol_version = "HTTP/1.1"
    server_version, sys_version = "j39plan", ""

    def do_GET(self) -> None:  # pylint: disable=invalid-name
        """The page, or the news."""
        if not self.server.is_called(self.headers.get("Host", "")):
            self._refuse(HTTPStatus.MISDIRECTED_REQUEST)
        elif self.path == "/":
            self._put(self.server.drawn.page)
        elif self.path == "/drawn" and self.command == "GET":
            self._tell()
        else:
            self._refuse(HTTPStatus.NOT_FOUND)

    do_HEAD = do_GET

    def _head(self, status: HTTPStatus, kind: str, length: int | None) -> None:
        self.send_response(status)
        for name, value in (("Content-Type", kind), ("Content-Security-Policy", POLICY), ("X-Content-Type-Options", "nosniff"),
                            ("X-Frame-Options", "DENY"), ("Referrer-Policy", "no-referrer"), ("Cache-Control", "no-store")):
            self.send_header(name, value)
        if length is None:
            self.send_header("Connection", "close")
        else:
            self.send_header("Content-Length", str(length))
        self.end_headers()

    def _put(self, data: bytes, status: HTTPStatus = HTTPStatus.OK, kind: str = "text/html; charset=utf-8") -> None:
        self._head(status, kind, len(data))
        if self.command == "GET":
            self.wfile.write(data)

    def _refuse(self, status: HTTPStatus) -> None:
        self._put(f"{status.phrase}\n".encode(), status, "text/plain; charset=utf-8")

    def _tell(self) -> None:
        """Says which page there is, and again when it is another one, until the browser has gone."""
        self._head(HTTPStatus.OK, "text/event-stream", None)
        self.close_connection = True
        number = ""
        try:
            while True:
                number = self.server.drawn.after(number)
                self.wfile.write(f"data: {number}\n\n".encode())
        except OSError:
            pass

    def log_message(self, format: str, *args: object) -> None:  # pylint: disable=redefined-builtin
        """Says nothing of requests."""


class PageServer(ThreadingHTTPServer):
    """Serves a page at an address and a port; the port 0 is any that is free."""

    daemon_threads = True

    def __init__(self, address: str, port: int, drawn: ServedPage) -> None:
        self.drawn, self._address = drawn, address
        self.address_family = socket.getaddrinfo(address, port, type=socket.SOCK_STREAM)[0][0]
        super().__init__((address, port), Handler)

    @property
    def url(self) -> str:
        """Where the page is."""
        host = f"[{self._address}]" if ":" in self._address else self._address
        return f"http://{host}:{self.server_address[1]}/"

    def is_called(self, host: str) -> bool:
        """Whether a request names this server. On the loopback another name is one that somebody else's page led here."""
        if self.server_address[0] not in LOOPBACK:
            return True
        return host.rpartition(":")[0].strip("[]") in LOOPBACK


def serve(watched: WatchedFile, address: str, port: int) -> NoReturn:
    """Serves the page of a file until the tool is interrupted."""
    if not stat.S_ISREG(os.stat(watched.file).st_mode):
        raise program.Refused(program.UNREADABLE, f"{watched.file}: only a regular file can be watched")
    drawn = ServedPage(watched)
    drawn.look()
    with PageServer(address, port, drawn) as server:
        print(server.url, flush=True)
        threading.Thread(target=server.serve_forever, daemon=True).start()
        pause = threading.Event()
        while True:
            pause.wait(LOOK)
            drawn.look()
