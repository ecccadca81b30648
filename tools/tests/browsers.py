"""Browsers without a window, by the protocols that Debian's packages have: Chromium by its driver, Firefox by Marionette."""

import base64
import contextlib
import json
import os
import shutil
import signal
import socket
import subprocess
import tempfile
import time
import urllib.error
import urllib.request
from collections.abc import Iterator
from typing import Any

# So long is waited for a browser, in seconds: machines may be busy.
PATIENCE = 120
ELEMENT = "element-6066-11e4-a52e-4f735466cecf"
PREFERENCES = {"marionette.port": 0, "datareporting.policy.dataSubmissionEnabled": False, "toolkit.telemetry.reportingpolicy.firstRun": False,
               "app.normandy.enabled": False, "network.captive-portal-service.enabled": False, "browser.safebrowsing.malware.enabled": False}


def free_port() -> int:
    """A port of this machine that nobody holds."""
    with socket.socket() as holder:
        holder.bind(("127.0.0.1", 0))
        return int(holder.getsockname()[1])


class Browser:
    """A browser with one page."""

    name = ""
    programs: tuple[str, ...] = ()
    packages: tuple[str, ...] = ()

    def __init__(self, is_dark: bool = False, lacks_wasm: bool = False) -> None:
        self.room = tempfile.mkdtemp(prefix="j39plan-browser-")
        self.is_dark, self.lacks_wasm = is_dark, lacks_wasm
        self.started: subprocess.Popen[bytes] | None = None

    @classmethod
    def is_there(cls) -> bool:
        """Whether its programs are installed."""
        return all(shutil.which(it) for it in cls.programs)

    def start(self, words: list[str]) -> None:
        """Starts the browser or its driver, in a folder of its own."""
        self.started = subprocess.Popen(words, stdin=subprocess.DEVNULL, stdout=subprocess.DEVNULL, stderr=subprocess.DEVNULL, start_new_session=True,
                                        env={**os.environ, "HOME": self.room, "TMPDIR": self.room})

    @contextlib.contextmanager
    def closed_on_a_fault(self) -> Iterator[None]:
        """Ends what was started, where the browser can't begin."""
        try:
            yield
        except BaseException:
            Browser.close(self)
            raise

    def call(self, command: str, path: str, **given: Any) -> Any:
        """Gives a command of the WebDriver standard, by its name and by its path, and returns its value."""
        raise NotImplementedError

    def go(self, url: str) -> None:
        """Opens a page."""
        self.call("Navigate", "url", url=url)

    def script(self, text: str, *given: Any) -> Any:
        """What a function body returns in the page."""
        return self.call("ExecuteScript", "execute/sync", script=text, args=list(given))

    def until(self, text: str, *given: Any) -> Any:
        """What an expression of the page is, once it is something."""
        end = time.monotonic() + PATIENCE
        while time.monotonic() < end:
            if value := self.script(f"return {text}", *given):
                return value
            time.sleep(0.05)
        said = self.script("return document.getElementById('said').innerText")
        raise AssertionError(f"{self.name}: {text} came to nothing; the page says {said!r}")

    def pick(self, *files: str) -> None:
        """Picks files of the disk."""
        found = self.call("FindElement", "element", using="css selector", value="#picked")[ELEMENT]
        self.call("ElementSendKeys", f"element/{found}/value", id=found, text="\n".join(files))

    def picture(self) -> bytes:
        """A picture of what is seen of the page, as PNG."""
        return base64.b64decode(self.call("TakeScreenshot", "screenshot"))

    def close(self) -> None:
        """Ends the browser, and what it has started."""
        if self.started:
            for number in (signal.SIGTERM, signal.SIGKILL):
                with contextlib.suppress(ProcessLookupError):
                    os.killpg(self.started.pid, number)
                with contextlib.suppress(subprocess.TimeoutExpired):
                    self.started.wait(10)
        shutil.rmtree(self.room, ignore_errors=True)


class Chromium(Browser):
    """Chromium by chromedriver, over HTTP."""

    name, programs, packages = "Chromium", ("chromium", "chromedriver"), ("chromium", "chromium-driver")

    def __init__(self, is_dark: bool = False, lacks_wasm: bool = False) -> None:
        super().__init__(is_dark, lacks_wasm)
        port = free_port()
        self.address = f"http://127.0.0.1:{port}/session"
        self.start(["chromedriver", f"--port={port}"])
        words = ["--headless=new", "--no-sandbox", "--disable-gpu", "--disable-dev-shm-usage", "--window-size=1280,900", f"--user-data-dir={self.room}/profile"]
        words += ["--force-dark-mode", "--blink-settings=preferredColorScheme=0"] if is_dark else []
        words += ["--js-flags=--noexpose-wasm"] if lacks_wasm else []
        wanted = {"browserName": "chrome", "goog:chromeOptions": {"binary": shutil.which("chromium"), "args": words}}
        with self.closed_on_a_fault():
            self.address += f"/{self.asked('', {'capabilities': {'alwaysMatch': wanted}})['sessionId']}"

    def asked(self, path: str, given: dict[str, Any], method: str = "POST") -> Any:
        """The value of an answer of the driver, which may still be starting."""
        end = time.monotonic() + PATIENCE
        while True:
            data = json.dumps(given).encode() if method == "POST" else None
            request = urllib.request.Request(self.address + path, data, {"Content-Type": "application/json"}, method=method)
            try:
                with urllib.request.urlopen(request, timeout=PATIENCE) as answer:
                    return json.load(answer)["value"]
            except urllib.error.HTTPError as fault:
                raise AssertionError(fault.read().decode()[:1000]) from fault
            except urllib.error.URLError:
                if time.monotonic() > end:
                    raise
                time.sleep(0.05)

    def call(self, command: str, path: str, **given: Any) -> Any:
        return self.asked(f"/{path}", given, "GET" if command in ("TakeScreenshot", "GetComputedLabel") else "POST")

    def close(self) -> None:
        try:
            self.asked("", {}, "DELETE")
        except (OSError, AssertionError):
            pass
        super().close()


class Firefox(Browser):
    """Firefox by Marionette, its own protocol: messages of JSON behind their length."""

    name, programs, packages = "Firefox", ("firefox-esr",), ("firefox-esr",)

    def __init__(self, is_dark: bool = False, lacks_wasm: bool = False) -> None:
        super().__init__(is_dark, lacks_wasm)
        port = free_port()
        preferences = {**PREFERENCES, "marionette.port": port, "layout.css.prefers-color-scheme.content-override": 0 if is_dark else 1,
                       "javascript.options.wasm": not lacks_wasm}
        os.mkdir(f"{self.room}/profile")
        with open(f"{self.room}/profile/user.js", "w", encoding="ascii") as file:
            file.writelines(f"user_pref({json.dumps(key)}, {json.dumps(it)});\n" for key, it in preferences.items())
        self.start(["firefox-esr", "--headless", "--marionette", "--no-remote", "--width=1280", "--height=900", "--profile", f"{self.room}/profile"])
        self.number, self.held = 0, b""
        with self.closed_on_a_fault():
            self.line = self.connected(port)
            self.received()
            self.call("NewSession", "", capabilities={"alwaysMatch": {}})

    @staticmethod
    def connected(port: int) -> socket.socket:
        """A connection to the browser, which may still be starting."""
        end = time.monotonic() + PATIENCE
        while True:
            try:
                return socket.create_connection(("127.0.0.1", port), PATIENCE)
            except OSError:
                if time.monotonic() > end:
                    raise
                time.sleep(0.05)

    def received(self) -> Any:
        """The next message."""
        while b":" not in self.held:
            self.held += self.line.recv(1 << 16)
        size, self.held = self.held.split(b":", 1)
        while len(self.held) < int(size):
            self.held += self.line.recv(1 << 20)
        message, self.held = self.held[:int(size)], self.held[int(size):]
        return json.loads(message)

    def call(self, command: str, path: str, **given: Any) -> Any:
        self.number += 1
        if command == "TakeScreenshot":
            given["full"] = False
        message = json.dumps([0, self.number, f"WebDriver:{command}", given]).encode()
        self.line.sendall(b"%d:%s" % (len(message), message))
        _, _, fault, answer = self.received()
        assert fault is None, fault
        return answer.get("value", answer) if isinstance(answer, dict) else answer

    def close(self) -> None:
        self.line.close()
        super().close()
