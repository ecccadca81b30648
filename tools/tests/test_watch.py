"""The page of a plan while it is written: served on the loopback, drawn anew as the file is saved, and nothing but this page."""

import contextlib
import http.client
import os
import re
import shutil
import socket
import stat
import subprocess
import sys
import tempfile
import threading
import time
import unittest
from collections.abc import Callable, Iterator
from typing import Any

from j39plan import program
from j39plan.cli import report
from j39plan.plan import page_server
from tests.support import TOOLS, InFolder, example, run, text_of, there

FIRST = text_of(example("first_plan.toml"))

# So long is waited for what is to come, in seconds: machines may be busy.
PATIENCE = 120


class Watched(InFolder):
    @contextlib.contextmanager
    def watching(self, plan: str, *words: str) -> Iterator[tuple[str, int]]:
        """Watches a plan; the host and the port where its page is."""
        started = subprocess.Popen([sys.executable, os.path.join(TOOLS, "report.py"), "--watch", *words, plan], text=True,
                                   stdout=subprocess.PIPE, stderr=subprocess.PIPE, env={**os.environ, "J39PLAN": os.path.abspath(program.path())})
        try:
            url = there(started.stdout).readline()
            found = re.fullmatch(r"http://(\[.*\]|[^:]*):(\d+)/\n", url)
            assert found, url or there(started.stderr).read()
            yield found.group(1).strip("[]"), int(found.group(2))
        finally:
            started.kill()
            started.communicate()

    @staticmethod
    def ask(host: str, port: int, path: str = "/", method: str = "GET", **headers: str) -> tuple[int, Any, str]:
        """Status, headers and text of an answer."""
        connection = http.client.HTTPConnection(host, port, timeout=PATIENCE)
        connection.request(method, path, headers=headers)
        answer = connection.getresponse()
        text = answer.read().decode()
        connection.close()
        return answer.status, answer.headers, text

    def page_with(self, text: str, host: str, port: int) -> str:
        """The page, as soon as it has a text."""
        end = time.monotonic() + PATIENCE
        while time.monotonic() < end:
            page = self.ask(host, port)[2]
            if text in page:
                return page
            time.sleep(0.1)
        self.fail(f"no page with {text}: {page}")


class Served(Watched):
    def test_the_page_alone(self) -> None:
        """It is that of the tool but for the script that loads it anew; no other path, no file, no other method."""
        plan = self.write("plan.toml", FIRST)
        written = run("report.py", plan)[1]
        with self.watching(plan) as (host, port):
            self.assertEqual(host, "127.0.0.1")
            status, headers, page = self.ask(host, port)
            self.assertEqual((status, headers["Content-Type"]), (200, "text/html; charset=utf-8"))
            self.assertEqual(page.count("<script>"), 1)
            plain = re.sub(r"<script>.*</script>\n", "", page)
            plain = re.sub(r' data-drawn="[0-9a-f]{64}"', "", plain)
            self.assertEqual(plain, written.replace(page_server.META, ""))
            for path in ("/plan.toml", "/../plan.toml", "/etc/passwd", "/?x", "/drawn/", "/%2e%2e/"):
                self.assertEqual(self.ask(host, port, path)[::2], (404, "Not Found\n"), path)
            self.assertEqual(self.ask(host, port, method="HEAD")[::2], (200, ""))
            self.assertEqual(self.ask(host, port, "/drawn", "HEAD")[0], 404)
            for method in ("POST", "PUT", "DELETE", "OPTIONS", "TRACE"):
                self.assertEqual(self.ask(host, port, method=method)[0], 501, method)

    def test_it_may_run_its_own_script_and_nothing_else(self) -> None:
        with self.watching(self.write("plan.toml", FIRST)) as (host, port):
            _, headers, page = self.ask(host, port)
        self.assertIn(page_server.SCRIPT, page)
        rules = dict(rule.split(" ", 1) for rule in headers["Content-Security-Policy"].split("; "))
        self.assertEqual({key: rule for key, rule in rules.items() if key != "script-src"}, {
            "default-src": "'none'", "style-src": "'unsafe-inline'", "connect-src": "'self'", "base-uri": "'none'", "form-action": "'none'"})
        self.assertRegex(rules["script-src"], r"^'sha256-[\w+/]{43}='$")
        self.assertNotIn("Content-Security-Policy", page)
        self.assertEqual((headers["X-Frame-Options"], headers["Cache-Control"]), ("DENY", "no-store"))

    def test_names_of_others_are_refused(self) -> None:
        """A page of somebody else's, whose name leads to this machine, reads nothing."""
        with self.watching(self.write("plan.toml", FIRST)) as (host, port):
            for name in (f"evil.test:{port}", "evil.test", "", "127.0.0.1.evil.test:80", "10.0.0.1:80"):
                for path in ("/", "/drawn"):
                    self.assertEqual(self.ask(host, port, path, Host=name)[::2], (421, "Misdirected Request\n"), name)
            for name in (f"localhost:{port}", f"127.0.0.1:{port}"):
                self.assertEqual(self.ask(host, port, Host=name)[0], 200)

    def test_another_address_is_asked_for(self) -> None:
        """Without that other addresses of the machine answer nothing."""
        plan = self.write("plan.toml", FIRST)
        with self.watching(plan) as (_, port):
            with self.assertRaises(OSError), socket.create_connection(("127.0.0.2", port), 5):
                pass
        with self.watching(plan, "--address", "127.0.0.2") as (host, port):
            self.assertEqual((host, self.ask("127.0.0.2", port)[0]), ("127.0.0.2", 200))

    def test_a_port(self) -> None:
        with socket.socket() as taken:
            taken.bind(("127.0.0.1", 0))
            taken.listen()
            port = str(taken.getsockname()[1])
            status, answer, said = run("report.py", "--watch", "--port", port, self.write("plan.toml", FIRST))
        self.assertEqual((status, answer, said), (4, "", "report: Address already in use\n"))
        with self.watching(self.path("plan.toml"), "--port", port) as (_, there):
            self.assertEqual(str(there), port)


class DrawnAnew(Watched):
    def test_as_the_file_is_saved(self) -> None:
        """Written over, put in its place by another name, and with a finding on top, which has file and line."""
        plan = self.write("plan.toml", FIRST)
        with self.watching(plan) as (host, port):
            self.assertIn("SPN110", self.ask(host, port)[2])
            self.write("plan.toml", FIRST.replace("SPN110", "COOLANT"))
            self.assertNotIn("SPN110", self.page_with("COOLANT", host, port))
            os.replace(self.write("other.toml", FIRST.replace("bits = 8", "bits = 7")), plan)
            page = self.page_with("F6 SignalWidth ET1 SPN110 7", host, port)
            self.assertIn(f"{plan}:23</code>", page)
            self.assertLess(page.index("F6 SignalWidth"), page.index('<section id="units"'))

    def test_what_is_no_plan(self) -> None:
        """Why stands on top with its line, and below what could be read last."""
        plan = self.write("plan.toml", FIRST)
        with self.watching(plan) as (host, port):
            self.write("plan.toml", FIRST.replace("address = 23", "address = <23>"))
            page = self.page_with("No page can be drawn", host, port)
            self.assertIn(f"<code>{plan}:11: refused Text", page)
            self.assertIn("SPN110", page)
            self.assertLess(page.index("refused Text"), page.index("SPN110"))
            os.remove(plan)
            self.assertIn("SPN110", self.page_with(f"{plan}: No such file or directory", host, port))
            self.write("plan.toml", FIRST.replace("SPN110", "COOLANT"))
            self.assertNotIn('role="alert"', self.page_with("COOLANT", host, port))

    def test_a_plan_that_is_none_at_first(self) -> None:
        plan = self.write("plan.toml", "version = 9 # <b>\n")
        with self.watching(plan) as (host, port):
            page = self.ask(host, port)[2]
            self.assertIn(f"{plan}:1: refused Range top key version", page)
            self.assertNotIn("could be read last", page)
            self.write("plan.toml", FIRST)
            self.page_with("SPN110", host, port)

    def test_a_browser_that_waits_is_told(self) -> None:
        """Of the page that is there, and of the next one, once each."""
        plan = self.write("plan.toml", FIRST)
        with self.watching(plan) as (host, port), socket.create_connection((host, port), PATIENCE) as connection:
            connection.sendall(f"GET /drawn HTTP/1.1\r\nHost: {host}:{port}\r\n\r\n".encode())
            lines = connection.makefile("r", encoding="utf-8")
            while lines.readline().strip():
                pass
            first = lines.readline()
            self.assertIn(f'data-drawn="{first.removeprefix("data: ").strip()}"', self.ask(host, port)[2])
            self.write("plan.toml", FIRST.replace("SPN110", "COOLANT"))
            self.page_with("COOLANT", host, port)
            line = first
            while line in (first, "\n"):
                line = lines.readline()
            self.assertIn(f'data-drawn="{line.removeprefix("data: ").strip()}"', self.ask(host, port)[2])


class BadWords(Watched):
    def test_what_goes_with_what(self) -> None:
        plan = self.write("plan.toml", FIRST)
        for words in (["--port", "1"], ["--address", "127.0.0.1"], ["--watch", "-o", self.path("page.html")], ["--watch", "--port", "65536"],
                      ["--watch", "--port", "x"]):
            status, answer, said = run("report.py", *words, plan)
            self.assertEqual((status, answer, said[:6]), (2, "", "usage:"), words)
        self.assertFalse(os.path.exists(self.path("page.html")))

    def test_only_a_file_can_be_watched(self) -> None:
        os.mkfifo(self.path("fifo"))
        for name in (self.path("fifo"), self.folder):
            self.assertTrue(not stat.S_ISREG(os.stat(name).st_mode))
            self.assertEqual(run("report.py", "--watch", name), (2, "", f"report: {name}: only a regular file can be watched\n"))
        missing = self.path("missing.toml")
        self.assertEqual(run("report.py", "--watch", missing), (4, "", f"report: {missing}: No such file or directory\n"))


@unittest.skipUnless(shutil.which("chromium"), "chromium isn't there: apt-get install chromium")
class InChromium(Watched):
    def test_it_loads_the_page_anew(self) -> None:
        """Chromium asks for the page a second time once the file is saved, and runs no other script than the page's own."""
        plan = self.write("plan.toml", FIRST)
        asked = []
        drawn = page_server.ServedPage(page_server.WatchedFile(plan, lambda: report.drawn(plan)))
        drawn.look()

        class Counting(page_server.Handler):
            """Counts the pages that are asked for."""

            def do_GET(self) -> None:
                super().do_GET()
                asked.append(self.path)

        with page_server.PageServer("127.0.0.1", 0, drawn) as server, tempfile.TemporaryDirectory() as profile:
            server.RequestHandlerClass = Counting
            threading.Thread(target=server.serve_forever, daemon=True).start()
            words = ["chromium", "--headless", "--no-sandbox", "--disable-gpu", f"--user-data-dir={profile}", "--remote-debugging-port=0", server.url]
            browser = subprocess.Popen(words, stdin=subprocess.DEVNULL, stdout=subprocess.DEVNULL, stderr=subprocess.DEVNULL)
            try:
                self.wait_until(lambda: "/" in asked and drawn.waiting)
                self.write("plan.toml", FIRST.replace("SPN110", "COOLANT"))
                drawn.look()
                self.wait_until(lambda: asked.count("/") >= 2 and drawn.waiting)
                time.sleep(1)
                self.assertEqual(asked.count("/"), 2)
            finally:
                browser.kill()
                browser.wait()
                server.shutdown()

    def wait_until(self, is_so: Callable[[], object]) -> None:
        """Waits until something is so."""
        end = time.monotonic() + PATIENCE
        while not is_so():
            self.assertLess(time.monotonic(), end, "nothing came")
            time.sleep(0.05)


if __name__ == "__main__":
    unittest.main()
