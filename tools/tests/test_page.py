"""The page for browsers, program/j39plan.html, in Chromium and in Firefox, opened from the disk; and where it says that findings belong, in Node."""

import base64
import contextlib
import glob
import hashlib
import http.server
import io
import json
import os
import re
import shutil
import subprocess
import threading
import unittest
from contextlib import redirect_stdout
from unittest import mock

from j39plan import program
from j39plan.plan.answer_places import placed
from tests.browsers import ELEMENT, Browser, Chromium, Firefox
from tests.support import TOP, InFolder, example, text_of

import page
import page_module
import rows
import tally

PAGE = os.path.join(TOP, "program", "j39plan.html")
SAID = "document.getElementById('said').textContent"
# Keys of the WebDriver standard.
LEFT, RIGHT = "\ue012", "\ue014"
BIG = 50_000_000
DRIVE = "two_units_one_address.drive.log"
CONTEST = ("address_contest.toml", "address_contest.both_claim.schedule")

# A module of WebAssembly whose main, of two numbers, is silent and answers 0.
SILENT = bytes.fromhex("0061736d01000000 010701 60027f7e017f 03020100 0503010001 071102 066d656d6f72790200 046d61696e0000 0a06010400 41000b")
BY_POINTER = """@table = private constant <{ ptr, ptr }> <{ ptr @"one", ptr @"two" }>
define internal noundef i8 @"one"(i64 noundef %a0) #1 {
  ret i8 1
}
define internal noundef i8 @"two"(i64 noundef %a0) #1 {
  ret i8 2
}
define i8 @main() #0 {
  %r0 = load ptr, ptr @table
  %r1 = call noundef i8 %r0(i64 noundef 7) #2
  ret i8 %r1
}
attributes #0 = { nounwind }
attributes #1 = { nounwind "rattle-sig"="1" }
attributes #2 = { nounwind "rattle-sig"="1" }
"""

# Prints, of plans and answers on standard input, where the page's scripts say that each part of an answer belongs.
PLACES = """
const fs = require("fs"), vm = require("vm");
vm.runInThisContext(process.argv.slice(1).map((name) => fs.readFileSync(name, "utf8")).join("") + ";Object.assign(globalThis, { partsOf, placesOf })");
const told = JSON.parse(fs.readFileSync(0)).map(([plan, answer]) => partsOf(placesOf(plan), answer).map((part) => part.line));
console.log(JSON.stringify(told));
"""


def headers(plan: str) -> list[int]:
    """The lines of a plan on which tables begin."""
    return [number for number, line in enumerate(plan.splitlines(), 1) if line.startswith("[")]


@unittest.skipUnless(shutil.which("node"), "node isn't there: apt-get install nodejs")
class Places(unittest.TestCase):
    def test_findings_belong_where_the_tool_has_them(self) -> None:
        """Each finding of an example is in the table in which where.py has it."""
        plans = [name for name in sorted(glob.glob(example("findings/*.toml")) + glob.glob(example("*.toml"))) if os.path.exists(f"{name[:-5]}.check")]
        given = [(text_of(name), text_of(f"{name[:-5]}.check")) for name in plans]
        scripts = [os.path.join(TOP, "page", name) for name in ("places.js", "findings.js")]
        ran = subprocess.run(["node", "-e", PLACES, *scripts], input=json.dumps(given), capture_output=True, text=True, check=True)
        count = 0
        for name, (plan, answer), lines in zip(plans, given, json.loads(ran.stdout), strict=True):
            wanted = [part.line for part in placed(plan.encode(), answer)]
            for line, tool in zip(lines, wanted, strict=True):
                count += tool is not None
                tables = [[header for header in headers(plan) if it is not None and header <= it][-1:] for it in (line, tool)]
                self.assertEqual(tables[0], tables[1], f"{name}: line {line}, and where.py says {tool}")
        self.assertGreater(count, 30)


class Made(InFolder):
    """The page is put together of its sources and a module, and compared with them."""

    def test_a_page_has_its_module_and_allows_its_own_script_alone(self) -> None:
        text = page.drawn(SILENT)
        self.assertEqual(page.module_of(text), SILENT)
        self.assertEqual(page.drawn(SILENT), text)
        scripts = re.findall(r"<script>(.*?)</script>", text, re.S)
        self.assertEqual(len(scripts), 1)
        wanted = base64.b64encode(hashlib.sha256(scripts[0].encode()).digest()).decode()
        self.assertIn(f"default-src 'none'; script-src 'sha256-{wanted}' 'wasm-unsafe-eval';", text)

    def test_a_page_of_other_sources_is_told(self) -> None:
        for change, told in ((("<h1", "<h2"), 2), (("", ""), 0)):
            kept = {"page": self.write("j39plan.html", page.drawn(SILENT).replace(*change)), "record": self.path("record")}
            of = {"page": hashlib.sha256(page.drawn(SILENT).encode()).hexdigest(), "module": hashlib.sha256(SILENT).hexdigest(), "sources": "others"}
            self.write("record", "".join(f"{key} {value}\n" for key, value in of.items()))
            count = tally.Tally()
            with mock.patch.object(page, "PAGE", kept["page"]), mock.patch.object(page, "RECORD", kept["record"]), redirect_stdout(io.StringIO()):
                page.look(count)
            self.assertEqual((count.passed, count.failed), (3 - told, told))

    @unittest.skipUnless(shutil.which("node"), "node isn't there: apt-get install nodejs")
    def test_a_module_that_writes_other_text_fails_its_row(self) -> None:
        """One that is silent and ends with 0 passes only the row that wants that."""
        wanted = [("silent", b"", 0), ("text", b"ok\n", 0), ("status", b"", 1)]
        made = [rows.Row(name, self.folder, [b"check"], output, status=status) for name, output, status in wanted]
        said = io.StringIO()
        with mock.patch.object(rows, "all_rows", lambda room: iter(made)), redirect_stdout(said):
            self.assertEqual(page.run_rows(SILENT), (1, 2))
        self.assertEqual(said.getvalue(), "text: other text\nstatus: status 0, not 1\n")

    def test_calls_by_pointer_choose_by_number(self) -> None:
        """A module of LLVM with a table of functions: no address of one is left, nor a call by pointer."""
        text = page_module.without_pointers(BY_POINTER)
        self.assertIn("@table = private constant <{ ptr, ptr }> <{ ptr inttoptr (i64 1 to ptr), ptr inttoptr (i64 2 to ptr) }>", text)
        self.assertIn('%r1 = call noundef i8 @"chooser 1"(ptr %r0, i64 noundef 7)', text)
        self.assertIn("switch i64 %number, label %none [ i64 1, label %f1 i64 2, label %f2 ]", text)
        for number, name in ((1, "one"), (2, "two")):
            self.assertIn(f'f{number}:\n  %answer{number} = call noundef i8 @"{name}"(i64 noundef %a0)\n  ret i8 %answer{number}\n', text)


class Views(InFolder):
    """What each browser is tried on."""

    kind: type[Browser]
    browser: Browser

    @classmethod
    def setUpClass(cls) -> None:
        if not os.path.exists(PAGE):
            raise unittest.SkipTest("program/j39plan.html isn't there: ./dev program")
        if not cls.kind.is_there():
            raise unittest.SkipTest(f"{cls.kind.name} or its driver isn't there: apt-get install {' '.join(cls.kind.packages)}")
        cls.browser = cls.kind()
        cls.addClassCleanup(cls.browser.close)

    def setUp(self) -> None:
        super().setUp()
        self.browser.go(f"file://{PAGE}")
        self.browser.until(f"{SAID} === 'ready'")

    def text(self, element: str) -> str:
        """What an element shows."""
        return str(self.browser.script("return document.getElementById(arguments[0]).innerText", element))

    def shows(self, element: str, *texts: str) -> None:
        """Waits until an element shows texts."""
        for text in texts:
            self.browser.until("document.getElementById(arguments[0]).innerText.includes(arguments[1])", element, text)

    def take(self, name: str) -> None:
        """Chooses an example."""
        self.browser.script("const list = document.getElementById('example'); list.value = arguments[0]; list.dispatchEvent(new Event('change'))", name)

    def put(self, element: str, value: str) -> None:
        """Writes into a field, as if one typed."""
        self.browser.script("const it = document.getElementById(arguments[0]); it.value = arguments[1]; it.dispatchEvent(new Event('input'))", element, value)

    def press(self, element: str, keys: str) -> None:
        """Presses keys on an element."""
        found = self.browser.call("FindElement", "element", using="css selector", value=f"#{element}")[ELEMENT]
        self.browser.call("ElementSendKeys", f"element/{found}/value", id=found, text=keys)

    def click(self, element: str) -> None:
        self.browser.script("document.getElementById(arguments[0]).click()", element)

    def rows(self, element: str) -> list[list[str]]:
        """The cells of the tables in an element."""
        told = self.browser.script("return [...document.querySelectorAll(`#${arguments[0]} tbody tr`)].map((row) => [...row.cells].map((cell) => cell.innerText))",
                                   element)
        return [[str(cell) for cell in row] for row in told]

    def test_a_plan_is_checked_as_one_types(self) -> None:
        self.shows("findings", "ok 2 units 1 groups 1 flows")
        plan = text_of(example("findings/f02_same_fixed_address.toml"))
        self.put("text", plan)
        self.shows("findings", "F2 SameFixedAddress ENGINE RETARDER 0", "give RETARDER ENGINE", "findings 1")
        line = [number for number, text in enumerate(plan.splitlines(), 1) if text == "address = 0"][1]
        self.shows("findings", f"line {line}")
        self.assertIn(f"● {line}\n", self.text("gutter"))
        self.browser.script("document.querySelector('#findings button').click()")
        self.assertEqual(self.browser.script("const it = document.getElementById('text'); return it.value.slice(it.selectionStart, it.selectionEnd)"), "address = 0")

    def test_bad_plans_are_refused_at_their_line(self) -> None:
        self.put("text", "version = 4\n\n[[unit]]\nlabel = ENGINE\n[[unit\n")
        self.shows("findings", "refused Text", "line 5")
        self.put("text", text_of(example("first_plan.toml")).replace("address = 23", "address = 254"))
        self.shows("findings", "refused Range unit 2 key address", "line 11")
        self.assertEqual(self.text("answers"), "")

    def test_times_are_bars_with_the_fullest_first(self) -> None:
        self.take("axle.toml")
        self.shows("answers", "Bus load 12.9 %: 32160 of 250000 bits a second", "Response times")
        self.assertEqual([row[0] for row in self.rows("answers")[:3]], ["flow 2 EEC1 ENGINE all", "flow 1 TSC1 RETARDER ENGINE", "flow 3 ET1 ENGINE all"])
        self.assertEqual(self.rows("answers")[0][2], "1.92 ms of 10 ms")
        self.assertIn(["ENGINE", "0", "single", "stays 0", "manufacturer 310, function 0", ""], self.rows("answers"))

    def test_switches_of_a_line_lead_to_its_variant(self) -> None:
        self.take("line.toml")
        self.shows("variant", "1 of 3")
        for choice, label in ((0, "DETROIT"), (1, "RETARDER")):
            self.browser.until("document.querySelectorAll(`input[name=choice${arguments[0]}]`).length", choice)
            self.browser.script("const at = arguments; [...document.querySelectorAll(`input[name=choice${at[0]}]`)].find((it) => it.parentElement.innerText === at[1]).click()",
                                choice, label)
        self.shows("variant", "variant line.toml DETROIT RETARDER")
        self.assertEqual(self.rows("variant")[0], ["units", "2 of 3", "D, R", "C"])
        self.browser.script("[...document.querySelectorAll('input[name=choice2]')].at(-1).click()")
        self.shows("variant", "refused variant Never")

    def test_a_vehicle_has_its_plans(self) -> None:
        folder = example("three_buses")
        self.browser.pick(*(os.path.join(folder, f"{name}.toml") for name in ("truck", "powertrain", "cab", "telematics")))
        self.shows("findings", "ok 3 buses 2 gateways 13 forwards 13 needs")
        self.assertIn(["POWERTRAIN", "ok 6 units 7 groups 8 flows", " Bus load 3.8 %: 18880 of 500000 bits a second"], self.rows("answers"))
        self.shows("answers", "12120.88 ms of 15000 ms")

    def test_a_schedule_runs_forwards_and_back(self) -> None:
        self.browser.pick(*map(example, CONTEST))
        self.shows("state", "After step 0 of 5", "all units are off")
        for _ in range(2):
            self.click("forward")
        self.shows("state", "After step 2 of 5: up B", "not settled", "claims from B to A", "claim B@128")
        self.assertEqual(self.rows("state")[:2], [["A", "on", "128"], ["B", "on", "128"]])
        self.click("end")
        self.shows("state", "After step 5 of 5: give B A")
        self.assertEqual(self.rows("state")[:2], [["A", "on", "128"], ["B", "on", "129"]])
        self.assertNotIn("undelivered", self.text("state"))
        self.press("step", LEFT)
        self.shows("state", "After step 4 of 5: give A B", "claim B@129")
        self.put("schedule", "up A\nup A\n")
        self.click("end")
        self.shows("state", "refused line 2 AlreadyStarted")

    def test_a_log_is_a_table_that_one_filters(self) -> None:
        self.browser.pick(example("two_units_one_address.toml"), example(DRIVE))
        self.shows("rows", "Rows 1 to 7 of 7")
        self.assertEqual(self.rows("rows")[0], ["1", "10.000", "group EEC1 from ENGINE?@0 to all flow 1 bytes FFFFFFE02EFFFFFF", "SPN190 value 1500 rpm"])
        self.put("unit", "RIGHT")
        self.shows("rows", "of 4")
        self.assertEqual([row[0] for row in self.rows("rows")], ["2", "3", "5", "7"])
        self.put("group", "EBC2")
        self.shows("rows", "of 2")
        self.put("from", "10.5")
        self.shows("rows", "of 1")
        self.assertEqual(self.rows("rows")[0][:2], ["7", "10.560"])

    def test_signals_and_addresses_are_drawn(self) -> None:
        self.browser.pick(example("two_units_one_address.toml"), example(DRIVE))
        self.shows("rows", "of 7")
        self.browser.script("document.querySelector('details').open = true")
        self.shows("held", "129")
        spans = [["RIGHT", "128", "10.010", "10.300"], ["LEFT", "128", "10.300", "10.560"], ["RIGHT", "129", "10.301", "10.560"]]
        self.assertEqual(self.rows("held"), spans)
        self.browser.script("const list = document.getElementById('signals'); list.value = 'EEC1.SPN190'; list.dispatchEvent(new Event('change'))")
        self.shows("legend", "EEC1.SPN190 of ENGINE: 1 values, 1500 to 1500")
        painted = "const it = document.getElementById(arguments[0]); return it.getContext('2d').getImageData(0, 0, it.width, it.height).data.some(Boolean)"
        self.assertEqual([self.browser.script(painted, name) for name in ("curves", "addresses")], [True, True])

    def test_a_log_is_audited(self) -> None:
        self.browser.pick(example("two_units_one_address.toml"), example(DRIVE))
        self.shows("rows", "of 7")
        self.click("audit")
        self.shows("audited", "deviations 0", "unit RIGHT frames 1")

    def test_a_log_that_is_cut_has_a_bad_line(self) -> None:
        whole = text_of(example(DRIVE)).split("\n(10.600)", maxsplit=1)[0]
        cut = self.write("cut.log", whole.removesuffix("FFFFFFF R"))
        self.browser.pick(example("two_units_one_address.toml"), cut)
        self.browser.until(f"{SAID}.startsWith('6 frames, 1 bad lines')")
        self.shows("ends", "frames 6 skipped 0 bad 1")

    def test_files_of_another_kind_are_named(self) -> None:
        for name in ("picture.toml", "picture.log"):
            with open(self.path(name), "wb") as file:
                file.write(b"\x89PNG\r\n\x1a\n" + bytes(range(256)) * 16)
        self.browser.pick(self.path("picture.toml"))
        self.browser.until(f"{SAID} === \"picture.toml: it isn't text in UTF-8\"")
        self.shows("findings", "ok 2 units")
        self.browser.pick(self.path("picture.log"))
        self.browser.until(f"{SAID}.startsWith('picture.log has no frame of 29 bits in')")

    def test_the_page_is_usable_while_a_log_is_read_and_stops(self) -> None:
        lines = text_of(example("tractor_and_implement.start.log"))
        big = self.write("big.log", lines * (BIG // len(lines) + 1))
        self.browser.pick(example("tractor_and_implement.toml"), big)
        self.browser.until("document.getElementById('progress').value > 0")
        self.put("text", text_of(example("first_plan.toml")))
        self.shows("findings", "ok 2 units 1 groups 1 flows")
        self.click("again")
        self.click("stop")
        self.browser.until(f"{SAID} === 'The log was left before its end.'")
        self.put("text", text_of(example("tractor_and_implement.toml")))
        self.click("again")
        counted = program.call(["follow", example("tractor_and_implement.toml"), big])[1].splitlines()[-1].split()
        self.browser.until(f"{SAID}.startsWith(arguments[0])", f"{counted[1]} frames, {counted[5]} bad lines")

    def test_a_page_that_was_left_open_tells_that_a_log_has_gone(self) -> None:
        log = self.write("gone.log", text_of(example(DRIVE)))
        self.browser.pick(example("two_units_one_address.toml"), log)
        self.shows("rows", "of 7")
        os.remove(log)
        self.click("again")
        self.browser.until(f"{SAID}.startsWith(\"gone.log can't be read to its end any more\")")
        self.put("text", text_of(example("first_plan.toml")))
        self.shows("findings", "ok 2 units 1 groups 1 flows")

    def test_the_keys_lead_through_the_views(self) -> None:
        shown = "return [...document.querySelectorAll('[role=tabpanel]')].filter((it) => it.checkVisibility()).map((it) => it.id)"
        for before, keys, after in (("plan", RIGHT, "run"), ("run", LEFT, "plan"), ("plan", LEFT, "about")):
            self.press(f"tab-{before}", keys)
            self.assertEqual(self.browser.script(shown), [after])

    def test_each_control_has_a_name(self) -> None:
        """As a screen reader has it."""
        self.browser.pick(example("two_units_one_address.toml"), example(DRIVE))
        self.shows("rows", "of 7")
        for tab in ("plan", "run", "log"):
            self.click(f"tab-{tab}")
            found = self.browser.call("FindElements", "elements", using="css selector", value="button, input, select, textarea, meter, progress, canvas")
            shown = [it for it in found if self.browser.script("return arguments[0].checkVisibility()", it)]
            for it in shown:
                label = self.browser.call("GetComputedLabel", f"element/{it[ELEMENT]}/computedlabel", id=it[ELEMENT])
                self.assertTrue(label, self.browser.script("return arguments[0].outerHTML", it))
            self.assertGreater(len(shown), 10)

    def test_nothing_is_sent(self) -> None:
        asked: list[str] = []

        class Listener(http.server.BaseHTTPRequestHandler):
            """Notes what it is asked for."""

            def do_GET(self) -> None:  # noqa: N802
                asked.append(self.path)

            do_POST = do_GET

        with http.server.HTTPServer(("127.0.0.1", 0), Listener) as server, contextlib.ExitStack() as stack:
            thread = threading.Thread(target=server.serve_forever)
            thread.start()
            stack.callback(thread.join)
            stack.callback(server.shutdown)
            url = f"http://127.0.0.1:{server.server_address[1]}/"
            self.browser.script("""
                const [url] = arguments, tell = (what) => document.body.dataset.told += ` ${what}`, worker = new Worker(URL.createObjectURL(new Blob([`fetch("${url}worker").catch(() => postMessage(1))`])));
                worker.onmessage = () => tell("worker");
                document.addEventListener("securitypolicyviolation", (event) => tell(event.effectiveDirective));
                fetch(url).catch(() => tell("fetch"));
                Object.assign(new Image(), { src: url + "image" });
                navigator.sendBeacon(url + "beacon", "1");
                document.body.append(Object.assign(document.createElement("script"), { src: url + "script" }));
            """, url)
            self.browser.until("['worker', 'fetch', 'img-src', 'connect-src', 'script-src-elem'].every((it) => (document.body.dataset.told ?? '').includes(it))")
        self.assertEqual(asked, [])


class InChromium(Views):
    kind = Chromium

    def test_dark_screens_and_paper(self) -> None:
        colour = "return getComputedStyle(document.body).backgroundColor"
        self.assertEqual(self.browser.script(colour), "rgb(255, 255, 255)")
        self.media(features=[{"name": "prefers-color-scheme", "value": "dark"}])
        self.assertLess(max(map(int, re.findall(r"\d+", self.browser.script(colour))[:3])), 64)
        self.media(media="print")
        self.browser.script("dispatchEvent(new Event('beforeprint'))")
        shown = "return ['files', 'tabs', 'text', 'printed'].filter((id) => document.getElementById(id).checkVisibility())"
        self.assertEqual(self.browser.script(shown), ["printed"])
        self.assertEqual(self.browser.script("return document.getElementById('printed').textContent"), text_of(example("first_plan.toml")))
        self.media(media="", features=[])

    def media(self, **how: object) -> None:
        """Has the page believe in a medium."""
        self.browser.call("", "goog/cdp/execute", cmd="Emulation.setEmulatedMedia", params=how)


class InFirefox(Views):
    kind = Firefox


class Lacking(unittest.TestCase):
    def test_a_browser_that_lacks_something_is_told_so(self) -> None:
        if not os.path.exists(PAGE) or not Firefox.is_there():
            self.skipTest("program/j39plan.html or Firefox isn't there")
        browser = Firefox(lacks_wasm=True)
        self.addCleanup(browser.close)
        browser.go(f"file://{PAGE}")
        browser.until(f"{SAID}.startsWith('This browser lacks WebAssembly: see About')")


# the tests are those of each browser
del Views
