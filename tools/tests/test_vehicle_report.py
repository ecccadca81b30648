"""The page of a vehicle: that it is sound HTML, and says what the program says."""

import os
import re
import shutil
import subprocess
import unittest

from j39plan.cli import report
from j39plan.plan import page_server
from tests.support import example, run, text_of, vehicles
from tests.vehicles import ANSWER, B, P, SIGNAL, V, OfVehicles, swapped

TRUCK = example("three_buses/truck.toml")


def names_in(page: str) -> list[str]:
    """The names of the parts of a page."""
    return re.findall(r' id="([^"]*)"', page)


class Page(OfVehicles):
    def page(self, v: str = V, p: str = P, b: str = B) -> str:
        """The page of a vehicle."""
        status, text, said = run("report.py", self.vehicle(v, p, b))
        self.assertEqual((status, said), (0, ""))
        return text

    def test_names_are_there_once_and_links_lead_to_them(self) -> None:
        for page in (self.page(), run("report.py", TRUCK)[1]):
            names = names_in(page)
            self.assertEqual(len(names), len(set(names)))
            for link in re.findall(r'(?:href="#|aria-labelledby="|url\(#)([^")]*)', page):
                self.assertIn(link, names)

    def test_the_buses_stand_side_by_side(self) -> None:
        boxes = self.page().partition('<div class="buses">')[2].partition("\n</div>\n</section>")[0]
        self.assertEqual(re.findall(r'<h3 id="box-\w+">(\w+)</h3>', boxes), ["P", "B"])
        self.assertEqual(boxes.count("ok 2 units 1 groups 1 flows<br>16000 of 250000 bits a second, 6.4 %"), 2)
        self.assertIn('<tr><th scope="row">G</th><td>39</td><td>CGW</td></tr>', boxes)
        self.assertIn('<tr><th scope="row">E</th><td>0</td><td>–</td></tr>', boxes)
        self.assertIn('<a href="#bus-P">p.toml</a>', boxes)

    def test_forwards(self) -> None:
        row = ('<tr><th scope="row">1</th><td>CGW</td><td>P.EEC1</td><td>E</td><td>B.EEC1</td><td>all</td><td>{}</td><td>{}</td><td>{}</td><td>{}</td><td>{}</td></tr>')
        copied = "copied"
        signals = SIGNAL.format("SPN190", "SPN190")
        for cells, v in (
            (("direct", "5 ms", "6.28 ms", "7 ms", copied), V), (("direct", "–", "<strong>not shown</strong>", "7 ms", copied), swapped(V, ("within = 5\n", ""))),
            (("periodic", "5 ms", "–", "–", copied), swapped(V, ("within = 5\n", 'within = 5\nmode = "periodic"\n'))),
            (("direct", "5 ms", "6.28 ms", "7 ms", "SPN190 → SPN190"), swapped(V, ("within = 5\n", f"within = 5\n{signals}"))),
            (("direct", "5 ms", "6.28 ms", "7 ms", "SPN190 → SPN190, nearest"), swapped(V, ("within = 5\n", f"within = 5\n{signals}exact = false\n"))),
            (("direct", "5 ms", "6.28 ms", "7 ms", "none"), swapped(V, ("within = 5\n", "within = 5\nsignal = []\n"))),
        ):
            self.assertIn(row.format(*cells), self.page(v), v)

    def test_needs_and_their_ways(self) -> None:
        page = self.page()
        way = "P.E EEC1 SPN190 → CGW by forward 1, direct → B.G EEC1 SPN190 → B.C"
        self.assertIn('<tr><th scope="row">1</th><td>B.C</td><td>EEC1 SPN190</td><td>P.E</td><td>27.56 ms</td><td>30 ms</td><td>P.E EEC1 SPN190 → CGW (1, direct) → B.C</td></tr>', page)
        self.assertIn("<figcaption>Need 1: EEC1 SPN190 by B.C from P.E, age: 27.56 ms of 30 ms</figcaption>", page)
        self.assertIn(f'role="img" aria-label="{way}"', page)
        figure = page.partition("<figcaption>Need 1")[2].partition("</figure>")[0]
        self.assertEqual((figure.count('<line class="hop"'), figure.count("<circle")), (2, 2))
        self.assertEqual(re.findall(r"<text[^>]*>([^<]*)</text>", figure), ["bus P", "bus B", "CGW, forward 1, direct", "E: EEC1 SPN190", "G to C: EEC1 SPN190"])

    def test_arrows_go_from_bus_to_bus(self) -> None:
        """A step down on the bus on which it is heard, and from there across to the bus on which it is sent."""
        lines = dict(re.findall(r'<line class="(hop)" (.*?) marker-end', self.page()))
        self.assertEqual(lines["hop"], 'x1="0" y1="88" x2="220" y2="88"')
        back = swapped(V, ('label = "P"', 'label = "Z"'), ('label = "B"', 'label = "P"'), ('label = "Z"', 'label = "B"'), ('"p.toml"', '"q.toml"'),
                       ('"b.toml"', '"p.toml"'), ('"q.toml"', '"b.toml"'))
        lines = dict(re.findall(r'<line class="(hop)" (.*?) marker-end', self.page(back)))
        self.assertEqual(lines["hop"], 'x1="220" y1="88" x2="0" y2="88"')

    def test_no_label_is_cut(self) -> None:
        """Each text is within its picture, how long the labels are whatever."""
        long = "A_UNIT_THAT_HAS_A_LABEL_OF_32_CH"
        page = self.page(swapped(V, ('"P.E"', f'"P.{long}"'), ('"B.C"', f'"B.{long}"')), P.replace('"E"', f'"{long}"'), B.replace('"C"', f'"{long}"'))
        pictures = re.findall(r'<svg .*?viewBox="(-?\d+) 0 (\d+) (\d+)"(.*?)</svg>', page, re.DOTALL)
        self.assertEqual(len(pictures), 2)
        for first, width, height, inside in pictures:
            texts = re.findall(r'<text x="(-?\d+)" y="(\d+)" text-anchor="(\w+)">(.*?)</text>', inside)
            self.assertGreater(len(texts), 4)
            for x, y, anchor, said in texts:
                begin = int(x) - {"start": 0, "middle": 7 * len(said) / 2, "end": 7 * len(said)}[anchor]
                self.assertTrue(int(first) <= begin and begin + 7 * len(said) <= int(first) + int(width) and int(y) <= int(height), said)

    def test_the_whole_vehicle(self) -> None:
        """Each bus with its units and their addresses, and each gateway with a dot and its unit at each of its buses."""
        figure = self.page().partition("<figcaption>The vehicle: its buses")[2].partition("</figure>")[0]
        self.assertEqual(sorted(re.findall(r"<text[^>]*>([^<]*)</text>", figure)), ["C 23", "CGW", "E 0", "G", "G", "bus B", "bus P"])
        self.assertEqual((figure.count("<circle"), figure.count('<rect class="gateway"'), figure.count("<rect x=")), (2, 1, 2))
        self.assertIn('aria-label="bus P with E, G; bus B with C, G; gateway CGW as P.G, B.G"', figure)

    def test_units_of_a_gateway_on_one_bus_stand_beside_each_other(self) -> None:
        """One text names them, of many the first ones."""
        status, page, _ = run("report.py", example("three_buses/truck.toml"))
        figure = page.partition("<figcaption>The vehicle: its buses")[2].partition("</figure>")[0]
        texts = re.findall(r'<text x="(-?\d+)" y="(\d+)" [^>]*>([^<]*)</text>', figure)
        self.assertEqual((status, len(texts)), (0, len({(x, y) for x, y, _ in texts})))
        self.assertIn("GATEWAY, ENGINE, TRANSMISSION, 1 more", [said for _, _, said in texts])

    def test_needs_that_are_not_met(self) -> None:
        page = self.page(b=swapped(B, ("byte = 4", "byte = 5")))
        self.assertIn("<td><strong>not met</strong></td><td>30 ms</td><td>–</td></tr>", page)
        self.assertNotIn("<figcaption>Need", page)
        self.assertIn("<td><code>v.toml:20</code></td><td><code>G9 NeedUnmet 1</code></td>", page)
        unknown = self.page(swapped(V, ("within = 5\n", "")))
        self.assertIn("<td><strong>not shown</strong></td><td>30 ms</td>", unknown)
        self.assertIn("<td>–</td><td>–</td><td>P.E", self.page(swapped(V, ("within = 5\n", ""), ("within = 30\n", ""))))

    def test_plans_with_findings(self) -> None:
        """The ways aren't known then, and the page of the bus has the findings."""
        page = self.page(b=swapped(B, ("address = 39", "address = 23")))
        self.assertIn("<p>The plans of the buses have 1 finding.</p>", page)
        self.assertIn("Not known: plans of buses have findings that are to be mended first.", page)
        self.assertIn(f"<code>{self.path('b.toml')}:11</code>", page)
        self.assertIn("<strong>ok</strong>: <code>vehicle</code> found nothing.", self.page())

    def test_the_pages_of_the_plans_are_in_it(self) -> None:
        """Each section of each, under the name of its bus, and a heading lower."""
        page = self.page()
        for bus, plan in (("P", "p.toml"), ("B", "b.toml")):
            own = run("report.py", self.path(plan))[1]
            self.assertEqual([name for name in names_in(page) if name.startswith(f"{bus}-")],
                             [f"{bus}-{name}" for name in names_in(own) if name != "content"])
            inside = page.partition(f'<section id="bus-{bus}"')[2].partition("</details>")[0]
            self.assertEqual([inside.count(f"<h{level + 1} ") for level in (2, 3)], [own.count(f"<h{level} ") for level in (2, 3)])
            text = "<td>39</td><td>in every run</td>"
            self.assertEqual((text in own, text in inside), (True, True))

    def test_one_plan_on_two_buses(self) -> None:
        page = self.page(swapped(V, ('plan = "b.toml"\n', 'plan = "b.toml"\n[[bus]]\nlabel = "C"\nplan = "b.toml"\n')))
        names = names_in(page)
        self.assertEqual((len(names), {"C-units", "B-units"} <= set(names)), (len(set(names)), True))

    def test_a_refused_vehicle_has_no_page(self) -> None:
        name = self.vehicle(swapped(V, ("within = 5\n", "within = 0\n")))
        self.assertEqual(run("report.py", name), (2, "", f"report: {name}:15: refused Range forward 1 key within  (within = 0: integer 1..65535)\n"))
        name = self.vehicle(b="version = 9\n")
        self.assertEqual(run("report.py", name), (2, "", f"report: {self.path('b.toml')}:1: refused Range top key version  (version = 9: integer 1..4)\n"))

    def test_a_vehicle_without_anything(self) -> None:
        page = run("report.py", self.write("v.toml", "version = 1\nbus = []\n"))[1]
        self.assertIn("<p>0 buses, 0 gateways, 0 forwards, 0 needs.</p>", page)

    @unittest.skipUnless(shutil.which("tidy"), "tidy isn't there: apt-get install tidy")
    def test_tidy_has_nothing_to_say(self) -> None:
        pages = [*(run("report.py", name)[1] for name in vehicles()), self.page(b=swapped(B, ("byte = 4", "byte = 5")))]
        for text in pages:
            said = subprocess.run(["tidy", "-q", "-e", self.write("page.html", text)], capture_output=True, text=True, check=False)
            self.assertEqual((said.returncode, said.stderr), (0, ""))

    @unittest.skipUnless(shutil.which("chromium"), "chromium isn't there: apt-get install chromium")
    def test_a_browser_shows_it_without_a_word(self) -> None:
        command = ["chromium", "--headless", "--no-sandbox", "--disable-gpu", "--disable-dev-shm-usage", "--enable-logging=stderr",
                   f"--user-data-dir={self.path('user')}", f"--screenshot={self.path('page.png')}", "--window-size=1000,2000"]
        page = self.write("page.html", run("report.py", TRUCK)[1])
        ended = subprocess.run([*command, f"file://{page}"], stdin=subprocess.DEVNULL, capture_output=True, text=True, check=True, timeout=120)
        self.assertEqual([line for line in ended.stderr.splitlines() if "CONSOLE" in line], [])
        self.assertGreater(os.path.getsize(self.path("page.png")), 20000)


class Watched(OfVehicles):
    def test_it_is_drawn_anew_as_a_plan_is_saved(self) -> None:
        """Or the vehicle's file, or a plan that this names now; else not."""
        name = self.vehicle()
        drawn = page_server.ServedPage(page_server.WatchedFile(name, lambda: report.drawn(name), lambda: report.plans_beside(name)))
        drawn.look()
        first = drawn.number
        drawn.look()
        self.assertEqual(drawn.number, first)
        self.write("b.toml", swapped(B, ("jitter = 7", "jitter = 8")))
        drawn.look()
        second = drawn.number
        self.assertNotEqual(second, first)
        self.assertIn(b"8 ms", drawn.page)
        self.write("c.toml", swapped(B, ("jitter = 7", "jitter = 9")))
        self.write("v.toml", swapped(V, ("b.toml", "c.toml")))
        drawn.look()
        self.assertIn(b"9 ms", drawn.page)
        self.write("c.toml", "version = 9\n")
        drawn.look()
        self.assertIn(b"refused Range top key version", drawn.page)
        self.assertIn(b"9 ms", drawn.page)


class Plans(OfVehicles):
    def test_the_page_of_a_plan_from_a_pipe(self) -> None:
        name = self.write("p.toml", P)
        page = run("report.py", name)[1]
        self.assertEqual(run("report.py", "/dev/stdin", text=P)[1].replace("stdin", "p.toml").replace("/dev/p.toml", name), page)

    def test_what_the_program_answers_is_there(self) -> None:
        self.assertEqual(self.answer(self.vehicle()), (0, ANSWER))
        self.assertIn("POWERTRAIN.ENGINE", text_of(TRUCK))


if __name__ == "__main__":
    unittest.main()
