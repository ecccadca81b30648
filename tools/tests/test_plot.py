"""Pictures of a log: what is drawn, where nothing is, and what is refused."""

import importlib.util
import math
import os
import random
import shutil
import subprocess
import sys
import unittest
import xml.etree.ElementTree as ElementTree
from typing import Any

from j39plan import program
from j39plan.log.clock import ends_of
from j39plan.log.curves import AddressSpan, Timeline, curves_of
from j39plan.log.files import Log
from j39plan.log.readings import Choice, ReadingChoice
from j39plan.log.reports import Counts, follow, tables_of
from tests.support import TOOLS, InFolder, example, needs, run, signal

PLAN = example("tractor_and_implement.toml")

# Speed and temperature, the temperature absent and then faulty; the sprayer moves, since another unit takes its address away.
LINES = [
    "(100.0) can0 18EEFF00#1120C32600000000", "(100.5) can0 0CF00400#F07D8C0019FFFFFF", "(101.0) can0 18FEEE00#7DFFFFFFFFFFFFFF",
    "(102.0) can0 18FEEE00#FFFFFFFFFFFFFFFF", "(103.0) can0 18FEEE00#FEFFFFFFFFFFFFFF", "(104.0) can0 18FEEE00#7EFFFFFFFFFFFFFF",
    "(104.5) can0 0CF00403#F07D8C0032FFFFFF", "(105.0) can0 18EEFF80#7856341200000000", "(105.5) can0 18EEFF81#1240A05B00800CA0",
    "(107.0) can0 18EEFFFE#1240A05B00800CA0", "(110.0) can0 0CF00400#F07D8C0019FFFFFF",
]


class WithLog(InFolder):
    def setUp(self) -> None:
        super().setUp()
        self.log = self.write("drive.log", "".join(f"{line}\n" for line in LINES))


class Told(WithLog):
    def told(self, log: str, *names: str) -> tuple[dict[Any, Any], Any]:
        """The curves of a log, and who held which address."""
        tables = tables_of(PLAN)
        timeline = Timeline(tables.units)
        with Log([log]) as file:
            wanted = ReadingChoice(Choice(tables, names), lambda _, label, reading: (label, reading))
            curves = curves_of(timeline.passed(follow(PLAN, file, tables, Counts())), wanted, timeline.clock)
        return {(curve.group, curve.signal, curve.sender): curve for curve in curves}, timeline.held()

    def test_curves_have_gaps(self) -> None:
        """No value where a signal is absent or faulty, and the time of each such state; each sender has its own curve."""
        curves, _ = self.told(self.log, "SPN110", "SPN190")
        heat = curves["ET1", "SPN110", "ENGINE"]
        self.assertEqual(list(heat.times), [101.0, 102.0, 103.0, 104.0])
        self.assertEqual([None if math.isnan(value) else value for value in heat.values], [85.0, None, None, 86.0])
        self.assertEqual({state: list(times) for state, times in heat.states.items()}, {"absent": [102.0], "fault": [103.0]})
        self.assertEqual(list(curves["EEC1", "SPN190", "TRANSMISSION?"].values), [1600.0])
        self.assertEqual(len(curves), 3)

    def test_who_held_which_address(self) -> None:
        _, held = self.told(self.log)
        self.assertEqual([part for part in held if part.address in (0, 128, 129)], [
            AddressSpan(0, "ENGINE", 100.0, 110.0, True), AddressSpan(128, "SPRAYER", 100.0, 105.0, False),
            AddressSpan(128, "#0000000012345678", 105.0, 110.0, True), AddressSpan(129, "SPRAYER", 105.5, 107.0, True),
        ])
        self.assertEqual([part for part in held if part.address == 3], [AddressSpan(3, "TRANSMISSION", 100.0, 110.0, False)])

    def test_claims_of_what_is_held(self) -> None:
        """Each is told with its time: of a unit that restarts, or is asked."""
        log = self.write("restart.log", "".join(f"{line}\n" for line in (LINES[0], LINES[1], LINES[0].replace("100.0", "103.0"), *LINES[7:9],
                                                                         LINES[8].replace("105.5", "106.0"), LINES[9], LINES[10])))
        _, held = self.told(log)
        self.assertEqual([(part.address, part.start, part.again) for part in held if part.again], [(0, 100.0, (103.0,)), (129, 105.5, (106.0,))])

    def test_without_times(self) -> None:
        """The lines count."""
        bare = self.write("bare.log", "\n18FEEE00#7DFFFFFFFFFFFFFF\n18FEEE00#7DFFFFFFFFFFFFFF\n")
        self.assertEqual(list(self.told(bare, "SPN110")[0]["ET1", "SPN110", "ENGINE?"].times), [2.0, 3.0])

    def test_clocks_that_are_set(self) -> None:
        """A curve goes on as if they weren't, and the addresses with it; that is said once."""
        lines = ["(12.0) can0 18FEEE00#7DFFFFFFFFFFFFFF", "(13.0) can0 18FEEE00#7EFFFFFFFFFFFFFF",
                 "(1764230400.0) can0 18FEEE00#7FFFFFFFFFFFFFFF", "(1764230401.5) can0 18EEFF80#7856341200000000",
                 "(5.0) can0 18FEEE00#80FFFFFFFFFFFFFF", "(7.0) can0 18FEEE00#81FFFFFFFFFFFFFF"]
        log = self.write("jump.log", "".join(f"{line}\n" for line in lines))
        curves, held = self.told(log, "SPN110")
        self.assertEqual(list(curves["ET1", "SPN110", "ENGINE?"].times), [12.0, 13.0, 13.0, 14.5, 16.5])
        self.assertIn(AddressSpan(128, "#0000000012345678", 14.5, 16.5, True), held)
        if importlib.util.find_spec("matplotlib"):
            said = f"plot: {log}:3: time jumps by 20419.3 days; times go back or jump 2 times in all\n"
            self.assertEqual(run("plot.py", PLAN, log, "SPN110", "-o", self.path("a.svg")), (0, "", said))

    def test_several_logs(self) -> None:
        """One behind the other, also where the first ends without a line feed."""
        first, second = self.write("a.log", "\n".join(LINES[:4])), self.write("b.log", "\n".join(LINES[4:]))
        tables = tables_of(PLAN)
        timeline = Timeline(tables.units)
        with Log([first, second]) as log:
            wanted = ReadingChoice(Choice(tables, ["SPN110"]), lambda _, label, reading: (label, reading))
            curves = curves_of(timeline.passed(follow(PLAN, log, tables, Counts())), wanted, timeline.clock)
            self.assertEqual(ends_of(log), (100_000_000_000, 110_000_000_000))
            self.assertEqual([log.place(line) for line in (1, 4, 5, 11)], [(first, 1), (first, 4), (second, 1), (second, 7)])
        self.assertEqual(list(curves[0].times), [101.0, 102.0, 103.0, 104.0])

    def test_what_is_refused(self) -> None:
        for words, status, said in (
            (["SPN190", "-o", self.path("a.txt")], 2, f"plot: {self.path('a.txt')}: the file's name ends in .png or .svg\n"),
            (["-o", self.path("a.png")], 2, "plot: nothing to draw: name a signal, or --addresses\n"),
        ):
            self.assertEqual(run("plot.py", PLAN, self.log, *words), (status, "", said))
        self.assertEqual(run("plot.py", PLAN, self.log, "SPN190")[0], 2)

    def test_without_matplotlib(self) -> None:
        ended = subprocess.run([sys.executable, "-S", os.path.join(TOOLS, "plot.py"), PLAN, self.log, "SPN190", "-o", self.path("a.png")],
                               capture_output=True, text=True, check=False, env={**os.environ, "J39PLAN": program.path(), "PYTHONPATH": ""})
        self.assertEqual((ended.returncode, ended.stderr), (69, "plot: matplotlib isn't there: apt-get install python3-matplotlib\n"))
        self.assertFalse(os.path.exists(self.path("a.png")))


@needs("matplotlib", "python3-matplotlib")
class Drawn(WithLog):
    def drawn(self, name: str, *words: str, log: str | None = None, plan: str = PLAN) -> bytes:
        """The bytes of a picture."""
        self.assertEqual(run("plot.py", plan, log or self.log, *words, "-o", self.path(name)), (0, "", ""))
        with open(self.path(name), "rb") as file:
            return file.read()

    def texts(self, picture: bytes) -> list[str]:
        """The texts in an SVG file, in order."""
        return ["".join(part.itertext()) for part in ElementTree.fromstring(picture).iter("{http://www.w3.org/2000/svg}text")]

    def test_a_png(self) -> None:
        picture = self.drawn("a.png", "SPN190")
        self.assertEqual(picture[:8], b"\x89PNG\r\n\x1a\n")
        self.assertGreater(len(picture), 5000)
        self.assertEqual(picture, self.drawn("b.png", "SPN190"))

    def test_an_svg_has_signals_units_and_states(self) -> None:
        picture = self.drawn("a.svg", "ET1.SPN110", "EEC1.SPN190")
        texts = self.texts(picture)
        for text in ("EEC1.SPN190", "rpm", "degC", "ENGINE", "TRANSMISSION?", "ENGINE: absent", "ENGINE: fault", "drive.log"):
            self.assertIn(text, texts)
        self.assertLess(texts.index("ET1.SPN110"), texts.index("EEC1.SPN190"))
        self.assertNotIn("address", texts)
        self.assertEqual(picture, self.drawn("b.svg", "ET1.SPN110", "EEC1.SPN190"))

    def test_an_svg_of_addresses(self) -> None:
        texts = self.texts(self.drawn("a.svg", "--addresses"))
        for text in ("address", "129", "SPRAYER", "#0000000012345678", "ENGINE"):
            self.assertIn(text, texts)

    def test_an_svg_of_claims_of_what_is_held(self) -> None:
        """A stroke for each, but for those that would lie on one another."""
        again = [LINES[0].replace("100.0", time) for time in ("103.001", "103.002", "104.0")]
        log = self.write("again.log", "".join(f"{line}\n" for line in (*LINES[:2], *again, LINES[10])))
        for begin, strokes in (("0", 2), ("3.5", 1)):
            picture = ElementTree.fromstring(self.drawn("a.svg", "--addresses", "--from", begin, log=log))
            drawn = [list(part) for part in picture.iter() if part.get("id", "").startswith("LineCollection")]
            self.assertEqual([len(paths) for paths in drawn], [strokes])
        picture = ElementTree.fromstring(self.drawn("a.svg", "--addresses"))
        self.assertFalse([part for part in picture.iter() if part.get("id", "").startswith("LineCollection")])

    def test_what_the_axis_counts(self) -> None:
        """Seconds, and lines in a log without times."""
        self.assertIn("time in s from the log's first frame, at 100.000000", self.texts(self.drawn("a.svg", "SPN110")))
        bare = self.write("bare.log", "".join(f"{line.split()[-1]}\n" for line in LINES))
        for words in (["SPN110"], ["--addresses"]):
            texts = self.texts(self.drawn("b.svg", *words, log=bare))
            self.assertIn("lines of the log", texts)
            self.assertNotIn("time in s", "".join(texts))

    def test_what_is_not_in_the_log(self) -> None:
        status, _, said = run("plot.py", PLAN, self.log, "SPN544", "-o", self.path("a.svg"))
        self.assertEqual((status, said), (0, "plot: EC1.SPN544 isn't in the log\n"))
        with open(self.path("a.svg"), "rb") as file:
            self.assertIn("not in the log", self.texts(file.read()))

    def test_what_has_no_curve(self) -> None:
        """Records and texts are said, whatever the log has of them, and get no place in the picture."""
        plan, log, picture = example("trouble_codes.toml"), example("trouble_codes.drive.log"), self.path("a.svg")
        self.assertEqual(run("plot.py", plan, log, "DM1", "-o", picture), (0, "", "plot: DM1.DTC is repeated, and isn't drawn\n"))
        with open(picture, "rb") as file:
            texts = self.texts(file.read())
        self.assertIn("DM1.SPN624", texts)
        self.assertNotIn("DM1.DTC", texts)
        plan, log = example("identification.toml"), example("identification.start.log")
        said = "plot: VI.SPN237 is a text, and isn't drawn\n"
        self.assertEqual(run("plot.py", plan, log, "VI", "-o", self.path("b.svg")), (2, "", said + "plot: nothing to draw\n"))
        self.assertFalse(os.path.exists(self.path("b.svg")))
        self.assertEqual(run("plot.py", plan, log, "VI", "--addresses", "-o", self.path("b.svg")), (0, "", said))

    def test_an_empty_log_and_an_empty_plan(self) -> None:
        empty = self.write("empty.log", "")
        self.assertEqual(run("plot.py", PLAN, empty, "--addresses", "-o", self.path("a.svg")), (0, "", f"plot: {empty} has no frame\n"))
        self.assertTrue(os.path.exists(self.path("a.svg")))
        self.drawn("b.svg", "--addresses", plan=self.write("plan.toml", "version = 1\n"))

    def test_what_cannot_be_read_or_written(self) -> None:
        self.assertEqual(run("plot.py", PLAN, self.log, "SPN19", "-o", self.path("a.png"))[0], 2)
        self.assertEqual(run("plot.py", PLAN, self.folder, "SPN190", "-o", self.path("a.png")),
                         (4, "", f"plot: {self.folder}: Is a directory\n"))
        self.assertEqual(run("plot.py", PLAN, self.log, "SPN190", "-o", "/none/a.png")[0], 4)
        refused = self.write("plan.toml", "version = 9\n")
        self.assertEqual(run("plot.py", refused, self.log, "SPN190", "-o", self.path("a.png")),
                         (2, "", f"plot: {refused}:1: refused Range top key version  (version = 9: integer 1..4)\n"))

    @unittest.skipUnless(shutil.which("chromium"), "chromium isn't there: apt-get install chromium")
    def test_the_pictures_of_the_pages(self) -> None:
        """They can be made anew, as large as they are."""
        ended = subprocess.run([sys.executable, os.path.join(TOOLS, "pictures"), self.folder], capture_output=True, text=True, check=False,
                               env={**os.environ, "J39PLAN": program.path()})
        self.assertEqual((ended.returncode, ended.stdout, ended.stderr), (0, "", ""))
        for name, width in (("plot.png", 1000), ("report.png", 1120)):
            with open(self.path(name), "rb") as file:
                head = file.read(24)
            self.assertEqual((head[:8], int.from_bytes(head[16:20], "big")), (b"\x89PNG\r\n\x1a\n", width))

    def test_lines_end_where_nothing_came(self) -> None:
        """For ten times the usual distance and a second: there no line is drawn, and one begins anew."""
        from j39plan.log.chart import broken

        times = [0.0, 0.1, 0.2, 0.3, 1.3, 1.4, 2.5, 2.6]
        values = [1.0, 2.0, 3.0, 4.0, 5.0, 6.0, 7.0, 8.0]
        line, heights = broken(list(range(8)), times, values)
        self.assertEqual(line, [0.0, 0.1, 0.2, 0.3, 1.3, 1.4, 1.4, 2.5, 2.6])
        self.assertEqual([None if math.isnan(height) else height for height in heights], [1, 2, 3, 4, 5, 6, None, 7, 8])
        self.assertEqual(broken([0, 3, 4, 7], times, values)[0], [0.0, 0.3, 1.3, 2.6])  # what was left out to draw less is no silence
        slow = [0.0, 60.0, 120.0, 500.0]
        self.assertEqual(broken([0, 1, 2, 3], slow, values)[0], slow)

    def test_claims_narrower_than_a_column_are_one_box(self) -> None:
        from j39plan.log.chart import merged

        fight = [AddressSpan(128, ("PUMP", "#0000000000000003")[number % 2], 5 + number / 100, 5 + (number + 1) / 100, True) for number in range(500)]
        held = [AddressSpan(128, "PUMP", 0.0, 5.0, True), *fight, AddressSpan(128, "PUMP", 10.0, 20.0, True), AddressSpan(129, "PUMP", 0.0, 0.01, True)]
        self.assertEqual(merged(held, 0.05), [(held[0], 1), (AddressSpan(128, "PUMP", 5.0, 10.0, True), 500), (held[-2], 1), (held[-1], 1)])
        self.assertEqual(merged(held, 0.001), [(part, 1) for part in held])

    def test_an_address_fight_is_drawn(self) -> None:
        """Ten thousand claims are a box with their number, and no work for each."""
        lines = [f"({1 + number / 200:.3f}) can0 {('18EEFF80#1240A05B00800CA0', '18EEFF80#7856341200000000')[number % 2]}\n" for number in range(10000)]
        log = self.write("fight.log", "".join(lines) + "(200.0) can0 18FEEE00#7DFFFFFFFFFFFFFF\n")
        self.assertIn("10000 times claimed", self.texts(self.drawn("a.svg", "--addresses", log=log)))

    def test_units_have_one_colour(self) -> None:
        """In each signal and in their boxes, ten of them before lines are dashed."""
        from j39plan.log.chart import Colours

        colours = Colours()
        units = [f"U{number}" for number in range(25)]
        given = [colours.of(unit) for unit in units]
        self.assertEqual(len(set(given)), 25)
        self.assertEqual([line for _, line in given], ["-"] * 10 + ["--"] * 10 + ["-."] * 5)
        self.assertEqual(colours.of("U3"), given[3])

    def test_strangers_are_named(self) -> None:
        """By `#` and the NAME, in the legend and at their boxes, also where these are narrow."""
        lines = ["(1.0) can0 18EEFF25#04000007D0210003", "(1.1) can0 18FEEE25#7DFFFFFFFFFFFFFF", "(1.5) can0 18EEFF25#1120C32600000000",
                 "(90.0) can0 18FEEE00#7DFFFFFFFFFFFFFF"]
        texts = self.texts(self.drawn("a.svg", "SPN110", "--addresses", log=self.write("a.log", "".join(f"{line}\n" for line in lines))))
        self.assertEqual(texts.count("#030021D007000004"), 2)

    def test_pictures_of_one_log_agree(self) -> None:
        """Whatever is drawn: the axis begins with the log and ends with it."""
        lines = ["(1000.0) can0 18FF1000#00\n", *(f"{line}\n" for line in LINES), "(2000.0) can0 18FF1000#00\n"]
        log = self.write("b.log", "".join(lines[:1] + [line.replace("(1", "(11") for line in lines[1:-1]] + lines[-1:]))
        axes = []
        for words in (["SPN110"], ["SPN190"], ["--addresses"]):
            texts = self.texts(self.drawn("a.svg", *words, log=log))
            self.assertIn("time in s from the log's first frame, at 1000.000000", texts)
            axes.append(texts[:texts.index("time in s from the log's first frame, at 1000.000000")])
        self.assertEqual(axes, [["0", "200", "400", "600", "800", "1000"]] * 3)

    def test_values_have_their_names(self) -> None:
        """At the axis, where they are few; of a signed signal by the numbers that its bits spell, and in the unit that is shown."""
        head = 'version = 4\n[[group]]\nlabel = "G"\npgn = 65267\npriority = 6\nlength = 8\n'
        plan = self.write("plan.toml", head + signal("MODE", 1, 4, "states", 'values = { 0 = "idle", 1 = "cruise", 7 = "unseen" }\n')
                          + signal("TURN", 2, 8, "signed", 'unit = "1/2 deg"\nvalues = { 254 = "left", 2 = "right" }\n'))
        frames = [f"({number}.0) can0 18FEF300#F{mode}{turn}FFFFFFFFFFFF\n" for number, (mode, turn) in enumerate([(0, "FE"), (1, "02"), (3, "04")], 1)]
        texts = self.texts(self.drawn("a.svg", "MODE", "TURN", log=self.write("a.log", "".join(frames)), plan=plan))
        for text in ("idle 0", "cruise 1", "3", "left -1", "right 1", "2"):
            self.assertIn(text, texts)
        self.assertNotIn("unseen 7", texts)
        many = "".join(f"({number}.0) can0 18FEF300#FF{number:02X}FFFFFFFFFFFF\n" for number in range(20))
        self.assertNotIn("right 1", self.texts(self.drawn("b.svg", "TURN", log=self.write("b.log", many), plan=plan)))

    def test_who_is_not_sure_looks_otherwise(self) -> None:
        """The same colour, and another line with other points."""
        from j39plan.log.chart import look_of

        sure, guessed = look_of("ENGINE"), look_of("ENGINE?")
        self.assertTrue(all(sure.get(key) != guessed[key] for key in ("linewidth", "marker", "alpha")))
        lines = ["(1.0) can0 18FEEE00#7DFFFFFFFFFFFFFF", "(2.0) can0 18EEFF00#1120C32600000000", "(3.0) can0 18FEEE00#7EFFFFFFFFFFFFFF"]
        picture = self.drawn("a.svg", "SPN110", log=self.write("a.log", "".join(f"{line}\n" for line in lines))).decode()
        self.assertEqual(picture.count("stroke: #0072b2; stroke-opacity: 0.6; stroke-width: 0.7"), 2)  # the line, and that of the legend

    def test_what_is_not_in_a_part_is_not_drawn(self) -> None:
        """Neither in the legend nor by the axis: of what came before the part only the value that still holds."""
        lines = [f"({number}.0) can0 18FEEE00#{60 + number:02X}FFFFFFFFFFFFFF" for number in range(10, 20)]
        lines += ["(11.5) can0 18FEEE03#FAFFFFFFFFFFFFFF", "(12.0) can0 18FEEE03#FAFFFFFFFFFFFFFF"]
        log = self.write("a.log", "".join(f"{line}\n" for line in sorted(lines)))
        texts = self.texts(self.drawn("a.svg", "SPN110", "--from", "5.5", "--to", "7.5", log=log))
        self.assertIn("ENGINE?", texts)
        self.assertNotIn("TRANSMISSION?", texts)
        degrees = [float(text) for text in texts if text.isdecimal()]
        self.assertLessEqual({degree for degree in degrees if degree > 8}, set(range(34, 39)))
        self.assertIn("not in this part of the log", self.texts(self.drawn("b.svg", "SPN110", "--from", "9.5", "--to", "9.8", log=log)))

    def test_a_part_of_a_log(self) -> None:
        """By times as the axis has them, with no other labels than the whole."""
        texts = self.texts(self.drawn("a.svg", "SPN110", "--from", "2", "--to", "4"))
        self.assertEqual([text for text in texts if text in ("2.0", "2.00", "4.0", "4.00", "10")], ["2.00", "4.00"])
        self.assertEqual(run("plot.py", PLAN, self.log, "SPN110", "--from", "4", "--to", "4", "-o", self.path("b.svg"))[:2], (2, ""))
        self.assertEqual(run("plot.py", PLAN, self.log, "SPN110", "--from", "x", "-o", self.path("b.svg"))[0], 2)

    def test_axes_have_no_offsets(self) -> None:
        """Values that differ little beside what they have in common are labelled whole."""
        group = '[[group]]\nlabel = "G"\npgn = 65267\npriority = 6\nlength = 8\n' + signal("LAT", 1, 32, "raw")
        plan = self.write("plan.toml", "version = 1\n" + group)
        log = self.write("a.log", "".join(f"({number}.0) can0 18FEF300#{(520000000 + number).to_bytes(4, 'little').hex()}00000000\n" for number in range(9)))
        texts = self.texts(self.drawn("a.svg", "LAT", log=log, plan=plan))
        self.assertIn("520000000", texts)
        self.assertFalse([text for text in texts if "e" in text and text[0] in "+1"])

    def test_many_points_keep_their_extremes(self) -> None:
        from j39plan.log.chart import thinned

        rng = random.Random(5)
        times = sorted(rng.uniform(0, 100) for _ in range(20000))
        values = [math.nan if rng.random() < 0.001 else rng.uniform(-5, 5) for _ in times]
        kept = thinned(times, values, 1.0)
        self.assertEqual(kept, sorted(set(kept)))
        self.assertLessEqual(len(kept), 101 * 5)
        for column in range(100):
            there = [value for time, value in zip(times, values) if time // 1.0 == column and not math.isnan(value)]
            drawn = [values[at] for at in kept if times[at] // 1.0 == column and not math.isnan(values[at])]
            self.assertEqual((min(there), max(there)), (min(drawn), max(drawn)))
        gaps = {time // 1.0 for time, value in zip(times, values) if math.isnan(value)}
        self.assertEqual({times[at] // 1.0 for at in kept if math.isnan(values[at])}, gaps)


if __name__ == "__main__":
    unittest.main()
