"""Trouble codes over time: when each comes and goes, by messages that are written here, frame by frame, after SAE J1939-73."""

import csv
import io
import json
import os
import struct
import unittest

from tests.support import InFolder, example, needs, run, text_of

PLAN = text_of(example("trouble_codes.toml")).replace("version = 3", "version = 4") + """period = 1000

[[unit]]
label = "BRAKES"
address = 11
name = { function = 9 }

[[unit]]
label = "TOOL"
address = 249
name = { function = 129 }

[[group]]
label = "DM2"
pgn = 65227
priority = 6
length = 8
most = 1782
every = 4

[[group.signal]]
label = "CODE"
byte = 3
bits = 32
kind = "dtc"
repeated = true

[[flow]]
group = "DM1"
from = "BRAKES"
to = "all"
period = 500

[[flow]]
group = "DM2"
from = "ENGINE"
to = "all"
on_request = true

[[group]]
label = "ET1"
pgn = 65262
priority = 6
length = 8

[[group.signal]]
label = "TEMPERATURE"
byte = 1
bits = 8
kind = "measured"
offset = -40
unit = "degC"
spn = 110
"""


def code(spn: int, fmi: int, count: int, lamps: int = 4) -> str:
    """The data of a message with one code, by conversion method 4: the number's low 16 bits, its high three above the failure mode, the count."""
    return f"{lamps:02X}FF" + struct.pack("<HBB", spn & 0xFFFF, spn >> 16 << 5 | fmi, count).hex().upper() + "FFFF"


def none(lamps: int = 0) -> str:
    """The data of a message without a code."""
    return f"{lamps:02X}FF00000000FFFF"


class Codes(InFolder):
    def log(self, *frames: tuple[float, str, str], name: str = "drive.log") -> str:
        """A log of these frames: of each its time, its identifier and its data."""
        return self.write(name, "".join(f"({time:.6f}) can0 {identifier}#{data}\n" for time, identifier, data in frames))

    def codes(self, *frames: tuple[float, str, str], words: tuple[str, ...] = ("--json",)) -> list[dict[str, object]]:
        """The codes of a log, as objects."""
        status, answer, said = run("codes.py", *words, self.write("plan.toml", PLAN), self.log(*frames))
        self.assertEqual((status, said), (0, ""))
        return [json.loads(line) for line in answer.splitlines()]

    def told(self, *frames: tuple[float, str, str]) -> list[tuple[object, ...]]:
        """Of each code its number, when it came and went, and how it ended."""
        return [(one["spn"], one["came"], one["went"], one["end"]) for one in self.codes(*frames)]


ENGINE, BRAKES, DM2 = "18FECA00", "18FECA0B", "18FECB00"


class Times(Codes):
    def test_a_code_comes_and_goes(self) -> None:
        """It goes with the first message without it, which is known three periods after the last with it. Its count goes from 1 to 2."""
        frames = [(1, ENGINE, none()), (2, ENGINE, code(110, 0, 1)), (3, ENGINE, code(110, 0, 2, lamps=0x14)), *((time, ENGINE, none()) for time in range(4, 9))]
        found, = self.codes(*frames)
        self.assertEqual(found, {"log": self.path("drive.log"), "line": 2, "unit": "ENGINE", "state": "active", "spn": 110, "fmi": 0, "name": "ET1.TEMPERATURE",
                                 "came": 2.0, "went": 4.0, "end": "gone", "first_count": 1, "last_count": 2, "lamps": ["amber", "red"]})

    def test_three_periods(self) -> None:
        """A code that comes again within three periods of 1 s hasn't gone; after more it is another one."""
        for silence, told in ((2.9, [(190, 1.0, 5.0, "gone")]), (3.5, [(190, 1.0, 2.0, "gone"), (190, 4.5, 5.0, "gone")])):
            frames = [(1, ENGINE, code(190, 8, 1)), (2, ENGINE, none()), (1 + silence, ENGINE, code(190, 8, 1)), *((time, ENGINE, none()) for time in (5, 6, 7, 8, 9))]
            self.assertEqual(self.told(*frames), told)

    def test_the_period_is_that_of_the_flow(self) -> None:
        """The brakes send each 500 ms: three periods are 1.5 s."""
        frames = [(1, BRAKES, code(70, 3, 1)), (1.5, BRAKES, none()), (2.6, BRAKES, code(70, 3, 1)), (3.1, BRAKES, none()), (4.2, BRAKES, none())]
        self.assertEqual(self.told(*frames), [(70, 1.0, 1.5, "gone"), (70, 2.6, 3.1, "gone")])

    def test_codes_that_stop_are_told_apart(self) -> None:
        """The engine sends no DM1 any more, so its code isn't known to have gone; that of the brakes is there at the end."""
        frames = [(1, ENGINE, code(110, 0, 1)), (2, ENGINE, code(110, 0, 1)), *((time, BRAKES, code(70, 3, 1)) for time in range(1, 10))]
        self.assertEqual(self.told(*sorted(frames)), [(110, 1.0, 2.0, "silent"), (70, 1.0, 9.0, "open")])
        back = [(1, ENGINE, code(110, 0, 1)), (9, ENGINE, code(110, 0, 1)), (10, ENGINE, none())]
        self.assertEqual(self.told(*back), [(110, 1.0, 1.0, "silent"), (110, 9.0, 9.0, "open")])

    def test_the_log_goes_on_without_the_plan(self) -> None:
        """Frames of no planned group show that the log goes on, too."""
        self.assertEqual(self.told((1, ENGINE, code(110, 0, 1)), (8, "18FEF100", "FF" * 8)), [(110, 1.0, 1.0, "silent")])

    def test_several_codes(self) -> None:
        """Of a long message of two codes: 14 data bytes would be three; 10 are one announcement and two packets."""
        data = "04FF6E000003BE000801"
        long = [(1, "1CECFF00", "200A0002FFCAFE00"), (1.05, "1CEBFF00", f"01{data[:14]}"), (1.1, "1CEBFF00", f"02{data[14:]}FFFFFFFF")]
        self.assertEqual(self.told(*long, (2, ENGINE, code(190, 8, 1)), *((time, ENGINE, code(190, 8, 1)) for time in (3, 4, 5))),
                         [(110, 1.1, 2.0, "gone"), (190, 1.1, 5.0, "open")])


class Clearings(Codes):
    def test_by_whom(self) -> None:
        """DM11 clears active codes: asked of all or of the engine, not of the brakes, and not by DM3; refused it clears none."""
        clear = {"DM11 of all": ("18EAFFF9", "D3FE00", "TOOL"), "DM11 of the engine": ("18EA00F9", "D3FE00", "TOOL"), "of the brakes": ("18EA0BF9", "D3FE00", None),
                 "DM3": ("18EAFFF9", "CCFE00", None)}
        for what, (identifier, data, who) in clear.items():
            with self.subTest(what):
                found, = self.codes((1, ENGINE, code(110, 0, 1)), (1.5, identifier, data), *((time, ENGINE, none()) for time in (2, 3, 4, 5)))
                self.assertEqual((found["end"], found.get("cleared_by"), found.get("cleared_with"), found.get("cleared_line")),
                                 ("gone", who, "DM11" if who else None, 2 if who else None))

    def test_a_refusal(self) -> None:
        """Acknowledgements are told of a plan with requests: the engine says no (1), and the code goes by itself."""
        plan = PLAN + '\n[[request]]\ngroup = "DM2"\nfrom = "TOOL"\nto = "ENGINE"\n'
        for word, cleared in (("00", "TOOL"), ("01", None)):
            log = self.log((1, ENGINE, code(110, 0, 1)), (1.5, "18EA00F9", "D3FE00"), (1.6, "18E8FF00", f"{word}FFFFFFF9D3FE00"),
                           *((time, ENGINE, none()) for time in (2, 3, 4, 5)))
            _, answer, _ = run("codes.py", "--json", self.write("plan.toml", plan), log)
            self.assertEqual(json.loads(answer).get("cleared_by"), cleared, word)

    def test_previously_active(self) -> None:
        """DM2 comes on request: what isn't in the next one has gone, whenever that is. DM3 clears it."""
        found = self.codes((1, DM2, code(110, 0, 5)), (50, "18EA00F9", "CCFE00"), (60, DM2, none()))
        self.assertEqual([(one["state"], one["came"], one["went"], one["end"], one.get("cleared_with")) for one in found],
                         [("previously active", 1.0, 60.0, "gone", "DM3")])


class Forms(Codes):
    FRAMES = [(1, ENGINE, code(110, 0, 1)), (1.5, "18EAFFF9", "D3FE00"), *((time, ENGINE, none()) for time in (2, 3, 4, 5)), (5.5, BRAKES, code(70, 3, 1))]

    def test_text(self) -> None:
        status, answer, _ = run("codes.py", self.write("plan.toml", PLAN), self.log(*self.FRAMES))
        self.assertEqual((status, answer.splitlines()), (0, [
            "line  unit    code                           state    from     to  count  lamps  end",
            "   1  ENGINE  spn 110 fmi 0 ET1.TEMPERATURE  active  1.000  2.000      1  amber  cleared by TOOL (DM11, drive.log:2)",
            "   7  BRAKES  spn 70 fmi 3                   active  5.500  5.500      1  amber  till the end", "", "codes 2"]))

    def test_csv(self) -> None:
        _, answer, _ = run("codes.py", "--csv", self.write("plan.toml", PLAN), self.log(*self.FRAMES))
        first, second = csv.DictReader(io.StringIO(answer))
        self.assertEqual((first["spn"], first["cleared_by"], first["cleared_with"], first["lamps"], second["unit"], second["end"], second["cleared_by"]),
                         ("110", "TOOL", "DM11", "amber", "BRAKES", "open", ""))

    def test_a_fleet(self) -> None:
        """Two vehicles of three have the engine's code, one of them twice."""
        twice = [(1, ENGINE, code(110, 0, 1)), *((time, ENGINE, none()) for time in range(2, 7)), (7, ENGINE, code(110, 0, 2)), *((time, ENGINE, none()) for time in range(8, 13))]
        logs = [self.log(*self.FRAMES, name="a.log"), self.log(*twice, name="b.log"), self.log((1, ENGINE, none()), name="c.log")]
        status, answer, _ = run("codes.py", "--fleet", self.write("plan.toml", PLAN), *logs)
        self.assertEqual((status, answer.splitlines()), (0, [
            "unit    code                           state   vehicles  times  in", "ENGINE  spn 110 fmi 0 ET1.TEMPERATURE  active  2 of 3        3  a.log 1, b.log 2",
            "BRAKES  spn 70 fmi 3                   active  1 of 3        1  a.log 1", "", "codes 2 vehicles 3"]))

    def test_several_logs_are_one_drive(self) -> None:
        """A code that is in the first goes in the second, whose lines are counted anew."""
        first, second = self.log((1, ENGINE, none()), (2, ENGINE, code(110, 0, 1)), name="a.log"), self.log(*((time, ENGINE, none()) for time in (3, 4, 5, 6)), name="b.log")
        _, answer, _ = run("codes.py", "--json", self.write("plan.toml", PLAN), first, second)
        found = json.loads(answer)
        self.assertEqual((found["log"], found["line"], found["went"], found["end"]), (first, 2, 3.0, "gone"))

    def test_without_times(self) -> None:
        """A code goes with the first message without it; the lines are told."""
        log = self.write("drive.log", f"can0 {ENGINE}#{code(110, 0, 1)}\ncan0 {ENGINE}#{none()}\n")
        _, answer, _ = run("codes.py", self.write("plan.toml", PLAN), log)
        self.assertIn("active  line 1  line 2      1  amber  gone", answer)

    @needs("matplotlib", "python3-matplotlib")
    def test_a_picture(self) -> None:
        """A row for each code, whose names are texts of the SVG; the same log gives the same bytes."""
        plan, log = self.write("plan.toml", PLAN), self.log(*self.FRAMES)
        pictures = []
        for name in ("a.svg", "b.svg", "c.png"):
            self.assertEqual(run("codes.py", plan, log, "-o", self.path(name))[0], 0)
            self.assertTrue(os.path.getsize(self.path(name)) > 1000)
        pictures = [text_of(self.path(name)) for name in ("a.svg", "b.svg")]
        self.assertEqual(pictures[0], pictures[1])
        for text in ("ENGINE  spn 110 fmi 0 ET1.TEMPERATURE", "BRAKES  spn 70 fmi 3", "DM11 by TOOL"):
            self.assertIn(f">{text}</text>", pictures[0])

    def test_what_cannot_be_done(self) -> None:
        plan, log = self.write("plan.toml", PLAN), self.log(*self.FRAMES)
        for words, why in (((example("axle.toml"), log), "has no trouble codes: no signal of kind dtc"), ((plan, log, "-o", "x.gif"), "the file's name ends in .png or .svg"),
                           ((plan, log, "--fleet", "-o", "x.png"), "a picture is one of a drive"), ((plan, self.write("none.log", "x\n")), "has no frame, and 1 lines that spell none")):
            status, answer, said = run("codes.py", *words)
            self.assertEqual((status, answer), (2, ""))
            self.assertIn(why, said)


if __name__ == "__main__":
    unittest.main()
