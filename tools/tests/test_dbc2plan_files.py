"""Plans from files that are damaged, of another kind or spelled in another way, and what canmatrix says of them."""

import contextlib
import io
import os
import random
import re
import subprocess
import sys
import tomllib
import unittest

from j39plan import program
from j39plan.cli import dbc2plan
from j39plan.dbc.reader import import_canmatrix
from j39plan.left_out import LeftOut, Notes
from j39plan.plan.text import text_of
from tests.dbc_files import DBC, WithDbc, message
from tests.support import TOOLS, needs, run

EEC1, ET1 = 0x0CF00400, 0x18FEEE00
SPEED = 'SPN190 : 24|16@1+ (0.125,0) [0|0] "rpm" CLUSTER'
NODES = "BU_: ENGINE CLUSTER\n\n"


@needs("canmatrix", "python3-canmatrix")
class WhatCanmatrixSays(WithDbc):
    def test_lines_that_it_cannot_read(self) -> None:
        """What it prints is no part of the plan. The number that it prints is wrong behind a table of values."""
        data = NODES + message(EEC1, "EEC1", "ENGINE", SPEED, 'BAD : 0|8@1+ (1;0) [0|0] "" CLUSTER') + (
            f'VAL_ {EEC1 | 1 << 31} SPN190 65535 "not available" ;\nBA_ "SPN" SG_ {EEC1 | 1 << 31} MISSING 190;\r\n')
        plan, said = self.plan(data=data)
        self.assertEqual([signal["label"] for signal in plan["group"][0]["signal"]], ["SPN190"])
        self.assertEqual(said[:2], [
            'line 5: canmatrix can\'t read it: SG_ BAD : 0|8@1+ (1;0) [0|0] "" CLUSTER',
            f'line 8: canmatrix can\'t read it: BA_ "SPN" SG_ {EEC1 | 1 << 31} MISSING 190;',
        ])
        self.assertEqual(said[-1], f"1 units 1 groups 1 flows, notes {len(said) - 1}")

    def test_signals_of_a_message_that_it_cannot_read(self) -> None:
        """They would be the signals of the message before it."""
        data = NODES + message(EEC1, "EEC1", "ENGINE", SPEED) + f"BO_ {ET1 | 1 << 31} ET1: 8\n SG_ " + SPEED.replace("24|", "0|")
        data += "\n" + message(ET1 + 0x100, "NEXT", "ENGINE", SPEED)
        plan, said = self.plan(data=data)
        self.assertEqual([(group["label"], len(group["signal"])) for group in plan["group"]], [("EEC1", 1), ("NEXT", 1)])
        self.assertEqual(said[:2], [
            f"line 6: canmatrix can't read it: BO_ {ET1 | 1 << 31} ET1: 8",
            "line 7: the message of this signal, at line 6, can't be read",
        ])

    def test_errors_that_it_logs(self) -> None:
        _, said = self.plan(data=NODES + message(EEC1, "EEC1", "ENGINE", SPEED) + 'VAL_ 5 NOWHERE 0 "off" ;\n')
        logged = [line for line in said if line.startswith("canmatrix: ")]
        self.assertEqual(logged, ["canmatrix: Error with Line: ['0 ', 'off', ' ']"])


@needs("canmatrix", "python3-canmatrix")
class Spelling(WithDbc):
    def units_of(self, data: bytes) -> list[str]:
        """The units of measurement of a DBC's signals."""
        plan, _ = self.plan(data=data)
        return [signal.get("unit", "") for signal in plan["group"][0]["signal"]]

    def test_encodings(self) -> None:
        """A line is UTF-8, else cp1252; a byte that is none of both costs a character and no signal."""
        head, tail = b'S%d : %d|8@1+ (1,0) [0|0] "', b'" CLUSTER'
        for units, spelled in (
            ([b"\xc2\xb0C", b"\xc2\xb5m", b"m\xc2\xb2", b"%"], ["degC", "um", "m2", "%"]),
            ([b"\xb0C", b"\xb5m", b"m\xb2", b"\x80"], ["degC", "um", "m2", "?"]),
            ([b"\xc2\xb0C", b"\xb0C", b"\x81", b"\xe6\x97"], ["degC", "degC", "?", "??"]),
        ):
            signals = [b" SG_ " + head % (number, 8 * number) + unit + tail for number, unit in enumerate(units)]
            data = (NODES + message(EEC1, "EEC1", "ENGINE")).encode().rstrip() + b"\n" + b"\n".join(signals) + b"\n"
            self.assertEqual(self.units_of(data), spelled)

    def test_ends_of_lines(self) -> None:
        text = NODES + message(EEC1, "EEC1", "ENGINE", SPEED)
        for end in ("\n", "\r\n", "\r"):
            self.assertEqual(self.units_of(text.replace("\n", end).encode()), ["rpm"])
            self.assertEqual(self.units_of(b"\xef\xbb\xbf" + text.replace("\n", end).encode()), ["rpm"])

    def test_the_plan_is_utf_8(self) -> None:
        """Whatever the terminal has."""
        data = NODES + message(EEC1, "EEC1", "ENGINE", SPEED) + f'CM_ SG_ {EEC1 | 1 << 31} SPN190 "Drehzahl, 日, für 3 Gänge";\n'
        name = self.write("file.dbc", data)
        for encoding in ("ascii", "iso-8859-1", "utf-8"):
            ended = subprocess.run([sys.executable, os.path.join(TOOLS, "dbc2plan.py"), name], capture_output=True, check=True,
                                   env={**os.environ, "PYTHONIOENCODING": encoding})
            self.assertIn('label = "SPN190"  # "Drehzahl, 日, für 3 Gänge"\n', self.checked(ended.stdout.decode()))

    def test_names_of_files(self) -> None:
        for name, shown in (("a\nlabel = 1.dbc", "a label = 1.dbc"), ("\udce4 ä.dbc", "? ä.dbc"), ("\x1b[1m.DBC", "?[1m.DBC")):
            os.rename(self.write("file.dbc", DBC), self.path(name))
            status, plan, said = run("dbc2plan.py", self.path(name))
            self.assertEqual(status, 0, said)
            self.assertEqual(self.checked(plan).splitlines()[0], f"# From {shown}: review it.")


@needs("canmatrix", "python3-canmatrix")
@needs("lxml", "python3-lxml")
class NoPlan(WithDbc):
    """Status 2, one line that says why, and nothing on standard output."""

    def refused(self, name: str, data: bytes) -> str:
        """Why nothing comes of a file."""
        with open(self.path(name), "wb") as file:
            file.write(data)
        status, plan, said = run("dbc2plan.py", self.path(name))
        self.assertEqual((status, plan), (2, ""), said)
        last = said.splitlines()[-1]
        self.assertTrue(last.startswith(f"dbc2plan: {self.path(name)}: "), said)
        self.assertNotIn("Traceback", said)
        return last.removeprefix(f"dbc2plan: {self.path(name)}: ")

    def test_files_of_another_kind(self) -> None:
        noise = random.Random(1939).randbytes(20000)
        log, plan = b"(1.0) can0 0CF00400#F07D87E02EF00F87\n", b'version = 1\n[[unit]]\nlabel = "A"\n'
        nothing = "there is nothing in it that a plan can have"
        for ending in ("dbc", "sym"):
            for data in (b"", noise, log, plan, b"<?xml version='1.0'?><a/>", DBC.encode("utf-16")):
                self.assertEqual(self.refused(f"file.{ending}", data), nothing)
        for ending in ("kcd", "arxml"):
            for data in (b"", noise, log, plan, DBC.encode()):
                self.assertTrue(self.refused(f"file.{ending}", data).startswith("canmatrix can't read it: XMLSyntaxError: "))
        self.assertEqual(self.refused("file.kcd", b"<?xml version='1.0'?><a/>"), "there is no bus in it")
        for name in ("file.txt", "file", "dbc", "file.toml"):
            self.assertEqual(self.refused(name, DBC.encode()), "it is none of .dbc, .arxml, .kcd, .sym, .csv, .xlsx and .ods by its ending: name its kind by --kind")

    def test_a_file_of_which_nothing_can_be_carried_over(self) -> None:
        data = "BU_: ENGINE\nBO_ 291 SHORT: 8 ENGINE\n" + message(0x18FF1000, "MAKER", "Vector__XXX")
        status, plan, said = self.made(data=data)
        self.assertEqual((status, plan), (2, ""))
        self.assertEqual(said, [
            "unit ENGINE: left out: no address is given", "group SHORT: left out: its identifier has 11 bits",
            "group MAKER: left out: PGN 65296 is proprietary, and no unit in the plan sends it to another one",
            f"dbc2plan: {self.path('file.dbc')}: there is nothing in it that a plan can have",
        ])

    def test_a_file_that_is_not_there(self) -> None:
        missing = self.path("none.dbc")
        self.assertEqual(run("dbc2plan.py", missing), (4, "", f"dbc2plan: {missing}: No such file or directory\n"))
        self.assertEqual(run("dbc2plan.py", self.folder), (4, "", f"dbc2plan: {self.folder}: Is a directory\n"))

    def test_a_file_that_is_read_once(self) -> None:
        os.mkfifo(self.path("pipe.dbc"))
        whole = self.write("file.dbc", DBC)
        writer = subprocess.Popen(["sh", "-c", 'cat "$1" > "$2"', "sh", whole, self.path("pipe.dbc")])
        self.addCleanup(writer.wait)
        self.addCleanup(writer.kill)
        status, plan, said = run("dbc2plan.py", self.path("pipe.dbc"))
        self.assertEqual(status, 0, said)
        self.assertEqual(len(tomllib.loads(plan)["group"]), 5)

    def test_a_choice_of_buses(self) -> None:
        bus = '<Bus name="{}"><Message id="0xCF00400" name="EEC1" length="8" format="extended"/></Bus>'
        head = '<?xml version="1.0"?><NetworkDefinition xmlns="http://kayak.2codeornot2code.org/1.0">'
        data = f"{head}{bus.format('engine')}{bus.format('cabin')}</NetworkDefinition>".encode()
        self.assertEqual(self.refused("file.kcd", data), "choose a bus by --bus: engine, cabin")
        status, plan, said = run("dbc2plan.py", "--bus", "X", self.path("file.kcd"))
        self.assertEqual((status, plan), (2, ""))
        self.assertTrue(said.endswith("file.kcd: --bus X: its buses are engine, cabin\n"), said)
        status, plan, said = run("dbc2plan.py", "--bus", "cabin", self.path("file.kcd"))
        self.assertEqual((status, tomllib.loads(plan)["group"][0]["pgn"]), (0, 61444), said)


def damaged(chance: random.Random, data: bytes) -> bytes:
    """A file in which something was cut out, changed or put in: bytes, numbers, attributes and elements of XML."""
    for _ in range(chance.randrange(1, 6)):
        found = list(re.finditer(chance.choice([
            rb"\d+", rb"\d+", rb'(?s) [\w-]+="[^"]*"', rb"(?s)<([\w-]+)[^>]*>.*?</\1>", rb"\n[^\n]*", rb"."]), data))
        if found:
            place = chance.choice(found)
            new = chance.choice([b"", b"0", b"-1", b"99999999999", b"1E99", b"NaN", b"x", b"\xff\0", data[:chance.randrange(300)]])
            data = data[:place.start()] + new + data[place.end():]
    return data


@needs("canmatrix", "python3-canmatrix")
@needs("lxml", "python3-lxml")
class Damaged(WithDbc):
    def files(self) -> dict[str, bytes]:
        """Files of each kind by their endings."""
        import_canmatrix()
        import canmatrix.formats
        found = {"dbc": DBC.encode("iso-8859-1", "replace")}
        for ending in ("kcd", "sym", "arxml"):
            db = canmatrix.formats.loads_flat(found["dbc"], "dbc")
            for frame in db.frames:
                frame.signals = [signal for signal in frame.signals if signal.name.startswith("SPN")]
            canmatrix.formats.dumpp({"": db}, self.path(f"whole.{ending}"))
            with open(self.path(f"whole.{ending}"), "rb") as file:
                found[ending] = file.read()
        return found

    def test_files_that_were_damaged(self) -> None:
        """Each gives a plan that `check` can read and in which no signal is at a wrong place, or is refused."""
        chance, files, plans = random.Random(81), self.files(), 0
        for ending in 60 * list(files):
            with open(self.path(f"file.{ending}"), "wb") as file:
                file.write(damaged(chance, files[ending]))
            with contextlib.redirect_stderr(io.StringIO()), contextlib.redirect_stdout(io.StringIO()) as printed:
                try:
                    plan = dbc2plan.plan_of(dbc2plan.options([self.path(f"file.{ending}")]), Notes())
                except LeftOut:
                    continue
            self.assertEqual(printed.getvalue(), "")
            _, answer = program.call(["check", self.write("plan.toml", text_of(plan.tables(), ending))])
            self.assertNotRegex(answer, r"(?m)^(?:refused|F[4-79]|F1[013]) ")
            plans += 1
        self.assertGreater(plans, 60)


if __name__ == "__main__":
    unittest.main()
