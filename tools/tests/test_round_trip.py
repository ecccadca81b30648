"""What docs/guide/TOOLS.md says that a DBC keeps on its way to a plan and back, as canmatrix reads both."""

import os
import re
import unittest
from collections.abc import Iterator
from typing import Any

from j39plan.dbc.names import FAST_ATTRIBUTE, DELAY_ATTRIBUTE, IDENTITY_ATTRIBUTE, NAME_ATTRIBUTES, SEND_ATTRIBUTE
from j39plan.dbc.reader import import_canmatrix
from tests.support import InFolder, example, needs, run
from tests.test_dbc2plan import CANMATRIX_J1939

FILES = [example("vehicle.dbc"), *(example(f"suppliers/{name}.dbc") for name in ("engine", "gearbox", "brakes", "cab")), CANMATRIX_J1939]


def in_ascii(unit: str | None) -> str:
    """A unit of measurement as docs/guide/TOOLS.md says that it comes back."""
    return (unit or "").replace("°", "deg")


def line_of(text: str | None) -> str:
    """A comment as it comes back."""
    return " ".join((text or "").split()).replace('"', "'").replace("\\", "/")


def is_by_cycle(frame: Any) -> bool:
    """Whether a message is sent by its cycle alone, in these files."""
    return frame.attributes.get(SEND_ATTRIBUTE) in (None, "cyclic")


@needs("canmatrix", "python3-canmatrix")
class Kept(InFolder):
    known: dict[str, Any] = {}  # what came back of each file
    words: tuple[str, ...] = ()  # what dbc2plan.py is given beside it

    def matrix(self, name: str) -> Any:
        """A file as canmatrix reads it."""
        import_canmatrix()
        import canmatrix.formats
        return canmatrix.formats.loadp_flat(name, dbcImportEncoding="utf-8")

    def there_and_back(self, name: str) -> Any:
        """A file and what comes back of it, and which signals and messages were noted on the way."""
        if name not in self.known:
            self.known[name] = self.made(name)
        return self.known[name]

    def made(self, name: str) -> tuple[Any, ...]:
        """The same, made."""
        status, plan, said = run("dbc2plan.py", "--identity", *self.words, name)
        self.assertEqual(status, 0, said)
        status, dbc, noted = run("plan2dbc.py", self.write("plan.toml", plan))
        self.assertEqual((status, noted.splitlines()[:-1]), (0, []), name)
        left = set(re.findall(r"^signal (.+?) of (\w+): ", said, re.MULTILINE)), set(re.findall(r"^group (\w+): ", said, re.MULTILINE))
        return self.matrix(name), self.matrix(self.write("back.dbc", dbc)), *left

    def pairs(self, name: str) -> Iterator[tuple[Any, Any, list[tuple[Any, Any]]]]:
        """Each message of a file with the one that came back, and each of its signals with its own, but for what was noted as left out. A
        message that no unit sends, or not from its address, which is noted, comes back with another source, and is known by its name."""
        there, back, signals, groups = self.there_and_back(name)
        messages = {frame.arbitration_id.id: frame for frame in back.frames}
        names = {frame.name: frame for frame in back.frames}
        for frame in there.frames:
            found = messages.get(frame.arbitration_id.id) or names.get(frame.name)
            if found is None:
                self.assertIn(frame.name, groups)
                continue
            if frame.transmitters and frame.name not in groups:
                self.assertEqual(found.arbitration_id, frame.arbitration_id)
            parts = {signal.name: signal for signal in found.signals}
            yield frame, found, [(one, parts[line_of(one.name)]) for one in frame.signals if (one.name, frame.name) not in signals]

    def all_pairs(self) -> Iterator[tuple[Any, Any, list[tuple[Any, Any]]]]:
        """Those of all files."""
        for name in FILES:
            if os.path.exists(name):
                with self.subTest(os.path.basename(name)):
                    yield from self.pairs(name)

    def test_messages_and_signals(self) -> None:
        messages, signals, tables, numbers = 0, 0, 0, 0
        for one, two, parts in self.all_pairs():
            self.assertEqual((two.name, two.size, two.transmitters), (one.name, one.size, one.transmitters))
            self.assertEqual(line_of(two.comment), line_of(one.comment), one.name)
            messages += 1
            for first, second in parts:
                what = one.name, first.name
                for key in ("start_bit", "size", "is_little_endian", "is_signed", "factor", "offset"):
                    self.assertEqual(getattr(second, key), getattr(first, key), (what, key))
                self.assertEqual(in_ascii(first.unit), second.unit, what)
                if first.min != first.max:
                    self.assertEqual((second.min, second.max), (first.min, first.max), what)
                self.assertEqual(second.attributes.get("SPN"), first.attributes.get("SPN"), what)
                self.assertEqual({raw: line_of(told) for raw, told in second.values.items()},
                                 {int(raw): line_of(told) for raw, told in first.values.items()}, what)
                self.assertEqual(line_of(second.comment), line_of(first.comment), what)
                content = first.attributes.get("SigType")
                self.assertEqual(content in ("ASCII", "DTC"), second.attributes.get("SigType") in ("ASCII", "DTC"), what)
                signals, tables, numbers = signals + 1, tables + bool(first.values), numbers + ("SPN" in first.attributes)
        self.assertTrue(messages >= 200 and signals >= 1500 and tables >= 9 and numbers >= 1500, (messages, signals, tables, numbers))

    def test_receivers_senders_and_times(self) -> None:
        """Of the files that have nodes."""
        receivers, times = 0, 0
        for name in FILES[:-1]:
            nodes = {ecu.name for ecu in self.there_and_back(name)[1].ecus}
            for one, two, parts in self.pairs(name):
                for first, second in parts:
                    wanted = [name for name in first.receivers if name in nodes]
                    self.assertEqual([name for name in second.receivers if name != "Vector__XXX"], wanted, (one.name, first.name))
                    receivers += len(wanted)
                self.assertEqual(two.cycle_time, one.cycle_time, one.name)
                self.assertEqual(two.attributes.get(SEND_ATTRIBUTE), None if is_by_cycle(one) else one.attributes[SEND_ATTRIBUTE])
                for attribute in (FAST_ATTRIBUTE, DELAY_ATTRIBUTE):
                    self.assertEqual(two.attributes.get(attribute), one.attributes.get(attribute), (one.name, attribute))
                times += bool(one.cycle_time)
        self.assertTrue(receivers >= 40 and times >= 20, (receivers, times))

    def test_nodes_and_the_bus(self) -> None:
        nodes = 0
        for name in FILES[:-1]:
            there, back, *_ = self.there_and_back(name)
            known = {ecu.name: ecu for ecu in back.ecus}
            for ecu in there.ecus:
                if ecu.name in known:
                    given = known[ecu.name].attributes
                    for attribute in ("NmStationAddress", IDENTITY_ATTRIBUTE[0], *(attribute for attribute, _ in NAME_ATTRIBUTES.values())):
                        if attribute in ecu.attributes:
                            self.assertEqual(given[attribute], ecu.attributes[attribute], (name, ecu.name, attribute))
                            nodes += 1
            self.assertEqual(str(back.attribute("Baudrate")), str(there.attribute("Baudrate") or 0), name)
        self.assertGreaterEqual(nodes, 20)

    @unittest.skipUnless(os.path.exists(CANMATRIX_J1939), "canmatrix's j1939.dbc isn't there")
    def test_what_is_left_out_is_said(self) -> None:
        """Of j1939.dbc, which has more groups than a plan: a message that doesn't come back was said, and so was a signal."""
        there, back, signals, groups = self.there_and_back(CANMATRIX_J1939)
        here = {frame.name: {signal.name for signal in frame.signals} for frame in back.frames}
        self.assertEqual((len(here), len(there.frames)), (256, 357))
        for frame in there.frames:
            self.assertTrue(frame.name in here or frame.name in groups, frame.name)
            for signal in frame.signals if frame.name in here else []:
                self.assertTrue(line_of(signal.name) in here[frame.name] or (signal.name, frame.name) in signals, signal.name)


class WithoutNeeds(Kept):
    """The same where receivers stand in comments alone."""
    known: dict[str, Any] = {}
    words = ("--no-needs",)


if __name__ == "__main__":
    unittest.main()
