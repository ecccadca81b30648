"""The tables of a plan are what `show` answers of it: each value, whatever labels are called, and the defaults of what isn't said."""

import os
import re
import unittest
from dataclasses import asdict
from unittest import mock

import j39plan
from j39plan import program
from j39plan.plan.schema import keys_of
from j39plan.plan.parts import source_in
from j39plan.plan.tables import Flow, Need, Request, Tables
from tests.support import InFolder, NEWER, example, needs, plans, run, text_of, there

PLAN, LOG = example("tractor_and_implement.toml"), example("tractor_and_implement.start.log")

# A plan that says no more than it has to, and one whose labels are words of the answer, numbers, and truth values.
LEAST = """version = 4
timing = { bitrate = 250000, unplanned = 1 }
unit = [{ label = "A", address = 0, name = { identity = 1 } }]
group = [{ label = "G", pgn = 65262, priority = 6, length = 8, signal = [{ label = "S", byte = 1, bits = 8, kind = "raw" }] }]
flow = [{ group = "G", from = "A", to = "all", period = 10 }]
"""
NAMED = """version = 4
keep_free = [202, 201]
[[unit]]
label = "name"
address = 0
name = { identity = 1 }
[[unit]]
label = "true"
address = 1
name = { identity = 2 }
[[group]]
label = "signal"
pgn = 65262
priority = 6
length = 8
[[group.signal]]
label = "1"
byte = 1
bits = 8
kind = "raw"
unit = "  a  b "
values = { 7 = "label", 10 = "12" }
[[group.signal]]
label = "false"
byte = 2
bits = 8
kind = "raw"
unit = " "
[[flow]]
group = "signal"
from = "name"
to = "true"
[[need]]
unit = "true"
group = "signal"
signal = "1"
[[request]]
group = "signal"
from = "true"
to = "name"
"""


class OfShow(InFolder):
    def test_what_is_not_said(self) -> None:
        """It is by default what the schema says that it is."""
        tables = Tables.of(self.write("plan.toml", LEAST))
        unit, group, flow = tables.units[0], tables.groups[0], tables.flows[0]
        for table, made in (("unit", unit), ("group", group), ("signal", group.signals[0]), ("flow", flow), ("timing", tables.timing)):
            told = {key: default for key, default in keys_of(table).items() if default is not None and key in asdict(made)}
            self.assertTrue(told)
            self.assertEqual({key: asdict(made)[key] for key in told}, told, table)
        self.assertEqual(unit.fields, {key: default or 0 for key, default in keys_of("name").items()} | {"identity": 1})
        self.assertEqual((group.most, group.every, group.signals[0].spn, group.signals[0].values, there(tables.timing).errors), (8, None, None, {}, None))

    def test_labels_of_any_kind(self) -> None:
        tables = Tables.of(self.write("plan.toml", NAMED))
        self.assertEqual([unit.label for unit in tables.units], ["name", "true"])
        signals = [(signal.label, signal.unit, signal.values) for group in tables.groups for signal in group.signals]
        self.assertEqual(signals, [("1", "  a  b ", {7: "label", 10: "12"}), ("false", " ", {})])
        self.assertEqual(tables.flows, [Flow("signal", "name", "true", None, is_asked=True)])
        self.assertEqual((tables.needs, tables.requests), ([Need("true", "signal", "1")], [Request("signal", "true", "name")]))

    def test_examples(self) -> None:
        """As many units, groups and flows as `check` counts."""
        for name in plans():
            tables, answer = Tables.of(name), program.call(["check", name])[1]
            counts = re.match(r"ok (\d+) units (\d+) groups (\d+) flows", answer)
            if counts:
                self.assertEqual((len(tables.units), len(tables.groups), len(tables.flows)), tuple(map(int, counts.groups())), name)

    def test_the_text_tells_the_same(self) -> None:
        """What `show` answers is what the text has with the defaults of the schema, and each table is found at its place."""
        for name in (*plans(), self.write("least.toml", LEAST), self.write("named.toml", NAMED), self.write("newer.toml", NEWER)):
            shown, source = Tables.of(name), source_in(name)
            for part in ("units", "groups", "flows", "needs", "requests", "strangers", "live", "timing"):
                self.assertEqual(getattr(shown, part), getattr(source.tables, part), f"{name}: {part}")
            for tables in (shown, source.tables):
                signals = [signal for group in tables.groups for signal in group.signals]
                labels = [(unit.place, unit.label) for unit in tables.units] + [(group.place, group.label) for group in tables.groups]
                labels += [(signal.place, signal.label) for signal in signals]
                for place, label in labels:
                    self.assertEqual(source.places.texts[place + ("label",)], label, name)

    def test_what_it_does_not_tell(self) -> None:
        """Of which version a file is, and in which order it has the addresses that are kept free."""
        plan = self.write("plan.toml", NAMED)
        self.assertEqual((source_in(plan).version, source_in(plan).kept), (4, [202, 201]))
        self.assertIn("Addresses that no unit may choose: 202, 201.", run("report.py", plan)[1])
        read = j39plan.read_plan(plan)
        self.assertEqual((read.version, read.kept, read.shown), (4, [202, 201], program.shown(plan)))

    def test_what_is_no_plan(self) -> None:
        with self.assertRaises(program.Refused) as caught:
            Tables.of(self.write("plan.toml", "version = 9\n"))
        self.assertEqual((caught.exception.status, str(caught.exception)), (2, "refused Range top key version"))


class Asked(InFolder):
    """Each tool asks once of a plan."""

    def setUp(self) -> None:
        super().setUp()
        asked = self.path("asked")
        script = f'#!/bin/sh\n[ "$1" = show ] && echo "$PPID $3" >> {asked}\nexec {os.path.abspath(program.path())} "$@"\n'
        os.chmod(self.write("program", script), 0o755)
        counting = mock.patch.dict(os.environ, {"J39PLAN": self.path("program")})
        counting.start()
        self.addCleanup(counting.stop)

    def asked(self) -> list[str]:
        """Who has asked of which plan, and nobody twice of one."""
        lines = text_of(self.path("asked")).splitlines()
        os.remove(self.path("asked"))
        self.assertEqual(sorted(set(lines)), sorted(lines))
        return [line.split()[0] for line in lines]

    def test_tools(self) -> None:
        """`against` and `signals` ask of the plan that is cut, too."""
        calls = ((1, ["report.py", PLAN]), (2, ["against.py", PLAN, LOG]), (2, ["signals.py", PLAN, LOG, "SPN190"]))
        for count, words in calls:
            self.assertIn(run(*words)[0], (0, 1), words)
            self.assertEqual(len(self.asked()), count, words)

    @needs("matplotlib", "python3-matplotlib")
    def test_plot(self) -> None:
        self.assertEqual(run("plot.py", PLAN, LOG, "SPN190", "-o", self.path("a.svg"))[0], 0)
        self.assertEqual(len(self.asked()), 2)

    def test_a_fleet(self) -> None:
        """It asks once itself, as `against` does for each log, and before them all."""
        logs = [self.write(f"{number}.log", text_of(LOG)) for number in range(3)]
        self.assertEqual(run("fleet.py", "--processes", "2", PLAN, *logs)[0], 1)
        self.assertEqual(len(set(self.asked())), 1 + 1 + len(logs))

    def test_the_module(self) -> None:
        plan = j39plan.read_plan(PLAN)
        self.assertEqual(j39plan.drive(plan, LOG)["failed"], "")
        self.assertEqual((plan.findings(), bool(list(j39plan.follow(plan, LOG)))), ([], True))
        self.assertEqual(self.asked().count(str(os.getpid())), 1)


if __name__ == "__main__":
    unittest.main()
