"""Steps against boxes on a bus in memory: the box that restbus plays passes all, each faulty one fails those that stand beside it, and no lawful oddity does."""

import contextlib
import io
import json
import os
import tempfile
import threading
import time
import unittest
from collections.abc import Sequence
from xml.etree import ElementTree

from j39plan import program
from j39plan.bench.rest import Rest, Settings
from j39plan.bench.values import Values
from j39plan.bench.wire import Stamps
from j39plan.cli import probe
from j39plan.plan.parts import source_in
from j39plan.probe.begin import heard_before, refuse_others
from j39plan.probe.meanings import MEANINGS
from j39plan.probe.memory import Memory, box_of
from j39plan.probe.planned import Planned
from j39plan.probe.run import FAILED, PASSED, SKIPPED, UNSURE, Run
from j39plan.probe.steps import STEPS, Step
from j39plan.probe.tester import Tester, Unsure
from j39plan.probe.wired import Switch
from tests.box_changes import changed
from tests.probe_boxes import FAULTY, LAWFUL, PLAN, Box
from tests.support import InFolder, needs, run, text_of

PLANS = {name: PLAN.replace("CHOOSES", chooses).replace("CLAIMS", claims).replace("ADDRESS", address) for name, chooses, claims, address in (
    ("chooses", "true", "", "130"), ("fixed", "false", "", "130"), ("silent", "false", "claims = false,", "30"))}

# The most processor time that all steps of one box take, in seconds.
MOST = 2.0


class InMemory(InFolder):
    def setUp(self) -> None:
        super().setUp()
        self.planned: dict[str, Planned] = {}
        for name, text in PLANS.items():
            file = self.write(f"{name}.toml", text)
            self.planned[name] = Planned(file, source_in(file), "GEARBOX")

    def run_of(self, plan: str, make: type[Rest], more: Sequence[str] = (), is_filled: bool = False) -> Run:
        """All steps of a box."""
        planned = self.planned[plan]
        bus = Memory(box_of(planned.tables, planned.source.kept, "GEARBOX", make))
        bus.has_filler = is_filled
        bus.power(True)
        steps = [step for step in STEPS if step.applies(planned) and (not step.is_off or step.word in more)]
        run = Run(Tester(planned, bus, Values(planned.tables), 0.005, 60.0, 60672), steps, more)
        for _ in run.goes():
            pass
        return run

    def of(self, box: Box) -> Run:
        return self.run_of(box.plan, box.make(), box.more, box.is_filled)


class Boxes(InMemory):
    def failed(self, run: Run) -> tuple[str, ...]:
        return tuple(result.step.word for result in run.results if result.verdict == FAILED)

    def test_own_box(self) -> None:
        """The box that restbus plays passes all steps, also on a full bus, within the processor time."""
        for plan in PLANS:
            with self.subTest(plan=plan):
                begin = time.process_time()
                run = self.run_of(plan, Rest, ("commanded", "needs"), True)
                self.assertEqual({result.step.word: result.verdict for result in run.results}, {result.step.word: PASSED for result in run.results})
                self.assertEqual((run.left, run.ended), ([], ""))
                self.assertLess(time.process_time() - begin, MOST)

    def test_all_steps_are_done(self) -> None:
        """The three plans have each step but those that they can't have."""
        done = {result.step.word for plan in PLANS for result in self.run_of(plan, Rest, ("commanded", "needs"), True).results}
        self.assertEqual(done, {step.word for step in STEPS})

    def test_faulty(self) -> None:
        """Each faulty box fails the steps that stand beside it, and no other; each step is failed by one."""
        self.assertGreaterEqual(len({box.about for box in FAULTY}), 60)
        for box in FAULTY:
            with self.subTest(box=box.about):
                self.assertEqual(self.failed(self.of(box)), box.fails)
        self.assertEqual({step.word for step in STEPS} - {word for box in FAULTY for word in box.fails}, {"needs"})
        self.assertEqual(set(MEANINGS), {step.word for step in STEPS})

    def test_lawful(self) -> None:
        """No lawful oddity fails; what it does is a note."""
        self.assertGreaterEqual(len({box.about for box in LAWFUL}), 25)
        for box in LAWFUL:
            with self.subTest(box=box.about):
                run = self.of(box)
                self.assertEqual(self.failed(run), ())
                self.assertTrue(any(box.note in text for result in run.results for text, _ in result.notes), box.note)


class InProcess(InFolder):
    """The command, in this process."""

    def setUp(self) -> None:
        super().setUp()
        self.plan = self.write("plan.toml", PLANS["fixed"])

    def run_of(self, *words: str) -> tuple[int, str, str]:
        out, errors = io.StringIO(), io.StringIO()
        with contextlib.redirect_stdout(out), contextlib.redirect_stderr(errors):
            try:
                status = probe.main(list(words))
            except SystemExit as why:
                status = int(str(why.code))
        return status, out.getvalue(), errors.getvalue()


class Command(InProcess):
    def test_list(self) -> None:
        """The steps that the unit has, each with its line of the plan and what it sends; those that change the box only if asked for."""
        status, text, _ = self.run_of(self.plan, "GEARBOX", "--list")
        words = [line.split()[0] for line in text.splitlines()]
        self.assertEqual((status, words), (0, [step.word for step in STEPS if step.word not in ("silent", "chooses", "commanded", "needs")]))
        self.assertIn("plan.toml:10,14  plan  sends: all that the other planned units send", text)
        self.assertIn("requests for claims", text.splitlines()[1])
        _, text, _ = self.run_of(self.plan, "GEARBOX", "--list", "--with", "commanded", "--without", "claim", "rough")
        self.assertEqual({"claim", "rough", "commanded"} & {line.split()[0] for line in text.splitlines()}, {"commanded"})

    def test_other_units(self) -> None:
        """A unit without long messages and periods has few steps; ENGINE has no session, TOOL sends one that nothing triggers but its period."""
        for unit, words in (("ENGINE", "claim asked flows refuses defends crowd rough yields power"),
                            ("TOOL", "claim asked flows refuses receives misses gives_up again sends resends holds unheard aborted defends crowd rough yields power")):
            status, text, _ = self.run_of(self.plan, unit, "--rehearse", "--json", "--seconds", "5")
            row = json.loads(text)
            self.assertEqual((status, {one["step"]: one["verdict"] for one in row["steps"]}), (0, {word: PASSED for word in words.split()}))

    def test_reports(self) -> None:
        """Text, JSON, JUnit and page have each step; times stand beside their limits."""
        junit, page = self.path("report.xml"), self.path("report.html")
        status, text, errors = self.run_of(self.plan, "GEARBOX", "--rehearse", "--only", "claim", "asked", "sends", "--junit", junit, "--html", page)
        self.assertEqual((status, errors, text.splitlines()[-1]), (0, "", "steps 3 passed 3 failed 0 unsure 0 skipped 0"))
        self.assertRegex(text, r"passed  asked .* claim when asked \d of 200 ms  line \d+\n")
        suite = ElementTree.parse(junit).getroot()
        self.assertEqual([(case.get("classname"), case.get("name")) for case in suite], [("GEARBOX", "claim"), ("GEARBOX", "asked"), ("GEARBOX", "sends")])
        self.assertEqual({key: suite.get(key) for key in ("tests", "failures", "errors", "skipped")}, {"tests": "3", "failures": "0", "errors": "0", "skipped": "0"})
        self.assertIn("<td>claim when asked</td>", text_of(page))
        row = json.loads(self.run_of(self.plan, "GEARBOX", "--rehearse", "--only", "asked", "--json")[1])
        measure = row["steps"][0]["measures"][0]
        self.assertEqual((measure["what"], measure["limit_ms"], 0 < measure["ms"] < 10), ("claim when asked", 200.0, True))
        self.assertEqual(row["counts"], {"steps": 1, "passed": 1, "failed": 0, "unsure": 0, "skipped": 0})

    def test_bad_input(self) -> None:
        """One line that names file and cause, a status, and nothing written."""
        html = self.path("report.html")
        found = self.write("found.toml", PLANS["fixed"].replace("address = 249", "address = 130"))
        for words, status, why in (
                ((self.plan, "NONE", "--list"), 2, f"{self.plan}: no unit is called NONE"), ((found, "GEARBOX", "--rehearse"), 1, "the plan has findings, as F"),
                ((self.write("half.toml", PLANS["fixed"][:900]), "GEARBOX", "--list"), 2, "half.toml:"), ((self.write("empty.toml", ""), "GEARBOX", "--list"), 2, "empty.toml:1: refused"),
                ((self.plan, "GEARBOX", "--rehearse", "--value", "SPEED=1"), 2, "SPEED: no signal is called so"), ((self.plan, "GEARBOX"), 2, "--interface and --channel"),
                ((self.plan, "GEARBOX", "--rehearse", "--only", "everything"), 2, "invalid choice"), ((self.plan, "GEARBOX", "--list", "--unknown", "65253"), 2, "the plan has this group"),
                ((self.plan, "GEARBOX", "--list", "--unknown", "60673"), 2, "no number of a group"), ((self.plan, "GEARBOX", "--rehearse", "--jitter", "x"), 2, "no time of 0 to 100 ms")):
            with self.subTest(words=words[1:]):
                got, text, errors = self.run_of(*words, "--html", html)
                self.assertEqual((got, text), (status, ""))
                self.assertIn(why, errors.splitlines()[-1])
                self.assertFalse(os.path.exists(html))
        with open(self.path("other.toml"), "wb") as file:
            file.write(PLANS["fixed"].encode("utf-16"))
        self.assertEqual(self.run_of(self.path("other.toml"), "GEARBOX", "--list")[0], 2)

    def test_files_that_cannot_be_read_or_written(self) -> None:
        """The file is named, before a step is done."""
        for words, why in (((self.path("none.toml"), "GEARBOX", "--list"), "none.toml: No such file or directory"), ((self.folder, "GEARBOX", "--list"), "Is a directory"),
                           ((self.plan, "GEARBOX", "--rehearse", "--junit", self.path("none/report.xml")), "none/report.xml: No such file or directory")):
            status, text, errors = run("probe.py", *words)
            self.assertEqual((status, text, errors.count("\n")), (4, "", 1))
            self.assertIn(why, errors)

    def test_findings_anyway(self) -> None:
        """A plan with findings is taken where that is wanted."""
        found = self.write("found.toml", PLANS["fixed"].replace("priority = 3", "priority = 7"))
        self.assertEqual(self.run_of(found, "GEARBOX", "--rehearse", "--anyway", "--only", "claim")[0], 0)


class Judged(InMemory):
    """How verdicts are doubted, and what ends a test."""

    def bench(self, make: type[Rest], bus: type[Memory] = Memory) -> tuple[Tester, Memory]:
        planned = self.planned["fixed"]
        memory = bus(box_of(planned.tables, planned.source.kept, "GEARBOX", make))
        memory.power(True)
        return Tester(planned, memory, Values(planned.tables), 0.005, 60.0, 60672), memory

    def steps(self, *words: str) -> list[Step]:
        return [step for step in STEPS if step.word in words]

    def silent(self) -> type[Rest]:
        return next(box.make() for box in FAULTY if box.about == "doesn't refuse")

    def test_error_frames(self) -> None:
        """Where error frames were heard a step that fails is unsure."""
        bench, memory = self.bench(self.silent())
        bench.clock.after(0.5, setattr, memory, "errors", 3)
        run = Run(bench, self.steps("refuses"))
        self.assertEqual([(result.verdict, "; but 3 error frames were heard" in result.said) for result in run.goes()], [(UNSURE, True)])

    def test_without_power(self) -> None:
        """Without power the box is asked for its claim; once it can't claim, all behind is unsure, and what needs power is skipped."""
        bench, memory = self.bench(Rest)
        memory.has_power = False
        run = Run(bench, self.steps("claim", "yields", "power", "needs"))
        self.assertEqual([(result.step.word, result.verdict) for result in run.goes()], [("claim", PASSED), ("yields", PASSED), ("power", UNSURE), ("needs", UNSURE)])
        bench, memory = self.bench(Rest)
        memory.has_power = False
        self.assertEqual([(result.verdict, result.said) for result in Run(bench, self.steps("power")).goes()], [(SKIPPED, "nothing switches the box (--power COMMAND)")])

    def test_interrupt_and_bus_off(self) -> None:
        """Both end the test; the step under way is unsure, and what was found before stays."""
        for what, why in (("is_ended", "an interrupt"), ("is_off", "the tester's controller has left the bus")):
            bench, memory = self.bench(Rest)
            bench.clock.after(3.0, setattr, memory, what, True)
            run = Run(bench, self.steps("claim", "asked", "flows", "refuses"))
            verdicts = [(result.step.word, result.verdict) for result in run.goes()]
            self.assertEqual(verdicts, [("claim", PASSED), ("asked", PASSED), ("flows", UNSURE)])
            self.assertIn(why, run.ended)

    def test_another_sends_from_a_played_address(self) -> None:
        """A step that fails is unsure then, once."""
        bench, memory = self.bench(self.silent())
        bench.clock.after(0.45, memory._waits, 1, 0x18FEEE00, bytes(8))
        run = Run(bench, self.steps("refuses", "refuses"))
        self.assertEqual([(result.verdict, "address 0, which is played here" in result.said) for result in run.goes()], [(UNSURE, True)])
        self.assertEqual([result.verdict for result in Run(bench, self.steps("refuses")).goes()], [FAILED])

    def requests(self, bench: Tester) -> set[int]:
        return {int.from_bytes(frame.data, "little") for frame in bench.frames if not frame.is_box and frame.pgn == 59904 and len(frame.data) == 3}

    def test_what_is_never_sent_unasked(self) -> None:
        """Requests that erase trouble codes are sent only if asked for, and a commanded address; NAME management never."""
        unasked = {65228, 65235}
        bench, _ = self.bench(Rest)
        list(Run(bench, [step for step in STEPS if step.applies(bench.planned) and not step.is_off]).goes())
        self.assertEqual(self.requests(bench) & unasked, set())
        self.assertEqual([frame for frame in bench.frames if frame.pgn in (37632, 65240) or frame.pgn == 60416 and frame.data[5:] == (65240).to_bytes(3, "little")], [])
        bench, _ = self.bench(Rest)
        list(Run(bench, [], ("erases",)).goes())
        self.assertEqual(self.requests(bench) & unasked, unasked)

    def test_trouble_codes_stay(self) -> None:
        """What DM1 says behind the steps and didn't before is told at the end, by its bytes."""
        text = PLANS["fixed"].replace('{ label = "HOURS", pgn = 65253', '{ label = "DM1", pgn = 65226').replace('"HOURS"', '"DM1"').replace("on_request = true, period = 1000 }", "period = 1000 }", 1)
        text = text.replace(', { group = "DM1", from = "TOOL", to = "GEARBOX", period = 5000 }', "")
        file = self.write("codes.toml", text)
        planned = Planned(file, source_in(file), "GEARBOX")
        stores = changed(out=lambda box, pgn, data, at: (at, b"\x04" + bytes(7) if box.agenda.now > 3 else bytes(8)) if pgn == 65226 else (at, data))
        memory = Memory(box_of(planned.tables, [], "GEARBOX", stores))
        memory.power(True)
        run = Run(Tester(planned, memory, Values(planned.tables), 0.005, 60.0, 60672), self.steps("refuses", "asked"))
        self.assertEqual([result.verdict for result in run.goes()], [PASSED, PASSED])
        self.assertEqual(run.left, ["DM1 is 0400000000000000, was 0000000000000000 before"])

    def test_others_on_the_bus(self) -> None:
        """It begins only where the box is alone; taken anyway, others aren't the box."""
        bench, memory = self.bench(Rest)
        bench.clock.after(1.0, memory._waits, 1, 0x18FEEE21, bytes(8))
        heard = heard_before(bench)
        with self.assertRaisesRegex(program.Refused, "frames from address 33 are heard: GEARBOX isn't alone on this bus"):
            refuse_others(False, bench, heard)
        refuse_others(True, bench, heard)
        self.assertEqual((bench.strangers, bench.address), ({33}, 130))


class Times(unittest.TestCase):
    def test_stamps(self) -> None:
        """A frame was on the bus at its stamp by the clock here, which the quickest frame tells; never before the last one; a clock that is set begins anew."""
        stamps = Stamps()
        self.assertAlmostEqual(stamps.at(1000.0, 10.0), 10.0)
        self.assertAlmostEqual(stamps.at(1000.1, 10.13), 10.1, 4)  # 30 ms late, but for what clocks may differ
        self.assertAlmostEqual(stamps.at(1000.2, 10.19), 10.19, 4)  # quicker than the first one by 10 ms
        self.assertAlmostEqual(stamps.at(1000.3, 10.35), 10.29, 4)
        self.assertAlmostEqual(stamps.at(5000.0, 10.4), 10.4)
        self.assertAlmostEqual(stamps.at(4999.9, 10.5), 10.4)
        self.assertEqual(stamps.at(0.0, 10.6), 10.6)

    def test_switch(self) -> None:
        """A command gets its word; one that fails makes a step unsure, one that isn't there ends the test; nobody switches without one and a terminal."""
        with tempfile.TemporaryDirectory() as folder:
            name = os.path.join(folder, "said")
            switch = Switch(f"sh -c 'echo $0 >> {name}'", "switch the box", None)
            switch.goes("off", True)
            switch.goes("on", False)
            switch.look(True)
            self.assertEqual(text_of(name), "off\non\n")
        with self.assertRaisesRegex(Unsure, "false ended with status 1"):
            Switch("false", "", None).goes("off", True)
        with self.assertRaisesRegex(program.Refused, "/none/relay: No such file or directory"):
            Switch("/none/relay", "", None).goes("off", True)
        told: list[tuple[str, bool]] = []
        person = Switch(None, "switch the box", lambda text, is_waited_for: told.append((text, is_waited_for)))
        person.goes("off", True)
        self.assertEqual((told, bool(person), bool(Switch(None, "", None))), ([("switch the box off", True)], True, False))


class Alone(threading.Thread):
    """The box that restbus plays, or a frame each 100 ms of another address, on a virtual bus of python-can, until it is told to stop."""

    def __init__(self, channel: str, planned: Planned, other: int | None = None) -> None:
        super().__init__(daemon=True)
        import can
        self._can, self._bus, self._other = can, can.Bus(interface="virtual", channel=channel), other
        self._box = Rest(planned.tables, [], Settings(frozenset(("TOOL", "ENGINE"))), Values(planned.tables), self._put)
        self.is_over = threading.Event()

    def _put(self, identifier: int, data: bytes) -> None:
        self._bus.send(self._can.Message(arbitration_id=identifier, data=data, is_extended_id=True))

    def run(self) -> None:
        if self._other is None:
            self._box.begin(time.monotonic())
        while not self.is_over.is_set():
            if self._other is not None:
                self._put(0x18FEEE00 | self._other, bytes(8))
                time.sleep(0.1)
                continue
            message = self._bus.recv(0.002)
            if message:
                self._box.heard(time.monotonic(), message.arbitration_id, bytes(message.data))
            self._box.agenda.wake(time.monotonic())
        self._bus.shutdown()


@needs("can", "python3-can")
class OnWires(InProcess):
    def tried(self, channel: str, other: int | None, *words: str) -> tuple[int, str, str]:
        box = Alone(channel, Planned(self.plan, source_in(self.plan), "GEARBOX"), other)
        box.start()
        try:
            return self.run_of(self.plan, "GEARBOX", "--interface", "virtual", "--channel", channel, *words)
        finally:
            box.is_over.set()
            box.join()

    def test_virtual(self) -> None:
        """The same steps on a bus of python-can: with a log in which the lines that are told stand. A busy machine makes the box late: then what failed is told."""
        log = self.path("bench.log")
        status, text, errors = self.tried("probe", None, "--only", "asked", "refuses", "power", "--jitter", "100", "--log", log, "--json")
        row = json.loads(text)
        self.assertEqual((status, errors, [(step["step"], step["verdict"]) for step in row["steps"]]), (0, "", [("asked", PASSED), ("refuses", PASSED), ("power", SKIPPED)]))
        lines = text_of(log).splitlines()
        line = lines[row["steps"][1]["measures"][0]["line"] - 1]
        self.assertRegex(line, r"18E8FF82#01FFFFFFF[0-9A-F]{1}00ED00|18E8FF82#01FFFFFF[0-9A-F]{2}00ED00")
        times = [float(one[1:one.index(")")]) for one in lines]
        self.assertEqual(times, sorted(times))

    def test_not_alone(self) -> None:
        status, text, errors = self.tried("others", 33, "--only", "asked", "--html", self.path("report.html"))
        self.assertEqual((status, text, os.path.exists(self.path("report.html"))), (1, "", False))
        self.assertIn("frames from address 33 are heard: GEARBOX isn't alone on this bus (--anyway)", errors)


if __name__ == "__main__":
    unittest.main()
