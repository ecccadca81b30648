"""The program inside this process, by the library of host/, and where the tools find the program on each system."""

import functools
import gzip
import itertools
import os
import shutil
import subprocess
import sys
import threading
import unittest
import warnings
from collections.abc import Callable, Iterator
from typing import IO, Any
from unittest import mock

import j39plan
from j39plan import inside, program
from j39plan.log.reports import in_blocks
from tests.support import TOOLS, TOP, InFolder, example

PLAN = example("first_plan.toml")
OK = "ok 2 units 1 groups 1 flows\n"
STORED = os.path.join(TOP, "program", program.STORED)
LIBRARY = program.LIBRARIES[1]
DEVICE, BAD_WORDS = "j39plan: device fault\n", "j39plan: bad command line\n"
# Words, and how an order ends: its status, standard output and standard error, as README has them.
ENDS = (
    (["check", PLAN], 0, OK, ""), (["check", "/dev/stdin"], 2, "refused Missing top key version\n", ""), (["check", "missing.toml"], 4, "", DEVICE),
    (["check", TOP], 4, "", DEVICE), (["jump"], 2, "", BAD_WORDS), (["check"], 2, "", BAD_WORDS),
    (["frame", "0CF00400#FFFFFFE02EFFFFFF"], 0, "frame 0CF00400#FFFFFFE02EFFFFFF\npriority 3 pgn 61444 from 0 to all\n", ""), (["check", "\u00e4.toml"], 4, "", DEVICE),
)
# A tool that calls the program by words, and says whether a process was started for it.
CALL = f"""import subprocess, sys
sys.path.insert(0, {TOOLS!r})
from j39plan import program
started, run = [], subprocess.run
subprocess.run = lambda *words, **how: started.append(words) or run(*words, **how)
text = ""
def main():
    global text
    status, text = program.call(sys.argv[1:])
    return status
status = program.status_of(main)
sys.stdout.write(text + ("by a process" if started else "inside"))
sys.exit(status)
"""


def built() -> bool:
    """Whether the library is there, which is built where it can be."""
    if not os.path.exists(LIBRARY) and shutil.which("gcc") and shutil.which("make"):
        subprocess.run(["make", "-s", "-C", os.path.join(TOP, "host"), "out/libj39plan.so"], check=True)
    return os.path.exists(LIBRARY)


class Inside(InFolder):
    @classmethod
    def setUpClass(cls) -> None:
        if not built():
            raise unittest.SkipTest("there is no library of host/, and no gcc that builds it")
        super().setUpClass()

    def ended(self, words: list[str], name: str = STORED, **variables: str) -> tuple[int, str, str]:
        """How a call ends in a process that has these variables: status, standard output and standard error."""
        environment = {**os.environ, "J39PLAN": name, **variables}
        ran = subprocess.run([sys.executable, "-c", CALL, *words], stdin=subprocess.DEVNULL, capture_output=True, env=environment, check=False)
        return ran.returncode, ran.stdout.decode(), ran.stderr.decode()

    def within(self, do: Callable[[], Any]) -> Any:
        """What this gives where orders run inside this process or not at all."""
        program.inside.cache_clear()
        with mock.patch.dict(os.environ, {program.SWITCH: "1", "J39PLAN": STORED}), mock.patch("subprocess.run", side_effect=AssertionError):
            try:
                return do()
            finally:
                program.inside.cache_clear()

    def test_texts_and_statuses_are_those_of_the_program(self) -> None:
        for words, status, text, complaint in ENDS:
            with mock.patch("os.write") as write:
                self.assertEqual(self.within(functools.partial(program.call, words)), (status, text), words)
            write.assert_called_once_with(2, complaint.encode())

    def test_each_thread_has_a_copy(self) -> None:
        found: list[tuple[int, str]] = []

        def many() -> None:
            found.extend(program.call(["check", PLAN]) for _ in range(20))

        def all_threads() -> None:
            threads = [threading.Thread(target=many) for _ in range(4)]
            for thread in threads:
                thread.start()
            for thread in threads:
                thread.join()

        self.within(all_threads)
        self.assertEqual(found, 80 * [(0, OK)])

    def test_the_switch(self) -> None:
        for asked, how in (("1", "inside"), ("0", "by a process")):
            self.assertEqual(self.ended(["check", PLAN], **{program.SWITCH: asked}), (0, f"{OK}{how}", ""))
        self.assertEqual(self.ended(["check", "missing.toml"], **{program.SWITCH: "1"}), (4, "inside", DEVICE))

    def test_the_first_orders_run_by_processes(self) -> None:
        """Where nothing is asked for, until loading the library costs less."""
        program.inside.cache_clear()
        self.addCleanup(program.inside.cache_clear)
        started = mock.Mock(wraps=subprocess.run)
        with mock.patch("j39plan.program._ORDERS", itertools.count()), mock.patch("subprocess.run", started), mock.patch.dict(os.environ, {"J39PLAN": STORED}):
            os.environ.pop(program.SWITCH, None)
            for _ in range(program.BY_PROCESSES + 5):
                self.assertEqual(program.call(["check", PLAN]), (0, OK))
        self.assertEqual(started.call_count, program.BY_PROCESSES)

    def test_a_program_that_is_none(self) -> None:
        """By a process it is one that can't be run; inside, where that is asked for, too."""
        none = self.write("none", "#!/bin/sh\necho ok\n")
        os.chmod(none, 0o755)
        self.assertEqual(self.ended(["check", PLAN], none)[:2], (0, "ok\nby a process"))
        status, _, said = self.ended(["check", PLAN], none, **{program.SWITCH: "1"})
        self.assertEqual((status, said.count("\n"), f"{none} can't be run inside this process" in said), (69, 1, True), said)

    def test_a_damaged_program_is_refused_by_its_record(self) -> None:
        damaged = os.path.join(self.folder, "damaged")
        with open(STORED, "rb") as file, open(damaged, "wb") as copy:
            copy.write(file.read() + b"\0")
        shutil.copy(f"{STORED}.txt", f"{damaged}.txt")
        status, _, said = self.ended(["check", PLAN], damaged, **{program.SWITCH: "1"})
        self.assertEqual((status, said.count("\n"), "can't be mapped: -4" in said), (69, 1, True), said)


class Logs(InFolder):
    """What the tools tell of logs is the same by processes and by sessions inside this one."""

    PLAN, LOG = example("two_units_one_address.toml"), example("two_units_one_address.drive.log")

    setUpClass = Inside.setUpClass

    def told(self, tool: str, *words: str, text: bytes | None = None) -> tuple[int, bytes, bytes]:
        """What a tool tells inside and by processes, which is the same: status, standard output and standard error."""
        ended = []
        for asked in ("1", "0"):
            environment = {**os.environ, "J39PLAN": STORED, program.SWITCH: asked}
            ran = subprocess.run([sys.executable, os.path.join(TOOLS, tool), *words], input=text, capture_output=True, env=environment, check=False)
            ended.append((ran.returncode, ran.stdout, ran.stderr))
        within, beside = ended
        self.assertEqual(within, beside, (tool, words))
        return within

    def bytes_of(self, name: str) -> bytes:
        with open(name, "rb") as file:
            return file.read()

    def test_tools(self) -> None:
        """A log, several of one drive, one that is packed, one that comes by a pipe, and one interface of it."""
        packed = self.path("drive.log.gz")
        with gzip.open(packed, "wb") as file:
            file.write(self.bytes_of(self.LOG))
        for words in (["signals.py", self.PLAN, self.LOG], ["signals.py", self.PLAN, self.LOG, example("two_units_one_address.defended.log")],
                      ["signals.py", "--interface", "can1", self.PLAN, self.LOG], ["signals.py", self.PLAN, packed], ["against.py", self.PLAN, self.LOG]):
            self.assertEqual(self.told(*words)[0], 0, words)
        self.assertGreater(len(self.told("signals.py", self.PLAN, "-", text=self.bytes_of(self.LOG))[1]), 100)

    def test_what_is_refused(self) -> None:
        """A plan with choices, one with findings, a file that is no log, one that isn't there, and a damaged one, behind what was read of it."""
        noise = self.write("noise.log", "no frame\n" * 9)
        damaged = self.path("damaged.log.gz")
        packed = gzip.compress(self.bytes_of(self.LOG) * 4000)
        with open(damaged, "wb") as file:
            file.write(packed[:len(packed) // 2])
        for status, words in ((1, ["signals.py", example("truck_line.toml"), self.LOG]), (2, ["signals.py", self.PLAN, noise]), (4, ["signals.py", self.PLAN, "missing.log"]),
                              (4, ["signals.py", self.PLAN, damaged])):
            ended, _, said = self.told(*words)
            self.assertEqual((ended, said.count(b"\n")), (status, 1), (words, said))
        self.assertIn(b"the plan has findings", self.told("against.py", example("findings/f02_same_fixed_address.toml"), self.LOG)[2])

    def of_module(self, do: Callable[[j39plan.Plan], Any]) -> list[Any]:
        """What this gives of a plan inside and by processes; of a refusal its status and text."""
        found = []
        for asked in ("1", "0"):
            program.inside.cache_clear()
            with mock.patch.dict(os.environ, {program.SWITCH: asked, "J39PLAN": STORED}):
                try:
                    found.append(do(j39plan.read_plan(self.PLAN)))
                except j39plan.Refused as refused:
                    found.append((refused.status, str(refused)))
        program.inside.cache_clear()
        return found

    def test_the_module(self) -> None:
        def told(plan: j39plan.Plan) -> list[str]:
            return [str(report) for told in (j39plan.follow(plan, self.LOG), j39plan.follow(plan, self.LOG, all_frames=True), j39plan.follow(plan, self.LOG, interface="can1"))
                    for report in told]

        def of_no_log(plan: j39plan.Plan) -> list[Any]:
            return list(j39plan.follow(plan, self.PLAN))

        drives = (functools.partial(j39plan.drive, log=self.LOG, interface=interface) for interface in (None, "can1"))
        asked: list[Callable[[j39plan.Plan], Any]] = [told, of_no_log, *drives]
        for do in asked:
            with warnings.catch_warnings():
                warnings.simplefilter("ignore")
                inside, beside = self.of_module(do)
            self.assertEqual(inside, beside)

    def test_no_process_is_started(self) -> None:
        def first(plan: j39plan.Plan) -> str:
            with mock.patch("subprocess.Popen", side_effect=AssertionError):
                reports = j39plan.follow(plan, self.LOG)
                told = str(next(reports))
                reports.close()  # in the midst: the order is ended
            return told

        program.inside.cache_clear()
        self.addCleanup(program.inside.cache_clear)
        with mock.patch.dict(os.environ, {program.SWITCH: "1", "J39PLAN": STORED}):
            self.assertIn("EEC1", first(j39plan.read_plan(self.PLAN)))

    def session(self, words: list[str]) -> inside.Session:
        """A session of a program of its own."""
        return inside.Inside(LIBRARY, STORED, None).session(words, {self.PLAN: self.bytes_of(self.PLAN)})

    def test_pieces(self) -> None:
        """Of any length they give one text; a session that has ended takes no more."""
        log, words = self.bytes_of(self.LOG), ["follow", "--", self.PLAN, program.INPUT]
        whole = subprocess.run([STORED, *words], input=log, capture_output=True, check=True).stdout
        for size in (1, 7, 4096):
            with self.session(words) as session:
                self.assertEqual(session.answer(log[at:at + size] for at in range(0, len(log), size)).read(), whole)
                self.assertEqual((session.ended(), session.feed(b"more")), ((0, b""), b""))

    def test_a_refusal_before_the_log(self) -> None:
        """It is told, however much of the log is there, and nothing more is taken of that."""
        taken: list[int] = []
        with self.session(["follow", "--", "missing.toml", program.INPUT]) as session:
            self.assertEqual(session.answer(taken.append(number) or b"" for number in range(3)).read(), b"")  # type: ignore[func-returns-value]
            self.assertEqual((session.ended(), taken), ((4, DEVICE.encode()), [0]))

    def test_a_fault_of_the_log(self) -> None:
        """What was read before it is told; then it is raised."""
        def pieces() -> Iterator[bytes]:
            yield b"(1.0) can0 0CF00400#FFFFFFE02EFFFFFF\n"
            raise OSError("gone")

        with self.session(["follow", "--", self.PLAN, program.INPUT]) as session:
            self.assertIn(b"group EEC1 from ENGINE", session.answer(in_blocks(pieces())).read())
            with self.assertRaisesRegex(OSError, "gone"):
                session.ended()

    def test_two_at_once(self) -> None:
        """And one that is dropped in the midst, while its program is freed."""
        words = ["follow", "--", self.PLAN, program.INPUT]
        with self.session(words) as first, self.session(words) as second:
            parts = [session.feed(self.bytes_of(self.LOG)) + session.end() for session in (first, second)]
        self.assertEqual(parts[0], parts[1])
        dropped = self.session(words)
        dropped.feed(b"(1.0) can0 0CF00400#FF")
        del dropped


class OnWindows(InFolder):
    """With a stand-in for the system's name."""

    def setUp(self) -> None:
        super().setUp()
        self.enterContext(mock.patch("sys.platform", "win32"))
        for clear in (program.repository_program.cache_clear, program.inside.cache_clear):
            clear()
            self.addCleanup(clear)

    def test_the_program(self) -> None:
        self.assertEqual(program.repository_program(), os.path.join(TOP, "program", "j39plan.exe"))
        with mock.patch("j39plan.program.ON_WINDOWS", "none"):
            program.repository_program.cache_clear()
            self.assertIsNone(program.repository_program())

    def test_inside_it_is_the_stored_one(self) -> None:
        if not built():
            self.skipTest("there is no library of host/, and no gcc that builds it")
        variables = {program.SWITCH: "1", "J39PLAN": os.path.join(TOP, "program", "j39plan.exe")}
        with mock.patch("j39plan.program.LIBRARIES_ON_WINDOWS", program.LIBRARIES), mock.patch.dict(os.environ, variables):
            self.assertEqual(program.call(["check", PLAN]), (0, OK))

    def test_a_plan_by_standard_input(self) -> None:
        saved = os.dup(0)
        with open(PLAN, "rb") as file:
            os.dup2(file.fileno(), 0)
        try:
            with mock.patch("builtins.open", wraps=open) as opens, program.copied(program.INPUT) as copy, open(copy, "rb") as text:
                with open(PLAN, "rb") as plan:
                    self.assertEqual(text.read(), plan.read())
            self.assertNotIn(program.INPUT, [call.args[0] for call in opens.call_args_list])
        finally:
            os.dup2(saved, 0)
            os.close(saved)
        self.assertFalse(os.path.exists(copy))

    def test_an_interrupt(self) -> None:
        with mock.patch("os.kill", side_effect=AssertionError), self.assertRaises(SystemExit) as end:
            program.interrupted()
        self.assertEqual(end.exception.code, 130)


class Temporary(unittest.TestCase):
    def test_a_file_is_closed_and_then_gone(self) -> None:
        files: list[IO[bytes]] = []

        def write(file: IO[bytes]) -> None:
            files.append(file)
            file.write(b"text")

        with program.temporary(write, ".toml") as name:
            self.assertTrue(files[0].closed and name.endswith(".toml"))
            with open(name, "rb") as file:
                self.assertEqual(file.read(), b"text")
        self.assertFalse(os.path.exists(name))

    def test_what_cannot_be_written_is_gone(self) -> None:
        names: list[str] = []

        def fail(file: IO[bytes]) -> None:
            names.append(file.name)
            raise OSError("full")

        with self.assertRaises(OSError), program.temporary(fail):
            self.fail("it was written")
        self.assertFalse(os.path.exists(names[0]))
