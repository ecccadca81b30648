"""What the tools make of files that aren't what they want, and of those that aren't regular ones."""

import gzip
import importlib.util
import os
import random
import re
import signal
import subprocess
import sys
import tempfile
import time
import unittest
from typing import Any

from j39plan import program
from j39plan.log.reports import CONVERTER
from tests.support import TOOLS, InFolder, example, needs, run, text_of

PLAN, LOG = example("tractor_and_implement.toml"), example("tractor_and_implement.start.log")

# How else than by its name a file can be given to a command.
FORMS = (
    "cat {file} | {before} /dev/stdin {behind}",
    "{before} /dev/stdin {behind} < {file}",
    "{before} /dev/fd/7 {behind} 7< {file}",
    "{before} <(cat {file}) {behind}",
    "mkfifo fifo; cat {file} > fifo & {before} fifo {behind}",
    "ln -s /dev/stdin link; {before} link {behind} < {file}",
)
# Such names, as they are, and in the title and the last line of a page.
OTHER_NAME = re.compile(r"/dev/(?:stdin|fd/\d+)|\b(?:fifo|link)\b|(?<=>Plan )(?:stdin|\d+)(?=<)|(?<=SHA-256 of <code>)(?:stdin|\d+)(?=</code>)")

RANDOM = random.Random(33).randbytes(20000)

# Whether plot.py can draw here.
DRAWS = importlib.util.find_spec("matplotlib") is not None


def tool(name: str) -> str:
    """A tool as a shell calls it."""
    return f"{sys.executable} {os.path.join(TOOLS, name)}"


class NoRegularFiles(InFolder):
    def answer(self, command: str) -> tuple[int, str]:
        """The status of a shell's command in a folder of its own, and its standard output."""
        with tempfile.TemporaryDirectory() as folder:
            ended = subprocess.run(["bash", "-c", command], cwd=folder, capture_output=True, text=True, check=False, timeout=60,
                                   env={**os.environ, "J39PLAN": os.path.abspath(program.path())})
        return ended.returncode, ended.stdout

    def is_judged_alike(self, before: str, file: str, behind: str = "") -> None:
        """A file is judged alike however it is given."""
        status, answer = self.answer(f"{before} {file} {behind}")
        name = os.path.basename(file)
        answer = answer.replace(file, "F").replace(f">Plan {name}<", ">Plan F<").replace(f"<code>{name}</code>", "<code>F</code>")
        self.assertNotIn(status, (program.DEVICE, program.FAULT))
        for form in FORMS:
            other_status, other = self.answer(form.format(before=before, file=file, behind=behind))
            self.assertEqual((other_status, OTHER_NAME.sub("F", other)), (status, answer), form)

    def test_plans(self) -> None:
        refused = self.write("refused.toml", "version = 1\n[[unit]]\nlabel = A\n")
        self.is_judged_alike(tool("where.py"), refused)
        self.is_judged_alike(tool("where.py"), example("findings/f02_same_fixed_address.toml"))
        self.is_judged_alike(tool("startup.py"), PLAN)
        self.is_judged_alike(tool("report.py"), PLAN)
        self.is_judged_alike(tool("against.py"), PLAN, LOG)
        self.is_judged_alike(tool("signals.py"), PLAN, LOG)

    def test_plans_of_a_job(self) -> None:
        self.is_judged_alike(f"CHECK='{tool('where.py')}' {os.path.join(TOOLS, 'check-plans')}", PLAN)

    def test_logs(self) -> None:
        self.is_judged_alike(f"{tool('against.py')} {PLAN}", LOG)
        self.is_judged_alike(f"{tool('signals.py')} {PLAN}", LOG)

    def test_plan_and_log(self) -> None:
        both = f"{tool('against.py')} <(cat {PLAN}) <(cat {LOG})"
        status, answer = self.answer(f"{tool('against.py')} {PLAN} {LOG}")
        self.assertEqual((status, status), (self.answer(both)[0], 1))
        self.assertEqual(OTHER_NAME.sub("F", self.answer(both)[1]), answer.replace(PLAN, "F").replace(LOG, "F"))

    def test_a_plan_without_end(self) -> None:
        for name in ("where.py", "startup.py", "report.py", "against.py"):
            self.assertEqual(run(name, "/dev/zero", *[LOG] * (name == "against.py")), (2, "", "j39plan: input too long\n"))

    def test_a_folder_and_a_file_that_may_not_be_read(self) -> None:
        for name in ("where.py", "startup.py", "report.py", "against.py"):
            more = [LOG] * (name == "against.py")
            said = f"{name[:-3]}: {self.folder}: Is a directory\n"
            self.assertEqual(run(name, self.folder, *more), (4, "", said))
        self.assertEqual(run("against.py", PLAN, self.folder), (4, "", f"against: {self.folder}: Is a directory\n"))


class OtherFiles(InFolder):
    def setUp(self) -> None:
        super().setUp()
        with open(program.path(), "rb") as file:
            built = file.read()
        self.files = []
        for name, data in {
            "empty": b"", "random": RANDOM, "program": built, "utf16": text_of(PLAN).encode("utf-16"), "line": b"a" * 100000,
            "brackets": b"x = " + b"[" * 20000, "feeds": b"\n" * 50000, "returns": text_of(PLAN).replace("\n", "\r").encode(),
            "nul": bytes(3000), "log": text_of(LOG).encode(),
        }.items():
            self.files.append(self.path(name))
            with open(self.path(name), "wb") as file:
                file.write(data)

    def test_as_a_plan(self) -> None:
        """The program's refusal with its line and a hint, as `where` has it, and status 2."""
        for name in self.files:
            refused = program.call(["check", name])[1].strip()
            self.assertTrue(refused.startswith("refused "), name)
            placed = run("where.py", name)[1]
            for words in (["startup.py", name], ["report.py", name], ["against.py", name, LOG], ["signals.py", name, LOG]):
                self.assertEqual(run(*words), (2, "", f"{words[0][:-3]}: {placed}"))
            for form in ((), ("--github",)):
                status, answer, said = run("where.py", *form, name)
                self.assertEqual((status, said), (2, ""), name)
                self.assertIn(refused, answer.splitlines()[0])

    def test_as_a_log(self) -> None:
        """What has lines, and none of them a frame, is refused as no log, and nothing is put; an empty file is a log without frames. Of a log
        each line is counted as `follow` counts it, and what is put is whole."""
        for name in self.files:
            what = lines_without_frames(name)
            picture = self.path(f"{os.path.basename(name)}.svg")
            pictures = [["plot.py", "--addresses", "-o", picture]] if DRAWS and name.endswith(("random", "log")) else []
            for words in (["against.py"], ["signals.py"], *pictures):
                tool = words[0][:-3]
                status, answer, said = run(*words, PLAN, name)
                if what is not None:
                    self.assertEqual((status, answer), (2, ""), name)
                    self.assertEqual(said, f"{tool}: {name} has no frame, and {what} lines that spell none: {CONVERTER}\n")
                elif tool == "against":
                    *found, count = answer.splitlines()
                    self.assertEqual((status, count), (1, f"deviations {len(found)}"), name)
                    self.assertEqual(unnamed(said), passed_over(tool, name), name)
                elif tool == "signals":
                    self.assertEqual((status, unnamed(said)), (0, passed_over(tool, name)), name)
                    self.assertEqual(answer.count("\n") <= 1, not name.endswith("log"))
            self.assertEqual(os.path.exists(picture), bool(pictures) and what is None)

    def test_a_log_that_is_cut_anywhere(self) -> None:
        """What is left of it is compared: nothing but its last line is lost, and that isn't told of a unit."""
        text, chance = text_of(LOG), random.Random(7)
        for end in sorted(chance.sample(range(400, len(text)), 6)):
            status, answer, said = run("against.py", PLAN, self.write("cut.log", text[:end]))
            *found, count = answer.splitlines()
            self.assertEqual((status, count), (1 if found else 0, f"deviations {len(found)}"), end)
            self.assertRegex(said, r"\A(against: 1 lines spell no frame, as [^\n]*cut.log:\d+\n)?\Z")

    def test_a_log_of_frames_of_11_bits(self) -> None:
        """It is a log, and has nothing of the plan: that is said in one line."""
        log = self.write("short.log", "".join(f"({at}.0) can0 1{at}3#0011\n" for at in range(10)))
        for tool, status in (("against", 1), ("signals", 0)):
            ended, answer, said = run(f"{tool}.py", example("truck_queues.toml"), log)
            self.assertEqual((ended, said), (status, f"{tool}: no frame of the log is one of J1939: their identifiers have 11 bits\n"))
            self.assertEqual([line for line in answer.splitlines() if log in line], [])

    def test_formats_of_other_programs(self) -> None:
        """ASC, TRC, CSV and the lines that candump writes without -L are no log, and the way to one is told."""
        for name, text in {
            "drive.asc": " 0.004000 1  18FEEE00x       Rx   d 8 8A FF 00 30 FF FF FF FF\n",
            "drive.trc": "     1         4.0 Rx 18FEEE00  8    8A FF 00 30 FF FF FF FF\n",
            "drive.csv": "timestamp,arbitration_id,extended,remote,error,dlc,data\n0.004,0x18feee00,1,0,0,8,iv8AMP////8=\n",
            "drive.txt": "  can0  18FEEE00   [8]  8A FF 00 30 FF FF FF FF\n",
        }.items():
            log = self.write(name, text)
            picture = [["plot.py", PLAN, log, "SPN110", "-o", self.path("a.svg")]] if DRAWS else []
            for words in (["against.py", PLAN, log], ["signals.py", PLAN, log], *picture):
                status, answer, said = run(*words)
                self.assertEqual((status, answer), (2, ""), words)
                self.assertIn(f"has no frame, and {text.count(chr(10))} lines that spell none: {CONVERTER}\n", said)
            self.assertFalse(os.path.exists(self.path("a.svg")))

    def test_one_of_several_logs_that_is_none(self) -> None:
        """It is named; a log of one frame is one, and each is named."""
        drive, short, other = self.write("a.log", text_of(LOG)), self.write("b.log", "18FEEE00#8AFF0030FFFFFFFF\n"), self.write("c.asc", "date Mon Nov 23\n")
        for tool in ("against.py", "signals.py"):
            self.assertIn(run(tool, PLAN, drive, short)[0], (0, 1))
            self.assertEqual(run(tool, PLAN, drive, other)[::2], (2, f"{tool[:-3]}: {other} has no frame: {CONVERTER}\n"))

    def test_packed_logs(self) -> None:
        """One that gzip has packed is read as it is, alone and beside others; what is left of a damaged one isn't taken for the whole. One from a pipe is told apart."""
        with gzip.open(self.path("a.log.gz"), "wb") as file:
            file.write(text_of(LOG).encode())
        with open(self.path("a.log.gz"), "rb") as packed:
            data = packed.read()
        with open(self.path("cut.log.gz"), "wb") as cut:
            cut.write(data[:len(data) // 2])
        for tool in ("against.py", "signals.py", "fleet.py"):
            plainly = run(tool, PLAN, self.write("a.log", text_of(LOG)))
            unpacked = run(tool, PLAN, self.path("a.log.gz"))
            self.assertEqual((unpacked[0], [part.replace("a.log.gz", "a.log").split() for part in unpacked[1:]]), (plainly[0], [part.split() for part in plainly[1:]]))
            status, _, said = run(tool, PLAN, self.path("cut.log.gz"))
            self.assertEqual((status, "it can't be unpacked" in said), (4, True), said)
        one, both = (run("signals.py", PLAN, *logs)[1].count("\n") - 1 for logs in ([self.path("a.log")], [self.path("a.log.gz"), self.path("a.log")]))
        self.assertEqual((both, one > 10), (2 * one, True))
        with open(self.path("a.log.gz"), "rb") as packed:
            ended = subprocess.run(["bash", "-c", f"{TOOLS}/against.py {PLAN} <(cat)"], stdin=packed, capture_output=True, text=True, check=False,
                                   env={**os.environ, "J39PLAN": program.path()})
        self.assertRegex(ended.stderr, r" has no frame, and .*: it is packed by gzip: read it as <\(zcat FILE\)\n")

    def test_names_of_any_bytes(self) -> None:
        """A name that is no text, or has a line feed, is no fault of a plan."""
        text = text_of(PLAN)
        for name in (b"\xff.toml", b"a\nb.toml"):
            with open(os.path.join(os.fsencode(self.folder), name), "w", encoding="utf-8") as file:
                file.write(text)
            for words in (["where.py"], ["where.py", "--github"], ["startup.py"]):
                status, answer, said = run(*words, os.path.join(self.folder, os.fsdecode(name)))
                self.assertEqual(status, 0, said)
            self.assertEqual(program.call(["run", PLAN, self.write("start.schedule", answer)])[0], 0)


def lines_without_frames(log: str) -> str | None:
    """How many lines of a log spell no frame, where it has such and none with one; else None."""
    *_, frames, _, skipped, _, bad, _, _ = program.call(["follow", PLAN, log])[1].split()
    return bad if (frames, skipped) == ("0", "0") and bad != "0" else None


def unnamed(said: str) -> str:
    """What a tool says, without the names of interfaces, which random bytes may be, and without a line that spells no frame."""
    said = re.sub(r"(?m)(lines spell no frame), as .*:\d+$", r"\1", said)
    return re.sub(r"(?m)^(\w+: ).* is read, the first of the log; (\d+) lines of .* are passed over.*$", r"\1the first interface is read; \2 lines of others are passed over", said)


def passed_over(tool: str, log: str) -> str:
    """What a tool says of the lines of a log that `follow` counts as bad or elsewhere, and of one without a frame."""
    *_, frames, _, _, _, bad, _, elsewhere = program.call(["follow", PLAN, log])[1].split()
    texts = [f"{log} has no frame"] * (frames == "0")
    texts += [f"{bad} lines spell no frame"] * (bad != "0")
    texts += [f"the first interface is read; {elsewhere} lines of others are passed over"] * (elsewhere != "0")
    return "".join(f"{tool}: {text}\n" for text in texts)


class StandardInput(InFolder):
    def test_a_log_by_its_dash(self) -> None:
        """What comes by standard input is told as what stands in a file."""
        for words in (["against.py", PLAN], ["signals.py", PLAN], ["fleet.py", PLAN]):
            status, answer, said = run(*words, LOG)
            wanted = re.sub(" +", " ", answer).replace(LOG, "/dev/stdin"), said.replace(LOG, "/dev/stdin")
            with open(LOG, encoding="ascii") as file:
                ended, given, told = run(*words, "-", text=file.read())
            self.assertEqual((ended, re.sub(" +", " ", given), told), (status, *wanted))
            self.assertGreater(given.count("\n"), 5)

    @needs("matplotlib", "python3-matplotlib")
    def test_a_picture_of_it(self) -> None:
        self.assertEqual(run("plot.py", PLAN, "-", "SPN110", "-o", self.path("a.svg"), text=text_of(LOG))[0], 0)
        with open(self.path("a.svg"), encoding="utf-8") as file:
            self.assertIn("SPN110", file.read())


class Interrupted(InFolder):
    def test_an_interrupt_has_no_traceback(self) -> None:
        """A tool that waits for its input ends by the signal, as a shell's other commands do."""
        os.mkfifo(self.path("fifo"))
        for words in (["where.py", "fifo"], ["startup.py", "fifo"], ["against.py", "fifo", LOG]):
            ended, answer, said = self.ended(words, interrupts=1)
            self.assertEqual((ended, answer, said), (-signal.SIGINT, "", ""), words)

    def test_an_interrupt_ends_a_log_and_not_the_tool(self) -> None:
        """Where the log is a pipe, the first interrupt is its end: what came is told, as of a file. It ends also where who writes it goes on."""
        os.mkfifo(self.path("fifo"))
        lines = text_of(LOG)
        for words in (["against.py", PLAN, "fifo"], ["signals.py", PLAN, "fifo"]):
            ended, answer, said = self.ended(words, interrupts=1, lines=lines)
            status, whole, said_of_file = run(*words[:2], LOG)
            self.assertEqual((ended, answer.replace("fifo", LOG), said), (status, whole, said_of_file), words)
        if DRAWS:
            ended, answer, said = self.ended(["plot.py", PLAN, "fifo", "SPN190", "-o", "a.svg"], interrupts=1, lines=lines)
            self.assertEqual((ended, answer, said), (0, "", run("plot.py", PLAN, LOG, "SPN190", "-o", self.path("b.svg"))[2]))
            self.assertIn("EEC1.SPN190", text_of(self.path("a.svg")))

    def test_a_second_interrupt_ends_the_tool(self) -> None:
        os.mkfifo(self.path("fifo"))
        ended, answer, said = self.ended(["against.py", PLAN, "fifo"], interrupts=2, lines="")
        self.assertEqual((ended, answer, said), (-signal.SIGINT, "", ""))

    def test_an_interrupt_that_is_passed_over_by_the_shell(self) -> None:
        """As `trap '' INT` has it: what came is told when the log ends."""
        os.mkfifo(self.path("fifo"))
        ended, answer, _ = self.ended(["against.py", PLAN, "fifo"], interrupts=3, lines=text_of(LOG), handler=signal.SIG_IGN)
        self.assertEqual((ended, answer.replace("fifo", LOG)), run("against.py", PLAN, LOG)[:2])

    def ended(self, words: list[str], interrupts: int, lines: Any = None, handler: Any = signal.SIG_DFL) -> tuple[int, str, str]:
        """How a tool ends that reads a FIFO, into which these lines are written, and that is interrupted then: its status, standard output and
        standard error. The FIFO stays open until the tool has ended, or where it passes over interrupts until these were sent."""
        started = subprocess.Popen(
            [sys.executable, os.path.join(TOOLS, words[0]), *words[1:]], cwd=self.folder, text=True,
            stdout=subprocess.PIPE, stderr=subprocess.PIPE, env={**os.environ, "J39PLAN": os.path.abspath(program.path())},
            preexec_fn=lambda: signal.signal(signal.SIGINT, handler),
        )
        writer = os.open(self.path("fifo"), os.O_WRONLY)  # once it reads
        if lines is not None:  # more than a pipe holds, so that the tool has begun with the log behind it
            os.write(writer, lines.encode() + b"\n" * 200000)
        time.sleep(0.1)
        for _ in range(interrupts):
            started.send_signal(signal.SIGINT)
            time.sleep(0.1)
        if handler is signal.SIG_IGN:
            os.close(writer)
        answer, said = started.communicate(timeout=60)
        if handler is not signal.SIG_IGN:
            os.close(writer)
        return started.returncode, answer, said


if __name__ == "__main__":
    unittest.main()
