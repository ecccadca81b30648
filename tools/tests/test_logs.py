"""The routes from logs of other tools to `read`, as docs/guide/LOGS.md shows them."""

import os
import re
import shutil
import signal
import subprocess
import sys
import time
import unittest

from j39plan import program
from tests.support import InFolder, TOP, example, needs, text_of, there

PLAN = example("tractor_and_implement.toml")
LOG = example("tractor_and_implement.start.log")

# The log without its bad line.
LINES = [line for line in text_of(LOG).splitlines() if not line.endswith(" R")]

PAGE = text_of(os.path.join(TOP, "docs", "guide", "LOGS.md"))

# Its sentences, wherever their lines break.
PROSE = " ".join(PAGE.split())


class ShownLines(InFolder):
    def shown(self, line: str) -> None:
        """Runs a line that the guide shows."""
        self.assertIn(line, PAGE.replace("\\|", "|"))
        self.shell(line)

    def shell(self, line: str) -> None:
        """Runs a line in the folder."""
        path = os.pathsep.join([os.path.dirname(sys.executable), os.environ["PATH"]])
        subprocess.run(["sh", "-c", line], cwd=self.folder, check=True, capture_output=True, env={**os.environ, "PATH": path})


class Logs(ShownLines):
    def read(self, name: str) -> tuple[list[str], str]:
        """What `read` says of a log, its counts apart."""
        status, answer = program.call(["read", PLAN, name])
        self.assertEqual(status, 0)
        return answer.splitlines()[:-1], answer.splitlines()[-1]

    def reports(self) -> tuple[list[str], str]:
        """What `read` says of the log itself."""
        return self.read(self.write("plain.log", "".join(f"{line}\n" for line in LINES)))

    def test_words_behind_the_data(self) -> None:
        for ending in (" R\n", " T\n", " R\r\n"):
            marked = self.write("start.log", "".join(f"{line}{ending}" for line in LINES))
            self.assertEqual(self.read(marked), ([], f"frames 0 skipped 0 bad {len(LINES)}"))
            self.shown(r"sed -E 's/ [RT]\r?$//' start.log > mended.log")
            self.assertEqual(self.read(self.path("mended.log")), self.reports())

    def test_one_interface_of_several(self) -> None:
        other = [line.replace(" can0 ", " can1 ") for line in LINES]
        self.write("start.log", "".join(f"{line}\n" for both in zip(LINES, other) for line in both))
        self.shown("grep ' can0 ' start.log > can0.log")
        self.assertEqual(self.read(self.path("can0.log")), self.reports())

    @unittest.skipUnless(shutil.which("asc2log") and shutil.which("log2asc"), "asc2log isn't there: apt-get install can-utils")
    def test_asc_by_can_utils(self) -> None:
        lines = self.write("plain.log", "".join(f"{line}\n" for line in LINES))
        with open(self.path("drive.asc"), "wb") as drive:
            subprocess.run(["log2asc", "-I", lines, "can0"], stdout=drive, check=True)
        self.shown(r"asc2log < drive.asc | sed -E 's/ [RT]\r?$//' > drive.log")
        self.assertEqual(self.read(self.path("drive.log")), self.reports())

    @needs("can", "python3-can")
    def test_asc_blf_and_trc_by_python_can(self) -> None:
        import can
        convert, mend = there(re.search(r"`(python3 -m can\.logconvert [^`]*)`, then `([^`]*)`", PAGE)).groups()
        messages = list(can.LogReader(self.write("plain.log", "".join(f"{line}\n" for line in LINES))))
        for ending in ("asc", "blf", "trc"):
            with can.Logger(self.path(f"drive.{ending}")) as logger:
                for message in messages:
                    logger(message)
            self.shell(convert.replace("drive.blf", f"drive.{ending}"))
            self.shell(mend)
            self.assertEqual(self.read(self.path("drive.log")), self.reports(), ending)


class NotShown(InFolder):
    """What docs/guide/LOGS.md says that `read` doesn't show."""

    GROUP = 'version = 1\n[[group]]\nlabel = "G"\npgn = {}\npriority = 6\nlength = {}\n'
    SIGNAL = '[[group.signal]]\nlabel = "S"\nbyte = 1\nbits = 8\nkind = "raw"\n'

    def read(self, plan: str, *frames: str) -> str:
        """What `read` says of a log of these frames."""
        log = self.write("drive.log", "".join(f"{frame}\n" for frame in frames))
        return program.call(["read", self.write("plan.toml", plan), log])[1]

    def test_an_abort_of_either_direction_ends_a_message(self) -> None:
        """From 1 to 2 goes a message of 9 bytes. An Abort of its group that 2 sends, or 1, hides it; of another group it doesn't."""
        self.assertIn("- **A message to one unit during which an Abort of its group went either way between the two.**", PROSE)
        plan, packets = self.GROUP.format(65260, 9), ["1CEC0201#10090002FFECFE00", "1CEB0201#0100112233445566", "1CEB0201#027788FFFFFFFFFF"]
        report = "group G from 1 to 2 bytes 001122334455667788\n"
        for abort, shown in (("1CEC0102#FF01FFFFFFECFE00", ""), ("1CEC0201#FF01FFFFFFECFE00", ""), ("1CEC0102#FF01FFFFFFEBFE00", report)):
            answer = self.read(plan, *packets[:2], abort, packets[2])
            self.assertEqual(answer, shown + "frames 4 skipped 0 bad 0\n")

    def test_proprietary_frames_have_the_planned_layout_whoever_sent_them(self) -> None:
        self.assertIn("Its frames are decoded by the one layout that is planned, whoever sent them", PROSE)
        answer = self.read(self.GROUP.format(65300, 1) + self.SIGNAL, "18FF1400#0A", "18FF140B#0B")
        shown = "group G from 0 to all bytes 0A\n  S value 10\ngroup G from 11 to all bytes 0B\n  S value 11\n"
        self.assertEqual(answer, shown + "frames 2 skipped 0 bad 0\n")

    def test_a_group_has_the_length_that_is_planned(self) -> None:
        answer = self.read(self.GROUP.format(65226, 8), "18FECA00#0000000000000000", "18FECA00#00000000")
        self.assertEqual(answer, "group G from 0 to all bytes 0000000000000000\nframes 2 skipped 0 bad 0\n")


class Shown(ShownLines):
    """Lines of the guide that call the program where it lies, on logs of the folder."""

    def setUp(self) -> None:
        super().setUp()
        self.write("plan.toml", text_of(PLAN))
        os.symlink(os.path.abspath(program.path()), self.path("j39plan"))
        os.mkdir(self.path("logs"))
        for drive in ("first", "second"):
            self.write(f"logs/{drive}.log", text_of(LOG))
        self.answer = program.call(["read", PLAN, LOG])[1]

    def stand_in(self, name: str, script: str) -> None:
        """A program of the folder, to be found before others."""
        os.chmod(self.write(name, f"#!/bin/sh\n{script}\n"), 0o755)

    def answers(self, line: str, ending: str) -> None:
        """Runs a line that reads all logs, each into a file of its own."""
        self.shown(line)
        for drive in ("first", "second"):
            self.assertEqual(text_of(self.path(f"logs/{drive}{ending}")), self.answer)

    def test_many_logs_by_xargs(self) -> None:
        self.answers("ls logs/*.log | xargs -P 4 -I LOG sh -c './j39plan read plan.toml LOG > LOG.txt'", ".log.txt")

    @unittest.skipUnless(shutil.which("parallel"), "parallel isn't there: apt-get install parallel")
    def test_many_logs_by_parallel(self) -> None:
        self.answers("parallel ./j39plan read plan.toml {} '>' {.}.txt ::: logs/*.log", ".txt")

    def test_a_running_bus(self) -> None:
        line = "candump -L can0 | ./j39plan read plan.toml /dev/stdin"
        self.assertIn(line, PAGE)
        self.stand_in("candump", f'[ "$*" = "-L can0" ] && cat "{LOG}"')
        self.shell(f"PATH=.:$PATH; {line} > live.txt")
        self.assertEqual(text_of(self.path("live.txt")), self.answer)

    def test_an_interrupt_of_the_shell(self) -> None:
        """What ends `candump`, and all of its pipe with it, lets `follow` tell what came: it is of a process group that is interrupted."""
        line = "candump -L can0 | (trap '' INT; exec ./j39plan follow plan.toml /dev/stdin)"
        self.assertIn(line, PAGE)
        self.stand_in("candump", f'cat "{LOG}"; exec sleep 60')
        with open(self.path("live.txt"), "wb") as live, subprocess.Popen(
                ["sh", "-c", f"PATH=.:$PATH; {line}"], cwd=self.folder, stdout=live, start_new_session=True,
                preexec_fn=lambda: signal.signal(signal.SIGINT, signal.SIG_DFL)) as shell:
            for _ in range(600):
                time.sleep(0.1)
                if "EC1" in text_of(self.path("live.txt")):
                    break
            os.killpg(shell.pid, signal.SIGINT)
            shell.wait(60)
            for _ in range(600):
                if text_of(self.path("live.txt")).count("\nframes "):
                    break
                time.sleep(0.1)
        self.assertEqual(text_of(self.path("live.txt")), program.call(["follow", PLAN, LOG])[1])

    def test_one_interface_of_a_running_bus(self) -> None:
        line = "candump -L can0 can1 | grep --line-buffered ' can1 ' | ./j39plan follow plan.toml /dev/stdin"
        self.assertIn(line, PAGE)
        other = self.write("other.log", text_of(LOG).replace(" can0 ", " can1 "))
        self.stand_in("candump", f'[ "$*" = "-L can0 can1" ] && paste -d "\\n" "{LOG}" "{other}"')
        self.shell(f"PATH=.:$PATH; {line} > live.txt")
        self.assertEqual(text_of(self.path("live.txt")), program.call(["follow", PLAN, other])[1])


if __name__ == "__main__":
    unittest.main()
