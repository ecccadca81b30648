"""How the tools end."""

import itertools
import os
import subprocess
import sys
import unittest
from typing import Any

from j39plan import program
from tests.support import TOOLS, InFolder, example, run, text_of

PLAN, LOG = example("tractor_and_implement.toml"), example("tractor_and_implement.start.log")
CALLS = [
    ["where.py", PLAN], ["startup.py", PLAN], ["against.py", PLAN, LOG], ["report.py", PLAN], ["signals.py", PLAN, LOG],
    ["plot.py", "--help"], ["dbc2plan.py", "--help"],
]

# A tool of one line, as the tools are called.
TOOL = "import sys; sys.path.insert(0, {tools!r}); sys.argv[0] = 'tool.py'; from j39plan import program; sys.exit(program.status_of({main}))"


class End(InFolder):
    def ended(self, words: list[str], unbuffered: str = "", **more: Any) -> tuple[int, str]:
        """A tool's exit status and standard error, its standard output being given, and whether it writes each text at once."""
        ended = subprocess.run([sys.executable, *words], stderr=subprocess.PIPE, text=True, check=False,
                               env={**os.environ, "J39PLAN": program.path(), "PYTHONUNBUFFERED": unbuffered}, **more)
        return ended.returncode, ended.stderr

    def main(self, main: str) -> tuple[int, str]:
        """How a tool ends of which this is the main function."""
        return self.ended(["-c", TOOL.format(tools=TOOLS, main=main)], stdout=subprocess.PIPE)

    def test_the_status_is_that_of_main(self) -> None:
        for status in (0, 1, 2):
            self.assertEqual(self.main(f"lambda: {status}"), (status, ""))

    def test_a_fault_of_a_tool_is_none_of_a_plan(self) -> None:
        for main in ("lambda: {}['keep_free']", "lambda: int('x')", "lambda: [][0]"):
            status, said = self.main(main)
            self.assertEqual((status, said.startswith("Traceback")), (70, True), said)

    def test_what_a_tool_refuses(self) -> None:
        self.assertEqual(self.main("lambda: (_ for _ in ()).throw(program.Refused(1, 'no bus'))"), (1, "tool: no bus\n"))
        self.assertEqual(self.main("lambda: (_ for _ in ()).throw(program.Refused(4))"), (4, ""))

    def test_no_memory(self) -> None:
        self.assertEqual(self.main("lambda: (_ for _ in ()).throw(MemoryError)"), (3, "tool: out of memory\n"))

    def test_a_file_that_is_not_there(self) -> None:
        self.assertEqual(self.main("lambda: open('/none')"), (4, "tool: /none: No such file or directory\n"))

    def test_a_run_sends_so_many_frames_at_most(self) -> None:
        """Each `ask` sends a request and a claim: the 50,001st is the first behind 100,000 frames."""
        schedule = self.write("long.schedule", "up A\n" + 50_010 * "ask A\n")
        status, text = program.call(["run", example("address_contest.toml"), schedule])
        lines = text.splitlines()
        self.assertEqual((status, lines.count("18EEFF80#0100000000000080"), lines.count("18EAFF80#00EE00")), (1, 50_001, 50_000))
        self.assertEqual(lines[100_001:], ["refused line 50002 TooManyFrames", "unit A address 128", "unit B off", "settled"])

    def test_a_closed_pipe(self) -> None:
        for words, unbuffered in itertools.product(CALLS, ("", "1")):
            reader, writer = os.pipe()
            os.close(reader)
            status, said = self.ended([os.path.join(TOOLS, words[0]), *words[1:]], unbuffered, stdout=writer)
            os.close(writer)
            self.assertEqual(status, 4, words)
            self.assertNotIn("Traceback", said)
            self.assertNotIn("Exception", said)

    def test_a_full_device(self) -> None:
        for words, unbuffered in itertools.product(CALLS, ("", "1")):
            with open("/dev/full", "w", encoding="utf-8") as full:
                status, said = self.ended([os.path.join(TOOLS, words[0]), *words[1:]], unbuffered, stdout=full)
            self.assertEqual((status, said.splitlines()[-1]), (4, f"{words[0][:-3]}: No space left on device"))

    def test_a_closed_standard_output(self) -> None:
        for words in CALLS[:3]:
            tool = [sys.executable, os.path.join(TOOLS, words[0]), *words[1:]]
            ended = self.ended(["-c", f"import os; os.close(1); os.execv({sys.executable!r}, {tool!r})"])
            self.assertEqual(ended, (4, f"{words[0][:-3]}: standard output is closed\n"))

    def test_another_python(self) -> None:
        for words in CALLS:
            older = f"import runpy, sys; sys.version_info = (3, 9, 0); sys.path.insert(0, {TOOLS!r}); sys.modules['tomllib'] = None; "
            script = older + f"runpy.run_path({os.path.join(TOOLS, words[0])!r}, run_name='__main__')"
            self.assertEqual(self.ended(["-c", script], stdout=subprocess.PIPE),
                             (69, "the tools of j39plan need Python 3.10 or later\n"), words)

    def test_what_the_program_says_is_passed_on(self) -> None:
        missing, refused = self.path("none.toml"), self.write("plan.toml", "version = 5\n")
        f01 = example("findings/f01_same_name.toml")
        for tool, more in (("where.py", ()), ("startup.py", ()), ("against.py", (LOG,))):
            said = f"{tool[:-3]}: {missing}: No such file or directory\n"
            self.assertEqual(run(tool, missing, *more), (4, "", said), tool)
            self.assertEqual(run(tool, refused, *more)[0], 2, tool)
            self.assertEqual(run(tool, f01, *more)[0], 1, tool)

    def test_the_page_has_each_status(self) -> None:
        page = text_of(os.path.join(TOOLS, "..", "docs", "guide", "TOOLS.md")).split("## Exit statuses\n")[1].split("\n## ")[0]
        shown = [line.split("|")[1].strip() for line in page.splitlines() if line.startswith("| ") and line[2].isdigit()]
        self.assertEqual(shown, ["0", "1", "2", "3", "4", "5", "69", "70"])

    def test_the_version_is_that_of_the_program(self) -> None:
        version = program.call(["--version"])[1].split()[1]
        for tool in ("where.py", "startup.py", "against.py", "dbc2plan.py"):
            self.assertEqual(run(tool, "--version"), (0, f"{tool[:-3]} (j39plan) {version}\n", ""))
            self.assertIn("--version", run(tool, "--help")[1])

    def test_the_help_of_the_program_names_where(self) -> None:
        self.assertIn("j39plan-where", program.call(["check", "--help"])[1])


if __name__ == "__main__":
    unittest.main()
