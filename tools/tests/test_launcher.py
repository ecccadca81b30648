"""The launcher: the first word may name a tool, and what the program can't say of its words and files is said behind its own words."""

import os
import shlex
import shutil
import subprocess
import unittest

from j39plan import program
from tests.support import TOP, InFolder, example

LAUNCH = os.path.join(TOP, "program", "launch")
PLAN = example("axle.toml")

# Words, with the status that the program has then, and what is said behind it; nothing of words with which nothing is surely wrong.
FAULTS: list[tuple[list[str], str]] = [
    (["jump"], "2|jump: no command or tool is called so; j39plan help lists the commands"),
    (["check"], "2|check: it takes 1 word behind it, and 0 are given"),
    (["run", PLAN], "2|run: it takes 2 words behind it, and 1 is given"),
    (["check", "--fast", PLAN], "2|--fast: check has no such option"),
    (["check", PLAN, "more"], "2|more: one word too many"),
    (["check", "/none", "more"], "2|more: one word too many"),
    (["frame", "(1.0)", "can0"], "2|can0: one word too many"),
    (["check", "/none"], "4|/none: No such file or directory"),
    (["read", "/none", "/none2"], "4|/none: No such file or directory"),
    (["follow", "--all", PLAN, "/none2"], "4|/none2: No such file or directory"),
    (["audit", "--part", "--stamps", "5", PLAN, "/"], "4|/: Is a directory"),
    (["audit", "--quiet", "5", PLAN, "/"], "4|/: Is a directory"),
    (["vehicle", "--", "-x"], "4|-x: No such file or directory"),
    (["variant", "/none", "A", "B"], "4|/none: No such file or directory"),
    ([], "|"), (["check", PLAN], "|"), (["check", "--help"], "|"), (["jump", "--help"], "2|jump: no command or tool is called so; j39plan help lists the commands"),
    (["read", PLAN, "/dev/stdin"], "|"), (["variant", PLAN, "A", "B"], "|"), (["frame", "/none"], "|"), (["--version"], "|"), (["help", "run"], "|"),
    (["follow", PLAN, "--all", PLAN], "|"), (["check", "--", PLAN], "|"),
]


class Words(InFolder):
    def test_what_is_wrong_with_words_and_files(self) -> None:
        """In both shells that run it; where a file can't be read for want of a right, that is said too."""
        cases = "".join(f"fault='' answer=''; find_fault {shlex.join(words)}; printf '%s|%s\\n' \"$answer\" \"$fault\"\n" for words, _ in FAULTS)
        for shell in filter(shutil.which, ("dash", "bash")):
            ran = subprocess.run([shell, "-euc", f". {shlex.quote(LAUNCH)}\n{cases}"], capture_output=True, text=True, check=False)
            self.assertEqual((ran.returncode, ran.stderr), (0, ""), shell)
            for (words, told), line in zip(FAULTS, ran.stdout.splitlines(), strict=True):
                self.assertEqual(line, told, (shell, words))

    @unittest.skipIf(os.geteuid() == 0, "root may read each file")
    def test_a_file_that_may_not_be_read(self) -> None:
        name = self.write("plan.toml", "version = 1\n")
        os.chmod(name, 0)
        ran = subprocess.run(["sh", "-c", f". {shlex.quote(LAUNCH)}; fault=''; look_at {shlex.quote(name)}; echo \"$fault\""], capture_output=True, text=True, check=False)
        self.assertEqual(ran.stdout, f"{name}: Permission denied\n")


class Launched(unittest.TestCase):
    def launched(self, *words: str) -> tuple[int, str, str]:
        """Runs the launcher of the clone."""
        ran = subprocess.run([os.path.join(TOP, "j39plan"), *words], stdin=subprocess.DEVNULL, capture_output=True, text=True, check=False)
        return ran.returncode, ran.stdout, ran.stderr

    @unittest.skipUnless(program.repository_program(), "the program isn't built")
    def test_the_programs_own_words_stand_first(self) -> None:
        """Its status and standard output are as they are without the launcher."""
        for words, _ in FAULTS[:10]:
            alone = subprocess.run([program.repository_program() or "", *words], stdin=subprocess.DEVNULL, capture_output=True, text=True, check=False)
            status, answer, said = self.launched(*words)
            self.assertEqual((status, answer), (alone.returncode, alone.stdout), words)
            self.assertTrue(said.startswith(alone.stderr), words)
            self.assertEqual(said.count("\n"), alone.stderr.count("\n") + 1, words)

    @unittest.skipUnless(program.repository_program(), "the program isn't built")
    def test_a_word_that_names_a_tool(self) -> None:
        self.assertEqual(self.launched("where", PLAN), (0, "ok 2 units 3 groups 3 flows\n", ""))
        self.assertEqual(self.launched("check-plans", PLAN), (0, f"{PLAN}\nok 2 units 3 groups 3 flows\n", ""))
        self.assertTrue(self.launched("help", "table")[1].startswith("usage: table.py"))
        status, answer, _ = self.launched("variant", example("line.toml"))  # the program's own
        self.assertEqual((status, answer.splitlines()[0]), (0, "top strangers 0"))
        self.assertEqual(self.launched("test")[0], 2)  # a file beside the tools that is none
