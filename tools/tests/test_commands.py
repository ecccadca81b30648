"""Each command of the program is tried on failing devices, damaged inputs and refused memory."""

import re
import sys
import unittest

from j39plan import program
from tests.support import TOP, text_of

sys.path.insert(0, f"{TOP}/gate")
try:
    import rows
finally:
    sys.path.pop(0)


class Commands(unittest.TestCase):
    def setUp(self) -> None:
        self.commands = set(re.findall(r"^  (\w+) ", program.call(["--help"])[1].partition("Commands:\n")[2].partition("\n\n")[0], re.MULTILINE)) - {"help"}
        self.assertGreaterEqual(len(self.commands), 8)

    def test_the_gate_tries_each(self) -> None:
        tried = set(re.findall(r'^    \["(\w+)"', text_of(f"{TOP}/gate/tally.py"), re.MULTILINE))
        self.assertEqual(self.commands - tried, set())

    def test_the_rows_have_each(self) -> None:
        statuses = text_of(f"{TOP}/rows/statuses")
        ended = {f".{it}" for it in re.findall(r"^devices/\S+\.(\w+) ", statuses, re.MULTILINE)}
        run = [*rows.OF_PLANS.items(), *((ending, words[0]) for ending, (words, _) in rows.OF_INPUTS.items()), (".frame", "frame"), (".vehicle", "vehicle")]
        self.assertEqual(self.commands - {command for ending, command in run if ending in ended}, set())


if __name__ == "__main__":
    unittest.main()
