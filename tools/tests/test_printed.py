"""What is printed from the sources is what the sources say."""

import os
import sys
import unittest
from unittest import mock

from j39plan import program
from j39plan.log.checks import deviations, kinds
from tests.support import TOP, text_of

import printed


class Printed(unittest.TestCase):
    def is_as_printed(self, word: str) -> None:
        name, text = printed.PAGES[word]
        stored = text_of(os.path.join(TOP, "docs", "reference", name))
        self.assertTrue(stored == text(), f"docs/reference/{name} isn't what `./dev {word}` prints")

    def test_contracts(self) -> None:
        self.is_as_printed("proofs")

    def test_modules(self) -> None:
        self.is_as_printed("map")

    @unittest.skipIf(sys.version_info >= (3, 13), "argparse writes options otherwise since Python 3.13")
    def test_options(self) -> None:
        with mock.patch.dict(os.environ, J39PLAN=program.path()):
            self.is_as_printed("options")

    def test_boxes(self) -> None:
        self.is_as_printed("boxes")

    def test_drives(self) -> None:
        self.is_as_printed("drives")

    def test_each_kind_of_a_deviation_is_said(self) -> None:
        self.assertEqual(set(kinds.MEANINGS), set(deviations.KINDS))

    def test_each_part_of_a_contract_is_seen(self) -> None:
        lines = ["/// Whether it is.", "#[inline]", "pub fn is(", "    one: u8,", ") -> bool", "    ensures yes { one ≡ 1 }", "{", "    ensures no { never }", "}"]
        self.assertEqual(printed.contract_from(lines, 2), ("\n".join(lines[2:6]), False))
        self.assertEqual(printed.comment_above(lines, 2), "Whether it is.")
        self.assertEqual(printed.contract_from(["pub fn law()", "    ensures { Law }", "{}"], 0)[1], True)
        self.assertEqual(printed.contract_from(["    fn of(&self) -> u8", "        ensures { A };", "    fn next() {"], 0)[0], "    fn of(&self) -> u8")


if __name__ == "__main__":
    unittest.main()
