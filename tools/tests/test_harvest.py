"""What `against` tells of drives of a harvester: of healthy ones what is documented of habits, of each fault one line, by its unit and line."""

import unittest

from tests.harvest_bus import Case, all_misses
from tests.harvest_faults import FAULTS
from tests.harvest_habits import HABITS


class Drives(unittest.TestCase):
    def are_told_as_expected(self, cases: tuple[Case, ...]) -> None:
        """Of no drive another line is told, and of none one less."""
        self.assertEqual({what: missed for what, missed in all_misses(cases) if missed}, {})


class Habits(Drives):
    def test_healthy_drives(self) -> None:
        self.are_told_as_expected(HABITS)

    def test_their_names_differ(self) -> None:
        for cases, count in ((HABITS, 45), (FAULTS, 60)):
            self.assertEqual((len(cases), len({case.what for case in cases})), (count, count))


class Faults(Drives):
    def test_faults(self) -> None:
        self.are_told_as_expected(FAULTS)

    def test_a_fault_is_one_line(self) -> None:
        self.assertEqual({len(case.told) for case in FAULTS}, {1})


if __name__ == "__main__":
    unittest.main()
