"""The numbers that the tools know of the standard are those of the program and of the pages."""

import os
import re
from collections.abc import Collection
from typing import Any

from j39plan import j1939, program
from j39plan.plan import schema
from tests.support import InFolder, TOP, text_of, there

GROUP = '[[group]]\nlabel = "G{0}"\npgn = {0}\npriority = 6\nlength = 8\n'
PAGE, FINDINGS = (text_of(os.path.join(TOP, "docs", "guide", name)) for name in ("PLAN.md", "FINDINGS.md"))


class Numbers(InFolder):
    def bad(self, numbers: Collection[int]) -> Any:
        """Those of these groups' numbers that `check` finds as F4, and no other finding."""
        found = set()
        for start in range(0, len(numbers), 256):
            plan = self.write("plan.toml", "version = 1\n" + "".join(map(GROUP.format, sorted(numbers)[start:start + 256])))
            findings = [line for line in program.call(["check", plan])[1].splitlines() if line.startswith("F")]
            found |= {int(line.split()[-1]) for line in findings if line.startswith("F4 ")}
            self.assertTrue(all(line.startswith("F4 ") for line in findings))
        return found

    def test_services_and_proprietary_groups_are_found(self) -> None:
        numbers = j1939.SERVICES | j1939.PROPRIETARY
        neighbours = {number + step for number in numbers if number % 256 == 0 for step in (-256, 256)} - numbers
        self.assertEqual(self.bad(numbers | {number for number in neighbours if number < 131072}), numbers)

    def test_other_services_are_taken(self) -> None:
        """They are those that the page names behind the table of F4."""
        self.assertEqual(self.bad(j1939.OTHER_SERVICES), set())
        named = there(re.search(r"Only these are found\. .*?\n\n", FINDINGS, re.DOTALL)).group()
        self.assertEqual(sorted(map(int, re.findall(r"\b\d{5}\b", named))), sorted(j1939.OTHER_SERVICES))

    def test_the_fields_of_a_name_are_those_of_the_page_and_of_the_schema(self) -> None:
        """Their bits, and with them the most that each may be."""
        table = PAGE.partition("| Bits of the NAME |")[2].partition("\n\n")[0]
        rows = re.findall(r"\n\| `(\w+)` \|[^|]*\|[^|]*\| (\d+)(?:\.\.(\d+))? \|", table)
        self.assertEqual([(key, int(first), int(last or first) + 1 - int(first)) for key, first, last in rows], list(j1939.NAME_FIELDS))
        rules = schema.schema()["definitions"]["name"]["properties"]
        self.assertEqual([(key, rule["maximum"] + 1) for key, rule in rules.items() if key != "arbitrary"],
                         [(key, 1 << width) for key, _, width in j1939.NAME_FIELDS if key != "arbitrary"])

    def test_the_pool_is_that_of_the_page(self) -> None:
        self.assertIn(f"lowest free address of {j1939.POOL[0]}..{j1939.POOL[-1]}", PAGE)
        self.assertIn(f"{j1939.NULL_ADDRESS} is the null address and {j1939.GLOBAL_ADDRESS} the global one", PAGE)
