"""The tables of docs/guide/VEHICLES.md say what the schema of vehicle files and the grammar of answers say."""

import os
import re
import unittest
from collections.abc import Iterator

from j39plan.plan.schema import Rule
from j39plan.vehicle import answer_grammar
from j39plan.vehicle import format as vehicle_format
from tests.support import TOP, text_of

TABLES = ("", "bus", "gateway", "forward", "signal", "need")


def page() -> str:
    """The page's text."""
    return text_of(os.path.join(TOP, "docs", "guide", "VEHICLES.md"))


def required(table: str) -> list[str]:
    """The keys that a table must have."""
    rules = vehicle_format.schema()
    found: list[str] = (rules["definitions"][table] if table else rules).get("required", [])
    return found


def rows() -> Iterator[tuple[list[tuple[str, str]], str, str]]:
    """The rows of the table of keys: the keys, each with its table, their type and range, and their default."""
    section = page().split("\n## Tables and keys\n")[1].split("\n## ")[0]
    for row in re.findall(r"\n(\| `.*)", section):
        keys, kind, default, _ = (cell.strip() for cell in row.split("|")[1:-1])
        names = [(table.rstrip("."), key) for table, key in re.findall(r"`(\w+\.)?(\w+)`", keys)]
        yield names, kind, default


def numbers_of(rule: Rule) -> list[int]:
    """The bounds of a number, or how many elements an array has at most."""
    return [rule[bound] for bound in ("minimum", "maximum", "maxItems") if bound in rule]


class Keys(unittest.TestCase):
    def test_each_key_has_its_row(self) -> None:
        shown = [name for names, _, _ in rows() for name in names]
        known = [(table, key) for table in TABLES for key in vehicle_format.listed(table)]
        self.assertEqual(sorted(shown), sorted(known))

    def test_ranges_are_those_of_the_schema(self) -> None:
        count = 0
        for names, kind, _ in rows():
            rules = [vehicle_format.listed(table)[key] for table, key in names]
            known = [number for rule in rules for number in numbers_of(rule)]
            if known:
                count += 1
                shown = [int(number) for number in re.findall(r"\b\d+\b", kind)]
                self.assertEqual(shown * 2 if kind == "integer 1" else shown, known, names)
            for rule in rules:
                if "enum" in rule:
                    self.assertEqual(re.findall(r'`"(\w+)"`', kind), rule["enum"], names)
        self.assertGreaterEqual(count, 6)

    def test_what_has_no_default_must_be_given(self) -> None:
        for names, _, default in rows():
            for table, key in names:
                is_array_of_top = not table and key != "version"
                self.assertEqual(key in required(table), default == "" and not is_array_of_top, (table, key))
                known = vehicle_format.default_of(table, key)
                if known is not None:
                    self.assertEqual(default.strip('`"'), str(known).lower(), (table, key))


class Findings(unittest.TestCase):
    def test_each_finding_has_its_row(self) -> None:
        """With as many words as its line has."""
        shown = [line.split() for line in re.findall(r"`(G\d+ \w+ [\w ]+)`", page())]
        known = [line.split() for line in answer_grammar.FINDINGS]
        self.assertEqual([(line[:2], len(line)) for line in shown], [(line[:2], len(line)) for line in known])


if __name__ == "__main__":
    unittest.main()
