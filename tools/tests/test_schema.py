"""The JSON schema of a plan file says what docs/guide/PLAN.md and the program say."""

import glob
import json
import os
import re
import tomllib
import unittest
from collections.abc import Iterator
from typing import Any

from j39plan import program
from j39plan.plan import schema
from tests.support import TOOLS, TOP, InFolder, needs, plans, shown_refusals, text_of

SCHEMA = json.loads(text_of(os.path.join(TOOLS, "j39plan", "plan.schema.json")))

# What the page's headings call the tables.
TABLES = {"Top": None, "`[timing]`": "timing", "`timing.errors`": "errors", "`[[unit]]`": "unit", "`unit.name`": "name", "`[[group]]`": "group",
          "`group.when`": "when", "`[[group.signal]]`": "signal", "`[[group.text]]`": "text", "`[[flow]]`": "flow", "`[[need]]`": "need",
          "`[[request]]`": "request", "`[[choice]]`": "choice", "`[[never]]`": "never"}

# Refusals that a schema can't say.
UNSAID = ("Text", "Repeated", "UnknownLabel")
UNSAID_CASES = ("most_below_length", "most_float", "per_3", "broadcast_gap_most_below_gap", "broadcast_gap_most_below_gap_by_default",
                "jitter_of_the_period", "jitter_before_pause", "pause_below_the_period", "values_256_of_8_bits", "values_4_of_2_bits",
                "values_above_32_bits", "values_above_32_bits_of_64", "when_value_256_of_8_bits", "choices_of_65", "never_but_of_two_choices",
                "never_but_of_the_same_choice", "never_but_all")

# Keys whose range is another one beside some other key.
FITTED = (("timing", "broadcast_gap_most"), ("flow", "jitter"), ("flow", "pause"), ("when", "value"))

# A plan of a version with a signal of a kind.
SIGNAL = """version = {}
[[group]]
label = "G"
pgn = 65262
priority = 6
length = 8
[[group.signal]]
label = "S"
byte = 1
bits = 32
kind = "{}"
"""

# A flow, which a period and a deadline may follow.
FLOW = """[[unit]]
label = "A"
address = 0
name = { identity = 1 }
[[group]]
label = "G"
pgn = 65262
priority = 6
length = 8
[[flow]]
group = "G"
from = "A"
to = "all"
"""


def rules(table: str | None) -> Any:
    """A table's schema."""
    return SCHEMA if table is None else SCHEMA["definitions"][table]


def page_rows() -> Iterator[tuple[Any, ...]]:
    """The rows of the tables of keys in docs/guide/PLAN.md: table, key, type and range, default, the first version where it isn't 1, meaning."""
    page = text_of(os.path.join(TOP, "docs", "guide", "PLAN.md"))
    page = page[page.index("\n## Tables and keys"):page.index("\n## Byte order: bytes and bits")]
    for heading, body in re.findall(r"\n### (.*?)\n(.*?)(?=\n### |\Z)", page, re.DOTALL):
        has_since = "| Since |" in body
        for row in re.findall(r"\n\| `.*", body):
            cells = [cell.strip() for cell in row.split("|")[1:-1]]
            yield TABLES[heading], cells[0].strip("`"), cells[1], cells[2], cells[3] if has_since else "", cells[-1]


def pairs(since: dict[object, int]) -> Iterator[tuple[Any, int]]:
    """The keys of tables among what isn't known to each version: table and key, and the first version that knows it."""
    return ((place, number) for place, number in since.items() if isinstance(place, tuple) and len(place) == 2)


class Schema(InFolder):
    def test_it_has_the_keys_of_the_page(self) -> None:
        shown: dict[str, Any] = {}
        for table, key, *_ in page_rows():
            shown.setdefault(table, []).append(key)
        self.assertEqual(shown, {table: list(rules(table)["properties"]) for table in TABLES.values()})

    def test_it_has_the_ranges_of_the_page(self) -> None:
        for table, key, kind, *_ in page_rows():
            rule = rules(table)["properties"][key]
            if found := re.match(r"integer (-?\d+)\.\.(\d+)", kind):
                self.assertEqual((rule["minimum"], rule["maximum"]), tuple(map(int, found.groups())), (table, key))
            elif found := re.match(r"array of tables, at most (\d+)", kind):
                self.assertEqual(rule["maxItems"], int(found.group(1)), (table, key))
            elif found := re.match(r"array of at most (\d+) integers (\d+)\.\.(\d+), each once", kind):
                bounds = (rule["maxItems"], rule["items"]["minimum"], rule["items"]["maximum"])
                self.assertEqual((bounds, rule["uniqueItems"]), (tuple(map(int, found.groups())), True), (table, key))
            elif words := re.findall(r'`"(\w+)"`', kind):
                self.assertEqual(rule["enum"], words, (table, key))

    def test_it_has_the_versions_of_the_page(self) -> None:
        """Of keys by the column Since, of kinds and bitrates by the words before them, of keys that may be absent by those on what they mean."""
        shown: dict[Any, int] = {(table, key): int(first) for table, key, _, _, first, _ in page_rows() if first}
        for table, key, kind, *_, meaning in page_rows():
            if found := re.search(r"up to version (\d) it has to be there", meaning):
                shown[schema.ABSENT, table, key] = int(found.group(1)) + 1
            if found := re.search(r"from version (\d) on also (.*)", kind):
                shown.update((int(word) if word.isdigit() else word, int(found.group(1))) for word in re.findall(r"\w{3,}", found.group(2)))
        self.assertEqual(shown, schema.since())

    def test_it_has_the_versions_of_the_reader(self) -> None:
        """Of each table whose keys not all versions know that know the table, by the list of keys in the reader's sources."""
        versions = {word: number for number, word in enumerate(("First", "Second", "Third", "Fourth"), 1)}
        tables = {"TOP": None, "TIMING": "timing", "UNIT": "unit", "GROUP": "group", "SIGNAL": "signal", "FLOW": "flow"}
        first = {None: 1} | {table: number for (place, table), number in pairs(schema.since()) if place is None}
        source = text_of(os.path.join(TOP, "crates", "j39_plan", "src", "reading", "keys.rt"))
        lists = dict(re.findall(r"^pub const (\w+)_KEYS: \[\(Key, Version\); \d+\] = \[\n(.*?)^\];$", source, re.MULTILINE | re.DOTALL))
        self.assertEqual(set(lists), set(tables))
        shown: dict[object, int] = {}
        for name, table in tables.items():
            keys = re.findall(r"^    \(Key::(\w+), Version::(\w+)\),$", lists[name], re.MULTILINE)
            words = [re.sub(r"(?<=.)(?=[A-Z])", "_", key).lower() for key, _ in keys]
            self.assertEqual(words, list(rules(table)["properties"]), name)
            shown.update(((table, word), versions[version]) for word, (_, version) in zip(words, keys, strict=True)
                         if versions[version] > first.get(table, 1))
        self.assertEqual(shown, {place: number for place, number in pairs(schema.since()) if place[0] in tables.values()})

    def test_it_wants_the_keys_without_a_default(self) -> None:
        for table, key, _, default, *_ in page_rows():
            self.assertEqual(key in rules(table).get("required", []), default == "", (table, key))

    def test_it_has_the_defaults_of_the_page(self) -> None:
        for table, key, _, default, *_ in page_rows():
            if default not in ("", "none", "`length`"):  # an array that isn't there has no elements; `most` is as `length` then
                shown = {"empty": "", "`false`": "False", "`true`": "True"}.get(default, default.strip('`"'))
                self.assertEqual(str(rules(table)["properties"][key]["default"]), shown, (table, key))


@needs("jsonschema", "python3-jsonschema")
class Validated(InFolder):
    def faults(self, text: str) -> list[Any]:
        """What the schema finds wrong with a plan."""
        import jsonschema
        return list(jsonschema.Draft7Validator(SCHEMA).iter_errors(tomllib.loads(text)))

    def test_a_number_may_be_absent_from_version_4_on(self) -> None:
        unit = '[[unit]]\nlabel = "A"\naddress = 0\nname = {{ {} }}\n'
        for version in range(1, 5):
            for name, is_there in (("manufacturer = 1", False), ("identity = 1", True)):
                text = f"version = {version}\n" + unit.format(name)
                is_plan = program.call(["check", self.write("plan.toml", text)])[0] == 0
                self.assertEqual((is_plan, self.faults(text) == []), (is_there or version == 4,) * 2, text)

    def test_it_is_a_schema(self) -> None:
        import jsonschema
        jsonschema.Draft7Validator.check_schema(SCHEMA)

    def test_it_takes_the_examples(self) -> None:
        for plan in plans():
            self.assertEqual(self.faults(text_of(plan)), [], plan)

    def test_it_refuses_what_the_page_shows_as_refused(self) -> None:
        for plan, refused in shown_refusals():
            if not refused.startswith(tuple(f"refused {word}" for word in UNSAID)) and not refused.endswith(" key per\n"):
                self.assertNotEqual(self.faults(plan), [], plan)

    def test_it_refuses_the_cases_that_the_program_refuses(self) -> None:
        """But for what a schema can't say: two places of a plan that have to fit together, and of which primes a number is a product."""
        plans = sorted(glob.glob(os.path.join(TOP, "rows", "refusals", "*.toml")))
        self.assertGreater(len(plans), 100)
        for plan in plans:
            refused = text_of(plan[:-5] + ".check")
            if os.path.basename(plan)[:-5] not in UNSAID_CASES and not refused.startswith(tuple(f"refused {word}" for word in UNSAID)):
                self.assertNotEqual(self.faults(text_of(plan)), [], plan)

    def test_it_agrees_with_the_program_on_the_addresses_kept_free(self) -> None:
        for head in (
            "version = 1\nkeep_free = []", "version = 2\nkeep_free = []", "version = 3\nkeep_free = []", "version = 4\nkeep_free = []",
            "version = 5\nkeep_free = []", "version = 5", "version = 4", "version = 3", "version = 2", "keep_free = []",
            "version = 2\nkeep_free = 128", "version = 2\nkeep_free = [127]", "version = 2\nkeep_free = [128, 247]",
            "version = 2\nkeep_free = [248]", "version = 2\nkeep_free = [128, 128]", 'version = 2\nkeep_free = ["128"]',
            f"version = 2\nkeep_free = {list(range(128, 248))}", f"version = 2\nkeep_free = {list(range(128, 249))}",
        ):
            status, _ = program.call(["check", self.write("plan.toml", head + "\n")])
            self.assertEqual(self.faults(head) == [], status != 2, head)

    def test_it_agrees_with_the_program_on_strangers(self) -> None:
        for head in (
            "version = 3\nstrangers = 0", "version = 4\nstrangers = 0", "version = 4\nstrangers = 120", "version = 4\nstrangers = 121",
            "version = 4\nstrangers = -1", 'version = 4\nstrangers = "1"', "version = 4\nstrangers = []",
        ):
            status, _ = program.call(["check", self.write("plan.toml", head + "\n")])
            self.assertEqual(self.faults(head) == [], status != 2, head)

    def test_it_agrees_with_the_program_on_live_buses(self) -> None:
        for head in (
            "version = 1\nlive = true", "version = 2\nlive = false", "version = 3\nlive = false", "version = 4\nlive = false", "version = 4\nlive = true",
            "version = 4\nlive = 1", 'version = 4\nlive = "true"',
        ):
            status, _ = program.call(["check", self.write("plan.toml", head + "\n")])
            self.assertEqual(self.faults(head) == [], status != 2, head)

    def test_it_agrees_with_the_program_on_what_each_version_knows_of_a_signal(self) -> None:
        for version in (1, 2, 3, 4):
            for kind in ("measured", "discrete", "raw", "states", "signed", "dtc", "text"):
                for per in ("", "per = 1\n", "per = 0\n"):
                    plan = SIGNAL.format(version, kind) + per
                    status, _ = program.call(["check", self.write("plan.toml", plan)])
                    self.assertEqual(self.faults(plan) == [], status != 2, plan)

    def test_it_agrees_with_the_program_on_what_each_version_knows_of_records(self) -> None:
        for version in (1, 2, 3, 4):
            for every in ("", "every = 0\n", "every = 4\n"):
                for repeated in ("", "repeated = false\n", "repeated = true\n"):
                    plan = SIGNAL.format(version, "raw").replace("[[group.signal]]", f"{every}[[group.signal]]") + repeated
                    status, _ = program.call(["check", self.write("plan.toml", plan)])
                    self.assertEqual(self.faults(plan) == [], status != 2, plan)

    def test_it_agrees_with_the_program_on_what_each_version_knows_of_time(self) -> None:
        for version in (1, 2, 3, 4):
            for timing in (
                "", "timing = {}\n", "timing = { bitrate = 250000, unplanned = 0 }\n", "timing = { bitrate = 125000, unplanned = 0 }\n",
                "timing = { bitrate = 250000, unplanned = 0, errors = { count = 1, every = 10 } }\n",
            ):
                for pace in ("", "period = 10\n", "deadline = 10\n", "period = 10\ndeadline = 5\n", "jitter = 0\n", "period = 10\njitter = 9\n", "pause = 10\n"):
                    plan = f"version = {version}\n{timing}{FLOW}{pace}"
                    status, _ = program.call(["check", self.write("plan.toml", plan)])
                    self.assertEqual(self.faults(plan) == [], status != 2, plan)

    def test_it_agrees_with_the_program_on_each_bound(self) -> None:
        plan = {
            "version": 4,
            "timing": {"bitrate": 250000, "unplanned": 0, "errors": {"count": 1, "every": 10}},
            "unit": [{"label": "A", "address": 0, "name": {"identity": 1}}],
            "group": [{"label": "G", "pgn": 65262, "priority": 6, "length": 1, "when": {"byte": 1, "bits": 8, "value": 1},
                       "signal": [{"label": "S", "byte": 1, "bits": 8, "kind": "raw"}], "text": [{"label": "T", "byte": 1}]}],
            "flow": [{"group": "G", "from": "A", "to": "all", "period": 10, "deadline": 10}], "need": [{"unit": "A", "group": "G", "within": 10}],
            "request": [{"group": "G", "from": "A", "to": "all", "period": 10}],
        }
        for table, key, kind, *_ in page_rows():
            if table is None or (table, key) in FITTED or not (found := re.match(r"integer (-?\d+)\.\.(\d+)", kind)):
                continue
            low, high = map(int, found.groups())
            for value in (low - 1, low, high, high + 1):
                text = spelled(changed(plan, table, key, value))
                status, _ = program.call(["check", self.write("plan.toml", text)])
                self.assertEqual(self.faults(text) == [], status != 2, (table, key, value))


def changed(plan: dict[str, Any], table: Any, key: str, value: object) -> dict[str, Any]:
    """The plan with another value of a key in its first such table."""
    plan = json.loads(json.dumps(plan))
    group, unit = plan["group"][0], plan["unit"][0]
    inner = {"timing": plan["timing"], "errors": plan["timing"]["errors"], "name": unit["name"], "signal": group["signal"][0], "text": group["text"][0],
             "when": group["when"]}
    (inner.get(table) or plan[table][0])[key] = value
    return plan


def spelled(plan: dict[str, Any]) -> str:
    """The plan as TOML."""
    lines = ["version = 4", f"timing = {inline(plan['timing'])}"]
    for kind in ("unit", "group", "flow", "need", "request"):
        lines.append(f"[[{kind}]]")
        lines += [f"{key} = {inline(value)}" for key, value in plan[kind][0].items()]
    return "\n".join(lines) + "\n"


def inline(value: object) -> str:
    """A value as TOML spells it in a line."""
    if isinstance(value, dict):
        return "{ " + ", ".join(f"{key} = {inline(part)}" for key, part in value.items()) + " }"
    if isinstance(value, list):
        return "[" + ", ".join(map(inline, value)) + "]"
    return json.dumps(value)


if __name__ == "__main__":
    unittest.main()
