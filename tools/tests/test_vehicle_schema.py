"""The JSON schema of a vehicle file says what the program says."""

import json
import os
import re
import tomllib
import unittest
from typing import Any

from j39plan import program
from j39plan.vehicle import format as vehicle_format
from tests.support import TOOLS, needs, text_of
from tests.vehicles import B, P, SIGNAL, V, OfVehicles

SCHEMA = json.loads(text_of(os.path.join(TOOLS, "j39plan", "vehicle.schema.json")))

# Each table once, with all of its keys.
WHOLE = V.replace("within = 5\n", 'from = "E"\nat = "G"\nby = "G"\nto = "all"\nmode = "direct"\nwithin = 5\n' + SIGNAL.format("SPN190", "SPN190")
                  + "exact = true\n", 1)

# Values of all types, at bounds and beyond them; None stands for no key.
VALUES: tuple[object, ...] = (
    None, 0, 1, 2, 65535, 65536, 1.0, True, "", "X", "X.Y", "X.Y.Z", "periodic", "a b", "é", "x" * 32, "x" * 33, "x" * 255, "x" * 256, [], {}, [1], ["X"],
    ["P.G"], [{}],
)

# Faults that a schema can't say.
UNSAID = ("refused UnknownLabel ", "refused Repeated ")


@needs("jsonschema", "python3-jsonschema")
class Schema(OfVehicles):
    def is_told(self, text: str) -> bool:
        """Whether the schema finds something wrong with a vehicle."""
        import jsonschema
        types = jsonschema.Draft7Validator.TYPE_CHECKER.redefine("integer", lambda _, value: type(value) is int)
        validator = jsonschema.validators.extend(jsonschema.Draft7Validator, type_checker=types)(SCHEMA)
        return list(validator.iter_errors(tomllib.loads(text))) != []

    def agree(self, text: str, more: object = "") -> str:
        """That both refuse a vehicle, or neither; what the program answers."""
        status, answer = self.answer(self.vehicle(text))
        is_refused = status == 2 and not answer.startswith(UNSAID)
        self.assertEqual(self.is_told(text), is_refused, f"{more}\n{text}\n{answer}")
        return answer

    def test_it_is_a_schema(self) -> None:
        import jsonschema
        jsonschema.Draft7Validator.check_schema(SCHEMA)

    def test_the_whole_is_taken(self) -> None:
        for text in (V, WHOLE, "version = 1\n"):
            self.assertRegex(self.agree(text), r"ok \d+ buses")

    def test_each_key_by_its_type_and_its_bounds(self) -> None:
        """Each key with values of other types, at its bounds and beyond them, and without it."""
        count = 0
        for place in tables(tomllib.loads(WHOLE)):
            table = next((str(part) for part in reversed(place) if isinstance(part, str)), "")
            for key in vehicle_format.listed(table):
                for value in VALUES:
                    tree = tomllib.loads(WHOLE)
                    change(tree, place, key, value)
                    self.agree(spelled(tree), (place, key, value))
                    count += 1
        self.assertGreater(count, 500)

    def test_unknown_keys(self) -> None:
        for place in tables(tomllib.loads(WHOLE)):
            tree = tomllib.loads(WHOLE)
            change(tree, place, "other", 1)
            self.assertRegex(self.agree(spelled(tree)), "^refused UnknownKey ")

    def test_it_takes_as_many_tables_as_the_program(self) -> None:
        for array, table, most in (("bus", '[[bus]]\nlabel = "P{}"\nplan = "p.toml"\n', 16), ("gateway", '[[gateway]]\nlabel = "G{}"\nunit = []\n', 64),
                                   ("forward", '[[forward]]\ngateway = "C{}"\ngroup = "P.E"\nas = "P.E"\n', 512),
                                   ("need", '[[need]]\nunit = "P.E"\ngroup = "G{}"\nfrom = "P.E"\n', 4096)):
            self.assertEqual(SCHEMA["properties"][array]["maxItems"], most)
            for count in (most, most + 1):
                answer = self.agree("version = 1\n" + "".join(table.format(number) for number in range(count)))
                self.assertEqual(answer.startswith("refused TooMany top key"), count > most, array)
        for count in (64, 65):
            text = V.replace("within = 5\n", "within = 5\n" + "".join(SIGNAL.format("SPN190", f"S{number}") for number in range(count)), 1)
            self.assertEqual(self.agree(text).startswith("refused TooMany forward 1 key signal"), count > 64)
        for count in (128, 129):
            text = V.replace('["P.G", "B.G"]', json.dumps([f"P.U{number}" for number in range(count)]))
            self.assertEqual(self.agree(text).startswith("refused TooMany gateway 1 key unit"), count > 128)

    def test_each_key_is_described(self) -> None:
        for table in ("", *vehicle_format.schema()["definitions"]):
            rules = vehicle_format.listed(table) if table == "" or "properties" in vehicle_format.schema()["definitions"][table] else {}
            for key, rule in rules.items():
                self.assertGreater(len(rule["description"].split()), 2, (table, key))

    def test_the_defaults_are_the_programs(self) -> None:
        """With each default written out the answer stays."""
        first = self.answer(self.vehicle(V.replace("within = 5\n", "within = 5\n" + SIGNAL.format("SPN190", "SPN190"), 1)))
        for line, table in (('mode = "direct"', "forward"), ("exact = true", "signal")):
            key = line.partition(" ")[0]
            self.assertEqual(f"{key} = {json.dumps(vehicle_format.default_of(table, key))}", line)
        self.assertEqual(self.answer(self.vehicle(WHOLE)), first)


def tables(tree: Any, place: tuple[Any, ...] = ()) -> list[tuple[Any, ...]]:
    """The places of all tables of a tree."""
    found = [place] if isinstance(tree, dict) else []
    parts = tree.items() if isinstance(tree, dict) else enumerate(tree) if isinstance(tree, list) else ()
    return found + [other for key, part in parts for other in tables(part, (*place, key))]


def change(tree: Any, place: tuple[Any, ...], key: str, value: object) -> None:
    """Changes a key of a table; without a value it isn't there."""
    for part in place:
        tree = tree[part]
    if value is None:
        tree.pop(key, None)
    else:
        tree[key] = value


def spelled(tree: dict[str, Any]) -> str:
    """A tree as TOML."""
    return "".join(f"{key} = {inline(value)}\n" for key, value in tree.items())


def inline(value: object) -> str:
    """A value as TOML spells it in a line."""
    if isinstance(value, dict):
        return "{ " + ", ".join(f"{key} = {inline(part)}" for key, part in value.items()) + " }"
    if isinstance(value, list):
        return "[" + ", ".join(map(inline, value)) + "]"
    return re.sub("é", "\\\\u00e9", json.dumps(value, ensure_ascii=False)) if isinstance(value, str) else json.dumps(value)


class Plans(OfVehicles):
    def test_the_plans_are_clean(self) -> None:
        for name, text in (("p.toml", P), ("b.toml", B)):
            self.assertEqual(program.call(["check", self.write(name, text)]), (0, "ok 2 units 1 groups 1 flows\n"))


if __name__ == "__main__":
    unittest.main()
