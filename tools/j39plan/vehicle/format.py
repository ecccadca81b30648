"""The format of vehicle files: its tables and keys, as `vehicle.schema.json` has them."""

import functools
import json
import os

from j39plan.plan.schema import Rule, Value
from j39plan.program import PACKAGE

SCHEMA = os.path.join(PACKAGE, "vehicle.schema.json")

# The keys of the top that a plan has and a vehicle doesn't.
OF_PLANS = ("unit", "group", "flow", "request", "timing", "keep_free", "strangers", "live")


@functools.cache
def schema() -> Rule:
    """What the format has."""
    with open(SCHEMA, encoding="utf-8") as file:
        found: Rule = json.load(file)
    return found


def listed(table: str) -> dict[str, Rule]:
    """The keys that a table may have, in the order of the format, with what the schema says of each; those of the top by no name."""
    found: dict[str, Rule] = (schema()["definitions"][table] if table else schema())["properties"]
    return found


def default_of(table: str, key: str) -> Value:
    """What a key is where it isn't said, None of one that has no default."""
    value: Value = listed(table)[key].get("default")
    return value


def tables_with(key: str) -> list[str]:
    """The tables that may have a key."""
    return [name for name, rule in schema()["definitions"].items() if key in rule.get("properties", {})]


def wanted(table: str, key: str) -> str:
    """What the format wants of a key, in words."""
    rule = listed(table)[key]
    if "enum" in rule:
        return " or ".join(json.dumps(word) for word in rule["enum"])
    if "minimum" in rule:
        least, most = rule["minimum"], rule["maximum"]
        return f"integer {least}" if least == most else f"integer {least}..{most}"
    if rule.get("type") == "boolean":
        return "true or false"
    if rule.get("type") != "array":
        return f"a text, {rule['description']}"
    if rule["items"]["$ref"].endswith("_on_bus"):
        return "an array of texts BUS.UNIT"
    return f"an array of tables: [[{f'{table}.' if table else ''}{key}]]"
