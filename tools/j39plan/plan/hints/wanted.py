"""What the format says of the keys of a plan's text, as far as its version knows them."""

from __future__ import annotations

import json

from j39plan.plan.parts import Source
from j39plan.plan.schema import VERSIONS, Rule, knows, schema
from j39plan.plan.toml_places import Place, table_of

# What the schema can't say of a key.
WORDS = {
    "per": ", a product of 2s and 5s", "most": ", at least the length", "broadcast_gap_most": ", at least broadcast_gap",
    "value": ", which the bits hold", "jitter": ", below the period", "pause": ", at least the period", "claims": ", and true where the NAME is arbitrary",
    "name": ", as { manufacturer = 310, function = 9 }", "when": ", as { byte = 1, bits = 8, value = 1 }",
    "values": " of raw numbers, as decimal numbers that the signal's bits hold, with labels, and none of a dtc",
}


def is_known(plan: Source, word: object) -> bool:
    """Whether the plan's version knows a key of a table, or a kind."""
    version = plan.places.number(("version",)) or VERSIONS[0]
    return knows(version if version in VERSIONS else VERSIONS[0], word)


def listed(plan: Source, place: Place) -> dict[str, Rule]:
    """The keys that the table at a place may have, with what the schema says of each."""
    table = table_of(place)
    found: dict[str, Rule] = (schema()["definitions"][table] if table else schema())["properties"]
    return {key: rule for key, rule in found.items() if is_known(plan, (table or None, key))}


def tables_with(key: str) -> list[str]:
    """The tables that may have a key."""
    return [name for name, rule in schema()["definitions"].items() if key in rule.get("properties", {})]


def rule_of(plan: Source, place: Place, key: str) -> Rule:
    """What the schema says of a key."""
    rule = listed(plan, place)[key]
    while "$ref" in rule:
        rule = schema()["definitions"][rule["$ref"].split("/")[-1]]
    return rule


def wanted(plan: Source, place: Place, key: str) -> str:
    """What the schema wants of a key, in words."""
    rule = rule_of(plan, place, key)
    if "enum" in rule:
        return " or ".join(json.dumps(word) for word in rule["enum"] if is_known(plan, word))
    if "const" in rule:
        return f"{rule['type']} {rule['const']}"
    if "minimum" in rule:
        return f"{rule['type']} {rule['minimum']}..{rule['maximum']}" + WORDS.get(key, "")
    if rule.get("items", {}).get("type") == "integer":
        return f"an array of integers {rule['items']['minimum']}..{rule['items']['maximum']}, each once"
    if rule.get("items", {}).get("type") == "string":
        most = "two or more" if rule.get("minItems") == 2 else "one or more"
        return f'an array of {most} labels, each once, as ["A", "B"]: {rule["description"].partition(": ")[2] or rule["description"]}'
    header = ".".join(str(part) for part in (*place, key) if isinstance(part, str))
    kinds = {"array": f"an array of tables: [[{header}]]", "object": "a table", "boolean": "true or false"}
    kind = kinds.get(rule.get("type", ""))
    return f"{kind}{WORDS.get(key, '')}" if kind else f"a text, {rule['description']}"
