"""What the schemas say of the tables and keys of plans and of vehicles."""

from __future__ import annotations

from j39plan.editor.documents import Document
from j39plan.plan.schema import Rule, schema
from j39plan.plan.toml_places import Place, table_of
from j39plan.vehicle import format as vehicle_format


def schema_of(document: Document) -> Rule:
    """The schema of a file."""
    return vehicle_format.schema() if document.is_vehicle else schema()


def keys_of(document: Document, table: str) -> dict[str, Rule]:
    """The keys that a table may have, with what the schema says of each; those of the top by no name, none of a table that isn't known."""
    whole = schema_of(document)
    rule: Rule = whole["definitions"].get(table, {}) if table else whole
    found: dict[str, Rule] = rule.get("properties", {})
    return found


def rule_at(document: Document, place: Place) -> Rule | None:
    """What the schema says of a key."""
    return keys_of(document, table_of(place[:-1])).get(str(place[-1])) if place else None


def described(rule: Rule) -> str:
    """What a key is, and what it may be."""
    said = [str(rule.get("description", ""))]
    if "minimum" in rule:
        said.append(f"{rule['minimum']} to {rule['maximum']}")
    if "enum" in rule:
        said.append(", ".join(map(str, rule["enum"])))
    if "default" in rule:
        said.append(f"by default {str(rule['default']).lower()}" if isinstance(rule["default"], bool) else f"by default {rule['default']}")
    return "; ".join(filter(None, said))


def headers_of(document: Document) -> dict[str, str]:
    """The headers of tables that a file may have, each with what stands in such a table."""
    found, definitions = dict[str, str](), schema_of(document)["definitions"]
    inner = [("", key, rule) for key, rule in schema_of(document)["properties"].items()]
    for outside, key, rule in inner:
        is_array = "$ref" in rule.get("items", {})
        if not is_array and "$ref" not in rule or key not in definitions or "properties" not in definitions[key]:
            continue
        name = f"{outside}.{key}".removeprefix(".")
        found[f"[[{name}]]" if is_array else f"[{name}]"] = rule.get("description", f"the table {name}")
        if not outside:
            inner += [(name, under, below) for under, below in definitions[key]["properties"].items() if under != "name"]
    return found
