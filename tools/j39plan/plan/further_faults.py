"""What else is wrong in a plan that the program refuses: it tells the first fault alone, and the schema has most of the others.

The schema is checked by the library jsonschema, and nothing further is told where that isn't there. Labels that stand twice or that nothing has are
none of its faults.
"""

import re
from collections.abc import Callable, Container, Iterator
from typing import Any, NamedTuple

from j39plan.plan.answer_places import PlacedPart
from j39plan.plan.hints.refusals import missing_key, unlisted_key, value_fault
from j39plan.plan.hints.text_faults import Told, faulty_statement, is_no_toml, statement_fault
from j39plan.plan.hints.wanted import listed
from j39plan.plan.parts import Source
from j39plan.plan.schema import VERSIONS, Rule, schema
from j39plan.plan.toml_places import MARK, Place, Places
from j39plan.plan.toml_reader import loads

# How hints at files of other kinds begin: nothing else is to be told of them.
OTHER_KIND = "this is "

# So many statements that are no TOML are passed over.
MOST = 20

# The keys that the library names in what it says.
NAMED = re.compile(r"'(\w+)' is a (?:required property|dependency of '(?:\w+)')")

# What no value meets. Of the schema false the library's later versions don't say which key has it.
NEVER: Rule = {"not": {}}


class Fault(NamedTuple):
    """A fault by the schema: the table, its key, and what is wrong with that, as refusals call it."""

    table: Place
    key: str
    cause: str


# What is wrong in a text by a schema, but for keys that were left out of it.
BySchema = Callable[[str, set[str]], list[Told]]


def further_faults(data: bytes, parts: list[PlacedPart], by_schema: BySchema | None = None) -> list[PlacedPart]:
    """What else is wrong in a file that `check` answered so, in the order of its lines; by the schema of plans, where no other one is given."""
    first = next((part for part in parts if part.answer.startswith("refused ")), None)
    if first is None or first.answer.startswith("refused plan ") or first.hint.startswith(OTHER_KIND):
        return []
    try:
        text = data.decode()
    except UnicodeDecodeError:
        return []
    told, text, left_out = readable(text) if first.answer == "refused Text" else ([], text, set())
    if text:
        told += (by_schema or by_plan_schema)(text, left_out)
    others = {subject(line, hint): (line, hint) for line, hint in reversed(told) if hint}
    others.pop(subject(first.line or 1, first.hint), None)
    return [PlacedPart(line, f"also {hint}", "", []) for line, hint in sorted(others.values())]


def subject(line: int, hint: str) -> tuple[int, str]:
    """What a hint is about: its line, and the key, or the key with its value."""
    return line, hint.partition(": ")[0]


def readable(text: str) -> tuple[list[Told], str, set[str]]:
    """What is wrong in the statements of a text that are no TOML, the text with empty lines in place of these, and their keys; no text where it isn't
    known how it goes on."""
    told: list[Told] = []
    left_out: set[str] = set()
    while is_no_toml(text):
        statement = faulty_statement(text, Places(text))
        spelled = text[statement.start:statement.end]
        told.append(statement_fault(statement))
        if spelled.startswith("[") or statement.end == len(text) or len(told) == MOST:
            return told, "", left_out
        left_out.add(spelled.partition("=")[0].strip())
        text = text[:statement.start] + re.sub("[^\n]", "", spelled) + text[statement.end:]
    return told, text, left_out


def named(rule: Any) -> Any:
    """A schema in which `NEVER` stands for false where that is the schema of a key."""
    if isinstance(rule, list):
        return [named(part) for part in rule]
    if not isinstance(rule, dict):
        return rule
    keys = {key: NEVER if part is False else named(part) for key, part in rule.get("properties", {}).items()}
    return {word: keys if word == "properties" else named(part) for word, part in rule.items()}


def errors_of(text: str, rule: Rule, versions: Container[object]) -> list[Any]:
    """What the library finds wrong with a text of one of these versions by a schema; nothing where it isn't there."""
    try:
        from jsonschema import Draft7Validator, validators
        values = loads(text.removeprefix(MARK))
    except (ImportError, ValueError, RecursionError):
        return []
    if values.get("version") not in versions:
        return []
    types = Draft7Validator.TYPE_CHECKER.redefine("integer", lambda _, value: type(value) is int)  # 10.0 is none
    return list(validators.extend(Draft7Validator, type_checker=types)(named(rule)).iter_errors(values))


def by_plan_schema(text: str, left_out: set[str]) -> list[Told]:
    """The faults of a text by the schema of plans, but for keys that aren't there since they were left out."""
    plan = Source(text)
    faults = dict.fromkeys(fault for error in errors_of(text, schema(), VERSIONS) for fault in faults_of(error))
    unlisted = {fault.table: told_of(plan, fault)[1] or "" for fault in faults if fault.cause == "UnknownKey"}
    return [told_of(plan, fault) for fault in faults if fault.cause != "Missing" or not is_explained(plan, fault, left_out, unlisted)]


def is_explained(plan: Source, fault: Fault, left_out: set[str], unlisted: dict[Place, str]) -> bool:
    """Whether a key isn't there since it was left out, is misspelled, or isn't known to the plan's version."""
    is_misspelled = unlisted.get(fault.table, "").endswith(f"; did you mean {fault.key}?")
    return fault.key in left_out or is_misspelled or fault.key not in listed(plan, fault.table)


def faults_of(error: Any) -> Iterator[Fault]:
    """The faults that an error of the library stands for."""
    path: Place = tuple(part + 1 if isinstance(part, int) else part for part in error.absolute_path)
    if error.validator in ("required", "dependencies"):
        if found := NAMED.match(error.message):
            yield Fault(path, found.group(1), "Missing")
    elif error.validator == "additionalProperties":
        yield from (Fault(path, key, "UnknownKey") for key in error.instance if key not in error.schema["properties"])
    elif error.validator == "not" and path[-2:-1] == ("signal",):  # one that is repeated and optional
        yield Fault(path, "optional", "Range")
    elif keys := [at for at, part in enumerate(path) if isinstance(part, str)]:
        table, key = path[:keys[-1]], str(path[keys[-1]])
        if "values" in table:  # a name of a number: the key is the table of names
            table, key = table[:table.index("values")], "values"
        elif key == "arbitrary" and error.validator == "const":  # of a unit that never claims, which is said of that key
            table, key = table[:-1], "claims"
        if isinstance(path[-1], int) and key != "keep_free":  # an element of an array
            return
        cause = {"type": "WrongType", "maxItems": "TooMany", "maxProperties": "TooMany"}.get(error.validator, "Range")
        cause = "UnknownKey" if error.schema == NEVER else cause
        yield Fault(table, key, cause)


def told_of(plan: Source, fault: Fault) -> Told:
    """The line of a fault, and a hint."""
    if fault.cause == "Missing":
        return missing_key(plan, fault.table, fault.key)
    if fault.key not in listed(plan, fault.table):
        return unlisted_key(plan, fault.table, fault.key)
    return value_fault(plan, fault.table, fault.key, fault.cause)
