"""What was found as SARIF 2.1.0, the form of static analysis results that GitHub's code scanning, Azure, Jenkins and editors show."""

from __future__ import annotations

import hashlib
import json
import os
import re
from typing import Any
from urllib.parse import quote

from j39plan import program
from j39plan.plan.code_quality import Issue, entry, name_of

VERSION = "2.1.0"
SCHEMA = "https://json.schemastore.org/sarif-2.1.0.json"

# What each kind of answer is, for who sees only its name.
KINDS = {"refused": "The file is no plan: this is wrong in it.", "also": "This is wrong in it, too.", "hint": "This may not be meant.",
         "finding": "The network can't work as it is planned."}

# Lines that a hint refers to.
LINES = re.compile(r"\bat line (\d+)")

Object = dict[str, Any]


def uri_of(path: str) -> str:
    """The name of a file as a URI, which is relative where the name is."""
    return quote(path) if not os.path.isabs(path) else f"file://{quote(path)}"


def kind_of(rule: str) -> str:
    """What the answers of a rule are: findings, refusals, further faults of a refused file, or hints."""
    return next((kind for kind in KINDS if rule.startswith(kind)), "finding")


def rule_of(text: str) -> str:
    """By which rule an answer is: the number and name of a finding, or the cause of a refusal."""
    found = re.match(r"[FG]\d+ \w+", text)
    return (found.group() if found else name_of(text)).replace(" ", "/")


def place(path: str, line: int) -> Object:
    """A line of a file."""
    return {"physicalLocation": {"artifactLocation": {"uri": uri_of(path)}, "region": {"startLine": line}}}


def result(path: str, issue: Issue, before: int) -> Object:
    """What was found at a line, with the lines that its hint refers to."""
    line, text, below = issue
    others = [{"id": number, "message": {"text": f"line {other}"}, **place(path, int(other))} for number, other in enumerate(LINES.findall(text), 1)]
    mark = hashlib.sha256(entry(path, issue, before)["fingerprint"].encode()).hexdigest()
    found: Object = {"ruleId": rule_of(text), "level": "note" if kind_of(rule_of(text)) == "hint" else "error", "message": {"text": "\n".join([text, *below])},
                     "locations": [place(path, line)], "partialFingerprints": {"j39plan/v1": mark}}
    return {**found, "relatedLocations": others} if others else found


def results(path: str, issues: list[Issue]) -> list[Object]:
    """What was found in a file; of what is found several times each has a fingerprint of its own."""
    seen: dict[str, int] = {}
    found = []
    for issue in issues:
        answer = re.sub(r"  \(.*\)\Z", "", issue[1])
        found.append(result(path, issue, seen.setdefault(answer, 0)))
        seen[answer] += 1
    return found


def rules(found: list[Object]) -> list[Object]:
    """The rules of what was found, each once."""
    return [{"id": rule, "shortDescription": {"text": KINDS[kind_of(rule)]}} for rule in dict.fromkeys(one["ruleId"] for one in found)]


def report(found: list[Object]) -> Object:
    """A report of one run."""
    driver = {"name": "j39plan", "rules": rules(found)}
    return {"$schema": SCHEMA, "version": VERSION, "runs": [{"tool": {"driver": driver}, "columnKind": "utf16CodeUnits", "results": found}]}


def is_ours(told: Any) -> bool:
    """Whether a file is a report of ours: one run, of this tool, with results that have places."""
    try:
        (run,) = told["runs"]
        return told["version"] == VERSION and run["tool"]["driver"]["name"] == "j39plan" and all(one["locations"] for one in run["results"])
    except (TypeError, KeyError, ValueError):
        return False


def read(name: str) -> list[Object]:
    """The results of a report, none where there is no such file yet."""
    if not os.path.exists(name) or os.path.getsize(name) == 0:
        return []
    try:
        with open(name, encoding="utf-8") as file:
            told = json.load(file)
    except ValueError:
        told = None
    if not is_ours(told):
        raise program.Refused(program.DEVICE, f"{name}: it is no SARIF report of j39plan, and stays as it is")
    found: list[Object] = told["runs"][0]["results"]
    return found


def write(name: str, path: str, issues: list[Issue]) -> None:
    """Writes what was found in a file into a report, in place of what that has of the same file."""
    path = os.path.normpath(path)
    others = [one for one in read(name) if one["locations"][0]["physicalLocation"]["artifactLocation"]["uri"] != uri_of(path)]
    with open(name, "w", encoding="utf-8") as file:
        file.write(json.dumps(report([*others, *results(path, issues)]), indent=1) + "\n")
