"""The code quality report of GitLab's CI: a JSON array of what was found, which a merge request shows at its lines."""

import hashlib
import json
import os
import re
from typing import Any

from j39plan import program

# Line, text and the lines that belong to it.
Issue = tuple[int, str, list[str]]


def severity(text: str) -> str:
    """How grave it is: a plan that can't be read, a finding, a hint."""
    return "critical" if text.startswith(("refused ", "also ")) else "info" if text.startswith("hint ") else "major"


def name_of(text: str) -> str:
    """By what it is known: the name of a finding, the cause of a refusal, `hint`, or `also` of a further fault."""
    found = re.match(r"[FG]\d+ (\w+)|(refused \w+)|(hint|also) ", text)
    return next(filter(None, found.groups())) if found else text.partition(" ")[0]


def entry(path: str, issue: Issue, before: int) -> dict[str, Any]:
    """An entry of the report. Its fingerprint is of the path and the answer, and not of the line, which edits above it move, nor of the
    hint, which may name one; `before` is how many of the same stand before it."""
    line, text, below = issue
    answer = re.sub(r"  \(.*\)\Z", "", text)
    mark = hashlib.sha256("\0".join((path, answer, str(before))).encode(errors="surrogateescape")).hexdigest()
    return {"description": "\n".join([text, *below]), "check_name": name_of(text), "fingerprint": mark, "severity": severity(text),
            "location": {"path": path, "lines": {"begin": line}}}


def entries(path: str, issues: list[Issue]) -> list[dict[str, Any]]:
    """The entries of a plan."""
    seen: dict[str, int] = {}
    found = []
    for issue in issues:
        answer = re.sub(r"  \(.*\)\Z", "", issue[1])
        found.append(entry(path, issue, seen.setdefault(answer, 0)))
        seen[answer] += 1
    return found


def read(name: str) -> list[dict[str, Any]]:
    """The entries of a report, none where there is no such file yet."""
    if not os.path.exists(name) or os.path.getsize(name) == 0:
        return []
    try:
        with open(name, encoding="utf-8") as file:
            report = json.load(file)
    except ValueError:
        report = None
    if not isinstance(report, list) or not all(isinstance(one, dict) and isinstance(one.get("location"), dict) for one in report):
        raise program.Refused(program.DEVICE, f"{name}: it is no code quality report, and stays as it is")
    return report


def write(name: str, path: str, issues: list[Issue]) -> None:
    """Writes the entries of a plan into a report, in place of those that it has of the same plan."""
    path = os.path.normpath(path)
    others = [one for one in read(name) if one["location"].get("path") != path]
    report = json.dumps([*others, *entries(path, issues)], indent=1)
    with open(name, "w", encoding="utf-8") as file:
        file.write(report + "\n")
