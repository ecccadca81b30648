"""Says for each finding of a plan which changes take it away, tried by asking `j39plan check`, and shows the plan with the first of each.

The changes are shown as a difference of the file, in which comments stay. What is found although all of that was tried is said at the end.
"""

import argparse
import json
import sys
from collections.abc import Iterator
from typing import Any

from j39plan import program
from j39plan.mend.attempts import Mend
from j39plan.mend.judge import Judge
from j39plan.mend.search import MendedPlan, FindingMends, difference, mended
from j39plan.mend.slack import Slack, slack_lines, slack_object, slack_of
from j39plan.plan.files import text_of
from j39plan.progress import Progress


def words_of(words: list[str] | None) -> argparse.Namespace:
    """The words of the command line."""
    parser = program.parser(__doc__)
    parser.epilog = "example: %(prog)s plan.toml -o mended.toml"
    program.plan_word(parser)
    parser.add_argument("-o", "--output", metavar="NEW", help="write the plan with the first mend of each finding into a file")
    parser.add_argument("--json", action="store_true", help="as a JSON object: the findings with their mends, the difference, what check answers then")
    parser.add_argument("--slack", action="store_true", help="say how much of its deadline each flow has left, and how many further frames the bus takes")
    return parser.parse_args(words)


def mend_line(word: str, mend: Mend) -> str:
    """A mend in words."""
    return f"  {word}: {mend.where}: {mend.what}" + (f"  ({mend.note})" if mend.note else "")


def lines_of(name: str, tried: FindingMends) -> Iterator[str]:
    """A finding with what was tried."""
    yield f"{name}:{tried.line}: {tried.text}" + (f"  ({tried.hint})" if tried.hint else "")
    yield from (f"  {word}: {what}" for word, what in tried.left if word == "ask first")
    for number, mend in enumerate(tried.mends):
        yield mend_line("harmful" if mend.is_harmful else "or" if number else "mend", mend)
    if tried.by:
        yield f"  gone with the mend of {tried.by}"
    elif all(mend.is_harmful for mend in tried.mends):
        yield "  no mend was found"
    yield from (f"  {word}: {what}" for word, what in tried.left if word != "ask first")
    if tried.in_vain:
        yield f"  in vain: {'; '.join(tried.in_vain)}"


def mend_object(mend: Mend) -> dict[str, Any]:
    """A mend as JSON has it."""
    change = mend.change
    edits = [{"table": " ".join(map(str, place[:-1])) or "top", "key": place[-1], "value": value} for place, value in change.keys]
    edits += [{"new": table.header, "keys": table.keys} for table in change.added]
    edits += [{"gone": " ".join(map(str, place))} for place in change.removed]
    return {"where": mend.where, "what": mend.what, **({"note": mend.note} if mend.note else {}), **({"harmful": True} if mend.is_harmful else {}),
            "edits": edits}


def tried_object(tried: FindingMends) -> dict[str, Any]:
    """A finding with what was tried, as JSON has it."""
    found = {"text": tried.text, "line": tried.line, "hint": tried.hint, "mends": [mend_object(mend) for mend in tried.mends],
             "in_vain": tried.in_vain, "gone_with": tried.by, **{word.replace(" ", "_"): what for word, what in tried.left}}
    return {key: value for key, value in found.items() if value != ""}


def written(given: argparse.Namespace, before: str, found: MendedPlan, slack: Slack | None) -> None:
    """Writes what was found."""
    shown = difference(given.plan, before, found.text)
    if given.json:
        whole = {"plan": given.plan, "status": found.status, "findings": [tried_object(one) for one in found.tried], "difference": shown,
                 "check": found.answer.splitlines(), **({"slack": slack_object(slack)} if slack else {})}
        json.dump(whole, sys.stdout, indent=1)
        print()
        return
    for one in found.tried:
        print("\n".join(lines_of(given.plan, one)))
    print(shown, end="")
    sys.stdout.writelines(f"{'then ' if found.tried else ''}{line}\n" for line in found.answer.splitlines() if not line.startswith("  "))
    if slack:
        print("\n".join(slack_lines(slack)))


@program.command
def main(words: list[str] | None = None) -> int:
    """Mends a plan; 1 where something is still found."""
    given = words_of(words)
    text, progress = text_of(given.plan, given.variant), Progress()
    judge = Judge(progress)
    try:
        found = mended(text, judge)
        slack = slack_of(found.text, judge) if given.slack else None
    finally:
        progress.clear()
    for answer in judge.refused:
        program.say(f"a change that was tried makes no plan: {answer}")
    if given.output:
        with open(given.output, "w", encoding="utf-8", newline="") as file:
            file.write(found.text)
    written(given, text, found, slack)
    return found.status


if __name__ == "__main__":
    sys.exit(main())
