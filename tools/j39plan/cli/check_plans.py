"""Checks plans in a CI job: by `j39plan check`, or by the command that the variable CHECK names, as 'j39plan-where'.

The status is that of the worst plan: 0, it is clean; 1, it has to be mended; 2, it could not be checked. With --junit a file in JUnit's form has the
plans as tests.
"""

import os
import re
import subprocess
import sys
from collections.abc import Iterable
from typing import NamedTuple
from xml.etree import ElementTree

from j39plan import program

USAGE = "usage: check-plans [--junit FILE] PLAN.. | -h | --help | --version"

# What a text of XML can't have.
NO_XML = re.compile("[^\t\n\r -\uD7FF\uE000-\uFFFD\U00010000-\U0010FFFF]")

# The status of a shell where there is no such command, and what it adds to the number of a signal.
NO_COMMAND, SIGNALLED = 127, 128

# The worst status of a job.
WORST = 2


class Outcome(NamedTuple):
    """What became of a plan: 0, 1 or 2 as the job's status; what JUnit calls it, where it isn't clean, and why; and the whole answer."""

    status: int
    kind: str = ""
    why: str = ""
    answer: str = ""


def command() -> list[str]:
    """The command that checks a plan."""
    return os.environ.get("CHECK", "").split() or [os.environ.get("J39PLAN") or program.repository_program() or "j39plan", "check"]


def answer_of(plan: str) -> tuple[int, bytes]:
    """The status and the standard output of the command on a plan."""
    try:
        # A plan may be named by a descriptor that the shell has opened, as /dev/fd/7.
        ended = subprocess.run([*command(), "--", plan], stdout=subprocess.PIPE, check=False, close_fds=False)
    except OSError as fault:
        program.say(f"{command()[0]}: {fault.strerror}")
        return NO_COMMAND, b""
    return ended.returncode if ended.returncode >= 0 else SIGNALLED - ended.returncode, ended.stdout


def checked(plan: str) -> Outcome:
    """Checks a plan, and writes what is answered."""
    print(plan, flush=True)
    if not os.path.exists(plan) or os.path.isdir(plan) or not os.access(plan, os.R_OK):
        why = "isn't there" if not os.path.exists(plan) else "is a folder" if os.path.isdir(plan) else "can't be read"
        program.say(f"{plan} {why}")
        return Outcome(WORST, "error", f"it {why}")
    status, written = answer_of(plan)
    sys.stdout.buffer.write(written)
    sys.stdout.flush()
    answer = written.decode(errors="ignore").rstrip("\n")
    if status == 0:
        return Outcome(0)
    if status in (1, 2):
        return Outcome(1, "failure", answer.partition("\n")[0], answer)
    program.say(f"{plan} could not be checked, status {status}")
    return Outcome(WORST, "error", f"it could not be checked, status {status}", answer)


def as_xml(text: str) -> str:
    """A text without what XML can't have."""
    return NO_XML.sub("", text)


def write_junit(name: str, outcomes: Iterable[tuple[str, Outcome]]) -> None:
    """Writes the plans as tests of JUnit."""
    suite = ElementTree.Element("testsuite", name="check-plans")
    for plan, outcome in outcomes:
        test = ElementTree.SubElement(suite, "testcase", classname="check-plans", name=as_xml(plan))
        if outcome.kind:
            ElementTree.SubElement(test, outcome.kind, message=as_xml(outcome.why)).text = as_xml(outcome.answer)
    for key, parts in (("tests", "testcase"), ("failures", "testcase/failure"), ("errors", "testcase/error")):
        suite.set(key, str(len(suite.findall(parts))))
    ElementTree.indent(suite, "")
    ElementTree.ElementTree(suite).write(name, encoding="UTF-8", xml_declaration=True)


def plans_of(words: list[str]) -> list[str]:
    """The plans that are named. A word with a hyphen in front is an option that isn't there, unless a file is called so; behind -- it is a plan."""
    if words[:1] == ["--"]:
        return words[1:]
    for word in words:
        if len(word) > 1 and word.startswith("-") and not os.path.exists(word):
            raise program.Refused(WORST, f"there is no option {word}\n{USAGE}")
    return words


@program.command
def run(words: list[str] | None) -> int:
    """Checks the plans; the job's status."""
    given = sys.argv[1:] if words is None else words
    report = given[1] if len(given) > 1 and given[0] == "--junit" else None
    rest = given if report is None else given[2:]
    if not rest:
        print(USAGE, file=sys.stderr)
        return WORST
    if rest in (["-h"], ["--help"]):
        print(f"{USAGE}\n\nexample: {os.path.basename(sys.argv[0])} plans/*.toml")
        return 0
    if rest == ["--version"]:
        status, answer = program.call(["--version"])
        print("check-plans ({}) {}".format(*answer.split()[:2]))
        return status
    outcomes = [(plan, checked(plan)) for plan in map(program.input_name, plans_of(rest))]
    if report is not None:
        write_junit(report, outcomes)
    return max((outcome.status for _, outcome in outcomes), default=0)


def main(words: list[str] | None = None) -> int:
    """Checks the plans of a command line; a fault of the tool is a check that could not be made."""
    return min(WORST, run(words))


if __name__ == "__main__":
    sys.exit(main())
