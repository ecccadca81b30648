"""Checks a plan or a vehicle with j39plan and says where in the file each answer belongs, as FILE:LINE: ANSWER  (hint)."""

import argparse
import json
import sys
from collections.abc import Callable, Iterable, Iterator

from j39plan import program
from j39plan.plan import code_quality, sarif
from j39plan.plan.answer_objects import check_object
from j39plan.plan.answer_places import PlacedPart, placed
from j39plan.plan.files import opened
from j39plan.plan.further_faults import further_faults
from j39plan.plan.hints import requests, variants
from j39plan.plan.hints.lint import Lint
from j39plan.plan.hints.names import HintChoice, asked_in
from j39plan.plan.parts import Source, source_in
from j39plan.plan.reference import Reference, shipped_reference
from j39plan.vehicle.answer_objects import vehicle_object
from j39plan.vehicle.answer_places import InFile
from j39plan.vehicle.answers import answered, readable
from j39plan.vehicle.files import Vehicle, is_vehicle

# How an answer with a place is written: of file, line, text and the lines that belong to it.
Form = Callable[[str, int, str, list[str]], list[str]]


def compiler_message(file: str, line: int, text: str, below: list[str]) -> list[str]:
    """As a compiler says it, with the lines that belong to it below."""
    return [f"{file}:{line}: {text}", *below]


# The signs that an annotation of GitHub's CI doesn't take as they are, in names of files and in texts.
NAME_SIGNS, TEXT_SIGNS = "%\r\n:,", "%\r\n"


def escaped(text: str, chars: str) -> str:
    """A text with these characters by their codes."""
    return "".join(f"%{ord(char):02X}" if char in chars else char for char in text)


def github_annotation(file: str, line: int, text: str, below: list[str]) -> list[str]:
    """As an annotation of GitHub's CI, which holds the lines that belong to it."""
    name, whole = escaped(file, NAME_SIGNS), escaped("\n".join([text, *below]), TEXT_SIGNS)
    return [f"::error file={name},line={line}::{whole}"]


def annotate(name: str, parts: Iterable[PlacedPart], form: Form) -> Iterator[str]:
    """The lines of an answer's parts, those that have a place in this form."""
    for part in parts:
        if part.line is None:
            yield part.text
            yield from part.below
        else:
            yield from form(name, part.line, part.text, part.all_below)


def github_notice(file: str, line: int, text: str, _: list[str]) -> list[str]:
    """As a notice of GitHub's CI, which is no error."""
    return [f"::notice file={escaped(file, NAME_SIGNS)},line={line}::{escaped(text, TEXT_SIGNS)}"]


def hints_of(given: argparse.Namespace, plan: str, used: frozenset[str] = frozenset()) -> list[PlacedPart]:
    """The hints at a plan that can be read, and of whose units with these labels a vehicle makes use, as far as they are asked for."""
    source = source_in(plan)
    asked: HintChoice = given.asked
    told = [(line, text, "") for line, text in (variants.nowhere(source) if source["choice"] else ())]
    told += [(line, text, "") for line, text in requests.without_period(source)]
    told += Lint(source, used).named(asked) if given.lint else []
    hints = [PlacedPart(line, f"hint {text}", name, []) for line, text, name in sorted(told)]
    reference: Reference | None = given.reference
    return hints + (reference.differences(source) if reference else [])


def lines_of(name: str, hints: list[PlacedPart], parts: list[PlacedPart], github: bool) -> list[str]:
    """The lines that are written: the hints, then the answer."""
    forms = (github_notice, github_annotation) if github else (compiler_message, compiler_message)
    return [line for some, form in zip((hints, parts), forms) for line in annotate(name, some, form)]


def words_of(words: list[str] | None) -> argparse.Namespace:
    """The words of the command line."""
    parser = program.parser(__doc__)
    parser.epilog = "example: %(prog)s --lint plan.toml"
    parser.add_argument("plan", metavar="PLAN", nargs="?", type=program.input_name, help="the name of a plan file, or of a vehicle file")
    forms = parser.add_mutually_exclusive_group()
    forms.add_argument("--github", action="store_true", help="as annotations of GitHub's CI")
    forms.add_argument("--json", action="store_true", help="as a JSON object: status, findings with their parts, lines, hints and steps")
    parser.add_argument("--gitlab", metavar="FILE", help="write them into a file too, as a code quality report of GitLab's CI, in which "
                        "those of other plans stay")
    parser.add_argument("--sarif", metavar="FILE", help="write them into a file too, as SARIF 2.1.0, which GitHub's code scanning and others show; those of "
                        "other plans stay")
    parser.add_argument("--reference", metavar="FILE", nargs="?", const="", help="with hints at signals that a DBC of SAE J1939, or a plan of its groups, has "
                        "otherwise by their SPNs: place, width, scale, unit, PGN, priority, length; without FILE the database of python3-canmatrix")
    program.variant_option(parser)
    parser.add_argument("--lint", action="store_true", help="with hints that are no findings, as FILE:LINE: hint ANSWER  (NAME), for example "
                        "of a group that no flow sends; they don't change the status. Behind it, -NAME silences those of a name, +NAME asks for "
                        "those that come with nearly every plan")
    rest, asked = asked_in(sys.argv[1:] if words is None else words)
    given = parser.parse_args(rest, argparse.Namespace(asked=asked))
    if given.plan is None and given.reference:  # the plan stands right behind the option
        given.plan, given.reference = program.input_name(given.reference), ""
    if given.plan is None:
        parser.error("the following arguments are required: PLAN")
    if given.reference is not None:
        given.reference = Reference(given.reference) if given.reference else shipped_reference()
    return given


def in_files(found: Iterable[InFile], form: Form) -> Iterator[str]:
    """The lines of an answer's parts, each with its file."""
    for file, _, part in found:
        yield from annotate(file, [part], form)


def report(given: argparse.Namespace, status: int, found: list[InFile]) -> None:
    """Writes what was found in each file into the reports that are wanted, where it could be checked."""
    for file in dict.fromkeys(one.file for one in found) if status in (0, 1, 2) else ():
        issues = [(part.line, part.text, part.all_below) for name, _, part in found if name == file and part.line is not None]
        if given.gitlab:
            code_quality.write(given.gitlab, file, issues)
        if given.sarif:
            sarif.write(given.sarif, file, issues)


def hints_at_buses(given: argparse.Namespace, name: str, data: bytes) -> Iterator[InFile]:
    """The hints at the plans of a vehicle that can be read, each once."""
    vehicle = Vehicle(Source(data.decode(errors="replace")), name)
    used: dict[str, set[str]] = {}
    for bus in vehicle.tables.buses:
        used.setdefault(vehicle.file_of(bus), set()).update(vehicle.tables.units_on(bus.label))
    for file, units in used.items():
        yield from (InFile(file, "", hint) for hint in hints_of(given, file, frozenset(units)))


def of_vehicle(given: argparse.Namespace, name: str, data: bytes) -> int:
    """Runs `j39plan vehicle` on a file of this name and answers its exit status."""
    status, parts, further = answered(given.plan, name, data)
    hints = list(hints_at_buses(given, name, data)) if status in (0, 1) else []
    if given.json:
        print(json.dumps(vehicle_object(given.plan, status, parts, hints if given.lint or given.reference else None, further), indent=1))
    else:
        notice, form = (github_notice, github_annotation) if given.github else (compiler_message, compiler_message)
        sys.stdout.write("".join(f"{line}\n" for line in (*in_files(hints, notice), *in_files([*parts, *further], form))))
    report(given, status, [*hints, *parts, *further])
    return status


@program.command
def main(words: list[str] | None = None) -> int:
    """Runs `j39plan check`, or of a vehicle `j39plan vehicle`, and answers its exit status."""
    given = words_of(words)
    hints: list[PlacedPart] = []
    parts: list[PlacedPart] = []
    further: list[PlacedPart] = []
    with opened(given.plan, given.variant) as plan:
        with open(plan, "rb") as file:
            data = file.read()
        if is_vehicle(data):
            return of_vehicle(given, readable(given.plan, plan), data)
        status, answer = program.call(["check", "--", plan])
        if answer:
            parts = list(placed(data, answer))
            further = further_faults(data, parts)
        if status in (0, 1):
            hints = hints_of(given, plan)
    if given.json:
        print(json.dumps(check_object(given.plan, status, parts, hints if given.lint or given.reference else None, further), indent=1))
    else:
        sys.stdout.write("".join(f"{line}\n" for line in lines_of(given.plan, hints, [*parts, *further], given.github)))
    report(given, status, [InFile(given.plan, "", part) for part in (*hints, *parts, *further)])
    return status


if __name__ == "__main__":
    sys.exit(main())
