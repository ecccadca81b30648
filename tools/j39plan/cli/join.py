"""Joins several plans, as of suppliers, to one: what they agree on once, and what they don't by file and line.

Where they contradict one another nothing is written, unless --first takes what the earlier file says.
"""

import sys

from j39plan import program
from j39plan.plan.joining import Join, text_of
from j39plan.plan.files import sources_of
from j39plan.plan.parts import Source


def different(sources: list[Source]) -> list[Source]:
    """The plans, each once; of the same twice it is said."""
    found: dict[str, Source] = {}
    for source in sources:
        other = found.setdefault(source.text, source)
        if other is not source:
            program.say(f"{source.name}: the same plan as {other.name}, so it is joined once")
    return list(found.values())


def refuse_unless_there(same: dict[str, str], sources: list[Source]) -> None:
    """Refuses labels that no plan has."""
    labels = {unit.label for source in sources for unit in source["unit"]}
    for other, label in same.items():
        if other not in labels:
            raise program.Refused(program.UNREADABLE, f"--same {label}={other}: no unit is called {other}")


def checked(text: str) -> str:
    """What `check` says at last of a plan's text; one that it doesn't read is refused."""
    with program.file_of(text) as plan:
        status, answer = program.call(["check", "--", plan])
    if status not in (0, 1):
        raise program.Refused(status, f"the joined plan can't be had: {answer.strip()}")
    return answer.splitlines()[-1]


@program.command
def main(words: list[str] | None = None) -> int:
    """Writes the joined plan; 0 where nothing contradicts."""
    parser = program.parser(__doc__)
    parser.epilog = "example: %(prog)s engine.toml brakes.toml > truck.toml"
    parser.add_argument("plans", metavar="PLAN", nargs="+", type=program.input_name, help="the name of a plan file")
    parser.add_argument("--first", action="store_true", help="write the plan although files contradict one another, with what the "
                        "earliest of them says; the others stand in comments")
    parser.add_argument("--same", action="append", default=[], type=program.same, metavar="LABEL=OTHER", help="the units of these labels are one")
    given = parser.parse_args(words)
    sources = different(sources_of(given.plans))
    same = dict(given.same)
    refuse_unless_there(same, sources)
    join = Join(sources, same)
    for told in join.notes:
        print(f"{told.at}: note: {told.text}", file=sys.stderr)
    for told in join.contradictions:
        print(f"{told.at}: {told.text}", file=sys.stderr)
    counts = f"notes {len(join.notes)}, contradictions {len(join.contradictions)}"
    if join.contradictions and not given.first:
        print(f"{len(sources)} plans, {counts}: nothing is written", file=sys.stderr)
        return 1
    text = text_of(join)
    found = checked(text)
    sys.stdout.write(text)
    print(f"{len(sources)} plans: {found}, {counts}", file=sys.stderr)
    return 1 if join.contradictions else 0


if __name__ == "__main__":
    sys.exit(main())
