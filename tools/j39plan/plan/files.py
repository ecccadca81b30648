"""A plan's file as a tool takes it: read once, and where the program refuses it, said with the line and a hint."""

import contextlib
from collections.abc import Iterable, Iterator, Sequence

from j39plan import program
from j39plan.plan.hints.refusals import refusal
from j39plan.plan.parts import Source
from j39plan.plan.variants import text_of_variant


def refused_at(name: str, data: bytes, answer: str) -> str:
    """What the program answers of a file that it refuses, with the file's name, the line and a hint."""
    line, hint = refusal(Source(data.decode(errors="replace")), data, answer)
    return f"{name}:{line}: {answer}" + (f"  ({hint})" if hint else "")


@contextlib.contextmanager
def one_variant(plan: str, labels: Sequence[str] | None) -> Iterator[str]:
    """The name of a file with the plan of the vehicle of a line that has these alternatives, each table at its line; the plan itself where none are named."""
    if labels is None:
        yield plan
        return
    with program.file_of(text_of_variant(plan, labels, True)) as one:
        yield one


@contextlib.contextmanager
def opened(name: str, variant: Sequence[str] | None = None) -> Iterator[str]:
    """The name of a copy of a plan's file, or of that of a vehicle of its line. That the program can't read it as a plan is said with its line."""
    with program.copied(name) as copy:
        try:
            with one_variant(copy, variant) as plan:
                yield plan
        except program.Refused as refused:
            if refused.status != program.UNREADABLE or not str(refused).startswith("refused "):
                raise
            with open(copy, "rb") as file:
                raise program.Refused(refused.status, refused_at(name, file.read(), str(refused))) from None


def text_of(name: str, variant: Sequence[str] | None = None) -> str:
    """The text of a plan's file, which may be a pipe, or of that of a vehicle of its line. One that `check` can't read is refused, with the line where
    it is no plan."""
    if variant is not None:
        with opened(name, variant) as plan, open(plan, encoding="utf-8", newline="") as file:
            return file.read()
    with program.copied(name) as copy:
        status, answer = program.call(["check", "--", copy])
        with open(copy, "rb") as file:
            data = file.read()
    text = data.decode(errors="replace")
    if status in (0, 1):
        return text
    if status != program.UNREADABLE or not answer:
        raise program.Refused(status, f"{name}: it can't be read as a plan")
    raise program.Refused(status, refused_at(name, data, answer.strip()))


def sources_of(names: Iterable[str], variant: Sequence[str] | None = None) -> list[Source]:
    """The plans of several files, of those with choices that of a vehicle where its alternatives are named; each file that is no plan is said by its name."""
    sources, worst = [], 0
    for name in names:
        try:
            source = Source(text_of(name), name)
            if variant is not None and source["choice"]:
                with program.file_of(source.text) as plan, one_variant(plan, variant) as one:
                    source = Source(text_of(one), name)
            sources.append(source)
        except program.Refused as refused:
            program.say(refused)
            worst = max(worst, refused.status)
        except OSError as fault:
            program.say(f"{name}: {fault.strerror}")
            worst = max(worst, program.DEVICE)
    if worst:
        raise program.Refused(worst)
    return sources


def of_one_vehicle(source: Source) -> Source:
    """A plan without choices, which a tool wants; one with choices is refused as the program's commands do it."""
    if source["choice"]:
        raise program.Refused(1, f"{source.name}: {program.CHOICES}" if source.name else program.CHOICES)
    return source
