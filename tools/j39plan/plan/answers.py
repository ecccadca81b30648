"""What the program answers of a plan, as tables: findings, who stays at which address, and what the flows ask of the bus."""

from collections.abc import Iterator
from typing import NamedTuple

from j39plan import program
from j39plan.plan.answer_grammar import Line, line_of, lines_of
from j39plan.plan.answer_places import finding, parted
from j39plan.plan.parts import Source


class Finding(NamedTuple):
    """What `check` found, the line of the file where it belongs, a hint, and the steps of a run that shows it; its number and its name, as
    `F20` and `NeedTooOld`."""

    text: str
    line: int
    hint: str
    steps: list[str]
    number: str = ""
    name: str = ""


class Stand(NamedTuple):
    """Whether a unit holds its planned address in every run, and that address."""

    stays: bool
    address: int


class Delay(NamedTuple):
    """A flow by its number, and by `load` the time within which its frames are on the bus, None where that isn't shown to be in time; the time
    that they have, None of a long message without a deadline of its own; how many frames a message takes, 0 of a flow without a period; and
    of a late one the time that it takes, where one is known. A long message to all is whole within that time. Times are in us."""

    flow: int
    within: int | None
    limit: int | None
    frames: int
    late: int | None = None


class Age(NamedTuple):
    """A need by its number, and by `load` how old what it asks for is at most, None where it isn't shown to be as young as it has to be; how
    old it may be; where it may be older how old, where that is known; and where several flows meet it whose age that is. Times are in us."""

    need: int
    age: int | None
    limit: int
    old: int | None = None
    flow: int | None = None


class Load(NamedTuple):
    """The delays of the flows, of how many bits a second how many are taken, None where the plan has findings before that, and the ages of
    what is needed."""

    delays: list[Delay]
    taken: tuple[int, int] | None
    ages: list[Age] = []


class PlanAnswer(NamedTuple):
    """What the program answers of a plan that can be read: where its units stand, its load, None where `load` says nothing, and its findings."""

    stands: dict[str, Stand]
    load: Load | None
    found: list[Finding] = []

    @classmethod
    def of(cls, plan: str, found: list[Finding]) -> "PlanAnswer":
        """The answer of a plan's file with these findings."""
        return cls(stands(program.call(["addresses", "--", plan])[1]), load_of(program.call(["load", "--", plan])[1]), found)


def findings(plan: Source, answer: str) -> Iterator[Finding]:
    """The findings of `check`, each with its line, a hint, and the steps of a run that shows it."""
    for line, *below in parted(answer):
        if line_of(line).kind == "finding":
            at, hint = finding(plan, line)
            number, name = line.split()[:2]
            yield Finding(line, at, hint or "", [line_of(step).word("step") for step in below], number, name)


def stands(answer: str) -> dict[str, Stand]:
    """Where units stand by `addresses`; of a plan whose addresses have findings that isn't known, nor of a unit that no vehicle of a line has."""
    units = (line for line in lines_of(answer) if line.kind == "unit" and "nowhere" not in line.parts)
    return {line.word("unit"): Stand(line.word("stays") == "stays", line.number("address")) for line in units}


def delay_of(line: Line) -> Delay:
    """What `load` tells of a flow."""
    frames = 0 if line.said == "no period" else line.number_if_any("frames") or 1
    return Delay(line.number("flow"), line.number_if_any("within"), line.number_if_any("limit"), frames, line.number_if_any("late"))


def age_of(line: Line) -> Age:
    """What `load` tells of a need."""
    return Age(line.number("need"), line.number_if_any("age"), line.number("limit"), line.number_if_any("old"), line.number_if_any("flow"))


def load_of(answer: str) -> Load | None:
    """What `load` tells of a plan, but for what no vehicle of a line has; None of one that says nothing of the bus."""
    lines = [line for line in lines_of(answer) if "nowhere" not in line.parts]
    if lines and lines[-1].word("cause") == "NoTiming":
        return None
    taken = [(line.number("load"), line.number("bitrate")) for line in lines if line.kind == "load"]
    if not taken:
        return Load([], None)
    delays = [delay_of(line) for line in lines if line.kind == "flow"]
    ages = [age_of(line) for line in lines if line.kind == "need"]
    return Load(delays, taken[0], ages)
