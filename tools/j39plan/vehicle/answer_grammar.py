"""The grammar of what the program answers of a vehicle: a block of each bus, as `check` has it, the forwards, the needs, and the findings."""

from typing import NamedTuple

from j39plan.plan import answer_grammar
from j39plan.plan.answer_grammar import LABEL, Line, finding_form, form_of

# The findings of forwards, needs and gateways with their parts: of labels and `#` of numbers.
FINDINGS = (
    "G1 NoInput #forward", "G2 ManyInputs #forward", "G3 NoOutput #forward", "G4 ManyOutputs #forward", "G5 LayoutDiffers #forward",
    "G6 SignalDiffers #forward signal", "G7 TwoForwards #forward #other", "G8 ForwardLoop #forward", "G9 NeedUnmet #need", "G10 TooOften #forward",
    "G11 TooLate #forward", "G12 TooRare #forward", "G13 NeedTooOld #need", "G14 SharedQueue gateway bus",
)

ON_BUS = rf"{LABEL}\.{LABEL}"

FORWARD = rf"forward {{#forward}} {{gateway}} (?P<group>{ON_BUS}) to (?P<as>{ON_BUS})"
NEED = rf"need {{#need}} (?P<unit>{ON_BUS}) {{group}}(?: {{signal}})? from (?P<from>{ON_BUS})"
# What comes, as the origin sends it, and by which forwards.
COMES = r" {sent_group}(?: {sent_signal})?(?: by (?P<by>\d+(?: \d+)*))?"

# The lines behind the blocks of the buses, and those at which these begin, by what they are. Times are in us.
LINES = {
    "bus": [form_of("bus {bus}")],
    "finding": [finding_form(text) for text in FINDINGS],
    "findings": [form_of("findings {#findings}")],
    "ok": [form_of("ok {#buses} buses {#gateways} gateways {#forwards} forwards {#needs} needs")],
    "refused": answer_grammar.LINES["refused"],
    "forward": [form_of(FORWARD + rest) for rest in ("", " queued within {#within} of {#limit} us", " late of {#limit} us")],
    "need": [form_of(NEED + rest) for rest in (
        " unmet", COMES, COMES + " old of {#limit} us",
        *(COMES + " age {#age}" + limit + " us" + flow for limit in ("", " of {#limit}") for flow in ("", " flow {#flow}")))],
}


def line_of(text: str) -> Line:
    """A line behind the blocks of the buses, or one at which a block begins, by its parts."""
    return answer_grammar.line_of(text, LINES)


class Block(NamedTuple):
    """What is said of a bus: its label, and the lines of its plan, as `check` and `load` have them."""

    bus: str
    lines: list[str]

    @property
    def answer(self) -> str:
        """The lines of its plan as one text."""
        return "".join(f"{line}\n" for line in self.lines)


class Answer(NamedTuple):
    """What the program answers of a vehicle: a block of each bus, and the lines behind these."""

    blocks: list[Block]
    rest: list[str]


# Lines by which what `check` says of a plan ends.
ENDS = ("ok ", "findings ", "refused ")


def answer_of(text: str) -> Answer:
    """The parts of an answer. Behind what `check` says of a plan its block has at most the line of its load."""
    found = Answer([], [])
    is_whole = True
    for line in text.splitlines():
        if line.startswith("bus ") and not found.rest:
            found.blocks.append(Block(line_of(line).word("bus"), []))
            is_whole = False
        elif found.blocks and not found.rest and (not is_whole or line.startswith("load ")):
            found.blocks[-1].lines.append(line)
            is_whole = is_whole or line.startswith(ENDS)
        else:
            found.rest.append(line)
    return found
