"""Where in a plan's file the answers of the program belong: the line of each finding and refusal, and a hint."""

import re
from collections.abc import Iterator
from typing import NamedTuple

from j39plan.j1939 import FRAME_BYTES
from j39plan.plan.answer_grammar import Line, line_of
from j39plan.plan.hints import ends, full, groups, needs, requests, variants
from j39plan.plan.hints.refusals import refusal
from j39plan.plan.hints.text_faults import Told
from j39plan.plan.parts import Source
from j39plan.plan.tables import Flow
from j39plan.plan.toml_places import Place
from j39plan.plan.variants import Line as Choices

# The key to look at, of each finding that names two units or two groups.
PAIR_KEYS = {"F1": ("unit", "name"), "F2": ("unit", "address"), "F5": ("group", "pgn"), "F26": ("unit", "address")}

# What units need that differ by their serial numbers alone, or not by them (SAE J1939-81).
ALIKE = "give them different function_instance or ecu; or both their numbers: then the plan fits one vehicle"

# So many units of one NAME are named.
SHOWN = 5

# The key to look at of each finding that names one flow, and what is to be known of it.
FLOW_KEYS = {
    "F9": ("to", "a frame of this group goes to all"),
    "F10": ("to", "the sender itself"),
    "F16": ("period", "it isn't there, and a plan with timing asks for it"),
}

# The key to look at of each finding that names one unit, group, signal or text, and what is to be known of it.
KEYS = {
    "F7": ("signal", "byte", "the signal ends after the group's length, or, where it is optional, after its longest messages"),
    "F12": ("unit", "address", "kept free: a unit with arbitrary = true may not hold it"),
    "F13": ("group", "private", "no flow sends this group"),
    "F15": ("text", "byte", "the text ends after the group's longest messages, or begins after what follows its shortest"),
    "F24": ("group", "when", "its bits end after the group's length"),
    "F27": ("unit", "address", "one of 128..247, which others may choose: a unit that never claims it can't defend it"),
}


def of_group(plan: Source, line: Line) -> Told:
    """Line and hint of a finding about the number of a group, or the width of a signal of one."""
    group = next(group for group in plan.tables.groups if group.label == line.word("group"))
    if line.word("finding") == "F4":
        place, (key, hint) = group.place, groups.wrong_number(group, plan.version, plan.places.spelled.get((*group.place, "pgn"), ""))
    else:
        signal = next(signal for signal in group.signals if signal.label == line.word("signal"))
        place, (key, hint) = signal.place, groups.wrong_width(signal)
    return plan.line(place + (key,)), f"key {key}: {hint}"


def of_one(plan: Source, line: Line) -> Told:
    """Line and hint of a finding about one unit, group, signal or text."""
    kind, key, hint = KEYS[line.word("finding")]
    array = "unit" if kind == "unit" else "group"
    place = plan.labelled((array,), line.word(array))
    if kind in ("signal", "text"):
        place = plan.labelled(place + (kind,), line.word(kind))
    if line.word("finding") == "F7":
        group = next(group for group in plan.tables.groups if group.label == line.word("group"))
        hint += groups.outside(group, next(signal for signal in group.signals if signal.place == place))
    return plan.line(place + (key,)), f"key {key}: {hint}"


def of_flow(plan: Source, line: Line) -> Told:
    """Line and hint of a finding about one flow."""
    flow = plan.tables.flows[line.number("flow") - 1]
    key, hint = OF_FLOW[line.word("finding")](plan, flow) if line.word("finding") in OF_FLOW else FLOW_KEYS[line.word("finding")]
    return plan.line(flow.place + (key,)), f"{flow.what}: key {key}: {hint}"


def late(plan: Source, flow: Flow) -> tuple[str, str]:
    """The key of a late flow by which its time is short, and what that is."""
    if plan.tables.longest(flow.group) > FRAME_BYTES:
        return "deadline", "its long messages aren't shown to be whole within it"
    what = "there isn't room for all that may go before it"
    if flow.deadline is not None:
        return "deadline", f"within {flow.deadline} ms {what}"
    if flow.jitter:
        return "jitter", f"it takes {flow.jitter} ms of the period of {flow.period} ms, and within the rest {what}: a smaller one, or a deadline above the period"
    return "period", f"within {flow.period} ms {what}; a deadline may be longer"


def too_often(plan: Source, flow: Flow) -> tuple[str, str]:
    """The key of a flow that is asked for too often, and by which requests it is."""
    return requests.too_often(plan.tables, flow)


# What says the key of a flow and a hint, of findings of which they are not the same for each flow.
OF_FLOW = {"F18": late, "F31": too_often}


def of_ends(plan: Source, line: Line) -> Told:
    """Line and hint of a finding about the ends of a flow: where the one stands that isn't alone, and why it isn't."""
    flow = plan.tables.flows[line.number("flow") - 1]
    key, hint = ends.contested(plan.tables, plan.kept, flow) or ("from", "")
    return plan.line(flow.place + (key,)), f"{flow.what}: key {key}: {hint}"


def of_need(plan: Source, line: Line) -> Told:
    """Line and hint of a finding about a need."""
    need = plan.tables.needs[line.number("need") - 1]
    key, hint = needs.unmet(plan.tables, need) if line.word("finding") == "F19" else ("within", needs.old(plan.tables, need))
    group = next(group for group in plan.tables.groups if group.label == need.group)
    if line.word("finding") == "F20" and group.most > FRAME_BYTES:
        key_of_length = "most" if group.most > group.length else "length"
        hint += f" ({key_of_length} at line {plan.line((*group.place, key_of_length))}{groups.in_bytes(group)})"
    return plan.line(need.place + (key,)), f"{needs.named(need)}: key {key}: {hint}"


def of_request(plan: Source, line: Line) -> Told:
    """Line and hint of a finding about a request, or about two."""
    request = plan.tables.requests[line.number("request") - 1]
    if line.word("finding") == "F25":
        other = plan.tables.requests[line.number("other") - 1]
        return plan.line(other.place), f"{requests.named(other)}: on the bus the same as at line {plan.line(request.place)}"
    key, hint = requests.astray(request) if line.word("finding") == "F23" else requests.unserved(plan.tables, request)
    return plan.line(request.place + (key,)), f"{requests.named(request)}: key {key}: {hint}"


def of_signals(plan: Source, line: Line) -> Told:
    """Line and hint of a finding about two signals of a group."""
    signals = (*plan.labelled(("group",), line.word("group")), "signal")
    first, second = (plan.labelled(signals, line.word(part)) for part in ("signal", "other"))
    if line.word("finding") == "F8":
        return plan.line(second), f"shares a bit with {line.word('signal')} at line {plan.line(first)}"
    other = "itself" if first == second else f"{line.word('other')} at line {plan.line(second)}"
    return plan.line(first + ("repeated",)), f"key repeated: in a later record {line.word('signal')} and {other} share a bit"


def of_two(plan: Source, line: Line) -> Told:
    """Line and hint of a finding about two units or groups: where the second stands."""
    kind, key = PAIR_KEYS[line.word("finding")]
    first, second = (plan.labelled((kind,), line.word(part)) for part in (kind, "other"))
    at, there = plan.line(second + (key,)), f"{line.word(kind)} at line {plan.line(first + (key,))}"
    if line.word("finding") == "F1" and any((*place, "name", "identity") not in plan.places.lines for place in (first, second)):
        return at, alike(plan, line.word(kind), line.word("other"), there)
    told = told_apart(plan, first, second) if kind == "group" else ""
    return at, f"key {key}: the same as of {there}{told}"


def alike(plan: Source, first: str, second: str, there: str) -> str:
    """What is to be said of two units of one NAME but for the serial number: of more than two it is said once, of the first two of them."""
    named = {unit.label: {key: number for key, number in unit.fields.items() if key != "identity"} for unit in plan.tables.units}
    same = [label for label, name in named.items() if name == named[first]]
    if len(same) <= 2:
        numbered = any("identity" in unit.fields for unit in plan.tables.units if unit.label in same)
        return f"{'only serial numbers distinguish' if numbered else 'nothing in the plan distinguishes'} {there} from {second}: {ALIKE}"
    if same[:2] != [first, second]:
        return ""
    what = "a NAME of zeros, as if none were given" if not any(named[first].values()) else "this NAME but for serial numbers"
    return f"{len(same)} units have {what}: {', '.join(same[:SHOWN])}{' ..' if len(same) > SHOWN else ''}: {ALIKE}"


def of_flows(plan: Source, line: Line) -> Told:
    """Line and hint of a finding about two flows: where the second stands."""
    first, second = (plan.tables.flows[line.number(part) - 1] for part in ("flow", "other"))
    return plan.line(second.place), f"{second.what}: the same as at line {plan.line(first.place)}"


def told_apart(plan: Source, first: Place, second: Place) -> str:
    """Why two groups of one number aren't told apart by their data, where one of them has a key for that."""
    whens = [place + ("when",) for place in (first, second)]
    without = [plan.places.texts.get(when[:-1] + ("label",), "") for when in whens if when not in plan.places.lines]
    if without:
        return f", and {without[0]} has no key when" if len(without) == 1 else ""
    bits = [[plan.places.number(when + (key,)) or default for key, default in (("byte", 1), ("bit", 1), ("bits", 1))] for when in whens]
    return ", and when names other bits" if bits[0] != bits[1] else ", and when has the same value"


def of_plan(plan: Source, line: Line) -> Told:
    """Line and hint of a finding about the plan as a whole."""
    if line.word("finding") == "F3":
        return plan.line(("unit", 1)), "units with arbitrary = true, and others at addresses of 128..247 that aren't kept free"
    return plan.line(("timing", "bitrate")), "key bitrate: the flows take more at their periods; load shows how much"


def of_choices(plan: Source, line: Line) -> Told:
    """Line and hint of a finding about the choices of a line of vehicles."""
    if line.word("finding") == "F29":
        one = ", or ".join(f"at line {plan.line(('never', number))}" for number in Choices.of(plan).freeing(set()))
        return plan.line(("never",)), "the nevers leave no vehicle" + (f"; without the one {one} there are some" if one else "")
    told = [" or ".join(labels) for labels in full.several(plan)]
    named = f"{', '.join(told[:SHOWN])}{' ..' if len(told) > SHOWN else ''}"
    return plan.line(("choice",)), f"so many vehicles may differ in delays, loads and addresses, by {named}: where few do, plan what they have for each vehicle"


# What is to be said of a finding by its number.
HINTS = {
    **dict.fromkeys(("F29", "F30"), of_choices),
    **dict.fromkeys(PAIR_KEYS, of_two), **dict.fromkeys((*FLOW_KEYS, *OF_FLOW), of_flow), **dict.fromkeys(KEYS, of_one), **dict.fromkeys(("F3", "F17"), of_plan),
    **dict.fromkeys(("F4", "F6"), of_group), **dict.fromkeys(("F8", "F14"), of_signals), "F11": of_flows, "F28": of_ends, **dict.fromkeys(("F19", "F20"), of_need),
    **dict.fromkeys(("F21", "F22", "F23", "F25"), of_request),
}


def finding(plan: Source, text: str) -> Told:
    """Line and hint of a finding."""
    line = line_of(text)
    return variants.missing(plan, line) or HINTS[line.word("finding")](plan, line)


def parted(answer: str) -> list[list[str]]:
    """The answer's lines, each with those below that belong to it: they begin with two spaces."""
    parts: list[list[str]] = []
    for line in answer.splitlines():
        if line.startswith("  ") and parts:
            parts[-1].append(line)
        else:
            parts.append([line])
    return parts


class PlacedPart(NamedTuple):
    """A part of an answer: its line of the file, None where it says nothing of one, what the program wrote, a hint, and the lines that
    belong to it; and of a plan of a line of vehicles the lists of alternatives by which a finding goes."""

    line: int | None
    answer: str
    hint: str
    below: list[str]
    withs: list[str] = []

    @property
    def text(self) -> str:
        """What the program wrote, with the hint."""
        return f"{self.answer}  ({self.hint})" if self.hint else self.answer

    @property
    def all_below(self) -> list[str]:
        """The lines that are written below it."""
        return [*self.below, *self.withs]


def placed(data: bytes, answer: str) -> Iterator[PlacedPart]:
    """The answer's parts; those that say what is wrong with their place in the file."""
    plan = Source(data.decode(errors="replace"))
    for line, *below in parted(answer):
        if line.startswith("refused ") and not line.startswith("refused plan "):
            at, hint = refusal(plan, data, line)
        elif re.match(r"F\d+ ", line):
            at, hint = finding(plan, line)
        else:
            yield PlacedPart(None, line, "", below)
            continue
        yield PlacedPart(at, line, hint or "", below, variants.withs(plan, line_of(line)) if plan["choice"] and not line.startswith("refused ") else [])
