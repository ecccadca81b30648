"""The grammar of what the program answers of a plan: each line of `check`, `addresses` and `load`, by its parts."""

import functools
import re
from typing import NamedTuple

# The findings with their parts: of labels and `#` of numbers, as docs/guide/PLAN.md has them.
FINDINGS = (
    "F1 SameName unit other", "F2 SameFixedAddress unit other #address", "F3 TooFewAddresses #units", "F4 BadPgn group #pgn",
    "F5 SamePgn group other #pgn", "F6 SignalWidth group signal #bits", "F7 SignalOutside group signal #end", "F8 SignalOverlap group signal other",
    "F9 FlowToOne #flow", "F10 FlowToSelf #flow", "F11 FlowRepeated #flow #other", "F12 KeptAddress unit #address", "F13 PrivateUnsent group",
    "F14 RecordOverlap group signal other", "F15 TextOutside group text #end", "F16 NoPeriod #flow", "F17 Overload #load", "F18 LateFlow #flow",
    "F19 NeedUnmet #need", "F20 NeedTooOld #need", "F21 RequestUnanswered #request", "F22 RequestUnheard #request", "F23 AnswerAstray #request",
    "F24 WhenOutside group #end", "F25 RequestRepeated #request #other", "F26 SilentAddress unit other #address", "F27 SilentInPool unit #address",
    "F28 FlowContested #flow", "F31 AskedTooOften #flow",
)

# Those of plans of lines of vehicles.
OF_LINES = ("F29 NoVariant", "F30 ManyVariants #variants")

LABEL, NUMBER = r"[A-Za-z0-9_]{1,32}", r"\d+"

# What stands behind a finding that not each vehicle of a line has: the alternatives of those that have it.
IN = rf"(?: in (?P<variant>{LABEL}(?: {LABEL})*))?"


class Form:
    """What a line looks like: how it begins, its pattern, and which of its parts are numbers. The pattern is compiled once a line begins so."""

    def __init__(self, start: str, pattern: str, numbers: frozenset[str]) -> None:
        self.start, self.text, self.numbers = start, pattern, numbers

    @functools.cached_property
    def pattern(self) -> re.Pattern[str]:
        """Its pattern."""
        return re.compile(self.text)

    def match(self, text: str) -> re.Match[str] | None:
        """The parts of a line that has this form."""
        return self.pattern.fullmatch(text) if text.startswith(self.start) else None


def form_of(text: str, start: str = "") -> Form:
    """The form of a line in which `{key}` is a label and `{#key}` a number. It begins as is said, or by the words ahead of its parts."""
    pattern = re.sub(r"\{(#?)([a-z_]+)\}", lambda part: f"(?P<{part.group(2)}>{NUMBER if part.group(1) else LABEL})", text)
    return Form(start or re.split("[^a-z ]", text, maxsplit=1)[0], pattern, frozenset(re.findall(r"\{#([a-z_]+)\}", text)))


def finding_form(text: str) -> Form:
    """The form of a finding."""
    number, name, *parts = text.split()
    return form_of(" ".join([f"(?P<finding>{number})", f"(?P<name>{name})", *(f"{{{part}}}" for part in parts)]) + IN, f"{number} {name}")


# The lines, by what they are. Times are in us.
LINES = {
    "finding": [finding_form(text) for text in (*FINDINGS, *OF_LINES)],
    "findings": [form_of("findings {#findings}")],
    "ok": [form_of("ok {#units} units {#groups} groups {#flows} flows"), form_of("ok {#units} units {#groups} groups {#flows} flows {#choices} choices")],
    "refused": [form_of(r"refused (?P<cause>[A-Z]\w*)(?: (?P<place>[a-z].*?))?(?: key (?P<key>\w+))?"),
                form_of(r"refused plan (?P<cause>\w+)(?: (?P<label>\w+))?")],
    "step": [form_of(r"  (?P<step>\S.*)")],
    "unit": [form_of(f"unit {{unit}} (?P<stays>{word}) {{#address}}") for word in ("stays", "may move from")] + [form_of("unit {unit} (?P<nowhere>no variant)")],
    "stay": [form_of("stay {#stay} of {#units}")],
    "flow": [form_of("flow {#flow} {group} {from} {to}" + rest) for rest in (
        " no period", " (?P<nowhere>no variant)", " within {#within} of {#limit} us", " late of {#limit} us", " late {#late} of {#limit} us", " frames {#frames}",
        " frames {#frames} whole within {#within} us", " frames {#frames} whole within {#within} of {#limit} us",
        " frames {#frames} late of {#limit} us", " frames {#frames} late {#late} of {#limit} us")],
    "need": [form_of("need {#need} {unit} {group}" + signal + rest)
             for signal in ("", " {signal}")
             for rest in (" age {#age} of {#limit} us", " age {#age} of {#limit} us flow {#flow}", " old of {#limit} us",
                          " old {#old} of {#limit} us", " old {#old} of {#limit} us flow {#flow}", " unmet of {#limit} us", " (?P<nowhere>no variant)")],
    "load": [form_of("load {#load} of {#bitrate}")],
}


# The parts by which lines name what they are about.
NAMES = {"unit": ("unit",), "flow": ("flow", "group", "from", "to"), "need": ("need", "unit", "group", "signal")}


class Line(NamedTuple):
    """A line of an answer: what it is, its parts by their names, and how it is written."""

    kind: str
    parts: dict[str, str | int]
    text: str

    def number(self, part: str) -> int:
        """A part that is a number."""
        return int(self.parts[part])

    def number_if_any(self, part: str) -> int | None:
        """A part that is a number, None where the line has none."""
        return self.number(part) if part in self.parts else None

    def word(self, part: str) -> str:
        """A part that is a label or a word, empty where the line has none."""
        return str(self.parts.get(part, ""))

    @property
    def said(self) -> str:
        """What is said of a unit, a flow or a need, as it is written behind what names it."""
        names = (str(self.parts[part]) for part in NAMES.get(self.kind, ()) if part in self.parts)
        return self.text.removeprefix(" ".join([self.kind, *names])).strip()


class Unknown(Exception):
    """A line that no answer of the program has."""


def line_of(text: str, lines: dict[str, list[Form]] = LINES) -> Line:
    """A line of an answer by its parts."""
    for kind, forms in lines.items():
        for form in forms:
            if found := form.match(text):
                said = {part: word for part, word in found.groupdict().items() if word is not None}
                return Line(kind, {part: int(word) if part in form.numbers else word for part, word in said.items()}, text)
    raise Unknown(text)


def lines_of(answer: str) -> list[Line]:
    """The lines of an answer."""
    return [line_of(text) for text in answer.splitlines()]
