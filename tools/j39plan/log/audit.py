"""What the program's `audit` answers of a plan and a log: each line by its parts, and what a line that accuses means."""

from typing import Any, NamedTuple

from j39plan.plan.answer_grammar import Form, Line, form_of, line_of


class Word(NamedTuple):
    """What lines of a word mean, and what to ask the supplier."""

    means: str
    ask: str


# The words that accuse, as the table of docs/guide/AUDIT.md has them.
WORDS = {
    "short": Word("a frame with an 11-bit identifier", "what else sends on this bus"),
    "stranger": Word("a NAME of no unit claims A, and the plan has no `strangers`", "whose the NAME is"),
    "nobody": Word("a frame from an address at which no unit may be", "which unit has this source address"),
    "address": Word("U claims an address that isn't its own, or claims though `claims = false`", "which addresses it may take"),
    "cannot": Word("U says that it can't claim an address, and needn't", "why"),
    "deaf": Word("U is asked for claims, and goes on to send without one", "how it answers requests for PGN 60928"),
    "layout": Word("a message of G's number, with another length or none of its `when`", "which layout it has"),
    "no_flow": Word("a message of G that no flow of U brings there", "what it sends, and to whom"),
    "priority": Word("a message of a flow with another priority", "which priority is set"),
    "urgent": Word("a frame that isn't planned, above `unplanned_priority`", "what it is for"),
    "announcement": Word("an RTS or BAM of U with a size, a number of packets or a destination that none may have", "how it announces long messages"),
    "grant": Word("a CTS of U for packets that the message doesn't have, or for more at once than its RTS allows", "how it answers an RTS"),
    "packet": Word("a packet of U to one unit that no CTS cleared", "whether it waits for a CTS"),
    "acknowledged": Word("U acknowledges another size, or before each packet was sent", "when it acknowledges"),
    "near": Word("messages of a flow, requests or packets sooner than the plan allows, at line M most", "its period and jitter"),
    "near_or_late": Word("the same of a flow, or one was sent later than `load` answers", "its period and jitter, or what it waits for"),
    "silent": Word("messages of a flow, or packets, later than the plan allows, most behind line M", "its pause and jitter"),
    "silent_or_late": Word("the same of a flow, or one was sent later than `load` answers", "its pause and jitter, or what it waits for"),
}

# What may be accused, and the measure that may stand behind.
SUBJECTS = ("", " address {#address}", " address {#address} (?P<name>#[0-9A-F]{16})", " unit {unit}", " unit {unit} at {#at}", " unit {unit} group {group}",
            " flow {#flow} {group} {from} {to}", " request {#request} {group} {from} {to}", " packets {unit}")
MEASURES = ("", " worst {#worst} by {#by} us")

# The lines by what they are. Times are in us.
LINES: dict[str, list[Form]] = {
    "accused": [form_of("(?P<word>[a-z_]+)" + subject + " times {#times} first {#first}" + measure) for subject in SUBJECTS for measure in MEASURES],
    "flow": [form_of("flow {#flow} {group} {from} {to} seen {#seen} unclear {#unclear}")],
    "request": [form_of("request {#request} {group} {from} {to} seen {#seen}")],
    "unit": [form_of("unit {unit} frames {#frames}" + answers) for answers in ("", " answers {#answers}")],
    "counts": [*(form_of("frames {#frames} skipped {#skipped} bad {#bad} elsewhere {#elsewhere} unsure {#unsure} breaks {#breaks} stamps {#stamps}" + again)
                 for again in ("", " again {#again}")), form_of("deviations {#deviations}")],
}

# Lines of which an answer has several, and what these are called.
SEVERAL = {"accused": "accused", "flow": "flows", "request": "requests", "unit": "units"}


def lines_of(answer: str) -> list[Line]:
    """The lines of an answer; none of a plan that has findings, or is refused, since `audit` then answers as `check` does."""
    lines = answer.splitlines()
    return [line_of(text, LINES) for text in lines] if lines and lines[-1].startswith("deviations ") else []


class Accused(NamedTuple):
    """Whom a line of `audit` accuses of what: its `text` and its first word; what that means, and what to ask the supplier; how often, and the first line of
    the log; the unit, group, flow, request, address or NAME, as far as the line has them; and the `worst` line, by how many us."""

    text: str
    word: str
    means: str
    ask: str
    times: int
    first: int
    unit: str | None = None
    group: str | None = None
    flow: int | None = None
    request: int | None = None
    address: int | None = None
    name: str | None = None
    worst: int | None = None
    by: int | None = None


class Audit(NamedTuple):
    """What a log refutes of a plan: who is `accused`; how often each flow was seen, by its number; and how many lines of the log are frames, have 11-bit
    identifiers (`skipped`), spell none (`bad`), are of other interfaces (`elsewhere`), or are of no sure sender, how often it breaks off, and how many
    frames stand there again."""

    accused: list[Accused]
    seen: dict[int, int]
    frames: int
    skipped: int
    bad: int
    elsewhere: int
    unsure: int
    breaks: int
    again: int = 0


def accused_of(line: Line) -> Accused:
    """A line that accuses."""
    said: dict[str, Any] = {**WORDS[line.word("word")]._asdict(), **{key: value for key, value in line.parts.items() if key in Accused._fields}}
    return Accused(line.text, **said)


def audit_of(answer: str) -> Audit | None:
    """What it answers; None where it answers as `check` does, of a plan with findings, or as `show`, of one that is refused."""
    lines = lines_of(answer)
    if not lines:
        return None
    counts: dict[str, Any] = {key: value for line in lines if line.kind == "counts" for key, value in line.parts.items() if key in Audit._fields}
    seen = {line.number("flow"): line.number("seen") for line in lines if line.kind == "flow"}
    return Audit([accused_of(line) for line in lines if line.kind == "accused"], seen, **counts)


def audit_object(plan: str, log: str, status: int, lines: list[Line]) -> dict[str, Any]:
    """What it answers, as JSON: who is accused of what, with what that means and what to ask the supplier, what was seen, and the counts."""
    found: dict[str, Any] = {"plan": plan, "log": log, "status": status, **{name: [] for name in SEVERAL.values()}}
    for line in lines:
        if line.kind in SEVERAL:
            word = WORDS.get(line.word("word"))
            found[SEVERAL[line.kind]].append({**line.parts, **(word._asdict() if word else {})})
        else:
            found.update(line.parts)
    return found
