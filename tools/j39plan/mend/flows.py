"""What is tried against findings about who sends what: F9 to F11, F13, F19, F21 to F23 and F25."""

from __future__ import annotations

from collections.abc import Iterable, Iterator

from j39plan.j1939 import FRAME_BYTES, is_pdu2
from j39plan.mend.attempts import Attempt, Mend, by_hand
from j39plan.mend.edits import Change, setting
from j39plan.mend.judge import Draft, greatest
from j39plan.plan.answer_grammar import Line
from j39plan.plan.parts import spelled
from j39plan.plan.schema import Value
from j39plan.plan.tables import Flow, Need
from j39plan.plan.text import Table

# The periods that a flow may get that has none yet, in ms, and those of an answer: the usual ones first.
PERIODS, ANSWERS = (100, 1000, 50, 200, 500, 20, 10, 5000), (1000, 5000, 100)

GUESSED = "its period is a guess: write that of the unit"

# What is to be known of a group that names its receiver, as commands do, where it is to go to all.
OBEYED = "each unit that hears the command may obey it"


def flow_of(draft: Draft, line: Line, part: str = "flow") -> Flow:
    """The flow that a finding names."""
    return draft.tables.flows[line.number(part) - 1]


def to_others(draft: Draft, line: Line) -> Iterator[Attempt]:
    """A flow can't go to the one unit (F9, F10): it goes to all, or to another unit, one that needs it first."""
    flow = flow_of(draft, line)
    yield Attempt("to all", [to_all(draft, flow)])
    if flow.sender == flow.to:
        needing = {need.unit for need in draft.tables.needs if need.group == flow.group}
        others = sorted((unit.label for unit in draft.tables.units if unit.label != flow.sender), key=lambda label: label not in needing)
        yield Attempt("to another unit", (to_one(flow, label, "" if label in needing else "which unit is meant?") for label in others))
        yield gone("flow", flow.number, flow.what, flow.place)


def is_command(draft: Draft, group: str) -> bool:
    """Whether frames of a group name their receiver, as those of commands do."""
    return not is_pdu2(next(other for other in draft.tables.groups if other.label == group).pgn)


def to_all(draft: Draft, flow: Flow, note: str = "") -> Mend:
    """That a flow goes to all."""
    is_harmful = is_command(draft, flow.group)
    return to_one(flow, "all", OBEYED if is_harmful else note)._replace(is_harmful=is_harmful)


def to_one(flow: Flow, label: str, note: str = "") -> Mend:
    """That a flow goes to a unit."""
    return Mend(f"flow {flow.number} ({flow.what})", f'to = "{label}"', setting(flow.place, to=label), note)


def gone(kind: str, number: int, what: str, place: tuple[str | int, ...]) -> Attempt:
    """That a table is taken away."""
    return Attempt(f"without {kind} {number}", [Mend(f"{kind} {number} ({what})", "taken away", Change(removed=(place,)))])


def twice(draft: Draft, line: Line) -> Iterator[Attempt]:
    """Two flows are the same (F11)."""
    flow = flow_of(draft, line, "other")
    yield gone("flow", flow.number, flow.what, flow.place)


def asked_twice(draft: Draft, line: Line) -> Iterator[Attempt]:
    """Two requests are the same (F25)."""
    requests = draft.tables.requests
    some = [requests[line.number(part) - 1] for part in ("request", "other")]
    slower = max(some, key=lambda request: (request.period or 0, request.place))
    yield gone("request", int(slower.place[-1]), slower.what, slower.place)


def unsent(draft: Draft, line: Line) -> Iterator[Attempt]:
    """No flow sends a private group (F13)."""
    group = line.word("group")
    for need in draft.tables.needs:
        if need.group == group:
            yield from unmet_of(draft, need)
    asked = [request for request in draft.tables.requests if request.group == group and request.to != "all"]
    yield Attempt("a flow that answers a request for it", (
        mend for request in asked for mend in written(draft, group, request.to, request.sender, on_request=True)))
    yield by_hand("a flow from its maker's unit, which the plan doesn't say")


def receivers(draft: Draft, group: str, unit: str) -> list[str]:
    """To whom a flow of a group goes that a unit is to hear, the better one first: to all, or to it alone."""
    found = next(other for other in draft.tables.groups if other.label == group)
    return ["all"] if is_pdu2(found.pgn) and found.most <= FRAME_BYTES else ["all", unit] if is_pdu2(found.pgn) else [unit, "all"]


def written(draft: Draft, group: str, sender: str, to: str, on_request: bool = False, within: int | None = None) -> Iterator[Mend]:
    """A flow that is written anew; with timing with a period, that of another flow of the same if there is one, and for data of an age
    with the greatest pause."""
    keys: dict[str, Value] = {"group": group, "from": sender, "to": to, **({"on_request": True} if on_request else {})}
    if to == "all" and not on_request and is_command(draft, group):
        yield from (mend._replace(note=OBEYED, is_harmful=True) for mend in with_period(draft, keys, within))
    else:
        yield from with_period(draft, keys, within)


def with_period(draft: Draft, keys: dict[str, Value], within: int | None) -> Iterator[Mend]:
    """A flow that is written anew, with timing with a period."""
    sender, on_request = keys["from"], "on_request" in keys
    others = [flow for flow in draft.tables.flows if flow.group == keys["group"] and flow.period]
    if draft.tables.timing is None:
        yield added("flow", keys)
        return
    mine = [flow.period for flow in sorted(others, key=lambda flow: flow.sender != sender) if flow.period]
    for period in dict.fromkeys([*mine, *(ANSWERS if on_request else PERIODS)]):
        note = "" if period in mine else GUESSED
        if within is None:
            yield added("flow", {**keys, "period": period}, note)
        elif period < within:
            yield from with_pause(draft, {**keys, "period": period}, within, note)


def with_pause(draft: Draft, keys: dict[str, Value], within: int, note: str) -> Iterator[Mend]:
    """A flow that is written anew, with the greatest pause by which data is young enough."""
    def old(pause: int) -> set[str]:
        found = draft.found(added("flow", {**keys, "pause": pause}).change) or []
        return {text for text in found if text.startswith("F20 ")} - {*draft.findings}
    period = keys["period"]
    assert isinstance(period, int)
    pause = greatest(period, within, lambda pause: not old(pause))
    if pause is not None:
        yield added("flow", {**keys, "pause": pause}, note or "pause is the greatest by which it is young enough")


def added(kind: str, keys: dict[str, Value], note: str = "") -> Mend:
    """A table that is written anew."""
    return Mend(f"a new {kind}", ", ".join(f"{key} = {spelled(value)}" for key, value in keys.items()), Change(added=(Table(kind, keys),)), note)


def unmet(draft: Draft, line: Line) -> Iterator[Attempt]:
    """No flow meets a need (F19)."""
    return unmet_of(draft, draft.tables.needs[line.number("need") - 1])


def unmet_of(draft: Draft, need: Need) -> Iterator[Attempt]:
    """A flow that meets a need, by who is known to send the group: another receiver, a request, or a flow anew."""
    flows = [flow for flow in draft.tables.flows
             if flow.group == need.group and flow.sender != need.unit and need.sender in ("", flow.sender)]
    yield Attempt(f"a request of {need.unit}", (
        added("request", {"group": need.group, "from": need.unit, "to": flow.sender})
        for flow in flows if flow.on_request and flow.to in ("all", need.unit)))
    yield Attempt("its flow to itself", (to_one(flow, need.unit) for flow in flows if flow.to == flow.sender))
    yield Attempt("its flow to all", (
        to_all(draft, flow, f"{need.unit} hears it then") for flow in flows if flow.to not in ("all", need.unit)))
    yield Attempt("its flow not on request alone", (
        Mend(f"flow {flow.number} ({flow.what})", "on_request = false", setting(flow.place, on_request=False), "only if the unit sends it by itself")
        for flow in flows if flow.on_request and flow.to in ("all", need.unit)))
    senders = [need.sender] if need.sender else list(dict.fromkeys(flow.sender for flow in flows))
    within = need.within if draft.tables.timing else None
    yield Attempt(f"a flow of {' or '.join(senders) or 'who sends it'}", (
        mend for sender in senders if sender != need.unit for to in receivers(draft, need.group, need.unit)
        for mend in written(draft, need.group, sender, to, within=within)))
    if not senders:
        others = [unit.label for unit in draft.tables.units if unit.label != need.unit]
        what = f'a flow with group = "{need.group}" and to = "{receivers(draft, need.group, need.unit)[0]}"'
        yield Attempt(f"{what}, from {others[0]}", (
            mend for to in receivers(draft, need.group, need.unit) for mend in written(draft, need.group, others[0], to, within=within))
        ) if len(others) == 1 else by_hand(f"{what}, from who has the value, which the plan doesn't say")


def unanswered(draft: Draft, line: Line) -> Iterator[Attempt]:
    """No flow answers a request, or none as it was asked (F21, F22, F23): the flow that is there goes to others, who has it is asked, or a flow anew."""
    request = draft.tables.requests[line.number("request") - 1]
    senders = [request.to] if request.to != "all" else list(dict.fromkeys(
        flow.sender for flow in draft.tables.flows if flow.group == request.group and flow.sender != request.sender))
    if request.to == "all" and not senders:
        others = [unit.label for unit in draft.tables.units if unit.label != request.sender]
        senders = others if len(others) == 1 else []
    to = answers_to(draft, request.group, request.sender, request.to)
    sent = [flow for flow in draft.tables.flows if flow.group == request.group]
    having = dict.fromkeys(flow.sender for flow in sent if flow.sender not in (request.to, request.sender))
    yield Attempt("asked of who sends it", (
        Mend(f"request {line.number('request')} ({request.what})", f'to = "{sender}"', setting(request.place, to=sender), "who sends it") for sender in having))
    yield Attempt("its flow to others", (
        to_one(flow, receiver, "the others get it no more" * (flow.to == "all"))
        for flow in sent if flow.sender in senders for receiver in to if receiver != flow.to))
    if not senders:
        yield by_hand(f'a flow with group = "{request.group}", to = "all" and on_request = true, from who has it, which the plan doesn\'t say')
    yield Attempt(f"an answer of {' or '.join(senders)}", (
        mend._replace(note=mend.note or "only if it has that") if having and request.to != "all" else mend
        for sender in senders for receiver in to for mend in written(draft, request.group, sender, receiver, on_request=True)))


def answers_to(draft: Draft, group: str, asking: str, asked: str) -> Iterable[str]:
    """To whom the answer to a request goes."""
    return ["all"] if asked == "all" else receivers(draft, group, asking) if "all" in receivers(draft, group, asking)[:1] else [asking]


def period_missing(draft: Draft, line: Line) -> Iterator[Attempt]:
    """A flow has no period in a plan with timing (F16)."""
    flow = flow_of(draft, line)
    mine = [other.period for other in draft.tables.flows if other.group == flow.group and other.period]
    periods = dict.fromkeys([*mine, *(ANSWERS if flow.on_request else PERIODS)])
    yield Attempt("a usual period", (
        Mend(f"flow {flow.number} ({flow.what})", f"period = {period}", setting(flow.place, period=period), "" if period in mine else GUESSED)
        for period in periods if flow.pause is None or period <= flow.pause))


ATTEMPTS = {"F9": to_others, "F10": to_others, "F11": twice, "F13": unsent, "F16": period_missing, "F19": unmet, "F21": unanswered, "F22": unanswered,
            "F23": unanswered, "F25": asked_twice}
