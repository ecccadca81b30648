"""What is tried against findings about times: F17, F18, F20 and F31."""

from __future__ import annotations

from collections.abc import Iterator

from j39plan.j1939 import FRAME_BYTES
from j39plan.mend.attempts import Attempt, Mend
from j39plan.mend.edits import Change, setting
from j39plan.mend.flows import flow_of
from j39plan.mend.judge import Draft, greatest, least
from j39plan.mend.priorities import LEVELS, assignment_of
from j39plan.plan.answer_grammar import Line
from j39plan.plan.hints.requests import asking, longest_period
from j39plan.plan.schema import bitrates_of, most_of
from j39plan.plan.tables import Flow, Group, Need

# So many of the flows that take the most are tried, where a bus is too full.
FULLEST = 8

# What is asked of a driver that hands the most urgent frame on first.
DRIVER = "only if its driver sends the smallest identifier first"


def in_time(draft: Draft, line: Line) -> Iterator[Attempt]:
    """A flow isn't shown to be on the bus in time (F18): another priority of its group, of another one, of several; more time; less jitter; another
    driver."""
    flow = flow_of(draft, line)
    group = next(group for group in draft.tables.groups if group.label == flow.group)
    if group.most <= FRAME_BYTES:
        yield Attempt(f"a smaller priority number of {group.label}", (of_priority(group, level) for level in range(group.priority - 1, -1, -1)))
        yield Attempt("a larger priority number of one other group", later_groups(draft, group, line.text))
        if assignment_of(draft).has_several:
            yield Attempt("other priorities of several groups (Audsley)", assigned(draft, line.text), is_last=True)
    yield Attempt("a longer deadline or period", longer(draft, flow, line.text))
    yield Attempt("less jitter", less_jitter(draft, flow, line.text))
    yield from other_drivers(draft, flow)


def of_priority(group: Group, level: int) -> Mend:
    """Another priority of a group."""
    return Mend(f"group {group.label}", f"priority = {level}, it was {group.priority}", setting(group.place, priority=level))


def later_groups(draft: Draft, late: Group, finding: str) -> Iterator[Mend]:
    """Another group that goes before, and no more: the least urgent one first, with the nearest priority that serves."""
    sent = {flow.group for flow in draft.tables.flows if flow.period}
    before = [group for group in draft.tables.groups
              if group is not late and group.label in sent and group.most <= FRAME_BYTES and group.priority <= late.priority < LEVELS[0]]
    for group in sorted(before, key=lambda group: (-group.priority, -group.pgn)):
        if draft.outcome(of_priority(group, LEVELS[0]).change, [finding]).is_gone:
            yield from (of_priority(group, level) for level in range(group.priority + 1, LEVELS[0] + 1))


def assigned(draft: Draft, finding: str) -> Iterator[Mend]:
    """Priorities of several groups."""
    assignment = assignment_of(draft)
    draft.tries += 1  # of each finding, though the search is one for all
    priorities = assignment.found(finding)
    groups = [group for group in draft.tables.groups if (priorities or {}).get(group.label, group.priority) != group.priority]
    if priorities and len(groups) > 1:  # one alone was tried before
        what = ", ".join(f"{group.label} {priorities[group.label]} (it was {group.priority})" for group in groups)
        yield Mend(f"{len(groups)} groups", f"priority: {what}", assignment.change(priorities), "none of them can keep its own")


def longer(draft: Draft, flow: Flow, finding: str) -> Iterator[Mend]:
    """The least deadline, and where that isn't enough the least period."""
    most, where = most_of("flow", "deadline"), f"flow {flow.number} ({flow.what})"
    period = flow.period or 1

    def with_deadline(deadline: int) -> Change:
        return setting(flow.place, deadline=deadline) + (with_period(flow, deadline) if deadline > period else Change())

    deadline = least(1, most, lambda number: draft.outcome(with_deadline(number), [finding]).is_gone)
    if deadline is None:
        return
    note = "" if deadline <= period else "its messages come less often then"
    longer_period = f"period = {deadline}{pause_in_words(flow, deadline)}"
    if deadline > period and draft.mends(with_period(flow, deadline), finding):
        yield Mend(where, longer_period, with_period(flow, deadline), note)
    yield Mend(where, f"deadline = {deadline}" + (f", {longer_period}" if deadline > period else ""), with_deadline(deadline), note)


def with_period(flow: Flow, period: int) -> Change:
    """Another period of a flow, and a pause that is no less."""
    return setting(flow.place, period=period, **({"pause": period} if flow.pause is not None and flow.pause < period else {}))


def pause_in_words(flow: Flow, period: int) -> str:
    """The pause that comes with another period, as it is named behind it."""
    return f", pause = {period}, it was {flow.pause}" if flow.pause is not None and flow.pause < period else ""


def less_jitter(draft: Draft, flow: Flow, finding: str) -> Iterator[Mend]:
    """The greatest jitter of the flow, and else of one that goes before it."""
    for other in [flow, *(other for other in draft.tables.flows if other is not flow)]:
        if not other.jitter:
            continue
        place = other.place
        jitter = greatest(0, other.jitter - 1, lambda number, place=place: draft.outcome(setting(place, jitter=number), [finding]).is_gone)  # type: ignore[misc]
        if jitter is not None:
            yield Mend(f"flow {other.number} ({other.what})", f"jitter = {jitter}, it was {other.jitter}", setting(place, jitter=jitter))


def other_drivers(draft: Draft, flow: Flow) -> Iterator[Attempt]:
    """That a unit sends the most urgent of its waiting frames first: the sender, or others whose frames go before."""
    any_order = [unit for unit in draft.tables.units if unit.queue == "any"]
    for unit in sorted(any_order, key=lambda unit: unit.label != flow.sender):
        yield Attempt(f'queue = "priority" of {unit.label}', [
            Mend(f"unit {unit.label}", 'queue = "priority"', setting(unit.place, queue="priority"), DRIVER)])
    if len(any_order) > 1:
        change = sum((setting(unit.place, queue="priority") for unit in any_order), Change())
        yield Attempt('queue = "priority" of all', [Mend(f"{len(any_order)} units", 'queue = "priority"', change, DRIVER)])


def too_full(draft: Draft, line: Line) -> Iterator[Attempt]:
    """The flows can take more than the bus carries (F17): a longer period of one, or a faster bus."""
    yield Attempt("a longer period of one flow", less_often(draft, line.text))
    timing = draft.tables.timing
    assert timing is not None
    rates = [rate for rate in bitrates_of(draft.source.version) if rate > timing.bitrate]
    yield Attempt("a faster bus", (
        Mend("timing", f"bitrate = {rate}", setting(("timing",), bitrate=rate), "only if all units can") for rate in rates))


def less_often(draft: Draft, finding: str) -> list[Mend]:
    """Flows that take much with the least period by which the bus carries all, that first which is changed least."""
    some = sorted((flow for flow in draft.tables.flows if flow.period), key=lambda flow: -bits_of(draft, flow))[:FULLEST]
    found: list[tuple[float, Mend]] = []
    for flow in some:
        period = flow.period or 1
        number = least(period + 1, most_of("flow", "period"), lambda number, flow=flow: draft.outcome(with_period(flow, number), [finding]).is_gone)  # type: ignore[misc]
        if number is not None:
            mend = Mend(f"flow {flow.number} ({flow.what})", f"period = {number}, it was {period}{pause_in_words(flow, number)}", with_period(flow, number))
            found.append((number / period, mend))
    return [mend for _, mend in sorted(found, key=lambda one: one[0])]


def bits_of(draft: Draft, flow: Flow) -> float:
    """About how many bits a second a flow takes, to have an order: the program says it exactly."""
    return (80 + 10 * draft.tables.longest(flow.group)) / (flow.period or 1)


def too_old(draft: Draft, line: Line) -> Iterator[Attempt]:
    """What meets a need isn't shown to be as young as it asks for (F20): the greatest pause, the least period or another priority, the least age."""
    need = draft.tables.needs[line.number("need") - 1]
    flows = [flow for flow in draft.tables.flows if need.is_met_by(flow)]
    yield Attempt("pause of its flow", (mend for flow in flows for mend in shorter_pause(draft, flow, line.text)))
    yield Attempt("period and pause of its flow", (mend for flow in flows for mend in more_often(draft, flow, need, line.text)), is_last=True)
    group = next(group for group in draft.tables.groups if group.label == need.group)
    if group.most <= FRAME_BYTES:
        yield Attempt(f"a smaller priority number of {group.label}", (of_priority(group, level) for level in range(group.priority - 1, -1, -1)))
    yield Attempt("a greater within", older(draft, need))


def shorter_pause(draft: Draft, flow: Flow, finding: str) -> Iterator[Mend]:
    """The greatest pause of a flow by which what it brings is young enough."""
    if flow.period is None:
        return
    pause = greatest(flow.period, flow.pause or most_of("flow", "pause"),
                     lambda number: draft.outcome(setting(flow.place, pause=number), [finding]).is_gone)
    if pause is not None:
        yield Mend(f"flow {flow.number} ({flow.what})", f"pause = {pause}" + (f", it was {flow.pause}" if flow.pause else ""),
                   setting(flow.place, pause=pause), "the greatest one, if the unit keeps it")


def more_often(draft: Draft, flow: Flow, need: Need, finding: str) -> Iterator[Mend]:
    """The greatest period and pause, the same, by which what a flow brings is young enough."""
    if flow.period is None or flow.on_request:
        return

    def is_young(number: int) -> bool:
        return draft.outcome(setting(flow.place, period=number, pause=number), [finding]).is_gone

    most = min(flow.period - 1, need.within or 0)
    halves = (most >> times for times in range(most.bit_length()) if most >> times > flow.jitter)  # a flow of very short periods is late
    start = next(filter(is_young, halves), None)
    period = None if start is None else greatest(start, min(2 * start, most), is_young)
    if period is not None:
        yield Mend(f"flow {flow.number} ({flow.what})", f"period = {period}, pause = {period}, period was {flow.period}",
                   setting(flow.place, period=period, pause=period), "the greatest ones, if the unit keeps them")


def older(draft: Draft, need: Need) -> Iterator[Mend]:
    """The least age that is met."""
    number = int(need.place[-1])
    load = draft.load(setting(need.place, within=most_of("need", "within")))
    age = next((age.age for age in load.ages if age.need == number), None) if load else None
    if age is not None:
        within = -(-age // 1000)
        yield Mend(f"need {number}", f"within = {within}, it was {need.within}", setting(need.place, within=within), "only if that is young enough")


def asked_too_often(draft: Draft, line: Line) -> Iterator[Attempt]:
    """Requests ask for a flow oftener than once in its period (F31): the greatest period by which they don't."""
    flow = flow_of(draft, line)
    period = longest_period(flow, asking(draft.tables, flow))
    if period is not None:
        yield Attempt("the period by which its requests come", [
            Mend(f"flow {flow.number} ({flow.what})", f"period = {period}, it was {flow.period}", setting(flow.place, period=period))])


ATTEMPTS = {"F17": too_full, "F18": in_time, "F20": too_old, "F31": asked_too_often}
