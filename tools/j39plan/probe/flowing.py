"""Steps on flows: whether the box sends as planned, on a quiet bus and on a full one, and what it does where what it needs stops."""

from __future__ import annotations

import os
import tempfile
from collections.abc import Iterator

from j39plan import program
from j39plan.bench.values import greatest
from j39plan.j1939 import ADDRESS_CLAIMED, CONNECTION_MANAGEMENT, FRAME_BYTES, OTHER_SERVICES, SERVICES, identity_in
from j39plan.log.audit import lines_of
from j39plan.log.checks.transfers import BAM, RTS
from j39plan.plan.answer_grammar import Line
from j39plan.plan.tables import Flow, Group, Signal
from j39plan.probe.planned import Planned
from j39plan.probe.tester import Failed, Frame, Tester, Unsure

# For how many periods of the slowest flow the box is heard, and behind something for how many.
PERIODS, FEW = 20, 3

# How long what the box needs is away before it is looked at, in seconds.
ABSENT = 5.0

# Up to which share of its bits the bus is filled at last.
FULL = 0.9

# What `audit` accuses a unit of, in words; M is the worst time, in ms.
ACCUSED = {
    "layout": "{group}: another length, or none of its `when`", "no_flow": "{group}: no flow of it brings that there", "priority": "{group}: another priority",
    "urgent": "a frame that isn't planned, with a more urgent priority than `unplanned_priority`",
    "near": "{subject}: sooner than planned, by {M} ms at worst", "silent": "{subject}: later than planned, by {M} ms at worst",
}

# What it may be accused of where others may have been the cause.
OR_LATE = "near_or_late", "silent_or_late"

# The times of a log's first lines: its clock has begun a while ago.
EPOCH = 1000.0


def heard(planned: Planned, most: float, periods: int = PERIODS) -> float:
    """For how long the flows of a unit are heard, in seconds, which are at most so many."""
    slowest = max((max(flow.period or 0, flow.pause or 0) for flow in planned.periodic), default=1000)
    return min(periods * slowest / 1000, most)


def duration(bench: Tester, periods: int = PERIODS) -> float:
    """For how long the box is heard, in seconds."""
    return heard(bench.planned, bench.seconds, periods)


def flows(bench: Tester) -> str:
    """The rest of the bus plays: the box sends as planned."""
    return played(bench, duration(bench))


def played(bench: Tester, seconds: float) -> str:
    """The rest of the bus plays for some time, in which the box sends as planned."""
    begin = len(bench.frames)
    bench.plays()
    bench.pause(seconds)
    bench.takes()
    frames = bench.frames[begin:]
    lines = _audited(bench, frames)
    seen = {line.number("flow"): line.number("seen") for line in lines if line.kind == "flow"}
    _judged(bench, frames, lines)
    _are_there(bench, seen, seconds)
    _other_groups(bench, frames)
    events = [flow.group for flow in bench.planned.sent if not flow.period and not flow.on_request and not seen.get(flow.number)]
    if events:
        bench.note(f"events that weren't seen, since nothing triggers them: {', '.join(events)}")
    for flow in bench.planned.periodic:
        _measured(bench, flow, frames)
        _values(bench, bench.group(flow), frames)
    return f"{sum(seen.get(flow.number, 0) for flow in bench.planned.sent)} messages in {seconds:.0f} s, as planned"


def _audited(bench: Tester, frames: list[Frame]) -> list[Line]:
    """What `audit` answers of frames; before them stand the claims by which it knows who sends."""
    claims = {frame.data: frame for frame in bench.frames if frame.pgn == ADDRESS_CLAIMED and (not frames or frame.at < frames[0].at)}
    with tempfile.TemporaryDirectory() as folder:
        plan, log = os.path.join(folder, "plan.toml"), os.path.join(folder, "bench.log")
        with open(plan, "w", encoding="utf-8", newline="") as file:
            file.write(bench.planned.audited)
        with open(log, "w", encoding="ascii") as file:
            begin = frames[0].at if frames else 0.0
            for frame in (*claims.values(), *frames):
                file.write(f"({max(frame.at, begin) - begin + EPOCH:.6f}) can0 {frame.identifier:08X}#{_named(bench, frame).hex().upper()}\n")
        status, answer = program.call(["audit", "--stamps", str(round(1e6 * bench.jitter)), "--", plan, log])
    lines = lines_of(answer)
    if status not in (0, 1) or not lines:
        raise Unsure("`audit` judges no plan with findings")
    return [line._replace(parts={**line.parts, "shift": len(claims)}) for line in lines]


def _named(bench: Tester, frame: Frame) -> bytes:
    """The data of a frame; a claim of the box has the planned NAME, since that it has another one is another step's."""
    if not frame.is_box or frame.pgn != ADDRESS_CLAIMED or len(frame.data) != FRAME_BYTES:
        return frame.data
    unit = bench.planned.unit
    return (unit.number | (identity_in(int.from_bytes(frame.data, "little")) if unit.identity is None else 0)).to_bytes(FRAME_BYTES, "little")


def _judged(bench: Tester, frames: list[Frame], lines: list[Line]) -> None:
    """What the box is accused of."""
    label, whys, shown = bench.planned.unit.label, list[str](), list[Frame]()
    for line in lines:
        if line.kind != "accused" or label not in (line.word("unit"), line.word("from")):
            continue
        word, subject = line.word("word"), line.word("group") or ("packets to all" if line.parts.get("by") is not None else "")
        what = f"{subject}{' requests' if 'request' in line.parts else ''}"
        if word in ACCUSED:
            whys.append(ACCUSED[word].format(group=line.word("group"), subject=what, M=(line.number_if_any("by") or 0) / 1000) + f", {line.number('times')} times")
            shown += _at(frames, line.number_if_any("worst") or line.number("first"), line.number("shift"))
        elif word in OR_LATE:
            bench.note(f"{what}: {'sooner' if word == OR_LATE[0] else 'later'} than planned, or it waited for others longer than `load` has it")
    if whys:
        raise Failed("; ".join(whys), *shown)


def _at(frames: list[Frame], line: int, shift: int) -> list[Frame]:
    """The frame at a line of the log that was audited."""
    return frames[line - shift - 1:line - shift] if line > shift else []


def _are_there(bench: Tester, seen: dict[int, int], seconds: float) -> None:
    """Each flow with a period came, if it had the time."""
    absent = [flow for flow in bench.planned.periodic if not seen.get(flow.number)]
    late = [flow for flow in absent if seconds >= 2 * max(flow.period or 0, flow.pause or 0) / 1000]
    if late:
        raise Failed(f"{', '.join(flow.group for flow in late)} didn't come within {seconds:.0f} s")
    if absent:
        raise Unsure(f"{', '.join(flow.group for flow in absent)} didn't come, and has a longer period than {seconds:.0f} s (--seconds)")


def _begin(group: Group, frame: Frame) -> bool:
    """Whether a frame of the box begins a message of a group."""
    is_announced = frame.pgn == CONNECTION_MANAGEMENT and frame.data[:1] in (bytes((RTS,)), bytes((BAM,))) and frame.data[5:] == group.pgn.to_bytes(3, "little")
    return frame.is_box and (frame.pgn == group.pgn and (group.when is None or group.when.takes(frame.data)) or is_announced)


def _measured(bench: Tester, flow: Flow, frames: list[Frame]) -> None:
    """How far apart messages of a flow are at most; its limit is its pause, where it has one."""
    seen = [frame for frame in frames if _begin(bench.group(flow), frame)]
    widest = max(zip(seen, seen[1:]), key=lambda pair: pair[1].at - pair[0].at, default=None)
    if widest:
        bench.measures(f"{flow.group} apart", widest[0], widest[1], (flow.pause or flow.period or 0) / 1000)
        if flow.pause is None and widest[1].at - widest[0].at > 1.5 * (flow.period or 0) / 1000 + bench.limit(0):
            bench.note(f"{flow.group}: {1000 * (widest[1].at - widest[0].at):.0f} ms apart at most, its period is {flow.period}", *widest)


def _other_groups(bench: Tester, frames: list[Frame]) -> None:
    """Notes what the box sends that the plan doesn't have."""
    known = {bench.group(flow).pgn for flow in bench.planned.sent} | SERVICES | OTHER_SERVICES
    others = {frame.pgn: frame for frame in reversed(frames) if frame.is_box and frame.pgn not in known}
    for pgn, frame in sorted(others.items()):
        bench.note(f"sends PGN {pgn}, which the plan hasn't", frame)


def _values(bench: Tester, group: Group, frames: list[Frame]) -> None:
    """Notes signals that never have a value, and reserved values."""
    seen = [frame for frame in frames if frame.is_box and frame.pgn == group.pgn and group.takes(frame.data)]
    raws = {signal.label: [raw for frame in seen if (raw := _raw(signal, frame.data)) is not None] for signal in group.signals if signal.kind != "signed"}
    never = [signal.label for signal in group.signals if raws.get(signal.label) and all(raw >= _error(signal) for raw in raws[signal.label])]
    if never:
        bench.note(f"{group.label}: 'not available' or 'error' all the time: {', '.join(never)}", *seen[:1])
    odd = [signal.label for signal in group.signals if any(greatest(signal) < raw < _error(signal) for raw in raws.get(signal.label, ()))]
    if odd:
        bench.note(f"{group.label}: reserved values of {', '.join(odd)}", *seen[:1])


def _raw(signal: Signal, data: bytes) -> int | None:
    """The raw number of a signal in data, None where it isn't there."""
    if signal.repeated or signal.span.stop > 8 * len(data):
        return None
    return int.from_bytes(data, "little") >> signal.span.start & (1 << signal.bits) - 1


def _error(signal: Signal) -> int:
    """The least raw number that says 'error' or 'not available'."""
    if signal.kind == "measured":
        return 0xFE << signal.bits - 8
    return (1 << signal.bits) - min(2, (1 << signal.bits) - 1 - greatest(signal))


def crowd(bench: Tester) -> str:
    """The bus is filled as full as the plan has it: the box sends as planned. Then fuller."""
    share = bench.planned.share or FULL / 2
    try:
        bench.bus.fill(share)
        said = played(bench, duration(bench))
        bench.bus.fill(FULL)
        try:
            played(bench, duration(bench, FEW))
            bench.note(f"on a bus filled to {FULL:.0%}: as planned")
        except Failed as why:
            bench.note(f"on a bus filled to {FULL:.0%}: {why}", *why.frames)
    finally:
        bench.bus.fill(0)
    return f"{said}, on a bus filled to {share:.0%}"


def needs(bench: Tester) -> str:
    """Flows that the box needs stop, one after another: what changes in what it sends."""
    flows = list(dict.fromkeys(flow for need in bench.planned.needs for flow in bench.planned.flows_for(need) if flow.sender in bench.planned.others))
    bench.plays()
    for flow in flows:
        before = _data(bench, duration(bench, FEW))
        bench.rest.silent.add(flow.number)
        bench.pause(ABSENT)
        after = _data(bench, duration(bench, FEW))
        bench.rest.silent.discard(flow.number)
        bench.note(f"without {flow.what}: " + (", ".join(_changes(before, after)) or "nothing changes"))
    bench.takes()
    return f"{len(flows)} flows that it needs stopped, one after another"


def _data(bench: Tester, seconds: float) -> dict[int, set[bytes]]:
    """The bytes of each group that the box sends in single frames for some time."""
    begin, found = len(bench.frames), dict[int, set[bytes]]()
    bench.pause(seconds)
    for frame in bench.frames[begin:]:
        if frame.is_box and frame.pgn not in SERVICES and len(frame.data) <= FRAME_BYTES:
            found.setdefault(frame.pgn, set()).add(frame.data)
    return found


def _changes(before: dict[int, set[bytes]], after: dict[int, set[bytes]]) -> Iterator[str]:
    """What is otherwise than before."""
    for pgn in sorted({*before, *after}):
        if pgn not in after:
            yield f"PGN {pgn} stops"
        elif pgn not in before:
            yield f"PGN {pgn} begins"
        elif not before[pgn] & after[pgn]:
            yield f"PGN {pgn} has {max(after[pgn]).hex()}, before {max(before[pgn]).hex()}"
