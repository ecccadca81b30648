"""Hints at what of a plan may not be meant, though it is no finding."""

from __future__ import annotations

from collections.abc import Callable, Iterable, Iterator
from functools import partial
from itertools import combinations
from typing import NamedTuple

from j39plan import program
from j39plan.j1939 import FRAME_BYTES, PACKET_BYTES, POOL
from j39plan.plan import scales
from j39plan.plan.hints import alternatives, needs, omitted, requests, variants
from j39plan.plan.hints.names import ON_DEMAND, HintChoice, Silence
from j39plan.plan.hints.words import likely
from j39plan.plan.parts import Part, Source
from j39plan.plan.tables import Flow, Unit
from j39plan.plan.toml_places import Place
from j39plan.plan.variants import Line as Choices

# The line of a place, and a hint.
Hint = tuple[int, str]


class NamedHint(NamedTuple):
    """A hint with its line, and the name by which it is silenced."""

    line: int
    text: str
    name: str



# The priorities above that of control, which is 3 by default; that of information is 6 (SAE J1939-21).
HIGH_PRIORITY = range(3)

# So many flows that no need takes are told each.
UNTAKEN_MOST = 3

# The ms of a second, and the most bits of a frame of eight bytes.
SECOND, FRAME_BITS = 1000, 160


class Broadcast(NamedTuple):
    """A flow with long messages to all: its period in ms, the packets of its longest message, the time that these take in ms, and whether it
    has messages of one frame too."""

    flow: Flow
    period: int
    packets: int
    takes: int
    has_short: bool


class Lint:
    """The hints at a plan's text; `used` are the labels of units of which a vehicle makes use."""

    def __init__(self, source: Source, used: frozenset[str] = frozenset()) -> None:
        self.source, self.tables, self.used = source, source.tables, used
        self.groups = {group.label: group for group in self.tables.groups}
        self.choices = Choices.of(source) if source["choice"] else None

    def are_together(self, *places: Place) -> bool:
        """Whether a vehicle has all of these units, groups, flows and needs, of which a line of vehicles has alternatives."""
        return self.choices is None or self.choices.are_together(*((str(place[0]), int(place[1])) for place in places))

    def found(self) -> dict[str, tuple[Callable[[], Iterable[Hint]], ...]]:
        """What looks for hints, by their names."""
        plan = self.source
        whole: dict[str, tuple[Callable[[], Iterable[Hint]], ...]] = {
            "unsent": (self.unsent,), "idle": (self.idle,), "pool": (self.fixed_in_pool,), "prefer": (self.preferred,), "spn": (self.spns,),
            "short": (self.short,), "urgent": (self.urgent,), "identity": (self.equal_identities,), "broadcast": (self.unsendable, self.passed),
            "single": (self.single,), "queue": (self.unordered,), "untaken": (self.untaken,), "twice": (self.met_twice,), "late": (self.met_late,),
            "unasked": (self.unasked,), "beside": (self.answering_beside,), "live": (self.not_live,), "drift": (self.agreeing,), "maker": (partial(omitted.makers, plan),),
            "measure": (partial(omitted.measures, plan),), "codes": (partial(omitted.codes, plan),), "address": (partial(omitted.addresses, plan),)}
        of_line: dict[str, tuple[Callable[[], Iterable[Hint]], ...]] = {
            "choice": (partial(variants.unnamed, plan),), "silent": (partial(variants.silent_without, plan),),
            "unbuilt": (partial(alternatives.nowhere, plan),), "alike": (partial(alternatives.alike, plan),)}
        return {**whole, **(of_line if self.choices else {})}

    def named(self, asked: HintChoice = HintChoice()) -> list[NamedHint]:
        """The hints that are asked for and that no comment silences, in the order of the file."""
        silence = Silence(self.source)
        told = {NamedHint(line, text, name) for name, parts in self.found().items() if asked.tells(name) and name not in silence.everywhere
                for part in parts for line, text in part() if not silence.is_silent(name, line)}
        names = [*self.found(), "lint"]
        told |= {NamedHint(line, f"lint: no hint is called {word}{likely(word, names)}", "lint") for line, word in silence.strange if asked.tells("lint")}
        return sorted(told)

    def hints(self) -> list[Hint]:
        """All hints but those that come with nearly every plan, in the order of the file."""
        return [(hint.line, hint.text) for hint in self.named(HintChoice(unwanted=ON_DEMAND))]

    def at(self, place: Place, key: str, text: str) -> Hint:
        """A hint at a key of a table."""
        return self.source.line(place + (key,)), text

    def of_flow(self, flow: Flow, key: str, text: str) -> Hint:
        """A hint at a key of a flow."""
        return self.at(flow.place, key, f"flow {flow.number}, {flow.what}: {text}")

    def of_unit(self, unit: Unit, key: str, text: str) -> Hint:
        """A hint at a key of a unit."""
        return self.at(unit.place, key, f"unit {unit.label}: {text}")

    def unsent(self) -> Iterator[Hint]:
        """Groups that no flow sends."""
        sent = {flow.group for flow in self.tables.flows}
        for group in self.tables.groups:
            if group.label not in sent:
                yield self.at(group.place, "label", f"group {group.label}: no flow sends it")

    def idle(self) -> Iterator[Hint]:
        """Units that neither send a group, nor get one that goes to them, nor need or ask for one."""
        busy = self.used | {end for flow in self.tables.flows for end in (flow.sender, flow.to)}
        busy |= {need.unit for need in self.tables.needs} | {request.sender for request in self.tables.requests}
        for unit in self.tables.units:
            if unit.label not in busy:
                yield self.of_unit(unit, "label", "no flow is from it or to it alone")

    def fixed_in_pool(self) -> Iterator[Hint]:
        """Units that may not choose, at an address among those that others choose, and that isn't kept free."""
        kept = self.source.kept
        for unit in self.tables.units:
            if unit.address in POOL and unit.address not in kept and not unit.may_choose:
                yield self.of_unit(unit, "address", f"it may not choose, and its address {unit.address} is one of 128..247, which others may choose")

    def preferred(self) -> Iterator[Hint]:
        """Units that prefer the address of another one, one hint for each address: all but one of them have to move whenever they are there."""
        at: dict[int, list[Unit]] = {}
        for unit in sorted(self.tables.units, key=lambda unit: unit.may_choose):
            at.setdefault(unit.address, []).append(unit)
        for first, *others in at.values():
            movers = [unit for unit in others if unit.may_choose and self.are_together(first.place, unit.place)]
            if not movers:
                continue
            several, there = len(movers) > 1, f"{first.label} at line {self.source.line((*first.place, 'address'))}"
            who = f"it and {len(movers) - 1} more prefer" if several else "it prefers"
            other = f"as {there} does" if first.may_choose else f"where {there} is fixed"
            moved = ("all but one move" if several else "one of them moves") if first.may_choose else "they move" if several else "it moves"
            text = f"{who} {first.address}, {other}: {moved} whenever {'all' if several else 'both'} are there"
            yield self.of_unit(movers[0], "address", text)

    def spns(self) -> Iterator[Hint]:
        """Signals of a number that another one of their group has, or that has another label or another scale in another group."""
        first: dict[int, tuple[Part, Part]] = {}
        for group in self.source["group"]:
            here: dict[int, Part] = {}
            for signal in group.inside.get("signal", []):
                spn = signal.number_if_any("spn")
                if spn is None:
                    continue
                other, (above, known) = here.setdefault(spn, signal), first.setdefault(spn, (group, signal))
                what = f"signal {group.label}.{signal.label}: spn {spn}"
                if other is not signal:
                    yield signal.line("spn"), f"{what} is that of {other.label} at line {other.line('spn')} too"
                elif above is not group and self.are_together(above.place, group.place):
                    there = f"{above.label}.{known.label} at line {known.line('spn')}"
                    if not scales.is_close(scales.scale(known), scales.scale(signal)):
                        yield signal.line("spn"), f"{what} is {scales.scale(signal).shown}, and {scales.scale(known).shown} in {there}"
                    elif known.label != signal.label and signal.text("kind") != "dtc":
                        yield signal.line("spn"), f"{what} is that of {there} too"

    def short(self) -> Iterator[Hint]:
        """Groups whose messages of one frame don't fill it."""
        for group in self.tables.groups:
            if group.length < FRAME_BYTES:
                what = f"{group.length} bytes; a group" if group.most == group.length else f"messages of {group.length} bytes and more; one"
                yield self.at(group.place, "length", f"group {group.label}: {what} of one frame has 8, unused ones filled with ones")

    def urgent(self) -> Iterator[Hint]:
        """Groups that go to all, and thus inform, at the priorities of control."""
        to_all = {flow.group for flow in self.tables.flows if flow.to == "all"}
        for group in self.tables.groups:
            if group.priority in HIGH_PRIORITY and group.label in to_all:
                text = f"group {group.label}: priority {group.priority}, and it goes to all; groups that inform have 6 by default"
                yield self.at(group.place, "priority", text)

    def equal_identities(self) -> Iterator[Hint]:
        """Units of different makers with one identity number: it may have been copied."""
        first: dict[int, list[Unit]] = {}
        for unit in (unit for unit in self.tables.units if "identity" in unit.fields):
            others = first.setdefault(unit.fields["identity"], [])
            other = next((other for other in others if other.fields["manufacturer"] != unit.fields["manufacturer"]
                          and self.are_together(other.place, unit.place)), None)
            if other is not None:
                text = f"the identity of {other.label}, which has another maker, at line {self.source.line((*other.place, 'name', 'identity'))}"
                yield self.source.line((*unit.place, "name", "identity")), f"unit {unit.label}: {text}"
            others.append(unit)

    def broadcasts(self) -> list[Broadcast]:
        """The flows with long messages to all and a period, in a plan that says how fast its bus is."""
        found, timing = [], self.tables.timing
        for flow in self.tables.flows if timing else ():
            group = self.groups[flow.group]
            if timing and flow.to == "all" and group.most > FRAME_BYTES and flow.period:
                packets = -(-group.most // PACKET_BYTES)
                found.append(Broadcast(flow, flow.period, packets, packets * timing.broadcast_gap, group.length <= FRAME_BYTES))
        return found

    def unsendable(self) -> Iterator[Hint]:
        """Long messages to all that take more time than there is between two of them."""
        for flow, period, packets, takes, _ in self.broadcasts():
            if takes > period:
                text = f"{packets} packets {takes // packets} ms apart take {takes} ms, more than its period of {period} ms"
                yield self.of_flow(flow, "period", text)

    def passed(self) -> Iterator[Hint]:
        """Long messages to all for which there is time between two of them, and not for one that their unit sends first."""
        sent = self.broadcasts()
        for flow, period, _, takes, _ in sent:
            others = [other for other in sent if other.flow is not flow and other.flow.sender == flow.sender]
            longest = max(others, key=lambda other: other.takes, default=None)
            if longest is not None and takes <= period < takes + longest.takes:
                first = f"{longest.flow.group}, which {flow.sender} may send first, {longest.takes} ms"
                yield self.of_flow(flow, "period", f"it takes {takes} ms, and {first}: more than its period of {period} ms")

    def single(self) -> Iterator[Hint]:
        """Flows to all with short and long messages, where those of one frame take more than half of the bus together."""
        asked = [(other.flow, -(-SECOND * FRAME_BITS // other.period)) for other in self.broadcasts() if other.has_short]
        bitrate, together = self.tables.timing.bitrate if self.tables.timing else 0, sum(bits for _, bits in asked)
        for flow, bits in asked if 2 * together > bitrate else ():
            yield self.of_flow(flow, "period", f"messages of one frame take {bits} bits a second, those of all such flows {together} of {bitrate}")

    def unordered(self) -> Iterator[Hint]:
        """Units whose controllers keep no order, and that send groups of two priorities: the urgent ones wait behind the others."""
        for unit in self.tables.units:
            if unit.queue == "any":
                groups = [self.groups[flow.group] for flow in self.tables.flows if flow.sender == unit.label]
                first, last = (find(groups, key=lambda group: group.priority) for find in (min, max)) if groups else (None, None)
                if first and last and first.priority < last.priority:
                    text = f"{first.label} of priority {first.priority} may wait behind {last.label} of priority {last.priority}"
                    yield self.of_unit(unit, "queue", f"its controller keeps no order, so {text}")

    def untaken(self) -> Iterator[Hint]:
        """Flows to one unit that it neither needs nor asks for, in a plan with needs; of many all in one hint."""
        flows = [flow for flow in self.tables.flows if self.tables.needs and flow.to not in self.used | {"all"} and not flow.is_asked
                 and not any(need.is_met_by(flow) for need in self.tables.needs)]
        if len(flows) > UNTAKEN_MOST:
            numbers = ", ".join(str(flow.number) for flow in flows)
            yield self.at(flows[0].place, "to", f"{len(flows)} flows go to one unit each, and no need takes them: flows {numbers}")
            return
        for flow in flows:
            yield self.of_flow(flow, "to", f"no need of {flow.to} takes it")

    def met_twice(self) -> Iterator[Hint]:
        """Needs that two senders meet."""
        for need in self.tables.needs:
            meeting = [flow for flow in self.tables.flows if need.is_met_by(flow)]
            senders = dict.fromkeys(flow.sender for flow in meeting)
            if any(one.sender != other.sender and self.are_together(need.place, one.place, other.place) for one, other in combinations(meeting, 2)):
                text = f"{' and '.join(senders)} meet it; from says which one is meant"
                yield self.at(need.place, "group", f"need {need.place[-1]}, {needs.named(need)}: {text}")

    def met_late(self) -> Iterator[Hint]:
        """Flows that meet a need with an age too, and bring what is older: the need's unit has to take the other one."""
        for need in self.tables.needs:
            meeting = [flow for flow in self.tables.flows if need.is_met_by(flow)]
            old = [(flow, why) for flow in meeting if need.within and (why := needs.surely_old(flow, need.within))]
            for flow, why in old if len(old) < len(meeting) else ():
                yield self.of_flow(flow, "group", f"it meets need {need.place[-1]} within {need.within} ms too, and {why}")

    def unasked(self) -> Iterator[Hint]:
        """Flows that are sent only as answers, and that no request of the plan asks for: tools may ask too."""
        for flow in self.tables.flows:
            if flow.is_unasked:
                yield self.of_flow(flow, "on_request", "it is sent only as an answer, and no request of the plan asks for it")

    def answering_beside(self) -> Iterator[Hint]:
        """Flows that come by themselves, and for which requests with a period ask too, in a plan with timing."""
        for flow in self.tables.flows if self.tables.timing else ():
            if flow.period and not flow.on_request and (asking := requests.asking(self.tables, flow)):
                told = " and ".join(f"request {requests.number(request)}" for request in asking)
                yield self.of_flow(flow, "period", f"what it answers to {told} beside its own messages isn't counted")

    def not_live(self) -> Iterator[Hint]:
        """That a plan of the latest version could say that its bus is live, and have no further finding by that."""
        plan = self.source
        if plan.version == 4 and not self.tables.live and self.tables.flows and findings_of(live_text(plan)) <= findings_of(plan.text):
            yield self.at((), "version", "live = true adds no finding: then what check promises holds while units claim, and go off in mid-message")

    def agreeing(self) -> Iterator[Hint]:
        """That clocks are taken for exact."""
        timing = self.tables.timing
        if self.source.version == 4 and timing is not None and timing.drift == 0:
            yield self.at(("timing",), "drift", "drift 0: no two clocks agree for ever")


def live_text(plan: Source) -> str:
    """The text of a plan that says that its bus is live."""
    key = ("live",) if ("live",) in plan.places.pairs else ("version",)
    _, end, _ = plan.places.pairs[key]
    begin, more = (end - len(plan.places.spelled[key]), "true") if key == ("live",) else (end, "\nlive = true")
    return plan.text[:begin] + more + plan.text[end:]


def findings_of(text: str) -> set[str]:
    """What `check` finds in a plan."""
    with program.file_of(text) as name:
        status, answer = program.call(["check", "--", name])
    if status not in (0, 1):
        raise program.Refused(status, answer.strip())
    return {line for line in answer.splitlines() if line.startswith("F")}
