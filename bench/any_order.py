#!/usr/bin/env python3
"""Looks for a frame that is later than `load` says, where units keep no order, or flows have one identifier:
any_order.py [PLANS [SEED [ANSWERS]]]

Each of so many plans (300) has some units whose controllers keep no order, and most have twins: flows of one unit whose groups are told by
their data alone, of which any may go first. It is played on a bus of its own, by none of the program's
definitions: arbitration bit for bit comes down to the smallest identifier, and such a unit offers what came first, what came last, what is
least urgent, or any frame. Four plans of ten have multi-packet broadcasts, seldom wanted and with gaps of 10 ms: each unit has one under way
as the others come, and one of each flow waits. In half of the plans clocks differ (`drift`): the bus and each unit have one of their own, mostly as
fast or as slow as it may be. A third of them are live: all units claim, and one request for claims comes. Some flows answer requests of one to
three units, each answer at most 250 ms behind its request, and mostly as many at once as may be. What is queued keeps the premises of the times
(docs/guide/TIMING.md), mostly all at once. ANSWERS is a file with what `load` writes of each plan behind a line `== NAME`; else the program of
the environment's J39PLAN, or ./j39plan, is asked. The status is 1 where a frame is later than told.
"""
from __future__ import annotations

import os
import random
import re
import subprocess
import sys
from fractions import Fraction
from math import ceil
from pathlib import Path
from typing import Iterator, NamedTuple

BITS_PER_MS, US_PER_BIT, LONGEST, RUNS, SPAN, LONG_SPAN, GAP_MS = 250, 4, 160, 60, 60 * 250, 200 * 250, 10
# A request for claims has three bytes, and no unit of the plan sends it.
REQUEST_BITS, TESTER = 110, 254
# Within so many milliseconds a unit answers a request.
ANSWERED_MS = 250


class Flow(NamedTuple):
    """A planned flow: its units by their places, and its frames."""
    number: int
    sender: int
    receiver: int | None
    priority: int
    pgn: int
    length: int
    period: int
    jitter: int
    is_twin: bool
    is_answer: bool = False

    def is_broadcast(self) -> bool:
        """Whether its messages are multi-packet ones to all."""
        return self.length > 8 and self.receiver is None

    def packets(self) -> int:
        """How many packets a message of it has."""
        return -(-self.length // 7)


class Request(NamedTuple):
    """A planned request: the number of the flow that answers, the unit that asks, whether it asks all, and its period."""
    flow: int
    sender: int
    is_to_all: bool
    period: int


class Network(NamedTuple):
    """A plan, as the bus needs it."""
    addresses: list[int]
    keeps_order: list[bool]
    flows: list[Flow]
    unplanned: int
    drift: int = 0
    is_live: bool = False
    requests: tuple[Request, ...] = ()


class Clocks(NamedTuple):
    """How long a bit of the bus and a millisecond of each unit last, in bits and milliseconds of true time."""
    bus: Fraction
    units: list[Fraction]

    def bits(self, unit: int, ms: int | Fraction) -> Fraction:
        """How many bits of the bus so many milliseconds of a unit have."""
        return ms * BITS_PER_MS * self.units[unit] / self.bus

    def us(self, bits: int) -> Fraction:
        """How many microseconds so many bits last."""
        return bits * US_PER_BIT * self.bus


def clocks(net: Network, chance: random.Random) -> Clocks:
    """Clocks that differ from true time by the drift of the plan at most: mostly all units as fast as may be on a slow bus."""
    def clock(likely: int) -> Fraction:
        return 1 + Fraction(net.drift * chance.choice([likely, likely, likely, -likely, 0]), 10**6)

    slowest = chance.choice([1, 1, 1, -1])
    return Clocks(clock(slowest), [clock(-slowest) for _ in net.addresses])


class Frame(NamedTuple):
    """A frame: when it is ready, the moment of its message, its length, and whose it is."""
    queued: int
    moment: int
    bits: int
    identifier: int
    unit: int
    flow: Flow | None


class Sender:
    """What a unit broadcasts: a message at a time, its frames a gap apart, by a timer or each behind the end of the one before. As the run begins
    its longest message may be under way, and of each flow one that is wanted may wait; another one that is wanted meanwhile isn't sent. At its
    worst both are so, and the next message of each flow is wanted as soon as the one that waits has begun."""

    def __init__(self, net: Network, unit: int, at: Clocks, start: int, at_worst: bool, chance: random.Random) -> None:
        self.unit, self.address, self.chance = unit, net.addresses[unit], chance
        flows = [flow for flow in net.flows if flow.is_broadcast() and flow.sender == unit]
        self.gap, self.periods = at.bits(unit, GAP_MS), {flow: at.bits(unit, flow.period) for flow in flows}
        self.left, all_packets = max(flow.packets() for flow in flows), sum(flow.packets() for flow in flows)
        begun = {flow: start + (self.left + all_packets - flow.packets()) * self.gap for flow in flows}
        self.moments: dict[Flow, Fraction] = {flow: begun[flow] + 1 - self.periods[flow] for flow in flows}
        self.waiting: set[Flow] = set()
        # its next frame is ready, and the last one was queued, at these moments; a moment counts at the next bit
        self.ready, self.queued, self.by_timer = Fraction(start), Fraction(0), True
        if not at_worst:
            self.moments = {flow: Fraction(start - chance.choice([0, 0, 1, chance.randrange(int(self.periods[flow]))])) for flow in flows}
            self.left *= chance.choice([0, 1, 1])
            self.ready += chance.choice([0, 0, 1, chance.randrange(int(self.gap))])
            self.by_timer = chance.random() < 0.6

    def moment(self) -> Fraction:
        """From when on its next frame is queued."""
        wanted = self.ready if self.waiting else min(self.moments.values(), default=Fraction(LONG_SPAN))
        return self.ready if self.left else max(self.ready, wanted)

    def time(self) -> int:
        """The bit at which this counts."""
        return ceil(self.moment())

    def frame(self) -> Frame:
        """Its next frame, queued now: a packet, or the announcement of a message that waits."""
        self.queued = self.moment()
        pgn = 60160 if self.left else 60416
        if self.left:
            self.left -= 1
        else:
            self.want(self.queued)
            flow = self.chance.choice(sorted(self.waiting))
            self.waiting.remove(flow)
            self.left = flow.packets()
        self.ready = Fraction(10 * LONG_SPAN) if not self.by_timer else self.queued + (self.gap if self.left else 0)
        return Frame(ceil(self.queued), 0, LONGEST, identifier(7, pgn, 255, self.address), self.unit, None)

    def want(self, time: int | Fraction) -> None:
        """What is wanted up to a moment waits."""
        for flow in self.moments:
            while self.moments[flow] <= time:
                self.waiting.add(flow)
                self.moments[flow] += self.periods[flow]

    def sent(self, end: int) -> None:
        """Its frame has been sent."""
        if not self.by_timer:
            self.ready = max(Fraction(end), self.queued + self.gap) if self.left else Fraction(end)
        self.want(end)


def network(chance: random.Random) -> Network:
    """Units of which one at least keeps no order, or most broadcast, and what they send."""
    net = broadcasting(chance) if chance.random() < 0.4 else without_order(chance)
    net = net._replace(drift=chance.choice([0, 0, 0, 50, 500, 5000, 20000]), is_live=chance.random() < 0.3)
    return with_answers(net, chance) if chance.random() < 0.4 else net


def with_answers(net: Network, chance: random.Random) -> Network:
    """One to three flows more that answer one to three requests each: no more often in all than once a period, by each clock."""
    flows, requests, units = [*net.flows], list[Request](), range(len(net.addresses))
    for _ in range(chance.randint(1, 3)):
        number, sender, period = len(flows) + 1, chance.choice(units), chance.choice([20, 50, 100, 100, 200, 300])
        length, priority = chance.choice([8, 8, 5]), chance.choice([3, 6, 6, 7])
        flows.append(Flow(number, sender, None, priority, 0xFE00 + number, length, period, 0, False, True))
        others = [unit for unit in units if unit != sender]
        askers = chance.sample(others, chance.randint(1, min(3, len(others))))
        least = ceil(Fraction(len(askers) * period * (10**6 + net.drift), 10**6 - net.drift))
        requests += [Request(number, asker, chance.random() < 0.3, least + chance.choice([0, 0, 1, 7])) for asker in askers]
    return net._replace(flows=flows, requests=tuple(requests))


def broadcasting(chance: random.Random) -> Network:
    """Up to fourteen units with broadcasts, and some urgent flows beside them."""
    units = range(chance.randint(4, 14))
    keeps_order = [chance.random() < 0.9 for _ in units]
    flows: list[Flow] = []
    for unit in units:
        for _ in range(chance.choice([0, 1, 1, 2])):
            number = len(flows) + 1
            flows.append(Flow(number, unit, None, 6, 0xFE00 + number, chance.choice([9, 14, 18, 28]), chance.choice([100, 500, 1000]), 0, False))
    for _ in range(chance.randint(1, 8)):
        number = len(flows) + 1
        period, priority = chance.choice([(5, 3), (10, 3), (20, 3), (1000, 7), (2000, 7)])
        flows.append(Flow(number, chance.choice(units), None, priority, 0xFE00 + number, 8, period, 0, False))
    return Network(chance.sample(range(120), len(units)), keeps_order, flows, 0)


def without_order(chance: random.Random) -> Network:
    """Two to five units, of which one at least keeps no order, and what they send."""
    units = range(chance.randint(2, 5))
    keeps_order = [chance.random() < 0.5 for _ in units]
    keeps_order[chance.choice(units)] = False
    flows = []
    for number in range(1, chance.randint(4, 12)):
        sender, to_one = chance.choice(units), chance.random() < 0.15
        receiver = chance.choice([unit for unit in units if unit != sender]) if to_one else None
        long = to_one and chance.random() < 0.6
        length = chance.randint(9, 40) if long else chance.choice([8, 8, 8, 8, 5, 3])
        period = chance.choice([100, 200, 500] if long else [5, 8, 10, 10, 20, 20, 50, 100])
        jitter = min(chance.choice([0, 0, 0, chance.randint(1, 4)]), period - 1)
        pgn = (0x1000 + number * 256) if to_one else 0xFE00 + number
        flow = Flow(number, sender, receiver, chance.choice([0, 2, 3, 3, 3, 6, 6, 6, 7]), pgn, length, period, jitter, False)
        others = [other for other in flows if other.length <= 8 and length <= 8]
        if others and chance.random() < 0.3:
            other = chance.choice(others)
            flow = other._replace(number=number, length=length, period=period, jitter=jitter, is_twin=True)
            flows[other.number - 1] = other._replace(is_twin=True)
        flows.append(flow)
    return Network(chance.sample(range(120), len(units)), keeps_order, flows, chance.choice([0, 0, 0, 1, 2]))


def plan_text(net: Network) -> Iterator[str]:
    """The plan of a network."""
    yield f"version = 4\nlive = {str(net.is_live).lower()}\n"
    yield f"timing = {{ bitrate = 250000, unplanned = {net.unplanned}, broadcast_gap = 10, drift = {net.drift} }}\n"
    for unit, (address, keeps_order) in enumerate(zip(net.addresses, net.keeps_order)):
        queue = "priority" if keeps_order else "any"
        yield f'[[unit]]\nlabel = "U{unit}"\naddress = {address}\nqueue = "{queue}"\nname = {{ identity = {unit + 1} }}\n'
    for flow in net.flows:
        yield f'[[group]]\nlabel = "G{flow.number}"\npgn = {flow.pgn}\npriority = {flow.priority}\nlength = {flow.length}\n'
        yield f"when = {{ byte = 1, bits = 8, value = {flow.number} }}\n" if flow.is_twin else ""
    for flow in net.flows:
        to = "all" if flow.receiver is None else f"U{flow.receiver}"
        yield f'[[flow]]\ngroup = "G{flow.number}"\nfrom = "U{flow.sender}"\nto = "{to}"\nperiod = {flow.period}\njitter = {flow.jitter}\n'
        yield "on_request = true\n" if flow.is_answer else ""
    for request in net.requests:
        to = "all" if request.is_to_all else f"U{net.flows[request.flow - 1].sender}"
        yield f'[[request]]\ngroup = "G{request.flow}"\nfrom = "U{request.sender}"\nto = "{to}"\nperiod = {request.period}\n'


def identifier(priority: int, pgn: int, destination: int, source: int) -> int:
    """A frame's identifier: a group of PDU1 has its destination in it."""
    return priority << 26 | pgn << 8 | (0 if pgn >> 8 & 255 >= 240 else destination << 8) | source


def message(net: Network, flow: Flow, moment: int, queued: int, chance: random.Random) -> Iterator[Frame]:
    """The frames of a message of a flow; those of a long one, answers too, are queued at once."""
    source = net.addresses[flow.sender]
    there = 255 if flow.receiver is None else net.addresses[flow.receiver]
    if flow.length <= 8:
        yield Frame(queued, moment, 80 + 10 * flow.length, identifier(flow.priority, flow.pgn, there, source), flow.sender, flow)
        return
    own = [60416] + [60160] * flow.packets()
    for pgn, unit in [(pgn, flow.sender) for pgn in own] + [(60416, flow.receiver or 0)] * 2:
        ends = (there, source) if unit == flow.sender else (source, there)
        yield Frame(queued + chance.randrange(2), moment, LONGEST, identifier(7, pgn, *ends), unit, flow)


def asked(net: Network, at: Clocks, start: int, span: int, chance: random.Random) -> Iterator[Frame]:
    """Planned requests and what answers them: mostly all that may be answered as the run begins."""
    for request in net.requests:
        flow = net.flows[request.flow - 1]
        to = 255 if request.is_to_all else net.addresses[flow.sender]
        number = identifier(6, 59904, to, net.addresses[request.sender])
        period, longest = at.bits(request.sender, request.period), at.bits(flow.sender, ANSWERED_MS)
        moment = Fraction(start - chance.choice([0, 1, int(longest), int(longest) - 1, chance.randrange(int(longest) + 1)]))
        moment -= period * (moment // period)
        while moment < span:
            queued = ceil(moment)
            yield Frame(queued, queued, REQUEST_BITS, number, request.sender, None)
            last = queued + int(longest)
            answer = start if queued <= start <= last and chance.random() < 0.9 else chance.choice([queued, last, last, chance.randint(queued, last)])
            if answer < span:
                yield from message(net, flow, answer, answer, chance)
            moment += period


def not_planned(net: Network, start: int, at_once: bool, chance: random.Random) -> Iterator[Frame]:
    """The frames that aren't planned: on a live bus a claim of each unit and a request for claims are among them, or more than these."""
    def queued() -> int:
        return start + chance.randrange(5) if at_once else chance.randrange(SPAN)

    claims = len(net.addresses) + 1 if net.is_live else 0
    if net.is_live:
        for unit, address in enumerate(net.addresses):
            yield Frame(queued(), 0, LONGEST, identifier(6, 60928, 255, address), unit, None)
        yield Frame(queued(), 0, REQUEST_BITS, identifier(6, 59904, 255, TESTER), len(net.addresses), None)
    for _ in range(net.unplanned - claims):
        unit, number = chance.randrange(len(net.addresses) + 1), chance.choice([6 << 26, 7 << 26, (7 << 26) + (1 << 25)]) + chance.randrange(1 << 24)
        yield Frame(queued(), 0, LONGEST, number, unit, None)


def queued_frames(net: Network, at: Clocks, start: int, chance: random.Random) -> list[Frame]:
    """What the units queue in a run but for broadcasts: mostly all at once, and some of them a little before."""
    at_once, spread = chance.random() < 0.6, chance.choice([2, 2, 3, 200, 500, 1500, 2500])
    flows = [flow for flow in net.flows if not flow.is_broadcast() and not flow.is_answer]
    first, span = chance.choice(flows) if flows and chance.random() < 0.7 else None, LONG_SPAN if any(flow.is_broadcast() for flow in net.flows) else SPAN
    frames: list[Frame] = []
    for flow in flows:
        period, jitter = at.bits(flow.sender, flow.period), at.bits(flow.sender, flow.jitter)
        ready = start - (spread + 1 if flow is first else chance.randrange(spread)) if at_once else chance.randrange(int(period))
        late = jitter if chance.random() < 0.5 else Fraction(0)
        moment = ready - late
        while moment < span:
            held = period if flow.length > 8 and chance.random() < 0.5 else 0
            frames += message(net, flow, ceil(moment - held), ceil(moment + late), chance)
            moment += period + (chance.randrange(int(period) // 4 + 1) if chance.random() < 0.2 else 0)
            late = Fraction(chance.randrange(int(jitter) + 1) if chance.random() < 0.3 else 0)
    frames += asked(net, at, start, span, chance)
    frames += not_planned(net, start, at_once, chance)
    return sorted(frames, key=lambda frame: frame.queued)


def ends(frames: list[Frame], net: Network, at: Clocks, start: int, chance: random.Random) -> Iterator[tuple[Frame, int]]:
    """Each frame with the bit at which it has been sent. A unit behind the planned ones keeps order; of frames of one identifier
    such a unit offers any."""
    offers = [chance.choice(["first", "last", "least urgent", "least urgent", "any"]) for _ in [*net.addresses, None]]
    by_order = {"first": lambda some: min(some, key=lambda frame: frame.queued), "last": lambda some: max(some, key=lambda frame: frame.queued),
                "least urgent": lambda some: max(some, key=lambda frame: frame.identifier), "any": chance.choice}
    waiting: dict[int, list[Frame]] = {}
    at_worst = chance.random() < 0.3
    senders = [Sender(net, unit, at, start, at_worst, chance) for unit in {flow.sender for flow in net.flows if flow.is_broadcast()}]
    sending: dict[int, tuple[Sender, Frame]] = {}
    time = place = 0
    while waiting or place < len(frames):
        time = time if waiting else max(time, min([frames[place].queued, *(sender.time() for sender in senders)]))
        for sender in [sender for sender in senders if sender.time() <= min(time, LONG_SPAN)]:
            sending[sender.unit] = sender, sender.frame()
            waiting.setdefault(sender.unit, []).append(sending[sender.unit][1])
        while place < len(frames) and frames[place].queued <= time:
            waiting.setdefault(frames[place].unit, []).append(frames[place])
            place += 1
        offered = []
        for unit, some in waiting.items():
            if unit >= len(net.addresses) or net.keeps_order[unit]:
                least = min(frame.identifier for frame in some)
                some = [frame for frame in some if frame.identifier == least]
            offered.append(by_order[offers[unit]](some))
        frame = min(offered, key=lambda frame: frame.identifier)
        waiting[frame.unit].remove(frame)
        if not waiting[frame.unit]:
            del waiting[frame.unit]
        time += frame.bits
        if frame is sending.get(frame.unit, (None, None))[1]:
            sending.pop(frame.unit)[0].sent(time)
        yield frame, time


def told_by(answer: str) -> dict[int, int]:
    """The delays that `load` tells, in microseconds, by the numbers of the flows."""
    return {int(number): int(us) for number, us in re.findall(r"^flow (\d+) \S+ \S+ \S+ within (\d+) of", answer, re.M)}


def answers(name: str) -> dict[str, str]:
    """What stands in a file of answers, by the names of the plans."""
    parts = re.split(r"^== (\S+)\n", Path(name).read_text(), flags=re.M)
    return dict(zip(parts[1::2], parts[2::2]))


def main(words: list[str]) -> int:
    """Plays the plans, and says what is later than told."""
    count, seed = int(words[0]) if words else 300, int(words[1]) if words[1:] else 1
    known = answers(words[2]) if words[2:] else {}
    bounds = frames = later = 0
    for number in range(count):
        chance = random.Random(f"{seed} {number}")
        net, name = network(chance), f"p{number:03}.toml"
        text = "".join(plan_text(net))
        program = [os.environ.get("J39PLAN") or str(Path(__file__).parent.parent / "j39plan"), "load", "/dev/stdin"]
        answer = known[name] if known else subprocess.run(program, input=text, capture_output=True, text=True, check=False).stdout
        told, worst = told_by(answer), dict.fromkeys(range(len(net.flows) + 1), Fraction(0))
        for _ in range(RUNS):
            start, at = chance.randrange(400) + 3000, clocks(net, chance)
            for frame, end in ends(queued_frames(net, at, start, chance), net, at, start, chance):
                frames += 1
                if frame.flow:
                    worst[frame.flow.number] = max(worst[frame.flow.number], at.us(end - frame.moment))
        bounds += len(told)
        for flow, us in told.items():
            if worst[flow] > us:
                later += 1
                print(f"{name}: flow {flow} took {float(worst[flow]):.1f} us, and {us} are told")
    print(f"plans {count}, delays {bounds}, frames {frames}, later than told {later}")
    return 1 if later else 0


if __name__ == "__main__":
    sys.exit(main(sys.argv[1:]))
