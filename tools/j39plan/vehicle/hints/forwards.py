"""What is to be known of a forward: why it has no input or output or several, what stands in the way of it, and where its times break."""

from __future__ import annotations

from j39plan.plan.hints import needs, requests
from j39plan.plan.tables import Flow
from j39plan.vehicle.tables import Forward, OnBus
from j39plan.vehicle.ways import Ways

# The keys of a forward that say what a need of the gateway's unit says.
KEYS = {"unit": "at", "group": "group", "from": "from"}

# The key of a forward to look at, and what is to be known of it.
Hint = tuple[str, str]


def listed(words: list[str]) -> str:
    """Words as a list: `A, B and C`."""
    return " and ".join([", ".join(words[:-1]), words[-1]] if len(words) > 1 else words)


def numbered(flows: list[Flow], bus: str) -> str:
    """Flows of a bus by their numbers."""
    numbers = [str(flow.number) for flow in flows]
    return f"flow{'s' * (len(flows) > 1)} {listed(numbers)} of bus {bus}"


def shown(bus: str, flow: Flow) -> str:
    """A flow by its number, its bus and its ends."""
    return f"flow {flow.number} of bus {bus}, {flow.what},"


def no_input(ways: Ways, forward: Forward) -> Hint:
    """Why a forward hears nothing."""
    own = ways.brought(forward)
    if own:
        senders = listed(list(dict.fromkeys(flow.sender for flow in own)))
        return "group", f"on bus {forward.heard.bus} only {senders} sends it, a unit of {forward.gateway} itself"
    key, why = needs.unmet(ways.vehicle.on(forward.heard.bus), ways.heard(forward))
    at = f", which {ways.vehicle.hearer(forward)} doesn't hear" if why.startswith("it goes to ") else ""
    return KEYS[key], f"on bus {forward.heard.bus} {why}{at}"


def many_inputs(ways: Ways, forward: Forward) -> Hint:
    """Which flows a forward hears."""
    flows = ways.inputs(forward)
    senders = list(dict.fromkeys(flow.sender for flow in flows))
    choice = f": name one of {listed(senders)}" if len(senders) > 1 else f": {senders[0]} sends it in each of them"
    return "from", f"it hears {numbered(flows, forward.heard.bus)}{choice}"


def no_output(ways: Ways, forward: Forward) -> Hint:
    """Why a forward feeds nothing."""
    sender, group, bus = ways.vehicle.sender(forward), forward.sent.label, forward.sent.bus
    senders = requests.sent_by(ways.vehicle.on(bus), group)
    if sender in senders:
        to = requests.receivers(senders, {sender})
        return "to", f"on bus {bus} {sender} sends it to {listed(to)} alone"
    if not senders:
        return "as", f"no flow of bus {bus} is of {group}: its plan wants one from {sender}"
    return "by", f"on bus {bus} {requests.others_send(senders, sender)}"


def many_outputs(ways: Ways, forward: Forward) -> Hint:
    """Which flows a forward feeds."""
    flows = ways.outputs(forward)
    return "to", f"it feeds {numbered(flows, forward.sent.bus)}: name one of {listed([flow.to for flow in flows])}"


def two_forwards(ways: Ways, first: Forward, second: Forward) -> str:
    """Why two forwards can't feed one flow."""
    fed = next(flow for flow in ways.outputs(first) if flow in ways.outputs(second))
    if first.is_direct or second.is_direct:
        why = "and one of them is direct"
    elif first.copies or second.copies:
        why = "and one of them copies all bytes"
    else:
        both = [carried.into for carried in second.signals or () if first.writes(carried.into)]
        why = f"and both write {listed(both)}"
    return f"{second.what}: it feeds {fed.what} too, as forward {first.number} at line {ways.vehicle.source.line(first.place)} does, {why}"


def loop(ways: Ways, forward: Forward) -> str:
    """How what a forward sends comes back to it."""
    numbers = [str(one.number) for one in ways.loop(forward)]
    if len(numbers) == 1:
        return "it hears what it sends itself"
    return f"what it sends comes back to it over forwards {listed(numbers)}"


def pace(flow: Flow, key: str) -> str:
    """A time of a flow, in words."""
    number = flow.period if key == "period" else flow.pause
    return f"no {key}" if number is None else f"a {key} of {number} ms"


def askers(ways: Ways, bus: str, flow: Flow) -> int:
    """How many requests with a period ask for a flow of a bus that comes only as an answer."""
    return len(requests.asking(ways.vehicle.on(bus), flow)) if flow.on_request else 0


def too_often(ways: Ways, forward: Forward) -> str:
    """Why a flow that is sent on directly has more messages than its plan says."""
    heard, sent = ways.inputs(forward)[0], ways.outputs(forward)[0]
    if sent.on_request and not heard.on_request:
        return f"{shown(forward.sent.bus, sent)} answers requests alone, and what it sends on comes unasked: mode = \"periodic\" keeps the newest for an answer"
    several = askers(ways, forward.heard.bus, heard)
    if sent.period is not None and several > max(1, askers(ways, forward.sent.bus, sent)):
        return f"{several} messages of {shown(forward.heard.bus, heard)} may come at once, as answers: mode = \"periodic\" keeps the newest"
    return (f"{shown(forward.sent.bus, sent)} has {pace(sent, 'period')}, and what it sends on, {shown(forward.heard.bus, heard)} has "
            f"{pace(heard, 'period')}: give the first no greater one, or mode = \"periodic\"")


def too_late(ways: Ways, forward: Forward, queued: int | None) -> Hint:
    """Why a flow that is sent on directly is queued later than its plan says."""
    sent = ways.outputs(forward)[0]
    if queued is not None:
        least = -(-queued // 1000)
        has = f"{shown(forward.sent.bus, sent)} has a jitter of {sent.jitter} ms, and wants one of at least {least}"
        if sent.period is None or least < sent.period:
            return "mode", has
        return "mode", f"{has}, which its period of {sent.period} ms doesn't allow: mode = \"periodic\" has no such bound"
    if forward.within is None:
        return "within", f"it isn't there: how long {forward.gateway} takes isn't known, and so not by how much {shown(forward.sent.bus, sent)[:-1]}, is late"
    heard = ways.inputs(forward)[0]
    return "group", f"when {shown(forward.heard.bus, heard)} ends isn't known: load of its plan shows no bound, or the plan has no timing"


def unbounded(ways: Ways, forward: Forward, bus: str, heard: Flow) -> str:
    """Why it isn't known when a flow comes that a forward sends on, maybe over others."""
    without = next((one for one in ways.feeding(bus, heard) if one.is_direct and not ways.inputs(one)), None)
    if without is not None:
        return f"forward {without.number} at line {ways.vehicle.source.line(without.place)}, which feeds {shown(bus, heard)} has no input"
    slow = next((one for one in dict.fromkeys((forward.heard.bus, bus)) if ways.vehicle.on(one).timing is None), None)
    if slow is not None:
        return f"the plan of bus {slow} has no timing"
    return f"load of bus {bus} shows no bound for {shown(bus, heard)[:-1]}"


def too_rare(ways: Ways, forward: Forward) -> str:
    """Why a flow that is sent on directly is silent for longer than its plan says."""
    sent = ways.outputs(forward)[0]
    bus, heard = ways.handed_on(forward.heard.bus, ways.inputs(forward)[0])
    if sent.pause is not None and heard.pause is not None and heard.pause <= sent.pause:
        return f"{shown(forward.sent.bus, sent)} isn't shown to keep its pause of {sent.pause} ms: {unbounded(ways, forward, bus, heard)}"
    return (f"{shown(forward.sent.bus, sent)} has {pace(sent, 'pause')}, and what it sends on, {shown(bus, heard)} has {pace(heard, 'pause')}: "
            "give the first no smaller one, or none")


def shared_queue(ways: Ways, gateway: str, bus: str) -> str:
    """Which units of a gateway may share a queue."""
    units = ways.vehicle.gateway(gateway).units_on(bus)
    told = {unit.label: unit for unit in ways.vehicle.on(bus).units}
    some = listed([label for label in units if told[label].queue == "any"])
    names = listed([str(OnBus(bus, label)) for label in units])
    return f"{names} are units of one device, and {some} has queue = \"any\": load takes each for a controller with a queue of its own"
