"""What is to be known of the groups and signals of a forward: why what is sent isn't what was heard."""

from __future__ import annotations

from collections.abc import Iterator
from fractions import Fraction

from j39plan.plan.hints.groups import wrong_width
from j39plan.plan.tables import Group, Signal
from j39plan.vehicle.tables import SignalForward, Forward
from j39plan.vehicle.ways import Ways, agreeing, signal_of

# Kinds of which each raw number is a value.
ALWAYS = ("raw", "signed")

# Which widths the kinds can have.
WIDTHS = {"measured": (8, 16, 32), "discrete": (2,), "raw": range(1, 33), "states": range(2, 9), "signed": range(2, 33), "dtc": (32,)}


def layout(heard: Group, sent: Group, names: tuple[str, str]) -> str:
    """Why a group can't be copied into another one, by their lengths, selectors and records, with these names of both; empty where it can."""
    one, other = names
    why = []
    if sent.length > heard.length:
        why.append(f"{other} has at least {sent.length} bytes, and {one} {heard.length}")
    if sent.most < heard.most:
        why.append(f"{other} has at most {sent.most} bytes, and {one} {heard.most}")
    if sent.when is not None and sent.when != heard.when:
        why.append(f"{other} has a key when, and {one} {'another one' if heard.when else 'none'}")
    if sent.every != heard.every and any(signal.repeated for signal in sent.signals):
        records = f"records {heard.every} bytes apart" if heard.every else "no records"
        why.append(f"{other} has records {sent.every} bytes apart, and {one} {records}")
    return "; ".join(why)


def place(signal: Signal) -> str:
    """Where a signal lies."""
    return f"at byte {signal.byte}, bit {signal.bit}, with {signal.bits} bits"


def scale(signal: Signal) -> str:
    """How a signal is read, but for its unit of measurement."""
    words = [signal.kind, *(f"{key} {getattr(signal, key)}" for key, usual in (("step", 1), ("per", 1), ("offset", 0)) if getattr(signal, key) != usual)]
    return ", ".join([*words, *(["repeated"] if signal.repeated else [])])


def unlike(heard: Signal, sent: Signal) -> str:
    """Why two signals mean other things, empty where they don't."""
    if heard.unit and sent.unit and heard.unit != sent.unit:
        return f'its unit is "{sent.unit}", and that of {heard.label} "{heard.unit}"'
    if None not in (heard.spn, sent.spn) and heard.spn != sent.spn:
        return f"its spn is {sent.spn}, and that of {heard.label} {heard.spn}"
    if (heard.kind == "dtc") != (sent.kind == "dtc"):
        return f"{sent.label if sent.kind == 'dtc' else heard.label} is a dtc, and {heard.label if sent.kind == 'dtc' else sent.label} none"
    return ""


def raw_values(signal: Signal) -> range:
    """The raw numbers that are values, those of negative values below 0."""
    if signal.kind == "signed":
        return range(-(1 << signal.bits - 1), 1 << signal.bits - 1)
    counts = {"measured": 251 << max(signal.bits - 8, 0), "discrete": 2, "states": (1 << signal.bits) - 2, "dtc": (1 << signal.bits) - 1}
    return range(counts.get(signal.kind, 1 << signal.bits))


def ends(signal: Signal) -> tuple[Fraction, Fraction]:
    """The first and the last value of a signal."""
    raw = raw_values(signal)
    return signal.value(raw[0]), signal.value(raw[-1])


def decimal(value: Fraction) -> str:
    """A value, as exactly as ten digits show it."""
    return str(value.numerator) if value.denominator == 1 else f"{float(value):.10g}"


def not_held(heard: Signal, sent: Signal) -> str:
    """Why a signal doesn't have each value of another one, empty where it has."""
    wide = next((signal for signal in (heard, sent) if signal.bits not in WIDTHS[signal.kind]), None)
    if wide is not None:
        return f"{wide.label} has {wide.bits} bits: {wrong_width(wide)[1]}"
    (first, last), (least, most) = ends(heard), ends(sent)
    if first < least or last > most:
        return f"{heard.label} goes from {decimal(first)} to {decimal(last)}, and {sent.label} from {decimal(least)} to {decimal(most)}"
    steps = [Fraction(signal.step, signal.per) for signal in (heard, sent)]
    off = (first - sent.value(0)) / steps[1]
    if (steps[0] / steps[1]).denominator != 1 or off.denominator != 1:
        return f"{heard.label} goes from {decimal(first)} by {decimal(steps[0])}, and {sent.label} from {decimal(least)} by {decimal(steps[1])}"
    if sent.kind in ALWAYS and (heard.kind not in ALWAYS or heard.optional):
        return f"each number of {sent.label}, which is {sent.kind}, is a value, and {heard.label} may have none"
    return ""


def of_copy(heard: Group, sent: Signal) -> str:
    """Why a signal of a copy isn't what was heard, empty where it is."""
    same = agreeing(heard, sent)
    if same is not None:
        return unlike(same, sent)
    named = next((signal for signal in heard.signals if signal.label == sent.label), None)
    if named is None:
        return f"no signal of {heard.label} is {place(sent)}, {scale(sent)}"
    if named.span != sent.span:
        return f"it is {place(sent)}, and in what is heard {place(named)}"
    return f"it is {scale(sent)}, and in what is heard {scale(named)}"


def carried_into(ways: Ways, forward: Forward, sent: Signal) -> Iterator[tuple[SignalForward, str]]:
    """The signals that go into one, and why each can't stand there."""
    when = ways.group(forward.sent).when
    for carried in forward.signals or ():
        if carried.into != sent.label:
            continue
        heard = signal_of(ways.group(forward.heard), carried.label)
        held = not_held(heard, sent) if carried.exact else ""
        if why := unlike(heard, sent):
            yield carried, why
        elif held:
            yield carried, f"{held}: exact = false lets the nearest value stand there"
        elif when is not None and set(when.span) & set(sent.span):
            yield carried, f"{sent.label} has a bit of the key when of {forward.sent}"
