"""What is tried against findings about groups and the places of their signals and texts: F4 to F8, F14, F15 and F24."""

from __future__ import annotations

from collections.abc import Iterable, Iterator
from dataclasses import replace

from j39plan.j1939 import IDENTIFIERS, PROPRIETARY, pgn_in, without_destination
from j39plan.mend.attempts import Attempt, Mend, by_hand
from j39plan.mend.edits import setting
from j39plan.mend.judge import Draft
from j39plan.plan.answer_grammar import Line
from j39plan.plan.schema import Value, most_of
from j39plan.plan.tables import Group, Signal, Text

# The widths that a signal can have, and the kinds that one may have rather than its own, which has no such width.
WIDTHS, KINDS = range(1, 33), ("discrete", "states", "measured", "raw")

# So many free places are tried, the nearest first.
NEAREST = 16

SAYS = "compare it with the group's table"


def group_of(draft: Draft, line: Line) -> Group:
    """The group that a finding names."""
    return next(group for group in draft.tables.groups if group.label == line.word("group"))


def signal_of(group: Group, label: str) -> Signal:
    """A signal of a group."""
    return next(signal for signal in group.signals if signal.label == label)


def mend_of(group: Group, **values: Value) -> Mend:
    """A change of keys of a group."""
    return Mend(f"group {group.label}", ", ".join(f"{key} = {str(value).lower()}" for key, value in values.items()), setting(group.place, **values), SAYS)


def lengths(group: Group, end: int) -> list[Mend]:
    """That the shortest messages of a group have so many bytes."""
    most = {"most": max(group.most, end)} if group.most != group.length else {}
    return [mend_of(group, length=end, **most)] if end <= most_of("group", "length") else []


def wrong_number(draft: Draft, line: Line) -> Iterator[Attempt]:
    """A number can't be planned, or not so (F4)."""
    group = group_of(draft, line)
    numbers = [without_destination(group.pgn)] + ([pgn_in(group.pgn)] if 1 << 18 <= group.pgn < IDENTIFIERS else [])
    yield Attempt("the number without a destination's address", [mend_of(group, pgn=number) for number in numbers if number != group.pgn])
    yield Attempt(f"private = {str(not group.private).lower()}", [mend_of(group, private=group.pgn in PROPRIETARY)])


def wrong_width(draft: Draft, line: Line) -> Iterator[Attempt]:
    """The width doesn't fit the kind (F6)."""
    group = group_of(draft, line)
    signal = signal_of(group, line.word("signal"))
    where = f"signal {group.label}.{signal.label}"
    if signal.kind == "dtc":
        yield Attempt("bit = 1", [Mend(where, "bit = 1", setting(signal.place, bit=1), SAYS)])
    widths = sorted(WIDTHS, key=lambda width: abs(width - signal.bits))
    yield Attempt("a width of its kind", (Mend(where, f"bits = {width}", setting(signal.place, bits=width), SAYS) for width in widths))
    yield Attempt("a kind of its width", (
        Mend(where, f'kind = "{kind}"', setting(signal.place, kind=kind), "all its raw numbers are values then" if kind == "raw" else SAYS) for kind in KINDS))


def taken(group: Group, without: Signal) -> set[int]:
    """The bits of a group's data that its other signals have, those of its selector too."""
    bits = {bit for signal in group.signals if signal is not without for bit in signal.span}
    return bits | set(group.when.span if group.when else ())


def places_for(group: Group, signal: Signal) -> list[Mend]:
    """Free places of a signal, the nearest first: one of whole bytes begins at a byte, a narrower one lies in one."""
    room, others = 8 * (group.most if signal.optional else group.length), taken(group, signal)
    step = 8 if signal.bits >= 8 else 1
    starts = (start for start in range(0, room - signal.bits + 1, step)
              if not others.intersection(range(start, start + signal.bits)) and (step == 8 or start % 8 + signal.bits <= 8))
    order = sorted(starts, key=lambda start: (start % 8 != signal.span.start % 8, abs(start - signal.span.start), start))
    return [Mend(f"signal {group.label}.{signal.label}", f"byte = {start // 8 + 1}" + (f", bit = {start % 8 + 1}" if start % 8 != signal.bit - 1 else ""),
                 setting(signal.place, byte=start // 8 + 1, **({"bit": start % 8 + 1} if start % 8 != signal.bit - 1 else {})), SAYS)
            for start in order[:NEAREST] if start != signal.span.start]


def outside(draft: Draft, line: Line) -> Iterator[Attempt]:
    """A signal ends after the messages of its group (F7)."""
    group = group_of(draft, line)
    signal = signal_of(group, line.word("signal"))
    end = -(-line.number("end") // 8)
    yield Attempt(f"a free place of {signal.label}", places_for(group, signal))
    if end <= group.most and not signal.repeated:
        yield Attempt("optional = true", [Mend(f"signal {group.label}.{signal.label}", "optional = true", setting(signal.place, optional=True),
                                               "only the longer messages have it")])
    yield Attempt(f"length of {group.label}", [mend_of(group, most=end)] if signal.optional else lengths(group, end))


def overlap(draft: Draft, line: Line) -> Iterator[Attempt]:
    """Two signals share a bit (F8)."""
    group = group_of(draft, line)
    for label in (line.word("other"), line.word("signal")):
        signal = signal_of(group, label)
        yield Attempt(f"a free place of {label}", places_for(group, signal))
    for label in (line.word("signal"), line.word("other")):
        signal = signal_of(group, label)
        begins = sorted(start for other in group.signals if other is not signal and (start := other.span.start) > signal.span.start)
        width = begins[0] - signal.span.start if begins else 0
        yield Attempt(f"fewer bits of {label}", [Mend(f"signal {group.label}.{label}", f"bits = {width}", setting(signal.place, bits=width), SAYS)]
                      if 0 < width < signal.bits else [])


def same_number(draft: Draft, line: Line) -> Iterator[Attempt]:
    """Two groups of one number can't be told apart (F5)."""
    groups = {group.label: group for group in draft.tables.groups}
    some = [groups[line.word("group")], groups[line.word("other")]]
    first, second = some[0].when, some[1].when
    if first and second:
        used = {other.when.value for other in groups.values() if other.pgn == some[1].pgn and other is not some[1] and other.when}
        numbers = [number for number in (second.value, *range(len(used) + 1)) if number not in used and number < 1 << first.bits]
        yield Attempt("when of the same bits, with another value", [
            Mend(f"group {some[1].label}", f"when = {first.byte}.{first.bit}, {first.bits} bits, value {number}",
                 setting((*some[1].place, "when"), **{key: value for key, value in vars(replace(first, value=number)).items() if value != getattr(second, key)}),
                 SAYS) for number in numbers])
    yield Attempt("private = true of both, each sent by its own maker's units", [
        Mend("2 groups", "private = true", setting(some[0].place, private=True) + setting(some[1].place, private=True))]
        if some[0].pgn in PROPRIETARY and not all(group.private for group in some) else [])
    yield by_hand("one group with the signals of both")


def later_record(draft: Draft, line: Line) -> Iterator[Attempt]:
    """A later record shares a bit with another signal (F14)."""
    group = group_of(draft, line)
    ends = [signal.span.stop for signal in group.signals if signal.repeated]
    starts = [signal.span.start // 8 for signal in group.signals if signal.repeated]
    size = -(-max(ends) // 8) - min(starts)
    yield Attempt("records further apart", [mend_of(group, every=every) for every in range(max(size, (group.every or 1) + 1), size + 8)])
    for label in dict.fromkeys((line.word("other"), line.word("signal"))):
        signal = signal_of(group, label)
        if not signal.repeated:
            yield Attempt(f"a free place of {label}", places_for(group, signal))


def text_outside(draft: Draft, line: Line) -> Iterator[Attempt]:
    """A text ends after its group's longest messages, or begins too far after its shortest (F15)."""
    group = group_of(draft, line)
    text = next(text for text in group.texts if text.label == line.word("text"))
    yield Attempt("another first byte", of_text(group, text, (("byte", byte) for byte in range(text.byte - 1, 0, -1))))
    if text.bytes is not None:
        yield Attempt("fewer bytes", of_text(group, text, (("bytes", count) for count in range(text.bytes - 1, 0, -1))))
    end = line.number("end")
    yield Attempt(f"length of {group.label}", [mend_of(group, most=end), *lengths(group, end), *lengths(group, text.byte - 1)])


def of_text(group: Group, text: Text, values: Iterable[tuple[str, int]]) -> Iterator[Mend]:
    """Changes of a key of a text."""
    return (Mend(f"text {group.label}.{text.label}", f"{key} = {value}", setting(text.place, **{key: value}), SAYS) for key, value in values)


def selector_outside(draft: Draft, line: Line) -> Iterator[Attempt]:
    """The bits of a selector end after the shortest messages (F24)."""
    group = group_of(draft, line)
    assert group.when is not None
    last = group.length - (group.when.bit - 1 + group.when.bits - 1) // 8
    yield Attempt("another byte of when", [Mend(f"group {group.label}", f"when.byte = {last}", setting((*group.place, "when"), byte=last), SAYS)]
                  if 0 < last < group.when.byte else [])
    yield Attempt(f"length of {group.label}", lengths(group, -(-line.number("end") // 8)))


ATTEMPTS = {"F4": wrong_number, "F5": same_number, "F6": wrong_width, "F7": outside, "F8": overlap, "F14": later_record, "F15": text_outside,
            "F24": selector_outside}
