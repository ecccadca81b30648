"""The bytes of messages: of signals that are given a value, constant, in a ramp or by a table; of messages of a log; and for the rest 'not available'."""

from __future__ import annotations

import bisect
import csv
import re
from collections.abc import Callable, Iterable
from fractions import Fraction
from typing import NamedTuple

from j39plan.plan.tables import Group, Signal, Tables

# A value of a signal at a time in seconds since the begin.
Course = Callable[[float], Fraction]

# Who sends which group.
Way = tuple[str, str]


class Wrong(Exception):
    """What is asked of a signal can't be."""


class Recording(NamedTuple):
    """The messages of a group by a unit in a log: when each came, in seconds, and its bytes."""

    times: list[float]
    data: list[bytes]

    def at(self, time: float) -> bytes:
        """The last one that came until a time, else the first one."""
        return self.data[max(bisect.bisect_right(self.times, time) - 1, 0)]


def raw_of(signal: Signal, value: Fraction) -> int:
    """The raw number of a value: the nearest one, which has to be a value of the signal's kind."""
    raw = round((value * signal.per - signal.offset) / signal.step)
    least, most = (-(1 << signal.bits - 1), (1 << signal.bits - 1) - 1) if signal.kind == "signed" else (0, greatest(signal))
    if not least <= raw <= most:
        raise Wrong(f"{signal.label} goes from {float(signal.value(least)):g} to {float(signal.value(most)):g} {signal.unit}".rstrip())
    return raw & (1 << signal.bits) - 1


def greatest(signal: Signal) -> int:
    """The greatest raw number that is a value (the ranges of SAE J1939-71)."""
    if signal.kind == "measured":
        return (0xFB << signal.bits - 8) - 1
    return (1 << signal.bits) - 1 - {"discrete": 2, "states": 2, "dtc": 1}.get(signal.kind, 0)


def value_of(signal: Signal, text: str) -> Fraction:
    """A value of a signal: a number, or the name of one."""
    named = [value for value, name in signal.named_values().items() if name == text]
    if named:
        return named[0]
    try:
        return Fraction(text)
    except (ValueError, ZeroDivisionError):
        raise Wrong(f"{text} is no number and no name of a value of {signal.label}") from None


class Values:
    """The bytes of each message."""

    def __init__(self, tables: Tables) -> None:
        self._groups = {group.label: group for group in tables.groups}
        self._courses: dict[str, list[tuple[Signal, Course]]] = {}
        self._recorded: dict[Way, Recording] = {}

    def signal(self, name: str) -> tuple[str, Signal]:
        """The signal of a name GROUP.SIGNAL, or SIGNAL where one group alone has it, with its group's label."""
        label, _, inner = name.rpartition(".")
        found = [(group.label, signal) for group in self._groups.values() for signal in group.signals
                 if signal.label == inner and label in ("", group.label) and not signal.repeated]
        if len(found) != 1:
            raise Wrong(f"{name}: {'no signal is called so' if not found else 'several groups have it: write GROUP.SIGNAL'}")
        return found[0]

    def _add(self, name: str, course: Callable[[Signal], Course]) -> None:
        """Gives a signal a course; that it can't have it is said at once."""
        label, signal = self.signal(name)
        made = course(signal)
        raw_of(signal, made(0.0))
        self._courses.setdefault(label, []).append((signal, made))

    def constant(self, text: str) -> None:
        """A signal has a value, by `GROUP.SIGNAL=VALUE`."""
        name, _, value = text.partition("=")

        def course(signal: Signal) -> Course:
            number = value_of(signal, value)
            return lambda time: number

        self._add(name, course)

    def ramp(self, text: str) -> None:
        """A signal goes from a value to another one in some seconds and begins anew, by `GROUP.SIGNAL=FROM:TO:SECONDS`."""
        found = re.fullmatch(r"([^=]+)=([^:]+):([^:]+):(\d+(?:\.\d+)?)", text)
        if found is None or not float(found[4]):
            raise Wrong(f"{text} is no ramp, as EEC1.SPN190=800:2000:10")
        duration, ends = float(found[4]), found.group(2, 3)

        def course(signal: Signal) -> Course:
            first, last = (value_of(signal, part) for part in ends)
            raw_of(signal, last)
            return lambda time: first + (last - first) * Fraction(time % duration) / Fraction(duration)

        self._add(found[1], course)

    def table(self, lines: Iterable[str]) -> None:
        """Signals have the values of a table from the times of its rows on: its first column is the time in seconds, the others are named for signals.
        An empty cell leaves the value of before."""
        rows = csv.reader(lines)
        heads: list[str] = next(rows, [])
        columns: list[tuple[list[float], list[Fraction]]] = [([], []) for _ in heads[1:]]
        signals = [self.signal(head.strip())[1] for head in heads[1:]]
        for number, row in enumerate(rows, 2):
            for cell, signal, (times, values) in zip(row[1:], signals, columns):
                if cell.strip():
                    value = value_of(signal, cell.strip())
                    try:
                        raw_of(signal, value)
                        times.append(float(row[0]))
                    except (Wrong, ValueError) as why:
                        raise Wrong(f"row {number}: {why}") from None
                    values.append(value)
        for head, (times, values) in zip(heads[1:], columns):
            if times:
                self._add(head.strip(), stepped(times, values))

    def record(self, way: Way, time: float, data: bytes) -> None:
        """A message of a log, so many seconds after its begin."""
        recorded = self._recorded.setdefault(way, Recording([], []))
        recorded.times.append(time)
        recorded.data.append(data)

    def data(self, label: str, sender: str, time: float) -> bytes:
        """The bytes of a message of a group by a unit. Without anything else they are the shortest that it has, and 'not available'."""
        group = self._groups[label]
        recorded = self._recorded.get((label, sender))
        length = group.length if recorded is None else len(recorded.at(time))
        number = (1 << 8 * length) - 1 if recorded is None else int.from_bytes(recorded.at(time), "little")
        for signal, course in self._courses.get(label, ()):
            if signal.is_there(length):
                number = with_bits(number, signal.span, raw_of(signal, course(time)))
        if group.when:
            number = with_bits(number, group.when.span, group.when.value)
        return number.to_bytes(length, "little")

    def groups(self) -> dict[str, Group]:
        """The groups by their labels."""
        return self._groups


def stepped(times: list[float], values: list[Fraction]) -> Callable[[Signal], Course]:
    """Of any signal the value of the last time until now, else of the first one."""
    def course(_: Signal) -> Course:
        return lambda time: values[max(bisect.bisect_right(times, time) - 1, 0)]
    return course


def with_bits(number: int, span: range, raw: int) -> int:
    """A number of which these bits are others."""
    mask = (1 << len(span)) - 1 << span.start
    return number & ~mask | raw << span.start & mask
