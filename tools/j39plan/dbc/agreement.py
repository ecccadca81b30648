"""What several files say of one signal: each takes from the others what its own file doesn't say, and what they say otherwise is noted.

A file that has no table of values, no range or no number for a signal contradicts nothing, whatever the order of the files is.
"""

from __future__ import annotations

from collections.abc import Callable, Hashable, Iterable
from dataclasses import dataclass, field
from typing import TYPE_CHECKING

from j39plan.dbc.names import CONTENT_ATTRIBUTE, KIND_ATTRIBUTE, SPN_ATTRIBUTE
from j39plan.dbc.signals import Said, kind_of
from j39plan.j1939 import PROPRIETARY
from j39plan.left_out import Notes, plain

if TYPE_CHECKING:
    import canmatrix

    from j39plan.dbc.merge import BusFrame

# The attributes of a signal that its kind and its key `spn` are made of, and what each is called in notes.
ATTRIBUTES = {SPN_ATTRIBUTE: "SPN", CONTENT_ATTRIBUTE: CONTENT_ATTRIBUTE, KIND_ATTRIBUTE: KIND_ATTRIBUTE}


@dataclass
class Facts:
    """What files say of a signal beside its place and its scale, each with the message that says it first."""

    kind: str = ""
    names: dict[int, tuple[str, str]] = field(default_factory=dict)
    range: tuple[object, object, str] | None = None
    attributes: dict[str, tuple[object, str]] = field(default_factory=dict)


def message_key(sent: BusFrame) -> Hashable:
    """What messages of one group have in common; makers' own groups are told by identifier and name."""
    frame = sent.frame
    if frame.arbitration_id.pgn in PROPRIETARY:
        return sent.told_by, frame.arbitration_id.id, frame.name
    return sent.told_by


def signal_key(sent: BusFrame, signal: canmatrix.Signal) -> Hashable:
    """What the same signals have in common: their group, place, scale and unit of measurement."""
    return message_key(sent), Said.of(signal, "")


def has_range(signal: canmatrix.Signal) -> bool:
    """Whether a file says a range of a signal."""
    return None not in (signal.min, signal.max) and signal.min != signal.max


class Agreement:
    """What files agree on. The earlier one counts where they don't, and that is noted."""

    def __init__(self, version: int, message_of: Callable[[BusFrame], str], notes: Notes) -> None:
        self._facts: dict[Hashable, Facts] = {}
        self._version, self._message_of, self._notes = version, message_of, notes

    def take(self, sent: BusFrame, signal: canmatrix.Signal) -> None:
        """Takes what is said of a signal; what is known otherwise is noted."""
        facts, message = self._facts.setdefault(signal_key(sent, signal), Facts()), self._message_of(sent)
        self._notes.file, self._notes.are_new = sent.file, True
        kind = kind_of(signal, self._version, sent.frame.arbitration_id.pgn in PROPRIETARY)
        whys = [*self._names(facts, signal, kind, message), *self._range(facts, signal, message), *self._attributes(facts, signal, message)]
        for why in whys:
            self._notes.say(f"signal {signal.name} of {sent.frame.name}", why)
        self._notes.file, self._notes.are_new = "", False

    @staticmethod
    def _names(facts: Facts, signal: canmatrix.Signal, kind: str, message: str) -> list[str]:
        """Takes the names of raw numbers, unless by them the signal is of another kind than by those that are known."""
        if signal.values and facts.names and facts.kind != kind:
            return [f"it has another table of values, by which it is {kind}; the plan has that of {next(iter(facts.names.values()))[1]}"]
        facts.kind = kind if signal.values else facts.kind
        others: dict[str, list[str]] = {}
        for raw, name in (signal.values or {}).items():
            known, by = facts.names.setdefault(raw, (str(name), message))
            if known != str(name):
                others.setdefault(by, []).append(f'{raw} is "{plain(name)}", there "{plain(known)}"')
        return [f"it has another table of values; the plan has that of {by}: {', '.join(told)}" for by, told in others.items()]

    @staticmethod
    def _range(facts: Facts, signal: canmatrix.Signal, message: str) -> list[str]:
        """Takes the range."""
        if not has_range(signal):
            return []
        facts.range = facts.range or (signal.min, signal.max, message)
        least, most, by = facts.range
        return [f"its range is {signal.min}..{signal.max}, and {least}..{most} in {by}, as in the plan"] if (least, most) != (signal.min, signal.max) else []

    @staticmethod
    def _attributes(facts: Facts, signal: canmatrix.Signal, message: str) -> list[str]:
        """Takes the attributes."""
        whys = []
        for attribute, called in ATTRIBUTES.items():
            given = signal.attributes.get(attribute)
            if given is None:
                continue
            known, by = facts.attributes.setdefault(attribute, (given, message))
            if str(known) != str(given):
                whys.append(f"its {called} is {given}, and {known} in {by}, as in the plan")
        return whys

    def give(self, sent: BusFrame, signal: canmatrix.Signal) -> None:
        """Gives a signal what is known of it."""
        facts = self._facts[signal_key(sent, signal)]
        signal.values = {raw: name for raw, (name, _) in facts.names.items()}
        if facts.range:
            signal.min, signal.max, _ = facts.range
        signal.attributes = {**signal.attributes, **{attribute: given for attribute, (given, _) in facts.attributes.items()}}


def agree(sent: Iterable[BusFrame], version: int, message_of: Callable[[BusFrame], str], notes: Notes) -> None:
    """Has the signals of messages agree on what their files say of them, in a plan of this version."""
    parts = [(one, signal) for one in sent if one.frame.arbitration_id.extended for signal in one.frame.signals]
    agreement = Agreement(version, message_of, notes)
    for one, signal in parts:
        agreement.take(one, signal)
    for one, signal in parts:
        agreement.give(one, signal)
