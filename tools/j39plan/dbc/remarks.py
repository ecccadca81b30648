"""What stands as a comment behind the first key of a table, for what a plan has no key for: dbc2plan.py writes it, plan2dbc.py reads it.

Such a comment is a list of items: a name, where the label is another, and facts, as `SPN 190, "Actual engine speed", 0 = "off"`."""

from __future__ import annotations

import re
from collections.abc import Iterable
from dataclasses import dataclass, field

from j39plan.left_out import plain
from j39plan.plan.text import Labels

# A text between quotation marks, in which these and backslashes stand behind a backslash.
QUOTED = r'"((?:[^"\\]|\\.)*)"'
ITEM = re.compile(
    r"SPN (?P<spn>\d+)|(?P<ms>\d+) ms|(?P<bytes>\d+) bytes|sent (?P<sent>[^,;\"\s]+)|range (?P<least>[^\s,;]+?)\.\.(?P<greatest>[^\s,;]+)"
    r"|(?P<always>in each message)|for (?P<receivers>\w+(?: \w+)*)|message (?P<message>[^,;\"\s]+)|to address (?P<address>\d+)"
    rf"|named {QUOTED.replace('(', '(?P<named>', 1)}|(?P<raw>-?\d+) = {QUOTED.replace('(', '(?P<value>', 1)}|{QUOTED.replace('(', '(?P<comment>', 1)}|(?P<name>[^,;\"]+)")
SEPARATOR = re.compile(r"\s*[,;]\s*")

# What stands beside a signal that is in each message, whatever its multiplexor is.
ALWAYS = "in each message"

# Who receives what nobody in the plan does.
NONE = "nobody"


@dataclass
class Remark:
    """What a comment says: names, the number of the parameter, by what and how often it is sent, in ms, how many bytes its messages have,
    its range, whether it is in each multiplexed message, the labels of those that receive it, names of messages, the destination that no unit has, names of raw numbers, and comments."""

    names: list[str] = field(default_factory=list)
    spn: str = ""
    sent: str = ""
    cycle: str = ""
    bytes: int | None = None
    range: tuple[str, str] | None = None
    is_always: bool = False
    receivers: list[str] | None = None
    messages: list[str] = field(default_factory=list)
    address: int | None = None
    values: dict[int, str] = field(default_factory=dict)
    comments: list[str] = field(default_factory=list)


def told_name(name: str) -> str:
    """A name as a remark: between quotation marks where it could be read as something else."""
    found = ITEM.fullmatch(name)
    return name if not name or (found and found["name"]) else f"named {in_quotes(name)}"


def remark(name: str, label: str, *facts: str) -> list[str]:
    """What is kept of a thing beside its keys, if there is anything: its name where its label is another, and facts of it."""
    kept = [fact for fact in (told_name(plain(name)) if name != label else "", *facts) if fact]
    return [", ".join(kept)] if kept else []


def in_quotes(text: str) -> str:
    """A text on one line between quotation marks."""
    return '"' + plain(text).replace("\\", "\\\\").replace('"', '\\"') + '"'


def quoted(text: str | None) -> str:
    """A text of the file as a remark, if there is one."""
    return in_quotes(text) if text and not text.isspace() else ""


def milliseconds(cycle_time: int | None) -> str:
    """A cycle time as a remark, if there is one."""
    return f"{cycle_time} ms" if cycle_time else ""


def named_values(values: Iterable[tuple[int, str]]) -> list[str]:
    """Names of raw numbers as remarks."""
    return [f"{raw} = {in_quotes(name)}" for raw, name in sorted(values)]


def long(size: int) -> str:
    """How many bytes a message has, as a remark."""
    return f"{size} bytes"


def received_by(labels: Iterable[str]) -> str:
    """Who receives something, as a remark."""
    return f"for {' '.join(labels) or NONE}"


def _unquoted(text: str) -> str:
    return re.sub(r"\\(.)", r"\1", text)


def _take(found: re.Match[str], told: Remark) -> None:
    """Takes an item."""
    part = found.groupdict()
    told.spn = part["spn"] or told.spn
    told.sent = part["sent"] or told.sent
    told.cycle = part["ms"] or told.cycle
    if part["bytes"]:
        told.bytes = max(int(part["bytes"]), told.bytes or 0)
    if part["least"]:
        told.range = part["least"], part["greatest"]
    told.is_always = told.is_always or bool(part["always"])
    if part["receivers"]:
        told.receivers = part["receivers"].split() if part["receivers"] != NONE else []
    if part["address"]:
        told.address = int(part["address"])
    if part["raw"]:
        told.values[int(part["raw"])] = _unquoted(part["value"])
    told.messages += [part["message"]] if part["message"] else []
    told.comments += [_unquoted(part["comment"])] if part["comment"] is not None else []
    told.names += [part["name"].strip()] if part["name"] else []
    told.names += [_unquoted(part["named"])] if part["named"] else []


def is_label_of(label: str, name: str) -> bool:
    """Whether a name is one of which this label was made, maybe with a number behind it."""
    whole, found = Labels().label(name), re.fullmatch(r"(.*)_(\d+)", label)
    return whole == label or (found is not None and found[1] == whole[:31 - len(found[2])])


def read(text: str, label: str) -> Remark:
    """What a comment behind a label says. One that isn't such a list is a comment as a whole."""
    told, at = Remark(), 0
    while at < len(text):
        found = ITEM.match(text, at)
        behind = SEPARATOR.match(text, found.end()) if found else None
        if found is None or (behind is None and found.end() < len(text)):
            return Remark(comments=[text])
        _take(found, told)
        at = behind.end() if behind else len(text)
    if any(not is_label_of(label, name) for name in told.names):
        return Remark(comments=[text])
    return told
