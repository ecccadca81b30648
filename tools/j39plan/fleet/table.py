"""What the logs of a fleet have together: one table, as text or as plain values for JSON."""

from __future__ import annotations

import datetime
from collections.abc import Iterable, Iterator
from dataclasses import dataclass, replace
from typing import Any

from j39plan.fleet.drives import Deviation, Drive
from j39plan.fleet.signals import CodeOfUnit, Spread
from j39plan.fleet.vehicles import vehicles_of
from j39plan.log.checks.deviations import KINDS, is_duration
from j39plan.plan.tables import Flow, Tables, Unit
from j39plan.text_tables import aligned

# How many deviations and NAMEs the text has at most; JSON has all.
SHOWN = 20

# Times from here on are dates: those before are of clocks that count from their own start.
DATED = 10**9


@dataclass
class Kind:
    """A deviation as the fleet has it: its kind, what it is of, its flow and its unit, None where it is of none; by log how often it was met, and
    the worst of all logs, or the first where nothing is measured."""

    kind: str
    what: str
    flow: int | None
    unit: str | None
    times: dict[str, int]
    worst: Deviation
    log: str

    @property
    def total(self) -> int:
        """How often it was met in all logs."""
        return sum(self.times.values())

    def take(self, log: str, deviation: Deviation) -> None:
        """It was met in a log."""
        self.times[log] = self.times.get(log, 0) + deviation.times
        measure = KINDS[self.kind]
        if measure and deviation.value is not None and (self.worst.value is None or measure.is_worse(deviation.value, self.worst.value)):
            self.worst, self.log = deviation, log

    @property
    def place(self) -> str:
        """Where it was worst."""
        return f"{self.log}:{self.worst.line}" if self.worst.line else self.log


def flow_name(number: int, flow: Flow) -> str:
    """A flow by its number and what it is."""
    return f"{number} {flow.group} from {flow.sender} to {flow.to}"


class Fleet:
    """The logs of a fleet, in the order in which they were named."""

    def __init__(self, tables: Tables, drives: list[Drive]) -> None:
        self.tables = tables
        self.drives = [drive for drive in drives if not drive["failed"]]
        self.failed = [drive for drive in drives if drive["failed"]]
        self.vehicles = vehicles_of(self.drives, tables)
        self.kinds = self._kinds()

    def _kinds(self) -> list[Kind]:
        """The deviations of all logs, the most frequent first."""
        found: dict[tuple[str, str], Kind] = {}
        for drive in self.drives:
            for one in drive["deviations"]:
                kind = found.setdefault((one.kind, one.what), Kind(one.kind, one.what, one.flow, one.unit, {}, one, drive["log"]))
                kind.take(drive["log"], one)
        return sorted(found.values(), key=lambda kind: (-len(kind.times), -kind.total))

    def logs(self) -> Iterator[dict[str, Any]]:
        """A row a log: when it begins and ends, and how long it is, in seconds, what was on the bus, the number of its vehicle, and by units the serial numbers of the
        boxes that claimed."""
        for drive in self.drives:
            whole = {key: drive["whole"].get(key) for key in ("begin", "end", "duration", "mean", "worst", "worst_second")}
            yield {"log": drive["log"], "vehicle": self.vehicles[drive["log"]], **whole, **drive["counts"], "deviations": len(drive["deviations"]),
                   "identities": self._numbers(drive), "notes": drive["notes"]}

    def _numbers(self, drive: Drive) -> dict[str, list[int]]:
        """By units, in the order of the plan, the serial numbers of the boxes that claimed in a log."""
        claims = drive["claims"]
        return {unit.label: claims[unit.label].numbers for unit in self.tables.units if unit.label in claims}

    def deviations(self) -> Iterator[dict[str, Any]]:
        """A row a deviation and log."""
        places = {kind: at for at, kind in enumerate((kind.kind, kind.what) for kind in self.kinds)}
        rows = [(places[one.kind, one.what], drive["log"], one) for drive in self.drives for one in drive["deviations"]]
        for _, log, one in sorted(rows, key=lambda row: row[0]):
            yield {"log": log, **one._asdict()}

    def worst(self) -> Iterator[dict[str, Any]]:
        """A row a deviation: in how many logs and vehicles, how often, and the worst with log, line and time."""
        for kind in self.kinds:
            yield {"kind": kind.kind, "what": kind.what, "flow": kind.flow, "unit": kind.unit, "logs": len(kind.times),
                   "vehicles": len({self.vehicles[log] for log in kind.times}), "times": kind.total, "value": kind.worst.value, "log": kind.log,
                   "line": kind.worst.line, "time": kind.worst.time}

    def flows(self) -> Iterator[dict[str, Any]]:
        """A row a flow: how often it was sent, in how many logs, its deviations, and its longest silence in any log."""
        for number, flow in enumerate(self.tables.flows, 1):
            silences = [(silence.seconds, drive["log"], silence.line) for drive in self.drives
                        for silence in [drive["silences"].get(number)] if silence]
            longest = max(silences, key=lambda silence: silence[0], default=None)
            yield {
                "flow": number, "group": flow.group, "from": flow.sender, "to": flow.to,
                "sent": sum(drive["sent"].get(number, 0) for drive in self.drives),
                "logs": sum(drive["sent"].get(number, 0) > 0 for drive in self.drives),
                "deviations": sum(kind.flow == number for kind in self.kinds),
                "silence": longest[0] if longest else None, "silence_log": longest[1] if longest else None,
                "silence_line": longest[2] if longest else None,
            }

    def needs(self) -> Iterator[dict[str, Any]]:
        """A row a need: how often it was met, by the flows that meet it, and in how many logs."""
        for number, need in enumerate(self.tables.needs, 1):
            flows = [at for at, flow in enumerate(self.tables.flows, 1) if need.is_met_by(flow)]
            met = [sum(drive["sent"].get(at, 0) for at in flows) for drive in self.drives]
            yield {"need": number, "unit": need.unit, "group": need.group, "signal": need.signal or None, "from": need.sender or None,
                   "met": sum(met), "logs": sum(map(bool, met)), "unmet": [drive["log"] for drive, times in zip(self.drives, met) if not times]}

    def units(self) -> Iterator[dict[str, Any]]:
        """A row a unit: its deviations, and in how many logs it has any. Those of nobody in the plan are of none."""
        for label in [*(unit.label for unit in self.tables.units), None]:
            kinds = [kind for kind in self.kinds if kind.unit == label]
            if label or kinds:
                yield {"unit": label, "deviations": len(kinds), "logs": len({log for kind in kinds for log in kind.times})}

    def names(self) -> Iterator[dict[str, Any]]:
        """A row a unit of which a NAME claimed an address, or couldn't, and a NAME that isn't planned, of unit None: its addresses, the serial numbers of
        its boxes, and in how many logs. The NAME of a unit is the one of its boxes where they have one number."""
        planned = {unit.label: unit for unit in self.tables.units}
        found: dict[str, dict[str, Any]] = {}
        for drive in self.drives:
            for who, (addresses, times, numbers) in drive["claims"].items():
                row = found.setdefault(who, {"name": who, "unit": who if who in planned else None, "identities": [], "addresses": [],
                                             "logs": 0, "claims": 0, "first": drive["log"]})
                row["addresses"] += [address for address in addresses if address not in row["addresses"]]
                row["identities"] += [number for number in numbers if number not in row["identities"]]
                row["logs"] += 1
                row["claims"] += times
        for label in planned.keys() & found.keys():
            found[label]["name"] = name_of(planned[label], found[label]["identities"])
        order = {label: at for at, label in enumerate(planned)}
        yield from sorted(found.values(), key=lambda row: (order.get(row["unit"], len(order)), row["name"]))

    def signals(self) -> Iterator[dict[str, Any]]:
        """A row a signal: its least and its greatest value in any log, where that was, and how often it had each state; values that no flow has
        have a row of their own."""
        names = [f"{group.label}.{signal.label}" for group in self.tables.groups for signal in group.signals]
        for name in names:
            for is_planned, table in ((True, "signals"), (False, "others")):
                spreads = [(drive["log"], drive[table][name]) for drive in self.drives if name in drive[table]]  # type: ignore[literal-required]
                if spreads:
                    yield {"signal": name, "planned": is_planned, **spread_row(spreads)}

    def codes(self) -> Iterator[dict[str, Any]]:
        """A row a trouble code of a unit: how often it came, in how many logs and vehicles, and where and when first and last."""
        found: dict[tuple[int, int, str, str], list[tuple[str, CodeOfUnit]]] = {}
        for drive in self.drives:
            for code in drive["codes"]:
                found.setdefault(code[:4], []).append((drive["log"], code))
        for (spn, fmi, group, unit), codes in sorted(found.items()):
            first = min(codes, key=lambda told: (told[1].first[1] or 0))
            last = max(codes, key=lambda told: (told[1].last[1] or 0))
            logs = {log for log, _ in codes}
            yield {"spn": spn, "fmi": fmi, "group": group, "unit": unit, "times": sum(code.times for _, code in codes), "logs": len(logs),
                   "vehicles": len({self.vehicles[log] for log in logs}), **code_place("first", first[0], first[1].first),
                   **code_place("last", last[0], last[1].last)}

    def tables_of(self) -> dict[str, list[dict[str, Any]]]:
        """All tables, as plain values."""
        return {
            "logs": list(self.logs()), "failed": [{"log": drive["log"], "why": drive["failed"]} for drive in self.failed],
            "worst": list(self.worst()), "deviations": list(self.deviations()), "flows": list(self.flows()), "needs": list(self.needs()), "units": list(self.units()),
            "names": list(self.names()), "signals": list(self.signals()), "codes": list(self.codes()),
        }

    def lines(self) -> Iterator[str]:
        """The table as text."""
        bitrate = self.tables.timing.bitrate if self.tables.timing else None
        yield from aligned(("log", "begin", "duration", "mean load", "worst second", "frames", "bad", "elsewhere", "deviations"), (
            (row["log"], moment_of(row["begin"]), duration_of(row), load_text(row["mean"], bitrate), load_text(row["worst"], bitrate), row["frames"],
             row["bad"], row["elsewhere"], row["deviations"]) for row in self.logs()))
        yield from aligned(("deviation", "logs", "times", "worst", "at", "time"), (
            (kind.what, len(kind.times), kind.total, worst_text(kind), kind.place, moment_of(kind.worst.time)) for kind in self.kinds), SHOWN)
        yield from aligned(("flow", "sent", "logs", "deviations", "longest silence", "at"), (
            (flow_name(row["flow"], self.tables.flows[row["flow"] - 1]), row["sent"], row["logs"], row["deviations"],
             *silence_of(row)) for row in self.flows()))
        yield from aligned(("need", "met", "logs", "not met"), (
            (need_name(row), row["met"], row["logs"], more_of(row["unmet"])) for row in self.needs()))
        yield from aligned(("unit", "deviations", "logs"), (
            (row["unit"] or "not planned", row["deviations"], row["logs"]) for row in self.units()))
        yield from aligned(("NAME", "unit", "addresses", "logs", "claims", "first"), (
            (row["name"], row["unit"] or "not planned", addresses_of(row["addresses"]), row["logs"], row["claims"], row["first"])
            for row in self.names()), SHOWN)
        yield from aligned(("log", "identity numbers"), (
            (row["log"], numbers_text(row["identities"])) for row in self.logs() if row["identities"]))
        yield from aligned(("signal", "least", "at", "most", "at", "states"), (
            (row["signal"] if row["planned"] else f"{row['signal']} of others", *extreme_of(row, "least"), *extreme_of(row, "most"),
             ", ".join(f"{state} {times}" for state, times in row["states"].items())) for row in self.signals()))
        yield from aligned(("SPN", "FMI", "group", "unit", "first", "at", "last", "at", "times", "logs", "vehicles"), (
            (row["spn"], row["fmi"], row["group"], row["unit"], moment_of(row["first"]), f"{row['first_log']}:{row['first_line']}",
             moment_of(row["last"]), f"{row['last_log']}:{row['last_line']}", row["times"], row["logs"], row["vehicles"]) for row in self.codes()), SHOWN)
        for drive in self.failed:
            yield f"failed {drive['log']}: {drive['failed']}"
        logs = sum(bool(drive["deviations"]) for drive in self.drives)
        yield f"logs {len(self.drives)} with deviations {logs} failed {len(self.failed)}"


def spread_row(spreads: list[tuple[str, Spread]]) -> dict[str, Any]:
    """What the logs have of a signal: its states, and its least and greatest value with log and line."""
    states: dict[str, int] = {}
    for _, spread in spreads:
        for state, times in spread.states.items():
            states[state] = states.get(state, 0) + times
    least = min(((spread.least, log, spread.least_line) for log, spread in spreads if spread.least is not None), default=None)
    most = max(((spread.most, log, -(spread.most_line or 0)) for log, spread in spreads if spread.most is not None), default=None)
    row: dict[str, Any] = {"states": states}
    for key, extreme in (("least", least), ("most", most)):
        row.update({key: extreme[0] if extreme else None, f"{key}_log": extreme[1] if extreme else None,
                    f"{key}_line": abs(extreme[2] or 0) if extreme else None})
    return row


def code_place(key: str, log: str, place: tuple[int, float | None]) -> dict[str, Any]:
    """Where and when a trouble code came."""
    return {key: place[1], f"{key}_log": log, f"{key}_line": place[0]}


def moment_of(seconds: float | None) -> str:
    """A time of a log: a date of UTC, or seconds where the clock counted from its own start."""
    if seconds is None:
        return "-"
    if seconds < DATED:
        return f"{seconds:.3f}"
    return f"{datetime.datetime.fromtimestamp(int(seconds), datetime.timezone.utc):%Y-%m-%d %H:%M:%S}.{int(seconds * 1000) % 1000:03}"


def duration_of(row: dict[str, Any]) -> str:
    """How long a log is."""
    return "-" if row["duration"] is None else f"{row['duration']:.1f} s"


def load_text(bits: float | None, bitrate: int | None) -> str:
    """Bits of a second, in percent where the plan has the bitrate."""
    if bits is None:
        return "-"
    return f"{100 * bits / bitrate:.1f} %" if bitrate else f"{bits:.0f} bit/s"


def worst_text(kind: Kind) -> str:
    """What was measured of a deviation, where it was worst."""
    return "-" if kind.worst.value is None else f"{kind.worst.value:.12g}{' ms' if is_duration(kind.kind) else ''}"


def need_name(row: dict[str, Any]) -> str:
    """A need by its number and what it is."""
    what = " ".join(filter(None, (row["group"], row["signal"])))
    return f"{row['need']} {what} by {row['unit']}" + (f" from {row['from']}" if row["from"] else "")


def more_of(logs: list[str]) -> str:
    """The first of some logs, and how many others there are."""
    return "-" if not logs else logs[0] if len(logs) == 1 else f"{logs[0]} and {len(logs) - 1} others"


def silence_of(row: dict[str, Any]) -> tuple[str, str]:
    """The longest silence of a flow, and where it ends; where no later message is in that log, at its end."""
    if row["silence"] is None:
        return "-", "-"
    return f"{row['silence']:.3f} s", f"{row['silence_log']}:{row['silence_line'] or 'end'}"


def extreme_of(row: dict[str, Any], key: str) -> tuple[str, str]:
    """The least or the greatest value of a signal, and where it is."""
    if row[key] is None:
        return "-", "-"
    return f"{row[key]:.12g}", f"{row[f'{key}_log']}:{row[f'{key}_line']}"


def name_of(unit: Unit, numbers: list[int]) -> str:
    """The NAME of a unit's box as 16 hex digits, with `.` for those in which the serial number is, where it has several."""
    fields = {key: field for key, field in unit.fields.items() if key != "identity"}
    return replace(unit, fields={**fields, "identity": numbers[0]} if len(numbers) == 1 else fields).name


def numbers_text(numbers: dict[str, list[int]]) -> str:
    """The serial numbers of boxes, by units, as a text."""
    return ", ".join(f"{label} {' and '.join(map(str, those))}" for label, those in numbers.items())


def addresses_of(addresses: Iterable[int | None]) -> str:
    """Addresses as a text."""
    return ", ".join("none" if address is None else str(address) for address in addresses)
