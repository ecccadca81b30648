"""Two drives beside each other, as before and after a change: who is there, how often flows are sent, how full the bus is, between which values
signals are, which codes came, and what isn't as planned in one of them alone."""

from __future__ import annotations

from collections.abc import Iterable, Iterator
from typing import Any, NamedTuple

from j39plan.fleet.drives import Drive
from j39plan.fleet.signals import Spread
from j39plan.plan.measures import measure_of
from j39plan.plan.tables import Tables

# A flow has a usual distance from so many messages on.
FEW = 4

# The least and the greatest value of a signal.
Range = tuple[float, float]

# Deviations that are told as flows and senders.
TOLD = frozenset(("never-sent", "absent"))


class Difference(NamedTuple):
    """What differs: its kind, what it is of, and what each drive has, None of nothing, in a unit of measurement."""

    kind: str
    what: str
    before: Any
    after: Any
    unit: str = ""

    @classmethod
    def of(cls, kind: str, what: str, values: list[Any], unit: str = "") -> Difference:
        """What the first drive has, and the other one."""
        before, after = values
        return cls(kind, what, before, after, unit)

    def spelled(self) -> tuple[str, str, str, str]:
        """The same in words."""
        return self.kind, self.what, self._in_words(self.before), self._in_words(self.after)

    def _in_words(self, value: Any) -> str:
        if value is None or value == []:
            return "-"
        if isinstance(value, tuple):
            text = "..".join(dict.fromkeys(f"{end:.12g}" for end in value))
        elif isinstance(value, list):
            text = ", ".join(map(str, value))
        else:
            text = f"{value:.12g}" if isinstance(value, float) else str(value)
        return f"{text} {self.unit}".rstrip()

    def row(self) -> dict[str, Any]:
        """The same as plain values, without what there isn't."""
        return {key: value for key, value in self._asdict().items() if value not in (None, "")}


class Drift:
    """What differs between two drives, numbers by more than a share of the greater one."""

    def __init__(self, tables: Tables, before: Drive, after: Drive, share: float) -> None:
        self._tables, self._before, self._after, self._share = tables, before, after, share

    def all(self) -> Iterator[Difference]:
        """All of it: senders and addresses first, then what isn't as planned, flows, load, signals and codes."""
        yield from self._units()
        yield from self._deviations()
        yield from self._flows()
        yield from self._load()
        yield from self._signals()
        yield from self._codes()

    def _differ(self, before: float, after: float, whole: float | None = None) -> bool:
        """Whether two numbers differ by more than the share, of the greater one or of a whole."""
        return abs(after - before) > self._share * (max(abs(before), abs(after)) if whole is None else whole)

    def _units(self) -> Iterator[Difference]:
        """Units that are heard in one drive alone; other addresses, and other boxes."""
        heard = [{row["unit"] for row in whole_of(drive)["units"] if "line" in row} for drive in (self._before, self._after)]
        claims = [drive["claims"] for drive in (self._before, self._after)]
        for label in (unit.label for unit in self._tables.units):
            if (label in heard[0]) != (label in heard[1]):
                yield Difference.of("sender", label, ["heard" if label in labels else None for labels in heard])
            elif label in claims[0] and label in claims[1]:
                yield from differing("address", label, [sorted_of(claim[label].addresses) for claim in claims])
                yield from differing("box", label, [sorted(claim[label].numbers) for claim in claims], "identity")
        for name in sorted((claims[0].keys() ^ claims[1].keys()) - {unit.label for unit in self._tables.units}):
            yield Difference.of("sender", f"NAME {name}", [sorted_of(claim[name].addresses) if name in claim else None for claim in claims])

    def _deviations(self) -> Iterator[Difference]:
        """What isn't as planned in one drive alone, by how often; of those whom the plan doesn't have as senders."""
        times: list[dict[tuple[str, str], int]] = [{(one.kind, one.what): one.times for one in drive["deviations"]} for drive in (self._before, self._after)]
        for key in dict.fromkeys((*times[0], *times[1])):
            if (key in times[0]) != (key in times[1]) and key[0] not in TOLD:
                kind = "sender" if key[0] == "stranger" else key[0]
                yield Difference.of(kind, key[1], [counted(known.get(key)) for known in times])

    def _flows(self) -> Iterator[Difference]:
        """Flows that were sent in one drive alone, or at another usual distance."""
        for before, after in zip(whole_of(self._before)["flows"], whole_of(self._after)["flows"]):
            what = f"{before['flow']} {before['group']} from {before['from']} to {before['to']}"
            if not before["count"] or not after["count"]:
                yield from differing("flow", what, [counted(row["count"] or None) for row in (before, after)])
            elif min(before["count"], after["count"]) >= FEW and "median" in before and "median" in after:
                if self._differ(before["median"], after["median"]):
                    yield Difference("period", what, before["median"], after["median"], "ms")

    def _load(self) -> Iterator[Difference]:
        """The bits of a second on the bus, in the mean and at most."""
        for key, what in (("mean", "bus load, mean"), ("worst", "bus load, worst second")):
            before, after = (whole_of(drive).get(key) for drive in (self._before, self._after))
            if before is not None and after is not None and self._differ(before, after):
                yield Difference("load", what, float(round(before)), float(round(after)), "bit/s")

    def _signals(self) -> Iterator[Difference]:
        """Between which values signals were, and their states, of groups that both drives have."""
        came = [{row["group"] for row in whole_of(drive)["flows"] if row["count"]} for drive in (self._before, self._after)]
        for group in self._tables.groups:
            for signal in group.signals if group.label in came[0] & came[1] else ():
                spreads = [drive["signals"].get(f"{group.label}.{signal.label}") for drive in (self._before, self._after)]
                ranges, what = [range_of(spread) for spread in spreads], f"{group.label}.{signal.label}"
                if self._is_other(ranges[0], ranges[1]):
                    yield Difference.of("range", what, ranges, measure_of(signal.unit).unit)
                if all(spreads):
                    yield from differing("states", what, [sorted(spread.states) for spread in spreads if spread])

    def _is_other(self, before: Range | None, after: Range | None) -> bool:
        """Whether an end of a range lies elsewhere, by more than the share of the greater range."""
        if before is None or after is None:
            return before is not after
        whole = max(before[1] - before[0], after[1] - after[0])
        return self._differ(before[0], after[0], whole) or self._differ(before[1], after[1], whole)

    def _codes(self) -> Iterator[Difference]:
        """Trouble codes that came in one drive alone, by how many messages had them."""
        codes = [{code[:4]: code.times for code in drive["codes"]} for drive in (self._before, self._after)]
        for key in sorted(codes[0].keys() ^ codes[1].keys()):
            spn, fmi, group, unit = key
            yield Difference.of("code", f"spn {spn} fmi {fmi} in {group} from {unit}", [counted(known.get(key)) for known in codes])


def whole_of(drive: Drive) -> dict[str, Any]:
    """What a log has as a whole."""
    return drive["whole"]


def differing(kind: str, what: str, values: list[Any], unit: str = "") -> Iterable[Difference]:
    """What both drives have, if that differs."""
    return [Difference.of(kind, what, values, unit)] if values[0] != values[1] else []


def sorted_of(addresses: list[int | None]) -> list[int | str]:
    """Addresses in their order, `none` last."""
    numbers: list[int | str] = [*sorted(address for address in addresses if address is not None)]
    return numbers + ["none"] * (None in addresses)


def counted(times: int | None) -> str | None:
    """How often something came."""
    return None if times is None else "once" if times == 1 else f"{times} times"


def range_of(spread: Spread | None) -> Range | None:
    """Between which values a signal was."""
    return None if spread is None or spread.least is None or spread.most is None else (spread.least, spread.most)
