"""What is tried against findings about NAMEs and addresses: F1, F2, F3, F12, F26, F27 and F28."""

from __future__ import annotations

from collections.abc import Iterable, Iterator
from itertools import chain

from j39plan.j1939 import NAME_FIELDS, POOL, PREFERRED_ADDRESSES
from j39plan.mend.attempts import Attempt, Mend, ask_first
from j39plan.mend.edits import Change, setting
from j39plan.mend.judge import Draft
from j39plan.plan.answer_grammar import Line
from j39plan.plan.hints import ends
from j39plan.plan.tables import Unit

# Addresses outside of those that units may choose, but those of off-board tools and those above, which are no unit's for good (SAE J1939).
OUTSIDE = (*range(POOL.start), 248)

# So many free addresses are tried, of those that serve alike.
TRIED = 12

CAN_CHOOSE = "only if the unit really can take another address"


def preferred(draft: Draft, unit: Unit) -> tuple[int, ...]:
    """The addresses of a unit's function, where the plan says that."""
    said = (*unit.place, "name", "function") in draft.source.places.lines
    return PREFERRED_ADDRESSES.get(unit.fields["function"], ()) if said else ()


def free(draft: Draft, unit: Unit) -> Iterator[int]:
    """The addresses that no unit has: those of the unit's function first, then those outside of 128..247 that no function has, the others there,
    and those inside that aren't kept free."""
    taken = {other.address for other in draft.tables.units}
    named = set(chain.from_iterable(PREFERRED_ADDRESSES.values()))
    inside = (address for address in POOL if address not in draft.source.kept)
    order = (*preferred(draft, unit), *(address for address in OUTSIDE if address not in named), *OUTSIDE, *inside)
    return (address for address in dict.fromkeys(order) if address not in taken)


def ranges(numbers: Iterable[int]) -> str:
    """Numbers in words, those that follow one another as a range."""
    found: list[list[int]] = []
    for number in sorted(numbers):
        if found and found[-1][1] == number - 1:
            found[-1][1] = number
        else:
            found.append([number, number])
    return ", ".join(str(first) if first == last else f"{first}..{last}" for first, last in found)


def elsewhere(draft: Draft, unit: Unit, outside: bool = False, says_free: bool = True) -> Attempt:
    """That a unit has another address; some of those that are free, one of each kind."""
    numbers = [address for address in free(draft, unit) if not outside or address not in POOL]
    mine = preferred(draft, unit)
    beyond = [address for address in numbers if address not in POOL]
    note = f"free outside 128..247: {ranges(beyond)}" if says_free else ""
    tried = [*beyond[:TRIED], *[address for address in numbers if address in POOL][:TRIED]]
    return Attempt(f"another address of {unit.label}", (
        Mend(f"unit {unit.label}", f"address = {address}", setting(unit.place, address=address),
             "; ".join(filter(None, ("its function's by SAE J1939" if address in mine else "", note)))) for address in tried))


def kept(draft: Draft, units: list[Unit]) -> Attempt:
    """That the addresses of units are kept free for them."""
    mine = sorted({unit.address for unit in units if unit.address in POOL})
    addresses = sorted({*draft.source.kept, *mine})
    what = " and ".join(map(str, mine))
    return Attempt(f"keep_free with {what}", [
        Mend("plan", f"keep_free = {addresses}", Change(((("keep_free",), [*addresses]),)), f"nobody moves to {what} then")] if mine else [])


def not_kept(draft: Draft, addresses: set[int]) -> Mend:
    """That some addresses are kept free no longer."""
    rest = [address for address in draft.source.kept if address not in addresses]
    return Mend("plan", f"keep_free = {rest}", Change(((("keep_free",), [*rest]),)), "only if no tool needs the address")


def choosing(unit: Unit) -> Attempt:
    """That a unit may choose."""
    mend = Mend(f"unit {unit.label}", "name.arbitrary = true", setting((*unit.place, "name"), arbitrary=True), CAN_CHOOSE)
    return Attempt(f"arbitrary = true of {unit.label}", [] if unit.may_choose else [mend])


def fixed(unit: Unit) -> Attempt:
    """That a unit may not choose."""
    mend = Mend(f"unit {unit.label}", "name.arbitrary = false", setting((*unit.place, "name"), arbitrary=False), "only if the unit needn't choose")
    return Attempt(f"arbitrary = false of {unit.label}", [mend] if unit.may_choose else [])


def unit_of(draft: Draft, label: str) -> Unit:
    """A unit by its label."""
    return next(unit for unit in draft.tables.units if unit.label == label)


def rank(draft: Draft, unit: Unit) -> tuple[bool, bool]:
    """Who of two units at one address stays rather, the lesser one: the one that never claims, then the one whose function's the address is."""
    return unit.claims, unit.address not in preferred(draft, unit)


def said_of(draft: Draft, unit: Unit) -> dict[str, int]:
    """What a plan says of a unit's NAME."""
    return {key: number for key, number in unit.fields.items() if (*unit.place, "name", key) in draft.source.places.lines}


def one_of_two(draft: Draft, first: Unit, second: Unit) -> Iterator[Attempt]:
    """That two units at one address are one ECU under two names, where nothing that is said of both NAMEs differs: the one of which less is said goes,
    and the other one sends and gets what it did."""
    both = [said_of(draft, unit) for unit in (first, second)]
    if first.address != second.address or any(both[0][key] != both[1][key] for key in both[0].keys() & both[1].keys()):
        return
    stays, goes = (second, first) if len(both[1]) > len(both[0]) else (first, second)
    tables = draft.tables
    ends = [(flow.place, ("from", flow.sender), ("to", flow.to)) for flow in tables.flows]
    ends += [(need.place, ("unit", need.unit), ("from", need.sender)) for need in tables.needs]
    ends += [(request.place, ("from", request.sender), ("to", request.to)) for request in tables.requests]
    keys = tuple(((*place, key), stays.label) for place, *named in ends for key, label in named if label == goes.label)
    yield ask_first(f"is it one ECU under two names? then take one away, or join its files by join --same {stays.label}={goes.label}")
    yield Attempt(f"{goes.label} as another name of {stays.label}", [
        Mend(f"unit {goes.label}", f"taken away, {stays.label} stands for it", Change(keys, removed=(goes.place,)), "if it is one ECU under two names")])


def two_at_one(draft: Draft, line: Line) -> Iterator[Attempt]:
    """Two units have one address (F2, F26)."""
    first, second = unit_of(draft, line.word("unit")), unit_of(draft, line.word("other"))
    yield from one_of_two(draft, first, second)
    order = [first, second] if rank(draft, first) > rank(draft, second) else [second, first]
    yield from (elsewhere(draft, unit, says_free=unit is order[0]) for unit in order)
    yield from (choosing(unit) for unit in order if unit.claims)


def alike(draft: Draft, line: Line) -> Iterator[Attempt]:
    """Two units have one NAME, or one but for serial numbers that aren't both given (F1)."""
    yield from one_of_two(draft, unit_of(draft, line.word("unit")), unit_of(draft, line.word("other")))
    kinds = {unit.kind for unit in draft.tables.units}
    first = {key: at for key, at, _ in NAME_FIELDS}
    for label in (line.word("other"), line.word("unit")):
        unit = unit_of(draft, label)
        for key, most in (("function_instance", 31), ("ecu", 7)):
            rest = unit.kind - (unit.fields.get(key, 0) << first[key])
            numbers = [number for number in range(most + 1) if rest | number << first[key] not in kinds]
            yield Attempt(f"{key} of {label}", [
                Mend(f"unit {label}", f"name.{key} = {number}", setting((*unit.place, "name"), **{key: number}), "as its box is set up")
                for number in numbers[:1]])


def too_few(draft: Draft, line: Line) -> Iterator[Attempt]:
    """More units may need an address of 128..247 than there are (F3)."""
    units, room = draft.tables.units, len(POOL) - len(draft.source.kept)
    excess = line.number("units") - room
    settled = [unit for unit in units if not unit.may_choose and unit.address in POOL and unit.address not in draft.source.kept]
    yield Attempt("fixed units at addresses outside 128..247", moved_out(draft, settled, excess))
    if len(draft.source.kept) >= excess:
        yield Attempt("fewer addresses of keep_free", [not_kept(draft, set(draft.source.kept[-excess:]))])
    strangers = draft.tables.strangers - excess
    yield Attempt("fewer strangers", [
        Mend("plan", f"strangers = {strangers}", Change(((("strangers",), strangers),)))] if strangers >= 0 else [])
    choosers = [unit for unit in units if unit.may_choose]
    yield Attempt("fixed addresses outside 128..247 of units that may choose", moved_out(draft, choosers, excess))


def moved_out(draft: Draft, units: list[Unit], count: int) -> list[Mend]:
    """That so many of some units get fixed addresses outside of those that may be chosen, if there are so many."""
    places = [address for address in free(draft, draft.tables.units[0]) if address not in POOL]
    if len(units) < count or len(places) < count:
        return []
    some = units[-count:]
    change = Change()
    for unit, address in zip(some, places):
        change += setting(unit.place, address=address)
        if unit.may_choose:
            change += setting((*unit.place, "name"), arbitrary=False)
    what = ", ".join(f"{unit.label} {address}" for unit, address in zip(some, places))
    return [Mend(f"of {count} of the units", f"fixed addresses outside 128..247: {what}", change, "only if they needn't choose" if some[0].may_choose else "")]


def prefers_kept(draft: Draft, line: Line) -> Iterator[Attempt]:
    """A unit that may choose prefers an address that is kept free (F12)."""
    unit = unit_of(draft, line.word("unit"))
    yield elsewhere(draft, unit)
    yield Attempt(f"keep_free without {unit.address}", [not_kept(draft, {unit.address})])
    yield fixed(unit)


def silent_in_pool(draft: Draft, line: Line) -> Iterator[Attempt]:
    """A unit that never claims has an address to which others may move (F27)."""
    unit = unit_of(draft, line.word("unit"))
    yield kept(draft, [unit])
    yield elsewhere(draft, unit, outside=True)


def contested(draft: Draft, line: Line) -> Iterator[Attempt]:
    """The sender of a flow, or the one unit that it goes to, isn't alone at its address on a live bus (F28)."""
    flow = draft.tables.flows[line.number("flow") - 1]
    units = [unit for unit in draft.tables.units
             if unit.label in (flow.sender, flow.to) and ends.disturbed(draft.tables, draft.source.kept, unit)]
    yield kept(draft, units)
    if len(units) == 1:
        yield elsewhere(draft, units[0], outside=True)
        yield from (elsewhere(draft, other) for other in draft.tables.units if other is not units[0] and other.address == units[0].address)
    else:
        places: list[int] = []
        for unit in units:
            places += [address for address in free(draft, unit) if address not in POOL and address not in places][:1]
        both = sum((setting(unit.place, address=address) for unit, address in zip(units, places)), Change())
        what = ", ".join(f"{unit.label} {address}" for unit, address in zip(units, places))
        yield Attempt("other addresses of both ends", [Mend("2 units", f"addresses outside 128..247: {what}", both)] if len(places) > 1 else [])


ATTEMPTS = {"F1": alike, "F2": two_at_one, "F3": too_few, "F12": prefers_kept, "F26": two_at_one, "F27": silent_in_pool, "F28": contested}
