"""The addresses of the nodes of a network, and the numbers that nodes give."""

from __future__ import annotations

from collections import defaultdict
from collections.abc import Callable, Iterable
from typing import TYPE_CHECKING

from j39plan.dbc.merge import Network, Node
from j39plan.dbc.names import ADDRESS_ATTRIBUTE
from j39plan.dbc.times import number_of
from j39plan.j1939 import GLOBAL_ADDRESS, NULL_ADDRESS
from j39plan.left_out import LeftOut, Notes

if TYPE_CHECKING:
    import canmatrix


def number_in(node: Node, attribute: str, most: int, value: object, notes: Notes) -> int | None:
    """The number of 0..most that a node has for an attribute by this value; another value is said."""
    number = number_of(value)
    if value in (None, "") or number is not None and 0 <= number <= most:
        return number
    notes.say(f"unit {node.name}, {attribute}", f"{value} is outside 0..{most}")
    return None


def own(node: Node, attribute: str, most: int, notes: Notes) -> int | None:
    """The number that a node itself gives for an attribute: a default would give all nodes the same."""
    return number_in(node, attribute, most, node.given.get(attribute), notes)


def sources_of(frames: Iterable[canmatrix.Frame]) -> dict[str, set[int]]:
    """From which addresses the frames of each node come."""
    sources = defaultdict(set)
    for frame in frames:
        if frame.arbitration_id.extended and frame.arbitration_id.j1939_source not in (NULL_ADDRESS, GLOBAL_ADDRESS):
            for name in frame.transmitters:
                sources[name].add(frame.arbitration_id.j1939_source)
    return sources


def address_of(node: Node, sources: set[int], notes: Notes) -> int:
    """The address of a unit: its own, else the one from which all its frames come."""
    address = own(node, ADDRESS_ATTRIBUTE, NULL_ADDRESS, notes)
    if address is not None and address != NULL_ADDRESS:
        return address
    if len(sources) == 1:
        return next(iter(sources))
    raise LeftOut("its frames come from several addresses" if sources else "no address is given")


def addresses_of(network: Network, lose: Callable[[str, str], None], notes: Notes) -> dict[str, int]:
    """The addresses of the nodes that have one; what others lack is told."""
    sources, found = sources_of(network.frames), dict[str, int]()
    for name, node in network.nodes.items():
        try:
            found[name] = address_of(node, sources[name], notes)
        except LeftOut as why:
            lose(f"unit {name}", f"left out: {why}")
    return found
