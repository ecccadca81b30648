"""How units get and keep their addresses by SAE J1939-81: they claim, defend, move, or can claim none."""

import random
from collections.abc import Callable, Iterable
from dataclasses import dataclass

from j39plan.bench.agenda import Agenda
from j39plan.j1939 import ADDRESS_CLAIMED, GLOBAL_ADDRESS, NULL_ADDRESS, POOL, identifier_of, kind_of
from j39plan.plan.tables import Unit

# So long who claims an address that may be chosen waits before it sends, and at most so long who could claim none before it says so, in seconds.
CONTEST, DELAY = 0.251, 0.153

# How far apart the units come up and give their addresses back, and within which time they answer a request for claims.
APART, BACK, PROMPT = 0.01, 0.001, 0.005

# The priority of claims.
PRIORITY = 6

# Puts a frame on the bus.
Put = Callable[[int, bytes], None]


@dataclass
class Box:
    """A planned unit on the bench: its NAME, the address that it holds, None of none, and from when on it sends messages."""

    unit: Unit
    number: int
    address: int | None = None
    ready: float = 0.0
    is_up: bool = False

    def is_ready(self, now: float) -> bool:
        """Whether it may send messages."""
        return self.address is not None and now >= self.ready


class Claims:
    """The addresses of a bus, as claims have told them: those of the boxes here, and of others."""

    def __init__(self, boxes: list[Box], others: Iterable[Unit], kept: Iterable[int], agenda: Agenda, put: Put, chance: random.Random) -> None:
        self._boxes, self._agenda, self._put, self._chance = boxes, agenda, put, chance
        self.left: Callable[[int], None] = lambda address: None  # is told which address a box has left
        self._others, self._kept = {unit.label: unit for unit in others}, frozenset(kept)
        self.known: dict[int, int | None] = {}  # of each NAME the address that it claimed last, None of who said that it has none
        self.moves = self.defences = 0

    def begin(self) -> None:
        """All boxes come up, one after another."""
        for number, box in enumerate(self._boxes):
            self._agenda.after(APART * number, self._up, box)

    def _up(self, box: Box) -> None:
        """A box comes up at the address that it prefers."""
        box.is_up = True
        if box.unit.claims:
            self._claim(box, box.unit.address)
        else:
            box.address = box.unit.address

    def _claim(self, box: Box, address: int) -> None:
        """A box claims an address anew, and waits where that may be contested."""
        box.address = address
        box.ready = self._agenda.now + (CONTEST if address in POOL else 0)
        self._tell(box)

    def _tell(self, box: Box) -> None:
        """A box says which address it holds, or that it can't claim one."""
        source = NULL_ADDRESS if box.address is None else box.address
        self._put(identifier_of(PRIORITY, ADDRESS_CLAIMED, source, GLOBAL_ADDRESS), box.number.to_bytes(8, "little"))

    def heard(self, source: int, data: bytes) -> None:
        """A claim is heard, or that somebody could claim none."""
        name = int.from_bytes(data, "little")
        if source == NULL_ADDRESS:
            self.known[name] = None
            return
        self.known[name] = source
        for box in self._boxes:
            if box.address == source and box.unit.claims and box.number != name:
                self._agenda.after(0, self._contested, box, name, source)

    def _contested(self, box: Box, name: int, address: int) -> None:
        """Another NAME claims the address of a box: the smaller NAME keeps it."""
        if box.address != address:
            return
        if box.number < name:
            self.defences += 1
            self._tell(box)
            return
        self.moves += 1
        self.left(address)
        free = self._free(box, address) if box.unit.may_choose else None
        if free is None:
            box.address = None
            self._agenda.after(self._chance.random() * DELAY, self._tell, box)
        else:
            self._claim(box, free)

    def _free(self, box: Box, lost: int) -> int | None:
        """The address that a box chooses that has lost one."""
        taken = self._kept | set(self.known.values()) | {other.address for other in self._boxes}
        first = lost + 1 if box.unit.chooser == "upward" and lost in POOL else POOL.start
        order = [*range(first, POOL.stop), *range(POOL.start, first)]
        return next((address for address in order if address not in taken), None)

    def asked(self, to: int) -> None:
        """Claims are asked for, of all or of one address."""
        for box in self._boxes:
            if box.unit.claims and box.is_up and to in (GLOBAL_ADDRESS, box.address):
                delay = PROMPT if box.address is not None else DELAY
                self._agenda.after(self._chance.random() * delay, self._tell, box)

    def at(self, address: int) -> Box | None:
        """The box here that holds an address."""
        return next((box for box in self._boxes if box.address == address), None)

    def address_of(self, label: str) -> tuple[int | None, bool]:
        """The address of a unit by its label, None of one that said that it has none, and whether it was heard or is here. Of one that wasn't heard it is the
        planned one."""
        box = next((box for box in self._boxes if box.unit.label == label), None)
        if box is not None:
            return box.address, True
        unit = self._others[label]
        for name, address in self.known.items():
            if name == unit.number or unit.identity is None and kind_of(name) == unit.kind:
                return address, True
        return unit.address, not unit.claims

    def give_back(self) -> None:
        """All boxes that claim say, one after another, that they hold no address any more."""
        for number, box in enumerate(self._boxes):
            if box.unit.claims and box.address is not None:
                self.left(box.address)
                box.address = None
                self._agenda.after(BACK * number, self._tell, box)
            box.is_up = False
