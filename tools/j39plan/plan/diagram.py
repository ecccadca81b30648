"""The vehicles of a line as a decision diagram over its choices: they are counted, and looked for, without going through them.

A never that a vehicle is still in is open. Which ones are open behind some choices is all that counts for the choices that follow, so vehicles with
the same open nevers go on as one.
"""

from __future__ import annotations

from collections.abc import Iterable, Mapping, Sequence

from j39plan import program
from j39plan.plan.variants import Box, Line

# Of choices by their numbers, from 0, the alternatives that are allowed; of a choice that isn't there, all are.
Allowed = Mapping[int, frozenset[str]]

# A layer of a diagram: of each set of open nevers, as the bits of a number, where an alternative leads.
Layer = dict[int, dict[str, int]]

# Of so many vehicles one is taken, where few are to have all that is wanted.
CANDIDATES = 12

# So many steps from one choice to the next make a diagram too large.
STEPS_MOST = 1 << 20


def order_of(choices: Sequence[Sequence[str]], nevers: Sequence[Sequence[str]], size: int = 0) -> list[int]:
    """The numbers of choices in an order in which few nevers are open at a time; the first ones, so many, come before the others."""
    named = [{number for number, choice in enumerate(choices) if not set(choice).isdisjoint(never)} for never in nevers]
    order: list[int] = []

    def opened(number: int) -> tuple[bool, int, int]:
        done = {*order, number}
        return number >= size, sum(bool(some & done) and not some <= done for some in named), number

    left = set(range(len(choices)))
    while left:
        order.append(min(left, key=opened))
        left.discard(order[-1])
    return order


class Diagram:
    """The vehicles that take an alternative of each choice, and are in no never: for each choice of which a never names some, such a vehicle takes one of
    them. A diagram that would be too large is refused."""

    def __init__(self, choices: Sequence[Sequence[str]], nevers: Sequence[Sequence[str]]) -> None:
        self.choices = [list(choice) for choice in choices]
        self._leaves = [self._left_by(choice, nevers) for choice in choices]
        begin = (1 << len(nevers)) - 1
        is_built = all(nevers)  # each vehicle is in a never that names nothing
        self.layers = self._pruned(self._grown(begin, self._last(nevers))) if is_built else []
        self.root = begin if is_built and (not choices or self.layers[0]) else None

    @staticmethod
    def _left_by(choice: Sequence[str], nevers: Sequence[Sequence[str]]) -> dict[str, int]:
        """Of each alternative of a choice the nevers that a vehicle with it isn't in."""
        some = [(1 << number, never) for number, never in enumerate(nevers) if not set(choice).isdisjoint(never)]
        return {label: sum(bit for bit, never in some if label not in never) for label in choice}

    def _last(self, nevers: Sequence[Sequence[str]]) -> list[int]:
        """Of each choice the nevers of which none of the choices behind it names one."""
        last = [0] * len(self.choices)
        for number, never in enumerate(nevers):
            named = [place for place, choice in enumerate(self.choices) if not set(choice).isdisjoint(never)]
            if named:
                last[named[-1]] |= 1 << number
        return last

    def _grown(self, begin: int, last: list[int]) -> list[Layer]:
        """The layers with all that no never forbids so far."""
        layers: list[Layer] = []
        states, steps = {begin}, 0
        for leaves, ended in zip(self._leaves, last):
            layer = {state: {label: state & ~left for label, left in leaves.items() if not state & ~left & ended} for state in states}
            layers.append(layer)
            states = {state for following in layer.values() for state in following.values()}
            steps += len(states) * len(leaves)
            if steps > STEPS_MOST:
                raise program.Refused(program.MEMORY, "the vehicles of the line can't be counted: too many never go over the same choices")
        return layers

    @staticmethod
    def _pruned(layers: list[Layer]) -> list[Layer]:
        """The layers without what leads to no vehicle."""
        there: set[int] | None = None
        for number in range(len(layers) - 1, -1, -1):
            kept = {state: {label: behind for label, behind in following.items() if there is None or behind in there}
                    for state, following in layers[number].items()}
            layers[number] = {state: following for state, following in kept.items() if following}
            there = set(layers[number])
        return layers

    def count(self, size: int | None = None) -> int:
        """How many vehicles there are; or by how many ways through the first choices there is one."""
        return sum(self._ways(size)[-1].values())

    def _ways(self, size: int | None = None) -> list[dict[int, int]]:
        """By how many ways each state is reached, layer by layer."""
        ways: list[dict[int, int]] = [{} if self.root is None else {self.root: 1}]
        for layer in self.layers[:size]:
            behind: dict[int, int] = {}
            for state, number in ways[-1].items():
                for follower in layer[state].values():
                    behind[follower] = behind.get(follower, 0) + number
            ways.append(behind)
        return ways

    def counts(self) -> dict[str, int]:
        """Of each alternative how many vehicles take it."""
        ways = self._ways()
        ends = dict.fromkeys(ways[-1], 1)
        found = {label: 0 for choice in self.choices for label in choice}
        for layer, reached in zip(reversed(self.layers), reversed(ways[:-1])):
            behind, ends = ends, {}
            for state, number in reached.items():
                for label, follower in layer[state].items():
                    found[label] += number * behind[follower]
                    ends[state] = ends.get(state, 0) + behind[follower]
        return found

    def some(self, allowed: Allowed) -> list[str] | None:
        """The alternatives of a vehicle that takes allowed ones; None where there is none."""
        if self.root is None:
            return None
        reached: list[dict[int, tuple[int, str]]] = [{self.root: (0, "")}]
        for number, layer in enumerate(self.layers):
            labels = allowed.get(number)
            reached.append({behind: (state, label) for state in reversed(reached[-1]) for label, behind in reversed(layer[state].items())
                            if labels is None or label in labels})
            if not reached[-1]:
                return None
        taken: list[str] = []
        state = next(iter(reached[-1]))
        for before in reversed(reached[1:]):
            state, label = before[state]
            taken.append(label)
        return taken[::-1]

    def beyond(self, other: Diagram, size: int) -> list[str] | None:
        """A way through the first choices by which there is a vehicle here, and none in another diagram with these choices first."""
        if self.root is None:
            return None
        ways: dict[tuple[int, int | None], list[str]] = {(self.root, other.root): []}
        for layer, others in zip(self.layers[:size], other.layers):
            behind: dict[tuple[int, int | None], list[str]] = {}
            for (state, beside), labels in ways.items():
                following = others.get(beside, {}) if beside is not None else {}
                for label, follower in layer[state].items():
                    behind.setdefault((follower, following.get(label)), [*labels, label])
            ways = behind
        return next((labels for (_, beside), labels in ways.items() if beside is None), None)

    def allowed(self, box: Box) -> Allowed | None:
        """The alternatives that the vehicles in a box take; None where one of its lists names only what no choice has."""
        found: dict[int, frozenset[str]] = {}
        known = frozenset(label for choice in self.choices for label in choice)
        for labels in box:
            if known.isdisjoint(labels):
                return None
            for number, choice in enumerate(self.choices):
                if some := frozenset(choice).intersection(labels):
                    found[number] = found.get(number, some) & some
        return found if all(found.values()) else None


def of_line(line: Line) -> Diagram:
    """The vehicles of a line that can be built."""
    nevers = line.lists_of("never")
    return Diagram([line.choices[number] for number in order_of(line.choices, nevers)], nevers)


def met(one: Allowed, other: Allowed) -> Allowed | None:
    """What both allow; None where that is nothing of some choice."""
    both = {number: one.get(number, other.get(number, frozenset())) & other.get(number, one.get(number, frozenset())) for number in {*one, *other}}
    return both if all(both.values()) else None


def is_allowed(taken: Iterable[str], allowed: Allowed) -> bool:
    """Whether a vehicle takes alternatives that are allowed."""
    return all(not labels.isdisjoint(taken) for labels in allowed.values())


def cover(diagram: Diagram, wanted: Iterable[Allowed]) -> list[list[str]]:
    """Few vehicles, so that each of the wanted sets that has one has one of these: each time that of some candidates which is in most sets that are left."""
    keyed = {tuple((number, tuple(sorted(labels))) for number, labels in sorted(one.items())): one for one in wanted}
    left = [one for _, one in sorted(keyed.items()) if diagram.some(one) is not None]
    found: list[list[str]] = []
    while left:
        starts = range(0, len(left), -(-len(left) // CANDIDATES))
        taken = max((candidate(diagram, left[start:] + left[:start]) for start in starts), key=lambda taken: sum(is_allowed(taken, one) for one in left))
        found.append(taken)
        left = [one for one in left if not is_allowed(taken, one)]
    return found


def candidate(diagram: Diagram, wanted: Sequence[Allowed]) -> list[str]:
    """A vehicle that is in the first of some sets that have vehicles, and in each of the others that goes together with those before it."""
    together = wanted[0]
    for one in wanted[1:]:
        both = met(together, one)
        if both is not None and both != together and diagram.some(both) is not None:
            together = both
    taken = diagram.some(together)
    assert taken is not None
    return taken
