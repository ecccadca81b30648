"""What is to be done when: calls in the order of their times."""

import heapq
import itertools
from collections.abc import Callable
from typing import Any


class Agenda:
    """Calls, each with its time in seconds. What is due is done in the order of the times, and at one time in the order in which it came."""

    def __init__(self) -> None:
        self.now = 0.0
        self._heap: list[tuple[float, int, Callable[..., None], tuple[Any, ...]]] = []
        self._number = itertools.count()

    def at(self, time: float, go: Callable[..., None], *words: Any) -> None:
        """Something is to be done at a time."""
        heapq.heappush(self._heap, (time, next(self._number), go, words))

    def after(self, delay: float, go: Callable[..., None], *words: Any) -> None:
        """Something is to be done so much later."""
        self.at(self.now + delay, go, *words)

    @property
    def due(self) -> float | None:
        """When the next call is due, None where there is none."""
        return self._heap[0][0] if self._heap else None

    def clear(self) -> None:
        """Nothing of it is to be done any more."""
        self._heap.clear()

    def wake(self, now: float) -> None:
        """Does what is due at a time; what is added meanwhile too, if that is due."""
        self.now = max(now, self.now)
        while self._heap and self._heap[0][0] <= self.now:
            _, _, go, words = heapq.heappop(self._heap)
            go(*words)
