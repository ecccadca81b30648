"""What becomes of the requests of a plan in a log: which stay without an answer, which are refused, and which are answered late."""

from __future__ import annotations

from collections import deque
from typing import NamedTuple

from j39plan.j1939 import RESPONSE, WAIT
from j39plan.log.checks.deviations import Found
from j39plan.log.checks.distances import Tolerance
from j39plan.log.checks.hands import Hands
from j39plan.log.clock import MILLISECOND, milliseconds
from j39plan.log.reports import REFUSALS, Acknowledgement, Who
from j39plan.log.reports import Request as Asking
from j39plan.plan.tables import Tables, serves

# Within this time an answer is to begin, and so long who asks waits for one.
PROMPT, WAITED = RESPONSE * MILLISECOND, WAIT * MILLISECOND

# What is done by who answers with an acknowledgement that says no.
DONE_TO_ALL = "refuses it, though it is to all"
DONE = {"refused": "is refused", "denied": "is denied access", "busy": "is told that it can't be answered now"}


class Open(NamedTuple):
    """A request that no answer came to yet: its line, and its time."""

    line: int
    at: int | None


class Asked:
    """The requests of a plan, by what a log has of them. Of a request to all each unit whose flow serves it has to answer, if it is on."""

    def __init__(self, tables: Tables, tolerance: Tolerance, waits: dict[str, int], found: Found, hands: Hands) -> None:
        self._requests, self._found, self._hands = tables.requests, found, hands
        servers = [{flow.sender for flow in tables.flows if serves(flow.group, flow.sender, flow.to, request)} for request in tables.requests]
        self._servers = [some if len(some) > 1 else set() for some in servers]
        self._left: list[tuple[Open, set[str]] | None] = [None] * len(self._requests)  # who hasn't answered the last one to all
        self._tolerance, self._waits = tolerance, waits  # how long a request of a unit may wait on the bus, as far as that is known
        self._numbers = {group.label: group.pgn for group in tables.groups}
        self.times = [0] * len(self._requests)  # how often each was asked
        self._open: list[deque[Open]] = [deque() for _ in self._requests]
        self.open: set[int] = set()  # the PGNs of which a request may be open
        self._last: list[int | None] = [None] * len(self._requests)

    def anew(self) -> None:
        """The clock was set: what is open counts no more."""
        for waiting in self._open:
            waiting.clear()
        self.open.clear()
        self._last = [None] * len(self._requests)
        self._left = [None] * len(self._requests)

    def asks(self, line: int, at: int | None, asking: Asking) -> bool:
        """A request of the plan; whether it comes too soon."""
        number = asking.request - 1
        self._pass(number, at)
        self.times[number] += 1
        self._open[number].append(Open(line, at))
        left = {label for label in self._servers[number] if self._hands.is_on(label, at)}
        self._left[number] = (Open(line, at), left) if left else None
        self.open.add(self._numbers[self._requests[number].group])
        period, last = self._requests[number].period, self._last[number]
        self._last[number] = at
        if period is not None and last is not None and at is not None:
            distance = at - last
            if 0 <= distance < period * MILLISECOND - self._tolerance.at(period) - self._waits.get(self._requests[number].sender, 0):
                self._tell("asked-early", number, f"{{}} ms after the one before, its period is {period} ms", line, at, distance)
                return True
        return False

    def answers(self, line: int, at: int | None, sender: Who, to: Who, pgn: int) -> None:
        """A message of a group begins, which may answer requests for it."""
        numbers = [number for number, request in enumerate(self._requests) if self._numbers[request.group] == pgn]
        for number in numbers:
            if (self._open[number] or self._left[number]) and self._is_answer(number, sender, to):
                self._pass(number, at)
                self._answered(number, sender)
                self._close(number, line, at)
        if not any(self._open[number] or self._left[number] for number in numbers):
            self.open.discard(pgn)

    def _answered(self, number: int, sender: Who) -> None:
        """Somebody answers a request to all."""
        left = self._left[number]
        if left:
            left[1].discard(sender.label or "")
            if not left[1]:
                self._left[number] = None

    def _is_answer(self, number: int, sender: Who, to: Who) -> bool:
        """Whether a message from one to another answers a request, by who was asked and who asks."""
        request = self._requests[number]
        is_asked = sender.label == request.to or request.to == "all" and sender.label not in (None, request.sender)
        return is_asked and (to.label == request.sender or to.shown == "all")

    def _close(self, number: int, line: int, at: int | None) -> None:
        """An answer comes to all that is open of a request: to the one that was asked last."""
        waiting = self._open[number]
        if waiting:
            asked = waiting[-1].at
            if asked is not None and at is not None and at - asked > PROMPT:
                self._tell("late", number, f"answered {{}} ms after it, later than {milliseconds(PROMPT)} ms", line, at, at - asked)
            waiting.clear()

    def acknowledged(self, line: int, at: int | None, said: Acknowledgement) -> None:
        """An acknowledgement, which may refuse requests."""
        if said.word not in REFUSALS:
            return
        for number, request in enumerate(self._requests):
            if request.to == "all" and self._numbers[request.group] == said.pgn and said.sender.label and (self._open[number] or self._left[number]):
                self._tell("refused-to-all", number, f"{said.sender.label} {DONE_TO_ALL}", line, at, unit=said.sender.label)
                self._answered(number, said.sender)
            is_one = said.sender.label == request.to and (said.to.label == request.sender or said.to.shown == "all")
            if is_one and self._numbers[request.group] == said.pgn:
                self._pass(number, at)
                self._tell("refused", number, DONE[said.word], line, at)
                self._open[number].clear()

    def _pass(self, number: int, at: int | None) -> None:
        """Time goes by: what has no answer until now is told."""
        waiting, left = self._open[number], self._left[number]
        if left and not waiting and at is not None and left[0].at is not None and not 0 <= at - left[0].at <= WAITED:
            for label in sorted(left[1]):
                self._tell("unanswered", number, f"no answer of {label} within {milliseconds(WAITED)} ms", left[0].line, left[0].at, unit=label)
            self._left[number] = None
        while at is not None and waiting:
            asked = waiting[0].at
            if asked is None or 0 <= at - asked <= WAITED:
                return
            self._unanswered(number, waiting.popleft(), at)
            self._left[number] = None

    def _unanswered(self, number: int, one: Open, at: int | None) -> None:
        """A request stays without an answer up to a time. Who is off, or was, isn't accused."""
        to = self._requests[number].to
        if not self._hands.is_off(to, at) and not self._hands.was_off_since(to, one.at):
            self._tell("unanswered", number, f"no answer within {milliseconds(WAITED)} ms", one.line, one.at)

    def _tell(self, kind: str, number: int, text: str, line: int, at: int | None, value: int | None = None, unit: str = "") -> None:
        """A deviation of a request: of a unit that is named, else of who asks too often, else of who is asked."""
        request = self._requests[number]
        unit = unit or (request.sender if kind == "asked-early" or request.to == "all" else request.to)
        self._found.tell(kind, f"request {number + 1}, {request.what}: {text}", line, at, value, unit=unit)

    def goes_by(self, at: int) -> None:
        """Time goes by: all that has no answer until now is told."""
        for number, waiting in enumerate(self._open):
            if waiting or self._left[number]:
                self._pass(number, at)

    def end(self, last: int | None) -> None:
        """Tells what has no answer, where the last time of the log is this one. Of a log without times each request is to have one."""
        for number, waiting in enumerate(self._open):
            self._pass(number, last)
            for one in waiting:
                if one.at is None:
                    self._unanswered(number, one, None)
