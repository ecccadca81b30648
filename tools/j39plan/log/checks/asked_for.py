"""Messages that were asked for, so that they may come besides what is planned (SAE J1939-21): from a request on as long as who asks waits for an answer."""

from j39plan.j1939 import GLOBAL_ADDRESS
from j39plan.log.checks.requests import WAITED
from j39plan.log.reports import Request


class AskedFor:
    """When each group was asked for last, of an address or of all, by any request, and by one that the plan doesn't have, or has later."""

    def __init__(self) -> None:
        self._asked: dict[tuple[int, int], int | None] = {}
        self._besides: dict[tuple[int, int], int | None] = {}
        self._last: int | None = None

    def anew(self) -> None:
        """The clock was set: times of before count no more."""
        self._asked.clear()
        self._besides.clear()
        self._last = None

    def asks(self, at: int | None, request: Request, is_besides: bool) -> None:
        """A request comes, which may be one that the plan doesn't have, or not so soon."""
        key = request.pgn, GLOBAL_ADDRESS if request.to.address is None else request.to.address
        self._asked[key] = at
        if is_besides:
            self._besides[key], self._last = at, at

    def is_asked(self, pgn: int, source: int | None, at: int | None) -> bool:
        """Whether a message of a group was asked for, by the address that sends it."""
        return is_in(self._asked, pgn, source, at)

    def is_besides(self, pgn: int, source: int | None, at: int | None) -> bool:
        """Whether it was by a request that the plan doesn't have."""
        return self._last is not None and is_in(self._besides, pgn, source, at)

    def is_open(self, at: int) -> bool:
        """Whether such a request was so lately that messages are asked for."""
        return self._last is not None and at - self._last <= WAITED


def is_in(asked: dict[tuple[int, int], int | None], pgn: int, source: int | None, at: int | None) -> bool:
    """Whether a group was asked for lately of an address or of all; where there are no times ever before."""
    for to in (GLOBAL_ADDRESS, source):
        key = pgn, GLOBAL_ADDRESS if to is None else to
        if key in asked:
            since = asked[key]
            if at is None or since is None or 0 <= at - since <= WAITED:
                return True
    return False
