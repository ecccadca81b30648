"""Messages in a row: what no distance shows by itself, since a wait on the bus explains each one, all of them together may."""

# By so many parts in 1,000 the clocks of a unit and of a log may differ, where many periods are added up.
CLOCKS = 1


class Row:
    """When the next message of a flow is due by all before it, where each may miss that by a slack of its own. Where times are counted back the same
    rule tells of messages that come too late."""

    __slots__ = ("_step", "_slack", "_due", "_begin", "_count")

    def __init__(self, step: int, slack: int) -> None:
        self._step, self._slack = step, slack
        self._begin = self._count = 0
        self._due: int | None = None

    def ends(self) -> None:
        """The next message is the first one of a row."""
        self._due = None

    def came(self, at: int, moment: int, more: int) -> int | None:
        """A message comes, whose moment was no sooner than this: the mean distance in the row, where it comes before it is due by more than the slack, and
        than what else it may miss that by."""
        due = self._due
        if due is None or at >= due:
            self._begin, self._count = at, 0
            self._due = (moment if due is None or moment > due else due) + self._step
            return None
        self._count += 1
        if due - at <= self._slack + more:
            self._due = due + self._step
            return None
        mean = abs(at - self._begin) // self._count
        self._begin, self._count, self._due = at, 0, at + self._step
        return mean
