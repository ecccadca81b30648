"""How long the bus was busy without a break, by the times of a log: no longer can a frame have waited for it."""

from j39plan.log.clock import SECOND
from j39plan.plan.tables import Timing

# So many bits has the longest frame, and so many such frames fit into a break.
FRAME_BITS, FRAMES = 160, 2


class Busy:
    """Since when frames follow one another without a break, by the times at which they came."""

    def __init__(self, timing: Timing | None) -> None:
        self.idle = FRAMES * FRAME_BITS * SECOND // timing.bitrate if timing else 0
        self.since = self.last = 0

    def comes(self, at: int) -> None:
        """A frame comes."""
        if not 0 <= at - self.last <= self.idle:
            self.since = at
        self.last = at

    @property
    def waited(self) -> int:
        """How long the last frame may have waited."""
        return self.last - self.since
