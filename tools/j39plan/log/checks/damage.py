"""Error frames of a log (CAN_ERR_* of Linux): damaged frames of the bus against what `load` has room for, and what keeps the log from having all."""

from collections import deque

from j39plan.log.checks.deviations import Found
from j39plan.log.checks.feed import Noted
from j39plan.log.clock import MILLISECOND, milliseconds
from j39plan.plan.tables import Timing

# The classes of an error frame that tell of a damaged attempt: a violation of the protocol, no acknowledgement, an error on the bus.
DAMAGE = 0x08 | 0x20 | 0x80

# The class of violations, and the bit of an overload frame among these, in byte 3.
VIOLATION, OVERLOAD = 0x08, 0x20


# The class of what the controller is in, and its bits in byte 2: frames were lost since nobody took them, and it is error passive.
CONTROLLER, OVERFLOW, PASSIVE = 0x04, 0x01, 0x10 | 0x20

# The controller takes no part any more, and takes part again.
BUS_OFF, RESTARTED = 0x40, 0x100


class Damage:
    """The error frames of a log. Damaged frames are looked at only where the plan has `timing`."""

    def __init__(self, timing: Timing | None, found: Found) -> None:
        self._timing, self._found = timing, found
        self.frames = 0  # error frames of any class
        self.is_off = False  # whether the interface is off, so that nothing is heard
        self._came: deque[int] = deque()  # the times of the last ones
        self._most: tuple[int, int, int] | None = None  # the most within the time, from the first to the last of them, and the line

    def came(self, line: int, at: int | None, frame: Noted) -> bool:
        """An error frame; whether frames may be missing there, so that what isn't in the log is no unit's fault."""
        self.frames += 1
        is_missing = self._of_the_interface(line, at, frame)
        if self._timing is None:
            return is_missing
        if frame.identifier & VIOLATION and frame.data[2] & OVERLOAD:
            self._found.tell("overload", "an overload frame, for which 'load' has no room", line, at)
        elif frame.identifier & DAMAGE and self._timing.errors is None:
            self._found.tell("damaged", "a damaged frame: by 'load' none is, since `timing` has no `errors`", line, at)
        elif frame.identifier & DAMAGE and at is not None and self._timing.errors:
            self._count(line, at, self._timing.errors.count, self._timing.errors.every * MILLISECOND)
        return is_missing

    def _of_the_interface(self, line: int, at: int | None, frame: Noted) -> bool:
        """What the interface that records the log says of itself; whether frames may be missing."""
        state = frame.data[1] if frame.identifier & CONTROLLER else 0
        if frame.identifier & BUS_OFF:
            self.is_off = True
            self._found.tell("bus-off", "the interface of the log is bus-off: it hears nothing until it is restarted", line, at)
        if state & OVERFLOW:
            self._found.tell("lost-frames", "the interface lost frames, since nobody took them: the log lacks these", line, at)
        if state & PASSIVE:
            self._found.tell("error-passive", "the interface of the log is error passive: many frames were damaged", line, at)
        if frame.identifier & RESTARTED:
            self._found.tell("restarted", "the interface of the log was restarted after bus-off", line, at)
        return bool(frame.identifier & (BUS_OFF | RESTARTED) or state & OVERFLOW)

    def _count(self, line: int, at: int, count: int, every: int) -> None:
        """How many came within the time."""
        came = self._came
        if came and came[-1] > at:
            came.clear()
        came.append(at)
        while at - came[0] >= every:
            came.popleft()
        if len(came) > max(count, self._most[0] if self._most else 0):
            self._most = len(came), at - came[0], line

    def end(self) -> None:
        """Tells the most that came within the time that the plan has."""
        if self._most and self._timing and self._timing.errors:
            most, within, line = self._most
            planned = f"`errors` has {self._timing.errors.count} in {self._timing.errors.every} ms"
            self._found.tell("damaged", "{} damaged frames", line, self._came[-1] if self._came else None, most,
                             detail=f" within {milliseconds(within)} ms: {planned}")
