"""The times of a log: what they are, and where its clock was set."""

import datetime
import re

from j39plan import program
from j39plan.log.files import Log

# A time in seconds, as a log spells it, and nanoseconds in a second and a millisecond.
TIME = re.compile(r"\((\d+)(?:\.(\d*))?\)")
NINES = "9999.999999)"
SECOND, MILLISECOND = 10**9, 10**6

# Times that go on by more, or back by more, are those of a clock that was set. What goes back by less is out of order; where that is a
# millisecond or less, as where lines of several interfaces were joined, it isn't told.
DAY, BACK, ORDER = 86_400 * SECOND, SECOND, MILLISECOND

# Times from this one on are those of a calendar, in seconds since 1970.
CALENDAR = 10**8


def nanoseconds(time: str) -> int | None:
    """A time of a log; None where there is none."""
    if time[-8:-7] == "." and time[1:-8].isdecimal():
        try:
            return int(time[1:-8] + time[-7:-1]) * 1000
        except ValueError:
            pass
    found = TIME.fullmatch(time)
    return int(found.group(1)) * SECOND + int(f"{found.group(2) or '':0<9.9}") if found else None


def ends_of(log: Log) -> tuple[int | None, int | None]:
    """The first and the last time of a log that was read."""
    begin, end = log.ends()
    firsts, lasts = (text.decode("ascii", "replace").split("\n") for text in (begin, end))
    times = (nanoseconds((line.split(maxsplit=1) or [""])[0]) for line in firsts)
    backwards = (nanoseconds((line.split(maxsplit=1) or [""])[0]) for line in reversed(lasts))
    return next((time for time in times if time is not None), None), next((time for time in backwards if time is not None), None)


def milliseconds(duration: int) -> str:
    """A duration in nanoseconds, in ms."""
    text = f"{duration // MILLISECOND}.{duration % MILLISECOND:06}"
    return text.rstrip("0").rstrip(".")


def spelled_time(at: int) -> str:
    """A time in nanoseconds as a log spells it: in microseconds, or in nanoseconds where it has these."""
    rest = at % SECOND
    return f"({at // SECOND}.{rest:09})" if rest % 1000 else f"({at // SECOND}.{rest // 1000:06})"


def counted(first: int | None) -> str:
    """What the axis counts, where that is the first time of a log."""
    if first is None:
        return "lines of the log"
    text, at = "time in s from the log's first frame, at ", f"{first // SECOND}.{first % SECOND // 1000:06}"
    if first < CALENDAR * SECOND:
        return text + at
    day = datetime.datetime.fromtimestamp(first // SECOND, datetime.timezone.utc)
    return f"{text}{day:%Y-%m-%d %H:%M:%S} UTC ({at})"


def in_words(duration: int) -> str:
    """A duration in nanoseconds, as far as one wants to know it."""
    if duration < SECOND:
        return f"{milliseconds(duration)} ms"
    return f"{duration / SECOND:.1f} s" if duration < DAY else f"{duration / DAY:.1f} days"


class Clock:
    """The clock of a log, line by line: by how much a time is to be put on so that the clock never was set. What goes back by a second or less
    is a clock that was set too, but for a single line that is out of order: time jumps by as much right before or behind it."""

    def __init__(self) -> None:
        self.shift, self.last = 0, 0
        self._before = 0  # the time before the last one
        self._most, self._back_to, self._taken = DAY, 0, 0  # a jump by more is looked at; where time went back to last, and what was put on for that
        self.is_set = self.is_back = False  # at the line that was seen last: whether the clock was set, and whether time goes back
        self.has_times = False
        self.first_line = self.back = self.on = 0
        self._said = self._glanced = self._end = ""
        self._head, self._base = "?", 0  # what a time begins with up to its microseconds, and what that is in nanoseconds

    def see(self, line: int, time: str) -> int | None:
        """The time of a line in nanoseconds, None where it has none."""
        if time[:-7] == self._head:
            at = self._base + int(time[-7:-1]) * 1000
        else:
            told = nanoseconds(time)
            if told is None:
                return None
            at = told
            if time[-8:-7] == ".":
                self._head, self._base = time[:-7], at - int(time[-7:-1]) * 1000
        last = self.last
        step, self.last = at - last, at
        self.is_set = self.is_back = False
        if not self.has_times:
            self.has_times = True
            self._before = at
            return at
        if step < -ORDER or step > self._most:
            self._jumps(line, step, last)
        self._before = last
        return at

    def goes_on(self, time: str) -> bool:
        """Whether a time surely goes on from the one before, so that none but who asks what it is has to `see` it: one in microseconds
        that is spelled as long, no smaller, and with the same digits up to those of ten thousand seconds."""
        before, self._glanced = self._glanced, time
        if before <= time <= self._end and len(time) == len(self._end) and time[-8] == ".":
            return True
        self.last = nanoseconds(before) or self.last
        head = time[:-len(NINES)] or "("
        self._end = head + NINES[len(head) - len(time):] if time[-8:-7] == "." else ""
        return False

    def _jumps(self, line: int, step: int, last: int) -> None:
        """Time goes back, or on by much; where it goes on by as much as it went back in the line before, that one was out of order."""
        if last == self._back_to and self._taken and step >= self._taken:
            self.shift -= self._taken
        self._most, self._taken = DAY, 0
        if step < -ORDER or step > DAY:
            self._set(line, step, last)

    def _set(self, line: int, step: int, last: int) -> None:
        """The clock was set, or what came is out of order."""
        self.is_set, self.is_back = step > DAY or -step > BACK, step < 0
        if self.is_set:
            self.shift -= step
        elif last - self._before < -step:
            self.shift -= step
            self._most, self._back_to, self._taken = -step - 1, last + step, -step
        self.back, self.on = self.back + (step < 0), self.on + (step > 0)
        if not self._said:
            self.first_line = line
            self._said = f"goes back by {in_words(-step)}" if step < 0 else f"jumps by {in_words(step)}"

    def seconds(self, line: int) -> float:
        """The time that was seen last, as if the clock never was set; in a log without times the line."""
        return (self.last + self.shift) / SECOND if self.has_times else float(line)

    def say(self, log: Log) -> None:
        """Says on standard error where the clock was set first."""
        if self._said:
            name, line = log.place(self.first_line)
            times = self.back + self.on
            program.say(f"{name}:{line}: time {self._said}" + (f"; times go back or jump {times} times in all" if times > 1 else ""))
