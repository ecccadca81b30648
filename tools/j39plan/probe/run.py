"""A test of a box: its steps one after another, each with its verdict; behind one that fails the box is looked for."""

from __future__ import annotations

from collections.abc import Iterator, Sequence
from dataclasses import dataclass

from j39plan.j1939 import CONNECTION_MANAGEMENT, DATA_TRANSFER, GLOBAL_ADDRESS, ADDRESS_CLAIMED
from j39plan.log.checks.transfers import BAM
from j39plan.probe.limits import ENDS, PROMPT, STARTS
from j39plan.probe.steps import ERASES, Step
from j39plan.probe.tester import TOOL, Ended, Failed, Frame, Measure, Noticed, Tester, Unsure

PASSED, FAILED, UNSURE, SKIPPED = "passed", "FAILED", "unsure", "skipped"

# Trouble codes: active ones (DM1), former ones (DM2).
ACTIVE, FORMER = 65226, 65227

# What erases trouble codes: DM3 and DM11.
ERASING = 65228, 65235


@dataclass
class Result:
    """What came of a step: its verdict, what was seen or why it failed, the lines of the log that show it, the first and last one of the step, notes,
    measures, and how long it took, in seconds."""

    step: Step
    verdict: str
    said: str
    lines: list[int]
    span: tuple[int, int]
    notes: list[tuple[str, list[int]]]
    measures: list[Measure]
    seconds: float


class Run:
    """A test of a box by some steps."""

    def __init__(self, bench: Tester, steps: Sequence[Step], words: Sequence[str] = ()) -> None:
        self._bench, self._steps, self._erases = bench, steps, ERASES in words
        self._is_gone = False
        self.results: list[Result] = []
        self.left: list[str] = []  # what stays in the box
        self.ended = ""  # why it ended before its last step

    def goes(self) -> Iterator[Result]:
        """The results, one after another. An interrupt ends it."""
        bench = self._bench
        try:
            bench.begins()
            before = codes(bench)
            for step in self._steps:
                result = self._one(step)
                self.results.append(result)
                yield result
                if self.ended:
                    return
                self._recover(result.verdict == FAILED)
            self._stays(before)
        except Ended:
            self.ended = self._why()

    def _why(self) -> str:
        """Why the test ended."""
        return "the tester's controller has left the bus" if self._bench.bus.is_off else "an interrupt"

    def _one(self, step: Step) -> Result:
        """A step with its verdict."""
        bench, begin, line, errors = self._bench, self._bench.now, self._line(), self._bench.bus.errors
        bench.noticed = Noticed()
        frames: list[Frame] = []
        try:
            verdict, said = (UNSURE, "the box is gone, and nothing switches it") if self._is_gone else (SKIPPED, step.lacks(bench))
            if not said:
                verdict, said = PASSED, step.course(bench)
        except Failed as why:
            verdict, said, frames = FAILED, str(why), why.frames
            if doubts := self._doubts(errors):
                verdict, said = UNSURE, f"{said}; but {doubts}"
        except Unsure as why:
            verdict, said = UNSURE, str(why)
        except Ended:
            self.ended = self._why()
            verdict, said = UNSURE, f"it ended amid this step: {self.ended}"
        if verdict == PASSED:
            bench.passed.add(step.word)
        measures = list(bench.noticed.measures.values())
        lines = [frame.line for frame in frames] or sorted({measure.line for measure in measures})
        return Result(step, verdict, said, lines, (line + 1, self._line()), bench.noticed.notes, measures, bench.now - begin)

    def _line(self) -> int:
        """The last line of the log."""
        return self._bench.frames[-1].line if self._bench.frames else 0

    def _doubts(self, errors: int) -> str:
        """Why it isn't the box's fault for sure that a step failed."""
        bench = self._bench
        if bench.bus.errors > errors:
            return f"{bench.bus.errors - errors} error frames were heard"
        if bench.noticed.late:
            return f"{bench.noticed.late} frames of the tester were later than {1000 * PROMPT:.0f} ms"
        if bench.doubled:
            doubled, bench.doubled = bench.doubled, None
            return f"address {doubled.source}, which is played here, sends too, at line {doubled.line}"
        return ""

    def _recover(self, is_failed: bool) -> None:
        """Others leave; what is open ends; a box that is gone is switched off and on."""
        bench = self._bench
        bench.leave([address for address in bench.holders if address != TOOL])
        bench.takes()
        if is_failed:
            bench.pause(ENDS)
        if self._is_gone or not is_failed and bench.address is not None or self._is_there():
            return
        if not bench.bus.has_power:
            self._is_gone = True
            return
        bench.bus.power(False)
        bench.pause(PROMPT)
        bench.bus.power(True)
        bench.address = bench.planned.unit.address
        bench.wait(lambda frame: frame.is_box, STARTS)
        bench.pause(ENDS)

    def _is_there(self) -> bool:
        """Whether the box has an address, and says so; one that never did sends something."""
        bench = self._bench
        if bench.address is None:
            return False
        asked = bench.asks(ADDRESS_CLAIMED, bench.address, bench.tool)
        claims = "asked" in bench.passed
        return bench.wait(lambda frame: frame.is_box and frame.source == bench.address and (not claims or frame.pgn == ADDRESS_CLAIMED), bench.limit(ENDS), asked) is not None

    def _stays(self, before: dict[int, bytes]) -> None:
        """What stays in the box: an address, trouble codes."""
        bench = self._bench
        if bench.address not in (None, bench.planned.unit.address):
            self.left.append(f"it is at address {bench.address}, not at {bench.planned.unit.address}, and may keep that")
        if self._erases:
            for pgn in ERASING:
                bench.asks(pgn, bench.there, bench.tool)
                bench.pause(bench.answer)
        after = codes(bench)
        for pgn, name in ((ACTIVE, "DM1"), (FORMER, "DM2")):
            if before.get(pgn, after.get(pgn)) != after.get(pgn):
                self.left.append(f"{name} is {after[pgn].hex() if pgn in after else 'silent'}, was {before[pgn].hex()} before")


def codes(bench: Tester) -> dict[int, bytes]:
    """The trouble codes that the box tells: DM1 if the plan has it so, DM2 when asked."""
    groups = {bench.group(flow).pgn for flow in bench.planned.sent} & {ACTIVE, FORMER}
    if not groups or bench.address is None:
        return {}
    begin = len(bench.frames)
    if FORMER in groups:
        bench.asks(FORMER, GLOBAL_ADDRESS, bench.tool)
    bench.pause(ENDS)
    found = dict[int, bytes]()
    announced: int | None = None
    for frame in bench.frames[begin:]:
        if frame.is_box and frame.pgn in groups:
            found[frame.pgn] = frame.data
        elif frame.is_box and frame.pgn == CONNECTION_MANAGEMENT and frame.data[:1] == bytes((BAM,)):
            announced = int.from_bytes(frame.data[5:], "little")
            if announced in groups:
                found[announced] = b""
        elif frame.is_box and frame.pgn == DATA_TRANSFER and announced in groups:
            found[announced] += frame.data[1:]
    return found
