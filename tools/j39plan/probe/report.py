"""What a test of a box has found: as text, as an object of JSON, as tests of JUnit, and as a page."""

from __future__ import annotations

from collections import Counter
from collections.abc import Iterator
from html import escape
from typing import Any
from xml.etree import ElementTree

from j39plan.left_out import plain
from j39plan.plan.page import document, row, section, table
from j39plan.probe.meanings import MEANINGS
from j39plan.probe.planned import Planned
from j39plan.probe.run import FAILED, PASSED, SKIPPED, UNSURE, Result, Run
from j39plan.probe.steps import Step
from j39plan.probe.tester import Frame, Measure

VERDICTS = PASSED, FAILED, UNSURE, SKIPPED

# How many frames around a failed one a page shows before and behind it.
AROUND = 12


def spelled(lines: list[int]) -> str:
    """Lines of the log in words."""
    if not lines:
        return ""
    return f"line {lines[0]}" if len(lines) == 1 else f"lines {', '.join(map(str, lines))}"


def measured(measure: Measure) -> str:
    """A measured time beside its limit."""
    return f"{measure.what} {1000 * measure.seconds:.0f} of {1000 * measure.limit:.0f} ms"


def lines_of(result: Result) -> Iterator[str]:
    """A step as text: its verdict, what was measured, where; below it what to ask the supplier where it failed, and its notes."""
    measures = "; ".join(map(measured, result.measures)) if result.verdict in (PASSED, FAILED) else ""
    yield "  ".join(filter(None, (f"{result.verdict:7} {result.step.word:9} {result.said}", measures, spelled(result.lines))))
    if result.verdict == FAILED:
        yield f"ask     {result.step.word:9} the supplier: {MEANINGS[result.step.word].ask}"
    for text, lines in result.notes:
        yield "  ".join(filter(None, (f"note    {result.step.word:9} {text}", spelled(lines))))


def counts_of(run: Run) -> dict[str, int]:
    """How many steps there were, and with which verdicts."""
    verdicts = Counter(result.verdict for result in run.results)
    return {"steps": len(run.results), **{verdict.lower(): verdicts[verdict] for verdict in VERDICTS}}


def summary(run: Run) -> Iterator[str]:
    """What is told at the end, as text."""
    for left in run.left:
        yield f"stays   {left}"
    if run.ended:
        yield f"ended   {run.ended}: the steps behind aren't done"
    yield " ".join(f"{what} {count}" for what, count in counts_of(run).items())


def listed(planned: Planned, steps: list[Step], most: float) -> Iterator[str]:
    """The steps of a unit, with what they rest on, their time and what they send."""
    for step in steps:
        places = planned.places(*step.places(planned))
        yield f"{step.word:9} {step.seconds(planned, most):4.0f} s  {places}  {step.clause}  sends: {step.sends}"


def row_of(planned: Planned, result: Result) -> dict[str, Any]:
    """A step as JSON has it; times are in ms."""
    step = result.step
    return {"step": step.word, "verdict": result.verdict, "said": result.said, "plan": planned.places(*step.places(planned)), "clause": step.clause,
            "lines": result.lines, "ask": MEANINGS[step.word].ask if result.verdict == FAILED else None, "seconds": round(result.seconds, 3),
            "measures": [{"what": one.what, "ms": round(1000 * one.seconds, 3), "limit_ms": round(1000 * one.limit, 3), "line": one.line} for one in result.measures],
            "notes": [{"note": text, "lines": lines} for text, lines in result.notes]}


def object_of(planned: Planned, run: Run) -> dict[str, Any]:
    """The whole as JSON has it."""
    return {"plan": planned.source.name, "unit": planned.unit.label, "steps": [row_of(planned, result) for result in run.results], "stays": run.left,
            "ended": run.ended or None, "counts": counts_of(run)}


def write_junit(name: str, planned: Planned, run: Run) -> None:
    """Writes the steps as tests: what is unsure is an error, what can't be had is skipped."""
    counts = counts_of(run)
    suite = ElementTree.Element("testsuite", name=plain(f"{planned.source.name} {planned.unit.label}"), tests=str(counts["steps"]), failures=str(counts["failed"]),
                                errors=str(counts["unsure"]), skipped=str(counts["skipped"]))
    kinds = {FAILED: "failure", UNSURE: "error", SKIPPED: "skipped"}
    for result in run.results:
        case = ElementTree.SubElement(suite, "testcase", classname=planned.unit.label, name=result.step.word, time=f"{result.seconds:.3f}")
        if result.verdict in kinds:
            ElementTree.SubElement(case, kinds[result.verdict], message=plain(result.said)).text = "\n".join(map(plain, lines_of(result)))
        elif result.notes or result.measures:
            ElementTree.SubElement(case, "system-out").text = "\n".join(map(plain, lines_of(result)))
    ElementTree.indent(suite)
    ElementTree.ElementTree(suite).write(name, encoding="utf-8", xml_declaration=True)


def page_of(planned: Planned, run: Run, frames: list[Frame], version: str) -> str:
    """The page: the steps, times beside limits, notes, and the frames around those that failed."""
    title = f"{escape(planned.unit.label)} of {escape(planned.source.name)}"
    counts = ", ".join(f"{what} {count}" for what, count in counts_of(run).items())
    steps = [row(result.step.word, [f"<strong>{result.verdict}</strong>", escape(result.said), spelled(result.lines), escape(planned.places(*result.step.places(planned))),
                                    escape(result.step.clause), f"{result.seconds:.1f}"]) for result in run.results]
    times = [row(result.step.word, [escape(one.what), f"{1000 * one.seconds:.1f}", f"{1000 * one.limit:.0f}", str(one.line)])
             for result in run.results for one in result.measures]
    notes = [row(result.step.word, [escape(text), spelled(lines)]) for result in run.results for text, lines in result.notes]
    sections = {"steps": section("steps", "Steps", [table("Steps", ("Step", "Verdict", "Seen", "Log", "Plan", "Standard", "Seconds"), steps)])}
    if times:
        sections["times"] = section("times", "Times", [table("Longest times beside their limits, in ms", ("Step", "Time", "Longest", "Limit", "Line"), times)])
    if notes:
        sections["notes"] = section("notes", "Notes", [table("What a unit may do either way", ("Step", "Seen", "Log"), notes)])
    sections |= {f"failed-{result.step.word}": _failed(result, frames) for result in run.results if result.verdict == FAILED and result.lines}
    if run.left or run.ended:
        sections["end"] = section("end", "At the end", [f"<p>{escape(text)}</p>" for text in (*run.left, *([run.ended] if run.ended else []))])
    return document(title, f"<p>{counts}</p>", sections, version)


def _failed(result: Result, frames: list[Frame]) -> str:
    """The frames around those by which a step failed."""
    near = [frame for frame in frames if any(-AROUND <= frame.line - line <= AROUND for line in result.lines)]
    rows = [row(str(frame.line), [f"{frame.at - near[0].at:.6f}", "box" if frame.is_box else "tester", f"<code>{frame.identifier:08X}</code>", str(frame.pgn),
                                  str(frame.source), str(frame.to), f"<code>{frame.data.hex(' ').upper()}</code>" + (" <strong>here</strong>" if frame.line in result.lines else "")])
            for frame in near]
    heads = ("Line", "Seconds", "By", "Identifier", "PGN", "From", "To", "Data")
    return section(f"failed-{result.step.word}", f"Why {result.step.word} failed", [f"<p>{escape(result.said)}</p>", f"<p>To ask the supplier: {escape(MEANINGS[result.step.word].ask)}.</p>", table(f"Frames of {result.step.word}", heads, rows)])
