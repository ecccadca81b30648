"""What the package hands out: a plan with what the program answers of it, and what the tools tell of a log."""

from __future__ import annotations

import contextlib
import importlib
import io
import json
import os
import re
import subprocess
import tempfile
import warnings
from collections.abc import Generator, Iterable, Iterator
from typing import IO, TYPE_CHECKING, Any, NamedTuple

from j39plan import program
from j39plan.fleet import drives
from j39plan.fleet.drives import Deviation, Drive
from j39plan.log import message_lines, reports
from j39plan.log.audit import Accused, Audit, audit_of
from j39plan.log.data_frames import data_frame
from j39plan.log.files import Log, OneInterface, whole
from j39plan.log.reports import Who
from j39plan.log.told import Acknowledgement, Claim, Frame, Message, Reading, Readings, Request, Told, told_of
from j39plan.plan import answers
from j39plan.plan.answers import Age, Delay, Finding, Load, Stand
from j39plan.plan.files import text_of
from j39plan.plan.parts import Source
from j39plan.plan.tables import Flow, Group, Need, Signal, Tables, Text, Unit
from j39plan.plan.tables import Request as Asking
from j39plan.program import Refused
from j39plan.vehicle import answers as vehicle_answers
from j39plan.vehicle.answer_objects import vehicle_object
from j39plan.vehicle.files import Vehicle as VehicleFiles
from j39plan.vehicle.tables import Forward, Gateway
from j39plan.vehicle.tables import Need as VehicleNeed

if TYPE_CHECKING:
    import pandas

    from j39plan.inside import Session

__all__ = [
    "Accused", "Acknowledgement", "Age", "Asking", "Audit", "Claim", "Code", "Delay", "Deviation", "Drive", "Finding", "FirstPlan", "Flow", "Forward", "Frame",
    "Gateway", "Group", "Load", "Message", "Need", "Notice", "Plan", "Reading", "Readings", "Refused", "Request", "Signal", "Stand", "Text", "Unit", "Vehicle",
    "VehicleFinding", "VehicleNeed", "Who", "audit", "codes", "deviations", "drive", "follow", "frame", "log2plan", "read_plan", "read_vehicle", "signals",
]

# A log, and what several of one drive are.
Name = str | os.PathLike[str]

# How a tool names the interface to choose.
INTERFACE = re.compile(r"--interface (\S+)")


class Notice(UserWarning):
    """What a tool says on standard error of a log that it reads: lines that spell no frame, interfaces that weren't read, a clock that was set."""


class Plan:
    """A plan that the program can read, whatever `check` finds in it.

    `name` is the name of its file, `text` what that holds, and `shown` what `show` answers of it. `version` is that of the format; `kept` are the
    addresses that no unit may choose; `units`, `groups`, `flows` and `needs` stand in the order of the file, as `Unit`, `Group` (with its `signals`
    and `texts`), `Flow` and `Need`, and `requests` as `Asking`; which flows meet a need says `need.is_met_by(flow)`. Of each the keys that aren't
    said have their defaults. Bytes and bits count from 1, lengths are in bytes, widths in bits, periods in ms; the value of a signal's raw number,
    in its `unit`, is `signal.value(raw)`, exactly, and `signal.values` has the names of raw numbers. `strangers` is how many further units may
    come, and `live` whether messages begin while units claim, and units go off in the midst of one.
    """

    def __init__(self, name: str, text: str) -> None:
        self.name, self.text = name, text
        with _with_program(), program.file_of(text) as plan:
            self.shown = program.shown(plan)
        source, tables = Source(text), Tables.shown(self.shown)
        self.version: int = source.version
        self.kept: list[int] = source.kept
        self.units: list[Unit] = tables.units
        self.groups: list[Group] = tables.groups
        self.flows: list[Flow] = tables.flows
        self.needs: list[Need] = tables.needs
        self.requests: list[Asking] = tables.requests
        self.strangers: int = tables.strangers
        self.live: bool = tables.live
        self.tables = tables

    def __repr__(self) -> str:
        return f"<plan {self.name}: {len(self.units)} units {len(self.groups)} groups {len(self.flows)} flows>"

    def findings(self) -> list[Finding]:
        """What `check` finds: of each its `text`, as `F8 SignalOverlap ..`, the `line` of the file, a `hint`, and the `steps` of a run that shows
        it. The list is empty where `check` says ok."""
        return list(answers.findings(Source(self.text), self._answer("check")))

    def stands(self) -> dict[str, Stand]:
        """By the labels of units whether each `stays` at its `address` in every run. Empty where the addresses have findings."""
        return answers.stands(self._answer("addresses"))

    def load(self) -> Load | None:
        """What `load` tells: the `delays` of flows and the `ages` of what is needed, in us, and of how many bits a second how many are `taken`,
        None where the plan has findings before that. None of a plan that says nothing of its bus."""
        return answers.load_of(self._answer("load"))

    def decode(self, identifier: int, data: bytes | str) -> Message | None:
        """The message that a frame with this identifier of 29 bits and these data is, bytes or hex digits, or None where no group of the plan fits:
        `plan.decode(0x0CF00400, "FFFFFF0019FFFFFF").signals["SPN190"].value`. Who sent it is known by the plan alone. A message of more than 8
        bytes has the identifier that a frame of its group would have. The program is started for each: for a log take `signals` or `frame`.

        Raises `ValueError` where there is no such frame, and `Refused` as `follow` does."""
        log = message_lines.log_of(identifier, bytes.fromhex(data) if isinstance(data, str) else bytes(data))
        with program.file_of(log) as name, contextlib.closing(follow(self, name)) as reports_of_it:
            return next((report for report in reports_of_it if isinstance(report, Message)), None)

    def _answer(self, command: str) -> str:
        """What a command of the program writes of the plan."""
        with _with_program(), program.file_of(self.text) as plan:
            return program.call([command, "--", plan])[1]


def read_plan(name: str | os.PathLike[str], variant: Iterable[str] | None = None) -> Plan:
    """The plan of a file; of one with choices the plan of the first vehicle that is built with these alternatives.

    Raises `Refused`, whose text begins with file and line, where the file is no plan; `OSError` where it can't be opened.
    """
    name = os.fspath(name)
    try:
        with _with_program():
            return Plan(name, text_of(name, None if variant is None else list(variant)))
    except Refused as refused:
        if not str(refused).endswith(program.CHOICES):
            raise
        hint = f"read_plan({name!r}, variant=[..]) takes the plan of one vehicle, by the labels of its alternatives"
        raise Refused(refused.status, f"{name}: {program.CHOICES}: {hint}") from None


class VehicleFinding(NamedTuple):
    """What `vehicle` found: the file and its line, the label of the bus whose plan that is, empty of the vehicle's file; the text, a hint, and its
    number and its name, as `G12` and `TooRare`."""

    file: str
    line: int
    bus: str
    text: str
    hint: str
    number: str
    name: str


class Vehicle:
    """A vehicle of several buses that the program can read, whatever it finds in it.

    `name` is the name of its file; `buses` are the plans of its buses by their labels, and `gateways`, `forwards` and `needs` stand in the order
    of the file: of each the keys as `Gateway`, `Forward` and `VehicleNeed` have them. `answer` is what `j39plan-answer vehicle` writes: by when forwards
    are queued, how old what is needed is, and the load of each bus, in us.
    """

    def __init__(self, name: str) -> None:
        self.name = name
        with _with_program(), open(name, "rb") as file:
            data = file.read()
            status, self._parts, further = vehicle_answers.answered(name, name, data)
        if status not in (0, 1):
            raise Refused(status, next((f"{part.file}:{part.part.line}: {part.part.text}" for part in self._parts if part.part.line), f"{name} can't be read"))
        files = VehicleFiles(Source(data.decode(), name), name)
        self.answer: dict[str, Any] = vehicle_object(name, status, self._parts, None, further)
        self.buses: dict[str, Plan] = {bus.label: read_plan(files.file_of(bus)) for bus in files.tables.buses}
        self.gateways: list[Gateway] = files.tables.gateways
        self.forwards: list[Forward] = files.tables.forwards
        self.needs: list[VehicleNeed] = files.tables.needs

    def __repr__(self) -> str:
        return f"<vehicle {self.name}: {len(self.buses)} buses {len(self.gateways)} gateways {len(self.forwards)} forwards {len(self.needs)} needs>"

    def findings(self) -> list[VehicleFinding]:
        """What `vehicle` finds in the vehicle's file and in the plans of its buses. The list is empty where it says ok."""
        return [VehicleFinding(file, part.line, bus, part.answer, part.hint, *part.answer.split()[:2]) for file, bus, part in self._parts if part.line is not None]


def read_vehicle(name: str | os.PathLike[str]) -> Vehicle:
    """The vehicle of a file, with the plans that it names.

    Raises `Refused`, whose text begins with file and line, where the file is none, or a plan can't be read or opened; `OSError` where the file itself
    can't be opened.
    """
    return Vehicle(os.fspath(name))


def follow(plan: Plan, log: Name, *, all_frames: bool = False, interface: str | None = None) -> Generator[Told, None, None]:
    """The reports of a log of `candump -L`, one by one as `follow` writes them: messages of planned groups, claims, requests, and of a plan
    with requests acknowledgements; where all frames are asked for, a `Frame` also of each other one, with its `pgn`, `priority` and `data`. Of several
    interfaces the one that is named is read, else the first.

    Of each the `line`, from 1, and the `time` in seconds, None where the line has none; who sent it (`sender`, `to`) or claimed (`who`, and of a unit
    of any serial number the `identity` of its box). A message has its `group`, the number of its `flow`, from 1 and 0 for none, its `data`, and its
    `signals`, by their labels the `Readings`.

    Raises `Refused` where the plan has a group that can't be laid out, where the log has lines and no frame, and where the program fails in the
    midst; `OSError` where the log can't be opened.
    """
    log, groups, counts, ended = os.fspath(log), {group.label: group for group in _plan(plan).groups}, reports.Counts(), _Ended()
    with open(log, "rb"), _with_program(), program.file_of(plan.text) as copy, \
            contextlib.closing(_followed(copy, log, all_frames, interface, counts, ended)) as lines:
        for report in reports.reports_of(lines, plan.tables, counts):
            yield told_of(report, groups)
    if ended.status:
        raise Refused(ended.status, ended.refusal or f"{log}: {ended.said}")
    if not os.path.isfile(log):  # a pipe, which is read
        _notice(counts.told())
        return
    with Log([log], interface) as there:
        if not counts.frames and (counts.bad or counts.elsewhere):
            counts.refuse_without_frames(there)
        told = list(counts.told(there))
    _notice(told)


def _followed(plan: str, log: str, all_frames: bool, interface: str | None, counts: reports.Counts, ended: _Ended) -> Generator[str, None, None]:
    """The lines that `follow` writes of a log, of which an interface may be chosen."""
    options = ["--all"] if all_frames else []
    session = program.session(["follow", *options, "--", plan, program.INPUT], plan)
    if session:
        yield from _followed_inside(session, log, interface, counts, ended)
    else:
        yield from _followed_beside(["follow", *options, "--", plan], log, interface, counts, ended)


def _followed_inside(session: Session, log: str, interface: str | None, counts: reports.Counts, ended: _Ended) -> Iterator[str]:
    """The same by a session."""
    with session, open(log, "rb") if interface is None else whole(log) as file:
        part = None if interface is None else OneInterface(file, interface)
        pieces = reports.as_it_comes(file) if part is None else reports.in_blocks(reports.as_it_comes(part))
        yield from ended.passed(io.TextIOWrapper(session.answer(pieces), "ascii"))
        status, said = session.ended()
    ended.ends(status, said)
    if part:
        counts.pass_over(part)


def _followed_beside(words: list[str], log: str, interface: str | None, counts: reports.Counts, ended: _Ended) -> Iterator[str]:
    """The same by a process, which is ended where nobody wants its answer any more."""
    words = [program.path(), *words, log if interface is None else program.INPUT]
    source = subprocess.DEVNULL if interface is None else subprocess.PIPE
    with subprocess.Popen(words, stdin=source, stdout=subprocess.PIPE, stderr=subprocess.PIPE) as process, contextlib.ExitStack() as opened:
        writer = None
        if interface is not None and process.stdin is not None:
            part = OneInterface(opened.enter_context(whole(log)), interface)
            writer = reports.Writer(reports.as_it_comes(part), process.stdin, False)
            writer.start()
        try:
            assert process.stdout is not None and process.stderr is not None
            with io.TextIOWrapper(process.stdout, "ascii") as lines:
                yield from ended.passed(lines)
            said = process.stderr.read()
        except BaseException:
            process.kill()
            raise
        finally:
            if writer:
                writer.close()
                counts.pass_over(part)
    ended.ends(process.returncode, said)


def signals(plan: Plan, log: Name, names: str | Iterable[str] = (), *, interface: str | None = None) -> Iterator[dict[str, Any]]:
    """The signals of a log, a row each: all, or those of `names`: a group, a signal or `GROUP.SIGNAL`, or several. `frame` has them for pandas.

    A row is an object that `j39plan-signals --json` writes: `time` (seconds, as a float), `line`, `from`, `to`, `group`, `signal`,
    `state` (`value`, `absent`, `fault` ..), `value` (a number in the unit of measurement, where the state is `value`), `unit` and what else
    that tool has. A key is left out where there is nothing to say. Raises as `follow` does, and `Refused` for a name that the plan
    doesn't have.
    """
    with _table(plan, log, names, "--json", interface) as rows:
        yield from map(json.loads, rows)


def frame(plan: Plan, log: Name, names: str | Iterable[str] = (), *, interface: str | None = None) -> pandas.DataFrame:
    """The signals of a log as a table of pandas, whose index is the time, in UTC: the columns of `j39plan-signals --csv`, texts as categories,
    addresses and lines as integers. It takes a tenth of the memory of `pandas.DataFrame(signals(..))`. Raises as `signals` does, and
    `ImportError` where pandas is missing."""
    importlib.import_module("pandas")  # before the log is read
    with _table(plan, log, names, "--csv", interface) as rows:
        return data_frame(rows)


def _plan(plan: Plan) -> Plan:
    """A plan, where it is one."""
    if not isinstance(plan, Plan):
        raise TypeError(f"{plan!r} is no plan: take read_plan({plan!r})" if isinstance(plan, str | os.PathLike) else f"{plan!r} is no plan, as read_plan answers it")
    return plan


def _options(interface: str | None) -> list[str]:
    """The words by which a tool reads an interface."""
    return [] if interface is None else ["--interface", interface]


def _said(said: bytes) -> list[str]:
    """What a tool says, without its name."""
    return [line.partition(": ")[2] or line for line in said.decode(errors="replace").splitlines()]


@contextlib.contextmanager
def _table(plan: Plan, log: Name, names: str | Iterable[str], form: str, interface: str | None) -> Iterator[IO[bytes]]:
    """What `j39plan-signals` writes of a log in a form."""
    log, chosen = os.fspath(log), [names] if isinstance(names, str) else list(names)
    with open(log, "rb"), _with_program(), program.file_of(_plan(plan).text) as copy:
        with program.started("signals", [form, *_options(interface), "--", copy, log, *chosen]) as process:
            assert process.stdout is not None and process.stderr is not None
            fault: Exception | None = None
            try:
                yield process.stdout
            except ValueError as why:  # of a table that ended before its heads
                fault = why
            said = _said(process.stderr.read())
        if process.returncode:
            raise Refused(process.returncode, said[-1] if said else f"{log}: j39plan-signals ended with {process.returncode}")
    if fault:
        raise fault
    _notice(said, 5)


def _answered(tool: str, words: list[str]) -> tuple[str, list[str]]:
    """What a tool writes, and what it says of what it reads."""
    with _with_program(), program.started(tool, words) as process:
        answer, errors = process.communicate()
    if process.returncode:
        said = _said(errors)
        raise Refused(process.returncode, said[-1] if said else f"j39plan-{tool} ended with {process.returncode}")
    return answer.decode(), [line.removeprefix(f"{tool}: ") for line in errors.decode(errors="replace").splitlines() if line.startswith(f"{tool}: ")]


def _notice(told: Iterable[str], level: int = 3) -> None:
    """Warns of what tools say, at a place so many calls above."""
    for text in told:
        warnings.warn(INTERFACE.sub(r'interface="\1"', text), Notice, stacklevel=level)


def _logs(log: Name | Iterable[Name]) -> list[str]:
    """The names of one log, or of several, each of which can be opened."""
    names = [os.fspath(log)] if isinstance(log, str | os.PathLike) else [os.fspath(name) for name in log]
    for name in names:
        with open(name, "rb"):
            pass
    return names


def deviations(plan: Plan, log: Name, options: Iterable[str] = (), *, interface: str | None = None) -> list[Deviation]:
    """Where a log isn't as the plan has it, as `j39plan-against --json` writes it: of each its `line`, None where it has none, its `text`, how many
    `times` it was met, its `kind`, the number of its `flow`, its `unit`, the `time` of the line in seconds, and the `value` that was measured.
    `options` are those of that tool, as `["--jitter", "2.5"]`. Raises as `follow` does."""
    log = os.fspath(log)
    with open(log, "rb"), _with_program(), program.file_of(_plan(plan).text) as copy:
        found, said, _ = drives.compared(copy, log, [*options, *_options(interface)])
    _notice(said)
    return found


def drive(plan: Plan, log: Name, options: Iterable[str] = (), *, interface: str | None = None) -> Drive:
    """What `j39plan-fleet` takes of a log: a table with its deviations, counts, silences (in seconds), claims, and the least and greatest
    values of its signals. It raises nothing: a log that can't be read says so by `failed`."""
    return drives.drive_of(_plan(plan).text, plan.shown, os.fspath(log), os.path.abspath(log), [*options, *_options(interface)])


def audit(plan: Plan, log: Name, *, part: bool = False, stamps: int | None = None, quiet: int | None = None, interface: str | None = None) -> Audit:
    """What a log refutes of a plan, as `j39plan audit` answers: who is `accused` of what, how often each flow was `seen`, and how many lines the log has
    of each kind. `part` says that it lacks frames of the bus, `stamps` by how many us its times differ from true ones at most (1000),
    and `quiet` how many ms without a frame are a gap (else as the plan has it).

    Raises `Refused` where the plan has findings, by which nobody can be accused, and else as `follow` does.
    """
    (log,) = _logs(log)
    numbers = {"--stamps": stamps, "--quiet": quiet}
    words = [*(["--part"] if part else []), *(word for name, number in numbers.items() if number is not None for word in (name, str(number)))]
    with _with_program(), program.file_of(_plan(plan).text) as copy, _chosen(log, interface) as chosen:
        status, answer = program.call(["audit", *words, "--", copy, chosen])
    found = audit_of(answer)
    if found is None:
        first = answer.splitlines()[0] if answer else f"j39plan audit ended with {status}"
        raise Refused(status or 1, f"{plan.name}: {first}: audit takes a plan without findings; plan.findings() has them")
    if not found.frames + found.skipped and found.bad + found.elsewhere:
        with Log([log], interface) as there:
            counts = reports.Counts()
            counts.bad, counts.elsewhere = found.bad, found.elsewhere
            counts.refuse_without_frames(there)
    return found


@contextlib.contextmanager
def _chosen(log: str, interface: str | None) -> Iterator[str]:
    """The name of a log of one interface alone, whose lines keep their numbers; of a log as it is where none is named."""
    if interface is None:
        yield log
        return
    with whole(log) as file, tempfile.NamedTemporaryFile(suffix=".log") as copy:
        copy.writelines(reports.as_it_comes(OneInterface(file, interface)))
        copy.flush()
        yield copy.name


class Code(NamedTuple):
    """A trouble code of a unit from when it `came` until it `went`, in seconds, None in a log without times: its SPN and FMI, of another conversion method
    its `raw` number; the `name` of its signal; which codes these are (`state`: `active` ..); how it ended (`end`: `gone`; `silent`, where its unit sends
    none any more; `open`, at the log's end); the first and the last occurrence count; its lamps; by whom it was cleared, with what; and its first line."""

    line: int
    unit: str
    state: str
    came: float | None
    went: float | None
    end: str
    spn: int | None = None
    fmi: int | None = None
    raw: int | None = None
    name: str = ""
    first_count: int | None = None
    last_count: int | None = None
    lamps: tuple[str, ...] = ()
    cleared_by: str = ""
    cleared_with: str = ""


def codes(plan: Plan, log: Name | Iterable[Name], *, interface: str | None = None) -> list[Code]:
    """When each trouble code of a log, or of several of one drive, came and went, as `j39plan-codes` tells it. Raises as `follow` does, and `Refused` where the
    plan has no signal of kind `dtc`."""
    names = _logs(log)
    with program.file_of(_plan(plan).text) as copy:
        try:
            answer, said = _answered("codes", ["--json", *_options(interface), "--", copy, *names])
        except Refused as refused:
            raise Refused(refused.status, str(refused).replace(copy, plan.name)) from None
    _notice(said)
    return [_code_of(json.loads(line)) for line in answer.splitlines()]


def _code_of(row: dict[str, Any]) -> Code:
    """A code of `j39plan-codes --json`, by the keys that it has."""
    times: dict[str, Any] = {"came": None, "went": None, "lamps": tuple(row.pop("lamps", ()))}
    return Code(**times | {key: value for key, value in row.items() if key in Code._fields})


class FirstPlan(NamedTuple):
    """A plan from a log: its `text`, with comments on what was seen and what is guessed; what `check` says of it at last; and `notes` on what isn't planned."""

    text: str
    check: str
    notes: list[str]


def log2plan(log: Name | Iterable[Name], *, groups: Iterable[Name] = (), dbc: Iterable[Name] = (), bitrate: int | None = None,
             interface: str | None = None) -> FirstPlan:
    """A first plan from a log, or from several of one drive, as `j39plan-log2plan` writes it; plans (`groups`) and DBC files name groups, signals and units.
    Raises `Refused` where the log has no frame, or a file is none of its kind; `OSError` where the log can't be opened."""
    names = _logs(log)
    words = [word for option, files in (("--groups", groups), ("--dbc", dbc)) for file in files for word in (option, os.fspath(file))]
    words += _options(interface) + ([] if bitrate is None else ["--bitrate", str(bitrate)])
    with tempfile.NamedTemporaryFile("r", suffix=".toml", encoding="utf-8") as made:
        answer, said = _answered("log2plan", ["--json", "-o", made.name, *words, "--", *names])
        _notice(said)
        found = json.loads(answer)
        return FirstPlan(made.read(), found["check"], [f"{note['what']}: {note['why']}" for note in found["notes"]])


class _Ended:
    """How `follow` ended: its status and standard error; and the refusal among its lines, which is kept and not passed on."""

    def __init__(self) -> None:
        self.status, self.said, self.refusal = 0, "", ""

    def passed(self, lines: Iterable[str]) -> Iterator[str]:
        """The lines but a refusal."""
        for line in lines:
            if line.startswith("refused "):
                self.refusal = line.strip()
            else:
                yield line

    def ends(self, status: int, said: bytes) -> None:
        """It has ended."""
        self.status, self.said = status, said.decode(errors="replace").strip()


@contextlib.contextmanager
def _with_program() -> Iterator[None]:
    """Says by `Refused` that there is no program: the tools end there."""
    try:
        yield
    except SystemExit as end:
        raise Refused(int(end.code or 0), "j39plan isn't there, or can't be run: name it by the variable J39PLAN") from None
