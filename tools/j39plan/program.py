"""The program j39plan, as the tools call it, and how a tool ends."""

import argparse
import contextlib
import functools
import io
import itertools
import os
import shutil
import signal
import subprocess
import sys
import tempfile
import traceback
from collections.abc import Callable, Iterable, Iterator, Sequence
from typing import IO, TYPE_CHECKING, Any, NoReturn

from j39plan.left_out import Notes

if TYPE_CHECKING:
    from j39plan.inside import Inside, Session

# Exit statuses (docs/guide/TOOLS.md has all of them); those below 5 are the program's own.
UNREADABLE, MEMORY, DEVICE, TOO_LONG, MISSING, FAULT = 2, 3, 4, 5, 69, 70

# The most bytes that the program takes as a plan or a schedule.
INPUT_MOST = 16_777_216

# What commands that want the plan of one vehicle answer to one with choices, and what is said behind that.
CHOICES, ONE_VEHICLE = "refused plan Choices", "  (--variant LABEL,.. takes the plan of one vehicle)"

# What keeps modules of the folder in which a tool is started out of it, where Python can.
SAFE = ["-P"] if sys.version_info >= (3, 11) else []

# The name of standard input.
INPUT = "/dev/stdin"

# The folder of this package.
PACKAGE = os.path.dirname(os.path.realpath(__file__))

# In a checkout: what prints the program that lies in it, where that is of its sources; the program that was built there; and what runs the first of
# these on Windows, as a package for it has it, too.
TOP = os.path.normpath(os.path.join(PACKAGE, "..", ".."))
FIND = os.path.join(TOP, "program", "find")
BUILT = os.path.join(TOP, "crates", "j39plan", "out", "j39plan")
ON_WINDOWS, STORED = os.path.join(TOP, "program", "j39plan.exe"), "j39plan-linux-x86_64"

# The variable by which orders run by processes (0) or inside this one (1: or not at all); how many run by processes before the library is loaded, which
# costs as much; and where it is, in a package and in a checkout.
SWITCH, BY_PROCESSES = "J39PLAN_IN_PROCESS", 12
LIBRARIES = (os.path.normpath(os.path.join(TOP, "..", "..", "lib", "j39plan", "libj39plan.so")), os.path.join(TOP, "host", "out", "libj39plan.so"))
LIBRARIES_ON_WINDOWS = (os.path.join(TOP, "host", "out", "windows", "j39plan.dll"),)

# In a package, whose tools are in share/j39plan/tools: the program.
INSTALLED = os.path.join(PACKAGE, "..", "..", "..", "..", "lib", "j39plan", "j39plan")


class Refused(Exception):
    """A tool can't do what it was asked: the exit status, and why, where that isn't said yet."""

    def __init__(self, status: int, why: str = "") -> None:
        super().__init__(why)
        self.status = status


def is_windows() -> bool:
    """Whether this is Windows: there is no /dev/stdin, a file is opened by one process alone, and an interrupt is no signal."""
    return sys.platform == "win32"


@functools.lru_cache(maxsize=None)
def repository_program() -> str | None:
    """The program of this repository, as its launcher takes it: the one that lies in it, where it is of its sources, else the built one. On Windows,
    what runs the one that lies in it."""
    if is_windows():
        return ON_WINDOWS if os.path.exists(ON_WINDOWS) else None
    if os.access(FIND, os.X_OK):
        found = subprocess.run([FIND], stdin=subprocess.DEVNULL, stdout=subprocess.PIPE, stderr=subprocess.DEVNULL, text=True, check=False)
        if found.returncode == 0:
            return found.stdout.rstrip("\n")
    return BUILT if os.path.exists(BUILT) else None


def installed_program() -> str | None:
    """The program that was installed with this tool: where a package of the system has it, else beside the tool's command."""
    beside = os.path.join(os.path.dirname(os.path.abspath(sys.argv[0])), "j39plan")
    return next((name for name in (INSTALLED, beside) if os.path.isfile(name) and os.access(name, os.X_OK)), None)


def path() -> str:
    """The program: the one that J39PLAN names, else this repository's, else the one that was installed with this tool, else the one on the PATH."""
    named = os.environ.get("J39PLAN")
    if named:
        return named
    found = repository_program() or installed_program() or shutil.which("j39plan")
    if found is None:
        print("j39plan isn't there: build it by ./j39plan, put it on the PATH, or name it by J39PLAN (the one without proofs: "
              "export J39PLAN=$PWD/unproved/j39plan)", file=sys.stderr)
        sys.exit(MISSING)
    return found


_ORDERS = itertools.count()


def is_worthwhile() -> bool:
    """Whether an order, which is counted, is to run inside this process where it can: so many came before it, or that is asked for."""
    return os.environ.get(SWITCH) == "1" or next(_ORDERS) >= BY_PROCESSES


@functools.lru_cache(maxsize=None)
def inside(name: str) -> "Inside | None":
    """The program of this name inside this process, None where orders run by processes: the library isn't there, or doesn't know such a program."""
    asked = os.environ.get(SWITCH)
    library = next(filter(os.path.exists, LIBRARIES_ON_WINDOWS if is_windows() else LIBRARIES), None)
    if asked == "0" or library is None and asked != "1":
        return None
    from j39plan import inside  # pylint: disable=import-outside-toplevel  # what it imports is for this alone
    stored = os.path.join(os.path.dirname(name), STORED) if is_windows() else name
    try:
        if library is None:
            raise inside.Unusable("the library isn't there: make -C host")
        # program/find has compared what it finds
        return inside.Inside(library, stored, recorded(stored) if is_windows() or os.environ.get("J39PLAN") else None)
    except inside.Unusable as why:
        if asked != "1":
            return None
        raise Refused(MISSING, f"{name} can't be run inside this process ({SWITCH}=1): {why}") from None


def recorded(name: str) -> str | None:
    """The digest that the record beside a program has of it, None where there is no record."""
    try:
        with open(f"{name}.txt", encoding="utf-8") as lines:
            return next((line.split()[1] for line in lines if line.startswith("program ")), None)
    except OSError:
        return None


def call(words: Sequence[str]) -> tuple[int, str]:
    """What the program answers: its exit status and standard output. Its standard error goes where ours does."""
    name = path()
    within = inside(name) if is_worthwhile() else None
    if within:
        status, out, errors = within.run(words)
        complain(errors)
        return status, out.decode()
    try:
        ended = subprocess.run([name, *words], stdin=subprocess.DEVNULL, stdout=subprocess.PIPE, check=False)
    except OSError as fault:
        print(f"j39plan can't be run: {name}: {fault.strerror}", file=sys.stderr)
        sys.exit(MISSING)
    return ended.returncode, ended.stdout.decode()


def complain(errors: bytes) -> None:
    """Writes what the program has written to its standard error inside this process."""
    with contextlib.suppress(OSError):
        os.write(2, errors)


def session(words: Sequence[str], plan: str) -> "Session | None":
    """An order inside this process that reads this plan, and as standard input what it is handed; None where orders run by processes."""
    within = inside(path()) if is_worthwhile() else None
    if within is None:
        return None
    files = {}
    with contextlib.suppress(OSError):  # the order tells that
        with open(plan, "rb") as file:
            files[plan] = file.read(INPUT_MOST + 1)
    return within.session(words, files)


def checked(plan: str) -> str:
    """What `check` answers of a plan's file, whatever it finds; one that can't be read is refused by it."""
    status, answer = call(["check", "--", plan])
    if status not in (0, 1):
        raise Refused(status, answer.strip())
    return answer


def values(plan: str) -> str:
    """What `show` answers of a plan's file, its choices included; one that can't be read is refused by it."""
    status, answer = call(["show", "--", plan])
    if status != 0:
        raise Refused(status, answer.strip())
    return answer


def shown(plan: str) -> str:
    """What `show` answers of a plan's file; one that can't be read is refused, and so is a plan with choices, as other commands do it."""
    answer = values(plan)
    if "\nchoice " in answer:
        raise Refused(1, CHOICES)
    return answer


def run(plan: str, steps: Iterable[str]) -> list[str]:
    """The lines that the program answers to a schedule of these steps, which the bus of a plan doesn't refuse."""
    with temporary(lambda file: file.writelines(f"{step}\n".encode() for step in steps), ".schedule") as schedule:
        status, answer = call(["run", "--", plan, schedule])
    lines = answer.splitlines()
    if status != 0:
        refusal = next((line for line in lines if line.startswith("refused ")), "")
        raise Refused(FAULT if refusal.startswith("refused line ") else status, refusal)
    return lines


def labels_of(plan: str) -> list[str]:
    """The labels of a plan's units, in the order of the file."""
    return [line.split()[1] for line in run(plan, []) if line.startswith("unit ")]


@contextlib.contextmanager
def temporary(write: Callable[[IO[bytes]], object], suffix: str = "") -> Iterator[str]:
    """The name of a file as long as it is needed, into which this has written. It is closed, since on Windows nobody else could open it."""
    with tempfile.NamedTemporaryFile(suffix=suffix, delete=False) as file:
        pass
    try:
        with open(file.name, "wb") as opened:
            write(opened)
        yield file.name
    finally:
        os.unlink(file.name)


def place_of(name: str) -> str | int:
    """By what a file that is read is opened: its name, and on Windows, which has no name for standard input, a descriptor of that."""
    return os.dup(0) if name == INPUT and is_windows() else name


@contextlib.contextmanager
def copied(name: str) -> Iterator[str]:
    """The name of a copy of a file: what a pipe or a device gives comes only once, and a tool hands its plan to the program several
    times. Of a file that is too long a byte more is copied than the program takes."""
    with open(place_of(name), "rb") as file, temporary(lambda copy: copy.write(file.read(INPUT_MOST + 1))) as copy:
        yield copy


def file_of(text: str) -> contextlib.AbstractContextManager[str]:
    """The name of a file that has this text as long as it is needed."""
    return temporary(lambda file: file.write(text.encode()), ".toml")


class Version(argparse.Action):
    """Prints the tool's name, and the version of the program and thus of all this."""

    def __call__(self, words: argparse.ArgumentParser, given: argparse.Namespace, value: object, option: str | None = None) -> None:
        status, answer = call(["--version"])
        if status != 0:
            raise Refused(status)
        print(f"{tool()} ({answer.split()[0]}) {answer.split()[1]}")
        words.exit()


class Words(argparse.ArgumentParser):
    """The words of a command line. A device that can't take its help is a fault, which newer versions of the library pass over."""

    def print_help(self, file: Any = None) -> None:
        print(self.format_help(), end="", file=file)


def parser(description: str, own_version: bool = False) -> argparse.ArgumentParser:
    """The words of a tool's command line, its help and its version among them, unless the tool has a `--version` of its own."""
    words = Words(description=" ".join(description.split("\n\n", maxsplit=1)[0].split()))
    if own_version:
        return words
    words.add_argument("--version", action=Version, nargs=0, help="print the version and exit")
    return words


def input_name(text: str) -> str:
    """The name of a file that is read: that of standard input by `-`."""
    return INPUT if text == "-" else text


def plan_word(words: argparse.ArgumentParser) -> None:
    """The word of a plan, of a tool that takes one."""
    words.add_argument("plan", metavar="PLAN", type=input_name, help="the name of a plan file, - for standard input")
    variant_option(words)


def alternatives(text: str) -> list[str]:
    """The labels of alternatives between commas."""
    return [label for label in text.split(",") if label]


def variant_option(words: argparse.ArgumentParser, more: str = "") -> None:
    """The option by which a tool takes one vehicle of a plan with choices, with what more it takes."""
    words.add_argument("--variant", metavar="LABEL,..", type=alternatives,
                       help=f"of a plan with choices: the first vehicle that is built with these alternatives{more}")


def same(text: str) -> tuple[str, str]:
    """Another name of a unit, and what it is called, by `NAME=OTHER`."""
    name, _, other = text.partition("=")
    if not name or not other or name == other:
        raise argparse.ArgumentTypeError("two names of one unit, as ENGINE=EMS")
    return other, name


def note_options(words: argparse.ArgumentParser) -> None:
    """The options on notes of a tool that makes them."""
    words.add_argument("--notes", metavar="FILE", help="write the notes into a file too, as JSON objects, each on a line")
    words.add_argument("--fail-on-notes", action="store_true", help="exit status 1 where there is a note; what is written stays")


def put(text: str) -> None:
    """Puts a file on standard output, as UTF-8 whatever the terminal has."""
    if isinstance(sys.stdout, io.TextIOWrapper):
        sys.stdout.reconfigure(encoding="utf-8")
    sys.stdout.write(text)


def noted(given: argparse.Namespace, notes: Notes) -> int:
    """Writes the notes where that is wanted, and answers the exit status."""
    if given.notes:
        notes.write(given.notes)
    return 1 if given.fail_on_notes and notes.count else 0


def tool() -> str:
    """The name of the tool, however it is installed."""
    return os.path.splitext(os.path.basename(os.path.realpath(sys.argv[0])))[0].removeprefix("j39plan-")


def say(why: object) -> None:
    """Says on standard error why the tool ends."""
    try:
        print(f"{tool()}: {why}", file=sys.stderr)
    except OSError:
        pass


def device_fault(fault: OSError) -> int:
    """Says what could not be read or written, but for a pipe that was closed; what is left to be written is dropped."""
    if not isinstance(fault, BrokenPipeError):
        say(f"{fault.filename}: {fault.strerror}" if fault.filename else fault.strerror or fault)
    nowhere = os.open(os.devnull, os.O_WRONLY)
    os.dup2(nowhere, sys.stdout.fileno())
    if isinstance(fault, BrokenPipeError):
        os.dup2(nowhere, sys.stderr.fileno())
    return DEVICE


def interrupted() -> NoReturn:
    """Ends by the signal of an interrupt, so that a shell knows of it; on Windows, where a process can't, by the status that a shell makes of it."""
    if not is_windows():
        signal.signal(signal.SIGINT, signal.SIG_DFL)
        os.kill(os.getpid(), signal.SIGINT)
    sys.exit(128 + signal.SIGINT)


def written(main: Callable[[], int]) -> int:
    """Runs a tool, and writes out what it has put."""
    try:
        return main()
    finally:
        sys.stdout.flush()


def status_of(main: Callable[[], int]) -> int:
    """Runs a tool and answers its exit status."""
    if sys.stdout is None:
        say("standard output is closed")
        return DEVICE
    # Names of files may have any bytes and texts any characters, whatever the terminal has.
    if isinstance(sys.stdout, io.TextIOWrapper):
        sys.stdout.reconfigure(errors="backslashreplace")
    try:
        return written(main)
    except Refused as refused:
        if str(refused):
            say(f"{refused}{ONE_VEHICLE if str(refused).endswith(CHOICES) else ''}")
        return refused.status
    except KeyboardInterrupt:
        interrupted()
    except MemoryError:
        say("out of memory")
        return MEMORY
    except OSError as fault:
        return device_fault(fault)
    except Exception:  # a fault of the tool itself, which is to be none of the plan
        traceback.print_exc()
        return FAULT


def command(main: Callable[[list[str] | None], int]) -> Callable[..., int]:
    """A tool that answers its exit status however it ends. Its words are those of the command line, if none are given."""
    @functools.wraps(main)
    def run(words: list[str] | None = None) -> int:
        return status_of(lambda: main(words))
    return run


def started(tool: str, words: Sequence[str], errors: IO[bytes] | int = subprocess.PIPE, source: int | None = subprocess.DEVNULL) -> subprocess.Popen[bytes]:
    """Another tool of this package, run with these words in a process of its own, whose output is read by a pipe, and standard error too unless
    it goes to a file; it reads nothing, or, of None, what this one would."""
    path = os.pathsep.join(filter(None, (os.path.dirname(PACKAGE), os.environ.get("PYTHONPATH"))))
    return subprocess.Popen([sys.executable, *SAFE, "-m", f"j39plan.cli.{tool}", *words], stdin=source, stdout=subprocess.PIPE,
                            stderr=errors, env={**os.environ, "PYTHONPATH": path})
