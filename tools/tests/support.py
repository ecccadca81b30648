"""What the tests share."""

import contextlib
import functools
import importlib.util
import io
import os
import re
import subprocess
import sys
import tempfile
import unittest
from collections.abc import Callable
from typing import TypeVar

from j39plan import program

T = TypeVar("T")
C = TypeVar("C", bound=Callable[..., object])

TOOLS = os.path.dirname(os.path.dirname(os.path.realpath(__file__)))
TOP = os.path.dirname(TOOLS)
EXAMPLES = os.path.join(TOP, "examples")

# Tests import what the gate has of pages and laws.
sys.path.append(os.path.join(TOP, "gate"))

# A plan that TOML 1.1 allows and TOML 1.0 doesn't, and the same in other words behind a byte order mark.
NEWER = """version = 0b10
keep_free = [0xC9, 2_02,]
unit = [{
  label = "\\x41",  # a comment
  address = 0x0,
  name = { identity = 1, },
}, { label = 'B', address = 200, chooser = "\\u0075pward",
     name = { identity = 2, arbitrary = true } }]
group = [{ "label" = \"""ET1\""", pgn = 0xFEEE, priority = 6,
  length = +8 }]
flow = [{ group = "ET1", from = "A", to = "all", }]
"""
MARKED = """\ufeffversion = 2
keep_free = [201, 202]
[[unit]]
label = "A"
address = 0
name.identity = 1
[[unit]]
label = "B"
address = 200
chooser = "upward"
name = { identity = 2, arbitrary = true }
[[group]]
label = "ET1"
pgn = 65262
priority = 6
length = 8
[[flow]]
group = "ET1"
from = "A"
to = "all"
"""


def signal(label: str, byte: int, bits: int, kind: str, more: str = "") -> str:
    """The table of a signal, and further lines of it."""
    return f'[[group.signal]]\nlabel = "{label}"\nbyte = {byte}\nbits = {bits}\nkind = "{kind}"\n{more}'


def example(name: str) -> str:
    """The file name of an example."""
    return os.path.join(EXAMPLES, name)


def text_of(name: str) -> str:
    """What a file holds."""
    with open(name, encoding="utf-8") as file:
        return file.read()


def examples(ending: str) -> list[str]:
    """The file names of all examples with this ending."""
    return sorted(
        os.path.join(folder, name)
        for folder, _, names in os.walk(EXAMPLES + os.sep)
        for name in names
        if name.endswith(ending)
    )


def plans() -> list[str]:
    """The file names of the plans of the examples, each of one vehicle."""
    return [name for name in examples(".toml") if name not in vehicles() and "\n[[choice]]" not in text_of(name)]


@functools.cache
def vehicles() -> list[str]:
    """The file names of the vehicles of the examples, which name the plans of their buses."""
    return [name for name in examples(".toml") if "\n[[bus]]\n" in text_of(name)]


def shown_refusals() -> list[tuple[str, str]]:
    """The plan files that docs/guide/PLAN.md shows as refused, each with its answer."""
    page = text_of(os.path.join(TOP, "docs", "guide", "PLAN.md"))
    return re.findall(r"```toml\n([^`]*)```\n```text\n(refused [^`]*)```", page)


def run(tool: str, *words: str, text: str | None = None) -> tuple[int, str, str]:
    """Runs a tool; its exit status, standard output and standard error."""
    ended = subprocess.run(
        [sys.executable, os.path.join(TOOLS, tool), *words],
        input=text, capture_output=True, text=True, check=False, env={**os.environ, "J39PLAN": program.path()},
    )
    return ended.returncode, ended.stdout, ended.stderr


def answered(main: Callable[[list[str]], int], *words: str) -> tuple[int, str, str]:
    """Runs a tool's main in this process; its exit status, standard output and standard error."""
    with (tempfile.NamedTemporaryFile("w", encoding="utf-8") as told, contextlib.redirect_stdout(told),
          contextlib.redirect_stderr(io.StringIO()) as said):
        try:
            status = main(list(words))
        except SystemExit as ended:
            status = int(ended.code or 0)
        return status, text_of(told.name), said.getvalue()


def without_times(answer: str) -> str:
    """What `against` writes without the times beside its lines."""
    return re.sub(r"(?m)(:\d+:) \(\d+\.\d+\)", r"\1", answer)


def there(value: T | None) -> T:
    """A value that may be absent, and is there."""
    assert value is not None
    return value


def needs(module: str, package: str) -> Callable[[C], C]:
    """Skips a test where a module isn't there."""
    there = importlib.util.find_spec(module) is not None
    return unittest.skipUnless(there, f"{module} isn't there: apt-get install {package}")


class InFolder(unittest.TestCase):
    """A test with a folder of its own."""

    def setUp(self) -> None:
        folder = tempfile.TemporaryDirectory()
        self.addCleanup(folder.cleanup)
        self.folder = folder.name

    def path(self, name: str) -> str:
        """A file name in the folder."""
        return os.path.join(self.folder, name)

    def write(self, name: str, text: str) -> str:
        """Writes a file in the folder and answers its name."""
        with open(self.path(name), "w", encoding="utf-8", newline="") as file:
            file.write(text)
        return self.path(name)
