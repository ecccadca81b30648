#!/usr/bin/env python3
"""Writes what of the documentation is printed from the sources: printed.py proofs|map|options|boxes|drives.

proofs   docs/reference/CONTRACTS.md: the public functions of each library, by their doc comments, clauses and premises
map      docs/reference/MODULES.md: the modules of the crates and of the tools, by the first lines of their files
options  docs/reference/OPTIONS.md: the options of the commands, by their --help, and the Python module, by its docstrings
boxes    docs/reference/BOXES.md: the boxes by which the steps of `probe` are tested
drives   docs/reference/DRIVES.md: the drives by which `against` is tested
"""

from __future__ import annotations

import ast
import glob
import inspect
import os
import re
import subprocess
import sys
from collections.abc import Callable, Iterator
from dataclasses import dataclass

sys.dont_write_bytecode = True
import crates
import law_text
from crates import text_of

# Crates that are tests: nothing of the program stands on them.
TESTS = ("library_vectors",)

# What has a case in many files: a step and a finding as examples; and how a comment at the top of a file begins, by the file's ending.
CASES = (("Where a step has a case", "Down"), ("Where a finding has a case", "KeptAddress"))
MARKS = {".rt": "//!", "ntt": "--"}

# The head of a function, of a block that has functions, and of what a library hands out.
FUNCTION = re.compile(r"^( *)(?:pub )?fn (\w+)")
BLOCK = re.compile(r"^(?:pub )?(impl|trait)(?:<[^>]*>)? (\w+)(?:<.*?>)?(?: for (\w+))?")
HANDED_OUT = re.compile(r"pub use [^;]+;")
TYPE = re.compile(r"pub (?:struct|enum|trait) (\w+)")

# What a command promises of its source and its sink: records that contracts cite, whose facts are clauses too.
ENDS = "crates/j39_stream/specs/CommandEnds.antt"
RECORD = re.compile(r"((?:^--[^\n]*\n)+)pub record (\w+) (.*?)(?=\n\n|\Z)", re.DOTALL | re.MULTILINE)


@dataclass
class Call:
    """A public function or type: its name, its doc comment, the names of its clauses, and the record of its ends."""

    name: str
    words: str
    clauses: list[str]
    is_law: bool
    ends: str


def files_of(crate: str) -> list[str]:
    """The sources of a crate, from the repository's top."""
    return sorted(glob.glob(f"crates/{crate}/src/**/*.rt", root_dir=crates.TOP, recursive=True))


def head_of(file: str, mark: str) -> str:
    """The comment at the top of a file."""
    lines = []
    for line in text_of(f"{crates.TOP}/{file}").splitlines():
        if not line.startswith(mark):
            break
        lines.append(line[len(mark):].strip())
    return " ".join(lines)


def docstring(file: str) -> str:
    """The first paragraph of a Python file's docstring, on one line."""
    found = ast.get_docstring(ast.parse(text_of(f"{crates.TOP}/{file}"))) or ""
    return " ".join(found.split("\n\n")[0].split())


def contract_from(lines: list[str], at: int) -> tuple[str, bool]:
    """The contract of the function whose head is at a line, and whether its body is empty."""
    margin = len(lines[at]) - len(lines[at].lstrip())
    for place in range(at, len(lines)):
        line = lines[place]
        if place > at and re.match(rf" {{{margin}}}\{{|.*;$", line) or line.endswith(") {") or re.match(rf" {{0,{margin}}}\}}", line):
            return "\n".join(lines[at:place]), line.strip() == "{}"
    return "\n".join(lines[at:]), False


def comment_above(lines: list[str], at: int) -> str:
    """The doc comment above a line, past its attributes."""
    found: list[str] = []
    for line in reversed(lines[:at]):
        bare = line.strip()
        if bare.startswith("///"):
            found.insert(0, bare[3:].strip())
        elif not bare.startswith("#["):
            break
    return " ".join(found)


def calls_of(file: str) -> Iterator[tuple[str, Call]]:
    """The types of a file, and its functions that are public or a public trait's, each behind the name that its crate hands out."""
    lines = text_of(f"{crates.TOP}/{file}").splitlines()
    owner, is_trait, is_of_trait = "", False, False
    for at, line in enumerate(lines):
        named = TYPE.match(line)
        if named and comment_above(lines, at):
            yield named[1], Call(named[1], comment_above(lines, at), [], False, "")
        block = BLOCK.match(line)
        if block:
            owner, is_trait, is_of_trait = block[2], block[1] == "trait", bool(block[3])
        elif line == "}":
            owner, is_trait, is_of_trait = "", False, False
        head = FUNCTION.match(line)
        if head is None or is_of_trait or bool(head[1]) != bool(owner) or not (is_trait or "pub fn" in line):
            continue
        contract, is_empty = contract_from(lines, at)
        words = comment_above(lines, at)
        if words or "ensures" in contract:
            name = f"{owner}::{head[2]}" if owner else head[2]
            ends = re.search(r"ensures (?:\w+ )?\{ (AnswersWhole|AnswersInPieces|PutsText)\b", contract)
            clauses = re.findall(r"^ *ensures (\w+) \{", contract, re.MULTILINE)
            yield owner or head[2], Call(name, words, clauses, not owner and (is_empty or line == f"pub fn {head[2]}()"), ends[1] if ends else "")


def handed_out(crate: str) -> Callable[[str, str], bool]:
    """Whether a crate hands out a name of a file of its."""
    lib = f"{crates.TOP}/crates/{crate}/src/lib.rt"
    text = text_of(lib)
    names = set(re.findall(r"\w+", " ".join(HANDED_OUT.findall(text))))
    modules = tuple(f"crates/{crate}/src/{name}{end}" for name in re.findall(r"^pub mod (\w+);", text, re.MULTILINE) for end in (".rt", "/"))
    return lambda name, file: name in names or file.startswith(modules) or re.search(rf"^pub (?:fn|struct|trait) {name}\b", text, re.MULTILINE) is not None


def libraries() -> list[str]:
    """The crates that hand something out, in the order of crates.txt."""
    return [name for name in crates.listed() if name not in TESTS and os.path.exists(f"{crates.TOP}/crates/{name}/src/lib.rt")]


def contract_lines(crate: str, laws: dict[tuple[str, str], list[str]]) -> Iterator[str]:
    """The calls of a crate, file by file."""
    is_handed_out = handed_out(crate)
    for file in files_of(crate):
        calls = [call for name, call in calls_of(file) if call.is_law or is_handed_out(name, file)]
        if calls:
            yield f"\n[{file.partition('/src/')[2]}](../../{file})\n\n"
        for call in calls:
            parts = [f"- `{call.name}`{', law' if call.is_law else ''}: {call.words or 'as its clauses say.'}"]
            parts += [f"Clauses: {listed(call.clauses)}."] if call.clauses else []
            parts += [f"Ends: `{call.ends}`."] if call.ends else []
            premises = laws.get((crate, call.name), [])
            parts += [f"Premises: {listed(premises)}."] if premises else []
            yield " ".join(parts) + "\n"


def listed(names: list[str]) -> str:
    return ", ".join(f"`{name}`" for name in names)


def ends_of_commands() -> Iterator[str]:
    """The records that say how a command ends, with their facts."""
    yield "\nHow a command ends:\n\n"
    for comment, name, body in RECORD.findall(text_of(f"{crates.TOP}/{ENDS}")):
        words = " ".join(re.sub(r"^-- ?", "", comment, flags=re.MULTILINE).split())
        facts = re.findall(r"^  pub (\w+) :", body, re.MULTILINE)
        yield f"- `{name}`: {words} Clauses: {listed(facts)}.\n"


def proofs() -> str:
    """What each public function's contract says."""
    laws = law_text.premises_of_laws(crates.TOP)
    parts = [
        "# Contracts\n\nWhat each library hands out, by the doc comments of its sources. A *law* is a fact about definitions: a function that does\n"
        "nothing. Behind a function stand the names of the clauses of its contract, behind a law also its premises, but for those of what\n"
        "another law promises. [PROOFS](../internals/PROOFS.md) says what all of it comes to. `./dev proofs` writes this page.\n"
    ]
    for crate in libraries():
        lines = list(contract_lines(crate, laws))
        if lines:
            parts += [f"\n## `{crate}`\n\n{head_of(f'crates/{crate}/src/lib.rt', '//!')}\n", *lines]
        if crate == ENDS.split("/")[1]:
            parts += ends_of_commands()
    return "".join(parts)


def root_of(crate: str) -> str:
    """The file that a crate begins with."""
    return f"crates/{crate}/src/{'main.rt' if crates.is_program(crate) else 'lib.rt'}"


def module_rows(crate: str) -> Iterator[str]:
    """The modules of a crate's specs/ and src/, each with its first line."""
    below, root = crates.below()[crate], os.path.basename(root_of(crate))
    yield f"\n## `{crate}`\n\n{head_of(root_of(crate), '//!')}"
    yield f" It stands on {listed(below)}.\n" if below else " It stands on no other crate.\n"
    for part, mark, files in (
        ("specs", "-- ", sorted(glob.glob(f"crates/{crate}/specs/*.antt", root_dir=crates.TOP))),
        ("src", "//! ", files_of(crate)),
    ):
        names = [file for file in files if os.path.basename(file) not in ("Lib.antt", "inside.antt", root)]
        if names:
            yield f"\n`{part}/`\n\n"
        for file in names:
            yield f"- `{os.path.splitext(file.partition(f'/{part}/')[2])[0]}`: {head_of(file, mark)}\n"


def having(word: str) -> list[str]:
    """The files of the crates that name a word, in the order of crates.txt."""
    files = [file for crate in crates.listed() for part in ("src", "specs", "proofs")
             for file in sorted(glob.glob(f"{crate}/{part}/**/*.*t", root_dir=f"{crates.TOP}/crates", recursive=True))]
    return [file for file in files if re.search(rf"\b{word}\b", text_of(f"{crates.TOP}/crates/{file}"))]


def module_map() -> str:
    """Each module of the crates and of the tools."""
    parts = [
        "# Modules\n\nWhere each rule lives: of each crate its definitions (`specs/`), in the terms of the standard, then its code (`src/`), each by the\n"
        "first lines of its file; then the modules of the tools. [ARCHITECTURE](../internals/ARCHITECTURE.md) says how they go together.\n"
        "`./dev map` writes this page.\n"
    ]
    parts.append("\n## Crates\n\n")
    parts += [f"- `{crate}`: {head_of(root_of(crate), '//!')}\n" for crate in crates.listed()]
    for crate in crates.listed():
        parts += module_rows(crate)
    for heading, word in CASES:
        parts.append(f"\n## {heading}\n\nFiles that name `{word}`.\n\n")
        parts += [f"- `{file}`: {head_of(f'crates/{file}', MARKS[file[-3:]])}\n" for file in having(word)]
    parts.append("\n## The tools\n\nModules of `tools/j39plan/`, by their docstrings.\n\n")
    for file in sorted(glob.glob("**/*.py", root_dir=f"{crates.TOP}/tools/j39plan", recursive=True)):
        name = file[:-3].removesuffix("/__init__")
        said = docstring(f"tools/j39plan/{file}")
        if said:
            parts.append(f"- `{name}`: {said}\n")
    return "".join(parts)


def help_of(words: list[str]) -> str:
    """What a command answers to --help, in lines of 100 columns."""
    environment = {**os.environ, "COLUMNS": "100"}
    return subprocess.run([*words, "--help"], cwd=crates.TOP, stdin=subprocess.DEVNULL, capture_output=True, text=True, check=True, env=environment).stdout


def module_items() -> Iterator[str]:
    """What the Python module hands out, by its docstrings: functions with their parameters, then classes."""
    import j39plan

    found = [(name, getattr(j39plan, name)) for name in j39plan.__all__]
    for name, it in sorted(found, key=lambda pair: (not inspect.isfunction(pair[1]), pair[0])):
        parameters = f"({', '.join(inspect.signature(it).parameters)})" if inspect.isfunction(it) else ""
        yield f"- `{name}{parameters}`: {' '.join((inspect.getdoc(it) or '').split())}\n"


def options() -> str:
    """The options of each command."""
    program = os.environ.get("J39PLAN") or "./j39plan"
    tools = sorted(glob.glob("tools/*.py", root_dir=crates.TOP)) + ["tools/check-plans"]
    parts = [
        "# Options\n\nWhat `j39plan` and the tools answer to `--help`. [TOOLS](../guide/TOOLS.md) shows them at work; the man pages have the same.\n"
        "`./dev options` writes this page.\n",
        f"\n## `j39plan`\n\n```text\n{help_of([program])}```\n",
    ]
    sys.path.insert(0, f"{crates.TOP}/tools")
    from j39plan.log.checks import kinds

    for tool in tools:
        name = os.path.basename(tool).removesuffix(".py")
        parts.append(f"\n## `{name}`\n\n```text\n{help_of([sys.executable, tool] if tool.endswith('.py') else [tool])}```\n")
        if name == "against":
            parts.append("\n### Kinds of deviations\n\n" + "".join(f"- `{kind}`: {said}\n" for kind, said in kinds.MEANINGS.items()))
    return "".join([*parts, "\n## The Python module\n\nWhat `import j39plan` hands out.\n\n", *module_items()])


def boxes() -> str:
    """The steps of `probe`, and the boxes by which they are tested."""
    sys.path.insert(0, f"{crates.TOP}/tools")
    from j39plan.probe.meanings import MEANINGS
    from j39plan.probe.steps import STEPS
    from tests.probe_boxes import FAULTY, LAWFUL, LINUX, LINUX_PASSES

    plans = {"chooses": "may choose", "fixed": "fixed", "silent": "never claims"}
    steps = "".join(f"| `{step.word}` | {step.sends} | {step.clause} | {MEANINGS[step.word].means} | {MEANINGS[step.word].ask} |\n" for step in STEPS)
    faulty = "".join(f"| {box.about} | {plans[box.plan]} | {', '.join(f'`{word}`' for word in box.fails)} |\n" for box in FAULTY)
    lawful = "".join(f"| {box.about} | {plans[box.plan]} | {box.note or '-'} |\n" for box in LAWFUL)
    linux = "".join(f"| {about} | {', '.join(f'`{word}`' for word in words)} | {why} |\n" for about, words, why in LINUX)
    return ("# Steps and boxes of `probe`\n\nThe steps of [`probe`](../guide/BENCH.md), and the boxes by which the tests try them, on a bus in memory.\n"
            f"`./dev boxes` writes this page.\n\n## Steps\n\n| Step | Sends | Standard | That it fails means | Ask the supplier |\n|---|---|---|---|---|\n{steps}"
            f"\n## Faulty boxes\n\n| Box | Its address | Fails |\n|---|---|---|\n{faulty}"
            f"\n## Lawful oddities\n\nThey fail nothing.\n\n| Box | Its address | Part of a note |\n|---|---|---|\n{lawful}"
            f"\n## Linux\n\n`can-j1939` of Linux 6.1 in a virtual machine without KVM (`tools/tests/linux_j1939.sh`), tried by hand.\nWith an application it passes {', '.join(f'`{word}`' for word in LINUX_PASSES)}. `rough` isn't told: the\nemulated machine is too slow for 200 requests a second. `crowd` and `power` want a second channel and a switch.\n\n| Box | Fails | Why |\n|---|---|---|\n{linux}")


def drives() -> str:
    """The drives that are played, with what `against` tells of them."""
    sys.path.insert(0, f"{crates.TOP}/tools")
    from tests.harvest_bus import table
    from tests.harvest_faults import FAULTS
    from tests.harvest_habits import HABITS

    healthy, faulty = ("\n".join(table(cases)) for cases in (HABITS, FAULTS))
    return ("# Drives that are played\n\nDrives of a combine harvester by which [`against`](../guide/TOOLS.md#a-log-against-a-plan) is tested, 20 s each.\n"
            "Its plan has 15 units whose clocks differ, and 39 flows (`tools/tests/harvest.py`): groups that a selector\ntells apart, long messages, flows that are sent on events, "
            "answers to a tool. Each drive has one thing in it.\nIt is told by a line of a [kind](OPTIONS.md#kinds-of-deviations), with the unit and the line of the log that the\n"
            "test names, and by no other line. `bench/habits.py` plays the drives, and `./dev drives` writes this page.\n"
            f"\n## Healthy drives\n\n{len(HABITS)} habits of units, tools and loggers.\n\n{healthy}\n\n## Faults\n\n{len(FAULTS)} faults, one line each.\n\n{faulty}\n")


PAGES = {"proofs": ("CONTRACTS.md", proofs), "map": ("MODULES.md", module_map), "options": ("OPTIONS.md", options), "boxes": ("BOXES.md", boxes), "drives": ("DRIVES.md", drives)}


def main(words: list[str]) -> int:
    if not words or not set(words) <= set(PAGES):
        print(__doc__, file=sys.stderr)
        return 2
    for word in words:
        name, printed = PAGES[word]
        with open(f"{crates.TOP}/docs/reference/{name}", "w", encoding="utf-8") as file:
            file.write(printed())
    return 0


if __name__ == "__main__":
    sys.exit(main(sys.argv[1:]))
