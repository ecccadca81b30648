"""What the pages claim: each command that they show writes what is shown, each file that they show is that file, each name of
docs/reference/ is there, each link leads somewhere, and the pages stay short."""

import glob
import importlib.util
import os
import re
import shutil
import subprocess
import unittest
from collections.abc import Iterator
from typing import Any, NamedTuple

from j39plan import program
from tests.support import TOP, InFolder, example, text_of

PAGES = ["README.md", "CONTRIBUTING.md", "SECURITY.md", "CHANGELOG.md", *sorted(glob.glob("docs/[gi]*/*.md", root_dir=TOP))]

# Pages that are printed from the sources (tests/test_printed.py).
PRINTED = sorted(glob.glob("docs/reference/*.md", root_dir=TOP))

# A command that can be run here: the program or a tool, at the beginning or behind another command.
COMMAND = re.compile(r"(?:^|[\n;|] ?)(?:\./j39plan|tools/(?!package)[\w.-]+)(?: |$)")

# A file that is named and then shown.
FILE = re.compile(r"`examples/([\w./]+)`[^`]*(?:`(?!examples/)[^`\n]+`[^`]*)*?```(?:toml|text)\n(.*?)```", re.DOTALL)

# Kinds of files that pages name, and those names among them that are of files of the reader or that a command makes.
KINDS = "rt|antt|py|toml|md|json|check|load|run|read|follow|addresses|schedule|log|dbc|txt|c|sh|html|edit|show"
OTHERS = {"gate/times.md", ".taplo.toml", "languages.toml", "drive.log", "j1939.dbc"}

# Names of two words that are of plans and logs, and no functions.
OF_PLANS = {"on_request", "transport_priority"}

# A definition, by the head of its line: an abbreviation, a function, a record or a family. Fields and constructors have no such head.
DEFINITION = re.compile(r"^(?: *(?:abbrev|unfoldable)(?: pub)?| *pub (?:record|data)|record|data) ([^\s({:]+)", re.MULTILINE)

# A type, by the head of its line.
TYPE = re.compile(r"^ *(?:pub(?:\(\w+\))? )?(?:struct|enum|trait) (\w+)", re.MULTILINE)


def page(name: str) -> str:
    """A page's text."""
    return text_of(os.path.join(TOP, name))


def blocks(text: str) -> Iterator[tuple[Any, Any]]:
    """The indented blocks of a page, each with the block behind it."""
    found = [block.replace("\n    ", "\n")[4:] for block in re.findall(r"(?<=\n\n)    .*(?:\n    .*)*", text)]
    return zip(found, found[1:] + [""])


def missing(command: str) -> str | None:
    """What a command needs that isn't there."""
    if re.search(r"vehicle\.dbc|dbc2plan", command) and importlib.util.find_spec("canmatrix") is None:
        return "canmatrix isn't there: apt-get install python3-canmatrix"
    if "asc2log" in command and shutil.which("asc2log") is None:
        return "asc2log isn't there: apt-get install can-utils"
    return None


class Shown(InFolder):
    def output(self, command: str) -> str:
        """What a command writes, with the built program in the launcher's place and a folder of its own for /tmp."""
        name = os.path.realpath(program.path())
        environment = {**os.environ, "J39PLAN": name}
        if name == os.path.realpath(program.repository_program() or ""):
            # The tools find the repository's own program without its name, as a reader's do.
            del environment["J39PLAN"]
        ended = subprocess.run(
            ["bash", "-c", command.replace("/tmp/", self.folder + "/").replace("./j39plan", name)],
            cwd=TOP, capture_output=True, text=True, check=False, env=environment,
        )
        return ended.stdout.replace(self.folder + "/", "/tmp/")

    def test_commands_write_what_is_shown(self) -> None:
        least = {"README.md": 4, "docs/guide/PROMISES.md": 3, "docs/guide/PLAN.md": 3, "docs/guide/TIMING.md": 8, "docs/guide/SIMULATOR.md": 8, "docs/guide/LOGS.md": 8,
                 "docs/guide/TOOLS.md": 11, "docs/guide/VEHICLES.md": 1, "docs/guide/EXAMPLES.md": 2}
        for name in PAGES:
            commands = [(command, shown) for command, shown in blocks(page(name)) if COMMAND.search(command)]
            self.assertGreaterEqual(len(commands), least.get(name, 0), name)
            unmade: dict[str, str] = {}  # the files of commands that can't be run, with what these miss
            for command, shown in commands:
                files = re.findall(r"/tmp/[\w.]+", command)
                reason = missing(command) or next((unmade[file] for file in files if file in unmade), None)
                with self.subTest(command):
                    if reason:
                        unmade.update((file, reason) for file in files)
                        self.skipTest(reason)
                    self.assertEqual(self.output(command), shown + "\n")

    def test_plans_are_answered_as_shown(self) -> None:
        pages = page("docs/guide/PLAN.md") + page("docs/guide/TIMING.md")
        shown = re.findall(r"```toml\n([^`]*)```\n(?:(?!```).)*```text\n([^`]*)```", pages, re.DOTALL)
        self.assertGreaterEqual(len(shown), 10)
        for plan, answer in shown:
            self.assertEqual(program.call(["check", self.write("plan.toml", plan)])[1], answer, plan)

    def test_examples_are_answered_as_shown(self) -> None:
        shown = re.findall(r"`examples/(findings/\w+\.toml)`[^\n]*:\n\n```text\n(.*?)```", page("docs/guide/FINDINGS.md"), re.DOTALL)
        self.assertGreaterEqual(len(shown), 10)
        for plan, answer in shown:
            self.assertEqual(program.call(["check", example(plan)])[1], answer, plan)

    def test_files_are_as_shown(self) -> None:
        for name, least in (("README.md", 1), ("docs/guide/SIMULATOR.md", 2), ("docs/guide/VEHICLES.md", 1)):
            shown = re.findall(FILE, page(name))
            self.assertGreaterEqual(len(shown), least)
            for file, text in shown:
                whole = text_of(example(file))
                self.assertTrue(whole == text or (file.endswith(".toml") and whole.endswith(text)), f"{name}: {file}")


class Form(unittest.TestCase):
    def test_the_readme_ends_where_a_newcomer_has_an_answer(self) -> None:
        text = page("README.md")
        self.assertLessEqual(len(text.split()), 2500)
        self.assertEqual([sentence for sentence in sentences(text) if len(sentence.split()) > 40], [])

    def test_the_readme_leads_on_by_the_words_of_the_field(self) -> None:
        """What a newcomer searches for stands in the README, which leads to the page that has the answer."""
        text = page("README.md")
        for word in ("PGN", "NAME", "DBC", "candump", "multiplexed", "Intel", "FIFO", "response time", "bus load", "single-address",
                     "arbitrary-address capable", "deadlines", "licence", "ISOBUS"):
            self.assertRegex(text, rf"\b{re.escape(word)}", word)

    def test_the_changelog_is_for_users(self) -> None:
        """In the form of Keep a Changelog: versions, below them kinds of changes, and items; at most 60 lines."""
        lines = page("CHANGELOG.md").splitlines()
        self.assertLessEqual(len(lines), 60)
        kinds = [line[4:] for line in lines if line.startswith("### ")]
        self.assertLessEqual(set(kinds), {"Added", "Changed", "Deprecated", "Removed", "Fixed", "Security"})
        versions = [line for line in lines if line.startswith("## ")]
        self.assertEqual([line for line in versions if not re.fullmatch(r"## \d+\.\d+\.\d+ - (\d{4}-\d\d-\d\d|Unreleased)", line)], [])

    def test_sentences_are_told_apart(self) -> None:
        text = "# One\n\nTwo [a b](c d) `e f`. (Three\nfour.) Five\n- six\n- seven. Eight\n\n    code. Here\n\n| nine. | ten |\n"
        shown = ["# One", "Two [a b] CODE.", "(Three four.)", "Five", "- six", "- seven.", "Eight", "nine.", "ten"]
        self.assertEqual(list(sentences(text)), shown)

    def test_prose_is_within_120_columns(self) -> None:
        """But for tables, pictures and code."""
        for name in PAGES:
            lines = [line for line in without_code(page(name)).splitlines() if not line.startswith(("|", "![", "#"))]
            self.assertTrue(lines)
            self.assertEqual([line for line in lines if len(line) > 120], [], name)

    def test_cells_of_tables_are_short(self) -> None:
        """A cell of a table has at most 50 words: what needs more is prose, whose sentences are counted too."""
        for name in PAGES:
            with self.subTest(name):
                self.assertEqual([cell for cell in cells(page(name)) if len(cell.split()) > 50], [])

    def test_pages_have_at_most_50000_words(self) -> None:
        """Those that a person writes, code and shown answers included; a word has a letter or a digit, so marks of tables and lists are none."""
        count = sum(1 for name in PAGES for word in page(name).split() if re.search(r"[A-Za-z0-9]", word))
        self.assertLess(count, 50_000)

    def test_decisions_are_short(self) -> None:
        """Each is an item of at most 60 words: what was chosen, in place of what, and why."""
        items = [" ".join(it.split()) for it in re.split(r"\n(?=- |\n)", page("docs/internals/DECISIONS.md")) if it.startswith("- ")]
        self.assertGreaterEqual(len(items), 75)
        self.assertEqual([item for item in items if len(item.split()) > 61], [])

    def test_what_was_tried_and_left_has_a_line_each(self) -> None:
        section = page("docs/internals/DECISIONS.md").split("## Tried and left\n")[1].split("\n## ")[0].strip()
        self.assertEqual([line for line in section.splitlines() if not re.match(r"- `j39_\w+`: .*\.$", line)], [])


# A vehicle file has tables and findings as a plan has them: the rules that both have stand under one name in either crate.
PARALLEL = (("j39_plan", "j39_vehicle"), ("j39_findings", "j39_vehicle_findings"))

# In runs a long message that its receiver has answered, in times what an answer is to: the request, its number and its moment. Either is a record.
ANSWERS = ["Answered"]

# The types that the reader of plan files and that of vehicle files each have, for tables of their own.
READERS = ["Key", "NeedReader", "SignalReader", "Table", "TextKind"]


def crates_of(files: list[str]) -> tuple[str, ...]:
    return tuple(sorted(file.split("/")[1] for file in files))


class Names(InFolder):
    def test_links_lead_somewhere(self) -> None:
        for name in [*PAGES, *PRINTED]:
            for link in re.findall(r"\]\((?!https:)([^)\s]+)\)", page(name)):
                file, _, heading = link.partition("#")
                target = os.path.normpath(os.path.join(os.path.dirname(name), file)) if file else name
                self.assertTrue(os.path.exists(os.path.join(TOP, target)), f"{name}: {link}")
                if heading:
                    self.assertIn(heading, anchors(page(target)), f"{name}: {link}")

    def test_what_is_called_proved_is_there(self) -> None:
        """An item of docs/reference/CONTRACTS.md names what stands in the file above it, with clauses that its contract has."""
        shown = contracts()
        self.assertGreaterEqual(len(shown), 500)
        facts = facts_of_ends()
        for it in shown:
            source = public(text_of(os.path.join(TOP, it.file)))
            name = it.name.split("::")[-1]
            self.assertRegex(source, rf"pub (?:fn|struct|enum|trait) {name}\b", it.name)
            if it.ends:
                self.assertIn(it.ends, facts)
                self.assertRegex(source, rf"ensures .*\b{it.ends}\b", it.name)
            self.assertEqual([clause for clause in it.clauses if not re.search(rf"ensures {clause}\b", source)], [], it.name)

    def test_each_law_is_called_proved(self) -> None:
        """docs/reference/CONTRACTS.md has each law that a library hands out: a public function with an empty body."""
        named = {(it.crate, it.name) for it in contracts()}
        laws = {(crate, law) for crate in os.listdir(os.path.join(TOP, "crates")) for law in laws_of(crate)}
        self.assertGreaterEqual(len(laws), 30)
        self.assertEqual(sorted(laws - named), [])

    def test_laws_that_pages_name_are_there(self) -> None:
        """A name of two words or more that stands in code in what is said of proofs is one of the contracts."""
        text = page("docs/reference/CONTRACTS.md")
        for name in ("docs/internals/PROOFS.md", "docs/guide/PROMISES.md"):
            named = set(re.findall(r"`([a-z]\w*_\w*)`", without_code(page(name)))) - OF_PLANS - set(os.listdir(os.path.join(TOP, "crates")))
            self.assertEqual(sorted(it for it in named if not re.search(rf"`(?:\w+::)?{it}`", text)), [], name)

    def test_each_module_of_definitions_has_its_place(self) -> None:
        """docs/reference/MODULES.md has each module of specs/, and no other; specs/inside/ are for proofs."""
        sections = re.findall(r"\n## `(\w+)`\n(.*?)(?=\n## |\Z)", page("docs/reference/MODULES.md"), re.DOTALL)
        parts = [(crate, found[1]) for crate, body in sections if (found := re.search(r"\n`specs/`\n\n((?:- .*\n)+)", body))]
        shown = {(crate, module) for crate, items in parts for module in re.findall(r"^- `(\w+)`: \S", items, re.MULTILINE)}
        files = glob.glob(os.path.join(TOP, "crates", "*", "specs", "*.antt"))
        there = {(crate, name[:-5]) for *_, crate, _, name in (file.split(os.sep) for file in files)}
        there = {(crate, module) for crate, module in there if module not in ("Lib", "inside")}
        self.assertEqual(sorted(there ^ shown), [])

    def test_a_name_of_definitions_has_one_home(self) -> None:
        """No two modules of specs/, specs/inside/ included, have a definition of one name, but for rules that a vehicle has as a plan has
        them: whoever looks for a rule by its name finds it."""
        homes = homes_of_definitions(TOP)
        self.assertGreaterEqual(len(homes), 1200)
        shared = {name: files for name, files in sorted(homes.items()) if len(files) > 1 and crates_of(files) not in PARALLEL}
        self.assertEqual({name: files for name, files in shared.items() if name not in ANSWERS}, {})

    def test_a_module_of_definitions_has_one_home(self) -> None:
        """No two crates have a module of specs/, specs/inside/ included, of one name, but for modules of rules that a vehicle has as a plan has them."""
        homes: dict[str, list[str]] = {}
        for file in glob.glob("crates/*/specs/**/*.antt", root_dir=TOP, recursive=True):
            homes.setdefault(os.path.basename(file), []).append(file)
        self.assertGreaterEqual(len(homes), 150)
        shared = {name: sorted(files) for name, files in homes.items() if len(files) > 1 and crates_of(files) not in PARALLEL}
        self.assertEqual({name: files for name, files in shared.items() if name not in ("Lib.antt", "inside.antt")}, {})

    def test_a_type_has_one_home(self) -> None:
        """No two crates have a struct, an enum or a trait of one name, but for those that both readers of files have."""
        homes = homes_of_types(TOP)
        self.assertGreaterEqual(len(homes), 250)
        shared = {name: crates for name, crates in sorted(homes.items()) if len(crates) > 1}
        self.assertEqual({name: crates for name, crates in shared.items() if name not in READERS}, {})
        self.assertEqual({name: homes.get(name, []) for name in READERS}, {name: ["j39_plan", "j39_vehicle"] for name in READERS})

    def test_each_form_of_a_type_is_seen(self) -> None:
        for crate, file, text in (
            ("lower", "one", "pub struct Shared {\n    pub one: u8,\n}\n\n// struct Named\n"),
            ("lower", "inside/two", "enum Own {\n    One,\n}\n\npub(crate) trait Seen<T> {}\n"),
            ("upper", "three", "#[derive(Drop)]\nstruct Shared<'a>(&'a u8);\n\nfn one() {\n    enum Local {}\n}\n"),
        ):
            os.makedirs(self.path(f"crates/{crate}/src/inside"), exist_ok=True)
            self.write(f"crates/{crate}/src/{file}.rt", text)
        self.assertEqual(homes_of_types(self.folder), {"Own": ["lower"], "Seen": ["lower"], "Shared": ["lower", "upper"], "Local": ["upper"]})

    def test_each_form_of_a_definition_is_seen(self) -> None:
        for crate, module, text in (
            ("lower", "One", "abbrev pub shared : ℕ\nshared = 1\n\nunfoldable pub own : ℕ\nown = shared\n"),
            ("lower", "inside/Two", "module _ {X : Type 0} where\n  abbrev pub shared : X → X\n  shared x = x\n"),
            ("upper", "Three", "pub record Both : Type 0 where\n  pub shared : ℕ\n  pub own : ℕ\n"),
            ("upper", "Four", "-- ---- two\npub data Both : Type 0 where\n  One : ℕ → Both\n"),
            ("upper", "Five", "abbrev local : ℕ\nlocal = 2\n\nrecord Hidden : Type 0 where\n  pub one : ℕ\n"),
        ):
            os.makedirs(self.path(f"crates/{crate}/specs/inside"), exist_ok=True)
            self.write(f"crates/{crate}/specs/{module}.antt", text)
        homes = {name: [file.split("specs/")[1] for file in files] for name, files in homes_of_definitions(self.folder).items()}
        self.assertEqual(homes, {
            "shared": ["One.antt", "inside/Two.antt"], "own": ["One.antt"], "Both": ["Four.antt", "Three.antt"],
            "local": ["Five.antt"], "Hidden": ["Five.antt"],
        })

    def test_each_module_of_the_tools_is_named(self) -> None:
        """docs/reference/MODULES.md has each module of tools/j39plan/ once, and no other."""
        section = page("docs/reference/MODULES.md").split("## The tools\n")[1]
        named = [name for name in re.findall(r"^- `((?:\w+/)*[a-z]\w*)`: \S", section, re.MULTILINE) if os.path.isfile(os.path.join(TOP, "tools", "j39plan", f"{name}.py"))]
        modules = glob.glob("**/[!_]*.py", root_dir=os.path.join(TOP, "tools", "j39plan"), recursive=True)
        self.assertEqual(sorted(named), sorted(name[:-3] for name in modules))

    def test_files_to_change_are_there(self) -> None:
        """The lists of docs/internals/ARCHITECTURE.md on what is added where name files and folders that are there."""
        names = re.findall(r"`([\w.-]+(?:/[\w.-]*)*)`", page("docs/internals/ARCHITECTURE.md").split("## To add a step")[1])
        files = [name for name in names if "/" in name]
        self.assertGreaterEqual(len(files), 30)
        for name in files:
            self.assertTrue(any(os.path.exists(os.path.join(TOP, below, name)) for below in ("crates", "")), name)

    def test_files_to_change_are_all_that_have_a_case(self) -> None:
        """docs/reference/MODULES.md lists each source that has a case of the step or finding that it shows, and docs/internals/ARCHITECTURE.md
        leads there."""
        text = page("docs/reference/MODULES.md")
        for heading, word in (("Where a step has a case", "Down"), ("Where a finding has a case", "KeptAddress")):
            self.assertIn(f"(../reference/MODULES.md#{heading.lower().replace(' ', '-')})", page("docs/internals/ARCHITECTURE.md"))
            named = re.findall(r"^- `(\S+)`: ", text.split(f"## {heading}\n")[1].split("\n## ")[0], re.MULTILINE)
            files = [name for part in ("src", "specs", "proofs")
                     for name in glob.glob(f"*/{part}/**/*.*t", root_dir=os.path.join(TOP, "crates"), recursive=True)]
            having = [name for name in files if re.search(rf"\b{word}\b", text_of(os.path.join(TOP, "crates", name)))]
            self.assertGreaterEqual(len(having), 10)
            self.assertEqual(sorted(having), sorted(named), heading)

    def test_files_in_backticks_are_there(self) -> None:
        """Each name of a file that a page has in backticks is a file or a folder of the repository, but for those of the reader."""
        known = {name for folder, folders, files in os.walk(TOP) if not folder.startswith(os.path.join(TOP, ".git"))
                 for name in (os.path.relpath(os.path.join(folder, it), TOP) for it in (*folders, *files))}
        ends = {name[at:] for name in known for at in (0, *(found.end() for found in re.finditer("/", name)))}
        for name in PAGES:
            shown = set(re.findall(rf"`((?:[\w.-]+/)*[\w.-]+\.(?:{KINDS}))`", without_code(page(name))))
            with self.subTest(name):
                self.assertEqual(sorted(it for it in shown - OTHERS if it not in ends), [])

    def test_each_example_is_named(self) -> None:
        """The table of docs/guide/EXAMPLES.md has each plan of examples/, and no other."""
        named = re.findall(r"^\| `(\w+\.toml)` \|", page("docs/guide/EXAMPLES.md"), re.MULTILINE)
        plans = glob.glob("*.toml", root_dir=os.path.join(TOP, "examples"))
        self.assertEqual(sorted(named), sorted(plans))

    def test_numbers_of_services_have_one_home(self) -> None:
        """The number of a group by which the network runs stands in j39_id alone, once as code and once as a definition."""
        homes = ["crates/j39_id/specs/Services.antt", "crates/j39_id/src/services.rt"]
        numbers = re.findall(r"= (\d{2})(\d{3})\n", text_of(os.path.join(TOP, homes[0])))
        self.assertEqual(len(numbers), 6)
        files = {
            name: text_of(os.path.join(TOP, name))
            for part in ("src", "specs")
            for name in glob.glob(f"crates/*/{part}/**/*.*t", root_dir=TOP, recursive=True)
            if "_vectors" not in name
        }
        for high, low in numbers:
            number = re.compile(rf"^(?!\s*(?://|--)).*\b{high}_?{low}\b", re.MULTILINE)
            self.assertEqual(sorted(name for name in files if number.search(files[name])), homes, high + low)


def homes_of_definitions(top: str) -> dict[str, list[str]]:
    """The files of specs/ that define each name."""
    homes: dict[str, list[str]] = {}
    for file in sorted(glob.glob("crates/*/specs/**/*.antt", root_dir=top, recursive=True)):
        for name in dict.fromkeys(re.findall(DEFINITION, text_of(os.path.join(top, file)))):
            homes.setdefault(name, []).append(file)
    return homes


def homes_of_types(top: str) -> dict[str, list[str]]:
    """The crates that have a type of each name in src/."""
    homes: dict[str, list[str]] = {}
    for file in sorted(glob.glob("crates/*/src/**/*.rt", root_dir=top, recursive=True)):
        crate = file.split("/")[1]
        for name in re.findall(TYPE, text_of(os.path.join(top, file))):
            if crate not in homes.setdefault(name, []):
                homes[name].append(crate)
    return homes


class Contract(NamedTuple):
    """An item of docs/reference/CONTRACTS.md."""

    crate: str
    file: str
    name: str
    clauses: list[str]
    ends: str
    premises: list[str]


def contracts() -> list[Contract]:
    """The items of docs/reference/CONTRACTS.md, each of a function or a type, with what stands behind its words."""
    found = []
    for crate, body in re.findall(r"\n## `(j39_\w+)`\n(.*?)(?=\n## |\Z)", page("docs/reference/CONTRACTS.md"), re.DOTALL):
        for file, items in re.findall(r"\n\[\S+\]\(\.\./\.\./(\S+)\)\n\n((?:- .*\n)+)", body):
            for name, rest in re.findall(r"^- `([\w:]+)`(.*)$", items, re.MULTILINE):
                clauses, ends, premises = (re.search(rf" {word}: ((?:`\w+`(?:, )?)+)\.", rest) for word in ("Clauses", "Ends", "Premises"))
                names = [re.findall(r"\w+", it[1]) if it else [] for it in (clauses, ends, premises)]
                found.append(Contract(crate, file, name, names[0], "".join(names[1]), names[2]))
    return found


def facts_of_ends() -> dict[str, list[str]]:
    """The facts of the records that say how a command ends."""
    commands = text_of(os.path.join(TOP, "crates", "j39_stream", "specs", "CommandEnds.antt"))
    records = re.findall(r"\npub record (\w+) (.*?)(?=\n\n|$)", commands, re.DOTALL)
    return {name: re.findall(r"^  pub (\w+) :", body, re.MULTILINE) for name, body in records}


def public(source: str) -> str:
    """A source, in which a trait's functions are as public as it is."""
    return re.sub(r"\n    fn ", "\n    pub fn ", source)


def source_of(crate: str) -> str:
    """The sources of a crate."""
    folder = os.path.join(TOP, "crates", crate, "src")
    names = glob.glob("**/*.rt", root_dir=folder, recursive=True)
    return "\n".join(public(text_of(os.path.join(folder, name))) for name in names if "tests" not in name)


def laws_of(crate: str) -> list[str]:
    """The laws among what a crate's lib.rt hands out of its own functions."""
    lib = os.path.join(TOP, "crates", crate, "src", "lib.rt")
    handed_out = " ".join(re.findall(r"pub use [^;]+;", text_of(lib))) if os.path.exists(lib) else ""
    empty = re.findall(r"^pub fn (\w+)\([^)]*\)\n(?:    .*\n)*\{\}\n", source_of(crate), re.MULTILINE)
    return [name for name in empty if re.search(rf"\b{name}\b", handed_out)]


def without_code(text: str) -> str:
    """A page without its blocks of code and its pictures."""
    return re.sub(r"```.*?```|^    .*?$|^!\[.*?$", "", text, flags=re.DOTALL | re.MULTILINE)


def cells_of(block: str) -> list[str]:
    """The cells of a table."""
    return [cell for row in block.splitlines() for cell in re.split(r"(?<!\\)\|", row) if cell.strip(" -")]


def words_of(part: str) -> str:
    """The words of a part of a page: code is one word, and a link its text."""
    return " ".join(re.sub(r"`[^`]*`", "CODE", re.sub(r"\]\([^)]*\)", "]", part)).split())


def cells(text: str) -> list[str]:
    """The cells of all tables of a page, by their words."""
    blocks = re.split(r"\n\s*\n", without_code(text))
    return [words_of(cell) for block in blocks if block.startswith("|") for cell in cells_of(block)]


def sentences(text: str) -> Iterator[str]:
    """The sentences of a page, each cell of a table, each heading and each item for itself; code is one word, and a link its text."""
    for block in re.split(r"\n\s*\n", without_code(text)):
        parts = cells_of(block) if block.startswith("|") else re.split(r"\n(?=\s*(?:-|\d+\.) )", block)
        for part in parts:
            words = words_of(part)
            yield from filter(None, re.split(r"(?:(?<=[.!?])|(?<=[.!?]\))) (?=[(A-Z*\[])", words))


def anchors(text: str) -> set[str]:
    """The anchors of a page's headings, as GitHub makes them."""
    headings = re.findall(r"^#+ (.*)$", re.sub(r"```.*?```", "", text, flags=re.DOTALL), re.MULTILINE)
    return {re.sub(r"[^\w\- ]", "", heading.lower()).replace(" ", "-") for heading in headings}
