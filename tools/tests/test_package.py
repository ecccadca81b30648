"""The packages: their bytes, what is in them, and that what is in them works."""

import contextlib
import glob
import gzip
import hashlib
import importlib.util
import os
import re
import shutil
import subprocess
import sys
import tarfile
import tempfile
import tomllib
import unittest
import zipfile
from concurrent.futures import ThreadPoolExecutor
from typing import Any

from j39plan import program
from tests.support import TOOLS, TOP, InFolder, run, text_of, there

PACKAGE = os.path.join(TOOLS, "package")
COMMANDS = ["show", "variant", "check", "addresses", "load", "run", "read", "follow", "audit", "frame", "vehicle", "help"]
INSTALLED = ["where", "answer", "startup", "dbc2plan", "log2plan", "plan2dbc", "join", "forwards", "compare", "variant", "mend", "against", "drift", "fleet", "table", "report", "signals", "codes", "plot", "tolog",
             "cut", "restbus", "probe", "lsp", "check-plans"]
# Those that `j39plan TOOL` runs: `variant` is a command of the program.
TOOL_WORDS = [tool for tool in INSTALLED if tool != "variant"]
PAGE = text_of(os.path.join(TOP, "docs", "guide", "TOOLS.md"))

# Whose package it is in these tests.
MAINTAINER = "A & B / C <maintainer@lists.test.org>"


def lines_of(*words: str, **more: Any) -> list[str]:
    """What a command writes, line by line."""
    written: str = subprocess.run(words, check=True, capture_output=True, text=True, **more).stdout
    return written.splitlines()


def built(folder: str, umask: int = 0o022) -> list[str]:
    """Builds the packages into a folder, and answers their names."""
    before = os.umask(umask)
    try:
        environment = {**os.environ, "J39PLAN": os.path.realpath(program.path()), "SOURCE_DATE_EPOCH": "1700000000",
                       "MAINTAINER": MAINTAINER}
        return lines_of(os.path.join(PACKAGE, "build"), folder, env=environment)
    finally:
        os.umask(before)


class Built(InFolder):
    dist: str
    packages: list[str]
    installed: list[str]

    @classmethod
    def setUpClass(cls) -> None:
        cls.dist = cls.enterClassContext(tempfile.TemporaryDirectory())
        cls.packages = built(cls.dist)
        cls.installed = [it for it in cls.packages if not it.endswith(".zip")]

    def package(self, ending: str) -> str:
        """The package of this ending."""
        return next(name for name in self.packages if name.endswith(ending))

    def test_two_builds_give_the_same_bytes(self) -> None:
        first, second = self.packages, built(self.path("two"), umask=0o077)
        self.assertEqual([os.path.basename(name) for name in first], [os.path.basename(name) for name in second])
        for one, two in zip(first, second):
            with open(one, "rb") as left, open(two, "rb") as right:
                self.assertEqual(left.read(), right.read(), one)

    def test_what_is_installed_works(self) -> None:
        for package in self.installed:
            if os.path.basename(package).startswith("python3-"):
                continue
            root = self.path("root" + package[-3:])
            os.mkdir(root)
            if package.endswith(".deb"):
                subprocess.run(["dpkg-deb", "-x", package, root], check=True)
                prefix = os.path.join(root, "usr")
            else:
                subprocess.run(["tar", "-C", root, "-xzf", package, "--strip-components=1"], check=True)
                prefix = root
            self.works(prefix)

    def works(self, prefix: str) -> None:
        """Checks, finds and starts an example with what stands below a prefix."""
        environment = {"PATH": f"{prefix}/bin:/usr/bin:/bin"}
        examples = f"{prefix}/share/doc/j39plan/examples"
        self.assertEqual(lines_of("j39plan", "check", f"{examples}/first_plan.toml", env=environment),
                         ["ok 2 units 1 groups 1 flows"])
        self.assertEqual(lines_of("j39plan-where", f"{examples}/first_plan.toml", env=environment),
                         ["ok 2 units 1 groups 1 flows"])
        for words in (["j39plan", "where"], [f"{prefix}/bin/j39plan", "where"], [f"{prefix}/bin/j39plan-where"]):
            # by the first word, and where the programs aren't on the PATH
            path = environment if words[0] == "j39plan" else {"PATH": "/usr/bin:/bin"}
            self.assertEqual(lines_of(*words, f"{examples}/first_plan.toml", env=path), ["ok 2 units 1 groups 1 flows"], words)
        missing = subprocess.run(["j39plan", "check", "/none"], env=environment, capture_output=True, text=True, check=False)
        self.assertEqual((missing.returncode, missing.stdout, missing.stderr), (4, "", "j39plan: device fault\nj39plan: /none: No such file or directory\n"))
        if shutil.which("gcc"):
            self.assertEqual(lines_of("j39plan-where", f"{examples}/first_plan.toml", env={**environment, program.SWITCH: "1"}),
                             ["ok 2 units 1 groups 1 flows"])
        self.assertIn("load 32160 of 250000", lines_of("j39plan", "load", f"{examples}/axle.toml", env=environment))
        self.tools_work(examples, environment)
        self.does_the_jobs_of_the_page(environment)
        self.has_what_systems_look_for(prefix)

    def tools_work(self, examples: str, environment: dict[str, str]) -> None:
        """Starts tools with examples."""
        self.assertEqual(lines_of("j39plan-startup", f"{examples}/first_plan.toml", env=environment)[1:],
                         ["up ENGINE", "up CLUSTER", "give CLUSTER ENGINE"])
        self.assertIn("--strict", " ".join(lines_of("j39plan-dbc2plan", "--help", env=environment)))
        plan, log = f"{examples}/tractor_and_implement.toml", f"{examples}/tractor_and_implement.start.log"
        compared = subprocess.run(["j39plan-against", plan, log], env=environment, capture_output=True, text=True, check=False)
        self.assertEqual((compared.returncode, compared.stdout.splitlines()[-1][:11]), (1, "deviations "), compared.stderr)
        self.assertIn("</html>", lines_of("j39plan-report", plan, env=environment))
        self.assertIn("1764230400.000000,1,ENGINE?,0,all,255,EEC1,SPN190,value,800,rpm,", lines_of("j39plan-signals", plan, log, env=environment))
        self.assertIn("BU_: ENGINE CLUSTER", lines_of("j39plan-plan2dbc", f"{examples}/first_plan.toml", env=environment))
        drawn = subprocess.run(["j39plan-plot", plan, log, "SPN190", "-o", self.path("plot.png")], env=environment, check=False)
        self.assertEqual(drawn.returncode, 0 if importlib.util.find_spec("matplotlib") else 69)
        made = subprocess.run(["j39plan-tolog", self.write("a.csv", "")], env=environment, capture_output=True, check=False)
        self.assertEqual(made.returncode, 2 if importlib.util.find_spec("can") else 69)
        self.assertEqual(lines_of("j39plan-join", f"{examples}/axle.toml", f"{examples}/first_plan.toml", env=environment)[1], "version = 4")
        self.assertEqual(lines_of("j39plan-compare", f"{examples}/axle.toml", f"{examples}/axle.toml", env=environment), ["changes 0 breaks 0"])
        followed = f"{examples}/two_units_one_address"
        self.assertEqual(lines_of("j39plan-fleet", f"{followed}.toml", f"{followed}.drive.log", env=environment)[-1],
                         "logs 1 with deviations 0 failed 0")

    def has_what_systems_look_for(self, prefix: str) -> None:
        """Man pages, completions, parts for editors and schemas."""
        for tool in ("", *(f"-{tool}" for tool in INSTALLED)):
            self.assertTrue(os.path.exists(f"{prefix}/share/man/man1/j39plan{tool}.1.gz"), tool)
            self.assertTrue(os.path.exists(f"{prefix}/share/bash-completion/completions/j39plan{tool}"), tool)
            self.assertTrue(os.path.exists(f"{prefix}/share/fish/vendor_completions.d/j39plan{tool}.fish"), tool)
        for name in ("neovim.lua", "emacs.el", "helix.toml", "vscode/[Content_Types].xml", "vscode/extension/extension.js"):
            self.assertTrue(os.path.exists(f"{prefix}/share/j39plan/editors/{name}"), name)
        for schema in ("plan", "vehicle"):
            self.assertIn(f"/usr/share/j39plan/tools/{schema}.schema.json", PAGE)
            self.assertTrue(os.path.exists(f"{prefix}/share/j39plan/tools/{schema}.schema.json"))

    def test_the_zip_for_windows(self) -> None:
        """It has what runs the program, the program and its sum, and tools that find it."""
        with zipfile.ZipFile(self.package(".zip")) as file:
            file.extractall(self.folder)
        top = self.path("j39plan-0.1.0-windows-x86_64")
        with open(program.path(), "rb") as one, open(f"{top}/program/{program.STORED}", "rb") as other:
            text = other.read()
            self.assertEqual(one.read(), text)
        self.assertEqual(text_of(f"{top}/program/{program.STORED}.txt"), f"program {hashlib.sha256(text).hexdigest()}\n")
        with open(os.path.join(TOP, "program", "j39plan.exe"), "rb") as one, open(f"{top}/program/j39plan.exe", "rb") as other:
            self.assertEqual(one.read(), other.read())
        script = "import sys; sys.path.insert(0, 'tools'); from j39plan import program; sys.platform = 'win32'; print(program.repository_program())"
        self.assertEqual(lines_of(sys.executable, "-c", script, cwd=top), [f"{os.path.realpath(top)}/program/j39plan.exe"])
        self.assertTrue(all(os.path.exists(f"{top}/{it}") for it in ("README.md", "tools/where.py", "examples/first_plan.toml", "docs/guide/TOOLS.md")))

    def test_the_python_module_is_found(self) -> None:
        """Where its package puts it, and where the tarball has it; without the commands beside it."""
        root, tar = self.path("root"), self.path("tar")
        os.mkdir(tar)
        for package in self.installed:
            if package.endswith(".deb"):
                subprocess.run(["dpkg-deb", "-x", package, root], check=True)
            else:
                subprocess.run(["tar", "-C", tar, "-xzf", package, "--strip-components=1"], check=True)
        for folder, prefix in ((f"{root}/usr/lib/python3/dist-packages", f"{root}/usr"), (f"{tar}/share/j39plan/python", tar)):
            if os.path.isdir(folder):
                plan = f"{prefix}/share/doc/j39plan/examples/axle.toml"
                script = f"import j39plan, sys; print(j39plan.read_plan('{plan}').load().taken, 'program' in sys.modules)"
                self.assertEqual(lines_of("python3", "-c", script, env={"PATH": f"{prefix}/bin:/usr/bin:/bin", "PYTHONPATH": folder}, cwd=self.folder),
                                 ["(32160, 250000) False"], folder)

    def does_the_jobs_of_the_page(self, environment: dict[str, str]) -> None:
        """What docs/guide/TOOLS.md has jobs of CI do, on a plan that has to be mended."""
        os.makedirs(self.path("plans"), exist_ok=True)
        plan = self.write("plans/first.toml", "version = 5\n")
        jobs = re.findall(r"CHECK=.* j39plan-check-plans .*plans/\*\.toml", PAGE)
        refused = "refused Range top key version"
        in_a_line, annotated = f"plans/first.toml:1: {refused}", f"::error file=plans/first.toml,line=1::{refused}"
        for job, shown in zip(jobs, (in_a_line, annotated, in_a_line, in_a_line), strict=True):
            done = subprocess.run(["sh", "-c", job], cwd=self.folder, env=environment, capture_output=True, text=True, check=False)
            self.assertEqual(done.returncode, 1, done.stderr)
            self.assertTrue(done.stdout.splitlines()[1].startswith(shown), done.stdout)
        os.remove(plan)

    @unittest.skipUnless(shutil.which("dpkg-deb"), "dpkg-deb isn't there")
    def test_the_package_names_what_it_needs(self) -> None:
        fields = dict(line.split(": ", 1) for line in lines_of("dpkg-deb", "-f", self.package(".deb")) if re.match(r"\S+: ", line))
        self.assertEqual(fields["Version"], lines_of(program.path(), "--version")[0].split()[1])
        self.assertTrue(fields["Depends"].startswith("libc6"), fields)
        self.assertEqual(fields["Maintainer"], MAINTAINER)

    @unittest.skipUnless(shutil.which("dpkg-deb"), "dpkg-deb isn't there")
    def test_the_package_has_a_changelog(self) -> None:
        """That of the repository, as Debian has it; its first version is that of the program."""
        root = self.path("root")
        subprocess.run(["dpkg-deb", "-x", self.package(".deb"), root], check=True)
        with gzip.open(f"{root}/usr/share/doc/j39plan/changelog.gz", "rt", encoding="utf-8") as file:
            head, _, *items = file.read().splitlines()
        version = lines_of(program.path(), "--version")[0].split()[1]
        self.assertEqual(head, f"j39plan ({version}) unstable; urgency=medium")
        self.assertIn(f" -- {MAINTAINER}  Tue, 14 Nov 2023 22:13:20 +0000", items)
        lines = re.findall(r"^(?:- |  ).*", text_of(os.path.join(TOP, "CHANGELOG.md")), re.MULTILINE)
        shown = " ".join(line.replace("- ", "* ", 1) if line.startswith("- ") else line.strip() for line in lines)
        self.assertEqual(" ".join(item.strip() for item in items if item.startswith("  ")), shown)
        self.assertLessEqual(max(map(len, items)), 80)

    @unittest.skipUnless(shutil.which("strip"), "strip isn't there: apt-get install binutils")
    def test_the_program_has_no_symbols(self) -> None:
        with tarfile.open(self.package(".tar.gz")) as files:
            member = next(name for name in files.getnames() if name.endswith("/lib/j39plan/j39plan"))
            self.assertNotIn(b".symtab", there(files.extractfile(member)).read())

    @unittest.skipUnless(shutil.which("lintian"), "lintian isn't there: apt-get install lintian")
    def test_lintian_misses_the_licence_alone(self) -> None:
        for package in self.packages:
            if package.endswith(".deb"):
                said = subprocess.run(["lintian", "--allow-root", package], capture_output=True, text=True, check=False).stdout
                missed = [] if os.path.basename(package).startswith("python3-") else ["E: j39plan: no-copyright-file"]
                self.assertEqual([line for line in said.splitlines() if line[:2] in ("E:", "W:")], missed)


class Wheel(InFolder):
    def test_it_names_each_command(self) -> None:
        """That of the package, which a file of its name in tools/ runs; its version is that of the program."""
        with open(os.path.join(TOOLS, "pyproject.toml"), "rb") as file:
            project = tomllib.load(file)["project"]
        self.assertEqual(project["scripts"], {f"j39plan-{tool}": f"j39plan.cli.{tool.replace('-', '_')}:main" for tool in INSTALLED})
        self.assertEqual(project["version"], lines_of(program.path(), "--version")[0].split()[1])
        modules = glob.glob("[!_]*.py", root_dir=os.path.join(TOOLS, "j39plan", "cli"))
        self.assertEqual(sorted(modules), sorted([*glob.glob("*.py", root_dir=TOOLS), "check_plans.py"]))
        self.assertEqual(sorted(modules), sorted(f"{tool.replace('-', '_')}.py" for tool in INSTALLED))

    @unittest.skipUnless(all(map(importlib.util.find_spec, ("pip", "setuptools", "wheel"))), "pip, setuptools or wheel isn't there: apt-get install python3-pip")
    def test_what_pip_installs_works(self) -> None:
        """The commands and the module, from a copy of what the wheel is made of."""
        os.mkdir(self.path("tools"))
        shutil.copy(os.path.join(TOOLS, "pyproject.toml"), self.path("tools"))
        shutil.copytree(os.path.join(TOOLS, "j39plan"), self.path("tools/j39plan"), ignore=shutil.ignore_patterns("__pycache__"))
        words = ["pip", "install", "--quiet", "--no-index", "--no-deps", "--no-build-isolation", "--disable-pip-version-check", "--target"]
        subprocess.run([sys.executable, "-m", *words, self.path("there"), self.path("tools")], check=True, capture_output=True)
        there = {**os.environ, "J39PLAN": os.path.abspath(program.path()), "PYTHONPATH": self.path("there")}
        plan, log = (os.path.join(TOP, "examples", f"two_units_one_address.{end}") for end in ("toml", "drive.log"))
        for tool in INSTALLED:
            said = lines_of(self.path(f"there/bin/j39plan-{tool}"), "--version", env=there, cwd=self.folder)
            self.assertEqual(said, [f"{tool} (j39plan) {lines_of(program.path(), '--version')[0].split()[1]}"])
        for tool, first, second in (("fleet", plan, log), ("signals", plan, log), ("where", "--lint", plan), ("join", plan, os.path.join(TOP, "examples/axle.toml"))):
            shown = subprocess.run([self.path(f"there/bin/j39plan-{tool}"), first, second], env=there, cwd=self.folder, capture_output=True, text=True, check=False)
            self.assertEqual((shown.returncode, shown.stdout, shown.stderr), run(f"{tool}.py", first, second))
        script = f"import j39plan; plan = j39plan.read_plan({plan!r}); print(len(list(j39plan.signals(plan, {log!r}))), j39plan.__file__)"
        count, where = lines_of(sys.executable, "-c", script, env=there, cwd=self.folder)[0].split()
        self.assertTrue(int(count) > 0 and where.startswith(self.path("there")), where)


class Pages(unittest.TestCase):
    @unittest.skipUnless(shutil.which("groff"), "groff isn't there: apt-get install groff")
    def test_man_pages_have_no_faults(self) -> None:
        for page in glob.glob(os.path.join(PACKAGE, "man", "*.1")):
            ended = subprocess.run(["groff", "-man", "-Tutf8", "-ww", "-z", page], capture_output=True, text=True, check=True)
            self.assertEqual(ended.stderr, "", page)

    def test_the_page_names_each_command_and_each_status(self) -> None:
        page = text_of(os.path.join(PACKAGE, "man", "j39plan.1"))
        synopsis = re.findall(r"^\.B j39plan (\w+)$", page, re.MULTILINE)
        self.assertEqual([synopsis, re.findall(r"^\.BI (\w+) ", page, re.MULTILINE)], [COMMANDS[:-1]] * 2)
        for tool in INSTALLED:
            self.assertIn(f".BR j39plan-{tool} (1)", page)
        self.assertEqual(re.findall(r"\n\.TP\n\.B (\d)\n", page), ["0", "1", "2", "3", "4"])

    def test_the_pages_of_tools_have_what_their_help_has(self) -> None:
        """The same options, in the synopsis too, and an example, which the help gives under the name that was called."""
        for tool in INSTALLED:
            name = tool if tool == "check-plans" else f"{tool}.py"
            shown = "\n".join(lines_of(os.path.join(TOOLS, name), "--help"))
            if tool != "check-plans":
                self.assertRegex(shown.split("\n\n")[1], r"\.\Z", tool)
            options = set(re.findall(r"--[a-z][a-z-]*", shown))
            page = text_of(os.path.join(PACKAGE, "man", f"j39plan-{tool}.1")).replace("\\-", "-")
            synopsis = page[page.index(".SH SYNOPSIS"):page.index(".SH DESCRIPTION")]
            self.assertEqual(options - {"--output"}, set(re.findall(r"--[a-z][a-z-]*", synopsis)), tool)
            self.assertEqual(options - set(re.findall(r"--[a-z][a-z-]*", page)), set(), tool)
            self.assertRegex(shown, rf"\nexample: {re.escape(name)} ", tool)
            example = page[page.index(".SH EXAMPLE"):].splitlines()[1]
            self.assertEqual(example.removeprefix(".B ").removeprefix("j39plan-"),
                             there(re.search(r"\nexample: (.*)", shown)).group(1).replace(name, tool), tool)
            self.assertIn(".SH ENVIRONMENT", page, tool)


class Completions(InFolder):
    def test_they_have_the_commands_of_the_help(self) -> None:
        shown = [line.split()[0] for line in lines_of(program.path(), "--help") if re.match(r"  [a-z]+  ", line)]
        self.assertEqual(sorted(shown), sorted(COMMANDS))

    def complete_bash(self, *words: str, cwd: str = TOOLS) -> list[str]:
        """What bash offers behind these words."""
        script = (f'source {PACKAGE}/completions/j39plan.bash; COMP_WORDS=("$@"); COMP_CWORD=$(($# - 1)); '
                  '$(complete -p "$1" | grep -o "_j39plan[a-z_]*"); ')
        return lines_of("bash", "-c", script + 'printf "%s\\n" "${COMPREPLY[@]}"', "bash", *words, cwd=cwd, env=self.environment())

    def test_bash(self) -> None:
        self.assertEqual(self.complete_bash("j39plan", ""), [*COMMANDS, *TOOL_WORDS, "--help", "--version"])
        self.assertEqual(self.complete_bash("j39plan", "r"), ["run", "read", "report", "restbus"])
        self.assertEqual(self.complete_bash("j39plan", "check", "plan.s", cwd=os.path.join(TOOLS, "j39plan")), ["plan.schema.json"])
        self.assertEqual(self.complete_bash("j39plan", "v"), ["variant", "vehicle"])
        self.assertEqual(self.complete_bash("j39plan", "help", "f"), ["follow", "frame", "forwards", "fleet"])
        self.assertEqual(self.complete_bash("j39plan", "follow", "--"), ["--all"])
        self.assertEqual(self.complete_bash("j39plan", "audit", "--"), ["--part", "--stamps", "--quiet"])
        self.assertEqual(self.complete_bash("j39plan", "audit", "--part", "--s"), ["--stamps"])

    def test_bash_of_files(self) -> None:
        """Those of the ending that is wanted and folders, else all."""
        for name in ("a.toml", "a.log", "a.schedule", "a.dbc"):
            self.write(name, "")
        for words, name in ((("j39plan", "check"), "a.toml"), (("j39plan", "vehicle"), "a.toml"), (("j39plan", "run", "a.toml"), "a.schedule"),
                            (("j39plan", "read", "a.toml"), "a.log"), (("j39plan", "follow", "--all", "a.toml"), "a.log"),
                            (("j39plan", "audit", "--stamps", "5"), "a.toml"), (("j39plan", "audit", "--stamps", "5", "--part", "a.toml"), "a.log"), (("j39plan", "audit", "--quiet", "5", "a.toml"), "a.log"),
                            (("j39plan-where",), "a.toml"), (("j39plan-startup",), "a.toml"),
                            (("j39plan-against", "a.toml"), "a.log"), (("j39plan-fleet", "a.toml", "a.log"), "a.log"), (("j39plan-join", "a.toml"), "a.toml"),
                            (("j39plan-forwards", "a.toml"), "a.toml"),
                            (("j39plan-compare", "a.toml"), "a.toml"), (("j39plan-signals", "a.toml"), "a.log"),
                            (("j39plan-plot", "a.toml"), "a.log"), (("j39plan-dbc2plan",), "a.dbc"),
                            (("j39plan-check-plans", "a.toml"), "a.toml")):
            self.assertEqual(self.complete_bash(*words, "a", cwd=self.folder), [name], words)

    def test_bash_of_files_of_several_kinds(self) -> None:
        """Of what dbc2plan reads all endings, in capitals too, behind another file too."""
        files = ["a.arxml", "a.dbc", "a.DBC", "a.kcd", "a.sym", "a.SYM"]
        for name in (*files, "a.toml", "a.txt"):
            self.write(name, "")
        for words in (("j39plan-dbc2plan",), ("j39plan-dbc2plan", "a.dbc")):
            self.assertEqual(sorted(self.complete_bash(*words, "a", cwd=self.folder)), sorted(files))

    def test_bash_of_tools(self) -> None:
        """The options of each are those of its help."""
        for tool in INSTALLED:
            name = os.path.join(TOOLS, tool if tool == "check-plans" else f"{tool}.py")
            shown = sorted(set(re.findall(r"--[a-z][a-z-]*", "\n".join(lines_of(name, "--help")))))
            self.assertIn("--help", shown)
            self.assertEqual(self.complete_bash(f"j39plan-{tool}", "-"), shown)
        self.assertEqual(self.complete_bash("j39plan-where", "--g"), ["--github", "--gitlab"])
        self.assertEqual(self.complete_bash("j39plan-dbc2plan", "--kind", ""), ["dbc", "arxml", "kcd", "sym", "csv", "xlsx", "ods"])
        self.assertEqual(self.complete_bash("j39plan-answer", "l"), ["load"])
        self.assertEqual(self.complete_bash("j39plan-answer", "v"), ["vehicle"])
        self.assertEqual(self.complete_bash("j39plan-report", "plan.toml", "-o", "where."), ["where.py"])

    def test_bash_of_tools_as_words(self) -> None:
        """Behind `j39plan TOOL` is offered what is offered behind `j39plan-TOOL`."""
        for words in (["where", "--g"], ["answer", "l"], ["dbc2plan", "--kind", ""], ["report", "plan.toml", "-o", "where."], ["signals", "a.toml", "a"]):
            offered = self.complete_bash(f"j39plan-{words[0]}", *words[1:])
            self.assertEqual((self.complete_bash("j39plan", *words), bool(offered)), (offered, True), words)
        self.assertEqual(self.complete_bash("j39plan", "variant", "--", "--l"), [""])

    @unittest.skipUnless(shutil.which("fish"), "fish isn't there: apt-get install fish")
    def test_fish(self) -> None:
        script = f"source {PACKAGE}/completions/j39plan.fish; complete -C '{{}}'"
        offered = lines_of("fish", "--no-config", "-c", script.format("j39plan "), cwd=TOOLS)
        self.assertEqual(sorted(line.split("\t")[0] for line in offered), sorted([*COMMANDS, *TOOL_WORDS]))
        offered = lines_of("fish", "--no-config", "-c", script.format("j39plan check plan.s"), cwd=os.path.join(TOOLS, "j39plan"))
        self.assertEqual([line.split("\t")[0] for line in offered], ["plan.schema.json"])

    @unittest.skipUnless(shutil.which("fish"), "fish isn't there: apt-get install fish")
    def test_fish_of_tools(self) -> None:
        script = f"source {PACKAGE}/completions/j39plan.fish; complete -C '{{}}'"
        for tool in INSTALLED:
            shown = re.findall(r"--[a-z][a-z-]*", "\n".join(lines_of(os.path.join(TOOLS, tool if tool == "check-plans" else f"{tool}.py"), "--help")))
            offered = [line.split("\t")[0] for line in lines_of("fish", "--no-config", "-c", script.format(f"j39plan-{tool} --"), cwd=TOOLS)]
            self.assertLessEqual(set(shown), set(offered), tool)

    @unittest.skipUnless(shutil.which("fish"), "fish isn't there: apt-get install fish")
    def test_fish_of_tools_as_words(self) -> None:
        script = f"source {PACKAGE}/completions/j39plan.fish; complete -C '{{}}'"
        for typed in ("where --li", "answer l", "dbc2plan --kind x", "check-plans --v"):
            by_word, by_name = (lines_of("fish", "--no-config", "-c", script.format(f"j39plan{join}{typed}"), cwd=TOOLS) for join in " -")
            self.assertEqual((by_word, bool(by_name)), (by_name, True), typed)

    @unittest.skipUnless(shutil.which("zsh"), "zsh isn't there: apt-get install zsh")
    def test_zsh_of_tools_as_words(self) -> None:
        self.assertRegex(self.complete_zsh("j39plan where --g"), r"(?m)^\s*--gitlab +-- ")
        self.assertIn("write the forwards of a gateway", self.complete_zsh("j39plan f"))

    @unittest.skipUnless(shutil.which("zsh"), "zsh isn't there: apt-get install zsh")
    def test_zsh(self) -> None:
        offered = self.complete_zsh("j39plan r")
        self.assertIn("run a schedule on a simulated bus of a plan", offered)
        self.assertIn("decode a log by the groups of a plan", offered)
        self.assertNotIn("show what is wrong", offered)

    @unittest.skipUnless(shutil.which("zsh"), "zsh isn't there: apt-get install zsh")
    def test_zsh_of_tools(self) -> None:
        """The file is that of each tool, whose options are those of its help."""
        with open(os.path.join(PACKAGE, "completions", "_j39plan"), encoding="utf-8") as file:
            self.assertEqual(file.readline().split(), ["#compdef", "j39plan", *(f"j39plan-{tool}" for tool in INSTALLED)])
        with ThreadPoolExecutor(4) as pool:
            offered = dict(zip(INSTALLED, pool.map(self.complete_zsh, [f"j39plan-{tool} --" for tool in INSTALLED])))
        for tool, text in offered.items():
            shown = set(re.findall(r"--[a-z][a-z-]*", "\n".join(lines_of(self.path(f"j39plan-{tool}"), "--help"))))
            self.assertEqual(set(re.findall(r"^\s*(--[a-z][a-z-]*) +-- ", text, re.MULTILINE)), shown, tool)

    def complete_zsh(self, typed: str) -> str:
        """What zsh offers behind what was typed: only on a terminal, so it has one here. On a busy machine it is given more time."""
        for seconds in (4, 12, 36):
            with contextlib.suppress(subprocess.TimeoutExpired):
                offered = self.complete_zsh_within(typed, seconds)
                if " -- " in offered:
                    return offered
        self.fail(f"zsh offers nothing behind {typed}")

    def complete_zsh_within(self, typed: str, seconds: int) -> str:
        """What zsh offers by so many seconds."""
        script = (
            "zmodload zsh/zpty; zpty shell zsh -f -i; "
            f"zpty -w shell 'fpath=({PACKAGE}/completions $fpath); autoload -Uz compinit; compinit -u -D; PS1=; cd {TOOLS}'; "
            f"zpty -w -n shell $'{typed}\\t\\t'; sleep {seconds}; zpty -w -n shell $'\\C-u'; zpty -w shell exit; sleep 0.5; "
            "while zpty -r shell line; do print -r -- $line; done"
        )
        environment = {**self.environment(), "TERM": "dumb"}
        ran = subprocess.run(["zsh", "-f", "-c", script], env=environment, stdin=subprocess.DEVNULL, capture_output=True, text=True,
                             timeout=3 * seconds + 10, check=True)
        return ran.stdout

    def environment(self) -> dict[str, str]:
        """An environment in which the tools are commands."""
        for tool in INSTALLED:
            with contextlib.suppress(FileExistsError):
                os.symlink(os.path.join(TOOLS, tool if tool == "check-plans" else f"{tool}.py"), self.path(f"j39plan-{tool}"))
        return {**os.environ, "PATH": f"{self.folder}:{os.environ['PATH']}"}


if __name__ == "__main__":
    unittest.main()
