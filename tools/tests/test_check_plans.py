"""The example for CI."""

import json
import os
import shutil
import subprocess
import sys
import unittest
import xml.etree.ElementTree as ElementTree

from j39plan import program
from tests.support import TOOLS, TOP, InFolder, example, text_of

CLEAN, FOUND = example("first_plan.toml"), example("findings/f10_flow_to_self.toml")


class CheckPlans(InFolder):
    def status(self, *plans: str, check: str = "") -> tuple[int, str]:
        """The exit status over these plans, and what is written."""
        environment = {**os.environ, "J39PLAN": os.path.abspath(program.path()), "CHECK": check}
        ended = subprocess.run(
            [os.path.join(TOOLS, "check-plans"), *plans],
            cwd=self.folder, capture_output=True, text=True, check=False, env=environment,
        )
        return ended.returncode, ended.stdout

    def test_the_worst_counts(self) -> None:
        refused, missing = self.write("plan.toml", "version = 5\n"), self.path("none.toml")
        for plans, status in [
            ((), 2), ((CLEAN, CLEAN), 0), ((FOUND,), 1), ((refused,), 1), ((missing,), 2),
            ((FOUND, CLEAN), 1), ((missing, FOUND), 2), ((CLEAN, refused, missing), 2),
        ]:
            self.assertEqual(self.status(*plans)[0], status, plans)

    def test_its_help_and_its_version(self) -> None:
        version = program.call(["--version"])[1].split()[1]
        self.assertEqual(self.status("--version"), (0, f"check-plans (j39plan) {version}\n"))
        usage = "usage: check-plans [--junit FILE] PLAN.. | -h | --help | --version\n"
        for word in ("--help", "-h"):
            self.assertEqual(self.status(word), (0, f"{usage}\nexample: check-plans plans/*.toml\n"))

    def said(self, *plans: str) -> tuple[int, str]:
        """The exit status over these plans, and what is said on standard error."""
        ended = subprocess.run([os.path.join(TOOLS, "check-plans"), *plans], cwd=self.folder, capture_output=True, text=True, check=False,
                               env={**os.environ, "J39PLAN": os.path.abspath(program.path()), "CHECK": ""})
        return ended.returncode, ended.stderr

    def test_a_file_that_can_not_be_checked_is_named(self) -> None:
        """Whichever of several it is; the others are checked."""
        missing, folder = self.path("none.toml"), self.folder
        self.assertEqual(self.said(CLEAN, missing, FOUND), (2, f"check-plans: {missing} isn't there\n"))
        self.assertEqual(self.said(folder), (2, f"check-plans: {folder} is a folder\n"))
        self.assertIn("findings 1", self.status(missing, FOUND)[1])

    def test_a_fault_of_the_check_names_the_plan(self) -> None:
        tool = self.write("tool.sh", "exit 70\n")
        ended = subprocess.run([os.path.join(TOOLS, "check-plans"), CLEAN], capture_output=True, text=True, check=False,
                               env={**os.environ, "CHECK": f"sh {tool}"})
        self.assertEqual((ended.returncode, ended.stderr), (2, f"check-plans: {CLEAN} could not be checked, status 70\n"))

    def test_plans_as_tests_of_junit(self) -> None:
        """One that has to be mended is a failure by its first finding, one that couldn't be checked an error; what is written besides is the same."""
        odd, missing, report = self.write('a<&">.toml', text_of(FOUND)), self.path("none.toml"), self.path("plans.xml")
        bad = self.write("bad.toml", 'version = 1\n[[unit]]\nlabel = "\x01"\n')
        plans = (CLEAN, FOUND, odd, bad, missing)
        self.assertEqual(self.status("--junit", report, *plans), self.status(*plans))
        suite = ElementTree.parse(report).getroot()
        self.assertEqual((suite.tag, suite.attrib), ("testsuite", {"name": "check-plans", "tests": "5", "failures": "3", "errors": "1"}))
        told = [(test.get("name"), [(part.tag, part.get("message")) for part in test]) for test in suite]
        refusal = self.status(bad)[1].splitlines()[-1]
        self.assertEqual(told, [(CLEAN, []), (FOUND, [("failure", "F10 FlowToSelf 1")]), (odd, [("failure", "F10 FlowToSelf 1")]), (bad, [("failure", refusal)]),
                                (missing, [("error", "it isn't there")])])
        self.assertEqual(suite[1][0].text, "F10 FlowToSelf 1\nfindings 1")

    def test_a_report_that_can_not_be_written(self) -> None:
        self.assertEqual(self.status("--junit", self.path("none/plans.xml"), CLEAN)[0], 2)
        self.assertEqual(self.status("--junit", self.path("plans.xml"))[0], 2)

    def test_an_option_that_there_is_not(self) -> None:
        """It is no plan, unless a file is called so; behind -- it is one."""
        usage = "usage: check-plans [--junit FILE] PLAN.. | -h | --help | --version\n"
        for words in (("--quiet",), ("--quiet", CLEAN), (CLEAN, "-q")):
            option = next(word for word in words if word.startswith("-"))
            self.assertEqual(self.said(*words), (2, f"check-plans: there is no option {option}\n{usage}"))
        self.assertEqual(self.said("--", "--quiet"), (2, "check-plans: --quiet isn't there\n"))
        self.write("--quiet", text_of(CLEAN))
        self.assertEqual(self.said("--quiet"), (0, ""))
        self.assertEqual(self.status("--", "--quiet"), (0, "--quiet\nok 2 units 1 groups 1 flows\n"))

    def test_a_report_for_gitlab(self) -> None:
        """Of all plans in one file; of a plan that is checked anew its entries are new."""
        report, refused = self.path("report.json"), self.write("refused.toml", "version = 5\n")
        check = f"{os.path.join(TOOLS, 'where.py')} --gitlab {report}"
        for _ in range(2):
            self.assertEqual(self.status(FOUND, refused, CLEAN, check=check)[0], 1)
            with open(report, encoding="utf-8") as file:
                entries = json.load(file)
            self.assertEqual([(entry["location"]["path"], entry["location"]["lines"]["begin"], entry["check_name"], entry["severity"])
                              for entry in entries],
                             [(FOUND, 25, "FlowToSelf", "major"), (refused, 1, "refused Range", "critical")])
        self.assertEqual(len({entry["fingerprint"] for entry in entries}), 2)
        self.assertTrue(entries[0]["description"].startswith("F10 FlowToSelf 1  (TSC1 from ENGINE to ENGINE: key to: "), entries)
        os.replace(self.write("mended.toml", text_of(CLEAN)), refused)
        self.assertEqual(self.status(refused, check=check)[0], 0)
        with open(report, encoding="utf-8") as file:
            self.assertEqual([entry["location"]["path"] for entry in json.load(file)], [FOUND])

    def test_a_file_that_is_no_report(self) -> None:
        """It stays as it is, and that is no fault of the plan."""
        for text in ("hello", "{}", "[1]", '[{"location": 5}]'):
            report = self.write("report.json", text)
            ended = subprocess.run([sys.executable, os.path.join(TOOLS, "where.py"), "--gitlab", report, FOUND], capture_output=True, text=True,
                                   check=False, env={**os.environ, "J39PLAN": program.path()})
            self.assertEqual((ended.returncode, ended.stderr), (4, f"where: {report}: it is no code quality report, and stays as it is\n"))
            self.assertEqual(text_of(report), text)

    def test_a_hook_of_pre_commit(self) -> None:
        """The file at the top names the command that a package installs."""
        text = text_of(os.path.join(TOP, ".pre-commit-hooks.yaml"))
        self.assertRegex(text, r"(?m)^- id: j39plan-check-plans$")
        self.assertRegex(text, r"(?m)^  entry: env CHECK=j39plan-where j39plan-check-plans$")
        self.assertRegex(text, r"(?m)^  language: system$")
        self.assertRegex(text_of(os.path.join(TOP, "docs", "guide", "TOOLS.md")), r"(?m)^ +- id: j39plan-check-plans$")
        if shutil.which("pre-commit"):
            ended = subprocess.run(["pre-commit", "validate-manifest", os.path.join(TOP, ".pre-commit-hooks.yaml")],
                                   capture_output=True, text=True, check=False, env={**os.environ, "HOME": self.folder})
            self.assertEqual(ended.returncode, 0, ended.stdout + ended.stderr)

    def test_it_finds_the_program_through_a_link(self) -> None:
        os.symlink(os.path.join(TOOLS, "check-plans"), self.path("linked"))
        if program.repository_program():
            ended = subprocess.run([self.path("linked"), CLEAN], capture_output=True, text=True, check=False,
                                   env={"PATH": "/usr/bin:/bin"})
            self.assertEqual((ended.returncode, ended.stderr), (0, ""))

    def test_what_is_written(self) -> None:
        written = f"{CLEAN}\nok 2 units 1 groups 1 flows\n{FOUND}\nF10 FlowToSelf 1\nfindings 1\n"
        self.assertEqual(self.status(CLEAN, FOUND), (1, written))

    def test_plans_whose_names_begin_with_a_hyphen(self) -> None:
        self.write("-x.toml", text_of(CLEAN))
        for check in ("", os.path.join(TOOLS, "where.py")):
            self.assertEqual(self.status("-x.toml", check=check), (0, "-x.toml\nok 2 units 1 groups 1 flows\n"))

    def test_a_fault_of_a_tool_is_a_fault_of_the_job(self) -> None:
        tool = self.write("tool.py", f"import sys; sys.path.insert(0, {TOOLS!r}); from j39plan import program; sys.exit(program.status_of(lambda: [][0]))\n")
        self.assertEqual(self.status(CLEAN, check=f"{sys.executable} {tool}")[0], 2)


if __name__ == "__main__":
    unittest.main()
