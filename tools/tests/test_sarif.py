"""Reports in SARIF: what the standard asks of them (OASIS, SARIF 2.1.0), and what stands in them."""

import contextlib
import io
import json
import os
import re
import subprocess
import sys
import unittest
from typing import Any

from j39plan import program
from j39plan.cli import where
from j39plan.plan import sarif
from tests.support import TOP, InFolder, example, text_of

# The properties that these objects may have and those that they must have, by the sections of the standard from 3.13 to 3.55, as far as they are used.
OBJECTS: dict[str, tuple[set[str], set[str]]] = {
    "log": ({"$schema", "version", "runs", "inlineExternalProperties", "properties"}, {"version", "runs"}),
    "run": ({"tool", "columnKind", "results", "artifacts", "invocations", "properties"}, {"tool", "results"}),
    "driver": ({"name", "rules", "version", "informationUri", "properties"}, {"name"}),
    "rule": ({"id", "name", "shortDescription", "fullDescription", "help", "helpUri"}, {"id"}),
    "result": ({"ruleId", "ruleIndex", "level", "kind", "message", "locations", "partialFingerprints", "relatedLocations", "codeFlows"}, {"message"}),
    "location": ({"id", "physicalLocation", "logicalLocations", "message"}, {"physicalLocation"}),
    "physicalLocation": ({"artifactLocation", "region", "contextRegion"}, {"artifactLocation"}),
    "message": ({"text", "markdown", "id", "arguments"}, {"text"}),
}


class Reports(InFolder):
    def reported(self, *words: str, status: int = 1) -> dict[str, Any]:
        """The report once `where` has written it."""
        with contextlib.redirect_stdout(io.StringIO()):
            self.assertEqual(where.main([*words, "--sarif", self.path("report.sarif")]), status)
        told: dict[str, Any] = json.loads(text_of(self.path("report.sarif")))
        return told

    def is_an(self, kind: str, told: dict[str, Any]) -> None:
        """Checks an object of a kind by the standard."""
        allowed, required = OBJECTS[kind]
        self.assertLessEqual(set(told), allowed, kind)
        self.assertLessEqual(required, set(told), kind)

    def is_a_place(self, told: dict[str, Any]) -> None:
        """Checks a location by the standard."""
        self.is_an("location", told)
        self.is_an("physicalLocation", told["physicalLocation"])
        self.assertRegex(told["physicalLocation"]["artifactLocation"]["uri"], r"^(file:///)?[!#-;=?-Z_a-z~%]+$")
        self.assertGreaterEqual(told["physicalLocation"]["region"]["startLine"], 1)

    def is_a_report(self, told: dict[str, Any]) -> None:
        """Checks a report by the standard."""
        self.is_an("log", told)
        self.assertEqual(told["version"], "2.1.0")
        for run in told["runs"]:
            self.is_an("run", run)
            self.assertIn(run["columnKind"], ("utf16CodeUnits", "unicodeCodePoints"))
            self.is_an("driver", run["tool"]["driver"])
            rules = [rule["id"] for rule in run["tool"]["driver"]["rules"]]
            self.assertEqual(len(rules), len(set(rules)))
            for rule in run["tool"]["driver"]["rules"]:
                self.is_an("rule", rule)
            for result in run["results"]:
                self.is_an("result", result)
                self.is_an("message", result["message"])
                self.assertIn(result["level"], ("none", "note", "warning", "error"))
                self.assertIn(result["ruleId"], rules)
                for place in (*result["locations"], *result.get("relatedLocations", ())):
                    self.is_a_place(place)

    def test_findings_refusals_and_hints(self) -> None:
        name = example("findings/f02_same_fixed_address.toml")
        told = self.reported("--lint", name)
        self.is_a_report(told)
        first, *hints = sorted(told["runs"][0]["results"], key=lambda one: str(one["level"]))
        self.assertEqual((first["ruleId"], first["level"]), ("F2/SameFixedAddress", "error"))
        self.assertEqual(first["locations"][0]["physicalLocation"]["region"], {"startLine": 18})
        self.assertEqual(first["locations"][0]["physicalLocation"]["artifactLocation"]["uri"], f"file://{os.path.normpath(name)}")
        self.assertEqual([one["physicalLocation"]["region"]["startLine"] for one in first["relatedLocations"]], [8])
        self.assertEqual(first["message"]["text"].split("\n")[1:], ["  up RETARDER", "  up ENGINE", "  give ENGINE RETARDER", "  give RETARDER ENGINE"])
        self.assertEqual({(one["ruleId"], one["level"]) for one in hints}, {("hint", "note")})
        told = self.reported(self.write("a b.toml", "version = 5\n"), status=2)
        self.is_a_report(told)
        self.assertEqual([one["ruleId"] for one in told["runs"][0]["results"]][-1:], ["refused/Range"])
        self.assertIn("/a%20b.toml", told["runs"][0]["results"][-1]["locations"][0]["physicalLocation"]["artifactLocation"]["uri"])

    def test_a_plan_that_is_checked_anew(self) -> None:
        """What was found in it before goes, what was found in others stays; each result has a fingerprint of its own, which a moved line keeps."""
        name = self.write("p.toml", text_of(example("findings/f02_same_fixed_address.toml")))
        self.reported(example("findings/f10_flow_to_self.toml"))
        before = self.reported(name)["runs"][0]["results"]
        self.write("p.toml", "# moved\n" + text_of(name))
        after = self.reported(name)["runs"][0]["results"]
        self.assertEqual([one["ruleId"] for one in after], ["F10/FlowToSelf", "F2/SameFixedAddress"])
        marks = [[one["partialFingerprints"]["j39plan/v1"] for one in some] for some in (before, after)]
        self.assertEqual(marks[0], marks[1])
        self.assertEqual(len(set(marks[0])), 2)
        self.write("p.toml", text_of(example("first_plan.toml")))
        self.assertEqual([one["ruleId"] for one in self.reported(name, status=0)["runs"][0]["results"]], ["F10/FlowToSelf"])

    def test_a_file_that_is_no_report(self) -> None:
        for text in ("hello", "{}", "[]", '{"version": "2.1.0", "runs": [{"tool": {"driver": {"name": "other"}}, "results": []}]}'):
            report = self.write("report.sarif", text)
            said = io.StringIO()
            with contextlib.redirect_stdout(io.StringIO()), contextlib.redirect_stderr(said):
                self.assertEqual(where.main([example("first_plan.toml"), "--sarif", report]), 4)
            self.assertTrue(said.getvalue().endswith(f"{report}: it is no SARIF report of j39plan, and stays as it is\n"), said.getvalue())
            self.assertEqual(text_of(report), text)

    def test_each_kind_has_words(self) -> None:
        self.assertEqual([sarif.kind_of(sarif.rule_of(text)) for text in ("F10 FlowToSelf 1", "G1 X", "refused Text", "also key", "hint unit")],
                         ["finding", "finding", "refused", "also", "hint"])


class Jobs(InFolder):
    """The jobs of CI that a page has."""

    def test_each_is_run(self) -> None:
        """With a plan that has to be mended, and commands as a package installs them."""
        os.mkdir(self.path("bin"))
        os.mkdir(self.path("plans"))
        self.write("plans/first.toml", text_of(example("findings/f10_flow_to_self.toml")))
        for command, tool in (("where", "where.py"), ("check-plans", "check-plans")):
            script = self.write(f"bin/j39plan-{command}", f'#!/bin/sh\nexec {sys.executable} {TOP}/tools/{tool} "$@"\n')
            os.chmod(script, 0o755)
        jobs = re.findall(r"CHECK='.*' j39plan-check-plans .*plans/\*\.toml", text_of(f"{TOP}/docs/guide/TOOLS.md"))
        self.assertEqual(len(jobs), 4)
        for job in jobs:
            ended = subprocess.run(["sh", "-c", job], cwd=self.folder, capture_output=True, text=True, check=False, env={
                **os.environ, "J39PLAN": program.path(), "PATH": f"{self.path('bin')}:{os.environ['PATH']}"})
            self.assertEqual((ended.returncode, ended.stderr), (1, ""), job)
        self.assertEqual(sorted(os.listdir(self.folder)), ["bin", "plans", "plans.json", "plans.sarif", "plans.xml"])
        self.assertEqual(json.loads(text_of(self.path("plans.sarif")))["runs"][0]["results"][0]["ruleId"], "F10/FlowToSelf")
        self.assertIn('failures="1"', text_of(self.path("plans.xml")))


if __name__ == "__main__":
    unittest.main()
