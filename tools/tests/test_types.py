"""The types of the tools, of the module and of the gate."""

import os
import shutil
import subprocess
import unittest

from tests.support import TOOLS, TOP, InFolder


@unittest.skipUnless(shutil.which("mypy"), "mypy isn't there: apt-get install mypy")
class Types(InFolder):
    def test_all_have_their_types(self) -> None:
        ended = subprocess.run([os.path.join(TOP, "gate/python_types.py")], cwd=self.folder, capture_output=True, text=True, check=False)
        self.assertEqual(ended.returncode, 0, ended.stdout + ended.stderr)
        self.assertRegex(ended.stdout, r"^Success: no issues found in (\d{2,}) source files\n\Z")

    def test_the_module_hands_out_its_types(self) -> None:
        """A program that uses it is told what is wrong in it, where the module lies as in a package."""
        os.makedirs(self.path("python"))
        os.symlink(os.path.join(TOOLS, "j39plan"), self.path("python/j39plan"))
        user = self.write("user.py", "import j39plan\nplan = j39plan.read_plan('a.toml')\nfirst: str = plan.units[0].label\nsecond: int = plan.units[0].label\n"
                                     "for report in j39plan.follow(plan, 'a.log'):\n    third: str = report.line\n")
        words = ["mypy", "--strict", "--cache-dir", os.devnull, user]
        ended = subprocess.run(words, cwd=self.folder, capture_output=True, text=True, check=False, env={**os.environ, "MYPYPATH": self.path("python")})
        told = [line.partition("user.py:")[2].split(" [")[0].strip() for line in ended.stdout.splitlines() if "user.py:" in line]
        wrong = 'error: Incompatible types in assignment (expression has type "{}", variable has type "{}")'
        self.assertEqual(told, [f"4: {wrong.format('str', 'int')}", f"6: {wrong.format('int', 'str')}"], ended.stdout)


if __name__ == "__main__":
    unittest.main()
