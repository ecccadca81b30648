"""The settings of editors, each tried by its editor where that is there, and the extension for Visual Studio Code by a stand-in for it."""

import json
import os
import shutil
import subprocess
import sys
import tomllib
import unittest
import zipfile
from xml.etree import ElementTree

from j39plan import program
from tests.support import TOOLS, InFolder, text_of

EDITORS = os.path.join(TOOLS, "editors")

# Two units at one address: F2 at line 8.
PLAN = 'version = 4\n[[unit]]\nlabel = "A"\naddress = 0\nname = {}\n[[unit]]\nlabel = "B"\naddress = 0\nname = { function = 12 }\n'

# What Neovim does with a plan: waits for what is shown, writes it, and changes the address by the first mend.
NEOVIM = """
vim.wait(60000, function() return #vim.diagnostic.get(0) > 0 end, 20)
local found = {}
for _, one in ipairs(vim.diagnostic.get(0)) do
  if one.severity == vim.diagnostic.severity.ERROR then table.insert(found, one.lnum .. " " .. one.message) end
end
vim.api.nvim_win_set_cursor(0, { 3, 10 })
local told = vim.lsp.buf_request_sync(0, "textDocument/hover", vim.lsp.util.make_position_params(), 60000)
for _, one in pairs(told) do table.insert(found, one.result.contents.value) end
vim.fn.writefile(vim.split(table.concat(found, "\\n"), "\\n"), "found")
vim.cmd("qa!")
"""

# The same of Emacs.
EMACS = """
(find-file "plan.toml")
(conf-toml-mode)
(run-hooks 'post-command-hook)
(let ((end (+ (float-time) 60)))
  (while (and (< (float-time) end) (not (flymake-diagnostics))) (accept-process-output nil 0.05)))
(let ((found (mapcar (lambda (one) (format "%d %s" (line-number-at-pos (flymake-diagnostic-beg one)) (flymake-diagnostic-text one))) (flymake-diagnostics)))
      (servers (eglot-current-server)))
  (with-temp-file "found" (insert (mapconcat #'identity found "\\n")))
  (eglot-shutdown servers))
"""


class Editors(InFolder):
    def setUp(self) -> None:
        super().setUp()
        os.mkdir(self.path("bin"))
        server = self.write("bin/j39plan-lsp", f'#!/bin/sh\nexec {sys.executable} {TOOLS}/lsp.py "$@"\n')
        os.chmod(server, 0o755)
        self.write("plan.toml", PLAN)

    def run_editor(self, *words: str) -> None:
        """Runs an editor in the folder, with the server on its path."""
        environment = {**os.environ, "J39PLAN": program.path(), "HOME": self.folder, "PATH": f"{self.path('bin')}:{os.environ['PATH']}",
                       "XDG_CONFIG_HOME": self.path("config"), "XDG_DATA_HOME": self.path("data"), "XDG_STATE_HOME": self.path("state")}
        ended = subprocess.run(words, cwd=self.folder, env=environment, stdin=subprocess.DEVNULL, capture_output=True, text=True, check=False, timeout=170)
        self.assertEqual(ended.returncode, 0, ended.stderr)

    @unittest.skipUnless(shutil.which("nvim"), "nvim isn't there: apt-get install neovim")
    def test_neovim(self) -> None:
        self.write("drive.lua", NEOVIM)
        self.run_editor("nvim", "--headless", "--clean", "-c", "filetype on", "-c", f"luafile {EDITORS}/neovim.lua", "-c", "edit plan.toml", "-c", "set filetype=toml",
                        "-c", "luafile drive.lua")
        found = text_of(self.path("found"))
        self.assertIn("7 F2 SameFixedAddress A B 0  (key address: the same as of A at line 4)", found)
        self.assertIn("**unit A**: address 0 (00 hex)", found)

    @unittest.skipUnless(shutil.which("emacs") and os.path.exists("/usr/share/emacs/site-lisp/elpa-src"), "emacs isn't there: apt-get install emacs-nox elpa-eglot")
    def test_emacs(self) -> None:
        self.write("drive.el", EMACS)
        self.run_editor("emacs", "--batch", "--eval", "(package-initialize)", "-l", f"{EDITORS}/emacs.el", "-l", "drive.el")
        self.assertIn("8 F2 SameFixedAddress A B 0", text_of(self.path("found")).replace("j39plan [F2]: ", ""))

    def test_helix(self) -> None:
        """Its file is TOML with the names that its documentation has."""
        told = tomllib.loads(text_of(os.path.join(EDITORS, "helix.toml")))
        self.assertEqual(told["language-server"]["j39plan"]["command"], "j39plan-lsp")
        self.assertIn("j39plan", told["language"][0]["language-servers"])

    @unittest.skipUnless(shutil.which("node"), "node isn't there: apt-get install nodejs")
    def test_visual_studio_code(self) -> None:
        ended = subprocess.run(["node", os.path.join(TOOLS, "tests", "vscode_stand_in.js"), os.path.join(EDITORS, "vscode", "extension", "extension.js"),
                                self.path("bin/j39plan-lsp"), self.path("plan.toml"), PLAN], capture_output=True, text=True, check=False, timeout=170,
                               env={**os.environ, "J39PLAN": program.path()})
        self.assertEqual(ended.returncode, 0, ended.stderr)
        found = json.loads(ended.stdout)
        self.assertEqual([one for one in found["diagnostics"] if one[1] == 0], [["F2", 0, 7]])
        self.assertEqual((found["related"][0], found["definition"], found["references"], found["placeholder"], found["rename"], found["symbols"]),
                         (3, [2], 1, "A", ["X"], ["A", "B"]))
        self.assertIn("**unit A**: address 0 (00 hex)", found["hover"])
        self.assertTrue(any(action.startswith("unit B: address = ") for action in found["actions"]), found["actions"])
        self.assertIn("queue", found["completion"])
        self.assertEqual(found["mended"], 0)

    def test_the_folder_makes_an_extension(self) -> None:
        """The manifest names files that are there, of the version and the commands of the package."""
        folder = os.path.join(EDITORS, "vscode")
        manifest = ElementTree.fromstring(text_of(os.path.join(folder, "extension.vsixmanifest")).partition("\n")[2])
        space = "{http://schemas.microsoft.com/developer/vsx-schema/2011}"
        told = json.loads(text_of(os.path.join(folder, "extension", "package.json")))
        identity = manifest.find(f"{space}Metadata/{space}Identity")
        assert identity is not None
        self.assertEqual((identity.get("Id"), identity.get("Version"), identity.get("Publisher")), (told["name"], told["version"], told["publisher"]))
        paths = [asset.get("Path", "") for asset in manifest.iter(f"{space}Asset")]
        for path in (*paths, f"extension/{told['main']}", "[Content_Types].xml"):
            self.assertTrue(os.path.exists(os.path.join(folder, path)), path)
        with open(os.path.join(TOOLS, "pyproject.toml"), "rb") as file:
            project = tomllib.load(file)["project"]
        self.assertEqual(told["version"], project["version"])
        self.assertIn(told["contributes"]["configuration"]["properties"]["j39plan.server"]["default"], project["scripts"])
        command = [sys.executable, "-m", "zipfile", "-c", self.path("j39plan.vsix"), "[Content_Types].xml", "extension.vsixmanifest", "extension/"]
        subprocess.run(command, cwd=folder, check=True)
        with zipfile.ZipFile(self.path("j39plan.vsix")) as archive:
            self.assertLessEqual({"[Content_Types].xml", "extension.vsixmanifest", "extension/package.json", "extension/extension.js"}, set(archive.namelist()))


if __name__ == "__main__":
    unittest.main()
