"""The edits that must fail, and the pairs of gate/pairs.py: each is of names that its file knows. One of another name is refused for that,
whatever its contract says."""

import glob
import importlib.util
import os
import re
import sys
import unittest
from typing import Any

from tests.support import TOP, text_of

# What an edit puts in place of a line, and a name of which it takes a part.
NEW = re.compile(r"^new: (.*)", re.MULTILINE)
OWNER = re.compile(r"(?<![\w.'\"])([a-z_]\w*)\.(?=[a-z_])")


def unknown(edit: str, code: str) -> list[str]:
    """The names of which an edit takes a part, and that neither the code has nor a closure of the edit gives."""
    known = set(re.findall(r"\w+", re.sub(r"//.*", "", code)))
    return [name for new in NEW.findall(edit) for name in OWNER.findall(new) if name not in known | set(re.findall(r"\|(\w+)\|", new))]


class Edits(unittest.TestCase):
    def test_edits_are_of_names_that_their_files_know(self) -> None:
        edits = [it for folder in ("edits", "must-fail") for it in glob.glob(f"{TOP}/crates/*/{folder}/*.edit")]
        self.assertGreater(len(edits), 100)
        for edit in edits:
            text, crate = text_of(edit), os.path.dirname(os.path.dirname(edit))
            files = re.findall(r"^file: (.*)", text, re.MULTILINE)
            self.assertTrue(files, edit)
            self.assertEqual(unknown(text, "\n".join(text_of(os.path.join(crate, file)) for file in files)), [], edit)

    def test_a_name_that_a_file_lacks_is_found(self) -> None:
        code = "ensures { IsQuiet w.claims }  // as in the first world, all.off"
        self.assertEqual(unknown("new: IsQuiet first.claims × IsQuiet w.claims × all.off\n", code), ["first", "all"])
        self.assertEqual(unknown("new: w.claims.map(|claim| claim.name + other.name)\n", code), ["other"])


def pairs() -> Any:
    """The module of gate/pairs.py."""
    sys.path.insert(0, f"{TOP}/gate")
    try:
        spec = importlib.util.spec_from_file_location("pairs", f"{TOP}/gate/pairs.py")
        assert spec is not None and spec.loader is not None
        module = importlib.util.module_from_spec(spec)
        sys.modules[spec.name] = module
        spec.loader.exec_module(module)
        return module
    finally:
        sys.path.remove(f"{TOP}/gate")


def words(text: str) -> set[str]:
    """The words of a text, but for those of comments."""
    return set(re.findall(r"[a-zA-Z_]\w*", re.sub(r"(//|--).*", "", text)))


class Pairs(unittest.TestCase):
    def test_pairs_are_of_texts_and_names_that_stand_in_their_files(self) -> None:
        """A name that a pair brings into a file is one that it imports there."""
        module = pairs()
        self.assertGreaterEqual(len(module.PAIRS), 39)
        self.assertEqual(len({pair.name for pair in module.PAIRS}), len(module.PAIRS))
        for pair in module.PAIRS:
            for turn in pair.turns:
                code = text_of(f"{TOP}/crates/{pair.crate}/{turn.file}")
                self.assertEqual(code.count(turn.old), 1, (pair.name, turn.file))
                brought = [other.new for other in pair.turns if other.file == turn.file and other.new.startswith("use ")]
                self.assertEqual(sorted(words(turn.new) - words(code).union(*map(words, brought))), [], (pair.name, turn.file))


if __name__ == "__main__":
    unittest.main()
