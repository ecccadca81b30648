"""The tools run with Python 3.10: their syntax, and what they take of the standard library."""

import ast
import os
import unittest
from collections.abc import Iterator

from tests.support import TOOLS

# What modules of the standard library have since Python 3.11 (its page 'What's New'); of an empty list the module itself is new.
LATER: dict[str, list[str]] = {
    "tomllib": [], "wsgiref.types": [], "datetime": ["UTC"], "hashlib": ["file_digest"], "contextlib": ["chdir"], "logging": ["getLevelNamesMapping"],
    "typing": ["Self", "Never", "LiteralString", "Required", "NotRequired", "TypeVarTuple", "Unpack", "assert_never", "assert_type", "reveal_type",
               "dataclass_transform", "get_overloads", "clear_overloads"],
    "enum": ["StrEnum", "ReprEnum", "EnumCheck", "FlagBoundary", "verify", "member", "nonmember", "property", "global_enum"],
    "asyncio": ["TaskGroup", "Runner", "timeout", "timeout_at", "Barrier"], "math": ["exp2", "cbrt"], "operator": ["call"],
    "inspect": ["getmembers_static", "ismethodwrapper"], "builtins": ["ExceptionGroup", "BaseExceptionGroup"],
}

# Words of calls that are later.
WORDS = ("process_group",)

# The module that takes the later reader of TOML, where there is one.
READER = os.path.join("plan", "toml_reader.py")


def modules() -> Iterator[str]:
    """The files of the package, and those that run its commands."""
    for folder, _, names in os.walk(os.path.join(TOOLS, "j39plan")):
        yield from (os.path.join(folder, name) for name in names if name.endswith(".py"))
    yield from (os.path.join(TOOLS, name) for name in os.listdir(TOOLS) if name.endswith(".py"))


def later_in(tree: ast.AST) -> Iterator[str]:
    """What of a module's text Python 3.10 doesn't have."""
    for node in ast.walk(tree):
        if isinstance(node, ast.Import):
            yield from (alias.name for alias in node.names if LATER.get(alias.name) == [])
        elif isinstance(node, ast.ImportFrom) and node.module in LATER:
            yield from (f"{node.module}.{alias.name}" for alias in node.names if alias.name in LATER[node.module] or not LATER[node.module])
        elif isinstance(node, ast.Attribute) and isinstance(node.value, ast.Name) and node.attr in LATER.get(node.value.id, ()):
            yield f"{node.value.id}.{node.attr}"
        elif isinstance(node, ast.Name) and node.id in LATER["builtins"]:
            yield node.id
        elif isinstance(node, ast.Subscript) and isinstance(node.slice, ast.Tuple) and any(isinstance(one, ast.Starred) for one in node.slice.elts):
            if node.slice.col_offset == node.slice.elts[0].col_offset:  # without parentheses
                yield "a star in brackets"
        elif isinstance(node, ast.keyword) and node.arg in WORDS:
            yield node.arg
        elif isinstance(node, ast.ClassDef) and len(node.bases) > 1 and any(isinstance(base, ast.Name) and base.id == "NamedTuple" for base in node.bases):
            yield "a NamedTuple with another base"


class Older(unittest.TestCase):
    def test_each_module_is_one_of_python_310(self) -> None:
        count = 0
        for name in modules():
            with open(name, encoding="utf-8") as file:
                tree = ast.parse(file.read(), name, feature_version=(3, 10))
            allowed = ["tomllib.TOMLDecodeError", "tomllib.loads"] if name.endswith(READER) else []
            self.assertEqual(list(later_in(tree)), allowed, name)
            count += 1
        self.assertGreater(count, 150)

    def test_what_is_later_is_seen(self) -> None:
        for text in ("import tomllib", "from typing import Self", "import datetime\ndatetime.UTC", "x[1, *y]", "class A(NamedTuple, B): pass", "ExceptionGroup", "f(process_group=0)"):
            self.assertTrue(list(later_in(ast.parse(text))), text)
        for text in ("x[(1, *y)]", "from typing import Any", "datetime.timezone.utc", "class A(NamedTuple): pass"):
            self.assertEqual(list(later_in(ast.parse(text))), [], text)
        with self.assertRaises(SyntaxError):
            ast.parse("try:\n pass\nexcept* ValueError:\n pass\n", feature_version=(3, 10))
