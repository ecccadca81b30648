"""What the laws of the crates ask for: the premises of their statements, by the names of the definitions in specs/.

A statement is cut at its arrows. What stands before the last one is asked, the rest is promised. A definition that is promised is opened,
since it may ask for more; but not one that is a premise elsewhere, nor one that another law promises, whose row has its premises.
"""

import functools
import glob
import os
import re
from collections.abc import Iterator

from crates import text_of

# A law: a public function without parameters, and its clauses.
LAW = re.compile(r"^pub fn (\w+)\(\)\n((?:    .*\n)+)\{", re.MULTILINE)
CLAUSE = re.compile(r"ensures(?: \w+)? \{(.*?)\}\n", re.DOTALL)

# The head of a definition, and of a binder such as `(p q : ℕ)`.
DEFINED = re.compile(r"(?:abbrev|unfoldable)(?: pub)? (\w+)|(?:pub )?(?:record|data) (\w+)")
BINDER = re.compile(r"[({]([\w\s]+?) : (.*)[)}]", re.DOTALL)

# What makes a type no name that is applied.
RELATIONS = ("≡", "≢", "≤", "<", "×", "⊎", "→")


@functools.cache
def split(text: str, sign: str) -> list[str]:
    """The parts of a text between signs that stand in no brackets."""
    parts, depth = [""], 0
    for piece in re.split(rf"([()\[\]{{}}{sign}])", text):
        depth += (piece in tuple("([{")) - (piece in tuple(")]}"))
        if piece == sign and depth == 0:
            parts.append("")
        else:
            parts[-1] += piece
    return [part.strip() for part in parts]


def first_group(text: str) -> str:
    """What a text has in brackets at its beginning."""
    depth = 0
    for place, char in enumerate(text):
        depth += (char in "({") - (char in ")}")
        if depth == 0:
            return text[: place + 1] if place else ""
    return ""


def bare(text: str) -> str:
    """A text without brackets round the whole of it."""
    while text.startswith("(") and first_group(text) == text and not BINDER.fullmatch(text):
        text = text[1:-1].strip()
    return text


def domains(part: str) -> Iterator[tuple[bool, str]]:
    """The types in what stands before an arrow, and of each whether it is that of a name, as in `(p q : ℕ)`."""
    while binder := BINDER.fullmatch(first_group(part)):
        yield True, binder[2]
        part = part[len(binder[0]) :].strip()
    if part:
        yield False, part


def head(text: str) -> tuple[str, str]:
    """The name that a type applies, and to what; of `All (P x) xs` that of P."""
    text = bare(text)
    found = re.match(r"(?:All \()?(\w+)(.*)", text, re.DOTALL)
    if found is None or any(len(split(text, sign)) > 1 for sign in RELATIONS):
        return "", ""
    return found[1], found[2].strip()


def chunks(text: str) -> list[str]:
    """The texts that begin at the left margin, without comments."""
    code = re.sub(r"^\s*--.*\n", "", text + "\n", flags=re.MULTILINE)
    return re.split(r"\n(?=\S)", code)


def definitions(top: str) -> dict[str, list[str]]:
    """What each definition of specs/ says: the right sides of its equations, or the types of its fields."""
    said: dict[str, list[str]] = {}
    for file in sorted(glob.glob(os.path.join(top, "crates", "*", "specs", "**", "*.antt"), recursive=True)):
        parts = chunks(text_of(file))
        for place, part in enumerate(parts):
            found = DEFINED.match(part)
            if found and found[1]:
                sides = [it.partition("=")[2] for it in parts[place + 1 :] if re.match(rf"{found[1]}\b", it)]
                said.setdefault(found[1], sides)
            elif found:
                fields = re.split(r"\n  (?:pub )?(?=\w+ :)", part)[1:]
                said.setdefault(found[2], [field.partition(":")[2] for field in fields])
    return said


def laws_of(crate: str) -> Iterator[tuple[str, list[str]]]:
    """The laws of a crate's folder, each with the statements of its clauses."""
    for file in sorted(glob.glob(os.path.join(crate, "src", "**", "*.rt"), recursive=True)):
        for name, body in LAW.findall(text_of(file)):
            yield name, [" ".join(clause.split()) for clause in CLAUSE.findall(body)]


class Statements:
    """The premises of statements, over definitions of which some are taken as a whole."""

    def __init__(self, said: dict[str, list[str]], whole: set[str]) -> None:
        self.said = said
        self.whole = whole

    def premises(self, statement: str, seen: frozenset[str] = frozenset()) -> list[str]:
        """What a statement asks, and what is asked by what it promises."""
        *asked, promised = split(" ".join(statement.split()), "→")
        return [*(name for part in asked for name in self.asked(part)), *self.inside(promised, seen)]

    def asked(self, part: str) -> Iterator[str]:
        """The definitions in what stands before an arrow; a value of a type without arguments is none of them."""
        for named, kind in domains(part):
            name, of = head(kind)
            if name in self.said and (of or not named):
                yield name

    def inside(self, promised: str, seen: frozenset[str]) -> list[str]:
        """What is asked by a promise."""
        promised = bare(promised)
        if len(split(promised, "→")) > 1:
            return self.premises(promised, seen)
        for sign in "×⊎":
            parts = split(promised, sign)
            if len(parts) > 1:
                kinds = [binder[2] if (binder := BINDER.fullmatch(part)) else part for part in parts]
                return [name for kind in kinds for name in self.inside(kind, seen)]
        name = head(promised)[0]
        if name in self.whole | seen:
            return []
        return [it for side in self.said.get(name, []) for it in self.premises(side, seen | {name})]

    def promises(self, statement: str) -> Iterator[str]:
        """The definitions that a statement promises."""
        yield from filter(self.said.__contains__, (head(part)[0] for part in split(split(statement, "→")[-1], "×")))


def premises_of_laws(top: str) -> dict[tuple[str, str], list[str]]:
    """The premises of each law of the crates, by crate and name, each once."""
    said = definitions(top)
    laws = {(os.path.basename(crate), name): clauses for crate in sorted(glob.glob(os.path.join(top, "crates", "*"))) for name, clauses in laws_of(crate)}
    opened = Statements(said, set())
    asked = {name for clauses in laws.values() for clause in clauses for name in opened.premises(clause)}
    promised = {law: {name for clause in clauses for name in opened.promises(clause)} for law, clauses in laws.items()}
    found = {}
    for law, clauses in laws.items():
        of_others = set().union(*(names for other, names in promised.items() if other != law)) - promised[law]
        statements = Statements(said, asked | of_others)
        found[law] = list(dict.fromkeys(name for clause in clauses for name in statements.premises(clause)))
    return found
