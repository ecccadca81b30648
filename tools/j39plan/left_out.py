"""What of a file isn't in what is made of it, and why."""

import json
import sys
from typing import NamedTuple


class LeftOut(Exception):
    """Why something of the file isn't in the plan."""


def plain(text: object) -> str:
    """A text on one line: runs of blanks and line ends are one blank, and what can't be printed is `?`."""
    return "".join(char if char.isprintable() else "?" for char in " ".join(str(text).split()))


def some_of(names: list[str], most: int = 5) -> str:
    """The first of several names, and how many more there are."""
    return ", ".join(names[:most]) + (f" and {len(names) - most} more" if len(names) > most else "")


class Note(NamedTuple):
    """What could not be carried over as it is in a file, where there are several its name, and the reason."""

    file: str
    what: str
    why: str


class Notes:
    """What could not be carried over as it is, each with its reason, on standard error. `file` is the one that is looked at, where
    there are several; with `are_new` what was said already isn't said again. `places` has where in a sheet things stand, by what they are called,
    and `left_out` what the plan is to say of it in comments."""

    def __init__(self) -> None:
        self.file, self.are_new = "", False
        self.said: list[Note] = []
        self.places: dict[str, str] = {}
        self.left_out: list[str] = []

    @property
    def count(self) -> int:
        """How many there are."""
        return len(self.said)

    def say(self, what: str, why: object) -> None:
        """Lists a thing with its reason."""
        at = f"{self.places[what]}, " if what in self.places else ""
        note = Note(plain(self.file), plain(f"{at}{what}"), plain(why))
        if self.are_new and note in self.said:
            return
        self.said.append(note)
        print(": ".join(filter(None, note)), file=sys.stderr)

    def write(self, name: str) -> None:
        """Writes them into a file as JSON objects, each on a line."""
        with open(name, "w", encoding="utf-8") as file:
            for note in self.said:
                parts = {key: part for key, part in note._asdict().items() if part}
                file.write(json.dumps(parts, ensure_ascii=False) + "\n")


class Unsaid(Notes):
    """Notes that nobody wants."""

    def say(self, what: str, why: object) -> None:
        """Says nothing."""
