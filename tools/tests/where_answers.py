"""What the tests of `where` share."""

import re

from j39plan.cli import where
from tests.support import InFolder, answered


def first_of(answer: str) -> list[str]:
    """The lines of an answer without further faults of a plan that is refused."""
    return [line for line in answer.splitlines() if not re.search(r"\d: also ", line)]


class WhereAnswers(InFolder):
    def answer(self, text: str, *words: str) -> tuple[int, list[str]]:
        """What `where` answers of a plan, without the file's name."""
        name = self.write("plan.toml", text)
        status, answer, _ = answered(where.main, *words, name)
        return status, first_of(answer.replace(name + ":", ""))
