"""Which word may have been meant by another one."""

import difflib
from collections.abc import Iterable

# So many letters a word has of which another one differs by one.
LETTERS = 3


def likely(word: str, words: Iterable[str]) -> str:
    """A hint at the word that may have been meant: one of the same letters, or spelled alike, or that begins so, or that it begins with."""
    others = {other.lower(): other for other in words}
    close = meant(word.lower(), list(others))
    return f"; did you mean {others[close]}?" if close else ""


def meant(word: str, others: list[str]) -> str:
    """The one of several words that may have been meant, empty where none is near."""
    near = [other for other in others if sorted(other) == sorted(word)]
    near += [*difflib.get_close_matches(word, others, 1, 0.7), *(other for other in others if is_one_off(word, other))]
    if not near and len(word) >= LETTERS:
        near = [other for other in others if other.startswith(word)]
        near += sorted((other for other in others if len(other) >= LETTERS and word.startswith(other)), key=len, reverse=True)
    return near[0] if near else ""


def is_one_off(word: str, other: str) -> bool:
    """Whether two words differ by one letter alone."""
    return len(word) == len(other) >= LETTERS and sum(one != two for one, two in zip(word, other)) == 1
