"""Numbers with their measures, as other formats write them: `1000 ms`, `250 kbit/s`."""

import re
from fractions import Fraction

# The keys that are times in ms.
TIMES = ("period", "deadline", "jitter", "pause", "within", "every")

QUANTITY = re.compile(r"([+-]?[0-9]{1,15}(?:\.[0-9]{1,9})?)[ \t_]*([A-Za-z/]*)")

# How many of a key's own measure these are: ms, bits a second, and all others.
OF_TIMES = {"": 1, **dict.fromkeys(("ms", "msec"), 1), **dict.fromkeys(("s", "sec"), 1000)}
OF_RATES = {**dict.fromkeys(("bit/s", "bps", "baud", "bd"), 1), **dict.fromkeys(("k", "kbit/s", "kbit", "kbps", "kb/s", "kbaud", "kbd"), 1000),
            **dict.fromkeys(("m", "mbit/s", "mbit", "mbps", "mb/s"), 1_000_000)}
OF_OTHERS = dict.fromkeys(("", "bit", "bits", "byte", "bytes"), 1)

# Rates below this one are thought to be in kbit/s.
KILOBITS = 10_000


def quantity(key: str, text: str) -> str:
    """The integer that a text spells in the measure of a key, in decimal digits; empty where it is none."""
    found = QUANTITY.fullmatch(text.strip())
    if found is None:
        return ""
    number, measure = Fraction(found.group(1)), found.group(2).lower()
    times = OF_TIMES.get(measure) if key in TIMES else OF_RATES.get(measure) if key == "bitrate" and measure else OF_OTHERS.get(measure)
    if key == "bitrate" and not measure and number < KILOBITS:
        times = 1000
    whole = number * times if times is not None else Fraction(1, 2)
    return str(whole) if whole.denominator == 1 else ""
