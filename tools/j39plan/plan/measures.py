"""Units of measurement of a plan, which may have the fraction of a value in front."""

import re
from typing import NamedTuple

# A unit of measurement that has the fraction of a value, as `1/8 rpm`.
PARTS = re.compile(r"1/([1-9]\d{0,11})(?: (.*))?")


class Measure(NamedTuple):
    """The unit of measurement as the plan has it, what a value is divided by to be in the one that is shown, and that one."""

    planned: str
    parts: int
    unit: str


def is_decimal(parts: int) -> bool:
    """Whether what is divided by this has decimals that come to an end."""
    return 10 ** 40 % parts == 0


def measure_of(unit: str) -> Measure:
    """The measure of a planned unit: `1/8 rpm` is divided by 8, and is rpm."""
    found = PARTS.fullmatch(unit)
    if found is None or not is_decimal(int(found.group(1))):
        return Measure(unit, 1, unit)
    return Measure(unit, int(found.group(1)), found.group(2) or "")
