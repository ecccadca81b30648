"""NAMEs that are written as one number of 64 bits."""

from j39plan.j1939 import NAME_FIELDS


def name_meant(name: int) -> str:
    """A NAME of 64 bits by its fields, those that aren't 0."""
    keys = [f"{key} = {'true' if key == 'arbitrary' else number}" for key, first, width in NAME_FIELDS if (number := name >> first & (1 << width) - 1)]
    return f"{{ {', '.join(keys)} }}" if keys else "{}"
