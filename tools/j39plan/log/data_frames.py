"""The signals of a log as a table of pandas, and as a file of Parquet or MF4."""

from __future__ import annotations

import importlib.util
import os
from collections.abc import Callable
from typing import IO, TYPE_CHECKING, Any

from j39plan import program
from j39plan.log.clock import CALENDAR, SECOND, nanoseconds

if TYPE_CHECKING:
    import pandas

# The columns that have texts, of several logs their names first; the others with their types, but for the time.
WORDS = ("log", "from", "to", "group", "signal", "state", "unit", "detail")
NUMBERS = {"source": "UInt8", "destination": "UInt8", "line": "int64", "value": "float64"}

# So many rows are taken at once, so that their times needn't be kept as texts.
ROWS = 1 << 16


def data_frame(rows: IO[bytes]) -> pandas.DataFrame:
    """The rows that `signals --csv` writes as a table whose index is the time, in UTC: texts as categories, addresses and lines as integers."""
    import pandas

    types = {word: "category" for word in ("time", *WORDS)} | NUMBERS
    parts: dict[str, list[Any]] = {}  # of each column
    for part in pandas.read_csv(rows, dtype=types, keep_default_na=False, na_values=[""], chunksize=ROWS):
        part["time"] = moments_of(part["time"])
        for word in part:
            parts.setdefault(word, []).append(part[word])
    columns = {word: joined(parts.pop(word)) for word in [*parts]}  # one by one, so that the table is never there twice
    index = pandas.DatetimeIndex(columns.pop("time"), name="time")
    return pandas.DataFrame(columns, index=index, copy=False)


def moments_of(times: pandas.Series[Any]) -> pandas.Series[Any]:
    """Times as moments, in UTC."""
    import pandas

    known = pandas.to_datetime([nanoseconds(f"({time})") for time in times.cat.categories], unit="ns", utc=True)
    return pandas.Series(known.take(times.cat.codes, fill_value=pandas.NaT), times.index)


def joined(parts: list[Any]) -> Any:
    """The parts of a column as one; categories stand in their order."""
    import pandas

    if isinstance(parts[0].dtype, pandas.CategoricalDtype):
        return pandas.api.types.union_categoricals(parts, sort_categories=True)
    return pandas.concat(parts, ignore_index=True).array


def needed(module: str, where: str) -> None:
    """Refuses where a library isn't there."""
    if importlib.util.find_spec(module) is None:
        raise program.Refused(program.MISSING, f"{module} isn't there: {where}")


def need_parquet() -> None:
    """What writes Parquet."""
    needed("pandas", "apt-get install python3-pandas")
    if importlib.util.find_spec("fastparquet") is None:
        needed("pyarrow", "pip install pyarrow")


def need_mf4() -> None:
    """What writes MF4."""
    needed("pandas", "apt-get install python3-pandas")
    needed("asammdf", "pip install asammdf")


def write_parquet(table: pandas.DataFrame, name: str) -> None:
    """All rows, as a file of Parquet."""
    table.to_parquet(name)


def write_mf4(table: pandas.DataFrame, name: str) -> None:
    """The values as a file of MF4: a channel for each signal and sender, with its times from the begin of the log."""
    from asammdf import MDF, Signal

    if table.index.hasnans:
        raise program.Refused(program.UNREADABLE, "the log has no times, which MF4 wants")
    file, first = MDF(version="4.10"), table.index.min()
    if len(table) and first.value >= CALENDAR * SECOND:
        file.header.start_time = first.to_pydatetime()
    values = table[table["state"] == "value"]
    several = values.groupby(["group", "signal"], observed=True)["from"].nunique()
    for (group, signal, sender), rows in values.groupby(["group", "signal", "from"], observed=True):
        channel = f"{group}.{signal}" + (f" from {sender}" if several[group, signal] > 1 else "")
        times = (rows.index - first).total_seconds().to_numpy()
        unit = rows["unit"].iloc[0]
        file.append([Signal(samples=rows["value"].to_numpy(), timestamps=times, name=channel, unit=unit if isinstance(unit, str) else "", comment=f"from {sender}")])
    file.save(name, overwrite=True)
    file.close()


# By the ending of a file what is needed, and what writes it.
WRITERS: dict[str, tuple[Callable[[], None], Callable[[Any, str], None]]] = {".parquet": (need_parquet, write_parquet), ".mf4": (need_mf4, write_mf4)}


def ending_of(name: str) -> str:
    """The ending of a file's name."""
    return os.path.splitext(name)[1].lower()
