"""What the columns of a matrix are, by their usual names in English and German, or by a file that says so."""

from __future__ import annotations

import re
from typing import NamedTuple

from j39plan import program
from j39plan.left_out import LeftOut
from j39plan.plan import toml_reader
from j39plan.sheet.files import SheetRow

# Names of columns as they are usual, in small letters, without what stands in brackets.
NAMES: dict[str, str] = {
    "pgn": "pgn|pgn dec|pgn hex|pgn dez|pg number|parameter group number|parametergruppennummer|pgn nr",
    "id": "can id|id|identifier|can identifier|msg id|message id|botschafts id|nachrichten id|id hex",
    "group": "group|message|pg|acronym|pg label|pg name|message name|msg|msg name|frame|frame name|parameter group|botschaft|botschaftsname|nachricht|"
             "nachrichtenname|parametergruppe|pgn name|pgn label",
    "priority": "priority|prio|default priority|priorität|prioritaet",
    "length": "length bytes|length byte|dlc|pg length|pgn length|data length|pgn data length|message length|datenlänge|länge byte|botschaftslänge",
    "from": "from|sender|transmitter|tx|ecu|sender ecu|sending ecu|source|tx node|sendeknoten|steuergerät|quelle|sg|unit name",
    "sa": "sa|source address|address|adresse|quelladresse|preferred address|knotenadresse",
    "to": "to|da|destination|destination address|zieladresse|ziel|an",
    "period": "period|cycle|cycle time|cycle ms|cycle time ms|rate|transmission rate|transmission repetition rate|repetition rate|zykluszeit|zyklus|"
              "sendezyklus|wiederholrate|period ms",
    "spn": "spn|spn number|spn nr",
    "signal": "signal|spn name|spn label|parameter|signal name|signalname|parameter name|name|spn description|bezeichnung",
    "start": "start|position|spn position in pg|spn position|pos|start position|position in pg|lage|startposition|byte bit|byte position",
    "byte": "byte|start byte|startbyte|byteposition|byte nr",
    "bit": "bit|start bit|startbit|bitposition|bit position|lsb|start bit lsb",
    "bits": "bits|spn length|bit length|len|length|size|signal length|laenge|länge|bitlänge|bitlaenge|anzahl bits|signallänge|length bit|spn size",
    "factor": "factor|resolution|scaling|scale|slope|faktor|auflösung|aufloesung|skalierung|res",
    "offset": "offset|versatz",
    "unit": "unit|units|einheit|phys unit|physikalische einheit",
    "values": "values|states|enumeration|enum|value table|value description|coding|werte|wertetabelle|zustände|kodierung|bedeutung|value names",
    "receivers": "receivers|rx|receiver|needed by|rx nodes|receiving ecus|empfänger|empfaenger|empfangsknoten",
    "order": "byte order|endianness|byteorder|bytereihenfolge",
    "sign": "value type|sign|signed|datentyp|vorzeichen|data type|type",
    "comment": "comment|comments|remark|remarks|description|kommentar|bemerkung|bemerkungen|beschreibung|notes",
    "function": "function|function code|funktion", "manufacturer": "manufacturer|manufacturer code|hersteller|herstellercode",
    "function_instance": "function instance|funktionsinstanz", "ecu": "ecu instance|sg instanz", "system": "vehicle system|fahrzeugsystem",
    "system_instance": "vehicle system instance", "industry": "industry group|industriegruppe",
    "arbitrary": "arbitrary address capable|aac|arbitrary",
}
KEYS = {word: key for key, words in NAMES.items() for word in words.split("|")}

# Units that have a column each, in which a mark says that they send or receive.
MARKS = "marks"

# What stands in brackets behind a name, and what a row of names has at least.
BRACKETS, LEAST = re.compile(r"[\[(]([^\])]*)[\])]"), 3


def bare(text: str) -> str:
    """A name of a column without case, line ends and other signs, and with single blanks."""
    return " ".join(re.sub(r"[\W_]+", " ", text).lower().split())


def key_of(name: str) -> str | None:
    """The key that is usual for a name of a column, with what stands in brackets or without it."""
    return KEYS.get(bare(name)) or KEYS.get(bare(BRACKETS.sub(" ", name)))


class Columns(NamedTuple):
    """The columns of a sheet: which key each has, what it is called, whether its numbers are hexadecimal, and of units with columns of their own
    where these are."""

    keys: list[str | None]
    names: list[str]
    hexadecimal: set[str]
    marks: dict[str, int]

    def name_of(self, key: str) -> str:
        """What the column of a key is called."""
        return self.names[self.keys.index(key)] if key in self.keys else key


class Mapping(NamedTuple):
    """What a file says of columns: which key a name has, and which names are units'."""

    keys: dict[str, str]
    marks: list[str]

    def columns_in(self, row: SheetRow) -> Columns | None:
        """The columns of a sheet, if this row names them: each key once, by the first column of its names."""
        told: list[str | None] = []
        for cell in row.cells:
            key = self.keys.get(cell) or key_of(cell)
            told.append(key if key not in told else None)
        marks = {cell: at for at, cell in enumerate(row.cells) if cell in self.marks}
        if sum(key is not None for key in told) < LEAST or not {"pgn", "id", "group", "sa"} & {*told}:
            return None
        is_hex = {key for key, cell in zip(told, row.cells) if key and re.search(r"\bhex", cell.lower())}
        return Columns(told, row.cells, is_hex, marks)


def mapping_of(name: str | None) -> Mapping:
    """What a file says of columns; without one nothing. Each line is a key with the name of a column, or with several."""
    if name is None:
        return Mapping({}, [])
    with open(name, "rb") as file:
        data = file.read()
    try:
        told = toml_reader.loads(data.decode("utf-8-sig"))
    except (ValueError, RecursionError) as why:
        raise program.Refused(program.UNREADABLE, f'{name}: it is no TOML file with lines as pgn = "PG number": {why}') from None
    keys: dict[str, str] = {}
    for key, words in told.items():
        several = words if isinstance(words, list) else [words]
        if key not in NAMES and key != MARKS or not all(isinstance(word, str) for word in several):
            raise program.Refused(program.UNREADABLE, f"{name}: {key}: a name of a column, or several in [ ], of one of {', '.join([*NAMES, MARKS])}")
        keys.update(dict.fromkeys(several if key != MARKS else (), key))
    marks = told.get(MARKS, [])
    return Mapping(keys, marks if isinstance(marks, list) else [marks])


def no_columns() -> LeftOut:
    """What is said of a file in which no row names columns."""
    return LeftOut("no row of it names at least three columns, as PGN, Signal and Position: --columns says which they are")
