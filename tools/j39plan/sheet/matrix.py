"""A maker's matrix of messages and signals as a network of canmatrix, of which a plan is made as of a DBC."""

from __future__ import annotations

import re
from collections.abc import Callable, Iterator
from dataclasses import dataclass, field
from decimal import Decimal
from fractions import Fraction
from typing import TYPE_CHECKING, Any, NamedTuple, TypeVar

from j39plan.dbc.names import ADDRESS_ATTRIBUTE, ARBITRARY_ATTRIBUTE, NAME_ATTRIBUTES, SEND_ATTRIBUTE, SPN_ATTRIBUTE
from j39plan.j1939 import FRAME_BYTES, GLOBAL_ADDRESS, NULL_ADDRESS, identifier_of, is_pdu2
from j39plan.left_out import LeftOut, Notes, plain
from j39plan.plan.measures import is_decimal
from j39plan.plan.text import as_label
from j39plan.sheet import cells, own
from j39plan.sheet.columns import Columns, Mapping, no_columns
from j39plan.sheet.files import SheetRow, rows_of

if TYPE_CHECKING:
    import canmatrix

T = TypeVar("T")

# The priority of a group that says none (SAE J1939-21, of groups that inform).
PRIORITY = 6

# What letters outside of ASCII are in names.
LETTERS = str.maketrans({"ä": "ae", "ö": "oe", "ü": "ue", "Ä": "Ae", "Ö": "Oe", "Ü": "Ue", "ß": "ss"})

# Words for all units, for the byte order in which the highest byte comes first, for a sign, and by which a mark says that a unit sends.
EVERYBODY = re.compile(r"all|alle|global|255|ff|0xff|broadcast|\*", re.IGNORECASE)
HIGH_FIRST, SIGNED = re.compile(r"moto|big|msb", re.IGNORECASE), re.compile(r"signed|s?int\d|s\d|yes|ja\b|-$|vzb|mit vorzeichen|two", re.IGNORECASE)
SENDS = re.compile(r"s|t|tx|sender|p|producer", re.IGNORECASE)

# What is no unit in a list of receivers.
APART = re.compile(r"[,;/\s]+")


def named(text: str) -> str:
    """A name as a label has it."""
    return as_label(re.sub(r"[^A-Za-z0-9_]+", "_", plain(text).translate(LETTERS)).strip("_"))


class MatrixRow:
    """A row by the keys of its columns, of which each that can't be read is said and left out."""

    def __init__(self, row: SheetRow, columns: Columns, notes: Notes, left: list[str]) -> None:
        self.row, self.columns, self._notes, self._left = row, columns, notes, left
        self._cells = {key: cell for key, cell in zip(columns.keys, row.cells) if key and cell}

    def __contains__(self, key: str) -> bool:
        return key in self._cells

    def cell(self, key: str) -> str:
        """What stands in a cell, empty where nothing does."""
        return self._cells.get(key, "")

    def text(self, key: str) -> str:
        """The text of a cell, empty where there is none, or one that is no text."""
        return self.read(key, lambda text: cells.readable(text)) or ""

    def read(self, key: str, how: Callable[[str], T]) -> T | None:
        """What a cell says; None where there is none, or where it can't be read."""
        if key not in self._cells:
            return None
        try:
            return how(self._cells[key])
        except LeftOut as why:
            self.say(key, why)
            del self._cells[key]
            return None

    def number(self, key: str, most: int) -> int | None:
        """A whole number."""
        return self.read(key, lambda text: cells.whole(text, most, key in self.columns.hexadecimal))

    def say(self, key: str, why: object) -> None:
        """Says why a cell, or what it belongs to, is left out."""
        what, signal = f"{self.row.at}, column {plain(self.columns.name_of(key))}", self._cells.get("signal", "")
        said = f"signal {named(signal)}: {why}" if signal and key != "signal" else why
        self._notes.say(what, said)
        self._left.append(f"left out: {what}: {said}")

    def marks(self) -> Iterator[tuple[str, bool]]:
        """The units that have a mark in their columns, and whether it says that they send."""
        for unit, at in self.columns.marks.items():
            mark = self.row.cells[at] if at < len(self.row.cells) else ""
            if mark:
                yield unit, bool(SENDS.fullmatch(mark))


@dataclass
class MatrixMessage:
    """A message: the row that has its receivers where its signals have none, its group, how it is sent, by whom, and the lines of its signals."""

    line: MatrixRow
    pgn: int
    name: str
    priority: int | None = None
    length: int | None = None
    senders: dict[str, None] = field(default_factory=dict)
    to: str = ""
    period: int | None = None
    sent: str = ""
    comment: str = ""
    signals: list[MatrixRow] = field(default_factory=list)


class Identifier(NamedTuple):
    """What an identifier says."""

    priority: int
    pgn: int
    destination: int
    source: int

    @classmethod
    def of(cls, number: int) -> Identifier:
        """The parts of an identifier."""
        pgn = number >> 8 & 0x3FFFF
        return cls(number >> 26 & 7, pgn if is_pdu2(pgn) else pgn & ~0xFF, GLOBAL_ADDRESS if is_pdu2(pgn) else pgn & 0xFF, number & 0xFF)


class Matrix:
    """The units and messages of the sheets of a file."""

    def __init__(self, notes: Notes) -> None:
        self.notes, self.left_out = notes, list[str]()
        self.units: dict[str, dict[str, Any]] = {}
        self.messages: dict[tuple[int, str], MatrixMessage] = {}
        self._by_name: dict[str, MatrixMessage] = {}
        self._later: list[MatrixRow] = []
        self._now: MatrixMessage | None = None

    def take(self, rows: list[SheetRow], mapping: Mapping) -> None:
        """Takes the rows of all sheets, each with the columns that a row above it names."""
        columns, last, has_columns = None, None, False
        for row in rows:
            if last is None or last.row.sheet != row.sheet:
                columns, self._now = None, None
            told = mapping.columns_in(row)
            if told is not None and (columns is None or told.keys == columns.keys):
                columns, has_columns = told, True
                self.say_unused(row, told)
                last = MatrixRow(row, told, self.notes, self.left_out)
            elif columns is not None:
                line = MatrixRow(row, columns, self.notes, self.left_out)
                self.take_line(line, last)
                last = line
            else:
                last = MatrixRow(row, Columns([], [], set(), {}), self.notes, self.left_out)
        if not has_columns:
            raise no_columns()
        for line in self._later:
            self.add_by_name(line)

    def say_unused(self, row: SheetRow, columns: Columns) -> None:
        """Says which columns aren't used."""
        unused = [name for at, (key, name) in enumerate(zip(columns.keys, columns.names)) if name and key is None and at not in columns.marks.values()]
        if unused:
            self.notes.say(row.at, f"columns that aren't used: {', '.join(map(plain, unused))}")

    def take_line(self, line: MatrixRow, last: MatrixRow | None) -> None:
        """Takes a row: a message, a signal, both, or a unit."""
        if not {"pgn", "id", "group"} & set(filter(None, line.columns.keys)):
            self.add_unit(line)
            return
        if not any(key in line for key in ("pgn", "id", "group", "signal")):
            return
        if "pgn" in line or "id" in line:
            self._now = self.message_of(line)
        elif "group" in line:
            self._later.append(line)
            self._now = None
            return
        elif last is None or "signal" not in line:
            line.say("signal", "no group is said here or above")
            return
        if self._now is not None:
            self.add_to(self._now, line)

    def add_by_name(self, line: MatrixRow) -> None:
        """Takes a row that names its group and has no number of it: that of a row with both."""
        message = self._by_name.get(line.text("group"))
        if message is None:
            line.say("group", f"no row has the PGN of {plain(line.text('group'))}")
        else:
            self.add_to(message, line)

    def message_of(self, line: MatrixRow) -> MatrixMessage | None:
        """The message of a row with the number of a group; None where it can't be read."""
        ident = line.read("id", cells.identifier)
        told = Identifier.of(ident) if ident is not None else None
        pgn = line.read("pgn", lambda text: cells.pgn(text, "pgn" in line.columns.hexadecimal))
        number = told.pgn if told else pgn
        if number is None:
            return None
        known = next((name for pgn, name in reversed(self.messages) if pgn == number), f"PGN{number}")
        name = line.text("group") or known
        sender = self.sender_of(line, told)
        message = self.messages.setdefault((number, name), MatrixMessage(line, number, name))
        self._by_name.setdefault(name, message)
        if sender:
            message.senders[sender] = None
        if told:
            message.priority = told.priority if message.priority is None else message.priority
            message.to = message.to or (str(told.destination) if told.destination != GLOBAL_ADDRESS else "")
        return message

    def sender_of(self, line: MatrixRow, told: Identifier | None) -> str:
        """The unit that sends a message, which is kept with its address."""
        address = line.number("sa", NULL_ADDRESS)
        if address is None and told and told.source < NULL_ADDRESS:
            address = told.source
        named_so = next((unit for unit, known in self.units.items() if known.get("sa") == address), "") if address is not None else ""
        sender = named(line.text("from")) if "from" in line else next((named(unit) for unit, sends in line.marks() if sends), "")
        sender = sender or named_so or (f"SA_{address}" if address is not None else "")
        if sender:
            self.keep(line, sender, "sa", address)
        return sender

    def keep(self, line: MatrixRow, unit: str, key: str, value: object) -> None:
        """Keeps what is said of a unit; another value than before is said."""
        known = self.units.setdefault(unit, {})
        if value is not None and known.setdefault(key, value) != value:
            line.say(key, f"{unit} has {known[key]} above, and here {value}")

    def add_unit(self, line: MatrixRow) -> None:
        """Takes a row of a unit: its address, and fields of its NAME."""
        if "from" not in line and "signal" not in line:
            return
        unit = named(line.text("from") or line.text("signal"))
        self.keep(line, unit, "sa", line.number("sa", NULL_ADDRESS))
        for key, (_, most) in NAME_ATTRIBUTES.items():
            self.keep(line, unit, key, line.number(key, most))
        if "arbitrary" in line:
            self.keep(line, unit, "arbitrary", bool(re.match(r"1|y|j|t|x", line.text("arbitrary"), re.IGNORECASE)))

    def add_to(self, message: MatrixMessage, line: MatrixRow) -> None:
        """Takes what a row says of a message, and its signal."""
        told = {"priority": line.number("priority", 7), "length": line.read("length", lambda text: cells.whole(text, 1785)),
                "period": line.read("period", cells.milliseconds)}
        for key, value in told.items():
            known = getattr(message, key)
            if known is None:
                setattr(message, key, value)
            elif value not in (None, known):
                line.say(key, f"{message.name} has {known} above, and here {value}")
        if "period" in line and told["period"] is None:
            message.sent = message.sent or line.text("period")
        message.to = message.to or line.text("to")
        if "signal" in line:
            message.signals.append(line)
        else:
            message.comment = message.comment or line.text("comment")
            message.line = line if "receivers" in line else message.line


class Places:
    """From which number the bytes and bits of the columns of a sheet are counted, and where a signal of it lies."""

    def __init__(self, matrix: Matrix) -> None:
        lines = [line for message in matrix.messages.values() for line in message.signals]
        self._zeros = {(line.row.sheet, key) for line in lines for key in ("byte", "bit", "start") if re.fullmatch(r"0([.,]\d+)?", line.cell(key))}

    def of(self, line: MatrixRow) -> cells.BitPlace | None:
        """Where a signal lies; None where that can't be read."""
        bits = line.read("bits", cells.width)
        has_bytes = {"start", "byte"} & {*line.columns.keys}
        if "start" in line:
            place = line.read("start", self._shifted(line, "start", cells.place))
            if place and "bit" in line and place.bits is None:
                place = place._replace(bit=(line.number("bit", 63) or 0) + ((line.row.sheet, "bit") in self._zeros))
        elif "byte" in line:
            place = line.read("byte", self._shifted(line, "byte", cells.place))
            bit = line.read("bit", lambda text: cells.whole(text, 63))
            if place and bit is not None:
                place = place._replace(bit=bit + ((line.row.sheet, "bit") in self._zeros))
        else:
            place = self._by_bit(line) if not has_bytes else None
        if place is None:
            return None
        if bits is None and place.bits is None and place.bit > 1:
            line.say("bits", f"no width is said of what begins at {place.byte}.{place.bit}")
            return None
        return place._replace(bits=bits or place.bits or 8)

    def _shifted(self, line: MatrixRow, key: str, how: Callable[[str], cells.BitPlace]) -> Callable[[str], cells.BitPlace]:
        """How a place is read in a column that counts bytes from 0 or from 1."""
        if (line.row.sheet, key) not in self._zeros:
            return how
        return lambda text: how(re.sub(r"(?<![\d.])\d+", lambda found: str(int(found.group()) + 1), text))

    def _by_bit(self, line: MatrixRow) -> cells.BitPlace | None:
        """The place by the bit of the message in which a signal begins."""
        bit = line.read("bit", lambda text: cells.whole(text, 14279))
        if bit is None:
            return None
        first = bit if (line.row.sheet, "bit") in self._zeros else bit - 1
        return cells.BitPlace(first // 8 + 1, first % 8 + 1, None)


class MatrixSignals:
    """The signals of lines as canmatrix has them."""

    def __init__(self, matrix: Matrix) -> None:
        self._matrix, self._places = matrix, Places(matrix)

    def of(self, message: MatrixMessage, line: MatrixRow) -> canmatrix.Signal | None:
        """The signal of a line; None where it can't be read, which is said."""
        import canmatrix
        place, name = self._places.of(line), named(line.text("signal"))
        said = len(self._matrix.left_out)
        scale = line.read("factor", cells.scale) if "factor" in line else cells.CellScale(Fraction(1), None, "")
        offset = line.read("offset", cells.number) if "offset" in line else (scale.offset if scale else None) or Fraction(0)
        if place is None or scale is None or offset is None:
            if len(self._matrix.left_out) == said and place is None:
                line.say("start" if "start" in line.columns.keys else "signal", "no place is said")
            return None
        if not is_decimal(scale.factor.denominator) or not is_decimal(offset.denominator):
            line.say("factor", f"{scale.factor} is none that a plan can have: its decimals have no end")
            return None
        if "order" in line and HIGH_FIRST.match(line.text("order")) and place.bit - 1 + (place.bits or 8) > 8:
            line.say("order", "its most significant byte comes first")
            return None
        signal = canmatrix.Signal(
            name, start_bit=8 * place.byte + place.bit - 9, size=place.bits, is_little_endian=True, is_signed="sign" in line and self.is_signed(line),
            factor=exact(scale.factor), offset=exact(offset), unit=line.text("unit") or scale.unit, receivers=self.receivers(message, line),
            calc_min_for_none=False, calc_max_for_none=False)
        for raw, said_so in (line.read("values", cells.names_of) or {}).items():
            signal.add_values(raw, plain(said_so))
        if "spn" in line and (spn := line.number("spn", (1 << 19) - 1)) is not None:
            signal.add_attribute(SPN_ATTRIBUTE, str(spn))
        if "comment" in line:
            signal.add_comment(plain(line.text("comment")))
        return signal

    def is_signed(self, line: MatrixRow) -> bool:
        """Whether the cell on it says that a signal has a sign."""
        text = line.text("sign")
        return bool(SIGNED.match(text)) and not text.lower().startswith(("unsigned", "uint"))

    def receivers(self, message: MatrixMessage, line: MatrixRow) -> list[str]:
        """Who receives a signal: those of its own row, else those of its message."""
        told = line if "receivers" in line else message.line
        listed = [named(word) for word in APART.split(told.text("receivers")) if re.search(r"\w", word) and not EVERYBODY.fullmatch(word)]
        marked = [named(unit) for unit, sends in line.marks() if not sends]
        return list(dict.fromkeys([*listed, *marked]))


def exact(value: Fraction) -> Decimal:
    """A number whose decimals have an end."""
    return Decimal(value.numerator) / Decimal(value.denominator)


def destination_of(message: MatrixMessage, matrix: Matrix) -> int:
    """The address to which a message goes: that of all, also where it is none's, which is said."""
    if is_pdu2(message.pgn) or not message.to or EVERYBODY.fullmatch(message.to):
        return GLOBAL_ADDRESS
    address = matrix.units.get(named(message.to), {}).get("sa")
    if address is None:
        try:
            address = cells.whole(message.to, NULL_ADDRESS, False)
        except LeftOut:
            message.line.say("to", f"no unit {plain(message.to)} has an address here: it goes to all")
    return GLOBAL_ADDRESS if address is None else int(address)


def frame_of(message: MatrixMessage, matrix: Matrix, signals: MatrixSignals) -> canmatrix.Frame:
    """A message as canmatrix has it."""
    import canmatrix
    sources = [matrix.units[sender]["sa"] for sender in message.senders if "sa" in matrix.units[sender]]
    source = sources[0] if len(sources) == 1 else NULL_ADDRESS
    made = [(line, signal) for line in message.signals if (signal := signals.of(message, line))]
    ends = [-(-(signal.start_bit + signal.size) // 8) for _, signal in made]
    length = message.length or max(FRAME_BYTES, *ends, 0)
    number = identifier_of(PRIORITY if message.priority is None else message.priority, message.pgn, source, destination_of(message, matrix))
    frame = canmatrix.Frame(named(message.name), arbitration_id=canmatrix.ArbitrationId(number, extended=True), size=length,
                            transmitters=list(message.senders))
    frame.cycle_time = message.period or 0
    if message.sent and not message.period:
        frame.add_attribute(SEND_ATTRIBUTE, plain(message.sent))
    if message.comment:
        frame.add_comment(plain(message.comment))
    for line, signal in made:
        matrix.notes.places[f"signal {signal.name} of {frame.name}"] = line.row.at
        frame.add_signal(signal)
    matrix.notes.places[f"group {frame.name}"] = message.line.row.at
    return frame


def network_of(matrix: Matrix) -> canmatrix.CanMatrix:
    """The units and messages as canmatrix has them."""
    import canmatrix
    network, signals = canmatrix.CanMatrix(), MatrixSignals(matrix)
    frames = [frame_of(message, matrix, signals) for message in matrix.messages.values()]
    receivers = (name for frame in frames for signal in frame.signals for name in signal.receivers)
    for name in dict.fromkeys([*matrix.units, *receivers]):
        unit, told = canmatrix.Ecu(name), matrix.units.get(name, {})
        attributes = {ADDRESS_ATTRIBUTE: told.get("sa"), ARBITRARY_ATTRIBUTE: int(told["arbitrary"]) if "arbitrary" in told else None,
                      **{attribute: told.get(key) for key, (attribute, _) in NAME_ATTRIBUTES.items()}}
        for attribute, value in attributes.items():
            if value is not None:
                unit.add_attribute(attribute, str(value))
        network.add_ecu(unit)
    for frame in frames:
        network.add_frame(frame)
    return network


def load(kind: str, data: bytes, encoding: str | None, mapping: Mapping, notes: Notes) -> canmatrix.CanMatrix:
    """The network of a file of sheets, which isn't made of the tables of a plan. What can't be read is said with its place, and kept for the plan's
    comments."""
    from j39plan.dbc.reader import import_canmatrix
    rows = rows_of(kind, data, encoding)
    if own.is_own(tables := own.tables_in(rows)):
        raise own.OwnPlan(tables)
    import_canmatrix()
    matrix = Matrix(notes)
    matrix.take(rows, mapping)
    network = network_of(matrix)
    notes.left_out += matrix.left_out
    return network
