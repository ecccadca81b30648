"""The nodes and frames of one bus, of one file or of several, as each supplier has one."""

from __future__ import annotations

from collections.abc import Iterator
from dataclasses import dataclass, field
from typing import TYPE_CHECKING, NamedTuple

from j39plan.dbc import reader
from j39plan.dbc.names import (
    ADDRESS_ATTRIBUTE, ARBITRARY_ATTRIBUTE, BITRATE_ATTRIBUTE, FORMAT_ATTRIBUTE, IDENTITY_ATTRIBUTE, J1939_FORMAT, NAME_ATTRIBUTES, NOBODY, UNIT_ATTRIBUTE,
)
from j39plan.dbc.senders import senders_of, source_of
from j39plan.dbc.times import attribute_of
from j39plan.left_out import LeftOut, Notes, plain, some_of
from j39plan.plan.schema import VERSIONS, bitrates_of

if TYPE_CHECKING:
    import canmatrix

# The attributes of nodes that a plan is made of, and those that nodes can share, so that a file's default counts.
SHARED = (*(attribute for attribute, _ in NAME_ATTRIBUTES.values()), ARBITRARY_ATTRIBUTE)
OWN = (ADDRESS_ATTRIBUTE, IDENTITY_ATTRIBUTE[0], UNIT_ATTRIBUTE, "LongName", *SHARED)


@dataclass
class Node:
    """A node by its name: what its files give of it, the defaults that they have for others, and its comment."""

    name: str
    given: dict[str, object] = field(default_factory=dict)
    defaults: dict[str, object] = field(default_factory=dict)
    comment: str = ""
    files: dict[str, str] = field(default_factory=dict)  # which file has given an attribute
    known_by: set[str] = field(default_factory=set)  # which files have it


class BusFrame(NamedTuple):
    """A frame, the bus that it is of, and the name of its file where there are several. Where it is one of those that a multiplexed message is
    taken apart into, also the bits by which it is told, and what its group is called."""

    frame: canmatrix.Frame
    matrix: canmatrix.CanMatrix
    file: str
    when: dict[str, int] | None = None
    name: str = ""

    @property
    def told_by(self) -> tuple[int, int | None]:
        """The number of its group, and the value of the bits by which it is told."""
        return self.frame.arbitration_id.pgn, None if self.when is None else self.when["value"]


class NodeFacts(NamedTuple):
    """What is known of nodes beside the files: which names are others of a node, and at which addresses nodes are."""

    same: dict[str, str] = {}
    addresses: dict[str, int] = {}

    def name_of(self, name: str) -> str:
        """What a node of this name is called."""
        return self.same.get(name, name)

    def rename(self, matrix: canmatrix.CanMatrix) -> None:
        """Calls senders and receivers as their nodes are called."""
        for frame in matrix.frames:
            frame.transmitters = list(dict.fromkeys(map(self.name_of, frame.transmitters)))
            for signal in frame.signals:
                signal.receivers = list(dict.fromkeys(map(self.name_of, signal.receivers)))


def formats_of(matrix: canmatrix.CanMatrix) -> dict[int, str]:
    """The formats of frames, by their identities, that a file calls otherwise than those of J1939, which it has too."""
    formats = {id(frame): str(attribute_of(frame, FORMAT_ATTRIBUTE, matrix) or "") for frame in matrix.frames if frame.arbitration_id.extended}
    has_j1939 = J1939_FORMAT in formats.values()
    return {key: told for key, told in formats.items() if has_j1939 and told.startswith(("StandardCAN", "ExtendedCAN"))}


class Network:
    """The nodes and frames of all files. A node is known by its name; each file may give what an earlier one doesn't."""

    def __init__(self, notes: Notes, version: int = VERSIONS[-1], known: NodeFacts = NodeFacts()) -> None:
        self.notes, self.bitrates, self._known = notes, bitrates_of(version), known
        self.nodes: dict[str, Node] = {}
        self.names: set[str] = set()  # of nodes, as the files have them
        self.sent: list[BusFrame] = []
        self.bitrate: int | None = None
        self._bitrate_file = ""

    def add(self, matrix: canmatrix.CanMatrix, file: str = "") -> None:
        """Adds a file's nodes and frames; what contradicts an earlier one is said with both files' names."""
        self.notes.file = file
        here: set[str] = set()
        for ecu in matrix.ecus:
            if ecu.name in here:
                self.notes.say(f"unit {ecu.name}", "an earlier one has its name")
            elif ecu.name != NOBODY:
                self.add_node(ecu, matrix, file)
            here.add(ecu.name)
        self.names |= here
        self._known.rename(matrix)
        self.add_frames(matrix, file)
        self.add_bitrate(matrix, file)
        self.notes.file = ""

    def add_frames(self, matrix: canmatrix.CanMatrix, file: str) -> None:
        """Adds a file's frames but those that it says to be none of J1939."""
        others = formats_of(matrix)
        for frame in matrix.frames:
            if id(frame) in others:
                self.notes.say(f"group {frame.name}", f"its {FORMAT_ATTRIBUTE} is {others[id(frame)]}, so it is no group of J1939")
            else:
                self.sent.append(BusFrame(frame, matrix, file))

    def add_addresses(self) -> None:
        """Takes the addresses that are known beside the files."""
        for name, address in self._known.addresses.items():
            node = self.nodes[name]
            given = node.given.get(ADDRESS_ATTRIBUTE)
            if given is not None and str(given) != str(address):
                self.notes.say(f"unit {name}, {ADDRESS_ATTRIBUTE}", f"{given} is ignored: --address has {address}")
            node.given[ADDRESS_ATTRIBUTE] = address

    def check_known(self) -> None:
        """Refuses names of nodes that no file has."""
        for kept, other in ((kept, other) for other, kept in self._known.same.items()):
            if other not in self.names:
                raise LeftOut(f"--same {plain(kept)}={plain(other)}: no node is called {plain(other)}")
        for name in self._known.addresses:
            if name not in self.nodes:
                raise LeftOut(f"--address {plain(name)}: no node is called so")

    def add_node(self, ecu: canmatrix.Ecu, matrix: canmatrix.CanMatrix, file: str) -> None:
        """Adds what a file gives of a node."""
        name = self._known.name_of(ecu.name)
        node = self.nodes.setdefault(name, Node(name))
        node.known_by.add(file)
        for attribute in OWN:
            given = ecu.attributes.get(attribute)
            known = node.given.get(attribute)
            if given is not None and known is not None and str(given) != str(known):
                by = node.files[attribute] or f"another node called {name}"
                self.notes.say(f"unit {name}, {attribute}", f"{given} is ignored: {by} has {known}")
            elif given is not None and known is None:
                node.given[attribute], node.files[attribute] = given, file
        for attribute in SHARED:
            default = ecu.attribute(attribute, matrix)
            if default is not None and attribute not in ecu.attributes:
                node.defaults.setdefault(attribute, default)
        node.comment = node.comment or ecu.comment or ""

    def make_units(self) -> None:
        """Makes a unit of each source address, where the files have no nodes at all. If all are 0, the identifiers name groups, and nobody's address."""
        addresses = sorted({source for frame in self.frames if (source := source_of(frame)) is not None})
        if self.nodes or not any(addresses):
            return
        self.nodes = {f"SA_{address}": Node(f"SA_{address}", {ADDRESS_ATTRIBUTE: address}) for address in addresses}
        for frame in self.frames:
            if not senders_of(frame) and (source := source_of(frame)) is not None:
                frame.transmitters = [f"SA_{source}"]
        self.notes.say("units", f"there are no nodes: {some_of(list(self.nodes))} {'are' if len(addresses) > 1 else 'is'} made of the source addresses of identifiers")

    def add_bitrate(self, matrix: canmatrix.CanMatrix, file: str) -> None:
        """Notes how fast the bus is, if a file says so."""
        told = getattr(matrix, "baudrate", 0) or matrix.attribute(BITRATE_ATTRIBUTE)
        if not told or str(told) == "0":
            return
        bitrate = next((rate for rate in self.bitrates if str(told) in (str(rate), str(rate // 1000))), None)
        if bitrate is None:
            self.notes.say(f"the bus, {BITRATE_ATTRIBUTE}", f"{told} is none of {' and '.join(map(str, self.bitrates))}")
        elif self.bitrate not in (None, bitrate):
            self.notes.say(f"the bus, {BITRATE_ATTRIBUTE}", f"{told} is ignored: {self._bitrate_file} has {self.bitrate}")
        else:
            self.bitrate, self._bitrate_file = bitrate, self._bitrate_file or file

    @property
    def frames(self) -> Iterator[canmatrix.Frame]:
        """The frames of all files."""
        return (sent.frame for sent in self.sent)


class FileFault(LeftOut):
    """Why nothing comes of a file of this name."""

    def __init__(self, file: str, why: object) -> None:
        super().__init__(f"{plain(file)}: {why}")


def load(names: list[str], form: reader.FileOptions, notes: Notes, version: int = VERSIONS[-1], known: NodeFacts = NodeFacts()) -> Network:
    """The network of several files, whose bus is one of a plan of this version. One that holds the same as an earlier one is ignored, and that is noted."""
    network, seen = Network(notes, version, known), dict[bytes, str]()
    for name in names:
        with open(name, "rb") as file:
            data = file.read()
        several = name if len(names) > 1 else ""
        if data in seen:
            notes.file = several
            notes.say("file", f"it holds the same as {seen[data]}, and is ignored")
            continue
        seen[data] = name
        notes.file = several
        try:
            matrix = reader.load(name, data, form, notes)
        except LeftOut as why:
            raise FileFault(name, why) from why
        network.add(matrix, several)
    notes.file = ""
    network.check_known()
    network.add_addresses()
    return network
