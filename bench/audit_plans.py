"""Plans and frames that `audit_logs.py` makes and `audit_reference.py` judges."""

from __future__ import annotations

from typing import NamedTuple

CLAIM, REQUEST, TRANSPORT, PACKETS = 60928, 59904, 60416, 60160
ALL, NULL, POOL = 255, 254, range(128, 248)
SECOND = 1_000_000
FRAME_BYTES, LONGEST, PACKET_BYTES = 8, 1785, 7
CLAIMS_ASKED = bytes([0x00, 0xEE, 0x00])


def whole(value: int, parts: int) -> int:
    """A quotient, rounded up."""
    return -(-value // parts)


class Unit(NamedTuple):
    label: str
    address: int
    identity: int
    is_arbitrary: bool = False
    moves: bool = False
    claims: bool = True

    def name(self) -> int:
        return self.identity | self.is_arbitrary << 63


class Group(NamedTuple):
    label: str
    pgn: int
    priority: int
    length: int
    most: int


class Flow(NamedTuple):
    """A flow by the places of its group and its units, to all where `to` is None; `is_asked`: on request. Times are in milliseconds."""

    group: int
    sender: int
    to: int | None
    period: int
    pause: int | None
    jitter: int = 0
    is_asked: bool = False


class Request(NamedTuple):
    """A request by the places of its group and its units, to all where `to` is None. Its period is in milliseconds."""

    group: int
    sender: int
    to: int | None
    period: int | None


class Plan(NamedTuple):
    units: list[Unit]
    groups: list[Group]
    flows: list[Flow]
    requests: list[Request]
    drift: int
    errors: tuple[int, int] | None

    def receiver(self, flow: Flow | Request) -> str:
        return "all" if flow.to is None else self.units[flow.to].label

    def toml(self) -> str:
        lines = ["version = 4", "[timing]", "bitrate = 250000", "unplanned = 0"]
        lines += [f"drift = {self.drift}"] if self.drift else []
        lines += [f"errors = {{ count = {self.errors[0]}, every = {self.errors[1]} }}"] if self.errors else []
        for unit in self.units:
            arbitrary = ", arbitrary = true" if unit.is_arbitrary else ""
            lines += ["[[unit]]", f'label = "{unit.label}"', f"address = {unit.address}", f"name = {{ identity = {unit.identity}{arbitrary} }}"]
            lines += [] if unit.claims else ["claims = false"]
        for group in self.groups:
            lines += ["[[group]]", f'label = "{group.label}"', f"pgn = {group.pgn}", f"priority = {group.priority}", f"length = {group.length}"]
            lines += [f"most = {group.most}"] if group.most != group.length else []
        for flow in self.flows:
            lines += ["[[flow]]", f'group = "{self.groups[flow.group].label}"', f'from = "{self.units[flow.sender].label}"']
            lines += [f'to = "{self.receiver(flow)}"', f"period = {flow.period}", f"jitter = {flow.jitter}"]
            lines += ([f"pause = {flow.pause}"] if flow.pause else []) + (["on_request = true"] if flow.is_asked else [])
        for request in self.requests:
            lines += ["[[request]]", f'group = "{self.groups[request.group].label}"', f'from = "{self.units[request.sender].label}"']
            lines += [f'to = "{self.receiver(request)}"', *([f"period = {request.period}"] if request.period else [])]
        return "\n".join(lines) + "\n"


class Frame(NamedTuple):
    """A frame with its time in microseconds, None where the line has none."""

    time: int | None
    priority: int
    pgn: int
    to: int
    source: int
    data: bytes

    def is_broadcast(self) -> bool:
        return self.pgn >> 8 & 0xFF >= 240

    def text(self) -> str:
        identifier = self.priority << 26 | self.pgn << 8 | (0 if self.is_broadcast() else self.to << 8) | self.source
        time = "" if self.time is None else f"({self.time // SECOND}.{self.time % SECOND:06d}) "
        return f"{time}can0 {identifier:08X}#{self.data.hex().upper()}"


# A line is a frame, or a text with what it is: bad, skipped or empty.
Line = Frame | tuple[str, str]


def is_group(number: int) -> bool:
    """Whether a number is that of a group: 18 bits, and the low byte 0 where frames name a destination."""
    return number < 1 << 18 and (number >> 8 & 0xFF >= 240 or number & 0xFF == 0)


def is_announcement(frame: Frame) -> bool:
    """Whether a frame of the transport protocol announces a message, to all or to another address."""
    data = frame.data
    if frame.pgn != TRANSPORT or len(data) != FRAME_BYTES:
        return False
    size = data[1] | data[2] << 8
    is_message = FRAME_BYTES < size <= LONGEST and data[3] == whole(size, PACKET_BYTES) and is_group(int.from_bytes(data[5:8], "little"))
    return is_message and (frame.to == ALL if data[0] == 0x20 else data[0] == 0x10 and frame.to < NULL and frame.to != frame.source)


def announced(frame: Frame) -> tuple[int, int]:
    """The number and the size of the message that it announces."""
    return int.from_bytes(frame.data[5:8], "little"), frame.data[1] | frame.data[2] << 8
