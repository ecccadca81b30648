"""The lines of a log that carry a message: one frame, or the transport protocol of SAE J1939-21, as a broadcast or to one receiver."""

from __future__ import annotations

from collections.abc import Iterator

from j39plan.j1939 import (
    CONNECTION_MANAGEMENT, DATA_TRANSFER, FRAME_BYTES, GLOBAL_ADDRESS, IDENTIFIERS, PACKET_BYTES, destination_in, identifier_of, pgn_in, source_in,
)

# The most bytes of a message, the priority of the transport protocol's frames, and how far apart they are here, in ms.
BYTES, PRIORITY, DISTANCE = 1785, 7, 50

# Control bytes of connection management: request to send, clear to send, end of message, announcement of a broadcast.
RTS, CTS, END, BAM = 16, 17, 19, 32


def frames_of(ident: int, data: bytes) -> Iterator[tuple[int, bytes]]:
    """The frames of a message: its identifier is that of a single frame of its group. Raises ValueError where there is no such message."""
    if not 0 <= ident < IDENTIFIERS or len(data) > BYTES:
        raise ValueError(f"no message of {len(data)} bytes has the identifier {ident:#x}")
    if len(data) <= FRAME_BYTES:
        yield ident, data
        return
    source, destination, group = source_in(ident), destination_in(ident), pgn_in(ident).to_bytes(3, "little")
    packets = [data[at:at + PACKET_BYTES] for at in range(0, len(data), PACKET_BYTES)]
    about, count = len(data).to_bytes(2, "little"), len(packets)
    manages, answers = (identifier_of(PRIORITY, CONNECTION_MANAGEMENT, *ends) for ends in ((source, destination), (destination, source)))
    if destination == GLOBAL_ADDRESS:
        yield manages, bytes((BAM, *about, count, 0xFF, *group))
    else:
        yield manages, bytes((RTS, *about, count, 0xFF, *group))
        yield answers, bytes((CTS, count, 1, 0xFF, 0xFF, *group))
    for number, packet in enumerate(packets, 1):
        yield identifier_of(PRIORITY, DATA_TRANSFER, source, destination), bytes((number, *packet.ljust(PACKET_BYTES, b"\xff")))
    if destination != GLOBAL_ADDRESS:
        yield answers, bytes((END, *about, count, 0xFF, *group))


def log_of(ident: int, data: bytes) -> str:
    """A log of a message alone."""
    return "".join(f"({at * DISTANCE // 1000}.{at * DISTANCE % 1000:03}000) can0 {number:08X}#{frame.hex().upper()}\n"
                   for at, (number, frame) in enumerate(frames_of(ident, data)))
