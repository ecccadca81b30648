"""Frames that J1939 has not so."""

from j39plan.j1939 import REQUEST
from j39plan.log.checks.deviations import Found
from j39plan.log.reports import Frame

# The greatest number of a group of J1939: an identifier with the extended data page has a greater one.
LAST_GROUP = (1 << 17) - 1

# So many bytes has a NAME, and a request.
NAME_BYTES, REQUEST_BYTES = 8, 3


def tell_no_frame(found: Found, line: int, at: int | None, frame: Frame) -> None:
    """A frame with the extended data page, a claim that has no NAME, a request that is no request."""
    sender = frame.sender
    if frame.pgn > LAST_GROUP:
        text = f"a frame with the extended data page from {sender.shown}, PGN {frame.pgn}: no frame of J1939"
        found.tell("extended-page", text, line, at, unit=sender.label)
        return
    what, length = ("request", REQUEST_BYTES) if frame.pgn == REQUEST else ("claim", NAME_BYTES)
    if len(frame.data) != length:
        text = f"a {what} from {sender.shown} has {len(frame.data)} bytes, by the standard {length}"
        found.tell("length", text, line, at, unit=sender.label)
