"""What of SAE J1939 the tools know: bytes of frames, identifiers, the fields of a NAME, addresses, and the groups by which the network
itself runs."""

import functools

# The most bytes of a message that goes in one frame, and how many a packet of a longer one carries (J1939-21).
FRAME_BYTES, PACKET_BYTES = 8, 7

# The fields of a NAME (J1939-81): the key of a plan, the first bit, the width.
NAME_FIELDS = (
    ("identity", 0, 21), ("manufacturer", 21, 11), ("ecu", 32, 3), ("function_instance", 35, 5), ("function", 40, 8),
    ("system", 49, 7), ("system_instance", 56, 4), ("industry", 60, 3), ("arbitrary", 63, 1),
)

# The width of an identity number, at the low end of a NAME, and how many hex digits have bits of it. The rest of a NAME is the kind of the box.
IDENTITY_BITS, IDENTITY_DIGITS = 21, 6

# Addresses (J1939-81): that of a unit without one, that of all units, and those among which a unit may choose.
NULL_ADDRESS, GLOBAL_ADDRESS = 254, 255
POOL = range(128, 248)

# The addresses that SAE J1939 gives to functions of the first 128, by the number of the function: the engine's, the transmission's, and so on.
PREFERRED_ADDRESSES = {
    0: (0, 1), 3: (3, 4), 5: (5, 6), 6: (7,), 7: (8,), 8: (9, 10), 9: (11,), 10: (12,), 11: (13, 14), 12: (15,), 13: (16,), 14: (17,), 15: (18,),
    16: (19,), 17: (20,), 18: (21, 22), 19: (23,), 20: (24,), 21: (25, 58), 22: (27,), 23: (28,), 24: (29,), 26: (33,), 27: (36,), 28: (37,),
    29: (38,), 30: (39,), 32: (42,), 34: (46,), 35: (47, 64), 36: (48,), 37: (49, 50), 38: (51,), 39: (52, 53), 40: (54,), 41: (55,),
}

# The groups of trouble codes, of which a message has as many as there are (J1939-73).
TROUBLE_CODES = {65226: "DM1", 65227: "DM2", 65231: "DM6", 65236: "DM12", 64949: "DM23"}

# The addresses of service tools (J1939), which aren't there in each drive.
SERVICE_TOOLS = (249, 250)

# Groups by which the network runs (J1939-21, -81) that `check` finds as F4.
ACKNOWLEDGEMENT, REQUEST = 59392, 59904
DATA_TRANSFER, CONNECTION_MANAGEMENT = 60160, 60416
EXTENDED_MANAGEMENT = 51200
ADDRESS_CLAIMED, COMMANDED_ADDRESS = 60928, 65240
SERVICES = frozenset(
    (ACKNOWLEDGEMENT, REQUEST, DATA_TRANSFER, CONNECTION_MANAGEMENT, ADDRESS_CLAIMED, COMMANDED_ADDRESS)
)

# Others, which a plan may have as any group: the transport protocol of J1939-22 for CAN FD (19712, 19968), NAME management
# (37632), the extended transport protocol (50944, 51200), Request2 and Transfer (51456, 51712).
OTHER_SERVICES = frozenset((19712, 19968, 37632, 50944, EXTENDED_MANAGEMENT, 51456, 51712))

# Proprietary groups: A, A2, and the two ranges of B.
PROPRIETARY = frozenset((61184, 126720, *range(65280, 65536), *range(130816, 131072)))

# In ms, within which time an answer begins (J1939-21, Tr), how long who wants one waits for it (T2, T3), and how long a claim may be contested (J1939-81).
RESPONSE, WAIT, CONTESTED = 200, 1250, 250

# How many identifiers of 29 bits there are, and from which PDU format on a frame goes to all (J1939-21).
IDENTIFIERS, PDU2 = 1 << 29, 240


def is_pdu2(pgn: int) -> bool:
    """Whether frames of a group go to all: their identifiers name no destination."""
    return pgn >> 8 & 0xFF >= PDU2


def without_destination(pgn: int) -> int:
    """A number without what names the destination in a frame that goes to one unit."""
    return pgn if is_pdu2(pgn) else pgn & ~0xFF


def identifier_of(priority: int, pgn: int, source: int, destination: int = GLOBAL_ADDRESS) -> int:
    """The identifier of a frame of a group, which names the destination where the group can go to one unit."""
    return priority << 26 | (pgn & 0x3FFFF | (0 if is_pdu2(pgn) else destination)) << 8 | source


@functools.lru_cache(4096)
def pgn_in(identifier: int) -> int:
    """The number of the group in an identifier."""
    return without_destination(identifier >> 8 & 0x3FFFF)


def source_in(identifier: int) -> int:
    """The address in an identifier that sends."""
    return identifier & 0xFF


def destination_in(identifier: int) -> int:
    """The address in an identifier to which the frame goes, that of all where it names none."""
    return GLOBAL_ADDRESS if is_pdu2(identifier >> 8) else identifier >> 8 & 0xFF


def identity_in(name: int) -> int:
    """The identity number in a NAME."""
    return name & (1 << IDENTITY_BITS) - 1


def kind_of(name: int) -> int:
    """The kind of a box: its NAME without the identity number."""
    return name - identity_in(name)
