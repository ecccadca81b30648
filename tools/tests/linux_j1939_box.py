"""A box by Linux' own J1939 stack (can-j1939): GEARBOX of the plan of the boxes, which a script runs in a virtual machine. The kernel carries messages and knows
addresses; claims, answers and refusals are an application's, here as SAE J1939-81 and -21 have them.

linux_j1939_box.py INTERFACE [bare]     bare: it claims once and sends its flows, and answers nothing, as a box without an application
"""

import select
import socket
import struct
import sys
import time
from typing import Any

# The level of the stack's options, its ancillary data with the address that a message went to, and the groups that are needed.
LEVEL, TO_ADDRESS = 107, 1
CLAIMED, REQUEST, ACKNOWLEDGEMENT = 60928, 59904, 59392
ETC2, HOURS, VI, STATE = 61445, 65253, 65260, 65300

NAME, ADDRESS, ALL, NONE = 310 << 21 | 3 << 40 | 1, 130, 255, 254


def opened(interface: str, address: int) -> Any:
    """A socket of the stack that belongs to the NAME."""
    one = socket.socket(socket.AF_CAN, socket.SOCK_DGRAM, socket.CAN_J1939)
    one.setsockopt(socket.SOL_SOCKET, socket.SO_BROADCAST, 1)
    one.setblocking(False)
    one.bind((interface, NAME, socket.J1939_NO_PGN, address))
    return one


class Box:
    """The box on an interface."""

    def __init__(self, interface: str, is_bare: bool) -> None:
        self._interface, self._is_bare, self._is_lost = interface, is_bare, False
        self._hears = opened(interface, ADDRESS)
        self._says = {pgn: opened(interface, socket.J1939_NO_ADDR) for pgn in (ETC2, HOURS, VI, STATE, ACKNOWLEDGEMENT)}

    def claims(self) -> None:
        """It claims its address, or says that it can't."""
        self._hears.bind((self._interface, NAME, socket.J1939_NO_PGN, NONE if self._is_lost else ADDRESS))
        self._hears.sendto(struct.pack("<Q", NAME), (self._interface, socket.J1939_NO_NAME, CLAIMED, ALL))

    def sends(self, pgn: int, data: bytes, to: int = ALL) -> None:
        """It sends a message. That the one before wasn't carried is told by the next call, which then has sent nothing: it is done again."""
        for _ in range(2):
            try:
                self._says[pgn].sendto(data, (self._interface, socket.J1939_NO_NAME, pgn, to))
                return
            except OSError as why:
                print(f"{pgn}: {why}", flush=True)

    def hears(self, seconds: float) -> None:
        """What comes within some time is answered."""
        if not select.select([self._hears], [], [], max(seconds, 0))[0]:
            return
        try:
            data, ancillary, _, (_, name, pgn, source) = self._hears.recvmsg(2048, 256)
        except OSError as why:
            print(f"receive: {why}", flush=True)
            return
        to = next((data[0] for level, kind, data in ancillary if (level, kind) == (LEVEL, TO_ADDRESS)), ALL)
        if self._is_bare:
            return
        if pgn == CLAIMED and len(data) == 8 and source == ADDRESS and not self._is_lost:
            self._is_lost = struct.unpack("<Q", data)[0] < NAME
            self.claims()
        elif pgn == REQUEST and len(data) == 3:
            self.answers(int.from_bytes(data, "little"), source, to)

    def answers(self, pgn: int, source: int, to: int) -> None:
        """It answers a request."""
        if pgn == CLAIMED:
            self.claims()
        elif self._is_lost:
            return
        elif pgn == VI:
            self.sends(VI, b"\xff" * 60, source)
        elif pgn in (ETC2, HOURS, STATE):
            self.sends(pgn, b"\xff" * (20 if pgn == STATE else 8))
        elif to != ALL:
            self.sends(ACKNOWLEDGEMENT, bytes((1, 255, 255, 255, source)) + pgn.to_bytes(3, "little"))

    def runs(self) -> None:
        """It claims, waits, and sends its flows."""
        self.claims()
        print("the box has claimed", flush=True)
        due = {ETC2: time.monotonic() + 0.3, STATE: time.monotonic() + 0.4}
        while True:
            self.hears(min(due.values()) - time.monotonic())
            for pgn, period, length in ((ETC2, 0.25, 8), (STATE, 0.502, 20)):
                if time.monotonic() >= due[pgn]:
                    due[pgn] = time.monotonic() + period
                    if not self._is_lost:
                        self.sends(pgn, b"\xff" * length)


if __name__ == "__main__":
    Box(sys.argv[1], "bare" in sys.argv[2:]).runs()
