"""A small bus of five units, and logs of it with one thing in each."""

import contextlib
import io
import json
from collections.abc import Callable, Iterable, Mapping, Sequence
from typing import Any, Self

from j39plan.cli import against
from j39plan.j1939 import ADDRESS_CLAIMED, CONNECTION_MANAGEMENT, DATA_TRANSFER, GLOBAL_ADDRESS, REQUEST, identifier_of
from tests.support import InFolder

# The units with their addresses and NAMEs; the groups with number, priority and length; the flows with period and pause.
UNITS = {"ENGINE": (0, 310, 0), "BODY": (33, 275, 26), "GATE": (39, 98, 25), "HEADER": (61, 88, 67), "TOOL": (249, 310, 129)}
GROUPS = {"EEC1": (61444, 3, 8), "LFE": (65266, 6, 8), "GST": (65271, 6, 8), "GLD": (65269, 6, 8), "SET": (57344, 6, 8), "CFG": (57600, 6, 24), "VI": (65260, 6, 18)}
FLOWS = [("EEC1", "ENGINE", "all", 20, 40), ("LFE", "ENGINE", "all", 100, 200), ("GST", "GATE", "all", 100, 200), ("GLD", "GATE", "all", 100, 200),
         ("SET", "BODY", "HEADER", 100, 200), ("CFG", "BODY", "HEADER", 4000, None), ("VI", "ENGINE", "TOOL", 2000, None)]
ADDRESSES = {label: address for label, (address, _, _) in UNITS.items()}
NAMES = {label: (number | maker << 21 | function << 40).to_bytes(8, "little") for number, (label, (_, maker, function)) in enumerate(UNITS.items(), 1)}

# The bytes of CFG and of VI, when a log begins, and when messages do, in seconds.
CFG, VI, EPOCH, BEGIN = bytes(range(24)), b"CLAAS123456789012*", 1764230400, 1.0

# A frame by its time, its identifier and its bytes; times in which something is otherwise.
Timed = tuple[float, int, bytes]
Span = tuple[float, float]


def plan() -> str:
    """The plan of the bus."""
    units = "".join(f'[[unit]]\nlabel = "{label}"\naddress = {address}\nname = {{ manufacturer = {maker}, function = {function} }}\n'
                    for label, (address, maker, function) in UNITS.items())
    groups = "".join(f'[[group]]\nlabel = "{label}"\npgn = {pgn}\npriority = {priority}\nlength = {length}\n' for label, (pgn, priority, length) in GROUPS.items())
    flows = "".join(f'[[flow]]\ngroup = "{group}"\nfrom = "{sender}"\nto = "{to}"\nperiod = {period}\njitter = {int(period < 1000)}\n'
                    + (f"pause = {pause}\n" if pause else "") + ("on_request = true\n" if group == "VI" else "") for group, sender, to, period, pause in FLOWS)
    timing = "[timing]\nbitrate = 250000\nunplanned = 20\n[timing.errors]\ncount = 2\nevery = 1000\n"
    return f'version = 4\nlive = true\n{timing}{units}{groups}{flows}[[request]]\ngroup = "VI"\nfrom = "TOOL"\nto = "ENGINE"\n'


def number(pgn: int) -> bytes:
    """A group's number as frames have it."""
    return pgn.to_bytes(3, "little")


class Bus:
    """Frames of a log, in the order in which they are put."""

    def __init__(self) -> None:
        self.frames: list[Timed] = []

    def put(self, at: float, identifier: int, data: bytes) -> Self:
        """A frame."""
        self.frames.append((at, identifier, data))
        return self

    def claims(self, at: float, label: str) -> Self:
        """A unit claims its address."""
        return self.put(at, identifier_of(6, ADDRESS_CLAIMED, ADDRESSES[label]), NAMES[label])

    def asks(self, at: float, source: int, pgn: int, to: int = GLOBAL_ADDRESS) -> Self:
        """A group is requested."""
        return self.put(at, identifier_of(6, REQUEST, source, to), number(pgn))

    def manages(self, at: float, source: int, to: int, control: Sequence[int], group: str = "CFG") -> Self:
        """A frame that manages a connection: its first bytes, and the group."""
        data = bytes(control).ljust(5, b"\xff") + number(GROUPS[group][0])
        return self.put(at, identifier_of(7, CONNECTION_MANAGEMENT, source, to), data)

    def packet(self, at: float, source: int, to: int, count: int, data: bytes = bytes(7)) -> Self:
        """A packet by its number."""
        return self.put(at, identifier_of(7, DATA_TRANSFER, source, to), bytes((count,)) + data.ljust(7, b"\xff"))

    def carries(self, at: float, packets: Iterable[int] = (1, 2, 3, 4), acknowledged: bool = True) -> Self:
        """CFG goes from BODY to HEADER, by these packets."""
        self.manages(at, 33, 61, (16, 24, 0, 4)).manages(at + 0.003, 61, 33, (17, 4, 1))
        for place, count in enumerate(packets):
            self.packet(at + 0.006 + 0.003 * place, 33, 61, count, CFG[7 * count - 7:7 * count] if count else CFG[:7])
        return self.manages(at + 0.025, 61, 33, (19, 24, 0, 4)) if acknowledged else self

    def answers(self, at: float, to: int) -> Self:
        """VI goes from ENGINE to an address."""
        self.manages(at, 0, to, (16, 18, 0, 3), "VI").manages(at + 0.003, to, 0, (17, 3, 1), "VI")
        for count in (1, 2, 3):
            self.packet(at + 0.003 + 0.003 * count, 0, to, count, VI[7 * count - 7:7 * count])
        return self.manages(at + 0.02, to, 0, (19, 18, 0, 3), "VI")

    def starts(self, without: Sequence[str] = ()) -> Self:
        """The units claim their addresses."""
        for place, label in enumerate(UNITS):
            if label not in without:
                self.claims(0.1 + 0.01 * place, label)
        return self

    def runs(self, end: float = 20, off: Mapping[str, Span] | None = None, data: Mapping[str, tuple[float, float, bytes]] | None = None,
             pace: Mapping[str, float] | None = None) -> Self:
        """All messages of one frame, but from and to units that are off, some with other bytes for a time, of some units at another pace."""
        for place, (group, sender, to, period, pause) in enumerate(FLOWS):
            pgn, priority, length = GROUPS[group]
            at = BEGIN + 0.0017 * place
            while pause and at < end:
                begin, until, other = (data or {}).get(group, (0, 0, b""))
                if not any(first <= at < last for first, last in ((off or {}).get(unit, (0, 0)) for unit in (sender, to))):
                    identifier = identifier_of(priority, pgn, ADDRESSES[sender], ADDRESSES.get(to, GLOBAL_ADDRESS))
                    self.put(at, identifier, other if begin <= at < until else bytes((place,)) * length)
                at += period / 1000 * (pace or {}).get(sender, 1.0003)
        return self


def drive() -> Bus:
    """A bus on which all is as planned for 20 s."""
    return Bus().starts().runs()


class OfSmallBus(InFolder):
    """Logs of the small bus against its plan, in this process."""

    def told(self, bus: Bus, change: Callable[[list[Timed]], list[Timed]] = sorted, cut: float | None = None) -> list[str]:
        """The deviations of a log, each as the time of its line in the log, in seconds, if it has one, its text, and how often. The line of a time may be cut."""
        *found, whole = map(json.loads, self._answer(bus, change, cut, "--json"))
        self.assertEqual(whole["deviations"], len(found))
        self.units = [one.get("unit") for one in found]
        return [self._place(one) + one["text"] + (f"  ({one['times']} times)" if one["times"] > 1 else "") for one in found]

    def _place(self, found: dict[str, Any]) -> str:
        """When the line of a deviation came."""
        return f"{float(self.lines[found['line'] - 1][1:].partition(')')[0]) - EPOCH:.4g} " if "line" in found else ""

    def table(self, bus: Bus) -> list[str]:
        """The tables of a log."""
        return self._answer(bus, sorted, None, "--table")

    def _answer(self, bus: Bus, change: Callable[[list[Timed]], list[Timed]], cut: float | None, *words: str) -> list[str]:
        """What `against` writes of a log, in this process."""
        frames = change(sorted(bus.frames))
        self.lines = [f"({EPOCH + at:.6f}) can0 {identifier:08X}#{data.hex().upper()}"[:45 if cut is not None and abs(at - cut) < 1e-6 else None] + "\n" for at, identifier, data in frames]
        name, answer = self.write("drive.log", "".join(self.lines)), io.StringIO()
        with contextlib.redirect_stdout(answer), contextlib.redirect_stderr(io.StringIO()):
            status = against.main([*words, self.write("plan.toml", plan()), name])
        self.assertIn(status, (0, 1))
        return answer.getvalue().splitlines()
