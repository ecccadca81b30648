"""A simulated drive of a combine harvester, and its true plan: 15 units whose clocks differ, groups that a selector tells apart, long messages,
flows that are sent on events, and answers to a tool."""

import random
from collections.abc import Iterator, Mapping

from j39plan import program
from j39plan.plan.tables import Flow, Tables
from tests.drives import BEGIN, Drive

# The units: their addresses, makers and functions.
UNITS = {
    "ENGINE": (0, 310, 0), "GEARBOX": (3, 400, 3), "BRAKES": (11, 400, 9), "AFTER": (85, 310, 67), "CLUSTER": (23, 275, 19), "BODY": (33, 275, 26),
    "GATE": (39, 98, 25), "STEERING": (19, 411, 13), "THRESHER": (60, 275, 130), "HEADER": (61, 88, 131), "CLEANING": (62, 275, 132), "GRAIN": (63, 275, 133),
    "YIELD": (64, 601, 134), "TASK": (65, 601, 135), "TOOL": (249, 310, 129),
}

# The groups: number, priority, length, the greatest length, and the selector in the first byte: its first bit, its width and its value.
Layout = tuple[int, int, int, int, tuple[int, int, int] | None]
GROUPS: dict[str, Layout] = {
    "EEC1": (61444, 3, 8, 0, None), "EEC2": (61443, 3, 8, 0, None), "ETC1": (61442, 3, 8, 0, None), "EBC1": (61441, 6, 8, 0, None), "TSC1": (0, 3, 8, 0, None),
    "CCVS": (65265, 6, 8, 0, None), "ET1": (65262, 6, 8, 0, None), "EFL": (65263, 6, 8, 0, None), "LFE": (65266, 6, 8, 0, None), "IC1": (65270, 6, 8, 0, None),
    "VEP": (65271, 6, 8, 0, None), "AMB": (65269, 6, 8, 0, None), "DD": (65276, 6, 8, 0, None), "HOURS": (65253, 6, 8, 0, None), "TD": (65254, 6, 8, 0, None),
    "DM1": (65226, 6, 10, 0, None), "EC1": (65251, 6, 39, 0, None), "GPS": (65267, 6, 8, 0, None), "GUIDE": (44032, 3, 8, 0, None), "CONFIG": (57600, 6, 24, 0, None),
    "LEFT": (65268, 6, 8, 0, (1, 4, 1)), "RIGHT": (65268, 6, 8, 0, (1, 4, 2)),
    "DRUM": (61184, 6, 8, 0, (1, 8, 0x10)), "SIEVE": (61184, 6, 8, 0, (1, 8, 0x11)),
    "REEL": (61184, 6, 8, 0, (1, 8, 0x20)), "REEL_SET": (61184, 6, 24, 0, (1, 8, 0x21)),
    "FAN": (61184, 6, 8, 0, (1, 8, 0x30)), "FAN_SET": (61184, 6, 8, 0, (1, 8, 0x31)),
    "TANK": (65300, 6, 8, 0, None), "LOSS": (65301, 6, 8, 0, None), "KEYS": (65302, 6, 8, 0, None), "UNLOAD": (65303, 6, 8, 0, None),
    "VI": (65260, 6, 18, 0, None), "SOFT": (65242, 6, 6, 30, None), "IDENT": (65259, 6, 8, 0, None),
}

# The flows: group, sender, receiver, period and jitter in ms.
FLOWS = (
    ("EEC1", "ENGINE", "all", 20, 1), ("EEC2", "ENGINE", "all", 50, 2), ("ETC1", "GEARBOX", "all", 10, 1), ("EBC1", "BRAKES", "all", 100, 2),
    ("TSC1", "GEARBOX", "ENGINE", 50, 2), ("CCVS", "ENGINE", "all", 100, 5), ("ET1", "ENGINE", "all", 1000, 10), ("EFL", "ENGINE", "all", 500, 5),
    ("LFE", "ENGINE", "all", 100, 3), ("IC1", "ENGINE", "all", 500, 3), ("VEP", "BODY", "all", 1000, 8), ("AMB", "BODY", "all", 1000, 8), ("DD", "CLUSTER", "all", 1000, 9),
    ("TD", "CLUSTER", "all", 1000, 4), ("DM1", "ENGINE", "all", 1000, 4), ("DM1", "AFTER", "all", 1000, 6), ("EC1", "ENGINE", "all", 5000, 20), ("GPS", "STEERING", "all", 200, 4),
    ("GUIDE", "STEERING", "BODY", 100, 3), ("CONFIG", "BODY", "HEADER", 4000, 10), ("LEFT", "GATE", "all", 1000, 5), ("RIGHT", "GATE", "all", 1000, 5),
    ("DRUM", "THRESHER", "BODY", 2000, 4), ("SIEVE", "THRESHER", "BODY", 2000, 4), ("REEL", "HEADER", "BODY", 100, 3), ("REEL_SET", "HEADER", "BODY", 4000, 5),
    ("FAN", "CLEANING", "BODY", 100, 2), ("FAN_SET", "CLEANING", "BODY", 500, 2), ("TANK", "GRAIN", "all", 200, 3), ("LOSS", "YIELD", "all", 100, 3),
    ("LOSS", "TASK", "all", 250, 3), ("AMB", "GATE", "all", 500, 5),
)
# Those that are sent on events, with the least time between two messages; and answers.
EVENTS = (("KEYS", "BODY", "all", 50), ("UNLOAD", "GRAIN", "all", 100), ("KEYS", "CLUSTER", "all", 50))
ANSWERS = (("VI", "ENGINE", "TOOL"), ("SOFT", "ENGINE", "TOOL"), ("HOURS", "ENGINE", "all"), ("IDENT", "GEARBOX", "all"))

# By so many millionths clocks of units differ from that of the log at most; how many messages an event has, and how long the next one is away, in ms.
DRIFT = 400
BURST, APART = (3, 12), (500, 9000)


def plan() -> str:
    """The true plan."""
    text = "version = 4\nlive = true\n\n[timing]\nbitrate = 250000\nunplanned = 20\ndrift = 1000\n\n[timing.errors]\ncount = 2\nevery = 1000\n"
    for label, (address, maker, function) in UNITS.items():
        text += f'\n[[unit]]\nlabel = "{label}"\naddress = {address}\nname = {{ manufacturer = {maker}, function = {function} }}\n'
    for label, (pgn, priority, length, most, when) in GROUPS.items():
        text += f'\n[[group]]\nlabel = "{label}"\npgn = {pgn}\npriority = {priority}\nlength = {length}\n' + (f"most = {most}\n" if most else "")
        text += f"private = {str(pgn == 61184 or 65280 <= pgn <= 65535).lower()}\n"
        if when:
            text += "when = {{ byte = 1, bit = {}, bits = {}, value = {} }}\n".format(*when)
    for group, sender, to, period, jitter in FLOWS:
        text += f'\n[[flow]]\ngroup = "{group}"\nfrom = "{sender}"\nto = "{to}"\nperiod = {period}\njitter = {jitter}\n'
    for group, sender, to, period in EVENTS:
        text += f'\n[[flow]]\ngroup = "{group}"\nfrom = "{sender}"\nto = "{to}"\nperiod = {period}\n'
    for group, sender, to in ANSWERS:
        text += f'\n[[flow]]\ngroup = "{group}"\nfrom = "{sender}"\nto = "{to}"\nperiod = 2000\non_request = true\n'
        text += f'\n[[request]]\ngroup = "{group}"\nfrom = "TOOL"\nto = "{sender}"\nperiod = 2000\n'
    return text


class Harvest(Drive):
    """A drive of the harvester."""

    def __init__(self, tables: Tables, seconds: float, seed: int, paces: Mapping[str, float] | None = None) -> None:
        clocks = random.Random(-seed)
        self._pace = {unit.label: 1 + clocks.randint(-DRIFT, DRIFT) / 10**6 for unit in tables.units} | dict(paces or {})
        self._wanted: list[tuple[float, int, Flow]] = []
        super().__init__(tables, seconds, seed)

    def _message(self, at: float, flow: Flow) -> None:
        """A message of a flow: long ones of one unit wait for one another, by their times."""
        self._wanted.append((at, len(self._wanted), flow))

    def frames(self) -> Iterator[tuple[float, int, bytes]]:
        """The frames of the log."""
        for at, _, flow in sorted(self._wanted, key=lambda wanted: wanted[:2]):
            super()._message(at, flow)
        return super().frames()

    def _sends(self, flow: Flow) -> None:
        """The messages of a flow, by its unit's clock; of one that is sent on events row by row."""
        assert flow.period is not None
        pace, is_event, left = self._pace[flow.sender], (flow.group, flow.sender, flow.to, flow.period) in EVENTS, 0
        at, lasts = BEGIN + self._random.random() * flow.period, self._lasts(flow)
        while at + lasts < self._end:
            self._message(at + self._random.random() * flow.jitter, flow)
            at += pace * flow.period
            if is_event and not left:
                left, at = self._random.randint(*BURST), at + self._random.randint(*APART)
            left -= is_event


def log_of(seconds: float, seed: int) -> str:
    """The log of a drive by the true plan."""
    with program.file_of(plan()) as name:
        return "".join(Harvest(Tables.of(name), seconds, seed).lines())
