"""A vehicle of two buses, from whose files the tests make others: an engine's speed comes over a gateway to a cluster."""

import os
import re
import subprocess
import sys

from j39plan import program
from tests.support import TOOLS, InFolder

# The plan of the engine's bus.
P = """version = 4
[timing]
bitrate = 250000
unplanned = 0
[[unit]]
label = "E"
address = 0
name = { function = 0 }
[[unit]]
label = "G"
address = 39
name = { function = 1 }
[[group]]
label = "EEC1"
pgn = 61444
priority = 3
length = 8
[[group.signal]]
label = "SPN190"
byte = 4
bits = 16
kind = "measured"
per = 8
[[flow]]
group = "EEC1"
from = "E"
to = "all"
period = 10
pause = 20
"""

# That of the cluster's.
B = (P.replace('label = "E"', 'label = "C"').replace("address = 0", "address = 23").replace('from = "E"', 'from = "G"')
     .replace("pause = 20", "jitter = 7"))

# The vehicle.
V = """version = 1
[[bus]]
label = "P"
plan = "p.toml"
[[bus]]
label = "B"
plan = "b.toml"
[[gateway]]
label = "CGW"
unit = ["P.G", "B.G"]
[[forward]]
gateway = "CGW"
group = "P.EEC1"
as = "B.EEC1"
within = 5
[[need]]
unit = "B.C"
group = "EEC1"
signal = "SPN190"
from = "P.E"
within = 30
"""

# What the program answers of it.
ANSWER = """bus P
ok 2 units 1 groups 1 flows
load 16000 of 250000
bus B
ok 2 units 1 groups 1 flows
load 16000 of 250000
forward 1 CGW P.EEC1 to B.EEC1 queued within 6280 of 7000 us
need 1 B.C EEC1 SPN190 from P.E EEC1 SPN190 by 1 age 27560 of 30000 us
ok 2 buses 1 gateways 1 forwards 1 needs
"""

SIGNAL = '[[forward.signal]]\nlabel = "{}"\nas = "{}"\n'
FLOW = '[[flow]]\ngroup = "{}"\nfrom = "{}"\nto = "{}"\nperiod = {}\n'
UNIT = '[[unit]]\nlabel = "{}"\naddress = {}\nname = {{ function = {} }}\n'


def swapped(text: str, *changes: tuple[str, str]) -> str:
    """A text with parts of it in the place of others, each of which it has."""
    for old, new in changes:
        assert old in text, old
        text = text.replace(old, new)
    return text


class OfVehicles(InFolder):
    """A test with the files of a vehicle in its folder."""

    def vehicle(self, v: str = V, p: str = P, b: str = B) -> str:
        """Writes the files of a vehicle and answers the name of its own."""
        self.write("p.toml", p)
        self.write("b.toml", b)
        return self.write("v.toml", v)

    def answer(self, name: str) -> tuple[int, str]:
        """What the program answers of a vehicle."""
        return program.call(["vehicle", "--", name])

    def where(self, name: str, *words: str) -> tuple[int, list[str]]:
        """What `where` answers, without the folder, and its status."""
        ended = subprocess.run([sys.executable, os.path.join(TOOLS, "where.py"), *words, name], capture_output=True, text=True, check=False,
                               env={**os.environ, "J39PLAN": program.path()})
        self.assertEqual(ended.stderr, "")
        return ended.returncode, ended.stdout.replace(self.folder + "/", "").splitlines()

    def told(self, name: str) -> list[str]:
        """The lines of `where` that have a place."""
        return [line for line in self.where(name)[1] if re.match(r"\S+:\d+: ", line)]
