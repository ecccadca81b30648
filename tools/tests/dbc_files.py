"""DBC files for tests, and what is made of them."""

import tomllib
from typing import Any

from j39plan import program
from tests.support import InFolder, run

# Two nodes of which one has an address, and identifiers of EEC1 (PGN 61444) from the addresses 0 and 15.
NODES = 'BU_: ENGINE RETARDER\nBA_DEF_ BU_ "NmStationAddress" INT 0 254;\nBA_ "NmStationAddress" BU_ RETARDER 15;\n\n'

FROM_0, FROM_15 = 0x0CF00400, 0x0CF0040F

# A multiplexor, a signal that each message has, one of the messages of 1, one of those of 2 and 3, and one that another one selects.
AXLE, STATE = 'AXLE M : 0|4@1+ (1,0) [0|0] "" RETARDER', 'STATE : 4|2@1+ (1,0) [0|0] "" RETARDER'

DBC = '''VERSION ""
NS_ :
BS_:
BU_: ENGINE RETARDER TOOL

BO_ 2364540158 EEC1: 8 ENGINE
 SG_ SPN190 : 24|16@1+ (0.125,0) [0|8031.875] "rpm" RETARDER
 SG_ SPN512 : 8|8@1+ (1,-125) [-125|125] "%" RETARDER
 SG_ SPN899 : 0|4@1+ (1,0) [0|15] "" RETARDER
 SG_ SPN4154 : 4|3@1+ (0.125,0) [0|0.875] "%" RETARDER

BO_ 2566844158 ET1: 8 ENGINE
 SG_ SPN110 : 0|8@1+ (1,-40) [-40|210] "°C" RETARDER
 SG_ SPN175 : 16|16@1+ (0.03125,-273) [-273|1735] "°C" Vector__XXX

BO_ 2348810494 TSC1: 8 RETARDER
 SG_ SPN695 : 0|2@1+ (1,0) [0|3] "" ENGINE
 SG_ SPN897 : 4|2@1+ (1,0) [0|3] "" ENGINE
 SG_ SPN518 : 24|8@1+ (1,-125) [-125|125] "%" ENGINE

BO_ 2566833406 ODD: 8 ENGINE
 SG_ MOTOROLA : 7|16@0+ (1,0) [0|0] "" RETARDER
 SG_ BYTE : 23|8@0+ (1,0) [0|0] "" RETARDER
 SG_ SIGNED : 24|8@1- (1,0) [0|0] "" RETARDER
 SG_ WIDE : 16|40@1+ (1,0) [0|0] "" RETARDER
 SG_ FALLING : 56|8@1+ (-1,0) [0|0] "" RETARDER
 SG_ SPEAKS : 56|8@1+ (1,0) [0|0] "日" RETARDER

BO_ 2566852862 MAKER: 8 ENGINE
 SG_ X : 0|8@1+ (1,0) [0|0] "" RETARDER

BO_ 2565799934 CLAIM: 8 ENGINE
BO_ 2364539919 EEC1_AGAIN: 8 RETARDER
 SG_ SPN190 : 24|16@1+ (0.125,0) [0|8031.875] "rpm" ENGINE
 SG_ SPN512 : 8|8@1+ (1,-125) [-125|125] "%" ENGINE
 SG_ SPN899 : 0|4@1+ (1,0) [0|15] "" ENGINE
 SG_ SPN4154 : 4|3@1+ (0.125,0) [0|0.875] "%" ENGINE
BO_ 2566843919 ET1_OTHER: 7 RETARDER
BO_ 291 SHORT: 8 ENGINE

BA_DEF_ BU_ "NmStationAddress" INT 0 254;
BA_DEF_ BU_ "NmJ1939AAC" INT 0 1;
BA_DEF_ BU_ "NmJ1939IdentityNumber" INT 0 2097151;
BA_DEF_ BU_ "NmJ1939ManufacturerCode" INT 0 4000;
BA_DEF_ BU_ "NmJ1939Function" INT 0 255;
BA_DEF_ BU_ "NmJ1939IndustryGroup" INT 0 7;
BA_DEF_DEF_ "NmStationAddress" 254;
BA_DEF_DEF_ "NmJ1939AAC" 0;
BA_DEF_DEF_ "NmJ1939IdentityNumber" 0;
BA_DEF_DEF_ "NmJ1939ManufacturerCode" 0;
BA_DEF_DEF_ "NmJ1939Function" 0;
BA_DEF_DEF_ "NmJ1939IndustryGroup" 0;
BA_ "NmStationAddress" BU_ ENGINE 0;
BA_ "NmJ1939IdentityNumber" BU_ ENGINE 4711;
BA_ "NmJ1939ManufacturerCode" BU_ ENGINE 310;
BA_ "NmStationAddress" BU_ RETARDER 15;
BA_ "NmJ1939AAC" BU_ RETARDER 1;
BA_ "NmJ1939IdentityNumber" BU_ RETARDER 4712;
BA_ "NmJ1939ManufacturerCode" BU_ RETARDER 3000;
BA_ "NmJ1939Function" BU_ RETARDER 10;
BA_ "NmJ1939IndustryGroup" BU_ RETARDER 1;
VAL_ 2348810494 SPN897 0 "Highest" 1 "High" 2 "Medium" 3 "Low" ;
VAL_ 2348810494 SPN695 0 "Off" 1 "On" 2 "Error" 3 "Not available" ;
VAL_ 2348810494 SPN518 255 "Not available" ;
'''


def message(identifier: int, name: str, sender: str, *signals: str, length: int = 8) -> str:
    """A message with an identifier of 29 bits, as a DBC has it."""
    lines = [f"BO_ {identifier | 1 << 31} {name}: {length} {sender}", *(f" SG_ {signal}" for signal in signals)]
    return "\n".join(lines) + "\n\n"


class WithDbc(InFolder):
    """A test that makes plans of DBC files."""

    def made(self, *words: str, data: str | bytes = DBC) -> tuple[int, str, list[str]]:
        """What is made of a DBC: status, plan and what is said."""
        if isinstance(data, str):
            data = data.encode("iso-8859-1", "replace")
        with open(self.path("file.dbc"), "wb") as file:
            file.write(data)
        status, plan, said = run("dbc2plan.py", self.path("file.dbc"), *words)
        return status, plan, said.splitlines()

    def text(self, *words: str, data: str | bytes = DBC) -> tuple[str, list[str]]:
        """The file of a plan that `check` can read, and what is said of it."""
        status, plan, said = self.made(*words, data=data)
        self.assertEqual(status, 0, said)
        return self.checked(plan), said

    def plan(self, *words: str, data: str | bytes = DBC) -> tuple[dict[str, Any], list[str]]:
        """A plan that `check` can read, and what is said of it."""
        plan, said = self.text(*words, data=data)
        return tomllib.loads(plan), said

    def checked(self, plan: str) -> str:
        """A plan that `check` can read."""
        status, answer = program.call(["check", self.write("plan.toml", plan)])
        self.assertIn(status, (0, 1), answer)
        return plan

    def signals(self, *words: str, data: str | bytes = DBC) -> dict[str, dict[str, Any]]:
        """The signals of a plan by their labels."""
        plan, _ = self.plan(*words, data=data)
        return {signal["label"]: signal for group in plan["group"] for signal in group.get("signal", [])}
