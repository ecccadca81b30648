"""What a DBC or a KCD has and a plan can't say stands in the plan all the same: a comment, and raw signals that hold its bits."""

import re
import tomllib
from typing import Any

from j39plan import program
from j39plan.cli import dbc2plan
from tests.dbc_files import message
from tests.support import InFolder, answered, needs

# A Motorola signal in bytes 1 and 2, an Intel one in byte 2, and one whose factor no plan has.
CONTRADICTORY = """VERSION ""
BU_: A B
BO_ 2365552907 PROP: 8 A
 SG_ YawBE : 7|16@0- (0.01,0) [0|0] "deg/s" B
 SG_ Other : 8|8@1+ (1,0) [0|250] "" B
 SG_ Yaw2 : 40|16@1+ (0.333333333,0) [0|0] "m" B
"""

NODES = """BU_: ENGINE RETARDER
BA_DEF_ BU_ "NmStationAddress" INT 0 254;
BA_DEF_ BU_ "NmJ1939Function" INT 0 255;
BA_ "NmStationAddress" BU_ ENGINE 0;
BA_ "NmStationAddress" BU_ RETARDER 15;
BA_ "NmJ1939Function" BU_ RETARDER 10;
"""

KCD = """<NetworkDefinition xmlns="http://kayak.2codeornot2code.org/1.0"><Document/><Node id="1" name="A"/><Bus name="V">
<Message id="0x18FEEE00" format="extended" length="8" name="ET1"><Producer><NodeRef id="1"/></Producer>
<Signal name="BE" offset="20" length="12" endianess="big"/><Signal name="LE" offset="32" length="8"/></Message></Bus></NetworkDefinition>
"""


@needs("canmatrix", "python3-canmatrix")
class Held(InFolder):
    def plan(self, data: str, name: str = "file.dbc", *words: str) -> tuple[dict[str, Any], str, str, str]:
        """A plan of a file with what is said, its text, and what check answers of it."""
        status, text, said = answered(dbc2plan.main, *words, self.write(name, data))
        self.assertEqual(status, 0, said)
        return tomllib.loads(text), said, text, program.call(["check", self.write("plan.toml", text)])[1]

    def held(self, plan: dict[str, Any]) -> list[tuple[str, int, int, int]]:
        """The raw signals of the first group: label, byte, bit, bits."""
        return [(signal["label"], signal["byte"], signal.get("bit", 1), signal["bits"]) for signal in plan["group"][0]["signal"] if signal["kind"] == "raw"]

    def test_a_file_that_contradicts_itself(self) -> None:
        """Bytes 1 and 2 are the Motorola signal's, so byte 2 is F8; both are told, and each left out signal stands in the plan."""
        plan, said, text, answer = self.plan(CONTRADICTORY)
        self.assertEqual(self.held(plan), [("YawBE", 1, 1, 16), ("Yaw2", 6, 1, 16)])
        self.assertEqual(answer, "F8 SignalOverlap PROP Other YawBE\nfindings 1\n")
        for line in ("signal YawBE of PROP: left out: its most significant byte comes first (Motorola)",
                     "signal Yaw2 of PROP: left out: factor 0.333333333 is no step of 1 to 1000000",
                     "signal YawBE of PROP: it shares bits with Other of the same message: check finds that (F8)"):
            self.assertIn(f"{line}\n", said)
        self.assertIn('label = "YawBE"  # "left out: its most significant byte comes first (Motorola); these are its bits"\n', text)
        self.assertIn("# unit B: left out: no address is given\n", text)

    def test_bits_that_are_not_in_a_row(self) -> None:
        """12 bits from bit 7 of byte 1 on, the most significant first: all of byte 1, and the upper half of byte 2. 64 bits are two holders."""
        data = NODES + message(0x18FEEE00, "ET1", "ENGINE", 'BE : 7|12@0+ (1,0) [0|0] "" RETARDER')
        self.assertEqual(self.held(self.plan(data)[0]), [("BE", 1, 1, 8), ("BE_2", 2, 5, 4)])
        data = NODES + message(0x18FEEE00, "ET1", "ENGINE", 'WIDE : 0|64@1+ (1,0) [0|0] "" RETARDER')
        self.assertEqual(self.held(self.plan(data)[0]), [("WIDE", 1, 1, 32), ("WIDE_2", 5, 1, 32)])

    def test_what_could_be_in_the_plan_is_only_named(self) -> None:
        """One over another one and one outside, which --strict keeps: no holder, but a comment at the group."""
        data = NODES + message(0x18FEEE00, "ET1", "ENGINE", 'A : 0|8@1+ (1,0) [0|0] "" RETARDER', 'B : 4|8@1+ (1,0) [0|0] "" RETARDER',
                               'C : 60|8@1+ (1,0) [0|0] "" RETARDER')
        plan, _, text, _ = self.plan(data)
        self.assertEqual(self.held(plan), [])
        self.assertIn("length = 8  # left out: signal B: it overlaps A; left out: signal C: it lies outside of the 8 bytes\n", text)

    def test_a_signal_that_another_message_has_in_its_place(self) -> None:
        """A gearbox's Intel signal where the engine's message has a Motorola one: only that is in the plan, and nothing is held over it."""
        data = NODES + (message(0x18FEEE00, "ET1", "ENGINE", 'BE : 7|16@0+ (1,0) [0|0] "" RETARDER')
                        + message(0x18FEEE0F, "ET1_R", "RETARDER", 'LE : 0|16@1+ (1,0) [0|0] "" ENGINE'))
        plan, _, text, answer = self.plan(data)
        self.assertEqual([signal["label"] for signal in plan["group"][0]["signal"]], ["LE"])
        self.assertIn("left out: signal BE: ", text)
        self.assertNotIn("F8 ", answer)

    def test_nodes_that_a_file_lacks(self) -> None:
        """A unit for each source address, which sends what comes from it; 254 is nobody's."""
        data = "BU_:\n" + "".join(message(identifier, name, "Vector__XXX", 'S : 0|8@1+ (1,0) [0|0] "" Vector__XXX') for identifier, name in (
            (0x18FEEE00, "ET1"), (0x18FEF10B, "CCVS"), (0x18FEF2FE, "LFE")))
        plan, said, *_ = self.plan(data)
        self.assertEqual([(unit["label"], unit["address"]) for unit in plan["unit"]], [("SA_0", 0), ("SA_11", 11)])
        self.assertEqual([(flow["group"], flow["from"]) for flow in plan["flow"]], [("ET1", "SA_0"), ("CCVS", "SA_11")])
        self.assertIn("units: there are no nodes: SA_0, SA_11 are made of the source addresses of identifiers\n", said)
        self.assertNotIn("unit", self.plan("BU_:\n" + message(0x18FEEE00, "ET1", "Vector__XXX"))[0])  # a list of groups
        named, *_ = self.plan(data.replace("BU_:", "BU_: ENGINE"))
        self.assertFalse(re.search("SA_", str(named)))

    @needs("lxml", "python3-lxml")
    def test_a_kcd(self) -> None:
        """12 bits of a KCD, most significant first from bit 4 of byte 3 on: its lower five bits, and the upper seven of byte 4."""
        plan, said, *_ = self.plan(KCD, "file.kcd")
        self.assertIn("signal BE of ET1: left out: its most significant byte comes first (Motorola)\n", said)
        self.assertEqual(sum(bits for *_, bits in self.held(plan)), 12)
