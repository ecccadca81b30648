"""Plans from DBC, ARXML, KCD and SYM files: what comes of units, groups and flows, and of whole files."""

import contextlib
import io
import os
import random
import resource
import tomllib
import unittest
from collections.abc import Sequence
from typing import Any

from j39plan import program
from j39plan.dbc import to_plan
from j39plan.dbc.merge import Network
from j39plan.dbc.names import IDENTITY_ATTRIBUTE, NAME_ATTRIBUTES
from j39plan.dbc.reader import import_canmatrix
from j39plan.left_out import Notes
from j39plan.plan.text import text_of
from tests.dbc_files import AXLE, DBC, FROM_0, FROM_15, NODES, STATE, WithDbc, message
from tests.support import InFolder, needs, run

CANMATRIX_J1939 = "/usr/lib/python3/dist-packages/canmatrix/j1939.dbc"

NAMES = ["all", "A", "a b", "ä", "", "X" * 40, "motor-1", "N1", "\"", "\\", "é" * 40]

UNITS = ["", "rpm", "°C", "µm³", "日", "k" * 33, "\"\\", "km/h\n", "%"]

ATTRIBUTES = [*NAME_ATTRIBUTES.values(), IDENTITY_ATTRIBUTE, ("NmStationAddress", 253), ("NmJ1939AAC", 1)]


def processor_seconds() -> float:
    """How long programs that were called have run on a processor."""
    used = resource.getrusage(resource.RUSAGE_CHILDREN)
    return used.ru_utime + used.ru_stime


def random_ecu(canmatrix: Any, chance: random.Random, number: int) -> Any:
    """A node with some of the usual attributes, within their ranges and without."""
    ecu = canmatrix.Ecu(chance.choice(NAMES) + str(number))
    for attribute, most in ATTRIBUTES:
        if chance.random() < 0.7:
            ecu.add_attribute(attribute, str(chance.choice([0, 1, most, most + 1, -1, "x", chance.randrange(most + 1)])))
    return ecu


def random_signal(canmatrix: Any, chance: random.Random, nodes: list[str]) -> Any:
    """A signal that often can't be carried over."""
    return canmatrix.Signal(
        chance.choice(NAMES), start_bit=chance.randrange(70), size=chance.choice([1, 2, 3, 8, 12, 16, 24, 32, 33, 64]),
        is_little_endian=chance.random() < 0.8, is_signed=chance.random() < 0.2, is_float=chance.random() < 0.1,
        factor=chance.choice(["1", "0.125", "0.0001", "1E-7", "-1", "0", "3.3333", "1000000", "2000000", "1E-20"]),
        offset=chance.choice(["0", "-40", "-273.15", "1E12", "1E13", "0.5"]), unit=chance.choice(UNITS),
        values=chance.choice([{}, {0: "off", 1: "on"}, {2: "medium"}, {255: "not available"}, {6: "error", 7: "not available"}]),
        receivers=nodes[1:],
    )


def random_frame(canmatrix: Any, chance: random.Random, nodes: list[str], number: int) -> Any:
    """A frame that often can't be carried over."""
    known = [0x0CF00400, 0x18FEEE00, 0x0C000003, 0x18EF0000, 0x18FF1000, 0x18EEFF00, 0x1BFEEE00]
    ident = chance.choice([*known, chance.randrange(2**29)])
    frame = canmatrix.Frame(
        chance.choice(NAMES) + str(number), arbitration_id=canmatrix.ArbitrationId(ident, extended=True),
        size=chance.choice([0, 1, 8, 9, 39, 1785, 1786]), transmitters=chance.choice([nodes, nodes[:1] + ["Vector__XXX"]]),
    )
    for _ in range(chance.choice([0, 1, 5, 70])):
        frame.add_signal(random_signal(canmatrix, chance, nodes))
    return frame


@needs("canmatrix", "python3-canmatrix")
class Units(WithDbc):
    def test_units(self) -> None:
        plan, said = self.plan()
        units: list[dict[str, Any]] = [{"label": "ENGINE", "address": 0, "name": {"manufacturer": 310}},
                                       {"label": "RETARDER", "address": 15, "name": {"function": 10, "industry": 1, "arbitrary": True}}]
        self.assertEqual(plan["unit"], units)
        for unit, number in (("ENGINE", 4711), ("RETARDER", 4712)):
            self.assertIn(f"unit {unit}, NmJ1939IdentityNumber: {number} is left away: each box has a number of its own", said)
        numbered = [{**unit, "name": {"identity": number, **unit["name"]}} for unit, number in zip(units, (4711, 4712))]
        for words in (("--identity",), ("--version", "3")):
            plan, told = self.plan(*words)
            self.assertEqual(plan["unit"], numbered)
            self.assertNotIn("left away", " ".join(told))
        self.assertIn("unit TOOL: left out: no address is given", said)
        self.assertIn("unit RETARDER, NmJ1939ManufacturerCode: 3000 is outside 0..2047", said)

    def test_an_address_by_the_frames(self) -> None:
        plan, said = self.plan(data='BU_: A B\nBO_ 2364539909 EEC1: 8 A\n SG_ S : 0|8@1+ (1,0) [0|0] "" B\n')
        self.assertEqual([(unit["label"], unit["address"]) for unit in plan["unit"]], [("A", 5)])
        self.assertEqual((plan["unit"][0]["name"], said), ({}, ["unit B: left out: no address is given", "1 units 1 groups 1 flows, notes 1"]))

    def test_frames_from_several_addresses(self) -> None:
        _, said = self.plan(data=NODES + message(FROM_0, "EEC1", "ENGINE") + message(0x18FEEE17, "ET1", "ENGINE"))
        self.assertIn("unit ENGINE: left out: its frames come from several addresses", said)

    def test_a_default_is_no_identity_and_no_address(self) -> None:
        """Nodes that have only defaults of the file would all be one unit. A version that asks for a number gets a free one."""
        plan, said = self.plan("--version", "3", data=NODES + message(FROM_0, "EEC1", "ENGINE") + (
            'BA_DEF_ BU_ "NmJ1939IdentityNumber" INT 0 2097151;\n'
            'BA_DEF_DEF_ "NmJ1939IdentityNumber" 0;\nBA_DEF_DEF_ "NmStationAddress" 7;\n'))
        self.assertEqual([(unit["address"], unit["name"]) for unit in plan["unit"]], [(0, {"identity": 1}), (15, {"identity": 2})])
        for name, identity in (("ENGINE", 1), ("RETARDER", 2)):
            self.assertIn(f"unit {name}: no identity number is given: {identity} stands in its place", said)

    def test_a_free_identity_is_one_that_no_node_has(self) -> None:
        plan, _ = self.plan("--version", "3", data=NODES + message(FROM_0, "EEC1", "ENGINE") + (
            'BA_DEF_ BU_ "NmJ1939IdentityNumber" INT 0 2097151;\nBA_ "NmJ1939IdentityNumber" BU_ RETARDER 1;\n'))
        self.assertEqual([unit["name"]["identity"] for unit in plan["unit"]], [2, 1])

    def test_numbers_that_tell_units_apart(self) -> None:
        """Two boxes of one kind keep theirs: the plan fits one vehicle then. One of another kind has none."""
        numbers = ('BA_DEF_ BU_ "NmJ1939IdentityNumber" INT 0 2097151;\nBA_DEF_ BU_ "NmJ1939Function" INT 0 255;\n'
                   'BA_ "NmJ1939Function" BU_ TOOL 129;\nBA_ "NmStationAddress" BU_ TOOL 249;\n'
                   + "".join(f'BA_ "NmJ1939IdentityNumber" BU_ {unit} {number};\n' for unit, number in (("ENGINE", 5), ("RETARDER", 6), ("TOOL", 7))))
        plan, said = self.plan(data="BU_: ENGINE RETARDER TOOL\n" + message(FROM_0, "EEC1", "ENGINE") + message(FROM_15, "EEC1_B", "RETARDER") + (
            'BA_DEF_ BU_ "NmStationAddress" INT 0 254;\n') + numbers)
        self.assertEqual([unit["name"] for unit in plan["unit"]], [{"identity": 5}, {"identity": 6}, {"function": 129}])
        kept = "only its identity number {} distinguishes it from {}: it is kept, and the plan fits one vehicle"
        self.assertEqual([line for line in said if "number" in line.lower()], [
            f"unit ENGINE: {kept.format(5, 'RETARDER')}", f"unit RETARDER: {kept.format(6, 'ENGINE')}",
            "unit TOOL, NmJ1939IdentityNumber: 7 is left away: each box has a number of its own"])

    def test_a_default_that_units_share_is_said(self) -> None:
        plan, said = self.plan(data=NODES + (
            'BA_DEF_ BU_ "NmJ1939ManufacturerCode" INT 0 2047;\nBA_DEF_DEF_ "NmJ1939ManufacturerCode" 310;\n'))
        self.assertEqual(plan["unit"][0]["name"], {"manufacturer": 310})
        self.assertIn("unit RETARDER, NmJ1939ManufacturerCode: 310 is the default of the file", said)

    def test_attributes_that_are_no_numbers(self) -> None:
        for value in ("NaN", "sNaN", "Infinity", "1E999999999", "-1", "7.5", '"seven"', "300"):
            plan, said = self.plan(data=NODES + message(FROM_0, "EEC1", "ENGINE") + f'BA_ "NmStationAddress" BU_ ENGINE {value};\n')
            self.assertEqual(plan["unit"][0]["address"], 0)
            self.assertIn(f"unit ENGINE, NmStationAddress: {value} is outside 0..254", said)


@needs("canmatrix", "python3-canmatrix")
class Groups(WithDbc):
    def test_groups(self) -> None:
        plan, _ = self.plan()
        shown = [(group["label"], group["pgn"], group["priority"], group["length"]) for group in plan["group"]]
        self.assertEqual(shown, [("EEC1", 61444, 3, 8), ("ET1", 65262, 6, 7), ("TSC1", 0, 3, 8), ("ODD", 65220, 6, 8),
                                 ("MAKER", 65296, 6, 8)])
        self.assertEqual([group["label"] for group in self.plan()[0]["group"] if group.get("private")], ["MAKER"])
        self.assertNotIn("MAKER", [group["label"] for group in self.plan("--version", "2")[0]["group"]])
        self.assertIn("group MAKER: left out: PGN 65296 is proprietary", self.plan("--version", "2")[1])

    def test_flows(self) -> None:
        plan, _ = self.plan()
        shown = [(flow["group"], flow["from"], flow["to"]) for flow in plan["flow"]]
        self.assertEqual(shown, [("EEC1", "ENGINE", "all"), ("ET1", "ENGINE", "all"), ("TSC1", "RETARDER", "ENGINE"),
                                 ("ODD", "ENGINE", "all"), ("MAKER", "ENGINE", "all"), ("EEC1", "RETARDER", "all"),
                                 ("ET1", "RETARDER", "all")])

    def test_what_is_left_out(self) -> None:
        _, said = self.plan()
        for line in [
            "signal MOTOROLA of ODD: left out: its most significant byte comes first (Motorola)",
            "signal WIDE of ODD: left out: it has 40 bits, more than 32",
            "signal FALLING of ODD: left out: factor -1 is no step of 1 to 1000000",
            "group CLAIM: left out: PGN 60928 can't be planned",
            "group SHORT: left out: its identifier has 11 bits",
        ]:
            self.assertIn(line, said)
        self.assertIn("group ET1_OTHER: its length is 7, that of ET1 is 8", self.plan("--version", "3")[1])

    def test_messages_of_several_lengths(self) -> None:
        """They are of one group, of whose signals only the longer ones have the later ones; earlier versions can't say that."""
        first, second, third = 'A : 0|16@1+ (1,0) [0|0] "" X', 'B : 16|8@1+ (1,0) [0|0] "" X', 'C : 24|16@1+ (1,0) [0|0] "" X'
        outside = 'D : 40|8@1+ (1,0) [0|0] "" X'
        data = NODES + (message(FROM_0, "EEC1", "ENGINE", first, second, outside, length=5)
                        + message(FROM_15, "EEC1_B", "RETARDER", first, length=2)
                        + message(0x0CF00417, "EEC1_C", "Vector__XXX", first, second, third, length=12)
                        + 'BA_DEF_ BU_ "NmJ1939Function" INT 0 255;\nBA_ "NmJ1939Function" BU_ RETARDER 10;\n')
        plan, said = self.plan(data=data)
        (group,) = plan["group"]
        self.assertEqual((group["length"], group["most"]), (2, 12))
        self.assertEqual([(signal["label"], signal.get("optional", False)) for signal in group["signal"]], [("A", False), ("B", True), ("C", True)])
        self.assertEqual([line for line in said if "length" in line or " D " in line], ["signal D of EEC1: left out: it lies outside of the 5 bytes"])
        self.assertEqual(program.call(["check", self.path("plan.toml")]), (0, "ok 2 units 1 groups 2 flows\n"))
        with open(self.path("plan.toml"), encoding="utf-8") as file:
            self.assertIn("# message EEC1_B, 2 bytes", file.read())
        (older,), said = self.plan("--version", "3", data=data)[0]["group"], self.plan("--version", "3", data=data)[1]
        self.assertEqual((older["length"], older.get("most"), len(older["signal"])), (5, None, 3))
        self.assertIn("group EEC1_B: its length is 2, that of EEC1 is 5", said)

    def test_a_text_behind_the_shortest_message(self) -> None:
        """A plan's text begins where the shortest messages end at the latest."""
        told = 'BA_DEF_ SG_ "SigType" ENUM "Default","ASCII";\nBA_ "SigType" SG_ {} {} 1;\n'
        for byte, is_kept in ((3, True), (4, False)):
            text = f'T : {8 * byte - 8}|8@1+ (1,0) [0|0] "" X'
            data = NODES + message(FROM_0, "EEC1", "ENGINE", text) + message(FROM_15, "EEC1_B", "RETARDER", length=2)
            plan, said = self.plan(data=data + told.format(FROM_0 | 1 << 31, "T"))
            self.assertEqual(len(plan["group"][0].get("text", [])), is_kept)
            self.assertEqual("signal T of EEC1: left out: it is text that begins after the 2 bytes of the shortest message" in said, not is_kept)

    def test_no_destination_from_the_null_address(self) -> None:
        """Identifiers that stand for a group alone have the source 254, and at the destination's place what means nothing."""
        tsc1 = 'SPN695 : 0|2@1+ (1,0) [0|3] "" RETARDER'
        for identifier, receiver in ((0x0C0000FE, "RETARDER"), (0x0C000F00, "RETARDER"), (0x0C00FFFE, "all")):
            plan, _ = self.plan(data=NODES + message(FROM_0, "EEC1", "ENGINE") + message(identifier, "TSC1", "ENGINE", tsc1))
            self.assertIn({"group": "TSC1", "from": "ENGINE", "to": receiver}, plan["flow"])

    def test_groups_of_makers(self) -> None:
        """Those of one number are told from one another by who sends them to whom."""
        for number, (first, second, groups) in enumerate((
            ((0x18FF1000, "ENGINE", 8), (0x18FF100F, "RETARDER", 7), ["ONE", "TWO"]),      # each from a unit of its own
            ((0x18FF1000, "ENGINE", 8), (0x18FF1000, "ENGINE", 7), ["ONE"]),               # two meanings from one unit to all
            ((0x18FF1000, "ENGINE", 8), (0x18FF1000, "ENGINE", 8), ["ONE"]),               # one group by two names
            ((0x18EF0F00, "ENGINE", 8), (0x18EFFF00, "ENGINE", 7), ["ONE"]),               # one receives both
            ((0x18EF0F00, "ENGINE", 8), (0x18EF000F, "RETARDER", 8), ["ONE", "TWO"]),      # A, in both directions
            ((0x19EF0F00, "ENGINE", 8), (0x18EF0F00, "ENGINE", 7), ["ONE", "TWO"]),        # A2 and A
            ((0x18FF1000, "ENGINE", 8), (0x18FF10FE, "Vector__XXX", 7), ["ONE"]),          # without a sender
            ((0x18FF1000, "ENGINE", 8), (0x18EF0F0F, "RETARDER", 7), ["ONE"]),             # to itself
            ((0x18FF1000, "ENGINE", 8), (0x19FFFF0F, "RETARDER", 7), ["ONE", "TWO"]),      # B with the data page
        )):
            with self.subTest(number):
                data = NODES + message(FROM_0, "EEC1", "ENGINE") + "".join(
                    message(identifier, name, sender, length=length)
                    for name, (identifier, sender, length) in (("ONE", first), ("TWO", second)))
                plan, said = self.plan("--version", "3", data=data)
                private = [group["label"] for group in plan["group"] if group.get("private")]
                self.assertEqual(private, groups)
                self.assertLessEqual(set(private), {flow["group"] for flow in plan["flow"]})
                self.assertEqual(any(line.startswith("group TWO: ") for line in said), number in (1, 2, 3, 6, 7))
                status, answer = program.call(["check", self.path("plan.toml")])
                self.assertEqual(status, 0, answer)

    def test_a_flow_to_itself(self) -> None:
        plan, said = self.plan(data=NODES + message(0x0C000F0F, "TSC1", "RETARDER"))
        self.assertNotIn("flow", plan)
        self.assertIn("flow of TSC1 from RETARDER: it goes to the unit itself", said)

    def test_frames_of_one_group_mean_the_same(self) -> None:
        """Of two frames of one PGN the group has what the first one says; what the second says otherwise is noted, and at its flow too."""
        first, table = 'SPN1 : 8|8@1+ (1,-40) [0|0] "" RETARDER', 'VAL_ {} SPN1 254 "hot" ;\n'.format(FROM_15 | 1 << 31)
        scale, unit, kept = "has another factor or offset", "has another unit of measurement", "signal SPN1 of EEC1_B: SPN1 of EEC1 {}; only that one is in the plan"
        place = "signal SPN1 of EEC1_B: it is at {}, 8 bits, and SPN1 of EEC1 at 2.1, 8 bits; only that one is in the plan"
        for second, more, other in (
            ('SPN1 : 8|8@1+ (2,-40) [0|0] "" ENGINE', "", kept.format(scale)), ('SPN1 : 8|8@1+ (1,0) [0|0] "" ENGINE', "", kept.format(scale)),
            ('SPN1 : 8|8@1- (1,-40) [0|0] "" ENGINE', "", kept.format("has another sign and another kind")),
            ('SPN1 : 8|8@1+ (1,-40) [0|0] "°C" ENGINE', "", kept.format(unit)), ('SPN1 : 16|8@1+ (1,-40) [0|0] "" ENGINE', "", place.format("3.1")),
            ('SPN1 : 12|8@1+ (1,-40) [0|0] "" ENGINE', "", place.format("2.5")),
            ('SPN1 m0 : 8|8@1+ (1,-40) [0|0] "" ENGINE', "", kept.format("has another way of coding")),
            ('SPN1 : 15|8@0+ (1,-40) [0|0] "" ENGINE', "", ""), (first, table.replace("254", "1"), ""), (first, "", ""),
        ):
            text, said = self.text(
                data=NODES + message(FROM_0, "EEC1", "ENGINE", first) + message(FROM_15, "EEC1_B", "RETARDER", second) + more)
            plan = tomllib.loads(text)
            self.assertEqual([flow["from"] for flow in plan["flow"]], ["ENGINE", "RETARDER"], second)
            self.assertEqual(len(plan["group"]), 1)
            told = [line for line in said if line.startswith("signal ")]
            self.assertEqual(told, [other] if other else [], second)
            self.assertEqual('"laid out otherwise: SPN1"' in text, bool(other))
            self.assertEqual([signal["byte"] for signal in plan["group"][0]["signal"]], [2])

    def test_a_group_has_one_priority(self) -> None:
        plan, said = self.plan(data=NODES + message(FROM_0, "EEC1", "ENGINE") + message(0x18F0040F, "AGAIN", "RETARDER"))
        self.assertEqual((len(plan["group"]), plan["group"][0]["priority"], len(plan["flow"])), (1, 3, 2))
        self.assertIn("group AGAIN: its priority is 6, that of EEC1 is 3", said)

    def test_a_choice(self) -> None:
        self.assertEqual([group["label"] for group in self.plan("--sender", "RETARDER")[0]["group"]],
                         ["TSC1", "EEC1_AGAIN", "ET1_OTHER"])
        self.assertEqual([group["label"] for group in self.plan("--group", "61444")[0]["group"]], ["EEC1"])

    def test_a_choice_of_nothing(self) -> None:
        for words, why in (
            (["--sender", "Nobody"], "--sender Nobody: no frame in it is from this unit"),
            (["--sender", "TOOL"], "--sender TOOL: no frame in it is from this unit"),
            (["--group", "NOPE"], "--group NOPE: no frame in it has this name or PGN"),
            (["--group", "EEC1", "--group", "61440"], "--group 61440: no frame in it has this name or PGN"),
            (["--sender", "ENGINE", "--group", "TSC1"], "none of these groups is from one of these units"),
            (["--bus", "X"], "--bus X: its only bus has no name"),
        ):
            self.assertEqual(self.made(*words), (2, "", [f"dbc2plan: {self.path('file.dbc')}: {why}"]))

    def test_what_is_said_is_counted(self) -> None:
        _, said = self.plan()
        self.assertEqual(said[-1], f"2 units 5 groups 7 flows 6 needs, notes {len(said) - 1}")


LEFT, RIGHT = 'LEFT m1 : 8|8@1+ (1,0) [0|0] "" RETARDER', 'RIGHT m2 : 8|16@1+ (1,0) [0|0] "" RETARDER'

DEEP = 'PAGE m3M : 8|8@1+ (1,0) [0|0] "" RETARDER', 'DEEP m4 : 16|8@1+ (1,0) [0|0] "" RETARDER'


@needs("canmatrix", "python3-canmatrix")
class Multiplexed(WithDbc):
    def groups(self, *signals: str, identifier: int = FROM_0, name: str = "EEC1", more: str = "", words: Sequence[str] = ()) -> tuple[Any, list[str]]:
        """What the groups are called, the value by which each is told, and its signals; and what is said of groups and signals."""
        plan, said = self.plan(*words, data=NODES + message(identifier, name, "ENGINE", *signals) + more)
        shown = [(group["label"], group.get("when", {}).get("value"), [signal["label"] for signal in group.get("signal", [])])
                 for group in plan["group"]]
        return shown, [line for line in said if line.startswith(("group ", "signal "))]

    def test_a_group_for_each_value(self) -> None:
        shown, said = self.groups(AXLE, STATE, LEFT, RIGHT)
        self.assertEqual(shown, [("EEC1_m1", 1, ["AXLE", "STATE", "LEFT"]), ("EEC1_m2", 2, ["AXLE", "STATE", "RIGHT"])])
        self.assertEqual(said, [])

    def test_its_keys(self) -> None:
        plan, _ = self.plan(data=NODES + message(FROM_0, "EEC1", "ENGINE", STATE, LEFT, AXLE.replace("0|4", "28|3")))
        self.assertEqual(plan["group"][0]["when"], {"byte": 4, "bit": 5, "bits": 3, "value": 1})
        self.assertEqual(plan["flow"], [{"group": "EEC1_m1", "from": "ENGINE", "to": "all"}])
        self.assertEqual(plan["need"], [{"unit": "RETARDER", "group": "EEC1_m1"}])

    def test_ranges_of_values(self) -> None:
        more = f"SG_MUL_VAL_ {FROM_0 | 1 << 31} RIGHT AXLE 2-3, 5-5;\n"
        shown, _ = self.groups(AXLE, RIGHT, LEFT, more=more)
        self.assertEqual([(label, signals) for label, _, signals in shown], [
            ("EEC1_m1", ["AXLE", "LEFT"]), ("EEC1_m2", ["AXLE", "RIGHT"]), ("EEC1_m3", ["AXLE", "RIGHT"]), ("EEC1_m5", ["AXLE", "RIGHT"])])

    def test_what_another_signal_selects(self) -> None:
        more = "".join(f"SG_MUL_VAL_ {FROM_0 | 1 << 31} {one};\n" for one in ("LEFT AXLE 1-1", "PAGE AXLE 3-3", "DEEP PAGE 4-4"))
        shown, said = self.groups(AXLE, LEFT, *DEEP, more=more)
        self.assertEqual(shown, [("EEC1_m1", 1, ["AXLE", "LEFT"]), ("EEC1_m3", 3, ["AXLE", "PAGE"])])
        self.assertEqual(said, ["signal DEEP of EEC1: left out: it is multiplexed by PAGE, which not each message has"])

    def test_multiplexors_that_can_not_be(self) -> None:
        for selector, why in (
            (AXLE.replace("1+", "1-"), "its multiplexor AXLE can't be one: it is signed"),
            (AXLE.replace("0|4", "62|4"), "its multiplexor AXLE can't be one: it lies outside of the 8 bytes"),
            (STATE, "no signal of it is its multiplexor"),
        ):
            shown, said = self.groups(selector, LEFT)
            self.assertEqual([(label, value) for label, value, _ in shown], [("EEC1", None)], why)
            self.assertIn(f"group EEC1: {why}", said)
            self.assertIn("signal LEFT of EEC1: left out: it is multiplexed", said)

    def test_a_value_that_the_bits_do_not_hold(self) -> None:
        shown, said = self.groups(AXLE, LEFT, RIGHT.replace("m2", "m16"))
        self.assertEqual([label for label, _, _ in shown], ["EEC1_m1"])
        self.assertEqual(said, ["group EEC1: its multiplexor AXLE of 4 bits is never 16"])

    def test_more_than_a_plan_can_have(self) -> None:
        signals = [f'S{value} m{value} : 16|8@1+ (1,0) [0|0] "" RETARDER' for value in range(300)]
        shown, said = self.groups(AXLE.replace("0|4", "0|16"), *signals)
        self.assertEqual([value for _, value, _ in shown], list(range(256)))
        self.assertEqual(said, ["group EEC1: a plan has at most 256 groups: taken are the first values of AXLE"])

    def test_a_message_of_its_number_that_is_not_so(self) -> None:
        more = message(FROM_15, "EEC1_R", "RETARDER", STATE)
        shown, said = self.groups(AXLE, LEFT, more=more)
        self.assertEqual([(label, value) for label, value, _ in shown], [("EEC1", None)])
        self.assertIn("group EEC1: it is multiplexed, and not all messages of its number are so by the same bits", said)

    def test_one_of_two_senders(self) -> None:
        more = message(FROM_15, "EEC1_R", "RETARDER", AXLE, RIGHT)
        shown, _ = self.groups(AXLE, LEFT, more=more)
        self.assertEqual([label for label, _, _ in shown], ["EEC1_m1", "EEC1_R_m2"])

    def test_a_makers_own_one(self) -> None:
        shown, said = self.groups(AXLE, LEFT, RIGHT, identifier=0x0CEFFF00, name="M" * 32)
        self.assertEqual([label for label, _, _ in shown], ["M" * 29 + "_m1", "M" * 29 + "_m2"])
        self.assertEqual(said, [])

    def test_what_is_left_out_is_said_once(self) -> None:
        _, said = self.groups(AXLE, LEFT, RIGHT, 'BIG : 32|16@0+ (1,0) [0|0] "" RETARDER')
        self.assertEqual(said, ["signal BIG of EEC1: left out: its most significant byte comes first (Motorola)"])

    def test_its_cycle_time(self) -> None:
        more = f'BA_DEF_ BO_ "GenMsgCycleTime" INT 0 65535;\nBA_ "GenMsgCycleTime" BO_ {FROM_0 | 1 << 31} 100;\n'
        _, said = self.groups(AXLE, LEFT, RIGHT, more=more)
        self.assertEqual(said, ["group EEC1: each of the 2 groups that it becomes has its cycle time of 100 ms"])


@needs("canmatrix", "python3-canmatrix")
class Whole(WithDbc):
    def test_what_it_writes_can_be_read(self) -> None:
        """Files of random nodes, frames and signals, of which much can't be carried over; no signal of them is at a wrong place."""
        import_canmatrix()
        import canmatrix
        chance, flows, needed = random.Random(1939), 0, 0
        for round_ in range(60):
            version = 2 + round_ % 3
            db = canmatrix.CanMatrix()
            for number in range(chance.randrange(4)):
                db.add_ecu(random_ecu(canmatrix, chance, number))
            nodes = [ecu.name for ecu in db.ecus]
            for number in range(chance.randrange(8)):
                db.add_frame(random_frame(canmatrix, chance, nodes, number))
            with contextlib.redirect_stderr(io.StringIO()):
                network = Network(Notes())
                network.add(db)
                plan = to_plan.Conversion(network, network.notes, version=version)
                plan.add_units()
                plan.add_frames(network.sent)
            needed += len(plan.needs)
            self.checked(text_of(plan.tables(), "random", version))
            _, answer = program.call(["check", self.path("plan.toml")])
            self.assertNotRegex(answer, r"(?m)^(?:F[4-79]|F1[013]) ")
            self.assertEqual("F8 " in answer, any("shares bits with" in note.why for note in network.notes.said))
            flows += len(plan.flows)
        self.assertGreater(flows, 10)
        self.assertGreater(needed, 5)

    @unittest.skipUnless(os.path.exists(CANMATRIX_J1939), "canmatrix's j1939.dbc isn't there")
    def test_the_groups_of_canmatrix(self) -> None:
        begin = processor_seconds()
        status, plan, said = run("dbc2plan.py", CANMATRIX_J1939)
        self.assertLess(processor_seconds() - begin, 5)
        self.assertEqual(status, 0)
        self.assertEqual(len(tomllib.loads(plan)["group"]), 256)
        self.assertIn("group WFI: left out: a plan has at most 256 groups: choose some by --sender or --group", said)
        self.assertIn("signal AETC_Speed_Value of AETC: left out: it overlaps AETC_Data_Collection_Standard", said)
        name = self.write("plan.toml", plan)
        self.assertEqual(program.call(["check", name]), (0, "ok 0 units 256 groups 0 flows\n"))
        log = self.write("drive.log", "0CF00400#F07D87E02EF00F87\n")
        self.assertIn("Engine_Speed value 12000", program.call(["read", name, log])[1])

    @unittest.skipUnless(os.path.exists(CANMATRIX_J1939), "canmatrix's j1939.dbc isn't there")
    def test_the_groups_of_canmatrix_as_they_are(self) -> None:
        status, plan, _ = run("dbc2plan.py", "--strict", CANMATRIX_J1939)
        self.assertEqual(status, 0)
        answer = program.call(["check", self.write("plan.toml", plan)])[1].splitlines()
        self.assertEqual((answer[-1], {line[:3] for line in answer[:-1]}), ("findings 14", {"F8 "}))
        status, plan, _ = run("dbc2plan.py", CANMATRIX_J1939, "--group", "61444", "--group", "ET1")
        self.assertEqual([group["pgn"] for group in tomllib.loads(self.checked(plan))["group"]], [61444, 65262])


@needs("canmatrix", "python3-canmatrix")
@needs("lxml", "python3-lxml")
class FromOthers(InFolder):
    """The same groups and signals come out of the other formats, as canmatrix writes them."""

    def test_formats(self) -> None:
        import_canmatrix()
        import canmatrix.formats
        with open(self.path("file.dbc"), "w", encoding="iso-8859-1", errors="replace") as file:
            file.write(DBC)
        for ending in ("kcd", "sym", "arxml"):
            name = self.path(f"file.{ending}")
            db = canmatrix.formats.loadp_flat(self.path("file.dbc"))
            for frame in db.frames:
                frame.signals = [signal for signal in frame.signals if signal.name.startswith("SPN")]
            canmatrix.formats.dumpp({"": db}, name)
            status, plan, said = run("dbc2plan.py", name)
            self.assertEqual(status, 0, said)
            status, answer = program.call(["check", self.write("plan.toml", plan)])
            self.assertIn(status, (0, 1), answer)
            self.assertEqual(self.places(plan), {
                "SPN190": (61444, 4, 1, 16), "SPN512": (61444, 2, 1, 8), "SPN899": (61444, 1, 1, 4),
                "SPN4154": (61444, 1, 5, 3), "SPN110": (65262, 1, 1, 8), "SPN175": (65262, 3, 1, 16),
                "SPN695": (0, 1, 1, 2), "SPN897": (0, 1, 5, 2), "SPN518": (0, 4, 1, 8),
            }, ending)

    def places(self, plan: str) -> dict[str, tuple[int, int, int, int]]:
        """Where the signals of a plan lie: PGN, byte, bit and width."""
        return {
            signal["label"]: (group["pgn"], signal["byte"], signal.get("bit", 1), signal["bits"])
            for group in tomllib.loads(plan)["group"] for signal in group.get("signal", [])
        }


if __name__ == "__main__":
    unittest.main()
