"""The tables of a vehicle's file, and the lines of what the program answers of it."""

import os
import unittest

from j39plan.plan.answer_grammar import Unknown, lines_of
from j39plan.plan.parts import Source
from j39plan.vehicle.answer_grammar import FINDINGS, answer_of, line_of
from j39plan.vehicle.files import Vehicle, is_vehicle, plan_file
from j39plan.vehicle.tables import Bus, SignalForward, Forward, Gateway, Need, OnBus, VehicleTables
from tests.support import examples, text_of, vehicles
from tests.vehicles import ANSWER, B, P, SIGNAL, V, OfVehicles

NEED = "need 1 B.C EEC1 SPN190 from P.E"


class Tables(OfVehicles):
    def test_each_table(self) -> None:
        tables = VehicleTables(Source(V))
        self.assertEqual(tables.buses, [Bus("P", "p.toml"), Bus("B", "b.toml")])
        self.assertEqual(tables.gateways, [Gateway("CGW", [OnBus("P", "G"), OnBus("B", "G")])])
        self.assertEqual(tables.forwards, [Forward("CGW", OnBus("P", "EEC1"), "", "", OnBus("B", "EEC1"), "", "", "direct", 5, None)])
        self.assertEqual(tables.needs, [Need(OnBus("B", "C"), "EEC1", "SPN190", OnBus("P", "E"), 30)])
        places = [*(bus.place for bus in tables.buses), tables.gateways[0].place, tables.forwards[0].place, tables.needs[0].place]
        self.assertEqual(places, [("bus", 1), ("bus", 2), ("gateway", 1), ("forward", 1), ("need", 1)])

    def test_signals_of_a_forward(self) -> None:
        """Without signals it copies, with an empty list it doesn't; a signal goes into the one of its label where none is named."""
        text = V.replace("within = 5\n", "signal = [{ label = 'A' }, { label = 'B', as = 'X', exact = false }]\n", 1)
        forward, = VehicleTables(Source(text)).forwards
        self.assertEqual((forward.signals, forward.copies, forward.within), ([SignalForward("A", "A", True), SignalForward("B", "X", False)], False, None))
        tables = SIGNAL.format("A", "A") + SIGNAL.format("B", "X") + "exact = false\n"
        self.assertEqual(forward, VehicleTables(Source(V.replace("within = 5\n", tables, 1))).forwards[0])
        empty, = VehicleTables(Source(V.replace("within = 5\n", "signal = []\n", 1))).forwards
        self.assertEqual((empty.signals, empty.copies), ([], False))

    def test_other_spellings(self) -> None:
        """The same tables in a line each."""
        text = ('version = 1\nbus = [{ label = "P", plan = "p.toml" }, { label = \'B\', plan = "b.toml" }]\n'
                'gateway = [{ label = "CGW", unit = [ "P.G", # here\n "B.G" ] }]\n'
                'forward = [{ gateway = "CGW", group = "P.EEC1", as = "B.EEC1", within = 0x5 }]\n'
                'need = [{ unit = "B.C", group = "EEC1", signal = "SPN190", from = "P.E", within = 3_0 }]\n')
        one, other = VehicleTables(Source(V)), VehicleTables(Source(text))
        for key in ("buses", "gateways", "forwards", "needs"):
            self.assertEqual(getattr(one, key), getattr(other, key))

    def test_the_plans_are_beside_the_vehicle(self) -> None:
        self.assertEqual(plan_file("v.toml", "p.toml"), "p.toml")
        self.assertEqual(plan_file("a/b/v.toml", "../p.toml"), "a/b/../p.toml")
        self.assertEqual(plan_file("a/v.toml", "/p.toml"), "/p.toml")
        name = self.vehicle()
        vehicle = Vehicle(Source(V), name)
        self.assertEqual([unit.label for unit in vehicle.on("B").units], ["C", "G"])
        self.assertEqual([group.label for group in vehicle.on("P").groups], ["EEC1"])
        self.assertEqual((vehicle.hearer(vehicle.tables.forwards[0]), vehicle.sender(vehicle.tables.forwards[0])), ("G", "G"))


class Kind(unittest.TestCase):
    def test_a_vehicle_is_known_by_its_tables(self) -> None:
        for text in (V, "version = 1\n[[bus]]\n", "version = 1\nbus = []\n", "[[gateway]]\n", "[bus]\n", "\ufeffversion = 1\n[[ bus ]]\n"):
            self.assertTrue(is_vehicle(text.encode()), text)

    def test_a_plan_is_none(self) -> None:
        """Whatever words stand in it; nor is one with a table too many."""
        for text in (P, B, "", "version = 1\n", "# [[bus]]\nversion = 1\n", P + "[[bus]]\n", 'version = 4\n[[group]]\nlabel = "bus"\n',
                     "version = 1\n[[need]]\n"):
            self.assertFalse(is_vehicle(text.encode()), text)
        self.assertFalse(is_vehicle(b"\xff\xfe bus"))


class Grammar(unittest.TestCase):
    def test_an_answer_by_its_blocks(self) -> None:
        found = answer_of(ANSWER)
        self.assertEqual([(block.bus, block.lines) for block in found.blocks],
                         [(bus, ["ok 2 units 1 groups 1 flows", "load 16000 of 250000"]) for bus in "PB"])
        self.assertEqual([line_of(text).kind for text in found.rest], ["forward", "need", "ok"])

    def test_blocks_of_plans_with_findings(self) -> None:
        """Steps below a finding are of its block; without a load the block ends with the count."""
        found = answer_of("bus P\nF2 SameFixedAddress A B 0\n  up A\nfindings 1\nbus B\nok 0 units 0 groups 0 flows\nG1 NoInput 1\nfindings 2\n")
        self.assertEqual([block.lines for block in found.blocks], [["F2 SameFixedAddress A B 0", "  up A", "findings 1"], ["ok 0 units 0 groups 0 flows"]])
        self.assertEqual(found.rest, ["G1 NoInput 1", "findings 2"])

    def test_refusals(self) -> None:
        """That of the vehicle alone, or that of a plan behind its bus."""
        self.assertEqual(answer_of("refused UnknownLabel forward 1 signal 2 key as\n"), ([], ["refused UnknownLabel forward 1 signal 2 key as"]))
        self.assertEqual(answer_of("bus B\nrefused Text\n"), ([("B", ["refused Text"])], []))
        self.assertEqual(line_of("refused UnknownLabel forward 1 signal 2 key as").parts, {"cause": "UnknownLabel", "place": "forward 1 signal 2", "key": "as"})

    def test_no_bus(self) -> None:
        self.assertEqual(answer_of("ok 0 buses 0 gateways 0 forwards 0 needs\n"), ([], ["ok 0 buses 0 gateways 0 forwards 0 needs"]))

    def test_forwards(self) -> None:
        named: dict[str, object] = {"forward": 1, "gateway": "CGW", "group": "P.EEC1", "as": "B.EEC1"}
        told: list[tuple[str, dict[str, object]]] = [
            ("", {}), (" queued within 6280 of 7000 us", {"within": 6280, "limit": 7000}), (" late of 6000 us", {"limit": 6000})]
        for rest, parts in told:
            self.assertEqual(line_of("forward 1 CGW P.EEC1 to B.EEC1" + rest).parts, {**named, **parts})

    def test_needs(self) -> None:
        named: dict[str, object] = {"need": 1, "unit": "B.C", "group": "EEC1", "signal": "SPN190", "from": "P.E"}
        comes: dict[str, object] = {**named, "sent_group": "EEC1", "sent_signal": "SPN190"}
        told: list[tuple[str, dict[str, object]]] = [
            (" unmet", named), (" EEC1 SPN190", comes), (" EEC1 SPN190 by 1 4 age 27560 of 30000 us", {**comes, "by": "1 4", "age": 27560, "limit": 30000}),
            (" EEC1 SPN190 by 1 age 27560 us", {**comes, "by": "1", "age": 27560}), (" EEC1 SPN190 old of 30000 us", {**comes, "limit": 30000}),
        ]
        for rest, parts in told:
            self.assertEqual(line_of(NEED + rest).parts, parts, rest)
        self.assertEqual(line_of("need 12 B.C from from P.E by by 3").parts,
                         {"need": 12, "unit": "B.C", "group": "from", "from": "P.E", "sent_group": "by", "by": "3"})

    def test_findings(self) -> None:
        texts = ["G1 NoInput 1", "G2 ManyInputs 1", "G3 NoOutput 1", "G4 ManyOutputs 1", "G5 LayoutDiffers 1", "G6 SignalDiffers 1 RPM", "G7 TwoForwards 1 2",
                 "G8 ForwardLoop 1", "G9 NeedUnmet 1", "G10 TooOften 1", "G11 TooLate 1", "G12 TooRare 1", "G13 NeedTooOld 1", "G14 SharedQueue CGW B"]
        self.assertEqual([text.split()[:2] for text in FINDINGS], [text.split()[:2] for text in texts])
        for text in texts:
            self.assertEqual((line_of(text).kind, " ".join(map(str, line_of(text).parts.values()))), ("finding", text))

    def test_other_lines_are_none(self) -> None:
        for text in ("G1 NoInput", "G15 Other 1", "F1 SameName A B", "forward 1 CGW P.EEC1 to B.EEC1 within 5", NEED, "ok 2 buses", ""):
            self.assertRaises(Unknown, line_of, text)


class Examples(unittest.TestCase):
    def test_each_is_a_plan_or_a_vehicle(self) -> None:
        self.assertGreaterEqual(len(vehicles()), 3)
        for name in examples(".toml"):
            with open(name, "rb") as file:
                self.assertEqual(is_vehicle(file.read()), name in vehicles(), name)

    def test_each_answer_is_read(self) -> None:
        """Each line of what the program answers of the vehicles is in the grammar."""
        for name in vehicles():
            found = answer_of(text_of(os.path.splitext(name)[0] + ".answer"))
            kinds = [line_of(text).kind for text in found.rest]
            self.assertEqual((len(found.blocks) > 1, kinds[0], kinds[-1] in ("ok", "findings")), (True, "forward", True), name)
            for block in found.blocks:
                self.assertEqual([line.kind for line in lines_of(block.answer)], ["ok", "load"])


if __name__ == "__main__":
    unittest.main()
