"""Plans from DBC, ARXML, KCD and SYM files: what comes of signals, their values, texts, remarks and periods."""

import contextlib
import io
import itertools
import tomllib
import unittest
from types import SimpleNamespace
from typing import Any

from j39plan import program
from j39plan.dbc import to_plan
from j39plan.dbc.merge import Network
from j39plan.dbc.signals import Signals as PlannedSignals
from j39plan.left_out import Notes
from tests.dbc_files import FROM_0, FROM_15, NODES, WithDbc, message
from tests.support import InFolder, needs, run

# Signals with tables of values: of states, of a switch, of states in another order, and of one that has only values.
STATES = NODES + message(
    FROM_0, "EEC1", "ENGINE", 'LAMP : 0|3@1+ (1,0) [0|0] "" RETARDER', 'GEAR : 8|8@1+ (1,0) [0|0] "" RETARDER',
    'SWITCH : 4|2@1+ (1,0) [0|0] "" RETARDER', 'TURNED : 16|3@1+ (1,0) [0|0] "" RETARDER', 'OPEN : 24|4@1+ (1,0) [0|0] "" RETARDER',
) + "".join(f"VAL_ {FROM_0 | 1 << 31} {values} ;\n" for values in (
    'LAMP 0 "Off" 1 "On" 6 "Error" 7 "Not available"', 'GEAR 0 "Park" 1 "Drive" 254 "Error indicator" 255 "Take no action"',
    'SWITCH 0 "Off" 2 "Error" 3 "Not available"', 'TURNED 6 "Not available" 7 "Error"', 'OPEN 14 "Fourteen" 15 "Not available"',
))


@needs("canmatrix", "python3-canmatrix")
class Signals(WithDbc):
    def test_exact_factors(self) -> None:
        signals = self.signals()
        self.assertEqual(signals["SPN190"], {"label": "SPN190", "byte": 4, "bits": 16, "kind": "measured", "per": 8, "unit": "rpm"})
        self.assertEqual(signals["SPN512"]["offset"], -125)
        self.assertEqual(signals["SPN110"], {"label": "SPN110", "byte": 1, "bits": 8, "kind": "measured", "offset": -40,
                                             "unit": "degC"})
        self.assertEqual([signals["SPN175"][key] for key in ("offset", "per", "unit")], [-8736, 32, "degC"])
        self.assertEqual(signals["SIGNED"], {"label": "SIGNED", "byte": 4, "bits": 8, "kind": "signed"})
        self.assertEqual((signals["SPN4154"]["kind"], signals["SPN4154"]["bit"]), ("raw", 5))

    def test_the_earlier_version(self) -> None:
        """It has fractions in the units of measurement, and neither signed signals nor states; version 3 has no names of values, and of
        messages of several lengths the first one's."""
        plan, said = self.plan("--version", "2")
        signals = {signal["label"]: signal for group in plan["group"] for signal in group.get("signal", [])}
        newer, older = self.plan("--version", "4", "--identity")[0], self.plan("--version", "3")[0]
        self.assertEqual((plan["version"], older["version"], newer), (2, 3, self.plan("--identity")[0]))
        named = [signal for group in newer["group"] for signal in group.get("signal", []) if signal.pop("values", None)]
        self.assertEqual([signal["label"] for signal in named], ["SPN695", "SPN897"])
        self.assertEqual([(group["label"], group["length"]) for group in older["group"] if group["label"] == "ET1"], [("ET1", 8)])
        older["group"][1] |= {"length": 7, "most": 8}
        self.assertEqual([older[key] for key in ("unit", "group", "flow")], [newer[key] for key in ("unit", "group", "flow")])
        self.assertEqual(signals["SPN190"], {"label": "SPN190", "byte": 4, "bits": 16, "kind": "measured", "unit": "1/8 rpm"})
        self.assertEqual((signals["SPN175"]["offset"], signals["SPN175"]["unit"]), (-8736, "1/32 degC"))
        self.assertIn("signal SIGNED of ODD: left out: it is signed", said)
        states, _ = self.plan("--version", "2", data=STATES)
        self.assertEqual({signal["kind"] for signal in states["group"][0]["signal"]}, {"raw", "discrete"})

    def test_needs(self) -> None:
        """Of each unit and group one, where the unit receives a signal of it from another one; none in an earlier version."""
        plan, said = self.plan()
        needs = [("RETARDER", "EEC1"), ("RETARDER", "ET1"), ("ENGINE", "TSC1"), ("RETARDER", "ODD"), ("RETARDER", "MAKER"), ("ENGINE", "EEC1")]
        self.assertEqual([(need.pop("unit"), need.pop("group"), need) for need in plan["need"]], [(*need, {}) for need in needs])
        self.assertEqual(said[-1], "2 units 5 groups 7 flows 6 needs, notes 12")
        for words in (("--no-needs",), ("--version", "3"), ("--version", "2")):
            less, said = self.plan(*words)
            self.assertEqual(("need" in less, "needs" in said[-1]), (False, False), words)

    def test_a_need_that_nothing_meets(self) -> None:
        """Nobody sends it, or it goes to somebody else: that is said, and check finds it. What only its receiver sends is no need."""
        signal = 'S : 0|8@1+ (1,0) [0|0] "" {}'
        for identifier, sender, receiver, unmet in (
            (FROM_0 | 0xFE, "Vector__XXX", "RETARDER", True), (FROM_0, "ENGINE", "RETARDER", False), (0x0C000F00, "ENGINE", "RETARDER", False),
            (FROM_0, "ENGINE", "ENGINE", None), (0x0C000F00, "ENGINE", "ENGINE", None),
        ):
            data = NODES + 'BA_ "NmStationAddress" BU_ ENGINE 0;\n' + message(identifier, "G", sender, signal.format(receiver))
            plan, said = self.plan(data=data)
            self.assertEqual(plan.get("need", []), [] if unmet is None else [{"unit": receiver, "group": "G"}], (identifier, sender))
            told = f"need of G by {receiver}: no unit of the plan sends it there"
            self.assertEqual((told in said, "F19 NeedUnmet 1\n" in program.call(["check", self.path("plan.toml")])[1]), (bool(unmet), bool(unmet)))

    def test_what_is_left_out_of_a_group_of_a_maker(self) -> None:
        _, said = self.plan(data=NODES + message(FROM_0, "EEC1", "ENGINE") + message(0x18FF1000, "ONE", "ENGINE") + (
            message(0x18FF1000, "TWO", "ENGINE", length=7) + message(0x18FF11FE, "THREE", "Vector__XXX")))
        self.assertIn("group TWO: left out: ONE has the same PGN 65296 from the same unit to the same receiver, and is another group", said)
        self.assertIn("group THREE: left out: PGN 65297 is proprietary, and no unit in the plan sends it to another one", said)

    def test_a_version_that_there_is_not(self) -> None:
        for version in ("1", "5", "x"):
            status, plan, said = self.made("--version", version)
            self.assertEqual((status, plan), (2, ""), said)
        self.assertRegex(run("dbc2plan.py", "--version")[1], r"\Adbc2plan \(j39plan\) [\d.]+\n\Z")

    def test_signed_signals(self) -> None:
        """Each raw number of two bits and more is a value; one bit has no room for a sign."""
        signals = self.signals(data=NODES + message(
            FROM_0, "EEC1", "ENGINE", 'BIT : 0|1@1- (1,0) [0|0] "" RETARDER', 'TWO : 1|2@1- (0.5,-1) [0|0] "A" RETARDER',
            'ALL : 8|32@1- (1E-07,0) [0|0] "deg" RETARDER', 'BEYOND : 40|16@1- (1E-08,0) [0|0] "deg" RETARDER'))
        self.assertEqual([signal["kind"] for signal in signals.values()], ["raw", "signed", "signed", "signed"])
        self.assertEqual(signals["TWO"], {"label": "TWO", "byte": 1, "bit": 2, "bits": 2, "kind": "signed", "per": 2, "offset": -2,
                                          "unit": "A"})
        self.assertEqual((signals["ALL"]["per"], signals["ALL"]["unit"]), (10_000_000, "deg"))
        self.assertNotIn("per", signals["BEYOND"])
        self.assertEqual(signals["BEYOND"]["unit"], "1/100000000 deg")
        log = self.write("drive.log", "0CF00400#04FFFFFFFF0000FF\n")
        answer = program.call(["read", self.path("plan.toml"), log])[1]
        self.assertIn("  TWO value -2 A\n  ALL value -0.0000001 deg\n", answer)

    def test_states_by_tables_of_values(self) -> None:
        kinds = {label: signal["kind"] for label, signal in self.signals(data=STATES).items()}
        self.assertEqual(kinds, {"LAMP": "states", "GEAR": "states", "SWITCH": "discrete", "TURNED": "raw", "OPEN": "raw"})
        log = self.write("drive.log", "0CF00400#37FEFFFFFFFFFFFF\n")
        answer = program.call(["read", self.path("plan.toml"), log])[1]
        self.assertIn("  LAMP absent\n  GEAR fault 254\n", answer)

    def test_kinds_by_tables_of_values(self) -> None:
        kinds = [(label, signal["kind"]) for label, signal in self.signals("--group", "TSC1").items()]
        self.assertEqual(kinds, [("SPN695", "discrete"), ("SPN897", "raw"), ("SPN518", "measured")])

    def test_a_selector_is_a_signal(self) -> None:
        """In a version whose groups aren't told by their data."""
        plan, said = self.plan("--version", "3", data=NODES + message(
            FROM_0, "EEC1", "ENGINE", 'PAGE M : 0|8@1+ (1,0) [0|0] "" RETARDER', 'FIRST m0 : 8|8@1+ (1,0) [0|0] "" RETARDER',
            'SECOND m1M : 8|8@1+ (1,0) [0|0] "" RETARDER'))
        self.assertEqual(plan["group"][0]["signal"], [{"label": "PAGE", "byte": 1, "bits": 8, "kind": "raw"}])
        for name in ("FIRST", "SECOND"):
            self.assertIn(f"signal {name} of EEC1: left out: it is multiplexed", said)

    def test_places_that_a_group_does_not_have(self) -> None:
        data = NODES + message(
            FROM_0, "EEC1", "ENGINE", 'FIRST : 0|16@1+ (1,0) [0|0] "" RETARDER', 'OVER : 14|2@1+ (1,0) [0|0] "" RETARDER',
            'NEXT : 16|8@1+ (1,0) [0|0] "" RETARDER', 'BEHIND : 56|16@1+ (1,0) [0|0] "" RETARDER',
            'LAST : 63|1@1+ (1,0) [0|0] "" RETARDER')
        places = ("signal OVER of EEC1: left out: it overlaps FIRST", "signal BEHIND of EEC1: left out: it lies outside of the 8 bytes")
        plan, said = self.plan(data=data)
        self.assertEqual([signal["label"] for signal in plan["group"][0]["signal"]], ["FIRST", "NEXT", "LAST"])
        self.assertEqual([line for line in said if line.startswith("signal ")], list(places))
        plan, said = self.plan("--strict", data=data)
        labels = [signal["label"] for signal in plan["group"][0]["signal"]]
        self.assertEqual(labels, ["FIRST", "OVER", "NEXT", "BEHIND", "LAST"])
        kept = [*(place.replace("left out: ", "") for place in places), "signal LAST of EEC1: it overlaps BEHIND"]
        self.assertEqual([line for line in said if line.startswith("signal ")], [f"{line}, and is kept" for line in kept])

    def test_numbers_of_any_size(self) -> None:
        for factor, offset, why in (
            ("1E999999", "0", "factor 1E+999999 is no step of 1 to 1000000"),
            ("0", "0", "factor 0 is no step of 1 to 1000000"),
            ("1E-999999", "0", "factor 1E-999999 is no step of 1 to 1000000"),
            ("1", "1E13", "offset 1E+13 is above 10^12"),
            ("1E-40", "0", f"its step, 1/1{40 * '0'} of its unit, has more than 32 characters"),
        ):
            signal = f'SPN1 : 0|1@1+ ({factor},{offset}) [0|0] "" RETARDER'
            _, said = self.plan(data=NODES + message(FROM_0, "EEC1", "ENGINE", signal))
            self.assertIn(f"signal SPN1 of EEC1: left out: {why}", said)
        _, said = self.plan(data=NODES + message(FROM_0, "EEC1", "ENGINE", 'SPN1 : 0|0@1+ (1,0) [0|0] "" RETARDER'))
        self.assertIn("signal SPN1 of EEC1: left out: it has no bits", said)

    def test_units_of_measurement(self) -> None:
        for spelled, written in (("°C", "degC"), ("日本", "??"), ("\\m³", "\\m3"), ("k" * 40, "k" * 32), ("µg\tl", "ug l")):
            signal = f'SPN1 : 0|8@1+ (1,0) [0|0] "{spelled}" RETARDER'
            plan, said = self.plan(data=(NODES + message(FROM_0, "EEC1", "ENGINE", signal)).encode())
            self.assertEqual(plan["group"][0]["signal"][0]["unit"], written)
            told = [f"signal SPN1 of EEC1: its unit {spelled!r} is written {written!r}"] if spelled[0] in "日k" else []
            self.assertEqual([line for line in said if line.startswith("signal ")], told)


class Periods(InFolder):
    """Cycle times of frames as canmatrix hands them out, as periods of flows."""

    identifiers = itertools.count()

    def plan(self, *frames: Any, version: int = 3) -> tuple[list[Any], list[str], list[str]]:
        """The flows with their periods, the remarks of the flows and what is said, of frames of one PGN from one node."""
        ecu = SimpleNamespace(name="A", attributes={"NmStationAddress": "5", "NmJ1939IdentityNumber": "7"}, comment=None)
        ecu.attribute = lambda name, _: ecu.attributes.get(name)
        matrix = SimpleNamespace(ecus=[ecu], frames=[self.frame(*times) for times in frames], frame_defines={}, attribute=lambda _: None)
        said = io.StringIO()
        with contextlib.redirect_stderr(said):
            network = Network(Notes())
            network.add(matrix)
            plan = to_plan.Conversion(network, network.notes, version=version)
            plan.add_units()
            plan.add_frames(network.sent)
        flows = [flow.finished() for flow in plan.flows.values()]
        return [flow.keys.get("period") for flow in flows], [told for flow in flows for told in flow.remarks], said.getvalue().splitlines()

    def frame(self, cycle_time: int, *signals: Any) -> SimpleNamespace:
        """A frame of this cycle time, 0 for none, and of signals with theirs."""
        ident = SimpleNamespace(id=next(self.identifiers), extended=True, pgn=61444, j1939_priority=3, j1939_pdu_format=2, j1939_ps=4, j1939_source=5)
        parts = [field(f"S{number}", 8 * number, 8, False) for number in range(len(signals))]
        for part, cycle in zip(parts, signals):
            part.cycle_time = cycle
        return SimpleNamespace(name="EEC1", arbitration_id=ident, size=8, transmitters=["A"], cycle_time=cycle_time, signals=parts,
                               is_fd=False, attributes={}, comment=None)

    def test_periods(self) -> None:
        """The frame's own, else what divides those of its signals."""
        for times, period in (((20,), 20), ((0,), None), ((0, 100, 0), 100), ((0, 20, 30), 10), ((50, 10, 20), 50), ((65535,), 65535),
                              ((1,), 1)):
            self.assertEqual(self.plan(times), ([period], [], []), times)

    def test_what_is_no_period(self) -> None:
        for time in (65536, -1):
            self.assertEqual(self.plan((time,)), ([None], [f"{time} ms"], [f"group EEC1: its cycle time of {time} ms is no period of 1 to 65535 ms"]))

    def test_two_frames_of_one_flow(self) -> None:
        said = ["flow of EEC1 from A to all: its cycle times are 50 and 20 ms: the lesser one is its period"]
        self.assertEqual(self.plan((50,), (20,)), ([20], [], said))
        self.assertEqual(self.plan((0,), (20,)), ([20], [], []))
        self.assertEqual(self.plan((20,), (0,)), ([20], [], []))

    def test_the_earlier_version(self) -> None:
        """It has them as remarks."""
        self.assertEqual(self.plan((20,), version=2), ([None], ["20 ms"], []))


def field(name: str, start: int, size: int, is_text: bool = True) -> SimpleNamespace:
    """A signal as canmatrix hands it out: text of a SYM file, which a DBC file can't say, or a number."""
    return SimpleNamespace(
        name=name, size=size, is_ascii=is_text, is_signed=False, is_float=False, is_little_endian=True, factor=1, offset=0, unit="",
        multiplex=None, mux_val=None, mux_val_grp=[], is_multiplexer=False, values={}, attributes={}, comment=None, cycle_time=0,
        start_bit=start, get_startbit=lambda **_: start, receivers=[], min=0, max=0)


class Texts(InFolder):
    def tables(self, frame: Any, version: int) -> list[Any]:
        """The tables of a frame's signals."""
        signals = PlannedSignals(range(frame.size, frame.size + 1), Notes(), False, version)
        signals.take(frame, frame.name)
        return signals.tables(lambda _: [])

    def test_texts(self) -> None:
        """Of whole bytes, where the plan's version has them; one may lie over a signal."""
        frame = SimpleNamespace(name="VI", size=8, signals=[
            field("COUNT", 0, 8, False), field("NAME", 8, 56), field("OVER", 0, 16), field("ODD", 0, 12), field("FAR", 56, 16)])
        said = io.StringIO()
        with contextlib.redirect_stderr(said):
            (count, name, over), older = (self.tables(frame, version) for version in (3, 2))
        self.assertEqual((count.header, count.keys["label"]), ("group.signal", "COUNT"))
        self.assertEqual((name.header, name.keys), ("group.text", {"label": "NAME", "byte": 2, "bytes": 7}))
        self.assertEqual((over.header, over.keys), ("group.text", {"label": "OVER", "byte": 1, "bytes": 2}))
        self.assertEqual([table.keys["label"] for table in older], ["COUNT"])
        for line in ("signal ODD of VI: left out: it is text, and not of whole bytes", "signal FAR of VI: left out: it lies outside of the 8 bytes"):
            self.assertIn(line, said.getvalue().splitlines())


@needs("canmatrix", "python3-canmatrix")
class Remarks(WithDbc):
    """What a plan has no key for stands behind the labels."""

    def test_what_a_file_says_beside(self) -> None:
        number = FROM_0 | 1 << 31
        text, _ = self.text(data=NODES + message(FROM_0, "EEC1", "ENGINE", 'SPN190 : 24|16@1+ (0.125,0) [0|0] "rpm" RETARDER',
                                                'STATE : 0|2@1+ (1,0) [0|0] "" RETARDER') + (
            f'CM_ BU_ ENGINE "Diesel engine";\nCM_ BO_ {number} "Electronic engine\n  controller 1 # \u00fc";\n'
            f'CM_ SG_ {number} SPN190 "Actual engine speed";\nBA_DEF_ BO_ "GenMsgCycleTime" INT 0 65535;\n'
            f'BA_DEF_ SG_ "SPN" INT 0 524287;\nBA_DEF_ SG_ "GenSigCycleTime" INT 0 65535;\nBA_ "GenMsgCycleTime" BO_ {number} 20;\n'
            f'BA_ "SPN" SG_ {number} SPN190 190;\nBA_ "GenSigCycleTime" SG_ {number} SPN190 10;\n'
            f'VAL_ {number} STATE 1 "on" 0 "switched off" 3 "not available" ;\n'))
        for line in (
            'label = "ENGINE"  # "Diesel engine"',
            'label = "EEC1"  # "Electronic engine controller 1 # \u00fc"',
            "period = 20",
            'label = "SPN190"  # 10 ms, "Actual engine speed"',
            "spn = 190",
            'label = "STATE"  # 0 = "switched off", 3 = "not available"',
            'values = { 0 = "switched_off", 1 = "on" }',
            'label = "RETARDER"',
        ):
            self.assertIn(line, text.splitlines())

    def test_names_of_signed_numbers(self) -> None:
        """A plan has them as the bits do; what no bits have stands beside, and is said."""
        number = FROM_0 | 1 << 31
        text, said = self.text(data=NODES + message(FROM_0, "EEC1", "ENGINE", 'GEAR : 24|4@1- (1,0) [0|0] "" RETARDER') + (
            f'VAL_ {number} GEAR -1 "reverse" 0 "neutral" 16 "none" ;\n'))
        self.assertIn('label = "GEAR"  # -1 = "reverse", 16 = "none"', text.splitlines())
        self.assertIn('values = { 0 = "neutral", 15 = "reverse" }', text.splitlines())
        self.assertIn("16 of its table of values is no number of its 4 bits: it stands in the comment", " ".join(said))

    def test_names_that_are_no_labels(self) -> None:
        long = "Engine_Requested_Torque_Torque_Limit"
        text, _ = self.text(data=NODES + message(FROM_0, long + "_1", "ENGINE", f'{long} : 24|16@1+ (1,0) [0|0] "" RETARDER',
                                                 f'{long}_2 : 40|8@1+ (1,0) [0|0] "" RETARDER'))
        labels = {f"{long}_1": long[:32], long: long[:32], f"{long}_2": long[:30] + "_2"}
        for line in (f'label = "{label}"  # {name}' for name, label in labels.items()):
            self.assertIn(line, text.splitlines())

    def test_long_names(self) -> None:
        """A DBC has a name of more than 32 characters as an attribute, beside a shorter one by which all else calls the thing."""
        number = FROM_0 | 1 << 31
        text, said = self.text(data=NODES + message(FROM_0, "EEC1", "ENGINE", 'SPEED : 24|16@1+ (1,0) [0|0] "" RETARDER') + (
            'BA_DEF_ BU_ "SystemNodeLongSymbol" STRING ;\nBA_DEF_ BO_ "SystemMessageLongSymbol" STRING ;\n'
            'BA_DEF_ SG_ "SystemSignalLongSymbol" STRING ;\nBA_ "SystemNodeLongSymbol" BU_ ENGINE "The engine";\n'
            f'BA_ "SystemMessageLongSymbol" BO_ {number} "Controller 1";\n'
            f'BA_ "SystemSignalLongSymbol" SG_ {number} SPEED "Actual speed";\n'))
        for line in ('"ENGINE"  # The engine', '"Controller_1"  # Controller 1', '"Actual_speed"  # Actual speed'):
            self.assertIn(f"label = {line}", text.splitlines())
        self.assertEqual(said[-1], "2 units 1 groups 1 flows 1 needs, notes 1")

    def test_a_plan_that_is_too_long(self) -> None:
        """The program takes a file of at most 16 MiB."""
        data = NODES + message(FROM_0, "EEC1", "ENGINE") + f'CM_ BO_ {FROM_0 | 1 << 31} "{"long " * 3_400_000}";\n'
        status, plan, said = self.made(data=data)
        self.assertEqual((status, plan), (2, ""))
        self.assertTrue(said[-1].endswith(": its plan has more than 16777216 bytes: choose groups by --sender or --group"), said)

    def test_frames_that_are_of_one_group(self) -> None:
        text, _ = self.text(data=NODES + message(FROM_0, "EEC1", "ENGINE") + message(FROM_15, "AGAIN", "RETARDER") + (
            f'BA_DEF_ BO_ "GenMsgCycleTime" INT 0 65535;\nBA_ "GenMsgCycleTime" BO_ {FROM_0 | 1 << 31} 20;\n'
            f'BA_ "GenMsgCycleTime" BO_ {FROM_15 | 1 << 31} 50;\n'))
        self.assertIn('group = "EEC1"  # message AGAIN', text.splitlines())
        flows = [(flow["from"], flow["period"]) for flow in tomllib.loads(text)["flow"]]
        self.assertEqual(flows, [("ENGINE", 20), ("RETARDER", 50)])


if __name__ == "__main__":
    unittest.main()
