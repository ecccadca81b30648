"""What `where --lint` says of a plan, and which units may have one NAME."""

import re
import unittest

from j39plan.cli import where
from j39plan.plan.hints.lint import Lint as LintOf
from j39plan.plan.hints.names import NAMES
from j39plan.plan.parts import Source
from tests.support import InFolder, answered, plans, signal

UNIT = '[[unit]]\nlabel = "{}"\naddress = {}\nname = {{ identity = {} }}\n'

# A plan with each hint once, and what is as it should be beside it.
LINTED = """version = 2
keep_free = [201]
[[unit]]
label = "A"
address = 0
name = { identity = 7, manufacturer = 1 }
[[unit]]
label = "B"
address = 200
[unit.name]
identity = 8
[[unit]]
label = "C"
address = 201
name = { identity = 9 }
[[unit]]
label = "IDLE"
address = 202
[unit.name]
manufacturer = 2
identity = 7
arbitrary = true
[[group]]
label = "ET1"
pgn = 65262
priority = 2
length = 8
[[group]]
label = "SHORT"
pgn = 65263
priority = 6
length = 7
[[group]]
label = "UNSENT"
pgn = 65264
priority = 3
length = 8
[[group]]
label = "TSC1"
pgn = 0
priority = 2
length = 8
[[flow]]
group = "ET1"
from = "A"
to = "all"
[[flow]]
group = "SHORT"
from = "B"
to = "all"
[[flow]]
group = "TSC1"
from = "C"
to = "A"
"""

HINTS = [
    "9: hint unit B: it may not choose, and its address 200 is one of 128..247, which others may choose",
    "17: hint unit IDLE: no flow is from it or to it alone",
    "21: hint unit IDLE: the identity of A, which has another maker, at line 6",
    "26: hint group ET1: priority 2, and it goes to all; groups that inform have 6 by default",
    "32: hint group SHORT: 7 bytes; a group of one frame has 8, unused ones filled with ones",
    "34: hint group UNSENT: no flow sends it",
]

MAKERS = [f"{line}: hint unit {label}: its NAME has no manufacturer, and no maker has the number 0" for line, label in ((10, "B"), (15, "C"))]

# That a plan of version 4 could be live.
MAY_BE_LIVE = "1: hint live = true adds no finding: then what check promises holds while units claim, and go off in mid-message"


class SerialNumbers(InFolder):
    def told(self, *names: str, version: int = 4) -> list[str]:
        """What `where` says of two units of these NAMEs."""
        text = f"version = {version}\n" + "".join(f'[[unit]]\nlabel = "{label}"\naddress = {at}\nname = {{ {name} }}\n'
                                                  for label, at, name in zip("AB", (0, 3), names))
        name = self.write("plan.toml", text)
        return answered(where.main, name)[1].replace(f"{name}:", "").splitlines()

    def test_units_that_may_have_one_name(self) -> None:
        """Both, or one of them, without a number: at most the serial numbers of their boxes tell them apart."""
        for why, first, second in (("nothing in the plan distinguishes", "manufacturer = 1", "manufacturer = 1"),
                                   ("only serial numbers distinguish", "manufacturer = 1", "identity = 7, manufacturer = 1"),
                                   ("only serial numbers distinguish", "identity = 0, manufacturer = 1", "manufacturer = 1")):
            self.assertEqual(self.told(first, second), [
                f"9: F1 SameName A B  ({why} A at line 5 from B: give them different function_instance or ecu; or both their numbers: then the "
                "plan fits one vehicle)", "findings 1"])
        self.assertEqual(self.told("identity = 7", "identity = 7"), ["9: F1 SameName A B  (key name: the same as of A at line 5)", "findings 1"])
        for names in (("identity = 7", "identity = 8"), ("function = 1", "function = 2"), ("", "identity = 7, ecu = 1")):
            self.assertEqual(self.told(*names), ["ok 2 units 0 groups 0 flows"])

    def test_earlier_versions_ask_for_a_number(self) -> None:
        for version in (1, 2, 3):
            self.assertEqual(self.told("manufacturer = 1", "identity = 2", version=version), [
                "5: refused Missing unit 1 name key identity  (key identity isn't there: integer 0..2097151; from version = 4 on it may be left away)"])


class Lint(InFolder):
    def lines(self, text: str, *words: str) -> tuple[int, list[str]]:
        """What `where --lint -maker` answers of a plan, without the file's name and the names of hints, and its status."""
        status, lines = self.named(text, "-maker", *words)
        return status, [line if re.search(r": F\d", line) else re.sub(r"  \([a-z]+\)$", "", line) for line in lines]

    def named(self, text: str, *words: str) -> tuple[int, list[str]]:
        """What `where --lint` answers of a plan, without the file's name, and its status."""
        name = self.write("plan.toml", text)
        status, answer, said = answered(where.main, "--lint", *words, name)
        self.assertEqual(said, "")
        return status, answer.replace(f"{name}:", "").replace(f"file={name},", "").splitlines()

    def test_names(self) -> None:
        """Each hint has one, by which it is silenced on the command line, by a comment on a line of its own, or at its line by one behind it."""
        names = ["pool", "maker", "maker", "idle", "identity", "urgent", "short", "unsent"]
        lines = self.named(LINTED)[1]
        self.assertEqual([line.rpartition("  (")[2].rstrip(")") for line in lines[:-1]], names)
        self.assertLessEqual({*names, "lint"}, {*NAMES})
        self.assertEqual(self.named(LINTED, "-maker", "-idle", "-pool")[1], [lines[at] for at in (4, 5, 6, 7, 8)])
        silent = LINTED.replace("version = 2\n", "version = 2\n# lint: maker, idle urgent\n").replace("length = 7", "length = 7 # lint: short")
        self.assertEqual([line.rpartition("  (")[2].rstrip(")") for line in self.named(silent)[1][:-1]], ["pool", "identity", "unsent"])
        elsewhere = LINTED.replace("length = 8", "length = 8 # lint: short", 1)
        self.assertEqual(self.named(elsewhere)[1], lines)
        self.assertIn("26: hint lint: no hint is called shrt; did you mean short?  (lint)", self.named(LINTED.replace("priority = 2", "priority = 2 # lint: shrt", 1))[1])

    def test_a_name_that_no_hint_has(self) -> None:
        name = self.write("plan.toml", LINTED)
        status, answer, said = answered(where.main, "--lint", "-shrt", name)
        self.assertEqual((status, answer, said.partition(": ")[2]), (2, "", "no hint is called shrt; did you mean short?\n"))

    def test_each_name_has_its_hints(self) -> None:
        source = Source(LINTED.replace("[[group]]", '[[choice]]\nof = ["X", "Y"]\n[[group]]', 1))
        self.assertEqual({*LintOf(source).found(), "lint"}, {*NAMES})

    def test_units_without_numbers_are_not_compared_by_them(self) -> None:
        status, lines = self.lines(re.sub(r"version = \d", "version = 4", LINTED, count=1).replace("identity = 7, ", ""))
        self.assertEqual((status, lines), (0, [*(hint for hint in HINTS if "identity" not in hint), "ok 4 units 4 groups 3 flows"]))

    def test_each_hint(self) -> None:
        self.assertEqual(self.lines(LINTED), (0, [*HINTS, "ok 4 units 4 groups 3 flows"]))

    def test_hints_at_answers(self) -> None:
        """A flow that is sent only as an answer, and that nobody asks for; a unit that asks isn't idle."""
        flow = '[[flow]]\ngroup = "UNSENT"\nfrom = "A"\nto = "all"\non_request = true\n'
        request = '[[request]]\ngroup = "UNSENT"\nfrom = "IDLE"\nto = "A"\n'
        plan = LINTED.replace("version = 2", "version = 4") + flow
        hint = f"{plan.count(chr(10))}: hint flow 4, UNSENT from A to all: it is sent only as an answer, and no request of the plan asks for it"
        self.assertEqual(self.lines(plan)[1], [*HINTS[:5], hint, "ok 4 units 4 groups 4 flows"])
        self.assertEqual(self.lines(plan + request)[1], [HINTS[0], *HINTS[2:5], "ok 4 units 4 groups 4 flows"])

    def test_a_plan_that_may_be_live(self) -> None:
        """One of version 4 that has no further finding if it is live, where that is asked for; not one that is live, nor where F28 would be, nor without
        flows."""
        plan = LINTED.replace("version = 2", "version = 4")
        self.assertEqual((self.lines(plan, "+live")[1][0], MAY_BE_LIVE in self.lines(plan)[1]), (MAY_BE_LIVE, False))
        self.assertEqual(self.lines(plan.replace("version = 4", "version = 4 # the last\nlive = false"), "+live")[1][0], MAY_BE_LIVE)
        beside = plan.replace("address = 202", "address = 0")
        for other in (LINTED, plan.replace("version = 4", "version = 4\nlive = true"), beside, plan.partition("[[flow]]")[0]):
            self.assertNotIn("hint live", "".join(self.lines(other, "+live")[1]))

    def test_claims_of_a_live_bus_count(self) -> None:
        """A frame of 640 us behind one that has begun is within 1,280 us. On a live bus claims of both units go before it too: with 2 ms it is late
        there alone, with 9 ms, some 14 frames, it isn't."""
        plan = "version = 4\ntiming = { bitrate = 250000, unplanned = 0 }\n" + UNIT.format("A", 0, 1) + UNIT.format("B", 3, 2) + (
            '[[group]]\nlabel = "ET1"\npgn = 65262\npriority = 6\nlength = 8\n[[flow]]\ngroup = "ET1"\nfrom = "A"\nto = "all"\nperiod = 100\ndeadline = 2\n')
        self.assertEqual((self.lines(plan)[0], "hint live = true" in "".join(self.lines(plan, "+live")[1])), (0, False))
        self.assertIn("hint live = true", "".join(self.lines(plan.replace("deadline = 2", "deadline = 9"), "+live")[1]))

    def test_an_answer_to_its_receiver(self) -> None:
        """A flow that answers a request of the unit that it goes to isn't unused."""
        plan = LINTED.replace("version = 2", "version = 4") + '[[need]]\nunit = "B"\ngroup = "ET1"\n'
        hint = "54: hint flow 3, TSC1 from C to A: no need of A takes it"
        self.assertIn(hint, self.lines(plan)[1])
        self.assertNotIn(hint, self.lines(plan + '[[request]]\ngroup = "TSC1"\nfrom = "A"\nto = "C"\n')[1])

    def test_what_may_be_left_out(self) -> None:
        """A scale without a unit of measurement, room for one trouble code alone, and an address that SAE J1939 gives to another function."""
        head = 'version = 4\n[[unit]]\nlabel = "BODY"\naddress = {}\nname = {{ function = {} }}\n'
        group = '[[group]]\nlabel = "DM1"\npgn = {}\npriority = 6\nlength = 8\n{}'
        scaled = signal("TEMP", 1, 8, "measured", "offset = -40\n")
        codes = "10: hint group DM1: DM1 has four bytes a trouble code, and 8 hold one: several want most and every = 4  (codes)"
        at = "4: hint unit BODY: 51 is the address of function 38 by SAE J1939, and its function 26 has 33"
        for plan, line, is_told in (
            (head.format(51, 26), f"{at}  (address)", True), (head.format("0x33", 26), f"{at}; 0x33 is 51: write 33  (address)", True),
            (head.format(33, 26), "address)", False), (head.format(51, 38), "address)", False), (head.format(60, 26), "address)", False),
            (head.format(33, 26) + group.format(65226, ""), codes, True), (head.format(33, 26) + group.format(65226, "most = 64\n"), "codes)", False),
            (head.format(33, 26) + group.format(65262, scaled), "16: hint signal DM1.TEMP: a scale, and no unit of measurement  (measure)", True),
            (head.format(33, 26) + group.format(65262, scaled + 'unit = "degC"\n'), "measure)", False),
        ):
            lines = self.named(plan)[1]
            self.assertEqual(line in lines if is_told else any(line in other for other in lines), is_told, lines)
        self.assertEqual([line for line in self.named(LINTED)[1] if "maker" in line and "manufacturer" in line], [f"{line}  (maker)" for line in MAKERS])

    def test_units_that_prefer_one_address(self) -> None:
        """Of two that may choose one moves; beside a fixed one the other does, in whichever order they stand."""
        def hinted(*units: tuple[str, int, bool]) -> list[str]:
            lines = [UNIT.format(label, address, 1 + number).replace(" }", ", arbitrary = true }" if chooses else " }")
                     for number, (label, address, chooses) in enumerate(units)]
            return [line for line in self.lines("version = 1\n" + "".join(lines))[1] if "prefer" in line]

        self.assertEqual(hinted(("A", 130, True), ("B", 130, True), ("C", 131, True)), [
            "8: hint unit B: it prefers 130, as A at line 4 does: one of them moves whenever both are there"])
        self.assertEqual(hinted(("A", 130, True), ("B", 130, True), ("C", 130, True)), [
            "8: hint unit B: it and 1 more prefer 130, as A at line 4 does: all but one move whenever all are there"])
        self.assertEqual(hinted(("A", 130, True), ("B", 130, False), ("C", 130, True)), [
            "4: hint unit A: it and 1 more prefer 130, where B at line 8 is fixed: they move whenever all are there"])
        moves = "{}: hint unit A: it prefers 130, where B at line {} is fixed: it moves whenever both are there"
        self.assertEqual(hinted(("A", 130, True), ("B", 130, False)), [moves.format(4, 8)])
        self.assertEqual(hinted(("B", 130, False), ("A", 130, True)), [moves.format(8, 4)])
        self.assertEqual(hinted(("A", 130, False), ("B", 130, False)), [])

    def test_one_spn_twice(self) -> None:
        """In one group, and with two scales in two groups; with one scale, however it is written, it is as it should be."""
        def hinted(*signals: str, other: str = "") -> list[str]:
            groups = "".join(f'[[group]]\nlabel = "{label}"\npgn = {pgn}\npriority = 6\nlength = 8\n{"".join(inside)}'
                             for label, pgn, inside in (("G", 65262, signals), ("H", 65263, [other])))
            return [line for line in self.lines("version = 4\n" + groups)[1] if ": spn " in line]

        first = signal("S", 1, 16, "measured", 'spn = 190\nper = 8\nunit = "rpm"\n')
        self.assertEqual(hinted(first, signal("T", 3, 16, "measured", "spn = 190\n")), ["20: hint signal G.T: spn 190 is that of S at line 12 too"])
        self.assertEqual(hinted(first, other=signal("T", 3, 16, "measured", 'spn = 190\nper = 4\nunit = "rpm"\n')), [
            "25: hint signal H.T: spn 190 is 1/4 * raw rpm, and 1/8 * raw rpm in G.S at line 12"])
        self.assertEqual(hinted(first, other=signal("T", 3, 16, "measured", 'spn = 190\nunit = "1/8 rpm"\n')),
                         ["25: hint signal H.T: spn 190 is that of G.S at line 12 too"])
        self.assertEqual(hinted(first, other=signal("S", 3, 16, "measured", 'spn = 190\nunit = "1/8 rpm"\n')), [])
        self.assertEqual(hinted(first, signal("T", 3, 16, "measured", "spn = 191\n")), [])

    def test_many_flows_that_no_need_takes(self) -> None:
        """More than three are told in one hint."""
        groups = "".join(f'[[group]]\nlabel = "G{number}"\npgn = {256 * number}\npriority = 6\nlength = 8\n[[flow]]\ngroup = "G{number}"\nfrom = "A"\nto = "B"\n'
                         for number in range(1, 6))
        plan = "version = 4\n" + UNIT.format("A", 0, 1) + UNIT.format("B", 1, 2) + groups + '[[need]]\nunit = "B"\ngroup = "G1"\n'
        told = [line for line in self.lines(plan)[1] if "need" in line]
        self.assertEqual(told, ["27: hint 4 flows go to one unit each, and no need takes them: flows 2, 3, 4, 5"])
        plan += '[[need]]\nunit = "B"\ngroup = "G2"\n'
        self.assertEqual([line for line in self.lines(plan)[1] if "need" in line][0], "36: hint flow 3, G3 from A to B: no need of B takes it")

    def test_hints_at_queues(self) -> None:
        """A unit whose controller keeps no order, and that sends groups of two priorities; of one priority there is no hint."""
        flow = '[[flow]]\ngroup = "SHORT"\nfrom = "A"\nto = "all"\n'
        plan = LINTED.replace("version = 2", "version = 4").replace("address = 0\n", 'address = 0\nqueue = "any"\n', 1) + flow
        hint = "hint unit A: its controller keeps no order, so ET1 of priority 2 may wait behind SHORT of priority 6"
        self.assertIn(hint, "".join(self.lines(plan)[1]))
        for other in (plan.replace('"any"', '"priority"'), plan.replace(flow, "")):
            self.assertNotIn("keeps no order", "".join(self.lines(other)[1]))

    def test_short_messages_of_a_group_of_several_lengths(self) -> None:
        """Those of fewer than 8 bytes go in one frame; where each has 8 or more there is no hint."""
        hint = "32: hint group SHORT: messages of 7 bytes and more; one of one frame has 8, unused ones filled with ones"
        plan = LINTED.replace("version = 2", "version = 3").replace("length = 7\n", "length = 7\nmost = 20\n")
        self.assertIn(hint, self.lines(plan)[1])
        self.assertNotIn("SHORT: ", "".join(self.lines(plan.replace("length = 7", "length = 8"))[1]))

    def test_hints_at_needs(self) -> None:
        """A flow to one unit that doesn't need it, and a need that two units meet; a unit that needs something isn't idle."""
        needs = '[[need]]\nunit = "IDLE"\ngroup = "ET1"\n[[need]]\nunit = "C"\ngroup = "SHORT"\n'
        flow = '[[flow]]\ngroup = "SHORT"\nfrom = "A"\nto = "all"\n'
        hints = self.lines(LINTED.replace("version = 2", "version = 4") + flow + needs)[1]
        self.assertIn("54: hint flow 3, TSC1 from C to A: no need of A takes it", hints)
        self.assertIn("64: hint need 2, SHORT by C: B and A meet it; from says which one is meant", hints)
        self.assertNotIn("unit IDLE: no flow", "".join(hints))
        taken = self.lines(LINTED.replace("version = 2", "version = 4") + flow + needs + 'from = "B"\n[[need]]\nunit = "A"\ngroup = "TSC1"\n')[1]
        self.assertEqual([hint for hint in taken if " need" in hint], [])

    def test_clocks_that_agree(self) -> None:
        """A plan of version 4 with timing whose clocks are taken for exact; not one with a drift, nor one of version 3, nor without timing."""
        plan = LINTED.replace("version = 2", "version = 4\ntiming = { bitrate = 250000, unplanned = 0 }")
        hint = "2: hint drift 0: no two clocks agree for ever"
        for text, told in ((plan, [hint]), (plan.replace("unplanned = 0", "unplanned = 0, drift = 500"), []), (plan.replace("version = 4", "version = 3"), []),
                           (plan.replace("timing =", "#"), [])):
            self.assertEqual([line for line in self.lines(text, "+drift")[1] if "drift" in line], told)
            self.assertFalse([line for line in self.lines(text)[1] if "drift" in line])

    def test_hints_at_broadcasts(self) -> None:
        """Those that take longer than their period, at the gap of the plan; to one unit, and without timing, there are none."""
        plan = LINTED.replace("version = 2", "version = 4\ntiming = { bitrate = 250000, unplanned = 0 }").replace("length = 7", "length = 8\nmost = 140")
        plan = plan.replace('to = "all"\n', 'to = "all"\nperiod = 999\n').replace('to = "A"\n', 'to = "A"\nperiod = 999\n')
        hint = "54: hint flow 2, SHORT from B to all: {} packets {} ms apart take {} ms, more than its period of 999 ms"
        for text, told in (
            (plan, [hint.format(20, 50, 1000)]), (plan.replace("999", "1000"), []), (plan.replace("140", "141"), [hint.format(21, 50, 1050)]),
            (plan.replace("unplanned = 0", "unplanned = 0, broadcast_gap = 10"), []), (plan.replace("140", "8"), []),
            (plan.replace("unplanned = 0", "unplanned = 0, broadcast_gap = 100"), [hint.format(20, 100, 2000)]),
            (plan.replace("timing =", "#"), []), (plan.replace('from = "B"\nto = "all"', 'from = "B"\nto = "A"'), []),
        ):
            lines = self.lines(text)[1]
            self.assertEqual([line for line in lines if "packets" in line], told, lines)

    def test_hints_at_broadcasts_of_one_unit(self) -> None:
        """One for which its period has time, and not for another one of its unit before it; of two units there is none."""
        plan = 'version = 4\ntiming = { bitrate = 250000, unplanned = 0 }\n' + "".join(
            f'[[unit]]\nlabel = "{label}"\naddress = {address}\nname = {{ identity = {address + 1} }}\n' for address, label in enumerate("AB")) + "".join(
            f'[[group]]\nlabel = "{label}"\npgn = {pgn}\npriority = 6\nlength = {length}\n'
            f'[[flow]]\ngroup = "{label}"\nfrom = "A"\nto = "all"\nperiod = {period}\n' for label, pgn, length, period in (("FEW", 65260, 14, 499), ("MANY", 65261, 56, 1000)))
        hint = "20: hint flow 1, FEW from A to all: it takes 100 ms, and MANY, which A may send first, 400 ms: more than its period of 499 ms"
        for text, told in ((plan, [hint]), (plan.replace("499", "500"), []), (plan.replace('from = "A"', 'from = "B"', 1), []), (plan.replace("length = 56", "length = 49"), [])):
            lines = self.lines(text)[1]
            self.assertEqual([line for line in lines if "may send first" in line], told, lines)

    def test_hints_at_single_frames(self) -> None:
        """Where the messages of one frame of flows that have long ones too take more than half of the bus, each of these flows is told."""
        plan = 'version = 4\ntiming = { bitrate = 125000, unplanned = 0 }\n[[unit]]\nlabel = "A"\naddress = 0\nname = { identity = 1 }\n' + "".join(
            f'[[group]]\nlabel = "G{number}"\npgn = {65260 + number}\npriority = 6\nlength = 8\nmost = 9\n'
            f'[[flow]]\ngroup = "G{number}"\nfrom = "A"\nto = "all"\nperiod = {period}\n' for number, period in ((1, 3), (2, 15)))
        hint = "hint flow {}, G{} from A to all: messages of one frame take {} bits a second, those of all such flows 64001 of 125000"
        self.assertEqual([line for line in self.lines(plan)[1] if "one frame take" in line],
                         ["17: " + hint.format(1, 1, 53334), "28: " + hint.format(2, 2, 10667)])
        for other in (plan.replace("125000", "250000"), plan.replace("length = 8", "length = 9"), plan.replace("most = 9\n", ""), plan.replace("period = 15", "period = 18")):
            self.assertEqual([line for line in self.lines(other)[1] if "one frame take" in line], [])

    def test_hints_stand_before_findings_and_leave_the_status(self) -> None:
        status, lines = self.lines(LINTED.replace('to = "A"', 'to = "C"'))
        self.assertEqual((status, lines[:6], lines[-1]), (1, HINTS, "findings 1"))
        self.assertTrue(lines[6].startswith("54: F10 FlowToSelf 3"), lines)

    def test_notices_of_github(self) -> None:
        _, lines = self.lines(LINTED, "--github")
        self.assertEqual(lines[5], "::notice line=34::hint group UNSENT: no flow sends it")

    def test_a_plan_that_is_refused_has_no_hints(self) -> None:
        status, lines = self.lines(LINTED.replace("version = 2", "version = 9"))
        self.assertEqual((status, len(lines)), (2, 1))

    def test_all_examples(self) -> None:
        """Hints come before what is answered without them."""
        hints = 0
        for plan in plans():
            status, answer, _ = answered(where.main, plan)
            linted = answered(where.main, "--lint", plan)
            self.assertEqual((linted[0], linted[1].endswith(answer)), (status, True), plan)
            hints += linted[1].count(": hint ")
        self.assertGreater(hints, 3)


if __name__ == "__main__":
    unittest.main()
