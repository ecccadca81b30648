"""The comparison of two plans: each change by what it means, and what breaks where a unit keeps the old plan."""

import json
import re
import unittest

from tests.support import InFolder, example, run, signal, text_of, there

OLD = """version = 3

[[unit]]
label = "ENGINE"
address = 0
name = { identity = 1, manufacturer = 310 }

[[unit]]
label = "CLUSTER"
address = 23
name = { identity = 2, function = 19 }

[[unit]]
label = "BRAKES"
address = 11
name = { identity = 3, function = 9 }

[[group]]
label = "EEC1"
pgn = 61444
priority = 3
length = 8

[[group.signal]]
label = "SPN190"
byte = 4
bits = 16
kind = "measured"
per = 8
unit = "rpm"

[[group.signal]]
label = "SPN513"
byte = 3
bits = 8
kind = "measured"
offset = -125
unit = "%"

[[group]]
label = "TSC1"
pgn = 0
priority = 3
length = 8

[[flow]]
group = "EEC1"
from = "ENGINE"
to = "all"
period = 10

[[flow]]
group = "TSC1"
from = "BRAKES"
to = "ENGINE"
"""


class Compared(InFolder):
    def compare(self, old: str, new: str, *words: str) -> tuple[int, list[str]]:
        """Compares two plans; status and lines, without the folder."""
        names = self.write("old.toml", old), self.write("new.toml", new)
        status, answer, said = run("compare.py", *words, *names)
        self.assertEqual(said.replace(self.folder + "/", ""), "compare: new.toml: the same plan as old.toml\n" if old == new else "")
        return status, answer.replace(self.folder + "/", "").splitlines()

    def changed(self, *edits: tuple[str, str], old: str = OLD) -> list[str]:
        """What is said of the plan in which each of these texts is another one."""
        new = old
        for before, now in edits:
            self.assertIn(before, new)
            new = new.replace(before, now, 1)
        status, lines = self.compare(old, new)
        *found, last = lines
        broken = [line for line in found if ": breaks: " in line]
        self.assertEqual((last, status), (f"changes {len(found) - len(broken)} breaks {len(broken)}", 1 if broken else 0))
        return found

    def breaks(self, *edits: tuple[str, str], old: str = OLD) -> list[str]:
        """What breaks, without the places."""
        return [line.partition(": breaks: ")[2] for line in self.changed(*edits, old=old) if ": breaks: " in line]


class Changes(Compared):
    def test_the_same(self) -> None:
        for name in ("truck.toml", "tractor_and_implement.toml", "trouble_codes.toml", "axle.toml"):
            text = text_of(example(name))
            self.assertEqual(self.compare(text, text), (0, ["changes 0 breaks 0"]), name)
            self.assertEqual(self.compare(text, f"# The same.\n\n{text}"), (0, ["changes 0 breaks 0"]), name)

    def test_the_same_in_other_words(self) -> None:
        """A fraction in the unit, defaults that are said, another order of keys and numbers otherwise spelled."""
        self.assertEqual(self.changed(
            ('per = 8\nunit = "rpm"', 'unit = "1/8 rpm"'), ("address = 23", "address = 0x17\nwindow = 255"), ("byte = 4\n", "byte = 4\nbit = 1\n"),
            ("pgn = 0\npriority = 3\n", "priority = 3\npgn = 0\n"),
        ), [])

    def test_each_change_has_its_lines(self) -> None:
        self.assertEqual(self.changed(
            ("address = 11", "address = 11\nwindow = 16"), ("priority = 3\nlength = 8\n\n[[group.signal]]", "priority = 2\nlength = 8\n\n[[group.signal]]"),
            ("period = 10", "period = 20\ndeadline = 10"), ("version = 3", "version = 3\nkeep_free = [240]"),
        ), [
            "new.toml:2: plan: keep_free [240], it was none (old.toml:1)",
            "new.toml:17: unit BRAKES: window 16, it was 255 (old.toml:13)",
            "new.toml:23: group EEC1: priority 2, it was 3 (old.toml:21)",
            "new.toml:52: flow EEC1 from ENGINE to all: period 20, it was 10 (old.toml:50)",
            "new.toml:53: flow EEC1 from ENGINE to all: deadline 10, it was none (old.toml:46)",
        ])

    def test_other_names_are_none_that_break(self) -> None:
        """A unit is known by its NAME, a group by its number, a signal by where it lies and what it means."""
        new = OLD.replace("ENGINE", "ECM").replace("EEC1", "F004").replace("SPN190", "Speed")
        self.assertEqual(self.compare(OLD, new), (0, [
            "new.toml:4: unit ECM: it was called ENGINE (old.toml:4)", "new.toml:19: group F004: it was called EEC1 (old.toml:19)",
            "new.toml:25: signal F004.Speed: it was called SPN190 (old.toml:25)", "changes 3 breaks 0",
        ]))

    def test_a_serial_number_that_comes_or_goes(self) -> None:
        """It is a change, and breaks nothing: by it nobody is looked for. A unit that is called otherwise too is known by the rest of its NAME."""
        old = OLD.replace("version = 3", "version = 4")
        new = old.replace("identity = 1, ", "").replace('"ENGINE"', '"ECM"')
        self.assertEqual(self.compare(old, new), (0, [
            "new.toml:4: unit ECM: it was called ENGINE (old.toml:4)", "new.toml:6: unit ECM: name.identity none, it was 1 (old.toml:6)",
            "changes 2 breaks 0"]))
        self.assertEqual(self.compare(new, new.replace("{ manufacturer", "{ identity = 9, manufacturer"))[1],
                         ["new.toml:6: unit ECM: name.identity 9, it was none (old.toml:6)", "changes 1 breaks 0"])

    def test_what_is_new_or_gone(self) -> None:
        more = signal("SPN899", 1, 4, "raw")
        found = self.changed(("[[group]]\nlabel = \"TSC1\"", more + "\n[[group]]\nlabel = \"TSC1\""))
        self.assertEqual(found, ["new.toml:40: signal EEC1.SPN899: new"])
        status, lines = self.compare(OLD + '\n[[group]]\nlabel = "ET1"\npgn = 65262\npriority = 6\nlength = 8\n', OLD)
        self.assertEqual((status, lines), (0, ["old.toml:57: group ET1: gone", "changes 1 breaks 0"]))

    def test_what_the_program_answers(self) -> None:
        """The delays of flows, the load, and who stays where it is."""
        status, lines = self.compare(text_of(example("axle.toml")), text_of(example("axle.toml")).replace("period = 10\n", "period = 20\n", 1))
        self.assertEqual((status, lines), (0, [
            "new.toml:40: flow TSC1 from RETARDER to ENGINE: period 20, it was 10 (old.toml:40)",
            "new.toml:36: flow TSC1 from RETARDER to ENGINE: delay within 1280 of 20000 us, it was within 1280 of 10000 us (old.toml:36)",
            "new.toml:1: bus: load 24160 of 250000, it was 32160 of 250000", "changes 3 breaks 0",
        ]))
        first = text_of(example("first_plan.toml"))
        moving = first.replace("address = 23\nname = { ", "address = 130\nname = { arbitrary = true, ")
        fixed = first.replace("address = 23", "address = 130")
        self.assertIn("new.toml:9: unit CLUSTER: it may move from 130, where it stayed (old.toml:9)", self.compare(
            fixed, moving + '[[unit]]\nlabel = "X"\naddress = 130\nname = { identity = 1 }\n')[1])

    def test_needs(self) -> None:
        """New, gone, otherwise; and how old what they ask for is, by `load`."""
        old = text_of(example("findings/f20_need_too_old.toml")).replace("within = 21", "within = 22")
        lines = old.count("\n")
        status, found = self.compare(old, old.replace("within = 22", "within = 30").replace("pause = 20", "pause = 15"))
        self.assertEqual((status, [re.sub(r"^\S+:\d+: | \(.*\)$", "", line) for line in found]), (0, [
            "flow EEC1 from ENGINE to all: pause 15, it was 20", "need group EEC1 unit CLUSTER: within 30, it was 22",
            "need group EEC1 unit CLUSTER: age 16280 of 30000 us, it was 21280 of 22000 us", "changes 3 breaks 0"]))
        more = old + '\n[[need]]\nunit = "CLUSTER"\ngroup = "EEC1"\nfrom = "ENGINE"\n'
        new = f"new.toml:{lines + 2}: need group EEC1 from ENGINE unit CLUSTER: new"
        self.assertEqual(self.compare(old, more), (0, [new, "changes 1 breaks 0"]))
        self.assertEqual(self.compare(more, old)[1][0], new.replace("new.toml", "old.toml").replace(": new", ": gone"))

    def test_the_need_of_a_signal_that_is_called_otherwise(self) -> None:
        old = OLD.replace("version = 3", "version = 4") + '\n[[need]]\nunit = "BRAKES"\ngroup = "EEC1"\nsignal = "SPN190"\n'
        status, found = self.compare(old, old.replace('"SPN190"', '"Speed"'))
        self.assertEqual((status, found), (0, ["new.toml:25: signal EEC1.Speed: it was called SPN190 (old.toml:25)", "changes 1 breaks 0"]))


class Needed(Compared):
    def test_a_need_that_becomes_too_old(self) -> None:
        """By the age that its unit knows, whatever the new plan asks for."""
        old = text_of(example("findings/f20_need_too_old.toml")).replace("within = 21", "within = 22")
        for within, age in ((22, "26280 of 22000 us, too old"), (30, "26280 of 30000 us")):
            new = old.replace("within = 22", f"within = {within}").replace("pause = 20", "pause = 25")
            status, found = self.compare(old, new)
            told = [re.sub(r"^\S+:\d+: | \(.*\)$", "", line) for line in found if ": breaks: " in line or ": age " in line]
            self.assertEqual((status, told), (1, [f"need group EEC1 unit CLUSTER: age {age}, it was 21280 of 22000 us",
                                                  f"breaks: CLUSTER needs EEC1 younger: its age is {age}, it was 21280 of 22000 us"]))

    def test_who_needs_it_is_named_first(self) -> None:
        old = OLD.replace("version = 3", "version = 4") + '\n[[need]]\nunit = "BRAKES"\ngroup = "EEC1"\nsignal = "SPN190"\n'
        why = "wrongly: it lies at 5.1, 16 bits, and not at 4.1, 16 bits (old.toml:24)"
        self.assertEqual(self.breaks(("byte = 4", "byte = 5"), old=old), [f"BRAKES needs it; all read EEC1.SPN190 of ENGINE {why}"])
        told = json.loads("\n".join(self.compare(old, old.replace("byte = 4", "byte = 5"), "--json")[1]))["breaks"]
        self.assertEqual([(found["receivers"], found["needed_by"]) for found in told], [(["BRAKES", "CLUSTER"], ["BRAKES"])])
        self.assertEqual(self.breaks(("byte = 3\n", "byte = 2\n"), old=old),
                         ["all read EEC1.SPN513 of ENGINE wrongly: it lies at 2.1, 8 bits, and not at 3.1, 8 bits (old.toml:32)"])

    def test_names_that_change_places(self) -> None:
        """A number whose name is another one is read wrongly; a name that only one plan has breaks nothing."""
        old = OLD.replace("version = 3", "version = 4").replace('label = "SPN513"', 'label = "SPN513"\nvalues = { 0 = "idle", 1 = "pedal" }')
        swapped = old.replace('0 = "idle", 1 = "pedal"', '1 = "idle", 0 = "pedal"')
        status, found = self.compare(old, swapped)
        self.assertEqual((status, found[-2:]), (1, [
            'new.toml:32: breaks: all read EEC1.SPN513 of ENGINE wrongly: 0 is "pedal", and not "idle"; 1 is "idle", and not "pedal" (old.toml:32)',
            "changes 2 breaks 1"]))
        for names in ('0 = "idle"', '0 = "idle", 1 = "pedal", 2 = "cruise"'):
            self.assertEqual(self.compare(old, old.replace('0 = "idle", 1 = "pedal"', names))[0], 0)


class Broken(Compared):
    def test_signals(self) -> None:
        """Another place, width, kind and scale; one that is gone from bits that are left free, and from those of another one."""
        self.assertEqual(self.breaks(("byte = 4", "byte = 5")),
                         ["all read EEC1.SPN190 of ENGINE wrongly: it lies at 5.1, 16 bits, and not at 4.1, 16 bits (old.toml:24)"])
        self.assertEqual(self.breaks(('kind = "measured"\nper = 8\n', 'kind = "raw"\nstep = 3\noffset = -7\nper = 10\n')), [
            "all read EEC1.SPN190 of ENGINE wrongly: its kind is raw, and not measured; its value is 3/10 * raw - 7/10 rpm, and not "
            "1/8 * raw rpm (old.toml:24)"])
        gone = there(re.search(r'\[\[group.signal\]\]\nlabel = "SPN513"\n(?:.+\n)*', OLD)).group()
        self.assertEqual(self.breaks((gone, "")),
                         ["all miss EEC1.SPN513 of ENGINE: it isn't sent any more, and reads as absent (old.toml:32)"])
        self.assertEqual(self.breaks((gone, signal("MODE", 3, 4, "raw"))),
                         ["all read EEC1.SPN513 of ENGINE wrongly: at 3.1, 8 bits lies MODE (old.toml:32)"])
        raw = OLD.replace('kind = "measured"\noffset = -125', 'kind = "raw"')
        self.assertEqual(self.breaks((gone.replace('kind = "measured"\noffset = -125', 'kind = "raw"'), ""), old=raw),
                         ["all read EEC1.SPN513 of ENGINE wrongly: it isn't sent any more, and reads as all ones (old.toml:32)"])

    def test_numbers_and_lengths(self) -> None:
        self.assertEqual(self.breaks(("pgn = 61444", "pgn = 61443")), ["all miss EEC1 of ENGINE: its number is 61443, and not 61444 (old.toml:46)"])
        self.assertEqual(self.breaks(("length = 8", "length = 7")), ["all miss EEC1 of ENGINE: it has 7 bytes, and not 8 bytes (old.toml:18)"])
        self.assertEqual(self.breaks(("length = 8", "length = 8\nmost = 20")),
                         ["all miss EEC1 of ENGINE: it has 8 to 20 bytes, and only messages of 8 bytes are read (old.toml:18)"])

    def test_a_number_that_another_group_takes(self) -> None:
        """What came under it is read as what comes under it now."""
        new = OLD.replace("pgn = 61444", "pgn = 61443") + (
            '\n[[group]]\nlabel = "OTHER"\npgn = 61444\npriority = 3\nlength = 8\n' + signal("X", 4, 8, "raw")
            + '\n[[flow]]\ngroup = "OTHER"\nfrom = "BRAKES"\nto = "all"\n')
        _, lines = self.compare(OLD, new)
        self.assertEqual([line.partition(": breaks: ")[2] for line in lines if ": breaks: " in line], [
            "all miss EEC1 of ENGINE: its number is 61443, and not 61444 (old.toml:46)",
            "CLUSTER reads EEC1.SPN190 of BRAKES wrongly: at 4.1, 16 bits lies X (old.toml:24)",
            "CLUSTER misses EEC1.SPN513 of BRAKES: it isn't sent any more, and reads as absent (old.toml:32)",
        ])

    def test_groups_told_by_their_data(self) -> None:
        """A receiver reads what its own bits tell: another value of them it misses, and of other bits it reads what fits them."""
        told = OLD.replace("version = 3", "version = 4").replace("length = 8", "length = 8\nwhen = { byte = 1, bits = 8, value = 1 }", 1)
        self.assertEqual(self.breaks(("value = 1 ", "value = 1  "), old=told), [])
        self.assertEqual(self.breaks(("value = 1", "value = 2"), old=told), [
            "all miss EEC1 of ENGINE: it is selected by 8 bits from 1.1 on, which are 2, and not by 8 bits from 1.1 on, which are 1 (old.toml:47)"])
        self.assertEqual(self.breaks(("byte = 1, bits", "byte = 2, bits"), old=told),
                         ["all miss EEC1 of ENGINE: only messages are read that are selected by 8 bits from 1.1 on, which are 1 (old.toml:18)"])

    def test_another_bitrate(self) -> None:
        """It stops the bus; a plan that says nothing of it breaks nothing."""
        old = OLD.replace("version = 3\n", "version = 3\n\n[timing]\nbitrate = 250000\nunplanned = 1\n").replace("period = 10", "period = 10", 1)
        new = old.replace("250000", "500000")
        self.assertEqual(self.breaks(("bitrate = 250000", "bitrate = 500000"), old=old), ["all stop the bus: its bitrate is 500000, and not 250000 (old.toml:4)"])
        (told,) = json.loads("\n".join(self.compare(old, new, "--json")[1]))["breaks"]
        self.assertEqual((told["kind"], told["receivers"], told["new_line"]), ("bus", ["ENGINE", "CLUSTER", "BRAKES"], 4))
        self.assertEqual(self.compare(OLD, old)[0], 0)

    def test_an_address_that_is_kept_free(self) -> None:
        """One that may choose takes it by the old plan; where nobody chooses, or it is no longer kept free, nothing breaks."""
        old = OLD.replace("function = 19", "function = 19, arbitrary = true").replace("version = 3\n", "version = 3\nkeep_free = [240]\n")
        self.assertEqual(self.breaks(("[240]", "[240, 241]"), old=old),
                         ["CLUSTER may take an address that is kept free: 241 is kept free only now (old.toml:2)"])
        self.assertEqual(self.breaks(("[240]", "[130, 131, 240]"), old=old),
                         ["CLUSTER may take an address that is kept free: 130 and 131 are kept free only now (old.toml:2)"])
        self.assertEqual(self.breaks(("keep_free = [240]\n", ""), old=old), [])
        self.assertEqual(self.breaks(("version = 3\n", "version = 3\nkeep_free = [240]\n")), [])

    def test_flows(self) -> None:
        self.assertEqual(self.breaks(('to = "all"', 'to = "CLUSTER"')), ["BRAKES misses EEC1 of ENGINE: no flow sends it any more"])
        self.assertEqual(self.breaks(('from = "BRAKES"\nto = "ENGINE"', 'from = "CLUSTER"\nto = "ENGINE"')),
                         ["ENGINE misses TSC1 of BRAKES: no flow sends it any more"])
        self.assertEqual(self.breaks(('from = "BRAKES"\nto = "ENGINE"', 'from = "BRAKES"\nto = "all"')), [])

    def test_units(self) -> None:
        """One that moved, one that is another one by its NAME, and one that is gone. The number of the one unit tells nobody what it is."""
        self.assertEqual(self.breaks(("address = 0", "address = 1")), ["ENGINE isn't found by all: it is at address 1, and not at 0 (old.toml:5)"])
        self.assertEqual(self.breaks(("address = 0", "address = 23"), ("address = 23\nname = { identity = 2", "address = 0\nname = { identity = 2")), [
            "ENGINE isn't found by all: it is at address 23, and not at 0, where CLUSTER is (old.toml:5)"])
        self.assertEqual(self.breaks(("identity = 1,", "identity = 5,")), [])
        self.assertEqual(self.breaks(("manufacturer = 310", "manufacturer = 311")),
                         ["ENGINE isn't found by all: its NAME has another manufacturer (old.toml:6)"])
        gone = there(re.search(r'\[\[unit\]\]\nlabel = "BRAKES"\n(?:.+\n)*', OLD)).group()
        flow = there(re.search(r'\[\[flow\]\]\ngroup = "TSC1"\n(?:.+\n)*', OLD)).group()
        self.assertEqual(self.breaks((gone, ""), (flow, "")), ["ENGINE misses TSC1 of BRAKES: BRAKES is gone"])

    def test_texts_and_records(self) -> None:
        old = text_of(example("identification.toml"))
        text = there(re.search(r'\[\[group.text\]\]\nlabel = "SPN234".*\nbyte = 2\n', old)).group()
        self.assertEqual(self.breaks((text, ""), old=old), [
            f"{receiver} misses SOFT.SPN234 of {sender}: it isn't sent any more (old.toml:41)"
            for receiver, sender in (("BRAKES", "ENGINE"), ("ENGINE", "BRAKES"))])
        self.assertEqual(self.breaks(("bytes = 17", "bytes = 18"), old=old), [
            "BRAKES reads VI.SPN237 of ENGINE wrongly: it lies at byte 1, 18 bytes, and not at byte 1, 17 bytes (old.toml:21)"])
        codes = text_of(example("trouble_codes.toml")) + '\n[[unit]]\nlabel = "DISPLAY"\naddress = 40\nname = { identity = 40 }\n'
        found = self.breaks(("every = 4", "every = 5"), old=codes)
        self.assertEqual(found, ["DISPLAY reads DM1.DTC of ENGINE wrongly: its records are 5 bytes apart, and not 4 (old.toml:46)"])

    def test_makers_own_groups(self) -> None:
        """They are told by their senders: another maker's group on the number breaks nothing."""
        truck = text_of(example("truck.toml"))
        flow = '[[flow]]\ngroup = "CLUTCH_WEAR"\nfrom = "TRANSMISSION"\nto = "all"\n'
        self.assertIn(flow, truck)
        found = self.breaks((flow, flow.replace("TRANSMISSION", "BRAKES")), old=truck)
        self.assertEqual(found, ["all miss CLUTCH_WEAR of TRANSMISSION: no flow sends it any more"])


class Form(Compared):
    def test_json(self) -> None:
        status, lines = self.compare(OLD, OLD.replace("byte = 4", "byte = 5").replace("address = 11", "address = 12"), "--json")
        told = json.loads("\n".join(lines))
        self.assertEqual((status, told["old"], told["new"]), (1, "old.toml", "new.toml"))
        self.assertEqual(told["changes"], [
            {"what": "unit BRAKES", "key": "address", "old": "11", "new": "12", "old_line": 15, "new_line": 15},
            {"what": "signal EEC1.SPN190", "key": "place", "old": "4.1, 16 bits", "new": "5.1, 16 bits", "old_line": 26, "new_line": 26},
        ])
        self.assertEqual([(found["kind"], found["receivers"], found["sender"], found["group"], found["signal"]) for found in told["breaks"]], [
            ("wrong", ["CLUSTER", "BRAKES"], "ENGINE", "EEC1", "SPN190"), ("sender", ["ENGINE"], "BRAKES", "", "")])

    def test_files_that_are_none(self) -> None:
        good, none = self.write("a.toml", OLD), self.write("b.toml", "version = 9\n")
        for names in ((good, none), (none, good)):
            status, answer, said = run("compare.py", *names)
            self.assertEqual((status, answer), (2, ""))
            self.assertRegex(said, r"^compare: \S*/b\.toml:1: refused Range top key version")
        self.assertEqual(run("compare.py", good, self.path("missing.toml"))[::2],
                         (4, f"compare: {self.path('missing.toml')}: No such file or directory\n"))

    def test_findings_of_examples_are_compared_too(self) -> None:
        """Plans with findings are no fault of this tool."""
        for name in ("f01_same_name", "f05_same_pgn", "f08_signal_overlap", "f09_flow_to_one", "several"):
            text = text_of(example(f"findings/{name}.toml"))
            self.assertEqual(self.compare(text, "# The same.\n" + text)[0], 0, name)


if __name__ == "__main__":
    unittest.main()
