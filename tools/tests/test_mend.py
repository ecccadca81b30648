"""Mends of a plan: each takes its finding away by what `check` says of the plan that is written, and changes nothing else of the file."""

import math
import os
import re
import subprocess
import unittest
import unittest.mock

from j39plan import program
from j39plan.cli import mend
from j39plan.cli.mend import lines_of
from j39plan.mend import flows
from j39plan.mend.attempts import Attempt, Mend
from j39plan.mend.edits import Change, Editor, setting
from j39plan.mend.judge import Draft, Judge, greatest, least
from j39plan.mend.priorities import Assignment
from j39plan.mend.search import ATTEMPTS, difference, mended
from j39plan.mend.slack import Guest, Room, Slack, left_of, slack_lines, slack_object
from j39plan.plan.answers import Delay
from j39plan.plan.text import Table
from j39plan.progress import Progress
from tests.support import InFolder, answered, example, examples, run, text_of

# An urgent group behind three that go before everything: neither its priority nor that of another one alone is enough.
URGENT = """version = 4

[timing] # of a bus
bitrate = 250000
unplanned = 0

[[unit]]
label = "A" # sends all
address = 0
name = { function = 0 }
""" + "".join(f"""
[[group]]
label = "{label}" # group {number}
pgn = {65000 + number}
priority = {priority} # as it was
length = 8

[[flow]]
group = "{label}"
from = "A"
to = "all"
period = 100
deadline = {deadline}
""" for number, (label, priority, deadline) in enumerate((("X", 0, 50), ("Y", 0, 50), ("Z", 0, 50), ("P", 0, 2), ("Q", 0, 50))))

EDITED = """version = 4 # the last one
keep_free = [ 240, 241 ]

# The engine.
[[unit]]
  label = "E"   # engine
  address   =   0
  name = { function = 0, # its function
           ecu = 1 }

[[unit]]
label = "T"
address = 3
name.function = 3

[[unit]]
label = "N"
address = 4
[unit.name]
function = 9

# The flow.
[[flow]]
group = "G"
from = "E"
to = "T"
"""


class Edits(unittest.TestCase):
    def changed(self, *parts: tuple[Change, str, str]) -> None:
        """Each change makes of a part of the text another one, and of nothing else."""
        for change, before, after in parts:
            self.assertIn(before, EDITED)
            self.assertEqual(Editor(EDITED).changed(change), EDITED.replace(before, after, 1))

    def test_keys(self) -> None:
        """Values are written in the place of others, with the comments and blanks around them; new keys behind the last one of their table."""
        self.changed(
            (setting(("unit", 1), address=9), "address   =   0", "address   =   9"),
            (setting((), keep_free=[240]), "[ 240, 241 ]", "[240]"),
            (setting(("unit", 1), queue="any"), "           ecu = 1 }\n", '           ecu = 1 }\n  queue = "any"\n'),
            (setting(("unit", 1, "name"), arbitrary=True), "ecu = 1 }", "ecu = 1, arbitrary = true }"),
            (setting(("unit", 2, "name"), ecu=1), "name.function = 3\n", "name.function = 3\nname.ecu = 1\n"),
            (setting(("unit", 3, "name"), ecu=1), "function = 9\n", "function = 9\necu = 1\n"),
            (setting(("unit", 3), window=16), "address = 4\n", "address = 4\nwindow = 16\n"),
            (setting(("flow", 1), from_="N", to="all"), 'from = "E"\nto = "T"', 'from = "N"\nto = "all"'),
        )

    def test_tables(self) -> None:
        """A table goes with the comments right above it; a new one comes at the end."""
        flow = EDITED[EDITED.index("# The flow."):]
        self.changed((Change(removed=(("flow", 1),)), flow, ""))
        unit = EDITED[EDITED.index("[[unit]]\nlabel = \"T\""):EDITED.index("[[unit]]\nlabel = \"N\"")]
        self.changed((Change(removed=(("unit", 2),)), unit, ""))
        new = Change(added=(Table("flow", {"group": "G", "from": "T", "to": "all", "on_request": False}),))
        self.assertEqual(Editor(EDITED + "\n\n").changed(new), EDITED + '\n[[flow]]\ngroup = "G"\nfrom = "T"\nto = "all"\n')

    def test_bounds(self) -> None:
        for of in (1, 37, 100):
            self.assertEqual((least(1, 100, of.__le__), greatest(1, 100, of.__ge__)), (of, of))
        self.assertEqual((least(1, 100, (101).__le__), greatest(1, 100, (0).__ge__)), (None, None))
        self.assertEqual((least(2, 1, (1).__le__), greatest(2, 1, (1).__le__)), (None, None))


class InPlans(InFolder):
    def mend(self, text: str, *words: str) -> tuple[int, str]:
        """What is said of a plan, without the folder."""
        status, answer, said = answered(mend.main, *words, self.write("plan.toml", text))
        self.assertEqual([line for line in said.splitlines() if not re.match(r"\d+ plans were asked about", line)], [])
        return status, answer.replace(self.folder + "/", "")

    def mends(self, text: str) -> list[str]:
        """The mends of a plan's findings, without what is to be known of them."""
        lines = self.mend(text)[1].splitlines()
        return [line.split("  (")[0].strip() for line in lines if re.match("  (mend|or): ", line)]


class Mended(InPlans):
    def test_each_example(self) -> None:
        """Of each finding of the examples the first mends are written as `check` says that they are, and `patch` takes the difference; what isn't
        mended is found as before."""
        unmended = {"f05_same_pgn": {"F5 SamePgn CCVS WHEEL_SPEED 65265"}, "f13_private_unsent": {"F13 PrivateUnsent HYDRAULICS"},
                    "f04_bad_pgn": {"F4 BadPgn MAKER_STATUS 65300", "F4 BadPgn CLAIM 60928"},
                    "several": {"F4 BadPgn DIAGNOSIS 65300", "F5 SamePgn EEC1 ETC1 61444"}}
        plans = [name for name in examples(".toml") if f"{os.sep}findings{os.sep}" in name]
        self.assertGreaterEqual(len(plans), 28)
        for name in plans:
            text, what = text_of(name), os.path.splitext(os.path.basename(name))[0]
            if what in ("f03_too_few_addresses", "f17_overload") or "\n[[choice]]" in text:
                continue  # the first two take long, and are tried below; lines of vehicles are refused
            with self.subTest(what):
                found = mended(text, judge := Judge(Progress(math.inf)))
                self.assertEqual(judge.refused, [])
                status, check = program.call(["check", self.write("new.toml", found.text)])
                self.assertEqual((found.status, found.answer), (status, check))
                self.assertEqual({line for line in check.splitlines() if line.startswith("F")}, unmended.get(what, set()))
                for one in found.tried:
                    self.assertEqual(bool(one.mends or one.by), one.text not in unmended.get(what, ()), one)
                self.assertEqual(self.patched(text, difference("plan.toml", text, found.text)), found.text)

    def patched(self, text: str, difference: str) -> str:
        """A text to which `patch` applied a difference."""
        self.write("plan.toml", text)
        if difference:
            subprocess.run(["patch", "-s", "-p0"], input=difference, text=True, check=True, cwd=self.folder)
        return text_of(self.path("plan.toml"))

    def test_a_plan_without_findings(self) -> None:
        text = text_of(example("axle.toml"))
        self.assertEqual(self.mend(text), (0, "ok 2 units 3 groups 3 flows\n"))

    def test_addresses(self) -> None:
        """A retarder at the engine's address goes to 15, that of its function by SAE J1939; 1 is the second engine's."""
        self.assertEqual(self.mends(text_of(example("findings/f02_same_fixed_address.toml"))), [
            "mend: unit RETARDER: address = 15", "or: unit ENGINE: address = 1", "or: unit RETARDER: name.arbitrary = true",
            "or: unit ENGINE: name.arbitrary = true"])

    def test_a_unit_that_never_claims_stays(self) -> None:
        """It is set to its address at the factory: the other one gives way, and nothing is said of what it could choose."""
        found = self.mends(text_of(example("findings/f26_silent_address.toml")))
        self.assertEqual([line.split(": ")[1] for line in found], ["unit DISPLAY", "unit LIGHT_SENSOR"])

    def test_both_ends_of_a_flow(self) -> None:
        """On a live bus neither end may be where others move: one change mends both."""
        text = 'version = 4\nlive = true\n' + "".join(
            f'\n[[unit]]\nlabel = "{label}"\naddress = {address}\nname = {{ function = {number}, arbitrary = {choose} }}\n' for number, (label, address, choose)
            in enumerate((("A", 140, "false"), ("B", 141, "false"), ("C", 150, "true"), ("D", 150, "true")), 10)) + (
            '\n[[group]]\nlabel = "G"\npgn = 0xAA00\npriority = 6\nlength = 8\n\n[[flow]]\ngroup = "G"\nfrom = "A"\nto = "B"\n')
        self.assertEqual(self.mends(text), ["mend: plan: keep_free = [140, 141]", "or: 2 units: addresses outside 128..247: A 12, B 13"])

    def test_too_few_addresses(self) -> None:
        """121 units that may choose, with 5 addresses kept free and 2 strangers, are 8 too many for 120: no single kind of change but one is enough."""
        units = "".join(f'\n[[unit]]\nlabel = "U{number}"\naddress = {number}\nname = {{ function = 140, function_instance = {number % 32}, '
                        f'system_instance = {number // 32}, arbitrary = true }}\n' for number in range(121))
        text = f"version = 4\nkeep_free = [240, 241, 242, 243, 244]\nstrangers = 2\n{units}"
        status, answer = self.mend(text)
        self.assertIn("of 8 of the units: fixed addresses outside 128..247: U113 121, U114 122, ", answer)
        self.assertEqual((status, "in vain" in answer), (0, False))  # no unit is fixed there, and 2 strangers can't be 8 fewer

    def test_an_older_version(self) -> None:
        """Where the version doesn't know a key that mends, the plan gets the last one."""
        text = ('version = 2\n\n[[unit]]\nlabel = "A"\naddress = 0\nname = { identity = 1 }\n\n[[group]]\nlabel = "G"\npgn = 65300\npriority = 6\nlength = 8\n'
                '\n[[flow]]\ngroup = "G"\nfrom = "A"\nto = "all"\n')
        status, answer = self.mend(text)
        self.assertIn("mend: group G: private = true, version = 4", answer)
        self.assertEqual((status, "+version = 4\n" in answer, "+private = true\n" in answer), (0, True, True))

    def test_selectors(self) -> None:
        """Of two groups of one number the second is told by other bits: it gets those of the first, and keeps its value, which nobody else has."""
        groups = "".join(f'\n[[group]]\nlabel = "{label}"\npgn = 51968\npriority = 3\nlength = 8\nwhen = {{ byte = 1, bits = {bits}, value = {value} }} # {label}\n'
                         for label, bits, value in (("A", 4, 2), ("B", 8, 13), ("C", 4, 3)))
        status, answer = self.mend(f"version = 4\n{groups}")
        self.assertEqual(status, 0)
        self.assertIn("-when = { byte = 1, bits = 8, value = 13 } # B\n+when = { byte = 1, bits = 4, value = 13 } # B\n", answer)

    def test_a_need_of_what_is_sent_on_request(self) -> None:
        """Nobody asks: the unit asks itself, or the flow is sent without that."""
        text = text_of(example("findings/f19_need_unmet.toml")) + '\n[[flow]]\ngroup = "ET1"\nfrom = "ENGINE"\nto = "all"\non_request = true\n'
        self.assertEqual([line.partition(": ")[2] for line in self.mends(text)],
                         ['a new request: group = "ET1", from = "CLUSTER", to = "ENGINE"', "flow 2 (ET1 from ENGINE to all): on_request = false"])

    def test_what_a_change_would_bring(self) -> None:
        """A maker's own number that is private and that no flow sends is a finding too."""
        status, answer = self.mend(text_of(example("findings/f04_bad_pgn.toml")))
        self.assertEqual(status, 1)
        self.assertIn("private = true (brings F13 PrivateUnsent MAKER_STATUS)", answer)

    def test_a_need_without_a_sender(self) -> None:
        """Nobody knows who of two units has it: the flow is said, and isn't written."""
        text = text_of(example("findings/f19_need_unmet.toml"))
        third = '[[unit]]\nlabel = "THIRD"\naddress = 40\nname = { function = 29 }\n\n'
        status, answer = self.mend(text.replace("[[group]]", f"{third}[[group]]", 1))
        self.assertEqual((status, "no mend was found" in answer), (1, True))
        self.assertIn('a flow with group = "ET1" and to = "all", from who has the value', answer)


# Who sends what in the plans of the following tests.
UNIT = '\n[[unit]]\nlabel = "{}"\naddress = {}\nname = {{ {} }}\n'
GROUP = '\n[[group]]\nlabel = "{}"\npgn = {}\npriority = 3\nlength = {}\n'
FLOW = '\n[[flow]]\ngroup = "{}"\nfrom = "{}"\nto = "{}"\n'
THREE = "version = 4\n" + "".join(UNIT.format(label, address, f"function = {address}") for label, address in (("EMS", 0), ("TCU", 3), ("RETARDER", 15)))


class Ends(InPlans):
    def test_a_command_goes_to_who_needs_it(self) -> None:
        """A command to all would be obeyed by whoever hears it: a flow to the unit comes first, and one to all last, as harmful; it isn't made."""
        plan = THREE + GROUP.format("TSC1", 0, 8) + FLOW.format("TSC1", "TCU", "EMS")
        lines = self.mend(plan + '\n[[need]]\nunit = "RETARDER"\ngroup = "TSC1"\n')[1].splitlines()
        self.assertEqual(lines[1:3], ['  mend: a new flow: group = "TSC1", from = "TCU", to = "RETARDER"',
                                      '  harmful: flow 1 (TSC1 from TCU to EMS): to = "all"  (each unit that hears the command may obey it)'])
        self.assertFalse([line for line in lines if "in vain" in line])
        narrow = plan.replace('to = "EMS"', 'to = "TCU"')
        status, answer = self.mend(narrow + '\n[[need]]\nunit = "RETARDER"\ngroup = "TSC1"\n')
        self.assertIn('  mend: flow 1 (TSC1 from TCU to TCU): to = "RETARDER"\n  or: a new flow: ', answer)
        self.assertEqual(self.mends(narrow)[:2], ['mend: flow 1 (TSC1 from TCU to TCU): to = "EMS"', "or: flow 1 (TSC1 from TCU to TCU): taken away"])
        self.assertEqual((status, "gone with the mend of F19 NeedUnmet 1" in answer), (0, True))

    def test_a_harmful_mend_is_not_made(self) -> None:
        """It is told, and the finding stays."""
        plan = THREE + GROUP.format("TSC1", 0, 8) + FLOW.format("TSC1", "TCU", "EMS") + '\n[[need]]\nunit = "RETARDER"\ngroup = "TSC1"\n'
        alone = {"F19": lambda draft, _: [Attempt("to all", [flows.to_all(draft, draft.tables.flows[0])])]}
        with unittest.mock.patch.dict(ATTEMPTS, alone):
            found = mended(plan, Judge(Progress(math.inf)))
        self.assertEqual((found.text, found.status, [mend.is_harmful for mend in found.tried[0].mends]), (plan, 1, [True]))
        self.assertIn("  no mend was found", list(lines_of("plan.toml", found.tried[0])))

    def test_one_ecu_under_two_names(self) -> None:
        """Two units at one address of whose NAMEs nothing differs may be one: that is asked first, and the one of which more is said stays and sends
        what the other did. Of NAMEs that differ it isn't asked, nor at two addresses."""
        plan = "version = 4\n" + UNIT.format("ENGINE", 0, "function = 0") + UNIT.format("EMS", 0, "function = 0, manufacturer = 310") + (
            UNIT.format("TCU", 3, "function = 3") + GROUP.format("EEC1", 61444, 8) + FLOW.format("EEC1", "ENGINE", "all")
            + '\n[[need]]\nunit = "TCU"\ngroup = "EEC1"\nfrom = "ENGINE"\n')
        status, answer = self.mend(plan)
        self.assertEqual(answer.splitlines()[1:3], [
            "  ask first: is it one ECU under two names? then take one away, or join its files by join --same EMS=ENGINE",
            "  mend: unit ENGINE: taken away, EMS stands for it  (if it is one ECU under two names)"])
        self.assertEqual((status, answer.count('+from = "EMS"'), answer.count('-label = "ENGINE"')), (0, 2, 1))
        for other in (plan.replace("function = 0 }", "function = 9 }"), plan.replace("address = 0", "address = 4", 1)):
            self.assertNotIn("ask first", self.mend(other)[1])

    def test_requests(self) -> None:
        """Another unit is asked that has it; the flow that is there answers who asks; a flow to all beside it would be a second one."""
        plan = THREE + GROUP.format("VI", 65260, 18) + FLOW.format("VI", "EMS", "{to}") + "on_request = true\n" + '\n[[request]]\ngroup = "VI"\nfrom = "TCU"\nto = "{asked}"\n'
        self.assertEqual(self.mends(plan.replace("{to}", "TCU").replace("{asked}", "RETARDER")), [
            'mend: request 1 (VI from TCU to RETARDER): to = "EMS"',
            'or: a new flow: group = "VI", from = "RETARDER", to = "TCU", on_request = true'])
        self.assertEqual(self.mends(plan.replace("{to}", "all").replace("{asked}", "EMS")), [
            'mend: flow 1 (VI from EMS to all): to = "TCU"', 'or: a new flow: group = "VI", from = "EMS", to = "TCU", on_request = true'])
        self.assertEqual(self.mends(plan.replace("{to}", "TCU").replace("{asked}", "all")), [
            'mend: request 1 (VI from TCU to all): to = "EMS"', 'or: flow 1 (VI from EMS to TCU): to = "all"',
            'or: a new flow: group = "VI", from = "EMS", to = "all", on_request = true'])

    def test_a_change_that_makes_no_plan_is_said(self) -> None:
        """Such an attempt hides a mend: it is a fault of the tool, and is told on standard error, which the other tests want to be empty. A key that the
        version doesn't know isn't asked about."""
        name = self.write("plan.toml", text_of(example("findings/f26_silent_address.toml")))
        wrong = {"F26": lambda draft, _: [Attempt("the null address", [Mend("unit", "address = 254", setting(("unit", 1), address=254))])]}
        with unittest.mock.patch.dict(ATTEMPTS, wrong):
            status, _, said = answered(mend.main, name)
        self.assertEqual((status, "a change that was tried makes no plan: refused Range unit 1 key address\n" in said), (1, True))
        draft = Draft('version = 3\n\n[[unit]]\nlabel = "A"\naddress = 0\nname = { identity = 1 }\n', judge := Judge(Progress(math.inf)))
        self.assertEqual((draft.outcome(setting(("unit", 1), queue="any"), []), judge.refused), ((False, None), []))


class Times(InPlans):
    def test_a_pause_goes_with_the_period(self) -> None:
        """At 250,000 bits a second G2 waits for the frame that has begun, one of G1 and itself, 640 us each: with 1 ms it is late behind every priority, with
        2 ms in time; its pause is as long then. At 125,000 one frame of 160 bits each ms is too much, each 2 ms 80,000 bits; it takes 2,560 us."""
        plan = THREE.replace("version = 4", "version = 4\n\n[timing]\nbitrate = 250000\nunplanned = 0")
        one, two = (GROUP.format(label, pgn, 8) + FLOW.format(label, "EMS", "all") + f"period = {time}\npause = {time}\n" for label, pgn, time in
                    (("G1", 65001, 2), ("G2", 65002, 1)))
        self.assertEqual(self.mends(plan + one + two), ["mend: flow 2 (G2 from EMS to all): period = 2, pause = 2, it was 1"])
        self.assertEqual(self.mends(plan.replace("250000", "125000") + two), [
            "mend: flow 1 (G2 from EMS to all): period = 2, it was 1, pause = 2, it was 1", "or: timing: bitrate = 250000",
            "mend: flow 1 (G2 from EMS to all): period = 3, pause = 3, it was 2"])

    def test_a_period_stays_above_the_jitter(self) -> None:
        """A value of at most 12 ms of a flow with 2 ms of jitter each 20 ms: 8 ms and 2 ms and 1,280 us are within it; 2 ms would be no period of it."""
        plan = THREE.replace("version = 4", "version = 4\n\n[timing]\nbitrate = 250000\nunplanned = 0") + GROUP.format("G", 65001, 8) + FLOW.format(
            "G", "EMS", "all") + 'period = 20\njitter = 2\n\n[[need]]\nunit = "TCU"\ngroup = "G"\nwithin = 12\n'
        self.assertIn("mend: flow 1 (G from EMS to all): period = 8, pause = 8, period was 20", self.mends(plan))

    def test_a_late_flow(self) -> None:
        """By the page on response times ET1 waits 2,560 us with itself, or without the unplanned frame 1,920 us, which priorities below 6 don't
        wait for: 5 is the nearest that serves, and 3 ms the least deadline."""
        self.assertEqual(self.mends(text_of(example("findings/f18_late_flow.toml"))), [
            "mend: group ET1: priority = 5, it was 6", "or: group EEC1: priority = 7, it was 3", "or: flow 2 (ET1 from ENGINE to all): deadline = 3"])

    def test_priorities_of_several(self) -> None:
        """A frame of 640 us that waits for the one that has begun and for one more is within 1,920 us: P has 2 ms, so two of the three groups before it
        have to come after it, and the first keeps its priority."""
        status, answer = self.mend(URGENT, "-o", self.path("new.toml"))
        self.assertIn("\n  mend: 2 groups: priority: Y 1 (it was 0), Z 1 (it was 0)  (none of them can keep its own)\n", answer)
        mended_text = text_of(self.path("new.toml"))
        self.assertEqual((status, mended_text.count("priority = 1 # as it was")), (0, 2))
        self.assertEqual(mended_text.replace("priority = 1", "priority = 0"), URGENT)
        self.assertEqual(program.call(["check", self.path("new.toml")]), (0, "ok 1 units 5 groups 5 flows\n"))

    def test_no_assignment(self) -> None:
        """A frame that waits for the one that has begun takes 1,280 us: with a deadline of 1 ms no priority serves."""
        draft = Draft(URGENT.replace("deadline = 2", "deadline = 1"), Judge(Progress(math.inf)))
        self.assertIsNone(Assignment(draft).found("F18 LateFlow 4"))

    def test_jitter_and_queue(self) -> None:
        """A frame of 640 us behind one that has begun is within 1,280 us: of a deadline of 3 ms 1 ms is left for jitter. A FIFO queue costs more."""
        text = URGENT[:URGENT.index('\n[[group]]\nlabel = "Y"')].replace("deadline = 50", "deadline = 3\njitter = 2")
        self.assertIn("or: flow 1 (X from A to all): jitter = 1, it was 2", self.mends(text))
        queued = text.replace("address = 0", 'address = 0\nqueue = "any"').replace("jitter = 2", "jitter = 1").replace("unplanned = 0", "unplanned = 3")
        self.assertIn('or: unit A: queue = "priority"', self.mends(queued))

    def test_too_full(self) -> None:
        """16 frames of 160 bits each 10 ms are 256,000 bits a second: without 6,000 of them 250,000 are left, of 16 ms, since one each 16 ms is 10,000."""
        text = text_of(example("findings/f17_overload.toml"))
        draft = Draft(text, Judge(Progress(math.inf)))
        change = setting(("flow", 1), period=16)
        self.assertEqual((draft.outcome(change, ["F17 Overload 256000"]).is_gone, draft.outcome(setting(("flow", 1), period=15), ["F17 Overload 256000"]).is_gone),
                         (True, False))

    def test_data_that_is_too_old(self) -> None:
        """19 ms and 1,280 us are 20.28 ms, within 21; 20 ms and 1,280 us are 21.28, within 22."""
        self.assertEqual(self.mends(text_of(example("findings/f20_need_too_old.toml"))), [
            "mend: flow 1 (EEC1 from ENGINE to all): pause = 19, it was 20", "or: need 1: within = 22, it was 21"])

    def test_too_often_asked(self) -> None:
        """The greatest period by which no more is asked; none where that isn't above the jitter."""
        plan = text_of(example("findings/f31_asked_too_often.toml"))
        self.assertEqual(self.mends(plan), ["mend: flow 1 (HOURS from E to all): period = 90, it was 1000"])
        self.assertEqual(self.mends(plan.replace("on_request = true", "on_request = true\njitter = 90")), [])

    def test_a_flow_with_its_times(self) -> None:
        """A need of data of at most 300 ms: a flow each 100 ms whose pause leaves room for its 1,280 us."""
        text = URGENT[:URGENT.index('\n[[flow]]')] + '\n[[unit]]\nlabel = "B"\naddress = 1\nname = { function = 3 }\n\n[[need]]\nunit = "B"\ngroup = "X"\nwithin = 300\n'
        self.assertEqual(self.mends(text), ['mend: a new flow: group = "X", from = "A", to = "all", period = 100, pause = 298'])

    def test_slack(self) -> None:
        """A bus of 250,000 bits carries 15 frames of 160 bits each 10 ms beside X's 1,600 a second; one more is an overload. All 15 and the one that
        has begun leave X time, and the last of the 15 waits for the one that has begun and 14 others: 16 times 640 us are 10.24 ms, too many."""
        draft = Draft(URGENT[:URGENT.index('\n[[group]]\nlabel = "Y"')], Judge(Progress(math.inf)))
        self.assertEqual(Guest(draft).room(0, 10), (14, False))

    def test_what_is_left(self) -> None:
        """X is alone: 1,280 of 100,000 us."""
        slack = Slack([left_of(draft_flow, Delay(1, 1280, 100000, 1)) for draft_flow in Draft(URGENT, Judge(Progress(math.inf))).tables.flows[:1]],
                      [Room(3, every, 14, every == 1000) for every in (10, 100, 1000)])
        self.assertEqual(slack_object(slack)["flows"], [{"flow": 1, "what": "X from A to all", "within": 1280, "limit": 100000, "left": 98720}])
        lines = list(slack_lines(slack))
        self.assertIn("   1  X from A to all       1280  100000    98720  98 %", lines)
        self.assertIn("       3          14           14  14+", lines)

    def test_no_slack(self) -> None:
        """Of a plan without timing it is said why there is none."""
        status, answer, said = run("mend.py", "--slack", example("first_plan.toml"))
        self.assertEqual((status, answer, said), (0, "ok 2 units 1 groups 1 flows\n", "mend: no slack is known: the plan has no timing\n"))


if __name__ == "__main__":
    unittest.main()
