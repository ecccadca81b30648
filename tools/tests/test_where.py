"""Where the answers of `check` belong."""

import os
import subprocess
import sys
import unittest

from j39plan.cli import where
from j39plan.plan import answer_places
from j39plan.plan.parts import Source
from tests.support import TOOLS, answered, example, plans, run, text_of, there
from tests.where_answers import WhereAnswers

UNIT = '[[unit]]\nlabel = "{}"\naddress = {}\nname = {{ identity = {} }}\n'


class Where(WhereAnswers):
    def test_a_plan_without_findings_is_passed_on(self) -> None:
        self.assertEqual(run("where.py", example("first_plan.toml")), (0, "ok 2 units 1 groups 1 flows\n", ""))

    def test_the_answers_themselves_stay(self) -> None:
        for plan in plans():
            _, answer, _ = answered(where.main, plan)
            lines = [line.split(": ", 1)[-1].split("  (")[0] for line in answer.splitlines()]
            self.assertEqual("".join(f"{line}\n" for line in lines), text_of(plan[:-5] + ".check"), plan)

    def test_findings_of_the_examples(self) -> None:
        for name, line, key in [
            ("f01_same_name", 'name = { identity = 7001, function = 129, industry = 2, arbitrary = true }', "key name"),
            ("f02_same_fixed_address", "address = 0", "key address"),
            ("f04_bad_pgn", "pgn = 65300", "key pgn"),
            ("f05_same_pgn", "pgn = 65265", "key pgn"),
            ("f06_signal_width", "bits = 1", "key bits"),
            ("f07_signal_outside", "byte = 8", "key byte"),
            ("f09_flow_to_one", 'to = "CLUSTER"', "key to"),
            ("f10_flow_to_self", 'to = "ENGINE"', "key to"),
            ("f12_kept_address", "address = 240", "key address"),
            ("f15_text_outside", "byte = 2", "key byte"),
        ]:
            plan = example(f"findings/{name}.toml")
            status, answer, _ = run("where.py", plan)
            self.assertEqual(status, 1)
            first = answer.splitlines()[0]
            at = int(first[len(plan) + 1:].split(":")[0])
            shown = text_of(plan).splitlines()[at - 1].split("#")[0].strip()
            self.assertEqual(shown.split(" = ")[0], line.split(" = ")[0], first)
            self.assertIn(key, first)

    def test_the_second_of_two_is_named(self) -> None:
        plan = "version = 1\n\n" + UNIT.format("A", 0, 1) + "\n" + UNIT.format("B", 0, 2)
        hint = "10: F2 SameFixedAddress A B 0  (key address: the same as of A at line 5)"
        steps = ["  up B", "  up A", "  give A B", "  give B A"]
        self.assertEqual(self.answer(plan), (1, [hint, *steps, "findings 1"]))

    def test_an_annotation_holds_the_steps_of_its_finding(self) -> None:
        units = [UNIT.format("A", 0, 1), UNIT.format("B", 0, 2), UNIT.format("C", 1, 1)]
        status, answer, _ = run("where.py", "--github", name := self.write("plan.toml", "version = 1\n\n" + "\n".join(units)))
        self.assertEqual(status, 1)
        first, second, count = answer.splitlines()
        self.assertTrue(first.startswith(f"::error file={name},line=16::F1 SameName A C  ("), first)
        self.assertTrue(second.startswith(f"::error file={name},line=10::F2 SameFixedAddress A B 0  ("), second)
        self.assertTrue(second.endswith(")%0A  up B%0A  up A%0A  give A B%0A  give B A"), second)
        self.assertEqual(count, "findings 2")

    def test_signals_that_overlap(self) -> None:
        plan = (
            'version = 1\n[[group]]\nlabel = "G"\npgn = 65262\npriority = 6\nlength = 8\n'
            '[[group.signal]]\nlabel = "S"\nbyte = 1\nbits = 4\nkind = "raw"\n'
            '[[group.signal]]\nlabel = "T"\nbyte = 1\nbit = 4\nbits = 2\nkind = "raw"\n'
        )
        self.assertEqual(self.answer(plan)[1][0], "12: F8 SignalOverlap G S T  (shares a bit with S at line 7)")

    def test_texts(self) -> None:
        """Where one lies outside, which label it repeats, and from which version on there are any."""
        plan = (
            'version = 3\n[[group]]\nlabel = "G"\npgn = 65262\npriority = 6\nlength = 8\n'
            '[[group.signal]]\nlabel = "S"\nbyte = 1\nbits = 8\nkind = "raw"\n[[group.text]]\nlabel = "T"\nbyte = 2\nbytes = 9\n'
        )
        found = "14: F15 TextOutside G T 10  (key byte: the text ends after the group's longest messages, or begins after what follows its shortest)"
        self.assertEqual(self.answer(plan), (1, [found, "findings 1"]))
        for label, line in (("S", 8), ("T", 13)):
            repeated = f"17: refused Repeated group 1 text 2 key label  (key label: {label} is at line {line} too)"
            self.assertEqual(self.answer(f'{plan}[[group.text]]\nlabel = "{label}"\nbyte = 1\n'), (2, [repeated]))
        early = "12: refused UnknownKey group 1  (key text: only from version = 3 on: write version = 4)"
        self.assertEqual(self.answer(plan.replace("version = 3", "version = 2")), (2, [early]))

    def test_flows_are_named(self) -> None:
        """Answers have them by their numbers alone: who sends what to whom, in the hint of each finding on one."""
        for name, found in (
            ("f09_flow_to_one", "42: F9 FlowToOne 2  (ET1 from ENGINE to CLUSTER: key to: a frame of this group goes to all)"),
            ("f10_flow_to_self", "25: F10 FlowToSelf 1  (TSC1 from ENGINE to ENGINE: key to: the sender itself)"),
            ("f11_flow_repeated", "37: F11 FlowRepeated 1 3  (EEC1 from ENGINE to all: the same as at line 27)"),
            ("f16_no_period", "31: F16 NoPeriod 2  (ET1 from ENGINE to all: key period: "),
            ("f18_late_flow", "36: F18 LateFlow 2  (ET1 from ENGINE to all: key deadline: within 2 ms there isn't room"),
            ("f31_asked_too_often", "33: F31 AskedTooOften 1  (HOURS from E to all: key period: request 1 each 1000 ms, request 2 each 100 ms: together they "
             "come each 90.9 ms; 90 is the greatest period without this)"),
        ):
            plan = example(f"findings/{name}.toml")
            self.assertTrue(run("where.py", plan)[1].startswith(f"{plan}:{found}"), name)

    def test_often_asked(self) -> None:
        """How often requests ask for a flow, by which period they wouldn't too often, and where one has no period."""
        plan = ('version = 4\n[timing]\nbitrate = 250000\nunplanned = 0\n' + "".join(
            f'[[unit]]\nlabel = "{label}"\naddress = {number}\nname = {{ identity = {number} }}\n' for number, label in enumerate("ETVW", 1))
            + '[[group]]\nlabel = "G"\npgn = 65253\npriority = 6\nlength = 8\n'
            '[[flow]]\ngroup = "G"\nfrom = "E"\nto = "all"\nperiod = 1000\njitter = 1\non_request = true\n')
        place = len(plan.splitlines()) - 2
        asks = [f'[[request]]\ngroup = "G"\nfrom = "{label}"\nto = "E"\n' for label in "TVW"]
        found = f"{place}: F31 AskedTooOften 1  (G from E to all: key period: request 1 each "
        for text, hint in (
            (f"{asks[0]}period = 9\n", "9 ms; 9 is the greatest period without this)"),
            (f"{asks[0]}period = 1\n", "1 ms)"),
            (f"{asks[0]}period = 6\n{asks[1]}period = 6\n{asks[2]}period = 6\n",
             "6 ms, request 2 each 6 ms, request 3 each 6 ms: together they come each 2 ms; 2 is the greatest period without this)"),
            (f"{asks[0]}period = 3\n{asks[1]}period = 3\n", "3 ms, request 2 each 3 ms: together they come each 1.5 ms)"),
        ):
            self.assertEqual(self.answer(plan + text)[1][0], found + hint)
        at = place + 3
        none = self.answer(f"{plan}{asks[0]}{asks[1]}period = 1000\n")
        self.assertEqual(none, (0, [f"{at}: hint request 1 has no period: nothing is promised while it is sent", "ok 4 units 1 groups 1 flows"]))
        some = self.answer(f"{plan}{asks[0]}".replace("unplanned = 0", "unplanned = 1"))[1]
        self.assertEqual(some[0], f"{at}: hint request 1 has no period: it counts among the unplanned frames, and its answers as messages of the flow")
        untimed = plan.replace("[timing]\nbitrate = 250000\nunplanned = 0\n", "")
        self.assertEqual(self.answer(untimed + asks[0])[1], ["ok 4 units 1 groups 1 flows"])

    def test_loads(self) -> None:
        """Which flow has no period or is late, where the bitrate stands, and from which version on these keys are known."""
        head = 'version = 3\n[timing]\nbitrate = 250000\nunplanned = 0\n[[unit]]\nlabel = "A"\naddress = 0\nname = { identity = 1 }\n'
        group = '[[group]]\nlabel = "G"\npgn = 61444\npriority = 3\nlength = 8\n'
        flow = '[[flow]]\ngroup = "G"\nfrom = "A"\nto = "all"\n'
        none = "14: F16 NoPeriod 1  (G from A to all: key period: it isn't there, and a plan with timing asks for it)"
        self.assertEqual(self.answer(head + group + flow), (1, [none, "findings 1"]))
        late = "18: F18 LateFlow 1  (G from A to all: key period: within 1 ms there isn't room for all that may go before it; a deadline may be longer)"
        self.assertEqual(self.answer(f"{head}{group}{flow}period = 1\n"), (1, [late, "findings 1"]))
        both = f"{head}{group}{flow}period = 1\n{flow.replace('all', 'B')}period = 1\n".replace(
            "[[group]]", '[[unit]]\nlabel = "B"\naddress = 1\nname = { identity = 2 }\n[[group]]').replace("61444", "256")
        full = "3: F17 Overload 320000  (key bitrate: the flows take more at their periods; load shows how much)"
        self.assertEqual(self.answer(both)[1][0], full)
        early = "2: refused UnknownKey top  (key timing: only from version = 3 on: write version = 4)"
        self.assertEqual(self.answer(head.replace("version = 3", "version = 2")), (2, [early]))
        wrong = "3: refused Range timing key bitrate  (bitrate = 125000: 250000 or 500000)"
        self.assertEqual(self.answer(head.replace("250000", "125000")), (2, [wrong]))
        alone = "14: refused Missing flow 1 key period  (key period isn't there, which a deadline needs: integer 1..65535)"
        self.assertEqual(self.answer(f"{head}{group}{flow}deadline = 5\n"), (2, [alone]))
        missing = "2: refused Missing timing key unplanned  (key unplanned isn't there: integer 0..1000; a guess: a claim of each unit, and three more: 4)"
        self.assertEqual(self.answer(head.replace("unplanned = 0\n", "")), (2, [missing]))

    def test_needs(self) -> None:
        """What nobody sends, what is too old, which names there are, and from which version on needs are known."""
        head = 'version = 4\n[timing]\nbitrate = 250000\nunplanned = 0\n' + UNIT.format("A", 0, 1) + UNIT.format("B", 3, 2)
        plan = head + '[[group]]\nlabel = "G"\npgn = 61444\npriority = 3\nlength = 8\n[[group.signal]]\nlabel = "SPN190"\nbyte = 4\nbits = 16\nkind = "raw"\n'
        flow = '[[flow]]\ngroup = "G"\nfrom = "A"\nto = "all"\nperiod = 10\npause = 20\n'
        need = '[[need]]\nunit = "{}"\ngroup = "G"\n'
        lines = (plan + flow).count("\n")
        for given, line, hint in (
            (need.format("A"), 2, "G by A: key unit: only A itself sends it"),
            (need.format("B") + 'from = "B"\n', 4, "G by B from B: key from: what a unit itself sends meets no need of it"),
            (need.format("B") + 'signal = "SPN190"\nfrom = "B"\n', 5, "G SPN190 by B from B: key from: what a unit itself sends meets no need of it"),
        ):
            self.assertEqual(self.answer(plan + flow + given), (1, [f"{lines + line}: F19 NeedUnmet 1  ({hint})", "findings 1"]))
        third = UNIT.format("C", 9, 3)
        for flows, given, key, hint in (
            ("", need.format("B"), 3, "G by B: key group: no flow sends it"),
            (flow, need.format("B") + 'from = "C"\n', 4, "G by B from C: key from: A sends it, and C doesn't"),
            (flow + flow.replace('"A"', '"C"'), need.format("B") + 'from = "B"\n', 4,
             "G by B from B: key from: what a unit itself sends meets no need of it"),
        ):
            text = plan + third + flows + given
            at = (plan + third + flows).count("\n") + key
            self.assertEqual(self.answer(text), (1, [f"{at}: F19 NeedUnmet 1  ({hint})", "findings 1"]), hint)
        narrow = (plan + third + flow.replace('"all"', '"C"')).replace("pgn = 61444", "pgn = 0")
        at = narrow.count("\n") + 2
        self.assertEqual(self.answer(narrow + need.format("B")), (1, [f"{at}: F19 NeedUnmet 1  (G by B: key unit: it goes to C alone)", "findings 1"]))

    def test_needs_that_are_too_old(self) -> None:
        """What is known of each flow that meets them; long messages have no age."""
        head = 'version = 4\n[timing]\nbitrate = 250000\nunplanned = 0\n' + UNIT.format("A", 0, 1) + UNIT.format("B", 3, 2) + UNIT.format("C", 9, 3)
        plan = head + '[[group]]\nlabel = "G"\npgn = 61444\npriority = 3\nlength = 8\n'
        flow = '[[flow]]\ngroup = "G"\nfrom = "{}"\nto = "all"\nperiod = 10\n'
        need = '[[need]]\nunit = "B"\ngroup = "G"\nwithin = 21\n'
        for flows, hint in (
            (flow.format("A") + "pause = 20\n", "flow 1 has a pause of 20 ms and its delay, which load shows"),
            (flow.format("A") + "pause = 21\n" + flow.format("C"), "flow 1 has a pause of 21 ms, already as long as that; flow 2 has no pause"),
            (flow.format("B") + "pause = 10\n" + flow.format("C"), "flow 2 has no pause"),
        ):
            at = (plan + flows).count("\n") + 4
            self.assertEqual(self.answer(plan + flows + need), (1, [f"{at}: F20 NeedTooOld 1  (G by B: key within: {hint})", "findings 1"]))
        for length, most in (("length = 9", 9), ("length = 8\nmost = 1730", 1730)):
            text = plan.replace("length = 8", length) + flow.format("A") + "pause = 20\n"
            hint = f"G by B: key within: its messages have up to {most} bytes, and those of more than 8 have no age"
            key = "most" if "most" in text else "length"
            hint += f" ({key} at line {text[:text.index(key + ' =')].count(chr(10)) + 1})"
            at = text.count("\n") + 4
            self.assertEqual(self.answer(text + need), (1, [f"{at}: F20 NeedTooOld 1  ({hint})", "findings 1"]))

    def test_requests(self) -> None:
        """What nobody answers, and why; answers that go elsewhere; requests that are one."""
        units = UNIT.format("A", 0, 1) + UNIT.format("B", 3, 2) + UNIT.format("C", 9, 3)
        plan = "version = 4\n" + units + '[[group]]\nlabel = "G"\npgn = 57344\npriority = 6\nlength = 8\n'
        flow = '[[flow]]\ngroup = "G"\nfrom = "{}"\nto = "{}"\n'
        request = '[[request]]\ngroup = "G"\nfrom = "B"\nto = "{}"\n'
        one, every = flow.format("A", "B"), flow.format("A", "all")
        for flows, to, answer, line, hint in (
            ("", "A", "F21 RequestUnanswered 1", 2, "G of A for B: key group: no flow sends it"),
            (every, "B", "F21 RequestUnanswered 1", 4, "G of B for B: key to: the unit that asks"),
            (flow.format("B", "all"), "A", "F21 RequestUnanswered 1", 3, "G of A for B: key from: only B itself sends it"),
            (flow.format("C", "all"), "A", "F21 RequestUnanswered 1", 4, "G of A for B: key to: C sends it, and A doesn't"),
            (flow.format("A", "C"), "A", "F21 RequestUnanswered 1", 3, "G of A for B: key from: it goes to C alone"),
            ("", "all", "F22 RequestUnheard 1", 2, "G of all for B: key group: no flow sends it"),
            (flow.format("A", "C"), "all", "F22 RequestUnheard 1", 3, "G of all for B: key from: it goes to C alone"),
            (every, "A", "F23 AnswerAstray 1", 4, "G of A for B: key to: one that is asked answers to the one that asks, and these flows go to all"),
            (one, "all", "F23 AnswerAstray 1", 4,
             "G of all for B: key to: where all are asked the answer goes to all, and these flows go to one unit each"),
        ):
            at = (plan + flows).count("\n") + line
            self.assertEqual(self.answer(plan + flows + request.format(to)), (1, [f"{at}: {answer}  ({hint})", "findings 1"]))
        text = plan + one + request.format("A")
        at = text.count("\n") + 1
        hint = f"G of A for B: on the bus the same as at line {at - 4}"
        self.assertEqual(self.answer(text + request.format("A")), (1, [f"{at}: F25 RequestRepeated 1 2  ({hint})", "findings 1"]))

    def test_answers(self) -> None:
        """What is sent only as an answer meets a need where somebody asks for it, and has no age."""
        head = "version = 4\n[timing]\nbitrate = 250000\nunplanned = 0\n" + UNIT.format("A", 0, 1) + UNIT.format("B", 3, 2)
        plan = head + '[[group]]\nlabel = "G"\npgn = 65254\npriority = 6\nlength = 8\n'
        flow = '[[flow]]\ngroup = "G"\nfrom = "A"\nto = "all"\nperiod = 1000\npause = 1000\non_request = true\n'
        need = '[[need]]\nunit = "B"\ngroup = "G"\nwithin = 2000\n'
        request = '[[request]]\ngroup = "G"\nfrom = "B"\nto = "A"\nperiod = 1000\n'
        lines = (plan + flow).count("\n")
        unasked = "it is sent only as an answer, and no request of the plan asks for it"
        self.assertEqual(self.answer(plan + flow + need), (1, [f"{lines + 3}: F19 NeedUnmet 1  (G by B: key group: {unasked})", "findings 1"]))
        old = f"{lines + 4}: F20 NeedTooOld 1  (G by B: key within: flow 1 is sent only as an answer)"
        self.assertEqual(self.answer(plan + flow + need + request), (1, [old, "findings 1"]))

    def test_long_messages_that_are_late(self) -> None:
        """Both are looked at by their deadline: whether they are whole within it, and whether there is room for what may go before."""
        plan = 'version = 3\n' + UNIT.format("A", 0, 1) + '[[group]]\nlabel = "G"\npgn = 61444\npriority = 3\nlength = 8\n'
        flow = '[[flow]]\ngroup = "G"\nfrom = "A"\nto = "all"\nperiod = 10\ndeadline = 5\n'
        lines = plan.count("\n")
        late = "G from A to all: key deadline: its long messages aren't shown to be whole within it"
        for most, at, hint in (("", lines + 6, "G from A to all: key deadline: within 5 ms there isn't room"), ("most = 9\n", lines + 7, late)):
            line, told = answer_places.finding(Source(plan + most + flow), "F18 LateFlow 1")
            self.assertEqual((line, there(told)[:len(hint)]), (at, hint))

    def test_names_in_needs(self) -> None:
        """Which there are, and from which version on needs and what comes with them are known."""
        head = 'version = 4\n[timing]\nbitrate = 250000\nunplanned = 0\n' + UNIT.format("A", 0, 1) + UNIT.format("B", 3, 2)
        plan = head + '[[group]]\nlabel = "G"\npgn = 61444\npriority = 3\nlength = 8\n[[group.signal]]\nlabel = "SPN190"\nbyte = 4\nbits = 16\nkind = "raw"\n'
        flow = '[[flow]]\ngroup = "G"\nfrom = "A"\nto = "all"\nperiod = 10\npause = 20\n'
        need = '[[need]]\nunit = "{}"\ngroup = "G"\n'
        lines = (plan + flow).count("\n")
        for given, key, meant in (
            ('signal = "spn190"\n', "signal", "no signal of G is called spn190; did you mean SPN190?"), ('from = "C"\n', "from", "no unit is called C"),
        ):
            answer = f"{lines + 4}: refused UnknownLabel need 1 key {key}  (key {key}: {meant})"
            self.assertEqual(self.answer(plan + flow + need.format("B") + given), (2, [answer]))
        early = f"{lines + 1}: refused UnknownKey top  (key need: only from version = 4 on: write version = 4)"
        bare = plan + flow.replace("pause = 20\n", "") + need.format("B")
        self.assertEqual(self.answer(bare.replace("version = 4", "version = 3")), (2, [early.replace(f"{lines + 1}:", f"{lines}:")]))
        asked = f"{lines - 5}: refused Missing flow 1 key period  (key period isn't there, which a jitter needs: integer 1..65535)"
        self.assertEqual(self.answer(plan + flow.replace("period = 10\npause = 20", "jitter = 1")), (2, [asked]))
        below = f"{lines + 1}: refused Range flow 1 key jitter  (jitter = 10: integer 0..65535, below the period)"
        self.assertEqual(self.answer(plan + flow + "jitter = 10\n"), (2, [below]))
        errors = "3: refused Missing timing errors key every  (key every isn't there: integer 1..65535)"
        self.assertEqual(self.answer(head.replace("unplanned = 0\n", "unplanned = 0\nerrors = { count = 1 }\n")), (2, [errors.replace("3:", "5:")]))
        wrong = "6: refused Range timing errors key count  (count = 101: integer 1..100)"
        table = "unplanned = 0\n[timing.errors]\ncount = 101\nevery = 10\n"
        self.assertEqual(self.answer(head.replace("unplanned = 0\n", table)), (2, [wrong]))
        rates = '(bitrate = 100000: 250000 or 500000 or 125000 or 1000000)'
        self.assertEqual(self.answer(head.replace("250000", "100000")), (2, [f"3: refused Range timing key bitrate  {rates}"]))

    def test_lengths(self) -> None:
        """What `most` can be, and from which version on it is known."""
        plan = 'version = 3\n[[group]]\nlabel = "G"\npgn = 65242\npriority = 6\nlength = 8\nmost = 7\n'
        self.assertEqual(self.answer(plan), (2, ["7: refused Range group 1 key most  (most = 7: integer 1..1785, at least the length)"]))
        early = "7: refused UnknownKey group 1  (key most: only from version = 3 on: write version = 4)"
        self.assertEqual(self.answer(plan.replace("version = 3", "version = 2")), (2, [early]))

    def test_records(self) -> None:
        """Which signal comes onto which, which group has no records, and from which version on they are known."""
        plan = (
            'version = 3\n[[group]]\nlabel = "G"\npgn = 65226\npriority = 6\nlength = 8\nevery = 3\n'
            '[[group.signal]]\nlabel = "S"\nbyte = 1\nbits = 32\nkind = "raw"\nrepeated = true\n'
            '[[group.signal]]\nlabel = "T"\nbyte = 7\nbits = 8\nkind = "raw"\n'
        )
        itself = "13: F14 RecordOverlap G S S  (key repeated: in a later record S and itself share a bit)"
        other = "13: F14 RecordOverlap G S T  (key repeated: in a later record S and T at line 14 share a bit)"
        self.assertEqual(self.answer(plan), (1, [itself, other, "findings 2"]))
        alone = "12: refused Range group 1 signal 1 key repeated  (repeated = true: the group has no key every)"
        self.assertEqual(self.answer(plan.replace("every = 3\n", "")), (2, [alone]))
        early = "7: refused UnknownKey group 1  (key every: only from version = 3 on: write version = 4)"
        self.assertEqual(self.answer(plan.replace("version = 3", "version = 2")), (2, [early]))
        early = "12: refused UnknownKey group 1 signal 1  (key repeated: only from version = 3 on: write version = 4)"
        self.assertEqual(self.answer(plan.replace("version = 3", "version = 2").replace("every = 3\n", "")), (2, [early]))

    def test_groups_told_by_their_data(self) -> None:
        """Why two of one number aren't told apart, where the bits of one end, and keys of the table."""
        group = '[[group]]\nlabel = "{}"\npgn = 65268\npriority = 6\nlength = 1\n{}\n'
        plan = "version = 4\n" + group.format("G", "when = {{ byte = 1, bits = {}, value = 1 }}") + group.format("H", "{}")
        for other, answer, line, hint in (
            ("", "F5 SamePgn G H 65268", 10, "key pgn: the same as of G at line 4, and H has no key when"),
            ("when = { byte = 1, bit = 2, bits = 4, value = 2 }", "F5 SamePgn G H 65268", 10,
             "key pgn: the same as of G at line 4, and when names other bits"),
            ("when = { byte = 1, bit = 1, bits = 4, value = 1 }", "F5 SamePgn G H 65268", 10,
             "key pgn: the same as of G at line 4, and when has the same value"),
            ("when = { byte = 2, bits = 4, value = 2 }", "F24 WhenOutside H 12", 13, "key when: its bits end after the group's length"),
            ("when = { byte = 1, bits = 4, value = 16 }", "refused Range group 2 when key value", 13,
             "value = 16: integer 0..4294967295, which the bits hold"),
            ("when = { byte = 1, value = 1 }", "refused Missing group 2 when key bits", 13, "key bits isn't there: integer 1..32"),
            ("when = { byte = 1, bits = 1, valeu = 1 }", "refused UnknownKey group 2 when", 13, "key valeu; did you mean value?"),
            ("when = 1", "refused WrongType group 2 key when", 13, "when = 1: a table, as { byte = 1, bits = 8, value = 1 }"),
        ):
            (placed,) = answer_places.placed(plan.format(4, other).encode(), answer + "\n")
            self.assertEqual((placed.line, placed.text), (line, f"{answer}  ({hint})"))

    def test_optional_signals(self) -> None:
        """Where one ends, that one which is repeated is none, and from which version on they are known."""
        plan = (
            'version = 4\n[[group]]\nlabel = "G"\npgn = 65226\npriority = 6\nlength = 8\nmost = 12\nevery = 4\n'
            '[[group.signal]]\nlabel = "S"\nbyte = 13\nbits = 8\nkind = "raw"\noptional = true\n'
        )
        behind = ("11: F7 SignalOutside G S 104  (key byte: the signal ends after the group's length, or, where it is optional, "
                  "after its longest messages; with 8 bits it begins at byte = 12 at the latest)")
        self.assertEqual(self.answer(plan), (1, [behind, "findings 1"]))
        self.assertEqual(self.answer(plan.replace("byte = 13", "byte = 12")), (0, ["ok 0 units 1 groups 0 flows"]))
        both = "14: refused Range group 1 signal 1 key optional  (optional = true: the signal is repeated)"
        self.assertEqual(self.answer(plan + "repeated = true\n"), (2, [both]))
        early = "14: refused UnknownKey group 1 signal 1  (key optional: only from version = 4 on: write version = 4)"
        self.assertEqual(self.answer(plan.replace("version = 4", "version = 3")), (2, [early]))

    def test_addresses_that_are_kept_free(self) -> None:
        plan = "version = 2\nkeep_free = [\n  240,\n  241,\n  {},\n]\n"
        wanted = "(key keep_free: an array of integers 128..247, each once)"
        for element, cause in (("240", "Repeated"), ("127", "Range"), ('"242"', "WrongType")):
            answer = [f"5: refused {cause} top key keep_free  {wanted}"]
            self.assertEqual(self.answer(plan.format(element)), (2, answer))
        self.assertEqual(self.answer("version = 2\nkeep_free = 240\n"), (2, [f"2: refused WrongType top key keep_free  {wanted}"]))
        hint = "(key keep_free: only from version = 2 on: write version = 4)"
        self.assertEqual(self.answer("version = 1\nkeep_free = []\n"), (2, [f"2: refused UnknownKey top  {hint}"]))
        for version in ("5", '"2"', "2.0"):
            hint = f"(version = {version}: integer 1..4)"
            self.assertEqual(self.answer(f"keep_free = []\nversion = {version}\n"), (2, [f"2: refused UnknownKey top  {hint}"]))
        hint = "(key version isn't there: integer 1..4)"
        self.assertEqual(self.answer("\nkeep_free = []\n"), (2, [f"1: refused UnknownKey top  {hint}"]))
        unit = UNIT.format("A", 241, 1).replace("identity = 1", "identity = 1, arbitrary = true")
        hint = "(key address: kept free: a unit with arbitrary = true may not hold it)"
        self.assertEqual(self.answer(plan.format("242") + unit)[1][0], f"9: F12 KeptAddress A 241  {hint}")

    def test_strangers(self) -> None:
        hint = "(strangers = 121: integer 0..120)"
        self.assertEqual(self.answer("version = 4\nstrangers = 121\n"), (2, [f"2: refused Range top key strangers  {hint}"]))
        hint = "(key strangers: only from version = 4 on: write version = 4)"
        self.assertEqual(self.answer("version = 3\nstrangers = 1\n"), (2, [f"2: refused UnknownKey top  {hint}"]))

    def test_live_buses(self) -> None:
        self.assertEqual(self.answer("version = 4\nlive = 1\n"), (2, ["2: refused WrongType top key live  (live = 1: true or false; write true)"]))
        hint = "(key live: only from version = 4 on: write version = 4)"
        self.assertEqual(self.answer("version = 3\nlive = true\n"), (2, [f"2: refused UnknownKey top  {hint}"]))

    def test_ends_that_are_not_alone(self) -> None:
        """The end that isn't alone, that of the sender first, and why: the unit that is planned there, the one that may move there, strangers."""
        unit = '[[unit]]\nlabel = "{}"\naddress = {}\nname = {{ identity = {}, arbitrary = {} }}\n'
        flow = '[[group]]\nlabel = "TSC1"\npgn = 0\npriority = 3\nlength = 8\n[[flow]]\ngroup = "TSC1"\nfrom = "{}"\nto = "{}"\n'
        plan = "version = 4\nlive = true\n" + unit.format("X", 128, 1, "true") + unit.format("Y", 128, 2, "true") + unit.format("F", 140, 3, "false")
        there, outside = "is planned there too: give one of them another address", "give it an address outside 128..247"
        for ends, key, line, said in (
            (("X", "all"), "from", 22, f"X isn't alone at 128: Y {there}"), (("X", "Y"), "from", 22, f"X isn't alone at 128: Y {there}"),
            (("F", "all"), "from", 22, f"F isn't alone at 140: Y may move there: {outside}, or keep this one free"),
            (("F", "Y"), "from", 22, f"F isn't alone at 140: Y may move there: {outside}, or keep this one free"),
        ):
            answer = self.answer(plan + flow.format(*ends))[1]
            self.assertEqual(answer[0], f"{line}: F28 FlowContested 1  (TSC1 from {ends[0]} to {ends[1]}: key {key}: {said})")
        kept = plan.replace("live = true\n", "live = true\nkeep_free = [140]\n")
        self.assertEqual(self.answer(kept + flow.format("F", "all"))[0], 0)
        answer = self.answer(kept + flow.format("F", "X"))[1]
        self.assertEqual(answer[0], f"24: F28 FlowContested 1  (TSC1 from F to X: key to: X isn't alone at 128: Y {there})")
        strangers = kept.replace("live = true\n", "live = true\nstrangers = 1\n")
        answer = self.answer(strangers + flow.format("F", "all"))[1]
        self.assertEqual(answer[0], f"24: F28 FlowContested 1  (TSC1 from F to all: key from: F isn't alone at 140: strangers may come there: {outside})")

    def test_annotations(self) -> None:
        name = self.write("plan.toml", "version = 5\n")
        status, answer, _ = run("where.py", "--github", name)
        self.assertEqual(status, 2)
        self.assertTrue(answer.startswith(f"::error file={name},line=1::refused Range top key version"), answer)

    def test_annotations_are_escaped(self) -> None:
        """As GitHub's workflow commands have it: in a property also the marks that part properties."""
        plan = self.write("50%,a:b.toml", "version = 1\n" + UNIT.format("A", 254, 1))
        _, answer, _ = run("where.py", "--github", plan)
        name = plan.replace("50%,a:b", "50%25%2Ca%3Ab")
        self.assertTrue(answer.startswith(f"::error file={name},line=4::refused Range unit 1 key address  (address = 254: "), answer)
        shown = where.github_annotation("a\rb\n", 1, "50%: x, y\r", ["  z"])
        self.assertEqual(shown, ["::error file=a%0Db%0A,line=1::50%25: x, y%0D%0A  z"])

    def test_a_program_that_is_not_there(self) -> None:
        environment = {**os.environ, "J39PLAN": self.path("j39plan")}
        ended = subprocess.run(
            [sys.executable, os.path.join(TOOLS, "where.py"), example("first_plan.toml")],
            capture_output=True, text=True, check=False, env=environment,
        )
        said = f"j39plan can't be run: {self.path('j39plan')}: No such file or directory\n"
        self.assertEqual((ended.returncode, ended.stdout, ended.stderr), (69, "", said))

    def test_a_missing_file(self) -> None:
        status, answer, said = run("where.py", self.path("none.toml"))
        self.assertEqual((status, answer, said), (4, "", f"where: {self.path('none.toml')}: No such file or directory\n"))


if __name__ == "__main__":
    unittest.main()
