"""What the program answers of a plan, as objects: the grammar of its lines, on every stored row, and the JSON that is made of it."""

import glob
import json
import os
import re
import unittest
from typing import Any

from j39plan import program
from j39plan.plan import answer_grammar
from j39plan.plan.answers import Age, Delay, load_of, stands
from tests.support import InFolder, TOP, example, run, text_of, there

CASES = os.path.join(TOP, "rows")

# A line of each form, and what it says.
SAID = [
    ("ok 2 units 1 groups 3 flows", "ok", {"units": 2, "groups": 1, "flows": 3}),
    ("findings 12", "findings", {"findings": 12}),
    ("F2 SameFixedAddress A 128 0", "finding", {"finding": "F2", "name": "SameFixedAddress", "unit": "A", "other": "128", "address": 0}),
    ("F8 SignalOverlap G S T", "finding", {"finding": "F8", "name": "SignalOverlap", "group": "G", "signal": "S", "other": "T"}),
    ("F11 FlowRepeated 1 3", "finding", {"finding": "F11", "name": "FlowRepeated", "flow": 1, "other": 3}),
    ("  give A B", "step", {"step": "give A B"}),
    ("refused Text", "refused", {"cause": "Text"}),
    ("refused UnknownKey top", "refused", {"cause": "UnknownKey", "place": "top"}),
    ("refused Range group 1 signal 2 key bits", "refused", {"cause": "Range", "place": "group 1 signal 2", "key": "bits"}),
    ("refused plan NoTiming", "refused", {"cause": "NoTiming"}), ("refused plan BadGroup G", "refused", {"cause": "BadGroup", "label": "G"}),
    ("unit A stays 3", "unit", {"unit": "A", "stays": "stays", "address": 3}),
    ("unit A may move from 128", "unit", {"unit": "A", "stays": "may move from", "address": 128}), ("stay 1 of 2", "stay", {"stay": 1, "units": 2}),
    ("flow 1 G A all within 640 of 10000 us", "flow", {"flow": 1, "group": "G", "from": "A", "to": "all", "within": 640, "limit": 10000}),
    ("flow 2 G A B late of 10000 us", "flow", {"flow": 2, "group": "G", "from": "A", "to": "B", "limit": 10000}),
    ("flow 3 G A B frames 4", "flow", {"flow": 3, "group": "G", "from": "A", "to": "B", "frames": 4}),
    ("flow 4 G A all frames 4 whole within 605760 us", "flow", {"flow": 4, "group": "G", "from": "A", "to": "all", "frames": 4, "within": 605760}),
    ("flow 5 G A all frames 4 whole within 605760 of 606000 us", "flow",
     {"flow": 5, "group": "G", "from": "A", "to": "all", "frames": 4, "within": 605760, "limit": 606000}),
    ("flow 6 G A all frames 4 late of 605000 us", "flow", {"flow": 6, "group": "G", "from": "A", "to": "all", "frames": 4, "limit": 605000}),
    ("need 1 B G age 20640 of 21000 us", "need", {"need": 1, "unit": "B", "group": "G", "age": 20640, "limit": 21000}),
    ("need 2 B G S old of 20000 us", "need", {"need": 2, "unit": "B", "group": "G", "signal": "S", "limit": 20000}),
    ("flow 7 G A all late 12000 of 10000 us", "flow", {"flow": 7, "group": "G", "from": "A", "to": "all", "late": 12000, "limit": 10000}),
    ("flow 8 G A all frames 4 late 605760 of 605000 us", "flow",
     {"flow": 8, "group": "G", "from": "A", "to": "all", "frames": 4, "late": 605760, "limit": 605000}),
    ("need 3 B G S old 21280 of 21000 us", "need", {"need": 3, "unit": "B", "group": "G", "signal": "S", "old": 21280, "limit": 21000}),
    ("load 640 of 250000", "load", {"load": 640, "bitrate": 250000}),
]


class Grammar(unittest.TestCase):
    def test_each_form(self) -> None:
        for text, kind, parts in SAID:
            self.assertEqual(answer_grammar.line_of(text), (kind, parts, text))

    def test_what_is_said(self) -> None:
        """Behind what names a unit, a flow or a need, whatever these are called."""
        for text, said in (("unit stays stays 3", "stays 3"), ("flow 1 within 1 all late of 10000 us", "late of 10000 us"),
                           ("need 2 B G S old of 20000 us", "old of 20000 us"), ("need 3 B age age 640 of 2000 us", "age 640 of 2000 us")):
            self.assertEqual(answer_grammar.line_of(text).said, said)

    def test_what_is_no_line(self) -> None:
        """A word more or less, a label with another sign, a number that is none."""
        for text, _, _ in SAID[:5] + SAID[11:]:
            for other in (text + " X", text.rpartition(" ")[0] + " -", "X " + text, text + "\n"):
                with self.assertRaises(answer_grammar.Unknown, msg=other):
                    answer_grammar.line_of(other)

    def test_each_finding_of_the_page(self) -> None:
        """The grammar has the findings of docs/guide/FINDINGS.md, with as many labels and numbers each."""
        listed = re.findall(r"^`(F\d+ \w+(?: \w+)*)`: ", text_of(os.path.join(TOP, "docs", "guide", "FINDINGS.md")), re.MULTILINE)
        self.assertGreaterEqual(len(listed), 27)
        forms = sorted((*answer_grammar.FINDINGS, *answer_grammar.OF_LINES), key=lambda form: int(form.split()[0][1:]))
        self.assertEqual([form.split()[:2] + [len(form.split())] for form in forms], [line.split()[:2] + [len(line.split())] for line in listed])

    def test_each_stored_row(self) -> None:
        """All that `check`, `addresses` and `load` are known to answer is understood, and what is understood is all that stands there."""
        seen = set()
        for ending in ("check", "addresses", "load"):
            names = glob.glob(os.path.join(CASES, "**", f"*.{ending}"), recursive=True)
            self.assertGreater(len(names), 20)
            for name in names:
                for line in answer_grammar.lines_of(text_of(name)):
                    rest = line.text
                    for said in line.parts.values():
                        self.assertIn(str(said), rest, name)
                        rest = rest.replace(str(said), "", 1)
                    self.assertFalse(re.search(r"\d", rest), line)
                    seen.add(line.kind)
        self.assertEqual(seen, set(answer_grammar.LINES))


class Objects(InFolder):
    def answer(self, command: str, plan: str, status: int) -> Any:
        """What the tool writes of a plan, but for its name and its status."""
        ended, answer, said = run("answer.py", command, plan)
        found = json.loads(answer)
        self.assertEqual((ended, said, found.pop("plan"), found.pop("status")), (status, "", plan, status))
        return found

    def test_check(self) -> None:
        plan = example("findings/f10_flow_to_self.toml")
        found = {"finding": "F10", "name": "FlowToSelf", "flow": 1, "text": "F10 FlowToSelf 1", "line": 25,
                 "hint": "TSC1 from ENGINE to ENGINE: key to: the sender itself"}
        self.assertEqual(self.answer("check", plan, 1), {"findings": [found]})
        self.assertEqual(run("answer.py", "check", plan)[1], run("where.py", "--json", plan)[1])

    def test_addresses(self) -> None:
        """Where units stand; findings in their place, with their lines."""
        units = [{"unit": "ENGINE", "stays": True, "address": 0}, {"unit": "RETARDER", "stays": True, "address": 15}]
        self.assertEqual(self.answer("addresses", example("axle.toml"), 0), {"units": units})
        (found,) = self.answer("addresses", example("findings/f02_same_fixed_address.toml"), 1)["findings"]
        self.assertEqual((found["finding"], found["line"], found["steps"][0]), ("F2", 18, "up RETARDER"))

    def test_load(self) -> None:
        """Delays, ages and the load; a plan that says nothing of its bus; one that can't be read."""
        told = self.answer("load", example("axle.toml"), 0)
        self.assertEqual(told["flows"][0], {"flow": 1, "group": "TSC1", "from": "RETARDER", "to": "ENGINE", "within": 1280, "limit": 10000})
        self.assertEqual((len(told["flows"]), told["load"], told["bitrate"]), (3, 32160, 250000))
        self.assertEqual(self.answer("load", example("first_plan.toml"), 1), {"refused": {"cause": "NoTiming", "text": "refused plan NoTiming"}})
        refused = {"cause": "Range", "place": "top", "key": "version", "text": "refused Range top key version", "line": 1, "hint": "version = 9: integer 1..4"}
        self.assertEqual(self.answer("load", self.write("plan.toml", "version = 9\n"), 2), {"refused": refused})

    def test_a_command_that_there_is_not(self) -> None:
        status, answer, said = run("answer.py", "read", example("axle.toml"))
        self.assertEqual((status, answer, said.splitlines()[-1].partition(": error: ")[2][:31]), (2, "", "argument COMMAND: invalid choic"))

    def test_tables_of_answers(self) -> None:
        """The same as tuples, for the tools and the module."""
        text = "".join(f"{line}\n" for line, kind, _ in SAID if kind in ("flow", "need", "load"))
        load = load_of(text)
        self.assertEqual(there(load).taken, (640, 250000))
        self.assertEqual(there(load).delays, [Delay(1, 640, 10000, 1), Delay(2, None, 10000, 1), Delay(3, None, None, 4), Delay(4, 605760, None, 4),
                                       Delay(5, 605760, 606000, 4), Delay(6, None, 605000, 4), Delay(7, None, 10000, 1, 12000),
                                       Delay(8, None, 605000, 4, 605760)])
        self.assertEqual(there(load).ages, [Age(1, 20640, 21000), Age(2, None, 20000), Age(3, None, 21000, 21280)])
        self.assertEqual((load_of("refused plan NoTiming\n"), there(load_of("F16 NoPeriod 1\nfindings 1\n")).taken), (None, None))
        self.assertEqual(stands("unit A stays 3\nunit B may move from 128\nstay 1 of 2\n"), {"A": (True, 3), "B": (False, 128)})
        self.assertEqual(stands(program.call(["addresses", example("findings/f02_same_fixed_address.toml")])[1]), {})


if __name__ == "__main__":
    unittest.main()
