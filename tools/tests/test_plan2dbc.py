"""DBCs of plans: what they say is what the plan said, read back and decoded."""

import os
import random
import re
import shutil
import subprocess
import sys
import tomllib
import unittest
from fractions import Fraction
from typing import Any

from j39plan import program
from j39plan.dbc.reader import import_canmatrix
from tests.plans_as_dbc import WithPlans, said, scale, written
from tests.support import InFolder, TOOLS, TOP, example, needs, plans, run, text_of, there

KINDS = {
    "measured": (8, 16, 32), "discrete": (2,), "raw": (1, 2, 3, 8, 16, 31, 32), "states": (2, 3, 8), "signed": (2, 8, 13, 32),
    "dtc": (32,),
}

LABELS = ["A", "1", "7UP", "BO_", "Vector__XXX", "FILTER", "X" * 32, "motor", "MOTOR", "_"]

UNITS = ["", "rpm", "1/8 rpm", "%", "degC", "km/h"]


def random_signals(chance: random.Random, length: int) -> list[dict[str, Any]]:
    """Signals after one another in a group."""
    signals: list[dict[str, Any]] = []
    at = 0
    while True:
        kind = chance.choice(list(KINDS))
        bits, at = chance.choice(KINDS[kind]), at + chance.choice([0, 0, 1, 5])
        at = -(-at // 8) * 8 if kind == "dtc" else at
        if at + bits > 8 * length or len(signals) == 20:
            return signals
        signals.append({"label": (LABELS + [f"S{len(signals)}"] * 20)[len(signals)], "byte": at // 8 + 1, "bit": at % 8 + 1, "bits": bits,
                        "kind": kind})
        signals[-1].update({} if kind == "dtc" else random_scale(chance))
        at += bits


def random_scale(chance: random.Random) -> dict[str, int | str]:
    """What the values of a signal mean."""
    return {"step": chance.choice([1, 1, 3, 25, 1000000]), "per": chance.choice([1, 8, 10, 1000, 2**23, 5**10]),
            "offset": chance.choice([0, -40, 7, -10**12, 10**12]), "unit": chance.choice(UNITS)}


def random_period(chance: random.Random) -> dict[str, int]:
    """How far apart messages of a flow are, if that is said."""
    return chance.choice([{}, {"period": chance.choice([1, 20, 65535])}])


def random_plan(chance: random.Random) -> str:
    """The text of a random plan without findings that a DBC could not say."""
    text, labels = "version = 3\n", chance.sample(LABELS, chance.randrange(1, 6))
    for number, label in enumerate(labels):
        text += written("unit", {"label": label, "address": 10 * number}) + (
            f"name = {{ identity = {number}, function = {chance.randrange(256)}, industry = {chance.randrange(8)}, "
            f"arbitrary = {chance.choice(['true', 'false'])} }}\n")
    pgns = chance.sample([0, 256, 61444, 65262, 65226, 131071 - 512, 65000], chance.randrange(1, 6))
    for label, pgn in zip(chance.sample(LABELS, len(pgns)), pgns):
        length = chance.choice([1, 7, 8, 9, 40])
        text += written("group", {"label": label, "pgn": pgn, "priority": chance.randrange(8), "length": length})
        text += "".join(written("group.signal", signal) for signal in random_signals(chance, length))
        for sender in chance.sample(labels, chance.randrange(len(labels) + 1)):
            others = [other for other in labels if other != sender and pgn < 256 * 240] + ["all"]
            text += "".join(written("flow", {"group": label, "from": sender, "to": to, **random_period(chance)})
                            for to in chance.sample(others, chance.randrange(1, len(others) + 1)))
    return text


# Groups that are told by their data: two by four bits, one of these without a signal of its own.
TOLD = """version = 4
[[unit]]
label = "TIRES"
address = 51
name = {{ identity = 1 }}
[[unit]]
label = "DASH"
address = 23
name = {{ identity = 2 }}
[[group]]
label = "{0}"
pgn = 65268
priority = 6
length = 8
when = {{ byte = 1, bit = 5, bits = 4, value = 1 }}
[[group.signal]]
label = "AXLE"
byte = 1
bit = 5
bits = 4
kind = "raw"
[[group.signal]]
label = "PRESSURE"
byte = 2
bits = 8
kind = "measured"
[[group]]
label = "{1}"
pgn = 65268
priority = 6
length = 8
when = {{ byte = 1, bit = 5, bits = 4, value = 2 }}
[[group.signal]]
label = "AXLE"
byte = 1
bit = 5
bits = 4
kind = "raw"
"""

FLOWS = """[[flow]]
group = "{0}"
from = "TIRES"
to = "all"
[[flow]]
group = "{1}"
from = "TIRES"
to = "all"
[[need]]
unit = "DASH"
group = "{0}"
"""


@needs("canmatrix", "python3-canmatrix")
class Multiplexed(WithPlans):
    def dbc(self, text: str, *labels: str) -> tuple[str, str, bool]:
        """The DBC of a plan with these labels of its two groups, what is said of it, and whether the plan comes back."""
        plan = self.write("plan.toml", text.format(*labels))
        name, told = self.made(plan)
        return text_of(name), told, said(self.back(plan)) == said(tomllib.loads(text_of(plan)))

    def test_groups_of_one_message(self) -> None:
        dbc, told, is_back = self.dbc(TOLD + FLOWS, "TIRE_m1", "TIRE_m2")
        self.assertTrue(is_back)
        self.assertIn(" TIRE: 8 TIRES\n SG_ AXLE M : 4|4@1+ ", dbc)
        self.assertIn(" SG_ PRESSURE m1 : 8|8@1+ ", dbc)
        self.assertEqual(dbc.count("\nBO_ "), 1)
        self.assertEqual(told, "2 nodes 1 messages, notes 0\n")

    def test_a_group_without_a_signal_of_its_own(self) -> None:
        """The message names it."""
        dbc, _, _ = self.dbc(TOLD + FLOWS, "TIRE_m1", "TIRE_m2")
        self.assertIn('BA_ "PlanGroups" BO_ 2566845491 "1 TIRE_m1, 2 TIRE_m2";', dbc)

    def test_other_labels(self) -> None:
        dbc, _, is_back = self.dbc(TOLD + FLOWS, "LEFT", "RIGHT")
        self.assertTrue(is_back)
        self.assertIn('"1 LEFT, 2 RIGHT";', dbc)

    def test_groups_that_nobody_sends(self) -> None:
        self.assertTrue(self.dbc(TOLD, "LEFT", "RIGHT")[2])

    def test_bits_that_are_no_signal(self) -> None:
        text = (TOLD + FLOWS).replace('label = "AXLE"\nbyte = 1\nbit = 5', 'label = "AXLE"\nbyte = 8\nbit = 5')
        dbc, told, is_back = self.dbc(text, "TIRE_m1", "TIRE_m2")
        self.assertTrue(is_back)
        self.assertIn(" SG_ Selector M : 4|4@1+ ", dbc)
        self.assertIn("message TIRE_m1: no signal has the bits that tell its groups: Selector stands for them\n", told)

    def test_groups_by_other_bits(self) -> None:
        text = (TOLD + FLOWS).replace("bits = 4, value = 2", "bits = 3, value = 2")
        dbc, told, _ = self.dbc(text, "LEFT", "RIGHT")
        self.assertIn("flow of RIGHT from TIRES to all: another group's message has its identifier\n", told)
        self.assertEqual(dbc.count("\nBO_ "), 1)

    def test_a_signal_of_several_groups_keeps_its_name(self) -> None:
        """As DBCs have it by SG_MUL_VAL_; canmatrix decodes it by its name for each value, and the plan comes back."""
        import canmatrix.formats

        third = TOLD[TOLD.index('[[group]]\nlabel = "{1}"'):].replace('"{1}"', '"TIRE_m3"').replace("value = 2", "value = 3")
        door = '[[group.signal]]\nlabel = "DOOR"\nbyte = 3\nbits = 2\nkind = "discrete"\n'
        text = TOLD + door + third + door + FLOWS + '[[flow]]\ngroup = "TIRE_m3"\nfrom = "TIRES"\nto = "all"\n'
        dbc, told, is_back = self.dbc(text, "TIRE_m1", "TIRE_m2")
        self.assertEqual((is_back, told), (True, "2 nodes 1 messages, notes 0\n"))
        self.assertEqual(re.findall(r"SG_ (DOOR\S*) (m\d)", dbc), [("DOOR", "m2")])
        self.assertIn("SG_MUL_VAL_ 2566845491 DOOR AXLE 2-2, 3-3;\n", dbc)
        frame = canmatrix.formats.loads_flat(dbc.encode(), "dbc").frames[0]
        for value, names in ((1, {"AXLE", "PRESSURE"}), (2, {"AXLE", "DOOR"}), (3, {"AXLE", "DOOR"})):
            self.assertEqual(set(frame.decode(bytes((value << 4, 7, 1, 0, 0, 0, 0, 0)))), names)

    def test_a_signal_of_all_groups_has_their_values(self) -> None:
        """In messages with another value it isn't there; one that its comment calls so is, and one of groups with all values."""
        text = TOLD + '[[group.signal]]\nlabel = "PRESSURE"\nbyte = 2\nbits = 8\nkind = "measured"\n' + FLOWS
        dbc, _, is_back = self.dbc(text, "TIRE_m1", "TIRE_m2")
        self.assertTrue(is_back)
        self.assertEqual(re.findall(r"SG_ (\w+) (\S+) :", dbc), [("AXLE", "M"), ("PRESSURE", "m1")])
        self.assertIn("SG_MUL_VAL_ 2566845491 PRESSURE AXLE 1-1, 2-2;\n", dbc)
        dbc, _, is_back = self.dbc(text.replace('"PRESSURE"', '"PRESSURE"  # in each message'), "TIRE_m1", "TIRE_m2")
        self.assertEqual((is_back, re.findall(r"SG_ PRESSURE.*?:", dbc)), (True, ["SG_ PRESSURE :"]))
        whole = text.replace("bits = 4, value = 1", "bits = 1, value = 1").replace("bits = 4, value = 2", "bits = 1, value = 0").replace("bits = 4\n", "bits = 1\n")
        self.assertEqual(re.findall(r"SG_ PRESSURE.*?:", self.dbc(whole, "TIRE_m1", "TIRE_m0")[0]), ["SG_ PRESSURE :"])

    def test_several_lengths(self) -> None:
        text = (TOLD + FLOWS).replace("length = 8", "length = 7", 1)
        dbc, told, _ = self.dbc(text, "TIRE_m1", "TIRE_m2")
        self.assertIn(" TIRE: 8 TIRES\n", dbc)
        self.assertIn("message TIRE: its groups have several lengths: it has the greatest one\n", told)


@needs("canmatrix", "python3-canmatrix")
class RoundTrip(WithPlans):
    def test_the_examples(self) -> None:
        """But those with findings, which have two messages of one identifier or widths that no kind has."""
        clean = [plan for plan in plans() if "findings" not in plan]
        self.assertGreater(len(clean), 6)
        for plan in clean:
            with self.subTest(plan):
                self.assertEqual(said(self.back(plan)), said(tomllib.loads(text_of(plan))))

    def test_random_plans(self) -> None:
        chance, flows = random.Random(1939), 0
        for number in range(40):
            with self.subTest(number):
                plan = self.write("plan.toml", random_plan(chance))
                status, answer = program.call(["check", plan])
                self.assertNotEqual(status, 2, answer)
                whole = tomllib.loads(text_of(plan))
                self.assertEqual(said(self.back(plan)), said(whole))
                flows += len(whole.get("flow", []))
        self.assertGreater(flows, 60)

    def test_groups_of_makers(self) -> None:
        """Two makers' groups of one number, one of them from two units."""
        units = "".join(written("unit", {"label": label, "address": address}) + f"name = {{ identity = {address} }}\n"
                        for address, label in enumerate(("ECU", "OTHER", "THIRD")))
        groups = "".join(written("group", {"label": label, "pgn": pgn, "priority": 6, "length": 8, "private": True})
                         for label, pgn in (("ONE", 65300), ("TWO", 65300), ("THREE", 61184)))
        flows = "".join(written("flow", {"group": group, "from": sender, "to": to}) for group, sender, to in (
            ("ONE", "ECU", "all"), ("ONE", "THIRD", "all"), ("TWO", "OTHER", "all"), ("THREE", "ECU", "THIRD")))
        plan = self.write("plan.toml", "version = 3\n" + units + groups + flows)
        self.assertEqual(said(self.back(plan)), said(tomllib.loads(text_of(plan))))

    def test_periods(self) -> None:
        """Each flow has its own, also where one group is sent to several; none becomes a remark."""
        units = "".join(written("unit", {"label": label, "address": address}) + f"name = {{ identity = {address} }}\n"
                        for address, label in enumerate(("ONE", "TWO", "THREE")))
        groups = "".join(written("group", {"label": label, "pgn": pgn, "priority": 6, "length": 8})
                         for label, pgn in (("TSC1", 0), ("EEC1", 61444)))
        flows = "".join(written("flow", {"group": group, "from": sender, "to": to, "period": period}) for group, sender, to, period in (
            ("TSC1", "ONE", "TWO", 10), ("TSC1", "ONE", "THREE", 50), ("EEC1", "ONE", "all", 20), ("EEC1", "TWO", "all", 65535)))
        plan = self.write("plan.toml", "version = 3\n" + units + groups + flows)
        dbc, told = self.made(plan)
        self.assertEqual((told, text_of(dbc).count('BA_ "GenMsgCycleTime" BO_ ')), ("3 nodes 4 messages, notes 0\n", 4))
        self.assertEqual(said(self.back(plan)), said(tomllib.loads(text_of(plan))))
        self.assertNotIn(" ms", run("dbc2plan.py", dbc)[1])

    def test_random_frames(self) -> None:
        """canmatrix decodes them to the values that the plan's definition of a value gives."""
        import_canmatrix()
        import canmatrix.formats
        chance, values = random.Random(42), 0
        for _ in range(20):
            plan = self.write("plan.toml", random_plan(chance))
            groups = {group["label"]: group for group in tomllib.loads(text_of(plan))["group"]}
            for frame in canmatrix.formats.loadp_flat(self.made(plan)[0]).frames:
                group = groups[frame.attributes.get("PlanGroup", frame.name)]
                data = chance.randbytes(group["length"])
                decoded = {signal.signal.attributes.get("PlanSignal", name): signal for name, signal in frame.decode(data).items()}
                for signal in group.get("signal", []):
                    raw = int.from_bytes(data, "little") >> 8 * (signal["byte"] - 1) + signal["bit"] - 1 & (1 << signal["bits"]) - 1
                    if signal["kind"] == "signed" and raw >> signal["bits"] - 1:
                        raw -= 1 << signal["bits"]
                    step, offset, per, _ = scale(signal)
                    value = Fraction(offset + step * raw, per)
                    found = Fraction(str(decoded[signal["label"]].phys_value))
                    self.assertLessEqual(abs(found - value), abs(value) / 10**24)
                    values += 1
        self.assertGreater(values, 200)


@needs("canmatrix", "python3-canmatrix")
@unittest.skipUnless(shutil.which("tshark"), "tshark isn't there: apt-get install tshark")
class Wireshark(InFolder):
    def test_the_way_of_the_page(self) -> None:
        """What docs/guide/TOOLS.md has for Wireshark shows the raw numbers of a log's signals."""
        plan, lines = example("tractor_and_implement.toml"), text_of(example("tractor_and_implement.start.log")).splitlines(keepends=True)
        log = self.write("drive.log", "".join(lines[:-1]))  # the last one is bad
        block = there(re.search(r"```sh\n(tools/plan2dbc\.py .*?)```", text_of(os.path.join(TOP, "docs", "guide", "TOOLS.md")), re.DOTALL)).group(1)
        for shown, meant in (("tools/", TOOLS + "/"), (" plan.toml", f" {plan}"), (" drive.log", f" {log}"), ("python3 -m", f"{sys.executable} -m")):
            self.assertIn(shown, block)
            block = block.replace(shown, meant)
        environment = {**os.environ, "J39PLAN": program.path(), "HOME": self.folder}
        ended = subprocess.run(["sh", "-e", "-c", block], cwd=self.folder, env=environment, capture_output=True, text=True, check=True)
        numbers = re.findall(r"^    (SPN\d+): (\d+)$", ended.stdout, re.MULTILINE)
        for number in (("SPN190", "6400"), ("SPN110", "125"), ("SPN175", "11552"), ("SPN84", "65024")):
            self.assertIn(number, numbers)


if __name__ == "__main__":
    unittest.main()
