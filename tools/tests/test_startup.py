"""Start-up schedules."""

import unittest

from j39plan import program
from j39plan.cli import startup
from tests.support import MARKED, NEWER, InFolder, example, plans, run, text_of

UNIT = '[[unit]]\nlabel = "U{0}"\naddress = 200\nchooser = "{1}"\nname = {{ identity = {0}, arbitrary = true }}\n'


class Startup(InFolder):
    def ends(self, plan: str, *first: str) -> tuple[list[str], list[str]]:
        """The schedule that is written for a plan, and the last lines of its run."""
        status, schedule, said = run("startup.py", plan, *first)
        self.assertEqual(status, 0, said)
        status, answer = program.call(["run", plan, self.write("start.schedule", schedule)])
        self.assertEqual(status, 0, answer)
        lines = answer.splitlines()
        self.assertEqual(lines[-1], "settled")
        shown = [line for line in lines if "#" not in line]
        self.assertEqual("".join(f"{line}\n" for line in shown), said.replace(", sure\n", "\n"))
        self.sure = [line.split()[1] for line in said.splitlines() if line.endswith(", sure")]
        return schedule.splitlines(), shown

    def test_each_example_that_has_a_bus(self) -> None:
        for plan in plans():
            units, _ = program.call(["run", plan, "/dev/null"])
            if units == 0 and "f03" not in plan:
                self.ends(plan)

    def test_the_steps(self) -> None:
        schedule, shown = self.ends(example("address_contest.toml"))
        self.assertEqual(schedule[1:], ["up A", "up B", "give B A", "give A B", "give B A"])
        self.assertEqual(shown, ["unit A address 128", "unit B address 129", "settled"])

    def test_which_addresses_are_sure(self) -> None:
        """Those of units that stay: of all where planned addresses differ, of the smaller NAME of two at one address; of none where a
        finding on addresses leaves that open."""
        for plan, sure in [
            ("first_plan.toml", ["ENGINE", "CLUSTER"]),
            ("address_contest.toml", ["A"]),
            ("findings/f02_same_fixed_address.toml", []),
        ]:
            self.ends(example(plan))
            self.assertEqual(self.sure, sure)

    def test_units_named_first(self) -> None:
        schedule, _ = self.ends(example("address_contest.toml"), "B")
        self.assertEqual(schedule[1:], ["up B", "up A", "give A B", "give B A"])

    def test_units_that_all_want_one_address(self) -> None:
        for chooser, addresses in (("lowest", [200, *range(128, 133)]), ("upward", [*range(200, 206)])):
            plan = "version = 1\n" + "".join(UNIT.format(number, chooser) for number in range(1, 7))
            _, shown = self.ends(self.write("plan.toml", plan))
            self.assertEqual([int(line.split()[-1]) for line in shown[:-1]], addresses)

    def test_the_order_of_deliveries_decides_where_units_settle(self) -> None:
        """Three units A, B, C, of rising NAMEs, all prefer 128 and choose the lowest address. Where C hears of A and moves to 129, and
        B hears of that before it hears of A, 129 isn't free for B."""
        unit = '[[unit]]\nlabel = "{}"\naddress = 128\nname = {{ identity = {}, arbitrary = true }}\n'
        plan = self.write("plan.toml", "version = 1\n" + "".join(unit.format(*pair) for pair in zip("ABC", (1, 2, 3))))
        self.assertEqual(self.ends(plan)[1], ["unit A address 128", "unit B address 129", "unit C address 130", "settled"])
        self.assertEqual(self.sure, ["A"])
        steps = ["up A", "up B", "up C", "give C A", "give A C", "give C B", "give C B", "give A B", "give C A",
                 *["give B A"] * 3, *["give A B"] * 2, *["give B C"] * 2, *["give A C"] * 2]
        lines = [line for line in program.run(plan, steps) if "#" not in line]
        self.assertEqual(lines, ["unit A address 128", "unit B address 130", "unit C address 129", "settled"])

    def test_more_steps_than_a_schedule_can_have(self) -> None:
        """It is said at once, with a status that isn't the plan's."""
        plan = example("findings/f03_too_few_addresses.toml")
        status, answer, said = run("startup.py", plan)
        self.assertEqual((status, answer), (5, ""))
        self.assertRegex(said, r"^startup: a start-up of this plan takes more than [\d,]+ steps, "
                               r"more than a schedule of 16,777,216 bytes can have\n$")

    def test_a_schedule_is_as_long_as_it_may_be(self) -> None:
        """A file of the most bytes that the program takes is written, and of one more isn't."""
        schedule = startup.Schedule("Start")
        size = program.INPUT_MOST - len("# Start\n")
        for _ in range(size // 64):
            schedule.add("x" * 63)
        schedule.add("x" * (size % 64 - 1))
        self.assertEqual(schedule.size, program.INPUT_MOST)
        with self.assertRaises(program.Refused):
            schedule.add("")

    def test_traffic(self) -> None:
        """Each flow sends its shortest message: one of a frame at once, a long one to all, and one to a unit in windows of two packets."""
        plan = 'version = 1\n'
        for label, number in (("A", 0), ("B", 3), ("C", 5)):
            window = "window = 2\n" if label == "B" else ""
            plan += f'[[unit]]\nlabel = "{label}"\naddress = {number}\n{window}name = {{ identity = {number + 1} }}\n'
        for label, pgn, length in (("EEC1", 61444, 8), ("VI", 65260, 17)):
            plan += f'[[group]]\nlabel = "{label}"\npgn = {pgn}\npriority = 6\nlength = {length}\n'
        for group, to in (("EEC1", "all"), ("VI", "all"), ("VI", "B")):
            plan += f'[[flow]]\ngroup = "{group}"\nfrom = "A"\nto = "{to}"\n'
        name = self.write("plan.toml", plan)
        status, schedule, said = run("startup.py", name, "--traffic")
        self.assertEqual((status, said.splitlines()[-1]), (0, "settled"))
        both = ["take A B", "take A C"]
        self.assertEqual(schedule.splitlines()[7:], [
            "send 1 " + "FF" * 8, *both,
            "begin 2 " + "FF" * 17, *both, *["emit A", *both] * 3, "rest A",
            "begin 3 " + "FF" * 17, "take A B", "take B A", "emit A", "emit A", "take A B", "take A B",
            "take B A", "emit A", "take A B", "take B A", "rest A",
        ])
        reports = [line.split()[1:6] for line in program.run(name, schedule.splitlines()) if line.startswith("report ")]
        self.assertEqual([" ".join(words[:1] + words[-1:]) for words in reports], ["B 1", "C 1", "B 2", "C 2", "B 3"])

    def test_traffic_of_each_example_that_has_a_bus(self) -> None:
        for plan in plans():
            units, _ = program.call(["run", plan, "/dev/null"])
            if units == 0 and "f03" not in plan:
                status, schedule, said = run("startup.py", plan, "--traffic")
                self.assertEqual(status, 0, said)
                flows = {line.split()[1] for line in schedule.splitlines() if line.split()[0] in ("begin", "send")}
                count = sum(line == "[[flow]]" for line in text_of(plan).splitlines())
                self.assertEqual(len(flows) + said.count("can't be sent"), count, plan)

    def test_plans_of_toml_1_1(self) -> None:
        """Two units that prefer 200: the one with the larger NAME passes over what is kept free."""
        for text in (NEWER, MARKED):
            plan = self.write("plan.toml", text.replace("address = 0x0", "address = 200").replace("address = 0\n", "address = 200\n"))
            _, shown = self.ends(plan)
            self.assertEqual(shown, ["unit A address 200", "unit B address 203", "settled"])

    def test_a_plan_without_units(self) -> None:
        schedule, shown = self.ends(self.write("plan.toml", "version = 1\n"))
        self.assertEqual((len(schedule), shown), (1, ["settled"]))

    def test_why_there_is_none(self) -> None:
        for plan, first, status, said in [
            (example("findings/f01_same_name.toml"), (), 1, "refused plan SameName BOOM_LEFT BOOM_RIGHT"),
            (self.write("plan.toml", "version = 5\n"), (), 2, f"{self.path('plan.toml')}:1: refused Range top key version  (version = 5: integer 1..4)"),
            (example("first_plan.toml"), ("MOTOR",), 2, "no unit is called MOTOR"),
        ]:
            self.assertEqual(run("startup.py", plan, *first), (status, "", f"startup: {said}\n"))

    def test_without_words_a_plan_is_wanted(self) -> None:
        status, _, said = run("startup.py")
        self.assertEqual((status, said.splitlines()[-1].split(": ")[-1]), (2, "PLAN"))


if __name__ == "__main__":
    unittest.main()
