"""Logs of vehicles whose boxes have other serial numbers than the plan, or of which the plan has none: who is known, and what is told once."""

import json
import unittest

from j39plan import program
from j39plan.log.curves import Timeline
from j39plan.log.reports import Claim, Who
from j39plan.log.serial_numbers import names_in, renumbered
from j39plan.plan.cut import without_numbers
from j39plan.plan.tables import Tables
from tests.logs_against import Compared, run
from tests.support import NEWER, InFolder, plans, text_of, there

# Two units, of which the first one has a kind of its own by its maker, and the other one by the capability of an arbitrary address.
PLAN = """version = %s
[[unit]]
label = "ENGINE"
address = 0
name = { %smanufacturer = 7 }
[[unit]]
label = "PUMP"
address = 128
name = { %sarbitrary = true }
[[group]]
label = "ET1"
pgn = 65262
priority = 6
length = 8
[[group.signal]]
label = "SPN110"
byte = 1
bits = 8
kind = "measured"
[[flow]]
group = "ET1"
from = "%s"
to = "all"
"""
ET1, ET1_OF_PUMP, CLAIMS_ASKED = "18FEEE00#7DFFFFFFFFFFFFFF", "18FEEE80#7DFFFFFFFFFFFFFF", "18EAFFFE#00EE00"


def numbered(sender: str = "ENGINE", version: int = 1) -> str:
    """The plan of one vehicle."""
    return PLAN % (version, "identity = 1001, ", "identity = 2, ", sender)


def of_type(sender: str = "ENGINE") -> str:
    """The plan of its type."""
    return PLAN % (4, "", "", sender)


def engine(identity: int, address: int = 0) -> str:
    """A claim of an engine's box."""
    return claim(identity | 7 << 21, address)


def pump(identity: int, address: int = 128) -> str:
    """A claim of a pump's box."""
    return claim(identity | 1 << 63, address)


def claim(name: int, address: int) -> str:
    """A claim by a NAME."""
    return f"18EEFF{address:02X}#{name.to_bytes(8, 'little').hex().upper()}"


class Numbers(Compared):
    """Logs of frames each at its time."""

    def told(self, plan: str, *lines: tuple[float, str]) -> list[str]:
        """The deviations of a log from a plan, without who wasn't there."""
        log = self.write("drive.log", "".join(f"({time}) can0 {frame}\n" for time, frame in lines))
        answer = run("against.py", "--silence", "0", self.write("plan.toml", plan), log)[1]
        return [line.replace(log, "L") for line in answer.splitlines()[:-1] if "neither claimed" not in line]


class Against(Numbers):
    def test_a_box_of_another_number_than_planned(self) -> None:
        """Each of the older versions is followed by the kinds too, and it is told once."""
        for version in (1, 2, 3, 4):
            found = self.told(numbered(version=version), (1, engine(6001)), (1.1, pump(2)), (2, ET1), (3, CLAIMS_ASKED), (3.1, engine(6001)), (4, ET1))
            self.assertEqual(found, ["L:1: ENGINE has identity 6001, planned is 1001"], version)

    def test_several_others_are_one_line(self) -> None:
        """As where the log is of another vehicle."""
        found = self.told(numbered(), (1, engine(6001)), (1.1, pump(5)), (2, ET1))
        self.assertEqual(found, ["L:1: several units have other identities than planned (2 units: ENGINE 6001, planned 1001; PUMP 5, planned 2)"])

    def test_the_number_of_the_plan_claims_too(self) -> None:
        """Then another box of the kind is a stranger, wherever in the log the planned one claims."""
        found = self.told(numbered(), (1, engine(6001, 9)), (1.1, pump(2)), (2, ET1), (3, engine(1001)))
        self.assertEqual(found, ["L:1: NAME 0000000000E01771 (identity 6001, manufacturer 7, function 0) claims address 9: no unit has it"])

    def test_a_kind_of_two_units(self) -> None:
        """It isn't known which of the two a box is."""
        other = numbered().replace('[[group]]', '[[unit]]\nlabel = "SPARE"\naddress = 3\nname = { identity = 1002, manufacturer = 7 }\n[[group]]', 1)
        found = self.told(other, (1, engine(6001)), (1.1, pump(2)))
        self.assertEqual(found[0], "L:1: NAME 0000000000E01771 (identity 6001, manufacturer 7, function 0) claims address 0: no unit has it")

    def test_another_interface_and_a_cannot(self) -> None:
        """Claims of an interface that isn't read tell nothing, and who can't claim is there."""
        plan, log = self.write("plan.toml", numbered()), self.path("drive.log")
        for lines, said in (((f"(1.0) can0 {ET1}", f"(1.1) can1 {engine(6001)}"), []),
                            ((f"(1.0) can0 {ET1}", f"(1.1) can0 {engine(6001, 254)}"), ["ENGINE has identity 6001, planned is 1001"]),
                            ((f"(1.0) can0 {engine(6001).lower()} R",), ["ENGINE has identity 6001, planned is 1001"])):
            self.write("drive.log", "\n".join(lines))
            answer = run("against.py", plan, log)[1]
            self.assertEqual([line.split(": ")[1] for line in answer.splitlines() if "identity" in line], said)

    def test_a_log_from_a_pipe(self) -> None:
        """What is still to come isn't known: it is followed by the plan as it is."""
        plan = self.write("plan.toml", numbered())
        answer = run("against.py", plan, "/dev/stdin", text=f"(1.0) can0 {engine(6001)}\n(2.0) can0 {ET1}\n")[1]
        self.assertIn("NAME 0000000000E01771 (identity 6001, manufacturer 7, function 0) claims address 0: no unit has it", answer)

    def test_a_second_box_of_a_unit(self) -> None:
        """Once, with both lines."""
        for plan, other in ((of_type(), ()), (numbered(), ("L:1: ENGINE has identity 6001, planned is 1001",))):
            found = self.told(plan, (1, engine(6001)), (2, ET1), (5, engine(6002)), (5.5, ET1), (6, engine(6001)), (7, engine(6002)))
            self.assertEqual(found, [*other, "L:3: ENGINE has identity 6001 and 6002: a box was exchanged, or there are two", "  L:1:", "  L:3:",
                                     "L:3: address 0 changed hands 3 times, first from ENGINE with identity 6001 to ENGINE with identity 6002, "
                                     "the nearest 1000 ms apart"])

    def test_both_lines_in_json(self) -> None:
        plan, log = self.write("plan.toml", of_type()), self.write("drive.log", f"(1.0) can0 {engine(5)}\n(2.0) can0 {engine(6)}\n(3.0) can0 {ET1}\n")
        for words in ((), ("--all",)):
            rows = [json.loads(line) for line in run("against.py", "--json", *words, plan, log)[1].splitlines()]
            row = next(row for row in rows if row.get("kind") == "exchanged")
            self.assertEqual((row["unit"], row["line"], row["times"], [place["line"] for place in row["all"]]), ("ENGINE", 2, 1, [1, 2]))

    def test_boxes_of_one_unit_are_two(self) -> None:
        """A box that claims what another one of its unit holds has not restarted; two at two addresses both hold theirs, of which the larger NAME has given way."""
        found = self.told(of_type(), (1, engine(5)), (5, engine(6)), (9, engine(6)))
        self.assertEqual([line for line in found if "holds" in line], ["L:3: ENGINE claims address 0, which it holds, and nobody asked: has it restarted? (not heard for 4000 ms before)"])
        found = self.told(of_type("PUMP"), (1, pump(5)), (1.5, ET1_OF_PUMP), (5, pump(6, 129)), (6, ET1_OF_PUMP), (7, "18FEEE81#7DFFFFFFFFFFFFFF"))
        self.assertEqual(found, ["L:3: PUMP has identity 5 and 6: a box was exchanged, or there are two", "  L:1:", "  L:3:"])

    def test_a_box_that_claims_what_its_unit_was_guessed_at(self) -> None:
        """It is the one that sent before its claim."""
        self.assertEqual(self.told(of_type("PUMP"), (1, ET1_OF_PUMP), (1.5, pump(5)), (1.6, ET1_OF_PUMP)), [])

    def test_who_is_too_early(self) -> None:
        """A box of a unit of any number waits like any other."""
        self.assertEqual(self.told(of_type("PUMP"), (1, pump(5)), (1.1, ET1_OF_PUMP)),
                         ["L:2: PUMP sends before 250 ms have passed after its claim of address 128"])


class Contests(Numbers):
    """Two units that may choose, of which RIGHT has the larger NAME, in a log that begins in mid-drive."""

    PLAN = """version = 1
[[unit]]
label = "LEFT"
address = 128
name = { identity = 2, arbitrary = true }
[[unit]]
label = "RIGHT"
address = %d
name = { identity = 3, arbitrary = true }
[[group]]
label = "ET1"
pgn = 65262
priority = 6
length = 8
[[flow]]
group = "ET1"
from = "LEFT"
to = "all"
[[flow]]
group = "ET1"
from = "RIGHT"
to = "all"
"""

    def early(self, *lines: tuple[float, str], right: int = 129) -> list[str]:
        """Who is told to send too early."""
        return [line for line in self.told(self.PLAN % right, *lines) if "before 250" in line]

    def test_a_guessed_unit_defends_its_address(self) -> None:
        """It was told nothing of before; RIGHT gives way, and LEFT sends on."""
        begin = (10.1, pump(3)), (10.2, pump(2)), (10.21, pump(3, 129))
        self.assertEqual(self.early(*begin, (10.25, ET1_OF_PUMP)), [])
        self.assertEqual(len(self.early(*begin, (10.25, "18FEEE81#7DFFFFFFFFFFFFFF"))), 1)

    def test_one_that_claimed_the_address_last_defends_it(self) -> None:
        """However long ago that was."""
        self.assertEqual(self.early((1, pump(2)), (5, pump(3)), (9, pump(2)), (9.01, pump(3, 129)), (9.1, ET1_OF_PUMP)), [])

    def test_the_holder_sends_on_until_it_has_heard(self) -> None:
        """The smaller NAME claims: what comes until RIGHT is heard elsewhere may be RIGHT's."""
        begin = (5, pump(3)), (6, ET1_OF_PUMP), (10.4, pump(2)), (10.4006, ET1_OF_PUMP)
        self.assertEqual(self.early(*begin, (10.403, pump(3, 129)), right=128), [])
        self.assertEqual(len(self.early(*begin, (10.403, pump(3, 129)), (10.46, ET1_OF_PUMP), right=128)), 1)


class ManyTools(InFolder):
    """`signals`, `plot` and `fleet` by a plan of another vehicle."""

    def setUp(self) -> None:
        super().setUp()
        self.plan = self.write("plan.toml", numbered())
        self.logs = [self.write(f"{name}.log", f"(1.0) can0 {engine(number)}\n(1.1) can0 {pump(2)}\n(2.0) can0 {ET1}\n")
                     for name, number in (("a", 6001), ("b", 6002), ("c", 6001))]

    def test_signals(self) -> None:
        _, answer, said = run("signals.py", self.plan, self.logs[0])
        self.assertEqual(answer.splitlines()[1], "2.0,3,ENGINE,0,all,255,ET1,SPN110,value,125,,")
        self.assertEqual(said, "signals: ENGINE has identity 6001, planned is 1001\n")

    def test_fleet(self) -> None:
        """Each log has its boxes; logs with one box of a number are of one vehicle, and PUMP's is the same in all."""
        status, answer, said = run("fleet.py", "--json", self.plan, *self.logs)
        tables = json.loads(answer)
        self.assertEqual((status, said), (1, ""))
        self.assertEqual([row["identities"] for row in tables["logs"]],
                         [{"ENGINE": [6001], "PUMP": [2]}, {"ENGINE": [6002], "PUMP": [2]}, {"ENGINE": [6001], "PUMP": [2]}])
        self.assertEqual([(row["what"], row["logs"]) for row in tables["worst"]], [("ENGINE has identity .., planned is 1001", 3)])
        self.assertEqual([(row["name"], row["unit"], row["identities"], row["logs"]) for row in tables["names"]],
                         [("0000000000......", "ENGINE", [6001, 6002], 3), ("8000000000000002", "PUMP", [2], 3)])
        self.assertEqual([row["sent"] for row in tables["flows"]], [3])

    def test_vehicles_of_a_type(self) -> None:
        """By the plan of the type the numbers alone tell vehicles."""
        logs = [self.write(f"{name}.log", f"(1.0) can0 {engine(number)}\n(2.0) can0 {ET1}\n") for name, number in (("d", 1), ("e", 2), ("f", 1))]
        plan = self.write("type.toml", of_type())
        rows = json.loads(run("fleet.py", "--json", plan, *logs)[1])["logs"]
        self.assertEqual([row["vehicle"] for row in rows], [2, 1, 2])
        self.assertIn("ENGINE 1\n", run("fleet.py", plan, *logs)[1])


class Timelines(InFolder):
    def test_two_boxes_of_a_unit_hold_two_addresses(self) -> None:
        """Another box takes none from the first one; one that moves leaves its address."""
        with program.file_of(of_type("PUMP")) as plan:
            timeline = Timeline(Tables.of(plan).units)
        claims = [(1, 128, 5), (2, 129, 6), (3, 130, 5)]
        for _ in timeline.passed(Claim(line, f"({line}.0)", Who("PUMP", None, address), number) for line, address, number in claims):
            pass
        self.assertEqual([(part.address, part.holder, part.start, part.end) for part in timeline.held() if part.is_claimed],
                         [(128, "PUMP", 1.0, 3.0), (129, "PUMP", 2.0, 3.0), (130, "PUMP", 3.0, 3.0)])


class Plans(unittest.TestCase):
    def test_a_text_without_numbers(self) -> None:
        """However a plan spells a NAME: the copy is the plan of the type, with the version that knows such units."""
        for spelled, other in (("name = { identity = 1, manufacturer = 3 }", "name = {  manufacturer = 3 }"),
                               ("name = { manufacturer = 3, identity = 1 }", "name = { manufacturer = 3,  }"),
                               ("name = { identity = 1 }", "name = { manufacturer = 0 }"),
                               ("name.identity = 1", "name.manufacturer = 0"),
                               ("name.identity = 1 # of A, B\nname.ecu = 1", " # of A, B\nname.ecu = 1"),
                               ("[unit.name]\nidentity = 1\n", "[unit.name]\nmanufacturer = 0\n")):
            text = 'version = %d # the first\n[[unit]]\nlabel = "A"\naddress = 1\n'
            self.assertEqual(without_numbers(text % 1 + spelled, [1]), text % 4 + other)

    def test_plans_without_numbers(self) -> None:
        """Each example, and one in the words of TOML 1.1, is a plan without the number of a unit too, and the same but for that."""
        count = 0
        for text in [NEWER, *map(text_of, plans())]:
            with program.file_of(text) as plan:
                before = program.shown(plan)
            if "unit 1 name identity" not in before:
                continue
            count += 1
            with program.file_of(there(without_numbers(text, [1]))) as plan:
                after = program.shown(plan)
            self.assertEqual(after.splitlines(), [line for line in before.splitlines() if not line.startswith("unit 1 name identity ")])
        self.assertGreater(count, 20)


class Logs(InFolder):
    def test_names_that_claim(self) -> None:
        """Of all priorities and destinations, in upper case or lower; none from the global address, of another length or page."""
        frames = [engine(1), engine(2).replace("18EEFF", "1CEE05"), engine(3, 254), engine(4, 255), engine(5).replace("18", "1A", 1), engine(6)[:-2], pump(7).lower()]
        log = self.write("drive.log", "".join(f"(1.0) can0 {frame}\n" for frame in frames))
        self.assertEqual(names_in([log], None), [1 | 7 << 21, 2 | 7 << 21, 3 | 7 << 21, 7 | 1 << 63])
        self.assertEqual(names_in([log], "can1"), [])

    def test_silent_units_have_no_box(self) -> None:
        with program.file_of(numbered(version=4).replace("name = { identity = 1001", "claims = false\nname = { identity = 1001")) as plan:
            units = Tables.of(plan).units
        log = self.write("drive.log", f"(1.0) can0 {engine(6001)}\n(1.0) can0 {pump(5)}\n")
        self.assertEqual([other.text for other in renumbered(units, [log], None).values()], ["PUMP has identity 5, planned is 2"])
