"""The forwards that `forwards` writes of the plans of two buses."""

import json
import os
import unittest

from tests.support import example, run
from tests.vehicles import B, FLOW, P, UNIT, V, OfVehicles, swapped

# A second group of both plans, one of the first alone, and flows of them.
ET1 = '[[group]]\nlabel = "ET1"\npgn = 65262\npriority = 6\nlength = 8\n'
CCVS = '[[group]]\nlabel = "CCVS"\npgn = 65265\npriority = 6\nlength = 8\n'

WRITTEN = """
# From {folder}p.toml to {folder}b.toml by P.G and B.G: review it.
[[forward]]
gateway = "CGW"
group = "P.EEC1"
at = "G"
as = "B.EEC1"
by = "G"
within = 5
"""


class Forwards(OfVehicles):
    def written(self, *words: str, p: str = P, b: str = B) -> tuple[int, str, list[str]]:
        """What is written of two plans without its first comment, and what is said, without the folder."""
        names = [self.write("p.toml", p), self.write("b.toml", b)]
        status, text, said = run("forwards.py", f"P={names[0]}", f"B={names[1]}", *words)
        return status, text.partition("review it.\n")[2], said.replace(self.folder + "/", "").splitlines()

    def left_out(self, why: str, *words: str, p: str = P, b: str = B) -> None:
        """That the one group is left out, and why."""
        status, text, said = self.written("CGW", "--at", "G", "--by", "G", *words, p=p, b=b)
        self.assertEqual((status, text, said), (2, "", [f"P.EEC1: {why}", "forwards: no group can be sent on, so nothing is written"]))

    def test_what_is_written_is_the_vehicle(self) -> None:
        """In the place of the forward that was written by hand the program answers the same."""
        name = self.vehicle()
        status, text, said = run("forwards.py", f"P={self.path('p.toml')}", f"B={self.path('b.toml')}", "CGW", "--at", "G", "--by", "G", "--within", "5")
        self.assertEqual((status, text, said), (0, WRITTEN.format(folder=self.folder + "/"), "1 forwards of 1 of 1 groups, notes 0\n"))
        first = self.answer(name)
        at, to = V.index("[[forward]]"), V.index("[[need]]")
        self.assertEqual(self.answer(self.write("v.toml", V[:at] + V[to:] + text)), first)
        self.assertEqual(first[0], 0)

    def test_buses_and_units_by_their_names(self) -> None:
        """Without a label a bus is called as its file; the gateway's units are called as it is, if none are named."""
        names = [self.write("p.toml", swapped(P, ('"G"', '"CGW"'))), self.write("b-1.toml", swapped(B, ('"G"', '"CGW"')))]
        status, text, _ = run("forwards.py", *names, "CGW")
        self.assertEqual((status, text.partition("review it.\n")[2]), (0, '[[forward]]\ngateway = "CGW"\ngroup = "p.EEC1"\nas = "b_1.EEC1"\n'))

    def test_several_groups(self) -> None:
        p = P + ET1 + CCVS + FLOW.format("ET1", "E", "all", 1000) + FLOW.format("CCVS", "E", "all", 100)
        b = B + swapped(ET1, ("ET1", "ENGINE_TEMPERATURE")) + FLOW.format("ENGINE_TEMPERATURE", "G", "all", 1000)
        status, text, said = self.written("CGW", "--at", "G", "--by", "G", p=p, b=b)
        self.assertEqual(status, 0)
        self.assertEqual([line for line in text.splitlines() if line.startswith(("group", "as"))],
                         ['group = "P.EEC1"', 'as = "B.EEC1"', 'group = "P.ET1"', 'as = "B.ENGINE_TEMPERATURE"'])
        self.assertEqual(said, ["P.CCVS: bus B has no group of its number, 65265", "2 forwards of 2 of 3 groups, notes 1"])
        _, text, said = self.written("CGW", "--at", "G", "--by", "G", "--group", "ET1", p=p, b=b)
        self.assertEqual((text.count("[[forward]]"), said), (1, ["1 forwards of 1 of 1 groups, notes 0"]))

    def test_what_is_left_out(self) -> None:
        one = 'per = 8\nunit = "rpm"\n'
        self.left_out("on bus P no flow brings it to G", p=swapped(P, ('from = "E"', 'from = "G"')))
        self.left_out("on bus P 2 flows bring it to G: name one of E and X by --from", p=P + UNIT.format("X", 5, 5) + FLOW.format("EEC1", "X", "all", 10))
        self.left_out("on bus P no flow brings it to G from X", "--from", "X", p=P + UNIT.format("X", 5, 5))
        self.left_out("bus B has no group of its number, 61444", b=swapped(B, ("61444", "61443")))
        self.left_out("B.EEC1 has at least 9 bytes, and P.EEC1 8", b=swapped(B, ("length = 8", "length = 9")))
        self.left_out("SPN190 of B.EEC1: it is at byte 5, bit 1, with 16 bits, and in what is heard at byte 4, bit 1, with 16 bits",
                      b=swapped(B, ("byte = 4", "byte = 5")))
        self.left_out('SPN190 of B.EEC1: its unit is "km/h", and that of SPN190 "rpm"', p=swapped(P, ("per = 8\n", one)),
                      b=swapped(B, ("per = 8\n", one.replace("rpm", "km/h"))))
        self.left_out("G doesn't send B.EEC1, C sends it there", b=swapped(B, ('from = "G"', 'from = "C"')))
        self.left_out("G doesn't send B.EEC1, nobody does", b=B[:B.index("[[flow]]")])

    def test_one_of_several_senders(self) -> None:
        p = P + UNIT.format("X", 5, 5) + FLOW.format("EEC1", "X", "all", 10)
        _, text, _ = self.written("CGW", "--at", "G", "--by", "G", "--from", "E", p=p)
        self.assertIn('\nfrom = "E"\n', text)

    def test_a_stand_in(self) -> None:
        """A unit of the gateway that sends under the address of the one that is heard."""
        b = swapped(B, ('from = "G"', 'from = "ENGINE"')) + UNIT.format("ENGINE", 0, 5)
        _, text, _ = self.written("CGW", "--at", "G", "--by", "ENGINE", b=b)
        self.assertIn('\nby = "ENGINE"\n', text)

    def test_several_receivers(self) -> None:
        """Of a group that goes to one unit at a time there is a forward for each."""
        p = swapped(P, ("pgn = 61444", "pgn = 0"), ('to = "all"', 'to = "G"'))
        b = swapped(B, ("pgn = 61444", "pgn = 0"), ('to = "all"', 'to = "C"')) + UNIT.format("X", 5, 5) + FLOW.format("EEC1", "G", "X", 10)
        _, text, said = self.written("CGW", "--at", "G", "--by", "G", p=p, b=b)
        self.assertEqual([line for line in text.splitlines() if line.startswith("to")], ['to = "C"', 'to = "X"'])
        self.assertEqual(said, ["2 forwards of 1 of 1 groups, notes 0"])

    def test_periodic(self) -> None:
        """As it is asked for, or since messages come more often than they may be sent."""
        _, text, said = self.written("CGW", "--at", "G", "--by", "G", "--periodic")
        self.assertEqual((text.splitlines()[-1], said), ('mode = "periodic"', ["1 forwards of 1 of 1 groups, notes 0"]))
        for b, why in (
            (swapped(B, ("period = 10", "period = 20")), "flow 1 of bus P has a period of 10 ms, and flow 1 of bus B one of 20 ms, so it is periodic"),
            (swapped(B, ("period = 10", "period = 10\non_request = true")), "flow 1 of bus B answers requests alone, so it is periodic"),
        ):
            _, text, said = self.written("CGW", "--at", "G", "--by", "G", b=b)
            self.assertEqual((text.splitlines()[-1], said[0]), ('mode = "periodic"', f"P.EEC1: {why}"))

    def test_notes(self) -> None:
        """As JSON objects, and by the exit status."""
        words = ("CGW", "--at", "G", "--by", "G", "--notes", self.path("notes"), "--fail-on-notes")
        self.assertEqual(self.written(*words)[0], 0)
        self.assertEqual(self.written(*words, p=P + CCVS)[0], 1)
        with open(self.path("notes"), encoding="utf-8") as file:
            self.assertEqual(json.load(file), {"what": "P.CCVS", "why": "on bus P no flow brings it to G"})

    def test_names_that_are_not_there(self) -> None:
        for words, said in (
            (("CGW",), "p.toml: no unit is called CGW: name the one of the gateway by --at"),
            (("G", "--by", "X"), "b.toml: no unit is called X"),
            (("G", "--from", "X"), "p.toml: no unit is called X"),
            (("G", "--group", "X"), "p.toml: no group is called X"),
        ):
            self.assertEqual(self.written(*words), (2, "", [f"forwards: {said}"]))
        name = self.write("p.toml", P)
        self.assertEqual(run("forwards.py", name, name, "G")[0::2], (2, f"forwards: two buses are called p: name them, as A={name}\n"))
        for words in (("G H",), ("G", "--within", "0"), ("G", "--within", "65536")):
            self.assertEqual(self.written(*words)[0], 2)
        status, _, said = run("forwards.py", self.write("q.toml", "version = 5\n"), name, "G")
        self.assertEqual((status, said), (2, f"forwards: {self.path('q.toml')}:1: refused Range top key version  (version = 5: integer 1..4)\n"))

    def test_examples(self) -> None:
        """Between two plans of the examples: what is written is taken by the program."""
        status, text, _ = run("forwards.py", f"A={example('truck.toml')}", f"B={example('truck.toml')}", "X", "--at", "CLUSTER", "--by", "ENGINE")
        plan = os.path.abspath(example("truck.toml"))
        head = "version = 1\n" + "".join(f'[[bus]]\nlabel = "{bus}"\nplan = "{plan}"\n' for bus in "AB")
        gateway = '[[gateway]]\nlabel = "X"\nunit = ["A.CLUSTER", "B.ENGINE"]\n'
        answered, answer = self.answer(self.write("v.toml", head + gateway + text))
        self.assertEqual((status, answered), (0, 0), answer)
        self.assertEqual(text.count("[[forward]]"), answer.count("\nforward "))


if __name__ == "__main__":
    unittest.main()
