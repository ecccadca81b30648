"""Two lines of vehicles compared: which vehicles are built no more and newly, and what breaks in which of them."""

import json
import re

from j39plan.cli import compare
from j39plan.plan.line_pairs import LinePair, paired
from j39plan.plan.parts import Source
from j39plan.plan.variants import Line
from tests.support import InFolder, answered, example, text_of

LINE = text_of(example("line.toml"))


class Compared(InFolder):
    def compared(self, old: str, new: str, *words: str) -> tuple[int, list[str]]:
        """Compares two plans; status and lines, without the folder and the places."""
        status, told, _ = answered(compare.main, *words, self.write("old.toml", old), self.write("new.toml", new))
        return status, [re.sub(r"^\S+:\d+: ", "", line) for line in told.replace(self.folder + "/", "").splitlines()]

    def test_a_never_that_grows_builds_more(self) -> None:
        """Of the eight vehicles two have the retarder, with ZF; with EATON too two more are built. The file says: nor with both."""
        status, lines = self.compared(LINE, LINE.replace('but = ["ZF"]', 'but = ["ZF", "EATON"]'))
        self.assertEqual((status, lines), (0, [
            'never RETARDER: but ["ZF", "EATON"], it was ["ZF"] (old.toml:15)', "vehicles 10, it was 8; compared 4", "no longer built 0",
            "newly built 2, as CUMMINS RETARDER EATON", "changes 1 breaks 0"]))

    def test_an_alternative_in_place_of_another_one(self) -> None:
        """Without EATON its two vehicles go, with VOLVO as many come."""
        _, lines = self.compared(LINE, LINE.replace("EATON", "VOLVO"))
        self.assertEqual([lines[0], *lines[2:]], [
            'choice ZF ALLISON VOLVO: of ["ZF", "ALLISON", "VOLVO"], it was ["ZF", "ALLISON", "EATON"] (old.toml:11)',
            "no longer built 2, as CUMMINS NO_RETARDER EATON", "newly built 2, as CUMMINS NO_RETARDER VOLVO", "changes 1 breaks 0"])

    def test_a_choice_that_one_line_has(self) -> None:
        """It doubles the vehicles but for the two with CAM and EATON that aren't built; by the choices of both they are the same. Four have each engine with the
        retarder and each gearbox."""
        more = '\n[[choice]]\nof = ["NO_CAM", "CAM"]\n[[never]]\nof = ["CAM", "EATON"]\n'
        _, lines = self.compared(LINE, LINE + more)
        self.assertEqual(lines, ["choice NO_CAM CAM: new", "never CAM EATON: new", "vehicles 14, it was 8; compared 4", "no longer built 0", "newly built 0",
                                 "changes 2 breaks 0"])
        self.assertIn("vehicles 8, it was 14; compared 4", self.compared(LINE + more, LINE)[1])

    def test_what_breaks_is_told_once_with_a_vehicle(self) -> None:
        """The retarder is heard by both engines and sent to by one, in vehicles with ZF alone."""
        status, lines = self.compared(LINE, LINE.replace("address = 15", "address = 16"))
        self.assertEqual((status, lines[0], lines[-1]), (1, "unit R: address 16, it was 15 (old.toml:31)", "changes 1 breaks 1"))
        self.assertRegex(lines[1], r"^breaks: R isn't found by all: it is at address 16, and not at 15 \(old.toml:31\) in (CUMMINS|DETROIT) RETARDER ZF$")
        told = json.loads("\n".join(self.compared(LINE, LINE.replace("address = 15", "address = 16"), "--json")[1]))
        self.assertEqual((told["breaks"][0]["receivers"], told["breaks"][0]["vehicle"][1:]), (["C", "D"], ["RETARDER", "ZF"]))
        self.assertEqual((told["vehicles"]["old"], told["vehicles"]["gone"]), (8, 0))

    def test_units_that_are_never_together_break_nothing(self) -> None:
        """Another layout of DETROIT's engine is nothing to who reads CUMMINS's; D hears nobody's EEC1, C isn't there with D, R is."""
        signal = '\n[[group]]\nlabel = "OWN"\npgn = 61443\npriority = 3\nlength = 8\n\n[[group.signal]]\nlabel = "S"\nbyte = 1\nbits = 8\nkind = "raw"\n'
        flow = '\n[[flow]]\ngroup = "OWN"\nfrom = "D"\nto = "all"\n'
        _, lines = self.compared(LINE + signal + flow, LINE + signal.replace("byte = 1", "byte = 2") + flow)
        told = [line for line in lines if line.startswith("breaks")]
        self.assertEqual(len(told), 1, lines)
        self.assertRegex(told[0], r"^breaks: R reads OWN.S of D wrongly: it lies at 2.1, 8 bits, and not at 1.1, 8 bits \(old.toml:\d+\) in DETROIT RETARDER ZF$")

    def test_an_age_counts_in_the_worst_vehicle(self) -> None:
        """A pause of 20 ms and a need within 40 ms: with a pause of 60 ms what comes is too old in each vehicle."""
        old = text_of(example("truck_line.toml"))
        flow = re.search(r"pause = (\d+)", old)
        assert flow is not None
        status, lines = self.compared(old, old.replace(flow[0], f"pause = {60000}", 1))
        told = [line for line in lines if line.startswith("breaks: ") and " younger: " in line]
        self.assertTrue(status == 1 and told and not any(" in " in line.rsplit(")", 1)[-1] for line in told), lines)

    def test_a_line_and_the_plan_of_one_vehicle_are_not_compared(self) -> None:
        status, told, said = answered(compare.main, example("line.toml"), example("truck.toml"))
        self.assertEqual((status, told), (1, ""))
        self.assertIn("line.toml: refused plan Choices  (--variant", said)


class Pairs(InFolder):
    def test_choices_are_paired_by_what_they_share(self) -> None:
        self.assertEqual(paired([["A", "B"], ["X", "Y", "Z"]], [["X", "W"], ["Y", "Z", "A"], ["B", "C"]]), {1: 1, 0: 2})

    def test_a_choice_that_is_parted(self) -> None:
        """Of A, B and C the first two stay one choice; with C there is another choice, so no vehicle is the one that had C."""
        old, new = (Line.of(Source("version = 4\n" + text)) for text in (
            '[[choice]]\nof = ["A", "B", "C"]\n', '[[choice]]\nof = ["A", "B"]\n[[choice]]\nof = ["C", "D"]\n[[never]]\nof = ["A", "C"]\n'))
        pair = LinePair(old, new)
        self.assertEqual(pair.counts(), (3, 3, 1, ["C"], 0, []))
        self.assertEqual(sorted(vehicle.new for vehicle in pair.vehicles() if vehicle.old == ["A"]), [["A", "D"]])

    def test_nothing_is_built_any_more(self) -> None:
        old = Line.of(Source('version = 4\n[[choice]]\nof = ["A", "B"]\n'))
        new = Line.of(Source('version = 4\n[[choice]]\nof = ["A", "B"]\n[[never]]\nof = ["A", "B"]\n'))
        self.assertEqual(LinePair(old, new).counts(), (2, 0, 2, ["A"], 0, []))
        self.assertEqual(LinePair(old, new).vehicles(), [])
