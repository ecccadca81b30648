"""How many vehicles of a line can be built, and which of its alternatives may not be meant."""

import itertools
import json
import unittest

from j39plan import program
from j39plan.cli import variant
from j39plan.plan.diagram import Diagram, cover, is_allowed, of_line
from j39plan.plan.hints import alternatives
from j39plan.plan.parts import Source
from j39plan.plan.variants import Line
from tests.support import InFolder, answered, example, text_of, there


def options(count: int) -> list[list[str]]:
    """So many choices of two."""
    return [[f"A{number}", f"B{number}"] for number in range(count)]


class Counted(InFolder):
    def test_vehicles_and_those_with_each_alternative(self) -> None:
        """Two engines, a retarder with one of three gearboxes alone: 2 * (3 + 1)."""
        status, answer, _ = answered(variant.main, "--count", example("line.toml"))
        self.assertEqual((status, answer), (0, "vehicles 8\nchoice 1 CUMMINS 4, DETROIT 4\nchoice 2 NO_RETARDER 6, RETARDER 2\nchoice 3 ZF 4, ALLISON 2, EATON 2\n"))

    def test_2_to_the_30_vehicles_are_counted_at_once(self) -> None:
        """B29 is in none, so 2^29 are left; A3 and A17 aren't built together, which takes a quarter."""
        text = "version = 4\n" + "".join(f'[[choice]]\nof = ["{a}", "{b}"]\n' for a, b in options(30))
        plan = self.write("line.toml", text + '[[never]]\nof = ["A3", "A17"]\n[[never]]\nof = ["B29"]\n')
        status, answer, _ = answered(variant.main, "--count", "--json", plan)
        told = json.loads(answer)
        self.assertEqual((status, told["vehicles"], told["nowhere"]), (0, (1 << 29) * 3 // 4, ["B29"]))
        self.assertEqual((told["choices"][3], told["choices"][29]), ({"A3": 1 << 27, "B3": 1 << 28}, {"A29": 3 << 27, "B29": 0}))

    def test_nothing_can_be_built(self) -> None:
        plan = self.write("line.toml", 'version = 4\n[[choice]]\nof = ["A", "B"]\n[[never]]\nof = ["A", "B"]\n')
        self.assertEqual(answered(variant.main, "--count", plan)[:2], (1, "vehicles 0\nchoice 1 A 0, B 0\nnowhere A\nnowhere B\n"))

    def test_what_can_not_be_counted(self) -> None:
        self.write("half.toml", text_of(example("line.toml"))[:130])
        with open(self.path("wide.toml"), "wb") as file:
            file.write(text_of(example("line.toml")).encode("utf-16"))
        self.write("empty.toml", "")
        for name, status, said in (("half.toml", 2, ":7: refused Text"), ("wide.toml", 2, ":1: refused Text  (this is UTF-16: save the file as UTF-8)"), ("empty.toml", 2, ":1: refused "),
                                   ("none.toml", 4, ": No such file or directory"), (".", 4, ": Is a directory")):
            told = answered(variant.main, "--count", self.path(name))
            self.assertEqual((told[:2], told[2].count("\n")), ((status, ""), 1), told)
            self.assertIn(f"{self.path(name)}{said}", told[2])
        for words in ([example("truck.toml")], [example("line.toml"), "DETROIT"]):
            self.assertEqual(answered(variant.main, "--count", *words)[:2], (2, ""))

    def test_the_diagram_has_the_vehicles_that_are_built(self) -> None:
        """Of each set of nevers over two choices of two and one of three; the vehicles themselves are gone through."""
        choices = [["A", "B"], ["X", "Y"], ["L", "M", "N"]]
        nevers = [["A", "X"], ["B", "L", "M"], ["Y", "N"], ["M"], ["A", "B", "L"]]
        for some in itertools.chain.from_iterable(itertools.combinations(nevers, size) for size in range(4)):
            line = Line({("choice", 1): choices[0], ("choice", 2): choices[1], ("choice", 3): choices[2],
                         **{("never", number): never for number, never in enumerate(some, 1)}}, {})
            built = [set(taken) for taken in itertools.product(*choices) if not any(line.is_in(set(taken), never) for never in some)]
            diagram = of_line(line)
            self.assertEqual(diagram.count(), len(built), some)
            self.assertEqual(diagram.counts(), {label: sum(label in taken for taken in built) for choice in choices for label in choice})
            for label in "ABXYLMN":
                taken = diagram.some(there(diagram.allowed([[label]])))
                self.assertTrue(any(label in one for one in built) if taken else not any(label in one for one in built), (some, label))
                self.assertTrue(taken is None or set(taken) in built)

    def test_a_diagram_that_is_too_large_is_refused(self) -> None:
        """Each choice of the first half has a never with one of the second, in an order in which all are open between the halves."""
        choices, half = [[f"C{number}L{label}" for label in range(64)] for number in range(32)], 16
        nevers = [[f"C{one}L{label}", f"C{half + (one * 7 + label) % half}L{label}"] for one in range(half) for label in range(16)]
        with self.assertRaises(program.Refused) as refused:
            Diagram(choices, nevers)
        self.assertEqual(refused.exception.status, program.MEMORY)

    def test_few_vehicles_have_all_that_is_wanted(self) -> None:
        """Each pair of alternatives of three choices of two: four vehicles have all twelve pairs."""
        diagram = Diagram(options(3), [])
        pairs = [{one: frozenset([first]), other: frozenset([second])} for one, other in itertools.combinations(range(3), 2)
                 for first in options(3)[one] for second in options(3)[other]]
        found = cover(diagram, pairs)
        self.assertEqual(len(found), 4)
        self.assertTrue(all(any(is_allowed(taken, pair) for taken in found) for pair in pairs))


class Hints(unittest.TestCase):
    def test_an_alternative_in_no_vehicle(self) -> None:
        text = text_of(example("line.toml"))
        source = Source(text + '[[never]]\nof = ["EATON"]\n')
        self.assertEqual(list(alternatives.nowhere(source)), [(11, "alternative EATON: no vehicle that can be built has it")])
        self.assertEqual(list(alternatives.nowhere(Source(text))), [])
        none = Source(text + '[[never]]\nof = ["CUMMINS", "DETROIT"]\n')  # F29 says it
        self.assertEqual(list(alternatives.nowhere(none)), [])

    def test_alternatives_that_bring_the_same(self) -> None:
        text = text_of(example("line.toml"))
        self.assertEqual(list(alternatives.alike(Source(text))), [(11, "alternatives ALLISON and EATON: they bring the same")])
        told = Source(text + '[[never]]\nof = ["EATON", "DETROIT"]\n')
        self.assertEqual(list(alternatives.alike(told)), [(11, "alternatives ALLISON and EATON: they bring the same, and only a never tells them apart")])
        self.assertEqual(list(alternatives.alike(Source(text.replace(', "EATON"]', "]")))), [])
