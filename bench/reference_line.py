"""A line of vehicles, with what `check`, `addresses` and `load` are to write of it by what they write of each of its variants."""
from __future__ import annotations

import math
import os
import subprocess
import tempfile
from collections.abc import Callable
from pathlib import Path

TOP = Path(__file__).resolve().parent.parent
PROGRAM = os.environ.get("J39PLAN", str(TOP / "j39plan"))
KINDS = ("unit", "group", "flow", "need", "request")
OF_TIMES = ("F3", "F17", "F18", "F20", "F31")
HIDING = ("F1", "F2", "F3", "F4", "F5", "F9", "F10", "F11", "F12", "F26", "F27", "F28", "F30")
OF_ADDRESSES = ("F1", "F2", "F3", "F12", "F26", "F27", "F30")
# So many full variants are looked at; groups that nobody sends begin with IDLE.
LOOKED, IDLE = 1024, "IDLE"
Table = dict[str, object]
Found = tuple[list[str], list[tuple[str, int]], list[str]]


def ask(command: str, text: str) -> list[str]:
    """The lines that a command writes of a plan."""
    with tempfile.NamedTemporaryFile("w", suffix=".toml", encoding="utf-8") as file:
        file.write(text)
        file.flush()
        return subprocess.run([PROGRAM, command, file.name], stdout=subprocess.PIPE, stderr=subprocess.DEVNULL, check=False, text=True).stdout.splitlines()


def value(it: object) -> str:
    """A value of a plan's file."""
    if isinstance(it, bool):
        return str(it).lower()
    if isinstance(it, list):
        return "[" + ", ".join(map(value, it)) + "]"
    if isinstance(it, dict):
        return "{ " + ", ".join(f"{key} = {value(other)}" for key, other in it.items()) + " }"
    return f'"{it}"' if isinstance(it, str) else str(it)


class Line:
    """A line of vehicles: its choices, the boxes that aren't built, and its tables by their kinds. A variant, and a box, is a number with a bit for each
    alternative."""

    def __init__(self, top: str, choices: list[list[str]], nevers: list[list[str]], tables: dict[str, list[Table]]) -> None:
        self.top, self.choices, self.nevers, self.tables = top, choices, nevers, tables
        self.bits = {label: 1 << number for number, label in enumerate(label for choice in choices for label in choice)}
        self.sets = [sum(self.bits[label] for label in choice) for choice in choices]
        self.never_boxes = [self.of_list(never) for never in nevers]
        self.boxes = {(kind, number): self.box(kind, number) for kind in KINDS for number in range(len(tables[kind]))}
        used = {place for place in self.boxes if not str(self.tables[place[0]][place[1]].get("label", "")).startswith(IDLE)}
        self.used = [place for place in self.boxes if place in used]
        # the alternatives of the choices by which plans differ, such groups aside
        self.telling = sum(choice for choice in self.sets if any(choice & ~self.boxes[place] for place in used))
        self.known: dict[str, list[Found]] = {}
        self.of_variant: dict[int, list[Found]] = {}

    def text(self, there: dict[str, list[int]] | None = None) -> str:
        """The text of its plan, or of the plan of those tables."""
        parts = [self.top]
        if there is None:
            parts += [f"[[choice]]\nof = {value(choice)}\n" for choice in self.choices] + [f"[[never]]\nof = {value(never)}\n" for never in self.nevers]
        for kind in KINDS:
            for number in range(len(self.tables[kind])) if there is None else there[kind]:
                table = self.tables[kind][number]
                parts.append(f"[[{kind}]]\n" + "".join(f"{key} = {value(it)}\n" for key, it in table.items() if key != "with" or there is None and it))
        return "\n".join(parts)

    def of_list(self, labels: object) -> int:
        """The alternatives that the box of a list has."""
        assert isinstance(labels, list)
        named = sum(self.bits[label] for label in set(labels))
        return sum(choice & named or choice for choice in self.sets)

    def place(self, kind: str, label: object) -> int:
        """The place of what has a label."""
        return next(number for number, table in enumerate(self.tables[kind]) if table["label"] == label)

    def box(self, kind: str, number: int) -> int:
        """The alternatives of the box in which a table is there, a need asked for."""
        table = self.tables[kind][number]
        found = self.of_list(table.get("with", []))
        for key, other in (("unit", "unit"), *((("group", "group"), ("from", "unit"), ("to", "unit")) if kind in ("flow", "request") else ())):
            if key in table and table[key] != "all":
                found &= self.box(other, self.place(other, table[key]))
        return found

    def meet(self, *boxes: int) -> bool:
        """Whether some variant, possible or not, is in each of these boxes."""
        return all(self.in_all(boxes) & choice for choice in self.sets)

    def in_all(self, boxes: tuple[int, ...]) -> int:
        """The alternatives that are in each of these boxes."""
        both = -1
        for box in boxes:
            both &= box
        return both

    def variants(self, is_built: bool = True) -> list[int]:
        """Its variants, in order; those that are built, or all."""
        all_of_it = [0]
        for choice in self.choices:
            all_of_it = [taken | self.bits[label] for taken in all_of_it for label in choice]
        return [taken for taken in all_of_it if all(taken & ~never for never in self.never_boxes)] if is_built else all_of_it

    def labels(self, taken: int) -> list[str]:
        """The alternatives that a variant takes."""
        return [label for label, bit in self.bits.items() if taken & bit]

    # ---- full alternatives

    def serves(self, request: Table, flow: Table) -> bool:
        """Whether a flow answers a request."""
        return (flow["group"] == request["group"] and flow["from"] != request["from"] and request["to"] in ("all", flow["from"])
                and flow["to"] in ("all", request["from"]))

    def brings(self, need: Table, flow: Table) -> bool:
        """Whether a flow brings what is needed, once it is asked for."""
        return (flow["group"] == need["group"] and flow["from"] != need["unit"] and need.get("from", flow["from"]) == flow["from"]
                and flow["to"] in ("all", need["unit"]))

    def sources(self, number: int) -> list[int]:
        """The boxes of what brings what a need asks for."""
        found = []
        for place, flow in enumerate(self.tables["flow"]):
            if self.brings(self.tables["need"][number], flow):
                if flow.get("on_request"):
                    found += [self.boxes["flow", place] & self.boxes["request", asked] for asked, request in enumerate(self.tables["request"])
                              if self.serves(request, flow)]
                else:
                    found.append(self.boxes["flow", place])
        return found

    def covers(self, more: int, less: int, need: int | None, is_built: bool) -> bool:
        """Whether an alternative covers another one, for a need where there is one."""
        lists = [self.of_list(table.get("with", [])) for kind in KINDS if kind != "need" for table in self.tables[kind]]
        nevers = self.never_boxes if is_built else []
        alike = [] if need is None else [box for box in self.sources(need) if self.meet(box, self.boxes["need", need])]
        return (all(more & it for it in lists if less & it) and all(less & it for it in nevers if more & it)
                and all(bool(more & it) == bool(less & it) for it in alike))

    def full(self, need: int | None = None, is_built: bool = True) -> int:
        """The full alternatives, for a need where there is one."""
        found = 0
        for choice in self.choices:
            these = [self.bits[label] for label in choice if need is None or self.bits[label] & self.boxes["need", need]]
            found |= sum(bit for bit in these if all(self.covers(bit, other, need, is_built) and other > bit
                                                     for other in these if other != bit and self.covers(other, bit, need, is_built)))
        return found

    def fulls(self, is_built: bool = True) -> dict[int | None, int]:
        """The full alternatives of the line, and those for each need of which an age is asked."""
        needs = [number for number, need in enumerate(self.tables["need"]) if "within" in need and "bitrate" in self.top]
        return {need: self.full(need, is_built) for need in (None, *needs)}

    def number(self, is_built: bool = True) -> int:
        """How many full variants count."""
        some = {one for one in self.fulls(is_built).values() if all(one & choice for choice in self.sets)}
        return sum(math.prod((one & choice).bit_count() for choice in self.sets) for one in some if not any(one != other and one & ~other == 0 for other in some))

    def many(self) -> int | None:
        """How many full variants there are, where they are too many, and those of the line without its nevers don't do."""
        count = self.number()
        if count <= LOOKED:
            return None
        whole = {kind: list(range(len(self.tables[kind]))) for kind in KINDS}
        if self.number(False) > LOOKED or any(line.startswith("F4 ") for line in ask("check", self.text(whole))):
            return count
        counted = {taken & self.telling: taken for taken in self.variants(False)}
        return count if any(self.goes_by_full(words, places) for taken in counted.values() for words, places, _ in self.found(taken)) else None

    # ---- findings

    def there(self, taken: int) -> dict[str, list[int]]:
        """The tables of the plan of a variant, groups that nobody sends aside."""
        found: dict[str, list[int]] = {kind: [] for kind in KINDS}
        for kind, number in self.used:
            table, box = self.tables[kind][number], self.boxes[kind, number]
            if kind == "need":
                box &= self.boxes["group", self.place("group", table["group"])]
                box &= self.boxes["unit", self.place("unit", table["from"])] if "from" in table else -1
            if not taken & ~box:
                found[kind].append(number)
        return found

    def in_file(self, words: list[str], there: dict[str, list[int]]) -> tuple[list[str], list[tuple[str, int]]]:
        """The words of a finding of a variant at the places in the file, and what stands at these."""
        kind = {"9": "flow", "10": "flow", "11": "flow", "16": "flow", "18": "flow", "28": "flow", "31": "flow", "19": "need", "20": "need", "21": "request", "22": "request",
                "23": "request", "25": "request", "1": "unit", "2": "unit", "12": "unit", "26": "unit", "27": "unit", "3": "", "17": ""}.get(words[0][1:], "group")
        if kind in ("flow", "need", "request"):
            places = [there[kind][int(word) - 1] for word in words[2:]]
            return [*words[:2], *(str(place + 1) for place in places)], [(kind, place) for place in places]
        count = {"1": 2, "2": 2, "5": 2, "26": 2}.get(words[0][1:], 1) if kind else 0
        return words, [(kind, self.place(kind, word)) for word in words[2:2 + count]]

    def found(self, taken: int) -> list[Found]:
        """The findings of a variant: their words, what stands at their places, and the lines below them."""
        key = taken & self.telling
        if key not in self.of_variant:
            there = self.there(taken)
            asked = [number for number in range(len(self.tables["need"])) if not taken & ~self.boxes["need", number]]
            if str((there, asked)) not in self.known:
                self.known[str((there, asked))] = self.looked_for(there, asked)
            self.of_variant[key] = self.known[str((there, asked))]
        return self.of_variant[key]

    def looked_for(self, there: dict[str, list[int]], asked: list[int]) -> list[Found]:
        """The findings of a variant, by what `check` writes of its plan, and by the needs that are asked for in it."""
        answer: list[Found] = []
        for line in ask("check", self.text(there)):
            if line.startswith("F"):
                answer.append((*self.in_file(line.split(), there), []))
            elif line.startswith(" "):
                answer[-1][2].append(line)
            elif not line.startswith(("ok ", "findings ")):
                raise ValueError(line)
        return answer + [(["F19", "NeedUnmet", str(number + 1)], [("need", number)], []) for number in asked if number not in there["need"]]

    def ends_in_pool(self, flow: Table) -> bool:
        """Whether an end of a flow is planned at an address of 128..247."""
        return any(128 <= int(str(unit["address"])) <= 247 for unit in self.tables["unit"] if unit["label"] in (flow["from"], flow["to"]))

    def goes_by_full(self, words: list[str], places: list[tuple[str, int]]) -> bool:
        """Whether the witness of a finding is a full variant."""
        return words[0] in OF_TIMES or words[0] == "F28" and self.ends_in_pool(self.tables["flow"][places[0][1]])

    def flows_where(self, test: Callable[[Table], bool]) -> list[int]:
        """The boxes of the flows that pass a test."""
        return [self.boxes["flow", place] for place, flow in enumerate(self.tables["flow"]) if test(flow)]

    def sent_together(self, one: Table, other: Table) -> list[list[int]]:
        """The boxes of each two flows by which one unit sends two groups to receivers that meet."""
        short = all(int(str(group["pgn"])) & 0xFF00 >= 0xF000 and int(str(group["length"])) <= 8 for group in (one, other))
        return [[self.boxes["flow", place], self.boxes["flow", at]]
                for place, flow in enumerate(self.tables["flow"]) if flow["group"] == one["label"]
                for at, beside in enumerate(self.tables["flow"]) if beside["group"] == other["label"] and beside["from"] == flow["from"]
                and (short or "all" in (flow["to"], beside["to"]) or flow["to"] == beside["to"])]

    def conditions(self, number: str, places: list[tuple[str, int]]) -> list[tuple[list[int], list[int]]]:
        """The conditions of a finding: the boxes of what has to be there, and those of what mustn't be."""
        tables, boxes = [self.tables[kind][place] for kind, place in places], [self.boxes[place] for place in places]
        if number == "F13":
            return [(boxes, self.flows_where(lambda flow: flow["group"] == tables[0]["label"]))]
        if number == "F5" and all(table.get("private") for table in tables):
            return [(boxes + both, []) for both in self.sent_together(*tables)]
        if number == "F19":
            return [(boxes, self.sources(places[0][1]))]
        if number in ("F21", "F22"):
            return [(boxes, self.flows_where(lambda flow: self.serves(tables[0], flow)))]
        if number == "F23":
            right = self.flows_where(lambda flow: self.serves(tables[0], flow) and (flow["to"] == "all") == (tables[0]["to"] == "all"))
            wrong = self.flows_where(lambda flow: self.serves(tables[0], flow) and (flow["to"] == "all") != (tables[0]["to"] == "all"))
            return [([*boxes, box], right) for box in wrong]
        if number == "F28":
            ends = [unit for unit in self.tables["unit"] if unit["label"] in (tables[0]["from"], tables[0]["to"])]
            return [([*boxes, self.boxes["unit", place]], []) for place, unit in enumerate(self.tables["unit"])
                    if any(unit["label"] != end["label"] and unit["address"] == end["address"] for end in ends)]
        return [(boxes, [])]

    def narrowed(self, boxes: list[int], taken: int) -> list[str]:
        """What a variant takes of each choice of which one of these boxes lacks an alternative."""
        return [label for label, choice in zip(self.labels(taken), self.sets) if any(choice & ~box for box in boxes)]

    def behind(self, words: list[str], places: list[tuple[str, int]], taken: int) -> list[str]:
        """What stands behind a finding of the line, by its witness: what narrows the first of its conditions that it meets, or nothing."""
        if words[0] == "F31":
            asking = [self.boxes["request", place] for place, request in enumerate(self.tables["request"])
                      if "period" in request and self.serves(request, self.tables["flow"][places[0][1]])]
            met = [self.narrowed([self.boxes[places[0]], *asking], taken)]
        elif self.goes_by_full(words, places):
            met = [self.labels(taken)]
        else:
            met = [self.narrowed(together + [box for box in lacking if self.meet(*together, box)], taken) for together, lacking in self.conditions(words[0], places)
                   if not any(taken & ~box for box in together) and all(taken & ~box for box in lacking)]
        told = next((labels for labels in met if not labels), met[0])
        return ["in", *told] if told else []

    def best(self) -> list[tuple[list[str], list[tuple[str, int]], list[str]]]:
        """What is to be told of the line: each finding with its words, its places and the lines below it."""
        fulls = self.fulls()
        # the first variant of those whose plans are alike, of all and of the full ones
        first: dict[int | None, dict[int, tuple[int, int]]] = {need: {} for need in (-1, *fulls)}
        for order, taken in enumerate(self.variants()):
            key = taken & self.telling
            first[-1].setdefault(key, (order, taken))
            for need, some in fulls.items():
                if not taken & ~some:
                    first[need].setdefault(key, (order, taken))
        best: dict[str, tuple[tuple[int, list[int]], tuple[int, bool, int], Found]] = {}
        for key, (order, taken) in first[-1].items():
            for words, places, below in self.found(taken):
                amount = int(words[2]) if words[0] in ("F3", "F17") else 0
                counted = self.goes_by_full(words, places)
                full = first[places[0][1] if words[0] == "F20" else None].get(key) if counted else None
                at, witness = full or (order, taken)
                known = (int(words[0][1:]), [place for _, place in places])
                rank = (-amount, counted and full is None, at)
                if str(known) not in best or rank < best[str(known)][1]:
                    best[str(known)] = (known, rank, ([*words, *self.behind(words, places, witness)], places, below))
        return [one for _, _, one in sorted(best.values(), key=lambda one: one[0])]

    def told(self) -> list[Found]:
        """What is to be told of the line, with how many variants there are where they are too many."""
        if not self.variants():
            return [(["F29", "NoVariant"], [], [])]
        many = self.many()
        if many is None:
            return self.best()
        return [*(one for one in self.best() if not self.goes_by_full(*one[:2])), (["F30", "ManyVariants", str(many)], [], [])]

    def answer(self, told: list[Found]) -> list[str]:
        """What `check` is to write of the line."""
        if not told:
            return ["ok " + " ".join(f"{len(self.tables[kind])} {kind}s" for kind in KINDS[:3]) + f" {len(self.choices)} choices"]
        return [line for words, _, below in told for line in (" ".join(words), *below)] + [f"findings {len(told)}"]

    def apart(self) -> list[int]:
        """A variant of each plan at which is looked: where there are too many, of the line without its nevers."""
        return list({taken & self.telling: taken for taken in self.variants(self.number() <= LOOKED)}.values())

    def addresses(self, told: list[Found]) -> list[str]:
        """What `addresses` is to write of the line."""
        if any(words[0] in (*OF_ADDRESSES, "F29") for words, _, _ in told):
            return self.answer(told)
        there = [line for taken in self.apart() for line in ask("addresses", self.text(self.there(taken))) if line.startswith("unit ")]
        built = self.variants()
        lines = []
        for number, unit in enumerate(self.tables["unit"]):
            is_built = any(not taken & ~self.boxes["unit", number] for taken in built)
            these = [line for line in there if is_built and line.split()[1] == unit["label"]]
            lines.append(min(these, key=lambda line: " stays " in line, default=f"unit {unit['label']} no variant"))
        return [*lines, f"stay {sum(' stays ' in line for line in lines)} of {len(lines)}"]

    def times(self, taken: int) -> dict[tuple[str, int], str]:
        """What `load` writes of the flows and needs of a variant's plan, by their places in the file, and its load."""
        there, told = self.there(taken), {}
        for line in ask("load", self.text(there)):
            words = line.split()
            if words[0] in ("flow", "need"):
                place = there[words[0]][int(words[1]) - 1]
                rest = line[len(" ".join(words[:5 if words[0] == "flow" else 4])):]
                if words[0] == "need" and " flow " in rest:
                    rest, flow = rest.split(" flow ")
                    rest += f" flow {there['flow'][int(flow) - 1] + 1}"
                told[words[0], place] = rest
            elif words[0] == "load":
                told["load", 0] = line
        return told

    def load(self, found: list[Found]) -> list[str]:
        """What `load` is to write of the line."""
        if "bitrate" not in self.top:
            return ["refused plan NoTiming"]
        if any(words[0] in (*HIDING, "F29") for words, _, _ in found):
            return self.answer(found)
        each, built = [self.times(taken) for taken in self.apart()], self.variants()
        unmet = [places[0][1] for words, places, _ in found if words[0] == "F19"]

        def worst(kind: str, place: int) -> str:
            if kind == "need" and place in unmet:
                return f" unmet of {self.tables['need'][place]['within']}000 us"
            if all(taken & ~self.boxes[kind, place] for taken in built):
                return " no variant"
            return max((told[kind, place] for told in each if (kind, place) in told and "unmet" not in told[kind, place]), key=badness, default=" no variant")

        lines = [f"flow {number + 1} {flow['group']} {flow['from']} {flow['to']}{worst('flow', number)}" for number, flow in enumerate(self.tables["flow"])]
        lines += [f"need {number + 1} {need['unit']} {need['group']}{worst('need', number)}" for number, need in enumerate(self.tables["need"])
                  if "within" in need]
        lines.append(max((told["load", 0] for told in each), key=lambda line: int(line.split()[1])))
        others = [one for one in found if one[0][0] not in ("F17", "F18", "F20")]
        return [*lines, *(self.answer(others) if others else [])]


def badness(told: str) -> tuple[int, int]:
    """How bad a time of a flow or a need is, and how long it is."""
    words = told.split()
    if words[0] == "unmet" or words[:2] == ["late", "of"] or words[:2] == ["old", "of"] or words[0] == "frames" and words[2:4] == ["late", "of"]:
        return (4 if words[0] == "unmet" else 3, 0)
    if words[0] == "frames" and "within" not in words and "late" not in words:
        return (3, 0)
    late = words[0] == "late" or words[0] == "old" or "late" in words
    number = next((int(word) for before, word in zip(words, words[1:]) if before in ("within", "late", "age", "old")), 0)
    return (2 if late else 1, number)
