#!/usr/bin/env python3
"""Compares what `check`, `addresses` and `load` write of lines of vehicles with what they write of each of their variants: lines.py [PLANS [SEED]]

Each of so many random plans (200) has up to five choices; each third one has further choices, until it has more than 16,384 variants: of groups that
nobody sends, and of what isn't built together, so that variants differ of which the plans are alike but for such groups. Each plan of a possible variant is
written as a file and asked about by itself, without these groups; the findings are put at their places in the line's file, each once, with the witness and
the alternatives that are to stand behind ` in`, by sets of alternatives and none of the program's definitions; so are who stays and the worst times, and how
many full variants there are. J39PLAN names the program, else ./j39plan is asked. The status is 1 where an answer differs, which is shown.
"""
from __future__ import annotations

import math
import os
import random
import sys

from reference_line import IDLE, KINDS, Line, Table, ask, value

# So many variants have the lines with further choices at least.
MANY = 16_384


class Dice:
    """A random line in the making: its choices, of which there are so many at most, and its tables one by one."""

    def __init__(self, rng: random.Random, most: int) -> None:
        self.rng = rng
        choices = [[f"{letter}{number}" for number in range(rng.choice((2, 2, 2, 3)))] for letter in "ABCDE"[:rng.randint(1, most)]]
        self.choices = [choice[:2] for choice in choices] if len(choices) == 5 else choices

    def labels(self, chance: float) -> list[str]:
        """With this chance, alternatives of one or two choices."""
        if self.rng.random() > chance:
            return []
        some = self.rng.sample(self.choices, min(len(self.choices), self.rng.choice((1, 1, 1, 2))))
        return [label for choice in some for label in self.rng.sample(choice, self.rng.randint(1, len(choice) - 1))]

    def nevers(self) -> list[list[str]]:
        """Alternatives that no vehicle has together."""
        known = [label for choice in self.choices for label in choice]
        return [self.rng.sample(known, min(len(known), self.rng.choice((1, 2, 2, 3)))) for _ in range(self.rng.choice((0, 0, 1, 2)))]

    def unit(self, number: int, is_pooled: bool) -> Table:
        """A unit, half of a pool at an address of 128 to 247."""
        rng = self.rng
        address = rng.choice((128, 129, 130)) if is_pooled and rng.random() < 0.5 else rng.choice((0, 3, 7, 11, 15, 23))
        name: Table = {"identity": number + 1} if rng.random() < 0.95 else {"identity": 1}
        if address >= 128 and rng.random() < 0.8:
            name["arbitrary"] = True
        return {"label": f"U{number}", "address": address, "name": name, "with": self.labels(0.6)}

    def group(self, number: int) -> Table:
        """A group."""
        rng = self.rng
        pgn, length = rng.choice(((61444, 8), (65260, 18), (0, 8), (65300, 8), (65301, 8), (61184, 8), (59904, 3)))
        one: Table = {"label": f"G{number}", "pgn": pgn, "priority": rng.choice((3, 6)), "length": length, "with": self.labels(0.3)}
        if pgn in (65300, 65301, 61184) and rng.random() < 0.9:
            one["private"] = True
        return one

    def ends(self, units: list[Table], groups: list[Table]) -> Table:
        """A group with a sender and a receiver."""
        sender, to = self.rng.choice(units)["label"], self.rng.choice(units)["label"]
        return {"group": self.rng.choice(groups)["label"], "from": sender, "to": "all" if self.rng.random() < 0.6 else to}

    def flow(self, units: list[Table], groups: list[Table]) -> Table:
        """A flow."""
        rng, one = self.rng, {**self.ends(units, groups), "with": self.labels(0.4)}
        if rng.random() < 0.2:
            one["on_request"] = True
        if rng.random() < 0.8:
            one["period"] = rng.choice((5, 10, 20, 100))
            if rng.random() < 0.5 and not one.get("on_request"):
                one["pause"] = int(str(one["period"])) * 2
            if rng.random() < 0.3:
                one["deadline"] = rng.choice((1, 2, 5))
        return one

    def need(self, units: list[Table], groups: list[Table], is_timed: bool) -> Table:
        """A need."""
        rng = self.rng
        one: Table = {"unit": rng.choice(units)["label"], "group": rng.choice(groups)["label"], "with": self.labels(0.4)}
        if rng.random() < 0.3:
            one["from"] = rng.choice(units)["label"]
        if is_timed and rng.random() < 0.6:
            one["within"] = rng.choice((5, 21, 22, 41, 42, 100))
        return one

    def top(self, is_pooled: bool, is_timed: bool) -> str:
        """The top of the plan."""
        rng, text = self.rng, "version = 4\n"
        if is_pooled and rng.random() < 0.7:
            text += f"keep_free = {value(list(range(130, 248)))}\n"
        text += rng.choice(("", "", "strangers = 1\n", "live = true\n"))
        return text + (f"\n[timing]\nbitrate = {rng.choice((125000, 250000, 500000))}\nunplanned = 0\n" if is_timed else "")


def random_line(rng: random.Random, most: int = 5) -> Line:
    """A random line of vehicles, of so many choices at most."""
    dice = Dice(rng, most)
    nevers, is_pooled = dice.nevers(), rng.random() < 0.4
    units = [dice.unit(number, is_pooled) for number in range(rng.randint(2, 6))]
    groups = [dice.group(number) for number in range(rng.randint(1, 4))]
    is_timed = rng.random() < 0.6
    flows = [dice.flow(units, groups) for _ in range(rng.randint(1, 8))]
    needs = [dice.need(units, groups, is_timed) for _ in range(rng.randint(0, 4))]
    requests: list[Table] = [{**dice.ends(units, groups), "with": dice.labels(0.4)} for _ in range(rng.randint(0, 3))]
    tables = {"unit": units, "group": groups, "flow": flows, "need": needs, "request": requests}
    return Line(dice.top(is_pooled, is_timed), dice.choices, nevers, tables)


def timed_line(rng: random.Random, most: int = 5) -> Line:
    """A random line of vehicles nothing of which hides its times, of so many choices at most."""
    line = random_line(rng, most)
    for number, unit in enumerate(line.tables["unit"]):
        unit["address"], unit["name"] = (0, 3, 7, 11, 15, 23)[number], {"identity": number + 1}
    for number, group in enumerate(line.tables["group"]):
        group.pop("private", None)
        group["pgn"], group["length"] = rng.choice(((65262 + number, 8), (65262 + number, 8), (65252 + number, 18 + 9 * number)))
    flows: dict[tuple[object, object], Table] = {}
    for flow in line.tables["flow"]:
        flow["to"] = "all"
        if "period" in flow and rng.random() < 0.2:
            flow["deadline"] = rng.choice((50, 200))
        flows.setdefault((flow["group"], flow["from"]), flow)
    for need in line.tables["need"]:
        need["within"] = rng.choice((5, 21, 22, 41, 42, 100, 300))
    tables = {**line.tables, "flow": list(flows.values()), "request": [one for one in line.tables["request"] if one["from"] != one["to"]]}
    top = line.top if "bitrate" in line.top else f"{line.top}\n[timing]\nbitrate = {rng.choice((125000, 250000, 500000))}\nunplanned = 0\n"
    return Line(top, line.choices, line.nevers, tables)


def widened(rng: random.Random, line: Line) -> Line:
    """The line with further choices, until it has many variants: options and alternatives of groups that nobody sends, some of which aren't built with
    others, and choices that nothing names. A few tables go by these too."""
    choices, nevers, tables = list(line.choices), list(line.nevers), {kind: [dict(table) for table in line.tables[kind]] for kind in KINDS}
    kinds = rng.choice((("both",), ("never", "option"), ("option", "none"), ("both", "never", "option", "none"), ("never",)))
    further: list[str] = []
    while math.prod(map(len, choices)) <= MANY:
        known, kind = [label for choice in choices for label in choice], rng.choice(kinds)
        new = [f"{'VWXYZ'[len(choices) % 5]}{len(choices)}{letter}" for letter in "ABC"[:rng.choice((2, 2, 2, 3))]]
        choices.insert(rng.randrange(len(choices) + 1), new)
        for label in {"both": new, "never": new[1:], "option": new[-1:], "none": new[:0]}[kind]:
            number = len(tables["group"])
            tables["group"].append({"label": f"{IDLE}{number}", "pgn": 64600 + number, "priority": 6, "length": 8, "with": [label]})
            if kind == "never":
                nevers.append([label, *rng.sample(known, min(len(known), rng.choice((1, 1, 2))))])
        further += new
    for _ in range(rng.choice((0, 1, 1, 2))):
        table = rng.choice(rng.choice([tables[kind] for kind in KINDS if tables[kind]]))
        if not str(table.get("label", "")).startswith(IDLE):
            some = table["with"]
            assert isinstance(some, list)
            table["with"] = [*some, rng.choice(further)]
    return Line(line.top, choices, nevers, tables)


def any_line(rng: random.Random, number: int) -> Line:
    """A random line: each second one a timed one, each third one with many variants."""
    make = timed_line if number % 2 else random_line
    return widened(rng, make(rng, 3)) if number % 3 == 2 else make(rng)


def main(words: list[str]) -> int:
    """Compares random lines."""
    plans, seed = (int(word) for word in [*words, *("200", "1")[len(words):]])
    rng = random.Random(seed)
    counts: dict[str, int] = {}
    refused = differences = timed = 0
    for number in range(plans):
        line = any_line(rng, number)
        written = ask("check", line.text())
        if not written or written[0].startswith("refused"):
            refused += 1
            if os.environ.get("SHOW"):
                print(written)
            continue
        try:
            told = line.told()
            wanted = {"check": line.answer(told), "addresses": line.addresses(told), "load": line.load(told)}
        except ValueError as error:
            print(f"plan {number}: a variant is refused: {error}")
            differences += 1
            continue
        for one in wanted["check"]:
            counts[one.split()[0]] = counts.get(one.split()[0], 0) + 1
        for command, lines in wanted.items():
            answer = written if command == "check" else ask(command, line.text())
            timed += bool(answer) and answer[0].startswith("flow")
            if lines != answer:
                differences += 1
                print(f"{command} of plan {number} of seed {seed} differs\n{line.text()}", "wanted", *lines, "written", *answer, sep="\n")
    print(f"plans {plans} refused {refused} differences {differences} timed {timed}", *(f"{key} {count}" for key, count in sorted(counts.items()) if key))
    return 1 if differences else 0


if __name__ == "__main__":
    sys.exit(main(sys.argv[1:]))
