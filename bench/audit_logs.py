#!/usr/bin/env python3
"""Compares which flows and packets `audit` tells as near or silent, or late, which units as deaf, which claims, and which frames of sessions, with a reference in Python:
audit_logs.py [LOGS [SEED]]

Each of so many random logs (200) is of a random plan of five units: frames that keep their distances or don't, messages that deviate from their group, claims
of these units and of others with smaller NAMEs or larger ones, requests for claims, messages that may be of several flows, clocks that are set back, gaps, lines
that are bad or without a time. The reference follows pages, not the program, but for response times, which `load` answers.
J39PLAN names the program, else ./j39plan is asked. The status is 1 where an answer differs, which is shown.
"""

from __future__ import annotations

import os
import random
import re
import subprocess
import sys
import tempfile
from pathlib import Path

sys.dont_write_bytecode = True
from audit_plans import ALL, CLAIM, CLAIMS_ASKED, FRAME_BYTES, NULL, PACKETS, REQUEST, SECOND, TRANSPORT, Flow, Frame, Group, Line, Plan, Request, Unit
from audit_reference import Reference
from audit_sessions import SESSION_WORDS
from session_logs import random_sessions

# The lines that are compared.
TOLD = ("address unit ", "cannot unit ", "deaf unit ", "no_flow unit ", "near flow ", "near packets ", "near_or_late flow ", "silent ", "silent_or_late ")
PROGRAM = os.environ.get("J39PLAN", str(Path(__file__).resolve().parent.parent / "j39plan"))


def random_plan(dice: random.Random) -> Plan:
    units = [Unit("A", 0, 1), Unit("B", 3, 3, claims=dice.random() < 0.8), Unit("C", 128, 5, True, True), Unit("D", 128, 6, True, True), Unit("S", 128, 4, True)]
    groups = [Group("G1", 61444, 3, 8, 8), Group("G2", 65260, 6, 18, 18), Group("G3", 0, 6, 8, 8), Group("G4", 65100, 6, 4, 12)]
    flows = [Flow(0, 0, None, 10, dice.choice([20, 25]), dice.choice([0, 2])), Flow(1, 0, None, 100, 200), Flow(2, 0, 2, 10, 30, dice.choice([0, 3])),
             Flow(2, 0, 3, 10, 40), Flow(3, 1, None, 10, 15), Flow(2, 2, 0, 10, 15), Flow(0, 1, None, 20, dice.choice([None, 20]), 5)]
    requests = [Request(0, 1, 0, dice.choice([10, 9, 100])), Request(0, 2, None, 50), Request(2, 3, 0, 50), Request(1, 2, None, None), Request(2, 0, 2, 20), Request(1, 4, 0, 200)]
    asked = [it for it in requests if dice.random() < 0.3]
    flows = [it._replace(is_asked=dice.random() < 0.2, period=dice.choice([it.period] * 3 + [500])) for it in flows]
    flows = [it if it.pause is None or it.period <= it.pause else it._replace(pause=it.period + 20) for it in flows]
    return Plan(units, groups, flows, asked, dice.choice([0, 0, 500, 20000]), dice.choice([None, None, (1, 50), (3, 100)]))


def random_claim(dice: random.Random, plan: Plan, time: int | None) -> Frame:
    place = dice.choice([0, 0, 1, 2, 2, 3, 3, 4, None])
    if place is None:
        name, source = dice.choice([0, 2, 99]), dice.choice([140, 141, NULL, 128, 0, 3])
    else:
        unit = plan.units[place]
        name, source = unit.name(), dice.choice([unit.address] * 4 + ([128, 129, 130, NULL] if unit.moves else [unit.address, 130, NULL]))
    return Frame(time, 6, CLAIM, ALL, source, name.to_bytes(8, "little"))


def random_line(dice: random.Random, plan: Plan, at: int) -> Line:
    kind, time = dice.random(), None if dice.random() < 0.01 else at
    if kind < 0.55:
        return Frame(time, dice.choice([3] * 40 + [6]), 61444, ALL, dice.choice([0, 0, 0, 0, 3]), bytes(dice.choice([8] * 40 + [7])))
    if kind < 0.62:
        to, source = (ALL, 0) if dice.random() < 0.8 else dice.choice([(ALL, 3), (3, 0), (128, 0), (0, 128)])
        announced = bytes([0x20 if to == ALL else 0x10, 18, 0, 3, ALL]) + (65260).to_bytes(3, "little")
        return Frame(time, dice.choice([7, 7, 6]), TRANSPORT, to, source, announced)
    if kind < 0.76:
        return Frame(time, 6, 0, dice.choice([128, 128, 129, 129, 140, 3, ALL]), 0, bytes(8))
    if kind < 0.81:
        return Frame(time, 6, 65100, ALL, 3, bytes(dice.choice([4, 8, 3])))
    if kind < 0.86:
        return Frame(time, 6, 0, 0, dice.choice([128, 130, 129]), bytes(8))
    if kind < 0.91:
        return random_claim(dice, plan, time)
    if kind < 0.93:
        return random_request(dice, time)
    if kind < 0.96:
        return Frame(time, 6, *dice.choice([(PACKETS, ALL, 0)] * 3 + [(65000, ALL, 3), (65000, ALL, 0)]), bytes(8))
    return dice.choice([("junk", "bad"), ("(1.0) can0 XYZ#00", "bad"), (f"({at // SECOND}.{at % SECOND:06d}) can0 123#00", "skipped"), ("", "empty")])


def random_request(dice: random.Random, time: int | None) -> Frame:
    """A request for claims, or for a group."""
    number = CLAIMS_ASKED if dice.random() < 0.5 else dice.choice([61444, 61444, 0, 0, 65260, 65100]).to_bytes(3, "little")
    return Frame(time, 6, REQUEST, dice.choice([ALL, ALL, 0, 3, 128, 129]), dice.choice([NULL, NULL, 0, 3, 128, 42]), number)


def random_log(dice: random.Random, plan: Plan) -> list[Line]:
    near, even = (300, 600, 900, 1500, 3000, 5000, 8000, 10000, 12000, 20000, 25000, 40000, 60000), (9000, 10000, 11000, 10500, 22000, 35000, 700)
    distances, at, lines = dice.choice([near, even]), SECOND, []
    share, sessions = dice.choice([0, 0, 0.5, 0.9]), []
    for _ in range(dice.randint(10, 120)):
        at += dice.choice(distances)
        odd = dice.random()
        at += dice.choice([1_000_001, 2_000_000, 999_999, 100_000, 100_001, 30_001]) if odd < 0.03 else -dice.choice([3000, 100_000, 2_500_000]) if odd > 0.985 else 0
        at = max(at, 0)
        if dice.random() < share:
            sessions = sessions or random_sessions(dice)
            lines.append(sessions.pop(0)._replace(time=None if dice.random() < 0.003 else at))
        else:
            lines.append(random_line(dice, plan, at))
        lines += copies(dice, lines[-1])
    return lines


def copies(dice: random.Random, line: Line) -> list[Frame]:
    """The same frame once more, seldom, as soon as a copy of its line may stand in a log, or later."""
    if not isinstance(line, Frame) or line.time is None or dice.random() < 0.93:
        return []
    shortest = 4 * (67 + 8 * len(line.data))
    return [line._replace(time=max(line.time + later, 0)) for later in dice.choice([[0], [1], [shortest - 1], [shortest], [-1], [0, 300], [shortest - 1, shortest]])]


def wanted(plan: Plan, lines: list[Line], is_part: bool, stamps: int, quiet: int | None, folder: str) -> list[str]:
    """What the reference tells of a log."""
    reference = Reference(plan, is_part, stamps, quiet, responses_of(plan, folder))
    for number, line in enumerate(lines, 1):
        if isinstance(line, Frame):
            reference.take_line(number, line)
        elif line[1] == "bad":
            reference.take_bad()
        elif line[1] == "skipped":
            reference.take_skipped()
    reference.end_all()
    return reference.lines()


def responses_of(plan: Plan, folder: str) -> dict[int, int]:
    """The response times of flows in microseconds, as `load` answers them: within the deadline, or late."""
    path = Path(folder, "plan.toml")
    path.write_text(plan.toml(), encoding="ascii")
    ran = subprocess.run([PROGRAM, "load", str(path)], stdin=subprocess.DEVNULL, capture_output=True, text=True, check=False)
    told = re.findall(r"^flow (\d+) .* (?:within|late) (\d+) of \d+ us$", ran.stdout, re.MULTILINE)
    return {int(number) - 1: int(us) for number, us in told if plan.groups[plan.flows[int(number) - 1].group].most <= FRAME_BYTES}


def answered(plan: Plan, lines: list[Line], is_part: bool, stamps: int, quiet: int | None, folder: str) -> list[str]:
    """What the program tells of it."""
    files = {"plan.toml": plan.toml(), "a.log": "".join(f"{line.text() if isinstance(line, Frame) else line[0]}\n" for line in lines)}
    for name, text in files.items():
        Path(folder, name).write_text(text, encoding="ascii")
    gap = [] if quiet is None else ["--quiet", str(quiet)]
    words = [PROGRAM, "audit", *(["--part"] if is_part else []), "--stamps", str(stamps), *gap, *(f"{folder}/{name}" for name in files)]
    ran = subprocess.run(words, stdin=subprocess.DEVNULL, capture_output=True, text=True, check=False)
    answer = ran.stdout.splitlines()
    if ran.returncode > 1 or not answer or not answer[-1].startswith("deviations "):
        raise SystemExit(f"audit answers {ran.stdout}{ran.stderr}")
    again = ["again " + "".join(re.findall(r" again (\d+)$", line) or "0") for line in answer if line.startswith("frames ")]
    answers = [f"answers {unit} {count}" for line in answer for unit, count in re.findall(r"^unit (\S+) frames \d+ answers (\d+)$", line)]
    return [line for line in answer if line.startswith((*TOLD, *(f"{word} unit " for word in SESSION_WORDS)))] + answers + again


def main(words: list[str]) -> int:
    count, seed = int(words[0]) if words else 200, int(words[1]) if words[1:] else 1
    kinds = ("address", "cannot", "deaf", "no_flow", *SESSION_WORDS, "near", "near_or_late", "silent", "silent_or_late", "answers", "again")
    differences, told = 0, dict.fromkeys(kinds, 0)
    with tempfile.TemporaryDirectory(prefix="j39plan-audits-") as folder:
        for number in range(count):
            dice = random.Random(f"{seed} {number}")
            plan = random_plan(dice)
            lines, is_part, stamps = random_log(dice, plan), dice.random() < 0.1, dice.choice([1000, 1000, 0, 5000])
            quiet = dice.choice([None, None, 1000, 30, 1])
            want, have = wanted(plan, lines, is_part, stamps, quiet, folder), answered(plan, lines, is_part, stamps, quiet, folder)
            for line in want:
                told[line.split()[0]] += line != "again 0"
            if want != have:
                differences += 1
                print(f"log {number} of seed {seed}: audit tells {have}, the reference {want}")
    print(f"logs {count}", *(f"{word} {lines}" for word, lines in told.items()), f"differences {differences}")
    return int(differences > 0)


if __name__ == "__main__":
    sys.exit(main(sys.argv[1:]))
