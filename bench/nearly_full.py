#!/usr/bin/env python3
"""Looks for plans whose waits take long to find: random plans of 499 to 512 flows on buses that are nearly full.

usage: nearly_full.py [SEED [PLANS]]    prints each plan that took most until then: its seed, seconds of the processor, what it is

The program of the environment's J39PLAN is taken, else the one in program/. The last plan shown can be made again by its seed.
"""
import os
import random
import resource
import subprocess
import sys
import tempfile

TOP = os.path.dirname(os.path.dirname(os.path.abspath(__file__)))
PROGRAM = os.environ.get("J39PLAN") or os.path.join(TOP, "program", "j39plan-linux-x86_64")
# Bits of a frame of 8 bytes and of a request, bits of a millisecond, and the period of each request in ms.
FRAME, REQUEST, BITS, ASKED = 160, 110, 250, 60000


def plan(rng):
    """Returns a plan, and a line on what it is."""
    units, flows, requests = rng.choice([2, 8, 20, 60, 127]), rng.choice([499, 512]), rng.choice([0, 100, 490, 512])
    queue, share, spread = rng.choice(["any", "order", "priority"]), 1 - rng.choice([0.0003, 0.001, 0.003, 0.01, 0.03]), rng.choice([0, 7, 50])
    priorities = rng.choice([[6], [3, 6], [2, 3, 4, 5, 6, 7]])
    lines = ["version = 4", "[timing]", "bitrate = 250000", f"unplanned = {rng.choice([0, 1, 3])}"]
    for unit in range(units):
        name = f"{{ identity = {unit + 1}, function = 130, manufacturer = 100 }}"
        lines += ["[[unit]]", f'label = "U{unit}"', f"address = {unit}", f"name = {name}", f'queue = "{queue}"']
    for group in range(min(256, flows // units + 1)):
        lines += ["[[group]]", f'label = "G{group}"', f"pgn = {65280 + group}", "length = 8", f"priority = {rng.choice(priorities)}"]
    pairs = [(unit, group) for group in range(min(256, flows // units + 1)) for unit in range(units)][:flows]
    period = len(pairs) * FRAME / BITS / (share - requests * REQUEST / ASKED / BITS)
    for at, (unit, group) in enumerate(pairs):
        each = int((at + 1) * period) - int(at * period) + rng.randint(-spread, spread)
        lines += ["[[flow]]", f'group = "G{group}"', f'from = "U{unit}"', 'to = "all"', f"period = {each}"]
    for unit, group in pairs[:requests]:
        lines += ["[[request]]", f'group = "G{group}"', f'from = "U{(unit + 1) % units}"', f'to = "U{unit}"', f"period = {ASKED}"]
    told = f"{units} units, {len(pairs)} flows, {min(requests, len(pairs))} requests, queue {queue}, {len(priorities)} priorities, {100 * share:.2f} % full"
    return "\n".join(lines) + "\n", told


def seconds(file):
    """Returns the processor time of a `load` of the file."""
    before = resource.getrusage(resource.RUSAGE_CHILDREN)
    subprocess.run([PROGRAM, "load", file], stdout=subprocess.DEVNULL, check=False)
    after = resource.getrusage(resource.RUSAGE_CHILDREN)
    return after.ru_utime + after.ru_stime - before.ru_utime - before.ru_stime


def main():
    first, count = int((sys.argv[1:2] or ["0"])[0]), int((sys.argv[2:3] or ["200"])[0])
    most = 0.0
    with tempfile.TemporaryDirectory() as folder:
        for seed in range(first, first + count):
            text, told = plan(random.Random(seed))
            with open(f"{folder}/plan.toml", "w", encoding="ascii") as file:
                file.write(text)
            took = seconds(f"{folder}/plan.toml")
            if took > most:
                most = took
                print(f"seed {seed}: {took:.2f} s, {len(text) // 1000} KB: {told}", flush=True)


main()
