#!/usr/bin/env python3
"""Reads a log that is longer than 32 bits count, made on the fly and given through a pipe: long_log.py [GIGABYTES]

The log repeats a block of 1,000 lines up to 5 GB, or as many as are told. Its counts, the number of its reports and the memory that
the program holds, below 4 MB, are as they have to be, or the status is 1. The program of the environment's J39PLAN is taken,
else the built one. Needs Python 3.8 and GNU time.
"""
import os
import subprocess
import sys
import threading
import time

TOP = os.path.dirname(os.path.dirname(os.path.abspath(__file__)))
PROGRAM = os.environ.get("J39PLAN") or os.path.join(TOP, "crates", "j39plan", "out", "j39plan")
PLAN = os.path.join(TOP, "examples", "tractor_and_implement.toml")
MOST_MEMORY = 4_000_000
BLOCKS_PER_WRITE = 20

# The lines of a block: how often each stands there, and whether it is counted as a frame, as skipped or as bad.
VEHICLE_SPEED = b"(1700000000.000000) can0 18FEF100#FFFFFFFFFFFFFFFF\n"
SORTS = (
    (1, "frames", VEHICLE_SPEED),
    (900, "frames", b"(1700000000.000000) can0 18FEF700#FFFFFFFFFFFFFFFF\n"),
    (60, "skipped", b"(1700000000.000000) can0 7DF#02010C\n"),
    (39, "bad", b"(1700000000.000000) can0 18FEF100\n"),
)
REPORT = b"group CCVS from 0 to all bytes FFFFFFFFFFFFFFFF\n  SPN70 absent\n  SPN84 absent\n"


def give(pipe, data, times):
    for _ in range(times):
        pipe.write(data)
    pipe.close()


def main():
    wanted = float(sys.argv[1]) * 1e9 if len(sys.argv) > 1 else 5e9
    data = BLOCKS_PER_WRITE * b"".join(times * line for times, _, line in SORTS)
    times = int(wanted // len(data)) + 1
    blocks = BLOCKS_PER_WRITE * times
    counts = {sort: blocks * sum(it[0] for it in SORTS if it[1] == sort) for sort in ("frames", "skipped", "bad")}
    last = " ".join(f"{sort} {count}" for sort, count in counts.items()).encode() + b"\n"
    start = time.monotonic()
    words = ["/usr/bin/time", "-f", "%M %U %S", PROGRAM, "read", PLAN, "/dev/stdin"]
    ran = subprocess.Popen(words, stdin=subprocess.PIPE, stdout=subprocess.PIPE, stderr=subprocess.PIPE)
    threading.Thread(target=give, args=(ran.stdin, data, times)).start()
    rest, whole = b"", 0
    while piece := ran.stdout.read(len(REPORT)):
        whole, rest = (whole + 1, b"") if piece == REPORT else (whole, rest + piece)
    kibibytes, user, system = ran.stderr.read().split()[-3:]
    memory = 1024 * int(kibibytes)
    print(f"{times * len(data):,} bytes in {time.monotonic() - start:.0f} s, of the program {float(user) + float(system):.0f} s,"
          f" {memory:,} bytes of memory, {whole:,} reports, {rest.decode():.200}", end="")
    return 0 if (ran.wait(), rest, whole) == (0, last, blocks) and memory < MOST_MEMORY else 1


sys.exit(main())
