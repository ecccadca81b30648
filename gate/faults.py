#!/usr/bin/env python3
"""Runs the built program on devices that fail and with little memory and stack, and sees that each status, what it says on
standard error and what it writes are as documented. The program of the environment's J39PLAN is taken, else the built one.

The last line is 'N passed, M failed'.
"""

import os
import resource
import sys
from collections.abc import Callable

sys.dont_write_bytecode = True
from tally import BAD_WORDS, COMMANDS, DEVICE, MEMORY, PROGRAM, TOO_LONG, Tally, is_built, run

# The address space, in KiB: no program starts within the first figure, each of the commands has enough within the last.
# With less than the least the system ends the program while it starts it: its file has 0.9 MB.
LEAST, MOST, STEP = 2_048, 8_192, 16
# The stack, in KiB: the system gives a program 128 at its start, and may refuse it more, which ends it by a signal.
STACK = 112


def outputs(tally: Tally) -> None:
    """Standard output that is full, closed, or a pipe that nobody reads."""
    for words in COMMANDS:
        name = " ".join(words)
        with open("/dev/full", "wb") as full:
            tally.expect(f"{name} > /dev/full", run(words, stdout=full), 4, DEVICE, None)
        reader, writer = os.pipe()
        os.close(reader)
        tally.expect(f"{name} into a closed pipe", run(words, stdout=writer), 4, DEVICE, None)
        os.close(writer)
        closed = run(words, stdout=None, preexec_fn=lambda: os.close(1))
        tally.expect(f"{name} >&-", closed, 4, DEVICE, None)


def inputs(tally: Tally) -> None:
    """Standard input and files that are closed, missing, folders, endless or empty."""
    tally.expect("standard input closed", run([], stdin=None, preexec_fn=lambda: os.close(0)), 4, DEVICE)
    with open("/dev/zero", "rb") as endless:
        tally.expect("standard input without an end", run([], stdin=endless), 2, TOO_LONG)
    tally.expect("standard input empty", run([]), 2, b"", b"refused Empty\n")
    folder = os.open("/", os.O_RDONLY | os.O_DIRECTORY)
    tally.expect("standard input a folder", run([], stdin=folder), 4, DEVICE)
    os.close(folder)
    plan = "tractor_and_implement.toml"
    for file in ("missing", "findings", "transfers.toml/inside", "x" * 5000, ""):
        for words in (["check", file], ["run", file, "missing"], ["read", file, "missing"], ["run", plan, file], ["read", plan, file]):
            tally.expect(f"{' '.join(words):.80}", run(words), 4, DEVICE)
    tally.expect("vehicle missing", run(["vehicle", "missing"]), 4, DEVICE)
    tally.expect("vehicle of a plan file", run(["vehicle", plan]), 2, b"", b"refused UnknownKey top\n")
    tally.expect("vehicle of /dev/zero", run(["vehicle", "/dev/zero"]), 2, TOO_LONG)
    feeds = run(["read", plan, "/dev/stdin"], stdin=None, input=17_000_000 * b"\n")
    tally.expect("read of a log that is longer than a plan may be", feeds, 0, b"", b"frames 0 skipped 0 bad 0\n")
    tally.expect("check of /dev/zero", run(["check", "/dev/zero"]), 2, TOO_LONG)
    tally.expect("check of /dev/null", run(["check", "/dev/null"]), 2, b"", b"refused Missing top key version\n")


def complaints(tally: Tally) -> None:
    """Standard error that is full or closed: the status tells all the same."""
    with open("/dev/full", "wb") as full:
        tally.expect("jump 2> /dev/full", run(["jump"], stderr=full), 2, None)
        tally.expect("check missing 2> /dev/full", run(["check", "missing"], stderr=full), 4, None)
    tally.expect("jump 2>&-", run(["jump"], stderr=None, preexec_fn=lambda: os.close(2)), 2, None)
    tally.expect("jump", run(["jump"]), 2, BAD_WORDS)
    tally.expect("a word that is no text", run([b"frame", b"\xff"]), 2, BAD_WORDS)


def limit(resource_limited: int, kibibytes: int) -> Callable[[], None]:
    def set_limits() -> None:
        resource.setrlimit(resource_limited, (1024 * kibibytes, 1024 * kibibytes))
        resource.setrlimit(resource.RLIMIT_CORE, (0, 0))

    return set_limits


def stacks(tally: Tally) -> None:
    """With less stack than the system gives at the start all is as with more: no command needs any that can be refused."""
    for words in COMMANDS:
        enough = run(words)
        ran = run(words, preexec_fn=limit(resource.RLIMIT_STACK, STACK), env={})
        tally.expect(f"{' '.join(words)} with {STACK} KiB of stack", ran, enough.returncode, enough.stderr, enough.stdout)


def memory(tally: Tally) -> None:
    """Little memory, in steps: first the system doesn't start the program (status 127), then it wants memory and has
    written nothing or a part of its text, then all is as with enough of it."""
    for words in COMMANDS:
        enough = run(words)
        stage, found = 0, ""
        reached = {0: 0, 1: 0, 2: 0}
        for kibibytes in range(LEAST, MOST + 1, STEP):
            ran = run(words, preexec_fn=limit(resource.RLIMIT_AS, kibibytes))
            if (ran.returncode, ran.stdout) == (127, b"") and not ran.stderr.startswith(b"j39plan:"):
                now = 0
            elif (ran.returncode, ran.stderr) == (3, MEMORY) and enough.stdout.startswith(ran.stdout):
                now = 1
            elif (ran.returncode, ran.stdout, ran.stderr) == (enough.returncode, enough.stdout, enough.stderr):
                now = 2
            else:
                now = -1
            if now < stage:
                found = f"at {kibibytes} KiB status {ran.returncode}, {ran.stderr!r:.100}, {ran.stdout!r:.100}"
                break
            stage = now
            reached[now] += 1
        is_well = not found and reached[1] > 0 and reached[2] > 0
        tally.count(f"{' '.join(words)} with little memory", is_well, found or f"steps in each stage: {reached}")


def main() -> int:
    if not is_built(PROGRAM):
        print(f"faults: there is no program {PROGRAM}\n0 passed, 1 failed")
        return 1
    tally = Tally()
    for part in (outputs, inputs, complaints, stacks, memory):
        part(tally)
    print(f"faults: {tally.passed} passed, {tally.failed} failed" if tally.failed else "faults: all as documented")
    return tally.end()


if __name__ == "__main__":
    sys.exit(main())
