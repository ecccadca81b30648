#!/usr/bin/env python3
"""Refuses each allocation of the built program in turn, counting upwards until a run asks for no allocation of that number: of each command,
and of each row in rows/devices. The program of the environment's J39PLAN is taken, else the built one, with gate/fail_alloc.c in front of its
calls, in processes that go on (gate/in_process.py), or where these can't be built in front of the C library, in a process each.

A run must want memory (status 3) with nothing or a part of its text written, or answer as with enough memory; and give all back. The last line is
'N passed, M failed'.
"""

import contextlib
import os
import sys
import tempfile
from concurrent.futures import ThreadPoolExecutor

sys.dont_write_bytecode = True
import crates
import devices
import in_process
from preloaded import Preloaded, Ran, compiler
from tally import COMMANDS, MEMORY, MEMORY_STATUS, PROGRAM, Tally, is_built

# Other words that are tried.
WORDS: tuple[list[str], ...] = (["--version"], ["jump"], [])
# More allocations than any of the runs asks for.
MOST = 20_000
# A name, the words, and the file that is given as standard input.
Asked = tuple[str, list[bytes], str]


def is_allowed(ran: Ran, enough: Ran) -> bool:
    """Whether a run ends as it does with enough memory, or wants memory since some was refused."""
    if ran.left:
        return False
    if (ran.status, ran.output, ran.complaint) == (enough.status, enough.output, enough.complaint):
        return True
    return "x" in ran.told and (ran.status, ran.complaint) == (MEMORY_STATUS, MEMORY) and enough.output.startswith(ran.output)


def refused(program: devices.Program, asked: Asked) -> tuple[int, str]:
    """Returns how many allocations were refused, and what is wrong with the first run that isn't allowed."""
    try:
        return refused_in(program, asked)
    except in_process.Hung as hung:
        return 0, str(hung)


def refused_in(program: devices.Program, asked: Asked) -> tuple[int, str]:
    """Does what `refused` does, where each order ends."""
    _, words, stdin = asked
    enough = program.run(words, stdin)
    for number in range(1, MOST):
        ran = program.run(words, stdin, FAIL_ALLOC=number)
        if not is_allowed(ran, enough):
            return number, f"allocation {number}: {ran}"
        if "x" not in ran.told:
            return number - 1, "no allocation was asked for" if number == 1 else ""
    return MOST, "it asks for more and more"


def all_asked(room: str) -> list[Asked]:
    """Returns the commands, in the folder examples/, other words, and the rows."""
    commands = [(" ".join(words) or "no words", [it.encode() for it in words], "/dev/null") for words in (*COMMANDS, *WORDS)]
    small = [it for it in devices.tries(room) if it.is_small()]
    return commands + [(it.name, it.all_words(it.files), it.stdin(it.files)) for it in small]


def main() -> int:
    if not is_built(PROGRAM):
        print(f"memory: there is no program {PROGRAM}\n0 passed, 1 failed")
        return 1
    os.chdir(f"{crates.TOP}/examples")
    with tempfile.TemporaryDirectory(prefix="j39plan-memory-") as top, contextlib.ExitStack() as stack:
        inside, cc = in_process.started(top), compiler()
        if inside:
            return refuse_all(stack.enter_context(inside), top)
        if cc:
            return refuse_all(Preloaded("fail_alloc.c", cc, top), top)
    print("memory: skipped, since there is no C compiler\n0 passed, 0 failed")
    return 0


def refuse_all(program: devices.Program, top: str) -> int:
    """Counts each run's refusals. Returns the exit status."""
    tally, each = Tally(), all_asked(f"{top}/rows")
    with ThreadPoolExecutor(os.cpu_count()) as pool:
        for asked, (count, found) in zip(each, pool.map(lambda it: refused(program, it), each)):
            tally.count(f"{asked[0]}, {count} refusals", not found, found)
            print(f"memory: {asked[0]}, {count} allocations refused in turn")
    return tally.end()


if __name__ == "__main__":
    sys.exit(main())
