#!/usr/bin/env python3
"""Shows that gate/devices.py and gate/memory.py tell what they have to tell: it plants faults of a program, in what they load in front of the C
library, and of rows, in copies, and compares what they say. The program of the environment's J39PLAN is taken, else the built one.

The last line is 'N passed, M failed'.
"""

import os
import re
import shutil
import subprocess
import sys
import tempfile

sys.dont_write_bytecode = True
import crates
from preloaded import compiler
from tally import PROGRAM, Tally, is_built

# The rows in the copy, and the plan of the schedules at the limits.
PLAN = "two_flows.toml"
ROWS = ("cut.not_run.run", "frame.frame", "nothing.check", "shared.conflict.run")
WRITE = "\treturn end == GOES_ON ? __write(file, buffer, piece_of(bytes)) : end;"
READ = "\treturn end == GOES_ON ? __read(file, buffer, piece_of(bytes)) : end;"
IO, ALLOC = "gate/fail_io.c", "gate/fail_alloc.c"
# A name, the script and its part, the file, its old and its new text, and a line that the script has to write.
PLANTS = (
    ("what a short write leaves is lost", "devices.py pieces", IO, WRITE, "\t__write(file, buffer, piece_of(bytes));\n\treturn bytes;",
     r"pieces of devices/frame\.frame: in pieces of 1: status 0, .* output b'f', .*"),
    ("a byte of a short read is lost", "devices.py pieces", IO, READ, "\tif (piece_of(bytes) == 3)\n\t\t__read(file, buffer, 1);\n" + READ,
     r"pieces of devices/frame\.frame: in pieces of 3: .*"),
    ("a read behind the end", "devices.py pieces", IO, '\tint end = stop("r");',
     '\tint end = stop("r");\n\n\tif (end == GOES_ON && bytes > 4096)\n\t\ttell("r");',
     r"pieces of devices/nothing\.check: in pieces of 1: calls .*, and its files ask for o1 r13; .*"),
    ("another status", "devices.py pieces", "rows/statuses", "devices/nothing.check 0", "devices/nothing.check 1",
     r"pieces of devices/nothing\.check: in pieces of 1: status 0, .*"),
    ("another text", "devices.py pieces", "rows/devices/frame.frame", "priority 3", "priority 4",
     r"pieces of devices/frame\.frame: in pieces of 1: status 0, .*"),
    ("a failed write is taken for done", "devices.py calls", IO, WRITE, WRITE.replace(": end;", ": (moved)bytes;"),
     r"calls of devices/nothing\.check: in pieces of 1, call 1 of w fails by 28: status 0, .*"),
    ("a failed read is taken for the end", "devices.py calls", IO, READ, READ.replace(": end;", ": 0;"),
     r"calls of devices/nothing\.check: in pieces of 1, call 1 of r fails by 5: status 2, .*"),
    ("nothing is said of a fault", "devices.py calls", IO, WRITE, "\tif (file != 1)\n\t\treturn bytes;\n" + WRITE,
     r"calls of devices/nothing\.check: in pieces of 1, call 1 of o fails by 13: status 4, standard error b'', .*"),
    ("more than a part is written", "devices.py calls", IO, WRITE, '\tif (end != GOES_ON)\n\t\t__write(1, "?", 1);\n' + WRITE,
     r"calls of devices/nothing\.check: in pieces of 1, call 1 of w fails by 28: status 4, .* output b'\?', .*"),
    ("a call behind a failed one", "devices.py calls", IO, "\treturn FAILED;\n}", '\ttell(letter);\n\treturn FAILED;\n}',
     r"calls of devices/nothing\.check: in pieces of 1, call 1 of o fails by 13: status 4, .*, calls o2 e.*"),
    ("a byte is put late", "devices.py puts", IO, '\tint end = stop(file == 1 ? "w" : "e");',
     '\tint end = stop(file == 1 && ++calls > 1 ? "w" : "e");',
     r"puts of devices/shared\.conflict\.run: behind 5 bytes of its input 25 bytes are put, and its lines give 26; .*"),
    ("no line of the command", "devices.py damage", IO, WRITE, '\t__write(file, "?", 1);\n' + WRITE,
     r"damage of devices/nothing\.check: .*'no line of check: \?.*"),
    ("another status than the text's", "devices.py damage", IO, WRITE, '\t__write(file, "ok\\n", 3);\n\treturn bytes;',
     r"damage of devices/nothing\.check: .*'status 2, its text tells 0', .*"),
    ("the end of the last line is lost", "devices.py damage", IO, WRITE, '\t__write(file, buffer, bytes - 1);\n\treturn bytes;',
     r"damage of devices/nothing\.check: .*'not whole', .*"),
    ("more calls than the limit", "devices.py limits", IO, 'size most = number_in("PIECE");', 'size most = 2 * number_in("PIECE");',
     r"one more call: status 2, .*"),
    ("refused memory ends a run quietly", "memory.py", ALLOC, "\treturn 1;\n", "\textern void _exit(int);\n\n\t_exit(0);\n\treturn 1;\n",
     r"devices/nothing\.check, . refusals: (allocation 1: status 0, .*|its process ended with status 0)"),
    ("memory is wanted where none was refused", "memory.py", ALLOC, '\ttell("x");\n', "",
     r"devices/nothing\.check, 1 refusals: allocation 1: status 3, .*"),
    ("no allocation is seen", "memory.py", ALLOC, "++calls != ", "1 || ++calls != ",
     r"devices/nothing\.check, 0 refusals: no allocation was asked for"),
)


def made(top: str) -> None:
    """Copies the scripts and a few rows. Of the commands, which read examples, none is tried."""
    shutil.copytree(f"{crates.TOP}/gate", f"{top}/gate", ignore=shutil.ignore_patterns("__pycache__"))
    shutil.copytree(f"{crates.TOP}/host", f"{top}/host")
    stems = {os.path.splitext(it)[0] for it in ROWS}
    wanted = {PLAN, *ROWS, *(f"{it.partition('.')[0]}.toml" for it in ROWS), *(f"{it}{ending}" for it in stems for ending in (".schedule", ".line"))}
    shutil.copytree(f"{crates.TOP}/rows/devices", f"{top}/rows/devices", ignore=lambda _, names: [it for it in names if it not in wanted])
    os.mkdir(f"{top}/examples")
    kept = {f"devices/{it}" for it in ROWS}
    with open(f"{crates.TOP}/rows/statuses", encoding="utf-8") as lines, open(f"{top}/rows/statuses", "w", encoding="utf-8") as file:
        file.writelines(it for it in lines if it.partition(" ")[0] in kept)
    change(f"{top}/gate/memory.py", "for words in (*COMMANDS, *WORDS)]", "for words in WORDS]")


def write(file: str, text: str) -> None:
    with open(file, "w", encoding="utf-8") as opened:
        opened.write(text)


def change(file: str, old: str, new: str) -> None:
    """Changes a text that stands once in a file."""
    text = crates.text_of(file)
    if text.count(old) != 1:
        raise ValueError(f"{file}: {old!r} stands {text.count(old)} times")
    write(file, text.replace(old, new))


def said(top: str, words: str) -> tuple[int, list[str]]:
    """Runs a script of the copy, and returns its status and its lines."""
    script, *parts = words.split(" ")
    ran = subprocess.run([sys.executable, f"gate/{script}", *parts], cwd=top, env={**os.environ, "J39PLAN": PROGRAM}, stdin=subprocess.DEVNULL,
                         capture_output=True, text=True, errors="replace", check=False)
    return ran.returncode, (ran.stdout + ran.stderr).strip().split("\n")


def main() -> int:
    if not is_built(PROGRAM):
        print(f"plants: there is no program {PROGRAM}\n0 passed, 1 failed")
        return 1
    if not compiler():
        print("plants: skipped, since there is no C compiler\n0 passed, 0 failed")
        return 0
    tally = Tally()
    with tempfile.TemporaryDirectory(prefix="j39plan-plants-") as top:
        made(top)
        for words in dict.fromkeys(it[1] for it in PLANTS):
            status, lines = said(top, words)
            tally.count(f"{words} without a plant", status == 0 and lines[-1].endswith(" passed, 0 failed") and lines[-1][0] != "0", lines)
        for name, words, file, old, new, wanted in PLANTS:
            before = crates.text_of(f"{top}/{file}")
            change(f"{top}/{file}", old, new)
            status, lines = said(top, words)
            tally.count(name, status == 1 and any(re.fullmatch(wanted, it) for it in lines), lines)
            write(f"{top}/{file}", before)
    return tally.end()


if __name__ == "__main__":
    sys.exit(main())
