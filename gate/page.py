#!/usr/bin/env python3
"""The page for browsers, program/j39plan.html: the program as a module of WebAssembly, and the sources in page/, in one file; and its record.

usage: page.py          sees that the page is of these sources, and runs the stored rows on its module in Node, where Node and wasm are there. The last
                        line is 'N passed, M failed'
       page.py write    makes the page from the program that ./j39plan --build has built: its LLVM module by the kit's clang and by Debian's binaryen
       page.py draw     puts the sources of page/ around the module that the page has already: for edits of page/ alone

The record, program/j39plan.html.txt, has the sums of the page, of its module, of the program that was proved and of its sources (program/find
--digest), and what made it.
"""

from __future__ import annotations

import base64
import gzip
import hashlib
import json
import os
import re
import shutil
import subprocess
import sys
import tempfile

sys.dont_write_bytecode = True
import build
import crates
import page_module
import program
import rows
import tally

PAGE = f"{crates.TOP}/program/{build.PROGRAM}.html"
RECORD = f"{PAGE}.txt"
FOLDER = f"{crates.TOP}/page"
# The scripts of the page and of its workers, in the order in which they stand there.
SCRIPTS = ("elements", "runner", "places", "findings", "tables", "files", "plan_view", "choices", "run_view", "plot", "log_view", "main")
OF_WORKERS = ("host", "log_store", "worker")
# What the page may do: run what stands in it. It may load and send nothing.
POLICY = ("default-src 'none'; script-src 'sha256-{script}' 'wasm-unsafe-eval'; style-src 'sha256-{style}'; worker-src blob:; img-src blob:; "
          "connect-src 'none'; form-action 'none'; base-uri 'none'")
EXAMPLES = (".toml", ".schedule", ".log")
MODULE = re.compile(r'<script type="text/plain" id="module">([A-Za-z0-9+/=]*)</script>')


def text_of(name: str) -> str:
    with open(f"{FOLDER}/{name}", encoding="utf-8") as file:
        return file.read()


def packed(data: bytes) -> str:
    """Returns bytes compressed, the same each time, as text."""
    return base64.b64encode(gzip.compress(data, 9, mtime=0)).decode()


def examples() -> bytes:
    """Returns the texts of the examples, by their names."""
    top, found = f"{crates.TOP}/examples", {}
    for folder, _, names in os.walk(top, followlinks=True):
        for name in names:
            if name.endswith(EXAMPLES):
                with open(f"{folder}/{name}", encoding="utf-8") as file:
                    found[os.path.relpath(f"{folder}/{name}", top)] = file.read()
    return json.dumps(found, sort_keys=True).encode()


def sum_of(text: str) -> str:
    return base64.b64encode(hashlib.sha256(text.encode()).digest()).decode()


def drawn(module: bytes) -> str:
    """Returns the page around a module."""
    script, style = "".join(text_of(f"{it}.js") for it in SCRIPTS), text_of("page.css")
    parts = {"policy": POLICY.format(script=sum_of(script), style=sum_of(style)), "style": style, "script": script,
             "worker": "".join(text_of(f"{it}.js") for it in OF_WORKERS), "module": packed(module), "examples": packed(examples())}
    return re.sub(r"@(\w+)@", lambda at: parts[at[1]], text_of("page.html"))


def module_of(page: str) -> bytes:
    """Returns the module that a page has."""
    found = MODULE.search(page)
    if not found:
        raise OSError(f"{PAGE} has no module")
    return gzip.decompress(base64.b64decode(found[1]))


def stored() -> str:
    with open(PAGE, encoding="utf-8") as file:
        return file.read()


def keep(page: str, of_module: dict[str, str]) -> None:
    """Writes the page and its record."""
    with open(PAGE, "w", encoding="utf-8") as file:
        file.write(page)
    record = {"page": hashlib.sha256(page.encode()).hexdigest(), "module": hashlib.sha256(module_of(page)).hexdigest(), **of_module}
    with open(RECORD, "w", encoding="utf-8") as file:
        file.writelines(f"{key} {value}\n" for key, value in record.items())


def recorded() -> dict[str, str]:
    with open(RECORD, encoding="utf-8") as lines:
        return dict(line.rstrip("\n").split(" ", 1) for line in lines if " " in line)


def write() -> int:
    """Makes the page from the proved program."""
    if not build.is_built(build.BUILT):
        build.say("the program isn't built, or it is of other sources: ./j39plan --build")
        return build.FAILED
    if not shutil.which("wasm-opt"):
        build.say("wasm-opt is missing, of Debian's package binaryen: the page stays as it is")
        return build.MISSING
    with tempfile.TemporaryDirectory(prefix="j39plan-page-") as room:
        module = page_module.compiled(page_module.proved_module(room), room)
    of = program.record_of(program.bytes_of(build.BUILT))
    keep(drawn(module), {"program": of["program"], "sources": of["sources"], "toolchain": of["toolchain"], "binaryen": program.said_by(["wasm-opt", "--version"])})
    return 0


def draw() -> int:
    """Makes the page anew around its module."""
    kept = recorded()
    keep(drawn(module_of(stored())), {key: it for key, it in kept.items() if key not in ("page", "module")})
    return 0


def told(row: rows.Row, wanted: dict[str, int]) -> dict[str, object]:
    """Returns a row as gate/page_rows.mjs takes it."""
    status = wanted[row.name] if row.status is None else row.status
    complaints = row.complaints or (tally.DEVICE if row.status is None and status == tally.DEVICE_STATUS else b"")
    parts = {"input": row.input, "output": row.output, "complaints": complaints}
    return {"name": row.name, "folder": row.folder, "words": [base64.b64encode(it).decode() for it in row.words], "status": status, "room": row.room,
            **{key: base64.b64encode(it).decode() for key, it in parts.items()}}


def run_rows(module: bytes) -> tuple[int, int]:
    """Runs the stored rows on a module, and returns how many passed and failed."""
    with tempfile.TemporaryDirectory(prefix="j39plan-rows-") as room:
        with open(f"{room}/module.wasm", "wb") as binary:
            binary.write(module)
        with open(f"{room}/rows", "w", encoding="ascii") as file:
            json.dump([told(row, rows.listed()) for row in rows.all_rows(f"{room}")], file)
        ran = subprocess.run(["node", f"{crates.TOP}/gate/page_rows.mjs", f"{room}/module.wasm", f"{room}/rows"], stdin=subprocess.DEVNULL, stdout=subprocess.PIPE,
                             text=True, check=False)
    *said, last = ran.stdout.splitlines() or [""]
    print("\n".join(said), end="\n" if said else "")
    counted = re.fullmatch(r"(\d+) passed, (\d+) failed", last)
    return (int(counted[1]), int(counted[2])) if counted else (0, 1)


def look(count: tally.Tally) -> None:
    """Compares the page with its sources, and runs the rows on its module."""
    if not os.path.isfile(PAGE) or not os.path.isfile(RECORD):
        count.count("the page", False, "program/ has none: ./dev program")
        return
    page, record = stored(), recorded()
    module = module_of(page)
    count.count("the sum of the page", record.get("page") == hashlib.sha256(page.encode()).hexdigest(), "it is not the recorded one")
    count.count("the sum of its module", record.get("module") == hashlib.sha256(module).hexdigest(), "it is not the recorded one")
    count.count("the page", page == drawn(module), "it is of other sources than page/ and examples/ have: gate/page.py draw")
    if record.get("sources") != program.said_by(["program/find", "--digest"]):
        print("the module of the page is of other sources, so the rows don't run on it: ./dev program refreshes it")
    elif not shutil.which("node"):
        print("rows on the module of the page: skipped, since node is missing")
    else:
        passed, failed = run_rows(module)
        count.passed, count.failed = count.passed + passed, count.failed + failed


def main(words: list[str]) -> int:
    if words in (["write"], ["draw"]):
        try:
            return write() if words == ["write"] else draw()
        except OSError as fault:
            build.say(str(fault))
            return build.FAILED
    count = tally.Tally()
    look(count)
    return count.end()


if __name__ == "__main__":
    sys.exit(main(sys.argv[1:]))
