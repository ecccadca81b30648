#!/usr/bin/env python3
"""The program for Linux on 64-bit ARM: the proved program, compiled by the kit for that target over the libraries that were built, and linked with
gate/aarch64.c and files of Debian's packages libc6-dev-arm64-cross, libgcc-12-dev-arm64-cross and libgcc-s1-arm64-cross.

usage: aarch64.py               builds it, where it isn't built, as crates/j39plan/out/j39plan-aarch64; what is said goes to standard error
       aarch64.py write         puts it into program/, with its record
       aarch64.py rows [FILE]   runs the stored rows by qemu-user on the one in program/, or on this file. The last line is 'N passed, M failed'

The record, program/j39plan-linux-aarch64.txt, has the sums of the program and of its sources, the toolchain, and the C library that it wants. Exit
status: 0 done, 1 rows failed, 69 the toolchain or a package is missing, 70 the build failed.
"""

from __future__ import annotations

import glob
import os
import shutil
import subprocess
import sys
import tempfile

sys.dont_write_bytecode = True
import build
import checks
import crates
import page_module
import program

TARGET = "aarch64-unknown-linux-gnu"
BUILT = f"{build.BUILT}-aarch64"
STORED = f"{crates.TOP}/program/{build.PROGRAM}-linux-aarch64"
SOURCE = f"{crates.TOP}/gate/aarch64.c"
# What the kit's linker wants beside the program, and the folders in which Debian's packages have it.
NEEDED = ("Scrt1.o", "crti.o", "crtn.o", "crtbeginS.o", "crtendS.o", "libc.so.6", "libc_nonshared.a", "libm.so.6", "libgcc.a", "libgcc_s.so.1",
          "ld-linux-aarch64.so.1")
ROOT = "/usr/aarch64-linux-gnu"
FOLDERS = (f"{ROOT}/lib", *sorted(glob.glob("/usr/lib/gcc-cross/aarch64-linux-gnu/*"), reverse=True))
EMULATOR = ("qemu-aarch64", "qemu-aarch64-static")
# As the kit compiles what the program calls.
FLAGS = [f"--target={TARGET}", "-O2", "-fPIE", "-ffunction-sections", "-fdata-sections", "-fno-builtin", "-Wall", "-Wextra", "-Werror"]


class Missing(Exception):
    """Something isn't there: what."""


def file_of(name: str) -> str:
    """Returns where Debian's packages have a file."""
    found = next((f"{folder}/{name}" for folder in FOLDERS if os.path.exists(f"{folder}/{name}")), None)
    if found is None:
        raise Missing(f"{name} for ARM is missing: apt-get install libc6-dev-arm64-cross libgcc-12-dev-arm64-cross")
    return found


def toolchain(folder: str) -> str:
    """Makes a folder of the kit's programs and of these files, as the kit takes one, and returns its name."""
    os.makedirs(f"{folder}/lib")
    os.symlink(f"{checks.kit()}/toolchain/bin", f"{folder}/bin")
    for name in NEEDED:
        shutil.copyfile(file_of(name), f"{folder}/lib/{name}")
    return folder


def linked(name: str, words: list[str], room: str) -> str:
    """Compiles a crate by the words of its check, in its folder, and returns the name of the program for ARM."""
    kit, tools = checks.kit(), toolchain(f"{room}/toolchain")
    page_module.call(["rattle", "build", *words, "--target", TARGET, "--toolchain", tools, "--backend", "llvm", "-o", f"{room}/program.o"], cwd=name)
    page_module.call([f"{kit}/toolchain/bin/clang", *FLAGS, "-c", SOURCE, "-o", f"{room}/c.o"])
    page_module.call([f"{kit}/bin/rattle-link", "--target", TARGET, "--toolchain", tools, "-o", f"{room}/program", f"{room}/program.o", f"{room}/c.o"])
    return f"{room}/program"


def make() -> int:
    """Builds the program, where it isn't built."""
    if build.is_built(BUILT):
        return 0
    if not shutil.which("rt"):
        build.say("the Rattle toolchain is missing: install the kit that the README names and put its command rt on the PATH")
        return build.MISSING
    sources = build.digest()
    try:
        with tempfile.TemporaryDirectory(prefix="j39plan-aarch64-") as room:
            for name in NEEDED:
                file_of(name)
            page_module.build_lacking()
            made = linked(crates.folder(build.PROGRAM), checks.words_of(build.PROGRAM), room)
            os.makedirs(os.path.dirname(BUILT), exist_ok=True)
            shutil.copyfile(made, f"{BUILT}.new")
    except Missing as why:
        build.say(str(why))
        return build.MISSING
    except OSError as fault:
        build.say(f"building for ARM failed: {fault}")
        return build.FAILED
    os.chmod(f"{BUILT}.new", 0o755)
    os.replace(f"{BUILT}.new", BUILT)
    build.note(BUILT, sources)
    return 0


def write() -> int:
    """Puts the built program into program/, with its record."""
    if not build.is_built(BUILT):
        build.say("the program for ARM isn't built, or it is of other sources: ./j39plan --build --target aarch64")
        return build.FAILED
    program.keep(BUILT, STORED)
    return 0


def emulated(name: str, folder: str) -> str:
    """Returns the name of a script that runs a program for ARM."""
    emulator = next(filter(None, map(shutil.which, EMULATOR)), None)
    if emulator is None:
        raise Missing("qemu-aarch64 is missing: apt-get install qemu-user")
    with open(f"{folder}/run", "w", encoding="utf-8", opener=lambda path, flags: os.open(path, flags, 0o755)) as file:
        file.write(f'#!/bin/sh\nexec {emulator} -L {ROOT} "{os.path.abspath(name)}" "$@"\n')
    return f"{folder}/run"


def run_rows(name: str) -> int:
    """Runs the rows, by a process each."""
    with tempfile.TemporaryDirectory(prefix="j39plan-aarch64-") as folder:
        try:
            script = emulated(name, folder)
        except Missing as why:
            build.say(str(why))
            return build.MISSING
        return subprocess.run([sys.executable, f"{crates.TOP}/gate/rows.py"], env={**os.environ, "J39PLAN": script}, check=False).returncode


def main(words: list[str]) -> int:
    if words[:1] == ["rows"]:
        return run_rows(words[1] if words[1:] else STORED)
    return write() if words == ["write"] else make()


if __name__ == "__main__":
    sys.exit(main(sys.argv[1:]))
