"""The module of WebAssembly of the page: the LLVM module from which the kit's compiler makes the proved program, compiled by the same clang for
WebAssembly with addresses of 64 bits, and lowered to a memory of 32 bits by binaryen's wasm-opt, so that browsers of today take it.

wasm-opt of Debian knows no tables of 64 bits, so the few calls by function pointer become choices among the functions that a pointer can name.
"""

from __future__ import annotations

import filecmp
import os
import re
import shutil
import subprocess
import sys

sys.dont_write_bytecode = True
import build
import checks
import crates

SOURCES = f"{crates.TOP}/page/module"
# Notes the module that the kit's rattle hands to clang beside this file, and then is clang: the object is the same.
STAND_IN = """#!/bin/sh
for word in "$@"; do
  case $word in module.bc) cp "$word" "{kept}" ;; esac
done
exec "{clang}" "$@"
"""
# As the kit compiles for x86-64, where that has a meaning, and with what each browser of the last years has.
FLAGS = ["--target=wasm64-unknown-unknown", "-Wno-override-module", "-mbulk-memory", "-msign-ext", "-mmutable-globals", "-mnontrapping-fptoint",
         "-ffunction-sections", "-fdata-sections", *(word for it in ("-trap-unreachable", "-disable-machine-licm", "-disable-postra-machine-licm",
         "-sink-common-insts=false", "-expand-div-rem-bits=64") for word in ("-mllvm", it))]
FEATURES = ["--enable-memory64", "--enable-bulk-memory", "--enable-sign-ext", "--enable-mutable-globals", "--enable-nontrapping-float-to-int"]
STACK_BYTES = 1 << 20
SIGNATURE = re.compile(r'^attributes (#\d+) = \{.*"rattle-sig"="(\d+)"', re.M)
DEFINED = re.compile(r'^define internal (.*?) (@"[^"]*")\((.*)\) (#\d+) \{', re.M)
CALLED = re.compile(r"^(  (?:%\S+ = )?call )(.*?) (%[\w.]+)\((.*)\) (#\d+)$", re.M)


def call(words: list[str], **how: str) -> None:
    """Runs a program; what it says of a fault ends this one."""
    ran = subprocess.run(words, stdin=subprocess.DEVNULL, capture_output=True, text=True, check=False, cwd=how.get("cwd"))
    if ran.returncode:
        raise OSError(f"{words[0]} ended with status {ran.returncode}:\n{(ran.stdout + ran.stderr)[-2000:]}")


def build_lacking() -> None:
    """Builds, with its proofs, each library of the program that isn't there."""
    for name in crates.needed(build.PROGRAM)[:-1]:
        if not os.path.isdir(f"{crates.folder(name)}/out/rlib/{name}.rlib"):
            build.say(f"{name} is built first, with its proofs")
            call(["rt", "lib"], cwd=crates.folder(name))


def proved_module(room: str) -> str:
    """Returns the LLVM module of the proved program. The program that is linked from the same compilation has to be the built one."""
    kit = checks.kit()
    build_lacking()
    shutil.copytree(f"{kit}/toolchain", f"{room}/toolchain", copy_function=os.symlink, symlinks=True)
    os.unlink(f"{room}/toolchain/bin/clang")
    with open(f"{room}/toolchain/bin/clang", "w", encoding="utf-8", opener=lambda name, flags: os.open(name, flags, 0o755)) as file:
        file.write(STAND_IN.format(kept=f"{room}/module.bc", clang=f"{kit}/toolchain/bin/clang"))
    words = ["rattle", "build", *checks.words_of(build.PROGRAM), "--toolchain", f"{room}/toolchain", "--backend", "llvm", "-o", f"{room}/program.o"]
    call(words, cwd=crates.folder(build.PROGRAM))
    call([f"{kit}/bin/rattle-link", "--target", "x86_64-unknown-linux-gnu", "--toolchain", f"{kit}/toolchain", "-o", f"{room}/program",
          f"{room}/program.o", f"{kit}/c/libos_c.a", f"{kit}/c/liblibc_c.a"])
    if not filecmp.cmp(f"{room}/program", build.BUILT, shallow=False):
        raise OSError("the program of this module is another file than the one that was built")
    return f"{room}/module.bc"


def chooser(name: str, functions: list[tuple[int, str, str, str]]) -> str:
    """Returns the function that calls one of these functions, given by number, type, name and parameters, by a pointer."""
    _, kind, _, taken = functions[0]
    cases = " ".join(f"i64 {number}, label %f{number}" for number, *_ in functions)
    lines = [f"define internal {kind} {name}(ptr %pointer{', ' if taken else ''}{taken}) {{", "  %number = ptrtoint ptr %pointer to i64",
             f"  switch i64 %number, label %none [ {cases} ]", "none:", "  call void @llvm.trap()", "  unreachable"]
    for number, _, function, _ in functions:
        answer = "" if kind == "void" else f"%answer{number}"
        value = kind.removeprefix("noundef ")
        lines += [f"f{number}:", f"  {answer and f'{answer} = '}call {kind} {function}({taken})", f"  ret {value} {answer}".rstrip()]
    return "\n".join([*lines, "}", ""])


def without_pointers(text: str) -> str:
    """Returns a module as text in which each function whose address is taken is a number, and a call by pointer chooses by it."""
    signatures = dict(SIGNATURE.findall(text))
    named: dict[str, list[tuple[int, str, str, str]]] = {}
    for kind, name, taken, attribute in DEFINED.findall(text):
        if attribute in signatures:
            named.setdefault(signatures[attribute], []).append((sum(map(len, named.values())) + 1, kind, name, taken))

    def chosen(at: re.Match[str]) -> str:
        return f'{at[1]}{at[2]} @"chooser {signatures[at[5]]}"(ptr {at[3]}, {at[4]})'

    text = CALLED.sub(chosen, text)
    for number, _, name, _ in (it for functions in named.values() for it in functions):
        text = re.sub(rf"(ptr (?:%\S+, )?){re.escape(name)}(?!\()", rf"\1inttoptr (i64 {number} to ptr)", text)
    return text + "".join(chooser(f'@"chooser {it}"', functions) for it, functions in named.items())


def compiled(module: str, room: str) -> bytes:
    """Returns the module of WebAssembly of an LLVM module."""
    clang = f"{checks.kit()}/toolchain/bin/clang"
    call([clang, "-x", "ir", module, "-S", "-emit-llvm", "-O0", "-Xclang", "-disable-llvm-passes", "-Wno-override-module", "-o", f"{room}/module.ll"])
    with open(f"{room}/module.ll", encoding="utf-8") as file:
        text = without_pointers(file.read())
    # these are of x86-64
    text = re.sub(r' "(?:target-cpu|probe-stack|stack-probe-size)"="[^"]*"', "", text)
    with open(f"{room}/module.ll", "w", encoding="utf-8") as file:
        file.write(text)
    call([clang, *FLAGS, "-O2", "-fno-builtin", "-c", f"{SOURCES}/heap.c", "-o", f"{room}/heap.o"])
    call([clang, *FLAGS, "-O2", "-x", "ir", "-c", f"{SOURCES}/kit.ll", "-o", f"{room}/kit.o"])
    call([clang, *FLAGS, "-O3", "-x", "ir", "-c", f"{room}/module.ll", "-o", f"{room}/module.o"])
    # the kit's linker is one file with clang, by the name that it is called by
    os.symlink(clang, f"{room}/wasm-ld")
    call([f"{room}/wasm-ld", "-m", "wasm64", "--no-entry", "--gc-sections", "--strip-all", "-z", f"stack-size={STACK_BYTES}", "--stack-first", "--export=main",
          "--allow-undefined", f"{room}/module.o", f"{room}/kit.o", f"{room}/heap.o", "-o", f"{room}/wide.wasm"])
    call(["wasm-opt", *FEATURES, "--memory64-lowering", f"{room}/wide.wasm", "-o", f"{room}/module.wasm"])
    with open(f"{room}/module.wasm", "rb") as file:
        return file.read()
