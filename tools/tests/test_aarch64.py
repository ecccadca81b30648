"""What the program for Linux on 64-bit ARM is made of: gate/aarch64.c, which stands for the kit's C, and a folder of Debian's files."""

import os
import shutil
import subprocess
import tempfile
import unittest
from unittest import mock

from tests.support import InFolder

import aarch64

# Calls each function, and says what it answers.
CALLS = """#include <stdio.h>
#include <stdint.h>
#include <string.h>
typedef struct { uint64_t is_there; void *block; } given;
given rattle_alloc(uint64_t, uint64_t), rattle_realloc(void *, uint64_t, uint64_t, uint64_t);
void rattle_dealloc(void *), rattle_set_errno(int);
long rattle_arg(uint64_t, char *, uint64_t);
int rattle_errno(void);
int main(void) {
    char room[8] = "-------";
    given block = rattle_alloc(4, 1), empty = rattle_alloc(0, 16), none = rattle_alloc(-1ULL >> 1, 1), more;
    memcpy(block.block, "abc", 4);
    more = rattle_realloc(block.block, 4, 1 << 20, 1);
    printf("%d %d %d %d %s\\n", (int)block.is_there, (int)empty.is_there, (int)none.is_there, none.block != 0, (char *)more.block);
    none = rattle_realloc(more.block, 1 << 20, -1ULL >> 1, 1);
    printf("%d %s\\n", (int)none.is_there, (char *)more.block);
    rattle_dealloc(more.block);
    rattle_dealloc(empty.block);
    printf("%ld %ld %ld %ld", rattle_arg(1, room, 7), rattle_arg(2, room, 3), rattle_arg(3, room, 7), rattle_arg(4, room, 7));
    printf(" %ld %s\\n", rattle_arg(2, room, 4), room);
    rattle_set_errno(28);
    printf("%d\\n", rattle_errno());
    return 0;
}
"""
SAID = "1 1 0 1 abc\n0 abc\n1 -2 0 -1 4 word---\n28\n"


class InC(InFolder):
    def said(self, compiler: str, *before: str) -> str:
        """What calls of the functions say, of this compiler."""
        with open(self.path("calls.c"), "w", encoding="ascii") as file:
            file.write(CALLS)
        subprocess.run([compiler, "-O2", "-Wno-builtin-declaration-mismatch", "-o", self.path("calls"), self.path("calls.c"), aarch64.SOURCE], check=True)
        return subprocess.run([*before, self.path("calls"), "a", "word", ""], capture_output=True, text=True, check=True).stdout

    @unittest.skipUnless(shutil.which("gcc"), "gcc isn't there: apt-get install gcc")
    def test_here(self) -> None:
        self.assertEqual(self.said("gcc"), SAID)

    @unittest.skipUnless(shutil.which("aarch64-linux-gnu-gcc") and shutil.which("qemu-aarch64"), "gcc-aarch64-linux-gnu or qemu-user isn't there")
    def test_on_arm(self) -> None:
        self.assertEqual(self.said("aarch64-linux-gnu-gcc", "qemu-aarch64", "-L", aarch64.ROOT), SAID)


class Folder(unittest.TestCase):
    def test_what_is_missing_is_named(self) -> None:
        with tempfile.TemporaryDirectory() as there, mock.patch("aarch64.FOLDERS", (there,)), mock.patch("checks.kit", return_value=there):
            with self.assertRaisesRegex(aarch64.Missing, "Scrt1.o for ARM is missing: apt-get install libc6-dev-arm64-cross"):
                aarch64.toolchain(os.path.join(there, "toolchain"))
            for name in aarch64.NEEDED:
                with open(os.path.join(there, name), "w", encoding="ascii"):
                    pass
            made = aarch64.toolchain(os.path.join(there, "again"))
            self.assertEqual(sorted(os.listdir(f"{made}/lib")), sorted(aarch64.NEEDED))
            self.assertEqual(os.readlink(f"{made}/bin"), f"{there}/toolchain/bin")

    def test_without_an_emulator(self) -> None:
        with tempfile.TemporaryDirectory() as there, mock.patch("shutil.which", return_value=None), self.assertRaisesRegex(aarch64.Missing, "apt-get install qemu-user"):
            aarch64.emulated("program", there)
