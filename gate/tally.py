"""What the scripts of the gate that try the built program share: the program, its commands, and the count of what went well."""

import os
import subprocess
import sys
from collections.abc import Sequence
from typing import Any

sys.dont_write_bytecode = True
import crates

# The program of the environment's J39PLAN, else the built one.
PROGRAM = os.path.realpath(os.environ.get("J39PLAN") or f"{crates.folder('j39plan')}/out/j39plan")
DEVICE, MEMORY = b"j39plan: device fault\n", b"j39plan: out of memory\n"
TOO_LONG, BAD_WORDS = b"j39plan: input too long\n", b"j39plan: bad command line\n"
DEVICE_STATUS, MEMORY_STATUS = 4, 3
SECONDS = 60
# Each command once: its words, from the folder examples/.
COMMANDS = (
    ["frame", "18EEFF00#0100800C00000010"],
    ["check", "tractor_and_implement.toml"],
    ["check", "findings/several.toml"],
    ["addresses", "three_at_one_address.toml"],
    ["show", "line.toml"],
    ["variant", "line.toml", "DETROIT", "RETARDER"],
    ["load", "axle.toml"],
    ["show", "axle.toml"],
    ["run", "transfers.toml", "transfers.directed_lost.schedule"],
    ["read", "tractor_and_implement.toml", "tractor_and_implement.start.log"],
    ["follow", "two_units_one_address.toml", "two_units_one_address.drive.log"],
    ["follow", "service_requests.toml", "service_requests.start.log"],
    ["follow", "--all", "service_requests.toml", "service_requests.start.log"],
    ["audit", "two_units_one_address.toml", "two_units_one_address.drive.log"],
    ["audit", "--part", "--stamps", "500", "service_requests.toml", "service_requests.start.log"],
    ["vehicle", "three_buses/truck.toml"],
    ["vehicle", "three_buses/slow_gateway.toml"],
    ["--help"],
)


def run(words: Sequence[str | bytes], **how: Any) -> subprocess.CompletedProcess[bytes]:
    """Runs the program in the folder examples/, without input, and keeps what it writes."""
    how = {"stdin": subprocess.DEVNULL, "stdout": subprocess.PIPE, "stderr": subprocess.PIPE, **how}
    return subprocess.run([PROGRAM, *words], cwd=f"{crates.TOP}/examples", timeout=SECONDS, check=False, **how)


def is_built(program: str) -> bool:
    return os.access(program, os.X_OK)


class Tally:
    """Counts what is as it should be, and says what isn't."""

    def __init__(self) -> None:
        self.passed, self.failed = 0, 0

    def expect(
        self, what: str, ran: subprocess.CompletedProcess[bytes], status: int, complaint: bytes | None, output: bytes | None = b""
    ) -> None:
        """Counts a run. An output that isn't caught is None on both sides."""
        is_well = (ran.returncode, ran.stderr, ran.stdout) == (status, complaint, output)
        self.count(what, is_well, f"status {ran.returncode}, standard error {ran.stderr!r}, standard output {ran.stdout!r:.200}")

    def count(self, what: str, is_well: bool, found: object) -> None:
        self.passed, self.failed = self.passed + is_well, self.failed + (not is_well)
        if not is_well:
            print(f"{what}: {found}")

    def end(self) -> int:
        """Prints the last line, and returns the exit status."""
        print(f"{self.passed} passed, {self.failed} failed")
        return 1 if self.failed else 0
