"""Plans of SAE J1939 networks, and logs of their buses, as the tools of j39plan read them.

    import j39plan

    plan = j39plan.read_plan("plan.toml")
    for finding in plan.findings():
        print(finding.line, finding.text)
    for row in j39plan.signals(plan, "drive.log", "SPN190"):
        print(row["time"], row["from"], row["value"], row["unit"])

What is said of a plan and of a log is what the program `j39plan` answers: the one that the environment's J39PLAN names, else the one
that the repository has built, else the one on the PATH. A file that can't be read, a log without a frame and a missing program raise
`Refused`; a file that can't be opened raises `OSError`. What a tool says on standard error of a log that it reads, as how many lines
spell no frame, is a warning of the category `Notice`.
"""

from __future__ import annotations

import importlib
import importlib.util
import sys
from typing import TYPE_CHECKING

from j39plan.program import MISSING

if sys.version_info < (3, 10):
    print("the tools of j39plan need Python 3.10 or later", file=sys.stderr)
    sys.exit(MISSING)
if sys.version_info < (3, 11) and importlib.util.find_spec("tomli") is None:
    print("with Python 3.10 the tools of j39plan need tomli: apt-get install python3-tomli", file=sys.stderr)
    sys.exit(MISSING)

if TYPE_CHECKING:
    from j39plan.api import (
        Accused, Acknowledgement, Age, Asking, Audit, Claim, Code, Delay, Deviation, Drive, Finding, FirstPlan, Flow, Forward, Frame, Gateway, Group, Load,
        Message, Need, Notice, Plan, Reading, Readings, Refused, Request, Signal, Stand, Text, Unit, Vehicle, VehicleFinding, VehicleNeed, Who, audit, codes,
        deviations, drive, follow, frame, log2plan, read_plan, read_vehicle, signals,
    )

__all__ = [
    "Accused", "Acknowledgement", "Age", "Asking", "Audit", "Claim", "Code", "Delay", "Deviation", "Drive", "Finding", "FirstPlan", "Flow", "Forward", "Frame",
    "Gateway", "Group", "Load", "Message", "Need", "Notice", "Plan", "Reading", "Readings", "Refused", "Request", "Signal", "Stand", "Text", "Unit", "Vehicle",
    "VehicleFinding", "VehicleNeed", "Who", "audit", "codes", "deviations", "drive", "follow", "frame", "log2plan", "read_plan", "read_vehicle", "signals",
]

if not TYPE_CHECKING:
    def __getattr__(name: str) -> object:
        """What the package hands out, loaded when it is asked for: no command needs it."""
        if name not in __all__:
            raise AttributeError(f"module {__name__!r} has no attribute {name!r}")
        return getattr(importlib.import_module("j39plan.api"), name)

    def __dir__() -> list[str]:
        return sorted([*globals(), *__all__])
