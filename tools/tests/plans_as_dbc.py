"""What the tests of `plan2dbc` share: what a plan and a DBC say, and the way from one to the other and back."""

import tomllib
from math import gcd
from typing import Any

from tests.support import InFolder, run


def scale(signal: dict[str, Any]) -> tuple[Any, ...]:
    """Step, offset and divisor of a signal in the smallest numbers, and its unit of measurement, without a fraction of it."""
    parts, _, unit = signal.get("unit", "").rpartition(" ") if signal.get("unit", "").startswith("1/") else ("", "", signal.get("unit", ""))
    numbers = signal.get("step", 1), signal.get("offset", 0), signal.get("per", 1) * int(parts.removeprefix("1/") or 1)
    return *(number // gcd(*numbers) for number in numbers), unit


def said(plan: dict[str, Any]) -> tuple[Any, ...]:
    """What of a plan a DBC can say."""
    addresses = {unit["label"]: unit["address"] for unit in plan.get("unit", [])}
    units = {unit["label"]: (unit["address"], {key: part for key, part in unit["name"].items() if part})
             for unit in plan.get("unit", [])}
    groups = {
        group["label"]: (group["pgn"], group["priority"], group["length"], group.get("most"), group.get("every"), group.get("private", False),
                         {"bit": 1, **group.get("when", {})}, [
            (signal["label"], signal["byte"], signal.get("bit", 1), signal["bits"], signal["kind"], scale(signal), signal.get("repeated", False))
            for signal in group.get("signal", [])], [(text["label"], text["byte"], text.get("bytes")) for text in group.get("text", [])])
        for group in plan.get("group", [])
    }
    to_all = {label for label, group in groups.items() if group[0] >> 8 & 0xFF >= 240}
    flows: dict[tuple[str, str, str], int | None] = {}
    for flow in plan.get("flow", []):
        way = flow["group"], flow["from"], "all" if flow["group"] in to_all else flow["to"]
        flows[way] = min(filter(None, (flows.get(way), flow.get("period"))), default=None)
    return units, groups, flows, sorted(addresses)


def written(header: str, keys: dict[str, Any]) -> str:
    """A table of a plan."""
    lines = [f"[[{header}]]"]
    for key, part in keys.items():
        lines.append(f"{key} = {str(part).lower() if isinstance(part, bool) else repr(part)}")
    return "\n".join(lines) + "\n"


class WithPlans(InFolder):
    def made(self, plan: str) -> tuple[str, str]:
        """The DBC of a plan's file, under its name, and what is said of it."""
        status, dbc, told = run("plan2dbc.py", plan)
        self.assertEqual(status, 0, told)
        return self.write("file.dbc", dbc), told

    def back(self, plan: str) -> dict[str, Any]:
        """The plan that comes of a plan's DBC, whose units have the numbers that the plan has."""
        status, text, told = run("dbc2plan.py", "--identity", self.made(plan)[0])
        self.assertEqual(status, 0, told)
        return tomllib.loads(text)
