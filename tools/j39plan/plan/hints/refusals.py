"""Hints at a plan's file that the program refuses: the line of the fault, and what is wrong there."""

import re

from j39plan.plan.hints import alternative_lists
from j39plan.plan.hints.meant import key_meant
from j39plan.plan.hints.text_faults import Told, text_fault
from j39plan.plan.hints.values import spn_meant, value_hint
from j39plan.plan.hints.wanted import is_known, listed, wanted
from j39plan.plan.hints.words import likely
from j39plan.plan.parts import Source
from j39plan.plan.schema import ABSENT, VERSIONS, arrays, since
from j39plan.plan.toml_places import Place, place_of, table_of

# The tables by which a file is one of a vehicle, and not of a plan, and those that both have.
OF_VEHICLES, OF_BOTH = ("bus", "gateway", "forward"), ("need",)

# The keys that a trouble code can't have but with their defaults.
SCALE = ("step", "per", "offset", "unit")

# So many signals of a group are named.
SHOWN = 6

# Words that are taken for all units.
EVERYBODY = ("", "*", "255", "global", "broadcast", "any", "everybody")


def version_fault(plan: Source) -> Told:
    """Line and hint of a version that isn't there, or that is none."""
    wanted = f"integer {VERSIONS[0]}..{VERSIONS[-1]}"
    spelled = plan.places.spelled.get(("version",))
    return plan.line(("version",)), f"key version isn't there: {wanted}" if spelled is None else f"version = {spelled}: {wanted}"


def since_when(first: int) -> str:
    """From which version on something is known, for a plan of an earlier one."""
    return f"only from version = {first} on: write version = {VERSIONS[-1]}"


def unknown_key(plan: Source, place: Place) -> Told:
    """Line and hint of the table's first key that isn't listed."""
    known = listed(plan, place)
    key = next((key for key in plan.places.keys(place) if key not in known), None)
    return (plan.line(place), None) if key is None else unlisted_key(plan, place, key)


def unlisted_key(plan: Source, place: Place, key: str) -> Told:
    """Line and hint of a key that isn't listed, or not by the plan's version."""
    if not place and key in OF_VEHICLES and not any((array,) in plan.places.lines for array in arrays() if array not in OF_BOTH):
        return plan.line((key,)), "this is the file of a vehicle: j39plan vehicle takes it, and of the tools where, report and against"
    if first := since().get((table_of(place) or None, key)):
        if plan.places.number(("version",)) not in VERSIONS:
            return version_fault(plan)
        return plan.line(place + (key,)), f"key {key}: {since_when(first)}"
    return plan.line(place + (key,)), f"key {key}{key_meant(plan, place, key)}"


def missing_key(plan: Source, place: Place, key: str) -> Told:
    """Line and hint of a table that lacks a key."""
    why = f", which a {asking(plan, place)} needs" if key == "period" else ""
    first = since().get((ABSENT, table_of(place) or None, key))
    may_be_absent = f"; from version = {first} on it may be left away" if first else ""
    guess = f"; a guess: a claim of each unit, and three more: {claiming(plan) + 3}" if key == "unplanned" else ""
    return plan.line(place), f"key {key} isn't there{why}: {wanted(plan, place, key)}{may_be_absent}{guess}"


def claiming(plan: Source) -> int:
    """How many units claim, by the text of a plan that can't be read."""
    return sum(plan.places.spelled.get(unit + ("claims",)) != "false" for unit in plan.places.elements(("unit",)))


def kept_fault(plan: Source, key: str) -> Place:
    """The place in an array of addresses of the first that is out of range or there twice, if one is."""
    seen = set()
    for place in plan.places.elements((key,)):
        number = plan.places.number(place)
        if number in seen or number not in range(128, 248):
            return place[1:]
        seen.add(number)
    return ()


def value_fault(plan: Source, place: Place, key: str, cause: str) -> Told:
    """Line and hint of a key whose value is refused."""
    if cause == "TooMany":
        rule = listed(plan, place)[key]
        if "maxProperties" in rule:
            return plan.line(place + (key,)), f"key {key}: at most {rule['maxProperties']}"
        return plan.line(place + (key, rule["maxItems"] + 1)), f"key {key}: at most {rule['maxItems']}"
    if key in alternative_lists.LISTS and (told := alternative_lists.twice(plan, place, key)):
        return told
    if key == "keep_free":
        return plan.line(place + (key,) + kept_fault(plan, key)), f"key {key}: {wanted(plan, place, key)}"
    spelled = plan.places.spelled.get(place + (key,), "")
    shown = f"{key} = {spelled}" if 0 < len(spelled) < 50 and "\n" not in spelled else f"key {key}"
    if key == "repeated" and cause == "Range":
        return plan.line(place + (key,)), f"{shown}: the group has no key every"
    if key == "optional" and cause == "Range":
        return plan.line(place + (key,)), f"{shown}: the signal is repeated"
    word = plan.places.texts.get(place + (key,), "")
    if key == "kind" and not is_known(plan, word):
        return plan.line(place + (key,)), f"{shown}: {since_when(since()[word])}"
    if key in SCALE and plan.places.texts.get(place + ("kind",)) == "dtc":
        return plan.line(place + (key,)), f"{shown}: a dtc has no {key}"
    return plan.line(place + (key,)), f"{shown}: {wanted(plan, place, key)}{value_hint(plan, place, key, cause)}"


def label_fault(plan: Source, place: Place, key: str, cause: str) -> Told:
    """Line and hint of a label that was used before, or that nothing has."""
    label = plan.places.texts.get(place + (key,), "")
    if key in alternative_lists.LISTS:
        return (alternative_lists.repeated if cause == "Repeated" else alternative_lists.unknown)(plan, place, key)
    if cause == "Repeated":
        first = plan.labelled(place[:-1], label) + ("label",)
        if place[-2] == "text" and (signal := plan.labelled(place[:-2] + ("signal",), label)) != place[:-2] + ("signal",):
            first = signal + ("label",)
        hint = f"key label: {label} is at line {plan.line(first)} too"
    elif key == "signal":
        group = plan.places.texts.get(place + ("group",), "")
        texts = plan.labelled(("group",), group) + ("text",)
        if plan.labelled(texts, label) != texts:
            return plan.line(place + (key,)), f"key {key}: {label} is a text: leave signal out"
        others = [other for array, other in plan.labels if array == plan.labelled(("group",), group) + ("signal",)]
        meant = spn_meant(plan, place, label) or likely(label, others) or elsewhere(plan, label, others[::-1])
        hint = f"key {key}: no signal of {group} is called {label}{meant}"
    else:
        kind = "group" if key == "group" else "unit"
        others = [other for array, other in plan.labels if array == (kind,)] + ["all"] * (key == "to")
        meant = "; did you mean all?" if key == "to" and label.lower() in EVERYBODY else likely(label, others)
        hint = f"key {key}: no {kind} is called {label or 'so'}{meant}"
    return plan.line(place + (key,)), hint


def elsewhere(plan: Source, label: str, here: list[str]) -> str:
    """Which groups have a signal of a label, and which signals there are here."""
    having = [plan.places.texts.get(array[:-1] + ("label",), "") for array, other in plan.labels if other == label and array[-1] == "signal"]
    told = [f"; {' and '.join(having)} {'have' if len(having) > 1 else 'has'} one"] if having else []
    told += [f"; here {'is' if len(here) == 1 else 'are'} {', '.join(here[:SHOWN])}{' ..' * (len(here) > SHOWN)}"] if here else []
    return "".join(told)


def asking(plan: Source, flow: Place) -> str:
    """The key of a flow that asks for a period."""
    return "deadline" if "deadline" in plan.places.keys(flow) else "jitter"


def refusal(plan: Source, data: bytes, line: str) -> Told:
    """Line and hint of a refused file."""
    found = re.fullmatch(r"refused (\w+)(?: (.*?))?(?: key (\w+))?", line)
    assert found is not None
    cause, place, key = found.group(1), place_of(found.group(2) or "top"), found.group(3)
    if cause == "Text":
        return text_fault(plan.places, data)
    if cause == "UnknownKey":
        return unknown_key(plan, place)
    if key is None:
        return plan.line(place), "a table is wanted"
    if cause == "Missing":
        return missing_key(plan, place, key)
    if cause in ("Repeated", "UnknownLabel") and key != "keep_free":
        return label_fault(plan, place, key, cause)
    return value_fault(plan, place, key, cause)
