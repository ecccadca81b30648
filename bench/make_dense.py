#!/usr/bin/env python3
"""Writes a plan and a log of which each line is a planned group of seven to fourteen signals: make_dense.py PLAN LOG GROUPS [LINES]

GROUPS are the groups of the plan as read_log.c includes them. They are the same in each run.
"""
import random
import sys

# What the eight bytes of a group hold: bits and kind of each signal, from the lowest bit up.
STATES, HALF = [(2, "discrete")] * 4, (4, "raw")
BYTE, WORD, LONG = (8, "measured"), (16, "measured"), (32, "measured")
LAYOUTS = [
    STATES + [BYTE] * 5 + [WORD],
    [HALF, HALF, WORD, WORD, BYTE, BYTE, BYTE],
    STATES * 2 + [WORD] * 3,
    [BYTE] * 8,
    STATES * 3 + [BYTE, LONG],
]
UNITS = {8: [("%", -125), ("degC", -40), ("kPa", 0)], 16: [("1/8 rpm", 0), ("1/32 degC", -8736), ("Nm", 0)], 32: [("1/8 km", 0)]}
FIRST_GROUP, FIRST_SIGNAL, SOURCES = 61440, 100, (0, 3, 11, 23, 128)


def groups():
    """The label, the number and the signals of each group: label, first bit, bits, kind, offset and unit."""
    number = FIRST_SIGNAL
    for place in range(2 * len(LAYOUTS)):
        start, signals = 0, []
        for bits, kind in LAYOUTS[place % len(LAYOUTS)]:
            unit, offset = UNITS[bits][number % len(UNITS[bits])] if kind == "measured" else ("", 0)
            signals.append((f"SPN{number}", start, bits, kind, offset, unit))
            start, number = start + bits, number + 1
        yield f"G{place}", FIRST_GROUP + place, signals


def plan():
    yield "version = 1\n"
    for label, pgn, signals in groups():
        yield f'[[group]]\nlabel = "{label}"\npgn = {pgn}\npriority = 6\nlength = 8\n'
        for name, start, bits, kind, offset, unit in signals:
            yield f'[[group.signal]]\nlabel = "{name}"\nbyte = {start // 8 + 1}\nbit = {start % 8 + 1}\nbits = {bits}\nkind = "{kind}"\n'
            yield f'offset = {offset}\nunit = "{unit}"\n' if unit else ""


def header():
    for label, _, signals in groups():
        rows = ", ".join(f'{{"{name}", {start}, {bits}, {kind.upper()}, {offset}, "{unit}"}}' for name, start, bits, kind, offset, unit in signals)
        yield f"static const Signal {label.lower()}[] = {{{rows}}};\n"
    rows = ", ".join(f'{{"{label}", {pgn}, 8, {label.lower()}, {len(signals)}}}' for label, pgn, signals in groups())
    yield f"static const Group groups[] = {{{rows}}};\n"


def log(lines):
    random.seed(1939)
    time, numbers = 1700000000000000, [pgn for _, pgn, _ in groups()]
    for _ in range(lines):
        time += random.randrange(100, 2000)
        payload = bytes(random.choice((255, 254)) if random.random() < 0.05 else random.randrange(251) for _ in range(8))
        identifier = 6 << 26 | random.choice(numbers) << 8 | random.choice(SOURCES)
        yield f"({time // 1000000}.{time % 1000000:06}) can0 {identifier:08X}#{payload.hex().upper()}\n"


lines = int(sys.argv[4]) if len(sys.argv) > 4 else 310_000
for name, text in zip(sys.argv[1:4], (plan(), log(lines), header())):
    with open(name, "w", encoding="ascii") as file:
        file.writelines(text)
