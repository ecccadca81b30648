#!/usr/bin/env python3
"""Writes a plan at its limits, a schedule for it, a plan that tells of its bus, and a live plan with a schedule:
make_limits.py PLAN SCHEDULE TIMED LIVE GOING_OFF

128 units, 256 groups with 64 signals and 512 flows. In the schedule all units start and hear one another's claims, and
then each sends a message of 64 bytes to all others, packet by packet. In the timed plan every second group has 8 bytes
in 32 signals, each flow a period, a jitter and a pause, and 512 needs ask for groups, every second one for their age.
On the live bus 64 messages are open, every second one to all others, and units go off and come on again, one by one.
"""
import sys

UNITS, GROUPS, SIGNALS, FLOWS, NEEDS = 128, 256, 64, 512, 512
OPEN, ROUNDS = 64, 20


def units():
    for unit in range(UNITS):
        yield f'[[unit]]\nlabel = "U{unit}"\naddress = {unit}\nname = {{ identity = {unit + 1} }}'


def plan():
    yield "version = 1"
    yield from units()
    for group in range(GROUPS):
        yield f'[[group]]\nlabel = "G{group}"\npgn = {126976 + group}\npriority = 6\nlength = {SIGNALS}'
        for signal in range(SIGNALS):
            yield f'[[group.signal]]\nlabel = "S{signal}"\nbyte = {signal + 1}\nbits = 8\nkind = "measured"\nunit = "rpm"'
    for flow in range(FLOWS):
        sender = flow % UNITS
        receiver = "all" if flow < FLOWS // 2 else f"U{(sender + 1 + flow // UNITS) % UNITS}"
        yield f'[[flow]]\ngroup = "G{flow % GROUPS}"\nfrom = "U{sender}"\nto = "{receiver}"'


def timed():
    yield "version = 4\n[timing]\nbitrate = 500000\nunplanned = 3\nerrors = { count = 1, every = 1000 }"
    yield from units()
    for group in range(GROUPS):
        size = SIGNALS if group % 2 else 8
        yield f'[[group]]\nlabel = "G{group}"\npgn = {126976 + group}\npriority = {group % 8}\nlength = {size}'
        for signal in range(SIGNALS if group % 2 else SIGNALS // 2):
            place = f"byte = {signal + 1}\nbits = 8" if group % 2 else f"byte = {signal // 4 + 1}\nbit = {signal % 4 * 2 + 1}\nbits = 2"
            kind = 'kind = "measured"\nunit = "rpm"' if group % 2 else 'kind = "discrete"'
            yield f'[[group.signal]]\nlabel = "S{signal}"\n{place}\n{kind}'
    for flow in range(FLOWS):
        sender = (flow + flow // GROUPS) % UNITS
        receiver = "all" if flow < FLOWS // 2 or flow % 2 == 0 else f"U{(sender + 1 + flow // UNITS) % UNITS}"
        yield f'[[flow]]\ngroup = "G{flow % GROUPS}"\nfrom = "U{sender}"\nto = "{receiver}"'
        yield f"period = {5000 + flow}\njitter = 3\npause = {6000 + flow}"
    for need in range(NEEDS):
        yield f'[[need]]\nunit = "U{(need + 7) % UNITS}"\ngroup = "G{need % GROUPS}"'
        if need % 2 == 0:
            yield "within = 60000"


def schedule():
    for unit in range(UNITS):
        yield f"up U{unit}"
    for sender in range(UNITS):
        for receiver in range(sender):
            yield f"give U{sender} U{receiver}"
    packets = (SIGNALS + 6) // 7
    for sender in range(UNITS):
        yield f"begin {sender + 1} {bytes(range(SIGNALS)).hex()}"
        for _ in range(packets):
            yield f"emit U{sender}"
        for receiver in range(UNITS):
            if receiver != sender:
                yield from [f"take U{sender} U{receiver}"] * (packets + 1)
        yield f"rest U{sender}"


def live():
    yield "version = 4\nlive = true"
    yield from units()
    yield f'[[group]]\nlabel = "G"\npgn = 126976\npriority = 6\nlength = {SIGNALS}'
    for sender in range(OPEN):
        yield f'[[flow]]\ngroup = "G"\nfrom = "U{sender}"\nto = "{"all" if sender % 2 else f"U{sender + OPEN}"}"'


def begun(sender):
    """A message is begun, and its receivers take the announcement."""
    yield f"begin {sender + 1} {bytes(range(SIGNALS)).hex()}"
    for receiver in range(UNITS) if sender % 2 else [sender + OPEN]:
        if receiver != sender:
            yield f"take U{sender} U{receiver}"


def going_off():
    for unit in range(UNITS):
        yield f"up U{unit}"
    for sender in range(OPEN):
        yield from begun(sender)
    for _ in range(ROUNDS):
        for unit in range(UNITS):
            yield from [f"down U{unit}", f"up U{unit}"]
            partner = unit - OPEN
            if unit < OPEN:
                yield from begun(unit)
            elif partner % 2 == 0:
                yield f"rest U{partner}"
                yield from begun(partner)


for name, lines in zip(sys.argv[1:], (plan(), schedule(), timed(), live(), going_off())):
    with open(name, "w") as file:
        file.writelines(f"{line}\n" for line in lines)
