#!/usr/bin/env python3
"""Writes a log of a tractor and its implement as candump -L does: make_log.py [LINES] > LOG

The traffic is that of examples/tractor_and_implement.toml: short groups, broadcasts, sessions between two units and
claims, and beside them unknown groups, 11-bit frames and a few lines that spell no frame. It is the same in each run.
"""
import random
import sys

ALL, ENGINE, TRANSMISSION, BRAKES, CLUSTER, TERMINAL, SPRAYER, TASKS = 255, 0, 3, 11, 23, 38, 128, 247

# Weight, priority, group, sender and destination of each short group.
SHORT = [
    (20, 3, 61444, ENGINE, ALL), (1, 6, 65262, ENGINE, ALL), (5, 6, 65265, ENGINE, ALL), (1, 6, 65248, CLUSTER, ALL),
    (20, 3, 61442, TRANSMISSION, ALL), (5, 6, 61441, BRAKES, ALL), (5, 3, 0, TRANSMISSION, ENGINE), (5, 3, 0, BRAKES, ENGINE),
    (10, 3, 51968, TASKS, SPRAYER), (10, 3, 51968, SPRAYER, TASKS), (5, 5, 58880, TERMINAL, SPRAYER), (5, 5, 59136, SPRAYER, TERMINAL),
]
UNKNOWN = [65247, 65253, 65257, 65263, 65269, 65270, 65271, 65276, 61443, 61445, 65089, 65096]

random.seed(1939)


def frame(priority, group, source, destination, payload):
    number = group if group >> 8 & 255 >= 240 else group | destination
    return f"{priority << 26 | number << 8 | source:08X}#{bytes(payload).hex().upper()}"


def three(group):
    return [group & 255, group >> 8 & 255, group >> 16]


def payload(length):
    """Bytes of which some say that a signal is absent or faulty."""
    return [random.choice((255, 255, 254, 251)) if random.random() < 0.15 else random.randrange(256) for _ in range(length)]


def packets(size, source, destination):
    message = payload(size) + [255] * (-size % 7)
    for place in range(0, size, 7):
        yield frame(7, 60160, source, destination, [place // 7 + 1, *message[place : place + 7]])


def broadcast(group, size, source):
    count = (size + 6) // 7
    yield frame(7, 60416, source, ALL, [32, size & 255, size >> 8, count, 255, *three(group)])
    yield from packets(size, source, ALL)


def session(group, size, source, destination):
    count = (size + 6) // 7
    yield frame(7, 60416, source, destination, [16, size & 255, size >> 8, count, 255, *three(group)])
    yield frame(7, 60416, destination, source, [17, count, 1, 255, 255, *three(group)])
    yield from packets(size, source, destination)
    yield frame(7, 60416, destination, source, [19, size & 255, size >> 8, count, 255, *three(group)])


def claim():
    source = random.choice((ENGINE, CLUSTER, TERMINAL, SPRAYER))
    yield frame(6, 60928, source, ALL, payload(8))


def unknown():
    yield frame(6, random.choice(UNKNOWN), random.randrange(254), ALL, payload(random.choice((2, 4, 8, 8, 8))))


def eleven_bits():
    yield f"{random.randrange(2048):03X}#{bytes(payload(random.randrange(9))).hex().upper()}"


def bad():
    yield random.choice(("18FEEE00#7DF", "FFFFFFFF#00", "18FEEE00", "18FEEE00#000102030405060708", "R"))


def short():
    for _ in range(10):
        _, priority, group, source, destination = random.choices(SHORT, [it[0] for it in SHORT])[0]
        yield frame(priority, group, source, destination, payload(8))


EVENTS = [
    (70, short), (5, lambda: broadcast(65251, 39, ENGINE)), (4, lambda: session(65260, 18, ENGINE, CLUSTER)),
    (2, lambda: broadcast(65226, 30, ENGINE)), (2, lambda: session(65226, 90, TASKS, SPRAYER)),
    (1, claim), (180, unknown), (20, eleven_bits), (4, bad),
]


def write(lines):
    time = 1700000000000000
    while lines:
        event = random.choices(EVENTS, [it[0] for it in EVENTS])[0][1]
        for word in event():
            time += random.randrange(100, 2000)
            sys.stdout.write(f"({time // 1000000}.{time % 1000000:06}) can0 {word}\n")
            lines -= 1
            if not lines:
                return


write(int(sys.argv[1]) if len(sys.argv) > 1 else 330_000)
