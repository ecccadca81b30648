"""Frames of sessions of the transport protocol for `audit_logs.py`: lawful ones with races, holds and packets that are asked for again, and faulty ones."""

from __future__ import annotations

import random

from audit_plans import ALL, FRAME_BYTES, LONGEST, NULL, PACKET_BYTES, PACKETS, TRANSPORT, Frame, whole
from audit_sessions import BAM, CTS, END_ACK, RTS

PRIORITY = 7
UNUSED = bytes([ALL])
LATER = 3  # how many frames a receiver's frame comes later, at most


def control(way: tuple[int, int], first: bytes, group: int) -> Frame:
    source, to = way
    return Frame(None, PRIORITY, TRANSPORT, to, source, first.ljust(5, UNUSED) + group.to_bytes(3, "little"))


def sized(way: tuple[int, int], code: int, size: int, limit: int, group: int) -> Frame:
    return control(way, bytes([code]) + size.to_bytes(2, "little") + bytes([whole(size, PACKET_BYTES), limit]), group)


def cleared(way: tuple[int, int], count: int, first: int, group: int) -> Frame:
    return control(way, bytes([CTS, count, first]), group)


def packet(way: tuple[int, int], number: int) -> Frame:
    source, to = way
    return Frame(None, PRIORITY, PACKETS, to, source, bytes([number]) + bytes(PACKET_BYTES))


def lawful(dice: random.Random, way: tuple[int, int], group: int) -> list[Frame]:
    """A message, whole: the receiver holds the sender now and then, or asks once more for packets."""
    back = way[1], way[0]
    size, limit = dice.choice([9, 14, 15, 21, 22, 60, 60, LONGEST]), dice.choice([ALL, ALL, 0, 1, 2, 3])
    count, least = whole(size, PACKET_BYTES), limit or ALL
    frames, next_one = [sized(way, RTS, size, limit, group)], 1
    while next_one <= count:
        frames += [cleared(back, 0, dice.choice([ALL, next_one]), group)] if dice.random() < 0.1 else []
        first = dice.randint(1, next_one) if dice.random() < 0.2 else next_one
        some = min(least, count, dice.choice([1, 2, 4, ALL]) if size < LONGEST else ALL)
        last = min(first + some - 1, count)
        frames += [cleared(back, some if dice.random() < 0.2 else last - first + 1, first, group)]
        frames += [packet(way, number) for number in range(first, last + 1)]
        next_one = max(next_one, last + 1)
    return [*frames, sized(back, END_ACK, size, ALL, group)]


def raced(dice: random.Random, frames: list[Frame], receiver: int) -> list[Frame]:
    """Each frame of the receiver may come later, behind some of the sender."""
    order = [(at + (dice.randint(0, LATER) if frame.source == receiver and dice.random() < 0.2 else 0), at) for at, frame in enumerate(frames)]
    return [frames[at] for _, at in sorted(order)]


def altered(dice: random.Random, frame: Frame) -> Frame:
    """A frame with another byte, another length, or another way."""
    kind, data = dice.random(), bytearray(frame.data)
    if not data:
        return frame
    if data[0] == CTS and frame.pgn == TRANSPORT and len(data) == FRAME_BYTES and kind < 0.5:
        place = dice.choice([1, 2])
        data[place] = max(0, min(ALL, data[place] + dice.choice([-1, 1, 1, 2, 5])))
        return frame._replace(data=bytes(data))
    if kind < 0.7:
        data[dice.randrange(len(data))] = dice.choice([0, 1, 2, 3, 4, 9, RTS, CTS, END_ACK, BAM, ALL])
        return frame._replace(data=bytes(data))
    if kind < 0.85:
        return frame._replace(data=frame.data[: dice.randrange(FRAME_BYTES)])
    return frame._replace(to=dice.choice([frame.source, NULL, ALL, 3, 0]))


def faulty(dice: random.Random, frames: list[Frame]) -> list[Frame]:
    """With frames that are missing, or come twice, or early, or altered."""
    found = list(frames)
    for _ in range(dice.choice([1, 1, 2, 4])):
        at, kind = dice.randrange(len(found)), dice.random()
        if kind < 0.35:
            at = dice.choice([at, *(place for place, frame in enumerate(found) if frame.data[:1] == bytes([CTS]))])
            found[at] = altered(dice, found[at])
        elif kind < 0.6 and len(found) > 1:
            del found[at]
        elif kind < 0.8:
            found.insert(at, found[dice.randrange(len(found))])
        else:
            found.insert(max(0, at - dice.randint(1, 4)), found.pop(at))
    return found


def random_sessions(dice: random.Random) -> list[Frame]:
    """Some sessions of two addresses one after the other, of which each may begin before the one before has ended."""
    way = dice.choice([(0, 3)] * 4 + [(3, 0), (0, 128), (128, 0), (129, 3), (200, 0), (0, 200), (NULL, 3), (0, 0)])
    frames: list[Frame] = []
    for _ in range(dice.choice([1, 2, 2, 3])):
        some = raced(dice, lawful(dice, way, dice.choice([65260, 65260, 65260, 65100, 0x3FFFF])), way[1])
        overlap = dice.choice([0, 0, 0, 1, 2])
        held = frames[len(frames) - overlap :] if overlap else []
        frames = frames[: len(frames) - len(held)] + some[:1] + held + some[1:]
    return faulty(dice, frames) if dice.random() < 0.6 else frames
