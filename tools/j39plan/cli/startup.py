"""Writes a start-up schedule of a plan: all units are switched on in an order, and every claim is delivered.

With --traffic each flow then sends one message.

What the units answer is played here by the standard's rule of address claims. The program then runs the schedule: it is written
only where nothing in it is refused and it ends settled, and that run shows which addresses the units hold then.
"""

import sys
from collections.abc import Iterable

from j39plan import program
from j39plan.j1939 import FRAME_BYTES, NULL_ADDRESS, PACKET_BYTES, POOL, is_pdu2
from j39plan.plan.answers import stands
from j39plan.plan.files import opened
from j39plan.plan.parts import source_in
from j39plan.plan.tables import Flow, Group, Tables

Frame = tuple[str, str]


class Schedule:
    """The lines of a schedule, as long as a file of one may be."""

    def __init__(self, title: str) -> None:
        self.lines: list[str] = []
        self.size = 0
        self.add("# " + "".join(char if char.isprintable() else "?" for char in title))

    def add(self, line: str) -> None:
        """A line more."""
        self.lines.append(line)
        self.size += len(line.encode()) + 1
        if self.size > program.INPUT_MOST:
            steps = f"more than {len(self.lines) - 2:,} steps, more than a schedule of {program.INPUT_MOST:,} bytes can have"
            raise program.Refused(program.TOO_LONG, f"a start-up of this plan takes {steps}")


def frames_of(lines: list[str]) -> list[Frame]:
    """The frames that a run sent, each as identifier and payload."""
    return [(line[:8], line[9:]) for line in lines if "#" in line]


class StartedUnit:
    """A unit that is on: what it has claimed, and what it has heard of others."""

    def __init__(self, frame: Frame, is_upward: bool, kept: frozenset[int]) -> None:
        self.name, self.address = claim_of(frame)
        self.is_upward, self.kept = is_upward, kept
        self.notes: dict[int, int] = {}

    def hear(self, name: int, address: int) -> int | None:
        """Hears a claim; the address that it claims then itself, or None."""
        self.notes.pop(name, None)
        if address != NULL_ADDRESS:
            self.notes[name] = address
        if address != self.address or address == NULL_ADDRESS:
            return None
        if name < self.name:
            self.address = self.another()
        return self.address

    def another(self) -> int:
        """The address that it moves to, the null address where there is none."""
        taken = self.kept.union(self.notes.values())
        free = [address for address in POOL if address not in taken]
        if not self.name >> 63 or not free:
            return NULL_ADDRESS
        return next((address for address in free if self.is_upward and address > self.address), free[0])


def claim_of(frame: Frame) -> tuple[int, int]:
    """The NAME and the address that a frame claims."""
    identifier, payload = frame
    return int.from_bytes(bytes.fromhex(payload), "little"), int(identifier[-2:], 16)


def units_on(plan: str, order: list[str]) -> dict[str, StartedUnit | None]:
    """The units, once they are switched on in an order; None of those that never claim, and so answer nothing."""
    source = source_in(plan)
    units, kept = {unit.label: unit for unit in source.tables.units}, frozenset(source.kept)
    frames = iter(frames_of(program.run(plan, [f"up {label}" for label in order])))
    return {label: StartedUnit(next(frames), units[label].chooser == "upward", kept) if units[label].claims else None for label in order}


def start_up(units: dict[str, StartedUnit | None], schedule: Schedule) -> None:
    """Adds the steps by which the units, each switched on in this order, hear every claim and answer it."""
    order = list(units)
    for label in order:
        schedule.add(f"up {label}")
    # Who is to hear what from whom: first the earlier units each later one's claim.
    claims = [(later, unit.name, unit.address, order[:at]) for at, (later, unit) in enumerate(units.items()) if unit]
    while claims:
        answers = []
        for sender, name, address, hearers in claims:
            for hearer in hearers:
                schedule.add(f"give {sender} {hearer}")
                unit = units[hearer]
                answer = unit.hear(name, address) if unit else None
                if unit and answer is not None:
                    others = [label for label in order if label != hearer]
                    answers.append((hearer, unit.name, answer, others))
        claims = answers


def settled(plan: str, schedule: Schedule) -> list[str]:
    """How the units stand at the end of a schedule by the program, which is to find all claims delivered."""
    lines = program.run(plan, schedule.lines)
    if "settled" not in lines:
        raise program.Refused(program.FAULT, "claims are left undelivered")
    return [line for line in lines if line.startswith(("unit ", "settled"))]


def blank(group: Group) -> bytes:
    """The shortest message of a group, of bytes FF but for the bits that tell it from others."""
    number, when = (1 << 8 * group.length) - 1, group.when
    if when:
        number = number & ~((1 << when.bits) - 1 << when.span.start) | when.value << when.span.start
    return number.to_bytes(group.length, "little")


class ShortestMessage:
    """The shortest message of a flow: which flow it is, who sends it and who hears it."""

    def __init__(self, flow: Flow, group: Group, labels: list[str]) -> None:
        self.number, self.sender, self.to = flow.number, flow.sender, flow.to
        is_to_all = self.to == "all"
        self.receivers = [label for label in labels if label != self.sender] if is_to_all else [self.to]
        self.data = blank(group)
        self.can_go = is_to_all or (self.to != self.sender and not (is_pdu2(group.pgn) and group.most <= FRAME_BYTES))

    def steps(self, windows: dict[str, int]) -> list[str]:
        """The steps by which it is sent and heard: a frame at once, to all by a broadcast, to one unit by what this one permits."""
        data = f"{self.number} {self.data.hex().upper()}"
        heard = [f"take {self.sender} {receiver}" for receiver in self.receivers]
        if len(self.data) <= FRAME_BYTES:
            return [f"send {data}", *heard]
        packets = -(-len(self.data) // PACKET_BYTES)
        emit, rest = f"emit {self.sender}", f"rest {self.sender}"
        if self.to == "all":
            return [f"begin {data}", *heard, *[emit, *heard] * packets, rest]
        answer = f"take {self.to} {self.sender}"
        steps = [f"begin {data}", *heard]
        while packets > 0:
            permitted = min(packets, windows[self.to])
            steps += [answer, *[emit] * permitted, *heard * permitted]
            packets -= permitted
        return [*steps, answer, rest]


def traffic(tables: Tables, addressed: set[str], schedule: Schedule) -> list[int]:
    """Adds the steps by which each flow sends one message; the numbers of the flows that can't: their group can't go to one unit, or the
    sender or the one receiver has no address."""
    windows, groups = {unit.label: unit.window for unit in tables.units}, {group.label: group for group in tables.groups}
    left_out = []
    for flow in tables.flows:
        message = ShortestMessage(flow, groups[flow.group], list(windows))
        ends = {message.sender} if message.to == "all" else {message.sender, message.to}
        if not message.can_go or not ends <= addressed:
            left_out.append(flow.number)
            continue
        for step in message.steps(windows):
            schedule.add(step)
    return left_out


def addressed_in(ends: Iterable[str]) -> set[str]:
    """The units that hold addresses at the end of a run."""
    return {words[1] for words in map(str.split, ends) if words[0] == "unit" and words[2] == "address"}


def ordered(labels: list[str], first: Iterable[str]) -> list[str]:
    """All units, those that are named first in front."""
    unknown = [label for label in first if label not in labels]
    if unknown:
        raise program.Refused(program.UNREADABLE, f"no unit is called {unknown[0]}")
    return list(dict.fromkeys([*first, *labels]))


def sure_of(plan: str) -> set[str]:
    """The units that hold their planned addresses in each run; of a plan whose addresses have findings none is known to."""
    _, answer = program.call(["addresses", "--", plan])
    return {label for label, stand in stands(answer).items() if stand.stays}


def told(ends: list[str], sure: set[str]) -> list[str]:
    """The lines that a run ends with, and of which units the address is the same in each run."""
    return [f"{line}, sure" if line.startswith("unit ") and line.split()[1] in sure else line for line in ends]


@program.command
def main(words: list[str] | None = None) -> int:
    """Writes the schedule."""
    parser = program.parser(__doc__)
    parser.epilog = "example: %(prog)s plan.toml > start.schedule"
    program.plan_word(parser)
    parser.add_argument("first", metavar="UNIT", nargs="*", default=[],
                        help="units that are switched on first, in this order; "
                        "then come the others, in the order of the plan")
    parser.add_argument("--traffic", action="store_true", help="then each flow sends one message, the shortest that it has, and all receivers take it")
    given = parser.parse_args(words)
    then = "; then each flow sends one message" if given.traffic else ""
    schedule = Schedule(f"Start-up of {given.plan}: all units are switched on, and every claim is delivered{then}.")
    with opened(given.plan, given.variant) as plan:
        labels = program.labels_of(plan)
        start_up(units_on(plan, ordered(labels, given.first)), schedule)
        ends = settled(plan, schedule)
        left_out = traffic(Tables.of(plan), addressed_in(ends), schedule) if given.traffic else []
        ends = told(settled(plan, schedule), sure_of(plan))
    print("\n".join(schedule.lines))
    print("\n".join([*ends, *(f"flow {number} can't be sent" for number in left_out)]), file=sys.stderr)
    return 0


if __name__ == "__main__":
    sys.exit(main())
