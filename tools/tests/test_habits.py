"""What `against` reports of drives of a small bus: one line for one thing, of the unit whose doing it is, and nothing of healthy units' habits."""

import unittest
from functools import partial

from j39plan.j1939 import ADDRESS_CLAIMED
from tests.small_bus import ADDRESSES, Bus, OfSmallBus, Timed, drive

STOOD = "nothing at all came for {} ms before: the bus, the log or its clock stood still; distances begin anew"
RESTART = "{} claims address {}, which it holds, and nobody asked: has it restarted? (not heard for {} ms before)"


class Habits(OfSmallBus):
    def test_a_healthy_drive(self) -> None:
        self.assertEqual(self.told(drive().carries(3)), [])

    def test_without_the_service_tool(self) -> None:
        """It is planned at 249, which J1939 gives to service tools. Another unit is absent, and that is all that is told of it."""
        self.assertEqual(self.told(Bus().starts(("TOOL",)).runs()), ["flow 6, CFG from BODY to HEADER: never sent"])
        found = self.told(Bus().starts(("GATE",)).runs(off={"GATE": (0, 99)}).carries(3))
        self.assertEqual(found, ["unit GATE: neither claimed an address nor sent anything"])

    def test_an_ignition_while_one_unit_stays_on(self) -> None:
        """ENGINE runs on. The others aren't heard from 5 s on, HEADER since 3.025, and claim at 10."""
        bus = Bus().starts().runs(off=dict.fromkeys(("BODY", "GATE", "HEADER"), (5, 10.06))).carries(3).claims(10, "BODY").claims(10.02, "GATE").claims(10.04, "HEADER")
        text = "units that weren't heard for up to 7015 ms claimed anew, while others stayed on: their ignition was off, or they were unplugged"
        self.assertEqual(self.told(bus), [f"10 {text} (3 units: BODY, GATE, HEADER)"])

    def test_units_that_lose_power_while_cranking(self) -> None:
        """For half a second: what they send sooner than planned behind their start accuses nobody."""
        bus = Bus().starts().runs(off=dict.fromkeys(("BODY", "GATE"), (5, 5.53))).carries(3).claims(5.5, "BODY").claims(5.51, "GATE")
        found = self.told(bus)
        self.assertEqual([line.partition(" for up")[0] for line in found], ["5.5 units that weren't heard"])
        self.assertTrue(found[0].endswith("(2 units: BODY, GATE)"), found)

    def test_an_ignition_that_is_off_at_the_end(self) -> None:
        """ENGINE runs on to 20 s; what BODY had to send to HEADER it couldn't."""
        found = self.told(Bus().starts().runs(off=dict.fromkeys(("BODY", "GATE", "HEADER"), (15, 99))).carries(3))
        self.assertEqual([line.partition(",")[0] for line in found], ["14.91 units aren't heard any more"])
        self.assertTrue(found[0].endswith("(2 units: GATE, BODY)"), found)
        found = self.told(Bus().starts().runs(off={"GATE": (15, 99)}).carries(3))
        self.assertEqual([line.partition(",")[0] for line in found], ["14.91 GATE: none of its flows comes any more"])

    def test_a_unit_that_is_unplugged_and_plugged(self) -> None:
        """BODY can't send to HEADER meanwhile, which was heard last at 3.025 s."""
        bus = Bus().starts().runs(off={"HEADER": (5, 12.01)}).carries(3).claims(12, "HEADER")
        self.assertEqual(self.told(bus), [f"12 {RESTART.format('HEADER', 61, 8975)}"])

    def test_a_request_to_who_is_off(self) -> None:
        """TOOL asks ENGINE for VI, which doesn't answer: that is ENGINE's, unless it isn't heard from then on."""
        bus = drive().carries(3).asks(12, 249, 65260, 0)
        self.assertEqual(self.told(bus), ["12 request 1, VI from TOOL to ENGINE: no answer within 1250 ms"])
        off = Bus().starts().runs(off={"ENGINE": (11.98, 16)}).carries(3).asks(12, 249, 65260, 0)
        self.assertEqual([line.partition(" for ")[0] for line in self.told(off)], ["16 ENGINE: none of its flows came"])

    def test_a_unit_that_loses_the_bus(self) -> None:
        """It isn't heard for 3 s, and claims nothing: one line, of all its flows; its flows and the unit are broken, as far as they are asked for."""
        found = self.told(Bus().starts().runs(off={"GATE": (5, 8)}).carries(3))
        self.assertEqual([line.partition(" for ")[0] for line in found], ["8.006 GATE: none of its flows came"])
        self.assertTrue(found[0].endswith("was it off the bus? (flow 3, 4)"), found)

    def test_a_message_that_is_cut(self) -> None:
        """BODY goes off behind the second packet, and claims 4 s later: that it begins anew is all."""
        bus = Bus().starts().runs(off={"BODY": (5, 9.01)}).carries(3).carries(4.99, (1, 2), False).claims(9, "BODY").carries(11)
        self.assertEqual(self.told(bus), [f"9 {RESTART.format('BODY', 33, '4001')}"])


class Loggers(OfSmallBus):
    def test_a_clock_that_is_set_on(self) -> None:
        """By 350 ms at 8 s: three flows of two units would be silent at once."""
        found = self.told(drive().carries(3), lambda frames: [(at + 0.35 * (at > 8), identifier, data) for at, identifier, data in frames])
        self.assertEqual([line.partition(" ")[2] for line in found], [STOOD.format("370.006")])

    def test_a_log_with_each_line_twice(self) -> None:
        """3 us apart, or at the same time; a frame that comes as soon as it can, 131 bits later, is another one."""
        text = "a frame stands twice in the log, nearer than its bits take on the bus: the second one is passed over"
        for apart in (0.000003, 0, 0.000263):
            found = self.told(drive().carries(6), partial(twice, apart))
            self.assertEqual(found, [f"{0.1 + apart:.4g} {text}  ({len(self.lines) // 2} times)"], apart)

    def test_a_frame_that_comes_again(self) -> None:
        """An EEC1 that begins as soon as the one before has ended is on the bus: 131 bits of 4 us behind it."""
        for apart, found in ((0.000523, "a frame stands twice"), (0.000524, "flow 1, EEC1 from ENGINE to all: 0.524 ms after the one before")):
            told = self.told(Bus().starts().runs().carries(3).put(19.99 + apart, 0x0CF00400, bytes(8)).put(19.99, 0x0CF00400, bytes(8)))
            self.assertEqual([line.partition(" ")[2][:len(found)] for line in told if apart > 0.0005235 or "twice" in line], [found])

    def test_a_gap_behind_which_a_tool_asks_for_claims(self) -> None:
        """Who answers a request doesn't start."""
        bus = drive().carries(3).asks(9, 254, ADDRESS_CLAIMED)
        for place, label in enumerate(ADDRESSES):
            bus.claims(9.03 + 0.03 * place, label)
        found = self.told(bus, lambda frames: [frame for frame in frames if not 5 < frame[0] < 8.995])
        self.assertEqual(found, [f"9 {STOOD.format('4018.806')}"])

    def test_a_line_that_is_damaged(self) -> None:
        """The answer of BODY to a request for claims, or the acknowledgement of CFG, is a line that is cut: nobody knows that it didn't come."""
        bus = drive().carries(3).asks(9, 254, ADDRESS_CLAIMED)
        for place, label in enumerate(ADDRESSES):
            bus.claims(9.03 + 0.03 * place, label)
        for at, missing in ((9.06, "BODY doesn't answer a request for claims within 1250 ms"), (3.025, "CFG from BODY to HEADER: carried whole, and not acknowledged")):
            self.assertEqual([line.partition(" ")[2] for line in self.told(bus, partial(without, at))], [missing])
            self.assertEqual(self.told(bus, cut=at), [])


class Sessions(OfSmallBus):
    def of_sessions(self, bus: Bus) -> list[str]:
        """What is told of a drive with further frames."""
        return self.told(bus.carries(3))

    def test_what_the_log_does_not_carry_is_not_sent(self) -> None:
        """HEADER acknowledges after two of four packets: it is told of HEADER, and nothing was sent."""
        text = "6.025 CFG from BODY to HEADER: acknowledged, and not carried whole: packet 3 of 4 didn't come"
        self.assertEqual(self.told(drive().carries(6, (1, 2))), [text])
        rows = [line.split() for line in self.table(drive().carries(6, (1, 2)))]
        self.assertEqual([row[5] for row in rows if row[:2] == ["6", "CFG"]], ["0"])

    def test_announcements_that_break_the_rules(self) -> None:
        """Each by its own group and ends; who acknowledges one isn't measured by the message before."""
        there = "12 CFG from BODY to HEADER: "
        self.assertEqual(self.of_sessions(drive().manages(12, 33, 61, (16, 99, 0, 4)).manages(12.02, 61, 33, (19, 99, 0, 4))), [there + "99 bytes are announced in 4 packets, by the standard in 15"])
        self.assertEqual(self.of_sessions(drive().manages(12, 33, 61, (16, 8, 0, 2))), [there + "8 bytes are announced, 9 to 1785 go in packets"])
        self.assertEqual(self.of_sessions(drive().manages(12, 33, 255, (16, 24, 0, 4))), ["12 CFG from BODY to all: announced to all as if it went to one"])
        self.assertEqual(self.of_sessions(drive().manages(12, 33, 61, (32, 24, 0, 4))), [there + "announced to one as if it went to all"])
        short = drive().put(12, 0x1CEC3D21, bytes((16, 24, 0, 4, 255)))
        self.assertEqual(self.of_sessions(short), ["12 a message from BODY to HEADER: its announcement has 5 bytes, by the standard 8"])

    def test_packets_without_an_announcement(self) -> None:
        """Four of GATE to all, and to HEADER; in a log that begins with them they may have been announced before."""
        for to, shown in ((255, "all"), (61, "HEADER")):
            bus = drive()
            for count in range(4):
                bus.packet(12 + 0.06 * count, 39, to, count + 1)
            self.assertEqual(self.of_sessions(bus), [f"12 packets from GATE to {shown} without an announcement  (4 times)"])
        early = drive()
        for count in range(4):
            early.packet(0.2 + 0.06 * count, 39, 255, count + 1)
        self.assertEqual(self.of_sessions(early), [])

    def test_packets_that_were_not_cleared(self) -> None:
        """Two are cleared and four go; those of a message to all begin with 0, or are more than announced: one line each, and not that it isn't whole."""
        bus = drive().manages(12, 33, 61, (16, 24, 0, 4)).manages(12.003, 61, 33, (17, 2, 1))
        for count in (1, 2, 3, 4):
            bus.packet(12.003 + 0.003 * count, 33, 61, count)
        found = self.of_sessions(bus.manages(12.03, 61, 33, (255, 5)))
        self.assertEqual(found[0], "12.01 CFG from BODY to HEADER: packet 3 goes, cleared to send are 2  (2 times)")
        for first, text in ((0, "packet 0 goes, they are numbered from 1"), (2, "packet 5 goes, it has 4")):
            bus = drive().manages(12, 0, 255, (32, 24, 0, 4))
            for place in range(4):
                bus.packet(12.06 * 1 + 0.06 * place, 0, 255, first + place)
            self.assertEqual([line for line in self.of_sessions(bus) if "packet" in line][0].partition(": ")[2], text)

    def test_a_clear_to_send_that_is_not_right(self) -> None:
        """From the fifth packet of four on."""
        bus = drive().manages(12, 33, 61, (16, 24, 0, 4)).manages(12.003, 61, 33, (17, 1, 5))
        self.assertEqual(self.of_sessions(bus), ["12 CFG from BODY to HEADER: cleared to send from packet 5 on, it has 4"])

    def test_an_abort_is_of_its_group(self) -> None:
        """HEADER refuses CFG while a message of its own to BODY is under way: that isn't given up."""
        bus = drive().manages(11.99, 61, 33, (16, 18, 0, 3), "VI").manages(12, 33, 61, (16, 24, 0, 4)).manages(12.01, 61, 33, (255, 2))
        self.assertIn("12.01 CFG from BODY to HEADER: given up by HEADER, reason 2 (no resources)", self.of_sessions(bus))

    def test_an_announcement_of_a_longer_message(self) -> None:
        """By the extended transport protocol: of a planned group, and of one that no plan has; of a proprietary one it isn't told."""
        def announced(pgn: int) -> list[str]:
            return self.of_sessions(drive().put(12, 0x1CC83D21, bytes((20, 0xD0, 7, 0, 0)) + pgn.to_bytes(3, "little")))

        self.assertEqual(announced(57600), ["12 CFG from BODY is announced with 2000 bytes by the extended transport protocol, planned are 24"])
        self.assertEqual(announced(65242), ["12 PGN 65242 from BODY: no group has it"])
        self.assertEqual(announced(61184), [])

    def test_an_abort_of_a_third(self) -> None:
        """GATE has no message with HEADER; one of BODY's own is told as that."""
        self.assertEqual(self.of_sessions(drive().manages(12, 39, 61, (255, 3))), ["12 CFG between GATE and HEADER: GATE aborts it, and none is under way"])
        given_up = drive().manages(12, 33, 61, (16, 24, 0, 4)).manages(12.003, 61, 33, (17, 4, 1)).manages(12.1, 33, 61, (255, 2))
        self.assertEqual(self.of_sessions(given_up), ["12.1 CFG from BODY to HEADER: given up by BODY, reason 2 (no resources)"])

    def test_a_packet_that_is_too_short(self) -> None:
        """The fourth one has three bytes: it isn't out of order."""
        bus = drive().carries(12, (1, 2, 3), False).put(12.015, 0x1CEB3D21, bytes((4, 21, 22)))
        self.assertEqual(self.of_sessions(bus), ["12 CFG from BODY to HEADER: announced, and not carried whole: packet 4 has 3 bytes, by the standard 8"])

    def test_who_has_no_answer(self) -> None:
        """HEADER doesn't clear BODY to send: that is HEADER's."""
        self.assertEqual(self.of_sessions(drive().manages(12, 33, 61, (16, 24, 0, 4))), ["12 CFG from BODY to HEADER: announced, and not carried whole: no clear to send"])
        self.assertEqual([unit for unit in self.units if unit], ["HEADER"])


class OneLine(OfSmallBus):
    def test_another_length_or_receiver(self) -> None:
        """LFE of 7 bytes, or to one, for a second comes each 100 ms: it isn't silent."""
        self.assertEqual(self.told(drive_with("LFE", bytes(7)).carries(3)), ["8.004 LFE from ENGINE has 7 bytes, planned are 8  (10 times)"])
        bus = drive().carries(3)
        to_gate = [(at, identifier & ~0xFF00 | 39 << 8 if identifier >> 16 & 0xFF == 0xE0 and 8 < at < 9 else identifier, data) for at, identifier, data in bus.frames]
        bus.frames = to_gate
        self.assertEqual(self.told(bus), ["8.009 SET from BODY to GATE: no flow  (10 times)"])


    def test_a_scan_by_a_planned_tool(self) -> None:
        """TOOL asks three units for two groups each, and is refused: one line for TOOL; a single request is told of who refuses it."""
        bus, at = drive().carries(3), 12.0
        for label in ("BODY", "GATE", "HEADER"):
            for pgn in (65242, 65259):
                address, at = ADDRESSES[label], at + 0.1
                bus.asks(at, 249, pgn, address).put(at + 0.02, 0x18E8FF00 | address, bytes((1, 255, 255, 255, 249)) + pgn.to_bytes(3, "little"))
        self.assertEqual(self.told(bus), ["12.1 requests by TOOL, which the plan doesn't have: several are refused  (6 times)"])
        self.assertEqual(self.units, ["TOOL"])
        one = drive().carries(3).asks(12, 249, 65242, 39).put(12.02, 0x18E8FF27, bytes((1, 255, 255, 255, 249, 218, 254, 0)))
        self.assertEqual(self.told(one), ["12 request for PGN 65242 by TOOL to GATE, which the plan doesn't have: is refused"])

    def test_a_scan_that_nobody_answers(self) -> None:
        """TOOL asks two units for a group that the plan has no request for: one line for TOOL; a single one is told of who doesn't answer."""
        asks = drive().carries(3).asks(12, 249, 65242, 39).asks(12.5, 249, 65242, 33)
        self.assertEqual(self.told(asks), ["12 requests by TOOL, which the plan doesn't have: several have no answer within 1250 ms  (2 times)"])
        self.assertEqual(self.units, ["TOOL"])
        self.assertEqual(self.told(drive().carries(3).asks(12, 249, 65242, 39)), ["12 request for PGN 65242 by TOOL to GATE, which the plan doesn't have: no answer within 1250 ms"])

    def test_a_clock_that_is_off(self) -> None:
        """GATE's is 4 % fast: one line of its two flows; slow by more than their pauses allow it isn't, so that nothing is told."""
        found = self.told(Bus().starts().runs(pace={"GATE": 0.96}).carries(3))
        self.assertEqual([line.partition(" ")[2] for line in found], ["GATE: its flows come 40000 ppm too often: is its clock fast? (flow 3, 4)"])
        self.assertEqual(self.told(Bus().starts().runs(pace={"GATE": 1.04}).carries(3)), [])

    def test_flows_that_are_off_alone(self) -> None:
        """GST comes 4 % too often, GLD of the same unit 2 %, or as planned: each is told by itself."""
        for other, count in ((0.98, 2), (1.0003, 1)):
            bus = Bus().starts().runs(pace={"GATE": 0.96})
            bus.frames = [frame for frame in bus.frames if frame[1] != 0x18FEF527]
            for place in range(int(189.9 / other)):
                bus.put(1.0005 + 0.1 * other * place, 0x18FEF527, bytes(8))
            self.assertEqual([line.partition(" ")[2][:4] for line in self.told(bus.carries(3))], ["flow"] * count)

    def test_packets_that_are_too_urgent(self) -> None:
        """Those of CFG with priority 3: one line, and not that no flow has them."""
        bus = drive().carries(3)
        bus.frames = [(at, identifier & ~(7 << 26) | 3 << 26 if identifier >> 8 == 0x1CEB3D else identifier, data) for at, identifier, data in bus.frames]
        self.assertEqual([line.partition(": ")[2] for line in self.told(bus)], ["frames of the transport protocol have priority 3, by 'load' 7  (4 times)"])


class Strangers(OfSmallBus):
    NAME = (77 | 900 << 21 | 129 << 40).to_bytes(8, "little")

    def test_who_asks_is_named(self) -> None:
        """A tool that isn't planned claims 250 and asks ENGINE for VI, which has to answer; what it sends there unasked is told."""
        claimed = "6 NAME 000081007080004D (identity 77, manufacturer 900, function 129) claims address 250: no unit has it"
        bus = drive().carries(3).put(6, 0x18EEFFFA, self.NAME).asks(7, 250, 65260, 0).answers(7.02, 250)
        self.assertEqual(self.told(bus), [f"{claimed}, and asks for VI"])
        found = self.told(bus.answers(10, 250))
        self.assertEqual(found, [f"{claimed}, and asks for VI", "10 VI from ENGINE to 250: no flow"])
        for at, pgn in ((11, 65242), (12, 65266), (13, 65259)):
            bus.asks(at, 250, pgn)
        self.assertEqual(self.told(bus)[0], f"{claimed}, and asks for VI, PGN 65242, LFE and 1 more")

    def test_what_a_stranger_asks_for_may_come_besides(self) -> None:
        """LFE comes 30 ms behind one of its row: that is no nearer than its period to anything that wasn't asked for."""
        for asked, count in ((True, 0), (False, 1)):
            bus = drive().carries(3).put(6, 0x18EEFFFA, self.NAME).put(7.03, 0x18FEF200, bytes((1,)) * 8)
            found = self.told(bus.asks(7.02, 250, 65266, 0) if asked else bus)
            self.assertEqual(len([line for line in found if "the one before" in line]), count)


def twice(apart: float, frames: list[Timed]) -> list[Timed]:
    """Each frame twice, so far apart."""
    return [(at + more, identifier, data) for at, identifier, data in frames for more in (0, apart)]


def without(at: float, frames: list[Timed]) -> list[Timed]:
    """Frames without that of a time."""
    return [frame for frame in frames if abs(frame[0] - at) > 1e-6]


def drive_with(group: str, data: bytes) -> Bus:
    """A drive on which a group has other bytes from 8 to 8.95 s."""
    return Bus().starts().runs(data={group: (8, 8.95, data)})


if __name__ == "__main__":
    unittest.main()
