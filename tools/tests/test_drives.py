"""What `against` reports of drives: units that don't claim, an ignition that was off, boxes that are plugged in or move, and messages that wait for
others of their unit."""

from tests.test_deviations import BRAKES, CLEAR, EBC1, HITCH, PACKETS, PLAN, RTS, SPRAYER, WHOLE, Deviations, brakes, lines_of

ASKS = "18EAFFFE#00EE00"

# A broadcast of BRAKES that no plan has, of 9 bytes, and one of DM1, of 14.
OTHER = ["1CECFF0B#20090002FFCAFF00", "1CEBFF0B#01AAAAAAAAAAAAAA", "1CEBFF0B#02AAAAAAAAAAAAAA"]
DM1 = ["1CECFF0B#200E0002FFCAFE00", "1CEBFF0B#01AAAAAAAAAAAAAA", "1CEBFF0B#02AAAAAAAAAAAAAA"]


class Claims(Deviations):
    def test_a_unit_that_never_claims(self) -> None:
        """Two others begin with their claims, one that nobody asked for each: so the log begins with the drive. It is told at the unit's first frame."""
        text = "BRAKES sends, and never claims an address, as 2 other units do before they send"
        begin = [(1, HITCH), (1.1, SPRAYER), (2, EBC1), (2.1, EBC1)]
        self.assertEqual(self.told(*begin), [f"L:3: {text}"])
        self.assertEqual(self.told(*begin, (3, BRAKES)), ["L:3: BRAKES sends for 1000 ms before it claims an address, which 2 other units do first"])
        self.assertEqual(self.told(*begin, plan=PLAN.replace("address = 11\n", "address = 11\nclaims = false\n")), [])
        self.assertEqual(self.told(*begin[1:]), [])  # one may be plugged in later
        self.assertEqual(self.told((0.9, EBC1), *begin), [])  # BRAKES may have claimed before the log began
        self.assertEqual(self.told((0.5, ASKS), *begin), [])  # the log may have begun in mid-drive, and BRAKES may not have been there

    def test_a_request_for_claims_that_is_not_answered(self) -> None:
        """Within 1,250 ms, by a unit that was heard lately and goes on to send; who answers, isn't meant or isn't there is told of nothing."""
        text = "BRAKES doesn't answer a request for claims within 1250 ms"
        claims = [(0.5, HITCH), (0.6, BRAKES)]
        self.assertEqual(self.told(*claims, *brakes(1, 5), (2.05, ASKS), (2.1, HITCH)), [f"L:14: {text}"])
        self.assertEqual(self.told(*claims, *brakes(1, 5), (2.05, ASKS), (3.29, BRAKES)), [])
        self.assertEqual(self.told(*claims, *brakes(1, 5), (2.05, "18EA80FE#00EE00")), [])  # HITCH is asked, which isn't on
        self.assertEqual(self.told(*claims, *brakes(1, 5), (2.05, "18EA0BFE#00EE00")), [f"L:14: {text}"])
        self.assertEqual(self.told(*claims, *brakes(1, 5), (2.05, "18EAFF0B#00EE00")), [])  # it asks itself
        self.assertEqual(self.told(*claims, *brakes(1, 2), (2.05, ASKS), (9, "18FF1480#0000000000000000")), [])  # it went off then
        self.assertEqual(self.told(*claims, *brakes(1, 3.3), (2.05, ASKS)), [])  # the log ends sooner

    def test_a_log_that_begins_in_mid_drive(self) -> None:
        """SPRAYER may choose 128, so that what comes from there accuses nobody, whoever claims it later; no unit may be at 20."""
        claims, asks = "18EEFF80#0300000000000080", [(1, "18EA0B80#ECFE00"), (1.2, "18EA0B80#ECFE00")]
        plan = PLAN.replace('address = 128\n', 'address = 140\n')
        self.assertEqual(self.told(*asks, (1.5, ASKS), (1.6, claims), (2, asks[0][1]), plan=plan), [])
        self.assertEqual(self.told(*asks, (1.6, claims), (2, asks[0][1]), plan=plan), [])
        found = self.told(*asks, (1.5, ASKS), (1.6, "18EEFF80#0900000000000080"), plan=plan)
        self.assertEqual(found[0], "L:4: NAME 8000000000000009 (identity 9, manufacturer 0, function 0) claims address 128: no unit has it")
        self.assertNotIn("128 sends", "".join(found))
        self.assertEqual(self.told(*[(at, frame.replace("80#", "14#")) for at, frame in asks], plan=plan), ["L:1: address 20 sends: no unit has it, and asks for VI  (2 times)"])


class Moves(Deviations):
    def test_a_unit_that_has_to_wait(self) -> None:
        """HITCH moves to 129, and may send 250 ms later: from there on it is silent."""
        plan = PLAN.replace("period = 5000", "period = 100\npause = 200")
        moved, there = HITCH.replace("EEFF80", "EEFF81"), "18FF1481#0000000000000000"
        begin = [(1, HITCH), (1.3, "18FF1480#0000000000000000"), (1.45, "18EEFF80#0100000000000080"), (1.46, moved)]
        text = "flow 1, HSTAT from HITCH to all: not sent for {} ms before, its pause is 200 ms"
        self.assertEqual([line for line in self.told(*begin, (1.9, there), plan=plan) if "not sent" in line], [])
        self.assertEqual([line for line in self.told(*begin, (1.911, there), plan=plan) if "not sent" in line], [f"L:5: {text.format(201)}"])

    def test_a_commanded_address(self) -> None:
        """SPRAYER commands BRAKES, which is fixed, to 20, where it claims that and where it doesn't; the move is told once, and no silence."""
        moved, there = BRAKES.replace("EEFF0B", "EEFF14"), EBC1[:6] + "14" + EBC1[8:]
        command = ["1CECFF8C#20090002FFD8FE00", "1CEBFF8C#01" + BRAKES.partition("#")[2][:14], "1CEBFF8C#02" + BRAKES[-2:] + "14FFFFFFFFFF"]
        begin = [(0.5, SPRAYER), (0.6, HITCH), (0.7, BRAKES), *brakes(1, 2), *zip((1.81, 1.87, 1.92), command)]
        text, line = "SPRAYER commands BRAKES to address 20, which it", 16
        after = [(1.95, moved), *[(2 + number / 10, there) for number in range(20)]]
        self.assertEqual(self.told(*begin, *after, words=()), [f"L:{line}: {text} claims"])
        self.assertEqual(self.told(*begin, *brakes(2, 4), words=()), [f"L:{line}: {text} doesn't claim within 1250 ms"])
        self.assertEqual(self.told(*begin, *brakes(2, 3), words=()), [f"L:{line}: {text} doesn't claim in the log"])
        lost = [frame for frame in begin if frame[1] != command[1]]  # without its first packet it is none
        self.assertNotIn("commands", "".join(self.told(*lost, *brakes(2, 4), words=())))

    def test_a_flow_to_a_unit_that_is_not_plugged_in(self) -> None:
        """EBC1 to HITCH begins where HITCH is heard: 10 s behind the first claim of BRAKES."""
        plan = PLAN.replace('group = "EBC1"\nfrom = "BRAKES"\nto = "all"', 'group = "EBC1"\nfrom = "BRAKES"\nto = "HITCH"')
        for begins, silent in ((10.5, []), (11.5, ["L:3: flow 2, EBC1 from BRAKES to HITCH: not sent for 1500 ms before, its period is 100 ms"])):
            log = [(0.5, BRAKES), (10, HITCH), *brakes(begins, begins + 2)]
            self.assertEqual([line for line in self.told(*log, plan=plan, words=()) if "not sent" in line], silent)

    def test_a_clone(self) -> None:
        """A second box of BRAKES' NAME claims 12, and the first one goes on: it is told as that alone, neither as a stranger nor as silent."""
        moved = BRAKES.replace("EEFF0B", "EEFF0C")
        two = "BRAKES claims address 12, and its former address 11 sends EBC1, a planned group: two boxes of one NAME?"
        found = self.told((1, BRAKES), *brakes(1.1, 3), (3.01, moved), *brakes(3.1, 6), words=())
        self.assertEqual(found, [f"L:24: {two}  (27 times)"])


class Ignition(Deviations):
    PLAN = PLAN.replace("period = 5000", "period = 200")

    def drive(self, begin: float, end: float) -> list[tuple[float, str]]:
        """Each unit claims, and two send."""
        hstat = [(begin + 0.35 + number / 5, "18FF1480#0000000000000000") for number in range(round((end - begin - 0.35) * 5))]
        return [(begin, HITCH), (begin + 0.01, BRAKES), (begin + 0.02, SPRAYER), *brakes(begin + 0.3, end), *hstat]

    def test_an_ignition_that_was_off(self) -> None:
        """One deviation: no unit restarted, and none was silent."""
        text = "nothing at all came for 7100 ms before, then units claimed anew: the ignition was off; what is measured begins anew (3 units)"
        first = self.drive(1, 3)
        self.assertEqual(self.told(*first, *self.drive(10, 20), plan=self.PLAN, words=()), [f"L:{len(first) + 1}: {text}"])
        self.assertEqual(self.told(*first, *self.drive(10, 12), plan=self.PLAN, words=()), [f"L:{len(first) + 1}: {text}"])

    def test_a_message_that_the_ignition_cuts(self) -> None:
        """Its units go off together: that accuses none of them."""
        first, text = [*self.drive(1, 3), (2.97, RTS), (2.98, CLEAR), (2.99, PACKETS[0])], "nothing at all came for 7010 ms before, then units claimed anew"
        found = self.told(*first, *self.drive(10, 20), plan=self.PLAN, words=())
        self.assertEqual([line[:line.index(":", 60)] for line in found], [f"L:{len(first) + 1}: {text}"])

    def test_a_slow_unit(self) -> None:
        """It claims 9 s behind the others: that is its start too. What claims once more then restarts."""
        late = [(19.0, SPRAYER), (25.0, SPRAYER)]
        drive = [line for line in self.drive(10, 30) if line[1] != SPRAYER]
        found = self.told(*self.drive(1, 3), *drive, *late, plan=self.PLAN, words=())
        restart = "SPRAYER claims address 140, which it holds, and nobody asked: has it restarted? (not heard for 6000 ms before)"
        self.assertEqual([line.partition(": ")[2] for line in found[1:]], [restart])
        self.assertTrue(found[0].endswith("(2 units)"), found)

    def test_a_single_unit_that_claims(self) -> None:
        """The log stood still, and one unit restarted."""
        second = [line for line in self.drive(10, 20) if line[1] not in (HITCH, SPRAYER)]
        found = self.told(*self.drive(1, 3), *second, plan=self.PLAN, words=())
        self.assertEqual([line.partition(": ")[2] for line in found], [
            "nothing at all came for 7110 ms before: the bus, the log or its clock stood still; distances begin anew",
            "BRAKES claims address 11, which it holds, and nobody asked: has it restarted? (not heard for 7110 ms before)"])

    def test_addresses_that_change_hands_in_two_starts(self) -> None:
        """In each start SPRAYER claims 128 first and gives way: two changes, and no third one in between."""
        lost = [(0.002, "18EEFF80#0300000000000080"), (0.005, HITCH), (0.006, SPRAYER)]
        first, second = ([(begin + at, frame) for at, frame in lost] + self.drive(begin, begin + 8)[1:2] + self.drive(begin, begin + 8)[3:] for begin in (1, 20))
        self.assertNotIn("changed hands", "".join(self.told(*first, *second, plan=self.PLAN, words=())))


class Queues(Deviations):
    PLAN = PLAN.replace('label = "VI"\npgn = 65260\npriority = 6\nlength = 17', 'label = "DM1"\npgn = 65226\npriority = 6\nlength = 14').replace(
        'group = "VI"\nfrom = "BRAKES"\nto = "HITCH"', 'group = "DM1"\nfrom = "BRAKES"\nto = "all"\nperiod = 1000\npause = 1100')

    def dm1(self, *moments: float) -> list[tuple[float, str]]:
        """DM1 announced at these moments, its packets 50 and 100 ms later."""
        return [(at + number / 20, frame) for at in moments for number, frame in enumerate(DM1)]

    def told_of_dm1(self, *log: tuple[float, str]) -> list[str]:
        return [line for line in self.told(*log, plan=self.PLAN) if "DM1" in line]

    def test_a_broadcast_behind_another_one(self) -> None:
        """DM1 of 2 s waits for a broadcast that begins at 1.99 and ends at 2.09: its announcement at 2.14 may have been due at 1.99."""
        other = [(1.99 + number / 20, frame) for number, frame in enumerate(OTHER)]
        self.assertEqual(self.told_of_dm1((0.5, BRAKES), *self.dm1(1), *other, *self.dm1(2.14, 3.0, 4.0)), [])
        near = "flow 3, DM1 from BRAKES to all: {} ms after the one before, its period is 1000 ms"
        self.assertEqual(self.told_of_dm1((0.5, BRAKES), *self.dm1(1), *other, *self.dm1(2.14, 2.98, 4.0)), [f"L:11: {near.format(840)}"])
        self.assertEqual(self.told_of_dm1((0.5, BRAKES), *self.dm1(1, 2.14, 3.0))[-1], f"L:8: {near.format(860)}")

    def test_a_clock_that_is_set_in_a_broadcast(self) -> None:
        """Where its announcement was by the new clock isn't known; the next one is measured from."""
        before = self.dm1(1, 2, 3, 4)[:-2]
        after = [(at - 3, frame) for at, frame in [*self.dm1(4)[1:], *self.dm1(5, 6, 7, 8)]]
        for behind, found in ((after, []), ([*after, *self.dm1(5.7)], ["L:26: flow 3, DM1 from BRAKES to all: 700 ms after the one before, its period is 1000 ms"])):
            told = self.told_of(lines_of((0.5, BRAKES), *before) + lines_of(*behind), self.PLAN)
            self.assertEqual([line for line in told if "DM1" in line], found)

    def test_two_broadcasts_before_it(self) -> None:
        """What waits behind the second one waits since the first one began."""
        others = [(begin + number / 20, frame) for begin in (1.9, 2.05) for number, frame in enumerate(OTHER)]
        self.assertEqual(self.told_of_dm1((0.5, BRAKES), *self.dm1(1), *others, *self.dm1(2.25, 3.0)), [])


class Refused(Deviations):
    PLAN = PLAN.replace('from = "BRAKES"\nto = "HITCH"', 'from = "BRAKES"\nto = "HITCH"\nperiod = 2000')
    BUSY = "1CEC0B80#FF01FFFFFFECFE00"

    def told_of_vi(self, *log: tuple[float, str]) -> list[str]:
        found = self.told((0.5, HITCH), (0.5, BRAKES), *log, plan=self.PLAN, words=())
        return [line for line in found if " VI " in line]

    def whole(self, *moments: float) -> list[tuple[float, str]]:
        """VI at these moments."""
        return [(at + number / 100, frame) for at in moments for number, frame in enumerate((RTS, CLEAR, *PACKETS, WHOLE))]

    def test_a_message_that_is_tried_again(self) -> None:
        """HITCH has no session for VI of 3 s; half a second later it has: the next one comes 1,500 ms after that."""
        self.assertEqual(self.told_of_vi(*self.whole(1), (3, RTS), (3.01, self.BUSY), *self.whole(3.5, 5, 7)), [])

    def test_a_log_that_ends_in_a_message(self) -> None:
        """It may go on for 1,250 ms behind its last frame."""
        whole, lost = self.whole(3), "L:3: VI from BRAKES to HITCH: announced, and not carried whole: {}"
        for count, cause in ((1, "no clear to send"), (2, "packet 1 of 3 didn't come"), (4, "packet 3 of 3 didn't come")):
            last = whole[count - 1][0]
            self.assertEqual(self.told_of_vi(*whole[:count], (last + 1.25, EBC1)), [])
            self.assertEqual(self.told_of_vi(*whole[:count], (last + 1.26, EBC1)), [lost.format(cause)])

    def test_one_that_is_not_tried_again(self) -> None:
        """Each Abort is told once; a refusal when it isn't tried again within 5 s, and then each."""
        text = "VI from BRAKES to HITCH: given up by HITCH, reason 1 (too many sessions)"
        self.assertEqual(self.told_of_vi((3, RTS), (3.01, self.BUSY), (4, RTS), (4.01, self.BUSY), (9.1, EBC1)), [f"L:4: {text}  (2 times)"])
        self.assertEqual(self.told_of_vi((3, RTS), (3.01, self.BUSY), (8.0, EBC1)), [])
        self.assertEqual(self.told_of_vi((3, RTS), (3.01, CLEAR), (3.02, self.BUSY), (3.03, EBC1)), [f"L:5: {text}"])

    def test_answers_that_do_not_fit(self) -> None:
        """A clear to send for more packets than the announcement allows, an acknowledgement of another size."""
        two_at_once, three = RTS.replace("110003FF", "11000302"), "L:4: VI from BRAKES to HITCH: cleared to send 3 packets at once, its announcement allows 2"
        self.assertEqual(self.told_of_vi((3, two_at_once), (3.01, CLEAR), (5, EBC1)), [three])
        self.assertEqual(self.told_of_vi((3, two_at_once), (3.01, CLEAR.replace("110301", "110201")), (3.02, PACKETS[0]), (3.03, PACKETS[1]), (3.04, CLEAR.replace("110301", "110103")),
                                         (3.05, PACKETS[2]), (3.06, WHOLE)), [])
        other = WHOLE.replace("13110003", "13120003")
        text = "L:8: VI from BRAKES to HITCH: 18 bytes in 3 packets are acknowledged, announced were 17 in 3"
        self.assertEqual(self.told_of_vi(*self.whole(3)[:-1], (3.06, other)), [text])


class NoFrames(Deviations):
    def test_frames_that_are_none_of_j1939(self) -> None:
        """By their kind and identifier, and not as lines that spell no frame."""
        frames = {"18FEF100#R": "a remote frame of the identifier 18FEF100: no frame of J1939",
                  "18FEF100##100": "a CAN FD frame of the identifier 18FEF100: no frame of J1939",
                  "1AFEF10B#00": "a frame with the extended data page from BRAKES, PGN 196337: no frame of J1939",
                  "18EEFF0B#04000000000000": "a claim from BRAKES has 7 bytes, by the standard 8",
                  "18EA800B#00EE00FFFFFFFFFF": "a request from BRAKES has 8 bytes, by the standard 3"}
        for frame, text in frames.items():
            self.assertEqual(self.told((1, BRAKES), (1.5, HITCH), (2, frame), (2.1, frame), words=("--silence", "0")), [f"L:3: {text}  (2 times)"])
            self.assertEqual(self.said, "")

    def test_a_claim_to_one_address(self) -> None:
        """It is told as that, whatever its priority is."""
        to_one = HITCH.replace("EEFF80", "EE0B80")
        self.assertEqual(self.told((1, BRAKES), (1.5, HITCH), (2, "18EAFF0B#00EE00"), (2.1, to_one), (2.15, BRAKES)), ["L:4: a claim from HITCH goes to address 11, by the standard to all"])

    def test_a_line_that_spells_nothing(self) -> None:
        self.told_of("(1.0) can0 123#00\n\n(1.0) can0 18FEF100#0\n(1.1) can0 18F0010B#0\n(1.2) can0 18F0010B#FFFFFFFFFFFFFFFF\n")
        self.assertEqual(self.said, f"against: 2 lines spell no frame, as {self.path('drive.log')}:3\n")

    def test_the_group_of_another_selector(self) -> None:
        """A frame with the bits of the second group's `when`, a byte too short: it is that group's."""
        groups = "".join(f'[[group]]\nlabel = "G{number}"\npgn = 65300\npriority = 6\nlength = {length}\nprivate = true\nwhen = {{ byte = 1, bits = 8, value = {number} }}\n'
                         for number, length in ((1, 24), (2, 8)))
        flows = "".join(f'[[flow]]\ngroup = "G{number}"\nfrom = "HITCH"\nto = "all"\n' for number in (1, 2))
        plan = PLAN[:PLAN.index("[[group]]")] + groups + flows
        self.assertEqual(self.told((1, HITCH), (2, "18FF1480#02000000000000"), plan=plan), ["L:2: G2 from HITCH has 7 bytes, planned are 8"])
        self.assertEqual(self.told((1, HITCH), (2, "18FF1480#03000000000000FF"), plan=plan), ["L:2: PGN 65300 from HITCH: its bits are those of no group's 'when'"])
