"""A log against a plan: who holds which address."""

import re

from tests.logs_against import CLAIMS, ET1, FLOWS, PLAN, PUMP_CLAIMS, RIVALS, VALVE_CLAIMS, VI, Compared, run


class Hands(Compared):
    def test_the_name_that_claimed_last_holds_an_address(self) -> None:
        """Also where the smaller NAME claimed before: it would have defended its address, had it been on."""
        self.assertEqual(self.compared(RIVALS % "VALVE", [PUMP_CLAIMS, VALVE_CLAIMS, ET1]), [])
        self.assertEqual(self.compared(RIVALS % "PUMP", [PUMP_CLAIMS, VALVE_CLAIMS, PUMP_CLAIMS, ET1]), [])

    def test_without_claims_the_smallest_name_has_an_address(self) -> None:
        self.assertEqual(self.compared(RIVALS % "PUMP", [ET1]), ["P: unit VALVE: neither claimed an address nor sent anything"])
        self.assertEqual(self.compared(RIVALS % "VALVE", [ET1])[0], "P: unit VALVE: neither claimed an address nor sent anything")

    def test_a_claim_elsewhere_leaves_an_address_to_the_next(self) -> None:
        """PUMP claims 129, so that VALVE is the one of those that prefer 128 of which no claim came. PUMP has the smaller NAME, and so never has to move."""
        moves = "L:1: PUMP claims address 129, planned is 128, where it stays"
        self.assertEqual(self.compared(RIVALS % "VALVE", ["18EEFF81#0100000000000080", ET1]), [moves])
        both = ["18EEFF81#0100000000000080", "18EEFF82#0200000000000080", ET1]
        self.assertEqual(self.compared(RIVALS % "VALVE", both)[:2], [moves, "L:3: address 128 sends ET1, a planned group: no unit has it"])

    def test_a_name_that_is_not_planned_takes_an_address(self) -> None:
        for name, identity in (("0000000001000000", 0), ("0300000001000000", 3)):
            found = self.deviations(f"18EEFF00#{name}", "18FEEE00#7DFFFFFFFFFFFFFF")
            told = "".join(reversed(re.findall("..", name)))
            self.assertEqual(found[0], f"L:1: NAME {told} (identity {identity}, manufacturer 0, function 0) claims address 0: no unit has it, and sends ET1, VI, planned groups")
            self.assertEqual([line for line in found if "no unit has it" in line or "no flow" in line], found[:1])

    def test_a_claim_of_the_global_address_tells_nothing(self) -> None:
        self.assertEqual(self.deviations("18EEFFFF#0100000000000000", *CLAIMS), [])

    def test_a_fixed_unit_elsewhere(self) -> None:
        found = self.deviations("18EEFF07#0100000000000000", "18EEFF00#0100000000000000")
        self.assertEqual(found, ["L:1: ENGINE claims address 7, planned is 0"])

    def test_a_unit_that_moved_keeps_its_flows(self) -> None:
        self.assertEqual(self.deviations("18EEFF81#0200000000000080", "0C000081#FFFFFFFFFFFFFFFF")[:2],
                         ["L:1: DISPLAY claims address 129, planned is 128, where it stays", "L:4: address 128 sends TSC1, a planned group: no unit has it"])

    def test_a_unit_without_an_address(self) -> None:
        self.assertEqual(self.deviations("18EEFFFE#0200000000000080", "18EEFF80#0200000000000080"),
                         ["L:1: DISPLAY could not claim an address"])

    def test_a_unit_without_an_address_may_ask_for_claims(self) -> None:
        bytes_of = "L:{}: a request from 254 has {} bytes, by the standard 3"
        self.assertEqual(self.deviations("18EAFFFE#00EE00", "18EA00FE#00EE00FFFFFFFFFF", *CLAIMS), [bytes_of.format(2, 8)])
        said = "L:1: address 254 sends: no unit has it"
        for other in ("18EAFFFE#EEFE00", "18FF10FE#00EE00"):
            self.assertEqual(self.deviations(other), [said])
        self.assertEqual(self.deviations("18EAFFFE#"), [said, bytes_of.format(1, 0)])

    def test_an_address_that_changes_hands(self) -> None:
        """From three times on it is told, with how near two of these came; a contest that is settled isn't."""
        plan = RIVALS % "PUMP"
        fight = [f"({1 + 0.005 * number:.3f}) can0 {(VALVE_CLAIMS, PUMP_CLAIMS)[number % 2]}\n" for number in range(2001)]
        log, plan = self.write("drive.log", "".join(fight) + f"(12.0) can0 {ET1}\n"), self.write("plan.toml", plan)
        told = f"{log}:2: address 128 changed hands 2000 times, first from VALVE to PUMP, the nearest 5 ms apart\n"
        self.assertIn(told, run("against.py", plan, log)[1])
        settled = [PUMP_CLAIMS, VALVE_CLAIMS, PUMP_CLAIMS, "18EEFF81#0200000000000080", ET1]
        self.assertEqual(self.compared(RIVALS % "PUMP", settled), [])

    def test_an_address_that_is_not_defended(self) -> None:
        """Of a unit that is on and has the smaller NAME; within 250 ms it claims again, or moves."""
        def told(*log: tuple[str, str]) -> list[str]:
            name = self.write("drive.log", "".join(f"({time}) can0 {frame}\n" for time, frame in log))
            answer = run("against.py", self.write("plan.toml", RIVALS % "PUMP"), name)[1]
            return [line.replace(name, "L") for line in answer.splitlines() if "defend" in line]
        begin = [("1.0", PUMP_CLAIMS), ("2.0", ET1), ("2.5", VALVE_CLAIMS)]
        said = ["L:3: VALVE claims address 128, and PUMP doesn't defend it, whose NAME is smaller"]
        self.assertEqual(told(*begin, ("2.75", "18FEEE05#7DFFFFFFFFFFFFFF")), said)
        self.assertEqual(told(*begin, ("2.749", "18FEEE05#7DFFFFFFFFFFFFFF")), [])
        self.assertEqual(told(*begin, ("2.7", PUMP_CLAIMS), ("9.0", ET1)), [])
        self.assertEqual(told(*begin[:2], ("3.0", VALVE_CLAIMS), ("9.0", ET1)), [])  # it may have been switched off
        self.assertEqual(told(("1.0", VALVE_CLAIMS), ("1.5", PUMP_CLAIMS), ("9.0", ET1)), [])  # the smaller NAME needn't wait for the larger

    def test_who_is_guessed_in_a_contest_is_not_heard(self) -> None:
        """What comes after a claim of an address is told as of the smaller NAME, which need not be on: nothing was heard of it yet."""
        plan = self.write("plan.toml", RIVALS % "PUMP")

        def found(*lines: tuple[str, str]) -> str:
            log = self.write("drive.log", "".join(f"({time}) can0 {frame}\n" for time, frame in lines))
            return run("against.py", plan, log)[1]

        contest = ("9.0", VALVE_CLAIMS), ("9.1", ET1)
        self.assertIn("unit PUMP: neither claimed an address nor sent anything", found(*contest))
        self.assertIn("PUMP sends before 250 ms have passed after its claim of address 128", found(("9.5", PUMP_CLAIMS), ("9.6", ET1)))

    def test_a_frame_of_a_contest_accuses_nobody(self) -> None:
        """Who holds an address sends on until it has heard of the claim; once it is heard of elsewhere, the claimer is the one that sends."""
        plan = self.write("plan.toml", RIVALS % "PUMP")

        def early(*lines: tuple[str, str]) -> list[str]:
            log = self.write("drive.log", "".join(f"({time}) can0 {frame}\n" for time, frame in lines))
            return [line for line in run("against.py", plan, log)[1].splitlines() if "before 250" in line]

        begin = [("9.0", VALVE_CLAIMS), ("10.4", PUMP_CLAIMS), ("10.4006", ET1)]
        self.assertEqual(early(*begin, ("10.403", "18EEFF81#0200000000000080")), [])
        for at, count in (("10.404", 0), ("10.453", 0), ("10.454", 1)):  # ET1 goes behind a claim: up to 50 ms later it may have been queued before
            self.assertEqual(len(early(*begin, ("10.403", "18EEFF81#0200000000000080"), (at, ET1))), count)

    def test_who_sends_too_soon_behind_a_claim(self) -> None:
        """A claim of one of the addresses that may be chosen may be contested for 250 ms, unless the unit holds it already."""
        def told(*log: tuple[str, str]) -> list[str]:
            name = self.write("drive.log", "".join(f"({time}) can0 {frame}\n" for time, frame in log))
            answer = run("against.py", self.write("plan.toml", RIVALS % "PUMP"), name)[1]
            return [line.replace(name, "L") for line in answer.splitlines() if "before 250" in line]
        said = ["L:2: PUMP sends before 250 ms have passed after its claim of address 128"]
        self.assertEqual(told(("5.0", PUMP_CLAIMS), ("5.249", ET1), ("5.2495", ET1)), said)
        self.assertEqual(told(("5.0", PUMP_CLAIMS), ("5.25", ET1)), [])
        self.assertEqual(told(("4.9", ET1), ("5.0", PUMP_CLAIMS), ("5.1", ET1)), [])
        self.assertEqual(told(("4.9", "18EAFFFE#00EE00"), ("5.0", PUMP_CLAIMS), ("5.1", ET1)), [])

    def test_a_long_message_soon_behind_a_restart(self) -> None:
        """On a live bus: others may hold a session with a unit that went off after its last frame. A message of before is none of this."""
        def told(plan: str, *log: tuple[str, str]) -> list[str]:
            name = self.write("drive.log", "".join(f"({time}) can0 {frame}\n" for time, frame in log))
            answer = run("against.py", self.write("plan.toml", plan), name)[1]
            return [line.replace(name, "L") for line in answer.splitlines() if "restarted" in line]
        live = PLAN.replace("version = 1", "version = 4\nlive = true")
        begin = [("1.0", CLAIMS[0]), ("5.0", FLOWS[0]), ("5.5", CLAIMS[0])]
        restart = "L:3: ENGINE claims address 0, which it holds, and nobody asked: has it restarted? (not heard for 500 ms before)"
        said = "announces a long message {} ms after it restarted: others may hold a session with it for 1650 ms after it went off"
        self.assertEqual(told(live, *begin, ("6.6495", VI[0])), [restart, f"L:4: ENGINE {said.format('1149.5')}"])
        self.assertEqual(told(live, *begin, ("6.65", VI[0])), [restart])
        self.assertEqual(told(PLAN, *begin, ("6.6495", VI[0])), [restart])
        self.assertEqual(told(live, *begin, ("5.6", FLOWS[0]), ("6.6", VI[0]), ("6.64", VI[0])), [restart, f"L:5: ENGINE {said.format('1100')}"])
        self.assertEqual(told(live, *begin, ("5.6", "1CECFF00#20110004FFECFE00")), [restart])  # 17 bytes have three packets
        twice = *begin, ("5.6", VI[0]), ("7.0", FLOWS[0]), ("7.9", CLAIMS[0]), ("7.95", VI[0])
        self.assertEqual(told(live, *twice), [f"{restart}  (2 times)", f"L:7: ENGINE {said.format('50')}  (2 times)"])

    def test_units_that_are_not_there(self) -> None:
        """Who neither claimed an address nor sent anything; who only answers does send, and who only listens is never seen."""
        plan = PLAN + '[[unit]]\nlabel = "GHOST"\naddress = 5\nname = { identity = 9 }\n'
        said = ["P: unit GHOST: neither claimed an address nor sent anything"]
        self.assertEqual(self.compared(plan, FLOWS), said)
        for frame in ("18EEFF05#0900000000000000", "18EAFF05#00EE00", "18FF1005#00", "1CEC0005#110301FFFFECFE00"):
            self.assertEqual(self.compared(plan, [*FLOWS, frame]), [], frame)
        listens = plan.replace("version = 1", "version = 4") + "claims = false\n"
        self.assertEqual(self.compared(listens, FLOWS), [])
        self.assertIn(said[0], self.compared(listens + '[[flow]]\ngroup = "ET1"\nfrom = "GHOST"\nto = "all"\n', FLOWS))
