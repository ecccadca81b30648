"""A log against a plan."""

import random
import re
import unittest
from collections import Counter
from collections.abc import Sequence

from j39plan import program
from tests.logs_against import CLAIMS, FLOWS, PLAN, RIVALS, VI, Compared, run
from tests.support import MARKED, NEWER, example, text_of

GROUP = 'version = 1\n[[group]]\nlabel = "VI"\npgn = 65260\npriority = 6\nlength = %d\n'

# Messages of two and three packets.
LENGTHS = (9, 14, 17)


def random_packet(chance: random.Random) -> str:
    """A frame of the transport protocol between the addresses 1 and 2, or to all: data mostly, also what breaks the rules."""
    source, destination = chance.choice([("01", "02"), ("02", "01"), ("01", "FF"), ("02", "FF")])
    if chance.random() < 0.7:
        return f"1CEB{destination}{source}#0{chance.randint(0, 3)}AAAAAAAAAAAAAA"
    length = chance.choice(LENGTHS)
    packets = -(-length // 7) + chance.choice([0] * 20 + [1])
    control = chance.choice(["20"] * 10 + ["10"] if destination == "FF" else ["10"] * 10 + ["20", "11", "13", "FF"])
    group = chance.choice(["ECFE00"] * 20 + ["EBFE00", "01EC00", "000004"])
    return f"1CEC{destination}{source}#{control}{length:02X}00{packets:02X}FF{group}"


def told_otherwise(lines: Sequence[str], reports: str, length: int) -> tuple[Counter[tuple[str, str]], Counter[tuple[str, str]]]:
    """How many messages of VI of this length the receiver says it has, when `follow` doesn't report them, and how many were given up: by the lines of a log of
    random packets."""
    reported = {int(line) for line in re.findall(r"^(\d+) - group VI ", reports, re.MULTILINE)}
    transfers: dict[tuple[str, str], bytes] = {}
    begun: set[tuple[str, str]] = set()
    found: Counter[tuple[str, str]] = Counter()
    ended: set[tuple[str, str]] = set()
    given_up: Counter[tuple[str, str]] = Counter()
    for number, line in enumerate(lines, 1):
        to, source, data = line[4:6][1], line[7], bytes.fromhex(line[9:])
        if line[2:4] == "EC" and data[0] in (16, 32) and data[5:] in (b"\xEC\xFE\0", b"\xEB\xFE\0") and data[3] == -(-data[1] // 7) and (data[0] == 32) == (to == "F"):
            transfers[source, to] = data[5:]
            given_up[source, to] += (source, to) in ended
            ended.discard((source, to))
            begun.discard((source, to))
            if data[5:] == b"\xEC\xFE\0" and data[1] == length:
                begun.add((source, to))
        elif number in reported:  # by its last packet, or by the acknowledgement where packets came in another order
            pair = (source, to) if line[2:4] == "EB" else (to, source)
            begun.discard(pair)
            ended.discard(pair)
        elif line[2:4] == "EC" and data[0] == 255:
            open_pair = next((pair for pair in ((source, to), (to, source)) if transfers.get(pair) == data[5:]), None)
            if open_pair:
                del transfers[open_pair]
                ended.update({open_pair} & begun)
        elif line[2:4] == "EC" and data[0] == 19 and (to, source) in begun and transfers.get((to, source)) == data[5:]:
            begun.discard((to, source))
            found[to, source] += 1
    given_up.update(ended)
    return found, given_up


class Against(Compared):
    def test_a_log_as_planned(self) -> None:
        self.assertEqual(self.deviations(*CLAIMS), [])

    def test_a_log_without_claims(self) -> None:
        self.assertEqual(self.deviations(), [])

    def test_an_unknown_sender(self) -> None:
        found = ["L:1: address 5 sends: no unit has it  (2 times)", "L:1: PGN 65265 from 5: no group has it  (2 times)"]
        self.assertEqual(self.deviations("18FEF105#FFFFFFFFFFFFFFFF", "18FEF105#00FFFFFFFFFFFFFF"), found)

    def test_an_unknown_name(self) -> None:
        self.assertEqual(self.deviations("18EEFF05#0300000001000000"),
                         ["L:1: NAME 0000000100000003 (identity 3, manufacturer 0, function 0) claims address 5: no unit has it"])

    def test_the_log_of_a_run(self) -> None:
        """A unit is switched off and one of a larger NAME takes its address: the frames of the run say who holds it then."""
        plan = self.write("plan.toml", RIVALS % "VALVE")
        frames = program.run(plan, ["up PUMP", "down PUMP", "up VALVE", "begin 1 7DFFFFFFFFFFFFFF"])
        self.assertIn("unit VALVE address 128", frames)
        self.assertEqual(self.compared(RIVALS % "VALVE", [frame for frame in frames if "#" in frame]), [])

    def test_another_length(self) -> None:
        self.assertEqual(self.deviations("18FEEE00#7DFF"), ["L:1: ET1 from ENGINE has 2 bytes, planned are 8"])
        longer = ["1CECFF00#20120003FFECFE00", *VI[1:]]
        self.assertEqual(self.deviations(*longer), ["L:1: VI from ENGINE has 18 bytes, planned are 17"])

    def test_a_message_counts_where_it_was_carried_whole(self) -> None:
        """To one unit, with a packet that was lost and sent again; the acknowledgement is no packet of it."""
        plan = PLAN.replace('from = "ENGINE"\nto = "all"\n', 'from = "ENGINE"\nto = "DISPLAY"\n')
        sent = ["1CEC8000#10110003FFECFE00", "1CEC0080#110301FFFFECFE00", "1CEB8000#01AAAAAAAAAAAAAA", "1CEB8000#03AAAAAAAAAAAAAA",
                "1CEC0080#110202FFFFECFE00", "1CEB8000#02AAAAAAAAAAAAAA", "1CEB8000#03AAAAAAAAAAAAAA", "1CEC0080#13110003FFECFE00"]
        said = "L:1: VI from ENGINE to DISPLAY: announced, and not carried whole: packet 3 of 3 didn't come"
        never = "P: flow 3, VI from ENGINE to DISPLAY: never sent"
        self.assertEqual(self.compared(plan, sent, "F9")[:-2], [])
        found = self.compared(plan, [*sent[:-2], *FLOWS[:2]], "F9")
        self.assertEqual((found[0], never in found), (said, False))

    def test_a_message_that_was_announced_and_not_carried(self) -> None:
        for text, frames in {
            "announced, and not carried whole: packet 1 of 3 didn't come": VI[:1],
            "announced, and not carried whole: packet 2 of 3 didn't come": [VI[0], VI[1], VI[3]],
            "announced, and not carried whole: packet 3 of 3 didn't come": [*VI[:3], "1CECFF00#20120003FFECFE00"],
            "17 bytes are announced in 4 packets, by the standard in 3": ["1CECFF00#20110004FFECFE00", *VI[1:]],
        }.items():
            found = self.compared(PLAN, [*FLOWS[:2], *frames, *FLOWS[:2]])
            self.assertEqual(found[0], f"L:3: VI from ENGINE to all: {text}")
            self.assertNotIn("P: flow 3, VI from ENGINE to all: never sent", found)
        found = self.compared(PLAN, [*FLOWS[:2], "1CEC8000#10110003FFECFE00", "1CEC0080#FF02FFFFFFECFE00", *VI[1:]])
        self.assertEqual(found, ["L:3: VI from ENGINE to DISPLAY: no flow", "L:4: VI from ENGINE to DISPLAY: given up by DISPLAY, reason 2 (no resources)",
                                 "L:5: packets from ENGINE to all without an announcement  (3 times)"])

    def test_a_message_of_no_group(self) -> None:
        frames = [frame.replace("ECFE00", "EBFE00") for frame in VI]
        self.assertEqual(self.deviations(*frames), ["L:1: PGN 65259 from ENGINE: no group has it"])
        self.assertEqual(self.deviations(*frames[:2]), ["L:1: PGN 65259 from ENGINE: no group has it"])

    def test_a_message_of_a_proprietary_group_that_is_not_planned(self) -> None:
        frames = [frame.replace("ECFE00", "00EF00") for frame in VI]
        self.assertEqual(self.deviations(*frames), [])
        self.assertEqual(self.deviations(*frames[:2]), [])

    def test_a_message_while_its_sender_changes(self) -> None:
        """DISPLAY loses 128 to a NAME that isn't planned, in the middle of its message."""
        frames = [frame.replace("FF00#", "FF80#") for frame in VI]
        self.assertEqual(self.deviations(*frames), ["L:1: VI from DISPLAY to all: no flow"])
        found = self.deviations(*frames[:2], "18EEFF80#0000000001000000", *frames[2:])
        self.assertEqual(found[:2], ["L:1: VI from DISPLAY to all: no flow",
                                     "L:1: VI from DISPLAY to all: announced, and not put together, since address 128 changed hands at line 3"])

    def test_messages_are_carried_whole_where_follow_reports_them(self) -> None:
        """In a log of random packets: what was announced soundly and isn't reported is told, and nothing else is."""
        chance = random.Random(1)
        log = self.write("random.log", "".join(f"{random_packet(chance)}\n" for _ in range(16000)))
        for length in LENGTHS:
            plan = self.write("plan.toml", GROUP % length)
            reports = re.findall(r"^\d+ - group VI from \?@(\d) to (\S+) ", program.call(["follow", plan, log])[1], re.MULTILINE)
            self.assertGreater(len(reports), 40)
            announced = re.findall(rf"^1CEC(FF|..)0(.)#(?:(?<=FF0.#)20|(?<!FF0.#)10){length:02X}00{-(-length // 7):02X}..ECFE00$", text_of(log), re.MULTILINE)
            whole = Counter((source, "all" if to == "all" else to[-1]) for source, to in reports)
            begun = Counter((source, "all" if to == "FF" else to[1]) for to, source in announced)
            found = run("against.py", plan, log)[1]
            told: Counter[tuple[str, str]] = Counter()
            for source, to, times in re.findall(r": VI from (\d) to (\S+): announced, and not carried whole: [^(\n]*(?:  \((\d+) times\))?\n", found):
                told[source, to] += int(times or 1)
            said, given_up = told_otherwise(text_of(log).splitlines(), program.call(["follow", plan, log])[1], length)
            self.assertGreater(min(sum(said.values()), sum(given_up.values())), 0)
            self.assertEqual({pair: told[pair] for pair in told if "all" in pair}, {pair: begun[pair] - whole[pair] for pair in begun if "all" in pair})
            self.assertTrue(begun - whole - given_up - said <= told <= begun - whole - given_up + said, told)
            self.assertLessEqual(sum(given_up.values()), sum(int(times or 1) for times in re.findall(r": given up by [^(\n]*\([^)\n]*\)(?:  \((\d+) times\))?\n", found)))
            self.assertEqual(len(told), 4)

    def test_another_priority(self) -> None:
        self.assertEqual(self.deviations("0CFEEE00#7DFFFFFFFFFFFFFF"), ["L:1: ET1 from ENGINE has priority 3, planned is 6"])

    def test_proprietary_groups_that_are_planned(self) -> None:
        """They are compared as any group; others are passed over. `check` finds them, so that it is told what `follow` says, which isn't how long they are."""
        group = '[[group]]\nlabel = "PROP_B"\npgn = 65300\npriority = 6\nlength = 4\n'
        plan = PLAN + group + '[[flow]]\ngroup = "PROP_B"\nfrom = "ENGINE"\nto = "all"\n'
        self.assertEqual(self.compared(plan, [*FLOWS, "18FF1400#00112233"], "F4"), [])
        self.assertEqual(self.compared(plan, FLOWS, "F4"), ["P: flow 4, PROP_B from ENGINE to all: never sent"])
        found = self.compared(plan, [*FLOWS, "1CFF1400#0011", "18FF1480#00112233", "18FF1500#00", "1CFF1400#00112233", "18EEFF05#0900000001000000", "18FF1406#00112233"], "F4")
        self.assertEqual(found, ["L:8: PROP_B from DISPLAY to all: no flow", "L:10: PROP_B from ENGINE has priority 7, planned is 6",
                                 "L:11: NAME 0000000100000009 claims address 5: no unit has it", "L:12: address 6 sends PROP_B, a planned group: no unit has it"])

    def test_private_groups(self) -> None:
        """Each is told by its flow; what another unit sends with its number is another maker's."""
        group = '[[group]]\nlabel = "%s"\npgn = 65300\npriority = 6\nlength = %d\nprivate = true\n'
        flow = '[[flow]]\ngroup = "%s"\nfrom = "%s"\nto = "all"\n'
        plan = PLAN.replace("version = 1", "version = 3") + group % ("OWN", 4) + group % ("THEIRS", 8) + flow % ("OWN", "ENGINE")
        third = '[[unit]]\nlabel = "TOOL"\naddress = 120\nname = { identity = 3 }\n'
        plan += flow % ("THEIRS", "DISPLAY") + third
        silent = "P: unit TOOL: neither claimed an address nor sent anything"
        sent = ["18FF1400#00112233", "18FF1480#0011223344556677"]
        self.assertEqual(self.compared(plan, [*CLAIMS, "18EEFF78#0300000000000000", *FLOWS, *sent, "18FF1478#00"]), [])
        self.assertEqual(self.compared(plan, [*FLOWS, *sent, "18FF1400#0011223344556677"]), [
            "L:9: OWN from ENGINE has 8 bytes, planned are 4", silent])
        self.assertEqual(self.compared(plan, [*FLOWS, sent[0], "18FF1480#00112233"]), [
            "L:8: THEIRS from DISPLAY has 4 bytes, planned are 8", silent])

    def test_groups_of_several_lengths(self) -> None:
        """A message may have each length from the least to the greatest."""
        group = '[[group]]\nlabel = "SOFT"\npgn = 65242\npriority = 6\nlength = 2\nmost = 4\n'
        plan = PLAN.replace("version = 1", "version = 3") + group + '[[flow]]\ngroup = "SOFT"\nfrom = "ENGINE"\nto = "all"\n'
        sent = ["18FEDA00#0011", "18FEDA00#001122", "18FEDA00#00112233"]
        self.assertEqual(self.compared(plan, [*CLAIMS, *FLOWS, *sent]), [])
        self.assertEqual(self.compared(plan, [*CLAIMS, *FLOWS, *sent, "18FEDA00#00", "18FEDA00#0011223344"]), [
            "L:12: SOFT from ENGINE has 1 bytes, planned are 2 to 4  (2 times)"])

    def test_two_groups_of_one_number(self) -> None:
        """That of the message's length, and of two the first: `check` finds them."""
        group = '[[group]]\nlabel = "%s"\npgn = 65300\npriority = 6\nlength = %d\n'
        flow = '[[flow]]\ngroup = "%s"\nfrom = "%s"\nto = "all"\n'
        plan = "".join([PLAN, group % ("LONG", 8), group % ("SHORT", 2), group % ("AGAIN", 2), flow % ("LONG", "ENGINE"),
                        flow % ("SHORT", "ENGINE"), flow % ("AGAIN", "DISPLAY")])
        found = self.compared(plan, [*FLOWS, "18FF1400#0011223344556677", "18FF1400#0011", "18FF1480#0011"], "F4")
        self.assertEqual(found, ["L:9: SHORT from DISPLAY to all: no flow"])

    def test_flows_that_are_not_planned(self) -> None:
        self.assertEqual(self.deviations("18FEEE80#7DFFFFFFFFFFFFFF"), ["L:1: ET1 from DISPLAY to all: no flow"])
        self.assertEqual(self.deviations("0C008000#7DFFFFFFFFFFFFFF"), ["L:1: TSC1 from ENGINE to DISPLAY: no flow"])
        self.assertEqual(self.deviations("0C000980#7DFFFFFFFFFFFFFF"), ["L:1: TSC1 from DISPLAY to 9: no flow"])

    def test_a_flow_that_was_never_sent(self) -> None:
        plan, log = self.write("plan.toml", PLAN), self.write("drive.log", "")
        found = [f"{plan}: flow {flow}: never sent" for flow in
                 ("1, ET1 from ENGINE to all", "2, TSC1 from DISPLAY to ENGINE", "3, VI from ENGINE to all")]
        self.assertEqual(run("against.py", plan, log), (1, "\n".join([*found, "deviations 3\n"]), f"against: {log} has no frame\n"))

    def test_flows_have_the_numbers_of_the_plan(self) -> None:
        """One that stands twice (F11) counts twice, as `check` counts it."""
        plan = self.write("plan.toml", PLAN + '[[flow]]\ngroup = "ET1"\nfrom = "ENGINE"\nto = "all"\n')
        log = self.write("drive.log", "".join(f"(1.0) can0 {frame}\n" for frame in FLOWS[1:]))
        found = [f"{plan}: flow {number}, ET1 from ENGINE to all: never sent" for number in (1, 4)]
        said = "against: the plan has findings, as F11 FlowRepeated 1 4: until they are mended audit judges nobody, and what follow says is told\n"
        self.assertEqual(run("against.py", plan, log), (1, "\n".join([*found, "deviations 2\n"]), said))

    def test_what_is_no_deviation(self) -> None:
        services = ["18EAFF00#00EE00", "1CEBFF00#01FFFFFFFFFFFFFF", "18FF1000#00", "18EF8000#00", "123#00",
                    "1CC88000#14FA06000000EF00", "1CC78000#01FFFFFFFFFFFFFF", "18C9FF00#ECFE00", "18CAFF00#ECFE00", "18930000#00",
                    "1C4DFF00#00", "1C4EFF00#00"]
        self.assertEqual(self.deviations(*services), [])

    def test_lines_that_spell_no_frame(self) -> None:
        """They are counted as `read` counts bad lines."""
        plan = self.write("plan.toml", PLAN)
        bad = ["FFFFFFFF#00", "1234#00", "18EAFFFE#00E", "12#", "x", ""]
        good = ["18FEEE00#7DFFFFFFFFFFFFFF", "123#00", "123##100", "123#XX"]
        log = self.write("drive.log", "".join(f"(1.0) can0 {frame}\n" for frame in bad + good) + "\n  \n")
        self.assertEqual(run("against.py", plan, log)[2], f"against: 6 lines spell no frame, as {log}:1\n")
        self.assertIn(" bad 6\n", program.call(["read", plan, log])[1])

    def test_lines_as_read_has_them(self) -> None:
        """Words are parted by spaces, tabs and carriage returns, lines by line feeds alone; a line has at most 8,192 bytes."""
        plan, frame = self.write("plan.toml", PLAN), "18FEEE00#7DFFFFFFFFFFFFFF"
        lines = [f"(1.0)\tcan0 {frame}\r", f"can0\r{frame}", f"\x0b{frame}", f"{frame}\x0c", f"x\u2003{frame}", " " * 8192,
                 " " * 8193, "x" * 20000, f"{' ' * 8167}{frame}", f"{' ' * 8168}{frame}", "\r"]
        log = self.write("drive.log", "\n".join(lines))
        counts = program.call(["read", plan, log])[1].splitlines()[-1]
        self.assertEqual(counts, "frames 3 skipped 0 bad 6")
        self.assertEqual(run("against.py", plan, log)[2], f"against: 6 lines spell no frame, as {log}:4\n")

    def test_two_interfaces(self) -> None:
        """The first one is compared; what comes on another one isn't counted twice for its mark. A time is no interface."""
        plan = self.write("plan.toml", PLAN)
        other = [f"(2.0) can1 {frame}\n" for frame in ("18FEF105#FFFFFFFFFFFFFFFF", *VI)]
        mine = [f"(1.0) can0 {frame}\n" for frame in FLOWS[:-1]] + [f"(1.5) {FLOWS[-1]}\n"]
        log = self.write("drive.log", "".join(a + b for a, b in zip(mine, other)) + mine[-1])
        said = "against: can0 is read, the first of the log; 5 lines of can1 are passed over: --interface can1\n"
        self.assertEqual(run("against.py", plan, log), (0, "deviations 0\n", said))

    def test_times_are_no_interfaces(self) -> None:
        plan = self.write("plan.toml", PLAN)
        for form in ("({}.25) {}", "({}) {}", "can0 {1}", "{1}"):
            log = self.write("drive.log", "".join(form.format(second, frame) + "\n" for second, frame in enumerate(FLOWS)))
            self.assertEqual(run("against.py", plan, log), (0, "deviations 0\n", ""), form)

    def test_words_behind_the_data(self) -> None:
        """A direction is passed over, also behind a frame that is marked; what comes so is as long as what comes without."""
        plan = self.write("plan.toml", PLAN)
        frames = [*CLAIMS, *FLOWS, "18FEF100#00", "18FEF100#0011", "18FEEE00#7DFF", "18FEEE00#7DFFFFFFFFFFFFFF"]
        answers = []
        for ending in ("", " R", "  T", "\tR\r"):
            log = self.write("drive.log", "".join(f"({number}.0) can0 {frame}{ending}\n" for number, frame in enumerate(frames)))
            answers.append(run("against.py", plan, log))
        self.assertEqual(answers[0][2], "")
        self.assertIn("deviations 2\n", answers[0][1])
        self.assertEqual(answers, answers[:1] * 4)

    def test_needs(self) -> None:
        """Those that nothing met in the log, by the flows that meet them; with the signal and the unit."""
        plan = PLAN.replace("version = 1", "version = 4").replace("length = 8\n", 'length = 8\n[[group.signal]]\nlabel = "S"\nbyte = 1\nbits = 8\n'
                                                                  'kind = "raw"\n', 1)
        needs = ("DISPLAY ET1", "DISPLAY ET1 S", "ENGINE ET1", "ENGINE TSC1", "DISPLAY VI")
        for number, need in enumerate(needs, 1):
            unit, group, *signal = need.split()
            plan += f'[[need]]\nunit = "{unit}"\ngroup = "{group}"\n' + "".join(f'signal = "{name}"\n' for name in signal)
        plan += '[[need]]\nunit = "DISPLAY"\ngroup = "VI"\nfrom = "DISPLAY"\n'
        none = [f"P: need {number}, {what}: nothing met it, and no flow of the plan does" for number, what in ((3, "ET1 by ENGINE"), (6, "VI by DISPLAY"))]
        self.assertEqual(self.compared(plan, FLOWS), none)
        found = [line for line in self.compared(plan, FLOWS[1:2]) if "need" in line]
        self.assertEqual(found, ["P: need 1, ET1 by DISPLAY: nothing met it", "P: need 2, ET1 S by DISPLAY: nothing met it", none[0],
                                 "P: need 5, VI by DISPLAY: nothing met it", none[1]])

    def test_requests(self) -> None:
        """What the plan asks for and nobody answers in time, or at all, or what is refused; each with its line."""
        plan, log = example("service_requests.toml"), example("service_requests.start.log")
        silent, late, refused = (
            f"{log}:17: request 1, VI from TOOL to ENGINE: no answer within 1250 ms",
            f"{log}:13: request 2, HOURS from TOOL to ENGINE: answered 350 ms after it, later than 200 ms",
            f"{log}:15: request 3, ERC1 from TOOL to RETARDER: is refused")
        self.assertEqual(run("against.py", plan, log), (1, "".join(f"{line}\n" for line in (late, refused, silent, "deviations 3")), ""))
        lines = text_of(log).splitlines()
        soon = self.write("soon.log", "".join(f"{line}\n" for line in lines[:13]).replace("103.350", "103.200"))
        self.assertNotIn(": request ", run("against.py", plan, soon)[1])
        waiting = self.write("waiting.log", "".join(f"{line}\n" for line in lines[:12]))
        self.assertNotIn(": request ", run("against.py", plan, waiting)[1])
        bare = self.write("bare.log", "".join(f"{line.split()[-1]}\n" for line in lines))
        self.assertEqual([line for line in run("against.py", plan, bare)[1].splitlines() if ": request " in line], [
            f"{bare}:15: request 3, ERC1 from TOOL to RETARDER: is refused", f"{bare}:17: request 1, VI from TOOL to ENGINE: no answer within 1250 ms"])
        busy = self.write("busy.log", text_of(log).replace("18E8F90F#01", "18E8F90F#03"))
        self.assertIn("request 3, ERC1 from TOOL to RETARDER: is told that it can't be answered now", run("against.py", plan, busy)[1])

    def test_an_abort(self) -> None:
        """Who gives a message up, and why."""
        plan = PLAN.replace('from = "ENGINE"\nto = "all"\n', 'from = "ENGINE"\nto = "DISPLAY"\n')
        sent = ["1CEC8000#10110003FFECFE00", "1CEC0080#FF03FFFFFFECFE00"]
        self.assertIn("L:2: VI from ENGINE to DISPLAY: given up by DISPLAY, reason 3 (timeout)", self.compared(plan, sent, "F9"))

    def test_several_logs(self) -> None:
        """One drive in several files: lines are those of their own file, and what goes over their border is whole."""
        lines = [f"(1.{number}) can0 {frame}" for number, frame in enumerate([*FLOWS, "18FEF100#00", "18FEF105#00"])]
        first, second = self.write("a.log", "\n".join(lines[:4])), self.write("b.log", "\n".join(lines[4:]))
        plan = self.write("plan.toml", PLAN)
        self.assertEqual(run("against.py", plan, first, second, self.write("c.log", "")), (1, "".join([
            f"{second}:3: PGN 65265 from ENGINE: no group has it\n", f"{second}:4: address 5 sends: no unit has it\n",
            f"{second}:4: PGN 65265 from 5: no group has it\n", "deviations 3\n"]), ""))

    def test_plans_of_toml_1_1(self) -> None:
        for text in (NEWER, MARKED):
            plan, log = self.write("plan.toml", text), self.write("drive.log", "(1.0) can0 18FEEE00#7DFFFFFFFFFFFFFF\n")
            silent = f"{plan}: unit B: neither claimed an address nor sent anything\n"
            self.assertEqual(run("against.py", plan, log), (1, f"{silent}deviations 1\n", ""))

    def test_what_cannot_be_compared(self) -> None:
        log = self.write("drive.log", "")
        for plan, status, said in [
            (example("findings/f07_signal_outside.toml"), 1,
             program.call(["follow", example("findings/f07_signal_outside.toml"), log])[1].strip()),
            (self.write("plan.toml", "version = 5\n"), 2, f"{self.path('plan.toml')}:1: refused Range top key version  (version = 5: integer 1..4)"),
        ]:
            self.assertEqual(run("against.py", plan, log), (status, "", f"against: {said}\n"))
        missing = self.path("none.log")
        said = f"against: {missing}: No such file or directory\n"
        self.assertEqual(run("against.py", example("first_plan.toml"), missing), (4, "", said))


if __name__ == "__main__":
    unittest.main()
