"""Parts of logs: of a time, around a line, of units and groups; and a log by another logger's clock."""

import gzip
import json
import random
import unittest

from tests.drives import log_of
from tests.support import InFolder, example, run, text_of

LOG, PLAN = example("service_requests.start.log"), example("service_requests.toml")
LINES = text_of(LOG).splitlines()

# The lines, from 1, of a request for VI and its answer in the log, and of a second request that nobody answers.
VI = [5, 6, 7, 8, 9, 10, 11, 17]


class Parts(InFolder):
    def kept(self, *words: str) -> list[int]:
        """The lines that are kept, by their numbers."""
        status, answer, said = run("cut.py", *words, LOG)
        self.assertEqual((status, said), (0, f"cut: {answer.count(chr(10))} lines\n"))
        return [LINES.index(line) + 1 for line in answer.splitlines()]

    def test_all_and_times(self) -> None:
        self.assertEqual(self.kept(), list(range(1, len(LINES) + 1)))
        self.assertEqual(self.kept("--begin", "102.022", "--end", "103"), [8, 9, 10, 11, 12])
        self.assertEqual(self.kept("--begin", "+2", "--end", "+2.0215"), [5, 6, 7])
        self.assertEqual(self.kept("--begin", "106"), [17, 18])

    def test_around(self) -> None:
        self.assertEqual(self.kept("--around", "9", "--seconds", "0.001"), [8, 9, 10])
        self.assertEqual(run("cut.py", LOG, "--around", "99")[::2], (2, "cut: --around 99: the log has no such line with a time\n"))

    def test_groups(self) -> None:
        """By label and by PGN, with announcements, packets, answers and requests."""
        self.assertEqual(self.kept("--plan", PLAN, "--group", "VI"), VI)
        self.assertEqual(self.kept("--group", "65260"), VI)
        self.assertEqual(self.kept("--group", "65260", "--begin", "105"), [17])
        self.assertEqual(self.kept("--plan", PLAN, "--group", "VI", "--begin", "+6"), [17])

    def test_units(self) -> None:
        """By label, address and NAME: what it sends and gets; with a group, both have to fit."""
        of_engine = [number for number, line in enumerate(LINES, 1) if line.endswith(("#0690", "none")) or line.split()[-1][6:8] == "00"
                     or line.split()[-1][4:6] == "00" and line.split()[-1][2] == "E" and int(line.split()[-1][2:4], 16) < 240]
        self.assertEqual(self.kept("--plan", PLAN, "--unit", "ENGINE"), of_engine)
        self.assertEqual(self.kept("--unit", "46"), [number for number, line in enumerate(LINES, 1) if line.split()[-1][6:8] == "2E"])
        claim = LINES[0].split("#")[1]
        name = bytes.fromhex(claim)[::-1].hex()
        self.assertEqual(self.kept("--unit", name), of_engine)
        self.assertEqual(self.kept("--plan", PLAN, "--unit", "RETARDER", "--group", "VI"), [])

    def test_what_is_refused(self) -> None:
        self.assertEqual(run("cut.py", "--plan", PLAN, "--unit", "NONE", LOG)[0], 2)
        self.assertEqual(run("cut.py", "--plan", PLAN, "--group", "NONE", LOG)[0], 2)
        self.assertEqual(run("cut.py", "--unit", "ENGINE", LOG)[2], "cut: --unit ENGINE: labels are those of a plan, which --plan names; it may be an address or a NAME too\n")
        self.assertEqual(run("cut.py", "--begin", "x", LOG)[0], 2)
        self.assertEqual(run("cut.py", "--begin", "+1", "--end", "5", LOG)[0], 2)
        self.assertEqual(run("cut.py", "--unit", "0", PLAN)[0], 2)

    def test_packed(self) -> None:
        with gzip.open(self.path("a.log.gz"), "wb") as file:
            file.write(text_of(LOG).encode())
        self.assertEqual(run("cut.py", "--begin", "106", self.path("a.log.gz"))[1].splitlines(), LINES[16:])


class Clocks(InFolder):
    def logs(self, later: float, drift: float) -> tuple[str, str, list[str]]:
        """A drive by two loggers, the second of which has a clock of its own, begins later and loses some frames; and what it has by the first clock."""
        chance, lines = random.Random(3), log_of(example("sprayer.toml"), 6).splitlines(keepends=True)
        kept = [line for number, line in enumerate(lines) if number > 40 and chance.random() < 0.9]
        other = []
        for line in kept:
            time, _, rest = line.partition(" ")
            at = float(time[1:-1]) - 1_700_000_000
            other.append(f"({1_700_000_000 + later + at * (1 + drift):.6f}) {rest}")
        return self.write("first.log", "".join(lines)), self.write("second.log", "".join(other)), kept

    def test_shifted(self) -> None:
        """The times are those of the first log within 20 us, also where the clocks go apart."""
        for later, drift in ((5.25, 0.0), (-70.5, 1e-4)):
            first, second, wanted = self.logs(later, drift)
            status, answer, said = run("cut.py", "--clock", first, second, "--json")
            self.assertEqual(status, 0, said)
            for line, whole in zip(answer.splitlines(), wanted, strict=True):
                self.assertLess(abs(float(line[1:18]) - float(whole[1:18])), 2e-5)
                self.assertEqual(line.split()[1:], whole.split()[1:])
            row = json.loads(said)
            self.assertLess(abs(row["later_at_end"] - row["later"] - drift * 6), 1e-3)
            self.assertLess(abs(row["later"] - later), 1e-3)

    def test_merged(self) -> None:
        """Both as one: each frame of the bus once, in the order of times, whoever of the two has it, also where one bus sends a frame again and again."""
        for later, drift in ((5.25, 0.0), (-70.5, 1e-4)):
            first, second, _ = self.logs(later, drift)
            whole, chance = text_of(first).splitlines(), random.Random(8)
            kept = [line for number, line in enumerate(whole) if number < 60 or chance.random() < 0.8]
            self.write("first.log", "".join(f"{line}\n" for line in kept))
            common = {line.split()[2] for line in kept} & {line.split()[2] for line in text_of(second).splitlines()}
            status, answer, said = run("cut.py", "--clock", first, second, "--merge", "--json")
            self.assertEqual(status, 0, said)
            known = {*(line.split()[2] for line in kept), *(line.split()[2] for line in text_of(second).splitlines())}
            frames = [line.split()[2] for line in answer.splitlines()]
            self.assertEqual(sorted(frames), sorted(line.split()[2] for line in whole if line.split()[2] in known))
            times = [float(line[1:18]) for line in answer.splitlines()]
            self.assertEqual(times, sorted(times))
            row = json.loads(said)
            self.assertGreaterEqual(row["both"], len(common))
            self.assertEqual((row["lines"], row["lines"] + row["both"]), (len(frames), len(kept) + text_of(second).count("\n")))

    def test_a_frame_that_comes_again(self) -> None:
        """The same frame each 10 ms, of which each log lacks one: all of them, once."""
        unique = ["(1.0) can0 18FEEE00#01\n", "(2.0) can0 18FEEE00#02\n", "(3.0) can0 18FEEE00#03\n"]
        same = [f"({1.5 + number / 100:.6f}) can0 18FEEF00#AA\n" for number in range(8)]
        first = self.write("first.log", "".join([unique[0], *same[:3], *same[4:], *unique[1:]]))
        second = self.write("second.log", "".join([unique[0], *same[:5], *same[6:], *unique[1:]]))
        status, answer, said = run("cut.py", "--clock", first, "--merge", second)
        self.assertEqual((status, answer.splitlines(keepends=True)[1:9]), (0, same))
        self.assertTrue(said.endswith("cut: 11 lines, of which both logs have 9\n"), said)

    def test_a_drive_that_repeats_itself(self) -> None:
        """Frames that each log has once, and that are others of the drive: the clock is that by which most agree, and no frame is lost."""
        whole = [f"({1000 + number / 10:.6f}) can0 18FEEE00#{number % 50:02X}\n" for number in range(75)]
        first = self.write("first.log", "".join(whole[:55]))
        second = self.write("second.log", "".join(f"({float(line[1:12]) + 7:.6f}{line[12:]}" for line in whole[22:]))
        status, answer, said = run("cut.py", "--clock", first, "--merge", second)
        self.assertEqual((status, answer), (0, "".join(whole)), said)
        self.assertIn("the clock is 7.000000 s later at the begin and 7.000000 s at the end", said)

    def test_what_is_not_merged(self) -> None:
        self.assertEqual(run("cut.py", "--merge", LOG)[0], 2)
        self.assertEqual(run("cut.py", "--merge", "--clock", LOG, LOG, "--unit", "0")[0], 2)

    def test_nothing_in_common(self) -> None:
        other = self.write("other.log", "(1.0) can0 18FEEE00#0000000000000000\n")
        self.assertEqual(run("cut.py", "--clock", other, LOG)[0], 2)


if __name__ == "__main__":
    unittest.main()
