"""A log against a plan: how far apart messages come."""

import re
from collections.abc import Sequence

from tests.logs_against import FLOWS, PLAN, VI, Compared, run


class Periods(Compared):
    def periods(self, log: Sequence[tuple[str, str]], *words: str, period: int = 10) -> list[str]:
        """What is told of ET1 and VI, which both have a period."""
        plan = PLAN.replace("version = 1", "version = 3").replace('from = "ENGINE"\n', f'from = "ENGINE"\nperiod = {period}\n')
        name = self.write("drive.log", "".join(f"({time}) can0 {frame}\n" for time, frame in log))
        status, answer, said = run("against.py", *words, self.write("plan.toml", plan), name)
        self.assertEqual((status, said), (int(not answer.startswith("deviations 0")), ""))
        return [line.replace(name, "L") for line in answer.splitlines() if " the one before" in line]

    def timed(self, period: int) -> str:
        """A plan of ET1 and VI with a period."""
        plan = PLAN.replace("version = 1", "version = 3").replace('from = "ENGINE"\n', f'from = "ENGINE"\nperiod = {period}\n')
        return self.write("plan.toml", plan)

    def told(self, log: Sequence[tuple[str, str]], what: str, *words: str, period: int = 10) -> list[str]:
        """The deviations of a log that say this."""
        name = self.write("drive.log", "".join(f"({time}) can0 {frame}\n" for time, frame in log))
        answer = run("against.py", *words, self.timed(period), name)[1]
        return [line.replace(name, "L") for line in answer.splitlines() if what in line]

    def test_periods(self) -> None:
        """The least distance of the messages of a flow, with its line; exactly the period is no deviation."""
        times = ["5.000000", "5.010000", "5.019999", "5.029000", "5.028000", "5.038", "6"]
        log = [(time, "18FEEE00#7DFFFFFFFFFFFFFF") for time in times]
        said = "flow 1, ET1 from ENGINE to all: {} ms after the one before, its period is {} ms"
        self.assertEqual(self.periods(log), ["L:4: " + said.format("9.001", 10) + "  (2 times)"])
        self.assertEqual(self.periods(log, "--jitter", "0.999"), [])
        self.assertEqual(self.periods(log, "--jitter", "0.998999"), ["L:4: " + said.format("9.001", 10)])
        self.assertEqual(self.periods(log, period=9), [])
        self.assertEqual(self.periods(log, period=1000), ["L:4: " + said.format("9.001", 1000) + "  (5 times)"])

    def test_periods_of_long_messages(self) -> None:
        """They count from the announcement, also where their last packets are nearer, and only where they were carried whole."""
        late = [("1.000", VI[0]), ("1.003", VI[1]), ("1.004", VI[2]), ("1.009", VI[3])]
        soon = [("1.010", VI[0]), ("1.011", VI[1]), ("1.012", VI[2]), ("1.013", VI[3])]
        self.assertEqual(self.periods(late + soon), [])
        broken = [("1.012", VI[0]), ("1.013", VI[1])]
        self.assertEqual(self.periods(late + broken + [(f"1.02{number}", frame) for number, frame in enumerate(VI)]), [])
        said = "flow 3, VI from ENGINE to all: 10 ms after the one before, its period is 11 ms"
        self.assertEqual(self.periods(late + soon, period=11), [f"L:5: {said}"])

    def test_periods_without_times(self) -> None:
        plan = PLAN.replace("version = 1", "version = 3").replace('from = "ENGINE"\n', 'from = "ENGINE"\nperiod = 10\n')
        log = self.write("drive.log", "".join(f"{frame}\n" for frame in FLOWS))
        said = "against: the log has no times by which the periods of flows could be compared\n"
        self.assertEqual(run("against.py", self.write("plan.toml", plan), log), (0, "deviations 0\n", said))
        for jitter in ("-1", "x", "1e3", ""):
            self.assertEqual(run("against.py", f"--jitter={jitter}", self.path("plan.toml"), log)[0], 2)

    def test_silences(self) -> None:
        """The longest time without a message of a flow, with the line behind it, and that one has stopped, by the log's last time."""
        times = ["1.000", "1.010", "1.061", "1.100", "1.200", "1.250"]
        log = [(time, FLOWS[0]) for time in times] + [("1.250", FLOWS[1])]
        said = "flow 1, ET1 from ENGINE to all: not sent "
        self.assertEqual(self.told(log, "not sent"), [f"L:5: {said}for 100 ms before, its period is 10 ms  (2 times)"])
        self.assertEqual(self.told(log + [("1.300001", FLOWS[1])], "not sent")[1:], [
            f"L:6: {said}any more, for 50.001 ms to the log's end, its period is 10 ms"])
        self.assertEqual(self.told(log + [("1.300", FLOWS[1])], "not sent", "--silence", "10"), [])
        self.assertEqual(self.told(log + [("9.0", FLOWS[1])], "not sent", "--silence", "0"), [])
        self.assertEqual(self.told(log, "not sent", period=90), [])

    def test_silences_of_clocks_that_are_set(self) -> None:
        """Distances begin anew behind a clock that jumps or is set back, which is said once."""
        times = ["12.0", "12.01", "1764230400.0", "1764230400.01", "1764230400.02", "9.0", "9.02", "9.1"]
        lines = "".join(f"({time}) can0 {FLOWS[0]}\n" for time in times)
        log = self.write("drive.log", lines)
        status, answer, said = run("against.py", self.timed(10), log)
        self.assertEqual(said, f"against: {log}:3: time jumps by 20419.3 days; times go back or jump 2 times in all\n")
        self.assertEqual([line for line in answer.splitlines() if "not sent" in line], [
            f"{log}:8: flow 1, ET1 from ENGINE to all: not sent for 80 ms before, its period is 10 ms"])

    def test_tolerances(self) -> None:
        """In percent of each period, or in ms; of which flows nothing is left is said."""
        log = [(f"{time:.4f}", FLOWS[0]) for time in (1, 1.0095, 1.019, 1.0279)]
        for words, found in ((("--jitter", "5%"), 1), (("--jitter", "11%"), 0), (("--jitter", "0.5"), 1), (("--jitter", "0.5ms"), 1), ((), 3)):
            told = self.told(log, "the one before", *words)
            self.assertEqual([re.search(r"\((\d) times\)", line) and line[-8:] for line in told] or [0],
                             {0: [0], 1: [None], 3: ["3 times)"]}[found], words)
        name, plan = self.path("drive.log"), self.timed(10)
        said = "is no less than the period of flow 1, 3: how near messages come isn't reported there\n"
        self.assertEqual(run("against.py", "--jitter", "60", plan, name)[2], f"against: --jitter 60 ms {said}")
        self.assertEqual(run("against.py", "--jitter", "100%", plan, name)[2], f"against: --jitter 100% {said}")
        self.assertEqual(run("against.py", "--jitter", "9.9", plan, name)[2], "")
        self.assertEqual(run("against.py", "--jitter", "5 %", plan, name)[0], 2)

    def test_the_table_of_flows(self) -> None:
        """Of each flow how often it was sent and how far apart, one without a period too."""
        log = [(f"{time:.4f}", FLOWS[0]) for time in (1, 1.0095, 1.0195, 1.03, 1.3)] + [("1.4", FLOWS[1]), ("1.9", FLOWS[1])]
        name = self.write("drive.log", "".join(f"({time}) can0 {frame}\n" for time, frame in log))
        rows = [line.split() for line in run("against.py", "--table", self.timed(10), name)[1].splitlines()]
        self.assertEqual(rows[:4], [
            ["flow", "group", "from", "to", "period", "count", "least", "median", "greatest"],
            ["1", "ET1", "ENGINE", "all", "10", "5", "9.50", "10.00", "270.00"],
            ["2", "TSC1", "DISPLAY", "ENGINE", "-", "2", "500.00", "500.00", "500.00"],
            ["3", "VI", "ENGINE", "all", "10", "0", "-", "-", "-"]])
        self.assertEqual(rows[-1][0], "deviations")
