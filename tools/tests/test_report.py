"""The page of a plan: that it is sound HTML, which a browser shows without a word, and that it says what the plan and the program say."""

import os
import re
import shutil
import subprocess
import unittest
from html.parser import HTMLParser

from j39plan import program
from j39plan.plan import answers
from j39plan.plan.answer_grammar import line_of
from j39plan.plan.answers import Age, Delay
from j39plan.plan.tables import Tables
from tests.support import InFolder, MARKED, NEWER, TOP, example, plans, run, signal, text_of, there

PLAN, FAULTY = example("tractor_and_implement.toml"), example("findings/several.toml")
CHECKS = os.path.join(TOP, "rows", "checks")

# Elements without an end.
VOID = ("meta", "br")


# A plan with labels of the greatest length, on one bit and on seven.
NARROW = """version = 1
[[unit]]
label = "A"
address = 0
name = { identity = 1 }
[[group]]
label = "G"
pgn = 65262
priority = 6
length = 8
""" + signal("S" * 32, 1, 1, "raw") + signal("T" * 32, 1, 7, "raw", "bit = 2\n")

# A page with page.html in a frame as wide as a telephone, whose title becomes the widths of that page and of its bits.
FRAME = """<!DOCTYPE html>
<html lang="en"><title></title>
<iframe src="page.html" style="width: 400px; height: 800px; border: 0"></iframe>
<script>
const frame = document.querySelector("iframe");
frame.addEventListener("load", () => {
  const page = frame.contentDocument, bits = [...page.querySelectorAll(".bytes thead th")].slice(1);
  const widths = bits.map((bit) => Math.round(bit.getBoundingClientRect().width));
  document.title = [page.documentElement.scrollWidth, ...widths].join(" ");
});
</script></html>
"""


class Page(HTMLParser):
    """A page as it is read: its elements close in order, and what they have is kept."""

    def __init__(self, text: str) -> None:
        super().__init__()
        self.open: list[str] = []
        self.tags: list[str] = []
        self.ids: list[str] = []
        self.links: list[str] = []
        self.faults: list[str] = []
        self.captions = self.tables = 0
        self.rows: list[list[str]] = []
        self.cell: str | None = None
        self.feed(text)
        self.close()

    def handle_starttag(self, tag: str, attrs: list[tuple[str, str | None]]) -> None:
        words = dict(attrs)
        self.tags.append(tag)
        self.ids += [there(words["id"])] if "id" in words else []
        self.links += [there(words["href"])] if "href" in words else []
        self.faults += [f"{tag} has {word}" for word in words if word.startswith("on") or word in ("src", "style")]
        if tag == "table":
            self.tables += 1
        if tag == "caption":
            self.captions += 1
            self.faults += ["a caption that isn't the first of its table"] if self.open[-1:] != ["table"] else []
        if tag == "th" and words.get("scope") not in ("row", "col"):
            self.faults.append("a header without a scope")
        if tag == "tr":
            self.rows.append([])
        if tag in ("th", "td"):
            self.rows[-1].append("")
        if tag not in VOID:
            self.open.append(tag)

    def handle_endtag(self, tag: str) -> None:
        if not self.open or self.open.pop() != tag:
            self.faults.append(f"{tag} closes nothing")

    def handle_data(self, data: str) -> None:
        if self.rows and any(tag in self.open for tag in ("th", "td")):
            self.rows[-1][-1] += data


def large_plan(units: int = 128, groups: int = 256) -> str:
    """A plan of the greatest size, without a finding."""
    lines = ["version = 3"]
    for number in range(units):
        lines.append(f'[[unit]]\nlabel = "U{number}"\naddress = {number}\nname = {{ identity = {number} }}')
    for number in range(groups):
        pgn = 61440 + number if number < 128 else 65000 + number - 128
        lines.append(f'[[group]]\nlabel = "G{number}"\npgn = {pgn}\npriority = 6\nlength = 8')
        for byte in range(1, 9):
            lines.append(f'[[group.signal]]\nlabel = "S{byte}"\nbyte = {byte}\nbits = 8\nkind = "measured"\nunit = "%"')
        lines.append(f'[[flow]]\ngroup = "G{number}"\nfrom = "U{number % units}"\nto = "all"')
    return "\n".join(lines) + "\n"


class Report(InFolder):
    def page(self, plan: str) -> Page:
        """The page of a plan file, which is sound."""
        status, text, said = run("report.py", plan)
        self.assertEqual((status, said), (0, ""), plan)
        read = Page(text)
        self.assertEqual((read.faults, read.open), ([], []), plan)
        self.assertEqual(len(read.ids), len(set(read.ids)), plan)
        self.assertLessEqual({link[1:] for link in read.links}, set(read.ids), plan)
        self.assertEqual(read.tables, read.captions)
        self.assertNotIn("script", read.tags)
        self.assertNotRegex(text, r"https?:|@import|url\(")
        self.assertIn('<html lang="en">', text)
        return read

    def test_each_example_has_a_sound_page(self) -> None:
        for plan in plans():
            self.page(plan)

    def test_plans_in_other_words_have_one_page(self) -> None:
        pages = [run("report.py", self.write("plan.toml", text))[1] for text in (NEWER, MARKED)]
        self.assertEqual(*(page.partition("<footer>")[0] for page in pages))
        self.assertIn("Addresses that no unit may choose: 201, 202.", pages[0])

    def test_units_stand_as_addresses_says(self) -> None:
        rows = self.page(example("address_contest.toml")).rows
        self.assertIn(["A", "128", "in every run", "arbitrary", "lowest", "255"], rows)
        self.assertIn(["B", "128", "may move", "arbitrary", "lowest", "255"], rows)
        self.assertIn("not known: the addresses have findings", [cell for row in self.page(FAULTY).rows for cell in row])

    def test_strangers(self) -> None:
        """How many may come stands below the units, where some may."""
        plan = self.write("plan.toml", text_of(example("address_contest.toml")).replace("version = 1\n", "version = 4\nstrangers = 2\n"))
        self.page(plan)
        self.assertIn("may choose their addresses: up to 2.", run("report.py", plan)[1])
        self.assertNotIn("stand in no plan", run("report.py", example("address_contest.toml"))[1])

    def test_live_buses(self) -> None:
        """Of a live plan this stands below the units."""
        text = text_of(example("service_requests.toml"))
        said = "messages begin while units claim, and units go off in the midst of one"
        self.assertIn(said, run("report.py", self.write("plan.toml", text.replace("version = 4\n", "version = 4\nlive = true\n")))[1])
        self.assertNotIn(said, run("report.py", self.write("plan.toml", text))[1])

    def test_names_are_those_that_are_claimed(self) -> None:
        for plan in (PLAN, example("service_addresses.toml"), example("three_at_one_address.toml")):
            labels = program.labels_of(plan)
            frames = program.run(plan, [f"up {label}" for label in labels])[:len(labels)]
            claimed = {label: (bytes.fromhex(frame[9:])[::-1].hex().upper(), int(frame[6:8], 16)) for label, frame in zip(labels, frames)}
            self.assertEqual({unit.label: (unit.name, unit.address) for unit in Tables.of(plan).units}, claimed)
            rows = [row[:2] for row in self.page(plan).rows]
            for label, (name, _) in claimed.items():
                self.assertIn([label, name], rows)

    def test_findings_have_their_lines(self) -> None:
        _, answer, _ = run("where.py", FAULTY)
        told = [there(re.match(r"(.*:\d+): (.*?)(?:  \((.*)\))?$", line)).groups() for line in answer.splitlines() if ": F" in line]
        shown = [row[1:4] for row in self.page(FAULTY).rows if row[0].isdigit() and len(row) == 5]
        self.assertEqual(shown, [list(row) for row in told])

    def test_steps_of_a_run_stand_beside_their_finding(self) -> None:
        rows = self.page(example("findings/f02_same_fixed_address.toml")).rows
        self.assertTrue(any("give" in row[-1] for row in rows if row[0] == "1"), rows)

    def test_bytes_show_each_bit(self) -> None:
        """A signal's bits from the most significant one, bytes without a signal as one row, and what is outside or has two signals."""
        rows = self.page(PLAN).rows
        at = rows.index(["Byte", *(f"bit {bit}" for bit in range(8, 0, -1))])
        self.assertEqual(rows[at + 1:at + 7],
                         [["1", "free", "SPN899"], ["2", "SPN512"], ["3", "SPN513"], ["4", "SPN190"], ["5", "SPN190"], ["6 to 8", "free"]])
        rows = self.page(FAULTY).rows
        self.assertIn(["9 (outside)", "SPN191"], rows)
        self.assertTrue(any("SPN513 and SPN190" in row for row in rows))

    def test_each_row_of_bytes_has_eight_bits(self) -> None:
        for plan in (PLAN, FAULTY, os.path.join(CHECKS, "f06_later_kinds.toml")):
            text = run("report.py", plan)[1]
            rows = [row for table in re.findall(r'<table class="bytes">(.*?)</table>', text, re.DOTALL)
                    for row in re.findall(r'<tr><th scope="row">[^<]*</th>(.*)</tr>', table)]
            self.assertGreater(len(rows), 6)
            for row in rows:
                widths = re.findall(r'<td(?: class="free")?(?: colspan="(\d)")?>', row)
                self.assertEqual(sum(int(width or 1) for width in widths), 8, row)

    def test_texts(self) -> None:
        """Bytes of texts alone are one row, and a signal's bytes name the texts there, too."""
        rows = self.page(self.write("plan.toml", """version = 3
[[group]]
label = "G"
pgn = 65262
priority = 6
length = 8
[[group.signal]]
label = "S"
byte = 1
bits = 4
kind = "raw"
[[group.text]]
label = "ALL"
byte = 1
[[group.text]]
label = "FAR"
byte = 6
bytes = 5
""")).rows
        at = rows.index(["Byte", *(f"bit {bit}" for bit in range(8, 0, -1))])
        self.assertEqual(rows[at + 1:at + 5], [["1", "ALL", "S and ALL"], ["2 to 5", "ALL"], ["6 to 8", "ALL and FAR"], ["9 to 10 (outside)", "FAR"]])
        for row in (["ALL", "1", "to the end"], ["FAR", "6", "5"]):
            self.assertIn(row, rows)

    def test_records(self) -> None:
        """The bytes of further records aren't free, but for those before them; other signals among them are shown."""
        rows = self.page(example("trouble_codes.toml")).rows
        at = rows.index(["Byte", *(f"bit {bit}" for bit in range(8, 0, -1))])
        self.assertEqual(rows[at + 2:at + 8], [["2", "free"], *([str(byte), "DTC[1]"] for byte in range(3, 7)), ["7 to 1782", "further records"]])
        rows = self.page(self.write("plan.toml", """version = 3
[[group]]
label = "G"
pgn = 65226
priority = 6
length = 12
most = 20
every = 6
""" + signal("R", 1, 16, "raw", "repeated = true\n") + signal("S", 11, 8, "raw"))).rows
        at = rows.index(["Byte", *(f"bit {bit}" for bit in range(8, 0, -1))])
        self.assertEqual(rows[at + 3:at + 7], [["3 to 6", "free"], ["7 to 10", "further records"], ["11", "S"], ["12 to 20", "further records"]])

    def test_kinds_and_values(self) -> None:
        rows = self.page(self.write("plan.toml", """version = 3
[[group]]
label = "G"
pgn = 65262
priority = 6
length = 20
""" + signal("SPEED", 1, 16, "measured", 'per = 8\nunit = "rpm"\n') + signal("HEAT", 3, 16, "measured", "offset = -8736\nper = 32\n")
            + signal("GEAR", 5, 4, "states") + signal("TURN", 6, 8, "signed", "step = 10\n") + signal("CODE", 7, 32, "dtc")
            + signal("KEY", 11, 2, "discrete"))).rows
        for row in (["SPEED", "1.1", "16", "measured", "raw / 8", "0 to 8031.875", "rpm"],
                    ["HEAT", "3.1", "16", "measured", "(raw − 8736) / 32", "-273 to 1734.96875", "–"],
                    ["GEAR", "5.1", "4", "states", "raw", "0 to 13", "–"],
                    ["TURN", "6.1", "8", "signed", "10 × raw", "-1280 to 1270", "–"],
                    ["CODE", "7.1", "32", "dtc", "–", "trouble codes", "–"],
                    ["KEY", "11.1", "2", "discrete", "raw", "0 to 1", "–"]):
            self.assertIn(row, rows)

    def test_flows_are_a_matrix(self) -> None:
        rows = self.page(PLAN).rows
        at = next(number for number, row in enumerate(rows) if row[0] == "From")
        matrix = {(row[0], head): cell for row in rows[at + 1:at + 8] for head, cell in zip(rows[at][1:], row[1:])}
        self.assertEqual(matrix["SPRAYER", "to TERMINAL"], "ECU_TO_VT")
        self.assertEqual(matrix["ENGINE", "to all"], "EEC1ET1CCVSEC1")
        self.assertEqual(matrix["CLUSTER", "to ENGINE"], "–")

    def test_needs(self) -> None:
        """Beside each group in the matrix who needs it, and a row a need: who brings it, and its age as `load` has it."""
        text = text_of(example("findings/f20_need_too_old.toml"))
        more = '[[need]]\nunit = "CLUSTER"\ngroup = "EEC1"\nfrom = "ENGINE"\nwithin = 22\n[[need]]\nunit = "ENGINE"\ngroup = "EEC1"\n'
        rows = self.page(self.write("plan.toml", text + more)).rows
        self.assertNotIn("age", [cell for row in rows for cell in row])
        self.assertIn(["ENGINE", "EEC1 for CLUSTER"], rows)
        self.assertEqual([row for row in rows if row[0] in "123" and len(row) == 8], [
            ["1", "CLUSTER", "EEC1", "–", "any unit", "ENGINE", "21 ms", "21.28 ms, too old"],
            ["2", "CLUSTER", "EEC1", "–", "ENGINE", "ENGINE", "22 ms", "21.28 ms"],
            ["3", "ENGINE", "EEC1", "–", "any unit", "nobody", "–", "–"]])
        rows = self.page(self.write("plan.toml", text + more.partition("[[need]]\nunit = \"ENGINE\"")[0])).rows
        self.assertEqual([row[7] for row in rows if row[0] in "12" and len(row) == 8], ["21.28 ms, too old", "21.28 ms"])
        self.assertNotIn('id="needs"', run("report.py", PLAN)[1])

    def test_units_of_any_serial_number(self) -> None:
        """`any` for the number, and a NAME without the digits that have bits of it."""
        rows = self.page(example("first_plan.toml")).rows
        self.assertIn(["CLUSTER", "0000130026......", "any", "310", "0", "0", "19", "0", "0", "0"], rows)

    def test_requests_names_and_units_that_come_or_never_claim(self) -> None:
        """A row a request with who answers it; the numbers and names of signals; and what is said of units."""
        text = text_of(example("service_requests.toml")).replace("version = 4\n", "version = 4\nstrangers = 2\n")
        name = self.write("plan.toml", text)
        rows = self.page(name).rows
        for row in (["1", "VI", "TOOL", "ENGINE", "ENGINE", "–"], ["3", "ERC1", "TOOL", "RETARDER", "RETARDER", "–"],
                    ["SPN900", "1.1", "4", "states", "raw", "0 to 13", "–", "900", "0 low_idle_governor1 operator2 cruise_control"],
                    ["AXLE_SENSOR", "46", "in every run, and never claims it", "fixed", "–", "255"],
                    ["ENGINE", "HOURS on request", "VI on request"]):
            self.assertIn(row, rows)
        self.assertIn("stand in no plan, and may choose their addresses: up to 2.", run("report.py", name)[1])

    def test_lines_of_load(self) -> None:
        """Each form: of one frame, of long messages without and with a time, and of needs."""
        for line, delay in (
            ("flow 1 G A all within 1280 of 10000 us", Delay(1, 1280, 10000, 1)), ("flow 2 G A B late of 10000 us", Delay(2, None, 10000, 1)),
            ("flow 3 G A all frames 7", Delay(3, None, None, 7)), ("flow 4 G A all frames 7 whole within 605760 us", Delay(4, 605760, None, 7)),
            ("flow 5 G A all frames 7 whole within 605760 of 700000 us", Delay(5, 605760, 700000, 7)),
            ("flow 6 G A all frames 7 late of 600000 us", Delay(6, None, 600000, 7)),
            ("flow 7 G A all late 2560 of 2000 us", Delay(7, None, 2000, 1, 2560)),
            ("flow 8 G A all frames 7 late 605760 of 605000 us", Delay(8, None, 605000, 7, 605760)),
        ):
            self.assertEqual(answers.delay_of(line_of(line)), delay)
        self.assertEqual(answers.age_of(line_of("need 1 B G age 21280 of 22000 us")), Age(1, 21280, 22000))
        self.assertEqual(answers.age_of(line_of("need 2 B G S old of 21000 us")), Age(2, None, 21000))
        self.assertEqual(answers.age_of(line_of("need 3 B G old 21280 of 21000 us")), Age(3, None, 21000, 21280))

    def test_load(self) -> None:
        """The delays and the load are those that `load` prints; a plan that says nothing of the bus has no such section."""
        for name in ("axle.toml", "findings/f17_overload.toml", "findings/f18_late_flow.toml"):
            answer = program.call(["load", example(name)])[1]
            rows = {int(row[0]): row for row in self.page(example(name)).rows if len(row) == 9 and row[0].isdigit()}
            for number, word, first, last in re.findall(r"^flow (\d+) .* (within|late)(?: (\d+))? of (\d+) us$", answer, re.MULTILINE):
                shown = rows.pop(int(number))[6:8]
                self.assertEqual(shown[1], f"{int(last) / 1000:g} ms")
                time = f"{int(first) / 1000:g} ms" if first else "not shown to be in time"
                self.assertEqual(shown[0], f"{time}, late" if first and word == "late" else time)
            self.assertEqual(rows, {})
        self.assertIn("32160 of 250000 bits a second at most, 12.9 % of the bitrate.</p>", run("report.py", example("axle.toml"))[1])
        full = "256000 of 250000 bits a second at most, 102.4 % of the bitrate. <strong>That is more than the bus carries.</strong>"
        self.assertIn(full, run("report.py", example("findings/f17_overload.toml"))[1])
        self.assertNotIn('id="load"', run("report.py", PLAN)[1])

    def test_what_a_flow_takes_of_the_bus(self) -> None:
        """Its own bits of a second beside the load of all, and the delay beside its limit; neither is called by the other's name."""
        rows = self.page(example("axle.toml")).rows
        self.assertIn(["Flow", "Group", "From", "To", "Period", "Bus load", "On the bus within", "Limit", "Of its limit"], rows)
        self.assertIn(["1", "TSC1", "RETARDER", "ENGINE", "10 ms", "6.40 %", "1.28 ms", "10 ms", "12.8 %"], rows)
        self.assertIn(["3", "ET1", "ENGINE", "all", "1000 ms", "0.06 %", "3.2 ms", "50 ms", "6.4 %"], rows)

    def test_what_the_times_rest_on(self) -> None:
        """What else comes on the bus, who keeps no order, and by how much flows are late or pause; by default where the plan is silent."""
        text = text_of(example("axle.toml"))
        rows = self.page(self.write("silent.toml", text)).rows
        for row in (["Priority of the transport protocol", "7"], ["Between packets to all", "50 to 200 ms"], ["Damaged frames", "none"],
                    ["Controllers that keep no order of priority", "none"]):
            self.assertIn(row, rows)
        timing = "unplanned = 3\nunplanned_priority = 4\ntransport_priority = 5\nbroadcast_gap = 60\nbroadcast_gap_most = 90\nerrors = { count = 2, every = 100 }"
        told = re.sub("unplanned = .*", timing, re.sub(r"version = \d", "version = 4", text), count=1)
        told = told.replace('label = "ENGINE"', 'label = "ENGINE"\nqueue = "any"', 1).replace("period = 10\n", "period = 10\njitter = 2\npause = 30\n", 1)
        rows = self.page(self.write("told.toml", told)).rows
        for row in (["Unplanned frames that may go before a planned one", "3, of priority 4 to 7"], ["Priority of the transport protocol", "5"],
                    ["Between packets to all", "60 to 90 ms"], ["Damaged frames", "2 in 100 ms at most"], ["Controllers that keep no order of priority", "ENGINE"]):
            self.assertIn(row, rows)
        self.assertEqual([row[4:7] for row in rows if row[:2] == ["1", "TSC1"]], [["10 ms", "2 ms", "30 ms"]])

    def test_load_of_other_plans(self) -> None:
        """A long message has no bound, nor has a flow without a period; findings on identifiers leave the load unknown; a plan without flows takes nothing."""
        text = text_of(example("axle.toml"))
        text_of_long = text.replace("pgn = 65262\npriority = 6\nlength = 8", "pgn = 65262\npriority = 6\nlength = 39")
        long = self.page(self.write("long.toml", text_of_long.replace('group = "ET1"\nfrom = "ENGINE"\nto = "all"', 'group = "ET1"\nfrom = "ENGINE"\nto = "RETARDER"')))
        self.assertIn(["3", "ET1", "ENGINE", "RETARDER", "1000 ms", "0.58 %", "no bound: 9 frames a message", "–", "–"], long.rows)
        unfinished = self.page(example("findings/f16_no_period.toml"))
        self.assertIn(["1", "EEC1", "ENGINE", "all", "10 ms", "6.40 %", "1.28 ms", "10 ms", "12.8 %"], unfinished.rows)
        self.assertIn(["2", "ET1", "ENGINE", "all", "–", "–", "no period", "–", "–"], unfinished.rows)
        twice = self.write("twice.toml", text.replace("pgn = 65262", "pgn = 61444"))
        self.page(twice)
        self.assertIn("Not known: addresses or identifiers have findings", run("report.py", twice)[1])
        bare = self.write("bare.toml", "version = 3\n[timing]\nbitrate = 500000\nunplanned = 0\n")
        self.page(bare)
        self.assertIn("0 of 500000 bits a second at most, 0.0 % of the bitrate.</p>", run("report.py", bare)[1])

    def test_a_plan_of_the_greatest_size(self) -> None:
        plan = self.write("plan.toml", large_plan())
        rows = self.page(plan).rows
        self.assertEqual(sum(row[0] == "Byte" for row in rows), 256)
        self.assertIn(["U127", "127", "in every run", "fixed", "–", "255"], rows)

    def test_a_plan_with_nothing_in_it(self) -> None:
        self.page(self.write("plan.toml", "version = 1\n"))

    def test_names_of_files_are_no_part_of_the_page(self) -> None:
        name = self.write("<script>alert(1)</script>&.toml".replace("/", "_"), text_of(FAULTY))
        self.assertNotIn("<script>", run("report.py", name)[1])
        self.page(name)

    def test_a_file_is_written_only_where_the_plan_can_be_read(self) -> None:
        name = self.path("page.html")
        self.assertEqual(run("report.py", PLAN, "-o", name), (0, "", ""))
        self.assertEqual(text_of(name), run("report.py", PLAN)[1])
        refused = self.write("plan.toml", "version = 9\n")
        self.assertEqual(run("report.py", refused, "-o", name), (2, "", f"report: {refused}:1: refused Range top key version  (version = 9: integer 1..4)\n"))
        self.assertEqual(text_of(name), run("report.py", PLAN)[1])
        self.assertEqual(run("report.py", PLAN, "-o", "/none/page.html")[0], 4)

    @unittest.skipUnless(shutil.which("tidy"), "tidy isn't there: apt-get install tidy")
    def test_tidy_has_nothing_to_say(self) -> None:
        for plan in (*plans(), self.write("plan.toml", large_plan(20, 30)), os.path.join(CHECKS, "f06_later_kinds.toml")):
            page = self.write("page.html", run("report.py", plan)[1])
            said = subprocess.run(["tidy", "-q", "-e", page], capture_output=True, text=True, check=False)
            self.assertEqual((said.returncode, said.stderr), (0, ""), plan)


@unittest.skipUnless(shutil.which("chromium"), "chromium isn't there: apt-get install chromium")
class Browser(InFolder):
    def shown(self, page: str, *words: str) -> tuple[list[str], str]:
        """What a browser says of a page: the lines of its console, and what it was asked to write."""
        command = ["chromium", "--headless", "--no-sandbox", "--disable-gpu", "--disable-dev-shm-usage", "--enable-logging=stderr",
                   f"--user-data-dir={self.path('user')}", *words, f"file://{page}"]
        ended = subprocess.run(command, stdin=subprocess.DEVNULL, capture_output=True, text=True, check=True, timeout=120)
        return [line for line in ended.stderr.splitlines() if "CONSOLE" in line], ended.stdout

    def test_a_browser_shows_pages_without_a_word(self) -> None:
        for plan in (PLAN, FAULTY):
            page, picture = self.write("page.html", run("report.py", plan)[1]), self.path("page.png")
            console, _ = self.shown(page, f"--screenshot={picture}", "--window-size=1000,1400")
            self.assertEqual(console, [], plan)
            self.assertGreater(os.path.getsize(picture), 20000)

    def test_a_browser_reads_what_was_written(self) -> None:
        """The document that it has is the one that was written: it had to mend nothing."""
        text = run("report.py", PLAN)[1]
        _, document = self.shown(self.write("page.html", text), "--dump-dom")
        self.assertEqual(re.findall(r"<(\w+)", document), re.findall(r"<(\w+)", text))

    def test_a_narrow_screen_scrolls_tables_alone(self) -> None:
        """The page itself fits, also where the file's name is long, and the bits of a byte are equally wide, also where labels are long."""
        plan = self.write(f"{'a_long_name_' * 8}.toml", NARROW)
        self.write("page.html", run("report.py", plan)[1])
        frame = self.write("frame.html", FRAME)
        console, document = self.shown(frame, "--allow-file-access-from-files", "--dump-dom", "--virtual-time-budget=5000")
        self.assertEqual(console, [])
        widths = [int(width) for width in there(re.search(r"<title>(.*)</title>", document)).group(1).split()]
        self.assertLessEqual(widths[0], 400)
        self.assertLessEqual(max(widths[1:]) - min(widths[1:]), 2)
        self.assertEqual(len(widths), 9)

    def test_a_faulty_page_is_told(self) -> None:
        page = run("report.py", PLAN)[1].replace("</main>", "<script>alert(1)</script></main>")
        self.assertNotEqual(self.shown(self.write("page.html", page), "--dump-dom")[0], [])


if __name__ == "__main__":
    unittest.main()
