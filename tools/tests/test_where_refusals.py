"""Where the refusals of plans belong, and the hints at them."""

import glob
import os
import re
import unittest

from j39plan import program
from j39plan.cli import where
from j39plan.plan import answer_places
from tests.support import MARKED, NEWER, TOP, answered, example, run, shown_refusals, text_of, there
from tests.where_answers import WhereAnswers, first_of

CASES = os.path.join(TOP, "rows")

UNIT = '[[unit]]\nlabel = "{}"\naddress = {}\nname = {{ identity = {} }}\n'


class Refusals(WhereAnswers):
    def test_each_shown_refusal_has_its_line(self) -> None:
        lines = [2, 4, 3, 9, 3, 5, 3, 4, 2, 9]
        shown = shown_refusals()
        self.assertEqual(len(shown), len(lines))
        for (plan, refused), line in zip(shown, lines):
            status, answer = self.answer(plan)
            self.assertEqual((status, len(answer)), (2, 1))
            self.assertTrue(answer[0].startswith(f"{line}: {refused.strip()}"), answer)

    def test_each_refusal_of_the_cases_has_its_line_and_a_hint(self) -> None:
        """Those of all keys; where a key is named the line is that of the key, else that of its table."""
        plans = sorted(glob.glob(os.path.join(CASES, "refusals", "*.toml")))
        self.assertGreater(len(plans), 100)
        for plan in plans:
            refused = text_of(plan[:-5] + ".check").strip()
            with open(plan, "rb") as file:
                lines = file.read().decode(errors="replace").split("\n")
            status, answer, said = answered(where.main, plan)
            self.assertEqual((status, said), (2, ""), plan)
            found = re.fullmatch(rf"{re.escape(plan)}:(\d+): {re.escape(refused)}  \((.+)\)", "\n".join(first_of(answer)))
            self.assertIsNotNone(found, answer)
            key = re.search(r" key (\w+)$", refused)
            if key and not refused.startswith(("refused Missing", "refused TooMany")):
                self.assertRegex(lines[int(there(found).group(1)) - 1], rf"\b{key.group(1)}\b", answer)

    def test_a_key_that_was_meant(self) -> None:
        plan = 'version = 1\n[[unit]]\nlabel = "A"\nadress = 1\nname = { identity = 1 }\n'
        self.assertEqual(self.answer(plan)[1], ["4: refused UnknownKey unit 1  (key adress; did you mean address?)"])

    def test_a_key_that_was_begun(self) -> None:
        group = 'version = 1\n[[group]]\nlabel = "G"\npgn = 65262\nprio = 6\nlength = 8\n'
        self.assertEqual(self.answer(group)[1], ["5: refused UnknownKey group 1  (key prio; did you mean priority?)"])
        self.assertEqual(self.answer(group.replace("prio", "pr"))[1], ["5: refused UnknownKey group 1  (key pr isn't listed)"])

    def test_a_word_that_was_meant(self) -> None:
        signal = ('version = 1\n[[group]]\nlabel = "G"\npgn = 65262\npriority = 6\nlength = 8\n'
                  '[[group.signal]]\nlabel = "S"\nbyte = 1\nbits = 8\nkind = "{}"\n')
        wanted = '"measured" or "discrete" or "raw"'
        for word, meant in (("Measured", "measured"), ("mesured", "measured"), ("disc", "discrete")):
            said = f'11: refused Range group 1 signal 1 key kind  (kind = "{word}": {wanted}; did you mean {meant}?)'
            self.assertEqual(self.answer(signal.format(word)), (2, [said]))
        said = f'11: refused Range group 1 signal 1 key kind  (kind = "other": {wanted})'
        self.assertEqual(self.answer(signal.format("other")), (2, [said]))

    def test_all_that_was_meant(self) -> None:
        flow = '[[group]]\nlabel = "G"\npgn = 65262\npriority = 6\nlength = 8\n[[flow]]\ngroup = "G"\nfrom = "%s"\nto = "%s"\n'
        plan = "version = 1\n" + UNIT.format("A", 0, 1) + flow
        said = "14: refused UnknownLabel flow 1 key to  (key to: no unit is called ALL; did you mean all?)"
        self.assertEqual(self.answer(plan % ("A", "ALL")), (2, [said]))
        said = "13: refused UnknownLabel flow 1 key from  (key from: no unit is called ALL)"
        self.assertEqual(self.answer(plan % ("ALL", "all")), (2, [said]))

    def test_fractions_go_into_the_unit(self) -> None:
        signal = ('version = 1\n[[group]]\nlabel = "G"\npgn = 65262\npriority = 6\nlength = 8\n'
                  '[[group.signal]]\nlabel = "S"\nbyte = 1\nbits = 16\nkind = "measured"\n')
        into = "the fraction goes into the unit"
        for keys, line, hint in [
            ('step = 0.125\nunit = "rpm"\n', 12, f'{into}: step = 1, unit = "1/8 rpm"'),
            ("step = 0.125\n", 12, f'{into}: step = 1, unit = "1/8"'),
            ('step = 0.03125\noffset = -273\nunit = "degC"\n', 12, f'{into}: step = 1, offset = -8736, unit = "1/32 degC"'),
            ('step = 2\noffset = -0.5\n', 13, f'{into}: step = 4, offset = -1, unit = "1/2"'),
            ("step = 5e-2\n", 12, f'{into}: step = 1, unit = "1/20"'),
            ("step = 1.0\n", 12, "without a point: step = 1"),
        ]:
            status, answer = self.answer(signal + keys)
            self.assertEqual((status, answer[0].split(": ", 1)[0]), (2, str(line)), answer)
            self.assertTrue(answer[0].endswith(f"; {hint})"), (keys, answer))
        for keys in ("step = nan\n", "step = true\n", "step = 1e999\n", f"step = 0.{'1' * 400}\n"):
            status, answer = self.answer(signal + keys)
            self.assertEqual((status, "; " in answer[0]), (2, False), answer)

    def test_a_key_of_another_table(self) -> None:
        plan = 'version = 1\n[[unit]]\nlabel = "A"\naddress = 1\npgn = 3\nname = { identity = 1 }\n'
        self.assertEqual(self.answer(plan)[1], ["5: refused UnknownKey unit 1  (key pgn belongs to group)"])

    def test_inline_tables_and_arrays(self) -> None:
        plan = (
            "version = 1\n# a comment with [[unit]]\nunit = [\n  { label = \"A\", address = 1, name = { identity = 1 } },\n"
            "  { label = \"B]\", address = 2,\n  name = { identity = 1 } }, # }\n]\n"
        )
        self.assertEqual(self.answer(plan)[1][0].split("  ")[0], "5: refused Range unit 2 key label")

    def test_dotted_keys_and_quoted_ones(self) -> None:
        plan = "version = 1\n[[unit]]\n'label' = 'A'\n\"address\" = 1\nname.identity = 1\nname . manufacturer = 2048\n"
        self.assertEqual(self.answer(plan)[1][0].split("  ")[0], "6: refused Range unit 1 name key manufacturer")

    def test_a_header_in_a_text_is_none(self) -> None:
        signal = '[[group.signal]]\nlabel = "S"\nbyte = 1\nbits = 8\nkind = "raw"\nunit = """[[group]]\n[[x]] """\n'
        plan = 'version = 1\n[[group]]\nlabel = "G"\npgn = 65262\npriority = 8\nlength = 8\n' + signal
        self.assertEqual(self.answer(plan)[1][0].split("  ")[0], "5: refused Range group 1 key priority")

    def test_carriage_returns(self) -> None:
        plan = "version = 1\r\n\r\n" + UNIT.format("A", 254, 1).replace("\n", "\r\n")
        self.assertEqual(self.answer(plan)[1], ["5: refused Range unit 1 key address  (address = 254: integer 0..253; 254 is that of a unit without an address)"])

    def test_too_many(self) -> None:
        plan = "version = 1\n" + "".join(UNIT.format(f"U{n}", n % 100, n) for n in range(129))
        self.assertEqual(self.answer(plan)[1], ["514: refused TooMany top key unit  (key unit: at most 128)"])

    def test_what_only_version_3_knows_of_a_signal(self) -> None:
        signal = ('[[group]]\nlabel = "G"\npgn = 65262\npriority = 6\nlength = 8\n'
                  '[[group.signal]]\nlabel = "S"\nbyte = 1\nbits = 32\nkind = "{}"\n')
        place = "group 1 signal 1"
        for plan, answer in (
            ("version = 2\n" + signal.format("raw") + "per = 8\n", f"12: refused UnknownKey {place}  (key per: only from version = 3 on: write version = 4)"),
            ("version = 2\n" + signal.format("states"),
             f'11: refused Range {place} key kind  (kind = "states": only from version = 3 on: write version = 4)'),
            ("version = 3\n" + signal.format("text"), f'11: refused Range {place} key kind  (kind = "text": '
             '"measured" or "discrete" or "raw" or "states" or "signed" or "dtc"; a text is no signal: write [[group.text]])'),
            ("version = 3\n" + signal.format("raw") + "per = 3\n",
             f"12: refused Range {place} key per  (per = 3: integer 1..10000000, a product of 2s and 5s; 1/3 goes into the unit: per = 1, unit = \"1/3\")"),
            ("version = 3\n" + signal.format("dtc") + "step = 2\n", f"12: refused Range {place} key step  (step = 2: a dtc has no step)"),
            ("version = 3\n" + signal.format("raw") + "step = 0.125\noffset = -0.5\n", f"12: refused WrongType {place} key step  "
             "(step = 0.125: integer 1..1000000; the fraction goes into per: step = 1, offset = -4, per = 8)"),
            ("version = 3\n" + signal.format("raw") + "step = 0.5\nper = 4\n", f"12: refused WrongType {place} key step  "
             "(step = 0.5: integer 1..1000000; the fraction goes into per: step = 1, per = 8)"),
        ):
            self.assertEqual(self.answer(plan), (2, [answer]))

    def test_each_spelling_of_a_version(self) -> None:
        for version in ("2", "0x2", "0b10", "0o2", "+2", "0x0_2"):
            plan = f"version = {version}\nkeep_free = [\n  240, 241,\n  0xF0]\n"
            hint = "(key keep_free: an array of integers 128..247, each once)"
            self.assertEqual(self.answer(plan), (2, [f"4: refused Repeated top key keep_free  {hint}"]))
        for version in ("1", "0x1", "+1"):
            hint = "(key keep_free: only from version = 2 on: write version = 4)"
            self.assertEqual(self.answer(f"version = {version}\nkeep_free = []\n"), (2, [f"2: refused UnknownKey top  {hint}"]))

    def test_a_byte_order_mark(self) -> None:
        plan = "\ufeffversion = 1\n\n" + UNIT.format("A", 254, 1)
        self.assertEqual(self.answer(plan), (2, ["5: refused Range unit 1 key address  (address = 254: integer 0..253; 254 is that of a unit without an address)"]))
        status, answer = self.answer(plan.replace("254", "x"))
        self.assertEqual((status, answer), (2, ["5: refused Text  (address = x: an integer is wanted)"]))

    def test_what_toml_1_1_allows_is_no_fault(self) -> None:
        for plan in (NEWER, MARKED):
            self.assertEqual(self.answer(plan)[1], ["ok 2 units 1 groups 1 flows"])
            line = plan.split("ET1")[0].count("\n") + 1
            status, answer = self.answer(plan.replace("ET1", "E-1"))
            self.assertEqual((status, answer[0].split("  ")[0]), (2, f"{line}: refused Range group 1 key label"))
            self.assertEqual(self.answer(plan + "x = \n")[1][0].split("  ")[0], f"{plan.count(chr(10)) + 1}: refused Text")

    def test_a_statement_of_toml_1_1_with_a_fault(self) -> None:
        """What is wrong in it can't be told from what TOML 1.0 doesn't have: the line is that of its beginning."""
        for fault, line, hint in [
            ("address = x", 3, ""), ("address = 01", 3, ""), ("address = 1, address = 2", 3, ""), ("label = 'B'", 3, ""),
            ("address = 9223372036854775808", 6, "  (an integer beyond 64 bits)"),
        ]:
            plan = f"version = 1\ngroup = []\nunit = [{{\n  label = 'A',\n  name = {{ identity = 1, }},\n  {fault},\n}}]\n"
            self.assertEqual(self.answer(plan), (2, [f"{line}: refused Text{hint}"]), fault)

    def test_integers_beyond_64_bits(self) -> None:
        for number in ("99999999999999999999", "-9223372036854775809", "0x1_0000_0000_0000_0000", "9" * 5000):
            plan = f"version = 1\n[[unit]]\nlabel = 'A'\naddress = {number}\nname = {{ identity = 1 }}\n"
            self.assertEqual(self.answer(plan), (2, ["4: refused Text  (an integer beyond 64 bits)"]))
        plan = "version = 2\nkeep_free = [\n  240,\n  9999999999999999999,\n]\n"
        self.assertEqual(self.answer(plan), (2, ["4: refused Text  (an integer beyond 64 bits)"]))

    def test_faults_that_only_the_program_knows(self) -> None:
        for fault in ("1e400", "[" * 2000 + "]" * 2000):
            self.assertEqual(self.answer(f"version = 1\nx = 1\ny = {fault}\nz = 2\n"), (2, ["3: refused Text"]))

    def test_a_key_that_is_given_twice(self) -> None:
        hint = "(key address stands at line 3 too)"
        self.assertEqual(self.answer("version = 1\n[[unit]]\naddress = 1\nlabel = 'A'\naddress = 2\nx = 1\n"),
                         (2, [f"5: refused Text  {hint}"]))

    def test_bytes_that_are_no_text(self) -> None:
        with open(self.path("plan.toml"), "wb") as file:
            file.write(b'version = 1\n[[unit]]\nlabel = "\xb0"\n')
        status, answer, _ = run("where.py", self.path("plan.toml"))
        self.assertEqual((status, answer.split(":", 1)[1]), (2, "3: refused Text  (byte B0 is no UTF-8, ° by Windows-1252: save the file as UTF-8)\n"))

    def test_every_fault_has_a_line(self) -> None:
        """Each line of a plan is left out, doubled and cut in turn: the answers stay, and their lines are in the file."""
        lines = text_of(example("findings/several.toml")).splitlines(keepends=True)
        for at, line in enumerate(lines):
            for instead in ("", line + line, line[: len(line) // 2] + "\n", line.replace(" = ", "x = "), line.replace("1", "-1")):
                text = "".join(lines[:at] + [instead] + lines[at + 1:])
                name = self.write("plan.toml", text)
                status, answer = program.call(["check", name])
                shown = list(where.annotate("P", answer_places.placed(text.encode(), answer), where.compiler_message))
                self.assertEqual([part.split(": ", 1)[-1].split("  (")[0] for part in shown], answer.splitlines())
                for part in shown:
                    if found := re.match(r"P:(\d+): ", part):
                        self.assertLessEqual(int(found.group(1)), text.count("\n") + 1)
                    else:
                        self.assertRegex(part, r"ok |findings |  \w")


if __name__ == "__main__":
    unittest.main()
